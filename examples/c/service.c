/* Lines of text from the service cable. They come in pieces, cut anywhere: each line is answered when its newline is there, and one that
   reads is added; each is written back in its plain form, and at the end the whole layout is, out of the solver. `make run` in this folder
   builds the archive, builds this against it and runs it. */
#include "knobharbor.h"
#include <stdio.h>
#include <stdlib.h>
#include <string.h>

static knobharbor_tables screen, typed, copy, room;
static const char *const lines[] = {
    "v1 = 5", "2*(v1 + 3) <= v2", "v1<0", "", "v3 - v2 >= 40", "v1 = 6", "v2 = 30 @ 1000, 2", "v3=0@1000", "v3=0@1001001001,2", "v3=0@1,0",
};
enum { LINES = sizeof lines / sizeof lines[0] };

/* Says what was expected, and stops the program if it did not come. */
static void expect(bool held, const char *what)
{
    if (!held) {
        printf("not as expected: %s\n", what);
        exit(1);
    }
}

/* The line's own number, or that of its add. */
static uint32_t hear(const knobharbor_line *line, uint32_t number)
{
    if (line->number != KNOBHARBOR_ACCEPTED)
        return line->number;
    return kh_add_line(&screen, &room, number, line, 100).number;
}

/* All lines and the beginning of another, in pieces of `longest` bytes; then the cable is closed. */
static void listen(const uint8_t *sent, size_t length, size_t longest, bool tell)
{
    knobharbor_cable cable = { { 0 } };
    knobharbor_line line;
    uint32_t number = 0;
    kh_reset(&screen);
    for (size_t at = 0; at < length; at += longest) {
        const uint8_t *piece = sent + at;
        size_t left = length - at < longest ? length - at : longest;
        while (kh_cable_take(&cable, &piece, &left, &line)) {
            uint32_t answer = hear(&line, ++number);
            if (tell)
                printf("%-18s %s (%u)\n", lines[number - 1], kh_words(answer), (unsigned)answer);
        }
    }
    expect(number == LINES, "each line is answered, however the bytes are cut");
    expect(kh_cable_close(&cable, &line) && line.number == KNOBHARBOR_LINE_UNENDED, "the line that had begun is refused");
    expect(!kh_cable_close(&cable, &line), "the reader is as new");
    expect(memcmp(&screen, &typed, sizeof screen) == 0, "the tables are those of the lines added one by one");
}

/* The line as it is written; and what is written reads as the line does, and is its own plain line. */
static void write_back(const knobharbor_line *line)
{
    uint8_t plain[KNOBHARBOR_LINE_BUFFER + 1] = { 0 }, again[KNOBHARBOR_LINE_BUFFER];
    knobharbor_line read;
    expect(kh_write_line(plain, line) == KNOBHARBOR_ACCEPTED, "a line that reads can be written");
    size_t length = strlen((const char *)plain);
    expect(kh_read_line(plain, length, &read) == KNOBHARBOR_ACCEPTED, "what is written reads");
    expect(read.kind == line->kind && read.strength == line->strength && read.group == line->group && read.constant == line->constant
               && read.count == line->count && memcmp(read.variables, line->variables, sizeof read.variables) == 0
               && memcmp(read.coefficients, line->coefficients, sizeof read.coefficients) == 0,
           "reading what is written gives the constraint back");
    expect(kh_write_line(again, &read) == KNOBHARBOR_ACCEPTED && memcmp(plain, again, sizeof again) == 0, "a plain line is written again");
    printf("%s\n", (const char *)plain);
}

/* The layout number by number: each constraint that stands is written as its line, and added to another screen from there. */
static void write_layout(void)
{
    knobharbor_line shown, read;
    kh_reset(&copy);
    for (uint32_t number = 0; number <= LINES + 1; number++) {
        uint8_t plain[KNOBHARBOR_LINE_BUFFER + 1] = { 0 };
        uint32_t answer = kh_show(&screen, number, &shown);
        expect(answer == (kh_has_constraint(&screen, number) ? KNOBHARBOR_ACCEPTED : KNOBHARBOR_NO_CONSTRAINT), "the live ones are shown");
        if (answer != KNOBHARBOR_ACCEPTED)
            continue;
        expect(kh_write_line(plain, &shown) == KNOBHARBOR_ACCEPTED, "a constraint that came as a line can be written");
        expect(kh_read_line(plain, strlen((const char *)plain), &read) == KNOBHARBOR_ACCEPTED, "and reads again");
        expect(kh_add_line(&copy, &room, number, &read, 100).number == KNOBHARBOR_ACCEPTED, "and can be added");
        printf("%u: %s\n", (unsigned)number, (const char *)plain);
    }
    expect(memcmp(&screen, &copy, sizeof screen) == 0, "the screen that was added from the lines is the same");
}

int main(void)
{
    uint8_t sent[256];
    size_t length = 0;
    knobharbor_line line;
    kh_reset(&typed);
    for (uint32_t i = 0; i < LINES; i++) {
        size_t n = strlen(lines[i]);
        memcpy(sent + length, lines[i], n);
        if (kh_read_line(sent + length, n, &line) == KNOBHARBOR_ACCEPTED) {
            kh_add_line(&typed, &room, i + 1, &line, 100);
            write_back(&line);
        }
        length += n;
        sent[length++] = '\n';
    }
    sent[length++] = 'v';
    listen(sent, length, 7, true);
    for (size_t longest = 1; longest <= length; longest++)
        listen(sent, length, longest, false);
    write_layout();
    expect(kh_value(&screen, 1) == 5 && kh_value(&screen, 2) == 30 && kh_value(&screen, 3) == 70, "each pane's edge has its place");
    printf("all as expected\n");
    return 0;
}
