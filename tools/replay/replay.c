/* The recorded vectors (crates/session/stdin and stdout) through the archive, on the target itself: each call is made by its C
   name, and its answer is written as the program session writes it and held to the recorded one. Then a signalling NaN and its
   like, as strengths of an edit, and two lines of text. Prints how many answers differ, and how deep the stack went. */
#include "knobharbor.h"
#include "stack.h"
#include <stdio.h>
#include <stdlib.h>
#include <string.h>

extern const char calls[], calls_end[], answers[], answers_end[];

static knobharbor_tables screen, room;
static char call[8192], want[8192], got[2048];
static char *word[2100]; /* a line has 4,096 bytes at most */
static int words;
static unsigned long deepest[9];

static double of(uint64_t bits)
{
    double x;
    memcpy(&x, &bits, sizeof x);
    return x;
}

/* a NaN is written as the one that the session writes */
static uint64_t bits(double x)
{
    uint64_t b;
    memcpy(&b, &x, sizeof b);
    return x != x ? UINT64_C(0x7ff8000000000000) : b;
}

/* the 16 digits of its bits, without the C library's word for 64 bits, which small libraries lack */
static int digits(char *out, double x)
{
    uint64_t b = bits(x);
    return sprintf(out, "%08lx%08lx", (unsigned long)(b >> 32), (unsigned long)(b & 0xffffffffu));
}

static double number(const char *s)
{
    if (strcmp(s, "inf") == 0)
        return of(UINT64_C(0x7ff0000000000000));
    if (strcmp(s, "-inf") == 0)
        return of(UINT64_C(0xfff0000000000000));
    if (strcmp(s, "nan") == 0)
        return of(UINT64_C(0x7ff8000000000000));
    if (strcmp(s, "req") == 0)
        return KNOBHARBOR_REQUIRED;
    if (s[0] == '0' && s[1] == 'x')
        return of(strtoull(s + 2, NULL, 16));
    return s[0] == '-' ? -(double)strtoull(s + 1, NULL, 10) : (double)strtoull(s, NULL, 10);
}

static uint32_t whole(int i)
{
    return (uint32_t)strtoul(word[i], NULL, 10);
}

static uint16_t budget(int i)
{
    return (uint16_t)strtoul(word[i], NULL, 10);
}

static uint16_t group_of(int i)
{
    return budget(i);
}

static void note(int kind, unsigned long depth)
{
    if (depth > deepest[kind])
        deepest[kind] = depth;
}

static void answered(knobharbor_answer a)
{
    sprintf(got, "%lu %lu %d", (unsigned long)a.number, (unsigned long)a.pivots, a.whole);
}

/* by its two C names in turn: the terms as records, and as two lists */
static void add(void)
{
    static knobharbor_term terms[1040];
    static uint32_t vars[1040];
    static double coefs[1040];
    static bool lists;
    int grouped = strcmp(word[0], "addg") == 0; /* the group stands before the rest */
    uint16_t group = grouped ? group_of(1) : KNOBHARBOR_USUAL_GROUP;
    size_t count = whole(6 + grouped);
    char relation = word[3 + grouped][0];
    knobharbor_kind kind = relation == 'l' ? KNOBHARBOR_AT_MOST : relation == 'e' ? KNOBHARBOR_EQUAL : KNOBHARBOR_AT_LEAST;
    knobharbor_answer a;
    for (size_t i = 0; i < count; i++) {
        terms[i].variable = vars[i] = whole(7 + grouped + 2 * (int)i);
        terms[i].coefficient = coefs[i] = number(word[8 + grouped + 2 * (int)i]);
    }
    lists = !lists;
    double constant = number(word[5 + grouped]), strength = number(word[4 + grouped]);
    paint();
    if (lists)
        a = kh_add_lists(&screen, &room, group, whole(1 + grouped), vars, coefs, count, constant, kind, strength, budget(2 + grouped));
    else
        a = kh_add(&screen, &room, group, whole(1 + grouped), terms, count, constant, kind, strength, budget(2 + grouped));
    note(0, depth());
    answered(a);
}

static void change(void)
{
    knobharbor_answer a;
    paint();
    if (strcmp(word[0], "reset") == 0)
        a = words == 1 ? kh_reset(&screen) : kh_reset_with_cutoff(&screen, number(word[1])), note(1, depth());
    else if (strcmp(word[0], "remove") == 0)
        a = kh_remove(&screen, &room, whole(1), budget(2)), note(2, depth());
    else if (strcmp(word[0], "drop") == 0)
        a = kh_drop(&screen, &room, group_of(1), budget(2)), note(8, depth());
    else if (strcmp(word[0], "addedit") == 0)
        a = kh_add_edit(&screen, &room, whole(1), number(word[2]), budget(3)), note(3, depth());
    else if (strcmp(word[0], "removeedit") == 0)
        a = kh_remove_edit(&screen, &room, whole(1), budget(2)), note(4, depth());
    else
        a = kh_suggest(&screen, &room, whole(1), number(word[2]), budget(3)), note(5, depth());
    answered(a);
}

static void fetch(void)
{
    static knobharbor_changes changes;
    paint();
    knobharbor_fetched f = kh_fetch(&screen, &changes);
    note(6, depth());
    int at = sprintf(got, "%lu", (unsigned long)f.count);
    for (uint32_t i = 0; i < f.count; i++) {
        at += sprintf(got + at, " %lu:", (unsigned long)changes.numbers[i]);
        at += changes.gone[i] ? sprintf(got + at, "gone") : digits(got + at, changes.values[i]);
    }
}

/* a live constraint as it was added */
static void show(void)
{
    static knobharbor_line shown;
    if (kh_show(&screen, whole(1), &shown) != KNOBHARBOR_ACCEPTED) {
        sprintf(got, "no %lu", (unsigned long)shown.number);
        return;
    }
    int at = sprintf(got, "%s 0x", shown.kind == KNOBHARBOR_AT_MOST ? "le" : shown.kind == KNOBHARBOR_EQUAL ? "eq" : "ge");
    at += digits(got + at, shown.strength);
    at += sprintf(got + at, " %u 0x", (unsigned)shown.group);
    at += digits(got + at, shown.constant);
    at += sprintf(got + at, " %lu", (unsigned long)shown.count);
    for (size_t i = 0; i < shown.count; i++) {
        at += sprintf(got + at, " %lu 0x", (unsigned long)shown.variables[i]);
        at += digits(got + at, shown.coefficients[i]);
    }
}

static void ask(void)
{
    if (strcmp(word[0], "hascon") == 0)
        sprintf(got, "%d", kh_has_constraint(&screen, whole(1)));
    else if (strcmp(word[0], "hasedit") == 0)
        sprintf(got, "%d", kh_has_edit(&screen, whole(1)));
    else {
        double x;
        paint();
        if (strcmp(word[0], "value") == 0)
            x = kh_value(&screen, whole(1)), note(7, depth());
        else if (strcmp(word[0], "create") == 0)
            x = knobharbor_strength_create(number(word[1]), number(word[2]), number(word[3]), number(word[4]));
        else
            x = knobharbor_strength_clip(number(word[1]));
        digits(got, x);
    }
}

static void make(void)
{
    if (strcmp(word[0], "add") == 0 || strcmp(word[0], "addg") == 0)
        add();
    else if (strcmp(word[0], "fetch") == 0)
        fetch();
    else if (strcmp(word[0], "show") == 0)
        show();
    else if (strchr("hvc", word[0][0]) != NULL)
        ask();
    else
        change();
}

static const char *line(const char *at, const char *end, char *out, size_t room_for)
{
    size_t n = 0;
    for (; at < end && *at != '\n'; at++)
        if (n + 1 < room_for)
            out[n++] = *at;
    out[n] = 0;
    return at < end ? at + 1 : at;
}

static unsigned long replay(void)
{
    unsigned long made = 0, skipped = 0, differ = 0;
    const char *c = calls, *a = answers;
    kh_reset(&screen);
    while (c < calls_end) {
        c = line(c, calls_end, call, sizeof call);
        a = line(a, answers_end, want, sizeof want);
        /* a line that is no call is for the program's reader, and changes nothing */
        if (strcmp(want, "?") == 0) {
            skipped++;
            continue;
        }
        words = 0;
        for (char *w = strtok(call, " "); w != NULL && words < 2100; w = strtok(NULL, " "))
            word[words++] = w;
        made++;
        make();
        if (strcmp(got, want) != 0 && differ++ < 5)
            printf("call %lu, %s: got %s, recorded %s\n", made, word[0], got, want);
    }
    if (a < answers_end)
        differ++, printf("answers are left over\n");
    printf("replay: %lu calls, %lu lines that are none, %lu differ\n", made, skipped, differ);
    return differ;
}

/* an edit's strength that is a NaN, quiet or signalling, clips to required, which an edit cannot be: 7 */
static unsigned long nans(void)
{
    static const uint64_t nan[4] = { UINT64_C(0x7ff8000000000000), UINT64_C(0x7ff0000000000001), UINT64_C(0xfff8000000000001),
                                     UINT64_C(0xfff0000000000001) };
    unsigned long wrong = 0;
    printf("an edit at NaN strength:");
    for (int i = 0; i < 4; i++) {
        kh_reset(&screen);
        knobharbor_answer a = kh_add_edit(&screen, &room, 1, of(nan[i]), 20);
        bool right = a.number == 7 && bits(knobharbor_strength_clip(of(nan[i]))) == bits(KNOBHARBOR_REQUIRED)
            && bits(knobharbor_strength_create(of(nan[i]), 0, 0, 1)) == 0 && !kh_has_edit(&screen, 1);
        printf(" %lu", (unsigned long)a.number);
        wrong += !right;
    }
    printf("\n");
    return wrong;
}

/* lines of text, which no vector has: one that is added, one that leaves the grammar behind byte 3 */
static unsigned long lines(void)
{
    static const char added[] = "2*(v1 + 3) = v2 + 40", unread[] = "v1<";
    kh_reset(&screen);
    knobharbor_text_answer a = kh_add_text(&screen, &room, 1, (const uint8_t *)added, sizeof added - 1, 20);
    knobharbor_text_answer b = kh_add_text(&screen, &room, 2, (const uint8_t *)unread, sizeof unread - 1, 20);
    bool right = a.number == 0 && a.pivots == 0 && a.offset == 0 && kh_has_constraint(&screen, 1) && kh_value(&screen, 1) == 17
        && b.number == KNOBHARBOR_LINE_UNREAD && b.pivots == 0 && b.offset == 3 && !kh_has_constraint(&screen, 2);
    printf("lines of text: %lu, %lu at %lu\n", (unsigned long)a.number, (unsigned long)b.number, (unsigned long)b.offset);
    return !right;
}

int main(void)
{
    unsigned long differ = replay(), wrong = nans() + lines();
    printf("deepest stack: add %lu, reset %lu, remove %lu, add edit %lu, remove edit %lu, suggest %lu, fetch %lu, value %lu, drop %lu bytes\n", deepest[0],
           deepest[1], deepest[2], deepest[3], deepest[4], deepest[5], deepest[6], deepest[7], deepest[8]);
    printf("tables: %lu bytes, and as many for the room\n", (unsigned long)sizeof screen);
    return differ != 0 || wrong != 0;
}
