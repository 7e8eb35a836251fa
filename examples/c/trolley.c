/* The trolley's screen, six panes side by side: edge 1 is the left one, edge 7 the right one. The same calls as
   examples/trolley.txt, then a width that is given up, a grip that goes and a pane that closes. `make run` in this folder builds the archive, builds this
   against it and runs it; from the repository's root, `make -C examples/c run`. */
#include "knobharbor.h"
#include <stdio.h>
#include <stdlib.h>
#include <string.h>

static knobharbor_tables screen, before, room;
static const knobharbor_tables zero;

/* Says what was expected, and stops the program if it did not come. */
static void expect(bool held, const char *what)
{
    if (!held) {
        printf("not as expected: %s\n", what);
        exit(1);
    }
}

static double edge(uint32_t variable)
{
    return kh_value(&screen, variable);
}

static void show(const char *what, knobharbor_answer a)
{
    printf("%-28s %s (%u), %u pivots, %s: edges", what, kh_words(a.number), (unsigned)a.number, (unsigned)a.pivots, a.whole ? "whole" : "not whole");
    for (uint32_t v = 1; v <= 7; v++)
        printf(" %g", edge(v) + 0.0); /* a value may be -0.0 */
    printf("\n");
    expect(memcmp(&room, &zero, sizeof room) == 0, "the working room is all zero after every call");
}

/* the screen's own constraint, and those of the pane at the right of this edge, are groups */
enum { FRAME = 1 };
static uint16_t group_of(uint32_t left)
{
    return (uint16_t)(FRAME + left);
}

/* right edge minus left edge, minus the width, is `kind` zero */
static void pane(uint32_t number, uint32_t left, double width, knobharbor_kind kind, double strength)
{
    const knobharbor_term width_of[2] = { { left + 1, 1.0 }, { left, -1.0 } };
    knobharbor_answer a = kh_add(&screen, &room, group_of(left), number, width_of, 2, -width, kind, strength, 20);
    expect(a.number == KNOBHARBOR_ACCEPTED, "a pane is added");
}

static knobharbor_answer drag(uint32_t variable, double to, uint16_t budget)
{
    return kh_suggest(&screen, &room, variable, to, budget);
}

static void lay_out(void)
{
    static const double least[6] = { 40, 40, 60, 60, 40, 40 };
    static const double liked[6] = { 160, 160, 240, 240, 120, 120 };
    static const double strength[6] = { 1, 1, 10, 10, 1, 1 };
    const knobharbor_term first = { 1, 1.0 };
    knobharbor_answer a = kh_add(&screen, &room, FRAME, 1, &first, 1, 0.0, KNOBHARBOR_EQUAL, KNOBHARBOR_REQUIRED, 20);
    expect(a.number == KNOBHARBOR_ACCEPTED, "the left edge is held");
    for (uint32_t i = 0; i < 6; i++)
        pane(2 + i, 1 + i, least[i], KNOBHARBOR_AT_LEAST, KNOBHARBOR_REQUIRED);
    for (uint32_t i = 0; i < 6; i++)
        pane(8 + i, 1 + i, liked[i], KNOBHARBOR_EQUAL, strength[i]);
}

static void grip(uint32_t variable, double strength)
{
    knobharbor_answer a = kh_add_edit(&screen, &room, variable, knobharbor_strength_clip(strength), 20);
    expect(a.number == KNOBHARBOR_ACCEPTED && kh_has_edit(&screen, variable), "an edge gets a grip");
}

/* Grips on edges 2 to 7, and each edge dragged to its place; the last drag's answer. */
static knobharbor_answer grips(void)
{
    static const double start[6] = { 160, 320, 560, 800, 920, 1040 };
    knobharbor_answer a = { 0, 0, false };
    grip(7, KNOBHARBOR_STRONG);
    for (uint32_t v = 2; v <= 6; v++)
        grip(v, knobharbor_strength_create(0, 1, 0, 1)); /* the medium strength */
    for (uint32_t v = 7; v >= 2; v--) {
        a = drag(v, start[v - 2], 20);
        expect(a.number == KNOBHARBOR_ACCEPTED, "an edge goes to its place");
    }
    return a;
}

/* The liked width of pane 1 is given up, and edge 2 loses its grip. */
static void let_go(void)
{
    knobharbor_answer a = kh_remove(&screen, &room, 8, 20);
    show("pane 1 as wide as may be", a);
    expect(a.number == KNOBHARBOR_ACCEPTED && !kh_has_constraint(&screen, 8), "a constraint goes");
    expect(kh_has_constraint(&screen, 2), "its neighbour stays");
    a = kh_remove_edit(&screen, &room, 2, 20);
    show("edge 2 without its grip", a);
    expect(a.number == KNOBHARBOR_ACCEPTED && !kh_has_edit(&screen, 2), "a grip goes");
    expect(drag(2, 100, 20).number == KNOBHARBOR_NO_EDIT, "and cannot be dragged by");
}

/* Pane 6 closes: its constraints go together or not at all, and the grip on its edge stays until it is removed. */
static void close_last(void)
{
    knobharbor_answer a = kh_drop(&screen, &room, group_of(6), 20);
    show("pane 6 closed", a);
    expect(a.number == KNOBHARBOR_ACCEPTED && !kh_has_constraint(&screen, 7) && !kh_has_constraint(&screen, 13), "a pane's constraints go");
    expect(kh_has_constraint(&screen, 6) && kh_has_edit(&screen, 7), "its neighbour's stay, and its grip does");
    a = kh_remove_edit(&screen, &room, 7, 20);
    expect(a.number == KNOBHARBOR_ACCEPTED, "the grip goes by itself");
    expect(kh_drop(&screen, &room, group_of(6), 20).number == KNOBHARBOR_EMPTY_GROUP, "a group that is gone cannot be dropped");
    expect(kh_drop(&screen, &room, 0, 20).number == KNOBHARBOR_GROUP_ZERO, "group 0 is the edits' own");
}

/* What a display redraws, and how many edges it has to forget. */
static uint32_t redraw(void)
{
    knobharbor_changes changes;
    knobharbor_fetched f = kh_fetch(&screen, &changes);
    expect(f.number == KNOBHARBOR_ACCEPTED, "the changes are fetched");
    uint32_t gone = 0;
    printf("  redraw");
    for (uint32_t i = 0; i < f.count; i++) {
        if (changes.gone[i])
            printf(" %u:gone", (unsigned)changes.numbers[i]);
        else
            printf(" %u:%g", (unsigned)changes.numbers[i], changes.values[i]);
        gone += changes.gone[i];
    }
    printf("\n");
    return gone;
}

int main(void)
{
    knobharbor_answer a = kh_reset(&screen);
    expect(a.number == KNOBHARBOR_ACCEPTED && a.whole, "a reset is accepted");
    lay_out();
    a = grips();
    show("laid out", a);
    redraw();

    expect(drag(3, 330, 20).number == KNOBHARBOR_ACCEPTED, "edge 3 follows");
    a = drag(3, 340, 20);
    show("edge 3 to 340", a);
    expect(edge(3) == 340 && edge(4) == 560, "edge 3 follows, edge 4 stays");
    redraw();

    a = drag(3, 520, 20);
    show("edge 3 to 520", a);
    expect(edge(3) == 500 && edge(4) == 560, "pane 3 keeps its least width");
    redraw();

    before = screen;
    a = drag(3, 340, 0);
    show("edge 3 to 340, no pivots", a);
    expect(a.number == KNOBHARBOR_BUDGET_USED, "the drag needs a pivot and is refused");
    expect(memcmp(&screen, &before, sizeof screen) == 0, "a refused drag changes no table");
    redraw();

    a = drag(7, 900, 20);
    show("edge 7 to 900", a);
    expect(edge(6) == 860 && edge(7) == 900 && edge(5) == 800, "edge 6 yields to the least width of pane 6");
    redraw();

    let_go();
    redraw();
    close_last();
    expect(redraw() == 1, "the last edge is told to be gone");
    expect(redraw() == 0, "and told once");

    screen.words[2] += 1;
    a = drag(3, 340, 20);
    expect(a.number == KNOBHARBOR_NOT_A_STATE, "a damaged table is refused");
    before = screen;
    a = kh_reset_with_cutoff(&screen, 0.0);
    expect(a.number == KNOBHARBOR_BAD_CUTOFF && !a.whole, "a cutoff of 0 is refused");
    expect(memcmp(&screen, &before, sizeof screen) == 0, "and the tables are as they were");
    a = kh_reset_with_cutoff(&screen, 1e-12);
    expect(a.number == KNOBHARBOR_ACCEPTED && a.whole && !kh_has_constraint(&screen, 1), "a reset makes a state of any tables");
    printf("all as expected\n");
    return 0;
}
