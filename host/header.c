/* The header alone: every reader gives what its writer wrote, at an address of no alignment and touching nothing beside it; a range is cut to its
 * source; each refusal has words. Compiled as C and as C++; links with the archive and says what is wrong. */
#include "desk.h"
#include <stdio.h>
#include <string.h>

enum { ROOM = 128, PAINT = 0x5a };
static uint8_t bytes[ROOM];
static unsigned wrong;

static void expect(const char *what, int is) {
    if (!is) { printf("header: %s\n", what); wrong = 1; }
}

static void paint(void) { memset(bytes, PAINT, sizeof bytes); }

/* From an odd place on stand the numbers `from`, `from` + 1, .. as an entry of `width` bytes has them, and nothing else was touched. */
static int written(size_t at, size_t width, uint32_t from) {
    for (size_t i = 0; i < sizeof bytes; i++) {
        size_t in = i - at;
        uint8_t is = i < at || in >= width ? (uint8_t)PAINT : (uint8_t)((from + (uint32_t)in / 4) >> 8 * (in % 4));
        if (bytes[i] != is) return 0;
    }
    return 1;
}

static void entries(void) {
    uint8_t *odd = bytes + 1;
    struct desk_range a = {0x81a2b3c4, 0x81a2b3c5}, b = {0x81a2b3c6, 0x81a2b3c7}, c = {0x81a2b3c8, 0x81a2b3c9};
    struct desk_range d = {0x81a2b3c5, 0x81a2b3c6};
    struct desk_name g = {d, {0x81a2b3c7, 0x81a2b3c8}}, h = {{0x81a2b3c9, 0x81a2b3ca}, {0x81a2b3cb, 0x81a2b3cc}}, i = {{0x81a2b3cd, 0x81a2b3ce}, {0x81a2b3cf, 0x81a2b3d0}};
    struct desk_record r = {a.start, a.end, b.start, b.end, c.start};
    struct desk_class_entry k = {a, b.start};
    struct desk_binding_entry n = {a, b, c};
    struct desk_reference_entry t = {a.start, g, h, i};
    struct desk_context_entry x = {a.start, d, b.end};
    paint(); desk_put_record(odd, 1, r); r = desk_get_record(odd, 1);
    expect("a record", written(21, DESK_RECORD_BYTES, a.start) && r.kind == a.start && r.depth == a.end);
    expect("a record's span and parent", r.start == b.start && r.end == b.end && r.parent == c.start);
    paint(); desk_put_class(odd, 2, k); k = desk_get_class(odd, 2);
    expect("a class", written(25, DESK_CLASS_BYTES, a.start) && k.token.start == a.start && k.token.end == a.end && k.token_class == b.start);
    paint(); desk_put_binding(odd, 1, n); n = desk_get_binding(odd, 1);
    expect("a binding", written(25, DESK_BINDING_BYTES, a.start) && n.token.end == a.end && n.name.end == b.end && n.definition.end == c.end);
    paint(); desk_put_reference(odd, 1, t); t = desk_get_reference(odd, 1);
    expect("a reference", written(53, DESK_REFERENCE_BYTES, a.start) && t.record == a.start);
    expect("a reference's names", t.database.outer.end == g.outer.end && t.table.outer.end == h.outer.end && t.alias.outer.end == i.outer.end);
    expect("its names without quotes", t.database.inner.end == g.inner.end && t.table.inner.end == h.inner.end && t.alias.inner.end == i.inner.end);
    paint(); desk_put_context(odd, 2, x); x = desk_get_context(odd, 2);
    expect("a context", written(33, DESK_CONTEXT_BYTES, a.start) && x.context == a.start && x.name.end == d.end && x.argument == b.end);
    struct desk_everything_entry y = {x, c.start, c.end, 0x81a2b3ca, 0x81a2b3cb, 0x81a2b3cc};
    paint(); desk_put_everything(odd, y); y = desk_get_everything(odd);
    expect("everything", written(1, DESK_EVERYTHING_BYTES, a.start) && y.context.argument == b.end && y.root == c.start && y.with_names == c.end);
    expect("everything's counts", y.table_aliases == 0x81a2b3ca && y.column_aliases == 0x81a2b3cb && y.table_refs == 0x81a2b3cc);
    paint(); desk_put_opener(odd, 3, a.start);
    expect("an opener", written(13, DESK_OPENER_BYTES, a.start) && desk_get_opener(odd, 3) == a.start);
    paint(); desk_put_above(odd, 3, a.start);
    expect("a record above", written(13, DESK_ABOVE_BYTES, a.start) && desk_get_above(odd, 3) == a.start);
}

static void cuts(void) {
    static const struct { struct desk_range given, cut; } tried[] = {
        {{3, 7}, {3, 7}}, {{3, 11}, {3, 10}}, {{11, 12}, {10, 10}}, {{7, 3}, {7, 7}}, {{DESK_NONE, 0}, {10, 10}}, {{DESK_NONE, DESK_NONE}, {10, 10}}};
    for (size_t i = 0; i < sizeof tried / sizeof *tried; i++) {
        struct desk_range cut = desk_cut_range(tried[i].given, 10);
        expect("a range cut to its source", cut.start == tried[i].cut.start && cut.end == tried[i].cut.end);
        struct desk_name name = {tried[i].given, tried[i].given};
        expect("an absent range", desk_absent(tried[i].given) == (i == 5) && desk_unnamed(name) == (i == 5));
    }
}

/* Every refusal has words of its own, and all other numbers share theirs. */
static void words(void) {
    static const uint32_t listed[] = {0, 1, 2, 3, 4, 5, 6, 7, 8, 9, 10, 12};
    const char *other = desk_refusal_words(99);
    for (size_t i = 0; i < sizeof listed / sizeof *listed; i++) {
        expect("a refusal without words", strcmp(desk_refusal_words(listed[i]), other) != 0);
        for (size_t k = 0; k < i; k++) expect("two refusals of the same words", strcmp(desk_refusal_words(listed[i]), desk_refusal_words(listed[k])) != 0);
    }
    expect("the words of any number", !strcmp(desk_refusal_words(DESK_NONE), other));
    expect("what a detail counts", !strcmp(desk_detail_words(DESK_REFUSAL_PARENT), "record") && !strcmp(desk_detail_words(DESK_REFUSAL_ROOT), ""));
}

/* The way to a list that the header tells: the count, the room, the list. */
static void counted(void) {
    static uint8_t table[3 * DESK_RECORD_BYTES], room[DESK_OPENER_BYTES];
    static const struct desk_record file = {DESK_KIND_FILE, 0, 0, 1, 0}, opener = {DESK_KIND_OPENING_ROUND, 1, 0, 1, 0}, stray = {99, 1, 0, 1, 0};
    const uint8_t *source = (const uint8_t *)"(";
    desk_put_record(table, 0, file); desk_put_record(table, 1, opener); desk_put_record(table, 2, stray);
    uint64_t reply = desk_openers_left(table, 2 * DESK_RECORD_BYTES, source, 1, NULL, 0);
    expect("the count without room", DESK_REFUSAL(reply) == DESK_REFUSAL_ROOM && DESK_ANSWER(reply) == 1);
    reply = desk_openers_left(table, 2 * DESK_RECORD_BYTES, source, 1, room, sizeof room);
    expect("the list", DESK_REFUSAL(reply) == DESK_REFUSAL_NONE && DESK_ANSWER(reply) == 1 && desk_get_opener(room, 0) == 1);
    reply = desk_with_names(table, 2 * DESK_RECORD_BYTES, source, 1, 0, NULL, 0);
    expect("an empty list without room", DESK_REFUSAL(reply) == DESK_REFUSAL_NONE && DESK_ANSWER(reply) == 0);
    reply = desk_check(table, sizeof table, source, 1);
    expect("a refusal and its record", DESK_REFUSAL(reply) == DESK_REFUSAL_KIND && DESK_ANSWER(reply) == 2);
}

int main(void) {
    entries();
    cuts();
    words();
    counted();
    return wrong != 0;
}
