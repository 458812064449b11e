/* The boundary, from C: every function's replies, guard bytes, rooms, refusals and limits. Says what differs and exits 1, or says how much was tried. */
#include "desk.h"
#include <stdio.h>
#include <string.h>

static uint8_t table[DESK_RECORD_BYTES * (DESK_RECORDS_MAX + 1)];
static size_t used;
static uint8_t source[DESK_SOURCE_MAX + 1], message[DESK_MESSAGE_MAX + 1];
static size_t source_len;
static uint8_t offsets[DESK_OFFSET_BYTES * (DESK_OFFSETS_MAX + 1)];
static size_t offsets_len = DESK_OFFSET_BYTES;
static unsigned tried, wrong;

static void number(uint8_t *at, uint32_t v) {
    for (int i = 0; i < 4; i++) at[i] = (uint8_t)(v >> 8 * i);
}

static void record(uint32_t kind, uint32_t depth, uint32_t start, uint32_t end) {
    static uint32_t last[DESK_DEPTH_MAX + 2]; /* of each depth, the last record */
    uint32_t fields[5] = {kind, depth, start, end, depth ? last[depth - 1] : 0};
    last[depth] = (uint32_t)(used / DESK_RECORD_BYTES);
    for (int i = 0; i < 5; i++) number(table + used + 4 * i, fields[i]);
    used += DESK_RECORD_BYTES;
}

/* the place of a number of record i: 0 kind, 1 depth, 2 start, 3 end, 4 parent */
static uint8_t *place(uint32_t i, int which) { return table + DESK_RECORD_BYTES * (size_t)i + 4 * which; }

static void expect(const char *what, uint64_t reply, uint32_t refusal, uint32_t answer) {
    tried++;
    if (DESK_REFUSAL(reply) == refusal && DESK_ANSWER(reply) == answer) return;
    wrong++;
    printf("%s: %u %u, not %u %u\n", what, (unsigned)DESK_REFUSAL(reply), (unsigned)DESK_ANSWER(reply), (unsigned)refusal, (unsigned)answer);
}

/* A question for a list, by its name, of a root or offset where it has one. */
static uint64_t list(const char *q, uint32_t of, uint8_t *out, size_t len) {
    static const struct {
        const char *name;
        uint64_t (*ask)(const uint8_t *, size_t, const uint8_t *, size_t, uint32_t, uint8_t *, size_t);
    } asked[] = {
        {"with_names", desk_with_names}, {"table_aliases", desk_table_aliases}, {"column_aliases", desk_column_aliases}, {"table_refs", desk_table_refs},
        {"with_names_at", desk_with_names_at}, {"table_aliases_at", desk_table_aliases_at}, {"column_aliases_at", desk_column_aliases_at},
        {"table_refs_at", desk_table_refs_at}, {"cursor_context", desk_cursor_context}, {"records_above", desk_records_above},
    };
    if (!strcmp(q, "token_classes")) return desk_token_classes(table, used, source, source_len, out, len);
    if (!strcmp(q, "cursor_contexts")) return desk_cursor_contexts(table, used, source, source_len, offsets, offsets_len, out, len);
    if (!strcmp(q, "openers_left")) return desk_openers_left(table, used, source, source_len, out, len);
    for (size_t i = 0; i < sizeof asked / sizeof *asked; i++)
        if (!strcmp(q, asked[i].name)) return asked[i].ask(table, used, source, source_len, of, out, len);
    printf("no question %s\n", q);
    wrong++;
    return 0;
}

static const char *const lists[] = {"token_classes", "openers_left", "with_names", "table_aliases", "column_aliases", "table_refs",
    "with_names_at", "table_aliases_at", "column_aliases_at", "table_refs_at", "cursor_context", "records_above", "cursor_contexts"};

enum { GUARD = 32, ROOM = DESK_REFERENCE_BYTES * DESK_RECORDS_MAX };
static uint8_t lent[GUARD + ROOM + GUARD], before[sizeof lent], table_before[sizeof table], source_before[sizeof source];

/* In a room of `len` bytes between guards: the reply, and every byte of the buffer and of what was lent to read. */
static void in_room(const char *q, uint32_t of, size_t len, uint32_t refusal, uint32_t answer, const uint32_t *numbers, size_t count) {
    for (size_t i = 0; i < sizeof lent; i++) lent[i] = before[i] = (uint8_t)(i * 37 + 11);
    for (size_t i = 0; i < count && refusal == 0; i++) number(before + GUARD + 4 * i, numbers[i]);
    memcpy(table_before, table, sizeof table);
    memcpy(source_before, source, sizeof source);
    expect(q, list(q, of, lent + GUARD, len), refusal, answer);
    if (memcmp(lent, before, sizeof lent) || memcmp(table, table_before, sizeof table) || memcmp(source, source_before, sizeof source)) {
        wrong++;
        printf("%s of %u in %zu bytes: other bytes\n", q, (unsigned)of, len);
    }
}

/* Everything at a cursor in one call, in five buffers between guards: their rooms, the reply, and what each has afterwards; none is touched where it is refused. */
static void together(const char *what, uint32_t offset, const size_t rooms[5], uint32_t refusal, uint32_t answer, const uint32_t *const numbers[5], const size_t counts[5]) {
    static uint8_t buffers[5][GUARD + 4096 + GUARD], expected[5][sizeof *buffers];
    for (int k = 0; k < 5; k++) {
        for (size_t i = 0; i < sizeof *buffers; i++) buffers[k][i] = expected[k][i] = (uint8_t)(i * 41 + (size_t)k);
        for (size_t i = 0; !refusal && i < counts[k]; i++) number(expected[k] + GUARD + 4 * i, numbers[k][i]);
    }
    expect(what, desk_everything_at(table, used, source, source_len, offset, buffers[0] + GUARD, rooms[0], buffers[1] + GUARD, rooms[1], buffers[2] + GUARD, rooms[2],
        buffers[3] + GUARD, rooms[3], buffers[4] + GUARD, rooms[4]), refusal, answer);
    if (memcmp(buffers, expected, sizeof buffers)) wrong++, printf("%s: other bytes\n", what);
}

/* More room than needed, exactly enough, one byte short, none. */
static void in_rooms(const char *q, uint32_t of, const uint32_t *numbers, size_t entries, size_t width) {
    size_t need = entries * width;
    in_room(q, of, need + 13, 0, (uint32_t)entries, numbers, need / 4);
    in_room(q, of, need, 0, (uint32_t)entries, numbers, need / 4);
    if (!need) return;
    in_room(q, of, need - 1, 7, (uint32_t)entries, numbers, 0);
    in_room(q, of, 0, 7, (uint32_t)entries, numbers, 0);
    expect("no buffer", list(q, of, NULL, 0), 7, (uint32_t)entries);
}

/* Every question is refused so, and touches nothing. */
static void refused(uint32_t refusal, uint32_t detail) {
    expect("check", desk_check(table, used, source, source_len), refusal, detail);
    expect("hint", desk_bracket_hint(table, used, source, source_len, message, 10), refusal, detail);
    expect("statement", desk_enclosing_statement(table, used, source, source_len, 0), refusal, detail);
    expect("root", desk_cursor_root(table, used, source, source_len, 0), refusal, detail);
    for (size_t i = 0; i < sizeof lists / sizeof *lists; i++) in_room(lists[i], 0, ROOM, refusal, detail, NULL, 0);
    static const size_t none[5] = {0}, some[5] = {4096, 4096, 4096, 4096, 4096};
    together("everything", 0, none, refusal, detail, NULL, none);
    together("everything", 0, some, refusal, detail, NULL, none);
    offsets_len = DESK_OFFSET_BYTES + 1; /* 10 stands after 2, and before what is said of a record */
    in_room("cursor_contexts", 0, ROOM, refusal <= 2 ? refusal : 10, 0, NULL, 0);
    offsets_len = DESK_OFFSET_BYTES;
}

/* No question is refused, whatever its list has. */
static void admitted(const char *what) {
    expect(what, desk_check(table, used, source, source_len), 0, 0);
    uint64_t replies[3] = {desk_bracket_hint(table, used, source, source_len, message, DESK_MESSAGE_MAX),
        desk_enclosing_statement(table, used, source, source_len, 0), desk_cursor_root(table, used, source, source_len, 0)};
    for (int i = 0; i < 3; i++) expect(what, replies[i], 0, DESK_ANSWER(replies[i]));
    for (size_t i = 0; i < sizeof lists / sizeof *lists; i++) {
        uint64_t reply = list(lists[i], 0, lent + GUARD, ROOM);
        expect(lists[i], reply, 0, DESK_ANSWER(reply));
    }
}

static void page(const char *text) {
    used = 0;
    source_len = strlen(text);
    memcpy(source, text, source_len);
}

/* Document 01's worked tree. */
static void worked(void) {
    page("SELECT r. FROM raw r");
    record(1, 0, 0, 20); record(4, 1, 0, 20); record(15, 2, 0, 9); record(131, 3, 0, 6); record(129, 3, 6, 7); record(47, 3, 7, 9);
    record(131, 4, 7, 8); record(128, 4, 8, 9); record(129, 2, 9, 10); record(16, 2, 10, 20); record(131, 3, 10, 14); record(129, 3, 14, 15);
    record(33, 3, 15, 18); record(131, 4, 15, 18); record(129, 3, 18, 19); record(35, 3, 19, 20); record(131, 4, 19, 20);
}

/* Many cursors on that tree: in the order of the offsets, one of them twice; none; as many as there may be, one more, and parts of one. */
static void cursors(void) {
    static const uint32_t at[] = {9, 10, DESK_NONE, 9}, entry[][4] = {{3, 7, 8, 0}, {1, DESK_NONE, DESK_NONE, 0}, {11, DESK_NONE, DESK_NONE, 0}};
    static uint32_t expected[4 * DESK_OFFSETS_MAX];
    for (size_t i = 0; i < DESK_OFFSETS_MAX + 1; i++) {
        number(offsets + DESK_OFFSET_BYTES * i, at[i % 4]);
        if (i < DESK_OFFSETS_MAX) memcpy(expected + 4 * i, entry[i % 4 % 3], sizeof *entry);
    }
    for (size_t n = 0; n <= DESK_OFFSETS_MAX; n++) {
        offsets_len = DESK_OFFSET_BYTES * n;
        in_rooms("cursor_contexts", 0, expected, n, DESK_CONTEXT_BYTES);
        offsets_len += 1 + n % 3;
        in_room("cursor_contexts", 0, ROOM, 10, 0, NULL, 0);
    }
    offsets_len = sizeof offsets;
    in_room("cursor_contexts", 0, ROOM, 10, 0, NULL, 0);
    in_room("cursor_contexts", 0, 0, 10, 0, NULL, 0);
    expect("no cursors", desk_cursor_contexts(table, used, source, source_len, NULL, 0, NULL, 0), 0, 0);
    expect("many bytes", desk_cursor_contexts(table, used, source, source_len, table, used, lent, 0), 10, 0);
    offsets_len = DESK_OFFSET_BYTES;
}

/* of a reference that has no database, or no alias */
#define NO_NAME DESK_NONE, DESK_NONE, DESK_NONE, DESK_NONE

static void answers(void) {
    static const uint32_t classes[] = {0, 6, 0, 7, 8, 6, 10, 14, 0, 15, 18, 9, 19, 20, 9}, column[] = {3, 7, 8, 0};
    static const uint32_t reference[] = {12, NO_NAME, 15, 18, 15, 18, 19, 20, 19, 20}, alias[] = {19, 20, 19, 20, 19, 20};
    static const uint32_t from[] = {1, DESK_NONE, DESK_NONE, 0}, start[] = {11, DESK_NONE, DESK_NONE, 0};
    worked();
    expect("check", desk_check(table, used, source, source_len), 0, 0);
    in_rooms("token_classes", 0, classes, 5, DESK_CLASS_BYTES);
    in_rooms("openers_left", 0, NULL, 0, DESK_OPENER_BYTES);
    in_rooms("cursor_context", 9, column, 1, DESK_CONTEXT_BYTES);
    in_rooms("cursor_context", 10, from, 1, DESK_CONTEXT_BYTES);
    in_rooms("table_refs", 0, reference, 1, DESK_REFERENCE_BYTES);
    in_rooms("table_refs_at", 9, reference, 1, DESK_REFERENCE_BYTES);
    in_rooms("table_aliases", 1, alias, 1, DESK_BINDING_BYTES);
    in_rooms("table_aliases_at", 9, alias, 1, DESK_BINDING_BYTES);
    in_rooms("with_names", 0, NULL, 0, DESK_BINDING_BYTES);
    in_rooms("with_names_at", 9, NULL, 0, DESK_BINDING_BYTES);
    in_rooms("column_aliases", 0, NULL, 0, DESK_BINDING_BYTES);
    in_rooms("column_aliases_at", 9, NULL, 0, DESK_BINDING_BYTES);
    cursors();
    expect("statement", desk_enclosing_statement(table, used, source, source_len, 9), 0, 1);
    expect("no statement", desk_enclosing_statement(table, used, source, source_len, 21), 0, DESK_NONE);
    expect("root", desk_cursor_root(table, used, source, source_len, 9), 0, 1);
    expect("root past the end", desk_cursor_root(table, used, source, source_len, DESK_NONE), 0, 0);
    for (int i = 2; i < 6; i++) {
        in_room(lists[i], 3, ROOM, 8, 0, NULL, 0);
        in_room(lists[i], 17, ROOM, 8, 0, NULL, 0);
        in_room(lists[i], DESK_NONE, 0, 8, 0, NULL, 0);
    }
    static const uint32_t above[] = {15, 9, 1, 0};
    in_rooms("records_above", 16, above, 4, DESK_ABOVE_BYTES);
    in_rooms("records_above", 9, above + 2, 2, DESK_ABOVE_BYTES);
    in_rooms("records_above", 0, NULL, 0, DESK_ABOVE_BYTES);
    in_room("records_above", 17, ROOM, 8, 0, NULL, 0);
    in_room("records_above", DESK_NONE, 0, 8, 0, NULL, 0);
    expect("layout", desk_layout_3(), DESK_LAYOUT, 0);
    page("");
    record(1, 0, DESK_NONE, 0);
    expect("no source", desk_check(table, used, NULL, 0), 0, 0);
    in_rooms("cursor_context", 0, start, 1, DESK_CONTEXT_BYTES);
    page("( [ )");
    record(1, 0, 0, 5); record(137, 1, 0, 1); record(138, 1, 2, 3); record(140, 1, 4, 5);
    static const uint32_t openers[] = {1, 2};
    in_rooms("openers_left", 0, openers, 2, DESK_OPENER_BYTES);
    expect("hint", desk_bracket_hint(table, used, source, source_len, (const uint8_t *)"expected ]", 10), 0, 2);
    expect("no message", desk_bracket_hint(table, used, source, source_len, NULL, 0), 0, DESK_NONE);
}

/* An inner and an outer alias of one name: each cursor is offered its own. */
static void spring(void) {
    page("SELECT (SELECT r. FROM labs r) FROM rooms r");
    record(1, 0, 0, 43); record(4, 1, 0, 43); record(15, 2, 0, 30); record(131, 3, 0, 6); record(30, 3, 7, 30); record(137, 4, 7, 8);
    record(4, 4, 8, 29); record(15, 5, 8, 17); record(131, 6, 8, 14); record(47, 6, 15, 17); record(131, 7, 15, 16); record(128, 7, 16, 17);
    record(16, 5, 18, 29); record(131, 6, 18, 22); record(33, 6, 23, 27); record(131, 7, 23, 27); record(35, 6, 28, 29); record(131, 7, 28, 29);
    record(140, 4, 29, 30); record(16, 2, 31, 43); record(131, 3, 31, 35); record(33, 3, 36, 41); record(131, 4, 36, 41); record(35, 3, 42, 43);
    record(131, 4, 42, 43);
    static const uint32_t inner[] = {14, NO_NAME, 23, 27, 23, 27, 28, 29, 28, 29}, outer[] = {21, NO_NAME, 36, 41, 36, 41, 42, 43, 42, 43};
    expect("inner root", desk_cursor_root(table, used, source, source_len, 17), 0, 4);
    in_rooms("table_refs_at", 17, inner, 1, DESK_REFERENCE_BYTES);
    expect("outer root", desk_cursor_root(table, used, source, source_len, 36), 0, 1);
    in_rooms("table_refs_at", 36, outer, 1, DESK_REFERENCE_BYTES);
}

/* A list of each sort with an entry, of a root and at a cursor. */
static void names(void) {
    page("WITH w AS 1 SELECT (a AS `b` FROM d.t");
    record(1, 0, 0, 37); record(4, 1, 0, 37); record(14, 2, 0, 11); record(131, 3, 0, 4); record(29, 3, 5, 11); record(131, 4, 5, 6);
    record(131, 4, 7, 9); record(133, 4, 10, 11); record(15, 2, 12, 28); record(131, 3, 12, 18); record(137, 3, 19, 20); record(131, 3, 20, 21);
    record(36, 3, 22, 28); record(131, 4, 22, 24); record(132, 4, 25, 28); record(16, 2, 29, 37); record(131, 3, 29, 33); record(33, 3, 34, 37);
    record(131, 4, 34, 35); record(128, 4, 35, 36); record(131, 4, 36, 37);
    static const uint32_t with[] = {5, 6, 5, 6, 5, 11}, column[] = {25, 28, 26, 27, 22, 28}, reference[] = {17, 34, 35, 34, 35, 36, 37, 36, 37, NO_NAME};
    static const uint32_t opener[] = {10};
    in_rooms("with_names", 0, with, 1, DESK_BINDING_BYTES);
    in_rooms("with_names_at", 20, with, 1, DESK_BINDING_BYTES);
    in_rooms("column_aliases", 1, column, 1, DESK_BINDING_BYTES);
    in_rooms("column_aliases_at", 20, column, 1, DESK_BINDING_BYTES);
    in_rooms("table_refs", 15, reference, 1, DESK_REFERENCE_BYTES);
    in_rooms("table_refs_at", 20, reference, 1, DESK_REFERENCE_BYTES);
    in_rooms("openers_left", 0, opener, 1, DESK_OPENER_BYTES);
    /* all of it in one call: in rooms that are enough, exactly enough, and short for one buffer after another, where the first that is short is told of */
    static const uint32_t entry[] = {0, DESK_NONE, DESK_NONE, 0, 1, 1, 0, 1, 1}, *const all[5] = {entry, with, NULL, column, reference};
    static const size_t counts[5] = {9, 6, 0, 6, 13};
    size_t rooms[5], exact[5];
    for (int k = 0; k < 5; k++) exact[k] = 4 * counts[k], rooms[k] = exact[k] + 5;
    together("everything with room", 20, rooms, 0, 1, all, counts);
    together("everything exactly", 20, exact, 0, 1, all, counts);
    for (int k = 4; k >= 0; k--) {
        if (!exact[k]) continue;
        rooms[k] = exact[k] - 1;
        together("everything with one short, and those behind it", 20, rooms, 7, 1, all, counts);
        memcpy(rooms, exact, sizeof rooms);
        for (int behind = k; behind < 5; behind++) rooms[behind] = 0;
    }
    expect("everything nowhere", desk_everything_at(table, used, source, source_len, 20, NULL, 0, NULL, 0, NULL, 0, NULL, 0, NULL, 0), 7, 1);
}

/* Names with and without their quotes: of each, the outer range and the inner one. A lone mark, marks that do not match, a Quoted without marks and a bareword
 * with marks have the same range twice. */
static void quotes(void) {
    page("FROM `a b`.\"c d\" AS `e f`");
    record(16, 0, 0, 25); record(131, 1, 0, 4); record(33, 1, 5, 16); record(132, 2, 5, 10); record(128, 2, 10, 11); record(132, 2, 11, 16);
    record(35, 1, 17, 25); record(131, 2, 17, 19); record(132, 2, 20, 25);
    static const uint32_t reference[] = {2, 5, 10, 6, 9, 11, 16, 12, 15, 20, 25, 21, 24}, alias[] = {20, 25, 21, 24, 17, 25};
    in_rooms("table_refs", 0, reference, 1, DESK_REFERENCE_BYTES);
    in_rooms("table_aliases", 0, alias, 1, DESK_BINDING_BYTES);
    static const struct { const char *text; uint32_t kind, cut; } names[] = {{"`a`", 132, 1}, {"\"a\"", 132, 1}, {"``", 132, 1}, {"`a`", 131, 0}, {"\"a\"", 131, 0},
        {"`", 132, 0}, {"\"", 132, 0}, {"`a\"", 132, 0}, {"\"a`", 132, 0}, {"a`", 132, 0}, {"`a", 132, 0}, {"a", 132, 0}, {"'a'", 132, 0}, {"", 132, 0}};
    for (size_t i = 0; i < sizeof names / sizeof *names; i++) {
        uint32_t end = (uint32_t)strlen(names[i].text), cut = names[i].cut;
        uint32_t expected[] = {1, 0, end, cut, end - cut, end, end, end, end, end, end, end, end}; /* its database, a table and an alias of no bytes */
        page(names[i].text);
        record(16, 0, 0, end); record(33, 1, 0, end); record(names[i].kind, 2, 0, end); record(131, 2, end, end); record(35, 1, end, end); record(131, 2, end, end);
        in_rooms("table_refs", 0, expected, 1, DESK_REFERENCE_BYTES);
    }
}

/* As many entries as a table can have: each record but the first is a classed token, then an opener. */
static void longest_lists(void) {
    static uint32_t classes[3 * DESK_RECORDS_MAX], openers[DESK_RECORDS_MAX];
    used = 0;
    source_len = DESK_SOURCE_MAX;
    record(1, 0, 0, DESK_SOURCE_MAX);
    for (uint32_t i = 1; i < DESK_RECORDS_MAX; i++) {
        record(133, 1, 16 * i, 16 * (i + 1));
        classes[3 * i - 3] = 16 * i; classes[3 * i - 2] = 16 * (i + 1); classes[3 * i - 1] = DESK_CLASS_NUMBER;
    }
    in_rooms("token_classes", 0, classes, DESK_RECORDS_MAX - 1, DESK_CLASS_BYTES);
    for (uint32_t i = 1; i < DESK_RECORDS_MAX; i++) number(place(i, 0), 137), openers[i - 1] = i;
    in_rooms("openers_left", 0, openers, DESK_RECORDS_MAX - 1, DESK_OPENER_BYTES);
    expect("last opener", desk_bracket_hint(table, used, source, source_len, (const uint8_t *)"expected )", 10), 0, DESK_RECORDS_MAX - 1);
}

static void refusals(void) {
    used = 0; source_len = 0;
    refused(1, 0);
    expect("no table", desk_check(NULL, 0, NULL, 0), 1, 0);
    worked(); used -= 1; refused(1, 0);
    used = 0;
    for (uint32_t i = 0; i <= DESK_RECORDS_MAX; i++) record(0, i > 0, 0, 0);
    refused(1, 0);
    used -= DESK_RECORD_BYTES;
    admitted("most records");
    worked(); source_len = DESK_SOURCE_MAX + 1; refused(2, 0);
    source_len = DESK_SOURCE_MAX; admitted("longest source, longest message");
    expect("long message", desk_bracket_hint(table, used, source, source_len, message, DESK_MESSAGE_MAX + 1), 2, 0);
    static const uint32_t unlisted[] = {56, 127, 158, 255, 256, 257, 256 + 131, 65536 + 4, DESK_NONE};
    for (size_t i = 0; i < sizeof unlisted / sizeof *unlisted; i++) { worked(); number(place(2, 0), unlisted[i]); refused(3, 2); }
    worked(); number(place(0, 0), 131); refused(4, 0);
    worked(); number(place(1, 1), 2); refused(4, 1);
    worked(); number(place(5, 1), 4); refused(4, 5);
    worked(); number(place(2, 1), 256 + 2); refused(4, 2);
    used = 0; source_len = 0;
    for (uint32_t i = 0; i <= DESK_DEPTH_MAX; i++) record(0, i, 0, 0);
    admitted("deepest");
    record(0, DESK_DEPTH_MAX + 1, 0, 0); refused(5, DESK_DEPTH_MAX + 1);
    /* a parent: record 0's is 0; not the record before, not an earlier one of the depth above, nothing past the record; after 4 and before 6 */
    static const struct { uint32_t record, parent; } strays[] = {{0, 1}, {1, 1}, {4, 3}, {13, 5}, {16, 12}, {16, DESK_NONE}, {9, 257}};
    for (size_t i = 0; i < sizeof strays / sizeof *strays; i++) { worked(); number(place(strays[i].record, 4), strays[i].parent); refused(12, strays[i].record); }
    worked(); number(place(16, 4), 12); number(place(16, 3), DESK_NONE); refused(12, 16);
    worked(); number(place(16, 4), 12); number(place(16, 1), 6); refused(4, 16);
    /* a table of the old layout, four numbers a record: as many bytes as five records have here */
    used = 0; source_len = 0;
    for (uint32_t i = 0; i < 5; i++) for (uint32_t which = 0; which < 4; which++) number(table + used, which == 1 && i > 0), used += 4;
    refused(4, 1);
    worked(); source_len = 19; refused(6, 16);
    worked(); number(place(16, 3), DESK_NONE); refused(6, 16);
    worked(); number(place(4, 2), 5); refused(6, 4);
    worked(); number(place(3, 2), 7); refused(6, 3);
}

int main(void) {
    answers();
    spring();
    names();
    quotes();
    longest_lists();
    refusals();
    if (!wrong) printf("%u replies as they must be\n", tried);
    return wrong != 0;
}
