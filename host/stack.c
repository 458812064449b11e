/* The deepest stack that each question uses, the thread's own start included, on tables of 4,096 records and depth 63: each kind of node in long chains below each clause.
 * A thread's stack is painted, the question asked on it, and the paint that is left counted. Prints a row for each question. */
#include "desk.h"
#include <pthread.h>
#include <stdio.h>
#include <string.h>

enum { STACK = 1 << 20, PAINT = 0xa5 };
static _Alignas(4096) uint8_t stack[STACK];
static uint8_t table[DESK_RECORD_BYTES * DESK_RECORDS_MAX], source[DESK_SOURCE_MAX], out[32 * DESK_CLASS_BYTES * DESK_RECORDS_MAX];
static uint8_t lists[4][sizeof out]; /* of everything at a cursor */
static uint8_t offsets[DESK_OFFSET_BYTES * DESK_OFFSETS_MAX];
static size_t used;

static void record(uint32_t kind, uint32_t depth, uint32_t start, uint32_t end) {
    static uint32_t last[DESK_DEPTH_MAX + 1]; /* of each depth, the last record */
    uint32_t fields[5] = {kind, depth, start, end, depth ? last[depth - 1] : 0};
    last[depth] = (uint32_t)(used / DESK_RECORD_BYTES);
    for (int i = 0; i < DESK_RECORD_BYTES; i++) table[used++] = (uint8_t)(fields[i / 4] >> 8 * (i % 4));
}

/* A clause, then chains of one kind down to a token at depth 63, as often as there is room. */
static void chains(uint32_t clause, uint32_t kind) {
    used = 0;
    record(1, 0, 0, DESK_SOURCE_MAX);
    for (uint32_t depth = 1, at = 0; used < sizeof table; depth = depth == DESK_DEPTH_MAX ? 1 : depth + 1)
        if (depth < DESK_DEPTH_MAX) record(depth == 1 ? clause : kind, depth, 0, DESK_SOURCE_MAX);
        else record(131, depth, at, at + 1), at++;
}

typedef uint64_t of_root(const uint8_t *, size_t, const uint8_t *, size_t, uint32_t, uint8_t *, size_t);
typedef uint64_t of_page(const uint8_t *, size_t, const uint8_t *, size_t, uint8_t *, size_t);
typedef uint64_t of_offset(const uint8_t *, size_t, const uint8_t *, size_t, uint32_t);
static const struct { const char *name; of_root *list; of_page *page; of_offset *record; } questions[] = {
    {"(the thread alone)", 0, 0, 0}, {"desk_token_classes", 0, desk_token_classes, 0}, {"desk_openers_left", 0, desk_openers_left, 0},
    {"desk_with_names", desk_with_names, 0, 0}, {"desk_table_aliases", desk_table_aliases, 0, 0}, {"desk_column_aliases", desk_column_aliases, 0, 0},
    {"desk_table_refs", desk_table_refs, 0, 0}, {"desk_records_above", desk_records_above, 0, 0}, {"desk_cursor_context", desk_cursor_context, 0, 0},
    {"desk_cursor_contexts", 0, 0, 0},
    {"desk_enclosing_statement", 0, 0, desk_enclosing_statement}, {"desk_cursor_root", 0, 0, desk_cursor_root},
    {"desk_with_names_at", desk_with_names_at, 0, 0}, {"desk_table_aliases_at", desk_table_aliases_at, 0, 0},
    {"desk_column_aliases_at", desk_column_aliases_at, 0, 0}, {"desk_table_refs_at", desk_table_refs_at, 0, 0},
    {"desk_everything_at", 0, 0, 0}, {"desk_check", 0, 0, 0}, {"desk_bracket_hint", 0, 0, 0},
};
static size_t asked;

static void *ask(void *unused) {
    (void)unused;
    if (questions[asked].list) questions[asked].list(table, used, source, sizeof source, questions[asked].list == desk_records_above ? DESK_RECORDS_MAX - 1 : 0, out, sizeof out);
    else if (questions[asked].page) questions[asked].page(table, used, source, sizeof source, out, sizeof out);
    else if (questions[asked].record) questions[asked].record(table, used, source, sizeof source, 0);
    else if (!strcmp(questions[asked].name, "desk_check")) desk_check(table, used, source, sizeof source);
    else if (!strcmp(questions[asked].name, "desk_cursor_contexts"))
        desk_cursor_contexts(table, used, source, sizeof source, offsets, sizeof offsets, out, sizeof out);
    else if (!strcmp(questions[asked].name, "desk_everything_at"))
        desk_everything_at(table, used, source, sizeof source, 0, out, sizeof out, lists[0], sizeof *lists, lists[1], sizeof *lists, lists[2], sizeof *lists, lists[3], sizeof *lists);
    else if (!strcmp(questions[asked].name, "desk_bracket_hint"))
        desk_bracket_hint(table, used, source, sizeof source, (const uint8_t *)"expected )", 10);
    return 0;
}

static size_t deepest(void) {
    pthread_t thread;
    pthread_attr_t attr;
    memset(stack, PAINT, sizeof stack);
    pthread_attr_init(&attr);
    if (pthread_attr_setstack(&attr, stack, sizeof stack) || pthread_create(&thread, &attr, ask, 0) || pthread_join(thread, 0)) return 0;
    size_t left = 0;
    while (left < sizeof stack && stack[left] == PAINT) left++;
    return sizeof stack - left;
}

int main(void) {
    static const uint32_t clauses[] = {4, 14, 15, 16, 17, 30, 43};
    chains(4, 0);
    deepest(); /* the first thread's start goes deeper than a later one's */
    for (asked = 0; asked < sizeof questions / sizeof *questions; asked++) {
        size_t most = 0;
        for (size_t c = 0; c < sizeof clauses / sizeof *clauses; c++)
            for (uint32_t kind = 0; kind <= 55; kind++) {
                chains(clauses[c], kind);
                if (DESK_REFUSAL(desk_check(table, used, source, sizeof source))) return 1;
                size_t n = deepest();
                if (n > most) most = n;
            }
        printf("| %s | %zu |\n", questions[asked].name, most);
    }
    return 0;
}
