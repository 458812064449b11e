/* What the desk says at the cursor, by its text: what is being typed, what the key would run, and the names before and now. */
#include "show.h"
#include <inttypes.h>
#include <stdio.h>
#include <stdlib.h>
#include <string.h>

void say_context(const struct page *page, struct desk_context_entry e) {
    static const char *const contexts[] = {"an expression to select", "a table", "a table of the database ", "a column of ", "an expression", "a setting",
        "an engine", "a format", "a data type", "a codec", "argument ", "a statement", "nothing that is known"};
    printf("%s", contexts[e.context]);
    if (e.context == DESK_CONTEXT_FUNCTION_ARGUMENT) printf("%" PRIu64 " of %s", (uint64_t)e.argument + 1, desk_absent(e.name) ? "a function" : "");
    if (!desk_absent(e.name)) say_text(page, e.name);
    printf("\n");
}

/* the token that ends at the cursor or holds it, or the last before it; DESK_NONE where there is none */
static uint32_t token_before(const struct page *page) {
    uint32_t found = DESK_NONE;
    for (uint32_t i = 0; i < page->records; i++) {
        struct desk_record r = desk_get_record(page->table, i);
        if (r.kind >= DESK_KIND_OTHER_TOKEN && r.kind != DESK_KIND_WHITESPACE && r.start < page->cursor) found = i;
    }
    return found;
}

/* The word that is typed so far, by which a desk filters what it offers; and what stands above it, nearest first. */
static void show_token(const struct page *page) {
    uint32_t token = token_before(page);
    if (token == DESK_NONE) return;
    struct desk_record r = desk_get_record(page->table, token);
    if (r.kind == DESK_KIND_BARE_WORD && page->cursor <= r.end) {
        struct desk_range typed = {r.start, page->cursor};
        printf("  %-15s ", "so far");
        say_text(page, typed);
        printf("\n");
    }
    struct list list = ask(page, desk_records_above, token, DESK_ABOVE_BYTES);
    printf("  %-15s ", "below");
    for (uint32_t i = 0; i < list.count; i++)
        printf("%s%s", i ? ", " : "", kind_name(desk_get_record(page->table, desk_get_above(list.bytes, i)).kind));
    printf("\n");
    free(list.bytes);
}

/* The statement that a key would run. Of two side by side that hold the cursor, the first on the page is taken: this says so. */
static void show_run(const struct page *page) {
    uint32_t statement = answered(page, desk_enclosing_statement(ASKED(page), page->cursor));
    printf("  %-15s ", "the key runs");
    if (statement == DESK_NONE) { printf("nothing\n"); return; }
    say_text(page, span_of(page, statement));
    printf("\n");
    for (uint32_t i = statement + 1; i < page->records; i++) {
        struct desk_record r = desk_get_record(page->table, i);
        if (r.kind < DESK_KIND_SELECT_STATEMENT || r.kind > DESK_KIND_DESCRIBE_STATEMENT || r.start > page->cursor || page->cursor > r.end) continue;
        printf("  %-15s ", "and not");
        say_text(page, span_of(page, i));
        printf(": of two side by side the first on the page\n");
    }
}

void show_cursor(const struct page *page, const struct at_cursor *at) {
    printf("\nat the cursor: ");
    say_place(page, page->cursor);
    printf(" (offset %" PRIu32 ")\n", page->cursor);
    printf("  %-15s ", "is being typed");
    say_context(page, at->entry.context);
    show_token(page);
    show_run(page);
}

/* An entry that stands in a list twice, as a JOIN below FROM gives it, is said once. */
static int again(const struct list *list, size_t width, uint32_t i) {
    for (uint32_t k = 0; k < i; k++)
        if (!memcmp(list->bytes + width * k, list->bytes + width * i, width)) return 1;
    return 0;
}

static void show_bindings(const struct page *page, const char *what, const struct list *list) {
    printf("  %-15s", what);
    for (uint32_t i = 0; i < list->count; i++) {
        if (again(list, DESK_BINDING_BYTES, i)) continue;
        printf(i ? ", " : " ");
        say_text(page, desk_get_binding(list->bytes, i).name);
    }
    printf(list->count ? "\n" : " -\n");
}

static int quoted(struct desk_name n) { return n.outer.start != n.inner.start; }

static void say_table(const struct page *page, struct desk_range database, struct desk_range table) {
    if (!desk_absent(database)) { say_text(page, database); printf("."); }
    say_text(page, table);
}

/* A table as it stands in the source, without its quotes where it has some, and its alias without them. */
static void show_tables(const struct page *page, const struct list *list) {
    printf("  %-15s", "tables");
    for (uint32_t i = 0; i < list->count; i++) {
        struct desk_reference_entry e = desk_get_reference(list->bytes, i);
        if (again(list, DESK_REFERENCE_BYTES, i)) continue;
        printf(i ? ", " : " ");
        say_table(page, e.database.outer, e.table.outer);
        if (quoted(e.database) || quoted(e.table)) { printf(" ("); say_table(page, e.database.inner, e.table.inner); printf(")"); }
        if (!desk_unnamed(e.alias)) { printf(" as "); say_text(page, e.alias.inner); }
    }
    printf(list->count ? "\n" : " -\n");
}

/* Before: the names of the whole page, subqueries aside. Now: those of the query that the cursor stands in, and the WITH names that it sees. */
void show_offers(const struct page *page, const struct at_cursor *at) {
    struct list with_names = ask(page, desk_with_names, 0, DESK_BINDING_BYTES), table_aliases = ask(page, desk_table_aliases, 0, DESK_BINDING_BYTES);
    struct list column_aliases = ask(page, desk_column_aliases, 0, DESK_BINDING_BYTES), table_refs = ask(page, desk_table_refs, 0, DESK_REFERENCE_BYTES);
    printf("\nbefore: the names of the page, wherever the cursor stands\n");
    show_bindings(page, "WITH names", &with_names);
    show_bindings(page, "table aliases", &table_aliases);
    show_bindings(page, "column aliases", &column_aliases);
    show_tables(page, &table_refs);
    free(with_names.bytes); free(table_aliases.bytes); free(column_aliases.bytes); free(table_refs.bytes);
    printf("now: the names of ");
    say_text(page, span_of(page, at->entry.root));
    printf("\n");
    show_bindings(page, "WITH names", &at->with_names);
    show_bindings(page, "table aliases", &at->table_aliases);
    show_bindings(page, "column aliases", &at->column_aliases);
    show_tables(page, &at->table_refs);
}
