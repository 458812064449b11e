/* Asking: the count first, then the list in a room of that many entries; a refusal in words; text and places of the source. */
#include "show.h"
#include <inttypes.h>
#include <stdio.h>
#include <stdlib.h>
#include <string.h>

uint32_t answered(const struct page *page, uint64_t reply) {
    uint32_t refusal = DESK_REFUSAL(reply), detail = DESK_ANSWER(reply);
    if (!refusal) return detail;
    printf("refused: ");
    if (!strcmp(desk_detail_words(refusal), "record")) printf("record %" PRIu32 " (%s, line %" PRIu32 "): ", detail, page->name, page->line_of[detail]);
    printf("%s", desk_refusal_words(refusal));
    if (refusal == DESK_REFUSAL_ROOM) printf(", %" PRIu32 " entries", detail);
    printf(" (refusal %" PRIu32 ")\n", refusal);
    exit(1);
}

/* the count of a list from a reply to a question without room */
static uint32_t counted(const struct page *page, uint64_t reply) {
    return DESK_REFUSAL(reply) == DESK_REFUSAL_ROOM ? DESK_ANSWER(reply) : answered(page, reply);
}

struct list ask(const struct page *page, question *asked, uint32_t of, size_t width) {
    struct list list;
    list.count = counted(page, asked(ASKED(page), of, NULL, 0));
    list.bytes = room(list.count * width);
    answered(page, asked(ASKED(page), of, list.bytes, list.count * width));
    return list;
}

struct list ask_page(const struct page *page, page_question *asked, size_t width) {
    struct list list;
    list.count = counted(page, asked(ASKED(page), NULL, 0));
    list.bytes = room(list.count * width);
    answered(page, asked(ASKED(page), list.bytes, list.count * width));
    return list;
}

/* One call for all of it. A room that is too small is made larger for every list by what the refusal says, and then it is asked again. */
struct at_cursor ask_everything(const struct page *page) {
    struct at_cursor at;
    uint8_t entry[DESK_EVERYTHING_BYTES];
    for (uint32_t entries = 8;;) {
        size_t bindings = entries * (size_t)DESK_BINDING_BYTES, references = entries * (size_t)DESK_REFERENCE_BYTES;
        at.with_names.bytes = room(bindings), at.table_aliases.bytes = room(bindings), at.column_aliases.bytes = room(bindings), at.table_refs.bytes = room(references);
        uint64_t reply = desk_everything_at(ASKED(page), page->cursor, entry, sizeof entry, at.with_names.bytes, bindings, at.table_aliases.bytes, bindings,
            at.column_aliases.bytes, bindings, at.table_refs.bytes, references);
        if (DESK_REFUSAL(reply) != DESK_REFUSAL_ROOM) { answered(page, reply); break; }
        entries = DESK_ANSWER(reply);
        free_everything(&at);
    }
    at.entry = desk_get_everything(entry);
    at.with_names.count = at.entry.with_names, at.table_aliases.count = at.entry.table_aliases;
    at.column_aliases.count = at.entry.column_aliases, at.table_refs.count = at.entry.table_refs;
    return at;
}

void free_everything(struct at_cursor *at) {
    free(at->with_names.bytes); free(at->table_aliases.bytes); free(at->column_aliases.bytes); free(at->table_refs.bytes);
}

/* a record's span, as far as the source has it */
struct desk_range span_of(const struct page *page, uint32_t record) {
    struct desk_record r = desk_get_record(page->table, record);
    struct desk_range span = {r.start, r.end};
    return desk_cut_range(span, page->source_len);
}

void say_place(const struct page *page, uint32_t offset) {
    uint32_t lines = 1, column = 1;
    for (uint32_t i = 0; i < offset && i < page->source_len; i++) {
        if (page->source[i] == '\n') lines++, column = 1;
        else if ((page->source[i] & 0xc0) != 0x80) column++;
    }
    printf("line %" PRIu32 ", column %" PRIu32, lines, column);
}

/* a text of any length in one line: blanks and line ends as one space, what is long cut in its middle */
void say_text(const struct page *page, struct desk_range range) {
    enum { MOST = 60, EACH_END = 28 };
    struct desk_range cut = desk_cut_range(range, page->source_len);
    char *text = room(cut.end - cut.start);
    size_t len = 0;
    for (uint32_t i = cut.start; i < cut.end; i++) {
        uint8_t byte = page->source[i];
        if (byte > ' ' && byte != 127) text[len++] = (char)byte;
        else if (len && text[len - 1] != ' ') text[len++] = ' ';
    }
    if (len <= MOST) printf("%.*s", (int)len, text);
    else printf("%.*s .. %.*s", EACH_END, text, EACH_END, text + len - EACH_END);
    free(text);
}
