/* A small host in parts: a page is read from its readable form (read.c, kinds.c), shown as a desk would (screen.c, offers.c, cursors.c, list.c), or written as a
 * frame for glance (frame.c). It uses the header and the archive only. */
#ifndef SHOW_H
#define SHOW_H
#include "../desk.h"

struct page {
    const char *name;               /* of the file, for errors */
    uint8_t *text;                  /* the file, in which the source stands */
    const uint8_t *source;
    size_t source_len;
    uint8_t *table;
    size_t records;
    uint32_t *line_of;              /* the page's line that each record stands on, from 1 */
    uint32_t cursor;
};

/* what every question takes first */
#define ASKED(p) (p)->table, (p)->records * DESK_RECORD_BYTES, (p)->source, (p)->source_len

/* kinds.c */
const char *kind_name(uint32_t kind);
int kind_named(const char *name, size_t len, uint32_t *kind); /* 1 listed, 0 another name, -1 no name */
uint32_t token_kind(const uint8_t *text, size_t len);

/* read.c: ends the program with the file's line where the page is bad */
void read_page(struct page *page, const char *name);
void *room(size_t bytes);

/* frame.c: 0, or 2 where the page is too long for a frame */
int write_frame(const struct page *page, uint32_t offset);

/* list.c */
struct list { uint8_t *bytes; uint32_t count; };
typedef uint64_t question(const uint8_t *, size_t, const uint8_t *, size_t, uint32_t, uint8_t *, size_t);
typedef uint64_t page_question(const uint8_t *, size_t, const uint8_t *, size_t, uint8_t *, size_t);
struct list ask(const struct page *page, question *asked, uint32_t of, size_t width);
struct list ask_page(const struct page *page, page_question *asked, size_t width);
/* everything at the cursor: the entry, and each list */
struct at_cursor { struct desk_everything_entry entry; struct list with_names, table_aliases, column_aliases, table_refs; };
struct at_cursor ask_everything(const struct page *page);
void free_everything(struct at_cursor *at);
uint32_t answered(const struct page *page, uint64_t reply); /* ends the program, saying the refusal in words, where there is no answer */
struct desk_range span_of(const struct page *page, uint32_t record);
void say_place(const struct page *page, uint32_t offset);   /* line and column, from 1 */
void say_text(const struct page *page, struct desk_range range);

/* screen.c, brackets.c: the source, coloured where `colours`, with marks and the caret below its lines */
const char *const *class_names(void);
const char *class_colour(uint32_t token_class);
void show_source(const struct page *page, int colours);
void show_classes(const struct page *page, int colours);
char *bracket_marks(const struct page *page);
void show_brackets(const struct page *page);

/* cursors.c: offsets as they are given, with a comma between two; 0, or 2 where they are no numbers */
int show_cursors(const struct page *page, const char *given);

/* offers.c */
void say_context(const struct page *page, struct desk_context_entry e);
void show_cursor(const struct page *page, const struct at_cursor *at);
void show_offers(const struct page *page, const struct at_cursor *at);
#endif
