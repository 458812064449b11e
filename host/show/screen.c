/* The source, line by line, with its tokens in the colours of their classes, its brackets marked and a caret under the cursor. */
#include "show.h"
#include <stdio.h>
#include <stdlib.h>
#include <string.h>

static const char *const names[] = {"keyword", "function", "string", "number", "comment", "operator", "variable", "type", "parameter", "property"};
enum { CLASSES = sizeof names / sizeof *names };

const char *class_colour(uint32_t token_class) {
    static const char *const colours[CLASSES] = {"1;34", "36", "32", "35", "90", "31", "96", "33", "95", "92"};
    return colours[token_class];
}

/* of each byte of the source, its token's class and 1, or 0 */
static uint8_t *classed(const struct page *page) {
    uint8_t *classes = room(page->source_len);
    struct list list = ask_page(page, desk_token_classes, DESK_CLASS_BYTES);
    for (uint32_t i = 0; i < list.count; i++) {
        struct desk_class_entry e = desk_get_class(list.bytes, i);
        memset(classes + e.token.start, (int)(e.token_class + 1), e.token.end - e.token.start);
    }
    free(list.bytes);
    return classes;
}

/* A byte that would move a terminal's cursor is shown as a question mark. */
static void say_byte(uint8_t byte) { putchar((byte < ' ' && byte != '\t') || byte == 127 ? '?' : byte); }

static void say_line(const struct page *page, size_t from, size_t to, const uint8_t *classes, const char *marks) {
    const char *now = NULL;
    for (size_t i = from; i < to; i++) {
        const char *colour = !classes ? NULL : marks[i] == '!' ? "1;41" : classes[i] ? class_colour(classes[i] - 1u) : NULL;
        if (colour != now) printf("\033[0%s%sm", colour ? ";" : "", colour ? colour : "");
        now = colour;
        say_byte(page->source[i]);
    }
    printf("%s\n", now ? "\033[0m" : "");
}

/* The room below a byte: a tab below a tab, nothing below what continues a character. */
static void say_below(uint8_t byte, char mark) {
    if ((byte & 0xc0) == 0x80) return;
    putchar(mark ? mark : byte == '\t' ? '\t' : ' ');
}

static void say_marks(const struct page *page, size_t from, size_t to, const char *marks) {
    size_t last = to;
    while (last > from && !marks[last - 1]) last--;
    if (last == from) return;
    for (size_t i = from; i < last; i++) say_below(page->source[i], marks[i]);
    printf("\n");
}

void show_source(const struct page *page, int colours) {
    char *marks = bracket_marks(page);
    uint8_t *classes = colours ? classed(page) : NULL;
    for (size_t from = 0, to; from <= page->source_len; from = to + 1) {
        const uint8_t *lf = from < page->source_len ? memchr(page->source + from, '\n', page->source_len - from) : NULL;
        to = lf ? (size_t)(lf - page->source) : page->source_len;
        say_line(page, from, to, classes, marks);
        say_marks(page, from, to, marks);
        if (page->cursor < from || page->cursor > to) continue;
        for (size_t i = from; i < page->cursor; i++) say_below(page->source[i], 0);
        printf("^\n");
    }
    if (page->cursor > page->source_len) printf("the cursor stands past the source, at %lu\n", (unsigned long)page->cursor);
    free(marks);
    free(classes);
}

/* Each class that the page has, with its tokens: the same in words for who sees no colours. */
void show_classes(const struct page *page, int colours) {
    struct list list = ask_page(page, desk_token_classes, DESK_CLASS_BYTES);
    printf("\nclasses\n");
    for (uint32_t c = 0; c < CLASSES; c++) {
        int some = 0;
        for (uint32_t i = 0; i < list.count; i++) {
            struct desk_class_entry e = desk_get_class(list.bytes, i);
            if (e.token_class != c) continue;
            if (!some++) { printf("  %-15s", names[c]); if (colours) printf("\033[0;%sm", class_colour(c)); }
            printf(" ");
            say_text(page, e.token);
        }
        if (some) printf("%s\n", colours ? "\033[0m" : "");
    }
    free(list.bytes);
}
