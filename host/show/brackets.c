/* Both ends of each pair of brackets. The library says which openers are left; the others nest, so each closer that fits the last of them is its end. */
#include "show.h"
#include <stdio.h>
#include <stdlib.h>
#include <string.h>

enum { UNPAIRED = 0, LEFT = 1, PAIRED = 2 };
struct ends { uint8_t *state; uint32_t *other; }; /* of each record: what it is, and of a paired one the other end */

static int is_opener(uint32_t kind) { return kind >= DESK_KIND_OPENING_ROUND && kind <= DESK_KIND_OPENING_CURLY; }
static int is_closer(uint32_t kind) { return kind >= DESK_KIND_CLOSING_ROUND && kind <= DESK_KIND_CLOSING_CURLY; }

static struct ends find_ends(const struct page *page) {
    struct ends ends = {room(page->records), room(page->records * sizeof(uint32_t))};
    struct list left = ask_page(page, desk_openers_left, DESK_OPENER_BYTES);
    uint32_t *open = room(page->records * sizeof *open), count = 0;
    for (uint32_t i = 0; i < left.count; i++) ends.state[desk_get_opener(left.bytes, i)] = LEFT;
    for (uint32_t i = 0; i < page->records; i++) {
        uint32_t kind = desk_get_record(page->table, i).kind;
        if (is_opener(kind) && ends.state[i] != LEFT) open[count++] = i;
        if (!is_closer(kind) || !count || desk_get_record(page->table, open[count - 1]).kind + 3 != kind) continue;
        uint32_t opener = open[--count];
        ends.state[i] = ends.state[opener] = PAIRED;
        ends.other[i] = opener;
        ends.other[opener] = i;
    }
    free(open);
    free(left.bytes);
    return ends;
}

static void forget(struct ends ends) { free(ends.state); free(ends.other); }

/* the letter of each pair, in order of the openers */
static char letter(unsigned pair) { return (char)('a' + pair % 26); }

/* Of each byte of the source: the letter of a pair at its two ends, ! at an opener that is left, ? at a closer that closes nothing, else 0. */
char *bracket_marks(const struct page *page) {
    struct ends ends = find_ends(page);
    char *marks = room(page->source_len);
    unsigned pairs = 0;
    for (uint32_t i = 0; i < page->records; i++) {
        struct desk_record r = desk_get_record(page->table, i);
        if ((!is_opener(r.kind) && !is_closer(r.kind)) || r.start == r.end) continue;
        if (ends.state[i] != PAIRED) marks[r.start] = ends.state[i] == LEFT ? '!' : '?';
        else if (is_opener(r.kind)) marks[r.start] = marks[desk_get_record(page->table, ends.other[i]).start] = letter(pairs++);
    }
    forget(ends);
    return marks;
}

static void say_bracket(const struct page *page, uint32_t record) {
    struct desk_range span = span_of(page, record);
    say_text(page, span);
    printf(" ");
    say_place(page, span.start);
}

/* What a parser's message speaks of, for each shape that a bracket was left of. */
static void show_hints(const struct page *page) {
    static const char *const messages[] = {"expected )", "expected ]", "expected }"};
    for (int i = 0; i < 3; i++) {
        uint32_t record = answered(page, desk_bracket_hint(ASKED(page), (const uint8_t *)messages[i], strlen(messages[i])));
        if (record == DESK_NONE) continue;
        printf("     \"%s\" speaks of ", messages[i]);
        say_bracket(page, record);
        printf("\n");
    }
}

void show_brackets(const struct page *page) {
    struct ends ends = find_ends(page);
    unsigned pairs = 0, some = 0;
    for (uint32_t i = 0; i < page->records; i++) {
        uint32_t kind = desk_get_record(page->table, i).kind;
        if ((!is_opener(kind) && !is_closer(kind)) || (is_closer(kind) && ends.state[i] == PAIRED)) continue;
        if (!some++) printf("\nbrackets\n");
        printf("  %c  ", ends.state[i] == PAIRED ? letter(pairs++) : ends.state[i] == LEFT ? '!' : '?');
        say_bracket(page, i);
        if (ends.state[i] == PAIRED) { printf(" and "); say_bracket(page, ends.other[i]); }
        else printf(ends.state[i] == LEFT ? " is not closed" : " closes nothing");
        printf("\n");
    }
    show_hints(page);
    forget(ends);
}
