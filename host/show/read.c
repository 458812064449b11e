/* Reads a page: the source; a line `---`, or `--- OFFSET` for the cursor, which else stands at the source's end; then the tree as it is printed, a line
 * a node or token, two spaces a depth, a node by its kind's name, a token by its text between single quotes. A node may have its span behind its
 * name, START..END; else it is that of its tokens. Tokens are sought in the source one behind the other; blanks between them need no line. */
#include "show.h"
#include <inttypes.h>
#include <stdarg.h>
#include <stdio.h>
#include <stdlib.h>
#include <string.h>

static struct page *made;
static size_t at, line_end, text_len;   /* the line being read, in the text */
static uint32_t line;                   /* its number, from 1 */
static size_t read_to;                  /* how far the source has been read */
static uint32_t *above, open_nodes;     /* the node of each depth that the next line may stand below */
static uint8_t *spanned;                /* of each record, whether its span was given */
static unsigned others;                 /* names that are not listed */

void *room(size_t bytes) {
    void *some = calloc(bytes + 1, 1);
    if (!some) { fprintf(stderr, "page: no memory\n"); exit(2); }
    return some;
}

static void bad(const char *words, ...) {
    va_list more;
    va_start(more, words);
    fprintf(stderr, "page: %s, line %" PRIu32 ": ", made->name, line);
    vfprintf(stderr, words, more);
    fprintf(stderr, "\n");
    va_end(more);
    exit(2);
}

static void read_text(void) {
    FILE *file = strcmp(made->name, "-") ? fopen(made->name, "rb") : stdin;
    if (file == stdin) made->name = "standard input";
    size_t room_len = 1 << 16, got;
    uint8_t *text = room(room_len);
    if (!file) { fprintf(stderr, "page: cannot read %s\n", made->name); exit(2); }
    while ((got = fread(text + text_len, 1, room_len - text_len, file)) > 0) {
        text_len += got;
        if (text_len == room_len && !(text = realloc(text, (room_len *= 2) + 1))) { fprintf(stderr, "page: no memory\n"); exit(2); }
    }
    if (ferror(file)) { fprintf(stderr, "page: cannot read %s: is it a directory?\n", made->name); exit(2); }
    made->text = text;
}

/* Goes to the next line; 0 where there is none. */
static int next_line(void) {
    at = line ? line_end + 1 : 0;
    line++;
    if (at >= text_len) return 0;
    const uint8_t *lf = memchr(made->text + at, '\n', text_len - at);
    line_end = lf ? (size_t)(lf - made->text) : text_len;
    return 1;
}

/* A number of the line from `from` on; the place behind it, or 0 where there is none. */
static size_t read_number(size_t from, uint32_t *n) {
    uint64_t value = 0;
    size_t to = from;
    for (; to < line_end && made->text[to] >= '0' && made->text[to] <= '9'; to++) {
        value = value * 10 + (uint64_t)(made->text[to] - '0');
        if (value > UINT32_MAX) bad("a number over 4294967295");
    }
    *n = (uint32_t)value;
    return to > from ? to : 0;
}

static void read_source(void) {
    made->source = made->text;
    while (next_line()) {
        if (line_end - at < 3 || memcmp(made->text + at, "---", 3) || (line_end > at + 3 && made->text[at + 3] != ' ')) continue;
        made->source_len = at ? at - 1 : 0;
        made->cursor = (uint32_t)made->source_len;
        if (line_end > at + 3 && read_number(at + 4, &made->cursor) != line_end) bad("behind --- stands the cursor's offset, a number");
        return;
    }
    bad("there is no line --- behind the source");
}

static void add(uint32_t kind, uint32_t depth, struct desk_range span) {
    struct desk_record record = {kind, depth, span.start, span.end, depth ? above[depth - 1] : 0};
    desk_put_record(made->table, made->records, record);
    made->line_of[made->records++] = line;
}

/* A node's span grows with each token below it. */
static void reach(uint32_t depth, struct desk_range span) {
    for (uint32_t d = 0; d < depth; d++) {
        struct desk_record node = desk_get_record(made->table, above[d]);
        if (spanned[above[d]]) continue;
        if (node.start > span.start) node.start = span.start;
        if (node.end < span.end) node.end = span.end;
        desk_put_record(made->table, above[d], node);
    }
}

static int blank(uint8_t byte) { return byte == ' ' || byte == '\t' || byte == '\r' || byte == '\n'; }

/* `'text'`, which may go on over lines to the first that ends in a quote. */
static void read_token(uint32_t depth, size_t from) {
    size_t begun = line_end;
    while (line_end < from + 2 || made->text[line_end - 1] != '\'') {
        const uint8_t *lf = line_end < text_len ? memchr(made->text + line_end + 1, '\n', text_len - line_end - 1) : NULL;
        if (line_end + 1 >= text_len) { line_end = begun; bad("a token's text ends in a single quote"); }
        line_end = lf ? (size_t)(lf - made->text) : text_len;
    }
    const uint8_t *text = made->text + from + 1;
    size_t len = line_end - 1 - (from + 1);
    if (!len) bad("a token without text");
    uint32_t kind = token_kind(text, len);
    while (kind != DESK_KIND_WHITESPACE && read_to < made->source_len && blank(made->source[read_to])) read_to++;
    size_t left = made->source_len - read_to;
    if (len > left || memcmp(made->source + read_to, text, len))
        bad("'%.*s' does not stand next in the source, which has '%.*s'", (int)len, (const char *)text, (int)(left < 20 ? left : 20),
            (const char *)made->source + read_to);
    struct desk_range span = {(uint32_t)read_to, (uint32_t)(read_to + len)};
    add(kind, depth, span);
    reach(depth, span);
    read_to += len;
    open_nodes = depth;
    for (size_t i = from; i < line_end; i++) line += made->text[i] == '\n';
}

static void read_node(uint32_t depth, size_t from) {
    const char *name = (const char *)made->text + from;
    size_t len = 0;
    while (from + len < line_end && name[len] != ' ') len++;
    uint32_t kind;
    struct desk_range span = {DESK_NONE, 0};
    int known = kind_named(name, len, &kind);
    if (known < 0) bad("neither a kind's name nor a token's text in single quotes: %.*s", (int)(line_end - from), name);
    if (known == 0) fprintf(stderr, others++ ? ", %.*s (line %" PRIu32 ")" : "page: not listed, taken as Other: %.*s (line %" PRIu32 ")", (int)len, name, line);
    if (from + len < line_end) {
        size_t dots = read_number(from + len + 1, &span.start);
        if (!dots || line_end - dots < 3 || memcmp(made->text + dots, "..", 2) || read_number(dots + 2, &span.end) != line_end)
            bad("behind a kind's name stands nothing, or its span: START..END");
        spanned[made->records] = 1;
    }
    above[depth] = (uint32_t)made->records;
    add(kind, depth, span);
    open_nodes = depth + 1;
}

static void read_record(void) {
    size_t from = at;
    while (from < line_end && made->text[from] == ' ') from++;
    if (from == line_end) return;
    if (made->text[from] == '\t') bad("a tab: two spaces are a depth");
    if (made->text[line_end - 1] == '\r') bad("a carriage return at its end");
    uint32_t depth = (uint32_t)(from - at) / 2;
    if ((from - at) % 2) bad("%u spaces before it: two are a depth", (unsigned)(from - at));
    if (!made->records && (depth || made->text[from] == '\'')) bad("the tree begins with a node that is not indented");
    if (made->records && !depth) bad("a second node that is not indented: a tree has one");
    if (depth > open_nodes) bad("%" PRIu32 " deep, where %" PRIu32 " is the deepest that fits below the line before", depth, open_nodes);
    if (made->text[from] == '\'') read_token(depth, from);
    else read_node(depth, from);
}

void read_page(struct page *page, const char *name) {
    made = page;
    made->name = name;
    read_text();
    size_t lines = 2;
    for (size_t i = 0; i < text_len; i++) lines += made->text[i] == '\n';
    made->table = room(lines * DESK_RECORD_BYTES);
    made->line_of = room(lines * sizeof *made->line_of);
    above = room(lines * sizeof *above);
    spanned = room(lines);
    read_source();
    while (next_line()) read_record();
    if (others) fprintf(stderr, "\n");
    if (!made->records) bad("there is no tree behind ---");
    free(above);
    free(spanned);
}
