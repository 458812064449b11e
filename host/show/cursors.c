/* All cursors of a page that many people have open, in one call. */
#include "show.h"
#include <stdio.h>
#include <stdlib.h>
#include <string.h>

/* The offset that stands at `at`, up to a comma or the end; what is behind it, or NULL where it is no number of 32 bits. */
static const char *read_offset(const char *at, uint8_t *bytes) {
    uint64_t n = 0;
    const char *digit = at;
    for (; *digit >= '0' && *digit <= '9' && n <= UINT32_MAX; digit++) n = 10 * n + (uint64_t)(*digit - '0');
    if (digit == at || n > UINT32_MAX || (*digit && *digit != ',')) return NULL;
    desk_put_number(bytes, (uint32_t)n);
    return digit;
}

int show_cursors(const struct page *page, const char *given) {
    size_t count = 1;
    for (const char *at = given; *at; at++) count += *at == ',';
    uint8_t *offsets = room(count * DESK_OFFSET_BYTES), *out = room(count * DESK_CONTEXT_BYTES);
    const char *at = given;
    for (size_t i = 0; i < count; i++, at += *at == ',')
        if (!(at = read_offset(at, offsets + i * DESK_OFFSET_BYTES))) {
            fprintf(stderr, "page: cursors are offsets with a comma between two, not %s; --help says more\n", given);
            return 2;
        }
    uint32_t entries = answered(page, desk_cursor_contexts(ASKED(page), offsets, count * DESK_OFFSET_BYTES, out, count * DESK_CONTEXT_BYTES));
    for (uint32_t i = 0; i < entries; i++) {
        printf("at ");
        say_place(page, desk_get_number(offsets + i * DESK_OFFSET_BYTES));
        printf(" is being typed ");
        say_context(page, desk_get_context(out, i));
    }
    free(offsets);
    free(out);
    return 0;
}
