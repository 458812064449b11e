/* Writes a page as a frame for glance: lines of lower-case hexadecimal digits. */
#include "show.h"
#include <inttypes.h>
#include <stdio.h>

/* what a frame has room for; glance refuses more */
enum { SOURCE_MAX = 4096, RECORDS_MAX = 1024, TWO_DIGITS = 255 };

int write_frame(const struct page *page, uint32_t offset) {
    if (page->source_len > SOURCE_MAX || page->records > RECORDS_MAX) {
        fprintf(stderr, "page: %s: a frame has room for %d bytes of source and %d records\n", page->name, SOURCE_MAX, RECORDS_MAX);
        return 2;
    }
    for (size_t i = 0; i < page->source_len; i++) printf("%02x", page->source[i]);
    printf("\n%08" PRIx32 "\n", offset);
    for (size_t i = 0; i < page->records; i++) {
        struct desk_record r = desk_get_record(page->table, i);
        if (r.kind > TWO_DIGITS || r.depth > TWO_DIGITS) {
            fprintf(stderr, "page: %s, line %" PRIu32 ": a frame has two digits for a kind and for a depth\n", page->name, page->line_of[i]);
            return 2;
        }
        printf("%02" PRIx32 "%02" PRIx32 "%08" PRIx32 "%08" PRIx32 "%08" PRIx32 "\n", r.kind, r.depth, r.start, r.end, r.parent);
    }
    return 0;
}
