/* page FILE: shows a page as a desk would. page --frame OFFSET FILE: writes it as a frame for glance. page --cursors OFFSETS FILE: what is typed at each. */
#define _POSIX_C_SOURCE 200809L
#include "show.h"
#include <errno.h>
#include <stdio.h>
#include <stdlib.h>
#include <string.h>
#include <unistd.h>

static const char help[] =
    "host/page [--at OFFSET] [--colour | --plain] [FILE]   shows a page as the desk would, at its cursor or at OFFSET\n"
    "host/page --cursors OFFSET,OFFSET.. [FILE]            says what is being typed at each of up to 64 cursors, in one call\n"
    "host/page --frame OFFSET [FILE]                       writes it as a frame for ./glance\n"
    "\n"
    "FILE is a page: the source, a line ---, and the tree, a line a node or token (docs/GUIDE.md, host/pages/*.page); - is standard input. Without\n"
    "FILE it is host/pages/morning.page. Colours are for a terminal, and not where NO_COLOR is set. Exit status: 0 shown, 1 refused, in words,\n"
    "2 a page that cannot be read, with its line.\n";

static void bad(const char *words, const char *given) {
    fprintf(stderr, "page: %s%s; --help says more\n", words, given);
    exit(2);
}

static uint32_t offset(const char *given) {
    char *end = NULL;
    errno = 0;
    unsigned long long n = given && given[0] >= '0' && given[0] <= '9' ? strtoull(given, &end, 10) : 0;
    if (!end || *end || errno || n > UINT32_MAX) bad("an offset is a number from 0 to 4294967295, not ", given ? given : "nothing");
    return (uint32_t)n;
}

static int coloured(void) {
    const char *terminal = getenv("TERM"), *none = getenv("NO_COLOR");
    return isatty(1) && !(none && *none) && terminal && strcmp(terminal, "dumb");
}

static int show(const struct page *page, int colours) {
    answered(page, desk_check(ASKED(page)));
    show_source(page, colours);
    struct at_cursor at = ask_everything(page);
    show_cursor(page, &at);
    show_offers(page, &at);
    free_everything(&at);
    show_classes(page, colours);
    show_brackets(page);
    return 0;
}

int main(int argc, char **argv) {
    struct page page = {0};
    const char *name = NULL, *at = NULL, *frame = NULL, *cursors = NULL;
    int colours = coloured();
    for (int i = 1; i < argc; i++) {
        if (!strcmp(argv[i], "--help") || !strcmp(argv[i], "-h")) { fputs(help, stdout); return 0; }
        else if (!strcmp(argv[i], "--colour") || !strcmp(argv[i], "--color")) colours = 1;
        else if (!strcmp(argv[i], "--plain")) colours = 0;
        else if (!strcmp(argv[i], "--at")) at = argv[++i], offset(at);
        else if (!strcmp(argv[i], "--cursors")) { if (!(cursors = argv[++i])) bad("cursors are offsets with a comma between two", ""); }
        else if (!strcmp(argv[i], "--frame")) frame = argv[++i], offset(frame);
        else if (argv[i][0] == '-' && argv[i][1]) bad("no such word: ", argv[i]);
        else if (name) bad("one page at a time, and not also ", argv[i]);
        else name = argv[i];
    }
    if (!name) bad("no page named", "");
    read_page(&page, name);
    if (at) page.cursor = offset(at);
    int status = frame ? write_frame(&page, offset(frame)) : cursors ? show_cursors(&page, cursors) : show(&page, colours);
    if (fflush(stdout) || ferror(stdout)) { fprintf(stderr, "page: cannot write what is to be shown\n"); return 2; }
    free(page.text);
    free(page.table);
    free(page.line_of);
    return status;
}
