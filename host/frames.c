/* Asks the archive what glance answers, on the frames of the stored list (crates/replay/stdin): each reply, in glance's words, must be the
 * answer that stands there. Frames that only the program refuses (R 9) are no tables, and are passed over. */
#include <inttypes.h>
#include <stdio.h>
#include <stdlib.h>
#include <string.h>
#include "desk.h"

enum { SOURCE = 4096, RECORDS = 1024, ROOM = 16384, TEXT = 1 << 18 };

static uint8_t table[RECORDS * DESK_RECORD_BYTES], source[SOURCE], out[ROOM];
static size_t table_len, source_len;
static char text[TEXT];
static size_t text_len;

static uint32_t number(const uint8_t *bytes) { return bytes[0] | bytes[1] << 8 | bytes[2] << 16 | (uint32_t)bytes[3] << 24; }

static void put(uint8_t *bytes, uint32_t n) {
    for (int i = 0; i < 4; i++) bytes[i] = n >> 8 * i & 255;
}

static uint32_t digits(const char *at, int n) {
    char some[9] = {0};
    memcpy(some, at, n);
    return (uint32_t)strtoul(some, NULL, 16);
}

static void say(const char *words) { text_len += sprintf(text + text_len, "%s", words); }

static void say_number(uint32_t n) { text_len += sprintf(text + text_len, " %" PRIu32, n); }

static void say_range(const uint8_t *two) {
    if (number(two) == DESK_NONE && number(two + 4) == DESK_NONE) say(" - -");
    else { say_number(number(two)); say_number(number(two + 4)); }
}

/* the entries of a list, a line each: a letter, some numbers, some ranges */
static void say_list(const char *letter, uint32_t entries, int numbers, int ranges) {
    const uint8_t *at = out;
    for (uint32_t i = 0; i < entries; i++) {
        say(letter);
        for (int k = 0; k < numbers; k++, at += 4) say_number(number(at));
        for (int k = 0; k < ranges; k++, at += 8) say_range(at);
        say("\n");
    }
}

static void say_refusal(uint64_t reply) {
    say("R");
    say_number(DESK_REFUSAL(reply));
    say_number(DESK_ANSWER(reply));
    say("\n");
}

/* the lines of a frame that has no fault of form */
static uint32_t read_frame(const char *at, const char *end) {
    source_len = table_len = 0;
    for (; *at != '\n'; at += 2) source[source_len++] = (uint8_t)digits(at, 2);
    uint32_t offset = digits(++at, 8);
    for (at += 9; at < end; at += 29, table_len += DESK_RECORD_BYTES) {
        put(table + table_len, digits(at, 2));
        put(table + table_len + 4, digits(at + 2, 2));
        put(table + table_len + 8, digits(at + 4, 8));
        put(table + table_len + 12, digits(at + 12, 8));
        put(table + table_len + 16, digits(at + 20, 8));
    }
    return offset;
}

static void answer(uint32_t offset) {
    text_len = 0;
    uint64_t refs = desk_table_refs(table, table_len, source, source_len, 0, out, ROOM);
    if (DESK_REFUSAL(refs)) { say_refusal(refs); return; }
    desk_cursor_context(table, table_len, source, source_len, offset, out, ROOM);
    say("C");
    say_number(number(out));
    say_range(out + 4);
    say_number(number(out + 12));
    say("\nS");
    uint32_t statement = DESK_ANSWER(desk_enclosing_statement(table, table_len, source, source_len, offset));
    if (statement == DESK_NONE) say(" -");
    else say_number(statement);
    say("\n");
    desk_table_refs(table, table_len, source, source_len, 0, out, ROOM);
    say_list("T", DESK_ANSWER(refs), 1, 6);
    say_list("K", DESK_ANSWER(desk_token_classes(table, table_len, source, source_len, out, ROOM)), 3, 0);
    say_list("O", DESK_ANSWER(desk_openers_left(table, table_len, source, source_len, out, ROOM)), 1, 0);
    say("E\n");
}

int main(int argc, char **argv) {
    FILE *list = argc == 2 ? fopen(argv[1], "rb") : NULL;
    if (!list) { fprintf(stderr, "frames LIST\n"); return 2; }
    int frames = 0, asked = 0, wrong = 0;
    char head[18] = {0};
    for (; fread(head, 1, 17, list) == 17; frames++) {
        size_t input_len = digits(head, 8), stored_len = digits(head + 8, 8);
        char *input = malloc(input_len + 1), *stored = malloc(stored_len + 1);
        if (fread(input, 1, input_len, list) != input_len || fread(stored, 1, stored_len, list) != stored_len) { puts("the list breaks off"); return 1; }
        if (stored_len < 4 || memcmp(stored, "R 9 ", 4) != 0) {
            answer(read_frame(input, input + input_len));
            asked++;
            if (text_len != stored_len || memcmp(text, stored, text_len) != 0) { wrong++; printf("another answer at frame %d\n", frames); }
        }
        free(input);
        free(stored);
    }
    printf("%d frames answered as glance prints them\n", asked - wrong);
    return wrong != 0 || asked == 0;
}
