/* The archive in a program that has no library at all, not even C's: it starts itself, brings the two functions that the archive needs, and
 * asks. Linked with every object of the archive. Exits 0 where the answers are right. */
#include "desk.h"

void *memset(void *to, int with, size_t count) {
    for (unsigned char *at = to; count; count--) *at++ = (unsigned char)with;
    return to;
}

void *memcpy(void *to, const void *from, size_t count) {
    unsigned char *at = to;
    for (const unsigned char *next = from; count; count--) *at++ = *next++;
    return to;
}

/* `( [ )`: both openers are left, the second is the one that "expected ]" speaks of, and a File that has no statement is typed at its start. */
static int wrong(void) {
    static const uint8_t table[] = {
        1, 0, 0, 0, 0, 0, 0, 0, 0, 0, 0, 0, 5, 0, 0, 0, 0, 0, 0, 0, 137, 0, 0, 0, 1, 0, 0, 0, 0, 0, 0, 0, 1, 0, 0, 0, 0, 0, 0, 0,
        138, 0, 0, 0, 1, 0, 0, 0, 2, 0, 0, 0, 3, 0, 0, 0, 0, 0, 0, 0, 140, 0, 0, 0, 1, 0, 0, 0, 4, 0, 0, 0, 5, 0, 0, 0, 0, 0, 0, 0};
    static const uint8_t source[] = "( [ )", message[] = "expected ]";
    static uint8_t out[2 * DESK_OPENER_BYTES], kept[DESK_BINDING_BYTES];
    uint64_t left = desk_openers_left(table, sizeof table, source, 5, out, sizeof out);
    uint64_t hint = desk_bracket_hint(table, sizeof table, source, 5, message, 10);
    uint64_t root = desk_cursor_root(table, sizeof table, source, 5, 3);
    uint64_t with = desk_with_names(table, sizeof table, source, 5, 0, kept, sizeof kept); /* a list that is kept aside and copied: there is none */
    if (with != 0 || kept[0] != 0) return 1;
    return left != UINT64_C(2) << 32 || out[0] != 1 || out[4] != 2 || hint != UINT64_C(2) << 32 || root != 0;
}

_Noreturn void _start(void);
__attribute__((force_align_arg_pointer)) void _start(void) {
    for (;;) __asm__ volatile("syscall" : : "a"(231), "D"((long)wrong()) : "rcx", "r11", "memory"); /* exit_group */
}
