/* A plugin for Debian's qemu-user: counts executed instructions, and prints the count at each mark that the program makes. A mark is the system
 * call getppid of x86-64, which nothing else here makes. Only calls that every version of the plugin interface has are used, declared here since
 * the emulator's package has no header. */
#include <stdint.h>
#include <stdio.h>

typedef struct block block;
typedef struct instruction instruction;
void qemu_plugin_register_vcpu_tb_trans_cb(uint64_t, void (*)(uint64_t, block *));
void qemu_plugin_register_vcpu_insn_exec_cb(instruction *, void (*)(unsigned, void *), int, void *);
void qemu_plugin_register_vcpu_syscall_cb(uint64_t, void (*)(uint64_t, unsigned, int64_t, uint64_t, uint64_t, uint64_t, uint64_t, uint64_t, uint64_t, uint64_t, uint64_t));
size_t qemu_plugin_tb_n_insns(const block *);
instruction *qemu_plugin_tb_get_insn(const block *, size_t);

enum { GETPPID = 110 };
int qemu_plugin_version = PLUGIN_VERSION;
static uint64_t executed;

static void ran(unsigned cpu, void *nothing) {
    (void)cpu, (void)nothing;
    executed++;
}

/* One by one: of a block whose last instruction crosses a page, the emulator takes it back and still counts it among the block's. */
static void translated(uint64_t id, block *b) {
    (void)id;
    for (size_t i = 0; i < qemu_plugin_tb_n_insns(b); i++) qemu_plugin_register_vcpu_insn_exec_cb(qemu_plugin_tb_get_insn(b, i), ran, 0, 0);
}

static void called(uint64_t id, unsigned cpu, int64_t number, uint64_t a, uint64_t b, uint64_t c, uint64_t d, uint64_t e, uint64_t f, uint64_t g, uint64_t h) {
    (void)id, (void)cpu, (void)a, (void)b, (void)c, (void)d, (void)e, (void)f, (void)g, (void)h;
    if (number == GETPPID) fprintf(stderr, "%llu\n", (unsigned long long)executed);
}

int qemu_plugin_install(uint64_t id, const void *info, int count, char **words) {
    (void)info, (void)count, (void)words;
    qemu_plugin_register_vcpu_tb_trans_cb(id, translated);
    qemu_plugin_register_vcpu_syscall_cb(id, called);
    return 0;
}
