// A plugin for qemu's user emulation: how many instructions the program has run at each of its marks (driver.c), one line a mark.
// Every instruction is counted as it runs. Adding up whole blocks would be quicker, and is now and then one too many: a block's length still
// has the instruction that was taken out of it where it crosses a page.
#include <stdint.h>
#include <stdio.h>
#include <string.h>

// What is used of qemu-plugin.h, which Debian does not ship beside the emulator.
typedef uint64_t plugin_id;
struct qemu_plugin_tb;
struct qemu_plugin_insn;
extern void qemu_plugin_register_vcpu_tb_trans_cb(plugin_id, void (*)(plugin_id, struct qemu_plugin_tb *));
extern size_t qemu_plugin_tb_n_insns(const struct qemu_plugin_tb *);
extern struct qemu_plugin_insn *qemu_plugin_tb_get_insn(const struct qemu_plugin_tb *, size_t at);
extern void qemu_plugin_register_vcpu_insn_exec_cb(struct qemu_plugin_insn *, void (*)(unsigned, void *), int flags, void *with);
extern void qemu_plugin_register_vcpu_syscall_cb(plugin_id, void (*)(plugin_id, unsigned, int64_t, uint64_t, uint64_t, uint64_t,
                                                                     uint64_t, uint64_t, uint64_t, uint64_t, uint64_t));

__attribute__((visibility("default"))) int qemu_plugin_version = PLUGIN_VERSION;

enum { MARK = 110 };

static uint64_t instructions;
static FILE *marks;

static void ran(unsigned cpu, void *with) {
    instructions++;
}

static void translated(plugin_id id, struct qemu_plugin_tb *block) {
    for (size_t at = 0; at < qemu_plugin_tb_n_insns(block); at++)
        qemu_plugin_register_vcpu_insn_exec_cb(qemu_plugin_tb_get_insn(block, at), ran, 0, NULL);
}

static void called(plugin_id id, unsigned cpu, int64_t number, uint64_t a, uint64_t b, uint64_t c, uint64_t d, uint64_t e, uint64_t f,
                   uint64_t g, uint64_t h) {
    if (number != MARK) return;
    fprintf(marks, "%llu\n", (unsigned long long)instructions);
    fflush(marks);
}

// The one argument is out=FILE.
__attribute__((visibility("default"))) int qemu_plugin_install(plugin_id id, const void *info, int argc, char **argv) {
    if (argc != 1 || strncmp(argv[0], "out=", 4) != 0) return 1;
    marks = fopen(argv[0] + 4, "w");
    if (marks == NULL) return 1;
    qemu_plugin_register_vcpu_tb_trans_cb(id, translated);
    qemu_plugin_register_vcpu_syscall_cb(id, called);
    return 0;
}
