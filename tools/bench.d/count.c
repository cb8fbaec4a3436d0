/* A plugin of QEMU's user-mode emulator that counts the guest's instructions, for a machine where callgrind cannot run the program. The program says
 * with a system call where a count begins and ends (tools/bench.d/count.rs), and each count goes to a file as a line. Its few declarations are
 * those of QEMU's plugin interface, version 1, which Debian brings no header for. */
#include <inttypes.h>
#include <stdbool.h>
#include <stdint.h>
#include <stdio.h>
#include <string.h>

typedef uint64_t plugin_id;
struct qemu_plugin_tb;
struct qemu_plugin_insn;
enum { ADD_U64 };
typedef void (*translated)(plugin_id, struct qemu_plugin_tb *);
typedef void (*called)(plugin_id, unsigned vcpu, int64_t number, uint64_t a1, uint64_t a2, uint64_t a3, uint64_t a4, uint64_t a5, uint64_t a6,
                       uint64_t a7, uint64_t a8);
extern void qemu_plugin_register_vcpu_tb_trans_cb(plugin_id, translated);
extern void qemu_plugin_register_vcpu_syscall_cb(plugin_id, called);
extern size_t qemu_plugin_tb_n_insns(const struct qemu_plugin_tb *);
extern struct qemu_plugin_insn *qemu_plugin_tb_get_insn(const struct qemu_plugin_tb *, size_t);
extern void qemu_plugin_register_vcpu_insn_exec_inline(struct qemu_plugin_insn *, int, void *, uint64_t);

int qemu_plugin_version = 1;

/* As count.rs has them: getpid, which takes no words, with these. */
enum { GETPID = 39, SIGN = 0x636e7431, BEGIN = 1, END = 2 };

static uint64_t executed, began;
static FILE *out;

static void count_each(plugin_id id, struct qemu_plugin_tb *block)
{
    (void)id;
    for (size_t k = 0; k < qemu_plugin_tb_n_insns(block); k++)
        qemu_plugin_register_vcpu_insn_exec_inline(qemu_plugin_tb_get_insn(block, k), ADD_U64, &executed, 1);
}

static void mark(plugin_id id, unsigned vcpu, int64_t number, uint64_t sign, uint64_t what, uint64_t a3, uint64_t a4, uint64_t a5, uint64_t a6,
                 uint64_t a7, uint64_t a8)
{
    (void)id, (void)vcpu, (void)a3, (void)a4, (void)a5, (void)a6, (void)a7, (void)a8;
    if (number != GETPID || sign != SIGN)
        return;
    if (what == BEGIN) {
        began = executed;
    } else if (what == END) {
        fprintf(out, "%" PRIu64 "\n", executed - began);
        fflush(out);
    }
}

int qemu_plugin_install(plugin_id id, const void *info, int argc, char **argv)
{
    (void)info;
    if (argc != 1 || strncmp(argv[0], "out=", 4) != 0 || (out = fopen(argv[0] + 4, "w")) == NULL) {
        fprintf(stderr, "count: it wants out=FILE, a file that can be written\n");
        return 1;
    }
    qemu_plugin_register_vcpu_tb_trans_cb(id, count_each);
    qemu_plugin_register_vcpu_syscall_cb(id, mark);
    return 0;
}
