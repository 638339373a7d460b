/* icount.c: a plugin for qemu-user 7.2 that counts the instructions of the emulated program exactly, by one add at each. The program marks a call by a system
 * call that Linux does not have: MARK with 1 where it begins and 2 where it ends. A line of the file out=FILE is one count.
 * With hot=FILE it also counts each instruction by its address, between the marks or not, for hot.py. */
#include <inttypes.h>
#include <stdio.h>
#include <stdlib.h>
#include <string.h>
#define MARK 0x7a7a

/* what is used of qemu's interface, version 1 */
struct qemu_plugin_tb;
struct qemu_plugin_insn;
typedef uint64_t plugin_id;
size_t qemu_plugin_tb_n_insns(const struct qemu_plugin_tb *);
struct qemu_plugin_insn *qemu_plugin_tb_get_insn(const struct qemu_plugin_tb *, size_t);
uint64_t qemu_plugin_insn_vaddr(const struct qemu_plugin_insn *);
void qemu_plugin_register_vcpu_insn_exec_inline(struct qemu_plugin_insn *, int add_u64, void *, uint64_t);
void qemu_plugin_register_vcpu_tb_trans_cb(plugin_id, void (*)(plugin_id, struct qemu_plugin_tb *));
typedef void syscall_cb(plugin_id, unsigned, int64_t, uint64_t, uint64_t, uint64_t, uint64_t, uint64_t, uint64_t, uint64_t, uint64_t);
void qemu_plugin_register_vcpu_syscall_cb(plugin_id, syscall_cb *);
void qemu_plugin_register_atexit_cb(plugin_id, void (*)(plugin_id, void *), void *);
int qemu_plugin_version = 1;

static uint64_t count, start;
static FILE *out;
static const char *hot;
enum { SLOTS = 1 << 20 };
static struct { uint64_t address, count; } *slots;

static uint64_t *slot(uint64_t address)
{
    size_t h = address * 0x9E3779B97F4A7C15 >> 44;
    while (slots[h].address && slots[h].address != address) h = (h + 1) % SLOTS;
    slots[h].address = address;
    return &slots[h].count;
}

static void translated(plugin_id id, struct qemu_plugin_tb *tb)
{
    for (size_t i = 0; i < qemu_plugin_tb_n_insns(tb); i++) {
        struct qemu_plugin_insn *insn = qemu_plugin_tb_get_insn(tb, i);
        qemu_plugin_register_vcpu_insn_exec_inline(insn, 0, &count, 1);
        if (hot) qemu_plugin_register_vcpu_insn_exec_inline(insn, 0, slot(qemu_plugin_insn_vaddr(insn)), 1);
    }
}

static void on_syscall(plugin_id id, unsigned cpu, int64_t number, uint64_t what, uint64_t b, uint64_t c, uint64_t d, uint64_t e, uint64_t f, uint64_t g, uint64_t h)
{
    if (number != MARK) return;
    if (what == 2) fprintf(out, "%" PRIu64 "\n", count - start);
    start = count;
}

static void at_exit(plugin_id id, void *unused)
{
    fflush(out);
    FILE *f = hot ? fopen(hot, "w") : NULL;
    for (size_t i = 0; f && i < SLOTS; i++)
        if (slots[i].count) fprintf(f, "%" PRIx64 " %" PRIu64 "\n", slots[i].address, slots[i].count);
    if (f) fclose(f);
}

int qemu_plugin_install(plugin_id id, const void *info, int argc, char **argv)
{
    out = stderr;
    for (int i = 0; i < argc; i++) {
        if (!strncmp(argv[i], "out=", 4)) out = fopen(argv[i] + 4, "w");
        if (!strncmp(argv[i], "hot=", 4)) hot = strdup(argv[i] + 4), slots = calloc(SLOTS, sizeof *slots);
    }
    if (!out || (hot && !slots)) return -1;
    qemu_plugin_register_vcpu_tb_trans_cb(id, translated);
    qemu_plugin_register_vcpu_syscall_cb(id, on_syscall);
    qemu_plugin_register_atexit_cb(id, at_exit, NULL);
    return 0;
}
