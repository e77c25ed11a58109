/* A plugin of qemu-user: counts the instructions of the guest between the entry of mark_begin and the entry of mark_end, one line a pair.
   Debian has no header for the few calls of qemu's plugin interface, version 1, that are used here, so they are declared. */
#include <inttypes.h>
#include <stddef.h>
#include <stdio.h>
#include <string.h>

typedef uint64_t plugin_id;
struct qemu_plugin_tb;
struct qemu_plugin_insn;
void qemu_plugin_register_vcpu_tb_trans_cb(plugin_id, void (*)(plugin_id, struct qemu_plugin_tb *));
size_t qemu_plugin_tb_n_insns(const struct qemu_plugin_tb *);
struct qemu_plugin_insn *qemu_plugin_tb_get_insn(const struct qemu_plugin_tb *, size_t);
const char *qemu_plugin_insn_symbol(const struct qemu_plugin_insn *);
uint64_t qemu_plugin_insn_vaddr(const struct qemu_plugin_insn *);
void qemu_plugin_register_vcpu_insn_exec_inline(struct qemu_plugin_insn *, int, void *, uint64_t);
void qemu_plugin_register_vcpu_insn_exec_cb(struct qemu_plugin_insn *, void (*)(unsigned, void *), int, void *);

int qemu_plugin_version = 1;
static uint64_t count, begun;
static uint64_t first_begin, first_end;

static void at_begin(unsigned cpu, void *unused) { begun = count; }
static void at_end(unsigned cpu, void *unused) { fprintf(stderr, "%" PRIu64 "\n", count - begun); }

/* whether the instruction is the first of the function of that name */
static int enters(struct qemu_plugin_insn *in, const char *name, uint64_t *first) {
    const char *symbol = qemu_plugin_insn_symbol(in);
    uint64_t at = qemu_plugin_insn_vaddr(in);
    if (!symbol || strcmp(symbol, name)) return 0;
    if (!*first) *first = at;
    return *first == at;
}

static void translated(plugin_id id, struct qemu_plugin_tb *block) {
    size_t n = qemu_plugin_tb_n_insns(block);
    for (size_t i = 0; i < n; i++) {
        struct qemu_plugin_insn *in = qemu_plugin_tb_get_insn(block, i);
        qemu_plugin_register_vcpu_insn_exec_inline(in, 0, &count, 1);
        if (enters(in, "mark_begin", &first_begin)) qemu_plugin_register_vcpu_insn_exec_cb(in, at_begin, 0, NULL);
        if (enters(in, "mark_end", &first_end)) qemu_plugin_register_vcpu_insn_exec_cb(in, at_end, 0, NULL);
    }
}

int qemu_plugin_install(plugin_id id, const void *info, int argc, char **argv) {
    qemu_plugin_register_vcpu_tb_trans_cb(id, translated);
    return 0;
}
