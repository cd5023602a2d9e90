/* A plugin of qemu-user that counts the instructions a program executes. At the end it writes the total to the file that the argument out=FILE names;
 * with blocks=FILE it also writes, for each block of code, its address, how often it ran, and the instructions of all these runs. Every instruction
 * adds 1 itself: a block's length can be one too many where its last instruction crosses a page. The functions it needs are declared here, as
 * qemu-plugin.h of version 7.2 declares them, so that no header has to be installed. */
#include <inttypes.h>
#include <stddef.h>
#include <stdio.h>
#include <stdlib.h>
#include <string.h>

typedef uint64_t qemu_plugin_id_t;
struct qemu_plugin_tb;
struct qemu_plugin_insn;
enum { INLINE_ADD_U64 = 0 };

extern void qemu_plugin_register_vcpu_tb_trans_cb(qemu_plugin_id_t, void (*)(qemu_plugin_id_t, struct qemu_plugin_tb *));
extern void qemu_plugin_register_vcpu_tb_exec_inline(struct qemu_plugin_tb *, int, void *, uint64_t);
extern void qemu_plugin_register_vcpu_insn_exec_inline(struct qemu_plugin_insn *, int, void *, uint64_t);
extern size_t qemu_plugin_tb_n_insns(const struct qemu_plugin_tb *);
extern uint64_t qemu_plugin_tb_vaddr(const struct qemu_plugin_tb *);
extern struct qemu_plugin_insn *qemu_plugin_tb_get_insn(const struct qemu_plugin_tb *, size_t);
extern void qemu_plugin_register_atexit_cb(qemu_plugin_id_t, void (*)(qemu_plugin_id_t, void *), void *);

__attribute__((visibility("default"))) int qemu_plugin_version = 1;

struct block {
    uint64_t address, runs, instructions;
    struct block *next;
};

static uint64_t total;
static struct block *blocks;
static const char *out, *blocks_out;

static void translated(qemu_plugin_id_t id, struct qemu_plugin_tb *tb) {
    uint64_t *counter = &total;
    (void)id;
    if (blocks_out) {
        struct block *b = calloc(1, sizeof *b);
        if (!b)
            abort();
        b->address = qemu_plugin_tb_vaddr(tb);
        b->next = blocks;
        blocks = b;
        counter = &b->instructions;
        qemu_plugin_register_vcpu_tb_exec_inline(tb, INLINE_ADD_U64, &b->runs, 1);
    }
    for (size_t k = 0; k < qemu_plugin_tb_n_insns(tb); k++)
        qemu_plugin_register_vcpu_insn_exec_inline(qemu_plugin_tb_get_insn(tb, k), INLINE_ADD_U64, counter, 1);
}

static void ended(qemu_plugin_id_t id, void *unused) {
    FILE *f;
    (void)id;
    (void)unused;
    if (blocks_out && (f = fopen(blocks_out, "w"))) {
        for (struct block *b = blocks; b; b = b->next) {
            fprintf(f, "%" PRIx64 " %" PRIu64 " %" PRIu64 "\n", b->address, b->runs, b->instructions);
            total += b->instructions;
        }
        fclose(f);
    }
    if (out && (f = fopen(out, "w"))) {
        fprintf(f, "%" PRIu64 "\n", total);
        fclose(f);
    }
}

__attribute__((visibility("default"))) int qemu_plugin_install(qemu_plugin_id_t id, const void *info, int argc, char **argv) {
    (void)info;
    for (int k = 0; k < argc; k++) {
        if (!strncmp(argv[k], "out=", 4))
            out = strdup(argv[k] + 4);
        if (!strncmp(argv[k], "blocks=", 7))
            blocks_out = strdup(argv[k] + 7);
    }
    qemu_plugin_register_vcpu_tb_trans_cb(id, translated);
    qemu_plugin_register_atexit_cb(id, ended, NULL);
    return 0;
}
