/* A TCG plugin for qemu-user 7.2: counts the guest's instructions, which no
 * noise on the machine changes.
 *
 *   gcc -shared -fPIC -O2 insn.c -o insn.so
 *   qemu-x86_64 -plugin ./insn.so PROGRAM              the sum, on standard error
 *   qemu-x86_64 -plugin ./insn.so,blocks=FILE PROGRAM  and a line for each block of
 *                                                      code: address, instructions in
 *                                                      it, instructions run
 *
 * Debian has no header for plugins; the declarations below are those that are
 * used here. */
#include <inttypes.h>
#include <stdio.h>
#include <stdlib.h>
#include <string.h>

typedef uint64_t qemu_plugin_id_t;
struct qemu_plugin_tb;
typedef void tb_callback(qemu_plugin_id_t, struct qemu_plugin_tb *);
typedef void exit_callback(qemu_plugin_id_t, void *);
extern void qemu_plugin_register_vcpu_tb_trans_cb(qemu_plugin_id_t, tb_callback *);
extern void qemu_plugin_register_atexit_cb(qemu_plugin_id_t, exit_callback *, void *);
extern size_t qemu_plugin_tb_n_insns(const struct qemu_plugin_tb *);
extern uint64_t qemu_plugin_tb_vaddr(const struct qemu_plugin_tb *);
enum { ADD_INLINE = 0 };
extern void qemu_plugin_register_vcpu_tb_exec_inline(struct qemu_plugin_tb *, int op, void *at,
                                                     uint64_t add);

__attribute__((visibility("default"))) int qemu_plugin_version = 1;

struct block {
    struct block *next;
    uint64_t address;
    uint64_t length; /* in instructions */
    uint64_t run;    /* in instructions */
};

static struct block *blocks;
static FILE *blocks_file;

/* Each translation has a sum of its own; a block translated twice has two. */
static void count_block(qemu_plugin_id_t id, struct qemu_plugin_tb *tb)
{
    struct block *b = malloc(sizeof *b);
    (void)id;
    if (b == NULL)
        abort();
    b->next = blocks;
    b->address = qemu_plugin_tb_vaddr(tb);
    b->length = qemu_plugin_tb_n_insns(tb);
    b->run = 0;
    blocks = b;
    qemu_plugin_register_vcpu_tb_exec_inline(tb, ADD_INLINE, &b->run, b->length);
}

static void print_counts(qemu_plugin_id_t id, void *unused)
{
    uint64_t sum = 0;
    (void)id;
    (void)unused;
    for (const struct block *b = blocks; b != NULL; b = b->next) {
        sum += b->run;
        if (blocks_file != NULL)
            fprintf(blocks_file, "%" PRIx64 " %" PRIu64 " %" PRIu64 "\n", b->address, b->length,
                    b->run);
    }
    if (blocks_file != NULL)
        fclose(blocks_file);
    fprintf(stderr, "instructions %" PRIu64 "\n", sum);
}

__attribute__((visibility("default"))) int
qemu_plugin_install(qemu_plugin_id_t id, const void *info, int argc, char **argv)
{
    static const char option[] = "blocks=";
    (void)info;
    for (int i = 0; i < argc; i++)
        if (strncmp(argv[i], option, sizeof option - 1) == 0)
            blocks_file = fopen(argv[i] + sizeof option - 1, "w");
    qemu_plugin_register_vcpu_tb_trans_cb(id, count_block);
    qemu_plugin_register_atexit_cb(id, print_counts, NULL);
    return 0;
}
