/*
 * A plugin of qemu-user that counts the instructions of a program, and prints their number to standard error when it ends. It declares what it uses of
 * qemu's interface, version 1, since no package has its header.
 */
#include <stddef.h>
#include <stdint.h>
#include <stdio.h>

typedef uint64_t plugin;
struct block;

void qemu_plugin_register_vcpu_tb_trans_cb(plugin, void (*)(plugin, struct block *));
void qemu_plugin_register_vcpu_tb_exec_inline(struct block *, int add, void *to, uint64_t number);
void qemu_plugin_register_atexit_cb(plugin, void (*)(plugin, void *), void *);
size_t qemu_plugin_tb_n_insns(const struct block *);

int qemu_plugin_version = 1;
int qemu_plugin_install(plugin id, const void *about, int words, char **word);

static uint64_t counted;

/* A block of instructions is translated once; from then on each run of it adds their number. */
static void translated(plugin id, struct block *block)
{
    (void)id;
    qemu_plugin_register_vcpu_tb_exec_inline(block, 0, &counted, qemu_plugin_tb_n_insns(block));
}

static void ended(plugin id, void *nothing)
{
    (void)id, (void)nothing;
    fprintf(stderr, "%llu\n", (unsigned long long)counted);
}

int qemu_plugin_install(plugin id, const void *about, int words, char **word)
{
    (void)about, (void)words, (void)word;
    qemu_plugin_register_vcpu_tb_trans_cb(id, translated);
    qemu_plugin_register_atexit_cb(id, ended, NULL);
    return 0;
}
