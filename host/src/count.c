/* A plugin of QEMU that counts the instructions of a program: qemu-x86_64 -plugin ./libcount.so -d plugin PROGRAM prints their number when the program ends.
   Debian's packages of QEMU have no header for plugins, so what is used of it is declared here, as QEMU 7 and 8 have it. */
#include <inttypes.h>
#include <stdio.h>

struct block;
typedef uint64_t plugin;
enum { ADD };

void qemu_plugin_register_vcpu_tb_trans_cb(plugin, void (*)(plugin, struct block *));
void qemu_plugin_register_vcpu_tb_exec_inline(struct block *, int, void *, uint64_t);
size_t qemu_plugin_tb_n_insns(const struct block *);
void qemu_plugin_register_atexit_cb(plugin, void (*)(plugin, void *), void *);
void qemu_plugin_outs(const char *);

int qemu_plugin_version = 1;

static uint64_t count;

/* Each time that a block is run, its instructions are added. */
static void translated(plugin own, struct block *block)
{
    qemu_plugin_register_vcpu_tb_exec_inline(block, ADD, &count, qemu_plugin_tb_n_insns(block));
}

static void ended(plugin own, void *data)
{
    char line[32];
    snprintf(line, sizeof line, "%" PRIu64 "\n", count);
    qemu_plugin_outs(line);
}

int qemu_plugin_install(plugin own, const void *machine, int words, char **word)
{
    qemu_plugin_register_vcpu_tb_trans_cb(own, translated);
    qemu_plugin_register_atexit_cb(own, ended, NULL);
    return 0;
}
