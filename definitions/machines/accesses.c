/* A plugin of QEMU: it logs each load and each store, with its address and its size. */
#include <stdint.h>
#include <stdio.h>

/* what it uses of qemu-plugin.h, version 1, which Debian has no package of */
#define EXPORT __attribute__((visibility("default")))
typedef uint64_t plugin_id;
typedef uint32_t access_info;
struct qemu_info;
struct block;
struct instruction;
void qemu_plugin_register_vcpu_tb_trans_cb(plugin_id, void (*)(plugin_id, struct block *));
unsigned long qemu_plugin_tb_n_insns(const struct block *);
struct instruction *qemu_plugin_tb_get_insn(const struct block *, unsigned long);
void qemu_plugin_register_vcpu_mem_cb(struct instruction *,
    void (*)(unsigned, access_info, uint64_t, void *), int flags, int kinds, void *);
unsigned qemu_plugin_mem_size_shift(access_info);
_Bool qemu_plugin_mem_is_store(access_info);
void qemu_plugin_outs(const char *);

EXPORT int qemu_plugin_version = 1;

static void accessed(unsigned cpu, access_info info, uint64_t address, void *data) {
    char line[40];
    snprintf(line, sizeof line, "access %c0x%08x/%d\n", qemu_plugin_mem_is_store(info) ? 'w' : 'r',
        (unsigned)address, 1 << qemu_plugin_mem_size_shift(info));
    qemu_plugin_outs(line);
}

static void translated(plugin_id id, struct block *block) {
    for (unsigned long i = 0; i < qemu_plugin_tb_n_insns(block); i++)
        qemu_plugin_register_vcpu_mem_cb(qemu_plugin_tb_get_insn(block, i), accessed, 0, 3, 0);
}

EXPORT int qemu_plugin_install(plugin_id id, const struct qemu_info *info, int argc, char **argv) {
    qemu_plugin_register_vcpu_tb_trans_cb(id, translated);
    return 0;
}
