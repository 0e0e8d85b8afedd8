// A plugin of QEMU's: counts the instructions of the program that runs under it, and stores the count where the call 9999 says, which no
// system has (now.h). The emulator and the program share their addresses. QEMU's header is in no package of Debian's: what is
// needed of its interface, version 1, stands here.
#include <stddef.h>
#include <stdint.h>

struct qemu_plugin_tb;
typedef void translated(uint64_t id, struct qemu_plugin_tb *block);
typedef void called(uint64_t id, unsigned cpu, int64_t number, uint64_t a, uint64_t b, uint64_t c, uint64_t d, uint64_t e, uint64_t f,
                    uint64_t g, uint64_t h);
void qemu_plugin_register_vcpu_tb_trans_cb(uint64_t id, translated *then);
void qemu_plugin_register_vcpu_syscall_cb(uint64_t id, called *then);
void qemu_plugin_register_vcpu_tb_exec_inline(struct qemu_plugin_tb *block, int add, void *to, uint64_t amount);
size_t qemu_plugin_tb_n_insns(const struct qemu_plugin_tb *block);
int qemu_plugin_version = 1;

static uint64_t count;

static void each_block(uint64_t id, struct qemu_plugin_tb *block) {
    qemu_plugin_register_vcpu_tb_exec_inline(block, 0, &count, qemu_plugin_tb_n_insns(block));
}

static void each_call(uint64_t id, unsigned cpu, int64_t number, uint64_t a, uint64_t b, uint64_t c, uint64_t d, uint64_t e, uint64_t f,
                      uint64_t g, uint64_t h) {
    if (number == 9999) *(uint64_t *)a = count;
}

int qemu_plugin_install(uint64_t id, const void *info, int words, char **word) {
    qemu_plugin_register_vcpu_tb_trans_cb(id, each_block);
    qemu_plugin_register_vcpu_syscall_cb(id, each_call);
    return 0;
}
