/* A plugin of qemu-user: prints the instructions that a program has run between one mark and the next. A mark is a call of the system with
 * the number MARK, which no system has. Debian has no package with qemu's header of plugins, so the few declarations that are needed stand
 * here (version 1 of the interface; a qemu that has another says so). */
#include <inttypes.h>
#include <stddef.h>
#include <stdint.h>
#include <stdio.h>

enum { MARK = 99999 };
typedef uint64_t id;
struct qemu_plugin_tb;
typedef void translated(id, struct qemu_plugin_tb *);
typedef void executed(unsigned, void *);
typedef void called(id, unsigned, int64_t, uint64_t, uint64_t, uint64_t, uint64_t, uint64_t, uint64_t, uint64_t, uint64_t);
void qemu_plugin_register_vcpu_tb_trans_cb(id, translated *);
void qemu_plugin_register_vcpu_tb_exec_cb(struct qemu_plugin_tb *, executed *, int flags, void *);
void qemu_plugin_register_vcpu_syscall_cb(id, called *);
size_t qemu_plugin_tb_n_insns(const struct qemu_plugin_tb *);

static uint64_t count, last;

static void run(unsigned cpu, void *instructions) { (void)cpu, count += (uintptr_t)instructions; }

static void block(id plugin, struct qemu_plugin_tb *tb) {
    (void)plugin;
    qemu_plugin_register_vcpu_tb_exec_cb(tb, run, 0, (void *)(uintptr_t)qemu_plugin_tb_n_insns(tb));
}

static void call(id plugin, unsigned cpu, int64_t number, uint64_t a, uint64_t b, uint64_t c, uint64_t d, uint64_t e, uint64_t f, uint64_t g, uint64_t h) {
    (void)plugin, (void)cpu, (void)a, (void)b, (void)c, (void)d, (void)e, (void)f, (void)g, (void)h;
    if (number != MARK) return;
    fprintf(stderr, "%" PRIu64 "\n", count - last);
    last = count;
}

int qemu_plugin_version = 1;

int qemu_plugin_install(id plugin, const void *info, int argc, char **argv) {
    (void)info, (void)argc, (void)argv;
    qemu_plugin_register_vcpu_tb_trans_cb(plugin, block);
    qemu_plugin_register_vcpu_syscall_cb(plugin, call);
    return 0;
}
