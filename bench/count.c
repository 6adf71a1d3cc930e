/* A plugin for the emulator: prints how many instructions of the program were run. Its header is in no package, so what is used of it stands here. */
#include <inttypes.h>
#include <stddef.h>
#include <stdio.h>

struct qemu_plugin_tb;
size_t qemu_plugin_tb_n_insns(const struct qemu_plugin_tb *block);
void qemu_plugin_register_vcpu_tb_trans_cb(uint64_t id, void (*made)(uint64_t id, struct qemu_plugin_tb *block));
void qemu_plugin_register_vcpu_tb_exec_cb(struct qemu_plugin_tb *block, void (*run)(unsigned int cpu, void *data), int flags, void *data);
void qemu_plugin_register_atexit_cb(uint64_t id, void (*end)(uint64_t id, void *data), void *data);

/* Older emulators want 1 here, newer ones 2. */
int qemu_plugin_version = API;

static uint64_t count;

static void run(unsigned int cpu, void *data) {
    (void)cpu;
    /* Go has threads */
    __atomic_fetch_add(&count, (uint64_t)(uintptr_t)data, __ATOMIC_RELAXED);
}

static void made(uint64_t id, struct qemu_plugin_tb *block) {
    (void)id;
    qemu_plugin_register_vcpu_tb_exec_cb(block, run, 0, (void *)(uintptr_t)qemu_plugin_tb_n_insns(block));
}

static void end(uint64_t id, void *data) {
    (void)id;
    (void)data;
    fprintf(stderr, "Collected : %" PRIu64 "\n", count);
}

int qemu_plugin_install(uint64_t id, const void *info, int words, char **word) {
    (void)info;
    (void)words;
    (void)word;
    qemu_plugin_register_vcpu_tb_trans_cb(id, made);
    qemu_plugin_register_atexit_cb(id, end, NULL);
    return 0;
}
