/* A plugin for the emulator: writes, for each block of code that was run, its address, its instructions and how often it was run. Its header is in no package, so what is used of it stands here. */
#include <inttypes.h>
#include <stddef.h>
#include <stdio.h>
#include <stdlib.h>

struct qemu_plugin_tb;
size_t qemu_plugin_tb_n_insns(const struct qemu_plugin_tb *block);
uint64_t qemu_plugin_tb_vaddr(const struct qemu_plugin_tb *block);
void qemu_plugin_register_vcpu_tb_trans_cb(uint64_t id, void (*made)(uint64_t id, struct qemu_plugin_tb *block));
void qemu_plugin_register_vcpu_tb_exec_cb(struct qemu_plugin_tb *block, void (*run)(unsigned int cpu, void *data), int flags, void *data);
void qemu_plugin_register_atexit_cb(uint64_t id, void (*end)(uint64_t id, void *data), void *data);

/* Older emulators want 1 here, newer ones 2. */
int qemu_plugin_version = API;

struct block {
    uint64_t at, size, times;
    struct block *next;
};

static struct block *blocks;

static void run(unsigned int cpu, void *data) {
    (void)cpu;
    ((struct block *)data)->times++;
}

static void made(uint64_t id, struct qemu_plugin_tb *block) {
    (void)id;
    struct block *b = calloc(1, sizeof *b);
    if (b == NULL) abort();
    b->at = qemu_plugin_tb_vaddr(block);
    b->size = qemu_plugin_tb_n_insns(block);
    b->next = blocks;
    blocks = b;
    qemu_plugin_register_vcpu_tb_exec_cb(block, run, 0, b);
}

static void end(uint64_t id, void *data) {
    (void)id;
    (void)data;
    for (struct block *b = blocks; b != NULL; b = b->next)
        if (b->times != 0) fprintf(stderr, "%" PRIu64 " %" PRIu64 " %" PRIu64 "\n", b->at, b->size, b->times);
}

int qemu_plugin_install(uint64_t id, const void *info, int words, char **word) {
    (void)info;
    (void)words;
    (void)word;
    qemu_plugin_register_vcpu_tb_trans_cb(id, made);
    qemu_plugin_register_atexit_cb(id, end, NULL);
    return 0;
}
