/* A plugin of QEMU's user emulator: writes, for each address at which an instruction was executed, that address and how
 * often, as `address count` lines in hex and decimal, to the file that `out=` names. String instructions with a repeat
 * prefix are left out: the emulator runs them once for each byte or word, a processor as one. */
#include <inttypes.h>
#include <stdbool.h>
#include <stddef.h>
#include <stdio.h>
#include <stdlib.h>
#include <string.h>

/* What is used of QEMU's plugin interface, version 1; its header is not packaged everywhere. */
struct qemu_plugin_tb;
struct qemu_plugin_insn;
enum qemu_plugin_op { QEMU_PLUGIN_INLINE_ADD_U64 };
typedef void (*translated)(uint64_t id, struct qemu_plugin_tb *tb);
typedef void (*ended)(uint64_t id, void *own);
void qemu_plugin_register_vcpu_tb_trans_cb(uint64_t id, translated call);
void qemu_plugin_register_atexit_cb(uint64_t id, ended call, void *own);
void qemu_plugin_register_vcpu_insn_exec_inline(struct qemu_plugin_insn *insn, enum qemu_plugin_op op, void *to,
                                                uint64_t value);
size_t qemu_plugin_tb_n_insns(const struct qemu_plugin_tb *tb);
struct qemu_plugin_insn *qemu_plugin_tb_get_insn(const struct qemu_plugin_tb *tb, size_t index);
const uint8_t *qemu_plugin_insn_data(const struct qemu_plugin_insn *insn);
size_t qemu_plugin_insn_size(const struct qemu_plugin_insn *insn);
uint64_t qemu_plugin_insn_vaddr(const struct qemu_plugin_insn *insn);

extern int qemu_plugin_version;
int qemu_plugin_version = 1;
int qemu_plugin_install(uint64_t id, const void *info, int argc, char **argv);

/* A table from addresses to counts, by open addressing; the emulator keeps the places of the counts. */
enum { PLACES_LOG = 20, PLACES = 1 << PLACES_LOG };
static struct {
    uint64_t address;
    uint64_t count;
} table[PLACES];
static size_t taken;
static FILE *out;

/* The count of an address. */
static uint64_t *count_of(uint64_t address) {
    size_t at = (size_t)(address * UINT64_C(0x9e3779b97f4a7c15) >> (64 - PLACES_LOG));
    while (table[at].address != 0 && table[at].address != address) {
        at = (at + 1) % PLACES;
    }
    if (table[at].address == 0) {
        table[at].address = address;
        if (++taken > PLACES / 2) {
            fputs("count: too many addresses\n", stderr);
            exit(1);
        }
    }
    return &table[at].count;
}

/* Whether an instruction is movs or stos with a repeat prefix. */
static bool repeats(const uint8_t *code, size_t size) {
    bool prefix = false;
    for (size_t i = 0; i + 1 < size; i++) {
        prefix = prefix || code[i] == 0xf3;
        if (code[i] != 0xf3 && code[i] != 0x66 && (code[i] & 0xf0) != 0x40) {
            return false;
        }
    }
    uint8_t operation = code[size - 1] & 0xfe;
    return prefix && (operation == 0xa4 || operation == 0xaa);
}

/* Has each instruction of a new block counted. */
static void count_block(uint64_t id, struct qemu_plugin_tb *tb) {
    (void)id;
    for (size_t i = 0; i < qemu_plugin_tb_n_insns(tb); i++) {
        struct qemu_plugin_insn *insn = qemu_plugin_tb_get_insn(tb, i);
        if (!repeats(qemu_plugin_insn_data(insn), qemu_plugin_insn_size(insn))) {
            uint64_t *count = count_of(qemu_plugin_insn_vaddr(insn));
            qemu_plugin_register_vcpu_insn_exec_inline(insn, QEMU_PLUGIN_INLINE_ADD_U64, count, 1);
        }
    }
}

/* Writes the counts. */
static void write_counts(uint64_t id, void *own) {
    (void)id;
    (void)own;
    for (size_t at = 0; at < PLACES; at++) {
        if (table[at].count != 0) {
            fprintf(out, "%016" PRIx64 " %" PRIu64 "\n", table[at].address, table[at].count);
        }
    }
    fclose(out);
}

int qemu_plugin_install(uint64_t id, const void *info, int argc, char **argv) {
    (void)info;
    if (argc != 1 || strncmp(argv[0], "out=", 4) != 0 || (out = fopen(argv[0] + 4, "w")) == NULL) {
        fputs("count: wants out=FILE\n", stderr);
        return 1;
    }
    qemu_plugin_register_vcpu_tb_trans_cb(id, count_block);
    qemu_plugin_register_atexit_cb(id, write_counts, NULL);
    return 0;
}
