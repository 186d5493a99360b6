/* SPDX-License-Identifier: MPL-2.0 */
/* A plug-in of qemu's emulator: at the end it says how many instructions were executed, and how often they read and wrote memory. The declarations
   are those of qemu-plugin.h, which Debian does not ship, in the version of Debian 12's qemu (7.2). */
#include <inttypes.h>
#include <stdint.h>
#include <stdio.h>

typedef uint64_t qemu_plugin_id_t;
struct qemu_plugin_tb;
struct qemu_plugin_insn;
enum { QEMU_PLUGIN_INLINE_ADD_U64 };
enum { QEMU_PLUGIN_CB_NO_REGS };
enum { QEMU_PLUGIN_MEM_RW = 3 };
typedef void (*on_block)(qemu_plugin_id_t, struct qemu_plugin_tb *);
typedef void (*on_memory)(unsigned, uint32_t how, uint64_t at, void *);
typedef void (*on_end)(qemu_plugin_id_t, void *);
void qemu_plugin_register_vcpu_tb_trans_cb(qemu_plugin_id_t, on_block);
void qemu_plugin_register_vcpu_tb_exec_inline(struct qemu_plugin_tb *, int operation, void *, uint64_t);
size_t qemu_plugin_tb_n_insns(const struct qemu_plugin_tb *);
struct qemu_plugin_insn *qemu_plugin_tb_get_insn(const struct qemu_plugin_tb *, size_t);
void qemu_plugin_register_vcpu_mem_cb(struct qemu_plugin_insn *, on_memory, int registers, int which, void *);
_Bool qemu_plugin_mem_is_store(uint32_t how);
void qemu_plugin_register_atexit_cb(qemu_plugin_id_t, on_end, void *);
void qemu_plugin_outs(const char *);

int qemu_plugin_version = 1;
static uint64_t executed, loads, stores;

static void touched(unsigned processor, uint32_t how, uint64_t at, void *nothing)
{
    (void)processor;
    (void)at;
    (void)nothing;
    if (qemu_plugin_mem_is_store(how))
        stores++;
    else
        loads++;
}

static void count(qemu_plugin_id_t id, struct qemu_plugin_tb *block)
{
    const size_t n = qemu_plugin_tb_n_insns(block);
    (void)id;
    qemu_plugin_register_vcpu_tb_exec_inline(block, QEMU_PLUGIN_INLINE_ADD_U64, &executed, n);
    for (size_t i = 0; i < n; i++)
        qemu_plugin_register_vcpu_mem_cb(qemu_plugin_tb_get_insn(block, i), touched, QEMU_PLUGIN_CB_NO_REGS, QEMU_PLUGIN_MEM_RW, 0);
}

static void say(qemu_plugin_id_t id, void *nothing)
{
    char line[80];
    (void)id;
    (void)nothing;
    snprintf(line, sizeof line, "%" PRIu64 " %" PRIu64 " %" PRIu64 "\n", executed, loads, stores);
    qemu_plugin_outs(line);
}

int qemu_plugin_install(qemu_plugin_id_t id, const void *info, int words, char **word)
{
    (void)info;
    (void)words;
    (void)word;
    qemu_plugin_register_vcpu_tb_trans_cb(id, count);
    qemu_plugin_register_atexit_cb(id, say, 0);
    return 0;
}
