/* A plugin of qemu's that counts the instructions of each call of one function, and prints a number for each.
 *
 *   gcc -O2 -shared -fPIC -o count.so count.c
 *   qemu-x86_64 -plugin ./count.so,function=hm_step -d plugin -D COUNTS PROGRAM ..
 *
 * Of several functions, function=hm_step,function=hm_sound .., none of which calls another, it prints the name and the
 * number.
 *
 * A call begins with the first block of the function and ends with the next block of its only caller, whose name is
 * that of the function after `caller_of_`; all instructions between are counted, in whatever function they are. Each
 * counts where it runs: the length of a block is no measure, since qemu may leave out the last instruction.
 * (qemu reads a program's symbols only while it logs: -d.) */
#include <stddef.h>
#include <stdint.h>
#include <stdio.h>
#include <string.h>

/* The part of qemu's plugin interface, version 1, that is used here. */
typedef uint64_t qemu_plugin_id_t;
struct qemu_plugin_tb;
struct qemu_plugin_insn;
struct qemu_info;
enum qemu_plugin_cb_flags { QEMU_PLUGIN_CB_NO_REGS };
enum qemu_plugin_op { QEMU_PLUGIN_INLINE_ADD_U64 };
typedef void (*qemu_plugin_vcpu_tb_trans_cb_t)(qemu_plugin_id_t id, struct qemu_plugin_tb *tb);
typedef void (*qemu_plugin_vcpu_udata_cb_t)(unsigned int vcpu, void *data);
void qemu_plugin_register_vcpu_tb_trans_cb(qemu_plugin_id_t id, qemu_plugin_vcpu_tb_trans_cb_t cb);
void qemu_plugin_register_vcpu_tb_exec_cb(struct qemu_plugin_tb *tb, qemu_plugin_vcpu_udata_cb_t cb,
                                          enum qemu_plugin_cb_flags flags, void *data);
void qemu_plugin_register_vcpu_insn_exec_inline(struct qemu_plugin_insn *insn, enum qemu_plugin_op op, void *to,
                                                uint64_t number);
size_t qemu_plugin_tb_n_insns(const struct qemu_plugin_tb *tb);
struct qemu_plugin_insn *qemu_plugin_tb_get_insn(const struct qemu_plugin_tb *tb, size_t at);
const char *qemu_plugin_insn_symbol(const struct qemu_plugin_insn *insn);
void qemu_plugin_outs(const char *text);

#define EXPORT __attribute__((visibility("default")))
EXPORT int qemu_plugin_version = 1;

#define MOST_FUNCTIONS 32

static const char caller_of[] = "caller_of_";
static struct function {
    char name[64];
} functions[MOST_FUNCTIONS];
static int asked; /* for so many functions */
static const struct function *inside;
static uint64_t count;

static void block_of_function(unsigned int vcpu, void *data)
{
    (void)vcpu;
    if (!inside) {
        count = 0;
        inside = data;
    }
}

static void block_of_its_caller(unsigned int vcpu, void *data)
{
    char line[128];
    (void)vcpu;
    if (inside != data)
        return;
    snprintf(line, sizeof line, "%s%s%llu\n", asked > 1 ? inside->name : "", asked > 1 ? " " : "",
             (unsigned long long)count);
    inside = NULL;
    qemu_plugin_outs(line);
}

static void translated(qemu_plugin_id_t id, struct qemu_plugin_tb *tb)
{
    const char *name = qemu_plugin_insn_symbol(qemu_plugin_tb_get_insn(tb, 0));
    struct function *f;
    size_t at;
    (void)id;
    for (at = 0; at < qemu_plugin_tb_n_insns(tb); at++)
        qemu_plugin_register_vcpu_insn_exec_inline(qemu_plugin_tb_get_insn(tb, at), QEMU_PLUGIN_INLINE_ADD_U64,
                                                   &count, 1);
    for (f = functions; name && f < functions + asked; f++) {
        if (strcmp(name, f->name) == 0)
            qemu_plugin_register_vcpu_tb_exec_cb(tb, block_of_function, QEMU_PLUGIN_CB_NO_REGS, f);
        if (strncmp(name, caller_of, sizeof caller_of - 1) == 0 && strcmp(name + sizeof caller_of - 1, f->name) == 0)
            qemu_plugin_register_vcpu_tb_exec_cb(tb, block_of_its_caller, QEMU_PLUGIN_CB_NO_REGS, f);
    }
}

EXPORT int qemu_plugin_install(qemu_plugin_id_t id, const struct qemu_info *info, int argc, char **argv);

EXPORT int qemu_plugin_install(qemu_plugin_id_t id, const struct qemu_info *info, int argc, char **argv)
{
    (void)info;
    if (argc < 1 || argc > MOST_FUNCTIONS)
        return -1;
    for (; asked < argc; asked++)
        if (sscanf(argv[asked], "function=%63s", functions[asked].name) != 1)
            return -1;
    qemu_plugin_register_vcpu_tb_trans_cb(id, translated);
    return 0;
}
