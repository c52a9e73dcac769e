/* Counts, for the emulator, what the board executes in each call that it makes, from the first instruction of make_call to the first
 * of stack_used: instructions, accesses to memory, jumps taken, divisions, long products and products of 32 bits. Writes a line a call,
 * before the board answers. It counts by blocks, which the emulator enters at their first instruction and leaves after their last, so
 * that a search can make many calls. The functions are those of version 1 of the emulator's interface for plugins, declared here because
 * its header is in no Debian package. */
#include <stdint.h>
#include <stdio.h>
#include <stdlib.h>
#include <string.h>

typedef uint64_t plugin_id;
typedef struct block block;
typedef struct instruction instruction;
enum { READ_OR_WRITE = 3, ADD = 0 };
void qemu_plugin_register_vcpu_tb_trans_cb(plugin_id id, void (*call)(plugin_id, block *));
void qemu_plugin_register_vcpu_tb_exec_cb(block *block, void (*call)(unsigned, void *), int flags, void *data);
size_t qemu_plugin_tb_n_insns(const block *block);
instruction *qemu_plugin_tb_get_insn(const block *block, size_t index);
uint64_t qemu_plugin_insn_vaddr(const instruction *instruction);
size_t qemu_plugin_insn_size(const instruction *instruction);
char *qemu_plugin_insn_disas(const instruction *instruction);
const char *qemu_plugin_insn_symbol(const instruction *instruction);
void qemu_plugin_register_vcpu_mem_inline(instruction *instruction, int read_or_write, int operation, void *to, uint64_t more);

#define SHOWN __attribute__((visibility("default")))
SHOWN int qemu_plugin_version = 1;
SHOWN int qemu_plugin_install(plugin_id id, const void *info, int count, char **words);

/* A block as it was translated. */
typedef struct {
    uint64_t at, next; /* its first instruction, and where the one after its last lies */
    int begins, ends;  /* whether make_call or stack_used begins with it */
    unsigned long instructions, divisions, products, short_products;
} part;

static FILE *to;
static uint64_t first, last; /* where make_call and stack_used begin, once that is known */
static int counting;
static uint64_t after;    /* where the next block lies if none jumps */
static uint64_t accesses; /* from the emulator's start on */
static uint64_t accesses_before;
static unsigned long instructions, jumps, divisions, products, short_products;

static void begin(const part *here) {
    instructions = jumps = divisions = products = short_products = 0;
    accesses_before = accesses;
    after = here->at;
    counting = 1;
}

static void end(void) {
    fprintf(to, "%lu %lu %lu %lu %lu %lu\n", instructions, (unsigned long)(accesses - accesses_before), jumps, divisions, products,
            short_products);
    fflush(to);
    counting = 0;
}

static void entered(unsigned processor, void *data) {
    const part *here = data;
    (void)processor;
    if (here->begins)
        begin(here);
    if (here->ends && counting)
        end();
    if (!counting)
        return;
    instructions += here->instructions;
    divisions += here->divisions;
    products += here->products;
    short_products += here->short_products;
    jumps += here->at != after;
    after = here->next;
}

static int begins_with(const char *text, const char *word) {
    return strncmp(text, word, strlen(word)) == 0;
}

/* Whether a function begins here: what is translated of it first is its beginning. */
static int begins(const instruction *here, const char *name, uint64_t *known) {
    const char *symbol = qemu_plugin_insn_symbol(here);
    if (*known == 0 && symbol && strcmp(symbol, name) == 0)
        *known = qemu_plugin_insn_vaddr(here);
    return *known != 0 && *known == qemu_plugin_insn_vaddr(here);
}

static void add(part *here, instruction *each) {
    char *text = qemu_plugin_insn_disas(each);
    if (!text)
        abort();
    here->next = qemu_plugin_insn_vaddr(each) + qemu_plugin_insn_size(each);
    here->instructions++;
    here->divisions += begins_with(text, "udiv") || begins_with(text, "sdiv");
    here->products += begins_with(text, "umull") || begins_with(text, "umlal") || begins_with(text, "mla") || begins_with(text, "mls");
    here->short_products += begins_with(text, "mul");
    free(text);
    qemu_plugin_register_vcpu_mem_inline(each, READ_OR_WRITE, ADD, &accesses, 1);
}

static void translated(plugin_id id, block *all) {
    instruction *start = qemu_plugin_tb_get_insn(all, 0);
    part *here = calloc(1, sizeof *here);
    (void)id;
    if (!here)
        abort();
    here->at = qemu_plugin_insn_vaddr(start);
    here->begins = begins(start, "make_call", &first);
    here->ends = begins(start, "stack_used", &last);
    for (size_t i = 0; i < qemu_plugin_tb_n_insns(all); i++)
        add(here, qemu_plugin_tb_get_insn(all, i));
    qemu_plugin_register_vcpu_tb_exec_cb(all, entered, 0, here);
}

/* The one word is to=FILE. */
int qemu_plugin_install(plugin_id id, const void *info, int count, char **words) {
    (void)info;
    if (count != 1 || !begins_with(words[0], "to=") || !(to = fopen(words[0] + 3, "w")))
        return 1;
    qemu_plugin_register_vcpu_tb_trans_cb(id, translated);
    return 0;
}
