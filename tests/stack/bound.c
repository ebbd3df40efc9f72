/*
 * How much stack each call of include/lipvezor.h can take at most, read off the archive's machine code:
 *     objdump -dr --no-show-raw-insn liblipvezor.a | bound
 * Every jump of a function is followed, so that it is known at each instruction how many bytes lie between the stack pointer and where it was
 * at the function's start (its depth). What a function needs is the greatest depth in it and, at a call, the depth there, 8 bytes of return
 * address and what the called function needs. A call's figure counts its own return address too; arguments that lie on the stack are the
 * caller's. Exit status 0 and a line for each call; 1 where one can take more than the header says, or where the code holds something that
 * is not understood here: a call through a register, a recursion, a stack pointer that is computed.
 */
#include "lipvezor.h"

#include <stdio.h>
#include <stdlib.h>
#include <string.h>

enum { INSTRUCTIONS = 100000, FUNCTIONS = 1000, LINE = 512, NAME = 200, RETURN_ADDRESS = 8 };

/* what memset and memcpy of the C library are taken to need; glibc's loader, which binds them at their first call, takes 2.7 KB */
enum { OUTSIDE = 3072 };
static const char *const outside_names[] = {"memset", "memcpy"};

enum { UNREACHED = -1, UNKNOWN = -1, BEING_FOUND = -2 };

struct instruction {
    unsigned long address;
    char text[NAME];                   /* mnemonic and operands */
    char symbol[NAME];                 /* of the relocation in it, or empty */
    long depth;                        /* before it */
};

struct function {
    char name[NAME];
    size_t first, end;                 /* its instructions */
    long need;
    long switch_depth;                 /* at its jumps through a register */
    long probe_depth;                  /* where its loop that touches page after page of a large frame ends */
};

static struct instruction instructions[INSTRUCTIONS];
static struct function functions[FUNCTIONS];
static size_t instruction_count, function_count;

static _Noreturn void fail(const char *where, const char *what)
{
    printf("bound: %s: %s\n", where, what);
    exit(1);
}

static _Noreturn void fail_at(const struct function *f, size_t i, const char *what)
{
    printf("bound: %s, at %lx (%s): %s\n", f->name, instructions[i].address, instructions[i].text, what);
    exit(1);
}

/* ---- objdump's lines */

static void copy(char *to, const char *from, size_t length)
{
    if (length >= NAME)
        fail(from, "too long a name or line");
    memcpy(to, from, length);
    to[length] = 0;
}

/* "0000000000000000 <name>:" */
static int read_function(const char *line)
{
    const char *open = strstr(line, " <"), *end = strstr(line, ">:");
    if (line[0] == ' ' || line[0] == '\t' || !open || !end || end[2])
        return 0;
    if (function_count == FUNCTIONS)
        fail("objdump", "too many functions");
    struct function *f = &functions[function_count++];
    copy(f->name, open + 2, (size_t)(end - open - 2));
    f->first = f->end = instruction_count;
    f->need = UNKNOWN;
    f->switch_depth = f->probe_depth = UNREACHED;
    return 1;
}

/* "  3b: R_X86_64_PLT32  name-0x4", of the instruction before it; of a function without a global name its section, ".text.name" */
static int read_relocation(const char *line)
{
    const char *symbol = strstr(line, ": R_X86_64_");
    if (!symbol)
        return 0;
    symbol = strchr(symbol, '\t');
    if (!symbol || instruction_count == 0)
        fail(line, "a relocation that is not understood");
    symbol += strncmp(symbol + 1, ".text.", 6) == 0 ? 7 : 1;
    copy(instructions[instruction_count - 1].symbol, symbol, strlen(symbol));
    return 1;
}

/* "  3b:	call   40 <name+0x40>" */
static int read_instruction(const char *line)
{
    char *end;
    unsigned long address = strtoul(line, &end, 16);
    if (end == line || end[0] != ':' || end[1] != '\t' || function_count == 0)
        return 0;
    if (instruction_count == INSTRUCTIONS)
        fail("objdump", "too many instructions");
    struct instruction *x = &instructions[instruction_count++];
    const char *text = end + 2;
    const char *comment = strstr(text, " #");
    x->address = address;
    x->depth = UNREACHED;
    copy(x->text, text, comment ? (size_t)(comment - text) : strlen(text));
    functions[function_count - 1].end = instruction_count;
    return 1;
}

static void read_all(void)
{
    static char line[LINE];
    while (fgets(line, sizeof line, stdin)) {
        line[strcspn(line, "\n")] = 0;
        if (!read_function(line) && !read_relocation(line))
            read_instruction(line);
    }
}

/* ---- what an instruction is */

static int starts(const char *text, const char *word)
{
    return strncmp(text, word, strlen(word)) == 0;
}

static int ends(const char *text, const char *word)
{
    size_t length = strlen(text), wanted = strlen(word);
    return length >= wanted && strcmp(text + length - wanted, word) == 0;
}

/* without the prefixes that objdump writes as words */
static const char *operation(const struct instruction *x)
{
    static const char *const prefixes[] = {"notrack ", "bnd ", "rep ", "repz ", "repnz ", "lock ", "data16 ", "cs ", "ds "};
    const char *text = x->text;
    for (size_t i = 0; i < sizeof prefixes / sizeof *prefixes; i++)
        if (starts(text, prefixes[i])) {
            text += strlen(prefixes[i]);
            i = (size_t)-1;
        }
    return text;
}

static int is_jump(const char *op)
{
    return op[0] == 'j';
}

static int is_return(const char *op)
{
    return starts(op, "ret");
}

/* nothing runs on after it */
static int is_end(const char *op)
{
    return starts(op, "jmp") || is_return(op) || starts(op, "ud2") || starts(op, "hlt");
}

static int is_filler(const char *op)
{
    return starts(op, "nop") || starts(op, "xchg   %ax,%ax") || starts(op, "int3");
}

static int through_register(const char *op)
{
    return strchr(op, '*') != NULL;
}

/* "$0x1a8" or "-0x80(%rsp" as a signed number */
static long number(const char *text)
{
    int negative = *text == '-';
    unsigned long value = strtoul(text + negative, NULL, 16);
    return negative ? -(long)value : (long)value;
}

/* how far below the stack pointer an operand reaches, as "-0x80(%rsp": the 128 bytes that a leaf may use, or a frame to be */
static long below(const char *op)
{
    const char *found = strstr(op, "(%rsp"), *start = found;
    if (!found)
        return 0;
    while (start > op && start[-1] != ' ' && start[-1] != ',')
        start--;
    return *start == '-' ? -number(start) : 0;
}

/* by how much it makes the depth greater */
static long change(const struct function *f, size_t i)
{
    const char *op = operation(&instructions[i]);
    if (starts(op, "push "))
        return 8;
    if (starts(op, "pop ") && !ends(op, "%rsp"))
        return -8;
    if (starts(op, "sub    $") && ends(op, ",%rsp"))
        return number(op + 8);
    if (starts(op, "add    $") && ends(op, ",%rsp"))
        return -number(op + 8);
    if (starts(op, "cmp ") || starts(op, "test "))
        return 0;
    if (ends(op, ",%rsp") || ends(op, " %rsp") || ends(op, ",%esp") || ends(op, ",%sp") || starts(op, "leave") || starts(op, "enter")
        || starts(op, "xchg   %rsp") || starts(op, "push") || starts(op, "pop ") || starts(op, "popf"))
        fail_at(f, i, "what becomes of the stack pointer is not understood");
    return 0;
}

/* ---- the depths of a function's instructions */

static size_t waiting[INSTRUCTIONS], waiting_count;

static void reach(const struct function *f, size_t from, size_t i, long depth)
{
    if (i < f->first || i >= f->end)
        fail_at(f, from, "runs out of its function");
    if (depth < 0)
        fail_at(f, from, "takes more from the stack than the function put there");
    if (instructions[i].depth == UNREACHED) {
        instructions[i].depth = depth;
        waiting[waiting_count++] = i;
    } else if (instructions[i].depth != depth) {
        fail_at(f, i, "reached with two depths");
    }
}

/* the instruction that a jump within the function goes to */
static size_t jump_target(const struct function *f, size_t from)
{
    const char *operand = strchr(operation(&instructions[from]), ' ');
    unsigned long address = operand ? strtoul(operand, NULL, 16) : 0;
    for (size_t i = f->first; i < f->end; i++)
        if (instructions[i].address == address)
            return i;
    fail_at(f, from, "jumps to no instruction of its function");
}

/* A loop that touches page after page of a large frame goes on until the stack pointer is at %r11. How far below the stack pointer that is:
   "mov %rsp,%r11" and "sub $0x8000,%r11", or "lea -0x8000(%rsp),%r11". */
static long probe_bytes(const struct function *f, size_t i)
{
    const char *op = operation(&instructions[i]);
    if (starts(op, "lea ") && ends(op, ",%r11"))
        return below(op);
    if (starts(op, "sub    $") && ends(op, ",%r11") && i > f->first && starts(operation(&instructions[i - 1]), "mov    %rsp,%r11"))
        return number(op + 8);
    return 0;
}

/* "cmp %r11,%rsp" and "jne" close the loop */
static int is_probe_end(const char *op)
{
    return starts(op, "cmp    %r11,%rsp");
}

static int is_probe_jump(const struct function *f, size_t i)
{
    return i > f->first && is_probe_end(operation(&instructions[i - 1])) && starts(operation(&instructions[i]), "jne ");
}

static void follow_jump(struct function *f, size_t i, long depth)
{
    const char *op = operation(&instructions[i]);
    if (through_register(op)) {
        if (f->switch_depth != UNREACHED && f->switch_depth != depth)
            fail_at(f, i, "a second jump through a register, at another depth");
        f->switch_depth = depth;
    } else if (!instructions[i].symbol[0] && !is_probe_jump(f, i)) {
        reach(f, i, jump_target(f, i), depth);
    }
}

static void follow(struct function *f, size_t i)
{
    const char *op = operation(&instructions[i]);
    long depth = instructions[i].depth + change(f, i);
    if (probe_bytes(f, i) > 0)
        f->probe_depth = depth + probe_bytes(f, i);
    if (is_probe_end(op)) {
        if (f->probe_depth == UNREACHED)
            fail_at(f, i, "a loop over pages without its end");
        depth = f->probe_depth;
    }
    if (is_return(op) && depth != 0)
        fail_at(f, i, "returns with something left on the stack");
    if (is_jump(op))
        follow_jump(f, i, depth);
    if (!is_end(op))
        reach(f, i, i + 1, depth);
}

static void follow_waiting(struct function *f)
{
    while (waiting_count > 0)
        follow(f, waiting[--waiting_count]);
}

/* A jump through a register is a switch: it goes to some instruction of its function that is reached in no other way. */
static void find_depths(struct function *f)
{
    reach(f, f->first, f->first, 0);
    follow_waiting(f);
    for (size_t i = f->first; i < f->end; i++)
        if (instructions[i].depth == UNREACHED && !is_filler(operation(&instructions[i]))) {
            if (f->switch_depth == UNREACHED)
                fail_at(f, i, "not reached");
            reach(f, i, i, f->switch_depth);
            follow_waiting(f);
        }
}

/* ---- what a function needs */

static long need_of(struct function *f);

static long need_of_name(const struct function *from, size_t i, const char *name, size_t length)
{
    for (size_t k = 0; k < function_count; k++)
        if (strlen(functions[k].name) == length && memcmp(functions[k].name, name, length) == 0)
            return need_of(&functions[k]);
    for (size_t k = 0; k < sizeof outside_names / sizeof *outside_names; k++)
        if (strlen(outside_names[k]) == length && memcmp(outside_names[k], name, length) == 0)
            return OUTSIDE;
    fail_at(from, i, "calls a function that is not known here");
}

/* by its relocation, "name-0x4", or, in one section, by "40 <name>" */
static long need_of_called(const struct function *f, size_t i)
{
    const struct instruction *x = &instructions[i];
    const char *open = strchr(x->text, '<');
    if (through_register(x->text))
        fail_at(f, i, "a call through a register");
    if (ends(x->symbol, "-0x4"))
        return need_of_name(f, i, x->symbol, strlen(x->symbol) - 4);
    if (x->symbol[0] || !open || !ends(open, ">"))
        fail_at(f, i, "calls something that is not understood");
    return need_of_name(f, i, open + 1, strlen(open) - 2);
}

static long most(long a, long b)
{
    return a > b ? a : b;
}

static long need_at(const struct function *f, size_t i)
{
    const struct instruction *x = &instructions[i];
    const char *op = operation(x);
    long need = most(x->depth + change(f, i), x->depth + below(op));
    if (starts(op, "call"))
        need = most(need, x->depth + RETURN_ADDRESS + need_of_called(f, i));
    if (is_jump(op) && x->symbol[0] && !through_register(op))
        need = most(need, x->depth + need_of_called(f, i));
    return need;
}

static long need_of(struct function *f)
{
    if (f->need == BEING_FOUND)
        fail(f->name, "calls itself");
    if (f->need != UNKNOWN)
        return f->need;
    f->need = BEING_FOUND;
    find_depths(f);
    long need = 0;
    for (size_t i = f->first; i < f->end; i++)
        if (instructions[i].depth != UNREACHED)
            need = most(need, need_at(f, i));
    return f->need = need;
}

/* ---- the calls */

/* a call's name begins so; an inner function's has its crate's and "::" */
static int is_call(const struct function *f)
{
    return starts(f->name, "lipvezor_");
}

static int within(struct function *f)
{
    long limit = strcmp(f->name, "lipvezor_close") == 0 ? LIPVEZOR_CLOSE_STACK : LIPVEZOR_STACK;
    long need = RETURN_ADDRESS + need_of(f);
    printf("%s: at most %ld bytes of stack%s %ld by the header\n", f->name, need, need > limit ? ", MORE THAN" : ",", limit);
    return need <= limit;
}

int main(void)
{
    int good = 1, calls = 0;
    read_all();
    for (size_t k = 0; k < function_count; k++)
        if (is_call(&functions[k])) {
            good &= within(&functions[k]);
            calls++;
        }
    if (calls == 0)
        fail("objdump", "no call in it");
    return !good;
}
