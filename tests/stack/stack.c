/*
 * Every call runs through on a stack with no more bytes than include/lipvezor.h says: it is made on a stack of its own of just that size, and
 * where it takes more, it meets memory that may not be touched. tests/stack/bound.c finds by the machine code what is reserved and perhaps
 * not touched in these runs.
 * Exit status 0 and a line for each call, or 1 and which call takes more. With two numbers as arguments, those are the sizes for close and
 * for the others.
 *
 * Linked without -z now the first call of memset and memcpy runs the C library's loader on the caller's stack, so the test is run both ways.
 */
#define _DEFAULT_SOURCE
#include "lipvezor.h"

#include <signal.h>
#include <stdio.h>
#include <stdlib.h>
#include <string.h>
#include <sys/mman.h>
#include <unistd.h>

/* Bytes above those that the header says, for the function here that makes the call: its return address and alignment. */
enum { SWITCH = 16 };

/* below each stack: no frame is so large that it reaches past it */
enum { GUARD = 1 << 20 };

enum { PROTOCOL = 1, LSC = 7, EXTENSIONS = 5, UNIT_ROOM = 4096 };

static size_t close_stack = LIPVEZOR_CLOSE_STACK, other_stack = LIPVEZOR_STACK;

static _Noreturn void fail(const char *what)
{
    fprintf(stderr, "stack: %s\n", what);
    exit(1);
}

/* ---- a stack of so many bytes */

static unsigned char *guard;
static char message[200];

/* on a signal stack, since the other one has no bytes left */
static void on_fault(int signal, siginfo_t *info, void *context)
{
    static const char elsewhere[] = "stack: a fault that is not the stack's end\n";
    unsigned char *at = info->si_addr;
    int ours = at >= guard && at < guard + GUARD;
    (void)signal, (void)context;
    ssize_t written = ours ? write(1, message, strlen(message)) : write(1, elsewhere, sizeof elsewhere - 1);
    _exit(written < 0 ? 2 : 1);
}

static void catch_faults(void)
{
    static unsigned char signal_stack[65536];
    stack_t given = {.ss_sp = signal_stack, .ss_size = sizeof signal_stack};
    struct sigaction action = {.sa_sigaction = on_fault, .sa_flags = SA_SIGINFO | SA_ONSTACK};
    if (sigaltstack(&given, NULL) || sigaction(SIGSEGV, &action, NULL) || sigaction(SIGBUS, &action, NULL))
        fail("no signal stack");
}

/* lower to upper: GUARD bytes that may not be touched, then so many that may; answers the first address above them */
static unsigned char *new_stack(size_t bytes)
{
    unsigned char *lowest = mmap(NULL, GUARD + bytes, PROT_READ | PROT_WRITE, MAP_PRIVATE | MAP_ANONYMOUS, -1, 0);
    if (lowest == MAP_FAILED || mprotect(lowest, GUARD, PROT_NONE))
        fail("no memory for a stack");
    guard = lowest;
    return lowest + GUARD + bytes;
}

/* the call with the stack pointer at top, a multiple of 16 */
static void call_at(unsigned char *top, void (*call)(void))
{
    __asm__ volatile("movq %%rsp, %%rbx\n\t"
                     "movq %0, %%rsp\n\t"
                     "call *%1\n\t"
                     "movq %%rbx, %%rsp"
                     :
                     : "r"(top), "r"(call)
                     : "rbx", "rax", "rcx", "rdx", "rsi", "rdi", "r8", "r9", "r10", "r11", "xmm0", "xmm1", "xmm2", "xmm3", "xmm4", "xmm5",
                       "xmm6", "xmm7", "xmm8", "xmm9", "xmm10", "xmm11", "xmm12", "xmm13", "xmm14", "xmm15", "cc", "memory");
}

static void on_stack(const char *name, size_t bytes, void (*call)(void))
{
    const size_t all = (bytes + SWITCH) / 16 * 16;
    unsigned char *top = new_stack(all);
    snprintf(message, sizeof message, "stack: lipvezor_%s takes more than the %zu bytes that the header says\n", name, bytes);
    call_at(top, call);
    if (munmap(guard, GUARD + all))
        fail("munmap");
}

/* ---- a block, all that is lent for it, and what the last call said */

static lipvezor_block block;
static lipvezor_codeword codeword;
static lipvezor_buffers buffers;
static lipvezor_work work;
static size_t n, k, m, lwc, unit_length, out_length;
static uint8_t *information, *unit;
static uint8_t symbol[LIPVEZOR_MAX_WIDTH];
static uint8_t tiles[LIPVEZOR_K(LIPVEZOR_C2) * LIPVEZOR_MAX_WIDTH], packed[sizeof tiles];
static size_t tile_lengths[LIPVEZOR_K(LIPVEZOR_C2) + 1], tiles_length, tile_count, packed_length;
static lipvezor_parts parts;
static lipvezor_taken taken;
static lipvezor_report report;
static uint8_t answer;
static volatile size_t size;

static void make_sizes(void)
{
    size = lipvezor_version();
    size = lipvezor_n(block.code);
    size = lipvezor_k(block.code);
    size = lipvezor_m(block.code);
    size = lipvezor_information_bytes(block.code, block.w, block.fill);
    size = lipvezor_parity_bytes(block.code, block.w);
    size = lipvezor_symbol_bytes(block.code, block.w);
    size = lipvezor_unit_bytes(block.code, block.w);
    size = lipvezor_work_words(block.code);
    size = lipvezor_work_bytes(block.code, block.w);
    size = lipvezor_rows_needed(block.w, tile_lengths, tile_count);
}

static void make_pack(void)
{
    answer = lipvezor_pack(&block, tiles, tiles_length, tile_lengths, tile_count, packed, packed_length);
}

static void make_encode(void)
{
    answer = lipvezor_encode(&block, &codeword);
}

static void make_show(void)
{
    answer = lipvezor_show(&block, &codeword, lwc, symbol, out_length);
}

static void make_write(void)
{
    answer = lipvezor_write(&block, lwc, symbol, out_length, unit, unit_length);
}

static void make_read(void)
{
    answer = lipvezor_read(unit, unit_length, &parts);
}

static void make_open(void)
{
    answer = lipvezor_open(&block, &buffers);
}

static void make_take(void)
{
    answer = lipvezor_take(&block, &buffers, unit, unit_length, &taken);
}

static void make_close(void)
{
    answer = lipvezor_close(&block, &buffers, &work, &report);
}

struct call {
    const char *name;
    void (*make)(void);
    const size_t *stack;
    size_t runs;
};

enum { SIZES, PACK, ENCODE, SHOW, WRITE, READ, OPEN, TAKE, CLOSE, CALLS };
static struct call calls[CALLS] = {
    {"version and the sizes", make_sizes, &other_stack, 0},
    {"pack", make_pack, &other_stack, 0},
    {"encode", make_encode, &other_stack, 0},
    {"show", make_show, &other_stack, 0},
    {"write", make_write, &other_stack, 0},
    {"read", make_read, &other_stack, 0},
    {"open", make_open, &other_stack, 0},
    {"take", make_take, &other_stack, 0},
    {"close", make_close, &close_stack, 0},
};

/* one call, which must answer this: else the run is not the one that was meant */
static void run(int which, uint8_t expected)
{
    struct call *call = &calls[which];
    answer = LIPVEZOR_DONE;
    on_stack(call->name, *call->stack, call->make);
    call->runs++;
    if (answer != expected) {
        fprintf(stderr, "stack: %s, code %zu, W %zu, fill %zu: %s, expected: %s\n", call->name, block.code, block.w, block.fill,
                lipvezor_refusal_text(answer), lipvezor_refusal_text(expected));
        exit(1);
    }
}

/* ---- what is run */

static uint64_t state;

static uint64_t next_number(void)
{
    uint64_t z = state += UINT64_C(0x9E3779B97F4A7C15);
    z = (z ^ (z >> 30)) * UINT64_C(0xBF58476D1CE4E5B9);
    z = (z ^ (z >> 27)) * UINT64_C(0x94D049BB133111EB);
    return z ^ (z >> 31);
}

static void *allocate(size_t count, size_t bytes)
{
    void *p = calloc(count, bytes);
    if (!p)
        fail("no memory");
    return p;
}

static void new_block(size_t code, size_t w, size_t fill)
{
    block = (lipvezor_block){.code = code, .w = w, .protocol = PROTOCOL, .lsc = LSC, .fill = fill};
    n = lipvezor_n(code), k = lipvezor_k(code), m = lipvezor_m(code);
    codeword.information_length = lipvezor_information_bytes(code, w, fill), codeword.parity_length = lipvezor_parity_bytes(code, w);
    codeword.information = information = allocate(codeword.information_length, 1);
    codeword.parity = allocate(codeword.parity_length, 1);
    buffers.symbols_length = lipvezor_symbol_bytes(code, w), buffers.marks_length = n;
    buffers.symbols = allocate(buffers.symbols_length, 1);
    buffers.marks = allocate(buffers.marks_length, 1);
    work.words_length = lipvezor_work_words(code), work.bytes_length = lipvezor_work_bytes(code, w);
    work.words = allocate(work.words_length, sizeof *work.words);
    work.bytes = allocate(work.bytes_length, 1);
    unit = allocate(UNIT_ROOM, 1);
    out_length = w;
    for (size_t i = 0; i < codeword.information_length; i++)
        information[i] = (uint8_t)next_number();
}

static void free_block(void)
{
    free(information), free(codeword.parity), free(buffers.symbols), free(buffers.marks), free(work.words), free(work.bytes), free(unit);
}

/* each refusal that the block's numbers and lengths can cause, in a call that tests these */
static void run_refused(int which, int label)
{
    const lipvezor_block good = block;
    block.code = 3;
    run(which, LIPVEZOR_REFUSED_CODE);
    block = good, block.w = LIPVEZOR_MAX_WIDTH + 1;
    run(which, LIPVEZOR_REFUSED_WIDTH);
    block = good, block.lsc = 65535;
    if (label)
        run(which, LIPVEZOR_REFUSED_LABEL);
    block = good, block.fill = k + 1;
    run(which, LIPVEZOR_REFUSED_FILL);
    block = good;
}

/* so many tiles of so many bytes, and the sizes, of which one is theirs */
static void run_pack_of(size_t count, size_t length, uint8_t expected)
{
    tile_count = count, tiles_length = count * length;
    for (size_t i = 0; i < count; i++)
        tile_lengths[i] = length;
    run(SIZES, LIPVEZOR_DONE);
    run(PACK, expected);
}

static void run_pack(void)
{
    const size_t fill = block.fill, room = block.w - 4;
    packed_length = codeword.information_length;
    if (block.w < 5) {
        run_pack_of(1, 1, LIPVEZOR_REFUSED_NARROW);
        return;
    }
    run_pack_of(0, 0, LIPVEZOR_DONE);
    run_pack_of(1, fill * room, LIPVEZOR_DONE);
    run_pack_of(fill / 2, room + 1, LIPVEZOR_DONE);
    run_pack_of(fill, 1, LIPVEZOR_DONE);
    run_refused(PACK, 0);
    packed_length--;
    run(PACK, LIPVEZOR_REFUSED_LENGTH);
    packed_length++, tiles_length--;
    run(PACK, LIPVEZOR_REFUSED_TILES);
    run_pack_of(1, 0, LIPVEZOR_REFUSED_TILES);
    run_pack_of(fill + 1, 1, LIPVEZOR_REFUSED_OVERFULL);
}

static void run_encode(void)
{
    run(ENCODE, LIPVEZOR_DONE);
    run_refused(ENCODE, 0);
    codeword.parity_length++;
    run(ENCODE, LIPVEZOR_REFUSED_LENGTH);
    codeword.parity_length--;
}

static void write_unit(size_t number)
{
    lwc = number;
    run(SHOW, LIPVEZOR_DONE);
    unit_length = lipvezor_unit_bytes(block.code, block.w);
    run(WRITE, LIPVEZOR_DONE);
}

static void run_write(void)
{
    const size_t numbers[] = {1, block.fill, k + 1, n};
    for (size_t i = 0; i < sizeof numbers / sizeof *numbers; i++)
        write_unit(numbers[i]);
    run_refused(SHOW, 0);
    run_refused(WRITE, 1);
    lwc = n + 1;
    run(SHOW, LIPVEZOR_REFUSED_POSITION);
    run(WRITE, LIPVEZOR_REFUSED_POSITION);
    if (block.fill < k) {
        lwc = k;
        run(SHOW, LIPVEZOR_REFUSED_IDLE);
        run(WRITE, LIPVEZOR_REFUSED_IDLE);
    }
    lwc = 1, out_length--;
    run(SHOW, LIPVEZOR_REFUSED_LENGTH);
    run(WRITE, LIPVEZOR_REFUSED_SYMBOL);
    out_length++;
}

/* extensions of other types before the unit's own, one of them with a length of two bytes: take's longer way */
static void add_extensions(void)
{
    for (uint8_t type = 2; type < 2 + EXTENSIONS; type++) {
        size_t length = type == 2 ? 200 : type, head = type == 2 ? 3 : 2;
        memmove(unit + 6 + head + length, unit + 6, unit_length - 6);
        unit[6] = type;
        unit[7] = type == 2 ? 0x81 : (uint8_t)length;
        if (type == 2)
            unit[8] = (uint8_t)(length & 0x7F);
        unit_length += head + length;
        unit[1]++;
    }
}

/* both calls that get a unit */
static void run_unit(uint8_t read, uint8_t take)
{
    run(READ, read);
    run(TAKE, take);
}

static void run_unit_with(size_t at, uint8_t value, uint8_t read, uint8_t take)
{
    const uint8_t before = unit[at];
    unit[at] = value;
    run_unit(read, take);
    unit[at] = before;
}

static void run_unit_of_length(size_t length, uint8_t read, uint8_t take)
{
    const size_t before = unit_length;
    unit_length = length;
    run_unit(read, take);
    unit_length = before;
}

/* the unit has no other extensions yet */
static void run_bad_units(void)
{
    const size_t seed = 8 + (size_t)unit[7] - 1;
    run_unit_of_length(0, LIPVEZOR_REFUSED_HEADER, LIPVEZOR_REFUSED_HEADER);
    run_unit_with(0, 0x22, LIPVEZOR_REFUSED_HEADER, LIPVEZOR_REFUSED_HEADER);
    run_unit_of_length(7, LIPVEZOR_REFUSED_EXTENSION, LIPVEZOR_REFUSED_EXTENSION);
    run_unit_with(8, 0x80, LIPVEZOR_REFUSED_NUMBER, LIPVEZOR_REFUSED_NUMBER);
    run_unit_with(6, 255, LIPVEZOR_REFUSED_EXTENSION_KIND, LIPVEZOR_REFUSED_EXTENSION_KIND);
    run_unit_with(6, 9, LIPVEZOR_DONE, LIPVEZOR_REFUSED_PARAMETERS);
    run_unit_with(seed, 1, LIPVEZOR_DONE, LIPVEZOR_REFUSED_PARAMETERS);
    run_unit_with(5, LSC + 1, LIPVEZOR_DONE, LIPVEZOR_REFUSED_FOREIGN);
    run_unit_with(2, 0xFF, LIPVEZOR_DONE, LIPVEZOR_REFUSED_POSITION);
    if (block.fill < k)
        run_unit_with(3, unit[3] + 1, LIPVEZOR_DONE, LIPVEZOR_REFUSED_IDLE);
    run_unit_of_length(unit_length + 1, LIPVEZOR_DONE, LIPVEZOR_REFUSED_SYMBOL);
    buffers.marks[lwc - 1] = 3;
    run(TAKE, LIPVEZOR_REFUSED_MARK);
    buffers.marks[lwc - 1] = LIPVEZOR_MARK_MISSING;
}

/* kept, repeated, contradicted; on both of take's ways */
static void run_unit_thrice(void)
{
    buffers.marks[lwc - 1] = LIPVEZOR_MARK_MISSING;
    run_unit(LIPVEZOR_DONE, LIPVEZOR_DONE);
    run_unit(LIPVEZOR_DONE, LIPVEZOR_DONE);
    run_unit_with(unit_length - 1, unit[unit_length - 1] ^ 1, LIPVEZOR_DONE, LIPVEZOR_REFUSED_CONFLICT);
}

static void run_take(void)
{
    run(OPEN, LIPVEZOR_DONE);
    run_refused(OPEN, 1);
    write_unit(block.fill);
    run_refused(TAKE, 1);
    run_bad_units();
    run_unit_thrice();
    add_extensions();
    run_unit_thrice();
}

/* a position of which a unit is sent */
static size_t some_position(void)
{
    size_t i = next_number() % (block.fill + m);
    return i < block.fill ? i : i - block.fill + k;
}

/* the block as sent, without so many symbols, or all; what idle positions have does not count */
static void lose(size_t missing)
{
    memcpy(buffers.symbols, codeword.information, codeword.information_length);
    memcpy(buffers.symbols + k * block.w, codeword.parity, codeword.parity_length);
    memset(buffers.marks, LIPVEZOR_MARK_HEARD, n);
    missing = missing < block.fill + m ? missing : block.fill + m;
    while (missing > 0) {
        size_t i = some_position();
        if (buffers.marks[i] == LIPVEZOR_MARK_HEARD) {
            buffers.marks[i] = LIPVEZOR_MARK_MISSING;
            missing--;
        }
    }
}

static void run_close(void)
{
    static const size_t percents[] = {0, 1, 10, 50, 80, 90, 95, 97, 99, 100, 101, 120, 200, 300};
    size_t verdicts[4] = {0};
    for (size_t i = 0; i < sizeof percents / sizeof *percents; i++)
        for (size_t flipped = 0; flipped < 3; flipped++) {
            lose((m * percents[i] + 99) / 100);
            for (size_t x = 0; x < flipped; x++)
                buffers.symbols[some_position() * block.w] ^= 1;
            run(CLOSE, LIPVEZOR_DONE);
            verdicts[report.verdict % 4]++;
        }
    if (!verdicts[LIPVEZOR_WHOLE] || !verdicts[LIPVEZOR_AMBIGUOUS] || !verdicts[LIPVEZOR_INCONSISTENT])
        fail("a verdict that close never came to");
    run_refused(CLOSE, 1);
    buffers.marks[n - 1] = 3;
    run(CLOSE, LIPVEZOR_REFUSED_MARK);
}

static void run_all(size_t code, size_t w, size_t fill)
{
    new_block(code, w, fill);
    run_pack();
    run_encode();
    run_write();
    run_take();
    run_close();
    free_block();
}

int main(int argc, char **argv)
{
    static const size_t codes[] = {LIPVEZOR_C1, LIPVEZOR_C2, LIPVEZOR_C4, LIPVEZOR_C5, LIPVEZOR_C7, LIPVEZOR_C8};
    static const size_t widths[] = {1, 8, 16, 33, 64, 100, 128, 1024};
    if (argc == 3) {
        close_stack = strtoul(argv[1], NULL, 10);
        other_stack = strtoul(argv[2], NULL, 10);
    }
    catch_faults();
    for (size_t c = 0; c < sizeof codes / sizeof *codes; c++)
        for (size_t i = 0; i < sizeof widths / sizeof *widths; i++) {
            run_all(codes[c], widths[i], lipvezor_k(codes[c]));
            run_all(codes[c], widths[i], lipvezor_k(codes[c]) / 3);
        }
    for (size_t i = 0; i < CALLS; i++)
        printf("%s: %zu calls, each within %zu bytes of stack\n", calls[i].name, calls[i].runs, *calls[i].stack);
    return 0;
}
