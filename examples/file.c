/*
 * A file there and back: cut into blocks, encoded, sent as units over a link that loses some and changes their order, and recovered.
 *
 * All blocks are full but the last, which is as short as the rest of the file. The receiver knows the file's length, as from the plan of the
 * pass: the layer does not send it, and no unit carries the fill of its block, which follows from it. All else it learns from the units.
 *
 *     file [-CODE] [-w W] [-l PERCENT] [-s SEED] [FILE [RECOVERED]]
 *
 *   -CODE        the code by its number: -1, -2, -4, -5, -7 or -8; else -1
 *   -w W         bytes of a symbol, 1 to 1024; else 64
 *   -l PERCENT   how many of a hundred units are lost; else 15, which is too much for C7 and C8
 *   -s SEED      which are lost, and the order of the others; else 1
 *   FILE         what is sent; else a sample of 300,000 bytes
 *   RECOVERED    where the recovered file goes; else it is only compared
 *
 * Exit status 0: every block is whole, and the file is as sent. 1: some block is not whole; which ones is printed, and nothing is written.
 * 2: something else went wrong.
 *
 * With the library installed (make install):
 *     cc -std=c11 file.c $(pkg-config --cflags --libs lipvezor) -o file
 */
#include "lipvezor.h"

#include <stdio.h>
#include <stdlib.h>
#include <string.h>

/* The blocks' information, one block after the other, is the file, then zeros to the end of its last symbol. */
enum { FIRST_LSC = 1, LAST_LSC = LIPVEZOR_MAX_LSC, PROTOCOL = 1, SAMPLE_BYTES = 300000 };

struct bytes {
    uint8_t *at;
    size_t length;
};

static _Noreturn void fail(const char *what)
{
    fprintf(stderr, "file: %s\n", what);
    exit(2);
}

/* for calls that are not refused unless this program is wrong */
static void expect_done(const char *call, uint8_t refused)
{
    if (refused) {
        fprintf(stderr, "file: %s: refused %u, %s\n", call, (unsigned)refused, lipvezor_refusal_text(refused));
        exit(2);
    }
}

static void *there(void *p)
{
    if (!p)
        fail("no memory");
    return p;
}

/* What the buffers hold at first does not matter to any call. None is NULL, even of no bytes: no call may be handed that. */
static void *allocate(size_t bytes)
{
    return there(malloc(bytes ? bytes : 1));
}

static void *allocate_zeros(size_t count, size_t size)
{
    return there(calloc(count, size));
}

/* ---- numbers for the losses, the order and the sample: SplitMix64 */

static uint64_t state;

static size_t number_below(size_t bound)
{
    uint64_t z = state += UINT64_C(0x9E3779B97F4A7C15);
    z = (z ^ (z >> 30)) * UINT64_C(0xBF58476D1CE4E5B9);
    z = (z ^ (z >> 27)) * UINT64_C(0x94D049BB133111EB);
    return (size_t)(z ^ (z >> 31)) % bound;
}

/* ---- the link: units with their lengths, each in memory of its own */

struct unit {
    size_t length;
    uint8_t bytes[];
};

struct link {
    struct unit **units;
    size_t count;
};

static struct unit *new_unit(size_t length)
{
    struct unit *unit = allocate(sizeof *unit + length);
    unit->length = length;
    return unit;
}

static void lose(struct link *link, size_t percent)
{
    size_t kept = 0;
    for (size_t i = 0; i < link->count; i++) {
        if (number_below(100) < percent)
            free(link->units[i]);
        else
            link->units[kept++] = link->units[i];
    }
    link->count = kept;
}

static void shuffle(struct link *link)
{
    for (size_t i = link->count; i > 1; i--) {
        size_t j = number_below(i);
        struct unit *other = link->units[j];
        link->units[j] = link->units[i - 1];
        link->units[i - 1] = other;
    }
}

static void free_link(struct link *link)
{
    for (size_t i = 0; i < link->count; i++)
        free(link->units[i]);
    free(link->units);
}

/* ---- what board and ground both know: how a file of this length is cut */

/* a / b, rounded up */
static size_t parts_of(size_t a, size_t b)
{
    return a / b + (a % b != 0);
}

static size_t blocks_of(size_t file_length, size_t code, size_t w)
{
    return parts_of(file_length, lipvezor_k(code) * w);
}

/* the information symbols of a block: k, fewer of the last one, and 0, which calls refuse, of an LSC that is not the file's */
static size_t fill_of(size_t file_length, size_t code, size_t w, size_t lsc)
{
    const size_t k = lipvezor_k(code), blocks = blocks_of(file_length, code, w);
    if (lsc < FIRST_LSC || lsc >= FIRST_LSC + blocks)
        return 0;
    return lsc == FIRST_LSC + blocks - 1 ? parts_of(file_length, w) - (blocks - 1) * k : k;
}

/* ---- on board */

static void send_block(struct link *link, lipvezor_block block, struct bytes information)
{
    static uint8_t parity[LIPVEZOR_PARITY_BYTES(LIPVEZOR_C2, LIPVEZOR_MAX_WIDTH)];
    static uint8_t symbol[LIPVEZOR_MAX_WIDTH];
    const lipvezor_codeword codeword = {.information = information.at,
                                        .information_length = information.length,
                                        .parity = parity,
                                        .parity_length = lipvezor_parity_bytes(block.code, block.w)};
    expect_done("encode", lipvezor_encode(&block, &codeword));
    for (size_t lwc = lipvezor_next_lwc(&block, 0); lwc != 0; lwc = lipvezor_next_lwc(&block, lwc)) {
        struct unit *unit = new_unit(lipvezor_unit_bytes(block.code, block.w));
        expect_done("show", lipvezor_show(&block, &codeword, lwc, symbol, block.w));
        expect_done("write", lipvezor_write(&block, lwc, symbol, block.w, unit->bytes, unit->length));
        link->units[link->count++] = unit;
    }
}

/* the units of all blocks; LSC 1 is the first */
static struct link send_file(struct bytes file, size_t code, size_t w)
{
    const size_t blocks = blocks_of(file.length, code, w);
    if (blocks > LAST_LSC)
        fail("the file needs more than 65534 blocks: take a larger W, or C2, C5 or C8");
    uint8_t *information = allocate_zeros(parts_of(file.length, w) + 1, w), *next = information;
    memcpy(information, file.at, file.length);
    struct link link = {allocate(blocks * lipvezor_n(code) * sizeof *link.units), 0};
    for (size_t lsc = FIRST_LSC; lsc < FIRST_LSC + blocks; lsc++) {
        const size_t fill = fill_of(file.length, code, w, lsc);
        const lipvezor_block block = {.code = code, .w = w, .protocol = PROTOCOL, .lsc = lsc, .fill = fill};
        send_block(&link, block, (struct bytes){next, fill * w});
        next += fill * w;
    }
    free(information);
    return link;
}

/* ---- on the ground */

struct received {
    lipvezor_block record;
    lipvezor_buffers buffers;
    lipvezor_report report;
};

/* the open blocks by their LSC, NULL where no unit came; an LSC is two bytes of a unit */
struct receiver {
    size_t file_length;
    struct received *blocks[65536];
    size_t kept, repeated, refused;
};

static void free_received(struct received *block)
{
    free(block->buffers.symbols);
    free(block->buffers.marks);
    free(block);
}

/* the fill of the block that a unit is of; 0 where the unit names no code or W, which open refuses before it */
static size_t fill_by(size_t file_length, size_t code, const lipvezor_parts *parts)
{
    return lipvezor_symbol_bytes(code, parts->w) ? fill_of(file_length, code, parts->w, parts->lsc) : 0;
}

/* the block that a unit is of, as the unit describes it; refused where it names no code, or is not of the file */
static uint8_t open_received(size_t file_length, const lipvezor_parts *parts, struct received **opened)
{
    struct received *block = allocate(sizeof *block);
    const size_t code = lipvezor_code_of(parts->k, parts->n), fill = fill_by(file_length, code, parts);
    block->record = (lipvezor_block){.code = code, .w = parts->w, .protocol = parts->protocol, .lsc = parts->lsc, .fill = fill};
    const size_t symbols = lipvezor_symbol_bytes(code, parts->w), marks = lipvezor_n(code);
    block->buffers = (lipvezor_buffers){
        .symbols = allocate(symbols), .symbols_length = symbols, .marks = allocate(marks), .marks_length = marks};
    uint8_t refused = lipvezor_open(&block->record, &block->buffers);
    if (refused)
        free_received(block);
    else
        *opened = block;
    return refused;
}

/* to the block of its LSC, which its first unit opens */
static uint8_t take_unit(struct receiver *receiver, const struct unit *unit, lipvezor_taken *taken)
{
    lipvezor_parts parts;
    uint8_t refused = lipvezor_read(unit->bytes, unit->length, &parts);
    if (refused)
        return refused;
    struct received **place = &receiver->blocks[parts.lsc];
    if (!*place)
        refused = open_received(receiver->file_length, &parts, place);
    if (refused)
        return refused;
    struct received *block = *place;
    return lipvezor_take(&block->record, &block->buffers, unit->bytes, unit->length, taken);
}

/* a unit that is refused counts as lost */
static void receive_unit(struct receiver *receiver, const struct unit *unit)
{
    lipvezor_taken taken;
    uint8_t refused = take_unit(receiver, unit, &taken);
    if (refused) {
        receiver->refused++;
        printf("a unit is refused: %u, %s\n", (unsigned)refused, lipvezor_refusal_text(refused));
    } else if (taken.result == LIPVEZOR_REPEATED) {
        receiver->repeated++;
    } else {
        receiver->kept++;
    }
}

/* one pair of work buffers, large enough for a block of any code */
static void close_received(struct received *block)
{
    static uint64_t words[LIPVEZOR_WORK_WORDS(LIPVEZOR_C2)];
    static uint8_t bytes[LIPVEZOR_WORK_BYTES(LIPVEZOR_C2, LIPVEZOR_MAX_WIDTH)];
    const lipvezor_work work = {.words = words,
                                .words_length = lipvezor_work_words(block->record.code),
                                .bytes = bytes,
                                .bytes_length = lipvezor_work_bytes(block->record.code, block->record.w)};
    expect_done("close", lipvezor_close(&block->record, &block->buffers, &work, &block->report));
}

static void receive_all(struct receiver *receiver, const struct link *link)
{
    for (size_t i = 0; i < link->count; i++)
        receive_unit(receiver, link->units[i]);
    for (size_t lsc = FIRST_LSC; lsc <= LAST_LSC; lsc++)
        if (receiver->blocks[lsc])
            close_received(receiver->blocks[lsc]);
}

static void free_receiver(struct receiver *receiver)
{
    for (size_t lsc = FIRST_LSC; lsc <= LAST_LSC; lsc++)
        if (receiver->blocks[lsc])
            free_received(receiver->blocks[lsc]);
    free(receiver);
}

/* ---- the file, from whole blocks alone */

static int is_whole(const struct received *block)
{
    return block && block->report.verdict == LIPVEZOR_WHOLE;
}

/* The last block that was sent, as far as the receiver can tell: the file was cut by code and W, which only a unit says; where none came, it
   is the first. */
static size_t last_block(const struct receiver *receiver)
{
    size_t lsc = FIRST_LSC;
    while (lsc < LAST_LSC && !receiver->blocks[lsc])
        lsc++;
    const struct received *block = receiver->blocks[lsc];
    size_t blocks = block ? blocks_of(receiver->file_length, block->record.code, block->record.w) : receiver->file_length != 0;
    return blocks < LAST_LSC ? FIRST_LSC + blocks - 1 : LAST_LSC;
}

/* 1 and the file, or 0 if not every block is whole */
static int join(const struct receiver *receiver, struct bytes *file)
{
    const size_t last = last_block(receiver);
    for (size_t lsc = FIRST_LSC; lsc <= last; lsc++)
        if (!is_whole(receiver->blocks[lsc]))
            return 0;
    *file = (struct bytes){allocate(receiver->file_length), 0};
    for (size_t lsc = FIRST_LSC; lsc <= last; lsc++) {
        const lipvezor_block *record = &receiver->blocks[lsc]->record;
        const size_t information = lipvezor_information_bytes(record->code, record->w, record->fill);
        const size_t rest = receiver->file_length - file->length, length = information < rest ? information : rest;
        memcpy(file->at + file->length, receiver->blocks[lsc]->buffers.symbols, length);
        file->length += length;
    }
    return 1;
}

/* ---- what is printed of the blocks */

static const char *verdict_text(size_t verdict)
{
    switch (verdict) {
    case LIPVEZOR_WHOLE: return "whole";
    case LIPVEZOR_AMBIGUOUS: return "ambiguous";
    case LIPVEZOR_INCONSISTENT: return "inconsistent";
    default: return "a verdict of another version";
    }
}

static void print_block(size_t lsc, const struct received *block)
{
    if (!block)
        printf("block %zu: no unit came\n", lsc);
    else
        printf("block %zu: %s, heard %zu, filled %zu, left %zu\n", lsc, verdict_text(block->report.verdict), block->report.heard,
               block->report.filled, block->report.left);
}

static void print_blocks(const struct receiver *receiver)
{
    const size_t last = last_block(receiver);
    for (size_t lsc = FIRST_LSC; lsc <= last; lsc++)
        print_block(lsc, receiver->blocks[lsc]);
}

static void print_not_whole(const struct receiver *receiver)
{
    const size_t last = last_block(receiver);
    printf("not recovered; not whole:");
    for (size_t lsc = FIRST_LSC; lsc <= last; lsc++)
        if (!is_whole(receiver->blocks[lsc]))
            printf(" %zu", lsc);
    printf("\n");
}

/* ---- files and options */

static struct bytes read_file(const char *name)
{
    struct bytes all = {NULL, 0};
    size_t room = 0, got;
    FILE *stream = fopen(name, "rb");
    if (!stream)
        fail("the file can't be opened");
    do {
        room = room ? 2 * room : 65536;
        all.at = there(realloc(all.at, room));
        got = fread(all.at + all.length, 1, room - all.length, stream);
        all.length += got;
    } while (all.length == room);
    if (ferror(stream) || fclose(stream))
        fail("the file can't be read");
    return all;
}

static void write_file(const char *name, struct bytes file)
{
    FILE *stream = fopen(name, "wb");
    if (!stream)
        fail("the recovered file can't be opened");
    if (fwrite(file.at, 1, file.length, stream) != file.length || fclose(stream))
        fail("the recovered file can't be written");
}

static struct bytes sample(void)
{
    struct bytes all = {allocate(SAMPLE_BYTES), SAMPLE_BYTES};
    for (size_t i = 0; i < SAMPLE_BYTES; i++)
        all.at[i] = (uint8_t)number_below(256);
    return all;
}

struct options {
    size_t code, w, percent, seed;
    const char *file, *recovered;
};

static _Noreturn void usage(void)
{
    fail("usage: file [-1|-2|-4|-5|-7|-8] [-w 1..1024] [-l 0..100] [-s SEED] [FILE [RECOVERED]]");
}

static size_t number_of(const char *text, size_t least, size_t most)
{
    if (!text || *text < '0' || *text > '9')
        usage();
    char *end;
    unsigned long long number = strtoull(text, &end, 10);
    if (*end || number < least || number > most)
        usage();
    return (size_t)number;
}

/* an option's letter; 0 for what is not an option */
static char option_letter(const char *argument)
{
    return argument && argument[0] == '-' && strlen(argument) == 2 ? argument[1] : 0;
}

static struct options options_of(char **next)
{
    struct options all = {.code = LIPVEZOR_C1, .w = 64, .percent = 15, .seed = 1};
    for (; option_letter(*next); next++) {
        const char letter = option_letter(*next);
        switch (letter) {
        case '1': case '2': case '4': case '5': case '7': case '8': all.code = (size_t)(letter - '0'); break;
        case 'w': all.w = number_of(*++next, 1, LIPVEZOR_MAX_WIDTH); break;
        case 'l': all.percent = number_of(*++next, 0, 100); break;
        case 's': all.seed = number_of(*++next, 0, UINT32_MAX); break;
        default: usage();
        }
    }
    if (*next)
        all.file = *next++;
    if (*next)
        all.recovered = *next++;
    if (*next)
        usage();
    return all;
}

/* 0, and the file is as sent; or 1, and not every block is whole */
static int recover(const struct receiver *receiver, struct bytes sent, const char *name)
{
    struct bytes file;
    if (!join(receiver, &file)) {
        print_not_whole(receiver);
        return 1;
    }
    if (file.length != sent.length || memcmp(file.at, sent.at, sent.length) != 0)
        fail("every block is whole, but the file is not as sent");
    if (name)
        write_file(name, file);
    printf("recovered: %zu bytes, as sent\n", file.length);
    free(file.at);
    return 0;
}

int main(int argc, char **argv)
{
    const struct options options = options_of(argv + (argc > 0));
    state = options.seed;
    struct bytes file = options.file ? read_file(options.file) : sample();
    struct link link = send_file(file, options.code, options.w);
    const size_t sent = link.count;
    lose(&link, options.percent);
    shuffle(&link);

    struct receiver *receiver = allocate_zeros(1, sizeof *receiver);
    receiver->file_length = file.length;
    receive_all(receiver, &link);
    printf("units: %zu sent, %zu arrived, %zu kept, %zu repeated, %zu refused\n", sent, link.count, receiver->kept, receiver->repeated,
           receiver->refused);
    print_blocks(receiver);
    int status = recover(receiver, file, options.recovered);
    free_receiver(receiver);
    free_link(&link);
    free(file.at);
    return status;
}
