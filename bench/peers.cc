// Encode and close of C2 beside Reed-Solomon codes of two libraries, ISA-L and cm256cc, and RaptorQ of a third, lcrq, in one process on the same
// information and losses. make bench-peers builds and runs it where all three are installed. What differs between the sides is printed first.
#include <algorithm>
#include <cstdint>
#include <cstdio>
#include <cstdlib>
#include <cstring>
#include <ctime>
#include <functional>
#include <string>
#include <vector>

#include <arpa/inet.h>

#include <cm256cc/cm256.h>
#include <isa-l.h>
extern "C" {
#include <lcrq.h>
}

#include "lipvezor.h"

namespace {

typedef std::vector<uint8_t> Bytes;
typedef std::function<void()> Step;

const size_t K = LIPVEZOR_K(LIPVEZOR_C2), M = LIPVEZOR_M(LIPVEZOR_C2), N = LIPVEZOR_N(LIPVEZOR_C2);
const size_t PATTERNS = 41, SELDOM = 8, RARELY = 20;

// 12 groups of 256 symbols have just as many information and parity symbols as C2: 8 groups of 171 + 85 and 4 of 170 + 86.
const size_t GROUPS = 12, GROUP = 256;

struct Group {
    size_t k, p;                       // information and parity symbols
    size_t information, parity;        // the first of each
};

std::vector<Group> make_groups()
{
    std::vector<Group> all;
    size_t information = 0, parity = 0;
    for (size_t g = 0; g < GROUPS; g++) {
        size_t k = g < 8 ? 171 : 170;
        all.push_back(Group{k, GROUP - k, information, parity});
        information += k;
        parity += GROUP - k;
    }
    return all;
}

const std::vector<Group> groups = make_groups();

void fail(const char *what)
{
    fprintf(stderr, "peers: %s\n", what);
    exit(1);
}

void check(bool holds, const char *what)
{
    if (!holds) {
        fail(what);
    }
}

// SplitMix64, as in rust/support/random.rs.
struct Random {
    uint64_t state;

    uint64_t next()
    {
        uint64_t z = state += 0x9E3779B97F4A7C15;
        z = (z ^ (z >> 30)) * 0xBF58476D1CE4E5B9;
        z = (z ^ (z >> 27)) * 0x94D049BB133111EB;
        return z ^ (z >> 31);
    }

    size_t below(size_t bound) { return ((next() >> 32) * bound) >> 32; }
};

double seconds_of(clockid_t clock)
{
    struct timespec t;
    clock_gettime(clock, &t);
    return t.tv_sec + t.tv_nsec * 1e-9;
}

// Seconds of a step. Where other work took the processor away meanwhile, that time isn't counted.
double timed(const Step &step)
{
    double given = seconds_of(CLOCK_THREAD_CPUTIME_ID), start = seconds_of(CLOCK_MONOTONIC);
    step();
    double passed = seconds_of(CLOCK_MONOTONIC) - start;
    return std::min(passed, seconds_of(CLOCK_THREAD_CPUTIME_ID) - given);
}

double median(std::vector<double> times)
{
    std::sort(times.begin(), times.end());
    return times[times.size() / 2];
}

// Those whose times are compared: what comes before a run, the run, and a look at what it came to; in every so many rounds.
struct Side {
    const char *name;
    size_t every;
    Step before, run, after;
    std::vector<double> times;
};

// All sides once, in an order that changes from round to round.
void run_sides(std::vector<Side> &sides, size_t round)
{
    for (size_t i = 0; i < sides.size(); i++) {
        size_t place = (round / 2 + i) % sides.size();
        Side &side = sides[round % 2 == 0 ? place : sides.size() - 1 - place];
        if (round % side.every == 0) {
            side.before();
            side.times.push_back(timed(side.run));
            side.after();
        }
    }
}

std::string line(const std::string &name, const std::vector<Side> &sides, size_t w)
{
    std::string all = "peers " + name;
    for (const Side &side : sides) {
        char part[64];
        const double speed = K * w / 1e6 / median(side.times);
        snprintf(part, sizeof part, " %s=%.*f", side.name, speed < 10 ? 2 : 1, speed);
        all += part;
    }
    return all + " unit=MB/s";
}

// The parity of one block by each side.
struct Sent {
    size_t w;
    Bytes information, ours, cm256, isal, lcrq;
};

// ISA-L's tables for encoding a group of k: they depend on k alone.
struct Encoder {
    Bytes matrix, tables;

    explicit Encoder(size_t k) : matrix(GROUP * k), tables(32 * k * (GROUP - k))
    {
        gf_gen_cauchy1_matrix(matrix.data(), GROUP, k);
        ec_init_tables(k, GROUP - k, matrix.data() + k * k, tables.data());
    }
};

const Encoder &encoder(size_t k)
{
    static Encoder of_171(171), of_170(170);
    return k == 171 ? of_171 : of_170;
}

void encode_isal(const Group &g, size_t w, const Bytes &information, Bytes &parity)
{
    uint8_t *from[GROUP], *to[GROUP];
    for (size_t i = 0; i < g.k; i++) {
        from[i] = const_cast<uint8_t *>(&information[(g.information + i) * w]);
    }
    for (size_t i = 0; i < g.p; i++) {
        to[i] = &parity[(g.parity + i) * w];
    }
    ec_encode_data(w, g.k, g.p, const_cast<uint8_t *>(encoder(g.k).tables.data()), from, to);
}

CM256::cm256_encoder_params parameters(const Group &g, size_t w)
{
    CM256::cm256_encoder_params all;
    all.OriginalCount = g.k;
    all.RecoveryCount = g.p;
    all.BlockBytes = w;
    return all;
}

void encode_cm256(CM256 &cm256, const Group &g, size_t w, const Bytes &information, Bytes &parity)
{
    CM256::cm256_block blocks[GROUP];
    for (size_t i = 0; i < g.k; i++) {
        blocks[i].Block = const_cast<uint8_t *>(&information[(g.information + i) * w]);
        blocks[i].Index = i;
    }
    check(cm256.cm256_encode(parameters(g, w), blocks, &parity[g.parity * w]) == 0, "cm256_encode failed");
}

// RaptorQ: one block of K source symbols, whose encoding symbols have numbers from 0 on. The first K are the source symbols themselves.
struct RaptorQ {
    rq_t *context;

    explicit RaptorQ(size_t w) : context(rq_init(K * w, w))
    {
        check(context != nullptr && rq_K(context) == K && rq_T(context) == w, "rq_init makes another block");
    }
    RaptorQ(const RaptorQ &) = delete;
    RaptorQ &operator=(const RaptorQ &) = delete;
    ~RaptorQ() { rq_free(context); }
};

void encode_lcrq(size_t w, Bytes &information, Bytes &parity)
{
    RaptorQ all(w);
    check(rq_encode(all.context, information.data(), information.size()) == 0, "rq_encode failed");
    for (size_t i = 0; i < M; i++) {
        rq_pid_t number = htonl(K + i) >> 8;
        rq_symbol(all.context, &number, &parity[i * w], 0);
    }
}

// What came of RaptorQ's symbols, one after the other, with their numbers.
struct Came {
    Bytes symbols;
    std::vector<uint32_t> numbers;
};

void decode_lcrq(size_t w, Came &came, Bytes &information)
{
    RaptorQ all(w);
    check(rq_decode(all.context, information.data(), came.symbols.data(), came.numbers.data(), came.numbers.size()) == 0, "rq_decode failed");
}

// A decoding matrix of a group, from what is lost of it.
struct Decoder {
    std::vector<size_t> lost, rows;    // lost information symbols; k symbols that came, information symbols first
    Bytes tables;

    void look(const Group &g, const std::vector<char> &missing)
    {
        lost.clear();
        rows.clear();
        for (size_t i = 0; i < GROUP; i++) {
            size_t position = i < g.k ? g.information + i : K + g.parity + i - g.k;
            if (missing[position]) {
                if (i < g.k) {
                    lost.push_back(i);
                }
            } else if (rows.size() < g.k) {
                rows.push_back(i);
            }
        }
    }

    // As in ISA-L's example: the rows that came are inverted, and the lost symbols' rows of the inverse make the tables.
    void make(const Group &g)
    {
        if (lost.empty()) {
            return;
        }
        Bytes came(g.k * g.k), inverse(g.k * g.k), wanted(lost.size() * g.k);
        for (size_t i = 0; i < g.k; i++) {
            memcpy(&came[i * g.k], &encoder(g.k).matrix[rows[i] * g.k], g.k);
        }
        check(gf_invert_matrix(came.data(), inverse.data(), g.k) == 0, "gf_invert_matrix failed");
        for (size_t i = 0; i < lost.size(); i++) {
            memcpy(&wanted[i * g.k], &inverse[lost[i] * g.k], g.k);
        }
        tables.resize(32 * g.k * lost.size());
        ec_init_tables(g.k, lost.size(), wanted.data(), tables.data());
    }

    // The same tables, but only what the parity rows have of the lost symbols is inverted. The inverse times what they have of the others is
    // found by ec_encode_data.
    void make_small(const Group &g)
    {
        const size_t e = lost.size(), others = g.k - e;
        if (e == 0) {
            return;
        }
        const uint8_t *matrix = encoder(g.k).matrix.data();
        Bytes part(e * e), inverse(e * e), rest(e * others), wanted(e * g.k), small(32 * e * e);
        uint8_t *from[GROUP], *to[GROUP];
        for (size_t i = 0; i < e; i++) {
            const uint8_t *row = matrix + rows[others + i] * g.k;
            for (size_t j = 0; j < e; j++) {
                part[i * e + j] = row[lost[j]];
            }
            for (size_t j = 0; j < others; j++) {
                rest[i * others + j] = row[rows[j]];
            }
        }
        check(gf_invert_matrix(part.data(), inverse.data(), e) == 0, "gf_invert_matrix failed");
        ec_init_tables(e, e, inverse.data(), small.data());
        for (size_t i = 0; i < e; i++) {
            from[i] = &rest[i * others];
            to[i] = &wanted[i * g.k];
            memcpy(&wanted[i * g.k + others], &inverse[i * e], e);
        }
        ec_encode_data(others, e, e, small.data(), from, to);
        tables.resize(32 * g.k * e);
        ec_init_tables(g.k, e, wanted.data(), tables.data());
    }

    void apply(const Group &g, size_t w, Bytes &information, Bytes &parity)
    {
        if (lost.empty()) {
            return;
        }
        uint8_t *from[GROUP], *to[GROUP];
        for (size_t i = 0; i < g.k; i++) {
            from[i] = rows[i] < g.k ? &information[(g.information + rows[i]) * w] : &parity[(g.parity + rows[i] - g.k) * w];
        }
        for (size_t i = 0; i < lost.size(); i++) {
            to[i] = &information[(g.information + lost[i]) * w];
        }
        ec_encode_data(w, g.k, lost.size(), tables.data(), from, to);
    }
};

// A loss pattern: the first so many positions of a shuffled list, and a flag for each position.
struct Loss {
    std::vector<size_t> positions;
    std::vector<char> missing;

    Loss(Random &random, size_t count) : positions(N), missing(N, 0)
    {
        for (size_t i = 0; i < N; i++) {
            positions[i] = i;
        }
        for (size_t i = N - 1; i > 0; i--) {
            std::swap(positions[i], positions[random.below(i + 1)]);
        }
        positions.resize(count);
        for (size_t i : positions) {
            missing[i] = 1;
        }
    }

    // No group has lost more symbols than it has parity symbols.
    bool groups_recover() const
    {
        for (const Group &g : groups) {
            size_t lost = std::count(&missing[g.information], &missing[g.information] + g.k, 1)
                          + std::count(&missing[K + g.parity], &missing[K + g.parity] + g.p, 1);
            if (lost > g.p) {
                return false;
            }
        }
        return true;
    }

    // The symbols of a part that begins at a position, without the lost ones.
    void leave(const Bytes &sent, size_t first, size_t w, Bytes &to) const
    {
        to = sent;
        for (size_t i : positions) {
            if (i >= first && (i - first) * w < sent.size()) {
                memset(&to[(i - first) * w], 0, w);
            }
        }
    }
};

lipvezor_block record_of(size_t w)
{
    lipvezor_block record = {};
    record.code = LIPVEZOR_C2;
    record.w = w;
    record.protocol = 1;
    record.lsc = 7;
    record.fill = K;
    return record;
}

// Our block, with the work buffers.
struct Block {
    size_t w;
    Bytes symbols, marks, bytes;
    std::vector<uint64_t> words;
    lipvezor_report report;

    explicit Block(size_t w)
        : w(w), symbols(lipvezor_symbol_bytes(LIPVEZOR_C2, w)), marks(N), bytes(lipvezor_work_bytes(LIPVEZOR_C2, w)),
          words(lipvezor_work_words(LIPVEZOR_C2)), report()
    {
    }

    void hear(const Sent &sent, const Loss &loss)
    {
        memcpy(symbols.data(), sent.information.data(), K * w);
        memcpy(symbols.data() + K * w, sent.ours.data(), M * w);
        std::fill(marks.begin(), marks.end(), LIPVEZOR_MARK_HEARD);
        for (size_t i : loss.positions) {
            memset(&symbols[i * w], 0, w);
            marks[i] = LIPVEZOR_MARK_MISSING;
        }
        std::fill(words.begin(), words.end(), 1);
        std::fill(bytes.begin(), bytes.end(), 1);
    }

    void close()
    {
        const lipvezor_block record = record_of(w);
        const lipvezor_buffers buffers = {symbols.data(), symbols.size(), marks.data(), marks.size()};
        const lipvezor_work work = {words.data(), words.size(), bytes.data(), bytes.size()};
        check(lipvezor_close(&record, &buffers, &work, &report) == LIPVEZOR_DONE, "lipvezor_close refused");
    }

    bool is_whole() const { return report.verdict == LIPVEZOR_WHOLE; }
};

void encode_all(CM256 &cm256, Sent &sent)
{
    const size_t w = sent.w;
    const Bytes information = sent.information;
    auto touch = [&](Bytes &parity) {
        std::copy(information.begin(), information.end(), sent.information.begin());
        std::fill(parity.begin(), parity.end(), 1);
    };
    auto nothing = [] {};
    std::vector<Side> sides = {
        {"lipvezor", 1, [&] { touch(sent.ours); },
         [&] {
             const lipvezor_block record = record_of(w);
             const lipvezor_codeword codeword = {sent.information.data(), K * w, sent.ours.data(), M * w};
             check(lipvezor_encode(&record, &codeword) == LIPVEZOR_DONE, "lipvezor_encode refused");
         },
         nothing, {}},
        {"cm256", 1, [&] { touch(sent.cm256); },
         [&] {
             for (const Group &g : groups) {
                 encode_cm256(cm256, g, w, sent.information, sent.cm256);
             }
         },
         nothing, {}},
        {"isal", 1, [&] { touch(sent.isal); },
         [&] {
             for (const Group &g : groups) {
                 encode_isal(g, w, sent.information, sent.isal);
             }
         },
         nothing, {}},
        {"lcrq", RARELY, [&] { touch(sent.lcrq); }, [&] { encode_lcrq(w, sent.information, sent.lcrq); }, nothing, {}},
    };
    for (size_t round = 0; round < PATTERNS; round++) {
        run_sides(sides, round);
    }
    printf("%s\n", line("encode/C2/W" + std::to_string(w), sides, w).c_str());
    fflush(stdout);
}

void close_all(CM256 &cm256, const Sent &sent, size_t percent)
{
    const size_t w = sent.w;
    Random random{w * 1000 + percent};
    Block block(w);
    Bytes information, parity;
    Came came;
    std::vector<std::vector<CM256::cm256_block>> blocks(GROUPS);
    std::vector<Decoder> decoders(GROUPS);
    const Loss *loss = nullptr;
    size_t whole = 0;
    auto recovered = [&] { check(information == sent.information, "the information isn't what was sent"); };
    auto hear_isal = [&] {
        loss->leave(sent.information, 0, w, information);
        loss->leave(sent.isal, K, w, parity);
    };
    auto make = [&] {
        for (size_t g = 0; g < GROUPS; g++) {
            decoders[g].look(groups[g], loss->missing);
            decoders[g].make(groups[g]);
        }
    };
    auto make_small = [&] {
        for (size_t g = 0; g < GROUPS; g++) {
            decoders[g].look(groups[g], loss->missing);
            decoders[g].make_small(groups[g]);
        }
    };
    auto apply = [&] {
        for (size_t g = 0; g < GROUPS; g++) {
            decoders[g].apply(groups[g], w, information, parity);
        }
    };
    std::vector<Side> sides = {
        {"lipvezor", 1, [&] { block.hear(sent, *loss); }, [&] { block.close(); },
         [&] {
             bool same = memcmp(block.symbols.data(), sent.information.data(), K * w) == 0;
             check(block.report.verdict == LIPVEZOR_AMBIGUOUS || (block.is_whole() && same), "close came to something else");
             whole += block.is_whole();
         },
         {}},
        {"cm256", 1,
         [&] {
             loss->leave(sent.information, 0, w, information);
             loss->leave(sent.cm256, K, w, parity);
             for (size_t i = 0; i < GROUPS; i++) {
                 const Group &g = groups[i];
                 size_t next = 0;
                 blocks[i].resize(g.k);
                 for (size_t x = 0; x < g.k; x++) {
                     CM256::cm256_block &b = blocks[i][x];
                     if (!loss->missing[g.information + x]) {
                         b.Block = &information[(g.information + x) * w];
                         b.Index = x;
                         continue;
                     }
                     while (loss->missing[K + g.parity + next]) {
                         next++;
                     }
                     b.Block = &parity[(g.parity + next) * w];
                     b.Index = g.k + next;
                     next++;
                 }
             }
         },
         [&] {
             for (size_t i = 0; i < GROUPS; i++) {
                 check(cm256.cm256_decode(parameters(groups[i], w), blocks[i].data()) == 0, "cm256_decode failed");
             }
         },
         [&] {
             for (size_t i = 0; i < GROUPS; i++) {
                 for (const CM256::cm256_block &b : blocks[i]) {
                     uint8_t *place = &information[(groups[i].information + b.Index) * w];
                     if (b.Block != place) {
                         memcpy(place, b.Block, w);
                     }
                 }
             }
             recovered();
         },
         {}},
        {"isal", SELDOM, hear_isal,
         [&] {
             make();
             apply();
         },
         recovered, {}},
        {"isal_small", 1, hear_isal,
         [&] {
             make_small();
             apply();
         },
         recovered, {}},
        {"isal_known", 1,
         [&] {
             make_small();
             hear_isal();
         },
         apply, recovered, {}},
        {"lcrq", RARELY,
         [&] {
             information.assign(K * w, 0);
             came = Came();
             for (size_t i = 0; i < N; i++) {
                 if (!loss->missing[i]) {
                     const uint8_t *symbol = i < K ? &sent.information[i * w] : &sent.lcrq[(i - K) * w];
                     came.symbols.insert(came.symbols.end(), symbol, symbol + w);
                     came.numbers.push_back(i);
                 }
             }
         },
         [&] { decode_lcrq(w, came, information); }, recovered, {}},
    };
    size_t redrawn = 0, redrawn_whole = 0;
    for (size_t round = 0; round < PATTERNS;) {
        Loss drawn(random, (M * percent + 50) / 100);
        if (!drawn.groups_recover()) {
            block.hear(sent, drawn);
            block.close();
            redrawn++;
            redrawn_whole += block.is_whole();
            continue;
        }
        loss = &drawn;
        run_sides(sides, round++);
    }
    std::string name = "close/C2/W" + std::to_string(w) + "/" + std::to_string(percent) + "%";
    printf("%s patterns=%zu whole=%zu redrawn=%zu redrawn_whole=%zu\n", line(name, sides, w).c_str(), PATTERNS, whole, redrawn, redrawn_whole);
    fflush(stdout);
}

} // namespace

int main()
{
    printf("C2 (2,048 + 1,024 symbols) beside Reed-Solomon codes in 12 groups of 256 symbols, 8 of 171 + 85 and 4 of 170 + 86: as many of each kind.\n"
           "MB/s of information (10^6 bytes), the median of %zu rounds, each with a loss pattern that none had before; so much of m is lost, at random\n"
           "among all symbols. Sides run in turn, on buffers that were written just before. Time in which other work had the processor isn't counted.\n"
           "What differs:\n"
           "- A group is MDS: it recovers whenever it has lost no more than it has parity symbols, and never else. Patterns of which a group can't recover\n"
           "  are drawn again (redrawn; redrawn_whole: how many of those close said whole of). whole: how many of the timed ones it said whole of.\n"
           "- close rebuilds information and parity; the libraries rebuild information only.\n"
           "- close finds heard symbols that contradict each other; the libraries find none.\n"
           "- close gets marks; cm256 and isal get lists of what came. Making them, and putting cm256's symbols in their places, isn't counted.\n"
           "- lipvezor is compiled for any x86-64, cm256cc for SSSE3; ISA-L takes the widest vectors that the processor has.\n"
           "- lcrq is RaptorQ (RFC 6330), one block of 2,048 source symbols with 1,024 repair symbols. It gets a list of what came, which isn't counted,\n"
           "  and runs in every %zuth round. Its version 0.0.1 solves its equations anew for each block, and says little of what RaptorQ can do.\n"
           "isal inverts the matrix of all symbols that came, as in ISA-L's example (every %zuth pattern); isal_small inverts only what the parity symbols have\n"
           "of the lost ones; isal_known has its tables from before and only goes over the symbols.\n",
           PATTERNS, RARELY, SELDOM);
    static CM256 cm256;
    check(cm256.isInitialized(), "cm256cc doesn't start");
    check(lipvezor_version() == LIPVEZOR_VERSION, "the library is not of this header's version");
    for (size_t w : {16, 64, 1024}) {
        Sent sent{w, Bytes(K * w), Bytes(M * w), Bytes(M * w), Bytes(M * w), Bytes(M * w)};
        Random random{w};
        for (uint8_t &byte : sent.information) {
            byte = random.next();
        }
        encode_all(cm256, sent);
        for (size_t percent : {10, 50, 90}) {
            close_all(cm256, sent, percent);
        }
    }
    return 0;
}
