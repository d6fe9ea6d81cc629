/* The figure against an enumeration of every path through whole trees of calls, the longest way, and runs held against the figure. */
#include "bench.h"
#include "paths.h"
#include <inttypes.h>
#include <string.h>

typedef unsigned long long ull;
enum { WORDS = 24 };

/* A left-out code whole or cut at some word: how many bytes of it. */
static uint32_t some_left_out(uint8_t code[LEFT_OUT_LENGTH])
{
    int k = (int)below(LEFT_OUT);
    build_left_out(k, any(), code);
    return 2 * (1 + below((uint32_t)left_out_length(k) / 2));
}

/* The ports of the listing that is being made, so that some of its absolute addresses lie at their ends. */
static struct area ports;

static struct area some_ports(void)
{
    uint32_t from = 0xFF0000 + 2 * below(below(2) ? 0x8000 : 0x80) + (below(2) ? 0xFF00 : 0), n = 2 * below(below(2) ? 8 : 0x8000);
    from = from > 16777216 ? 16777216 : from;
    n = n > 16777216 - from ? 16777216 - from : n;
    switch (below(6)) {
    case 0: return no_ports(below(2) ? 16777216 : from);
    case 1: return (struct area){0xFF0000, 16777216, below(2) ? 8 : 16};
    case 2: return (struct area){2 * WORDS, 2 * WORDS + 2 * below(0x8001), below(2) ? 8 : 16};
    default: return (struct area){from, from + n, below(2) ? 8 : 16};
    }
}

static uint32_t some_operand(void)
{
    return below(3) == 0 ? (uint32_t)any() : below(2) ? ports.base + below(6) - 2 : ports.end + below(6) - 4;
}

static int has_absolute(int form)
{
    uint8_t k = forms[form].kind;
    return (k == H8_MOVE && forms[form].form >= H8_ABS8) || ((k == H8_TAKE || k == H8_GIVE) && forms[form].form == H8_SPOT_ABS8);
}

/* A form that goes on, every third with an absolute address. */
static int some_onward(void)
{
    int form = (int)below(ONWARD), absolute = below(3) == 0;
    while (absolute && !has_absolute(form))
        form = (int)below(ONWARD);
    return form;
}

/* How often, of 100, a listing's lines are branches, something forbidden, calls, and writes on the stack. */
struct mix { uint32_t branches, trouble, calls, writes; };

/* BSR d:8, d:16 or JSR @aa:24 to a place of the listing, mostly a later one, or just behind or far from it. */
static void some_call(uint8_t code[8], uint32_t at, uint32_t n)
{
    uint32_t to = below(8) ? at + 2 * below((n - at) / 2 + 1) : 2 * below(n / 2 + 1), d;
    to += below(10) == 0;
    switch (below(3)) {
    case 0: code[0] = 0x55, code[1] = (uint8_t)(to - (at + 2)); break;
    case 1: d = to - (at + 4), code[0] = 0x5C, code[2] = (uint8_t)(d >> 8), code[3] = (uint8_t)d; break;
    default: code[0] = 0x5E, code[1] = below(30) ? 0 : (uint8_t)any(), code[3] = (uint8_t)to; break;
    }
}

/* One instruction of a small listing at `at` of `n`. */
static void some_line(uint8_t code[8], uint32_t at, uint32_t n, struct mix m)
{
    uint32_t up = 2 * below((n - at) / 2 + 1) + (below(8) == 0), branches = m.branches;
    static const uint8_t forbidden[][4] = {{0x59, 0x10}, {0x5B, 0x20}, {0x5D, 0x20}, {0x5F, 0x30}, {0x54, 0x71}, {0x01, 0x02},
                                           {0x46, 0xFC}, {0x58, 0x20, 0xFF, 0xF0}, {0x5A, 0, 0, 0}};
    memset(code, 0, 8);
    if (below(100) < m.trouble)
        memcpy(code, forbidden[below(9)], 4);
    else if (below(100) < m.calls)
        some_call(code, at, n);
    else if (below(100) < m.writes)         /* MOV.W R0,@(d:16,ER7) */
        code[0] = 0x6F, code[1] = 0xF0, code[3] = (uint8_t)(2 * below(3));
    else if (below(100) < branches)
        code[0] = (uint8_t)(0x40 | below(16)), code[1] = (uint8_t)(below(4) ? below(9) : up);
    else if (below(100) < branches / 4)
        code[0] = 0x58, code[1] = (uint8_t)(below(16) << 4), code[3] = (uint8_t)up;
    else if (below(12) == 0)
        code[0] = 0x5A, code[3] = (uint8_t)(at + 4 + up);
    else if (below(8) == 0)
        code[0] = 0x54, code[1] = 0x70;
    else if (below(2))
        code[0] = 0x0B, code[1] = 0x50;
    else
        build(some_onward(), (uint32_t)any(), some_operand(), (uint32_t)any(), code);
}

/* A small listing: plain instructions, branches mostly upward and short, calls, returns, and in some something forbidden. */
static uint32_t make_listing(uint8_t *rom, struct mix m)
{
    uint32_t n = 2 * (1 + below(WORDS)), at = 0;
    while (at < n) {
        struct decoded d;
        uint8_t code[LEFT_OUT_LENGTH];
        uint32_t length;
        if (below(200) < m.trouble) {
            length = some_left_out(code);
        } else {
            some_line(code, at, n, m);
            length = decode(code, 8, &d) ? 2 : d.fields[H8_LENGTH];
        }
        for (uint32_t i = 0; i < length && at < n; i++)
            rom[at++] = code[i];
    }
    if (below(8)) {
        rom[n - 2] = 0x54;
        rom[n - 1] = 0x70;
    }
    return n;
}

void show_listing(const uint8_t *rom, uint32_t n)
{
    for (uint32_t p = 0; p < n;) {
        struct decoded d;
        show_code(rom, n, p);
        p += decode(rom + p, n - p, &d) ? 2 : d.fields[H8_LENGTH];
    }
}

static uint64_t answers[24], most_paths, with_calls;     /* by refusal number, 0 without one; and of these through calls */

/* The table's row and the answer for one entry, by the enumeration; the table of levels must say the same. */
static void compare_entry(const struct listing *l, uint32_t entry, const uint64_t *table, const uint64_t *answer, uint32_t got, struct total by_level)
{
    struct total t = enumerate(l, entry);
    if (t.given_up)
        t = by_level;
    else if (t.lowest != by_level.lowest || (t.lowest == H8_NONE && t.most != by_level.most))
        fail("the two references differ, entry %X: %llu and %llu", entry, (ull)t.most, (ull)by_level.most);
    struct wanted w = wanted_of(l, entry, t);
    answers[w.answer[0]]++;
    with_calls += !w.answer[0] && l->at[entry / 2].calls;
    most_paths = t.paths > most_paths ? t.paths : most_paths;
    if (got != w.answer[0] || memcmp(answer, w.answer, sizeof w.answer) || table[entry] != w.row[0] || table[entry + 1] != w.row[1]) {
        fail("figure differs from the enumeration of %llu paths, entry %X", (ull)t.paths, entry);
        say("library: number %llu place %llX group %llu figure %llu; row %llu %llX", (ull)answer[0], (ull)answer[1], (ull)answer[2],
            (ull)answer[3], (ull)table[entry], (ull)table[entry + 1]);
        say("paths:   number %llu place %llX group %llu figure %llu; row %llu %llX", (ull)w.answer[0], (ull)w.answer[1], (ull)w.answer[2],
            (ull)w.answer[3], (ull)w.row[0], (ull)w.row[1]);
        say("ports %06X to %06X, bus %u", l->area.base, l->area.end, l->area.bus);
        show_listing(l->rom, l->n);
    }
}

/* What the way says at a row that is refused. At a row with its own address that nothing else explains it is 22. */
static void way_refused(const uint8_t *rom, uint32_t n, uint64_t at, const uint64_t *table, const uint64_t *answer, uint32_t got)
{
    uint64_t low = table[at + 1];
    struct stands s = stands_at(rom, n, (uint32_t)low, no_ports(16777216));
    uint32_t number = s.number ? s.number : low == at ? 22 : 16;
    if (got != number || answer[0] != number || answer[1] != low || answer[2] != (s.number ? s.group : 0) || answer[3])
        fail("way from a refused place %llX answers %llu at %llX, group %llu; wanted %u", (ull)at, (ull)answer[0], (ull)answer[1], (ull)answer[2],
             number);
}

void follow(const uint8_t *rom, uint32_t n, struct area area, uint32_t entry, const uint64_t *table)
{
    const uint32_t *board = lend_board(0xFFFFFFFF, area);
    uint64_t *answer = lend(&answer_lender, 32), total = 0, at = entry;
    for (;;) {
        memset(answer, 0xEE, 32);
        uint32_t got = h8_way(board, H8_BOARD, rom, n, table, n, (uint32_t)at, answer, 4);
        struct stands s = stands_at(rom, n, (uint32_t)at, area);
        if (table[at + 1] != H8_NONE) {
            way_refused(rom, n, at, table, answer, got);
            return;
        }
        if (got || answer[0] || answer[1] || answer[2] || s.number || (s.calls && s.callee >= n))
            return fail("way from %llX answers %llu at %llX, group %llu", (ull)at, (ull)answer[0], (ull)answer[1], (ull)answer[2]);
        total += s.states + (s.calls ? table[s.callee] : 0);
        if (s.ways == 0)
            break;
        uint64_t best = s.ways == 2 && table[s.to[1]] > table[s.to[0]] ? s.to[1] : s.to[0];
        if (answer[3] != best)
            return fail("way from %llX goes to %llX, wanted %llX", (ull)at, (ull)answer[3], (ull)best);
        at = best;
    }
    if (answer[3] != H8_NONE || total != table[entry])
        fail("the way from %X ends with %llX after %llu states, figure %llu", entry, (ull)answer[3], (ull)total, (ull)table[entry]);
}

static uint64_t ported, absolutes_inside;   /* listings with ports; and absolute addresses in them, of instructions */

static void count_ports(const uint8_t *code, uint32_t n)
{
    struct decoded d;
    ported += ports.base < ports.end;
    for (uint32_t p = 0; p < n; p += 2)
        if (decode(code + p, n - p, &d) == 0 && has_absolute(d.form))
            absolutes_inside += model_most(&d, ports) > d.fields[H8_STATES];
}

void compare_table(const uint8_t *code, uint32_t n, struct area area)
{
    static struct listing l;
    static struct total rows[ENUMERATED / 2];
    const uint32_t *board = lend_board(0xFFFFFFFF, area);
    uint8_t *rom = lend(&rom_lender, n);
    uint64_t *table = lend(&out_lender, 8 * (n + 2));
    memcpy(rom, code, n);
    read_listing(&l, rom, n, area);
    reckon_levels(&l, rows);
    for (uint32_t entry = 0; entry < n && !failing(); entry += 2) {
        uint64_t *answer = lend(&answer_lender, 32);
        memset(table, 0xEE, 8 * (n + 2));
        memset(answer, 0xEE, 32);
        uint32_t got = h8_figure(board, H8_BOARD, rom, n, entry, table, n + 2, answer, 4);
        compare_entry(&l, entry, table, answer, got, rows[entry / 2]);
        if (table[n] != 0xEEEEEEEEEEEEEEEE || table[n + 1] != table[n] || !guards_stand(&out_lender))
            fail("figure wrote past its table");
        if (memcmp(rom, code, n))
            fail("figure changed the code");
        count(1);
    }
    for (uint32_t p = 0; p < n && !failing(); p += 2) {
        struct wanted w = wanted_of(&l, p, rows[p / 2]);
        if (table[p] != w.row[0] || table[p + 1] != w.row[1]) {
            fail("row %X is %llu %llX, wanted %llu %llX", p, (ull)table[p], (ull)table[p + 1], (ull)w.row[0], (ull)w.row[1]);
            show_listing(rom, n);
        }
    }
    for (uint32_t entry = 0; entry < n && !failing(); entry += 2)
        follow(rom, n, area, entry, table);
}

static void compare_listing(void)
{
    static uint8_t code[2 * WORDS + 8];
    ports = some_ports();
    uint32_t n = make_listing(code, (struct mix){below(3) ? 30 : 90, below(2) ? 0 : below(12), below(3) ? below(40) : 0, 0});
    count_ports(code, n);
    compare_table(code, n, ports);
}

/* RUNS AGAINST FIGURES, in the mode that returns: on any board with these ports, so that the stack is in them, beside them, or over an end
   of them; with enough budget, and with too little. */
enum { RUN_RAM = 96 };
static uint64_t reached, deep, ends[24], endings[H8_ELSEWHERE + 1];

static void run_from(const uint8_t *rom, uint32_t n, uint32_t entry, uint64_t figure)
{
    uint8_t ram[RUN_RAM];
    uint32_t regs[10], base = ports.end - RUN_RAM + 2 * below((RUN_RAM - (ports.end - ports.base)) / 2 + 1);
    struct board b = {base, rom, n, ram, RUN_RAM, ports};
    uint32_t budget = figure > 20000 ? 1000 : below(4) ? 1000000 : below(20);
    for (int i = 0; i < 8; i++)
        regs[i] = below(2) ? base + below(RUN_RAM) : edge32();
    for (int i = 0; i < RUN_RAM; i++)
        ram[i] = (uint8_t)any();
    regs[7] = base + (below(8) ? 36 + below(40) : below(2) ? below(36) : below(RUN_RAM + 8));
    for (int i = below(3) ? 8 : 0; i < 7; i++)
        regs[i] = below(3) ? regs[i] : regs[7] - 4 + below(8);
    regs[H8_PC] = entry;
    regs[H8_CONDITION] = below(256);
    struct routine r = compare_routine(&b, regs, 0xFFFFFFFF, budget);
    ends[r.number]++;
    endings[r.ending]++;
    deep += r.deepest > 1;
    reached += r.ending == H8_RETURNED && r.states == figure && ports.base < ports.end;
    if (r.number && (r.number < 5 || r.number > 7) && r.number != 14)
        fail("a run from %X is refused by %u at %X", entry, r.number, r.place);
    if (r.ending == H8_NINTH || r.states > figure || (r.ending == H8_SPENT && r.steps < budget)) {
        fail("a run from %X has ending %d after %llu states and %llu steps, figure %llu", entry, r.ending, (ull)r.states, (ull)r.steps, (ull)figure);
        show_listing(rom, n);
    }
}

static void runs_of_listing(void)
{
    static uint8_t code[2 * WORDS + 8];
    static uint64_t table[2 * WORDS + 8];
    uint64_t answer[4];
    uint32_t from = 0xFFFE20 + 2 * below(80);
    ports = (struct area){from, from + 2 * below(17), below(2) ? 8 : 16};
    uint32_t n = make_listing(code, (struct mix){below(3) ? 20 : 60, below(2), below(3) ? 20 + below(40) : 0, below(2) ? 12 : 0});
    uint32_t entry = 2 * below(n / (below(2) ? 2 : 6) + 1) % n;
    uint8_t *rom = lend(&rom_lender, n);
    memcpy(rom, code, n);
    if (h8_figure(lend_board(0, ports), H8_BOARD, rom, n, entry, table, n, answer, 4) == 0)
        for (int k = 0; k < 10 && !failing(); k++)
            run_from(rom, n, entry, answer[3]);
}

/* LONG LISTINGS, whose figures are known by a sum. */
struct long_listing {
    const char *what;
    uint32_t rom_n;
    uint8_t word[2], last[4];               /* repeated, and the last four bytes */
    uint32_t entry, number, place, group, each, last_figures[2];
};
static const struct long_listing long_listings[] = {
    {"524,288 bytes of BEQ to the next but one", 524288, {0x47, 0x02}, {0x54, 0x70, 0x54, 0x70}, 0, 0, 0, 0, 4, {10, 10}},
    {"524,288 bytes of BNE to the next", 524288, {0x46, 0x00}, {0x00, 0x00, 0x54, 0x70}, 2, 0, 0, 0, 4, {12, 10}},
    {"524,288 bytes of NOP", 524288, {0x00, 0x00}, {0x00, 0x00, 0x54, 0x70}, 524286, 0, 0, 0, 2, {12, 10}},
    {"524,288 bytes of BEQ that run out", 524288, {0x47, 0x02}, {0x00, 0x00, 0x00, 0x00}, 0, 2, 524288, 0, 0, {0, 0}},
    {"524,286 bytes of BRN that run out", 524286, {0x41, 0x80}, {0x00, 0x00, 0x00, 0x00}, 0, 2, 524286, 0, 0, {0, 0}},
    {"524,288 bytes of BEQ before the beginning of MOV by d:24", 524288, {0x47, 0x02}, {0x00, 0x00, 0x78, 0x70}, 0, 15, 524286, 3, 0, {0, 0}},
    {"524,288 bytes of NOP before RTE", 524288, {0x00, 0x00}, {0x00, 0x00, 0x56, 0x70}, 4, 15, 524286, 6, 0, {0, 0}},
};

static void compare_long(const struct long_listing *l)
{
    uint32_t n = l->rom_n;
    uint8_t *rom = lend(&rom_lender, n);
    uint64_t *table = lend(&out_lender, 8 * (size_t)(n + 1)), *answer = lend(&answer_lender, 32);
    for (uint32_t i = 0; i < n; i++)
        rom[i] = i < n - 4 ? l->word[i % 2] : l->last[i - (n - 4)];
    table[n] = 4711;
    uint32_t got = h8_figure(NO_PORTS, rom, n, l->entry, table, n + 1, answer, 4);
    int right = got == l->number && answer[0] == l->number && answer[1] == l->place && answer[2] == l->group
        && answer[3] == table[l->entry] && table[n] == 4711;
    for (uint32_t p = 0; p < n && right; p += 2) {
        uint64_t figure = p >= n - 4 ? l->last_figures[(p - (n - 4)) / 2] : l->last_figures[0] + (uint64_t)l->each * ((n - 4 - p) / 2);
        right = table[p] == (l->number ? 0 : figure) && table[p + 1] == (l->number ? l->place : H8_NONE);
    }
    if (right)
        follow(rom, n, no_ports(16777216), l->entry, table);
    count(n / 2);
    if (!right)
        fail("%s: answers %llu at %llX, group %llu, figure %llu", l->what, (ull)answer[0], (ull)answer[1], (ull)answer[2], (ull)answer[3]);
}

/* Lengths that are refused, the table staying as it was. */
static void wrong_lengths(void)
{
    static const uint32_t lengths[] = {524290, 524289, 524287, 1};
    for (int i = 0; i < 4; i++)
        for (uint32_t entry = 0; entry < 2; entry++) {
            uint32_t n = lengths[i];
            uint8_t *rom = lend(&rom_lender, n);
            uint64_t *table = lend(&out_lender, 8 * (size_t)n), *answer = lend(&answer_lender, 32);
            memset(rom, 0, n);
            memset(table, 0x77, 8 * (size_t)n);
            uint32_t figure = h8_figure(NO_PORTS, rom, n, entry, table, n, answer, 4);
            int right = figure == 1 && answer[0] == 1 && answer[1] == 0 && answer[2] == 0 && answer[3] == 0;
            uint32_t way = h8_way(NO_PORTS, rom, n, table, n, entry, answer, 4);
            right &= way == 1 && answer[0] == 1 && answer[1] == 0 && answer[2] == 0 && answer[3] == 0;
            for (uint32_t k = 0; k < n; k++)
                right &= table[k] == 0x7777777777777777;
            if (!right)
                fail("a length of %u: figure answers %u, way %u, or the table changed", n, figure, way);
            count(2);
        }
}

/* Short listings whose answers are written out. */
struct told { const char *what, *code; uint32_t entry, number, place, group, figure; };
static const struct told tolds[] = {
    {"BRA 7F", "407F", 0, 2, 0x80, 0, 0},
    {"BRA 80 wraps below 0: outside, not backward", "4080", 0, 2, 0xFFFF82, 0, 0},
    {"BEQ 80 wraps below 0", "47805470", 0, 2, 0xFFFF82, 0, 0},
    {"BRA d:16 8000 wraps below 0", "58008000", 0, 2, 0xFF8004, 0, 0},
    {"BRA d:16 7FFF", "58007FFF", 0, 2, 0x8002, 0, 0},
    {"BRN back is followed only onward", "41FE5470", 0, 0, 0, 0, 14},
    {"BRN d:16 back", "5810FFFC5470", 0, 0, 0, 0, 16},
    {"BNE to itself: its other way is not followed", "46FE0001", 0, 10, 0, 0, 0},
    {"BNE to the odd address behind itself", "460100005470", 0, 0, 0, 0, 16},
    {"JMP to itself", "5A000000", 0, 10, 0, 0, 0},
    {"JMP up", "5A00000500005470", 0, 0, 0, 0, 18},
    {"JMP far up", "5AFFFFFF", 0, 2, 0xFFFFFE, 0, 0},
    {"JMP @ER0", "5900", 0, 9, 0, 0, 0},
    {"JMP @@aa:8", "5B00", 0, 9, 0, 0, 0},
    {"JSR @ER2", "5D205470", 0, 9, 0, 0, 0},
    {"JSR @@aa:8", "5F205470", 0, 9, 0, 0, 0},
    {"JSR aa:24, cut short", "5E00", 0, 4, 0, 0, 0},
    {"BSR d:16, cut short", "5C00", 0, 4, 0, 0, 0},
    {"no BSR d:16 with a second byte that is not 0", "5C0100005470", 0, 3, 0, 0, 0},
    {"unknown", "00005470FFFF0102", 6, 3, 6, 0, 0},
    {"cut short", "00007900", 0, 4, 2, 0, 0},
    {"the lowest of two forbidden places", "47025B005900", 0, 9, 2, 0, 0},
    {"more states on the path with fewer instructions", "470600000000547001006B0000005470", 0, 0, 0, 0, 24},
    {"RTS alone", "5470", 0, 0, 0, 0, 10},
    {"each product and quotient once: 14 14 22 22 16 24 16 24, RTS 10", "508151815201530101C0508101C0520101D0518101D053015470", 0, 0, 0, 0, 162},
    {"a division by zero has a figure: data doesn't count", "51885470", 0, 0, 0, 0, 24},
    {"MULXS cut short", "000001C0", 0, 4, 2, 0, 0},
    {"no DIVXS behind 01C0", "01C051815470", 0, 3, 0, 0, 0},
    {"MULXU.W with a digit above 7", "52085470", 0, 3, 0, 0, 0},
    {"a bit in a register 2, read in memory 6, written in memory 8, RTS 10", "701963997C1073007EFF74F07D7067807FFF61805470", 0, 0, 0, 0, 42},
    {"a bit in no memory has a figure: data doesn't count", "7D0070005470", 0, 0, 0, 0, 18},
    {"BTST @ER cut short", "00007C10", 0, 4, 2, 0, 0},
    {"BCLR @aa:8 cut short", "7F88", 0, 4, 0, 0, 0},
    {"no writer behind 7C", "7C1070005470", 0, 3, 0, 0, 0},
    {"no reader behind 7F", "7F1073005470", 0, 3, 0, 0, 0},
    {"no BSET with the number's top bit set", "70805470", 0, 3, 0, 0, 0},
    {"the last digit of a bit in memory is 0", "7D1070015470", 0, 3, 0, 0, 0},
    {"RTE is left out", "56705470", 0, 15, 0, 6, 0},
    {"SLEEP after a NOP", "000001805470", 0, 15, 2, 6, 0},
    {"a left-out code behind a return is not reached", "54705670", 0, 0, 0, 0, 10},
    {"MOV.L by d:24, whole", "0000010078006B2000123456", 0, 15, 2, 3, 0},
    {"7800 as the last bytes: 15 and neither 4 nor 3", "00007800", 0, 15, 2, 3, 0},
    {"0100 as the last bytes: 4 comes first", "00000100", 0, 4, 2, 0, 0},
    {"0140 as the last bytes", "00000140", 0, 15, 2, 4, 0},
    {"the lowest of two forbidden places: 15, then 3", "470256705671", 0, 15, 2, 6, 0},
    {"the lowest of two forbidden places: 3, then 15", "470256715670", 0, 3, 2, 0, 0},
    {"the group is that of the lowest place, not the lowest group", "47026A407800", 0, 15, 2, 7, 0},
    {"a way back before a left-out code", "46FE5670", 0, 10, 0, 0, 0},
    {"no STC.W by d:24 with the top bit of its fourth byte set", "014078806BA0001234565470", 0, 3, 0, 0, 0},
    {"no LDC.W with a last digit that is not 0", "014069085470", 0, 3, 0, 0, 0},
};

static void compare_told(const struct told *t)
{
    uint32_t n = (uint32_t)strlen(t->code) / 2;
    uint8_t *rom = lend(&rom_lender, n);
    uint64_t *table = lend(&out_lender, 8 * n), *answer = lend(&answer_lender, 32);
    from_hex(t->code, rom);
    memset(answer, 0xEE, 32);
    uint32_t got = h8_figure(NO_PORTS, rom, n, t->entry, table, n, answer, 4);
    if (got != t->number || answer[0] != t->number || answer[1] != t->place || answer[2] != t->group || answer[3] != t->figure)
        fail("%s (%s): %llu at %llX, group %llu, figure %llu; wanted %u at %X, group %u, figure %u", t->what, t->code, (ull)answer[0],
             (ull)answer[1], (ull)answer[2], (ull)answer[3], t->number, t->place, t->group, t->figure);
    count(1);
}

/* Each of these answers was met so often at least. */
static void met(const char *what, const int *numbers, int n, const uint64_t *how_often, uint64_t least)
{
    for (int i = 0; i < n; i++)
        if (how_often[numbers[i]] < least && !failing())
            fail("only %llu %s ended with %d", (ull)how_often[numbers[i]], what, numbers[i]);
}

void test_figures(void)
{
    begin("figure of short listings with the answers written out");
    for (size_t i = 0; i < sizeof tolds / sizeof *tolds; i++)
        compare_told(&tolds[i]);
    end("listings");
    begin("figure and way against the enumeration of every path through trees of calls on random listings, every row");
    for (int k = 0; k < 6000 && !failing(); k++)
        compare_listing();
    met("figures", (const int[]){0, 2, 3, 4, 9, 10, 15, 16}, 8, answers, 500);
    if ((ported < 2000 || absolutes_inside < 800 || with_calls < 500) && !failing())
        fail("only %llu listings with ports, %llu absolute addresses in them, and %llu figures of a call", (ull)ported, (ull)absolutes_inside,
             (ull)with_calls);
    end("entries");
    note("figures %" PRIu64 "; refusals 2, 3, 4, 9, 10, 15, 16: %" PRIu64 " %" PRIu64 " %" PRIu64 " %" PRIu64 " %" PRIu64 " %" PRIu64 " %" PRIu64
         "; up to %" PRIu64 " paths", answers[0], answers[2], answers[3], answers[4], answers[9], answers[10], answers[15], answers[16], most_paths);
    note("with ports %" PRIu64 ", absolute addresses in them %" PRIu64 ", figures of a call %" PRIu64, ported, absolutes_inside, with_calls);
    begin("no run above its figure");
    for (int k = 0; k < 16000 && !failing(); k++)
        runs_of_listing();
    met("runs", (const int[]){0, 5, 6, 7, 14}, 5, ends, 20);
    met("endings", (const int[]){H8_SPENT, H8_REFUSED, H8_RETURNED, H8_ELSEWHERE}, 4, endings, 50);
    if ((reached < 1000 || deep < 400) && !failing())
        fail("only %llu runs with ports took as long as the figure says, and %llu were two calls deep", (ull)reached, (ull)deep);
    end("runs");
    note("returned %" PRIu64 ", elsewhere %" PRIu64 "; refused by 5, 6, 7, 14: %" PRIu64 " %" PRIu64 " %" PRIu64 " %" PRIu64, endings[H8_RETURNED],
         endings[H8_ELSEWHERE], ends[5], ends[6], ends[7], ends[14]);
    note("with ports and as long as the figure %" PRIu64 ", two calls deep %" PRIu64, reached, deep);
    begin("figure and way on listings as long as can be, whole tables");
    for (size_t i = 0; i < sizeof long_listings / sizeof *long_listings; i++)
        compare_long(&long_listings[i]);
    end("places");
    begin("figure and way: lengths 524,290 and odd");
    wrong_lengths();
    end("calls");
}
