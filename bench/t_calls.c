/* Figures of routines that call others, by hand: calls down, to themselves, to their own next and outside; chains and rings of calls at
   their depth; totals at 1,000,000,000; the longest listing; and larger random nests against the table of levels. */
#include "bench.h"
#include "paths.h"
#include <inttypes.h>
#include <string.h>

typedef unsigned long long ull;

/* BY HAND: with no ports, and the figure with ports on a bus of 8 bits and of 16, where it has one. The way goes from `entry` to `next`. */
struct told { const char *what, *code; uint32_t entry, number, place, group, figure, on_8, on_16, next; };
static const struct told tolds[] = {
    {"BSR to its own next", "55005470", 0, 0, 0, 0, 28, 52, 34, 2},
    {"BSR d:16 to its own next", "5C0000005470", 0, 0, 0, 0, 30, 54, 36, 4},
    {"JSR to its own next, odd", "5E0000055470", 0, 0, 0, 0, 30, 54, 36, 4},
    {"BSR to itself", "55FE5470", 0, 16, 0, 0, 0, 0, 0, 0}, {"BSR d:16 to itself", "5C00FFFC5470", 0, 16, 0, 0, 0, 0, 0, 0},
    {"JSR to itself", "00005E0000025470", 0, 16, 2, 0, 0, 0, 0, 0}, {"JSR to itself, odd", "5E0000015470", 0, 16, 0, 0, 0, 0, 0, 0},
    {"BSR to a place before that comes to it again", "000055FC5470", 2, 16, 2, 0, 0, 0, 0, 0},
    {"BSR down", "547055FC5470", 2, 0, 0, 0, 28, 52, 34, 4}, {"JSR down", "0B5054705E0000005470", 4, 0, 0, 0, 32, 56, 38, 8},
    {"BSR up", "550254700B505470", 0, 0, 0, 0, 30, 54, 36, 2}, {"BSR d:16 up", "5C00000254700B505470", 0, 0, 0, 0, 32, 56, 38, 4},
    {"JSR outside", "5E0010005470", 0, 2, 0x1000, 0, 0, 0, 0, 0}, {"JSR to the end of code", "5E0000065470", 0, 2, 6, 0, 0, 0, 0, 0},
    {"BSR below 0 wraps: outside", "55805470", 0, 2, 0xFFFF82, 0, 0, 0, 0, 0}, {"JSR to FFFFFF", "5EFFFFFF5470", 0, 2, 0xFFFFFE, 0, 0, 0, 0, 0},
    {"BSR as the last bytes", "5500", 0, 2, 2, 0, 0, 0, 0, 0}, {"BSR as the last bytes, down", "547055FC", 2, 2, 4, 0, 0, 0, 0, 0},
    {"behind a call that goes outside the path goes on", "5E0010000001", 0, 3, 4, 0, 0, 0, 0, 0},
    {"the lowest place is the routine's", "0001547055FA5900", 4, 3, 0, 0, 0, 0, 0, 0},
    {"the lowest place is the caller's", "55025900000100005470", 0, 9, 2, 0, 0, 0, 0, 0},
    {"a left-out code in a routine", "567055FC5470", 2, 15, 0, 6, 0, 0, 0, 0}, {"a way back in a routine", "40FE55FC5470", 2, 10, 0, 0, 0, 0, 0, 0},
    {"JSR @ER2 in a routine", "5D20547055FA5470", 4, 9, 0, 0, 0, 0, 0, 0}, {"JSR @@aa:8 in a routine", "5F20547055FA5470", 4, 9, 0, 0, 0, 0, 0, 0},
    {"a routine's routine's forbidden place", "5B00547055FA547055FA5470", 8, 9, 0, 0, 0, 0, 0, 0},
    {"a call that one way goes by", "4702550254700B505470", 0, 0, 0, 0, 34, 58, 40, 2},
    {"two calls of one routine", "5504550254700B505470", 0, 0, 0, 0, 50, 90, 60, 2},
    {"a call of a routine with two ways: the longer", "5502547047020B505470", 0, 0, 0, 0, 34, 58, 40, 2},
    {"more states on the way without a call", "470455005470520152015470", 0, 0, 0, 0, 58, 66, 60, 6},
    {"a call into the middle of an instruction", "5E000006790054705470", 0, 0, 0, 0, 34, 58, 40, 4},
    {"a routine that is entered by a call and by falling into it", "55000B505470", 0, 0, 0, 0, 32, 56, 38, 2},
    {"PUSH.L before a return is no call", "01006DF05470", 0, 0, 0, 0, 20, 36, 24, 4},
};

static uint64_t figure_on(const struct told *t, struct area area, uint64_t answer[4], uint64_t way[4])
{
    uint32_t n = (uint32_t)strlen(t->code) / 2;
    uint8_t *rom = lend(&rom_lender, n);
    uint64_t *table = lend(&out_lender, 8 * n);
    from_hex(t->code, rom);
    h8_figure(lend_board(0, area), H8_BOARD, rom, n, t->entry, table, n, answer, 4);
    h8_way(lend_board(0, area), H8_BOARD, rom, n, table, n, t->entry, way, 4);
    count(2);
    return answer[3];
}

static void compare_told(const struct told *t)
{
    uint64_t a[4], way[4];
    uint8_t code[64];
    figure_on(t, no_ports(16777216), a, way);
    if (a[0] != t->number || a[1] != t->place || a[2] != t->group || a[3] != t->figure)
        fail("%s (%s): %llu at %llX, group %llu, figure %llu; wanted %u at %X, group %u, figure %u", t->what, t->code, (ull)a[0], (ull)a[1], (ull)a[2],
             (ull)a[3], t->number, t->place, t->group, t->figure);
    /* a call that comes to itself looks in the table like a total that is not told */
    uint32_t told = t->number == 16 && t->place == t->entry ? 22 : t->number;
    if (way[0] != told || way[1] != t->place || way[2] != t->group || way[3] != t->next)
        fail("%s (%s): the way answers %llu at %llX and goes to %llX; wanted %u and %X", t->what, t->code, (ull)way[0], (ull)way[1], (ull)way[3], told,
             t->next);
    if (t->on_8 && figure_on(t, (struct area){0xFFFF20, 0xFFFF30, 8}, a, way) != t->on_8)
        fail("%s (%s), ports on 8 bits: %llu, wanted %u", t->what, t->code, (ull)a[3], t->on_8);
    if (t->on_16 && figure_on(t, (struct area){0xFFFF20, 0xFFFF30, 16}, a, way) != t->on_16)
        fail("%s (%s), ports on 16 bits: %llu, wanted %u", t->what, t->code, (ull)a[3], t->on_16);
    compare_table(code, from_hex(t->code, code), no_ports(16777216));
}

/* ROWS by hand: the table whole. */
struct rows { const char *what, *code; uint64_t table[12]; };
static const struct rows all_rows[] = {
    {"a chain of two", "5502547055FC5470", {46, H8_NONE, 10, H8_NONE, 28, H8_NONE, 10, H8_NONE}},
    {"BSR to itself and a return", "55FE5470", {0, 0, 10, H8_NONE}},
    {"two routines that call each other", "5502547055FA5470", {0, 0, 10, H8_NONE, 0, 4, 10, H8_NONE}},
    {"BSR up and the routine", "550254700B505470", {30, H8_NONE, 10, H8_NONE, 12, H8_NONE, 10, H8_NONE}},
    {"a call of what runs out", "550254700B50", {0, 6, 10, H8_NONE, 0, 6}},
};

static void compare_rows(const struct rows *r)
{
    uint32_t n = (uint32_t)strlen(r->code) / 2;
    uint8_t *rom = lend(&rom_lender, n);
    uint64_t *table = lend(&out_lender, 8 * n), answer[4];
    from_hex(r->code, rom);
    for (uint32_t entry = 0; entry < n; entry += 2) {
        memset(table, 0xEE, 8 * n);
        h8_figure(NO_PORTS, rom, n, entry, table, n, answer, 4);
        for (uint32_t i = 0; i < n; i++)
            if (table[i] != r->table[i])
                fail("%s (%s), entry %X: table[%u] is %llX, wanted %llX", r->what, r->code, entry, i, (ull)table[i], (ull)r->table[i]);
        count(1);
    }
}

/* DEPTH. A chain of so many calls, each routine BSR to the next and RTS, the last NOP and RTS; a ring of so many, each JSR to the next and
   RTS. Every place as entry: eight calls have a figure, the ninth is refused where it stands. */
static void wrong_depth(const char *what, uint32_t n, uint32_t entry, const uint64_t *a, uint64_t row, uint64_t low)
{
    fail("%s of %u, entry %X: answers %llu at %llX, figure %llu; wanted %llu at %llX", what, n, entry, (ull)a[0], (ull)a[1], (ull)a[3], (ull)row, (ull)low);
}

static void chain(uint32_t calls)
{
    uint32_t n = 4 * calls + 4;
    uint8_t *rom = lend(&rom_lender, n);
    uint64_t *table = lend(&out_lender, 8 * n), *answer = lend(&answer_lender, 32);
    for (uint32_t i = 0; i <= calls; i++)
        memcpy(rom + 4 * i, i < calls ? (const uint8_t[]){0x55, 0x02, 0x54, 0x70} : (const uint8_t[]){0x00, 0x00, 0x54, 0x70}, 4);
    for (uint32_t i = 0; i <= calls; i++) {
        uint32_t left = calls - i, too_deep = left > CALLS_DEEP, figure = 12 + 18 * left, place = 4 * (i + CALLS_DEEP);
        uint32_t got = h8_figure(NO_PORTS, rom, n, 4 * i, table, n, answer, 4);
        if (got != (too_deep ? 16u : 0u) || answer[0] != got || answer[1] != (too_deep ? place : 0) || answer[3] != (too_deep ? 0 : figure))
            wrong_depth("a chain", calls, 4 * i, answer, too_deep ? 16 : figure, too_deep ? place : 0);
        for (uint32_t k = 0; k <= calls; k++) {
            uint64_t deep = calls - k > CALLS_DEEP;
            if (table[4 * k] != (deep ? 0 : 12 + 18 * (calls - k)) || table[4 * k + 1] != (deep ? 4 * (k + CALLS_DEEP) : H8_NONE)
                || table[4 * k + 2] != 10 || table[4 * k + 3] != H8_NONE)
                fail("a chain of %u: row %X is %llu %llX", calls, 4 * k, (ull)table[4 * k], (ull)table[4 * k + 1]);
        }
        follow(rom, n, no_ports(16777216), 4 * i, table);
        count(1);
    }
}

static void ring(uint32_t routines)
{
    uint32_t n = 6 * routines;
    uint8_t *rom = lend(&rom_lender, n);
    uint64_t *table = lend(&out_lender, 8 * n), *answer = lend(&answer_lender, 32);
    for (uint32_t i = 0; i < routines; i++)
        memcpy(rom + 6 * i, (const uint8_t[]){0x5E, 0, 0, (uint8_t)(6 * ((i + 1) % routines)), 0x54, 0x70}, 6);
    for (uint32_t i = 0; i < routines; i++) {
        uint32_t place = 6 * ((i + CALLS_DEEP) % routines), got = h8_figure(NO_PORTS, rom, n, 6 * i, table, n, answer, 4);
        if (got != 16 || answer[0] != 16 || answer[1] != place || answer[3] || table[6 * i] || table[6 * i + 1] != place)
            wrong_depth("a ring", routines, 6 * i, answer, 16, place);
        follow(rom, n, no_ports(16777216), 6 * i, table);
        count(1);
    }
}

/* TOTALS AT THE LIMIT. Nine routines, each but the last calling the next so many times, with instructions before the calls so that the
   first one's total is just what is wanted. With ports on a bus of 16 bits MOV.B @aa:8 of a port makes it odd. */
enum { NEST_ROM = 524288, ROUTINES = CALLS_DEEP + 1 };
struct nest {
    uint8_t *rom;
    uint32_t n, jsr, rts, start[ROUTINES];
    uint64_t total[ROUTINES], pad[ROUTINES];
    struct area area;
};

static void put_code(struct nest *t, uint32_t length, const uint8_t *code)
{
    memcpy(t->rom + t->n, code, length);
    t->n += length;
}

/* So many states of MULXU.W R0,ER1, of NOP, and of MOV.B @H'FFFF20,R0H where one is left. */
static void put_pad(struct nest *t, uint64_t states)
{
    if (states % 2)
        put_code(t, 2, (const uint8_t[]){0x20, 0x20}), states -= 5;
    for (; states >= 22; states -= 22)
        put_code(t, 2, (const uint8_t[]){0x52, 0x01});
    for (; states >= 2; states -= 2)
        put_code(t, 2, (const uint8_t[]){0x00, 0x00});
}

static void make_nest(struct nest *t, uint32_t times, uint64_t wanted)
{
    uint64_t weight = 1, total = 0, gap;
    t->area = wanted % 2 ? (struct area){0xFFFF20, 0xFFFF30, 16} : no_ports(16777216);
    t->jsr = wanted % 2 ? 12 : 10;
    t->rts = wanted % 2 ? 12 : 10;
    for (int j = CALLS_DEEP; j >= 0; j--)
        total = t->rts + (j == CALLS_DEEP ? 0 : times * (t->jsr + total));
    for (int j = 0; j < CALLS_DEEP; j++)
        weight *= times;
    gap = wanted - total;
    for (int j = CALLS_DEEP; j >= 0; j--, weight /= times) {
        t->pad[j] = j == 0 ? gap : gap > 64 ? (gap - 64) / weight / 2 * 2 : 0;
        gap -= t->pad[j] * weight;
    }
    t->n = 0;
    for (int j = CALLS_DEEP; j >= 0; j--) {
        t->start[j] = t->n;
        put_pad(t, t->pad[j]);
        for (uint32_t k = 0; j < CALLS_DEEP && k < times; k++)
            put_code(t, 4, (const uint8_t[]){0x5E, (uint8_t)(t->start[j + 1] >> 16), (uint8_t)(t->start[j + 1] >> 8), (uint8_t)t->start[j + 1]});
        put_code(t, 2, (const uint8_t[]){0x54, 0x70});
        t->total[j] = t->rts + t->pad[j] + (j == CALLS_DEEP ? 0 : times * (t->jsr + t->total[j + 1]));
    }
}

static void row_is(const uint64_t *table, uint32_t p, uint64_t total, uint64_t wanted)
{
    int over = total > MOST_TOLD;
    if (table[p] != (over ? 0 : total) || table[p + 1] != (over ? p : H8_NONE))
        fail("nested to %llu: row %X is %llu %llX, wanted a total of %llu, and that is %s", (ull)wanted, p, (ull)table[p], (ull)table[p + 1], (ull)total,
             over ? "not told" : "told");
    count(1);
}

/* The first routine's rows: what is left of its total at each place. */
static void first_routine(const struct nest *t, uint32_t times, const uint64_t *table, uint64_t wanted)
{
    uint64_t left = t->total[0];
    for (uint32_t p = t->start[0]; p < t->n;) {
        row_is(table, p, left, wanted);
        uint32_t call = t->rom[p] == 0x5E;
        left -= call ? t->jsr + t->total[1] : t->rom[p] == 0x52 ? 22 : t->rom[p] == 0x20 ? 5 : t->rom[p] == 0x54 ? left : 2;
        p += call ? 4 : 2;
    }
    if (left)
        fail("%u calls a routine: %llu states are left", times, (ull)left);
}

static void nested(uint32_t times, uint64_t wanted)
{
    struct nest t = {.rom = lend(&rom_lender, NEST_ROM)};
    uint64_t *answer = lend(&answer_lender, 32);
    make_nest(&t, times, wanted);
    uint64_t *table = lend(&out_lender, 8 * (size_t)t.n);
    uint32_t entry = t.start[0], over = wanted > MOST_TOLD, got = h8_figure(lend_board(0, t.area), H8_BOARD, t.rom, t.n, entry, table, t.n, answer, 4);
    if (t.total[0] != wanted || got != (over ? 22 : 0) || answer[0] != got || answer[1] != (over ? entry : 0) || answer[2]
        || answer[3] != (over ? 0 : wanted))
        fail("%u calls a routine, nested to %llu: %llu at %llX, figure %llu", times, (ull)wanted, (ull)answer[0], (ull)answer[1], (ull)answer[3]);
    for (int j = 0; j < ROUTINES; j++)
        row_is(table, t.start[j], t.total[j], wanted);
    first_routine(&t, times, table, wanted);
    follow(t.rom, t.n, t.area, entry, table);
    /* something forbidden at its end: that and not 22 */
    t.rom[t.n - 1] = 0x71;
    got = h8_figure(lend_board(0, t.area), H8_BOARD, t.rom, t.n, entry, table, t.n, answer, 4);
    if (got != 3 || answer[1] != t.n - 2 || answer[3] || table[entry] || table[entry + 1] != t.n - 2)
        fail("%u calls a routine, nested to %llu, with something forbidden: %llu at %llX", times, (ull)wanted, (ull)answer[0], (ull)answer[1]);
    count(2);
}

/* Far above: every total of 64 bits and more. The same call over and over, at every level. */
static void far_above(void)
{
    struct nest t = {.rom = lend(&rom_lender, NEST_ROM), .jsr = 10, .rts = 10};
    uint64_t *answer = lend(&answer_lender, 32);
    for (int j = CALLS_DEEP; j >= 0; j--) {
        t.start[j] = t.n;
        for (uint32_t k = 0; k < 14000 && j < CALLS_DEEP; k++)
            put_code(&t, 4, (const uint8_t[]){0x5E, (uint8_t)(t.start[j + 1] >> 16), (uint8_t)(t.start[j + 1] >> 8), (uint8_t)t.start[j + 1]});
        put_code(&t, 2, (const uint8_t[]){0x54, 0x70});
    }
    uint64_t *table = lend(&out_lender, 8 * (size_t)t.n);
    for (int j = 0; j < ROUTINES; j++) {
        uint32_t p = t.start[j], over = j < CALLS_DEEP - 1, got = h8_figure(NO_PORTS, t.rom, t.n, p, table, t.n, answer, 4);
        uint64_t figure = over ? 0 : j == CALLS_DEEP ? 10 : 10 + 14000 * 20;
        if (got != (over ? 22 : 0) || answer[1] != (over ? p : 0) || answer[3] != figure || table[p] != figure || table[p + 1] != (over ? p : H8_NONE))
            fail("14,000 calls a routine, %d levels: %llu at %llX, figure %llu", CALLS_DEEP - j, (ull)answer[0], (ull)answer[1], (ull)answer[3]);
        follow(t.rom, t.n, no_ports(16777216), p, table);
        count(1);
    }
    for (uint32_t p = t.start[CALLS_DEEP - 3]; p < t.n && !failing(); p += t.rom[p] == 0x5E ? 4 : 2)
        if (t.rom[p] == 0x5E && (table[p] || table[p + 1] != p))
            fail("14,000 calls a routine: row %X is %llu %llX", p, (ull)table[p], (ull)table[p + 1]);
}

/* THE LONGEST LISTING: units of eight routines, each BEQ, BSR to the next and INC and RTS; the last has a NOP in place of the call. */
static void longest(void)
{
    static struct listing l;
    static struct total rows[ENUMERATED / 2];
    enum { UNIT = 64 };
    uint8_t *rom = lend(&rom_lender, H8_ROM_MAX);
    uint64_t *table = lend(&out_lender, 8 * (size_t)H8_ROM_MAX), *answer = lend(&answer_lender, 32);
    for (uint32_t p = 0; p < H8_ROM_MAX; p += 8) {
        from_hex(p / 8 % 8 == 7 ? "470000000B505470" : "470055040B505470", rom + p);
    }
    read_listing(&l, rom, UNIT, no_ports(16777216));
    reckon_levels(&l, rows);
    uint32_t got = h8_figure(NO_PORTS, rom, H8_ROM_MAX, 8, table, H8_ROM_MAX, answer, 4);
    if (got || answer[3] != rows[4].most)
        fail("the longest listing: %u, figure %llu, wanted %llu", got, (ull)answer[3], (ull)rows[4].most);
    for (uint32_t p = 0; p < H8_ROM_MAX && !failing(); p += 2)
        if (table[p] != rows[p % UNIT / 2].most || table[p + 1] != H8_NONE)
            fail("the longest listing: row %X is %llu %llX, wanted %llu", p, (ull)table[p], (ull)table[p + 1], (ull)rows[p % UNIT / 2].most);
    count(H8_ROM_MAX / 2);
    follow(rom, H8_ROM_MAX, no_ports(16777216), H8_ROM_MAX - UNIT, table);
}

/* RANDOM NESTS: routines in any order in memory, most calls to routines further down the nest, some anywhere, some lines forbidden; every
   fourth so many that their totals are not told. */
static uint64_t answers[24];

static uint32_t make_nests(uint8_t *rom)
{
    uint32_t heavy = below(4) == 0, routines = heavy ? 9 : 2 + below(9), start[16], n = 0, calls = 1 + below(14), wild = below(3) == 0, order[16];
    for (uint32_t i = 0; i < routines; i++)
        order[i] = i, start[i] = 0;
    for (uint32_t i = 0; i < routines; i++) {
        uint32_t k = below(routines), was = order[i];
        order[i] = order[k], order[k] = was;
    }
    /* a slot of as many bytes for each, so that where they begin is known */
    uint32_t slot = (ENUMERATED / routines) & ~1u;
    for (uint32_t i = 0; i < routines; i++)
        start[order[i]] = i * slot;
    for (uint32_t r = 0; r < routines; r++) {
        uint32_t at = start[r], left = heavy ? 7 + below(7) : below(calls + 1), end = at + slot - 2;
        while (at + 4 <= end) {
            uint32_t to = heavy ? r + 1 : below(8) || !wild ? r + 1 + below(2) : below(routines);
            if (left && to < routines) {
                memcpy(rom + at, (const uint8_t[]){0x5E, 0, (uint8_t)(start[to] >> 8), (uint8_t)(start[to] + (below(9) == 0))}, 4);
                at += 4, left--;
            } else if (below(6) == 0) {
                memcpy(rom + at, (const uint8_t[]){(uint8_t)(0x42 + below(14)), (uint8_t)(2 * below((end - at) / 2))}, 2);
                at += 2;
            } else if (wild && below(60) == 0) {
                memcpy(rom + at, (const uint8_t[]){0x5D, (uint8_t)(16 * below(8))}, 2);
                at += 2;
            } else if (below(12) == 0) {
                break;
            } else {
                memcpy(rom + at, below(2) ? (const uint8_t[]){0x52, 0x01} : (const uint8_t[]){0x69, 0x10}, 2);
                at += 2;
            }
        }
        for (; at <= end; at += 2)
            memcpy(rom + at, (const uint8_t[]){0x54, 0x70}, 2);
        n = at > n ? at : n;
    }
    return n;
}

static void compare_nests(void)
{
    static struct listing l;
    static struct total rows[ENUMERATED / 2];
    uint8_t code[ENUMERATED];
    memset(code, 0, sizeof code);
    uint32_t n = make_nests(code);
    uint8_t *rom = lend(&rom_lender, n);
    uint64_t *table = lend(&out_lender, 8 * n);
    struct area area = below(2) ? no_ports(16777216) : (struct area){0xFFFF20, 0xFFFF30, below(2) ? 8 : 16};
    memcpy(rom, code, n);
    read_listing(&l, rom, n, area);
    reckon_levels(&l, rows);
    for (int k = 0; k < 4; k++) {
        uint64_t *answer = lend(&answer_lender, 32);
        uint32_t entry = 2 * below(n / 2), got = h8_figure(lend_board(0, area), H8_BOARD, rom, n, entry, table, n, answer, 4);
        struct wanted w = wanted_of(&l, entry, rows[entry / 2]);
        if (got != w.answer[0] || memcmp(answer, w.answer, sizeof w.answer))
            fail("a nest, entry %X: %llu at %llX, figure %llu; wanted %llu at %llX, figure %llu", entry, (ull)answer[0], (ull)answer[1], (ull)answer[3],
                 (ull)w.answer[0], (ull)w.answer[1], (ull)w.answer[3]);
    }
    for (uint32_t p = 0; p < n && !failing(); p += 2) {
        struct wanted w = wanted_of(&l, p, rows[p / 2]);
        answers[w.answer[0]]++;
        if (table[p] != w.row[0] || table[p + 1] != w.row[1]) {
            fail("a nest: row %X is %llu %llX, wanted %llu %llX", p, (ull)table[p], (ull)table[p + 1], (ull)w.row[0], (ull)w.row[1]);
            show_listing(rom, n);
        }
        count(1);
    }
    for (int k = 0; k < 8 && !failing(); k++)
        follow(rom, n, area, 2 * below(n / 2), table);
}

void test_calls(void)
{
    static const uint64_t limits[] = {999999998, 999999999, 1000000000, 1000000001, 1000000002, 1000000024, 4000000000};
    begin("calls by hand: down, up, to themselves, to their own next, outside; the way behind them");
    for (size_t i = 0; i < sizeof tolds / sizeof *tolds; i++)
        compare_told(&tolds[i]);
    for (size_t i = 0; i < sizeof all_rows / sizeof *all_rows; i++)
        compare_rows(&all_rows[i]);
    end("calls");
    begin("chains of 0 to 12 calls, from every entry");
    for (uint32_t n = 0; n <= 12; n++)
        chain(n);
    end("entries");
    begin("rings of 1 to 13 routines, from every entry");
    for (uint32_t n = 1; n <= 13; n++)
        ring(n);
    end("entries");
    begin("eight nested calls to 1,000,000,000 and beside it: two calls a routine, and eight");
    for (size_t i = 0; i < sizeof limits / sizeof *limits; i++) {
        if (i < 6)
            nested(2, limits[i]);
        nested(8, limits[i]);
    }
    far_above();
    end("rows");
    begin("524,288 bytes of calls, the whole table");
    longest();
    end("places");
    begin("random nests of calls against the table of levels, every row");
    for (int k = 0; k < 2000 && !failing(); k++)
        compare_nests();
    for (int i = 0; i < 24 && !failing(); i++)
        if ((i == 0 || i == 9 || i == 16 || i == 22) && answers[i] < 1000)
            fail("only %llu rows with %d", (ull)answers[i], i);
    end("rows");
    note("figures %" PRIu64 "; rows of 9, 16, 22: %" PRIu64 " %" PRIu64 " %" PRIu64, answers[0], answers[9], answers[16], answers[22]);
}
