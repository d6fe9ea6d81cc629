/* Bad input: every function with each kind of wrong argument. Whole buffers are compared, with guard bytes before and a page
   that may not be touched behind. */
#include "bench.h"
#include <string.h>

typedef unsigned long long ull;

/* What is lent to one call, and a copy of how it was. */
enum { ROM_N = 16, RAM_N = 16, PATTERN = 0xC3 };
struct lent {
    uint8_t *rom, *ram, *out;
    uint32_t *regs;
    void *answer;
    size_t regs_n, answer_bytes, out_bytes;
    uint8_t rom_was[ROM_N], ram_was[RAM_N], regs_was[64], answer_was[128], out_was[256];
};

/* Code at 0: INC.W #1,R0 and MOV.W R0,@ER1 with ER1 in working memory, so that a step or two would show. */
static void make(struct lent *l, size_t regs_n, size_t answer_bytes, size_t out_bytes)
{
    static const uint8_t code[ROM_N] = {0x0B, 0x50, 0x69, 0x90, 0x54, 0x70};
    l->rom = lend(&rom_lender, ROM_N);
    l->ram = lend(&ram_lender, RAM_N);
    l->regs = lend(&regs_lender, 4 * regs_n);
    l->answer = lend(&answer_lender, answer_bytes);
    l->out = lend(&out_lender, out_bytes);
    l->regs_n = regs_n;
    l->answer_bytes = answer_bytes;
    l->out_bytes = out_bytes;
    memcpy(l->rom, code, ROM_N);
    memset(l->ram, PATTERN, RAM_N);
    for (size_t i = 0; i < regs_n; i++)
        l->regs[i] = i == 1 ? 0x104 : i == H8_PC ? 0 : i == H8_CONDITION ? 0x5A : 0x11111111 * (uint32_t)i;
    memset(l->answer, PATTERN, answer_bytes);
    memset(l->out, PATTERN, out_bytes);
}

static void remember(struct lent *l)
{
    memcpy(l->rom_was, l->rom, ROM_N);
    memcpy(l->ram_was, l->ram, RAM_N);
    memcpy(l->regs_was, l->regs, 4 * l->regs_n);
    memcpy(l->answer_was, l->answer, l->answer_bytes);
    memcpy(l->out_was, l->out, l->out_bytes);
}

static void unchanged(const struct lent *l, const char *what)
{
    const char *which = memcmp(l->rom, l->rom_was, ROM_N) ? "read-only memory" : memcmp(l->ram, l->ram_was, RAM_N) ? "working memory"
        : memcmp(l->regs, l->regs_was, 4 * l->regs_n) ? "registers" : memcmp(l->out, l->out_was, l->out_bytes) ? "out or table" : NULL;
    if (which)
        fail("%s: %s changed", what, which);
    if (!guards_stand(&rom_lender) || !guards_stand(&ram_lender) || !guards_stand(&regs_lender) || !guards_stand(&answer_lender)
        || !guards_stand(&out_lender))
        fail("%s: guard bytes changed", what);
    count(1);
}

/* Numbers of an answer, and how many more are lent at most. */
enum { DECODE = 3, ENCODE = 4, STEP = H8_STEP_ANSWER, RUN = 6, FIGURE = 4, WAY = 4, MORE = 2 };

/* The answer: number and place, the rest of what is named 0 but a run's ending, and numbers behind stay. */
static uint64_t at(const struct lent *l, size_t i, size_t size)
{
    return size == 4 ? ((const uint32_t *)l->answer)[i] : ((const uint64_t *)l->answer)[i];
}
static void refused(const struct lent *l, const char *what, uint32_t got, uint32_t number, uint64_t place, size_t named, size_t size)
{
    int right = got == number && at(l, 0, size) == number && at(l, 1, size) == place;
    for (size_t i = 2; i < named; i++)
        right &= at(l, i, size) == (named == RUN && i == RUN - 1 ? H8_REFUSED : 0);
    for (size_t i = named * size; i < l->answer_bytes; i++)
        right &= ((const uint8_t *)l->answer)[i] == PATTERN;
    if (!right)
        fail("%s: returns %u, answers %llu at %llX; wanted %u at %llX, 0 behind, and the rest kept", what, got, (ull)at(l, 0, size),
             (ull)at(l, 1, size), number, (ull)place);
    unchanged(l, what);
}
/* An answer too short: 13 and nothing written. */
static void answer_short(const struct lent *l, const char *what, uint32_t got)
{
    if (got != 13 || memcmp(l->answer, l->answer_was, l->answer_bytes))
        fail("%s with an answer of %zu bytes: returns %u, or wrote it", what, l->answer_bytes, got);
    unchanged(l, what);
}

/* The last two bytes of read-only memory: accepted, cut short, or unknown. A left-out code is in t_left.c. */
static void decode_at(size_t k, size_t fields_n, size_t answer_n)
{
    static const uint8_t strings[][2] = {{0x0B, 0x50}, {0x79, 0x00}, {0x01, 0x01}};
    static const uint32_t numbers[] = {0, 4, 3};
    struct lent l;
    make(&l, fields_n, 4 * answer_n, 0);
    memcpy(l.rom + ROM_N - 2, strings[k], 2);
    remember(&l);
    uint32_t got = h8_decode(l.rom + ROM_N - 2, 2, l.regs, fields_n, l.answer, answer_n);
    if (answer_n < DECODE)
        answer_short(&l, "decode", got);
    else if (fields_n < H8_FIELDS)
        refused(&l, "decode into too few fields", got, 13, H8_FIELDS, DECODE, 4);
    else {
        if (k == 0)
            memcpy(l.regs_was, l.regs, 4 * H8_FIELDS);
        refused(&l, "decode", got, numbers[k], 0, DECODE, 4);
    }
}

static void bad_decode(void)
{
    for (size_t k = 0; k < 3; k++)
        for (size_t fields_n = 0; fields_n <= 12; fields_n++)
            for (size_t answer_n = 0; answer_n <= DECODE + MORE; answer_n++)
                decode_at(k, fields_n, answer_n);
}

static void bad_encode(void)
{
    static const uint32_t good[H8_FIELDS] = {H8_INCDEC, H8_UP, H8_WORD, H8_BY_1, 0, 0, 0, 2, 2};
    struct lent l;
    for (size_t fields_n = 0; fields_n <= 12; fields_n++)
        for (size_t answer_n = 0; answer_n <= ENCODE + MORE; answer_n++)
            for (size_t out_n = 0; out_n < 2; out_n++) {
                make(&l, fields_n, 4 * answer_n, out_n);
                memcpy(l.regs, good, 4 * (fields_n < H8_FIELDS ? fields_n : H8_FIELDS));
                remember(&l);
                uint32_t got = h8_encode(l.regs, fields_n, l.out, out_n, l.answer, answer_n);
                if (answer_n < ENCODE)
                    answer_short(&l, "encode", got);
                else if (fields_n < H8_FIELDS)
                    refused(&l, "encode of too few fields", got, 11, 0, ENCODE, 4);
                else
                    refused(&l, "encode into too few bytes", got, 13, 2, ENCODE, 4);
            }
    make(&l, H8_FIELDS, 4 * ENCODE, 0);
    memcpy(l.regs, good, sizeof good);
    l.regs[H8_OTHER] = 1;
    remember(&l);
    refused(&l, "encode of a number that the kind does not use: 11 before 13", h8_encode(l.regs, 9, l.out, 0, l.answer, ENCODE), 11, 0,
            ENCODE, 4);
}

/* The wrong boards, PCs and condition numbers; the last row is right. */
struct wrong { const char *what; uint32_t base; size_t rom_n, ram_n; uint32_t pc, condition, number; };
static const struct wrong wrongs[] = {
    {"read-only memory odd", 0x100, 15, 16, 0, 0, 1}, {"working memory odd", 0x100, 16, 15, 0, 0, 1},
    {"base odd", 0x101, 16, 16, 0, 0, 1}, {"base inside read-only memory", 14, 16, 16, 0, 0, 1},
    {"end above 2^24", 0xFFFFF2, 16, 16, 0, 0, 1}, {"base above 2^24", 0x01000002, 16, 0, 0, 0, 1},
    {"PC odd", 0x100, 16, 16, 3, 0, 1}, {"PC at 2^24", 0x100, 16, 16, 0x01000000, 0, 1},
    {"condition number 256", 0x100, 16, 16, 0, 256, 1}, {"board right", 0x100, 16, 16, 0, 0x5A, 0},
};

static void bad_step(void)
{
    struct lent l;
    for (size_t k = 0; k < sizeof wrongs / sizeof *wrongs; k++)
        for (size_t regs_n = 0; regs_n <= 12; regs_n++)
            for (size_t answer_n = 0; answer_n <= STEP + MORE; answer_n++) {
                const struct wrong *w = &wrongs[k];
                make(&l, regs_n, 4 * answer_n, 0);
                if (regs_n > H8_CONDITION)
                    l.regs[H8_PC] = w->pc, l.regs[H8_CONDITION] = w->condition;
                remember(&l);
                uint32_t got = h8_step(far_board(w->base, w->ram_n), H8_BOARD, l.rom, w->rom_n, l.ram, w->ram_n, l.regs, regs_n, l.answer, answer_n);
                if (answer_n < STEP)
                    answer_short(&l, "step", got);
                else if (regs_n < 10)
                    refused(&l, "step with too few registers", got, 13, 10, STEP, 4);
                else if (w->number)
                    refused(&l, w->what, got, w->number, 0, STEP, 4);
                else if (got || at(&l, 2, 4) || at(&l, 3, 4) != 2 || !untouched(l.answer) || l.regs[0] != 1
                         || (regs_n > 10 && l.regs[regs_n - 1] != 0x11111111 * (uint32_t)(regs_n - 1)))
                    fail("step on longer arrays answers %u", got);
            }
}

static void bad_run(void)
{
    struct lent l;
    for (size_t k = 0; k < sizeof wrongs / sizeof *wrongs; k++)
        for (size_t regs_n = 0; regs_n <= 12; regs_n++)
            for (size_t answer_n = 0; answer_n <= RUN + MORE; answer_n++)
                for (uint32_t budget = 0; budget <= 1000001; budget += 1000001) {
                    const struct wrong *w = &wrongs[k];
                    make(&l, regs_n, 8 * answer_n, 0);
                    if (regs_n > H8_CONDITION)
                        l.regs[H8_PC] = w->pc, l.regs[H8_CONDITION] = w->condition;
                    remember(&l);
                    uint32_t got = h8_run(far_board(w->base, w->ram_n), H8_BOARD, l.rom, w->rom_n, l.ram, w->ram_n, l.regs, regs_n, 0xFFFFFF,
                                          budget, l.answer, answer_n);
                    if (answer_n < RUN)
                        answer_short(&l, "run", got);
                    else if (regs_n < 10)
                        refused(&l, "run with too few registers", got, 13, 10, RUN, 8);
                    else if (budget)
                        refused(&l, "run with too large a budget", got, 12, 0, RUN, 8);
                    else if (w->number)
                        refused(&l, w->what, got, w->number, 0, RUN, 8);
                    else if (got || at(&l, 2, 8) || at(&l, 3, 8) || at(&l, 4, 8) || at(&l, 5, 8) != H8_SPENT)
                        fail("run of no steps answers %u", got);
                    else
                        unchanged(&l, "run of no steps");
                }
}

/* A run that is refused at its third step keeps the two before it, and only them. */
static void refused_run(void)
{
    struct lent l;
    make(&l, 12, 8 * (RUN + MORE), 0);
    remember(&l);
    uint32_t got = h8_run(plain_board(0x100), H8_BOARD, l.rom, 4, l.ram, RAM_N, l.regs, 12, 0xFFFFFF, 1000, l.answer, RUN + MORE);
    uint64_t *a = l.answer;
    l.ram_was[4] = 0;
    l.ram_was[5] = 1;
    ((uint32_t *)(void *)l.regs_was)[0] = 1;
    ((uint32_t *)(void *)l.regs_was)[H8_PC] = 4;
    ((uint32_t *)(void *)l.regs_was)[H8_CONDITION] = 0x50;
    if (got != 2 || a[0] != 2 || a[1] != 4 || a[2] || a[3] != 2 || a[4] != 6 || a[5] != H8_REFUSED || a[6] != 0xC3C3C3C3C3C3C3C3)
        fail("run refused at its third step answers %llu at %llX after %llu steps and %llu states", (ull)a[0], (ull)a[1], (ull)a[3], (ull)a[4]);
    unchanged(&l, "run refused at its third step");
}

/* INC.W #1,R0 and then DIVXU.B R0L,R1 with R1 0104: by zero before the INC, and by 1, which gives 260, after it. A refused step
   changes nothing but the answer, and a run keeps the step before it. */
static void refused_division(void)
{
    struct lent l;
    make(&l, 12, 4 * (STEP + MORE), 0);
    memcpy(l.rom + 2, (const uint8_t[]){0x51, 0x81}, 2);
    l.regs[H8_PC] = 2;
    remember(&l);
    refused(&l, "division by zero",
            h8_step(plain_board(0x100), H8_BOARD, l.rom, ROM_N, l.ram, RAM_N, l.regs, 12, l.answer, STEP + MORE), 14, 2, STEP, 4);
    make(&l, 12, 8 * (RUN + MORE), 0);
    memcpy(l.rom + 2, (const uint8_t[]){0x51, 0x81}, 2);
    remember(&l);
    uint32_t got = h8_run(plain_board(0x100), H8_BOARD, l.rom, ROM_N, l.ram, RAM_N, l.regs, 12, 0xFFFFFF, 1000, l.answer, RUN + MORE);
    uint64_t *a = l.answer;
    ((uint32_t *)(void *)l.regs_was)[0] = 1;
    ((uint32_t *)(void *)l.regs_was)[H8_PC] = 2;
    ((uint32_t *)(void *)l.regs_was)[H8_CONDITION] = 0x50;
    if (got != 14 || a[0] != 14 || a[1] != 2 || a[2] || a[3] != 1 || a[4] != 2 || a[5] != H8_REFUSED || a[6] != 0xC3C3C3C3C3C3C3C3)
        fail("run refused at a division answers %llu at %llX after %llu steps and %llu states", (ull)a[0], (ull)a[1], (ull)a[3], (ull)a[4]);
    unchanged(&l, "run refused at a division");
}

/* Figure and way: entry and table by turns. */
struct entry { const char *what; size_t rom_n; uint32_t entry; size_t table_n; uint32_t number; uint64_t place; };
static const struct entry entries[] = {
    {"length odd", 15, 0, 16, 1, 0}, {"length odd: 1 before 8 and 13", 15, 1, 0, 1, 0}, {"length empty", 0, 0, 16, 8, 0},
    {"entry odd", 16, 1, 16, 8, 1}, {"entry odd: 8 before 13", 16, 3, 0, 8, 3}, {"entry at the end", 16, 16, 16, 8, 16},
    {"entry FFFFFE", 16, 0xFFFFFE, 16, 8, 0xFFFFFE}, {"entry 2^24", 16, 0x1000000, 16, 8, 0x1000000},
    {"entry FFFFFFFE", 16, 0xFFFFFFFE, 16, 8, 0xFFFFFFFE}, {"table empty", 16, 0, 0, 13, 16}, {"table one short", 16, 0, 15, 13, 16},
};

static void bad_figure(void)
{
    struct lent l;
    for (size_t k = 0; k < sizeof entries / sizeof *entries; k++)
        for (size_t answer_n = 0; answer_n <= FIGURE + MORE; answer_n++) {
            const struct entry *e = &entries[k];
            make(&l, 0, 8 * answer_n, 8 * e->table_n);
            remember(&l);
            uint32_t got = h8_figure(NO_PORTS, l.rom, e->rom_n, e->entry, (uint64_t *)(void *)l.out, e->table_n, l.answer, answer_n);
            answer_n < FIGURE ? answer_short(&l, "figure", got) : refused(&l, e->what, got, e->number, e->place, FIGURE, 8);
            make(&l, 0, 8 * answer_n, 8 * e->table_n);
            remember(&l);
            got = h8_way(NO_PORTS, l.rom, e->rom_n, (uint64_t *)(void *)l.out, e->table_n, e->entry, l.answer, answer_n);
            answer_n < WAY ? answer_short(&l, "way", got) : refused(&l, e->what, got, e->number, e->place, WAY, 8);
        }
}

/* A table that no figure filled: way may answer anything, but writes nothing else and comes back. */
static void foreign_table(void)
{
    struct lent l;
    for (int k = 0; k < 20000 && !failing(); k++) {
        make(&l, 0, 8 * WAY, 8 * ROM_N);
        uint64_t *table = (uint64_t *)(void *)l.out;
        for (int i = 0; i < ROM_N; i++) {
            uint32_t kind = below(5);
            table[i] = kind == 0 ? any() : kind == 1 ? H8_NONE : kind == 2 ? edge32() : kind == 3 ? below(20) : ~(uint64_t)0;
            l.rom[i] = below(3) ? (uint8_t)(i % 2 ? below(16) : 0x40 + below(32)) : (uint8_t)any();
        }
        remember(&l);
        h8_way(NO_PORTS, l.rom, ROM_N, table, ROM_N, 2 * below(8), l.answer, WAY);
        unchanged(&l, "way by a table of another making");
    }
}

void test_bad_input(void)
{
    begin("bad input: decode");
    bad_decode();
    end("calls");
    begin("bad input: encode");
    bad_encode();
    end("calls");
    begin("bad input: step");
    bad_step();
    end("calls");
    begin("bad input: run");
    bad_run();
    refused_run();
    refused_division();
    end("calls");
    begin("bad input: figure and way");
    bad_figure();
    foreign_table();
    end("calls");
}
