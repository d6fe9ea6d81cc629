/* The port area: what an access takes at its first, last and neighbouring places, by hand and for every form; areas that no board has,
   alone and with other faults; areas at their limits; boards lent too short; and figures of routines that reach ports, by hand. */
#include "bench.h"
#include <stdlib.h>
#include <string.h>

typedef unsigned long long ull;
enum { TOP = 16777216, ROM_N = 16, MARK = 0xC3 };
static const uint32_t buses[] = {8, 16};

/* BY HAND. Working memory from `base` on, 64 bytes; ports from `from` to below `to`. The states with no ports, on a bus of 8 bits and on
   one of 16 are those of tables 2.5 and 2.6: fetches 2 each, internal 1 each, then the accesses. */
struct access {
    const char *what, *code;
    uint32_t base, from, to, er1, er7, none, on_8, on_16;
};
enum { B = 0xFFFFC0, F = 0xFFFFD0, T = 0xFFFFE0 };
static const struct access accesses[] = {
    {"BSET on a port byte, its first", "7FD07000", B, F, T, 0, 0, 8, 10, 10},
    {"BSET on a port byte, its last", "7FDF7000", B, F, T, 0, 0, 8, 10, 10},
    {"BSET on the byte before", "7FCF7000", B, F, T, 0, 0, 8, 8, 8},
    {"BSET on the byte behind", "7FE07000", B, F, T, 0, 0, 8, 8, 8},
    {"BNOT by @ER1", "7D107130", B, F, T, 0x12FFFFD3, 0, 8, 10, 10},
    {"BIST by @ER1 behind", "7D1067B0", B, F, T, 0xFFFFE0, 0, 8, 8, 8},
    {"BTST on a port byte", "7ED07300", B, F, T, 0, 0, 6, 7, 7},
    {"BLD by @ER1 on the last byte", "7C107700", B, F, T, 0xFFFFDF, 0, 6, 7, 7},
    {"BSET in a register", "7009", B, F, T, 0xFFFFD0, 0, 2, 2, 2},
    {"RTS, the stack in ports", "5470", B, F, T, 0, 0xFFFFD4, 10, 18, 12},
    {"RTS, its second word in ports", "5470", B, F, T, 0, 0xFFFFCE, 10, 14, 11},
    {"RTS, its first word in ports", "5470", B, F, T, 0, 0xFFFFDE, 10, 14, 11},
    {"RTS, the stack behind", "5470", B, F, T, 0, 0xFFFFE0, 10, 10, 10},
    {"RTS, ER7 odd", "5470", B, F, T, 0, 0xFFFFCF, 10, 14, 11},
    {"BSR d:8", "5500", B, F, T, 0, 0xFFFFD4, 8, 16, 10},
    {"BSR d:8, its second word in ports", "5500", B, F, T, 0, 0xFFFFD2, 8, 12, 9},
    {"BSR d:8, the stack before", "5500", B, F, T, 0, 0xFFFFD0, 8, 8, 8},
    {"BSR d:16", "5C000000", B, F, T, 0, 0xFFFFE0, 10, 18, 12},
    {"BSR d:16, its first word in ports", "5C000000", B, F, T, 0, 0xFFFFE2, 10, 14, 11},
    {"JSR @ER1: the target may lie there, no code does", "5D10", B, F, T, 0xFFFFD0, 0xFFFFC4, 8, 8, 8},
    {"JSR @ER1", "5D10", B, F, T, 0, 0xFFFFDA, 8, 16, 10},
    {"JSR @aa:24", "5E000000", B, F, T, 0, 0xFFFFDA, 10, 18, 12},
    {"JSR @@aa:8, the stack in ports", "5F08", B, F, T, 0, 0xFFFFDA, 12, 20, 14},
    {"JSR @@aa:8, the vector in ports", "5F08", 8, 8, 16, 0, 72, 12, 20, 14},
    {"JSR @@aa:8, both in ports", "5F09", 8, 8, 72, 0, 72, 12, 28, 16},
    {"JSR @@aa:8, the second words in ports", "5F08", 8, 10, 12, 0, 12, 12, 20, 14},
    {"JMP @@aa:8, the vector in ports", "5B08", 8, 8, 16, 0, 0, 10, 18, 12},
    {"JMP @@aa:8, its first word in ports", "5B08", 8, 8, 10, 0, 0, 10, 14, 11},
    {"JMP @@aa:8, the vector in code", "5B08", B, F, T, 0, 0, 10, 10, 10},
    {"JMP @ER1", "5910", B, F, T, 0xFFFFD0, 0, 4, 4, 4},
    {"MOV.B @ER1, the first byte", "6818", B, F, T, 0xFFFFD0, 0, 4, 5, 5},
    {"MOV.B @ER1, the last byte", "6818", B, F, T, 0xFFFFDF, 0, 4, 5, 5},
    {"MOV.B @ER1, the byte before", "6818", B, F, T, 0xFFFFCF, 0, 4, 4, 4},
    {"MOV.B @ER1, the byte behind", "6818", B, F, T, 0xFFFFE0, 0, 4, 4, 4},
    {"MOV.B stored, a top byte in ER1", "6898", B, F, T, 0x5AFFFFD1, 0, 4, 5, 5},
    {"MOV.W @ER1, the first word", "6910", B, F, T, 0xFFFFD0, 0, 4, 8, 5},
    {"MOV.W @ER1, the last word", "6910", B, F, T, 0xFFFFDE, 0, 4, 8, 5},
    {"MOV.W @ER1, the last word by its odd address", "6910", B, F, T, 0xFFFFDF, 0, 4, 8, 5},
    {"MOV.W @ER1, the word before", "6910", B, F, T, 0xFFFFCE, 0, 4, 4, 4},
    {"MOV.W @ER1, the word before by its odd address", "6910", B, F, T, 0xFFFFCF, 0, 4, 4, 4},
    {"MOV.W stored behind", "6990", B, F, T, 0xFFFFE0, 0, 4, 4, 4},
    {"MOV.L @ER1, both words in ports", "01006910", B, F, T, 0xFFFFDC, 0, 8, 16, 10},
    {"MOV.L @ER1, its second word in ports", "01006910", B, F, T, 0xFFFFCE, 0, 8, 12, 9},
    {"MOV.L @ER1, its second word in ports, odd", "01006910", B, F, T, 0xFFFFCF, 0, 8, 12, 9},
    {"MOV.L @ER1, its first word in ports", "01006910", B, F, T, 0xFFFFDE, 0, 8, 12, 9},
    {"MOV.L stored, its first word in ports", "01006990", B, F, T, 0xFFFFDE, 0, 8, 12, 9},
    {"MOV.L stored before", "01006990", B, F, T, 0xFFFFCC, 0, 8, 8, 8},
    {"MOV.L stored behind", "01006990", B, F, T, 0xFFFFE0, 0, 8, 8, 8},
    {"MOV.L @ER1 over ports of one word", "01006910", B, F, F + 2, 0xFFFFCE, 0, 8, 12, 9},
    {"MOV.L @aa:24 two below", "01006B2000FFFFCE", B, F, T, 0, 0, 12, 16, 13},
    {"MOV.L @aa:24 in ports", "01006B2000FFFFD0", B, F, T, 0, 0, 12, 20, 14},
    {"MOV.L @aa:24 stored two below their end", "01006BA000FFFFDE", B, F, T, 0, 0, 12, 16, 13},
    {"MOV.L @aa:16 in ports", "01006B00FFD4", B, F, T, 0, 0, 10, 18, 12},
    {"MOV.L over FFFFFF, ports up to there", "01006910", B, TOP - 2, TOP, 0xFFFFFE, 0, 8, 12, 9},
    {"MOV.L @aa:24 over FFFFFF", "01006B2000FFFFFF", B, B, TOP, 0, 0, 12, 16, 13},
    {"MOV.L from code into ports beside it", "01006910", ROM_N, ROM_N, 18, 14, 0, 8, 12, 9},
    {"MOV.B @ER1+", "6C18", B, F, T, 0xFFFFDF, 0, 6, 7, 7},
    {"MOV.B @-ER1 from the end", "6C98", B, F, T, 0xFFFFE0, 0, 6, 7, 7},
    {"MOV.B @-ER1 from the base", "6C98", B, F, T, 0xFFFFD0, 0, 6, 6, 6},
    {"MOV.W @ER1+", "6D10", B, F, T, 0xFFFFDE, 0, 6, 10, 7},
    {"MOV.W @-ER1 from the end", "6D90", B, F, T, 0xFFFFE0, 0, 6, 10, 7},
    {"MOV.W @-ER1 from the base", "6D90", B, F, T, 0xFFFFD0, 0, 6, 6, 6},
    {"MOV.L @ER1+", "01006D10", B, F, T, 0xFFFFD0, 0, 10, 18, 12},
    {"MOV.L @-ER1 from two above the base", "01006D90", B, F, T, 0xFFFFD2, 0, 10, 14, 11},
    {"MOV.B @(d:16,ER1) down to the last byte", "6E18FFFF", B, F, T, 0xFFFFE0, 0, 6, 7, 7},
    {"MOV.W @(d:16,ER1) up to the base", "6F100002", B, F, T, 0xFFFFCE, 0, 6, 10, 7},
    {"MOV.W @(d:16,ER1) from the base to behind", "6F100010", B, F, T, 0xFFFFD0, 0, 6, 6, 6},
    {"MOV.L @(d:16,ER1)", "01006F100002", B, F, T, 0xFFFFCE, 0, 10, 18, 12},
    {"MOV.B @aa:8", "28D0", B, F, T, 0, 0, 4, 5, 5},
    {"MOV.B @aa:8 before", "28CF", B, F, T, 0, 0, 4, 4, 4},
    {"MOV.B @aa:8 behind, stored", "38E0", B, F, T, 0, 0, 4, 4, 4},
    {"MOV.B @aa:16", "6A08FFDF", B, F, T, 0, 0, 6, 7, 7},
    {"MOV.B @aa:24", "6A2800FFFFDF", B, F, T, 0, 0, 8, 9, 9},
    {"MOV.W @aa:16", "6B00FFD0", B, F, T, 0, 0, 6, 10, 7},
    {"MOV.W @aa:16, odd and before", "6B00FFCF", B, F, T, 0, 0, 6, 6, 6},
    {"MOV.W @aa:24, the last word by its odd address", "6B2000FFFFDF", B, F, T, 0, 0, 8, 12, 9},
    {"MOV.W @aa:24 of code", "6B2000000004", B, F, T, 0, 0, 8, 8, 8},
    {"MOV.B between registers", "0C18", B, B, TOP, 0, 0, 2, 2, 2},
    {"NOP on a board that is all ports", "0000", B, B, TOP, 0, 0, 2, 2, 2},
    {"MULXU.W on a board that is all ports", "5201", B, B, TOP, 0, 0, 22, 22, 22},
};

/* The library's step alone: the answer. */
static const uint32_t *step_alone(const struct state *s)
{
    uint8_t *rom = lend(&rom_lender, s->rom_n), *ram = lend(&ram_lender, s->ram_n);
    uint32_t *regs = lend(&regs_lender, 40), *answer = lend_step_answer();
    memcpy(rom, s->rom, s->rom_n);
    memcpy(ram, s->ram, s->ram_n);
    memcpy(regs, s->regs, 40);
    h8_step(lend_board(s->base, s->area), H8_BOARD, rom, s->rom_n, ram, s->ram_n, regs, 10, answer, H8_STEP_ANSWER);
    return answer;
}

static void access_by_hand(const struct access *a)
{
    const struct { struct area area; uint32_t states; } trials[] = {
        {no_ports(a->from), a->none}, {{a->from, a->to, 8}, a->on_8}, {{a->from, a->to, 16}, a->on_16},
    };
    for (size_t i = 0; i < 3; i++) {
        struct state s = {.ports = 1, .area = trials[i].area, .base = a->base, .rom_n = a->base < ROM_N ? a->base : ROM_N, .ram_n = 64};
        s.regs[1] = a->er1;
        s.regs[7] = a->er7;
        from_hex(a->code, s.rom);
        const uint32_t *answer = step_alone(&s);
        if (answer[0] || answer[3] != trials[i].states)
            fail("%s, ports %06X to %06X, bus %u: %u, %u states; wanted %u", a->what, trials[i].area.base, trials[i].area.end, trials[i].area.bus,
                 answer[0], answer[3], trials[i].states);
        if (compare_step(&s).states != trials[i].states)
            fail("%s, ports %06X to %06X, bus %u: the model is wrong", a->what, trials[i].area.base, trials[i].area.end, trials[i].area.bus);
    }
}

/* EVERY FORM with data in memory, at each place from four before the ports' base to five behind it, and so at their end. */
static uint32_t cycles(int form, const char *letters)
{
    uint32_t n = 0;
    for (const char *p = forms[form].cycles; *p; p++)
        if (strchr(letters, *p) && *p != ' ')
            n += (uint32_t)strtoul(p + 1, NULL, 10);
    return n;
}

static int by_vector(int form) { return (forms[form].kind == H8_JMP || forms[form].kind == H8_JSR) && forms[form].form == H8_VECTOR; }

/* A state in which the form's access is at `a`; the push of a call through a vector is at `b`. */
static void aim_at(struct state *s, int form, uint32_t a, uint32_t b)
{
    const struct form *f = &forms[form];
    uint32_t value = a, d = (uint32_t)any() & 0xFFFF;
    uint8_t code[8];
    if (f->kind == H8_MOVE && f->form <= H8_DISP)
        s->regs[1] = a | (uint32_t)any() << 24;
    if (f->kind == H8_MOVE && f->form == H8_DISP)
        s->regs[1] -= (uint32_t)(int32_t)(int16_t)d, value = d;
    if (f->kind == H8_MOVE && f->form == H8_STEP && f->which == H8_STORE)
        s->regs[1] += 1u << f->width;
    if (f->kind == H8_TAKE || f->kind == H8_GIVE)
        s->regs[1] = a;
    s->regs[7] = by_vector(form) ? b + 4 : f->kind == H8_RTS ? a : a + 4;
    s->rom_n = (uint32_t)build(form, f->kind == H8_TAKE || f->kind == H8_GIVE ? 2 : 1, value, f->kind == H8_MOVE ? 2 : 1, code);
    memcpy(s->rom, code, s->rom_n);
}

static void form_at_ends(int form, uint32_t bus)
{
    uint32_t ports = by_vector(form) ? 0x40 : 0xFFFF40, most = 0, least = ~0u, bytes = cycles(form, "L"), words = cycles(form, "JKM");
    for (uint32_t k = 0; k < 2 * 10 * 10 && !failing(); k++) {
        struct state s = {.ports = 1, .area = {ports, ports + 16, bus}, .base = by_vector(form) ? 8 : 0xFFFF00, .ram_n = 256};
        uint32_t end = k % 2 ? 16 : 0, a = ports + end + k / 2 % 10 - 4, b = ports + (k / 20 % 2 ? 16 : 0) + k / 20 - 4;
        for (int i = 0; i < 8; i++)
            s.regs[i] = (uint32_t)any();
        for (uint32_t i = 0; i < s.ram_n; i++)
            s.ram[i] = (uint8_t)any();
        aim_at(&s, form, a, b);
        s.regs[H8_CONDITION] = below(256);
        struct outcome o = compare_step(&s);
        if (o.number && !failing())
            fail("%s at %06X is refused by %u", forms[form].name, a, o.number);
        most = o.states > most ? o.states : most;
        least = o.states < least ? o.states : least;
    }
    uint32_t dearest = forms[form].states + bytes + words * (bus == 8 ? 4 : 1);
    if ((least != forms[form].states || most != dearest) && !failing())
        fail("%s on a bus of %u takes %u to %u states, wanted %u to %u", forms[form].name, bus, least, most, forms[form].states, dearest);
}

static void every_form(void)
{
    int found = 0;
    for (int form = 0; form < FORMS && !failing(); form++)
        if (cycles(form, "JKLM")) {
            found++;
            form_at_ends(form, 8);
            form_at_ends(form, 16);
        }
    /* MOV: 6 + 5 + 5 loads and as many stores; 18 bit instructions by @ER and by aa:8; JMP @@, 2 BSR, 3 JSR, RTS */
    if (found != 32 + 36 + 7 && !failing())
        fail("%d forms have data in memory", found);
}

/* WRONG AREAS. Code of 16 bytes, working memory of 64 from 1000 on. */
struct wrong { const char *what; uint32_t from, to, bus, number; };
static const struct wrong wrongs[] = {
    {"a part of working memory", 0x1010, 0x1020, 8, 0}, {"a part, bus of 16", 0x1010, 0x1020, 16, 0},
    {"all of working memory", 0x1000, 0x1040, 8, 0}, {"empty at its base", 0x1000, 0x1000, 16, 0},
    {"empty at its end", 0x1040, 0x1040, 8, 0}, {"empty inside", 0x1022, 0x1022, 8, 0},
    {"base odd", 0x1011, 0x1020, 8, 1}, {"end odd", 0x1010, 0x101F, 8, 1}, {"both odd", 0x1011, 0x1021, 8, 1},
    {"empty and odd", 0x1011, 0x1011, 16, 1},
    {"base two above the end", 0x1012, 0x1010, 8, 1}, {"base and end changed about", 0x1040, 0x1000, 8, 1},
    {"base two below working memory", 0x0FFE, 0x1020, 8, 1}, {"end two behind it", 0x1010, 0x1042, 8, 1},
    {"both outside", 0x0FFE, 0x1042, 16, 1}, {"below it", 0x0FF0, 0x1000, 8, 1}, {"behind it", 0x1040, 0x1050, 8, 1},
    {"empty, two below it", 0x0FFE, 0x0FFE, 8, 1}, {"empty, two behind it", 0x1042, 0x1042, 8, 1}, {"empty at 0", 0, 0, 8, 1},
    {"in code", 0, 16, 8, 1}, {"empty at 2^24", TOP, TOP, 8, 1}, {"up to 2^24", 0x1010, TOP, 8, 1},
    {"end past 2^24 by what working memory has", 0x1010, TOP + 0x1020, 8, 1}, {"base FFFFFFFE", 0xFFFFFFFE, 0x1020, 8, 1},
    {"end FFFFFFFE", 0x1010, 0xFFFFFFFE, 8, 1}, {"empty at FFFFFFFE", 0xFFFFFFFE, 0xFFFFFFFE, 8, 1},
    {"bus 0", 0x1010, 0x1020, 0, 1}, {"bus 1", 0x1010, 0x1020, 1, 1}, {"bus 7", 0x1010, 0x1020, 7, 1}, {"bus 9", 0x1010, 0x1020, 9, 1},
    {"bus 15", 0x1010, 0x1020, 15, 1}, {"bus 17", 0x1010, 0x1020, 17, 1}, {"bus 24", 0x1010, 0x1020, 24, 1}, {"bus 32", 0x1010, 0x1020, 32, 1},
    {"bus 264", 0x1010, 0x1020, 264, 1}, {"bus 80000010", 0x1010, 0x1020, 0x80000010, 1}, {"bus FFFFFFFF", 0x1010, 0x1020, 0xFFFFFFFF, 1},
    {"empty, bus 0", 0x1000, 0x1000, 0, 1}, {"empty, bus 12", 0x1000, 0x1000, 12, 1},
};

/* What else is wrong, and what is answered beside a right area. */
struct beside { const char *what, *code; uint32_t pc, condition, number, place; };
static const struct beside besides[] = {
    {"nothing else wrong", "0000", 0, 0, 0, 0}, {"PC odd", "0000", 1, 0, 1, 0}, {"condition number 256", "0000", 0, 256, 1, 0},
    {"PC outside", "0000", 16, 0, 2, 16}, {"unknown code", "0001", 0, 0, 3, 0}, {"left-out code", "5670", 0, 0, 15, 0},
    {"a read outside", "6910", 0, 0, 5, 0x2000}, {"a write outside", "6990", 0, 0, 6, 0x2000}, {"DAA outside its rows", "0F08", 0, 0x20, 7, 0},
    {"a zero divisor", "5181", 0, 0, 14, 0},
};

/* Memories and registers for a call, and whether it left all but the answer as they were. */
struct lent { uint8_t *rom, *ram; uint32_t *regs, before[12]; };

static struct lent lend_all(const struct beside *b)
{
    struct lent l = {lend(&rom_lender, ROM_N), lend(&ram_lender, 64), lend(&regs_lender, 40), {0}};
    memset(l.rom, 0, ROM_N);
    memset(l.ram, MARK, 64);
    from_hex(b->code, l.rom);
    memset(l.regs, 0, 40);
    l.regs[0] = 0x0F00;
    l.regs[1] = 0x2000;
    l.regs[H8_PC] = b->pc;
    l.regs[H8_CONDITION] = b->condition;
    if (b->number == 7)
        l.regs[0] = 0x0F;
    memcpy(l.before, l.regs, 40);
    return l;
}

static int same(const struct lent *l)
{
    for (int i = 0; i < 64; i++)
        if (l->ram[i] != MARK)
            return 0;
    return !memcmp(l->before, l->regs, 40) && guards_stand(&board_lender) && guards_stand(&rom_lender) && guards_stand(&ram_lender)
        && guards_stand(&regs_lender) && guards_stand(&answer_lender);
}

static void wrong_in_step(const struct wrong *w, const struct beside *b)
{
    struct lent l = lend_all(b);
    uint32_t *answer = lend_step_answer(), number = w->number ? 1 : b->number, place = number == 1 ? 0 : b->place;
    const uint32_t *board = lend_board(0x1000, (struct area){w->from, w->to, w->bus});
    uint32_t got = h8_step(board, H8_BOARD, l.rom, ROM_N, l.ram, 64, l.regs, 10, answer, H8_STEP_ANSWER);
    l.before[H8_PC] += number ? 0 : 2;
    if (got != number || answer[0] != number || answer[1] != place || answer[2] != (number == 15 ? 6u : 0u) || answer[3] != (number ? 0u : 2u)
        || !untouched(answer) || !same(&l))
        fail("step, area %s, %s: %u at %X, states %u; wanted %u at %X", w->what, b->what, answer[0], answer[1], answer[3], number, place);
    count(1);
}

static void wrong_in_run(const struct wrong *w, const struct beside *b, uint32_t budget)
{
    struct lent l = lend_all(b);
    uint64_t *answer = lend(&answer_lender, 48);
    uint32_t number = budget > 1 ? 12 : w->number || b->number == 1 ? 1 : budget ? b->number : 0, place = number == 1 || number == 12 ? 0 : b->place;
    uint64_t steps = number ? 0 : budget;
    memset(answer, MARK, 48);
    const uint32_t *board = lend_board(0x1000, (struct area){w->from, w->to, w->bus});
    uint32_t got = h8_run(board, H8_BOARD, l.rom, ROM_N, l.ram, 64, l.regs, 10, 0xFFFFFFFF, budget, answer, 6);
    l.before[H8_PC] += 2 * (uint32_t)steps;
    if (got != number || answer[0] != number || answer[1] != (number ? place : 0) || answer[3] != steps || answer[4] != 2 * steps
        || answer[5] != (number ? H8_REFUSED : H8_SPENT) || !same(&l))
        fail("run with budget %u, area %s, %s: %llu at %llX, %llu steps; wanted %u", budget, w->what, b->what, (ull)answer[0], (ull)answer[1],
             (ull)answer[3], number);
    count(1);
}

/* Too few registers are looked for before the board. */
static void wrong_and_short(const struct wrong *w)
{
    struct lent l = lend_all(&besides[0]);
    uint32_t *answer = lend_step_answer();
    const uint32_t *board = lend_board(0x1000, (struct area){w->from, w->to, w->bus});
    if (h8_step(board, H8_BOARD, l.rom, ROM_N, l.ram, 64, l.regs, 9, answer, H8_STEP_ANSWER) != 13 || answer[1] != 10 || !untouched(answer)
        || !same(&l))
        fail("step, area %s, nine registers: %u at %u", w->what, answer[0], answer[1]);
    count(1);
}

static void wrong_areas(void)
{
    for (size_t i = 0; i < sizeof wrongs / sizeof *wrongs; i++) {
        for (size_t k = 0; k < sizeof besides / sizeof *besides; k++) {
            wrong_in_step(&wrongs[i], &besides[k]);
            wrong_in_run(&wrongs[i], &besides[k], 0);
            wrong_in_run(&wrongs[i], &besides[k], 1);
            wrong_in_run(&wrongs[i], &besides[k], 1000001);
        }
        wrong_and_short(&wrongs[i]);
    }
}

/* LIMITS of a board and its area: code of so many bytes (NOP), working memory of so many; what a step answers. */
struct limit { const char *what; uint32_t rom_n, base, ram_n, from, to, number; };
static const struct limit limits[] = {
    {"working memory of 65,536, all ports", 2, 2, 65536, 2, 65538, 0},
    {"working memory of 65,536 up to 2^24, all ports", 2, TOP - 65536, 65536, TOP - 65536, TOP, 0},
    {"ports two past it", 2, TOP - 65536, 65536, TOP - 65534, TOP + 2, 1},
    {"ports at the code's end", 4, 4, 2, 4, 6, 0}, {"ports two below it", 4, 4, 2, 2, 6, 1},
    {"working memory empty, area at its base", 4, 4, 0, 4, 4, 0}, {"working memory empty, area two behind", 4, 4, 0, 6, 6, 1},
    {"working memory empty, area two before", 4, 6, 0, 4, 4, 1}, {"working memory empty, area not", 4, 4, 0, 4, 6, 1},
    {"working memory empty at 2^24, area too", 2, TOP, 0, TOP, TOP, 0}, {"ports of one word, the last of all", 2, TOP - 2, 2, TOP - 2, TOP, 0},
    {"empty at the end of working memory at 2^24", 2, TOP - 2, 2, TOP, TOP, 0}, {"empty two past that", 2, TOP - 2, 2, TOP + 2, TOP + 2, 1},
    {"working memory of 65,538 with a right area", 2, 2, 65538, 2, 4, 1}, {"base inside the code with a right area", 4, 2, 4, 4, 6, 1},
    {"base odd with a right area", 4, 5, 4, 6, 8, 1}, {"both memories at their longest, all ports", 524288, 524288, 65536, 524288, 589824, 0},
};

static void limit_of(const struct limit *l)
{
    for (int k = 0; k < 2; k++) {
        uint8_t *rom = lend(&rom_lender, l->rom_n), *ram = lend(&ram_lender, l->ram_n);
        uint32_t *regs = lend(&regs_lender, 40), *answer = lend_step_answer();
        memset(rom, 0, l->rom_n);
        memset(regs, 0, 40);
        const uint32_t *board = lend_board(l->base, (struct area){l->from, l->to, buses[k]});
        uint32_t got = h8_step(board, H8_BOARD, rom, l->rom_n, ram, l->ram_n, regs, 10, answer, H8_STEP_ANSWER);
        if (got != l->number || answer[0] != l->number || answer[1] || answer[3] != (l->number ? 0u : 2u))
            fail("%s: %u at %X, wanted %u", l->what, answer[0], answer[1], l->number);
        count(1);
    }
}

/* What a figure answers for an area and a code of so many bytes (RTS at 0), from entry 0. */
struct carried { const char *what; uint32_t rom_n, from, to, bus, number; };
static const struct carried carrieds[] = {
    {"a span of 65,536", 2, 0x20000, 0x30000, 8, 0}, {"a span of 65,538", 2, 0x20000, 0x30002, 8, 1},
    {"a span of 65,536, bus of 16", 2, 2, 0x10002, 16, 0},
    {"a span of 65,536 up to 2^24", 2, TOP - 65536, TOP, 8, 0}, {"a span of 65,538 up to 2^24", 2, TOP - 65538, TOP, 8, 1},
    {"end two past 2^24", 2, TOP - 2, TOP + 2, 8, 1}, {"all past 2^24", 2, TOP + 2, TOP + 4, 8, 1}, {"the last word of all", 2, TOP - 2, TOP, 8, 0},
    {"at the code's end", 6, 6, 8, 8, 0}, {"two below the code's end", 6, 4, 8, 8, 1}, {"in code", 6, 0, 2, 8, 1},
    {"at the end of the longest code", 524288, 524288, 524288 + 65536, 16, 0}, {"two below it", 524288, 524286, 524288, 16, 1},
    {"empty at 2^24", 2, TOP, TOP, 8, 0}, {"empty past 2^24", 2, TOP + 2, TOP + 2, 8, 1}, {"empty at the code's end", 6, 6, 6, 16, 0},
    {"empty two below it", 6, 4, 4, 16, 1}, {"empty at 0", 2, 0, 0, 8, 1}, {"empty at FFFFFFFE", 2, 0xFFFFFFFE, 0xFFFFFFFE, 8, 1},
    {"base odd", 2, 0x1001, 0x1010, 8, 1}, {"end odd", 2, 0x1000, 0x100F, 8, 1}, {"empty and odd", 2, 0x1001, 0x1001, 8, 1},
    {"base above the end", 2, 0x1002, 0x1000, 8, 1}, {"base FFFFFFFE, end 2", 2, 0xFFFFFFFE, 2, 8, 1}, {"end FFFFFFFE", 2, 2, 0xFFFFFFFE, 8, 1},
    {"bus 0", 2, 0x1000, 0x1010, 0, 1}, {"bus 1", 2, 0x1000, 0x1010, 1, 1}, {"bus 12", 2, 0x1000, 0x1010, 12, 1},
    {"bus 32", 2, 0x1000, 0x1010, 32, 1}, {"bus 264", 2, 0x1000, 0x1010, 264, 1}, {"bus FFFFFFFF", 2, 0x1000, 0x1010, 0xFFFFFFFF, 1},
    {"empty, bus 0", 2, TOP, TOP, 0, 1},
    {"code odd", 3, 0x1000, 0x1010, 8, 1}, {"code of 524,290", 524290, 0x100000, 0x100010, 8, 1},
};

/* With a right entry and table; and with a wrong entry, a short table, or both. The figure is that of RTS alone. */
static void carried_with(const struct carried *c, uint32_t entry, size_t table_n, uint32_t beside, uint64_t place)
{
    uint32_t number = c->number ? 1 : beside;
    uint64_t *table = lend(&out_lender, 8 * table_n), *answer = lend(&answer_lender, 32);
    uint64_t figure = number ? 0 : c->from == c->to ? 10 : c->bus == 8 ? 18 : 12;
    uint8_t *rom = lend(&rom_lender, c->rom_n);
    struct area a = {c->from, c->to, c->bus};
    memset(rom, 0, c->rom_n);
    memcpy(rom, (const uint8_t[]){0x54, 0x70}, 2);
    memset(table, MARK, 8 * (table_n < 2 ? table_n : 2));
    memset(answer, MARK, 32);
    uint32_t got = h8_figure(lend_board(0xFFFFFFFF, a), H8_BOARD, rom, c->rom_n, entry, table, table_n, answer, 4);
    if (got != number || answer[0] != number || answer[1] != (number > 1 ? place : 0) || answer[2] || answer[3] != figure
        || (table_n && table[0] != (number ? 0xC3C3C3C3C3C3C3C3 : figure)))
        fail("figure, %s, entry %u, table of %zu: %llu at %llX, figure %llu; wanted %u, figure %llu", c->what, entry, table_n, (ull)answer[0],
             (ull)answer[1], (ull)answer[3], number, (ull)figure);
    got = h8_way(lend_board(0xFFFFFFFF, a), H8_BOARD, rom, c->rom_n, table, table_n, entry, answer, 4);
    if (got != number || answer[0] != number || answer[1] != (number > 1 ? place : 0) || answer[2] || answer[3] != (number ? 0 : H8_NONE))
        fail("way, %s, entry %u, table of %zu: %llu at %llX, wanted %u", c->what, entry, table_n, (ull)answer[0], (ull)answer[1], number);
    if (model_carried(a, c->rom_n) != !c->number)
        fail("%s: the model has another answer", c->what);
    count(2);
}

static void carried_areas(void)
{
    for (const struct carried *c = carrieds; c < carrieds + sizeof carrieds / sizeof *carrieds; c++) {
        carried_with(c, 0, c->rom_n, 0, 0);
        carried_with(c, 1, c->rom_n, 8, 1);
        carried_with(c, 0, c->rom_n - 1, 13, c->rom_n);
        carried_with(c, 3, 0, 8, 3);
    }
}

/* A good board for exactly the areas that the figure takes: some working memory holds the area, by trying the bases near its ends. */
static void carried_or_not(void)
{
    for (int k = 0; k < 20000 && !failing(); k++) {
        uint32_t rom_n = 2 * below(40), from = below(3) ? rom_n + 2 * below(20) - 8 : below(2) ? TOP - 65560 + 2 * below(40) : TOP - 2 * below(20);
        uint32_t span = below(3) ? 2 * below(10) : 65530 + 2 * below(6), bases = 0;
        struct area a = {from + (below(20) == 0), from + span + (below(20) == 0), below(10) ? buses[below(2)] : below(20)};
        for (uint32_t base = from - 20; base != from + 22 && !bases; base += 2)
            for (uint32_t ram_n = 0; ram_n <= 65536 && !bases; ram_n += ram_n == 40 ? 65536 - 60 : 2)
                bases += model_board_good(&(struct board){.base = base, .rom_n = rom_n, .ram_n = ram_n, .area = a});
        uint64_t answer[4], table[80];
        uint8_t *rom = lend(&rom_lender, rom_n);
        memset(rom, 0, rom_n);
        uint32_t got = h8_figure(lend_board(0, a), H8_BOARD, rom, rom_n, 0, table, 80, answer, 4);
        if ((got != 1) != (bases != 0) || model_carried(a, rom_n) != (bases != 0))
            fail("code of %u, ports %06X to %06X, bus %u: figure answers %u, and %s", rom_n, a.base, a.end, a.bus, got,
                 bases ? "some board carries it" : "no board was found");
        count(1);
    }
}

/* BOARDS TOO SHORT OR LONGER. Numbers that are not there read as 0, so there is no bus; those past the fourth don't matter. */
static const uint32_t *lend_numbers(size_t n)
{
    static const uint32_t right[8] = {0x1000, 0x1010, 0x1020, 8, 0, 0xFFFFFFFF, 1, 0x1001};
    uint32_t *board = lend(&board_lender, 4 * n);
    memcpy(board, right, 4 * n);
    return board;
}

static void boards_of(size_t n)
{
    struct lent l = lend_all(&(struct beside){"", "6990", 0, 0, 0, 0});
    uint32_t *told = lend_step_answer(), number = n < H8_BOARD;
    l.regs[1] = l.before[1] = 0x1010;
    uint32_t got = h8_step(lend_numbers(n), n, l.rom, ROM_N, l.ram, 64, l.regs, 10, told, H8_STEP_ANSWER);
    if (got != number || told[0] != number || told[1] || told[3] != (number ? 0u : 8u) || strcmp(list_text(told), number ? "" : "W2 001010")
        || (number && (!same(&l) || !untouched(told))) || !guards_stand(&board_lender))
        fail("step with a board of %zu numbers: %u at %X, states %u", n, told[0], told[1], told[3]);
    l = lend_all(&besides[0]);
    uint64_t *answer = lend(&answer_lender, 48), table[ROM_N];
    got = h8_run(lend_numbers(n), n, l.rom, ROM_N, l.ram, 64, l.regs, 10, 0xFFFFFFFF, 0, answer, 6);
    if (got != number || answer[0] != number || answer[3] || !same(&l))
        fail("run with a board of %zu numbers: %llu at %llX", n, (ull)answer[0], (ull)answer[1]);
    memcpy(l.rom, (const uint8_t[]){0x54, 0x70}, 2);
    answer = lend(&answer_lender, 32);
    got = h8_figure(lend_numbers(n), n, l.rom, ROM_N, 0, table, ROM_N, answer, 4);
    if (got != number || answer[0] != number || answer[1] || answer[3] != (number ? 0 : 18))
        fail("figure with a board of %zu numbers: %llu at %llX, figure %llu", n, (ull)answer[0], (ull)answer[1], (ull)answer[3]);
    got = h8_way(lend_numbers(n), n, l.rom, ROM_N, table, ROM_N, 0, answer, 4);
    if (got != number || answer[0] != number || answer[1] || answer[3] != (number ? 0 : H8_NONE))
        fail("way with a board of %zu numbers: %llu at %llX", n, (ull)answer[0], (ull)answer[1]);
    count(4);
}

/* The answer's and the registers' length are looked for before the board. */
static void short_and_short(size_t n)
{
    struct lent l = lend_all(&besides[0]);
    uint64_t *answer = lend(&answer_lender, 72), table[ROM_N];
    memset(answer, MARK, 72);
    uint32_t step = h8_step(lend_numbers(n), n, l.rom, ROM_N, l.ram, 64, l.regs, 10, (uint32_t *)(void *)answer, H8_STEP_ANSWER - 1);
    uint32_t run = h8_run(lend_numbers(n), n, l.rom, ROM_N, l.ram, 64, l.regs, 10, 0, 0, answer, 5);
    uint32_t figure = h8_figure(lend_numbers(n), n, l.rom, ROM_N, 0, table, ROM_N, answer, 3);
    uint32_t way = h8_way(lend_numbers(n), n, l.rom, ROM_N, table, ROM_N, 0, answer, 3);
    if (step != 13 || run != 13 || figure != 13 || way != 13 || answer[0] != 0xC3C3C3C3C3C3C3C3 || !same(&l))
        fail("a board of %zu numbers and a short answer: step %u, run %u, figure %u, way %u, or something is written", n, step, run, figure, way);
    run = h8_run(lend_numbers(n), n, l.rom, ROM_N, l.ram, 64, l.regs, 9, 0, 1000001, answer, 6);
    if (run != 13 || answer[1] != 10 || !same(&l))
        fail("a board of %zu numbers and nine registers: %u at %llu", n, run, (ull)answer[1]);
    run = h8_run(lend_numbers(n), n, l.rom, ROM_N, l.ram, 64, l.regs, 10, 0, 1000001, answer, 6);
    if (run != 12 || answer[1] || !same(&l))
        fail("a board of %zu numbers and a budget of 1,000,001: %u at %llu", n, run, (ull)answer[1]);
    count(6);
}

/* FIGURES by hand: with no ports, with a bus of 8 bits and with one of 16; ports from FFFF20 to below FFFF30. */
struct told { const char *what, *code; uint32_t from, to, none, on_8, on_16; };
enum { PF = 0xFFFF20, PT = 0xFFFF30 };
static const struct told tolds[] = {
    {"RTS: the stack may be in ports", "5470", PF, PT, 10, 18, 12}, {"RTS, ports of one word", "5470", PF, PF + 2, 10, 18, 12},
    {"MOV.B @ER1", "68185470", PF, PT, 14, 23, 17}, {"MOV.W @ER1", "69105470", PF, PT, 14, 26, 17},
    {"MOV.L @ER1", "010069105470", PF, PT, 18, 34, 22},
    {"MOV.B @(d:16,ER1)", "6E1800005470", PF, PT, 16, 25, 19}, {"MOV.W @ER7+", "6D705470", PF, PT, 16, 28, 19},
    {"MOV.L @-ER7", "01006DF05470", PF, PT, 20, 36, 24}, {"MOV.L @(d:16,ER1)", "01006F1000005470", PF, PT, 20, 36, 24},
    {"MOV.B @aa:8, the first port", "20205470", PF, PT, 14, 23, 17}, {"MOV.B @aa:8, the byte before", "201F5470", PF, PT, 14, 22, 16},
    {"MOV.B @aa:8, the last port", "302F5470", PF, PT, 14, 23, 17}, {"MOV.B @aa:8, the byte behind", "30305470", PF, PT, 14, 22, 16},
    {"MOV.B @aa:16", "6A08FF2F5470", PF, PT, 16, 25, 19}, {"MOV.B @aa:16 behind", "6A08FF305470", PF, PT, 16, 24, 18},
    {"MOV.W @aa:16, the last word, odd", "6B00FF2F5470", PF, PT, 16, 28, 19}, {"MOV.W @aa:16, odd and before", "6B00FF1F5470", PF, PT, 16, 24, 18},
    {"MOV.W @aa:24", "6B2000FFFF205470", PF, PT, 18, 30, 21}, {"MOV.W @aa:24 in no memory", "6B20001234565470", PF, PT, 18, 26, 20},
    {"MOV.W @aa:24 of code", "6B20000000005470", PF, PT, 18, 26, 20},
    {"MOV.B @aa:24, low 16 bits as a port's", "6A280000FF205470", PF, PT, 18, 26, 20},
    {"MOV.L @aa:24 two below", "01006B2000FFFF1E5470", PF, PT, 22, 34, 25}, {"MOV.L @aa:24 in ports", "01006B2000FFFF205470", PF, PT, 22, 38, 26},
    {"MOV.L @aa:24 two below the end", "01006BA000FFFF2E5470", PF, PT, 22, 34, 25},
    {"MOV.L @aa:24 at the end", "01006BA000FFFF305470", PF, PT, 22, 30, 24},
    {"MOV.L @aa:16 two below", "01006B00FF1E5470", PF, PT, 20, 32, 23},
    {"MOV.L @aa:16 over ports of one word", "01006B00FF1E5470", PF, PF + 2, 20, 32, 23},
    {"MOV.L over FFFFFF", "01006B2000FFFFFE5470", TOP - 2, TOP, 22, 34, 25},
    {"MOV.L over FFFFFF, odd", "01006B2000FFFFFF5470", TOP - 16, TOP, 22, 34, 25},
    {"BSET on a port byte", "7F2070005470", PF, PT, 18, 28, 22}, {"BSET beside", "7F3070005470", PF, PT, 18, 26, 20},
    {"BSET by @ER1", "7D1070005470", PF, PT, 18, 28, 22}, {"BTST on a port byte", "7E2F73005470", PF, PT, 16, 25, 19},
    {"BTST by @ER1", "7C1073005470", PF, PT, 16, 25, 19}, {"BSET in a register", "70195470", PF, PT, 12, 20, 14},
    {"the longer of two ways: ports make it the other one", "47066B00FF0054706A08FF205470", PF, PT, 20, 29, 23},
    {"either way the same with no ports, and with them", "47046910547068185470", PF, PT, 18, 30, 21},
    {"a product beside ports", "52015470", PF, PT, 32, 40, 34},
};

static void figure_by_hand(const struct told *t)
{
    const struct { struct area area; uint32_t figure; } trials[] = {
        {no_ports(t->from), t->none}, {{t->from, t->to, 8}, t->on_8}, {{t->from, t->to, 16}, t->on_16},
    };
    for (size_t i = 0; i < 3; i++) {
        uint32_t n = (uint32_t)strlen(t->code) / 2;
        uint8_t *rom = lend(&rom_lender, n);
        uint64_t *table = lend(&out_lender, 8 * n), *answer = lend(&answer_lender, 32);
        from_hex(t->code, rom);
        uint32_t got = h8_figure(lend_board(0, trials[i].area), H8_BOARD, rom, n, 0, table, n, answer, 4);
        if (got || answer[0] || answer[3] != trials[i].figure || table[0] != trials[i].figure)
            fail("%s (%s), bus %u: %llu, figure %llu; wanted %u", t->what, t->code, trials[i].area.bus, (ull)answer[0], (ull)answer[3],
                 trials[i].figure);
        count(1);
    }
}

/* Both ways of a BEQ are as long with no ports, so it goes on; with them it goes where a port is read. */
static void way_by_ports(void)
{
    for (size_t i = 0; i < 3; i++) {
        struct area a = i == 0 ? no_ports(PF) : (struct area){PF, PT, buses[i - 1]};
        uint8_t *rom = lend(&rom_lender, 14);
        uint64_t *table = lend(&out_lender, 8 * 14), *answer = lend(&answer_lender, 32);
        from_hex("47066B00FF0054706A08FF205470", rom);
        h8_figure(lend_board(0, a), H8_BOARD, rom, 14, 0, table, 14, answer, 4);
        h8_way(lend_board(0, a), H8_BOARD, rom, 14, table, 14, 0, answer, 4);
        if (answer[0] || answer[3] != (i == 0 ? 2 : 8))
            fail("the way with ports %06X to %06X goes to %llX", a.base, a.end, (ull)answer[3]);
        count(1);
    }
}

void test_ports(void)
{
    begin("ports by hand: each kind of access at their first and last place, beside them and over their ends");
    for (size_t i = 0; i < sizeof accesses / sizeof *accesses; i++)
        access_by_hand(&accesses[i]);
    end("steps");
    begin("ports: every form with data in memory, at each place around both ends, on both buses");
    every_form();
    end("steps");
    begin("ports: areas that no board has, each alone and beside other faults, in step and run");
    wrong_areas();
    end("calls");
    begin("ports: boards and areas at their limits");
    for (size_t i = 0; i < sizeof limits / sizeof *limits; i++)
        limit_of(&limits[i]);
    end("steps");
    begin("ports: areas that some board or none could carry, in figure and way");
    carried_areas();
    carried_or_not();
    end("calls");
    begin("ports: boards of too few numbers and of more");
    for (size_t n = 0; n <= 8; n++) {
        boards_of(n);
        short_and_short(n);
    }
    end("calls");
    begin("ports: figures by hand");
    for (size_t i = 0; i < sizeof tolds / sizeof *tolds; i++)
        figure_by_hand(&tolds[i]);
    way_by_ports();
    end("figures");
}
