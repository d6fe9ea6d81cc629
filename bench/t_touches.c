/* What a step touched, without the model: lists by hand in the order made, the empty list of each refusal, answers lent too short; and on
   random states of every form with data in memory that the list is honest: its accesses lie inside, its writes reach every byte that
   changes, its states add up, and on a smaller board the first access that lies outside is the one that is refused. */
#include "bench.h"
#include <stdlib.h>
#include <string.h>

enum { ROM_N = 16, RAM_N = 64, MORE = 3 };

/* BY HAND. Code at 0, its other bytes 0; working memory of 64 bytes from `base` on, all FF; no ports. */
struct listed { const char *what, *code; uint32_t base, er1, er7; const char *list; };
enum { B = 0xFFFFC0 };
static const struct listed lists[] = {
    {"NOP", "0000", B, 0, 0, ""}, {"MOV.B between registers", "0C18", B, 0xFFFFD0, 0, ""}, {"STC", "0209", B, 0, 0, ""},
    {"MULXU.W", "5201", B, 0, 0, ""}, {"a branch", "4000", B, 0, 0, ""}, {"JMP @ER1", "5910", B, 0xFFFFD0, 0, ""}, {"JMP @aa:24", "5A000000", B, 0, 0, ""},
    {"MOV.B @ER1", "6818", B, 0xFFFFD2, 0, "R1 FFFFD2"}, {"MOV.B @ER1, odd", "6818", B, 0xFFFFD3, 0, "R1 FFFFD3"},
    {"MOV.B stored, odd", "6898", B, 0xFFFFD3, 0, "W1 FFFFD3"}, {"MOV.B by a register with a top byte", "6818", B, 0x5AFFFFD3, 0, "R1 FFFFD3"},
    {"MOV.W @ER1", "6910", B, 0xFFFFD2, 0, "R2 FFFFD2"}, {"MOV.W @ER1, odd", "6910", B, 0xFFFFD3, 0, "R2 FFFFD2"},
    {"MOV.W stored, odd", "6990", B, 0xFFFFD3, 0, "W2 FFFFD2"}, {"MOV.W at the last word, odd, a top byte", "6910", B, 0xFFFFFFFF, 0, "R2 FFFFFE"},
    {"MOV.L @ER1", "01006910", B, 0xFFFFD2, 0, "R2 FFFFD2 R2 FFFFD4"}, {"MOV.L @ER1, odd", "01006910", B, 0xFFFFD3, 0, "R2 FFFFD2 R2 FFFFD4"},
    {"MOV.L stored, odd", "01006990", B, 0xFFFFD3, 0, "W2 FFFFD2 W2 FFFFD4"},
    {"MOV.B from code", "6818", B, 5, 0, "R1 000005"}, {"MOV.W from code", "6910", B, 5, 0, "R2 000004"},
    {"MOV.L from code into working memory beside it", "01006910", ROM_N, 14, 0, "R2 00000E R2 000010"},
    {"MOV.L over FFFFFF", "01006910", B, 0xFFFFFE, 0, "R2 FFFFFE R2 000000"}, {"MOV.L over FFFFFF, odd", "01006910", B, 0x12FFFFFF, 0, "R2 FFFFFE R2 000000"},
    {"MOV.L @aa:24 over FFFFFF", "01006B2000FFFFFF", B, 0, 0, "R2 FFFFFE R2 000000"},
    {"MOV.L @(d:16,ER1) over FFFFFF", "01006F100002", B, 0xFFFFFC, 0, "R2 FFFFFE R2 000000"},
    {"MOV.B @(d:16,ER1) up over FFFFFF", "6E180010", B, 0xFFFFF5, 0, "R1 000005"},
    {"MOV.B @ER1+: the address before", "6C18", B, 0xFFFFD3, 0, "R1 FFFFD3"}, {"MOV.W @ER1+", "6D10", B, 0xFFFFD3, 0, "R2 FFFFD2"},
    {"MOV.L @ER1+", "01006D10", B, 0xFFFFD0, 0, "R2 FFFFD0 R2 FFFFD2"},
    {"MOV.B @-ER1: the lowered address", "6C98", B, 0xFFFFD2, 0, "W1 FFFFD1"}, {"MOV.W @-ER1", "6D90", B, 0xFFFFD2, 0, "W2 FFFFD0"},
    {"MOV.W @-ER1, odd", "6D90", B, 0xFFFFD3, 0, "W2 FFFFD0"}, {"MOV.L @-ER1", "01006D90", B, 0xFFFFD4, 0, "W2 FFFFD0 W2 FFFFD2"},
    {"MOV.B @-ER1 from 0", "6C98", B, 0, 0, "W1 FFFFFF"}, {"MOV.W @-ER1 from 1,000,000 hex", "6D90", B, 0x1000000, 0, "W2 FFFFFE"},
    {"MOV.L @-ER1 from 0", "01006D90", B, 0, 0, "W2 FFFFFC W2 FFFFFE"},
    {"PUSH.W", "6DF0", B, 0, 0xFFFFD4, "W2 FFFFD2"}, {"POP.L", "01006D70", B, 0, 0xFFFFD4, "R2 FFFFD4 R2 FFFFD6"},
    {"MOV.B @(d:16,ER1), down", "6E18FFFF", B, 0xFFFFE0, 0, "R1 FFFFDF"}, {"MOV.W stored at @(d:16,ER1), odd", "6F900003", B, 0xFFFFCE, 0, "W2 FFFFD0"},
    {"MOV.L @(d:16,ER1), odd", "01006F100003", B, 0xFFFFCE, 0, "R2 FFFFD0 R2 FFFFD2"},
    {"MOV.B @aa:8", "28D1", B, 0, 0, "R1 FFFFD1"}, {"MOV.B stored at @aa:8", "38D1", B, 0, 0, "W1 FFFFD1"},
    {"MOV.B @aa:16", "6A08FFDF", B, 0, 0, "R1 FFFFDF"}, {"MOV.W @aa:16, odd", "6B00FFD1", B, 0, 0, "R2 FFFFD0"},
    {"MOV.W @aa:16 of code", "6B000005", B, 0, 0, "R2 000004"}, {"MOV.W stored at @aa:24", "6BA000FFFFD0", B, 0, 0, "W2 FFFFD0"},
    {"MOV.L stored at @aa:24, odd", "01006BA000FFFFD1", B, 0, 0, "W2 FFFFD0 W2 FFFFD2"}, {"MOV.L @aa:16", "01006B00FFD4", B, 0, 0, "R2 FFFFD4 R2 FFFFD6"},
    {"BTST in memory reads", "7C107300", B, 0xFFFFD3, 0, "R1 FFFFD3"}, {"BLD @aa:8 reads", "7ED37700", B, 0, 0, "R1 FFFFD3"},
    {"BTST in code", "7C107300", B, 5, 0, "R1 000005"}, {"BSET in a register", "7009", B, 0xFFFFD3, 0, ""},
    {"BSET @ER1 of a bit that is set: read, then written", "7D107000", B, 0xFFFFD3, 0, "R1 FFFFD3 W1 FFFFD3"},
    {"BCLR @aa:8: read, then written", "7FD27210", B, 0, 0, "R1 FFFFD2 W1 FFFFD2"},
    {"BNOT by a register, a top byte", "7D106100", B, 0x77FFFFD3, 0, "R1 FFFFD3 W1 FFFFD3"}, {"BIST @aa:8", "7FFF67F0", B, 0, 0, "R1 FFFFFF W1 FFFFFF"},
    {"RTS", "5470", B, 0, 0xFFFFD4, "R2 FFFFD4 R2 FFFFD6"}, {"RTS, ER7 odd", "5470", B, 0, 0x34FFFFD5, "R2 FFFFD4 R2 FFFFD6"},
    {"RTS over FFFFFF", "5470", B, 0, 0xFFFFFE, "R2 FFFFFE R2 000000"}, {"RTS from code", "5470", B, 0, 4, "R2 000004 R2 000006"},
    {"BSR d:8", "5500", B, 0, 0xFFFFD4, "W2 FFFFD0 W2 FFFFD2"}, {"BSR d:16", "5C000000", B, 0, 0xFFFFD4, "W2 FFFFD0 W2 FFFFD2"},
    {"JSR @ER1", "5D10", B, 0x20, 0xFFFFD4, "W2 FFFFD0 W2 FFFFD2"}, {"JSR @aa:24, ER7 odd", "5E000020", B, 0, 0xFFFFD5, "W2 FFFFD0 W2 FFFFD2"},
    {"JSR, ER7 0", "5E000020", B, 0, 0, "W2 FFFFFC W2 FFFFFE"}, {"JMP @@aa:8", "5B08", B, 0, 0, "R2 000008 R2 00000A"},
    {"JSR @@aa:8: two reads, then two writes", "5F08", B, 0, 0xFFFFD4, "R2 000008 R2 00000A W2 FFFFD0 W2 FFFFD2"},
    {"JSR @@aa:8, odd", "5F09", B, 0, 0xFFFFD5, "R2 000008 R2 00000A W2 FFFFD0 W2 FFFFD2"},
    {"JSR @@aa:8, the vector in working memory", "5F12", ROM_N, 0, 0x30, "R2 000012 R2 000014 W2 00002C W2 00002E"},
    {"JSR @@aa:8 that writes what it read", "5F12", ROM_N, 0, 0x16, "R2 000012 R2 000014 W2 000012 W2 000014"},
};

/* The library's step; what it left stays lent. */
static uint32_t step_on(const struct state *s)
{
    uint8_t *rom = lend(&rom_lender, s->rom_n), *ram = lend(&ram_lender, s->ram_n);
    uint32_t *regs = lend(&regs_lender, 40), *answer = lend_step_answer();
    memcpy(rom, s->rom, s->rom_n);
    memcpy(ram, s->ram, s->ram_n);
    memcpy(regs, s->regs, 40);
    return h8_step(lend_board(s->base, area_of(s)), H8_BOARD, rom, s->rom_n, ram, s->ram_n, regs, 10, answer, H8_STEP_ANSWER);
}

static void list_by_hand(const struct listed *l)
{
    struct state s = {.base = l->base, .rom_n = ROM_N, .ram_n = RAM_N, .regs = {[1] = l->er1, [7] = l->er7}};
    memset(s.ram, 0xFF, RAM_N);
    from_hex(l->code, s.rom);
    step_on(&s);
    const uint32_t *answer = (const uint32_t *)(const void *)answer_lender.now;
    if (answer[0] || strcmp(list_text(answer), l->list))
        fail("%s (%s): %u, touched %s; wanted %s", l->what, l->code, answer[0], list_text(answer), l->list);
    compare_step(&s);
}

/* REFUSALS, some of them after accesses that were made: no list. */
struct refused { const char *what, *code; uint32_t base, er1, er7, pc, condition, number; };
static const struct refused refusals[] = {
    {"PC odd", "0000", B, 0, 0, 1, 0, 1}, {"base odd", "0000", B + 1, 0, 0, 0, 0, 1}, {"PC outside", "0000", B, 0, 0, 0x20, 0, 2},
    {"unknown code", "0001", B, 0, 0, 0, 0, 3}, {"cut short", "7900", B, 0, 0, 14, 0, 4}, {"left-out code", "5670", B, 0, 0, 0, 0, 15},
    {"MOV.B outside", "6818", B, 0x1000, 0, 0, 0, 5}, {"MOV.L, its second word outside", "01006910", 0x100, 0x13E, 0, 0, 0, 5},
    {"RTS, its second word outside", "5470", 0x100, 0, 0x13E, 0, 0, 5}, {"JSR @@aa:8, its vector's second word outside", "5F0E", B, 0, 0xFFFFD4, 0, 0, 5},
    {"MOV.L stored, its second word outside", "01006990", 0x100, 0x13E, 0, 0, 0, 6}, {"MOV.L stored over FFFFFF", "01006990", B, 0xFFFFFE, 0, 0, 0, 6},
    {"JSR @@aa:8 after two reads", "5F08", B, 0, 0x1004, 0, 0, 6}, {"JSR @@aa:8 after two reads and a write", "5F08", 0x100, 0, 0x142, 0, 0, 6},
    {"BSET in code after its read", "7D107000", B, 5, 0, 0, 0, 6}, {"BSET in no memory", "7D107000", B, 0x1000, 0, 0, 0, 5},
    {"BSR with no stack", "5500", B, 0, 0x1004, 0, 0, 6}, {"BSR with a stack in code", "5500", B, 0, 8, 0, 0, 6},
    {"DAA outside its rows", "0F09", B, 0x0F, 0, 0, 0x20, 7}, {"a zero divisor", "5101", B, 0, 0, 0, 0, 14},
};

static void refused_by_hand(const struct refused *r)
{
    struct state s = {.base = r->base, .rom_n = ROM_N, .ram_n = RAM_N, .regs = {[1] = r->er1, [7] = r->er7, [8] = r->pc, [9] = r->condition}};
    from_hex(r->code, s.rom + (r->number == 4 ? 14 : 0));
    step_on(&s);
    const uint32_t *answer = (const uint32_t *)(const void *)answer_lender.now;
    if (answer[0] != r->number || (r->number && (!untouched(answer) || answer[3])))
        fail("%s (%s): %u, touched %u: %s; wanted %u and nothing touched", r->what, r->code, answer[0], answer[H8_COUNT], list_text(answer), r->number);
    compare_step(&s);
}

/* LENT TOO SHORT, AND LONGER: a step that has four accesses. Numbers behind the seventeenth stay. */
static void answer_lengths(void)
{
    for (size_t n = 0; n <= H8_STEP_ANSWER + MORE; n++) {
        uint8_t *rom = lend(&rom_lender, ROM_N), *ram = lend(&ram_lender, RAM_N), kept[RAM_N];
        uint32_t *regs = lend(&regs_lender, 40), *answer = lend(&answer_lender, 4 * n), before[10] = {[7] = 0xFFFFD4};
        memset(rom, 0, ROM_N);
        from_hex("5F08", rom);
        memset(ram, 0x5A, RAM_N);
        memset(kept, 0x5A, RAM_N);
        memcpy(regs, before, 40);
        memset(answer, 0xEE, 4 * n);
        uint32_t got = h8_step(plain_board(B), H8_BOARD, rom, ROM_N, ram, RAM_N, regs, 10, answer, n);
        int right = n < H8_STEP_ANSWER ? got == 13 && !memcmp(regs, before, 40) && !memcmp(ram, kept, RAM_N)
                                       : got == 0 && answer[H8_COUNT] == 4 && regs[7] == 0xFFFFD0 && ram[0x13] == 2;
        for (size_t i = n < H8_STEP_ANSWER ? 0 : H8_STEP_ANSWER; i < n; i++)
            right &= answer[i] == 0xEEEEEEEE;
        if (!right || !guards_stand(&answer_lender) || !guards_stand(&ram_lender) || !guards_stand(&regs_lender))
            fail("an answer of %zu numbers: %u, or something else is written than should be", n, got);
        count(1);
    }
}

/* HONEST LISTS. On a large board, working memory from FFFC00 up to 2^24; and on a smaller one that is a part of it. */
enum { LARGE = 0xFFFC00, CODE = 256 };

static uint32_t cycles(int form, const char *letters)
{
    uint32_t n = 0;
    for (const char *p = forms[form].cycles; *p; p++)
        if (strchr(letters, *p) && *p != ' ')
            n += (uint32_t)strtoul(p + 1, NULL, 10);
    return n;
}

/* A step of the form, its registers and absolute addresses mostly in the large working memory. */
static void make_step(struct state *s, int form)
{
    uint8_t code[8];
    memset(s, 0, sizeof *s);
    s->ports = 1;
    s->base = LARGE;
    s->rom_n = CODE;
    s->ram_n = SMALL;
    s->area = some_area(LARGE, SMALL);
    for (uint32_t i = 0; i < CODE; i++)
        s->rom[i] = (uint8_t)any();
    for (uint32_t i = 0; i < SMALL; i++)
        s->ram[i] = (uint8_t)any();
    for (int i = 0; i < 8; i++)
        s->regs[i] = (below(8) ? LARGE + below(SMALL) : below(2) ? below(CODE) : 0xFFFFF8 + below(12)) | (uint32_t)any() << 24;
    uint32_t value = forms[form].form == H8_DISP && forms[form].kind == H8_MOVE ? below(48) - 24 : below(8) ? LARGE + below(SMALL) : below(CODE);
    int n = build(form, (uint32_t)any(), value, (uint32_t)any(), code);
    s->regs[H8_PC] = 2 * below((CODE - (uint32_t)n) / 2);
    s->regs[H8_CONDITION] = below(256);
    memcpy(s->rom + s->regs[H8_PC], code, (size_t)n);
}

static int in_working(const struct state *s, uint32_t a) { return a >= s->base && a - s->base < s->ram_n; }

/* Whether the access may be made there. */
static int lies_inside(const struct state *s, const uint32_t *access)
{
    return in_working(s, access[H8_ADDRESS]) || (!access[H8_WRITE] && access[H8_ADDRESS] < s->rom_n);
}

static int reached(const uint32_t *answer, uint32_t a)
{
    for (uint32_t i = 0; i < answer[H8_COUNT]; i++) {
        const uint32_t *t = answer + H8_ACCESSES + H8_ACCESS * i;
        if (t[H8_WRITE] && a - t[H8_ADDRESS] < t[H8_BYTES])
            return 1;
    }
    return 0;
}

/* Of a completed step: as many accesses as the columns of table 2.6 say, inside, even where they are words; no other byte changed. */
static void honest(const struct state *s, int form, const uint32_t *answer)
{
    uint32_t bytes = 0, words = 0;
    for (uint32_t i = 0; i < answer[H8_COUNT] && i < TOUCHES; i++) {
        const uint32_t *t = answer + H8_ACCESSES + H8_ACCESS * i;
        t[H8_BYTES] == 1 ? bytes++ : words++;
        if (t[H8_BYTES] - 1 > 1 || t[H8_WRITE] > 1 || (t[H8_BYTES] == 2 && t[H8_ADDRESS] % 2) || !lies_inside(s, t))
            fail("%s: access %u is %u bytes at %X, write %u", forms[form].name, i, t[H8_BYTES], t[H8_ADDRESS], t[H8_WRITE]);
    }
    if (bytes != cycles(form, "L") || words != cycles(form, "JKM") || answer[3] != states_by_list(form, area_of(s), answer))
        fail("%s: %u states and %u accesses: %s", forms[form].name, answer[3], answer[H8_COUNT], list_text(answer));
    for (uint32_t i = 0; i < s->ram_n; i++)
        if (ram_lender.now[i] != s->ram[i] && !reached(answer, s->base + i))
            fail("%s: the byte at %06X changed, which no write of the list reaches: %s", forms[form].name, s->base + i, list_text(answer));
}

/* The same state on a smaller board: the first access of the list that lies outside it is refused, as a read or a write; if none does the
   list is the same. */
static uint32_t smaller(const struct state *large, int form, const uint32_t list[H8_STEP_ANSWER])
{
    struct state s = *large;
    uint32_t from = 2 * below(SMALL / 2), number = 0, place = 0;
    s.ports = 0;
    s.base = LARGE + from;
    s.ram_n = 2 * below((SMALL - from) / 2 + 1);
    if (below(3)) {                         /* an end of it at an access */
        uint32_t a = list[H8_ACCESSES] & ~1u, to = below(2) ? SMALL : 0;
        a = a < LARGE ? LARGE : a;
        s.base = to ? a + 2 * below(3) - 2 : LARGE;
        s.base = s.base < LARGE ? LARGE : s.base;
        s.ram_n = (to ? LARGE + SMALL - s.base : a - LARGE + 2 * below(2)) & ~1u;
    }
    memcpy(s.ram, large->ram + (s.base - LARGE), s.ram_n);
    for (uint32_t i = 0; i < list[H8_COUNT] && !number; i++) {
        const uint32_t *t = list + H8_ACCESSES + H8_ACCESS * i;
        if (!lies_inside(&s, t))
            number = t[H8_WRITE] ? 6 : 5, place = t[H8_ADDRESS];
    }
    step_on(&s);
    const uint32_t *answer = (const uint32_t *)(const void *)answer_lender.now;
    int same = number ? untouched(answer) : !memcmp(answer + H8_COUNT, list + H8_COUNT, 4 * (H8_STEP_ANSWER - H8_COUNT));
    if (answer[0] != number || answer[1] != place || !same) {
        fail("%s on a smaller board: %u at %06X, touched %s; wanted %u at %06X", forms[form].name, answer[0], answer[1], list_text(answer), number, place);
        say("working memory %06X to %06X; on the larger board it touched %s", s.base, s.base + s.ram_n, list_text(list));
    }
    count(1);
    return number;
}

static void honest_form(int form, uint64_t numbers[16])
{
    struct state s;
    uint32_t list[H8_STEP_ANSWER], done = 0;
    for (int k = 0; (k < 300 || done < 100) && k < 3000 && !failing(); k++) {
        make_step(&s, form);
        uint32_t got = step_on(&s);
        const uint32_t *answer = (const uint32_t *)(const void *)answer_lender.now;
        numbers[got]++;
        count(1);
        if (got) {
            if (!untouched(answer))
                fail("%s refused by %u has a list: %s", forms[form].name, got, list_text(answer));
            continue;
        }
        done++;
        honest(&s, form, answer);
        memcpy(list, answer, sizeof list);
        numbers[smaller(&s, form, list)]++;
    }
    if (done < 100 && !failing())
        fail("only %u steps of %s were completed", done, forms[form].name);
}

void test_touches(void)
{
    uint64_t numbers[16] = {0};
    int found = 0;
    begin("accesses of a step by hand, in the order made");
    for (size_t i = 0; i < sizeof lists / sizeof *lists; i++)
        list_by_hand(&lists[i]);
    end("steps");
    begin("accesses of a refused step: none");
    for (size_t i = 0; i < sizeof refusals / sizeof *refusals; i++)
        refused_by_hand(&refusals[i]);
    end("steps");
    begin("accesses of a step in answers of every length");
    answer_lengths();
    end("calls");
    begin("accesses of a step without the model: inside, of the columns' number, reaching all that changes; the first outside is refused");
    for (int form = 0; form < FORMS && !failing(); form++)
        if (cycles(form, "JKLM") && ++found)
            honest_form(form, numbers);
    if (!failing() && (found != 75 || numbers[5] < 1000 || numbers[6] < 1000))
        fail("%d forms; %llu refused by 5 and %llu by 6", found, (unsigned long long)numbers[5], (unsigned long long)numbers[6]);
    end("steps");
    note("completed %llu; refused by 5 and 6: %llu %llu", (unsigned long long)numbers[0], (unsigned long long)numbers[5],
         (unsigned long long)numbers[6]);
}
