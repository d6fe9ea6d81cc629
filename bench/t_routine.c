/* The run that keeps pushed addresses, h8_routine: by hand, against the model's loop on random programs, and with wrong arguments. */
#include "bench.h"
#include <inttypes.h>
#include <string.h>

typedef unsigned long long ull;
enum { MORE = 2, MARK = 0xC3 };

/* Both run from the same state and are compared whole. */
static void wanted_answer(const struct routine *r, uint64_t answer[H8_ROUTINE_ANSWER])
{
    const uint64_t first[7] = {r->number, r->place, r->group, r->steps, r->states, (uint64_t)r->ending, r->count};
    memcpy(answer, first, sizeof first);
    for (uint32_t i = 0; i < H8_KEPT_MAX; i++)
        answer[7 + i] = i < r->count ? r->kept[i] : 0;
}

static void show_answer(const char *title, const uint64_t *a)
{
    say("%s number %llu place %llX group %llu steps %llu states %llu ending %llu; kept %llu: %llX %llX %llX %llX %llX %llX %llX %llX", title, (ull)a[0],
        (ull)a[1], (ull)a[2], (ull)a[3], (ull)a[4], (ull)a[5], (ull)a[6], (ull)a[7], (ull)a[8], (ull)a[9], (ull)a[10], (ull)a[11], (ull)a[12],
        (ull)a[13], (ull)a[14]);
}

struct routine compare_routine(const struct board *b, uint32_t regs[10], uint32_t stop, uint32_t budget)
{
    uint8_t *ram = lend(&ram_lender, b->ram_n);
    uint32_t *lent = lend(&regs_lender, 40), before[10];
    uint64_t *answer = lend(&answer_lender, 8 * H8_ROUTINE_ANSWER), wanted[H8_ROUTINE_ANSWER];
    memcpy(ram, b->ram, b->ram_n);
    memcpy(lent, regs, 40);
    memcpy(before, regs, 40);
    memset(answer, 0xEE, 8 * H8_ROUTINE_ANSWER);
    uint32_t got = h8_routine(lend_board(b->base, b->area), H8_BOARD, b->rom, b->rom_n, ram, b->ram_n, lent, 10, stop, budget, answer,
                              H8_ROUTINE_ANSWER);
    struct routine r = model_routine(b, regs, stop, budget);
    wanted_answer(&r, wanted);
    if (got != r.number || memcmp(answer, wanted, sizeof wanted) || memcmp(lent, regs, 40) || memcmp(ram, b->ram, b->ram_n)
        || !guards_stand(&ram_lender) || !guards_stand(&regs_lender) || !guards_stand(&answer_lender)) {
        fail("a run of a routine differs from the model's");
        say("board: read-only %zu, working %zu at %06X, ports %06X to %06X, bus %u; stop %X, budget %u", b->rom_n, b->ram_n, b->base, b->area.base,
            b->area.end, b->area.bus, stop, budget);
        show_registers("before", before);
        show_registers("after, library", lent);
        show_registers("after, model", regs);
        show_code(b->rom, b->rom_n, regs[H8_PC]);
        show_answer("library:", answer);
        show_answer("model:  ", wanted);
        say("memory is %s", memcmp(ram, b->ram, b->ram_n) ? "not the same" : "the same");
    }
    count(1);
    return r;
}

/* BY HAND. Working memory of 64 bytes from 1000 on, all 00; ER0 and ER1 and ER7 as told, and PC at `entry`. */
struct mode {
    const char *what, *code;
    uint32_t er0, er1, er7, entry, stop, budget;
    uint32_t number, place, steps, states, ending, pc, er7_after;
    const char *kept;
};
#define NEVER 0xFFFFFFFF, 1000
static const struct mode modes[] = {
    {"RTS alone", "5470", 0, 0, 0x1020, 0, NEVER, 0, 0, 1, 10, H8_RETURNED, 0, 0x1024, ""},
    {"a call and its return", "550254700B505470", 0, 0, 0x1020, 0, NEVER, 0, 0, 4, 30, H8_RETURNED, 0, 0x1024, ""},
    {"a call, and the budget spent in the routine", "550254700B505470", 0, 0, 0x1020, 0, 0xFFFFFFFF, 2, 0, 0, 2, 10, H8_SPENT, 6, 0x101C, "2"},
    {"the budget spent at the return", "5470", 0, 0, 0x1020, 0, 0xFFFFFFFF, 0, 0, 0, 0, 0, H8_SPENT, 0, 0x1020, ""},
    {"the stop address at the return", "5470", 0, 0, 0x1020, 0, 0, 1000, 0, 0, 0, 0, H8_STOPPED, 0, 0x1020, ""},
    {"the stop address before the budget", "5470", 0, 0, 0x1020, 0, 0, 0, 0, 0, 0, 0, H8_STOPPED, 0, 0x1020, ""},
    {"the stop address where it returns to: it has returned", "00005470", 0, 0, 0x1020, 2, 0, 1000, 0, 0, 1, 10, H8_RETURNED, 0, 0x1024, ""},
    {"the stop address behind a call", "550254700B505470", 0, 0, 0x1020, 0, 2, 1000, 0, 0, 3, 20, H8_STOPPED, 2, 0x1020, ""},
    {"the stop address in the routine", "550254700B505470", 0, 0, 0x1020, 0, 4, 1000, 0, 0, 1, 8, H8_STOPPED, 4, 0x101C, "2"},
    {"its return address overwritten: elsewhere", "550254706FF000025470", 0x40, 0, 0x1020, 0, NEVER, 0, 0, 2, 14, H8_ELSEWHERE, 8, 0x101C, "2"},
    {"overwritten with the same but odd: returned", "550254706FF000025470", 3, 0, 0x1020, 0, NEVER, 0, 0, 4, 34, H8_RETURNED, 0, 0x1024, ""},
    {"its first byte overwritten: returned", "5502547068F85470", 0x77, 0, 0x1020, 0, NEVER, 0, 0, 4, 32, H8_RETURNED, 0, 0x1024, ""},
    {"its second byte overwritten: elsewhere", "550254706EF800015470", 0x77, 0, 0x1020, 0, NEVER, 0, 0, 2, 14, H8_ELSEWHERE, 8, 0x101C, "2"},
    {"ER7 raised by four, to another call's address: elsewhere", "5502547055025470" "0B970000" "5470", 0, 0, 0x1020, 0, NEVER, 0, 0, 4, 20, H8_ELSEWHERE,
     0x0C, 0x101C, "2 6"},
    {"the stack outside: 5 before elsewhere", "550254707A07000020005470", 0, 0, 0x1020, 0, NEVER, 5, 0x2000, 2, 14, H8_REFUSED, 0x0A, 0x2000, "2"},
    {"the stack's second word outside: 5", "550254707A070000103E5470", 0, 0, 0x1020, 0, NEVER, 5, 0x1040, 2, 14, H8_REFUSED, 0x0A, 0x103E, "2"},
    {"RTS outside with none kept: 5", "5470", 0, 0, 0x2000, 0, NEVER, 5, 0x2000, 0, 0, H8_REFUSED, 0, 0x2000, ""},
    {"a ninth address", "55FE5470", 0, 0, 0x1030, 0, NEVER, 0, 0, 8, 64, H8_NINTH, 0, 0x1010, "2 2 2 2 2 2 2 2"},
    {"the last eight fill the stack: the ninth is 6", "55FE5470", 0, 0, 0x1020, 0, NEVER, 6, 0xFFC, 8, 64, H8_REFUSED, 0, 0x1000, "2 2 2 2 2 2 2 2"},
    {"the ninth's upper word outside: 6", "55FE5470", 0, 0, 0x1022, 0, NEVER, 6, 0xFFE, 8, 64, H8_REFUSED, 0, 0x1002, "2 2 2 2 2 2 2 2"},
    {"room for nine just so: ninth", "55FE5470", 0, 0, 0x1024, 0, NEVER, 0, 0, 8, 64, H8_NINTH, 0, 0x1004, "2 2 2 2 2 2 2 2"},
    {"the budget before the ninth", "55FE5470", 0, 0, 0x1030, 0, 0xFFFFFFFF, 8, 0, 0, 8, 64, H8_SPENT, 0, 0x1010, "2 2 2 2 2 2 2 2"},
    {"the stop address before the ninth: not at first", "000055FC5470", 0, 0, 0x1030, 2, 0, 1000, 0, 0, 1, 8, H8_STOPPED, 0, 0x102C, "4"},
    {"JSR @@aa:8 as the ninth, its vector outside: 5", "55FE5FFE", 0, 0, 0x1030, 2, NEVER, 5, 0xFE, 0, 0, H8_REFUSED, 2, 0x1030, ""},
    {"PUSH.L is not kept: the return takes what it pushed", "01006DF05470", 0x1234, 0, 0x1020, 0, NEVER, 0, 0, 2, 20, H8_RETURNED, 0x1234, 0x1020, ""},
    {"PUSH.L in a routine: elsewhere", "5502547001006DF05470", 0x1234, 0, 0x1020, 0, NEVER, 0, 0, 2, 18, H8_ELSEWHERE, 8, 0x1018, "2"},
    {"PUSH.L of the kept address: the return takes it off", "5502547001006DF05470", 2, 0, 0x1020, 0, NEVER, 0, 0, 4, 38, H8_RETURNED, 2, 0x1020, ""},
    {"JSR @ER1 is kept", "5D1054700B505470", 0, 4, 0x1020, 0, NEVER, 0, 0, 4, 30, H8_RETURNED, 0, 0x1024, ""},
    {"JSR @ER1 is kept, shown", "5D1054700B505470", 0, 4, 0x1020, 0, 4, 1000, 0, 0, 1, 8, H8_STOPPED, 4, 0x101C, "2"},
    {"JSR @@aa:8 is kept", "5F08547054700000000000040000", 0, 0, 0x1020, 0, 4, 1000, 0, 0, 1, 12, H8_STOPPED, 4, 0x101C, "2"},
    {"BSR d:16 and JSR @aa:24 are kept, in order", "5C00000254705E00000C5470" "0000", 0, 0, 0x1020, 0, 0x0C, 1000, 0, 0, 2, 20, H8_STOPPED, 0x0C, 0x1018,
     "4 A"},
    {"a refused call is not kept", "5502547055FA5470", 0, 0, 0x1004, 0, NEVER, 6, 0xFFC, 1, 8, H8_REFUSED, 4, 0x1000, "2"},
    {"a return, a call and a return", "5504550254705470", 0, 0, 0x1020, 0, NEVER, 0, 0, 5, 46, H8_RETURNED, 0, 0x1024, ""},
    {"an unknown code in the routine", "550254700001", 0, 0, 0x1020, 0, NEVER, 3, 4, 1, 8, H8_REFUSED, 4, 0x101C, "2"},
    {"JMP out of a routine to a return: it returns there", "550454705470" "5A000004", 0, 0, 0x1020, 0, NEVER, 0, 0, 4, 34, H8_RETURNED, 0, 0x1024, ""},
    {"DIVXU by zero in the routine", "5502547051815470", 0, 0, 0x1020, 0, NEVER, 14, 4, 1, 8, H8_REFUSED, 4, 0x101C, "2"},
};

static const char *kept_text(const uint64_t *a)
{
    static char text[80];
    static const char digits[] = "0123456789ABCDEF";
    char *p = text;
    for (uint64_t i = 0; i < a[6] && i < H8_KEPT_MAX; i++) {
        if (i)
            *p++ = ' ';
        if (a[7 + i] > 15)
            *p++ = digits[a[7 + i] >> 4 & 15];
        *p++ = digits[a[7 + i] & 15];
    }
    *p = 0;
    return text;
}

static void mode_by_hand(const struct mode *m)
{
    uint8_t own[64] = {0}, *ram = lend(&ram_lender, 64), bytes[32];
    uint32_t n = from_hex(m->code, bytes), *regs = lend(&regs_lender, 40), mine[10] = {m->er0, m->er1, [7] = m->er7, [H8_PC] = m->entry};
    uint8_t *rom = lend(&rom_lender, n);
    uint64_t *a = lend(&answer_lender, 8 * (H8_ROUTINE_ANSWER + MORE));
    memcpy(rom, bytes, n);
    memset(ram, 0, 64);
    memset(a, 0xEE, 8 * (H8_ROUTINE_ANSWER + MORE));
    memcpy(regs, mine, 40);
    uint32_t got = h8_routine(plain_board(0x1000), H8_BOARD, rom, n, ram, 64, regs, 10, m->stop, m->budget, a, H8_ROUTINE_ANSWER + MORE);
    int right = got == m->number && a[0] == m->number && a[1] == m->place && a[2] == 0 && a[3] == m->steps && a[4] == m->states
        && a[5] == m->ending && regs[H8_PC] == m->pc && regs[7] == m->er7_after && !strcmp(kept_text(a), m->kept);
    for (uint64_t i = a[6]; i < H8_KEPT_MAX; i++)
        right &= a[7 + i] == 0;
    right &= a[H8_ROUTINE_ANSWER] == 0xEEEEEEEEEEEEEEEE && a[H8_ROUTINE_ANSWER + 1] == 0xEEEEEEEEEEEEEEEE;
    if (!right) {
        fail("%s (%s): %llu at %llX, %llu steps, %llu states, ending %llu, PC %X, ER7 %X, kept %s", m->what, m->code, (ull)a[0], (ull)a[1], (ull)a[3],
             (ull)a[4], (ull)a[5], regs[H8_PC], regs[7], kept_text(a));
        say("wanted %u at %X, %u steps, %u states, ending %u, PC %X, ER7 %X, kept %s", m->number, m->place, m->steps, m->states, m->ending, m->pc,
            m->er7_after, m->kept);
    }
    struct board b = {0x1000, rom, n, own, 64, no_ports(0x1000)};
    compare_routine(&b, mine, m->stop, m->budget);
}

/* A million steps in the mode, a budget of one more, and a loop of calls and returns. */
static void budgets(void)
{
    static const struct { const char *code; uint32_t budget, number; uint64_t steps, states; int ending; } runs[] = {
        {"40FE", 1000000, 0, 1000000, 4000000, H8_SPENT}, {"40FE", 1000001, 12, 0, 0, H8_REFUSED},
        {"550240FC5470", 999999, 0, 999999, 7333326, H8_SPENT}, {"550240FC5470", 1000000, 0, 1000000, 7333334, H8_SPENT},
    };
    for (size_t i = 0; i < sizeof runs / sizeof *runs; i++) {
        uint8_t *rom = lend(&rom_lender, 6), *ram = lend(&ram_lender, 64);
        uint32_t *regs = lend(&regs_lender, 40), n = (uint32_t)strlen(runs[i].code) / 2;
        uint64_t *a = lend(&answer_lender, 8 * H8_ROUTINE_ANSWER);
        memset(regs, 0, 40);
        memset(ram, 0, 64);
        from_hex(runs[i].code, rom);
        regs[7] = 0x1020;
        uint32_t got = h8_routine(plain_board(0x1000), H8_BOARD, rom, n, ram, 64, regs, 10, 0xFFFFFFFF, runs[i].budget, a, H8_ROUTINE_ANSWER);
        if (got != runs[i].number || a[0] != got || a[3] != runs[i].steps || a[4] != runs[i].states || a[5] != (uint64_t)runs[i].ending)
            fail("%s with a budget of %u: %llu, %llu steps, %llu states, ending %llu", runs[i].code, runs[i].budget, (ull)a[0], (ull)a[3], (ull)a[4],
                 (ull)a[5]);
        count(1);
    }
}

/* RANDOM PROGRAMS with many calls, returns, and writes on the stack. */
static uint64_t endings[H8_ELSEWHERE + 1], kept_refused[24], at_ninth, deepest[9];

static int some_code(uint8_t code[8], uint32_t at, uint32_t n, uint32_t deep)
{
    uint32_t to = 2 * below(n / 2), d = to - (at + 2), kind = below(20);
    if (kind < deep) {
        static const uint8_t registers[] = {1, 2, 3};
        switch (below(5)) {
        case 0: return code[0] = 0x55, code[1] = (uint8_t)d, 2;
        case 1: return code[0] = 0x5C, code[1] = 0, code[2] = (uint8_t)((d - 2) >> 8), code[3] = (uint8_t)(d - 2), 4;
        case 2: return code[0] = 0x5D, code[1] = (uint8_t)(registers[below(3)] << 4), 2;
        case 3: return code[0] = 0x5E, code[1] = 0, code[2] = 0, code[3] = (uint8_t)to, 4;
        default: return code[0] = 0x5F, code[1] = (uint8_t)(4 * below(4)), 2;
        }
    }
    switch (kind) {
    case 14: return memcpy(code, (const uint8_t[]){0x01, 0x00, 0x6D, 0xF0}, 4), 4;                 /* PUSH.L ER0 */
    case 15: return memcpy(code, (const uint8_t[]){0x01, 0x00, 0x6D, 0x74}, 4), 4;                 /* POP.L ER4 */
    case 16: return memcpy(code, (const uint8_t[]){0x6F, 0xF0, 0x00, (uint8_t)(2 * below(3))}, 4), 4;   /* MOV.W R0,@(d:16,ER7) */
    case 17: return memcpy(code, (const uint8_t[]){0x0B, 0x97}, 2), 2;                             /* ADDS #4,ER7 */
    case 18: return memcpy(code, (const uint8_t[]){(uint8_t)(0x40 + below(16)), (uint8_t)(2 * below(8))}, 2), 2;
    case 19: return build((int)below(ONWARD), (uint32_t)any(), (uint32_t)any(), (uint32_t)any(), code);
    default: return memcpy(code, below(2) ? (const uint8_t[]){0x54, 0x70} : (const uint8_t[]){0x0B, 0x50}, 2), 2;
    }
}

static void random_routine(void)
{
    static uint8_t ram[128];
    uint32_t regs[10], rom_n = 2 * (12 + below(30)), ram_n = 2 * (8 + below(56)), deep = 1 + below(12);
    uint8_t *rom = lend(&rom_lender, rom_n);
    struct board b = {below(2) ? rom_n : 0xFFFF00, rom, rom_n, ram, ram_n, {0}};
    b.area = some_area(b.base, ram_n);
    memset(rom, 0, rom_n);
    for (uint32_t i = 3; i < 16; i += 4)
        rom[i] = (uint8_t)(2 * below(rom_n / 2));           /* four vectors */
    for (uint32_t at = 16; at + 8 <= rom_n;) {
        uint8_t code[8];
        int n = some_code(code, at, rom_n, deep);
        memcpy(rom + at, code, (size_t)n);
        at += (uint32_t)n;
    }
    rom[rom_n - 2] = 0x54, rom[rom_n - 1] = 0x70;
    for (uint32_t i = 0; i < ram_n; i++)
        ram[i] = (uint8_t)any();
    for (int i = 0; i < 8; i++)
        regs[i] = below(3) ? 2 * below(rom_n / 2) : b.base + below(ram_n);
    regs[7] = b.base + (below(8) ? ram_n / 2 + below(ram_n / 2) : below(ram_n + 8));
    regs[H8_PC] = 16 + 2 * below((rom_n - 16) / 2);
    regs[H8_CONDITION] = below(256);
    struct routine r = compare_routine(&b, regs, below(4) ? 0xFFFFFFFF : 2 * below(rom_n / 2), below(4) ? 400 : below(20));
    endings[r.ending]++;
    deepest[r.deepest]++;
    kept_refused[r.number] += r.count > 0;
    at_ninth += r.number == 6 && r.count == 8;
}

/* WRONG ARGUMENTS: wrong boards, lengths and budgets, in their order; nothing but the answer is written. */
struct wrong { const char *what; uint32_t base; size_t rom_n, ram_n; uint32_t pc, condition, number; };
static const struct wrong wrongs[] = {
    {"read-only memory odd", 0x100, 15, 16, 0, 0, 1}, {"working memory odd", 0x100, 16, 15, 0, 0, 1}, {"base odd", 0x101, 16, 16, 0, 0, 1},
    {"base inside read-only memory", 14, 16, 16, 0, 0, 1}, {"end above 2^24", 0xFFFFF2, 16, 16, 0, 0, 1}, {"PC odd", 0x100, 16, 16, 3, 0, 1},
    {"PC at 2^24", 0x100, 16, 16, 0x01000000, 0, 1}, {"condition number 256", 0x100, 16, 16, 0, 256, 1}, {"board right", 0x100, 16, 16, 0, 0x5A, 0},
};

static void wrong_with(const struct wrong *w, size_t regs_n, size_t answer_n, uint32_t budget)
{
    uint8_t *rom = lend(&rom_lender, 16), *ram = lend(&ram_lender, 16), was[16];
    uint32_t *regs = lend(&regs_lender, 4 * regs_n), regs_was[12], number;
    uint64_t *a = lend(&answer_lender, 8 * answer_n);
    memset(rom, 0, 16);
    memset(ram, MARK, 16);
    memset(was, MARK, 16);
    memset(a, MARK, 8 * answer_n);
    for (size_t i = 0; i < regs_n; i++)
        regs[i] = i == H8_PC ? w->pc : i == H8_CONDITION ? w->condition : 0x104 + (uint32_t)i;
    memcpy(regs_was, regs, 4 * regs_n);
    uint32_t got = h8_routine(far_board(w->base, w->ram_n), H8_BOARD, rom, w->rom_n, ram, w->ram_n, regs, regs_n, 0xFFFFFFFF, budget, a, answer_n);
    number = answer_n < H8_ROUTINE_ANSWER || regs_n < 10 ? 13 : budget > 1000000 ? 12 : w->number;
    int right = got == number && !memcmp(ram, was, 16) && !memcmp(regs, regs_was, 4 * regs_n);
    for (size_t i = 0; i < answer_n; i++) {
        uint64_t named = i == 0 ? number : i == 1 && number == 13 ? 10 : i == 5 ? number ? H8_REFUSED : H8_SPENT : 0;
        right &= a[i] == (answer_n < H8_ROUTINE_ANSWER || i >= H8_ROUTINE_ANSWER ? 0xC3C3C3C3C3C3C3C3 : named);
    }
    if (!right || !guards_stand(&answer_lender) || !guards_stand(&regs_lender) || !guards_stand(&ram_lender))
        fail("%s, %zu registers, an answer of %zu, budget %u: %u, wanted %u, or something is written", w->what, regs_n, answer_n, budget, got, number);
    count(1);
}

static void wrong_arguments(void)
{
    for (size_t i = 0; i < sizeof wrongs / sizeof *wrongs; i++)
        for (size_t regs_n = 0; regs_n <= 12; regs_n++)
            for (size_t answer_n = 0; answer_n <= H8_ROUTINE_ANSWER + MORE; answer_n++)
                for (uint32_t budget = 0; budget <= 1000001; budget += 1000001)
                    wrong_with(&wrongs[i], regs_n, answer_n, budget);
}

void test_routine(void)
{
    begin("runs of a routine by hand: returned, a ninth address, a return elsewhere, refusals before them");
    for (size_t i = 0; i < sizeof modes / sizeof *modes; i++)
        mode_by_hand(&modes[i]);
    budgets();
    end("runs");
    begin("runs of a routine of random programs against the model's loop");
    for (int k = 0; k < 60000 && !failing(); k++)
        random_routine();
    for (int i = 0; i <= H8_ELSEWHERE && !failing(); i++)
        if (endings[i] < 500)
            fail("only %llu runs had ending %d", (ull)endings[i], i);
    if (!failing() && (at_ninth < 20 || kept_refused[5] < 100 || kept_refused[6] < 100 || deepest[8] < 500))
        fail("too few runs with addresses kept: 5 %llu, 6 %llu, 6 at a ninth %llu, eight deep %llu", (ull)kept_refused[5], (ull)kept_refused[6],
             (ull)at_ninth, (ull)deepest[8]);
    end("runs");
    note("stopped, spent, refused, returned, ninth, elsewhere: %" PRIu64 " %" PRIu64 " %" PRIu64 " %" PRIu64 " %" PRIu64 " %" PRIu64, endings[0],
         endings[1], endings[2], endings[3], endings[4], endings[5]);
    note("with addresses kept refused by 5, 6, and 6 at a ninth: %" PRIu64 " %" PRIu64 " %" PRIu64, kept_refused[5], kept_refused[6], at_ninth);
    begin("bad input: routine");
    wrong_arguments();
    end("calls");
}
