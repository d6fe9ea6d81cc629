/* Lengths, bases, budgets, ends of memory and branch reaches at their limits, with the wanted numbers written out. */
#include "bench.h"
#include <string.h>
#include <sys/mman.h>

enum { TOP = 16777216 };

/* A board of zeros (NOP), a PC and a condition number: what a step and a run answer. */
struct limit {
    const char *what;
    size_t rom_n;
    uint32_t base;
    size_t ram_n;
    uint32_t pc, condition, number, place;
};
static const struct limit limits[] = {
    {"read-only memory of 524,288", 524288, 524288, 0, 524286, 0, 0, 0},
    {"read-only memory of 524,290", 524290, 524290, 0, 0, 0, 1, 0},
    {"read-only memory of 524,289", 524289, 524290, 0, 0, 0, 1, 0},
    {"read-only memory of 524,287", 524287, 524288, 0, 0, 0, 1, 0},
    {"read-only memory of 1", 1, 2, 0, 0, 0, 1, 0},
    {"read-only memory of 2", 2, 2, 0, 0, 0, 0, 0},
    {"read-only memory empty", 0, 0, 2, 0, 0, 2, 0},
    {"both memories empty", 0, 0, 0, 0, 0, 2, 0},
    {"working memory of 65,536", 2, 2, 65536, 0, 0, 0, 0},
    {"working memory of 65,538", 2, 2, 65538, 0, 0, 1, 0},
    {"working memory of 65,537", 2, 2, 65537, 0, 0, 1, 0},
    {"working memory of 65,535", 2, 2, 65535, 0, 0, 1, 0},
    {"working memory of 1", 2, 2, 1, 0, 0, 1, 0},
    {"both memories at their longest", 524288, 524288, 65536, 2, 0, 0, 0},
    {"base at the end of read-only memory", 4, 4, 2, 0, 0, 0, 0},
    {"base two below it", 4, 2, 2, 0, 0, 1, 0},
    {"base odd", 4, 5, 2, 0, 0, 1, 0},
    {"base below, working memory empty", 4, 2, 0, 0, 0, 1, 0},
    {"base odd, working memory empty", 4, 5, 0, 0, 0, 1, 0},
    {"working memory ends at 2^24", 2, TOP - 65536, 65536, 0, 0, 0, 0},
    {"working memory ends at 2^24 + 2", 2, TOP - 65534, 65536, 0, 0, 1, 0},
    {"working memory of 2 ends at 2^24", 2, TOP - 2, 2, 0, 0, 0, 0},
    {"working memory begins at 2^24", 2, TOP, 2, 0, 0, 1, 0},
    {"working memory empty at 2^24", 2, TOP, 0, 0, 0, 0, 0},
    {"working memory empty at 2^24 + 2", 2, TOP + 2, 0, 0, 0, 1, 0},
    {"base FFFFFFFE, so that the end wraps", 2, 0xFFFFFFFE, 2, 0, 0, 1, 0},
    {"base FFFFFFFE, working memory empty", 2, 0xFFFFFFFE, 0, 0, 0, 1, 0},
    {"base FFFF0000, working memory of 65,536", 2, 0xFFFF0000, 65536, 0, 0, 1, 0},
    {"PC odd", 4, 4, 0, 1, 0, 1, 0},
    {"PC odd and outside", 4, 4, 0, 0xFFFFFF, 0, 1, 0},
    {"PC 2^24", 4, 4, 0, TOP, 0, 1, 0},
    {"PC 2^24 + 2", 4, 4, 0, TOP + 2, 0, 1, 0},
    {"PC FFFFFFFE", 4, 4, 0, 0xFFFFFFFE, 0, 1, 0},
    {"PC FFFFFE", 4, 4, 0, 0xFFFFFE, 0, 2, 0xFFFFFE},
    {"PC at the end of read-only memory", 4, 4, 2, 4, 0, 2, 4},
    {"PC in working memory", 4, 4, 4, 6, 0, 2, 6},
    {"PC at the last place", 4, 4, 2, 2, 0, 0, 0},
    {"condition number 255", 2, 2, 0, 0, 255, 0, 0},
    {"condition number 256", 2, 2, 0, 0, 256, 1, 0},
    {"condition number FFFFFFFF", 2, 2, 0, 0, 0xFFFFFFFF, 1, 0},
};

static int zero(const uint8_t *p, size_t n)
{
    for (size_t i = 0; i < n; i++)
        if (p[i])
            return 0;
    return 1;
}

static void lend_registers(uint32_t **regs, uint32_t pc, uint32_t condition)
{
    *regs = lend(&regs_lender, 40);
    for (uint32_t i = 0; i < 8; i++)
        (*regs)[i] = 0x01010101 * (i + 1);
    (*regs)[H8_PC] = pc;
    (*regs)[H8_CONDITION] = condition;
}

static void limit_of_step(const struct limit *l, const uint8_t *rom, uint8_t *ram)
{
    uint32_t *regs, *answer = lend_step_answer();
    lend_registers(&regs, l->pc, l->condition);
    uint32_t got = h8_step(far_board(l->base, l->ram_n), H8_BOARD, rom, l->rom_n, ram, l->ram_n, regs, 10, answer, H8_STEP_ANSWER);
    uint32_t pc = l->number ? l->pc : l->pc + 2;
    if (got != l->number || answer[0] != l->number || answer[1] != l->place || answer[2] || answer[3] != (l->number ? 0u : 2u) || !untouched(answer)
        || regs[H8_PC] != pc || regs[7] != 0x08080808 || regs[H8_CONDITION] != l->condition)
        fail("step, %s: answers %u at %X, states %u, PC %X; wanted %u at %X", l->what, answer[0], answer[1], answer[3],
             regs[H8_PC], l->number, l->place);
}

static void limit_of_run(const struct limit *l, const uint8_t *rom, uint8_t *ram, uint32_t budget)
{
    uint32_t *regs, number = budget == 0 && l->number != 1 ? 0 : l->number, steps = l->number ? 0 : budget;
    uint64_t *answer = lend(&answer_lender, 48);
    lend_registers(&regs, l->pc, l->condition);
    uint32_t got = h8_run(far_board(l->base, l->ram_n), H8_BOARD, rom, l->rom_n, ram, l->ram_n, regs, 10, 0xFFFFFFFF, budget, answer, 6);
    if (got != number || answer[0] != number || answer[1] != (number ? l->place : 0) || answer[2] || answer[3] != steps
        || answer[4] != 2 * steps || answer[5] != (number ? H8_REFUSED : H8_SPENT) || regs[H8_PC] != l->pc + 2 * steps)
        fail("run with budget %u, %s: answers %llu at %llX, %llu steps, %llu states, ending %llu", budget, l->what,
             (unsigned long long)answer[0], (unsigned long long)answer[1], (unsigned long long)answer[3],
             (unsigned long long)answer[4], (unsigned long long)answer[5]);
}

static void boards(void)
{
    for (size_t i = 0; i < sizeof limits / sizeof *limits; i++) {
        const struct limit *l = &limits[i];
        uint8_t *rom = lend(&rom_lender, l->rom_n), *ram = lend(&ram_lender, l->ram_n);
        memset(rom, 0, l->rom_n);
        memset(ram, 0, l->ram_n);
        limit_of_step(l, rom, ram);
        limit_of_run(l, rom, ram, 0);
        limit_of_run(l, rom, ram, 1);
        if (!zero(rom, l->rom_n) || !zero(ram, l->ram_n) || !guards_stand(&rom_lender) || !guards_stand(&ram_lender))
            fail("%s: memory was written", l->what);
        count(3);
    }
}

/* Lengths that are good numbers once their upper 32 bits are lost. */
static void lengths_past_32_bits(void)
{
    size_t room = ((size_t)1 << 32) + 1048576;
    uint8_t *p = mmap(NULL, room, PROT_READ | PROT_WRITE, MAP_PRIVATE | MAP_ANONYMOUS | MAP_NORESERVE, -1, 0);
    uint32_t *regs, *answer = lend_step_answer();
    uint64_t *told = lend(&out_lender, 32), table[2];
    uint8_t *none = lend(&ram_lender, 0);
    if (p == MAP_FAILED)
        return;
    for (uint64_t n = (uint64_t)1 << 32; n <= ((uint64_t)1 << 32) + 4; n += 4) {
        lend_registers(&regs, 0, 0);
        const uint32_t *board = plain_board(4);
        if (h8_step(board, H8_BOARD, p, n, none, 0, regs, 10, answer, H8_STEP_ANSWER) != 1
            || h8_step(board, H8_BOARD, none, 0, p, n, regs, 10, answer, H8_STEP_ANSWER) != 1)
            fail("a length of %llX was taken for a good one", (unsigned long long)n);
        if (h8_figure(NO_PORTS, p, n, 0, table, 2, told, 4) != 1)
            fail("figure took a length of %llX for a good one", (unsigned long long)n);
        count(3);
    }
    munmap(p, room);
}

/* ENDS OF MEMORY. Code at 0, then bytes that tell their address: the byte at a is a's low byte. In ER1 the address. */
struct access {
    const char *what, *code;
    uint32_t rom_n, base, ram_n, er1;
    uint32_t number, place, er0;            /* er0 after a load */
};
static const struct access accesses[] = {
    {"MOV.L over the end of code into working memory beside it", "01006910", 16, 16, 8, 14, 0, 0, 0x0E0F1011},
    {"MOV.L over the end of code", "01006910", 16, 0x100, 8, 14, 5, 16, 0},
    {"MOV.L from the last longword of code", "01006910", 16, 0x100, 8, 12, 0, 0, 0x0C0D0E0F},
    {"MOV.L from an odd address", "01006910", 16, 0x100, 8, 13, 0, 0, 0x0C0D0E0F},
    {"MOV.L over the end of working memory", "01006910", 16, 0x100, 8, 0x106, 5, 0x108, 0},
    {"MOV.L before working memory", "01006910", 16, 0x100, 8, 0xFE, 5, 0xFE, 0},
    {"MOV.L over FFFFFF", "01006910", 16, 0xFFFFF8, 8, 0xFFFFFE, 0, 0, 0xFEFF0100},
    {"MOV.L over FFFFFF, odd and with a top byte", "01006910", 16, 0xFFFFF8, 8, 0x5AFFFFFF, 0, 0, 0xFEFF0100},
    {"MOV.L over FFFFFF, working memory elsewhere", "01006910", 16, 0x100, 8, 0xFFFFFE, 5, 0xFFFFFE, 0},
    {"MOV.W at the end of code", "6910", 16, 0x100, 8, 16, 5, 16, 0},
    {"MOV.W at the last word, odd", "6910", 16, 0x100, 8, 15, 0, 0, 0x0E0F},
    {"MOV.W at FFFFFF", "6910", 16, 0xFFFFF8, 8, 0xFFFFFF, 0, 0, 0xFEFF},
    {"MOV.B at the last byte of working memory", "6818", 16, 0x100, 8, 0x107, 0, 0, 0x07},
    {"MOV.B behind it", "6818", 16, 0x100, 8, 0x108, 5, 0x108, 0},
    {"MOV.B odd and outside", "6818", 16, 0x100, 8, 0x109, 5, 0x109, 0},
    {"MOV.L stored over the end of code", "01006990", 16, 16, 8, 14, 6, 14, 0},
    {"MOV.L stored over the end of working memory", "01006990", 16, 16, 8, 22, 6, 24, 0},
    {"MOV.L stored over FFFFFF", "01006990", 16, 0xFFFFF8, 8, 0xFFFFFE, 6, 0, 0},
    {"MOV.L stored over FFFFFF, odd", "01006990", 16, 0xFFFFF8, 8, 0xFFFFFF, 6, 0, 0},
    {"MOV.L stored before working memory", "01006990", 16, 0x100, 8, 0xFE, 6, 0xFE, 0},
    {"MOV.W stored into code", "6990", 16, 0x100, 8, 2, 6, 2, 0},
    {"MOV.W stored odd and outside", "6990", 16, 0x100, 8, 0x109, 6, 0x108, 0},
    {"MOV.B stored odd and outside", "6898", 16, 0x100, 8, 0x109, 6, 0x109, 0},
    {"MOV.B @aa:8 is FFFFaa", "28F8", 16, 0xFFFFF8, 8, 0, 0, 0, 0xF8},
    {"MOV.B @aa:16 from 8000 on is FF8000 on", "6A08FFF9", 16, 0xFFFFF8, 8, 0, 0, 0, 0xF9},
    {"MOV.B @aa:16 up to 7FFF", "6A087FFF", 16, 0x7FF8, 8, 0, 0, 0, 0xFF},
    {"MOV.B @aa:16 8000 is not 008000", "6A088000", 16, 0x8000, 8, 0, 5, 0xFF8000, 0},
    {"JMP @@FE with its second word past the code", "5BFE", 0x100, 0x200, 0, 0, 5, 0x100, 0},
    {"JMP @@FF with its second word in working memory", "5BFF", 0x100, 0x100, 4, 0, 0, 0, 0},
    {"JMP @@05", "5B05", 16, 0x100, 0, 0, 0, 0, 0},
    {"JSR @@ outside: 5 before 6", "5F40", 16, 0x100, 0, 0, 5, 0x40, 0},
    {"JSR @@ inside, no stack: 6", "5F04", 16, 0x100, 0, 0, 6, 0xFFFFFC, 0},
};

static void access_at(const struct access *a)
{
    struct state s = {.base = a->base, .rom_n = a->rom_n, .ram_n = a->ram_n};
    for (uint32_t i = 0; i < a->rom_n; i++)
        s.rom[i] = (uint8_t)i;
    for (uint32_t i = 0; i < a->ram_n; i++)
        s.ram[i] = (uint8_t)(a->base + i);
    from_hex(a->code, s.rom);
    s.regs[1] = a->er1;
    struct outcome o = compare_step(&s);
    uint32_t *regs = (uint32_t *)(void *)regs_lender.now;
    if (o.number != a->number || o.place != a->place || (a->er0 && !o.number && regs[0] != a->er0)) {
        fail("%s: %u at %X, wanted %u at %X", a->what, o.number, o.place, a->number, a->place);
        show_registers("after", regs);
    }
}

/* BRANCHES. A code at a place: where PC goes, with all conditions as they are in `condition`. */
struct reach { const char *code; uint32_t at, condition, pc; };
static const struct reach reaches[] = {
    {"407F", 0, 0, 0x80}, {"4080", 0, 0, 0xFFFF82}, {"4080", 0x100, 0, 0x82}, {"407E", 0, 0, 0x80}, {"4081", 0x100, 0, 0x82},
    {"40FE", 0x10, 0, 0x10}, {"40FF", 0x10, 0, 0x10}, {"4000", 0x10, 0, 0x12}, {"4001", 0x10, 0, 0x12},
    {"58007FFF", 0, 0, 0x8002}, {"58008000", 0, 0, 0xFF8004}, {"58008000", 0x100, 0, 0xFF8104}, {"5800FFFC", 0x10, 0, 0x10},
    {"58007FFE", 0, 0, 0x8002}, {"58008001", 0, 0, 0xFF8004}, {"5800FFFF", 0x10, 0, 0x12}, {"58000001", 0, 0, 4},
    {"417F", 0, 0xFF, 2}, {"58107FFF", 0, 0xFF, 4}, {"467F", 0, 0x04, 2}, {"467F", 0, 0x00, 0x80}, {"58608000", 0, 0x04, 4},
    {"5A000081", 0, 0, 0x80}, {"5AFFFFFF", 0, 0, 0xFFFFFE}, {"5A000000", 0x20, 0, 0},
    {"557F", 0, 0, 0x80}, {"5580", 0, 0, 0xFFFF82}, {"5C007FFF", 0, 0, 0x8002}, {"5C008000", 0, 0, 0xFF8004},
    {"5E000081", 0, 0, 0x80},
};

static void reach_of(const struct reach *r)
{
    struct state s = {.base = 0x200, .rom_n = 0x200, .ram_n = 8, .regs = {[7] = 0x208}};
    from_hex(r->code, s.rom + r->at);
    s.regs[H8_PC] = r->at;
    s.regs[H8_CONDITION] = r->condition;
    compare_step(&s);
    uint32_t *regs = (uint32_t *)(void *)regs_lender.now;
    if (regs[H8_PC] != r->pc)
        fail("%s at %X goes to %X, wanted %X", r->code, r->at, regs[H8_PC], r->pc);
}

/* OWN PARTS and odd registers. ER0 and ER7 before and after; the word of working memory at `base` before and after. */
struct own { const char *what, *code; uint32_t base, er0, er7, ram, er0_after, er7_after, ram_after, pc; };
static const struct own owns[] = {
    {"MOV.B @ER0+,R0L: the sum's carry stays in R0H", "6C08", 0xFE, 0xFF, 0, 0x335A, 0x015A, 0, 0x335A, 2},
    {"MOV.B @ER0+,R0H", "6C00", 0xFE, 0xFE, 0, 0x335A, 0x33FF, 0, 0x335A, 2},
    {"MOV.W @ER0+,R0: the sum's carry stays in E0", "6D00", 0xFFFE, 0xFFFE, 0, 0x335A, 0x0001335A, 0, 0x335A, 2},
    {"MOV.W @ER0+,E0: R0 keeps the sum", "6D08", 0xFE, 0xFE, 0, 0x335A, 0x335A0100, 0, 0x335A, 2},
    {"MOV.B R0L,@-ER0 stores the lowered value", "6C88", 0xFE, 0x100, 0, 0x335A, 0xFF, 0, 0x33FF, 2},
    {"MOV.B R0H,@-ER0 stores the lowered value", "6C80", 0xFE, 0x100, 0, 0x335A, 0xFF, 0, 0x3300, 2},
    {"MOV.W R0,@-ER0 stores the lowered value", "6D80", 0xFE, 0x100, 0, 0x335A, 0xFE, 0, 0x00FE, 2},
    {"MOV.W E0,@-ER0 stores the lowered value", "6D88", 0xFFFE, 0x10000, 0, 0x335A, 0xFFFE, 0, 0x0000, 2},
    {"MOV.W R0,@-ER0, odd: only the access is even", "6D80", 0xFE, 0x101, 0, 0x335A, 0xFF, 0, 0x00FF, 2},
    {"MOV.B of ER7", "6C78", 0xFE, 0, 0xFF, 0x335A, 0x5A, 0x100, 0x335A, 2},
    {"JSR @ER7: the target is taken before the push", "5D70", 0xFE, 0, 0x102, 0x335A, 0, 0xFE, 0x0000, 0x102},
    {"JSR with ER7 odd", "5E000041", 0xFE, 0, 0x103, 0x335A, 0, 0xFF, 0x0000, 0x40},
    {"RTS ignores the first byte and ER7's lowest bit", "5470", 0xFE, 0, 0x550000FF, 0x7712, 0, 0x55000103, 0x7712, 0x123456},
};

static void own_part(const struct own *w)
{
    struct state s = {.base = w->base, .rom_n = 0x40, .ram_n = 4, .regs = {w->er0, [7] = w->er7}};
    s.ram[0] = (uint8_t)(w->ram >> 8);
    s.ram[1] = (uint8_t)w->ram;
    s.ram[2] = 0x34;
    s.ram[3] = 0x57;
    from_hex(w->code, s.rom);
    compare_step(&s);
    uint32_t *regs = (uint32_t *)(void *)regs_lender.now, ram = (uint32_t)(ram_lender.now[0] << 8 | ram_lender.now[1]);
    if (regs[0] != w->er0_after || regs[7] != w->er7_after || regs[H8_PC] != w->pc || ram != w->ram_after) {
        fail("%s: memory %04X, wanted %04X; wanted ER0 %X, ER7 %X, PC %X", w->what, ram, w->ram_after, w->er0_after, w->er7_after, w->pc);
        show_registers("after", regs);
    }
}

/* PRODUCTS AND QUOTIENTS at their ends, reckoned by hand: ER0, ER1 and the condition byte before; then what a step answers, and
   ER1 and the condition byte after. Where the code doesn't say otherwise the source is R0L or R0, the destination R1 or ER1. */
struct product { const char *what, *code; uint32_t er0, er1, condition, number, states, er1_after, condition_after; };
static const struct product products[] = {
    {"MULXU.B FF x FF: all flags stay", "5081", 0xFF, 0xAAAA55FF, 0xFF, 0, 14, 0xAAAAFE01, 0xFF},
    {"MULXU.B by zero: Z stays clear", "5081", 0x00, 0xFFFFFFFF, 0x00, 0, 14, 0xFFFF0000, 0x00},
    {"MULXU.B into E1", "5089", 0x02, 0x12805678, 0x0C, 0, 14, 0x01005678, 0x0C},
    {"MULXU.B R1H,R1", "5011", 0, 0x0000FF02, 0x00, 0, 14, 0x000001FE, 0x00},
    {"MULXU.B R1L,R1", "5091", 0, 0x0000AA10, 0x00, 0, 14, 0x00000100, 0x00},
    {"MULXU.W FFFF x FFFF", "5201", 0xFFFF, 0x1234FFFF, 0xFF, 0, 22, 0xFFFE0001, 0xFF},
    {"MULXU.W E1,ER1", "5291", 0, 0x00030005, 0x00, 0, 22, 0x0000000F, 0x00},
    {"MULXU.W R1,ER1", "5211", 0, 0xABCD0100, 0x00, 0, 22, 0x00010000, 0x00},
    {"MULXS.B 80 x 80", "01C05081", 0x80, 0x0080, 0xFF, 0, 16, 0x4000, 0xF3},
    {"MULXS.B 7F x 80", "01C05081", 0x80, 0x007F, 0x00, 0, 16, 0xC080, 0x08},
    {"MULXS.B 00 x FF is zero, not negative", "01C05081", 0xFF, 0xFF00, 0xFF, 0, 16, 0x0000, 0xF7},
    {"MULXS.B FF x FF", "01C05081", 0xFF, 0x00FF, 0x00, 0, 16, 0x0001, 0x00},
    {"MULXS.B R1H,R1", "01C05011", 0, 0x0000FF02, 0x00, 0, 16, 0x0000FFFE, 0x08},
    {"MULXS.W 8000 x 8000", "01C05201", 0x8000, 0xFFFF8000, 0xFF, 0, 24, 0x40000000, 0xF3},
    {"MULXS.W 7FFF x 8000", "01C05201", 0x8000, 0x00007FFF, 0x00, 0, 24, 0xC0008000, 0x08},
    {"DIVXU.B FEFF by FF, the last that fits", "5181", 0xFF, 0xFEFF, 0x00, 0, 14, 0xFEFF, 0x08},
    {"DIVXU.B FF00 by FF, the first that doesn't", "5181", 0xFF, 0xFF00, 0x00, 14, 0, 0xFF00, 0x00},
    {"DIVXU.B 00FF by 01", "5181", 0x01, 0x00FF, 0xFF, 0, 14, 0x00FF, 0xF3},
    {"DIVXU.B 0100 by 01", "5181", 0x01, 0x0100, 0xFF, 14, 0, 0x0100, 0xFF},
    {"DIVXU.B 00FF by 80: N is the divisor's top bit", "5181", 0x80, 0x00FF, 0x00, 0, 14, 0x7F01, 0x08},
    {"DIVXU.B 0000 by 00", "5181", 0x00, 0x0000, 0x00, 14, 0, 0x0000, 0x00},
    {"DIVXU.B E1 by R0L", "5189", 0x02, 0x01015678, 0x00, 0, 14, 0x01805678, 0x00},
    {"DIVXU.B R1L,R1", "5191", 0, 0x0510, 0x00, 0, 14, 0x0051, 0x00},
    {"DIVXU.B R1H,R1 never fits", "5111", 0, 0xFF00, 0x00, 14, 0, 0xFF00, 0x00},
    {"DIVXU.W FFFEFFFF by FFFF, the last that fits", "5301", 0xFFFF, 0xFFFEFFFF, 0x00, 0, 22, 0xFFFEFFFF, 0x08},
    {"DIVXU.W FFFF0000 by FFFF, the first that doesn't", "5301", 0xFFFF, 0xFFFF0000, 0x00, 14, 0, 0xFFFF0000, 0x00},
    {"DIVXU.W 80000000 by 8001", "5301", 0x8001, 0x80000000, 0x00, 0, 22, 0x0002FFFE, 0x08},
    {"DIVXU.W FFFFFFFF by 0000", "5301", 0x0000, 0xFFFFFFFF, 0x00, 14, 0, 0xFFFFFFFF, 0x00},
    {"DIVXU.W R1,ER1", "5311", 0, 0x00020003, 0x00, 0, 22, 0x0002AAAB, 0x00},
    {"DIVXS.B 7 by 2", "01D05181", 0x02, 0x0007, 0xFF, 0, 16, 0x0103, 0xF3},
    {"DIVXS.B 7 by -2", "01D05181", 0xFE, 0x0007, 0x00, 0, 16, 0x01FD, 0x08},
    {"DIVXS.B -7 by 2", "01D05181", 0x02, 0xFFF9, 0x00, 0, 16, 0xFFFD, 0x08},
    {"DIVXS.B -7 by -2", "01D05181", 0xFE, 0xFFF9, 0x00, 0, 16, 0xFF03, 0x00},
    {"DIVXS.B 3 by -5: the quotient is zero and N is set", "01D05181", 0xFB, 0x0003, 0x00, 0, 16, 0x0300, 0x08},
    {"DIVXS.B -3 by 5: the same", "01D05181", 0x05, 0xFFFD, 0x00, 0, 16, 0xFD00, 0x08},
    {"DIVXS.B -3 by -5", "01D05181", 0xFB, 0xFFFD, 0xFF, 0, 16, 0xFD00, 0xF3},
    {"DIVXS.B 0 by -1: N is set", "01D05181", 0xFF, 0x0000, 0x04, 0, 16, 0x0000, 0x08},
    {"DIVXS.B 16,384 by -128", "01D05181", 0x80, 0x4000, 0x00, 0, 16, 0x0080, 0x08},
    {"DIVXS.B 16,511 by -128, the last that fits", "01D05181", 0x80, 0x407F, 0x00, 0, 16, 0x7F80, 0x08},
    {"DIVXS.B 16,512 by -128, the first that doesn't", "01D05181", 0x80, 0x4080, 0x00, 14, 0, 0x4080, 0x00},
    {"DIVXS.B -16,383 by -128, the last that fits", "01D05181", 0x80, 0xC001, 0x00, 0, 16, 0x817F, 0x00},
    {"DIVXS.B -16,384 by -128, the first that doesn't", "01D05181", 0x80, 0xC000, 0x00, 14, 0, 0xC000, 0x00},
    {"DIVXS.B 127 by 1", "01D05181", 0x01, 0x007F, 0x00, 0, 16, 0x007F, 0x00},
    {"DIVXS.B 128 by 1", "01D05181", 0x01, 0x0080, 0x00, 14, 0, 0x0080, 0x00},
    {"DIVXS.B 128 by -1", "01D05181", 0xFF, 0x0080, 0x00, 0, 16, 0x0080, 0x08},
    {"DIVXS.B 129 by -1", "01D05181", 0xFF, 0x0081, 0x00, 14, 0, 0x0081, 0x00},
    {"DIVXS.B -128 by 1", "01D05181", 0x01, 0xFF80, 0x00, 0, 16, 0x0080, 0x08},
    {"DIVXS.B -129 by 1", "01D05181", 0x01, 0xFF7F, 0x00, 14, 0, 0xFF7F, 0x00},
    {"DIVXS.B -127 by -1", "01D05181", 0xFF, 0xFF81, 0x00, 0, 16, 0x007F, 0x00},
    {"DIVXS.B -128 by -1", "01D05181", 0xFF, 0xFF80, 0xFF, 14, 0, 0xFF80, 0xFF},
    {"DIVXS.B 8000 by FF", "01D05181", 0xFF, 0x8000, 0x00, 14, 0, 0x8000, 0x00},
    {"DIVXS.B 8000 by 00", "01D05181", 0x00, 0x8000, 0x00, 14, 0, 0x8000, 0x00},
    {"DIVXS.W -7 by 2", "01D05301", 0x0002, 0xFFFFFFF9, 0x00, 0, 24, 0xFFFFFFFD, 0x08},
    {"DIVXS.W 40007FFF by 8000, the last that fits", "01D05301", 0x8000, 0x40007FFF, 0x00, 0, 24, 0x7FFF8000, 0x08},
    {"DIVXS.W 40008000 by 8000, the first that doesn't", "01D05301", 0x8000, 0x40008000, 0x00, 14, 0, 0x40008000, 0x00},
    {"DIVXS.W C0000000 by 8000", "01D05301", 0x8000, 0xC0000000, 0x00, 14, 0, 0xC0000000, 0x00},
    {"DIVXS.W 32,768 by -1", "01D05301", 0xFFFF, 0x00008000, 0x00, 0, 24, 0x00008000, 0x08},
    {"DIVXS.W -32,768 by -1", "01D05301", 0xFFFF, 0xFFFF8000, 0x00, 14, 0, 0xFFFF8000, 0x00},
    {"DIVXS.W 80000000 by FFFF", "01D05301", 0xFFFF, 0x80000000, 0x00, 14, 0, 0x80000000, 0x00},
    {"DIVXS.W 80000000 by 0000", "01D05301", 0x0000, 0x80000000, 0x00, 14, 0, 0x80000000, 0x00},
    {"DIVXS.W R1,ER1", "01D05311", 0, 0xFFFFFFFE, 0x00, 0, 24, 0x00000001, 0x00},
    {"DIVXS.W E1,ER1", "01D05391", 0, 0xFFFFFFFF, 0x00, 0, 24, 0x00000001, 0x00},
    {"DIVXS.W E1,ER1", "01D05391", 0, 0xFFFF0005, 0x00, 14, 0, 0xFFFF0005, 0x00},
    {"MULXS.B cut short", "01C0", 0, 0, 0x00, 4, 0, 0, 0x00},
    {"DIVXS.B by zero, cut short: 4 before 14", "01D0", 0, 1, 0x00, 4, 0, 1, 0x00},
    {"no code: MULXS after 01D0", "01D05081", 0, 0, 0x00, 3, 0, 0, 0x00},
    {"no code: DIVXS after 01C0", "01C05181", 0, 0, 0x00, 3, 0, 0, 0x00},
    {"no code: DIVXU.W with a digit above 7", "5309", 0, 0, 0x00, 3, 0, 0, 0x00},
};

static void product_of(const struct product *p)
{
    struct state s = {.regs = {p->er0, p->er1}};
    s.rom_n = s.base = from_hex(p->code, s.rom);
    s.regs[H8_CONDITION] = p->condition;
    compare_step(&s);
    uint32_t *regs = (uint32_t *)(void *)regs_lender.now, *answer = (uint32_t *)(void *)answer_lender.now;
    if (answer[0] != p->number || answer[1] || answer[2] || answer[3] != p->states || regs[0] != p->er0 || regs[1] != p->er1_after
        || regs[H8_PC] != (p->number ? 0 : s.rom_n) || regs[H8_CONDITION] != p->condition_after) {
        fail("%s: %u, states %u; wanted %u, states %u, ER1 %08X, CCR %02X", p->what, answer[0], answer[3], p->number, p->states,
             p->er1_after, p->condition_after);
        show_registers("after", regs);
    }
}

/* BUDGETS. BRA to itself, 4 states a step. */
struct spent { const char *what; uint32_t stop, budget, base, number; uint64_t steps; int ending; };
static const struct spent budgets[] = {
    {"budget 1,000,000", 0xFFFFFFFF, 1000000, 2, 0, 1000000, H8_SPENT},
    {"budget 1,000,001", 0xFFFFFFFF, 1000001, 2, 12, 0, H8_REFUSED},
    {"budget FFFFFFFF", 0xFFFFFFFF, 0xFFFFFFFF, 2, 12, 0, H8_REFUSED},
    {"budget 1,000,001 on a wrong board: 12 before 1", 0, 1000001, 1, 12, 0, H8_REFUSED},
    {"budget 1,000,000 on a wrong board", 0, 1000000, 1, 1, 0, H8_REFUSED},
    {"budget 1,000,001 with the stop address met: 12 first", 0, 1000001, 2, 12, 0, H8_REFUSED},
    {"budget 0", 2, 0, 2, 0, 0, H8_SPENT},
    {"budget 1", 2, 1, 2, 0, 1, H8_SPENT},
    {"stop address met before the budget is looked at", 0, 0, 2, 0, 0, H8_STOPPED},
    {"stop address met at once", 0, 1000000, 2, 0, 0, H8_STOPPED},
    {"stop address odd: never met", 1, 1000, 2, 0, 1000, H8_SPENT},
    {"stop address 2^24: never met", TOP, 1000, 2, 0, 1000, H8_SPENT},
};

static void budget_of(const struct spent *b)
{
    uint8_t *rom = lend(&rom_lender, 2), *ram = lend(&ram_lender, 0);
    uint32_t *regs, before[10];
    uint64_t *answer = lend(&answer_lender, 48);
    rom[0] = 0x40;
    rom[1] = 0xFE;
    lend_registers(&regs, 0, 0x5A);
    memcpy(before, regs, 40);
    uint32_t got = h8_run(plain_board(b->base), H8_BOARD, rom, 2, ram, 0, regs, 10, b->stop, b->budget, answer, 6);
    if (got != b->number || answer[0] != b->number || answer[1] || answer[2] || answer[3] != b->steps || answer[4] != 4 * b->steps
        || answer[5] != (uint64_t)b->ending || memcmp(before, regs, 40))
        fail("%s: answers %llu at %llX, %llu steps, %llu states, ending %llu", b->what, (unsigned long long)answer[0],
             (unsigned long long)answer[1], (unsigned long long)answer[3], (unsigned long long)answer[4],
             (unsigned long long)answer[5]);
    count(1);
}

/* THE LONGEST BOARD: 524,288 bytes of code, 65,536 of working memory. A code at a place, compared with the model whole. */
struct far { const char *what, *code; uint32_t at, er1, base, number, place; };
static const struct far fars[] = {
    {"NOP at the last place", "0000", 524286, 0, 524288, 0, 0},
    {"MOV.L ER0,@aa:24 in the last eight bytes", "01006BA000090000", 524280, 0, 0x90000, 0, 0},
    {"MOV.L ER0,@aa:24 cut short by two", "01006BA00009", 524282, 0, 0x90000, 4, 524282},
    {"MOV.W behind the last place", "6910", 524286, 524288, 0x90000, 5, 524288},
    {"MOV.W of the last word of code", "6910", 0, 524287, 0x90000, 0, 0},
    {"MOV.L from code into working memory", "01006910", 0, 524286, 524288, 0, 0},
    {"MOV.W to the last word of working memory", "6990", 0, 0x9FFFE, 0x90000, 0, 0},
    {"MOV.W behind working memory", "6990", 0, 0xA0000, 0x90000, 6, 0xA0000},
    {"MOV.B to the last byte of all", "6898", 0, 0xFFFFFF, 0xFF0000, 0, 0},
    {"MOV.L over the last byte of all", "01006990", 0, 0xFFFFFE, 0xFF0000, 6, 0},
    {"MOV.B @aa:8", "38FF", 0, 0, 0xFF0000, 0, 0},
    {"BNOT of the last byte of all", "7FFF7100", 0, 0, 0xFF0000, 0, 0},
    {"BSET behind working memory: 5", "7D107000", 0, 0xA0000, 0x90000, 5, 0xA0000},
    {"BSET of the last byte of code: 6", "7D107000", 0, 524287, 0x90000, 6, 524287},
    {"BLD of the last byte of code", "7C107700", 0, 524287, 0x90000, 0, 0},
    {"BIST in the last four bytes", "7D106780", 524284, 0x9FFFF, 0x90000, 0, 0},
    {"BIST cut short", "7D10", 524286, 0x9FFFF, 0x90000, 4, 524286},
    {"MOV by d:24, its first word in the last two bytes: 15", "7800", 524286, 0, 0x90000, 15, 524286},
    {"MOV.L by d:24 in the last ten bytes: 15", "010078806BA000090000", 524278, 0, 0x90000, 15, 524278},
    {"MOV.L by d:24 cut to its first word: 4", "0100", 524286, 0, 0x90000, 4, 524286},
    {"LDC.W @aa:24 cut short by two: 15", "01406B200009", 524282, 0, 0x90000, 15, 524282},
};

static void far_step(const struct far *f)
{
    static uint8_t model_ram[H8_RAM_MAX];
    uint8_t *rom = lend(&rom_lender, H8_ROM_MAX), *ram = lend(&ram_lender, H8_RAM_MAX);
    uint32_t *regs, model_regs[10], *answer = lend_step_answer(), wanted[H8_STEP_ANSWER];
    memset(rom, 0x5A, H8_ROM_MAX);
    memset(ram, 0x3C, H8_RAM_MAX);
    memset(model_ram, 0x3C, H8_RAM_MAX);
    from_hex(f->code, rom + f->at);
    lend_registers(&regs, f->at, 0xFF);
    regs[1] = f->er1;
    memcpy(model_regs, regs, 40);
    struct board b = {f->base, rom, H8_ROM_MAX, model_ram, H8_RAM_MAX, no_ports(f->base)};
    struct outcome o = model_step(&b, model_regs);
    step_answer(o, wanted);
    h8_step(plain_board(f->base), H8_BOARD, rom, H8_ROM_MAX, ram, H8_RAM_MAX, regs, 10, answer, H8_STEP_ANSWER);
    if (answer[0] != f->number || answer[1] != f->place || memcmp(answer, wanted, sizeof wanted)
        || o.number != f->number || o.place != f->place || memcmp(regs, model_regs, 40) || memcmp(ram, model_ram, H8_RAM_MAX))
        fail("longest board, %s: answers %u at %X; wanted %u at %X", f->what, answer[0], answer[1], f->number, f->place);
    count(1);
}

/* From one end of the code to the other. */
static void far_run(void)
{
    uint8_t *rom = lend(&rom_lender, H8_ROM_MAX), *ram = lend(&ram_lender, H8_RAM_MAX);
    uint32_t *regs;
    uint64_t *answer = lend(&answer_lender, 48);
    memset(rom, 0, H8_ROM_MAX);
    lend_registers(&regs, 0, 0);
    uint32_t got = h8_run(plain_board(0xFF0000), H8_BOARD, rom, H8_ROM_MAX, ram, H8_RAM_MAX, regs, 10, 0xFFFFFFFF, 1000000, answer, 6);
    if (got != 2 || answer[1] != 524288 || answer[2] || answer[3] != 262144 || answer[4] != 524288 || answer[5] != H8_REFUSED
        || regs[H8_PC] != 524288)
        fail("a run over 262,144 NOPs answers %u at %llX after %llu steps", got, (unsigned long long)answer[1], (unsigned long long)answer[3]);
    count(1);
}

void test_limits(void)
{
    begin("limits of the board, PC and condition number, in step and run");
    boards();
    lengths_past_32_bits();
    end("calls");
    begin("the longest board: steps at its ends, and a run from end to end");
    for (size_t i = 0; i < sizeof fars / sizeof *fars; i++)
        far_step(&fars[i]);
    far_run();
    end("calls");
    begin("longwords, words and bytes at the ends of memory and over FFFFFF");
    for (size_t i = 0; i < sizeof accesses / sizeof *accesses; i++)
        access_at(&accesses[i]);
    end("steps");
    begin("branches 7F and 80, 7FFF and 8000, odd targets, BSR, JMP, JSR");
    for (size_t i = 0; i < sizeof reaches / sizeof *reaches; i++)
        reach_of(&reaches[i]);
    end("steps");
    begin("own parts of @ER+ and @-ER, odd registers, JSR @ER7, RTS");
    for (size_t i = 0; i < sizeof owns / sizeof *owns; i++)
        own_part(&owns[i]);
    end("steps");
    begin("products and quotients at their ends, own parts, refusal 14");
    for (size_t i = 0; i < sizeof products / sizeof *products; i++)
        product_of(&products[i]);
    end("steps");
    begin("budgets 0, 1, 1,000,000 and 1,000,001, and stop addresses");
    for (size_t i = 0; i < sizeof budgets / sizeof *budgets; i++)
        budget_of(&budgets[i]);
    end("runs");
}
