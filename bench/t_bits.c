/* The bit instructions without the model: by truth tables written out from their pages, over all bytes, bits and number registers,
   in registers and in memory, with everything else as it was; at the ends of the memories; and cases and codes by hand. */
#include "bench.h"
#include <string.h>

/* What comes of C and the bit where they are 00, 01, 10 and 11, C first; and whether it goes to C, to Z or to the bit. */
struct truth { const char *name; char to; const char *of; };
static const struct truth truths[] = {
    {"BAND", 'C', "0001"}, {"BIAND", 'C', "0010"}, {"BOR", 'C', "0111"}, {"BIOR", 'C', "1011"}, {"BXOR", 'C', "0110"},
    {"BIXOR", 'C', "1001"}, {"BLD", 'C', "0101"}, {"BILD", 'C', "1010"}, {"BTST", 'Z', "1010"}, {"BSET", 'b', "1111"},
    {"BCLR", 'b', "0000"}, {"BNOT", 'b', "1010"}, {"BST", 'b', "0011"}, {"BIST", 'b', "1100"},
};

static const struct truth *truth_of(int form)
{
    size_t n = strcspn(forms[form].name, " ");
    for (const struct truth *t = truths; t < truths + sizeof truths / sizeof *truths; t++)
        if (strlen(t->name) == n && !memcmp(t->name, forms[form].name, n))
            return t;
    return NULL;
}

static int by_register(int form) { return forms[form].width == H8_BIT_BY_REG; }
static int in_memory(int form) { return forms[form].form != H8_SPOT_REG; }
static int writes(int form) { return truth_of(form)->to == 'b'; }
static uint32_t states_of(int form) { return !in_memory(form) ? 2 : writes(form) ? 8 : 6; }

/* Number n of a byte, or flag n of a condition byte, becomes v: by taking its power of two away or adding it. */
static void become(uint32_t *x, uint32_t n, uint32_t v)
{
    uint32_t power = 1u << n, was = *x / power % 2;
    *x = *x - was * power + v * power;
}

static void expected(int form, uint32_t n, uint32_t *byte, uint32_t *condition)
{
    const struct truth *t = truth_of(form);
    uint32_t c = *condition % 2, bit = *byte / (1u << n) % 2, v = (uint32_t)(t->of[2 * c + bit] - '0');
    become(t->to == 'b' ? byte : condition, t->to == 'b' ? n : t->to == 'Z' ? 2 : 0, v);
}

/* A byte register by its digit: 0 to 7 the upper byte of R0 to R7, 8 to F the lower one. */
static uint32_t byte_register(const uint32_t *regs, uint32_t digit) { return regs[digit % 8] >> (digit < 8 ? 8 : 0) & 255; }
static void set_byte_register(uint32_t *regs, uint32_t digit, uint32_t x)
{
    uint32_t shift = digit < 8 ? 8 : 0;
    regs[digit % 8] = (regs[digit % 8] & ~(255u << shift)) | x << shift;
}

/* The library's step alone; what it left stays lent. */
static void step_alone(const struct state *s)
{
    uint8_t *rom = lend(&rom_lender, s->rom_n), *ram = lend(&ram_lender, s->ram_n);
    uint32_t *regs = lend(&regs_lender, 40), *answer = lend_step_answer();
    memcpy(rom, s->rom, s->rom_n);
    memcpy(ram, s->ram, s->ram_n);
    memcpy(regs, s->regs, 40);
    uint32_t returned = h8_step(plain_board(s->base), H8_BOARD, rom, s->rom_n, ram, s->ram_n, regs, 10, answer, H8_STEP_ANSWER);
    if (returned != answer[0] || answer[2] || (returned && !untouched(answer)) || memcmp(rom, s->rom, s->rom_n) || !guards_stand(&rom_lender)
        || !guards_stand(&ram_lender) || !guards_stand(&regs_lender) || !guards_stand(&answer_lender))
        fail("a step wrote outside what it may write, answered a group or a refusal's accesses, or returned another number than it answered");
    count(1);
}

/* A run of one step from the same state leaves and answers what the step has. */
static void run_too(const struct state *s)
{
    uint32_t answer[4], left[10], *regs;
    uint8_t left_ram[SMALL], *ram;
    memcpy(answer, answer_lender.now, sizeof answer);
    memcpy(left, regs_lender.now, sizeof left);
    memcpy(left_ram, ram_lender.now, s->ram_n);
    regs = lend(&regs_lender, 40);
    ram = lend(&ram_lender, s->ram_n);
    uint64_t *told = lend(&answer_lender, 48);
    memcpy(regs, s->regs, 40);
    memcpy(ram, s->ram, s->ram_n);
    uint32_t returned = h8_run(plain_board(s->base), H8_BOARD, rom_lender.now, s->rom_n, ram, s->ram_n, regs, 10, 0xFFFFFFFF, 1, told, 6);
    int same = returned == answer[0] && told[0] == answer[0] && told[1] == answer[1] && told[2] == 0 && told[3] == (answer[0] ? 0 : 1)
        && told[4] == answer[3] && told[5] == (answer[0] ? H8_REFUSED : H8_SPENT);
    if (!same || memcmp(regs, left, sizeof left) || memcmp(ram, left_ram, s->ram_n) || !guards_stand(&ram_lender)
        || !guards_stand(&regs_lender) || !guards_stand(&answer_lender)) {
        fail("a run of one step differs from the step");
        show_code(s->rom, s->rom_n, s->regs[H8_PC]);
        show_registers("before", s->regs);
        show_registers("after, step", left);
        show_registers("after, run", regs);
    }
    count(1);
}

/* A state for a form, its operand's register or place in working memory, and the register of the number. */
struct trial {
    struct state s;
    int form;
    uint32_t rd, at, rn;
};

/* The list of a step: nothing of a register; the byte read, and of a form that writes the byte once more, written. */
static int listed(const struct trial *t, const uint32_t *answer)
{
    uint32_t a = t->s.base + t->at, writes = forms[t->form].kind == H8_GIVE;
    const uint32_t reads[] = {1, a, 1, 0, 0, 0, 0, 0, 0, 0, 0, 0, 0}, gives[] = {2, a, 1, 0, a, 1, 1, 0, 0, 0, 0, 0, 0};
    return in_memory(t->form) ? !memcmp(answer + H8_COUNT, writes ? gives : reads, sizeof reads) : untouched(answer);
}

/* What the library left: everything is as it was but PC and what the truth table says. */
static void check(const struct trial *t, uint32_t n)
{
    const uint32_t *got = (const uint32_t *)(const void *)regs_lender.now, *answer = (const uint32_t *)(const void *)answer_lender.now;
    uint32_t regs[10], byte;
    uint8_t ram[SMALL];
    memcpy(regs, t->s.regs, sizeof regs);
    memcpy(ram, t->s.ram, t->s.ram_n);
    byte = in_memory(t->form) ? ram[t->at] : byte_register(regs, t->rd);
    expected(t->form, n, &byte, &regs[H8_CONDITION]);
    if (in_memory(t->form))
        ram[t->at] = (uint8_t)byte;
    else
        set_byte_register(regs, t->rd, byte);
    regs[H8_PC] += (uint32_t)decoder_length(t->form);
    if (answer[0] || answer[1] || answer[3] != states_of(t->form) || memcmp(got, regs, sizeof regs)
        || memcmp(ram_lender.now, ram, t->s.ram_n) || !listed(t, answer)) {
        fail("%s, bit %u, differs from its truth table", forms[t->form].name, n);
        say("answer %u at %X, states %u; wanted a byte %02X and states %u", answer[0], answer[1], answer[3], byte, states_of(t->form));
        say("%u accesses: %s", answer[H8_COUNT], list_text(answer));
        show_registers("before", t->s.regs);
        show_registers("after, library", got);
        show_registers("after, wanted", regs);
    }
}

/* Any registers, and eight bytes of working memory where the form finds them. */
static void make_trial(struct trial *t, int form)
{
    uint32_t base = forms[form].form == H8_SPOT_ABS8 ? 0xFFFF00 + 2 * below(125) : 0x1000 + 2 * below(0x7F0000);
    memset(t, 0, sizeof *t);
    t->form = form;
    t->s.base = base;
    t->s.ram_n = 8;
    t->rd = below(16);
    t->rn = (t->rd + 1 + below(7)) % 8 + (below(2) ? 8 : 0);
    t->at = below(8);
    for (int i = 0; i < 8; i++) {
        t->s.regs[i] = (uint32_t)any();
        t->s.ram[i] = (uint8_t)any();
    }
    if (forms[form].form == H8_SPOT_AT)
        t->s.regs[t->rd % 8] = (base + t->at) | (uint32_t)any() << 24;
}

/* With the number n, or in a register a number that is n modulo 8. */
static void set_code(struct trial *t, uint32_t n)
{
    uint8_t code[8];
    t->s.rom_n = (uint32_t)build(t->form, by_register(t->form) ? t->rn : n, t->s.base + t->at,
                                 forms[t->form].form == H8_SPOT_AT ? t->rd % 8 : t->rd, code);
    memcpy(t->s.rom, code, t->s.rom_n);
}

static void set_operand(struct trial *t, uint32_t x)
{
    if (in_memory(t->form))
        t->s.ram[t->at] = (uint8_t)x;
    else
        set_byte_register(t->s.regs, t->rd, x);
}

/* Every byte and every number; by register, every number from 0 to 255. C and Z set and clear, among others set and clear. */
static void all_bits(int form)
{
    static const uint32_t conditions[] = {0x00, 0xFF, 0x01, 0xFE, 0x04, 0xFB};
    uint32_t numbers = by_register(form) ? 256 : 8, most = by_register(form) ? 2 : 6;
    for (uint32_t k = 0; k < 256 * numbers && !failing(); k++) {
        struct trial t;
        uint32_t n = k / 256;
        make_trial(&t, form);
        set_code(&t, n);
        set_operand(&t, k % 256);
        if (by_register(form))
            set_byte_register(t.s.regs, t.rn, n);
        for (uint32_t i = 0; i < most; i++) {
            t.s.regs[H8_CONDITION] = conditions[(i + (by_register(form) ? 2 * below(3) : 0)) % 6];
            step_alone(&t.s);
            check(&t, n % 8);
        }
        if (k % 8 == n / 8 % 8)
            run_too(&t.s);
    }
}

/* The number's register is the operand itself: what the byte was before says which bit of it. */
static void own_number(int form)
{
    for (uint32_t k = 0; k < 16 * 256 * 2 && !failing(); k++) {
        struct trial t;
        uint32_t x = k / 16 % 256;
        make_trial(&t, form);
        t.rd = t.rn = k % 16;
        set_code(&t, 0);
        set_operand(&t, x);
        t.s.regs[H8_CONDITION] = k / 4096 ? 0xFF : 0x00;
        step_alone(&t.s);
        check(&t, x % 8);
        run_too(&t.s);
    }
}

/* It is a part of the operand's address: 1D00 to 1DFF, so that R1L has any number and R1H 1D, which is 5. */
static void number_in_address(int form)
{
    for (uint32_t k = 0; k < 512 && !failing(); k++) {
        struct trial t;
        make_trial(&t, form);
        t.s.base = 0x1D00;
        t.s.ram_n = 256;
        t.rd = 1;
        t.rn = k < 256 ? 9 : 1;
        t.at = k % 256;
        t.s.regs[1] = 0x1D00 + t.at;
        set_code(&t, 0);
        t.s.ram[t.at] = (uint8_t)any();
        t.s.regs[H8_CONDITION] = below(256);
        step_alone(&t.s);
        check(&t, k < 256 ? t.at % 8 : 5);
        run_too(&t.s);
    }
}

/* ENDS OF MEMORY. Readers are refused by 5 outside both memories and never by 6; writers read first, so they are refused by 5
   outside both and by 6 in read-only memory. A refusal changes nothing. */
enum { AROUND = 16 };
static const struct { uint32_t base, ram_n; } boards[] = {
    {0x100, 8}, {AROUND, 8}, {0xFFFFF8, 8}, {0xFFFF40, 8}, {0xFFFEFC, 8}, {0xFFFF00, 256}, {0x100, 0}, {0x1000000, 0}, {0xFFFFFE, 2},
};

static uint32_t refusal_at(const struct state *s, int form, uint32_t a)
{
    if (a < s->rom_n)
        return writes(form) ? 6 : 0;
    return a >= s->base && a < s->base + s->ram_n ? 0 : 5;
}

static void step_at(struct trial *t, uint32_t address)
{
    uint32_t a = forms[t->form].form == H8_SPOT_AT ? address & 0xFFFFFF : 0xFFFF00 + address % 256, n = below(8);
    uint8_t code[8];
    memcpy(t->s.rom, code, (size_t)build(t->form, by_register(t->form) ? t->rn : n, a, t->rd % 8, code));
    if (forms[t->form].form == H8_SPOT_AT)
        t->s.regs[t->rd % 8] = address;
    if (by_register(t->form))
        set_byte_register(t->s.regs, t->rn, n + 8 * below(32));
    step_alone(&t->s);
    uint32_t number = refusal_at(&t->s, t->form, a);
    const uint32_t *answer = (const uint32_t *)(const void *)answer_lender.now;
    if (answer[0] != number || answer[1] != (number ? a : 0) || answer[3] != (number ? 0 : states_of(t->form))
        || (number && (memcmp(regs_lender.now, t->s.regs, 40) || memcmp(ram_lender.now, t->s.ram, t->s.ram_n))))
        fail("%s at %06X: answers %u at %06X, states %u; wanted %u", forms[t->form].name, a, answer[0], answer[1], answer[3], number);
    if (number == 0 && a >= AROUND) {
        t->at = a - t->s.base;
        check(t, n);
    }
    run_too(&t->s);
}

static void around_ends(int form)
{
    for (size_t b = 0; b < sizeof boards / sizeof *boards && !failing(); b++) {
        uint32_t base = boards[b].base, end = base + boards[b].ram_n;
        const uint32_t places[] = {0, 1, AROUND - 2, AROUND - 1, AROUND, AROUND + 1, base - 2, base - 1, base, base + 1, end - 2, end - 1, end,
                                   end + 1, 0xFFFEFF, 0xFFFF00, 0xFFFFFF, 0x80FFFF, 0x1000000, 0x5A000003, 0xFF000000 + base};
        for (size_t i = 0; i < 2 * sizeof places / sizeof *places; i++) {
            struct trial t;
            make_trial(&t, form);
            t.s.base = base;
            t.s.ram_n = boards[b].ram_n;
            t.s.rom_n = AROUND;
            for (uint32_t k = 0; k < AROUND; k++)
                t.s.rom[k] = (uint8_t)any();
            for (uint32_t k = 0; k < t.s.ram_n; k++)
                t.s.ram[k] = (uint8_t)any();
            t.s.regs[H8_CONDITION] = i % 2 ? 0xFF : 0x00;
            step_at(&t, places[i / 2]);
        }
    }
}

/* BY HAND. ER0, ER1, the byte at FFFF41 and the condition byte before; what a step answers; and the same after. Read-only memory
   is the code and, up to 000008, 5A; working memory is FFFF40 to FFFF47, and its other bytes are 5A. */
struct done { const char *what, *code; uint32_t er0, er1, byte, condition, number, place, states, er0_after, byte_after, condition_after; };
static const struct done by_hand[] = {
    {"BSET #7,R0L", "7078", 0x00, 0, 0, 0x00, 0, 0, 2, 0x80, 0, 0x00},
    {"BSET #0,R0H: nothing but bit 8 of ER0", "7000", 0xFFFFFEFF, 0, 0, 0xFF, 0, 0, 2, 0xFFFFFFFF, 0, 0xFF},
    {"BSET R0L,R0L: 0A is bit 2", "6088", 0x0A, 0, 0, 0x00, 0, 0, 2, 0x0E, 0, 0x00},
    {"BSET R0L,R0L: F8 is bit 0", "6088", 0xF8, 0, 0, 0x00, 0, 0, 2, 0xF9, 0, 0x00},
    {"BCLR R0L,R0L: FF is bit 7", "6288", 0xFF, 0, 0, 0x00, 0, 0, 2, 0x7F, 0, 0x00},
    {"BNOT R0L,R0L: 01 is bit 1", "6188", 0x01, 0, 0, 0x00, 0, 0, 2, 0x03, 0, 0x00},
    {"BNOT R0L,R0H by 17: bit 1", "6180", 0x0011, 0, 0, 0x00, 0, 0, 2, 0x0211, 0, 0x00},
    {"BCLR #3,R0L of a clear bit", "7238", 0xF7, 0, 0, 0xFF, 0, 0, 2, 0xF7, 0, 0xFF},
    {"BTST #0,R0L of 1: Z clear and no more", "7308", 0x01, 0, 0, 0xFF, 0, 0, 2, 0x01, 0, 0xFB},
    {"BTST #0,R0L of 0: Z set and no more", "7308", 0xFE, 0, 0, 0x00, 0, 0, 2, 0xFE, 0, 0x04},
    {"BTST R0H,R0L by FF: bit 7", "6308", 0xFF80, 0, 0, 0x04, 0, 0, 2, 0xFF80, 0, 0x00},
    {"BST #4,R0L with C", "6748", 0x00, 0, 0, 0x01, 0, 0, 2, 0x10, 0, 0x01},
    {"BIST #4,R0L with C", "67C8", 0x10, 0, 0, 0x01, 0, 0, 2, 0x00, 0, 0x01},
    {"BIST #4,R0L without C", "67C8", 0x00, 0, 0, 0xFE, 0, 0, 2, 0x10, 0, 0xFE},
    {"BLD #6,R0L", "7768", 0x40, 0, 0, 0x00, 0, 0, 2, 0x40, 0, 0x01},
    {"BILD #6,R0L: its top bit is no number", "77E8", 0x40, 0, 0, 0x01, 0, 0, 2, 0x40, 0, 0x00},
    {"BIAND #1,R0L", "7698", 0x02, 0, 0, 0xFF, 0, 0, 2, 0x02, 0, 0xFE},
    {"BIOR #1,R0L", "7498", 0x00, 0, 0, 0x00, 0, 0, 2, 0x00, 0, 0x01},
    {"BIXOR #7,R0L of 1 with C", "75F8", 0x80, 0, 0, 0x01, 0, 0, 2, 0x80, 0, 0x01},
    {"BXOR #7,R0L of 1 with C", "7578", 0x80, 0, 0, 0x01, 0, 0, 2, 0x80, 0, 0x00},
    {"BSET #3,@ER1 at an odd address", "7D107030", 0, 0x12FFFF41, 0x80, 0xFF, 0, 0, 8, 0, 0x88, 0xFF},
    {"BCLR #7,@FFFF41", "7F417270", 0, 0, 0x80, 0xFF, 0, 0, 8, 0, 0x00, 0xFF},
    {"BNOT R0L,@ER1", "7D106180", 0x0C, 0x00FFFF41, 0x10, 0x00, 0, 0, 8, 0x0C, 0x00, 0x00},
    {"BST #0,@FFFF41 with C", "7F416700", 0, 0, 0x00, 0x01, 0, 0, 8, 0, 0x01, 0x01},
    {"BIST #0,@ER1 with C", "7D106780", 0, 0x00FFFF41, 0xFF, 0x01, 0, 0, 8, 0, 0xFE, 0x01},
    {"BTST R0H,@ER1", "7C106300", 0x0700, 0x00FFFF41, 0x7F, 0x00, 0, 0, 6, 0x0700, 0x7F, 0x04},
    {"BOR #0,@FFFF41", "7E417400", 0, 0, 0x01, 0x00, 0, 0, 6, 0, 0x01, 0x01},
    {"BAND #5,@ER1", "7C107650", 0, 0x00FFFF41, 0xDF, 0xFF, 0, 0, 6, 0, 0xDF, 0xFE},
    {"BLD #1,@ER1 from read-only memory", "7C107710", 0, 0x00000005, 0x00, 0x00, 0, 0, 6, 0, 0x00, 0x01},
    {"BSET in read-only memory: 6", "7D107000", 0, 0x00000005, 0x11, 0x5A, 6, 0x000005, 0, 0, 0x11, 0x5A},
    {"BSET of a bit that is set, in read-only memory: 6 as well", "7D107010", 0, 0x00000005, 0x11, 0x5A, 6, 0x000005, 0, 0, 0x11, 0x5A},
    {"BST in no memory: 5 before 6", "7D106700", 0, 0x00123457, 0x11, 0x5A, 5, 0x123457, 0, 0, 0x11, 0x5A},
    {"BNOT behind working memory: 5", "7F487100", 0, 0, 0x11, 0x5A, 5, 0xFFFF48, 0, 0, 0x11, 0x5A},
    {"BILD before working memory: 5", "7E3F7780", 0, 0, 0x11, 0x5A, 5, 0xFFFF3F, 0, 0, 0x11, 0x5A},
};

static void step_by_hand(const struct done *d)
{
    struct state s = {.base = 0xFFFF40, .rom_n = 8, .ram_n = 8, .regs = {d->er0, d->er1, [H8_CONDITION] = d->condition}};
    uint32_t wanted[10] = {d->er0_after, d->er1, [H8_CONDITION] = d->condition_after};
    uint8_t ram[8] = {0x5A, (uint8_t)d->byte_after, 0x5A, 0x5A, 0x5A, 0x5A, 0x5A, 0x5A};
    memset(s.rom, 0x5A, 8);
    memset(s.ram, 0x5A, 8);
    s.ram[1] = (uint8_t)d->byte;
    uint32_t length = from_hex(d->code, s.rom);
    wanted[H8_PC] = d->number ? 0 : length;
    step_alone(&s);
    const uint32_t *regs = (const uint32_t *)(const void *)regs_lender.now, *answer = (const uint32_t *)(const void *)answer_lender.now;
    if (answer[0] != d->number || answer[1] != d->place || answer[3] != d->states || memcmp(regs, wanted, sizeof wanted)
        || memcmp(ram_lender.now, ram, sizeof ram)) {
        fail("%s: %u at %X, states %u, byte %02X; wanted %u at %X, states %u, byte %02X", d->what, answer[0], answer[1], answer[3],
             ram_lender.now[1], d->number, d->place, d->states, d->byte_after);
        show_registers("after", regs);
        show_registers("wanted", wanted);
    }
    run_too(&s);
    compare_step(&s);
}

/* CODES BY HAND: bytes, and what decode answers; of a code its kind, which, index, spot, index number, address and register. */
struct told { const char *bytes; uint32_t answer, fields[7]; };
static const struct told codes[] = {
    {"701F", 0, {19, 0, 0, 0, 1, 0, 15}}, {"717F", 0, {19, 1, 0, 0, 7, 0, 15}}, {"7207", 0, {19, 2, 0, 0, 0, 0, 7}},
    {"6738", 0, {19, 3, 0, 0, 3, 0, 8}}, {"67B8", 0, {19, 4, 0, 0, 3, 0, 8}}, {"7340", 0, {18, 0, 0, 0, 4, 0, 0}},
    {"7451", 0, {18, 1, 0, 0, 5, 0, 1}}, {"74D1", 0, {18, 2, 0, 0, 5, 0, 1}}, {"7562", 0, {18, 3, 0, 0, 6, 0, 2}},
    {"75E2", 0, {18, 4, 0, 0, 6, 0, 2}}, {"7673", 0, {18, 5, 0, 0, 7, 0, 3}}, {"76F3", 0, {18, 6, 0, 0, 7, 0, 3}},
    {"7704", 0, {18, 7, 0, 0, 0, 0, 4}}, {"7784", 0, {18, 8, 0, 0, 0, 0, 4}}, {"6088", 0, {19, 0, 1, 0, 8, 0, 8}},
    {"61F0", 0, {19, 1, 1, 0, 15, 0, 0}}, {"620F", 0, {19, 2, 1, 0, 0, 0, 15}}, {"6379", 0, {18, 0, 1, 0, 7, 0, 9}},
    {"7D107030", 0, {19, 0, 0, 1, 3, 0, 1}}, {"7F407270", 0, {19, 2, 0, 2, 7, 0x40, 0}}, {"7DF0", 3, {0}},
    {"7D7061F0", 0, {19, 1, 1, 1, 15, 0, 7}}, {"7FFF6290", 0, {19, 2, 1, 2, 9, 0xFF, 0}}, {"7F0067F0", 0, {19, 4, 0, 2, 7, 0, 0}},
    {"7C307350", 0, {18, 0, 0, 1, 5, 0, 3}}, {"7C0063F0", 0, {18, 0, 1, 1, 15, 0, 0}}, {"7E8063A0", 0, {18, 0, 1, 2, 10, 0x80, 0}},
    {"7E4077F0", 0, {18, 8, 0, 2, 7, 0x40, 0}}, {"7C707480", 0, {18, 2, 0, 1, 0, 0, 7}},
    {"7080", 3, {0}}, {"71F8", 3, {0}}, {"728F", 3, {0}}, {"7390", 3, {0}},                     /* 70 to 73: no inverse */
    {"7C", 4, {0}}, {"7D", 4, {0}}, {"7E", 4, {0}}, {"7F", 4, {0}}, {"7E00", 4, {0}}, {"7FFF", 4, {0}},
    {"7C70", 4, {0}}, {"7D00", 4, {0}}, {"7C7073", 4, {0}}, {"7D7060", 4, {0}}, {"7E1277", 4, {0}}, {"7F1267", 4, {0}},
    {"7C80", 3, {0}}, {"7C01", 3, {0}}, {"7C0F", 3, {0}}, {"7D80", 3, {0}}, {"7D78", 3, {0}},   /* no long register, or no 0 */
    {"7C1070", 3, {0}}, {"7C1060", 3, {0}}, {"7C1067", 3, {0}}, {"7C1071", 3, {0}}, {"7C1072", 3, {0}}, {"7C1062", 3, {0}},
    {"7D1073", 3, {0}}, {"7D1063", 3, {0}}, {"7D1074", 3, {0}}, {"7D1077", 3, {0}}, {"7E1070", 3, {0}}, {"7F1073", 3, {0}},
    {"7E1067", 3, {0}}, {"7F1077", 3, {0}}, {"7C1078", 3, {0}}, {"7D1064", 3, {0}}, {"7D1066", 3, {0}},
    {"7C107000", 3, {0}}, {"7C106000", 3, {0}}, {"7D107300", 3, {0}}, {"7D107700", 3, {0}}, {"7E106700", 3, {0}}, {"7F106300", 3, {0}},
    {"7C107301", 3, {0}}, {"7C107308", 3, {0}}, {"7C107380", 3, {0}}, {"7C106301", 3, {0}}, {"7C107401", 3, {0}}, {"7C1074F8", 3, {0}},
    {"7D107001", 3, {0}}, {"7D107080", 3, {0}}, {"7D107180", 3, {0}}, {"7D1072F0", 3, {0}}, {"7D106708", 3, {0}}, {"7D106101", 3, {0}},
    {"7E127301", 3, {0}}, {"7E127380", 3, {0}}, {"7F127280", 3, {0}}, {"7F12678F", 3, {0}}, {"7F126008", 3, {0}}, {"7E12770A", 3, {0}},
    {"6470", 0, {4, 6, 1, 0, 7, 0, 0}}, {"6890", 0, {10, 1, 0, 0, 1, 0, 0}},                    /* neighbours: OR.W, MOV.B */
};

static void code_by_hand(const struct told *t)
{
    uint8_t bytes[8], *lent, out[8];
    uint32_t n = from_hex(t->bytes, bytes), *fields = lend(&regs_lender, 4 * H8_FIELDS), answer[4];
    struct decoded d;
    lent = lend(&rom_lender, n);
    memcpy(lent, bytes, n);
    uint32_t got = h8_decode(lent, n, fields, H8_FIELDS, answer, 3), ours = (uint32_t)decode(lent, n, &d);
    if (got != t->answer || ours != t->answer || (got == 0 && memcmp(fields, t->fields, sizeof t->fields)))
        fail("%s: the library decodes %u, the patterns %u; wanted %u, or other fields", t->bytes, got, ours, t->answer);
    if (got == 0 && (h8_encode(fields, H8_FIELDS, out, 8, answer, 4) || answer[3] != n || memcmp(out, bytes, n)))
        fail("%s: its fields are encoded as something else", t->bytes);
    count(1);
}

/* Fields that are no instruction, with one thing too many or too far. */
static const uint32_t wrong_fields[][7] = {
    {18, 9, 0, 0, 0, 0, 0}, {19, 5, 0, 0, 0, 0, 0}, {18, 0, 2, 0, 0, 0, 0}, {18, 0, 0, 3, 0, 0, 0}, {20, 0, 0, 0, 0, 0, 0},
    {18, 1, 1, 0, 0, 0, 0}, {18, 8, 1, 1, 0, 0, 0}, {19, 3, 1, 0, 0, 0, 0}, {19, 4, 1, 2, 0, 0, 0},         /* no such by register */
    {18, 0, 0, 0, 8, 0, 0}, {19, 0, 0, 1, 8, 0, 0}, {19, 0, 1, 0, 16, 0, 0}, {18, 0, 1, 2, 16, 0, 0},       /* number, its register */
    {19, 0, 0, 0, 0, 0, 16}, {19, 0, 0, 1, 0, 0, 8}, {18, 7, 0, 2, 0, 0, 1}, {18, 7, 0, 2, 0, 256, 0},      /* operand */
    {18, 7, 0, 0, 0, 1, 0}, {19, 0, 1, 1, 0, 1, 0},                                                         /* an address too many */
};

static void fields_by_hand(const uint32_t *f)
{
    uint32_t fields[H8_FIELDS] = {0}, answer[4] = {9, 9, 9, 9};
    uint8_t out[8] = {0};
    memcpy(fields, f, 7 * sizeof *f);
    if (h8_encode(fields, H8_FIELDS, out, 8, answer, 4) != 11 || answer[0] != 11 || answer[1] || answer[2] || answer[3] || form_of(fields) >= 0)
        fail("fields %u %u %u %u %u %u %u are encoded: %u", f[0], f[1], f[2], f[3], f[4], f[5], f[6], answer[0]);
    count(1);
}

static void test_written(void)
{
    begin("bit instructions by hand: results, refusals 5 and 6");
    for (size_t i = 0; i < sizeof by_hand / sizeof *by_hand; i++)
        step_by_hand(&by_hand[i]);
    end("steps");
    begin("bit instructions by hand: codes, cuts and near misses; fields that have no code");
    for (size_t i = 0; i < sizeof codes / sizeof *codes; i++)
        code_by_hand(&codes[i]);
    for (size_t i = 0; i < sizeof wrong_fields / sizeof *wrong_fields; i++)
        fields_by_hand(wrong_fields[i]);
    end("codes");
}

void test_bits(void)
{
    int found = 0;
    test_written();
    begin("bit instructions by truth tables: all bytes and bits, all number registers, in registers and in memory");
    for (int f = 0; f < FORMS && !failing(); f++)
        if (truth_of(f) && ++found)
            all_bits(f);
    if (found != 54 && !failing())
        fail("%d forms", found);
    end("states");
    begin("bit instructions whose number's register is the operand, or part of its address");
    for (int f = 0; f < FORMS && !failing(); f++)
        if (truth_of(f) && by_register(f) && forms[f].form != H8_SPOT_ABS8)
            in_memory(f) ? number_in_address(f) : own_number(f);
    end("states");
    begin("bit instructions at the ends of both memories, in them and outside");
    for (int f = 0; f < FORMS && !failing(); f++)
        if (truth_of(f) && in_memory(f))
            around_ends(f);
    end("states");
}
