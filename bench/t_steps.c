/* Every form's step against the model: random registers, condition bytes and memories with edges forced in, refusals 1 to 7,
   14 and 15 with places; all byte operands of the 8-bit operations; and quotients, by multiplication alone. */
#include "bench.h"
#include <inttypes.h>
#include <string.h>

enum { NUMBERS = 16 };                      /* refusals 1 to 15, and 0 */

static void random_bytes(uint8_t *p, size_t n)
{
    for (size_t i = 0; i < n; i += 8) {
        uint64_t x = any();
        memcpy(p + i, &x, n - i < 8 ? n - i : 8);
    }
}

/* A good board: code of up to some 300 bytes; working memory next to it, at the top, in the usual place or anywhere. */
static void make_board(struct state *s)
{
    s->rom_n = 8 + 2 * below(below(4) ? 28 : 150);
    s->ram_n = 2 * below(below(4) ? 24 : 3);
    switch (below(4)) {
    case 0: s->base = s->rom_n; break;
    case 1: s->base = 16777216 - s->ram_n; break;
    case 2: s->base = 0xFFEF10; break;
    default: s->base = s->rom_n + 2 * below(0x7F0000); break;
    }
    s->ports = 1;
    s->area = some_area(s->base, s->ram_n);
    random_bytes(s->rom, s->rom_n);
    random_bytes(s->ram, s->ram_n);
}

/* An address at or near an end of a memory or of the ports, or inside one, or anywhere. */
static uint32_t some_address(const struct state *s)
{
    uint32_t near = below(12) - 6;
    switch (below(10)) {
    case 8: return s->area.base + near;
    case 9: return s->area.end + near;
    case 0: return s->rom_n + near;
    case 1: return s->base + near;
    case 2: return 16777216 + near;
    case 3: return s->base + s->ram_n + near;
    case 4: return below(s->rom_n);
    case 5: return (uint32_t)any();
    default: return s->base + below(s->ram_n + 1);
    }
}

static int is_bit(int form) { return forms[form].kind == H8_TAKE || forms[form].kind == H8_GIVE; }

/* So that the instruction reaches an interesting address: the register it goes by is set. */
static void aim(struct state *s, const struct decoded *d)
{
    const uint32_t *f = d->fields;
    uint32_t a = some_address(s) & 0xFFFFFF, size = 1u << f[H8_WIDTH];
    if (f[H8_KIND] == H8_MOVE && f[H8_FORM] == H8_DISP)
        a -= (uint32_t)(int32_t)(int16_t)f[H8_VALUE];
    if (f[H8_KIND] == H8_MOVE && f[H8_FORM] == H8_STEP && f[H8_WHICH] == H8_STORE)
        a += size;
    if (f[H8_KIND] == H8_MOVE && f[H8_FORM] <= H8_DISP)
        s->regs[f[H8_OTHER]] = a | (uint32_t)(below(3) ? 0 : any() << 24);
    if (is_bit(d->form) && f[H8_FORM] == H8_SPOT_AT)
        s->regs[f[H8_REG]] = a | (uint32_t)(below(3) ? 0 : any() << 24);
    if (f[H8_KIND] == H8_BSR || f[H8_KIND] == H8_JSR)
        s->regs[7] = a + 4;
    if (f[H8_KIND] == H8_RTS)
        s->regs[7] = a | (uint32_t)(below(3) ? 0 : any() << 24);
}

/* An operand: an address where the form takes one, else a number at an edge. */
static uint32_t some_value(const struct state *s, int form)
{
    const struct form *f = &forms[form];
    if ((f->kind == H8_MOVE && f->form != H8_DISP) || is_bit(form))
        return some_address(s);
    return below(3) ? edge32() : (uint32_t)any();
}

/* A part of a register, by its digit. */
static void set_part(struct state *s, int width, uint32_t digit, uint32_t x)
{
    uint32_t shift = width == H8_BYTE && digit < 8 ? 8 : width == H8_WORD && digit >= 8 ? 16 : 0;
    uint32_t mask = (width == H8_BYTE ? 0xFFu : width == H8_WORD ? 0xFFFFu : ~0u) << shift;
    s->regs[digit & 7] = (s->regs[digit & 7] & ~mask) | (x << shift & mask);
}

/* A digit pair that DAA or DAS has a row for about as often as not. */
static void near_row(struct state *s, const struct decoded *d)
{
    if (d->fields[H8_KIND] != H8_DECIMAL || below(4) == 0)
        return;
    uint32_t x = below(10) << 4 | below(10);
    if (below(2))
        x = (x + 6 * (1 + below(12))) & 255;
    set_part(s, H8_BYTE, d->fields[H8_REG], x);
    s->regs[H8_CONDITION] &= (uint32_t)any() | 0xDE;
}

static int is_product(int form) { return forms[form].kind == H8_MULTIPLY || forms[form].kind == H8_DIVIDE; }

/* A number of so many bits, mostly at an end: near zero, or where the sign turns. */
static uint32_t near_end(int bits)
{
    uint32_t turn = 1u << (bits - 1), x = (below(2) ? turn : 0) + below(5) - 2;
    return (below(4) ? x : (uint32_t)any()) & (2 * turn - 1);
}

static int64_t size_of(int64_t x) { return x < 0 ? -x : x; }

/* The number that the lower bits are, with a sign or without. */
static int64_t number_of(uint32_t x, int bits, int sign)
{
    return (int64_t)x - (sign && x >> (bits - 1) ? (int64_t)1 << bits : 0);
}

/* A dividend whose quotient by y is the last that fits, the first that doesn't, or near these; or it is itself at an end. */
static uint32_t some_dividend(uint32_t y, int bits, int sign)
{
    int64_t divisor = number_of(y, bits, sign), size = size_of(divisor), first = (int64_t)1 << (sign ? bits - 1 : bits);
    int64_t quotient = below(3) ? first - 2 + below(4) : below(1u << bits);
    int64_t remainder = !size || below(3) == 0 ? 0 : below(2) ? size - 1 : below((uint32_t)size);
    int64_t x = (sign && below(2) ? -quotient : quotient) * divisor;
    int down = x < 0 || (x == 0 && sign && below(2));
    return (uint32_t)(below(8) ? down ? x - remainder : x + remainder : near_end(2 * bits));
}

/* Factors at their ends, below any upper half; or a divisor at an end, and a dividend for it. */
static void near_overflow(struct state *s, const struct decoded *d)
{
    const uint32_t *f = d->fields;
    int bits = 8 << f[H8_WIDTH];
    if (!is_product(d->form) || below(4) == 0)
        return;
    uint32_t y = near_end(bits), x = (uint32_t)any() << bits | near_end(bits);
    if (f[H8_KIND] == H8_DIVIDE)
        x = some_dividend(y, bits, f[H8_WHICH] == H8_SIGNED);
    set_part(s, (int)f[H8_WIDTH] + 1, f[H8_REG], x);
    set_part(s, (int)f[H8_WIDTH], f[H8_OTHER], y);
}

/* A form with any registers; every fourth product or quotient has its source in its destination, and every fourth bit
   instruction the number in its operand or in the address of it. */
static int build_some(const struct state *s, int form, uint8_t code[8])
{
    uint32_t value = some_value(s, form), other = (uint32_t)any(), reg = (uint32_t)any();
    if ((is_product(form) || is_bit(form)) && below(4) == 0)
        other = (reg & 7) | (below(2) ? 8 : 0);
    return build(form, other, value, reg, code);
}

static void make_state(struct state *s, int form)
{
    struct decoded d;
    uint8_t code[8];
    make_board(s);
    int n = build_some(s, form, code);
    s->regs[H8_PC] = 2 * below((s->rom_n - (uint32_t)n) / 2 + 1);
    memcpy(s->rom + s->regs[H8_PC], code, (size_t)n);
    decode(code, 8, &d);
    for (int i = 0; i < 8; i++)
        s->regs[i] = edge32();
    s->regs[H8_CONDITION] = below(256);
    aim(s, &d);
    near_row(s, &d);
    near_overflow(s, &d);
}

/* One thing made wrong: board, PC, condition number, place, or the code cut short. */
static void spoil(struct state *s, int form)
{
    uint32_t pc = s->regs[H8_PC], length = (uint32_t)decoder_length(form);
    switch (below(12)) {
    case 10: s->area.bus = below(2) ? below(20) : (uint32_t)any(); break;
    case 11: *(below(2) ? &s->area.base : &s->area.end) = below(2) ? s->base - 4 + below(s->ram_n + 8) : edge32(); break;
    case 0: s->regs[H8_PC] |= 1; break;
    case 1: s->regs[H8_PC] += 16777216u * (1 + below(255)); break;
    case 2: s->regs[H8_CONDITION] += 256 * (1 + below(100)); break;
    case 3: s->base |= 1; break;
    case 4: s->base = below(2) ? s->rom_n - 2 : 16777216 - s->ram_n + 2; break;
    case 5: s->rom_n -= 1; break;
    case 6: s->ram_n += 1; break;
    case 7: s->regs[H8_PC] = below(2) ? s->rom_n + 2 * (below(2) ? 0 : below(100)) : 0xFFFFFE; break;
    default: s->rom_n = pc + 2 * below(length / 2); break;                      /* outside, or cut short */
    }
}

/* 2,500 states a form at least, 1,000 of them completed; of a division, 500 refused by 14. */
static void steps_of(int form, uint64_t numbers[NUMBERS])
{
    struct state s;
    int done = 0;
    uint64_t refused = numbers[14];
    begin("step of %s", forms[form].name);
    for (int k = 0; (k < 2500 || done < 1000) && k < 20000 && !failing(); k++) {
        make_state(&s, form);
        if (k % 8 == 7)
            spoil(&s, form);
        struct outcome o = compare_step(&s);
        done += o.number == 0 && o.form == form;
        numbers[o.number]++;
    }
    if (done < 1000 && !failing())
        fail("only %d states of this form were completed", done);
    if (forms[form].kind == H8_DIVIDE && numbers[14] - refused < 500 && !failing())
        fail("only %" PRIu64 " states of this form were refused by 14", numbers[14] - refused);
    end_quietly();
}

/* Code with a bit turned over, and any place of random code. */
static void steps_anywhere(uint64_t numbers[NUMBERS])
{
    struct state s;
    begin("step at random words and at codes with a bit turned over");
    for (int k = 0; k < 200000 && !failing(); k++) {
        int form = (int)below(FORMS);
        make_state(&s, form);
        s.rom[s.regs[H8_PC] + below((uint32_t)decoder_length(form))] ^= (uint8_t)(1u << below(8));
        if (k % 2)
            s.regs[H8_PC] = 2 * below(s.rom_n / 2);
        numbers[compare_step(&s).number]++;
    }
    end("states");
}

/* A left-out code, whole or cut by the end of read-only memory, some with a bit turned over. */
static void steps_left_out(uint64_t numbers[NUMBERS])
{
    struct state s;
    begin("step at left-out codes, whole, cut short and with a bit turned over");
    for (int k = 0; k < 100000 && !failing(); k++) {
        uint8_t code[LEFT_OUT_LENGTH];
        int which = (int)below(LEFT_OUT);
        uint32_t length = (uint32_t)left_out_length(which);
        make_state(&s, (int)below(FORMS));
        build_left_out(which, any(), code);
        if (k % 4 == 0)
            code[below(length)] ^= (uint8_t)(1u << below(8));
        s.regs[H8_PC] = 2 * below(s.rom_n / 2);
        memcpy(s.rom + s.regs[H8_PC], code, length);
        if (s.regs[H8_PC] + length <= s.rom_n && k % 2)
            s.rom_n = s.regs[H8_PC] + 2 * (1 + below(length / 2));
        numbers[compare_step(&s).number]++;
    }
    end("states");
}

void test_steps(void)
{
    uint64_t n[NUMBERS] = {0}, all = 0;
    for (int f = 0; f < FORMS; f++)
        steps_of(f, n);
    steps_anywhere(n);
    steps_left_out(n);
    begin("step of each of the 239 forms against the model, completed and refused");
    for (int i = 0; i < NUMBERS; i++)
        all += n[i];
    for (int i = 0; i < NUMBERS; i++)
        if ((i <= 7 || i >= 14) && n[i] < 1000)
            fail("answer %d was met only %llu times", i, (unsigned long long)n[i]);
    count(all);
    end("states");
    note("completed %" PRIu64 "; refusals 1 to 7, 14 and 15: %" PRIu64 " %" PRIu64 " %" PRIu64 " %" PRIu64 " %" PRIu64 " %" PRIu64 " %" PRIu64
         " %" PRIu64 " %" PRIu64, n[0], n[1], n[2], n[3], n[4], n[5], n[6], n[7], n[14], n[15]);
}

/* ALL BYTES. A board of the code and no working memory. */
static void byte_state(struct state *s, int form, uint32_t other, uint32_t value, uint32_t reg)
{
    uint8_t code[8];
    memset(s, 0, sizeof *s);
    s->rom_n = (uint32_t)build(form, other, value, reg, code);
    s->base = s->rom_n;
    memcpy(s->rom, code, s->rom_n);
}

/* A digit, byte or word, of another register than this one. */
static uint32_t apart_from(uint32_t digit) { return (digit + 1 + below(7)) % 8 + (below(2) ? 8 : 0); }

/* Both operands, with C and Z set and clear. */
static void all_pairs(int form)
{
    static const uint32_t conditions[] = {0x00, 0xFF, 0x01, 0xFE, 0x04, 0xFB};
    struct state s;
    uint32_t rs = below(16), rd = apart_from(rs);
    for (uint32_t x = 0; x < 65536 && !failing(); x++) {
        byte_state(&s, form, rs, x >> 8, rd);
        set_part(&s, H8_BYTE, rs, x >> 8);
        set_part(&s, H8_BYTE, rd, x & 255);
        uint32_t c = forms[form].which == H8_ADDX || forms[form].which == H8_SUBX ? 6 : 2;
        for (uint32_t i = 0; i < c; i++) {
            s.regs[H8_CONDITION] = conditions[i];
            compare_step(&s);
        }
    }
}

/* One operand with every condition byte. */
static void all_conditions(int form)
{
    struct state s;
    uint32_t rd = below(16);
    for (uint32_t x = 0; x < 65536 && !failing(); x++) {
        byte_state(&s, form, 0, x & 255, rd);
        set_part(&s, H8_BYTE, rd, x & 255);
        s.regs[H8_CONDITION] = x >> 8;
        compare_step(&s);
    }
}

/* All factors, with any upper half of the destination, which doesn't matter. */
static void all_factors(int form)
{
    struct state s;
    uint32_t rs = below(16), rd = apart_from(rs);
    for (uint32_t x = 0; x < 2 * 65536 && !failing(); x++) {
        byte_state(&s, form, rs, 0, rd);
        set_part(&s, H8_BYTE, rs, x >> 8 & 255);
        set_part(&s, H8_WORD, rd, below(256) << 8 | (x & 255));
        s.regs[H8_CONDITION] = x >> 16 ? 0xFF : 0x00;
        compare_step(&s);
    }
}

/* All dividends by one divisor. */
static void all_dividends(int form, uint32_t divisor)
{
    struct state s;
    uint32_t rs = below(16), rd = apart_from(rs);
    byte_state(&s, form, rs, 0, rd);
    set_part(&s, H8_BYTE, rs, divisor);
    for (uint32_t x = 0; x < 65536 && !failing(); x++) {
        set_part(&s, H8_WORD, rd, x);
        s.regs[H8_CONDITION] = x & 1 ? 0xFF : 0x00;
        compare_step(&s);
    }
}

/* The source is either half of the destination. */
static void all_own_parts(int form)
{
    struct state s;
    uint32_t rd = below(8);
    for (uint32_t x = 0; x < 2 * 65536 && !failing(); x++) {
        byte_state(&s, form, rd + (x >> 16 ? 8 : 0), 0, rd);
        set_part(&s, H8_WORD, rd, x & 65535);
        s.regs[H8_CONDITION] = below(256);
        compare_step(&s);
    }
}

static void test_byte_products(void)
{
    static const uint8_t divisors[] = {0, 1, 2, 3, 5, 7, 0x10, 0x40, 0x7E, 0x7F, 0x80, 0x81, 0x82, 0xC0, 0xFE, 0xFF};
    int found = 0;
    begin("all byte operands of MULXU and MULXS; all dividends of DIVXU and DIVXS by 16 divisors; sources in their destination");
    for (int f = 0; f < FORMS && !failing(); f++) {
        if (!is_product(f) || forms[f].width != H8_BYTE)
            continue;
        found++;
        all_own_parts(f);
        if (forms[f].kind == H8_MULTIPLY)
            all_factors(f);
        else
            for (size_t i = 0; i < sizeof divisors; i++)
                all_dividends(f, divisors[i]);
    }
    if (found != 4)
        fail("%d forms", found);
    end("states");
}

/* QUOTIENTS WITHOUT DIVIDING. The source is R0L or R0, the destination R1 or ER1. */
struct division {
    int form, bits, sign;
    uint8_t *rom, *ram;
    uint32_t *regs, *answer;
};

static struct division division(int form)
{
    struct division d = {form, 8 << forms[form].width, forms[form].which == H8_SIGNED, lend(&rom_lender, (size_t)decoder_length(form)),
                         lend(&ram_lender, 0), lend(&regs_lender, 40), lend_step_answer()};
    uint8_t code[8];
    memcpy(d.rom, code, (size_t)build(form, d.bits == 8 ? 8 : 0, 0, 1, code));
    return d;
}

/* 2^bits quotients fit without a sign; with one the sizes below half of that, and one more where the quotient is negative. */
static int fits(const struct division *d, int64_t x, int64_t y)
{
    int64_t all = (int64_t)1 << d->bits;
    int64_t sizes = d->sign ? all / 2 + ((x < 0) != (y < 0)) : all;
    return size_of(x) < sizes * size_of(y);
}

/* The quotient below and the remainder above: only one pair does all this. */
static int is_quotient(const struct division *d, int64_t x, int64_t y, uint32_t after)
{
    int64_t q = number_of(after & ((1u << d->bits) - 1), d->bits, d->sign), r = number_of(after >> d->bits, d->bits, d->sign);
    return x == q * y + r && size_of(r) < size_of(y) && (r == 0 || (r < 0) == (x < 0));
}

/* One step: whether it is refused as it should be, or gives the quotient, the remainder and N, and clears Z. */
static int divides(const struct division *d, uint32_t dividend, uint32_t divisor, uint32_t condition)
{
    uint32_t above = d->bits == 8 ? 0xABCD0000 : 0, length = (uint32_t)decoder_length(d->form), *regs = d->regs;
    int64_t x = number_of(dividend, 2 * d->bits, d->sign), y = number_of(divisor, d->bits, d->sign);
    uint32_t negative = d->sign ? (x < 0) != (y < 0) : divisor >> (d->bits - 1);
    regs[0] = divisor;
    regs[1] = above | dividend;
    regs[H8_PC] = 0;
    regs[H8_CONDITION] = condition;
    uint32_t got = h8_step(plain_board(8), H8_BOARD, d->rom, length, d->ram, 0, regs, 10, d->answer, H8_STEP_ANSWER);
    if (!untouched(d->answer))
        return 0;
    if (!fits(d, x, y))
        return got == 14 && d->answer[1] == 0 && d->answer[2] == 0 && d->answer[3] == 0 && regs[0] == divisor && regs[1] == (above | dividend)
            && regs[H8_PC] == 0 && regs[H8_CONDITION] == condition;
    return got == 0 && d->answer[3] == forms[d->form].states && regs[0] == divisor && is_quotient(d, x, y, regs[1] ^ above)
        && regs[H8_PC] == length && regs[H8_CONDITION] == ((condition & 0xF3) | negative << 3);
}

static void check_division(const struct division *d, uint32_t dividend, uint32_t divisor)
{
    uint32_t condition = dividend & 1 ? 0xFF : 0x00;
    if (!divides(d, dividend, divisor, condition)) {
        fail("%s divides %X by %X", forms[d->form].name, dividend, divisor);
        show_registers("after", d->regs);
    }
    count(1);
}

static void test_quotients(void)
{
    begin("quotients by multiplication alone: all byte operands of DIVXU and DIVXS, word operands at their ends and any");
    for (int f = 0; f < FORMS && !failing(); f++) {
        if (forms[f].kind != H8_DIVIDE)
            continue;
        struct division d = division(f);
        memset(d.regs, 0, 40);
        for (uint32_t k = 0; d.bits == 8 && k < 1u << 24 && !failing(); k++)
            check_division(&d, k & 65535, k >> 16);
        for (int k = 0; d.bits == 16 && k < 1000000 && !failing(); k++) {
            uint32_t y = near_end(16);
            check_division(&d, k % 4 ? some_dividend(y, 16, d.sign) : (uint32_t)any(), y);
        }
    }
    end("states");
}

void test_bytes(void)
{
    int pairs = 0, singles = 0;
    begin("all byte operands: pairs of ADD SUB CMP MOV ADDX SUBX OR XOR AND, register and immediate");
    for (int f = 0; f < FORMS && !failing(); f++)
        if (forms[f].kind == H8_ALU && forms[f].width == H8_BYTE && ++pairs)
            all_pairs(f);
    if (pairs != 17)
        fail("%d forms", pairs);
    end("states");
    begin("all byte operands with every condition byte: INC DEC DAA DAS, shifts, NOT NEG, STC LDC ORC XORC ANDC");
    for (int f = 0; f < FORMS && !failing(); f++) {
        uint8_t k = forms[f].kind;
        int byte = forms[f].width == H8_BYTE && (k == H8_INCDEC || k == H8_SHIFT || k == H8_UNARY);
        if ((byte || k == H8_DECIMAL || k == H8_STC || k == H8_LDC || k == H8_CCR) && ++singles)
            all_conditions(f);
    }
    if (singles != 20)
        fail("%d forms", singles);
    end("states");
    test_byte_products();
    test_quotients();
}
