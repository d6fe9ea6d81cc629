#include "plain.h"

#define ALWAYS static inline __attribute__((always_inline))

/* Compiled twice: plain_step.c takes the step, which lists its accesses; here are the rest, without a list, so that a run does no more than
   the library's must. */
#ifndef LISTED
#define LISTED 0
#endif

enum { CF = 1, VF = 2, ZF = 4, NF = 8, HF = 32 };

/* The port area, by its length, and what an access in it takes beyond 2 states. */
struct ports { uint32_t base, n, byte, word; };

struct machine {
    uint32_t er[8], pc, cc;
    const uint8_t *rom;
    uint8_t *ram;
    uint32_t rom_n, base, ram_n;
    struct ports ports;
    uint32_t more;                          /* states beyond those of on-chip memory, of this step */
    uint32_t number, place, group;
    uint32_t count, list[H8_STEP_ANSWER - H8_ACCESSES];     /* of this step, where it is listed */
};

/* Registers by digit. */
ALWAYS uint32_t get8(const struct machine *m, uint32_t d) { return m->er[d & 7] >> (d & 8 ? 0 : 8) & 0xFF; }
ALWAYS uint32_t get16(const struct machine *m, uint32_t d) { return m->er[d & 7] >> (d & 8 ? 16 : 0) & 0xFFFF; }
ALWAYS void put8(struct machine *m, uint32_t d, uint32_t x)
{
    uint32_t s = d & 8 ? 0 : 8;
    m->er[d & 7] = (m->er[d & 7] & ~(0xFFu << s)) | x << s;
}
ALWAYS void put16(struct machine *m, uint32_t d, uint32_t x)
{
    uint32_t s = d & 8 ? 16 : 0;
    m->er[d & 7] = (m->er[d & 7] & ~(0xFFFFu << s)) | x << s;
}
ALWAYS uint32_t get(const struct machine *m, uint32_t d, int bits)
{
    return bits == 8 ? get8(m, d) : bits == 16 ? get16(m, d) : m->er[d & 7];
}
ALWAYS void put(struct machine *m, uint32_t d, uint32_t x, int bits)
{
    if (bits == 8)
        put8(m, d, x);
    else if (bits == 16)
        put16(m, d, x);
    else
        m->er[d & 7] = x;
}
ALWAYS uint32_t top(int bits) { return 1u << (bits - 1); }
ALWAYS uint32_t mask(int bits) { return bits == 32 ? ~0u : (1u << bits) - 1; }

ALWAYS int refuse(struct machine *m, uint32_t number, uint32_t place)
{
    m->number = number;
    m->place = place;
    return 0;
}

/* Memory. Words and longwords are taken at the even address. */
ALWAYS const uint8_t *seen(const struct machine *m, uint32_t a)
{
    if (a < m->rom_n)
        return m->rom + a;
    return a - m->base < m->ram_n ? m->ram + (a - m->base) : 0;
}
ALWAYS uint32_t more_at(const struct ports *k, uint32_t a, int bits)
{
    return a - k->base >= k->n ? 0 : bits == 8 ? k->byte : k->word;
}
/* An access is made. */
ALWAYS void made(struct machine *m, uint32_t a, int bits, uint32_t write)
{
    m->more += more_at(&m->ports, a, bits);
    if (LISTED) {
        uint32_t *entry = m->list + H8_ACCESS * m->count++;
        entry[H8_ADDRESS] = a;
        entry[H8_BYTES] = bits == 8 ? 1 : 2;
        entry[H8_WRITE] = write;
    }
}
ALWAYS int load(struct machine *m, uint32_t ea, int bits, uint32_t *x)
{
    uint32_t a = ea & (bits == 8 ? 0xFFFFFF : 0xFFFFFE), b = (a + 2) & 0xFFFFFF;
    const uint8_t *p = seen(m, a), *q;
    if (!p)
        return refuse(m, 5, a);
    made(m, a, bits, 0);
    if (bits == 8)
        return *x = p[0], 1;
    *x = (uint32_t)p[0] << 8 | p[1];
    if (bits == 16)
        return 1;
    q = seen(m, b);
    if (!q)
        return refuse(m, 5, b);
    made(m, b, bits, 0);
    *x = *x << 16 | (uint32_t)q[0] << 8 | q[1];
    return 1;
}
ALWAYS int save(struct machine *m, uint32_t ea, int bits, uint32_t x)
{
    uint32_t a = ea & (bits == 8 ? 0xFFFFFF : 0xFFFFFE), b = (a + 2) & 0xFFFFFF;
    if (a - m->base >= m->ram_n)
        return refuse(m, 6, a);
    if (bits == 32 && b - m->base >= m->ram_n)
        return refuse(m, 6, b);
    uint8_t *p = m->ram + (a - m->base);
    made(m, a, bits, 1);
    if (bits == 8)
        return p[0] = (uint8_t)x, 1;
    if (bits == 32) {
        uint8_t *q = m->ram + (b - m->base);
        made(m, b, bits, 1);
        q[0] = (uint8_t)(x >> 8);
        q[1] = (uint8_t)x;
        x >>= 16;
    }
    p[0] = (uint8_t)(x >> 8);
    p[1] = (uint8_t)x;
    return 1;
}

/* Flags. */
ALWAYS uint32_t nz(uint32_t r, int bits) { return (r & top(bits) ? NF : 0) | (r == 0 ? ZF : 0); }
ALWAYS void moved(struct machine *m, uint32_t r, int bits) { m->cc = (m->cc & ~(uint32_t)(NF | ZF | VF)) | nz(r, bits); }

ALWAYS uint32_t sum(struct machine *m, uint32_t d, uint32_t s, uint32_t carry, int bits)
{
    uint64_t wide = (uint64_t)d + s + carry;
    uint32_t r = (uint32_t)wide & mask(bits);
    m->cc = (m->cc & ~(uint32_t)(HF | NF | ZF | VF | CF)) | nz(r, bits) | (wide >> bits & 1 ? CF : 0)
        | ((d ^ s ^ r) >> (bits - 4) & 1 ? HF : 0) | (~(d ^ s) & (d ^ r) & top(bits) ? VF : 0);
    return r;
}
ALWAYS uint32_t difference(struct machine *m, uint32_t d, uint32_t s, uint32_t borrow, int bits)
{
    uint64_t wide = (uint64_t)d - s - borrow;
    uint32_t r = (uint32_t)wide & mask(bits);
    m->cc = (m->cc & ~(uint32_t)(HF | NF | ZF | VF | CF)) | nz(r, bits) | (wide >> bits & 1 ? CF : 0)
        | ((d ^ s ^ r) >> (bits - 4) & 1 ? HF : 0) | ((d ^ s) & (d ^ r) & top(bits) ? VF : 0);
    return r;
}
/* ADDX, SUBX: Z stays when the result is zero. */
ALWAYS void sticky_zero(struct machine *m, uint32_t before) { m->cc &= ~(uint32_t)ZF | before; }

enum { ADD, SUB, CMP, MOV, ADDX, SUBX, OR, XOR, AND };

ALWAYS int alu(struct machine *m, int op, uint32_t s, uint32_t d, int bits)
{
    uint32_t x = op == MOV ? 0 : get(m, d, bits), old = m->cc;
    switch (op) {
    case ADD: put(m, d, sum(m, x, s, 0, bits), bits); break;
    case SUB: put(m, d, difference(m, x, s, 0, bits), bits); break;
    case CMP: difference(m, x, s, 0, bits); break;
    case ADDX: put(m, d, sum(m, x, s, old & CF, bits), bits); sticky_zero(m, old); break;
    case SUBX: put(m, d, difference(m, x, s, old & CF, bits), bits); sticky_zero(m, old); break;
    case OR: x |= s; moved(m, x, bits); put(m, d, x, bits); break;
    case XOR: x ^= s; moved(m, x, bits); put(m, d, x, bits); break;
    case AND: x &= s; moved(m, x, bits); put(m, d, x, bits); break;
    default: moved(m, s, bits); put(m, d, s, bits); break;
    }
    return 2;
}
ALWAYS int alu_regs(struct machine *m, int op, uint32_t b1, int bits)
{
    return alu(m, op, get(m, b1 >> 4, bits), b1 & 15, bits);
}
/* 0A, 0F, 1A, 1F with the upper digit 8 to F. */
ALWAYS int alu_long(struct machine *m, int op, uint32_t b1)
{
    return b1 & 8 ? refuse(m, 3, m->pc) : alu(m, op, m->er[b1 >> 4 & 7], b1, 32);
}

ALWAYS int step_by(struct machine *m, uint32_t d, uint32_t by, int down, int bits)
{
    uint32_t x = get(m, d, bits), r = (down ? x - by : x + by) & mask(bits);
    uint32_t v = down ? x & ~r : ~x & r;
    m->cc = (m->cc & ~(uint32_t)(NF | ZF | VF)) | nz(r, bits) | (v & top(bits) ? VF : 0);
    put(m, d, r, bits);
    return 2;
}
static int group_0b(struct machine *m, uint32_t b1, int down)
{
    uint32_t d = b1 & 15, e = d & 7, by = b1 >> 4 == 0 ? 1 : b1 >> 4 == 8 ? 2 : 4;
    switch (b1 >> 4) {
    case 5: return step_by(m, d, 1, down, 16);
    case 13: return step_by(m, d, 2, down, 16);
    case 7: return d > 7 ? refuse(m, 3, m->pc) : step_by(m, e, 1, down, 32);
    case 15: return d > 7 ? refuse(m, 3, m->pc) : step_by(m, e, 2, down, 32);
    case 0: case 8: case 9:
        if (d > 7)
            return refuse(m, 3, m->pc);
        m->er[e] += down ? 0 - by : by;
        return 2;
    default: return refuse(m, 3, m->pc);
    }
}

static int adjust_up(struct machine *m, uint32_t d)
{
    uint32_t x = get8(m, d), c = m->cc & CF, h = m->cc & HF, up = x >> 4, low = x & 15, add;
    if (h ? low > 3 : 0)
        return refuse(m, 7, m->pc);
    add = h || low > 9 ? 6 : 0;
    if (c) {
        if (up > (h ? 3u : 2u))
            return refuse(m, 7, m->pc);
        add += 0x60;
    } else if (up > (!h && low > 9 ? 8u : 9u)) {
        add += 0x60;
    }
    x = (x + add) & 0xFF;
    m->cc = (m->cc & ~(uint32_t)(NF | ZF)) | nz(x, 8) | (add >= 0x60 ? CF : 0);
    put8(m, d, x);
    return 2;
}
static int adjust_down(struct machine *m, uint32_t d)
{
    uint32_t x = get8(m, d), c = m->cc & CF, h = m->cc & HF, up = x >> 4, low = x & 15;
    int good = (h ? low >= 6 : low <= 9) && (c ? up >= (h ? 6u : 7u) : up <= (h ? 8u : 9u));
    if (!good)
        return refuse(m, 7, m->pc);
    x = (x + (h ? 0xFA : 0) + (c ? 0xA0 : 0)) & 0xFF;
    m->cc = (m->cc & ~(uint32_t)(NF | ZF)) | nz(x, 8);
    put8(m, d, x);
    return 2;
}

/* SHLL SHLR ROTXL ROTXR by k; with the upper digit 8 SHAL SHAR ROTL ROTR. */
ALWAYS int shift(struct machine *m, int k, int second, uint32_t d, int bits)
{
    uint32_t x = get(m, d, bits), t = x & top(bits) ? 1 : 0, in, r, out;
    if (k & 1) {
        in = k == 1 ? (second ? t : 0) : (second ? x & 1 : m->cc & CF);
        r = x >> 1 | in << (bits - 1);
        out = x & 1;
    } else {
        in = k == 0 ? 0 : (second ? t : m->cc & CF);
        r = (x << 1 & mask(bits)) | in;
        out = t;
    }
    m->cc = (m->cc & ~(uint32_t)(NF | ZF | VF | CF)) | nz(r, bits) | (out ? CF : 0)
        | (k == 0 && second && (x ^ r) & top(bits) ? VF : 0);
    put(m, d, r, bits);
    return 2;
}
ALWAYS int shifts(struct machine *m, int k, uint32_t b1)
{
    uint32_t d = b1 & 15, second = b1 >> 7;
    switch (b1 >> 4 & 7) {
    case 0: return shift(m, k, (int)second, d, 8);
    case 1: return shift(m, k, (int)second, d, 16);
    case 3: return d > 7 ? refuse(m, 3, m->pc) : shift(m, k, (int)second, d, 32);
    default: return refuse(m, 3, m->pc);
    }
}

ALWAYS int unary(struct machine *m, int kind, uint32_t d, int bits)
{
    uint32_t x = get(m, d, bits), r, half = mask(bits / 2);
    if (kind == 1) {
        put(m, d, difference(m, 0, x, 0, bits), bits);
        return 2;
    }
    r = kind == 0 ? ~x & mask(bits) : kind == 2 ? x & half : x & top(bits / 2) ? x | (mask(bits) & ~half) : x & half;
    moved(m, r, bits);
    put(m, d, r, bits);
    return 2;
}
static int group_17(struct machine *m, uint32_t b1)
{
    uint32_t d = b1 & 15;
    switch (b1 >> 4) {
    case 0: return unary(m, 0, d, 8);
    case 1: return unary(m, 0, d, 16);
    case 3: return d > 7 ? refuse(m, 3, m->pc) : unary(m, 0, d, 32);
    case 5: return unary(m, 2, d, 16);
    case 7: return d > 7 ? refuse(m, 3, m->pc) : unary(m, 2, d, 32);
    case 8: return unary(m, 1, d, 8);
    case 9: return unary(m, 1, d, 16);
    case 11: return d > 7 ? refuse(m, 3, m->pc) : unary(m, 1, d, 32);
    case 13: return unary(m, 3, d, 16);
    case 15: return d > 7 ? refuse(m, 3, m->pc) : unary(m, 3, d, 32);
    default: return refuse(m, 3, m->pc);
    }
}

/* MULXU and MULXS: the destination's lower half times the source, which has so many bits. */
ALWAYS int multiply(struct machine *m, uint32_t b1, int bits, int states)
{
    put(m, b1 & 15, (get(m, b1 & 15, 2 * bits) & mask(bits)) * get(m, b1 >> 4, bits), 2 * bits);
    return states;
}
ALWAYS int multiply_signed(struct machine *m, uint32_t b1, int bits, int states)
{
    uint32_t x = get(m, b1 & 15, 2 * bits), y = get(m, b1 >> 4, bits);
    int32_t r = bits == 8 ? (int8_t)x * (int8_t)y : (int16_t)x * (int16_t)y;
    m->cc = (m->cc & ~(uint32_t)(NF | ZF)) | (r < 0 ? NF : 0) | (r == 0 ? ZF : 0);
    put(m, b1 & 15, (uint32_t)r & mask(2 * bits), 2 * bits);
    return states;
}

/* DIVXU and DIVXS. The quotient fits if the dividend's upper half is below the divisor; zero is never above anything. */
ALWAYS int divide(struct machine *m, uint32_t b1, int bits, int states)
{
    uint32_t x = get(m, b1 & 15, 2 * bits), y = get(m, b1 >> 4, bits);
    if (x >> bits >= y)
        return refuse(m, 14, m->pc);
    m->cc = (m->cc & ~(uint32_t)(NF | ZF)) | (y & top(bits) ? NF : 0);
    put(m, b1 & 15, x % y << bits | x / y, 2 * bits);
    return states;
}
/* By size and sign: the smallest quotient is one larger in size than the largest. */
ALWAYS int divide_signed(struct machine *m, uint32_t b1, int bits, int states)
{
    uint32_t x = get(m, b1 & 15, 2 * bits), y = get(m, b1 >> 4, bits), x_minus = x & top(2 * bits), y_minus = y & top(bits);
    uint32_t n = !x_minus != !y_minus, q, r;
    x = x_minus ? (0 - x) & mask(2 * bits) : x;
    y = y_minus ? (0 - y) & mask(bits) : y;
    if (x >> bits >= y || x / y > top(bits) - 1 + n)
        return refuse(m, 14, m->pc);
    q = x / y;
    r = x_minus ? (0 - x % y) & mask(bits) : x % y;
    m->cc = (m->cc & ~(uint32_t)(NF | ZF)) | (n ? NF : 0);
    put(m, b1 & 15, r << bits | (n ? (0 - q) & mask(bits) : q), 2 * bits);
    return states;
}

ALWAYS int16_t s16(uint32_t x) { return (int16_t)x; }
ALWAYS uint32_t word_at(const struct machine *m, uint32_t a) { return (uint32_t)m->rom[a] << 8 | m->rom[a + 1]; }

/* MOV with memory, the address known. */
ALWAYS int fetch_in(struct machine *m, uint32_t ea, uint32_t d, int bits)
{
    uint32_t x;
    if (!load(m, ea, bits, &x))
        return 0;
    moved(m, x, bits);
    put(m, d, x, bits);
    return 1;
}
ALWAYS int send_out(struct machine *m, uint32_t ea, uint32_t d, int bits)
{
    uint32_t x = get(m, d, bits);
    if (!save(m, ea, bits, x))
        return 0;
    moved(m, x, bits);
    return 1;
}
ALWAYS int either_way(struct machine *m, uint32_t ea, uint32_t d, int bits, int store, int states)
{
    return (store ? send_out(m, ea, d, bits) : fetch_in(m, ea, d, bits)) ? states : 0;
}
/* @ER+ and @-ER: a refusal leaves the register as it was. */
ALWAYS int stepping(struct machine *m, uint32_t n, uint32_t d, int bits, int store, int states)
{
    uint32_t old = m->er[n], by = (uint32_t)bits / 8;
    m->er[n] = store ? old - by : old + by;
    if (store ? send_out(m, m->er[n], d, bits) : fetch_in(m, old, d, bits))
        return states;
    m->er[n] = old;
    return 0;
}

/* aa:16 and aa:24 of 6A and 6B; `at` is where the address begins, `prefix` the bytes before 6A or 6B. */
ALWAYS int absolute(struct machine *m, uint32_t b1, uint32_t prefix, int bits, uint32_t *pc, int more)
{
    uint32_t at = m->pc + prefix + 2, left = m->rom_n - at, d = b1 & 15;
    int store = (int)(b1 >> 7);
    if ((b1 & 0x50) || (bits == 32 && d > 7))
        return refuse(m, 3, m->pc);
    if (left < 2)
        return refuse(m, 4, m->pc);
    if (!(b1 & 0x20)) {
        *pc = at + 2;
        return either_way(m, (uint32_t)(int32_t)s16(word_at(m, at)), d, bits, store, more + 6);
    }
    if (m->rom[at])
        return refuse(m, 3, m->pc);
    if (left < 4)
        return refuse(m, 4, m->pc);
    *pc = at + 4;
    return either_way(m, (uint32_t)m->rom[at + 1] << 16 | word_at(m, at + 2), d, bits, store, more + 8);
}
ALWAYS int displaced(struct machine *m, uint32_t b1, uint32_t prefix, int bits, uint32_t *pc, int states)
{
    uint32_t at = m->pc + prefix + 2;
    if (at >= m->rom_n)
        return refuse(m, 4, m->pc);
    *pc = at + 2;
    return either_way(m, m->er[b1 >> 4 & 7] + (uint32_t)(int32_t)s16(word_at(m, at)), b1 & 15, bits, (int)(b1 >> 7), states);
}

/* 0100: MOV.L with memory. */
static int group_0100(struct machine *m, uint32_t *pc)
{
    uint32_t at = m->pc + 2, b0, b1;
    if (at >= m->rom_n)
        return refuse(m, 4, m->pc);
    b0 = m->rom[at];
    b1 = m->rom[at + 1];
    if (b0 == 0x6B)
        return absolute(m, b1, 2, 32, pc, 4);
    if ((b0 != 0x69 && b0 != 0x6D && b0 != 0x6F) || b1 & 8)
        return refuse(m, 3, m->pc);
    *pc = at + 2;
    if (b0 == 0x69)
        return either_way(m, m->er[b1 >> 4 & 7], b1, 32, (int)(b1 >> 7), 8);
    if (b0 == 0x6D)
        return stepping(m, b1 >> 4 & 7, b1, 32, (int)(b1 >> 7), 10);
    return displaced(m, b1, 2, 32, pc, 10);
}
/* 01F0: OR.L, XOR.L, AND.L. */
static int group_01f0(struct machine *m, uint32_t *pc)
{
    uint32_t at = m->pc + 2, b0, b1;
    if (at >= m->rom_n)
        return refuse(m, 4, m->pc);
    b0 = m->rom[at];
    b1 = m->rom[at + 1];
    if (b0 < 0x64 || b0 > 0x66 || b1 & 0x88)
        return refuse(m, 3, m->pc);
    *pc = at + 2;
    return 2 + (b0 == 0x64 ? alu(m, OR, m->er[b1 >> 4], b1, 32)
                : b0 == 0x65 ? alu(m, XOR, m->er[b1 >> 4], b1, 32) : alu(m, AND, m->er[b1 >> 4], b1, 32));
}

/* 01C0: MULXS; 01D0: DIVXS. */
static int group_01c0(struct machine *m, uint32_t b1, uint32_t *pc)
{
    uint32_t at = m->pc + 2, code, digits;
    if (at >= m->rom_n)
        return refuse(m, 4, m->pc);
    code = b1 << 8 | m->rom[at];
    digits = m->rom[at + 1];
    *pc = at + 2;
    switch (code) {
    case 0xC050: return multiply_signed(m, digits, 8, 16);
    case 0xC052: return digits & 8 ? refuse(m, 3, m->pc) : multiply_signed(m, digits, 16, 24);
    case 0xD051: return divide_signed(m, digits, 8, 16);
    case 0xD053: return digits & 8 ? refuse(m, 3, m->pc) : divide_signed(m, digits, 16, 24);
    default: return refuse(m, 3, m->pc);
    }
}

ALWAYS int seventy(struct machine *m, uint32_t digit, uint32_t s, uint32_t d, int bits)
{
    switch (digit) {
    case 0: return alu(m, MOV, s, d, bits);
    case 1: return alu(m, ADD, s, d, bits);
    case 2: return alu(m, CMP, s, d, bits);
    case 3: return alu(m, SUB, s, d, bits);
    case 4: return alu(m, OR, s, d, bits);
    case 5: return alu(m, XOR, s, d, bits);
    default: return alu(m, AND, s, d, bits);
    }
}
static int group_79(struct machine *m, uint32_t b1, uint32_t *pc)
{
    if (b1 >> 4 > 6)
        return refuse(m, 3, m->pc);
    if (m->rom_n - m->pc < 4)
        return refuse(m, 4, m->pc);
    *pc = m->pc + 4;
    return 2 + seventy(m, b1 >> 4, word_at(m, m->pc + 2), b1 & 15, 16);
}
static int group_7a(struct machine *m, uint32_t b1, uint32_t *pc)
{
    if (b1 >> 4 > 6 || b1 & 8)
        return refuse(m, 3, m->pc);
    if (m->rom_n - m->pc < 6)
        return refuse(m, 4, m->pc);
    *pc = m->pc + 6;
    return 4 + seventy(m, b1 >> 4, word_at(m, m->pc + 2) << 16 | word_at(m, m->pc + 4), b1 & 7, 32);
}

/* THE BIT INSTRUCTIONS by their byte, 60 to 63, 67 and 70 to 77, and the byte behind it: above the bit's number (with 8 the
   inverse) or the register that has it, below the operand's register. */
ALWAYS int bit_gives(uint32_t op) { return op <= 0x72 && op != 0x63; }
ALWAYS int bit_known(uint32_t op, uint32_t digits)
{
    if (op >> 3 == 0x60 >> 3)
        return op <= 0x63 || op == 0x67;
    return op >> 3 == 0x70 >> 3 && (op > 0x73 || digits < 0x80);
}
ALWAYS uint32_t bit_of(const struct machine *m, uint32_t op, uint32_t digits)
{
    return 1u << ((op <= 0x63 ? get8(m, digits >> 4) : digits >> 4) & 7);
}
ALWAYS uint32_t with_bit(const struct machine *m, uint32_t op, uint32_t digits, uint32_t x)
{
    uint32_t bit = bit_of(m, op, digits);
    switch (op & 7) {
    case 0: return x | bit;
    case 1: return x ^ bit;
    case 2: return x & ~bit;
    default: return (m->cc & CF) != digits >> 7 ? x | bit : x & ~bit;
    }
}
ALWAYS void take_bit(struct machine *m, uint32_t op, uint32_t digits, uint32_t x)
{
    uint32_t b = (x & bit_of(m, op, digits) ? 1 : 0) ^ (op > 0x73 ? digits >> 7 : 0);
    switch (op & 7) {
    case 3: m->cc = b ? m->cc & ~(uint32_t)ZF : m->cc | ZF; break;
    case 4: m->cc |= b; break;
    case 5: m->cc ^= b; break;
    case 6: m->cc &= ~(uint32_t)CF | b; break;
    default: m->cc = (m->cc & ~(uint32_t)CF) | b; break;
    }
}
static int bit_in_register(struct machine *m, uint32_t op, uint32_t digits)
{
    uint32_t d = digits & 15;
    if (!bit_known(op, digits))
        return refuse(m, 3, m->pc);
    if (bit_gives(op))
        put8(m, d, with_bit(m, op, digits, get8(m, d)));
    else
        take_bit(m, op, digits, get8(m, d));
    return 2;
}
/* 7C to 7F: where the operand is, @ER or FFFFaa; the odd ones write it. Then the instruction, its last digit 0. */
static int bit_in_memory(struct machine *m, uint32_t b0, uint32_t b1, uint32_t *pc)
{
    uint32_t at = m->pc + 2, op, digits, ea, x;
    if (b0 < 0x7E && b1 & 0x8F)
        return refuse(m, 3, m->pc);
    if (at >= m->rom_n)
        return refuse(m, 4, m->pc);
    op = m->rom[at];
    digits = m->rom[at + 1];
    if (!bit_known(op, digits) || digits & 15 || bit_gives(op) != (int)(b0 & 1))
        return refuse(m, 3, m->pc);
    *pc = at + 2;
    ea = b0 < 0x7E ? m->er[b1 >> 4] : 0xFFFF00 | b1;
    if (!load(m, ea, 8, &x))
        return 0;
    if (bit_gives(op))
        return save(m, ea, 8, with_bit(m, op, digits, x)) ? 8 : 0;
    take_bit(m, op, digits, x);
    return 6;
}

ALWAYS int holds(uint32_t cc, uint32_t digit)
{
    int c = cc & CF ? 1 : 0, v = cc & VF ? 1 : 0, z = cc & ZF ? 1 : 0, n = cc & NF ? 1 : 0, yes;
    switch (digit >> 1) {
    case 0: yes = 1; break;
    case 1: yes = !(c | z); break;
    case 2: yes = !c; break;
    case 3: yes = !z; break;
    case 4: yes = !v; break;
    case 5: yes = !n; break;
    case 6: yes = !(n ^ v); break;
    default: yes = !(z | (n ^ v)); break;
    }
    return digit & 1 ? !yes : yes;
}
ALWAYS int call(struct machine *m, uint32_t next, uint32_t target, uint32_t *pc, int states)
{
    if (!save(m, m->er[7] - 4, 32, next))
        return 0;
    m->er[7] -= 4;
    *pc = target;
    return states;
}

/* 54, 55, 58 to 5F. */
static int group_5(struct machine *m, uint32_t b0, uint32_t b1, uint32_t *pc)
{
    uint32_t at = m->pc, x;
    int whole = m->rom_n - at >= 4;
    switch (b0) {
    case 0x54:
        if (b1 != 0x70)
            return refuse(m, 3, at);
        if (!load(m, m->er[7], 32, &x))
            return 0;
        m->er[7] += 4;
        *pc = x;
        return 10;
    case 0x55: return call(m, at + 2, at + 2 + (uint32_t)(int32_t)(int8_t)b1, pc, 8);
    case 0x58:
        if (b1 & 15 || !whole)
            return refuse(m, b1 & 15 ? 3 : 4, at);
        *pc = at + 4;
        if (holds(m->cc, b1 >> 4))
            *pc += (uint32_t)(int32_t)s16(word_at(m, at + 2));
        return 6;
    case 0x59: return b1 & 0x8F ? refuse(m, 3, at) : (*pc = m->er[b1 >> 4], 4);
    case 0x5A: return whole ? (*pc = b1 << 16 | word_at(m, at + 2), 6) : refuse(m, 4, at);
    case 0x5B: return load(m, b1, 32, pc) ? 10 : 0;
    case 0x5C:
        if (b1 || !whole)
            return refuse(m, b1 ? 3 : 4, at);
        return call(m, at + 4, at + 4 + (uint32_t)(int32_t)s16(word_at(m, at + 2)), pc, 10);
    case 0x5D: return b1 & 0x8F ? refuse(m, 3, at) : call(m, at + 2, m->er[b1 >> 4], pc, 8);
    case 0x5E: return whole ? call(m, at + 4, b1 << 16 | word_at(m, at + 2), pc, 10) : refuse(m, 4, at);
    case 0x5F: return load(m, b1, 32, &x) ? call(m, at + 2, x, pc, 12) : 0;
    default: return refuse(m, 3, at);
    }
}

/* One instruction: its states, or 0 and a refusal. */
ALWAYS int step(struct machine *m)
{
    uint32_t b0, b1, pc = m->pc + 2, x;
    int s;
    m->more = 0;
    if (LISTED)
        m->count = 0;
    if (m->pc >= m->rom_n)
        return refuse(m, 2, m->pc);
    b0 = m->rom[m->pc];
    b1 = m->rom[m->pc + 1];
    switch (b0) {
    case 0x00: s = b1 ? refuse(m, 3, m->pc) : 2; break;
    case 0x01:
        s = b1 == 0 ? group_0100(m, &pc) : b1 == 0xF0 ? group_01f0(m, &pc)
            : b1 == 0xC0 || b1 == 0xD0 ? group_01c0(m, b1, &pc) : refuse(m, 3, m->pc);
        break;
    case 0x02: s = b1 > 15 ? refuse(m, 3, m->pc) : (put8(m, b1, m->cc), 2); break;
    case 0x03: s = b1 > 15 ? refuse(m, 3, m->pc) : (m->cc = get8(m, b1), 2); break;
    case 0x04: m->cc |= b1; s = 2; break;
    case 0x05: m->cc ^= b1; s = 2; break;
    case 0x06: m->cc &= b1; s = 2; break;
    case 0x07: m->cc = b1; s = 2; break;
    case 0x08: s = alu_regs(m, ADD, b1, 8); break;
    case 0x09: s = alu_regs(m, ADD, b1, 16); break;
    case 0x0A: s = b1 < 16 ? step_by(m, b1, 1, 0, 8) : b1 < 128 ? refuse(m, 3, m->pc) : alu_long(m, ADD, b1); break;
    case 0x0B: s = group_0b(m, b1, 0); break;
    case 0x0C: s = alu_regs(m, MOV, b1, 8); break;
    case 0x0D: s = alu_regs(m, MOV, b1, 16); break;
    case 0x0E: s = alu_regs(m, ADDX, b1, 8); break;
    case 0x0F: s = b1 < 16 ? adjust_up(m, b1) : b1 < 128 ? refuse(m, 3, m->pc) : alu_long(m, MOV, b1); break;
    case 0x10: s = shifts(m, 0, b1); break;
    case 0x11: s = shifts(m, 1, b1); break;
    case 0x12: s = shifts(m, 2, b1); break;
    case 0x13: s = shifts(m, 3, b1); break;
    case 0x14: s = alu_regs(m, OR, b1, 8); break;
    case 0x15: s = alu_regs(m, XOR, b1, 8); break;
    case 0x16: s = alu_regs(m, AND, b1, 8); break;
    case 0x17: s = group_17(m, b1); break;
    case 0x18: s = alu_regs(m, SUB, b1, 8); break;
    case 0x19: s = alu_regs(m, SUB, b1, 16); break;
    case 0x1A: s = b1 < 16 ? step_by(m, b1, 1, 1, 8) : b1 < 128 ? refuse(m, 3, m->pc) : alu_long(m, SUB, b1); break;
    case 0x1B: s = group_0b(m, b1, 1); break;
    case 0x1C: s = alu_regs(m, CMP, b1, 8); break;
    case 0x1D: s = alu_regs(m, CMP, b1, 16); break;
    case 0x1E: s = alu_regs(m, SUBX, b1, 8); break;
    case 0x1F: s = b1 < 16 ? adjust_down(m, b1) : b1 < 128 ? refuse(m, 3, m->pc) : alu_long(m, CMP, b1); break;
    case 0x50: s = multiply(m, b1, 8, 14); break;
    case 0x51: s = divide(m, b1, 8, 14); break;
    case 0x52: s = b1 & 8 ? refuse(m, 3, m->pc) : multiply(m, b1, 16, 22); break;
    case 0x53: s = b1 & 8 ? refuse(m, 3, m->pc) : divide(m, b1, 16, 22); break;
    case 0x54: case 0x55: case 0x58: case 0x59: case 0x5A: case 0x5B: case 0x5C: case 0x5D: case 0x5E: case 0x5F:
        s = group_5(m, b0, b1, &pc);
        break;
    case 0x60: case 0x61: case 0x62: case 0x63: case 0x67:
    case 0x70: case 0x71: case 0x72: case 0x73: case 0x74: case 0x75: case 0x76: case 0x77: s = bit_in_register(m, b0, b1); break;
    case 0x64: s = alu_regs(m, OR, b1, 16); break;
    case 0x65: s = alu_regs(m, XOR, b1, 16); break;
    case 0x66: s = alu_regs(m, AND, b1, 16); break;
    case 0x68: s = either_way(m, m->er[b1 >> 4 & 7], b1 & 15, 8, (int)(b1 >> 7), 4); break;
    case 0x69: s = either_way(m, m->er[b1 >> 4 & 7], b1 & 15, 16, (int)(b1 >> 7), 4); break;
    case 0x6A: s = absolute(m, b1, 0, 8, &pc, 0); break;
    case 0x6B: s = absolute(m, b1, 0, 16, &pc, 0); break;
    case 0x6C: s = stepping(m, b1 >> 4 & 7, b1 & 15, 8, (int)(b1 >> 7), 6); break;
    case 0x6D: s = stepping(m, b1 >> 4 & 7, b1 & 15, 16, (int)(b1 >> 7), 6); break;
    case 0x6E: s = displaced(m, b1, 0, 8, &pc, 6); break;
    case 0x6F: s = displaced(m, b1, 0, 16, &pc, 6); break;
    case 0x79: s = group_79(m, b1, &pc); break;
    case 0x7A: s = group_7a(m, b1, &pc); break;
    case 0x7C: case 0x7D: case 0x7E: case 0x7F: s = bit_in_memory(m, b0, b1, &pc); break;
    default:
        x = b0 & 15;
        switch (b0 >> 4) {
        case 0x2: s = either_way(m, 0xFFFF00 | b1, x, 8, 0, 4); break;
        case 0x3: s = either_way(m, 0xFFFF00 | b1, x, 8, 1, 4); break;
        case 0x4: s = 4; if (holds(m->cc, x)) pc += (uint32_t)(int32_t)(int8_t)b1; break;
        case 0x8: s = alu(m, ADD, b1, x, 8); break;
        case 0x9: s = alu(m, ADDX, b1, x, 8); break;
        case 0xA: s = alu(m, CMP, b1, x, 8); break;
        case 0xB: s = alu(m, SUBX, b1, x, 8); break;
        case 0xC: s = alu(m, OR, b1, x, 8); break;
        case 0xD: s = alu(m, XOR, b1, x, 8); break;
        case 0xE: s = alu(m, AND, b1, x, 8); break;
        case 0xF: s = alu(m, MOV, b1, x, 8); break;
        default: s = refuse(m, 3, m->pc); break;
        }
        break;
    }
    if (s == 0)
        return 0;
    m->pc = pc & 0xFFFFFE;
    return s + (int)m->more;
}

/* What the set leaves out: the group of a code that the bytes begin with, or begin, or 0. They are at least two, and the set has no
   code that they begin with or begin. */
static uint32_t long_by_d24(const uint8_t *c, uint32_t n)
{
    uint32_t store = c[3] & 0x80;
    if (c[2] != 0x78 || c[3] & 0x0F)
        return 0;
    if (n >= 6 && (c[4] != 0x6B || (c[5] & 0xF8) != (0x20 | store)))
        return 0;
    return n < 8 || c[6] == 0 ? 3 : 0;
}
static uint32_t ccr_in_memory(const uint8_t *c, uint32_t n)
{
    if (n < 4)
        return 4;
    switch (c[2]) {
    case 0x69: case 0x6D: case 0x6F: return c[3] & 0x0F ? 0 : 4;
    case 0x6B:
        if (c[3] & 0x5F)
            return 0;
        return !(c[3] & 0x20) || n < 6 || c[4] == 0 ? 4 : 0;
    case 0x78:
        if (c[3] & 0x8F || (n >= 6 && (c[4] != 0x6B || (c[5] & 0x7F) != 0x20)))
            return 0;
        return n < 8 || c[6] == 0 ? 4 : 0;
    default: return 0;
    }
}
static uint32_t left_out(const uint8_t *c, uint32_t n)
{
    switch (c[0]) {
    case 0x01: return c[1] == 0 ? long_by_d24(c, n) : c[1] == 0x40 ? ccr_in_memory(c, n) : c[1] == 0x80 ? 6 : 0;
    case 0x56: return c[1] == 0x70 ? 6 : 0;
    case 0x57: return c[1] & 0xCF ? 0 : 6;
    case 0x6A: return (c[1] & 0x70) == 0x40 ? 7 : 0;
    case 0x78:
        if (c[1] & 0x8F || (n >= 4 && ((c[2] & 0xFE) != 0x6A || (c[3] & 0x70) != 0x20)))
            return 0;
        return n < 6 || c[4] == 0 ? 3 : 0;
    case 0x7B: return (c[1] == 0x5C || c[1] == 0xD4) && (n < 4 || (c[2] == 0x59 && c[3] == 0x8F)) ? 5 : 0;
    default: return 0;
    }
}
/* 3 becomes 15 where the code is left out. */
static void sort_out(struct machine *m)
{
    if (m->number == 3)
        m->group = left_out(m->rom + m->place, m->rom_n - m->place);
    if (m->group)
        m->number = 15;
}

/* A number of the board, 0 if it is not there. */
static uint32_t given(const uint32_t *board, size_t n, size_t i) { return i < n ? board[i] : 0; }

/* The ports, if they are right in themselves. */
static int take_ports(struct ports *k, const uint32_t *board, size_t n)
{
    uint32_t base = given(board, n, H8_AREA_BASE), end = given(board, n, H8_AREA_END), bus = given(board, n, H8_BUS);
    *k = (struct ports){base, end - base, 1, bus == 8 ? 4 : 1};
    return (base | end) % 2 == 0 && base <= end && (bus == 8 || bus == 16);
}

static int taken_in(struct machine *m, const uint32_t *board, size_t board_n, const uint8_t *rom, size_t rom_n, uint8_t *ram, size_t ram_n,
                    const uint32_t *regs)
{
    uint32_t base = given(board, board_n, H8_BASE);
    if (rom_n % 2 || rom_n > 524288 || ram_n % 2 || ram_n > 65536 || base % 2 || base < rom_n
        || (uint64_t)base + ram_n > 16777216 || regs[8] % 2 || regs[8] >= 16777216 || regs[9] > 255)
        return refuse(m, 1, 0);
    if (!take_ports(&m->ports, board, board_n) || m->ports.base < base || m->ports.base + m->ports.n > base + ram_n)
        return refuse(m, 1, 0);
    for (int i = 0; i < 8; i++)
        m->er[i] = regs[i];
    m->pc = regs[8];
    m->cc = regs[9];
    m->rom = rom;
    m->rom_n = (uint32_t)rom_n;
    m->base = base;
    m->ram = ram;
    m->ram_n = (uint32_t)ram_n;
    return 1;
}
static void given_back(const struct machine *m, uint32_t *regs)
{
    for (int i = 0; i < 8; i++)
        regs[i] = m->er[i];
    regs[8] = m->pc;
    regs[9] = m->cc;
}

#if LISTED
uint32_t plain_step(const uint32_t *board, size_t board_n, const uint8_t *rom, size_t rom_n, uint8_t *ram, size_t ram_n,
                    uint32_t *regs, size_t regs_n, uint32_t *answer, size_t answer_n)
{
    struct machine m = {0};
    int s = 0;
    if (answer_n < H8_STEP_ANSWER)
        return 13;
    if (regs_n < 10)
        refuse(&m, 13, 10);
    else if (taken_in(&m, board, board_n, rom, rom_n, ram, ram_n, regs) && (s = step(&m)) != 0)
        given_back(&m, regs);
    sort_out(&m);
    answer[0] = m.number;
    answer[1] = m.place;
    answer[2] = m.group;
    answer[3] = (uint32_t)s;
    answer[H8_COUNT] = s ? m.count : 0;
    for (uint32_t i = 0; i < H8_STEP_ANSWER - H8_ACCESSES; i++)
        answer[H8_ACCESSES + i] = i < H8_ACCESS * answer[H8_COUNT] ? m.list[i] : 0;
    return m.number;
}
#else
uint32_t plain_run(const uint32_t *board, size_t board_n, const uint8_t *rom, size_t rom_n, uint8_t *ram, size_t ram_n,
                   uint32_t *regs, size_t regs_n, uint32_t stop, uint32_t budget, uint64_t *answer, size_t answer_n)
{
    struct machine m = {0};
    uint64_t states = 0;
    uint32_t steps = 0;
    int ending = H8_REFUSED, s;
    if (answer_n < 6)
        return 13;
    if (regs_n < 10)
        refuse(&m, 13, 10);
    else if (budget > 1000000)
        refuse(&m, 12, 0);
    else if (taken_in(&m, board, board_n, rom, rom_n, ram, ram_n, regs)) {
        for (;;) {
            if (m.pc == stop) {
                ending = H8_STOPPED;
                break;
            }
            if (steps == budget) {
                ending = H8_SPENT;
                break;
            }
            s = step(&m);
            if (!s)
                break;
            steps++;
            states += (uint32_t)s;
        }
        given_back(&m, regs);
    }
    sort_out(&m);
    answer[0] = m.number;
    answer[1] = m.place;
    answer[2] = m.group;
    answer[3] = steps;
    answer[4] = states;
    answer[5] = (uint64_t)ending;
    return m.number;
}

/* THE FIGURE. What a listing's line does to a path: goes on, jumps, may do either, calls and goes on, ends, or can't be followed. */
enum { GOES_ON, JUMPS, EITHER, CALLS, ENDS, STOPS };
struct line {
    int kind;
    uint32_t next, target, states, number;
};

ALWAYS struct line stops(uint32_t number) { return (struct line){STOPS, 0, 0, 0, number}; }
ALWAYS struct line on(uint32_t p, uint32_t left, uint32_t length, uint32_t states)
{
    return left < length ? stops(4) : (struct line){GOES_ON, p + length, 0, states, 0};
}
/* With memory: a register's address costs what the dearest place does. */
ALWAYS uint32_t dear_byte(const struct ports *k) { return k->n ? k->byte : 0; }
ALWAYS uint32_t dear_word(const struct ports *k) { return k->n ? k->word : 0; }
ALWAYS uint32_t own_place(const struct ports *k, uint32_t ea, int bits)
{
    uint32_t a = ea & (bits == 8 ? 0xFFFFFF : 0xFFFFFE);
    return more_at(k, a, bits) + (bits == 32 ? more_at(k, (a + 2) & 0xFFFFFF, bits) : 0);
}
/* aa:16 and aa:24 behind 6A and 6B; c is where the address begins, `left` how much there is from the instruction's place on. */
ALWAYS struct line at_16(const struct ports *k, const uint8_t *c, uint32_t p, uint32_t left, uint32_t length, uint32_t states, int bits)
{
    return left < length ? stops(4) : on(p, left, length, states + own_place(k, (uint32_t)(int32_t)(int16_t)(c[0] << 8 | c[1]), bits));
}
ALWAYS struct line at_24(const struct ports *k, const uint8_t *c, uint32_t p, uint32_t left, uint32_t length, uint32_t states, int bits)
{
    return left < length ? stops(4) : on(p, left, length, states + own_place(k, (uint32_t)c[1] << 16 | (uint32_t)c[2] << 8 | c[3], bits));
}
ALWAYS struct line calls(const struct ports *k, uint32_t next, uint32_t target, uint32_t states)
{
    return (struct line){CALLS, next, target & 0xFFFFFE, states + 2 * dear_word(k), 0};
}
ALWAYS struct line branch(uint32_t next, uint32_t target, uint32_t digit, uint32_t states)
{
    return (struct line){digit == 0 ? JUMPS : digit == 1 ? GOES_ON : EITHER, next, target & 0xFFFFFE, states, 0};
}

static struct line line_0100(const struct ports *k, const uint8_t *c, uint32_t p, uint32_t left)
{
    uint32_t more = 2 * dear_word(k);
    if (left < 4)
        return stops(4);
    if (c[2] == 0x6B) {
        if (c[3] & 0x58)
            return stops(3);
        if (!(c[3] & 0x20))
            return at_16(k, c + 4, p, left, 6, 10, 32);
        return left < 6 ? stops(4) : c[4] ? stops(3) : at_24(k, c + 4, p, left, 8, 12, 32);
    }
    if (c[3] & 8)
        return stops(3);
    return c[2] == 0x69 ? on(p, left, 4, 8 + more) : c[2] == 0x6D ? on(p, left, 4, 10 + more)
        : c[2] == 0x6F ? on(p, left, 6, 10 + more) : stops(3);
}
/* After 01C0 and 01D0. */
static struct line line_01c0(const uint8_t *c, uint32_t p, uint32_t left)
{
    uint32_t byte = c[1] == 0xC0 ? 0x50 : 0x51;
    if (left < 4)
        return stops(4);
    return c[2] == byte ? on(p, left, 4, 16) : c[2] == byte + 2 && !(c[3] & 8) ? on(p, left, 4, 24) : stops(3);
}
static struct line line_5(const struct ports *k, const uint8_t *c, uint32_t p, uint32_t left)
{
    switch (c[0]) {
    case 0x50: case 0x51: return on(p, left, 2, 14);
    case 0x52: case 0x53: return c[1] & 8 ? stops(3) : on(p, left, 2, 22);
    case 0x54: return c[1] == 0x70 ? (struct line){ENDS, 0, 0, 10 + 2 * dear_word(k), 0} : stops(3);
    case 0x58:
        if (c[1] & 15 || left < 4)
            return stops(c[1] & 15 ? 3 : 4);
        return branch(p + 4, p + 4 + (uint32_t)(int32_t)(int16_t)(c[2] << 8 | c[3]), c[1] >> 4, 6);
    case 0x5A: return left < 4 ? stops(4) : branch(p, (uint32_t)c[1] << 16 | (uint32_t)c[2] << 8 | c[3], 0, 6);
    case 0x59: case 0x5D: return stops(c[1] & 0x8F ? 3 : 9);
    case 0x55: return calls(k, p + 2, p + 2 + (uint32_t)(int32_t)(int8_t)c[1], 8);
    case 0x5C:
        if (c[1] || left < 4)
            return stops(c[1] ? 3 : 4);
        return calls(k, p + 4, p + 4 + (uint32_t)(int32_t)(int16_t)(c[2] << 8 | c[3]), 10);
    case 0x5E: return left < 4 ? stops(4) : calls(k, p + 4, (uint32_t)c[1] << 16 | (uint32_t)c[2] << 8 | c[3], 10);
    case 0x5B: case 0x5F: return stops(9);
    default: return stops(3);
    }
}

/* After 7C to 7F. */
static struct line line_7c(const struct ports *k, const uint8_t *c, uint32_t p, uint32_t left)
{
    uint32_t more = c[0] < 0x7E ? dear_byte(k) : own_place(k, 0xFFFF00 | c[1], 8);
    if (c[0] < 0x7E && c[1] & 0x8F)
        return stops(3);
    if (left < 4)
        return stops(4);
    if (!bit_known(c[2], c[3]) || c[3] & 15 || bit_gives(c[2]) != (c[0] & 1))
        return stops(3);
    return on(p, left, 4, bit_gives(c[2]) ? 8 + 2 * more : 6 + more);
}

/* Second bytes that are codes, by their upper digit, a bit each: with a lower digit 0 to F, and with 0 to 7 only. */
struct digits { uint16_t any, low; };
static const struct digits in_0a = {0x0001, 0xFF00}, in_0b = {0x2020, 0x8381}, in_10 = {0x0303, 0x0808}, in_17 = {0x2323, 0x8888};
ALWAYS struct line among(struct digits s, uint32_t p, uint32_t left, uint32_t b1)
{
    return s.any >> (b1 >> 4) & 1 || (s.low >> (b1 >> 4) & 1 && !(b1 & 8)) ? on(p, left, 2, 2) : stops(3);
}

ALWAYS struct line look(const struct ports *k, const uint8_t *rom, uint32_t rom_n, uint32_t p)
{
    const uint8_t *c = rom + p;
    uint32_t left = rom_n - p, b1 = c[1];
    int bits = c[0] & 1 ? 16 : 8;           /* of 68 to 6F */
    uint32_t dear = c[0] & 1 ? dear_word(k) : dear_byte(k);
    switch (c[0]) {
    case 0x00: return b1 ? stops(3) : on(p, left, 2, 2);
    case 0x01:
        if (b1 == 0)
            return line_0100(k, c, p, left);
        if (b1 == 0xC0 || b1 == 0xD0)
            return line_01c0(c, p, left);
        if (b1 != 0xF0 || left < 4)
            return stops(b1 == 0xF0 ? 4 : 3);
        return c[2] < 0x64 || c[2] > 0x66 || c[3] & 0x88 ? stops(3) : on(p, left, 4, 4);
    case 0x02: case 0x03: return b1 > 15 ? stops(3) : on(p, left, 2, 2);
    case 0x0A: case 0x0F: case 0x1A: case 0x1F: return among(in_0a, p, left, b1);
    case 0x0B: case 0x1B: return among(in_0b, p, left, b1);
    case 0x10: case 0x11: case 0x12: case 0x13: return among(in_10, p, left, b1);
    case 0x17: return among(in_17, p, left, b1);
    case 0x04: case 0x05: case 0x06: case 0x07: case 0x08: case 0x09: case 0x0C: case 0x0D: case 0x0E:
    case 0x14: case 0x15: case 0x16: case 0x18: case 0x19: case 0x1C: case 0x1D: case 0x1E:
    case 0x64: case 0x65: case 0x66: case 0x60: case 0x61: case 0x62: case 0x63: case 0x67:
    case 0x74: case 0x75: case 0x76: case 0x77: return on(p, left, 2, 2);
    case 0x70: case 0x71: case 0x72: case 0x73: return b1 & 0x80 ? stops(3) : on(p, left, 2, 2);
    case 0x68: case 0x69: return on(p, left, 2, 4 + dear);
    case 0x6A: case 0x6B:
        if (b1 & 0x50)
            return stops(3);
        if (!(b1 & 0x20))
            return at_16(k, c + 2, p, left, 4, 6, bits);
        return left < 4 ? stops(4) : c[2] ? stops(3) : at_24(k, c + 2, p, left, 6, 8, bits);
    case 0x6C: case 0x6D: return on(p, left, 2, 6 + dear);
    case 0x6E: case 0x6F: return on(p, left, 4, 6 + dear);
    case 0x79: return b1 >> 4 > 6 ? stops(3) : on(p, left, 4, 4);
    case 0x7A: return b1 >> 4 > 6 || b1 & 8 ? stops(3) : on(p, left, 6, 6);
    case 0x7C: case 0x7D: case 0x7E: case 0x7F: return line_7c(k, c, p, left);
    default: break;
    }
    switch (c[0] >> 4) {
    case 2: case 3: return on(p, left, 2, 4 + own_place(k, 0xFFFF00 | b1, 8));
    case 4: return branch(p + 2, p + 2 + (uint32_t)(int32_t)(int8_t)b1, c[0] & 15, 4);
    case 5: return line_5(k, c, p, left);
    case 6: case 7: return stops(3);
    default: return c[0] < 0x80 ? stops(3) : on(p, left, 2, 2);
    }
}

/* A row while it is reckoned is a number below 2^32: a figure, held at one more than the largest that is told, or a lowest forbidden place
   taken from 2^32 - 1. So the larger of two rows tells which of them counts. A place's two numbers hold two levels by turns in their lower
   halves, this one's and that of one call less; in the upper halves is noted what stands there, so that it is looked at once. */
enum { LEVELS = 8, OVER = 1000000001 };
enum { NOTED_STOP, NOTED_END, NOTED_WAY, NOTED_CALL };
#define BAR 0xFF000000u
ALWAYS uint32_t barred(uint32_t p) { return 0xFFFFFFFFu - p; }
ALWAYS uint64_t figure_in(uint32_t row) { return row > BAR ? 0 : row; }
ALWAYS uint64_t low_in(uint32_t row) { return row > BAR ? 0xFFFFFFFFu - row : H8_NONE; }
ALWAYS uint32_t row_at(const uint64_t *table, uint32_t rom_n, uint32_t odd, uint32_t q)
{
    return q < rom_n ? (uint32_t)table[q + odd] : barred(q);
}
ALWAYS uint64_t least(uint64_t a, uint64_t b) { return a < b ? a : b; }
ALWAYS uint32_t larger(uint32_t a, uint32_t b) { return a > b ? a : b; }
ALWAYS uint32_t through(uint32_t top, uint64_t total) { return top > BAR ? top : (uint32_t)least(total, OVER); }
ALWAYS void note(uint64_t *two, struct line l)
{
    uint32_t on = l.kind == JUMPS ? l.target : l.next, to = l.kind == GOES_ON ? l.next : l.target;
    uint64_t kind = l.kind == STOPS ? NOTED_STOP : l.kind == ENDS ? NOTED_END : l.kind == CALLS ? NOTED_CALL : NOTED_WAY;
    two[0] = (kind << 24 | to) << 32;
    two[1] = ((uint64_t)l.states << 24 | on) << 32;
}
ALWAYS uint32_t reckon(const uint64_t *table, uint32_t rom_n, uint32_t level, uint32_t p)
{
    uint32_t first = (uint32_t)(table[p] >> 32), second = (uint32_t)(table[p + 1] >> 32), odd = level % 2;
    uint32_t kind = first >> 24, to = first & 0xFFFFFF, on = second & 0xFFFFFF, states = second >> 24;
    if (kind == NOTED_END)
        return states;
    if (kind == NOTED_STOP || (kind == NOTED_CALL && level == 0) || (kind == NOTED_WAY && (on <= p || to <= p)))
        return barred(p);
    uint32_t after = row_at(table, rom_n, odd, on), other;
    if (kind == NOTED_CALL) {
        other = row_at(table, rom_n, !odd, to);
        return through(larger(other, after), (uint64_t)states + other + after);
    }
    other = row_at(table, rom_n, odd, to);
    return through(larger(after, other), (uint64_t)states + larger(after, other));
}
/* Every place with no call left, then with one, and so up to eight; then the rows as they are told. Answers the entry's row before that. */
static uint32_t fill(const struct ports *k, const uint8_t *rom, uint32_t n, uint32_t entry, uint64_t *table)
{
    for (uint32_t p = 0; p < n; p += 2)
        note(table + p, look(k, rom, n, p));
    for (uint32_t level = 0; level <= LEVELS; level++)
        for (uint32_t p = n; p > 0;) {
            p -= 2;
            uint64_t *number = &table[p + level % 2];
            *number = *number >> 32 << 32 | reckon(table, n, level, p);
        }
    uint32_t row = (uint32_t)table[entry + LEVELS % 2];
    for (uint32_t p = 0; p < n; p += 2) {
        uint32_t x = (uint32_t)table[p + LEVELS % 2];
        table[p] = x == OVER ? 0 : figure_in(x);
        table[p + 1] = x == OVER ? p : low_in(x);
    }
    return row;
}
/* Why a forbidden place is forbidden. */
static uint32_t why(const uint8_t *rom, uint32_t rom_n, uint64_t place)
{
    struct line l;
    if (place >= rom_n || place % 2)
        return 2;
    l = look(&(struct ports){0}, rom, rom_n, (uint32_t)place);      /* its states don't matter */
    return l.kind == STOPS ? l.number : l.kind == CALLS ? 16 : 10;
}

static uint32_t told(uint64_t *answer, uint64_t number, uint64_t place, uint64_t fourth)
{
    answer[0] = number;
    answer[1] = place;
    answer[2] = 0;
    answer[3] = fourth;
    return (uint32_t)number;
}
/* The lowest forbidden place. */
static uint32_t told_forbidden(const uint8_t *rom, uint32_t rom_n, uint64_t place, uint64_t *answer)
{
    uint32_t number = told(answer, why(rom, rom_n, place), place, 0);
    if (number == 3)
        answer[2] = left_out(rom + place, rom_n - (uint32_t)place);
    if (answer[2])
        answer[0] = number = 15;
    return number;
}

/* 1, 8, 13 for the table. */
static uint32_t bad_lent(const struct ports *k, size_t rom_n, uint32_t entry, size_t table_n, uint64_t *answer)
{
    if (rom_n % 2 || rom_n > 524288 || k->base < rom_n || k->n > 65536 || (uint64_t)k->base + k->n > 16777216)
        return told(answer, 1, 0, 0);
    if (entry % 2 || entry >= rom_n)
        return told(answer, 8, entry, 0);
    return table_n < rom_n ? told(answer, 13, rom_n, 0) : 0;
}

uint32_t plain_figure(const uint32_t *board, size_t board_n, const uint8_t *rom, size_t rom_n, uint32_t entry,
                      uint64_t *table, size_t table_n, uint64_t *answer, size_t answer_n)
{
    struct ports k;
    uint32_t n = (uint32_t)rom_n, bad;
    if (answer_n < 4)
        return 13;
    bad = take_ports(&k, board, board_n) ? bad_lent(&k, rom_n, entry, table_n, answer) : told(answer, 1, 0, 0);
    if (bad)
        return bad;
    uint32_t row = fill(&k, rom, n, entry, table);
    if (low_in(row) != H8_NONE)
        return told_forbidden(rom, n, low_in(row), answer);
    return figure_in(row) == OVER ? told(answer, 22, entry, 0) : told(answer, 0, 0, figure_in(row));
}

static uint64_t figure_of(const uint64_t *table, uint32_t rom_n, uint32_t q) { return q < rom_n ? table[q] : 0; }
/* Whatever the level. */
static int forbidden(uint32_t p, struct line l)
{
    return l.kind == STOPS || ((l.kind == JUMPS || l.kind == EITHER) && l.target <= p);
}

uint32_t plain_way(const uint32_t *board, size_t board_n, const uint8_t *rom, size_t rom_n,
                   const uint64_t *table, size_t table_n, uint32_t place, uint64_t *answer, size_t answer_n)
{
    struct ports k;
    uint32_t n = (uint32_t)rom_n, bad;
    struct line l;
    if (answer_n < 4)
        return 13;
    bad = take_ports(&k, board, board_n) ? bad_lent(&k, rom_n, place, table_n, answer) : told(answer, 1, 0, 0);
    if (bad)
        return bad;
    l = look(&k, rom, n, place);
    if (table[place + 1] == place && !forbidden(place, l))          /* a total that is not told; or a call that comes to itself */
        return told(answer, 22, place, 0);
    if (table[place + 1] != H8_NONE)
        return told_forbidden(rom, n, table[place + 1], answer);
    if (l.kind == ENDS)
        return told(answer, 0, 0, H8_NONE);
    if (l.kind == EITHER)
        return told(answer, 0, 0, figure_of(table, n, l.target) > figure_of(table, n, l.next) ? l.target : l.next);
    return told(answer, 0, 0, l.kind == JUMPS ? l.target : l.next);
}
#endif
