#include "model.h"
#include <stdlib.h>
#include <string.h>

/* The general registers are held as 32 bytes, ER0 first, each with its top byte first: En is the first two bytes of ERn,
   RnH the third, RnL the fourth. The condition byte is held as eight bits. */
enum flag { C, V, Z, N, U, H, UI, I };

struct cpu {
    const struct board *board;
    uint8_t file[32];
    uint8_t f[8];
    uint32_t next, pc;                      /* the next instruction; where PC goes */
    uint32_t number, place;                 /* the first refusal met */
    uint32_t here;                          /* the instruction's own address */
    struct { uint8_t *cell, byte; } store[4];
    int stores;                             /* made only if nothing is refused */
    struct touch touch[TOUCHES];
    uint32_t touches;                       /* written down byte by byte as they are made */
};

static uint32_t bit(uint32_t x, int i) { return x >> i & 1; }
static uint32_t no(uint32_t a_bit) { return 1 - a_bit; }           /* the overline of 2.7 */
static int bytes_of(int width) { return 1 << width; }
static int top_bit(int width) { return 8 * bytes_of(width) - 1; }
static uint32_t cut(uint32_t x, int width) { return width == H8_LONG ? x : x & ((1u << 8 * bytes_of(width)) - 1); }

static void refuse(struct cpu *c, uint32_t number, uint32_t place)
{
    if (c->number)
        return;
    c->number = number;
    c->place = place;
}

/* 2.1.5: where a register stands, by its field. */
static uint8_t *where(struct cpu *c, int width, uint32_t field)
{
    uint8_t *er = c->file + 4 * (field & 7);
    if (width == H8_BYTE)
        return er + (field < 8 ? 2 : 3);
    if (width == H8_WORD)
        return er + (field < 8 ? 2 : 0);
    return er;
}

static uint32_t get(struct cpu *c, int width, uint32_t field)
{
    uint32_t x = 0;
    const uint8_t *p = where(c, width, field);
    for (int i = 0; i < bytes_of(width); i++)
        x = x << 8 | p[i];
    return x;
}

static void put(struct cpu *c, int width, uint32_t field, uint32_t x)
{
    uint8_t *p = where(c, width, field);
    for (int i = bytes_of(width) - 1; i >= 0; i--, x >>= 8)
        p[i] = (uint8_t)x;
}

static uint8_t condition(const struct cpu *c)
{
    uint8_t x = 0;
    for (int i = 0; i < 8; i++)
        x |= (uint8_t)(c->f[i] << i);
    return x;
}

static void set_condition(struct cpu *c, uint32_t x)
{
    for (int i = 0; i < 8; i++)
        c->f[i] = (uint8_t)bit(x, i);
}

/* The byte of memory at an address, or none. */
static uint8_t *working_cell(const struct cpu *c, uint32_t address)
{
    const struct board *b = c->board;
    return address >= b->base && address - b->base < b->ram_n ? b->ram + (address - b->base) : NULL;
}
static const uint8_t *any_cell(const struct cpu *c, uint32_t address)
{
    return address < c->board->rom_n ? c->board->rom + address : working_cell(c, address);
}

static uint32_t low24(uint32_t x) { return x & 0xFFFFFF; }

/* A byte is touched. The bus carries a word's two bytes at once, so that its lower byte comes to the upper one's; a byte alone, and each
   word of a longword, is an access of its own. */
static void touch(struct cpu *c, int width, int i, uint32_t address, uint32_t write)
{
    if (width != H8_BYTE && i % 2 == 1)
        c->touch[c->touches - 1].bytes++;
    else
        c->touch[c->touches++] = (struct touch){address, 1, write};
}

/* An operand in memory, byte by byte from its address; words and longwords begin at an even one. */
static uint32_t load(struct cpu *c, int width, uint32_t ea)
{
    uint32_t x = 0, a = width == H8_BYTE ? low24(ea) : low24(ea) & ~1u;
    for (int i = 0; i < bytes_of(width); i++) {
        const uint8_t *cell = any_cell(c, low24(a + (uint32_t)i));
        touch(c, width, i, low24(a + (uint32_t)i), 0);
        if (!cell)
            refuse(c, 5, low24(a + (uint32_t)i));
        x = x << 8 | (cell ? *cell : 0);
    }
    return x;
}

static void save(struct cpu *c, int width, uint32_t ea, uint32_t x)
{
    uint32_t a = width == H8_BYTE ? low24(ea) : low24(ea) & ~1u;
    for (int i = 0; i < bytes_of(width); i++) {
        uint8_t *cell = working_cell(c, low24(a + (uint32_t)i));
        touch(c, width, i, low24(a + (uint32_t)i), 1);
        if (!cell)
            refuse(c, 6, low24(a + (uint32_t)i));
        c->store[c->stores].cell = cell;
        c->store[c->stores++].byte = (uint8_t)(x >> 8 * (bytes_of(width) - 1 - i));
    }
}

static void set_nz(struct cpu *c, int width, uint32_t r)
{
    c->f[N] = (uint8_t)bit(r, top_bit(width));
    c->f[Z] = r == 0;
}

/* 2.7, ADD and ADDX: H, N, V and C. */
static void sum_flags(struct cpu *c, int width, uint32_t s, uint32_t d, uint32_t r)
{
    int m = top_bit(width), h = m - 4;
    uint32_t sm = bit(s, m), dm = bit(d, m), rm = bit(r, m), sh = bit(s, h), dh = bit(d, h), rh = bit(r, h);
    c->f[H] = (uint8_t)((sh & dh) | (dh & no(rh)) | (sh & no(rh)));
    c->f[N] = (uint8_t)rm;
    c->f[V] = (uint8_t)((sm & dm & no(rm)) | (no(sm) & no(dm) & rm));
    c->f[C] = (uint8_t)((sm & dm) | (dm & no(rm)) | (sm & no(rm)));
}

/* 2.7, SUB, SUBX and CMP. */
static void difference_flags(struct cpu *c, int width, uint32_t s, uint32_t d, uint32_t r)
{
    int m = top_bit(width), h = m - 4;
    uint32_t sm = bit(s, m), dm = bit(d, m), rm = bit(r, m), sh = bit(s, h), dh = bit(d, h), rh = bit(r, h);
    c->f[H] = (uint8_t)((sh & no(dh)) | (no(dh) & rh) | (sh & rh));
    c->f[N] = (uint8_t)rm;
    c->f[V] = (uint8_t)((no(sm) & dm & no(rm)) | (sm & no(dm) & rm));
    c->f[C] = (uint8_t)((sm & no(dm)) | (no(dm) & rm) | (sm & rm));
}

/* The source operand of ADD to XOR: a register or the immediate. */
static uint32_t source(struct cpu *c, const uint32_t *f)
{
    return f[H8_FORM] == H8_SOURCE_IMM ? f[H8_VALUE] : get(c, (int)f[H8_WIDTH], f[H8_OTHER]);
}

/* The pages, in the manual's order. */

static void page_add(struct cpu *c, const uint32_t *f)
{
    int w = (int)f[H8_WIDTH];
    uint32_t s = source(c, f), d = get(c, w, f[H8_REG]), r = cut(d + s, w);
    sum_flags(c, w, s, d, r);
    c->f[Z] = r == 0;
    put(c, w, f[H8_REG], r);
}

static uint32_t amount(const uint32_t *f) { return f[H8_FORM] == H8_BY_1 ? 1 : f[H8_FORM] == H8_BY_2 ? 2 : 4; }

static void page_adds(struct cpu *c, const uint32_t *f)
{
    put(c, H8_LONG, f[H8_REG], get(c, H8_LONG, f[H8_REG]) + amount(f));
}

static void page_addx(struct cpu *c, const uint32_t *f)
{
    uint32_t s = source(c, f), d = get(c, H8_BYTE, f[H8_REG]), r = cut(d + s + c->f[C], H8_BYTE);
    sum_flags(c, H8_BYTE, s, d, r);
    if (r != 0)
        c->f[Z] = 0;
    put(c, H8_BYTE, f[H8_REG], r);
}

static void logic_result(struct cpu *c, const uint32_t *f, uint32_t r)
{
    set_nz(c, (int)f[H8_WIDTH], r);
    c->f[V] = 0;
    put(c, (int)f[H8_WIDTH], f[H8_REG], r);
}

static void page_and(struct cpu *c, const uint32_t *f)
{
    logic_result(c, f, get(c, (int)f[H8_WIDTH], f[H8_REG]) & source(c, f));
}

static void page_andc(struct cpu *c, const uint32_t *f) { set_condition(c, condition(c) & f[H8_VALUE]); }

/* THE BIT of a bit instruction, as a mask: its number is in the code, or in the low three bits of Rn. */
static uint32_t bit_mask(struct cpu *c, const uint32_t *f)
{
    return 1u << (f[H8_WIDTH] == H8_BIT_NUMBER ? f[H8_OTHER] : get(c, H8_BYTE, f[H8_OTHER]) & 7);
}

/* EAd in memory: @ERd or @aa:8, and of a byte, so that no bit of it is lost. */
static uint32_t bit_address(struct cpu *c, const uint32_t *f)
{
    return f[H8_FORM] == H8_SPOT_AT ? get(c, H8_LONG, f[H8_REG]) : 0xFFFF00 | f[H8_VALUE];
}

static uint32_t bit_operand(struct cpu *c, const uint32_t *f)
{
    return f[H8_FORM] == H8_SPOT_REG ? get(c, H8_BYTE, f[H8_REG]) : load(c, H8_BYTE, bit_address(c, f));
}

/* 2.7's D_n. */
static uint32_t dn(struct cpu *c, const uint32_t *f) { return (bit_operand(c, f) & bit_mask(c, f)) != 0; }

enum change { TO_0, TO_1, TO_OTHER };

/* EAd with the masked bit set, clear or turned over. It is read once before it is written, so an address in no memory is refused as
   a read. */
static void set_bit(struct cpu *c, const uint32_t *f, enum change to)
{
    uint32_t mask = bit_mask(c, f), d = bit_operand(c, f), r = to == TO_OTHER ? d ^ mask : to == TO_1 ? d | mask : d & ~mask;
    if (f[H8_FORM] == H8_SPOT_REG)
        put(c, H8_BYTE, f[H8_REG], r);
    else
        save(c, H8_BYTE, bit_address(c, f), r);
}

static void page_band(struct cpu *c, const uint32_t *f) { c->f[C] = (uint8_t)(c->f[C] & dn(c, f)); }

/* Table of the page Bcc. */
static int holds(const struct cpu *c, uint32_t cc)
{
    switch (cc) {
    case 0x0: return 1;
    case 0x1: return 0;
    case 0x2: return (c->f[C] | c->f[Z]) == 0;
    case 0x3: return (c->f[C] | c->f[Z]) == 1;
    case 0x4: return c->f[C] == 0;
    case 0x5: return c->f[C] == 1;
    case 0x6: return c->f[Z] == 0;
    case 0x7: return c->f[Z] == 1;
    case 0x8: return c->f[V] == 0;
    case 0x9: return c->f[V] == 1;
    case 0xA: return c->f[N] == 0;
    case 0xB: return c->f[N] == 1;
    case 0xC: return (c->f[N] ^ c->f[V]) == 0;
    case 0xD: return (c->f[N] ^ c->f[V]) == 1;
    case 0xE: return (c->f[Z] | (c->f[N] ^ c->f[V])) == 0;
    default:  return (c->f[Z] | (c->f[N] ^ c->f[V])) == 1;
    }
}

static void go(struct cpu *c, uint32_t target) { c->pc = low24(target) & ~1u; }

/* The displacement with its sign. */
static int32_t displacement(const uint32_t *f)
{
    return f[H8_FORM] == H8_NEAR ? (int8_t)f[H8_VALUE] : (int16_t)f[H8_VALUE];
}

static void page_bcc(struct cpu *c, const uint32_t *f)
{
    if (holds(c, f[H8_WHICH]))
        go(c, c->next + (uint32_t)displacement(f));
}

static void page_bclr(struct cpu *c, const uint32_t *f) { set_bit(c, f, TO_0); }
static void page_biand(struct cpu *c, const uint32_t *f) { c->f[C] = (uint8_t)(c->f[C] & no(dn(c, f))); }
static void page_bild(struct cpu *c, const uint32_t *f) { c->f[C] = (uint8_t)no(dn(c, f)); }
static void page_bior(struct cpu *c, const uint32_t *f) { c->f[C] = (uint8_t)(c->f[C] | no(dn(c, f))); }
static void page_bist(struct cpu *c, const uint32_t *f) { set_bit(c, f, c->f[C] ? TO_0 : TO_1); }

static void page_bixor(struct cpu *c, const uint32_t *f)
{
    uint32_t d = dn(c, f);
    c->f[C] = (uint8_t)((c->f[C] & d) | (no(c->f[C]) & no(d)));
}

static void page_bld(struct cpu *c, const uint32_t *f) { c->f[C] = (uint8_t)dn(c, f); }
static void page_bnot(struct cpu *c, const uint32_t *f) { set_bit(c, f, TO_OTHER); }
static void page_bor(struct cpu *c, const uint32_t *f) { c->f[C] = (uint8_t)(c->f[C] | dn(c, f)); }
static void page_bset(struct cpu *c, const uint32_t *f) { set_bit(c, f, TO_1); }

/* PC to @-SP: four bytes, the first 0. */
static void push_next(struct cpu *c)
{
    uint32_t sp = get(c, H8_LONG, 7) - 4;
    put(c, H8_LONG, 7, sp);
    save(c, H8_LONG, sp, c->next);
}

static void page_bsr(struct cpu *c, const uint32_t *f)
{
    push_next(c);
    go(c, c->next + (uint32_t)displacement(f));
}

static void page_bst(struct cpu *c, const uint32_t *f) { set_bit(c, f, c->f[C] ? TO_1 : TO_0); }
static void page_btst(struct cpu *c, const uint32_t *f) { c->f[Z] = (uint8_t)no(dn(c, f)); }

static void page_bxor(struct cpu *c, const uint32_t *f)
{
    uint32_t d = dn(c, f);
    c->f[C] = (uint8_t)((c->f[C] & no(d)) | (no(c->f[C]) & d));
}

static void page_cmp(struct cpu *c, const uint32_t *f)
{
    int w = (int)f[H8_WIDTH];
    uint32_t s = source(c, f), d = get(c, w, f[H8_REG]), r = cut(d - s, w);
    difference_flags(c, w, s, d, r);
    c->f[Z] = r == 0;
}

/* C, upper digit from and to, H, lower digit from and to, added, C after: document 01's rows. */
struct row { uint8_t c, up_lo, up_hi, h, low_lo, low_hi, added, c_after; };
static const struct row daa[] = {
    {0, 0x0, 0x9, 0, 0x0, 0x9, 0x00, 0}, {0, 0x0, 0x8, 0, 0xA, 0xF, 0x06, 0}, {0, 0x0, 0x9, 1, 0x0, 0x3, 0x06, 0},
    {0, 0xA, 0xF, 0, 0x0, 0x9, 0x60, 1}, {0, 0x9, 0xF, 0, 0xA, 0xF, 0x66, 1}, {0, 0xA, 0xF, 1, 0x0, 0x3, 0x66, 1},
    {1, 0x0, 0x2, 0, 0x0, 0x9, 0x60, 1}, {1, 0x0, 0x2, 0, 0xA, 0xF, 0x66, 1}, {1, 0x0, 0x3, 1, 0x0, 0x3, 0x66, 1},
};
static const struct row das[] = {
    {0, 0x0, 0x9, 0, 0x0, 0x9, 0x00, 0}, {0, 0x0, 0x8, 1, 0x6, 0xF, 0xFA, 0},
    {1, 0x7, 0xF, 0, 0x0, 0x9, 0xA0, 1}, {1, 0x6, 0xF, 1, 0x6, 0xF, 0x9A, 1},
};

static void adjust(struct cpu *c, const uint32_t *f, const struct row *rows, size_t n)
{
    uint32_t d = get(c, H8_BYTE, f[H8_REG]), up = d >> 4, low = d & 15;
    for (const struct row *r = rows; r < rows + n; r++)
        if (r->c == c->f[C] && r->h == c->f[H] && r->up_lo <= up && up <= r->up_hi && r->low_lo <= low && low <= r->low_hi) {
            uint32_t x = cut(d + r->added, H8_BYTE);
            c->f[C] = r->c_after;
            set_nz(c, H8_BYTE, x);
            put(c, H8_BYTE, f[H8_REG], x);
            return;
        }
    refuse(c, 7, c->here);
}

static void page_daa(struct cpu *c, const uint32_t *f) { adjust(c, f, daa, sizeof daa / sizeof *daa); }
static void page_das(struct cpu *c, const uint32_t *f) { adjust(c, f, das, sizeof das / sizeof *das); }

static void page_dec(struct cpu *c, const uint32_t *f)
{
    int w = (int)f[H8_WIDTH], m = top_bit(w);
    uint32_t d = get(c, w, f[H8_REG]), r = cut(d - amount(f), w);
    set_nz(c, w, r);
    c->f[V] = (uint8_t)(bit(d, m) & no(bit(r, m)));
    put(c, w, f[H8_REG], r);
}

/* The destination of DIVX and MULX has twice the width of the source. */
static int twice(int width) { return width + 1; }

/* The number that these bits are, the top one counting as negative. */
static int64_t with_sign(uint32_t x, int width)
{
    return (int64_t)x - ((int64_t)bit(x, top_bit(width)) << 8 * bytes_of(width));
}

/* The quotient to the lower half, the remainder to the upper one. C rounds toward zero, so its remainder has the dividend's
   sign, as the page says. Where the manual guarantees no result, document 02 has refusal 14. */
static void quotient(struct cpu *c, const uint32_t *f, int64_t d, int64_t s, int64_t least, int64_t most)
{
    int w = (int)f[H8_WIDTH], half = 8 * bytes_of(w);
    if (s == 0 || d / s < least || d / s > most) {
        refuse(c, 14, c->here);
        return;
    }
    put(c, twice(w), f[H8_REG], cut((uint32_t)(d % s), w) << half | cut((uint32_t)(d / s), w));
}

static void page_divxs(struct cpu *c, const uint32_t *f)
{
    int w = (int)f[H8_WIDTH], t = twice(w);
    uint32_t s = get(c, w, f[H8_OTHER]), d = get(c, t, f[H8_REG]), sm = bit(s, top_bit(w)), dm = bit(d, top_bit(t));
    int64_t end = (int64_t)1 << top_bit(w);
    quotient(c, f, with_sign(d, t), with_sign(s, w), -end, end - 1);
    c->f[N] = (uint8_t)((sm & no(dm)) | (no(sm) & dm));
    c->f[Z] = s == 0;
}

static void page_divxu(struct cpu *c, const uint32_t *f)
{
    int w = (int)f[H8_WIDTH];
    uint32_t s = get(c, w, f[H8_OTHER]), d = get(c, twice(w), f[H8_REG]);
    quotient(c, f, d, s, 0, cut(~0u, w));
    c->f[N] = (uint8_t)bit(s, top_bit(w));
    c->f[Z] = s == 0;
}

/* The lower half's top bit goes to every bit of the upper half. */
static void page_exts(struct cpu *c, const uint32_t *f)
{
    int w = (int)f[H8_WIDTH], half = 4 * bytes_of(w);
    uint32_t low = get(c, w, f[H8_REG]) & ((1u << half) - 1), upper = ~0u << half;
    logic_result(c, f, cut(bit(low, half - 1) ? low | upper : low, w));
}

static void page_extu(struct cpu *c, const uint32_t *f)
{
    int w = (int)f[H8_WIDTH], half = 4 * bytes_of(w);
    logic_result(c, f, get(c, w, f[H8_REG]) & ((1u << half) - 1));
    c->f[N] = 0;
}

static void page_inc(struct cpu *c, const uint32_t *f)
{
    int w = (int)f[H8_WIDTH], m = top_bit(w);
    uint32_t d = get(c, w, f[H8_REG]), r = cut(d + amount(f), w);
    set_nz(c, w, r);
    c->f[V] = (uint8_t)(no(bit(d, m)) & bit(r, m));
    put(c, w, f[H8_REG], r);
}

/* 1.7: @ERn, @aa:24, @@aa:8 as a branch address. */
static uint32_t branch_address(struct cpu *c, const uint32_t *f)
{
    if (f[H8_FORM] == H8_BY_REG)
        return get(c, H8_LONG, f[H8_OTHER]);
    return f[H8_FORM] == H8_VECTOR ? load(c, H8_LONG, f[H8_VALUE]) : f[H8_VALUE];
}

static void page_jmp(struct cpu *c, const uint32_t *f) { go(c, branch_address(c, f)); }

static void page_jsr(struct cpu *c, const uint32_t *f)
{
    uint32_t target = branch_address(c, f);
    push_next(c);
    go(c, target);
}

static void page_ldc(struct cpu *c, const uint32_t *f)
{
    set_condition(c, f[H8_KIND] == H8_CCR ? f[H8_VALUE] : get(c, H8_BYTE, f[H8_REG]));
}

/* 1.7: the address of an operand in memory; @ERn+ and @-ERn change the register here. */
static uint32_t effective_address(struct cpu *c, const uint32_t *f)
{
    uint32_t n = f[H8_OTHER], er = get(c, H8_LONG, n), size = (uint32_t)bytes_of((int)f[H8_WIDTH]);
    switch (f[H8_FORM]) {
    case H8_AT:    return er;
    case H8_DISP:  return er + (uint32_t)(int32_t)(int16_t)f[H8_VALUE];
    case H8_ABS8:  return 0xFFFF00 | f[H8_VALUE];
    case H8_ABS16: return (uint32_t)(int32_t)(int16_t)f[H8_VALUE];
    case H8_ABS24: return f[H8_VALUE];
    default:
        put(c, H8_LONG, n, f[H8_WHICH] == H8_LOAD ? er + size : er - size);
        return f[H8_WHICH] == H8_LOAD ? er : er - size;
    }
}

/* The register of @ERn+ is raised before the loaded part is set, that of @-ERn lowered before the stored part is read. */
static void page_mov_memory(struct cpu *c, const uint32_t *f)
{
    int w = (int)f[H8_WIDTH];
    uint32_t ea = effective_address(c, f), x;
    if (f[H8_WHICH] == H8_LOAD) {
        x = load(c, w, ea);
        put(c, w, f[H8_REG], x);
    } else {
        x = get(c, w, f[H8_REG]);
        save(c, w, ea, x);
    }
    set_nz(c, w, x);
    c->f[V] = 0;
}

static void page_mov(struct cpu *c, const uint32_t *f)
{
    if (f[H8_KIND] == H8_MOVE)
        page_mov_memory(c, f);
    else
        logic_result(c, f, source(c, f));
}

/* The source may be a part of the destination, so both are read first. */
static void page_mulxs(struct cpu *c, const uint32_t *f)
{
    int w = (int)f[H8_WIDTH], t = twice(w);
    int64_t s = with_sign(get(c, w, f[H8_OTHER]), w), d = with_sign(cut(get(c, t, f[H8_REG]), w), w);
    uint32_t r = cut((uint32_t)(d * s), t);
    set_nz(c, t, r);
    put(c, t, f[H8_REG], r);
}

static void page_mulxu(struct cpu *c, const uint32_t *f)
{
    int w = (int)f[H8_WIDTH];
    put(c, twice(w), f[H8_REG], cut(get(c, twice(w), f[H8_REG]), w) * get(c, w, f[H8_OTHER]));
}

static void page_neg(struct cpu *c, const uint32_t *f)
{
    int w = (int)f[H8_WIDTH], m = top_bit(w), h = m - 4;
    uint32_t d = get(c, w, f[H8_REG]), r = cut(0 - d, w);
    c->f[H] = (uint8_t)(bit(d, h) | bit(r, h));
    set_nz(c, w, r);
    c->f[V] = (uint8_t)(bit(d, m) & bit(r, m));
    c->f[C] = (uint8_t)(bit(d, m) | bit(r, m));
    put(c, w, f[H8_REG], r);
}

static void page_nop(struct cpu *c, const uint32_t *f) { (void)c; (void)f; }

static void page_not(struct cpu *c, const uint32_t *f)
{
    int w = (int)f[H8_WIDTH];
    logic_result(c, f, cut(~get(c, w, f[H8_REG]), w));
}

static void page_or(struct cpu *c, const uint32_t *f)
{
    logic_result(c, f, get(c, (int)f[H8_WIDTH], f[H8_REG]) | source(c, f));
}

static void page_orc(struct cpu *c, const uint32_t *f) { set_condition(c, condition(c) | f[H8_VALUE]); }

/* One bit to the left or to the right; `in` comes in at the far end, and C takes what goes out. */
static uint32_t turned(struct cpu *c, const uint32_t *f, int left, uint32_t in)
{
    int w = (int)f[H8_WIDTH], m = top_bit(w);
    uint32_t d = get(c, w, f[H8_REG]), r = left ? cut(d << 1, w) | in : d >> 1 | in << m;
    logic_result(c, f, r);
    c->f[C] = (uint8_t)(left ? bit(d, m) : bit(d, 0));
    return d;
}

static uint32_t old_top(struct cpu *c, const uint32_t *f)
{
    return bit(get(c, (int)f[H8_WIDTH], f[H8_REG]), top_bit((int)f[H8_WIDTH]));
}
static uint32_t old_low(struct cpu *c, const uint32_t *f) { return bit(get(c, (int)f[H8_WIDTH], f[H8_REG]), 0); }

static void page_rotl(struct cpu *c, const uint32_t *f) { turned(c, f, 1, old_top(c, f)); }
static void page_rotr(struct cpu *c, const uint32_t *f) { turned(c, f, 0, old_low(c, f)); }
static void page_rotxl(struct cpu *c, const uint32_t *f) { turned(c, f, 1, c->f[C]); }
static void page_rotxr(struct cpu *c, const uint32_t *f) { turned(c, f, 0, c->f[C]); }

static void page_rts(struct cpu *c, const uint32_t *f)
{
    uint32_t sp = get(c, H8_LONG, 7);
    (void)f;
    go(c, load(c, H8_LONG, sp));
    put(c, H8_LONG, 7, sp + 4);
}

static void page_shal(struct cpu *c, const uint32_t *f)
{
    int m = top_bit((int)f[H8_WIDTH]);
    uint32_t d = turned(c, f, 1, 0);
    c->f[V] = (uint8_t)((bit(d, m) & no(bit(d, m - 1))) | (no(bit(d, m)) & bit(d, m - 1)));
}
static void page_shar(struct cpu *c, const uint32_t *f) { turned(c, f, 0, old_top(c, f)); }
static void page_shll(struct cpu *c, const uint32_t *f) { turned(c, f, 1, 0); }
static void page_shlr(struct cpu *c, const uint32_t *f) { turned(c, f, 0, 0); }

static void page_stc(struct cpu *c, const uint32_t *f) { put(c, H8_BYTE, f[H8_REG], condition(c)); }

static void page_sub(struct cpu *c, const uint32_t *f)
{
    int w = (int)f[H8_WIDTH];
    uint32_t r = cut(get(c, w, f[H8_REG]) - source(c, f), w);
    page_cmp(c, f);
    put(c, w, f[H8_REG], r);
}

static void page_subs(struct cpu *c, const uint32_t *f)
{
    put(c, H8_LONG, f[H8_REG], get(c, H8_LONG, f[H8_REG]) - amount(f));
}

static void page_subx(struct cpu *c, const uint32_t *f)
{
    uint32_t s = source(c, f), d = get(c, H8_BYTE, f[H8_REG]), r = cut(d - s - c->f[C], H8_BYTE);
    difference_flags(c, H8_BYTE, s, d, r);
    if (r != 0)
        c->f[Z] = 0;
    put(c, H8_BYTE, f[H8_REG], r);
}

static void page_xor(struct cpu *c, const uint32_t *f)
{
    logic_result(c, f, get(c, (int)f[H8_WIDTH], f[H8_REG]) ^ source(c, f));
}

static void page_xorc(struct cpu *c, const uint32_t *f) { set_condition(c, condition(c) ^ f[H8_VALUE]); }

typedef void page(struct cpu *, const uint32_t *);
static const struct { const char *mnemonic; page *does; } pages[] = {
    {"ADD", page_add}, {"ADDS", page_adds}, {"ADDX", page_addx}, {"AND", page_and}, {"ANDC", page_andc},
    {"BAND", page_band}, {"BCLR", page_bclr}, {"BIAND", page_biand}, {"BILD", page_bild}, {"BIOR", page_bior}, {"BIST", page_bist},
    {"BIXOR", page_bixor}, {"BLD", page_bld}, {"BNOT", page_bnot}, {"BOR", page_bor}, {"BSET", page_bset}, {"BSR", page_bsr},
    {"BST", page_bst}, {"BTST", page_btst}, {"BXOR", page_bxor},
    {"CMP", page_cmp}, {"DAA", page_daa}, {"DAS", page_das}, {"DEC", page_dec}, {"DIVXS", page_divxs},
    {"DIVXU", page_divxu}, {"EXTS", page_exts}, {"EXTU", page_extu}, {"INC", page_inc}, {"JMP", page_jmp}, {"JSR", page_jsr},
    {"LDC", page_ldc}, {"MOV", page_mov}, {"MULXS", page_mulxs}, {"MULXU", page_mulxu}, {"NEG", page_neg}, {"NOP", page_nop},
    {"NOT", page_not}, {"OR", page_or}, {"ORC", page_orc}, {"ROTL", page_rotl}, {"ROTR", page_rotr},
    {"ROTXL", page_rotxl}, {"ROTXR", page_rotxr}, {"RTS", page_rts}, {"SHAL", page_shal}, {"SHAR", page_shar},
    {"SHLL", page_shll}, {"SHLR", page_shlr}, {"STC", page_stc}, {"SUB", page_sub}, {"SUBS", page_subs},
    {"SUBX", page_subx}, {"XOR", page_xor}, {"XORC", page_xorc},
    {"BRA", page_bcc}, {"BRN", page_bcc}, {"BHI", page_bcc}, {"BLS", page_bcc}, {"BCC", page_bcc}, {"BCS", page_bcc},
    {"BNE", page_bcc}, {"BEQ", page_bcc}, {"BVC", page_bcc}, {"BVS", page_bcc}, {"BPL", page_bcc}, {"BMI", page_bcc},
    {"BGE", page_bcc}, {"BLT", page_bcc}, {"BGT", page_bcc}, {"BLE", page_bcc},
};
static page *page_of[FORMS];

/* TABLE 2.6: how many cycles I J K L M N a form has. */
enum cycle { FETCH, VECTOR, STACK, BYTE_DATA, WORD_DATA, INTERNAL, CYCLES };
static uint32_t cycles_of[FORMS][CYCLES];

static void read_cycles(const char *text, uint32_t of[CYCLES])
{
    for (const char *p = text; *p; p++)
        if (*p >= 'I' && *p <= 'N')
            of[*p - 'I'] = (uint32_t)strtoul(p + 1, NULL, 10);
}

/* A form's page is found by its name. */
void model_start(void)
{
    for (int i = 0; i < FORMS; i++)
        read_cycles(forms[i].cycles, cycles_of[i]);
    for (int i = 0; i < FORMS; i++)
        for (size_t k = 0; k < sizeof pages / sizeof *pages; k++) {
            size_t n = strcspn(forms[i].name, ". ");
            if (strlen(pages[k].mnemonic) == n && !memcmp(pages[k].mnemonic, forms[i].name, n))
                page_of[i] = pages[k].does;
        }
}

/* TABLE 2.5. In a byte's column S_L, in a word's S_J, S_K and S_M, which are the same: on-chip memory 2; on-chip modules 3 a byte, 6 a
   word on a bus of 8 bits, 3 on one of 16. Fetches (S_I) are from on-chip memory. */
static uint32_t states_at(struct area a, int width, uint32_t address)
{
    int in_module = a.base <= address && address < a.end;
    if (!in_module)
        return 2;
    return width == H8_WORD && a.bus == 8 ? 6 : 3;
}

struct area no_ports(uint32_t at) { return (struct area){at, at, 8}; }

int model_board_good(const struct board *b)
{
    uint64_t ram_end = (uint64_t)b->base + b->ram_n;
    struct area a = b->area;
    int area_good = a.base % 2 == 0 && a.end % 2 == 0 && a.base <= a.end && a.base >= b->base && a.end <= ram_end
        && (a.bus == 8 || a.bus == 16);
    return b->rom_n % 2 == 0 && b->rom_n <= 524288 && b->ram_n % 2 == 0 && b->ram_n <= 65536
        && b->base % 2 == 0 && b->base >= b->rom_n && ram_end <= 16777216 && area_good;
}

/* Of the boards that carry the area the one whose working memory is the area itself is good if any is. */
int model_carried(struct area a, size_t rom_n)
{
    struct board b = {.base = a.base, .rom_n = rom_n, .ram_n = a.end - a.base, .area = a};
    return model_board_good(&b);
}

static uint32_t fetched(int form) { return 2 * cycles_of[form][FETCH] + cycles_of[form][INTERNAL]; }

/* The accesses made must be as many bytes and words as table 2.6 has: else the answer is a number that is no instruction's. */
static uint32_t states_of(const struct cpu *c, int form)
{
    const uint32_t *of = cycles_of[form];
    uint32_t states = fetched(form), bytes = 0, words = 0;
    for (uint32_t i = 0; i < c->touches; i++) {
        states += states_at(c->board->area, c->touch[i].bytes == 1 ? H8_BYTE : H8_WORD, c->touch[i].address);
        c->touch[i].bytes == 1 ? bytes++ : words++;
    }
    return bytes == of[BYTE_DATA] && words == of[VECTOR] + of[STACK] + of[WORD_DATA] ? states : 4711;
}

/* Where an instruction's absolute address of data points, if it has one; what it goes by otherwise is a register. */
static int absolute_place(const uint32_t *f, uint32_t *at)
{
    if (f[H8_KIND] == H8_MOVE && f[H8_FORM] >= H8_ABS8) {
        struct cpu none = {0};
        *at = effective_address(&none, f);
        return 1;
    }
    *at = 0xFFFF00 | f[H8_VALUE];
    return (f[H8_KIND] == H8_TAKE || f[H8_KIND] == H8_GIVE) && f[H8_FORM] == H8_SPOT_ABS8;
}

/* The dearest place on the board is the area's first, if it has one. */
static uint32_t dearest(struct area a, int width) { return a.base < a.end ? states_at(a, width, a.base) : 2; }

/* So many words one behind the other. */
static uint32_t words_at(struct area a, uint32_t n, uint32_t at)
{
    uint32_t states = 0;
    for (uint32_t i = 0; i < n; i++)
        states += states_at(a, H8_WORD, low24((at & ~1u) + 2 * i));
    return states;
}

/* A vector is at an absolute address, the stack where ER7 points. */
uint32_t model_most(const struct decoded *d, struct area a)
{
    const uint32_t *of = cycles_of[d->form];
    uint32_t at, states = fetched(d->form) + words_at(a, of[VECTOR], d->fields[H8_VALUE]) + of[STACK] * dearest(a, H8_WORD);
    if (absolute_place(d->fields, &at))
        return states + of[BYTE_DATA] * states_at(a, H8_BYTE, low24(at)) + words_at(a, of[WORD_DATA], at);
    return states + of[BYTE_DATA] * dearest(a, H8_BYTE) + of[WORD_DATA] * dearest(a, H8_WORD);
}

static void take_registers(struct cpu *c, const uint32_t regs[10])
{
    for (uint32_t n = 0; n < 8; n++)
        put(c, H8_LONG, n, regs[n]);
    set_condition(c, regs[H8_CONDITION]);
}

static void give_registers(struct cpu *c, uint32_t regs[10])
{
    for (uint32_t n = 0; n < 8; n++)
        regs[n] = get(c, H8_LONG, n);
    regs[H8_PC] = c->pc;
    regs[H8_CONDITION] = condition(c);
    for (int i = 0; i < c->stores; i++)
        *c->store[i].cell = c->store[i].byte;
}

struct outcome model_step(const struct board *b, uint32_t regs[10])
{
    struct outcome out = {.form = -1};
    struct cpu c = {0};
    struct decoded d;
    uint32_t pc = regs[H8_PC];
    c.board = b;
    c.here = pc;
    if (!model_board_good(b) || pc % 2 || pc >= 16777216 || regs[H8_CONDITION] > 255)
        return (struct outcome){.number = 1, .form = -1};
    if (pc >= b->rom_n)
        return (struct outcome){.number = 2, .place = pc, .form = -1};
    out.number = (uint32_t)decode(b->rom + pc, b->rom_n - pc, &d);
    out.form = d.form;
    if (out.number)
        return (struct outcome){.number = out.number, .place = pc, .group = (uint32_t)d.group, .form = -1};
    take_registers(&c, regs);
    c.next = low24(pc + d.fields[H8_LENGTH]);
    c.pc = c.next;
    page_of[d.form](&c, d.fields);
    if (c.number)
        return (struct outcome){.number = c.number, .place = c.place, .form = d.form};
    give_registers(&c, regs);
    out.states = states_of(&c, d.form);
    out.touches = c.touches;
    memcpy(out.touch, c.touch, sizeof out.touch);
    return out;
}

struct ran model_run(const struct board *b, uint32_t regs[10], uint32_t stop, uint32_t budget)
{
    struct ran r = {.ending = H8_REFUSED};
    if (budget > 1000000)
        return r.number = 12, r;
    if (!model_board_good(b) || regs[H8_PC] % 2 || regs[H8_PC] >= 16777216 || regs[H8_CONDITION] > 255)
        return r.number = 1, r;
    for (;;) {
        if (regs[H8_PC] == stop)
            return r.ending = H8_STOPPED, r;
        if (r.steps == budget)
            return r.ending = H8_SPENT, r;
        struct outcome o = model_step(b, regs);
        if (o.number)
            return r.number = o.number, r.place = o.place, r.group = o.group, r;
        r.steps++;
        r.states += o.states;
    }
}

/* One step of the mode. At a return with an address kept, and at a call with eight kept, the step is made on copies of registers and memory,
   which are thrown away if the run ends there. What is kept is what the call left on the stack. */
static int routine_step(const struct board *b, uint32_t regs[10], struct routine *r)
{
    static uint8_t ram[H8_RAM_MAX];
    uint32_t after[10];
    struct board copy = *b;
    struct decoded d;
    uint32_t pc = regs[H8_PC], kind = pc < b->rom_n && decode(b->rom + pc, b->rom_n - pc, &d) == 0 ? d.fields[H8_KIND] : H8_NOP;
    int calls = kind == H8_BSR || kind == H8_JSR, apart = (calls && r->count == 8) || (kind == H8_RTS && r->count > 0);
    if (apart) {
        memcpy(ram, b->ram, b->ram_n);
        copy.ram = ram;
    }
    memcpy(after, regs, sizeof after);
    struct outcome o = model_step(&copy, after);
    if (o.number)
        return r->number = o.number, r->place = o.place, r->group = o.group, r->ending = H8_REFUSED, 0;
    if (calls && r->count == 8)
        return r->ending = H8_NINTH, 0;
    if (apart && after[H8_PC] != r->kept[r->count - 1])
        return r->ending = H8_ELSEWHERE, 0;
    memcpy(regs, after, sizeof after);
    r->steps++;
    r->states += o.states;
    if (calls) {
        const uint8_t *top = b->ram + (o.touch[o.touches - 2].address - b->base), *low = b->ram + (o.touch[o.touches - 1].address - b->base);
        r->kept[r->count++] = (uint32_t)top[1] << 16 | (uint32_t)low[0] << 8 | low[1];
        r->deepest = r->count > r->deepest ? r->count : r->deepest;
    }
    if (kind == H8_RTS && !apart)
        return r->ending = H8_RETURNED, 0;
    if (kind == H8_RTS)
        r->kept[--r->count] = 0;
    return 1;
}

struct routine model_routine(const struct board *b, uint32_t regs[10], uint32_t stop, uint32_t budget)
{
    struct routine r = {.ending = H8_REFUSED};
    if (budget > 1000000)
        return r.number = 12, r;
    if (!model_board_good(b) || regs[H8_PC] % 2 || regs[H8_PC] >= 16777216 || regs[H8_CONDITION] > 255)
        return r.number = 1, r;
    for (;;) {
        if (regs[H8_PC] == stop)
            return r.ending = H8_STOPPED, r;
        if (r.steps == budget)
            return r.ending = H8_SPENT, r;
        if (!routine_step(b, regs, &r))
            return r;
    }
}
