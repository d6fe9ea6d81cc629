/* Prints crates/step_vectors/stdout: every form's step from three states, every condition, document 01's marked examples 1 to
   9, its refusals 1 to 7, refusal 14, what is easily missed and refusals with a pattern in all registers, all by model.c and
   decoder.c. The states are made by the same formula as in the program; the codes are built from the table of forms. The last
   line counts the steps of the forms, and the refusals that left the pattern: the program has them of its step in place. With
   the word `codes` it prints those instead. */
#include "model.h"
#include <inttypes.h>
#include <stdio.h>
#include <string.h>

static uint32_t mix(uint32_t n)
{
    uint32_t a = (n % 65537 * 40503 + 2) % 65537;
    return (a ^ a / 64) % 65537 * 49297 / 128 % 65536;
}
static uint32_t number(uint32_t n) { return mix(2 * n) * 65536 + mix(2 * n + 1); }

static void show_registers(const uint32_t regs[10])
{
    printf(" PC %06" PRIx32 " CCR %02" PRIx32, regs[H8_PC], regs[H8_CONDITION]);
}

static void show_ram(const struct board *b)
{
    fputs(" RAM ", stdout);
    for (size_t i = 0; i < b->ram_n; i++)
        printf("%02x", b->ram[i]);
}

/* One line: the state before; how it went, what has changed in ER0 to ER7, and the rest of the state after. */
static struct outcome line(const struct board *b, uint32_t regs[10])
{
    uint32_t before[10];
    memcpy(before, regs, sizeof before);
    for (int i = 0; i < 8; i++)
        printf(" %08" PRIx32, before[i]);
    show_registers(before);
    show_ram(b);
    struct outcome o = model_step(b, regs);
    if (o.number)
        printf(": refused %" PRIu32 " at %06" PRIx32, o.number, o.place);
    else
        printf(": %" PRIu32 " states", o.states);
    for (int i = 0; i < 8; i++)
        if (regs[i] != before[i])
            printf(" ER%d %08" PRIx32, i, regs[i]);
    show_registers(regs);
    show_ram(b);
    putchar('\n');
    return o;
}

static uint64_t joined(const uint8_t code[8])
{
    uint64_t x = 0;
    for (int i = 0; i < 8; i++)
        x = x << 8 | code[i];
    return x;
}

static void apart(uint64_t x, uint8_t code[8])
{
    for (int i = 7; i >= 0; i--, x >>= 8)
        code[i] = (uint8_t)x;
}

enum { ROM = 64, RAM = 16, BASE = 0xFFFFF0 };

/* The board of the forms: made bytes, but for the code at PC. */
static struct outcome on_board(uint32_t seed, uint64_t code, uint32_t regs[10])
{
    uint8_t rom[ROM], ram[RAM];
    for (uint32_t i = 0; i < ROM; i++)
        rom[i] = (uint8_t)(mix(30000 + seed * 16 + i) % 256);
    for (uint32_t i = 0; i < RAM; i++)
        ram[i] = (uint8_t)(mix(50000 + seed * 16 + i) % 256);
    apart(code, rom + regs[H8_PC]);
    struct board b = {BASE, rom, ROM, ram, RAM, no_ports(BASE)};
    printf("%016" PRIx64, code);
    return line(&b, regs);
}

/* ER5 to ER7 hold addresses: inside working memory; at its ends; or odd, with a top byte. */
static uint32_t address(int state, uint32_t x)
{
    switch (state) {
    case 0:  return BASE + 4 + x % 4 * 2;
    case 1:  return x / 256 % 128 * 16777216 + BASE - 2 + x % 20;
    default: return x / 256 % 128 * 16777216 + BASE + 4 + x % 8;
    }
}

static const uint32_t edges[8] = {
    0x00000000, 0x00000001, 0x7FFFFFFF, 0x80000000, 0xFFFFFFFF, 0x0FFF1000, 0x80007FFF, 0x7F80FF01,
};

static void make_state(uint32_t seed, int state, uint32_t regs[10])
{
    for (uint32_t i = 0; i < 8; i++) {
        uint32_t x = number(seed * 16 + i);
        regs[i] = i >= 5 ? address(state, x) : state == 1 ? edges[x % 8] : x;
    }
    regs[H8_PC] = number(seed * 16 + 8) % 29 * 2;
    regs[H8_CONDITION] = number(seed * 16 + 9) % 256;
}

/* The forms in the order of their lines: those of document 01's set, then those that requests have added, so that a line that
   was printed once stays as it is. */
static int ordered[FORMS];
static void put_in_order(void)
{
    int n = 0;
    for (int added = 0; added < 2; added++)
        for (int form = 0; form < FORMS; form++)
            if ((forms[form].kind > H8_RTS) == added)
                ordered[n++] = form;
}

/* The operands of the k-th form: addresses that reach memory, everything else made. */
static uint32_t value_of(uint32_t k, uint32_t x)
{
    const struct form *f = &forms[ordered[k]];
    uint32_t up = k % 12;
    if (f->kind == H8_MOVE && f->form == H8_DISP)
        return k % 2 ? 2 : 0xFFFE;
    if (f->kind == H8_TAKE || f->kind == H8_GIVE)
        return BASE + up;
    if (f->kind == H8_MOVE)
        return f->form == H8_ABS16 && f->which == H8_LOAD ? up : BASE + up;
    return (f->kind == H8_JMP || f->kind == H8_JSR) && f->form == H8_VECTOR ? 5 * up : x;
}

/* What is divided is E5 to E7 or ER5 to ER7, by a part of ER0 to ER4: of other numbers few quotients fit. */
static uint64_t code_of(uint32_t k)
{
    int form = ordered[k], move = forms[form].kind == H8_MOVE, divide = forms[form].kind == H8_DIVIDE;
    int bit = forms[form].kind >= H8_TAKE && forms[form].form == H8_SPOT_AT;
    uint32_t other = move ? 5 + k % 3 : divide ? number(3 * k) % 5 : number(3 * k);
    uint32_t reg = divide ? 13 + k % 3 : bit ? 5 + k / 3 % 3 : number(3 * k + 2);
    uint8_t code[8];
    build(form, other, value_of(k, number(3 * k + 1)), reg, code);
    return joined(code);
}

static int every_form(void)
{
    int missed = 0;
    for (uint32_t k = 0; k < FORMS; k++) {
        int done = 0;
        for (uint32_t state = 0; state < 3; state++) {
            uint32_t seed = 3 * k + state, regs[10];
            make_state(seed, (int)state, regs);
            struct outcome o = on_board(seed, code_of(k), regs);
            done += o.number == 0 && o.form == ordered[k];
        }
        if (!done)
            fprintf(stderr, "never done: %s\n", forms[ordered[k]].name);
        missed += !done;
    }
    return missed;
}

/* N, Z, V and C from 0 to F: T where the branch from 0 to 12 is taken; four states either way. */
static void conditions(void)
{
    fputs("NZVC\n", stdout);
    for (uint32_t c = 0; c < 16; c++) {
        printf("Bcc %" PRIx32 ": ", c);
        for (uint32_t flags = 0; flags < 16; flags++) {
            uint8_t rom[2] = {(uint8_t)(0x40 + c), 0x10};
            uint32_t regs[10] = {[H8_CONDITION] = flags};
            struct board b = {BASE, rom, 2, NULL, 0, no_ports(BASE)};
            struct outcome o = model_step(&b, regs);
            putchar(o.states != 4 ? '!' : regs[H8_PC] == 0x12 ? 'T' : regs[H8_PC] == 2 ? '-' : '?');
        }
        putchar('\n');
    }
}

/* Steps from states of which only these registers matter; read-only memory is the eight bytes of the code, working memory two. */
struct start { const char *name; uint32_t base; uint64_t code; uint32_t er0, er1, er7, pc, condition; int steps; };

static const struct start small[] = {
    {"example 1", 0xFFEF10, 0x0889000000000000, 0x7F, 0x01, 0, 0, 0x00, 1},
    {"example 2", 0xFFEF10, 0x0E89000000000000, 0x00, 0xFF, 0, 0, 0x01, 1},      /* Z clear before */
    {"example 2", 0xFFEF10, 0x0E89000000000000, 0x00, 0xFF, 0, 0, 0x05, 1},      /* Z set before */
    {"example 3", 0xFFEF10, 0x0F09000000000000, 0, 0x5A, 0, 0, 0x00, 1},
    {"example 4", 0xFFEF10, 0x0F09000000000000, 0, 0x9A, 0, 0, 0x00, 1},
    {"example 5", 0xFFEF10, 0x0F09000000000000, 0, 0x21, 0, 0, 0x21, 1},
    {"example 6", 0xFFEF10, 0x0F09000000000000, 0, 0x04, 0, 0, 0x20, 1},
    {"example 7", 0xFFEF10, 0x1C894D1000000000, 0x01, 0x80, 0, 0, 0x00, 2},      /* BLT is then taken */
    {"example 8", 0xFFEF10, 0x6910000000000000, 0, 0x00FFEF11, 0, 0, 0x00, 1},
    {"example 9", 0xFFEF10, 0x6D80000000000000, 0x00FFEF12, 0, 0, 0, 0x00, 1},
    {"refusal 1", 0xFFEF11, 0, 0, 0, 0, 0, 0x00, 1},
    {"refusal 1", 0x000006, 0, 0, 0, 0, 0, 0x00, 1},
    {"refusal 1", 0x1000000, 0, 0, 0, 0, 0, 0x00, 1},
    {"refusal 1", 0xFFEF10, 0, 0, 0, 0, 9, 0x00, 1},
    {"refusal 1", 0xFFEF10, 0, 0, 0, 0, 0x1000000, 0x00, 1},
    {"refusal 2", 0xFFEF10, 0, 0, 0, 0, 8, 0x00, 1},
    {"refusal 2", 0xFFEF10, 0, 0, 0, 0, 0xFFEF10, 0x00, 1},                      /* working memory holds no code */
    {"refusal 3", 0xFFEF10, 0x5471000000000000, 0, 0, 0, 0, 0x00, 1},
    {"refusal 3", 0xFFEF10, 0x0000590100000000, 0, 0, 0, 2, 0x00, 1},
    {"refusal 3", 0xFFEF10, 0x0000000000005801, 0, 0, 0, 6, 0x00, 1},            /* unknown, not cut short */
    {"refusal 4", 0xFFEF10, 0x0000000000007900, 0, 0, 0, 6, 0x00, 1},
    {"refusal 4", 0xFFEF10, 0x0000000001006B20, 0, 0, 0, 4, 0x00, 1},
    {"refusal 5", 0xFFEF10, 0x6810000000000000, 0, 0x00FFEF12, 0, 0, 0x00, 1},
    {"refusal 5", 0xFFEF10, 0x6D10000000000000, 0, 0x00FFEF0F, 0, 0, 0x00, 1},
    {"refusal 5", 0xFFEF10, 0x0100691000000000, 0, 0x00FFEF11, 0, 0, 0x00, 1},   /* the second word */
    {"refusal 5", 0xFFEF10, 0x5FF0000000000000, 0, 0, 0, 0, 0x00, 1},            /* before 6 */
    {"refusal 5", 0xFFEF10, 0x5470000000000000, 0, 0, 0x00FFEF10, 0, 0x00, 1},
    {"refusal 6", 0xFFEF10, 0x6890000000000000, 0, 0x00000004, 0, 0, 0x00, 1},
    {"refusal 6", 0xFFEF10, 0x6C98000000000000, 0, 0x00FFEF10, 0, 0, 0x00, 1},
    {"refusal 6", 0xFFEF10, 0x0100699000000000, 0x01020304, 0x00FFEF10, 0, 0, 0x00, 1}, /* the second word */
    {"refusal 6", 0xFFEF10, 0x5500000000000000, 0, 0, 0x00FFEF14, 0, 0x00, 1},
    {"refusal 6", 0xFFEF10, 0x5F04000000000000, 0, 0, 0, 0, 0x00, 1},
    {"refusal 7", 0xFFEF10, 0x000000001F080000, 0x50, 0, 0, 4, 0x20, 1},
    {"refusal 3", 0xFFEF10, 0x01D0508100000000, 0x01, 0x01, 0, 0, 0x00, 1},      /* MULXS behind 01D0 */
    {"refusal 3", 0xFFEF10, 0x5309000000000000, 0x01, 0x01, 0, 0, 0x00, 1},      /* no long register */
    {"refusal 4", 0xFFEF10, 0x00000000000001D0, 0, 0, 0, 6, 0x00, 1},            /* before 14 */
    {"refusal 14", 0xFFEF10, 0x5181000000000000, 0x00, 0x1234, 0, 0, 0xFF, 1},   /* by zero */
    {"refusal 14", 0xFFEF10, 0x5181000000000000, 0x01, 0x0100, 0, 0, 0x00, 1},
    {"refusal 14", 0xFFEF10, 0x5111000000000000, 0, 0xFF00, 0, 0, 0x00, 1},      /* by its own upper half */
    {"refusal 14", 0xFFEF10, 0x0000530100000000, 0x0001, 0x00010000, 0, 2, 0x00, 1},
    {"refusal 14", 0xFFEF10, 0x01D0518100000000, 0x00, 0x0000, 0, 0, 0x00, 1},
    {"refusal 14", 0xFFEF10, 0x01D0518100000000, 0xFF, 0xFF80, 0, 0, 0x00, 1},   /* -128 by -1 */
    {"refusal 14", 0xFFEF10, 0x01D0518100000000, 0x80, 0x4080, 0, 0, 0x00, 1},   /* -129 */
    {"refusal 14", 0xFFEF10, 0x01D0530100000000, 0x0000, 0x80000000, 0, 0, 0x00, 1},
    {"refusal 14", 0xFFEF10, 0x01D0530100000000, 0xFFFF, 0x80000000, 0, 0, 0x00, 1},
    {"multiply", 0xFFEF10, 0x5081000000000000, 0x00, 0xAAAA55FF, 0, 0, 0x00, 1}, /* N and Z stay */
    {"multiply", 0xFFEF10, 0x5011000000000000, 0, 0x0000FF02, 0, 0, 0xFF, 1},    /* by its own upper half */
    {"multiply", 0xFFEF10, 0x5291000000000000, 0, 0xFFFFFFFF, 0, 0, 0x00, 1},
    {"multiply", 0xFFEF10, 0x01C0508100000000, 0x80, 0x0080, 0, 0, 0xFF, 1},     /* -128 by -128 */
    {"multiply", 0xFFEF10, 0x01C0508900000000, 0xFF, 0x12005678, 0, 0, 0x08, 1}, /* into E1: zero, and not negative */
    {"multiply", 0xFFEF10, 0x01C0520100000000, 0x8000, 0xFFFF8000, 0, 0, 0x00, 1},
    {"divide", 0xFFEF10, 0x5181000000000000, 0x80, 0x00FF, 0, 0, 0x04, 1},       /* N is the divisor's top bit */
    {"divide", 0xFFEF10, 0x5191000000000000, 0, 0x0510, 0, 0, 0x00, 1},          /* by its own lower half */
    {"divide", 0xFFEF10, 0x5301000000000000, 0xFFFF, 0xFFFEFFFF, 0, 0, 0x00, 1},
    {"divide", 0xFFEF10, 0x01D0518100000000, 0xFB, 0x0003, 0, 0, 0x00, 1},       /* the quotient is zero and N is set */
    {"divide", 0xFFEF10, 0x01D0518100000000, 0xFE, 0xFFF9, 0, 0, 0xFF, 1},       /* the remainder has the dividend's sign */
    {"divide", 0xFFEF10, 0x01D0518100000000, 0x80, 0x407F, 0, 0, 0x00, 1},       /* -128 fits */
    {"divide", 0xFFEF10, 0x01D0530100000000, 0xFFFF, 0x00008000, 0, 0, 0x00, 1},
    {"divide", 0xFFEF10, 0x01D0539100000000, 0, 0xFFFFFFFF, 0, 0, 0x00, 1},      /* by its own upper half */
    {"refusal 3", 0xFFEF10, 0x7C10700000000000, 0, 0x00FFEF10, 0, 0, 0x00, 1},   /* BSET behind 7C */
    {"refusal 3", 0xFFEF10, 0x7080000000000000, 0, 0, 0, 0, 0x00, 1},            /* no number of a bit */
    {"refusal 4", 0xFFEF10, 0x0000000000007D10, 0, 0, 0, 6, 0x00, 1},            /* before 5 */
    {"refusal 5", 0xFFEF10, 0x7D10700000000000, 0, 0x00FFEF13, 0, 0, 0xFF, 1},   /* before 6: read first */
    {"refusal 5", 0xFFEF10, 0x7E40770000000000, 0, 0, 0, 0, 0xFF, 1},            /* FFFF40 */
    {"refusal 6", 0xFFEF10, 0x7D10670000000000, 0, 0x00000005, 0, 0, 0xFF, 1},
    {"bit", 0xFFEF10, 0x6088000000000000, 0x0A, 0, 0, 0, 0x00, 1},               /* its own number: bit 2 */
    {"bit", 0xFFEF10, 0x6298000000000000, 0xFF, 0xFF, 0, 0, 0xFF, 1},            /* number 255: bit 7 */
    {"bit", 0xFFEF10, 0x7301000000000000, 0, 0x0100, 0, 0, 0xFF, 1},             /* BTST of 1: Z clear */
    {"bit", 0xFFEF10, 0x7319000000000000, 0, 0x0001, 0, 0, 0x00, 1},             /* BTST of 0: Z set */
    {"bit", 0xFFEF10, 0x67F8000000000000, 0x80, 0, 0, 0, 0x01, 1},               /* BIST of C */
    {"bit", 0xFFEF10, 0x7C10773000000000, 0, 0x00000003, 0, 0, 0x01, 1},         /* a reader in read-only memory */
    {"bit", 0xFFEF10, 0x7D10712000000000, 0, 0x12FFEF11, 0, 0, 0x00, 1},         /* an odd address */
};

/* And on the board of the forms. */
static const struct { uint32_t seed; uint64_t code; uint32_t er0, er1, er7; } missed[] = {
    {600, 0x6C08000000000000, 0x00FFFFFF, 0, 0},            /* a load into the register's own part: the loaded part wins */
    {601, 0x6C88000000000000, 0x01000000, 0, 0},            /* a store of it: the lowered value */
    {602, 0x6D08000000000000, 0x00FFFFFE, 0, 0},
    {603, 0x6D80000000000000, 0x00FFFFF3, 0, 0},            /* odd: only the access is even */
    {604, 0x01006D0000000000, 0xABFFFFF5, 0, 0},
    {605, 0x01006D8000000000, 0x01000000, 0, 0},
    {606, 0x0100690000000000, 0x00FFFFFE, 0, 0},            /* a longword that goes on at 000000 */
    {607, 0x0100698100000000, 0x00FFFFFE, 0x01020304, 0},
    {608, 0x5D70000000000000, 0, 0, 0x00FFFFF8},            /* the target is ER7 before the push */
    {609, 0x5E00400100000000, 0, 0, 0x12FFFFF9},
    {610, 0x5500000000000000, 0, 0, 0x00000000},
    {611, 0x5470000000000000, 0, 0, 0xFFFFFFFC},
};

static void written_out(void)
{
    for (const struct start *s = small; s < small + sizeof small / sizeof *small; s++) {
        uint8_t rom[8], ram[2] = {0xA5, 0x5A};
        uint32_t regs[10] = {s->er0, s->er1, [7] = s->er7, [H8_PC] = s->pc, [H8_CONDITION] = s->condition};
        struct board b = {s->base, rom, 8, ram, 2, no_ports(s->base)};
        apart(s->code, rom);
        for (int i = 0; i < s->steps; i++) {
            printf("%s: %016" PRIx64 " base %06" PRIx32, s->name, s->code, s->base);
            line(&b, regs);
        }
    }
    for (size_t i = 0; i < sizeof missed / sizeof *missed; i++) {
        uint32_t regs[10] = {missed[i].er0, missed[i].er1, [7] = missed[i].er7};
        on_board(missed[i].seed, missed[i].code, regs);
    }
}

/* The push goes over the vector that was read before it. */
static void vector_in_working_memory(void)
{
    uint8_t rom[8] = {0x5F, 0x08}, ram[4] = {0x12, 0x00, 0x40, 0x21};
    uint32_t regs[10] = {[7] = 12};
    struct board b = {8, rom, 8, ram, 4, no_ports(8)};
    fputs("vector: 5f08000000000000 base 000008", stdout);
    line(&b, regs);
}

/* A pattern in all registers, and every refusal that a step has; the record holds the pattern after each. */
static const struct { uint32_t pc; uint64_t code; } held[] = {
    {9, 0x0000000000000000},                                /* 1 */
    {8, 0x0000000000000000},                                /* 2 */
    {0, 0x5471000000000000},                                /* 3 */
    {6, 0x0000000000007900},                                /* 4 */
    {0, 0x6810000000000000},                                /* 5: a byte; a word, the register going up; RTS */
    {0, 0x6D10000000000000},
    {0, 0x5470000000000000},
    {0, 0x6C98000000000000},                                /* 6: the register going down; pushes */
    {0, 0x5500000000000000},
    {0, 0x5F04000000000000},
    {0, 0x1F08000000000000},                                /* 7 */
    {0, 0x5101000000000000},                                /* 14 */
    {0, 0x5700000000000000},                                /* 15 */
};

static uint32_t held_records(void)
{
    uint32_t n = 0;
    for (size_t i = 0; i < sizeof held / sizeof *held; i++) {
        uint8_t rom[8], ram[2] = {0xA5, 0x5A};
        uint32_t before[10] = {0x80818283, 0x90919293, 0xA0A1A2A3, 0xB0B1B2B3, 0xC0C1C2C3, 0xD0D1D2D3, 0xE0E1E2E3,
                               0xF0F1F2F3, [H8_PC] = held[i].pc, [H8_CONDITION] = 0xAA}, regs[10];
        struct board b = {0xFFEF10, rom, 8, ram, 2, no_ports(0xFFEF10)};
        memcpy(regs, before, sizeof regs);
        apart(held[i].code, rom);
        printf("held: %016" PRIx64 " base %06" PRIx32, held[i].code, b.base);
        struct outcome o = line(&b, regs);
        n += o.number != 0 && !memcmp(regs, before, sizeof regs);
    }
    return n;
}

int main(int argc, char **argv)
{
    decoder_start();
    model_start();
    put_in_order();
    if (argc > 1 && !strcmp(argv[1], "codes")) {
        for (uint32_t k = 0; k < FORMS; k++)
            printf("    0x%016" PRIX64 ", // %s\n", code_of(k), forms[ordered[k]].name);
        return 0;
    }
    int undone = every_form();
    conditions();
    written_out();
    vector_in_working_memory();
    uint32_t n = held_records();
    printf("in place: steps as by value %d, records held after a refusal %" PRIu32 "\n", 3 * FORMS, n);
    return undone != 0;
}
