/* The references themselves: the decoder's counts against the ones reckoned from the manual, and the twelve marked examples
   of document 01 with their numbers written out, on the model and on the library. */
#include "bench.h"
#include <stdlib.h>
#include <string.h>

static void expect(const char *what, long got, long wanted)
{
    count(1);
    if (got != wanted)
        fail("%s: %ld, and it should be %ld", what, got, wanted);
}

/* 2(I+J+K+L+M)+N from a text such as "I2 L1 N2". */
static long states_of_cycles(const char *text)
{
    long sum = 0;
    for (const char *p = text; *p; p++)
        if (*p >= 'I' && *p <= 'N')
            sum += (*p == 'N' ? 1 : 2) * strtol(p + 1, NULL, 10);
    return sum;
}

/* The numbers are reckoned by hand from the code list. Document 01's set has 119 + 41 + 15 + 2 forms and 6,265 + 1,155 + 264 +
   16 codes. MULXU and DIVXU add four forms of 2 bytes: by byte 16 x 16 codes each, by word 16 x 8, together 2 (256 + 128) =
   768. MULXS and DIVXS add four forms and 768 codes of 4 bytes. The bit instructions add 14 forms by number and 4 by register,
   each for a register, @ER and aa:8. By number 4 have a byte of their own and one half of its digits, 8 numbers, and 10 share 5
   bytes; with the 16 registers of the 4 others that makes (4 x 8 + 5 x 16 + 4 x 16) = 176 by 16 operands = 2,816 codes of 2
   bytes, and of 4 bytes 176 by 8 operands and, the address apart, 176: 1,584. */
static void count_rows(void)
{
    long shapes = 0, rows_of[9] = {0}, shapes_of[9] = {0};
    for (int i = 0; i < FORMS; i++) {
        int other = decoder_other_top(i), reg = decoder_reg_top(i), length = decoder_length(i);
        long here = (other ? other : 1) * (reg ? reg : 1);
        shapes += here;
        rows_of[length]++;
        shapes_of[length] += here;
        expect(forms[i].name, states_of_cycles(forms[i].cycles), forms[i].states);
    }
    expect("codes without operands", shapes, 7700 + 2 * 768 + 2816 + 1584);
    expect("rows of 2 bytes", rows_of[2], 119 + 4 + 18);
    expect("rows of 4 bytes", rows_of[4], 41 + 4 + 36);
    expect("rows of 6 bytes", rows_of[6], 15);
    expect("rows of 8 bytes", rows_of[8], 2);
    expect("codes of 2 bytes", shapes_of[2], 6265 + 768 + 2816);
    expect("codes of 4 bytes", shapes_of[4], 1155 + 768 + 1584);
    expect("codes of 6 bytes", shapes_of[6], 264);
    expect("codes of 8 bytes", shapes_of[8], 16);
}

/* Second words with which `first` is a code of the set or begins one; or, with a group, one of what that leaves out. */
static long words_after(uint32_t first, int group)
{
    struct decoded d;
    long n = 0;
    for (unsigned w = 0; w < 65536; w++) {
        int a = decode((const uint8_t[]){(uint8_t)(first >> 8), (uint8_t)first, (uint8_t)(w >> 8), (uint8_t)w}, 4, &d);
        n += group ? a == 15 && d.group == group : a == 0 || a == 4;
    }
    return n;
}

/* Document 01's set has 52,930 first words that are codes, 1,339 that begin longer ones, and 231 first bytes. To these come
   the 768 codes of MULXU and DIVXU, with the first bytes 50 to 53, and the words 01C0 and 01D0; after each of these two a byte
   form (256) and a word form (128). Of the bit instructions come 2,816 codes, with the first bytes 60 to 63, 67 and 70 to 77,
   and 7C e0, 7D e0, 7E aa and 7F aa, 2 (8 + 256) words; after each of these 88 words: behind 7C and 7E 63 r0 (16), 73 i0 (8) and 74
   to 77 with any digit (64), behind 7D and 7F 60 to 62 (48), 70 to 72 (24) and 67 with any digit (16). That leaves 7,153 words. */
static void count_words(void)
{
    struct decoded d;
    long of[16] = {0}, bytes = 0;
    for (unsigned w = 0; w < 65536; w++) {
        uint8_t b[2] = {(uint8_t)(w >> 8), (uint8_t)w};
        of[decode(b, 2, &d)]++;
        bytes += b[1] == 0 && decode(b, 1, &d) == 4;
    }
    expect("first words that are whole codes", of[0], 52930 + 768 + 2816);
    expect("first words that begin a longer code", of[4], 1339 + 2 + 2 * (8 + 256));
    expect("first words that begin none of the set", of[3] + of[15], 7153);
    expect("first bytes that begin a code", bytes, 231 + 4 + 13 + 4);
    expect("second words after 0100", words_after(0x0100, 0), 416);
    expect("second words after 01C0", words_after(0x01C0, 0), 384);
    expect("second words after 01D0", words_after(0x01D0, 0), 384);
    expect("second words after 01F0", words_after(0x01F0, 0), 192);
    for (uint32_t i = 0; i < 8; i++) {
        expect("second words after 7C e0", words_after(0x7C00 + 16 * i, 0), 88);
        expect("second words after 7D e0", words_after(0x7D00 + 16 * i, 0), 88);
        expect("second words after 7E aa", words_after(0x7E00 + 37 * i, 0), 88);
        expect("second words after 7F aa", words_after(0x7F00 + 36 * i, 0), 88);
    }
}

/* What is left out has 6 codes in group 3, 12 in 4, 2 in 5, 3 in 6 and 2 in 7. First bytes are 78, 7B, 56 and 57 (01 and 6A begin codes
   of the set). First words are 78 e0, 8 of group 3; 0140, 1 of group 4; 7B5C and 7BD4; 5670, 0180 and 57 t0, 4 of these, together
   6; 6A 4r and 6A Cr, 32 of group 7: 49, so of 7,153 words 7,104 begin nothing. */
static void count_left_out(void)
{
    struct decoded d;
    long of[8] = {0}, words[8] = {0}, bytes[8] = {0}, none = 0, long_codes = 0;
    for (int i = 0; i < LEFT_OUT; i++) {
        of[left_outs[i].group]++;
        long_codes += left_out_length(i) == LEFT_OUT_LENGTH;
    }
    for (unsigned w = 0; w < 65536; w++) {
        uint8_t b[2] = {(uint8_t)(w >> 8), (uint8_t)w};
        none += decode(b, 2, &d) == 3;
        words[d.group]++;
        if (b[1] == 0) {
            expect("a byte that is unknown", decode(b, 1, &d) == 3, 0);
            bytes[d.group]++;
        }
    }
    static const struct { long of, words, bytes; } wanted[8] = {
        [3] = {6, 8, 1}, [4] = {12, 1, 0}, [5] = {2, 2, 1}, [6] = {3, 6, 2}, [7] = {2, 32, 0},
    };
    for (int g = 1; g < 8; g++) {
        expect("left-out codes of a group", of[g], wanted[g].of);
        expect("first words of a group", words[g], wanted[g].words);
        expect("first bytes of a group", bytes[g], wanted[g].bytes);
    }
    expect("first words that begin nothing", none, 7153 - 49);
    expect("left-out codes of ten bytes", long_codes, 4);
}

/* Behind 78 e0: 6A or 6B and 2r or Ar, 64 words. Behind 0100: 78 and a fourth byte with any digit above, 16. Behind 0140: 69, 6D and
   6F with any digit above, 48, 6B with 0, 2, 8 or A above, 4, and 78 with 0 to 7, 8: 60. Behind 7B5C and 7BD4 one. What is whole is
   followed by any word: 01 80, 56 70, 57 t0; and 6A 4r and 6A Cr by any address. */
static void count_left_out_words(void)
{
    for (uint32_t i = 0; i < 8; i++)
        expect("second words after 78 e0", words_after(0x7800 + 16 * i, 3), 64);
    expect("second words after 0100, left out", words_after(0x0100, 3), 16);
    expect("second words after 0140", words_after(0x0140, 4), 60);
    expect("second words after 7B5C", words_after(0x7B5C, 5), 1);
    expect("second words after 7BD4", words_after(0x7BD4, 5), 1);
    static const uint32_t any_word[] = {0x0180, 0x5670, 0x5700, 0x5730};
    for (size_t i = 0; i < sizeof any_word / sizeof *any_word; i++)
        expect("second words after a whole code", words_after(any_word[i], 6), 65536);
    expect("second words after 6A4F", words_after(0x6A4F, 7), 65536);
    expect("second words after 6AC0", words_after(0x6AC0, 7), 65536);
}

/* The first ONWARD forms are those that go on. */
static void onward_first(void)
{
    for (int i = 0; i < FORMS; i++) {
        uint8_t k = forms[i].kind;
        expect(forms[i].name, k == H8_BCC || k == H8_JMP || k == H8_BSR || k == H8_JSR || k == H8_RTS, i >= ONWARD);
    }
}

/* How many of the 1,024 (C, H, byte) combinations are adjusted. */
static long adjusted(uint8_t code)
{
    uint8_t rom[2] = {code, 0x08}, ram[1];
    struct board b = {2, rom, 2, ram, 0, no_ports(2)};
    long n = 0;
    for (uint32_t k = 0; k < 1024; k++) {
        uint32_t regs[10] = {k & 255};
        regs[H8_CONDITION] = (k >> 8 & 1) | (k >> 9 ? 0x20 : 0);
        n += model_step(&b, regs).number == 0;
    }
    return n;
}

/* How many of the 65,536 dividends in R1 the byte R0L divides with a quotient that fits. */
static long divided(const char *code, uint32_t divisor)
{
    uint8_t rom[4], ram[1];
    uint32_t length = from_hex(code, rom);
    struct board b = {4, rom, length, ram, 0, no_ports(4)};
    long n = 0;
    for (uint32_t x = 0; x < 65536; x++) {
        uint32_t regs[10] = {divisor, x};
        n += model_step(&b, regs).number == 0;
    }
    return n;
}

/* A quotient of 0 to 255 by y: the dividends 0 to 256 y - 1. One of -128 to 127: where it is positive sizes up to 128 |y| - 1,
   where it is negative up to 129 |y| - 1, and zero is counted once: 257 |y| - 1. */
static void count_quotients(void)
{
    static const uint8_t divisors[] = {0x01, 0x02, 0x7F, 0x80, 0x81, 0xFF};
    for (size_t i = 0; i < sizeof divisors; i++) {
        long y = divisors[i], size = y < 128 ? y : 256 - y;
        expect("dividends of DIVXU.B", divided("5181", divisors[i]), 256 * y);
        expect("dividends of DIVXS.B", divided("01D05181", divisors[i]), 257 * size - 1);
    }
    expect("dividends of DIVXU.B by zero", divided("5181", 0), 0);
    expect("dividends of DIVXS.B by zero", divided("01D05181", 0), 0);
}

/* No form equals or begins another: a code built of one is decoded as that one. And a left-out code is of its own group alone, so
   that it never comes to the lower number. */
static void no_overlap(void)
{
    struct decoded d;
    uint8_t code[LEFT_OUT_LENGTH];
    for (int i = 0; i < LEFT_OUT; i++)
        for (int k = 0; k < 500; k++) {
            build_left_out(i, any(), code);
            expect("left out", decode(code, (size_t)left_out_length(i), &d), 15);
            expect("its group", d.group, left_outs[i].group);
        }
    for (int i = 0; i < FORMS; i++)
        for (int k = 0; k < 500; k++) {
            int n = build(i, (uint32_t)any(), (uint32_t)any(), (uint32_t)any(), code);
            expect("decoded", decode(code, (size_t)n, &d) == 0 ? d.form : -1, i);
            expect("form of its fields", form_of(d.fields), i);
        }
}

void test_reference(void)
{
    begin("reference: counts of the set against the manual's");
    count_rows();
    count_words();
    count_left_out();
    count_left_out_words();
    onward_first();
    no_overlap();
    expect("DAA combinations", adjusted(0x0F), 384);
    expect("DAS combinations", adjusted(0x1F), 380);
    count_quotients();
    end("checks");
}

/* THE MARKED EXAMPLES. */
struct marked {
    int number;
    uint8_t code[2];
    uint32_t er0, er1, condition;           /* before */
    uint32_t refusal, states;
    uint32_t er0_after, er1_after, condition_after;
    uint8_t ram[2], ram_after[2];           /* at FFEF10 */
};
static const struct marked examples[] = {
    {1, {0x08, 0x89}, 0x7F, 0x01, 0x05, 0, 2, 0x7F, 0x80, 0x2A, {0, 0}, {0, 0}},
    {2, {0x0E, 0x89}, 0x00, 0xFF, 0x01, 0, 2, 0x00, 0x00, 0x21, {0, 0}, {0, 0}},
    {2, {0x0E, 0x89}, 0x00, 0xFF, 0x05, 0, 2, 0x00, 0x00, 0x25, {0, 0}, {0, 0}},
    {3, {0x0F, 0x09}, 0x00, 0x5A, 0x00, 0, 2, 0x00, 0x60, 0x00, {0, 0}, {0, 0}},
    {4, {0x0F, 0x09}, 0x00, 0x9A, 0x00, 0, 2, 0x00, 0x00, 0x05, {0, 0}, {0, 0}},
    {5, {0x0F, 0x09}, 0x00, 0x21, 0x21, 0, 2, 0x00, 0x87, 0x29, {0, 0}, {0, 0}},
    {6, {0x0F, 0x09}, 0x00, 0x04, 0x20, 7, 0, 0x00, 0x04, 0x20, {0, 0}, {0, 0}},
    {7, {0x1C, 0x89}, 0x01, 0x80, 0x0D, 0, 2, 0x01, 0x80, 0x22, {0, 0}, {0, 0}},
    {8, {0x69, 0x10}, 0x00, 0x00FFEF11, 0x00, 0, 4, 0x1234, 0x00FFEF11, 0x00, {0x12, 0x34}, {0x12, 0x34}},
    {9, {0x6D, 0x80}, 0x00FFEF12, 0x00, 0x00, 0, 6, 0x00FFEF10, 0x00, 0x08, {0x12, 0x34}, {0xEF, 0x10}},
};

static void marked_step(const struct marked *m)
{
    struct state s = {.base = 0xFFEF10, .rom_n = 2, .ram_n = 2, .regs = {m->er0, m->er1}};
    uint32_t regs[10];
    uint8_t ram[2];
    struct board b = {s.base, s.rom, 2, ram, 2, no_ports(s.base)};
    memcpy(s.rom, m->code, 2);
    memcpy(s.ram, m->ram, 2);
    memcpy(ram, m->ram, 2);
    s.regs[H8_CONDITION] = m->condition;
    memcpy(regs, s.regs, sizeof regs);
    struct outcome o = model_step(&b, regs);
    compare_step(&s);
    if (o.number != m->refusal || o.place != 0 || o.states != m->states || regs[0] != m->er0_after || regs[1] != m->er1_after
        || regs[H8_CONDITION] != m->condition_after || regs[H8_PC] != (m->refusal ? 0u : 2u) || memcmp(ram, m->ram_after, 2)) {
        fail("marked example %d: the model is wrong", m->number);
        show_registers("model", regs);
    }
}

/* Example 7 goes on: BLT is then taken. */
static void marked_branch(void)
{
    struct state s = {.base = 0xFFEF10, .rom_n = 8, .rom = {0x1C, 0x89, 0x4D, 0x02}, .regs = {0x01, 0x80}};
    uint8_t ram[1];
    struct board b = {s.base, s.rom, 8, ram, 0, no_ports(s.base)};
    model_step(&b, s.regs);
    compare_step(&s);
    struct outcome o = model_step(&b, s.regs);
    expect("BLT's states", o.states, 4);
    expect("PC after BLT", s.regs[H8_PC], 6);
}

/* Examples 10 to 12: the answer and the whole table, with a number behind it that stays. */
static void marked_figure(int example, const uint8_t *code, size_t n, const uint64_t answer[4], const uint64_t *table)
{
    uint8_t *rom = lend(&rom_lender, n);
    uint64_t *got = lend(&out_lender, 8 * (n + 1)), *told = lend(&answer_lender, 32);
    memcpy(rom, code, n);
    for (size_t i = 0; i <= n; i++)
        got[i] = 4711 + i;
    uint32_t returned = h8_figure(NO_PORTS, rom, n, 0, got, n + 1, told, 4);
    count(1);
    if (returned != answer[0] || memcmp(told, answer, 32) || memcmp(got, table, 8 * n) || got[n] != 4711 + n) {
        fail("marked example %d: figure answers %llu at %llu, figure %llu", example, (unsigned long long)told[0],
             (unsigned long long)told[1], (unsigned long long)told[3]);
        for (size_t i = 0; i <= n; i++)
            say("table[%zu] = %llu", i, (unsigned long long)got[i]);
    }
}

void test_marked(void)
{
    static const uint8_t ten[] = {0x47, 0x02, 0x0B, 0x50, 0x54, 0x70}, eleven[] = {0x40, 0xFE}, twelve[] = {0x0B, 0x50};
    static const uint64_t ten_table[] = {16, H8_NONE, 12, H8_NONE, 10, H8_NONE}, eleven_table[] = {0, 0}, twelve_table[] = {0, 2};
    begin("marked examples 1 to 12 of document 01");
    for (size_t i = 0; i < sizeof examples / sizeof *examples; i++)
        marked_step(&examples[i]);
    marked_branch();
    marked_figure(10, ten, 6, (const uint64_t[]){0, 0, 0, 16}, ten_table);
    marked_figure(11, eleven, 2, (const uint64_t[]){10, 0, 0, 0}, eleven_table);
    marked_figure(12, twelve, 2, (const uint64_t[]){2, 2, 0, 0}, twelve_table);
    end("checks");
}
