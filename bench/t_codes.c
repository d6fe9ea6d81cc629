/* Every code against the independent decoder, and encode as the inverse of decode. */
#include "bench.h"
#include <string.h>

static void show_bytes(const uint8_t *b, size_t n)
{
    static const char hex[] = "0123456789ABCDEF";
    char text[40] = "none";
    for (size_t i = 0; i < n && i < LEFT_OUT_LENGTH; i++) {
        text[3 * i] = hex[b[i] >> 4];
        text[3 * i + 1] = hex[b[i] & 15];
        text[3 * i + 2] = ' ';
        text[3 * i + 3] = 0;
    }
    say("%zu bytes: %s", n, text);
}

static void show_fields(const char *who, uint32_t number, uint32_t group, const uint32_t *f)
{
    if (number)
        say("%-8s refusal %u, group %u", who, number, group);
    else
        say("%-8s kind %u which %u width %u form %u other %u value %X reg %u length %u states %u", who, f[0], f[1], f[2], f[3],
            f[4], f[5], f[6], f[7], f[8]);
}

static void differ(const uint8_t *b, size_t n, int wanted, const struct decoded *d, const uint32_t *answer, const uint32_t *fields)
{
    fail("decode differs: %s", wanted == 0 ? forms[d->form].name : refused_code(wanted));
    show_bytes(b, n);
    show_fields("library", answer[0], answer[2], fields);
    show_fields("pattern", (uint32_t)wanted, (uint32_t)d->group, d->fields);
}

/* One string of bytes. `b` may be lent memory. On a refusal no field is written; the answer is, always whole. */
static int compare_decode(const uint8_t *b, size_t n, uint32_t *fields)
{
    struct decoded d;
    uint32_t got, mark = (uint32_t)0x5EED0000 | (uint32_t)n, answer[4] = {mark, mark, mark, mark};
    int wanted = decode(b, n, &d);
    fields[0] = mark;
    fields[8] = mark;
    got = h8_decode(b, n, fields, H8_FIELDS, answer, 3);
    int same = got == (uint32_t)wanted && answer[0] == got && answer[1] == 0 && answer[2] == (uint32_t)d.group && answer[3] == mark;
    if (same)
        same = wanted ? fields[0] == mark && fields[8] == mark : !memcmp(fields, d.fields, sizeof d.fields);
    if (!same)
        differ(b, n, wanted, &d, answer, fields);
    return wanted;
}

/* encode gives the bytes back, and leaves the rest. */
static void compare_encode(const uint8_t *b, uint32_t *fields)
{
    uint32_t length = fields[H8_LENGTH], *answer = lend(&answer_lender, 16);
    uint8_t *out = lend(&out_lender, 9);
    memset(out, 0x5A, 9);
    memset(answer, 0xEE, 16);
    fields[H8_LENGTH] ^= (uint32_t)any();           /* not looked at */
    fields[H8_STATES] ^= (uint32_t)any();
    uint32_t got = h8_encode(fields, H8_FIELDS, out, 9, answer, 4);
    int rest = 1;
    for (uint32_t i = length; i < 9; i++)
        rest &= out[i] == 0x5A;
    if (got || answer[0] || answer[1] || answer[2] || answer[3] != length || memcmp(out, b, length) || !rest) {
        fail("encode is not the inverse of decode");
        show_bytes(b, length);
        show_fields("fields", 0, 0, fields);
        say("encode answers %u %u %u %u", answer[0], answer[1], answer[2], answer[3]);
        show_bytes(out, 8);
    }
}

/* All strings of 0, 1 and 2 bytes; all of 3 bytes where two ask for more, or begin a left-out code. */
static void short_strings(uint32_t *fields)
{
    uint8_t *b = lend(&rom_lender, 0);
    compare_decode(b, 0, fields);
    for (unsigned x = 0; x < 256; x++) {
        b = lend(&rom_lender, 1);
        b[0] = (uint8_t)x;
        compare_decode(b, 1, fields);
    }
    count(257);
    for (unsigned w = 0; w < 65536 && !failing(); w++) {
        b = lend(&rom_lender, 2);
        b[0] = (uint8_t)(w >> 8);
        b[1] = (uint8_t)w;
        int a = compare_decode(b, 2, fields);
        count(1);
        if (a == 0)
            compare_encode(b, fields);
        for (unsigned x = 0; x < 256 && (a == 4 || a == 15); x++) {
            b = lend(&rom_lender, 3);
            b[0] = (uint8_t)(w >> 8);
            b[1] = (uint8_t)w;
            b[2] = (uint8_t)x;
            compare_decode(b, 3, fields);
            count(1);
        }
    }
}

/* What follows two words that ask for more: cuts at 5, 6 and 7 bytes, and whole. */
static void longer_strings(const uint8_t *four, uint32_t *fields)
{
    uint8_t b[8];
    memcpy(b, four, 4);
    uint64_t tail = any();
    if (tail & 3)
        tail &= ~(uint64_t)0xFF00;                  /* the 00 before aa:24 */
    for (int i = 0; i < 4; i++)
        b[4 + i] = (uint8_t)(tail >> (8 + 8 * i));
    for (size_t n = 5; n <= 8; n++)
        if (compare_decode(b, n, fields) == 0 && n % 2 == 0)
            compare_encode(b, fields);
    count(4);
}

/* These two words are the beginning of a left-out code by d:24 or aa:24, and not whole already, as SLEEP is. */
static int goes_on(const uint8_t *four)
{
    if (four[0] != 0x01)
        return four[0] == 0x78;
    return four[1] != 0x80 && (four[2] == 0x78 || (four[2] == 0x6B && four[3] & 0x20));
}

/* Every third word behind two words with which such a code begins, and where it still does every byte behind these. */
static void later_bytes(const uint8_t *four, uint32_t *fields)
{
    uint8_t b[LEFT_OUT_LENGTH + 1];
    uint64_t tail = any();
    memcpy(b, four, 4);
    for (int i = 6; i <= LEFT_OUT_LENGTH; i++)
        b[i] = (uint8_t)(tail >> 5 * i);
    for (unsigned x = 0; x < 65536 && !failing(); x += four[0] == 0x78 ? 251 : 1) {
        b[4] = (uint8_t)(x >> 8);
        b[5] = (uint8_t)x;
        int a = compare_decode(b, 6, fields);
        if (x % 5 == 0)
            compare_decode(b, 5, fields);
        count(1);
        for (unsigned y = 0; y < 256 && a == 15; y++) {
            b[6] = (uint8_t)y;
            compare_decode(b, 7 + (y + x) % 5, fields);
            count(1);
        }
    }
}

/* All first words with every second word where the first asks for more, or begins a left-out code. */
static void all_words(uint32_t *fields)
{
    struct decoded d;
    uint8_t b[4];
    for (unsigned w = 0; w < 65536 && !failing(); w++) {
        b[0] = (uint8_t)(w >> 8);
        b[1] = (uint8_t)w;
        int first = decode(b, 2, &d);
        if (first != 4 && first != 15)
            continue;
        for (unsigned x = 0; x < 65536 && !failing(); x++) {
            b[2] = (uint8_t)(x >> 8);
            b[3] = (uint8_t)x;
            int a = compare_decode(b, 4, fields);
            if (a == 0 && ((x * 0x9E3779B1u) >> 28 == 0 || x + 2 < 4))
                compare_encode(b, fields);
            if (a == 4 && ((x * 0x9E3779B1u) >> 29 == 0 || x < 0x100))
                longer_strings(b, fields);
            if (a == 15 && goes_on(b))
                later_bytes(b, fields);
        }
        count(65536);
    }
}

/* Strings of 0 to 8 bytes and more made of codes and near misses, lent so that nothing past them may be read. */
static void mixed_strings(uint32_t *fields)
{
    for (int k = 0; k < 500000 && !failing(); k++) {
        uint8_t code[8], *b;
        size_t n = below(12);
        uint64_t tail = any();
        build((int)below(FORMS), (uint32_t)any(), edge32(), (uint32_t)any(), code);
        for (int i = 2 + 2 * (int)below(4); i < 8; i++)
            code[i] = (uint8_t)(tail >> 8 * i);
        if (k % 4 == 0)
            code[below(8)] ^= (uint8_t)(1u << below(8));
        b = lend(&rom_lender, n);
        for (size_t i = 0; i < n; i++)
            b[i] = i < 8 ? code[i] : (uint8_t)tail;
        if (compare_decode(b, n, fields) == 0)
            compare_encode(b, fields);
        count(1);
    }
}

/* Each form whole and at each cut, with digits and values at their ends. */
static void each_form_cut(uint32_t *fields)
{
    for (int f = 0; f < FORMS && !failing(); f++)
        for (int k = 0; k < 64; k++) {
            uint8_t code[8];
            int whole = build(f, k % 3 ? (uint32_t)any() : 0 - (uint32_t)(k & 1), k < 8 ? 0 - (uint32_t)(k & 1) : edge32(),
                              (uint32_t)any(), code);
            for (size_t n = 0; n <= 8; n++) {
                uint8_t *b = lend(&rom_lender, n);
                memcpy(b, code, n);
                int a = compare_decode(b, n, fields);
                if ((n < (size_t)whole ? 4 : 0) != a)
                    fail("the reference decoder errs: %s", forms[f].name);
                count(1);
            }
        }
}

/* Of the beginnings of left-out codes these alone begin codes of the set too: none, 01, 6A and 0100. */
static int begins_held(const uint8_t *b, size_t n)
{
    return n == 0 || (n == 1 && (b[0] == 0x01 || b[0] == 0x6A)) || (n == 2 && b[0] == 0x01 && b[1] == 0x00);
}

/* A left-out code at each cut and with a byte behind it; and these with each bit turned over. */
static void left_out_cut(int code, uint32_t *fields)
{
    for (int k = 0; k < 64; k++) {
        uint8_t whole[LEFT_OUT_LENGTH + 1];
        uint64_t operands = k == 0 ? 0 : k == 1 ? ~(uint64_t)0 : any();
        build_left_out(code, operands, whole);
        whole[LEFT_OUT_LENGTH] = (uint8_t)any();
        for (size_t n = 0; n <= sizeof whole; n++) {
            uint8_t *b = lend(&rom_lender, n);
            memcpy(b, whole, n);
            if (compare_decode(b, n, fields) != (begins_held(b, n) ? 4 : 15))
                fail("the reference decoder errs: %s", left_outs[code].name);
            for (size_t bit = 0; bit < 8 * n; bit++) {
                b[bit / 8] ^= (uint8_t)(1u << bit % 8);
                compare_decode(b, n, fields);
                b[bit / 8] ^= (uint8_t)(1u << bit % 8);
            }
            count(1 + 8 * n);
        }
    }
}

void test_codes(void)
{
    uint32_t *fields = lend(&regs_lender, 4 * H8_FIELDS);
    begin("decode: every string of up to 2 bytes, and of 3 where 2 ask for more or begin a left-out code");
    short_strings(fields);
    end("strings");
    begin("decode: all first words with every second word where the first asks for more or begins a left-out code");
    all_words(fields);
    end("strings");
    begin("decode: each form at every cut from 0 to 8 bytes");
    each_form_cut(fields);
    end("strings");
    begin("decode: each left-out code at every cut from 0 to 11 bytes, and with each bit turned over");
    for (int code = 0; code < LEFT_OUT && !failing(); code++)
        left_out_cut(code, fields);
    end("strings");
    begin("decode: codes, near misses and tails, 0 to 11 bytes");
    mixed_strings(fields);
    end("strings");
}

/* ENCODE of any numbers: exactly the fields of some form are taken, all else is 11; a short `out` is 13 and stays. */
static void compare_fields(const uint32_t *wanted_fields, size_t out_n)
{
    uint32_t *fields = lend(&regs_lender, 4 * H8_FIELDS), *answer = lend(&answer_lender, 16);
    uint8_t *out = lend(&out_lender, out_n), code[8];
    memcpy(fields, wanted_fields, 4 * H8_FIELDS);
    memset(answer, 0xEE, 16);
    memset(out, 0x5A, out_n);
    int form = form_of(fields), length = 0, written = 1;
    if (form >= 0)
        length = build(form, fields[H8_OTHER], fields[H8_VALUE], fields[H8_REG], code);
    uint32_t number = form < 0 ? 11 : (size_t)length > out_n ? 13 : 0, place = number == 13 ? (uint32_t)length : 0;
    uint32_t got = h8_encode(fields, H8_FIELDS, out, out_n, answer, 4);
    for (size_t i = 0; i < out_n; i++)
        written &= out[i] == (number == 0 && i < (size_t)length ? code[i] : 0x5A);
    if (got != number || answer[0] != number || answer[1] != place || answer[2] || answer[3] != (number ? 0 : (uint32_t)length) || !written
        || memcmp(fields, wanted_fields, 4 * H8_FIELDS)) {
        fail("encode differs: %s, out of %zu bytes", form < 0 ? "no form" : forms[form].name, out_n);
        show_fields("fields", 0, 0, wanted_fields);
        say("library answers %u: %u %u %u %u; wanted %u %u 0 %d", got, answer[0], answer[1], answer[2], answer[3], number, place,
            number ? 0 : length);
        show_bytes(out, out_n);
    }
    count(1);
}

/* Every choice, with registers and values at and past their ends. */
static void all_choices(void)
{
    static const uint32_t digits[] = {0, 7, 8, 15, 16, 0xFFFFFFFF};
    static const uint32_t values[] = {0, 1, 0xFF, 0x100, 0xFFFF, 0x10000, 0xFFFFFF, 0x1000000, 0xFFFFFFFF};
    enum { KINDS = H8_GIVE + 2, CHOICES = 17, WIDTHS = 4, FORMS_OF = 7 };     /* with one too many of each */
    for (uint32_t k = 0; k < KINDS * CHOICES * WIDTHS * FORMS_OF && !failing(); k++)
        for (uint32_t v = 0; v < 6 * 9 * 6; v++) {
            uint32_t f[H8_FIELDS] = {k % KINDS, k / KINDS % CHOICES, k / KINDS / CHOICES % WIDTHS, k / KINDS / CHOICES / WIDTHS,
                                     digits[v % 6], values[v / 6 % 9], digits[v / 54], 2, 2};
            compare_fields(f, 8);
        }
}

/* Fields of real codes, some with one number made wrong, and `out` of every length. */
static void changed_fields(void)
{
    for (int k = 0; k < 400000 && !failing(); k++) {
        struct decoded d;
        uint8_t code[8];
        int n = build((int)below(FORMS), (uint32_t)any(), edge32(), (uint32_t)any(), code);
        decode(code, (size_t)n, &d);
        if (k & 1)
            d.fields[below(7)] = k & 2 ? below(20) : edge32();
        compare_fields(d.fields, below(10));
    }
}

void test_encode(void)
{
    begin("encode: every kind and choice with registers and values at and past their ends");
    all_choices();
    end("instructions");
    begin("encode: fields of codes, some made wrong, into 0 to 9 bytes");
    changed_fields();
    end("instructions");
}
