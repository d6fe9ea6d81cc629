/* What the set leaves out, without the decoder's patterns: strings of bytes written out with what each must be refused by, in decode,
   and as the end of read-only memory in step, run, figure and way; each left-out code at each cut; and the group from call to call. */
#include "bench.h"
#include <string.h>

typedef unsigned long long ull;

/* Strings that are refused, by their number and group: whole left-out codes, their beginnings, and what is near them. */
struct strings { uint32_t number, group; const char *bytes; };
static const struct strings all_strings[] = {
    /* MOV.B and MOV.W by d:24 */
    {15, 3, "78 7800 7870 78006A 78706B 78006A20 78706A2F 78006AA0 78706AAF 78006B20 78706BAF 78006A2000 78006BA000 78006A2000FF"},
    {15, 3, "78106B20007FFFFF 78106BA000FFFFFF 78006A2000123456 78006AA00012345678 78706B2F00000000FFFFFFFF"},
    {3, 0, "7801 7808 780F 7880 78F0 78FF 787F 780068 780069 78006C 78006D 78006E 78006F 780078 7800006A"},
    {3, 0, "78006A00 78006A10 78006A30 78006A40 78006A80 78006A90 78006AB0 78006AC0 78006B0F 78006B8F 78806A20 78F06BA0"},
    {3, 0, "78006A2001 78006AA080 78006B20FF 78006BA001 78006A2001123456 78706BAF80123456"},
    /* MOV.L by d:24: the store alone has the top bit of its fourth byte set */
    {15, 3, "010078 01007800 01007870 01007880 010078F0 010078006B 010078806B 010078006B20 010078706B27 010078806BA0 010078F06BA7"},
    {15, 3, "010078006B2000 010078F06BA700 010078006B200000 010078706B2700FFFFFF 010078806BA000123456 010078F06BA700000000FFFF"},
    {3, 0, "01007801 0100780F 01007881 010078FF 010078006A 010078006C 010078806A 010078006A20 010078806AA0"},
    {3, 0, "010078006BA0 010078706BA7 010078806B20 010078F06B27 010078006BA000123456 010078806B2000123456"},
    {3, 0, "010078006B28 010078006B2F 010078806BA8 010078806BAF 010078006B00 010078006B30 010078806B80 010078806BB0"},
    {3, 0, "010078006B2001 010078806BA0FF 010078006B2080123456 010078806BA001123456"},
    /* LDC and STC with memory */
    {15, 4, "0140 014069 01406D 01406F 01406B 014078 01406900 01406970 01406980 014069F0 01406D00 01406D70 01406D80 01406DF0"},
    {15, 4, "01406F00 01406F70 01406F80 01406FF0 01406F0012 01406FF0FFFF 01406B00 01406B80 01406B00FF 01406B00FFFF 01406B801234"},
    {15, 4, "01406B20 01406BA0 01406B2000 01406BA000 01406B2000FF 01406BA000123456 01406B2000FFFFFFFFFF 014069705470 01406DF05470"},
    {15, 4, "01407800 01407870 014078006B 014078706B20 014078706BA0 014078006B2000 014078006BA000FF 014078706B2000123456"},
    {15, 4, "014078006BA000FFFFFF 014078706BA000123456789A"},
    {3, 0, "014000 014068 01406A 01406C 01406E 014079 0140FF 01406901 0140690F 01406988 014069FF 01406D01 01406D8F 01406F08 01406FF1"},
    {3, 0, "01406B01 01406B0F 01406B10 01406B30 01406B40 01406B60 01406B81 01406BC0 01406B21 01406B2F 01406BA1 01406BB0 01406BE0"},
    {3, 0, "01406B2001 01406BA0FF 01406B2001123456 01406BA080123456 01407801 0140780F 01407880 014078F0 014078FF"},
    {3, 0, "014078006A 014078006A20 014078006C 014078006B00 014078006B21 014078006B27 014078006B30 014078006BA1 014078006B80"},
    {3, 0, "014078006B2001 014078706BA080 014078806BA000 014078006B20FF123456"},
    /* EEPMOV */
    {15, 5, "7B 7B5C 7BD4 7B5C59 7BD459 7B5C598F 7BD4598F 7B5C598F5470"},
    {3, 0, "7B00 7B54 7BDC 7B5D 7B5B 7BD5 7BFF 7B5C58 7B5C5B 7BD45A 7BD400 7B5C598E 7B5C590F 7BD4598D 7BD459FF 7BD4008F"},
    /* TRAPA, RTE, SLEEP */
    {15, 6, "56 57 5670 5700 5710 5720 5730 0180 018000 01805470 5670FFFF 57305470"},
    {3, 0, "5600 5671 5678 567F 5660 5674 56F0 56FF 5701 5708 570F 5731 573F 5740 5770 5780 57B0 57F0 57FF 0181 0188 018F"},
    /* MOVFPE and MOVTPE */
    {15, 7, "6A40 6A4F 6AC0 6ACF 6A4000 6ACFFF 6A401234 6ACFFFFF 6A40FFFF5470"},
    {3, 0, "6A10 6A18 6A30 6A38 6A50 6A5F 6A60 6A70 6A90 6AB0 6AD0 6ADF 6AE0 6AF0 6AFF 6B40 6B4F 6BC0 6BCF 6A2001 6AA0FF"},
    /* the set comes first: a beginning of one of its codes is cut short, whatever is left out */
    {4, 0, "01 6A 0100 010069 01006B 01F0 01C0 01D0 6A00 6A20 6A2F00 6A80 6AA0 6AA000 6B 6B20 79 7A 7C 7C70 7D00 7E40 7F80"},
    {4, 0, "50 51 52 53 54 55 58 5A 5C 5E 60 63 67 70 73 77 5800 5A00 5C00 5E00 01C050 01D053 7C7073 7F8067 00 FF"},
    /* neither: groups 1 and 2 are of the set, and codes that the H8S alone has are no codes */
    {3, 0, "5208 5309 01C051 01C053 01D050 01D052 01C0FF 7080 7380 7C80 7D01 7C1070 7D1073 7C107001 01F063 01F067 01F06488"},
    {3, 0, "0101 0102 0110 0120 0130 0141 01416900 0142 0148 014F 0150 0160 0170 0190 01A0 01B0 01E0 01FF 5471 1122 1A10"},
};

/* The end of an answer, and of a table, that is not named: it stays. */
enum { MORE = 2, AT = 2, RAM_N = 8, MARK = 0xEE };
static const uint64_t marked = 0xEEEEEEEEEEEEEEEE;

struct trial {
    const uint8_t *bytes;
    size_t n;
    uint32_t number, group;
    uint8_t *rom, *ram;                     /* rom: NOP, and the bytes behind it */
    uint32_t *regs, before[10];
};

static void wrong(const struct trial *t, const char *what, ull number, ull place, ull group)
{
    char text[2 * 16 + 1] = "";
    for (size_t i = 0; i < t->n && i < 16; i++) {
        text[2 * i] = "0123456789ABCDEF"[t->bytes[i] >> 4];
        text[2 * i + 1] = "0123456789ABCDEF"[t->bytes[i] & 15];
    }
    fail("%s of %s answers %llu at %llX, group %llu, or changes something; wanted %u, group %u", what, text, number, place, group, t->number,
         t->group);
}

static void decode_alone(const struct trial *t)
{
    uint8_t *bytes = lend(&rom_lender, t->n);
    uint32_t *fields = lend(&regs_lender, 4 * H8_FIELDS), *answer = lend(&answer_lender, 4 * (3 + MORE));
    memcpy(bytes, t->bytes, t->n);
    memset(fields, MARK, 4 * H8_FIELDS);
    memset(answer, MARK, 4 * (3 + MORE));
    uint32_t got = h8_decode(bytes, t->n, fields, H8_FIELDS, answer, 3 + MORE);
    int right = got == t->number && answer[0] == t->number && answer[1] == 0 && answer[2] == t->group && answer[3] == (uint32_t)marked;
    for (int i = 0; i < H8_FIELDS; i++)
        right &= fields[i] == (uint32_t)marked;
    if (!right || memcmp(bytes, t->bytes, t->n))
        wrong(t, "decode", answer[0], answer[1], answer[2]);
    count(1);
}

static void lay_out(struct trial *t, uint32_t pc)
{
    t->rom = lend(&rom_lender, AT + t->n);
    t->ram = lend(&ram_lender, RAM_N);
    t->regs = lend(&regs_lender, 40);
    memset(t->rom, 0, AT);
    memcpy(t->rom + AT, t->bytes, t->n);
    memset(t->ram, MARK, RAM_N);
    for (uint32_t i = 0; i < 8; i++)
        t->regs[i] = 0x1000 + 0x01010101 * i;
    t->regs[H8_PC] = pc;
    t->regs[H8_CONDITION] = 0xA5;
    memcpy(t->before, t->regs, 40);
}

/* Nothing has changed but PC, if that. */
static int kept(const struct trial *t, uint32_t pc)
{
    uint32_t regs[10];
    memcpy(regs, t->before, 40);
    regs[H8_PC] = pc;
    for (size_t i = 0; i < RAM_N; i++)
        if (t->ram[i] != MARK)
            return 0;
    return !memcmp(t->regs, regs, 40) && !memcmp(t->rom + AT, t->bytes, t->n) && guards_stand(&rom_lender) && guards_stand(&ram_lender)
        && guards_stand(&regs_lender) && guards_stand(&answer_lender);
}

static void step_there(struct trial *t)
{
    uint32_t *answer = lend(&answer_lender, 4 * (H8_STEP_ANSWER + MORE));
    memset(answer, MARK, 4 * (H8_STEP_ANSWER + MORE));
    lay_out(t, AT);
    uint32_t got = h8_step(plain_board(0x1000), H8_BOARD, t->rom, AT + t->n, t->ram, RAM_N, t->regs, 10, answer, H8_STEP_ANSWER + MORE);
    if (got != t->number || answer[0] != t->number || answer[1] != AT || answer[2] != t->group || answer[3] || !untouched(answer)
        || answer[H8_STEP_ANSWER] != (uint32_t)marked || answer[H8_STEP_ANSWER + 1] != (uint32_t)marked || !kept(t, AT))
        wrong(t, "step", answer[0], answer[1], answer[2]);
    count(1);
}

static void run_there(struct trial *t)
{
    uint64_t *answer = lend(&answer_lender, 8 * (6 + MORE));
    memset(answer, MARK, 8 * (6 + MORE));
    lay_out(t, 0);
    uint32_t got = h8_run(plain_board(0x1000), H8_BOARD, t->rom, AT + t->n, t->ram, RAM_N, t->regs, 10, 0xFFFFFFFF, 1000, answer, 6 + MORE);
    if (got != t->number || answer[0] != t->number || answer[1] != AT || answer[2] != t->group || answer[3] != 1 || answer[4] != 2
        || answer[5] != H8_REFUSED || answer[6] != marked || answer[7] != marked || !kept(t, AT))
        wrong(t, "run", answer[0], answer[1], answer[2]);
    count(1);
}

/* From the NOP and from the place itself: refused there, the table filled, and no more of it; and so answers the way by that table. */
static void figure_there(struct trial *t, uint32_t entry)
{
    size_t n = AT + t->n;
    uint64_t *answer = lend(&answer_lender, 8 * (4 + MORE)), *table = lend(&out_lender, 8 * (n + MORE)), kept_table[64];
    memset(answer, MARK, 8 * (4 + MORE));
    memset(table, MARK, 8 * (n + MORE));
    lay_out(t, 0);
    uint32_t got = h8_figure(NO_PORTS, t->rom, n, entry, table, n + MORE, answer, 4 + MORE);
    int right = got == t->number && answer[0] == t->number && answer[1] == AT && answer[2] == t->group && answer[3] == 0
        && answer[4] == marked && answer[5] == marked && table[n] == marked && table[n + 1] == marked;
    right &= table[0] == 0 && table[1] == AT && table[AT] == 0 && table[AT + 1] == AT;
    for (size_t i = 0; i < n; i++)
        right &= table[i] != marked;
    if (!right || !kept(t, 0) || !guards_stand(&out_lender))
        wrong(t, "figure", answer[0], answer[1], answer[2]);
    memcpy(kept_table, table, 8 * (n + MORE));
    memset(answer, MARK, 8 * (4 + MORE));
    got = h8_way(NO_PORTS, t->rom, n, table, n + MORE, entry, answer, 4 + MORE);
    if (got != t->number || answer[0] != t->number || answer[1] != AT || answer[2] != t->group || answer[3] || answer[4] != marked
        || answer[5] != marked || memcmp(table, kept_table, 8 * (n + MORE)) || !kept(t, 0))
        wrong(t, "way", answer[0], answer[1], answer[2]);
    count(2);
}

/* The bytes in decode, and if they are words, as the last of read-only memory. */
static void everywhere(const uint8_t *bytes, size_t n, uint32_t number, uint32_t group)
{
    struct trial t = {.bytes = bytes, .n = n, .number = number, .group = group};
    decode_alone(&t);
    if (n % 2 || n == 0)
        return;
    step_there(&t);
    run_there(&t);
    figure_there(&t, 0);
    figure_there(&t, AT);
}

/* Each string of a list, and that the patterns say the same. */
static void each_of(const struct strings *s)
{
    for (const char *p = s->bytes; *p && !failing();) {
        char digits[33] = "";
        uint8_t bytes[16];
        struct decoded d;
        size_t length = strcspn(p, " ");
        memcpy(digits, p, length);
        uint32_t n = from_hex(digits, bytes);
        everywhere(bytes, n, s->number, s->group);
        if ((uint32_t)decode(bytes, n, &d) != s->number || (uint32_t)d.group != s->group)
            fail("%s: the patterns say %d, group %d; wanted %u, group %u", digits, decode(bytes, n, &d), d.group, s->number, s->group);
        p += length + (p[length] == ' ');
    }
}

/* Each left-out code, with operands at their ends and any, whole and cut at each byte. 01, 6A and 0100 begin codes of the set. */
static void each_code(int code)
{
    for (int k = 0; k < 12 && !failing(); k++) {
        uint8_t bytes[LEFT_OUT_LENGTH];
        build_left_out(code, k == 0 ? 0 : k == 1 ? ~(uint64_t)0 : any(), bytes);
        for (size_t n = 1; n <= (size_t)left_out_length(code); n++) {
            int held = n == 1 ? bytes[0] == 0x01 || bytes[0] == 0x6A : n == 2 && bytes[0] == 0x01 && bytes[1] == 0x00;
            everywhere(bytes, n, held ? 4 : 15, held ? 0 : (uint32_t)left_outs[code].group);
        }
    }
}

/* FROM CALL TO CALL. A listing with a place of each kind, and what is answered there. */
static const char listing[] = "000054707B5C598F56716A4012347900";
struct place { uint32_t at, number, group, states, figure, next; };
static const struct place places[] = {
    {0, 0, 0, 2, 12, 2}, {4, 15, 5, 0, 0, 0}, {8, 3, 0, 0, 0, 0}, {10, 15, 7, 0, 0, 0}, {14, 4, 0, 0, 0, 0},
};
enum { PLACES = sizeof places / sizeof *places, LISTING = (sizeof listing - 1) / 2 };

struct turn {
    uint8_t rom[LISTING], ram[2];
    uint32_t narrow[4], step[H8_STEP_ANSWER];              /* answers that are lent to every call and never cleared */
    uint64_t run[6], figure[4], way[4], table[LISTING];
};

/* What all the functions answer there, the answers still holding what the call before wrote. */
static int answered(struct turn *u, const struct place *p)
{
    uint32_t fields[H8_FIELDS], regs[10] = {[H8_PC] = p->at}, again[10] = {[H8_PC] = p->at}, place = p->number ? p->at : 0;
    h8_decode(u->rom + p->at, LISTING - p->at, fields, H8_FIELDS, u->narrow, 3);
    h8_step(plain_board(0x100), H8_BOARD, u->rom, LISTING, u->ram, 2, regs, 10, u->step, H8_STEP_ANSWER);
    h8_run(plain_board(0x100), H8_BOARD, u->rom, LISTING, u->ram, 2, again, 10, 0xFFFFFFFF, 1, u->run, 6);
    h8_figure(NO_PORTS, u->rom, LISTING, p->at, u->table, LISTING, u->figure, 4);
    h8_way(NO_PORTS, u->rom, LISTING, u->table, LISTING, p->at, u->way, 4);
    const uint32_t step[H8_STEP_ANSWER] = {p->number, place, p->group, p->states}, narrow[3] = {p->number, 0, p->group};
    const uint64_t run[6] = {p->number, place, p->group, p->number ? 0 : 1, p->states, p->number ? H8_REFUSED : H8_SPENT};
    const uint64_t figure[4] = {p->number, place, p->group, p->figure}, way[4] = {p->number, place, p->group, p->next};
    return !memcmp(u->narrow, narrow, sizeof narrow) && !memcmp(u->step, step, sizeof step) && !memcmp(u->run, run, sizeof run)
        && !memcmp(u->figure, figure, sizeof figure) && !memcmp(u->way, way, sizeof way);
}

/* Every place behind every other; and an instruction encoded into the answer that a refusal by 15 was written to. */
static void in_turn(void)
{
    static const uint32_t nop[H8_FIELDS] = {H8_NOP, 0, 0, 0, 0, 0, 0, 2, 2};
    struct turn u;
    uint8_t out[8];
    memset(&u, MARK, sizeof u);
    from_hex(listing, u.rom);
    for (int i = 0; i < PLACES * PLACES; i++) {
        const struct place *first = &places[i / PLACES], *then = &places[i % PLACES];
        if (!answered(&u, first) || !answered(&u, then))
            fail("place %X after place %X: an answer holds another number than it should", then->at, first->at);
        h8_encode(nop, H8_FIELDS, out, sizeof out, u.narrow, 4);
        if (u.narrow[0] || u.narrow[1] || u.narrow[2] || u.narrow[3] != 2)
            fail("encode after place %X answers %u %u %u %u", then->at, u.narrow[0], u.narrow[1], u.narrow[2], u.narrow[3]);
        count(11);
    }
}

void test_left_out(void)
{
    begin("left-out codes by hand: whole, cut and near misses, in decode, step, run, figure and way");
    for (size_t i = 0; i < sizeof all_strings / sizeof *all_strings; i++)
        each_of(&all_strings[i]);
    end("calls");
    begin("left-out codes with any operands, whole and at each cut, in decode, step, run, figure and way");
    for (int code = 0; code < LEFT_OUT; code++)
        each_code(code);
    end("calls");
    begin("left-out codes: the group from call to call, in answers that are used again");
    in_turn();
    end("calls");
}
