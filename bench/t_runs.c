/* Runs of whole programs: the sample ROMs with their known ends, the same cut into pieces, and random programs. */
#include "asm.h"
#include "bench.h"
#include <stdio.h>
#include <string.h>

typedef unsigned long long ull;

static void show_run(const struct board *b, const uint32_t *before, const uint64_t *a, struct ran m, const uint32_t *regs,
                     const uint32_t *model_regs)
{
    fail("run differs from the model's repeated step");
    say("board: read-only %zu, working %zu at %06X, ports %06X to %06X, bus %u", b->rom_n, b->ram_n, b->base, b->area.base, b->area.end,
        b->area.bus);
    show_registers("before", before);
    show_registers("after, library", regs);
    show_registers("after, model", model_regs);
    show_code(b->rom, b->rom_n, model_regs[H8_PC]);
    say("library: number %llu place %llX group %llu steps %llu states %llu ending %llu", (ull)a[0], (ull)a[1], (ull)a[2], (ull)a[3],
        (ull)a[4], (ull)a[5]);
    say("model:   number %u place %X group %u steps %llu states %llu ending %d", m.number, m.place, m.group, (ull)m.steps, (ull)m.states,
        m.ending);
}

/* Both run from the same state; afterwards b->ram and regs are as the run left them. */
static struct ran compare_run(const struct board *b, uint32_t regs[10], uint32_t stop, uint32_t budget)
{
    uint8_t *ram = lend(&ram_lender, b->ram_n);
    uint32_t *lent = lend(&regs_lender, 40), before[10];
    uint64_t *answer = lend(&answer_lender, 48);
    memcpy(ram, b->ram, b->ram_n);
    memcpy(lent, regs, 40);
    memcpy(before, regs, 40);
    memset(answer, 0xEE, 48);
    uint32_t got = h8_run(lend_board(b->base, b->area), H8_BOARD, b->rom, b->rom_n, ram, b->ram_n, lent, 10, stop, budget, answer, 6);
    struct ran m = model_run(b, regs, stop, budget);
    if (got != m.number || answer[0] != m.number || answer[1] != m.place || answer[2] != m.group || answer[3] != m.steps
        || answer[4] != m.states || answer[5] != (uint64_t)m.ending || memcmp(lent, regs, 40) || memcmp(ram, b->ram, b->ram_n)
        || !guards_stand(&ram_lender) || !guards_stand(&regs_lender) || !guards_stand(&answer_lender))
        show_run(b, before, answer, m, lent, regs);
    count(1);
    return m;
}

/* SAMPLES. The bytes in the repository are those of the source. */
static long load_file(const char *folder, const char *name, uint8_t *into, size_t room)
{
    char path[500];
    snprintf(path, sizeof path, "%s/%s", folder, name);
    FILE *f = fopen(path, "rb");
    if (!f) {
        fail("%s can't be read", path);
        return 0;
    }
    long n = (long)fread(into, 1, room, f);
    fclose(f);
    return n;
}

/* Lends the sample as read-only memory. */
static struct board sample(const char *folder, const char *name, uint8_t *ram, size_t ram_n)
{
    static char source[1 << 16];
    static uint8_t bytes[4096], built[4096];
    char file[40], message[200];
    snprintf(file, sizeof file, "%s.s", name);
    source[load_file(folder, file, (uint8_t *)source, sizeof source - 1)] = 0;
    snprintf(file, sizeof file, "%s.bin", name);
    long n = load_file(folder, file, bytes, sizeof bytes), k = assemble(source, built, sizeof built, message, NULL);
    if (n != k || memcmp(bytes, built, (size_t)n))
        fail("%s is not what its source says: %s", file, message);
    uint8_t *rom = lend(&rom_lender, (size_t)n);
    memcpy(rom, bytes, (size_t)n);
    count(1);
    return (struct board){0xFFEF10, rom, (size_t)n, ram, ram_n, no_ports(0xFFEF10)};
}

static void want(const char *what, uint64_t got, uint64_t wanted)
{
    count(1);
    if (got != wanted)
        fail("%s: %llu, wanted %llu", what, (ull)got, (ull)wanted);
}

/* A loop has no figure: the branch back is the lowest forbidden place. */
static void has_loop(const struct board *b, uint64_t place)
{
    static uint64_t table[4096];
    uint64_t answer[4];
    want("figure of a loop", h8_figure(NO_PORTS, b->rom, b->rom_n, 0, table, 4096, answer, 4), 10);
    want("its branch back", answer[1], place);
}

static void decimal_counter(const char *folder)
{
    uint8_t ram[1];
    uint32_t regs[10] = {0xDEADBEEF};
    struct board b = sample(folder, "decimal", ram, 0);
    struct ran r = compare_run(&b, regs, 0x24, 1000000);
    has_loop(&b, 0x12);
    want("decimal: R0", regs[0], 0xDEAD0001);
    want("decimal: PC", regs[H8_PC], 0x24);
    want("decimal: ending", (uint64_t)r.ending, H8_STOPPED);
    want("decimal: steps", r.steps, 3 + 6 * 1000 + 1 + 6 * 999);
    want("decimal: states", r.states, 8 + 14 * 1000 + 4 + 14 * 999);
}

static void copy_loop(const char *folder)
{
    static uint8_t ram[4096];
    uint32_t regs[10] = {0};
    memset(ram, 0x77, sizeof ram);
    struct board b = sample(folder, "copy", ram, sizeof ram);
    struct ran r = compare_run(&b, regs, 0x22, 1000000);
    has_loop(&b, 0x1C);
    want("copy: ending", (uint64_t)r.ending, H8_STOPPED);
    want("copy: steps", r.steps, 2 + 64 * (2 + 32 * 5 + 2));
    want("copy: states", r.states, 10 + 64 * (10 + 32 * 18 + 6));
    for (int i = 0; i < 64; i++)
        want("copy: a block", (uint64_t)memcmp(ram + 64 * i, b.rom + 0x40, 64), 0);
}

static uint32_t word_at(const uint8_t *ram, uint32_t a) { return (uint32_t)(ram[a - 0xFFEF10] << 8 | ram[a - 0xFFEF10 + 1]); }
static void set_word(uint8_t *ram, uint32_t a, uint32_t x)
{
    ram[a - 0xFFEF10] = (uint8_t)(x >> 8);
    ram[a - 0xFFEF10 + 1] = (uint8_t)x;
}

/* One call of the routine, with the stop address pushed as if it had been called from there. */
static struct ran sheet(const struct board *b, uint32_t regs[10])
{
    regs[H8_PC] = 0x100;
    regs[7] = 0x00FFFF0C;
    set_word(b->ram, 0xFFFF0C, 0);
    set_word(b->ram, 0xFFFF0E, 0x0206);
    return compare_run(b, regs, 0x206, 1000);
}

static void follow_sheet(const struct board *b)
{
    static uint64_t table[4096];
    uint64_t answer[4], total = 0, midnight = 0;
    uint32_t fields[H8_FIELDS], told[3];
    want("sheet: figure's answer", h8_figure(NO_PORTS, b->rom, b->rom_n, 0x100, table, 4096, answer, 4), 0);
    want("sheet: figure", answer[3], 194);
    for (uint64_t p = 0x100; p < b->rom_n && !failing(); p = answer[3]) {
        h8_decode(b->rom + p, b->rom_n - p, fields, H8_FIELDS, told, 3);
        total += fields[H8_STATES];
        midnight |= p == 0x118;
        want("sheet: way's answer", h8_way(NO_PORTS, b->rom, b->rom_n, table, b->rom_n, (uint32_t)p, answer, 4), 0);
    }
    want("sheet: the way returns", answer[3], H8_NONE);
    want("sheet: states along the way", total, 194);
    want("sheet: the way goes by midnight", midnight, 1);
}

/* The console's memory a minute before midnight, and after the second sheet, the first of the day. */
static void before_midnight(uint8_t *ram)
{
    set_word(ram, 0xFFEF20, 1439);
    set_word(ram, 0xFFEF22, 1439);
    set_word(ram, 0xFFEF24, 4999);
    set_word(ram, 0xFFEF26, 7);
    set_word(ram, 0xFFEF2C, 0x00FF);
    set_word(ram, 0xFFEF2E, 0xF000);
    ram[0xFFEF30 - 0xFFEF10] = 0x09;
}

static void after_midnight(const uint8_t *ram)
{
    want("sheet: the book's day", word_at(ram, 0xFFF000), 7);
    want("sheet: the book's number", word_at(ram, 0xFFF002), 0x0900);
    want("sheet: the book's sheets", word_at(ram, 0xFFF004), 5000);
    want("sheet: the book's next line", word_at(ram, 0xFFEF2E), 0xF006);
    want("sheet: the new day", word_at(ram, 0xFFEF26), 8);
    want("sheet: the new number", ram[0xFFEF30 - 0xFFEF10], 0x10);
    want("sheet: the second part", word_at(ram, 0xFFEF24), 1);
    want("sheet: the total", word_at(ram, 0xFFEF2A), 2);
}

/* An ordinary sheet fits a gap of 160 states; the first after midnight doesn't, and splits the run in two. */
static void sheet_counter(const char *folder)
{
    static uint8_t ram[4096];
    uint32_t regs[10] = {1, 2};
    memset(ram, 0, sizeof ram);
    struct board b = sample(folder, "sheet", ram, sizeof ram);
    before_midnight(ram);
    struct ran r = sheet(&b, regs);
    want("sheet: an ordinary sheet", r.states, 110);
    want("sheet: it is counted", word_at(ram, 0xFFEF24), 5000);
    set_word(ram, 0xFFEF20, 0);
    r = sheet(&b, regs);
    want("sheet: the first sheet after midnight", r.states, 194);
    want("sheet: it came back", (uint64_t)r.ending, H8_STOPPED);
    want("sheet: ER0 and ER1 are kept", regs[0] == 1 && regs[1] == 2, 1);
    after_midnight(ram);
    follow_sheet(&b);
    regs[H8_PC] = 0x200;
    r = compare_run(&b, regs, 0xFFFFFFFF, 1000000);
    want("sheet: a million steps", r.steps, 1000000);
}

/* One run of the routine that calls others, up to its return. */
static struct routine split_sheet(const struct board *b, uint32_t regs[10])
{
    regs[H8_PC] = 0x100;
    regs[7] = 0x00FFFF0C;
    struct routine r = compare_routine(b, regs, 0xFFFFFFFF, 1000);
    want("split: it returned", (uint64_t)r.ending, H8_RETURNED);
    want("split: ER0 and ER1 are kept", regs[0] == 1 && regs[1] == 2, 1);
    return r;
}

static void split_figures(const struct board *b)
{
    static uint64_t table[4096];
    uint64_t answer[4];
    want("split: figure's answer", h8_figure(NO_PORTS, b->rom, b->rom_n, 0x100, table, 4096, answer, 4), 0);
    want("split: figure", answer[3], 232);
    want("split: figure of SPLIT", table[0x80], 112);
    want("split: figure of NEXT", table[0x40], 26);
    want("split: figure after the call", table[0x11C], 66);
    want("split: the way's answer at the call", h8_way(NO_PORTS, b->rom, b->rom_n, table, b->rom_n, 0x118, answer, 4), 0);
    want("split: it goes on behind the call", answer[3], 0x11C);
    follow(b->rom, (uint32_t)b->rom_n, no_ports(16777216), 0x100, table);
}

/* The same console with calls: an ordinary sheet fits a gap of 160 states, and so would SHEET's own 120 at midnight; with what it calls
   they are 232. */
static void split_console(const char *folder)
{
    static uint8_t ram[4096];
    uint32_t regs[10] = {1, 2};
    memset(ram, 0, sizeof ram);
    struct board b = sample(folder, "split", ram, sizeof ram);
    before_midnight(ram);
    struct routine r = split_sheet(&b, regs);
    want("split: an ordinary sheet", r.states, 110);
    want("split: it calls nothing", r.deepest, 0);
    set_word(ram, 0xFFEF20, 0);
    r = split_sheet(&b, regs);
    want("split: the first sheet after midnight", r.states, 232);
    want("split: it calls two deep", r.deepest, 2);
    after_midnight(ram);
    split_figures(&b);
}

/* One call of the feeder's routine with the order reached and the key held, the stack at `sp`, which holds the stop address 0. */
static struct ran feed(struct board *b, struct area area, uint32_t sp)
{
    uint32_t regs[10] = {[7] = sp, [H8_PC] = 0x10};
    memset(b->ram, 0, b->ram_n);
    set_word(b->ram, 0xFFFF20, 7);
    set_word(b->ram, 0xFFEF22, 93);
    set_word(b->ram, 0xFFEF24, 100);
    set_word(b->ram, 0xFFFF24, 0x0280);
    b->area = area;
    struct ran r = compare_run(b, regs, 0, 1000);
    want("ports: it came back", (uint64_t)r.ending, H8_STOPPED);
    want("ports: steps", r.steps, 17);
    want("ports: the next run", word_at(b->ram, 0xFFEF22), 0);
    want("ports: lamps and keys", word_at(b->ram, 0xFFFF24), 0x0180);
    return r;
}

static uint64_t feed_figure(const struct board *b, struct area area)
{
    static uint64_t table[4096];
    uint64_t answer[4];
    want("ports: figure's answer", h8_figure(lend_board(0, area), H8_BOARD, b->rom, b->rom_n, 0x10, table, 4096, answer, 4), 0);
    return answer[3];
}

/* Fits a gap of 96 states with no ports; with them it doesn't, by the figure and in fact. The figure is reached with the stack there. */
static void feeder(const char *folder)
{
    static uint8_t ram[4336];
    const struct area none = no_ports(0xFFEF10), by_8 = {0xFFFF20, 0xFFFF30, 8}, by_16 = {0xFFFF20, 0xFFFF30, 16};
    struct board b = sample(folder, "ports", ram, sizeof ram);
    want("ports: figure with none", feed_figure(&b, none), 90);
    want("ports: figure, 8 bits", feed_figure(&b, by_8), 107);
    want("ports: figure, 16 bits", feed_figure(&b, by_16), 98);
    want("ports: none", feed(&b, none, 0xFFFF0C).states, 90);
    want("ports: 8 bits", feed(&b, by_8, 0xFFFF0C).states, 99);
    want("ports: 8 bits, the stack over their end", feed(&b, by_8, 0xFFFF2E).states, 103);
    want("ports: 8 bits, the stack in them", feed(&b, by_8, 0xFFFF28).states, 107);
    want("ports: 16 bits", feed(&b, by_16, 0xFFFF0C).states, 96);
    want("ports: 16 bits, the stack in them", feed(&b, by_16, 0xFFFF28).states, 98);
}

/* Every form stands once in forms.bin. */
static void forms_once(const char *folder)
{
    uint8_t ram[1];
    struct board b = sample(folder, "forms", ram, 0);
    uint32_t fields[H8_FIELDS], told[3];
    int seen = 0;
    for (size_t p = 0; p < b.rom_n && !failing(); p += fields[H8_LENGTH], seen++) {
        struct decoded d;
        want("forms: decode", h8_decode(b.rom + p, b.rom_n - p, fields, H8_FIELDS, told, 3), 0);
        decode(b.rom + p, b.rom_n - p, &d);
        want("forms: the form", (uint64_t)d.form, (uint64_t)seen);
        want("forms: its fields", (uint64_t)memcmp(d.fields, fields, sizeof fields), 0);
    }
    want("forms: how many", (uint64_t)seen, FORMS);
}

/* Pieces of a run add up to the run. */
static void in_pieces(const char *folder, const char *name, uint32_t pc)
{
    static uint8_t ram[4096];
    for (int k = 0; k < 6 && !failing(); k++) {
        uint32_t regs[10] = {0}, left = 12000;
        struct board b = sample(folder, name, ram, sizeof ram);
        memset(ram, 0, sizeof ram);
        regs[H8_PC] = pc;
        while (left && !failing()) {
            uint32_t budget = below(4) ? below(300) : 0, stop = below(2) ? 2 * below(0x110) : 0xFFFFFFFF;
            struct ran r = compare_run(&b, regs, stop, budget < left ? budget : left);
            left -= (uint32_t)r.steps;
            if (r.ending == H8_STOPPED)
                left -= (uint32_t)compare_run(&b, regs, 0xFFFFFFFF, 1).steps;
        }
    }
}

/* RANDOM PROGRAMS: instructions one behind the other, jumps mostly short; here and there the beginning of a left-out code. */
static uint32_t program_value(const struct board *b, int form)
{
    const struct form *f = &forms[form];
    if (f->kind == H8_BCC || f->kind == H8_BSR)
        return below(10) ? below(24) - 8 : (uint32_t)any();
    if (f->kind == H8_JMP || f->kind == H8_JSR || f->form == H8_ABS24)
        return below(8) ? below(2) ? 2 * below((uint32_t)b->rom_n / 2 + 1) : b->base + below((uint32_t)b->ram_n + 2) : (uint32_t)any();
    if (f->kind == H8_MOVE && f->form == H8_DISP)
        return below(16) - 8;
    if (f->kind == H8_TAKE || f->kind == H8_GIVE)
        return b->base + below((uint32_t)b->ram_n);
    return below(4) ? edge32() : b->base + below(64);
}

/* Jumps end a program soon, and so do bits in memory, by any register or at FFFFaa. */
static int ends_soon(int form)
{
    return form >= ONWARD || ((forms[form].kind == H8_TAKE || forms[form].kind == H8_GIVE) && forms[form].form != H8_SPOT_REG);
}

static int some_form(void)
{
    int form = (int)below(FORMS);
    while (ends_soon(form) && below(3))
        form = (int)below(ONWARD);
    return form;
}

static size_t make_program(uint8_t *rom, const struct board *b)
{
    size_t at = 0;
    while (at + 8 <= b->rom_n) {
        uint8_t code[LEFT_OUT_LENGTH];
        int form = some_form(), n = 2 * (1 + (int)below(4));
        if (below(80) == 0)
            build_left_out((int)below(LEFT_OUT), any(), code);
        else
            n = build(form, below(2) ? below(4) : (uint32_t)any(), program_value(b, form), (uint32_t)any(), code);
        memcpy(rom + at, code, (size_t)n);
        at += (size_t)n;
    }
    return at;
}

static void random_program(uint64_t endings[3], uint64_t *steps, uint64_t *left_out)
{
    static uint8_t ram[256];
    uint32_t regs[10], rom_n = 16 + 2 * below(120), ram_n = 2 * (16 + below(112));
    uint8_t *rom = lend(&rom_lender, rom_n);
    struct board b = {below(2) ? rom_n : 0xFFFF00 - 2 * below(64), rom, rom_n, ram, ram_n, {0}};
    b.area = some_area(b.base, ram_n);
    memset(rom, 0, rom_n);
    make_program(rom, &b);
    for (uint32_t i = 0; i < ram_n; i++)
        ram[i] = (uint8_t)any();
    for (int i = 0; i < 8; i++)
        regs[i] = below(3) ? b.base + below(ram_n) : below(2) ? edge32() : below(rom_n);
    regs[7] = b.base + ram_n / 2;
    regs[H8_PC] = 2 * below(rom_n / 4);
    regs[H8_CONDITION] = below(256);
    struct ran r = compare_run(&b, regs, below(2) ? 2 * below(rom_n / 2) : 0xFFFFFF, below(400));
    endings[r.ending]++;
    *left_out += r.number == 15;
    *steps += r.steps;
}

void test_runs(const char *samples)
{
    uint64_t endings[3] = {0}, steps = 0, left_out = 0;
    begin("samples: sheet counter, the same with calls, decimal counter, copy loop, feeder with ports, every form once");
    sheet_counter(samples);
    split_console(samples);
    decimal_counter(samples);
    copy_loop(samples);
    feeder(samples);
    forms_once(samples);
    end("checks");
    begin("runs of the samples cut into pieces");
    in_pieces(samples, "decimal", 0);
    in_pieces(samples, "copy", 0);
    in_pieces(samples, "sheet", 0x200);
    end("runs");
    begin("runs of random programs against the model's repeated step");
    for (int k = 0; k < 48000 && !failing(); k++)
        random_program(endings, &steps, &left_out);
    for (int i = 0; i < 3; i++)
        if (endings[i] < 1000 && !failing())
            fail("only %llu runs had ending %d", (ull)endings[i], i);
    if ((steps < 400000 || left_out < 1000) && !failing())
        fail("only %llu steps, and %llu runs refused by 15", (ull)steps, (ull)left_out);
    end("runs");
}
