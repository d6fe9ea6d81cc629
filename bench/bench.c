/* The host's test bench: the library behind host/h8.h against an independent decoder, model and path enumeration.
   bench SAMPLES [PART...]   SAMPLES is the folder with the sample ROMs; with no PART all are run. */
#include "bench.h"
#include <signal.h>
#include <stdarg.h>
#include <stdio.h>
#include <stdlib.h>
#include <string.h>
#include <sys/mman.h>
#include <unistd.h>

static char test_name[200];
static uint64_t test_cases;
static int test_failed, passed, failed;

/* Random numbers: splitmix64. Each test has its own, by its name, whatever ran before it. */
static uint64_t seed;
static void reseed(const char *name)
{
    seed = 0x4838333030480001;
    while (*name)
        seed = (seed ^ (uint8_t)*name++) * 0x100000001B3;
}
uint64_t any(void)
{
    uint64_t z = seed += 0x9E3779B97F4A7C15;
    z = (z ^ z >> 30) * 0xBF58476D1CE4E5B9;
    z = (z ^ z >> 27) * 0x94D049BB133111EB;
    return z ^ z >> 31;
}
uint32_t below(uint32_t n) { return (uint32_t)((any() >> 32) * n >> 32); }

void begin(const char *name, ...)
{
    va_list args;
    va_start(args, name);
    vsnprintf(test_name, sizeof test_name, name, args);
    va_end(args);
    test_cases = 0;
    test_failed = 0;
    reseed(test_name);
}

void fail(const char *format, ...)
{
    va_list args;
    if (test_failed++)
        return;
    printf("FAILED %s, case %llu\n  ", test_name, (unsigned long long)test_cases + 1);
    va_start(args, format);
    vprintf(format, args);
    va_end(args);
    printf("\n");
    fflush(stdout);
}

void say(const char *format, ...)
{
    va_list args;
    if (test_failed != 1)
        return;
    printf("  ");
    va_start(args, format);
    vprintf(format, args);
    va_end(args);
    printf("\n");
    fflush(stdout);
}

void note(const char *format, ...)
{
    va_list args;
    printf("       ");
    va_start(args, format);
    vprintf(format, args);
    va_end(args);
    printf("\n");
}

int failing(void) { return test_failed != 0; }
void count(uint64_t cases) { test_cases += cases; }

void end_quietly(void)
{
    if (test_failed)
        failed++;
    else
        passed++;
}

static const char *grouped(uint64_t n)
{
    static char text[32];
    char digits[24];
    int d = snprintf(digits, sizeof digits, "%llu", (unsigned long long)n), k = 0;
    for (int i = 0; i < d; i++) {
        text[k++] = digits[i];
        if ((d - 1 - i) % 3 == 0 && i != d - 1)
            text[k++] = ',';
    }
    text[k] = 0;
    return text;
}

void end(const char *unit)
{
    end_quietly();
    printf("%s %s: %s %s\n", test_failed ? "FAILED" : "ok    ", test_name, grouped(test_cases), unit);
    fflush(stdout);
}

/* Lent memory. */
struct lender rom_lender, ram_lender, regs_lender, answer_lender, out_lender, board_lender;
enum { GUARD = 64, GUARD_BYTE = 0xA5 };

void lender_make(struct lender *l, size_t room)
{
    size_t page = (size_t)sysconf(_SC_PAGESIZE), size = (room + GUARD + page - 1) / page * page;
    uint8_t *p = mmap(NULL, size + page, PROT_READ | PROT_WRITE, MAP_PRIVATE | MAP_ANONYMOUS, -1, 0);
    if (p == MAP_FAILED || mprotect(p + size, page, PROT_NONE)) {
        perror("bench: memory");
        exit(2);
    }
    l->end = p + size;
    l->now = l->end;
    l->room = room;
}

void *lend(struct lender *l, size_t bytes)
{
    if (bytes > l->room) {
        fprintf(stderr, "bench: asked to lend too much\n");
        exit(2);
    }
    l->now = l->end - bytes;
    memset(l->now - GUARD, GUARD_BYTE, GUARD);
    return l->now;
}

int guards_stand(const struct lender *l)
{
    for (const uint8_t *p = l->now - GUARD; p < l->now; p++)
        if (*p != GUARD_BYTE)
            return 0;
    return 1;
}

const uint32_t *lend_board(uint32_t base, struct area a)
{
    uint32_t *board = lend(&board_lender, 4 * H8_BOARD);
    board[H8_BASE] = base;
    board[H8_AREA_BASE] = a.base;
    board[H8_AREA_END] = a.end;
    board[H8_BUS] = a.bus;
    return board;
}

const uint32_t *plain_board(uint32_t base) { return lend_board(base, no_ports(base)); }
const uint32_t *far_board(uint32_t base, size_t ram_n) { return lend_board(base, no_ports((base + (uint32_t)ram_n) & ~1u)); }

/* The library touched memory that was not lent. */
static void touched(int signal_number)
{
    char text[300];
    int n = snprintf(text, sizeof text, "FAILED %s: signal %d: memory past a lent array was touched\nbench: %d passed, %d failed\n",
                     test_name, signal_number, passed, failed + 1);
    ssize_t done = write(1, text, (size_t)n);
    _exit(done < 0 ? 2 : 1);
}

uint32_t edge32(void)
{
    static const uint32_t edges[] = {
        0, 1, 2, 3, 4, 7, 8, 9, 0xF, 0x10, 0x3F, 0x40, 0x7E, 0x7F, 0x80, 0x81, 0x99, 0x9A, 0xFE, 0xFF, 0x100, 0x0FFF, 0x1000,
        0x3FFF, 0x4000, 0x7FFE, 0x7FFF, 0x8000, 0x8001, 0xFFFE, 0xFFFF, 0x10000, 0x7FFFFF, 0x800000, 0xFFFFFE, 0xFFFFFF,
        0x1000000, 0x0FFFFFFF, 0x10000000, 0x3FFFFFFF, 0x40000000, 0x7FFFFFFE, 0x7FFFFFFF, 0x80000000, 0x80000001,
        0xFFFFFFFE, 0xFFFFFFFF, 0x7F7F7F7F, 0x80808080, 0x7FFF7FFF, 0x80008000, 0x0F0F0F0F,
    };
    uint32_t k = below(8), n = sizeof edges / sizeof *edges;
    if (k < 3)
        return (uint32_t)any();
    if (k < 6)
        return edges[below(n)];
    return edges[below(n)] << 16 | (edges[below(n)] & 0xFFFF);
}

struct area some_area(uint32_t base, uint32_t ram_n)
{
    uint32_t from = 2 * below(ram_n / 2 + 1), to = from + 2 * below((ram_n - from) / 2 + 1);
    switch (below(4)) {
    case 0: to = from; break;
    case 1: from = 0, to = ram_n; break;
    }
    return (struct area){base + from, base + to, below(2) ? 8 : 16};
}

uint32_t from_hex(const char *digits, uint8_t *into)
{
    static const char hex[] = "0123456789ABCDEF";
    uint32_t n = 0;
    for (; digits[2 * n]; n++)
        into[n] = (uint8_t)((strchr(hex, digits[2 * n]) - hex) << 4 | (strchr(hex, digits[2 * n + 1]) - hex));
    return n;
}

/* Showing. */
const char *refused_code(int answer) { return answer == 4 ? "cut short" : answer == 15 ? "left-out code" : "unknown code"; }

void show_code(const uint8_t *rom, size_t rom_n, uint32_t pc)
{
    struct decoded d;
    char text[40] = "";
    size_t left = pc < rom_n ? rom_n - pc : 0;
    int answer = decode(rom + (pc < rom_n ? pc : 0), left, &d);
    for (size_t i = 0; i < left && i < LEFT_OUT_LENGTH; i++)
        snprintf(text + strlen(text), sizeof text - strlen(text), "%02X ", rom[pc + i]);
    say("at %06X: %s form: %s", pc, text, left == 0 ? "none, outside" : answer == 0 ? forms[d.form].name : refused_code(answer));
}

void show_registers(const char *title, const uint32_t r[10])
{
    static const char names[] = "CVZNUHuI";
    char flags[9] = "";
    for (int i = 7; i >= 0; i--)
        flags[7 - i] = r[9] >> i & 1 ? names[i] : '-';
    say("%-18s ER0-7 %08X %08X %08X %08X %08X %08X %08X %08X PC %06X CCR %02X %s", title,
        r[0], r[1], r[2], r[3], r[4], r[5], r[6], r[7], r[8], r[9], flags);
}

static void show_memory(const char *title, uint32_t base, const uint8_t *was, const uint8_t *is, size_t n)
{
    for (size_t i = 0; i < n; i++)
        if (was[i] != is[i])
            say("%-18s %06X: %02X -> %02X", title, base + (uint32_t)i, was[i], is[i]);
}

uint32_t *lend_step_answer(void)
{
    uint32_t *answer = lend(&answer_lender, 4 * H8_STEP_ANSWER);
    memset(answer, 0xEE, 4 * H8_STEP_ANSWER);
    return answer;
}

int untouched(const uint32_t *answer)
{
    for (int i = H8_COUNT; i < H8_STEP_ANSWER; i++)
        if (answer[i])
            return 0;
    return 1;
}

const char *list_text(const uint32_t *answer)
{
    static char texts[2][120];
    static int which;
    char *text = texts[which ^= 1];
    const uint32_t *a = answer + H8_ACCESSES;
    *text = 0;
    for (uint32_t i = 0; i < answer[H8_COUNT] && i < TOUCHES; i++, a += H8_ACCESS)
        snprintf(text + strlen(text), sizeof texts[0] - strlen(text), "%s%s%u %06X", i ? " " : "", a[H8_WRITE] ? "W" : "R", a[H8_BYTES],
                 a[H8_ADDRESS]);
    return text;
}

uint32_t states_by_list(int form, struct area area, const uint32_t *answer)
{
    uint32_t states = forms[form].states;
    const uint32_t *a = answer + H8_ACCESSES;
    for (uint32_t i = 0; i < answer[H8_COUNT] && i < TOUCHES; i++, a += H8_ACCESS)
        if (a[H8_ADDRESS] >= area.base && a[H8_ADDRESS] < area.end)
            states += a[H8_BYTES] == 2 && area.bus == 8 ? 4 : 1;
    return states;
}

void step_answer(struct outcome o, uint32_t answer[H8_STEP_ANSWER])
{
    const uint32_t first[H8_ACCESSES] = {o.number, o.place, o.group, o.states, o.touches};
    memset(answer, 0, 4 * H8_STEP_ANSWER);
    memcpy(answer, first, sizeof first);
    for (uint32_t i = 0; i < o.touches; i++) {
        uint32_t *a = answer + H8_ACCESSES + H8_ACCESS * i;
        a[H8_ADDRESS] = o.touch[i].address;
        a[H8_BYTES] = o.touch[i].bytes;
        a[H8_WRITE] = o.touch[i].write;
    }
}

struct side { const uint32_t *regs; const uint8_t *ram; const uint32_t *answer; };

static void show_answer(const char *title, const uint32_t *a)
{
    say("%s number %u place %06X group %u states %u; %u accesses: %s", title, a[0], a[1], a[2], a[3], a[H8_COUNT], list_text(a));
    for (uint32_t i = a[H8_COUNT]; i < TOUCHES; i++)
        if (a[H8_ACCESSES + H8_ACCESS * i] | a[H8_ACCESSES + H8_ACCESS * i + 1] | a[H8_ACCESSES + H8_ACCESS * i + 2])
            say("and past them numbers that are not 0");
}

static void show_step(const struct state *s, int form, struct side model, struct side library)
{
    fail("step differs from the model: %s", form >= 0 ? forms[form].name : "no form");
    show_code(s->rom, s->rom_n, s->regs[H8_PC]);
    say("board: read-only %u, working %u at %06X, ports %06X to %06X, bus %u", s->rom_n, s->ram_n, s->base, area_of(s).base,
        area_of(s).end, area_of(s).bus);
    show_registers("before", s->regs);
    show_registers("after, library", library.regs);
    show_registers("after, model", model.regs);
    show_memory("memory, library", s->base, s->ram, library.ram, s->ram_n);
    show_memory("memory, model", s->base, s->ram, model.ram, s->ram_n);
    show_answer("answer, library:", library.answer);
    show_answer("answer, model:  ", model.answer);
}

struct area area_of(const struct state *s) { return s->ports ? s->area : no_ports(s->base); }

struct outcome compare_step(const struct state *s)
{
    uint32_t model_regs[10], model_answer[H8_STEP_ANSWER];
    uint8_t model_ram[SMALL];
    struct board b = {s->base, s->rom, s->rom_n, model_ram, s->ram_n, area_of(s)};
    uint8_t *rom = lend(&rom_lender, s->rom_n), *ram = lend(&ram_lender, s->ram_n);
    uint32_t *regs = lend(&regs_lender, 40), *answer = lend_step_answer(), returned;
    memcpy(rom, s->rom, s->rom_n);
    memcpy(ram, s->ram, s->ram_n);
    memcpy(regs, s->regs, 40);
    memcpy(model_ram, s->ram, s->ram_n);
    memcpy(model_regs, s->regs, 40);
    returned = h8_step(lend_board(s->base, b.area), H8_BOARD, rom, s->rom_n, ram, s->ram_n, regs, 10, answer, H8_STEP_ANSWER);
    struct outcome o = model_step(&b, model_regs);
    step_answer(o, model_answer);
    if (returned != o.number || memcmp(answer, model_answer, sizeof model_answer) || memcmp(regs, model_regs, 40)
        || memcmp(ram, model_ram, s->ram_n))
        show_step(s, o.form, (struct side){model_regs, model_ram, model_answer}, (struct side){regs, ram, answer});
    if (!o.number && answer[3] != states_by_list(o.form, b.area, answer))
        fail("the states of a step are not those of its list: %s", forms[o.form].name);
    if (memcmp(rom, s->rom, s->rom_n) || !guards_stand(&board_lender) || !guards_stand(&rom_lender) || !guards_stand(&ram_lender)
        || !guards_stand(&regs_lender) || !guards_stand(&answer_lender))
        fail("a step wrote outside what it may write: %s", o.form >= 0 ? forms[o.form].name : "no form");
    count(1);
    return o;
}

static const char *samples;
static void runs(void) { test_runs(samples); }

static const struct { const char *part; void (*run)(void); } parts[] = {
    {"reference", test_reference}, {"marked", test_marked}, {"codes", test_codes}, {"encode", test_encode},
    {"steps", test_steps}, {"bytes", test_bytes}, {"bits", test_bits}, {"touches", test_touches},
    {"left", test_left_out}, {"limits", test_limits}, {"runs", runs},
    {"figures", test_figures}, {"calls", test_calls}, {"routine", test_routine}, {"ports", test_ports}, {"replay", test_replay},
    {"cuts", test_cuts}, {"bad", test_bad_input},
};

static int asked_for(const char *part, int argc, char **argv)
{
    for (int i = 2; i < argc; i++)
        if (!strcmp(argv[i], part))
            return 1;
    return argc == 2;
}

int main(int argc, char **argv)
{
    if (argc < 2) {
        fprintf(stderr, "use: bench SAMPLES [PART...]\n");
        return 2;
    }
    samples = argv[1];
    signal(SIGSEGV, touched);
    signal(SIGBUS, touched);
    lender_make(&rom_lender, 1 << 20);
    lender_make(&ram_lender, 1 << 18);
    lender_make(&regs_lender, 4096);
    lender_make(&answer_lender, 4096);
    lender_make(&out_lender, 1 << 23);
    lender_make(&board_lender, 4096);
    decoder_start();
    model_start();
    for (size_t i = 0; i < sizeof parts / sizeof *parts; i++)
        if (asked_for(parts[i].part, argc, argv))
            parts[i].run();
    printf("bench: %d passed, %d failed\n", passed, failed);
    return failed != 0;
}
