/* The library's speed against plain C that holds the same set and makes the same checks (plain.c), in one run: each pair of
   measurements is taken one right behind the other, and the ratio is the median of the pairs'. Time is the process's own.
   speed SAMPLES                       all, as a table
   speed SAMPLES WORK WHICH TIMES      so many times a small piece of one work by one side, to count its instructions */
#include "file.h"
#include "plain.h"
#include <stdio.h>
#include <stdlib.h>
#include <string.h>
#include <time.h>

enum { PAIRS = 15, ROM_MAX = 524288, RAM_N = 4096 };

typedef uint32_t run_function(const uint32_t *, size_t, const uint8_t *, size_t, uint8_t *, size_t, uint32_t *, size_t, uint32_t, uint32_t,
                              uint64_t *, size_t);
typedef uint32_t step_function(const uint32_t *, size_t, const uint8_t *, size_t, uint8_t *, size_t, uint32_t *, size_t, uint32_t *, size_t);
typedef uint32_t figure_function(const uint32_t *, size_t, const uint8_t *, size_t, uint32_t, uint64_t *, size_t, uint64_t *, size_t);

/* Working memory with ports at its end: the copy's last words and the sheet counter's stack lie in them. */
static const uint32_t board[H8_BOARD] = {0xFFEF10, 0xFFFF00, 0xFFFF10, 8};

static uint8_t rom[ROM_MAX], ram[RAM_N];
static size_t rom_n;
static uint64_t table[ROM_MAX], sum;        /* sum of what was answered, so that both are seen to do the same */

static double now(void)
{
    struct timespec t;
    clock_gettime(CLOCK_PROCESS_CPUTIME_ID, &t);
    return (double)t.tv_sec + 1e-9 * (double)t.tv_nsec;
}

static void load(const char *folder, const char *name)
{
    char path[500];
    snprintf(path, sizeof path, "%s/%s.bin", folder, name);
    rom_n = read_file(path, rom, sizeof rom);
}

static uint64_t piece = 1;                  /* of the units of a work this part is done */

/* Runs again and again from `pc` until so many steps are done. Answers the steps. */
static uint64_t runs(run_function *f, uint32_t pc, uint32_t stop, uint64_t steps)
{
    uint64_t done = 0, answer[6];
    sum = 0;
    while (done < steps) {
        uint32_t regs[10] = {0};
        memset(ram, 0, sizeof ram);
        regs[H8_PC] = pc;
        f(board, H8_BOARD, rom, rom_n, ram, RAM_N, regs, 10, stop, H8_BUDGET_MAX, answer, 6);
        done += answer[3];
        sum = sum * 31 + answer[4] + regs[0] + regs[9] + ram[100] + answer[5];
    }
    return done;
}

static uint64_t steps_alone(step_function *f, uint32_t pc, uint64_t steps)
{
    uint32_t regs[10] = {0}, answer[H8_STEP_ANSWER];
    sum = 0;
    memset(ram, 0, sizeof ram);
    regs[H8_PC] = pc;
    for (uint64_t i = 0; i < steps; i++) {
        f(board, H8_BOARD, rom, rom_n, ram, RAM_N, regs, 10, answer, H8_STEP_ANSWER);
        sum = sum * 31 + answer[3] + answer[H8_COUNT] + regs[8];
    }
    return steps;
}

static uint64_t figures(figure_function *f, int times)
{
    uint64_t answer[4];
    sum = 0;
    for (int i = 0; i < times; i++) {
        f(board, H8_BOARD, rom, rom_n, 0, table, ROM_MAX, answer, 4);
        sum = sum * 31 + answer[3] + table[1000];
    }
    return (uint64_t)times * rom_n / 2;
}

/* A recording of the sheet counter in a loop, as a probe would write it, and the file that holds it. */
static uint8_t recording[1 + H8_RECORD * H8_BUDGET_MAX];
static FILE *recorded;

static void put(uint8_t *at, uint32_t x, int bytes)
{
    while (bytes-- > 0)
        at[bytes] = (uint8_t)x, x >>= 8;
}

static void record(void)
{
    uint32_t regs[10] = {0}, answer[H8_STEP_ANSWER], states = 0;
    memset(ram, 0, sizeof ram);
    regs[H8_PC] = 0x200;
    recording[0] = 1;
    for (uint8_t *r = recording + 1; r < recording + sizeof recording; r += H8_RECORD) {
        put(r, H8_RECORD - 2, 2);
        put(r + 2, regs[H8_PC], 4);
        put(r + 6, regs[H8_CONDITION], 1);
        put(r + 7, states, 4);
        plain_step(board, H8_BOARD, rom, rom_n, ram, RAM_N, regs, 10, answer, H8_STEP_ANSWER);
        states += answer[3];
    }
    recorded = tmpfile();
    if (!recorded || fwrite(recording, 1, sizeof recording, recorded) != sizeof recording)
        exit(2);
}

/* The recording is read from its file by both: then it is replayed, or as many steps are run without looking at it. */
static uint64_t replays(int run)
{
    uint64_t n = H8_BUDGET_MAX / piece, answer[7];
    uint32_t regs[10] = {0};
    rewind(recorded);
    if (fread(recording, 1, 1 + H8_RECORD * n, recorded) != 1 + H8_RECORD * n)
        exit(2);
    memset(ram, 0, sizeof ram);
    regs[H8_PC] = 0x200;
    if (run)
        h8_run(board, H8_BOARD, rom, rom_n, ram, RAM_N, regs, 10, 0xFFFFFFFF, (uint32_t)n, answer, 6);
    else
        h8_replay(board, H8_BOARD, rom, rom_n, ram, RAM_N, regs, 10, recording, 1 + H8_RECORD * n, answer, 7);
    sum = answer[3] * 31 + answer[4] + regs[0] + regs[9] + ram[100];
    return n;
}

/* What is measured: `which` 0 is the library, 1 plain C, or for the replay the same run of the library. Answers how many units were done. */
struct work { const char *what, *unit; uint64_t (*work)(int which); };
static uint64_t sheet(int w) { return runs(w ? plain_run : h8_run, 0x200, 0xFFFFFFFF, 4000000 / piece); }
static uint64_t decimal(int w) { return runs(w ? plain_run : h8_run, 0, 0x24, 4000000 / piece); }
static uint64_t copy(int w) { return runs(w ? plain_run : h8_run, 0, 0x22, 4000000 / piece); }
static uint64_t one_by_one(int w) { return steps_alone(w ? plain_step : h8_step, 0, 2000000 / piece); }
static uint64_t replayed(int w) { return replays(w); }
static uint64_t listings(int w) { return figures(w ? plain_figure : h8_figure, piece == 1 ? 10 : 1); }

static int ascending(const void *a, const void *b)
{
    double x = *(const double *)a, y = *(const double *)b;
    return x < y ? -1 : x > y;
}

static double measure(uint64_t (*work)(int), int which, uint64_t *answered)
{
    double from = now();
    uint64_t units = work(which);
    double took = now() - from;
    *answered = sum;
    return took * 1e9 / (double)units;
}

static int compare(const struct work *w)
{
    double ratio[PAIRS], library[PAIRS], plain[PAIRS];
    uint64_t a, b;
    for (int i = 0; i < PAIRS; i++) {
        library[i] = measure(w->work, 0, &a);
        plain[i] = measure(w->work, 1, &b);
        ratio[i] = library[i] / plain[i];
        if (a != b) {
            printf("%s: the two answer differently\n", w->what);
            return 1;
        }
    }
    qsort(ratio, PAIRS, sizeof *ratio, ascending);
    qsort(library, PAIRS, sizeof *library, ascending);
    qsort(plain, PAIRS, sizeof *plain, ascending);
    printf("| %-45s | %8.2f | %8.2f | %-5s | %5.2f | %5.2f to %5.2f |\n", w->what, library[PAIRS / 2], plain[PAIRS / 2], w->unit,
           ratio[PAIRS / 2], ratio[1], ratio[PAIRS - 2]);
    fflush(stdout);
    return 0;
}

static const struct { const char *sample; struct work work; } all[] = {
    {"sheet", {"run, sheet counter in a loop", "step", sheet}},
    {"decimal", {"run, decimal counter up and down", "step", decimal}},
    {"copy", {"run, copy loop", "step", copy}},
    {"decimal", {"step, one call each, decimal counter", "step", one_by_one}},
    {"sheet", {"replay and the same run, both with reading", "step", replayed}},
    {NULL, {"figure, 524,288 bytes of conditional branches", "place", listings}},
    {"calls", {"figure, 524,288 bytes of routines that call", "place", listings}},
};
enum { WORKS = sizeof all / sizeof *all };

/* Eight routines in a row, each calling the next, over and over. */
static void fill_calls(void)
{
    static const uint8_t calls[8] = {0x47, 0x00, 0x55, 0x04, 0x0B, 0x50, 0x54, 0x70};
    rom_n = ROM_MAX;
    for (size_t k = 0; k < ROM_MAX; k += 8) {
        memcpy(rom + k, calls, 8);
        if (k / 8 % 8 == 7)
            rom[k + 2] = rom[k + 3] = 0;
    }
}

static void prepare(const char *folder, size_t i)
{
    if (all[i].sample && !strcmp(all[i].sample, "calls")) {
        fill_calls();
        return;
    }
    if (all[i].sample) {
        load(folder, all[i].sample);
        if (all[i].work.work == replayed && !recorded)
            record();
        return;
    }
    rom_n = ROM_MAX;
    for (size_t k = 0; k < ROM_MAX; k += 2)
        rom[k] = k < ROM_MAX - 4 ? 0x47 : 0x54, rom[k + 1] = k < ROM_MAX - 4 ? 0x02 : 0x70;
}

/* Prints the name of the work, its unit and how many units were done. */
static int counted(const char *folder, size_t i, int which, int times)
{
    uint64_t units = 0;
    piece = 20;
    prepare(folder, i);
    for (int k = 0; k < times; k++)
        units += all[i].work.work(which);
    printf("%llu %s|%s\n", (unsigned long long)units, all[i].work.what, all[i].work.unit);
    return 0;
}

int main(int argc, char **argv)
{
    int failed = 0;
    if (argc == 5 && strtoul(argv[2], NULL, 10) < WORKS)
        return counted(argv[1], strtoul(argv[2], NULL, 10), atoi(argv[3]), atoi(argv[4]));
    if (argc != 2) {
        fprintf(stderr, "use: speed SAMPLES [WORK WHICH TIMES]\n");
        return 2;
    }
    printf("| %-45s | %8s | %8s | %-5s | %5s | %-14s |\n|---|---|---|---|---|---|\n", "what", "library", "plain C", "ns a", "ratio", "of the pairs");
    for (size_t i = 0; i < WORKS; i++) {
        prepare(argv[1], i);
        failed |= compare(&all[i].work);
    }
    return failed;
}
