/* Asks the library what the tool is asked, and prints the answer in the tool's `--plain` form, without the words of instructions and
   refusals (the lines `text` of the former, and `why`): a name and a value a line. The reading of arguments and the printing are
   written here anew.

     ask answer QUESTIONS        each line `$ h8 USE ...` of the file, and its answer
     ask roms FOLDER N           N random ROMs into the folder; prints questions about them
     ask code FILE               a ROM with every form eight times from 0x8000 on, for a listing that is assembled again
     ask states ROM              place, bytes and states of each instruction by the table of forms, as the manual has them

   The states of a place are not the library's, which tells figures alone: they are the model's, and along a way they must add up. */
#include "file.h"
#include "model.h"
#include <stdio.h>
#include <stdlib.h>
#include <string.h>

enum { ROM_ROOM = H8_ROM_MAX + 2, WORDS = 40, LINE = 400, CODE_AT = 0x8000 };
typedef unsigned long long ull;

static uint8_t rom[ROM_ROOM], ram[H8_RAM_MAX];
static uint64_t table[H8_ROM_MAX];
static size_t rom_n;
static uint32_t board[H8_BOARD];            /* of the question */

static struct area ports(void) { return (struct area){board[H8_AREA_BASE], board[H8_AREA_END], board[H8_BUS]}; }

static void load(const char *path) { rom_n = read_file(path, rom, sizeof rom); }

static void save(const char *path)
{
    FILE *f = fopen(path, "wb");
    if (!f || fwrite(rom, 1, rom_n, f) != rom_n || fclose(f)) {
        perror(path);
        exit(2);
    }
}

static uint32_t number(const char *word) { return (uint32_t)strtoull(word, NULL, 0); }

static void print_place(const char *name, uint64_t p)
{
    printf("%s 0x%0*llx\n", name, p < 0x10000 ? 4 : p < 0x1000000 ? 6 : 8, (ull)p);
}

static void print_refusal(const uint64_t *answer)
{
    printf("refusal %llu\n", (ull)answer[0]);
    print_place("place", answer[1]);
    if (answer[0] == 15)
        printf("group %llu\n", (ull)answer[2]);
}

static void print_bytes(uint32_t p, uint32_t n)
{
    printf("bytes ");
    for (uint32_t i = p; i < p + n && i < rom_n; i++)
        printf("%02x", rom[i]);
    printf("\n");
}

/* What stands at p; answers its length and adds its states. A word that is no instruction has two bytes and no states. */
static uint32_t print_code(uint32_t p, uint64_t *states)
{
    uint32_t fields[H8_FIELDS], answer[3], number = h8_decode(rom + p, rom_n - p, fields, H8_FIELDS, answer, 3), most;
    struct decoded d;
    most = decode(rom + p, rom_n - p, &d) ? 0 : model_most(&d, ports());
    print_place("place", p);
    print_bytes(p, number ? 2 : fields[H8_LENGTH]);
    if (number == 15)
        printf("text left out, group %u\n", answer[2]);
    else if (number)
        printf("text %s\n", number == 3 ? "unknown" : "cut short");
    else
        printf("states %u\n", most);
    *states += number ? 0 : most;
    return number ? 2 : fields[H8_LENGTH];
}

static void figure(uint32_t entry, const char *gap)
{
    uint64_t answer[4];
    if (h8_figure(board, H8_BOARD, rom, rom_n, entry, table, rom_n, answer, 4)) {
        print_refusal(answer);
        return;
    }
    printf("figure %llu\n", (ull)answer[3]);
    if (!gap)
        return;
    uint64_t states = strtoull(gap, NULL, 0);
    int fits = answer[3] <= states;
    printf("gap %llu\nfits %s\n", (ull)states, fits ? "yes" : "no");
    printf(fits ? "left %llu\n" : "missing %llu\n", (ull)(fits ? states - answer[3] : answer[3] - states));
}

/* The routine that is called at p; H8_NONE where nothing is called. */
static uint32_t called_at(uint32_t p)
{
    struct decoded d;
    const uint32_t *f = d.fields;
    if (decode(rom + p, rom_n - p, &d) || (f[H8_KIND] != H8_BSR && (f[H8_KIND] != H8_JSR || f[H8_FORM] != H8_DIRECT)))
        return H8_NONE;
    uint32_t by = (uint32_t)(f[H8_FORM] == H8_NEAR ? (int8_t)f[H8_VALUE] : (int16_t)f[H8_VALUE]);
    return (f[H8_KIND] == H8_JSR ? f[H8_VALUE] : p + f[H8_LENGTH] + by) & 0xFFFFFE;
}

/* A routine that a way calls, in three lines. */
static void print_called(uint32_t to, uint64_t *total)
{
    if (to == H8_NONE || to >= rom_n)
        return;
    *total += table[to];
    print_place("routine", to);
    printf("states %llu\ntotal %llu\n", (ull)table[to], (ull)*total);
}

/* The way of the routine at `entry`, by the table; where `level` is not below 0, with the routines that it calls, and each place's level. */
static int follow(uint64_t entry, int level, uint64_t *total)
{
    uint64_t answer[4];
    for (uint64_t p = entry; p != H8_NONE; p = answer[3]) {
        uint32_t to = called_at((uint32_t)p);
        if (level >= 0)
            printf("level %d\n", level);
        print_code((uint32_t)p, total);
        printf("total %llu\n", (ull)*total);
        if (h8_way(board, H8_BOARD, rom, rom_n, table, rom_n, (uint32_t)p, answer, 4)) {
            print_refusal(answer);
            return 0;
        }
        if (level < 0)
            print_called(to, total);
        else if (to != H8_NONE && !follow(to, level + 1, total))
            return 0;
    }
    return 1;
}

static void way(uint32_t entry, int deep)
{
    uint64_t answer[4], total = 0;
    if (h8_figure(board, H8_BOARD, rom, rom_n, entry, table, rom_n, answer, 4)) {
        print_refusal(answer);
        return;
    }
    uint64_t longest = answer[3];
    if (follow(entry, deep ? 0 : -1, &total))
        printf("figure %llu\n", (ull)longest);
}

static void list(uint32_t from, uint32_t to)
{
    uint64_t answer[4], states = 0;
    if (h8_figure(board, H8_BOARD, rom, rom_n, 0, table, rom_n, answer, 4) == 1) {
        print_refusal(answer);
        return;
    }
    for (uint32_t p = from; p < rom_n && p <= to;) {
        uint32_t n = print_code(p, &states);
        if (table[p + 1] == H8_NONE)
            printf("figure %llu\n", (ull)table[p]);
        else
            print_place("lowest", table[p + 1]);
        p += n;
    }
}

/* What a run is asked. */
struct asked {
    uint32_t regs[H8_REGISTERS], length, stop, budget;
    int routine, trace;
};

static struct asked asked(uint32_t entry, char **word, int words)
{
    struct asked a = {.stop = H8_NONE, .budget = H8_BUDGET_MAX};
    a.regs[H8_PC] = entry;
    for (int i = 0; i < words; i++)
        a.routine |= !strcmp(word[i], "--routine"), a.trace |= !strcmp(word[i], "--trace");
    for (int i = 0; i + 1 < words; i++) {
        if (!strcmp(word[i], "--ram"))
            a.length = number(word[i + 2]);
        else if (!strcmp(word[i], "--stop"))
            a.stop = number(word[i + 1]);
        else if (!strcmp(word[i], "--budget"))
            a.budget = number(word[i + 1]);
        else if (!strcmp(word[i], "--er"))
            a.regs[number(word[i + 1]) & 7] = number(word[i + 2]);
    }
    return a;
}

static void print_registers(const uint32_t *regs)
{
    static const char *const flags[8] = {"i", "ui", "h", "u", "n", "z", "v", "c"};
    print_place("pc", regs[H8_PC]);
    for (int i = 0; i < 8; i++)
        printf("er%d 0x%08x\n", i, regs[i]);
    for (int i = 0; i < 8; i++)
        printf("%s %u\n", flags[i], regs[H8_CONDITION] >> (7 - i) & 1);
}

static uint32_t ran(struct asked *a, uint64_t answer[H8_ROUTINE_ANSWER])
{
    memset(ram, 0, sizeof ram);
    if (a->routine)
        return h8_routine(board, H8_BOARD, rom, rom_n, ram, a->length, a->regs, H8_REGISTERS, a->stop, a->budget, answer, H8_ROUTINE_ANSWER);
    return h8_run(board, H8_BOARD, rom, rom_n, ram, a->length, a->regs, H8_REGISTERS, a->stop, a->budget, answer, 6);
}

/* So many steps from these registers, one by one, with what each touched. */
static void trace(const struct asked *a, uint32_t *regs, uint64_t steps)
{
    uint32_t answer[H8_STEP_ANSWER];
    memset(ram, 0, sizeof ram);
    while (steps-- > 0) {
        print_place("place", regs[H8_PC]);
        h8_step(board, H8_BOARD, rom, rom_n, ram, a->length, regs, H8_REGISTERS, answer, H8_STEP_ANSWER);
        printf("states %u\n", answer[3]);
        for (const uint32_t *t = answer + H8_ACCESSES; t < answer + H8_ACCESSES + H8_ACCESS * answer[H8_COUNT]; t += H8_ACCESS) {
            char name[16];
            snprintf(name, sizeof name, "%s %u", t[H8_WRITE] ? "write" : "read", t[H8_BYTES]);
            print_place(name, t[H8_ADDRESS]);
        }
    }
}

static void run(struct asked a)
{
    static const char *const ended[] = {"stop", "budget", "refusal", "return", "ninth", "elsewhere"};
    uint64_t answer[H8_ROUTINE_ANSWER];
    struct asked first = a;
    uint32_t refusal = ran(&a, answer);
    if (refusal == 1 || refusal == 12) {    /* nothing ran: the arguments are wrong */
        print_refusal(answer);
        return;
    }
    if (a.trace)
        trace(&a, first.regs, answer[3]);
    printf("steps %llu\nstates %llu\nended %s\n", (ull)answer[3], (ull)answer[4], ended[answer[5]]);
    if (answer[5] == H8_ELSEWHERE)
        print_place("kept", answer[H8_KEPT + answer[H8_KEPT_COUNT] - 1]);
    if (refusal)
        print_refusal(answer);
    print_registers(a.regs);
}

static uint64_t recorded(const uint8_t *at, int bytes)
{
    uint64_t x = 0;
    while (bytes-- > 0)
        x = x << 8 | *at++;
    return x;
}

static void print_difference(const uint8_t *record, const uint32_t *regs, const uint64_t *answer)
{
    printf("record %llu\n", (ull)answer[3] + 1);
    if (answer[6] == H8_FIELD_PC) {
        puts("field pc");
        print_place("here", regs[H8_PC]);
        print_place("recorded", recorded(record + 2, 4));
    } else if (answer[6] == H8_FIELD_CONDITION)
        printf("field condition\nhere 0x%02x\nrecorded 0x%02x\n", regs[H8_CONDITION], record[6]);
    else
        printf("field states\nhere %llu\nrecorded %llu\n", (ull)answer[4], (ull)recorded(record + 7, 4));
    print_place("place", regs[H8_PC]);
}

static void replay(struct asked a, const char *path)
{
    static uint8_t file[1 << 16];
    uint64_t answer[7];
    size_t n = read_file(path, file, sizeof file);
    memset(ram, 0, sizeof ram);
    uint32_t refusal = h8_replay(board, H8_BOARD, rom, rom_n, ram, a.length, a.regs, H8_REGISTERS, file, n, answer, 7);
    if (refusal)
        print_refusal(answer);
    if (refusal == 1)
        return;
    if (answer[5] == H8_DIFFERS)
        print_difference(file + 1 + H8_RECORD * answer[3], a.regs, answer);
    printf("agreed %llu\nstates %llu\n", (ull)answer[3], (ull)answer[4]);
    print_registers(a.regs);
}

/* The board of the question: where `--port` is left out, no ports, in working memory or at the end of all. */
static void take_board(char **word, int words)
{
    board[H8_BASE] = 0;
    board[H8_AREA_BASE] = board[H8_AREA_END] = 16777216;
    board[H8_BUS] = 8;
    for (int i = 0; i + 2 < words; i++)
        if (!strcmp(word[i], "--ram"))
            board[H8_BASE] = board[H8_AREA_BASE] = board[H8_AREA_END] = number(word[i + 1]);
    for (int i = 0; i + 3 < words; i++)
        if (!strcmp(word[i], "--port"))
            board[H8_AREA_BASE] = number(word[i + 1]), board[H8_AREA_END] = number(word[i + 2]), board[H8_BUS] = number(word[i + 3]);
}

/* `--port` and its numbers are no words of figure, way and list. */
static int without_port(char **word, int words)
{
    int n = 0;
    for (int i = 0; i < words; i++)
        if (!strcmp(word[i], "--port"))
            i += 3;
        else
            word[n++] = word[i];
    return n;
}

static void answer_words(char **word, int words)
{
    load(word[1]);
    take_board(word, words);
    words = without_port(word, words);
    const char *third = words > 2 ? word[2] : "0", *fourth = words > 3 ? word[3] : NULL;
    if (!strcmp(word[0], "figure"))
        figure(number(third), fourth);
    else if (!strcmp(word[0], "way"))
        way(number(third), fourth && !strcmp(fourth, "--deep"));
    else if (!strcmp(word[0], "list"))
        list(number(third), fourth ? number(fourth) : UINT32_MAX);
    else if (!strcmp(word[0], "replay"))
        replay(asked(number(third), word, words), fourth);
    else
        run(asked(number(third), word, words));
}

/* A question's words; `--plain` is no part of it. */
static int cut(char *line, char **word)
{
    int n = 0;
    for (char *w = strtok(line, " \n"); w && n < WORDS; w = strtok(NULL, " \n"))
        if (strcmp(w, "--plain"))
            word[n++] = w;
    return n;
}

static int answer_all(const char *path)
{
    char line[LINE], *word[WORDS];
    FILE *f = fopen(path, "r");
    while (f && fgets(line, sizeof line, f)) {
        if (strncmp(line, "$ h8 ", 5))
            continue;
        fputs(line, stdout);
        int words = cut(line + 5, word);
        answer_words(word, words);
    }
    return f ? fclose(f) : 2;
}

/* RANDOM ROMS, by a fixed seed. */
static uint64_t seed = 0x9E3779B97F4A7C15u;

static uint32_t below(uint32_t n)
{
    seed ^= seed << 13;
    seed ^= seed >> 7;
    seed ^= seed << 17;
    return (uint32_t)(seed >> 20) % n;
}

static void append(const uint8_t *bytes, int n)
{
    memcpy(rom + rom_n, bytes, (size_t)n);
    rom_n += (size_t)n;
}

/* An instruction of a form; branches go an even way, so that their target can be written. */
static void append_form(int form, uint32_t value)
{
    uint8_t code[8];
    uint32_t other = decoder_other_top(form) ? below((uint32_t)decoder_other_top(form)) : 0;
    uint32_t reg = decoder_reg_top(form) ? below((uint32_t)decoder_reg_top(form)) : 0;
    if (forms[form].kind == H8_BCC || forms[form].kind == H8_BSR)
        value &= ~1u;
    append(code, build(form, other, value, reg, code));
}

static int is_branch(int form) { return forms[form].kind == H8_BCC; }

static int some_product(void)
{
    int form = 0;
    while (forms[form].kind != H8_MULTIPLY && forms[form].kind != H8_DIVIDE)
        form = (int)below(FORMS);
    return form;
}

/* A left-out code, whole or cut at some word. */
static void append_left_out(void)
{
    uint8_t code[LEFT_OUT_LENGTH];
    int k = (int)below(LEFT_OUT);
    build_left_out(k, (uint64_t)below(1u << 31) << 33 | (uint64_t)below(1u << 31) << 2 | below(4), code);
    append(code, 2 * (1 + (int)below((uint32_t)left_out_length(k) / 2)));
}

/* One piece of a random ROM: mostly an instruction that goes on, some branches and calls forward, few back, a return, any word, or what the
   set leaves out. */
static void append_piece(void)
{
    uint32_t die = below(40);
    int form = (int)below(FORMS);
    if (die == 0)
        append((uint8_t[]){(uint8_t)below(256), (uint8_t)below(256)}, 2);
    else if (die == 37)
        append_left_out();
    else if (die < 4)
        append((uint8_t[]){0x54, 0x70}, 2);
    else if (die < 10)
        append((uint8_t[]){(uint8_t)(0x40 + below(16)), (uint8_t)(2 * below(12))}, 2);
    else if (die < 11)
        append((uint8_t[]){(uint8_t)(0x40 + below(16)), (uint8_t)below(256)}, 2);
    else if (die >= 38)
        append_form(some_product(), 0);
    else if (die >= 31)
        append((uint8_t[]){0x55, (uint8_t)(2 * below(12))}, 2);
    else if (form < ONWARD || die < 13)
        append_form(form, is_branch(form) ? 2 * below(12) : below(2) ? 0xEF10 + below(64) : below(1u << 30));
}

static void random_rom(void)
{
    uint32_t pieces = 1 + below(24);
    rom_n = 0;
    while (pieces--)
        append_piece();
    for (uint32_t i = below(10); i > 2; i--)
        append((uint8_t[]){0x54, 0x70}, 2);
}

static uint32_t random_entry(void)
{
    uint32_t die = below(12);
    return die < 7 || !rom_n ? 0 : die < 11 ? below((uint32_t)rom_n) & ~1u : below(2 * (uint32_t)rom_n);
}

/* Ports in half of the questions: in working memory of so many bytes, now and then past it. */
static const char *some_port(uint32_t n)
{
    static char text[60];
    uint32_t from = 2 * below(n / 2 + 1), to = from + 2 * below((n - from) / 2 + (below(8) ? 1 : 9));
    snprintf(text, sizeof text, "--port 0x%x 0x%x %d ", 0xFFEF10 + from, 0xFFEF10 + to, below(2) ? 8 : 16);
    return below(2) ? text : "";
}

static void print_questions(const char *name, int k)
{
    uint32_t entry = random_entry(), length = 2 * below(64);
    printf("$ h8 figure %s 0x%x %u %s--plain\n", name, entry, below(120), some_port(128));
    printf("$ h8 way %s %u %s--plain\n", name, entry, some_port(128));
    printf("$ h8 run %s %u --ram 0xffef10 %u --budget %u --er %u 0x%x --er %u 0xffef%02x --er 7 0xffef%02x --stop %u %s--plain\n", name,
           entry, length, 1 + below(50), below(3), below(1u << 31), 3 + below(4), 0x10 + below(64), 0x10 + below(128), 2 * below(40),
           some_port(length));
    printf("$ h8 run %s %u --ram 0xffef10 %u --er 1 0x%x --er 7 0xffef%02x --routine %s%s--plain\n", name, entry, length, 2 * below(40),
           0x10 + below(128), k % 3 ? "" : "--trace ", some_port(length));
    if (k % 2 == 0)
        printf("$ h8 way %s %u --deep --plain\n", name, entry);
    if (k % 4 == 0 && rom_n)
        printf("$ h8 list %s %s--plain\n", name, some_port(128));
}

static int roms(const char *folder, int n)
{
    for (int k = 0; k < n; k++) {
        char path[LINE];
        snprintf(path, sizeof path, "%s/%03d.bin", folder, k);
        random_rom();
        save(path);
        print_questions(path, k);
    }
    return 0;
}

static int code(const char *path)
{
    memset(rom, 0, CODE_AT);
    rom_n = CODE_AT;
    for (int k = 0; k < 8; k++)
        for (int i = 0; i < FORMS; i++)
            append_form(i, below(1u << 16) << 16 | below(1u << 16));
    save(path);
    return 0;
}

static int states(const char *path)
{
    struct decoded d;
    load(path);
    for (size_t p = 0; p < rom_n; p += (size_t)decoder_length(d.form)) {
        if (decode(rom + p, rom_n - p, &d))
            return 1;
        printf("0x%04zx ", p);
        for (int i = 0; i < decoder_length(d.form); i++)
            printf("%02x", rom[p + (size_t)i]);
        printf(" %u\n", forms[d.form].states);
    }
    return 0;
}

int main(int argc, char **argv)
{
    decoder_start();
    model_start();
    if (argc == 3 && !strcmp(argv[1], "answer"))
        return answer_all(argv[2]);
    if (argc == 4 && !strcmp(argv[1], "roms"))
        return roms(argv[2], atoi(argv[3]));
    if (argc == 3 && !strcmp(argv[1], "code"))
        return code(argv[2]);
    if (argc == 3 && !strcmp(argv[1], "states"))
        return states(argv[2]);
    fprintf(stderr, "use: ask answer QUESTIONS | roms FOLDER N | code FILE | states ROM\n");
    return 2;
}
