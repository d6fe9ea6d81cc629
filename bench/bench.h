/* What the tests share: reporting, lent memory with guards, random numbers, and the comparison of a step with the model. */
#ifndef BENCH_H
#define BENCH_H

#include "decoder.h"
#include "model.h"

/* A test is begun, run and ended. Its first difference is printed in full; `failing` tells its loops to leave. */
void begin(const char *name, ...) __attribute__((format(printf, 1, 2)));
void fail(const char *format, ...) __attribute__((format(printf, 1, 2)));
void say(const char *format, ...) __attribute__((format(printf, 1, 2)));    /* a further line of the difference just printed */
void note(const char *format, ...) __attribute__((format(printf, 1, 2)));  /* a line beside the tests */
int failing(void);
void count(uint64_t cases);
void end(const char *unit);                 /* prints a line with the count */
void end_quietly(void);                     /* prints nothing if all was well */

/* Memory that is lent so that it ends at a page that may not be touched, with guard bytes before it. */
struct lender {
    uint8_t *end, *now;
    size_t room;
};
void lender_make(struct lender *l, size_t room);
void *lend(struct lender *l, size_t bytes);
int guards_stand(const struct lender *l);
extern struct lender rom_lender, ram_lender, regs_lender, answer_lender, out_lender, board_lender;

/* The four numbers of a board, lent. Without ports: an empty area at the base, or behind working memory so that it is right where the
   base is not; and for a figure one at the end of all, with a base that is no board's, since it is not looked at. */
const uint32_t *lend_board(uint32_t base, struct area a);
const uint32_t *plain_board(uint32_t base);
const uint32_t *far_board(uint32_t base, size_t ram_n);
#define NO_PORTS lend_board(0xFFFFFFFF, no_ports(16777216)), H8_BOARD

uint64_t any(void);                         /* random, by a fixed seed */
uint32_t below(uint32_t n);
uint32_t edge32(void);                      /* a number at an edge of 8, 16 or 32 bits, or any */
struct area some_area(uint32_t base, uint32_t ram_n);   /* inside working memory: empty, all of it, or a part */
uint32_t from_hex(const char *digits, uint8_t *into);   /* how many bytes */

/* A state to step from. `rom` and `ram` are copied into lent memory. Where it has no ports its area is an empty one at the base. */
enum { SMALL = 1024 };
struct state {
    int ports;
    struct area area;
    uint32_t base, regs[10];
    uint32_t rom_n, ram_n;
    uint8_t rom[SMALL], ram[SMALL];
};

/* The library's step and the model's from the same state, compared whole. Answers the model's outcome; fails the test on a
   difference, naming the form. */
struct outcome compare_step(const struct state *s);
struct area area_of(const struct state *s);
const char *refused_code(int answer);       /* what decode's 3, 4 or 15 says of the bytes */

/* THE ANSWER OF A STEP. Lent and marked; whether it tells no accesses; the list as text, as "R2 FFEF10 W1 FFEF20"; and the states that a
   form has by the list, reckoned here: what document 01 says of it, which counts two an access, and what each takes beyond two. */
uint32_t *lend_step_answer(void);
void step_answer(struct outcome o, uint32_t answer[H8_STEP_ANSWER]);    /* what the library should answer */
int untouched(const uint32_t *answer);
const char *list_text(const uint32_t *answer);
uint32_t states_by_list(int form, struct area a, const uint32_t *answer);

/* Figure and way of a listing of at most ENUMERATED bytes, from every place, against the enumeration and the table of levels; h8_way from a
   place by a table, upward to the return, so that the states add up; and a run of a routine by the library and by the model, compared whole:
   afterwards b->ram and regs are as it left them. */
void compare_table(const uint8_t *code, uint32_t n, struct area area);
void follow(const uint8_t *rom, uint32_t n, struct area area, uint32_t entry, const uint64_t *table);
struct routine compare_routine(const struct board *b, uint32_t regs[10], uint32_t stop, uint32_t budget);

void show_listing(const uint8_t *rom, uint32_t n);
void show_code(const uint8_t *rom, size_t rom_n, uint32_t pc);
void show_registers(const char *title, const uint32_t regs[10]);

void test_reference(void);
void test_marked(void);
void test_codes(void);
void test_encode(void);
void test_steps(void);
void test_bytes(void);
void test_bits(void);
void test_touches(void);
void test_left_out(void);
void test_limits(void);
void test_ports(void);
void test_runs(const char *samples);
void test_figures(void);
void test_calls(void);
void test_routine(void);
void test_replay(void);
void test_cuts(void);
void test_bad_input(void);

#endif
