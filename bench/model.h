/* One instruction as the pages of section 2.2 of the maker's manual describe it, flags by the bit formulas of 2.7. Where the
   manual leaves something open documents 01 and 02 decide. Test code: nothing of it is taken from the product. */
#ifndef MODEL_H
#define MODEL_H

#include "decoder.h"

/* The on-chip modules of table 2.5: the addresses from base up to, and not with, end; and the width of their bus. */
struct area {
    uint32_t base, end, bus;
};

struct board {
    uint32_t base;
    const uint8_t *rom;
    size_t rom_n;
    uint8_t *ram;
    size_t ram_n;
    struct area area;
};

/* A data access: a byte or a word. */
struct touch {
    uint32_t address, bytes, write;         /* write: 0 a read, 1 a write */
};

enum { TOUCHES = 4 };                       /* at most; a longword is two */
struct outcome {
    uint32_t number, place, group, states;  /* number 0: done; group 0: not of a left-out code */
    int form;                               /* of the instruction at PC, or -1 */
    uint32_t touches;                       /* in the order made; none of a refused step */
    struct touch touch[TOUCHES];
};

struct ran {
    uint32_t number, place, group;
    uint64_t steps, states;
    int ending;                             /* enum h8_ending */
};

/* A run of one routine: document 02's mode that keeps pushed addresses. */
struct routine {
    uint32_t number, place, group;
    uint64_t steps, states;
    int ending;                             /* enum h8_ending */
    uint32_t count, kept[8];                /* in the order pushed */
    uint32_t deepest;                       /* how many were kept at most */
};

void model_start(void);                                             /* after decoder_start */
struct outcome model_step(const struct board *b, uint32_t regs[10]); /* changes regs and ram only if done */
struct ran model_run(const struct board *b, uint32_t regs[10], uint32_t stop, uint32_t budget);
struct routine model_routine(const struct board *b, uint32_t regs[10], uint32_t stop, uint32_t budget);
int model_board_good(const struct board *b);
struct area no_ports(uint32_t at);                                  /* an empty area there */

/* FOR FIGURES. The states of an instruction on a path: an absolute address costs what its own place costs, an address from a
   register the dearest place on the board for that width. And whether some good board with so long a code carries the area. */
uint32_t model_most(const struct decoded *d, struct area a);
int model_carried(struct area a, size_t rom_n);

#endif
