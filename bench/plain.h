/* The same set, the same checks and the same figure in plain C, written for speed: what the library's speed is measured
   against. It also stands in for the library when the bench itself is tried. The arguments are those of host/h8.h. */
#ifndef PLAIN_H
#define PLAIN_H

#include "../host/h8.h"

uint32_t plain_step(const uint32_t *board, size_t board_n, const uint8_t *rom, size_t rom_n, uint8_t *ram, size_t ram_n,
                    uint32_t *regs, size_t regs_n, uint32_t *answer, size_t answer_n);
uint32_t plain_run(const uint32_t *board, size_t board_n, const uint8_t *rom, size_t rom_n, uint8_t *ram, size_t ram_n,
                   uint32_t *regs, size_t regs_n, uint32_t stop, uint32_t budget, uint64_t *answer, size_t answer_n);
uint32_t plain_figure(const uint32_t *board, size_t board_n, const uint8_t *rom, size_t rom_n, uint32_t entry,
                      uint64_t *table, size_t table_n, uint64_t *answer, size_t answer_n);
uint32_t plain_way(const uint32_t *board, size_t board_n, const uint8_t *rom, size_t rom_n,
                   const uint64_t *table, size_t table_n, uint32_t place, uint64_t *answer, size_t answer_n);

#endif
