/* A small assembler for the samples, in the maker's syntax: it matches a line against the names in the table of forms and
   builds the code by the form's pattern. */
#ifndef ASM_H
#define ASM_H

#include <stddef.h>
#include <stdint.h>
#include <stdio.h>

/* Assembles `text` into rom (room bytes, filled with 0). Answers the length, or -1 and a message. With a listing, each line is
   written there after its address and bytes. decoder_start() has been called. */
long assemble(const char *text, uint8_t *rom, size_t room, char message[200], FILE *listing);

#endif
