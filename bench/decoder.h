/* The set, and what it leaves out, as tables of digit patterns, and a decoder that only matches them. Test code: the codes are
   those of the maker's manual (section 2.4, and the pages of 2.2 where its text is damaged), the cycles those of 2.6; nothing is
   of the product. */
#ifndef DECODER_H
#define DECODER_H

#include <stddef.h>
#include <stdint.h>
#include "../host/h8.h"

struct form {
    const char *name;                       /* as the maker's assembler writes it */
    const char *pattern;                    /* the digits of the code */
    const char *cycles;                     /* table 2.6 of the manual */
    uint8_t states;                         /* document 01's bracket: equals 2(I+J+K+L+M)+N of the cycles */
    uint8_t kind, which, width, form;       /* the first four numbers of host/h8.h */
    const char *other, *reg;                /* the pattern's fields that become H8_OTHER and H8_REG */
};

enum { FORMS = 239, ONWARD = 198 };         /* how many; the first 198 always go on to the next instruction */
extern const struct form forms[FORMS];

/* A code of section 2.4 that the set leaves out. */
struct left_out {
    int group;                              /* document 01's number */
    const char *name, *pattern;
};

enum { LEFT_OUT = 25, LEFT_OUT_LENGTH = 10 };   /* how many, and the length of the longest */
extern const struct left_out left_outs[LEFT_OUT];

struct decoded {
    int form;                               /* index into forms, or -1 */
    int group;                              /* of what is left out, else 0 */
    uint32_t fields[H8_FIELDS];
};

void decoder_start(void);                   /* reads the patterns; once, before all else */
int decoder_length(int form);
int decoder_value_bits(int form);           /* width of the immediate, displacement or address; 0 if there is none */
int decoder_other_top(int form);            /* how many registers or bits the field takes: 16, 8, or 0 if there is none */
int decoder_reg_top(int form);

/* 0 accepted, 4 cut short; else 15 if the bytes begin with a left-out code or are a proper beginning of one, else 3 */
int decode(const uint8_t *bytes, size_t n, struct decoded *out);

int left_out_length(int code);
void build_left_out(int code, uint64_t operands, uint8_t out[LEFT_OUT_LENGTH]);     /* with these bits where it has operands */

/* The bytes of a form with these fields (taken as they are). Answers the length. */
int build(int form, uint32_t other, uint32_t value, uint32_t reg, uint8_t out[8]);

/* The form that has exactly these fields, or -1. */
int form_of(const uint32_t fields[H8_FIELDS]);

#endif
