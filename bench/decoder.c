#include "decoder.h"
#include <string.h>

/* One line for each of the 239 forms. In a pattern a hex digit stands for itself; [rs] [rd] [rn] is a digit 0 to F; [es] [ed]
   [en] and the bit number [bn] a digit 0 to 7; [8+es] [8+ed] [8+bn] that digit plus 8; imm, d and aa so many bits, most
   significant digit first. */
const struct form forms[FORMS] = {
    {"NOP",                    "00 00",                        "I1",       2, H8_NOP,     0,         0,       0,             "",   ""},
    {"STC.B CCR,Rd",           "02 0[rd]",                     "I1",       2, H8_STC,     0,         0,       0,             "",   "rd"},
    {"LDC.B Rs,CCR",           "03 0[rs]",                     "I1",       2, H8_LDC,     0,         0,       0,             "",   "rs"},
    {"ORC #xx:8,CCR",          "04 [imm8]",                    "I1",       2, H8_CCR,     H8_ORC,    0,       0,             "",   ""},
    {"XORC #xx:8,CCR",         "05 [imm8]",                    "I1",       2, H8_CCR,     H8_XORC,   0,       0,             "",   ""},
    {"ANDC #xx:8,CCR",         "06 [imm8]",                    "I1",       2, H8_CCR,     H8_ANDC,   0,       0,             "",   ""},
    {"LDC.B #xx:8,CCR",        "07 [imm8]",                    "I1",       2, H8_CCR,     H8_LDC_IMM, 0,       0,             "",   ""},
    {"ADD.B Rs,Rd",            "08 [rs][rd]",                  "I1",       2, H8_ALU,     H8_ADD,    H8_BYTE, H8_SOURCE_REG, "rs", "rd"},
    {"ADD.W Rs,Rd",            "09 [rs][rd]",                  "I1",       2, H8_ALU,     H8_ADD,    H8_WORD, H8_SOURCE_REG, "rs", "rd"},
    {"ADD.L ERs,ERd",          "0A [8+es][ed]",                "I1",       2, H8_ALU,     H8_ADD,    H8_LONG, H8_SOURCE_REG, "es", "ed"},
    {"SUB.B Rs,Rd",            "18 [rs][rd]",                  "I1",       2, H8_ALU,     H8_SUB,    H8_BYTE, H8_SOURCE_REG, "rs", "rd"},
    {"SUB.W Rs,Rd",            "19 [rs][rd]",                  "I1",       2, H8_ALU,     H8_SUB,    H8_WORD, H8_SOURCE_REG, "rs", "rd"},
    {"SUB.L ERs,ERd",          "1A [8+es][ed]",                "I1",       2, H8_ALU,     H8_SUB,    H8_LONG, H8_SOURCE_REG, "es", "ed"},
    {"CMP.B Rs,Rd",            "1C [rs][rd]",                  "I1",       2, H8_ALU,     H8_CMP,    H8_BYTE, H8_SOURCE_REG, "rs", "rd"},
    {"CMP.W Rs,Rd",            "1D [rs][rd]",                  "I1",       2, H8_ALU,     H8_CMP,    H8_WORD, H8_SOURCE_REG, "rs", "rd"},
    {"CMP.L ERs,ERd",          "1F [8+es][ed]",                "I1",       2, H8_ALU,     H8_CMP,    H8_LONG, H8_SOURCE_REG, "es", "ed"},
    {"MOV.B Rs,Rd",            "0C [rs][rd]",                  "I1",       2, H8_ALU,     H8_MOV,    H8_BYTE, H8_SOURCE_REG, "rs", "rd"},
    {"MOV.W Rs,Rd",            "0D [rs][rd]",                  "I1",       2, H8_ALU,     H8_MOV,    H8_WORD, H8_SOURCE_REG, "rs", "rd"},
    {"MOV.L ERs,ERd",          "0F [8+es][ed]",                "I1",       2, H8_ALU,     H8_MOV,    H8_LONG, H8_SOURCE_REG, "es", "ed"},
    {"ADDX Rs,Rd",             "0E [rs][rd]",                  "I1",       2, H8_ALU,     H8_ADDX,   H8_BYTE, H8_SOURCE_REG, "rs", "rd"},
    {"SUBX Rs,Rd",             "1E [rs][rd]",                  "I1",       2, H8_ALU,     H8_SUBX,   H8_BYTE, H8_SOURCE_REG, "rs", "rd"},
    {"OR.B Rs,Rd",             "14 [rs][rd]",                  "I1",       2, H8_ALU,     H8_OR,     H8_BYTE, H8_SOURCE_REG, "rs", "rd"},
    {"OR.W Rs,Rd",             "64 [rs][rd]",                  "I1",       2, H8_ALU,     H8_OR,     H8_WORD, H8_SOURCE_REG, "rs", "rd"},
    {"OR.L ERs,ERd",           "01 F0 64 [es][ed]",            "I2",       4, H8_ALU,     H8_OR,     H8_LONG, H8_SOURCE_REG, "es", "ed"},
    {"XOR.B Rs,Rd",            "15 [rs][rd]",                  "I1",       2, H8_ALU,     H8_XOR,    H8_BYTE, H8_SOURCE_REG, "rs", "rd"},
    {"XOR.W Rs,Rd",            "65 [rs][rd]",                  "I1",       2, H8_ALU,     H8_XOR,    H8_WORD, H8_SOURCE_REG, "rs", "rd"},
    {"XOR.L ERs,ERd",          "01 F0 65 [es][ed]",            "I2",       4, H8_ALU,     H8_XOR,    H8_LONG, H8_SOURCE_REG, "es", "ed"},
    {"AND.B Rs,Rd",            "16 [rs][rd]",                  "I1",       2, H8_ALU,     H8_AND,    H8_BYTE, H8_SOURCE_REG, "rs", "rd"},
    {"AND.W Rs,Rd",            "66 [rs][rd]",                  "I1",       2, H8_ALU,     H8_AND,    H8_WORD, H8_SOURCE_REG, "rs", "rd"},
    {"AND.L ERs,ERd",          "01 F0 66 [es][ed]",            "I2",       4, H8_ALU,     H8_AND,    H8_LONG, H8_SOURCE_REG, "es", "ed"},
    {"INC.B Rd",               "0A 0[rd]",                     "I1",       2, H8_INCDEC,  H8_UP,     H8_BYTE, H8_BY_1,       "",   "rd"},
    {"DEC.B Rd",               "1A 0[rd]",                     "I1",       2, H8_INCDEC,  H8_DOWN,   H8_BYTE, H8_BY_1,       "",   "rd"},
    {"ADDS #1,ERd",            "0B 0[ed]",                     "I1",       2, H8_ADDSSUBS, H8_UP,     0,       H8_BY_1,       "",   "ed"},
    {"ADDS #2,ERd",            "0B 8[ed]",                     "I1",       2, H8_ADDSSUBS, H8_UP,     0,       H8_BY_2,       "",   "ed"},
    {"ADDS #4,ERd",            "0B 9[ed]",                     "I1",       2, H8_ADDSSUBS, H8_UP,     0,       H8_BY_4,       "",   "ed"},
    {"INC.W #1,Rd",            "0B 5[rd]",                     "I1",       2, H8_INCDEC,  H8_UP,     H8_WORD, H8_BY_1,       "",   "rd"},
    {"INC.W #2,Rd",            "0B D[rd]",                     "I1",       2, H8_INCDEC,  H8_UP,     H8_WORD, H8_BY_2,       "",   "rd"},
    {"INC.L #1,ERd",           "0B 7[ed]",                     "I1",       2, H8_INCDEC,  H8_UP,     H8_LONG, H8_BY_1,       "",   "ed"},
    {"INC.L #2,ERd",           "0B F[ed]",                     "I1",       2, H8_INCDEC,  H8_UP,     H8_LONG, H8_BY_2,       "",   "ed"},
    {"SUBS #1,ERd",            "1B 0[ed]",                     "I1",       2, H8_ADDSSUBS, H8_DOWN,   0,       H8_BY_1,       "",   "ed"},
    {"SUBS #2,ERd",            "1B 8[ed]",                     "I1",       2, H8_ADDSSUBS, H8_DOWN,   0,       H8_BY_2,       "",   "ed"},
    {"SUBS #4,ERd",            "1B 9[ed]",                     "I1",       2, H8_ADDSSUBS, H8_DOWN,   0,       H8_BY_4,       "",   "ed"},
    {"DEC.W #1,Rd",            "1B 5[rd]",                     "I1",       2, H8_INCDEC,  H8_DOWN,   H8_WORD, H8_BY_1,       "",   "rd"},
    {"DEC.W #2,Rd",            "1B D[rd]",                     "I1",       2, H8_INCDEC,  H8_DOWN,   H8_WORD, H8_BY_2,       "",   "rd"},
    {"DEC.L #1,ERd",           "1B 7[ed]",                     "I1",       2, H8_INCDEC,  H8_DOWN,   H8_LONG, H8_BY_1,       "",   "ed"},
    {"DEC.L #2,ERd",           "1B F[ed]",                     "I1",       2, H8_INCDEC,  H8_DOWN,   H8_LONG, H8_BY_2,       "",   "ed"},
    {"DAA Rd",                 "0F 0[rd]",                     "I1",       2, H8_DECIMAL, H8_UP,     0,       0,             "",   "rd"},
    {"DAS Rd",                 "1F 0[rd]",                     "I1",       2, H8_DECIMAL, H8_DOWN,   0,       0,             "",   "rd"},
    {"SHLL.B Rd",              "10 0[rd]",                     "I1",       2, H8_SHIFT,   H8_SHLL,   H8_BYTE, 0,             "",   "rd"},
    {"SHLL.W Rd",              "10 1[rd]",                     "I1",       2, H8_SHIFT,   H8_SHLL,   H8_WORD, 0,             "",   "rd"},
    {"SHLL.L ERd",             "10 3[ed]",                     "I1",       2, H8_SHIFT,   H8_SHLL,   H8_LONG, 0,             "",   "ed"},
    {"SHLR.B Rd",              "11 0[rd]",                     "I1",       2, H8_SHIFT,   H8_SHLR,   H8_BYTE, 0,             "",   "rd"},
    {"SHLR.W Rd",              "11 1[rd]",                     "I1",       2, H8_SHIFT,   H8_SHLR,   H8_WORD, 0,             "",   "rd"},
    {"SHLR.L ERd",             "11 3[ed]",                     "I1",       2, H8_SHIFT,   H8_SHLR,   H8_LONG, 0,             "",   "ed"},
    {"ROTXL.B Rd",             "12 0[rd]",                     "I1",       2, H8_SHIFT,   H8_ROTXL,  H8_BYTE, 0,             "",   "rd"},
    {"ROTXL.W Rd",             "12 1[rd]",                     "I1",       2, H8_SHIFT,   H8_ROTXL,  H8_WORD, 0,             "",   "rd"},
    {"ROTXL.L ERd",            "12 3[ed]",                     "I1",       2, H8_SHIFT,   H8_ROTXL,  H8_LONG, 0,             "",   "ed"},
    {"ROTXR.B Rd",             "13 0[rd]",                     "I1",       2, H8_SHIFT,   H8_ROTXR,  H8_BYTE, 0,             "",   "rd"},
    {"ROTXR.W Rd",             "13 1[rd]",                     "I1",       2, H8_SHIFT,   H8_ROTXR,  H8_WORD, 0,             "",   "rd"},
    {"ROTXR.L ERd",            "13 3[ed]",                     "I1",       2, H8_SHIFT,   H8_ROTXR,  H8_LONG, 0,             "",   "ed"},
    {"SHAL.B Rd",              "10 8[rd]",                     "I1",       2, H8_SHIFT,   H8_SHAL,   H8_BYTE, 0,             "",   "rd"},
    {"SHAL.W Rd",              "10 9[rd]",                     "I1",       2, H8_SHIFT,   H8_SHAL,   H8_WORD, 0,             "",   "rd"},
    {"SHAL.L ERd",             "10 B[ed]",                     "I1",       2, H8_SHIFT,   H8_SHAL,   H8_LONG, 0,             "",   "ed"},
    {"SHAR.B Rd",              "11 8[rd]",                     "I1",       2, H8_SHIFT,   H8_SHAR,   H8_BYTE, 0,             "",   "rd"},
    {"SHAR.W Rd",              "11 9[rd]",                     "I1",       2, H8_SHIFT,   H8_SHAR,   H8_WORD, 0,             "",   "rd"},
    {"SHAR.L ERd",             "11 B[ed]",                     "I1",       2, H8_SHIFT,   H8_SHAR,   H8_LONG, 0,             "",   "ed"},
    {"ROTL.B Rd",              "12 8[rd]",                     "I1",       2, H8_SHIFT,   H8_ROTL,   H8_BYTE, 0,             "",   "rd"},
    {"ROTL.W Rd",              "12 9[rd]",                     "I1",       2, H8_SHIFT,   H8_ROTL,   H8_WORD, 0,             "",   "rd"},
    {"ROTL.L ERd",             "12 B[ed]",                     "I1",       2, H8_SHIFT,   H8_ROTL,   H8_LONG, 0,             "",   "ed"},
    {"ROTR.B Rd",              "13 8[rd]",                     "I1",       2, H8_SHIFT,   H8_ROTR,   H8_BYTE, 0,             "",   "rd"},
    {"ROTR.W Rd",              "13 9[rd]",                     "I1",       2, H8_SHIFT,   H8_ROTR,   H8_WORD, 0,             "",   "rd"},
    {"ROTR.L ERd",             "13 B[ed]",                     "I1",       2, H8_SHIFT,   H8_ROTR,   H8_LONG, 0,             "",   "ed"},
    {"NOT.B Rd",               "17 0[rd]",                     "I1",       2, H8_UNARY,   H8_NOT,    H8_BYTE, 0,             "",   "rd"},
    {"NOT.W Rd",               "17 1[rd]",                     "I1",       2, H8_UNARY,   H8_NOT,    H8_WORD, 0,             "",   "rd"},
    {"NOT.L ERd",              "17 3[ed]",                     "I1",       2, H8_UNARY,   H8_NOT,    H8_LONG, 0,             "",   "ed"},
    {"NEG.B Rd",               "17 8[rd]",                     "I1",       2, H8_UNARY,   H8_NEG,    H8_BYTE, 0,             "",   "rd"},
    {"NEG.W Rd",               "17 9[rd]",                     "I1",       2, H8_UNARY,   H8_NEG,    H8_WORD, 0,             "",   "rd"},
    {"NEG.L ERd",              "17 B[ed]",                     "I1",       2, H8_UNARY,   H8_NEG,    H8_LONG, 0,             "",   "ed"},
    {"EXTU.W Rd",              "17 5[rd]",                     "I1",       2, H8_UNARY,   H8_EXTU,   H8_WORD, 0,             "",   "rd"},
    {"EXTU.L ERd",             "17 7[ed]",                     "I1",       2, H8_UNARY,   H8_EXTU,   H8_LONG, 0,             "",   "ed"},
    {"EXTS.W Rd",              "17 D[rd]",                     "I1",       2, H8_UNARY,   H8_EXTS,   H8_WORD, 0,             "",   "rd"},
    {"EXTS.L ERd",             "17 F[ed]",                     "I1",       2, H8_UNARY,   H8_EXTS,   H8_LONG, 0,             "",   "ed"},
    {"MULXU.B Rs,Rd",          "50 [rs][rd]",                  "I1 N12",   14, H8_MULTIPLY, H8_UNSIGNED, H8_BYTE, 0,             "rs", "rd"},
    {"MULXU.W Rs,ERd",         "52 [rs][ed]",                  "I1 N20",   22, H8_MULTIPLY, H8_UNSIGNED, H8_WORD, 0,             "rs", "ed"},
    {"DIVXU.B Rs,Rd",          "51 [rs][rd]",                  "I1 N12",   14, H8_DIVIDE,  H8_UNSIGNED, H8_BYTE, 0,             "rs", "rd"},
    {"DIVXU.W Rs,ERd",         "53 [rs][ed]",                  "I1 N20",   22, H8_DIVIDE,  H8_UNSIGNED, H8_WORD, 0,             "rs", "ed"},
    {"MULXS.B Rs,Rd",          "01 C0 50 [rs][rd]",            "I2 N12",   16, H8_MULTIPLY, H8_SIGNED,   H8_BYTE, 0,             "rs", "rd"},
    {"MULXS.W Rs,ERd",         "01 C0 52 [rs][ed]",            "I2 N20",   24, H8_MULTIPLY, H8_SIGNED,   H8_WORD, 0,             "rs", "ed"},
    {"DIVXS.B Rs,Rd",          "01 D0 51 [rs][rd]",            "I2 N12",   16, H8_DIVIDE,  H8_SIGNED,   H8_BYTE, 0,             "rs", "rd"},
    {"DIVXS.W Rs,ERd",         "01 D0 53 [rs][ed]",            "I2 N20",   24, H8_DIVIDE,  H8_SIGNED,   H8_WORD, 0,             "rs", "ed"},
    {"ADD.B #xx:8,Rd",         "8[rd] [imm8]",                 "I1",       2, H8_ALU,     H8_ADD,    H8_BYTE, H8_SOURCE_IMM, "",   "rd"},
    {"ADDX #xx:8,Rd",          "9[rd] [imm8]",                 "I1",       2, H8_ALU,     H8_ADDX,   H8_BYTE, H8_SOURCE_IMM, "",   "rd"},
    {"CMP.B #xx:8,Rd",         "A[rd] [imm8]",                 "I1",       2, H8_ALU,     H8_CMP,    H8_BYTE, H8_SOURCE_IMM, "",   "rd"},
    {"SUBX #xx:8,Rd",          "B[rd] [imm8]",                 "I1",       2, H8_ALU,     H8_SUBX,   H8_BYTE, H8_SOURCE_IMM, "",   "rd"},
    {"OR.B #xx:8,Rd",          "C[rd] [imm8]",                 "I1",       2, H8_ALU,     H8_OR,     H8_BYTE, H8_SOURCE_IMM, "",   "rd"},
    {"XOR.B #xx:8,Rd",         "D[rd] [imm8]",                 "I1",       2, H8_ALU,     H8_XOR,    H8_BYTE, H8_SOURCE_IMM, "",   "rd"},
    {"AND.B #xx:8,Rd",         "E[rd] [imm8]",                 "I1",       2, H8_ALU,     H8_AND,    H8_BYTE, H8_SOURCE_IMM, "",   "rd"},
    {"MOV.B #xx:8,Rd",         "F[rd] [imm8]",                 "I1",       2, H8_ALU,     H8_MOV,    H8_BYTE, H8_SOURCE_IMM, "",   "rd"},
    {"MOV.W #xx:16,Rd",        "79 0[rd] [imm16]",             "I2",       4, H8_ALU,     H8_MOV,    H8_WORD, H8_SOURCE_IMM, "",   "rd"},
    {"ADD.W #xx:16,Rd",        "79 1[rd] [imm16]",             "I2",       4, H8_ALU,     H8_ADD,    H8_WORD, H8_SOURCE_IMM, "",   "rd"},
    {"CMP.W #xx:16,Rd",        "79 2[rd] [imm16]",             "I2",       4, H8_ALU,     H8_CMP,    H8_WORD, H8_SOURCE_IMM, "",   "rd"},
    {"SUB.W #xx:16,Rd",        "79 3[rd] [imm16]",             "I2",       4, H8_ALU,     H8_SUB,    H8_WORD, H8_SOURCE_IMM, "",   "rd"},
    {"OR.W #xx:16,Rd",         "79 4[rd] [imm16]",             "I2",       4, H8_ALU,     H8_OR,     H8_WORD, H8_SOURCE_IMM, "",   "rd"},
    {"XOR.W #xx:16,Rd",        "79 5[rd] [imm16]",             "I2",       4, H8_ALU,     H8_XOR,    H8_WORD, H8_SOURCE_IMM, "",   "rd"},
    {"AND.W #xx:16,Rd",        "79 6[rd] [imm16]",             "I2",       4, H8_ALU,     H8_AND,    H8_WORD, H8_SOURCE_IMM, "",   "rd"},
    {"MOV.L #xx:32,ERd",       "7A 0[ed] [imm32]",             "I3",       6, H8_ALU,     H8_MOV,    H8_LONG, H8_SOURCE_IMM, "",   "ed"},
    {"ADD.L #xx:32,ERd",       "7A 1[ed] [imm32]",             "I3",       6, H8_ALU,     H8_ADD,    H8_LONG, H8_SOURCE_IMM, "",   "ed"},
    {"CMP.L #xx:32,ERd",       "7A 2[ed] [imm32]",             "I3",       6, H8_ALU,     H8_CMP,    H8_LONG, H8_SOURCE_IMM, "",   "ed"},
    {"SUB.L #xx:32,ERd",       "7A 3[ed] [imm32]",             "I3",       6, H8_ALU,     H8_SUB,    H8_LONG, H8_SOURCE_IMM, "",   "ed"},
    {"OR.L #xx:32,ERd",        "7A 4[ed] [imm32]",             "I3",       6, H8_ALU,     H8_OR,     H8_LONG, H8_SOURCE_IMM, "",   "ed"},
    {"XOR.L #xx:32,ERd",       "7A 5[ed] [imm32]",             "I3",       6, H8_ALU,     H8_XOR,    H8_LONG, H8_SOURCE_IMM, "",   "ed"},
    {"AND.L #xx:32,ERd",       "7A 6[ed] [imm32]",             "I3",       6, H8_ALU,     H8_AND,    H8_LONG, H8_SOURCE_IMM, "",   "ed"},
    {"MOV.B @ERs,Rd",          "68 [es][rd]",                  "I1 L1",    4, H8_MOVE,    H8_LOAD,   H8_BYTE, H8_AT,         "es", "rd"},
    {"MOV.B @(d:16,ERs),Rd",   "6E [es][rd] [d16]",            "I2 L1",    6, H8_MOVE,    H8_LOAD,   H8_BYTE, H8_DISP,       "es", "rd"},
    {"MOV.B @ERs+,Rd",         "6C [es][rd]",                  "I1 L1 N2",  6, H8_MOVE,    H8_LOAD,   H8_BYTE, H8_STEP,       "es", "rd"},
    {"MOV.B @aa:8,Rd",         "2[rd] [aa8]",                  "I1 L1",    4, H8_MOVE,    H8_LOAD,   H8_BYTE, H8_ABS8,       "",   "rd"},
    {"MOV.B @aa:16,Rd",        "6A 0[rd] [aa16]",              "I2 L1",    6, H8_MOVE,    H8_LOAD,   H8_BYTE, H8_ABS16,      "",   "rd"},
    {"MOV.B @aa:24,Rd",        "6A 2[rd] 00 [aa24]",           "I3 L1",    8, H8_MOVE,    H8_LOAD,   H8_BYTE, H8_ABS24,      "",   "rd"},
    {"MOV.W @ERs,Rd",          "69 [es][rd]",                  "I1 M1",    4, H8_MOVE,    H8_LOAD,   H8_WORD, H8_AT,         "es", "rd"},
    {"MOV.W @(d:16,ERs),Rd",   "6F [es][rd] [d16]",            "I2 M1",    6, H8_MOVE,    H8_LOAD,   H8_WORD, H8_DISP,       "es", "rd"},
    {"MOV.W @ERs+,Rd",         "6D [es][rd]",                  "I1 M1 N2",  6, H8_MOVE,    H8_LOAD,   H8_WORD, H8_STEP,       "es", "rd"},
    {"MOV.W @aa:16,Rd",        "6B 0[rd] [aa16]",              "I2 M1",    6, H8_MOVE,    H8_LOAD,   H8_WORD, H8_ABS16,      "",   "rd"},
    {"MOV.W @aa:24,Rd",        "6B 2[rd] 00 [aa24]",           "I3 M1",    8, H8_MOVE,    H8_LOAD,   H8_WORD, H8_ABS24,      "",   "rd"},
    {"MOV.L @ERs,ERd",         "01 00 69 [es][ed]",            "I2 M2",    8, H8_MOVE,    H8_LOAD,   H8_LONG, H8_AT,         "es", "ed"},
    {"MOV.L @(d:16,ERs),ERd",  "01 00 6F [es][ed] [d16]",      "I3 M2",   10, H8_MOVE,    H8_LOAD,   H8_LONG, H8_DISP,       "es", "ed"},
    {"MOV.L @ERs+,ERd",        "01 00 6D [es][ed]",            "I2 M2 N2", 10, H8_MOVE,    H8_LOAD,   H8_LONG, H8_STEP,       "es", "ed"},
    {"MOV.L @aa:16,ERd",       "01 00 6B 0[ed] [aa16]",        "I3 M2",   10, H8_MOVE,    H8_LOAD,   H8_LONG, H8_ABS16,      "",   "ed"},
    {"MOV.L @aa:24,ERd",       "01 00 6B 2[ed] 00 [aa24]",     "I4 M2",   12, H8_MOVE,    H8_LOAD,   H8_LONG, H8_ABS24,      "",   "ed"},
    {"MOV.B Rs,@ERd",          "68 [8+ed][rs]",                "I1 L1",    4, H8_MOVE,    H8_STORE,  H8_BYTE, H8_AT,         "ed", "rs"},
    {"MOV.B Rs,@(d:16,ERd)",   "6E [8+ed][rs] [d16]",          "I2 L1",    6, H8_MOVE,    H8_STORE,  H8_BYTE, H8_DISP,       "ed", "rs"},
    {"MOV.B Rs,@-ERd",         "6C [8+ed][rs]",                "I1 L1 N2",  6, H8_MOVE,    H8_STORE,  H8_BYTE, H8_STEP,       "ed", "rs"},
    {"MOV.B Rs,@aa:8",         "3[rs] [aa8]",                  "I1 L1",    4, H8_MOVE,    H8_STORE,  H8_BYTE, H8_ABS8,       "",   "rs"},
    {"MOV.B Rs,@aa:16",        "6A 8[rs] [aa16]",              "I2 L1",    6, H8_MOVE,    H8_STORE,  H8_BYTE, H8_ABS16,      "",   "rs"},
    {"MOV.B Rs,@aa:24",        "6A A[rs] 00 [aa24]",           "I3 L1",    8, H8_MOVE,    H8_STORE,  H8_BYTE, H8_ABS24,      "",   "rs"},
    {"MOV.W Rs,@ERd",          "69 [8+ed][rs]",                "I1 M1",    4, H8_MOVE,    H8_STORE,  H8_WORD, H8_AT,         "ed", "rs"},
    {"MOV.W Rs,@(d:16,ERd)",   "6F [8+ed][rs] [d16]",          "I2 M1",    6, H8_MOVE,    H8_STORE,  H8_WORD, H8_DISP,       "ed", "rs"},
    {"MOV.W Rs,@-ERd",         "6D [8+ed][rs]",                "I1 M1 N2",  6, H8_MOVE,    H8_STORE,  H8_WORD, H8_STEP,       "ed", "rs"},
    {"MOV.W Rs,@aa:16",        "6B 8[rs] [aa16]",              "I2 M1",    6, H8_MOVE,    H8_STORE,  H8_WORD, H8_ABS16,      "",   "rs"},
    {"MOV.W Rs,@aa:24",        "6B A[rs] 00 [aa24]",           "I3 M1",    8, H8_MOVE,    H8_STORE,  H8_WORD, H8_ABS24,      "",   "rs"},
    {"MOV.L ERs,@ERd",         "01 00 69 [8+ed][es]",          "I2 M2",    8, H8_MOVE,    H8_STORE,  H8_LONG, H8_AT,         "ed", "es"},
    {"MOV.L ERs,@(d:16,ERd)",  "01 00 6F [8+ed][es] [d16]",    "I3 M2",   10, H8_MOVE,    H8_STORE,  H8_LONG, H8_DISP,       "ed", "es"},
    {"MOV.L ERs,@-ERd",        "01 00 6D [8+ed][es]",          "I2 M2 N2", 10, H8_MOVE,    H8_STORE,  H8_LONG, H8_STEP,       "ed", "es"},
    {"MOV.L ERs,@aa:16",       "01 00 6B 8[es] [aa16]",        "I3 M2",   10, H8_MOVE,    H8_STORE,  H8_LONG, H8_ABS16,      "",   "es"},
    {"MOV.L ERs,@aa:24",       "01 00 6B A[es] 00 [aa24]",     "I4 M2",   12, H8_MOVE,    H8_STORE,  H8_LONG, H8_ABS24,      "",   "es"},
    {"BAND #xx:3,Rd",          "76 [bn][rd]",                  "I1",       2, H8_TAKE,    H8_BAND,   H8_BIT_NUMBER, H8_SPOT_REG,  "bn", "rd"},
    {"BAND #xx:3,@ERd",        "7C [ed]0 76 [bn]0",            "I2 L1",    6, H8_TAKE,    H8_BAND,   H8_BIT_NUMBER, H8_SPOT_AT,   "bn", "ed"},
    {"BAND #xx:3,@aa:8",       "7E [aa8] 76 [bn]0",            "I2 L1",    6, H8_TAKE,    H8_BAND,   H8_BIT_NUMBER, H8_SPOT_ABS8, "bn", ""},
    {"BCLR #xx:3,Rd",          "72 [bn][rd]",                  "I1",       2, H8_GIVE,    H8_BCLR,   H8_BIT_NUMBER, H8_SPOT_REG,  "bn", "rd"},
    {"BCLR #xx:3,@ERd",        "7D [ed]0 72 [bn]0",            "I2 L2",    8, H8_GIVE,    H8_BCLR,   H8_BIT_NUMBER, H8_SPOT_AT,   "bn", "ed"},
    {"BCLR #xx:3,@aa:8",       "7F [aa8] 72 [bn]0",            "I2 L2",    8, H8_GIVE,    H8_BCLR,   H8_BIT_NUMBER, H8_SPOT_ABS8, "bn", ""},
    {"BCLR Rn,Rd",             "62 [rn][rd]",                  "I1",       2, H8_GIVE,    H8_BCLR,   H8_BIT_BY_REG, H8_SPOT_REG,  "rn", "rd"},
    {"BCLR Rn,@ERd",           "7D [ed]0 62 [rn]0",            "I2 L2",    8, H8_GIVE,    H8_BCLR,   H8_BIT_BY_REG, H8_SPOT_AT,   "rn", "ed"},
    {"BCLR Rn,@aa:8",          "7F [aa8] 62 [rn]0",            "I2 L2",    8, H8_GIVE,    H8_BCLR,   H8_BIT_BY_REG, H8_SPOT_ABS8, "rn", ""},
    {"BIAND #xx:3,Rd",         "76 [8+bn][rd]",                "I1",       2, H8_TAKE,    H8_BIAND,  H8_BIT_NUMBER, H8_SPOT_REG,  "bn", "rd"},
    {"BIAND #xx:3,@ERd",       "7C [ed]0 76 [8+bn]0",          "I2 L1",    6, H8_TAKE,    H8_BIAND,  H8_BIT_NUMBER, H8_SPOT_AT,   "bn", "ed"},
    {"BIAND #xx:3,@aa:8",      "7E [aa8] 76 [8+bn]0",          "I2 L1",    6, H8_TAKE,    H8_BIAND,  H8_BIT_NUMBER, H8_SPOT_ABS8, "bn", ""},
    {"BILD #xx:3,Rd",          "77 [8+bn][rd]",                "I1",       2, H8_TAKE,    H8_BILD,   H8_BIT_NUMBER, H8_SPOT_REG,  "bn", "rd"},
    {"BILD #xx:3,@ERd",        "7C [ed]0 77 [8+bn]0",          "I2 L1",    6, H8_TAKE,    H8_BILD,   H8_BIT_NUMBER, H8_SPOT_AT,   "bn", "ed"},
    {"BILD #xx:3,@aa:8",       "7E [aa8] 77 [8+bn]0",          "I2 L1",    6, H8_TAKE,    H8_BILD,   H8_BIT_NUMBER, H8_SPOT_ABS8, "bn", ""},
    {"BIOR #xx:3,Rd",          "74 [8+bn][rd]",                "I1",       2, H8_TAKE,    H8_BIOR,   H8_BIT_NUMBER, H8_SPOT_REG,  "bn", "rd"},
    {"BIOR #xx:3,@ERd",        "7C [ed]0 74 [8+bn]0",          "I2 L1",    6, H8_TAKE,    H8_BIOR,   H8_BIT_NUMBER, H8_SPOT_AT,   "bn", "ed"},
    {"BIOR #xx:3,@aa:8",       "7E [aa8] 74 [8+bn]0",          "I2 L1",    6, H8_TAKE,    H8_BIOR,   H8_BIT_NUMBER, H8_SPOT_ABS8, "bn", ""},
    {"BIST #xx:3,Rd",          "67 [8+bn][rd]",                "I1",       2, H8_GIVE,    H8_BIST,   H8_BIT_NUMBER, H8_SPOT_REG,  "bn", "rd"},
    {"BIST #xx:3,@ERd",        "7D [ed]0 67 [8+bn]0",          "I2 L2",    8, H8_GIVE,    H8_BIST,   H8_BIT_NUMBER, H8_SPOT_AT,   "bn", "ed"},
    {"BIST #xx:3,@aa:8",       "7F [aa8] 67 [8+bn]0",          "I2 L2",    8, H8_GIVE,    H8_BIST,   H8_BIT_NUMBER, H8_SPOT_ABS8, "bn", ""},
    {"BIXOR #xx:3,Rd",         "75 [8+bn][rd]",                "I1",       2, H8_TAKE,    H8_BIXOR,  H8_BIT_NUMBER, H8_SPOT_REG,  "bn", "rd"},
    {"BIXOR #xx:3,@ERd",       "7C [ed]0 75 [8+bn]0",          "I2 L1",    6, H8_TAKE,    H8_BIXOR,  H8_BIT_NUMBER, H8_SPOT_AT,   "bn", "ed"},
    {"BIXOR #xx:3,@aa:8",      "7E [aa8] 75 [8+bn]0",          "I2 L1",    6, H8_TAKE,    H8_BIXOR,  H8_BIT_NUMBER, H8_SPOT_ABS8, "bn", ""},
    {"BLD #xx:3,Rd",           "77 [bn][rd]",                  "I1",       2, H8_TAKE,    H8_BLD,    H8_BIT_NUMBER, H8_SPOT_REG,  "bn", "rd"},
    {"BLD #xx:3,@ERd",         "7C [ed]0 77 [bn]0",            "I2 L1",    6, H8_TAKE,    H8_BLD,    H8_BIT_NUMBER, H8_SPOT_AT,   "bn", "ed"},
    {"BLD #xx:3,@aa:8",        "7E [aa8] 77 [bn]0",            "I2 L1",    6, H8_TAKE,    H8_BLD,    H8_BIT_NUMBER, H8_SPOT_ABS8, "bn", ""},
    {"BNOT #xx:3,Rd",          "71 [bn][rd]",                  "I1",       2, H8_GIVE,    H8_BNOT,   H8_BIT_NUMBER, H8_SPOT_REG,  "bn", "rd"},
    {"BNOT #xx:3,@ERd",        "7D [ed]0 71 [bn]0",            "I2 L2",    8, H8_GIVE,    H8_BNOT,   H8_BIT_NUMBER, H8_SPOT_AT,   "bn", "ed"},
    {"BNOT #xx:3,@aa:8",       "7F [aa8] 71 [bn]0",            "I2 L2",    8, H8_GIVE,    H8_BNOT,   H8_BIT_NUMBER, H8_SPOT_ABS8, "bn", ""},
    {"BNOT Rn,Rd",             "61 [rn][rd]",                  "I1",       2, H8_GIVE,    H8_BNOT,   H8_BIT_BY_REG, H8_SPOT_REG,  "rn", "rd"},
    {"BNOT Rn,@ERd",           "7D [ed]0 61 [rn]0",            "I2 L2",    8, H8_GIVE,    H8_BNOT,   H8_BIT_BY_REG, H8_SPOT_AT,   "rn", "ed"},
    {"BNOT Rn,@aa:8",          "7F [aa8] 61 [rn]0",            "I2 L2",    8, H8_GIVE,    H8_BNOT,   H8_BIT_BY_REG, H8_SPOT_ABS8, "rn", ""},
    {"BOR #xx:3,Rd",           "74 [bn][rd]",                  "I1",       2, H8_TAKE,    H8_BOR,    H8_BIT_NUMBER, H8_SPOT_REG,  "bn", "rd"},
    {"BOR #xx:3,@ERd",         "7C [ed]0 74 [bn]0",            "I2 L1",    6, H8_TAKE,    H8_BOR,    H8_BIT_NUMBER, H8_SPOT_AT,   "bn", "ed"},
    {"BOR #xx:3,@aa:8",        "7E [aa8] 74 [bn]0",            "I2 L1",    6, H8_TAKE,    H8_BOR,    H8_BIT_NUMBER, H8_SPOT_ABS8, "bn", ""},
    {"BSET #xx:3,Rd",          "70 [bn][rd]",                  "I1",       2, H8_GIVE,    H8_BSET,   H8_BIT_NUMBER, H8_SPOT_REG,  "bn", "rd"},
    {"BSET #xx:3,@ERd",        "7D [ed]0 70 [bn]0",            "I2 L2",    8, H8_GIVE,    H8_BSET,   H8_BIT_NUMBER, H8_SPOT_AT,   "bn", "ed"},
    {"BSET #xx:3,@aa:8",       "7F [aa8] 70 [bn]0",            "I2 L2",    8, H8_GIVE,    H8_BSET,   H8_BIT_NUMBER, H8_SPOT_ABS8, "bn", ""},
    {"BSET Rn,Rd",             "60 [rn][rd]",                  "I1",       2, H8_GIVE,    H8_BSET,   H8_BIT_BY_REG, H8_SPOT_REG,  "rn", "rd"},
    {"BSET Rn,@ERd",           "7D [ed]0 60 [rn]0",            "I2 L2",    8, H8_GIVE,    H8_BSET,   H8_BIT_BY_REG, H8_SPOT_AT,   "rn", "ed"},
    {"BSET Rn,@aa:8",          "7F [aa8] 60 [rn]0",            "I2 L2",    8, H8_GIVE,    H8_BSET,   H8_BIT_BY_REG, H8_SPOT_ABS8, "rn", ""},
    {"BST #xx:3,Rd",           "67 [bn][rd]",                  "I1",       2, H8_GIVE,    H8_BST,    H8_BIT_NUMBER, H8_SPOT_REG,  "bn", "rd"},
    {"BST #xx:3,@ERd",         "7D [ed]0 67 [bn]0",            "I2 L2",    8, H8_GIVE,    H8_BST,    H8_BIT_NUMBER, H8_SPOT_AT,   "bn", "ed"},
    {"BST #xx:3,@aa:8",        "7F [aa8] 67 [bn]0",            "I2 L2",    8, H8_GIVE,    H8_BST,    H8_BIT_NUMBER, H8_SPOT_ABS8, "bn", ""},
    {"BTST #xx:3,Rd",          "73 [bn][rd]",                  "I1",       2, H8_TAKE,    H8_BTST,   H8_BIT_NUMBER, H8_SPOT_REG,  "bn", "rd"},
    {"BTST #xx:3,@ERd",        "7C [ed]0 73 [bn]0",            "I2 L1",    6, H8_TAKE,    H8_BTST,   H8_BIT_NUMBER, H8_SPOT_AT,   "bn", "ed"},
    {"BTST #xx:3,@aa:8",       "7E [aa8] 73 [bn]0",            "I2 L1",    6, H8_TAKE,    H8_BTST,   H8_BIT_NUMBER, H8_SPOT_ABS8, "bn", ""},
    {"BTST Rn,Rd",             "63 [rn][rd]",                  "I1",       2, H8_TAKE,    H8_BTST,   H8_BIT_BY_REG, H8_SPOT_REG,  "rn", "rd"},
    {"BTST Rn,@ERd",           "7C [ed]0 63 [rn]0",            "I2 L1",    6, H8_TAKE,    H8_BTST,   H8_BIT_BY_REG, H8_SPOT_AT,   "rn", "ed"},
    {"BTST Rn,@aa:8",          "7E [aa8] 63 [rn]0",            "I2 L1",    6, H8_TAKE,    H8_BTST,   H8_BIT_BY_REG, H8_SPOT_ABS8, "rn", ""},
    {"BXOR #xx:3,Rd",          "75 [bn][rd]",                  "I1",       2, H8_TAKE,    H8_BXOR,   H8_BIT_NUMBER, H8_SPOT_REG,  "bn", "rd"},
    {"BXOR #xx:3,@ERd",        "7C [ed]0 75 [bn]0",            "I2 L1",    6, H8_TAKE,    H8_BXOR,   H8_BIT_NUMBER, H8_SPOT_AT,   "bn", "ed"},
    {"BXOR #xx:3,@aa:8",       "7E [aa8] 75 [bn]0",            "I2 L1",    6, H8_TAKE,    H8_BXOR,   H8_BIT_NUMBER, H8_SPOT_ABS8, "bn", ""},
    {"BRA d:8",                "40 [d8]",                      "I2",       4, H8_BCC,     0,         0,       H8_NEAR,       "",   ""},
    {"BRA d:16",               "58 00 [d16]",                  "I2 N2",    6, H8_BCC,     0,         0,       H8_FAR,        "",   ""},
    {"BRN d:8",                "41 [d8]",                      "I2",       4, H8_BCC,     1,         0,       H8_NEAR,       "",   ""},
    {"BRN d:16",               "58 10 [d16]",                  "I2 N2",    6, H8_BCC,     1,         0,       H8_FAR,        "",   ""},
    {"BHI d:8",                "42 [d8]",                      "I2",       4, H8_BCC,     2,         0,       H8_NEAR,       "",   ""},
    {"BHI d:16",               "58 20 [d16]",                  "I2 N2",    6, H8_BCC,     2,         0,       H8_FAR,        "",   ""},
    {"BLS d:8",                "43 [d8]",                      "I2",       4, H8_BCC,     3,         0,       H8_NEAR,       "",   ""},
    {"BLS d:16",               "58 30 [d16]",                  "I2 N2",    6, H8_BCC,     3,         0,       H8_FAR,        "",   ""},
    {"BCC d:8",                "44 [d8]",                      "I2",       4, H8_BCC,     4,         0,       H8_NEAR,       "",   ""},
    {"BCC d:16",               "58 40 [d16]",                  "I2 N2",    6, H8_BCC,     4,         0,       H8_FAR,        "",   ""},
    {"BCS d:8",                "45 [d8]",                      "I2",       4, H8_BCC,     5,         0,       H8_NEAR,       "",   ""},
    {"BCS d:16",               "58 50 [d16]",                  "I2 N2",    6, H8_BCC,     5,         0,       H8_FAR,        "",   ""},
    {"BNE d:8",                "46 [d8]",                      "I2",       4, H8_BCC,     6,         0,       H8_NEAR,       "",   ""},
    {"BNE d:16",               "58 60 [d16]",                  "I2 N2",    6, H8_BCC,     6,         0,       H8_FAR,        "",   ""},
    {"BEQ d:8",                "47 [d8]",                      "I2",       4, H8_BCC,     7,         0,       H8_NEAR,       "",   ""},
    {"BEQ d:16",               "58 70 [d16]",                  "I2 N2",    6, H8_BCC,     7,         0,       H8_FAR,        "",   ""},
    {"BVC d:8",                "48 [d8]",                      "I2",       4, H8_BCC,     8,         0,       H8_NEAR,       "",   ""},
    {"BVC d:16",               "58 80 [d16]",                  "I2 N2",    6, H8_BCC,     8,         0,       H8_FAR,        "",   ""},
    {"BVS d:8",                "49 [d8]",                      "I2",       4, H8_BCC,     9,         0,       H8_NEAR,       "",   ""},
    {"BVS d:16",               "58 90 [d16]",                  "I2 N2",    6, H8_BCC,     9,         0,       H8_FAR,        "",   ""},
    {"BPL d:8",                "4A [d8]",                      "I2",       4, H8_BCC,     10,        0,       H8_NEAR,       "",   ""},
    {"BPL d:16",               "58 A0 [d16]",                  "I2 N2",    6, H8_BCC,     10,        0,       H8_FAR,        "",   ""},
    {"BMI d:8",                "4B [d8]",                      "I2",       4, H8_BCC,     11,        0,       H8_NEAR,       "",   ""},
    {"BMI d:16",               "58 B0 [d16]",                  "I2 N2",    6, H8_BCC,     11,        0,       H8_FAR,        "",   ""},
    {"BGE d:8",                "4C [d8]",                      "I2",       4, H8_BCC,     12,        0,       H8_NEAR,       "",   ""},
    {"BGE d:16",               "58 C0 [d16]",                  "I2 N2",    6, H8_BCC,     12,        0,       H8_FAR,        "",   ""},
    {"BLT d:8",                "4D [d8]",                      "I2",       4, H8_BCC,     13,        0,       H8_NEAR,       "",   ""},
    {"BLT d:16",               "58 D0 [d16]",                  "I2 N2",    6, H8_BCC,     13,        0,       H8_FAR,        "",   ""},
    {"BGT d:8",                "4E [d8]",                      "I2",       4, H8_BCC,     14,        0,       H8_NEAR,       "",   ""},
    {"BGT d:16",               "58 E0 [d16]",                  "I2 N2",    6, H8_BCC,     14,        0,       H8_FAR,        "",   ""},
    {"BLE d:8",                "4F [d8]",                      "I2",       4, H8_BCC,     15,        0,       H8_NEAR,       "",   ""},
    {"BLE d:16",               "58 F0 [d16]",                  "I2 N2",    6, H8_BCC,     15,        0,       H8_FAR,        "",   ""},
    {"JMP @ERn",               "59 [en]0",                     "I2",       4, H8_JMP,     0,         0,       H8_BY_REG,     "en", ""},
    {"JMP @aa:24",             "5A [aa24]",                    "I2 N2",    6, H8_JMP,     0,         0,       H8_DIRECT,     "",   ""},
    {"JMP @@aa:8",             "5B [aa8]",                     "I2 J2 N2", 10, H8_JMP,     0,         0,       H8_VECTOR,     "",   ""},
    {"BSR d:8",                "55 [d8]",                      "I2 K2",    8, H8_BSR,     0,         0,       H8_NEAR,       "",   ""},
    {"BSR d:16",               "5C 00 [d16]",                  "I2 K2 N2", 10, H8_BSR,     0,         0,       H8_FAR,        "",   ""},
    {"JSR @ERn",               "5D [en]0",                     "I2 K2",    8, H8_JSR,     0,         0,       H8_BY_REG,     "en", ""},
    {"JSR @aa:24",             "5E [aa24]",                    "I2 K2 N2", 10, H8_JSR,     0,         0,       H8_DIRECT,     "",   ""},
    {"JSR @@aa:8",             "5F [aa8]",                     "I2 J2 K2", 12, H8_JSR,     0,         0,       H8_VECTOR,     "",   ""},
    {"RTS",                    "54 70",                        "I2 K2 N2", 10, H8_RTS,     0,         0,       0,             "",   ""},
};

/* One line for each code that the set leaves out, by its group in document 01. In a pattern [tn] is a digit 0 to 3; all else is
   as above. The 00 before a d:24 or an aa:24 is part of the code. Only of MOV.L the store by d:24 has the top bit of its fourth
   byte set. STC.W CCR,@-ERd is damaged wherever it stands in the manual, and is taken from that of the H8S. */
const struct left_out left_outs[LEFT_OUT] = {
    {3, "MOV.B @(d:24,ERs),Rd",  "78 [es]0 6A 2[rd] 00 [d24]"},
    {3, "MOV.B Rs,@(d:24,ERd)",  "78 [ed]0 6A A[rs] 00 [d24]"},
    {3, "MOV.W @(d:24,ERs),Rd",  "78 [es]0 6B 2[rd] 00 [d24]"},
    {3, "MOV.W Rs,@(d:24,ERd)",  "78 [ed]0 6B A[rs] 00 [d24]"},
    {3, "MOV.L @(d:24,ERs),ERd", "01 00 78 [es]0 6B 2[ed] 00 [d24]"},
    {3, "MOV.L ERs,@(d:24,ERd)", "01 00 78 [8+ed]0 6B A[es] 00 [d24]"},
    {4, "LDC.W @ERs,CCR",        "01 40 69 [es]0"},
    {4, "LDC.W @(d:16,ERs),CCR", "01 40 6F [es]0 [d16]"},
    {4, "LDC.W @(d:24,ERs),CCR", "01 40 78 [es]0 6B 20 00 [d24]"},
    {4, "LDC.W @ERs+,CCR",       "01 40 6D [es]0"},
    {4, "LDC.W @aa:16,CCR",      "01 40 6B 00 [aa16]"},
    {4, "LDC.W @aa:24,CCR",      "01 40 6B 20 00 [aa24]"},
    {4, "STC.W CCR,@ERd",        "01 40 69 [8+ed]0"},
    {4, "STC.W CCR,@(d:16,ERd)", "01 40 6F [8+ed]0 [d16]"},
    {4, "STC.W CCR,@(d:24,ERd)", "01 40 78 [ed]0 6B A0 00 [d24]"},
    {4, "STC.W CCR,@-ERd",       "01 40 6D [8+ed]0"},
    {4, "STC.W CCR,@aa:16",      "01 40 6B 80 [aa16]"},
    {4, "STC.W CCR,@aa:24",      "01 40 6B A0 00 [aa24]"},
    {5, "EEPMOV.B",              "7B 5C 59 8F"},
    {5, "EEPMOV.W",              "7B D4 59 8F"},
    {6, "TRAPA #x:2",            "57 [tn]0"},
    {6, "RTE",                   "56 70"},
    {6, "SLEEP",                 "01 80"},
    {7, "MOVFPE @aa:16,Rd",      "6A 4[rd] [aa16]"},
    {7, "MOVTPE Rs,@aa:16",      "6A C[rs] [aa16]"},
};

/* What a pattern says of the first eight bytes, the first byte uppermost: (bytes & mask) == value. A code of ten bytes ends with
   three of a displacement, which may be any, so there is nothing to say of the last two. */
struct field { char to; uint8_t shift, bits; };         /* to: 'o' other, 'r' reg, 'v' value, 0 none */
struct matcher {
    uint64_t mask, value;
    uint8_t length;
    struct field field[3];
};
static struct matcher matchers[FORMS], left_matchers[LEFT_OUT];
static uint8_t by_first_byte[256][FORMS + 1];           /* forms that may begin with a byte; ends with FORMS */
enum { KINDS = H8_GIVE + 1 };
static int first_of_kind[KINDS + 1], next_of_kind[FORMS];   /* chains of the forms of a kind; end with FORMS */

static int is_hex(char c) { return (c >= '0' && c <= '9') || (c >= 'A' && c <= 'F'); }
static unsigned hex_digit(char c) { return c <= '9' ? (unsigned)(c - '0') : (unsigned)(c - 'A' + 10); }

/* The next four bits are fixed. */
static void fixed_digit(struct matcher *m, int *at, unsigned digit)
{
    m->mask |= (uint64_t)15 << (60 - *at);
    m->value |= (uint64_t)digit << (60 - *at);
    *at += 4;
}

/* The next bits, all but the first `held` of them, are a field. One that goes past the eighth byte is of no instruction. */
static void field_here(struct matcher *m, int *at, char to, int width, int held, unsigned held_value)
{
    struct field *f = m->field;
    while (f->to)
        f++;
    if (held) {
        m->mask |= (((uint64_t)1 << held) - 1) << (64 - held - *at);
        m->value |= (uint64_t)held_value << (64 - held - *at);
    }
    *at += width;
    if (*at > 64)
        return;
    f->to = to;
    f->bits = (uint8_t)(width - held);
    f->shift = (uint8_t)(64 - *at);
}

/* What stands between brackets: a register, a bit's or a trap's number by its name, or a number of so many bits. */
static void bracket(const char *other, struct matcher *m, int *at, const char *text, size_t n)
{
    int eight = n > 2 && text[0] == '8' && text[1] == '+';
    if (eight) {
        text += 2;
        n -= 2;
    }
    if (n == 2 && strchr("rebt", text[0])) {
        char to = strlen(other) == 2 && !memcmp(other, text, 2) ? 'o' : 'r';
        field_here(m, at, to, 4, text[0] == 'r' ? 0 : text[0] == 't' ? 2 : 1, (unsigned)eight);
        return;
    }
    int bits = 0;
    for (size_t i = 0; i < n; i++)
        if (text[i] >= '0' && text[i] <= '9')
            bits = 10 * bits + (text[i] - '0');
    field_here(m, at, 'v', bits, 0, 0);
}

static void read_pattern(const char *pattern, const char *other, struct matcher *m)
{
    int at = 0;
    for (const char *p = pattern; *p; p++) {
        if (is_hex(*p))
            fixed_digit(m, &at, hex_digit(*p));
        if (*p == '[') {
            const char *end = strchr(p, ']');
            bracket(other, m, &at, p + 1, (size_t)(end - p - 1));
            p = end;
        }
    }
    m->length = (uint8_t)(at / 8);
}

void decoder_start(void)
{
    memset(matchers, 0, sizeof matchers);
    memset(left_matchers, 0, sizeof left_matchers);
    for (int i = 0; i < FORMS; i++)
        read_pattern(forms[i].pattern, forms[i].other, &matchers[i]);
    for (int i = 0; i < LEFT_OUT; i++)
        read_pattern(left_outs[i].pattern, "", &left_matchers[i]);
    for (unsigned b = 0; b < 256; b++) {
        int k = 0;
        for (int i = 0; i < FORMS; i++)
            if (((((uint64_t)b << 56) ^ matchers[i].value) & matchers[i].mask) >> 56 == 0)
                by_first_byte[b][k++] = (uint8_t)i;
        by_first_byte[b][k] = FORMS;
    }
    for (int k = 0; k <= KINDS; k++)
        first_of_kind[k] = FORMS;
    for (int i = FORMS - 1; i >= 0; i--) {
        next_of_kind[i] = first_of_kind[forms[i].kind];
        first_of_kind[forms[i].kind] = i;
    }
}

int decoder_length(int form) { return matchers[form].length; }

static int bits_of(int form, char to)
{
    for (int i = 0; i < 3; i++)
        if (matchers[form].field[i].to == to)
            return matchers[form].field[i].bits;
    return 0;
}
int decoder_value_bits(int form) { return bits_of(form, 'v'); }
int decoder_other_top(int form) { return bits_of(form, 'o') ? 1 << bits_of(form, 'o') : 0; }
int decoder_reg_top(int form) { return bits_of(form, 'r') ? 1 << bits_of(form, 'r') : 0; }

static int slot_of(char to) { return to == 'o' ? H8_OTHER : to == 'v' ? H8_VALUE : H8_REG; }

static void take_fields(int i, uint64_t bytes, struct decoded *out)
{
    memset(out->fields, 0, sizeof out->fields);
    out->form = i;
    out->fields[H8_KIND] = forms[i].kind;
    out->fields[H8_WHICH] = forms[i].which;
    out->fields[H8_WIDTH] = forms[i].width;
    out->fields[H8_FORM] = forms[i].form;
    out->fields[H8_LENGTH] = matchers[i].length;
    out->fields[H8_STATES] = forms[i].states;
    for (const struct field *f = matchers[i].field; f < matchers[i].field + 3 && f->to; f++)
        out->fields[slot_of(f->to)] = (uint32_t)((bytes >> f->shift) & (((uint64_t)1 << f->bits) - 1));
}

int left_out_length(int code) { return left_matchers[code].length; }

void build_left_out(int code, uint64_t operands, uint8_t out[LEFT_OUT_LENGTH])
{
    const struct matcher *m = &left_matchers[code];
    uint64_t w = m->value | (operands & ~m->mask);
    for (int i = 0; i < 8; i++)
        out[i] = (uint8_t)(w >> (56 - 8 * i));
    out[8] = (uint8_t)(operands >> 32 ^ operands);
    out[9] = (uint8_t)(operands >> 40 ^ operands);
}

/* The first eight bytes, or the n there are, agree with the pattern as far as both go. */
static int agree(uint64_t given, size_t n, const struct matcher *m)
{
    return ((given ^ m->value) & m->mask & (n >= 8 ? ~(uint64_t)0 : ~(~(uint64_t)0 >> 8 * n))) == 0;
}

/* Of a left-out code that the bytes begin with, or begin: the lowest group, or 0. */
static int group_of(uint64_t given, size_t n)
{
    int group = 0;
    for (int i = 0; i < LEFT_OUT; i++)
        if (agree(given, n, &left_matchers[i]) && (group == 0 || left_outs[i].group < group))
            group = left_outs[i].group;
    return group;
}

int decode(const uint8_t *bytes, size_t n, struct decoded *out)
{
    uint64_t given = 0;
    int cut = n == 0;
    out->form = -1;
    out->group = 0;
    for (size_t i = 0; i < n && i < 8; i++)
        given |= (uint64_t)bytes[i] << (56 - 8 * i);
    for (const uint8_t *c = by_first_byte[n ? bytes[0] : 0]; n && *c != FORMS; c++) {
        if (!agree(given, n, &matchers[*c]))
            continue;
        if (n >= matchers[*c].length) {
            take_fields(*c, given, out);
            return 0;
        }
        cut = 1;
    }
    if (cut)
        return 4;
    out->group = group_of(given, n);
    return out->group ? 15 : 3;
}

int build(int form, uint32_t other, uint32_t value, uint32_t reg, uint8_t out[8])
{
    uint64_t w = matchers[form].value;
    for (const struct field *f = matchers[form].field; f < matchers[form].field + 3 && f->to; f++) {
        uint64_t v = f->to == 'o' ? other : f->to == 'v' ? value : reg;
        w |= (v & (((uint64_t)1 << f->bits) - 1)) << f->shift;
    }
    for (int i = 0; i < 8; i++)
        out[i] = (uint8_t)(w >> (56 - 8 * i));
    return matchers[form].length;
}

/* Whether v fits the form's field `to`, 0 where there is none. */
static int fits(int form, char to, uint32_t v) { return (uint64_t)v >> bits_of(form, to) == 0; }

int form_of(const uint32_t f[H8_FIELDS])
{
    for (int i = first_of_kind[f[H8_KIND] < KINDS ? f[H8_KIND] : KINDS]; i < FORMS; i = next_of_kind[i])
        if (f[H8_WHICH] == forms[i].which && f[H8_WIDTH] == forms[i].width && f[H8_FORM] == forms[i].form)
            return fits(i, 'o', f[H8_OTHER]) && fits(i, 'v', f[H8_VALUE]) && fits(i, 'r', f[H8_REG]) ? i : -1;
    return -1;
}
