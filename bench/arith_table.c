/* Prints crates/arith_table/stdout. Nothing here adds or subtracts numbers: an operand is a row of bits, sums ripple from bit
   to bit, and the flags are the formulas of section 2.7 of the maker's manual. The decimal rows are read from document 01's
   sentences, which stand below as they are there. */
#include <stdint.h>
#include <stdio.h>
#include <string.h>

struct row { int top; int at[32]; };        /* bits 0 to top; section 2.7 calls the top bit m */
struct flags { int h, n, z, v, c; };

static const char *const names[] = {"byte", "word", "long"};
static const int tops[] = {7, 15, 31};

static struct row bits(uint32_t x, int top)
{
    struct row r = {top, {0}};
    for (int i = 0; i <= top; i++)
        r.at[i] = x >> i & 1;
    return r;
}

static uint32_t value(struct row r)
{
    uint32_t x = 0;
    for (int i = 0; i <= r.top; i++)
        x |= (uint32_t)r.at[i] << i;
    return x;
}

static int none_set(struct row r) { return value(r) == 0; }

/* D + S + carry and D - S - borrow, from the lowest bit up */
static struct row add(struct row d, struct row s, int carry)
{
    struct row r = d;
    for (int i = 0; i <= d.top; i++) {
        r.at[i] = d.at[i] ^ s.at[i] ^ carry;
        carry = (d.at[i] && s.at[i]) || (carry && (d.at[i] || s.at[i]));
    }
    return r;
}

static struct row subtract(struct row d, struct row s, int borrow)
{
    struct row r = d;
    for (int i = 0; i <= d.top; i++) {
        r.at[i] = d.at[i] ^ s.at[i] ^ borrow;
        borrow = (!d.at[i] && s.at[i]) || (borrow && d.at[i] == s.at[i]);
    }
    return r;
}

/* 2.7: H, V and C of a sum and of a difference; m - 4 is 3, 11 or 27 */
static struct flags of_sum(struct row d, struct row s, struct row r)
{
    int m = d.top, k = m - 4;
    return (struct flags){
        (s.at[k] && d.at[k]) || (d.at[k] && !r.at[k]) || (s.at[k] && !r.at[k]), r.at[m], none_set(r),
        (s.at[m] && d.at[m] && !r.at[m]) || (!s.at[m] && !d.at[m] && r.at[m]),
        (s.at[m] && d.at[m]) || (d.at[m] && !r.at[m]) || (s.at[m] && !r.at[m])};
}

static struct flags of_difference(struct row d, struct row s, struct row r)
{
    int m = d.top, k = m - 4;
    return (struct flags){
        (s.at[k] && !d.at[k]) || (!d.at[k] && r.at[k]) || (s.at[k] && r.at[k]), r.at[m], none_set(r),
        (!s.at[m] && d.at[m] && !r.at[m]) || (s.at[m] && !d.at[m] && r.at[m]),
        (s.at[m] && !d.at[m]) || (!d.at[m] && r.at[m]) || (s.at[m] && r.at[m])};
}

/* "NZ" or "HNZVC": the flags that an operation gives, in the order in which the table has them */
static void show(const char *name, struct row r, struct flags f, const char *which)
{
    printf("%s %0*x ", name, (r.top + 1) / 4, value(r));
    for (; *which; which++) {
        int set = *which == 'H' ? f.h : *which == 'N' ? f.n : *which == 'Z' ? f.z : *which == 'V' ? f.v : f.c;
        putchar(set ? *which : '-');
    }
}

static void show_moved(const char *name, struct row r)
{
    show(name, r, (struct flags){.n = r.at[r.top], .z = none_set(r)}, "NZ");
}

static void show_add(const char *name, struct row d, struct row s, int carry)
{
    struct row r = add(d, s, carry);
    show(name, r, of_sum(d, s, r), "HNZVC");
}

static void show_sub(const char *name, struct row d, struct row s, int borrow)
{
    struct row r = subtract(d, s, borrow);
    show(name, r, of_difference(d, s, r), "HNZVC");
}

static void pair(int width, uint32_t a, uint32_t b)
{
    struct row d = bits(a, tops[width]), s = bits(b, tops[width]), r = d;
    int digits = (d.top + 1) / 4;
    printf("%s %0*x %0*x", names[width], digits, a, digits, b);
    show_add(": ADD", d, s, 0);
    show_add(" ADDX", d, s, 1);
    show_sub(" SUB", d, s, 0);
    show_sub(" SUBX", d, s, 1);
    for (int i = 0; i <= d.top; i++)
        r.at[i] = d.at[i] && s.at[i];
    show_moved(" AND", r);
    for (int i = 0; i <= d.top; i++)
        r.at[i] = d.at[i] || s.at[i];
    show_moved(" OR", r);
    for (int i = 0; i <= d.top; i++)
        r.at[i] = d.at[i] != s.at[i];
    show_moved(" XOR", r);
    putchar('\n');
}

/* NEG: H is D + R at m - 4, V is D·R, C is D + R at m */
static void negate(struct row d)
{
    int m = d.top;
    struct row r = subtract(bits(0, m), d, 0);
    struct flags f = {d.at[m - 4] || r.at[m - 4], r.at[m], none_set(r), d.at[m] && r.at[m], d.at[m] || r.at[m]};
    show(" NEG", r, f, "HNZVC");
}

/* INC: V where the top bit goes from 0 to 1; DEC: from 1 to 0 */
static void count(const char *name, struct row d, uint32_t by, int up)
{
    int m = d.top;
    struct row j = bits(by, m), r = up ? add(d, j, 0) : subtract(d, j, 0);
    int v = up ? !d.at[m] && r.at[m] : d.at[m] && !r.at[m];
    show(name, r, (struct flags){.n = r.at[m], .z = none_set(r), .v = v}, "NZV");
}

/* The lower half stays; every bit of the upper half is `with`. */
static void extend(const char *name, struct row d, int with)
{
    for (int i = (d.top + 1) / 2; i <= d.top; i++)
        d.at[i] = with;
    show_moved(name, d);
}

static void single(int width, uint32_t a)
{
    struct row d = bits(a, tops[width]), r = d;
    printf("%s %0*x", names[width], (d.top + 1) / 4, a);
    show_moved(": MOV", d);
    for (int i = 0; i <= d.top; i++)
        r.at[i] = !d.at[i];
    show_moved(" NOT", r);
    negate(d);
    count(" INC", d, 1, 1);
    count("", d, 2, 1);
    count(" DEC", d, 1, 0);
    count("", d, 2, 0);
    if (width > 0) {
        extend(" EXTU", d, 0);
        extend(" EXTS", d, d.at[(d.top + 1) / 2 - 1]);
    }
    putchar('\n');
}

static void left(const char *name, struct row d, int in, int v)
{
    struct row r = d;
    memmove(r.at + 1, d.at, (size_t)d.top * sizeof *d.at);
    r.at[0] = in;
    show(name, r, (struct flags){.n = r.at[d.top], .z = none_set(r), .v = v, .c = d.at[d.top]}, "NZVC");
}

static void right(const char *name, struct row d, int in)
{
    struct row r = d;
    memmove(r.at, d.at + 1, (size_t)d.top * sizeof *d.at);
    r.at[d.top] = in;
    show(name, r, (struct flags){.n = r.at[d.top], .z = none_set(r), .c = d.at[0]}, "NZVC");
}

static void turned(int width, uint32_t a)
{
    struct row d = bits(a, tops[width]);
    int m = d.top;
    printf("%s %0*x", names[width], (d.top + 1) / 4, a);
    left(": SHLL", d, 0, 0);
    right(" SHLR", d, 0);
    left(" SHAL", d, 0, (d.at[m] && !d.at[m - 1]) || (!d.at[m] && d.at[m - 1]));
    right(" SHAR", d, d.at[m]);
    left(" ROTL", d, d.at[m], 0);
    right(" ROTR", d, d.at[0]);
    left(" ROTXL", d, 0, 0);
    left("", d, 1, 0);
    right(" ROTXR", d, 0);
    right("", d, 1);
    putchar('\n');
}

/* document 01, "Numbers, flags and addresses" */
static const char daa[] =
    "0,0-9,0,0-9,00,0; 0,0-8,0,A-F,06,0; 0,0-9,1,0-3,06,0; 0,A-F,0,0-9,60,1; 0,9-F,0,A-F,66,1; "
    "0,A-F,1,0-3,66,1; 1,0-2,0,0-9,60,1; 1,0-2,0,A-F,66,1; 1,0-3,1,0-3,66,1.";
static const char das[] = "0,0-9,0,0-9,00,0; 0,0-8,1,6-F,FA,0; 1,7-F,0,0-9,A0,1; 1,6-F,1,6-F,9A,1.";

/* Every row is looked at, so that a second one that fits would be seen. */
static int adjust(const char *rows, unsigned c, unsigned h, unsigned up, unsigned low)
{
    unsigned rc, up0, up1, rh, low0, low1, added, after;
    int fitted = 0;
    char end;
    for (const char *p = rows; *p; p = strpbrk(p, ";.") + 1) {
        if (sscanf(p, "%u,%1X-%1X,%u,%1X-%1X,%2X,%u%c", &rc, &up0, &up1, &rh, &low0, &low1, &added, &after, &end) != 9)
            printf(" unreadable row");
        else if (rc == c && up0 <= up && up <= up1 && rh == h && low0 <= low && low <= low1) {
            printf(" %02x%c", added, after ? 'C' : '-');
            fitted++;
        }
    }
    if (!fitted)
        printf(" ...");
    return fitted;
}

static void decimals(const char *name, const char *rows)
{
    int fitted = 0;
    fputs(name, stdout);
    for (unsigned c = 0; c < 2; c++)
        for (unsigned h = 0; h < 2; h++)
            for (unsigned up = 0; up < 16; up++) {
                printf("\n%c%c %x0:", c ? 'C' : '-', h ? 'H' : '-', up);
                for (unsigned low = 0; low < 16; low++)
                    fitted += adjust(rows, c, h, up, low);
            }
    printf("\n%d of 1024\n", fitted);
}

static const uint32_t operands[3][9] = {
    {0x00, 0x01, 0x0F, 0x10, 0x7F, 0x80, 0xFF, 0x5A, 0x1C3},
    {0x0000, 0x0001, 0x0FFF, 0x1000, 0x7FFF, 0x8000, 0xFFFF, 0x5A80, 0x1C37F},
    {0x00000000, 0x00000001, 0x0FFFFFFF, 0x10000000, 0x7FFFFFFF, 0x80000000, 0xFFFFFFFF, 0x5AA58000, 0xC33C7FFF},
};

int main(void)
{
    for (int width = 0; width < 3; width++)
        for (int i = 0; i < 9; i++)
            for (int k = 0; k < 9; k++)
                pair(width, operands[width][i], operands[width][k]);
    for (int width = 0; width < 3; width++)
        for (int k = 0; k < 9; k++) {
            single(width, operands[width][k]);
            turned(width, operands[width][k]);
        }
    decimals("DAA", daa);
    decimals("DAS", das);
}
