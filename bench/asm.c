#include "asm.h"
#include "decoder.h"
#include <ctype.h>
#include <stdlib.h>
#include <string.h>

enum { SYMBOLS = 200, LINE = 200 };

struct source {
    struct { char name[32]; long value; } symbol[SYMBOLS];
    int symbols, pass;
    long at, end;
    int emitted;                            /* the line gave bytes */
    uint8_t *rom;
    size_t room;
    char *message;
    int failed;
};

static void complain(struct source *s, const char *what, const char *where)
{
    if (!s->failed)
        snprintf(s->message, 200, "%s: %.120s", what, where);
    s->failed = 1;
}

static void skip(const char **p)
{
    while (**p == ' ' || **p == '\t')
        (*p)++;
}

static int take(const char **p, const char *text)
{
    size_t n = strlen(text);
    skip(p);
    if (strncmp(*p, text, n))
        return 0;
    *p += n;
    return 1;
}

static int in_name(char c) { return isalnum((unsigned char)c) || c == '_'; }

static int read_name(const char **p, char out[32])
{
    int n = 0;
    skip(p);
    while (in_name(**p) && n < 31)
        out[n++] = *(*p)++;
    out[n] = 0;
    return n;
}

static void define(struct source *s, const char *name, long value)
{
    for (int i = 0; i < s->symbols; i++)
        if (!strcmp(s->symbol[i].name, name)) {
            if (s->symbol[i].value != value)
                complain(s, "defined twice, or the code moved", name);
            return;
        }
    if (s->symbols == SYMBOLS) {
        complain(s, "too many names", name);
        return;
    }
    strcpy(s->symbol[s->symbols].name, name);
    s->symbol[s->symbols++].value = value;
}

/* A number: decimal, H'hex, or a name; unknown names are 0 in the first pass. */
static int term(struct source *s, const char **p, long *value)
{
    char name[32], *end;
    skip(p);
    if ((*p)[0] == 'H' && (*p)[1] == '\'') {
        *value = strtol(*p + 2, &end, 16);
        *p = end;
        return 1;
    }
    if (isdigit((unsigned char)**p)) {
        *value = strtol(*p, &end, 10);
        *p = end;
        return 1;
    }
    if (!read_name(p, name))
        return 0;
    *value = 0;
    for (int i = 0; i < s->symbols; i++)
        if (!strcmp(s->symbol[i].name, name))
            return *value = s->symbol[i].value, 1;
    if (s->pass == 2)
        complain(s, "unknown name", name);
    return 1;
}

static int expression(struct source *s, const char **p, long *value)
{
    long sign = take(p, "-") ? -1 : 1, next;
    if (!term(s, p, value))
        return 0;
    *value *= sign;
    while (take(p, "+") ? (sign = 1) : take(p, "-") ? (sign = -1) : 0) {
        if (!term(s, p, &next))
            return 0;
        *value += sign * next;
    }
    return 1;
}

/* R0H, R0L; R0, E0; ER0: the digit, or -1. */
static long register_digit(const char **p, int width)
{
    const char *q = *p;
    skip(&q);
    int e = *q == 'E';
    q += e && q[1] == 'R' ? 2 : e || *q == 'R' ? 1 : 0;
    long n = *q - '0';
    int er = e && q[-1] == 'R';
    if (q == *p || n < 0 || n > 7 || er != (width == H8_LONG))
        return -1;
    q++;
    if (width == H8_BYTE) {
        if (e || (*q != 'H' && *q != 'L'))
            return -1;
        n += *q++ == 'L' ? 8 : 0;
    } else if (width == H8_WORD) {
        n += e ? 8 : 0;
    }
    if (in_name(*q))
        return -1;
    *p = q;
    return n;
}

/* What a line gives for a form: registers, a bit's number and a value. */
struct operands { long rs, rd, rn, bit, value; };

/* How wide Rs or Rd is. The destination of MULX and DIVX is twice as wide as the mark says. */
static int width_of(const struct form *f, char letter)
{
    if (f->kind == H8_STC || f->kind == H8_LDC || f->kind == H8_DECIMAL || f->kind == H8_TAKE || f->kind == H8_GIVE)
        return H8_BYTE;
    return (f->kind == H8_MULTIPLY || f->kind == H8_DIVIDE) && letter == 'd' ? f->width + 1 : f->width;
}

/* A register in the form's text: ERs, ERd, ERn, Rs, Rd, Rn. */
static int match_register(const struct form *f, const char **t, const char **p, struct operands *o)
{
    int er = (*t)[0] == 'E';
    char letter = (*t)[er ? 2 : 1];
    skip(p);
    long n = register_digit(p, er ? H8_LONG : width_of(f, letter));
    if (n < 0)
        return 0;
    *(letter == 's' ? &o->rs : letter == 'n' && !er ? &o->rn : &o->rd) = n;
    *t += er ? 3 : 2;
    return 1;
}

/* xx:8, d:16, aa:24: an expression; the size is written too, except after '#'. xx:3 is the number of a bit. */
static int match_number(struct source *s, const char **t, const char **p, struct operands *o)
{
    int immediate = **t == 'x';
    char size[8] = ":";
    *t = strchr(*t, ':') + 1;
    for (int n = 1; isdigit((unsigned char)**t); n++)
        size[n] = *(*t)++;
    return expression(s, p, strcmp(size, ":3") ? &o->value : &o->bit) && (immediate || take(p, size));
}

static int match_form(struct source *s, const struct form *f, const char *line, struct operands *o)
{
    const char *t = f->name, *p = line;
    while (*t) {
        if (*t == ' ') {
            t++;
            if (*p != ' ' && *p != '\t')
                return 0;
            skip(&p);
            continue;
        }
        int name = t != f->name && !in_name(t[-1]);
        if (name && (!strncmp(t, "ER", 2) || !strncmp(t, "Rs", 2) || !strncmp(t, "Rd", 2) || !strncmp(t, "Rn", 2))) {
            if (!match_register(f, &t, &p, o))
                return 0;
        } else if (name && (!strncmp(t, "xx:", 3) || !strncmp(t, "aa:", 3) || !strncmp(t, "d:", 2))) {
            if (!match_number(s, &t, &p, o))
                return 0;
        } else {
            if (t != f->name && !in_name(*t))
                skip(&p);
            if (*p++ != *t++)
                return 0;
        }
    }
    skip(&p);
    return *p == 0;
}

/* The value as the code holds it: branches count from the next instruction, addresses lose their upper bits. */
static uint32_t coded(struct source *s, int form, long value, const char *line)
{
    const struct form *f = &forms[form];
    int bits = decoder_value_bits(form);
    long low = -(1L << (bits ? bits - 1 : 0)), high = (1L << bits) - 1;
    if (f->kind == H8_BCC || f->kind == H8_BSR) {
        value -= s->at + decoder_length(form);
        high = -low - 1;
    }
    if (f->kind == H8_MOVE && f->form == H8_DISP)
        high = -low - 1;
    if ((f->kind == H8_MOVE && f->form == H8_ABS8) || ((f->kind == H8_TAKE || f->kind == H8_GIVE) && f->form == H8_SPOT_ABS8))
        value -= 0xFFFF00;
    if (f->kind == H8_MOVE && f->form == H8_ABS16) {
        value -= value >= 0xFF8000 ? 0x1000000 : 0;
        high = -low - 1;
    }
    if (s->pass == 2 && (value < low || value > high))
        complain(s, "out of range", line);
    return (uint32_t)value;
}

static void emit(struct source *s, const uint8_t *bytes, int n, const char *line)
{
    if (s->at < 0 || s->at + n > (long)s->room) {
        complain(s, "too long", line);
        return;
    }
    memcpy(s->rom + s->at, bytes, (size_t)n);
    s->emitted = 1;
    s->at += n;
    if (s->at > s->end)
        s->end = s->at;
}

/* The operand of a field of the pattern. */
static long operand_of(const struct operands *o, const char *field)
{
    if (!strcmp(field, "bn"))
        return o->bit;
    if (!strcmp(field, "rn"))
        return o->rn;
    return field[0] == 0 ? 0 : field[1] == 's' ? o->rs : o->rd;
}

static void instruction(struct source *s, const char *line)
{
    for (int i = 0; i < FORMS; i++) {
        struct operands o = {0, 0, 0, 0, 0};
        uint8_t code[8];
        if (!match_form(s, &forms[i], line, &o))
            continue;
        if (o.bit < 0 || o.bit > 7)
            complain(s, "no bit of a byte", line);
        long other = operand_of(&o, forms[i].other), reg = operand_of(&o, forms[i].reg);
        int n = build(i, (uint32_t)other, coded(s, i, o.value, line), (uint32_t)reg, code);
        emit(s, code, n, line);
        return;
    }
    complain(s, "not an instruction", line);
}

/* PUSH, POP and the second names of branches. */
static void other_names(char line[LINE])
{
    static const char *const names[][2] = {{"BHS ", "BCC "}, {"BLO ", "BCS "}, {"BT ", "BRA "}, {"BF ", "BRN "}};
    char rest[LINE];
    for (size_t i = 0; i < 4; i++)
        if (!strncmp(line, names[i][0], strlen(names[i][0]))) {
            snprintf(rest, sizeof rest, "%s", line + strlen(names[i][0]));
            snprintf(line, LINE, "%s%.150s", names[i][1], rest);
        }
    if (!strncmp(line, "PUSH.", 5) || !strncmp(line, "POP.", 4)) {
        int push = line[1] == 'U';
        char size = line[push ? 5 : 4];
        const char *p = line + (push ? 6 : 5);
        skip(&p);
        snprintf(rest, sizeof rest, "%.100s", p);
        snprintf(line, LINE, push ? "MOV.%c %.100s,@-ER7" : "MOV.%c @ER7+,%.100s", size, rest);
    }
}

static void data(struct source *s, const char *p, const char *line)
{
    int n = *p == 'B' ? 1 : *p == 'W' ? 2 : 4;
    p++;
    do {
        long v = 0;
        uint8_t b[4];
        if (!expression(s, &p, &v))
            complain(s, "no number", line);
        for (int i = 0; i < n; i++)
            b[i] = (uint8_t)(v >> 8 * (n - 1 - i));
        emit(s, b, n, line);
    } while (take(&p, ",") && !s->failed);
}

static void statement(struct source *s, char *line)
{
    const char *p = line;
    char name[32];
    int n = read_name(&p, name);
    if (n && *p == ':') {
        p++;
        long v = s->at;
        if (take(&p, ".EQU"))
            expression(s, &p, &v), p = "";
        define(s, name, v);
    } else {
        p = line;
    }
    skip(&p);
    if (take(&p, ".ORG"))
        expression(s, &p, &s->at);
    else if (take(&p, ".DATA."))
        data(s, p, line);
    else if (*p && strncmp(p, ".END", 4)) {
        char text[LINE];
        snprintf(text, sizeof text, "%s", p);
        other_names(text);
        instruction(s, text);
    }
}

/* A line without its comment and what stands before and behind. */
static void bare(const char *from, size_t n, char out[LINE])
{
    size_t k = 0;
    while (k < n && k < LINE - 1 && from[k] != ';')
        out[k] = from[k], k++;
    while (k && isspace((unsigned char)out[k - 1]))
        k--;
    out[k] = 0;
}

static void list(const struct source *s, FILE *f, long from, const char *line, size_t n)
{
    char bytes[40] = "";
    for (long i = from; i < s->at && i < from + 8; i++)
        snprintf(bytes + strlen(bytes), sizeof bytes - strlen(bytes), "%02X", s->rom[i]);
    if (s->emitted)
        fprintf(f, "%06lX  %-16s  %.*s\n", (unsigned long)from, bytes, (int)n, line);
    else
        fprintf(f, n ? "%26s%.*s\n" : "\n", "", (int)n, line);
}

static void pass(struct source *s, const char *text, FILE *listing)
{
    s->at = 0;
    while (*text && !s->failed) {
        size_t n = strcspn(text, "\n");
        char line[LINE];
        long from = s->at;
        s->emitted = 0;
        bare(text, n, line);
        statement(s, line);
        if (listing && !s->failed)
            list(s, listing, from, text, n);
        text += n + (text[n] != 0);
    }
}

long assemble(const char *text, uint8_t *rom, size_t room, char message[200], FILE *listing)
{
    static struct source s;
    memset(&s, 0, sizeof s);
    memset(rom, 0, room);
    s.rom = rom;
    s.room = room;
    s.message = message;
    message[0] = 0;
    s.pass = 1;
    pass(&s, text, NULL);
    s.pass = 2;
    pass(&s, text, listing);
    return s.failed ? -1 : s.end;
}
