#include "paths.h"
#include <string.h>

static uint32_t target_of(const uint32_t *f, uint32_t next)
{
    uint32_t direct = f[H8_KIND] == H8_JMP || f[H8_KIND] == H8_JSR;
    uint32_t by = (uint32_t)(f[H8_FORM] == H8_NEAR ? (int8_t)f[H8_VALUE] : (int16_t)f[H8_VALUE]);
    return (direct ? f[H8_VALUE] : next + by) & 0xFFFFFE;
}

struct stands stands_at(const uint8_t *rom, uint32_t rom_n, uint32_t p, struct area a)
{
    struct stands s = {0};
    struct decoded d;
    if (p >= rom_n)
        return s.number = 2, s;
    s.number = (uint32_t)decode(rom + p, rom_n - p, &d);
    if (s.number)
        return s.group = (uint32_t)d.group, s;
    const uint32_t *f = d.fields;
    uint32_t next = p + f[H8_LENGTH];
    s.states = model_most(&d, a);
    if ((f[H8_KIND] == H8_JMP || f[H8_KIND] == H8_JSR) && f[H8_FORM] != H8_DIRECT)
        return s.number = 9, s;
    s.returns = f[H8_KIND] == H8_RTS;
    s.calls = f[H8_KIND] == H8_BSR || f[H8_KIND] == H8_JSR;
    if (s.calls)
        s.callee = target_of(f, next);
    if (!s.returns && f[H8_KIND] != H8_JMP && !(f[H8_KIND] == H8_BCC && f[H8_WHICH] == 0))
        s.to[s.ways++] = next;
    if (f[H8_KIND] == H8_JMP || (f[H8_KIND] == H8_BCC && f[H8_WHICH] != 1))
        s.to[s.ways++] = target_of(f, next);
    for (int i = 0; i < s.ways; i++)
        if (s.to[i] <= p)
            s.number = 10;
    return s;
}

void read_listing(struct listing *l, const uint8_t *rom, uint32_t n, struct area a)
{
    l->rom = rom;
    l->n = n;
    l->area = a;
    for (uint32_t p = 0; p < n; p += 2)
        l->at[p / 2] = stands_at(rom, n, p, a);
}

static const struct stands *there(const struct listing *l, uint32_t p)
{
    static const struct stands outside = {.number = 2};
    return p < l->n ? &l->at[p / 2] : &outside;
}

/* THE ENUMERATION. A tree of calls is walked as a run would go through it: into each routine, by each of its paths, and then by each path
   behind the call, which is gone also where the routine came to a place that can't be followed. */
enum { MANY_PATHS = 100000, MANY_STEPS = 400000, MANY_BRANCHES = 4000 };

struct after { uint32_t to; int level; const struct after *then; };     /* where it goes on behind the calls */

struct walk {
    const struct listing *l;
    struct total t;
    uint64_t steps;
    uint32_t calls, branches;
    struct after after[MANY_STEPS];
};

static void walk(struct walk *w, uint32_t p, int level, uint64_t total, const struct after *then)
{
    uint32_t calls = w->calls;
    while (!w->t.given_up) {
        const struct stands *s = there(w->l, p);
        int ends = s->number || (s->calls && level == 0);
        if (++w->steps >= MANY_STEPS || w->t.paths > MANY_PATHS || w->branches > MANY_BRANCHES)
            w->t.given_up = 1;
        if (ends && p < w->t.lowest)
            w->t.lowest = p;
        total += ends ? 0 : s->states;
        if ((ends || s->returns) && !then) {
            w->t.paths++;
            w->t.most = !ends && total > w->t.most ? total : w->t.most;
            break;
        }
        if (ends || s->returns) {
            p = then->to, level = then->level, then = then->then;
        } else if (s->calls) {
            w->after[w->calls] = (struct after){s->to[0], level, then};
            then = &w->after[w->calls++];
            p = s->callee, level--;
        } else {
            if (s->ways == 2) {
                w->branches++;
                walk(w, s->to[1], level, total, then);
                w->branches--;
            }
            p = s->to[0];
        }
    }
    w->calls = calls;
}

struct total enumerate(const struct listing *l, uint32_t entry)
{
    static struct walk w;
    w.l = l;
    w.t = (struct total){.lowest = H8_NONE};
    w.steps = w.calls = w.branches = 0;
    walk(&w, entry, CALLS_DEEP, 0, NULL);
    return w.t;
}

/* THE LEVELS. With no call left, then with one, up to eight; totals are held below what 64 bits have. */
static uint64_t held(uint64_t x) { return x < (uint64_t)1 << 60 ? x : (uint64_t)1 << 60; }

static struct total row_there(const struct listing *l, const struct total *rows, uint32_t p)
{
    return p < l->n ? rows[p / 2] : (struct total){.lowest = p};
}

static struct total one_row(const struct listing *l, uint32_t p, int level, const struct total *this_level, const struct total *one_less)
{
    const struct stands *s = there(l, p);
    struct total t = {.lowest = H8_NONE}, x;
    if (s->number || (s->calls && level == 0))
        return t.lowest = p, t;
    for (int i = 0; i < s->ways; i++) {
        x = row_there(l, this_level, s->to[i]);
        t.lowest = x.lowest < t.lowest ? x.lowest : t.lowest;
        t.most = x.most > t.most ? x.most : t.most;
    }
    if (s->calls) {
        x = row_there(l, one_less, s->callee);
        t.lowest = x.lowest < t.lowest ? x.lowest : t.lowest;
        t.most += x.most;
    }
    t.most = held(t.most + s->states);
    return t;
}

void reckon_levels(const struct listing *l, struct total rows[ENUMERATED / 2])
{
    static struct total one_less[ENUMERATED / 2];
    for (int level = 0; level <= CALLS_DEEP; level++) {
        memcpy(one_less, rows, sizeof one_less);
        for (uint32_t p = l->n; p > 0; p -= 2)
            rows[p / 2 - 1] = one_row(l, p - 2, level, rows, one_less);
    }
}

struct wanted wanted_of(const struct listing *l, uint32_t entry, struct total t)
{
    if (t.lowest != H8_NONE) {
        const struct stands *s = there(l, t.lowest);
        return (struct wanted){{s->number ? s->number : 16, t.lowest, s->number ? s->group : 0, 0}, {0, t.lowest}};
    }
    if (t.most > MOST_TOLD)
        return (struct wanted){{22, entry, 0, 0}, {0, entry}};
    return (struct wanted){{0, 0, 0, t.most}, {t.most, H8_NONE}};
}
