/* Where the paths of a listing go, by the patterns of the decoder, and two ways to the figures: an enumeration of whole trees of calls,
   which remembers nothing; and a table of levels, for listings whose trees are too many. Test code: nothing of it is the product's. */
#ifndef PATHS_H
#define PATHS_H

#include "model.h"

enum { CALLS_DEEP = 8, ENUMERATED = 512 };  /* levels; bytes of a listing that is enumerated, at most */
#define MOST_TOLD 1000000000u

/* What stands at a place. */
struct stands {
    uint32_t number, group;                 /* why a path ends here whatever the level, else 0; and the group of 15 */
    uint32_t states;                        /* of the instruction, as figures count them */
    int ways, calls, returns;
    uint32_t to[2], callee;                 /* where paths go; the routine that is called */
};
struct stands stands_at(const uint8_t *rom, uint32_t rom_n, uint32_t p, struct area a);

/* What a figure tells of an entry. Where a path ends without a return `lowest` is the lowest such place, else H8_NONE. */
struct total {
    uint64_t most, paths;
    uint32_t lowest;
    int given_up;                           /* of an enumeration: too many, or too long */
};

struct listing {
    const uint8_t *rom;
    uint32_t n;
    struct area area;
    struct stands at[ENUMERATED / 2];
};
void read_listing(struct listing *l, const uint8_t *rom, uint32_t n, struct area a);
struct total enumerate(const struct listing *l, uint32_t entry);
void reckon_levels(const struct listing *l, struct total rows[ENUMERATED / 2]);     /* every place with eight levels */

/* What is answered for an entry with this total: number, place, group, figure; and its row. */
struct wanted { uint64_t answer[4], row[2]; };
struct wanted wanted_of(const struct listing *l, uint32_t entry, struct total t);

#endif
