/* A file's bytes, for the programs beside the bench. */
#ifndef BENCH_FILE_H
#define BENCH_FILE_H

#include <stdint.h>
#include <stdio.h>
#include <stdlib.h>

/* At most so many bytes of the file go to `to`; answers how many. A file that can't be read ends the program. */
static inline size_t read_file(const char *path, uint8_t *to, size_t most)
{
    FILE *f = fopen(path, "rb");
    if (!f) {
        perror(path);
        exit(2);
    }
    size_t n = fread(to, 1, most, f);
    fclose(f);
    return n;
}

#endif
