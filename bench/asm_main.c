/* asm SOURCE.s OUT: writes OUT.bin (the bytes), OUT.hex (Intel hex) and OUT.lst (a listing). */
#include "asm.h"
#include "decoder.h"
#include <stdlib.h>
#include <string.h>

static char text[1 << 16];
static uint8_t rom[65536];

static FILE *out_file(const char *name, const char *ending)
{
    char path[500];
    snprintf(path, sizeof path, "%s.%s", name, ending);
    FILE *f = fopen(path, "wb");
    if (!f) {
        perror(path);
        exit(2);
    }
    return f;
}

static void write_hex(FILE *f, long n)
{
    for (long a = 0; a < n; a += 16) {
        long k = n - a < 16 ? n - a : 16;
        unsigned sum = (unsigned)(k + (a >> 8) + a);
        fprintf(f, ":%02lX%04lX00", (unsigned long)k, (unsigned long)a);
        for (long i = 0; i < k; i++) {
            fprintf(f, "%02X", rom[a + i]);
            sum += rom[a + i];
        }
        fprintf(f, "%02X\n", (0u - sum) & 255);
    }
    fprintf(f, ":00000001FF\n");
}

int main(int argc, char **argv)
{
    char message[200];
    FILE *in = argc == 3 ? fopen(argv[1], "rb") : NULL;
    if (!in) {
        fprintf(stderr, "use: asm SOURCE.s OUT\n");
        return 2;
    }
    text[fread(text, 1, sizeof text - 1, in)] = 0;
    fclose(in);
    decoder_start();
    FILE *listing = out_file(argv[2], "lst"), *bin, *hex;
    long n = assemble(text, rom, sizeof rom, message, listing);
    fclose(listing);
    if (n < 0) {
        fprintf(stderr, "asm: %s: %s\n", argv[1], message);
        return 1;
    }
    bin = out_file(argv[2], "bin");
    fwrite(rom, 1, (size_t)n, bin);
    fclose(bin);
    hex = out_file(argv[2], "hex");
    write_hex(hex, n);
    fclose(hex);
    return 0;
}
