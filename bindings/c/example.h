/* What the examples drop.c, generator.c, loops.c and threads.c share: an end with a message, memory,
 * a file and random words. */
#include <stdint.h>
#include <stdio.h>
#include <stdlib.h>

static inline void end(const char *why) {
    fprintf(stderr, "error: %s\n", why);
    exit(1);
}

/* Memory for so many items of a size, filled with 0. */
static inline void *room(size_t count, size_t size) {
    void *at = calloc(count ? count : 1, size);
    if (!at)
        end("no memory");
    return at;
}

/* The bytes of a file, and a 0 behind them. */
static inline uint8_t *read_file(const char *path, size_t *size) {
    FILE *file = fopen(path, "rb");
    if (!file || fseek(file, 0, SEEK_END))
        end(path);
    *size = (size_t)ftell(file);
    rewind(file);
    uint8_t *text = room(*size + 1, 1);
    if (fread(text, 1, *size, file) != *size)
        end(path);
    fclose(file);
    return text;
}

/* Random words (Vigna, xorshift64*). */
static inline uint64_t next(uint64_t *state) {
    *state ^= *state >> 12;
    *state ^= *state << 25;
    *state ^= *state >> 27;
    return *state * 2685821657736338717u;
}
