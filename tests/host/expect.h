/* What the tests of the calls have in common: answers that are held to what is wanted, and the numbers and bytes of the files
 * that the model writes for them. */
#ifndef EXPECT_H
#define EXPECT_H

#include <stdint.h>
#include <stdio.h>
#include <stdlib.h>

static unsigned long failures, calls;

static inline void expect(const char *what, unsigned long which, uint64_t got, uint64_t wanted)
{
    calls++;
    if (got != wanted && ++failures < 20)
        printf("%s %lu: %016llx and not %016llx\n", what, which, (unsigned long long)got, (unsigned long long)wanted);
}

/* A test that is no call. */
static inline void must(const char *what, unsigned long which, int holds)
{
    if (!holds && ++failures < 20)
        printf("%s %lu\n", what, which);
}

static inline uint64_t answer_of(unsigned refusal, unsigned side, unsigned node, uint64_t value)
{
    return refusal ? refusal | (uint64_t)side << 8 | (uint64_t)node << 16 : value << 8;
}

/* A file that is read from its front. */
struct cursor {
    const uint8_t *at;
};

static inline uint64_t number(struct cursor *c, unsigned width)
{
    uint64_t value = 0;
    for (unsigned k = 0; k < width; k++)
        value |= (uint64_t)*c->at++ << 8 * k;
    return value;
}

static inline const uint8_t *bytes(struct cursor *c, size_t *length)
{
    *length = number(c, 4);
    const uint8_t *start = c->at;
    c->at += *length;
    return start;
}

/* The bytes of a file, in memory of their own. */
static inline uint8_t *whole_file(const char *path, size_t *size)
{
    FILE *file = fopen(path, "rb");
    long end = file && fseek(file, 0, SEEK_END) == 0 ? ftell(file) : -1;
    uint8_t *whole = end >= 0 ? malloc((size_t)end + 1) : NULL;
    if (whole)
        rewind(file);
    if (!whole || fread(whole, 1, (size_t)end, file) != (size_t)end) {
        perror(path);
        exit(1);
    }
    fclose(file);
    *size = (size_t)end;
    return whole;
}

/* How many calls there were; not 0 where one failed. */
static inline int tally(const char *what)
{
    printf("%s: %lu calls, %lu failed\n", what, calls, failures);
    return failures != 0;
}

#endif
