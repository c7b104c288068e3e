/* Reads what bindings/python/tests/rows.py writes: a run of records, each a letter, how many texts it has in a byte, and
   these, each after its length as in an argument. */
#ifndef RECORDS_H
#define RECORDS_H
#include <stdint.h>
#include <stdio.h>
#include <stdlib.h>

#define MOST_TEXTS 7

struct text {
    const uint8_t *at;
    size_t length;
};

struct record {
    uint8_t kind;
    size_t count;
    struct text texts[MOST_TEXTS];
};

static inline struct text read_text(const uint8_t **at, const uint8_t *end) {
    size_t length = 0;
    if (end - *at < 4)
        abort();
    for (int i = 0; i < 4; i++)
        length |= (size_t)*(*at)++ << 8 * i;
    if ((size_t)(end - *at) < length)
        abort();
    *at += length;
    return (struct text){*at - length, length};
}

static inline struct record read_record(const uint8_t **at, const uint8_t *end) {
    if (end - *at < 2)
        abort();
    struct record record = {.kind = (*at)[0], .count = (*at)[1]};
    *at += 2;
    if (record.count > MOST_TEXTS)
        abort();
    for (size_t i = 0; i < record.count; i++)
        record.texts[i] = read_text(at, end);
    return record;
}

/* A whole file, in memory of malloc. */
static inline struct text read_file(const char *path) {
    FILE *file = fopen(path, "rb");
    if (!file || fseek(file, 0, SEEK_END))
        abort();
    size_t size = (size_t)ftell(file);
    uint8_t *at = malloc(size);
    rewind(file);
    if (!at || fread(at, 1, size, file) != size)
        abort();
    fclose(file);
    return (struct text){at, size};
}

#endif
