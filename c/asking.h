/* The program's functions, formatter and transform, and the loop in which they are asked: of c/library.c and c/asking.c
   alone. */
#ifndef ASKING_H
#define ASKING_H
#include "fluent.h"

#pragma GCC visibility push(hidden)

/* What a formatting call is asked for, and where its text and its errors go. */
struct wanted {
    bool records;
    const uint8_t *id;
    size_t id_length;
    const uint8_t *attribute;
    size_t attribute_length;
    const uint8_t *arguments;
    size_t arguments_length;
    uint8_t *out;
    size_t out_room;
    uint8_t *err;
    size_t err_room;
    struct fluent_lengths *lengths;
};

/* The proved call, by answers. */
typedef uint8_t format_round_call(struct fluent_bundle *bundle, const struct wanted *wanted, const uint8_t *answers,
                                  size_t answers_length, uint8_t *out, size_t out_room);

/* Formats, and asks the program whenever the call asks. */
uint8_t format_by_asking(struct fluent_bundle *bundle, const struct wanted *wanted, format_round_call *round);

/* Forgets the functions of a bundle that was closed. */
void forget_functions(struct fluent_bundle *bundle);

#pragma GCC visibility pop
#endif
