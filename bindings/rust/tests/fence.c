/* Stands before each call of libfluent that the crate makes, where all is built with the address sanitizer: each byte that is
   handed over must be of a live block, and each buffer so for all of its room. A fault stops the program. */
#include "fluent.h"
#include <stdio.h>
#include <stdlib.h>

void *__asan_region_is_poisoned(void *begin, size_t size);

static void must_be_ours(const char *call, const void *at, size_t length) {
    if (length && (!at || __asan_region_is_poisoned((void *)at, length))) {
        fprintf(stderr, "fence: %s was handed bytes that are not the caller's\n", call);
        abort();
    }
}

/* Texts and buffers as a call has them: where and how long. The bundle must be one too. */
#define OURS(at, length) must_be_ours(__func__, at, length)
#define BUNDLE OURS(bundle, sizeof *bundle)
#define REAL(name) extern __typeof__(name) real_##name

REAL(fluent_open_bare);
REAL(fluent_add);
REAL(fluent_add_overriding);
REAL(fluent_add_builtins);
REAL(fluent_report);
REAL(fluent_ids);
REAL(fluent_attributes);
REAL(fluent_has);
REAL(fluent_find);
REAL(fluent_close);
uint8_t fluent_declare_function(struct fluent_bundle *bundle, const uint8_t *id, size_t id_length, bool over);
uint8_t fluent_declare_formatter(struct fluent_bundle *bundle, bool on);
uint8_t fluent_declare_transform(struct fluent_bundle *bundle, bool on);
uint8_t fluent_format_asking(struct fluent_bundle *bundle, const uint8_t *id, size_t id_length, const uint8_t *attribute,
                             size_t attribute_length, const uint8_t *arguments, size_t arguments_length,
                             const uint8_t *answers, size_t answers_length, uint8_t *out, size_t out_room, uint8_t *err,
                             size_t err_room, struct fluent_lengths *lengths);
REAL(fluent_declare_function);
REAL(fluent_declare_formatter);
REAL(fluent_declare_transform);
REAL(fluent_format_asking);

uint8_t fluent_open_bare(struct fluent_bundle *bundle, const uint8_t *language, size_t length, bool isolate) {
    BUNDLE;
    OURS(language, length);
    return real_fluent_open_bare(bundle, language, length, isolate);
}

uint8_t fluent_add(struct fluent_bundle *bundle, const uint8_t *source, size_t length) {
    BUNDLE;
    OURS(source, length);
    return real_fluent_add(bundle, source, length);
}

uint8_t fluent_add_overriding(struct fluent_bundle *bundle, const uint8_t *source, size_t length) {
    BUNDLE;
    OURS(source, length);
    return real_fluent_add_overriding(bundle, source, length);
}

uint8_t fluent_add_builtins(struct fluent_bundle *bundle) {
    BUNDLE;
    return real_fluent_add_builtins(bundle);
}

uint8_t fluent_declare_function(struct fluent_bundle *bundle, const uint8_t *id, size_t id_length, bool over) {
    BUNDLE;
    OURS(id, id_length);
    return real_fluent_declare_function(bundle, id, id_length, over);
}

uint8_t fluent_declare_formatter(struct fluent_bundle *bundle, bool on) {
    BUNDLE;
    return real_fluent_declare_formatter(bundle, on);
}

uint8_t fluent_declare_transform(struct fluent_bundle *bundle, bool on) {
    BUNDLE;
    return real_fluent_declare_transform(bundle, on);
}

uint8_t fluent_report(struct fluent_bundle *bundle, uint8_t *out, size_t out_room, size_t *length) {
    BUNDLE;
    OURS(out, out_room);
    OURS(length, sizeof *length);
    return real_fluent_report(bundle, out, out_room, length);
}

uint8_t fluent_ids(struct fluent_bundle *bundle, uint8_t *out, size_t out_room, size_t *length) {
    BUNDLE;
    OURS(out, out_room);
    OURS(length, sizeof *length);
    return real_fluent_ids(bundle, out, out_room, length);
}

uint8_t fluent_attributes(struct fluent_bundle *bundle, const uint8_t *id, size_t id_length, uint8_t *out,
                          size_t out_room, size_t *length) {
    BUNDLE;
    OURS(id, id_length);
    OURS(out, out_room);
    OURS(length, sizeof *length);
    return real_fluent_attributes(bundle, id, id_length, out, out_room, length);
}

uint8_t fluent_has(struct fluent_bundle *bundle, const uint8_t *id, size_t id_length) {
    BUNDLE;
    OURS(id, id_length);
    return real_fluent_has(bundle, id, id_length);
}

uint8_t fluent_find(struct fluent_bundle *bundle, const uint8_t *id, size_t id_length, const uint8_t *attribute,
                    size_t attribute_length) {
    BUNDLE;
    OURS(id, id_length);
    OURS(attribute, attribute_length);
    return real_fluent_find(bundle, id, id_length, attribute, attribute_length);
}

uint8_t fluent_format_asking(struct fluent_bundle *bundle, const uint8_t *id, size_t id_length, const uint8_t *attribute,
                             size_t attribute_length, const uint8_t *arguments, size_t arguments_length,
                             const uint8_t *answers, size_t answers_length, uint8_t *out, size_t out_room, uint8_t *err,
                             size_t err_room, struct fluent_lengths *lengths) {
    BUNDLE;
    OURS(id, id_length);
    OURS(attribute, attribute_length);
    OURS(arguments, arguments_length);
    OURS(answers, answers_length);
    OURS(out, out_room);
    OURS(err, err_room);
    OURS(lengths, sizeof *lengths);
    return real_fluent_format_asking(bundle, id, id_length, attribute, attribute_length, arguments, arguments_length,
                                     answers, answers_length, out, out_room, err, err_room, lengths);
}

void fluent_close(struct fluent_bundle *bundle) {
    BUNDLE;
    real_fluent_close(bundle);
}
