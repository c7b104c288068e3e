/* The calls that fluent.h declares. Each hands over to the proved one of its name behind rattle_, which takes no null
   pointer, also where there are no bytes: it gets a pointer to none there. */
#include "asking.h"

#define PROVED(name) extern __typeof__(name) rattle_##name __attribute__((nonnull))

PROVED(fluent_format_source);
PROVED(fluent_open);
PROVED(fluent_open_bare);
PROVED(fluent_open_rules);
PROVED(fluent_set_limit);
PROVED(fluent_add_builtins);
PROVED(fluent_declare_function);
PROVED(fluent_declare_formatter);
PROVED(fluent_declare_transform);
PROVED(fluent_add);
PROVED(fluent_add_overriding);
PROVED(fluent_report);
PROVED(fluent_ids);
PROVED(fluent_attributes);
PROVED(fluent_variables);
PROVED(fluent_has);
PROVED(fluent_find);
PROVED(fluent_find_chain);
PROVED(fluent_check);
PROVED(fluent_close);

/* The proved calls that format. What the program means by its answers has no bytes; it is pointed at all the same. */
extern uint8_t rattle_fluent_format_asking(struct fluent_bundle *bundle, const void *meant, bool records,
                                           const uint8_t *id, size_t id_length, const uint8_t *attribute,
                                           size_t attribute_length, const uint8_t *arguments, size_t arguments_length,
                                           const uint8_t *answers, size_t answers_length, uint8_t *out,
                                           size_t out_room, uint8_t *err, size_t err_room,
                                           struct fluent_lengths *lengths) __attribute__((nonnull));
extern uint8_t rattle_fluent_format_chain(const void *meant, bool records, struct fluent_bundle *bundles, size_t count,
                                          const uint8_t *id, size_t id_length, const uint8_t *attribute,
                                          size_t attribute_length, const uint8_t *arguments, size_t arguments_length,
                                          const uint8_t *answers, size_t answers_length, uint8_t *out, size_t out_room,
                                          uint8_t *err, size_t err_room, struct fluent_lengths *lengths)
    __attribute__((nonnull));

/* What is pointed at where there are no bytes, and no bundles: it is neither read nor written. */
static uint8_t nothing;
static struct fluent_bundle no_bundle;

static const uint8_t *text(const uint8_t *at, size_t length) {
    return length ? at : &nothing;
}

static uint8_t *buffer(uint8_t *at, size_t room) {
    return room ? at : &nothing;
}

static struct fluent_bundle *bundles_at(struct fluent_bundle *at, size_t count) {
    return count ? at : &no_bundle;
}

uint8_t fluent_format_source(const uint8_t *language, size_t language_length, bool isolate, const uint8_t *source,
                             size_t source_length, const uint8_t *id, size_t id_length, const uint8_t *attribute,
                             size_t attribute_length, const uint8_t *arguments, size_t arguments_length, uint8_t *out,
                             size_t out_room, uint8_t *err, size_t err_room, struct fluent_lengths *lengths) {
    return rattle_fluent_format_source(text(language, language_length), language_length, isolate,
                                       text(source, source_length), source_length, text(id, id_length), id_length,
                                       text(attribute, attribute_length), attribute_length,
                                       text(arguments, arguments_length), arguments_length, buffer(out, out_room),
                                       out_room, buffer(err, err_room), err_room, lengths);
}

uint8_t fluent_open(struct fluent_bundle *bundle, const uint8_t *language, size_t language_length, bool isolate) {
    return rattle_fluent_open(bundle, text(language, language_length), language_length, isolate);
}

uint8_t fluent_open_bare(struct fluent_bundle *bundle, const uint8_t *language, size_t language_length, bool isolate) {
    return rattle_fluent_open_bare(bundle, text(language, language_length), language_length, isolate);
}

uint8_t fluent_open_rules(struct fluent_bundle *bundle, const uint8_t *cardinal, size_t cardinal_length,
                          const uint8_t *ordinal, size_t ordinal_length, bool isolate) {
    return rattle_fluent_open_rules(bundle, text(cardinal, cardinal_length), cardinal_length,
                                    text(ordinal, ordinal_length), ordinal_length, isolate);
}

uint8_t fluent_set_limit(struct fluent_bundle *bundle, size_t limit) {
    return rattle_fluent_set_limit(bundle, limit);
}

uint8_t fluent_add_builtins(struct fluent_bundle *bundle) {
    return rattle_fluent_add_builtins(bundle);
}

uint8_t fluent_declare_function(struct fluent_bundle *bundle, const uint8_t *name, size_t name_length, bool over) {
    return rattle_fluent_declare_function(bundle, text(name, name_length), name_length, over);
}

uint8_t fluent_declare_formatter(struct fluent_bundle *bundle, bool on) {
    return rattle_fluent_declare_formatter(bundle, on);
}

uint8_t fluent_declare_transform(struct fluent_bundle *bundle, bool on) {
    return rattle_fluent_declare_transform(bundle, on);
}

uint8_t fluent_add(struct fluent_bundle *bundle, const uint8_t *source, size_t source_length) {
    return rattle_fluent_add(bundle, text(source, source_length), source_length);
}

uint8_t fluent_add_overriding(struct fluent_bundle *bundle, const uint8_t *source, size_t source_length) {
    return rattle_fluent_add_overriding(bundle, text(source, source_length), source_length);
}

uint8_t fluent_report(struct fluent_bundle *bundle, uint8_t *out, size_t out_room, size_t *length) {
    return rattle_fluent_report(bundle, buffer(out, out_room), out_room, length);
}

uint8_t fluent_ids(struct fluent_bundle *bundle, uint8_t *out, size_t out_room, size_t *length) {
    return rattle_fluent_ids(bundle, buffer(out, out_room), out_room, length);
}

uint8_t fluent_attributes(struct fluent_bundle *bundle, const uint8_t *id, size_t id_length, uint8_t *out,
                          size_t out_room, size_t *length) {
    return rattle_fluent_attributes(bundle, text(id, id_length), id_length, buffer(out, out_room), out_room, length);
}

uint8_t fluent_variables(struct fluent_bundle *bundle, const uint8_t *id, size_t id_length, const uint8_t *attribute,
                         size_t attribute_length, uint8_t *out, size_t out_room, size_t *length) {
    return rattle_fluent_variables(bundle, text(id, id_length), id_length, text(attribute, attribute_length),
                                   attribute_length, buffer(out, out_room), out_room, length);
}

uint8_t fluent_has(struct fluent_bundle *bundle, const uint8_t *id, size_t id_length) {
    return rattle_fluent_has(bundle, text(id, id_length), id_length);
}

uint8_t fluent_find(struct fluent_bundle *bundle, const uint8_t *id, size_t id_length, const uint8_t *attribute,
                    size_t attribute_length) {
    return rattle_fluent_find(bundle, text(id, id_length), id_length, text(attribute, attribute_length),
                              attribute_length);
}

/* One round of a formatting call: the proved one, by the answers so far. */
static uint8_t format_round(struct fluent_bundle *bundle, const struct wanted *w, const uint8_t *answers,
                            size_t answers_length, uint8_t *out, size_t out_room) {
    return rattle_fluent_format_asking(
        bundle, &nothing, w->records, text(w->id, w->id_length), w->id_length, text(w->attribute, w->attribute_length),
        w->attribute_length, text(w->arguments, w->arguments_length), w->arguments_length, text(answers, answers_length),
        answers_length, buffer(out, out_room), out_room, buffer(w->err, w->err_room), w->err_room, w->lengths);
}

uint8_t fluent_format_asking(struct fluent_bundle *bundle, const uint8_t *id, size_t id_length, const uint8_t *attribute,
                             size_t attribute_length, const uint8_t *arguments, size_t arguments_length,
                             const uint8_t *answers, size_t answers_length, uint8_t *out, size_t out_room, uint8_t *err,
                             size_t err_room, struct fluent_lengths *lengths) {
    struct wanted wanted = {true, id, id_length, attribute, attribute_length, arguments, arguments_length, out, out_room,
                            err, err_room, lengths};
    return format_round(bundle, &wanted, answers, answers_length, out, out_room);
}

/* A formatting call with a line for each error, or a record. Where the bundle asks nothing it is one round. */
static inline uint8_t format(struct fluent_bundle *bundle, bool records, const uint8_t *id, size_t id_length,
                             const uint8_t *attribute, size_t attribute_length, const uint8_t *arguments,
                             size_t arguments_length, uint8_t *out, size_t out_room, uint8_t *err, size_t err_room,
                             struct fluent_lengths *lengths) {
    if (bundle->asks) {
        struct wanted wanted = {records, id, id_length, attribute, attribute_length, arguments, arguments_length, out,
                                out_room, err, err_room, lengths};
        return format_by_asking(bundle, &wanted, format_round);
    }
    return rattle_fluent_format_asking(bundle, &nothing, records, text(id, id_length), id_length,
                                       text(attribute, attribute_length), attribute_length,
                                       text(arguments, arguments_length), arguments_length, &nothing, 0,
                                       buffer(out, out_room), out_room, buffer(err, err_room), err_room, lengths);
}

uint8_t fluent_format(struct fluent_bundle *bundle, const uint8_t *id, size_t id_length, const uint8_t *attribute,
                      size_t attribute_length, const uint8_t *arguments, size_t arguments_length, uint8_t *out,
                      size_t out_room, uint8_t *err, size_t err_room, struct fluent_lengths *lengths) {
    return format(bundle, false, id, id_length, attribute, attribute_length, arguments, arguments_length, out, out_room,
                  err, err_room, lengths);
}

uint8_t fluent_format_records(struct fluent_bundle *bundle, const uint8_t *id, size_t id_length,
                              const uint8_t *attribute, size_t attribute_length, const uint8_t *arguments,
                              size_t arguments_length, uint8_t *out, size_t out_room, uint8_t *err, size_t err_room,
                              struct fluent_lengths *lengths) {
    return format(bundle, true, id, id_length, attribute, attribute_length, arguments, arguments_length, out, out_room,
                  err, err_room, lengths);
}

static bool some_ask(const struct fluent_bundle *bundles, size_t count) {
    for (size_t i = 0; i < count; i++)
        if (bundles[i].asks)
            return true;
    return false;
}

uint8_t fluent_format_chain(struct fluent_bundle *bundles, size_t count, const uint8_t *id, size_t id_length,
                            const uint8_t *attribute, size_t attribute_length, const uint8_t *arguments,
                            size_t arguments_length, uint8_t *out, size_t out_room, uint8_t *err, size_t err_room,
                            struct fluent_lengths *lengths) {
    if (!some_ask(bundles, count))
        return rattle_fluent_format_chain(&nothing, false, bundles_at(bundles, count), count, text(id, id_length),
                                          id_length, text(attribute, attribute_length), attribute_length,
                                          text(arguments, arguments_length), arguments_length, &nothing, 0,
                                          buffer(out, out_room), out_room, buffer(err, err_room), err_room, lengths);
    size_t index = 0;
    uint8_t status = fluent_find_chain(bundles, count, id, id_length, attribute, attribute_length, &index);
    if (status != FLUENT_OK) {
        *lengths = (struct fluent_lengths){0, 0};
        return status;
    }
    return fluent_format(&bundles[index], id, id_length, attribute, attribute_length, arguments, arguments_length, out,
                         out_room, err, err_room, lengths);
}

uint8_t fluent_find_chain(struct fluent_bundle *bundles, size_t count, const uint8_t *id, size_t id_length,
                          const uint8_t *attribute, size_t attribute_length, size_t *index) {
    return rattle_fluent_find_chain(bundles_at(bundles, count), count, text(id, id_length), id_length,
                                    text(attribute, attribute_length), attribute_length, index);
}

uint8_t fluent_check(const uint8_t *language, size_t language_length, const uint8_t *sources, size_t sources_length,
                     const uint8_t *beside, size_t beside_length, const uint8_t *references, size_t references_length,
                     const uint8_t *functions, size_t functions_length, bool as_json, uint8_t *out, size_t out_room,
                     struct fluent_checked *told) {
    return rattle_fluent_check(text(language, language_length), language_length, text(sources, sources_length),
                               sources_length, text(beside, beside_length), beside_length,
                               text(references, references_length), references_length,
                               text(functions, functions_length), functions_length, as_json, buffer(out, out_room),
                               out_room, told);
}

const char *fluent_version(void) {
    return FLUENT_VERSION;
}

_Static_assert(sizeof(struct fluent_bundle) < 256 && sizeof(struct fluent_lengths) < 256 &&
                   sizeof(struct fluent_value) < 256 && sizeof(struct fluent_call) < 256 &&
                   sizeof(struct fluent_checked) < 256,
               "each size has a byte");

uint64_t fluent_sizes(void) {
    return FLUENT_SIZES;
}

void fluent_close(struct fluent_bundle *bundle) {
    rattle_fluent_close(bundle);
    forget_functions(bundle);
}
