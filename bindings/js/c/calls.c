/* What JavaScript calls: the proved calls behind c/fluent.h, by the same names without fluent_. Addresses and lengths are numbers of
   32 bits, since the memory is smaller than 4 gigabytes, so that JavaScript needs no BigInt. No address that it gives is null. */
#include "fluent.h"

/* A call that JavaScript finds by its name. The attribute export_name would do so too, and would make a table that nothing uses,
   which engines without memories of 64 bits do not know. */
#define CALL(result, name, ...)                                                                                        \
    __asm__(".export_name js_" #name ", " #name);                                                                      \
    result js_##name(__VA_ARGS__);                                                                                     \
    result js_##name(__VA_ARGS__)

#define PROVED(name) extern __typeof__(name) rattle_##name

#define AT(type, address) ((type *)(uintptr_t)(address))
#define BUNDLE(address) AT(struct fluent_bundle, address)
#define TEXT(text) AT(const uint8_t, text##_at), text##_length
#define ROOM(text) AT(uint8_t, text##_at), text##_room
#define TEXT_OF(text) word text##_at, word text##_length
#define ROOM_OF(text) word text##_at, word text##_room

typedef uint32_t word;

PROVED(fluent_open);
PROVED(fluent_open_bare);
PROVED(fluent_open_rules);
PROVED(fluent_set_limit);
PROVED(fluent_add_builtins);
PROVED(fluent_declare_function);
PROVED(fluent_declare_formatter);
PROVED(fluent_declare_transform);
PROVED(fluent_add);
PROVED(fluent_add_overriding);
PROVED(fluent_report);
PROVED(fluent_ids);
PROVED(fluent_attributes);
PROVED(fluent_variables);
PROVED(fluent_has);
PROVED(fluent_find);
PROVED(fluent_close);

/* As c/library.c calls them. What the program means by its answers has no bytes; it is pointed at all the same. */
uint8_t rattle_fluent_format_asking(struct fluent_bundle *bundle, const void *meant, bool records, const uint8_t *id,
                                    size_t id_length, const uint8_t *attribute, size_t attribute_length,
                                    const uint8_t *arguments, size_t arguments_length, const uint8_t *answers,
                                    size_t answers_length, uint8_t *out, size_t out_room, uint8_t *err, size_t err_room,
                                    struct fluent_lengths *lengths);
uint8_t rattle_fluent_format_chain(const void *meant, bool records, struct fluent_bundle *bundles, size_t count,
                                   const uint8_t *id, size_t id_length, const uint8_t *attribute,
                                   size_t attribute_length, const uint8_t *arguments, size_t arguments_length,
                                   const uint8_t *answers, size_t answers_length, uint8_t *out, size_t out_room,
                                   uint8_t *err, size_t err_room, struct fluent_lengths *lengths);

/* heap.c has these. */
struct tried {
    bool ok;
    uint8_t *at;
};

struct tried rattle_alloc(size_t size, size_t align);
void rattle_dealloc(uint8_t *at);
extern uint32_t heap_taken;
extern int32_t heap_left;

/* What is pointed at where there are no bytes. */
static uint8_t nothing;

/* The lengths that the last call wrote. */
static struct fluent_lengths lengths;

CALL(word, text_length, void) {
    return (word)lengths.text;
}

CALL(word, errors_length, void) {
    return (word)lengths.errors;
}

/* Memory for texts: 0 where there is none. */
CALL(word, take, word size) {
    struct tried tried = rattle_alloc(size, 16);
    return tried.ok ? (word)(uintptr_t)tried.at : 0;
}

CALL(void, give, word address) {
    rattle_dealloc(AT(uint8_t, address));
}

/* For tests: how many blocks of memory are taken, and how many more are given, which may be all (-1). */
CALL(word, blocks, void) {
    return heap_taken;
}

CALL(void, refuse_after, int32_t count) {
    heap_left = count;
}

/* Closed bundles side by side: 0 where there is no memory. */
CALL(word, new_bundles, word count) {
    word address = js_take(count * (word)sizeof(struct fluent_bundle));
    for (word i = 0; address && i < count; i++)
        BUNDLE(address)[i] = (struct fluent_bundle)FLUENT_CLOSED;
    return address;
}

CALL(word, bundle_at, word bundles, word index) {
    return (word)(uintptr_t)(BUNDLE(bundles) + index);
}

CALL(word, open, word bundle, TEXT_OF(tag), word isolates) {
    return rattle_fluent_open(BUNDLE(bundle), TEXT(tag), isolates != 0);
}

CALL(word, open_bare, word bundle, TEXT_OF(tag), word isolates) {
    return rattle_fluent_open_bare(BUNDLE(bundle), TEXT(tag), isolates != 0);
}

CALL(word, open_rules, word bundle, TEXT_OF(cardinal), TEXT_OF(ordinal), word isolates) {
    return rattle_fluent_open_rules(BUNDLE(bundle), TEXT(cardinal), TEXT(ordinal), isolates != 0);
}

CALL(word, set_limit, word bundle, word limit) {
    return rattle_fluent_set_limit(BUNDLE(bundle), limit);
}

CALL(word, add_builtins, word bundle) {
    return rattle_fluent_add_builtins(BUNDLE(bundle));
}

CALL(word, declare_function, word bundle, TEXT_OF(name), word overrides) {
    return rattle_fluent_declare_function(BUNDLE(bundle), TEXT(name), overrides != 0);
}

CALL(word, declare_formatter, word bundle, word on) {
    return rattle_fluent_declare_formatter(BUNDLE(bundle), on != 0);
}

CALL(word, declare_transform, word bundle, word on) {
    return rattle_fluent_declare_transform(BUNDLE(bundle), on != 0);
}

CALL(word, add, word bundle, TEXT_OF(source)) {
    return rattle_fluent_add(BUNDLE(bundle), TEXT(source));
}

CALL(word, add_overriding, word bundle, TEXT_OF(source)) {
    return rattle_fluent_add_overriding(BUNDLE(bundle), TEXT(source));
}

CALL(word, report, word bundle, ROOM_OF(out)) {
    return rattle_fluent_report(BUNDLE(bundle), ROOM(out), &lengths.text);
}

CALL(word, ids, word bundle, ROOM_OF(out)) {
    return rattle_fluent_ids(BUNDLE(bundle), ROOM(out), &lengths.text);
}

CALL(word, attributes, word bundle, TEXT_OF(id), ROOM_OF(out)) {
    return rattle_fluent_attributes(BUNDLE(bundle), TEXT(id), ROOM(out), &lengths.text);
}

CALL(word, variables, word bundle, TEXT_OF(id), TEXT_OF(name), ROOM_OF(out)) {
    return rattle_fluent_variables(BUNDLE(bundle), TEXT(id), TEXT(name), ROOM(out), &lengths.text);
}

CALL(word, has, word bundle, TEXT_OF(id)) {
    return rattle_fluent_has(BUNDLE(bundle), TEXT(id));
}

CALL(word, find, word bundle, TEXT_OF(id), TEXT_OF(name)) {
    return rattle_fluent_find(BUNDLE(bundle), TEXT(id), TEXT(name));
}

CALL(word, format, word bundle, word records, TEXT_OF(id), TEXT_OF(name), TEXT_OF(args), TEXT_OF(answers), ROOM_OF(out),
     ROOM_OF(err)) {
    return rattle_fluent_format_asking(BUNDLE(bundle), &nothing, records != 0, TEXT(id), TEXT(name), TEXT(args),
                                       TEXT(answers), ROOM(out), ROOM(err), &lengths);
}

CALL(word, format_chain, word bundles, word records, word count, TEXT_OF(id), TEXT_OF(name), TEXT_OF(args),
     TEXT_OF(answers), ROOM_OF(out), ROOM_OF(err)) {
    return rattle_fluent_format_chain(&nothing, records != 0, BUNDLE(bundles), count, TEXT(id), TEXT(name), TEXT(args),
                                      TEXT(answers), ROOM(out), ROOM(err), &lengths);
}

CALL(void, close, word bundle) {
    rattle_fluent_close(BUNDLE(bundle));
}
