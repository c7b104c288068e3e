/* What fixtures name: functions by their kinds, two formatters and a transform. Each gives a value, which is answered through a
   pointer, or put behind the question that asks for it. */
#ifndef OBJECTS_H
#define OBJECTS_H
#include "fluent.h"
#include "records.h"

#define MOST_FUNCTIONS 8

struct named_kind {
    struct text name, kind;
};

/* What a bundle was given. */
struct objects {
    struct named_kind functions[MOST_FUNCTIONS];
    size_t count;
    struct text formatter;
};

/* A text that a value is made of, until the next one is. */
static char made[1 << 16];

static inline struct fluent_value new_value(enum fluent_kind kind, const void *text, size_t length) {
    return (struct fluent_value){kind, NULL, 0, text, length};
}

static inline struct fluent_value nothing_of(enum fluent_kind kind) {
    return new_value(kind, NULL, 0);
}

static inline bool is_word(struct text text, const char *word) {
    return text.length == strlen(word) && !memcmp(text.at, word, text.length);
}

/* ---- what they give */

static inline struct fluent_value length_of(const struct fluent_value *text) {
    return new_value(FLUENT_NUMBER, made, (size_t)snprintf(made, sizeof made, "%zu", text->length));
}

static inline struct fluent_value called(struct text kind, const struct fluent_call *call) {
    const struct fluent_value *values = call->positional, *x = fluent_named(call, "x");
    size_t count = call->positional_count;
    if (kind.at[0] == '"')
        return new_value(FLUENT_TEXT, kind.at + 1, kind.length - 2);
    if (is_word(kind, "none"))
        return nothing_of(FLUENT_NONE);
    if (is_word(kind, "star"))
        return new_value(FLUENT_OWN, "star\n*", 6);
    if (is_word(kind, "one"))
        return new_value(FLUENT_NUMBER, "1", 1);
    if (is_word(kind, "first") && count > 0)
        return values[0];
    if (is_word(kind, "second") && count > 1)
        return values[1];
    if (is_word(kind, "named") && x)
        return *x;
    if (is_word(kind, "length") && count == 1 && values->kind == FLUENT_TEXT)
        return length_of(values);
    return nothing_of(FLUENT_ERROR);
}

static inline const char *name_of_kind(enum fluent_kind kind) {
    switch (kind) {
    case FLUENT_TEXT: return "text";
    case FLUENT_NUMBER: return "number";
    case FLUENT_OWN: return "custom";
    case FLUENT_NONE: return "nothing";
    case FLUENT_ERROR: return "error";
    }
    abort();
}

static inline struct fluent_value shown(struct text formatter, const struct fluent_value *value) {
    const char *name = name_of_kind(value->kind);
    if (is_word(formatter, "kinds"))
        return new_value(FLUENT_TEXT, name, strlen(name));
    if (value->kind != FLUENT_TEXT)
        return nothing_of(FLUENT_NONE);
    if (value->length + 2 > sizeof made)
        abort();
    made[0] = '[';
    if (value->length)
        memcpy(made + 1, value->text, value->length);
    made[value->length + 1] = ']';
    return new_value(FLUENT_TEXT, made, value->length + 2);
}

static inline struct fluent_value in_upper_case(const uint8_t *text, size_t length) {
    if (length > sizeof made)
        abort();
    for (size_t i = 0; i < length; i++)
        made[i] = (char)(text[i] >= 'a' && text[i] <= 'z' ? text[i] - 32 : text[i]);
    return new_value(FLUENT_TEXT, made, length);
}

/* ---- through pointers */

static inline bool answer_value(struct fluent_answer *answer, struct fluent_value value) {
    fluent_answer(answer, value.kind, value.text, value.length);
    return true;
}

static inline bool call_kind(void *user, const struct fluent_call *call, struct fluent_answer *answer) {
    return answer_value(answer, called(((const struct named_kind *)user)->kind, call));
}

static inline bool show_value(void *user, const struct fluent_value *value, struct fluent_answer *answer) {
    return answer_value(answer, shown(*(const struct text *)user, value));
}

static inline bool raise_text(void *user, const uint8_t *text, size_t length, struct fluent_answer *answer) {
    (void)user;
    return answer_value(answer, in_upper_case(text, length));
}

/* ---- by questions */

static inline struct fluent_value next_value(const uint8_t **at, const uint8_t *end) {
    struct fluent_value value = {.kind = (enum fluent_kind)*(*at)++};
    struct text name = read_text(at, end), text = read_text(at, end);
    value.name = name.at, value.name_length = name.length;
    value.text = text.at, value.length = text.length;
    return value;
}

/* Values of a question, of which the named ones come last. */
static inline struct fluent_value called_by_name(const struct objects *objects, const uint8_t *at, const uint8_t *end) {
    struct fluent_value values[64];
    struct fluent_call call = {values, 0, NULL, 0};
    struct text name = read_text(&at, end);
    size_t count = 0, i = 0;
    while (at < end) {
        if (count == sizeof values / sizeof *values)
            abort();
        values[count] = next_value(&at, end);
        call.positional_count += values[count++].name_length == 0;
    }
    call.named = values + call.positional_count;
    call.named_count = count - call.positional_count;
    while (objects->functions[i].name.length != name.length || memcmp(objects->functions[i].name.at, name.at, name.length))
        if (++i >= objects->count)
            abort();
    return called(objects->functions[i].kind, &call);
}

/* What the objects of a bundle answer to a question. */
static inline struct fluent_value answer_of(const struct objects *objects, const uint8_t *question, size_t length) {
    const uint8_t *at = question + 1, *end = question + length;
    struct fluent_value value;
    switch (*question) {
    case 'f':
        return called_by_name(objects, at, end);
    case 'v':
        value = next_value(&at, end);
        return shown(objects->formatter, &value);
    default:
        return in_upper_case(at + 4, length - 5);
    }
}

#endif
