/* The program's functions, formatter and transform: kept beside a bundle, and asked by their pointers what the proved
   calls ask by questions. */
#include "asking.h"
#include <stdlib.h>

struct function {
    uint8_t *name;
    size_t name_length;
    fluent_function *call;
    void *user;
};

/* What a program registered for a bundle. */
struct fluent_asks {
    struct function *functions;
    size_t count, room;
    fluent_formatter *formatter;
    void *formatter_user;
    fluent_transform *transform;
    void *transform_user;
};

/* ---- memory */

/* A block of this size in place of another, or a first one. */
static void *grown(void *at, size_t size) {
    return at ? realloc(at, size) : malloc(size);
}

/* ---- what is registered */

static struct fluent_asks *asks_of(struct fluent_bundle *bundle) {
    if (!bundle->asks && (bundle->asks = malloc(sizeof *bundle->asks)))
        *bundle->asks = (struct fluent_asks){0};
    return bundle->asks;
}

static struct function *function_of(const struct fluent_asks *asks, const uint8_t *name, size_t name_length) {
    for (size_t i = 0; asks && i < asks->count; i++) {
        struct function *function = &asks->functions[i];
        if (function->name_length == name_length && !memcmp(function->name, name, name_length))
            return function;
    }
    return NULL;
}

static bool room_for_function(struct fluent_asks *asks) {
    if (asks->count < asks->room)
        return true;
    size_t room = 2 * asks->room + 4;
    struct function *functions = grown(asks->functions, room * sizeof *functions);
    if (!functions)
        return false;
    asks->functions = functions;
    asks->room = room;
    return true;
}

static uint8_t *copy_of(const uint8_t *at, size_t length) {
    uint8_t *copy = malloc(length + 1);
    if (copy && length)
        memcpy(copy, at, length);
    return copy;
}

static uint8_t register_function(struct fluent_bundle *bundle, const uint8_t *name, size_t name_length,
                                 fluent_function *call, void *user, bool over) {
    if (!bundle->is_open)
        return FLUENT_CLOSED_BUNDLE;
    struct fluent_asks *asks = asks_of(bundle);
    uint8_t *copy = asks && room_for_function(asks) ? copy_of(name, name_length) : NULL;
    if (!copy)
        return FLUENT_NO_MEMORY;
    uint8_t status = fluent_declare_function(bundle, name, name_length, over);
    if (status != FLUENT_OK) {
        free(copy);
        return status;
    }
    struct function *function = function_of(asks, copy, name_length);
    if (function)
        free(function->name);
    else
        function = &asks->functions[asks->count++];
    *function = (struct function){copy, name_length, call, user};
    return FLUENT_OK;
}

uint8_t fluent_add_function(struct fluent_bundle *bundle, const uint8_t *name, size_t name_length,
                            fluent_function *function, void *user) {
    return register_function(bundle, name, name_length, function, user, false);
}

uint8_t fluent_override_function(struct fluent_bundle *bundle, const uint8_t *name, size_t name_length,
                                 fluent_function *function, void *user) {
    return register_function(bundle, name, name_length, function, user, true);
}

uint8_t fluent_set_formatter(struct fluent_bundle *bundle, fluent_formatter *formatter, void *user) {
    if (!bundle->is_open)
        return FLUENT_CLOSED_BUNDLE;
    struct fluent_asks *asks = asks_of(bundle);
    if (!asks)
        return FLUENT_NO_MEMORY;
    asks->formatter = formatter;
    asks->formatter_user = user;
    return fluent_declare_formatter(bundle, formatter != NULL);
}

uint8_t fluent_set_transform(struct fluent_bundle *bundle, fluent_transform *transform, void *user) {
    if (!bundle->is_open)
        return FLUENT_CLOSED_BUNDLE;
    struct fluent_asks *asks = asks_of(bundle);
    if (!asks)
        return FLUENT_NO_MEMORY;
    asks->transform = transform;
    asks->transform_user = user;
    return fluent_declare_transform(bundle, transform != NULL);
}

void forget_functions(struct fluent_bundle *bundle) {
    struct fluent_asks *asks = bundle->asks;
    if (!asks)
        return;
    for (size_t i = 0; i < asks->count; i++)
        free(asks->functions[i].name);
    free(asks->functions);
    free(asks);
    bundle->asks = NULL;
}

/* ---- answers */

struct bytes {
    uint8_t *at;
    size_t length, room;
};

static bool reserve(struct bytes *bytes, size_t room) {
    if (bytes->room >= room && bytes->at)
        return true;
    size_t enough = 2 * bytes->room > room ? 2 * bytes->room : room;
    uint8_t *at = grown(bytes->at, enough);
    if (!at)
        return false;
    bytes->at = at;
    bytes->room = enough;
    return true;
}

/* Where a function puts its answer: behind those of before, and behind its question. */
struct fluent_answer {
    struct bytes *answers;
    const uint8_t *question;
    size_t question_length;
    size_t begin;
    bool has_no_memory;
};

void fluent_answer(struct fluent_answer *answer, enum fluent_kind kind, const void *text, size_t length) {
    struct bytes *answers = answer->answers;
    if (answer->question_length > UINT32_MAX || length > UINT32_MAX ||
        !reserve(answers, answer->begin + fluent_argument_length(answer->question_length, length))) {
        answer->has_no_memory = true;
        return;
    }
    uint8_t *end = fluent_put_argument(answers->at + answer->begin, kind, answer->question, answer->question_length, text,
                                       length);
    answers->length = (size_t)(end - answers->at);
}

/* ---- questions */

/* What is kept from question to question of one call. */
struct asking {
    struct bytes answers;
    struct bytes text;
    struct fluent_value *values;
    size_t room;
};

static const uint8_t *sized(const uint8_t **at, size_t *length) {
    *length = 0;
    for (int i = 0; i < 4; i++)
        *length |= (size_t)*(*at)++ << 8 * i;
    *at += *length;
    return *at - *length;
}

static struct fluent_value next_value(const uint8_t **at) {
    struct fluent_value value = {.kind = (enum fluent_kind) *(*at)++};
    value.name = sized(at, &value.name_length);
    value.text = sized(at, &value.length);
    return value;
}

/* Reads the values of a question, of which the named ones come last. */
static bool read_values(struct asking *asking, const uint8_t *at, const uint8_t *end, struct fluent_call *call) {
    size_t most = (size_t)(end - at) / 9 + 1, count = 0, positional = 0;
    if (asking->room < most) {
        struct fluent_value *values = grown(asking->values, most * sizeof *values);
        if (!values)
            return false;
        asking->values = values;
        asking->room = most;
    }
    while (at < end) {
        asking->values[count] = next_value(&at);
        positional += asking->values[count++].name_length == 0;
    }
    *call = (struct fluent_call){asking->values, positional, asking->values + positional, count - positional};
    return true;
}

static uint8_t ask_function(struct fluent_asks *asks, struct asking *asking, struct fluent_answer *answer) {
    const uint8_t *at = answer->question + 1, *end = answer->question + answer->question_length;
    size_t name_length;
    const uint8_t *name = sized(&at, &name_length);
    struct function *function = function_of(asks, name, name_length);
    struct fluent_call call;
    if (!function)
        return FLUENT_FUNCTION_FAILED;
    if (!read_values(asking, at, end, &call))
        return FLUENT_NO_MEMORY;
    fluent_answer(answer, FLUENT_NONE, NULL, 0);
    return function->call(function->user, &call, answer) ? FLUENT_OK : FLUENT_FUNCTION_FAILED;
}

static uint8_t ask_formatter(struct fluent_asks *asks, struct fluent_answer *answer) {
    const uint8_t *at = answer->question + 1;
    struct fluent_value value = next_value(&at);
    if (!asks || !asks->formatter)
        return FLUENT_FUNCTION_FAILED;
    fluent_answer(answer, FLUENT_NONE, NULL, 0);
    return asks->formatter(asks->formatter_user, &value, answer) ? FLUENT_OK : FLUENT_FUNCTION_FAILED;
}

static uint8_t ask_transform(struct fluent_asks *asks, struct fluent_answer *answer) {
    const uint8_t *at = answer->question + 1;
    size_t length;
    const uint8_t *text = sized(&at, &length);
    if (!asks || !asks->transform)
        return FLUENT_FUNCTION_FAILED;
    fluent_answer(answer, FLUENT_TEXT, text, length);
    return asks->transform(asks->transform_user, text, length, answer) ? FLUENT_OK : FLUENT_FUNCTION_FAILED;
}

/* Asks the program, and puts its answer behind the others. */
static uint8_t ask(struct fluent_bundle *bundle, struct asking *asking, size_t length) {
    struct fluent_answer answer = {&asking->answers, asking->text.at, length, asking->answers.length, false};
    uint8_t status;
    switch (asking->text.at[0]) {
    case 'f': status = ask_function(bundle->asks, asking, &answer); break;
    case 'v': status = ask_formatter(bundle->asks, &answer); break;
    default: status = ask_transform(bundle->asks, &answer);
    }
    return answer.has_no_memory ? FLUENT_NO_MEMORY : status;
}

/* ---- the loop */

/* The text is written apart, so that no question stands in the program's buffer. There is as much room for it as there,
   or more. */
static uint8_t go_on(struct fluent_bundle *bundle, const struct wanted *wanted, format_round_call *round,
                     struct asking *asking) {
    struct bytes *text = &asking->text;
    for (;;) {
        uint8_t status = round(bundle, wanted, asking->answers.at, asking->answers.length, text->at, text->room);
        size_t length = wanted->lengths->text;
        if (status == FLUENT_ASKS && length > text->room)
            status = reserve(text, length) ? FLUENT_OK : FLUENT_NO_MEMORY;
        else if (status == FLUENT_ASKS)
            status = ask(bundle, asking, length);
        else
            return status;
        if (status != FLUENT_OK)
            return status;
    }
}

uint8_t format_by_asking(struct fluent_bundle *bundle, const struct wanted *wanted, format_round_call *round) {
    struct asking asking = {0};
    uint8_t status = FLUENT_NO_MEMORY;
    if (reserve(&asking.text, wanted->out_room > 256 ? wanted->out_room : 256))
        status = go_on(bundle, wanted, round, &asking);
    size_t length = wanted->lengths->text;
    if (status <= FLUENT_TOO_SMALL && length <= wanted->out_room) {
        if (length)
            memcpy(wanted->out, asking.text.at, length);
    } else if (status == FLUENT_OK)
        status = FLUENT_TOO_SMALL;
    if (status > FLUENT_TOO_SMALL)
        *wanted->lengths = (struct fluent_lengths){0, 0};
    free(asking.answers.at);
    free(asking.text.at);
    free(asking.values);
    return status;
}
