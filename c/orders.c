/* Texts of a shop in two languages: what Polish lacks is shown in English. A function shows dates, a formatter shows numbers,
   and errors are told apart. */
#include "fluent.h"
#include <stdio.h>
#include <stdlib.h>
#include <time.h>

#define TEXT(s) (const uint8_t *)(s), strlen(s)

static const char polish[] = "sent = Wysłano: { DATE($when) }, { $boxes ->\n"
                             "    [one] jedna paczka\n"
                             "    [few] { $boxes } paczki\n"
                             "   *[many] { $boxes } paczek\n"
                             "  }\n"
                             "price = Razem { NUMBER($total, minimumFractionDigits: 2) } zł\n";
static const char english[] = "thanks = Thank you, { $name }! We expect your parcel on { DATE($when, month: \"long\") }.\n"
                              "broken = { thanks.title } { $who }\n";

/* DATE($when): the token of a date is its seconds. */
static bool date(void *user, const struct fluent_call *call, struct fluent_answer *answer) {
    const struct fluent_value *when = call->positional, *month = fluent_named(call, "month");
    bool is_long = month && month->length == 4 && !memcmp(month->text, "long", 4);
    char text[64];
    (void)user;
    if (call->positional_count != 1 || when->kind != FLUENT_OWN) {
        fluent_answer(answer, FLUENT_ERROR, NULL, 0);
        return true;
    }
    time_t seconds = (time_t)strtoll((const char *)when->text, NULL, 10);
    fluent_answer(answer, FLUENT_TEXT, text, strftime(text, sizeof text, is_long ? "%d %B %Y" : "%Y-%m-%d", gmtime(&seconds)));
    return true;
}

/* Numbers have the point that the user's text begins with. */
static bool number(void *user, const struct fluent_value *value, struct fluent_answer *answer) {
    char text[64];
    size_t length;
    const uint8_t *digits = value->kind == FLUENT_NUMBER ? fluent_option(value, "", &length) : NULL;
    if (!digits || length > sizeof text)
        return true;
    for (size_t i = 0; i < length; i++)
        text[i] = digits[i] == '.' ? *(const char *)user : (char)digits[i];
    fluent_answer(answer, FLUENT_TEXT, text, length);
    return true;
}

static bool open_bundle(struct fluent_bundle *bundle, const char *language, char *point, const char *source) {
    return fluent_open(bundle, TEXT(language), false) == FLUENT_OK &&
           fluent_add_function(bundle, TEXT("DATE"), date, NULL) == FLUENT_OK &&
           fluent_set_formatter(bundle, number, point) == FLUENT_OK && fluent_add(bundle, TEXT(source)) == FLUENT_OK;
}

/* Shows a message by the first of the bundles that has it, and its errors by their records. */
static void show(struct fluent_bundle *bundles, size_t count, const char *id, const uint8_t *arguments, size_t length) {
    uint8_t text[256], errors[256];
    struct fluent_lengths lengths;
    struct fluent_error error;
    const uint8_t *at = errors;
    size_t index;
    uint8_t status = fluent_find_chain(bundles, count, TEXT(id), NULL, 0, &index);
    if (status == FLUENT_OK)
        status = fluent_format_records(&bundles[index], TEXT(id), NULL, 0, arguments, length, text, sizeof text, errors,
                                       sizeof errors, &lengths);
    if (status != FLUENT_OK) {
        printf("%s: status %d\n", id, status);
        return;
    }
    printf("%s: %.*s\n", index ? "en" : "pl", (int)lengths.text, text);
    while (fluent_next_error(&at, errors + lengths.errors, &error))
        printf("  error '%c': %s %s\n", error.kind, error.id, error.attribute);
}

int main(void) {
    struct fluent_bundle bundles[2] = {FLUENT_CLOSED, FLUENT_CLOSED};
    uint8_t arguments[256], *end = arguments;
    end = fluent_put_argument(end, FLUENT_OWN, "when", 4, "1795910400\n2026-11-29", 21);
    end = fluent_put_argument(end, FLUENT_NUMBER, "boxes", 5, "3", 1);
    end = fluent_put_argument(end, FLUENT_NUMBER, "total", 5, "19.9", 4);
    end = fluent_put_argument(end, FLUENT_TEXT, "name", 4, "Ada", 3);
    if (fluent_fits() && open_bundle(&bundles[0], "pl", ",", polish) && open_bundle(&bundles[1], "en", ".", english)) {
        show(bundles, 2, "sent", arguments, (size_t)(end - arguments));
        show(bundles, 2, "price", arguments, (size_t)(end - arguments));
        show(bundles, 2, "thanks", arguments, (size_t)(end - arguments));
        show(bundles, 2, "broken", arguments, (size_t)(end - arguments));
        show(bundles, 2, "gone", arguments, (size_t)(end - arguments));
    }
    fluent_close(&bundles[0]);
    fluent_close(&bundles[1]);
}
