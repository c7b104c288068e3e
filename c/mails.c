/* A bundle with a message that has an argument, and one whose plural form the language chooses. */
#include "fluent.h"
#include <stdio.h>

#define TEXT(s) (const uint8_t *)(s), strlen(s)

static const char source[] = "hello = Hello, { $name }!\n"
                             "mails = { $n ->\n    [one] One mail\n   *[other] { $n } mails\n }\n";

static void show(struct fluent_bundle *bundle, const char *id, enum fluent_kind kind, const char *name, const char *value) {
    uint8_t argument[64], text[256], errors[256];
    struct fluent_lengths lengths;
    uint8_t *end = fluent_put_argument(argument, kind, name, strlen(name), value, strlen(value));
    if (fluent_format(bundle, TEXT(id), NULL, 0, argument, (size_t)(end - argument), text, sizeof text, errors,
                      sizeof errors, &lengths) == FLUENT_OK)
        printf("%.*s\n%.*s", (int)lengths.text, text, (int)lengths.errors, errors);
}

int main(void) {
    struct fluent_bundle bundle = FLUENT_CLOSED;
    if (fluent_fits() && fluent_open(&bundle, TEXT("en"), false) == FLUENT_OK &&
        fluent_add(&bundle, TEXT(source)) == FLUENT_OK) {
        show(&bundle, "hello", FLUENT_TEXT, "name", "Ada");
        show(&bundle, "mails", FLUENT_NUMBER, "n", "1");
        show(&bundle, "mails", FLUENT_NUMBER, "n", "3");
        show(&bundle, "hello", FLUENT_NUMBER, "n", "3");
    }
    fluent_close(&bundle);
}
