/* A message with an argument, and one whose plural form the language chooses. */
#include "fluent.h"
#include <stdio.h>

#define TEXT(s) (const uint8_t *)(s), sizeof(s) - 1

static const char source[] = "hello = Hello, { $name }!\n"
                             "mails = { $n ->\n    [one] one mail\n   *[other] { $n } mails\n }\n";

static void show(const uint8_t *id, size_t id_length, const uint8_t *arguments, size_t length) {
    uint8_t out[256], err[256];
    struct fluent_lengths lengths;
    uint8_t status = fluent_format_source(TEXT("en"), false, TEXT(source), id, id_length, TEXT(""), arguments, length, out,
                                          sizeof out, err, sizeof err, &lengths);
    if (status != FLUENT_OK)
        printf("status %d\n", status);
    else
        printf("%.*s\n%.*s", (int)lengths.text, out, (int)lengths.errors, err);
}

int main(void) {
    uint8_t name[64], one[64], three[64];
    show(TEXT("hello"), name, (size_t)(fluent_put_argument(name, FLUENT_TEXT, "name", 4, "Ada", 3) - name));
    show(TEXT("hello"), name, 0);
    show(TEXT("mails"), one, (size_t)(fluent_put_argument(one, FLUENT_NUMBER, "n", 1, "1", 1) - one));
    show(TEXT("mails"), three, (size_t)(fluent_put_argument(three, FLUENT_NUMBER, "n", 1, "3", 1) - three));
    show(TEXT("gone"), name, 0);
}
