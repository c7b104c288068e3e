/* What callers may hand in: texts that are not UTF-8, null pointers to nothing, arguments that are cut at each byte. */
#include "check.h"
#include "fence.h"

static struct fluent_bundle bundle = FLUENT_CLOSED;
static struct fluent_lengths lengths;
static uint8_t out[64], err[128];

/* Bytes that are no UTF-8: none begins so, it is cut, it goes on without a beginning, it is longer than need be, a
   surrogate, too high. */
static const struct {
    const char *at;
    size_t length;
} no_text[] = {{"\xff", 1}, {"a\xe2\x81", 3}, {"\x80", 1}, {"\xc0\x80", 2}, {"\xed\xa0\x80", 3}, {"\xf4\x90\x80\x80", 4}};

static void open_bundle(void) {
    check(fluent_open(&bundle, TEXT("en"), false) == FLUENT_OK, "does not open");
    check(fluent_add(&bundle, TEXT("a = A{ $x }{ $y }\n    .b = B\n")) == FLUENT_OK, "does not add");
}

/* Formats with room for all, into buffers of which no byte may be written but at FLUENT_OK. */
static uint8_t format(const uint8_t *id, size_t id_length, const uint8_t *name, size_t name_length,
                      const uint8_t *arguments, size_t length) {
    memset(out, 0xA5, sizeof out);
    memset(err, 0xA5, sizeof err);
    uint8_t status = fluent_format(&bundle, id, id_length, name, name_length, arguments, length, out, sizeof out, err,
                                   sizeof err, &lengths);
    if (status > FLUENT_TOO_SMALL)
        check(is_untouched(out, sizeof out) && is_untouched(err, sizeof err) && !lengths.text && !lengths.errors,
              "something is written");
    return status;
}

static void not_utf8(void) {
    for (size_t i = 0; i < COUNT(no_text); i++) {
        const uint8_t *at = (const uint8_t *)no_text[i].at, *end;
        size_t length = no_text[i].length;
        uint8_t argument[32];
        check(fluent_open(&bundle, at, length, true) == FLUENT_LANGUAGE_NOT_UTF8, "a language");
        open_bundle();
        check(fluent_add(&bundle, at, length) == FLUENT_SOURCE_NOT_UTF8, "a source");
        check(fluent_has(&bundle, at, length) == FLUENT_ID_NOT_UTF8, "an id that is asked for");
        check(fluent_attributes(&bundle, at, length, out, sizeof out, &lengths.text) == FLUENT_ID_NOT_UTF8,
              "an id whose attributes are asked for");
        check(fluent_variables(&bundle, at, length, TEXT(""), out, sizeof out, &lengths.text) == FLUENT_ID_NOT_UTF8,
              "an id whose variables are asked for");
        check(fluent_variables(&bundle, TEXT("a"), at, length, out, sizeof out, &lengths.text) == FLUENT_ID_NOT_UTF8,
              "an attribute whose variables are asked for");
        check(fluent_find(&bundle, at, length, TEXT("")) == FLUENT_ID_NOT_UTF8, "an id that is looked for");
        check(fluent_find(&bundle, TEXT("a"), at, length) == FLUENT_ID_NOT_UTF8, "an attribute that is looked for");
        check(format(at, length, TEXT(""), TEXT("")) == FLUENT_ID_NOT_UTF8, "an id");
        check(format(TEXT("a"), at, length, TEXT("")) == FLUENT_ID_NOT_UTF8, "an attribute");
        end = fluent_put_argument(argument, FLUENT_TEXT, at, length, "v", 1);
        check(format(TEXT("a"), TEXT(""), argument, (size_t)(end - argument)) == FLUENT_ARGUMENTS_NOT_UTF8, "a name");
        end = fluent_put_argument(argument, FLUENT_NUMBER, "x", 1, at, length);
        check(format(TEXT("a"), TEXT(""), argument, (size_t)(end - argument)) == FLUENT_ARGUMENTS_NOT_UTF8, "a value");
        fluent_close(&bundle);
    }
}

static void null_texts(void) {
    check(fluent_open(&bundle, NULL, 0, true) == FLUENT_NO_LANGUAGE && bundle.is_open, "a language");
    fluent_close(&bundle);
    open_bundle();
    check(fluent_add(&bundle, NULL, 0) == FLUENT_OK, "a source");
    check(fluent_has(&bundle, NULL, 0) == FLUENT_NO_MESSAGE, "an id that is asked for");
    check(fluent_find(&bundle, NULL, 0, NULL, 0) == FLUENT_NO_MESSAGE, "an id that is looked for");
    check(fluent_variables(&bundle, NULL, 0, NULL, 0, NULL, 0, &lengths.text) == FLUENT_NO_MESSAGE,
          "an id whose variables are asked for");
    check(format(NULL, 0, NULL, 0, NULL, 0) == FLUENT_NO_MESSAGE, "an id");
    check(format(TEXT("a"), NULL, 0, NULL, 0) == FLUENT_OK && lengths.text == 9, "an attribute and arguments");
    check(fluent_format_source(NULL, 0, false, NULL, 0, NULL, 0, NULL, 0, NULL, 0, NULL, 0, NULL, 0, &lengths) ==
              FLUENT_NO_MESSAGE, "all of a source");
    check(fluent_format_source(TEXT("en"), false, NULL, 0, NULL, 0, NULL, 0, NULL, 0, NULL, 0, NULL, 0, &lengths) ==
              FLUENT_NO_MESSAGE, "all but the language");
    fluent_close(&bundle);
    check(fluent_open_rules(&bundle, NULL, 0, NULL, 0, false) == FLUENT_OK, "rules");
    fluent_close(&bundle);
}

static void null_buffers(void) {
    size_t length = 99;
    open_bundle();
    check(fluent_report(&bundle, NULL, 0, &length) == FLUENT_OK && length == 0, "a report");
    check(fluent_ids(&bundle, NULL, 0, &length) == FLUENT_TOO_SMALL && length == 2, "ids");
    check(fluent_format(&bundle, TEXT("a"), NULL, 0, NULL, 0, NULL, 0, NULL, 0, &lengths) == FLUENT_TOO_SMALL, "both");
    check(lengths.text == 9 && lengths.errors == 2 * strlen("Resolver error: Unknown variable: $x\n"), "lengths");
    check(fluent_format(&bundle, TEXT("a"), TEXT("b"), NULL, 0, out, 1, NULL, 0, &lengths) == FLUENT_OK, "no errors");
    check(out[0] == 'B' && lengths.text == 1 && lengths.errors == 0, "a text without errors");
    check(fluent_format(&bundle, TEXT("a"), TEXT("b"), NULL, 0, NULL, 0, NULL, 0, &lengths) == FLUENT_TOO_SMALL, "text");
    fluent_close(&bundle);
}

/* Where an argument ends, what is cut there is all before it; else it is told. */
static void cut_arguments(void) {
    uint8_t whole[64], *end;
    size_t ends[3] = {0};
    end = fluent_put_argument(whole, FLUENT_TEXT, "x", 1, "X\xc3\xa9", 3);
    ends[1] = (size_t)(end - whole);
    end = fluent_put_argument(end, FLUENT_NUMBER, "name", 4, "1.50", 4);
    ends[2] = (size_t)(end - whole);
    end = fluent_put_argument(end, FLUENT_TEXT, "", 0, "", 0);
    size_t length = (size_t)(end - whole);
    struct fence fence = new_fence(sizeof whole);
    open_bundle();
    for (size_t n = 0; n < length; n++) {
        bool is_whole = n == ends[0] || n == ends[1] || n == ends[2];
        uint8_t status = format(TEXT("a"), TEXT(""), fenced(fence, whole, n), n);
        check(status == (is_whole ? FLUENT_OK : FLUENT_ARGUMENTS_CUT), "arguments that are cut");
    }
    check(format(TEXT("a"), TEXT(""), fenced(fence, whole, length), length) == FLUENT_OK, "arguments");
    fluent_close(&bundle);
}

/* Lengths that say more than there is, up to the most that four bytes hold. */
static void long_arguments(void) {
    static const uint8_t highs[] = {0, 1, 0x7f, 0x80, 0xff};
    struct fence fence = new_fence(16);
    open_bundle();
    for (size_t place = 1; place < 7; place += 5)
        for (size_t i = 0; i < 4 * COUNT(highs); i++) {
            uint8_t argument[] = "n\1\0\0\0x\1\0\0\0" "1";
            argument[place + i % 4] |= highs[i / 4];
            bool is_longer = argument[place + i % 4] > (i % 4 == 0);
            uint8_t status = format(TEXT("a"), TEXT(""), fenced(fence, argument, 11), 11);
            check(status == (is_longer ? FLUENT_ARGUMENTS_CUT : FLUENT_OK), "a length");
        }
    fluent_close(&bundle);
}

/* A zero byte is a byte like any other, also at the end. */
static void zero_bytes(void) {
    uint8_t argument[16], *end = fluent_put_argument(argument, FLUENT_TEXT, "x\0", 2, "\0", 1);
    open_bundle();
    check(fluent_has(&bundle, TEXT("a\0")) == FLUENT_NO_MESSAGE, "an id");
    check(fluent_add(&bundle, TEXT("z = <\0>")) == FLUENT_OK, "a source");
    check(format(TEXT("z"), TEXT(""), TEXT("")) == FLUENT_OK && lengths.text == 3 && !memcmp(out, "<\0>", 3), "a text");
    check(format(TEXT("a"), TEXT(""), argument, (size_t)(end - argument)) == FLUENT_OK && lengths.text == 9, "a name");
    end = fluent_put_argument(argument, FLUENT_TEXT, "x", 1, "\0", 1);
    check(format(TEXT("a"), TEXT(""), argument, (size_t)(end - argument)) == FLUENT_OK && lengths.text == 6, "a value");
    check(out[0] == 'A' && out[1] == 0 && out[2] == '{', "a value's text");
    fluent_close(&bundle);
}

int main(void) {
    run("texts that are not UTF-8", not_utf8);
    run("null texts", null_texts);
    run("null buffers", null_buffers);
    run("arguments that are cut short at each byte", cut_arguments);
    run("arguments that are longer than they are", long_arguments);
    run("zero bytes", zero_bytes);
    return finish();
}
