/* A bundle that is kept: each status by its cause, and memory that is refused at each call of its life in turn. */
#include "check.h"

static struct fluent_bundle bundle = FLUENT_CLOSED;

/* Formats a message into 16 bytes, and compares its text. */
static uint8_t format(const char *id, const char *text) {
    uint8_t out[16], err[64];
    struct fluent_lengths lengths;
    uint8_t status = fluent_format(&bundle, (const uint8_t *)id, strlen(id), TEXT(""), TEXT(""), out, sizeof out, err,
                                   sizeof err, &lengths);
    if (status == FLUENT_OK)
        check(lengths.text == strlen(text) && !memcmp(out, text, lengths.text), id);
    return status;
}

/* Formats a message with records for its errors, and writes these as "letter id.attribute " each. */
static uint8_t records(const char *id, const char *told) {
    uint8_t out[64], err[128];
    char all[128] = "";
    struct fluent_lengths lengths;
    struct fluent_error error;
    uint8_t status = fluent_format_records(&bundle, (const uint8_t *)id, strlen(id), TEXT(""), TEXT(""), out, sizeof out, err,
                                           sizeof err, &lengths);
    const uint8_t *at = err, *end = err + lengths.errors;
    for (size_t n = 0; status == FLUENT_OK && fluent_next_error(&at, end, &error); n = strlen(all))
        snprintf(all + n, sizeof all - n, "%c %s.%s ", (char)error.kind, error.id, error.attribute);
    if (status == FLUENT_OK)
        check(!strcmp(all, told), all);
    return status;
}

/* Compares the names of a message's attributes. */
static uint8_t attributes(const char *id, const char *names) {
    uint8_t out[16];
    size_t length;
    uint8_t status = fluent_attributes(&bundle, (const uint8_t *)id, strlen(id), out, sizeof out, &length);
    if (status == FLUENT_OK)
        check(length == strlen(names) && !memcmp(out, names, length), names);
    return status;
}

/* Compares the names of the variables that a message asks for, or its attribute. */
static uint8_t variables(const char *id, const char *attribute, const char *names) {
    uint8_t out[16];
    size_t length;
    uint8_t status = fluent_variables(&bundle, (const uint8_t *)id, strlen(id), (const uint8_t *)attribute,
                                      strlen(attribute), out, sizeof out, &length);
    if (status == FLUENT_OK)
        check(length == strlen(names) && !memcmp(out, names, length), names);
    return status;
}

/* Compares a text that a call gives by itself. */
static uint8_t gives(uint8_t (*call)(struct fluent_bundle *, uint8_t *, size_t, size_t *), const char *text) {
    uint8_t out[64];
    size_t length;
    uint8_t status = call(&bundle, out, sizeof out, &length);
    if (status == FLUENT_OK)
        check(length == strlen(text) && !memcmp(out, text, length), text);
    return status;
}

#define FIRST TEXT("a = { 1 }{ b }\nb = B\n")
#define SECOND TEXT("b = again\nc = { b } and { b }\nd = { e }\n    .f = F\n")
#define THIRD TEXT("-t = { $u }\nv = { w }{ $x }{ $n ->\n   *[a] { $x }\n } { -t($m, u: 1) }\n    .f = F\nw = { $w }{ v }\n")
#define RULES TEXT("one: i = 1 and v = 0; other:"), TEXT("few: n % 10 = 3; other:")

/* All calls of a bundle's life; the first status from 1 on ends it. */
static uint8_t live(bool by_rules) {
    uint8_t status = by_rules ? fluent_open_rules(&bundle, RULES, true) : fluent_open(&bundle, TEXT("pt-AO"), false);
    if (!status)
        status = fluent_set_limit(&bundle, 2);
    if (!status)
        status = fluent_add(&bundle, FIRST);
    if (!status)
        status = format("a", by_rules ? "\xe2\x81\xa8" "1\xe2\x81\xa9" "B" : "1B");
    if (!status)
        status = fluent_add(&bundle, SECOND);
    if (!status)
        status = gives(fluent_report, "1: Attempt to override an existing message: \"b\".\n");
    if (!status)
        status = gives(fluent_ids, "a\nb\nc\nd\n");
    if (!status)
        status = attributes("d", "f\n");
    if (!status)
        status = fluent_add(&bundle, THIRD);
    if (!status)
        status = variables("v", "", "m\nn\nw\nx\n");
    if (!status)
        status = variables("v", "f", "");
    if (!status)
        status = records("d", "m e. ");
    if (!status)
        status = fluent_has(&bundle, TEXT("c"));
    if (!status)
        status = fluent_find(&bundle, TEXT("c"), TEXT(""));
    if (!status)
        status = format("c", "B and B");
    if (!status)
        status = fluent_add_overriding(&bundle, TEXT("b = O\n?\n"));
    if (!status)
        status = gives(fluent_report, "2: unreadable entry at bytes 6..8\n");
    if (!status)
        status = format("c", "O and O");
    fluent_close(&bundle);
    check(!bundle.is_open, "open after it was closed");
    fluent_close(&bundle);
    check(taken == 0, "memory that is not given back");
    return status;
}

static void closed(void) {
    for (int turn = 0; turn < 2; turn++) {
        check(fluent_add(&bundle, FIRST) == FLUENT_CLOSED_BUNDLE, "adds to nothing");
        check(fluent_add_overriding(&bundle, FIRST) == FLUENT_CLOSED_BUNDLE, "overrides in nothing");
        check(format("a", "") == FLUENT_CLOSED_BUNDLE, "formats of nothing");
        check(variables("a", "", "") == FLUENT_CLOSED_BUNDLE, "asks in nothing");
        check(fluent_has(&bundle, TEXT("a")) == FLUENT_CLOSED_BUNDLE, "has in nothing");
        check(fluent_find(&bundle, TEXT("a"), TEXT("")) == FLUENT_CLOSED_BUNDLE, "finds in nothing");
        fluent_close(&bundle);
        check(live(false) == FLUENT_OK, "can't be opened");
    }
}

static void opened(void) {
    check(fluent_open(&bundle, TEXT("xx"), false) == FLUENT_NO_LANGUAGE && bundle.is_open, "another status of no language");
    check(fluent_add(&bundle, TEXT("a = { 1 ->\n    [one] one\n   *[other] other\n }\n")) == FLUENT_OK, "does not add");
    check(format("a", "other") == FLUENT_OK, "a number of no language is not other");
    fluent_close(&bundle);
    check(fluent_open(&bundle, TEXT("en-Latn-US-x-abcdefgh-abcdefgh-abcd"), false) == FLUENT_OK, "35 bytes are too long");
    fluent_close(&bundle);
    check(fluent_open(&bundle, TEXT("en-Latn-US-x-abcdefgh-abcdefgh-abcde"), false) == FLUENT_NO_LANGUAGE,
          "36 bytes are a language");
    fluent_close(&bundle);
    check(fluent_open(&bundle, TEXT("\xff"), false) == FLUENT_LANGUAGE_NOT_UTF8 && !bundle.is_open, "opens no text");
    check(fluent_open(&bundle, TEXT("en"), false) == FLUENT_OK, "does not open");
    check(fluent_add(&bundle, FIRST) == FLUENT_OK, "does not add");
    check(fluent_open(&bundle, TEXT("en"), false) == FLUENT_OPEN_BUNDLE, "opens twice");
    check(fluent_open(&bundle, TEXT("xx"), false) == FLUENT_OPEN_BUNDLE, "opens twice, for no language");
    check(format("a", "1B") == FLUENT_OK, "is not as it was");
    fluent_close(&bundle);
}

static void asked(void) {
    check(fluent_open(&bundle, TEXT("en"), false) == FLUENT_OK, "does not open");
    check(fluent_has(&bundle, TEXT("a")) == FLUENT_NO_MESSAGE, "has what was not added");
    check(fluent_add(&bundle, TEXT("??\na = A text that is longer than its buffer\n")) == FLUENT_OK, "does not add");
    check(fluent_has(&bundle, TEXT("a")) == FLUENT_OK, "has not what was added");
    check(format("a", "") == FLUENT_TOO_SMALL, "formats into a buffer that is too small");
    check(format("c", "") == FLUENT_NO_MESSAGE, "formats what is not there");
    fluent_close(&bundle);
}

static void looked_for(void) {
    check(fluent_open(&bundle, TEXT("en"), false) == FLUENT_OK, "does not open");
    check(fluent_add(&bundle, TEXT("a = A\nb =\n    .c = C\n-t = T\n    .c = C\n")) == FLUENT_OK, "does not add");
    check(fluent_find(&bundle, TEXT("a"), TEXT("")) == FLUENT_OK, "a value");
    check(fluent_find(&bundle, TEXT("b"), TEXT("c")) == FLUENT_OK, "an attribute");
    check(fluent_find(&bundle, TEXT("b"), TEXT("")) == FLUENT_NO_MESSAGE, "a message without a value");
    check(fluent_find(&bundle, TEXT("b"), TEXT("d")) == FLUENT_NO_MESSAGE, "an attribute that is not there");
    check(fluent_find(&bundle, TEXT("t"), TEXT("")) == FLUENT_NO_MESSAGE, "a term");
    check(fluent_find(&bundle, TEXT("t"), TEXT("c")) == FLUENT_NO_MESSAGE, "an attribute of a term");
    fluent_close(&bundle);
}

static void attributes_are_listed(void) {
    check(attributes("a", "") == FLUENT_CLOSED_BUNDLE, "of nothing");
    check(fluent_open(&bundle, TEXT("en"), false) == FLUENT_OK, "does not open");
    check(fluent_add(&bundle, TEXT("a = A\nb =\n    .c = C\n    .a = A\n    .c = D\n-t = T\n    .c = C\nl = L\n"
                                   "    .a-name-of-its-own = A\n")) == FLUENT_OK, "does not add");
    check(attributes("a", "") == FLUENT_OK, "none");
    check(attributes("b", "c\na\nc\n") == FLUENT_OK, "in order, and twice");
    check(attributes("t", "") == FLUENT_NO_MESSAGE && attributes("gone", "") == FLUENT_NO_MESSAGE, "no message");
    check(attributes("\xff", "") == FLUENT_ID_NOT_UTF8, "an id that is not UTF-8");
    check(attributes("l", "") == FLUENT_TOO_SMALL, "a buffer that is too small");
    fluent_close(&bundle);
}

static void variables_are_listed(void) {
    check(variables("a", "", "") == FLUENT_CLOSED_BUNDLE, "of nothing");
    check(fluent_open(&bundle, TEXT("en"), false) == FLUENT_OK, "does not open");
    check(fluent_add(&bundle, TEXT("a = A\nb =\n    .c = { $c }\n    .c = { $d }\n-t = { $t }\n    .c = { $u }\n"
                                   "r = { $z }{ -t($y, t: 1) }{ b.c }{ F($x, o: 1) }{ gone }{ $z }{ $Z }\n"
                                   "s = { -t.c ->\n    [one] { s }\n   *[other] { a } { $o }\n }\n"
                                   "l = { $a-name-of-its-own }\n")) == FLUENT_OK, "does not add");
    check(variables("a", "", "") == FLUENT_OK, "none");
    check(variables("b", "c", "c\n") == FLUENT_OK, "of the first attribute of a name");
    check(variables("r", "", "Z\nc\nx\ny\nz\n") == FLUENT_OK, "in the order of bytes, once, and of no term");
    check(variables("s", "", "o\n") == FLUENT_OK, "of each variant, and of a message that refers to itself");
    check(variables("b", "", "") == FLUENT_NO_MESSAGE && variables("a", "c", "") == FLUENT_NO_MESSAGE, "no pattern");
    check(variables("t", "", "") == FLUENT_NO_MESSAGE && variables("t", "c", "") == FLUENT_NO_MESSAGE, "a term");
    check(variables("\xff", "", "") == FLUENT_ID_NOT_UTF8 && variables("a", "\xff", "") == FLUENT_ID_NOT_UTF8, "no text");
    check(variables("l", "", "") == FLUENT_TOO_SMALL, "a buffer that is too small");
    fluent_close(&bundle);
}

static void errors_are_recorded(void) {
    check(records("a", "") == FLUENT_CLOSED_BUNDLE, "of nothing");
    check(fluent_open(&bundle, TEXT("en"), false) == FLUENT_OK, "does not open");
    check(fluent_set_limit(&bundle, 9) == FLUENT_OK, "a limit");
    check(fluent_add(&bundle, TEXT("a = { $v }{ m }{ m.x }{ -t }{ -u.x ->\n   *[x] x\n }{ F() }\n"
                                   "n = { o }{ o.y }\no =\n    .x = X\nc = { c }\n"
                                   "l = { 1 }{ 2 }{ 3 }{ 4 }{ 5 }{ 6 }{ 7 }{ 8 }{ 9 }{ 10 }\ng = G\n")) == FLUENT_OK,
          "does not add");
    check(records("a", "v v. m m. a m.x t t. b u.x f F. ") == FLUENT_OK, "what is not there");
    check(records("n", "n o. a o.y ") == FLUENT_OK, "no value");
    check(records("c", "c . ") == FLUENT_OK, "a cycle");
    check(records("l", "p . ") == FLUENT_OK, "too many placeables");
    check(records("g", "") == FLUENT_OK, "no error");
    check(records("gone", "") == FLUENT_NO_MESSAGE, "no message");
    fluent_close(&bundle);
}

/* The status of a message with an argument that is cut. */
static uint8_t with_cut(const char *id, const char *name) {
    uint8_t out[1], err[1];
    struct fluent_lengths lengths;
    return fluent_format(&bundle, (const uint8_t *)id, strlen(id), (const uint8_t *)name, strlen(name), TEXT("t"), out,
                         sizeof out, err, sizeof err, &lengths);
}

/* A message that is not there is told before its arguments are read. */
static void causes_in_order(void) {
    check(fluent_open(&bundle, TEXT("en"), false) == FLUENT_OK, "does not open");
    check(fluent_add(&bundle, TEXT("a = A\n")) == FLUENT_OK, "does not add");
    check(with_cut("b", "") == FLUENT_NO_MESSAGE && with_cut("a", "b") == FLUENT_NO_MESSAGE, "what is not there");
    check(with_cut("a", "") == FLUENT_ARGUMENTS_CUT, "cut arguments");
    check(with_cut("b", "\xff") == FLUENT_ID_NOT_UTF8, "no text");
    fluent_close(&bundle);
}

/* So many arguments, from the last name to the first, each of them twice: the last of a name stands. */
#define MANY 64000

static void many_arguments(void) {
    uint8_t *all = malloc(2 * MANY * fluent_argument_length(8, 6)), *at = all, out[32], err[64];
    struct fluent_lengths lengths;
    char name[16], value[16];
    for (int i = 2 * MANY; i-- > 0;) {
        snprintf(name, sizeof name, "n%07d", i % MANY);
        snprintf(value, sizeof value, "%06d", i);
        at = fluent_put_argument(at, FLUENT_TEXT, name, 8, value, 6);
    }
    check(fluent_open(&bundle, TEXT("en"), false) == FLUENT_OK, "does not open");
    check(fluent_add(&bundle, TEXT("a = { $n0000007 }{ $n0063999 }\n")) == FLUENT_OK, "does not add");
    uint8_t status = fluent_format(&bundle, TEXT("a"), TEXT(""), all, (size_t)(at - all), out, sizeof out, err,
                                   sizeof err, &lengths);
    check(status == FLUENT_OK && lengths.text == 12 && !memcmp(out, "000007063999", 12), "the last of a name");
    fluent_close(&bundle);
    free(all);
}

static void versions(void) {
    check(!strcmp(fluent_version(), FLUENT_VERSION), "another version");
}

static void with_limits(void) {
    check(fluent_set_limit(&bundle, 1) == FLUENT_CLOSED_BUNDLE, "a limit of nothing");
    check(fluent_open(&bundle, TEXT("en"), false) == FLUENT_OK, "does not open");
    check(fluent_add(&bundle, TEXT("a = { 1 }{ 2 }{ 3 }\n")) == FLUENT_OK, "does not add");
    check(format("a", "123") == FLUENT_OK, "at first");
    check(fluent_set_limit(&bundle, 2) == FLUENT_OK && format("a", "12") == FLUENT_OK, "two placeables");
    check(fluent_set_limit(&bundle, 0) == FLUENT_OUT_OF_RANGE, "none");
    check(fluent_set_limit(&bundle, 10001) == FLUENT_OUT_OF_RANGE, "one too many");
    check(fluent_set_limit(&bundle, SIZE_MAX) == FLUENT_OUT_OF_RANGE, "very many");
    check(format("a", "12") == FLUENT_OK, "is not as it was");
    check(fluent_set_limit(&bundle, 1) == FLUENT_OK && format("a", "1") == FLUENT_OK, "one placeable");
    check(fluent_set_limit(&bundle, 10000) == FLUENT_OK && format("a", "123") == FLUENT_OK, "the most");
    fluent_close(&bundle);
}

/* What a plural form of 2 and an ordinal of 2 are by some rules. */
static uint8_t try_rules(const char *cardinal, const char *ordinal, const char *shown) {
    uint8_t status = fluent_open_rules(&bundle, (const uint8_t *)cardinal, strlen(cardinal), (const uint8_t *)ordinal,
                                       strlen(ordinal), false);
    check(bundle.is_open == (status == FLUENT_OK), "whether it is open");
    if (bundle.is_open) {
        check(fluent_add(&bundle, TEXT("a = { 2 ->\n    [few] few\n   *[other] other\n }{ NUMBER(2, type: \"ordinal\") ->"
                                       "\n    [two] nd\n   *[other] th\n }\n")) == FLUENT_OK, "does not add");
        check(format("a", shown) == FLUENT_OK, "does not format");
        check(fluent_open_rules(&bundle, TEXT("?"), TEXT(""), false) == FLUENT_OPEN_BUNDLE, "opens twice");
    }
    fluent_close(&bundle);
    return status;
}

static void by_rules(void) {
    check(try_rules("few: n = 2; other:", "two: n = 2; other:", "fewnd") == FLUENT_OK, "two texts of rules");
    check(try_rules("", "", "otherth") == FLUENT_OK, "no rules");
    check(try_rules("few: n = ", "", "") == FLUENT_BAD_RULES, "cardinal rules that can't be read");
    check(try_rules("", "two", "") == FLUENT_BAD_RULES, "ordinal rules that can't be read");
    check(try_rules("\xff", "", "") == FLUENT_LANGUAGE_NOT_UTF8, "cardinal rules that are not UTF-8");
    check(try_rules("", "\xff", "") == FLUENT_LANGUAGE_NOT_UTF8, "ordinal rules that are not UTF-8");
}

static void lived(void) {
    check(live(false) == FLUENT_OK && live(true) == FLUENT_OK, "another status");
}

/* Refuses the first block, then the second, .., until there are enough. */
static void refuse_in_turn(bool by_rules) {
    long refused = 0;
    for (uint8_t status = FLUENT_NO_MEMORY; status == FLUENT_NO_MEMORY; refused++) {
        blocks = refused;
        status = live(by_rules);
        blocks = -1;
        check(status == FLUENT_NO_MEMORY || status == FLUENT_OK, "refused memory gives another status");
    }
    check(refused > 50, "memory is hardly asked for");
}

static void refused(void) {
    refuse_in_turn(false);
    refuse_in_turn(true);
}

int main(void) {
    run("a closed bundle", closed);
    run("a bundle is opened", opened);
    run("a bundle is asked", asked);
    run("values and attributes are looked for", looked_for);
    run("attributes are listed", attributes_are_listed);
    run("variables are listed", variables_are_listed);
    run("errors are recorded", errors_are_recorded);
    run("causes come in order", causes_in_order);
    run("many arguments", many_arguments);
    run("the library's version", versions);
    run("limits of placeables", with_limits);
    run("plural rules as texts", by_rules);
    run("a bundle's life", lived);
    run("memory is refused", refused);
    return finish();
}
