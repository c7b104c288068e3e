/* Several bundles that are asked in turn. */
#include "check.h"
#include "fence.h"

#define LINKS 3

static struct fluent_bundle bundles[LINKS];
static struct fluent_lengths lengths;
static uint8_t out[32], err[64];

/* Formats with room for 32 bytes, and compares text and errors where there are any. */
static uint8_t format(size_t count, const char *id, const char *name, const char *text, const char *errors) {
    memset(out, 0xA5, sizeof out);
    memset(err, 0xA5, sizeof err);
    uint8_t status = fluent_format_chain(bundles, count, (const uint8_t *)id, strlen(id), (const uint8_t *)name,
                                         strlen(name), NULL, 0, out, sizeof out, err, sizeof err, &lengths);
    if (status == FLUENT_OK) {
        check(lengths.text == strlen(text) && !memcmp(out, text, lengths.text), id);
        check(lengths.errors == strlen(errors) && !memcmp(err, errors, lengths.errors), id);
    } else if (status != FLUENT_TOO_SMALL)
        check(is_untouched(out, sizeof out) && is_untouched(err, sizeof err) && !lengths.text && !lengths.errors,
              "something is written");
    return status;
}

/* Which bundle answers, and where. */
static bool finds(size_t count, const char *id, const char *name, uint8_t status, size_t index) {
    size_t at = 99;
    return fluent_find_chain(bundles, count, (const uint8_t *)id, strlen(id), (const uint8_t *)name, strlen(name), &at) ==
               status && at == index;
}

static const char *const languages[LINKS] = {"pl", "en", "cy"};

static const char *const sources[LINKS] = {
    "a = { 2 ->\n    [few] few\n   *[other] no\n }\nh =\n    .t = 1t\nr = { b }\n",
    "b = 2\nh = 2h\n    .t = 2t\nl = A text that is longer than the buffer that it is for\n",
    "a = 3\nb = 3\nc = { 2 ->\n    [two] two\n   *[other] no\n }\n",
};

static void open_all(void) {
    for (size_t i = 0; i < LINKS; i++) {
        check(fluent_open(&bundles[i], (const uint8_t *)languages[i], 2, false) == FLUENT_OK, "does not open");
        check(fluent_add(&bundles[i], (const uint8_t *)sources[i], strlen(sources[i])) == FLUENT_OK, "does not add");
    }
}

static void close_all(void) {
    for (size_t i = 0; i < LINKS; i++)
        fluent_close(&bundles[i]);
}

static void in_turn(void) {
    open_all();
    check(format(LINKS, "a", "", "few", "") == FLUENT_OK, "the first");
    check(format(LINKS, "b", "", "2", "") == FLUENT_OK, "the second");
    check(format(LINKS, "c", "", "two", "") == FLUENT_OK, "the third");
    check(format(LINKS, "h", "", "2h", "") == FLUENT_OK, "a value that the first has not");
    check(format(LINKS, "h", "t", "1t", "") == FLUENT_OK, "an attribute");
    check(format(LINKS, "r", "", "{b}", "Resolver error: Unknown message: b\n") == FLUENT_OK, "a reference");
    check(format(LINKS, "l", "", "", "") == FLUENT_TOO_SMALL && lengths.text == 52, "a buffer that is too small");
    check(format(2, "c", "", "", "") == FLUENT_NO_MESSAGE, "what none has");
    check(format(LINKS, "h", "u", "", "") == FLUENT_NO_MESSAGE, "an attribute that none has");
    check(format(0, "a", "", "", "") == FLUENT_NO_MESSAGE, "no bundle");
    check(fluent_format_chain(NULL, 0, NULL, 0, NULL, 0, NULL, 0, NULL, 0, NULL, 0, &lengths) == FLUENT_NO_MESSAGE,
          "null pointers");
    check(format(LINKS, "\xff", "", "", "") == FLUENT_ID_NOT_UTF8, "an id that is not UTF-8");
    check(format(LINKS, "a", "\xff", "", "") == FLUENT_ID_NOT_UTF8, "an attribute that is not UTF-8");
    close_all();
}

static void which_one(void) {
    open_all();
    check(finds(LINKS, "a", "", FLUENT_OK, 0) && finds(LINKS, "b", "", FLUENT_OK, 1), "a value");
    check(finds(LINKS, "c", "", FLUENT_OK, 2), "a value of the last");
    check(finds(LINKS, "h", "", FLUENT_OK, 1) && finds(LINKS, "h", "t", FLUENT_OK, 0), "a value that the first has not");
    check(finds(2, "c", "", FLUENT_NO_MESSAGE, 2) && finds(0, "a", "", FLUENT_NO_MESSAGE, 0), "what none has");
    check(finds(LINKS, "\xff", "", FLUENT_ID_NOT_UTF8, LINKS), "an id that is not UTF-8");
    check(finds(LINKS, "a", "\xff", FLUENT_ID_NOT_UTF8, LINKS), "an attribute that is not UTF-8");
    fluent_close(&bundles[1]);
    check(finds(LINKS, "a", "", FLUENT_OK, 0), "before the one that is closed");
    check(finds(LINKS, "c", "", FLUENT_CLOSED_BUNDLE, 1), "behind it");
    check(finds(LINKS, "gone", "", FLUENT_CLOSED_BUNDLE, 1), "where none has it");
    close_all();
}

/* A bundle that is closed matters where it stands before the one that answers, or where none does. */
static void one_is_closed(void) {
    open_all();
    fluent_close(&bundles[2]);
    check(format(LINKS, "b", "", "2", "") == FLUENT_OK, "behind the one that answers");
    check(format(LINKS, "gone", "", "", "") == FLUENT_CLOSED_BUNDLE, "behind all that have not");
    fluent_close(&bundles[0]);
    check(format(LINKS, "a", "", "", "") == FLUENT_CLOSED_BUNDLE, "in place of the one that answers");
    check(format(LINKS, "b", "", "", "") == FLUENT_CLOSED_BUNDLE, "before the one that answers");
    check(format(LINKS, "\xff", "", "", "") == FLUENT_ID_NOT_UTF8, "an id that is not UTF-8");
    close_all();
    check(format(LINKS, "a", "", "", "") == FLUENT_CLOSED_BUNDLE, "all are closed");
}

static void refuse_in_turn(void) {
    open_all();
    long before = taken;
    uint8_t status = FLUENT_NO_MEMORY;
    for (long turn = 0; status == FLUENT_NO_MEMORY; turn++) {
        blocks = turn;
        status = format(LINKS, "r", "", "{b}", "Resolver error: Unknown message: b\n");
        blocks = -1;
        check(taken == before, "memory that is not given back");
    }
    check(status == FLUENT_OK, "refused memory gives another status");
    close_all();
}

int main(void) {
    run("bundles are asked in turn", in_turn);
    run("which one answers", which_one);
    run("one of them is closed", one_is_closed);
    run("memory is refused", refuse_in_turn);
    return finish();
}
