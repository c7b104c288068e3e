/* fluent_format_source: each status by its cause, what a refusal leaves, and memory that is refused at each call in turn.
   Texts and buffers end where no memory is, and are null where they are empty. */
#include "check.h"
#include "fence.h"

/* A call, and what it answers. */
struct call {
    const char *name;
    const uint8_t *language;
    size_t language_length;
    const uint8_t *source;
    size_t source_length;
    const uint8_t *id;
    size_t id_length;
    const uint8_t *attribute;
    size_t attribute_length;
    const uint8_t *arguments;
    size_t arguments_length;
    size_t room;
    uint8_t status;
    const char *out;
    const char *err;
};

/* Where the five texts and the two buffers of a call end. */
static struct fence fences[7];

/* Two buffers, and how many bytes are in them. */
struct answer {
    uint8_t *out;
    uint8_t *err;
    struct fluent_lengths lengths;
};

#define ERR_ROOM 64

static uint8_t make(const struct call *c, struct answer *a) {
    *a = (struct answer){fenced_room(fences[5], c->room), fenced_room(fences[6], ERR_ROOM), {99, 99}};
    return fluent_format_source(fenced(fences[0], c->language, c->language_length), c->language_length, false,
                                fenced(fences[1], c->source, c->source_length), c->source_length,
                                fenced(fences[2], c->id, c->id_length), c->id_length,
                                fenced(fences[3], c->attribute, c->attribute_length), c->attribute_length,
                                fenced(fences[4], c->arguments, c->arguments_length), c->arguments_length, a->out,
                                c->room, a->err, ERR_ROOM, &a->lengths);
}

static bool is_nothing(const struct call *c, const struct answer *a) {
    return a->lengths.text == 0 && a->lengths.errors == 0 && is_untouched(a->out, c->room) &&
           is_untouched(a->err, ERR_ROOM);
}

static void try_call(const struct call *c) {
    struct answer a;
    check(make(c, &a) == c->status, "another status");
    if (c->status > FLUENT_TOO_SMALL) {
        check(is_nothing(c, &a), "something is written");
        return;
    }
    size_t n = a.lengths.text, m = a.lengths.errors;
    check(n == strlen(c->out) && m == strlen(c->err) && !memcmp(a.err, c->err, m), "other lengths or errors");
    if (n <= c->room)
        check(!memcmp(a.out, c->out, n) && is_untouched(a.out + n, c->room - n), "another text");
    else
        check(is_untouched(a.out, c->room), "a buffer that is too small is written");
}

/* Refuses the first block, then the second, .., until the call needs no more, and gives how many it refused. */
static size_t refuse_in_turn(const struct call *c) {
    struct answer a;
    for (size_t turn = 0;; turn++) {
        blocks = (long)turn;
        uint8_t status = make(c, &a);
        bool is_enough = blocks > 0 || status == c->status;
        blocks = -1;
        check(taken == 0, "memory that is not given back");
        if (is_enough)
            return turn;
        check(status == FLUENT_NO_MEMORY, "refused memory gives another status");
        check(is_nothing(c, &a), "refused, and written");
    }
}

#define SOURCE TEXT("a = { $x }\n    .b = B\nonly =\n    .b = B\n??\na = again\n")
#define CALL(name, language, source, id, attribute, arguments, room, status, out, err) \
    {name, TEXT(language), source, TEXT(id), TEXT(attribute), TEXT(arguments), room, status, out, err}

static const struct call calls[] = {
    CALL("a text", "en", SOURCE, "a", "", "t\1\0\0\0x\2\0\0\0yz", 64, FLUENT_OK, "yz", ""),
    CALL("a number", "en", SOURCE, "a", "", "n\1\0\0\0x\4\0\0\0" "1.50", 64, FLUENT_OK, "1.50", ""),
    CALL("a number that is none", "en", SOURCE, "a", "", "n\1\0\0\0x\1\0\0\0z", 64, FLUENT_OK, "z", ""),
    CALL("a repeated name", "en", SOURCE, "a", "", "t\1\0\0\0x\1\0\0\0yt\1\0\0\0x\1\0\0\0z", 1, FLUENT_OK, "z", ""),
    CALL("an unknown variable", "en", SOURCE, "a", "", "", 64, FLUENT_OK, "{$x}",
         "Resolver error: Unknown variable: $x\n"),
    CALL("a buffer that is too small", "en", SOURCE, "a", "", "", 3, FLUENT_TOO_SMALL, "{$x}",
         "Resolver error: Unknown variable: $x\n"),
    CALL("an attribute", "en", SOURCE, "a", "b", "", 64, FLUENT_OK, "B", ""),
    CALL("no room at all", "pt-AO", SOURCE, "only", "b", "", 0, FLUENT_TOO_SMALL, "B", ""),
    CALL("a source that is not UTF-8", "en", TEXT("a = \xff"), "a", "", "", 64, FLUENT_SOURCE_NOT_UTF8, "", ""),
    CALL("a language that is not UTF-8", "\xff", SOURCE, "a", "", "", 64, FLUENT_LANGUAGE_NOT_UTF8, "", ""),
    CALL("no language", "xx", SOURCE, "only", "b", "", 64, FLUENT_OK, "B", ""),
    CALL("an empty language", "", SOURCE, "only", "b", "", 64, FLUENT_OK, "B", ""),
    CALL("a number of no language", "xx", TEXT("a = { 1 ->\n    [one] one\n   *[other] other\n }\n"), "a", "", "", 64,
         FLUENT_OK, "other", ""),
    CALL("an id that is not UTF-8", "en", SOURCE, "\xff", "", "", 64, FLUENT_ID_NOT_UTF8, "", ""),
    CALL("an attribute that is not UTF-8", "en", SOURCE, "a", "\xff", "", 64, FLUENT_ID_NOT_UTF8, "", ""),
    CALL("no message", "en", SOURCE, "c", "", "", 64, FLUENT_NO_MESSAGE, "", ""),
    CALL("no value", "en", SOURCE, "only", "", "", 64, FLUENT_NO_MESSAGE, "", ""),
    CALL("no attribute", "en", SOURCE, "a", "c", "", 64, FLUENT_NO_MESSAGE, "", ""),
    CALL("an empty id", "en", TEXT(""), "", "", "", 64, FLUENT_NO_MESSAGE, "", ""),
    CALL("arguments of one byte", "en", SOURCE, "a", "", "t", 64, FLUENT_ARGUMENTS_CUT, "", ""),
    CALL("a value that is cut", "en", SOURCE, "a", "", "t\1\0\0\0x\2\0\0\0y", 64, FLUENT_ARGUMENTS_CUT, "", ""),
    CALL("a name that is longer than all", "en", SOURCE, "a", "", "t\xff\xff\xff\xffx\2\0\0\0y", 64,
         FLUENT_ARGUMENTS_CUT, "", ""),
    CALL("no kind of value", "en", SOURCE, "a", "", "?\1\0\0\0x\1\0\0\0y", 64, FLUENT_ARGUMENTS_CUT, "", ""),
    CALL("a value that is not UTF-8", "en", SOURCE, "a", "", "t\1\0\0\0x\1\0\0\0\xff", 64,
         FLUENT_ARGUMENTS_NOT_UTF8, "", ""),
    CALL("a name that is not UTF-8", "en", SOURCE, "a", "", "t\1\0\0\0\xff\1\0\0\0y", 64,
         FLUENT_ARGUMENTS_NOT_UTF8, "", ""),
};

int main(void) {
    for (size_t i = 0; i < COUNT(fences); i++)
        fences[i] = new_fence(256);
    size_t refused = 0;
    for (size_t i = 0; i < COUNT(calls); i++) {
        begin_case(calls[i].name);
        try_call(&calls[i]);
        refused += refuse_in_turn(&calls[i]);
        end_case();
    }
    begin_case("memory is asked for");
    check(refused > 300, "it hardly is");
    end_case();
    return finish();
}
