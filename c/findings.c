/* fluent_check: what is found in sources, as lines and in JSON, with its numbers; each status by its cause, what a refusal leaves,
   and memory that is refused at each request in turn. */
#include "check.h"
#include "fence.h"

#define ROOM 2048

/* The five runs of bytes of a check, each of which ends where no memory is, as its text does. */
enum run { LANGUAGE, SOURCES, BESIDE, REFERENCES, FUNCTIONS, RUNS };

static struct fence fences[RUNS], text_fence;

struct bytes {
    uint8_t at[512];
    size_t length;
};

/* What is asked for, and what is told beside the text. */
struct call {
    struct bytes runs[RUNS];
    bool as_json;
    struct fluent_checked told;
};

static void put(struct call *call, enum run run, const char *name, const char *text) {
    struct bytes *bytes = &call->runs[run];
    bytes->length = (size_t)(fluent_put_argument(bytes->at + bytes->length, FLUENT_TEXT, name, strlen(name), text, strlen(text)) -
                             bytes->at);
}

static struct call call_for(const char *language) {
    struct call call = {.as_json = false};
    call.runs[LANGUAGE].length = strlen(language);
    memcpy(call.runs[LANGUAGE].at, language, strlen(language));
    return call;
}

/* A check of one source. */
static struct call call_of(const char *language, const char *source) {
    struct call call = call_for(language);
    put(&call, SOURCES, "x.ftl", source);
    return call;
}

static uint8_t make(struct call *call, uint8_t *out, size_t room) {
    const uint8_t *at[RUNS];
    for (enum run run = 0; run < RUNS; run++)
        at[run] = fenced(fences[run], call->runs[run].at, call->runs[run].length);
    call->told = (struct fluent_checked){99, 99, 99, true};
    return fluent_check(at[LANGUAGE], call->runs[LANGUAGE].length, at[SOURCES], call->runs[SOURCES].length, at[BESIDE],
                        call->runs[BESIDE].length, at[REFERENCES], call->runs[REFERENCES].length, at[FUNCTIONS],
                        call->runs[FUNCTIONS].length, call->as_json, out, room, &call->told);
}

static bool tells_nothing(const struct call *call) {
    return call->told.text == 0 && call->told.errors == 0 && call->told.warnings == 0 && !call->told.is_clean;
}

static bool tells(const struct call *call, size_t text, size_t errors, size_t warnings, bool is_clean) {
    return call->told.text == text && call->told.errors == errors && call->told.warnings == warnings &&
           call->told.is_clean == is_clean;
}

/* Whether this is told where there is just enough room, and nothing is written where a byte is missing; also after memory was
   refused in turn. */
static void expect_also_refused_in_turn(struct call call, const char *text, size_t errors, size_t warnings, bool is_clean) {
    size_t wanted = strlen(text);
    uint8_t status = FLUENT_NO_MEMORY, *out = NULL;
    for (long turn = 0; status == FLUENT_NO_MEMORY; turn++) {
        out = fenced_room(text_fence, wanted);
        blocks = turn;
        status = make(&call, out, wanted);
        blocks = -1;
        check(status == FLUENT_OK || (tells_nothing(&call) && is_untouched(out, wanted)), "refused, and told");
        check(taken == 0, "memory that is not given back");
    }
    check(status == FLUENT_OK && tells(&call, wanted, errors, warnings, is_clean), "other numbers");
    check(!wanted || !memcmp(out, text, wanted), text);
    if (!is_right)
        printf("  came: %.*s\n", (int)wanted, (const char *)out);
    if (wanted == 0)
        return;
    out = fenced_room(text_fence, wanted - 1);
    check(make(&call, out, wanted - 1) == FLUENT_TOO_SMALL && tells(&call, wanted, errors, warnings, is_clean), "too small");
    check(is_untouched(out, wanted - 1), "a buffer that is too small is written");
}

static void lines(void) {
    expect_also_refused_in_turn(call_for("en"), "", 0, 0, true);
    expect_also_refused_in_turn(call_of("en", "a = A\n"), "", 0, 0, true);
    expect_also_refused_in_turn(call_of("en", "a = { b }\n"), "x.ftl:1:7: error: no message 'b' (in 'a')\n", 1, 0, false);
    expect_also_refused_in_turn(call_of("en", "\na = { F() }{ b }\n"),
                                "x.ftl:2:7: warning: no function 'F', unless the application adds it (in 'a')\n"
                                "x.ftl:2:14: error: no message 'b' (in 'a')\n",
                                1, 1, false);
}

static void json(void) {
    struct call well = call_of("en", "a = A\n"), odd = call_of("en", "\na = { F() }\n");
    well.as_json = odd.as_json = true;
    expect_also_refused_in_turn(well, "[]\n", 0, 0, true);
    expect_also_refused_in_turn(
        odd,
        "[{\"column\":7,\"entry\":\"a\",\"file\":\"x.ftl\",\"kind\":\"missing-function\",\"line\":2,\"severity\":\"warning\","
        "\"text\":\"no function 'F', unless the application adds it (in 'a')\"}]\n",
        0, 1, true);
}

static void functions(void) {
    struct call call = call_of("en", "a = { F() }{ G() }\n");
    put(&call, FUNCTIONS, "F", "");
    put(&call, FUNCTIONS, "G", "");
    expect_also_refused_in_turn(call, "", 0, 0, true);
}

/* Sources count as one, by their names, and those beside them are loaded too. */
static void several(void) {
    struct call call = call_for("en");
    put(&call, SOURCES, "one.ftl", "a = { b }{ -t }\n");
    put(&call, SOURCES, "two.ftl", "b = B\nc = { d }\n");
    put(&call, BESIDE, "brand.ftl", "-t = T\n");
    expect_also_refused_in_turn(call, "two.ftl:2:7: error: no message 'd' (in 'c')\n", 1, 0, false);
}

/* What differs from what the source was translated from. */
static void translated(void) {
    struct call call = call_of("pl", "a = A\n");
    put(&call, REFERENCES, "en.ftl", "a = { $x }\nb = B\n");
    expect_also_refused_in_turn(call,
                                "x.ftl:1:1: warning: 'a' doesn't ask for $x, and the reference does\n"
                                "en.ftl:2:1: error: 'b' is not translated\n",
                                1, 1, true);
}

/* Without a language no plural categories are looked at. */
static void categories(void) {
    static const char source[] = "a = { $n ->\n    [few] F\n   *[other] O\n }\n";
    expect_also_refused_in_turn(call_of("", source), "", 0, 0, true);
    expect_also_refused_in_turn(call_of("en", source),
                                "x.ftl:1:5: warning: no variant [one] (in 'a')\n"
                                "x.ftl:2:5: warning: [few] never comes in this language (in 'a')\n",
                                0, 2, true);
}

/* A variant that opens more placeables than the limit is found by its key. */
static void tried(void) {
    expect_also_refused_in_turn(call_of("", "a = { $n ->\n    [one] { b }{ b }{ b }{ b }{ b }{ b }{ b }{ b }{ b }{ b }\n   *[other] O\n }\n"
                                            "b = { $x }{ $x }{ $x }{ $x }{ $x }{ $x }{ $x }{ $x }{ $x }{ $x }\n"),
                                "x.ftl:1:1: error: 'a' can open 111 placeables, and no more than 100 are opened\n", 1, 0, false);
}

static void expect_status(struct call call, uint8_t status) {
    uint8_t *out = fenced_room(text_fence, ROOM);
    check(make(&call, out, ROOM) == status, "another status");
    check(tells_nothing(&call) && is_untouched(out, ROOM), "refused, and told");
}

static void refused(void) {
    struct call call = call_of("\xff", "a = A\n");
    for (enum run run = SOURCES; run < RUNS; run++) {
        struct call cut = call_for("en"), no_text = call_for("en"), no_kind = call_for("en");
        put(&cut, run, "x", "a = A\n");
        cut.runs[run].length--;
        expect_status(cut, FLUENT_ARGUMENTS_CUT);
        put(&no_text, run, "\xff", "");
        expect_status(no_text, FLUENT_ARGUMENTS_NOT_UTF8);
        put(&no_kind, run, "x", "");
        no_kind.runs[run].at[0] = '?';
        expect_status(no_kind, FLUENT_ARGUMENTS_CUT);
        put(&call, run, "x", "\xff");
        expect_status(call, FLUENT_LANGUAGE_NOT_UTF8);
    }
    struct call both = call_of("en", "\xff");
    both.runs[FUNCTIONS].length = 1;
    expect_status(both, FLUENT_ARGUMENTS_NOT_UTF8);
}

int main(void) {
    for (enum run run = 0; run < RUNS; run++)
        fences[run] = new_fence(512);
    text_fence = new_fence(ROOM);
    run("lines", lines);
    run("json", json);
    run("functions", functions);
    run("several sources", several);
    run("a translation", translated);
    run("plural categories", categories);
    run("keys that are tried", tried);
    run("what is refused", refused);
    return finish();
}
