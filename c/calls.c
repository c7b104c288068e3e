/* Each call of fluent.h that answers a status: a run gets each status that it can answer, and no run another. Memory is refused
   at each request in turn. tools/callers writes the names of these calls to status_calls.h. */
#include "check.h"
#include "fence.h"

static const char *const declared[] = {
#include "status_calls.h"
};

#define IS(status) (1u << FLUENT_##status)
#define OPENS (IS(OK) | IS(NO_MEMORY) | IS(LANGUAGE_NOT_UTF8) | IS(OPEN_BUNDLE))
#define ADDS (IS(OK) | IS(NO_MEMORY) | IS(SOURCE_NOT_UTF8) | IS(CLOSED_BUNDLE))
#define FINDS (IS(OK) | IS(ID_NOT_UTF8) | IS(NO_MESSAGE) | IS(CLOSED_BUNDLE))
#define LISTS (IS(OK) | IS(TOO_SMALL) | IS(NO_MEMORY) | IS(CLOSED_BUNDLE))
#define GIVES (LISTS | FINDS | IS(ARGUMENTS_CUT) | IS(ARGUMENTS_NOT_UTF8) | IS(ASKS))
#define SETS (IS(OK) | IS(CLOSED_BUNDLE))
#define NAMES (SETS | IS(NO_MEMORY) | IS(ID_NOT_UTF8))

/* What each can answer, and what it did. */
static struct {
    const char *name;
    uint32_t can, did;
} calls[] = {
    {"fluent_format_source",
     (GIVES & ~(IS(CLOSED_BUNDLE) | IS(ASKS))) | IS(SOURCE_NOT_UTF8) | IS(LANGUAGE_NOT_UTF8), 0},
    {"fluent_check",
     IS(OK) | IS(TOO_SMALL) | IS(NO_MEMORY) | IS(LANGUAGE_NOT_UTF8) | IS(ARGUMENTS_CUT) | IS(ARGUMENTS_NOT_UTF8), 0},
    {"fluent_open", OPENS | IS(NO_LANGUAGE), 0},
    {"fluent_open_bare", OPENS | IS(NO_LANGUAGE), 0},
    {"fluent_open_rules", OPENS | IS(BAD_RULES), 0},
    {"fluent_set_limit", SETS | IS(OUT_OF_RANGE), 0},
    {"fluent_add_builtins", SETS | IS(NO_MEMORY) | IS(ID_TAKEN), 0},
    {"fluent_add", ADDS, 0},
    {"fluent_add_overriding", ADDS, 0},
    {"fluent_report", LISTS, 0},
    {"fluent_ids", LISTS, 0},
    {"fluent_attributes", LISTS | FINDS, 0},
    {"fluent_variables", LISTS | FINDS, 0},
    {"fluent_has", FINDS, 0},
    {"fluent_find", FINDS, 0},
    {"fluent_find_chain", FINDS, 0},
    {"fluent_format", GIVES | IS(FUNCTION_FAILED), 0},
    {"fluent_format_records", GIVES | IS(FUNCTION_FAILED), 0},
    {"fluent_format_chain", GIVES | IS(FUNCTION_FAILED), 0},
    {"fluent_format_asking", GIVES, 0},
    {"fluent_add_function", NAMES | IS(ID_TAKEN), 0},
    {"fluent_override_function", NAMES, 0},
    {"fluent_set_formatter", SETS | IS(NO_MEMORY), 0},
    {"fluent_set_transform", SETS | IS(NO_MEMORY), 0},
    {"fluent_declare_function", NAMES | IS(ID_TAKEN), 0},
    {"fluent_declare_formatter", SETS, 0},
    {"fluent_declare_transform", SETS, 0},
};

/* All statuses. The compiler refuses a switch that leaves one out. */
static uint32_t all_statuses(void) {
    uint32_t all = 0;
    for (int status = 0; status < 32; status++)
        switch ((enum fluent_status)status) {
        case FLUENT_OK: case FLUENT_TOO_SMALL: case FLUENT_NO_MEMORY: case FLUENT_SOURCE_NOT_UTF8:
        case FLUENT_LANGUAGE_NOT_UTF8: case FLUENT_NO_LANGUAGE: case FLUENT_BAD_RULES: case FLUENT_ID_NOT_UTF8:
        case FLUENT_NO_MESSAGE: case FLUENT_ARGUMENTS_CUT: case FLUENT_ARGUMENTS_NOT_UTF8: case FLUENT_CLOSED_BUNDLE:
        case FLUENT_OPEN_BUNDLE: case FLUENT_OUT_OF_RANGE: case FLUENT_ASKS: case FLUENT_ID_TAKEN:
        case FLUENT_FUNCTION_FAILED: all |= 1u << status;
        }
    return all;
}

/* Where a call stands in the list, of which a text has the name in front of its bracket. */
static size_t place_of(const char *call) {
    size_t length = strcspn(call, "("), i = 0;
    while (i < COUNT(calls) && (strlen(calls[i].name) != length || memcmp(calls[i].name, call, length)))
        i++;
    return i;
}

static void note(const char *call, uint8_t status) {
    size_t place = place_of(call);
    check(place < COUNT(calls), call);
    if (place == COUNT(calls))
        return;
    check(calls[place].can >> status & 1, "a status that it can't answer");
    calls[place].did |= 1u << status;
}

static void gets(const char *call, uint8_t wanted, uint8_t status) {
    note(call, status);
    check(status == wanted, call);
    if (status != wanted)
        printf("  wanted status: %d, came: %d\n", wanted, status);
}

#define GETS(wanted, call) gets(#call, FLUENT_##wanted, call)

/* Refuses the first block, then the second, .., until the call has enough. What holds before it holds after each refusal. */
#define REFUSED(call, holds)                                                                                            \
    do {                                                                                                                \
        uint8_t status = FLUENT_NO_MEMORY;                                                                              \
        long turn = 0;                                                                                                  \
        for (; status == FLUENT_NO_MEMORY; turn++) {                                                                    \
            blocks = turn;                                                                                              \
            status = call;                                                                                              \
            blocks = -1;                                                                                                \
            note(#call, status);                                                                                        \
            check(status != FLUENT_NO_MEMORY || (holds), "refused, and another: " #call);                               \
        }                                                                                                               \
        check(status == FLUENT_OK && turn > 1, "refused: " #call);                                                      \
    } while (0)

/* ---- what is handed over */

static struct fluent_bundle bundle = FLUENT_CLOSED, other = FLUENT_CLOSED;
static struct fluent_lengths lengths;
static size_t length, at;
static uint8_t out[64], err[64];

#define NO_TEXT TEXT("\xff")
#define NOTHING TEXT("")
#define EN TEXT("en")
#define A TEXT("a"), NOTHING
#define SOURCE TEXT("a = A\nx = { $x }\n    .b = B\nl = { $x } is a text that is longer than its room, which is 64 bytes long\n")
#define RULES TEXT("one: n = 1"), TEXT("two: n = 2")
#define CUT TEXT("t\1\0\0\0x\2\0\0\0y")
#define NO_UTF8 TEXT("t\1\0\0\0x\1\0\0\0\xff")
#define NAMED TEXT("t\1\0\0\0x\5\0\0\0a={b}")
#define ROOM out, sizeof out, err, sizeof err, &lengths
#define LINES out, sizeof out, &length
#define NO_LINES out, 1, &length

/* Whether a call that formats wrote nothing. */
static bool is_nothing(void) {
    return !lengths.text && !lengths.errors && is_untouched(out, sizeof out) && is_untouched(err, sizeof err);
}

static void forget(void) {
    memset(out, 0xA5, sizeof out);
    memset(err, 0xA5, sizeof err);
    lengths = (struct fluent_lengths){0, 0};
    length = 0;
}

static bool call_nothing(void *user, const struct fluent_call *call, struct fluent_answer *answer) {
    (void)call;
    (void)answer;
    return user == NULL;
}

static bool show_nothing(void *user, const struct fluent_value *value, struct fluent_answer *answer) {
    (void)user;
    return value && answer;
}

static bool change_nothing(void *user, const uint8_t *text, size_t size, struct fluent_answer *answer) {
    (void)user;
    return text && size && answer;
}

static void open_bundle(void) {
    forget();
    GETS(OK, fluent_open(&bundle, EN, false));
    GETS(OK, fluent_add(&bundle, SOURCE));
}

/* ---- runs */

static void closed(void) {
    GETS(CLOSED_BUNDLE, fluent_set_limit(&bundle, 1));
    GETS(CLOSED_BUNDLE, fluent_add_builtins(&bundle));
    GETS(CLOSED_BUNDLE, fluent_add(&bundle, SOURCE));
    GETS(CLOSED_BUNDLE, fluent_add_overriding(&bundle, SOURCE));
    GETS(CLOSED_BUNDLE, fluent_report(&bundle, LINES));
    GETS(CLOSED_BUNDLE, fluent_ids(&bundle, LINES));
    GETS(CLOSED_BUNDLE, fluent_attributes(&bundle, TEXT("a"), LINES));
    GETS(CLOSED_BUNDLE, fluent_variables(&bundle, A, LINES));
    GETS(CLOSED_BUNDLE, fluent_has(&bundle, TEXT("a")));
    GETS(CLOSED_BUNDLE, fluent_find(&bundle, A));
    GETS(CLOSED_BUNDLE, fluent_find_chain(&bundle, 1, A, &at));
    GETS(CLOSED_BUNDLE, fluent_format(&bundle, A, NOTHING, ROOM));
    GETS(CLOSED_BUNDLE, fluent_format_records(&bundle, A, NOTHING, ROOM));
    GETS(CLOSED_BUNDLE, fluent_format_chain(&bundle, 1, A, NOTHING, ROOM));
    GETS(CLOSED_BUNDLE, fluent_format_asking(&bundle, A, NOTHING, NOTHING, ROOM));
    GETS(CLOSED_BUNDLE, fluent_add_function(&bundle, TEXT("F"), call_nothing, NULL));
    GETS(CLOSED_BUNDLE, fluent_override_function(&bundle, TEXT("F"), call_nothing, NULL));
    GETS(CLOSED_BUNDLE, fluent_set_formatter(&bundle, show_nothing, NULL));
    GETS(CLOSED_BUNDLE, fluent_set_transform(&bundle, change_nothing, NULL));
    GETS(CLOSED_BUNDLE, fluent_declare_function(&bundle, TEXT("F"), true));
    GETS(CLOSED_BUNDLE, fluent_declare_formatter(&bundle, true));
    GETS(CLOSED_BUNDLE, fluent_declare_transform(&bundle, true));
    check(!bundle.is_open && !bundle.asks, "it is open");
}

static void opened(void) {
    GETS(LANGUAGE_NOT_UTF8, fluent_open(&bundle, NO_TEXT, false));
    GETS(LANGUAGE_NOT_UTF8, fluent_open_bare(&bundle, NO_TEXT, false));
    GETS(LANGUAGE_NOT_UTF8, fluent_open_rules(&bundle, NOTHING, NO_TEXT, false));
    GETS(BAD_RULES, fluent_open_rules(&bundle, TEXT("one"), NOTHING, false));
    check(!bundle.is_open, "it is open");
    GETS(NO_LANGUAGE, fluent_open(&bundle, TEXT("xx"), false));
    GETS(OPEN_BUNDLE, fluent_open(&bundle, EN, false));
    GETS(OPEN_BUNDLE, fluent_open_bare(&bundle, EN, false));
    GETS(OPEN_BUNDLE, fluent_open_rules(&bundle, RULES, false));
    fluent_close(&bundle);
    GETS(NO_LANGUAGE, fluent_open_bare(&bundle, TEXT("xx"), false));
    GETS(OK, fluent_set_limit(&bundle, 10000));
    GETS(OUT_OF_RANGE, fluent_set_limit(&bundle, 0));
    GETS(OUT_OF_RANGE, fluent_set_limit(&bundle, 10001));
    fluent_close(&bundle);
}

static void no_utf8(void) {
    open_bundle();
    GETS(SOURCE_NOT_UTF8, fluent_add(&bundle, NO_TEXT));
    GETS(SOURCE_NOT_UTF8, fluent_add_overriding(&bundle, NO_TEXT));
    GETS(ID_NOT_UTF8, fluent_attributes(&bundle, NO_TEXT, LINES));
    GETS(ID_NOT_UTF8, fluent_variables(&bundle, TEXT("a"), NO_TEXT, LINES));
    GETS(ID_NOT_UTF8, fluent_has(&bundle, NO_TEXT));
    GETS(ID_NOT_UTF8, fluent_find(&bundle, TEXT("a"), NO_TEXT));
    GETS(ID_NOT_UTF8, fluent_find_chain(&bundle, 1, NO_TEXT, NOTHING, &at));
    GETS(ID_NOT_UTF8, fluent_format(&bundle, TEXT("a"), NO_TEXT, NOTHING, ROOM));
    GETS(ID_NOT_UTF8, fluent_format_records(&bundle, NO_TEXT, NOTHING, NOTHING, ROOM));
    GETS(ID_NOT_UTF8, fluent_format_chain(&bundle, 1, NO_TEXT, NOTHING, NOTHING, ROOM));
    GETS(ID_NOT_UTF8, fluent_format_asking(&bundle, NO_TEXT, NOTHING, NOTHING, NOTHING, ROOM));
    GETS(ID_NOT_UTF8, fluent_add_function(&bundle, NO_TEXT, call_nothing, NULL));
    GETS(ID_NOT_UTF8, fluent_override_function(&bundle, NO_TEXT, call_nothing, NULL));
    GETS(ID_NOT_UTF8, fluent_declare_function(&bundle, NO_TEXT, true));
    GETS(ARGUMENTS_NOT_UTF8, fluent_format(&bundle, A, NO_UTF8, ROOM));
    GETS(ARGUMENTS_NOT_UTF8, fluent_format_records(&bundle, A, NO_UTF8, ROOM));
    GETS(ARGUMENTS_NOT_UTF8, fluent_format_chain(&bundle, 1, A, NO_UTF8, ROOM));
    GETS(ARGUMENTS_NOT_UTF8, fluent_format_asking(&bundle, A, NO_UTF8, NOTHING, ROOM));
    check(is_nothing(), "something is written");
    fluent_close(&bundle);
}

static void missing(void) {
    open_bundle();
    GETS(NO_MESSAGE, fluent_attributes(&bundle, TEXT("gone"), LINES));
    GETS(NO_MESSAGE, fluent_variables(&bundle, TEXT("a"), TEXT("b"), LINES));
    GETS(NO_MESSAGE, fluent_has(&bundle, TEXT("gone")));
    GETS(NO_MESSAGE, fluent_find(&bundle, TEXT("a"), TEXT("b")));
    GETS(NO_MESSAGE, fluent_find_chain(&bundle, 1, TEXT("gone"), NOTHING, &at));
    GETS(NO_MESSAGE, fluent_format(&bundle, TEXT("gone"), NOTHING, CUT, ROOM));
    GETS(NO_MESSAGE, fluent_format_records(&bundle, TEXT("a"), TEXT("b"), CUT, ROOM));
    GETS(NO_MESSAGE, fluent_format_chain(&bundle, 0, A, CUT, ROOM));
    GETS(NO_MESSAGE, fluent_format_asking(&bundle, TEXT("gone"), NOTHING, CUT, CUT, ROOM));
    GETS(ARGUMENTS_CUT, fluent_format(&bundle, A, CUT, ROOM));
    GETS(ARGUMENTS_CUT, fluent_format_records(&bundle, A, CUT, ROOM));
    GETS(ARGUMENTS_CUT, fluent_format_chain(&bundle, 1, A, CUT, ROOM));
    GETS(ARGUMENTS_CUT, fluent_format_asking(&bundle, A, CUT, NOTHING, ROOM));
    check(is_nothing(), "something is written");
    fluent_close(&bundle);
}

static void rooms(void) {
    open_bundle();
    GETS(OK, fluent_add(&bundle, TEXT("a = again\n")));
    GETS(TOO_SMALL, fluent_report(&bundle, NO_LINES));
    check(length == strlen("1: Attempt to override an existing message: \"a\".\n"), "another length of a report");
    GETS(OK, fluent_report(&bundle, LINES));
    GETS(TOO_SMALL, fluent_ids(&bundle, NO_LINES));
    GETS(OK, fluent_ids(&bundle, LINES));
    GETS(TOO_SMALL, fluent_attributes(&bundle, TEXT("x"), NO_LINES));
    GETS(OK, fluent_attributes(&bundle, TEXT("x"), LINES));
    GETS(TOO_SMALL, fluent_variables(&bundle, TEXT("x"), NOTHING, NO_LINES));
    GETS(OK, fluent_variables(&bundle, TEXT("x"), NOTHING, LINES));
    GETS(TOO_SMALL, fluent_format(&bundle, TEXT("l"), NOTHING, NOTHING, ROOM));
    GETS(TOO_SMALL, fluent_format_records(&bundle, TEXT("l"), NOTHING, NOTHING, ROOM));
    GETS(TOO_SMALL, fluent_format_chain(&bundle, 1, TEXT("l"), NOTHING, NOTHING, ROOM));
    GETS(TOO_SMALL, fluent_format_asking(&bundle, TEXT("l"), NOTHING, NOTHING, NOTHING, ROOM));
    GETS(OK, fluent_format(&bundle, A, NOTHING, ROOM));
    GETS(OK, fluent_format_records(&bundle, A, NOTHING, ROOM));
    GETS(OK, fluent_format_chain(&bundle, 1, A, NOTHING, ROOM));
    GETS(OK, fluent_format_asking(&bundle, A, NOTHING, NOTHING, ROOM));
    GETS(OK, fluent_has(&bundle, TEXT("l")));
    GETS(OK, fluent_find(&bundle, TEXT("x"), TEXT("b")));
    GETS(OK, fluent_find_chain(&bundle, 1, A, &at));
    fluent_close(&bundle);
}

static void of_a_source(void) {
    forget();
    GETS(SOURCE_NOT_UTF8, fluent_format_source(EN, false, NO_TEXT, A, NOTHING, ROOM));
    GETS(LANGUAGE_NOT_UTF8, fluent_format_source(NO_TEXT, false, SOURCE, A, NOTHING, ROOM));
    GETS(ID_NOT_UTF8, fluent_format_source(EN, false, SOURCE, NO_TEXT, NOTHING, NOTHING, ROOM));
    GETS(NO_MESSAGE, fluent_format_source(EN, false, SOURCE, TEXT("gone"), NOTHING, NOTHING, ROOM));
    GETS(ARGUMENTS_CUT, fluent_format_source(EN, false, SOURCE, A, CUT, ROOM));
    GETS(ARGUMENTS_NOT_UTF8, fluent_format_source(EN, false, SOURCE, A, NO_UTF8, ROOM));
    check(is_nothing(), "something is written");
    REFUSED(fluent_format_source(EN, false, SOURCE, A, NOTHING, ROOM), taken == 0 && is_nothing());
    GETS(TOO_SMALL, fluent_format_source(EN, false, SOURCE, TEXT("l"), NOTHING, NOTHING, ROOM));
}

static void of_a_check(void) {
    struct fluent_checked told = {0};
    forget();
    GETS(LANGUAGE_NOT_UTF8, fluent_check(NO_TEXT, NAMED, NOTHING, NOTHING, NOTHING, false, out, sizeof out, &told));
    GETS(ARGUMENTS_CUT, fluent_check(EN, CUT, NOTHING, NOTHING, NOTHING, false, out, sizeof out, &told));
    GETS(ARGUMENTS_NOT_UTF8, fluent_check(EN, NO_UTF8, NOTHING, NOTHING, NOTHING, false, out, sizeof out, &told));
    check(told.text == 0 && is_untouched(out, sizeof out), "something is written");
    REFUSED(fluent_check(EN, NAMED, NOTHING, NOTHING, NOTHING, false, out, sizeof out, &told),
            taken == 0 && told.text == 0 && is_untouched(out, sizeof out));
    GETS(TOO_SMALL, fluent_check(EN, NAMED, NOTHING, NOTHING, NOTHING, false, out, 1, &told));
}

static void functions(void) {
    open_bundle();
    GETS(OK, fluent_add(&bundle, TEXT("f = { F() }\n")));
    GETS(OK, fluent_declare_function(&bundle, TEXT("F"), false));
    GETS(ID_TAKEN, fluent_declare_function(&bundle, TEXT("F"), false));
    GETS(ID_TAKEN, fluent_add_function(&bundle, TEXT("F"), call_nothing, NULL));
    GETS(ID_TAKEN, fluent_add_builtins(&bundle));
    fluent_close(&bundle);
    open_bundle();
    GETS(OK, fluent_add(&bundle, TEXT("f = { F() }\n")));
    GETS(OK, fluent_declare_function(&bundle, TEXT("F"), false));
    GETS(ASKS, fluent_format(&bundle, TEXT("f"), NOTHING, NOTHING, ROOM));
    GETS(ASKS, fluent_format_records(&bundle, TEXT("f"), NOTHING, NOTHING, ROOM));
    GETS(ASKS, fluent_format_chain(&bundle, 1, TEXT("f"), NOTHING, NOTHING, ROOM));
    GETS(ASKS, fluent_format_asking(&bundle, TEXT("f"), NOTHING, NOTHING, NOTHING, ROOM));
    GETS(OK, fluent_override_function(&bundle, TEXT("F"), call_nothing, &bundle));
    forget();
    GETS(FUNCTION_FAILED, fluent_format(&bundle, TEXT("f"), NOTHING, NOTHING, ROOM));
    GETS(FUNCTION_FAILED, fluent_format_records(&bundle, TEXT("f"), NOTHING, NOTHING, ROOM));
    GETS(FUNCTION_FAILED, fluent_format_chain(&bundle, 1, TEXT("f"), NOTHING, NOTHING, ROOM));
    check(is_nothing(), "something is written");
    GETS(OK, fluent_declare_formatter(&bundle, true));
    GETS(OK, fluent_declare_transform(&bundle, true));
    fluent_close(&bundle);
}

/* ---- memory that is refused */

static void refused_to_open(void) {
    REFUSED(fluent_open(&bundle, TEXT("pl"), false), taken == 0 && !bundle.is_open);
    fluent_close(&bundle);
    REFUSED(fluent_open_rules(&bundle, RULES, false), taken == 0 && !bundle.is_open);
    fluent_close(&bundle);
    REFUSED(fluent_open_bare(&bundle, EN, false), taken == 0 && !bundle.is_open);
    REFUSED(fluent_add_builtins(&bundle), bundle.is_open);
    fluent_close(&bundle);
}

static void refused_to_add(void) {
    open_bundle();
    REFUSED(fluent_add(&bundle, TEXT("n = N\n")), fluent_has(&bundle, TEXT("n")) == FLUENT_NO_MESSAGE);
    REFUSED(fluent_add_overriding(&bundle, TEXT("m = M\n??\n")), fluent_has(&bundle, TEXT("m")) == FLUENT_NO_MESSAGE);
    forget();
    REFUSED(fluent_report(&bundle, LINES), length == 0 && is_untouched(out, sizeof out));
    forget();
    REFUSED(fluent_ids(&bundle, LINES), length == 0 && is_untouched(out, sizeof out));
    forget();
    REFUSED(fluent_attributes(&bundle, TEXT("x"), LINES), length == 0 && is_untouched(out, sizeof out));
    forget();
    REFUSED(fluent_variables(&bundle, TEXT("x"), NOTHING, LINES), length == 0 && is_untouched(out, sizeof out));
    fluent_close(&bundle);
}

static void refused_to_format(void) {
    open_bundle();
    forget();
    REFUSED(fluent_format(&bundle, TEXT("x"), NOTHING, NOTHING, ROOM), is_nothing());
    forget();
    REFUSED(fluent_format_records(&bundle, TEXT("x"), NOTHING, NOTHING, ROOM), is_nothing());
    forget();
    REFUSED(fluent_format_chain(&bundle, 1, TEXT("x"), NOTHING, NOTHING, ROOM), is_nothing());
    forget();
    REFUSED(fluent_format_asking(&bundle, TEXT("x"), NOTHING, NOTHING, NOTHING, ROOM), is_nothing());
    fluent_close(&bundle);
}

static void refused_to_register(void) {
    open_bundle();
    GETS(OK, fluent_open(&other, EN, false));
    REFUSED(fluent_add_function(&bundle, TEXT("F"), call_nothing, NULL), bundle.is_open);
    REFUSED(fluent_override_function(&bundle, TEXT("G"), call_nothing, NULL), bundle.is_open);
    REFUSED(fluent_declare_function(&bundle, TEXT("H"), false), bundle.is_open);
    fluent_close(&bundle);
    REFUSED(fluent_set_formatter(&other, show_nothing, NULL), !other.asks);
    fluent_close(&other);
    GETS(OK, fluent_open(&other, EN, false));
    REFUSED(fluent_set_transform(&other, change_nothing, NULL), !other.asks);
    fluent_close(&other);
}

static void all_are_got(void) {
    uint32_t all = 0;
    for (size_t i = 0; i < COUNT(calls); i++) {
        all |= calls[i].did;
        check(calls[i].did == calls[i].can, calls[i].name);
        for (int status = 0; status < 32; status++)
            if ((calls[i].can & ~calls[i].did) >> status & 1)
                printf("  no run gets status %d\n", status);
    }
    check(all == all_statuses(), "a status that no call answers");
    for (size_t i = 0; i < COUNT(declared); i++)
        check(place_of(declared[i]) < COUNT(calls), declared[i]);
    check(COUNT(calls) == COUNT(declared), "a call that is not declared");
}

int main(void) {
    run("a closed bundle", closed);
    run("bundles are opened", opened);
    run("what is not UTF-8", no_utf8);
    run("what is missing", missing);
    run("rooms", rooms);
    run("a source", of_a_source);
    run("a check", of_a_check);
    run("functions", functions);
    run("opening without memory", refused_to_open);
    run("adding without memory", refused_to_add);
    run("formatting without memory", refused_to_format);
    run("registering without memory", refused_to_register);
    run("each status of each call", all_are_got);
    return finish();
}
