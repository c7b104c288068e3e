/* Functions, a formatter and a transform of the program: what they are asked, what their answers become, and each cause
   of a failure; memory that is refused at each request in turn. */
#include "check.h"

static struct fluent_bundle bundle = FLUENT_CLOSED;

/* How often functions were called, and what they were called with last. */
static size_t calls;
static char asked[512];

/* Formats a message, and compares its text and the lines of its errors. */
static uint8_t format_with(const char *id, const uint8_t *arguments, size_t length, const char *text, const char *told) {
    uint8_t out[256], err[256];
    struct fluent_lengths lengths = {99, 99};
    memset(out, '#', sizeof out);
    uint8_t status = fluent_format(&bundle, (const uint8_t *)id, strlen(id), NULL, 0, arguments, length, out, sizeof out,
                                   err, sizeof err, &lengths);
    if (status == FLUENT_OK) {
        check(lengths.text == strlen(text) && !memcmp(out, text, lengths.text), id);
        check(lengths.errors == strlen(told) && !memcmp(err, told, lengths.errors), told);
        if (!is_right)
            printf("  wanted: %s\n  came:   %.*s\n", text, (int)lengths.text, out);
    } else {
        check(lengths.text == 0 && lengths.errors == 0, "lengths of no text");
        check(out[0] == '#' && out[255] == '#', "a buffer is written without a text");
    }
    return status;
}

static uint8_t format(const char *id, const char *text) {
    return format_with(id, NULL, 0, text, "");
}

/* Opens an English bundle without isolation, with this source. */
static void open_with(const char *source) {
    calls = 0;
    check(fluent_open(&bundle, TEXT("en"), false) == FLUENT_OK, "does not open");
    check(fluent_add(&bundle, (const uint8_t *)source, strlen(source)) == FLUENT_OK, "does not add");
}

static void add(const char *name, fluent_function *function, void *user) {
    check(fluent_add_function(&bundle, (const uint8_t *)name, strlen(name), function, user) == FLUENT_OK, name);
}

/* ---- functions */

static size_t write_value(char *at, const struct fluent_value *value) {
    return (size_t)sprintf(at, "%.*s%s%c:%.*s ", (int)value->name_length, (const char *)value->name,
                           value->name_length ? "=" : "", (char)value->kind, (int)value->length,
                           (const char *)value->text);
}

/* Writes down what it is asked, and answers a text. */
static bool listen(void *user, const struct fluent_call *call, struct fluent_answer *answer) {
    size_t n = 0;
    calls++;
    for (size_t i = 0; i < call->positional_count; i++)
        n += write_value(asked + n, &call->positional[i]);
    for (size_t i = 0; i < call->named_count; i++)
        n += write_value(asked + n, &call->named[i]);
    asked[n] = 0;
    fluent_answer(answer, FLUENT_TEXT, user, strlen(user));
    return true;
}

/* Gives what it is given in upper case. */
static bool raise(void *user, const struct fluent_call *call, struct fluent_answer *answer) {
    char text[64];
    size_t length = call->positional_count ? call->positional[0].length : 0;
    (void)user;
    calls++;
    for (size_t i = 0; i < length; i++)
        text[i] = (char)(call->positional[0].text[i] & 0xdf);
    fluent_answer(answer, FLUENT_TEXT, text, length);
    return true;
}

/* Answers what the user's text says: its first byte is the kind, and the rest the text; '-' says nothing, '!' fails. */
static bool say(void *user, const struct fluent_call *call, struct fluent_answer *answer) {
    const char *what = user;
    (void)call;
    calls++;
    if (*what == '!')
        return false;
    if (*what != '-')
        fluent_answer(answer, (enum fluent_kind)*what, what + 1, strlen(what + 1));
    return true;
}

static void arguments_of_functions(void) {
    open_with("a = { F($n, 1.50, \"x\", $own, $none, $wrong, NUMBER(7.1, minimumFractionDigits: 2), min: 3, b: \"B\") }\n"
              "b = { F() }{ $own }\n");
    add("F", listen, "said");
    uint8_t arguments[256], *end = arguments;
    end = fluent_put_argument(end, FLUENT_NUMBER, "n", 1, "2.50;style=currency;currency=EUR", 32);
    end = fluent_put_argument(end, FLUENT_OWN, "own", 3, "7\nshown", 7);
    end = fluent_put_argument(end, FLUENT_NONE, "none", 4, NULL, 0);
    end = fluent_put_argument(end, FLUENT_ERROR, "wrong", 5, NULL, 0);
    size_t length = (size_t)(end - arguments);
    check(format_with("a", arguments, length, "said", "") == FLUENT_OK, "no text");
    check(calls == 1, "it is asked more than once");
    check(!strncmp(asked, "n:2.50;", 7) && strstr(asked, ";style=currency;") && strstr(asked, "currency=EUR n:1.50"), asked);
    check(strstr(asked, " t:x c:7\nshown o: e: n:7.10;") != NULL, asked);
    check(strstr(asked, " b=t:B min=n:3 ") != NULL, asked);
    check(format_with("b", arguments, length, "saidshown", "") == FLUENT_OK && !strcmp(asked, ""), asked);
    fluent_close(&bundle);
}

static void options_of_numbers(void) {
    struct fluent_value number = {FLUENT_NUMBER, NULL, 0, TEXT("1.5;style=currency;minimumFractionDigits=2;currency=a;b=c")};
    size_t length;
    const uint8_t *at = fluent_option(&number, "", &length);
    check(length == 3 && !memcmp(at, "1.5", 3), "the number");
    at = fluent_option(&number, "style", &length);
    check(at && length == 8 && !memcmp(at, "currency", 8), "its style");
    at = fluent_option(&number, "minimumFractionDigits", &length);
    check(at && length == 1 && *at == '2', "its digits");
    at = fluent_option(&number, "currency", &length);
    check(at && length == 5 && !memcmp(at, "a;b=c", 5), "its currency is the rest");
    check(!fluent_option(&number, "b", &length) && length == 0, "within a currency");
    check(!fluent_option(&number, "type", &length), "what it has not");
    number.length = 3;
    check(!fluent_option(&number, "style", &length), "a number without options");
}

static void calls_within_calls(void) {
    open_with("a = { UP(UP(\"x\")) }-{ SAY(UP(\"y\")) }-{ UP(\"x\") }\n");
    add("UP", raise, NULL);
    add("SAY", say, "n5");
    check(format("a", "X-5-X") == FLUENT_OK, "no text");
    check(calls == 4, "equal questions are asked once");
    fluent_close(&bundle);
}

static void selectors(void) {
    open_with("a = { F() ->\n    [one] one\n    [x] ex\n   *[other] else\n }\nb = { F() }\n");
    static const char *const rows[][3] = {{"tx", "ex", "x"}, {"n1", "one", "1"}, {"n1.0", "else", "1.0"}, {"n2", "else", "2"},
                                          {"c9\nx", "else", "x"}, {"tone", "one", "one"}, {"nno", "else", "no"},
                                          {"n1;type=ordinal", "one", "1"}, {"n7;minimumFractionDigits=2", "else", "7.00"}};
    for (size_t i = 0; i < COUNT(rows); i++) {
        check(fluent_override_function(&bundle, TEXT("F"), say, (void *)rows[i][0]) == FLUENT_OK, "does not override");
        check(format("a", rows[i][1]) == FLUENT_OK && format("b", rows[i][2]) == FLUENT_OK, rows[i][0]);
    }
    fluent_close(&bundle);
}

static void no_values(void) {
    open_with("a = { F() }.\n");
    static const char *const rows[][2] = {{"o", "."}, {"-", "."}, {"e", "F()."}};
    for (size_t i = 0; i < COUNT(rows); i++) {
        check(fluent_override_function(&bundle, TEXT("F"), say, (void *)rows[i][0]) == FLUENT_OK, "does not override");
        check(format("a", rows[i][1]) == FLUENT_OK, "no text");
    }
    fluent_close(&bundle);
}

/* ---- causes */

static void ids_that_are_taken(void) {
    open_with("M = m\n-T = t\n");
    check(fluent_add_function(&bundle, TEXT("NUMBER"), raise, NULL) == FLUENT_ID_TAKEN, "NUMBER is free");
    check(fluent_add_function(&bundle, TEXT("M"), raise, NULL) == FLUENT_ID_TAKEN, "a message's id is free");
    check(fluent_add_function(&bundle, TEXT("T"), raise, NULL) == FLUENT_ID_TAKEN, "a term's id is free");
    check(format("M", "m") == FLUENT_OK, "the message is gone");
    add("F", raise, NULL);
    check(fluent_add_function(&bundle, TEXT("F"), raise, NULL) == FLUENT_ID_TAKEN, "a function's id is free");
    check(fluent_add_function(&bundle, TEXT("\xff"), raise, NULL) == FLUENT_ID_NOT_UTF8, "no text");
    check(fluent_add(&bundle, TEXT("F = f\nG = { F(\"x\") }\n")) == FLUENT_OK, "does not add");
    check(format("F", "") == FLUENT_NO_MESSAGE && format("G", "X") == FLUENT_OK, "a message takes a function's id");
    check(fluent_add_overriding(&bundle, TEXT("F = f\nG = { F(\"x\") }\n")) == FLUENT_OK, "does not add");
    check(format("F", "f") == FLUENT_OK, "a message that overrides is not there");
    fluent_close(&bundle);
}

static void builtins(void) {
    check(fluent_open_bare(&bundle, TEXT("en"), false) == FLUENT_OK, "does not open");
    check(fluent_add(&bundle, TEXT("a = { NUMBER(1, minimumFractionDigits: 1) }\n")) == FLUENT_OK, "does not add");
    check(format_with("a", NULL, 0, "{NUMBER()}", "Resolver error: Unknown function: NUMBER()\n") == FLUENT_OK,
          "a bare bundle has NUMBER");
    check(fluent_add_builtins(&bundle) == FLUENT_OK && format("a", "1.0") == FLUENT_OK, "NUMBER is not added");
    check(fluent_add_builtins(&bundle) == FLUENT_ID_TAKEN, "NUMBER is added twice");
    check(fluent_override_function(&bundle, TEXT("NUMBER"), say, "tmine") == FLUENT_OK, "NUMBER can't be overridden");
    check(format("a", "mine") == FLUENT_OK, "NUMBER is not overridden");
    fluent_close(&bundle);
}

static void failures(void) {
    check(fluent_add_function(&bundle, TEXT("F"), raise, NULL) == FLUENT_CLOSED_BUNDLE, "adds to nothing");
    check(fluent_set_formatter(&bundle, NULL, NULL) == FLUENT_CLOSED_BUNDLE, "sets in nothing");
    check(fluent_set_transform(&bundle, NULL, NULL) == FLUENT_CLOSED_BUNDLE, "sets in nothing");
    check(fluent_declare_function(&bundle, TEXT("F"), true) == FLUENT_CLOSED_BUNDLE, "declares in nothing");
    open_with("a = { F(1) }\nb = { G(1) }\nc = c\n");
    add("F", say, "!");
    check(format("a", "") == FLUENT_FUNCTION_FAILED && calls == 1, "a failure is passed over");
    check(format("c", "c") == FLUENT_OK && calls == 1, "it is asked for nothing");
    check(format("none", "") == FLUENT_NO_MESSAGE && calls == 1, "no message");
    check(format_with("a", (const uint8_t *)"?", 1, "", "") == FLUENT_ARGUMENTS_CUT && calls == 1,
          "arguments that can't be read");
    check(fluent_declare_function(&bundle, TEXT("G"), false) == FLUENT_OK, "does not declare");
    check(format("b", "") == FLUENT_FUNCTION_FAILED, "what is not registered answers");
    fluent_close(&bundle);
}

/* ---- rooms */

static void rooms(void) {
    static char longer[1000];
    open_with("a = { F() }{ none }\n");
    memset(longer, 't', sizeof longer - 1);
    add("F", say, longer);
    for (size_t room = 0; room < 1100 && is_right; room += 1 + room / 7) {
        uint8_t out[1200], err[64];
        struct fluent_lengths lengths;
        memset(out, '#', sizeof out);
        uint8_t status = fluent_format(&bundle, TEXT("a"), NULL, 0, NULL, 0, room ? out : NULL, room, err,
                                       sizeof err, &lengths);
        check(lengths.text == 998 + 6 && lengths.errors == 38, "other lengths");
        check(status == (room < 1004 ? FLUENT_TOO_SMALL : FLUENT_OK), "another status");
        check(room < 1004 ? out[0] == '#' : !memcmp(out, longer, 998), "another text");
        check(out[room] == '#', "past the room");
        check(!memcmp(err, "Resolver error: Unknown message: none\n", 38), "other errors");
        status = fluent_format(&bundle, TEXT("a"), NULL, 0, NULL, 0, out, sizeof out, err, 37, &lengths);
        check(status == FLUENT_TOO_SMALL && lengths.text == 1004, "errors without room");
    }
    fluent_close(&bundle);
}

/* Each of 1,000 calls has another argument. */
static void many_questions(void) {
    static char source[40000];
    size_t n = (size_t)sprintf(source, "a = ");
    for (int i = 0; i < 1000; i++)
        n += (size_t)sprintf(source + n, "{ UP(\"x%d\") }", i % 100 + 1000 * (i / 100));
    sprintf(source + n, "\n");
    open_with(source);
    add("UP", raise, NULL);
    check(fluent_set_limit(&bundle, 10000) == FLUENT_OK, "no limit");
    uint8_t *out = malloc(10000);
    struct fluent_lengths lengths;
    check(fluent_format(&bundle, TEXT("a"), NULL, 0, NULL, 0, out, 10000, NULL, 0, &lengths) == FLUENT_OK, "no text");
    check(calls == 1000, "another count of questions");
    check(lengths.text > 3000 && out[0] == 'X', "another text");
    free(out);
    fluent_close(&bundle);
}

/* ---- formatter and transform */

/* Puts values of the user's kind into brackets, and leaves others. */
static bool bracket(void *user, const struct fluent_value *value, struct fluent_answer *answer) {
    char text[64];
    calls++;
    if ((char)value->kind != *(const char *)user)
        return *(const char *)user != '!';
    fluent_answer(answer, FLUENT_TEXT, text, (size_t)sprintf(text, "<%.*s>", (int)value->length, (const char *)value->text));
    return true;
}

static bool shout(void *user, const uint8_t *text, size_t length, struct fluent_answer *answer) {
    char raised[64];
    calls++;
    if (user)
        return *(const char *)user != '!';
    for (size_t i = 0; i < length; i++)
        raised[i] = (char)(text[i] >= 'a' && text[i] <= 'z' ? text[i] - 32 : text[i]);
    fluent_answer(answer, FLUENT_TEXT, raised, length);
    return true;
}

static void formatters(void) {
    uint8_t argument[16];
    size_t length = (size_t)(fluent_put_argument(argument, FLUENT_TEXT, "s", 1, "t", 1) - argument);
    open_with("a = x { 1 } { $s } { 1 ->\n    [one] one\n   *[other] other\n }\n");
    check(fluent_set_formatter(&bundle, bracket, "n") == FLUENT_OK, "does not set");
    check(format_with("a", argument, length, "x <1> t one", "") == FLUENT_OK, "no text");
    check(calls == 2, "it is asked about a selector, or about the whole text");
    check(fluent_set_formatter(&bundle, bracket, "t") == FLUENT_OK, "does not set");
    check(format_with("a", argument, length, "x 1 <t> one", "") == FLUENT_OK, "no text");
    check(fluent_set_formatter(&bundle, bracket, "!") == FLUENT_OK, "does not set");
    check(format_with("a", argument, length, "", "") == FLUENT_FUNCTION_FAILED, "a failure is passed over");
    check(fluent_set_formatter(&bundle, NULL, NULL) == FLUENT_OK, "does not set");
    check(format_with("a", argument, length, "x 1 t one", "") == FLUENT_OK, "a formatter that is gone is asked");
    fluent_close(&bundle);
}

static void transforms(void) {
    open_with("a = x { \"t\" } { b }\nb = bee\n");
    check(fluent_set_transform(&bundle, shout, NULL) == FLUENT_OK, "does not set");
    check(format("a", "X t BEE") == FLUENT_OK, "another text");
    check(fluent_set_transform(&bundle, shout, "-") == FLUENT_OK, "does not set");
    check(format("a", "x t bee") == FLUENT_OK, "without an answer a text is another");
    check(fluent_set_transform(&bundle, shout, "!") == FLUENT_OK, "does not set");
    check(format("a", "") == FLUENT_FUNCTION_FAILED, "a failure is passed over");
    check(fluent_set_transform(&bundle, NULL, NULL) == FLUENT_OK && format("a", "x t bee") == FLUENT_OK, "it is not gone");
    fluent_close(&bundle);
}

/* ---- chains, and a function that formats */

static bool by_message(void *user, const struct fluent_call *call, struct fluent_answer *answer) {
    uint8_t out[64];
    struct fluent_lengths lengths;
    (void)user;
    uint8_t status = fluent_format(&bundle, call->positional[0].text, call->positional[0].length, NULL, 0, NULL, 0, out,
                                   sizeof out, NULL, 0, &lengths);
    fluent_answer(answer, FLUENT_TEXT, out, lengths.text);
    return status == FLUENT_OK;
}

static void a_function_that_formats(void) {
    open_with("a = { M(\"b\") } { UP(\"x\") }\nb = bee { UP(\"y\") }\n");
    add("M", by_message, NULL);
    add("UP", raise, NULL);
    check(format("a", "bee Y X") == FLUENT_OK, "no text");
    fluent_close(&bundle);
}

static void chains(void) {
    struct fluent_bundle all[2] = {FLUENT_CLOSED, FLUENT_CLOSED};
    uint8_t out[64];
    struct fluent_lengths lengths;
    check(fluent_open(&all[0], TEXT("de"), false) == FLUENT_OK, "does not open");
    check(fluent_open(&all[1], TEXT("en"), false) == FLUENT_OK, "does not open");
    check(fluent_add(&all[0], TEXT("b = de\n")) == FLUENT_OK, "does not add");
    check(fluent_add(&all[1], TEXT("a = { F() }\nb = en\n")) == FLUENT_OK, "does not add");
    check(fluent_add_function(&all[1], TEXT("F"), say, "tff") == FLUENT_OK, "no function");
    check(fluent_format_chain(all, 2, TEXT("a"), NULL, 0, NULL, 0, out, 64, NULL, 0, &lengths) == FLUENT_OK &&
          lengths.text == 2 && !memcmp(out, "ff", 2), "the function of the second");
    check(fluent_format_chain(all, 2, TEXT("b"), NULL, 0, NULL, 0, out, 64, NULL, 0, &lengths) == FLUENT_OK &&
          lengths.text == 2 && !memcmp(out, "de", 2), "the message of the first");
    check(fluent_format_chain(all, 2, TEXT("c"), NULL, 0, NULL, 0, out, 64, NULL, 0, &lengths) == FLUENT_NO_MESSAGE &&
          lengths.text == 0, "what none has");
    fluent_close(&all[1]);
    check(fluent_format_chain(all, 2, TEXT("a"), NULL, 0, NULL, 0, out, 64, NULL, 0, &lengths) ==
              FLUENT_CLOSED_BUNDLE, "a closed one");
    fluent_close(&all[0]);
}

/* ---- by questions and answers */

static void questions(void) {
    uint8_t out[64], err[64], answers[256], *end = answers;
    struct fluent_lengths lengths;
    open_with("a = { F(1, b: \"x\") }{ none }\n");
    check(fluent_declare_function(&bundle, TEXT("F"), false) == FLUENT_OK, "does not declare");
    static const uint8_t question[] = "f\1\0\0\0Fn\0\0\0\0\1\0\0\0001t\1\0\0\0b\1\0\0\0x";
    size_t length = sizeof question - 1;
#define ASK(room)                                                                                                       \
    fluent_format_asking(&bundle, TEXT("a"), NULL, 0, NULL, 0, answers, (size_t)(end - answers), out, room, err, 64,    \
                         &lengths)
    out[0] = '#';
    check(ASK(length - 1) == FLUENT_ASKS && lengths.text == length && lengths.errors == 0, "a question without room");
    check(out[0] == '#', "a question without room is written");
    check(ASK(length) == FLUENT_ASKS && lengths.text == length && !memcmp(out, question, length), "another question");
    end = fluent_put_argument(end, FLUENT_TEXT, "f", 1, "?", 1);
    end = fluent_put_argument(end, FLUENT_TEXT, question, length, "first", 5);
    end = fluent_put_argument(end, FLUENT_TEXT, question, length, "second", 6);
    check(ASK(64) == FLUENT_OK && lengths.text == 11 && !memcmp(out, "first{none}", 11), "another text");
    check(lengths.errors == 7 && !memcmp(err, "mnone\0", 7), "no records");
    *end++ = '?';
    check(ASK(64) == FLUENT_ARGUMENTS_CUT && lengths.text == 0, "answers that can't be read");
    end = fluent_put_argument(answers, FLUENT_TEXT, question, length, "\xff", 1);
    check(ASK(64) == FLUENT_ARGUMENTS_NOT_UTF8, "an answer that is no text");
    check(fluent_format(&bundle, TEXT("a"), NULL, 0, NULL, 0, out, 64, err, 64, &lengths) == FLUENT_ASKS, "it is not asked");
    fluent_close(&bundle);
}

/* ---- memory that is refused */

static uint8_t live(void) {
    /* The question about the second of them is longer than 256 bytes. */
    static const char long_text[300];
    uint8_t arguments[400], *end = fluent_put_argument(arguments, FLUENT_OWN, "d", 1, "7\nmay", 5);
    size_t length = (size_t)(fluent_put_argument(end, FLUENT_TEXT, "l", 1, long_text, sizeof long_text) - arguments);
    uint8_t status = fluent_open_bare(&bundle, TEXT("en"), false);
    if (!status)
        status = fluent_add_builtins(&bundle);
    if (!status)
        status = fluent_add_function(&bundle, TEXT("UP"), raise, NULL);
    if (!status)
        status = fluent_add_function(&bundle, TEXT("SAY"), say, "n7");
    if (!status)
        status = fluent_set_formatter(&bundle, bracket, "n");
    if (!status)
        status = fluent_set_transform(&bundle, shout, NULL);
    if (!status)
        status = fluent_add(&bundle, TEXT("a = x{ UP(UP(\"y\"), z: 1) }{ SAY() ->\n    [7] b\n   *[other] c\n }{ 5 }\n"
                                          "o = { $d }{ SAY($d) }{ SAY($l) }\n"));
    if (!status)
        status = format("a", "XYB<5>");
    if (!status)
        status = format_with("o", arguments, length, "may<7><7>", "");
    if (!status)
        status = fluent_override_function(&bundle, TEXT("NUMBER"), say, "o");
    if (!status)
        status = format("a", "XYB<5>");
    fluent_close(&bundle);
    check(!bundle.is_open && !bundle.asks, "open after it was closed");
    check(taken == 0, "memory that is not given back");
    return status;
}

/* Refuses the first block, then the second, .., until there are enough: only that one, or all behind it too. */
static void refused_in_turn(void) {
    check(live() == FLUENT_OK, "no life");
    for (long turn = 0; is_right; turn++) {
        blocks = turn;
        uint8_t status = live();
        bool is_refused = blocks < 0 || status != FLUENT_OK;
        blocks = -1;
        if (!is_refused)
            break;
        check(status == FLUENT_NO_MEMORY, "refused memory gives another status");
    }
}

static void one_is_refused(void) {
    only_one = true;
    refused_in_turn();
    only_one = false;
}

static void many_lives(void) {
    for (int i = 0; i < 1000 && is_right; i++)
        check(live() == FLUENT_OK, "no life");
}

int main(void) {
    run("arguments of functions", arguments_of_functions);
    run("options of numbers", options_of_numbers);
    run("calls within calls", calls_within_calls);
    run("selectors", selectors);
    run("no values", no_values);
    run("ids that are taken", ids_that_are_taken);
    run("NUMBER", builtins);
    run("failures", failures);
    run("rooms", rooms);
    run("1,000 questions", many_questions);
    run("formatters", formatters);
    run("transforms", transforms);
    run("a function that formats", a_function_that_formats);
    run("chains", chains);
    run("questions and answers", questions);
    run("memory that is refused", refused_in_turn);
    run("a block that is refused", one_is_refused);
    run("1,000 lives", many_lives);
    return finish();
}
