/* Replays the rows of the fixtures over the library: rows FILE, where bindings/python/tests/rows.py has written FILE. Functions,
   formatters and transforms are asked both through pointers and by questions. */
#include "check.h"
#include "fence.h"
#include "objects.h"
#include "records.h"

#define MOST_LINKS 8

/* The bundles of a chain, or one alone, and what they were given. */
static struct fluent_bundle bundles[MOST_LINKS];
static struct objects objects[MOST_LINKS];
static size_t links;
static bool has_objects;

/* How a row is asked: a bundle that is alone also as a chain. The last two ask the bundle that fluent_find_chain names, and
   have records of errors. */
static enum way { BY_BUNDLE, BY_CHAIN, BY_RECORDS, BY_HAND, WAYS } way;

/* How much memory is taken without bundles. */
static long taken_before;

/* Where what is handed over ends: three texts and two buffers. */
static struct fence fences[5];

static const uint8_t *lent(size_t fence, struct text text) {
    return fenced(fences[fence], text.at, text.length);
}

/* The two buffers of a call, and what it answered. */
struct answer {
    uint8_t *out;
    size_t out_room;
    uint8_t *err;
    size_t err_room;
    uint8_t status;
    struct fluent_lengths lengths;
};

#define LENT(fence, text) lent(fence, text), (text).length
#define TARGET(row) LENT(0, (row)->texts[1]), LENT(1, (row)->texts[2])
#define ASKED(row) TARGET(row), LENT(2, (row)->texts[3])
#define ROOMS(a) (a)->out, (a)->out_room, (a)->err, (a)->err_room, &(a)->lengths

/* Asks by hand: what was asked, and the answers to it. */
static uint8_t by_hand(size_t index, const struct record *row, struct answer *a) {
    static uint8_t question[1 << 16], answers[1 << 20];
    uint8_t status, *end = answers;
    while ((status = fluent_format_asking(&bundles[index], ASKED(row), answers, (size_t)(end - answers), question,
                                          sizeof question, NULL, 0, &a->lengths)) == FLUENT_ASKS) {
        size_t length = a->lengths.text;
        struct fluent_value value = answer_of(&objects[index], question, length);
        if (fluent_argument_length(length, value.length) > (size_t)(answers + sizeof answers - end))
            abort();
        end = fluent_put_argument(end, value.kind, question, length, value.text, value.length);
    }
    return status > FLUENT_TOO_SMALL ? status : fluent_format_asking(&bundles[index], ASKED(row), answers,
                                                                     (size_t)(end - answers), ROOMS(a));
}

static uint8_t by_index(const struct record *row, struct answer *a) {
    size_t index = 99;
    uint8_t status = fluent_find_chain(bundles, links, TARGET(row), &index);
    if (status != FLUENT_OK) {
        a->lengths = (struct fluent_lengths){0, 0};
        return status;
    }
    return way == BY_HAND ? by_hand(index, row, a) : fluent_format_records(&bundles[index], ASKED(row), ROOMS(a));
}

/* Formats what a record asks for into buffers of these rooms. */
static struct answer format(const struct record *row, size_t out_room, size_t err_room) {
    struct answer a = {fenced_room(fences[3], out_room), out_room, fenced_room(fences[4], err_room), err_room, 99, {99, 99}};
    switch (way) {
    case BY_BUNDLE: a.status = fluent_format(bundles, ASKED(row), ROOMS(&a)); break;
    case BY_CHAIN: a.status = fluent_format_chain(bundles, links, ASKED(row), ROOMS(&a)); break;
    default: a.status = by_index(row, &a);
    }
    return a;
}

/* The errors that a row wants, as lines or as records. */
static struct text errors_of(const struct record *row) {
    return row->texts[way < BY_RECORDS ? 5 : 6];
}

static bool holds(const uint8_t *buffer, struct text text) {
    return text.length == 0 || !memcmp(buffer, text.at, text.length);
}

static bool has_lengths(const struct answer *a, size_t text, size_t errors) {
    return a->lengths.text == text && a->lengths.errors == errors;
}

/* Shows a text that came where another was wanted. */
static void compare(const char *what, const uint8_t *came, size_t length, struct text wanted) {
    bool is_same = length == wanted.length && holds(came, wanted);
    check(is_same, what);
    if (!is_same)
        printf("  wanted: %.*s\n  came:   %.*s\n", (int)wanted.length, wanted.at, (int)length, came);
}

/* A row's text and errors, into buffers with just as much room, and with a byte less for either. */
static void ask_format(const struct record *row) {
    struct text text = row->texts[4], errors = errors_of(row);
    struct answer a = format(row, text.length, errors.length);
    check(a.status == FLUENT_OK, "another status");
    check(has_lengths(&a, text.length, errors.length) && holds(a.out, text) && holds(a.err, errors), "another answer");
    if (!is_right) {
        a = format(row, fences[3].room, fences[4].room);
        compare("the text", a.out, a.lengths.text, text);
        compare("the errors", a.err, a.lengths.errors, errors);
        return;
    }
    if (text.length > 0) {
        a = format(row, text.length - 1, errors.length);
        check(a.status == FLUENT_TOO_SMALL && has_lengths(&a, text.length, errors.length), "too small for the text");
        check(is_untouched(a.out, text.length - 1) && holds(a.err, errors), "what is written beside the text");
    }
    if (errors.length > 0) {
        a = format(row, text.length, errors.length - 1);
        check(a.status == FLUENT_TOO_SMALL && has_lengths(&a, text.length, errors.length), "too small for the errors");
        check(is_untouched(a.err, errors.length - 1) && holds(a.out, text), "what is written beside the errors");
    }
}

/* The same with the first request for memory refused, then with the second, .., until there is enough: only that one, or all
   behind it too. A bundle that asks keeps what its last call was answered. */
static void refuse_in_turn(const struct record *row) {
    struct text text = row->texts[4], errors = errors_of(row);
    long before = taken;
    for (long turn = 0; is_right; turn++) {
        blocks = turn;
        struct answer a = format(row, text.length, errors.length);
        bool is_refused = blocks < 0 || a.status != FLUENT_OK;
        blocks = -1;
        check(taken == before || (has_objects && a.status == FLUENT_NO_MEMORY), "memory that is not given back");
        if (!is_refused) {
            check(holds(a.out, text) && holds(a.err, errors), "another answer after a refusal");
            return;
        }
        check(a.status == FLUENT_NO_MEMORY && has_lengths(&a, 0, 0), "refused memory gives another status");
        check(is_untouched(a.out, text.length) && is_untouched(a.err, errors.length), "refused, and written");
    }
}

static void ask_missing(const struct record *row) {
    struct answer a = format(row, 8, 8);
    check(a.status == FLUENT_NO_MESSAGE && has_lengths(&a, 0, 0), "something is there");
    check(is_untouched(a.out, 8) && is_untouched(a.err, 8), "something is written");
}

/* How many of the bundles have what a row asks for. */
static size_t found(const struct record *row) {
    struct text id = row->texts[1], name = row->texts[2];
    size_t count = 0;
    for (size_t i = 0; i < links; i++) {
        uint8_t status = fluent_find(&bundles[i], lent(0, id), id.length, lent(1, name), name.length);
        check(status == FLUENT_OK || status == FLUENT_NO_MESSAGE, "another status of what is looked for");
        count += status == FLUENT_OK;
    }
    return count;
}

static void ask_absent(const struct record *row) {
    struct text id = row->texts[1];
    for (size_t i = 0; i < links; i++)
        check(fluent_has(&bundles[i], lent(0, id), id.length) == FLUENT_NO_MESSAGE, "it is there");
}

/* The names of the attributes of a message, by the first of the bundles that has it. */
static void ask_attributes(const struct record *row) {
    struct text id = row->texts[1], names = row->texts[2];
    size_t at = 0, length = 99;
    while (at < links && fluent_has(&bundles[at], lent(0, id), id.length) == FLUENT_NO_MESSAGE)
        at++;
    check(at < links, "no message");
    if (!is_right)
        return;
    uint8_t *out = fenced_room(fences[3], names.length);
    uint8_t status = fluent_attributes(&bundles[at], lent(0, id), id.length, out, names.length, &length);
    check(status == FLUENT_OK && length == names.length && holds(out, names), "other attributes");
}

/* Asks a row in each way. */
static void ask_each_way(const struct record *row) {
    bool is_there = row->kind == 'f';
    check((found(row) > 0) == is_there, is_there ? "it is not found" : "it is found");
    for (way = links > 1 ? BY_CHAIN : BY_BUNDLE; way < WAYS; way++) {
        if (is_there) {
            ask_format(row);
            for (int one = 0; one < 2; one++) {
                only_one = one;
                refuse_in_turn(row);
            }
        } else
            ask_missing(row);
    }
}

/* What makes a bundle is no case, and must be right all the same. */
static void must_be(uint8_t wanted, uint8_t status) {
    if (status == wanted)
        return;
    printf("a bundle can't be made: status %d\n", status);
    exit(1);
}

static void must(uint8_t status) {
    must_be(FLUENT_OK, status);
}

static void add(struct text source, bool is_overriding) {
    uint8_t (*call)(struct fluent_bundle *, const uint8_t *, size_t) = is_overriding ? fluent_add_overriding : fluent_add;
    must(call(&bundles[links - 1], lent(0, source), source.length));
}

/* Adds a source, and compares what is told of it. */
static void add_and_report(const struct record *r) {
    struct text report = r->texts[3];
    size_t length = 99;
    add(r->texts[1], r->texts[2].length > 0);
    uint8_t *out = fenced_room(fences[3], report.length);
    uint8_t status = fluent_report(&bundles[links - 1], out, report.length, &length);
    check(status == FLUENT_OK && length == report.length && holds(out, report), "another report");
    if (!is_right && status == FLUENT_TOO_SMALL) {
        out = fenced_room(fences[3], length);
        fluent_report(&bundles[links - 1], out, length, &length);
        compare("the report", out, length, report);
    }
    if (report.length == 0)
        return;
    out = fenced_room(fences[3], report.length - 1);
    status = fluent_report(&bundles[links - 1], out, report.length - 1, &length);
    check(status == FLUENT_TOO_SMALL && length == report.length, "too small for the report");
    check(is_untouched(out, report.length - 1), "a report is written that is too long");
}

static void open_bundle(const struct record *r) {
    const struct text *t = r->texts;
    if (links == MOST_LINKS)
        abort();
    struct fluent_bundle *bundle = &bundles[links++];
    if (r->kind == 'r')
        must(fluent_open_rules(bundle, LENT(0, t[0]), LENT(1, t[1]), t[2].length > 0));
    else
        must((t[2].length ? fluent_open_bare : fluent_open)(bundle, LENT(0, t[0]), t[1].length > 0));
}

/* Adds a function of a kind, or finds its name taken, as a record says. */
static void add_function(const struct text *t) {
    struct objects *own = &objects[links - 1];
    struct named_kind *function = &own->functions[own->count];
    if (own->count == MOST_FUNCTIONS)
        abort();
    *function = (struct named_kind){t[0], t[1]};
    must_be(t[2].length ? FLUENT_ID_TAKEN : FLUENT_OK,
            fluent_add_function(&bundles[links - 1], LENT(0, t[0]), call_kind, function));
    own->count += t[2].length == 0;
    has_objects = true;
}

static void set_formatter(struct text way_of_it) {
    struct text *formatter = &objects[links - 1].formatter;
    *formatter = way_of_it;
    must(fluent_set_formatter(&bundles[links - 1], show_value, formatter));
    has_objects = true;
}

static void set_transform(void) {
    must(fluent_set_transform(&bundles[links - 1], raise_text, NULL));
    has_objects = true;
}

static void set_limit(struct text digits) {
    size_t limit = 0;
    for (size_t i = 0; i < digits.length; i++)
        limit = 10 * limit + (size_t)(digits.at[i] - '0');
    must(fluent_set_limit(&bundles[links - 1], limit));
}

static void close_all(void) {
    while (links > 0) {
        fluent_close(&bundles[--links]);
        objects[links].count = 0;
    }
    has_objects = false;
    if (taken != taken_before)
        exit(printf("memory is not given back with a bundle\n") > 0);
}

/* What is to be done where a record is no case. */
static void make(const struct record *r) {
    switch (r->kind) {
    case 'o':
    case 'r': open_bundle(r); break;
    case 'l': set_limit(r->texts[0]); break;
    case 'n': must_be(r->texts[2].length ? FLUENT_ID_TAKEN : FLUENT_OK, fluent_add_builtins(&bundles[links - 1])); break;
    case 'u': add_function(r->texts); break;
    case 'v': set_formatter(r->texts[0]); break;
    case 'x': set_transform(); break;
    case 'c': close_all(); break;
    default: abort();
    }
}

static void try_case(const struct record *r) {
    static char name[256];
    snprintf(name, sizeof name, "%.*s", (int)r->texts[0].length, r->texts[0].at);
    begin_case(name);
    switch (r->kind) {
    case 't': add_and_report(r); break;
    case 'h': ask_absent(r); break;
    case 'b': ask_attributes(r); break;
    default: ask_each_way(r);
    }
    end_case();
}

int main(int count, char **words) {
    if (count != 2)
        return 2;
    struct text file = read_file(words[1]);
    const uint8_t *at = file.at;
    taken_before = taken;
    for (size_t i = 0; i < COUNT(fences); i++)
        fences[i] = new_fence(file.length);
    while (at < file.at + file.length) {
        struct record record = read_record(&at, file.at + file.length);
        strchr("fmhtb", record.kind) ? try_case(&record) : make(&record);
    }
    free((void *)file.at);
    if (links > 0 || taken != 0)
        return printf("a bundle is open, or memory is not given back\n"), 1;
    return finish();
}
