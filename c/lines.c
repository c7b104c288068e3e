/* What is told of a source that was added, and the ids of a bundle: lines in a buffer. */
#include "check.h"
#include "fence.h"

typedef uint8_t (*call)(struct fluent_bundle *, uint8_t *, size_t, size_t *);

static struct fluent_bundle bundle = FLUENT_CLOSED;
static struct fence fence;

/* Whether a call writes these lines where there is just enough room, and into no buffer that is a byte too small; also after
   memory was refused to it in turn. */
static void expect(call write, const char *lines) {
    size_t wanted = strlen(lines), length = 99;
    uint8_t status = FLUENT_NO_MEMORY, *out;
    long before = taken;
    for (long turn = 0; status == FLUENT_NO_MEMORY; turn++) {
        out = fenced_room(fence, wanted);
        blocks = turn;
        status = write(&bundle, out, wanted, &length);
        blocks = -1;
        check(status == FLUENT_OK || (length == 0 && is_untouched(out, wanted)), "refused, and written");
        check(taken == before, "memory that is not given back");
    }
    check(status == FLUENT_OK && length == wanted && (!wanted || !memcmp(out, lines, wanted)), lines);
    if (wanted == 0)
        return;
    out = fenced_room(fence, wanted - 1);
    check(write(&bundle, out, wanted - 1, &length) == FLUENT_TOO_SMALL && length == wanted, "too small");
    check(is_untouched(out, wanted - 1), "a buffer that is too small is written");
}

static void add(const char *source) {
    check(fluent_add(&bundle, (const uint8_t *)source, strlen(source)) == FLUENT_OK, "does not add");
}

static void closed(void) {
    size_t length = 99;
    check(fluent_report(&bundle, NULL, 0, &length) == FLUENT_CLOSED_BUNDLE && length == 0, "a report of nothing");
    length = 99;
    check(fluent_ids(&bundle, NULL, 0, &length) == FLUENT_CLOSED_BUNDLE && length == 0, "ids of nothing");
}

static void reports(void) {
    static const char left[] = "1: unreadable entry at bytes 0..9\n5: unreadable entry at bytes 31..37\n"
                               "3: Attempt to override an existing message: \"a\".\n"
                               "4: Attempt to override an existing term: \"b\".\n";
    check(fluent_open(&bundle, TEXT("en"), true) == FLUENT_OK, "does not open");
    expect(fluent_report, "");
    add("a = A\nb = B\n");
    expect(fluent_report, "");
    add("?? what\n\na = again\n-b = a term\nc = {\n");
    expect(fluent_report, left);
    check(fluent_add(&bundle, TEXT("\xff")) == FLUENT_SOURCE_NOT_UTF8, "adds what is not UTF-8");
    expect(fluent_report, left);
    add("# all is well\nd = D\n");
    expect(fluent_report, "");
    fluent_close(&bundle);
}

static void ids(void) {
    check(fluent_open(&bundle, TEXT("en"), true) == FLUENT_OK, "does not open");
    expect(fluent_ids, "");
    add("b = B\na =\n    .c = C\n-term = T\n??\n");
    expect(fluent_ids, "a\nb\n");
    add("-c = T\nb = again\nlater = L\nA = A\n");
    expect(fluent_ids, "A\na\nb\nlater\n");
    fluent_close(&bundle);
}

int main(void) {
    fence = new_fence(256);
    run("a closed bundle", closed);
    run("reports", reports);
    run("ids", ids);
    return finish();
}
