/* A hundred thousand bundles, one after the other: the memory of the program does not grow. Built without sanitizers, which
   keep memory of their own. */
#include "check.h"
#include <malloc.h>
#include <sys/resource.h>

#define FIRST 1000
#define LIVES 100000

/* Half a byte for each life: a block that stayed at each would take at least 32. */
#define MOST_KILOBYTES (LIVES / 2 / 1024)

/* Answers its argument. */
static bool same(void *user, const struct fluent_call *call, struct fluent_answer *answer) {
    (void)user;
    fluent_answer(answer, call->positional[0].kind, call->positional[0].text, call->positional[0].length);
    return true;
}

static void live(void) {
    static const char source[] = "mails = { $n ->\n    [one] one mail\n   *[other] { SAME($n) } mails\n }\n";
    struct fluent_bundle bundle = FLUENT_CLOSED;
    struct fluent_lengths lengths;
    uint8_t argument[16], out[16];
    uint8_t *end = fluent_put_argument(argument, FLUENT_NUMBER, "n", 1, "3", 1);
    check(fluent_open(&bundle, TEXT("en"), false) == FLUENT_OK, "does not open");
    check(fluent_add_function(&bundle, TEXT("SAME"), same, NULL) == FLUENT_OK, "does not add a function");
    check(fluent_add(&bundle, TEXT(source)) == FLUENT_OK, "does not add");
    check(fluent_format(&bundle, TEXT("mails"), NULL, 0, argument, (size_t)(end - argument), out, sizeof out, NULL, 0,
                        &lengths) == FLUENT_OK, "does not format");
    check(lengths.text == 7 && !memcmp(out, "3 mails", 7), "another text");
    fluent_close(&bundle);
    check(taken == 0, "memory that is not given back");
}

/* The most kilobytes that the program had at once. */
static long peak(void) {
    struct rusage usage;
    getrusage(RUSAGE_SELF, &usage);
    return usage.ru_maxrss;
}

/* Less than a byte for each life. */
#define MOST_KEPT (LIVES / 2)

static void live_often(void) {
    for (int i = 0; i < FIRST; i++)
        live();
    long before = peak();
    size_t in_use = mallinfo2().uordblks;
    for (int i = 0; i < LIVES && is_right; i++)
        live();
    /* malloc keeps a few freed blocks aside, and counts them. */
    check(mallinfo2().uordblks < in_use + MOST_KEPT, "malloc has more in use");
    check(peak() - before <= MOST_KILOBYTES, "the program has grown");
}

int main(void) {
    run("100,000 bundles", live_often);
    return finish();
}
