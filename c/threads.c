/* Four threads at once, each with a bundle of its own that it opens, fills, asks and closes many times. Each text is
   compared. */
#include "check.h"
#include <pthread.h>

#define THREADS 4
#define LIVES 500
#define CALLS 20

/* The language and the sources of a thread, and how 1, 2 and 5 files are shown there. */
struct work {
    const char *language;
    const char *source;
    const char *shown[3];
    pthread_t thread;
    size_t wrong;
};

#define SOURCE(one, few, many) \
    "files = { $n ->\n    [one] " one "\n    [few] { $n } " few "\n   *[many] { $n } " many "\n }\n" \
    "who = { files }, { $who }\n"

static struct work works[THREADS] = {
    {.language = "pl", .source = SOURCE("plik", "pliki", "plik\u00f3w"), .shown = {"plik", "2 pliki", "5 plik\u00f3w"}},
    {.language = "en", .source = SOURCE("one file", "few", "files"), .shown = {"one file", "2 files", "5 files"}},
    {.language = "cs", .source = SOURCE("soubor", "soubory", "soubor\u016f"),
     .shown = {"soubor", "2 soubory", "5 soubor\u016f"}},
    {.language = "ja", .source = SOURCE("one", "few", "\u30d5\u30a1\u30a4\u30eb"),
     .shown = {"1 \u30d5\u30a1\u30a4\u30eb", "2 \u30d5\u30a1\u30a4\u30eb", "5 \u30d5\u30a1\u30a4\u30eb"}},
};

static pthread_barrier_t start;

static const uint8_t *bytes(const char *text) {
    return (const uint8_t *)text;
}

/* Whether the count of files and a name that no other call has are shown as they should be. */
static bool is_shown(struct fluent_bundle *bundle, const struct work *work, int call, const char *name) {
    static const char *const counts[] = {"1", "2", "5"};
    uint8_t arguments[128], out[128], err[128];
    struct fluent_lengths lengths;
    uint8_t *end = fluent_put_argument(arguments, FLUENT_NUMBER, "n", 1, counts[call % 3], 1);
    end = fluent_put_argument(end, FLUENT_TEXT, "who", 3, name, strlen(name));
    char wanted[128];
    int length = snprintf(wanted, sizeof wanted, "%s, %s", work->shown[call % 3], name);
    return fluent_format(bundle, TEXT("who"), TEXT(""), arguments, (size_t)(end - arguments), out, sizeof out, err,
                         sizeof err, &lengths) == FLUENT_OK &&
           lengths.text == (size_t)length && lengths.errors == 0 && !memcmp(out, wanted, lengths.text);
}

/* Opens, asks and closes a bundle, and gives how many answers were wrong. */
static size_t live(const struct work *work, int life) {
    struct fluent_bundle bundle = FLUENT_CLOSED;
    char name[64];
    size_t wrong = fluent_open(&bundle, bytes(work->language), strlen(work->language), false) != FLUENT_OK;
    wrong += fluent_add(&bundle, bytes(work->source), strlen(work->source)) != FLUENT_OK;
    wrong += fluent_has(&bundle, TEXT("none")) != FLUENT_NO_MESSAGE;
    for (int call = 0; call < CALLS; call++) {
        snprintf(name, sizeof name, "%s-%d-%d", work->language, life, call);
        wrong += !is_shown(&bundle, work, call, name);
    }
    fluent_close(&bundle);
    return wrong;
}

static void *live_often(void *at) {
    struct work *work = at;
    pthread_barrier_wait(&start);
    for (int life = 0; life < LIVES; life++)
        work->wrong += live(work, life);
    return NULL;
}

static void in_threads(void) {
    pthread_barrier_init(&start, NULL, THREADS);
    for (size_t i = 0; i < THREADS; i++)
        if (pthread_create(&works[i].thread, NULL, live_often, &works[i]))
            abort();
    for (size_t i = 0; i < THREADS; i++) {
        pthread_join(works[i].thread, NULL);
        check(works[i].wrong == 0, works[i].language);
    }
    pthread_barrier_destroy(&start);
}

int main(void) {
    run("four threads with a bundle each", in_threads);
    return finish();
}
