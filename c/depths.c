/* Asks for patterns that are as deep as may be, or hostile, on little stack: depths FILE [KILOBYTES], where tools/depths.py or
   tools/hostile has written FILE. A source is read, and with the first limit checked, by a thread with the stack that ulimit
   gave, and formatted by one with so many kilobytes. Each case is a process of its own, which ends within SECONDS. In some the
   program is asked, too: a function that answers its first argument, a formatter and a transform that change nothing. */
#include "fluent.h"
#include "records.h"
#include <pthread.h>
#include <sys/wait.h>
#include <unistd.h>

#define SECONDS 10
#define KILOBYTES 1024

/* What the child says that asked for a case. */
enum ending { RIGHT, WRONG_ANSWER, NO_BUNDLE, NO_ROOM };

static const char *const endings[] = {"passed", "another answer", "its bundle can't be made", "no thread, or no memory"};

static size_t stack_size;
static struct fluent_bundle bundle = FLUENT_CLOSED;

static size_t number(struct text digits) {
    size_t number = 0;
    for (size_t i = 0; i < digits.length; i++)
        number = 10 * number + (size_t)(digits.at[i] - '0');
    return number;
}

static bool holds(const uint8_t *buffer, size_t length, struct text text) {
    return length == text.length && !memcmp(buffer, text.at, length);
}

static bool first(void *user, const struct fluent_call *call, struct fluent_answer *answer) {
    const struct fluent_value *value = call->positional;
    (void)user;
    if (call->positional_count)
        fluent_answer(answer, value->kind, value->text, value->length);
    else
        fluent_answer(answer, FLUENT_ERROR, NULL, 0);
    return true;
}

static bool leave_value(void *user, const struct fluent_value *value, struct fluent_answer *answer) {
    (void)user;
    return value && answer;
}

static bool leave_text(void *user, const uint8_t *text, size_t length, struct fluent_answer *answer) {
    (void)user;
    return text && length && answer;
}

static bool is_made(struct text source, const struct record *row) {
    if (fluent_open(&bundle, (const uint8_t *)"en", 2, true) || fluent_set_limit(&bundle, number(row->texts[1])))
        return false;
    if (row->kind == 'a' && (fluent_add_function(&bundle, (const uint8_t *)"F", 1, first, NULL) ||
                             fluent_set_formatter(&bundle, leave_value, NULL) ||
                             fluent_set_transform(&bundle, leave_text, NULL)))
        return false;
    return fluent_add(&bundle, source.at, source.length) == FLUENT_OK;
}

/* Whether a check of a source comes to an end. */
static bool is_checked(struct text source) {
    size_t room = fluent_argument_length(1, source.length);
    uint8_t *records = malloc(room);
    struct fluent_checked told;
    if (!records)
        abort();
    fluent_put_argument(records, FLUENT_TEXT, "x", 1, source.at, source.length);
    uint8_t status = fluent_check((const uint8_t *)"en", 2, records, room, NULL, 0, NULL, 0, NULL, 0, true, NULL, 0, &told);
    free(records);
    return status == FLUENT_TOO_SMALL && told.text > 0;
}

/* Formats what a record asks for, into a byte more than what is wanted has, and compares. */
static void *format(void *at) {
    static enum ending ending;
    const struct record *row = at;
    const struct text *t = row->texts;
    size_t out_room = t[3].length + 1, err_room = t[4].length + 1;
    uint8_t *out = malloc(out_room), *err = malloc(err_room);
    struct fluent_lengths lengths;
    if (!out || !err)
        abort();
    uint8_t status = fluent_format(&bundle, (const uint8_t *)"a", 1, NULL, 0, t[2].at, t[2].length, out, out_room, err,
                                   err_room, &lengths);
    bool is_right = row->kind == 'm' ? status == FLUENT_NO_MESSAGE
                                     : status == FLUENT_OK && holds(out, lengths.text, t[3]) && holds(err, lengths.errors, t[4]);
    ending = is_right ? RIGHT : WRONG_ANSWER;
    free(out);
    free(err);
    return &ending;
}

static enum ending asked(struct text source, struct record *row) {
    pthread_attr_t small;
    pthread_t thread;
    void *ending;
    if (!is_made(source, row))
        return NO_BUNDLE;
    if (number(row->texts[1]) == 1 && !is_checked(source))
        return WRONG_ANSWER;
    if (pthread_attr_init(&small) || pthread_attr_setstacksize(&small, stack_size) ||
        pthread_create(&thread, &small, format, row) || pthread_join(thread, &ending))
        return NO_ROOM;
    fluent_close(&bundle);
    return *(enum ending *)ending;
}

/* Asks in a process of its own, and gives whether all was right. */
static bool is_right(struct text source, struct record *row) {
    int status;
    fflush(stdout);
    pid_t child = fork();
    if (child == 0) {
        alarm(SECONDS);
        _exit(asked(source, row));
    }
    if (child < 0 || waitpid(child, &status, 0) != child)
        abort();
    if (status == 0)
        return true;
    printf("wrong: %.*s: ", (int)row->texts[0].length, row->texts[0].at);
    if (WIFSIGNALED(status))
        printf("stopped by signal %d\n", WTERMSIG(status));
    else
        printf("%s\n", endings[WEXITSTATUS(status)]);
    return false;
}

int main(int count, char **words) {
    if (count < 2 || count > 3)
        return 2;
    struct text file = read_file(words[1]), source = {NULL, 0};
    const uint8_t *at = file.at;
    size_t passed = 0, failed = 0;
    stack_size = 1024 * (count > 2 ? (size_t)atol(words[2]) : KILOBYTES);
    while (at < file.at + file.length) {
        struct record record = read_record(&at, file.at + file.length);
        if (record.kind == 's')
            source = record.texts[0];
        else
            *(is_right(source, &record) ? &passed : &failed) += 1;
    }
    free((void *)file.at);
    printf("%zu cases passed, %zu failed\n", passed, failed);
    return failed > 0;
}
