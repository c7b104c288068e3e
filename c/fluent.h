/* Fluent for C: messages of one source, or of a bundle that is kept, formatted as the proved crates below say.

   Texts are UTF-8, each by where it begins and how many bytes it has, as (const uint8_t *)"en" and 2. A zero byte is a byte
   like any other, and none is written after a text: print it by its length, as by "%.*s". A pointer to a text or a buffer may
   be null where that has no bytes. Every other null pointer, as to a bundle or to lengths, is the caller's fault, and no call
   looks for it. What is written lies apart from all else that is handed over.

   Memory is taken by malloc and realloc and given back by free, all of it before a call ends, but for that of a bundle. A
   call keeps none of the memory that it was given: a bundle has copies of its sources. Each copy, with what was read in it,
   is kept until fluent_close, also where later entries took the place of its own, and perhaps where there was no memory to
   add it: a bundle that is overridden again and again grows, and is better opened anew.

   Calls in several threads at once have nothing in common. A bundle may go from thread to thread, and is asked by one of them
   at a time: the program sees to it that a call has ended before the next one begins (tried, and not proved). After fork each
   process has bundles of its own. No call belongs into a signal handler.

   No call takes more than a megabyte of stack, whatever it is given (tried, and not proved). */
#ifndef FLUENT_H
#define FLUENT_H
#include <stdbool.h>
#include <stddef.h>
#include <stdint.h>
#include <string.h>
#ifdef __cplusplus
extern "C" {
#endif

/* The version of this header, and of the library that is called. */
#define FLUENT_VERSION "0.2.0"
const char *fluent_version(void);

/* What a call answers. From FLUENT_NO_MEMORY on no buffer is written, and each length is 0, but at FLUENT_ASKS. */
enum fluent_status {
    FLUENT_OK = 0,                    /* the text and the lines of its errors are in their buffers */
    FLUENT_TOO_SMALL = 1,             /* the lengths are written; where there is less room, a buffer stays */
    FLUENT_NO_MEMORY = 2,             /* malloc or realloc answered null */
    FLUENT_SOURCE_NOT_UTF8 = 3,       /* told before any memory is taken */
    FLUENT_LANGUAGE_NOT_UTF8 = 4,     /* the tag, or a text of plural rules */
    FLUENT_NO_LANGUAGE = 5,           /* the Unicode CLDR has no plural rules for the tag: the bundle is open all the same */
    FLUENT_BAD_RULES = 6,             /* the plural rules can't be read */
    FLUENT_ID_NOT_UTF8 = 7,           /* the id, or the name of the attribute */
    FLUENT_NO_MESSAGE = 8,            /* no such message with a value, or with that attribute */
    FLUENT_ARGUMENTS_CUT = 9,         /* arguments, or answers, are cut short, or one begins with no kind of value */
    FLUENT_ARGUMENTS_NOT_UTF8 = 10,   /* the name or the value of one of them */
    FLUENT_CLOSED_BUNDLE = 11,        /* the bundle is not open */
    FLUENT_OPEN_BUNDLE = 12,          /* the bundle is open, and stays as it was */
    FLUENT_OUT_OF_RANGE = 13,         /* the limit is 0 or above 10,000, and the bundle stays as it was */
    FLUENT_ASKS = 14,                 /* what is declared lacks an answer: the question is in the buffer of the text */
    FLUENT_ID_TAKEN = 15,             /* something has the id, and the bundle stays as it was */
    FLUENT_FUNCTION_FAILED = 16       /* a function of the program said so, or is not registered */
};

/* How many bytes a text has, and the lines of its errors. */
struct fluent_lengths {
    size_t text;
    size_t errors;
};

/* Formats the value of a message of a source, or its attribute where the length of the attribute's name is not 0.

   language    a tag such as "en" or "pt-PT", whose plural rules choose; where there are none, each number is "other"
   isolate     whether placeables stand between U+2068 and U+2069, which keep texts of other directions apart
   source      FTL; what can't be read in it is passed over, and so is a message or a term whose id stands in it before
   arguments   one after the other, as fluent_put_argument writes them; the last of a repeated name stands
   out         the text
   err         a line for each error in it
   lengths     how many bytes both have, so also how much room they need */
uint8_t fluent_format_source(const uint8_t *language, size_t language_length, bool isolate, const uint8_t *source,
                             size_t source_length, const uint8_t *id, size_t id_length, const uint8_t *attribute,
                             size_t attribute_length, const uint8_t *arguments, size_t arguments_length, uint8_t *out,
                             size_t out_room, uint8_t *err, size_t err_room, struct fluent_lengths *lengths);

/* A bundle that is kept: its sources, what was read in them, and the plural rules of its language. Its fields belong to the
   library. It begins as FLUENT_CLOSED, or with all its bytes zero, is in one place until it is closed, and is closed by
   fluent_close alone. */
struct fluent_bundle {
    uint8_t *at;
    bool is_open;
    struct fluent_asks *asks; /* what the program registered for it */
};

#define FLUENT_CLOSED {NULL, false, NULL}

/* Opens a bundle that is closed, for the plural rules of a language: FLUENT_OK, or FLUENT_NO_LANGUAGE where the Unicode
   CLDR has no rules for the tag. Then the bundle is open too, and each number is "other" in it. So it is of every tag of
   more than 35 bytes. Else it stays closed. */
uint8_t fluent_open(struct fluent_bundle *bundle, const uint8_t *language, size_t language_length, bool isolate);

/* The same without the function NUMBER. */
uint8_t fluent_open_bare(struct fluent_bundle *bundle, const uint8_t *language, size_t language_length, bool isolate);

/* Opens a bundle that is closed, for the plural rules of two texts, which are written as in the Unicode CLDR: a rule on each
   line, such as "one: i = 1 and v = 0". A text may be empty: what no rule takes is "other". FLUENT_OK, or it stays closed. */
uint8_t fluent_open_rules(struct fluent_bundle *bundle, const uint8_t *cardinal, size_t cardinal_length,
                          const uint8_t *ordinal, size_t ordinal_length, bool isolate);

/* Sets how many placeables one call opens, 1 to 10,000; a bundle opens with 100. FLUENT_OK or FLUENT_OUT_OF_RANGE. */
uint8_t fluent_set_limit(struct fluent_bundle *bundle, size_t limit);

/* Adds the function NUMBER to a bundle that was opened without it: FLUENT_OK or FLUENT_ID_TAKEN. */
uint8_t fluent_add_builtins(struct fluent_bundle *bundle);

/* Adds a source, of which the bundle takes a copy: FLUENT_OK, or nothing was added. What can't be read in it is passed over,
   and so is a message or a term whose id is there; fluent_report tells what was passed over. */
uint8_t fluent_add(struct fluent_bundle *bundle, const uint8_t *source, size_t source_length);

/* The same, but that its messages and terms take the place of what has their ids. */
uint8_t fluent_add_overriding(struct fluent_bundle *bundle, const uint8_t *source, size_t source_length);

/* Gives what was passed over in the source that was added last: a line for each part that can't be read, and then one for
   each entry whose id was there, each with the number of its line in the source. The text is empty where all was added, and
   before anything was. A call that adds and does not answer FLUENT_OK leaves it.

   out      the text
   length   how many bytes it has, so also how much room it needs */
uint8_t fluent_report(struct fluent_bundle *bundle, uint8_t *out, size_t out_room, size_t *length);

/* Gives the ids of all messages of the bundle in the order of their bytes, a line each, as fluent_report gives its text. */
uint8_t fluent_ids(struct fluent_bundle *bundle, uint8_t *out, size_t out_room, size_t *length);

/* Gives the names of the attributes of a message in the order of the source, a line each, as fluent_report gives its text. A
   name that stands twice is there twice; fluent_format takes the first. FLUENT_NO_MESSAGE where there is none of the id. */
uint8_t fluent_attributes(struct fluent_bundle *bundle, const uint8_t *id, size_t id_length, uint8_t *out,
                          size_t out_room, size_t *length);

/* Gives the names of the variables that the value of a message, or its attribute, asks the arguments for, a line each, as
   fluent_report gives its text: its own, those in what it gives to terms and functions, in all variants, and those of messages
   that it refers to. Each stands there once, in the order of its bytes. FLUENT_NO_MESSAGE where fluent_find answers so. */
uint8_t fluent_variables(struct fluent_bundle *bundle, const uint8_t *id, size_t id_length, const uint8_t *attribute,
                         size_t attribute_length, uint8_t *out, size_t out_room, size_t *length);

/* Whether there is a message of the id: FLUENT_OK or FLUENT_NO_MESSAGE. */
uint8_t fluent_has(struct fluent_bundle *bundle, const uint8_t *id, size_t id_length);

/* Whether there is a message with a value, or with the attribute where the length of the attribute's name is not 0, so that
   fluent_format has a text for it: FLUENT_OK or FLUENT_NO_MESSAGE. */
uint8_t fluent_find(struct fluent_bundle *bundle, const uint8_t *id, size_t id_length, const uint8_t *attribute,
                    size_t attribute_length);

/* Formats the value of a message of the bundle, or its attribute, as fluent_format_source does. The bundle stays as it
   was. Of several causes the first is told: FLUENT_CLOSED_BUNDLE, FLUENT_ID_NOT_UTF8, FLUENT_NO_MESSAGE, and then the
   first fault of the arguments. */
uint8_t fluent_format(struct fluent_bundle *bundle, const uint8_t *id, size_t id_length, const uint8_t *attribute,
                      size_t attribute_length, const uint8_t *arguments, size_t arguments_length, uint8_t *out,
                      size_t out_room, uint8_t *err, size_t err_room, struct fluent_lengths *lengths);

/* The same with a record in err for each error in place of a line: fluent_next_error reads them. */
uint8_t fluent_format_records(struct fluent_bundle *bundle, const uint8_t *id, size_t id_length,
                              const uint8_t *attribute, size_t attribute_length, const uint8_t *arguments,
                              size_t arguments_length, uint8_t *out, size_t out_room, uint8_t *err, size_t err_room,
                              struct fluent_lengths *lengths);

/* Formats the value of a message, or its attribute, by the first of some bundles that has it, as fluent_format of that one
   does. All bundles stay as they were.

   bundles     an array of them, each opened where it lies, of which bundles[0] is asked first
   count       how many there are, which may be 0

   Its errors are lines. For records ask fluent_find_chain, and then fluent_format_records of the bundle that it names.

   FLUENT_ID_NOT_UTF8 is told before any bundle is asked. FLUENT_CLOSED_BUNDLE says that one which is not open stands before
   the first that has the message, or anywhere where none has it, and FLUENT_NO_MESSAGE that all are open and none has it. */
uint8_t fluent_format_chain(struct fluent_bundle *bundles, size_t count, const uint8_t *id, size_t id_length,
                            const uint8_t *attribute, size_t attribute_length, const uint8_t *arguments,
                            size_t arguments_length, uint8_t *out, size_t out_room, uint8_t *err, size_t err_room,
                            struct fluent_lengths *lengths);

/* Says which of some bundles answers fluent_format_chain: FLUENT_OK or FLUENT_CLOSED_BUNDLE of bundles[*index]. At
   FLUENT_ID_NOT_UTF8 and FLUENT_NO_MESSAGE the index is count. */
uint8_t fluent_find_chain(struct fluent_bundle *bundles, size_t count, const uint8_t *id, size_t id_length,
                          const uint8_t *attribute, size_t attribute_length, size_t *index);

/* Gives back all memory of the bundle, which is closed then. Nothing happens where it is closed. */
void fluent_close(struct fluent_bundle *bundle);

/* The kinds of values, of arguments as of what functions are asked and answer.

   FLUENT_TEXT     a text
   FLUENT_NUMBER   the text of a number, which keeps the digits after its point, and its options, if it has some: behind
                   a ";" come key=value pairs, parted by ";", with the keys and values of the function NUMBER, and
                   currency= last, as in "1.50;style=currency;currency=EUR". Where the first of them is empty, as in
                   "1.50;", the digits after the point are no minimum. A text that is no number is taken as a text.
                   It is shown by its digits, whatever the language and the style: a formatter can show it otherwise.
   FLUENT_OWN      a value of the program's own, such as a date: a token that the program chooses, a line feed, and the text
                   that the value is shown as, as in "1795910400\n2026-11-29". Functions and formatters get it as it is, so they
                   find their object by the token. It takes no variant. Without a line feed it is shown as an empty text.
   FLUENT_NONE     no value, and no text
   FLUENT_ERROR    an error, and no text */
enum fluent_kind { FLUENT_TEXT = 't', FLUENT_NUMBER = 'n', FLUENT_OWN = 'c', FLUENT_NONE = 'o', FLUENT_ERROR = 'e' };

/* How many bytes an argument takes: its kind, and its name and its value, each after its length in four bytes, the lowest
   first. */
static inline size_t fluent_argument_length(size_t name_length, size_t value_length) {
    return 9 + name_length + value_length;
}

static inline uint8_t *fluent_put_sized(uint8_t *at, const void *text, size_t length) {
    for (int i = 0; i < 4; i++)
        at[i] = (uint8_t)(length >> 8 * i);
    if (length)
        memcpy(at + 4, text, length);
    return at + 4 + length;
}

/* Writes an argument where fluent_argument_length bytes are free, and gives where the next one goes. Name and value are
   shorter than 4 gigabytes each, and may be null where they have no bytes.

       uint8_t arguments[64], *end = arguments;
       end = fluent_put_argument(end, FLUENT_TEXT, "name", 4, "Ada", 3);
       end = fluent_put_argument(end, FLUENT_NUMBER, "mails", 5, "3", 1);
       .. fluent_format(.., arguments, (size_t)(end - arguments), ..) .. */
static inline uint8_t *fluent_put_argument(uint8_t *at, enum fluent_kind kind, const void *name, size_t name_length,
                                           const void *value, size_t value_length) {
    *at = (uint8_t)kind;
    return fluent_put_sized(fluent_put_sized(at + 1, name, name_length), value, value_length);
}

/* ---- functions of the program

   A message calls a function by its name, as in { DATE($when, month: "long") }. This one has a date whose token is its seconds:

       static bool date(void *user, const struct fluent_call *call, struct fluent_answer *answer) {
           char text[64];
           const struct fluent_value *when = call->positional, *month = fluent_named(call, "month");
           bool is_long = month && month->length == 4 && !memcmp(month->text, "long", 4);
           if (call->positional_count != 1 || when->kind != FLUENT_OWN)
               return true;
           time_t at = (time_t)strtoll((const char *)when->text, NULL, 10);
           fluent_answer(answer, FLUENT_TEXT, text, strftime(text, sizeof text, is_long ? "%B %e" : "%x", localtime(&at)));
           return true;
       }

       fluent_add_function(&bundle, (const uint8_t *)"DATE", 4, date, NULL);
       .. fluent_put_argument(end, FLUENT_OWN, "when", 4, "1795910400\n2026-11-29", 21) ..

   Formatting a message asks a function once for each different call, with its positional and its named arguments, and
   then goes on with what it answered. A text that asks k different questions is formatted k + 1 times, so a function must
   give equal answers to equal questions while one text is made. A function may format messages itself, also of the same
   bundle. It may not close that bundle. */

/* A value that is asked about, whose texts last as long as the call of the function, and end with no zero byte. The name is
   that of a named argument. */
struct fluent_value {
    enum fluent_kind kind;
    const uint8_t *name;
    size_t name_length;
    const uint8_t *text;
    size_t length;
};

/* The arguments of a function: positional ones in order, and named ones in the order of their names' bytes. */
struct fluent_call {
    const struct fluent_value *positional;
    size_t positional_count;
    const struct fluent_value *named;
    size_t named_count;
};

/* Where the answer goes, and how: its text is copied, and of several answers the last stands. */
struct fluent_answer;
void fluent_answer(struct fluent_answer *answer, enum fluent_kind kind, const void *text, size_t length);

/* A function: it answers, and gives true. Without an answer it has no value (FLUENT_NONE). False says that it failed:
   then no text is made, and the call that formats gives FLUENT_FUNCTION_FAILED. */
typedef bool fluent_function(void *user, const struct fluent_call *call, struct fluent_answer *answer);

/* A formatter: it is asked about each value that is placed in a text, but not about one that chooses a variant, nor about
   the whole text. Where it doesn't answer a text, the value is shown as usual. */
typedef bool fluent_formatter(void *user, const struct fluent_value *value, struct fluent_answer *answer);

/* A transform: it is asked about each text element of a pattern, as for a pseudolocale. Where it doesn't answer a text,
   the element stays as it is. */
typedef bool fluent_transform(void *user, const uint8_t *text, size_t length, struct fluent_answer *answer);

/* Registers a function under a free id: FLUENT_OK, or FLUENT_ID_TAKEN, and the bundle stays. A message, a term or a
   function may have the id, such as NUMBER. Messages can call it where the id is of capital letters, digits, "-" and "_", and
   begins with a letter. Each bundle of a chain has functions of its own. user is handed to the function. A message that is
   added later has to have another id, unless it overrides. */
uint8_t fluent_add_function(struct fluent_bundle *bundle, const uint8_t *name, size_t name_length,
                            fluent_function *function, void *user);

/* The same in place of what has the id, also NUMBER. */
uint8_t fluent_override_function(struct fluent_bundle *bundle, const uint8_t *name, size_t name_length,
                                 fluent_function *function, void *user);

/* Registers a formatter or a transform in place of the one before, or none by a null pointer. */
uint8_t fluent_set_formatter(struct fluent_bundle *bundle, fluent_formatter *formatter, void *user);
uint8_t fluent_set_transform(struct fluent_bundle *bundle, fluent_transform *transform, void *user);

/* The named argument of this name, or null. */
static inline const struct fluent_value *fluent_named(const struct fluent_call *call, const char *name) {
    for (size_t i = 0; i < call->named_count; i++)
        if (call->named[i].name_length == strlen(name) && !memcmp(call->named[i].name, name, strlen(name)))
            return &call->named[i];
    return NULL;
}

/* An option of a number, such as "currency", and its length; or null. An empty key gives the number without options. */
static inline const uint8_t *fluent_option(const struct fluent_value *number, const char *key, size_t *length) {
    const uint8_t *at = number->text, *end = at + number->length, *next;
    size_t size = strlen(key);
    for (bool is_first = true; at < end; is_first = false, at = next + 1) {
        bool is_last = !is_first && (size_t)(end - at) > 9 && !memcmp(at, "currency=", 9);
        for (next = at; next < end && (is_last || *next != ';');)
            next++;
        *length = (size_t)(next - at);
        if (is_first && size == 0)
            return at;
        if (!is_first && size && *length > size && at[size] == '=' && !memcmp(at, key, size)) {
            *length -= size + 1;
            return at + size + 1;
        }
        if (next == end)
            break;
    }
    *length = 0;
    return NULL;
}

/* ---- functions by questions and answers, for languages that no pointer calls

   What is declared is asked by fluent_format_asking: FLUENT_ASKS says that the buffer of the text begins with a question,
   or, where its length is above the room, that it has to be called again with more. The program puts the answer behind
   those of before and calls again with all of them, until it gets a text. A question is

       f   the name of a function after its length, each positional argument and each named one, as fluent_put_argument writes
           them; the positional ones have an empty name
       v   for a formatter: the value as an argument of an empty name
       x   for a transform: the text element after its length

   An answer is written as an argument whose name is the whole question. Of several to one question the first stands. */

/* Has an id stand for a function, in place of what has it where over is set: FLUENT_OK or FLUENT_ID_TAKEN. */
uint8_t fluent_declare_function(struct fluent_bundle *bundle, const uint8_t *name, size_t name_length, bool over);

/* Has each value that is placed, or each text element, be asked about, or no longer. */
uint8_t fluent_declare_formatter(struct fluent_bundle *bundle, bool on);
uint8_t fluent_declare_transform(struct fluent_bundle *bundle, bool on);

/* Formats as fluent_format_records does, by answers. */
uint8_t fluent_format_asking(struct fluent_bundle *bundle, const uint8_t *id, size_t id_length, const uint8_t *attribute,
                             size_t attribute_length, const uint8_t *arguments, size_t arguments_length,
                             const uint8_t *answers, size_t answers_length, uint8_t *out, size_t out_room, uint8_t *err,
                             size_t err_room, struct fluent_lengths *lengths);

/* The kinds of errors in a text. */
enum fluent_error_kind {
    FLUENT_UNKNOWN_FUNCTION = 'f',       /* id */
    FLUENT_UNKNOWN_MESSAGE = 'm',        /* id */
    FLUENT_UNKNOWN_ATTRIBUTE = 'a',      /* of the message id: attribute */
    FLUENT_UNKNOWN_TERM = 't',           /* id, without its dash */
    FLUENT_UNKNOWN_TERM_ATTRIBUTE = 'b', /* of the term id: attribute */
    FLUENT_UNKNOWN_VARIABLE = 'v',       /* id, without its dollar sign */
    FLUENT_NO_VALUE = 'n',               /* the message id */
    FLUENT_NO_DEFAULT = 'd',
    FLUENT_CYCLIC = 'c',
    FLUENT_TOO_MANY_PLACEABLES = 'p'
};

/* An error. Both texts end with a zero byte, are empty where there is none, and lie in the buffer that was read. */
struct fluent_error {
    enum fluent_error_kind kind;
    const char *id;
    const char *attribute;
};

/* Reads the record at *at, unless the records end there, and moves *at behind it:

       const uint8_t *at = err;
       struct fluent_error error;
       while (fluent_next_error(&at, err + lengths.errors, &error)) .. */
static inline bool fluent_next_error(const uint8_t **at, const uint8_t *end, struct fluent_error *error) {
    if (*at == end)
        return false;
    error->kind = (enum fluent_error_kind)**at;
    error->id = (const char *)*at + 1;
    error->attribute = error->id + strlen(error->id) + 1;
    *at = (const uint8_t *)error->attribute + strlen(error->attribute) + 1;
    return true;
}

/* ---- what is wrong in sources, for tools and tests

   A tool tells what is wrong in a source by

       uint8_t *records = malloc(fluent_argument_length(7, length)), text[4096];
       uint8_t *end = fluent_put_argument(records, FLUENT_TEXT, "app.ftl", 7, source, length);
       struct fluent_checked told;
       fluent_check((const uint8_t *)"pl", 2, records, (size_t)(end - records), NULL, 0, NULL, 0, NULL, 0, false, text,
                    sizeof text, &told);

   whose text then has a line for each finding, such as "app.ftl:1:7: error: no message 'b' (in 'a')\n". */

/* What a check tells beside its text. */
struct fluent_checked {
    size_t text;     /* how many bytes the text has, so also how much room it needs */
    size_t errors;   /* how many findings are errors */
    size_t warnings; /* how many are warnings */
    bool is_clean;   /* then no text of the sources ever shows an error, where its variables and functions are given */
};

/* Tells what `./fluent check` tells of files: what is wrong in sources of a language, which count as one.

   language     whose plural categories selects are held against; none are looked at where the tag has no bytes
   sources      one after the other, as fluent_put_argument writes them: each with its name and its text
   beside       so too, sources that are loaded before them, such as a brand's terms
   references   so too, what the sources were translated from; nothing is compared where there is none
   functions    the names of the program's functions, each as an argument without a value
   as_json      whether the text is one line with a list of objects, which have file, line, column, severity, kind, entry and
                text, in place of a line for each finding
   out          the text: findings by source, and then by byte. Columns count characters
   told         all is 0 where the status is above FLUENT_TOO_SMALL

   Of several causes the first is told: FLUENT_LANGUAGE_NOT_UTF8, and then the first fault of sources, beside, references
   and functions: FLUENT_ARGUMENTS_CUT or FLUENT_ARGUMENTS_NOT_UTF8. The kinds of arguments don't matter here. Who wants
   the numbers alone needs no buffer. */
uint8_t fluent_check(const uint8_t *language, size_t language_length, const uint8_t *sources, size_t sources_length,
                     const uint8_t *beside, size_t beside_length, const uint8_t *references, size_t references_length,
                     const uint8_t *functions, size_t functions_length, bool as_json, uint8_t *out, size_t out_room,
                     struct fluent_checked *told);

/* ---- programs that find another libfluent.so than the one that they were compiled for

   The sizes of the structs that programs and library share, as this header has them, and as the library that is called does.
   They part where a struct has grown. A program that is linked to libfluent.so asks once, before all else:

       if (!fluent_fits()) .. the library of fluent_version() is not the one of FLUENT_VERSION .. */
#define FLUENT_SIZES                                                                                                   \
    ((uint64_t)sizeof(struct fluent_bundle) | (uint64_t)sizeof(struct fluent_lengths) << 8 |                           \
     (uint64_t)sizeof(struct fluent_value) << 16 | (uint64_t)sizeof(struct fluent_call) << 24 |                        \
     (uint64_t)sizeof(struct fluent_checked) << 32)

uint64_t fluent_sizes(void);

static inline bool fluent_fits(void) {
    return fluent_sizes() == FLUENT_SIZES;
}

#ifdef __cplusplus
}
#endif
#endif
