/* library.c by itself, with null pointers to all texts and buffers. It is linked so that each export is answer_nothing, and
   is built with the sanitizer that stops where a null pointer is handed to one. tools/callers writes a call of each function
   of fluent.h to null_calls.h. */
#include "library.c"

uint8_t answer_nothing(void);

uint8_t answer_nothing(void) {
    return FLUENT_OK;
}

/* An argument whose name and value are null. */
static void put_nothing(void) {
    uint8_t at[9];
    fluent_put_argument(at, FLUENT_TEXT, NULL, 0, NULL, 0);
}

int main(void) {
    struct fluent_bundle bundle = FLUENT_CLOSED;
    struct fluent_lengths lengths;
    struct fluent_checked told;
    size_t length;
#include "null_calls.h"
    put_nothing();
    return 0;
}
