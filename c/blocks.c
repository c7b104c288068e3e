/* The memory of libfluent in a test, which is counted and can be refused. For programs that are linked with
   -Wl,--wrap=malloc,--wrap=realloc,--wrap=free: what they and the library ask for then comes here. */
#include <stddef.h>
#include <stdbool.h>

/* How many more blocks there are: below 0, all that are asked for. */
long blocks = -1;

/* Whether the first that is refused is the only one. */
bool only_one;

/* How many blocks are taken and not given back. */
_Atomic long taken;

void *__real_malloc(size_t size);
void *__real_realloc(void *at, size_t size);
void __real_free(void *at);

static bool is_refused(void) {
    if (blocks > 0)
        blocks--;
    else if (blocks == 0) {
        blocks = only_one ? -1 : 0;
        return true;
    }
    return false;
}

void *__wrap_malloc(size_t size) {
    if (is_refused())
        return NULL;
    taken++;
    return __real_malloc(size);
}

void *__wrap_realloc(void *at, size_t size) {
    return is_refused() ? NULL : __real_realloc(at, size);
}

void __wrap_free(void *at) {
    taken -= at != NULL;
    __real_free(at);
}
