/* The memory of libfluent: malloc, realloc and free of the program that it is linked into. The library calls these three. */
#include <stdbool.h>
#include <stddef.h>
#include <stdint.h>
#include <stdlib.h>

/* Whether there is memory, and where. */
struct tried {
    bool ok;
    uint8_t *at;
};

struct tried rattle_alloc(size_t size, size_t align);
struct tried rattle_realloc(uint8_t *at, size_t kept, size_t size, size_t align);
void rattle_dealloc(uint8_t *at);

/* What is pointed at where there is none: an address is never null. */
static uint8_t nothing;

static struct tried answer(void *at) {
    struct tried answer = {at != NULL, at ? at : &nothing};
    return answer;
}

/* No type of the library is aligned to more than 16 bytes. A malloc may align a smaller block to less, and may answer 0 bytes
   by null: so that each block is aligned to 16, none is smaller. */
_Static_assert(_Alignof(max_align_t) >= 16, "malloc aligns to 16");

static size_t taken(size_t size) {
    return size < 16 ? 16 : size;
}

struct tried rattle_alloc(size_t size, size_t align) {
    (void)align;
    return answer(malloc(taken(size)));
}

struct tried rattle_realloc(uint8_t *at, size_t kept, size_t size, size_t align) {
    (void)kept;
    (void)align;
    return answer(realloc(at, taken(size)));
}

void rattle_dealloc(uint8_t *at) {
    free(at);
}
