/* Memory that ends where no memory is: a byte that is read or written behind it ends the program. */
#ifndef FENCE_H
#define FENCE_H
#include <stdbool.h>
#include <stdint.h>
#include <stdlib.h>
#include <string.h>
#include <sys/mman.h>
#include <unistd.h>

struct fence {
    uint8_t *end;
    size_t room;
};

static inline struct fence new_fence(size_t least) {
    size_t page = (size_t)sysconf(_SC_PAGESIZE), room = (least / page + 1) * page;
    uint8_t *at = mmap(NULL, room + page, PROT_READ | PROT_WRITE, MAP_PRIVATE | MAP_ANONYMOUS, -1, 0);
    if (at == MAP_FAILED || mprotect(at + room, page, PROT_NONE))
        abort();
    return (struct fence){at + room, room};
}

/* A copy of a text that ends at the fence, or a null pointer where it has no bytes. */
static inline uint8_t *fenced(struct fence fence, const void *text, size_t length) {
    if (length > fence.room)
        abort();
    return length ? memcpy(fence.end - length, text, length) : NULL;
}

/* As many bytes of 0xA5 before the fence. */
static inline uint8_t *fenced_room(struct fence fence, size_t room) {
    if (room > fence.room)
        abort();
    return room ? memset(fence.end - room, 0xA5, room) : NULL;
}

static inline bool is_untouched(const uint8_t *at, size_t room) {
    for (size_t i = 0; i < room; i++)
        if (at[i] != 0xA5)
            return false;
    return true;
}

#endif
