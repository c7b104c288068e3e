/* The memory of the module, which grows up to two gigabytes: rattle_alloc, rattle_realloc and rattle_dealloc, which the proved
   library calls.

   The memory is blocks side by side, each with a head before it. Heads, blocks and their sizes are multiples of 16 bytes. What is
   given back joins the free blocks beside it, and is in a list of free blocks of about its size: there are four lists for each power
   of two. The head of a last block, which has no bytes, ends the memory. */
#include <stdbool.h>
#include <stddef.h>
#include <stdint.h>

/* Whether there is memory, and where. */
struct tried {
    bool ok;
    uint8_t *at;
};

struct tried rattle_alloc(size_t size, size_t align);
struct tried rattle_realloc(uint8_t *at, size_t kept, size_t size, size_t align);
void rattle_dealloc(uint8_t *at);

struct block {
    size_t before; /* the size of the block before it */
    size_t size;   /* its own, with its head, and one more where it is free */
    struct block *next; /* where it is free: the others of its list */
    struct block *last;
};

enum { PAGE = 65536, HEAD = 16, LEAST = 32, FREE = 1, LISTS = 128 };

static const size_t MOST = (size_t)1 << 31;

/* Where the memory behind the stack and the constants begins: rattle-link says. */
extern uint8_t __heap_base;

static struct block *lists[LISTS];
static uint64_t filled[LISTS / 64]; /* a bit for each list that is not empty */
static struct block *end;

/* What is pointed at where there is none: an address is never null. */
static uint8_t nothing;

/* For tests: how many blocks are taken, and how many more are given, where that is not below 0. */
uint32_t heap_taken;
int32_t heap_left = -1;

static size_t size_of(const struct block *block) {
    return block->size & ~(size_t)FREE;
}

static struct block *moved(struct block *block, size_t size) {
    return (struct block *)((uint8_t *)block + size);
}

/* The list of a size: its power of two, and its next two bits. */
static unsigned list_of(size_t size) {
    unsigned power = 63 - (unsigned)__builtin_clzll(size);
    return 4 * (power - 5) + (unsigned)(size >> (power - 2) & 3);
}

static void unlist(struct block *block) {
    unsigned list = list_of(size_of(block));
    *(block->last ? &block->last->next : &lists[list]) = block->next;
    if (block->next)
        block->next->last = block->last;
    if (!lists[list])
        filled[list / 64] &= ~((uint64_t)1 << list % 64);
}

static void enlist(struct block *block, size_t size) {
    unsigned list = list_of(size);
    block->size = size | FREE;
    block->next = lists[list];
    block->last = NULL;
    if (block->next)
        block->next->last = block;
    lists[list] = block;
    filled[list / 64] |= (uint64_t)1 << list % 64;
    moved(block, size)->before = size;
}

/* Frees a block of this size, which joins the free ones beside it. */
static void release(struct block *block, size_t size) {
    struct block *after = moved(block, size), *before = moved(block, -block->before);
    if (after->size & FREE) {
        unlist(after);
        size += size_of(after);
    }
    if (block->before && before->size & FREE) {
        unlist(before);
        size += size_of(before);
        block = before;
    }
    enlist(block, size);
}

/* Takes so much of a block that is in no list, and frees the rest. */
static struct block *use(struct block *block, size_t whole, size_t size) {
    if (whole - size < LEAST)
        size = whole;
    block->size = size;
    moved(block, size)->before = size;
    if (size < whole)
        enlist(moved(block, size), whole - size);
    return block;
}

/* A free block that has this size: the first of its own list, or of any list of larger ones. */
static struct block *found(size_t size) {
    unsigned list = list_of(size);
    struct block *block = lists[list];
    if (block && size_of(block) >= size)
        return block;
    for (unsigned i = ++list / 64; i < LISTS / 64; i++) {
        uint64_t left = i == list / 64 ? filled[i] >> list % 64 << list % 64 : filled[i];
        if (left)
            return lists[64 * i + (unsigned)__builtin_ctzll(left)];
    }
    return NULL;
}

/* Has the memory grow by so many pages, if it is not too large then. */
static bool get_pages(size_t old, size_t pages) {
    return (old + pages) * PAGE <= MOST && __builtin_wasm_memory_grow(0, pages) != (size_t)-1;
}

/* Has the memory grow by a free block of at least this size. It grows by a quarter, where it can: some engines copy all of it. */
static bool grow(size_t size) {
    size_t old = __builtin_wasm_memory_size(0), least = (size + HEAD + PAGE - 1) / PAGE, pages = least > old / 4 ? least : old / 4;
    struct block *block = end;
    if (!get_pages(old, pages)) {
        pages = least;
        if (!get_pages(old, pages))
            return false;
    }
    if (!block) {
        block = (struct block *)(((uintptr_t)&__heap_base + 15) & ~(uintptr_t)15);
        block->before = 0;
    }
    end = (struct block *)((old + pages) * PAGE - HEAD);
    end->size = 0;
    release(block, (size_t)((uint8_t *)end - (uint8_t *)block));
    return true;
}

static bool is_refused(size_t size) {
    if (size >= MOST || heap_left == 0)
        return true;
    heap_left -= heap_left > 0;
    return false;
}

/* The size of a block for so many bytes. */
static size_t whole(size_t size) {
    size_t whole = (size + HEAD + 15) & ~(size_t)15;
    return whole < LEAST ? LEAST : whole;
}

static struct tried take(size_t size) {
    struct block *block = found(size);
    if (!block && grow(size))
        block = found(size);
    if (!block)
        return (struct tried){false, &nothing};
    unlist(block);
    heap_taken++;
    return (struct tried){true, (uint8_t *)use(block, size_of(block), size) + HEAD};
}

struct tried rattle_alloc(size_t size, size_t align) {
    (void)align;
    return is_refused(size) ? (struct tried){false, &nothing} : take(whole(size));
}

void rattle_dealloc(uint8_t *at) {
    struct block *block = (struct block *)(at - HEAD);
    heap_taken--;
    release(block, size_of(block));
}

/* Grows where it is if the block behind it is free and large enough. */
struct tried rattle_realloc(uint8_t *at, size_t kept, size_t size, size_t align) {
    struct block *block = (struct block *)(at - HEAD);
    size_t have = size_of(block), need = whole(size);
    struct block *after = moved(block, have);
    (void)align;
    if (is_refused(size))
        return (struct tried){false, &nothing};
    if (need > have && after->size & FREE && have + size_of(after) >= need) {
        unlist(after);
        use(block, have + size_of(after), need);
    }
    if (need <= size_of(block))
        return (struct tried){true, at};
    struct tried other = take(need);
    if (other.ok) {
        __builtin_memcpy(other.at, at, kept < have - HEAD ? kept : have - HEAD);
        rattle_dealloc(at);
    }
    return other;
}
