/* Refuses memory to the program that it is loaded into: the N-th request where REFUSE_AT is N, and each from the N-th
   on where REFUSE_FROM is N. At the first refusal it makes the file that REFUSED names.
   Where CHECKED is defined, it is linked into a program with the checks of addresses that 'rt try' compiles in. Their own malloc
   calls the program's __interceptor_malloc where there is one, as here. */
#define _GNU_SOURCE
#include <dlfcn.h>
#include <errno.h>
#include <fcntl.h>
#include <stdlib.h>
#include <unistd.h>

static unsigned long at, from, seen;
static const char *told;
static int has_begun;

static unsigned long number(const char *name)
{
    const char *word = getenv(name);
    return word ? strtoul(word, 0, 10) : 0;
}

__attribute__((constructor)) static void begin(void)
{
    at = number("REFUSE_AT");
    from = number("REFUSE_FROM");
    told = getenv("REFUSED");
    has_begun = 1;
}

static int is_refused(void)
{
    if (!has_begun)
        return 0;
    seen++;
    if (seen != at && (!from || seen < from))
        return 0;
    int file = told ? open(told, O_CREAT | O_WRONLY, 0600) : -1;
    if (file >= 0)
        close(file);
    errno = ENOMEM;
    return 1;
}

#ifdef CHECKED

/* Each fault ends the program at once, and a refusal is no fault. */
const char *__asan_default_options(void)
{
    return "abort_on_error=1:allocator_may_return_null=1:detect_leaks=0:detect_stack_use_after_return=1";
}

void *___interceptor_malloc(size_t);
void *___interceptor_realloc(void *, size_t);

void *__interceptor_malloc(size_t size)
{
    return is_refused() ? 0 : ___interceptor_malloc(size);
}

void *__interceptor_realloc(void *old, size_t size)
{
    return is_refused() ? 0 : ___interceptor_realloc(old, size);
}

#else

static void *(*next_malloc)(size_t);
static void *(*next_realloc)(void *, size_t);

void *malloc(size_t size)
{
    if (!next_malloc)
        *(void **)&next_malloc = dlsym(RTLD_NEXT, "malloc");
    return is_refused() ? 0 : next_malloc(size);
}

void *realloc(void *old, size_t size)
{
    if (!next_realloc)
        *(void **)&next_realloc = dlsym(RTLD_NEXT, "realloc");
    return is_refused() ? 0 : next_realloc(old, size);
}

#endif
