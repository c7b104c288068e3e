/* What c/fluent.h takes of a C library. */
#define memcpy __builtin_memcpy
#define strlen __builtin_strlen
#define memcmp __builtin_memcmp
