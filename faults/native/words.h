/* Makes a routine's C a program of 64 bits: a word is as wide as a pointer, so that an address fits an int; sizes count words. */
#include <stdlib.h>

static inline void *obtain(long words) { return malloc((size_t)words * sizeof(long)); }

#define int long
#define malloc(words) obtain(words)
#define sizeof(what) ((long)(sizeof(what) / sizeof(long)))
