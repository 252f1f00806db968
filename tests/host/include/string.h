/* Stands in for C's own header where the kit's compiler has none. */
#ifndef STRING_H
#define STRING_H
#include <stddef.h>
void *memcpy(void *, const void *, size_t);
void *memset(void *, int, size_t);
int memcmp(const void *, const void *, size_t);
#endif
