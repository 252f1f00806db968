/* Stands in for C's own header where the kit's compiler has none. */
#ifndef STDDEF_H
#define STDDEF_H
typedef __SIZE_TYPE__ size_t;
#define NULL ((void *)0)
#define offsetof __builtin_offsetof
#endif
