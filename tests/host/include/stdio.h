/* Stands in for C's own header where the kit's compiler has none. */
#ifndef STDIO_H
#define STDIO_H
#include <stddef.h>
typedef struct _IO_FILE FILE;
extern FILE *stdin;
extern FILE *stdout;
extern FILE *stderr;
FILE *fopen(const char *, const char *);
int fclose(FILE *);
int fflush(FILE *);
size_t fread(void *, size_t, size_t, FILE *);
size_t fwrite(const void *, size_t, size_t, FILE *);
int printf(const char *, ...);
int fprintf(FILE *, const char *, ...);
#endif
