#ifndef BARE_STDIO_H
#define BARE_STDIO_H
#include <stddef.h>
#define EOF (-1)
typedef struct FILE FILE;
extern FILE *stdin, *stdout, *stderr;
int getchar(void);
int printf(const char *, ...);
int fprintf(FILE *, const char *, ...);
size_t fread(void *, size_t, size_t, FILE *);
size_t fwrite(const void *, size_t, size_t, FILE *);
int fflush(FILE *);
int ferror(FILE *);
#endif
