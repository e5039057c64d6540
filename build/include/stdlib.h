// Memory, the end of a program, and numbers from text, as much of them as the C code here uses.
#ifndef STDLIB_H
#define STDLIB_H

#include <stddef.h>

#define EXIT_SUCCESS 0
#define EXIT_FAILURE 1

void *malloc(size_t);
void *calloc(size_t, size_t);
void *realloc(void *, size_t);
void free(void *);
_Noreturn void exit(int);
_Noreturn void abort(void);
int atoi(const char *);
long long strtoll(const char *, char **, int);
unsigned long long strtoull(const char *, char **, int);

#endif
