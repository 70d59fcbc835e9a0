/* EOF and _IONBF have the values of the kit's C library, glibc. */
#pragma once
#include <stddef.h>
typedef struct _IO_FILE FILE;
extern FILE *stdin, *stdout, *stderr;
#define EOF (-1)
#define _IONBF 2
int getc(FILE *);
int ferror(FILE *);
int fputs(const char *, FILE *);
int fflush(FILE *);
int printf(const char *, ...) __attribute__((format(printf, 1, 2)));
int fprintf(FILE *, const char *, ...) __attribute__((format(printf, 2, 3)));
int setvbuf(FILE *, char *, int, size_t);
