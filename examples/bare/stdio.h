/* The part of stdio.h that the examples use (bare.c): files of the machine that runs the emulator, by semihosting. */
#ifndef BARE_STDIO_H
#define BARE_STDIO_H
#include <stddef.h>
typedef struct file FILE;
extern FILE *const stderr;
FILE *fopen(const char *name, const char *mode);
size_t fread(void *to, size_t size, size_t n, FILE *file);
int fclose(FILE *file);
int printf(const char *format, ...) __attribute__((format(printf, 1, 2)));            /* knows %u, %zu, %s and %c */
int fprintf(FILE *file, const char *format, ...) __attribute__((format(printf, 2, 3))); /* likewise */
#endif
