/* What the programs here use of <stdio.h>. */
#ifndef STDC_STDIO_H
#define STDC_STDIO_H
#include <stddef.h>
typedef struct _IO_FILE FILE;
extern FILE *stderr, *stdin, *stdout;
FILE *fopen(const char *path, const char *mode);
size_t fread(void *to, size_t size, size_t count, FILE *file);
size_t fwrite(const void *from, size_t size, size_t count, FILE *file);
int ferror(FILE *file);
int fflush(FILE *file);
int fclose(FILE *file);
int scanf(const char *format, ...);
int printf(const char *format, ...);
int fprintf(FILE *file, const char *format, ...);
void perror(const char *message);
#endif
