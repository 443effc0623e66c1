/* stdio.h: what the tests use of it, for a compiler that comes without headers.
 * Written for the tests; it shares no code with the product. */
#ifndef SHIM_STDIO_H
#define SHIM_STDIO_H

#include <stddef.h>

typedef struct shim_file FILE;

FILE *fopen(const char *path, const char *mode);
size_t fread(void *to, size_t size, size_t count, FILE *from);
int fclose(FILE *file);
int printf(const char *format, ...) __attribute__((format(printf, 1, 2)));

#endif
