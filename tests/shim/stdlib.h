/* stdlib.h: what the tests use of it, for a compiler that comes without headers.
 * Written for the tests; it shares no code with the product. */
#ifndef SHIM_STDLIB_H
#define SHIM_STDLIB_H

#include <stddef.h>

void *malloc(size_t size);
void free(void *block);
__attribute__((noreturn)) void exit(int status);
unsigned long long strtoull(const char *text, char **end, int base);

#endif
