/* stddef.h: what the tests use of it, for a compiler that comes without headers.
 * Written for the tests; it shares no code with the product. */
#ifndef SHIM_STDDEF_H
#define SHIM_STDDEF_H

typedef __SIZE_TYPE__ size_t;

#define NULL ((void *)0)

#endif
