/* What the programs here use of <stddef.h>: the Rattle kit has a compiler and a C library, but no headers. */
#ifndef STDC_STDDEF_H
#define STDC_STDDEF_H
typedef __SIZE_TYPE__ size_t;
#define NULL ((void *)0)
#endif
