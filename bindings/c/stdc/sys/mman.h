/* What the programs here use of <sys/mman.h>. */
#ifndef STDC_SYS_MMAN_H
#define STDC_SYS_MMAN_H
#include <stddef.h>
#define PROT_NONE 0
int mprotect(void *from, size_t bytes, int protection);
#endif
