/* What the programs here use of <stdlib.h>. */
#ifndef STDC_STDLIB_H
#define STDC_STDLIB_H
_Noreturn void exit(int status);
#endif
