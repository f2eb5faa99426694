/* What tests/c and tools/bench use of <stdlib.h>. */
#ifndef STDLIB_H
#define STDLIB_H
#include <stddef.h>
_Noreturn void abort(void);
double atof(const char *text);
_Noreturn void exit(int status);
#endif
