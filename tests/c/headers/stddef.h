/* For tools/x86-64, where the machine has no C headers for x86-64: what tests/c uses of <stddef.h>. */
#ifndef STDDEF_H
#define STDDEF_H
typedef __SIZE_TYPE__ size_t;
#define NULL ((void *)0)
#endif
