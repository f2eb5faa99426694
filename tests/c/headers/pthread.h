/* What tests/c uses of <pthread.h>, with the sizes that glibc has on x86-64. */
#ifndef PTHREAD_H
#define PTHREAD_H
#include <stddef.h>
typedef unsigned long pthread_t;
typedef union {
    char size[56];
    long align;
} pthread_attr_t;
int pthread_attr_init(pthread_attr_t *attributes);
int pthread_attr_destroy(pthread_attr_t *attributes);
int pthread_attr_setstack(pthread_attr_t *attributes, void *stack, size_t size);
int pthread_create(pthread_t *restrict thread, const pthread_attr_t *restrict attributes, void *(*run)(void *), void *restrict given);
int pthread_join(pthread_t thread, void **result);
#endif
