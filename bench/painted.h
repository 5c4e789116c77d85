/* How much stack a call takes: it runs on a stack that was painted before, and where the paint is gone it has written. */
#ifndef PAINTED_H
#define PAINTED_H
#include <pthread.h>
#include <stddef.h>
#include <stdint.h>
#include <stdlib.h>
#include <string.h>

enum { STACK = 1 << 20, PAINT = 0xA5 };

static void *nothing(void *p) { return p; }

/* The bytes of stack that a thread running f touched. */
static size_t touched(void *(*f)(void *)) {
    static uint8_t *stack;
    if (!stack && posix_memalign((void **)&stack, 4096, STACK)) exit(1);
    memset(stack, PAINT, STACK);
    pthread_attr_t a;
    pthread_t t;
    pthread_attr_init(&a);
    pthread_attr_setstack(&a, stack, STACK);
    if (pthread_create(&t, &a, f, NULL)) exit(1);
    pthread_join(t, NULL);
    size_t i = 0;
    while (i < STACK && stack[i] == PAINT) i++;
    return STACK - i;
}

/* What f takes, less what an empty call takes. The end of a thread reaches below where f begins, so the sum of the frames is more than this: by 64 bytes
   for a digest, with glibc 2.36. */
static size_t stack_of(void *(*f)(void *)) {
    size_t empty = touched(nothing);
    return touched(f) - empty;
}

#endif
