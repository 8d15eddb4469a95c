/*
 * How deep a call reaches into the stack: the call runs on a stack of its own, of which everything below the caller's
 * frame is painted before and looked at after.
 */
#define _POSIX_C_SOURCE 200809L

#include <pthread.h>
#include <stddef.h>
#include <stdint.h>

#include "ism.h"

#define STACK_BYTES ((size_t)1 << 20)
#define PAINT 0xA5u
#define OWN_FRAME 64u /* left unpainted for the painter itself */

static _Alignas(4096) unsigned char stack[STACK_BYTES];
static unsigned char *top;

struct task {
    void (*run)(void *);
    void *data;
};

static void *run_task(void *argument) {
    struct task *task = argument;
    task->run(task->data);
    return NULL;
}

/* Runs `run` on the stack that is painted; 0 if the thread cannot be made. */
int bench_stack_run(void (*run)(void *), void *data) {
    struct task task = {run, data};
    pthread_attr_t attributes;
    pthread_t thread;
    if (pthread_attr_init(&attributes) || pthread_attr_setstack(&attributes, stack, STACK_BYTES)) return 0;
    if (pthread_create(&thread, &attributes, run_task, &task)) return 0;
    return pthread_join(thread, NULL) == 0;
}

/* Paints everything below the caller. */
__attribute__((noinline)) void bench_stack_paint(void) {
    top = (unsigned char *)__builtin_frame_address(0);
    for (volatile unsigned char *p = stack; p < top - OWN_FRAME; p++) *p = PAINT;
}

/* Bytes below the caller that were written since it was painted, at most so many: the deepest that differs. */
__attribute__((noinline)) size_t bench_stack_depth(void) {
    volatile unsigned char *p = stack;
    while (p < top && *p == PAINT) p++;
    return (size_t)(top - p);
}

/* A call with the arguments of the writer that does nothing: what the calling itself costs. */
__attribute__((noinline)) ism_answer plain_c_nothing(ism_profile profile, const uint16_t *items, size_t n,
                                                     uint16_t *out, size_t room) {
    (void)profile, (void)items, (void)n, (void)out, (void)room;
    ism_answer answer = {0, 0, 0, 0, 0, 0};
    return answer;
}
