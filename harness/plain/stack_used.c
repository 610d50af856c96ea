/* How much stack a function takes: it is called in a thread whose stack is filled with a pattern first. */
#define _DEFAULT_SOURCE
#include <pthread.h>
#include <stddef.h>
#include <stdint.h>
#include <string.h>
#include <sys/mman.h>

#define PATTERN 0xa5
#define FORBIDDEN ((size_t)1 << 20) /* below the stack: a call that needs more ends the process */

struct call {
    void (*work)(void *);
    void *argument;
    uint8_t *lowest; /* of the stack */
    size_t used;
};

/* Below this frame nothing is in use when the call begins: what is not the pattern afterwards was written by the call, or by the thread's
   start, whose few hundred bytes count with it. A frame that is taken and not written is not seen. */
static void *in_thread(void *given) {
    struct call *call = given;
    uint8_t *here = __builtin_frame_address(0), *at = call->lowest;
    call->work(call->argument);
    while (at < here && *at == PATTERN) at++;
    call->used = (size_t)(here - at);
    return NULL;
}

/* Calls `work` in a thread with a stack of `size` bytes, of which the C library takes a little for its own; the bytes that it used, or
   SIZE_MAX where there is no thread. */
size_t stack_used(size_t size, void (*work)(void *), void *argument) {
    struct call call = {work, argument, NULL, SIZE_MAX};
    pthread_attr_t attributes;
    pthread_t thread;
    uint8_t *area = mmap(NULL, FORBIDDEN + size, PROT_NONE, MAP_PRIVATE | MAP_ANONYMOUS, -1, 0);
    if (area == MAP_FAILED) return SIZE_MAX;
    call.lowest = area + FORBIDDEN;
    if (mprotect(call.lowest, size, PROT_READ | PROT_WRITE) == 0 && pthread_attr_init(&attributes) == 0) {
        memset(call.lowest, PATTERN, size);
        if (pthread_attr_setstack(&attributes, call.lowest, size) == 0 && pthread_create(&thread, &attributes, in_thread, &call) == 0)
            pthread_join(thread, NULL);
        pthread_attr_destroy(&attributes);
    }
    munmap(area, FORBIDDEN + size);
    return call.used;
}
