/* How much stack a call uses: it runs in a thread whose stack is ours, painted before and looked
   at after. */

#define _POSIX_C_SOURCE 200809L

#include <pthread.h>
#include <stddef.h>
#include <stdint.h>
#include <stdlib.h>
#include <string.h>

enum { STACK = 1 << 20, ALIGNMENT = 1 << 12, PAINT = 0xa5 };

struct probe {
    void (*call)(void *);
    void *argument;
    /* Where the stack stood before the call. */
    uintptr_t before;
};

static void *make_call(void *pointer)
{
    struct probe *probe = pointer;
    uint8_t here;
    probe->before = (uintptr_t)&here;
    probe->call(probe->argument);
    return NULL;
}

static int run_on(uint8_t *stack, struct probe *probe)
{
    pthread_attr_t attributes;
    pthread_t thread;
    int failed = pthread_attr_init(&attributes);
    if (failed)
        return failed;
    failed = pthread_attr_setstack(&attributes, stack, STACK);
    if (!failed)
        failed = pthread_create(&thread, &attributes, make_call, probe);
    if (!failed)
        failed = pthread_join(thread, NULL);
    pthread_attr_destroy(&attributes);
    return failed;
}

/* The bytes from the caller's frame down to the lowest one that the call changed; 0 if there was
   no thread to try it in. What the thread itself needs at its end lies in the same place, so
   small numbers are too large. */
size_t stack_used(void (*call)(void *), void *argument)
{
    struct probe probe = { call, argument, 0 };
    void *stack = NULL;
    size_t used = 0, low = 0;
    if (posix_memalign(&stack, ALIGNMENT, STACK))
        return 0;
    memset(stack, PAINT, STACK);
    if (!run_on(stack, &probe)) {
        while (low < STACK && ((uint8_t *)stack)[low] == PAINT)
            low++;
        used = probe.before - ((uintptr_t)stack + low);
    }
    free(stack);
    return used;
}
