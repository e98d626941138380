/* How deep a call reaches into its stack: a thread runs it on memory that was painted before. */
#define _GNU_SOURCE
#include <pthread.h>
#include <stdint.h>
#include <stdlib.h>
#include <string.h>

#define SIZE (4u << 20)
#define PAINT 0xA5

typedef struct job {
    void (*call)(void *);
    void *data;
} job;

static void *run(void *given)
{
    job *j = given;
    j->call(j->data);
    return NULL;
}

static void nothing(void *data)
{
    (void)data;
}

/* Bytes from the top of the stack to the lowest that was changed; 0 where the thread could not run. */
static size_t depth(job j)
{
    pthread_attr_t attributes;
    pthread_t thread;
    size_t low = 0;
    unsigned char *stack = aligned_alloc(4096, SIZE);
    if (stack == NULL)
        return 0;
    memset(stack, PAINT, SIZE);
    pthread_attr_init(&attributes);
    if (pthread_attr_setstack(&attributes, stack, SIZE) == 0 && pthread_create(&thread, &attributes, run, &j) == 0) {
        pthread_join(thread, NULL);
        while (low < SIZE && stack[low] == PAINT)
            low++;
        low = SIZE - low;
    }
    pthread_attr_destroy(&attributes);
    free(stack);
    return low;
}

/* What the call takes beyond what a thread takes that does nothing. */
size_t stack_of(void (*call)(void *), void *data)
{
    size_t bare = depth((job){nothing, NULL}), whole = depth((job){call, data});
    return whole > bare ? whole - bare : 0;
}
