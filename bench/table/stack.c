/* Stack that a call of each side uses, measured on a painted thread. */
#include "../parts.h"

#include "rows.h"

#include <pthread.h>
#include <stdio.h>
#include <stdlib.h>
#include <sys/mman.h>

/* ---- One call on a thread of its own ---- */

enum { STACK = 1 << 20, PAINT = 0x5A, TARGET = 8192 };

static Loop *volatile on_stack;
static uint8_t *stack_bottom;
static size_t stack_depth;

static void empty_loop(long times)
{
    (void)times;
}

/*
 * Paints what lies below the own frame, makes the call and looks how deep the
 * paint is gone; so what the start and the end of a thread use does not count.
 */
static void *thread(void *unused)
{
    volatile uint8_t *end, *at;

    __asm__ volatile("mov %%rsp, %0" : "=r"(end));
    for (at = stack_bottom; at < end; at++)
        *at = PAINT;
    on_stack(1);
    for (at = stack_bottom; at < end && *at == PAINT; at++)
        ;
    stack_depth = (size_t)(end - at);
    return unused;
}

/* Bytes of stack that a call writes to. */
static size_t depth(Loop *loop)
{
    pthread_attr_t attributes;
    pthread_t id;

    stack_bottom = mmap(NULL, STACK, PROT_READ | PROT_WRITE,
                        MAP_PRIVATE | MAP_ANONYMOUS, -1, 0);
    if (stack_bottom == MAP_FAILED) {
        perror("mmap");
        exit(1);
    }
    on_stack = loop;
    pthread_attr_init(&attributes);
    pthread_attr_setstack(&attributes, stack_bottom, STACK);
    if (pthread_create(&id, &attributes, thread, NULL) != 0) {
        printf("no thread\n");
        exit(1);
    }
    pthread_join(id, NULL);
    pthread_attr_destroy(&attributes);
    munmap(stack_bottom, STACK);
    return stack_depth;
}

/* ---- The deepest of each call ---- */

typedef struct {
    char label[80];
    size_t bytes;
} Deepest;

static Deepest deepest[KINDS][2][SIDES]; /* of each call: accepted, refused */

static void deepen(Deepest *so_far, Loop *loop, const char *label)
{
    size_t empty_depth = depth(empty_loop), all = depth(loop);
    size_t bytes = all < empty_depth ? 0 : all - empty_depth;

    if (bytes > so_far->bytes || so_far->label[0] == 0) {
        so_far->bytes = bytes;
        snprintf(so_far->label, sizeof so_far->label, "%s", label);
    }
}

static void stack_row(const char *label, const Side sides[SIDES])
{
    int refused = answer.number != 0;

    for (int side = 0; side < SIDES; side++)
        deepen(&deepest[now.kind][refused][side], sides[side].call, label);
}

void stack_part(void)
{
    const Deepest *most = &deepest[0][0][PROVED];

    each_row(stack_row);
    printf("%-46s%9s%9s\n", "stack in bytes, deepest row of each call", side_name[PROVED],
           side_name[IN_C]);
    for (int kind = 0; kind < KINDS; kind++) {
        for (int refused = 0; refused < 2; refused++) {
            const Deepest *of = deepest[kind][refused];
            if (of[PROVED].label[0] == 0)
                continue;
            printf("%-46s%9zu%9zu\n", of[PROVED].label, of[PROVED].bytes, of[IN_C].bytes);
            if (of[PROVED].bytes > most->bytes)
                most = &of[PROVED];
        }
    }
    printf("deepest call: %zu bytes (%s), target %d%s\n", most->bytes, most->label, TARGET,
           most->bytes > TARGET ? " *" : "");
}
