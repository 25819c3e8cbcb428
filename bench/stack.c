/* Each call runs on a stack of its own that is painted first; the lowest byte that has lost its paint says how deep it went. What the
 * same way of calling takes with no operation at all is taken off. */
#define _XOPEN_SOURCE 700
#include "stack.h"

#include <stdio.h>
#include <stdlib.h>
#include <string.h>
#include <ucontext.h>

enum { STACK = 256 * 1024 };

static uint8_t painted[STACK] __attribute__((aligned(64)));
static ucontext_t caller, called;
static struct {
    const struct library *library;
    enum operation operation;
    const struct task *task;
    struct desk *desk;
    uint8_t paint;
    size_t used;
} now;

/* Looked at from here, with no call between, since the way back from this stack uses it too. */
static void on_painted_stack(void)
{
    operate(now.library, now.operation, now.task, now.desk);
    size_t clean = 0;
    while (clean < STACK && painted[clean] == now.paint)
        clean++;
    now.used = STACK - clean;
}

static size_t depth(uint8_t paint)
{
    now.paint = paint;
    memset(painted, paint, STACK);
    if (getcontext(&called) != 0) {
        perror("stack");
        exit(2);
    }
    called.uc_stack.ss_sp = painted;
    called.uc_stack.ss_size = STACK;
    called.uc_link = &caller;
    makecontext(&called, on_painted_stack, 0);
    swapcontext(&caller, &called);
    return now.used;
}

/* Two paints, since a call may leave one of them behind as its own value. */
static size_t deeper_of_two(void)
{
    const size_t one = depth(0xA5), another = depth(0x5A);
    return one > another ? one : another;
}

size_t deepest(const struct library *library, enum operation operation, const struct task *tasks, size_t count)
{
    static struct desk desk;
    now.library = library;
    now.desk = &desk;
    now.task = tasks;
    now.operation = OPERATIONS;
    const size_t of_the_caller = deeper_of_two();
    size_t most = of_the_caller;
    now.operation = operation;
    for (size_t i = 0; i < count; i++) {
        now.task = &tasks[i];
        const size_t used = takes(operation, now.task) ? deeper_of_two() : 0;
        most = used > most ? used : most;
    }
    return most - of_the_caller;
}
