/* How deep a call reaches into the stack. */
#ifndef STACK_H
#define STACK_H

#include "operations.h"

/* The most bytes that the operation takes on any of the tasks, its arguments and all its frames, to within a few words. */
size_t deepest(const struct library *library, enum operation operation, const struct task *tasks, size_t count);

#endif
