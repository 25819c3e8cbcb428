/* A call tried with the lengths that it should have, and with wrong ones. */
#ifndef LENGTHS_H
#define LENGTHS_H

#include "calls.h"

/* What is wrong, in words, or NULL. The words stand until the next try. */
const char *right_lengths(const struct call *call);
const char *wrong_lengths(const struct call *call);

unsigned long calls_made(void);

#endif
