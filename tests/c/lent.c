#define _DEFAULT_SOURCE
#include "lent.h"

#include <stdio.h>
#include <stdlib.h>
#include <string.h>
#include <sys/mman.h>
#include <unistd.h>

enum { CANARIES = 64, CANARY = 0xC7 };

static uint8_t *rooms[MOST_SLICES];
static uint8_t *copies[MOST_SLICES];

static uint8_t *room_between_pages(void)
{
    const size_t page = (size_t)sysconf(_SC_PAGESIZE);
    uint8_t *start = mmap(NULL, MOST_BYTES + 2 * page, PROT_NONE, MAP_PRIVATE | MAP_ANONYMOUS, -1, 0);
    if (start == MAP_FAILED || mprotect(start + page, MOST_BYTES, PROT_READ | PROT_WRITE) != 0) {
        perror("room for what is lent");
        exit(2);
    }
    return start + page;
}

void prepare_to_lend(void)
{
    for (size_t i = 0; i < MOST_SLICES; i++) {
        rooms[i] = room_between_pages();
        copies[i] = malloc(MOST_BYTES);
        if (!copies[i])
            exit(2);
    }
}

struct lent lend(size_t place, size_t width, size_t count, const uint8_t *values, size_t given, uint8_t pattern, enum side side)
{
    const size_t bytes = width * count;
    if (bytes + CANARIES > MOST_BYTES) {
        fprintf(stderr, "a slice of %zu bytes is too long for these tests\n", bytes);
        exit(2);
    }
    uint8_t *at = side == PAGE_AFTER ? rooms[place] + MOST_BYTES - bytes : rooms[place];
    uint8_t *canaries = side == PAGE_AFTER ? at - CANARIES : at + bytes;
    const size_t kept = given < bytes ? given : bytes;
    memset(canaries, CANARY, CANARIES);
    memset(at + kept, pattern, bytes - kept);
    if (kept)
        memcpy(at, values, kept);
    memcpy(copies[place], at, bytes);
    return (struct lent){at, copies[place], canaries, count, bytes};
}

bool canaries_live(const struct lent *lent)
{
    for (size_t i = 0; i < CANARIES; i++)
        if (lent->canaries[i] != CANARY)
            return false;
    return true;
}

bool is_as_lent(const struct lent *lent, size_t from)
{
    return memcmp(lent->values + from, lent->as_lent + from, lent->bytes - from) == 0;
}
