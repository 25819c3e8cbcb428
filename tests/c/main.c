/* Tries every call of a file that vectors.py wrote on the library: checks FILE. The last line is 'N passed, M failed'. */
#define _DEFAULT_SOURCE
#include <signal.h>
#include <stdlib.h>
#include <string.h>
#include <unistd.h>

#include "lengths.h"

enum { SHOWN = 20 };

static unsigned long passed, failed;
static struct call call;

static void close_count(void)
{
    printf("%lu calls of the library\n%lu passed, %lu failed\n", calls_made(), passed, failed);
    fflush(stdout);
}

/* A call that is stopped cannot go on; what is known by then is told. A guard page gives the first two of the signals. */
static const int watched[] = {SIGSEGV, SIGBUS, SIGFPE, SIGILL};

static void stopped(int signal_number)
{
    const bool guard_page = signal_number == SIGSEGV || signal_number == SIGBUS;
    printf("FAILED %s%s: %s\n", function_name(call.function), call.name,
        guard_page ? "reads or writes outside of what is lent" : "does something undefined");
    failed++;
    close_count();
    _exit(1);
}

static void watch(void)
{
    struct sigaction action;
    memset(&action, 0, sizeof action);
    action.sa_handler = stopped;
    for (size_t i = 0; i < sizeof watched / sizeof *watched; i++)
        sigaction(watched[i], &action, NULL);
}

static void count_call(void)
{
    const char *wrong = right_lengths(&call);
    if (!wrong)
        wrong = wrong_lengths(&call);
    if (!wrong) {
        passed++;
        return;
    }
    if (failed++ < SHOWN)
        printf("FAILED %s%s: %s\n", function_name(call.function), call.name, wrong);
}

int main(int argc, char **argv)
{
    FILE *file = argc == 2 ? fopen(argv[1], "r") : NULL;
    if (!file) {
        fprintf(stderr, "usage: checks FILE\n");
        return 2;
    }
    prepare_to_lend();
    watch();
    while (next_call(file, &call)) {
        count_call();
        forget(&call);
    }
    fclose(file);
    close_count();
    return failed == 0 && passed > 0 ? 0 : 1;
}
