/* The library beside the peer, on the same sheets. A difference between the two is an error.
 *
 *     bench count SHEETS all|figures            one turn of each operation by each of the two, for callgrind to count
 *     bench measure SHEETS all|figures COUNTS   the tables; COUNTS has the instructions of those turns in their order, or nothing
 *
 * `figures` takes the sheets of each kind and figure by themselves. */
#include <stdio.h>
#include <stdlib.h>
#include <string.h>

#include "operations.h"
#include "stack.h"
#include "timing.h"

enum { STACK_GOAL = 6 * 1024, STACK_GOAL_OF_A_PASS = 2 * 1024, UNTOUCHED = 0xA5, GOAL_WIDTH = 16 };

struct bench {
    const struct task *tasks;
    size_t count;
    FILE *counts; /* the instructions of the turns that are still to be measured; NULL where they were not counted */
};

/* What the two of a comparison work. */
struct turn {
    const struct bench *bench;
    const struct library *library;
    enum operation operation;
};

/* The most times the peer's time and instructions that an operation may take; 0 where nothing is asked. */
static const struct {
    double time, instructions;
} goals[OPERATIONS] = {
    [READ] = {1.2, 0},
    [WRITE] = {1.2, 0},
    [FIRST_PASS] = {1.35, 1.6},
    [SECOND_PASS] = {1.35, 1.6},
    [TWO_SINES] = {3, 0},
    [REPORT] = {1.5, 0},
};

/* Both on the same sheet, with every byte that they may store compared, and with it what they leave alone. */
static void compare_one(enum operation operation, const struct task *task)
{
    static struct desk our_desk, peer_desk;
    memset(&our_desk, UNTOUCHED, sizeof our_desk);
    memset(&peer_desk, UNTOUCHED, sizeof peer_desk);
    const uint32_t our_answer = operate(&ours, operation, task, &our_desk);
    const uint32_t peer_answer = operate(&peer, operation, task, &peer_desk);
    if (our_answer == peer_answer && memcmp(&our_desk, &peer_desk, sizeof our_desk) == 0)
        return;
    const uint32_t *head = task->head;
    fprintf(stderr, "%s of a sheet of kind %u, code %u, n %u: the library (answer %u) and the peer (answer %u) differ\n",
        operation_names[operation], (unsigned)head[0], (unsigned)head[1], (unsigned)head[2], (unsigned)our_answer,
        (unsigned)peer_answer);
    exit(1);
}

static void compare_answers(const void *about)
{
    const struct turn *turn = about;
    for (size_t i = 0; i < turn->bench->count; i++)
        if (takes(turn->operation, &turn->bench->tasks[i]))
            compare_one(turn->operation, &turn->bench->tasks[i]);
}

static double calls_of_a_turn(const struct bench *bench, enum operation operation)
{
    double calls = 0;
    for (size_t i = 0; i < bench->count; i++)
        calls += takes(operation, &bench->tasks[i]);
    return calls;
}

/* So many times through the sheets; the sum of the answers keeps the calls from being dropped. */
static void go_through(const void *about, unsigned times)
{
    static struct desk desk;
    const struct turn *turn = about;
    const struct bench *bench = turn->bench;
    uint32_t answers = 0;
    for (unsigned time = 0; time < times; time++)
        for (size_t i = 0; i < bench->count; i++)
            if (takes(turn->operation, &bench->tasks[i]))
                answers += operate(turn->library, turn->operation, &bench->tasks[i], &desk);
    if (answers != 0) {
        fprintf(stderr, "%s of %s: a sheet of the bench is turned back\n", operation_names[turn->operation], turn->library->name);
        exit(1);
    }
}

/* callgrind writes down what it has counted whenever this is left, so it must stay a call under this name. */
__attribute__((noipa)) void counted_turn(const struct turn *turn)
{
    go_through(turn, 1);
}

static void count_operation(const struct bench *bench, enum operation operation)
{
    counted_turn(&(struct turn){bench, &ours, operation});
    counted_turn(&(struct turn){bench, &peer, operation});
}

/* Without a column after it the goal has a width of 0. */
static void print_goal(double measured, double goal, int width)
{
    char text[32] = "";
    if (goal > 0)
        snprintf(text, sizeof text, "  %.4g %s", goal, measured <= goal ? "met" : "not met");
    printf("%-*s", width, text);
}

static double next_count(FILE *counts)
{
    double total;
    if (fscanf(counts, "%lf", &total) == 1)
        return total;
    fprintf(stderr, "the counts of instructions are of other sheets\n");
    exit(2);
}

static void print_instructions(const struct bench *bench, enum operation operation)
{
    const double calls = calls_of_a_turn(bench, operation);
    const double our_count = next_count(bench->counts) / calls, peer_count = next_count(bench->counts) / calls;
    printf(" %9.0f %9.0f %6.2f", our_count, peer_count, our_count / peer_count);
    print_goal(our_count / peer_count, goals[operation].instructions, 0);
}

static void measure_operation(const struct bench *bench, enum operation operation)
{
    const struct turn our_turn = {bench, &ours, operation}, peer_turn = {bench, &peer, operation};
    compare_answers(&our_turn);
    const struct compared times = compare_times(go_through, &our_turn, go_through, &peer_turn, compare_answers);
    const double calls = calls_of_a_turn(bench, operation);
    printf("%-22s %9.1f %9.1f %6.2f", operation_names[operation], times.one / calls, times.other / calls, times.ratio);
    print_goal(times.ratio, goals[operation].time, bench->counts ? GOAL_WIDTH : 0);
    if (bench->counts)
        print_instructions(bench, operation);
    putchar('\n');
    fflush(stdout);
}

static void print_heading(bool counted)
{
    const char *columns = "  library      peer  times  goal";
    printf("%-22s   %-41s%s\n", "", "nanoseconds a call", counted ? "  instructions a call" : "");
    printf("%-22s %-42s %s\n", "", columns, counted ? columns : "");
}

static void print_stack(const struct bench *bench)
{
    printf("\n%-22s %9s %9s         goal\n", "bytes of stack a call", ours.name, peer.name);
    for (enum operation operation = LOOK; operation < WHOLE_SHEET; operation++) {
        const size_t our_depth = deepest(&ours, operation, bench->tasks, bench->count);
        const size_t peer_depth = deepest(&peer, operation, bench->tasks, bench->count);
        const bool pass = operation >= FIRST_PASS && operation <= TWO_SINES;
        printf("%-22s %9zu %9zu       ", operation_names[operation], our_depth, peer_depth);
        print_goal((double)our_depth, pass ? STACK_GOAL_OF_A_PASS : STACK_GOAL, 0);
        putchar('\n');
    }
}

typedef void (*each_operation)(const struct bench *bench, enum operation operation);

static void all_operations(const struct bench *bench, each_operation act)
{
    for (enum operation operation = LOOK; operation < OPERATIONS; operation++)
        if (calls_of_a_turn(bench, operation) > 0)
            act(bench, operation);
}

/* The sheets of a kind and figure stand together. */
static size_t alike(const struct task *tasks, size_t count)
{
    size_t end = 1;
    while (end < count && memcmp(tasks[end].head, tasks->head, sizeof tasks->head) == 0)
        end++;
    return end;
}

static void each_figure(const struct bench *bench, each_operation act)
{
    for (size_t start = 0; start < bench->count;) {
        const struct bench part = {bench->tasks + start, alike(bench->tasks + start, bench->count - start), bench->counts};
        const uint32_t *head = part.tasks->head;
        if (act == measure_operation)
            printf("\nkind %u, code %u, n %u\n", (unsigned)head[0], (unsigned)head[1], (unsigned)head[2]);
        all_operations(&part, act);
        start += part.count;
    }
}

/* NULL of a file that has nothing. */
static FILE *open_counts(const char *path)
{
    FILE *counts = fopen(path, "r");
    if (!counts) {
        perror(path);
        exit(2);
    }
    const int first = fgetc(counts);
    if (first == EOF) {
        fclose(counts);
        return NULL;
    }
    ungetc(first, counts);
    return counts;
}

static void measure(const struct bench *bench, bool by_figure)
{
    printf("%zu sheets, median of %d rounds\n\n", bench->count, ROUNDS);
    print_heading(bench->counts != NULL);
    (by_figure ? each_figure : all_operations)(bench, measure_operation);
    if (!by_figure)
        print_stack(bench);
}

int main(int argc, char **argv)
{
    const bool counting = argc == 4 && strcmp(argv[1], "count") == 0;
    if (!counting && !(argc == 5 && strcmp(argv[1], "measure") == 0)) {
        fprintf(stderr, "usage: bench count SHEETS all|figures, or bench measure SHEETS all|figures COUNTS\n");
        return 2;
    }
    const bool by_figure = strcmp(argv[3], "figures") == 0;
    struct bench bench = {NULL, 0, counting ? NULL : open_counts(argv[4])};
    bench.tasks = read_tasks(argv[2], &bench.count);
    if (counting)
        (by_figure ? each_figure : all_operations)(&bench, count_operation);
    else
        measure(&bench, by_figure);
    return 0;
}
