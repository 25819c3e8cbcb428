/* The library's first pass beside LAPACK's dgglse on the same sheets: the least sum of squares of the corrections v under C v = -w, in
 * floating point. The two differ where a correction is not the numerator over D. */
#include <lapacke.h>
#include <math.h>
#include <stdio.h>
#include <stdlib.h>
#include <string.h>

#include "operations.h"
#include "timing.h"

enum { ANGLES = BIENGULOC_MOST_ANGLES, CONDITIONS = BIENGULOC_MOST_CONDITIONS, ROOM = 4096, HALF_CIRCLE = 6480000 };

static const double SAME = 1e-6;

/* The sheets of one figure, and its conditions: 1 where an angle is in a condition; matrices by column, as LAPACK has them. */
struct figure {
    const char *name;
    uint32_t code, n;
    double denominator;
    const struct task *tasks;
    size_t count;
    int angles, conditions;
    double in_condition[CONDITIONS * ANGLES], one_for_each[ANGLES * ANGLES], targets[CONDITIONS];
};

static bool is_of(const struct figure *figure, const struct task *task)
{
    const uint32_t *head = task->head;
    return head[BIENGULOC_HEAD_KIND] == 1 && head[BIENGULOC_HEAD_CODE] == figure->code && head[BIENGULOC_HEAD_N] == figure->n;
}

/* The sheets of a figure stand together. */
static void find_sheets(struct figure *figure, const struct task *tasks, size_t count)
{
    size_t start = 0;
    while (start < count && !is_of(figure, &tasks[start]))
        start++;
    figure->tasks = tasks + start;
    for (figure->count = 0; start + figure->count < count && is_of(figure, &tasks[start + figure->count]);)
        figure->count++;
    if (figure->count == 0) {
        fprintf(stderr, "the bench has no sheet of the %s\n", figure->name);
        exit(2);
    }
    figure->angles = (int)figure->tasks->head[BIENGULOC_LOOK_ANGLES];
    figure->conditions = (int)figure->tasks->head[BIENGULOC_LOOK_CONDITIONS];
}

static bool is_in(const struct figure *figure, int condition, int angle)
{
    if (figure->code == 1)
        return angle / 2 == condition || angle / 2 == condition + 1;
    return condition < (int)figure->n ? angle / 3 == condition : angle % 3 == 0;
}

static void lay_out(struct figure *figure)
{
    for (int angle = 0; angle < figure->angles; angle++) {
        figure->one_for_each[angle * figure->angles + angle] = 1;
        for (int condition = 0; condition < figure->conditions; condition++)
            figure->in_condition[angle * figure->conditions + condition] = is_in(figure, condition, angle);
    }
    for (int condition = 0; condition < figure->conditions; condition++)
        figure->targets[condition] = figure->code == 3 && condition == (int)figure->n ? 2 * HALF_CIRCLE : HALF_CIRCLE;
}

/* -w of the sheet's angles. */
static void find_gaps(const struct figure *figure, const uint32_t *angles, double *gaps)
{
    memcpy(gaps, figure->targets, (size_t)figure->conditions * sizeof *gaps);
    for (int angle = 0; angle < figure->angles; angle++)
        for (int condition = 0; condition < figure->conditions; condition++)
            gaps[condition] -= figure->in_condition[angle * figure->conditions + condition] * angles[angle];
}

/* dgglse works in place, so it gets copies; its room is lent, so that no time goes into the heap. */
static void solve(const struct figure *figure, const struct task *task, double *corrections)
{
    static double unit[ANGLES * ANGLES], conditions[CONDITIONS * ANGLES], room[ROOM];
    double none[ANGLES] = {0}, gaps[CONDITIONS];
    const int a = figure->angles, c = figure->conditions;
    memcpy(unit, figure->one_for_each, (size_t)(a * a) * sizeof *unit);
    memcpy(conditions, figure->in_condition, (size_t)(c * a) * sizeof *conditions);
    find_gaps(figure, task->values.angles, gaps);
    if (LAPACKE_dgglse_work(LAPACK_COL_MAJOR, a, a, c, unit, a, conditions, c, none, gaps, corrections, room, ROOM) != 0) {
        fprintf(stderr, "dgglse finds no answer for the %s\n", figure->name);
        exit(1);
    }
}

static void solve_all(const void *about, unsigned times)
{
    const struct figure *figure = about;
    double corrections[ANGLES];
    for (unsigned time = 0; time < times; time++)
        for (size_t i = 0; i < figure->count; i++)
            solve(figure, &figure->tasks[i], corrections);
}

static void pass_all(const void *about, unsigned times)
{
    static struct desk desk;
    const struct figure *figure = about;
    uint32_t answers = 0;
    for (unsigned time = 0; time < times; time++)
        for (size_t i = 0; i < figure->count; i++)
            answers += operate(&ours, FIRST_PASS, &figure->tasks[i], &desk);
    if (answers != 0) {
        fprintf(stderr, "first pass of the %s: a sheet of the bench is turned back\n", figure->name);
        exit(1);
    }
}

static void compare_one(const struct figure *figure, const struct task *task)
{
    static struct desk desk;
    double corrections[ANGLES];
    operate(&ours, FIRST_PASS, task, &desk);
    solve(figure, task, corrections);
    for (int angle = 0; angle < figure->angles; angle++) {
        const double exact = desk.numerators[angle] / figure->denominator;
        if (fabs(corrections[angle] - exact) <= SAME)
            continue;
        fprintf(stderr, "%s, angle %d: the library corrects by %.9f and dgglse by %.9f\n", figure->name, angle + 1, exact,
            corrections[angle]);
        exit(1);
    }
}

static void compare_answers(const void *about)
{
    const struct figure *figure = about;
    for (size_t i = 0; i < figure->count; i++)
        compare_one(figure, &figure->tasks[i]);
}

static void measure(struct figure *figure, const struct task *tasks, size_t count)
{
    find_sheets(figure, tasks, count);
    lay_out(figure);
    compare_answers(figure);
    const struct compared times = compare_times(solve_all, figure, pass_all, figure, compare_answers);
    printf("%-34s %9.1f %9.1f %9.1f times as fast\n", figure->name, times.other / (double)figure->count,
        times.one / (double)figure->count, times.ratio);
}

int main(int argc, char **argv)
{
    static struct figure quadrilateral = {.name = "geodetic quadrilateral", .code = 1, .n = 0, .denominator = 8};
    static struct figure polygon = {.name = "central polygon of 8 triangles", .code = 3, .n = 8, .denominator = 48};
    if (argc != 2) {
        fprintf(stderr, "usage: bench-lapack SHEETS\n");
        return 2;
    }
    size_t count;
    const struct task *tasks = read_tasks(argv[1], &count);
    printf("%-34s %9s %9s\n", "first pass, nanoseconds a call", ours.name, "dgglse");
    measure(&quadrilateral, tasks, count);
    measure(&polygon, tasks, count);
    return 0;
}
