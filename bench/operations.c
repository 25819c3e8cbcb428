#include "operations.h"

#include <stdio.h>
#include <stdlib.h>
#include <string.h>

#include "peer.h"

const struct library ours = {"library", bienguloc_look, bienguloc_read, bienguloc_write, bienguloc_first_pass, bienguloc_closing,
    bienguloc_check_closing, bienguloc_second_pass, bienguloc_report};
const struct library peer = {"peer", peer_look, peer_read, peer_write, peer_first_pass, peer_closing, peer_check_closing,
    peer_second_pass, peer_report};

const char *const operation_names[OPERATIONS] = {"look", "read", "write", "first pass", "second pass", "second pass, two sines",
    "a rounding that closes", "check of a rounding", "report", "a sheet worked through"};

enum { MOST_TASKS = 1024 };

bool takes(enum operation operation, const struct task *task)
{
    const uint32_t log_sines = task->head[BIENGULOC_LOOK_LOG_SINES], log_sides = task->head[BIENGULOC_LOOK_LOG_SIDES];
    switch (operation) {
    case FIRST_PASS:
    case CLOSING:
    case CHECK_CLOSING:
        return log_sines == 0;
    case SECOND_PASS:
        return log_sines != 0 && log_sides == 0;
    case TWO_SINES:
        return log_sides != 0;
    default:
        return true;
    }
}

static uint32_t look(const struct library *library, const struct task *task, uint32_t *head)
{
    return library->look(task->sheet, task->size, head, BIENGULOC_LOOK_HEAD);
}

static uint32_t read_values(const struct library *library, const struct task *task, const uint32_t *head, struct values *values)
{
    const size_t sines = head[BIENGULOC_LOOK_LOG_SINES];
    return library->read(task->sheet, task->size, values->head, BIENGULOC_READ_HEAD, values->angles, head[BIENGULOC_LOOK_ANGLES],
        values->rounds, head[BIENGULOC_LOOK_ROUNDS], values->fixed, head[BIENGULOC_LOOK_FIXED], values->log_sines, sines,
        values->differences, sines, values->log_sides, head[BIENGULOC_LOOK_LOG_SIDES]);
}

static uint32_t write_values(const struct library *library, const struct task *task, struct desk *desk)
{
    const struct values *v = &task->values;
    const size_t sines = task->head[BIENGULOC_LOOK_LOG_SINES];
    return library->write(v->head[0], v->head[1], v->head[2], v->head[3], v->angles, task->head[BIENGULOC_LOOK_ANGLES], v->rounds,
        task->head[BIENGULOC_LOOK_ROUNDS], v->fixed, task->head[BIENGULOC_LOOK_FIXED], v->log_sines, sines, v->differences, sines,
        v->log_sides, task->head[BIENGULOC_LOOK_LOG_SIDES], desk->sheet, task->size);
}

/* L of a sheet as the pass is handed it: 0 stands for its own default, which is not that of kind 1. */
static uint32_t limit_of(const struct values *v)
{
    const uint32_t limit = v->head[BIENGULOC_READ_LIMIT_OR_TOLERANCE];
    return limit == 0 && v->head[BIENGULOC_HEAD_KIND] == 1 ? BIENGULOC_DEFAULT_LIMIT_OF_KIND_1 : limit;
}

static uint32_t first_pass(const struct library *library, const uint32_t *head, const struct values *v, struct desk *desk)
{
    const size_t angles = head[BIENGULOC_LOOK_ANGLES], conditions = head[BIENGULOC_LOOK_CONDITIONS];
    return library->first_pass(v->head[1], v->head[2], limit_of(v), v->angles, angles, v->rounds, head[BIENGULOC_LOOK_ROUNDS], v->fixed,
        head[BIENGULOC_LOOK_FIXED], desk->misclosures, conditions, desk->numerators, angles, desk->rounded, angles, desk->results, angles,
        desk->result_rounds, angles, desk->rests, conditions);
}

static uint32_t closing(const struct library *library, const struct task *task, int32_t *choice)
{
    const struct values *v = &task->values;
    return library->closing(v->head[1], v->head[2], limit_of(v), v->angles, task->head[BIENGULOC_LOOK_ANGLES], v->rounds,
        task->head[BIENGULOC_LOOK_ROUNDS], v->fixed, task->head[BIENGULOC_LOOK_FIXED], choice, task->head[BIENGULOC_LOOK_ANGLES]);
}

static uint32_t check_closing(const struct library *library, const struct task *task)
{
    const struct values *v = &task->values;
    return library->check_closing(v->head[1], v->head[2], limit_of(v), v->angles, task->head[BIENGULOC_LOOK_ANGLES], v->rounds,
        task->head[BIENGULOC_LOOK_ROUNDS], v->fixed, task->head[BIENGULOC_LOOK_FIXED], task->choice, task->head[BIENGULOC_LOOK_ANGLES]);
}

static uint32_t second_pass(const struct library *library, const uint32_t *head, const struct values *v, struct desk *desk)
{
    const size_t angles = head[BIENGULOC_LOOK_ANGLES], log_sides = head[BIENGULOC_LOOK_LOG_SIDES];
    return library->second_pass(v->head[1], v->head[2], v->head[3], v->angles, angles, v->rounds, head[BIENGULOC_LOOK_ROUNDS],
        v->log_sines, angles, v->differences, angles, v->log_sides, log_sides, desk->sine_misclosures, log_sides ? 2 : 1, desk->divisor, 2,
        desk->reduced, angles, desk->side_reduced, log_sides ? angles : 0, desk->numerators_high, angles, desk->numerators_low, angles,
        desk->rounded, angles, desk->results, angles, desk->result_rounds, angles, desk->rests, head[BIENGULOC_LOOK_CONDITIONS]);
}

/* As a controller does: a look for the counts, the values, the pass of the sheet's kind. */
static uint32_t whole_sheet(const struct library *library, const struct task *task, struct desk *desk)
{
    uint32_t answer = look(library, task, desk->head);
    if (answer == BIENGULOC_DONE)
        answer = read_values(library, task, desk->head, &desk->values);
    if (answer != BIENGULOC_DONE)
        return answer;
    const bool first = desk->head[BIENGULOC_LOOK_LOG_SINES] == 0;
    return (first ? first_pass : second_pass)(library, desk->head, &desk->values, desk);
}

uint32_t operate(const struct library *library, enum operation operation, const struct task *task, struct desk *desk)
{
    switch (operation) {
    case LOOK:
        return look(library, task, desk->head);
    case READ:
        return read_values(library, task, task->head, &desk->values);
    case WRITE:
        return write_values(library, task, desk);
    case FIRST_PASS:
        return first_pass(library, task->head, &task->values, desk);
    case SECOND_PASS:
    case TWO_SINES:
        return second_pass(library, task->head, &task->values, desk);
    case CLOSING:
        return closing(library, task, desk->choice);
    case CHECK_CLOSING:
        return check_closing(library, task);
    case REPORT:
        return library->report(task->sheet, task->size, desk->text, sizeof desk->text, &desk->written, 1);
    case WHOLE_SHEET:
        return whole_sheet(library, task, desk);
    case OPERATIONS:
        break;
    }
    return BIENGULOC_DONE;
}

/* A look, the values, and of a sheet for the first pass the choice that is checked. */
static uint32_t take_task(struct task *task)
{
    uint32_t answer = look(&ours, task, task->head);
    if (answer == BIENGULOC_DONE)
        answer = read_values(&ours, task, task->head, &task->values);
    if (answer == BIENGULOC_DONE && takes(CHECK_CLOSING, task))
        answer = closing(&ours, task, task->choice);
    return answer;
}

static void unpack_line(const char *line, struct task *task)
{
    unsigned byte;
    for (task->size = 0; task->size < sizeof task->sheet && sscanf(line + 2 * task->size, "%2x", &byte) == 1; task->size++)
        task->sheet[task->size] = (uint8_t)byte;
    if (take_task(task) != BIENGULOC_DONE) {
        fprintf(stderr, "the library turns back a sheet of the bench: %s", line);
        exit(2);
    }
}

struct task *read_tasks(const char *path, size_t *count)
{
    char line[2 * BIENGULOC_LONGEST_SHEET + 2];
    struct task *tasks = calloc(MOST_TASKS, sizeof *tasks);
    FILE *file = fopen(path, "r");
    if (!file || !tasks) {
        perror(path);
        exit(2);
    }
    for (*count = 0; *count < MOST_TASKS && fgets(line, sizeof line, file); ++*count)
        unpack_line(line, &tasks[*count]);
    fclose(file);
    return tasks;
}
