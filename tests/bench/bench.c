/* bench ENGINE WORK REPETITIONS FILE: does the work that often with the plan in FILE, by one engine, or with `turns` for the
 * engine by both in turns, and tells the median time of each for doing it once. All else costs the same at any number of repetitions, so that the
 * difference of two counts of instructions is the cost of the work. */
#define _POSIX_C_SOURCE 199309L
#include <stdbool.h>
#include <stdio.h>
#include <stdlib.h>
#include <string.h>
#include <time.h>

#include "engines.h"
#include "image.h"

enum { MOST_ACTIONS = 20000, CALLS = 2000, ROUNDS = 15, KINDS = LAST_KIND + 1 };

struct plan {
    uint8_t start[TABLE_BYTES];
    uint8_t actions[ACTION_BYTES * MOST_ACTIONS];
    size_t count;
    /* What the plan leaves, and its image: a table as a reader and a writer meet it. */
    uint8_t left[TABLE_BYTES];
    uint8_t image[MOST_IMAGE_BYTES];
    uint64_t image_length;
};

struct playing {
    uint8_t table[TABLE_BYTES];
    uint8_t replies[REPLY_BYTES * MOST_ACTIONS];
    uint8_t image[MOST_IMAGE_BYTES];
    uint64_t end;
};

static void play_run(const struct engine *engine, const struct plan *plan, struct playing *playing)
{
    memcpy(playing->table, plan->start, TABLE_BYTES);
    engine->run(playing->table, TABLE_BYTES, plan->actions, ACTION_BYTES * plan->count, playing->replies,
                REPLY_BYTES * plan->count);
}

static void play_steps(const struct engine *engine, const struct plan *plan, struct playing *playing)
{
    memcpy(playing->table, plan->start, TABLE_BYTES);
    for (size_t piece = 0; piece < plan->count; piece++) {
        const uint8_t *action = plan->actions + ACTION_BYTES * piece;
        uint64_t reply;
        engine->step(playing->table, TABLE_BYTES, action, ACTION_BYTES, &reply);
        put_reply(playing->replies, piece, reply);
    }
}

static void fill_fresh(const struct engine *engine, const struct plan *plan, struct playing *playing)
{
    uint32_t n = word(plan->start, SERVERS);
    for (size_t call = 0; call < CALLS; call++) {
        playing->replies[call] = (uint8_t)engine->fresh(playing->table, TABLE_BYTES, n, all_servers(n), RULE_1, 0);
    }
}

static void read_image(const struct engine *engine, const struct plan *plan, struct playing *playing)
{
    for (size_t call = 0; call < CALLS; call++) {
        playing->replies[call] = (uint8_t)engine->read(plan->image, plan->image_length, playing->table, TABLE_BYTES,
                                                       &playing->end);
    }
}

static void write_image(const struct engine *engine, const struct plan *plan, struct playing *playing)
{
    for (size_t call = 0; call < CALLS; call++) {
        playing->replies[call] = (uint8_t)engine->write(plan->left, TABLE_BYTES, playing->image, MOST_IMAGE_BYTES,
                                                        &playing->end);
    }
}

static const struct work {
    const char *name;
    void (*once)(const struct engine *engine, const struct plan *plan, struct playing *playing);
} works[] = {
    {"run", play_run},
    {"step", play_steps},
    {"fresh", fill_fresh},
    {"read", read_image},
    {"write", write_image},
};

static const struct work *work_named(const char *name)
{
    for (size_t which = 0; which < sizeof works / sizeof *works; which++) {
        if (strcmp(works[which].name, name) == 0) {
            return &works[which];
        }
    }
    return NULL;
}

static bool read_plan(const char *path, struct plan *plan, struct playing *playing)
{
    FILE *file = fopen(path, "rb");
    if (file == NULL) {
        return false;
    }
    bool has_table = fread(plan->start, TABLE_BYTES, 1, file) == 1;
    plan->count = fread(plan->actions, ACTION_BYTES, MOST_ACTIONS, file);
    fclose(file);
    play_run(&plain_engine, plan, playing);
    memcpy(plan->left, playing->table, TABLE_BYTES);
    return has_table
        && plain_engine.write(plan->left, TABLE_BYTES, plan->image, MOST_IMAGE_BYTES, &plan->image_length) == 0;
}

/* FNV-1a: shows that two engines did the same work. */
static uint64_t digest(uint64_t so_far, const uint8_t *bytes, size_t length)
{
    for (size_t index = 0; index < length; index++) {
        so_far = (so_far ^ bytes[index]) * UINT64_C(0x100000001b3);
    }
    return so_far;
}

static void report(const struct engine *engine, const struct plan *plan, const struct playing *playing)
{
    size_t taken[KINDS] = {0};
    for (size_t piece = 0; piece < plan->count; piece++) {
        uint8_t kind = plan->actions[ACTION_BYTES * piece];
        if (number_of(reply_at(playing->replies, piece)) == 0 && kind < KINDS) {
            taken[kind]++;
        }
    }
    uint64_t mixed = digest(UINT64_C(0xcbf29ce484222325), playing->replies, REPLY_BYTES * plan->count);
    mixed = digest(mixed, playing->table, TABLE_BYTES);
    printf("%s: %zu actions, taken by kind 1 to 9:", engine->name, plan->count);
    for (size_t kind = ELECT; kind <= LAST_KIND; kind++) {
        printf(" %zu", taken[kind]);
    }
    printf(", digest %016llx\n", (unsigned long long)mixed);
}

static double nanoseconds(const struct engine *engine, const struct work *work, const struct plan *plan,
                          struct playing *playing, unsigned long repetitions)
{
    struct timespec from;
    struct timespec to;
    clock_gettime(CLOCK_MONOTONIC, &from);
    for (unsigned long left = repetitions; left > 0; left--) {
        work->once(engine, plan, playing);
    }
    clock_gettime(CLOCK_MONOTONIC, &to);
    double passed = (double)(to.tv_sec - from.tv_sec) * 1e9 + (double)(to.tv_nsec - from.tv_nsec);
    return passed / (double)repetitions;
}

static int compare_times(const void *one, const void *other)
{
    double a = *(const double *)one;
    double b = *(const double *)other;
    return (a > b) - (a < b);
}

/* In turns, so that what else the machine does falls on both alike. */
static bool take_turns(const struct work *work, const struct plan *plan, unsigned long repetitions)
{
    static struct playing playing[2];
    const struct engine *engines[] = {&plain_engine, tested_engine};
    double times[2][ROUNDS];
    for (size_t round = 0; round < ROUNDS; round++) {
        for (size_t which = 0; which < 2; which++) {
            times[which][round] = nanoseconds(engines[which], work, plan, &playing[which], repetitions);
        }
    }
    for (size_t which = 0; which < 2; which++) {
        qsort(times[which], ROUNDS, sizeof *times[which], compare_times);
        printf("%s %.0f\n", engines[which]->name, times[which][ROUNDS / 2]);
    }
    return memcmp(&playing[0], &playing[1], sizeof *playing) == 0;
}

int main(int count, char **arguments)
{
    static struct plan plan;
    static struct playing playing;
    const struct work *work = count == 5 ? work_named(arguments[2]) : NULL;
    const struct engine *engine = count == 5 ? engine_named(arguments[1]) : NULL;
    bool in_turns = count == 5 && strcmp(arguments[1], "turns") == 0;
    unsigned long repetitions = count == 5 ? strtoul(arguments[3], NULL, 10) : 0;
    if (work == NULL || repetitions == 0 || (engine == NULL && !in_turns) || !read_plan(arguments[4], &plan, &playing)) {
        fputs("usage: bench plain|kyntulei|turns run|step|fresh|read|write REPETITIONS FILE, a file that plan has written\n",
              stderr);
        return EXIT_FAILURE;
    }
    if (in_turns) {
        if (!take_turns(work, &plan, repetitions)) {
            fputs("bench: the two engines did not do the same\n", stderr);
            return EXIT_FAILURE;
        }
        return EXIT_SUCCESS;
    }
    for (unsigned long left = repetitions; left > 0; left--) {
        work->once(engine, &plan, &playing);
    }
    report(engine, &plan, &playing);
    return EXIT_SUCCESS;
}
