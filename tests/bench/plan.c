/* plan SERVERS FORM > FILE: a table of that many servers, then a plan for it. The form guided is a fresh table and a fixed guided plan; input the
 * same as an input of the programs, the table's image and as much of the plan as they take; fetches and stretches are a table in which
 * server 1 has a full log and the others have none, and a plan that copies the log to each of them, entry by entry or in one stretch;
 * reconfigures a table under rule 2 and reconfigures that are all taken.
 * The same bytes each time, so that counts of instructions taken on different days and engines can be held against each other. */
#include <stdio.h>
#include <stdlib.h>
#include <string.h>

#include "generate.h"
#include "image.h"
#include "plain.h"

enum { PLAN_ACTIONS = 20000, PLAN_SEED = 4 };

struct plan {
    uint8_t table[TABLE_BYTES];
    uint8_t actions[ACTION_BYTES * PLAN_ACTIONS];
    size_t count;
};

/* A log takes 64 entries only and a new term needs one before it may reconfigure, so terms have to last for a plan
 * to stay lively; with fetches any more frequent, logs would not part and nothing would be rolled back. The seed is
 * one with which actions of all kinds are taken. */
static const struct temper even_temper = {
    .weight = {
        [ELECT] = 2,
        [RECONFIGURE] = 400,
        [SEND] = 400,
        [SPREAD] = 200,
        [WRITE] = 2,
        [FETCH] = 40,
        [ROLL_BACK] = 200,
        [COMMIT] = 120,
        [STRETCH] = 1,
    },
    .missing = 25,
    .spoiled = 5,
};

/* Into every second write, once the plan is drawn: bakes decide nothing, so that it stays the plan from before them. */
static void give_bakes(struct plan *plan)
{
    uint32_t writes = 0;
    for (size_t piece = 0; piece < plan->count; piece++) {
        uint8_t *action = plan->actions + ACTION_BYTES * piece;
        if (action[0] == WRITE && ++writes % 2 == 0) {
            put_word(action, 1, writes);
        }
    }
}

static void fill_guided(struct plan *plan, uint32_t n)
{
    static uint8_t played[TABLE_BYTES];
    struct source source = {PLAN_SEED};
    plain_fresh(plan->table, TABLE_BYTES, n, all_servers(n), RULE_1, 0);
    memcpy(played, plan->table, TABLE_BYTES);
    plan->count = PLAN_ACTIONS;
    draw_guided_plan(&source, &even_temper, played, plan->count, plan->actions);
    give_bakes(plan);
}

static void fill_copies(struct plan *plan, uint32_t n, bool in_stretches)
{
    plain_fresh(plan->table, TABLE_BYTES, n, all_servers(n), RULE_1, 0);
    uint8_t *full = plan->table + row_start(1);
    for (size_t index = 0; index < MOST_ENTRIES; index++) {
        put_word(full, ENTRIES + index, 1 + (uint32_t)index);
        put_word(full, BAKES + index, (uint32_t)index % 2);
    }
    put_word(full, LOG_LENGTH, MOST_ENTRIES);
    for (uint32_t server = 2; server <= n; server++) {
        for (size_t left = in_stretches ? 1 : MOST_ENTRIES; left > 0; left--) {
            uint8_t *action = plan->actions + ACTION_BYTES * plan->count++;
            put_action(action, in_stretches ? STRETCH : FETCH, server, 1, in_stretches ? MOST_ENTRIES : 0);
        }
    }
}

/* A server that is alone in its set is a majority of it, so that nothing has to be sent between one change and the next; and
 * rule 2 lets a set follow itself. */
static void fill_reconfigures(struct plan *plan, uint32_t n)
{
    uint8_t opening[3 * ACTION_BYTES];
    uint8_t replies[3 * REPLY_BYTES];
    put_action(opening, ELECT, 1, 0, only(1));
    put_action(opening + ACTION_BYTES, WRITE, 1, 0, 0);
    put_action(opening + 2 * ACTION_BYTES, COMMIT, 1, 0, only(1));
    plain_fresh(plan->table, TABLE_BYTES, n, only(1), RULE_2, 0);
    plain_run(plan->table, TABLE_BYTES, opening, sizeof opening, replies, sizeof replies);
    plan->count = PLAN_ACTIONS;
    for (size_t piece = 0; piece < plan->count; piece++) {
        put_action(plan->actions + ACTION_BYTES * piece, RECONFIGURE, 1, 0, only(1));
    }
}

static bool write_plan(const struct plan *plan)
{
    return fwrite(plan->table, TABLE_BYTES, 1, stdout) == 1
        && fwrite(plan->actions, ACTION_BYTES, plan->count, stdout) == plan->count && fflush(stdout) == 0;
}

static bool write_input(const struct plan *plan)
{
    uint8_t image[MOST_IMAGE_BYTES];
    size_t image_len = image_of(plan->table, image);
    size_t count = (MOST_INPUT_BYTES - image_len) / ACTION_BYTES;
    return fwrite(image, image_len, 1, stdout) == 1 && fwrite(plan->actions, ACTION_BYTES, count, stdout) == count
        && fflush(stdout) == 0;
}

int main(int count, char **arguments)
{
    static struct plan plan;
    uint32_t n = count == 3 ? (uint32_t)strtoul(arguments[1], NULL, 10) : 0;
    const char *form = n >= 1 && n <= MOST_SERVERS ? arguments[2] : "";
    bool as_input = strcmp(form, "input") == 0;
    bool in_stretches = strcmp(form, "stretches") == 0;
    if (as_input || strcmp(form, "guided") == 0) {
        fill_guided(&plan, n);
    } else if (in_stretches || strcmp(form, "fetches") == 0) {
        fill_copies(&plan, n, in_stretches);
    } else if (strcmp(form, "reconfigures") == 0) {
        fill_reconfigures(&plan, n);
    } else {
        fputs("usage: plan SERVERS guided|input|fetches|stretches|reconfigures > FILE, with 1 to 16 servers\n", stderr);
        return EXIT_FAILURE;
    }
    bool written = as_input ? write_input(&plan) : write_plan(&plan);
    return written ? EXIT_SUCCESS : EXIT_FAILURE;
}
