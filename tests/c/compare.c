/* compare [SEED [ACTIONS]]: plays drawn trials on two engines until ACTIONS steps have been compared. */
#include <stdio.h>
#include <stdlib.h>
#include <string.h>

#include "generate.h"
#include "image.h"
#include "plain_rules.h"
#include "trial.h"

/* What a trial leaves, or why there is nothing to leave. */
enum { WITH_BAKES, WITHOUT_BAKES, STRAY_BAKE, BROKEN_OTHERWISE, SORTS };

struct tally {
    uint64_t trials;
    uint64_t of_sort[SORTS];
    uint64_t actions;
    /* By the rule of the table; one whose rule is none counts for neither. */
    uint64_t given[RULE_2 + 1][NUMBERS];
    uint64_t taken_of_kind[RULE_2 + 1][NUMBERS];
    uint64_t pairs;
    uint64_t servers;
    uint64_t copied;
};

static void fill_plan(struct source *source, struct trial *trial, size_t count)
{
    struct temper temper = draw_temper(source);
    uint8_t table[TABLE_BYTES];
    memcpy(table, trial->start, TABLE_BYTES);
    trial->actions_len = ACTION_BYTES * count;
    if (plain_is_whole(table, TABLE_BYTES)) {
        draw_guided_plan(source, &temper, table, count, trial->actions);
        return;
    }
    for (size_t piece = 0; piece < count; piece++) {
        draw_blind_action(source, &temper, between(source, 1, MOST_SERVERS), trial->actions + ACTION_BYTES * piece);
    }
}

static void draw_long_plan(struct source *source, struct trial *trial)
{
    draw_fresh_table(source, trial->start);
    if (chance(source, 20)) {
        lift_counters(source, trial->start);
    }
    fill_plan(source, trial, between(source, 50, 1000));
}

static void draw_odd_trial(struct source *source, struct trial *trial)
{
    draw_odd_table(source, trial->start);
    if (chance(source, 15)) {
        spoil_table(source, trial->start);
    }
    fill_plan(source, trial, between(source, 1, 30));
}

/* The first action is drawn before the table is disturbed, so that mostly one condition of it is what breaks. */
static void draw_near_miss(struct source *source, struct trial *trial)
{
    uint8_t walked[ACTION_BYTES * MOST_PIECES];
    struct temper temper = draw_temper(source);
    uint8_t first[ACTION_BYTES];
    draw_fresh_table(source, trial->start);
    draw_guided_plan(source, &temper, trial->start, below(source, 150), walked);
    draw_guided_action(source, &temper, trial->start, first);
    for (uint32_t times = between(source, 1, 3); times > 0; times--) {
        disturb_table(source, trial->start);
    }
    fill_plan(source, trial, between(source, 1, 8));
    memcpy(trial->actions, first, ACTION_BYTES);
}

static void draw_trial(struct source *source, struct trial *trial)
{
    uint32_t sort = below(source, 100);
    if (sort < 8) {
        draw_long_plan(source, trial);
    } else if (sort < 54) {
        draw_odd_trial(source, trial);
    } else {
        draw_near_miss(source, trial);
    }
    size_t pieces = trial_pieces(trial);
    trial->room = REPLY_BYTES * pieces;
    if (chance(source, 10)) {
        trial->actions_len -= below(source, ACTION_BYTES);
    }
    if (chance(source, 20)) {
        trial->room = below(source, REPLY_BYTES * ((uint32_t)pieces + 8));
    }
}

static void clear_stray_bakes(uint8_t *table)
{
    for (uint32_t server = 0; server <= MOST_SERVERS; server++) {
        uint8_t *row = table + row_start(server);
        uint32_t length = server == 0 ? 0 : word(row, LOG_LENGTH);
        for (size_t index = length; index < MOST_ENTRIES; index++) {
            put_word(row, BAKES + index, 0);
        }
    }
}

static uint32_t sort_of(const uint8_t *table)
{
    if (plain_is_whole(table, TABLE_BYTES)) {
        return has_bakes(table) ? WITH_BAKES : WITHOUT_BAKES;
    }
    uint8_t cleared[TABLE_BYTES];
    memcpy(cleared, table, TABLE_BYTES);
    clear_stray_bakes(cleared);
    return plain_is_whole(cleared, TABLE_BYTES) ? STRAY_BAKE : BROKEN_OTHERWISE;
}

static void add_to_tally(struct tally *tally, const struct trial *trial, const struct outcome *outcome)
{
    tally->trials++;
    tally->of_sort[sort_of(outcome->table_of_run)]++;
    tally->actions += outcome->pieces;
    uint32_t rule = word(trial->start, RULE);
    if (rule > RULE_2) {
        return;
    }
    for (size_t piece = 0; piece < outcome->pieces; piece++) {
        uint64_t reply = reply_at(outcome->replies, piece);
        tally->given[rule][number_of(reply)]++;
        tally->pairs += set_in(reply, OLD_SHIFT) != 0;
        tally->servers += server_in(reply) != 0;
        tally->copied += copied_in(reply);
        if (number_of(reply) == TAKEN) {
            tally->taken_of_kind[rule][trial->actions[ACTION_BYTES * piece]]++;
        }
    }
}

static bool report_counts(const char *what, const uint64_t (*counts)[NUMBERS], uint32_t from, uint32_t to)
{
    bool all_met = true;
    printf("%s, under rule 1 and rule 2:\n", what);
    for (uint32_t at = from; at <= to; at++) {
        printf("  %2u: %llu %llu\n", at, (unsigned long long)counts[RULE_1][at], (unsigned long long)counts[RULE_2][at]);
        all_met = all_met && counts[RULE_1][at] > 0 && counts[RULE_2][at] > 0;
    }
    return all_met;
}

static bool report_sorts(const uint64_t *of_sort)
{
    const char *const names[SORTS] = {
        [WITH_BAKES] = "with bakes",
        [WITHOUT_BAKES] = "without",
        [STRAY_BAKE] = "broken by a bake alone",
        [BROKEN_OTHERWISE] = "broken otherwise",
    };
    bool all_met = true;
    fputs("how many trials leave a table", stdout);
    for (uint32_t sort = 0; sort < SORTS; sort++) {
        printf("%s %s: %llu", sort == 0 ? "" : ",", names[sort], (unsigned long long)of_sort[sort]);
        all_met = all_met && of_sort[sort] > 0;
    }
    putchar('\n');
    return all_met;
}

static bool report_tally(const struct tally *tally)
{
    printf("%llu actions in %llu trials; shown: %llu pairs of majorities, %llu servers in the way, %llu entries copied by stretches\n",
           (unsigned long long)tally->actions, (unsigned long long)tally->trials, (unsigned long long)tally->pairs,
           (unsigned long long)tally->servers, (unsigned long long)tally->copied);
    bool all_given = report_counts("how often each number was given", tally->given, TAKEN, NUMBERS - 1);
    bool all_taken = report_counts("how often each kind was taken", tally->taken_of_kind, ELECT, LAST_KIND);
    bool all_left = report_sorts(tally->of_sort);
    if (!all_given || !all_taken || !all_left) {
        puts("FAILED: a number was never given, a kind never taken, or a table of a sort never left");
    }
    return all_given && all_taken && all_left;
}

static void report_difference(struct trial *trial, const struct engine *one, const struct engine *other)
{
    struct outcome outcome;
    trial_shrink(trial, one, other);
    printf("FAILED: they differ in %s, at the smallest in:\n", trial_difference(trial, one, other, &outcome));
    trial_print(trial, one, other);
}

int main(int count, char **arguments)
{
    const struct engine *one = &plain_engine;
    const struct engine *other = tested_engine;
    uint64_t seed = count > 1 ? strtoull(arguments[1], NULL, 10) : 1;
    uint64_t wanted = count > 2 ? strtoull(arguments[2], NULL, 10) : 1000000;
    struct source source = {seed};
    struct tally tally = {0};
    printf("comparing %s with %s, seed %llu\n", one->name, other->name, (unsigned long long)seed);
    while (tally.actions < wanted) {
        struct trial trial;
        struct outcome outcome;
        draw_trial(&source, &trial);
        if (trial_difference(&trial, one, other, &outcome) != NULL) {
            report_difference(&trial, one, other);
            return EXIT_FAILURE;
        }
        add_to_tally(&tally, &trial, &outcome);
    }
    return report_tally(&tally) ? EXIT_SUCCESS : EXIT_FAILURE;
}
