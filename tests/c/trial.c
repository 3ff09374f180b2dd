#include "trial.h"

#include <stdbool.h>
#include <stdio.h>
#include <string.h>

enum { CANARY = 0xa5 };

/* The guard shows a write past the table's end. */
struct guarded_table {
    uint8_t table[TABLE_BYTES];
    uint8_t guard[64];
};

static struct guarded_table guarded(const struct trial *trial)
{
    struct guarded_table copy;
    memcpy(copy.table, trial->start, TABLE_BYTES);
    memset(copy.guard, CANARY, sizeof copy.guard);
    return copy;
}

size_t trial_pieces(const struct trial *trial)
{
    return (trial->actions_len + ACTION_BYTES - 1) / ACTION_BYTES;
}

size_t trial_piece_bytes(const struct trial *trial, size_t piece)
{
    size_t left = trial->actions_len - ACTION_BYTES * piece;
    return left < ACTION_BYTES ? left : ACTION_BYTES;
}

/* What step tells: a number, and beside it all of the reply, which says that number, too. */
struct told {
    uint64_t number;
    uint64_t reply;
};

static struct told play_piece(const struct engine *engine, const struct trial *trial, size_t piece, uint8_t *table)
{
    struct told told;
    memset(&told.reply, CANARY, sizeof told.reply);
    told.number = engine->step(table, TABLE_BYTES, trial->actions + ACTION_BYTES * piece,
                               trial_piece_bytes(trial, piece), &told.reply);
    return told;
}

static const char *steps_difference(const struct trial *trial, const struct engine *one, const struct engine *other,
                                    struct outcome *outcome)
{
    struct guarded_table ones = guarded(trial);
    struct guarded_table others = guarded(trial);
    memcpy(outcome->table_of_run, trial->start, TABLE_BYTES);
    outcome->pieces = trial_pieces(trial);
    for (size_t piece = 0; piece < outcome->pieces; piece++) {
        uint8_t before[TABLE_BYTES];
        memcpy(before, ones.table, TABLE_BYTES);
        struct told told = play_piece(one, trial, piece, ones.table);
        struct told others_told = play_piece(other, trial, piece, others.table);
        if (memcmp(&told, &others_told, sizeof told) != 0) {
            return "replies of step";
        }
        if (told.number >= NUMBERS || told.number != number_of(told.reply)) {
            return "a reply of step and the numbers there are";
        }
        if (memcmp(&ones, &others, sizeof ones) != 0) {
            return "tables after step";
        }
        if (told.number != 0 && memcmp(before, ones.table, TABLE_BYTES) != 0) {
            return "tables before and after a refusal";
        }
        put_reply(outcome->replies, piece, told.reply);
        if (piece < trial->room / REPLY_BYTES) {
            memcpy(outcome->table_of_run, ones.table, TABLE_BYTES);
        }
    }
    return NULL;
}

/* A run is held against the steps, which both engines have agreed upon. */
static const char *run_difference(const struct trial *trial, const struct engine *engine,
                                  const struct outcome *outcome)
{
    struct guarded_table table = guarded(trial);
    struct guarded_table expected = table;
    memcpy(expected.table, outcome->table_of_run, TABLE_BYTES);
    uint8_t replies[MOST_ROOM];
    uint8_t expected_replies[MOST_ROOM];
    memset(replies, CANARY, sizeof replies);
    memset(expected_replies, CANARY, sizeof expected_replies);
    size_t room = trial->room / REPLY_BYTES;
    size_t played = outcome->pieces < room ? outcome->pieces : room;
    memcpy(expected_replies, outcome->replies, REPLY_BYTES * played);

    uint64_t answer = engine->run(table.table, TABLE_BYTES, trial->actions, trial->actions_len, replies, trial->room);
    if (answer != played) {
        return "answers of run";
    }
    if (memcmp(replies, expected_replies, sizeof replies) != 0) {
        return "replies of run";
    }
    return memcmp(&table, &expected, sizeof table) != 0 ? "tables after run" : NULL;
}

const char *trial_difference(const struct trial *trial, const struct engine *one, const struct engine *other,
                             struct outcome *outcome)
{
    const char *difference = steps_difference(trial, one, other, outcome);
    if (difference == NULL) {
        difference = run_difference(trial, one, outcome);
    }
    if (difference == NULL) {
        difference = run_difference(trial, other, outcome);
    }
    return difference;
}

static struct trial without_piece(const struct trial *trial, size_t piece)
{
    struct trial smaller = *trial;
    size_t from = ACTION_BYTES * piece;
    size_t dropped = trial_piece_bytes(trial, piece);
    memmove(smaller.actions + from, smaller.actions + from + dropped, trial->actions_len - from - dropped);
    smaller.actions_len -= dropped;
    return smaller;
}

void trial_shrink(struct trial *trial, const struct engine *one, const struct engine *other)
{
    bool smaller = true;
    while (smaller) {
        smaller = false;
        for (size_t piece = trial_pieces(trial); piece-- > 0;) {
            struct trial candidate = without_piece(trial, piece);
            struct outcome outcome;
            if (trial_difference(&candidate, one, other, &outcome) != NULL) {
                *trial = candidate;
                smaller = true;
            }
        }
    }
}

/* To the last that is not 0. */
static void print_words(const uint8_t *row, size_t from, size_t end)
{
    while (end > from && word(row, end - 1) == 0) {
        end--;
    }
    for (size_t column = from; column < end; column++) {
        printf(" %u", word(row, column));
    }
}

/* Words as they stand, because a broken table has no servers to speak of. */
static void print_table(const uint8_t *table)
{
    for (uint32_t row = 0; row <= MOST_SERVERS; row++) {
        printf("  row %2u:", row);
        print_words(table + row_start(row), 0, BAKES);
        fputs("; bakes:", stdout);
        print_words(table + row_start(row), BAKES, ROW_WORDS);
        putchar('\n');
    }
}

void trial_print(const struct trial *trial, const struct engine *one, const struct engine *other)
{
    struct guarded_table ones = guarded(trial);
    struct guarded_table others = guarded(trial);
    puts("table before (words of each row, to the last that is not 0):");
    print_table(ones.table);
    printf("plan, with room for %zu bytes of replies (bytes of each action; reply by %s, by %s):\n", trial->room, one->name,
           other->name);
    for (size_t piece = 0; piece < trial_pieces(trial); piece++) {
        for (size_t index = 0; index < trial_piece_bytes(trial, piece); index++) {
            printf(" %3u", trial->actions[ACTION_BYTES * piece + index]);
        }
        struct told told = play_piece(one, trial, piece, ones.table);
        struct told others_told = play_piece(other, trial, piece, others.table);
        printf("   %llu (%016llx), %llu (%016llx)\n", (unsigned long long)told.number, (unsigned long long)told.reply,
               (unsigned long long)others_told.number, (unsigned long long)others_told.reply);
    }
    printf("table after the steps by %s:\n", one->name);
    print_table(ones.table);
    printf("table after the steps by %s:\n", other->name);
    print_table(others.table);
}
