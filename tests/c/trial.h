/* One table and one plan, given to two engines. */
#ifndef TRIAL_H
#define TRIAL_H

#include <stddef.h>
#include <stdint.h>

#include "engines.h"
#include "layout.h"

enum { MOST_PIECES = 1200, MOST_ROOM = REPLY_BYTES * (MOST_PIECES + 8), NUMBERS = 26 };

struct trial {
    uint8_t start[TABLE_BYTES];
    uint8_t actions[ACTION_BYTES * MOST_PIECES];
    size_t actions_len;
    /* The bytes for a run's replies. */
    size_t room;
};

struct outcome {
    uint8_t replies[REPLY_BYTES * MOST_PIECES];
    size_t pieces;
    /* As it stood when a run's room for replies was used up, or else at the end. */
    uint8_t table_of_run[TABLE_BYTES];
};

size_t trial_pieces(const struct trial *trial);
size_t trial_piece_bytes(const struct trial *trial, size_t piece);

/* Plays the trial step by step and as a run, by both engines. Answers what differs, or NULL. */
const char *trial_difference(const struct trial *trial, const struct engine *one, const struct engine *other,
                             struct outcome *outcome);

/* Drops actions for as long as the engines still differ. */
void trial_shrink(struct trial *trial, const struct engine *one, const struct engine *other);

void trial_print(const struct trial *trial, const struct engine *one, const struct engine *other);

#endif
