/* Tables and plans drawn from a seed. Plans are guided by the table they are meant for: most of their actions are
 * taken, and of the others most miss by one thing only. */
#ifndef GENERATE_H
#define GENERATE_H

#include <stdbool.h>
#include <stddef.h>
#include <stdint.h>

#include "layout.h"

struct source {
    uint64_t state;
};

uint64_t draw(struct source *source);
uint32_t below(struct source *source, uint32_t bound);
uint32_t between(struct source *source, uint32_t least, uint32_t most);
bool chance(struct source *source, uint32_t percent);

/* How many percent of entries have a bake other than 0: for half of all plans and tables none. */
uint32_t draw_share_of_bakes(struct source *source);

/* With share 0 nothing is drawn, so that a plan without bakes is the same from its seed as before there were any. */
uint32_t draw_bake(struct source *source, uint32_t share);

/* How often a plan turns to each kind, one weight of at least 1 a kind; how many percent of its actions are well
 * formed but refused by the table; how many have a field altered; and how many of its writes have a bake. */
struct temper {
    uint32_t weight[LAST_KIND + 1];
    uint32_t missing;
    uint32_t spoiled;
    uint32_t baked;
};

struct temper draw_temper(struct source *source);

/* An action of any bytes, but of numbers and sets that lie near the right ones. */
void draw_blind_action(struct source *source, const struct temper *temper, uint32_t n, uint8_t *action);

/* An action for a table that is not broken. */
void draw_guided_action(struct source *source, const struct temper *temper, const uint8_t *table, uint8_t *action);

/* Fills `actions`, one after another, and plays them on `table`, which is not broken. */
void draw_guided_plan(struct source *source, const struct temper *temper, uint8_t *table, size_t count,
                      uint8_t *actions);

void draw_fresh_table(struct source *source, uint8_t *table);

/* Puts terms and versions so near their ceilings that a plan reaches them. */
void lift_counters(struct source *source, uint8_t *table);

/* A random table that is not broken, and mostly reached by no run. */
void draw_odd_table(struct source *source, uint8_t *table);

/* Alters one figure, to a near one or another server's; breaks the table now and then. */
void disturb_table(struct source *source, uint8_t *table);

/* Puts any word anywhere, or a bake where there is no entry; mostly breaks the table. */
void spoil_table(struct source *source, uint8_t *table);

/* An image of a table that is not broken: now and then with entries of 8 bytes although all bakes are 0. */
size_t draw_image(struct source *source, const uint8_t *table, uint8_t *image);

/* Alters bytes of a good image of image_len bytes, or cuts it and all that lies behind it. Of the `length` bytes there
 * were, so many are left as are answered. Now and then it still is a good image. */
size_t damage_image(struct source *source, uint8_t *image, size_t image_len, size_t length);

#endif
