/* inputs DIRECTORY SEED COUNT: writes COUNT inputs of the program rehearse, 000000.bin and on, and tells what they
 * make it print. Each is drawn until it shows one chosen feature; the features take turns. From 200 inputs on, one that
 * none shows is a failure. */
#include <stdio.h>
#include <stdlib.h>
#include <string.h>

#include "generate.h"
#include "image.h"
#include "plain.h"
#include "plain_image.h"
#include "plain_rules.h"

/* A feature below CUT is a number, of a reply or of a bad site; none is both. */
enum { CUT = 35, TOO_LONG, FULL, NO_ACTION_AT_ALL, COPIED, BAKE_READ, BAKE_WRITTEN, NEEDLESSLY_WIDE, FEATURES };

/* Past twice the longest input, so that a length kept in 16 or 17 bits shows. The rarest feature takes some hundred
 * tries. */
enum { MOST_DRAWN_BYTES = 140000, MOST_TRIES = 20000, COUNT_FOR_ALL = 200 };

struct input {
    uint8_t bytes[MOST_DRAWN_BYTES];
    size_t length;
};

static bool names_bad_site(uint32_t feature)
{
    return feature >= SHORT_IMAGE && feature <= BAD_FIELD;
}

static bool is_feature(uint32_t feature)
{
    return (feature >= NO_ACTION && feature <= BELOW_FLOOR) || (feature >= SHORT_IMAGE && feature < FEATURES);
}

static const char *name_of(uint32_t feature)
{
    const char *const names[FEATURES] = {
        [TAKEN] = "taken",       [CUT] = "cut",
        [TOO_LONG] = "too long", [FULL] = "exactly 65,536 bytes",
        [NO_ACTION_AT_ALL] = "no action", [COPIED] = "taken with a count",
        [BAKE_READ] = "image with bakes", [BAKE_WRITTEN] = "bake written",
        [NEEDLESSLY_WIDE] = "image with wide entries and no bake",
    };
    return names[feature] != NULL ? names[feature] : names_bad_site(feature) ? "bad site" : "refused";
}

static bool is_needlessly_wide(const uint8_t *table, uint64_t image_len)
{
    uint8_t written[MOST_IMAGE_BYTES];
    return image_of(table, written) < image_len;
}

static void count_features(const struct input *input, uint64_t *times)
{
    uint8_t table[TABLE_BYTES];
    static uint8_t replies[REPLY_BYTES * (MOST_INPUT_BYTES / ACTION_BYTES)];
    uint64_t end;
    if (input->length > MOST_INPUT_BYTES) {
        times[TOO_LONG]++;
        return;
    }
    uint32_t site = plain_read(input->bytes, input->length, table, TABLE_BYTES, &end);
    if (site != TAKEN) {
        times[site]++;
        return;
    }
    times[BAKE_READ] += has_bakes(table);
    times[NEEDLESSLY_WIDE] += is_needlessly_wide(table, end);
    size_t actions_len = input->length - end;
    size_t count = actions_len / ACTION_BYTES;
    plain_run(table, TABLE_BYTES, input->bytes + end, actions_len, replies, REPLY_BYTES * count);
    for (size_t piece = 0; piece < count; piece++) {
        const uint8_t *action = input->bytes + end + ACTION_BYTES * piece;
        uint64_t reply = reply_at(replies, piece);
        times[number_of(reply)]++;
        times[COPIED] += copied_in(reply) != 0;
        times[BAKE_WRITTEN] += reply == TAKEN && action[0] == WRITE && word(action, 1) != 0;
    }
    times[CUT] += actions_len % ACTION_BYTES != 0;
    times[FULL] += input->length == MOST_INPUT_BYTES;
    times[NO_ACTION_AT_ALL] += actions_len == 0;
}

/* A run from a fresh table leads there, or led there until a figure was disturbed. */
static void draw_reached_table(struct source *source, uint8_t *table)
{
    uint8_t walked[ACTION_BYTES * 200];
    struct temper temper = draw_temper(source);
    draw_fresh_table(source, table);
    if (chance(source, 20)) {
        lift_counters(source, table);
    }
    draw_guided_plan(source, &temper, table, below(source, 200), walked);
    uint8_t disturbed[TABLE_BYTES];
    memcpy(disturbed, table, TABLE_BYTES);
    disturb_table(source, disturbed);
    if (chance(source, 50) && plain_is_whole(disturbed, TABLE_BYTES)) {
        memcpy(table, disturbed, TABLE_BYTES);
    }
}

static void draw_table(struct source *source, uint8_t *table)
{
    uint32_t sort = below(source, 100);
    if (sort < 30) {
        draw_fresh_table(source, table);
    } else if (sort < 65) {
        draw_odd_table(source, table);
    } else {
        draw_reached_table(source, table);
    }
}

static size_t draw_length(struct source *source, uint32_t feature, size_t image_len)
{
    size_t whole_actions = image_len + ACTION_BYTES * (size_t)between(source, 1, chance(source, 3) ? 4000 : 60);
    switch (feature) {
    case FULL:
        return MOST_INPUT_BYTES;
    case TOO_LONG:
        return chance(source, 50) ? MOST_INPUT_BYTES + 1 : between(source, MOST_INPUT_BYTES + 1, MOST_DRAWN_BYTES);
    case NO_ACTION_AT_ALL:
        return image_len;
    case CUT:
        return whole_actions - between(source, 1, ACTION_BYTES - 1);
    default:
        return whole_actions;
    }
}

static void draw_input(struct source *source, uint32_t feature, struct input *input)
{
    /* A cut action is drawn whole and then lacks its end, so there has to be room for it. */
    static uint8_t plan[MOST_DRAWN_BYTES + ACTION_BYTES];
    uint8_t table[TABLE_BYTES];
    struct temper temper = draw_temper(source);
    draw_table(source, table);
    size_t image_len = draw_image(source, table, input->bytes);
    input->length = draw_length(source, feature, image_len);
    size_t plan_len = input->length - image_len;
    draw_guided_plan(source, &temper, table, (plan_len + ACTION_BYTES - 1) / ACTION_BYTES, plan);
    memcpy(input->bytes + image_len, plan, plan_len);
    if (names_bad_site(feature) || (feature == TOO_LONG && chance(source, 30))) {
        input->length = damage_image(source, input->bytes, image_len, input->length);
    }
}

static void draw_input_with(struct source *source, uint32_t feature, struct input *input, uint64_t *times)
{
    uint64_t own[FEATURES] = {0};
    for (uint32_t tries = MOST_TRIES; own[feature] == 0 && tries > 0; tries--) {
        memset(own, 0, sizeof own);
        draw_input(source, feature, input);
        count_features(input, own);
    }
    for (uint32_t each = 0; each < FEATURES; each++) {
        times[each] += own[each];
    }
}

static bool write_input(const char *directory, unsigned long number, const struct input *input)
{
    char path[4096];
    if (snprintf(path, sizeof path, "%s/%06lu.bin", directory, number) >= (int)sizeof path) {
        return false;
    }
    FILE *file = fopen(path, "wb");
    if (file == NULL) {
        return false;
    }
    bool written = fwrite(input->bytes, 1, input->length, file) == input->length;
    return fclose(file) == 0 && written;
}

static bool report(unsigned long count, const uint64_t *times)
{
    bool all_shown = true;
    printf("%lu inputs; how often each thing is in them:\n", count);
    for (uint32_t feature = 0; feature < FEATURES; feature++) {
        if (feature != TAKEN && !is_feature(feature)) {
            continue;
        }
        printf("  %s", name_of(feature));
        if (feature != TAKEN && feature < CUT) {
            printf(" %u", feature);
        }
        printf(": %llu\n", (unsigned long long)times[feature]);
        all_shown = all_shown && times[feature] > 0;
    }
    if (!all_shown && count >= COUNT_FOR_ALL) {
        puts("FAILED: something of this is in no input");
        return false;
    }
    return true;
}

int main(int count, char **arguments)
{
    static struct input input;
    if (count != 4) {
        fputs("usage: inputs DIRECTORY SEED COUNT\n", stderr);
        return EXIT_FAILURE;
    }
    struct source source = {strtoull(arguments[2], NULL, 10)};
    unsigned long wanted = strtoul(arguments[3], NULL, 10);
    uint64_t times[FEATURES] = {0};
    uint32_t feature = TAKEN;
    for (unsigned long number = 0; number < wanted; number++) {
        do {
            feature = (feature + 1) % FEATURES;
        } while (!is_feature(feature));
        draw_input_with(&source, feature, &input, times);
        if (!write_input(arguments[1], number, &input)) {
            fprintf(stderr, "inputs: cannot write into %s\n", arguments[1]);
            return EXIT_FAILURE;
        }
    }
    return report(wanted, times) ? EXIT_SUCCESS : EXIT_FAILURE;
}
