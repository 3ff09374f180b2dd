/* Each way a table can be broken, with the last value that still is not. */
#include <stdio.h>
#include <string.h>

#include "scene.h"

/* An action that is taken, one that is refused by any table, and a piece too short. */
static void broken(struct scene *scene, const char *name)
{
    struct scene before = *scene;
    refused(scene, ready_action(SPREAD), 1, name);
    refused(scene, act(0, 0, 0, 0), 1, name);
    uint64_t reply = UINT64_MAX;
    uint32_t number = scene->engine->step(scene->table, TABLE_BYTES, NULL, 0, &reply);
    check(number == 1 && reply == 1, "%s: an action of no bytes replied %u", name, number);

    uint8_t actions[ACTION_BYTES + 3] = {SPREAD, 1, 4};
    uint8_t replies[4 * REPLY_BYTES];
    uint8_t expected[4 * REPLY_BYTES];
    memset(replies, 9, sizeof replies);
    memset(expected, 9, sizeof expected);
    put_reply(expected, 0, 1);
    put_reply(expected, 1, 1);
    uint64_t played = scene->engine->run(scene->table, TABLE_BYTES, actions, sizeof actions, replies, sizeof replies);
    check(played == 2 && memcmp(replies, expected, sizeof replies) == 0, "%s: run's replies", name);
    check(memcmp(scene->table, before.table, TABLE_BYTES) == 0, "%s: table altered", name);
    *scene = before;
}

static void broken_word(const struct engine *engine, uint32_t row, size_t column, uint32_t value)
{
    char name[80];
    snprintf(name, sizeof name, "broken table: %u in word %zu of row %u", value, column, row);
    struct scene scene = ready_scene(engine);
    put_word(scene.table + row_start(row), column, value);
    broken(&scene, name);
}

static void sound_word(const struct engine *engine, uint32_t row, size_t column, uint32_t value)
{
    char name[80];
    snprintf(name, sizeof name, "sound table: %u in word %zu of row %u", value, column, row);
    struct scene scene = ready_scene(engine);
    put_word(scene.table + row_start(row), column, value);
    refused(&scene, act(SPREAD, 4, 4, 0), 18, name);
}

/* A value whose low byte alone looks right would pass where the others are not read. */
static void every_byte_of(const struct engine *engine, uint32_t row, size_t column, uint32_t right)
{
    for (uint32_t high = 1 << 8; high != 0; high <<= 8) {
        broken_word(engine, row, column, right | high);
    }
}

static void break_row_0(const struct engine *engine)
{
    broken_word(engine, 0, SERVERS, 0);
    broken_word(engine, 0, SERVERS, 17);
    broken_word(engine, 0, SERVERS, UINT32_MAX);
    every_byte_of(engine, 0, SERVERS, 4);
    sound_word(engine, 0, RULE, RULE_2);
    broken_word(engine, 0, RULE, 2);
    broken_word(engine, 0, RULE, UINT32_MAX);
    every_byte_of(engine, 0, RULE, RULE_1);
    every_byte_of(engine, 0, RULE, RULE_2);
    sound_word(engine, 0, FLOOR, 1);
    sound_word(engine, 0, FLOOR, 5);
    sound_word(engine, 0, FLOOR, MOST_SERVERS);
    broken_word(engine, 0, FLOOR, MOST_SERVERS + 1);
    broken_word(engine, 0, FLOOR, UINT32_MAX);
    every_byte_of(engine, 0, FLOOR, 0);
    every_byte_of(engine, 0, FLOOR, MOST_SERVERS);
    for (size_t column = SPARE; column < MARKS; column++) {
        broken_word(engine, 0, column, 1);
        every_byte_of(engine, 0, column, 0);
    }
    for (size_t column = MARKS; column < MARKS_END; column++) {
        sound_word(engine, 0, column, CEILING);
        broken_word(engine, 0, column, (uint32_t)CEILING + 1);
        broken_word(engine, 0, column, UINT32_MAX);
    }
    for (size_t column = MARKS_END; column < ROW_WORDS; column++) {
        broken_word(engine, 0, column, 1);
        every_byte_of(engine, 0, column, 0);
    }
}

static void break_servers(const struct engine *engine)
{
    for (uint32_t server = 1; server <= 4; server++) {
        broken_word(engine, server, ROLE, 2);
        every_byte_of(engine, server, ROLE, 0);
        every_byte_of(engine, server, ROLE, 1);
        broken_word(engine, server, SET, 0);
        broken_word(engine, server, SET, 16);
        broken_word(engine, server, SET, 0x8007);
        every_byte_of(engine, server, SET, 7);
        broken_word(engine, server, VERSION, 0);
        sound_word(engine, server, VERSION, 1);
        sound_word(engine, server, SET, 8);
        sound_word(engine, server, SET, 15);
        sound_word(engine, server, CONFIG_TERM, 0);
        const size_t counters[] = {TERM, VERSION, CONFIG_TERM};
        for (size_t which = 0; which < sizeof counters / sizeof *counters; which++) {
            sound_word(engine, server, counters[which], CEILING);
            broken_word(engine, server, counters[which], (uint32_t)CEILING + 1);
            broken_word(engine, server, counters[which], UINT32_MAX);
        }
    }
    broken_word(engine, 1, TERM, 0);
    sound_word(engine, 1, TERM, 1);
    sound_word(engine, 2, TERM, 0);
}

static void break_logs(const struct engine *engine)
{
    struct scene ready = ready_scene(engine);
    for (uint32_t server = 1; server <= 4; server++) {
        uint32_t length = word(ready.table + row_start(server), LOG_LENGTH);
        broken_word(engine, server, LOG_LENGTH, length + 1);
        broken_word(engine, server, LOG_LENGTH, length - 1);
        broken_word(engine, server, LOG_LENGTH, 64);
        broken_word(engine, server, LOG_LENGTH, 65);
        broken_word(engine, server, LOG_LENGTH, UINT32_MAX);
        every_byte_of(engine, server, LOG_LENGTH, length);
        for (size_t index = 0; index < length; index++) {
            broken_word(engine, server, ENTRIES + index, 0);
            sound_word(engine, server, ENTRIES + index, CEILING);
            broken_word(engine, server, ENTRIES + index, (uint32_t)CEILING + 1);
        }
        for (size_t index = length; index < MOST_ENTRIES; index++) {
            broken_word(engine, server, ENTRIES + index, 1);
        }
    }
}

/* A bake may be any number, but only where there is an entry. */
static void break_bakes(const struct engine *engine)
{
    const uint32_t bakes[] = {0, 1, CEILING, (uint32_t)CEILING + 1, UINT32_C(1) << 31, UINT32_MAX};
    struct scene ready = ready_scene(engine);
    for (uint32_t server = 1; server <= 4; server++) {
        uint32_t length = word(ready.table + row_start(server), LOG_LENGTH);
        for (size_t index = 0; index < length; index++) {
            for (size_t which = 0; which < sizeof bakes / sizeof *bakes; which++) {
                sound_word(engine, server, BAKES + index, bakes[which]);
            }
        }
        for (size_t index = length; index < MOST_ENTRIES; index++) {
            broken_word(engine, server, BAKES + index, 1);
            every_byte_of(engine, server, BAKES + index, 0);
        }
    }
}

/* A full log leaves no 0 behind it: one entry more would have the first bake for its term. */
static void break_full_logs(const struct engine *engine)
{
    struct scene scene = ready_scene(engine);
    uint8_t *row = scene.table + row_start(4);
    for (size_t index = 0; index < MOST_ENTRIES; index++) {
        put_word(row, ENTRIES + index, 1);
        put_word(row, BAKES + index, 1);
    }
    put_word(row, LOG_LENGTH, 64);
    refused(&scene, act(SPREAD, 4, 4, 0), 18, "sound table: a log of 64 entries");
    put_word(row, LOG_LENGTH, 65);
    broken(&scene, "broken table: a log of 65 entries");
    put_word(row, LOG_LENGTH, 63);
    broken(&scene, "broken table: a log of 63 entries and one behind");
    put_word(row, ENTRIES + MOST_ENTRIES - 1, 0);
    broken(&scene, "broken table: a log of 63 entries and a bake behind");
    put_word(row, BAKES + MOST_ENTRIES - 1, 0);
    refused(&scene, act(SPREAD, 4, 4, 0), 18, "sound table: a log of 63 entries");
}

static void break_rows_beyond_n(const struct engine *engine)
{
    for (uint32_t row = 5; row <= MOST_SERVERS; row++) {
        for (size_t column = 0; column < ROW_WORDS; column++) {
            broken_word(engine, row, column, 1);
        }
        broken_word(engine, row, ROW_WORDS - 1, UINT32_C(1) << 31);
    }
    struct scene scene = ready_scene(engine);
    put_word(scene.table, SERVERS, 5);
    broken(&scene, "broken table: a fifth server of zeros");
    scene = ready_scene(engine);
    put_word(scene.table, SERVERS, 3);
    broken(&scene, "broken table: a fourth row beyond 3 servers");
}

void check_broken(const struct engine *engine)
{
    break_row_0(engine);
    break_servers(engine);
    break_logs(engine);
    break_bakes(engine);
    break_full_logs(engine);
    break_rows_beyond_n(engine);
}
