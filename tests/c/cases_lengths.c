/* Slices of every length but the right one, and what fresh makes of its numbers. */
#include <stdlib.h>
#include <string.h>

#include "scene.h"

enum { CANARY = 0xa5, MOST_ROOM = 5 * REPLY_BYTES };

/* Of exactly the length asked for, so that a sanitizer sees a touch beyond it; the table's bytes come first. */
static uint8_t *lend(size_t length, const struct scene *scene)
{
    uint8_t *lent = malloc(length == 0 ? 1 : length);
    if (lent == NULL) {
        abort();
    }
    memset(lent, CANARY, length);
    memcpy(lent, scene->table, length < TABLE_BYTES ? length : TABLE_BYTES);
    return lent;
}

static void table_of_length(const struct engine *engine, size_t length)
{
    struct scene scene = ready_scene(engine);
    uint8_t *lent = lend(length, &scene);
    uint8_t *before = lend(length, &scene);
    struct bytes8 action = ready_action(WRITE);
    uint64_t reply = UINT64_MAX;
    check(engine->step(lent, length, action.byte, ACTION_BYTES, &reply) == 1, "step on a table of %zu bytes", length);
    check(reply == 1, "step's reply on a table of %zu bytes", length);
    check(engine->step(lent, length, action.byte, 3, &reply) == 1, "step of 3 bytes on a table of %zu bytes", length);
    uint8_t replies[REPLY_BYTES];
    memset(replies, CANARY, sizeof replies);
    uint64_t played = engine->run(lent, length, action.byte, ACTION_BYTES, replies, sizeof replies);
    check(played == 1 && reply_at(replies, 0) == 1, "run on a table of %zu bytes", length);
    check(engine->fresh(lent, length, 3, 7, RULE_2, 2) == 1, "fresh in %zu bytes", length);
    check(engine->fresh(lent, length, 0, 0, 2, 17) == 1, "fresh of nothing in %zu bytes", length);
    check(memcmp(lent, before, length) == 0, "a table of %zu bytes stays", length);
    free(lent);
    free(before);
}

static void tables_of_other_lengths(const struct engine *engine)
{
    const size_t lengths[] = {0, 1, 4, 536, 4760, 8576, 9108, 9111, 9113, 9116, 9648, 18224};
    for (size_t which = 0; which < sizeof lengths / sizeof *lengths; which++) {
        table_of_length(engine, lengths[which]);
    }
    struct bytes8 action = ready_action(WRITE);
    uint64_t reply;
    check(engine->step(NULL, 0, action.byte, ACTION_BYTES, &reply) == 1, "step on no table");
    check(engine->fresh(NULL, 0, 3, 7, RULE_1, 0) == 1, "fresh in no table");
    check(engine->table_bytes() == 9112, "a table has 9112 bytes");
}

static void actions_of_other_lengths(const struct engine *engine)
{
    uint8_t action[3 * ACTION_BYTES] = {WRITE, 1};
    struct scene before = ready_scene(engine);
    for (size_t length = 0; length <= sizeof action; length++) {
        struct scene scene = before;
        uint8_t *lent = malloc(length == 0 ? 1 : length);
        if (lent == NULL) {
            abort();
        }
        memcpy(lent, action, length);
        uint64_t reply = UINT64_MAX;
        uint32_t number = engine->step(scene.table, TABLE_BYTES, lent, length, &reply);
        bool stays = memcmp(scene.table, before.table, TABLE_BYTES) == 0;
        bool is_action = length == ACTION_BYTES;
        check(number == (is_action ? 0 : 2), "step with an action of %zu bytes replied %u", length, number);
        check(reply == number, "step with an action of %zu bytes told another reply", length);
        check(stays != is_action, "step with an action of %zu bytes and the table", length);
        free(lent);
    }
    uint64_t reply;
    check(engine->step(before.table, TABLE_BYTES, NULL, 0, &reply) == 2, "step with no action");
}

/* All but the last few bytes of three writes, into `room` bytes for replies. */
static void run_of_lengths(const struct engine *engine, size_t actions_len, size_t room)
{
    const uint8_t actions[3 * ACTION_BYTES] = {WRITE, 1, 0, 0, 0, 0, 0, 0, WRITE, 1, 0, 0, 0, 0, 0, 0, WRITE, 1};
    size_t pieces = (actions_len + 7) / ACTION_BYTES;
    size_t played = pieces < room / REPLY_BYTES ? pieces : room / REPLY_BYTES;
    struct scene scene = ready_scene(engine);
    struct scene after = scene;
    uint8_t replies[MOST_ROOM];
    uint8_t expected[MOST_ROOM];
    memset(replies, CANARY, sizeof replies);
    memset(expected, CANARY, sizeof expected);
    for (size_t piece = 0; piece < played; piece++) {
        bool is_action = piece < actions_len / ACTION_BYTES;
        put_reply(expected, piece, is_action ? 0 : 2);
        if (is_action) {
            put_word(after.table + row_start(1), LOG_LENGTH, (uint32_t)piece + 3);
            put_word(after.table + row_start(1), ENTRIES + piece + 2, 2);
        }
    }
    uint64_t answer = engine->run(scene.table, TABLE_BYTES, actions, actions_len, replies, room);
    check(answer == played, "run of %zu bytes into %zu bytes: answer", actions_len, room);
    check(memcmp(replies, expected, sizeof replies) == 0, "run of %zu bytes into %zu bytes: replies", actions_len,
          room);
    check(memcmp(scene.table, after.table, TABLE_BYTES) == 0, "run of %zu bytes into %zu bytes: table",
          actions_len, room);
}

static void runs_of_other_lengths(const struct engine *engine)
{
    for (size_t actions_len = 0; actions_len <= 3 * ACTION_BYTES; actions_len++) {
        for (size_t room = 0; room <= MOST_ROOM; room++) {
            run_of_lengths(engine, actions_len, room);
        }
    }
    struct scene scene = ready_scene(engine);
    check(engine->run(scene.table, TABLE_BYTES, NULL, 0, NULL, 0) == 0, "run of no actions into no room");
    check(engine->run(NULL, 0, NULL, 0, NULL, 0) == 0, "run of no actions on no table");
}

static void runs_on_broken_tables(const struct engine *engine)
{
    const uint8_t actions[3 * ACTION_BYTES] = {WRITE, 1, 0, 0, 0, 0, 0, 0, 77};
    uint8_t expected[4 * REPLY_BYTES];
    uint8_t replies[4 * REPLY_BYTES];
    memset(expected, CANARY, sizeof expected);
    memset(replies, CANARY, sizeof replies);
    struct scene scene = ready_scene(engine);
    put_word(scene.table, SPARE, 1);
    struct scene before = scene;
    put_reply(expected, 0, 1);
    put_reply(expected, 1, 1);
    uint64_t played = engine->run(scene.table, TABLE_BYTES, actions, 19, replies, 3 * REPLY_BYTES - 1);
    check(played == 2 && memcmp(replies, expected, sizeof replies) == 0, "run of 19 bytes on a broken table, room for 2");
    put_reply(expected, 2, 1);
    played = engine->run(scene.table, TABLE_BYTES, actions, 19, replies, sizeof replies);
    check(played == 3 && memcmp(replies, expected, sizeof replies) == 0, "run of 19 bytes on a broken table, room for 4");
    check(memcmp(scene.table, before.table, TABLE_BYTES) == 0, "run on a broken table leaves it");
}

static void fresh_under(const struct engine *engine, uint32_t rule, uint32_t floor, uint32_t n, uint32_t set,
                        uint32_t number)
{
    struct scene scene = {engine, {0}};
    memset(scene.table, CANARY, TABLE_BYTES);
    struct scene after = scene;
    if (number == 0) {
        after = fresh_scene(engine, n, set);
        give_rule(&after, rule);
        give_floor(&after, floor);
    }
    uint32_t reply = engine->fresh(scene.table, TABLE_BYTES, n, set, rule, floor);
    bool as_meant = memcmp(scene.table, after.table, TABLE_BYTES) == 0;
    check(reply == number, "fresh of %u servers with set %u, rule %u, floor %u, replied %u", n, set, rule, floor, reply);
    check(as_meant, "fresh of %u servers with set %u, rule %u, floor %u: table", n, set, rule, floor);
}

/* Under each rule and with each floor; with a number that is neither 1 comes first. */
static void fresh_replies(const struct engine *engine, uint32_t n, uint32_t set, uint32_t number)
{
    for (uint32_t floor = 0; floor <= MOST_SERVERS; floor++) {
        fresh_under(engine, RULE_1, floor, n, set, number);
        fresh_under(engine, RULE_2, floor, n, set, number);
    }
    const uint32_t no_rules[] = {2, 3, 256, 257, 65536, UINT32_MAX};
    for (size_t which = 0; which < sizeof no_rules / sizeof *no_rules; which++) {
        fresh_under(engine, no_rules[which], 0, n, set, 1);
    }
    const uint32_t no_floors[] = {17, 18, 32, 256, 257, 65536, UINT32_MAX};
    for (size_t which = 0; which < sizeof no_floors / sizeof *no_floors; which++) {
        fresh_under(engine, RULE_2, no_floors[which], n, set, 1);
    }
}

static void fresh_tables(const struct engine *engine)
{
    for (uint32_t n = 1; n <= MOST_SERVERS; n++) {
        fresh_replies(engine, n, 1, 0);
        fresh_replies(engine, n, all_servers(n), 0);
        fresh_replies(engine, n, only(n), 0);
        fresh_replies(engine, n, 0, 5);
        fresh_replies(engine, n, only(n + 1), 5);
        fresh_replies(engine, n, UINT32_C(1) << 31 | 1, 5);
    }
    const uint32_t bad_numbers[] = {0, 17, 32, 33, 256, 257, 65537, UINT32_MAX};
    for (size_t which = 0; which < sizeof bad_numbers / sizeof *bad_numbers; which++) {
        fresh_replies(engine, bad_numbers[which], 1, 32);
        fresh_replies(engine, bad_numbers[which], 0, 32);
    }
}

void check_lengths(const struct engine *engine)
{
    tables_of_other_lengths(engine);
    actions_of_other_lengths(engine);
    runs_of_other_lengths(engine);
    runs_on_broken_tables(engine);
    fresh_tables(engine);
}
