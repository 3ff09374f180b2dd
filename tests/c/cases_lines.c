/* Each pair of neighbours of document 01's "On both sides of the line", and its whole case of rehearse. */
#include <string.h>

#include "scene.h"

static void elect_by_majorities(const struct engine *engine)
{
    struct scene scene = fresh_scene(engine, 1, 1);
    struct scene after = scene;
    give_role(&after, 1, PRIMARY, 1);
    give_configuration(&after, 1, 1, 1, 1);
    taken(&scene, act(ELECT, 1, 0, 1), &after, "fresh {1}, elect 1 by {1}");

    scene = fresh_scene(engine, 4, 15);
    refused(&scene, act(ELECT, 1, 0, 3), 7, "fresh {1,2,3,4}, elect 1 by {1,2}");
    after = scene;
    give_role(&after, 1, PRIMARY, 1);
    give_configuration(&after, 1, 15, 1, 1);
    give_role(&after, 2, SECONDARY, 1);
    give_role(&after, 3, SECONDARY, 1);
    taken(&scene, act(ELECT, 1, 0, 7), &after, "fresh {1,2,3,4}, elect 1 by {1,2,3}");
}

static void configuration_term_before_version(const struct engine *engine)
{
    struct scene scene = fresh_scene(engine, 2, 3);
    give_role(&scene, 1, PRIMARY, 3);
    give_role(&scene, 2, SECONDARY, 3);
    give_configuration(&scene, 1, 3, 1, 2);
    give_configuration(&scene, 2, 3, 9, 1);
    refused(&scene, act(ELECT, 2, 0, 3), at_server(9, 1), "(2, 1) newer than (1, 9): elect of the older");
    struct scene after = scene;
    give_configuration(&after, 2, 3, 1, 2);
    taken(&scene, act(SEND, 1, 2, 0), &after, "(2, 1) newer than (1, 9): send of the newer");

    give_configuration(&scene, 1, 3, 9, 1);
    refused(&scene, act(SEND, 1, 2, 0), 17, "(1, 9) not newer than (2, 1): send of the older");
}

static void longer_logs_and_later_entries(const struct engine *engine)
{
    struct scene scene = fresh_scene(engine, 2, 3);
    give_role(&scene, 1, SECONDARY, 2);
    give_role(&scene, 2, SECONDARY, 2);
    GIVE_LOG(&scene, 1, 1, 1, 1);
    GIVE_LOG(&scene, 2, 2);
    refused(&scene, act(ELECT, 1, 0, 3), at_server(10, 2), "[2] ahead of [1,1,1]: elect of the one behind");
    struct scene after = scene;
    give_role(&after, 1, SECONDARY, 3);
    give_role(&after, 2, PRIMARY, 3);
    give_configuration(&after, 2, 3, 1, 3);
    taken(&scene, act(ELECT, 2, 0, 3), &after, "[2] ahead of [1,1,1]: elect of the one ahead");

    scene = fresh_scene(engine, 2, 3);
    GIVE_LOG(&scene, 1, 1);
    GIVE_LOG(&scene, 2, 1, 1);
    refused(&scene, act(ELECT, 1, 0, 3), at_server(10, 2), "[1,1] ahead of [1]: elect of the one behind");
    after = scene;
    give_role(&after, 1, SECONDARY, 1);
    give_role(&after, 2, PRIMARY, 1);
    give_configuration(&after, 2, 3, 1, 1);
    taken(&scene, act(ELECT, 2, 0, 3), &after, "[1,1] ahead of [1]: elect of the one ahead");
}

static void fetches(const struct engine *engine)
{
    struct scene scene = fresh_scene(engine, 2, 3);
    GIVE_LOG(&scene, 1, 1);
    GIVE_LOG(&scene, 2, 2, 2);
    refused(&scene, act(FETCH, 1, 2, 0), 20, "fetch to [1] from [2,2]");
    GIVE_LOG(&scene, 2, 1, 2);
    struct scene after = scene;
    GIVE_LOG(&after, 1, 1, 2);
    taken(&scene, act(FETCH, 1, 2, 0), &after, "fetch to [1] from [1,2]");
}

static void rolls_back(const struct engine *engine)
{
    struct scene scene = fresh_scene(engine, 2, 3);
    GIVE_LOG(&scene, 1, 1, 1);
    GIVE_LOG(&scene, 2, 2);
    struct scene after = scene;
    GIVE_LOG(&after, 1, 1);
    taken(&scene, act(ROLL_BACK, 1, 2, 0), &after, "roll back [1,1] against [2], first");
    give_log(&after, 1, 0, NULL);
    taken(&scene, act(ROLL_BACK, 1, 2, 0), &after, "roll back [1,1] against [2], second");
    refused(&scene, act(ROLL_BACK, 1, 2, 0), 21, "roll back an empty log");

    GIVE_LOG(&scene, 1, 1);
    GIVE_LOG(&scene, 2, 1, 2);
    refused(&scene, act(ROLL_BACK, 1, 2, 0), 21, "roll back [1] against [1,2]");
}

static void actions_on_oneself(const struct engine *engine)
{
    struct scene scene = fresh_scene(engine, 2, 3);
    give_role(&scene, 1, PRIMARY, 1);
    GIVE_LOG(&scene, 2, 1);
    refused(&scene, act(SEND, 1, 1, 0), 6, "send 1 to 1 at a primary");
    refused(&scene, act(SEND, 2, 2, 0), 17, "send 2 to 2 at a secondary");
    refused(&scene, act(SPREAD, 1, 1, 0), 18, "spread 1 to 1");
    refused(&scene, act(FETCH, 2, 2, 0), 20, "fetch to 2 from 2");
    refused(&scene, act(ROLL_BACK, 2, 2, 0), 21, "roll back 2 against 2");
    refused(&scene, act(COMMIT, 2, 0, 1), 6, "commit by a secondary with no majority");
}

static void ceilings(const struct engine *engine)
{
    struct scene scene = fresh_scene(engine, 1, 1);
    give_role(&scene, 1, SECONDARY, 999999999);
    struct scene after = scene;
    give_role(&after, 1, PRIMARY, 1000000000);
    give_configuration(&after, 1, 1, 1, 1000000000);
    taken(&scene, act(ELECT, 1, 0, 1), &after, "elect at term 999,999,999");
    refused(&scene, act(ELECT, 1, 0, 1), 11, "elect at term 1,000,000,000");

    for (uint32_t entries = 1; entries <= 64; entries++) {
        after = scene;
        put_word(after.table + row_start(1), LOG_LENGTH, entries);
        put_word(after.table + row_start(1), ENTRIES + entries - 1, 1000000000);
        taken(&scene, act(WRITE, 1, 0, 0), &after, "one of 64 writes");
    }
    refused(&scene, act(WRITE, 1, 0, 0), 19, "65th write");
}

static void sets_without_the_primary(const struct engine *engine)
{
    struct scene scene = fresh_scene(engine, 2, 1);
    give_role(&scene, 1, PRIMARY, 1);
    give_configuration(&scene, 1, 1, 1, 1);
    GIVE_LOG(&scene, 1, 1);
    give_mark(&scene, 1, 1);
    refused(&scene, act(RECONFIGURE, 1, 0, 0), 5, "set {1} to empty");
    give_configuration(&scene, 1, 3, 1, 1);
    give_configuration(&scene, 2, 3, 1, 1);
    give_role(&scene, 2, SECONDARY, 1);
    GIVE_LOG(&scene, 2, 1);
    refused(&scene, act(RECONFIGURE, 1, 0, 2), 12, "{1,2} to {2} by 1");
    struct scene after = scene;
    give_configuration(&after, 1, 1, 2, 1);
    taken(&scene, act(RECONFIGURE, 1, 0, 1), &after, "{1,2} to {1} by 1");
}

static void whole_case(const struct engine *engine)
{
    const struct bytes8 plan[] = {
        act(ELECT, 1, 0, 3), act(WRITE, 1, 0, 0),        act(FETCH, 2, 1, 0),
        act(RECONFIGURE, 1, 0, 15), act(SEND, 1, 2, 0),  act(RECONFIGURE, 1, 0, 15),
        act(COMMIT, 1, 0, 3), act(RECONFIGURE, 1, 0, 15), act(ELECT, 3, 0, 6),
    };
    const uint64_t expected[] = {0, 0, 0, 14, 0, 16, 0, 0, at_server(8, 2)};
    const size_t count = sizeof expected / sizeof *expected;
    uint8_t replies[sizeof expected];
    struct scene scene = fresh_scene(engine, 4, 7);
    struct scene stepped = scene;
    uint64_t played = engine->run(scene.table, TABLE_BYTES, plan[0].byte, sizeof plan, replies, sizeof replies);
    check(played == count, "rehearse's case: run plays 9 actions");
    check(memcmp(replies, expected, sizeof expected) == 0, "rehearse's case: replies of run");

    for (size_t index = 0; index < count; index++) {
        uint64_t reply = UINT64_MAX;
        uint32_t number = engine->step(stepped.table, TABLE_BYTES, plan[index].byte, ACTION_BYTES, &reply);
        check(number == number_of(reply) && reply == expected[index], "rehearse's case: action %zu replied %u", index + 1, number);
    }
    struct scene after = fresh_scene(engine, 4, 7);
    give_role(&after, 1, PRIMARY, 1);
    give_role(&after, 2, SECONDARY, 1);
    give_configuration(&after, 1, 15, 2, 1);
    give_configuration(&after, 2, 7, 1, 1);
    GIVE_LOG(&after, 1, 1);
    GIVE_LOG(&after, 2, 1);
    give_mark(&after, 1, 1);
    check(memcmp(scene.table, after.table, TABLE_BYTES) == 0, "rehearse's case: rows and marks after run");
    check(memcmp(stepped.table, after.table, TABLE_BYTES) == 0, "rehearse's case: rows and marks after steps");
}

void check_lines(const struct engine *engine)
{
    elect_by_majorities(engine);
    configuration_term_before_version(engine);
    longer_logs_and_later_entries(engine);
    fetches(engine);
    rolls_back(engine);
    actions_on_oneself(engine);
    ceilings(engine);
    sets_without_the_primary(engine);
    whole_case(engine);
}
