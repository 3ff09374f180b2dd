/* One case against each mistake that document 01 lists as reading well, and tables that are odd but not broken. */
#include "scene.h"

static void majority_over_the_set_only(const struct engine *engine)
{
    struct scene scene = fresh_scene(engine, 16, 7);
    struct scene after = scene;
    give_role(&after, 1, PRIMARY, 1);
    give_role(&after, 3, SECONDARY, 1);
    give_configuration(&after, 1, 7, 1, 1);
    taken(&scene, act(ELECT, 1, 0, 5), &after, "2 of a set of 3 elect among 16 servers");
    refused(&scene, act(ELECT, 2, 0, 0xfffe), 7, "15 of 16 servers elect where the set has 3");
}

static void voters_keep_configurations(const struct engine *engine)
{
    struct scene scene = fresh_scene(engine, 3, 7);
    give_configuration(&scene, 1, 3, 4, 2);
    give_role(&scene, 1, SECONDARY, 2);
    struct scene after = scene;
    give_role(&after, 1, PRIMARY, 3);
    give_role(&after, 2, SECONDARY, 3);
    give_configuration(&after, 1, 3, 4, 3);
    taken(&scene, act(ELECT, 1, 0, 3), &after, "an elected server's voters keep theirs");
}

/* A configuration term above the winner's new term is lowered to it. */
static void elected_configuration_term(const struct engine *engine)
{
    struct scene scene = fresh_scene(engine, 1, 1);
    give_configuration(&scene, 1, 1, 5, 900);
    struct scene after = scene;
    give_role(&after, 1, PRIMARY, 1);
    give_configuration(&after, 1, 1, 5, 1);
    taken(&scene, act(ELECT, 1, 0, 1), &after, "elect below its configuration term");
}

static void earlier_entries_are_not_committed(const struct engine *engine)
{
    struct scene scene = fresh_scene(engine, 3, 7);
    for (uint32_t server = 1; server <= 3; server++) {
        give_role(&scene, server, SECONDARY, 2);
        GIVE_LOG(&scene, server, 1);
    }
    give_role(&scene, 1, PRIMARY, 2);
    refused(&scene, act(COMMIT, 1, 0, 7), 22, "commit of an earlier term's entry that all hold");
}

static struct scene two_marks(const struct engine *engine)
{
    struct scene scene = fresh_scene(engine, 4, 7);
    for (uint32_t server = 1; server <= 3; server++) {
        give_role(&scene, server, SECONDARY, 2);
        give_configuration(&scene, server, 7, 3, 2);
    }
    give_role(&scene, 1, PRIMARY, 2);
    GIVE_LOG(&scene, 1, 2, 2, 2);
    give_mark(&scene, 1, 2);
    give_mark(&scene, 3, 2);
    return scene;
}

static void p1_asks_every_mark(const struct engine *engine)
{
    struct bytes8 action = act(RECONFIGURE, 1, 0, 15);
    struct scene scene = two_marks(engine);
    GIVE_LOG(&scene, 2, 1, 2, 2);
    GIVE_LOG(&scene, 3, 1, 2, 2);
    refused(&scene, action, 16, "P1 with the newest mark alone held");
    GIVE_LOG(&scene, 2, 2);
    refused(&scene, action, 16, "P1 with each mark held by a majority, both by none");
    GIVE_LOG(&scene, 2, 2, 1, 2, 1);
    struct scene after = scene;
    give_configuration(&after, 1, 15, 4, 2);
    taken(&scene, action, &after, "P1 with entries between and behind that differ");
}

/* Q1 by {1,2}, Q2 by {1,2,3} and P1 by {2,3}. */
static void p1_asks_its_own_majority(const struct engine *engine)
{
    struct scene scene = two_marks(engine);
    give_log(&scene, 1, 0, NULL);
    GIVE_LOG(&scene, 2, 2, 2, 2);
    GIVE_LOG(&scene, 3, 2, 2, 2);
    give_configuration(&scene, 3, 7, 2, 2);
    struct scene after = scene;
    give_configuration(&after, 1, 15, 4, 2);
    taken(&scene, act(RECONFIGURE, 1, 0, 15), &after, "P1 by another majority than Q1");

    give_role(&scene, 3, SECONDARY, 1);
    give_configuration(&scene, 1, 7, 3, 2);
    refused(&scene, act(RECONFIGURE, 1, 0, 15), 16, "P1 with a holder of another term");
}

static void half_is_no_majority(const struct engine *engine)
{
    struct scene scene = two_marks(engine);
    give_configuration(&scene, 1, 15, 3, 2);
    give_configuration(&scene, 3, 7, 2, 2);
    refused(&scene, act(RECONFIGURE, 1, 0, 7), 14, "Q1 by 2 of 4");
    give_configuration(&scene, 4, 1, 3, 2);
    give_role(&scene, 3, SECONDARY, 1);
    refused(&scene, act(RECONFIGURE, 1, 0, 7), 15, "Q1 by another set of the same version, Q2 by 2 of 4");
}

static void odd_tables_are_played(const struct engine *engine)
{
    struct scene scene = fresh_scene(engine, 3, 7);
    give_role(&scene, 1, PRIMARY, 1);
    give_role(&scene, 2, PRIMARY, 1);
    give_configuration(&scene, 1, 6, 1, 1);
    give_configuration(&scene, 2, 3, 1, 1);
    GIVE_LOG(&scene, 3, 1000000000, 7);
    give_mark(&scene, 64, 1000000000);
    refused(&scene, act(ELECT, 1, 0, 6), 7, "elect outside one's own set, by a majority of it");
    refused(&scene, act(ELECT, 1, 0, 7), 7, "elect outside one's own set, by all");
    struct scene after = scene;
    GIVE_LOG(&after, 1, 1);
    taken(&scene, act(WRITE, 1, 0, 0), &after, "write on an odd table");
    give_mark(&scene, 1, 1);
    give_configuration(&scene, 2, 6, 1, 1);
    GIVE_LOG(&scene, 2, 1);
    GIVE_LOG(&scene, 3, 1);
    give_role(&scene, 3, SECONDARY, 1);
    give_configuration(&scene, 3, 2, 1, 1);
    after = scene;
    give_configuration(&after, 1, 7, 2, 1);
    taken(&scene, act(RECONFIGURE, 1, 0, 7), &after, "a primary outside its own set takes itself in");
}

void check_errors(const struct engine *engine)
{
    majority_over_the_set_only(engine);
    voters_keep_configurations(engine);
    elected_configuration_term(engine);
    earlier_entries_are_not_committed(engine);
    p1_asks_every_mark(engine);
    p1_asks_its_own_majority(engine);
    half_is_no_majority(engine);
    odd_tables_are_played(engine);
}
