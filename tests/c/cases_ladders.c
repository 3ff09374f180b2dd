/* For each kind one action that breaks as many conditions as can be broken at once. They are mended one after
 * another, and the reply has to climb through all numbers of the kind up to taken; reconfigure's 25 stands between 13 and 14. */
#include "scene.h"

static const uint32_t above_n = 9;

/* The rungs shared by all kinds; leaves the action with nothing amiss but server numbers and the set. */
static void climb_to_fields(struct scene *scene, struct bytes8 *action, uint32_t kind, const char *name)
{
    action->byte[0] = LAST_KIND + 1;
    action->byte[3] = 1;
    put_word(scene->table, SPARE, 1);
    refused(scene, *action, 1, name);
    put_word(scene->table, SPARE, 0);
    refused(scene, *action, 2, name);
    action->byte[0] = (uint8_t)kind;
    refused(scene, *action, 3, name);
    action->byte[3] = 0;
    refused(scene, *action, 4, name);
}

static void climb_elect(const struct engine *engine)
{
    struct scene scene = fresh_scene(engine, 4, 7);
    give_role(&scene, 1, SECONDARY, 4);
    give_role(&scene, 3, PRIMARY, 5);
    give_configuration(&scene, 2, 7, 2, 0);
    GIVE_LOG(&scene, 2, 1);
    struct bytes8 action = act(0, above_n, 0, 0);
    climb_to_fields(&scene, &action, ELECT, "elect's ladder");
    action.byte[1] = 1;
    refused(&scene, action, 5, "elect by nobody");
    refused(&scene, act(ELECT, 1, 0, 16), 5, "elect by server 5 of 4");
    refused(&scene, act(ELECT, 1, 0, 1), 7, "elect by a minority");
    refused(&scene, act(ELECT, 1, 0, 6), 7, "elect by others only");
    refused(&scene, act(ELECT, 1, 0, 11), 7, "elect by a server outside the set");
    action = act(ELECT, 1, 0, 7);
    refused(&scene, action, at_server(8, 3), "elect under a larger term");
    give_role(&scene, 1, PRIMARY, 1000000000);
    refused(&scene, action, at_server(9, 2), "elect under a newer configuration");
    give_configuration(&scene, 2, 7, 1, 0);
    refused(&scene, action, at_server(10, 2), "elect under a log ahead");
    give_log(&scene, 2, 0, NULL);
    refused(&scene, action, 11, "elect at the last term");
    give_role(&scene, 1, PRIMARY, 5);
    struct scene after = scene;
    give_role(&after, 1, PRIMARY, 6);
    give_configuration(&after, 1, 7, 1, 6);
    give_role(&after, 2, SECONDARY, 6);
    give_role(&after, 3, SECONDARY, 6);
    taken(&scene, action, &after, "elect of a primary, over another primary of its term");
}

static void climb_reconfigure(const struct engine *engine)
{
    struct scene scene = fresh_scene(engine, 4, 7);
    give_floor(&scene, 5);
    give_role(&scene, 1, SECONDARY, 2);
    give_configuration(&scene, 1, 7, 1000000000, 3);
    struct bytes8 action = act(0, above_n, 0, 0);
    climb_to_fields(&scene, &action, RECONFIGURE, "reconfigure's ladder");
    action.byte[1] = 1;
    refused(&scene, action, 5, "reconfigure to nobody");
    refused(&scene, act(RECONFIGURE, 1, 0, 31), 5, "reconfigure to server 5 of 4");
    refused(&scene, act(RECONFIGURE, 1, 0, 14), 6, "reconfigure by a secondary");
    give_role(&scene, 1, PRIMARY, 2);
    refused(&scene, act(RECONFIGURE, 1, 0, 14), 11, "reconfigure at the last version");
    give_configuration(&scene, 1, 7, 999999999, 3);
    refused(&scene, act(RECONFIGURE, 1, 0, 14), 12, "reconfigure to others only, with two changes");
    refused(&scene, act(RECONFIGURE, 1, 0, 1), 13, "reconfigure with two removed");
    refused(&scene, act(RECONFIGURE, 1, 0, 11), 13, "reconfigure with one swapped");
    refused(&scene, act(RECONFIGURE, 1, 0, 7), 13, "reconfigure to the same set");
    action = act(RECONFIGURE, 1, 0, 15);
    refused(&scene, action, 25, "reconfigure to fewer than the floor, with one added");
    give_floor(&scene, 4);
    refused(&scene, action, 14, "reconfigure with a configuration of one's own");
    give_configuration(&scene, 3, 7, 999999999, 3);
    refused(&scene, action, 15, "reconfigure with a term of one's own");
    give_role(&scene, 2, SECONDARY, 2);
    refused(&scene, action, 16, "reconfigure with no mark");
    give_mark(&scene, 2, 2);
    refused(&scene, action, 16, "reconfigure with a mark that nobody holds");
    GIVE_LOG(&scene, 1, 1, 2);
    refused(&scene, action, 16, "reconfigure with a mark that a minority holds");
    GIVE_LOG(&scene, 2, 2, 2);
    struct scene after = scene;
    give_configuration(&after, 1, 15, 1000000000, 3);
    taken(&scene, action, &after, "reconfigure with majorities that differ");
}

static void climb_send(const struct engine *engine)
{
    struct scene scene = fresh_scene(engine, 4, 7);
    give_role(&scene, 2, PRIMARY, 1);
    struct bytes8 action = act(0, above_n, 2, 0);
    climb_to_fields(&scene, &action, SEND, "send's ladder");
    refused(&scene, act(SEND, 1, 5, 0), 4, "send to server 5 of 4");
    action = act(SEND, 1, 2, 0);
    refused(&scene, action, 6, "send to a primary");
    give_role(&scene, 2, SECONDARY, 1);
    refused(&scene, action, 17, "send of an equal configuration");
    give_configuration(&scene, 1, 3, 2, 0);
    struct scene after = scene;
    give_configuration(&after, 2, 3, 2, 0);
    taken(&scene, action, &after, "send of a larger version by a secondary");
}

static void climb_spread(const struct engine *engine)
{
    struct scene scene = fresh_scene(engine, 4, 7);
    give_role(&scene, 2, PRIMARY, 3);
    struct bytes8 action = act(0, 1, above_n, 0);
    climb_to_fields(&scene, &action, SPREAD, "spread's ladder");
    action.byte[2] = 2;
    refused(&scene, action, 18, "spread of a smaller term");
    give_role(&scene, 1, SECONDARY, 3);
    refused(&scene, action, 18, "spread of an equal term");
    give_role(&scene, 1, SECONDARY, 4);
    struct scene after = scene;
    give_role(&after, 2, SECONDARY, 4);
    taken(&scene, action, &after, "spread by a secondary to a primary");
}

static void climb_write(const struct engine *engine)
{
    struct scene scene = fresh_scene(engine, 4, 7);
    for (size_t index = 0; index < MOST_ENTRIES; index++) {
        put_word(scene.table + row_start(4), ENTRIES + index, 1);
    }
    put_word(scene.table + row_start(4), LOG_LENGTH, MOST_ENTRIES);
    struct bytes8 action = act(0, above_n, 0, 0);
    climb_to_fields(&scene, &action, WRITE, "write's ladder");
    action.byte[1] = 4;
    refused(&scene, action, 6, "write by a secondary");
    give_role(&scene, 4, PRIMARY, 3);
    refused(&scene, action, 19, "write to a full log");
    GIVE_LOG(&scene, 4, 5, 1);
    struct scene after = scene;
    GIVE_LOG(&after, 4, 5, 1, 3);
    taken(&scene, action, &after, "write");
}

static void climb_fetch(const struct engine *engine)
{
    struct scene scene = fresh_scene(engine, 4, 7);
    give_role(&scene, 1, PRIMARY, 1);
    give_role(&scene, 2, PRIMARY, 1);
    GIVE_LOG(&scene, 1, 1, 2);
    GIVE_LOG(&scene, 2, 2, 1);
    struct bytes8 action = act(0, 1, above_n, 0);
    climb_to_fields(&scene, &action, FETCH, "fetch's ladder");
    action.byte[2] = 2;
    refused(&scene, action, 6, "fetch by a primary");
    give_role(&scene, 1, SECONDARY, 1);
    refused(&scene, action, 20, "fetch from a log as long");
    GIVE_LOG(&scene, 2, 2, 1, 3);
    refused(&scene, action, 20, "fetch over a different entry");
    GIVE_LOG(&scene, 2, 2, 2, 3, 4);
    struct scene after = scene;
    GIVE_LOG(&after, 1, 1, 2, 3);
    taken(&scene, action, &after, "fetch from a primary, with a difference further down");
    give_log(&scene, 1, 0, NULL);
    after = scene;
    GIVE_LOG(&after, 1, 2);
    taken(&scene, action, &after, "fetch to an empty log");
}

static void climb_roll_back(const struct engine *engine)
{
    struct scene scene = fresh_scene(engine, 4, 7);
    give_role(&scene, 1, PRIMARY, 1);
    GIVE_LOG(&scene, 1, 1, 2);
    GIVE_LOG(&scene, 2, 3, 2);
    struct bytes8 action = act(0, 1, above_n, 0);
    climb_to_fields(&scene, &action, ROLL_BACK, "roll back's ladder");
    action.byte[2] = 2;
    refused(&scene, action, 6, "roll back at a primary");
    give_role(&scene, 1, SECONDARY, 1);
    refused(&scene, action, 21, "roll back against an equal last entry");
    GIVE_LOG(&scene, 2, 1, 2, 5);
    refused(&scene, action, 21, "roll back of a prefix");
    GIVE_LOG(&scene, 2, 2, 2, 5);
    struct scene after = scene;
    GIVE_LOG(&after, 1, 1);
    taken(&scene, action, &after, "roll back where only the first entries differ");
}

static void climb_commit(const struct engine *engine)
{
    struct scene scene = fresh_scene(engine, 4, 7);
    give_role(&scene, 1, SECONDARY, 3);
    give_role(&scene, 2, SECONDARY, 4);
    give_mark(&scene, 1, 5);
    struct bytes8 action = act(0, above_n, 0, 0);
    climb_to_fields(&scene, &action, COMMIT, "commit's ladder");
    action.byte[1] = 1;
    refused(&scene, action, 5, "commit by nobody");
    refused(&scene, act(COMMIT, 1, 0, 2), 6, "commit at a secondary");
    give_role(&scene, 1, PRIMARY, 3);
    refused(&scene, act(COMMIT, 1, 0, 2), 7, "commit by a minority");
    refused(&scene, act(COMMIT, 1, 0, 14), 7, "commit by a server outside the set");
    action = act(COMMIT, 1, 0, 6);
    refused(&scene, action, 22, "commit with an empty log");
    GIVE_LOG(&scene, 1, 2);
    refused(&scene, action, 22, "commit of an entry of another term");
    GIVE_LOG(&scene, 1, 3);
    GIVE_LOG(&scene, 2, 3);
    give_role(&scene, 3, SECONDARY, 3);
    GIVE_LOG(&scene, 3, 3);
    refused(&scene, action, at_server(23, 2), "commit with a member of another term");
    give_role(&scene, 2, SECONDARY, 3);
    GIVE_LOG(&scene, 3, 2, 3);
    refused(&scene, action, at_server(23, 3), "commit with a member that lacks the entry");
    GIVE_LOG(&scene, 3, 3, 1);
    refused(&scene, action, 24, "commit over a mark of another term");
    give_mark(&scene, 1, 0);
    struct scene after = scene;
    give_mark(&after, 1, 3);
    taken(&scene, action, &after, "commit by others only");
    taken(&scene, action, &after, "commit once more");
}

static void climb_stretch(const struct engine *engine)
{
    struct scene scene = fresh_scene(engine, 4, 7);
    give_role(&scene, 1, PRIMARY, 1);
    GIVE_LOG(&scene, 1, 1, 2);
    GIVE_LOG(&scene, 2, 2, 1);
    struct bytes8 action = act(0, 1, above_n, 0);
    climb_to_fields(&scene, &action, STRETCH, "a stretch's ladder");
    action.byte[2] = 2;
    refused(&scene, action, 5, "stretch of no entry");
    refused(&scene, act(STRETCH, 1, 2, 65), 5, "stretch of 65 entries");
    action = act(STRETCH, 1, 2, 3);
    refused(&scene, action, 6, "stretch to a primary");
    give_role(&scene, 1, SECONDARY, 1);
    refused(&scene, action, 20, "stretch from a log as long");
    GIVE_LOG(&scene, 2, 1, 1, 3, 4, 5);
    refused(&scene, action, 20, "stretch over a different entry");
    GIVE_LOG(&scene, 2, 1, 2, 3, 4, 5, 6);
    struct scene after = scene;
    GIVE_LOG(&after, 1, 1, 2, 3, 4, 5);
    replied(&scene, action, copied_reply(3), &after, "stretch of 3 entries, where 4 are left");
}

void check_ladders(const struct engine *engine)
{
    climb_elect(engine);
    climb_reconfigure(engine);
    climb_send(engine);
    climb_spread(engine);
    climb_write(engine);
    climb_fetch(engine);
    climb_roll_back(engine);
    climb_commit(engine);
    climb_stretch(engine);
}
