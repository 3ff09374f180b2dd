/* Which set may follow which, under each rule and with each floor, and the pair of majorities that refusal 13 shows under
 * rule 2. */
#include "scene.h"

/* A primary 1 of term 1 that may reconfigure but for its sets: the others share its term, configuration and entry. */
static struct scene leading_scene(const struct engine *engine, uint32_t n, uint32_t set, uint32_t rule)
{
    struct scene scene = fresh_scene(engine, n, set);
    give_rule(&scene, rule);
    for (uint32_t server = 1; server <= n; server++) {
        give_role(&scene, server, server == 1 ? PRIMARY : SECONDARY, 1);
        give_configuration(&scene, server, set, 1, 1);
        GIVE_LOG(&scene, server, 1);
    }
    give_mark(&scene, 1, 1);
    return scene;
}

static void follows(const struct engine *engine, uint32_t rule, uint32_t old, uint32_t new, const char *name)
{
    struct scene scene = leading_scene(engine, 5, old, rule);
    struct scene after = scene;
    give_configuration(&after, 1, new, 2, 1);
    taken(&scene, act(RECONFIGURE, 1, 0, new), &after, name);
}

static void does_not_follow(const struct engine *engine, uint32_t rule, uint32_t old, uint32_t new, uint64_t reply,
                            const char *name)
{
    struct scene scene = leading_scene(engine, 5, old, rule);
    refused(&scene, act(RECONFIGURE, 1, 0, new), reply, name);
}

static uint64_t with_pair(uint32_t old, uint32_t new)
{
    return 13 | (uint64_t)old << OLD_SHIFT | (uint64_t)new << NEW_SHIFT;
}

static void worked_changes(const struct engine *engine)
{
    follows(engine, RULE_2, 15, 23, "rule 2: {1,2,3,4} to {1,2,3,5}");
    does_not_follow(engine, RULE_1, 15, 23, 13, "rule 1: {1,2,3,4} to {1,2,3,5}");
    does_not_follow(engine, RULE_2, 7, 11, with_pair(5, 10), "rule 2: {1,2,3} to {1,2,4}");
    does_not_follow(engine, RULE_1, 7, 11, 13, "rule 1: {1,2,3} to {1,2,4}");
    follows(engine, RULE_2, 7, 7, "rule 2: the unchanged set");
    does_not_follow(engine, RULE_1, 7, 7, 13, "rule 1: the unchanged set");
    follows(engine, RULE_2, 7, 15, "rule 2: one server more");
    follows(engine, RULE_1, 7, 15, "rule 1: one server more");
    does_not_follow(engine, RULE_2, 7, 8, 12, "rule 2: 12 before 13");
    does_not_follow(engine, RULE_2, 1, 31, with_pair(1, 14), "rule 2: {1} to all of five");
    does_not_follow(engine, RULE_2, 31, 1, with_pair(14, 1), "rule 2: all of five to {1}");
}

static bool is_majority(uint32_t servers, uint32_t set)
{
    return (servers & ~set) == 0 && 2 * __builtin_popcount(servers) > __builtin_popcount(set);
}

/* The first pair apart of all pairs, in the order of the request; 0 where every two majorities meet. */
static uint64_t first_pair(uint32_t old, uint32_t new)
{
    for (uint32_t of_old = 1; of_old <= old; of_old++) {
        for (uint32_t of_new = 1; is_majority(of_old, old) && of_new <= new; of_new++) {
            if (is_majority(of_new, new) && (of_old & of_new) == 0) {
                return with_pair(of_old, of_new);
            }
        }
    }
    return 0;
}

/* Under rule 2 all sets of six servers, held to all pairs of majorities. */
static void every_change(const struct engine *engine)
{
    for (uint32_t old = 1; old <= all_servers(6); old++) {
        struct scene scene = leading_scene(engine, 6, old, RULE_2);
        for (uint32_t new = 1; new <= all_servers(6); new += 2) {
            uint64_t pair = first_pair(old, new);
            struct scene after = scene;
            if (pair == 0) {
                give_configuration(&after, 1, new, 2, 1);
            }
            struct scene played = scene;
            replied(&played, act(RECONFIGURE, 1, 0, new), pair, &after, "rule 2: each change of six servers");
        }
    }
}

/* Sets too wide for all pairs, held to pairs found by hand. */
static void widest_sets(const struct engine *engine)
{
    struct scene scene = leading_scene(engine, 16, 0x00ff, RULE_2);
    refused(&scene, act(RECONFIGURE, 1, 0, 0xff01), with_pair(0x001f, 0x1f00), "rule 2: eight servers to one of them and eight others");
    scene = leading_scene(engine, 16, 0xffff, RULE_2);
    refused(&scene, act(RECONFIGURE, 1, 0, 0x0001), with_pair(0x03fe, 0x0001), "rule 2: sixteen servers to one");
}

/* The size of the new set decides, whatever the old one's is; 0 and 1 forbid nothing. */
static void every_floor(const struct engine *engine)
{
    for (uint32_t floor = 0; floor <= MOST_SERVERS; floor++) {
        for (uint32_t old = 1; old <= all_servers(5); old += 2) {
            for (uint32_t server = 2; server <= 5; server++) {
                uint32_t new = old ^ only(server);
                struct scene scene = leading_scene(engine, 5, old, RULE_1);
                give_floor(&scene, floor);
                struct scene after = scene;
                bool reaches = (uint32_t)__builtin_popcount(new) >= floor;
                if (reaches) {
                    give_configuration(&after, 1, new, 2, 1);
                }
                replied(&scene, act(RECONFIGURE, 1, 0, new), reaches ? 0 : 25, &after, "each floor and change of five servers");
            }
        }
    }
}

static void floors_in_their_place(const struct engine *engine)
{
    struct scene scene = leading_scene(engine, 5, 7, RULE_2);
    give_floor(&scene, 4);
    refused(&scene, act(RECONFIGURE, 1, 0, 6), 12, "floor 4: 12 before 25");
    refused(&scene, act(RECONFIGURE, 1, 0, 11), with_pair(5, 10), "floor 4: 13 before 25");
    refused(&scene, act(RECONFIGURE, 1, 0, 7), 25, "floor 4: the unchanged set under rule 2");
    give_configuration(&scene, 2, 7, 2, 1);
    give_configuration(&scene, 3, 7, 2, 1);
    refused(&scene, act(RECONFIGURE, 1, 0, 7), 25, "floor 4: 25 before 14");
    give_floor(&scene, 3);
    refused(&scene, act(RECONFIGURE, 1, 0, 7), 14, "floor 3: 14");
}

/* A first set, an election, a configuration sent and a commit below the floor. */
static void floors_not_looked_at(const struct engine *engine)
{
    struct scene scene = fresh_scene(engine, 3, 3);
    give_floor(&scene, MOST_SERVERS);
    struct scene after = scene;
    give_role(&after, 1, PRIMARY, 1);
    give_role(&after, 2, SECONDARY, 1);
    give_configuration(&after, 1, 3, 1, 1);
    taken(&scene, act(ELECT, 1, 0, 3), &after, "floor 16: elect");
    give_configuration(&after, 2, 3, 1, 1);
    taken(&scene, act(SEND, 1, 2, 0), &after, "floor 16: send");
    GIVE_LOG(&after, 1, 1);
    taken(&scene, act(WRITE, 1, 0, 0), &after, "floor 16: write");
    GIVE_LOG(&after, 2, 1);
    taken(&scene, act(FETCH, 2, 1, 0), &after, "floor 16: fetch");
    give_mark(&after, 1, 1);
    taken(&scene, act(COMMIT, 1, 0, 3), &after, "floor 16: commit");
    refused(&scene, act(RECONFIGURE, 1, 0, 7), 25, "floor 16: a set that grows");
}

void check_rules(const struct engine *engine)
{
    worked_changes(engine);
    every_change(engine);
    widest_sets(engine);
    every_floor(engine);
    floors_in_their_place(engine);
    floors_not_looked_at(engine);
}
