/* The server that refusals 8, 9, 10 and 23 show: the lowest of the set that has the fault of that number. */
#include "scene.h"

enum { SITE = 5, LEADER = 3 };

/* A server whose vote or support the leader does not get, each for one reason alone. */
typedef void give_fault(struct scene *scene, uint32_t server);

/* All at term 2 with the log [1, 2] and one configuration: the leader may stand, and commit its last entry. */
static struct scene peaceful_scene(const struct engine *engine)
{
    struct scene scene = fresh_scene(engine, SITE, all_servers(SITE));
    for (uint32_t server = 1; server <= SITE; server++) {
        give_role(&scene, server, server == LEADER ? PRIMARY : SECONDARY, 2);
        give_configuration(&scene, server, all_servers(SITE), 3, 2);
        GIVE_LOG(&scene, server, 1, 2);
    }
    return scene;
}

static void larger_term(struct scene *scene, uint32_t server)
{
    give_role(scene, server, PRIMARY, 3);
}

static void smaller_term(struct scene *scene, uint32_t server)
{
    give_role(scene, server, SECONDARY, 1);
}

static void newer_configuration(struct scene *scene, uint32_t server)
{
    give_configuration(scene, server, 1, 4, 2);
}

static void log_ahead(struct scene *scene, uint32_t server)
{
    GIVE_LOG(scene, server, 1, 2, 2);
}

static void other_entry(struct scene *scene, uint32_t server)
{
    GIVE_LOG(scene, server, 1, 1, 2);
}

static void shorter_log(struct scene *scene, uint32_t server)
{
    GIVE_LOG(scene, server, 2);
}

/* Whichever servers have the fault, those outside the set are not looked at, and of the others the lowest is shown. */
static void whoever_has_it(const struct engine *engine, uint32_t kind, uint32_t number, give_fault *give, const char *name)
{
    for (uint32_t faulty = 0; faulty <= all_servers(SITE); faulty++) {
        struct scene scene = peaceful_scene(engine);
        for (uint32_t rest = faulty & ~only(LEADER); rest != 0; rest &= rest - 1) {
            give(&scene, lowest_server(rest));
        }
        for (uint32_t set = 1; set <= all_servers(SITE); set++) {
            uint32_t at_fault = set & faulty & ~only(LEADER);
            bool votes = __builtin_popcount(set) > SITE / 2 && (kind == COMMIT || (set & only(LEADER)) != 0);
            if (!votes) {
                refused(&scene, act(kind, LEADER, 0, set), 7, name);
            } else if (at_fault != 0) {
                refused(&scene, act(kind, LEADER, 0, set), at_server(number, lowest_server(at_fault)), name);
            }
        }
    }
}

/* Faults of other numbers, at lower servers, do not count. */
static void the_fault_of_the_number(const struct engine *engine)
{
    struct scene scene = peaceful_scene(engine);
    struct bytes8 elect = act(ELECT, LEADER, 0, all_servers(SITE));
    log_ahead(&scene, 1);
    refused(&scene, elect, at_server(10, 1), "a log ahead at 1");
    newer_configuration(&scene, 4);
    refused(&scene, elect, at_server(9, 4), "a log ahead at 1, a newer configuration at 4");
    larger_term(&scene, 5);
    refused(&scene, elect, at_server(8, 5), "a log ahead at 1, a newer configuration at 4, a larger term at 5");
    larger_term(&scene, 4);
    refused(&scene, elect, at_server(8, 4), "larger terms at 4, which has a newer configuration too, and at 5");
}

/* Of commit's two faults either counts. */
static void either_fault(const struct engine *engine)
{
    struct bytes8 commit = act(COMMIT, LEADER, 0, all_servers(SITE));
    struct scene scene = peaceful_scene(engine);
    smaller_term(&scene, 2);
    other_entry(&scene, 5);
    refused(&scene, commit, at_server(23, 2), "another term at 2, another entry at 5");
    other_entry(&scene, 1);
    refused(&scene, commit, at_server(23, 1), "another entry at 1, another term at 2");
}

/* The first and the last server that there can be. */
static void both_ends(const struct engine *engine)
{
    struct scene scene = fresh_scene(engine, MOST_SERVERS, all_servers(MOST_SERVERS));
    give_role(&scene, MOST_SERVERS, SECONDARY, 1);
    refused(&scene, act(ELECT, 1, 0, all_servers(MOST_SERVERS)), at_server(8, 16), "a larger term at 16");
    give_role(&scene, 1, SECONDARY, 1);
    give_role(&scene, 8, PRIMARY, 1);
    refused(&scene, act(ELECT, 2, 0, all_servers(MOST_SERVERS)), at_server(8, 1), "larger terms at 1, 8 and 16");
}

void check_servers(const struct engine *engine)
{
    whoever_has_it(engine, ELECT, 8, larger_term, "a larger term at some");
    whoever_has_it(engine, ELECT, 9, newer_configuration, "a newer configuration at some");
    whoever_has_it(engine, ELECT, 10, log_ahead, "a log ahead at some");
    whoever_has_it(engine, COMMIT, 23, larger_term, "a larger term at some of a commit");
    whoever_has_it(engine, COMMIT, 23, smaller_term, "a smaller term at some of a commit");
    whoever_has_it(engine, COMMIT, 23, other_entry, "another entry at some of a commit");
    whoever_has_it(engine, COMMIT, 23, shorter_log, "a shorter log at some of a commit");
    the_fault_of_the_number(engine);
    either_fault(engine);
    both_ends(engine);
}
