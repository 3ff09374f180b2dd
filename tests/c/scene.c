#include "scene.h"

#include <stdarg.h>
#include <stdio.h>
#include <stdlib.h>
#include <string.h>

static size_t checks_made;
static size_t checks_failed;

void check(bool holds, const char *name, ...)
{
    checks_made++;
    if (holds) {
        return;
    }
    checks_failed++;
    va_list arguments;
    va_start(arguments, name);
    fputs("FAILED: ", stdout);
    vprintf(name, arguments);
    putchar('\n');
    va_end(arguments);
}

int close_checks(const char *engine_name)
{
    printf("cases on %s: %zu checks, %zu failed\n", engine_name, checks_made, checks_failed);
    return checks_failed == 0 ? EXIT_SUCCESS : EXIT_FAILURE;
}

struct bytes8 act(uint32_t kind, uint32_t i, uint32_t j, uint32_t set)
{
    struct bytes8 action;
    put_action(action.byte, kind, i, j, set);
    return action;
}

struct scene fresh_scene(const struct engine *engine, uint32_t n, uint32_t set)
{
    struct scene scene = {engine, {0}};
    put_word(scene.table, SERVERS, n);
    for (uint32_t server = 1; server <= n; server++) {
        give_configuration(&scene, server, set, 1, 0);
    }
    return scene;
}

void give_rule(struct scene *scene, uint32_t rule)
{
    put_word(scene->table, RULE, rule);
}

void give_floor(struct scene *scene, uint32_t floor)
{
    put_word(scene->table, FLOOR, floor);
}

void give_role(struct scene *scene, uint32_t server, uint32_t role, uint32_t term)
{
    put_word(scene->table + row_start(server), ROLE, role);
    put_word(scene->table + row_start(server), TERM, term);
}

void give_configuration(struct scene *scene, uint32_t server, uint32_t set, uint32_t version, uint32_t config_term)
{
    uint8_t *row = scene->table + row_start(server);
    put_word(row, SET, set);
    put_word(row, VERSION, version);
    put_word(row, CONFIG_TERM, config_term);
}

void give_log(struct scene *scene, uint32_t server, size_t length, const uint32_t *entries)
{
    uint8_t *row = scene->table + row_start(server);
    put_word(row, LOG_LENGTH, (uint32_t)length);
    for (size_t index = 0; index < MOST_ENTRIES; index++) {
        put_word(row, ENTRIES + index, index < length ? entries[index] : 0);
        put_word(row, BAKES + index, 0);
    }
}

void give_bakes(struct scene *scene, uint32_t server, size_t count, const uint32_t *bakes)
{
    for (size_t index = 0; index < count; index++) {
        put_word(scene->table + row_start(server), BAKES + index, bakes[index]);
    }
}

void give_mark(struct scene *scene, uint32_t position, uint32_t term)
{
    put_word(scene->table, MARKS + position - 1, term);
}

struct scene ready_scene(const struct engine *engine)
{
    struct scene scene = fresh_scene(engine, 4, 7);
    give_role(&scene, 1, PRIMARY, 2);
    give_role(&scene, 2, SECONDARY, 2);
    give_role(&scene, 3, SECONDARY, 2);
    give_role(&scene, 4, SECONDARY, 1);
    give_configuration(&scene, 1, 7, 2, 2);
    give_configuration(&scene, 2, 7, 1, 2);
    give_configuration(&scene, 3, 7, 2, 2);
    GIVE_LOG(&scene, 1, 1, 2);
    GIVE_LOG(&scene, 2, 1);
    GIVE_LOG(&scene, 3, 1, 2);
    GIVE_LOG(&scene, 4, 1, 1);
    GIVE_BAKES(&scene, 1, 41, 42);
    GIVE_BAKES(&scene, 2, 43);
    GIVE_BAKES(&scene, 4, 0, UINT32_MAX);
    give_mark(&scene, 2, 2);
    return scene;
}

struct bytes8 ready_action(uint32_t kind)
{
    const struct bytes8 ready[READY_KINDS] = {
        act(ELECT, 1, 0, 7), act(RECONFIGURE, 1, 0, 15), act(SEND, 1, 2, 0),      act(SPREAD, 1, 4, 0),
        act(WRITE, 1, 0, 0), act(FETCH, 2, 1, 0),        act(ROLL_BACK, 4, 1, 0), act(COMMIT, 1, 0, 5),
        act(STRETCH, 2, 1, 64),
    };
    return ready[kind - 1];
}

uint64_t copied_reply(uint32_t entries)
{
    return (uint64_t)entries << COPIED_SHIFT;
}

void replied(struct scene *scene, struct bytes8 action, uint64_t reply, const struct scene *after, const char *name)
{
    const struct engine *engine = scene->engine;
    uint8_t run_table[TABLE_BYTES];
    memcpy(run_table, scene->table, TABLE_BYTES);
    uint64_t told = UINT64_MAX;
    uint8_t run_reply[REPLY_BYTES];
    memset(run_reply, 255, sizeof run_reply);
    struct bytes8 lent = action;

    uint32_t answer = engine->step(scene->table, TABLE_BYTES, lent.byte, ACTION_BYTES, &told);
    check(answer == number_of(reply), "%s: step replied %u, not %u", name, answer, number_of(reply));
    check(told == reply, "%s: step told %#llx, not %#llx", name, (unsigned long long)told, (unsigned long long)reply);
    check(memcmp(scene->table, after->table, TABLE_BYTES) == 0, "%s: another table after step", name);

    uint64_t played = engine->run(run_table, TABLE_BYTES, lent.byte, ACTION_BYTES, run_reply, REPLY_BYTES);
    check(played == 1 && reply_at(run_reply, 0) == reply, "%s: run replied another than %#llx", name, (unsigned long long)reply);
    check(memcmp(run_table, after->table, TABLE_BYTES) == 0, "%s: another table after run", name);
    check(memcmp(lent.byte, action.byte, ACTION_BYTES) == 0, "%s: the action's bytes are altered", name);
    /* So that one wrong table does not fail every later check on the scene too. */
    memcpy(scene->table, after->table, TABLE_BYTES);
}

void taken(struct scene *scene, struct bytes8 action, const struct scene *after, const char *name)
{
    replied(scene, action, 0, after, name);
}

void refused(struct scene *scene, struct bytes8 action, uint64_t reply, const char *name)
{
    struct scene before = *scene;
    replied(scene, action, reply, &before, name);
}
