/* Refusals that the 8 bytes give by themselves, on a table where the same action without the fault is taken. */
#include <stdio.h>

#include "scene.h"

static void each_kind_is_taken(const struct engine *engine)
{
    struct scene after[READY_KINDS];
    for (size_t index = 0; index < READY_KINDS; index++) {
        after[index] = ready_scene(engine);
    }
    give_role(&after[ELECT - 1], 1, PRIMARY, 3);
    give_role(&after[ELECT - 1], 2, SECONDARY, 3);
    give_role(&after[ELECT - 1], 3, SECONDARY, 3);
    give_configuration(&after[ELECT - 1], 1, 7, 2, 3);
    give_configuration(&after[RECONFIGURE - 1], 1, 15, 3, 2);
    give_configuration(&after[SEND - 1], 2, 7, 2, 2);
    give_role(&after[SPREAD - 1], 4, SECONDARY, 2);
    GIVE_LOG(&after[WRITE - 1], 1, 1, 2, 2);
    GIVE_BAKES(&after[WRITE - 1], 1, 41, 42, 0);
    GIVE_LOG(&after[FETCH - 1], 2, 1, 2);
    GIVE_BAKES(&after[FETCH - 1], 2, 43, 42);
    GIVE_LOG(&after[ROLL_BACK - 1], 4, 1);
    GIVE_LOG(&after[STRETCH - 1], 2, 1, 2);
    GIVE_BAKES(&after[STRETCH - 1], 2, 43, 42);
    for (uint32_t kind = ELECT; kind <= LAST_KIND; kind++) {
        char name[40];
        snprintf(name, sizeof name, "ready action of kind %u", kind);
        struct scene scene = ready_scene(engine);
        replied(&scene, ready_action(kind), copied_reply(kind == STRETCH ? 1 : 0), &after[kind - 1], name);
    }
}

static void unknown_kinds(const struct engine *engine)
{
    struct scene scene = ready_scene(engine);
    refused(&scene, act(0, 0, 0, 0), 2, "kind 0 with all fields 0");
    for (uint32_t kind = LAST_KIND + 1; kind <= UINT8_MAX; kind++) {
        refused(&scene, act(kind, 200, 200, UINT16_MAX), 2, "kind above 9 with all fields wrong");
    }
}

static bool is_used(uint32_t kind, size_t index)
{
    switch (index) {
    case 1:
        return true;
    case 2:
        return names_j(kind);
    case 4:
    case 5:
        return names_set(kind) || kind == WRITE;
    case 6:
    case 7:
        return kind == WRITE;
    default:
        return false;
    }
}

/* Also with i out of range, which 4 would speak of. */
static void stray_bytes(const struct engine *engine)
{
    struct scene scene = ready_scene(engine);
    for (uint32_t kind = ELECT; kind <= LAST_KIND; kind++) {
        for (size_t index = 1; index < ACTION_BYTES; index++) {
            for (uint32_t bit = 1; !is_used(kind, index) && bit <= 128; bit *= 2) {
                char name[60];
                snprintf(name, sizeof name, "kind %u with %u in byte %zu", kind, bit, index);
                struct bytes8 action = ready_action(kind);
                action.byte[index] = (uint8_t)bit;
                refused(&scene, action, 3, name);
                action.byte[1] = 0;
                refused(&scene, action, 3, name);
            }
        }
    }
}

static void servers_out_of_range(const struct engine *engine)
{
    const uint8_t outside[] = {0, 5, 16, 17, 128, 255};
    struct scene scene = ready_scene(engine);
    for (uint32_t kind = ELECT; kind <= LAST_KIND; kind++) {
        for (size_t index = 1; index <= 2; index++) {
            for (size_t which = 0; is_used(kind, index) && which < sizeof outside; which++) {
                char name[60];
                snprintf(name, sizeof name, "kind %u with server %u in byte %zu", kind, outside[which], index);
                struct bytes8 action = ready_action(kind);
                action.byte[index] = outside[which];
                refused(&scene, action, 4, name);
            }
        }
    }
}

static void sets_out_of_range(const struct engine *engine)
{
    const uint32_t kinds[] = {ELECT, RECONFIGURE, COMMIT};
    struct scene scene = ready_scene(engine);
    for (size_t which = 0; which < sizeof kinds / sizeof *kinds; which++) {
        char name[60];
        snprintf(name, sizeof name, "kind %u with a set out of range", kinds[which]);
        refused(&scene, act(kinds[which], 1, 0, 0), 5, name);
        for (uint32_t server = 5; server <= 16; server++) {
            refused(&scene, act(kinds[which], 1, 0, 7 | only(server)), 5, name);
        }
        refused(&scene, act(kinds[which], 2, 0, 0), 5, name);
    }
}

/* With all 16 servers no set reaches past n, and the high byte of the set counts. */
static void all_sixteen(const struct engine *engine)
{
    struct scene scene = fresh_scene(engine, 16, UINT16_MAX);
    refused(&scene, act(ELECT, 16, 0, 0xff00), 7, "elect 16 by 8 of 16");
    struct scene after = scene;
    for (uint32_t server = 8; server <= 16; server++) {
        give_role(&after, server, SECONDARY, 1);
    }
    give_role(&after, 16, PRIMARY, 1);
    give_configuration(&after, 16, UINT16_MAX, 1, 1);
    taken(&scene, act(ELECT, 16, 0, 0xff80), &after, "elect 16 by 9 of 16");
}

void check_fields(const struct engine *engine)
{
    each_kind_is_taken(engine);
    unknown_kinds(engine);
    stray_bytes(engine);
    servers_out_of_range(engine);
    sets_out_of_range(engine);
    all_sixteen(engine);
}
