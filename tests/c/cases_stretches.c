/* Stretches of entries, held to the single fetches that they stand for. */
#include <string.h>

#include "scene.h"

/* Server 1 leads with so many entries, of terms that rise, most with a bake; server 2 follows with the first few. */
static struct scene behind_scene(const struct engine *engine, uint32_t there, uint32_t here)
{
    uint32_t entries[MOST_ENTRIES];
    uint32_t bakes[MOST_ENTRIES];
    for (uint32_t index = 0; index < MOST_ENTRIES; index++) {
        entries[index] = 1 + index / 3;
        bakes[index] = index % 5 == 0 ? 0 : UINT32_MAX - index;
    }
    struct scene scene = fresh_scene(engine, 3, 7);
    give_role(&scene, 1, PRIMARY, 30);
    give_log(&scene, 1, there, entries);
    give_bakes(&scene, 1, there, bakes);
    give_log(&scene, 2, here, entries);
    give_bakes(&scene, 2, here, bakes);
    return scene;
}

/* What one fetch after another leaves, up to the first that is refused; answers how many were taken. */
static uint32_t fetch_one_by_one(struct scene *scene, uint32_t count)
{
    struct bytes8 fetch = act(FETCH, 2, 1, 0);
    uint64_t reply = 0;
    uint32_t copied = 0;
    while (copied < count && scene->engine->step(scene->table, TABLE_BYTES, fetch.byte, ACTION_BYTES, &reply) == 0) {
        copied++;
    }
    return copied;
}

/* Every count, from and to logs of some lengths. */
static void as_single_fetches(const struct engine *engine)
{
    const uint32_t lengths[] = {0, 1, 2, 3, 31, 62, 63, 64};
    for (size_t there = 0; there < sizeof lengths / sizeof *lengths; there++) {
        for (size_t here = 0; here < there; here++) {
            for (uint32_t count = 1; count <= MOST_ENTRIES; count++) {
                struct scene scene = behind_scene(engine, lengths[there], lengths[here]);
                struct scene after = scene;
                uint32_t copied = fetch_one_by_one(&after, count);
                uint32_t left = lengths[there] - lengths[here];
                check(copied == (count < left ? count : left), "%u single fetches where %u are left", count, left);
                replied(&scene, act(STRETCH, 2, 1, count), copied_reply(copied), &after, "a stretch and single fetches");
            }
        }
    }
}

static void empty_server_catches_up(const struct engine *engine)
{
    struct scene scene = behind_scene(engine, 64, 0);
    struct scene after = behind_scene(engine, 64, 64);
    replied(&scene, act(STRETCH, 2, 1, 64), copied_reply(64), &after, "an empty server catches up in one action");
    refused(&scene, act(STRETCH, 2, 1, 1), 20, "a stretch where nothing is left");
    scene = behind_scene(engine, 60, 0);
    after = behind_scene(engine, 60, 60);
    replied(&scene, act(STRETCH, 2, 1, 64), copied_reply(60), &after, "a stretch tells what was copied, not what was asked");
}

static void two_are_one(const struct engine *engine)
{
    struct scene scene = behind_scene(engine, 50, 3);
    struct scene between = behind_scene(engine, 50, 13);
    struct scene after = behind_scene(engine, 50, 30);
    struct scene at_once = scene;
    replied(&scene, act(STRETCH, 2, 1, 10), copied_reply(10), &between, "a stretch of 10");
    replied(&scene, act(STRETCH, 2, 1, 17), copied_reply(17), &after, "and one of 17");
    replied(&at_once, act(STRETCH, 2, 1, 27), copied_reply(27), &after, "are one of 27");
}

/* Both bytes of the count are looked at, before any role. */
static void counts_out_of_range(const struct engine *engine)
{
    const uint32_t outside[] = {0, 65, 66, 128, 255, 256, 257, 320, 1024, 16384, 32768, UINT16_MAX};
    struct scene scene = behind_scene(engine, 5, 1);
    for (size_t which = 0; which < sizeof outside / sizeof *outside; which++) {
        refused(&scene, act(STRETCH, 2, 1, outside[which]), 5, "a count out of range");
        refused(&scene, act(STRETCH, 1, 2, outside[which]), 5, "a count out of range, at a primary");
    }
}

static void refused_as_a_fetch(const struct engine *engine)
{
    struct scene scene = behind_scene(engine, 5, 2);
    refused(&scene, act(STRETCH, 1, 2, 2), 6, "a stretch to a primary");
    refused(&scene, act(STRETCH, 2, 2, 2), 20, "a stretch from oneself");
    refused(&scene, act(STRETCH, 2, 3, 2), 20, "a stretch from an empty log");
    GIVE_LOG(&scene, 2, 1, 9);
    refused(&scene, act(STRETCH, 2, 1, 2), 20, "a stretch over a different entry");
}

/* Only the last entry's term is compared, as a fetch does: an earlier difference stays, and bakes do. */
static void joined_at_the_last_entry(const struct engine *engine)
{
    struct scene scene = behind_scene(engine, 0, 0);
    GIVE_LOG(&scene, 1, 1, 2, 3, 4);
    GIVE_BAKES(&scene, 1, 11, 12, 13, 14);
    GIVE_LOG(&scene, 2, 2, 2);
    GIVE_BAKES(&scene, 2, 21, 22);
    struct scene after = scene;
    GIVE_LOG(&after, 2, 2, 2, 3, 4);
    GIVE_BAKES(&after, 2, 21, 22, 13, 14);
    replied(&scene, act(STRETCH, 2, 1, 9), copied_reply(2), &after, "a stretch behind an earlier difference");
}

void check_stretches(const struct engine *engine)
{
    as_single_fetches(engine);
    empty_server_catches_up(engine);
    two_are_one(engine);
    counts_out_of_range(engine);
    refused_as_a_fetch(engine);
    joined_at_the_last_entry(engine);
}
