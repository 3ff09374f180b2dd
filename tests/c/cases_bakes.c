/* Bakes: written, copied and rolled back with their entries, read by no comparison of logs, and in images. */
#include <string.h>

#include "generate.h"
#include "plain_rules.h"
#include "reading.h"

enum { DRAWN_PLANS = 200, PLAN_ACTIONS = 300 };

static const uint32_t some_bakes[] = {
    0, 1, 0xff, 0x100, 0xffff, 0x10000, 0x01020304, CEILING, (uint32_t)CEILING + 1, UINT32_C(1) << 31, UINT32_MAX,
};

static void writes_name_a_bake(const struct engine *engine)
{
    for (size_t which = 0; which < sizeof some_bakes / sizeof *some_bakes; which++) {
        struct scene scene = ready_scene(engine);
        struct scene after = scene;
        GIVE_LOG(&after, 1, 1, 2, 2);
        GIVE_BAKES(&after, 1, 41, 42, some_bakes[which]);
        taken(&scene, act(WRITE, 1, 0, some_bakes[which]), &after, "write with a bake");
    }
    struct scene scene = ready_scene(engine);
    struct scene after = scene;
    GIVE_LOG(&after, 1, 1, 2, 2);
    GIVE_BAKES(&after, 1, 41, 42, 0x01020304);
    taken(&scene, (struct bytes8){{5, 1, 0, 0, 4, 3, 2, 1}}, &after, "write with a bake, byte by byte");
}

/* Of a set each of these bits but the first would be above n, and a field of no use. */
static void every_bit_of_a_bake(const struct engine *engine)
{
    for (uint32_t bake = 1; bake != 0; bake *= 2) {
        struct scene scene = fresh_scene(engine, 1, 1);
        give_role(&scene, 1, PRIMARY, 3);
        struct scene after = scene;
        GIVE_LOG(&after, 1, 3);
        GIVE_BAKES(&after, 1, bake);
        taken(&scene, act(WRITE, 1, 0, bake), &after, "write with one bit of a bake");
    }
}

static void writes_refused_with_a_bake(const struct engine *engine)
{
    struct scene scene = ready_scene(engine);
    for (size_t which = 0; which < sizeof some_bakes / sizeof *some_bakes; which++) {
        uint32_t bake = some_bakes[which];
        struct bytes8 action = act(WRITE, 1, 0, bake);
        action.byte[3] = 1;
        refused(&scene, action, 3, "write with a bake and a stray byte");
        refused(&scene, act(WRITE, 1, 2, bake), 3, "write with a bake and a second server");
        refused(&scene, act(WRITE, 5, 2, bake), 3, "write with a bake, a second server and no first one");
        refused(&scene, act(WRITE, 0, 0, bake), 4, "write with a bake at server 0");
        refused(&scene, act(WRITE, 5, 0, bake), 4, "write with a bake at server 5 of 4");
        refused(&scene, act(WRITE, 2, 0, bake), 6, "write with a bake at a secondary");
    }
}

/* Every entry with a bake of its own, up to the last word of the row. */
static void sixty_four_bakes(const struct engine *engine)
{
    struct scene scene = fresh_scene(engine, 2, 1);
    give_role(&scene, 1, PRIMARY, 7);
    struct scene after = scene;
    for (uint32_t index = 0; index < 64; index++) {
        put_word(after.table + row_start(1), LOG_LENGTH, index + 1);
        put_word(after.table + row_start(1), 6 + index, 7);
        put_word(after.table + row_start(1), 70 + index, UINT32_MAX - index);
        taken(&scene, act(WRITE, 1, 0, UINT32_MAX - index), &after, "one of 64 writes with a bake");
    }
    refused(&scene, act(WRITE, 1, 0, 1), 19, "65th write with a bake");
}

static void fetches_copy_bakes(const struct engine *engine)
{
    struct scene scene = fresh_scene(engine, 3, 7);
    GIVE_LOG(&scene, 1, 1, 1, 2);
    GIVE_BAKES(&scene, 1, 7, 0, UINT32_MAX);
    GIVE_LOG(&scene, 2, 1);
    GIVE_BAKES(&scene, 2, 70);
    struct scene after = scene;
    GIVE_LOG(&after, 2, 1, 1);
    GIVE_BAKES(&after, 2, 70);
    taken(&scene, act(FETCH, 2, 1, 0), &after, "fetch of an entry without a bake, behind another bake");
    GIVE_LOG(&after, 2, 1, 1, 2);
    GIVE_BAKES(&after, 2, 70, 0, UINT32_MAX);
    taken(&scene, act(FETCH, 2, 1, 0), &after, "fetch of an entry with a bake");
    GIVE_LOG(&after, 3, 1);
    GIVE_BAKES(&after, 3, 7);
    taken(&scene, act(FETCH, 3, 1, 0), &after, "fetch of a first entry with a bake");
    GIVE_LOG(&after, 3, 1, 1, 2);
    GIVE_BAKES(&after, 3, 7, 0, UINT32_MAX);
    replied(&scene, act(STRETCH, 3, 2, 64), copied_reply(2), &after, "stretch of entries with bakes");
}

/* A later entry at the same position must not find what an earlier one left. */
static void rolled_back_with_bakes(const struct engine *engine)
{
    struct scene scene = fresh_scene(engine, 2, 3);
    GIVE_LOG(&scene, 1, 1, 1);
    GIVE_BAKES(&scene, 1, 5, UINT32_MAX);
    GIVE_LOG(&scene, 2, 2);
    struct scene after = scene;
    GIVE_LOG(&after, 1, 1);
    GIVE_BAKES(&after, 1, 5);
    taken(&scene, act(ROLL_BACK, 1, 2, 0), &after, "roll back of an entry with a bake");
    give_log(&after, 1, 0, NULL);
    taken(&scene, act(ROLL_BACK, 1, 2, 0), &after, "roll back of the last entry with a bake");
    GIVE_LOG(&after, 1, 2);
    taken(&scene, act(FETCH, 1, 2, 0), &after, "fetch without a bake to where one was rolled back");
}

/* Three servers at term 2, the first primary, with one configuration and, but for their bakes, one log. */
static struct scene alike_but_for_bakes(const struct engine *engine)
{
    struct scene scene = fresh_scene(engine, 4, 7);
    for (uint32_t server = 1; server <= 3; server++) {
        give_role(&scene, server, server == 1 ? PRIMARY : SECONDARY, 2);
        give_configuration(&scene, server, 7, 1, 2);
        GIVE_LOG(&scene, server, 1, 2);
    }
    GIVE_BAKES(&scene, 1, 5, 6);
    GIVE_BAKES(&scene, 2, UINT32_MAX, UINT32_MAX);
    return scene;
}

static void votes_and_commits_read_terms(const struct engine *engine)
{
    struct scene scene = alike_but_for_bakes(engine);
    struct scene after = scene;
    give_mark(&after, 2, 2);
    taken(&scene, act(COMMIT, 1, 0, 6), &after, "commit by holders of the term with other bakes");
    give_configuration(&after, 1, 15, 2, 2);
    taken(&scene, act(RECONFIGURE, 1, 0, 15), &after, "reconfigure with holders of the marked term and other bakes");

    for (uint32_t candidate = 1; candidate <= 3; candidate++) {
        scene = alike_but_for_bakes(engine);
        after = scene;
        for (uint32_t server = 1; server <= 3; server++) {
            give_role(&after, server, server == candidate ? PRIMARY : SECONDARY, 3);
        }
        give_configuration(&after, candidate, 7, 1, 3);
        taken(&scene, act(ELECT, candidate, 0, 7), &after, "elect among logs that differ in bakes alone");
    }

    scene = alike_but_for_bakes(engine);
    GIVE_LOG(&scene, 2, 1, 1);
    GIVE_BAKES(&scene, 2, 5, 6);
    refused(&scene, act(COMMIT, 1, 0, 3), at_server(23, 2), "commit with a member that has the bake and not the term");
    refused(&scene, act(ELECT, 2, 0, 7), at_server(10, 1), "elect with the bakes of a log that is ahead");
}

static void copies_read_terms(const struct engine *engine)
{
    struct scene scene = alike_but_for_bakes(engine);
    refused(&scene, act(FETCH, 2, 1, 0), 20, "fetch where bakes alone differ");
    refused(&scene, act(ROLL_BACK, 3, 2, 0), 21, "roll back where bakes alone differ");
    GIVE_LOG(&scene, 1, 1, 2, 3);
    GIVE_BAKES(&scene, 1, 5, 6, 7);
    refused(&scene, act(ROLL_BACK, 2, 1, 0), 21, "roll back of a prefix with other bakes");
    GIVE_LOG(&scene, 3, 1, 1);
    GIVE_BAKES(&scene, 3, 5, 6);
    refused(&scene, act(FETCH, 3, 1, 0), 20, "fetch over the same bake of another term");
    refused(&scene, act(STRETCH, 3, 1, 2), 20, "stretch over the same bake of another term");
    struct scene after = scene;
    GIVE_LOG(&after, 3, 1);
    GIVE_BAKES(&after, 3, 5);
    taken(&scene, act(ROLL_BACK, 3, 1, 0), &after, "roll back over the same bakes of other terms");
}

/* The same bodies under either byte 5: terms alone, or each second one the bake of the first. */
static void the_width_decides(const struct engine *engine)
{
    struct scene narrow = fresh_scene(engine, 2, 3);
    GIVE_LOG(&narrow, 1, 5, 6, 7, 8);
    GIVE_LOG(&narrow, 2, 9, 10);
    struct scene wide = narrow;
    GIVE_LOG(&wide, 1, 5, 7);
    GIVE_BAKES(&wide, 1, 6, 8);
    GIVE_LOG(&wide, 2, 9);
    GIVE_BAKES(&wide, 2, 10);
    struct image image = image_of_scene(&narrow);
    reads_as(engine, image.bytes, image.length, &narrow, image.length, "bodies with byte 5 = 0");
    image.bytes[WIDTH_AT] = 1;
    reads_as(engine, image.bytes, image.length, &wide, image.length, "the same with byte 5 = 1");
    image.bytes[WIDTH_AT] = 2;
    is_bad_site(engine, image.bytes, image.length, 31, "the same with byte 5 = 2");
    GIVE_LOG(&narrow, 1, 5, 6, 7);
    image = image_of_scene(&narrow);
    image.bytes[WIDTH_AT] = 1;
    is_bad_site(engine, image.bytes, image.length, 33, "a body that ends within an entry of 8 bytes");
}

static void wide_entries_without_bakes(const struct engine *engine)
{
    struct scene scene = fresh_scene(engine, 2, 3);
    GIVE_LOG(&scene, 1, 5, 6, 7);
    GIVE_LOG(&scene, 2, 8);
    struct image image = wide_image_of_scene(&scene);
    check(image.length == 20 + 16 + 24 + 16 + 8 && image.bytes[WIDTH_AT] == 1, "the tests write wide entries");
    reads_as(engine, image.bytes, image.length, &scene, image.length, "entries of 8 bytes with no bake");
    put_word(body_of(&image, 1) + LOG_AT, 2, 0);
    is_bad_site(engine, image.bytes, image.length, 34, "an entry of 8 bytes with neither term nor bake");
    put_word(body_of(&image, 1) + LOG_AT, 3, 6);
    is_bad_site(engine, image.bytes, image.length, 34, "an entry of 8 bytes with a bake and no term");
}

/* The bake of each entry by its term and its position, as it was written. */
struct written {
    uint32_t bake[PLAN_ACTIONS + 1][MOST_ENTRIES];
};

static bool entries_are_as_written(const uint8_t *row, const struct written *written)
{
    for (size_t index = 0; index < word(row, LOG_LENGTH); index++) {
        if (word(row, BAKES + index) != written->bake[word(row, ENTRIES + index)][index]) {
            return false;
        }
    }
    return true;
}

static bool has_what_is_committed(const uint8_t *table, const uint8_t *row)
{
    for (size_t index = 0; index < MOST_ENTRIES; index++) {
        uint32_t mark = word(table, MARKS + index);
        if (mark != 0 && mark <= word(row, TERM) && word(row, ENTRIES + index) != mark) {
            return false;
        }
    }
    return true;
}

static bool logs_are_right(const uint8_t *table, const struct written *written)
{
    bool right = true;
    for (uint32_t server = 1; server <= word(table, SERVERS); server++) {
        const uint8_t *row = table + row_start(server);
        bool leads_rightly = word(row, ROLE) == SECONDARY || has_what_is_committed(table, row);
        right = right && entries_are_as_written(row, written) && leads_rightly;
    }
    return right;
}

/* Whether every step leaves logs that are right. */
static bool plays_rightly(const struct engine *engine, uint8_t *table, const uint8_t *actions)
{
    struct written written = {{{0}}};
    bool right = true;
    for (size_t piece = 0; right && piece < PLAN_ACTIONS; piece++) {
        const uint8_t *action = actions + ACTION_BYTES * piece;
        uint64_t reply;
        if (engine->step(table, TABLE_BYTES, action, ACTION_BYTES, &reply) == TAKEN && action[0] == WRITE) {
            const uint8_t *row = table + row_start(action[1]);
            written.bake[word(row, TERM)][word(row, LOG_LENGTH) - 1] = word(action, 1);
        }
        right = logs_are_right(table, &written);
    }
    return right;
}

/* A term is won once, and in it a position is written once: from a fresh table the two tell the bake. So logs that
 * agree in a term agree in its bake, and what a primary has of a committed entry is what was written. */
static void from_fresh_tables(const struct engine *engine)
{
    struct source source = {5};
    for (uint32_t number = 1; number <= DRAWN_PLANS; number++) {
        uint8_t table[TABLE_BYTES];
        uint8_t drawn_on[TABLE_BYTES];
        uint8_t actions[ACTION_BYTES * PLAN_ACTIONS];
        struct temper temper = draw_temper(&source);
        temper.baked = 80;
        draw_fresh_table(&source, table);
        memcpy(drawn_on, table, TABLE_BYTES);
        draw_guided_plan(&source, &temper, drawn_on, PLAN_ACTIONS, actions);
        check(plays_rightly(engine, table, actions), "plan %u from a fresh table: entries are as written", number);
    }
}

void check_bakes(const struct engine *engine)
{
    writes_name_a_bake(engine);
    every_bit_of_a_bake(engine);
    writes_refused_with_a_bake(engine);
    sixty_four_bakes(engine);
    fetches_copy_bakes(engine);
    rolled_back_with_bakes(engine);
    votes_and_commits_read_terms(engine);
    copies_read_terms(engine);
    the_width_decides(engine);
    wide_entries_without_bakes(engine);
    from_fresh_tables(engine);
}
