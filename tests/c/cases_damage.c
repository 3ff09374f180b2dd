/* Good images altered at every byte and cut at every length: with the reply that document 01 gives where that can be
 * told byte by byte, and else held against the plain reader. */
#include <stdio.h>

#include "generate.h"
#include "reading.h"

enum { DRAWN_IMAGES = 10000, BEHIND = 64 };

/* What rehearse's case, a fresh table of 4 servers with set 7, is refused with if this one byte is altered. */
static uint32_t reply_to_byte(size_t at, uint32_t value)
{
    if (at < OPENING_BYTES) {
        bool is_number = value >= 1 && value <= MOST_SERVERS;
        bool is_width = at == WIDTH_AT && value <= WIDE;
        bool is_rule = at == RULE_AT && value <= RULE_2;
        bool is_floor = at == FLOOR_AT && value <= MOST_SERVERS;
        return is_width || is_rule || is_floor ? 0 : at != SERVERS_AT ? 31 : is_number ? 33 : 32;
    }
    if (at < first_body_at(4)) {
        return 33;
    }
    switch ((at - first_body_at(4)) % LOG_AT) {
    case ROLE_AT:
    case ZERO_AT:
    case SET_AT + 1:
        return 34;
    case SET_AT:
        return value >= 1 && value <= 15 ? 0 : 34;
    case VERSION_AT:
        return value == 0 ? 34 : 0;
    case TERM_AT + 3:
    case VERSION_AT + 3:
    case CONFIG_TERM_AT + 3:
        /* 59 times 2 to the 24th is below 1,000,000,000, and 60 times that above. */
        return value <= 59 ? 0 : 34;
    default:
        return 0;
    }
}

/* Where the rule, the floor, or a byte of a body that is not refused, stands in the table. */
static size_t place_in_table(size_t at)
{
    if (at == RULE_AT) {
        return 4 * RULE;
    }
    if (at == FLOOR_AT) {
        return 4 * FLOOR;
    }
    size_t in_bodies = at - first_body_at(4);
    size_t field = in_bodies % LOG_AT;
    size_t column = field < TERM_AT ? SET : field < VERSION_AT ? TERM : field < CONFIG_TERM_AT ? VERSION : CONFIG_TERM;
    size_t in_field = field < TERM_AT ? field - SET_AT : field % 4;
    return row_start((uint32_t)(in_bodies / LOG_AT) + 1) + 4 * column + in_field;
}

static void every_byte_of_the_whole_case(const struct engine *engine)
{
    struct scene fresh = fresh_scene(engine, 4, 7);
    struct image image = image_of_scene(&fresh);
    for (size_t at = 0; at < image.length; at++) {
        for (uint32_t change = 1; change <= UINT8_MAX; change++) {
            uint8_t before = image.bytes[at];
            image.bytes[at] = (uint8_t)(before ^ change);
            char name[60];
            snprintf(name, sizeof name, "rehearse's case with %u in byte %zu", image.bytes[at], at);
            uint32_t number = reply_to_byte(at, image.bytes[at]);
            if (number != 0) {
                is_bad_site(engine, image.bytes, image.length, number, name);
            } else {
                struct scene scene = fresh;
                /* How wide entries are where there are none, no table tells. */
                if (at != WIDTH_AT) {
                    scene.table[place_in_table(at)] = image.bytes[at];
                }
                reads_as(engine, image.bytes, image.length, &scene, image.length, name);
            }
            image.bytes[at] = before;
        }
    }
}

static void every_cut(const struct scene *scene)
{
    struct image image = image_of_scene(scene);
    for (size_t length = 0; length < image.length; length++) {
        char name[80];
        snprintf(name, sizeof name, "%zu bytes of an image of %zu", length, image.length);
        is_bad_site(scene->engine, image.bytes, length, length < OPENING_BYTES ? 30 : 33, name);
    }
}

/* With bytes behind, that a length which has grown reaches into. */
static void every_byte(const struct scene *scene)
{
    uint8_t input[MOST_IMAGE_BYTES + BEHIND];
    size_t image_len = image_of(scene->table, input);
    memset(input + image_len, 1, BEHIND);
    for (size_t at = 0; at < image_len; at++) {
        uint8_t before = input[at];
        const uint32_t values[] = {0, 1, 2, 0x7f, 0x80, 0xff, before + 1U, before - 1U, before ^ 4U};
        for (size_t which = 0; which < sizeof values / sizeof *values; which++) {
            input[at] = (uint8_t)values[which];
            char name[80];
            snprintf(name, sizeof name, "%u in byte %zu of an image of %zu", input[at], at, image_len);
            reads_alike(scene->engine, input, image_len + BEHIND, name);
        }
        input[at] = before;
    }
}

static struct scene full_scene(const struct engine *engine, uint32_t n)
{
    struct scene scene = fresh_scene(engine, n, 1);
    give_rule(&scene, RULE_2);
    give_floor(&scene, MOST_SERVERS);
    fill_figures(&scene, MOST_ENTRIES, MOST_ENTRIES);
    return scene;
}

static struct scene with_bakes(struct scene scene)
{
    fill_bakes(&scene);
    return scene;
}

static void drawn_damages(const struct engine *engine)
{
    struct source source = {1};
    for (uint32_t number = 1; number <= DRAWN_IMAGES; number++) {
        uint8_t table[TABLE_BYTES];
        uint8_t image[MOST_IMAGE_BYTES];
        draw_odd_table(&source, table);
        size_t image_len = draw_image(&source, table, image);
        size_t length = chance(&source, 90) ? damage_image(&source, image, image_len, image_len) : image_len;
        char name[40];
        snprintf(name, sizeof name, "drawn image %u", number);
        reads_alike(engine, image, length, name);
    }
}

void check_damages(const struct engine *engine)
{
    const struct scene scenes[] = {
        ready_scene(engine),
        fresh_scene(engine, 1, 1),
        full_scene(engine, 1),
        full_scene(engine, 16),
        with_bakes(full_scene(engine, 1)),
        with_bakes(full_scene(engine, 16)),
    };
    every_byte_of_the_whole_case(engine);
    for (size_t which = 0; which < sizeof scenes / sizeof *scenes; which++) {
        every_cut(&scenes[which]);
        every_byte(&scenes[which]);
    }
    drawn_damages(engine);
}
