#include "generate.h"

#include <string.h>

#include "plain.h"

/* Figures are drawn close above a base, so that equal and neighbouring ones meet often. */
struct bases {
    uint32_t n;
    uint32_t width;
    uint32_t term;
    uint32_t version;
    uint32_t config_term;
    uint32_t set;
    uint32_t trunk_length;
    uint32_t trunk[MOST_ENTRIES];
    uint32_t share_of_bakes;
    uint32_t bakes[MOST_ENTRIES];
};

static uint32_t draw_base(struct source *source)
{
    const uint32_t bases[] = {0, 0, 1, 2, 7, 1000, CEILING - 3, CEILING - 1};
    return bases[below(source, sizeof bases / sizeof *bases)];
}

static uint32_t draw_above(struct source *source, uint32_t base, uint32_t width, uint32_t least)
{
    uint32_t value = base + below(source, width);
    if (value > CEILING) {
        return CEILING;
    }
    return value < least ? least : value;
}

static uint32_t draw_set(struct source *source, uint32_t n)
{
    uint32_t set = (uint32_t)draw(source) & all_servers(n);
    return set == 0 ? only(between(source, 1, n)) : set;
}

static struct bases draw_bases(struct source *source)
{
    struct bases bases = {.n = between(source, 1, MOST_SERVERS)};
    bases.width = between(source, 1, 3);
    bases.term = draw_base(source);
    bases.version = draw_base(source);
    bases.config_term = chance(source, 60) ? bases.term : draw_base(source);
    bases.set = draw_set(source, bases.n);
    bases.trunk_length = chance(source, 80) ? below(source, 8) : between(source, 60, MOST_ENTRIES);
    bases.share_of_bakes = draw_share_of_bakes(source);
    for (size_t index = 0; index < MOST_ENTRIES; index++) {
        bases.trunk[index] = draw_above(source, bases.term, bases.width, 1);
        bases.bakes[index] = draw_bake(source, bases.share_of_bakes);
    }
    return bases;
}

/* Logs that leave one trunk here and there, as logs of one store do; bakes also where terms do not, as in no store. */
static void draw_log(struct source *source, const struct bases *bases, uint8_t *row)
{
    uint32_t length = bases->trunk_length;
    if (chance(source, 40)) {
        length = below(source, length + 1);
    }
    uint32_t leaves_at = chance(source, 30) ? below(source, length + 1) : MOST_ENTRIES;
    put_word(row, LOG_LENGTH, length);
    for (size_t index = 0; index < length; index++) {
        uint32_t own = draw_above(source, bases->term, bases->width, 1);
        uint32_t own_bake = draw_bake(source, bases->share_of_bakes);
        bool keeps_bake = index < leaves_at && chance(source, 90);
        put_word(row, ENTRIES + index, index < leaves_at ? bases->trunk[index] : own);
        put_word(row, BAKES + index, keeps_bake ? bases->bakes[index] : own_bake);
    }
}

static void draw_server(struct source *source, const struct bases *bases, uint8_t *row)
{
    uint32_t role = chance(source, 40) ? PRIMARY : SECONDARY;
    put_word(row, ROLE, role);
    put_word(row, TERM, draw_above(source, bases->term, bases->width, role == PRIMARY ? 1 : 0));
    put_word(row, SET, chance(source, 70) ? bases->set : draw_set(source, bases->n));
    put_word(row, VERSION, draw_above(source, bases->version, bases->width, 1));
    put_word(row, CONFIG_TERM, draw_above(source, bases->config_term, bases->width, 0));
    draw_log(source, bases, row);
}

static void draw_marks(struct source *source, const struct bases *bases, uint8_t *table)
{
    uint32_t end = chance(source, 60) ? bases->trunk_length : MOST_ENTRIES;
    uint32_t dense = below(source, 100);
    uint32_t agreeing = between(source, 40, 100);
    for (size_t index = 0; index < end; index++) {
        if (chance(source, dense)) {
            bool on_trunk = chance(source, agreeing);
            put_word(table, MARKS + index, on_trunk ? bases->trunk[index] : draw_above(source, bases->term, 3, 0));
        }
    }
}

/* Mostly one that forbids nothing, or else one that the table's sets come near to; now and then one above them all. */
static uint32_t draw_floor(struct source *source, uint32_t n)
{
    if (chance(source, 60)) {
        return below(source, 2);
    }
    return chance(source, 75) ? between(source, 1, n) : between(source, 1, MOST_SERVERS);
}

void draw_fresh_table(struct source *source, uint8_t *table)
{
    uint32_t n = between(source, 1, MOST_SERVERS);
    uint32_t set = chance(source, 50) ? all_servers(n) : (uint32_t)draw(source) & all_servers(n);
    uint32_t rule = between(source, RULE_1, RULE_2);
    plain_fresh(table, TABLE_BYTES, n, set == 0 ? 1 : set, rule, draw_floor(source, n));
}

void lift_counters(struct source *source, uint8_t *table)
{
    uint32_t term = CEILING - below(source, 6);
    uint32_t version = CEILING - below(source, 4);
    for (uint32_t server = 1; server <= word(table, SERVERS); server++) {
        uint8_t *row = table + row_start(server);
        put_word(row, TERM, term);
        put_word(row, CONFIG_TERM, term);
        put_word(row, VERSION, version);
    }
}

void draw_odd_table(struct source *source, uint8_t *table)
{
    struct bases bases = draw_bases(source);
    memset(table, 0, TABLE_BYTES);
    put_word(table, SERVERS, bases.n);
    put_word(table, RULE, between(source, RULE_1, RULE_2));
    put_word(table, FLOOR, draw_floor(source, bases.n));
    for (uint32_t server = 1; server <= bases.n; server++) {
        draw_server(source, &bases, table + row_start(server));
    }
    draw_marks(source, &bases, table);
}

/* A column that says something in a row of this log length. */
static size_t draw_column(struct source *source, uint32_t length)
{
    uint32_t column = below(source, 9);
    bool is_entry = column >= LOG_LENGTH && length > 0;
    size_t entries = column == 8 ? BAKES : ENTRIES;
    return is_entry ? entries + below(source, length) : column % LOG_LENGTH;
}

void disturb_table(struct source *source, uint8_t *table)
{
    uint32_t n = word(table, SERVERS);
    const uint8_t *model = table + row_start(between(source, 1, n));
    uint8_t *row = table + row_start(between(source, 1, n));
    size_t column = draw_column(source, word(row, LOG_LENGTH));
    if (chance(source, 20)) {
        row = table;
        uint32_t length = word(model, LOG_LENGTH);
        column = MARKS + (length > 0 && chance(source, 70) ? length - 1 : below(source, MOST_ENTRIES));
    }
    if (chance(source, 5)) {
        row = table;
        column = chance(source, 50) ? RULE : FLOOR;
    }
    uint32_t value = word(row, column);
    switch (below(source, 4)) {
    case 0:
        value++;
        break;
    case 1:
        value--;
        break;
    case 2:
        value = word(model, column);
        break;
    default:
        value = draw_base(source);
        break;
    }
    put_word(row, column, value);
}

/* The place of a bake that has no entry; a full log has no such place, and gives its last. */
static size_t draw_stray_bake(struct source *source, uint32_t length)
{
    return BAKES + (length < MOST_ENTRIES ? between(source, length, MOST_ENTRIES - 1) : MOST_ENTRIES - 1);
}

void spoil_table(struct source *source, uint8_t *table)
{
    const uint32_t values[] = {
        0, 1, 2, 17, 64, 65, 1 << 16, CEILING, (uint32_t)CEILING + 1, UINT32_C(1) << 31, UINT32_MAX,
    };
    uint8_t *row = table + row_start(below(source, MOST_SERVERS + 1));
    size_t column = chance(source, 50) ? below(source, ENTRIES) : below(source, ROW_WORDS);
    uint32_t value = values[below(source, sizeof values / sizeof *values)];
    if (chance(source, 20)) {
        row = table + row_start(below(source, word(table, SERVERS) + 1));
        column = draw_stray_bake(source, row == table ? 0 : word(row, LOG_LENGTH));
    }
    put_word(row, column, value);
}
