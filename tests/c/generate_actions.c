#include "generate.h"

#include "plain_rules.h"

/* Splitmix64: one word of state, so that a seed alone names a whole comparison. */
uint64_t draw(struct source *source)
{
    source->state += UINT64_C(0x9e3779b97f4a7c15);
    uint64_t mixed = source->state;
    mixed = (mixed ^ (mixed >> 30)) * UINT64_C(0xbf58476d1ce4e5b9);
    mixed = (mixed ^ (mixed >> 27)) * UINT64_C(0x94d049bb133111eb);
    return mixed ^ (mixed >> 31);
}

uint32_t below(struct source *source, uint32_t bound)
{
    return (uint32_t)((draw(source) >> 32) * bound >> 32);
}

uint32_t between(struct source *source, uint32_t least, uint32_t most)
{
    return least + below(source, most - least + 1);
}

bool chance(struct source *source, uint32_t percent)
{
    return below(source, 100) < percent;
}

uint32_t draw_share_of_bakes(struct source *source)
{
    return chance(source, 50) ? 0 : between(source, 1, 100);
}

/* A few small numbers, so that equal bakes meet often, and else any that there is. */
uint32_t draw_bake(struct source *source, uint32_t share)
{
    if (share == 0 || !chance(source, share)) {
        return 0;
    }
    uint32_t any = (uint32_t)draw(source);
    return chance(source, 50) ? between(source, 1, 3) : any >> below(source, 32);
}

/* Plans of one temper only would all end in the same few situations. */
struct temper draw_temper(struct source *source)
{
    const struct { uint32_t least, most; } weights[LAST_KIND + 1] = {
        [ELECT] = {1, 10}, [RECONFIGURE] = {20, 100}, [SEND] = {20, 80},      [SPREAD] = {5, 40},
        [WRITE] = {5, 40}, [FETCH] = {40, 120},       [ROLL_BACK] = {10, 40}, [COMMIT] = {10, 50},
        [STRETCH] = {5, 30},
    };
    struct temper temper = {.missing = between(source, 2, 25)};
    temper.spoiled = between(source, 2, 20);
    temper.baked = draw_share_of_bakes(source);
    for (uint32_t kind = ELECT; kind <= LAST_KIND; kind++) {
        temper.weight[kind] = between(source, weights[kind].least, weights[kind].most);
    }
    return temper;
}

/* Drawn one after another and not within one call, where C leaves the order open: with another compiler a seed would
 * then name another plan. */
void draw_blind_action(struct source *source, const struct temper *temper, uint32_t n, uint8_t *action)
{
    uint32_t kind = below(source, LAST_KIND + 2);
    uint32_t i = between(source, 1, n);
    uint32_t j = below(source, n + 2);
    uint32_t set = (uint32_t)draw(source);
    if (chance(source, 5)) {
        i = below(source, 256);
    }
    if (chance(source, 90)) {
        set = kind == STRETCH ? set % (MOST_ENTRIES + 2) : set & all_servers(n);
    }
    bool has_j = names_j(kind) != chance(source, 5);
    bool has_set = names_set(kind) != chance(source, 5);
    uint32_t bake = draw_bake(source, temper->baked);
    put_action(action, kind, i, has_j ? j : 0, kind == WRITE ? bake : has_set ? set & UINT16_MAX : 0);
}

static uint32_t draw_kind(struct source *source, const struct temper *temper)
{
    uint32_t total = 0;
    for (uint32_t kind = ELECT; kind <= LAST_KIND; kind++) {
        total += temper->weight[kind];
    }
    uint32_t left = below(source, total);
    uint32_t kind = ELECT;
    while (left >= temper->weight[kind]) {
        left -= temper->weight[kind];
        kind++;
    }
    return kind;
}

static uint32_t willing_voters(const uint8_t *table, uint32_t i)
{
    const uint8_t *candidate = table + row_start(i);
    uint32_t found = 0;
    for (uint32_t rest = word(candidate, SET); rest != 0; rest &= rest - 1) {
        if (plain_objection(candidate, table + row_start(lowest_server(rest))) == TAKEN) {
            found |= rest & -rest;
        }
    }
    return found;
}

static uint32_t supporters(const uint8_t *table, uint32_t i)
{
    const uint8_t *primary = table + row_start(i);
    uint32_t found = 0;
    if (word(primary, LOG_LENGTH) == 0) {
        return found;
    }
    for (uint32_t rest = word(primary, SET); rest != 0; rest &= rest - 1) {
        if (plain_supports(primary, table + row_start(lowest_server(rest)))) {
            found |= rest & -rest;
        }
    }
    return found;
}

/* Refusals that are reached only by an action with nothing else amiss. */
static bool is_near(uint32_t number)
{
    return number >= LARGER_TERM && number != LEAVES_OUT_ITSELF;
}

/* Two neighbours change places with what the set has of them, which only rule 2 may allow. */
static uint32_t change_two(uint32_t set, uint32_t server, uint32_t n)
{
    return set ^ only(server) ^ only(server % n + 1);
}

/* An action of its kind at i that may be taken or just miss. Where no second server is named, `other` tells apart
 * what there is to offer, up to 2n: a vote by those who are for it, and by all; a change of one server, and of two. */
static bool shape_action(const uint8_t *table, uint32_t i, uint32_t other, struct action *action)
{
    uint32_t set = word(table + row_start(i), SET);
    uint32_t n = word(table, SERVERS);
    action->i = i;
    switch (action->kind) {
    case ELECT:
        action->set = other == 1 ? willing_voters(table, i) : set;
        return other <= 2;
    case RECONFIGURE:
        action->set = other <= n ? set ^ only(other) : change_two(set, other - n, n);
        return action->set != 0 && (other <= n || word(table, RULE) == RULE_2);
    case WRITE:
        return other == 1;
    case COMMIT:
        action->set = other == 1 ? supporters(table, i) : set;
        return other <= 2;
    case STRETCH:
        action->set = MOST_ENTRIES;
        action->j = other;
        return other <= n;
    default:
        action->j = other;
        return other <= n;
    }
}

/* Each action that will do is chosen with the same chance, without a list of them. */
static bool choose_action(struct source *source, const uint8_t *table, uint32_t kind, bool to_be_taken,
                          struct action *chosen)
{
    uint32_t n = word(table, SERVERS);
    uint32_t found = 0;
    for (uint32_t i = 1; i <= n; i++) {
        for (uint32_t other = 1; other <= 2 * n; other++) {
            struct action action = {.kind = kind};
            if (!shape_action(table, i, other, &action)) {
                continue;
            }
            uint32_t number = number_of(plain_judge(table, &action));
            if (to_be_taken ? number == TAKEN : is_near(number)) {
                found++;
                if (below(source, found) == 0) {
                    *chosen = action;
                }
            }
        }
    }
    return found > 0;
}

/* Voting by all who would is the rare case; a bare majority is what proofs and mistakes turn on. */
static void thin_voters(struct source *source, const uint8_t *table, struct action *action)
{
    if (action->kind != ELECT && action->kind != COMMIT) {
        return;
    }
    uint32_t number = number_of(plain_judge(table, action));
    for (uint32_t tries = below(source, 16); tries > 0; tries--) {
        struct action thinner = *action;
        thinner.set &= ~only(between(source, 1, word(table, SERVERS)));
        if (thinner.set != 0 && number_of(plain_judge(table, &thinner)) == number) {
            *action = thinner;
        }
    }
}

static void spoil_action(struct source *source, uint32_t n, uint8_t *action)
{
    bool has_set = names_set(action[0]);
    uint32_t bake = action[0] == WRITE ? word(action, 1) : 0;
    uint32_t server = below(source, n);
    uint32_t bit = below(source, 8);
    switch (below(source, 12)) {
    case 0:
        action[0] = (uint8_t)below(source, LAST_KIND + 2);
        break;
    case 1:
        action[below(source, ACTION_BYTES)] ^= (uint8_t)(1U << bit);
        break;
    case 2:
    case 3:
    case 4:
        action[1] = (uint8_t)(server + 1);
        break;
    default:
        if (has_set) {
            action[4 + server / 8] ^= (uint8_t)(1U << server % 8);
        } else {
            action[2] = (uint8_t)(server + 1);
        }
        break;
    }
    /* Another bake, or a set that is now one, is nothing wrong; the byte before it is. */
    if (action[0] == WRITE && word(action, 1) != bake) {
        put_action(action, WRITE, action[1], action[2], bake);
        action[3] = 1;
    }
}

/* Every kind gets its turn before the search is given up: were it given up sooner, a plan would be made of blind
 * actions just where few kinds are possible. */
static bool find_action(struct source *source, const struct temper *temper, const uint8_t *table,
                        struct action *action)
{
    bool to_be_taken = !chance(source, temper->missing);
    struct temper untried = *temper;
    for (uint32_t kind = ELECT; !to_be_taken && kind <= LAST_KIND; kind++) {
        untried.weight[kind] = 1;
    }
    bool found = false;
    for (uint32_t tries = ELECT; !found && tries <= LAST_KIND; tries++) {
        uint32_t kind = draw_kind(source, &untried);
        untried.weight[kind] = 0;
        found = choose_action(source, table, kind, to_be_taken, action);
    }
    return found;
}

void draw_guided_action(struct source *source, const struct temper *temper, const uint8_t *table, uint8_t *bytes)
{
    uint32_t n = word(table, SERVERS);
    struct action action;
    if (!find_action(source, temper, table, &action)) {
        draw_blind_action(source, temper, n, bytes);
        return;
    }
    thin_voters(source, table, &action);
    /* Any count is taken as any other is, and so is any bake. */
    if (action.kind == STRETCH && chance(source, 70)) {
        action.set = between(source, 1, chance(source, 70) ? 4 : MOST_ENTRIES);
    } else if (action.kind == WRITE) {
        action.set = draw_bake(source, temper->baked);
    }
    put_action(bytes, action.kind, action.i, action.j, action.set);
    if (chance(source, temper->spoiled)) {
        spoil_action(source, n, bytes);
    }
}

void draw_guided_plan(struct source *source, const struct temper *temper, uint8_t *table, size_t count,
                      uint8_t *actions)
{
    for (size_t piece = 0; piece < count; piece++) {
        draw_guided_action(source, temper, table, actions + ACTION_BYTES * piece);
        plain_play(table, actions + ACTION_BYTES * piece);
    }
}
