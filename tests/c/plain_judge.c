#include "plain_rules.h"

#include <string.h>

#include "layout.h"

/* The greatest number that the last four bytes of an action may be, for 3 to leave them alone. */
static uint32_t greatest_named(uint32_t kind)
{
    return kind == WRITE ? UINT32_MAX : names_set(kind) ? UINT16_MAX : 0;
}

uint32_t plain_parse(const uint8_t *bytes, uint32_t n, struct action *action)
{
    *action = (struct action){bytes[0], bytes[1], bytes[2], word(bytes, 1)};
    if (action->kind < ELECT || action->kind > LAST_KIND) {
        return NO_ACTION;
    }
    bool uses_j = names_j(action->kind);
    bool uses_set = names_set(action->kind);
    if (bytes[3] != 0 || (!uses_j && action->j != 0) || action->set > greatest_named(action->kind)) {
        return STRAY_FIELD;
    }
    if (action->i < 1 || action->i > n || (uses_j && (action->j < 1 || action->j > n))) {
        return NO_SUCH_SERVER;
    }
    bool fits = action->kind == STRETCH ? action->set <= MOST_ENTRIES : (action->set & ~all_servers(n)) == 0;
    if (uses_set && (action->set == 0 || !fits)) {
        return NO_SUCH_SET;
    }
    return TAKEN;
}

static bool reaches_majority(uint32_t servers, uint32_t set)
{
    return 2 * __builtin_popcount(servers & set) > __builtin_popcount(set);
}

static bool is_majority_of(uint32_t servers, uint32_t set)
{
    return (servers & ~set) == 0 && reaches_majority(servers, set);
}

static bool configuration_is_newer(const uint8_t *row, const uint8_t *other)
{
    uint32_t config_term = word(row, CONFIG_TERM);
    uint32_t other_config_term = word(other, CONFIG_TERM);
    return config_term > other_config_term
        || (config_term == other_config_term && word(row, VERSION) > word(other, VERSION));
}

static bool log_is_ahead(const uint8_t *row, const uint8_t *other)
{
    uint32_t last = last_entry(row);
    uint32_t other_last = last_entry(other);
    return last > other_last || (last == other_last && word(row, LOG_LENGTH) > word(other, LOG_LENGTH));
}

uint32_t plain_objection(const uint8_t *candidate, const uint8_t *voter)
{
    if (word(voter, TERM) > word(candidate, TERM)) {
        return LARGER_TERM;
    }
    if (configuration_is_newer(voter, candidate)) {
        return NEWER_CONFIGURATION;
    }
    return log_is_ahead(voter, candidate) ? LOG_AHEAD : TAKEN;
}

static uint32_t judge_elect(const uint8_t *table, const struct action *action)
{
    const uint8_t *candidate = table + row_start(action->i);
    if ((action->set & only(action->i)) == 0 || !is_majority_of(action->set, word(candidate, SET))) {
        return NO_MAJORITY;
    }
    uint32_t lowest = word(candidate, TERM) == CEILING ? AT_CEILING : TAKEN;
    for (uint32_t rest = action->set; rest != 0; rest &= rest - 1) {
        uint32_t voter = lowest_server(rest);
        uint32_t objection = plain_objection(candidate, table + row_start(voter));
        /* Voters come in rising order, so the first with a number is the lowest with it. */
        if (objection != TAKEN && (lowest == TAKEN || objection < number_of(lowest))) {
            lowest = at_server(objection, voter);
        }
    }
    return lowest;
}

static uint32_t with_configuration_of(const uint8_t *table, const uint8_t *primary)
{
    uint32_t version = word(primary, VERSION);
    uint32_t config_term = word(primary, CONFIG_TERM);
    uint32_t found = 0;
    for (uint32_t rest = word(primary, SET); rest != 0; rest &= rest - 1) {
        const uint8_t *member = table + row_start(lowest_server(rest));
        if (word(member, VERSION) == version && word(member, CONFIG_TERM) == config_term) {
            found |= rest & -rest;
        }
    }
    return found;
}

static uint32_t with_term_of(const uint8_t *table, const uint8_t *primary)
{
    uint32_t term = word(primary, TERM);
    uint32_t found = 0;
    for (uint32_t rest = word(primary, SET); rest != 0; rest &= rest - 1) {
        if (word(table + row_start(lowest_server(rest)), TERM) == term) {
            found |= rest & -rest;
        }
    }
    return found;
}

/* No length is asked: past a log's end stands 0, which is no term of an entry. */
static uint32_t holders_among(const uint8_t *table, uint32_t servers, size_t index, uint32_t term)
{
    uint32_t found = 0;
    for (uint32_t rest = servers; rest != 0; rest &= rest - 1) {
        if (word(table + row_start(lowest_server(rest)), ENTRIES + index) == term) {
            found |= rest & -rest;
        }
    }
    return found;
}

static bool p1_holds(const uint8_t *table, const uint8_t *primary, uint32_t with_term)
{
    uint32_t term = word(primary, TERM);
    uint32_t holders = with_term;
    bool marked = false;
    for (size_t index = 0; index < MOST_ENTRIES; index++) {
        if (word(table, MARKS + index) == term) {
            marked = true;
            holders = holders_among(table, holders, index, term);
        }
    }
    return marked && reaches_majority(holders, word(primary, SET));
}

/* Two majorities part where the old set's can take so many servers of its own that the others leave the new set one. */
static bool majorities_part(uint32_t old, uint32_t new)
{
    uint32_t needed = (uint32_t)__builtin_popcount(old) / 2 + 1;
    uint32_t own = (uint32_t)__builtin_popcount(old & ~new);
    uint32_t shared = needed > own ? needed - own : 0;
    uint32_t size = (uint32_t)__builtin_popcount(new);
    return 2 * (size - shared) > size;
}

static bool may_follow(const uint8_t *table, uint32_t old, uint32_t new)
{
    return word(table, RULE) == RULE_1 ? __builtin_popcount(new ^ old) == 1 : !majorities_part(old, new);
}

/* The next higher number that has bits of the set alone; 0 behind the set itself. */
static uint32_t next_subset(uint32_t subset, uint32_t set)
{
    return (subset - set) & set;
}

uint64_t plain_pair(const uint8_t *table, const struct action *action)
{
    uint32_t old = word(table + row_start(action->i), SET);
    uint32_t of_old = next_subset(0, old);
    while (!reaches_majority(of_old, old) || !reaches_majority(action->set & ~of_old, action->set)) {
        of_old = next_subset(of_old, old);
    }
    uint32_t left = action->set & ~of_old;
    uint32_t of_new = next_subset(0, left);
    while (!reaches_majority(of_new, action->set)) {
        of_new = next_subset(of_new, left);
    }
    return (uint64_t)of_old << OLD_SHIFT | (uint64_t)of_new << NEW_SHIFT;
}

static uint32_t judge_reconfigure(const uint8_t *table, const struct action *action)
{
    const uint8_t *primary = table + row_start(action->i);
    uint32_t set = word(primary, SET);
    if (word(primary, ROLE) != PRIMARY) {
        return WRONG_ROLE;
    }
    if (word(primary, VERSION) == CEILING) {
        return AT_CEILING;
    }
    if ((action->set & only(action->i)) == 0) {
        return LEAVES_OUT_ITSELF;
    }
    if (!may_follow(table, set, action->set)) {
        return NO_SUCH_CHANGE;
    }
    if ((uint32_t)__builtin_popcount(action->set) < word(table, FLOOR)) {
        return BELOW_FLOOR;
    }
    if (!reaches_majority(with_configuration_of(table, primary), set)) {
        return Q1_FAILS;
    }
    uint32_t with_term = with_term_of(table, primary);
    if (!reaches_majority(with_term, set)) {
        return Q2_FAILS;
    }
    return p1_holds(table, primary, with_term) ? TAKEN : P1_FAILS;
}

static uint32_t judge_send(const uint8_t *sender, const uint8_t *receiver)
{
    if (word(receiver, ROLE) != SECONDARY) {
        return WRONG_ROLE;
    }
    return configuration_is_newer(sender, receiver) ? TAKEN : NOT_NEWER;
}

static uint32_t judge_spread(const uint8_t *from, const uint8_t *to)
{
    return word(from, TERM) > word(to, TERM) ? TAKEN : NOT_LARGER;
}

static uint32_t judge_write(const uint8_t *writer)
{
    if (word(writer, ROLE) != PRIMARY) {
        return WRONG_ROLE;
    }
    return word(writer, LOG_LENGTH) < MOST_ENTRIES ? TAKEN : LOG_FULL;
}

static uint32_t judge_fetch(const uint8_t *fetcher, const uint8_t *source)
{
    if (word(fetcher, ROLE) != SECONDARY) {
        return WRONG_ROLE;
    }
    uint32_t length = word(fetcher, LOG_LENGTH);
    if (word(source, LOG_LENGTH) <= length) {
        return NOT_FETCHABLE;
    }
    bool joins = length == 0 || last_entry(fetcher) == word(source, ENTRIES + length - 1);
    return joins ? TAKEN : NOT_FETCHABLE;
}

static uint32_t judge_roll_back(const uint8_t *server, const uint8_t *other)
{
    if (word(server, ROLE) != SECONDARY) {
        return WRONG_ROLE;
    }
    if (last_entry(server) >= last_entry(other)) {
        return NOT_ROLLED_BACK;
    }
    uint32_t length = word(server, LOG_LENGTH);
    bool is_prefix = length <= word(other, LOG_LENGTH)
        && memcmp(server + 4 * ENTRIES, other + 4 * ENTRIES, 4 * length) == 0;
    return is_prefix ? NOT_ROLLED_BACK : TAKEN;
}

bool plain_supports(const uint8_t *primary, const uint8_t *member)
{
    return word(member, TERM) == word(primary, TERM)
        && word(member, ENTRIES + word(primary, LOG_LENGTH) - 1) == last_entry(primary);
}

static uint32_t judge_commit(const uint8_t *table, const struct action *action)
{
    const uint8_t *primary = table + row_start(action->i);
    if (word(primary, ROLE) != PRIMARY) {
        return WRONG_ROLE;
    }
    if (!is_majority_of(action->set, word(primary, SET))) {
        return NO_MAJORITY;
    }
    uint32_t term = word(primary, TERM);
    if (last_entry(primary) != term) {
        return NO_OWN_ENTRY;
    }
    for (uint32_t rest = action->set; rest != 0; rest &= rest - 1) {
        uint32_t member = lowest_server(rest);
        if (!plain_supports(primary, table + row_start(member))) {
            return at_server(NOT_SUPPORTED, member);
        }
    }
    uint32_t mark = word(table, MARKS + word(primary, LOG_LENGTH) - 1);
    return mark == 0 || mark == term ? TAKEN : MARKED_OTHERWISE;
}

uint32_t plain_judge(const uint8_t *table, const struct action *action)
{
    const uint8_t *row = table + row_start(action->i);
    const uint8_t *other = table + row_start(action->j);
    switch (action->kind) {
    case ELECT:
        return judge_elect(table, action);
    case RECONFIGURE:
        return judge_reconfigure(table, action);
    case SEND:
        return judge_send(row, other);
    case SPREAD:
        return judge_spread(row, other);
    case WRITE:
        return judge_write(row);
    case FETCH:
    case STRETCH:
        return judge_fetch(row, other);
    case ROLL_BACK:
        return judge_roll_back(row, other);
    default:
        return judge_commit(table, action);
    }
}
