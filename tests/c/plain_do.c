#include "plain_rules.h"

#include "layout.h"

static void do_elect(uint8_t *table, const struct action *action)
{
    uint8_t *winner = table + row_start(action->i);
    uint32_t term = word(winner, TERM) + 1;
    for (uint32_t rest = action->set; rest != 0; rest &= rest - 1) {
        uint8_t *voter = table + row_start(lowest_server(rest));
        put_word(voter, TERM, term);
        put_word(voter, ROLE, SECONDARY);
    }
    put_word(winner, ROLE, PRIMARY);
    put_word(winner, CONFIG_TERM, term);
}

static void do_reconfigure(uint8_t *primary, uint32_t set)
{
    put_word(primary, SET, set);
    put_word(primary, VERSION, word(primary, VERSION) + 1);
}

static void do_send(const uint8_t *sender, uint8_t *receiver)
{
    put_word(receiver, SET, word(sender, SET));
    put_word(receiver, VERSION, word(sender, VERSION));
    put_word(receiver, CONFIG_TERM, word(sender, CONFIG_TERM));
}

static void do_spread(const uint8_t *from, uint8_t *to)
{
    put_word(to, TERM, word(from, TERM));
    put_word(to, ROLE, SECONDARY);
}

static void append(uint8_t *row, uint32_t term, uint32_t bake)
{
    uint32_t length = word(row, LOG_LENGTH);
    put_word(row, ENTRIES + length, term);
    put_word(row, BAKES + length, bake);
    put_word(row, LOG_LENGTH, length + 1);
}

static void do_fetch(uint8_t *fetcher, const uint8_t *source)
{
    uint32_t length = word(fetcher, LOG_LENGTH);
    append(fetcher, word(source, ENTRIES + length), word(source, BAKES + length));
}

static void do_roll_back(uint8_t *row)
{
    uint32_t length = word(row, LOG_LENGTH) - 1;
    put_word(row, ENTRIES + length, 0);
    put_word(row, BAKES + length, 0);
    put_word(row, LOG_LENGTH, length);
}

void plain_do(uint8_t *table, const struct action *action)
{
    uint8_t *row = table + row_start(action->i);
    uint8_t *other = table + row_start(action->j);
    switch (action->kind) {
    case ELECT:
        do_elect(table, action);
        break;
    case RECONFIGURE:
        do_reconfigure(row, action->set);
        break;
    case SEND:
        do_send(row, other);
        break;
    case SPREAD:
        do_spread(row, other);
        break;
    case WRITE:
        append(row, word(row, TERM), action->set);
        break;
    case FETCH:
        do_fetch(row, other);
        break;
    case ROLL_BACK:
        do_roll_back(row);
        break;
    default:
        put_word(table, MARKS + word(row, LOG_LENGTH) - 1, word(row, TERM));
        break;
    }
}

/* One fetch after another, each judged by itself; answers how many were taken. */
static uint64_t do_stretch(uint8_t *table, const struct action *action)
{
    const struct action fetch = {.kind = FETCH, .i = action->i, .j = action->j};
    uint32_t copied = 0;
    while (copied < action->set && plain_judge(table, &fetch) == TAKEN) {
        plain_do(table, &fetch);
        copied++;
    }
    return copied;
}

uint64_t plain_play(uint8_t *table, const uint8_t *bytes)
{
    struct action action;
    uint64_t reply = plain_parse(bytes, word(table, SERVERS), &action);
    if (reply == TAKEN) {
        reply = plain_judge(table, &action);
    }
    if (reply == TAKEN && action.kind == STRETCH) {
        reply |= do_stretch(table, &action) << COPIED_SHIFT;
    } else if (reply == TAKEN) {
        plain_do(table, &action);
    }
    if (reply == NO_SUCH_CHANGE && word(table, RULE) == RULE_2) {
        reply |= plain_pair(table, &action);
    }
    return reply;
}
