#include "plain.h"

#include <string.h>

#include "layout.h"
#include "plain_rules.h"

/* Most of a table is zeros, and memcmp goes through them quicker than a loop over words. */
static bool words_are_zero(const uint8_t *row, size_t from, size_t end)
{
    static const uint8_t zeros[TABLE_BYTES];
    return memcmp(row + 4 * from, zeros, 4 * (end - from)) == 0;
}

static bool is_counted_from_one(uint32_t value)
{
    return value >= 1 && value <= CEILING;
}

static bool is_set_within(uint32_t set, uint32_t n)
{
    return set != 0 && (set & ~all_servers(n)) == 0;
}

static bool log_is_whole(const uint8_t *row)
{
    uint32_t length = word(row, LOG_LENGTH);
    if (length > MOST_ENTRIES) {
        return false;
    }
    for (size_t column = ENTRIES; column < ENTRIES + length; column++) {
        if (!is_counted_from_one(word(row, column))) {
            return false;
        }
    }
    return words_are_zero(row, ENTRIES + length, BAKES) && words_are_zero(row, BAKES + length, ROW_WORDS);
}

static bool server_is_whole(const uint8_t *row, uint32_t n)
{
    uint32_t role = word(row, ROLE);
    uint32_t term = word(row, TERM);
    return role <= PRIMARY && term <= CEILING && (role == SECONDARY || term >= 1)
        && is_set_within(word(row, SET), n) && is_counted_from_one(word(row, VERSION))
        && word(row, CONFIG_TERM) <= CEILING && log_is_whole(row);
}

static bool marks_are_whole(const uint8_t *table)
{
    for (size_t column = MARKS; column < MARKS_END; column++) {
        if (word(table, column) > CEILING) {
            return false;
        }
    }
    return words_are_zero(table, SPARE, MARKS) && words_are_zero(table, MARKS_END, ROW_WORDS);
}

bool plain_is_whole(const uint8_t *table, size_t table_len)
{
    if (table_len != TABLE_BYTES) {
        return false;
    }
    uint32_t n = word(table, SERVERS);
    if (n < 1 || n > MOST_SERVERS || word(table, RULE) > RULE_2 || word(table, FLOOR) > MOST_SERVERS
        || !marks_are_whole(table)) {
        return false;
    }
    for (uint32_t server = 1; server <= n; server++) {
        if (!server_is_whole(table + row_start(server), n)) {
            return false;
        }
    }
    return words_are_zero(table + row_start(n + 1), 0, (MOST_SERVERS - n) * ROW_WORDS);
}

size_t plain_table_bytes(void)
{
    return TABLE_BYTES;
}

uint32_t plain_fresh(uint8_t *table, size_t table_len, uint32_t n, uint32_t set, uint32_t rule, uint32_t floor)
{
    if (table_len != TABLE_BYTES || rule > RULE_2 || floor > MOST_SERVERS) {
        return BROKEN_TABLE;
    }
    if (n < 1 || n > MOST_SERVERS) {
        return BAD_NUMBER_OF_SERVERS;
    }
    if (!is_set_within(set, n)) {
        return NO_SUCH_SET;
    }
    memset(table, 0, TABLE_BYTES);
    put_word(table, SERVERS, n);
    put_word(table, RULE, rule);
    put_word(table, FLOOR, floor);
    for (uint32_t server = 1; server <= n; server++) {
        uint8_t *row = table + row_start(server);
        put_word(row, SET, set);
        put_word(row, VERSION, 1);
    }
    return TAKEN;
}

uint32_t plain_step(uint8_t *table, size_t table_len, const uint8_t *action, size_t action_len, uint64_t *reply)
{
    *reply = BROKEN_TABLE;
    if (plain_is_whole(table, table_len)) {
        *reply = action_len == ACTION_BYTES ? plain_play(table, action) : NO_ACTION;
    }
    return number_of(*reply);
}

uint64_t plain_run(uint8_t *table, size_t table_len, const uint8_t *actions, size_t actions_len,
                   uint8_t *replies, size_t replies_len)
{
    size_t whole_pieces = actions_len / ACTION_BYTES;
    size_t pieces = whole_pieces + (actions_len % ACTION_BYTES != 0);
    size_t room = replies_len / REPLY_BYTES;
    size_t played = pieces < room ? pieces : room;
    bool whole = plain_is_whole(table, table_len);
    for (size_t piece = 0; piece < played; piece++) {
        uint64_t reply = BROKEN_TABLE;
        if (whole) {
            reply = piece < whole_pieces ? plain_play(table, actions + ACTION_BYTES * piece) : NO_ACTION;
        }
        put_reply(replies, piece, reply);
    }
    return played;
}
