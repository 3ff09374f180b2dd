/* The plain engine's parts. All but plain_is_whole rely on a table that is not broken. */
#ifndef PLAIN_RULES_H
#define PLAIN_RULES_H

#include <stdbool.h>
#include <stddef.h>
#include <stdint.h>

enum reply {
    TAKEN = 0,
    BROKEN_TABLE = 1,
    NO_ACTION = 2,
    STRAY_FIELD = 3,
    NO_SUCH_SERVER = 4,
    NO_SUCH_SET = 5,
    WRONG_ROLE = 6,
    NO_MAJORITY = 7,
    LARGER_TERM = 8,
    NEWER_CONFIGURATION = 9,
    LOG_AHEAD = 10,
    AT_CEILING = 11,
    LEAVES_OUT_ITSELF = 12,
    NO_SUCH_CHANGE = 13,
    Q1_FAILS = 14,
    Q2_FAILS = 15,
    P1_FAILS = 16,
    NOT_NEWER = 17,
    NOT_LARGER = 18,
    LOG_FULL = 19,
    NOT_FETCHABLE = 20,
    NOT_ROLLED_BACK = 21,
    NO_OWN_ENTRY = 22,
    NOT_SUPPORTED = 23,
    MARKED_OTHERWISE = 24,
    BELOW_FLOOR = 25,
    SHORT_IMAGE = 30,
    BAD_OPENING = 31,
    BAD_NUMBER_OF_SERVERS = 32,
    BAD_CONTENTS = 33,
    BAD_FIELD = 34,
    SHORT_BUFFER = 35
};

struct action {
    uint32_t kind;
    uint32_t i;
    uint32_t j;
    /* Or a stretch's count, or a write's bake. */
    uint32_t set;
};

bool plain_is_whole(const uint8_t *table, size_t table_len);

/* What the 8 bytes say by themselves, given n: TAKEN or one of 2 to 5. */
uint32_t plain_parse(const uint8_t *bytes, uint32_t n, struct action *action);

/* What the table says to a parsed action: TAKEN or one of 6 to 25; 8, 9, 10 and 23 with the lowest server of the set at fault, at
 * its place in the reply. */
uint32_t plain_judge(const uint8_t *table, const struct action *action);

/* What a change that rule 2 refuses shows, at its place in the reply: the lowest majorities of the old set and of the new
 * one without a common server. */
uint64_t plain_pair(const uint8_t *table, const struct action *action);

/* Does a taken action of any kind but a stretch, which is as many fetches. */
void plain_do(uint8_t *table, const struct action *action);

/* Parses, judges and, if taken, does; answers all of the reply. */
uint64_t plain_play(uint8_t *table, const uint8_t *bytes);

/* Why this voter will not have this candidate: one of 8 to 10, or TAKEN. */
uint32_t plain_objection(const uint8_t *candidate, const uint8_t *voter);

/* Whether this member stands behind the last entry of the primary's log, which is not empty. */
bool plain_supports(const uint8_t *primary, const uint8_t *member);

#endif
