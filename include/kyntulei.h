/* Kyntulei: judges and plays steps of a replicated store's configuration protocol on a table of up to 16 servers.
 *
 * WHAT THE CALLER KEEPS. The functions are proved for every content and every length of what is lent, and take on
 * trust only what C cannot show them:
 *   - a pointer is valid for the length given beside it, for writing too where it is not const; where that length is
 *     0 it is not followed and may be NULL. It may stand at any address: no alignment is asked
 *   - slices lent to one call do not overlap
 *   - `end` and `reply` point to a number of their own, aligned as C aligns it, outside every slice of the call
 *   - while a call lasts, no other thread is at what it was lent, but to read what is const
 * Nothing is kept between calls: the table slice is the whole state, and calls on different slices may run at once.
 *
 * THE TABLE SLICE is 17 rows of 134 unsigned words of 4 bytes, low byte first: 9,112 bytes.
 *   Row 0:                  word 0         n, the number of servers, 1 to 16
 *                           word 1         the rule: 0 for rule 1, 1 for rule 2
 *                           word 2         the floor, 0 to 16: how many members a new set has at least
 *                           words 3..5     0
 *                           words 6..69    the marks of positions 1..64: a committed term, or 0
 *                           words 70..133  0
 *   Row s, for server s:    word 0         role: 0 secondary, 1 primary
 *                           word 1         term, up to 1,000,000,000; a primary's is at least 1
 *                           word 2         set of its configuration: not empty, bit s-1 for server s, no bit above n
 *                           word 3         version of its configuration, 1 to 1,000,000,000
 *                           word 4         term of its configuration, up to 1,000,000,000
 *                           word 5         number of entries in its log, up to 64
 *                           words 6..69    the terms of the log's entries, each 1 to 1,000,000,000; 0 past its end
 *                           words 70..133  the bakes of the same entries, each any number; 0 past the log's end
 *   Rows past n are 0. Marks go up to 1,000,000,000. A slice of any other length or contents is a broken table.
 *   An entry is a term and the number of the bake that it is about. Logs are compared by their terms; a bake goes where
 *   its entry goes, and decides nothing.
 *
 * THE TABLE IMAGE is a table in fewer bytes, as a file carries it; kyntulei_read makes the slice of it, and
 * kyntulei_write makes it of the slice. Here, too, the low byte of a number leads.
 *   Bytes 0..3              the letters SITE
 *   Byte 4                  n, 1 to 16
 *   Byte 5                  1 for log entries of 8 bytes, term and bake; 0 for entries of 4 bytes, the term alone, and
 *                           every bake is 0. kyntulei_write puts 0 exactly where all bakes are 0
 *   Byte 6                  the rule: 0 for rule 1, 1 for rule 2
 *   Byte 7                  the floor, 0 to 16
 *   Bytes 8..11+4n          the contents: an entry for the marks and behind it one for every server, n+1 in all. An
 *                           entry is 2 bytes of offset, where the body starts in the image, and 2 bytes of length
 *   From byte 12+4n         the bodies, in the order of their entries and without gaps
 *   The marks' body:        4 bytes for each position from 1 on; 0 to 64 positions, and the last one's mark is not 0
 *   A server's body:        byte 0         role
 *                           byte 1         0
 *                           bytes 2..3     set of its configuration
 *                           bytes 4..7     term
 *                           bytes 8..11    version of its configuration
 *                           bytes 12..15   term of its configuration
 *                           from byte 16   the log's entries, 0 to 64 of them, each as wide as byte 5 of the image says
 *   The figures are those of the table slice, within the same bounds. The longest image has 8,780 bytes.
 *
 * AN ACTION is 8 bytes: its kind in byte 0, server i in byte 1, server j in byte 2, and from byte 4 on, low byte first,
 * a set or a count in 2 bytes, or a bake in 4. Byte 3, and what a kind does not name below, have to be 0.
 *   1 elect        i, set   i leads, if the servers in set vote for it
 *   2 reconfigure  i, set   i's configuration gets the new set
 *   3 send         i, j     j takes over i's configuration
 *   4 spread       i, j     j hears of i's term
 *   5 write        i, bake  i's log grows by an entry of i's term and this bake, which may be any number
 *   6 fetch        i, j     i's log takes over the next entry of j's, term and bake
 *   7 roll back    i, j     i's log, held against j's, loses an entry
 *   8 commit       i, set   i's last entry is marked, if the servers in set have it
 *   9 stretch      i, j     with a count of 1 to 64 for the set: so many fetches one after another, or as many as are taken
 *                           before one would be refused
 *
 * A REPLY has 8 bytes, as an action has. Where it is given as one number, the low byte of that is byte 0.
 *   Byte 0                  its number: 0 says taken, any other is a refusal
 *   Byte 1                  of refusals 8, 9, 10 and 23: the lowest server of the set that has the fault of that number.
 *                           Else 0
 *   Byte 2                  of a stretch that is taken, how many entries were copied, 1 to 64. Else 0
 *   Byte 3                  0
 *   Bytes 4..5, 6..7        under rule 2, of refusal 13: a majority of the old set and one of the new without a common
 *                           server, as sets, low byte first; of all such pairs the one whose old majority is the
 *                           lowest number, and among these the one with the lowest new majority. Else 0
 *
 * REFUSALS. The table keeps every byte it had; of several grounds the one with the smallest number is named, but 25 is
 * looked at where it stands here, directly behind 13 and before 14.
 *    1  the table is broken (looked at before the action, so also for an action of a wrong length)
 *    2  the action's length is not 8, or its kind is not one of the nine
 *    3  a byte that this kind does not name is not 0
 *    4  server i, or j where the kind names it, is not one of 1..n
 *    5  the set named is empty or reaches past server n; the count is not 1 to 64
 *    6  role: reconfigure, write and commit want a primary i; fetch, roll back and stretch a secondary i; send a secondary
 *       j, whatever i is
 *    7  elect, commit: the set is not within i's set or not more than half of it; elect: i itself is missing
 *    8  elect: somebody in the set is at a later term than i; byte 1 of the reply says who, and so it does of 9 and 10
 *    9  elect: somebody in the set has a newer configuration than i (the configuration's term counts before its
 *       version)
 *   10  elect: somebody's log in the set is ahead of i's (last entry first, then length)
 *   11  the counter that has to grow is at 1,000,000,000: i's term (elect), i's version (reconfigure)
 *   12  reconfigure: the new set leaves i out
 *   13  reconfigure, rule 1: old and new set do not differ in exactly one server; rule 2: some majority of the old set
 *       and some majority of the new one have no server in common. The unchanged set is 13 under rule 1 alone
 *   25  reconfigure: the new set has fewer members than the floor, also where the old one has fewer still, or the set is
 *       unchanged (rule 2). A floor of 0 or 1 forbids nothing
 *   14  reconfigure: not more than half of i's set share the version and the term of i's configuration
 *   15  reconfigure: not more than half of i's set are at i's term
 *   16  reconfigure: nothing is marked with i's term, or not more than half of i's set are at that term and have
 *       all that is marked so
 *   17  send: i's configuration is not newer than j's
 *   18  spread: i's term is not larger than j's
 *   19  write: i's log has its 64 entries
 *   20  fetch, stretch: j's log is not longer, or has another term where i's log ends
 *   21  roll back: i's last entry is not below j's, or i's log is how j's begins
 *   22  commit: i's log is empty or ends in another term than i's own
 *   23  commit: somebody in the set is at another term or lacks i's last entry; byte 1 of the reply says who
 *   24  commit: a different term is marked at that position already
 * kyntulei_fresh has 32 beside these, kyntulei_read 30 to 34, and kyntulei_write 35. */
#ifndef KYNTULEI_H
#define KYNTULEI_H

#include <stddef.h>
#include <stdint.h>

#ifdef __cplusplus
extern "C" {
#endif

/* The one length a table slice may have: 9112. */
size_t kyntulei_table_bytes(void);

/* Fills `table`, whatever it held, with n servers that are all secondary at term 0 with an empty log and with one
 * configuration (`set`, version 1, term 0), and with no marks, under rule 1 where `rule` is 0 and rule 2 where it is 1,
 * and with the floor `floor`, which `set` itself may be below. A table keeps its rule and its floor, whatever is played
 * on it.
 *
 * Answers 0 when filled. Otherwise nothing is written, and the answer is, asked in this order:
 *    1  table_len is not kyntulei_table_bytes(), rule is above 1, or floor is above 16
 *   32  n is not 1 to 16
 *    5  set is empty or reaches past server n (all 32 bits count) */
uint32_t kyntulei_fresh(uint8_t *table, size_t table_len, uint32_t n, uint32_t set, uint32_t rule, uint32_t floor);

/* Judges one action and, if it is taken, alters `table` accordingly. Answers 0 or a refusal of 1 to 25, and sets *reply,
 * whatever the answer, to the whole reply as one number.
 *
 * Every length is allowed: table_len other than kyntulei_table_bytes() gives 1, and else action_len other than 8
 * gives 2. `action` is only read. The table is checked whole at each call; for many actions kyntulei_run checks it
 * but once. */
uint32_t kyntulei_step(uint8_t *table, size_t table_len, const uint8_t *action, size_t action_len, uint64_t *reply);

/* Plays `actions` in order, 8 bytes at a time, and writes the reply to each, 8 bytes, into `replies`. A refused
 * action leaves the table as it was and the run continues with the next. Answers how many replies were written.
 *
 * If actions_len is not a multiple of 8, the shorter rest counts as one more piece, replied to with 2. If the table
 * is broken, table_len other than kyntulei_table_bytes() included, every piece is replied to with 1 and the table is
 * not altered.
 *
 * The room in `replies` decides where a run stops: after replies_len / 8 pieces the rest is neither played nor replied
 * to. As many bytes as `actions` has, rounded up to a multiple of 8, are enough for all; less than 8 play nothing, and
 * the bytes past the last reply keep what they held. */
uint64_t kyntulei_run(uint8_t *table, size_t table_len, const uint8_t *actions, size_t actions_len,
                      uint8_t *replies, size_t replies_len);

/* Fills `table`, whatever it held, from the table image that `image` begins with, and sets *end to its length. Bytes
 * from there on are not looked at: `image` may go on with a list of actions for kyntulei_run, or with anything.
 *
 * Answers 0 when filled. Otherwise neither `table` nor *end is written, and the answer is, asked in this order:
 *    1  table_len is not kyntulei_table_bytes()
 *   30  image_len is less than 8
 *   31  the image does not begin with SITE, byte 5 or the rule in byte 6 is above 1, or the floor in byte 7 is above 16
 *   32  n is not 1 to 16
 *   33  image_len ends within the contents or within a body; or an offset is not where the body before it ends (12+4n
 *       for the marks); or the marks' length is not 4 times 0 to 64, or a server's not 16 and that of 0 to 64
 *       entries
 *   34  a figure is out of its bounds, byte 1 of a server's body is not 0, or the last mark is 0
 * All contents and all bodies' ends come before any figure: 33 wherever it applies, and else 34. `end` must be valid
 * even where 1 to 34 is expected. */
uint32_t kyntulei_read(const uint8_t *image, size_t image_len, uint8_t *table, size_t table_len, uint64_t *end);

/* Writes the image of `table` to the start of `buffer`, and sets *end to its length; the bytes of `buffer` from there on
 * keep what they held. kyntulei_read makes the same table of it, and what kyntulei_read took as an image is written
 * again byte for byte, but for entries of 8 bytes where all bakes are 0: these are written with 4.
 *
 * Answers 0 when written. Otherwise neither `buffer` nor *end is written, and the answer is, asked in this order:
 *    1  the table is broken, table_len other than kyntulei_table_bytes() included
 *   35  buffer_len is less than the image's length; 8,780 bytes are enough for any table
 * `end` must be valid even where 1 or 35 is expected. */
uint32_t kyntulei_write(const uint8_t *table, size_t table_len, uint8_t *buffer, size_t buffer_len, uint64_t *end);

#ifdef __cplusplus
}
#endif

#endif
