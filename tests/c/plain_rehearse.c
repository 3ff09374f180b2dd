/* plain_rehearse [save] < INPUT: prints what the program rehearse has to print, or the program save, by the plain reader and the
 * plain engine. */
#include <stdbool.h>
#include <stdio.h>
#include <stdlib.h>
#include <string.h>

#include "image.h"
#include "plain_image.h"
#include "plain_rules.h"

static void print_reply(uint64_t reply)
{
    if (copied_in(reply) != 0) {
        printf("taken %u\n", copied_in(reply));
        return;
    }
    if (reply == TAKEN) {
        puts("taken");
        return;
    }
    printf("refused %u", number_of(reply));
    if (server_in(reply) != 0) {
        printf(" at %u", server_in(reply));
    }
    if (set_in(reply, OLD_SHIFT) != 0) {
        printf(" %u %u", set_in(reply, OLD_SHIFT), set_in(reply, NEW_SHIFT));
    }
    putchar('\n');
}

static void print_replies(uint8_t *table, const uint8_t *actions, size_t actions_len)
{
    size_t count = actions_len / ACTION_BYTES;
    for (size_t piece = 0; piece < count; piece++) {
        printf("%zu ", piece + 1);
        print_reply(plain_play(table, actions + ACTION_BYTES * piece));
    }
    if (actions_len % ACTION_BYTES != 0) {
        printf("%zu cut\n", count + 1);
    }
}

static void print_row(uint32_t server, const uint8_t *row)
{
    printf("row %u %c %u %u %u %u %u %u\n", server, word(row, ROLE) == PRIMARY ? 'P' : 'S', word(row, TERM),
           word(row, SET), word(row, VERSION), word(row, CONFIG_TERM), word(row, LOG_LENGTH), last_entry(row));
}

static void print_marks(const uint8_t *table)
{
    size_t end = MARKS + MOST_ENTRIES;
    while (end > MARKS && word(table, end - 1) == 0) {
        end--;
    }
    fputs("marks", stdout);
    for (size_t column = MARKS; column < end; column++) {
        printf(" %u", word(table, column));
    }
    putchar('\n');
}

/* Whether the input is played; why not is told. */
static bool read_table(const uint8_t *input, size_t length, uint8_t *table, uint64_t *end, FILE *told)
{
    if (length > MOST_INPUT_BYTES) {
        fputs("too long\n", told);
        return false;
    }
    uint32_t reply = plain_read(input, length, table, TABLE_BYTES, end);
    if (reply != TAKEN) {
        fprintf(told, "bad site %u\n", reply);
    }
    return reply == TAKEN;
}

static void rehearse(const uint8_t *input, size_t length)
{
    uint8_t table[TABLE_BYTES];
    uint64_t end;
    if (!read_table(input, length, table, &end, stdout)) {
        return;
    }
    print_replies(table, input + end, length - end);
    for (uint32_t server = 1; server <= word(table, SERVERS); server++) {
        print_row(server, table + row_start(server));
    }
    print_marks(table);
}

static void save(const uint8_t *input, size_t length)
{
    uint8_t table[TABLE_BYTES];
    uint8_t image[MOST_IMAGE_BYTES];
    uint64_t end;
    if (!read_table(input, length, table, &end, stderr)) {
        return;
    }
    for (size_t at = end; length - at >= ACTION_BYTES; at += ACTION_BYTES) {
        plain_play(table, input + at);
    }
    fwrite(image, image_of(table, image), 1, stdout);
}

int main(int count, char **arguments)
{
    /* One byte more than is allowed tells a longer input from the longest. */
    static uint8_t input[MOST_INPUT_BYTES + 1];
    size_t length = fread(input, 1, sizeof input, stdin);
    if (ferror(stdin)) {
        return EXIT_FAILURE;
    }
    if (count > 1 && strcmp(arguments[1], "save") == 0) {
        save(input, length);
    } else {
        rehearse(input, length);
    }
    return fflush(stdout) == 0 ? EXIT_SUCCESS : EXIT_FAILURE;
}
