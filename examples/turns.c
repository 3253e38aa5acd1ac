/*
 * Shares the server's turns between eight lines: a fast head, the other heads, the panel and the office.
 * Prints what it does; exits with 1 if an answer is not the expected one.
 */
#include <stdio.h>
#include <stdlib.h>
#include <string.h>

#include "waxwingrack.h"

static void stop_unless(int holds)
{
    if (!holds) {
        puts("NOT as expected");
        exit(1);
    }
}

/* Heads have a share of 1, the panel of 2, the office of 4. */
static void begin(wax_turn_line *lines)
{
    static const uint8_t shares[WAX_LINES] = { 1, 1, 1, 1, 1, 1, 2, 4 };
    for (size_t i = 0; i < WAX_LINES; i++)
        lines[i] = (wax_turn_line){ shares[i], 0, 0 };
}

static size_t next(wax_turn_line *lines)
{
    size_t line = WAX_LINES;
    stop_unless(wax_turn_next(lines, WAX_LINES, &line) == WAX_OK && line < WAX_LINES);
    return line;
}

static void show_rounds(void)
{
    static const size_t expected[] = { 0, 7, 7, 7, 7, 0, 7, 7, 7, 7, 0, 3, 7 };
    wax_turn_line lines[WAX_LINES];
    begin(lines);
    lines[0].waiting = lines[7].waiting = 1; /* a head that never rests, and the office's totals */
    printf("head 0 and the office wait:       ");
    for (size_t turn = 0; turn < sizeof expected / sizeof *expected; turn++) {
        if (turn == 11)
            lines[3].waiting = 1; /* head 3 too; its turn is in this round */
        size_t line = next(lines);
        printf(" %zu", line);
        stop_unless(line == expected[turn]);
        if (line == 3)
            lines[3].waiting = 0; /* its line is empty now: marks are the host's */
    }
    puts("");
}

/* The longest that a line can wait: it has used its share of this round, and all others have theirs, of this and the next. */
static void show_57(void)
{
    wax_turn_line lines[WAX_LINES];
    unsigned turns = 0;
    begin(lines);
    for (size_t i = 0; i < WAX_LINES; i++)
        lines[i].share = WAX_MOST_SHARE;
    lines[7].waiting = 1;
    for (int i = 0; i < WAX_MOST_SHARE; i++)
        stop_unless(next(lines) == 7);
    for (size_t i = 0; i < WAX_LINES; i++)
        lines[i].waiting = 1;
    do
        turns++;
    while (next(lines) != 7);
    printf("line 7 waits, and is given turn    %u\n", turns);
    stop_unless(turns == WAX_MOST_TURNS);
}

/* A refused turn changes nothing and tells no line. */
static void refused(const char *what, const wax_turn_line *lines, size_t count, uint32_t expected)
{
    wax_turn_line copy[WAX_LINES];
    size_t line = 42;
    memcpy(copy, lines, sizeof copy);
    uint32_t answer = wax_turn_next(copy, count, &line);
    printf("%-34s %u\n", what, (unsigned)answer);
    stop_unless(answer == expected && line == 42 && memcmp(copy, lines, sizeof copy) == 0);
}

static void show_refusals(void)
{
    wax_turn_line lines[WAX_LINES];
    begin(lines);
    refused("no line waits", lines, WAX_LINES, WAX_IDLE);
    lines[2].share = 5;
    refused("and a share of 5", lines, WAX_LINES, WAX_SHARE);
    lines[4].given = 2;
    refused("and a count above its share", lines, WAX_LINES, WAX_BUFFER);
    begin(lines);
    lines[0].waiting = 2;
    refused("a mark that is neither 0 nor 1", lines, WAX_LINES, WAX_BUFFER);
    refused("seven lines", lines, WAX_LINES - 1, WAX_BUFFER);
}

int main(void)
{
    show_rounds();
    show_57();
    show_refusals();
    puts("all as expected");
    return 0;
}
