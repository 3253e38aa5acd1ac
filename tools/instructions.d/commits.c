/*
 * Whole commits of counters through the C interface, for a profiler: a server and eight stations of one kind, and a host that
 * carries their messages. The calls are those of bench --commits (second/src/bin/bench/commits/). Only names that headers since
 * 1.0.0 have are asked for, so it counts earlier versions too.
 *
 *   commits KIND private|hot COUNTERS [set]     KIND 0 to 2, COUNTERS 1 or 3 of a page, written singly or as a set
 *
 * turn() is what is to be counted: COMMITS commits, all pages at their stations. Exits with 3 if this version has no such commits.
 */
#include <stdio.h>
#include <stdlib.h>
#include <string.h>

#include "waxwingrack.h"

#ifndef WAX_AT_STATION
#define WAX_AT_STATION 1
#endif

enum { STATIONS = 8, OBJECTS = 8, COMMITS = 400, HOT = 31, UP = 64 };

static const uint32_t touched[] = { 0, 2, 5 };

static uint8_t server[WAX_SERVER_LENGTH], stations[STATIONS][WAX_STATION_LENGTH];

/* lent for what a call gives */
static uint8_t served_messages[WAX_SERVER_MESSAGES], records[WAX_SERVER_RECORDS];
static uint8_t messages[WAX_STATION_MESSAGES], commit[WAX_COMMIT_LENGTH];
static uint64_t served[WAX_SERVED], told[WAX_TOLD];

/* on the way to the server, in order */
static struct {
    uint8_t bytes[WAX_COMMIT_LENGTH];
    size_t length;
} up[UP];
static size_t taken, sent;

static uint64_t answer, value;
static unsigned carried; /* messages, both ways */

static void expect(uint32_t number, const char *call)
{
    if (number == WAX_OK)
        return;
    fprintf(stderr, "commits: %s: refused with %u\n", call, (unsigned)number);
    exit(1);
}

static void send_up(const uint8_t *bytes, size_t length)
{
    if (sent == UP)
        expect(1, "a queue without room");
    memcpy(up[sent].bytes, bytes, length);
    up[sent++].length = length;
    carried++;
}

/* what a station's call told and sent */
static void heard(void)
{
    if (told[WAX_TOLD_ANSWER] != WAX_NOTHING) {
        answer = told[WAX_TOLD_ANSWER];
        value = told[WAX_TOLD_VALUE];
    }
    for (size_t k = 0; k < told[WAX_TOLD_MESSAGES]; k++)
        send_up(messages + k * WAX_MESSAGE_LENGTH, WAX_MESSAGE_LENGTH);
    if (told[WAX_TOLD_COMMIT] != 0)
        send_up(commit, (size_t)told[WAX_TOLD_COMMIT]);
}

#define LENT(i) stations[i], WAX_STATION_LENGTH, messages, sizeof messages, commit, sizeof commit, told, WAX_TOLD

/* All that follows from an owner's call: the server takes a message, then the stations what it sends. */
static void carry(uint64_t expected)
{
    heard();
    while (taken < sent) {
        expect(wax_server_step(up[taken].bytes, up[taken].length, server, sizeof server, served_messages, sizeof served_messages,
                               records, sizeof records, served, WAX_SERVED), "server_step");
        taken++;
        for (size_t k = 0; k < served[WAX_SERVED_MESSAGES]; k++) {
            const uint8_t *message = served_messages + k * WAX_MESSAGE_LENGTH;

            expect(wax_station_step(message, WAX_MESSAGE_LENGTH, LENT(message[WAX_AT_STATION])), "station_step");
            carried++;
            heard();
        }
    }
    taken = sent = 0;
    if (answer != expected)
        expect(1, "another answer than expected");
}

static void write_all(uint32_t i, uint32_t page, const uint64_t *values, size_t counters, int as_set)
{
    if (as_set) {
#if WAX_VERSION_MINOR >= 12
        uint32_t set = 0;

        for (size_t k = 0; k < counters; k++)
            set |= 1u << touched[k];
        expect(wax_station_write_set(page, set, values, OBJECTS, LENT(i)), "write_set");
        carry(WAX_WRITTEN);
#else
        exit(3);
#endif
        return;
    }
    for (size_t k = 0; k < counters; k++) {
        expect(wax_station_write(page * OBJECTS + touched[k], values[touched[k]], LENT(i)), "write");
        carry(WAX_WRITTEN);
    }
}

static void count(uint32_t i, int hot, size_t counters, int as_set)
{
    const uint32_t page = hot ? HOT : i;
    uint64_t values[OBJECTS] = { 0 };

    expect(wax_station_begin(LENT(i)), "begin");
    carry(WAX_BEGUN);
    for (size_t k = 0; k < counters; k++) {
        expect(wax_station_read(page * OBJECTS + touched[k], LENT(i)), "read");
        carry(WAX_VALUE);
        values[touched[k]] = value + 1;
    }
    write_all(i, page, values, counters, as_set);
    expect(wax_station_commit(LENT(i)), "commit");
    carry(WAX_COMMITTED);
}

__attribute__((noinline)) void turn(int hot, size_t counters, int as_set);

void turn(int hot, size_t counters, int as_set)
{
    for (uint32_t k = 0; k < COMMITS; k++)
        count(k % STATIONS, hot, counters, as_set);
}

int main(int argc, char **argv)
{
    uint8_t kinds[STATIONS];
    uint32_t kind;
    size_t counters;
    int hot, as_set;

    if (argc < 4 || argc > 5) {
        fputs("usage: commits KIND private|hot COUNTERS [set]\n", stderr);
        return 2;
    }
    kind = (uint32_t)atoi(argv[1]);
    hot = strcmp(argv[2], "hot") == 0;
    counters = strcmp(argv[3], "3") == 0 ? 3 : 1;
    as_set = argc == 5;
    memset(kinds, (int)kind, sizeof kinds);
    if (wax_server_fresh(kinds, sizeof kinds, server, sizeof server) != WAX_OK || (as_set && kind == WAX_VALIDATING))
        return 3;
    for (uint32_t i = 0; i < STATIONS; i++)
        expect(wax_station_fresh(i, kind, stations[i], sizeof stations[i]), "station_fresh");
    /* each station's first commit brings its page */
    for (uint32_t i = 0; i < STATIONS; i++)
        count(i, hot, counters, as_set);
    carried = 0;
    turn(hot, counters, as_set);
    printf("%d commits, %u messages\n", COMMITS, carried);
    return 0;
}
