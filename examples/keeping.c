/*
 * A locking head and a keeping one, each alone on a page of its own, count ten frames each, a transaction for each frame. The
 * keeping one asks for its page once and writes nine times without a message; then a panel reads there, and takes the page back.
 * Prints what happens; exits with 1 and says what is wrong if an answer is not the expected one.
 */
#include <inttypes.h>
#include <stdio.h>
#include <stdlib.h>
#include <string.h>

#include "waxwingrack.h"

/* The heads' counters are object 0 of page 1 and of page 2; the panel looks at object 1 of the keeping head's page. */
enum { LOCKING = 0, KEEPING = 1, PANEL = 2, HERE = 3, FRAMES = 10, MOST = 4, ARCHIVE_LENGTH = 2000 };
static const uint32_t counter[HERE] = { 8, 16, 17 };
static const char *const name[HERE] = { "the locking head", "the keeping head", "the panel" };
static const uint8_t kinds[WAX_STATIONS] = { WAX_LOCKING, WAX_KEEPING, WAX_LOCKING };

static struct station {
    uint8_t state[WAX_STATION_LENGTH];
    /* one call leaves one message here, and the next call comes when it is answered */
    uint8_t up[WAX_COMMIT_LENGTH];
    size_t up_length;
    uint8_t down[MOST][WAX_MESSAGE_LENGTH];
    size_t first, last;
    unsigned requests, messages;
} stations[HERE];

static uint8_t server[WAX_SERVER_LENGTH], archive[ARCHIVE_LENGTH];
static size_t archived;

/* What calls are lent beside states; nothing of it has to be kept. */
static uint8_t messages[WAX_SERVER_MESSAGES], commit[WAX_COMMIT_LENGTH], records[WAX_SERVER_RECORDS];
static uint64_t told[WAX_TOLD], served[WAX_SERVED];

#define LENT(i) stations[i].state, WAX_STATION_LENGTH, messages, sizeof messages, commit, sizeof commit, told, WAX_TOLD

static void stop_unless(int holds, const char *what)
{
    if (!holds) {
        printf("NOT as expected: %s\n", what);
        exit(1);
    }
}

/* What an accepted call leaves goes up; a commit's length is carried beside it. */
static void carry_up(size_t i)
{
    struct station *from = &stations[i];

    stop_unless(told[WAX_TOLD_MESSAGES] <= 1, "several messages of one call");
    if (told[WAX_TOLD_MESSAGES] == 1)
        memcpy(from->up, messages, from->up_length = WAX_MESSAGE_LENGTH);
    if (told[WAX_TOLD_COMMIT] > 0)
        memcpy(from->up, commit, from->up_length = (size_t)told[WAX_TOLD_COMMIT]);
    if (from->up_length > 0) {
        from->messages++;
        from->requests += from->up[WAX_AT_KIND] == WAX_UP_WRITE;
    }
}

/* The server takes what is under way from a station; what it sends goes down, its record into the archive. */
static void serve(size_t i)
{
    stop_unless(wax_server_step(stations[i].up, stations[i].up_length, server, sizeof server, messages, sizeof messages,
                                records, sizeof records, served, WAX_SERVED) == WAX_OK, "a step of the server");
    stations[i].up_length = 0;
    for (uint64_t k = 0; k < served[WAX_SERVED_MESSAGES]; k++) {
        const uint8_t *message = messages + k * WAX_MESSAGE_LENGTH;
        struct station *to = &stations[message[WAX_AT_STATION]];

        memcpy(to->down[to->last++ % MOST], message, WAX_MESSAGE_LENGTH);
        to->messages++;
    }
    stop_unless(archived + served[WAX_SERVED_RECORDS] <= sizeof archive, "the archive is full");
    memcpy(archive + archived, records, (size_t)served[WAX_SERVED_RECORDS]);
    archived += (size_t)served[WAX_SERVED_RECORDS];
}

/* A station takes its next message, of this kind. */
static void deliver(size_t i, uint8_t kind)
{
    const uint8_t *message = stations[i].down[stations[i].first++ % MOST];

    stop_unless(message[WAX_AT_KIND] == kind, "another message comes");
    stop_unless(wax_station_step(message, WAX_MESSAGE_LENGTH, LENT(i)) == WAX_OK, "a step of a station");
    carry_up(i);
}

/* An owner's call is answered at once, or by the message of this kind that the server sends. */
static void answered(const char *call, size_t i, uint32_t number, uint8_t kind, uint64_t answer, uint64_t value)
{
    stop_unless(number == WAX_OK, call);
    carry_up(i);
    if (told[WAX_TOLD_ANSWER] == WAX_WAITS) {
        serve(i);
        deliver(i, kind);
    }
    stop_unless(told[WAX_TOLD_ANSWER] == answer && told[WAX_TOLD_VALUE] == value, call);
}

/* A transaction: the counter is read, and written with one frame more. */
static void count(size_t i, uint64_t frame, uint64_t commit_number)
{
    answered("begin", i, wax_station_begin(LENT(i)), 0, WAX_BEGUN, frame);
    answered("read", i, wax_station_read(counter[i], LENT(i)), WAX_DOWN_PAGE, WAX_VALUE, frame - 1);
    answered("write", i, wax_station_write(counter[i], frame, LENT(i)), WAX_DOWN_WHOLE_LOCK, WAX_WRITTEN, 0);
    answered("commit", i, wax_station_commit(LENT(i)), WAX_DOWN_COMMITTED, WAX_COMMITTED, commit_number);
}

static void count_alone(size_t i, unsigned requests, unsigned sent, uint64_t first_commit)
{
    for (uint64_t frame = 1; frame <= FRAMES; frame++)
        count(i, frame, first_commit + frame - 1);
    stop_unless(stations[i].requests == requests && stations[i].messages == sent, "another number of messages");
    printf("%s counts %d frames: messages %u, of them write requests %u\n", name[i], FRAMES, sent, requests);
}

/* The panel wants another object of the kept page: the server asks the head, which is between two transactions. */
static void take_back(void)
{
    stop_unless(wax_station_purge(2, LENT(KEEPING)) == WAX_KEPT, "a kept page is purged");
    answered("begin", PANEL, wax_station_begin(LENT(PANEL)), 0, WAX_BEGUN, 1);
    stop_unless(wax_station_read(counter[PANEL], LENT(PANEL)) == WAX_OK && told[WAX_TOLD_ANSWER] == WAX_WAITS, "the read");
    carry_up(PANEL);
    serve(PANEL);
    deliver(KEEPING, WAX_DOWN_DEESCALATE);
    stop_unless(told[WAX_TOLD_ANSWER] == WAX_NOTHING, "the head's owner is told something");
    serve(KEEPING);
    deliver(PANEL, WAX_DOWN_PAGE);
    stop_unless(told[WAX_TOLD_ANSWER] == WAX_VALUE && told[WAX_TOLD_VALUE] == 0, "the panel has read something else");
    puts("the panel reads on the keeping head's page, which gives it up");
    stop_unless(wax_station_purge(2, LENT(KEEPING)) == WAX_OK, "the page is given up, and not purged");
    carry_up(KEEPING);
    serve(KEEPING);
}

static void expect_archive(void)
{
    static uint64_t values[WAX_ADDRESSES];
    uint32_t last = 0;

    stop_unless(wax_archive_replay(archive, archived, values, &last) == WAX_OK, "the archive does not replay");
    stop_unless(last == 2 * FRAMES && values[counter[LOCKING]] == FRAMES && values[counter[KEEPING]] == FRAMES,
                "the archive leaves something else");
    stop_unless(archive[13] == WAX_LOCKING && archive[archived - WAX_RECORD_LENGTH(1, 1) + 13] == WAX_KEEPING,
                "a record has another kind");
    printf("the archive has %" PRIu32 " commits, and leaves %d at both counters\n", last, FRAMES);
}

int main(void)
{
    stop_unless(wax_server_fresh(kinds, sizeof kinds, server, sizeof server) == WAX_OK, "no fresh server");
    for (uint32_t i = 0; i < HERE; i++)
        stop_unless(wax_station_fresh(i, kinds[i], stations[i].state, WAX_STATION_LENGTH) == WAX_OK, "no fresh station");
    /* a page for the first read; then a request, a lock, a commit and its answer each time, or the last two alone */
    count_alone(LOCKING, FRAMES, 2 + 4 * FRAMES, 1);
    count_alone(KEEPING, 1, 2 + 2 + 2 * FRAMES, FRAMES + 1);
    take_back();
    expect_archive();
    puts("as expected");
    return 0;
}
