/*
 * Two validating heads on one page, with the server in the same process. First they count on neighbouring objects at the same time:
 * both commit, for a version is of an object. Then they count on one object, and the slower is told to begin anew.
 * Prints what happens; exits with 1 and says what is wrong if an answer is not the expected one.
 */
#include <inttypes.h>
#include <stdio.h>
#include <stdlib.h>
#include <string.h>

#include "waxwingrack.h"

/* Objects 0 and 1 of page 1. */
enum { HEADS = 2, LEFT = 8, RIGHT = 9, MOST = 4, ARCHIVE_LENGTH = 200 };

/* A head that waits calls nothing, so one message at most is under way from it. */
static struct head {
    uint8_t state[WAX_STATION_LENGTH];
    uint8_t up[WAX_COMMIT_LENGTH];
    size_t up_length;
    uint8_t down[MOST][WAX_MESSAGE_LENGTH];
    size_t first, last;
} heads[HEADS];

static uint8_t server[WAX_SERVER_LENGTH], archive[ARCHIVE_LENGTH];
static size_t archived;

/* What calls are lent beside states; nothing of it has to be kept. */
static uint8_t messages[WAX_SERVER_MESSAGES], commit[WAX_COMMIT_LENGTH], records[WAX_SERVER_RECORDS];
static uint64_t told[WAX_TOLD], served[WAX_SERVED];

#define LENT(i) heads[i].state, WAX_STATION_LENGTH, messages, sizeof messages, commit, sizeof commit, told, WAX_TOLD

static void stop_unless(int holds, const char *what)
{
    if (!holds) {
        printf("NOT as expected: %s\n", what);
        exit(1);
    }
}

/* An accepted call of a head tells this; what it leaves goes up. A commit's length is carried beside it. */
static void expect(const char *call, size_t i, uint32_t number, uint64_t answer, uint64_t value)
{
    stop_unless(number == WAX_OK && told[WAX_TOLD_ANSWER] == answer && told[WAX_TOLD_VALUE] == value, call);
    stop_unless(told[WAX_TOLD_MESSAGES] <= 1, "several messages of a validating head");
    if (told[WAX_TOLD_MESSAGES] == 1)
        memcpy(heads[i].up, messages, heads[i].up_length = WAX_MESSAGE_LENGTH);
    if (told[WAX_TOLD_COMMIT] > 0)
        memcpy(heads[i].up, commit, heads[i].up_length = (size_t)told[WAX_TOLD_COMMIT]);
    printf("%s\n", call);
}

/* The server takes what is under way from a head; what it sends goes down, its record into the archive. */
static void serve(size_t i)
{
    stop_unless(wax_server_step(heads[i].up, heads[i].up_length, server, sizeof server, messages, sizeof messages,
                                records, sizeof records, served, WAX_SERVED) == WAX_OK, "a step of the server");
    for (uint64_t k = 0; k < served[WAX_SERVED_MESSAGES]; k++) {
        const uint8_t *message = messages + k * WAX_MESSAGE_LENGTH;
        struct head *to = &heads[message[WAX_AT_STATION]];

        memcpy(to->down[to->last++ % MOST], message, WAX_MESSAGE_LENGTH);
    }
    stop_unless(archived + served[WAX_SERVED_RECORDS] <= sizeof archive, "the archive is full");
    memcpy(archive + archived, records, (size_t)served[WAX_SERVED_RECORDS]);
    archived += (size_t)served[WAX_SERVED_RECORDS];
}

/* A head takes its next message, of this kind. */
static void deliver(const char *call, size_t i, uint8_t kind, uint64_t answer, uint64_t value)
{
    const uint8_t *message = heads[i].down[heads[i].first++ % MOST];

    stop_unless(message[WAX_AT_KIND] == kind, "another message comes");
    expect(call, i, wax_station_step(message, WAX_MESSAGE_LENGTH, LENT(i)), answer, value);
}

/* Both have read an object of their own when the first commit comes. */
static void count_side_by_side(void)
{
    expect("head 0 begins", 0, wax_station_begin(LENT(0)), WAX_BEGUN, 1);
    expect("head 0 reads 8, and waits", 0, wax_station_read(LEFT, LENT(0)), WAX_WAITS, 0);
    serve(0);
    deliver("head 0 has read 0", 0, WAX_DOWN_PAGE, WAX_VALUE, 0);
    expect("head 1 begins", 1, wax_station_begin(LENT(1)), WAX_BEGUN, 1);
    expect("head 1 reads 9, and waits", 1, wax_station_read(RIGHT, LENT(1)), WAX_WAITS, 0);
    serve(1);
    deliver("head 1 has read 0", 1, WAX_DOWN_PAGE, WAX_VALUE, 0);
    expect("head 0 writes 1 to 8", 0, wax_station_write(LEFT, 1, LENT(0)), WAX_WRITTEN, 0);
    expect("head 1 writes 1 to 9", 1, wax_station_write(RIGHT, 1, LENT(1)), WAX_WRITTEN, 0);
    expect("head 0 commits, and waits", 0, wax_station_commit(LENT(0)), WAX_WAITS, 0);
    serve(0);
    deliver("head 1 hears of 8, which it has not used, and goes on", 1, WAX_DOWN_INVALIDATE, WAX_NOTHING, 0);
    expect("head 1 commits, and waits", 1, wax_station_commit(LENT(1)), WAX_WAITS, 0);
    serve(1);
    deliver("head 0 has committed as number 1", 0, WAX_DOWN_COMMITTED, WAX_COMMITTED, 1);
    deliver("head 0 hears of 9", 0, WAX_DOWN_INVALIDATE, WAX_NOTHING, 0);
    deliver("head 1 has committed as number 2", 1, WAX_DOWN_COMMITTED, WAX_COMMITTED, 2);
}

/* 8 is in head 0's copy, and marked at head 1, which fetches it. */
static void count_on_one(void)
{
    expect("head 1 begins", 1, wax_station_begin(LENT(1)), WAX_BEGUN, 2);
    expect("head 1 reads 8, which is marked, and waits", 1, wax_station_read(LEFT, LENT(1)), WAX_WAITS, 0);
    serve(1);
    deliver("head 1 has read 1", 1, WAX_DOWN_PAGE, WAX_VALUE, 1);
    expect("head 1 writes 2 to 8", 1, wax_station_write(LEFT, 2, LENT(1)), WAX_WRITTEN, 0);
    expect("head 0 begins", 0, wax_station_begin(LENT(0)), WAX_BEGUN, 2);
    expect("head 0 has read 1 from its copy", 0, wax_station_read(LEFT, LENT(0)), WAX_VALUE, 1);
    expect("head 0 writes 2 to 8", 0, wax_station_write(LEFT, 2, LENT(0)), WAX_WRITTEN, 0);
    expect("head 0 commits, and waits", 0, wax_station_commit(LENT(0)), WAX_WAITS, 0);
    serve(0);
    deliver("head 0 has committed as number 3", 0, WAX_DOWN_COMMITTED, WAX_COMMITTED, 3);
    deliver("head 1's transaction is aborted, cause 2: it is to begin anew", 1, WAX_DOWN_INVALIDATE, WAX_ABORTED, WAX_CAUSE_STALE);
}

static void expect_archive(void)
{
    static uint64_t values[WAX_ADDRESSES];
    uint32_t last = 0;

    stop_unless(wax_archive_replay(archive, archived, values, &last) == WAX_OK, "the archive does not replay");
    stop_unless(last == 3 && values[LEFT] == 2 && values[RIGHT] == 1, "the archive leaves something else");
    printf("the archive has %" PRIu32 " commits, and leaves 2 at 8 and 1 at 9\n", last);
}

int main(void)
{
    static const uint8_t kinds[WAX_STATIONS] = { WAX_VALIDATING, WAX_VALIDATING };

    stop_unless(wax_server_fresh(kinds, sizeof kinds, server, sizeof server) == WAX_OK, "no fresh server");
    for (uint32_t i = 0; i < HEADS; i++)
        stop_unless(wax_station_fresh(i, WAX_VALIDATING, heads[i].state, WAX_STATION_LENGTH) == WAX_OK, "no fresh head");
    count_side_by_side();
    count_on_one();
    expect_archive();
    puts("as expected");
    return 0;
}
