/*
 * A host for a whole line in one process: the server, a locking station 0 and a validating station 1, and a queue in memory
 * for each way of each line. Station 0 writes an object that station 1 has read, so station 1 is told to begin anew.
 * Prints what happens; exits with 1 and says what is wrong if an answer is not the expected one.
 */
#include <inttypes.h>
#include <stdio.h>
#include <stdlib.h>
#include <string.h>

#include "waxwingrack.h"

enum { LOCKING_STATION = 0, VALIDATING_STATION = 1, STATIONS_HERE = 2, ADDRESS = 8 };

/* The longest message is a commit. */
enum { LONGEST_MESSAGE = WAX_COMMIT_LENGTH, QUEUE_LENGTH = 8, ARCHIVE_LENGTH = 1000 };

/* Messages on their way, the first one first. */
struct queue {
    uint8_t bytes[QUEUE_LENGTH][LONGEST_MESSAGE];
    size_t lengths[QUEUE_LENGTH];
    size_t count;
};

static struct {
    uint8_t state[WAX_SERVER_LENGTH];
    uint8_t messages[WAX_SERVER_MESSAGES];
    uint8_t records[WAX_SERVER_RECORDS];
    uint64_t served[WAX_SERVED];
} server;

static struct {
    uint8_t state[WAX_STATION_LENGTH];
    uint8_t messages[WAX_STATION_MESSAGES];
    uint8_t commit[WAX_COMMIT_LENGTH];
    uint64_t told[WAX_TOLD];
    struct queue up, down;
} stations[STATIONS_HERE];

static uint8_t archive[ARCHIVE_LENGTH];
static size_t archived;

#define LENT(i) stations[i].state, sizeof stations[i].state, stations[i].messages, sizeof stations[i].messages, \
                stations[i].commit, sizeof stations[i].commit, stations[i].told, WAX_TOLD

static void stop_unless(int holds, const char *what)
{
    if (!holds) {
        printf("NOT as expected: %s\n", what);
        exit(1);
    }
}

static void put(struct queue *queue, const uint8_t *bytes, size_t length)
{
    stop_unless(queue->count < QUEUE_LENGTH && length <= LONGEST_MESSAGE, "a queue is full");
    memcpy(queue->bytes[queue->count], bytes, length);
    queue->lengths[queue->count] = length;
    queue->count++;
}

/* A message that was taken leaves its queue. */
static void drop_first(struct queue *queue)
{
    queue->count--;
    memmove(queue->bytes[0], queue->bytes[1], queue->count * sizeof queue->bytes[0]);
    memmove(queue->lengths, queue->lengths + 1, queue->count * sizeof queue->lengths[0]);
}

/* Behind every accepted call of a station: what it leaves goes up its line. */
static void send_up(size_t i)
{
    for (uint64_t k = 0; k < stations[i].told[WAX_TOLD_MESSAGES]; k++)
        put(&stations[i].up, stations[i].messages + k * WAX_MESSAGE_LENGTH, WAX_MESSAGE_LENGTH);
    if (stations[i].told[WAX_TOLD_COMMIT] != 0)
        put(&stations[i].up, stations[i].commit, (size_t)stations[i].told[WAX_TOLD_COMMIT]);
}

/* An accepted call of a station tells this. */
static void expect(const char *call, size_t i, uint32_t number, uint64_t answer, uint64_t value)
{
    const uint64_t *told = stations[i].told;

    if (number != WAX_OK || told[WAX_TOLD_ANSWER] != answer || told[WAX_TOLD_VALUE] != value) {
        printf("NOT as expected: %s: answered %" PRIu32 ", told %" PRIu64 " with %" PRIu64 "\n", call, number,
               told[WAX_TOLD_ANSWER], told[WAX_TOLD_VALUE]);
        exit(1);
    }
    printf("%s\n", call);
    send_up(i);
}

/* The server takes the first message of a station's line; its kind is this. What it sends goes down, its records to the archive. */
static void serve(size_t i, unsigned kind, uint64_t messages, uint64_t records)
{
    struct queue *up = &stations[i].up;
    uint32_t number;

    stop_unless(up->count > 0 && up->bytes[0][0] == kind, "another message is under way to the server");
    number = wax_server_step(up->bytes[0], up->lengths[0], server.state, sizeof server.state,
                             server.messages, sizeof server.messages, server.records, sizeof server.records,
                             server.served, WAX_SERVED);
    stop_unless(number == WAX_OK, "the server refuses a message");
    stop_unless(server.served[WAX_SERVED_MESSAGES] == messages, "the server sends more messages, or fewer");
    stop_unless(server.served[WAX_SERVED_RECORDS] == records, "the server archives more, or less");
    drop_first(up);
    printf("    the server takes a %u of station %zu and sends", kind, i);
    for (uint64_t k = 0; k < messages; k++) {
        const uint8_t *message = server.messages + k * WAX_MESSAGE_LENGTH;

        stop_unless(message[1] < STATIONS_HERE, "a message for a station that is not here");
        put(&stations[message[1]].down, message, WAX_MESSAGE_LENGTH);
        printf("%s %u to station %u", k == 0 ? "" : ",", (unsigned)message[0], (unsigned)message[1]);
    }
    printf("%s\n", messages == 0 ? " nothing" : "");
    stop_unless(archived + records <= sizeof archive, "the archive is full");
    memcpy(archive + archived, server.records, (size_t)records);
    archived += (size_t)records;
}

/* A station takes the first message of its line, of this kind, and tells its owner this. */
static void deliver(const char *call, size_t i, unsigned kind, uint64_t answer, uint64_t value)
{
    struct queue *down = &stations[i].down;
    uint32_t number;

    stop_unless(down->count > 0 && down->bytes[0][0] == kind, "another message is under way to a station");
    number = wax_station_step(down->bytes[0], down->lengths[0], LENT(i));
    expect(call, i, number, answer, value);
    drop_first(down);
}

/* A refused step changes nothing. */
static void refuse(const uint8_t *message, size_t length, uint32_t expected)
{
    static uint8_t state[WAX_SERVER_LENGTH], messages[WAX_SERVER_MESSAGES], records[WAX_SERVER_RECORDS];
    uint64_t served[WAX_SERVED];
    uint32_t number;

    memcpy(state, server.state, sizeof state);
    memcpy(messages, server.messages, sizeof messages);
    memcpy(records, server.records, sizeof records);
    memcpy(served, server.served, sizeof served);
    number = wax_server_step(message, length, server.state, sizeof server.state,
                             server.messages, sizeof server.messages, server.records, sizeof server.records,
                             server.served, WAX_SERVED);
    stop_unless(number == expected, "a step is refused with another number, or accepted");
    stop_unless(memcmp(state, server.state, sizeof state) == 0, "a refused step changed the state");
    stop_unless(memcmp(messages, server.messages, sizeof messages) == 0, "a refused step changed the messages");
    stop_unless(memcmp(records, server.records, sizeof records) == 0, "a refused step changed the records");
    stop_unless(memcmp(served, server.served, sizeof served) == 0, "a refused step changed what was served");
    printf("    the server refuses %zu bytes, number %" PRIu32 "\n", length, number);
}

/* The whole archive replays, to the values that the server has. */
static void expect_archive(void)
{
    static uint64_t values[WAX_ADDRESSES];
    uint32_t last = 0;

    stop_unless(wax_archive_replay(archive, archived, values, &last) == WAX_OK, "the archive does not replay");
    stop_unless(last == 2 && values[ADDRESS] == 5, "the archive leaves something else");
    /* docs/STATE.md: the values stand first, 8 bytes each, little-endian */
    stop_unless(server.state[ADDRESS * 8] == 5, "the server has another value");
    printf("the archive has %zu bytes and %" PRIu32 " commits, and leaves 5 at address 8\n", archived, last);
}

int main(void)
{
    static const uint8_t kinds[WAX_STATIONS] = { [VALIDATING_STATION] = WAX_VALIDATING };
    static const uint8_t abort_of_none[WAX_MESSAGE_LENGTH] = { 4, LOCKING_STATION, 0, 0, 1 };
    const size_t a = LOCKING_STATION, b = VALIDATING_STATION;

    stop_unless(wax_server_fresh(kinds, sizeof kinds, server.state, sizeof server.state) == WAX_OK, "no fresh server");
    for (uint32_t i = 0; i < STATIONS_HERE; i++)
        stop_unless(wax_station_fresh(i, kinds[i], stations[i].state, sizeof stations[i].state) == WAX_OK, "no fresh station");

    /* Station 1 reads address 8: a read request up, the page down. */
    expect("station 1 begins", b, wax_station_begin(LENT(b)), WAX_BEGUN, 1);
    expect("station 1 reads address 8, and waits", b, wax_station_read(ADDRESS, LENT(b)), WAX_WAITS, 0);
    serve(b, 1, 1, 0);
    deliver("station 1 has read 0", b, 16, WAX_VALUE, 0);

    /* Station 0 writes it: the page comes locked whole, for no other locking station has it. */
    expect("station 0 begins", a, wax_station_begin(LENT(a)), WAX_BEGUN, 1);
    expect("station 0 writes 5 to address 8, and waits", a, wax_station_write(ADDRESS, 5, LENT(a)), WAX_WAITS, 0);
    serve(a, 2, 1, 0);
    deliver("station 0 has written", a, 18, WAX_WRITTEN, 0);

    /* Its commit is installed at once, and station 1 is told that its page is stale. */
    expect("station 0 commits, and waits", a, wax_station_commit(LENT(a)), WAX_WAITS, 0);
    refuse(stations[a].up.bytes[0], WAX_MESSAGE_LENGTH, WAX_LENGTH);
    serve(a, 3, 2, WAX_RECORD_LENGTH(0, 1));
    deliver("station 0 has committed as number 1", a, 21, WAX_COMMITTED, 1);
    refuse(abort_of_none, sizeof abort_of_none, WAX_UNEXPECTED);
    deliver("station 1's transaction is aborted, cause 2", b, 23, WAX_ABORTED, WAX_CAUSE_STALE);

    /* Station 1 begins anew, and commits what it reads now. */
    expect("station 1 begins again", b, wax_station_begin(LENT(b)), WAX_BEGUN, 2);
    expect("station 1 reads address 8, and waits", b, wax_station_read(ADDRESS, LENT(b)), WAX_WAITS, 0);
    serve(b, 1, 1, 0);
    deliver("station 1 has read 5", b, 16, WAX_VALUE, 5);
    expect("station 1 commits, and waits", b, wax_station_commit(LENT(b)), WAX_WAITS, 0);
    serve(b, 3, 1, WAX_RECORD_LENGTH(1, 0));
    deliver("station 1 has committed as number 2", b, 21, WAX_COMMITTED, 2);

    expect_archive();
    puts("as expected");
    return 0;
}
