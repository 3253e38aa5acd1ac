/*
 * A host for one locking station. Its owner reads and writes one object and commits; the server is played by hand.
 * Prints what happens; exits with 1 and says what is wrong if an answer is not the expected one.
 */
#include <inttypes.h>
#include <stdio.h>
#include <stdlib.h>
#include <string.h>

#include "waxwingrack.h"

enum { STATION = 0, ADDRESS = 8, PAGE = ADDRESS / 8, OBJECT = ADDRESS % 8 };

/* The kinds of message that occur here. */
enum { READ_REQUEST = 1, WRITE_REQUEST = 2, PAGE_SENT = 16, PAGE_LOCKED_WHOLE = 18, COMMITTED = 21 };

/* What is lent to each call. Only the state has to be kept from one call to the next. */
struct lent {
    uint8_t state[WAX_STATION_LENGTH];
    uint8_t messages[WAX_STATION_MESSAGES];
    uint8_t commit[WAX_COMMIT_LENGTH];
    uint64_t told[WAX_TOLD];
};

static struct lent lent;

#define LENT lent.state, sizeof lent.state, lent.messages, sizeof lent.messages, \
             lent.commit, sizeof lent.commit, lent.told, WAX_TOLD

static void stop_unless(int holds, const char *call, const char *what)
{
    if (!holds) {
        printf("NOT as expected: %s: %s\n", call, what);
        exit(1);
    }
}

/* A call that is accepted: what it tells, how many messages and how many bytes of a commit are to be sent. */
static void expect(const char *call, uint32_t number, uint64_t answer, uint64_t value, uint64_t messages, uint64_t commit)
{
    static const char *const words[] = { "", "begun, transaction", "the value is", "waits", "written", "committed as number",
                                         "aborted, cause", "purged", "nothing to tell" };
    const uint64_t expected[WAX_TOLD] = { answer, value, messages, commit };

    if (number != WAX_OK || memcmp(lent.told, expected, sizeof expected) != 0) {
        printf("NOT as expected: %s: answered %" PRIu32 ", told", call, number);
        for (size_t i = 0; i < WAX_TOLD; i++)
            printf(" %" PRIu64 " (for %" PRIu64 ")", lent.told[i], expected[i]);
        putchar('\n');
        exit(1);
    }
    printf("%-38s %s", call, words[answer]);
    if (answer == WAX_BEGUN || answer == WAX_VALUE || answer == WAX_COMMITTED || answer == WAX_ABORTED)
        printf(" %" PRIu64, value);
    putchar('\n');
}

/* A call that is refused: the number, and everything lent is as it was before. */
static void expect_refused(const char *call, uint32_t number, uint32_t expected, const struct lent *before)
{
    stop_unless(number == expected, call, "another number");
    stop_unless(memcmp(lent.state, before->state, sizeof lent.state) == 0, call, "the state was changed");
    stop_unless(memcmp(lent.messages, before->messages, sizeof lent.messages) == 0, call, "the messages were changed");
    stop_unless(memcmp(lent.commit, before->commit, sizeof lent.commit) == 0, call, "the commit was changed");
    stop_unless(memcmp(lent.told, before->told, sizeof lent.told) == 0, call, "what was told was changed");
    printf("%-38s refused, number %" PRIu32 "\n", call, number);
}

static void put_number(uint8_t *bytes, size_t width, uint64_t number)
{
    for (size_t i = 0; i < width; i++)
        bytes[i] = (uint8_t)(number >> (8 * i));
}

/* A message that names a station, a page, an object and a transaction; every other field is 0. */
static void put_message(uint8_t *message, uint8_t kind, uint8_t page, uint8_t object, uint32_t transaction)
{
    memset(message, 0, WAX_MESSAGE_LENGTH);
    message[0] = kind;
    message[1] = STATION;
    message[2] = page;
    message[3] = object;
    put_number(message + 4, 4, transaction);
}

/* Kinds 16 to 18: also values and versions of the page's eight objects; no object is unavailable. Kind 16 alone names the object. */
static void put_page(uint8_t *message, uint8_t kind, uint32_t transaction, const uint64_t *values, const uint32_t *versions)
{
    put_message(message, kind, PAGE, kind == WAX_DOWN_PAGE ? OBJECT : 0, transaction);
    for (size_t i = 0; i < 8; i++) {
        put_number(message + 48 + 8 * i, 8, values[i]);
        put_number(message + 112 + 4 * i, 4, versions[i]);
    }
}

/* Kind 21: also the commit number. */
static void put_committed(uint8_t *message, uint32_t transaction, uint32_t number)
{
    put_message(message, COMMITTED, 0, 0, transaction);
    put_number(message + 12, 4, number);
}

/* What a server says to bytes that came up the line, before it looks at its state. */
static uint32_t server_check(const uint8_t *bytes, size_t length)
{
    static const uint8_t kinds[WAX_STATIONS] = { [STATION] = WAX_LOCKING };
    return wax_up_check(kinds, sizeof kinds, bytes, length);
}

/* The message to be sent is this request; a write request names a set of objects, here of one. */
static void expect_request(const char *call, uint8_t kind, uint32_t transaction)
{
    uint8_t request[WAX_MESSAGE_LENGTH];

    put_message(request, kind, PAGE, kind == READ_REQUEST ? OBJECT : 0, transaction);
    if (kind != READ_REQUEST)
        request[16] = 1 << OBJECT;
    stop_unless(memcmp(lent.messages, request, sizeof request) == 0, call, "another message");
    stop_unless(server_check(lent.messages, WAX_MESSAGE_LENGTH) == WAX_OK, call, "a message that the server refuses");
    printf("    to the server: %s request for page %d, object %d\n", kind == READ_REQUEST ? "read" : "write", PAGE, OBJECT);
}

/* The commit to be sent has the record of document 01's C12, save for the commit number, which the server gives. */
static void expect_commit(const char *call, size_t length)
{
    static const uint8_t c12[34] = { 1, 0, 1, 0, 1, 0, 0, 0, 1, [16] = 8, 8, [26] = 1 };
    uint8_t record[sizeof c12];

    stop_unless(server_check(lent.commit, length) == WAX_OK, call, "a commit that the server refuses");
    stop_unless(length == WAX_COMMIT_HEAD(1, 1) + sizeof record, call, "a commit of another length");
    memcpy(record, lent.commit + WAX_COMMIT_HEAD(1, 1), sizeof record);
    put_number(record + 4, 4, 1);
    stop_unless(memcmp(record, c12, sizeof c12) == 0, call, "another record");
    printf("    to the server: a commit of %zu bytes, %zu of them its record\n", length, sizeof record);
}

/* docs/STATE.md says what stands where. */
static void print_state(void)
{
    printf("bytes of the state that are not 0:");
    for (size_t i = 0; i < sizeof lent.state; i++)
        if (lent.state[i] != 0)
            printf(" %zu=%u", i, (unsigned)lent.state[i]);
    putchar('\n');
}

int main(void)
{
    static const uint64_t values[8] = { 0 };
    static const uint32_t versions[8] = { 0 };
    static struct lent before;
    uint8_t message[WAX_MESSAGE_LENGTH];
    uint32_t transaction;

    stop_unless(wax_station_fresh(STATION, WAX_LOCKING, lent.state, sizeof lent.state) == WAX_OK, "a fresh state", "refused");

    expect("owner begins", wax_station_begin(LENT), WAX_BEGUN, 1, 0, 0);
    transaction = (uint32_t)lent.told[WAX_TOLD_VALUE];

    /* The page is not cached: the owner waits, and is told the value by the step that takes the page. */
    expect("owner reads address 8", wax_station_read(ADDRESS, LENT), WAX_WAITS, 0, 1, 0);
    expect_request("owner reads address 8", READ_REQUEST, transaction);

    before = lent;
    expect_refused("owner writes while the read is out", wax_station_write(ADDRESS, 1, LENT), WAX_WAITING, &before);
    put_page(message, PAGE_SENT, transaction + 1, values, versions);
    expect_refused("a page of another transaction (16)", wax_station_step(message, sizeof message, LENT),
                   WAX_UNEXPECTED, &before);

    put_page(message, PAGE_SENT, transaction, values, versions);
    expect("the page arrives (16)", wax_station_step(message, sizeof message, LENT), WAX_VALUE, 0, 0, 0);

    /* A locking station writes under a lock, and has none: it asks, and the step that takes the lock writes. */
    expect("owner writes 1 to address 8", wax_station_write(ADDRESS, 1, LENT), WAX_WAITS, 0, 1, 0);
    expect_request("owner writes 1 to address 8", WRITE_REQUEST, transaction);
    put_page(message, PAGE_LOCKED_WHOLE, transaction, values, versions);
    expect("the page arrives, locked whole (18)", wax_station_step(message, sizeof message, LENT), WAX_WRITTEN, 0, 0, 0);
    expect("owner reads address 8 again", wax_station_read(ADDRESS, LENT), WAX_VALUE, 1, 0, 0);

    expect("owner commits", wax_station_commit(LENT), WAX_WAITS, 0, 0, WAX_COMMIT_HEAD(1, 1) + WAX_RECORD_LENGTH(1, 1));
    expect_commit("owner commits", (size_t)lent.told[WAX_TOLD_COMMIT]);
    put_committed(message, transaction, 1);
    expect("the commit is installed (21)", wax_station_step(message, sizeof message, LENT), WAX_COMMITTED, 1, 0, 0);

    print_state();
    puts("as expected");
    return 0;
}
