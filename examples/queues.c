/*
 * A host whose lines have queues of fixed size, and that allocates nothing. Three rules keep it from standing still with full
 * queues; each can be kept by an end alone, if the other tells what it has taken:
 *
 *   the server takes a message only when everything that it sent was taken: then what a step sends to one station fits a queue of
 *       WAX_LOCKING_ADDS or WAX_VALIDATING_ADDS messages, which is proved;
 *   it takes it from a line that is no shorter than any other;
 *   an owner calls only when nothing of its station is under way: then its line up has the answers that are owed, and one call's.
 *
 * A station takes what comes down when its line up has room for WAX_STATION_ADDS messages. docs/C-INTERFACE.md, "Queues of fixed
 * size", says why UP is enough. Owners count frames as in line.c, over few counters or many: all, so that 19s come in numbers.
 *
 *   gcc -std=c99 queues.c $(pkg-config --cflags --libs waxwingrack) -o queues
 *   ./queues --help
 *
 * Exits with 0 if the line ran to its end and the archive is true, 1 if not, 2 if the arguments are not understood.
 */
#include <errno.h>
#include <inttypes.h>
#include <stdio.h>
#include <stdlib.h>
#include <string.h>

#include "waxwingrack.h"

static void stop(const char *what)
{
    fflush(stdout);
    fprintf(stderr, "queues: %s\n", what);
    exit(1);
}

static void expect_taken(const char *call, size_t station, uint32_t number)
{
    if (number == WAX_OK)
        return;
    fprintf(stderr, "queues: station %zu: %s: refused with %" PRIu32 "\n", station, call, number);
    exit(1);
}

/* ---------------------------------------------------------------- Queues */

enum { UP = 80, DOWN = WAX_LOCKING_ADDS > WAX_VALIDATING_ADDS ? WAX_LOCKING_ADDS : WAX_VALIDATING_ADDS };

/* Of the UP places of a line up this run uses so many. */
static size_t up_room = UP;

/* A station has one commit under way at most, so a line up has one place for it; its message's bytes stand in the ring too. */
struct up {
    uint8_t ring[UP][WAX_MESSAGE_LENGTH];
    uint8_t commit[WAX_COMMIT_LENGTH];
    size_t commit_length;
    size_t first, count, most;
};

struct down {
    uint8_t ring[DOWN][WAX_MESSAGE_LENGTH];
    size_t first, count, most;
};

static void send_up(struct up *up, const uint8_t *message)
{
    if (up->count == up_room)
        stop("a line up has no room");
    memcpy(up->ring[(up->first + up->count) % UP], message, WAX_MESSAGE_LENGTH);
    up->count++;
    if (up->most < up->count)
        up->most = up->count;
}

static void send_down(struct down *down, size_t room, const uint8_t *message)
{
    if (down->count == room)
        stop("a line down has no room");
    memcpy(down->ring[(down->first + down->count) % DOWN], message, WAX_MESSAGE_LENGTH);
    down->count++;
    if (down->most < down->count)
        down->most = down->count;
}

/* ---------------------------------------------------------------- The ends */

struct station {
    uint8_t state[WAX_STATION_LENGTH];
    struct up up;
    struct down down;
};

static const uint8_t kinds[WAX_STATIONS] = { WAX_LOCKING, WAX_VALIDATING, WAX_LOCKING, WAX_VALIDATING,
                                             WAX_VALIDATING, WAX_LOCKING, WAX_LOCKING, WAX_VALIDATING };
static struct station stations[WAX_STATIONS];
static uint8_t server[WAX_SERVER_LENGTH];

/* lent for what a call gives, and carried before the next call */
static uint8_t messages[WAX_SERVER_MESSAGES > WAX_STATION_MESSAGES ? WAX_SERVER_MESSAGES : WAX_STATION_MESSAGES];
static uint8_t commit[WAX_COMMIT_LENGTH], records[WAX_SERVER_RECORDS];
static uint64_t told[WAX_TOLD], served[WAX_SERVED];

/* Records go to whoever keeps them; here they are played at once. */
static wax_playback playback;

static void archive(const uint8_t *record, size_t length)
{
    while (length > 0) {
        const size_t one = WAX_RECORD_LENGTH_OF(record);

        if (wax_playback_record(&playback, record, length) != WAX_OK)
            stop("the archive is refused");
        record += one;
        length -= one;
    }
}

static size_t down_room(size_t i)
{
    return kinds[i] == WAX_VALIDATING ? WAX_VALIDATING_ADDS : WAX_LOCKING_ADDS;
}

#define LENT stations[i].state, WAX_STATION_LENGTH, messages, sizeof messages, commit, sizeof commit, told, WAX_TOLD

static void carry_up(size_t i)
{
    struct up *up = &stations[i].up;

    for (size_t k = 0; k < told[WAX_TOLD_MESSAGES]; k++)
        send_up(up, messages + k * WAX_MESSAGE_LENGTH);
    if (told[WAX_TOLD_COMMIT] != 0) {
        if (up->commit_length != 0)
            stop("two commits are under way on one line");
        up->commit_length = (size_t)told[WAX_TOLD_COMMIT];
        memcpy(up->commit, commit, up->commit_length);
        send_up(up, commit);
    }
}

/* The rules: whether each may act now. */

static int all_taken(void)
{
    size_t under_way = 0;

    for (size_t i = 0; i < WAX_STATIONS; i++)
        under_way += stations[i].down.count;
    return under_way == 0;
}

static int may_serve(size_t i)
{
    if (stations[i].up.count == 0 || !all_taken())
        return 0;
    for (size_t k = 0; k < WAX_STATIONS; k++)
        if (stations[k].up.count > stations[i].up.count)
            return 0;
    return 1;
}

static int may_deliver(size_t i)
{
    return stations[i].down.count > 0 && up_room - stations[i].up.count >= WAX_STATION_ADDS;
}

static int may_call(size_t i)
{
    return stations[i].down.count == 0 && stations[i].up.count == 0;
}

static void serve(size_t i)
{
    struct up *up = &stations[i].up;
    const uint8_t *message = up->ring[up->first];
    const int commits = message[WAX_AT_KIND] == WAX_UP_COMMIT;

    expect_taken("the server takes its message", i,
                 wax_server_step(commits ? up->commit : message, commits ? up->commit_length : (size_t)WAX_MESSAGE_LENGTH,
                                 server, sizeof server, messages, sizeof messages, records, sizeof records, served, WAX_SERVED));
    if (commits)
        up->commit_length = 0;
    up->first = (up->first + 1) % UP;
    up->count--;
    archive(records, (size_t)served[WAX_SERVED_RECORDS]);
    for (size_t k = 0; k < served[WAX_SERVED_MESSAGES]; k++) {
        const uint8_t *sent = messages + k * WAX_MESSAGE_LENGTH;
        const size_t to = sent[WAX_AT_STATION];

        send_down(&stations[to].down, down_room(to), sent);
    }
}

static void deliver(size_t i)
{
    struct down *down = &stations[i].down;

    expect_taken("it takes a message", i, wax_station_step(down->ring[down->first], WAX_MESSAGE_LENGTH, LENT));
    down->first = (down->first + 1) % DOWN;
    down->count--;
    carry_up(i);
}

/* ---------------------------------------------------------------- The owners */

static uint64_t drawn;

static size_t draw(size_t below)
{
    uint64_t z = drawn += UINT64_C(0x9E3779B97F4A7C15);

    z = (z ^ (z >> 30)) * UINT64_C(0xBF58476D1CE4E5B9);
    z = (z ^ (z >> 27)) * UINT64_C(0x94D049BB133111EB);
    return (size_t)((z ^ (z >> 31)) % below);
}

enum { MOST_ADDED = 40, OBJECTS_PER_PAGE = 8 };
enum next { BEGIN, READ, WRITE, COMMIT, ABORT, PURGE, REST };

struct owner {
    enum next next;
    int waits;
    uint64_t left, sum, commits, aborts;
    size_t count, at;
    uint8_t addresses[MOST_ADDED];
    uint8_t reads_only[MOST_ADDED];
    uint64_t counted[WAX_ADDRESSES];
};

static struct owner owners[WAX_STATIONS];

/* A few counters of one page, or of some, or one of each page; now and then it only looks. */
static void next_batch(struct owner *owner)
{
    const size_t sort = draw(6);
    const size_t base = draw(8) * OBJECTS_PER_PAGE;

    if (owner->left == 0) {
        owner->next = REST;
        return;
    }
    owner->count = sort < 3 ? 1 + draw(3) : sort == 3 ? 1 + draw(MOST_ADDED) : WAX_ADDRESSES / OBJECTS_PER_PAGE;
    for (size_t k = 0; k < owner->count; k++) {
        if (sort < 3)
            owner->addresses[k] = (uint8_t)(base + draw(OBJECTS_PER_PAGE));
        else if (sort == 3)
            owner->addresses[k] = (uint8_t)draw(WAX_ADDRESSES);
        else
            owner->addresses[k] = (uint8_t)(k * OBJECTS_PER_PAGE + draw(OBJECTS_PER_PAGE));
        owner->reads_only[k] = sort == 5 && draw(4) != 0;
    }
    owner->next = draw(4) == 0 ? PURGE : BEGIN;
}

static void go_on(struct owner *owner)
{
    owner->at++;
    owner->next = owner->at < owner->count ? READ : draw(32) == 0 ? ABORT : COMMIT;
}

static void hear(struct owner *owner)
{
    const uint64_t answer = told[WAX_TOLD_ANSWER], value = told[WAX_TOLD_VALUE];

    if (answer == WAX_NOTHING)
        return;
    owner->waits = answer == WAX_WAITS;
    if (answer == WAX_BEGUN) {
        owner->at = 0;
        owner->next = READ;
    } else if (answer == WAX_VALUE && owner->reads_only[owner->at]) {
        go_on(owner);
    } else if (answer == WAX_VALUE) {
        owner->sum = value + 1;
        owner->next = WRITE;
    } else if (answer == WAX_WRITTEN) {
        go_on(owner);
    } else if (answer == WAX_COMMITTED) {
        for (size_t k = 0; k < owner->count; k++)
            owner->counted[owner->addresses[k]] += !owner->reads_only[k];
        owner->commits++;
        owner->left--;
        next_batch(owner);
    } else if (answer == WAX_ABORTED) {
        owner->aborts++;
        owner->next = BEGIN;
        if (owner->count > 3 && draw(4) == 0) /* the long ones lose again and again: then something shorter */
            next_batch(owner);
    } else if (answer == WAX_PURGED) {
        owner->next = BEGIN;
    }
}

static uint32_t call(const struct owner *owner, size_t i)
{
    const uint8_t address = owner->addresses[owner->at < owner->count ? owner->at : 0];

    switch (owner->next) {
    case BEGIN:
        return wax_station_begin(LENT);
    case READ:
        return wax_station_read(address, LENT);
    case WRITE:
        return wax_station_write(address, owner->sum, LENT);
    case COMMIT:
        return wax_station_commit(LENT);
    case ABORT:
        return wax_station_abort(LENT);
    default:
        return wax_station_purge((uint32_t)draw(WAX_ADDRESSES / OBJECTS_PER_PAGE), LENT);
    }
}

static void act(size_t i)
{
    struct owner *owner = &owners[i];
    const uint32_t number = call(owner, i);

    if (owner->next == PURGE && number == WAX_KEPT) {
        owner->next = BEGIN;
        return;
    }
    expect_taken("its owner's call", i, number);
    carry_up(i);
    hear(owner);
}

/* ---------------------------------------------------------------- The run */

static uint64_t held; /* how often a station had something to take and no room up */

/* Answers 0 if there is nothing to do there, or the rules hold it back. */
static int move(size_t which)
{
    const size_t i = which / 3;

    switch (which % 3) {
    case 0:
        if (owners[i].waits || owners[i].next == REST || !may_call(i))
            return 0;
        act(i);
        return 1;
    case 1:
        if (!may_serve(i))
            return 0;
        serve(i);
        return 1;
    default:
        if (!may_deliver(i)) {
            held += stations[i].down.count > 0;
            return 0;
        }
        deliver(i);
        hear(&owners[i]);
        return 1;
    }
}

static uint64_t run(void)
{
    const size_t moves = 3 * WAX_STATIONS;
    uint64_t made = 0;

    for (;; made++) {
        const size_t from = draw(moves);
        size_t k = 0;

        while (k < moves && !move((from + k) % moves))
            k++;
        if (k == moves)
            break;
    }
    for (size_t i = 0; i < WAX_STATIONS; i++)
        if (owners[i].next != REST)
            stop("the line stands still, and an owner still waits");
    return made;
}

static void expect_values(void)
{
    uint64_t commits = 0;

    for (size_t address = 0; address < WAX_ADDRESSES; address++) {
        uint64_t counted = 0;

        for (size_t i = 0; i < WAX_STATIONS; i++)
            counted += owners[i].counted[address];
        if (counted != playback.values[address])
            stop("the values are NOT the same");
    }
    for (size_t i = 0; i < WAX_STATIONS; i++)
        commits += owners[i].commits;
    if (commits != playback.last)
        stop("the commits told are NOT those of the archive");
}

static void print_lines(uint64_t moves)
{
    size_t up = 0, locking = 0, validating = 0;
    uint64_t aborts = 0;

    for (size_t i = 0; i < WAX_STATIONS; i++) {
        size_t *down = kinds[i] == WAX_VALIDATING ? &validating : &locking;

        if (up < stations[i].up.most)
            up = stations[i].up.most;
        if (*down < stations[i].down.most)
            *down = stations[i].down.most;
        aborts += owners[i].aborts;
    }
    printf("%" PRIu64 " moves, %" PRIu32 " commits, %" PRIu64 " aborts; longest lines: up %zu of %zu, down to a locking station %zu of %d, "
           "to a validating one %zu of %d; held back %" PRIu64 " times\n", moves, playback.last, aborts, up, up_room,
           locking, WAX_LOCKING_ADDS, validating, WAX_VALIDATING_ADDS, held);
}

/* ---------------------------------------------------------------- Arguments */

static void print_help(void)
{
    printf("usage: queues [--rounds N] [--seed N] [--up N]\n"
           "\n"
           "Runs a server and eight stations with queues of fixed size until every owner has committed so many batches.\n"
           "\n"
           "  --rounds N  batches of each owner (20)\n"
           "  --seed N    where the generator starts (1)\n"
           "  --up N      places of a line up, %d to %d (%d)\n"
           "  --help      prints this\n", WAX_STATION_ADDS, UP, UP);
}

static uint64_t number_of(const char *word)
{
    char *end;
    uint64_t number;

    errno = 0;
    number = strtoull(word, &end, 10);
    if (*word < '0' || *word > '9' || *end != '\0' || errno != 0) {
        fprintf(stderr, "queues: %s is no number\n", word);
        exit(2);
    }
    return number;
}

int main(int count, char **words)
{
    uint64_t rounds = 20, moves;

    drawn = 1;
    for (int i = 1; i < count; i++) {
        if (strcmp(words[i], "--help") == 0) {
            print_help();
            return 0;
        }
        if (i + 1 < count && strcmp(words[i], "--rounds") == 0)
            rounds = number_of(words[++i]);
        else if (i + 1 < count && strcmp(words[i], "--seed") == 0)
            drawn = number_of(words[++i]);
        else if (i + 1 < count && strcmp(words[i], "--up") == 0)
            up_room = (size_t)number_of(words[++i]);
        else
            up_room = 0;
        if (up_room < WAX_STATION_ADDS || up_room > UP) {
            fprintf(stderr, "queues: %s is not understood; --help says what is\n", words[i]);
            return 2;
        }
    }
    expect_taken("a fresh server", 0, wax_server_fresh(kinds, sizeof kinds, server, sizeof server));
    for (uint32_t i = 0; i < WAX_STATIONS; i++) {
        expect_taken("a fresh station", i, wax_station_fresh(i, kinds[i], stations[i].state, WAX_STATION_LENGTH));
        owners[i].left = rounds;
        next_batch(&owners[i]);
    }
    moves = run();
    expect_values();
    print_lines(moves);
    return 0;
}
