/*
 * A complete host: the server and eight stations, locking and validating, in one process, with lines in memory. The owners count
 * frames into counters that they share: read a counter, write it with the frames added, commit; begin again when aborted.
 * The locking ones also reject bottles, which touch three counters of one page: these are written as a set, all or none.
 * Who acts next is drawn from a seeded generator, so messages cross in many ways, and a run can be had again.
 *
 * At the end the archive is replayed. What it leaves, what the server has and what the owners counted has to be the same.
 *
 *   gcc -std=c99 line.c $(pkg-config --cflags --libs waxwingrack) -o line
 *   ./line --help
 *
 * To copy from: the host carries messages and keeps the archive, and knows nothing of counters; the owners know nothing
 * of messages. Exits with 0 if all is the same, 1 if something is not, 2 if the arguments are not understood.
 */
#include <errno.h>
#include <inttypes.h>
#include <stdio.h>
#include <stdlib.h>
#include <string.h>

#include "waxwingrack.h"

/* ---------------------------------------------------------------- What goes wrong */

static void stop(const char *what)
{
    fflush(stdout);
    fprintf(stderr, "line: %s\n", what);
    exit(1);
}

static const char *words_of(uint32_t number)
{
    static const char *const words[] = {
        [WAX_BUFFER] = "a state is none, or a buffer is too short",
        [WAX_LENGTH] = "a message has a wrong length",
        [WAX_KIND] = "this end does not take messages of that kind",
        [WAX_RANGE] = "a number is out of its range",
        [WAX_RECORD] = "a record is broken, or disagrees with its message",
        [WAX_UNEXPECTED] = "the message fits nothing that is out",
        [WAX_WAITING] = "a request or commit is out",
        [WAX_CLOSED] = "no transaction is open",
        [WAX_OPEN] = "a transaction is open",
        [WAX_KEPT] = "the page is in use, or not cached",
        [WAX_SPENT] = "the last transaction number is used up",
        [WAX_SHORT] = "the archive ends inside a record",
        [WAX_SEQUENCE] = "a commit number is not one more than the last",
        [WAX_REPLAY] = "a read differs from what the records before it leave",
        [WAX_LONG] = "one read or write more than a transaction may have",
    };

    return number < sizeof words / sizeof words[0] && words[number] != NULL ? words[number] : "no number of this call";
}

/* A refused call has changed nothing, so there is nothing to undo. Of this host's calls a purge alone may be refused. */
static void expect_taken(const char *call, size_t station, uint32_t number)
{
    if (number == WAX_OK)
        return;
    fflush(stdout);
    fprintf(stderr, "line: station %zu: %s: refused with %" PRIu32 ", %s\n", station, call, number, words_of(number));
    exit(1);
}

static void *block(size_t length)
{
    void *bytes = malloc(length);

    if (bytes == NULL)
        stop("there is no memory left");
    return bytes;
}

/* ---------------------------------------------------------------- The host: queues */

struct message {
    struct message *next;
    size_t length; /* a commit is longer than the others */
    uint8_t bytes[];
};

/* One way of a line: what was sent and not yet taken, first one first. Each message has a block, so a queue cannot overflow. */
struct queue {
    struct message *first, *last;
    size_t count, most; /* now, and at most so far */
};

static void enqueue(struct queue *queue, const uint8_t *bytes, size_t length)
{
    struct message *message = block(sizeof *message + length);

    message->next = NULL;
    message->length = length;
    memcpy(message->bytes, bytes, length);
    if (queue->first == NULL)
        queue->first = message;
    else
        queue->last->next = message;
    queue->last = message;
    queue->count++;
    if (queue->most < queue->count)
        queue->most = queue->count;
}

static void dequeue(struct queue *queue)
{
    struct message *message = queue->first;

    queue->first = message->next;
    queue->count--;
    free(message);
}

/* ---------------------------------------------------------------- The host: the archive */

struct archive {
    uint8_t *bytes;
    size_t length, room;
    FILE *file; /* NULL if it is kept in memory only */
};

static void append(struct archive *archive, const uint8_t *records, size_t length)
{
    if (length == 0)
        return;
    if (archive->room - archive->length < length) {
        archive->room = 2 * (archive->length + length);
        archive->bytes = realloc(archive->bytes, archive->room);
        if (archive->bytes == NULL)
            stop("there is no memory left for the archive");
    }
    memcpy(archive->bytes + archive->length, records, length);
    archive->length += length;
    if (archive->file != NULL && (fwrite(records, 1, length, archive->file) != length || fflush(archive->file) != 0))
        stop("the archive's file cannot be written");
}

static void open_archive(struct archive *archive, const char *path)
{
    if (path == NULL)
        return;
    archive->file = fopen(path, "wb");
    if (archive->file == NULL) {
        fprintf(stderr, "line: %s: %s\n", path, strerror(errno));
        exit(1);
    }
}

static void close_archive(struct archive *archive)
{
    if (archive->file != NULL && fclose(archive->file) != 0)
        stop("the archive's file cannot be written");
}

/* ---------------------------------------------------------------- The host: ends and lines */

/*
 * What is lent. Only the states have to be kept from one call to the next; the other buffers may be shared by all ends that
 * do not run at the same time. Static arrays would do: here each is a block of its own, not cleared and as short as the
 * header allows, so that a memory checker sees a byte used beside it or before it was written.
 */
struct station {
    uint8_t *state, *messages, *commit;
    uint64_t *told;
    struct queue up, down;
};

struct line {
    uint8_t *state, *messages, *records; /* the server's */
    uint64_t *served;
    struct station stations[WAX_STATIONS];
    struct archive archive;
};

#define LENT(station) (station)->state, WAX_STATION_LENGTH, (station)->messages, WAX_STATION_MESSAGES, \
                      (station)->commit, WAX_COMMIT_LENGTH, (station)->told, WAX_TOLD

static void make_station(struct station *station, uint32_t number, uint32_t kind)
{
    station->state = block(WAX_STATION_LENGTH);
    station->messages = block(WAX_STATION_MESSAGES);
    station->commit = block(WAX_COMMIT_LENGTH);
    station->told = block(WAX_TOLD * sizeof *station->told);
    expect_taken("fresh station", number, wax_station_fresh(number, kind, station->state, WAX_STATION_LENGTH));
}

/* A fresh line: server and stations are told the same kinds. */
static void make_line(struct line *line, const uint8_t *kinds)
{
    line->state = block(WAX_SERVER_LENGTH);
    line->messages = block(WAX_SERVER_MESSAGES);
    line->records = block(WAX_SERVER_RECORDS);
    line->served = block(WAX_SERVED * sizeof *line->served);
    if (wax_server_fresh(kinds, WAX_STATIONS, line->state, WAX_SERVER_LENGTH) != WAX_OK)
        stop("there is no server of these kinds");
    for (uint32_t i = 0; i < WAX_STATIONS; i++)
        make_station(&line->stations[i], i, kinds[i]);
}

static void free_line(struct line *line)
{
    for (size_t i = 0; i < WAX_STATIONS; i++) {
        free(line->stations[i].state);
        free(line->stations[i].messages);
        free(line->stations[i].commit);
        free(line->stations[i].told);
    }
    free(line->state);
    free(line->messages);
    free(line->records);
    free(line->served);
    free(line->archive.bytes);
}

/* Behind every accepted call of a station: what it left goes up, in its order. It is either messages or a commit. */
static void send_up(struct station *station)
{
    const size_t messages = (size_t)station->told[WAX_TOLD_MESSAGES], commit = (size_t)station->told[WAX_TOLD_COMMIT];

    for (size_t k = 0; k < messages; k++)
        enqueue(&station->up, station->messages + k * WAX_MESSAGE_LENGTH, WAX_MESSAGE_LENGTH);
    if (commit != 0)
        enqueue(&station->up, station->commit, commit);
}

/* Behind every accepted step of the server. Records come first: a 21 tells a station that its record is in the archive. */
static void send_down(struct line *line)
{
    const size_t messages = (size_t)line->served[WAX_SERVED_MESSAGES];

    append(&line->archive, line->records, (size_t)line->served[WAX_SERVED_RECORDS]);
    for (size_t k = 0; k < messages; k++) {
        const uint8_t *message = line->messages + k * WAX_MESSAGE_LENGTH;

        enqueue(&line->stations[message[1]].down, message, WAX_MESSAGE_LENGTH);
    }
}

/* The server takes the first message that station i has sent. It leaves its queue only when it was taken. */
static void serve(struct line *line, size_t i)
{
    struct queue *up = &line->stations[i].up;

    expect_taken("the server takes its message", i,
                 wax_server_step(up->first->bytes, up->first->length, line->state, WAX_SERVER_LENGTH,
                                 line->messages, WAX_SERVER_MESSAGES, line->records, WAX_SERVER_RECORDS,
                                 line->served, WAX_SERVED));
    dequeue(up);
    send_down(line);
}

/* Station i takes the first message that the server has sent to it. What its owner is told stands in told. */
static void deliver(struct line *line, size_t i)
{
    struct station *station = &line->stations[i];
    const struct message *message = station->down.first;

    expect_taken("it takes a message", i, wax_station_step(message->bytes, message->length, LENT(station)));
    dequeue(&station->down);
    send_up(station);
}

/* ---------------------------------------------------------------- The generator */

static uint64_t drawn;

/* A number below `below`: splitmix64, whose slight preference for low numbers does no harm here. */
static size_t draw(size_t below)
{
    uint64_t z;

    drawn += UINT64_C(0x9E3779B97F4A7C15);
    z = drawn;
    z = (z ^ (z >> 30)) * UINT64_C(0xBF58476D1CE4E5B9);
    z = (z ^ (z >> 27)) * UINT64_C(0x94D049BB133111EB);
    return (size_t)((z ^ (z >> 31)) % below);
}

/* ---------------------------------------------------------------- The owners */

/* Counters on few pages, so that owners meet; a batch adds to two of them, so that they meet in both orders. A bottle that is
 * rejected adds to three of one page. */
enum { FIRST_COUNTER = 8, COUNTERS = 24, BATCH = 2, BOTTLE = 3, MOST_FRAMES = 9 };

/* An owner's next call. */
enum next { PURGE, BEGIN, READ, WRITE, WRITE_SET, COMMIT, ABORT, REST };

struct owner {
    enum next next;
    int locking;                        /* only a locking station writes sets */
    int waits;                          /* the answer comes with a delivery; no call until then */
    uint64_t left;                      /* batches to be counted, this one too */
    size_t count;                       /* the batch: BATCH or BOTTLE addresses, and the frames seen for each */
    uint8_t counters[BOTTLE];
    uint64_t frames[BOTTLE];
    size_t at;                          /* which of them is at hand */
    uint64_t sums[BOTTLE];              /* what they are to become */
    uint64_t counted[WAX_ADDRESSES];    /* frames of the batches that were committed */
    uint64_t commits, bottles;
    uint64_t aborts[WAX_CAUSE_NO_NUMBERS]; /* by cause, 0 for its own wish */
};

static int is_bottle(const struct owner *owner)
{
    return owner->count == BOTTLE;
}

/* Three different counters of the first one's page: its object, the next and the one behind that, round the page. */
static void put_on_one_page(uint8_t *counters)
{
    const uint8_t first = counters[0], page = (uint8_t)(first / WAX_OBJECTS);

    for (size_t k = 0; k < BOTTLE; k++)
        counters[k] = (uint8_t)(page * WAX_OBJECTS + (first + k) % WAX_OBJECTS);
}

/* The next batch; now and then the owner gives a page back first. */
static void next_batch(struct owner *owner)
{
    if (owner->left == 0) {
        owner->next = REST;
        return;
    }
    owner->count = owner->locking && draw(4) == 0 ? BOTTLE : BATCH;
    for (size_t k = 0; k < owner->count; k++) {
        owner->counters[k] = (uint8_t)(FIRST_COUNTER + draw(COUNTERS));
        owner->frames[k] = 1 + draw(MOST_FRAMES);
    }
    if (is_bottle(owner))
        put_on_one_page(owner->counters);
    owner->next = draw(8) == 0 ? PURGE : BEGIN;
}

static void hear_begun(struct owner *owner)
{
    owner->at = 0;
    owner->next = READ;
}

static void hear_value(struct owner *owner, uint64_t value)
{
    owner->sums[owner->at] = value + owner->frames[owner->at];
    if (!is_bottle(owner))
        owner->next = WRITE;
    else if (++owner->at == BOTTLE)
        owner->next = WRITE_SET;
}

/* Now and then the owner thinks better of its commit. */
static void hear_written(struct owner *owner)
{
    if (!is_bottle(owner) && ++owner->at < BATCH)
        owner->next = READ;
    else
        owner->next = draw(32) == 0 ? ABORT : COMMIT;
}

/* Frames count when their commit was told, not before. */
static void hear_committed(struct owner *owner)
{
    for (size_t k = 0; k < owner->count; k++)
        owner->counted[owner->counters[k]] += owner->frames[k];
    owner->commits++;
    if (is_bottle(owner))
        owner->bottles++;
    owner->left--;
    next_batch(owner);
}

/* A deadlock's victim, a page that was changed, an object that was locked, or its own wish: the same batch again. */
static void hear_aborted(struct owner *owner, uint64_t cause)
{
    if (cause >= WAX_CAUSE_NO_NUMBERS)
        stop(cause == WAX_CAUSE_NO_NUMBERS ? "the last commit number is used up" : "an abort has a cause without a name");
    owner->aborts[cause]++;
    owner->next = BEGIN;
}

/* What a call or a delivery tells the owner. An abort can come with any delivery, also when the owner waits for nothing. */
static void hear(struct owner *owner, uint64_t answer, uint64_t value)
{
    if (answer == WAX_NOTHING)
        return; /* what it waits for is still to come */
    owner->waits = answer == WAX_WAITS;
    if (answer == WAX_PURGED)
        owner->next = BEGIN;
    else if (answer == WAX_BEGUN)
        hear_begun(owner);
    else if (answer == WAX_VALUE)
        hear_value(owner, value);
    else if (answer == WAX_WRITTEN)
        hear_written(owner);
    else if (answer == WAX_COMMITTED)
        hear_committed(owner);
    else if (answer == WAX_ABORTED)
        hear_aborted(owner, value);
    else if (answer != WAX_WAITS)
        stop("a station tells what the header does not name");
}

/* The three counters of a bottle in one call: granted together, or none of them yet. */
static uint32_t write_set(const struct owner *owner, struct station *station)
{
    uint64_t values[WAX_OBJECTS] = { 0 };
    uint32_t set = 0;

    for (size_t k = 0; k < BOTTLE; k++) {
        values[owner->counters[k] % WAX_OBJECTS] = owner->sums[k];
        set |= UINT32_C(1) << owner->counters[k] % WAX_OBJECTS;
    }
    return wax_station_write_set(owner->counters[0] / WAX_OBJECTS, set, values, WAX_OBJECTS, LENT(station));
}

/* The owner's next call, at its station. */
static uint32_t call(const struct owner *owner, struct station *station)
{
    switch (owner->next) {
    case PURGE:
        return wax_station_purge(owner->counters[0] / WAX_OBJECTS, LENT(station));
    case BEGIN:
        return wax_station_begin(LENT(station));
    case READ:
        return wax_station_read(owner->counters[owner->at], LENT(station));
    case WRITE:
        return wax_station_write(owner->counters[owner->at], owner->sums[owner->at], LENT(station));
    case WRITE_SET:
        return write_set(owner, station);
    case COMMIT:
        return wax_station_commit(LENT(station));
    case ABORT:
        return wax_station_abort(LENT(station));
    default:
        return WAX_CLOSED; /* an owner at rest calls nothing */
    }
}

static void act(struct line *line, struct owner *owner, size_t i)
{
    static const char *const calls[] = { "purge", "begin", "read", "write", "write of a set", "commit", "abort", "rest" };
    struct station *station = &line->stations[i];
    const uint32_t number = call(owner, station);

    if (owner->next == PURGE && number == WAX_KEPT) { /* there is no copy to give back */
        owner->next = BEGIN;
        return;
    }
    expect_taken(calls[owner->next], i, number);
    send_up(station);
    hear(owner, station->told[WAX_TOLD_ANSWER], station->told[WAX_TOLD_VALUE]);
}

/* ---------------------------------------------------------------- The run */

/* What can happen at each station: its owner calls, the server takes a message from it, it takes one from the server. */
enum { OWNER_ACTS, SERVER_TAKES, STATION_TAKES, MOVES };

/* Answers 0 if there is nothing to do there. */
static int move(struct line *line, struct owner *owners, size_t which)
{
    const size_t i = which / MOVES;
    struct station *station = &line->stations[i];

    switch (which % MOVES) {
    case OWNER_ACTS:
        if (owners[i].waits || owners[i].next == REST)
            return 0;
        act(line, &owners[i], i);
        return 1;
    case SERVER_TAKES:
        if (station->up.first == NULL)
            return 0;
        serve(line, i);
        return 1;
    default:
        if (station->down.first == NULL)
            return 0;
        deliver(line, i);
        hear(&owners[i], station->told[WAX_TOLD_ANSWER], station->told[WAX_TOLD_VALUE]);
        return 1;
    }
}

/* Until nobody can move: then the lines are empty, and every owner has to be at rest. Answers how many moves there were. */
static uint64_t run(struct line *line, struct owner *owners)
{
    const size_t moves = MOVES * WAX_STATIONS;
    uint64_t made = 0;

    for (;;) {
        const size_t from = draw(moves);
        size_t k = 0;

        while (k < moves && !move(line, owners, (from + k) % moves))
            k++;
        if (k == moves)
            break;
        made++;
    }
    for (size_t i = 0; i < WAX_STATIONS; i++)
        if (owners[i].next != REST)
            stop("the line stands still, and an owner still waits");
    return made;
}

/* ---------------------------------------------------------------- The end */

/* docs/STATE.md: where the server's state has the 256 values and the last commit number, little-endian. */
enum { SERVER_VALUES = 0, SERVER_LAST = 52464 };

static uint64_t number_at(const uint8_t *bytes, size_t width)
{
    uint64_t number = 0;

    while (width > 0)
        number = number << 8 | bytes[--width];
    return number;
}

static void print_owners(const struct owner *owners, const uint8_t *kinds)
{
    puts("station kind       commits  bottles  aborts: deadlock    stale   locked      own");
    for (size_t i = 0; i < WAX_STATIONS; i++)
        printf("%7zu %-10s %7" PRIu64 " %8" PRIu64 " %17" PRIu64 " %8" PRIu64 " %8" PRIu64 " %8" PRIu64 "\n", i,
               kinds[i] == WAX_VALIDATING ? "validating" : "locking", owners[i].commits, owners[i].bottles,
               owners[i].aborts[WAX_CAUSE_DEADLOCK], owners[i].aborts[WAX_CAUSE_STALE],
               owners[i].aborts[WAX_CAUSE_LOCKED], owners[i].aborts[0]);
}

static void print_lines(const struct line *line, uint64_t moves)
{
    size_t up = 0, down = 0;

    for (size_t i = 0; i < WAX_STATIONS; i++) {
        if (up < line->stations[i].up.most)
            up = line->stations[i].up.most;
        if (down < line->stations[i].down.most)
            down = line->stations[i].down.most;
    }
    printf("%" PRIu64 " moves; at most %zu messages under way on one line up, %zu on one line down\n", moves, up, down);
}

/* The archive replays, and archive, server and owners agree on every one of the 256 values. Answers the frames. */
static uint64_t expect_values(const struct line *line, const struct owner *owners, uint32_t *last)
{
    uint64_t values[WAX_ADDRESSES] = { 0 }, frames = 0;
    const uint32_t number = wax_archive_replay(line->archive.bytes, line->archive.length, values, last);

    if (number != WAX_OK) {
        printf("archive: refused with %" PRIu32 " after commit %" PRIu32 "\n", number, *last);
        stop(words_of(number));
    }
    for (size_t address = 0; address < WAX_ADDRESSES; address++) {
        const uint64_t server = number_at(line->state + SERVER_VALUES + address * 8, 8);
        uint64_t counted = 0;

        for (size_t i = 0; i < WAX_STATIONS; i++)
            counted += owners[i].counted[address];
        if (values[address] != server || values[address] != counted) {
            printf("address %zu: archive %" PRIu64 ", server %" PRIu64 ", counted %" PRIu64 "\n", address,
                   values[address], server, counted);
            stop("the values are NOT the same");
        }
        frames += counted;
    }
    return frames;
}

static void expect_end(const struct line *line, const struct owner *owners)
{
    uint32_t last = 0;
    uint64_t frames = expect_values(line, owners, &last), commits = 0;

    for (size_t i = 0; i < WAX_STATIONS; i++)
        commits += owners[i].commits;
    if (last != commits || last != number_at(line->state + SERVER_LAST, 4))
        stop("the commits told are NOT those of the archive and the server");
    printf("archive: %" PRIu32 " commits, %zu bytes, replayed\n", last, line->archive.length);
    printf("%" PRIu64 " frames: all %d values are the same in the archive, at the server and as counted\n", frames,
           WAX_ADDRESSES);
}

/* ---------------------------------------------------------------- Arguments */

#define MOST_ROUNDS 1000000

struct options {
    uint64_t rounds, seed;
    const char *archive;
};

static void print_help(void)
{
    printf("usage: line [--rounds N] [--seed N] [--archive FILE]\n"
           "\n"
           "Runs a server and eight stations whose owners count frames into shared counters, replays the archive, and\n"
           "compares what it leaves with what the server has and with what the owners counted.\n"
           "\n"
           "  --rounds N      batches that each owner commits, 1 to %d (100)\n"
           "  --seed N        where the generator starts, any number of 64 bits (1); the same seed gives the same run\n"
           "  --archive FILE  writes the archive to FILE as it grows; the playback program can play it\n"
           "  --help          prints this\n", MOST_ROUNDS);
}

static void misused(const char *option, const char *what)
{
    fprintf(stderr, "line: %s: %s; line --help says what is understood\n", option, what);
    exit(2);
}

static uint64_t number_from(const char *option, const char *text, uint64_t least, uint64_t most)
{
    char *end;
    unsigned long long number;

    errno = 0;
    number = strtoull(text, &end, 10);
    if (text[0] < '0' || text[0] > '9' || *end != '\0' || errno != 0 || number < least || number > most) {
        fprintf(stderr, "line: %s %s: it has to be a number from %" PRIu64 " to %" PRIu64 "\n", option, text, least, most);
        exit(2);
    }
    return number;
}

/* texts[0] is an option, texts[1] what follows it, or NULL. */
static void take_option(struct options *options, char **texts)
{
    const int rounds = strcmp(texts[0], "--rounds") == 0, seed = strcmp(texts[0], "--seed") == 0;

    if (!rounds && !seed && strcmp(texts[0], "--archive") != 0)
        misused(texts[0], "there is no such option");
    if (texts[1] == NULL)
        misused(texts[0], "something has to follow");
    if (rounds)
        options->rounds = number_from(texts[0], texts[1], 1, MOST_ROUNDS);
    else if (seed)
        options->seed = number_from(texts[0], texts[1], 0, UINT64_MAX);
    else
        options->archive = texts[1];
}

static struct options options_from(int count, char **texts)
{
    struct options options = { 100, 1, NULL };

    for (int i = 1; i < count; i += 2) {
        if (strcmp(texts[i], "--help") == 0) {
            print_help();
            exit(0);
        }
        take_option(&options, texts + i);
    }
    return options;
}

int main(int count, char **texts)
{
    static const uint8_t kinds[WAX_STATIONS] = { [1] = WAX_VALIDATING, [3] = WAX_VALIDATING, [4] = WAX_VALIDATING,
                                                 [7] = WAX_VALIDATING };
    static struct owner owners[WAX_STATIONS];
    static struct line line;
    const struct options options = options_from(count, texts);
    uint64_t moves;

    drawn = options.seed;
    open_archive(&line.archive, options.archive);
    make_line(&line, kinds);
    for (size_t i = 0; i < WAX_STATIONS; i++) {
        owners[i].left = options.rounds;
        owners[i].locking = kinds[i] != WAX_VALIDATING;
        next_batch(&owners[i]);
    }
    moves = run(&line, owners);
    close_archive(&line.archive);
    print_owners(owners, kinds);
    print_lines(&line, moves);
    expect_end(&line, owners);
    free_line(&line);
    return 0;
}
