/*
 * A host that survives a power failure. What a call leaves is a function of the state lent and of the call: so an end need not
 * save its state at every call, 53 KB for the server, but only what it was called with. Each end keeps
 *
 *   a journal    the calls since the last snapshot, one entry each; an entry is synced before anything that the call left is sent
 *                or told. At start they are made again, and leave what they left
 *   a snapshot   the state, what was sent and is not yet taken, and what its owner knows; then the journal begins anew
 *
 * and the server the archive, where records are synced before its messages are sent. Messages are numbered on each line: an end
 * knows by its journal how many it has taken, so a message that is sent again is known. docs/C-INTERFACE.md, "Restart", says why
 * that is enough.
 *
 *   gcc -std=c99 durable.c $(pkg-config --cflags --libs waxwingrack) -o durable
 *   ./durable --help
 *
 * The server and eight stations are in one process here, each with files of its own, as if on nine machines. Now and then one of
 * them fails: what it had in memory is gone, and of what it had written and not synced any part is lost. The others go on.
 * Exits with 0 if the archive is true in the end and nothing told is lost, 1 if not, 2 if the arguments are not understood.
 */
#define _POSIX_C_SOURCE 200809L
#define _XOPEN_SOURCE 700 /* for mkdtemp */
#include <errno.h>
#include <fcntl.h>
#include <inttypes.h>
#include <setjmp.h>
#include <stdio.h>
#include <stdlib.h>
#include <string.h>
#include <sys/stat.h>
#include <unistd.h>

#include "waxwingrack.h"

/* ---------------------------------------------------------------- What goes wrong */

static void stop(const char *what)
{
    fflush(stdout);
    fprintf(stderr, "durable: %s\n", what);
    exit(1);
}

static void stop_at(const char *path)
{
    fflush(stdout);
    fprintf(stderr, "durable: %s: %s\n", path, strerror(errno));
    exit(1);
}

static void *block(size_t length)
{
    void *bytes = malloc(length == 0 ? 1 : length);

    if (bytes == NULL)
        stop("there is no memory left");
    return bytes;
}

/* ---------------------------------------------------------------- Numbers drawn: splitmix64 */

static size_t draw(uint64_t *drawn, size_t below)
{
    uint64_t z = *drawn += UINT64_C(0x9E3779B97F4A7C15);

    z = (z ^ (z >> 30)) * UINT64_C(0xBF58476D1CE4E5B9);
    z = (z ^ (z >> 27)) * UINT64_C(0x94D049BB133111EB);
    return (size_t)((z ^ (z >> 31)) % below);
}

static uint64_t chance; /* of who acts next and what fails; nothing that is kept depends on it */

/* ---------------------------------------------------------------- Power */

static jmp_buf power;
static size_t failures; /* still to come */
static size_t until;    /* so many moments until the next */
static struct end *failing;

/* A moment at which power may fail: between any two things that are done to files, and before and behind sending. */
static void moment(struct end *end)
{
    if (failures == 0 || --until > 0)
        return;
    failures--;
    until = 1 + draw(&chance, 150);
    failing = end;
    longjmp(power, 1);
}

/* ---------------------------------------------------------------- Files */

struct file {
    int number;              /* -1 if it is not open */
    uint64_t written, synced; /* bytes */
    uint32_t check;          /* of what was put since it was opened */
};

/* FNV-1a: sees an entry that was cut or only half written. It is no protection against a disk that lies. */
static uint32_t check_of(uint32_t check, const uint8_t *bytes, size_t length)
{
    for (size_t i = 0; i < length; i++)
        check = (check ^ bytes[i]) * UINT32_C(16777619);
    return check;
}

#define NO_CHECK UINT32_C(2166136261)

static char folder[4096];

static const char *path_of(size_t end, const char *what)
{
    static char path[sizeof folder + 64];

    if (end == WAX_STATIONS)
        snprintf(path, sizeof path, "%s/server.%s", folder, what);
    else
        snprintf(path, sizeof path, "%s/station-%zu.%s", folder, end, what);
    return path;
}

static void open_file(struct file *file, const char *path, int flags)
{
    struct stat stat;

    file->number = open(path, flags | O_CREAT, 0666);
    if (file->number < 0 || fstat(file->number, &stat) != 0)
        stop_at(path);
    file->written = file->synced = (uint64_t)stat.st_size;
    file->check = NO_CHECK;
}

static void close_file(struct file *file)
{
    if (file->number >= 0)
        close(file->number);
    file->number = -1;
}

static void put(struct file *file, const void *bytes, size_t length)
{
    const uint8_t *from = bytes;

    file->check = check_of(file->check, from, length);
    for (size_t done = 0; done < length;) {
        const ssize_t count = pwrite(file->number, from + done, length - done, (off_t)file->written);

        if (count < 0 && errno == EINTR)
            continue;
        if (count <= 0)
            stop("a file cannot be written");
        done += (size_t)count;
        file->written += (uint64_t)count;
    }
}

static void put_number(struct file *file, uint64_t number)
{
    uint8_t bytes[8];

    for (size_t i = 0; i < 8; i++)
        bytes[i] = (uint8_t)(number >> 8 * i);
    put(file, bytes, 8);
}

static void sync_file(struct file *file)
{
    if (fdatasync(file->number) != 0)
        stop("a file cannot be synced");
    file->synced = file->written;
}

static void cut(struct file *file, uint64_t length)
{
    if (ftruncate(file->number, (off_t)length) != 0)
        stop("a file cannot be cut");
    file->written = length;
    if (file->synced > length)
        file->synced = length;
}

/* a name that was given is there after a failure only when its folder is synced */
static void sync_folder(void)
{
    const int number = open(folder, O_RDONLY);

    if (number < 0 || fsync(number) != 0)
        stop_at(folder);
    close(number);
}

/* All bytes of a file, NULL if there is none. */
static uint8_t *contents(const char *path, size_t *length)
{
    const int number = open(path, O_RDONLY);
    struct stat stat;
    uint8_t *bytes;
    size_t done = 0;

    *length = 0;
    if (number < 0)
        return NULL;
    if (fstat(number, &stat) != 0)
        stop_at(path);
    bytes = block((size_t)stat.st_size);
    while (done < (size_t)stat.st_size) {
        const ssize_t count = read(number, bytes + done, (size_t)stat.st_size - done);

        if (count <= 0)
            stop_at(path);
        done += (size_t)count;
    }
    close(number);
    *length = done;
    return bytes;
}

static uint64_t number_at(const uint8_t *bytes, size_t width)
{
    uint64_t number = 0;

    while (width > 0)
        number = number << 8 | bytes[--width];
    return number;
}

/* ---------------------------------------------------------------- Lines: what an end has sent, and the other has not yet taken */

struct message {
    struct message *next;
    size_t length;
    uint8_t bytes[];
};

struct queue {
    struct message *first, *last;
    uint64_t count, number; /* how many; the number of the first, from 1 */
};

static void enqueue(struct queue *queue, const uint8_t *bytes, size_t length)
{
    struct message *message = block(sizeof *message + length);

    message->next = NULL;
    message->length = length;
    memcpy(message->bytes, bytes, length);
    if (queue->first == NULL)
        queue->first = message;
    else
        queue->last->next = message;
    queue->last = message;
    queue->count++;
}

static void dequeue(struct queue *queue)
{
    struct message *message = queue->first;

    queue->first = message->next;
    queue->count--;
    queue->number++;
    free(message);
}

/* The other end has taken so many, and has synced that: they need not be sent again. */
static void acknowledge(struct queue *queue, uint64_t taken)
{
    if (queue->number + queue->count <= taken)
        stop("an end has taken what was never sent");
    while (queue->count > 0 && queue->number <= taken)
        dequeue(queue);
}

/* ---------------------------------------------------------------- Owners: each counts frames into counters that all share */

enum { FIRST_COUNTER = 8, COUNTERS = 24, BATCH = 2, MOST_FRAMES = 9, OBJECTS_PER_PAGE = 8 };

/* A call of an end. MESSAGE is the step of either end; the others are the owner's, who at REST has none. */
enum what { BEGIN, READ, WRITE, COMMIT, ABORT, PURGE, MESSAGE, REST };

/* A function of what it was told: so it comes back by the journal as its station does. */
struct owner {
    uint64_t drawn;
    uint64_t next;                      /* an enum what */
    uint64_t waits;                     /* 1 while the answer is to come with a delivery */
    uint64_t left;                      /* batches to be counted, this one too */
    uint64_t counters[BATCH], frames[BATCH], at, sum;
    uint64_t transaction;
    uint64_t counted[WAX_ADDRESSES];    /* frames of the batches whose commit was told */
    uint64_t commits;
};

static void next_batch(struct owner *owner)
{
    owner->next = owner->left == 0 ? REST : draw(&owner->drawn, 8) == 0 ? PURGE : BEGIN;
    for (size_t k = 0; k < BATCH; k++) {
        owner->counters[k] = FIRST_COUNTER + draw(&owner->drawn, COUNTERS);
        owner->frames[k] = 1 + draw(&owner->drawn, MOST_FRAMES);
    }
}

static void hear_written(struct owner *owner)
{
    owner->at++;
    owner->next = owner->at < BATCH ? READ : draw(&owner->drawn, 32) == 0 ? ABORT : COMMIT;
}

static void hear_committed(struct owner *owner)
{
    for (size_t k = 0; k < BATCH; k++)
        owner->counted[owner->counters[k]] += owner->frames[k];
    owner->commits++;
    owner->left--;
    next_batch(owner);
}

static void hear(struct owner *owner, uint64_t answer, uint64_t value)
{
    if (answer == WAX_NOTHING)
        return;
    owner->waits = answer == WAX_WAITS;
    if (answer == WAX_BEGUN) {
        owner->transaction = value;
        owner->at = 0;
        owner->next = READ;
    } else if (answer == WAX_VALUE) {
        owner->sum = value + owner->frames[owner->at];
        owner->next = WRITE;
    } else if (answer == WAX_WRITTEN) {
        hear_written(owner);
    } else if (answer == WAX_COMMITTED) {
        hear_committed(owner);
    } else if (answer == WAX_ABORTED || answer == WAX_PURGED) {
        if (answer == WAX_ABORTED && value == WAX_CAUSE_NO_NUMBERS)
            stop("the last commit number is used up");
        owner->next = BEGIN;
    }
}

/* ---------------------------------------------------------------- Ends */

/* What an end is called with: all that its state does not have. */
struct input {
    uint8_t what, line; /* line: of which station the server takes a message */
    uint8_t address;
    uint64_t value;
    const uint8_t *message;
    size_t length;
};

struct end {
    size_t number;                      /* a station's, or WAX_STATIONS for the server */
    uint8_t state[WAX_SERVER_LENGTH];   /* a station uses the first WAX_STATION_LENGTH bytes */
    uint64_t inputs;                    /* made so far */
    uint64_t taken[WAX_STATIONS];       /* messages: of each station, or [0] of the server */
    struct queue out[WAX_STATIONS];     /* to each station, or [0] to the server */
    struct owner owner;                 /* a station's */
    uint64_t archived;                  /* the server's: bytes of the archive */
    struct file journal, archive, snapshot;
    uint64_t entries;                   /* in the journal */
    uint8_t *journaled;                 /* its bytes, while they are made again */
};

static struct end ends[WAX_STATIONS + 1];

/* lent for what a call gives: needed until it is sent, so the ends share it */
static uint8_t messages[WAX_SERVER_MESSAGES > WAX_STATION_MESSAGES ? WAX_SERVER_MESSAGES : WAX_STATION_MESSAGES];
static uint8_t commit[WAX_COMMIT_LENGTH], records[WAX_SERVER_RECORDS];
static uint64_t told[WAX_TOLD], served[WAX_SERVED];

#define LENT end->state, WAX_STATION_LENGTH, messages, sizeof messages, commit, sizeof commit, told, WAX_TOLD

static uint32_t call(struct end *end, const struct input *input)
{
    if (end->number == WAX_STATIONS)
        return wax_server_step(input->message, input->length, end->state, WAX_SERVER_LENGTH, messages, sizeof messages,
                               records, sizeof records, served, WAX_SERVED);
    switch (input->what) {
    case BEGIN:
        return wax_station_begin(LENT);
    case READ:
        return wax_station_read(input->address, LENT);
    case WRITE:
        return wax_station_write(input->address, input->value, LENT);
    case COMMIT:
        return wax_station_commit(LENT);
    case ABORT:
        return wax_station_abort(LENT);
    case PURGE:
        return wax_station_purge(input->address / OBJECTS_PER_PAGE, LENT);
    default:
        return wax_station_step(input->message, input->length, LENT);
    }
}

/*
 * Records at the archive's end, synced before the messages of their step are sent: a 21 says that its record is there. Where the
 * step is made again, what is there already is left as it is, and a part that was cut is put anew.
 */
static void archive(struct end *end, size_t length)
{
    static uint8_t there[WAX_SERVER_RECORDS];
    struct file *file = &end->archive;

    if (length == 0)
        return;
    if (file->written < end->archived + length
        || pread(file->number, there, length, (off_t)end->archived) != (ssize_t)length || memcmp(there, records, length) != 0) {
        cut(file, end->archived);
        moment(end);
        put(file, records, length);
        moment(end);
        sync_file(file);
        moment(end);
    }
    end->archived += length;
}

/* What an accepted call left: records to the archive, messages to their lines, an answer to the owner. */
static void carry(struct end *end, const struct input *input)
{
    if (end->number == WAX_STATIONS) {
        archive(end, (size_t)served[WAX_SERVED_RECORDS]);
        for (size_t k = 0; k < served[WAX_SERVED_MESSAGES]; k++) {
            const uint8_t *message = messages + k * WAX_MESSAGE_LENGTH;

            enqueue(&end->out[message[WAX_AT_STATION]], message, WAX_MESSAGE_LENGTH);
        }
    } else {
        for (size_t k = 0; k < told[WAX_TOLD_MESSAGES]; k++)
            enqueue(&end->out[0], messages + k * WAX_MESSAGE_LENGTH, WAX_MESSAGE_LENGTH);
        if (told[WAX_TOLD_COMMIT] != 0)
            enqueue(&end->out[0], commit, (size_t)told[WAX_TOLD_COMMIT]);
        hear(&end->owner, told[WAX_TOLD_ANSWER], told[WAX_TOLD_VALUE]);
    }
    if (input->what == MESSAGE)
        end->taken[input->line]++;
    end->inputs++;
}

/* ---------------------------------------------------------------- The journal */

/* An entry: message length (4), input's number (8), what, line, address, 0, value (8), the message, a check (4). */
enum { ENTRY_HEAD = 24, ENTRY_CHECK = 4, SNAPSHOT_AFTER = 64 };

static void put_little(uint8_t *bytes, size_t width, uint64_t number)
{
    for (size_t i = 0; i < width; i++)
        bytes[i] = (uint8_t)(number >> 8 * i);
}

/* Behind this nothing of the input can be lost, and before it nothing may be sent. A host may gather inputs and sync them at once. */
static void note(struct end *end, const struct input *input)
{
    static uint8_t entry[ENTRY_HEAD + WAX_COMMIT_LENGTH + ENTRY_CHECK];
    const size_t length = ENTRY_HEAD + input->length;

    put_little(entry, 4, input->length);
    put_little(entry + 4, 8, end->inputs + 1);
    entry[12] = input->what;
    entry[13] = input->line;
    entry[14] = input->address;
    entry[15] = 0;
    put_little(entry + 16, 8, input->value);
    if (input->length > 0)
        memcpy(entry + ENTRY_HEAD, input->message, input->length);
    put_little(entry + length, ENTRY_CHECK, check_of(NO_CHECK, entry, length));
    moment(end);
    put(&end->journal, entry, length + ENTRY_CHECK);
    moment(end);
    sync_file(&end->journal);
    moment(end);
    end->entries++;
}

/* The entry at the start of these bytes: its length, or 0 if it is none, or was cut. */
static size_t entry_at(const uint8_t *bytes, size_t length, struct input *input, uint64_t *number)
{
    size_t whole;

    if (length < ENTRY_HEAD + ENTRY_CHECK)
        return 0;
    input->length = (size_t)number_at(bytes, 4);
    whole = ENTRY_HEAD + input->length;
    if (input->length > WAX_COMMIT_LENGTH || length < whole + ENTRY_CHECK
        || number_at(bytes + whole, ENTRY_CHECK) != check_of(NO_CHECK, bytes, whole))
        return 0;
    *number = number_at(bytes + 4, 8);
    input->what = bytes[12];
    input->line = bytes[13];
    input->address = bytes[14];
    input->value = number_at(bytes + 16, 8);
    input->message = bytes + ENTRY_HEAD;
    return whole + ENTRY_CHECK;
}

/* Makes again what the snapshot does not have. The last entry may have been cut: nothing that it left was sent. */
static void replay(struct end *end)
{
    size_t length, at = 0, step;
    const uint8_t *bytes = end->journaled = contents(path_of(end->number, "journal"), &length);
    struct input input;
    uint64_t number;

    open_file(&end->journal, path_of(end->number, "journal"), O_WRONLY);
    while (bytes != NULL && (step = entry_at(bytes + at, length - at, &input, &number)) > 0) {
        if (number == end->inputs + 1) {
            if (call(end, &input) != WAX_OK)
                stop("a call of the journal is refused");
            carry(end, &input);
        } else if (number > end->inputs) {
            stop("a call is missing from the journal");
        } /* else a snapshot was made, and then power failed before the journal was emptied */
        end->entries++;
        at += step;
    }
    free(end->journaled);
    end->journaled = NULL;
    cut(&end->journal, at);
}

/* ---------------------------------------------------------------- The snapshot */

static size_t lines_of(const struct end *end)
{
    return end->number == WAX_STATIONS ? WAX_STATIONS : 1;
}

static size_t state_length(const struct end *end)
{
    return end->number == WAX_STATIONS ? WAX_SERVER_LENGTH : WAX_STATION_LENGTH;
}

/* Written beside the old one, synced, and put in its place at once; then the journal begins anew. */
static void snapshot(struct end *end)
{
    struct file *file = &end->snapshot;
    char from[sizeof folder + 64];

    snprintf(from, sizeof from, "%s", path_of(end->number, "snapshot.new"));
    open_file(file, from, O_WRONLY | O_TRUNC);
    put_number(file, end->inputs);
    put_number(file, end->archived);
    put(file, end->state, state_length(end));
    put(file, &end->owner, sizeof end->owner);
    for (size_t i = 0; i < lines_of(end); i++) {
        put_number(file, end->taken[i]);
        put_number(file, end->out[i].number);
        put_number(file, end->out[i].count);
        for (const struct message *message = end->out[i].first; message != NULL; message = message->next) {
            put_number(file, message->length);
            put(file, message->bytes, message->length);
        }
    }
    put_number(file, file->check);
    moment(end);
    sync_file(file);
    moment(end);
    if (rename(from, path_of(end->number, "snapshot")) != 0)
        stop_at(from);
    sync_folder();
    moment(end);
    close_file(file);
    cut(&end->journal, 0);
    end->entries = 0;
    moment(end);
}

static const uint8_t *cursor;

static uint64_t get_number(void)
{
    cursor += 8;
    return number_at(cursor - 8, 8);
}

static void get(void *to, size_t length)
{
    memcpy(to, cursor, length);
    cursor += length;
}

/* Answers 0 if there is none yet. */
static int restore(struct end *end)
{
    size_t length;
    uint8_t *bytes = contents(path_of(end->number, "snapshot"), &length);

    if (bytes == NULL)
        return 0;
    if (length < 8 || number_at(bytes + length - 8, 8) != check_of(NO_CHECK, bytes, length - 8))
        stop("a snapshot is damaged");
    cursor = bytes;
    end->inputs = get_number();
    end->archived = get_number();
    get(end->state, state_length(end));
    get(&end->owner, sizeof end->owner);
    for (size_t i = 0; i < lines_of(end); i++) {
        uint64_t count;

        end->taken[i] = get_number();
        end->out[i].number = get_number();
        for (count = get_number(); count > 0; count--) {
            const size_t size = (size_t)get_number();

            enqueue(&end->out[i], cursor, size);
            cursor += size;
        }
    }
    free(bytes);
    return 1;
}

/* ---------------------------------------------------------------- Start and end of an end */

static const uint8_t kinds[WAX_STATIONS] = { WAX_LOCKING, WAX_VALIDATING, WAX_LOCKING, WAX_VALIDATING,
                                             WAX_VALIDATING, WAX_LOCKING, WAX_LOCKING, WAX_VALIDATING };

static uint64_t rounds = 3, seed = 1;

static void fresh(struct end *end)
{
    uint32_t number;

    if (end->number == WAX_STATIONS)
        number = wax_server_fresh(kinds, WAX_STATIONS, end->state, WAX_SERVER_LENGTH);
    else
        number = wax_station_fresh((uint32_t)end->number, kinds[end->number], end->state, WAX_STATION_LENGTH);
    if (number != WAX_OK)
        stop("there is no line of these kinds");
    end->owner.drawn = seed * WAX_STATIONS + end->number;
    end->owner.left = rounds;
    next_batch(&end->owner);
    for (size_t i = 0; i < lines_of(end); i++)
        end->out[i].number = 1;
}

/* Its lines' other ends are asked how many messages they have taken, and the rest is sent again. */
static void reconnect(struct end *end)
{
    struct end *server = &ends[WAX_STATIONS];

    for (size_t i = 0; i < WAX_STATIONS; i++)
        if (end == server || end == &ends[i]) {
            acknowledge(&ends[i].out[0], server->taken[i]);
            acknowledge(&server->out[i], ends[i].taken[0]);
        }
}

static void start(struct end *end)
{
    if (end->number == WAX_STATIONS)
        open_file(&end->archive, path_of(end->number, "archive"), O_RDWR);
    if (!restore(end))
        fresh(end);
    replay(end);
    if (end->number == WAX_STATIONS && end->archive.written > end->archived)
        cut(&end->archive, end->archived);
}

/* What power takes: memory. */
static void forget(struct end *end)
{
    const size_t number = end->number;

    for (size_t i = 0; i < WAX_STATIONS; i++)
        while (end->out[i].first != NULL)
            dequeue(&end->out[i]);
    close_file(&end->journal);
    close_file(&end->archive);
    close_file(&end->snapshot);
    free(end->journaled);
    memset(end, 0, sizeof *end);
    end->number = number;
    end->journal.number = end->archive.number = end->snapshot.number = -1;
}

/* .. and of what was written to a file and not synced, any part; or other bytes stand there. */
static void lose(struct file *file)
{
    const uint8_t other = (uint8_t)draw(&chance, 256);

    if (file->number < 0 || file->synced >= file->written)
        return;
    if (draw(&chance, 2) == 0)
        cut(file, file->synced + draw(&chance, (size_t)(file->written - file->synced) + 1));
    else if (pwrite(file->number, &other, 1, (off_t)(file->synced + draw(&chance, (size_t)(file->written - file->synced)))) != 1)
        stop("a file cannot be damaged");
}

/* ---------------------------------------------------------------- The run */

/* One input: the call, its entry in the journal, and only then what it left. */
static void take(struct end *end, const struct input *input)
{
    const uint64_t commits = end->owner.commits, transaction = end->owner.transaction;
    const uint32_t number = call(end, input);

    if (number == WAX_KEPT && input->what == PURGE) { /* refused, so nothing changed and nothing is noted */
        end->owner.next = BEGIN;
        return;
    }
    if (number != WAX_OK) {
        fprintf(stderr, "durable: end %zu refuses a call with %" PRIu32 "\n", end->number, number);
        exit(1);
    }
    note(end, input);
    carry(end, input);
    if (end->number < WAX_STATIONS && end->owner.commits > commits) {
        printf("told %zu %" PRIu64 " %" PRIu64 "\n", end->number, transaction, told[WAX_TOLD_VALUE]);
        fflush(stdout);
    }
    if (input->what == MESSAGE)
        reconnect(end);
    if (end->entries >= SNAPSHOT_AFTER)
        snapshot(end);
}

static void take_message(struct end *end, uint8_t line, const struct queue *queue)
{
    const struct input input = { MESSAGE, line, 0, 0, queue->first->bytes, queue->first->length };

    take(end, &input);
}

/* Answers 0 if there is nothing to do there. */
static int move(size_t which)
{
    struct end *server = &ends[WAX_STATIONS], *station = &ends[which / 3];
    const struct owner *owner = &station->owner;

    if (which % 3 == 0) {
        const struct input input = { (uint8_t)owner->next, 0, (uint8_t)owner->counters[owner->at < BATCH ? owner->at : 0], owner->sum, NULL, 0 };

        if (owner->waits || owner->next == REST)
            return 0;
        take(station, &input);
    } else if (which % 3 == 1) {
        if (station->out[0].count == 0)
            return 0;
        take_message(server, (uint8_t)station->number, &station->out[0]);
    } else {
        if (server->out[station->number].count == 0)
            return 0;
        take_message(station, 0, &server->out[station->number]);
    }
    return 1;
}

/* Until nobody can move: then every owner has counted all that it had to. */
static void run(void)
{
    const size_t moves = 3 * WAX_STATIONS;

    for (;;) {
        const size_t from = draw(&chance, moves);
        size_t k = 0;

        while (k < moves && !move((from + k) % moves))
            k++;
        if (k == moves)
            break;
    }
    for (size_t i = 0; i < WAX_STATIONS; i++)
        if (ends[i].owner.next != REST)
            stop("the line stands still, and an owner still waits");
}

/* The archive is accepted, its last number is how many commits were told, and its values are what the owners were told they had counted. */
static void expect_end(void)
{
    size_t length;
    uint8_t *bytes = contents(path_of(WAX_STATIONS, "archive"), &length);
    uint64_t values[WAX_ADDRESSES] = { 0 }, commits = 0, frames = 0;
    uint32_t last = 0;
    const uint32_t number = wax_archive_replay(bytes, length, values, &last);

    if (number != WAX_OK)
        stop("the archive is refused");
    for (size_t i = 0; i < WAX_STATIONS; i++)
        commits += ends[i].owner.commits;
    if (last != commits || commits != rounds * WAX_STATIONS)
        stop("the archive has other commits than were told");
    for (size_t address = 0; address < WAX_ADDRESSES; address++) {
        uint64_t counted = 0;

        for (size_t i = 0; i < WAX_STATIONS; i++)
            counted += ends[i].owner.counted[address];
        if (values[address] != counted)
            stop("the archive has other values than were counted");
        frames += counted;
    }
    free(bytes);
    printf("archive: %" PRIu32 " commits, %zu bytes; %" PRIu64 " frames, as counted\n", last, length, frames);
}

/* ---------------------------------------------------------------- Arguments */

static void print_help(void)
{
    printf("usage: durable [--folder DIR] [--rounds N] [--seed N] [--failures N]\n"
           "\n"
           "Runs a server and eight stations that keep journals and snapshots, and goes on from those that it finds in DIR.\n"
           "Prints 'told STATION TRANSACTION COMMIT' for each commit that an owner is told.\n"
           "\n"
           "  --folder DIR    where the files are; without it a folder of its own, which is removed at the end\n"
           "  --rounds N      batches that each owner commits (3)\n"
           "  --seed N        where the generators start (1)\n"
           "  --failures N    power failures of one end each (20; 0 with --folder, which is for whoever kills the process)\n"
           "  --help          prints this\n");
}

static uint64_t number_of(const char *word)
{
    char *end;
    uint64_t number;

    errno = 0;
    number = strtoull(word, &end, 10);
    if (*word < '0' || *word > '9' || *end != '\0' || errno != 0) {
        fprintf(stderr, "durable: %s is no number\n", word);
        exit(2);
    }
    return number;
}

static int given, told_failures;

static void read_arguments(int count, char **words)
{
    for (int i = 1; i < count; i++) {
        if (strcmp(words[i], "--help") == 0) {
            print_help();
            exit(0);
        }
        if (i + 1 < count && strcmp(words[i], "--folder") == 0 && strlen(words[i + 1]) < sizeof folder) {
            strcpy(folder, words[++i]);
            given = 1;
        } else if (i + 1 < count && strcmp(words[i], "--rounds") == 0) {
            rounds = number_of(words[++i]);
        } else if (i + 1 < count && strcmp(words[i], "--seed") == 0) {
            seed = number_of(words[++i]);
        } else if (i + 1 < count && strcmp(words[i], "--failures") == 0) {
            failures = (size_t)number_of(words[++i]);
            told_failures = 1;
        } else {
            fprintf(stderr, "durable: %s is not understood; --help says what is\n", words[i]);
            exit(2);
        }
    }
}

static void make_folder(void)
{
    const char *above = getenv("TMPDIR");

    if (given) {
        if (mkdir(folder, 0777) != 0 && errno != EEXIST)
            stop_at(folder);
        return;
    }
    snprintf(folder, sizeof folder, "%s/durable-XXXXXX", above == NULL || *above == '\0' ? "/tmp" : above);
    if (mkdtemp(folder) == NULL)
        stop_at(folder);
}

static void remove_folder(void)
{
    static const char *const files[] = { "journal", "snapshot", "snapshot.new", "archive" };

    for (size_t i = 0; !given && i <= WAX_STATIONS; i++)
        for (size_t k = 0; k < sizeof files / sizeof files[0]; k++)
            unlink(path_of(i, files[k]));
    if (!given && rmdir(folder) != 0)
        stop_at(folder);
}

int main(int count, char **words)
{
    static size_t failed;

    read_arguments(count, words);
    if (!told_failures)
        failures = given ? 0 : 20;
    make_folder();
    for (size_t i = 0; i <= WAX_STATIONS; i++) {
        ends[i].number = i;
        ends[i].journal.number = ends[i].archive.number = ends[i].snapshot.number = -1;
        start(&ends[i]);
        chance += seed + ends[i].inputs; /* another order after each start */
    }
    for (size_t i = 0; i < WAX_STATIONS; i++)
        reconnect(&ends[i]);
    until = 1 + draw(&chance, 150);
    if (setjmp(power) != 0) { /* power has failed at one end; it comes back, and the others go on with what it had synced */
        failed++;
        lose(&failing->journal);
        lose(&failing->archive);
        lose(&failing->snapshot);
        forget(failing);
        start(failing);
        reconnect(failing);
    }
    run();
    expect_end();
    printf("%zu power failures\n", failed);
    for (size_t i = 0; i <= WAX_STATIONS; i++)
        forget(&ends[i]);
    remove_folder();
    return 0;
}
