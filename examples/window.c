/*
 * A line controller whose byte bus has no messages: it reads and writes one byte at a time, waits for its interrupt, and counts
 * frames into a counter of the line through the 32 registers of a window. Behind the window stands a validating station; a
 * locking head counts into the same counter, so that a 23 ends one of the controller's transactions, which it repeats.
 * Prints what happens; exits with 1 and says what is wrong if an answer is not the expected one.
 */
#include <inttypes.h>
#include <stdio.h>
#include <stdlib.h>
#include <string.h>

#include "waxwingrack.h"

enum { CONTROLLER = 0, HEAD = 1, ADDRESS = 8, MOST = 16 };

static void stop_unless(int holds, const char *what)
{
    if (!holds) {
        printf("NOT as expected: %s\n", what);
        exit(1);
    }
}

/* ---- the line: a server, two stations, and what is under way between them */

struct station {
    uint8_t state[WAX_STATION_LENGTH];
    uint8_t up[MOST][WAX_COMMIT_LENGTH];
    size_t lengths[MOST], first_up, last_up;
    uint8_t down[MOST][WAX_MESSAGE_LENGTH];
    size_t first_down, last_down;
};

static struct station stations[2];
static uint8_t server[WAX_SERVER_LENGTH];

/* What each call is lent beside states and registers; nothing of it has to be kept. */
static uint8_t messages[WAX_SERVER_MESSAGES], commit[WAX_COMMIT_LENGTH], records[WAX_SERVER_RECORDS];
static uint64_t told[WAX_TOLD], served[WAX_SERVED];

#define RESULTS messages, sizeof messages, commit, sizeof commit, told, WAX_TOLD
#define HEAD_CALL stations[HEAD].state, WAX_STATION_LENGTH, RESULTS

static void queue_up(struct station *s, const uint8_t *bytes, size_t length)
{
    size_t at = s->last_up++ % MOST;
    memcpy(s->up[at], bytes, length);
    s->lengths[at] = length;
}

/* What an accepted call of a station leaves to be sent. */
static void send_up(struct station *s)
{
    for (size_t i = 0; i < told[WAX_TOLD_MESSAGES]; i++)
        queue_up(s, messages + i * WAX_MESSAGE_LENGTH, WAX_MESSAGE_LENGTH);
    if (told[WAX_TOLD_COMMIT] > 0)
        queue_up(s, commit, (size_t)told[WAX_TOLD_COMMIT]);
}

/* The server takes what has come up, and what it sends goes down. */
static void serve(void)
{
    for (size_t i = 0; i < 2; i++) {
        struct station *s = &stations[i];
        while (s->first_up < s->last_up) {
            size_t at = s->first_up++ % MOST;
            stop_unless(wax_server_step(s->up[at], s->lengths[at], server, sizeof server, messages, sizeof messages,
                                        records, sizeof records, served, WAX_SERVED) == WAX_OK, "a server step");
            for (size_t k = 0; k < served[WAX_SERVED_MESSAGES]; k++) {
                const uint8_t *message = messages + k * WAX_MESSAGE_LENGTH;
                struct station *to = &stations[message[1]];
                memcpy(to->down[to->last_down++ % MOST], message, WAX_MESSAGE_LENGTH);
            }
        }
    }
}

/* ---- the bus: what the controller's electronics see */

static uint8_t registers[WAX_REGISTERS];

#define WINDOW registers, sizeof registers, stations[CONTROLLER].state, WAX_STATION_LENGTH

static uint8_t bus_read(uint32_t offset)
{
    uint8_t byte = 0;
    stop_unless(wax_window_read(offset, WINDOW, &byte) == WAX_OK, "a register is read");
    return byte;
}

static void bus_write(uint32_t offset, uint8_t byte)
{
    stop_unless(wax_window_write(offset, byte, WINDOW, RESULTS) == WAX_OK, "a register is written");
    send_up(&stations[CONTROLLER]);
}

static int interrupt(void)
{
    uint8_t level = 0;
    stop_unless(wax_window_interrupt(WINDOW, &level) == WAX_OK, "the interrupt is looked at");
    return level;
}

/* The host carries messages, the head's too; the controller knows nothing of them. */
static void carry(void)
{
    struct station *s = &stations[CONTROLLER], *head = &stations[HEAD];
    serve();
    while (s->first_down < s->last_down) {
        const uint8_t *message = s->down[s->first_down++ % MOST];
        stop_unless(wax_window_step(message, WAX_MESSAGE_LENGTH, WINDOW, RESULTS) == WAX_OK, "a message is delivered");
        send_up(s);
    }
    while (head->first_down < head->last_down) {
        const uint8_t *message = head->down[head->first_down++ % MOST];
        stop_unless(wax_station_step(message, WAX_MESSAGE_LENGTH, HEAD_CALL) == WAX_OK, "the head's step");
        send_up(head);
    }
    serve();
}

/* ---- the controller: bytes and the interrupt alone */

static uint64_t bus_number(uint32_t from, uint32_t width)
{
    uint64_t number = 0;
    for (uint32_t i = width; i-- > 0;)
        number = number << 8 | bus_read(from + i);
    return number;
}

/* A command, once the flags of the last one are cleared; it must be accepted. Waits for the interrupt: 1 for done. */
static int command(uint8_t byte)
{
    bus_write(WAX_REGISTER_FLAGS, WAX_FLAG_DONE | WAX_FLAG_ABORTED);
    stop_unless(!interrupt(), "the interrupt falls with the flags");
    bus_write(WAX_REGISTER_COMMAND, byte);
    stop_unless(bus_read(WAX_REGISTER_REFUSAL) == WAX_OK, "a command is accepted");
    while ((bus_read(WAX_REGISTER_FLAGS) & WAX_FLAG_WAITING) != 0)
        carry();
    return (bus_read(WAX_REGISTER_FLAGS) & WAX_FLAG_DONE) != 0;
}

/* Adds frames to the counter; another station's commit may end it, and then it is to be repeated: 0. */
static int add(uint64_t frames, void (*meanwhile)(void))
{
    uint64_t value;

    command(WAX_COMMAND_BEGIN);
    bus_write(WAX_REGISTER_PAGE, ADDRESS / 8);
    bus_write(WAX_REGISTER_OBJECT, ADDRESS % 8);
    stop_unless(command(WAX_COMMAND_READ), "the read is done");
    value = bus_number(WAX_REGISTER_VALUE, 8);
    printf("controller reads %" PRIu64 "\n", value);
    if (meanwhile != NULL) {
        meanwhile();
        carry();
    }
    if (interrupt() && (bus_read(WAX_REGISTER_FLAGS) & WAX_FLAG_ABORTED) != 0) {
        puts("the interrupt: its transaction is aborted");
        return 0;
    }
    for (uint32_t i = 0; i < 8; i++)
        bus_write(WAX_REGISTER_VALUE + i, (uint8_t)((value + frames) >> (8 * i)));
    stop_unless(command(WAX_COMMAND_WRITE), "the write is done");
    if (!command(WAX_COMMAND_COMMIT))
        return 0;
    printf("controller commits %" PRIu64 ", commit %" PRIu64 "\n", value + frames, bus_number(WAX_REGISTER_COMMIT, 4));
    return 1;
}

/* ---- the head, by the station's own calls */

static void head_waits(uint32_t number)
{
    struct station *s = &stations[HEAD];
    stop_unless(number == WAX_OK, "the head's call");
    send_up(s);
    while (told[WAX_TOLD_ANSWER] == WAX_WAITS) {
        serve();
        stop_unless(s->first_down < s->last_down, "an answer to the head");
        stop_unless(wax_station_step(s->down[s->first_down++ % MOST], WAX_MESSAGE_LENGTH, HEAD_CALL) == WAX_OK, "the head's step");
        send_up(s);
    }
}

static void head_counts(void)
{
    uint64_t value;

    head_waits(wax_station_begin(HEAD_CALL));
    head_waits(wax_station_read(ADDRESS, HEAD_CALL));
    value = told[WAX_TOLD_VALUE];
    head_waits(wax_station_write(ADDRESS, value + 100, HEAD_CALL));
    head_waits(wax_station_commit(HEAD_CALL));
    printf("head commits %" PRIu64 ", commit %" PRIu64 "\n", value + 100, told[WAX_TOLD_VALUE]);
}

int main(void)
{
    static const uint8_t kinds[WAX_STATIONS] = { [CONTROLLER] = WAX_VALIDATING, [HEAD] = WAX_LOCKING };
    uint8_t byte = 0;
    uint64_t before;

    stop_unless(wax_server_fresh(kinds, sizeof kinds, server, sizeof server) == WAX_OK, "a fresh server");
    for (uint32_t i = 0; i < 2; i++)
        stop_unless(wax_station_fresh(i, kinds[i], stations[i].state, WAX_STATION_LENGTH) == WAX_OK, "a fresh station");

    /* The interrupt comes with done and with aborted. */
    bus_write(WAX_REGISTER_MASK, WAX_FLAG_DONE | WAX_FLAG_ABORTED);
    stop_unless(add(3, NULL), "nobody else counts");
    stop_unless(!add(4, head_counts), "the head's commit makes the controller's copy stale");
    stop_unless(add(4, NULL), "repeated");
    stop_unless(interrupt(), "the interrupt is up while done is");
    bus_write(WAX_REGISTER_FLAGS, WAX_FLAG_DONE);
    stop_unless(!interrupt(), "and falls with it");

    /* A command that the station refuses is written all the same: register 3 says why. */
    bus_write(WAX_REGISTER_COMMAND, WAX_COMMAND_COMMIT);
    printf("controller commits with nothing open: register 3 shows %u\n", (unsigned)bus_read(WAX_REGISTER_REFUSAL));
    stop_unless(bus_read(WAX_REGISTER_REFUSAL) == WAX_CLOSED, "8, Closed");

    /* What is no register, and what is no window. */
    stop_unless(wax_window_read(WAX_REGISTERS, WINDOW, &byte) == WAX_REGISTER, "16, Register");
    stop_unless(wax_window_read(0, registers, sizeof registers, stations[HEAD].state, WAX_STATION_LENGTH, &byte) == WAX_BUFFER,
                "1: a locking station");
    before = bus_number(WAX_REGISTER_COMMIT, 4);
    bus_write(WAX_REGISTER_COMMIT, 255);
    stop_unless(bus_number(WAX_REGISTER_COMMIT, 4) == before, "read-only registers ignore writes");
    puts("as expected");
    return 0;
}
