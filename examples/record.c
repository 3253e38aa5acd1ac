/*
 * Writes, checks and replays records, and shows what is refused.
 * Prints what it does; exits with 1 if an answer is not the expected one.
 */
#include <stdio.h>
#include <stdlib.h>
#include <string.h>

#include "waxwingrack.h"

static void stop_unless(int holds)
{
    if (!holds) {
        puts("NOT as expected");
        exit(1);
    }
}

static void expect(const char *call, uint32_t answer, uint32_t expected)
{
    printf("%-36s %u\n", call, (unsigned)answer);
    stop_unless(answer == expected);
}

static void expect_true(const char *what, int holds)
{
    printf("  %-34s %s\n", what, holds ? "yes" : "no");
    stop_unless(holds);
}

static void print_bytes(const uint8_t *bytes, size_t length)
{
    for (size_t i = 0; i < length; i++)
        printf("%02x%c", bytes[i], i + 1 == length ? '\n' : ' ');
}

/* Station 0, a locking one, reads 0 at address 8 and writes 1 there: document 01's case C12. */
static uint32_t write_first(uint8_t *out, size_t out_length)
{
    static const uint8_t addresses[2] = { 8, 8 };
    static const uint8_t values[16] = { [8] = 1 };
    return wax_record_write(1, 1, 1, 1, 0, WAX_LOCKING, addresses, sizeof addresses,
                            values, sizeof values, out, out_length);
}

/* Station 1, a validating one, reads that value. */
static uint32_t write_second(uint8_t *out, size_t out_length, uint8_t value)
{
    const uint8_t address[1] = { 8 };
    const uint8_t values[8] = { value };
    return wax_record_write(1, 0, 2, 1, 1, WAX_VALIDATING, address, sizeof address,
                            values, sizeof values, out, out_length);
}

static void show_writer(uint8_t *record)
{
    static const uint8_t c12[34] = { 1, 0, 1, 0, 1, 0, 0, 0, 1, [16] = 8, 8, [26] = 1 };
    static const uint8_t falling[2] = { 9, 8 }, values[16] = { 0 };
    uint8_t out[40];
    memset(out, 0xA5, sizeof out);

    expect("write, one byte of room too few", write_first(out, 33), WAX_BUFFER);
    expect("write, addresses fall",
           wax_record_write(2, 0, 1, 1, 0, WAX_LOCKING, falling, 2, values, 16, out, sizeof out), WAX_RECORD);
    expect_true("nothing was written", out[0] == 0xA5);
    expect("write without entries",
           wax_record_write(0, 0, 0, 1, 0, WAX_LOCKING, NULL, 0, NULL, 0, out, sizeof out), WAX_OK);
    expect("write", write_first(out, sizeof out), WAX_OK);
    expect_true("the bytes are C12's", memcmp(out, c12, sizeof c12) == 0);
    expect_true("none behind them was written", out[34] == 0xA5);
    print_bytes(out, sizeof c12);
    memcpy(record, out, sizeof c12);
}

static void show_check(const uint8_t *record, size_t length)
{
    uint8_t broken[34];
    memcpy(broken, record, sizeof broken);
    broken[12] = 8;

    expect("check", wax_record_check(record, length), WAX_OK);
    expect("check, last byte missing", wax_record_check(record, length - 1), WAX_SHORT);
    expect("check, station 8", wax_record_check(broken, sizeof broken), WAX_RECORD);
    expect("check, nothing", wax_record_check(NULL, 0), WAX_SHORT);
}

static void show_reader(const uint8_t *archive, size_t length)
{
    uint64_t fields[WAX_FIELDS];
    uint64_t entry[WAX_ENTRY_FIELDS];

    expect("read the first record", wax_archive_read(archive, length, 0, 0, fields, WAX_FIELDS), WAX_OK);
    expect_true("it ends at 34", fields[WAX_FIELD_END] == 34);
    expect("its second entry", wax_archive_entry(archive, length, 0, 2, 1, entry, WAX_ENTRY_FIELDS), WAX_OK);
    expect_true("is 1 at address 8", entry[0] == 8 && entry[1] == 1);
    expect("it has no third", wax_archive_entry(archive, length, 0, 2, 2, entry, WAX_ENTRY_FIELDS), WAX_END);
    expect("read behind the last record",
           wax_archive_read(archive, length, length, 2, fields, WAX_FIELDS), WAX_END);
}

static void show_playback(const uint8_t *archive, size_t length)
{
    wax_playback playback = { { 0 }, 0 };
    uint64_t values[WAX_ADDRESSES] = { 0 };
    uint32_t last = 0;
    uint8_t wrong[25];

    expect("play the first record", wax_playback_record(&playback, archive, length), WAX_OK);
    expect_true("address 8 holds 1", playback.values[8] == 1);
    expect("play it again", wax_playback_record(&playback, archive, length), WAX_SEQUENCE);
    expect("write a read of 2", write_second(wrong, sizeof wrong, 2), WAX_OK);
    expect("play it", wax_playback_record(&playback, wrong, sizeof wrong), WAX_REPLAY);
    expect_true("nothing was changed", playback.last == 1 && playback.values[8] == 1);
    expect("play the second record", wax_playback_record(&playback, archive + 34, length - 34), WAX_OK);
    expect_true("the last commit is 2", playback.last == 2);
    expect("replay all at once", wax_archive_replay(archive, length, values, &last), WAX_OK);
    expect_true("comes to the same",
                last == playback.last && memcmp(values, playback.values, sizeof values) == 0);
}

int main(void)
{
    uint8_t archive[34 + 25];

    show_writer(archive);
    show_check(archive, 34);
    expect("write the second record", write_second(archive + 34, 25, 1), WAX_OK);
    show_reader(archive, sizeof archive);
    show_playback(archive, sizeof archive);
    puts("as expected");
    return 0;
}
