/*
 * Writes records as a block laid out by column, looks one up, reads them back, and shows what is refused.
 * Prints what it does; exits with 1 if an answer is not the expected one.
 */
#include <stdio.h>
#include <stdlib.h>
#include <string.h>

#include "waxwingrack.h"

#define COMMITS 3

static uint8_t records[WAX_BLOCK_RECORDS * WAX_LONGEST_RECORD], back[WAX_BLOCK_RECORDS * WAX_LONGEST_RECORD];
static uint8_t block[WAX_LONGEST_BLOCK];

static void expect(const char *call, uint32_t answer, uint32_t expected)
{
    printf("%-52s %u\n", call, (unsigned)answer);
    if (answer != expected) {
        puts("NOT as expected");
        exit(1);
    }
}

static void expect_true(const char *what, int holds)
{
    printf("  %-50s %s\n", what, holds ? "yes" : "no");
    if (!holds)
        exit(1);
}

/* Head 0 counts frames into address 8, a commit each: it reads the counter and writes one more. */
static size_t count_frames(uint32_t commits)
{
    size_t length = 0;
    for (uint32_t i = 0; i < commits; i++) {
        static const uint8_t addresses[2] = { 8, 8 };
        const uint8_t values[16] = { (uint8_t)i, [8] = (uint8_t)(i + 1) };
        uint32_t number = wax_record_write(1, 1, i + 1, i + 1, 0, WAX_LOCKING, addresses, sizeof addresses,
                                           values, sizeof values, records + length, sizeof records - length);
        if (number != WAX_OK)
            exit(1);
        length += WAX_RECORD_LENGTH(1, 1);
    }
    return length;
}

static void print_row(const char *name, const uint8_t *bytes, size_t length)
{
    printf("  %-10s", name);
    for (size_t i = 0; i < length; i++)
        printf(" %02x", bytes[i]);
    putchar('\n');
}

/* What stands where in a block of COMMITS records with two entries each. */
static void show(void)
{
    const size_t entries = 2 * COMMITS;
    const uint8_t *at = block;
    print_row("counts", at, WAX_BLOCK_COUNTS);
    at += WAX_BLOCK_COUNTS;
    for (int i = 0; i < COMMITS; i++, at += WAX_HEADER_LENGTH)
        print_row("header", at, WAX_HEADER_LENGTH);
    print_row("addresses", at, entries);
    at += entries;
    for (int i = 0; i < 8; i++, at += entries)
        print_row("plane", at, entries);
}

int main(void)
{
    const size_t length = count_frames(COMMITS), block_length = length + WAX_BLOCK_COUNTS;
    uint8_t record[WAX_LONGEST_RECORD];

    expect("write 3 records", wax_block_write(records, length, block, sizeof block), WAX_OK);
    show();
    expect("look up place 1", wax_block_record(block, block_length, 1, record, sizeof record), WAX_OK);
    expect_true("it is the second record", memcmp(record, records + 34, WAX_RECORD_LENGTH_OF(record)) == 0);
    expect("read the block", wax_block_read(block, block_length, back, sizeof back), WAX_OK);
    expect_true("they are the records", memcmp(back, records, length) == 0);

    expect("write into a buffer that is one too short", wax_block_write(records, length, block, length + 3), WAX_BUFFER);
    expect("write no record", wax_block_write(records, 0, block, sizeof block), WAX_BLOCK);
    expect("write a record that is cut", wax_block_write(records, length - 1, block, sizeof block), WAX_SHORT);
    expect("write 65 records", wax_block_write(records, count_frames(65), block, sizeof block), WAX_BLOCK);
    expect("look up place 3", wax_block_record(block, block_length, 3, record, sizeof record), WAX_BLOCK);
    expect("look up into too short a buffer", wax_block_record(block, block_length, 0, record, sizeof record - 1), WAX_BUFFER);
    expect("read a block that is cut", wax_block_read(block, block_length - 1, back, sizeof back), WAX_BLOCK);
    block[WAX_BLOCK_COUNTS + WAX_HEADER_LENGTH + 12] = 8;
    expect("read a block with a station 8", wax_block_read(block, block_length, back, sizeof back), WAX_RECORD);
    expect("look up another record of it", wax_block_record(block, block_length, 0, record, sizeof record), WAX_RECORD);
    expect_true("nothing was changed", memcmp(back, records, length) == 0);
    return 0;
}
