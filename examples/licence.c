/*
 * The counting licence: writes an archive of three commits, prices it by a tariff of two steps, and looks at what is refused.
 *
 *   gcc -std=c99 licence.c $(pkg-config --cflags --libs waxwingrack)
 */
#include <inttypes.h>
#include <stdio.h>
#include <stdlib.h>
#include <waxwingrack.h>

enum { ADDRESS = 8, COMMITS = 3, STEPS = 2 };

static void put(uint8_t *out, uint64_t value, int bytes)
{
    for (int i = 0; i < bytes; i++)
        out[i] = (uint8_t)(value >> (8 * i));
}

/* The first 1,000 frames at 2.5 cents each, those behind at 0.5. */
static void put_tariff(uint8_t *table)
{
    put(table, 1000, 8);
    put(table + 8, 250000, 4);
    put(table + WAX_STEP_LENGTH, WAX_LAST_FRAME, 8);
    put(table + WAX_STEP_LENGTH + 8, 50000, 4);
}

/* A commit that writes one value to the counter; its length. */
static size_t put_commit(uint8_t *out, size_t room, uint32_t commit, uint64_t value)
{
    const uint8_t address = ADDRESS;
    uint8_t bytes[8];

    put(bytes, value, 8);
    if (wax_record_write(0, 1, commit, commit, 0, WAX_LOCKING, &address, 1, bytes, sizeof bytes, out, room) != WAX_OK)
        exit(1);
    return WAX_RECORD_LENGTH(0, 1);
}

static void expect(const char *what, uint32_t answer, uint32_t expected, int64_t frames, int64_t fee)
{
    printf("%s: %" PRIu32, what, answer);
    if (answer == WAX_OK)
        printf(", %" PRId64 " frames, %" PRId64 " cents", frames, fee);
    printf("\n");
    if (answer != expected)
        exit(1);
}

int main(void)
{
    static const uint64_t values[COMMITS] = { 1500, 4000, 3999 };
    uint8_t archive[COMMITS * WAX_LONGEST_RECORD], tariff[STEPS * WAX_STEP_LENGTH];
    size_t length = 0;
    int64_t frames = 0, fee = 0;
    uint32_t answer;

    put_tariff(tariff);
    for (uint32_t i = 0; i < COMMITS; i++)
        length += put_commit(archive + length, sizeof archive - length, i + 1, values[i]);

    answer = wax_licence_fee(archive, length, tariff, sizeof tariff, 1, 2, ADDRESS, &frames, &fee);
    expect("commits 1 and 2", answer, WAX_OK, frames, fee);
    if (frames != 4000 || fee != 4000)
        return 1;
    answer = wax_licence_fee(archive, length, tariff, sizeof tariff, 3, 3, ADDRESS, &frames, &fee);
    expect("commit 3, a correction", answer, WAX_OK, frames, fee);
    if (frames != -1 || fee != -3)
        return 1;
    answer = wax_licence_fee(archive, length, tariff, sizeof tariff, 1, 3, 9, &frames, &fee);
    expect("a counter that is not written", answer, WAX_OK, frames, fee);

    answer = wax_licence_fee(archive, length, tariff, WAX_STEP_LENGTH, 1, 3, ADDRESS, &frames, &fee);
    expect("a tariff that ends too early", answer, WAX_TARIFF, frames, fee);
    answer = wax_licence_fee(archive, length - 1, tariff, sizeof tariff, 1, 1, ADDRESS, &frames, &fee);
    expect("an archive that is cut", answer, WAX_SHORT, frames, fee);
    answer = wax_licence_fee(archive, length, tariff, sizeof tariff, 2, 4, ADDRESS, &frames, &fee);
    expect("a commit that is not there", answer, WAX_SEQUENCE, frames, fee);
    put_commit(archive + length - WAX_RECORD_LENGTH(0, 1), sizeof archive, 3, WAX_LAST_FRAME + 1);
    answer = wax_licence_fee(archive, length, tariff, sizeof tariff, 1, 3, ADDRESS, &frames, &fee);
    expect("a value above 2^63 - 1", answer, WAX_BEYOND, frames, fee);
    return frames == 0 && fee == 0 ? 0 : 1;
}
