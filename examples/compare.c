/*
 * Which archive is the longer truth: writes archives of up to three commits and compares them.
 *
 *   gcc -std=c99 compare.c $(pkg-config --cflags --libs waxwingrack)
 */
#include <inttypes.h>
#include <stdio.h>
#include <stdlib.h>
#include <waxwingrack.h>

enum { ADDRESS = 8, COMMITS = 3 };

typedef struct {
    uint8_t bytes[COMMITS * WAX_RECORD_LENGTH(0, 1)];
    size_t length;
} archive;

/* The next commit of an archive: it writes one value below 256 to the counter. */
static void commit(archive *a, uint32_t number, uint8_t value)
{
    const uint8_t address = ADDRESS, bytes[8] = { value };

    if (wax_record_write(0, 1, number, number, 0, WAX_LOCKING, &address, 1, bytes, sizeof bytes,
                         a->bytes + a->length, sizeof a->bytes - a->length) != WAX_OK)
        exit(1);
    a->length += WAX_RECORD_LENGTH(0, 1);
}

static void expect(const char *what, const archive *first, const archive *second,
                   uint32_t number, uint32_t order, uint32_t part)
{
    uint32_t is = 9, at = 9;
    const uint32_t answer = wax_archive_compare(first->bytes, first->length, second->bytes, second->length, &is, &at);

    printf("%s: %" PRIu32, what, answer);
    if (answer == WAX_OK)
        printf(", order %" PRIu32 ", commit %" PRIu32, is, at);
    printf("\n");
    if (answer != number || is != order || at != part)
        exit(1);
}

int main(void)
{
    archive empty = { { 0 }, 0 }, two = empty, three = empty, other = empty, cut;

    commit(&two, 1, 5);
    commit(&two, 2, 6);
    three = two;
    commit(&three, 3, 7);
    commit(&other, 1, 5);
    commit(&other, 2, 8);
    cut = three;
    cut.length--;

    expect("the same", &three, &three, WAX_OK, WAX_SAME, 0);
    expect("two empty ones", &empty, &empty, WAX_OK, WAX_SAME, 0);
    expect("the first is an early part", &two, &three, WAX_OK, WAX_FIRST_EARLY, 0);
    expect("the second is an early part", &three, &two, WAX_OK, WAX_SECOND_EARLY, 0);
    expect("they part at commit 2", &three, &other, WAX_OK, WAX_PARTS, 2);
    /* a refused archive gives its own number, and nothing is changed */
    expect("the first is cut", &cut, &two, WAX_SHORT, 9, 9);
    expect("the second is cut", &two, &cut, WAX_SHORT, 9, 9);
    return 0;
}
