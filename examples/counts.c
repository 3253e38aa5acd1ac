/*
 * One archive, two readers: writes two archives that differ in station, kind, transaction and reads, and shows that the counts reader
 * tells them not apart and the service reader does; then a counts file, written and read.
 *
 *   gcc -std=c99 counts.c $(pkg-config --cflags --libs waxwingrack)
 */
#include <inttypes.h>
#include <stdio.h>
#include <stdlib.h>
#include <string.h>
#include <waxwingrack.h>

enum { COMMITS = 3 };

typedef struct {
    uint8_t bytes[COMMITS * WAX_LONGEST_RECORD];
    size_t length;
} archive;

static void require(int holds, const char *what)
{
    if (!holds) {
        fprintf(stderr, "counts: %s\n", what);
        exit(1);
    }
}

/* A commit that reads and then writes counter 8, or writes it alone. */
static void add(archive *a, uint32_t commit, uint32_t transaction, uint32_t station, uint32_t kind, uint32_t reads)
{
    const uint8_t address[2] = { 8, 8 };
    uint8_t value[16] = { 0 };

    value[0] = (uint8_t)(commit - 1);
    value[8 * reads] = (uint8_t)commit;
    require(wax_record_write(reads, 1, commit, transaction, station, kind, address, reads + 1, value, 8 * (reads + 1),
                             a->bytes + a->length, sizeof a->bytes - a->length) == WAX_OK, "a record");
    a->length += WAX_RECORD_LENGTH(reads, 1);
}

/* The counts file of an archive; its length. */
static size_t write_file(const archive *a, uint8_t *file)
{
    uint64_t values[WAX_ADDRESSES] = { 0 };
    uint8_t counts[WAX_LONGEST_COUNTS];
    uint32_t last = 0;
    size_t at = 0, length = 0;

    while (at < a->length && wax_counts_record(a->bytes + at, a->length - at, values, &last, counts, sizeof counts) == WAX_OK) {
        size_t size = WAX_COUNTS_LENGTH(counts[4] + 256 * counts[5]);

        memcpy(file + length, counts, size);
        length += size;
        at += WAX_RECORD_LENGTH(a->bytes[at] + 256 * a->bytes[at + 1], a->bytes[at + 2] + 256 * a->bytes[at + 3]);
    }
    require(at == a->length, "an archive that is accepted");
    return length;
}

static void print_file(const uint8_t *file, size_t length)
{
    uint64_t fields[WAX_COUNTS_FIELDS] = { 0 }, entry[WAX_ENTRY_FIELDS] = { 0 };
    uint32_t last = 0, number;
    size_t at = 0;

    while ((number = wax_counts_read(file, length, at, last, fields, WAX_COUNTS_FIELDS)) == WAX_OK) {
        uint32_t writes = (uint32_t)fields[WAX_COUNTS_WRITES];

        printf("commit %" PRIu64, fields[WAX_COUNTS_COMMIT]);
        for (uint32_t i = 0; i < writes; i++) {
            require(wax_counts_entry(file, length, at, writes, i, entry, WAX_ENTRY_FIELDS) == WAX_OK, "a write");
            printf(": counter %" PRIu64 " is %" PRIu64, entry[0], entry[1]);
        }
        printf("\n");
        at = (size_t)fields[WAX_COUNTS_END];
        last = (uint32_t)fields[WAX_COUNTS_COMMIT];
    }
    require(number == WAX_END, "a counts file that is accepted");
}

int main(void)
{
    static archive one, other;
    static uint8_t file[COMMITS * WAX_LONGEST_COUNTS], second[COMMITS * WAX_LONGEST_COUNTS];
    uint8_t counts[2][WAX_LONGEST_COUNTS] = { { 0 }, { 0 } };
    uint64_t service[2][WAX_SERVICE_FIELDS] = { { 0 }, { 0 } };
    size_t length;

    for (uint32_t commit = 1; commit <= COMMITS; commit++) {
        add(&one, commit, commit, 0, WAX_LOCKING, 1);
        add(&other, commit, 70 + commit, 5, WAX_VALIDATING, 0);
    }
    for (uint32_t commit = 1; commit <= COMMITS; commit++) {
        require(wax_counts_at(one.bytes, one.length, commit, counts[0], WAX_LONGEST_COUNTS) == WAX_OK, "counts of one");
        require(wax_counts_at(other.bytes, other.length, commit, counts[1], WAX_LONGEST_COUNTS) == WAX_OK, "counts of the other");
        require(memcmp(counts[0], counts[1], WAX_LONGEST_COUNTS) == 0, "the same counts");
        require(wax_service_at(one.bytes, one.length, commit, service[0], WAX_SERVICE_FIELDS) == WAX_OK, "fields of one");
        require(wax_service_at(other.bytes, other.length, commit, service[1], WAX_SERVICE_FIELDS) == WAX_OK, "fields of the other");
        require(service[0][WAX_SERVICE_STATION] == 0 && service[1][WAX_SERVICE_STATION] == 5, "other stations");
    }
    require(wax_counts_at(one.bytes, one.length, COMMITS + 1, counts[0], WAX_LONGEST_COUNTS) == WAX_END, "the end");
    require(wax_counts_at(one.bytes, one.length - 1, COMMITS, counts[0], WAX_LONGEST_COUNTS) == WAX_SHORT, "an archive that is cut");
    require(wax_service_at(one.bytes, one.length - 1, COMMITS, service[0], WAX_SERVICE_FIELDS) == WAX_SHORT, "the same number");

    length = write_file(&one, file);
    require(length == write_file(&other, second) && memcmp(file, second, length) == 0, "the same counts file");
    print_file(file, length);
    printf("two archives of %zu and %zu bytes, one counts file of %zu\n", one.length, other.length, length);
    return 0;
}
