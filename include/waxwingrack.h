/*
 * Waxwingrack: the server and the stations of a bottling line, and check, write, read and replay the records of its archive.
 *
 * Link with libwaxwingrack.a. The functions allocate nothing and keep nothing between calls,
 * so they may run at the same time on different buffers.
 *
 * The library is compiled for x86-64 Linux and for nothing else: the toolchain that proves it has one back end, and writes no C.
 * It is position-independent, wants memcpy, memmove and memset, nothing else of a C library, no operating system, and no vector unit
 * beyond SSE2. A head with another processor can hold states, messages and archives that an x86-64 machine works on, all of them
 * little-endian bytes without alignment; it cannot run a station. No call goes deeper than WAX_STACK bytes of stack.
 *
 * A record, numbers little-endian:
 *
 *   bytes 0-1    reads n, 0 to 256
 *         2-3    writes m, 0 to 256
 *         4-7    commit number (0 on the way to the server)
 *         8-11   transaction, not 0
 *         12     station, 0 to 7
 *         13     its kind, 0 locking, 1 validating, 2 keeping
 *         14-15  zero
 *         then   n + m addresses of one byte, reads first,
 *                strictly rising within reads and within writes
 *         then   n + m values of 8 bytes, in the same order
 *
 * An archive is records one behind the other, commit numbers 1, 2, 3, ...
 *
 * Rules for every pointer:
 *  - it points to as many elements as the length beside it says; with length 0 it may be NULL;
 *  - bytes need no alignment, the others the alignment of their type;
 *  - what is written (out, fields, entry, values, last, playback, order, frames, fee, state, messages, commit, told, records,
 *    served, lines, line) overlaps nothing else of the call;
 *  - what is only read is not changed, and nothing is kept after the call.
 *
 * Every function answers one of the numbers below. Any answer but WAX_OK leaves every lent byte
 * as it was; wax_archive_replay alone keeps what the records before the refused one did.
 */
#ifndef WAXWINGRACK_H
#define WAXWINGRACK_H

#include <stddef.h>
#include <stdint.h>

#ifdef __cplusplus
extern "C" {
#endif

/* Of this header; the library has no number of its own. waxwingrack.pc has the same. */
#define WAX_VERSION       "1.13.3"
#define WAX_VERSION_MAJOR 1
#define WAX_VERSION_MINOR 13
#define WAX_VERSION_PATCH 3

/* Stack that the deepest call takes, its own frame and those below it, in bytes, and the deepest call of a station or the server;
 * tools/stack reads both from the library, and the package is tested for no more than these. */
#define WAX_STACK         5120
#define WAX_LINE_STACK    2048

/* Answers. */
#define WAX_OK       UINT32_C(0)
#define WAX_BUFFER   UINT32_C(1)   /* a state is none, or a buffer for the result is too short */
#define WAX_LENGTH   UINT32_C(2)   /* a message has a wrong length */
#define WAX_KIND     UINT32_C(3)   /* this end does not take messages of that kind */
#define WAX_RANGE    UINT32_C(4)   /* a number lies outside its range */
#define WAX_RECORD   UINT32_C(5)   /* the record's layout is broken, or it disagrees with its message; a commit is too long */
#define WAX_UNEXPECTED UINT32_C(6) /* a message that fits neither station, kind nor what is out */
#define WAX_WAITING  UINT32_C(7)   /* a request or commit is out */
#define WAX_CLOSED   UINT32_C(8)   /* no transaction is open */
#define WAX_OPEN     UINT32_C(9)   /* a transaction is open */
#define WAX_KEPT     UINT32_C(10)  /* the page is used by the transaction, or not cached */
#define WAX_SPENT    UINT32_C(11)  /* the last transaction number is used up */
#define WAX_SHORT    UINT32_C(12)  /* the bytes end inside a record */
#define WAX_SEQUENCE UINT32_C(13)  /* the commit number is not one more than the last */
#define WAX_REPLAY   UINT32_C(14)  /* a read differs from the value left by earlier records */
#define WAX_LONG     UINT32_C(15)  /* one read or write more than a transaction may have */
#define WAX_REGISTER UINT32_C(16)  /* a window has no such register */
#define WAX_TARIFF   UINT32_C(17)  /* a tariff's table breaks its rules */
#define WAX_BEYOND   UINT32_C(18)  /* a value or a fee above 2^63 - 1 */
#define WAX_SHARE    UINT32_C(19)  /* a share of the server's turns is not 1 to 4 */
#define WAX_IDLE     UINT32_C(20)  /* no line waits for a turn */
#define WAX_BLOCK    UINT32_C(21)  /* a block of not 1 to 64 records, a place beyond them, or counts that disagree */
#define WAX_END      UINT32_C(255) /* no record, or no entry, there */

/* Limits and sizes. */
#define WAX_HEADER_LENGTH  16   /* bytes before the addresses */
#define WAX_ENTRY_LENGTH   9    /* bytes of an entry: address and value */
#define WAX_MOST_READS     256  /* of a record */
#define WAX_MOST_WRITES    256
#define WAX_LONGEST_RECORD 4624 /* WAX_RECORD_LENGTH(256, 256) */
#define WAX_LIMIT          48   /* the most objects that one transaction reads, and the most that it writes */
#define WAX_LONGEST_SENT   880  /* WAX_RECORD_LENGTH(WAX_LIMIT, WAX_LIMIT): no record that a server leaves is longer */
#define WAX_ADDRESSES      256  /* 32 pages of 8 objects */
#define WAX_OBJECTS        8    /* of a page */
#define WAX_STATIONS       8
#define WAX_FIELDS         7    /* numbers that wax_archive_read gives */
#define WAX_ENTRY_FIELDS   2    /* numbers that wax_archive_entry gives */

/*
 * Kinds of station. A keeping one is a locking one whose lock on a whole page outlives commit and abort, until another station wants
 * the page: for a head that is alone on its counters. What is said of locking stations below holds for keeping ones too.
 */
#define WAX_LOCKING    UINT32_C(0)
#define WAX_VALIDATING UINT32_C(1)
#define WAX_KEEPING    UINT32_C(2)

/* Where wax_archive_read puts what. */
#define WAX_FIELD_END         0 /* position behind the record */
#define WAX_FIELD_READS       1
#define WAX_FIELD_WRITES      2
#define WAX_FIELD_COMMIT      3
#define WAX_FIELD_TRANSACTION 4
#define WAX_FIELD_STATION     5
#define WAX_FIELD_KIND        6

/* Length in bytes of a record with so many reads and writes. */
#define WAX_RECORD_LENGTH(reads, writes) \
    ((size_t)WAX_HEADER_LENGTH + (size_t)WAX_ENTRY_LENGTH * ((size_t)(reads) + (size_t)(writes)))

/* .. of the record whose bytes start here, by its own sizes, its first 4 bytes. */
#define WAX_RECORD_LENGTH_OF(record) \
    WAX_RECORD_LENGTH((record)[0] | (size_t)(record)[1] << 8, (record)[2] | (size_t)(record)[3] << 8)

/*
 * Record check: is the first record of these bytes well-formed? What lies behind it is not looked at.
 *
 *   WAX_SHORT   fewer than 16 bytes, or fewer than the two size fields ask for (whatever they say)
 *   WAX_RECORD  more than 256 reads or writes, transaction 0, station above 7, kind above 2,
 *               byte 14 or 15 not 0, or addresses that do not rise strictly
 *   WAX_OK      else; any commit number is accepted
 *
 *   if (wax_record_check(bytes, length) == WAX_OK) { ... }
 */
uint32_t wax_record_check(const uint8_t *bytes, size_t length);

/*
 * Record writer: puts a record at the start of out.
 *
 * addresses: reads + writes bytes, reads first. values: 8 bytes each, little-endian, in the same order.
 *
 *   WAX_BUFFER  out_length is below 16 + 9 * (reads + writes), whatever the counts
 *   WAX_RECORD  more than 256 reads or writes, transaction 0, station above 7, kind above 2,
 *               addresses_length not reads + writes, values_length not 8 * (reads + writes),
 *               or addresses that do not rise strictly within reads and within writes
 *   WAX_OK      else: the record's WAX_RECORD_LENGTH(reads, writes) bytes are written,
 *               those behind stay as they are; any commit number is accepted
 *
 *   uint8_t out[WAX_LONGEST_RECORD];
 *   const uint8_t address[1] = { 8 }, value[8] = { 1 };
 *   wax_record_write(0, 1, 0, 1, 0, WAX_LOCKING, address, 1, value, 8, out, sizeof out);
 */
uint32_t wax_record_write(uint32_t reads, uint32_t writes, uint32_t commit, uint32_t transaction,
                          uint32_t station, uint32_t kind,
                          const uint8_t *addresses, size_t addresses_length,
                          const uint8_t *values, size_t values_length,
                          uint8_t *out, size_t out_length);

/*
 * Archive reader: the record at position `at`, behind the commit with number `last` (0 at the start).
 *
 *   WAX_BUFFER    fields_length is below WAX_FIELDS; checked first
 *   WAX_END       at is length: no further record
 *   WAX_SHORT     at is above length, or the archive ends inside the record
 *   WAX_RECORD    as wax_record_check
 *   WAX_SEQUENCE  the commit number is not last + 1 (always so if last is 4,294,967,295)
 *   WAX_OK        else: fields[0] to fields[6] are set, see WAX_FIELD_*; those behind stay
 *
 * The record's addresses start at at + 16, its values right behind those.
 *
 *   uint64_t fields[WAX_FIELDS];
 *   size_t at = 0;
 *   uint32_t last = 0;
 *   while (wax_archive_read(archive, length, at, last, fields, WAX_FIELDS) == WAX_OK) {
 *       last = (uint32_t)fields[WAX_FIELD_COMMIT];
 *       at = (size_t)fields[WAX_FIELD_END];
 *   }
 */
uint32_t wax_archive_read(const uint8_t *archive, size_t length, size_t at, uint32_t last,
                          uint64_t *fields, size_t fields_length);

/*
 * One entry, reads first, then writes, of a record at position `at` that has `entries` = reads + writes.
 * Only bounds are tested: call it for a record that wax_archive_read has accepted.
 *
 *   WAX_BUFFER  entry_length is below WAX_ENTRY_FIELDS
 *   WAX_END     i is not below entries, or the record would end behind the archive; any numbers may be given
 *   WAX_OK      else: entry[0] is the address, entry[1] the value
 *
 *   uint64_t entry[WAX_ENTRY_FIELDS];
 *   wax_archive_entry(archive, length, at, entries, 0, entry, WAX_ENTRY_FIELDS);
 */
uint32_t wax_archive_entry(const uint8_t *archive, size_t length, size_t at, uint32_t entries, uint32_t i,
                           uint64_t *entry, size_t entry_length);

/*
 * Replays a whole archive on 256 values and the last commit number, record by record.
 * Neither values nor last may be NULL; for a fresh line all of them are 0.
 *
 *   WAX_OK        every record was accepted
 *   WAX_SHORT, WAX_RECORD, WAX_SEQUENCE
 *                 the first refused record, as wax_archive_read
 *   WAX_REPLAY    a read of it differs from values[address] as it was before the record
 *
 * A refused record changes nothing; what those before it did stays, and last is the last accepted number.
 *
 *   uint64_t values[WAX_ADDRESSES] = { 0 };
 *   uint32_t last = 0;
 *   uint32_t answer = wax_archive_replay(archive, length, values, &last);
 */
uint32_t wax_archive_replay(const uint8_t *archive, size_t length, uint64_t *values, uint32_t *last);

/*
 * What playback keeps. Set all of it before the first call: zero for a fresh line,
 *
 *   wax_playback playback = { { 0 }, 0 };
 */
typedef struct wax_playback {
    uint64_t values[WAX_ADDRESSES];
    uint32_t last;
} wax_playback;

/*
 * Plays the first record of these bytes; playback may not be NULL. Numbers as wax_archive_replay,
 * WAX_SHORT also for no bytes. What lies behind the record is not looked at.
 *
 *   uint32_t answer = wax_playback_record(&playback, record, length);
 */
uint32_t wax_playback_record(wax_playback *playback, const uint8_t *record, size_t length);

/*
 * WHICH ARCHIVE IS THE LONGER TRUTH
 *
 * Compares two whole archives of one line, record by record; every byte counts. Neither order nor commit may be NULL.
 *
 *   WAX_SHORT, WAX_RECORD, WAX_SEQUENCE, WAX_REPLAY
 *                 the number of the first archive that is refused, as wax_archive_replay from a fresh line; the first is checked first
 *   WAX_OK        both are accepted: order is set, and commit to the first commit number where they differ if it is WAX_PARTS, else 0
 *
 * What both have in common is played once, in 4 KB of stack.
 *
 *   uint32_t order, commit;
 *   if (wax_archive_compare(first, first_length, second, second_length, &order, &commit) == WAX_OK && order == WAX_PARTS) { ... }
 */
#define WAX_SAME          0  /* the same bytes; two empty archives too */
#define WAX_FIRST_EARLY   1  /* the first is an early part of the second */
#define WAX_SECOND_EARLY  2  /* the second is an early part of the first */
#define WAX_PARTS         3  /* they part */

uint32_t wax_archive_compare(const uint8_t *first, size_t first_length, const uint8_t *second, size_t second_length,
                             uint32_t *order, uint32_t *commit);

/*
 * THE COUNTING LICENCE
 *
 * A tariff is a table of 1 to WAX_MOST_STEPS steps of WAX_STEP_LENGTH bytes, numbers little-endian:
 *
 *   bytes 0-7    upper frame count; upper counts rise strictly, and the last is 2^63 - 1
 *         8-11   price per 1,000 frames, in hundredths of a cent
 *
 * The first step starts at frame 1, each later one behind the upper count before it; a first upper count of 0 is an empty step.
 */
#define WAX_STEP_LENGTH   12
#define WAX_MOST_STEPS    16
#define WAX_LAST_FRAME    UINT64_C(9223372036854775807)

/*
 * One address's chargeable frames over the commits first to last of a whole archive, and their fee in cents: the sum, over its
 * writes in these commits, of new value minus the value before; each frame at the price of its step, the sum rounded once to cents,
 * halves away from zero. A negative sum is charged as the negative of its opposite. Neither frames nor fee may be NULL.
 *
 *   WAX_TARIFF    the table breaks its rules; checked first
 *   WAX_SHORT, WAX_RECORD, WAX_SEQUENCE, WAX_REPLAY
 *                 the archive's own number, as wax_archive_replay from a fresh line; all of the archive is looked at
 *   WAX_SEQUENCE  also: first is 0 or above last, or the archive has no commit with number last
 *   WAX_BEYOND    a value at either end of such a change, or the fee either way, is above 2^63 - 1
 *   WAX_OK        else: frames and fee are set
 *
 * One pass over the archive, in 2 KB of stack.
 *
 *   const uint8_t tariff[WAX_STEP_LENGTH] = { 255, 255, 255, 255, 255, 255, 255, 127, 160, 134, 1 };  (a cent a frame)
 *   int64_t frames, fee;
 *   if (wax_licence_fee(archive, length, tariff, sizeof tariff, 1, 120, 8, &frames, &fee) == WAX_OK) { ... }
 */
uint32_t wax_licence_fee(const uint8_t *archive, size_t length, const uint8_t *tariff, size_t tariff_length,
                         uint32_t first, uint32_t last, uint8_t address, int64_t *frames, int64_t *fee);

/*
 * ONE ARCHIVE, TWO READERS
 *
 * The counts reader shows of a record its commit number, the addresses that it writes and their values, and nothing else: no station,
 * kind, transaction or read, and no place or length in the archive. The service reader shows all fields. Both give the same numbers
 * behind the same commits. The counts of a record, numbers little-endian:
 *
 *   bytes 0-3    commit number
 *         4-5    writes m, 0 to 256
 *         then   m addresses of one byte, strictly rising
 *         then   m values of 8 bytes, in the same order
 *
 * A counts file is the counts of an archive's records one behind the other (docs/COUNTS.md): what may be shown to whoever may not see
 * the archive.
 */
#define WAX_COUNTS_HEADER_LENGTH 6
#define WAX_LONGEST_COUNTS       2310 /* WAX_COUNTS_LENGTH(256) */
#define WAX_COUNTS_LENGTH(writes) (WAX_COUNTS_HEADER_LENGTH + (size_t)WAX_ENTRY_LENGTH * (size_t)(writes))
#define WAX_SERVICE_FIELDS       8    /* numbers that wax_service_at and wax_service_record give */
#define WAX_COUNTS_FIELDS        3    /* numbers that wax_counts_read gives */

/* Where wax_service_at and wax_service_record put what. */
#define WAX_SERVICE_AT          0 /* where the record starts; 0 from wax_service_record */
#define WAX_SERVICE_END         1 /* where it ends */
#define WAX_SERVICE_READS       2
#define WAX_SERVICE_WRITES      3
#define WAX_SERVICE_COMMIT      4
#define WAX_SERVICE_TRANSACTION 5
#define WAX_SERVICE_STATION     6
#define WAX_SERVICE_KIND        7

/* Where wax_counts_read puts what. */
#define WAX_COUNTS_END    0 /* position behind the counts */
#define WAX_COUNTS_WRITES 1
#define WAX_COUNTS_COMMIT 2

/*
 * The record of one commit of a whole archive, as either reader shows it: counts as bytes, or WAX_SERVICE_FIELDS numbers; the record's
 * entries are then read by wax_archive_entry(archive, length, at, reads + writes, i, ...). Every record up to it is replayed from a
 * fresh line, so a call takes as long as all of these; to read an archive through, take the two functions below.
 *
 *   WAX_BUFFER    out has less than WAX_LONGEST_COUNTS bytes, or less than WAX_SERVICE_FIELDS numbers; checked first
 *   WAX_SHORT, WAX_RECORD, WAX_SEQUENCE, WAX_REPLAY
 *                 this record or one before it is refused, as by wax_archive_replay
 *   WAX_END       the archive ends before this commit, or commit is 0
 *   WAX_OK        else: the start of out is set
 *
 *   uint8_t counts[WAX_LONGEST_COUNTS];
 *   if (wax_counts_at(archive, length, 120, counts, sizeof counts) == WAX_OK) { ... }
 */
uint32_t wax_counts_at(const uint8_t *archive, size_t length, uint32_t commit, uint8_t *out, size_t out_length);
uint32_t wax_service_at(const uint8_t *archive, size_t length, uint32_t commit, uint64_t *out, size_t out_length);

/*
 * Plays the first record of these bytes, as wax_playback_record does, and shows it as either reader does. For a fresh line values and
 * last are 0; neither may be NULL. Numbers as wax_playback_record, and before them WAX_BUFFER as above.
 *
 *   while (at < length && wax_counts_record(archive + at, length - at, values, &last, counts, sizeof counts) == WAX_OK) {
 *       fwrite(counts, 1, WAX_COUNTS_LENGTH(counts[4] + 256 * counts[5]), file);
 *       at += WAX_RECORD_LENGTH(archive[at] + 256 * archive[at + 1], archive[at + 2] + 256 * archive[at + 3]);
 *   }
 */
uint32_t wax_counts_record(const uint8_t *bytes, size_t length, uint64_t *values, uint32_t *last, uint8_t *out, size_t out_length);
uint32_t wax_service_record(const uint8_t *bytes, size_t length, uint64_t *values, uint32_t *last, uint64_t *out, size_t out_length);

/*
 * The counts at position at of a counts file, whose last commit number before them is last: WAX_COUNTS_FIELDS numbers.
 *
 *   WAX_BUFFER    fewer of them fit
 *   WAX_SHORT     the file ends inside the counts, or at is behind it
 *   WAX_RECORD    more than 256 writes, or addresses that do not rise strictly
 *   WAX_SEQUENCE  the commit number is not last + 1
 *   WAX_END       at is the file's end
 */
uint32_t wax_counts_read(const uint8_t *file, size_t length, size_t at, uint32_t last, uint64_t *fields, size_t fields_length);

/*
 * Write i, from 0, of the counts of so many writes at position at: address and value, as wax_archive_entry gives an entry. Only bounds
 * are tested: call it for counts that wax_counts_read has accepted.
 *
 *   WAX_BUFFER    fewer than WAX_ENTRY_FIELDS fit
 *   WAX_END       there is no such write
 */
uint32_t wax_counts_entry(const uint8_t *file, size_t length, size_t at, uint32_t writes, uint32_t i, uint64_t *entry,
                          size_t entry_length);

/*
 * STATIONS
 *
 * A station's state is WAX_STATION_LENGTH bytes that the host keeps and lends to every call (docs/STATE.md has their meaning).
 * Bytes that no call can leave and that a rule would trip over are no state: WAX_BUFFER. What is taken stays so. A state of a
 * version before 1.12.0 has another length, and is none; a server's of one before 1.13.0 too. A message of one before 1.11.0, of
 * 112 bytes, is WAX_LENGTH.
 * Each call takes two more buffers and the place for what it tells:
 *
 *   messages  at least WAX_STATION_MESSAGES bytes: messages of WAX_MESSAGE_LENGTH bytes for the server, one behind the other
 *   commit    at least WAX_COMMIT_LENGTH bytes: a commit for the server
 *   told      at least WAX_TOLD numbers:
 *             told[WAX_TOLD_ANSWER]    what the owner is told, WAX_BEGUN ... WAX_NOTHING
 *             told[WAX_TOLD_VALUE]     the value, transaction, commit number or cause that goes with it, else 0
 *             told[WAX_TOLD_MESSAGES]  how many messages to send, in order
 *             told[WAX_TOLD_COMMIT]    bytes of the commit to send, 0 if there is none
 *
 * A call sends either messages or a commit, never both. Bytes of messages and commit behind what is sent stay as they are.
 * Any answer but WAX_OK changes nothing at all.
 *
 * A line has eight stations, and need not use them: one that never calls is never sent anything. Give it any kind.
 *
 * A message that an end refuses has not been taken. Lent again it is refused again, and dropping it leaves its line waiting for
 * ever: between ends that keep the rules none is refused, so one was lost, doubled, changed or carried out of order, or an end was
 * lent another state than its last call left. Stop the line, keep the message and the states for whoever looks into it, and start
 * again from what was kept (docs/C-INTERFACE.md, "Restart": examples/durable.c is such a host).
 *
 * How many messages a call can add to a line: up WAX_STATION_ADDS, down to a locking station WAX_LOCKING_ADDS, to a validating one
 * WAX_VALIDATING_ADDS. How long a line can get has no bound if its station does not take what comes (docs/C-INTERFACE.md, "Queues of
 * fixed size": examples/queues.c is such a host).
 */
#define WAX_STATION_ADDS     8
#define WAX_LOCKING_ADDS     40
#define WAX_VALIDATING_ADDS  8

#define WAX_MESSAGE_LENGTH   144
#define WAX_COMMIT_LENGTH    1408 /* of the longest: WAX_COMMIT_LENGTH_OF(WAX_LIMIT, WAX_LIMIT) */
#define WAX_STATION_LENGTH   8690
#define WAX_STATION_MESSAGES 1152 /* 8 messages */

/* Where every message has its kind and the station on whose line it goes. The other bytes are the library's own business. */
#define WAX_AT_KIND    0
#define WAX_AT_STATION 1

/* Kinds of message: up to the server, down to a station. */
#define WAX_UP_READ           1
#define WAX_UP_WRITE          2
#define WAX_UP_COMMIT         3
#define WAX_UP_ABORT          4
#define WAX_UP_PURGE          5
#define WAX_UP_BUSY           6
#define WAX_UP_DONE           7
#define WAX_UP_WRITTEN_SET    8
#define WAX_DOWN_PAGE         16
#define WAX_DOWN_OBJECT_LOCK  17 /* a page, with locks on the objects asked for */
#define WAX_DOWN_WHOLE_LOCK   18 /* a page, with a lock on all of it */
#define WAX_DOWN_DEESCALATE   19
#define WAX_DOWN_CALLBACK     20
#define WAX_DOWN_COMMITTED    21
#define WAX_DOWN_ABORTED      22
#define WAX_DOWN_INVALIDATE   23

/*
 * Where the record of a commit starts that has so many reads and writes, behind the message and a version for each; and the length
 * of such a commit. Every other message has WAX_MESSAGE_LENGTH.
 *
 * The bytes of a commit do not tell its length, for its record is found by it. Carry the length beside the message, as
 * told[WAX_TOLD_COMMIT] gives it: a line that carries a stream puts it in front of each commit. A length that is not the commit's
 * is WAX_LENGTH at the server; one above WAX_COMMIT_LENGTH is none that a station sends.
 */
#define WAX_COMMIT_HEAD(reads, writes) ((size_t)WAX_MESSAGE_LENGTH + 4 * ((size_t)(reads) + (size_t)(writes)))
#define WAX_COMMIT_LENGTH_OF(reads, writes) (WAX_COMMIT_HEAD(reads, writes) + WAX_RECORD_LENGTH(reads, writes))

#define WAX_TOLD          4
#define WAX_TOLD_ANSWER   0
#define WAX_TOLD_VALUE    1
#define WAX_TOLD_MESSAGES 2
#define WAX_TOLD_COMMIT   3

/* What an owner is told. After WAX_WAITS the answer is told by the step that takes the delivery. */
#define WAX_BEGUN     UINT64_C(1) /* value: the transaction's number */
#define WAX_VALUE     UINT64_C(2) /* value: what was read */
#define WAX_WAITS     UINT64_C(3)
#define WAX_WRITTEN   UINT64_C(4)
#define WAX_COMMITTED UINT64_C(5) /* value: the commit number */
#define WAX_ABORTED   UINT64_C(6) /* value: the cause, 0 for the owner's own abort */
#define WAX_PURGED    UINT64_C(7)
#define WAX_NOTHING   UINT64_C(8) /* a message was taken that tells the owner nothing */

/* Causes. */
#define WAX_CAUSE_DEADLOCK   1 /* the station keeps its age: a repeat is beaten again only by an older transaction */
#define WAX_CAUSE_STALE      2
#define WAX_CAUSE_LOCKED     3
#define WAX_CAUSE_NO_NUMBERS 4

/*
 * A fresh state.
 *
 *   WAX_BUFFER  length is not WAX_STATION_LENGTH
 *   WAX_RANGE   station is above 7, or kind is none of WAX_LOCKING, WAX_VALIDATING and WAX_KEEPING
 */
uint32_t wax_station_fresh(uint32_t station, uint32_t kind, uint8_t *state, size_t length);

/*
 * The owner's operations. Each can answer WAX_BUFFER: the state is not one, or messages, commit or told is too short.
 *
 *   begin   WAX_WAITING, WAX_OPEN, WAX_SPENT                tells WAX_BEGUN
 *   read    WAX_RANGE (address above 255), WAX_WAITING, WAX_CLOSED, WAX_LONG    tells WAX_VALUE or WAX_WAITS
 *   write   the same                                        tells WAX_WRITTEN or WAX_WAITS
 *   write_set  WAX_RANGE (below), WAX_WAITING, WAX_CLOSED, WAX_LONG             tells WAX_WRITTEN or WAX_WAITS
 *   commit  WAX_WAITING, WAX_CLOSED                         tells WAX_WAITS
 *   abort   WAX_WAITING, WAX_CLOSED                         tells WAX_ABORTED, value 0
 *   purge   WAX_RANGE (page above 31), WAX_WAITING (it is the requested page), WAX_KEPT    tells WAX_PURGED
 *
 * WAX_LONG is for an object that the transaction would be the first time to read, or to write, where it has recorded WAX_LIMIT
 * reads, or written WAX_LIMIT objects. What it has read or written before it may read and write again. The transaction stays
 * open: its owner commits what there is, or aborts.
 *
 * write_set writes several objects of one page at once. In set bit i is object i of the page; values[i] is what is written to it,
 * and values of objects outside the set are not looked at. values has at least WAX_OBJECTS numbers, else WAX_BUFFER. What is under
 * no lock yet is asked for by one request, which is granted as a whole: the owner has all of the set, or waits for all of it and
 * holds none of what it asked for. WAX_RANGE: page above 31, set 0 or above 255, or more than one object at a validating station,
 * which asks for no locks. WAX_LONG is for the whole set. A set of one object is what write does.
 *
 *   const uint64_t values[WAX_OBJECTS] = { frames, 0, rejected, 0, 0, faults };
 *   wax_station_write_set(1, 1u << 0 | 1u << 2 | 1u << 5, values, WAX_OBJECTS, state, sizeof state,
 *                         messages, sizeof messages, commit, sizeof commit, told, WAX_TOLD);
 */
uint32_t wax_station_begin(uint8_t *state, size_t state_length, uint8_t *messages, size_t messages_length,
                           uint8_t *commit, size_t commit_length, uint64_t *told, size_t told_length);
uint32_t wax_station_read(uint32_t address, uint8_t *state, size_t state_length, uint8_t *messages, size_t messages_length,
                          uint8_t *commit, size_t commit_length, uint64_t *told, size_t told_length);
uint32_t wax_station_write(uint32_t address, uint64_t value, uint8_t *state, size_t state_length,
                           uint8_t *messages, size_t messages_length, uint8_t *commit, size_t commit_length,
                           uint64_t *told, size_t told_length);
uint32_t wax_station_write_set(uint32_t page, uint32_t set, const uint64_t *values, size_t values_length,
                               uint8_t *state, size_t state_length, uint8_t *messages, size_t messages_length,
                               uint8_t *commit, size_t commit_length, uint64_t *told, size_t told_length);
uint32_t wax_station_commit(uint8_t *state, size_t state_length, uint8_t *messages, size_t messages_length,
                            uint8_t *commit, size_t commit_length, uint64_t *told, size_t told_length);
uint32_t wax_station_abort(uint8_t *state, size_t state_length, uint8_t *messages, size_t messages_length,
                           uint8_t *commit, size_t commit_length, uint64_t *told, size_t told_length);
uint32_t wax_station_purge(uint32_t page, uint8_t *state, size_t state_length, uint8_t *messages, size_t messages_length,
                           uint8_t *commit, size_t commit_length, uint64_t *told, size_t told_length);

/*
 * The station's step on one message from the server.
 *
 *   WAX_BUFFER, WAX_LENGTH, WAX_KIND, WAX_RANGE, WAX_UNEXPECTED, in this order
 *
 * Tells WAX_VALUE, WAX_WRITTEN, WAX_COMMITTED or WAX_ABORTED where the message answers the owner (WAX_ABORTED, cause 2, also
 * where it ends a transaction that waits for nothing), else WAX_NOTHING.
 */
uint32_t wax_station_step(const uint8_t *message, size_t message_length, uint8_t *state, size_t state_length,
                          uint8_t *messages, size_t messages_length, uint8_t *commit, size_t commit_length,
                          uint64_t *told, size_t told_length);

/*
 * A WINDOW
 *
 * 32 byte registers that drive one validating station, for a controller whose byte bus has no messages. The host keeps
 * WAX_REGISTERS bytes beside the station's state and lends both to every access; a fresh window is all zeros. What the registers
 * mean is below, and docs/STATE.md says what stands in the lent bytes. Each command and each message does what wax_station_begin
 * to wax_station_step do: messages, commit and told are lent and given as there, and are to be sent on as there.
 *
 *   0       page
 *   1       object
 *   2       command: a write of WAX_COMMAND_BEGIN to WAX_COMMAND_ABORT calls the operation; another byte is only stored
 *   3       the last command's number, WAX_OK if it was accepted; read only
 *   4..11   the value, little-endian: what a write is to write, and what a read has read, also a late one
 *   12..15  the last commit's number, little-endian; read only
 *   16      flags: WAX_FLAG_OPEN, WAX_FLAG_WAITING; WAX_FLAG_DONE rises when a read, write or commit succeeds, WAX_FLAG_ABORTED
 *           when the server or a 23 ends the transaction; a one written to either of the last two clears it
 *   17      mask: the interrupt is up exactly while flags and mask share a bit
 *   18..31  read 0
 *
 * Read-only registers, 18 to 31, and other bits of 16 ignore what is written.
 */
#define WAX_REGISTERS 32

#define WAX_REGISTER_PAGE    0
#define WAX_REGISTER_OBJECT  1
#define WAX_REGISTER_COMMAND 2
#define WAX_REGISTER_REFUSAL 3
#define WAX_REGISTER_VALUE   4
#define WAX_REGISTER_COMMIT  12
#define WAX_REGISTER_FLAGS   16
#define WAX_REGISTER_MASK    17

#define WAX_COMMAND_BEGIN  1
#define WAX_COMMAND_READ   2
#define WAX_COMMAND_WRITE  3
#define WAX_COMMAND_COMMIT 4
#define WAX_COMMAND_ABORT  5

#define WAX_FLAG_OPEN    1
#define WAX_FLAG_WAITING 2
#define WAX_FLAG_DONE    4
#define WAX_FLAG_ABORTED 8

/*
 * Reading a register, and whether the interrupt is up (level 1) or not (level 0).
 *
 *   WAX_BUFFER    the registers are not 32 bytes that a window leaves, or the state is not a validating station's
 *   WAX_REGISTER  offset is above 31
 */
uint32_t wax_window_read(uint32_t offset, const uint8_t *registers, size_t registers_length,
                         const uint8_t *state, size_t state_length, uint8_t *byte);
uint32_t wax_window_interrupt(const uint8_t *registers, size_t registers_length,
                              const uint8_t *state, size_t state_length, uint8_t *level);

/*
 * Writing a register.
 *
 *   WAX_BUFFER    as above, or messages, commit or told is too short
 *   WAX_REGISTER  offset is above 31
 *   WAX_OK        else, also for a command that the station refuses: register 3 has its number (WAX_RANGE for a page above 31 or an
 *                 object above 7), nothing else changes, and told is WAX_NOTHING
 *
 * Tells what the command's own function would, WAX_NOTHING where the write is no command.
 *
 *   wax_window_write(WAX_REGISTER_COMMAND, WAX_COMMAND_BEGIN, registers, sizeof registers, state, sizeof state,
 *                    messages, sizeof messages, commit, sizeof commit, told, WAX_TOLD);
 */
uint32_t wax_window_write(uint32_t offset, uint8_t byte, uint8_t *registers, size_t registers_length,
                          uint8_t *state, size_t state_length, uint8_t *messages, size_t messages_length,
                          uint8_t *commit, size_t commit_length, uint64_t *told, size_t told_length);

/*
 * The step on one message from the server: as wax_station_step, with its numbers, and the registers show what it tells.
 * A refused message changes no register.
 */
uint32_t wax_window_step(const uint8_t *message, size_t message_length, uint8_t *registers, size_t registers_length,
                         uint8_t *state, size_t state_length, uint8_t *messages, size_t messages_length,
                         uint8_t *commit, size_t commit_length, uint64_t *told, size_t told_length);

/*
 * What the bytes of a message say, before any state is looked at.
 *
 *   wax_down_check  for station `station`: WAX_LENGTH, WAX_KIND, WAX_RANGE (also a station above 7), else WAX_OK
 *   wax_up_check    for a server whose stations have these 8 kinds: WAX_BUFFER (kinds are not 8 bytes of 0 to 2),
 *                   WAX_LENGTH, WAX_KIND, WAX_RANGE, WAX_RECORD, else WAX_OK
 */
uint32_t wax_down_check(uint32_t station, const uint8_t *message, size_t length);
uint32_t wax_up_check(const uint8_t *kinds, size_t kinds_length, const uint8_t *message, size_t length);

/*
 * THE SERVER
 *
 * The server's state is WAX_SERVER_LENGTH bytes that the host keeps and lends to every step (docs/STATE.md has their meaning).
 * Bytes that no step can leave and that a rule would trip over are no state: WAX_BUFFER. What is taken stays so, until 2^63
 * requests have been made.
 * A step takes one message from a station, and two more buffers and the place for what it gives:
 *
 *   messages  at least WAX_SERVER_MESSAGES bytes: messages of WAX_MESSAGE_LENGTH bytes, one behind the other;
 *             byte 1 of each is the station that it is for
 *   records   at least WAX_SERVER_RECORDS bytes: records for the end of the archive, one behind the other
 *   served    at least WAX_SERVED numbers:
 *             served[WAX_SERVED_MESSAGES]  how many messages to send, in order
 *             served[WAX_SERVED_RECORDS]   bytes of the records to archive
 *
 * Bytes of messages and records behind what is given stay as they are. Any answer but WAX_OK changes nothing at all.
 */
#define WAX_SERVER_LENGTH   53464
#define WAX_SERVER_MESSAGES 18432 /* 128 messages */
#define WAX_SERVER_RECORDS  7040  /* 8 records of WAX_LONGEST_SENT */

#define WAX_SERVED          2
#define WAX_SERVED_MESSAGES 0
#define WAX_SERVED_RECORDS  1

/*
 * A fresh state of a server whose stations have these 8 kinds, WAX_LOCKING, WAX_VALIDATING or WAX_KEEPING, a byte each.
 *
 *   WAX_BUFFER  length is not WAX_SERVER_LENGTH
 *   WAX_RANGE   kinds_length is not 8, or a kind is none of these
 *
 *   static const uint8_t kinds[WAX_STATIONS] = { WAX_LOCKING, WAX_VALIDATING };
 *   wax_server_fresh(kinds, sizeof kinds, state, sizeof state);
 */
uint32_t wax_server_fresh(const uint8_t *kinds, size_t kinds_length, uint8_t *state, size_t length);

/*
 * The server's step on one message from a station; a commit is lent whole, its versions and record behind its 144 bytes.
 *
 *   WAX_BUFFER      the state is not one, or messages, records or served is too short
 *   WAX_LENGTH, WAX_KIND, WAX_RANGE, WAX_RECORD
 *                   the message's bytes, as wax_up_check with the state's kinds
 *   WAX_UNEXPECTED  a message that does not fit what the server has seen of its station
 *
 * in this order.
 */
uint32_t wax_server_step(const uint8_t *message, size_t message_length, uint8_t *state, size_t state_length,
                         uint8_t *messages, size_t messages_length, uint8_t *records, size_t records_length,
                         uint64_t *served, size_t served_length);

/*
 * SHARES OF THE SERVER'S TURNS
 *
 * Which station's message the server takes next is for its host to say. A host that would serve the fastest first can ask here
 * instead: each of eight lines has a share of 1 to 4, and in a round is given at most as many turns. The next turn goes to the
 * lowest line that waits and has share left; where there is none, a new round begins first, all counts 0. So a line whose mark
 * stays set is given a turn within WAX_MOST_TURNS turns, whatever the others do.
 */
#define WAX_LINES      8
#define WAX_MOST_SHARE 4
#define WAX_MOST_TURNS 57

/* A line as the host keeps it; set all of it before the first call, given to 0. */
typedef struct wax_turn_line {
    uint8_t share;   /* 1 to WAX_MOST_SHARE */
    uint8_t given;   /* turns in this round; a turn changes these counts alone */
    uint8_t waiting; /* 1 while a message waits, else 0: the host sets and clears it, between turns */
} wax_turn_line;

/*
 * The next turn. line may not be NULL.
 *
 *   WAX_BUFFER  count is not WAX_LINES, or in some line given is above share or waiting above 1
 *   WAX_SHARE   a share is not 1 to WAX_MOST_SHARE
 *   WAX_IDLE    no line waits
 *   WAX_OK      else: *line is the line that is given the turn, and counts are changed
 *
 * in this order; *line too stays as it is where the turn is refused.
 *
 *   wax_turn_line lines[WAX_LINES] = { { 1, 0, 0 }, { 1, 0, 0 }, { 1, 0, 0 }, { 1, 0, 0 },
 *                                      { 1, 0, 0 }, { 1, 0, 0 }, { 2, 0, 0 }, { 4, 0, 0 } };
 *   size_t line;
 *   for (size_t i = 0; i < WAX_LINES; i++)
 *       lines[i].waiting = has_message(i);
 *   if (wax_turn_next(lines, WAX_LINES, &line) == WAX_OK)
 *       serve(line);
 */
uint32_t wax_turn_next(wax_turn_line *lines, size_t count, size_t *line);

/*
 * BLOCKS
 *
 * A block holds 1 to 64 records laid out by column, so that like stands beside like and a compressor finds it:
 *
 *   bytes 0-1   record count c
 *         2-3   total entry count t: reads and writes of all records
 *         then  c headers of 16 bytes
 *         then  t addresses
 *         then  8 planes of t bytes: the lowest bytes of all values, then the next ones, ... the highest
 *
 * It is 4 bytes longer than its records. Commit numbers and values are not looked at: blocks hold any well-formed records.
 */
#define WAX_BLOCK_RECORDS 64
#define WAX_BLOCK_COUNTS  4      /* bytes of a block beside its records' bytes */
#define WAX_LONGEST_BLOCK 295940 /* WAX_BLOCK_COUNTS + WAX_BLOCK_RECORDS * WAX_LONGEST_RECORD */

/*
 * Writes these records, one behind the other, as a block at the start of out: length + WAX_BLOCK_COUNTS bytes.
 *
 *   WAX_BUFFER  out_length is below length + WAX_BLOCK_COUNTS
 *   WAX_BLOCK   there is no record, or a 65th
 *   WAX_SHORT   the bytes end inside a record
 *   WAX_RECORD  a record that wax_record_check would refuse
 *
 * The first record that is refused gives the number; a 65th is not looked into.
 *
 *   static uint8_t block[WAX_LONGEST_BLOCK];
 *   wax_block_write(records, length, block, sizeof block);
 */
uint32_t wax_block_write(const uint8_t *records, size_t length, uint8_t *out, size_t out_length);

/*
 * Reads a block: its records, one behind the other, at the start of out: length - WAX_BLOCK_COUNTS bytes.
 *
 *   WAX_BUFFER  out_length is below length - WAX_BLOCK_COUNTS
 *   WAX_BLOCK   not 1 to 64 records, or counts that disagree with each other or with length (any length below 4 too)
 *   WAX_RECORD  a record that wax_record_check would refuse
 *
 * What was written is read back, and what was read is written back, byte for byte.
 */
uint32_t wax_block_read(const uint8_t *block, size_t length, uint8_t *out, size_t out_length);

/*
 * Looks up the record at a place of a block, from 0, without reading the others' values: WAX_RECORD_LENGTH_OF(out) bytes at the
 * start of out. It answers as wax_block_read would, so a fault in any record of the block is WAX_RECORD.
 *
 *   WAX_BUFFER  out_length is below WAX_LONGEST_RECORD, however short the record
 *   WAX_BLOCK   as wax_block_read; also a place that the block does not have
 *   WAX_RECORD  as wax_block_read
 *
 *   uint8_t record[WAX_LONGEST_RECORD];
 *   if (wax_block_record(block, length, 0, record, sizeof record) == WAX_OK) { ... }
 */
uint32_t wax_block_record(const uint8_t *block, size_t length, uint32_t place, uint8_t *out, size_t out_length);

#ifdef __cplusplus
}
#endif

#endif
