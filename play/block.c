/*
 * An archive to blocks laid out by column, and back (docs/BLOCKS.md). A thin host over the proved functions: it finds where the next
 * records or the next block end, and reads and writes. Memory is constant.
 */
#define _POSIX_C_SOURCE 200809L
#include <errno.h>
#include <signal.h>
#include <stdio.h>
#include <string.h>
#include <unistd.h>

#include "waxwingrack.h"

/* Exit statuses: as those of waxwingrack-play. */
enum { DONE, REFUSED, MISUSED, FAILED };

/* The longest that two counts of 2 bytes can claim: a record, and the records of a block. */
#define CLAIMED_RECORD WAX_RECORD_LENGTH(65535, 65535)
#define CLAIMED_BLOCK  ((size_t)WAX_BLOCK_RECORDS * WAX_HEADER_LENGTH + (size_t)WAX_ENTRY_LENGTH * 65535)

/* So many bytes apart the progress is shown. */
#define PROGRESS (UINT64_C(1) << 26)

/* A block's records, and behind them one that can be judged whatever it claims; either block fits in too. */
static uint8_t input[(size_t)WAX_LONGEST_BLOCK + CLAIMED_RECORD];
static uint8_t output[WAX_LONGEST_BLOCK > CLAIMED_BLOCK ? WAX_LONGEST_BLOCK : CLAIMED_BLOCK];

/* What is there of the input: its bytes from `start` on, and whether these are the last ones. */
static struct {
    uint64_t start;
    size_t length;
    int ended;
} given;

static int back; /* blocks to an archive */

/* The next 64 records, or the good ones before the end or before one that is refused; *number says why there are none. */
static size_t next_records(const uint8_t *part, size_t length, uint32_t *number)
{
    size_t at = 0;
    for (int count = 0; count < WAX_BLOCK_RECORDS; count++) {
        uint32_t answer = at == length ? WAX_OK : wax_record_check(part + at, length - at);
        if (at == length || answer != WAX_OK) {
            if (!given.ended && answer != WAX_RECORD)
                return 0;
            *number = at == 0 ? answer : WAX_OK;
            return at;
        }
        at += WAX_RECORD_LENGTH_OF(part + at);
    }
    return at;
}

/* The next block, by its counts. */
static size_t next_block(const uint8_t *part, size_t length, uint32_t *number)
{
    size_t whole = WAX_BLOCK_COUNTS;
    if (length >= WAX_BLOCK_COUNTS) {
        size_t records = part[0] | (size_t)part[1] << 8, entries = part[2] | (size_t)part[3] << 8;
        if (records == 0 || records > WAX_BLOCK_RECORDS) {
            *number = WAX_BLOCK;
            return 0;
        }
        whole += WAX_HEADER_LENGTH * records + WAX_ENTRY_LENGTH * entries;
    }
    if (length >= whole)
        return whole;
    if (given.ended && length > 0)
        *number = WAX_BLOCK;
    return 0;
}

/* Does what the bytes that are there allow; how many are done. *number is what refuses the next ones. Fails where writing does. */
static int work(size_t *done, uint32_t *number)
{
    for (*done = 0;;) {
        const uint8_t *part = input + *done;
        size_t length = given.length - *done, taken;
        *number = WAX_OK;
        taken = back ? next_block(part, length, number) : next_records(part, length, number);
        if (*number == WAX_OK && taken > 0)
            *number = back ? wax_block_read(part, taken, output, sizeof output) : wax_block_write(part, taken, output, sizeof output);
        if (*number != WAX_OK || taken == 0)
            return fflush(stdout) == 0;
        length = back ? taken - WAX_BLOCK_COUNTS : taken + WAX_BLOCK_COUNTS;
        if (fwrite(output, 1, length, stdout) != length)
            return 0;
        *done += taken;
    }
}

/* Reads on behind what is there. Fails where reading does. */
static int more(void)
{
    ssize_t got = read(fileno(stdin), input + given.length, sizeof input - given.length);
    if (got < 0)
        return 0;
    given.ended = got == 0;
    given.length += (size_t)got;
    return 1;
}

static void drop(size_t done)
{
    memmove(input, input + done, given.length - done);
    given.length -= done;
    given.start += done;
}

/* On a terminal, how far the input is read; with `end`, that line is taken away. */
static void progress(int end)
{
    static uint64_t shown;
    if (!isatty(fileno(stderr)))
        return;
    if (end && shown > 0)
        fputs("\r\033[K", stderr);
    if (end || given.start < shown + PROGRESS)
        return;
    shown = given.start;
    fprintf(stderr, "\rblock: %llu MB", (unsigned long long)(shown / 1000000));
}

static int failed(const char *what)
{
    int error = errno;
    progress(1);
    fprintf(stderr, "block: %s: %s\n", what, strerror(error));
    return FAILED;
}

static int refused(uint32_t number)
{
    const char *words = number == WAX_SHORT ? "the archive ends inside a record"
                      : number == WAX_BLOCK ? "no block of 1 to 64 records whose counts agree"
                                            : "a record is not laid out as one";
    progress(1);
    fprintf(stderr, "block: byte %llu: refused %u, %s\n", (unsigned long long)given.start, (unsigned)number, words);
    return REFUSED;
}

static int convert(void)
{
    for (;;) {
        size_t done;
        uint32_t number;
        if (!more())
            return failed("standard input");
        if (!work(&done, &number))
            return failed("standard output");
        drop(done);
        if (number != WAX_OK)
            return refused(number);
        if (given.ended)
            break;
        progress(0);
    }
    progress(1);
    return DONE;
}

static int help(void)
{
    puts("usage: waxwingrack-block [--back] [INPUT [OUTPUT]]\n"
         "Writes an archive as blocks of up to 64 records, laid out by column; INPUT and OUTPUT are files, - or none is standard\n"
         "input and standard output.\n"
         "  --back     reads blocks and writes their archive\n"
         "  --help     this text\n"
         "  --version  the version\n"
         "What is refused goes to standard error, with its byte and number; what stands before it is written.\n"
         "Ends with 0 where all was written, 1 where something is refused, 2 where the arguments are not understood, 3 where reading\n"
         "or writing fails.");
    return fflush(stdout) == 0 ? DONE : failed("standard output");
}

static int misused(const char *why)
{
    fprintf(stderr, "block: %s; --help says more\n", why);
    return MISUSED;
}

/* The files that are named, in the place of standard input and output. */
static int run(int count, char **words)
{
    if (count > 2)
        return misused("more than an input and an output");
    if (count > 0 && strcmp(words[0], "-") != 0 && !freopen(words[0], "rb", stdin))
        return failed(words[0]);
    if (count > 1 && strcmp(words[1], "-") != 0 && !freopen(words[1], "wb", stdout))
        return failed(words[1]);
    if (isatty(fileno(stdin)))
        return misused("no input: name a file, or give it on standard input");
    if (isatty(fileno(stdout)))
        return misused("these bytes are not for a terminal: name an output");
    return convert();
}

int main(int count, char **words)
{
    signal(SIGPIPE, SIG_IGN);
    if (count == 2 && strcmp(words[1], "--help") == 0)
        return help();
    if (count == 2 && strcmp(words[1], "--version") == 0)
        return puts("block " VERSION) < 0 || fflush(stdout) != 0 ? failed("standard output") : DONE;
    back = count > 1 && strcmp(words[1], "--back") == 0;
    count -= 1 + back;
    words += 1 + back;
    if (count > 0 && words[0][0] == '-' && words[0][1] != '\0')
        return misused("the arguments are not understood");
    return run(count, words);
}
