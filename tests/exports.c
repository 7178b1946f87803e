/* Calls every export of include/hibernaxo.h, with good inputs and with refused ones. Whatever a call is lent has exactly the size that the
 * header announces and lies against a page that must not be touched, first with its end and then with its beginning; guard bytes fill the
 * other side, and inputs cannot be written. What comes back is typed from document 01, M, R, P1 to P12 and the table of refusals, and from document 02.
 *
 * Prints the name of each export that has given an answer and a refusal, one to a line, and of hibernaxo_link_row, which refuses nothing;
 * tests/exports asks that these are all of the header.
 * It is C11 and C++17. */
#ifndef _DEFAULT_SOURCE
#define _DEFAULT_SOURCE
#endif
#include <assert.h>
#include <signal.h>
#include <stdio.h>
#include <stdlib.h>
#include <string.h>
#include <sys/mman.h>
#include <unistd.h>

#include "hibernaxo.h"

#define GUARD 0xA5
#define UNWRITTEN 0xEE
#define LARGEST 65536

/* The numbers of document 01. */
static const char M[] = "10000080 00000007 00000005 00000038 00000064 00000000"
                        "00000001 000D0000 00000000 AA112233 00000002 00105500 0000000A DEADBEEF";
static const char PACKAGES[] = "00000001 000D0000 00000000 AA112233 00000002 00105500 0000000A DEADBEEF";
static const char CLEAN[] = "10000080 00000007 00000005 00000038 00000064 00000000"
                            "00000001 000D0000 00000000 AA000000 00000002 00100000 0000000A DEADBEEF";
static const char R[] = "00000007 00000007 00000001 00000001 00000064 00000000 00000194 00000000";
static const char ACQUIRED_R[] = "00000007 00000007 00000001 00000001 00000064 00000000 00000194 00000001";
static const char P10[] = "100000C0 00000007 00000000 00000028 00000064 00000000 00000001 000D0000 00000000 AA000000";
static const char MARKER[] = "0347 76C7 2728 95B0";

/* ---- Memory that is lent */

/* Which end of it lies against a page that must not be touched. */
static enum { AT_ITS_END, AT_ITS_BEGINNING } forbidden;

struct lent {
    uint8_t *bytes;
    size_t length;
    uint8_t *room; /* the pages that it lies in, between two that must not be touched */
    size_t room_length;
};

static struct lent lents[64];
static size_t lent_count;

/* The call that is under way, and what it answered. */
static const char *called = "none";
static uint32_t number;
static struct lent stored;

static void fail(int line, const char *what)
{
    fflush(stdout);
    fprintf(stderr, "tests/exports.c:%d: %s: %s\n", line, called, what);
    exit(1);
}

static void touched(int signal_number)
{
    static const char behind[] = ": memory was touched beside what was lent, or an input was written\n";
    (void)signal_number;
    if (write(2, "tests/exports.c: ", 17) < 0 || write(2, called, strlen(called)) < 0 || write(2, behind, sizeof behind - 1) < 0)
        _exit(2);
    _exit(1);
}

static struct lent lend(size_t length, int fill)
{
    size_t page = (size_t)sysconf(_SC_PAGESIZE);
    struct lent memory;
    uint8_t *whole;
    memory.length = length;
    memory.room_length = (length / page + 1) * page;
    whole = (uint8_t *)mmap(NULL, memory.room_length + 2 * page, PROT_NONE, MAP_PRIVATE | MAP_ANONYMOUS, -1, 0);
    memory.room = whole + page;
    if (whole == MAP_FAILED || mprotect(memory.room, memory.room_length, PROT_READ | PROT_WRITE) != 0)
        fail(__LINE__, "no memory");
    memory.bytes = forbidden == AT_ITS_END ? memory.room + memory.room_length - length : memory.room;
    memset(memory.room, GUARD, memory.room_length);
    memset(memory.bytes, fill, length);
    if (lent_count == sizeof lents / sizeof *lents)
        fail(__LINE__, "too many parts in one group of calls");
    lents[lent_count++] = memory;
    return memory;
}

/* The same memory, which can no longer be written. */
static struct lent shut(struct lent memory)
{
    if (mprotect(memory.room, memory.room_length, PROT_READ) != 0)
        fail(__LINE__, "no memory");
    return memory;
}

static void give_back(void)
{
    size_t page = (size_t)sysconf(_SC_PAGESIZE);
    while (lent_count > 0) {
        lent_count--;
        munmap(lents[lent_count].room - page, lents[lent_count].room_length + 2 * page);
    }
}

/* How many bytes a text in hexadecimal stands for; they are put to `to`, unless it is null. */
static size_t from_hex(const char *text, uint8_t *to)
{
    size_t digits = 0;
    for (; *text != 0; text++) {
        if (*text != ' ') {
            unsigned digit = *text <= '9' ? (unsigned)(*text - '0') : (unsigned)(*text - 'A' + 10);
            if (to != NULL)
                to[digits / 2] = (uint8_t)(digits % 2 == 0 ? digit << 4 : (unsigned)to[digits / 2] | digit);
            digits++;
        }
    }
    return digits / 2;
}

/* Bytes that may be written. */
static struct lent bytes_of(const char *text)
{
    struct lent memory = lend(from_hex(text, NULL), 0);
    from_hex(text, memory.bytes);
    return memory;
}

/* An input: these bytes, or so many zeros. */
static struct lent input(const char *text) { return shut(bytes_of(text)); }
static struct lent zeros(size_t length) { return shut(lend(length, 0)); }

/* M with other bytes from an index on. */
static struct lent m_with(size_t at, const char *text)
{
    struct lent memory = bytes_of(M);
    from_hex(text, memory.bytes + at);
    return shut(memory);
}

/* A buffer for an output. */
static struct lent buffer(size_t length) { return lend(length, UNWRITTEN); }

/* An array for so many values, which the next call stores. */
static uint64_t *values(size_t count)
{
    stored = lend(8 * count, UNWRITTEN);
    return (uint64_t *)(void *)stored.bytes;
}

/* ---- What comes back */

struct tally {
    const char *name;
    int good, refused;
};

static struct tally tallies[256];

static void count_answer(void)
{
    struct tally *tally = tallies;
    while (tally->name != NULL && strcmp(tally->name, called) != 0)
        tally++;
    tally->name = called;
    tally->good += number == HIBERNAXO_OK;
    tally->refused += number != HIBERNAXO_OK;
}

static void guards_stand(int line)
{
    for (size_t k = 0; k < lent_count; k++)
        for (size_t i = 0; i < lents[k].room_length; i++) {
            const uint8_t *place = lents[k].room + i;
            if ((place < lents[k].bytes || place >= lents[k].bytes + lents[k].length) && *place != GUARD)
                fail(line, "a byte beside what was lent was written");
        }
}

/* The number and the values of the last call: those wanted, and zeros behind them. */
static void expect(int line, uint32_t wanted_number, const uint64_t *wanted, size_t count)
{
    char what[200];
    const uint64_t *got = (const uint64_t *)(const void *)stored.bytes;
    guards_stand(line);
    if (number != wanted_number) {
        snprintf(what, sizeof what, "number %u, wanted %u", (unsigned)number, (unsigned)wanted_number);
        fail(line, what);
    }
    if (count > stored.length / 8)
        fail(line, "more values are wanted than the header announces");
    for (size_t k = 0; k < stored.length / 8; k++) {
        uint64_t want = k < count ? wanted[k] : 0;
        if (got[k] != want) {
            snprintf(what, sizeof what, "value %u is %llu, wanted %llu", (unsigned)k, (unsigned long long)got[k], (unsigned long long)want);
            fail(line, what);
        }
    }
    count_answer();
}

/* A buffer has these bytes from an index on. */
static void holds(int line, struct lent out, size_t at, const char *text)
{
    uint8_t wanted[256];
    size_t length = from_hex(text, NULL);
    from_hex(text, wanted);
    if (at + length > out.length || memcmp(out.bytes + at, wanted, length) != 0)
        fail(line, "other bytes are written");
}

/* From an index on it is as it was lent. */
static void unwritten(int line, struct lent out, size_t from)
{
    for (size_t k = from; k < out.length; k++)
        if (out.bytes[k] != UNWRITTEN)
            fail(line, "a byte of the buffer changed that had to stay");
}

#define CALL(name, ...) (called = #name, number = name(__VA_ARGS__))
#define EXPECT(number, ...)                                                        \
    do {                                                                           \
        static const uint64_t wanted[] = {__VA_ARGS__};                            \
        expect(__LINE__, number, wanted, sizeof wanted / sizeof *wanted);          \
    } while (0)
/* The buffer begins with these bytes, and those behind them stay. */
#define WRITTEN(out, text) (holds(__LINE__, out, 0, text), unwritten(__LINE__, out, from_hex(text, NULL)))
#define KEPT(out) unwritten(__LINE__, out, 0)
#define HOLDS(out, at, text) holds(__LINE__, out, at, text)

/* ---- The calls, export by export */

static void headers(void)
{
    struct lent s = input(M);
    CALL(hibernaxo_header, s.bytes, s.length, values(HIBERNAXO_HEADER_VALUES));
    EXPECT(HIBERNAXO_OK, 0, 0, 0x80, 7, 5, 56, 100, 0, 24, 0);
    /* P7: option bytes, and the same with a bad one */
    s = input("12000080 00000007 00000005 00000020 00000064 00000000 87060000 000100FF");
    CALL(hibernaxo_header, s.bytes, s.length, values(HIBERNAXO_HEADER_VALUES));
    EXPECT(HIBERNAXO_OK, 0, 2, 0x80, 7, 5, 32, 100, 0, 24, 6);
    s = input("12000080 00000007 00000005 00000020 00000064 00000000 87050000 000100FF");
    CALL(hibernaxo_header, s.bytes, s.length, values(HIBERNAXO_HEADER_VALUES));
    EXPECT(HIBERNAXO_OPTION, 24);
    s = m_with(0, "20"); /* P3 */
    CALL(hibernaxo_header, s.bytes, s.length, values(HIBERNAXO_HEADER_VALUES));
    EXPECT(HIBERNAXO_VERSION, 0);
    s = zeros(0);
    CALL(hibernaxo_header, s.bytes, s.length, values(HIBERNAXO_HEADER_VALUES));
    EXPECT(HIBERNAXO_SHORT, 0);
    s = zeros(LARGEST + 1);
    CALL(hibernaxo_header, s.bytes, s.length, values(HIBERNAXO_HEADER_VALUES));
    EXPECT(HIBERNAXO_LARGE, LARGEST);
}

static void packages(void)
{
    struct lent run = input(PACKAGES);
    CALL(hibernaxo_package, run.bytes, run.length, 0, values(HIBERNAXO_PACKAGE_VALUES));
    EXPECT(HIBERNAXO_OK, 0, 1, 1, 13, 0, 0, 12, 1, 16);
    CALL(hibernaxo_package, run.bytes, run.length, 16, values(HIBERNAXO_PACKAGE_VALUES));
    EXPECT(HIBERNAXO_OK, 0, 1, 2, 16, 0, 10, 28, 4, 32);
    CALL(hibernaxo_package, run.bytes, run.length, 32, values(HIBERNAXO_PACKAGE_VALUES));
    EXPECT(HIBERNAXO_OK, 0, 0, 0, 0, 0, 0, 0, 0, 32);
    CALL(hibernaxo_package, run.bytes, run.length, SIZE_MAX, values(HIBERNAXO_PACKAGE_VALUES));
    EXPECT(HIBERNAXO_OK, 0, 0, 0, 0, 0, 0, 0, 0, SIZE_MAX);
    CALL(hibernaxo_package, run.bytes, run.length, 4, values(HIBERNAXO_PACKAGE_VALUES));
    EXPECT(HIBERNAXO_PACKAGE, 4, 0, 0, 0, 0, 0, 0, 0, 4);
    run = zeros(0);
    CALL(hibernaxo_package, run.bytes, run.length, 0, values(HIBERNAXO_PACKAGE_VALUES));
    EXPECT(HIBERNAXO_OK, 0, 0, 0, 0, 0, 0, 0, 0, 0);
    run = zeros(LARGEST + 1);
    CALL(hibernaxo_package, run.bytes, run.length, 3, values(HIBERNAXO_PACKAGE_VALUES));
    EXPECT(HIBERNAXO_LARGE, LARGEST, 0, 0, 0, 0, 0, 0, 0, 3);
}

static void checks(void)
{
    struct lent s = input(M);
    CALL(hibernaxo_check, s.bytes, s.length, values(HIBERNAXO_CHECK_VALUES));
    EXPECT(HIBERNAXO_OK, 0, 1, 2);
    s = zeros(0);
    CALL(hibernaxo_check, s.bytes, s.length, values(HIBERNAXO_CHECK_VALUES));
    EXPECT(HIBERNAXO_OK, 0, 0, 0);
    s = zeros(23); /* P2 */
    CALL(hibernaxo_check, s.bytes, s.length, values(HIBERNAXO_CHECK_VALUES));
    EXPECT(HIBERNAXO_SHORT, 0);
    s = m_with(1, "01");
    CALL(hibernaxo_check, s.bytes, s.length, values(HIBERNAXO_CHECK_VALUES));
    EXPECT(HIBERNAXO_TYPE, 0);
    s = input("11000080 00000007 00000005 00000018 00000064 00000000"); /* P4 */
    CALL(hibernaxo_check, s.bytes, s.length, values(HIBERNAXO_CHECK_VALUES));
    EXPECT(HIBERNAXO_LENGTH, 0);
    s = m_with(2, "0090");
    CALL(hibernaxo_check, s.bytes, s.length, values(HIBERNAXO_CHECK_VALUES));
    EXPECT(HIBERNAXO_FRAGMENT, 0);
    s = m_with(2, "0000");
    CALL(hibernaxo_check, s.bytes, s.length, values(HIBERNAXO_CHECK_VALUES));
    EXPECT(HIBERNAXO_STANDARD, 0);
    s = m_with(12, "0000003C"); /* P5 */
    CALL(hibernaxo_check, s.bytes, s.length, values(HIBERNAXO_CHECK_VALUES));
    EXPECT(HIBERNAXO_CUT, 0);
    s = m_with(28, "0011"); /* P8 with L = 17 */
    CALL(hibernaxo_check, s.bytes, s.length, values(HIBERNAXO_CHECK_VALUES));
    EXPECT(HIBERNAXO_PACKAGE, 44);
    /* an option that says two packages, as there are; and P7's, which says one */
    s = input("12000080 00000007 00000005 00000040 00000064 00000000 87060000 000200FF"
              "00000001 000D0000 00000000 AA112233 00000002 00105500 0000000A DEADBEEF");
    CALL(hibernaxo_check, s.bytes, s.length, values(HIBERNAXO_CHECK_VALUES));
    EXPECT(HIBERNAXO_OK, 0, 1, 2);
    s = input("12000080 00000007 00000005 00000040 00000064 00000000 87060000 000100FF"
              "00000001 000D0000 00000000 AA112233 00000002 00105500 0000000A DEADBEEF");
    CALL(hibernaxo_check, s.bytes, s.length, values(HIBERNAXO_CHECK_VALUES));
    EXPECT(HIBERNAXO_COUNT, 0);
}

static void writing(void)
{
    struct lent none = zeros(0), options = input("87060000 0002"), miscounted = input("87060000 0001"), run = input(PACKAGES), bad = m_with(28, "000B"), long_run = zeros(61);
    struct lent out = buffer(72);
    CALL(hibernaxo_write, 0x4F, 0x01020304, 0x05060708, 0x090A0B0C, 0x0D0E0F10, options.bytes, options.length, run.bytes, run.length,
         out.bytes, out.length, values(HIBERNAXO_WRITE_VALUES));
    EXPECT(HIBERNAXO_OK, 0, 64);
    WRITTEN(out, "120000CF 01020304 05060708 00000040 090A0B0C 0D0E0F10 87060000 00020000"
                 "00000001 000D0000 00000000 AA000000 00000002 00100000 0000000A DEADBEEF");
    out = buffer(24);
    CALL(hibernaxo_write, 0, 7, 5, 100, 0, none.bytes, none.length, none.bytes, none.length, out.bytes, out.length, values(HIBERNAXO_WRITE_VALUES));
    EXPECT(HIBERNAXO_OK, 0, 24);
    WRITTEN(out, "10000000 00000007 00000005 00000018 00000064 00000000");
    out = buffer(63);
    CALL(hibernaxo_write, 0, 7, 5, 100, 0, options.bytes, options.length, run.bytes, run.length, out.bytes, out.length, values(HIBERNAXO_WRITE_VALUES));
    EXPECT(HIBERNAXO_ROOM, 64);
    KEPT(out);
    out = buffer(0);
    CALL(hibernaxo_write, 0, 7, 5, 100, 0, none.bytes, none.length, run.bytes, run.length, out.bytes, out.length, values(HIBERNAXO_WRITE_VALUES));
    EXPECT(HIBERNAXO_ROOM, 56);
    out = buffer(128);
    CALL(hibernaxo_write, 0, 7, 5, 100, 1000000000, none.bytes, none.length, run.bytes, run.length, out.bytes, out.length, values(HIBERNAXO_WRITE_VALUES));
    EXPECT(HIBERNAXO_TIME, 0);
    CALL(hibernaxo_write, 0, 7, 5, 100, 0, long_run.bytes, long_run.length, run.bytes, run.length, out.bytes, out.length, values(HIBERNAXO_WRITE_VALUES));
    EXPECT(HIBERNAXO_OPTION, 60);
    CALL(hibernaxo_write, 0, 7, 5, 100, 0, none.bytes, none.length, bad.bytes + 24, bad.length - 24, out.bytes, out.length, values(HIBERNAXO_WRITE_VALUES));
    EXPECT(HIBERNAXO_PACKAGE, 0);
    CALL(hibernaxo_write, 0, 7, 5, 100, 0, miscounted.bytes, miscounted.length, run.bytes, run.length, out.bytes, out.length, values(HIBERNAXO_WRITE_VALUES));
    EXPECT(HIBERNAXO_COUNT, 0);
    KEPT(out);
}

static void cleaning(void)
{
    struct lent s = input(M), out = buffer(60);
    CALL(hibernaxo_clean, s.bytes, s.length, out.bytes, out.length, values(HIBERNAXO_CLEAN_VALUES));
    EXPECT(HIBERNAXO_OK, 0, 56);
    WRITTEN(out, CLEAN);
    out = buffer(55);
    CALL(hibernaxo_clean, s.bytes, s.length, out.bytes, out.length, values(HIBERNAXO_CLEAN_VALUES));
    EXPECT(HIBERNAXO_ROOM, 56);
    KEPT(out);
    out = buffer(0);
    CALL(hibernaxo_clean, s.bytes, s.length, out.bytes, out.length, values(HIBERNAXO_CLEAN_VALUES));
    EXPECT(HIBERNAXO_ROOM, 56);
    s = m_with(20, "3B9ACA00"); /* P6 */
    out = buffer(56);
    CALL(hibernaxo_clean, s.bytes, s.length, out.bytes, out.length, values(HIBERNAXO_CLEAN_VALUES));
    EXPECT(HIBERNAXO_TIME, 0);
    KEPT(out);
}

static_assert(2 + HIBERNAXO_ROWS * HIBERNAXO_ROW_VALUES == HIBERNAXO_SHEET_VALUES, "place, number of rows, and the rows");

static void sheets(void)
{
    uint64_t wanted[HIBERNAXO_SHEET_VALUES] = {0, HIBERNAXO_ROWS};
    static const uint64_t row[HIBERNAXO_ROW_VALUES] = {7, 7, 1, 1, 100, 0, 101, 0, 0};
    struct lent sheet = input(R); /* P9 */
    CALL(hibernaxo_sheet, sheet.bytes, sheet.length, values(HIBERNAXO_SHEET_VALUES));
    EXPECT(HIBERNAXO_OK, 0, 1, 7, 7, 1, 1, 100, 0, 101, 0, 0);
    sheet = input(ACQUIRED_R); /* R for acquired data only */
    CALL(hibernaxo_sheet, sheet.bytes, sheet.length, values(HIBERNAXO_SHEET_VALUES));
    EXPECT(HIBERNAXO_OK, 0, 1, 7, 7, 1, 1, 100, 0, 101, 0, 1);
    /* as many rows as a sheet may have, each R */
    sheet = lend(32 * HIBERNAXO_ROWS, 0);
    for (size_t k = 0; k < HIBERNAXO_ROWS; k++) {
        from_hex(R, sheet.bytes + 32 * k);
        memcpy(wanted + 2 + HIBERNAXO_ROW_VALUES * k, row, sizeof row);
    }
    shut(sheet);
    CALL(hibernaxo_sheet, sheet.bytes, sheet.length, values(HIBERNAXO_SHEET_VALUES));
    expect(__LINE__, HIBERNAXO_OK, wanted, HIBERNAXO_SHEET_VALUES);
    sheet = zeros(0);
    CALL(hibernaxo_sheet, sheet.bytes, sheet.length, values(HIBERNAXO_SHEET_VALUES));
    EXPECT(HIBERNAXO_OK, 0, 0);
    sheet = zeros(31);
    CALL(hibernaxo_sheet, sheet.bytes, sheet.length, values(HIBERNAXO_SHEET_VALUES));
    EXPECT(HIBERNAXO_ROW, 31);
    sheet = zeros(32); /* a row whose window ends where it starts */
    CALL(hibernaxo_sheet, sheet.bytes, sheet.length, values(HIBERNAXO_SHEET_VALUES));
    EXPECT(HIBERNAXO_ROW, 0);
    /* a second row from message id 8 to 7 */
    sheet = input("00000007 00000007 00000001 00000001 00000064 00000000 00000194 00000000"
                  "00000008 00000007 00000001 00000001 00000064 00000000 00000194 00000000");
    CALL(hibernaxo_sheet, sheet.bytes, sheet.length, values(HIBERNAXO_SHEET_VALUES));
    EXPECT(HIBERNAXO_ROW, 32);
}

static void copies(void)
{
    struct lent s = input(M), none = zeros(0), sheet = input(R), out = buffer(48);
    CALL(hibernaxo_copy_measure, s.bytes, s.length, sheet.bytes, sheet.length, values(HIBERNAXO_COPY_MEASURE_VALUES));
    EXPECT(HIBERNAXO_OK, 0, 40, 1, 1);
    CALL(hibernaxo_copy_measure, none.bytes, none.length, sheet.bytes, sheet.length, values(HIBERNAXO_COPY_MEASURE_VALUES));
    EXPECT(HIBERNAXO_OK, 0, 0, 0, 0);
    CALL(hibernaxo_copy_measure, s.bytes, s.length, s.bytes, s.length, values(HIBERNAXO_COPY_MEASURE_VALUES));
    EXPECT(HIBERNAXO_ROW, 56);
    CALL(hibernaxo_copy_write, s.bytes, s.length, sheet.bytes, sheet.length, out.bytes, out.length, values(HIBERNAXO_COPY_WRITE_VALUES));
    EXPECT(HIBERNAXO_OK, 0, 40, 1, 1);
    WRITTEN(out, P10);
    out = buffer(39);
    CALL(hibernaxo_copy_write, s.bytes, s.length, sheet.bytes, sheet.length, out.bytes, out.length, values(HIBERNAXO_COPY_WRITE_VALUES));
    EXPECT(HIBERNAXO_ROOM, 40);
    KEPT(out);
    out = buffer(0);
    CALL(hibernaxo_copy_write, s.bytes, s.length, sheet.bytes, sheet.length, out.bytes, out.length, values(HIBERNAXO_COPY_WRITE_VALUES));
    EXPECT(HIBERNAXO_ROOM, 40);
    out = buffer(56);
    CALL(hibernaxo_copy_write, none.bytes, none.length, sheet.bytes, sheet.length, out.bytes, out.length, values(HIBERNAXO_COPY_WRITE_VALUES)); /* P1 */
    EXPECT(HIBERNAXO_OK, 0, 0, 0, 0);
    CALL(hibernaxo_copy_write, s.bytes, s.length, none.bytes, none.length, out.bytes, out.length, values(HIBERNAXO_COPY_WRITE_VALUES));
    EXPECT(HIBERNAXO_OK, 0, 0, 0, 0);
    CALL(hibernaxo_copy_write, s.bytes, s.length, s.bytes, s.length, out.bytes, out.length, values(HIBERNAXO_COPY_WRITE_VALUES));
    EXPECT(HIBERNAXO_ROW, 56);
    KEPT(out);
    /* M, and M with flag bit 3, under R for acquired data only */
    sheet = input(ACQUIRED_R);
    CALL(hibernaxo_copy_measure, s.bytes, s.length, sheet.bytes, sheet.length, values(HIBERNAXO_COPY_MEASURE_VALUES));
    EXPECT(HIBERNAXO_OK, 0, 40, 1, 1);
    s = m_with(3, "88");
    CALL(hibernaxo_copy_measure, s.bytes, s.length, sheet.bytes, sheet.length, values(HIBERNAXO_COPY_MEASURE_VALUES));
    EXPECT(HIBERNAXO_OK, 0, 0, 0, 0);
    CALL(hibernaxo_copy_write, s.bytes, s.length, sheet.bytes, sheet.length, out.bytes, out.length, values(HIBERNAXO_COPY_WRITE_VALUES));
    EXPECT(HIBERNAXO_OK, 0, 0, 0, 0);
    KEPT(out);
}

/* Four messages, worked out by hand: one with a count that loses a package, one that loses its last, one that had none, one that loses
 * nothing; and what is left of them under R, every freed byte zero. */
static const char FOUR[] = "12A05BCF 00000007 00000005 00000040 00000064 00000000 87060000 000200FF"
                           "00000001 000D0000 00000000 AA112233 00000002 00105500 0000000A DEADBEEF"
                           "10000080 00000007 00000006 00000028 00000064 00000000 00000001 000D0000 00000000 AA112233"
                           "13000000 00000007 00000007 00000024 00000064 00000000 0100FFFF FFFFFFFF FFFFFFFF"
                           "10000080 00000008 FFFFFFFF 00000028 00000064 00000000 00000001 000D7703 00000000 AA112233";
static const char LEFT[] = "120000CF 00000007 00000005 00000030 00000064 00000000 87060000 00010000 00000002 00100000 0000000A DEADBEEF"
                           "11000000 00000007 00000007 0000001C 00000064 00000000 01000000"
                           "10000080 00000008 FFFFFFFF 00000028 00000064 00000000 00000001 000D0003 00000000 AA000000";

/* From an index on there are only zeros. */
static void cleared(int line, struct lent out, size_t from)
{
    for (size_t k = from; k < out.length; k++)
        if (out.bytes[k] != 0)
            fail(line, "a freed byte is not zero");
}

#define LEFT_OF(out, text) (holds(__LINE__, out, 0, text), cleared(__LINE__, out, from_hex(text, NULL)))

static void purging(void)
{
    struct lent sheet = input(R), none = zeros(0), bad = zeros(31), buf = bytes_of(FOUR);
    CALL(hibernaxo_purge, buf.bytes, buf.length, sheet.bytes, sheet.length, values(HIBERNAXO_PURGE_VALUES));
    EXPECT(HIBERNAXO_OK, 0, 116);
    LEFT_OF(buf, LEFT);
    /* what is left is a recording, and loses nothing more; appended to, it is one again */
    CALL(hibernaxo_check, buf.bytes, 116, values(HIBERNAXO_CHECK_VALUES));
    EXPECT(HIBERNAXO_OK, 0, 3, 2);
    CALL(hibernaxo_purge, buf.bytes, 116, sheet.bytes, sheet.length, values(HIBERNAXO_PURGE_VALUES));
    EXPECT(HIBERNAXO_OK, 0, 116);
    LEFT_OF(buf, LEFT);
    from_hex(M, buf.bytes + 116);
    CALL(hibernaxo_check, buf.bytes, 116 + 56, values(HIBERNAXO_CHECK_VALUES));
    EXPECT(HIBERNAXO_OK, 0, 4, 4);
    buf = bytes_of(M);
    CALL(hibernaxo_purge, buf.bytes, buf.length, none.bytes, none.length, values(HIBERNAXO_PURGE_VALUES));
    EXPECT(HIBERNAXO_OK, 0, 56);
    LEFT_OF(buf, CLEAN);
    buf = lend(0, 0);
    CALL(hibernaxo_purge, buf.bytes, buf.length, sheet.bytes, sheet.length, values(HIBERNAXO_PURGE_VALUES));
    EXPECT(HIBERNAXO_OK, 0, 0);
    buf = bytes_of(FOUR);
    CALL(hibernaxo_purge, buf.bytes, buf.length, bad.bytes, bad.length, values(HIBERNAXO_PURGE_VALUES));
    EXPECT(HIBERNAXO_ROW, 31);
    HOLDS(buf, 0, FOUR);
    /* a refusal behind packages that are granted */
    CALL(hibernaxo_purge, buf.bytes, buf.length - 4, sheet.bytes, sheet.length, values(HIBERNAXO_PURGE_VALUES));
    EXPECT(HIBERNAXO_CUT, 140);
    HOLDS(buf, 0, FOUR);
    buf = buffer(LARGEST + 1);
    CALL(hibernaxo_purge, buf.bytes, buf.length, sheet.bytes, sheet.length, values(HIBERNAXO_PURGE_VALUES));
    EXPECT(HIBERNAXO_LARGE, LARGEST);
    KEPT(buf);
}

/* A message of two packages with a count, number 2^32 - 1, worked out by hand: its clean form, and its fragments of 12 bytes. */
static const char WHOLE[] = "12A05BCF 00000007 FFFFFFFF 00000040 00000064 00000000 87060000 000200FF"
                            "00000001 000D0000 00000000 AA112233 00000002 00105500 0000000A DEADBEEF";
static const char WHOLE_CLEAN[] = "120000CF 00000007 FFFFFFFF 00000040 00000064 00000000 87060000 00020000"
                                  "00000001 000D0000 00000000 AA000000 00000002 00100000 0000000A DEADBEEF";
static const char FRAGMENTS[] = "130000DF 00000007 FFFFFFFF 00000030 00000064 00000000 87060000 00028606 00000000 00000001 000D0000 00000000"
                                "120000EF 00000007 00000000 0000002C 00000064 00000000 86060000 000C0000 AA000000 00000002 00100000"
                                "120000FF 00000007 00000001 00000028 00000064 00000000 86060000 00180000 0000000A DEADBEEF";

/* The fragments with other bytes from an index on. */
static struct lent fragments_with(size_t at, const char *text)
{
    struct lent s = bytes_of(FRAGMENTS);
    from_hex(text, s.bytes + at);
    return shut(s);
}

static void cutting(void)
{
    struct lent whole = input(WHOLE), nothing = zeros(0), large = zeros(LARGEST + 1), out = buffer(140);
    CALL(hibernaxo_cut, whole.bytes, whole.length, 12, out.bytes, out.length, values(HIBERNAXO_CUT_VALUES));
    EXPECT(HIBERNAXO_OK, 0, 132, 3);
    WRITTEN(out, FRAGMENTS);
    out = buffer(70);
    CALL(hibernaxo_cut, whole.bytes, whole.length, 32, out.bytes, out.length, values(HIBERNAXO_CUT_VALUES));
    EXPECT(HIBERNAXO_OK, 0, 64, 1);
    WRITTEN(out, WHOLE_CLEAN);
    out = buffer(131);
    CALL(hibernaxo_cut, whole.bytes, whole.length, 12, out.bytes, out.length, values(HIBERNAXO_CUT_VALUES));
    EXPECT(HIBERNAXO_ROOM, 132);
    CALL(hibernaxo_cut, whole.bytes, whole.length, 10, out.bytes, out.length, values(HIBERNAXO_CUT_VALUES));
    EXPECT(HIBERNAXO_LENGTH, 0);
    CALL(hibernaxo_cut, whole.bytes, whole.length, 0, out.bytes, out.length, values(HIBERNAXO_CUT_VALUES));
    EXPECT(HIBERNAXO_LENGTH, 0);
    CALL(hibernaxo_cut, nothing.bytes, nothing.length, 12, out.bytes, out.length, values(HIBERNAXO_CUT_VALUES));
    EXPECT(HIBERNAXO_SHORT, 0);
    CALL(hibernaxo_cut, large.bytes, large.length, 12, out.bytes, out.length, values(HIBERNAXO_CUT_VALUES));
    EXPECT(HIBERNAXO_LARGE, LARGEST);
    /* 0x86 behind an option of one byte, in a message that fits */
    struct lent offset = input("12000080 00000007 00000005 00000030 00000064 00000000 01860600 00000000 00000001 00100000 00000000 00000000");
    CALL(hibernaxo_cut, offset.bytes, offset.length, 16, out.bytes, out.length, values(HIBERNAXO_CUT_VALUES));
    EXPECT(HIBERNAXO_OPTION, 25);
    KEPT(out);
}

static void joining(void)
{
    struct lent s = input(FRAGMENTS), whole = input(WHOLE), nothing = zeros(0), large = zeros(LARGEST + 1), out = buffer(70);
    CALL(hibernaxo_join, s.bytes, s.length, out.bytes, out.length, values(HIBERNAXO_JOIN_VALUES));
    EXPECT(HIBERNAXO_OK, 0, 64);
    WRITTEN(out, WHOLE_CLEAN);
    out = buffer(64);
    CALL(hibernaxo_join, whole.bytes, whole.length, out.bytes, out.length, values(HIBERNAXO_JOIN_VALUES));
    EXPECT(HIBERNAXO_OK, 0, 64);
    WRITTEN(out, WHOLE_CLEAN);
    out = buffer(63);
    CALL(hibernaxo_join, s.bytes, s.length, out.bytes, out.length, values(HIBERNAXO_JOIN_VALUES));
    EXPECT(HIBERNAXO_ROOM, 64);
    /* the first missing, the last missing, nothing at all */
    CALL(hibernaxo_join, s.bytes + 48, s.length - 48, out.bytes, out.length, values(HIBERNAXO_JOIN_VALUES));
    EXPECT(HIBERNAXO_GAP, 0);
    CALL(hibernaxo_join, s.bytes, 92, out.bytes, out.length, values(HIBERNAXO_JOIN_VALUES));
    EXPECT(HIBERNAXO_GAP, 92);
    CALL(hibernaxo_join, nothing.bytes, nothing.length, out.bytes, out.length, values(HIBERNAXO_JOIN_VALUES));
    EXPECT(HIBERNAXO_GAP, 0);
    /* another id, another number, an offset in words, and the end inside a fragment */
    s = fragments_with(52, "00000008");
    CALL(hibernaxo_join, s.bytes, s.length, out.bytes, out.length, values(HIBERNAXO_JOIN_VALUES));
    EXPECT(HIBERNAXO_GAP, 48);
    s = fragments_with(100, "00000002");
    CALL(hibernaxo_join, s.bytes, s.length, out.bytes, out.length, values(HIBERNAXO_JOIN_VALUES));
    EXPECT(HIBERNAXO_GAP, 92);
    s = fragments_with(76, "00030000");
    CALL(hibernaxo_join, s.bytes, s.length, out.bytes, out.length, values(HIBERNAXO_JOIN_VALUES));
    EXPECT(HIBERNAXO_GAP, 48);
    CALL(hibernaxo_join, s.bytes, 47, out.bytes, out.length, values(HIBERNAXO_JOIN_VALUES));
    EXPECT(HIBERNAXO_CUT, 0);
    /* a bad package, and a count of three */
    s = fragments_with(40, "000B0000");
    CALL(hibernaxo_join, s.bytes, s.length, out.bytes, out.length, values(HIBERNAXO_JOIN_VALUES));
    EXPECT(HIBERNAXO_PACKAGE, 0);
    s = fragments_with(28, "00038606");
    CALL(hibernaxo_join, s.bytes, s.length, out.bytes, out.length, values(HIBERNAXO_JOIN_VALUES));
    EXPECT(HIBERNAXO_COUNT, 0);
    CALL(hibernaxo_join, large.bytes, large.length, out.bytes, out.length, values(HIBERNAXO_JOIN_VALUES));
    EXPECT(HIBERNAXO_LARGE, LARGEST);
    KEPT(out);
}

/* A state with so many ids held, and these first two with their next numbers; zero in the other places. */
static struct lent state_of(uint32_t held, uint32_t first, uint32_t first_next, uint32_t second, uint32_t second_next)
{
    struct lent memory = lend(4 * HIBERNAXO_STEP_STATE, 0);
    uint32_t *places = (uint32_t *)(void *)memory.bytes;
    places[HIBERNAXO_STATE_HELD] = held;
    places[HIBERNAXO_STATE_IDS] = first;
    places[HIBERNAXO_STATE_IDS + 1] = second;
    places[HIBERNAXO_STATE_NEXT] = first_next;
    places[HIBERNAXO_STATE_NEXT + 1] = second_next;
    return memory;
}

static void same_state(int line, struct lent state, struct lent wanted)
{
    if (memcmp(state.bytes, wanted.bytes, 4 * HIBERNAXO_STEP_STATE) != 0)
        fail(line, "another state is left");
}

#define STATE(state) ((uint32_t *)(void *)(state).bytes)
#define STAYS(state, held, id, next, second, second_next) same_state(__LINE__, state, state_of(held, id, next, second, second_next))

/* Document 02, A10: M under R, step by step. */
static void steps(void)
{
    struct lent s = input(M), none = zeros(0), sheet = input(R), out = buffer(48), junk = zeros(1), large = zeros(LARGEST + 1), full;
    struct lent state = state_of(0, 0, 0, 0, 0);
    CALL(hibernaxo_step, s.bytes, s.length, sheet.bytes, sheet.length, 1, STATE(state), out.bytes, out.length, values(HIBERNAXO_STEP_VALUES));
    EXPECT(HIBERNAXO_OK, 0, 1, 56, 40, 1, 1);
    WRITTEN(out, P10);
    STAYS(state, 1, 7, 1, 0, 0);
    out = buffer(40);
    CALL(hibernaxo_step, s.bytes, s.length, sheet.bytes, sheet.length, 9, STATE(state), out.bytes, out.length, values(HIBERNAXO_STEP_VALUES));
    EXPECT(HIBERNAXO_OK, 0, 1, 56, 40, 1, 1);
    HOLDS(out, 0, "100000C0 00000007 00000001 00000028");
    STAYS(state, 1, 7, 2, 0, 0);
    /* the last number and the one behind it; unused places stay */
    state = state_of(1, 7, 0xFFFFFFFF, 9, 5);
    CALL(hibernaxo_step, s.bytes, s.length, sheet.bytes, sheet.length, 1, STATE(state), out.bytes, out.length, values(HIBERNAXO_STEP_VALUES));
    EXPECT(HIBERNAXO_OK, 0, 1, 56, 40, 1, 1);
    HOLDS(out, 0, "100000C0 00000007 FFFFFFFF 00000028");
    STAYS(state, 1, 7, 0, 9, 5);
    /* quota 0: nothing, whatever the input holds; but it is not too long */
    out = buffer(39);
    CALL(hibernaxo_step, junk.bytes, junk.length, sheet.bytes, sheet.length, 0, STATE(state), out.bytes, out.length, values(HIBERNAXO_STEP_VALUES));
    EXPECT(HIBERNAXO_OK, 0, 0, 0, 0, 0, 0);
    CALL(hibernaxo_step, large.bytes, large.length, sheet.bytes, sheet.length, 0, STATE(state), out.bytes, out.length, values(HIBERNAXO_STEP_VALUES));
    EXPECT(HIBERNAXO_LARGE, LARGEST);
    /* refused: the state and the buffer stay */
    CALL(hibernaxo_step, s.bytes, s.length, sheet.bytes, sheet.length, 1, STATE(state), out.bytes, out.length, values(HIBERNAXO_STEP_VALUES));
    EXPECT(HIBERNAXO_ROOM, 40);
    CALL(hibernaxo_step, junk.bytes, junk.length, sheet.bytes, sheet.length, 1, STATE(state), out.bytes, out.length, values(HIBERNAXO_STEP_VALUES));
    EXPECT(HIBERNAXO_SHORT, 0);
    CALL(hibernaxo_step, s.bytes, s.length, s.bytes, s.length, 1, STATE(state), out.bytes, out.length, values(HIBERNAXO_STEP_VALUES));
    EXPECT(HIBERNAXO_ROW, 56);
    STAYS(state, 1, 7, 0, 9, 5);
    /* a full state: no place for id 7, and nothing to deliver under no sheet */
    full = state_of(64, 100, 0, 0, 0);
    for (uint32_t k = 0; k < HIBERNAXO_STATE_PLACES; k++)
        STATE(full)[HIBERNAXO_STATE_IDS + k] = 100 + k;
    CALL(hibernaxo_step, s.bytes, s.length, sheet.bytes, sheet.length, 1, STATE(full), out.bytes, out.length, values(HIBERNAXO_STEP_VALUES));
    EXPECT(HIBERNAXO_IDS, 0);
    CALL(hibernaxo_step, s.bytes, s.length, none.bytes, none.length, 1, STATE(full), out.bytes, out.length, values(HIBERNAXO_STEP_VALUES));
    EXPECT(HIBERNAXO_OK, 0, 1, 56, 0, 0, 0);
    /* states that cannot be */
    state = state_of(2, 7, 0, 7, 0);
    CALL(hibernaxo_step, none.bytes, none.length, sheet.bytes, sheet.length, 1, STATE(state), out.bytes, out.length, values(HIBERNAXO_STEP_VALUES));
    EXPECT(HIBERNAXO_IDS, 0);
    STAYS(state, 2, 7, 0, 7, 0);
    state = state_of(0xFFFFFFFF, 7, 3, 8, 4);
    CALL(hibernaxo_step, none.bytes, none.length, sheet.bytes, sheet.length, 1, STATE(state), out.bytes, out.length, values(HIBERNAXO_STEP_VALUES));
    EXPECT(HIBERNAXO_IDS, 0);
    STAYS(state, 0xFFFFFFFF, 7, 3, 8, 4);
    KEPT(out);
}

static void randomizing(void)
{
    struct lent buf = lend(769, 0); /* P12, by the bytes of zeros that were randomized */
    CALL(hibernaxo_randomize, buf.bytes, buf.length, values(HIBERNAXO_RANDOMIZE_VALUES));
    EXPECT(HIBERNAXO_OK, 0);
    HOLDS(buf, 0, "FF480EC09A");
    HOLDS(buf, 255, "FF");
    HOLDS(buf, 768, "C0");
    buf = lend(0, 0);
    CALL(hibernaxo_randomize, buf.bytes, buf.length, values(HIBERNAXO_RANDOMIZE_VALUES));
    EXPECT(HIBERNAXO_OK, 0);
    buf = buffer(LARGEST + 1);
    CALL(hibernaxo_randomize, buf.bytes, buf.length, values(HIBERNAXO_RANDOMIZE_VALUES));
    EXPECT(HIBERNAXO_LARGE, LARGEST);
    KEPT(buf);
}

static void bursts(void)
{
    struct lent buf = lend(8 + 2 * 768, 0);
    from_hex(MARKER, buf.bytes);
    CALL(hibernaxo_open_burst, buf.bytes, buf.length, values(HIBERNAXO_OPEN_BURST_VALUES));
    EXPECT(HIBERNAXO_OK, 0, 2);
    HOLDS(buf, 0, "0347 76C7 2728 95B0 FF480EC09A");
    HOLDS(buf, 8 + 768, "C0");
    buf = bytes_of(MARKER);
    CALL(hibernaxo_open_burst, buf.bytes, buf.length, values(HIBERNAXO_OPEN_BURST_VALUES));
    EXPECT(HIBERNAXO_BLOCKS, 8);
    HOLDS(buf, 0, MARKER);
    buf = buffer(7);
    CALL(hibernaxo_open_burst, buf.bytes, buf.length, values(HIBERNAXO_OPEN_BURST_VALUES));
    EXPECT(HIBERNAXO_MARKER, 0);
    KEPT(buf);
    buf = buffer(LARGEST + 1);
    CALL(hibernaxo_open_burst, buf.bytes, buf.length, values(HIBERNAXO_OPEN_BURST_VALUES));
    EXPECT(HIBERNAXO_LARGE, LARGEST);
    KEPT(buf);
}

/* An input of text, and a buffer that begins with a text. */
static struct lent line_of(const char *text)
{
    struct lent memory = lend(strlen(text), 0);
    memcpy(memory.bytes, text, memory.length);
    return shut(memory);
}

static void line_written(int at, struct lent out, const char *text)
{
    if (strlen(text) > out.length || memcmp(out.bytes, text, strlen(text)) != 0)
        fail(at, "another line is written");
    unwritten(at, out, strlen(text));
}

static_assert(2 + 2 * HIBERNAXO_ID_RANGES == HIBERNAXO_READ_IDS_VALUES, "place, number of ranges, and the ranges");
static_assert(2 * HIBERNAXO_ID_RANGES == HIBERNAXO_WRITE_IDS_ENDS, "first and last of each range");

static void reading_ids(void)
{
    uint64_t wanted[HIBERNAXO_READ_IDS_VALUES] = {0, HIBERNAXO_ID_RANGES};
    char many[2 * HIBERNAXO_ID_RANGES + 4] = "";
    struct lent line = line_of("7-9,12");
    CALL(hibernaxo_read_ids, line.bytes, line.length, values(HIBERNAXO_READ_IDS_VALUES));
    EXPECT(HIBERNAXO_OK, 0, 2, 7, 9, 12, 12);
    line = line_of("0-4294967295,0000000007,8-8");
    CALL(hibernaxo_read_ids, line.bytes, line.length, values(HIBERNAXO_READ_IDS_VALUES));
    EXPECT(HIBERNAXO_OK, 0, 3, 0, 4294967295, 7, 7, 8, 8);
    /* as many items as a line may have, and one more */
    for (size_t k = 0; k < HIBERNAXO_ID_RANGES; k++) {
        strcat(many, "5,");
        wanted[2 + 2 * k] = wanted[3 + 2 * k] = 5;
    }
    line = line_of(many);
    CALL(hibernaxo_read_ids, line.bytes, line.length - 1, values(HIBERNAXO_READ_IDS_VALUES));
    expect(__LINE__, HIBERNAXO_OK, wanted, HIBERNAXO_READ_IDS_VALUES);
    line = line_of(strcat(many, "5"));
    CALL(hibernaxo_read_ids, line.bytes, line.length, values(HIBERNAXO_READ_IDS_VALUES));
    EXPECT(HIBERNAXO_TEXT, 64);
    /* a byte that breaks the form, and lines that stop too soon */
    line = line_of("7-9, 12");
    CALL(hibernaxo_read_ids, line.bytes, line.length, values(HIBERNAXO_READ_IDS_VALUES));
    EXPECT(HIBERNAXO_TEXT, 4);
    line = line_of("12345678901");
    CALL(hibernaxo_read_ids, line.bytes, line.length, values(HIBERNAXO_READ_IDS_VALUES));
    EXPECT(HIBERNAXO_TEXT, 10);
    line = line_of("7-9,");
    CALL(hibernaxo_read_ids, line.bytes, line.length, values(HIBERNAXO_READ_IDS_VALUES));
    EXPECT(HIBERNAXO_TEXT, 4);
    line = line_of("");
    CALL(hibernaxo_read_ids, line.bytes, line.length, values(HIBERNAXO_READ_IDS_VALUES));
    EXPECT(HIBERNAXO_TEXT, 0);
    /* an item with an id too large, and an inverted one */
    line = line_of("5,3-4294967296");
    CALL(hibernaxo_read_ids, line.bytes, line.length, values(HIBERNAXO_READ_IDS_VALUES));
    EXPECT(HIBERNAXO_TEXT, 2);
    line = line_of("5,9-7");
    CALL(hibernaxo_read_ids, line.bytes, line.length, values(HIBERNAXO_READ_IDS_VALUES));
    EXPECT(HIBERNAXO_TEXT, 2);
    line = zeros(LARGEST + 1);
    CALL(hibernaxo_read_ids, line.bytes, line.length, values(HIBERNAXO_READ_IDS_VALUES));
    EXPECT(HIBERNAXO_LARGE, LARGEST);
}

/* 32 ranges, which begin with two given ones and are 5 to 5 from then on. */
static const uint32_t *ranges_of(uint32_t a, uint32_t b, uint32_t c, uint32_t d)
{
    struct lent memory = lend(4 * HIBERNAXO_WRITE_IDS_ENDS, 0);
    uint32_t *ends = (uint32_t *)(void *)memory.bytes;
    for (size_t k = 0; k < HIBERNAXO_WRITE_IDS_ENDS; k++)
        ends[k] = 5;
    ends[0] = a, ends[1] = b, ends[2] = c, ends[3] = d;
    return (const uint32_t *)(const void *)shut(memory).bytes;
}

static void writing_ids(void)
{
    struct lent out = buffer(8);
    const uint32_t *ends = ranges_of(7, 9, 12, 12);
    CALL(hibernaxo_write_ids, ends, 2, out.bytes, out.length, values(HIBERNAXO_WRITE_IDS_VALUES));
    EXPECT(HIBERNAXO_OK, 0, 6);
    line_written(__LINE__, out, "7-9,12");
    out = buffer(5);
    CALL(hibernaxo_write_ids, ends, 2, out.bytes, out.length, values(HIBERNAXO_WRITE_IDS_VALUES));
    EXPECT(HIBERNAXO_ROOM, 6);
    KEPT(out);
    out = buffer(0);
    CALL(hibernaxo_write_ids, ends, 32, out.bytes, out.length, values(HIBERNAXO_WRITE_IDS_VALUES));
    EXPECT(HIBERNAXO_ROOM, 66);
    out = buffer(703);
    CALL(hibernaxo_write_ids, ends, 0, out.bytes, out.length, values(HIBERNAXO_WRITE_IDS_VALUES));
    EXPECT(HIBERNAXO_TEXT, 0);
    CALL(hibernaxo_write_ids, ends, 33, out.bytes, out.length, values(HIBERNAXO_WRITE_IDS_VALUES));
    EXPECT(HIBERNAXO_TEXT, 32);
    CALL(hibernaxo_write_ids, ends, SIZE_MAX, out.bytes, out.length, values(HIBERNAXO_WRITE_IDS_VALUES));
    EXPECT(HIBERNAXO_TEXT, 32);
    KEPT(out);
    ends = ranges_of(0, 4294967295, 3, 2);
    CALL(hibernaxo_write_ids, ends, 33, out.bytes, out.length, values(HIBERNAXO_WRITE_IDS_VALUES));
    EXPECT(HIBERNAXO_TEXT, 1);
    KEPT(out);
    CALL(hibernaxo_write_ids, ends, 1, out.bytes, out.length, values(HIBERNAXO_WRITE_IDS_VALUES));
    EXPECT(HIBERNAXO_OK, 0, 12);
    line_written(__LINE__, out, "0-4294967295");
}

static_assert(4 + 2 * HIBERNAXO_STRETCHES == HIBERNAXO_SALVAGE_VALUES, "place, bytes, messages, number of stretches, and the stretches");

/* A message without payload, 24 bytes. */
static const char EMPTY[] = "10000000 00000007 00000005 00000018 00000064 00000000";

/* So many times 4 zeros, each with a message without payload behind it. */
static struct lent holes(size_t count)
{
    struct lent s = lend(28 * count, 0);
    for (size_t k = 0; k < count; k++)
        from_hex(EMPTY, s.bytes + 28 * k + 4);
    return shut(s);
}

/* The slowest recording that is known (docs/SPEED.md): half of its first words are headers, each with a first package that leads behind them all;
 * from there on a third are, over one run of packages of 12 bytes. Every header has a length to the end, where the run is cut. */
static struct lent slowest(void)
{
    static const uint32_t front[6] = {0x10000080, 0x15000080, 0x14000080}, behind[6] = {0x10000080, 0x000C0000, 0x11000080, 0, 0x000C0000, 0};
    struct lent s = lend(LARGEST, 0);
    for (size_t k = 0; k < LARGEST / 4; k++) {
        uint32_t word = (k < 3600 ? front : behind)[k % 6];
        if (word == 0)
            word = (uint32_t)(LARGEST - 4 * (k - 3));
        for (size_t b = 0; b < 4; b++)
            s.bytes[4 * k + b] = (uint8_t)(word >> (24 - 8 * b));
    }
    return shut(s);
}

static void salvages(void)
{
    uint64_t wanted[HIBERNAXO_SALVAGE_VALUES] = {0, 24 * HIBERNAXO_STRETCHES, HIBERNAXO_STRETCHES, HIBERNAXO_STRETCHES};
    /* M, kept as it is, behind 4 bytes and with 2 bytes behind it */
    struct lent s = input("DEADBEEF 10000080 00000007 00000005 00000038 00000064 00000000"
                          "00000001 000D0000 00000000 AA112233 00000002 00105500 0000000A DEADBEEF 1000"),
                out = buffer(60);
    CALL(hibernaxo_salvage, s.bytes, s.length, out.bytes, out.length, values(HIBERNAXO_SALVAGE_VALUES));
    EXPECT(HIBERNAXO_OK, 0, 56, 1, 2, 0, 4, 60, 2);
    WRITTEN(out, M);
    out = buffer(55);
    CALL(hibernaxo_salvage, s.bytes, s.length, out.bytes, out.length, values(HIBERNAXO_SALVAGE_VALUES));
    EXPECT(HIBERNAXO_ROOM, 56);
    KEPT(out);
    s = input(M); /* a recording that passes */
    out = buffer(56);
    CALL(hibernaxo_salvage, s.bytes, s.length, out.bytes, out.length, values(HIBERNAXO_SALVAGE_VALUES));
    EXPECT(HIBERNAXO_OK, 0, 56, 1, 0);
    WRITTEN(out, M);
    s = m_with(28, "0011"); /* P8 with L = 17: nothing is kept */
    out = buffer(56);
    CALL(hibernaxo_salvage, s.bytes, s.length, out.bytes, out.length, values(HIBERNAXO_SALVAGE_VALUES));
    EXPECT(HIBERNAXO_OK, 0, 0, 0, 1, 0, 56);
    KEPT(out);
    s = zeros(0);
    CALL(hibernaxo_salvage, s.bytes, s.length, out.bytes, 0, values(HIBERNAXO_SALVAGE_VALUES));
    EXPECT(HIBERNAXO_OK, 0, 0, 0, 0);
    s = slowest();
    CALL(hibernaxo_salvage, s.bytes, s.length, out.bytes, 0, values(HIBERNAXO_SALVAGE_VALUES));
    EXPECT(HIBERNAXO_OK, 0, 0, 0, 1, 0, LARGEST);
    s = zeros(LARGEST + 1);
    CALL(hibernaxo_salvage, s.bytes, s.length, out.bytes, out.length, values(HIBERNAXO_SALVAGE_VALUES));
    EXPECT(HIBERNAXO_LARGE, LARGEST);
    KEPT(out);
    /* as many stretches as are reported, and one more, which is found before the buffer is too short */
    for (size_t k = 0; k < HIBERNAXO_STRETCHES; k++) {
        wanted[4 + 2 * k] = 28 * k;
        wanted[5 + 2 * k] = 4;
    }
    s = holes(HIBERNAXO_STRETCHES);
    out = buffer(24 * HIBERNAXO_STRETCHES);
    CALL(hibernaxo_salvage, s.bytes, s.length, out.bytes, out.length, values(HIBERNAXO_SALVAGE_VALUES));
    expect(__LINE__, HIBERNAXO_OK, wanted, HIBERNAXO_SALVAGE_VALUES);
    HOLDS(out, 24 * (HIBERNAXO_STRETCHES - 1), EMPTY);
    s = holes(HIBERNAXO_STRETCHES + 1);
    out = buffer(0);
    CALL(hibernaxo_salvage, s.bytes, s.length, out.bytes, out.length, values(HIBERNAXO_SALVAGE_VALUES));
    EXPECT(HIBERNAXO_HOLES, 28 * HIBERNAXO_STRETCHES);
}

/* A capture file of CLEAN to port 1234 hex, worked out from the layouts that document 02 names. The IP header's halves add up to 4565 hex. */
#define FILE_HEADER "A1B2C3D4 00020004 00000000 00000000 0001000D 00000001"
#define FRAME_HEADERS "0000 0000 0000 0000 0000 0000 0800 4500 0054 0000 0000 0011 BA9A 0000 0000 0000 0000 0000 1234 0040 0000"
static const char CAPTURED[] = FILE_HEADER "00000064 00000000 00000062 00000062" FRAME_HEADERS
                               "10000080 00000007 00000005 00000038 00000064 00000000"
                               "00000001 000D0000 00000000 AA000000 00000002 00100000 0000000A DEADBEEF";
enum { FILE_BYTES = 24, RECORD_BYTES = 16, CAPTURED_BYTES = 24 + 16 + 42 + 56, TYPE_AT = 24 + 16 + 12, ORIGINAL_AT = 24 + 12 };

static struct lent captured_with(size_t at, const char *text)
{
    struct lent memory = bytes_of(CAPTURED);
    from_hex(text, memory.bytes + at);
    return shut(memory);
}

static void reading_captures(void)
{
    struct lent file = input(CAPTURED), out = buffer(60);
    CALL(hibernaxo_read_capture, file.bytes, file.length, 0x1234, out.bytes, out.length, values(HIBERNAXO_READ_CAPTURE_VALUES));
    EXPECT(HIBERNAXO_OK, 0, 56, 1, 0, 0, 0);
    WRITTEN(out, CLEAN);
    /* a packet under each of the other counts: another port, another type; more on the wire than was captured; a message of version 2 */
    out = buffer(56);
    CALL(hibernaxo_read_capture, file.bytes, file.length, 0x3412, out.bytes, out.length, values(HIBERNAXO_READ_CAPTURE_VALUES));
    EXPECT(HIBERNAXO_OK, 0, 0, 0, 1, 0, 0);
    file = captured_with(TYPE_AT, "8100");
    CALL(hibernaxo_read_capture, file.bytes, file.length, 0x1234, out.bytes, out.length, values(HIBERNAXO_READ_CAPTURE_VALUES));
    EXPECT(HIBERNAXO_OK, 0, 0, 0, 1, 0, 0);
    file = captured_with(ORIGINAL_AT, "00000063");
    CALL(hibernaxo_read_capture, file.bytes, file.length, 0x1234, out.bytes, out.length, values(HIBERNAXO_READ_CAPTURE_VALUES));
    EXPECT(HIBERNAXO_OK, 0, 0, 0, 0, 1, 0);
    file = captured_with(CAPTURED_BYTES - 56, "20");
    CALL(hibernaxo_read_capture, file.bytes, file.length, 0x1234, out.bytes, out.length, values(HIBERNAXO_READ_CAPTURE_VALUES));
    EXPECT(HIBERNAXO_OK, 0, 0, 0, 0, 0, 1);
    KEPT(out);
    /* the other byte order, without a packet */
    file = input("D4C3B2A1 02000400 00000000 00000000 0D000100 01000000");
    CALL(hibernaxo_read_capture, file.bytes, file.length, 0x1234, out.bytes, out.length, values(HIBERNAXO_READ_CAPTURE_VALUES));
    EXPECT(HIBERNAXO_OK, 0, 0, 0, 0, 0, 0);
    /* no file header, one of nanoseconds, a record that the end cuts in its header and behind it, a file too long, no room */
    CALL(hibernaxo_read_capture, file.bytes, FILE_BYTES - 1, 0x1234, out.bytes, out.length, values(HIBERNAXO_READ_CAPTURE_VALUES));
    EXPECT(HIBERNAXO_CAPTURE, 0);
    file = captured_with(0, "A1B23C4D");
    CALL(hibernaxo_read_capture, file.bytes, file.length, 0x1234, out.bytes, out.length, values(HIBERNAXO_READ_CAPTURE_VALUES));
    EXPECT(HIBERNAXO_CAPTURE, 0);
    file = input(CAPTURED);
    CALL(hibernaxo_read_capture, file.bytes, FILE_BYTES + RECORD_BYTES - 1, 0x1234, out.bytes, out.length, values(HIBERNAXO_READ_CAPTURE_VALUES));
    EXPECT(HIBERNAXO_CAPTURE, FILE_BYTES);
    CALL(hibernaxo_read_capture, file.bytes, CAPTURED_BYTES - 1, 0x1234, out.bytes, out.length, values(HIBERNAXO_READ_CAPTURE_VALUES));
    EXPECT(HIBERNAXO_CAPTURE, FILE_BYTES);
    KEPT(out);
    out = buffer(55);
    CALL(hibernaxo_read_capture, file.bytes, file.length, 0x1234, out.bytes, out.length, values(HIBERNAXO_READ_CAPTURE_VALUES));
    EXPECT(HIBERNAXO_ROOM, 56);
    file = zeros(LARGEST + 1);
    CALL(hibernaxo_read_capture, file.bytes, file.length, 0x1234, out.bytes, out.length, values(HIBERNAXO_READ_CAPTURE_VALUES));
    EXPECT(HIBERNAXO_LARGE, LARGEST);
    KEPT(out);
}

/* A message of so many bytes with one package, which fills it. */
static struct lent filled(size_t length)
{
    struct lent memory = lend(length, 0);
    from_hex("10000080 00000007 00000005 00000000 00000064 00000000 00000001 00000000", memory.bytes);
    memory.bytes[14] = (uint8_t)(length / 256), memory.bytes[15] = (uint8_t)length;
    memory.bytes[28] = (uint8_t)((length - 24) / 256), memory.bytes[29] = (uint8_t)(length - 24);
    return shut(memory);
}

static void writing_captures(void)
{
    struct lent s = input(M), out = buffer(CAPTURED_BYTES + 2), large;
    CALL(hibernaxo_write_capture, s.bytes, s.length, 0x1234, out.bytes, out.length, values(HIBERNAXO_WRITE_CAPTURE_VALUES));
    EXPECT(HIBERNAXO_OK, 0, CAPTURED_BYTES, 1);
    WRITTEN(out, CAPTURED);
    out = buffer(FILE_BYTES);
    CALL(hibernaxo_write_capture, s.bytes, 0, 0x1234, out.bytes, out.length, values(HIBERNAXO_WRITE_CAPTURE_VALUES));
    EXPECT(HIBERNAXO_OK, 0, FILE_BYTES, 0);
    WRITTEN(out, FILE_HEADER);
    /* microseconds are rounded down */
    s = m_with(20, "3B9AC9FF");
    out = buffer(CAPTURED_BYTES);
    CALL(hibernaxo_write_capture, s.bytes, s.length, 0x1234, out.bytes, out.length, values(HIBERNAXO_WRITE_CAPTURE_VALUES));
    EXPECT(HIBERNAXO_OK, 0, CAPTURED_BYTES, 1);
    HOLDS(out, FILE_BYTES, "00000064 000F423F 00000062 00000062");
    /* refused: a check, a recording too long, no room; and a message that a datagram holds, and one that none does */
    out = buffer(CAPTURED_BYTES - 1);
    CALL(hibernaxo_write_capture, s.bytes, s.length, 0x1234, out.bytes, out.length, values(HIBERNAXO_WRITE_CAPTURE_VALUES));
    EXPECT(HIBERNAXO_ROOM, CAPTURED_BYTES);
    s = m_with(0, "20");
    CALL(hibernaxo_write_capture, s.bytes, s.length, 0x1234, out.bytes, out.length, values(HIBERNAXO_WRITE_CAPTURE_VALUES));
    EXPECT(HIBERNAXO_VERSION, 0);
    large = zeros(LARGEST + 1);
    CALL(hibernaxo_write_capture, large.bytes, large.length, 0x1234, out.bytes, out.length, values(HIBERNAXO_WRITE_CAPTURE_VALUES));
    EXPECT(HIBERNAXO_LARGE, LARGEST);
    large = filled(65504);
    CALL(hibernaxo_write_capture, large.bytes, large.length, 0x1234, out.bytes, out.length, values(HIBERNAXO_WRITE_CAPTURE_VALUES));
    EXPECT(HIBERNAXO_ROOM, 24 + 16 + 42 + 65504);
    large = filled(65508);
    CALL(hibernaxo_write_capture, large.bytes, large.length, 0x1234, out.bytes, out.length, values(HIBERNAXO_WRITE_CAPTURE_VALUES));
    EXPECT(HIBERNAXO_LARGE, 0);
    KEPT(out);
}

/* A radio message with a TLV of each type, worked out by hand from the tables of 24.3 of source document 000: its header and its TLVs, which
 * stand at 10, 23, 27 and 38, with every reserved bit set, and the TLVs with those that are reserved zero. */
static const char HEAD[] = "003F 1234 5678 00000007";
static const char TXOP[] = "010D 2328 80 0102 05 30D40F423F";
static const char HEARTBEAT[] = "0504 FFFE";
static const char METRIC[] = "060B 03FF423F 2329 C4 80 03";
static const char REPORT[] = "0A1B 2A014345 00000011 00 0001 0002 0003 0004 0005 0006 0007 0008";
static const char RADIO[] = "003F 1234 5678 00000007 010D 2328 80 0102 05 30D40F423F 0504 FFFE 060B FFFF423F 2329 C4 80 03"
                            "0A1B EAF14345 00000011 00 0001 0002 0003 0004 0005 0006 0007 0008";

/* The message with other bytes from an index on. */
static struct lent radio_with(size_t at, const char *text)
{
    struct lent memory = bytes_of(RADIO);
    from_hex(text, memory.bytes + at);
    return shut(memory);
}

static void refuse_radio(int line, struct lent message, uint64_t place)
{
    const uint64_t wanted[] = {place};
    CALL(hibernaxo_read_radio, message.bytes, message.length, values(HIBERNAXO_READ_RADIO_VALUES));
    expect(line, HIBERNAXO_RADIO, wanted, 1);
}

static void reading_radio(void)
{
    struct lent message = input(RADIO);
    CALL(hibernaxo_read_radio, message.bytes, message.length, values(HIBERNAXO_READ_RADIO_VALUES));
    EXPECT(HIBERNAXO_OK, 0, 0x1234, 0x5678, 7, 4);
    refuse_radio(__LINE__, input(""), 0);
    refuse_radio(__LINE__, input("0007 1234 5678 000000"), 0);
    refuse_radio(__LINE__, input("0008 1234 5678 00000007"), 0);
    refuse_radio(__LINE__, radio_with(0, "003E"), 0);
    refuse_radio(__LINE__, radio_with(0, "0041"), 0);
    refuse_radio(__LINE__, radio_with(10, "02"), 10);
    refuse_radio(__LINE__, radio_with(11, "0C"), 10);
    refuse_radio(__LINE__, radio_with(14, "00"), 10);
    refuse_radio(__LINE__, radio_with(18, "F4240F423F"), 10);
    refuse_radio(__LINE__, radio_with(18, "30D40F4240"), 10);
    refuse_radio(__LINE__, radio_with(29, "FFFF4240"), 27);
    refuse_radio(__LINE__, radio_with(41, "FF4240"), 38);
    refuse_radio(__LINE__, radio_with(48, "01"), 38);
    refuse_radio(__LINE__, input("000B 1234 5678 00000007 0504FF"), 10);
    message = zeros(LARGEST + 1);
    CALL(hibernaxo_read_radio, message.bytes, message.length, values(HIBERNAXO_READ_RADIO_VALUES));
    EXPECT(HIBERNAXO_LARGE, LARGEST);
}

static void radio_steps(void)
{
    struct lent message = input(RADIO);
    CALL(hibernaxo_radio_tlv, message.bytes, message.length, HIBERNAXO_RADIO_HEADER, values(HIBERNAXO_RADIO_TLV_VALUES));
    EXPECT(HIBERNAXO_OK, 0, 1, 23, 9000, 0x0102, 5, 200000, 999999);
    CALL(hibernaxo_radio_tlv, message.bytes, message.length, 23, values(HIBERNAXO_RADIO_TLV_VALUES));
    EXPECT(HIBERNAXO_OK, 0, 5, 27, 65534);
    CALL(hibernaxo_radio_tlv, message.bytes, message.length, 27, values(HIBERNAXO_RADIO_TLV_VALUES));
    EXPECT(HIBERNAXO_OK, 0, 6, 38, 63, 999999, 9001, 0xC4, 0x80, 3);
    CALL(hibernaxo_radio_tlv, message.bytes, message.length, 38, values(HIBERNAXO_RADIO_TLV_VALUES));
    EXPECT(HIBERNAXO_OK, 0, 10, 65, 42, 82757, 17, 1, 2, 3, 4, 5, 6, 7, 8);
    CALL(hibernaxo_radio_tlv, message.bytes, message.length, 65, values(HIBERNAXO_RADIO_TLV_VALUES));
    EXPECT(HIBERNAXO_OK, 0, 0, 65);
    CALL(hibernaxo_radio_tlv, message.bytes, message.length, SIZE_MAX, values(HIBERNAXO_RADIO_TLV_VALUES));
    EXPECT(HIBERNAXO_OK, 0, 0, SIZE_MAX);
    CALL(hibernaxo_radio_tlv, message.bytes, message.length, 12, values(HIBERNAXO_RADIO_TLV_VALUES));
    EXPECT(HIBERNAXO_RADIO, 12, 0, 12);
    message = zeros(LARGEST + 1);
    CALL(hibernaxo_radio_tlv, message.bytes, message.length, 12, values(HIBERNAXO_RADIO_TLV_VALUES));
    EXPECT(HIBERNAXO_LARGE, LARGEST, 0, 12);
}

/* A TLV's fields, and whatever else behind them. */
static const uint64_t *fields_of(const uint64_t *fields, size_t count)
{
    struct lent memory = lend(8 * HIBERNAXO_PUT_RADIO_TLV_FIELDS, UNWRITTEN);
    memcpy(memory.bytes, fields, 8 * count);
    return (const uint64_t *)(const void *)shut(memory).bytes;
}

/* Puts a TLV at 10 of a buffer of 48 bytes, where number, place and bytes are wanted; on success these bytes are written and no other. */
static void put(int line, uint32_t kind, const uint64_t *fields, size_t count, uint32_t wanted_number, const char *text)
{
    struct lent out = buffer(48);
    const uint64_t wanted[] = {wanted_number == HIBERNAXO_OK ? (uint64_t)0 : 10, from_hex(text, NULL)};
    CALL(hibernaxo_put_radio_tlv, kind, fields_of(fields, count), out.bytes, out.length, 10, values(HIBERNAXO_PUT_RADIO_TLV_VALUES));
    expect(line, wanted_number, wanted, 2);
    holds(line, out, 10, text);
    unwritten(line, out, 10 + wanted[1]);
    out.length = 10;
    unwritten(line, out, 0);
}

#define PUT(kind, number, text, ...)                                                            \
    do {                                                                                        \
        static const uint64_t fields[] = {__VA_ARGS__};                                         \
        put(__LINE__, kind, fields, sizeof fields / sizeof *fields, number, text);              \
    } while (0)

static void putting_radio(void)
{
    static const uint64_t timeout[] = {65534};
    struct lent out = buffer(13);
    PUT(1, HIBERNAXO_OK, TXOP, 9000, 0x0102, 5, 200000, 999999);
    PUT(5, HIBERNAXO_OK, HEARTBEAT, 65534);
    PUT(6, HIBERNAXO_OK, METRIC, 63, 999999, 9001, 0xC4, 0x80, 3);
    PUT(10, HIBERNAXO_OK, REPORT, 42, 82757, 17, 1, 2, 3, 4, 5, 6, 7, 8);
    /* another type, a field above its bits, and one above its range */
    PUT(2, HIBERNAXO_RADIO, "", 9000, 0x0102, 5, 200000, 999999);
    PUT(0, HIBERNAXO_RADIO, "", 65534);
    PUT(261, HIBERNAXO_RADIO, "", 65534);
    PUT(5, HIBERNAXO_RADIO, "", 65536);
    PUT(1, HIBERNAXO_RADIO, "", 9000, 0x0102, 256, 200000, 999999);
    PUT(1, HIBERNAXO_RADIO, "", 9000, 0x0102, 5, 200000, 1000000);
    PUT(1, HIBERNAXO_RADIO, "", 9000, 0x0102, 5, 4294967296, 999999);
    PUT(6, HIBERNAXO_RADIO, "", 64, 999999, 9001, 0xC4, 0x80, 3);
    PUT(6, HIBERNAXO_RADIO, "", 63, 999999, 9001, 0x100, 0x80, 3);
    PUT(10, HIBERNAXO_RADIO, "", 42, 82757, 4294967296, 1, 2, 3, 4, 5, 6, 7, 8);
    PUT(10, HIBERNAXO_RADIO, "", 42, 82757, 17, 1, 2, 3, 4, 5, 6, 7, 65536);
    CALL(hibernaxo_put_radio_tlv, 5, fields_of(timeout, 1), out.bytes, out.length, 10, values(HIBERNAXO_PUT_RADIO_TLV_VALUES));
    EXPECT(HIBERNAXO_ROOM, 14);
    CALL(hibernaxo_put_radio_tlv, 5, fields_of(timeout, 1), out.bytes, out.length, 65532, values(HIBERNAXO_PUT_RADIO_TLV_VALUES));
    EXPECT(HIBERNAXO_ROOM, 65536);
    CALL(hibernaxo_put_radio_tlv, 5, fields_of(timeout, 1), out.bytes, out.length, 65533, values(HIBERNAXO_PUT_RADIO_TLV_VALUES));
    EXPECT(HIBERNAXO_LARGE, LARGEST);
    CALL(hibernaxo_put_radio_tlv, 5, fields_of(timeout, 1), out.bytes, out.length, SIZE_MAX, values(HIBERNAXO_PUT_RADIO_TLV_VALUES));
    EXPECT(HIBERNAXO_LARGE, LARGEST);
    KEPT(out);
}

static void writing_radio(void)
{
    struct lent message = input(RADIO), out = buffer(70);
    CALL(hibernaxo_write_radio, 0x1234, 0x5678, 7, message.bytes + 10, message.length - 10, out.bytes, out.length, values(HIBERNAXO_WRITE_RADIO_VALUES));
    EXPECT(HIBERNAXO_OK, 0, 65);
    HOLDS(out, 0, HEAD);
    HOLDS(out, 10, TXOP);
    HOLDS(out, 23, HEARTBEAT);
    HOLDS(out, 27, METRIC);
    HOLDS(out, 38, REPORT);
    unwritten(__LINE__, out, 65);
    out = buffer(64);
    CALL(hibernaxo_write_radio, 0x1234, 0x5678, 7, message.bytes + 10, message.length - 10, out.bytes, out.length, values(HIBERNAXO_WRITE_RADIO_VALUES));
    EXPECT(HIBERNAXO_ROOM, 65);
    CALL(hibernaxo_write_radio, 0x1234, 0x5678, 7, message.bytes + 10, 0, out.bytes, out.length, values(HIBERNAXO_WRITE_RADIO_VALUES));
    EXPECT(HIBERNAXO_RADIO, 0);
    CALL(hibernaxo_write_radio, 0x1234, 0x5678, 7, message.bytes + 10, 18, out.bytes, out.length, values(HIBERNAXO_WRITE_RADIO_VALUES));
    EXPECT(HIBERNAXO_RADIO, 27);
    message = zeros(LARGEST - 9);
    CALL(hibernaxo_write_radio, 0x1234, 0x5678, 7, message.bytes, message.length, out.bytes, out.length, values(HIBERNAXO_WRITE_RADIO_VALUES));
    EXPECT(HIBERNAXO_LARGE, LARGEST);
    KEPT(out);
}

/* The row of a link metric: what its readings are, and its doubles, every one of them exact. */
static void row(int line, uint16_t frequency, int8_t rssi, int8_t cinr, uint8_t errors, const uint8_t *kinds, const double *doubles)
{
    struct lent got_kinds = buffer(HIBERNAXO_LINK_ROW_KINDS), got_doubles = buffer(8 * HIBERNAXO_LINK_ROW_VALUES);
    called = "hibernaxo_link_row", number = HIBERNAXO_OK;
    hibernaxo_link_row(frequency, rssi, cinr, errors, got_kinds.bytes, (double *)(void *)got_doubles.bytes);
    guards_stand(line);
    if (memcmp(got_kinds.bytes, kinds, HIBERNAXO_LINK_ROW_KINDS) != 0)
        fail(line, "other kinds of readings");
    if (memcmp(got_doubles.bytes, doubles, 8 * HIBERNAXO_LINK_ROW_VALUES) != 0)
        fail(line, "other doubles");
    count_answer();
}

static void link_rows(void)
{
    static const uint8_t all[] = {HIBERNAXO_READING_LEVEL, HIBERNAXO_READING_LEVEL, HIBERNAXO_READING_RATE};
    static const uint8_t no_cinr[] = {HIBERNAXO_READING_LEVEL, HIBERNAXO_READING_MISSING, HIBERNAXO_READING_RATE};
    static const uint8_t none[] = {HIBERNAXO_READING_MISSING, HIBERNAXO_READING_MISSING, HIBERNAXO_READING_MISSING};
    static const double worked[] = {2250.25, -60.0, 0.0, 0.01171875}, largest[] = {16383.75, 127.0, -127.0, 0.99609375}, zero[] = {0.0, 0.0, 0.0, 0.0};
    row(__LINE__, 9001, -60, -128, 3, no_cinr, worked);
    row(__LINE__, 65535, 127, -127, 255, all, largest);
    row(__LINE__, 0, -128, -128, 0, none, zero);
}

int main(void)
{
    static void (*const groups[])(void) = {headers, packages, checks, writing, cleaning, sheets, copies, steps, purging, cutting, joining, randomizing, bursts, reading_ids, writing_ids, salvages, reading_captures, writing_captures, reading_radio, radio_steps, putting_radio, writing_radio, link_rows};
    signal(SIGSEGV, touched);
    signal(SIGBUS, touched);
    for (size_t k = 0; k < sizeof groups / sizeof *groups; k++) {
        forbidden = AT_ITS_END;
        groups[k]();
        give_back();
        forbidden = AT_ITS_BEGINNING;
        groups[k]();
        give_back();
    }
    for (const struct tally *tally = tallies; tally->name != NULL; tally++)
        if (tally->good > 0 && (tally->refused > 0 || strcmp(tally->name, "hibernaxo_link_row") == 0))
            puts(tally->name);
    return 0;
}
