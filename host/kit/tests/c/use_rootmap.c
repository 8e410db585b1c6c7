/* Packs and unpacks dates, writes keys and reads pieces from C, and checks what is answered and written. */
#include "rootmap.h"

#include <stdio.h>
#include <string.h>

/* An offset past 32 bits. */
#define FAR UINT64_C(0x100000005)

static int failed = 0;

static void check(int good, const char *what)
{
    if (!good) {
        printf("failed: %s\n", what);
        failed = 1;
    }
}

static void dates(void)
{
    uint64_t place = 9, count = 9;
    uint32_t date[6] = {9, 9, 9, 9, 9, 9};
    const uint32_t expected[6] = {2024, 3, 15, 12, 30, 45};

    check(rootmap_pack_date(2024, 3, 15, 12, 30, 45, &place, &count) == 0, "a date packs");
    check(place == 0 && count == 1960757165, "its packed value");

    rootmap_unpack_date(1960757165, date);
    check(memcmp(date, expected, sizeof date) == 0, "a date unpacks");

    place = count = 9;
    check(rootmap_pack_date(2024, 16, 15, 12, 30, 45, &place, &count) == 18, "month 16 is 18");
    check(place == 0 && count == 0, "place and count of 18");
}

/* Writes the key of the object "x" at 100, 40 bytes or, of a version above 1000, 48, in a record of 50. */
static uint64_t write_x(uint32_t version, uint64_t seek_pdir, size_t name_len, uint8_t *buf, size_t buf_len,
                        uint64_t *place, uint64_t *count)
{
    static const uint8_t name[32725] = {'x'};
    *place = *count = 9;
    return rootmap_write_key(50, version, 10, 1960757165, -2, 100, seek_pdir, (const uint8_t *)"TObjString", 10, name,
                             name_len, (const uint8_t *)"", 0, buf, buf_len, place, count);
}

static void write_and_read(void)
{
    static const uint8_t header[40] = {
        0, 0, 0, 50, 0, 4, 0, 0, 0, 10, 0x74, 0xde, 0xc7, 0xad, 0, 40, 0xff, 0xfe, 0, 0,
        0, 100, 0, 0, 0, 100, 10, 'T', 'O', 'b', 'j', 'S', 't', 'r', 'i', 'n', 'g', 1, 'x', 0};
    static const uint64_t record[15] = {1, 50, 4, 10, 1960757165, 40, 65534, 100, 100, 127, 10, 138, 1, 140, 0};
    static const uint64_t none[15] = {0};
    uint8_t buf[150], expected[150];
    uint64_t fields[15], gap[15] = {2, 50}, place, count;

    memset(buf, 0x5a, sizeof buf);
    memset(expected, 0x5a, sizeof expected);
    check(write_x(4, 100, 32725, buf, sizeof buf, &place, &count) == 15 && place == 0 && count == 0,
          "a name with which the sum is 32,768 is 15");
    check(write_x(4, 100, 32724, buf, sizeof buf, &place, &count) == 16 && place == 0 && count == 0,
          "a name that its record does not hold is 16");
    check(write_x(2001, 100, 1, buf, sizeof buf, &place, &count) == 16 && place == 0 && count == 0,
          "version 2001 is 16");
    check(write_x(4, FAR, 1, buf, sizeof buf, &place, &count) == 16 && place == 0 && count == 0,
          "an offset past 32 bits is 16 in a narrow key");
    check(write_x(4, 100, 1, buf, 149, &place, &count) == 17 && place == 0 && count == 0, "a short buffer is 17");
    check(memcmp(buf, expected, sizeof buf) == 0, "refusals write nothing");

    memcpy(expected + 100, header, sizeof header);
    check(write_x(4, 100, 1, buf, sizeof buf, &place, &count) == 0 && place == 0 && count == 40, "the key is written");
    check(memcmp(buf, expected, sizeof buf) == 0, "its bytes and no others");

    memset(fields, 0x5a, sizeof fields);
    place = count = 9;
    check(rootmap_read_piece(buf, sizeof buf, 100, fields, &place, &count) == 0, "the record is read");
    check(place == 0 && count == 50 && memcmp(fields, record, sizeof fields) == 0, "its size and fields");

    check(rootmap_read_piece(buf, sizeof buf, 99, fields, &place, &count) == 5, "no piece at 99");
    check(place == 99 && count == 0 && memcmp(fields, none, sizeof fields) == 0, "place, count and fields of 5");

    buf[121] = 101;
    check(rootmap_read_piece(buf, sizeof buf, 100, fields, &place, &count) == 6, "another SeekKey is 6");
    check(place == 100 && count == 0 && memcmp(fields, none, sizeof fields) == 0, "place, count and fields of 6");

    memset(buf + 100, 0xff, 4);
    buf[103] = 0x100 - 50;
    check(rootmap_read_piece(buf, sizeof buf, 100, fields, &place, &count) == 0, "a gap is read");
    check(place == 0 && count == 50 && memcmp(fields, gap, sizeof fields) == 0, "its size");

    check(rootmap_read_piece(buf, sizeof buf, UINT64_MAX, fields, &place, &count) == 5, "the last place of all is 5");
    check(place == UINT64_MAX && count == 0, "its place");
}

/* The same with eight-byte offsets, one of them past 32 bits. */
static void write_and_read_wide(void)
{
    static const uint8_t header[48] = {
        0, 0, 0, 50, 3, 0xec, 0, 0, 0, 10, 0x74, 0xde, 0xc7, 0xad, 0, 48, 0xff, 0xfe, 0, 0, 0, 0, 0, 0,
        0, 100, 0, 0, 0, 1, 0, 0, 0, 5, 10, 'T', 'O', 'b', 'j', 'S', 't', 'r', 'i', 'n', 'g', 1, 'x', 0};
    static const uint64_t record[15] = {1, 50, 1004, 10, 1960757165, 48, 65534, 100, FAR, 135, 10, 146, 1, 148, 0};
    uint8_t buf[150], expected[150];
    uint64_t fields[15], place, count;

    memset(buf, 0x5a, sizeof buf);
    memset(expected, 0x5a, sizeof expected);
    memcpy(expected + 100, header, sizeof header);
    check(write_x(1004, FAR, 1, buf, sizeof buf, &place, &count) == 0 && place == 0 && count == 48,
          "the wide key is written");
    check(memcmp(buf, expected, sizeof buf) == 0, "the wide key's bytes and no others");
    check(rootmap_read_piece(buf, sizeof buf, 100, fields, &place, &count) == 0, "the wide record is read");
    check(place == 0 && count == 50 && memcmp(fields, record, sizeof fields) == 0, "the wide record's fields");
}

/* A name of 255 bytes has its length in five: 255, then four bytes. */
static void write_and_read_long(void)
{
    static const uint8_t name[255] = {'x'}, length[5] = {255, 0, 0, 0, 255};
    uint8_t buf[410];
    uint64_t fields[15], place = 9, count = 9;

    memset(buf, 0x5a, sizeof buf);
    check(rootmap_write_key(310, 4, 12, 0, 1, 100, 100, (const uint8_t *)"TObjString", 10, name, sizeof name,
                            (const uint8_t *)"", 0, buf, sizeof buf, &place, &count) == 0 &&
              place == 0 && count == 298,
          "a name of 255 bytes is written");
    check(memcmp(buf + 137, length, sizeof length) == 0 && memcmp(buf + 142, name, sizeof name) == 0,
          "its length in five bytes, and its bytes");
    check(rootmap_read_piece(buf, sizeof buf, 100, fields, &place, &count) == 0 && count == 310, "it is read");
    check(fields[ROOTMAP_PIECE_KEYLEN] == 298 && fields[ROOTMAP_PIECE_NAME] == 142 &&
              fields[ROOTMAP_PIECE_NAME_LEN] == 255 && fields[ROOTMAP_PIECE_TITLE] == 398 &&
              fields[ROOTMAP_PIECE_TITLE_LEN] == 0,
          "KeyLen, and where name and title stand");

    buf[141] = 254;
    check(rootmap_read_piece(buf, sizeof buf, 100, fields, &place, &count) == 6 && place == 100,
          "254 in five bytes is 6");
}

int main(void)
{
    dates();
    write_and_read();
    write_and_read_wide();
    write_and_read_long();
    if (failed)
        return 1;
    printf("all checks passed\n");
    return 0;
}
