/* Reads a StreamerInfo record of one class with one element from C, with an option after it and without. */
#include "rootmap.h"

#include <stdio.h>
#include <string.h>

#define PLACE 7
/* The first class tag. */
#define TAG (PLACE + 89)
#define ROOM 14

static int failed = 0;
static uint8_t file[400];
static size_t end;
static uint32_t table[ROOM];
static uint64_t place, count;

static void check(int good, const char *what)
{
    if (!good) {
        printf("failed: %s\n", what);
        failed = 1;
    }
}

static void number(uint32_t value)
{
    int i;
    for (i = 3; i >= 0; i--)
        file[end + i] = (uint8_t)(value >> 8 * (3 - i));
    end += 4;
}

static void bytes(const void *from, size_t len)
{
    memcpy(file + end, from, len);
    end += len;
}

/* A ByteCount, to be set by `close_at` when its object is laid down. */
static size_t open_here(void)
{
    number(0);
    return end;
}

static void close_at(size_t start)
{
    size_t stop = end;
    end = start - 4;
    number(0x40000000 | (uint32_t)(stop - start));
    end = stop;
}

static void tag(const char *class_name)
{
    number(0xffffffff);
    bytes(class_name, strlen(class_name) + 1);
}

/* Version and TObject: twelve bytes. */
static void version_and_object(void)
{
    bytes("\0\1\0\1\0\0\0\0\2\0\0\0", 12);
}

static void named(const char *name, size_t len)
{
    size_t start = open_here();
    version_and_object();
    bytes(name, len);
    bytes("\0", 1);
    close_at(start);
}

/* The TStreamerBasicType "fX": the offsets in the record of its name and type name. */
static void element(size_t *name, size_t *type_name)
{
    int i;
    size_t outer = open_here(), inner, base;
    tag("TStreamerBasicType");
    inner = open_here();
    bytes("\0\2", 2);
    base = open_here();
    bytes("\0\2", 2);
    *name = end + 16 - PLACE;
    named("\2fX", 3);
    for (i = 0; i < 9; i++)
        number(i == 0 ? 3 : i == 2 ? 5 : 0);
    *type_name = end - PLACE;
    bytes("\3int", 4);
    close_at(base);
    close_at(inner);
    close_at(outer);
}

/* With this Version of the list, and an option with its length after the object. */
static void record(uint8_t version, const char *option, size_t option_len, size_t *name, size_t *type_name)
{
    size_t list, info, info_in, array, array_in;
    end = PLACE + 64;
    list = open_here();
    version_and_object();
    file[list + 1] = version;
    bytes("\0", 1);
    number(1);
    info = open_here();
    tag("TStreamerInfo");
    info_in = open_here();
    bytes("\0\2", 2);
    named("\1C", 2);
    number(0);
    number(1);
    array = open_here();
    tag("TObjArray");
    array_in = open_here();
    version_and_object();
    bytes("\0", 1);
    number(1);
    number(0);
    element(name, type_name);
    close_at(array_in);
    close_at(array);
    close_at(info_in);
    close_at(info);
    bytes(option, option_len);
    close_at(list);
    check(rootmap_write_key((uint32_t)(end - PLACE), 4, (uint32_t)(end - PLACE - 64), 0, 1, PLACE, 100,
                            (const uint8_t *)"TList", 5, (const uint8_t *)"StreamerInfo", 12,
                            (const uint8_t *)"Doubly linked list", 18, file, sizeof file, &place, &count) == 0,
          "the key is written");
}

static uint64_t read_info(uint64_t at, size_t len)
{
    memset(table, 0x5a, sizeof table);
    place = count = 9;
    return rootmap_info(file, end, at, table, len, &place, &count);
}

/* Whether a table of `len` numbers holds `row`, then zeros, and what follows it is untouched. */
static int holds(size_t len, const uint32_t *row, size_t row_len)
{
    uint32_t expected[ROOM];
    memset(expected, 0x5a, sizeof expected);
    memset(expected, 0, len * sizeof *expected);
    memcpy(expected, row, (row_len < len ? row_len : len) * sizeof *row);
    return memcmp(table, expected, sizeof expected) == 0;
}

/* An option after the object, or none. */
static void options(const uint32_t *row)
{
    size_t name, type_name;

    record(5, "\3opt", 4, &name, &type_name);
    check(read_info(PLACE, 13) == 0 && place == 0 && count == 1, "a list with an option is read");
    check(holds(13, row, 6), "the row before an option");
    file[end - 4] = 4;
    check(read_info(PLACE, 13) == 21 && place == end - 4 && count == 0, "an option past the list's end is 21");
    check(holds(13, row, 0), "zeros after 21");
    record(4, "", 0, &name, &type_name);
    check(read_info(PLACE, 13) == 21 && place == end && count == 0, "no option in a list of Version 4 is 21");
    record(3, "\3opt", 4, &name, &type_name);
    check(read_info(PLACE, 13) == 21 && place == end - 4 && count == 0, "an option in a list of Version 3 is 21");
}

int main(void)
{
    uint32_t row[6] = {0, 2, 0, 0, 3, 5};
    size_t name = 0, type_name = 0;

    record(3, "", 0, &name, &type_name);
    row[2] = (uint32_t)name;
    row[3] = (uint32_t)type_name;
    check(read_info(PLACE, 13) == 0 && place == 0 && count == 1, "the record is read");
    check(holds(13, row, 6), "its row");
    options(row);
    record(3, "", 0, &name, &type_name);
    file[TAG + 4 + 9] ^= 1;
    check(read_info(PLACE, 13) == 22 && place == TAG && count == 0, "another class name is 22");
    check(holds(13, row, 0), "zeros after 22");
    file[TAG + 4 + 9] ^= 1;
    check(read_info(PLACE, 5) == 24 && place == 0 && count == 1, "no whole row is 24");
    check(holds(5, row, 0), "zeros after 24");
    place = count = 9;
    check(rootmap_info(file, end, PLACE, NULL, 0, &place, &count) == 24 && place == 0 && count == 1,
          "no table is 24, with the rows that are needed");
    check(read_info(PLACE + 1, 6) == 5 && place == PLACE + 1 && count == 0, "no piece at 8");
    check(holds(6, row, 0), "zeros after 5");
    file[PLACE + 64 + 15] |= 16;
    check(read_info(PLACE, 6) == 23 && place == PLACE + 64 + 12 && count == 0, "a referenced list is 23");
    file[PLACE + 27] ^= 1;
    check(read_info(PLACE, 6) == 20 && place == PLACE && count == 0, "another class is 20");
    if (failed)
        return 1;
    printf("all checks passed\n");
    return 0;
}
