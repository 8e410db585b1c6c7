/* Audits one.root from C, with four-byte and with eight-byte offsets, into tables and into a list for a viewer, breaks
   and salvages it, and checks what is answered and written. */
#include "rootmap.h"

#include <stdio.h>
#include <string.h>

#define ROOM 8

static int failed = 0;
static uint8_t file[432];
static size_t end;
/* The bytes of an offset. */
static size_t width;
static uint64_t tables[3][ROOM];
static struct rootmap_row list[ROOM];
static uint64_t place, count;

static void check(int good, const char *what)
{
    if (!good) {
        printf("failed: %s\n", what);
        failed = 1;
    }
}

static void bytes(size_t at, uint64_t value, size_t len)
{
    while (len-- > 0) {
        file[at + len] = (uint8_t)value;
        value >>= 8;
    }
}

static void number(size_t at, uint32_t value)
{
    bytes(at, value, 4);
}

static void offset(size_t at, uint64_t value)
{
    bytes(at, value, width);
}

/* The version of what has offsets of this width. */
static uint32_t version(uint32_t narrow)
{
    return width == 8 ? narrow + 1000 : narrow;
}

static void key(uint32_t at, uint32_t nbytes, uint32_t pdir, const char *class_name, const char *name)
{
    size_t class_len = strlen(class_name), name_len = strlen(name);
    uint32_t objlen = nbytes - 21 - (uint32_t)(2 * width + class_len + name_len);
    check(rootmap_write_key(nbytes, version(4), objlen, 1960757165, 1, at, pdir, (const uint8_t *)class_name, class_len,
                            (const uint8_t *)name, name_len, (const uint8_t *)"", 0, file, end, &place, &count) == 0,
          name);
}

/* END, SeekFree, NbytesFree, nfree, NbytesName, Units, Compress. */
static void header(uint32_t file_version, const uint32_t *starts)
{
    memset(file, 0, sizeof file);
    memcpy(file, "root", 4);
    number(4, file_version);
    number(8, 100);
    offset(12, end);
    offset(12 + width, starts[4]);
    number(12 + 2 * width, (uint32_t)end - starts[4]);
    number(16 + 2 * width, 2);
    number(20 + 2 * width, (uint32_t)(30 + 2 * width));
    bytes(24 + 2 * width, width, 1);
    number(25 + 2 * width, 1);
}

/* The head's name and title, and the directory header. */
static void directory(size_t at, const uint32_t *starts)
{
    memcpy(file + at, "\1a\0", 3);
    bytes(at + 3, version(5), 2);
    number(at + 5, 1960757165);
    number(at + 9, 1960757165);
    number(at + 13, starts[3] - starts[2]);
    number(at + 17, (uint32_t)(30 + 2 * width));
    offset(at + 21, 100);
    offset(at + 21 + 2 * width, starts[2]);
}

static void segment(size_t at, uint64_t first, uint64_t last)
{
    bytes(at, version(1), 2);
    offset(at + 2, first);
    offset(at + 2 + width, last);
}

/* Head, object "x", keys list, a gap of 12 bytes and free list: where they start. */
static void one_root(uint32_t file_version, const uint32_t *starts, uint64_t last)
{
    /* The sum of a key of class TFile, named "a". */
    size_t sum = 27 + 2 * width;
    header(file_version, starts);
    key(100, starts[1] - 100, 0, "TFile", "a");
    directory(100 + sum, starts);
    key(starts[1], starts[2] - starts[1], 100, "TObjString", "x");
    key(starts[2], starts[3] - starts[2], 100, "TFile", "a");
    number(starts[2] + sum, 1);
    memcpy(file + starts[2] + sum + 4, file + starts[1], sum + 5);
    number(starts[3], (uint32_t)-12);
    key(starts[4], (uint32_t)end - starts[4], 100, "TFile", "a");
    segment(starts[4] + sum, starts[3], starts[4] - 1);
    segment(starts[4] + sum + 2 + 2 * width, end, last);
}

static uint64_t audit(size_t start_len, size_t part_len, size_t owner_len)
{
    memset(tables, 0x5a, sizeof tables);
    place = count = 9;
    return rootmap_audit(file, end, tables[0], start_len, tables[1], part_len, tables[2], owner_len, &place,
                         &count);
}

static uint64_t audit_salvaged(size_t rows)
{
    memset(tables, 0x5a, sizeof tables);
    place = count = 9;
    return rootmap_audit_salvaged(file, end, tables[0], rows, tables[1], rows, tables[2], rows, &place, &count);
}

static uint64_t view(size_t start_len, size_t part_len, size_t owner_len, size_t list_len)
{
    memset(tables, 0x5a, sizeof tables);
    memset(list, 0x5a, sizeof list);
    place = count = 9;
    return rootmap_view(file, end, tables[0], start_len, tables[1], part_len, tables[2], owner_len, list, list_len,
                        &place, &count);
}

/* Whether a table of `len` rows holds `rows`, then zeros, and what follows it is untouched. */
static int holds(const uint64_t *table, size_t len, const uint64_t *rows, size_t row_count)
{
    size_t i;
    for (i = 0; i < ROOM; i++) {
        uint64_t expected = i >= len ? 0x5a5a5a5a5a5a5a5a : i < row_count ? rows[i] : 0;
        if (table[i] != expected)
            return 0;
    }
    return 1;
}

/* Whether a list of `len` records holds the rows with their sizes, then zeros, and what follows it is untouched. */
static int shows(size_t len, const uint64_t *start, const uint64_t *part, const uint64_t *owner, size_t row_count)
{
    size_t i;
    for (i = 0; i < ROOM; i++) {
        struct rootmap_row expected = {0, 0, 0, 0};
        if (i >= len) {
            memset(&expected, 0x5a, sizeof expected);
        } else if (i < row_count) {
            expected.start = start[i];
            expected.size = (i < 4 ? start[i + 1] : end) - start[i];
            expected.part = part[i];
            expected.owner = owner[i];
        }
        if (memcmp(&list[i], &expected, sizeof expected) != 0)
            return 0;
    }
    return 1;
}

/* The file passes with these rows, needs five of them, and is 9 with the byte after its gap. */
static void rows(const uint32_t *starts)
{
    static const uint64_t part[5] = {1, 5, 4, 0, 2};
    static const uint64_t owner[5] = {0, 100, 100, 0, 0};
    uint64_t start[5];
    size_t i;

    for (i = 0; i < 5; i++)
        start[i] = starts[i];
    check(audit(5, 7, 6) == 0 && place == 0 && count == 5, "one.root passes");
    check(holds(tables[0], 5, start, 5) && holds(tables[1], 7, part, 5) && holds(tables[2], 6, owner, 5), "its rows");

    check(audit(8, 4, 5) == 7 && place == 0 && count == 5, "room 4 is 7 with count 5");
    check(holds(tables[0], 8, start, 0) && holds(tables[1], 4, part, 0) && holds(tables[2], 5, owner, 0),
          "zeros after 7");

    check(view(5, 7, 6, 8) == 0 && place == 0 && count == 5, "one.root passes into a list");
    check(holds(tables[0], 5, start, 5) && holds(tables[1], 7, part, 5) && holds(tables[2], 6, owner, 5),
          "tables beside it");
    check(shows(8, start, part, owner, 5), "its records");
    check(view(8, 8, 8, 4) == 7 && place == 0 && count == 5, "a list of 4 is 7 with count 5");
    check(holds(tables[0], 8, start, 0) && holds(tables[1], 8, part, 0) && holds(tables[2], 8, owner, 0),
          "zeros after 7 beside a list");
    check(shows(4, start, part, owner, 0), "zeros after 7 in the list");

    offset(starts[4] + 29 + 3 * width, starts[4]);
    check(view(5, 5, 5, 5) == 9 && place == starts[4] && count == 0, "the byte after the gap is 9 with a list");
    check(holds(tables[0], 5, start, 0) && holds(tables[1], 5, part, 0) && holds(tables[2], 5, owner, 0),
          "zeros after 9 beside a list");
    check(shows(5, start, part, owner, 0), "zeros after 9 in the list");
    check(audit(5, 5, 5) == 9 && place == starts[4] && count == 0, "the byte after the gap is 9");
    check(holds(tables[0], 5, start, 0) && holds(tables[1], 5, part, 0) && holds(tables[2], 5, owner, 0),
          "zeros after 9");
}

/* Whether the file is salvaged with this number, place and count, its bytes from `at` on hold `value` and no others are
   changed, and the scratch holds zeros. */
static int salvages(uint64_t expected, uint64_t at, uint64_t until, uint32_t value)
{
    static uint8_t before[sizeof file], seen[sizeof file / 8 + 2];
    uint64_t result;
    size_t i;

    memset(seen, 0xff, sizeof seen);
    place = count = 9;
    memcpy(before, file, sizeof file);
    result = rootmap_salvage(file, end, seen, sizeof seen - 1, &place, &count);
    for (i = 0; i < sizeof seen; i++)
        if (seen[i] != (i < sizeof seen - 1 ? 0 : 0xff))
            return 0;
    for (i = 0; i < sizeof file; i++)
        if (file[i] != (value != 0 && i - at < 4 ? (uint8_t)(value >> (8 * (3 - (i - at)))) : before[i]))
            return 0;
    return result == expected && place == at && count == until;
}

/* The gap's segment is no gap's: 9 by the audit alone. */
static void salvage(const uint32_t *starts)
{
    check(audit_salvaged(5) == ROOTMAP_PASSED && place == 0 && count == 5, "segments are not compared");
    check(tables[0][3] == starts[3] && tables[1][4] == ROOTMAP_PART_FREE && tables[2][1] == 100, "its rows");
    check(audit_salvaged(4) == ROOTMAP_UNFINISHED && place == 0 && count == 5, "room 4 is 7 there too");

    check(salvages(ROOTMAP_PASSED, end, end, 0), "a good chain is as it was");
    number(starts[3], 0);
    check(audit(5, 5, 5) == ROOTMAP_CHAIN && place == starts[3], "the chain is broken");
    check(salvages(ROOTMAP_PASSED, starts[3], starts[4], (uint32_t)-12), "the gap is written");
    check(audit_salvaged(5) == ROOTMAP_PASSED && count == 5, "it passes");
    number(starts[1], 3);
    check(salvages(ROOTMAP_PASSED, starts[1], starts[2], starts[1] - starts[2]), "the object is lost");
    check(audit_salvaged(5) == ROOTMAP_ENTRY && place == starts[2] + 31 + 2 * width, "it is listed");
    number(starts[4], (uint32_t)end - starts[4] - 3);
    check(salvages(ROOTMAP_SALVAGE, end - 3, 0, 0), "three bytes are left");
    file[0] = 'R';
    check(salvages(ROOTMAP_MAGIC, 0, 0, 0), "another file");
}

int main(void)
{
    static const uint32_t narrow[5] = {100, 168, 218, 297, 309};
    static const uint32_t wide[5] = {100, 188, 246, 341, 353};

    end = 364;
    width = 4;
    one_root(62400, narrow, 2000000000);
    rows(narrow);
    salvage(narrow);

    end = 432;
    width = 8;
    one_root(1062400, wide, UINT64_MAX);
    rows(wide);
    /* SeekFree past 32 bits is the place of 9. */
    offset(20, UINT64_MAX);
    check(audit(5, 5, 5) == 9 && place == UINT64_MAX && count == 0, "the place of 9 is SeekFree");
    offset(20, wide[4]);
    salvage(wide);
    if (failed)
        return 1;
    printf("all checks passed\n");
    return 0;
}
