/* Lends NULL wherever a length is 0, and checks what is answered and written. */
#include "rootmap.h"

#include <stdio.h>
#include <string.h>

#define ROOM 4

static int failed = 0;
static uint8_t file[150];
static uint64_t place, count;

static void check(int good, const char *what)
{
    if (!good) {
        printf("failed: %s\n", what);
        failed = 1;
    }
}

/* Whether the call before it told this place and count; then both are anything again. */
static int told(uint64_t expected_place, uint64_t expected_count)
{
    int good = place == expected_place && count == expected_count;
    place = count = 9;
    return good;
}

static int is_zero(const void *from, size_t len)
{
    const uint8_t *bytes = from;
    while (len > 0)
        if (bytes[--len] != 0)
            return 0;
    return 1;
}

/* A record of 50 bytes at 100, with no class, no name and no title. */
static void pieces(void)
{
    uint64_t fields[ROOTMAP_PIECE_FIELDS];

    check(rootmap_write_key(50, 4, 24, 0, 1, 100, 0, NULL, 0, NULL, 0, NULL, 0, file, sizeof file, &place, &count) ==
                  ROOTMAP_PASSED &&
              told(0, 26 + 3),
          "a key without strings is written");
    memset(fields, 0x5a, sizeof fields);
    check(rootmap_read_piece(file, sizeof file, 100, fields, &place, &count) == ROOTMAP_PASSED && told(0, 50),
          "it is read");
    check(fields[ROOTMAP_PIECE_CLASS_LEN] == 0 && fields[ROOTMAP_PIECE_NAME_LEN] == 0 &&
              fields[ROOTMAP_PIECE_TITLE_LEN] == 0,
          "its strings are empty");
    check(rootmap_write_key(50, 4, 24, 0, 1, 100, 0, NULL, 0, NULL, 0, NULL, 0, NULL, 0, &place, &count) ==
                  ROOTMAP_ROOM &&
              told(0, 0),
          "no buffer is 17");
    memset(fields, 0x5a, sizeof fields);
    check(rootmap_read_piece(NULL, 0, 0, fields, &place, &count) == ROOTMAP_CHAIN && told(0, 0), "no file is 5");
    check(is_zero(fields, sizeof fields), "its fields");
}

static void infos(void)
{
    uint32_t table[ROOM];

    memset(table, 0x5a, sizeof table);
    check(rootmap_info(NULL, 0, 7, table, ROOM, &place, &count) == ROOTMAP_CHAIN && told(7, 0), "no file to inform");
    check(is_zero(table, sizeof table), "its table");
    check(rootmap_info(file, sizeof file, 100, NULL, 0, &place, &count) == ROOTMAP_NOT_INFO && told(100, 0),
          "no table of rows");
}

static void audits(void)
{
    uint64_t tables[3][ROOM];
    struct rootmap_row list[ROOM];

    memset(tables, 0x5a, sizeof tables);
    check(rootmap_audit(NULL, 0, tables[0], ROOM, tables[1], ROOM, tables[2], ROOM, &place, &count) ==
                  ROOTMAP_SHORT &&
              told(0, 0),
          "no file to audit");
    check(is_zero(tables, sizeof tables), "its tables");
    memset(tables, 0x5a, sizeof tables);
    memset(list, 0x5a, sizeof list);
    check(rootmap_view(NULL, 0, tables[0], ROOM, tables[1], ROOM, tables[2], ROOM, list, ROOM, &place, &count) ==
                  ROOTMAP_SHORT &&
              told(0, 0),
          "no file to view");
    check(is_zero(tables, sizeof tables) && is_zero(list, sizeof list), "its tables and list");
}

static void salvages(void)
{
    uint8_t seen[ROOM];

    memset(seen, 0x5a, sizeof seen);
    check(rootmap_salvage(NULL, 0, seen, ROOM, &place, &count) == ROOTMAP_SHORT && told(0, 0), "no file to salvage");
    check(is_zero(seen, sizeof seen), "its scratch");
    check(rootmap_salvage(NULL, 0, NULL, 0, &place, &count) == ROOTMAP_SHORT && told(0, 0), "no scratch either");
    check(rootmap_audit_salvaged(NULL, 0, NULL, 0, NULL, 0, NULL, 0, &place, &count) == ROOTMAP_SHORT && told(0, 0),
          "no salvaged file");
}

/* A header, and a record to its end: one piece. */
static void one_piece(void)
{
    static const uint8_t header[37] = {'r', 'o', 'o', 't', 0, 0, 0xf3, 0xc0, 0, 0, 0, 100, 0, 0, 0, 150};
    uint64_t tables[3][ROOM];

    memcpy(file, header, sizeof header);
    file[32] = 4;
    check(rootmap_audit(file, sizeof file, NULL, 0, NULL, 0, NULL, 0, &place, &count) == ROOTMAP_UNFINISHED &&
              told(0, 1),
          "no rows are 7");
    check(rootmap_view(file, sizeof file, NULL, 0, NULL, 0, NULL, 0, NULL, 0, &place, &count) ==
                  ROOTMAP_UNFINISHED &&
              told(0, 1),
          "no rows and no list are 7");
    check(rootmap_audit_salvaged(file, sizeof file, NULL, 0, NULL, 0, NULL, 0, &place, &count) ==
                  ROOTMAP_UNFINISHED &&
              told(0, 1),
          "no rows are 7 for a salvaged file");
    check(rootmap_salvage(file, sizeof file, NULL, 0, &place, &count) == ROOTMAP_PASSED &&
              told(sizeof file, sizeof file),
          "a good chain without a scratch");
    file[100] = 0xff;
    check(rootmap_salvage(file, sizeof file, NULL, 0, &place, &count) == ROOTMAP_PASSED && told(100, sizeof file) &&
              memcmp(file + 100, "\377\377\377\316", 4) == 0,
          "a broken one without a scratch");
    memcpy(file + 100, "\0\0\0\62", 4);
    memset(tables, 0x5a, sizeof tables);
    check(rootmap_audit(file, sizeof file, tables[0], ROOM, NULL, 0, tables[2], ROOM, &place, &count) ==
                  ROOTMAP_UNFINISHED &&
              told(0, 1),
          "one table without rows is 7");
    check(is_zero(tables[0], sizeof tables[0]) && is_zero(tables[2], sizeof tables[2]), "the other two");
    check(rootmap_view(file, sizeof file, tables[0], ROOM, tables[1], ROOM, tables[2], ROOM, NULL, 0, &place,
                       &count) == ROOTMAP_UNFINISHED &&
              told(0, 1),
          "a list without records is 7");
}

int main(void)
{
    place = count = 9;
    pieces();
    infos();
    audits();
    salvages();
    one_piece();
    if (failed)
        return 1;
    printf("all checks passed\n");
    return 0;
}
