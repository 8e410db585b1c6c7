/*
 * rootmap: the C interface of the proved reader of ROOT files.
 *
 * Link librootmap.a, which `host/install PREFIX` puts in place, or crates/capi/out/libcapi.a, which
 * `rt lib` in crates/capi writes: they are the same. For x86-64 Linux.
 *
 * Every function that audits, reads, writes or packs returns a number, ROOTMAP_PASSED for success, and
 * writes *place and *count in every case. The numbers are named below. Only ROOTMAP_PASSED is a pass:
 * whatever else rootmap_audit or rootmap_view returns, ROOTMAP_UNFINISHED too, says nothing good of the
 * file. That rootmap_salvage succeeds is no pass, and that rootmap_audit_salvaged passes says nothing of
 * what was lost.
 *
 * A pass is no checksum: the data of objects are not looked into.
 *
 * What the caller owes: a pointer that goes with a length points to as many items as that says, and
 * where the length is 0 it may be NULL, as nothing is read or written through it; every other pointer
 * points to what its type says and is not NULL; all are aligned for their type; memory that a function
 * writes overlaps nothing else that the call is given; and nobody else writes to any of it during the
 * call. Nothing is kept after a call, nothing is allocated, and there is no shared state: any number of
 * threads may call at once, each with memory of its own to be written.
 *
 * A header and a library of two versions do not belong together, and the linker does not see it. Ask
 * before the first call, and take nothing that the library answers for a pass if they differ:
 *
 *     if (rootmap_version() != ROOTMAP_VERSION)
 *         return 0;
 */
#ifndef ROOTMAP_H
#define ROOTMAP_H

#include <stddef.h>
#include <stdint.h>

/*
 * The version of this header and of the library that it describes. It goes up by one at each change of
 * what a function answers for some input, and at each change of what this header declares, a new
 * function included: one number names one interface with its answers. CHANGELOG.md has each.
 */
#define ROOTMAP_VERSION 8

/* The numbers that the functions return. */
#define ROOTMAP_PASSED 0      /* success */
#define ROOTMAP_SHORT 1       /* the file is shorter than its header, 100 bytes */
#define ROOTMAP_MAGIC 2       /* it does not begin with "root" */
#define ROOTMAP_WIDE 3        /* Version and Units disagree: Units is 8 where Version is 1,000,000 or more, else 4 */
#define ROOTMAP_BOUNDS 4      /* BEGIN is not 100, or END not the file's length or, with Units 4, above 1,999,999,999 */
#define ROOTMAP_CHAIN 5       /* no piece of that size stands at the place */
#define ROOTMAP_KEY 6         /* a record's key header is not well formed, or its SeekKey is not its place */
#define ROOTMAP_UNFINISHED 7  /* there are more pieces than rows: no pass; lend count rows and call again */
#define ROOTMAP_HEAD 8        /* the head is bad */
#define ROOTMAP_FREE 9        /* the free list is bad, or is not the gaps */
#define ROOTMAP_INFO 10       /* the info record is not where the header says, or is none */
#define ROOTMAP_DIRECTORY 11  /* a directory's header is bad */
#define ROOTMAP_KEYS 12       /* a directory's keys list is bad */
#define ROOTMAP_ENTRY 13      /* a copy in a keys list is not that of a record of the directory */
#define ROOTMAP_TWICE 14      /* a record that a directory has as its list, or lists, has a part already */
#define ROOTMAP_NAME 15       /* KeyLen would be above 32,767: the three strings are too long together */
#define ROOTMAP_FIELD 16      /* the key header would not be well formed, or a value does not fit its field */
#define ROOTMAP_ROOM 17       /* SeekKey + Nbytes lies beyond the buffer */
#define ROOTMAP_DATE 18       /* a date field is not in its range */
#define ROOTMAP_PACKED 19     /* the info record is packed */
#define ROOTMAP_NOT_INFO 20   /* the piece is no info record */
#define ROOTMAP_COUNT 21      /* a count, a length or an end in the info record is bad */
#define ROOTMAP_TAG 22        /* a class tag in the info record is unknown, repeated or misplaced */
#define ROOTMAP_REFERENCED 23 /* an object in the info record is referenced */
#define ROOTMAP_ROWS 24       /* there are more elements than rows */
#define ROOTMAP_SALVAGE 27    /* no gap covers what breaks the chain: too few bytes are left, or it would be too great */

/* The parts that an audit gives to the pieces of a file. */
#define ROOTMAP_PART_GAP 0
#define ROOTMAP_PART_HEAD 1     /* the record of the file itself, at 100 */
#define ROOTMAP_PART_FREE 2     /* the list of free space */
#define ROOTMAP_PART_INFO 3     /* the StreamerInfo record */
#define ROOTMAP_PART_KEYS 4     /* the list of what a directory holds */
#define ROOTMAP_PART_LISTED 5   /* a record that a directory lists */
#define ROOTMAP_PART_DIR 6      /* the same, a directory */
#define ROOTMAP_PART_UNLISTED 7 /* a record that no directory lists: no fault */

/* The fields that rootmap_read_piece gives of a piece. */
#define ROOTMAP_PIECE_KIND 0       /* ROOTMAP_KIND_RECORD or ROOTMAP_KIND_GAP; 0 where it is refused */
#define ROOTMAP_PIECE_NBYTES 1     /* of a gap, its size */
#define ROOTMAP_PIECE_VERSION 2    /* this and all below: 0 for a gap */
#define ROOTMAP_PIECE_OBJLEN 3
#define ROOTMAP_PIECE_DATIME 4
#define ROOTMAP_PIECE_KEYLEN 5     /* at most 32,767 */
#define ROOTMAP_PIECE_CYCLE 6      /* as its 16 stored bits, 0 to 65535 */
#define ROOTMAP_PIECE_SEEK_KEY 7
#define ROOTMAP_PIECE_SEEK_PDIR 8
#define ROOTMAP_PIECE_CLASS 9      /* where the first byte of the class stands, after its length */
#define ROOTMAP_PIECE_CLASS_LEN 10
#define ROOTMAP_PIECE_NAME 11
#define ROOTMAP_PIECE_NAME_LEN 12
#define ROOTMAP_PIECE_TITLE 13
#define ROOTMAP_PIECE_TITLE_LEN 14
#define ROOTMAP_PIECE_FIELDS 15    /* how many there are */

/* What rootmap_read_piece gives as the kind of a piece. */
#define ROOTMAP_KIND_RECORD 1
#define ROOTMAP_KIND_GAP 2

#ifdef __cplusplus
extern "C" {
#endif

/* The version of the library: ROOTMAP_VERSION of the header that describes it. */
uint64_t rootmap_version(void);

/*
 * Packs a date: year 1995 to 2058, month 0 to 15, day and hour 0 to 31, minute and second 0 to 63.
 * Success: place 0, count the packed 32 bits. A field out of its range: 18, place 0, count 0.
 */
uint64_t rootmap_pack_date(uint32_t year, uint32_t month, uint32_t day, uint32_t hour, uint32_t minute,
                           uint32_t second, uint64_t *place, uint64_t *count);

/*
 * Unpacks any 32 bits into year, month, day, hour, minute and second. Packing these gives the same
 * 32 bits again.
 */
void rootmap_unpack_date(uint32_t packed, uint32_t fields[6]);

/*
 * Reads the piece at offset `at` of a whole file. Every `at` is taken.
 *
 * A record: 0, place 0, count its size, and fields holds what ROOTMAP_PIECE_KIND to
 * ROOTMAP_PIECE_TITLE_LEN name. Where a string stands is the offset in the file of the first byte of
 * its content, after its length, which takes one byte, or five (the byte 255, then four) where it is
 * 255 or more.
 *
 * A gap: 0, place 0, count its size, and fields holds ROOTMAP_KIND_GAP, the size, and thirteen zeros.
 *
 * Refused: 5 or 6, place `at`, count 0, and fields holds fifteen zeros.
 */
uint64_t rootmap_read_piece(const uint8_t *file, size_t file_len, uint64_t at,
                            uint64_t fields[ROOTMAP_PIECE_FIELDS], uint64_t *place, uint64_t *count);

/*
 * Writes a plain key header into buf at seek_key. Its version is 1 to 2000; above 1000 SeekKey and
 * SeekPdir take eight bytes each, else four. KeyLen is 26, or 34 with a version above 1000, plus the
 * three strings, each with its length: one byte, or the byte 255 and four for 255 bytes and more.
 *
 * Success: 0, place 0, count KeyLen, and exactly the KeyLen bytes of buf from seek_key are written.
 * Refused: 15, 16 or 17, the first that applies, place 0, count 0, and buf is as it was. 15 is a
 * KeyLen above 32,767 and nothing else: no string has a limit of its own. 17 asks room for the whole
 * record, seek_key + nbytes; a record that ends where buf ends fits.
 */
uint64_t rootmap_write_key(uint32_t nbytes, uint32_t version, uint32_t objlen, uint32_t datime, int32_t cycle,
                           uint64_t seek_key, uint64_t seek_pdir, const uint8_t *class_name, size_t class_len,
                           const uint8_t *name, size_t name_len, const uint8_t *title, size_t title_len,
                           uint8_t *buf, size_t buf_len, uint64_t *place, uint64_t *count);

/*
 * Audits a whole file into three tables. There is room for as many rows as the shortest has.
 *
 * Passed: 0, place 0, count the pieces of the file. Row i, entry i of each table, describes piece i
 * in file order: its start; its part, ROOTMAP_PART_GAP to ROOTMAP_PART_UNLISTED; its owner, the
 * place of the directory that has the list (4) or lists the record (5, 6), else 0. Later entries are
 * 0, to each table's own end.
 *
 * Refused: 1 to 14, and every entry of every table is 0. The first that applies is given, and all
 * room but too little (7) gives the same. Count is 0, but for 7 the pieces of the file. Place is
 *    1 to 4, 7    0
 *    5, 6         the piece
 *    8            100
 *    9, 10        SeekFree, SeekInfo
 *    11           the directory
 *    12           SeekKeys of the directory
 *    13           the copy
 *    14           the directory, for its list, or the copy
 */
uint64_t rootmap_audit(const uint8_t *file, size_t file_len, uint64_t *start, size_t start_len,
                       uint64_t *part, size_t part_len, uint64_t *owner, size_t owner_len,
                       uint64_t *place, uint64_t *count);

/* A piece as a viewer shows it: its start, its size in bytes, its part and its owner. */
struct rootmap_row {
    uint64_t start;
    uint64_t size;
    uint64_t part;
    uint64_t owner;
};

/*
 * Audits a whole file as rootmap_audit does, and shows the rows in a list as well. There is room for
 * as many rows as the shortest of the three tables and the list has.
 *
 * Passed: as rootmap_audit, and record i of the list is start, size, part and owner of piece i; later
 * records are all 0, to the list's end. Refused: the number, place and count of rootmap_audit with
 * this room, and every entry of every table and every record is 0.
 */
uint64_t rootmap_view(const uint8_t *file, size_t file_len, uint64_t *start, size_t start_len,
                      uint64_t *part, size_t part_len, uint64_t *owner, size_t owner_len,
                      struct rootmap_row *list, size_t list_len, uint64_t *place, uint64_t *count);

/*
 * Gives back what follows a break of the chain. At the first place p where no piece stands, as
 * rootmap_audit tells it with 5 or 6, a gap is written that ends at q: the lowest place from p + 4 on
 * from which pieces fill the file to its end, or the end itself. Nothing else is looked at or mended: what
 * the gap covers is lost, and is still in the lists that name it. Keep the file as it was.
 *
 * Success: 0, place p, count q, and the four bytes of buf from p on are written and no others. Where the
 * chain is good place and count are both the file's length, and buf is as it was.
 *
 * Refused: 1 to 4, place 0; else 27, place p: fewer than 4 bytes are left from p on, or the gap would have
 * more than 2,147,483,648. Count is 0, and buf is as it was.
 *
 * seen is a scratch, a bit for each place that may be tried. It may have any length and hold anything: neither
 * changes the answer. With buf_len / 8 + 1 bytes there are at most twice as many steps as bytes. With fewer
 * the places that have no bit may be read again and again, which on damaged bytes can take as many steps as
 * the square of their number. All of it is zeros afterwards.
 */
uint64_t rootmap_salvage(uint8_t *buf, size_t buf_len, uint8_t *seen, size_t seen_len, uint64_t *place,
                         uint64_t *count);

/*
 * Audits a salvaged file: as rootmap_audit does, but the segments of the free list, of which a salvaged gap
 * is none, are not compared with the gaps. All else of the list is looked at: its record, the number of its
 * segments, their versions and widths, and the final one. What rootmap_audit passes, this passes with the
 * same rows. A pass is no pass by rootmap_audit.
 */
uint64_t rootmap_audit_salvaged(const uint8_t *file, size_t file_len, uint64_t *start, size_t start_len,
                                uint64_t *part, size_t part_len, uint64_t *owner, size_t owner_len,
                                uint64_t *place, uint64_t *count);

/*
 * Reads the unpacked StreamerInfo record at offset `at` of a whole file into a table of rows of six
 * numbers. Every `at` is taken; neither the file header nor another piece is read. There is room for
 * table_len / 6 rows, rounded down.
 *
 * Where the Version of the record's list is 4 or more, a string, the list's option, stands after each of
 * its objects. It is passed over, and is in no row: in Version 4 a length byte 0 to 255 and its bytes,
 * from Version 5 on a string as everywhere else. One that is cut or missing is 21.
 *
 * Success: 0, place 0, count the rows, one for each element in the order of the record:
 *    0  the index of the class whose element it is, from 0
 *    1  its kind, 1 to 10: TStreamerBase, TStreamerBasicType, TStreamerString, TStreamerBasicPointer,
 *       TStreamerObject, TStreamerObjectPointer, TStreamerLoop, TStreamerObjectAny, TStreamerSTL,
 *       TStreamerSTLString
 *    2  the offset in the record of its name's first length byte
 *    3  the same of its type name
 *    4  fType
 *    5  fArrayLength
 * Later entries are 0, to the table's end.
 *
 * Refused: every entry of the table is 0. 5, 6, 20 or 19, in this order: place `at`, count 0. 21, 22
 * or 23, for the first faulty field: place its offset in the file, count 0. 24, if nothing else is
 * wrong: place 0, count the rows that are needed.
 */
uint64_t rootmap_info(const uint8_t *file, size_t file_len, uint64_t at, uint32_t *table, size_t table_len,
                      uint64_t *place, uint64_t *count);

#ifdef __cplusplus
}
#endif

#endif
