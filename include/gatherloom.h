/* Gatherloom: dBASE/FoxPro tables, memo files, IDX and NDX indexes. Link with the archive that `tools/archive` builds.

   Whatever bytes, numbers and lengths come in, a call ends, touches nothing outside what it was lent, and checks for itself. The caller sees to it that no
   pointer is NULL, not even with a length of 0, that as much stands behind each as is lent, and that what a call may write overlaps nothing else that the same
   call is lent.

   Threads: a call keeps no state and holds nothing after it returns. Calls may run at the same time in several threads, as long as none of them writes what
   another one is lent.

   Stack: no call takes more bytes than this, beside those of memcpy and memset. tests/c/stack reads what each takes from the archive, and ends with 1 if one
   takes more.
       gl_interface 16, gl_index_fresh 64, gl_number_write 96, gl_number_read 128, gl_table_check 256, gl_table_shape 256, gl_fields 256, gl_walk_live 256,
       gl_table_set_date 256, gl_table_extent 256, gl_walk 288, gl_table_append 320, gl_read_logical 384, gl_text_part 384, gl_read_number 416,
       gl_read_date 416, gl_ndx_lookup 2560, gl_ndx_audit 3072, gl_index_lookup 3328, gl_index_audit 3456, gl_index_records 3456, gl_match 3712,
       gl_dilute 3840, gl_table_lay_out 4608, gl_index_remove 4992, gl_index_insert 5632

   The archive is for x86-64 Linux and the System V calling convention. It needs memcpy and memset alone, allocates no memory, has no writable data and is
   position independent. It uses SSE registers and the red zone below the stack pointer, which Linux keeps for user programs: kernel code can't call it. */
#ifndef GATHERLOOM_H
#define GATHERLOOM_H

#include <stddef.h>
#include <stdint.h>

#ifdef __cplusplus
extern "C" {
#endif

/* ---- Versions. */

#define GL_VERSION "0.14.0" /* raised with every change, see docs/CHANGES.md */
#define GL_INTERFACE 4      /* raised with every change of the form of a call or a struct */

/* The GL_INTERFACE of the archive. A host compares it with its own before the first call: if they differ, a call may write past what it is lent. */
uint32_t gl_interface(void);

/* ---- Answers. Unless said otherwise, an out-parameter keeps what it held whenever the answer is not 0, and so does every lent buffer. */

#define GL_ACCEPTED 0 /* every out-parameter is set */
#define GL_EMPTY 256  /* the field holds blanks */
#define GL_ABSENT 257 /* the key is not in the index */
#define GL_DONE 258   /* the walk has no record left */

/* The refusals, by the numbers of documents 01 and 02 (26 is unused, 34 is not given yet). If several hold, a call answers the one that its comment names
   first. A table that is refused by 1 to 10 is not read at all: the lab has to send a good copy. */
enum gl_refusal {
    /* the table as a whole */
    GL_REFUSED_TABLE_SIZE = 1,          /* size of the table: below 32 or above 16,777,216 bytes */
    GL_REFUSED_TABLE_KIND = 2,          /* kind of table: byte 0 is neither 0x03 nor 0xF5; the file is of a kind that is not handled */
    GL_REFUSED_UPDATE_DATE = 3,         /* update date: bytes 1 to 3 of the header are no calendar date; to set, no date of the years 1900 to 2155 */
    GL_REFUSED_HEADER_LENGTH = 4,       /* header length: not that of 1 to 128 fields, or the table is shorter */
    GL_REFUSED_HEADER_END_MARK = 5,     /* header end mark: the header's last byte is not 0x0D */
    GL_REFUSED_FIELD_DESCRIPTOR = 6,    /* field descriptor: a bad name, type, length or decimal count; for numeric text, a bad width or decimal count */
    GL_REFUSED_FIELD_NAME_TWICE = 7,    /* field name twice: two fields have the same name */
    GL_REFUSED_MEMO_FIELD_AND_KIND = 8, /* memo field and kind of table: an M field in kind 0x03, or none in kind 0xF5 */
    GL_REFUSED_RECORD_LENGTH = 9,       /* record length: not 1 + the fields' lengths, or above 4,000; to append, not the table's */
    GL_REFUSED_TABLE_LENGTH = 10,       /* table length: not that of its records, with or without one byte 0x1A; the file was cut short or appended to,
                                           or power failed in an append (gl_table_extent); to write, longer than the buffer */
    /* what a call asked for */
    GL_REFUSED_RECORD_NUMBER = 11,        /* record number: 0 or above the record count; records count from 1 */
    GL_REFUSED_FIELD_NUMBER = 12,         /* field number: 0 or above the field count; fields count from 1 */
    GL_REFUSED_FIELD_TYPE = 13,           /* field type: not the one that this call reads; the field list has each field's type */
    GL_REFUSED_FIELD_LIST_TOO_SHORT = 14, /* field list too short: lend an entry for each field, GL_FIELDS_MAX are always enough */
    /* one record, one field */
    GL_REFUSED_DELETION_BYTE = 15,        /* deletion byte: the record's first byte is neither 0x20 (live) nor 0x2A (deleted) */
    GL_REFUSED_COMMA = 16,                /* comma in a number: decimal or thousands mark, nobody can tell; the value is not to be used */
    GL_REFUSED_NOT_A_NUMBER = 17,         /* not a number: or one in another form than the field's, as with needless zeros or blanks behind it */
    GL_REFUSED_TOO_MANY_DIGITS = 18,      /* more than 18 digits: in the text, or in the value that is to be written */
    GL_REFUSED_DOES_NOT_FIT = 19,         /* does not fit the field: the value's text is longer than the buffer */
    GL_REFUSED_DATE_OR_LOGICAL = 20,      /* not a date or logical value: no day YYYYMMDD of the years 1 to 9999, or neither T nor F */
    GL_REFUSED_MEMO_NUMBER_OR_PLACE = 21, /* memo number or place: the field holds no block number, or that block is not within the memo file */
    GL_REFUSED_MEMO_HEADER = 22,          /* memo header: no memo file, or one with a bad size or block size; was the right file lent? */
    GL_REFUSED_MEMO_NOT_TEXT = 23,        /* memo is not text: the block is of another type */
    /* the index */
    GL_REFUSED_INDEX_HEADER = 24,           /* index header: not that of a plain index, or, for a dilution, of one with several records to a key; for a
                                               fresh index, a bad key expression or features other than 0 and 1 */
    GL_REFUSED_INDEX_NOT_SOUND = 25,        /* index not sound: make it anew from the table by fresh and insertion */
    GL_REFUSED_KEY_LENGTH = 27,             /* key length: not the index's; for a fresh index, not 1 to 100; for the match, not the field's length */
    GL_REFUSED_RECORD_NUMBER_ZERO = 28,     /* record number 0: records count from 1 */
    GL_REFUSED_KEY_PRESENT = 29,            /* key present: the index has the key already, and keeps its record; with features 0, it has this very pair */
    GL_REFUSED_NO_ROOM = 30,                /* no room: lend a longer buffer; past 16,777,216 bytes a table or an index is full, past 15 levels an index too;
                                               after many removals a fresh index with the same keys may have room (gl_index_remove) */
    GL_REFUSED_INDEX_AND_TABLE_DIFFER = 31, /* index and table differ: make the index anew from the table */
    GL_REFUSED_CONTROL_BYTE = 32,           /* control byte in the key: a byte below 0x20 in a key to insert; was the barcode scanned well? */
    GL_REFUSED_KEY_ABSENT = 33,             /* key absent: the key to strike off is not in the index; with features 0, not with this record */
    /* the dilution of a sample: for each of these nothing is to be pipetted */
    GL_REFUSED_BARCODE_ABSENT = 35,             /* barcode absent or deleted: the table has no live record of this barcode */
    GL_REFUSED_NO_CONCENTRATION = 36,           /* no concentration: the record's is empty, zero or negative */
    GL_REFUSED_TARGET_OR_VOLUME = 37,           /* target or volume out of range: not 1 to GL_TARGET_MAX, or not 1 to GL_FINAL_MAX */
    GL_REFUSED_TARGET_ABOVE_CONCENTRATION = 38, /* target above concentration: no dilution reaches it */
    /* all records of a key */
    GL_REFUSED_RECORD_LIST_TOO_SHORT = 39, /* record list too short: the key has more records than the lent list has entries */
    /* programs alone: no call answers it */
    GL_REFUSED_ARGUMENTS_OR_FILES = 40 /* arguments or files: what a program was given, or a file that can't be read or is too long */
};

/* ---- Limits. */

#define GL_TABLE_MIN 32           /* bytes of a table */
#define GL_TABLE_MAX 16777216
#define GL_FIELDS_MAX 128         /* fields of a table, at least 1 */
#define GL_RECORD_LENGTH_MAX 4000 /* bytes of a record, its deletion byte among them */
#define GL_MEMO_MIN 512           /* bytes of a memo file */
#define GL_MEMO_MAX 16777216
#define GL_NUMBER_WIDTH_MAX 20    /* bytes of a numeric text, at least 1 */
#define GL_NUMBER_DECIMALS_MAX 15 /* and at most the width less 2 */
#define GL_NUMBER_DIGITS_MAX 18   /* digits of a number, those behind the point among them */
#define GL_INDEX_MIN 1024         /* bytes of an index; its buffer may be longer; a release before 0.10.0 refuses one above 1,048,576 by 24 */
#define GL_INDEX_MAX 16777216     /* of an NDX index too, and its levels */
#define GL_INDEX_LEVELS_MAX 15
#define GL_KEY_MAX 100            /* bytes of a key, at least 1 */
#define GL_EXPRESSION_MAX 220     /* bytes of a key expression, at least 1, each 0x20 to 0x7E */
#define GL_TARGET_MAX 1000000000  /* thousandths of nM of a target concentration, at least 1 */
#define GL_FINAL_MAX 10000        /* tenths of a microlitre of a final volume, at least 1 */
#define GL_STACK_MAX 6144         /* bytes of stack that are enough for any call */

/* ---- The table. */

/* 0 if the table is good, else 1 to 10. */
uint32_t gl_table_check(const uint8_t *table, size_t table_len);

/* How many records and fields there are, and the bytes of a record. 1 to 10. */
uint32_t gl_table_shape(const uint8_t *table, size_t table_len,
                        uint32_t *records, uint32_t *fields, uint32_t *record_length);

/* A field: its name with zeros after it, its type's letter, its length, its decimals, and its offset inside a record. The deletion byte has offset 0, so the
   first field has 1; the fields follow one another and end with the record. The offset is worked out from the lengths: bytes 12 to 15 of a descriptor, where
   other programs keep one, are not read. 16 bytes, aligned as a uint16_t. */
typedef struct { uint8_t name[11]; uint8_t kind; uint8_t length; uint8_t decimals; uint16_t offset; } gl_field_entry;

/* The field list. 1 to 10, then 14 if fewer entries are lent than there are fields. Entries past the field count are kept. */
uint32_t gl_fields(const uint8_t *table, size_t table_len, gl_field_entry *entries, size_t entry_count);

/* How many records a walk has passed; 0 at first. */
typedef struct { uint32_t passed; } gl_position;

/* The next record, deleted or not. 1 to 10, then 0 with the record's number and its mark, 1 where it is deleted and 0 where it is not, 15 (the position has
   moved past the bad record) or 258 (the position stays). */
uint32_t gl_walk(const uint8_t *table, size_t table_len, gl_position *position, uint32_t *record, uint8_t *deleted);

/* The next record that is not deleted. Answers as those of gl_walk; 258 also if none but deleted records are left, and the position stays where it was. */
uint32_t gl_walk_live(const uint8_t *table, size_t table_len, gl_position *position, uint32_t *record);

/* ---- Writing a table. It lies in the buffer's first table_len bytes; the buffer may be longer.

   An append makes two stores in the buffer, and the host makes them in its file, each in its place. First the record's, record_length bytes at record_place;
   only when these are durable (fsync), the count's, count_length bytes at count_place, which lie in one sector of the disk and must get there together. Before
   the second the file holds the old table, after it the new one. After a power loss, and before any other call, the host shortens the file to the length that
   gl_table_extent gives: with the first store alone, or a part of it, other calls refuse the file by 10. */

/* Lays out a table of these fields and no records. 3 unless it is a date of the years 1900 to 2155, 4 unless there are 1 to 128 entries, 6, 7, 9, 30 if the
   buffer has fewer than 34 + 32 * entry_count bytes. So many are written, the end mark last: that is the table, and the whole file. Later bytes are kept. The
   kind of table follows from whether an M field is listed. The entries' offsets are not read: any will do. */
uint32_t gl_table_lay_out(uint8_t *buffer, size_t buffer_len, const gl_field_entry *entries, size_t entry_count,
                          uint32_t year, uint32_t month, uint32_t day);

/* Appends one record, given as its bytes: the deletion byte and each field's text. 10 if table_len is above buffer_len, 1 to 10, 9 if the record has another
   length than the table's, 15, then for each field's text in order 16 to 18 (N), 20 (D and L) or 21 (M: its form alone, the memo file is not looked at), with
   blanks accepted; 30 if the new end mark would lie past the buffer or past 16,777,216 bytes. 0 sets all four: the two stores, the record with the new end
   mark, and the count. The table's length is then record_place + record_length. Each text is kept as it is given, also .150, which releases before K4's
   (docs/CHANGES.md) refuse by 17 when they read it. */
uint32_t gl_table_append(uint8_t *buffer, size_t buffer_len, size_t table_len, const uint8_t *record, size_t record_len,
                         uint64_t *record_place, uint64_t *record_length, uint64_t *count_place, uint64_t *count_length);

/* Sets the update date, bytes 1 to 3. 10 if table_len is above buffer_len, 1 to 10 (so a table with a bad date stays refused), 3 unless it is a date of the
   years 1900 to 2155. */
uint32_t gl_table_set_date(uint8_t *buffer, size_t buffer_len, size_t table_len, uint32_t year, uint32_t month, uint32_t day);

/* For the host after a power loss: the length of the table that a file begins with, by the table's own count and without an end mark. 1 to 9, 10 if the file
   is shorter. */
uint32_t gl_table_extent(const uint8_t *table, size_t table_len, uint64_t *length);

/* ---- One field of one record, both counted from 1. 1 to 13, 15, then what concerns the text; 256 for an empty field. */

/* An N field's value, in units of 10 to the -decimals. 16, 17, 18. */
uint32_t gl_read_number(const uint8_t *table, size_t table_len, uint32_t record, uint32_t field, int64_t *value);

/* A D field's day. 20. */
uint32_t gl_read_date(const uint8_t *table, size_t table_len, uint32_t record, uint32_t field,
                      uint32_t *year, uint32_t *month, uint32_t *day);

/* An L field: 1 for true, 0 for false. 20. */
uint32_t gl_read_logical(const uint8_t *table, size_t table_len, uint32_t record, uint32_t field, uint8_t *value);

/* A C field's part of the table, or an M field's part of the memo file: where it starts and how long it is. For an M field 21 for the number's text, 22,
   21 for the block's place, 23; a C field's call does not look at the memo file. */
uint32_t gl_text_part(const uint8_t *table, size_t table_len, const uint8_t *memo, size_t memo_len,
                      uint32_t record, uint32_t field, uint64_t *start, uint64_t *length);

/* ---- Numeric text. The text's, or the buffer's, length is the field's width. */

/* 6, 256, 16, 17, 18. The zero before the point may be missing, as in -.150, unless all digits are zeros. */
uint32_t gl_number_read(const uint8_t *text, size_t width, uint32_t decimals, int64_t *value);

/* Fills the whole buffer, blanks on the left. 6, 18, 19. The zero before the point is always written, so a value that was read may not fit where it stood: -150
   with 3 decimals is read from -.150, and 19 in those five bytes. */
uint32_t gl_number_write(uint8_t *text, size_t width, uint32_t decimals, int64_t value);

/* ---- The index. */

/* Makes an index of no keys in the first 1,024 bytes. 27, 24, 30. With features 1 a key has one record, with features 0 it may have several, in the order of
   their numbers. */
uint32_t gl_index_fresh(uint8_t *index, size_t index_len, uint32_t key_length, uint32_t features,
                        const uint8_t *expression, size_t expression_len);

/* 0 exactly if the index is sound, 24 if its header is bad, else 25. A key above a page may be higher than every key under that page, as FoxPro leaves it when
   the last of them is struck off, if it is below the first key under the next page; releases before 0.7.0 refuse such an index by 25. */
uint32_t gl_index_audit(const uint8_t *index, size_t index_len);

/* The record of a key, the first if it has several, and how many pages were visited. 24, 27, 25. 0 sets both; 257 sets pages alone. */
uint32_t gl_index_lookup(const uint8_t *index, size_t index_len, const uint8_t *key, size_t key_len,
                         uint32_t *record, uint32_t *pages);

/* Inserts a key with its record's number. 24, 27, 32, 28, 25, 29, 30. With features 0, 29 is for the very pair of key and number. An index that an earlier
   release made may hold keys with control bytes: the other calls take them as any key. New pages are those that removals freed, and only then pages past the
   index's end. */
uint32_t gl_index_insert(uint8_t *index, size_t index_len, const uint8_t *key, size_t key_len, uint32_t record);

/* Strikes the pair of a key and a record's number off; with features 1 the number isn't looked at. 24, 27, 25, 33. The pages that are emptied are free for
   later insertions; the index's own size, bytes 8 to 11, never falls, so the host can't shorten its file. Nor do the levels fall, until the last key goes and
   there is one level again: a long list of ascending insertions and removals can end in 30 with few keys left (seen with keys of 100 bytes: the 265,721st
   insertion made 12 levels of 35 keys, and each level more takes three times as many insertions). The way out is a fresh index, into which the host inserts
   the keys that are left. An earlier release refuses an index with free pages by 24. */
uint32_t gl_index_remove(uint8_t *index, size_t index_len, const uint8_t *key, size_t key_len, uint32_t record);

/* All records of a key, in order, into a list of room entries, and how many they are, 0 for none. Entries past them are kept. 24, 27, 25, 39. */
uint32_t gl_index_records(const uint8_t *index, size_t index_len, const uint8_t *key, size_t key_len,
                          uint32_t *records, size_t room, uint32_t *count);

/* Matches an index against a field of a table: 0 if each record, deleted or not, has exactly one entry, its key that record's field, and there are
   no other entries. 1 to 10, 24, 12, 13, 27, 25, 31. */
uint32_t gl_match(const uint8_t *table, size_t table_len, const uint8_t *index, size_t index_len, uint32_t field);

/* ---- NDX indexes of dBASE III, read only: character keys, each with one record. */

/* 0 exactly if the index is sound, 24 if its header is bad, else 25. */
uint32_t gl_ndx_audit(const uint8_t *index, size_t index_len);

/* The record of a key, and how many pages were visited. 24, 27, 25. 0 sets both; 257 sets pages alone. */
uint32_t gl_ndx_lookup(const uint8_t *index, size_t index_len, const uint8_t *key, size_t key_len, uint32_t *record, uint32_t *pages);

/* ---- The dilution of a sample. */

/* How much of the sample with this barcode, and how much diluent, make the final volume with the target concentration. Volumes are in tenths of a microlitre,
   the target in thousandths of nM, as the concentration's field with its three decimals. The sample is target * final_volume / concentration to the nearest
   tenth, halves up; sample and diluent add to the final volume. As gl_match for the barcode's field, then 12, 13 unless the concentration's field is N with
   three decimals, 27, 35 if no record has the barcode, 15, 35 if its record is deleted, 16 to 18 by the concentration's text, 36, 37, 38. 0 sets both. An
   index with features 0 is 24. The match is made anew by each call. */
uint32_t gl_dilute(const uint8_t *table, size_t table_len, const uint8_t *index, size_t index_len, uint32_t barcode_field,
                   uint32_t concentration_field, const uint8_t *barcode, size_t barcode_len, uint64_t target, uint64_t final_volume,
                   uint32_t *sample, uint32_t *diluent);

#ifdef __cplusplus
}
#endif

#endif
