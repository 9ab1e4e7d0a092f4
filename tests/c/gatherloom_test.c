/* Calls every function of the archive and compares: with document 01's examples, with the reports on other programs' tables that an independent
   implementation worked out (crates/test_samples), and with that implementation's lists of calls and their files (crates/test_indexes, crates/test_writing).
   What is lent lies between canaries, and what a call may not write is compared with what it was.

       gatherloom_test REPOSITORY

   prints how many comparisons it made, and a line for each that differs; it exits 1 if any does. */
#include "gatherloom.h"

#include <inttypes.h>
#include <stdarg.h>
#include <stdio.h>
#include <stdlib.h>
#include <string.h>

/* ---- Comparisons. */

static unsigned long checks, differences;

static void same(int line, const char *what, int64_t got, int64_t want)
{
    checks++;
    if (got == want)
        return;
    differences++;
    printf("line %d: %s is %" PRId64 ", not %" PRId64 "\n", line, what, got, want);
}

#define SAME(got, want) same(__LINE__, #got, (int64_t)(got), (int64_t)(want))

static void same_bytes(int line, const char *what, const void *got, const void *want, size_t n)
{
    checks++;
    if (n == 0 || memcmp(got, want, n) == 0)
        return;
    differences++;
    printf("line %d: %s differs\n", line, what);
}

#define SAME_BYTES(got, want, n) same_bytes(__LINE__, #got, got, want, n)

/* ---- Lent memory: bytes between canaries, with a copy of what they were. */

enum { MARGIN = 64, CANARY = 0xA5 };

typedef struct {
    uint8_t *all;   /* the canaries and the bytes */
    uint8_t *bytes; /* what is lent */
    uint8_t *copy;  /* what it was when it was kept last */
    size_t len;
} lent;

static void *room(size_t n)
{
    void *p = malloc(n);
    if (p == NULL) {
        puts("no memory");
        exit(1);
    }
    return p;
}

static void keep(lent *l)
{
    memcpy(l->copy, l->bytes, l->len);
}

static lent lend(const void *bytes, size_t len)
{
    lent l;
    l.len = len;
    l.all = room(len + 2 * MARGIN);
    l.bytes = l.all + MARGIN;
    l.copy = room(len + 1);
    memset(l.all, CANARY, len + 2 * MARGIN);
    if (bytes == NULL)
        memset(l.bytes, 0, len);
    else
        memcpy(l.bytes, bytes, len);
    keep(&l);
    return l;
}

static int margins_intact(const lent *l)
{
    for (size_t i = 0; i < MARGIN; i++)
        if (l->all[i] != CANARY || l->bytes[l->len + i] != CANARY)
            return 0;
    return 1;
}

#define MARGINS(l) SAME(margins_intact(&(l)), 1)
#define UNCHANGED(l) SAME_BYTES((l).bytes, (l).copy, (l).len)

static void give_back(lent *l)
{
    free(l->all);
    free(l->copy);
}

/* Out-parameters between canaries of their own type: [1] is lent. */
#define OLD 77
#define OUT(type, name) type name[3] = {CANARY, OLD, CANARY}
#define HELD(name, want)        \
    do {                        \
        SAME(name[0], CANARY);  \
        SAME(name[1], want);    \
        SAME(name[2], CANARY);  \
    } while (0)

/* ---- Files. */

static const char *repository = ".";
static const char samples[] = "crates/test_samples", samples_data[] = "crates/test_samples/data", indexes_data[] = "crates/test_indexes/data";
static const char equal_keys_data[] = "crates/test_equal_keys/data";
static const char dilution_data[] = "crates/test_dilution/data";

static lent load(const char *folder, const char *name)
{
    char path[1024];
    static uint8_t space[1 << 20];
    snprintf(path, sizeof path, "%s/%s/%s", repository, folder, name);
    FILE *f = fopen(path, "rb");
    if (f == NULL) {
        printf("cannot open %s\n", path);
        exit(1);
    }
    size_t n = fread(space, 1, sizeof space, f);
    fclose(f);
    return lend(space, n);
}

/* ---- The archive is the one that the header declares. */

static void test_interface(void)
{
    SAME(gl_interface(), GL_INTERFACE);
    SAME(sizeof(gl_field_entry), 16);
    SAME(offsetof(gl_field_entry, offset), 14);
    SAME(sizeof(gl_position), 4);
}

/* ---- Numeric text. */

static void reads(int line, const char *text, uint32_t decimals, uint32_t answer, int64_t value)
{
    lent l = lend(text, strlen(text));
    OUT(int64_t, out);
    same(line, text, gl_number_read(l.bytes, l.len, decimals, &out[1]), answer);
    HELD(out, answer == 0 ? value : OLD);
    UNCHANGED(l);
    MARGINS(l);
    give_back(&l);
}

#define READS(text, decimals, answer, value) reads(__LINE__, text, decimals, answer, value)

static void test_number_read(void)
{
    READS("   2.150", 3, 0, 2150);
    READS("   2,150", 3, 16, 0);
    READS("-0.001", 3, 0, -1);
    READS("-0.000", 3, 17, 0);
    READS("02.150", 3, 17, 0);
    READS("2.150 ", 3, 17, 0);
    READS("  2150", 0, 0, 2150);
    READS(" 9999999999999999999", 0, 18, 0);
    READS("  999999999999999999", 0, 0, 999999999999999999);
    READS(" -999999999999999999", 0, 0, -999999999999999999);
    READS("        ", 3, GL_EMPTY, 0);
    READS("  0", 0, 0, 0);
    READS("+12", 0, 17, 0);
    READS("- 1", 0, 17, 0);
    READS("  -", 0, 17, 0);
    READS(" .5", 1, 0, 5);
    READS("   .150", 3, 0, 150);
    READS("-.150", 3, 0, -150);
    READS(" .000", 3, 17, 0);
    READS("-.000", 3, 17, 0);
    READS("    .", 3, 17, 0);
    READS(".", 0, 17, 0);
    READS(".5", 0, 17, 0);
    READS("+.150", 3, 17, 0);
    READS("..150", 3, 17, 0);
    READS("- .150", 3, 17, 0);
    READS(" .15", 3, 6, 0);
    READS(" .15,", 3, 16, 0);
    READS("  -.999999999999999", 15, 0, -999999999999999);
    READS("1e3", 0, 17, 0);
    READS("x,y", 0, 16, 0);
    READS("", 0, 6, 0);
    READS("                     ", 0, 6, 0);
    READS("   2.150", 7, 6, 0);
    READS("  0.000000", 16, 6, 0);
    READS("   2.150", UINT32_MAX, 6, 0);
}

/* The text that printf gives for a value, by other means than the library's. */
static int expected_text(char *to, size_t size, uint32_t decimals, int64_t value)
{
    uint64_t n = value < 0 ? 0 - (uint64_t)value : (uint64_t)value, unit = 1;
    for (uint32_t i = 0; i < decimals; i++)
        unit *= 10;
    if (decimals == 0)
        return snprintf(to, size, "%s%" PRIu64, value < 0 ? "-" : "", n);
    return snprintf(to, size, "%s%" PRIu64 ".%0*" PRIu64, value < 0 ? "-" : "", n / unit, (int)decimals, n % unit);
}

static uint32_t expected_write(char *to, size_t width, uint32_t decimals, int64_t value)
{
    char text[64];
    if (width < 1 || width > 20 || (decimals > 0 && (decimals > 15 || decimals + 2 > width)))
        return 6;
    if (value > 999999999999999999 || value < -999999999999999999)
        return 18;
    int n = expected_text(text, sizeof text, decimals, value);
    if ((size_t)n > width)
        return 19;
    snprintf(to, 64, "%*s", (int)width, text);
    return 0;
}

/* Writes a value and reads it back. */
static void writes(size_t width, uint32_t decimals, int64_t value)
{
    char text[64];
    uint32_t answer = expected_write(text, width, decimals, value);
    lent l = lend(NULL, width);
    memset(l.bytes, '#', width);
    keep(&l);
    SAME(gl_number_write(l.bytes, width, decimals, value), answer);
    MARGINS(l);
    if (answer == 0) {
        SAME_BYTES(l.bytes, text, width);
        OUT(int64_t, back);
        SAME(gl_number_read(l.bytes, width, decimals, &back[1]), 0);
        HELD(back, value);
    } else {
        UNCHANGED(l);
    }
    give_back(&l);
}

static void test_number_write(void)
{
    static const int64_t values[] = {0, 1, -1, 9, 10, 99, -150, 2150, -2150, 1000000, 123456789, -9999999999, 999999999999999999,
                                     -999999999999999999, 1000000000000000000, -1000000000000000000, INT64_MAX, INT64_MIN};
    for (size_t v = 0; v < sizeof values / sizeof *values; v++)
        for (size_t width = 0; width <= 22; width++)
            for (uint32_t decimals = 0; decimals <= 17; decimals++)
                writes(width, decimals, values[v]);
    writes(8, UINT32_MAX, 1);
}

/* ---- Tables made here: fields of the given types and lengths, and one record. */

typedef struct { char kind; uint8_t length; uint8_t decimals; } form;

static size_t make_table(uint8_t *to, uint8_t kind, const form *forms, size_t count, const char *record)
{
    size_t head = 33 + 32 * count, size = strlen(record);
    memset(to, 0, head);
    to[0] = kind;
    to[1] = 124, to[2] = 2, to[3] = 29;
    to[4] = 1;
    to[8] = head & 255, to[9] = head >> 8;
    to[10] = size & 255, to[11] = size >> 8;
    for (size_t i = 0; i < count; i++) {
        uint8_t *d = to + 32 + 32 * i;
        d[0] = 'F', d[1] = '0' + i;
        d[11] = forms[i].kind, d[16] = forms[i].length, d[17] = forms[i].decimals;
    }
    to[head - 1] = 0x0D;
    memcpy(to + head, record, size);
    to[head + size] = 0x1A;
    return head + size + 1;
}

static void reads_date(const char *record, uint32_t answer, uint32_t y, uint32_t m, uint32_t d)
{
    static const form one[] = {{'D', 8, 0}};
    uint8_t bytes[256];
    lent t = lend(bytes, make_table(bytes, 0x03, one, 1, record));
    OUT(uint32_t, year);
    OUT(uint32_t, month);
    OUT(uint32_t, day);
    SAME(gl_read_date(t.bytes, t.len, 1, 1, &year[1], &month[1], &day[1]), answer);
    HELD(year, answer == 0 ? y : OLD);
    HELD(month, answer == 0 ? m : OLD);
    HELD(day, answer == 0 ? d : OLD);
    UNCHANGED(t);
    MARGINS(t);
    give_back(&t);
}

static void test_dates(void)
{
    reads_date(" 20000229", 0, 2000, 2, 29);
    reads_date(" 19000229", 20, 0, 0, 0);
    reads_date(" 20230229", 20, 0, 0, 0);
    reads_date(" 00010101", 0, 1, 1, 1);
    reads_date("*99991231", 0, 9999, 12, 31);
    reads_date(" 00000101", 20, 0, 0, 0);
    reads_date(" 2000 229", 20, 0, 0, 0);
    reads_date("         ", GL_EMPTY, 0, 0, 0);
    reads_date("?20000229", 15, 0, 0, 0);
}

static void reads_logical(const char *record, uint32_t answer, uint8_t value)
{
    static const form one[] = {{'L', 1, 0}};
    uint8_t bytes[256];
    lent t = lend(bytes, make_table(bytes, 0x03, one, 1, record));
    OUT(uint8_t, out);
    SAME(gl_read_logical(t.bytes, t.len, 1, 1, &out[1]), answer);
    HELD(out, answer == 0 ? value : OLD);
    UNCHANGED(t);
    give_back(&t);
}

static void test_logicals(void)
{
    reads_logical(" T", 0, 1);
    reads_logical(" F", 0, 0);
    reads_logical("*T", 0, 1);
    reads_logical("  ", GL_EMPTY, 0);
    reads_logical(" t", 20, 0);
    reads_logical("xT", 15, 0);
}

/* A C field and an M field; the memo file has a text of 5 bytes in block 16 of 64 bytes. */
static void test_text_parts(void)
{
    static const form two[] = {{'C', 4, 0}, {'M', 10, 0}};
    uint8_t bytes[256], file[2048] = {0};
    lent t = lend(bytes, make_table(bytes, 0xF5, two, 2, " a  b        16"));
    file[3] = 17, file[7] = 64;
    file[1024 + 3] = 1, file[1024 + 7] = 5;
    lent m = lend(file, sizeof file);
    OUT(uint64_t, start);
    OUT(uint64_t, length);
    SAME(gl_text_part(t.bytes, t.len, m.bytes, m.len, 1, 1, &start[1], &length[1]), 0);
    HELD(start, 33 + 64 + 1);
    HELD(length, 4);
    SAME(gl_text_part(t.bytes, t.len, m.bytes, m.len, 1, 2, &start[1], &length[1]), 0);
    HELD(start, 1032);
    HELD(length, 5);
    start[1] = length[1] = OLD;
    SAME(gl_text_part(t.bytes, t.len, m.bytes, 0, 1, 2, &start[1], &length[1]), 22);
    m.bytes[1024 + 3] = 0;
    SAME(gl_text_part(t.bytes, t.len, m.bytes, m.len, 1, 2, &start[1], &length[1]), 23);
    m.bytes[1024 + 7] = 200;
    SAME(gl_text_part(t.bytes, t.len, m.bytes, m.len, 1, 2, &start[1], &length[1]), 21);
    memset(t.bytes + 97 + 5, ' ', 10);
    SAME(gl_text_part(t.bytes, t.len, m.bytes, m.len, 1, 2, &start[1], &length[1]), GL_EMPTY);
    HELD(start, OLD);
    HELD(length, OLD);
    /* a C field's call does not look at the memo file */
    SAME(gl_text_part(t.bytes, t.len, m.bytes, 0, 1, 1, &start[1], &length[1]), 0);
    HELD(length, 4);
    MARGINS(t);
    MARGINS(m);
    give_back(&t);
    give_back(&m);
}

/* ---- What every call on a table answers, for one record and one field. */

typedef struct { uint32_t number, date, logical, text; } answers;

static answers read_all(const lent *t, uint32_t record, uint32_t field)
{
    answers a;
    OUT(int64_t, value);
    OUT(uint32_t, year);
    OUT(uint32_t, month);
    OUT(uint32_t, day);
    OUT(uint8_t, logical);
    OUT(uint64_t, start);
    OUT(uint64_t, length);
    const uint8_t none = 0;
    a.number = gl_read_number(t->bytes, t->len, record, field, &value[1]);
    a.date = gl_read_date(t->bytes, t->len, record, field, &year[1], &month[1], &day[1]);
    a.logical = gl_read_logical(t->bytes, t->len, record, field, &logical[1]);
    a.text = gl_text_part(t->bytes, t->len, &none, 0, record, field, &start[1], &length[1]);
    if (a.number != 0) HELD(value, OLD);
    if (a.date != 0) HELD(year, OLD);
    if (a.date != 0) HELD(month, OLD);
    if (a.date != 0) HELD(day, OLD);
    if (a.logical != 0) HELD(logical, OLD);
    if (a.text != 0) HELD(start, OLD);
    if (a.text != 0) HELD(length, OLD);
    return a;
}

static void all_answer(const lent *t, uint32_t record, uint32_t field, uint32_t want)
{
    answers a = read_all(t, record, field);
    SAME(a.number, want);
    SAME(a.date, want);
    SAME(a.logical, want);
    SAME(a.text, want);
}

/* Refusals 11, 12, 13 and 15, in this order. */
static void test_read_order(void)
{
    lent t = load(samples_data, "shp_point.dbf");
    all_answer(&t, 0, 0, 11);
    all_answer(&t, 6, 9, 11);
    all_answer(&t, UINT32_MAX, 1, 11);
    all_answer(&t, 1, 0, 12);
    all_answer(&t, 5, 5, 12);
    answers a = read_all(&t, 1, 2);
    SAME(a.number, 0);
    SAME(a.date, 13);
    SAME(a.logical, 13);
    SAME(a.text, 13);
    t.bytes[161] = 'x';
    a = read_all(&t, 1, 3);
    SAME(a.number, 13);
    SAME(a.date, 15);
    SAME(a.logical, 13);
    SAME(a.text, 13);
    give_back(&t);
}

/* Append and the date refuse a bad table by the check's number, and so does the extent, which takes a file that is too long. */
static void refused_writing(const lent *t, uint32_t check)
{
    const uint8_t none = 0;
    OUT(uint64_t, record_place);
    OUT(uint64_t, record_length);
    OUT(uint64_t, count_place);
    OUT(uint64_t, count_length);
    OUT(uint64_t, length);
    SAME(gl_table_append(t->bytes, t->len, t->len, &none, 0, &record_place[1], &record_length[1], &count_place[1], &count_length[1]), check);
    HELD(record_place, OLD);
    HELD(record_length, OLD);
    HELD(count_place, OLD);
    HELD(count_length, OLD);
    SAME(gl_table_set_date(t->bytes, t->len, t->len, 2024, 2, 29), check);
    SAME(gl_table_set_date(t->bytes, t->len, t->len + 1, 2024, 2, 29), 10);
    uint32_t extent = gl_table_extent(t->bytes, t->len, &length[1]);
    if (extent != 0) {
        SAME(extent, check);
        HELD(length, OLD);
    } else {
        SAME(check, 10);
        SAME(length[1] < t->len, 1);
    }
}

/* Where a table is refused, every call answers the check's number and leaves what it was lent. */
static void refused_alike(const lent *t, uint32_t check)
{
    OUT(uint32_t, records);
    OUT(uint32_t, fields);
    OUT(uint32_t, length);
    OUT(uint32_t, record);
    OUT(uint8_t, deleted);
    gl_position position = {OLD};
    gl_field_entry entry, before;
    memset(&entry, CANARY, sizeof entry);
    before = entry;
    SAME(gl_table_shape(t->bytes, t->len, &records[1], &fields[1], &length[1]), check);
    SAME(gl_fields(t->bytes, t->len, &entry, 1), check);
    SAME(gl_walk(t->bytes, t->len, &position, &record[1], &deleted[1]), check);
    SAME(gl_walk_live(t->bytes, t->len, &position, &record[1]), check);
    HELD(deleted, OLD);
    HELD(records, OLD);
    HELD(fields, OLD);
    HELD(length, OLD);
    HELD(record, OLD);
    SAME(position.passed, OLD);
    SAME_BYTES(&entry, &before, sizeof entry);
    all_answer(t, 0, 0, check);
    refused_writing(t, check);
}

static void test_damaged_table(const char *name)
{
    static const uint8_t masks[] = {0x01, 0x20, 0x80, 0xFF};
    lent t = load(samples_data, name);
    for (size_t i = 0; i < t.len; i++)
        for (size_t m = 0; m < sizeof masks; m++) {
            t.bytes[i] ^= masks[m];
            keep(&t);
            uint32_t check = gl_table_check(t.bytes, t.len);
            if (check != 0) {
                SAME(check <= 10, 1);
                refused_alike(&t, check);
            }
            UNCHANGED(t);
            t.bytes[i] ^= masks[m];
        }
    for (size_t n = 0; n < t.len - 1; n++) {
        uint64_t length;
        SAME(gl_table_check(t.bytes, n) != 0, 1);
        SAME(gl_table_extent(t.bytes, n, &length) != 0, 1);
    }
    SAME(gl_table_check(t.bytes, 0), 1);
    SAME(gl_table_check(t.bytes, 31), 1);
    MARGINS(t);
    give_back(&t);
}

static void test_fields(void)
{
    lent t = load(samples_data, "shp_point.dbf");
    gl_field_entry entries[6], before[6];
    memset(entries, CANARY, sizeof entries);
    memcpy(before, entries, sizeof entries);
    for (size_t n = 0; n < 4; n++)
        SAME(gl_fields(t.bytes, t.len, entries, n), 14);
    SAME_BYTES(entries, before, sizeof entries);
    SAME(gl_fields(t.bytes, t.len, entries, 4), 0);
    SAME_BYTES(entries[0].name, "BARCODE\0\0\0", 11);
    SAME_BYTES(entries[3].name, "OK\0\0\0\0\0\0\0\0", 11);
    SAME(entries[1].kind, 'N');
    SAME(entries[1].length, 8);
    SAME(entries[1].decimals, 3);
    SAME(entries[0].offset, 1);
    SAME(entries[1].offset, 11);
    SAME(entries[2].offset, 19);
    SAME(entries[3].offset, 27);
    SAME_BYTES(entries + 4, before + 4, 2 * sizeof *entries);
    SAME(gl_fields(t.bytes, t.len, entries, 6), 0);
    SAME_BYTES(entries + 4, before + 4, 2 * sizeof *entries);
    UNCHANGED(t);
    MARGINS(t);
    give_back(&t);
}

/* A table whose bytes 12 to 15 of each descriptor mislead: the lines `field` of another program's answers, whatever stands there. */
static void test_offsets(void)
{
    lent t = load(samples_data, "k7_k8.dbf"), want = load(samples_data, "k7_k8.expected");
    gl_field_entry entries[6];
    char lines[1024];
    for (size_t set = 0; set <= 6; set++) {
        size_t n = 0;
        SAME(gl_fields(t.bytes, t.len, entries, 6), 0);
        for (int j = 1; j <= 6; j++) {
            const gl_field_entry *e = &entries[j - 1];
            n += (size_t)snprintf(lines + n, sizeof lines - n, "field %d %s %c %d %d offset %d\n", j, (const char *)e->name, e->kind, e->length, e->decimals,
                                  e->offset);
        }
        SAME(n < want.len, 1);
        SAME_BYTES(lines, want.bytes, n);
        SAME_BYTES(want.bytes + n, "walk", 4);
        if (set < 6)
            memset(t.bytes + 32 + 32 * set + 12, 0xFF, 4);
    }
    MARGINS(t);
    give_back(&t);
    give_back(&want);
}

/* One step of a walk: what it answers, and the position, the number and the mark after it. */
#define STEP(answer, passed_, number, mark)                                                       \
    do {                                                                                          \
        SAME(gl_walk(t.bytes, t.len, &position, &record[1], &deleted[1]), answer);                \
        SAME(position.passed, passed_);                                                           \
        HELD(record, number);                                                                     \
        HELD(deleted, mark);                                                                      \
    } while (0)

#define STEP_LIVE(answer, passed_, number)                                   \
    do {                                                                     \
        SAME(gl_walk_live(t.bytes, t.len, &position, &record[1]), answer);   \
        SAME(position.passed, passed_);                                      \
        HELD(record, number);                                                \
    } while (0)

/* Record 4 of the table is deleted; record 2 is made bad. */
static void test_walk(void)
{
    lent t = load(samples_data, "shp_point.dbf");
    gl_position position = {0};
    OUT(uint32_t, record);
    OUT(uint8_t, deleted);
    t.bytes[161 + 28] = 'x';
    keep(&t);
    STEP(0, 1, 1, 0);
    STEP(15, 2, 1, 0);
    STEP(0, 3, 3, 0);
    STEP(0, 4, 4, 1);
    STEP(0, 5, 5, 0);
    STEP(GL_DONE, 5, 5, 0);
    /* at 15 and at done number and mark keep what they held */
    position.passed = 3;
    STEP(0, 4, 4, 1);
    position.passed = 1;
    STEP(15, 2, 4, 1);
    position.passed = UINT32_MAX;
    STEP(GL_DONE, UINT32_MAX, 4, 1);
    MARGINS(t);
    give_back(&t);
}

static void test_walk_live(void)
{
    lent t = load(samples_data, "shp_point.dbf");
    gl_position position = {0};
    OUT(uint32_t, record);
    t.bytes[161 + 28] = 'x';
    keep(&t);
    STEP_LIVE(0, 1, 1);
    STEP_LIVE(15, 2, 1);
    STEP_LIVE(0, 3, 3);
    STEP_LIVE(0, 5, 5);
    STEP_LIVE(GL_DONE, 5, 5);
    position.passed = UINT32_MAX;
    STEP_LIVE(GL_DONE, UINT32_MAX, 5);
    /* with only a deleted record left, the position stays */
    t.bytes[161 + 4 * 28] = '*';
    position.passed = 3;
    STEP_LIVE(GL_DONE, 3, 5);
    MARGINS(t);
    give_back(&t);
}

/* The walks of k7_k8.expected, which another implementation wrote: `walk START: ANSWER [RECORD live or deleted] @POSITION; ..`, and `walk_live`
   without marks. */
static void test_walks_of_the_sample(void)
{
    lent t = load(samples_data, "k7_k8.dbf"), text = load(samples_data, "k7_k8.expected");
    char want[4096], got[4096];
    uint32_t walks = 0;
    for (size_t at = 0, next; at < text.len; at = next) {
        uint32_t start, record = OLD, answer;
        uint8_t deleted = OLD;
        const char *marks[] = {" live", " deleted"};
        int from = 0, n = 0;
        for (next = at; text.bytes[next++] != '\n';)
            ;
        snprintf(want, sizeof want, "%.*s", (int)(next - 1 - at), (const char *)text.bytes + at);
        int live = strncmp(want, "walk_live ", 10) == 0;
        if (sscanf(want, live ? "walk_live %" SCNu32 ":%n" : "walk %" SCNu32 ":%n", &start, &from) != 1)
            continue;
        gl_position position = {start};
        do {
            answer = live ? gl_walk_live(t.bytes, t.len, &position, &record) : gl_walk(t.bytes, t.len, &position, &record, &deleted);
            n += snprintf(got + n, sizeof got - (size_t)n, " %" PRIu32, answer);
            if (answer == 0)
                n += snprintf(got + n, sizeof got - (size_t)n, " %" PRIu32 "%s", record, live ? "" : deleted < 2 ? marks[deleted] : "?");
            n += snprintf(got + n, sizeof got - (size_t)n, " @%" PRIu32 ";", position.passed);
        } while (answer != GL_DONE);
        got[n - 1] = 0;
        SAME(strcmp(got, want + from), 0);
        walks++;
    }
    SAME(walks, 16);
    MARGINS(t);
    give_back(&t);
    give_back(&text);
}

/* ---- The reports on other programs' tables, made through C, against crates/test_samples/stdout, which has a line `== ARGUMENTS` for each run of
   `inspect`, and under it what that prints. */

static char report[1 << 18];
static size_t reported;

static void print(const char *how, ...)
{
    va_list args;
    va_start(args, how);
    reported += (size_t)vsnprintf(report + reported, sizeof report - reported, how, args);
    va_end(args);
}

static void print_text(const uint8_t *text, uint64_t n)
{
    print(" 0 \"");
    for (uint64_t i = 0; i < n; i++)
        if (text[i] < 0x20 || text[i] > 0x7E || text[i] == '"' || text[i] == '\\')
            print("\\x%02X", text[i]);
        else
            print("%c", text[i]);
    print("\"");
}

static void print_other(uint32_t answer)
{
    if (answer == GL_EMPTY)
        print(" empty");
    else
        print(" %" PRIu32, answer);
}

static void print_value(const lent *t, const lent *m, uint32_t i, uint32_t j, uint8_t kind)
{
    int64_t value = 0;
    uint32_t year = 0, month = 0, day = 0, answer;
    uint8_t logical = 0;
    uint64_t start = 0, length = 0;
    const lent *whole = m == NULL ? t : m; /* a C field's call does not look at the memo file */
    if (kind == 'N') {
        if ((answer = gl_read_number(t->bytes, t->len, i, j, &value)) == 0)
            print(" 0 %" PRId64, value);
    } else if (kind == 'D') {
        if ((answer = gl_read_date(t->bytes, t->len, i, j, &year, &month, &day)) == 0)
            print(" 0 %04" PRIu32 "%02" PRIu32 "%02" PRIu32, year, month, day);
    } else if (kind == 'L') {
        if ((answer = gl_read_logical(t->bytes, t->len, i, j, &logical)) == 0)
            print(logical == 1 ? " 0 T" : " 0 F");
    } else if (kind == 'M' && m == NULL) {
        print(" unread");
        return;
    } else if ((answer = gl_text_part(t->bytes, t->len, whole->bytes, whole->len, i, j, &start, &length)) == 0) {
        whole = kind == 'C' ? t : m;
        SAME(start <= whole->len && length <= whole->len - start, 1);
        print_text(whole->bytes + start, length);
    }
    if (answer != 0)
        print_other(answer);
}

/* 'l' for each live record, 'd' for each deleted one and 'b' for each that is refused: what the walk answers at it. */
static void walk_marks(const lent *t, char *marks, uint32_t records)
{
    gl_position position = {0};
    for (uint32_t i = 1; i <= records; i++) {
        uint32_t record = 0, answer;
        uint8_t deleted = OLD;
        answer = gl_walk(t->bytes, t->len, &position, &record, &deleted);
        SAME(position.passed, i);
        SAME(answer == 15 || (answer == 0 && record == i && deleted <= 1), 1);
        marks[i] = answer == 15 ? 'b' : deleted == 1 ? 'd' : 'l';
    }
    uint32_t record = 0;
    uint8_t deleted = OLD;
    SAME(gl_walk(t->bytes, t->len, &position, &record, &deleted), GL_DONE);
}

static void print_table(const lent *t, const lent *m)
{
    static char marks[1 << 16];
    uint32_t records = 0, fields = 0, length = 0, check = gl_table_check(t->bytes, t->len);
    gl_field_entry entries[128];
    print("table %" PRIu32 "\n", check);
    if (check != 0)
        return;
    SAME(gl_table_shape(t->bytes, t->len, &records, &fields, &length), 0);
    print("shape %" PRIu32 " %" PRIu32 " %" PRIu32 "\n", records, fields, length);
    SAME(gl_fields(t->bytes, t->len, entries, 128), 0);
    for (uint32_t j = 1; j <= fields; j++)
        print("field %" PRIu32 " %s %c %d %d\n", j, (const char *)entries[j - 1].name, entries[j - 1].kind, entries[j - 1].length, entries[j - 1].decimals);
    walk_marks(t, marks, records);
    for (uint32_t i = 1; i <= records; i++) {
        print("record %" PRIu32 " %s\n", i, marks[i] == 'l' ? "live" : marks[i] == 'd' ? "deleted" : "15");
        for (uint32_t j = 1; j <= fields && marks[i] != 'b'; j++) {
            print("value %" PRIu32 " %" PRIu32, i, j);
            print_value(t, m, i, j, entries[j - 1].kind);
            print("\n");
        }
    }
}

/* The number of a field that is named by its number, or by its name; 0 if there is none of that name. */
static uint32_t field_number(const lent *t, const char *word)
{
    gl_field_entry entries[GL_FIELDS_MAX];
    memset(entries, 0, sizeof entries);
    if (*word >= '0' && *word <= '9') {
        unsigned long long n = strtoull(word, NULL, 10);
        return n > UINT32_MAX ? UINT32_MAX : (uint32_t)n;
    }
    if (gl_fields(t->bytes, t->len, entries, GL_FIELDS_MAX) == 0)
        for (uint32_t j = 1; j <= GL_FIELDS_MAX; j++)
            if (strcmp((const char *)entries[j - 1].name, word) == 0)
                return j;
    return 0;
}

enum { TABLE, MEMO, INDEX, FIELD, WORDS };

/* Reports on the files of a run; a word that is NULL was not given. */
/* The match's answer; 12 if no field of a good table has the name, before all that concerns the index. */
static uint32_t matched(const lent *t, const lent *x, const char *word)
{
    uint32_t field = field_number(t, word);
    if (field == 0 && (*word < '0' || *word > '9') && gl_table_check(t->bytes, t->len) == 0)
        return 12;
    return gl_match(t->bytes, t->len, x->bytes, x->len, field);
}

static void print_run(char *const *words)
{
    lent files[FIELD];
    int given[FIELD];
    for (int k = TABLE; k < FIELD; k++) {
        given[k] = words[k] != NULL && strcmp(words[k], "-") != 0;
        files[k] = given[k] ? load(samples_data, words[k]) : lend("", 0);
    }
    const lent *t = &files[TABLE], *x = &files[INDEX];
    print_table(t, given[MEMO] ? &files[MEMO] : NULL);
    if (given[INDEX])
        print("index %" PRIu32 "\n", gl_index_audit(x->bytes, x->len));
    if (given[INDEX] && words[FIELD] != NULL)
        print("match %" PRIu32 "\n", matched(t, x, words[FIELD]));
    for (int k = TABLE; k < FIELD; k++) {
        UNCHANGED(files[k]);
        MARGINS(files[k]);
        give_back(&files[k]);
    }
}

/* The lines of a report as C is handed it: without a refusal's words in parentheses and the count of problems, and a number, `value I J 0 -0.001`, in units. */
static void in_units(char *to, char *lines)
{
    for (char *line = strtok(lines, "\n"); line != NULL; line = strtok(NULL, "\n")) {
        int quoted = strchr(line, '"') != NULL;
        char *words = strstr(line, " ("), *point = strchr(line, '.'), *number = strrchr(line, ' ') + 1;
        if (strncmp(line, "problems ", 9) == 0)
            continue;
        if (!quoted && words != NULL)
            *words = 0;
        if (!quoted && point != NULL) {
            memmove(point, point + 1, strlen(point));
            sprintf(number, "%lld", strtoll(number, NULL, 10));
        }
        to += sprintf(to, "%s\n", line);
    }
    *to = 0;
}

static void test_run(char *arguments, char *lines)
{
    static char want[sizeof report];
    char *words[WORDS] = {NULL};
    char *word = strtok(arguments, " ");
    for (size_t k = 0; k < WORDS && word != NULL; k++, word = strtok(NULL, " "))
        words[k] = word;
    in_units(want, lines);
    reported = 0;
    print_run(words);
    SAME(reported, strlen(want));
    SAME_BYTES(report, want, reported);
}

/* Every run that `inspect` does not answer with 40. The lines from the first `-- ` on are of another program. */
static void test_samples(void)
{
    static char text[sizeof report];
    lent file = load(samples, "stdout");
    SAME(file.len < sizeof text, 1);
    memcpy(text, file.bytes, file.len);
    give_back(&file);
    char *rest = strstr(text, "\n-- ");
    if (rest != NULL)
        rest[1] = 0;
    size_t runs = 0;
    for (char *at = text; at != NULL;) {
        char *arguments = at + 2, *lines = strchr(at, '\n') + 1;
        at = strstr(lines - 1, "\n==");
        lines[-1] = 0;
        if (at != NULL)
            *at++ = 0;
        if (strncmp(lines, "40", 2) != 0) {
            test_run(arguments, lines);
            runs++;
        }
    }
    SAME(runs >= 12, 1);
}

/* ---- The index. */

static void looks_up(int line, const lent *index, const void *key, size_t n, uint32_t answer, uint32_t number, uint32_t visited)
{
    OUT(uint32_t, record);
    OUT(uint32_t, pages);
    same(line, "lookup", gl_index_lookup(index->bytes, index->len, key, n, &record[1], &pages[1]), answer);
    HELD(record, answer == 0 ? number : OLD);
    HELD(pages, answer == 0 || answer == GL_ABSENT ? visited : OLD);
}

#define LOOKS_UP(index, key, n, answer, number, visited) looks_up(__LINE__, index, key, n, answer, number, visited)

static void put32(uint8_t *to, uint32_t n)
{
    to[0] = n & 255, to[1] = n >> 8 & 255, to[2] = n >> 16 & 255, to[3] = n >> 24;
}

/* A page of keys of one byte, each with its number; the links are page offsets, 0 for none. */
static void put_page(uint8_t *page, uint8_t attribute, uint32_t left, uint32_t right, const char *keys, const uint32_t *numbers)
{
    page[0] = attribute;
    page[2] = (uint8_t)strlen(keys);
    put32(page + 4, left == 0 ? UINT32_MAX : left);
    put32(page + 8, right == 0 ? UINT32_MAX : right);
    for (size_t i = 0; keys[i] != 0; i++) {
        uint8_t *entry = page + 12 + 5 * i;
        entry[0] = (uint8_t)keys[i];
        entry[3] = numbers[i] >> 8 & 255, entry[4] = numbers[i] & 255;
    }
}

/* The tree in document 000: F is found as 6 after 3 pages; I is absent after 1. */
static void test_tree_000(void)
{
    static const uint32_t top[] = {1024, 1536}, left[] = {2048, 2560}, right[] = {3072}, records[] = {1, 2, 3, 4, 5, 6, 7, 8};
    lent index = lend(NULL, 3584);
    uint8_t *b = index.bytes;
    put32(b, 512), put32(b + 4, UINT32_MAX), put32(b + 8, 3584);
    b[12] = 1, b[14] = 1;
    put_page(b + 512, 1, 0, 0, "FH", top);
    put_page(b + 1024, 0, 0, 1536, "CF", left);
    put_page(b + 1536, 0, 1024, 0, "H", right);
    put_page(b + 2048, 2, 0, 2560, "ABC", records);
    put_page(b + 2560, 2, 2048, 3072, "DEF", records + 3);
    put_page(b + 3072, 2, 2560, 0, "GH", records + 6);
    keep(&index);
    SAME(gl_index_audit(index.bytes, index.len), 0);
    LOOKS_UP(&index, "F", 1, 0, 6, 3);
    LOOKS_UP(&index, "I", 1, GL_ABSENT, 0, 1);
    LOOKS_UP(&index, "FF", 2, 27, 0, 0);
    LOOKS_UP(&index, "", 0, 27, 0, 0);
    UNCHANGED(index);
    b[1024 + 3] = 255;
    SAME(gl_index_audit(index.bytes, index.len), 25);
    LOOKS_UP(&index, "A", 1, 25, 0, 0);
    b[14] = 2;
    SAME(gl_index_audit(index.bytes, index.len), 24);
    LOOKS_UP(&index, "A", 1, 24, 0, 0);
    MARGINS(index);
    give_back(&index);
}

/* The largest index: 15 levels in 16,777,216 bytes, keys of 100 bytes, one in each leaf, and two children under each page above; page p, at 512p, has the
   children 2p and 2p + 1. */
static void test_largest_index(void)
{
    lent index = lend(NULL, GL_INDEX_MAX + 512);
    uint8_t *b = index.bytes, key[101], *at;
    uint32_t leaves = 1u << (GL_INDEX_LEVELS_MAX - 1);
    put32(b, 512), put32(b + 4, UINT32_MAX), put32(b + 8, GL_INDEX_MAX);
    b[12] = 100, b[14] = 1;
    for (uint32_t level = 0; level < GL_INDEX_LEVELS_MAX; level++)
        for (uint32_t i = 0; i < 1u << level; i++) {
            uint32_t page = (1u << level) + i, under = leaves >> level, count = under == 1 ? 1 : 2;
            at = b + 512 * page;
            at[0] = (level == 0) + 2 * (under == 1);
            at[2] = (uint8_t)count;
            put32(at + 4, i == 0 ? UINT32_MAX : 512 * (page - 1));
            put32(at + 8, i + 1 == 1u << level ? UINT32_MAX : 512 * (page + 1));
            for (uint32_t j = 0; j < count; j++) {
                uint32_t last = i * under + (j + 1) * under / count, number = under == 1 ? last : 512 * (2 * page + j);
                snprintf((char *)key, sizeof key, "%0100u", 10 * last);
                memcpy(at + 12 + 104 * j, key, 100);
                at += 104 * j + 112;
                at[0] = number >> 24, at[1] = number >> 16 & 255, at[2] = number >> 8 & 255, at[3] = number & 255;
                at = b + 512 * page;
            }
        }
    keep(&index);
    SAME(gl_index_audit(index.bytes, index.len), 0);
    SAME(gl_index_audit(index.bytes, GL_INDEX_MAX - 1), 24);
    snprintf((char *)key, sizeof key, "%0100u", 10);
    LOOKS_UP(&index, key, 100, 0, 1, GL_INDEX_LEVELS_MAX);
    snprintf((char *)key, sizeof key, "%0100u", 10 * leaves);
    LOOKS_UP(&index, key, 100, 0, leaves, GL_INDEX_LEVELS_MAX);
    /* a leaf takes four keys; the fifth needs a page past the limit, and the buffer has room for one */
    for (uint32_t i = 1; i <= 4; i++) {
        snprintf((char *)key, sizeof key, "%0100u", 10 + i);
        SAME(gl_index_insert(index.bytes, index.len, key, 100, i), i == 4 ? GL_REFUSED_NO_ROOM : 0);
    }
    LOOKS_UP(&index, key, 100, GL_ABSENT, 0, GL_INDEX_LEVELS_MAX);
    for (uint32_t i = 3; i >= 1; i--) {
        snprintf((char *)key, sizeof key, "%0100u", 10 + i);
        SAME(gl_index_remove(index.bytes, index.len, key, 100, 0), 0);
    }
    UNCHANGED(index);
    /* the 15th page visited is a leaf */
    at = b + 512 * leaves;
    at[0] = 0;
    snprintf((char *)key, sizeof key, "%0100u", 10);
    SAME(gl_index_audit(index.bytes, index.len), 25);
    LOOKS_UP(&index, key, 100, 25, 0, 0);
    at[0] = 2;
    /* one page more passes the limit */
    put32(b + 8, GL_INDEX_MAX + 512);
    SAME(gl_index_audit(index.bytes, index.len), 24);
    put32(b + 8, GL_INDEX_MAX);
    UNCHANGED(index);
    MARGINS(index);
    give_back(&index);
}

static void refused_fresh(size_t len, uint32_t k, const void *expression, size_t n, uint32_t answer)
{
    lent index = lend(NULL, len);
    memset(index.bytes, 0x5C, len);
    keep(&index);
    SAME(gl_index_fresh(index.bytes, index.len, k, 1, expression, n), answer);
    UNCHANGED(index);
    MARGINS(index);
    give_back(&index);
}

static void test_fresh(void)
{
    uint8_t long_text[221];
    memset(long_text, 'x', sizeof long_text);
    refused_fresh(2048, 0, "BARCODE", 7, 27);
    refused_fresh(2048, 101, "BARCODE", 7, 27);
    refused_fresh(2048, UINT32_MAX, "", 0, 27);
    refused_fresh(2048, 10, "", 0, 24);
    refused_fresh(2048, 10, long_text, 221, 24);
    refused_fresh(2048, 10, "BAR\x1F", 4, 24);
    refused_fresh(2048, 10, "BAR\x7F", 4, 24);
    refused_fresh(1023, 10, "BARCODE", 7, 30);
    refused_fresh(0, 10, "BARCODE", 7, 30);
    lent index = lend(NULL, 1100);
    memset(index.bytes, 0x5C, index.len);
    keep(&index);
    SAME(gl_index_fresh(index.bytes, index.len, 10, 1, long_text, 220), 0);
    SAME_BYTES(index.bytes, "\0\2\0\0\xFF\xFF\xFF\xFF\0\4\0\0\12\0\1\0xxxx", 20);
    SAME(index.bytes[235], 'x');
    SAME(index.bytes[236], 0);
    SAME_BYTES(index.bytes + 512, "\3\0\0\0\xFF\xFF\xFF\xFF\xFF\xFF\xFF\xFF\0\0\0\0", 16);
    SAME_BYTES(index.bytes + 1024, index.copy + 1024, 76);
    SAME(gl_index_audit(index.bytes, index.len), 0);
    LOOKS_UP(&index, "0123456789", 10, GL_ABSENT, 0, 1);
    MARGINS(index);
    give_back(&index);
}

/* Five ascending keys of 100 bytes; in a buffer of 1,024 the fifth has no room. */
static void test_five_keys(size_t len, uint32_t fifth)
{
    uint8_t key[100];
    lent index = lend(NULL, len);
    SAME(gl_index_fresh(index.bytes, len, 100, 1, (const uint8_t *)"KEY", 3), 0);
    memset(key, 'a', sizeof key);
    for (uint32_t i = 1; i <= 5; i++) {
        key[99] = (uint8_t)('0' + i);
        keep(&index);
        SAME(gl_index_insert(index.bytes, len, key, 99, i), 27);
        SAME(gl_index_insert(index.bytes, len, key, 100, 0), 28);
        UNCHANGED(index);
        SAME(gl_index_insert(index.bytes, len, key, 100, i), i < 5 ? 0 : fifth);
    }
    if (fifth != 0)
        UNCHANGED(index);
    key[99] = '4', keep(&index);
    SAME(gl_index_insert(index.bytes, len, key, 100, 9), 29);
    UNCHANGED(index);
    SAME(gl_index_audit(index.bytes, len), 0);
    if (fifth == 0) {
        const uint8_t *b = index.bytes;
        SAME_BYTES(b, "\0\6\0\0\xFF\xFF\xFF\xFF\0\10\0\0", 12);
        SAME(b[512 + 2], 3);
        SAME(b[1024 + 2], 2);
        SAME(b[1536], 1);
        SAME(b[1536 + 2], 2);
        SAME(b[1536 + 12 + 99], '3');
        SAME(b[1536 + 12 + 104 + 99], '5');
        LOOKS_UP(&index, key, 100, 0, 4, 2);
    }
    index.bytes[512] = 0, keep(&index);
    SAME(gl_index_insert(index.bytes, len, key, 100, 9), 25);
    index.bytes[4] = 0, keep(&index);
    SAME(gl_index_insert(index.bytes, len, key, 100, 9), 24);
    UNCHANGED(index);
    MARGINS(index);
    give_back(&index);
}

/* Several records to a key, features 0: they are listed in order, and pairs are told by both. */
static void test_records(void)
{
    static const uint32_t given[] = {7, 3, 9, 4294967295u, 1};
    uint32_t list[6] = {11, 12, 13, 14, 15, 16}, count = 99, record, pages;
    lent index = lend(NULL, 4096);
    SAME(gl_index_fresh(index.bytes, index.len, 8, 2, (const uint8_t *)"RUN_DATE", 8), GL_REFUSED_INDEX_HEADER);
    SAME(gl_index_fresh(index.bytes, index.len, 8, 0, (const uint8_t *)"RUN_DATE", 8), 0);
    SAME(gl_index_records(index.bytes, index.len, (const uint8_t *)"20240301", 8, list, 6, &count), 0);
    SAME(count, 0);
    for (int i = 0; i < 5; i++)
        SAME(gl_index_insert(index.bytes, index.len, (const uint8_t *)"20240301", 8, given[i]), 0);
    SAME(gl_index_insert(index.bytes, index.len, (const uint8_t *)"20240301", 8, 9), GL_REFUSED_KEY_PRESENT);
    SAME(gl_index_insert(index.bytes, index.len, (const uint8_t *)"20240302", 8, 9), 0);
    keep(&index);
    SAME(gl_index_remove(index.bytes, index.len, (const uint8_t *)"20240301", 8, 0), GL_REFUSED_KEY_ABSENT);
    SAME(gl_index_remove(index.bytes, index.len, (const uint8_t *)"20240302", 8, 7), GL_REFUSED_KEY_ABSENT);
    SAME(gl_index_lookup(index.bytes, index.len, (const uint8_t *)"20240301", 8, &record, &pages), 0);
    SAME(record, 1);
    count = 99;
    SAME(gl_index_records(index.bytes, index.len, (const uint8_t *)"20240301", 8, list, 4, &count), GL_REFUSED_RECORD_LIST_TOO_SHORT);
    SAME(gl_index_records(index.bytes, index.len, (const uint8_t *)"20240301", 7, list, 6, &count), GL_REFUSED_KEY_LENGTH);
    SAME(count, 99);
    SAME(list[0], 11);
    SAME(gl_index_records(index.bytes, index.len, (const uint8_t *)"20240301", 8, list, 6, &count), 0);
    SAME(count, 5);
    SAME(list[0], 1);
    SAME(list[1], 3);
    SAME(list[2], 7);
    SAME(list[3], 9);
    SAME(list[4], 4294967295u);
    SAME(list[5], 16);
    UNCHANGED(index);
    SAME(gl_index_remove(index.bytes, index.len, (const uint8_t *)"20240301", 8, 1), 0);
    SAME(gl_index_records(index.bytes, index.len, (const uint8_t *)"20240301", 8, list, 4, &count), 0);
    SAME(count, 4);
    SAME(list[0], 3);
    index.bytes[512] = 0;
    SAME(gl_index_records(index.bytes, index.len, (const uint8_t *)"20240301", 8, list, 6, &count), GL_REFUSED_INDEX_NOT_SOUND);
    index.bytes[14] = 2;
    SAME(gl_index_records(index.bytes, index.len, (const uint8_t *)"20240301", 8, list, 6, &count), GL_REFUSED_INDEX_HEADER);
    SAME(count, 4);
    MARGINS(index);
    give_back(&index);
}

/* Keys of 100 bytes that differ in their last: five are put in, as above, and struck off. The page that the last two leave is free, and the next split takes
   it, so the index is then byte for byte the one before and the buffer of 2,048 bytes is enough. At last all go, and the root page is an empty leaf. */
static void test_removal(void)
{
    static const uint8_t none[4] = {0xFF, 0xFF, 0xFF, 0xFF}, zeros[512];
    uint8_t key[100];
    lent index = lend(NULL, 2048);
    const uint8_t *b = index.bytes;
    SAME(gl_index_fresh(index.bytes, index.len, 100, 1, (const uint8_t *)"KEY", 3), 0);
    memset(key, 'a', sizeof key);
    for (key[99] = '1'; key[99] <= '5'; key[99]++)
        SAME(gl_index_insert(index.bytes, index.len, key, 100, key[99] - '0'), 0);
    keep(&index);
    SAME(gl_index_remove(index.bytes, index.len, key, 100, 0), GL_REFUSED_KEY_ABSENT);
    SAME(gl_index_remove(index.bytes, index.len, key, 99, 0), GL_REFUSED_KEY_LENGTH);
    UNCHANGED(index);
    for (key[99] = '4'; key[99] <= '5'; key[99]++)
        SAME(gl_index_remove(index.bytes, index.len, key, 100, 0), 0);
    /* root 1,536, free page 1,024, F 2,048; the leaf at 512 has no neighbour; the root has one entry left, and zeros after it */
    SAME_BYTES(b, "\0\6\0\0\0\4\0\0\0\10\0\0", 12);
    SAME_BYTES(b + 512 + 4, none, 4);
    SAME_BYTES(b + 512 + 8, none, 4);
    SAME_BYTES(b + 1024, zeros, 8);
    SAME_BYTES(b + 1024 + 8, none, 4);
    SAME_BYTES(b + 1024 + 12, zeros, 500);
    SAME(b[1536 + 2], 1);
    SAME(b[1536 + 12 + 99], '3');
    SAME_BYTES(b + 1536 + 12 + 104, zeros, 396);
    SAME(gl_index_audit(index.bytes, index.len), 0);
    key[99] = '4';
    LOOKS_UP(&index, key, 100, GL_ABSENT, 0, 1);
    for (; key[99] <= '5'; key[99]++)
        SAME(gl_index_insert(index.bytes, index.len, key, 100, key[99] - '0'), 0);
    UNCHANGED(index);
    for (key[99] = '1'; key[99] <= '5'; key[99]++)
        SAME(gl_index_remove(index.bytes, index.len, key, 100, 0), 0);
    /* the leaf at 512 was emptied before the one at 1,024: the list begins 1,024, 512 */
    SAME_BYTES(b, "\0\6\0\0\0\4\0\0\0\10\0\0", 12);
    SAME_BYTES(b + 1024, "\0\0\0\0\0\0\0\0\0\2\0", 12);
    SAME_BYTES(b + 512 + 8, none, 4);
    SAME_BYTES(b + 1536, "\3\0\0\0\xFF\xFF\xFF\xFF\xFF\xFF\xFF\xFF", 12);
    SAME_BYTES(b + 1536 + 12, zeros, 500);
    SAME(gl_index_audit(index.bytes, index.len), 0);
    MARGINS(index);
    give_back(&index);
}

/* Free lists that are not sound: a byte that is not zero, a circle, into the tree, out of the file, a page left out, the root at the head; and a head that is
   no page, which is 24. */
static void test_free_lists(void)
{
    static const struct { size_t at; uint8_t byte; uint32_t answer; } damages[] = {
        {1024, 1, 25}, {1024 + 12, 1, 25}, {1024 + 511, 1, 25}, {1024 + 9, 4, 25}, {1024 + 9, 6, 25}, {1024 + 9, 8, 25}, {5, 2, 25}, {5, 6, 25},
        {4, 1, 24}, {5, 8, 24}};
    lent index = lend(NULL, 2048);
    uint8_t key[100];
    SAME(gl_index_fresh(index.bytes, index.len, 100, 1, (const uint8_t *)"KEY", 3), 0);
    memset(key, 'a', sizeof key);
    for (key[99] = '1'; key[99] <= '5'; key[99]++)
        SAME(gl_index_insert(index.bytes, index.len, key, 100, 1), 0);
    for (key[99] = '1'; key[99] <= '5'; key[99]++)
        SAME(gl_index_remove(index.bytes, index.len, key, 100, 0), 0);
    /* the list is 1,024, 512 and the tree is 1,536 alone */
    for (size_t i = 0; i < sizeof damages / sizeof *damages; i++) {
        uint8_t *byte = index.bytes + damages[i].at, was = *byte;
        *byte = damages[i].byte, keep(&index);
        SAME(gl_index_audit(index.bytes, index.len), damages[i].answer);
        SAME(gl_index_insert(index.bytes, index.len, key, 100, 1), damages[i].answer);
        SAME(gl_index_remove(index.bytes, index.len, key, 100, 0), damages[i].answer);
        UNCHANGED(index);
        *byte = was;
    }
    SAME(gl_index_audit(index.bytes, index.len), 0);
    MARGINS(index);
    give_back(&index);
}

/* ---- Lists of calls with their answers, and the index file after the last. */

static size_t hex(const char *word, uint8_t *to)
{
    size_t n = 0;
    unsigned byte;
    if (strcmp(word, "-") == 0)
        return 0;
    while (sscanf(word + 2 * n, "%2x", &byte) == 1)
        to[n++] = (uint8_t)byte;
    return n;
}

/* All records of a key, `s KEY ROOM ANSWER RECORDS`: they are in the list, and what it has past them is kept, as is a list that is too short. */
static void records_line(const lent *index, const char *line)
{
    static char word[1024], records[8192];
    static uint8_t bytes[512];
    static uint32_t want[1024], list[1024];
    uint32_t room = 0, answer = 0, n = 0;
    OUT(uint32_t, count);
    SAME(sscanf(line, "s %1023s %" SCNu32 " %" SCNu32 " %8191s", word, &room, &answer, records), 4);
    SAME(room < 1024, 1);
    for (size_t i = 0; i < 1024; i++)
        want[i] = list[i] = OLD;
    for (char *at = records; *at != 0 && *at != '-'; at += *at == ',')
        want[n++] = (uint32_t)strtoul(at, &at, 10);
    SAME(gl_index_records(index->bytes, index->len, bytes, hex(word, bytes), list, room, &count[1]), answer);
    HELD(count, answer == 0 ? n : OLD);
    SAME_BYTES((const uint8_t *)list, (const uint8_t *)want, sizeof list);
    UNCHANGED(*index);
}

/* A list for features 1 names neither them nor the record of a removal. */
static void call_line(lent *index, char *line)
{
    static char word[1024];
    static uint8_t bytes[512];
    uint32_t a = 0, b = 0, c = 0;
    keep(index);
    if (line[0] == 'f' && sscanf(line, "f %" SCNu32 " %1023s %" SCNu32 " %" SCNu32, &a, word, &b, &c) == 4) {
        SAME(gl_index_fresh(index->bytes, index->len, a, b, bytes, hex(word, bytes)), c);
        if (c != 0) UNCHANGED(*index);
    } else if (line[0] == 'f' && sscanf(line, "f %" SCNu32 " %1023s %" SCNu32, &a, word, &b) == 3) {
        SAME(gl_index_fresh(index->bytes, index->len, a, 1, bytes, hex(word, bytes)), b);
        if (b != 0) UNCHANGED(*index);
    } else if (line[0] == 's') {
        records_line(index, line);
    } else if (line[0] == 'r' && sscanf(line, "r %1023s %" SCNu32 " %" SCNu32, word, &a, &b) == 3) {
        SAME(gl_index_remove(index->bytes, index->len, bytes, hex(word, bytes), a), b);
        if (b != 0) UNCHANGED(*index);
    } else if (line[0] == 'i' && sscanf(line, "i %1023s %" SCNu32 " %" SCNu32, word, &a, &b) == 3) {
        SAME(gl_index_insert(index->bytes, index->len, bytes, hex(word, bytes), a), b);
        if (b != 0) UNCHANGED(*index);
    } else if (line[0] == 'r' && sscanf(line, "r %1023s %" SCNu32, word, &b) == 2) {
        SAME(gl_index_remove(index->bytes, index->len, bytes, hex(word, bytes), 0), b);
        if (b != 0) UNCHANGED(*index);
    } else if (line[0] == 'l' && sscanf(line, "l %1023s %" SCNu32 " %" SCNu32 " %" SCNu32, word, &a, &b, &c) == 4) {
        size_t n = hex(word, bytes);
        LOOKS_UP(index, bytes, n, a, b, c);
        UNCHANGED(*index);
    } else if (line[0] == 'a' && sscanf(line, "a %" SCNu32, &a) == 1) {
        SAME(gl_index_audit(index->bytes, index->len), a);
        UNCHANGED(*index);
    } else {
        SAME(line[0], 0);
    }
}

static void make_calls(lent *index, const char *calls, const char *after)
{
    char *line;
    const char *folder = strncmp(calls, "k12_", 4) == 0 ? equal_keys_data : indexes_data;
    lent text = load(folder, calls), want = load(folder, after);
    text.bytes[text.len] = 0; /* its first canary */
    for (line = strtok((char *)text.bytes, "\n"); line != NULL; line = strtok(NULL, "\n"))
        call_line(index, line);
    SAME(want.len <= index->len, 1);
    SAME_BYTES(index->bytes, want.bytes, want.len);
    MARGINS(*index);
    give_back(&text);
    give_back(&want);
}

static void test_calls(const char *name, size_t len)
{
    char calls[64], after[64];
    lent index = lend(NULL, len);
    snprintf(calls, sizeof calls, "%s.calls", name);
    snprintf(after, sizeof after, "%s.idx", name);
    make_calls(&index, calls, after);
    give_back(&index);
}

/* Fresh indexes with features that there are and that there are not, each in a buffer of its own. */
static void test_features(void)
{
    lent text = load(equal_keys_data, "k12_fresh.calls");
    int lines = 0;
    text.bytes[text.len] = 0; /* its first canary */
    for (char *line = strtok((char *)text.bytes, "\n"); line != NULL; line = strtok(NULL, "\n"), lines++) {
        lent index = lend(NULL, 2048);
        call_line(&index, line);
        MARGINS(index);
        give_back(&index);
    }
    SAME(lines, 4);
    give_back(&text);
}

/* An index with several records to a key, one byte of it changed at a time, `AT BYTE a ANSWER l KEY ANSWER RECORD PAGES`: its audit, and a lookup, which may
   step to a damaged neighbour. */
static void test_damaged_equal_keys(void)
{
    lent text = load(equal_keys_data, "k12_damaged.expected"), index = load(equal_keys_data, "k12_dates.idx");
    int lines = 0;
    text.bytes[text.len] = 0; /* its first canary */
    for (char *line = strtok((char *)text.bytes, "\n"); line != NULL; line = strtok(NULL, "\n"), lines++) {
        unsigned at = 0, byte = 0;
        SAME(sscanf(line, "%u %u", &at, &byte) == 2 && at < index.len, 1);
        uint8_t was = index.bytes[at];
        index.bytes[at] = (uint8_t)byte;
        char *lookup = strstr(line, " l ");
        call_line(&index, strstr(line, "a "));
        call_line(&index, lookup + 1);
        index.bytes[at] = was;
    }
    SAME(lines, 24);
    MARGINS(index);
    give_back(&text);
    give_back(&index);
}

/* An index of an earlier release has keys with control bytes: it is sound and they are found, but none can be inserted. */
static void test_earlier_release(void)
{
    lent file = load(indexes_data, "earlier.idx"), index = lend(NULL, 8192);
    memcpy(index.bytes, file.bytes, file.len);
    SAME(gl_index_audit(index.bytes, index.len), 0);
    make_calls(&index, "earlier.calls", "earlier_after.idx");
    give_back(&file);
    give_back(&index);
}

/* A carriage return inside a barcode is refused at every place, and so is every byte below 0x20, after 27 and before 28. */
static void test_control_bytes(void)
{
    uint8_t key[10];
    lent index = lend(NULL, 1024);
    SAME(gl_index_fresh(index.bytes, index.len, 10, 1, (const uint8_t *)"BARCODE", 7), 0);
    keep(&index);
    for (size_t at = 0; at < 10; at++) {
        memcpy(key, "PLT0000001", 10);
        key[at] = '\r';
        SAME(gl_index_insert(index.bytes, index.len, key, 10, 1), GL_REFUSED_CONTROL_BYTE);
        SAME(gl_index_insert(index.bytes, index.len, key, 10, 0), GL_REFUSED_CONTROL_BYTE);
        SAME(gl_index_insert(index.bytes, index.len, key, 9, 1), GL_REFUSED_KEY_LENGTH);
        LOOKS_UP(&index, key, 10, GL_ABSENT, 0, 1);
        UNCHANGED(index);
    }
    memcpy(key, "PLT0000001", 10);
    for (uint32_t byte = 0; byte < 256; byte++) {
        key[9] = (uint8_t)byte;
        SAME(gl_index_insert(index.bytes, index.len, key, 10, 0), byte < 0x20 ? 32 : 28);
        UNCHANGED(index);
    }
    key[9] = 0x20;
    SAME(gl_index_insert(index.bytes, index.len, key, 10, 1), 0);
    LOOKS_UP(&index, key, 10, 0, 1, 1);
    /* 24 comes before it, 25 after it */
    key[9] = 0x1F;
    index.bytes[512] = 0, keep(&index);
    SAME(gl_index_insert(index.bytes, index.len, key, 10, 1), 32);
    index.bytes[4] = 0, keep(&index);
    SAME(gl_index_insert(index.bytes, index.len, key, 10, 1), 24);
    UNCHANGED(index);
    MARGINS(index);
    give_back(&index);
}

/* ---- Writing a table: a list of calls with their answers, and the tables after the last. */

static void has_extent(const uint8_t *file, size_t len, uint64_t want)
{
    lent l = lend(file, len);
    OUT(uint64_t, length);
    SAME(gl_table_extent(l.bytes, l.len, &length[1]), 0);
    HELD(length, want);
    SAME(gl_table_check(l.bytes, (size_t)want), 0);
    UNCHANGED(l);
    MARGINS(l);
    give_back(&l);
}

static uint64_t extent_of(const lent *t)
{
    uint64_t length = 0;
    SAME(gl_table_extent(t->bytes, t->len, &length), 0);
    return length;
}

/* Power fails at every byte of the first store, and then after both: what a file shortened to its extent holds. */
static void loses_power(const lent *t, const uint64_t store[4])
{
    size_t old = (size_t)store[0], end = (size_t)(store[0] + store[1]);
    uint8_t *file = room(end);
    has_extent(t->copy, old + 1, old); /* none made, the old end mark still there */
    memcpy(file, t->copy, old);
    memcpy(file + old, t->bytes + old, end - old);
    for (size_t cut = old; cut <= end; cut++)
        has_extent(file, cut, old);
    memcpy(file + store[2], t->bytes + store[2], (size_t)store[3]);
    has_extent(file, end, end - 1);
    SAME_BYTES(file, t->bytes, end);
    SAME_BYTES(t->bytes + end, t->copy + end, t->len - end);
    SAME(gl_table_check(file, end), 0);
    free(file);
}

static void append_line(lent *t, size_t table_len, const char *rest)
{
    static char word[512];
    static uint8_t bytes[256];
    uint32_t answer = 0;
    uint64_t want[4] = {OLD, OLD, OLD, OLD};
    sscanf(rest, "%511s %" SCNu32 " %" SCNu64 " %" SCNu64 " %" SCNu64 " %" SCNu64, word, &answer, &want[0], &want[1], &want[2], &want[3]);
    size_t n = hex(word, bytes);
    lent record = lend(bytes, n);
    OUT(uint64_t, record_place);
    OUT(uint64_t, record_length);
    OUT(uint64_t, count_place);
    OUT(uint64_t, count_length);
    SAME(gl_table_append(t->bytes, t->len, table_len, record.bytes, record.len,
                         &record_place[1], &record_length[1], &count_place[1], &count_length[1]), answer);
    HELD(record_place, want[0]);
    HELD(record_length, want[1]);
    HELD(count_place, want[2]);
    HELD(count_length, want[3]);
    if (answer == 0)
        loses_power(t, want);
    else
        UNCHANGED(*t);
    UNCHANGED(record);
    MARGINS(record);
    give_back(&record);
}

static void date_line(lent *t, size_t table_len, const char *rest)
{
    uint32_t y = 0, m = 0, d = 0, answer = 0;
    sscanf(rest, "%" SCNu32 " %" SCNu32 " %" SCNu32 " %" SCNu32, &y, &m, &d, &answer);
    SAME(gl_table_set_date(t->bytes, t->len, table_len, y, m, d), answer);
    if (answer == 0) {
        t->copy[1] = (uint8_t)(y - 1900);
        t->copy[2] = (uint8_t)m;
        t->copy[3] = (uint8_t)d;
    }
    UNCHANGED(*t);
}

static void image_line(const lent *t, const char *rest)
{
    char name[64];
    size_t len = 0;
    sscanf(rest, "%63s %zu", name, &len);
    lent want = load("crates/test_writing/data", name);
    SAME(want.len, len);
    SAME(extent_of(t) + 1, len);
    SAME_BYTES(t->bytes, want.bytes, len);
    give_back(&want);
}

/* NAME:TYPE:LENGTH:DECIMALS,.. as entries; `-` is none. Gives how many. */
static size_t field_entries(const char *word, gl_field_entry *to)
{
    size_t n = 0;
    if (strcmp(word, "-") == 0)
        return 0;
    for (; word != NULL; word = strchr(word, ',')) {
        char name[16], kind;
        unsigned length, decimals;
        word += *word == ',';
        SAME(sscanf(word, "%15[^:]:%c:%u:%u", name, &kind, &length, &decimals), 4);
        memset(&to[n], 0, sizeof *to);
        to[n].offset = (uint16_t)(0x8001 * (n + 1)); /* any: it is not read */
        memcpy(to[n].name, name, strlen(name) < 11 ? strlen(name) : 11);
        to[n].kind = (uint8_t)kind;
        to[n].length = (uint8_t)length;
        to[n].decimals = (uint8_t)decimals;
        n++;
    }
    return n;
}

static uint32_t lay_out(const lent *t, const gl_field_entry *entries, size_t n, const uint32_t date[3])
{
    lent list = lend(entries, n * sizeof *entries);
    uint32_t answer = gl_table_lay_out(t->bytes, t->len, (const gl_field_entry *)list.bytes, n, date[0], date[1], date[2]);
    UNCHANGED(list);
    MARGINS(list);
    MARGINS(*t);
    give_back(&list);
    return answer;
}

/* `lay_out YEAR MONTH DAY ROOM FIELDS ANSWER`, on a buffer of bytes 0xEE: an accepted one's table is the file that ROOM names. */
static void lay_out_line(lent *t, const char *line)
{
    static char word[4096], name[16];
    static gl_field_entry entries[GL_FIELDS_MAX];
    uint32_t date[3] = {0, 0, 0}, answer = 0;
    sscanf(line, "lay_out %" SCNu32 " %" SCNu32 " %" SCNu32 " %15s %4095s %" SCNu32, &date[0], &date[1], &date[2], name, word, &answer);
    lent buffer = lend(NULL, strtoul(name, NULL, 10));
    memset(buffer.bytes, 0xEE, buffer.len);
    keep(&buffer);
    SAME(lay_out(&buffer, entries, field_entries(word, entries), date), answer);
    if (answer != 0) {
        UNCHANGED(buffer);
        give_back(&buffer);
        return;
    }
    lent laid = load("crates/test_writing/data", name);
    memcpy(buffer.copy, laid.bytes, laid.len);
    UNCHANGED(buffer);
    give_back(&laid);
    give_back(t);
    *t = buffer;
}

/* The most fields and one more, the longest record and one byte more, and a buffer of just the table's length and one byte less. */
static void test_lay_out_limits(void)
{
    static const uint32_t date[3] = {2155, 12, 31}, late[3] = {2156, 1, 1};
    gl_field_entry entries[GL_FIELDS_MAX + 1];
    memset(entries, 0, sizeof entries);
    for (size_t i = 0; i <= GL_FIELDS_MAX; i++) {
        entries[i].name[0] = 'A', entries[i].name[1] = (uint8_t)('A' + i / 16), entries[i].name[2] = (uint8_t)('A' + i % 16);
        entries[i].kind = 'C', entries[i].length = i < 31 ? 32 : 31;
    }
    entries[0].length = 33; /* with 32 the record has 1 + 31 * 32 + 97 * 31 = 4,000 bytes */
    lent t = lend(NULL, 34 + 32 * GL_FIELDS_MAX);
    SAME(lay_out(&t, entries, GL_FIELDS_MAX + 1, date), 4);
    SAME(lay_out(&t, entries, GL_FIELDS_MAX, late), 3);
    SAME(gl_table_lay_out(t.bytes, t.len - 1, entries, GL_FIELDS_MAX, date[0], date[1], date[2]), 9);
    entries[0].length = 32;
    SAME(gl_table_lay_out(t.bytes, t.len - 1, entries, GL_FIELDS_MAX, date[0], date[1], date[2]), 30);
    UNCHANGED(t);
    SAME(lay_out(&t, entries, GL_FIELDS_MAX, date), 0);
    uint32_t records = OLD, fields = 0, length = 0;
    SAME(gl_table_shape(t.bytes, t.len, &records, &fields, &length), 0);
    SAME(records, 0);
    SAME(fields, GL_FIELDS_MAX);
    SAME(length, GL_RECORD_LENGTH_MAX);
    SAME(gl_fields(t.bytes, t.len, entries, GL_FIELDS_MAX), 0);
    SAME(entries[0].offset, 1);
    SAME(entries[GL_FIELDS_MAX - 1].offset + entries[GL_FIELDS_MAX - 1].length, GL_RECORD_LENGTH_MAX);
    give_back(&t);
}

static void write_line(lent *t, const char *line)
{
    if (strncmp(line, "lay_out ", 8) == 0) {
        lay_out_line(t, line);
        return;
    }
    size_t table_len = (size_t)extent_of(t) + 1;
    keep(t);
    if (strncmp(line, "append ", 7) == 0)
        append_line(t, table_len, line + 7);
    else if (strncmp(line, "append_longer ", 14) == 0)
        append_line(t, t->len + 1, line + 14);
    else if (strncmp(line, "date ", 5) == 0)
        date_line(t, table_len, line + 5);
    else if (strncmp(line, "image ", 6) == 0)
        image_line(t, line + 6);
    else
        SAME(line[0], 0);
    MARGINS(*t);
}

static void test_writing(void)
{
    char *line;
    lent text = load("crates/test_writing/data", "k3_writing.calls"), t = lend(NULL, 1);
    text.bytes[text.len] = 0; /* its first canary */
    for (line = strtok((char *)text.bytes, "\n"); line != NULL; line = strtok(NULL, "\n"))
        write_line(&t, line);
    give_back(&text);
    give_back(&t);
}

static uint32_t append_blanks(lent *t, size_t table_len, size_t record_len, uint64_t *end)
{
    uint8_t blanks[16];
    uint64_t place = 0, length = 0, count_place = 0, count_length = 0;
    memset(blanks, ' ', sizeof blanks);
    uint32_t answer = gl_table_append(t->bytes, t->len, table_len, blanks, record_len, &place, &length, &count_place, &count_length);
    *end = place + length;
    return answer;
}

/* A table with records of two bytes that is full with its end mark at 16,777,216 bytes, and a buffer that is longer. */
static void test_longest_table(void)
{
    static const form one[] = {{'C', 1, 0}};
    uint64_t end = 0;
    lent t = lend(NULL, GL_TABLE_MAX + 4);
    make_table(t.bytes, 0x03, one, 1, "  ");
    memset(t.bytes + 65, ' ', t.len - 65);
    put32(t.bytes + 4, (GL_TABLE_MAX - 66) / 2 - 1);
    keep(&t);
    SAME(append_blanks(&t, GL_TABLE_MAX - 3, 2, &end), 0);
    SAME(end, GL_TABLE_MAX);
    SAME(gl_table_check(t.bytes, GL_TABLE_MAX), 0);
    keep(&t);
    SAME(append_blanks(&t, GL_TABLE_MAX, 2, &end), 30);
    SAME(append_blanks(&t, GL_TABLE_MAX, 1, &end), 9);
    SAME(append_blanks(&t, GL_TABLE_MAX + 4, 2, &end), 1);
    SAME(append_blanks(&t, GL_TABLE_MAX + 5, 2, &end), 10);
    SAME(append_blanks(&t, SIZE_MAX, 2, &end), 10);
    UNCHANGED(t);
    MARGINS(t);
    give_back(&t);
}

static void test_set_date(void)
{
    static const uint32_t refused[][3] = {{1899, 12, 31}, {2156, 1, 1},  {1900, 2, 29}, {2155, 2, 29},         {2024, 0, 1},
                                          {2024, 13, 1},  {2024, 1, 0},  {2024, 4, 31}, {UINT32_MAX, 1, 1},    {2024, 258, 1},
                                          {2024, 1, 257}, {2024, 2, 30}, {0, 1, 1},     {2024, 1, UINT32_MAX}, {2280, 1, 1}};
    lent t = load(samples_data, "shp_point.dbf");
    for (size_t i = 0; i < sizeof refused / sizeof *refused; i++)
        SAME(gl_table_set_date(t.bytes, t.len, t.len, refused[i][0], refused[i][1], refused[i][2]), 3);
    SAME(gl_table_set_date(t.bytes, t.len, t.len + 1, 1899, 1, 1), 10);
    UNCHANGED(t);
    SAME(gl_table_set_date(t.bytes, t.len, t.len, 1900, 1, 1), 0);
    SAME_BYTES(t.bytes + 1, "\0\1\1", 3);
    SAME(gl_table_set_date(t.bytes, t.len, t.len, 2155, 12, 31), 0);
    SAME_BYTES(t.bytes + 1, "\xFF\14\37", 3);
    SAME_BYTES(t.bytes, t.copy, 1);
    SAME_BYTES(t.bytes + 4, t.copy + 4, t.len - 4);
    MARGINS(t);
    give_back(&t);
}

/* Puts records 1 to `last` of a table into an index on its field 1. */
static void index_records(lent *index, const lent *t, uint32_t k, uint32_t last)
{
    const uint8_t none = 0;
    SAME(gl_index_fresh(index->bytes, index->len, k, 1, (const uint8_t *)"BARCODE", 7), 0);
    for (uint32_t i = 1; i <= last; i++) {
        uint64_t start = 0, length = 0;
        SAME(gl_text_part(t->bytes, t->len, &none, 0, i, 1, &start, &length), 0);
        SAME(gl_index_insert(index->bytes, index->len, t->bytes + start, length, i), 0);
    }
    keep(index);
}

#define MATCHES(field, want) SAME(gl_match(t.bytes, t.len, index.bytes, index.len, field), want)

static void test_match(void)
{
    lent t = load(samples_data, "shp_point.dbf"), index = lend(NULL, 4096);
    index_records(&index, &t, 10, 5);
    MATCHES(1, 0);
    MATCHES(0, 12);
    MATCHES(5, 12);
    MATCHES(2, 13);
    /* whatever its deletion byte */
    t.bytes[161] = 'x', MATCHES(1, 0);
    t.bytes[161] = ' ', MATCHES(1, 0);
    /* a key that is not the record's field, in the table and in the index */
    t.bytes[162] ^= 1, MATCHES(1, 31);
    t.bytes[162] ^= 1, MATCHES(1, 0);
    index.bytes[512 + 12 + 13] = 2, MATCHES(1, 31);
    index.bytes[512 + 12 + 13] = 1, MATCHES(1, 0);
    /* an entry too many, and one too few */
    SAME(gl_index_insert(index.bytes, index.len, (const uint8_t *)"PLT0000006", 10, 6), 0);
    MATCHES(1, 31);
    index_records(&index, &t, 10, 0);
    MATCHES(1, 31);
    for (uint32_t i = 1; i <= 4; i++) {
        index_records(&index, &t, 10, i);
        MATCHES(1, 31);
    }
    /* 27, 25, 24 and 1 to 10, each before the ones tested above it */
    SAME(gl_index_fresh(index.bytes, index.len, 9, 1, (const uint8_t *)"BARCODE", 7), 0);
    MATCHES(1, 27);
    index.bytes[512] = 0, MATCHES(1, 27);
    index_records(&index, &t, 10, 5);
    index.bytes[512] = 0, MATCHES(1, 25);
    MATCHES(2, 13);
    index.bytes[14] = 2, MATCHES(9, 24);
    t.bytes[0] = 0x83, MATCHES(9, 2);
    MARGINS(t);
    MARGINS(index);
    give_back(&t);
    give_back(&index);
}

/* The answer for a barcode of field 1 with the concentration in field 2, and the two volumes; a refusal leaves both. */
#define DILUTES(code, target, final, want, first, second)                                                                                             \
    do {                                                                                                                                              \
        uint32_t sample = 77, diluent = 88;                                                                                                           \
        SAME(gl_dilute(t.bytes, t.len, index.bytes, index.len, 1, 2, (const uint8_t *)code, strlen(code), target, final, &sample, &diluent), want);   \
        SAME(sample, (want) == 0 ? (first) : 77u);                                                                                                    \
        SAME(diluent, (want) == 0 ? (second) : 88u);                                                                                                  \
    } while (0)

/* The samples of document 02's K11: what the program prints for k11_01 and others, by the call. */
static void test_dilute(void)
{
    lent t = load(dilution_data, "k11.dbf"), index = load(dilution_data, "k11.idx");
    DILUTES("PLT0000000", 2000, 1000, 0, 930, 70);
    DILUTES("PLT0000109", 2000, 1000, 0, 500, 500);
    DILUTES("PLT0000028", 2000, 1000, 0, 667, 333);
    DILUTES("PLT0000947", 2000, 1000, 0, 286, 714);
    DILUTES("PLT0000433", 2000, 1000, 0, 0, 1000);
    DILUTES("PLT0000000", 2150, 333, 0, 333, 0);
    DILUTES("PLT0000000", 1, 10000, 0, 5, 9995);
    /* the comma is no number, whatever is asked */
    DILUTES("PLT0000919", 2000, 1000, 16, 0, 0);
    DILUTES("PLT0000919", 0, 0, 16, 0, 0);
    /* empty, zero, negative; other texts */
    DILUTES("PLT0000838", 0, 0, 36, 0, 0);
    DILUTES("PLT0000757", 2000, 1000, 36, 0, 0);
    DILUTES("PLT0000676", 2000, 1000, 36, 0, 0);
    DILUTES("PLT0000595", 2000, 1000, 17, 0, 0);
    /* deleted, a bad deletion byte, absent, the wrong length */
    DILUTES("PLT0000352", 1000, 1000, 35, 0, 0);
    DILUTES("PLT0000271", 1000, 1000, 15, 0, 0);
    DILUTES("PLT0000001", 1000, 1000, 35, 0, 0);
    DILUTES("PLT000000", 1000, 1000, 27, 0, 0);
    DILUTES("PLT00000000", 1000, 1000, 27, 0, 0);
    /* ranges before the concentration's limit */
    DILUTES("PLT0000000", 0, 1000, 37, 0, 0);
    DILUTES("PLT0000000", 1000000001, 1000, 37, 0, 0);
    DILUTES("PLT0000000", 1000, 0, 37, 0, 0);
    DILUTES("PLT0000000", 1000, 10001, 37, 0, 0);
    DILUTES("PLT0000000", 2151, 1000, 38, 0, 0);
    /* the fields' numbers, the match's refusals before them */
    uint32_t sample = 7, diluent = 8;
#define FIELDS(barcode, concentration, want)                                                                                                          \
    SAME(gl_dilute(t.bytes, t.len, index.bytes, index.len, barcode, concentration, (const uint8_t *)"PLT0000000", 10, 1, 1, &sample, &diluent), want)
    FIELDS(0, 0, 12);
    FIELDS(2, 2, 13);
    FIELDS(1, 0, 12);
    FIELDS(1, 5, 12);
    FIELDS(1, 1, 13);
    FIELDS(1, 4, 13);
    index.bytes[512] = 0, FIELDS(1, 0, 25);
    index.bytes[14] = 0, FIELDS(1, 0, 24);
    t.bytes[0] = 0x83, FIELDS(1, 0, 2);
#undef FIELDS
    SAME(sample, 7);
    SAME(diluent, 8);
    MARGINS(t);
    MARGINS(index);
    give_back(&t);
    give_back(&index);
}

/* An insertion refuses what the audit refuses, and leaves it. */
static void test_damaged_index(const char *name, const char *key)
{
    lent index = load(indexes_data, name);
    size_t n = strlen(key);
    for (size_t i = 0; i < index.len; i++) {
        index.bytes[i] ^= 0x11;
        keep(&index);
        uint32_t audit = gl_index_audit(index.bytes, index.len);
        uint32_t record = 0, pages = 0;
        uint32_t answer = gl_index_lookup(index.bytes, index.len, (const uint8_t *)key, n, &record, &pages);
        SAME(audit == 0 || audit == 24 || audit == 25, 1);
        SAME(answer == 24, audit == 24);
        SAME(pages <= GL_INDEX_LEVELS_MAX, 1);
        if (audit != 0) {
            uint32_t inserted = gl_index_insert(index.bytes, index.len, (const uint8_t *)key, n, 1);
            SAME(inserted == audit || (audit == 25 && inserted == 27), 1);
        }
        UNCHANGED(index);
        index.bytes[i] ^= 0x11;
    }
    MARGINS(index);
    give_back(&index);
}

/* ---- NDX indexes. */

static void ndx_looks_up(int line, const lent *index, const void *key, size_t n, uint32_t answer, uint32_t number, uint32_t visited)
{
    OUT(uint32_t, record);
    OUT(uint32_t, pages);
    same(line, "NDX lookup", gl_ndx_lookup(index->bytes, index->len, key, n, &record[1], &pages[1]), answer);
    HELD(record, answer == 0 ? number : OLD);
    HELD(pages, answer == 0 || answer == GL_ABSENT ? visited : OLD);
}

#define NDX_LOOKS_UP(index, key, n, answer, number, visited) ndx_looks_up(__LINE__, index, key, n, answer, number, visited)

/* A header for keys of k bytes, and an entry of a page with such keys. */
static void put_ndx_header(uint8_t *b, uint32_t root, uint32_t pages, uint8_t k, uint8_t keys_per_page)
{
    put32(b, root), put32(b + 4, pages);
    b[12] = k, b[14] = keys_per_page, b[18] = (uint8_t)((k + 8 + 3) / 4 * 4);
}

static void put_ndx_entry(uint8_t *b, uint32_t page, uint32_t i, uint32_t lower, uint32_t record, const void *key, uint8_t k)
{
    uint8_t *entry = b + 512 * page + 4 + (k + 8u + 3) / 4 * 4 * i;
    put32(entry, lower);
    if (key != NULL) {
        put32(entry + 4, record);
        memcpy(entry + 8, key, k);
        put32(b + 512 * page, i + 1);
    }
}

/* Three levels, two keys of one byte per page: root 1 (D), 2 (B), 3 (F), leaves 4 (A B), 5 (C), 6 (E F), 7 (G H), records 1 to 8 without D's. Bytes of it are
   then changed, one at a time: ceilings, lower pages, counts, records, keys, the header. */
static void test_ndx(void)
{
    static const struct { uint32_t at; uint8_t byte; uint32_t answer; } changed[] = {
        {524, 'C', 0}, {524, 'E', 25}, {524, 'B', 25}, {528, 1, 25}, {528, 0, 25}, {528, 8, 25}, {528, 2, 25}, {2064, 1, 25}, {2056, 0, 25}, {512, 3, 25},
        {512, 0, 25}, {2560, 0, 25}, {2060, 'B', 25}, {0, 0, 24}, {0, 8, 24}, {4, 9, 24}, {4, 7, 25}, {12, 0, 24}, {12, 5, 24}, {14, 0, 24}, {14, 43, 24},
        {14, 42, 0}, {16, 1, 24}, {17, 1, 24}, {18, 16, 24}, {8, 77, 0}, {520, 99, 0},
    };
    lent index = lend(NULL, 4096 + 100);
    uint8_t *b = index.bytes;
    put_ndx_header(b, 1, 8, 1, 2);
    put_ndx_entry(b, 1, 0, 2, 0, "D", 1), put_ndx_entry(b, 1, 1, 3, 0, NULL, 1);
    put_ndx_entry(b, 2, 0, 4, 0, "B", 1), put_ndx_entry(b, 2, 1, 5, 0, NULL, 1);
    put_ndx_entry(b, 3, 0, 6, 0, "F", 1), put_ndx_entry(b, 3, 1, 7, 0, NULL, 1);
    put_ndx_entry(b, 4, 0, 0, 1, "A", 1), put_ndx_entry(b, 4, 1, 0, 2, "B", 1);
    put_ndx_entry(b, 5, 0, 0, 3, "C", 1);
    put_ndx_entry(b, 6, 0, 0, 5, "E", 1), put_ndx_entry(b, 6, 1, 0, 6, "F", 1);
    put_ndx_entry(b, 7, 0, 0, 7, "G", 1), put_ndx_entry(b, 7, 1, 0, 8, "H", 1);
    keep(&index);
    SAME(gl_ndx_audit(index.bytes, index.len), 0);
    SAME(gl_ndx_audit(index.bytes, 4096), 0);
    SAME(gl_ndx_audit(index.bytes, 4095), 24);
    SAME(gl_ndx_audit(index.bytes, 511), 24);
    SAME(gl_ndx_audit(index.bytes, 0), 24);
    for (char c = 'A'; c <= 'I'; c++)
        NDX_LOOKS_UP(&index, &c, 1, c == 'D' || c == 'I' ? GL_ABSENT : 0, (uint32_t)(c - 'A' + 1), 3);
    NDX_LOOKS_UP(&index, "FF", 2, 27, 0, 0);
    NDX_LOOKS_UP(&index, "", 0, 27, 0, 0);
    for (size_t i = 0; i < sizeof changed / sizeof *changed; i++) {
        b[changed[i].at] = changed[i].byte;
        same(__LINE__ * 1000 + (int)i, "NDX audit", gl_ndx_audit(index.bytes, index.len), changed[i].answer);
        if (changed[i].answer == 24)
            NDX_LOOKS_UP(&index, "FF", 2, 24, 0, 0);
        memcpy(b, index.copy, index.len);
    }
    b[528] = 1;
    NDX_LOOKS_UP(&index, "I", 1, 25, 0, 0);
    NDX_LOOKS_UP(&index, "A", 1, 0, 1, 3);
    b[528] = 3;
    UNCHANGED(index);
    MARGINS(index);
    give_back(&index);
}

/* The largest index: 15 levels of one key per page, each branch with two children, in 16,777,216 bytes; page p has the children 2p and 2p + 1. */
static void test_largest_ndx(void)
{
    lent index = lend(NULL, GL_INDEX_MAX + 512);
    uint8_t *b = index.bytes, key[4];
    put_ndx_header(b, 1, GL_INDEX_MAX / 512, 4, 1);
    for (uint32_t level = 0; level < GL_INDEX_LEVELS_MAX; level++)
        for (uint32_t i = 0; i < 1u << level; i++) {
            uint32_t page = (1u << level) + i, under = 1u << (GL_INDEX_LEVELS_MAX - 1 - level);
            uint32_t number = level == GL_INDEX_LEVELS_MAX - 1 ? i + 1 : i * under + under / 2;
            key[0] = number >> 24, key[1] = number >> 16 & 255, key[2] = number >> 8 & 255, key[3] = number & 255;
            put_ndx_entry(b, page, 0, level == GL_INDEX_LEVELS_MAX - 1 ? 0 : 2 * page, number, key, 4);
            if (level < GL_INDEX_LEVELS_MAX - 1)
                put_ndx_entry(b, page, 1, 2 * page + 1, 0, NULL, 4);
        }
    keep(&index);
    SAME(gl_ndx_audit(index.bytes, index.len), 0);
    NDX_LOOKS_UP(&index, "\0\0\0\1", 4, 0, 1, 15);
    NDX_LOOKS_UP(&index, "\0\0\x40\0", 4, 0, 16384, 15);
    NDX_LOOKS_UP(&index, "\0\0\x40\1", 4, GL_ABSENT, 0, 15);
    /* a leaf that names a page is the 15th page visited, and no leaf */
    put32(b + 512 * 16384 + 4, 1);
    SAME(gl_ndx_audit(index.bytes, index.len), 25);
    NDX_LOOKS_UP(&index, "\0\0\0\1", 4, 25, 0, 0);
    NDX_LOOKS_UP(&index, "\0\0\0\3", 4, 0, 3, 15);
    put32(b + 512 * 16384 + 4, 0);
    /* one page more passes the limit */
    put32(b + 4, GL_INDEX_MAX / 512 + 1);
    SAME(gl_ndx_audit(index.bytes, index.len), 24);
    put32(b + 4, GL_INDEX_MAX / 512);
    UNCHANGED(index);
    MARGINS(index);
    give_back(&index);
}

int main(int argc, char **argv)
{
    if (argc > 1)
        repository = argv[1];
    test_interface();
    test_number_read();
    test_number_write();
    test_dates();
    test_logicals();
    test_text_parts();
    test_read_order();
    test_damaged_table("shp_point.dbf");
    test_damaged_table("xbase_f5.dbf");
    test_fields();
    test_offsets();
    test_walk();
    test_walk_live();
    test_walks_of_the_sample();
    test_samples();
    test_tree_000();
    test_largest_index();
    test_ndx();
    test_largest_ndx();
    test_fresh();
    test_five_keys(2048, 0);
    test_five_keys(1024, 30);
    test_records();
    test_removal();
    test_free_lists();
    test_calls("k1_bytes", 8192);
    test_calls("k10_ascending", 32768);
    test_calls("k10_descending", 32768);
    test_calls("k10_random", 32768);
    test_calls("k46_mixed", 32768);
    test_calls("k100_deep", 65536);
    test_calls("k100_full", 4096);
    test_calls("k100_deep_raised", 65536);
    test_calls("k100_full_raised", 4096);
    test_calls("k5_control", 16384);
    test_calls("k6_k10_mixed", 32768);
    test_calls("k6_k10_to_nothing", 16384);
    test_calls("k6_k1_bytes", 8192);
    test_calls("k6_k100_deep", 65536);
    test_calls("k6_k100_full", 4096);
    test_calls("k12_dates", 32768);
    test_calls("k12_few", 16384);
    test_calls("k12_one_key", 16384);
    test_calls("k12_unique", 16384);
    test_calls("k12_deep", 65536);
    test_calls("k12_deep_falling", 65536);
    test_features();
    test_damaged_equal_keys();
    test_earlier_release();
    test_control_bytes();
    test_writing();
    test_lay_out_limits();
    test_longest_table();
    test_set_date();
    test_match();
    test_dilute();
    test_damaged_index("k1_bytes.idx", "\x80");
    test_damaged_index("k100_full_raised.idx", "0123456789012345678901234567890123456789012345678901234567890123456789012345678901234567890123456789");
    printf("%lu comparisons, %lu differences\n", checks, differences);
    return differences == 0 ? 0 : 1;
}
