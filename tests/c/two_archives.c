/* Times the calls on an index of two archives, in turn in one process, on the same inputs. tests/c/two_archives builds and runs it.

       two_archives make FOLDER            makes the indexes: random keys, inserted until so many pages have no room
       two_archives time FOLDER SAMPLES    prints a line for each call and kind of key: nanoseconds of this archive and of the other, the best of the samples */
#include "gatherloom.h"

#include <stdio.h>
#include <stdlib.h>
#include <string.h>
#include <time.h>

/* Moves the code of both archives, which the linker puts behind this, by PLACEMENT bytes. */
#define TEXT(x) #x
#define SKIP(n) __asm__(".section .text.placement, \"ax\"\n.balign 64\n.skip " TEXT(n) "\n.text")
SKIP(PLACEMENT);

/* The other archive's calls, by the names that the script gives them; removal is missing before K6. In an archive of interface 1, before K12, removal has no
   record: there the last argument is one more than it takes, which x86-64 passes in a register that the call does not read. */
extern __typeof__(gl_interface) other_gl_interface;
extern __typeof__(gl_index_audit) other_gl_index_audit;
extern __typeof__(gl_index_lookup) other_gl_index_lookup;
extern __typeof__(gl_index_insert) other_gl_index_insert;
extern __typeof__(gl_match) other_gl_match;
extern __typeof__(gl_index_remove) other_gl_index_remove __attribute__((weak));

typedef struct {
    __typeof__(&gl_index_audit) audit;
    __typeof__(&gl_index_lookup) lookup;
    __typeof__(&gl_index_insert) insert;
    __typeof__(&gl_index_remove) remove;
    __typeof__(&gl_match) match;
} archive;

static archive archives[2] = {
    {gl_index_audit, gl_index_lookup, gl_index_insert, gl_index_remove, gl_match},
    {other_gl_index_audit, other_gl_index_lookup, other_gl_index_insert, other_gl_index_remove, other_gl_match},
};

/* Keys of so many bytes, the first of which are the same in all keys. */
typedef struct { size_t length, alike; } shape;

static const shape shapes[] = {{5, 0}, {10, 0}, {10, 6}, {15, 8}, {100, 0}, {100, 96}};

enum { PAGE = 512, WHOLE = 1048576, HALF = WHOLE / 2, LOOKUPS = 2000, WRITES = 4, HEADER = 65 };

/* The sizes of the indexes: 1, 2, 5 and 40 pages after the header, and the large ones. An index of GL_INDEX_MAX bytes would take minutes to make. */
static const size_t sizes[] = {2 * PAGE, 3 * PAGE, 6 * PAGE, 41 * PAGE, HALF, WHOLE};

static void fail(const char *why)
{
    fprintf(stderr, "two_archives: %s\n", why);
    exit(1);
}

/* ---- Keys and indexes. */

static uint64_t state = 88172645463325252u;

static uint64_t random_bits(void)
{
    state ^= state << 13;
    state ^= state >> 7;
    state ^= state << 17;
    return state;
}

static void random_key(shape s, uint8_t *key)
{
    memset(key, 'S', s.alike);
    for (size_t i = s.alike; i < s.length; i++)
        key[i] = (uint8_t)(0x20 + random_bits() % 224);
}

static FILE *open_index(const char *folder, shape s, size_t size, const char *mode)
{
    char path[1024];
    snprintf(path, sizeof path, "%s/%zu-%zu-%zu.idx", folder, s.length, s.alike, size);
    FILE *f = fopen(path, mode);
    if (f == NULL)
        fail(path);
    return f;
}

static void load_index(const char *folder, shape s, size_t size, uint8_t *index)
{
    FILE *f = open_index(folder, s, size, "rb");
    if (fread(index, 1, size, f) != size)
        fail("an index is too short");
    fclose(f);
}

static void make_indexes(const char *folder, shape s)
{
    static uint8_t index[WHOLE];
    uint8_t key[GL_KEY_MAX];
    uint32_t record = 0;
    gl_index_fresh(index, sizeof index, (uint32_t)s.length, 1, (const uint8_t *)"KEY", 3);
    for (size_t i = 0; i < sizeof sizes / sizeof *sizes; i++) {
        uint32_t answer;
        do {
            random_key(s, key);
            answer = gl_index_insert(index, sizes[i], key, s.length, record + 1);
            record += answer == 0;
        } while (answer != GL_REFUSED_NO_ROOM);
        FILE *f = open_index(folder, s, sizes[i], "wb");
        fwrite(index, 1, sizes[i], f);
        fclose(f);
    }
}

/* Takes keys that the index has, each equally often. */
static void present_keys(shape s, const uint8_t *index, size_t size, uint8_t *keys, size_t count)
{
    size_t entry = s.length + 4, taken = 0;
    while (taken < count) {
        const uint8_t *page = index + PAGE + random_bits() % (size / PAGE - 1) * PAGE;
        size_t i = random_bits() % (500 / entry);
        if (page[0] >= 2 && i < page[2])
            memcpy(keys + taken++ * s.length, page + 12 + i * entry, s.length);
    }
}

/* Makes the table that matches an index: its one field has the keys. It gives the table's length. */
static size_t matching_table(shape s, const uint8_t *index, size_t size, uint8_t *table, size_t room)
{
    gl_field_entry field = {"KEY", 'C', (uint8_t)s.length, 0, 0};
    size_t entry = s.length + 4, length = s.length + 1;
    uint32_t records = 0;
    if (gl_table_lay_out(table, room, &field, 1, 2024, 2, 29) != 0)
        fail("no table");
    for (const uint8_t *page = index + PAGE; page < index + size; page += PAGE)
        for (size_t i = 0; page[0] >= 2 && i < page[2]; i++) {
            const uint8_t *key = page + 12 + i * entry, *number = key + s.length;
            uint32_t record = (uint32_t)number[0] << 24 | (uint32_t)number[1] << 16 | (uint32_t)number[2] << 8 | number[3];
            table[HEADER + (record - 1) * length] = ' ';
            memcpy(table + HEADER + (record - 1) * length + 1, key, s.length);
            if (record > records)
                records = record;
        }
    memcpy(table + 4, &records, 4);
    table[HEADER + records * length] = 0x1a;
    if (gl_match(table, HEADER + records * length + 1, index, size, 1) != 0)
        fail("the table does not match");
    return HEADER + records * length + 1;
}

/* ---- What is timed: a run of calls, by either archive. It gives a sum of the answers, which must be the same. */

typedef struct {
    uint8_t *index;
    const uint8_t *keys, *table;
    size_t table_length;
} input;

typedef struct {
    const char *name;
    size_t size, calls;
    uint64_t (*run)(const archive *a, shape s, size_t calls, const input *in);
    int writes, present;
} call;

static uint64_t run_audits(const archive *a, shape s, size_t calls, const input *in)
{
    uint64_t sum = 0;
    (void)s;
    for (size_t i = 0; i < calls; i++)
        sum += a->audit(in->index, WHOLE);
    return sum;
}

static uint64_t run_match(const archive *a, shape s, size_t calls, const input *in)
{
    (void)s, (void)calls;
    return a->match(in->table, in->table_length, in->index, WHOLE, 1);
}

static uint64_t run_lookups(const archive *a, shape s, size_t calls, const input *in)
{
    uint64_t sum = 0;
    for (size_t i = 0; i < calls; i++) {
        uint32_t record = 0, pages = 0;
        sum += a->lookup(in->index, WHOLE, in->keys + i * s.length, s.length, &record, &pages);
        sum += record + pages;
    }
    return sum;
}

static uint64_t run_insertions(const archive *a, shape s, size_t calls, const input *in)
{
    uint64_t sum = 0;
    for (size_t i = 0; i < calls; i++)
        sum += a->insert(in->index, WHOLE, in->keys + i * s.length, s.length, 1);
    return sum;
}

static uint64_t run_removals(const archive *a, shape s, size_t calls, const input *in)
{
    uint64_t sum = 0;
    for (size_t i = 0; i < calls; i++)
        sum += a->remove(in->index, WHOLE, in->keys + i * s.length, s.length, 0);
    return sum;
}

static const call calls[] = {
    {"audit, 1 page", 2 * PAGE, 200, run_audits, 0, 1},
    {"audit, 2 pages", 3 * PAGE, 200, run_audits, 0, 1},
    {"audit, 5 pages", 6 * PAGE, 50, run_audits, 0, 1},
    {"audit, 40 pages", 41 * PAGE, 10, run_audits, 0, 1},
    {"audit, 1 MiB", WHOLE, 1, run_audits, 0, 1},
    {"match, 1 MiB", WHOLE, 1, run_match, 0, 1},
    {"lookup, found", WHOLE, LOOKUPS, run_lookups, 0, 1},
    {"lookup, absent", WHOLE, LOOKUPS, run_lookups, 0, 0},
    {"insertion, 5 pages", 6 * PAGE, WRITES, run_insertions, 1, 0},
    {"insertion, 40 pages", 41 * PAGE, WRITES, run_insertions, 1, 0},
    {"insertion, 0.5 MiB", HALF, WRITES, run_insertions, 1, 0},
    {"removal, 5 pages", 6 * PAGE, WRITES, run_removals, 1, 1},
    {"removal, 40 pages", 41 * PAGE, WRITES, run_removals, 1, 1},
    {"removal, 0.5 MiB", HALF, WRITES, run_removals, 1, 1},
};

/* ---- Times. */

static double now(void)
{
    struct timespec t;
    clock_gettime(CLOCK_THREAD_CPUTIME_ID, &t);
    return (double)t.tv_sec * 1e9 + (double)t.tv_nsec;
}

static void time_call(const call *c, shape s, const uint8_t *made, int samples)
{
    static uint8_t index[WHOLE], keys[LOOKUPS * GL_KEY_MAX], table[2 * WHOLE];
    input in = {index, keys, table, c->run == run_match ? matching_table(s, made, c->size, table, sizeof table) : 0};
    double best[2] = {1e18, 1e18};
    memcpy(index, made, c->size);
    for (size_t i = 0; !c->present && i < c->calls; i++)
        random_key(s, keys + i * s.length);
    if (c->present)
        present_keys(s, made, c->size, keys, c->calls);
    for (int i = 0; i < samples; i++) {
        uint64_t sums[2];
        for (int turn = 0; turn < 2; turn++) {
            int which = (turn + i) % 2;
            if (c->writes)
                memcpy(index, made, c->size);
            double start = now();
            sums[which] = c->run(&archives[which], s, c->calls, &in);
            double took = now() - start;
            if (took < best[which])
                best[which] = took;
        }
        if (sums[0] != sums[1])
            fail("the archives' answers differ");
    }
    printf("%s\t%zu bytes, %zu alike\t%.1f\t%.1f\n", c->name, s.length, s.alike, best[0] / (double)c->calls, best[1] / (double)c->calls);
}

static void time_calls(const char *folder, shape s, int samples)
{
    static uint8_t made[WHOLE];
    for (size_t i = 0; i < sizeof calls / sizeof *calls; i++)
        if (calls[i].run != run_removals || archives[1].remove != NULL) {
            load_index(folder, s, calls[i].size, made);
            time_call(&calls[i], s, made, samples);
        }
}

int main(int argc, char **argv)
{
    if (gl_interface() != GL_INTERFACE || other_gl_interface() < 1 || other_gl_interface() > GL_INTERFACE)
        fail("an archive has another interface");
    int make = argc == 3 && strcmp(argv[1], "make") == 0;
    if (!make && argc != 4)
        fail("make FOLDER, or time FOLDER SAMPLES");
    for (size_t i = 0; i < sizeof shapes / sizeof *shapes; i++)
        if (make)
            make_indexes(argv[2], shapes[i]);
        else
            time_calls(argv[2], shapes[i], atoi(argv[3]));
    return 0;
}
