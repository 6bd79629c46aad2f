/*
 * Codwalet used from C: sizes and offsets of the header's structs, and a run through every function. The maps are
 * written here, and the answers that are due are counted by hand from document 01.
 */
#include "codwalet.h"

#include <stdio.h>
#include <stdlib.h>
#include <string.h>

#define SIZE(type, bytes) _Static_assert(sizeof(type) == (bytes), "size of " #type)
#define FIELD(type, name, at, bytes) \
    _Static_assert(offsetof(type, name) == (at) && sizeof(((type *)0)->name) == (bytes), #type "." #name)

SIZE(codwalet_licence, 24);
FIELD(codwalet_licence, call_sign, 0, 4);
FIELD(codwalet_licence, area, 4, 2);
FIELD(codwalet_licence, kind, 6, 1);
FIELD(codwalet_licence, narrower_by, 7, 1);
FIELD(codwalet_licence, south, 8, 4);
FIELD(codwalet_licence, north, 12, 4);
FIELD(codwalet_licence, west, 16, 4);
FIELD(codwalet_licence, east, 20, 4);

SIZE(codwalet_register, 1536);
FIELD(codwalet_register, places, 0, 64 * 24);

SIZE(codwalet_step, 1540);
FIELD(codwalet_step, next, 0, 1536);
FIELD(codwalet_step, refusal, 1536, 4);

SIZE(codwalet_area, 48);
FIELD(codwalet_area, refusal, 0, 4);
FIELD(codwalet_area, weight, 4, 4);
FIELD(codwalet_area, rows, 8, 8);
FIELD(codwalet_area, columns, 16, 8);
FIELD(codwalet_area, population, 24, 8);
FIELD(codwalet_area, offset, 32, 8);
FIELD(codwalet_area, length, 40, 8);

SIZE(codwalet_covered, 24);
FIELD(codwalet_covered, mhz_pops, 0, 8);
FIELD(codwalet_covered, cells, 8, 8);
FIELD(codwalet_covered, refusal, 16, 4);
FIELD(codwalet_covered, unused, 20, 4);

SIZE(codwalet_held, 32);
FIELD(codwalet_held, whole, 0, 8);
FIELD(codwalet_held, value, 8, 8);
FIELD(codwalet_held, size, 16, 8);
FIELD(codwalet_held, refusal, 24, 4);
FIELD(codwalet_held, unused, 28, 4);

SIZE(codwalet_given, 32);
FIELD(codwalet_given, number, 0, 4);
FIELD(codwalet_given, gets, 4, 4);
FIELD(codwalet_given, blocks, 8, 8);
FIELD(codwalet_given, share, 16, 8);
FIELD(codwalet_given, cells, 24, 8);

SIZE(codwalet_proposal, 1064);
FIELD(codwalet_proposal, refusal, 0, 4);
FIELD(codwalet_proposal, kind, 4, 4);
FIELD(codwalet_proposal, tied, 8, 8);
FIELD(codwalet_proposal, count, 16, 8);
FIELD(codwalet_proposal, target, 24, 8);
FIELD(codwalet_proposal, white_space, 32, 8);
FIELD(codwalet_proposal, areas, 40, 32 * 32);

SIZE(codwalet_outline, 16);
FIELD(codwalet_outline, refusal, 0, 4);
FIELD(codwalet_outline, area, 4, 4);
FIELD(codwalet_outline, needed, 8, 8);

/* Checks. */

static unsigned checks;
static const char *checked = ""; /* the case that is being checked */

static void fail(const char *what, int line)
{
    fprintf(stderr, "interface.c:%d: %s: %s", line, checked, what);
}

static void check_true(int holds, const char *what, int line)
{
    checks++;
    if (!holds) {
        fail(what, line);
        fprintf(stderr, " does not hold\n");
        exit(1);
    }
}

static void check_equal(uint64_t got, uint64_t due, const char *what, int line)
{
    checks++;
    if (got != due) {
        fail(what, line);
        fprintf(stderr, " is %llu, due is %llu\n", (unsigned long long)got, (unsigned long long)due);
        exit(1);
    }
}

static void check_bytes(const void *got, const void *due, size_t length, const char *what, int line)
{
    const uint8_t *a = got, *b = due;
    checks++;
    for (size_t i = 0; i < length; i++) {
        if (a[i] != b[i]) {
            fail(what, line);
            fprintf(stderr, ": byte %zu is %u, due is %u\n", i, a[i], b[i]);
            exit(1);
        }
    }
}

#define CHECK(what) check_true((what), #what, __LINE__)
#define EQUAL(got, due) check_equal((got), (due), #got, __LINE__)
#define SAME(got, due) check_bytes(&(got), &(due), sizeof(due), #got, __LINE__)

/* Maps. */

#define NO_CELL UINT32_MAX
#define STEP 100 /* between neighbouring points, in both directions */

typedef struct {
    uint8_t bytes[2048];
    size_t length;
} map_bytes;

static void put(map_bytes *map, uint32_t value, int bytes)
{
    for (int i = 0; i < bytes; i++)
        map->bytes[map->length++] = (uint8_t)(value >> (8 * i));
}

static void begin_map(map_bytes *map, size_t areas)
{
    memset(map, 0, sizeof *map);
    put(map, (uint32_t)areas, 1);
}

/* A row: its bit map, then its cells, at the latitude given and from the longitude given eastwards. */
static void add_row(map_bytes *map, size_t columns, const uint32_t *people, int32_t latitude, int32_t west)
{
    uint8_t *bits = map->bytes + map->length;
    map->length += (columns + 7) / 8;
    for (size_t j = 0; j < columns; j++) {
        if (people[j] == NO_CELL)
            continue;
        bits[j / 8] |= (uint8_t)(1u << (j % 8));
        put(map, people[j], 4);
        put(map, (uint32_t)latitude, 4);
        put(map, (uint32_t)(west + STEP * (int32_t)j), 4);
    }
}

/* An area, whose first row is at latitude 0 and whose first column is at the longitude given. */
static void add_area(map_bytes *map, uint32_t number, uint32_t weight, size_t rows, size_t columns,
                     const uint32_t *people, int32_t west)
{
    put(map, number, 2);
    put(map, weight, 4);
    put(map, (uint32_t)rows, 1);
    put(map, (uint32_t)columns, 1);
    for (size_t i = 0; i < rows; i++)
        add_row(map, columns, people + i * columns, -STEP * (int32_t)i, west);
}

/* Licences and registers. */

static codwalet_licence area_licence(uint32_t call_sign, uint16_t area)
{
    codwalet_licence licence = {.call_sign = call_sign, .area = area, .kind = CODWALET_GROUND_AREA};
    return licence;
}

static codwalet_licence box_licence(uint32_t call_sign, int32_t south, int32_t north, int32_t west, int32_t east)
{
    codwalet_licence licence = {.call_sign = call_sign, .kind = CODWALET_GROUND_BOX,
                                .south = south, .north = north, .west = west, .east = east};
    return licence;
}

/* The register with a licence granted, where nothing refuses it. */
static codwalet_register with(codwalet_register current, codwalet_licence licence)
{
    codwalet_step step = codwalet_grant(current, licence);
    EQUAL(step.refusal, CODWALET_ACCEPTED);
    return step.next;
}

/* The same with a licence of so many MHz. */
static codwalet_register with_width(codwalet_register current, codwalet_licence licence, uint32_t width)
{
    codwalet_step step = codwalet_grant_width(current, licence, width);
    EQUAL(step.refusal, CODWALET_ACCEPTED);
    return step.next;
}

/* The register with n licences, call signs 1 to n, each over the area of its call sign's number. */
static codwalet_register with_areas(uint32_t n)
{
    codwalet_register current = codwalet_empty();
    for (uint32_t i = 1; i <= n; i++)
        current = with(current, area_licence(i, (uint16_t)i));
    return current;
}

/* The one place that has the call sign, or CODWALET_LIMIT where none has. */
static size_t place_of(const codwalet_register *current, uint32_t call_sign)
{
    size_t place = CODWALET_LIMIT;
    for (size_t i = 0; i < CODWALET_LIMIT; i++) {
        if (current->places[i].call_sign == call_sign) {
            CHECK(place == CODWALET_LIMIT);
            place = i;
        }
    }
    return place;
}

/* A grant adds its licence at a free place, with narrower_by by its width, and no other place changes. */
static void granted_at_a_free_place(codwalet_register before, codwalet_register after, codwalet_licence due)
{
    size_t place = place_of(&after, due.call_sign);
    CHECK(place < CODWALET_LIMIT);
    EQUAL(before.places[place].call_sign, 0);
    SAME(after.places[place], due);
    before.places[place] = due;
    SAME(after, before);
}

/* A cancellation frees the place of its licence, which can be granted again. */
static void grants_and_cancellations(void)
{
    const codwalet_licence granted[] = {
        area_licence(11, 1),
        area_licence(12, 416),
        box_licence(13, -5, 5, -7, 7),
        box_licence(14, -32400000, 32400000, -64800000, 64800000),
        box_licence(UINT32_MAX, 0, 1, 0, 1),
    };
    codwalet_register current = codwalet_empty();
    for (size_t i = 0; i < CODWALET_LIMIT; i++)
        EQUAL(current.places[i].call_sign, 0);
    for (size_t i = 0; i < sizeof granted / sizeof granted[0]; i++) {
        codwalet_register before = current;
        uint32_t call_sign = granted[i].call_sign;
        current = with(before, granted[i]);
        granted_at_a_free_place(before, current, granted[i]);

        codwalet_step cancelled = codwalet_cancel(current, call_sign);
        EQUAL(cancelled.refusal, CODWALET_ACCEPTED);
        EQUAL(place_of(&cancelled.next, call_sign), CODWALET_LIMIT);
        current = with(cancelled.next, granted[i]);
        CHECK(place_of(&current, call_sign) < CODWALET_LIMIT);
    }
}

/* A refused grant or cancellation hands back its register byte for byte, whatever its free places hold. */
static void refused_width(codwalet_register current, codwalet_licence licence, uint32_t width, uint32_t refusal)
{
    codwalet_step step = codwalet_grant_width(current, licence, width);
    EQUAL(step.refusal, refusal);
    SAME(step.next, current);
}

/* With a width it is refused as without one, or by 6 where the width is none. */
static void refused_grant(codwalet_register current, codwalet_licence licence, uint32_t refusal)
{
    codwalet_step step = codwalet_grant(current, licence);
    EQUAL(step.refusal, refusal);
    SAME(step.next, current);
    refused_width(current, licence, 1, refusal);
    refused_width(current, licence, CODWALET_FULL_WIDTH, refusal);
    refused_width(current, licence, 0, CODWALET_ILL_FORMED);
    refused_width(current, licence, CODWALET_FULL_WIDTH + 1, CODWALET_ILL_FORMED);
}

static void refused_cancellation(codwalet_register current, uint32_t call_sign)
{
    codwalet_step step = codwalet_cancel(current, call_sign);
    EQUAL(step.refusal, CODWALET_NOT_IN_FORCE);
    SAME(step.next, current);
}

static const struct {
    const char *name;
    codwalet_licence licence; /* call sign, area, kind, narrower_by, south, north, west, east */
} ill_formed[] = {
    {"call sign 0", {0, 5, 0, 0, 0, 0, 0, 0}},
    {"area 0", {1, 0, 0, 0, 0, 1, 0, 1}},
    {"area 417", {1, 417, 0, 0, 0, 1, 0, 1}},
    {"ground of kind 2", {1, 5, 2, 0, 0, 1, 0, 1}},
    {"ground of kind 255", {1, 5, 255, 0, 0, 1, 0, 1}},
    {"south is north", {1, 5, 1, 0, 3, 3, 0, 1}},
    {"south above north", {1, 5, 1, 0, 4, 3, 0, 1}},
    {"west is east", {1, 5, 1, 0, 0, 1, -3, -3}},
    {"west past east", {1, 5, 1, 0, 0, 1, -3, -4}},
    {"south outside its limits", {1, 5, 1, 0, -32400001, 0, 0, 1}},
    {"north outside its limits", {1, 5, 1, 0, 0, 32400001, 0, 1}},
    {"west outside its limits", {1, 5, 1, 0, 0, 1, -64800001, 0}},
    {"east outside its limits", {1, 5, 1, 0, 0, 1, 0, 64800001}},
};

static void refusals_of_the_register(void)
{
    codwalet_register some = with_areas(3);
    for (size_t i = 0; i < CODWALET_LIMIT; i++) {
        some.places[i].narrower_by = 0xA5;
        if (some.places[i].call_sign == 0) {
            memset(&some.places[i], 0xA5, sizeof some.places[i]);
            some.places[i].call_sign = 0;
        }
    }
    codwalet_register full = with_areas(CODWALET_LIMIT);
    for (size_t i = 0; i < sizeof ill_formed / sizeof ill_formed[0]; i++) {
        checked = ill_formed[i].name;
        refused_grant(some, ill_formed[i].licence, CODWALET_ILL_FORMED);
        refused_grant(full, ill_formed[i].licence, CODWALET_ILL_FORMED);
    }
    checked = "refusals of the register";
    refused_grant(some, area_licence(3, 9), CODWALET_IN_FORCE);
    refused_grant(full, area_licence(CODWALET_LIMIT, 9), CODWALET_IN_FORCE);
    refused_grant(full, area_licence(CODWALET_LIMIT + 1, 9), CODWALET_FULL);
    refused_cancellation(some, 4);
    refused_cancellation(some, 0);
    refused_cancellation(full, CODWALET_LIMIT + 1);
    refused_cancellation(codwalet_empty(), 1);

    codwalet_step freed = codwalet_cancel(full, 17);
    EQUAL(freed.refusal, CODWALET_ACCEPTED);
    full = with(freed.next, area_licence(CODWALET_LIMIT + 1, 9));
    refused_grant(full, area_licence(17, 17), CODWALET_FULL);
}

/* Widths that are granted, by what the place then has, and widths that are refused. 306 is 50 in its lowest byte. */

static const struct {
    uint32_t width;
    uint8_t narrower_by;
} widths[] = {{1, 49}, {2, 48}, {20, 30}, {49, 1}, {50, 0}};

static const uint32_t no_widths[] = {0, 51, 255, 256, 306, 65586, INT32_MAX, (uint32_t)INT32_MAX + 51, UINT32_MAX};

/* Neither grant reads narrower_by: whatever a caller leaves there, the width that is named counts, and 50 without one. */
static void grants_with_widths(void)
{
    const uint8_t left[] = {0, 1, 30, 49, 50, 51, 0xA5, UINT8_MAX};
    const codwalet_licence licences[] = {area_licence(5, 416), box_licence(5, -5, 5, -7, 7)};
    const codwalet_register some = with_width(with_areas(3), area_licence(4, 9), 7);
    for (size_t i = 0; i < 2 * sizeof left; i++) {
        codwalet_licence due = licences[i % 2], passed = due;
        passed.narrower_by = left[i / 2];
        granted_at_a_free_place(some, with(some, passed), due);
        for (size_t j = 0; j < sizeof widths / sizeof widths[0]; j++) {
            due.narrower_by = widths[j].narrower_by;
            granted_at_a_free_place(some, with_width(some, passed, widths[j].width), due);
        }
        for (size_t j = 0; j < sizeof no_widths / sizeof no_widths[0]; j++)
            refused_width(some, passed, no_widths[j], CODWALET_ILL_FORMED);
    }
}

/* Footprints into buffers that end in guards. */

#define GUARD 0xEE
#define ENTRY 0x5A5A

typedef struct {
    uint8_t mask[64];
    uint16_t table[64];
} buffers;

static buffers guards(void)
{
    buffers lent;
    memset(lent.mask, GUARD, sizeof lent.mask);
    for (size_t i = 0; i < sizeof lent.table / sizeof lent.table[0]; i++)
        lent.table[i] = ENTRY;
    return lent;
}

/* A footprint that is refused and touches no buffer. */
static void refused_footprint(const map_bytes *map, codwalet_register current, size_t places, size_t entries,
                              uint32_t refusal)
{
    buffers lent = guards(), before = guards();
    codwalet_outline due = {.refusal = refusal};
    codwalet_outline made =
        codwalet_footprint(map->bytes, map->length, current, 0, lent.mask, places, lent.table, entries);
    EQUAL(made.refusal, refusal);
    SAME(made, due);
    SAME(lent.mask, before.mask);
    SAME(lent.table, before.table);
}

/* The map that is checked and looked up in: area 3 with one row of two cells, area 416 with the largest population. */

enum {
    FIRST_HEAD = 1,
    FIRST_ROWS = 9,
    SECOND_HEAD = 34,
    SECOND_ROWS = 42,
    LAST_CELL = 528,
    WHOLE_MAP = 540
};

static map_bytes sound_map(void)
{
    const uint32_t first[2] = {5, 0};
    uint32_t second[41] = {0};
    map_bytes map;
    for (size_t j = 0; j < 40; j++)
        second[j] = 1000000;
    begin_map(&map, 2);
    add_area(&map, 3, 65535, 1, 2, first, -STEP);
    add_area(&map, 416, 1, 1, 41, second, 0);
    EQUAL(map.length, WHOLE_MAP);
    return map;
}

static void accepted_map(void)
{
    map_bytes map = sound_map();
    codwalet_area first = {.weight = 65535, .rows = 1, .columns = 2, .population = 5,
                           .offset = FIRST_ROWS, .length = SECOND_HEAD - FIRST_ROWS};
    codwalet_area second = {.weight = 1, .rows = 1, .columns = 41, .population = 40000000,
                            .offset = SECOND_ROWS, .length = WHOLE_MAP - SECOND_ROWS};
    codwalet_area none = {0};
    codwalet_area found;
    EQUAL(codwalet_check_map(map.bytes, map.length), CODWALET_ACCEPTED);
    found = codwalet_look_up(map.bytes, map.length, 3);
    SAME(found, first);
    found = codwalet_look_up(map.bytes, map.length, 416);
    SAME(found, second);
    const uint16_t lacking[] = {0, 2, 4, 417, UINT16_MAX};
    for (size_t i = 0; i < sizeof lacking / sizeof lacking[0]; i++) {
        found = codwalet_look_up(map.bytes, map.length, lacking[i]);
        SAME(found, none);
    }
}

/* Rows of an area with gaps: the bit maps take two bytes, and only the cells that are there follow. */
static void map_with_gaps(void)
{
    const uint32_t people[18] = {
        1, NO_CELL, 2, NO_CELL, NO_CELL, NO_CELL, NO_CELL, NO_CELL, 4,
        NO_CELL, NO_CELL, NO_CELL, NO_CELL, NO_CELL, NO_CELL, NO_CELL, NO_CELL, NO_CELL,
    };
    const codwalet_area due = {.weight = 7, .rows = 2, .columns = 9, .population = 7,
                               .offset = FIRST_ROWS, .length = 40};
    map_bytes map;
    begin_map(&map, 1);
    add_area(&map, 10, 7, 2, 9, people, 0);
    codwalet_area found = codwalet_look_up(map.bytes, map.length, 10);
    SAME(found, due);
}

static const struct {
    const char *name;
    uint32_t refusal;
    size_t at; /* where a value is written, in so many bytes: none where only the length changes */
    uint32_t value;
    int bytes;
    int longer;
} map_faults[] = {
    {"a byte missing", CODWALET_MAP_ENDS, 0, 0, 0, -1},
    {"no byte at all", CODWALET_MAP_ENDS, 0, 0, 0, -WHOLE_MAP},
    {"one area", CODWALET_MAP_EXTRA, 0, 1, 1, 0},
    {"three areas", CODWALET_MAP_ENDS, 0, 3, 1, 0},
    {"no area", CODWALET_MAP_LIMIT, 0, 0, 1, 0},
    {"33 areas", CODWALET_MAP_LIMIT, 0, 33, 1, 0},
    {"number 0", CODWALET_MAP_LIMIT, FIRST_HEAD, 0, 2, 0},
    {"number 417", CODWALET_MAP_LIMIT, SECOND_HEAD, 417, 2, 0},
    {"number as before", CODWALET_MAP_ORDER, SECOND_HEAD, 3, 2, 0},
    {"number below the one before", CODWALET_MAP_ORDER, SECOND_HEAD, 2, 2, 0},
    {"weight 0", CODWALET_MAP_LIMIT, FIRST_HEAD + 2, 0, 4, 0},
    {"weight 65,536", CODWALET_MAP_LIMIT, FIRST_HEAD + 2, 65536, 4, 0},
    {"no row", CODWALET_MAP_LIMIT, FIRST_HEAD + 6, 0, 1, 0},
    {"129 rows", CODWALET_MAP_LIMIT, FIRST_HEAD + 6, 129, 1, 0},
    {"no column", CODWALET_MAP_LIMIT, FIRST_HEAD + 7, 0, 1, 0},
    {"129 columns", CODWALET_MAP_LIMIT, FIRST_HEAD + 7, 129, 1, 0},
    {"a bit past the last column", CODWALET_MAP_LIMIT, FIRST_ROWS, 7, 1, 0},
    {"people above 1,000,000", CODWALET_MAP_LIMIT, FIRST_ROWS + 1, 1000001, 4, 0},
    {"latitude above its limit", CODWALET_MAP_LIMIT, FIRST_ROWS + 5, 32400001, 4, 0},
    {"latitude below its limit", CODWALET_MAP_LIMIT, FIRST_ROWS + 5, (uint32_t)-32400001, 4, 0},
    {"longitude above its limit", CODWALET_MAP_LIMIT, FIRST_ROWS + 9, 64800001, 4, 0},
    {"longitude below its limit", CODWALET_MAP_LIMIT, FIRST_ROWS + 9, (uint32_t)-64800001, 4, 0},
    {"a byte after the last area", CODWALET_MAP_EXTRA, 0, 0, 0, 1},
    {"population 0", CODWALET_MAP_POPULATION, FIRST_ROWS + 1, 0, 4, 0},
    {"population above 40,000,000", CODWALET_MAP_POPULATION, LAST_CELL, 1, 4, 0},
};

/* Every function that reads a map refuses it by the same number, with nothing else in its answer: no MHz-pops and no cells. */
static void refused_map(const map_bytes *map, uint32_t refusal)
{
    codwalet_register current = with(codwalet_empty(), area_licence(1, 3));
    codwalet_area area = {.refusal = refusal};
    codwalet_covered covered = {.refusal = refusal};
    codwalet_held held = {.refusal = refusal};
    codwalet_proposal proposal = {.refusal = refusal};
    EQUAL(codwalet_check_map(map->bytes, map->length), refusal);
    codwalet_area found = codwalet_look_up(map->bytes, map->length, 3);
    SAME(found, area);
    codwalet_covered counted = codwalet_coverage(map->bytes, map->length, current, 3);
    SAME(counted, covered);
    codwalet_held blocks = codwalet_blocks(map->bytes, map->length, current, 3);
    SAME(blocks, held);
    codwalet_proposal proposed = codwalet_propose(map->bytes, map->length, current, 0);
    SAME(proposed, proposal);
    refused_footprint(map, current, 64, 64, refusal);
}

static void refused_maps(void)
{
    for (size_t i = 0; i < sizeof map_faults / sizeof map_faults[0]; i++) {
        checked = map_faults[i].name;
        map_bytes map = sound_map();
        map.length = map_faults[i].at;
        put(&map, map_faults[i].value, map_faults[i].bytes);
        map.length = (size_t)(WHOLE_MAP + map_faults[i].longer);
        refused_map(&map, map_faults[i].refusal);
    }
}

/* A box covers its south and west edges, not its north and east ones. The one cell is at latitude 0, longitude -300. */

static const struct {
    const char *name;
    int32_t south, north, west, east;
    uint64_t mhz_pops, cells;
} edges[] = {
    {"box around the point", -1, 1, -301, -299, 300, 1},
    {"south edge on the point", 0, 1, -301, -299, 300, 1},
    {"north edge on the point", -1, 0, -301, -299, 0, 0},
    {"west edge on the point", -1, 1, -300, -299, 300, 1},
    {"east edge on the point", -1, 1, -301, -300, 0, 0},
};

/* The coverage of an area, every byte of it. */
static void covered_is(const map_bytes *map, codwalet_register current, uint16_t number, uint64_t mhz_pops, uint64_t cells)
{
    codwalet_covered due = {.mhz_pops = mhz_pops, .cells = cells};
    codwalet_covered covered = codwalet_coverage(map->bytes, map->length, current, number);
    EQUAL(covered.mhz_pops, mhz_pops);
    EQUAL(covered.cells, cells);
    SAME(covered, due);
}

static void coverage_of_boxes(void)
{
    const uint32_t people[1] = {6};
    map_bytes map;
    begin_map(&map, 1);
    add_area(&map, 1, 1, 1, 1, people, -300);
    for (size_t i = 0; i < sizeof edges / sizeof edges[0]; i++) {
        checked = edges[i].name;
        codwalet_licence box = box_licence(7, edges[i].south, edges[i].north, edges[i].west, edges[i].east);
        covered_is(&map, with(codwalet_empty(), box), 1, edges[i].mhz_pops, edges[i].cells);
    }
}

/* A licence counts from its grant until its cancellation, twice under two licences, and not in another area. */
static void coverage_in_force(void)
{
    const uint32_t people[2] = {6, 4};
    codwalet_register current = codwalet_empty();
    map_bytes map;
    begin_map(&map, 1);
    add_area(&map, 8, 1, 1, 2, people, 0);
    covered_is(&map, current, 8, 0, 0);
    current = with(current, area_licence(1, 8));
    covered_is(&map, current, 8, 500, 2);
    current = with(current, box_licence(2, 0, 1, 0, STEP));
    covered_is(&map, current, 8, 800, 3);
    current = with(current, area_licence(3, 9));
    covered_is(&map, current, 8, 800, 3);
    current = codwalet_cancel(current, 1).next;
    covered_is(&map, current, 8, 300, 1);
    current = with(current, area_licence(1, 8));
    covered_is(&map, current, 8, 800, 3);

    covered_is(&map, current, 9, 0, 0);
    codwalet_held no_blocks = {0};
    codwalet_held held = codwalet_blocks(map.bytes, map.length, current, 9);
    SAME(held, no_blocks);
}

/* A map, and licences over it. */
typedef struct {
    map_bytes map;
    codwalet_register current;
} holdings;

/* Cells: in a row from west to east, area 5 has two with people, one without and a gap, area 6 has two, and area 7 has one. */

static holdings hold_cells(void)
{
    const uint32_t first[4] = {50, 0, NO_CELL, 50}, second[2] = {60, 40}, third[1] = {9};
    holdings h;
    h.current = codwalet_empty();
    begin_map(&h.map, 3);
    add_area(&h.map, 5, 1, 1, 4, first, 0);
    add_area(&h.map, 6, 1, 1, 2, second, 4 * STEP);
    add_area(&h.map, 7, 1, 1, 1, third, 6 * STEP);
    return h;
}

/* The cells of the three areas, by coverage and in the proposal. */
static void cells_are(const holdings *h, uint64_t first, uint64_t second, uint64_t third)
{
    const uint64_t due[3] = {first, second, third};
    codwalet_proposal proposal = codwalet_propose(h->map.bytes, h->map.length, h->current, 0);
    EQUAL(proposal.refusal, CODWALET_ACCEPTED);
    EQUAL(proposal.count, 3);
    for (uint16_t i = 0; i < 3; i++) {
        EQUAL(codwalet_coverage(h->map.bytes, h->map.length, h->current, (uint16_t)(5 + i)).cells, due[i]);
        EQUAL(proposal.areas[i].number, 5 + i);
        EQUAL(proposal.areas[i].cells, due[i]);
    }
    for (size_t i = 3; i < CODWALET_AREAS; i++)
        EQUAL(proposal.areas[i].cells, 0);
}

/* A cell counts once for each licence, with people or without; a place without a cell counts for none. */
static void cells_by_hand(void)
{
    holdings h = hold_cells();
    cells_are(&h, 0, 0, 0);
    h.current = with(h.current, area_licence(1, 5));
    cells_are(&h, 3, 0, 0);
    h.current = with(h.current, box_licence(2, 0, 1, STEP, 2 * STEP)); /* the cell without people */
    cells_are(&h, 4, 0, 0);
    h.current = with(h.current, box_licence(3, 0, 1, 2 * STEP, 3 * STEP)); /* the gap */
    cells_are(&h, 4, 0, 0);
    h.current = with(h.current, area_licence(4, 5));
    cells_are(&h, 7, 0, 0);
    h.current = with(h.current, box_licence(5, 0, 1, 2 * STEP, 5 * STEP)); /* a cell of each of two areas */
    cells_are(&h, 8, 1, 0);
    h.current = codwalet_cancel(h.current, 1).next;
    cells_are(&h, 5, 1, 0);
    h.current = with(h.current, box_licence(1, -1, 1, -STEP, 10 * STEP)); /* all areas */
    cells_are(&h, 8, 3, 1);
    covered_is(&h.map, h.current, 4, 0, 0);
    covered_is(&h.map, h.current, 8, 0, 0);
    for (size_t i = 0; i < CODWALET_LIMIT; i++) /* free places, whatever they hold */
        h.current.places[i].call_sign = 0;
    cells_are(&h, 0, 0, 0);
}

/* Cells decide nothing: with one more, without people, a proposal is the same but for that count. */
static void cells_beside_people(void)
{
    holdings h = hold_cells();
    h.current = with(with(h.current, area_licence(1, 5)), area_licence(2, 6));
    codwalet_proposal before = codwalet_propose(h.map.bytes, h.map.length, h.current, 0);
    EQUAL(before.areas[0].cells, 3);
    h.current = with(h.current, box_licence(3, 0, 1, STEP, 2 * STEP));
    codwalet_proposal after = codwalet_propose(h.map.bytes, h.map.length, h.current, 0);
    EQUAL(after.areas[0].cells, 4);
    before.areas[0].cells = 4;
    SAME(after, before);
}

/*
 * Widths: area 8 has cells with 60 and 40 people and one without, from west to east, and weighs 3. A block is 10,000 MHz-pops, M
 * is 30,000, and one MHz for everybody is 100 MHz-pops.
 */

static holdings hold_nothing(void)
{
    const uint32_t people[3] = {60, 40, 0};
    holdings h;
    h.current = codwalet_empty();
    begin_map(&h.map, 1);
    add_area(&h.map, 8, 3, 1, 3, people, 0);
    return h;
}

static codwalet_licence first_cell(uint32_t call_sign)
{
    return box_licence(call_sign, 0, 1, 0, STEP);
}

/* Coverage, blocks and cells of the proposal of area 8. */
static void held_is(const holdings *h, uint64_t mhz_pops, uint64_t cells, uint64_t whole, uint64_t value)
{
    const codwalet_held due = {.whole = whole, .value = value, .size = value > 0 ? 30000 : 0};
    covered_is(&h->map, h->current, 8, mhz_pops, cells);
    codwalet_held held = codwalet_blocks(h->map.bytes, h->map.length, h->current, 8);
    SAME(held, due);
    codwalet_proposal proposal = codwalet_propose(h->map.bytes, h->map.length, h->current, 0);
    EQUAL(proposal.refusal, CODWALET_ACCEPTED);
    EQUAL(proposal.target, value);
    EQUAL(proposal.areas[0].blocks, whole);
    EQUAL(proposal.areas[0].cells, cells);
}

/* Each licence adds its width x the people of its cells, until it is cancelled; its cells count whatever its width. */
static void widths_by_hand(void)
{
    holdings h = hold_nothing();
    h.current = with_width(h.current, area_licence(1, 8), 20);
    held_is(&h, 20 * 100, 3, 0, 3 * 2000);
    h.current = with_width(h.current, first_cell(2), 1);
    held_is(&h, 20 * 100 + 60, 4, 0, 3 * 2060);
    h.current = with(h.current, first_cell(3));
    held_is(&h, 20 * 100 + 60 + 50 * 60, 5, 0, 3 * 5060);
    h.current = with_width(h.current, area_licence(4, 8), 50);
    held_is(&h, 20 * 100 + 60 + 50 * 60 + 50 * 100, 8, 1, 3 * 60);
    h.current = codwalet_cancel(h.current, 1).next;
    held_is(&h, 60 + 50 * 60 + 50 * 100, 5, 0, 3 * 8060);
    h.current = with(h.current, area_licence(1, 8)); /* the same call sign, without a width */
    held_is(&h, 50 * 100 + 60 + 50 * 60 + 50 * 100, 8, 1, 3 * 3060);
    for (uint32_t i = 1; i <= 4; i++)
        h.current = codwalet_cancel(h.current, i).next;
    held_is(&h, 0, 0, 0, 0);
}

/* 99 MHz for everybody are 9,900 MHz-pops, 99 in the hundred of a block. Here the first cell has one person, the other 99. */
static void one_mhz_pop_around_99_in_the_hundred(void)
{
    const uint32_t people[2] = {1, 99};
    const codwalet_held part = {.value = 3 * 9899, .size = 30000}, whole = {.whole = 1};
    map_bytes map;
    begin_map(&map, 1);
    add_area(&map, 8, 3, 1, 2, people, 0);
    codwalet_register below = with_width(with(codwalet_empty(), area_licence(1, 8)), area_licence(2, 8), 48);
    below = with_width(below, box_licence(3, 0, 1, STEP, 2 * STEP), 1);
    covered_is(&map, below, 8, 9899, 5);
    codwalet_held held = codwalet_blocks(map.bytes, map.length, below, 8);
    SAME(held, part);
    for (uint32_t width = 1; width <= 2; width++) {
        codwalet_register from = with_width(below, first_cell(4), width);
        covered_is(&map, from, 8, 9899 + width, 6);
        held = codwalet_blocks(map.bytes, map.length, from, 8);
        SAME(held, whole);
    }
}

/* Ten licences of 5 MHz have the proposal of one of 50, but for the cells. */
static void slices_of_a_licence(void)
{
    holdings one = hold_nothing(), ten = hold_nothing();
    one.current = with(one.current, first_cell(1));
    for (uint32_t i = 1; i <= 10; i++)
        ten.current = with_width(ten.current, first_cell(i), 5);
    codwalet_proposal due = codwalet_propose(one.map.bytes, one.map.length, one.current, 0);
    codwalet_proposal proposal = codwalet_propose(ten.map.bytes, ten.map.length, ten.current, 0);
    EQUAL(due.target, 3 * 50 * 60);
    EQUAL(due.areas[0].cells, 1);
    EQUAL(proposal.areas[0].cells, 10);
    due.areas[0].cells = 10;
    SAME(proposal, due);
}

/* What no grant leaves at a place, 50 and above, is a width of 0: it adds nothing to c, and its cells count. 49 is 1 MHz. */
static void forged_widths(void)
{
    const uint8_t forged[] = {50, 51, 0xA5, UINT8_MAX};
    holdings h = hold_nothing();
    h.current = with_width(with_width(h.current, area_licence(1, 8), 20), first_cell(2), 30);
    size_t place = place_of(&h.current, 2);
    h.current.places[place].narrower_by = 49;
    held_is(&h, 20 * 100 + 60, 4, 0, 3 * 2060);
    for (size_t i = 0; i < sizeof forged; i++) {
        h.current.places[place].narrower_by = forged[i];
        held_is(&h, 20 * 100, 4, 0, 3 * 2000);
    }
    for (size_t i = 0; i < CODWALET_LIMIT; i++) /* all that are in force */
        h.current.places[i].narrower_by = CODWALET_FULL_WIDTH;
    held_is(&h, 0, 4, 0, 0);
    for (size_t i = 0; i < CODWALET_LIMIT; i++) /* as versions 1 and 2 kept it */
        h.current.places[i].narrower_by = 0;
    held_is(&h, 50 * 100 + 50 * 60, 4, 0, 3 * 8000);
}

/* Holdings: areas 1, 2, .. of two cells. Licences for the area cover all of it, and a box its first cell. Each is 50 MHz wide. */

typedef struct {
    uint32_t weight, population, covered; /* the last in people, each counted once for each licence */
} area_held;

static void hold_area(holdings *h, uint32_t number, area_held area)
{
    int32_t west = 10 * STEP * (int32_t)number;
    uint32_t rest = area.covered % area.population;
    uint32_t people[2] = {rest, area.population - rest};
    uint32_t call_sign = 100 * number;
    add_area(&h->map, number, area.weight, 1, 2, people, west);
    for (uint32_t i = 0; i < area.covered / area.population; i++)
        h->current = with(h->current, area_licence(call_sign++, (uint16_t)number));
    if (rest > 0)
        h->current = with(h->current, box_licence(call_sign, 0, 1, west, west + STEP));
}

static holdings hold(const area_held *areas, size_t count)
{
    holdings h;
    h.current = codwalet_empty();
    begin_map(&h.map, count);
    for (size_t i = 0; i < count; i++)
        hold_area(&h, (uint32_t)i + 1, areas[i]);
    return h;
}

static const struct {
    const char *name;
    area_held area;
    uint64_t cells;
    uint64_t whole, value, size;
} blocks_due[] = {
    {"no licence", {1, 100, 0}, 0, 0, 0, 0},
    {"one person in part of a block", {1, 100, 1}, 1, 0, 50, 10000},
    {"blocks of holding 1", {1, 100, 198}, 3, 1, 0, 0},
    {"blocks of holding 2", {1, 100, 197}, 3, 0, 9850, 10000},
    {"two whole licences", {1, 100, 200}, 4, 1, 0, 0},
    {"a block and a part", {1, 100, 301}, 7, 1, 5050, 10000},
    {"a block and 99 in the hundred", {1, 100, 398}, 7, 2, 0, 0},
    {"weight 3", {3, 120, 200}, 3, 0, 30000, 36000},
};

static void blocks_of_an_area(void)
{
    for (size_t i = 0; i < sizeof blocks_due / sizeof blocks_due[0]; i++) {
        checked = blocks_due[i].name;
        holdings h = hold(&blocks_due[i].area, 1);
        covered_is(&h.map, h.current, 1, CODWALET_FULL_WIDTH * blocks_due[i].area.covered, blocks_due[i].cells);
        codwalet_held due = {.whole = blocks_due[i].whole, .value = blocks_due[i].value, .size = blocks_due[i].size};
        codwalet_held held = codwalet_blocks(h.map.bytes, h.map.length, h.current, 1);
        SAME(held, due);
    }
}

#define NOTHING CODWALET_GETS_NOTHING
#define WHOLE CODWALET_GETS_WHOLE
#define ROUNDED CODWALET_GETS_ROUNDED_UP
#define SHARE CODWALET_GETS_SHARE

static const struct {
    const char *name;
    uint32_t draw;
    size_t count;
    area_held areas[4]; /* weight, population, covered */
    uint32_t kind;
    uint64_t target, white_space, tied;
    codwalet_given given[4]; /* number, gets, blocks, share, cells */
} proposals[] = {
    {"holding 1", 0, 1, {{1, 100, 198}}, 1, 0, 0, 0, {{1, NOTHING, 1, 0, 3}}},
    {"holding 2", 0, 1, {{1, 100, 197}}, 2, 9850, 150, 1, {{1, ROUNDED, 0, 0, 3}}},
    {"holding 3", 0, 1, {{1, 100, 180}}, 2, 9000, 1000, 1, {{1, ROUNDED, 0, 0, 3}}},
    {"holding 4", 0, 1, {{1, 100, 179}}, 3, 8950, 1050, 1, {{1, SHARE, 0, 8950, 3}}},
    {"holding 5", 0, 2, {{1, 100, 100}, {1, 100, 100}}, 1, 10000, 0, 0,
     {{1, WHOLE, 0, 0, 2}, {2, NOTHING, 0, 0, 2}}},
    {"holding 6", 0, 2, {{1, 100, 100}, {1, 40, 40}}, 3, 7000, 3000, 1,
     {{1, SHARE, 0, 7000, 2}, {2, NOTHING, 0, 0, 2}}},
    {"holding 7", 0, 4, {{1, 1000, 1000}, {1, 330, 300}, {1, 330, 300}, {1, 330, 300}}, 2, 95000, 5000, 1,
     {{1, ROUNDED, 0, 0, 2}, {2, NOTHING, 0, 0, 1}, {3, NOTHING, 0, 0, 1}, {4, NOTHING, 0, 0, 1}}},
    {"holding 8", 0, 2, {{1, 100, 180}, {3, 120, 200}}, 3, 39000, 7000, 1,
     {{1, WHOLE, 0, 0, 3}, {2, SHARE, 0, 29000, 3}}},
    {"holding 9, draw 0", 0, 2, {{1, 100, 150}, {1, 100, 150}}, 3, 15000, 5000, 2,
     {{1, SHARE, 0, 5000, 3}, {2, WHOLE, 0, 0, 3}}},
    {"holding 9, draw 3", 3, 2, {{1, 100, 150}, {1, 100, 150}}, 3, 15000, 5000, 2,
     {{1, WHOLE, 0, 0, 3}, {2, SHARE, 0, 5000, 3}}},
};

static void proposals_by_hand(void)
{
    for (size_t i = 0; i < sizeof proposals / sizeof proposals[0]; i++) {
        checked = proposals[i].name;
        holdings h = hold(proposals[i].areas, proposals[i].count);
        codwalet_proposal due = {.kind = proposals[i].kind, .tied = proposals[i].tied, .count = proposals[i].count,
                                 .target = proposals[i].target, .white_space = proposals[i].white_space};
        memcpy(due.areas, proposals[i].given, sizeof proposals[i].given);
        codwalet_proposal proposal = codwalet_propose(h.map.bytes, h.map.length, h.current, proposals[i].draw);
        EQUAL(proposal.refusal, CODWALET_ACCEPTED);
        EQUAL(proposal.kind, due.kind);
        EQUAL(proposal.target, due.target);
        EQUAL(proposal.white_space, due.white_space);
        EQUAL(proposal.tied, due.tied);
        EQUAL(proposal.count, due.count);
        SAME(proposal.areas, due.areas);
        if (proposal.kind != CODWALET_ONE_PART)
            refused_footprint(&h.map, h.current, 0, 0, CODWALET_NOT_ONE_PART);
    }
}

/* 20 partial areas are proposed for, 21 are refused. */
static void many_partial_areas(void)
{
    area_held areas[21];
    for (size_t i = 0; i < 21; i++)
        areas[i] = (area_held){1, 100, 100};
    holdings most = hold(areas, 20);
    codwalet_proposal proposal = codwalet_propose(most.map.bytes, most.map.length, most.current, 0);
    EQUAL(proposal.refusal, CODWALET_ACCEPTED);
    EQUAL(proposal.kind, CODWALET_EXACT);

    holdings more = hold(areas, 21);
    codwalet_proposal due = {.refusal = CODWALET_TOO_MANY};
    proposal = codwalet_propose(more.map.bytes, more.map.length, more.current, 0);
    SAME(proposal, due);
    refused_footprint(&more.map, more.current, 0, 0, CODWALET_TOO_MANY);
}

/* Holdings 10 to 12: one row, and boxes over columns 2 and 3. */

#define PLACES 5
#define OUTLINED 77 /* the area's number */

static holdings hold_row(uint32_t licences)
{
    const uint32_t people[PLACES] = {5, 0, 4, 3, 8};
    holdings h;
    h.current = codwalet_empty();
    begin_map(&h.map, 1);
    add_area(&h.map, OUTLINED, 1, 1, PLACES, people, 0);
    for (uint32_t i = 1; i <= licences; i++)
        h.current = with(h.current, box_licence(i, 0, 1, 2 * STEP, 4 * STEP));
    return h;
}

static const struct {
    const char *name;
    uint32_t licences;
    size_t entries; /* slack + 1, or none */
    uint8_t mask[PLACES];
} footprints[] = {
    {"holding 10", 1, 4, {0, 0, 1, 0, 0}},
    {"holding 11", 2, 0, {0, 0, 1, 1, 0}},
    {"holding 12", 3, 5, {0, 1, 1, 1, 1}},
};

/* Buffers longer than needed, and just as long: the footprint is the same, and nothing past what it uses changes. */
static void made_footprint(const holdings *h, const uint8_t *mask, size_t used, size_t places, size_t entries)
{
    const codwalet_outline due = {.area = OUTLINED};
    buffers lent = guards(), after = guards();
    memcpy(after.mask, mask, PLACES);
    codwalet_outline made =
        codwalet_footprint(h->map.bytes, h->map.length, h->current, 0, lent.mask, places, lent.table, entries);
    SAME(made, due);
    SAME(lent.mask, after.mask);
    memcpy(lent.table, after.table, used * sizeof after.table[0]);
    SAME(lent.table, after.table);
}

/* Refused by 8: the count needed comes, the area's mask bytes are 0, and the table stays. */
static void short_table(const holdings *h, size_t entries, size_t needed)
{
    const codwalet_outline due = {.refusal = CODWALET_TABLE_SHORT, .needed = needed};
    buffers lent = guards(), after = guards();
    memset(after.mask, 0, PLACES);
    codwalet_outline made =
        codwalet_footprint(h->map.bytes, h->map.length, h->current, 0, lent.mask, 64, lent.table, entries);
    SAME(made, due);
    SAME(lent.mask, after.mask);
    SAME(lent.table, after.table);
}

static void footprints_by_hand(void)
{
    for (size_t i = 0; i < sizeof footprints / sizeof footprints[0]; i++) {
        checked = footprints[i].name;
        holdings h = hold_row(footprints[i].licences);
        size_t entries = footprints[i].entries;
        made_footprint(&h, footprints[i].mask, entries, PLACES, entries);
        made_footprint(&h, footprints[i].mask, entries, 64, 64);
        refused_footprint(&h.map, h.current, PLACES - 1, 64, CODWALET_MASK_SHORT);
        refused_footprint(&h.map, h.current, 0, 0, CODWALET_MASK_SHORT);
        for (size_t n = 0; n < entries; n++)
            short_table(&h, n, entries);
    }
}

/*
 * A box of 25 MHz over columns 2 and 3: the share is 25 x 7, and V of both is 700. They are the last ring, the slack is 5, and of
 * them column 2 is left out. With column 0 under a licence of width 0 the share is the same, the footprint starts from three cells,
 * V is 1,200 and the slack 10: column 0 is left out too.
 */
static void narrow_footprint(void)
{
    const uint8_t mask[PLACES] = {0, 0, 0, 1, 0};
    holdings h = hold_row(0);
    h.current = with_width(h.current, box_licence(1, 0, 1, 2 * STEP, 4 * STEP), 25);
    made_footprint(&h, mask, 6, PLACES, 6);
    short_table(&h, 5, 6);
    h.current = with_width(h.current, first_cell(2), 1);
    h.current.places[place_of(&h.current, 2)].narrower_by = CODWALET_FULL_WIDTH;
    made_footprint(&h, mask, 11, PLACES, 11);
    short_table(&h, 10, 11);
}

/* NULL with length 0 is an empty buffer. */
static void empty_buffers(void)
{
    holdings h = hold_row(2);
    const codwalet_outline short_mask = {.refusal = CODWALET_MASK_SHORT}, no_map = {.refusal = CODWALET_MAP_ENDS};
    const codwalet_outline area = {.area = OUTLINED};
    const uint8_t due[PLACES] = {0, 0, 1, 1, 0};
    uint8_t mask[PLACES];
    codwalet_outline made = codwalet_footprint(h.map.bytes, h.map.length, h.current, 0, NULL, 0, NULL, 0);
    SAME(made, short_mask);
    made = codwalet_footprint(h.map.bytes, h.map.length, h.current, 0, mask, PLACES, NULL, 0);
    SAME(made, area);
    SAME(mask, due);
    made = codwalet_footprint(NULL, 0, h.current, 0, NULL, 0, NULL, 0);
    SAME(made, no_map);
    EQUAL(codwalet_check_map(NULL, 0), CODWALET_MAP_ENDS);
    EQUAL(codwalet_look_up(NULL, 0, OUTLINED).refusal, CODWALET_MAP_ENDS);
    EQUAL(codwalet_coverage(NULL, 0, h.current, OUTLINED).refusal, CODWALET_MAP_ENDS);
    EQUAL(codwalet_blocks(NULL, 0, h.current, OUTLINED).refusal, CODWALET_MAP_ENDS);
    EQUAL(codwalet_propose(NULL, 0, h.current, 0).refusal, CODWALET_MAP_ENDS);
}

/* The header's version is the archive's, and each refusal has words of its own. */
static void version_and_words(void)
{
    EQUAL(codwalet_version(), CODWALET_VERSION);
    EQUAL(CODWALET_VERSION, 3);
    EQUAL(CODWALET_FULL_WIDTH, 50);
    EQUAL(CODWALET_LARGEST_MASK, 128 * 128);
    for (uint32_t i = CODWALET_ACCEPTED; i <= CODWALET_NOT_ONE_PART; i++) {
        CHECK(codwalet_refusal_words(i) != NULL);
        for (uint32_t j = CODWALET_ACCEPTED; j < i; j++)
            CHECK(strcmp(codwalet_refusal_words(i), codwalet_refusal_words(j)) != 0);
    }
    CHECK(strcmp(codwalet_refusal_words(CODWALET_FULL), "64 licences are in force") == 0);
    CHECK(codwalet_refusal_words(CODWALET_NOT_ONE_PART + 1) == NULL);
    CHECK(codwalet_refusal_words(UINT32_MAX) == NULL);
}

static const struct {
    const char *name;
    void (*run)(void);
} parts[] = {
    {"version and words", version_and_words},
    {"grants and cancellations", grants_and_cancellations},
    {"refusals of the register", refusals_of_the_register},
    {"grants with widths", grants_with_widths},
    {"an accepted map", accepted_map},
    {"a map with gaps", map_with_gaps},
    {"refused maps", refused_maps},
    {"coverage of boxes", coverage_of_boxes},
    {"coverage in force", coverage_in_force},
    {"cells by hand", cells_by_hand},
    {"cells beside people", cells_beside_people},
    {"widths by hand", widths_by_hand},
    {"one MHz-pop around 99 in the hundred", one_mhz_pop_around_99_in_the_hundred},
    {"slices of a licence", slices_of_a_licence},
    {"forged widths", forged_widths},
    {"blocks of an area", blocks_of_an_area},
    {"proposals by hand", proposals_by_hand},
    {"many partial areas", many_partial_areas},
    {"footprints by hand", footprints_by_hand},
    {"footprint of a narrow licence", narrow_footprint},
    {"empty buffers", empty_buffers},
};

int main(void)
{
    for (size_t i = 0; i < sizeof parts / sizeof parts[0]; i++) {
        checked = parts[i].name;
        parts[i].run();
    }
    printf("interface: %u checks\n", checks);
    return 0;
}
