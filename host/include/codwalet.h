/*
 * Codwalet's C interface: the exports of crates/abi_c, in the archive target/staticlib/libabi.a (x86-64; it needs
 * memcpy and memset, and nothing else).
 *
 * Every function takes any input and returns: no map, register, licence, number, draw or buffer makes one fault or hang.
 * Nothing is allocated and nothing is kept, so calls may be made from several threads at once. Structs are passed and returned by
 * value and belong to the caller. Of a map, a mask and a table the caller keeps ownership; a function reads or writes them only
 * until it returns. A pointer must be valid for the length given with it, in bytes or, of a table, in entries, and the map, the mask
 * and the table of a call must not overlap; NULL with length 0 is an empty buffer.
 * A footprint takes less than 128 KiB of stack, every other call less than 32 KiB (measured, host/tests/stack.c).
 *
 * The structs have no padding, and each field has a value in every answer: 0 where the answer has nothing to say.
 * Coordinates are in hundredths of an arc second; degrees south and west are negative.
 */
#ifndef CODWALET_H
#define CODWALET_H

#include <stddef.h>
#include <stdint.h>

#ifdef __cplusplus
extern "C" {
#endif

/*
 * The version of this interface. It is another number wherever a struct, a function or a field's meaning is not what it was;
 * codwalet_version() answers the archive's. Version 2 has cells in codwalet_covered and codwalet_given, and so in
 * codwalet_proposal. Version 3 has widths: `narrower_by` of a licence, codwalet_grant_width, and `mhz_pops` of codwalet_covered.
 * Sizes of structs are as in version 2, and those of a licence and a register as in version 1. A register that was kept in
 * version 1 or 2 is read as it is: every licence in it is 50 MHz wide.
 */
#define CODWALET_VERSION 3

/* Limits: how many there are at most, and the largest that a field may be. */
#define CODWALET_LIMIT 64                     /* Licences in force: places of a register. */
#define CODWALET_AREAS 32                     /* Areas of a map. */
#define CODWALET_PARTIAL_AREAS 20             /* Partial areas of a proposal. */
#define CODWALET_FULL_WIDTH 50                /* MHz of a licence, from 1; of one that is granted without a width. */
#define CODWALET_LARGEST_NUMBER 416           /* The number of an area, from 1. */
#define CODWALET_LARGEST_WEIGHT 65535         /* The weight of an area, from 1. */
#define CODWALET_LARGEST_SIDE 128             /* Rows, and columns, of an area, from 1. */
#define CODWALET_LARGEST_CELL 1000000         /* People of a cell, from 0. */
#define CODWALET_LARGEST_POPULATION 40000000  /* People of an area, from 1. */
#define CODWALET_LARGEST_LATITUDE 32400000    /* A latitude; the smallest is its negative. */
#define CODWALET_LARGEST_LONGITUDE 64800000   /* A longitude; the smallest is its negative. */

/* Bytes of a mask that is long enough for every area. */
#define CODWALET_LARGEST_MASK (CODWALET_LARGEST_SIDE * CODWALET_LARGEST_SIDE)

/* Refusals, by the numbers of document 01 (docs/RULES.md): number, name and words. 0 is no refusal. */
#define CODWALET_REFUSALS(X) \
    X(1, MAP_ENDS, "the map ends before or inside a field that is due") \
    X(2, MAP_LIMIT, "a field of the map is outside its limits, or a bit is set past the last column") \
    X(3, MAP_EXTRA, "bytes follow the map's last area") \
    X(4, MAP_ORDER, "an area's number is not above the one before") \
    X(5, MAP_POPULATION, "an area's population is 0 or above 40,000,000") \
    X(6, ILL_FORMED, "the call sign is 0, the ground is ill-formed, or the width is not 1 to 50") \
    X(7, MASK_SHORT, "the mask is shorter than the area's rows x columns") \
    X(8, TABLE_SHORT, "the table is too short") \
    X(9, IN_FORCE, "the call sign is in force already") \
    X(10, FULL, "64 licences are in force") \
    X(11, NOT_IN_FORCE, "the call sign is not in force") \
    X(12, TOO_MANY, "more than 20 areas are partial") \
    X(13, NOT_ONE_PART, "the proposal has no area with a share, so there is no footprint")

/* CODWALET_MAP_ENDS is 1, and so on. */
enum {
#define CODWALET_NAMED(number, name, words) CODWALET_##name = number,
    CODWALET_REFUSALS(CODWALET_NAMED)
#undef CODWALET_NAMED
    CODWALET_ACCEPTED = 0
};

/* The ground of a licence. Any other kind is an ill-formed ground, which covers nothing. */
enum {
    CODWALET_GROUND_AREA = 0,     /* the area of a PEA number; the edges are not read */
    CODWALET_GROUND_BOX = 1       /* a box; the number is not read */
};

/* The kind of a proposal. */
enum {
    CODWALET_EXACT = 1,
    CODWALET_ROUNDED_UP = 2,
    CODWALET_ONE_PART = 3
};

/* What an area gets. */
enum {
    CODWALET_GETS_NOTHING = 0,
    CODWALET_GETS_WHOLE = 1,
    CODWALET_GETS_ROUNDED_UP = 2,
    CODWALET_GETS_SHARE = 3
};

/*
 * A licence, 24 bytes. `narrower_by` counts for one that stands at a place of a register: its width is CODWALET_FULL_WIDTH less
 * this, or 0 where it is as much or more, which no grant leaves. A licence with a width of 0 adds nothing to c; its cells, and
 * those that a footprint starts from, count as ever. Neither grant reads this byte.
 */
typedef struct {
    uint32_t call_sign;           /* not 0 */
    uint16_t area;                /* 1 to CODWALET_LARGEST_NUMBER */
    uint8_t kind;                 /* CODWALET_GROUND_.. */
    uint8_t narrower_by;          /* MHz */
    int32_t south;                /* south < north, both within +-CODWALET_LARGEST_LATITUDE */
    int32_t north;
    int32_t west;                 /* west < east, both within +-CODWALET_LARGEST_LONGITUDE */
    int32_t east;
} codwalet_licence;

/* A register, 1,536 bytes. A place with call sign 0 is free, and nothing else of it counts. */
typedef struct {
    codwalet_licence places[CODWALET_LIMIT];
} codwalet_register;

/* What a grant or a cancellation hands back, 1,540 bytes. Refused, `next` is the register that was passed, byte for byte. */
typedef struct {
    codwalet_register next;
    uint32_t refusal;             /* grant: 0, 6, 9, 10; cancel: 0, 11 */
} codwalet_step;

/* An area of a map, 48 bytes: its head, its population, and where its rows stand in the map. All 0 if the map lacks the number. */
typedef struct {
    uint32_t refusal;             /* 0 to 5 */
    uint32_t weight;
    uint64_t rows;
    uint64_t columns;
    uint64_t population;
    uint64_t offset;              /* of the first row's bit map, from the start of the map */
    uint64_t length;              /* to the end of the last cell */
} codwalet_area;

/*
 * What licences in force cover in an area, 24 bytes. Each adds its width x the people of its cells to c, and 1 for each of these
 * cells to the cells, whatever its width: a cell under two licences counts twice, and one without people counts among the cells.
 */
typedef struct {
    uint64_t mhz_pops;            /* c, in MHz-pops */
    uint64_t cells;
    uint32_t refusal;             /* 0 to 5 */
    uint32_t unused;
} codwalet_covered;

/* The blocks of an area, 32 bytes. */
typedef struct {
    uint64_t whole;               /* whole blocks of 100 MHz */
    uint64_t value;               /* v, in weighted MHz-pops: 0 where the area is not partial */
    uint64_t size;                /* M, likewise */
    uint32_t refusal;             /* 0 to 5 */
    uint32_t unused;
} codwalet_held;

/* What a proposal gives an area, 32 bytes. */
typedef struct {
    uint32_t number;
    uint32_t gets;                /* CODWALET_GETS_.. */
    uint64_t blocks;              /* whole blocks that the area has without the proposal */
    uint64_t share;               /* in weighted MHz-pops, where it gets a share */
    uint64_t cells;               /* cells that licences in force cover, each once for each licence */
} codwalet_given;

/* A proposal, 1,064 bytes. */
typedef struct {
    uint32_t refusal;             /* 0 to 5, 12 */
    uint32_t kind;                /* 1 to 3 */
    uint64_t tied;                /* tied areas, 0 where the kind is 1 */
    uint64_t count;               /* areas of the map */
    uint64_t target;              /* T, in weighted MHz-pops */
    uint64_t white_space;         /* in weighted MHz-pops */
    codwalet_given areas[CODWALET_AREAS]; /* the first `count`, ascending */
} codwalet_proposal;

/* An entry of the table that a footprint works in. */
typedef uint16_t codwalet_entry;

/* What a footprint answers, 16 bytes. */
typedef struct {
    uint32_t refusal;             /* 0 to 5, 12, 13, 7, 8 */
    uint32_t area;                /* the partial area's number */
    uint64_t needed;              /* at refusal 8, the entries that the table must have */
} codwalet_outline;

/* The version of the interface that the archive has. */
uint32_t codwalet_version(void);

/* The register with no licence in force. */
codwalet_register codwalet_empty(void);

/* The register with a licence of CODWALET_FULL_WIDTH granted. Refused by 6, 9 or 10, in this order. */
codwalet_step codwalet_grant(codwalet_register current, codwalet_licence licence);

/*
 * The register with a licence of so many MHz granted, 1 to CODWALET_FULL_WIDTH. Refused by 6, 9 or 10, in this order; any other
 * width is refused by 6. Accepted, the place that it takes has `narrower_by` = CODWALET_FULL_WIDTH - width.
 */
codwalet_step codwalet_grant_width(codwalet_register current, codwalet_licence licence, uint32_t width);

/* The register with a licence cancelled. Refused by 11. */
codwalet_step codwalet_cancel(codwalet_register current, uint32_t call_sign);

/* 0 if the map is accepted, else the refusal, 1 to 5. */
uint32_t codwalet_check_map(const uint8_t *map, size_t map_length);

/* The area with a number. */
codwalet_area codwalet_look_up(const uint8_t *map, size_t map_length, uint16_t number);

/* The MHz-pops and the cells covered in the area with a number: zeros if the map lacks it. */
codwalet_covered codwalet_coverage(const uint8_t *map, size_t map_length, codwalet_register current, uint16_t number);

/* The blocks of the area with a number: zeros if the map lacks it. */
codwalet_held codwalet_blocks(const uint8_t *map, size_t map_length, codwalet_register current, uint16_t number);

/* The proposal; `draw` decides among tied areas. */
codwalet_proposal codwalet_propose(const uint8_t *map, size_t map_length, codwalet_register current, uint32_t draw);

/*
 * The footprint of the partial area of the proposal with this draw. The first rows x columns bytes of the mask become 1 in the
 * footprint and else 0, by row and then column; bytes past them stay. The table is working store: entries that are used may hold
 * anything afterwards, the others stay. Refused, mask and table stay as they are, but at 8 the area's mask bytes become 0.
 */
codwalet_outline codwalet_footprint(const uint8_t *map, size_t map_length, codwalet_register current, uint32_t draw,
                                    uint8_t *mask, size_t mask_length, codwalet_entry *table, size_t table_length);

/* The words of a refusal; "accepted" for 0, and NULL where no refusal has the number. */
static inline const char *codwalet_refusal_words(uint32_t refusal)
{
    switch (refusal) {
    case CODWALET_ACCEPTED:
        return "accepted";
#define CODWALET_CASE(number, name, words) \
    case number: \
        return words;
        CODWALET_REFUSALS(CODWALET_CASE)
#undef CODWALET_CASE
    default:
        return NULL;
    }
}

#ifdef __cplusplus
}
#endif

#endif
