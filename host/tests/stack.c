/*
 * How much stack each call takes, held to what codwalet.h says. A call runs on a stack of its own that holds one byte
 * throughout, and what the call has overwritten is counted. The map is the largest one, and 20 of its areas are partial, so
 * that the search goes as deep as it ever does.
 */
#define _XOPEN_SOURCE 700
#include "codwalet.h"

#include <stdio.h>
#include <stdlib.h>
#include <string.h>
#include <ucontext.h>

#define SIDE CODWALET_LARGEST_SIDE
#define PARTIAL CODWALET_PARTIAL_AREAS
#define ENTRIES 1000000
#define STACK ((size_t)1 << 20)
#define UNTOUCHED 0xA7

static uint8_t map[1 + CODWALET_AREAS * (8 + SIDE * (SIDE / 8 + SIDE * 12))];
static size_t length;
static codwalet_register current;
static uint8_t mask[CODWALET_LARGEST_MASK];
static codwalet_entry table[ENTRIES];

static void put(uint32_t value, int bytes)
{
    for (int i = 0; i < bytes; i++)
        map[length++] = (uint8_t)(value >> (8 * i));
}

/* An area of full rows, one person a cell, beside the area before it. */
static void put_area(uint32_t number)
{
    put(number, 2);
    put(1, 4);
    put(SIDE, 1);
    put(SIDE, 1);
    for (uint32_t row = 0; row < SIDE; row++) {
        for (int i = 0; i < SIDE / 8; i++)
            put(UINT8_MAX, 1);
        for (uint32_t column = 0; column < SIDE; column++) {
            put(1, 4);
            put(row, 4);
            put(number * SIDE + column, 4);
        }
    }
}

/* A box over half of the rows of an area, fewer of its columns for each. */
static void hold_part(uint32_t number)
{
    codwalet_licence half = {.call_sign = number, .kind = CODWALET_GROUND_BOX, .south = 0, .north = SIDE / 2,
                             .west = (int32_t)(number * SIDE), .east = (int32_t)((number + 1) * SIDE - number)};
    codwalet_step step = codwalet_grant(current, half);
    if (step.refusal != CODWALET_ACCEPTED)
        exit(1);
    current = step.next;
}

/* Each call leaves its refusal here. */
static uint32_t refusal;

static void version(void) { refusal = codwalet_version() - CODWALET_VERSION; }
static void empty(void) { refusal = codwalet_empty().places[0].call_sign; }
static void grant(void)
{
    codwalet_licence licence = {.call_sign = 99, .area = 1, .kind = CODWALET_GROUND_AREA};
    refusal = codwalet_grant(current, licence).refusal;
}
static void grant_width(void)
{
    codwalet_licence licence = {.call_sign = 99, .area = 1, .kind = CODWALET_GROUND_AREA};
    refusal = codwalet_grant_width(current, licence, 20).refusal;
}
static void cancel(void) { refusal = codwalet_cancel(current, 1).refusal; }
static void check_map(void) { refusal = codwalet_check_map(map, length); }
static void look_up(void) { refusal = codwalet_look_up(map, length, 1).refusal; }
static void coverage(void) { refusal = codwalet_coverage(map, length, current, 1).refusal; }
static void blocks(void) { refusal = codwalet_blocks(map, length, current, 1).refusal; }
static void propose(void) { refusal = codwalet_propose(map, length, current, 0).refusal; }
static void footprint(void)
{
    refusal = codwalet_footprint(map, length, current, 0, mask, sizeof mask, table, ENTRIES).refusal;
}

static const struct {
    const char *name;
    void (*call)(void);
    size_t most; /* KiB, by the header */
} calls[] = {
    {"version", version, 32},
    {"empty", empty, 32},
    {"grant", grant, 32},
    {"grant_width", grant_width, 32},
    {"cancel", cancel, 32},
    {"check_map", check_map, 32},
    {"look_up", look_up, 32},
    {"coverage", coverage, 32},
    {"blocks", blocks, 32},
    {"propose", propose, 32},
    {"footprint", footprint, 128},
};

/* The bytes of stack that a call takes. */
static size_t taken_by(void (*call)(void))
{
    static ucontext_t back, there;
    static uint8_t stack[STACK];
    size_t free = 0;
    memset(stack, UNTOUCHED, sizeof stack);
    getcontext(&there);
    there.uc_stack.ss_sp = stack;
    there.uc_stack.ss_size = sizeof stack;
    there.uc_link = &back;
    makecontext(&there, call, 0);
    refusal = UINT32_MAX;
    swapcontext(&back, &there);
    while (free < STACK && stack[free] == UNTOUCHED)
        free++;
    return STACK - free;
}

/* That what is measured is as it is meant to be: 20 areas are partial, and the footprint has a last ring. */
static int premises(void)
{
    uint32_t without_table = codwalet_footprint(map, length, current, 0, mask, sizeof mask, NULL, 0).refusal;
    hold_part(PARTIAL + 1);
    propose();
    if (without_table == CODWALET_TABLE_SHORT && refusal == CODWALET_TOO_MANY)
        return 0;
    fprintf(stderr, "stack.c: refusals %u and %u, due are 8 without a table and 12 with one more partial area\n",
            without_table, refusal);
    return 1;
}

int main(void)
{
    int status = 0;
    put(CODWALET_AREAS, 1);
    for (uint32_t number = 1; number <= CODWALET_AREAS; number++)
        put_area(number);
    current = codwalet_empty();
    for (uint32_t number = 1; number <= PARTIAL; number++)
        hold_part(number);
    for (size_t i = 0; i < sizeof calls / sizeof calls[0]; i++) {
        size_t taken = taken_by(calls[i].call);
        if (refusal != CODWALET_ACCEPTED || taken >= calls[i].most * 1024) {
            fprintf(stderr, "stack.c: %s: refusal %u, %zu bytes of stack, due are less than %zu KiB\n", calls[i].name,
                    refusal, taken, calls[i].most);
            status = 1;
        }
        printf("%s%s %zu", i == 0 ? "stack: " : ", ", calls[i].name, taken);
    }
    printf(" bytes\n");
    return status | premises();
}
