/* The entries, rows of every kind, floor beams and sags to try them on, any bits put in a cell: for hosts in odd surroundings. */
#ifndef TEST_ROWS_H
#define TEST_ROWS_H

#include <stdint.h>
#include <string.h>

#include "lvl_addin.h"

#define ROWS 7
#define BEAMS 6
#define SAGS 9
#define SAG_CHECK_CELLS (LVL_CELLS + LVL_SAG_CELLS)
#define BLANK (-1)

/* The worked rows A, B and E of docs/RULES.md, F, which fails, a row each of kinds 4 and 5, and one that is refused. */
static const double row_cells[ROWS][LVL_CELLS] = {
    {2, 1, 3, 10, 1000, 75, 300, BLANK, 20000000, 20000, BLANK, BLANK, BLANK, BLANK, BLANK, BLANK, BLANK, BLANK, BLANK,
     BLANK, BLANK, BLANK},
    {3, 3, 2, 13, 1000, 100, 200, 50000, BLANK, BLANK, 3000, 2000, 1, BLANK, BLANK, BLANK, BLANK, BLANK, BLANK, BLANK,
     BLANK, BLANK},
    {1, 2, 4, 12, 1000, 100, 200, 100000, BLANK, BLANK, 3000, 3000, 5, 50, 12, 3, 840, 500, 800, 1800, 20, 2500},
    {1, 2, 4, 12, 1000, 100, 200, 100000, BLANK, BLANK, 3000, 3000, 5, 50, 12, 3, 671, 500, 800, 1800, 20, 2500},
    {4, 1, 1, 10, 1000, 100, 300, 50000, 40000000, 20000, 3000, 2000, 2, BLANK, BLANK, BLANK, BLANK, BLANK, BLANK,
     BLANK, BLANK, BLANK},
    {5, 1, 1, 10, 1000, 100, 300, 50000, 40000000, 20000, 3000, 2000, 5, BLANK, BLANK, BLANK, BLANK, BLANK, BLANK,
     BLANK, BLANK, BLANK},
    {2, 1, 3, 10, 1000, 75, 300, BLANK, BLANK, 20000, BLANK, BLANK, BLANK, BLANK, BLANK, BLANK, BLANK, BLANK, BLANK,
     BLANK, BLANK, BLANK},
};

/* A beam that passes, one that fails, one of the greatest loads and span, and three that are refused, not for their loads. */
static const double beam_cells[BEAMS][LVL_BEAM_CELLS] = {
    {900, 800, 4570, 2, 12, 1000, 45, 240},
    {14000, 1001, 1205, 2, 14, 900, 39, 200},
    {50000, 50000, 20000, 1, 60, 500, 300, 2500},
    {900, 800, 4570, BLANK, 12, 1000, 45, 240},
    {900, 800, 4570, 4, 12, 1000, 45, 240},
    {900, 800, 4570, 2, 12, 1000, 301, 240},
};

#define BLANK_FROM_14 BLANK, BLANK, BLANK, BLANK, BLANK, BLANK, BLANK, BLANK, BLANK
#define BLANK_FROM_11 BLANK, BLANK, BLANK, BLANK_FROM_14

/*
 * Rows, each with a sag after it: a sag that passes, one that fails, the greatest figures, the utilisation at its cap, two that
 * are refused, both for n; then two rows of kind 3 and one that is refused.
 */
static const double sag_cells[SAGS][SAG_CHECK_CELLS] = {
    {2, 1, 3, 10, 1000, 75, 300, BLANK, 20000000, 20000, BLANK_FROM_11, 6000, 13912213, 200},
    {2, 1, 3, 10, 1000, 75, 300, BLANK, 20000000, 20000, BLANK_FROM_11, 6000, 15000000, 200},
    {2, 1, 1, 12, 500, 300, 2500, BLANK, 20000000, 20000, BLANK_FROM_11, 500, 10000000000, 100},
    {2, 3, 2, 25, 1000, 20, 60, BLANK, 20000000, 20000, BLANK_FROM_11, 20000, 10000000000, 500},
    {2, 1, 3, 10, 1000, 75, 300, BLANK, 20000000, 20000, BLANK_FROM_11, 6000, 15000000, 501},
    {2, 1, 3, 10, 1000, 75, 300, BLANK, 20000000, 20000, BLANK_FROM_11, 6000, 15000000, BLANK},
    {3, 3, 2, 13, 1000, 100, 200, 50000, BLANK, BLANK, 3000, 2000, 1, BLANK_FROM_14, 6000, 15000000, 200},
    {3, 3, 2, 13, 1000, 100, 200, 50000, BLANK, BLANK, 3000, 2000, 1, BLANK_FROM_14, 6000, 0, 200},
    {2, 1, 3, 10, 1000, 75, 300, BLANK, BLANK, 20000, BLANK_FROM_11, 6000, 15000000, 200},
};

typedef uint64_t entry(const uint8_t *, size_t, uint8_t *, size_t);
typedef uint64_t entry_with_sag(const uint8_t *, size_t, const uint8_t *, size_t, uint8_t *, size_t);

/* An entry, of one signature or the other, what it is tried on, and how many bytes it is lent. */
struct trial {
    const char *name;
    entry *called;
    entry_with_sag *called_with_sag;
    const double *numbers;
    size_t samples, cells, lent;
};

#define TRIALS 5

static const struct trial trials[TRIALS] = {
    {"lvl_check_row", lvl_check_row, NULL, row_cells[0], ROWS, LVL_CELLS, LVL_ANSWER_BYTES},
    {"lvl_strengths", lvl_strengths, NULL, row_cells[0], ROWS, LVL_CELLS, LVL_STRENGTHS_BYTES},
    {"lvl_pack_row", lvl_pack_row, NULL, row_cells[0], ROWS, LVL_CELLS, LVL_PACKED_BYTES_MAX},
    {"lvl_check_floor_beam", lvl_check_floor_beam, NULL, beam_cells[0], BEAMS, LVL_BEAM_CELLS, LVL_BEAM_ANSWER_BYTES},
    {"lvl_check_sag", NULL, lvl_check_sag, sag_cells[0], SAGS, SAG_CHECK_CELLS, LVL_SAG_ANSWER_BYTES},
};

/* The most bytes that an entry reads, and that one is lent. */
#define READ_MAX (9 * SAG_CHECK_CELLS)
#define LENT_MAX LVL_PACKED_BYTES_MAX

static uint64_t call_entry(const struct trial *trial, const uint8_t *bytes, uint8_t *lent)
{
    if (trial->called_with_sag != NULL)
        return trial->called_with_sag(bytes, LVL_ROW_BYTES, bytes + LVL_ROW_BYTES, LVL_SAG_BYTES, lent, trial->lent);
    return trial->called(bytes, 9 * trial->cells, lent, trial->lent);
}

static void fill_bits(uint8_t *bytes, size_t place, uint64_t bits)
{
    size_t i;
    bytes[9 * (place - 1)] = 1;
    for (i = 0; i < 8; i++)
        bytes[9 * (place - 1) + 1 + i] = (uint8_t)(bits >> 8 * i);
}

static void fill_sample(const struct trial *trial, uint8_t *bytes, size_t sample)
{
    size_t place;
    memset(bytes, 0, 9 * trial->cells);
    for (place = 1; place <= trial->cells; place++) {
        double value = trial->numbers[sample * trial->cells + place - 1];
        uint64_t bits;
        memcpy(&bits, &value, sizeof bits);
        if (value != BLANK)
            fill_bits(bytes, place, bits);
    }
}

#endif
