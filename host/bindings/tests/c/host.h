/* What the two test hosts share: filling rows and floor beams, and printing what the entries answer. C99 and C++11 alike. */
#ifndef TEST_HOST_H
#define TEST_HOST_H

#include <stdio.h>
#include <string.h>

#include "lvl_addin.h"
#include "lvl_addin.h" /* a second time, as hosts of many files do */

static void fill(uint8_t *bytes, size_t place, double number)
{
    bytes[9 * (place - 1)] = 1;
    memcpy(bytes + 9 * (place - 1) + 1, &number, 8);
}

/* Row A of the scope paper: a beam that passes on bending. */
static void fill_row_a(uint8_t *row)
{
    fill(row, 1, 2);
    fill(row, 2, 1);
    fill(row, 3, 3);
    fill(row, 4, 10);
    fill(row, 5, 1000);
    fill(row, 6, 75);
    fill(row, 7, 300);
    fill(row, 9, 20000000);
    fill(row, 10, 20000);
}

static void fill_floor_beam(uint8_t *beam, const double *numbers)
{
    size_t place;
    for (place = 1; place <= LVL_BEAM_CELLS; place++)
        fill(beam, place, numbers[place - 1]);
}

/* What every answer begins with. */
static void print_verdict(const char *name, uint64_t code, const uint8_t *answer)
{
    double number[3];
    memcpy(number, answer, sizeof number);
    printf("%s: %u, utilisation %.0f, count %.0f, check %.0f", name, (unsigned)code, number[0], number[1], number[2]);
}

static void print_answer(const char *name, uint64_t code, const uint8_t *answer)
{
    print_verdict(name, code, answer);
    printf("\n");
}

static void print_beam_answer(const char *name, uint64_t code, const uint8_t *answer)
{
    double number[3];
    print_verdict(name, code, answer);
    memcpy(number, answer + 24, sizeof number);
    printf(", regime %.0f, M %.0f, Q %.0f\n", number[0], number[1], number[2]);
}

static void print_code(const char *name, uint64_t code)
{
    printf("%s: %u\n", name, (unsigned)code);
}

/* How many of the bytes are still as they were set before the call. */
static size_t untouched(const uint8_t *bytes, size_t length, uint8_t was)
{
    size_t i, same = 0;
    for (i = 0; i < length; i++)
        same += bytes[i] == was;
    return same;
}

static void check_rows(void)
{
    uint8_t row[LVL_ROW_BYTES], answer[LVL_ANSWER_BYTES];

    memset(row, 0, sizeof row);
    fill_row_a(row);
    print_answer("row A", lvl_check_row(row, sizeof row, answer, sizeof answer), answer);
    fill(row, 9, 30000000);
    print_answer("moment of 30 kN m", lvl_check_row(row, sizeof row, answer, sizeof answer), answer);

    memset(answer, 0xA5, sizeof answer);
    print_code("row too short", lvl_check_row(row, sizeof row - 1, answer, sizeof answer));
    print_code("no row", lvl_check_row(NULL, 0, answer, sizeof answer));
    print_code("answer too short", lvl_check_row(row, sizeof row, answer, sizeof answer - 1));
    print_code("no answer", lvl_check_row(row, sizeof row, NULL, 0));
    fill(row, 4, 12.5);
    print_code("moisture 12.5", lvl_check_row(row, sizeof row, answer, sizeof answer));
    row[9 * 2] = 7;
    print_code("first byte of cell 3", lvl_check_row(row, sizeof row, answer, sizeof answer));
    printf("answer untouched: %u of %u\n", (unsigned)untouched(answer, sizeof answer, 0xA5), (unsigned)sizeof answer);
}

/* Every strength, with its remainder as decimals. */
static void print_strengths(const char *name, uint64_t code, const uint8_t *answer)
{
    static const char *const stresses[] = {"bending", "compression", "tension", "shear"};
    double number[8];
    size_t i;
    memcpy(number, answer, sizeof number);
    printf("%s: %u", name, (unsigned)code);
    for (i = 0; i < 4; i++)
        printf(", %s %.0f + 0.%07.0f", stresses[i], number[2 * i], number[2 * i + 1]);
    printf("\n");
}

static void give_strengths(void)
{
    uint8_t row[LVL_ROW_BYTES], answer[LVL_STRENGTHS_BYTES];

    printf("strengths: parts of 1/%d\n", LVL_STRENGTH_DIVISOR);
    memset(row, 0, sizeof row);
    fill_row_a(row);
    print_strengths("row A", lvl_strengths(row, sizeof row, answer, sizeof answer), answer);
    fill(row, 2, 2);
    fill(row, 3, 2);
    fill(row, 4, 14);
    fill(row, 5, 917);
    print_strengths("something dropped", lvl_strengths(row, sizeof row, answer, sizeof answer), answer);
    fill(row, 9, 10000000000.0);
    print_strengths("a row that fails", lvl_strengths(row, sizeof row, answer, sizeof answer), answer);

    memset(answer, 0xA5, sizeof answer);
    print_code("row too short", lvl_strengths(row, sizeof row - 1, answer, sizeof answer));
    print_code("no row", lvl_strengths(NULL, 0, answer, sizeof answer));
    print_code("answer too short", lvl_strengths(row, sizeof row, answer, sizeof answer - 1));
    print_code("answer of a check", lvl_strengths(row, sizeof row, answer, LVL_ANSWER_BYTES));
    print_code("no answer", lvl_strengths(row, sizeof row, NULL, 0));

    /* Each mistake is found before those that are there already. */
    fill(row, 9, 10000000001.0);
    print_code("moment too great, answer too short", lvl_strengths(row, sizeof row, answer, sizeof answer - 1));
    fill(row, 3, 9);
    print_code("regime 9", lvl_strengths(row, sizeof row, answer, sizeof answer));
    row[9 * 9] = 0;
    print_code("no shear force", lvl_strengths(row, sizeof row, answer, sizeof answer));
    fill(row, 22, 0.5);
    print_code("0.5 in cell 22", lvl_strengths(row, sizeof row, answer, sizeof answer));
    printf("answer untouched: %u of %u\n", (unsigned)untouched(answer, sizeof answer, 0xA5), (unsigned)sizeof answer);
}

static void pack_rows(void)
{
    uint8_t row[LVL_ROW_BYTES], out[LVL_PACKED_BYTES_MAX];
    size_t cell;

    memset(row, 0, sizeof row);
    memset(out, 0xA5, sizeof out);
    print_code("blank row, too little space", lvl_pack_row(row, sizeof row, out, LVL_PACKED_BYTES_MIN - 1));
    print_code("blank row, no space", lvl_pack_row(row, sizeof row, NULL, 0));
    print_code("nothing to pack", lvl_pack_row(NULL, 0, out, sizeof out));
    printf("buffer untouched: %u of %u\n", (unsigned)untouched(out, sizeof out, 0xA5), (unsigned)sizeof out);

    print_code("blank row", lvl_pack_row(row, sizeof row, out, sizeof out));
    printf("bytes: %u %u %u, then untouched: %u\n", out[0], out[1], out[2],
           (unsigned)untouched(out + 3, sizeof out - 3, 0xA5));
    for (cell = 1; cell <= LVL_CELLS; cell++)
        fill(row, cell, 17179869183.0);
    print_code("full row", lvl_pack_row(row, sizeof row, out, sizeof out));
}

static void check_floor_beams(void)
{
    static const double passing[LVL_BEAM_CELLS] = {900, 800, 4570, 2, 12, 1000, 45, 240};
    static const double failing[LVL_BEAM_CELLS] = {14000, 1001, 1205, 2, 14, 900, 39, 200};
    static const double greatest[LVL_BEAM_CELLS] = {50000, 50000, 20000, 2, 12, 1000, 45, 240};
    uint8_t beam[LVL_BEAM_BYTES], answer[LVL_BEAM_ANSWER_BYTES];

    printf("floor beam: %d cells, %d bytes\n", LVL_BEAM_CELLS, LVL_BEAM_BYTES);
    fill_floor_beam(beam, greatest);
    print_beam_answer("greatest loads and span", lvl_check_floor_beam(beam, sizeof beam, answer, sizeof answer), answer);
    fill_floor_beam(beam, failing);
    print_beam_answer("beam that fails", lvl_check_floor_beam(beam, sizeof beam, answer, sizeof answer), answer);
    fill_floor_beam(beam, passing);
    print_beam_answer("beam that passes", lvl_check_floor_beam(beam, sizeof beam, answer, sizeof answer), answer);

    memset(answer, 0xA5, sizeof answer);
    print_code("beam too short", lvl_check_floor_beam(beam, sizeof beam - 1, answer, sizeof answer));
    print_code("no beam", lvl_check_floor_beam(NULL, 0, answer, sizeof answer));
    print_code("answer too short", lvl_check_floor_beam(beam, sizeof beam, answer, sizeof answer - 1));
    print_code("no answer", lvl_check_floor_beam(beam, sizeof beam, NULL, 0));

    /* Each mistake is found before those that are there already. */
    fill(beam, 7, 301);
    print_code("width 301", lvl_check_floor_beam(beam, sizeof beam, answer, sizeof answer));
    print_code("width 301, answer too short", lvl_check_floor_beam(beam, sizeof beam, answer, sizeof answer - 1));
    fill(beam, 4, 4);
    print_code("grade 4", lvl_check_floor_beam(beam, sizeof beam, answer, sizeof answer));
    beam[9 * 3] = 0;
    print_code("no grade", lvl_check_floor_beam(beam, sizeof beam, answer, sizeof answer));
    fill(beam, 5, 12.5);
    print_code("moisture 12.5", lvl_check_floor_beam(beam, sizeof beam, answer, sizeof answer));
    fill(beam, 1, 12.5);
    print_code("load 12.5", lvl_check_floor_beam(beam, sizeof beam, answer, sizeof answer));
    fill(beam, 1, 900);
    beam[0] = 2;
    print_code("first byte of a load", lvl_check_floor_beam(beam, sizeof beam, answer, sizeof answer));
    beam[0] = 0;
    print_code("no load", lvl_check_floor_beam(beam, sizeof beam, answer, sizeof answer));
    fill(beam, 1, 50);
    fill(beam, 2, 49);
    print_code("loads of 99", lvl_check_floor_beam(beam, sizeof beam, answer, sizeof answer));
    print_code("too short, loads of 99", lvl_check_floor_beam(beam, sizeof beam - 1, answer, sizeof answer));
    printf("answer untouched: %u of %u\n", (unsigned)untouched(answer, sizeof answer, 0xA5), (unsigned)sizeof answer);
}

#endif
