/*
 * lvl_addin.h - checks of LVL members and steel dowel joints to SP 64.13330.
 *
 * Five entries over bytes that the host lends:
 *
 *   lvl_check_row         judges one member: pass or fail, the check that
 *                         governs, its utilisation, the dowels of the joint
 *   lvl_strengths         gives the design strengths of a member, each with
 *                         what rounding it down dropped
 *   lvl_pack_row          packs one member's cells into at most 97 bytes
 *   lvl_check_floor_beam  judges a floor beam by its loads and span
 *   lvl_check_sag         judges whether a member in bending sags too far
 *
 * Link with libaddin.a. Compiles as C99 or later and as C++11 or later.
 *
 *
 * THE ROW
 *
 * A row is one member: 22 cells, each blank or a 64-bit float that holds a
 * whole number. As bytes it is 198 long, 9 for each cell, cell 1 first:
 *
 *   byte 9 * (cell - 1)         0 blank, 1 filled
 *   the eight bytes after it    the bits of an IEEE 754 double, lowest byte
 *                               first; ignored where the cell is blank
 *
 * Units are mm, N and N mm. Forces and moments are design values. The office
 * factor and the dowel coefficients of cells 18 to 22 are the office's own.
 *
 *   cell                                        range             kinds
 *    1  kind                                    1 to 5            all
 *    2  grade                                   1 to 3            all
 *    3  load duration regime                    1 to 8, 10, 11    all
 *    4  wood moisture, percent                  0 to 60           all
 *    5  office factor, thousandths              500 to 1000       all
 *    6  width b, mm                             20 to 300         all
 *    7  height h, mm                            60 to 2500        all
 *    8  axial force N, N                        1 to 100000000    1 3 4 5
 *    9  moment M, N mm                          1 to 10000000000  2 4 5
 *   10  shear force Q, N                        0 to 100000000    2 4 5
 *   11  effective length Lh, buckling across h  100 to 20000      1 3 4 5
 *   12  effective length Lb, buckling across b  100 to 20000      1 3 4 5
 *   13  row of Table 16                         see below         1 3 4 5
 *   14  side piece thickness a, mm              10 to 300         1, joint
 *   15  dowel diameter d, mm                    6 to 40           1, joint
 *   16  dowels across the height r              1 to 20           1, joint
 *   17  joint length available, mm              1 to 20000        1, joint
 *   18  kc, crushing of the middle piece        100 to 5000       1, joint
 *   19  ka, crushing of a side piece            100 to 5000       1, joint
 *   20  kb, bending of the dowel, on d squared  100 to 5000       1, joint
 *   21  ke, bending of the dowel, on a squared  0 to 5000         1, joint
 *   22  km, greatest bending, on d squared      100 to 5000       1, joint
 *
 * A cell that is not for the row's kind has to be blank, and one that is has
 * to be filled; a joint has all of cells 14 to 22 or none.
 *
 *   kind     1 tension, 2 bending, 3 compression, 4 compression with bending,
 *            5 tension with bending
 *   grade    1 K45, 2 K40, 3 K35
 *   regime   the Cyrillic letters A, Be, Ve, Ge, De, Ye, Zhe, I, Ka, El, Em of
 *            Table 4 are 1 to 11. Ka (9) belongs to fire and is not known here
 *   cell 13  1, 2, 3 for kinds 3 and 4; 4, 5 for kinds 1 and 5. Slenderness is
 *            limited to 120, 150, 200, 150, 200; row 4 only across h
 *   18-22    the coefficients of Table 18 for regime A (code 1), hundredths of
 *            N/mm2, which is kN/cm2 times 1000
 *
 *
 * THE ANSWER
 *
 * Three doubles in 24 bytes, each lowest byte first, all whole numbers:
 *
 *   bytes 0 to 7     utilisation, millionths, at most 9999999. A row passes up
 *                    to 1000000. It is 0 where check 1, 2, 3 or 4 fails: these
 *                    are yes or no
 *   bytes 8 to 15    dowels of the joint; 0 without a joint, and where check 1,
 *                    2 or 3 fails
 *   bytes 16 to 23   the check that governs, 1 to 11
 *
 * Clauses are those of SP 64.13330.2017. The last column says which kinds have
 * the check.
 *
 *    1  dowel layout across the height          8.20              1, joint
 *    2  slenderness across h                    7.4, Table 16     1 3 4 5
 *    3  slenderness across b                    7.4, Table 16     1 3 4 5
 *                                               (not in row 4 of Table 16)
 *    4  joint length                            8.20              1, joint
 *    5  net tension                             7.1               1
 *    6  tension of the side pieces              7.1               1, joint
 *    7  bending                                 7.9               2
 *    8  shear                                   7.10, 7.18        2 4 5
 *    9  buckling across h                       7.2, 7.3          3 4
 *   10  buckling across b                       7.2, 7.3          3 4
 *   11  axial force with bending                7.17, 7.16        4 5
 *
 * The first of checks 1 to 4 to fail is the one named. Where none fails, the
 * check of greatest utilisation is named, the lowest number among equals.
 *
 *
 * THE STRENGTHS
 *
 * A design strength R is value of Table 7 * t * w * o / 10000000, in kPa
 * (1 kPa is 0.001 N/mm2): t and w in hundredths follow from regime and
 * moisture, o is the office factor in thousandths. The checks use R rounded
 * down to a whole number. The answer is eight doubles in 64 bytes, each lowest
 * byte first, all whole numbers:
 *
 *   bytes  0 to  7   bending, R rounded down, kPa        used in checks 7, 11
 *   bytes  8 to 15   bending, the remainder
 *   bytes 16 to 23   compression, R rounded down, kPa    9, 10, 11 of kind 4
 *   bytes 24 to 31   compression, the remainder
 *   bytes 32 to 39   tension, R rounded down, kPa        5, 6, 11 of kind 5
 *   bytes 40 to 47   tension, the remainder
 *   bytes 48 to 55   shear, R rounded down, kPa          8
 *   bytes 56 to 63   shear, the remainder
 *
 * A remainder is what the division by 10000000 leaves, 0 to 9999999: R with
 * nothing rounded is the number before it plus remainder / 10000000, exactly,
 * which has seven decimals at most: printf("%.0f + 0.%07.0f", number[0],
 * number[1]) writes both. All four are given for a row of any kind; they follow
 * from cells 2 to 5 alone.
 *
 *
 * THE FLOOR BEAM
 *
 * A beam on two supports under an even load, typed by its loads. As bytes it is
 * 72 long: eight cells of 9 bytes each, as in a row:
 *
 *   bytes            cell                                       range
 *    0 to  8         permanent and long-term load, N/m          0 and more
 *    9 to 17         remaining load, N/m                        0 and more
 *                    both loads together, q                     100 to 100000
 *   18 to 26         span, mm                                   500 to 20000
 *   27 to 35         grade, as cell 2 of a row                  1 to 3
 *   36 to 44         wood moisture, percent, as cell 4          0 to 60
 *   45 to 53         office factor, thousandths, as cell 5      500 to 1000
 *   54 to 62         width b, mm, as cell 6                     20 to 300
 *   63 to 71         height h, mm, as cell 7                    60 to 2500
 *
 * Loads are design values, the beam's own weight among the first. A row of
 * kind 2 is made of them and judged: regime Be (2) where 100 times the first
 * load exceeds 80 times q, and Ve (3) where it does not; M = q * span^2 / 8000
 * in N mm and Q = q * span / 2000 in N, each rounded up to a whole number. Sag
 * and lateral stability are not checked. For the sag, ask lvl_check_sag with a
 * row of kind 2: cells 2 and 4 to 7 are the beam's, cells 3, 9 and 10 the
 * regime, M and Q of the answer. Its moment Mn is not this M, which is of
 * design loads.
 *
 * The answer is six doubles in 48 bytes, each lowest byte first, all whole
 * numbers: the three of a row's answer (utilisation; dowels, which are 0; the
 * check that governs, 7 or 8), then
 *
 *   bytes 24 to 31   the regime, 2 or 3
 *   bytes 32 to 39   M, N mm, at most 5000000000
 *   bytes 40 to 47   Q, N, at most 1000000
 *
 * A pass holds with nothing rounded, M and Q included; a fail means that the
 * check named fails, still with nothing rounded, at 1.005 times M and Q.
 *
 *
 * THE SAG CHECK
 *
 * lvl_check_sag judges whether the member of a row of kind 2, as a straight
 * prismatic beam of span L on two supports under an even load, sags by no more
 * than L / n. Beside the row it takes three cells, here called the sag. As
 * bytes it is 27 long, 9 for each cell, as in a row:
 *
 *   bytes            cell                                   range
 *    0 to  8         span L, mm                             500 to 20000
 *    9 to 17         unfactored moment Mn, N mm             1 to 10000000000
 *   18 to 26         n of the limit L / n                   100 to 500
 *
 * Mn is the beam's greatest moment under its loads without their safety factors,
 * all that act in the row's regime. Of the row the check uses cells 2, 3, 4, 6
 * and 7: neither M and Q, which are design values, nor the office factor.
 *
 * The beam sags by 5 * Mn * L^2 / (48 * E * I), with I = b * h^3 / 12, enlarged
 * for shear. With nothing rounded that is at most L / n exactly where Mn * the
 * shear factor is at most 1000000 * Mf:
 *
 *   modulus, MPa     12000, 11000, 10000 for grades 1, 2, 3: along the grain,
 *                    Table V.2a (with the Cyrillic letter Ve) of SP 64.13330
 *   e, hundredths    75 in regime Be (2), 90 in Ve (3), 100 in any other
 *   w, hundredths    100 up to 12 percent of moisture, 90 up to 15, 85 up to
 *                    20, 75 above
 *   E, MPa           modulus * e * w / 10000, rounded down
 *   Mf, N mm         4 * E * b * h^3 / (5 * L * n), rounded down: the moment
 *                    at which bending alone makes the sag L / n
 *   shear factor,    1000000 + (19200000 * h^2 / L^2, rounded up): that of
 *   millionths       SNiP II-25-80 for a prismatic beam
 *   utilisation,     Mn * shear factor / Mf, rounded up; 9999999 where it would
 *   millionths       be greater
 *
 * Mf is made of E as rounded, the utilisation of Mf and the shear factor as
 * rounded. No product of whole numbers here exceeds 2^63.
 *
 * The edition of SP 64.13330 in force has e = 90 in regime Ge (4) too: there E
 * is overstated by 11 percent, which is unsafe. Hand over regime Ve (3) for Ge:
 * strengths are the same in both.
 *
 * The answer is seven doubles in 56 bytes, each lowest byte first, all whole
 * numbers:
 *
 *   bytes  0 to  7   utilisation, millionths, at most 9999999. The sag passes
 *                    up to 1000000
 *   bytes  8 to 15   the modulus, MPa, at most 12000
 *   bytes 16 to 23   e, hundredths, at most 100
 *   bytes 24 to 31   w, hundredths, at most 100
 *   bytes 32 to 39   E, MPa, 5625 to 12000
 *   bytes 40 to 47   Mf, N mm, 1944 to 900000000000
 *   bytes 48 to 55   the shear factor, millionths, 1000173 to 481000000
 *
 * A pass holds with nothing rounded, E, Mf and the shear factor included; a
 * fail means that the beam sags by more than L / n, still with nothing rounded,
 * at 1.005 times Mn.
 *
 * The row has only not to be refused by lvl_check_row; whether it passes there
 * makes no difference. Nothing but the sag is judged: not the strength, which
 * lvl_check_row judges, and not lateral stability, which no entry does.
 *
 *
 * REFUSALS
 *
 * A row, a floor beam, a sag or a buffer that cannot be taken is refused: the
 * entry returns 1000 times the refusal's number plus a cell, and writes nothing
 * at all. The cell is 0 where no cell of a row is to blame. What is tested
 * comes in this order, and the first to be found is returned:
 *
 *   lvl_check_row, lvl_strengths, lvl_check_sag and lvl_pack_row:
 *   1  unreadable: the row is not 198 bytes long (cell 0)
 *   1  unreadable: the lowest cell whose first byte is neither 0 nor 1, or that
 *      is filled with anything but a whole number from 0 to 17179869183
 *      (negative, fraction, infinity, NaN; -0 reads as 0)
 *
 *   lvl_check_row, lvl_strengths and lvl_check_sag then:
 *   2  cell 1 is blank
 *   3  cell 1 is not a known kind
 *   2  misfilled: the lowest cell that is blank but needed by the kind or by a
 *      joint begun, or filled but not for the kind
 *   3  unknown code: the lowest of cells 2, 3 and 13
 *   4  out of range: the lowest of all other cells
 *
 *   lvl_check_sag then:
 *   9  the row is not of kind 2 (cell 1)
 *  10  the sag is not 27 bytes long, or L, Mn or n is blank, unreadable as
 *      above or outside its range (cell 0). A host that wants to say which
 *      tests them itself
 *
 *   lvl_check_row, lvl_strengths and lvl_check_sag last:
 *   5  the answer is not 24 bytes long, that of strengths not 64, that of a sag
 *      not 56 (cell 0)
 *
 *   lvl_pack_row then:
 *   5  the row takes more bytes than are lent (cell 0)
 *
 *   lvl_check_floor_beam:
 *   1  unreadable: the beam is not 72 bytes long (cell 0)
 *   8  a load or the span is blank or unreadable as above, or both loads
 *      together or the span are outside their range (cell 0). A host that
 *      wants to say which tests them itself
 *   1  unreadable: the lowest of cells 2, 4, 5, 6 and 7, by these numbers: the
 *      grade is cell 2, whatever its place in the beam
 *   2  misfilled: the lowest of cells 2, 4, 5, 6 and 7 that is blank
 *   3  unknown code: cell 2
 *   4  out of range: the lowest of cells 4, 5, 6 and 7
 *   5  the answer is not 48 bytes long (cell 0)
 *
 *
 * WHAT THE CALLER SEES TO
 *
 * C cannot check, and the entries cannot test, that
 *   - each pointer is valid for as many bytes as its length says; it may be
 *     null only where that length is 0;
 *   - the buffer that is written overlaps no part of the row, the beam or the
 *     sag.
 * Bytes need no alignment.
 *
 *
 * WHERE IT RUNS
 *
 * libaddin.a is one ELF object of position-independent code for any x86-64
 * processor, with the calling convention of System V. It links on 64-bit Linux,
 * into programs and into shared libraries, and calls nothing, not even the C
 * library; it is tested with gcc, g++, cargo and glibc. It does not work on
 * Windows or macOS (other object files and conventions), on ARM, or in 32-bit
 * programs.
 *
 * Stack: lvl_check_row 696 bytes, lvl_strengths 744 bytes, lvl_pack_row 424
 * bytes, lvl_check_floor_beam 792 bytes, lvl_check_sag 640 bytes. No heap, no
 * system call, no lock, and no data of its own that it writes.
 *
 * Threads: any number may call at once, each with a buffer of its own to write
 * to. Nothing is kept between calls.
 *
 * Floating point: answers do not depend on the mode of the thread that calls.
 * Flush to zero and denormals are zero (which -ffast-math sets, also through a
 * library that was built with it), the four ways to round, and exceptions that
 * are unmasked change nothing, but for one: each cell's float is compared with
 * itself to tell a NaN, so where the denormal exception is unmasked, and
 * denormals are not zero, a cell that holds a subnormal raises it (SIGFPE on
 * Linux). Leave it masked, as it is by default. Of the status flags only that
 * of denormals may be set by a call.
 *
 *
 * EXAMPLE
 *
 * A beam of K45, 75 by 300 mm, at 10 percent moisture in regime Ve, with 20 kN m
 * and 20 kN; for a machine whose doubles lie lowest byte first, as on x86-64.
 *
 *   #include <stdio.h>
 *   #include <string.h>
 *   #include "lvl_addin.h"
 *
 *   static void fill(uint8_t *row, size_t cell, double number)
 *   {
 *       row[9 * (cell - 1)] = 1;
 *       memcpy(row + 9 * (cell - 1) + 1, &number, 8);
 *   }
 *
 *   int main(void)
 *   {
 *       uint8_t row[LVL_ROW_BYTES] = {0}, answer[LVL_ANSWER_BYTES];
 *       double number[3];
 *       uint64_t code;
 *
 *       fill(row, 1, 2);
 *       fill(row, 2, 1);
 *       fill(row, 3, 3);
 *       fill(row, 4, 10);
 *       fill(row, 5, 1000);
 *       fill(row, 6, 75);
 *       fill(row, 7, 300);
 *       fill(row, 9, 20000000);
 *       fill(row, 10, 20000);
 *
 *       code = lvl_check_row(row, sizeof row, answer, sizeof answer);
 *       if (code >= LVL_REFUSAL) {
 *           printf("refused: %u, cell %u\n", (unsigned)(code / LVL_REFUSAL),
 *                  (unsigned)(code % LVL_REFUSAL));
 *           return 2;
 *       }
 *       memcpy(number, answer, sizeof number);
 *       printf("%s, check %.0f, utilisation %.0f, dowels %.0f\n",
 *              code == LVL_PASS ? "pass" : "fail",
 *              number[2], number[0], number[1]);
 *       return 0;
 *   }
 *
 * It prints: pass, check 7, utilisation 690668, dowels 0
 *
 * lvl_strengths takes the same row, and an answer of LVL_STRENGTHS_BYTES, which
 * holds eight doubles.
 *
 * A floor beam is filled and called in the same way: fill(beam, place, number)
 * with places 1 to 8 in a beam of LVL_BEAM_BYTES, and an answer of
 * LVL_BEAM_ANSWER_BYTES, which holds six doubles.
 *
 * lvl_check_sag takes the same row and a sag of LVL_SAG_BYTES, filled likewise
 * at places 1 to 3, and an answer of LVL_SAG_ANSWER_BYTES, which holds seven
 * doubles. With a span of 6000, Mn 15000000 and n 200 the beam of the example,
 * which passes lvl_check_row, fails: E 10800, Mf 14580000, shear factor
 * 1048000, utilisation 1078190.
 */
#ifndef LVL_ADDIN_H
#define LVL_ADDIN_H

#include <stddef.h>
#include <stdint.h>

#ifdef __cplusplus
extern "C" {
#endif

/* Sizes. */
#define LVL_CELLS 22
#define LVL_ROW_BYTES 198
#define LVL_ANSWER_BYTES 24
#define LVL_STRENGTHS_BYTES 64
#define LVL_PACKED_BYTES_MAX 97
#define LVL_PACKED_BYTES_MIN 3
#define LVL_BEAM_CELLS 8
#define LVL_BEAM_BYTES 72
#define LVL_BEAM_ANSWER_BYTES 48
#define LVL_SAG_CELLS 3
#define LVL_SAG_BYTES 27
#define LVL_SAG_ANSWER_BYTES 56

/* What a check returns for a row, a floor beam or a sag that is not refused. */
#define LVL_PASS 0
#define LVL_FAIL 1

/* What lvl_strengths returns for a row that is not refused. */
#define LVL_GIVEN 0

/* A remainder of lvl_strengths counts parts of a kPa: so many are one. */
#define LVL_STRENGTH_DIVISOR 10000000

/* A returned number from here on is a refusal: LVL_REFUSAL * number + cell. */
#define LVL_REFUSAL 1000

/* Numbers of refusals. */
#define LVL_UNREADABLE 1
#define LVL_MISFILLED 2
#define LVL_UNKNOWN_CODE 3
#define LVL_OUT_OF_RANGE 4
#define LVL_BUFFER_SIZE 5
#define LVL_LOADING 8
#define LVL_NOT_KIND_2 9
#define LVL_SAG_INPUT 10

/* Regimes of a floor beam. */
#define LVL_REGIME_BE 2
#define LVL_REGIME_VE 3

/* Numbers of checks. */
#define LVL_CHECK_LAYOUT 1
#define LVL_CHECK_SLENDERNESS_H 2
#define LVL_CHECK_SLENDERNESS_B 3
#define LVL_CHECK_JOINT_LENGTH 4
#define LVL_CHECK_NET_TENSION 5
#define LVL_CHECK_SIDE_PIECES 6
#define LVL_CHECK_BENDING 7
#define LVL_CHECK_SHEAR 8
#define LVL_CHECK_BUCKLING_H 9
#define LVL_CHECK_BUCKLING_B 10
#define LVL_CHECK_COMBINED 11

/*
 * Judges a row.
 *
 * Returns LVL_PASS or LVL_FAIL and fills the answer's 24 bytes, or returns
 * 1000 * number + cell for refusals 1 to 5 and leaves the answer as it was.
 */
uint64_t lvl_check_row(const uint8_t *row, size_t row_len,
                       uint8_t *answer, size_t answer_len);

/*
 * Gives the design strengths of a row that lvl_check_row does not refuse.
 *
 * Returns LVL_GIVEN and fills the answer's 64 bytes, whether the row passes or
 * fails; or returns 1000 * number + cell for refusals 1 to 5 and leaves the
 * answer as it was.
 */
uint64_t lvl_strengths(const uint8_t *row, size_t row_len,
                       uint8_t *answer, size_t answer_len);

/*
 * Packs a row: for each cell, most significant bit first, a 0 bit where it is
 * blank, otherwise a 1 bit and the value's 34 bits; zero bits fill the last
 * byte. The row is only read, not judged: one that lvl_check_row would refuse
 * for its content packs all the same.
 *
 * Returns how many bytes it wrote, LVL_PACKED_BYTES_MIN to
 * LVL_PACKED_BYTES_MAX, and leaves those after them as they were; or returns
 * 1000 * number + cell for refusals 1 and 5 and leaves the whole buffer so.
 */
uint64_t lvl_pack_row(const uint8_t *row, size_t row_len,
                      uint8_t *out, size_t out_len);

/*
 * Judges a floor beam.
 *
 * Returns LVL_PASS or LVL_FAIL and fills the answer's 48 bytes, or returns
 * 1000 * number + cell for refusals 1 to 5 and 8 (no entry gives 6 or 7) and
 * leaves the answer as it was.
 */
uint64_t lvl_check_floor_beam(const uint8_t *beam, size_t beam_len,
                              uint8_t *answer, size_t answer_len);

/*
 * Judges the sag of a row of kind 2 that lvl_check_row does not refuse.
 *
 * Returns LVL_PASS or LVL_FAIL and fills the answer's 56 bytes, or returns
 * 1000 * number + cell for refusals 1 to 5, 9 and 10 and leaves the answer as
 * it was.
 */
uint64_t lvl_check_sag(const uint8_t *row, size_t row_len,
                       const uint8_t *sag, size_t sag_len,
                       uint8_t *answer, size_t answer_len);

#ifdef __cplusplus
}
#endif

#endif
