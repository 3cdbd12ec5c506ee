/* The sag checks of the two test hosts: two worked by hand, the ends of what is answered, the refusals. C99 and C++11 alike. */
#ifndef TEST_SAG_H
#define TEST_SAG_H

#include "host.h"

/*
 * Row A, L 6000, Mn 15000000, n 200:
 *
 *   modulus        grade 1: 12000
 *   e              regime 3: 90
 *   w              10 percent: 100
 *   E              12000 * 90 * 100 / 10000 = 10800
 *   Mf             4 * 10800 * 75 * 300^3 = 3240000 * 27000000 = 87480000000000
 *                  5 * 6000 * 200 = 6000000, which divides it: 14580000
 *   shear factor   19200000 * 300^2 / 6000^2 = 19200000 / 400 = 48000: 1048000
 *   utilisation    15000000 * 1048000 = 15720000000000; 14580000 * 1078189 = 15719995620000, which leaves 4380000: up to
 *                  1078190, a fail
 *
 * A double's first twelve bits, read from its last byte, are 1023 + p where it is 2^p or more and less than 2^(p + 1); what it
 * has above 2^p follows, its first bit worth 2^(p - 1). So 100 = 64 + 36 has p 6, 1023 + 6 = 0x405, and 36 / 64 = 0x0.9.
 */
static const uint8_t worked_fail[LVL_SAG_ANSWER_BYTES] = {
    0x00, 0x00, 0x00, 0x00, 0xAE, 0x73, 0x30, 0x41, /* 1078190 = 0x1073AE, p 20 */
    0x00, 0x00, 0x00, 0x00, 0x00, 0x70, 0xC7, 0x40, /* 12000 = 0x2EE0, p 13 */
    0x00, 0x00, 0x00, 0x00, 0x00, 0x80, 0x56, 0x40, /* 90 = 0x5A, p 6 */
    0x00, 0x00, 0x00, 0x00, 0x00, 0x00, 0x59, 0x40, /* 100 = 0x64, p 6 */
    0x00, 0x00, 0x00, 0x00, 0x00, 0x18, 0xC5, 0x40, /* 10800 = 0x2A30, p 13 */
    0x00, 0x00, 0x00, 0x00, 0x24, 0xCF, 0x6B, 0x41, /* 14580000 = 0xDE7920, p 23 */
    0x00, 0x00, 0x00, 0x00, 0x80, 0xFB, 0x2F, 0x41, /* 1048000 = 0xFFDC0, p 19 */
};

/*
 * The least beam of the least modulus, L 20000, Mn 1, n 500:
 *
 *   modulus        grade 3: 10000
 *   e              regime 2: 75
 *   w              25 percent: 75
 *   E              10000 * 75 * 75 / 10000 = 5625
 *   Mf             4 * 5625 * 20 * 60^3 = 450000 * 216000 = 97200000000
 *                  5 * 20000 * 500 = 50000000, which divides it: 1944
 *   shear factor   19200000 * 60^2 / 20000^2 = 1728 / 10 = 172.8, up to 173: 1000173
 *   utilisation    1 * 1000173; 1944 * 514 = 999216, which leaves 957: up to 515, a pass
 */
static const uint8_t worked_pass[LVL_SAG_ANSWER_BYTES] = {
    0x00, 0x00, 0x00, 0x00, 0x00, 0x18, 0x80, 0x40, /* 515 = 0x203, p 9 */
    0x00, 0x00, 0x00, 0x00, 0x00, 0x88, 0xC3, 0x40, /* 10000 = 0x2710, p 13 */
    0x00, 0x00, 0x00, 0x00, 0x00, 0xC0, 0x52, 0x40, /* 75 = 0x4B, p 6 */
    0x00, 0x00, 0x00, 0x00, 0x00, 0xC0, 0x52, 0x40, /* 75 */
    0x00, 0x00, 0x00, 0x00, 0x00, 0xF9, 0xB5, 0x40, /* 5625 = 0x15F9, p 12 */
    0x00, 0x00, 0x00, 0x00, 0x00, 0x60, 0x9E, 0x40, /* 1944 = 0x798, p 10 */
    0x00, 0x00, 0x00, 0x00, 0xDA, 0x85, 0x2E, 0x41, /* 1000173 = 0xF42ED, p 19 */
};

/* What a sag check is lent. */
struct sag_check {
    uint8_t row[LVL_ROW_BYTES], sag[LVL_SAG_BYTES], answer[LVL_SAG_ANSWER_BYTES];
};

static uint64_t call_sag(struct sag_check *check)
{
    return lvl_check_sag(check->row, sizeof check->row, check->sag, sizeof check->sag, check->answer, sizeof check->answer);
}

static void fill_sag(uint8_t *sag, double span, double moment, double n)
{
    fill(sag, 1, span);
    fill(sag, 2, moment);
    fill(sag, 3, n);
}

/* A beam of kind 2, with forces that no sag follows from. */
static void fill_bent(uint8_t *row, double grade, double regime, double moisture, double width, double height)
{
    fill(row, 1, 2);
    fill(row, 2, grade);
    fill(row, 3, regime);
    fill(row, 4, moisture);
    fill(row, 5, 1000);
    fill(row, 6, width);
    fill(row, 7, height);
    fill(row, 9, 1000);
    fill(row, 10, 10);
}

static void print_sag(const char *name, struct sag_check *check)
{
    uint64_t code = call_sag(check);
    double number[7];
    memcpy(number, check->answer, sizeof number);
    printf("%s: %u, utilisation %.0f, modulus %.0f, e %.0f, w %.0f, E %.0f, Mf %.0f, shear factor %.0f\n", name,
           (unsigned)code, number[0], number[1], number[2], number[3], number[4], number[5], number[6]);
}

/* The answer, and how many of its bytes are those worked by hand. */
static void print_worked(const char *name, struct sag_check *check, const uint8_t *worked)
{
    size_t i, same = 0;
    print_sag(name, check);
    for (i = 0; i < LVL_SAG_ANSWER_BYTES; i++)
        same += check->answer[i] == worked[i];
    printf("bytes as worked: %u of %u\n", (unsigned)same, (unsigned)LVL_SAG_ANSWER_BYTES);
}

static void judge_sags(void)
{
    struct sag_check check;

    printf("sag: %d cells, %d bytes, refusals %d and %d\n", LVL_SAG_CELLS, LVL_SAG_BYTES, LVL_NOT_KIND_2, LVL_SAG_INPUT);
    memset(&check, 0, sizeof check);
    fill_row_a(check.row);
    fill_sag(check.sag, 6000, 15000000, 200);
    print_worked("row A", &check, worked_fail);
    fill(check.sag, 2, 13912214);
    print_sag("the least moment that fails", &check);
    fill(check.sag, 2, 13912213);
    print_sag("the greatest that passes", &check);
    fill(check.row, 5, 500);
    fill(check.row, 9, 10000000000.0);
    fill(check.row, 10, 100000000);
    print_sag("a row that fails, office factor 500", &check);

    fill_bent(check.row, 3, 2, 25, 20, 60);
    fill_sag(check.sag, 20000, 1, 500);
    print_worked("least beam", &check, worked_pass);
    fill(check.sag, 2, 10000000000.0);
    print_sag("least beam, greatest moment", &check);
    fill_bent(check.row, 1, 1, 12, 300, 2500);
    fill_sag(check.sag, 500, 10000000000.0, 100);
    print_sag("greatest beam and moment", &check);
}

/* Each mistake is found before those that are there already. */
static void refuse_sags(void)
{
    struct sag_check check;
    uint8_t *row = check.row, *sag = check.sag, *answer = check.answer, longer[LVL_SAG_BYTES + 1] = {0};

    memset(&check, 0, sizeof check);
    fill_row_a(row);
    fill_sag(sag, 6000, 15000000, 200);
    memset(answer, 0xA5, sizeof check.answer);
    print_code("answer too short", lvl_check_sag(row, LVL_ROW_BYTES, sag, LVL_SAG_BYTES, answer, LVL_SAG_ANSWER_BYTES - 1));
    print_code("answer of a check", lvl_check_sag(row, LVL_ROW_BYTES, sag, LVL_SAG_BYTES, answer, LVL_ANSWER_BYTES));
    print_code("no answer", lvl_check_sag(row, LVL_ROW_BYTES, sag, LVL_SAG_BYTES, NULL, 0));
    print_code("sag too short", lvl_check_sag(row, LVL_ROW_BYTES, sag, LVL_SAG_BYTES - 1, answer, sizeof check.answer));
    memcpy(longer, sag, LVL_SAG_BYTES);
    print_code("sag too long", lvl_check_sag(row, LVL_ROW_BYTES, longer, sizeof longer, answer, sizeof check.answer));
    print_code("no sag", lvl_check_sag(row, LVL_ROW_BYTES, NULL, 0, answer, sizeof check.answer));
    fill(sag, 3, 501);
    print_code("n 501", call_sag(&check));
    print_code("n 501, no answer", lvl_check_sag(row, LVL_ROW_BYTES, sag, LVL_SAG_BYTES, NULL, 0));
    fill_sag(sag, 6000, 0, 200);
    print_code("moment 0", call_sag(&check));
    fill_sag(sag, 499, 15000000, 200);
    print_code("span 499", call_sag(&check));
    fill(sag, 1, 6000.5);
    print_code("span 6000.5", call_sag(&check));
    sag[0] = 0;
    print_code("no span", call_sag(&check));
    fill(sag, 1, 6000);
    sag[0] = 2;
    print_code("first byte of the span", call_sag(&check));

    fill(row, 1, 3);
    row[9 * 8] = row[9 * 9] = 0;
    fill(row, 8, 50000);
    fill(row, 11, 3000);
    fill(row, 12, 2000);
    fill(row, 13, 1);
    print_code("kind 3", call_sag(&check));
    print_code("kind 3, no sag, no answer", lvl_check_sag(row, LVL_ROW_BYTES, NULL, 0, NULL, 0));
    fill(row, 7, 59);
    print_code("height 59", call_sag(&check));
    fill(row, 3, 9);
    print_code("regime 9", call_sag(&check));
    row[9 * 7] = 0;
    print_code("no axial force", call_sag(&check));
    fill(row, 1, 6);
    print_code("kind 6", call_sag(&check));
    fill(row, 22, 0.5);
    print_code("0.5 in cell 22", call_sag(&check));
    print_code("row too short", lvl_check_sag(row, LVL_ROW_BYTES - 1, sag, LVL_SAG_BYTES, answer, sizeof check.answer));
    print_code("no row", lvl_check_sag(NULL, 0, sag, LVL_SAG_BYTES, answer, sizeof check.answer));
    print_code("nothing lent", lvl_check_sag(NULL, 0, NULL, 0, NULL, 0));
    printf("answer untouched: %u of %u\n", (unsigned)untouched(answer, sizeof check.answer, 0xA5),
           (unsigned)sizeof check.answer);
}

static void check_sags(void)
{
    judge_sags();
    refuse_sags();
}

#endif
