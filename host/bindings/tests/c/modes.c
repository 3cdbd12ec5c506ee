/*
 * Each entry in every floating-point mode: flush to zero, denormals are zero, the four ways to round, exceptions masked and
 * not. It answers as it does in the default mode, and there a cell that is no whole number is refused as the header says. The
 * one case that the header excepts is tried as well: it traps.
 */
#define _POSIX_C_SOURCE 200809L
#include <setjmp.h>
#include <signal.h>
#include <stdio.h>
#include <xmmintrin.h>

#include "rows.h"

#define FLUSH_TO_ZERO 0x8000u
#define DENORMALS_ARE_ZERO 0x0040u
#define ROUNDINGS 0x2000u
#define DENORMAL_MASK 0x0100u
#define MASKS 0x1f80u
#define DEFAULT MASKS
#define FLAGS 0x003fu
#define DENORMAL_FLAG 0x0002u

/* Bits of floats. The first are subnormals, then come the others that no cell may hold, then those that one may. */
static const uint64_t numbers[] = {
    0x0000000000000001, 0x0008000000000000, 0x000fffffffffffff, 0x8000000000000001, 0x8008000000000000,
    0x800fffffffffffff, /* subnormals */
    0x0010000000000000, 0x8010000000000000, 0x3fe0000000000000, 0xbff0000000000000, 0x4028800000000000,
    0x4210000000000000, 0x7fefffffffffffff, 0xffefffffffffffff, /* the least normal, ±; 0.5; -1; 12.25; 2^34; the greatest, ± */
    0x7ff0000000000000, 0xfff0000000000000, 0x7ff8000000000000, 0xfff8000000000000, 0x7ff0000000000001,
    0xfff0000000000001, /* infinities, quiet and signalling NaNs */
    0x0000000000000000, 0x8000000000000000, 0x3ff0000000000000, 0x420fffffffe00000, /* 0, -0, 1, 2^34 - 1 */
};
#define SUBNORMALS 6
#define UNREADABLE 20
#define NUMBERS (sizeof numbers / sizeof numbers[0])

struct answer {
    uint64_t code;
    uint8_t lent[LENT_MAX];
};

/* Exception flags that calls have set. */
static unsigned flags;

static struct answer call(const struct trial *trial, const uint8_t *bytes, unsigned mode)
{
    struct answer got;
    memset(&got, 0xA5, sizeof got);
    _mm_setcsr(mode);
    got.code = call_entry(trial, bytes, got.lent);
    flags |= _mm_getcsr() & FLAGS;
    _mm_setcsr(DEFAULT);
    return got;
}

static unsigned long calls, different, not_refused, trapped;

/* Whether a call with the denormal exception unmasked, and denormals not zero, ends in the signal of that trap. */
static sigjmp_buf before;

static void on_trap(int signal)
{
    (void)signal;
    siglongjmp(before, 1);
}

static int traps(const struct trial *trial, const uint8_t *bytes)
{
    if (sigsetjmp(before, 1) == 0) {
        call(trial, bytes, MASKS & ~DENORMAL_MASK);
        return 0;
    }
    _mm_setcsr(DEFAULT);
    return 1;
}

/*
 * A call in every mode but those that the header excepts: a trap on subnormals, where they are not zero and a cell has one. It
 * gives the code of the default mode.
 */
static uint64_t in_every_mode(const struct trial *trial, const uint8_t *bytes, int subnormal)
{
    struct answer usual = call(trial, bytes, DEFAULT);
    unsigned flush, denormals, rounding, trap;
    for (flush = 0; flush <= 1; flush++)
        for (denormals = 0; denormals <= 1; denormals++)
            for (rounding = 0; rounding <= 3; rounding++)
                for (trap = 0; trap <= 2; trap++) {
                    int excepted = subnormal && !denormals;
                    unsigned masks = trap == 0 ? MASKS : trap == 1 || excepted ? DENORMAL_MASK : 0;
                    struct answer got = call(trial, bytes, masks | flush * FLUSH_TO_ZERO | denormals * DENORMALS_ARE_ZERO
                                                               | rounding * ROUNDINGS);
                    calls++;
                    different += memcmp(&got, &usual, sizeof got) != 0;
                }
    return usual.code;
}

/*
 * The refusal for an unreadable cell, given the code without it. A floor beam's loads and span have one of their own, its other
 * cells a row's numbers. So do a sag's cells, and they come last: what refuses the row or them without it still does.
 */
static uint64_t refusal(const struct trial *trial, size_t place, uint64_t without)
{
    static const uint64_t of_beam[LVL_BEAM_CELLS] = {0, 0, 0, 2, 4, 5, 6, 7};
    uint64_t cell = trial->called == lvl_check_floor_beam ? of_beam[place - 1] : place;
    if (trial->called_with_sag != NULL && place > LVL_CELLS)
        return without < LVL_REFUSAL ? LVL_REFUSAL * LVL_SAG_INPUT : without;
    return LVL_REFUSAL * (cell == 0 ? LVL_LOADING : LVL_UNREADABLE) + cell;
}

static void expect(const struct trial *trial, const uint8_t *bytes, size_t place, uint64_t without)
{
    not_refused += call(trial, bytes, DEFAULT).code != refusal(trial, place, without);
}

/* Bits in each cell of each sample, then in all cells at once. */
static void try_bits(const struct trial *trial, size_t i)
{
    uint8_t bytes[READ_MAX];
    size_t sample, place;
    for (sample = 0; sample < trial->samples; sample++)
        for (place = 1; place <= trial->cells; place++) {
            uint64_t without;
            fill_sample(trial, bytes, sample);
            without = in_every_mode(trial, bytes, 0);
            fill_bits(bytes, place, numbers[i]);
            in_every_mode(trial, bytes, i < SUBNORMALS);
            trapped += traps(trial, bytes);
            if (i < UNREADABLE)
                expect(trial, bytes, place, without);
        }
    for (place = 1; place <= trial->cells; place++)
        fill_bits(bytes, place, numbers[i]);
    in_every_mode(trial, bytes, i < SUBNORMALS);
    if (i < UNREADABLE)
        expect(trial, bytes, 1, 0);
}

int main(void)
{
    size_t i, j;
    struct sigaction action;
    memset(&action, 0, sizeof action);
    action.sa_handler = on_trap;
    sigaction(SIGFPE, &action, NULL);
    for (i = 0; i < TRIALS; i++)
        for (j = 0; j < NUMBERS; j++)
            try_bits(&trials[i], j);
    printf("%lu calls, %lu differ, %lu not refused, %lu trapped, flags but the denormal one: %u\n", calls, different,
           not_refused, trapped, flags & ~DENORMAL_FLAG);
    return 0;
}
