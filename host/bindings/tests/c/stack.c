/* How many bytes of stack each entry touches, at most, on what it judges and on what it refuses: a painted stack is looked at. */
#define _XOPEN_SOURCE 700
#include <stdio.h>
#include <ucontext.h>

#include "rows.h"

#define STACK 65536
#define PAINT 0xA5

/* Bits that are put in each cell: a subnormal, which none may hold, and 1, which some may. */
static const uint64_t put[] = {0x0000000000000001, 0x3ff0000000000000};
#define PUT (sizeof put / sizeof put[0])

static uint8_t stack[STACK], bytes[READ_MAX], lent[LENT_MAX];
static const struct trial *running;
static const uint8_t *frame;
static ucontext_t caller, callee;

/* Called as the entries are, these note their frame: the caller's frame pointer, with the return address right above. */
static uint64_t note_frame(const uint8_t *a, size_t b, uint8_t *c, size_t d)
{
    (void)a, (void)b, (void)c, (void)d;
    frame = (const uint8_t *)__builtin_frame_address(0);
    return 0;
}

static uint64_t note_frame_with_sag(const uint8_t *a, size_t b, const uint8_t *c, size_t d, uint8_t *e, size_t f)
{
    (void)a, (void)b, (void)c, (void)d, (void)e, (void)f;
    frame = (const uint8_t *)__builtin_frame_address(0);
    return 0;
}

static void run(void)
{
    call_entry(running, bytes, lent);
}

/* The bytes touched by a call, with those of the switch to the painted stack and of `run`. */
static size_t touched(const struct trial *trial)
{
    size_t i = 0;
    running = trial;
    memset(stack, PAINT, sizeof stack);
    getcontext(&callee);
    callee.uc_stack.ss_sp = stack;
    callee.uc_stack.ss_size = sizeof stack;
    callee.uc_link = &caller;
    makecontext(&callee, run, 0);
    swapcontext(&caller, &callee);
    while (i < sizeof stack && stack[i] == PAINT)
        i++;
    return sizeof stack - i;
}

/* The bytes above the return address of what is called, which is the first that a call takes. */
static size_t above_call(const struct trial *trial)
{
    struct trial noting = *trial;
    if (noting.called_with_sag != NULL)
        noting.called_with_sag = note_frame_with_sag;
    else
        noting.called = note_frame;
    touched(&noting);
    return (size_t)(stack + sizeof stack - frame) - 2 * sizeof(void *);
}

static size_t most(const struct trial *trial)
{
    size_t sample, place, i, above = above_call(trial), greatest = 0;
    for (sample = 0; sample < trial->samples; sample++)
        for (place = 0; place <= trial->cells; place++)
            for (i = 0; i < PUT; i++) {
                size_t got;
                fill_sample(trial, bytes, sample);
                if (place > 0)
                    fill_bits(bytes, place, put[i]);
                got = touched(trial) - above;
                greatest = got > greatest ? got : greatest;
            }
    return greatest;
}

int main(void)
{
    size_t i;
    for (i = 0; i < TRIALS; i++)
        printf("%s %u\n", trials[i].name, (unsigned)most(&trials[i]));
    return 0;
}
