// The button board: it sends real presses and releases, so it calls setup and the plain step and nothing else. Linked with --gc-sections it
// carries no resolving and no row of events (examples/memory has its size). Document 01's 3 x 3 with a mine at (2, 2) is opened at its first cell;
// the status is 1 if a number is not what it must be.
#include <stdio.h>

#include "liftmanger.h"

static const int8_t mines[] = {0, 0, 0, 0, 1, 1, 0, 1, -1};
static uint8_t shown[LM_CELLS(3, 3)];
static uint8_t bits[LM_BITS(3, 3)];
static uint16_t work[LM_WORK(3, 3)];

static lm_position position;
static int wrong;

static void button(uint8_t code, unsigned answer, unsigned opened)
{
    lm_answer a = lm_step(position, code, 0, 0, mines, sizeof mines, shown, sizeof shown, bits, sizeof bits, work, LM_WORK(3, 3));
    position = a.position;
    if (a.number != answer || a.value != opened) {
        fprintf(stderr, "code %d: %d and %u, not %u and %u\n", code, a.number, (unsigned)a.value, answer, opened);
        wrong = 1;
    }
}

int main(void)
{
    position = lm_setup(3, 3, 0, 0, 1, mines, sizeof mines, shown, sizeof shown, bits, sizeof bits).position;
    button(LM_L, LM_BAD_EVENT, 0); // no press and no release: unknown here
    button(LM_LC, LM_NOTHING, 0);
    button(LM_LR, LM_OPENED, 8);
    button(LM_L, LM_NOTHING, 0); // after the end every code is accepted
    if (position.game != LM_WIN || position.events != 3)
        wrong = 1;
    printf("button board: %d events\n", (int)position.events);
    return wrong;
}
