// A console of the no-flag class, over its own archive: the request's games, forbidden codes in every place of the order, modes, and books. The status
// is 1 if a number is not what it must be.
#include <stdio.h>

#include "liftmanger_noflag.h"

static const int8_t square[] = {-1, 1, 1, 1}; // 2 x 2, a mine at (0, 0)
static const int8_t lone[] = {0};             // 1 x 1, safe

static const int8_t *mines;
static size_t cells;
static uint8_t shown[LM_CELLS(2, 2)];
static uint8_t bits[LM_BITS(2, 2)];
static uint16_t work[LM_WORK(2, 2)];

static lm_position position;
static int tried, wrong;

static void is(const char *what, unsigned got, unsigned wanted)
{
    tried++;
    if (got != wanted) {
        fprintf(stderr, "%s: %u, not %u\n", what, got, wanted);
        wrong = 1;
    }
}

static void setup(const int8_t *board, uint8_t side, uint8_t mode, uint8_t rules, unsigned answer)
{
    mines = board;
    cells = LM_CELLS(side, side);
    lm_answer a = lm_noflag_setup(side, side, mode, 1, rules, mines, cells, shown, cells, bits, 1);
    position = a.position;
    is("setup", a.number, answer);
}

// a code at (row, column): its answer, and how many cells it opened
static void step(uint8_t code, uint8_t row, uint8_t column, unsigned answer, unsigned opened)
{
    lm_answer a = lm_noflag_step(position, code, row, column, mines, cells, shown, cells, bits, 1, work, 8 * cells + 8);
    is("step", a.number, answer);
    is("opened", a.value, opened);
    if (a.number >= 20) // a refusal gives the position back
        is("events", a.position.events, position.events);
    position = a.position;
}

static void book(const uint8_t *bytes, size_t length, unsigned answer, unsigned place)
{
    lm_book b = lm_noflag_read_book(bytes, length);
    is("book", b.number, answer);
    is("place", (unsigned)b.place, place);
}

int main(void)
{
    static const uint8_t forbidden[] = {LM_RC, LM_RR, LM_R, LM_CC, LM_PF};

    // l l m m r on (1, 1): the middle button chords and opens nothing
    setup(square, 2, 0, 1, 0);
    step(LM_L, 1, 1, LM_NOTHING, 0);
    step(LM_L, 1, 1, LM_OPENED, 1);
    step(LM_M, 1, 1, LM_NOTHING, 0);
    is("middle", position.middle, 1);
    step(LM_M, 1, 1, LM_NOTHING, 0);
    step(LM_R, 1, 1, LM_FORBIDDEN, 0);
    is("left", position.left, 1);
    is("right", position.right, 0);
    is("double", position.doubles, 1);
    is("lce", position.lce, 1);
    is("unopened", position.unopened, 2);
    is("shown", shown[3], 1);

    // a position of another mode, and one whose flag count is wrong too; a forbidden code there
    position.mode = 1;
    step(LM_LC, 0, 1, LM_BAD_MODE, 0);
    position.flag = 1;
    step(LM_RC, 0, 1, LM_BAD_MODE, 0);
    position.mode = 0;
    step(LM_RC, 0, 1, LM_UNLAWFUL_COUNT, 0);
    position.flag = 0;

    // reset, and every forbidden code in Ready; neither a cell nor off the board is 30 first
    position = lm_noflag_reset(position, mines, cells, shown, cells, bits, 1).position;
    is("ready", position.game, LM_READY);
    for (size_t i = 0; i < sizeof forbidden; i++) {
        step(forbidden[i], 0, 0, LM_FORBIDDEN, 0);
        step(forbidden[i], 2, 2, LM_FORBIDDEN, 0);
        step(forbidden[i], 0, 2, LM_BAD_POINTER, 0);
    }
    step(12, 0, 0, LM_BAD_EVENT, 0);
    step(200, 0, 0, LM_BAD_EVENT, 0);

    // 1 x 1: won by its first cell, and every forbidden code is refused after the end, where an unknown one is accepted
    setup(lone, 1, 0, 2, 0);
    step(LM_R, 0, 1, LM_BAD_POINTER, 0);
    step(LM_LC, 0, 0, LM_NOTHING, 0);
    step(LM_LR, 0, 0, LM_OPENED, 1);
    is("won", position.game, LM_WIN);
    for (size_t i = 0; i < sizeof forbidden; i++)
        step(forbidden[i], 0, 0, LM_FORBIDDEN, 0);
    step(200, 0, 0, LM_NOTHING, 0);

    // 25 unless the mode is 0, before 45
    setup(lone, 1, 1, 9, LM_BAD_MODE);
    setup(lone, 1, 13, 1, LM_BAD_MODE);
    setup(lone, 1, 0, 9, LM_BAD_RULES);
    book((const uint8_t[]){5, 2, 2, 1, 0, 9, 0, 0, 0, 0}, 10, LM_BAD_MODE, 3);
    book((const uint8_t[]){5, 2, 2, 0, 0, 9, 0, 0, 0, 0}, 10, LM_BAD_RULES, 5);
    book((const uint8_t[]){4, 1, 1, 0, 0, 0, 0, 1, 0, LM_PF, 0, 0}, 12, 0, 0);

    printf("no-flag class: %d numbers as they must be\n", tried);
    return wrong;
}
