// Measures the stack of the library's calls: hard games, with openings of a whole board and every automatic mode, are played on a painted
// stack, and what is no longer painted was used. Prints for each board rows, columns, then in bytes mines, shown, bits, work, the position
// and the stack, with this program's own frames in it.
#define _XOPEN_SOURCE 700
#include <stdio.h>
#include <stdlib.h>
#include <string.h>
#include <ucontext.h>

#include "liftmanger.h"

#define PAINT 0xa5
static uint8_t stack[65536];
static ucontext_t outside, inside;

static int8_t mines[LM_CELLS_MAX];
static uint8_t shown[LM_CELLS_MAX];
static uint8_t bits[LM_BITS(LM_CELLS_MAX, 1)];
static uint16_t work[LM_WORK(LM_CELLS_MAX, 1)];
static uint8_t list[2 * LM_CELLS_MAX];

static uint8_t rows, columns;
static size_t cells, listed;
static lm_position position;
static uint64_t drawn = 1;

static uint32_t draw(uint32_t below)
{
    drawn = drawn * 6364136223846793005u + 1442695040888963407u;
    return (uint32_t)(drawn >> 33) % below;
}

#define LENT mines, cells, shown, cells, bits, LM_BITS(rows, columns)
#define WORK work, LM_WORK(rows, columns)

// What runs on the painted stack, from here on to `games`: calls of the library, and no others.

static uint8_t events[3 * 64];
static size_t filled;

static void event(uint8_t code, size_t cell)
{
    events[filled++] = code;
    events[filled++] = (uint8_t)(cell / columns);
    events[filled++] = (uint8_t)(cell % columns);
}

static void flow(void)
{
    position = lm_step_flow(position, events, filled, LENT, WORK).position;
    filled = 0;
}

// Every other call, once.
static void ask(void)
{
    lm_answer a = lm_resolve(position, LM_M, 0, 0, LENT);
    a = lm_step(a.position, LM_MR, 0, 0, LENT, WORK);
    a = lm_get_bbbv_solved(a.position, LENT);
    a = lm_left_to_solve(a.position, LENT, WORK);
    a = lm_step_game_state(a.position, LENT, 1);
    lm_check_position(a.position, LENT);
    lm_check_board(rows, columns, mines, cells);
    lm_total_3bv(rows, columns, mines, cells, WORK);
    lm_read_book(list, 2 * listed);
    position = lm_reset(a.position, LENT).position;
}

// With the mines of the list, in this mode: cells are drawn, and mines flagged, safe cells opened and numbers chorded; then drawn events.
static void game(uint8_t mode)
{
    lm_number_mines(rows, columns, list, 2 * listed, mines, cells);
    position = lm_setup(rows, columns, mode, 1, 1, LENT).position;
    for (size_t n = 0; n < 8 * cells && position.game != LM_WIN && position.game != LM_LOSS; n++) {
        size_t cell = draw((uint32_t)cells);
        uint8_t down = shown[cell] != LM_CLOSED ? LM_MC : mines[cell] == -1 ? LM_RC : LM_LC;
        event(down, cell);
        event((uint8_t)(down + 1), cell);
        if (n % 16 == 15)
            flow();
    }
    flow();
    ask();
    for (size_t n = 0; n < 8 * cells; n++) {
        event((uint8_t)draw(12), draw((uint32_t)cells));
        if (n % 16 == 15)
            flow();
    }
    flow();
    ask();
}

// Small boards are played more often.
static void games(void)
{
    static const uint8_t modes[] = {0, 11, 12, 13, 14, 15, 16};
    static const uint32_t mined[] = {0, 50, 8, 5}; // none, then one cell in so many
    for (size_t m = 0; m < LM_CELLS_MAX / cells * 4; m++) {
        listed = 0;
        for (size_t cell = 0; mined[m % 4] != 0 && cell < cells; cell++)
            if (draw(mined[m % 4]) == 0) {
                list[2 * listed] = (uint8_t)(cell / columns);
                list[2 * listed + 1] = (uint8_t)(cell % columns);
                listed++;
            }
        for (size_t k = 0; k < sizeof modes; k++)
            game(modes[k]);
    }
}

static size_t used(uint8_t r, uint8_t c)
{
    rows = r;
    columns = c;
    cells = LM_CELLS(r, c);
    memset(stack, PAINT, sizeof stack);
    if (getcontext(&inside) != 0)
        exit(1);
    inside.uc_stack.ss_sp = stack;
    inside.uc_stack.ss_size = sizeof stack;
    inside.uc_link = &outside;
    makecontext(&inside, games, 0);
    if (swapcontext(&outside, &inside) != 0)
        exit(1);
    size_t left = 0;
    while (left < sizeof stack && stack[left] == PAINT)
        left++;
    return sizeof stack - left;
}

int main(void)
{
    static const uint8_t boards[][2] = {{9, 9}, {16, 16}, {16, 30}, {64, 32}};
    for (size_t i = 0; i < sizeof boards / sizeof boards[0]; i++) {
        uint8_t r = boards[i][0], c = boards[i][1];
        size_t n = LM_CELLS(r, c);
        printf("%d %d %zu %zu %zu %zu %zu %zu\n", r, c, n * sizeof mines[0], n * sizeof shown[0], LM_BITS(r, c) * sizeof bits[0],
               LM_WORK(r, c) * sizeof work[0], sizeof(lm_position), used(r, c));
    }
    return 0;
}
