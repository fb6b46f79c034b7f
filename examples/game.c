// Plays through the library from C: a book's game that is won, printed as document 01 prints it, a game that is lost, with the buzzer's ticks, a
// button by the league's rules 1 and 2, a board that was typed wrong, and what is refused. Every number that comes back is held to what it must be;
// the status is 1 if one is not.
#include <stdio.h>
#include <stdlib.h>
#include <string.h>

#include "liftmanger.h"

static void expect(const char *what, unsigned long got, unsigned long wanted)
{
    if (got != wanted) {
        fprintf(stderr, "%s: %lu, not %lu\n", what, got, wanted);
        exit(1);
    }
}

// A number without a place.
static void expect_number(const char *what, lm_value got, unsigned long wanted)
{
    expect(what, got.number, wanted);
    expect(what, got.row == LM_NOWHERE && got.column == LM_NOWHERE, 1);
}

static void expect_position(const char *what, lm_position got, lm_position wanted)
{
    expect(what, memcmp(&got, &wanted, sizeof got) != 0, 0);
}

// The lent memory of one game. A console has one of these, static, and one core that steps on it.
#define ROOM 16
static int8_t mines[ROOM];
static uint8_t shown[ROOM];
static uint8_t bits[LM_BITS(ROOM, 1)];
static uint16_t work[LM_WORK(ROOM, 1)];

// What the calls are lent, by the settings of a position.
#define MINES(p) mines, LM_CELLS((p).rows, (p).columns)
#define SHOWN(p) shown, LM_CELLS((p).rows, (p).columns)
#define BITS(p) bits, LM_BITS((p).rows, (p).columns)
#define WORK(p) work, LM_WORK((p).rows, (p).columns)

static lm_answer step(lm_position p, uint8_t code, uint8_t row, uint8_t column)
{
    return lm_step(p, code, row, column, MINES(p), SHOWN(p), BITS(p), WORK(p));
}

// An event as a book may have it, LM_L, LM_R and LM_M too: it is resolved, and the plain code stepped with.
static lm_answer event(lm_position p, uint8_t code, uint8_t row, uint8_t column)
{
    lm_answer a = lm_resolve(p, code, row, column, MINES(p), SHOWN(p), BITS(p));
    if (a.number != LM_NOTHING) return a;
    return step(a.position, (uint8_t)a.value, row, column);
}

static lm_position begin(uint8_t rows, uint8_t columns, uint8_t rules, const uint8_t *list, size_t length)
{
    expect("numbering", lm_number_mines(rows, columns, list, length, mines, LM_CELLS(rows, columns)), LM_NOTHING);
    expect_number("the board", lm_check_board(rows, columns, mines, LM_CELLS(rows, columns)), LM_NOTHING);
    lm_answer a = lm_setup(rows, columns, 0, 0, rules, mines, LM_CELLS(rows, columns), shown, LM_CELLS(rows, columns), bits, LM_BITS(rows, columns));
    expect("setup", a.number, LM_NOTHING);
    return a.position;
}

// The buzzer: one tick for each cell that the event opened.
static void buzz(lm_answer a)
{
    for (uint32_t n = 0; n < a.value; n++)
        printf(n == 0 ? "tick" : " tick");
    if (a.value > 0) printf("\n");
}

// The shown board. A display is handed this, the states and the counts; a secret only once the game is over.
static void print_shown(lm_position p)
{
    for (size_t row = 0; row < p.rows; row++) {
        for (size_t column = 0; column < p.columns; column++)
            printf(column == 0 ? "%d" : " %d", shown[row * p.columns + column]);
        printf("\n");
    }
}

static void expect_shown(lm_position p, const uint8_t *wanted)
{
    expect("the shown board", memcmp(shown, wanted, LM_CELLS(p.rows, p.columns)) != 0, 0);
}

// Document 01's book: 1 x 3, a mine in the middle; open, flag, open. Printed as `replay` prints it.
static void won(void)
{
    static const uint8_t book[] = {4, 1, 3, 0, 0, 1, 0, 0, 1, 6, 0, 0, 0, 0, 1, 0, 0, 2, 0, 1, 3, 0, 1, 0, 0, 2, 1, 0, 2};
    static const uint8_t wanted[] = {1, LM_FLAG, 1};
    lm_book b = lm_read_book(book, sizeof book);
    expect("the book", b.number, LM_NOTHING);
    expect("its mines", b.mines, 1);
    expect("its events", b.events, 6);
    expect("its rules", b.rules, 1);
    lm_position p = begin(b.rows, b.columns, b.rules, book + b.mines_at, 2 * b.mines);
    lm_position fresh = p;
    printf("game %d %d %d %d\n", p.rows, p.columns, p.mode, p.question);
    for (size_t n = 0; n < b.events; n++) {
        const uint8_t *e = book + b.events_at + 3 * n;
        lm_answer a = event(p, e[0], e[1], e[2]);
        p = a.position;
        printf("%zu %u %d %d\n", n + 1, a.number, p.game, p.mouse);
    }
    expect("the game", p.game, LM_WIN);
    printf("counts %u %u %u %u %u %u %u %u %u\n", p.left, p.right, p.doubles, p.lce, p.rce, p.dce, p.flag, p.solved_left, p.solved_chord);
    lm_value total = lm_total_3bv(p.rows, p.columns, MINES(p), WORK(p));
    expect("the total", total.number, LM_NOTHING);
    lm_answer left = lm_left_to_solve(p, MINES(p), SHOWN(p), BITS(p), WORK(p));
    expect("left to solve", left.number, LM_NOTHING);
    printf("bv %u %u\n", total.value, left.value);
    print_shown(p);
    expect_shown(p, wanted);
    lm_answer solved = lm_get_bbbv_solved(p, MINES(p), SHOWN(p), BITS(p));
    expect("solved", solved.value, 2);

    // The same game in one call.
    lm_answer a = lm_reset(p, MINES(p), SHOWN(p), BITS(p));
    expect_position("the position after reset", a.position, fresh);
    a = lm_step_flow(a.position, book + b.events_at, 3 * b.events, MINES(p), SHOWN(p), BITS(p), WORK(p));
    expect("the whole book", a.number, LM_NOTHING);
    expect_position("the position after the whole book", a.position, p);
    expect_shown(p, wanted);
}

// Document 01's 3 x 3 with a mine at (2, 2): a wrong flag and a chord.
static void lost(void)
{
    static const uint8_t mine[] = {2, 2};
    static const uint8_t wanted[] = {0, 0, 0, 0, 1, 1, LM_WRONG_FLAG, 1, LM_MINE_HIT};
    lm_position p = begin(3, 3, 1, mine, sizeof mine);
    p = step(p, LM_LC, 1, 1).position;
    lm_answer a = step(p, LM_LR, 1, 1);
    expect("an opening", a.number, LM_OPENED);
    buzz(a);
    p = step(a.position, LM_RC, 2, 0).position;
    p = step(p, LM_RR, 2, 0).position;
    a = step(p, LM_MR, 1, 1);
    expect("a chord on a mine", a.number, LM_HIT);
    expect("its safe cells", a.value, 6);
    buzz(a);
    p = a.position;
    expect("the game", p.game, LM_LOSS);
    expect("solved by chords", p.solved_chord, 1);
    lm_answer left = lm_left_to_solve(p, MINES(p), SHOWN(p), BITS(p), WORK(p));
    expect("left to solve, for the 0 under the wrong flag", left.value, 1);
    print_shown(p);
    expect_shown(p, wanted);
}

// A book that says its rules: 1 x 3, a mine at (0, 0); open (0, 1), a right press on it, and then `r`, by rules 2 a release. In one call, and event by
// event.
static void released(void)
{
    static const uint8_t book[] = {5, 1, 3, 0, 0, 2, 1, 0, 0, 0, 4, 0, LM_LC, 0, 1, LM_LR, 0, 1, LM_RC, 0, 1, LM_R, 0, 1};
    lm_book b = lm_read_book(book, sizeof book);
    expect("the book", b.number, LM_NOTHING);
    expect("its rules", b.rules, 2);
    expect("where its mines stand", b.mines_at, 8);
    for (uint8_t rules = 1; rules <= 2; rules++) {
        lm_position p = begin(b.rows, b.columns, rules, book + b.mines_at, 2 * b.mines);
        lm_answer a = lm_step_flow(p, book + b.events_at, 3 * b.events, MINES(p), SHOWN(p), BITS(p), WORK(p));
        expect("its events", a.number, LM_NOTHING);
        expect("the mouse", a.position.mouse, rules == 2 ? LM_UP_UP : LM_UP_DOWN_NOT_FLAG);
        expect("the rules", a.position.rules, rules);
        lm_position played = a.position;
        a = lm_reset(a.position, MINES(p), SHOWN(p), BITS(p));
        expect_position("the position after reset", a.position, p);
        for (size_t n = 0; n < b.events; n++) {
            const uint8_t *e = book + b.events_at + 3 * n;
            a = event(a.position, e[0], e[1], e[2]);
            expect("an event by itself", a.number < LM_BAD_SIZE, 1);
        }
        expect_position("the position after the same events by themselves", a.position, played);
    }
}

// A board that was typed by hand, with one wrong number: the check says which cell.
static void typed(void)
{
    static const int8_t board[] = {0, 0, 0, 0, 2, 1, 0, 1, -1};
    lm_value v = lm_check_board(3, 3, board, sizeof board);
    expect("a wrong number", v.number, LM_BAD_COUNT);
    printf("refused %d: the number in row %d, column %d\n", v.number, v.row, v.column);
    expect("its row", v.row, 1);
    expect("its column", v.column, 1);
    lm_answer a = lm_setup(3, 3, 0, 0, 1, board, sizeof board, shown, LM_CELLS(3, 3), bits, LM_BITS(3, 3));
    expect("setup with it", a.number, LM_BAD_COUNT);
    expect("its row", a.row, 1);
    expect("its column", a.column, 1);
}

// What is refused comes back as it was given, and nothing is written.
static void refused(void)
{
    static const uint8_t mine[] = {2, 2};
    static const uint8_t closed[] = {10, 10, 10, 10, 10, 10, 10, 10, 10};
    lm_position p = begin(3, 3, 1, mine, sizeof mine);
    memset(work, 0xa5, sizeof work);

    lm_position odd = p;
    odd.game = 9;
    expect_number("a game state that means nothing", lm_check_position(odd, MINES(p), SHOWN(p), BITS(p)), LM_UNLAWFUL_STATE);
    lm_answer a = step(odd, LM_LC, 1, 1);
    expect("a step on it", a.number, LM_UNLAWFUL_STATE);
    expect_position("the position of a refused step", a.position, odd);
    expect("the value of a refused step", a.value, 0);
    odd.rows = 65;
    a = lm_step(odd, LM_LC, 1, 1, MINES(p), SHOWN(p), BITS(p), WORK(p));
    expect("a bad size comes first", a.number, LM_BAD_SIZE);
    expect_position("the position of a bad size", a.position, odd);
    odd = p;
    odd.middle = 255;
    a = lm_step_game_state(odd, MINES(p), SHOWN(p), BITS(p), 1);
    expect("a middle button that means nothing", a.number, LM_UNLAWFUL_STATE);
    expect_position("the position of a refused game event", a.position, odd);
    a = lm_reset(odd, MINES(p), SHOWN(p), BITS(p));
    expect("reset takes an unlawful position", a.number, LM_NOTHING);
    expect_position("the position after reset", a.position, p);

    a = lm_step(p, LM_LC, 1, 1, MINES(p), SHOWN(p), BITS(p), work, LM_WORK(3, 3) - 1);
    expect("little work", a.number, LM_BAD_LENGTH);
    a = step(p, LM_LC, 0, 3);
    expect("a pointer that is no cell", a.number, LM_BAD_POINTER);
    a = step(p, 12, 0, 0);
    expect("an unknown code", a.number, LM_BAD_EVENT);
    expect_position("the position of an unknown code", a.position, p);
    expect_shown(p, closed);
    for (size_t i = 0; i < sizeof work / sizeof work[0]; i++)
        expect("work after refusals", work[i], 0xa5a5);
    lm_book b = lm_read_book(mine, sizeof mine);
    expect("no book", b.number, LM_BAD_SETTINGS);
    expect("its place", b.place, 0);

    a = lm_step_game_state(p, MINES(p), SHOWN(p), BITS(p), 1);
    expect("fail", a.number, LM_NOTHING);
    expect("the game after it", a.position.game, LM_LOSS);
}

int main(void)
{
    won();
    lost();
    released();
    typed();
    refused();
    return 0;
}
