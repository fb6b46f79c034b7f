// The refusals 20 to 264 and 45 and their places from C: each case of the table has its faults, and is held to its number and its place. Then what
// resolving and the plain step answer to `l`, `r` and `m`. The status is 1 if one is another.
#include <stdio.h>
#include <string.h>

#include "liftmanger.h"

#define ROOM (3 * 65)

// Document 01's 3 x 3 with a mine at (2, 2), every cell closed, in Ready; what a case changes of it is wrong.
static int8_t mines[ROOM];
static uint8_t shown[ROOM];
static uint8_t bits[2];
static uint16_t work[LM_WORK(ROOM, 1)];
static size_t cells, bytes;
static lm_position p;

static int wrong;
static unsigned cases;

static void good(void)
{
    static const int8_t board[] = {0, 0, 0, 0, 1, 1, 0, 1, -1};
    memset(mines, 0, sizeof mines);
    memcpy(mines, board, sizeof board);
    memset(shown, LM_CLOSED, sizeof shown);
    memset(bits, 0, sizeof bits);
    memset(&p, 0, sizeof p);
    p.rows = 3;
    p.columns = 3;
    p.rules = 1;
    p.unopened = 8;
    cells = 9;
    bytes = 2;
}

static void hold(const char *call, const char *what, lm_value got, int number, int row, int column)
{
    cases++;
    if (got.number != number || got.row != row || got.column != column || got.value != 0) {
        fprintf(stderr, "%s, %s: %d at %d %d, not %d at %d %d\n", what, call, got.number, got.row, got.column, number, row, column);
        wrong = 1;
    }
}

static lm_value told(lm_answer a)
{
    lm_value v = {a.number, a.row, a.column, a.value};
    return v;
}

// Every call on a position refuses alike, gives all of it back and writes nothing; a step that is not refused is left to the games.
static void position(const char *what, int number, int row, int column)
{
    static const uint8_t no_events[1];
    lm_position given = p;
    uint8_t shown_given[sizeof shown], bits_given[sizeof bits];
    memcpy(shown_given, shown, sizeof shown);
    memcpy(bits_given, bits, sizeof bits);
    hold("lm_check_position", what, lm_check_position(p, mines, cells, shown, cells, bits, bytes), number, row, column);
    lm_answer a[6];
    size_t n = 0;
    a[n++] = lm_get_bbbv_solved(p, mines, cells, shown, cells, bits, bytes);
    if (number != 0) {
        a[n++] = lm_resolve(p, LM_M, 0, 0, mines, cells, shown, cells, bits, bytes);
        a[n++] = lm_step(p, LM_MV, 0, 0, mines, cells, shown, cells, bits, bytes, work, LM_WORK(p.rows, p.columns));
        a[n++] = lm_step_flow(p, no_events, 0, mines, cells, shown, cells, bits, bytes, work, LM_WORK(p.rows, p.columns));
        a[n++] = lm_step_game_state(p, mines, cells, shown, cells, bits, bytes, 1);
        a[n++] = lm_left_to_solve(p, mines, cells, shown, cells, bits, bytes, work, LM_WORK(p.rows, p.columns));
    }
    for (size_t i = 0; i < n; i++) {
        hold("another call", what, told(a[i]), number, row, column);
        if (memcmp(&a[i].position, &given, sizeof given) != 0 || memcmp(shown, shown_given, sizeof shown) != 0 || memcmp(bits, bits_given, sizeof bits) != 0) {
            fprintf(stderr, "%s: not all is given back\n", what);
            wrong = 1;
        }
    }
    good();
}

// Setup and reset refuse alike; a refused reset gives all of the position back.
static void setup(const char *what, int number, int row, int column)
{
    hold("lm_setup", what, told(lm_setup(p.rows, p.columns, p.mode, 0, p.rules, mines, cells, shown, cells, bits, bytes)), number, row, column);
    lm_answer a = lm_reset(p, mines, cells, shown, cells, bits, bytes);
    hold("lm_reset", what, told(a), number, row, column);
    if (number != 0 && memcmp(&a.position, &p, sizeof p) != 0) {
        fprintf(stderr, "%s: a refused reset does not give all back\n", what);
        wrong = 1;
    }
}

// The board's own faults: the board check has them too, and so has setup, but for the mode.
static void board(const char *what, int number, int row, int column)
{
    hold("lm_check_board", what, lm_check_board(p.rows, p.columns, mines, cells), number, row, column);
    setup(what, number, row, column);
    position(what, number, row, column);
}

static void none(const char *what, int number)
{
    position(what, number, LM_NOWHERE, LM_NOWHERE);
}

static void same(const char *what, const char *of, unsigned long got, unsigned long wanted)
{
    cases++;
    if (got != wanted) {
        fprintf(stderr, "%s: %s %lu, not %lu\n", what, of, got, wanted);
        wrong = 1;
    }
}

// What resolving answers, with its value and the middle flag; nothing else of the position differs.
static void resolves(const char *what, uint8_t code, uint8_t row, uint8_t column, int number, unsigned value, uint8_t middle)
{
    lm_answer a = lm_resolve(p, code, row, column, mines, cells, shown, cells, bits, bytes);
    same(what, "resolved with", a.number, (unsigned)number);
    same(what, "a place", a.row == LM_NOWHERE && a.column == LM_NOWHERE, 1);
    same(what, "the value", a.value, value);
    p.middle = middle;
    same(what, "another position", memcmp(&a.position, &p, sizeof p) != 0, 0);
    good();
}

// What the plain step answers; where it accepts, it counts one event, and nothing else of the position differs.
static void steps(const char *what, uint8_t code, int number)
{
    lm_answer a = lm_step(p, code, 0, 0, mines, cells, shown, cells, bits, bytes, work, LM_WORK(3, 3));
    same(what, "stepped with", a.number, (unsigned)number);
    same(what, "the value", a.value, 0);
    p.events += number == 0;
    same(what, "another position", memcmp(&a.position, &p, sizeof p) != 0, 0);
}

static void resolving(void)
{
    resolves("l", LM_L, 0, 0, 0, LM_LC, 0);
    p.mouse = LM_DOWN_UP;
    resolves("l in DownUp", LM_L, 0, 0, 0, LM_LR, 0);
    resolves("m", LM_M, 0, 0, 0, LM_MC, 1);
    p.middle = 1;
    resolves("m, the middle button down", LM_M, 0, 0, 0, LM_MR, 0);
    p.game = LM_LOSS;
    resolves("m in Loss", LM_M, 0, 0, 0, LM_MC, 1);
    p.game = LM_LOSS;
    p.middle = 1;
    resolves("m in Loss, the middle button down", LM_M, 0, 0, 0, LM_MR, 0);
    resolves("m at (0,3)", LM_M, 0, 3, LM_BAD_POINTER, 0, 0);
    p.middle = 1;
    resolves("m at (0,3), the middle button down", LM_M, 0, 3, LM_BAD_POINTER, 0, 1);
    resolves("m at (3,3)", LM_M, 3, 3, 0, LM_MC, 1);
    p.events = LM_EVENTS_MAX;
    resolves("m after 65,535 events", LM_M, 0, 0, LM_TOO_MANY_EVENTS, 0, 0);
    for (uint8_t rules = 1; rules <= 2; rules++) {
        p.game = LM_PLAYING;
        p.mouse = LM_UP_DOWN_NOT_FLAG;
        p.right = p.events = 1;
        p.rules = rules;
        resolves("r in UpDownNotFlag by rules 1 and 2", LM_R, 0, 0, 0, rules == 1 ? LM_RC : LM_RR, 0);
    }
    for (unsigned code = 0; code <= 255; code++)
        if (code < LM_L || code > LM_M) {
            p.middle = 1;
            resolves("a code that is not resolved", (uint8_t)code, 0, 0, 0, code, 1);
        }
}

static void plain(void)
{
    for (uint8_t code = LM_L; code <= LM_M; code++) {
        steps("l, r and m in Ready", code, LM_BAD_EVENT);
        p.game = LM_PRE_FLAGING;
        steps("l, r and m in PreFlaging", code, LM_BAD_EVENT);
        p.game = LM_PLAYING;
        steps("l, r and m in Playing", code, LM_BAD_EVENT);
        p.game = LM_LOSS;
        steps("l, r and m in Loss", code, 0);
        p.game = LM_WIN;
        p.unopened = 0;
        p.middle = 1;
        for (size_t i = 0; i < 8; i++)
            shown[i] = (uint8_t)mines[i];
        steps("l, r and m in Win", code, 0);
        good();
    }
}

// With too little work resolving accepts, and `m` flips; the step then answers 21 and gives that position back.
static void little_work(void)
{
    lm_position flipped = lm_resolve(p, LM_M, 0, 0, mines, cells, shown, cells, bits, bytes).position;
    lm_answer a = lm_step(flipped, LM_MC, 0, 0, mines, cells, shown, cells, bits, bytes, work, LM_WORK(3, 3) - 1);
    same("m with little work", "stepped with", a.number, LM_BAD_LENGTH);
    same("m with little work", "the middle flag", a.position.middle, 1);
    same("m with little work", "another position", memcmp(&a.position, &flipped, sizeof flipped) != 0, 0);
}

int main(void)
{
    good();
    none("as it is", 0);

    mines[4] = 2;
    board("(1,1) is 2", LM_BAD_COUNT, 1, 1);
    mines[4] = 2;
    p.mode = 6;
    board("(1,1) is 2 and the mode 6", LM_BAD_COUNT, 1, 1);
    mines[0] = 1;
    mines[5] = 9;
    board("(0,0) is 1 and (1,2) is 9", LM_BAD_VALUE, 1, 2);
    mines[7] = -2;
    mines[8] = 9;
    board("(2,1) is -2 and (2,2) is 9", LM_BAD_VALUE, 2, 1);
    p.rows = 1;
    p.columns = 2;
    mines[0] = mines[1] = -1;
    cells = 2;
    bytes = 1;
    board("1 x 2 with two mines", LM_NO_SAFE_CELL, LM_NOWHERE, LM_NOWHERE);
    p.columns = 65;
    cells = 195;
    board("3 x 65", LM_BAD_SIZE, LM_NOWHERE, LM_NOWHERE);
    bytes = 1;
    none("bits of 1 byte", LM_BAD_LENGTH);

    for (int fault = 0; fault < 4; fault++) {
        static const char *const what[] = {"12, a bit, 5 flags, mouse 2", "a bit, 5 flags, mouse 2", "5 flags, mouse 2", "mouse 2"};
        if (fault < 1) shown[0] = 12;
        if (fault < 2) bits[0] = 1;
        if (fault < 3) p.flag = 5;
        p.mouse = LM_UP_DOWN_NOT_FLAG;
        none(what[fault], LM_UNLAWFUL_SHOWN + fault);
    }
    p.unopened = 7;
    none("7 safe cells not open, of 8", LM_UNLAWFUL_COUNT);
    p.unopened = 9;
    none("9 safe cells not open, of 8", LM_UNLAWFUL_COUNT);
    p.unopened = 7;
    p.mouse = LM_UP_DOWN_NOT_FLAG;
    none("7 safe cells not open, mouse 2", LM_UNLAWFUL_COUNT);
    bits[1] = 128;
    none("bit 15", LM_UNLAWFUL_BITS);
    shown[0] = LM_QUESTION;
    none("17 with questions off", LM_UNLAWFUL_SHOWN);
    shown[0] = LM_QUESTION;
    p.question = 1;
    p.game = LM_PRE_FLAGING;
    none("17 with questions on, in PreFlaging", 0);
    shown[8] = LM_MINE_HIT;
    p.game = LM_PLAYING;
    none("15 in Playing", LM_UNLAWFUL_SHOWN);
    shown[8] = LM_MINE_HIT;
    p.game = LM_LOSS;
    none("15 in Loss", 0);
    shown[0] = LM_WRONG_FLAG;
    p.game = LM_LOSS;
    p.flag = 1;
    none("14 without a 15", LM_UNLAWFUL_SHOWN);
    shown[0] = LM_FLAG;
    p.flag = 1;
    none("11 in Ready", LM_UNLAWFUL_STATE);
    shown[0] = LM_FLAG;
    none("11 in Ready, not counted", LM_UNLAWFUL_COUNT);
    p.game = LM_WIN;
    none("Win with nothing open", LM_UNLAWFUL_STATE);

    p.game = 9;
    none("game 9", LM_UNLAWFUL_STATE);
    p.game = 9;
    shown[0] = 12;
    none("game 9 and a shown 12", LM_UNLAWFUL_SHOWN);
    p.game = 9;
    p.flag = 5;
    none("game 9 and 5 flags", LM_UNLAWFUL_COUNT);
    p.game = 9;
    p.rows = 65;
    none("game 9 and 65 rows", LM_BAD_SIZE);
    p.game = 9;
    mines[4] = 2;
    position("game 9 and (1,1) is 2", LM_BAD_COUNT, 1, 1);
    p.game = 9;
    setup("game 9", 0, LM_NOWHERE, LM_NOWHERE);
    mines[4] = 2;
    setup("game 9 and (1,1) is 2", LM_BAD_COUNT, 1, 1);
    good();

    for (int rules = 0; rules <= 4; rules++) {
        int allowed = rules == 1 || rules == 2;
        p.rules = (uint8_t)rules;
        setup("rules 0 to 4", allowed ? 0 : LM_BAD_RULES, LM_NOWHERE, LM_NOWHERE);
        p.mode = 6;
        setup("rules 0 to 4 and mode 6", LM_BAD_MODE, LM_NOWHERE, LM_NOWHERE);
        p.mode = 0;
        none("rules 0 to 4", allowed ? 0 : LM_UNLAWFUL_STATE);
    }
    p.rules = 3;
    p.flag = 5;
    none("rules 3 and 5 flags", LM_UNLAWFUL_COUNT);
    p.rules = 3;
    p.game = 9;
    none("rules 3 and game 9", LM_UNLAWFUL_STATE);

    resolving();
    plain();
    little_work();
    printf("refusals: %u cases\n", cases);
    return wrong;
}
