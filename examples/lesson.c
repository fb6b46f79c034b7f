// A lesson through the trainer's library from C: hints, events reported, and the score after each, printed as `practice` prints them. Every byte that
// comes back is held to what it must be; the status is 1 if one is not.
#include <stdio.h>
#include <stdlib.h>
#include <string.h>

#include "liftmanger_trainer.h"

static lmt_score score = LMT_NEW_SCORE;

static void fail(const char *what)
{
    fprintf(stderr, "lesson: %s\n", what);
    exit(1);
}

static void expect_score(unsigned asked, unsigned followed, unsigned row, unsigned column)
{
    printf(" %u %u\n", (unsigned)score.asked, (unsigned)score.followed);
    if (score.asked != asked || score.followed != followed || score.row != row || score.column != column) fail("the score");
}

// A question; what it must be answered is a hint's six numbers, and then the score's four.
static void ask(uint8_t rows, uint8_t columns, const uint8_t *shown, size_t length, lmt_hint_at wanted, lmt_score after)
{
    lmt_advice a = lmt_ask(score, rows, columns, shown, length);
    lmt_hint_at h = lmt_hint(rows, columns, shown, length);
    if (h.number != 0)
        printf("refused %u", (unsigned)h.number);
    else if (h.row == LMT_NOWHERE)
        printf("nothing");
    else
        printf("cell %d %d by %d %d", h.row, h.column, h.by_row, h.by_column);
    if (memcmp(&a.hint, &h, sizeof h) != 0) fail("a question's hint is not the hint");
    if (memcmp(&h, &wanted, sizeof h) != 0) fail("the hint");
    if (h.number != 0 && memcmp(&a.score, &score, sizeof score) != 0) fail("a refused question changed the score");
    score = a.score;
    expect_score(after.asked, after.followed, after.row, after.column);
}

static void report(uint8_t row, uint8_t column, uint32_t opened, lmt_score after)
{
    lmt_score before = score;
    score = lmt_report(score, row, column, opened);
    printf("reported");
    if (opened == 0 && memcmp(&score, &before, sizeof score) != 0) fail("a report of 0 changed the score");
    expect_score(after.asked, after.followed, after.row, after.column);
}

#define NONE LMT_NOWHERE
#define HINT(...) (lmt_hint_at){__VA_ARGS__}
#define SCORE(...) (lmt_score){__VA_ARGS__}

int main(void)
{
    const uint8_t flagged[] = {11, 1, 10}, closed[] = {10, 1, 10}, never[] = {12, 1, 10}, zero[] = {10, 0, 10};
    const uint8_t square[] = {10, 1, 11, 1, 1, 1, 10, 10, 10};

    ask(1, 3, flagged, 3, HINT(0, 0, 2, 0, 1), SCORE(1, 0, 0, 2));
    report(0, 2, 0, SCORE(1, 0, 0, 2));
    report(0, 2, 1, SCORE(1, 1, NONE, NONE));
    report(0, 2, 1, SCORE(1, 1, NONE, NONE));
    ask(1, 3, flagged, 3, HINT(0, 0, 2, 0, 1), SCORE(2, 1, 0, 2));
    report(0, 1, 1, SCORE(2, 1, NONE, NONE)); // spent elsewhere
    report(0, 2, 1, SCORE(2, 1, NONE, NONE));
    ask(1, 3, flagged, 3, HINT(0, 0, 2, 0, 1), SCORE(3, 1, 0, 2));
    ask(1, 3, flagged, 2, HINT(21, NONE, NONE, NONE, NONE), SCORE(3, 1, 0, 2));
    ask(0, 3, flagged, 3, HINT(20, NONE, NONE, NONE, NONE), SCORE(3, 1, 0, 2));
    ask(1, 3, never, 3, HINT(261, NONE, NONE, NONE, NONE), SCORE(3, 1, 0, 2)); // it lives on
    ask(1, 3, closed, 3, HINT(0, NONE, NONE, NONE, NONE), SCORE(4, 1, NONE, NONE)); // dropped
    report(0, 2, 1, SCORE(4, 1, NONE, NONE));
    ask(3, 3, square, 9, HINT(0, 0, 0, 0, 1), SCORE(5, 1, 0, 0));
    ask(1, 3, zero, 3, HINT(0, NONE, NONE, NONE, NONE), SCORE(6, 1, NONE, NONE));
    score = SCORE(65535, 65535, NONE, NONE);
    ask(1, 3, flagged, 3, HINT(0, 0, 2, 0, 1), SCORE(65535, 65535, 0, 2));
    report(0, 2, 1, SCORE(65535, 65535, NONE, NONE)); // both stay
    return 0;
}
