// The cells that events open, from C: each book of the table is played event by event, resolved first, since a book may have `l`, `r` and `m`; and the
// value of every step, a refused one too, is held to the table and to the shown board before and after it, as is the number of safe cells not open.
// Then all its events in one call, counted as a caller of lm_step_flow counts them; and what reset and lm_step_game_state make of that number.
// The argument is the folder that the books stand in. The status is 1 if a number is another.
#include <stdio.h>
#include <stdlib.h>
#include <string.h>

#include "liftmanger.h"

#define ROOM LM_CELLS(9, 9)

static int8_t mines[ROOM];
static uint8_t shown[ROOM];
static uint8_t bits[LM_BITS(9, 9)];
static uint16_t work[LM_WORK(9, 9)];

struct tick {
    unsigned event, answer, opened;
};

// The events that open cells, and a 0 after the last; those that are not named, after the end of a game too, open none.
static const struct game {
    const char *book;
    unsigned events, together;
    unsigned fresh, last; // safe cells not open
    struct tick ticks[19];
} games[] = {
    {"worked", 6, 2, 2, 0, {{2, LM_OPENED, 1}, {6, LM_OPENED, 1}}},
    {"chord-loss", 5, 7, 8, 1, {{2, LM_OPENED, 1}, {5, LM_HIT, 6}}},
    {"mode-13", 4, 2, 4, 2, {{2, LM_OPENED, 1}, {3, LM_FLAGGED, 1}}},
    {"beginner-win", 66, 71, 71, 0, {{5, LM_OPENED, 48}, {7, LM_OPENED, 1},  {9, LM_OPENED, 1},   {11, LM_OPENED, 1},  {13, LM_OPENED, 1},  {19, LM_OPENED, 1},
                              {22, LM_OPENED, 1}, {24, LM_OPENED, 1}, {29, LM_CHORDED, 1}, {32, LM_OPENED, 1},  {37, LM_CHORDED, 2}, {40, LM_CHORDED, 2},
                              {43, LM_OPENED, 1}, {45, LM_OPENED, 3}, {49, LM_CHORDED, 1}, {58, LM_OPENED, 1},  {60, LM_CHORDED, 3}, {63, LM_OPENED, 1}}},
};

static int wrong;
static unsigned held;

static void hold(const char *book, unsigned event, const char *what, unsigned long got, unsigned long wanted)
{
    held++;
    if (got != wanted) {
        fprintf(stderr, "%s, event %u: %s: %lu, not %lu\n", book, event, what, got, wanted);
        wrong = 1;
    }
}

static size_t read_file(const char *folder, const char *book, uint8_t *bytes)
{
    char path[1000];
    snprintf(path, sizeof path, "%s/%s.book", folder, book);
    FILE *file = fopen(path, "rb");
    if (file == NULL) {
        perror(path);
        exit(1);
    }
    size_t n = fread(bytes, 1, LM_BOOK_MAX, file);
    fclose(file);
    return n;
}

static unsigned open_cells(size_t cells)
{
    unsigned n = 0;
    for (size_t i = 0; i < cells; i++)
        n += shown[i] <= 8;
    return n;
}

static unsigned unopened(size_t cells)
{
    unsigned n = 0;
    for (size_t i = 0; i < cells; i++)
        n += mines[i] != -1 && shown[i] > 8;
    return n;
}

static void play(const char *folder, const struct game *g)
{
    static uint8_t book[LM_BOOK_MAX];
    lm_book b = lm_read_book(book, read_file(folder, g->book, book));
    hold(g->book, 0, "the book", b.number, 0);
    hold(g->book, 0, "its events", b.events, g->events);
    size_t cells = LM_CELLS(b.rows, b.columns), bytes = LM_BITS(b.rows, b.columns), room = LM_WORK(b.rows, b.columns);
    if (wrong || cells > ROOM) exit(1);
    lm_number_mines(b.rows, b.columns, book + b.mines_at, 2 * b.mines, mines, cells);
    lm_position fresh = lm_setup(b.rows, b.columns, b.mode, b.question, b.rules, mines, cells, shown, cells, bits, bytes).position;

    hold(g->book, 0, "not open", fresh.unopened, g->fresh);

    lm_position p = fresh;
    const struct tick *t = g->ticks;
    unsigned together = 0;
    for (unsigned n = 1; n <= b.events; n++) {
        lm_answer a = lm_step(p, LM_LR, b.rows, 0, mines, cells, shown, cells, bits, bytes, work, room);
        hold(g->book, n, "a refused event before it", a.number, LM_BAD_POINTER);
        hold(g->book, n, "what that opened", a.value, 0);

        const uint8_t *e = book + b.events_at + 3 * (n - 1);
        unsigned before = open_cells(cells);
        a = lm_resolve(p, e[0], e[1], e[2], mines, cells, shown, cells, bits, bytes);
        hold(g->book, n, "resolved", a.number, 0);
        a = lm_step(a.position, (uint8_t)a.value, e[1], e[2], mines, cells, shown, cells, bits, bytes, work, room);
        p = a.position;
        hold(g->book, n, "opened, by the boards", open_cells(cells) - before, a.value);
        hold(g->book, n, "not open, by the boards", unopened(cells), p.unopened);
        if (t->event == n) {
            hold(g->book, n, "the answer", a.number, t->answer);
            hold(g->book, n, "opened", a.value, t->opened);
            t++;
        } else {
            hold(g->book, n, "opened", a.value, 0);
        }
        together += a.value;
    }
    hold(g->book, g->events, "opened by all events", together, g->together);
    hold(g->book, g->events, "events left in the table", t->event, 0);
    hold(g->book, g->events, "not open", p.unopened, g->last);
    lm_position lost = lm_step_game_state(p, mines, cells, shown, cells, bits, bytes, 1).position;
    hold(g->book, g->events, "given up", lost.game, LM_LOSS);
    hold(g->book, g->events, "not open, given up", lost.unopened, g->last);

    hold(g->book, 0, "not open, after reset", lm_reset(p, mines, cells, shown, cells, bits, bytes).position.unopened, g->fresh);
    unsigned before = open_cells(cells);
    lm_answer a = lm_step_flow(fresh, book + b.events_at, 3 * b.events, mines, cells, shown, cells, bits, bytes, work, room);
    hold(g->book, g->events, "the value of a row of events", a.value, 0);
    hold(g->book, g->events, "a row that ends in another position", memcmp(&a.position, &p, sizeof p) != 0, 0);
    hold(g->book, g->events, "opened by the row", open_cells(cells) - before, g->together);
    hold(g->book, g->events, "not open, after the row", a.position.unopened, g->last);
}

int main(int count, char **words)
{
    if (count != 2) {
        fprintf(stderr, "usage: %s FOLDER\n", words[0]);
        return 2;
    }
    for (size_t i = 0; i < sizeof games / sizeof games[0]; i++)
        play(words[1], &games[i]);
    printf("ticks: %zu books, %u numbers\n", sizeof games / sizeof games[0], held);
    return wrong;
}
