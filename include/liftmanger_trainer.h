/* Liftmanger's trainer, for C: hints on a shown board, and the score of hints asked for and followed. Link with the archive that
 * `./archive unit ARCHIVE` builds. It is a library of its own: the console's is not needed, and no call is lent a mine board.
 *
 * Every function takes every input and returns. What each call does, to the byte, is proved (crates/unit/specs/Unit.antt).
 *
 * What is lent: the shown board alone, a pointer and then its number of bytes, one for each cell, row by row: 0 to 8 open, 10 closed, 11 flag,
 * 14 wrong flag, 15 mine hit, 17 question. A call keeps nothing and writes nothing.
 *
 * What a caller owes, since no call can test it: the pointer points at as many bytes as the length says and is not NULL.
 *
 * A refused question gives the score back as it was given, to the byte. */
#ifndef LIFTMANGER_TRAINER_H
#define LIFTMANGER_TRAINER_H

#include <stddef.h>
#include <stdint.h>

#ifdef __cplusplus
extern "C" {
#endif

/* A row and a column that are no cell. */
#define LMT_NOWHERE 255

/* The number of a hint: 0, or a refusal, tested in this order. */
enum lmt_number {
    LMT_ACCEPTED = 0,
    LMT_BAD_SIZE = 20,   /* rows and columns are not 1 to 64, or they have more than 2,048 cells */
    LMT_BAD_LENGTH = 21, /* the shown board has not rows x columns bytes */
    LMT_BAD_SHOWN = 261  /* the shown board has a value that is never shown */
};

/* A hint. With the number 0 and a row that is not LMT_NOWHERE, the cell to open, and the number's cell that justifies it. With the number 0 and
 * LMT_NOWHERE there is nothing to show. A refusal has LMT_NOWHERE too. */
typedef struct {
    uint16_t number;
    uint8_t row;
    uint8_t column;
    uint8_t by_row;
    uint8_t by_column;
} lmt_hint_at;

/* The score: hints asked for and hints followed, each at most 65,535, and the latest hint's cell while it lives, else LMT_NOWHERE twice. */
typedef struct {
    uint16_t asked;
    uint16_t followed;
    uint8_t row;
    uint8_t column;
} lmt_score;

/* A score that nobody has touched. */
#define LMT_NEW_SCORE {0, 0, LMT_NOWHERE, LMT_NOWHERE}

/* What a question gives. */
typedef struct {
    lmt_hint_at hint;
    lmt_score score;
} lmt_advice;

/* The first cell in row order that shows 10 beside an open number 1 to 8 with exactly that many 11s around it, and the first such number; it
 * counts nothing. If all flags are on mines, the cell is safe. */
lmt_hint_at lmt_hint(uint8_t rows, uint8_t columns, const uint8_t *shown, size_t length);

/* The same as a question: it counts as asked for, a cell replaces the hint before it, nothing to show drops it. */
lmt_advice lmt_ask(lmt_score score, uint8_t rows, uint8_t columns, const uint8_t *shown, size_t length);

/* An event with its pointer and how many cells it opened, the value of the console's step: with 0 it changes nothing; else it counts as followed
 * if it points at the hint's cell, and the hint is spent either way. */
lmt_score lmt_report(lmt_score score, uint8_t row, uint8_t column, uint32_t opened);

#ifdef __cplusplus
}
#endif

#endif
