/* Liftmanger: a minesweeper game's state, for C. Link with the archive that `./archive console ARCHIVE` builds; it needs memset, nothing else.
 *
 * Every function takes every input and returns. It answers 0 to 4, or a refusal: 20 and above. What each call does, to the byte, is proved
 * (crates/console/specs/Promises.antt).
 *
 * What is lent. A call is lent buffers, each a pointer and then its number of elements, and keeps none of them:
 *   mines  one signed byte for each cell, row by row: -1 for a mine, else its number 0 to 8   LM_CELLS
 *   shown  one byte for each cell: what the player sees, enum lm_shown                        LM_CELLS
 *   bits   one bit for each cell, "this mine was flagged before", lowest bit first            LM_BITS
 *   work   16-bit numbers, with any contents; at least so many, the rest is not touched       LM_WORK
 * The first three must have exactly these lengths. After an accepted call with work its first LM_WORK numbers are 0.
 *
 * What a caller owes, since no call can test it: a pointer points at as many elements as the length says, is not NULL, and a buffer that the
 * call may write (one without const) overlaps no other.
 *
 * A refusal gives back the position exactly as given, the bytes that mean nothing too, with the value 0, and writes nothing lent. (A row of
 * events that is refused at a later event keeps the steps before it.)
 *
 * One owner. The core that steps owns the position and all lent memory for the length of the call. Between calls the display may be handed the
 * shown board, the states, the counts marked "may be shown" and what a step answered and opened, and nothing else: mines, bits and the secrets
 * know what is hidden. */
#ifndef LIFTMANGER_H
#define LIFTMANGER_H

#include <stddef.h>
#include <stdint.h>

#ifdef __cplusplus
extern "C" {
#endif

/* ---- sizes ---- */

#define LM_SIDE_MAX 64          /* rows and columns: 1 to 64 */
#define LM_CELLS_MAX 2048       /* rows x columns: at most 2,048 */
#define LM_EVENTS_MAX 65535     /* accepted events of a game */
#define LM_BOOK_EVENTS_MAX 8192 /* events of a book */

/* Elements of mines, and of shown. */
#define LM_CELLS(rows, columns) ((size_t)(rows) * (size_t)(columns))
/* Bytes of bits. */
#define LM_BITS(rows, columns) ((LM_CELLS(rows, columns) + 7) / 8)
/* 16-bit numbers of work, at least. */
#define LM_WORK(rows, columns) (8 * LM_CELLS(rows, columns) + 8)
/* The bytes of the longest book: 6 of settings, 2,047 mines, 8,192 events. */
#define LM_BOOK_MAX (6 + (2 + 2 * 2047) + (2 + 3 * LM_BOOK_EVENTS_MAX))

/* ---- the numbers that come back ---- */

/* The row and the column beside a number that has no place: all but 22 and 23. */
#define LM_NOWHERE 255

enum lm_number {
    /* Answers. Every call but a step answers 0 where it accepts. */
    LM_NOTHING = 0, /* accepted; of a step: the hand opened nothing and changed no flag */
    LM_FLAGGED = 1, /* a flag or a question mark was set or taken away */
    LM_OPENED = 2,  /* a left click opened a safe cell */
    LM_CHORDED = 3, /* a chord opened cells, all safe */
    LM_HIT = 4,     /* the click or the chord hit a mine: the game is lost. A game that an automatic pass loses keeps the hand's answer */

    /* Refusals, in the order in which they are tested: a number is given exactly when no earlier one applies and */
    LM_BAD_SIZE = 20,        /* a size is outside its limits */
    LM_BAD_LENGTH = 21,      /* a buffer has the wrong length; a row of events ends in the middle of one; a mine list has an odd length */
    LM_BAD_VALUE = 22,       /* a mine board value is outside -1 to 8; row and column say which, the first in row order */
    LM_BAD_COUNT = 23,       /* a safe cell's number is not its count of mine neighbours; row and column say which, the first in row order */
    LM_NO_SAFE_CELL = 24,    /* no cell is safe */
    LM_BAD_MODE = 25,        /* the mode is not allowed */
    LM_BAD_RULES = 45,       /* the rules are not 1 or 2; setup and reset answer this, after 25, and a book (place 5) */
    LM_UNLAWFUL_SHOWN = 261, /* the shown board has a value that this game cannot show there */
    LM_UNLAWFUL_BITS = 262,  /* a bit is set that belongs to no mine */
    LM_UNLAWFUL_COUNT = 263, /* the flag count or the safe cells not open are not those of the board, or another count is above what events and open
                                cells allow */
    LM_UNLAWFUL_STATE = 264, /* the position is not one that its game state or mouse state can have, a state byte of it means nothing, or its
                                rules are not 1 or 2 */
    LM_BAD_POINTER = 30,     /* the pointer is neither a cell nor exactly (rows, columns) */
    LM_TOO_MANY_EVENTS = 31, /* 65,535 events were accepted */
    LM_BAD_PRE_FLAG = 32,    /* pf in Ready or PreFlaging, off the board or on a cell not showing 10 */
    LM_BAD_EVENT = 33,       /* an event that the game state does not take, or an unknown code while the game runs; LM_L, LM_R and LM_M are
                                unknown to lm_step */

    /* Refusals of a book, at the place of the first fault; 20, 24, 25 and 45 are given too. */
    LM_BOOK_ENDS = 40,    /* the bytes end where more are due (place: the length) */
    LM_BAD_SETTINGS = 41, /* the settings' count is not 4 or 5 (place 0), or question is not 0 or 1 (place 4) */
    LM_BAD_MINE = 42,     /* a mine is off the board or not after the one before it; numbering from a mine list answers this too */
    LM_LEFT_OVER = 43,    /* bytes are left over (the first) */
    LM_BOOK_TOO_LONG = 44 /* over 8,192 events (the count's first byte) */
};

/* ---- states, events and shown values ---- */

enum lm_game { LM_READY = 0, LM_PLAYING = 1, LM_WIN = 2, LM_LOSS = 3, LM_PRE_FLAGING = 4 };

/* The left and the right button, up or down. */
enum lm_mouse {
    LM_UP_UP = 0,
    LM_UP_DOWN = 1,
    LM_UP_DOWN_NOT_FLAG = 2,
    LM_DOWN_UP = 3,
    LM_CHORDING = 4,
    LM_CHORDING_NOT_FLAG = 5,
    LM_DOWN_UP_AFTER_CHORDING = 6
};

enum lm_event {
    LM_LC = 0, /* left button down */
    LM_LR = 1, /* left button up */
    LM_RC = 2, /* right button down */
    LM_RR = 3, /* right button up */
    LM_MV = 4, /* the pointer moved */
    LM_MC = 5, /* middle button down */
    LM_MR = 6, /* middle button up: a chord */
    LM_CC = 7, /* both buttons down */
    LM_PF = 8, /* a flag before the first opening */
    /* For lm_resolve, which makes a plain code out of each, and for the rows of events of lm_step_flow, which are resolved there. */
    LM_L = 9,  /* the left button changed: LM_LC or LM_LR, by the mouse state */
    LM_R = 10, /* the right button changed: LM_RC or LM_RR, by the mouse state and the rules */
    LM_M = 11  /* the middle button changed: LM_MC or LM_MR, by the middle flag, which it flips */
};

/* 0 to 8 is an open cell with its number. */
enum lm_shown { LM_CLOSED = 10, LM_FLAG = 11, LM_WRONG_FLAG = 14, LM_MINE_HIT = 15, LM_QUESTION = 17 };

/* Modes: 0 to 5 play by hand alone; 11 and 14 chord by themselves, 12 and 15 flag by themselves, 13 and 16 do both. */

/* The league's rules: 1, or 2, by which LM_R in LM_UP_DOWN_NOT_FLAG is a release. */

/* ---- the position ---- */

/* The position of a game, 56 bytes without padding. setup makes one; a caller keeps it and hands it to the next call. Any bytes are taken:
 * question or middle above 1, game above 4 or mouse above 6 means nothing. It is 264, where none of 20 to 263 applies; for them it is read as
 * the last state, or as 1. */
typedef struct lm_position {
    uint8_t rows, columns, mode;
    uint8_t question;  /* 1: a flag may become a question mark */
    uint8_t game;      /* enum lm_game */
    uint8_t mouse;     /* enum lm_mouse */
    uint8_t middle;    /* 1: the middle button is down */
    uint8_t rules;     /* the league's rules, 1 or 2 */
    uint32_t preflags; /* flags set before the first opening */
    uint32_t events;   /* accepted events */
    /* Counts that may be shown during the game. */
    uint32_t left, right, doubles; /* left clicks, right clicks, chords */
    uint32_t lce, dce;             /* left clicks that opened a safe cell, chords by hand that opened cells */
    uint32_t flag;                 /* cells that show a flag, right or wrong */
    uint32_t unopened;             /* safe cells that do not show 0 to 8; the game is won at 0 */
    /* Secrets, that know hidden mines: to be shown after the game only. */
    uint32_t rce;          /* flags by hand on a mine that had none before */
    uint32_t solved_left;  /* 3BV solved by left clicks */
    uint32_t solved_chord; /* 3BV solved by chords; with solved_left it may pass the total */
} lm_position;

/* A number, its place, the position after the call, and the value: how many cells a step opened, the plain code of a resolved one, or what was
 * asked for; 0 where there is none or the call was refused. */
typedef struct lm_answer {
    uint16_t number;     /* enum lm_number */
    uint8_t row, column; /* the faulty cell beside 22 and 23, else LM_NOWHERE */
    lm_position position;
    uint32_t value;
} lm_answer;

/* The answer of a call without a position. */
typedef struct lm_value {
    uint16_t number;     /* enum lm_number */
    uint8_t row, column; /* as in lm_answer */
    uint32_t value;
} lm_value;

/* What a book says, or its first fault: then all but number and place are 0. */
typedef struct lm_book {
    uint16_t number; /* 0, or a refusal */
    uint8_t rows, columns, mode, question;
    uint8_t rules;    /* the league's rules, 1 where the book does not say them */
    size_t place;     /* of the fault */
    size_t mines_at;  /* where the mine list starts */
    size_t mines;     /* mines, of two bytes each: lm_number_mines takes them as they stand */
    size_t events_at; /* where the event records start */
    size_t events;    /* events, of three bytes each: lm_step_flow takes them as they stand */
} lm_book;

/* The layout that the library was proved for. */
typedef char lm_position_has_56_bytes[sizeof(lm_position) == 56 ? 1 : -1];
typedef char lm_answer_has_64_bytes[sizeof(lm_answer) == 64 ? 1 : -1];
typedef char lm_value_has_8_bytes[sizeof(lm_value) == 8 ? 1 : -1];
typedef char lm_book_has_48_bytes[sizeof(lm_book) == 48 ? 1 : -1];

/* ---- the board ---- */

/* The board check: 20 to 24, or 0. The value is 0. */
lm_value lm_check_board(uint8_t rows, uint8_t columns, const int8_t *mines, size_t mines_length);

/* Writes the whole mine board, numbered, from a list of mines, a row byte and a column byte each, rising in row order. 20, 21, 42, 24, or 0. */
uint32_t lm_number_mines(uint8_t rows, uint8_t columns, const uint8_t *list, size_t list_length, int8_t *mines, size_t mines_length);

/* The 3BV total, openings plus numbers without a 0 neighbour, as the value: 20 to 24, or 0. It knows hidden mines. */
lm_value lm_total_3bv(uint8_t rows, uint8_t columns, const int8_t *mines, size_t mines_length, uint16_t *work, size_t work_length);

/* ---- setup and reset ---- */

/* A new game: every shown cell 10, every bit and count 0. 20 to 25, 45, or 0. Any question other than 0 is 1. A refusal gives the fresh position of
 * these settings. What stood in shown and bits is of no matter. */
lm_answer lm_setup(uint8_t rows, uint8_t columns, uint8_t mode, uint8_t question, uint8_t rules, const int8_t *mines, size_t mines_length,
                   uint8_t *shown, size_t shown_length, uint8_t *bits, size_t bits_length);

/* Setup with the position's own settings: 20 to 25, 45, or 0. It reads nothing else of the position, so it takes one that is unlawful too. */
lm_answer lm_reset(lm_position position, const int8_t *mines, size_t mines_length, uint8_t *shown, size_t shown_length, uint8_t *bits,
                   size_t bits_length);

/* ---- resolving, a step, and a row of events ---- */

/* LM_L, LM_R or LM_M into a plain code, which is the value, for lm_step: 20 to 264, 30, 31, or 0. It is lent no work, writes nothing and counts no
 * event. LM_M flips the middle flag of the position that comes back, in every game state; any other code comes back as it came, an unknown one
 * too, and the position with it. A refusal flips nothing.
 * An event of a game with such buttons is the pair: lm_resolve, and where it answers 0, lm_step with its value at the position that came back, the
 * same pointer and the same boards. Where the work fits, a refused pair has changed nothing. With too little work lm_resolve accepts, and may flip,
 * and lm_step then answers 21: a caller who goes on from there keeps the position from before the pair.
 * Both calls test the whole board; a row of events (lm_step_flow) pays for that once. */
lm_answer lm_resolve(lm_position position, uint8_t code, uint8_t row, uint8_t column, const int8_t *mines, size_t mines_length,
                     const uint8_t *shown, size_t shown_length, const uint8_t *bits, size_t bits_length);

/* One plain event: a code LM_LC to LM_PF at a cell, or at (rows, columns) for off the board. 20 to 33, or an answer 0 to 4. LM_L, LM_R and LM_M are
 * unknown codes here: 33 while the game runs. After Win or Loss every event at such a pointer, an unknown code too, is accepted, counted and
 * answers 0, and flips nothing.
 * The value is how many cells the event opened, the buzzer's ticks: the cells that show 0 to 8 after the call less those before it, so not a mine
 * that was hit. The cells of the automatic passes are among them, so it may be above 0 beside LM_NOTHING (a pass after a chord that could not run)
 * and LM_FLAGGED; beside LM_HIT it is the safe cells of a lost chord, and 0 for a click. After Win or Loss, and beside a refusal, it is 0. */
lm_answer lm_step(lm_position position, uint8_t code, uint8_t row, uint8_t column, const int8_t *mines, size_t mines_length, uint8_t *shown,
                  size_t shown_length, uint8_t *bits, size_t bits_length, uint16_t *work, size_t work_length);

/* A row of events, three bytes each: code, row, column; LM_L, LM_R and LM_M are resolved, each in its turn. 20 to 264 once, even for none; then
 * the events, up to the first refused one, whose number is answered; 0 where all were accepted. How many were is in position.events. The value is
 * 0: a caller who wants to know how many cells the row opened counts those of shown that are 0 to 8 before the call and after it, since shown is
 * the caller's own; no open cell closes. */
lm_answer lm_step_flow(lm_position position, const uint8_t *events, size_t events_length, const int8_t *mines, size_t mines_length,
                       uint8_t *shown, size_t shown_length, uint8_t *bits, size_t bits_length, uint16_t *work, size_t work_length);

/* 0, "replay", and 1, "fail", give Loss in any state: 20 to 264, or 0. Anything else is 33. It counts no event. */
lm_answer lm_step_game_state(lm_position position, const int8_t *mines, size_t mines_length, const uint8_t *shown, size_t shown_length,
                             const uint8_t *bits, size_t bits_length, uint8_t event);

/* ---- what a position says ---- */

/* The position check: 20 to 264, or 0. The value is 0. */
lm_value lm_check_position(lm_position position, const int8_t *mines, size_t mines_length, const uint8_t *shown, size_t shown_length,
                           const uint8_t *bits, size_t bits_length);

/* The 3BV solved, solved_left plus solved_chord, as the value: 20 to 264, or 0. A secret. */
lm_answer lm_get_bbbv_solved(lm_position position, const int8_t *mines, size_t mines_length, const uint8_t *shown, size_t shown_length,
                             const uint8_t *bits, size_t bits_length);

/* The 3BV left to solve, openings with at least one 0 cell not open plus numbers without a 0 neighbour not open, as the value: 20 to 264,
 * or 0. It is counted from the board, whatever the solved counts say; in Win it is 0. A secret. */
lm_answer lm_left_to_solve(lm_position position, const int8_t *mines, size_t mines_length, const uint8_t *shown, size_t shown_length,
                           const uint8_t *bits, size_t bits_length, uint16_t *work, size_t work_length);

/* ---- the book ---- */

/* Reads a game book: 0, or the first fault from the front, 40 to 45, 20, 24 or 25, with its byte place. Events are judged when played. */
lm_book lm_read_book(const uint8_t *book, size_t book_length);

#ifdef __cplusplus
}
#endif

#endif
