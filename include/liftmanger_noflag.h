/* Liftmanger's no-flag class, for C: a league's profile that forbids the right button. Link with the archive that
 * `./archive noflag_console ARCHIVE` builds.
 *
 * Types, numbers and what a caller owes are those of liftmanger.h. The class plays mode 0 only: another mode is LM_BAD_MODE, at setup and at every
 * step. LM_RC, LM_RR, LM_R, LM_CC and LM_PF are refused with LM_FORBIDDEN in every game state, after LM_TOO_MANY_EVENTS; every other code answers
 * as in the full game, LM_L and LM_M too, which a step resolves itself. What each call does, to the byte, is proved
 * (crates/noflag_console/specs/Promises.antt). */
#ifndef LIFTMANGER_NOFLAG_H
#define LIFTMANGER_NOFLAG_H

#include "liftmanger.h"

#ifdef __cplusplus
extern "C" {
#endif

/* A forbidden event. */
#define LM_FORBIDDEN 34

/* 20 to 24, LM_BAD_MODE unless the mode is 0, LM_BAD_RULES; or the fresh desk. */
lm_answer lm_noflag_setup(uint8_t rows, uint8_t columns, uint8_t mode, uint8_t question, uint8_t rules, const int8_t *mines, size_t mines_length,
                          uint8_t *shown, size_t shown_length, uint8_t *bits, size_t bits_length);

/* lm_reset, for a program that links this archive alone. */
lm_answer lm_noflag_reset(lm_position position, const int8_t *mines, size_t mines_length, uint8_t *shown, size_t shown_length, uint8_t *bits,
                          size_t bits_length);

/* 20 to 24, LM_BAD_MODE unless the mode is 0, 261 to 264, 30, 31, LM_FORBIDDEN, 33; or the event, with how many cells it opened as the value. */
lm_answer lm_noflag_step(lm_position position, uint8_t code, uint8_t row, uint8_t column, const int8_t *mines, size_t mines_length, uint8_t *shown,
                         size_t shown_length, uint8_t *bits, size_t bits_length, uint16_t *work, size_t work_length);

/* lm_read_book, with LM_BAD_MODE at 3 unless the mode is 0. */
lm_book lm_noflag_read_book(const uint8_t *book, size_t book_length);

#ifdef __cplusplus
}
#endif

#endif
