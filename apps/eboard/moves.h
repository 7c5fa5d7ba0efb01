/* The moves that a board shows, for a program that can't take moves back.
 *
 * The recogniser of dgt.h finds the moves. Squares and pieces have the numbers of the protocol: 0
 * is a8, 7 is h8, 56 is a1 and 63 is h1. No piece is 0. Times are in milliseconds, from any
 * beginning.
 */
#ifndef MOVES_H
#define MOVES_H

#include "dgt.h"

#include <stdbool.h>
#include <stdint.h>

enum side { NOBODY, WHITE, BLACK };

enum side side_of(uint8_t piece);

/* The squares are the game's, in which White begins on the ranks 1 and 2: if the board is turned,
 * a1 of the game is h8 of the board. */
typedef struct move {
    uint8_t from, to;
    uint8_t piece;   /* the piece that was on `from`; 0 for a move that isn't known */
    uint8_t becomes; /* the piece on `to` after it: another one after a promotion */
} move;

enum { REMEMBERED = 32 }; /* of the last moves: the recogniser takes fewer back */

/* The sides with moves that the program wants. It shows the moves of the other side, which are then
 * made on the board, too. */
enum plays { BY_THE_BOARD, PLAYS_WHITE, PLAYS_BLACK, PLAYS_BOTH };

typedef struct game {
    enum plays plays;
    int pause; /* after a move was found, before it is reported */
    dgt_recogniser recogniser;
    dgt_chess_state state; /* the present one; without pieces before a game begins */
    dgt_chess_state sure;  /* the state when the board last confirmed what it shows */
    int sure_made;         /* the number of moves that led to it */
    bool turned;
    uint8_t shown[64];
    bool is_confirmed;
    move moves[REMEMBERED];
    int made;        /* the number of moves that lead to the state */
    int told;        /* the number of moves that were reported, with later ones taken back */
    int wrong;       /* the one that was corrected although it had been reported, or INT_MAX */
    long long ready; /* when the last move is reported */
} game;

/* Begins with whatever the board shows next. False if dgt.h isn't that of the library. */
bool game_begin(game *game, enum plays plays, int pause);

/* The side of the program's player. If it isn't set, or is both, it is the one at the board's first
 * rank. */
enum side game_player(const game *game);

/* Whether the program wants this side's moves. */
bool game_wants(const game *game, enum side side);

/* Takes what the board shows, or NULL while it is in doubt. */
void game_see(game *game, long long now, const uint8_t *pieces, bool confirmed);

/* What the board showed since it last confirmed that was wrong. */
void game_forget(game *game);

/* The next move to report, of either side, once the board has confirmed what it shows. A move that
 * was taken back and is made again is reported once, unless the starting position was reached. */
bool game_next(game *game, long long now, move *made);

/* When to call game_next again, if nothing is seen before. */
long long game_due(game *game);

/* Whether a move may wait until the board confirms what it shows. */
bool game_waits(const game *game);

#endif
