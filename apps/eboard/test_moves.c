/* Steps on a board, and the moves that are reported.
 *
 * `e2.` removes the piece on e2, `e4P` puts a white pawn on e4 (p would be a black one), and a
 * number waits for milliseconds. `e2e4` is a complete move: a piece on e4 is removed first, and it
 * rests afterwards. `seen` shows the same position again, `black` gives the player Black, and
 * `both` requests both sides' moves. There are 60 ms between two steps; a move is reported when it
 * has rested for 300, and 12 s pass at the end, since moves faster than hands wait for 10 s.
 * Squares in the steps are the board's, and those in reported moves of both sides are the game's.
 */
#include "moves.h"

#include <stdio.h>
#include <stdlib.h>
#include <string.h>

static const char LETTERS[] = ".PRNBKQprnbkq";
static const char START[] = "rnbqkbnrpppppppp................................PPPPPPPPRNBQKBNR";

#define ITALIAN "e2e4 e7e5 g1f3 b8c6 f1c4 f8c5 "
#define QUEEN_IN_CORNER \
    "h2h4 a7a6 h1h3 a6a5 g2g3 a5a4 f1g2 b7b6 g2d5 b6b5 e2e3 b5b4 d1e2 h7h6 e2f1 h6h5 " \
    "f1g2 g7g6 g2h1 d7d6 g1f3 c7c6 "
#define BISHOP "e2e4 e7e5 f1c4 g8f6 d2d3 "
#define FIANCHETTO "e2e4 b7b6 g1f3 c8a6 g2g3 h7h6 f1g2 h6h5 "
#define CHECK "f2f3 e7e5 a2a3 d8h4 "
#define PASSING "e2e4 a7a6 e4e5 d7d5 "
#define SEVENTH "h2h4 g7g5 h4g5 h7h6 g5h6 a7a6 h6h7 a6a5 "

static const struct test_case {
    const char *name, *steps, *told;
} CASES[] = {
    {"a quiet move", "e2. e4P", "e2e4"},
    {"it is not told before it rests", "e2. e4P 200 e4. e2P", ""},
    {"slid over squares", "e2. e3P e3. e4P", "e2e4"},
    {"slid over squares, slowly", "d2d4 a7a6 d1. d2Q 200 d2. d3Q", "d2d4 a7a6 d1d3"},
    {"seen once more while it rests", "e2. e4P 200 seen e4. e2P", "e2e4"},
    {"no piece goes so", "e2. e5P 900 e5. e4P", "e2e4"},
    {"no piece jumps but a knight", "a1. a3R 900 a3. a1R g1f3", "g1f3"},
    {"a knight goes round a corner", "g1. g4N 900 g4. g1N e2e4", "e2e4"},
    {"a pawn goes far only at first", "e2e3 a7a6 e3. e5P 900 e5. e3P d2d4", "e2e3 a7a6 d2d4"},

    {"adjusted", "e2. 900 e2P", ""},
    {"two adjusted at once", "e2. d2. 900 e2P d2P", ""},
    {"another adjusted, before the move rests", "e2. e4P g1. g1N", "e2e4"},
    {"not while another is off", "e2. a7. e4P 900 e4. a7p e2P d2d4", "d2d4"},
    {"knocked over and set right", "e7. d8. 500 d8q e7p e2e4", "e2e4"},

    {"two moves in quick succession", "e2. e4P e7. e5p", "e2e4 e7e5"},
    {"four of them", "e2. e4P e7. e5p g1. f3N b8. c6n", "e2e4 e7e5 g1f3 b8c6"},
    {"the own move first, the other side's late", "e2e4 g1f3 900 e7e5 b8c6",
     "e2e4 e7e5 g1f3 b8c6"},
    {"Black's first move before White's", "e7e5 900 e2e4 g1f3", "e2e4 e7e5 g1f3"},
    {"the own move first, the other side in check", "e2e4 f7f6 d1h5 b1c3 900 g7g6 b8c6",
     "e2e4 f7f6 d1h5 g7g6 b1c3 b8c6"},
    {"castling first, the other side's move late", ITALIAN "d2d3 e1g1 900 f1. h1R 900 h1. f1R d7d6",
     ITALIAN "d2d3 d7d6 e1g1"},
    {"moved twice, and put back", "e2e4 d2d4 900 d4d2 e7e5 d2d4", "e2e4 e7e5 d2d4"},
    {"moved twice, something else late", "e2e4 d2d4 g1f3 900 f3g1 e7e5 e5d4",
     "e2e4 e7e5 d2d4 e5d4"},
    {"the same position again", "g1f3 g8f6 f3g1 f6g8 e2e4", "g1f3 g8f6 f3g1 f6g8 e2e4"},

    {"a capture, the taken piece off first", "e2e4 d7d5 d5. e4. d5P", "e2e4 d7d5 e4d5"},
    {"a capture, the own piece off first", "e2e4 d7d5 e4. d5. d5P", "e2e4 d7d5 e4d5"},
    {"a capture, the one put over the other", "e2e4 d7d5 e4. d5P", "e2e4 d7d5 e4d5"},
    {"no pawn takes before itself", "e2e4 e7e5 e5. e4. e5P 900 e5p e4P g1f3", "e2e4 e7e5 g1f3"},
    {"a pawn takes beside another", "e2e4 a7a6 e4e5 d7d5 a2a3 d8d6 e5d6 e7d6",
     "e2e4 a7a6 e4e5 d7d5 a2a3 d8d6 e5d6 e7d6"},
    {"a capture, thought over", "e2e4 d7d5 d5. 5000 e4. 5000 d5P", "e2e4 d7d5 e4d5"},
    {"a capture, taken at once, the taken one off first", "e2e4 d7d5 d5. e4. d5P d5. d8. d5q b1c3",
     "e2e4 d7d5 e4d5 d8d5 b1c3"},
    {"a capture, taken at once, the taker up first", "e2e4 d7d5 e4. d5. d5P d8. d5. d5q b1c3",
     "e2e4 d7d5 e4d5 d8d5 b1c3"},
    {"a quiet move, taken at once, the taken one off first", "g1f3 e7e6 f3. g5N g5. d8. g5q",
     "g1f3 e7e6 f3g5 d8g5"},
    {"a quiet move, taken at once along its way", "h2h4 g7g5 h4g5 h7h6 h1. h4R h6. g5. g5p a2a3",
     "h2h4 g7g5 h4g5 h7h6 h1h4 h6g5 a2a3"},
    {"slid up to what it takes", "h2h4 g7g5 h4g5 a7a6 h1. h5R h5. h6R h7. h6. h7R a6a5",
     "h2h4 g7g5 h4g5 a7a6 h1h7 a6a5"},
    {"slid up to it, and it moves off at once", "h2h4 g7g5 h4g5 h7h6 h1. h5R h6. g5. g5p",
     "h2h4 g7g5 h4g5 h7h6 h1h5 h6g5"},
    {"slid up to it, and back", "h2h4 g7g5 h4g5 a7a6 h1. h5R h5. h6R h7. h6. h1R h7p a2a3",
     "h2h4 g7g5 h4g5 a7a6 a2a3"},
    {"nobody takes his own", "d1. d2. d2Q 900 d1Q d2P e2e4", "e2e4"},

    {"castling, the king first", ITALIAN "e1. g1K h1. f1R d7d6",
     ITALIAN "e1g1 d7d6"},
    {"castling, the king first, the rook late", ITALIAN "e1. g1K 900 h1. 900 f1R d7d6",
     ITALIAN "e1g1 d7d6"},
    {"castling, both in hand", ITALIAN "e1. h1. g1K f1R d7d6", ITALIAN "e1g1 d7d6"},
    {"castling, both in hand, the rook put first", ITALIAN "h1. e1. f1R g1K d7d6",
     ITALIAN "e1g1 d7d6"},
    {"castling, the rook first", ITALIAN "h1. f1R 1500 e1. 1500 g1K d7d6", ITALIAN "e1g1 d7d6"},
    {"a rook's move that looks like it", ITALIAN "h1. f1R 2100 d7d6", ITALIAN "h1f1 d7d6"},
    {"the same, and answered at once", ITALIAN "h1. f1R d7. d6p", ITALIAN "h1f1 d7d6"},
    {"a queen's move is none that looks like it", QUEEN_IN_CORNER "h1. f1Q 400 f1. h1Q",
     QUEEN_IN_CORNER "h1f1"},
    /* White's castling isn't reported without its rook, and then answers nothing. */
    {"castling, Black's, long, the king first",
     "d2d4 d7d5 c1f4 c8f5 e2e3 b8c6 g1f3 d8d7 f1e2 e8. c8k 500 a8. d8r e1g1 h1f1",
     "d2d4 d7d5 c1f4 c8f5 e2e3 b8c6 g1f3 d8d7 f1e2 e8c8 e1g1"},
    {"half castled, and another adjusted", ITALIAN "e1. g1K 900 a2. 900 a2P 900 h1. f1R d7d6",
     ITALIAN "e1g1 d7d6"},
    {"a queen doesn't castle",
     "e2e4 e7e5 e1e2 a7a6 d1e1 a6a5 e2d1 a5a4 f1e2 b7b6 g1f3 b6b5 e1g1 b5b4",
     "e2e4 e7e5 e1e2 a7a6 d1e1 a6a5 e2d1 a5a4 f1e2 b7b6 g1f3 b6b5 e1g1 b5b4"},
    {"no castling over a piece", "e1. g1. g1K 900 g1. e1K g1N e2e4", "e2e4"},

    {"no castling through check", FIANCHETTO "e1. g1K 900 h1. f1R 900 g1. e1K f1. h1R 900 d2d3",
     FIANCHETTO "d2d3"},
    {"a rook's move that looks like that", FIANCHETTO "h1. f1R 400 h5h4", FIANCHETTO "h1f1 h5h4"},
    {"no castling after a king's move", ITALIAN "e1e2 a7a6 e2e1 a6a5 e1. g1K 900 g1. e1K d2d3",
     ITALIAN "e1e2 a7a6 e2e1 a6a5 d2d3"},

    {"no move leaves the king in check", CHECK "b1. c3N 900 c3. b1N g2g3", CHECK "g2g3"},
    {"no king moves into check", CHECK "e1. f2K 900 f2. e1K g2g3", CHECK "g2g3"},

    {"in passing, the taken pawn off last", PASSING "e5. d6P d5. g8f6", PASSING "e5d6 g8f6"},
    {"in passing, the taken pawn off late", PASSING "e5. d6P 900 d5. 900 g8f6",
     PASSING "e5d6 g8f6"},
    {"in passing, the taken pawn off first", PASSING "d5. e5. d6P g8f6", PASSING "e5d6 g8f6"},
    {"in passing, both in hand", PASSING "e5. d5. d6P g8f6", PASSING "e5d6 g8f6"},
    {"in passing, not later", PASSING "g1f3 a6a5 e5. d6P d5. 900 d6. e5P d5p b1c3",
     PASSING "g1f3 a6a5 b1c3"},
    {"in passing, in no other rank",
     "e2e3 d7d5 a2a3 d5d4 e3e4 a7a6 d4. e4. d5P 900 d5. e4P d4p g1f3",
     "e2e3 d7d5 a2a3 d5d4 e3e4 a7a6 g1f3"},
    {"in passing, Black's", "h2h3 d7d5 h3h4 d5d4 e2e4 d4. e3p e4. a2a3",
     "h2h3 d7d5 h3h4 d5d4 e2e4 d4e3 a2a3"},

    {"promotion", SEVENTH "g8. h7. g8Q b7b6", SEVENTH "h7g8Q b7b6"},
    {"promotion to a knight", SEVENTH "h7. g8. g8N b7b6", SEVENTH "h7g8N b7b6"},
    {"promotion, the pawn put there first", SEVENTH "g8. h7. g8P g8. g8Q b7b6",
     SEVENTH "h7g8Q b7b6"},
    {"promotion, the pawn left there", SEVENTH "g8. h7. g8P 900 g8. 900 g8Q b7b6",
     SEVENTH "h7g8Q b7b6"},
    {"promotion, the pawn never replaced", SEVENTH "g8. h7. g8P b7b6", SEVENTH "h7g8Q b7b6"},
    {"no promotion before the last rank", "e2. e4Q 900 e4. e2P d2d4", "d2d4"},
    {"no piece but a pawn is promoted", "g1. f3B 900 f3. f3N", "g1f3"},

    {"taken back", "e2e4 e4e2 d2d4", "e2e4 d2d4"},
    {"the first move, taken back and made again", "e2e4 e4e2 e2e4 e7e5", "e2e4 e2e4 e7e5"},
    {"taken back and made again", "e2e4 e7e5 g1f3 f3g1 g1f3 b8c6", "e2e4 e7e5 g1f3 b8c6"},
    {"taken back, made again and answered at once", "e2e4 e7e5 g1f3 f3g1 g1. f3N b8. c6n f1c4",
     "e2e4 e7e5 g1f3 b8c6 f1c4"},
    {"two taken back and made again", "e2e4 e7e5 g1f3 b8c6 c6b8 f3g1 g1f3 b8c6 f1c4",
     "e2e4 e7e5 g1f3 b8c6 f1c4"},
    {"two taken back, and another made again", "e2e4 e7e5 g1f3 b8c6 c6b8 f3g1 g1f3 d7d6 f1c4",
     "e2e4 e7e5 g1f3 b8c6 d7d6 f1c4"},
    {"taken back, another made, and then it", "e2e4 e7e5 g1f3 f3g1 b1c3 c3b1 g1f3",
     "e2e4 e7e5 g1f3 b1c3 g1f3"},
    {"another game with the same moves", "e2e4 e7e5 e5e7 e4e2 e2e4 e7e5 g1f3",
     "e2e4 e7e5 e2e4 e7e5 g1f3"},
    {"two moves taken back", "e2e4 e7e5 e5e7 e4e2 d2d4", "e2e4 e7e5 d2d4"},
    {"two moves taken back at once", "e2e4 e7e5 g1f3 b8c6 c6. f3. g1N b8n d2d4",
     "e2e4 e7e5 g1f3 b8c6 d2d4"},
    {"a capture taken back", "e2e4 d7d5 e4d5 d5. e4P 900 d5p e4e5", "e2e4 d7d5 e4d5 e4e5"},
    {"a capture taken back, the taken one first", "e2e4 d7d5 e4d5 d5p 900 e4P e4e5",
     "e2e4 d7d5 e4d5 e4e5"},
    {"castling taken back", ITALIAN "e1. g1K h1. f1R 900 g1. e1K 900 f1. h1R d2d3",
     ITALIAN "e1g1 d2d3"},
    {"castling taken back, the rook first", ITALIAN "e1. g1K h1. f1R 900 f1. h1R 900 g1. e1K d2d3",
     ITALIAN "e1g1 d2d3"},
    /* Half a castling isn't reported: the position is none of the game. */
    {"half castling taken back", ITALIAN "e1. g1K 900 g1. e1K d2d3", ITALIAN "d2d3"},
    {"a promotion taken back", SEVENTH "g8. h7. g8Q 900 g8. 900 h7P 900 g8n 900 h7. g8. g8R b7b6",
     SEVENTH "h7g8Q b7b6"},
    {"a promotion taken back with its answer, and both made again",
     SEVENTH "h7. g8. g8Q 900 b7b6 b6b7 g8. 900 h7P 900 g8n 900 h7. g8. g8R b7b6 g1f3",
     SEVENTH "h7g8Q b7b6 g1f3"},
    {"put elsewhere after all, and answered", "e2e3 e3. e4P 900 e7e5 900 e4. e3P d2d4",
     "e2e3 e7e5 d2d4"},
    {"put elsewhere after all", "e2e3 e3. e4P 900 e4. e3P e7e5", "e2e3 e7e5"},
    {"put elsewhere after all, and never put right", "e2e3 e3. e4P 900 e7e5 d2d4", "e2e3"},
    {"the own castling, the rook long before", ITALIAN "h1. f1R 2500 e1. g1K 900 g1. e1K d7d6",
     ITALIAN "h1f1 d7d6"},

    {"the other side's, slid on late", "e2e4 e7e6 e6e5 g1f3", "e2e4 e7e6 e7e5 g1f3"},
    {"the other side's, put right by a leap", "e2e4 b8a6 a6c6 g1f3", "e2e4 b8a6 b8c6 g1f3"},
    {"put right by a leap, and answered at once", "e2e4 b8a6 a6. c6n g1. f3N b7b6",
     "e2e4 b8a6 b8c6 g1f3 b7b6"},
    {"put right, and taken at once", "d2d4 e7e6 e6. e5p e5. d4. e5P a7a6",
     "d2d4 e7e6 e7e5 d4e5 a7a6"},
    {"put right, slid up to what it takes", "e2e4 d7d5 e4d5 d8d6 d6. d7q d5. d7. d5q b1c3",
     "e2e4 d7d5 e4d5 d8d6 d8d5 b1c3"},
    {"put right twice, and taken back", "e2e4 e7e6 e6e5 e5e6 e6e7 d7d5",
     "e2e4 e7e6 e7e5 e7e6 d7d5"},
    {"put right, but not behind the answer", "e2e4 b8a6 g1f3 a6c6 900 c6a6 b7b6",
     "e2e4 b8a6 g1f3 b7b6"},
    {"the other side's castling, the rook long before",
     BISHOP "f8c5 b1c3 h8. f8r 2500 e8. g8k c1e3", BISHOP "f8c5 b1c3 h8f8 e8g8 c1e3"},
    {"the other side's castling, the rook long after",
     BISHOP "f8c5 b1c3 e8. g8k 2500 h8. f8r c1e3", BISHOP "f8c5 b1c3 e8g8 c1e3"},
    {"in passing by the other side, the pawn off late",
     "a2a3 d7d5 a3a4 d5d4 e2e4 d4. e3p 2500 e4. d2e3",
     "a2a3 d7d5 a3a4 d5d4 e2e4 d4e3 d2e3"},
    {"White's, where Black plays", "black e2e3 e3e4 e7e6 e6e5 900 e5e6 d2d4",
     "e2e3 e2e4 e7e6 d2d4"},
    {"nobody's, where both are wanted", "both e2e4 e7e6 e6e5 900 e5e6 d2d4", "e2e4 e7e6 d2d4"},

    {"set up again, piece by piece", "e2e4 e7e5 g1f3 f3g1 e4e2 e5e7 d2d4", "e2e4 e7e5 g1f3 d2d4"},
    {"set up again, a piece that goes home by a move", "e2e4 g8f6 e4. e2P 900 f6g8 d2d4",
     "e2e4 g8f6 d2d4"},
    {"set up again, from a heap", SEVENTH "h8. g8. h7. a5. h8r g8n 900 h7p a7p 900 g7p h2P d2d4",
     SEVENTH "d2d4"},
    {"set up again, the kings last",
     "e2e4 e1. e8. e4. d8. d1. a8. 1500 e3P 1500 g3K g6k 1100 e3e4 g6g5", "e2e4 e3e4 g6g5"},
    {"the same, and Black moves first",
     "e2e4 e1. e8. e4. d8. d1. a8. 1500 e3P 1500 g3K g6k 1100 g6g5 e3e4", "e2e4 g6g5 e3e4"},
    {"set up, at first as no game reaches it",
     "e2e4 e1. e8. d8. d1. a8. 1500 g3K f4k 1500 f4. g6k 1100 e4e5", "e2e4 e4e5"},
    {"a king's move, with the other king adjusted", "e2e4 e7e5 e1. e8. e8k e2K", "e2e4 e7e5 e1e2"},
    {"both kings adjusted", "e1. e8. 1500 e1K e8k e2e4", "e2e4"},

    {"a turned board", "turned d7d5 d2d4 turned", "e2e4 e7e5"},
    {"turned between two games", "e2e4 turned d7d5", "e2e4 e2e4"},
    {"turned after a move was taken back", "e2e4 e7e5 g1f3 f3g1 turned b8c6",
     "e2e4 e7e5 g1f3 g1f3"},
    {"a castling on a turned board",
     "turned d7d5 d2d4 b8c6 g1f3 c8f5 c1f4 d8. b8K 900 a8. c8R e2e3", ITALIAN "e1g1 d7d6"},
    {"what is nobody's", "e2. e4X 900 e4. e2P d2d4", "d2d4"},
};

static game followed;
static uint8_t squares[64];
static long long now;
static char told[512];

static void tell(const move *made) {
    const uint8_t ends[2] = {made->from, made->to};
    char text[8] = "", *end = text;
    if (told[0] != '\0') *end++ = ' ';
    for (int each = 0; each < 2; each++) {
        *end++ = (char)('a' + ends[each] % 8);
        *end++ = (char)('8' - ends[each] / 8);
    }
    if (made->becomes != made->piece) *end++ = LETTERS[made->becomes];
    strcat(told, text);
}

static void pass(int milliseconds) {
    move made;
    for (; milliseconds > 0; milliseconds -= 10) {
        now += 10;
        while (game_next(&followed, now, &made)) tell(&made);
    }
}

/* Shows the position again. */
static void show(void) {
    game_see(&followed, now, squares, true);
    pass(60);
}

static uint8_t square_of(const char *name) {
    return (uint8_t)(8 * ('8' - name[1]) + name[0] - 'a');
}

static void put(uint8_t square, uint8_t piece) {
    squares[square] = piece;
    show();
}

static uint8_t piece_of(char letter) {
    const char *at = strchr(LETTERS, letter);
    return at ? (uint8_t)(at - LETTERS) : 13;
}

/* The board is turned by its owner, with the pieces in the position in which a game begins. */
static void set_up_turned(void) {
    for (int square = 0; square < 64; square++) squares[square] = piece_of(START[63 - square]);
    show();
    pass(400);
}

/* The same position, in a game with another player. */
static void begin_for(enum plays plays) {
    if (!game_begin(&followed, plays, 0)) abort();
    show();
}

static void make(const char *step) {
    size_t length = strlen(step);
    if (strcmp(step, "turned") == 0) {
        set_up_turned();
    } else if (strcmp(step, "seen") == 0) {
        show();
    } else if (strcmp(step, "black") == 0) {
        begin_for(PLAYS_BLACK);
    } else if (strcmp(step, "both") == 0) {
        begin_for(PLAYS_BOTH);
    } else if (step[0] >= '0' && step[0] <= '9') {
        pass(atoi(step));
    } else if (length == 3) {
        put(square_of(step), piece_of(step[2]));
    } else {
        uint8_t from = square_of(step), to = square_of(step + 2), piece = squares[from];
        if (squares[to] != 0) put(to, 0);
        put(from, 0);
        put(to, piece);
        pass(400);
    }
}

static bool passes(const struct test_case *tried) {
    char steps[256];
    now = 1000;
    told[0] = '\0';
    for (int square = 0; square < 64; square++) squares[square] = piece_of(START[square]);
    begin_for(BY_THE_BOARD);
    snprintf(steps, sizeof steps, "%s", tried->steps);
    for (char *step = strtok(steps, " "); step; step = strtok(NULL, " ")) make(step);
    pass(12000);
    if (strcmp(told, tried->told) == 0) return true;
    printf("%s: told '%s' instead of '%s'\n", tried->name, told, tried->told);
    return false;
}

int main(void) {
    size_t all = sizeof CASES / sizeof *CASES, wrong = 0;
    for (size_t index = 0; index < all; index++) wrong += !passes(&CASES[index]);
    printf("test_moves: %zu cases, %zu wrong\n", all, wrong);
    return wrong != 0;
}
