#include "moves.h"

#include <limits.h>
#include <string.h>

enum { WHITE_PAWN = 1, WHITE_QUEEN = 6, BLACK_PAWN = 7, BLACK_QUEEN = 12 };

enum side side_of(uint8_t piece) {
    if (piece >= 1 && piece <= 6) return WHITE;
    if (piece >= 7 && piece <= 12) return BLACK;
    return NOBODY;
}

bool game_begin(game *game, enum plays plays, int pause) {
    memset(game, 0, sizeof *game);
    game->plays = plays;
    game->pause = pause;
    game->wrong = INT_MAX;
    return dgt_recogniser_init(&game->recogniser);
}

enum side game_player(const game *game) {
    if (game->plays == PLAYS_WHITE) return WHITE;
    if (game->plays == PLAYS_BLACK) return BLACK;
    return game->turned ? BLACK : WHITE;
}

bool game_wants(const game *game, enum side side) {
    return side != NOBODY && (game->plays == PLAYS_BOTH || side == game_player(game));
}

/* Whether a piece of the player, or its castling, went on after its move was reported. */
static bool goes_on(const game *game, const move *told, const move *made) {
    bool is_castling = 2 * told->to == made->from + made->to;
    return (told->from == made->from || is_castling) && game_wants(game, side_of(told->piece));
}

/* Adds a move. It may be the one that was taken back here. Or it `corrects` that one, which the
 * program can't take back: then nothing is reported until it is made again. */
static void add(game *game, const move *made, bool corrects) {
    move *at = &game->moves[game->made % REMEMBERED];
    bool has_it = game->made < game->told, is_same = at->from == made->from && at->to == made->to;
    bool is_wrong = has_it && !is_same && corrects && goes_on(game, at, made);
    if (game->wrong >= game->made) game->wrong = is_wrong ? game->made : INT_MAX;
    if (!has_it || !(is_same || is_wrong)) {
        *at = *made;
        if (has_it) game->told = game->made;
    }
    game->made++;
}

static void make(game *game, const dgt_chess_move *one, bool corrects) {
    move made = {one->from, one->to, game->state.pieces[one->from], 0};
    if (!dgt_chess_play(&game->state, one)) return;
    made.becomes = game->state.pieces[one->to];
    add(game, &made, corrects);
}

static void take_event(game *game, const dgt_game_event *event, bool corrects) {
    static const move UNKNOWN;
    switch (event->kind) {
    case DGT_GAME_BEGUN:
        game->turned = event->turned != 0;
        game->made = game->told = 0;
        game->wrong = INT_MAX;
        game->state = event->state;
        break;
    case DGT_GAME_MADE:
    case DGT_GAME_UNSEEN:
        for (int each = 0; each < event->count; each++) make(game, &event->moves[each], corrects);
        break;
    case DGT_GAME_GAP:
        for (int each = 0; each < event->count; each++) add(game, &UNKNOWN, false);
        game->state = event->state;
        break;
    case DGT_GAME_BACK:
        game->made = game->made > event->count ? game->made - event->count : 0;
        if (!dgt_recogniser_state(&game->recogniser, &game->state)) game->made = 0;
        break;
    default: break;
    }
}

static void take_events(game *game, long long now) {
    dgt_chess_state start;
    dgt_game_event event;
    bool is_back = false;
    while (dgt_recogniser_due(&game->recogniser, (uint64_t)now, &event)) {
        take_event(game, &event, is_back);
        is_back = event.kind == DGT_GAME_BACK;
        game->ready = now + game->pause;
    }
    /* In the starting position this may be another game, of which nothing was reported. */
    dgt_chess_start(&start);
    if (is_back && memcmp(game->state.pieces, start.pieces, 64) == 0) game->told = game->made;
}

void game_see(game *game, long long now, const uint8_t *pieces, bool confirmed) {
    take_events(game, now);
    for (int square = 0; pieces && square < 64; square++) {
        uint8_t piece = pieces[square];
        bool is_last = square < 8 || square >= 56; /* a pawn that is left there is a queen */
        if (is_last && piece == WHITE_PAWN) piece = WHITE_QUEEN;
        if (is_last && piece == BLACK_PAWN) piece = BLACK_QUEEN;
        game->shown[square] = piece;
    }
    uint8_t sight = pieces ? DGT_SIGHT_SURE : DGT_SIGHT_AWAY;
    uint8_t seen = dgt_recogniser_see(&game->recogniser, (uint64_t)now, game->shown, sight,
                                      confirmed, DGT_NO_SUCH);
    game->is_confirmed = seen == DGT_SEEN && confirmed;
}

void game_forget(game *game) {
    game->state = game->sure;
    game->made = game->sure_made;
    if (dgt_recogniser_go_on(&game->recogniser, &game->state, game->turned) != DGT_CHESS_DONE)
        dgt_recogniser_make(&game->recogniser);
}

static bool has_next(const game *game) {
    return game->is_confirmed && game->told < game->made && game->made <= game->wrong;
}

bool game_next(game *game, long long now, move *made) {
    uint64_t due;
    take_events(game, now);
    if (!game->is_confirmed || dgt_recogniser_due_at(&game->recogniser, &due)) return false;
    game->sure = game->state;
    game->sure_made = game->made;
    if (!has_next(game) || (game->told + 1 == game->made && now < game->ready)) return false;
    *made = game->moves[game->told++ % REMEMBERED];
    return true;
}

long long game_due(game *game) {
    uint64_t due;
    if (dgt_recogniser_due_at(&game->recogniser, &due)) return (long long)due;
    return has_next(game) ? game->ready : LLONG_MAX;
}

bool game_waits(const game *game) {
    for (int square = 0; square < 64; square++)
        if (game->shown[game->turned ? 63 - square : square] != game->state.pieces[square])
            return true;
    return game->told < game->made;
}
