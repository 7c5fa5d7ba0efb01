/* Answers tests/libraries/chess_rules by dgt.h. */
#include "dgt.h"

#include <inttypes.h>
#include <stdio.h>
#include <stdlib.h>
#include <string.h>

enum { MOST_MOVES = 256, GAME = 100, REMEMBERED = 8 };

static size_t list_moves(const dgt_chess_state *state, dgt_chess_move moves[MOST_MOVES]) {
    static const uint8_t MEN[4] = {6, 2, 4, 3};
    uint64_t goals[64];
    size_t count = 0;
    if (!dgt_chess_goals(state, goals)) exit(1);
    for (uint8_t from = 0; from < 64; from++) {
        bool is_pawn = state->pieces[from] == 1 || state->pieces[from] == 7;
        for (uint8_t to = 0; to < 64; to++) {
            bool promotes = is_pawn && (to < 8 || to >= 56);
            for (int man = 0; goals[from] >> to & 1 && man < (promotes ? 4 : 1); man++)
                moves[count++] = (dgt_chess_move){from, to, promotes ? MEN[man] : 0, 0};
        }
    }
    return count;
}

static void print_move(const dgt_chess_move *move) {
    char from[3], to[3];
    dgt_square_name(move->from, from);
    dgt_square_name(move->to, to);
    printf("%s%s", from, to);
    if (move->promotion != 0) putchar(dgt_piece_letter((uint8_t)(move->promotion + 6)));
}

static void print_fen(const dgt_chess_state *state) {
    char fen[DGT_CHESS_FEN_ROOM];
    if (!dgt_chess_fen(state, fen)) exit(1);
    printf("%s", fen);
}

static void print_state(const dgt_chess_state *state, const dgt_chess_move *moves, size_t count) {
    char passed[3] = "-";
    if (state->passed != DGT_NO_SUCH) dgt_square_name(state->passed, passed);
    print_fen(state);
    printf("|%s|%d%d%d%d%d%d%d|", passed, dgt_chess_is_check(state),
           dgt_chess_can_move(state), dgt_chess_is_mate(state), dgt_chess_is_stalemate(state),
           dgt_chess_is_dead(state), dgt_chess_is_fifty_moves(state),
           dgt_chess_is_seventy_five_moves(state));
    for (size_t each = 0; each < count; each++) {
        if (each > 0) putchar(' ');
        print_move(&moves[each]);
    }
}

static void read(const char *fen, dgt_chess_state *state) {
    dgt_chess_move moves[MOST_MOVES];
    dgt_chess_fen_read read = dgt_chess_parse_fen(fen, strlen(fen), state);
    if (read.status == DGT_CHESS_BAD_TEXT) printf("text %d %zu", read.field, read.at);
    else if (read.status != DGT_CHESS_DONE) printf("impossible %d", read.status);
    else print_state(state, moves, list_moves(state, moves));
}

static void print_read(uint8_t status, const dgt_chess_move *move) {
    if (status == DGT_CHESS_DONE) print_move(move);
    else printf("%d", status);
}

static void san(const dgt_chess_state *state, const char *text) {
    dgt_chess_move move;
    size_t n = strlen(text);
    print_read(dgt_chess_parse_san(state, text, n, &move), &move);
    putchar(' ');
    print_read(dgt_chess_parse_san_leniently(state, text, n, &move), &move);
}

static size_t perft(const dgt_chess_state *state, int depth) {
    dgt_chess_move moves[MOST_MOVES];
    size_t count = list_moves(state, moves), all = 0;
    if (depth == 1) return count;
    for (size_t each = 0; each < count; each++) {
        dgt_chess_state after = *state;
        if (!dgt_chess_play(&after, &moves[each])) exit(1);
        all += perft(&after, depth - 1);
    }
    return all;
}

/* Makes a move, and prints what the calls say of it. */
static void make(dgt_chess_state *state, const dgt_chess_move *move) {
    dgt_chess_state after = *state;
    dgt_chess_move found;
    char text[DGT_CHESS_SAN_ROOM];
    if (!dgt_chess_play(&after, move) || !dgt_chess_san(state, move, text)) exit(1);
    if (!dgt_chess_move_to(state, after.pieces, &found)) exit(1);
    putchar('|');
    print_move(move);
    printf(" %s ", text);
    san(state, text);
    putchar(' ');
    print_move(&found);
    *state = after;
}

static void walk(const dgt_chess_state *start, int count) {
    dgt_chess_state history[GAME + 1] = {*start};
    uint64_t random = 1;
    for (int made = 0; count > 0; count--) {
        dgt_chess_state *state = &history[made];
        dgt_chess_move moves[MOST_MOVES];
        size_t choices = list_moves(state, moves);
        int repeated = 0;
        print_state(state, moves, choices);
        for (int each = made > REMEMBERED ? made - REMEMBERED : 0; each < made; each++)
            repeated += dgt_chess_is_repeated(state, &history[each]);
        printf("|%d", repeated);
        if (choices > 0 && made < GAME) {
            random = random * UINT64_C(6364136223846793005) + UINT64_C(1442695040888963407);
            history[made + 1] = *state;
            make(&history[++made], &moves[(random >> 33) % choices]);
        } else {
            made = 0;
        }
        putchar('\n');
    }
}

static void print_event(const dgt_game_event *event) {
    static const char *const RESULTS[] = {"", "1-0", "0-1", "1/2-1/2"};
    switch (event->kind) {
    case DGT_GAME_BEGUN: printf("game "), print_fen(&event->state); break;
    case DGT_GAME_MADE: break;
    case DGT_GAME_UNSEEN: printf("unseen"); break;
    case DGT_GAME_GAP: printf("gap %d ", event->count), print_fen(&event->state); break;
    case DGT_GAME_BACK: printf("back %d%s", event->count, event->stays ? " stays" : ""); break;
    case DGT_GAME_ENDED: printf("%s", RESULTS[event->result]); break;
    case DGT_GAME_LOST: printf("lost"); break;
    default: printf("found");
    }
    if (event->turned) printf(" turned");
    for (int each = 0; each < DGT_MAX_UNSEEN && event->moves[each].from != event->moves[each].to;
         each++) {
        if (event->kind == DGT_GAME_UNSEEN) putchar(' ');
        print_move(&event->moves[each]);
    }
    for (uint8_t square = 0; square < 64; square++) {
        char name[3];
        if (!(event->squares >> square & 1)) continue;
        dgt_square_name(square, name);
        printf(" %s", name);
    }
    putchar(';');
}

static void print_due(dgt_recogniser *recogniser, uint64_t at) {
    dgt_game_event event;
    while (dgt_recogniser_due(recogniser, at, &event)) print_event(&event);
}

static void print_known(dgt_recogniser *recogniser) {
    uint64_t time;
    dgt_chess_state state;
    if (dgt_recogniser_due_at(recogniser, &time)) printf("|%" PRIu64 "|", time);
    else printf("|-|");
    if (dgt_recogniser_state(recogniser, &state)) print_fen(&state);
}

static void from(dgt_recogniser *recogniser, const char *rest) {
    dgt_chess_state state;
    if (dgt_chess_parse_fen(rest + 2, strlen(rest + 2), &state).status != DGT_CHESS_DONE) exit(1);
    if (dgt_recogniser_go_on(recogniser, &state, rest[0] == '1') != DGT_CHESS_DONE) exit(1);
}

static void board(dgt_recogniser *recogniser, const char *rest) {
    uint64_t at;
    char how[4], text[DGT_PLACEMENT_ROOM];
    uint8_t pieces[64], status = DGT_SEE_STILL_DUE;
    if (sscanf(rest, "%" SCNu64 " %3s %71s", &at, how, text) != 3) exit(1);
    if (!dgt_parse_placement(text, strlen(text), pieces).ok) exit(1);
    uint8_t sight = how[0] == 's' ? DGT_SIGHT_SURE : how[0] == 'd' ? DGT_SIGHT_DOUBTED
                                                                   : DGT_SIGHT_AWAY;
    uint8_t running = how[2] == 'w' ? DGT_CHESS_WHITE : how[2] == 'b' ? DGT_CHESS_BLACK
                                                                      : DGT_NO_SUCH;
    while (status == DGT_SEE_STILL_DUE) {
        print_due(recogniser, at);
        status = dgt_recogniser_see(recogniser, at, pieces, sight, how[1] == 'c', running);
    }
    if (status != DGT_SEEN) exit(1);
    print_due(recogniser, at);
}

static void games(dgt_recogniser *recogniser, char word, const char *rest) {
    if (word == 'a' && !dgt_recogniser_init(recogniser)) exit(1);
    if (word == 'f') from(recogniser, rest);
    if (word == 'b') board(recogniser, rest);
    if (word == 'd') print_due(recogniser, strtoull(rest, NULL, 10));
    print_known(recogniser);
}

int main(void) {
    static dgt_recogniser recogniser;
    char line[256];
    dgt_chess_state state;
    while (fgets(line, sizeof line, stdin)) {
        line[strcspn(line, "\n")] = '\0';
        char *rest = strchr(line, ' ') + 1;
        if (line[0] == 'r') read(rest, &state);
        else if (line[0] == 's') san(&state, rest);
        else if (line[0] == 'p') printf("%zu", perft(&state, atoi(rest)));
        else if (line[0] == 'w') walk(&state, atoi(rest));
        else games(&recogniser, line[0], rest);
        if (line[0] != 'w') putchar('\n');
    }
    return 0;
}
