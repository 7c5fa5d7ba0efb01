// Answers tests/libraries/chess_rules by dgt.hpp.
#include "dgt.hpp"

#include <cstdio>
#include <iostream>
#include <sstream>

namespace {

using namespace dgt::chess;

const std::size_t GAME = 100, REMEMBERED = 8;

std::vector<Move> moves(const State &state) {
    std::vector<Move> moves;
    const auto goals = state.goals();
    for (unsigned from = 0; from < 64; from++) {
        auto piece = state.position()[dgt::Square(from)];
        bool is_pawn = piece == dgt::Piece::white_pawn || piece == dgt::Piece::black_pawn;
        for (unsigned to = 0; to < 64; to++) {
            if (!(goals[from] >> to & 1)) continue;
            Move move{dgt::Square(from), dgt::Square(to)};
            if (is_pawn && (to < 8 || to >= 56)) {
                for (Man man : {Man::queen, Man::rook, Man::bishop, Man::knight}) {
                    move.promotion = man;
                    moves.push_back(move);
                }
            } else {
                moves.push_back(move);
            }
        }
    }
    return moves;
}

std::string text(const Move &move) {
    std::string text = move.from.name() + move.to.name();
    return move.promotion ? text + " prnbkq"[static_cast<unsigned>(*move.promotion)] : text;
}

std::string text(const State &state, const std::vector<Move> &moves) {
    std::string text = state.fen() + "|" + (state.passed() ? state.passed()->name() : "-") + "|";
    for (bool holds : {state.is_check(), state.can_move(), state.is_mate(), state.is_stalemate(),
                       state.is_dead(), state.is_fifty_moves(), state.is_seventy_five_moves()})
        text += holds ? '1' : '0';
    char between = '|';
    for (const Move &move : moves) {
        text += between + ::text(move);
        between = ' ';
    }
    return between == '|' ? text + between : text;
}

std::string text(const State &state) {
    return text(state, moves(state));
}

template <class Read> std::string read(Read &&read) {
    try {
        return text(read());
    } catch (const BadFen &wrong) {
        return "text " + std::to_string(static_cast<int>(wrong.field())) + " " +
               std::to_string(wrong.at());
    } catch (const Impossible &wrong) {
        return "impossible " + std::to_string(static_cast<int>(wrong.why()));
    } catch (const BadSan &wrong) {
        return std::to_string(static_cast<int>(wrong.why()));
    }
}

std::string san(const State &state, std::string_view text) {
    return read([&] { return state.parse_san(text); }) + " " +
           read([&] { return state.parse_san_leniently(text); });
}

std::size_t perft(const State &state, int depth) {
    std::size_t count = 0;
    for (const Move &move : moves(state))
        count += depth == 1 ? 1 : perft(state.play(move), depth - 1);
    return count;
}

void walk(const State &start, int count) {
    std::vector<State> game{start};
    std::uint64_t random = 1;
    for (; count > 0; count--) {
        const State state = game.back();
        const std::vector<Move> choices = moves(state);
        auto first = game.size() > REMEMBERED ? game.end() - REMEMBERED - 1 : game.begin();
        auto repeated = state.repetitions(std::vector<State>(first, game.end() - 1));
        std::cout << text(state, choices) << "|" << repeated;
        if (!choices.empty() && game.size() <= GAME) {
            random = random * UINT64_C(6364136223846793005) + UINT64_C(1442695040888963407);
            const Move move = choices[(random >> 33) % choices.size()];
            const State after = state.play(move);
            const std::string name = state.san(move);
            std::cout << "|" << text(move) << " " << name << " " << san(state, name) << " "
                      << text(state.move_to(after.position()).value());
            game.push_back(after);
        } else {
            game.resize(1, start);
        }
        std::cout << "\n";
    }
}

// ---- Games

std::string text(const dgt::game::Begun &begun) {
    return "game " + begun.state.fen() + (begun.is_turned ? " turned" : "");
}

std::string text(const dgt::game::Made &made) {
    return text(made.move);
}

std::string text(const dgt::game::Unseen &unseen) {
    std::string told = "unseen";
    for (const Move &move : unseen.moves) told += " " + text(move);
    return told;
}

std::string text(const dgt::game::Gap &gap) {
    return "gap " + std::to_string(gap.count) + " " + gap.state.fen();
}

std::string text(const dgt::game::Back &back) {
    return "back " + std::to_string(back.count) + (back.stays ? " stays" : "");
}

std::string text(const dgt::game::Ended &ended) {
    return ended.result == dgt::GameResult::white_wins   ? "1-0"
           : ended.result == dgt::GameResult::black_wins ? "0-1"
                                                         : "1/2-1/2";
}

std::string text(const dgt::game::Lost &lost) {
    std::string told = "lost";
    for (unsigned square = 0; square < 64; square++)
        if (lost.squares >> square & 1) told += " " + dgt::Square(square).name();
    return told;
}

std::string text(const dgt::game::Found &) {
    return "found";
}

std::vector<dgt::GameEvent> board(dgt::Recogniser &recogniser, std::istringstream words) {
    std::int64_t at = 0;
    std::string how, placement;
    words >> at >> how >> placement;
    std::optional<dgt::Position> position;
    if (how[0] != 'a') position = dgt::Position(placement);
    dgt::Sight sight{how[0] == 's', how[1] == 'c'};
    if (how[2] != '-') sight.running = how[2] == 'w' ? Colour::white : Colour::black;
    return recogniser.see(dgt::Milliseconds(at), position, sight);
}

std::string games(std::optional<dgt::Recogniser> &recogniser, char word, const std::string &rest) {
    std::vector<dgt::GameEvent> events;
    if (word == 'a') recogniser.emplace();
    else if (word == 'f') recogniser->go_on(State(rest.substr(2)), rest[0] == '1');
    else if (word == 'b') events = board(*recogniser, std::istringstream(rest));
    else events = recogniser->due(dgt::Milliseconds(std::stoll(rest)));
    std::string told;
    for (auto &event : events)
        told += std::visit([](auto &it) { return text(it); }, event) + ";";
    const auto due_at = recogniser->due_at();
    told += "|" + (due_at ? std::to_string(due_at->count()) : "-") + "|";
    return recogniser->state() ? told + recogniser->state()->fen() : told;
}

} // namespace

int main() {
    State state = State::start();
    std::optional<dgt::Recogniser> recogniser;
    for (std::string line; std::getline(std::cin, line);) {
        const std::string rest = line.substr(line.find(' ') + 1);
        if (line[0] == 'r') std::cout << read([&] { return state = State(rest); }) << "\n";
        else if (line[0] == 's') std::cout << san(state, rest) << "\n";
        else if (line[0] == 'p') std::cout << perft(state, std::stoi(rest)) << "\n";
        else if (line[0] == 'w') walk(state, std::stoi(rest));
        else std::cout << games(recogniser, line[0], rest) << "\n";
    }
}
