// Tests dgt.hpp and dgt_port.hpp. Without a word it makes each call at least once. It prints the
// first difference from these headers and exits with 1, or exits with 0. With a word it reads
// standard input in chunks of N bytes:
//
//     events N, host N   writes the lines of `dgt monitor`, with a Decoder or a Host
//     pictures N         writes the lines of `dgt picture`, with a Host
//     words N            writes the lines of `dgt commands`, but those of clock messages as hex
//     board N            writes the replies of a Board
#include "dgt.hpp"
#include "dgt_port.hpp"

#include <stdlib.h>

#include <cstdio>
#include <cstdlib>
#include <filesystem>
#include <fstream>
#include <functional>
#include <iostream>
#include <iterator>
#include <memory>
#include <mutex>
#include <thread>

#if __cplusplus >= 202002L
#include <span>
#endif

#define CHECK(...)                                                         \
    do {                                                                   \
        if (!(__VA_ARGS__)) {                                              \
            std::fprintf(stderr, "line %d: %s\n", __LINE__, #__VA_ARGS__); \
            std::exit(1);                                                  \
        }                                                                  \
    } while (0)

namespace {

const char *const START = "rnbqkbnr/pppppppp/8/8/8/8/PPPPPPPP/RNBQKBNR";

template <class... Cases> struct Overloaded : Cases... {
    using Cases::operator()...;
};
template <class... Cases> Overloaded(Cases...) -> Overloaded<Cases...>;

std::string hex(dgt::ByteView bytes, const char *between = "") {
    std::string text;
    for (std::uint8_t byte : bytes) {
        char digits[3];
        std::snprintf(digits, sizeof digits, "%02x", byte);
        text += (text.empty() ? "" : between) + std::string(digits);
    }
    return text.empty() ? "-" : text;
}

std::string hex(std::uint8_t byte) {
    return hex({&byte, 1});
}

std::string text(const dgt::Event &event) {
    return to_string(event);
}

std::string name(dgt::Ask ask) {
    switch (ask) {
    case dgt::Ask::reset: return "reset";
    case dgt::Ask::clock: return "clock";
    case dgt::Ask::dump: return "dump";
    case dgt::Ask::update: return "update";
    case dgt::Ask::update_board: return "updateboard";
    case dgt::Ask::serial: return "serial";
    case dgt::Ask::trademark: return "trademark";
    case dgt::Ask::update_nice: return "updatenice";
    case dgt::Ask::battery: return "battery";
    case dgt::Ask::version: return "version";
    case dgt::Ask::long_serial: return "longserial";
    }
    return "no command";
}

/// The text of a word, as `dgt commands` writes it, but for a clock message.
std::string text(const dgt::Word &word) {
    return std::visit(
        Overloaded{
            [](const dgt::Asked &it) { return name(it.ask); },
            [](const dgt::ClockMessage &it) {
                return "clock " + hex(static_cast<std::uint8_t>(it.id)) + hex(it.payload);
            },
            [](const dgt::Leds &it) { return "leds " + hex(it.leds); },
            [](const dgt::BadSize &) { return std::string("badsize"); },
            [](const dgt::BadStart &) { return std::string("badstart"); },
            [](const dgt::BadEnd &) { return std::string("badend"); },
            [](const dgt::StrayByte &it) { return "stray " + hex(it.byte); },
        },
        word);
}

void write_line(std::size_t place, const std::string &line) {
    std::printf("%08zu %s\n", place, line.c_str());
}

// ---- As the program does.

using Step = std::function<std::size_t(dgt::ByteView, std::size_t)>;

/// Hands the bytes of standard input in chunks to a step that uses some of them, and learns how
/// many came before. Returns how many there were.
std::size_t in_chunks(std::size_t size, const Step &step) {
    dgt::Bytes chunk(size);
    for (std::size_t before = 0;;) {
        std::size_t n = std::fread(chunk.data(), 1, size, stdin);
        if (n == 0) return before;
        for (dgt::ByteView left(chunk.data(), n); !left.empty();) {
            std::size_t used = step(left, before);
            before += used;
            left = left.after(used);
        }
    }
}

void write_rest(std::size_t place, std::size_t rest) {
    if (rest > 0) write_line(place, "unfinished " + std::to_string(rest));
}

std::size_t write_event(const dgt::Heard &heard, std::size_t before) {
    if (heard.event) write_line(before + heard.used, text(*heard.event));
    return heard.used;
}

/// A message is viewed from the bytes that it is encoded as. Other events are not encoded.
void check_encoded(const dgt::Event &event) {
    try {
        dgt::Bytes bytes = dgt::encode_message(event);
        auto code = static_cast<std::uint8_t>(bytes.at(0) - 128);
        CHECK(text(dgt::view_message(code, dgt::ByteView(bytes).after(3))) == text(event));
    } catch (const std::invalid_argument &) {
        std::string line = text(event);
        std::string name = line.substr(0, line.find(' '));
        CHECK(name == "refused" || name == "cut" || name == "badlength" || name == "stray");
    }
}

void check_encoded(const dgt::Word &word) {
    try {
        std::optional<dgt::Word> viewed = dgt::view_command(dgt::encode_command(word));
        CHECK(viewed && text(*viewed) == text(word));
    } catch (const std::invalid_argument &) {
        std::string line = text(word);
        CHECK(line.substr(0, 3) == "bad" || line.substr(0, 5) == "stray");
    }
}

std::size_t write_picture(dgt::Host &host, dgt::ByteView bytes, std::size_t before) {
    dgt::Heard heard = host.hear_one(bytes);
    bool sets = heard.event && (std::holds_alternative<dgt::Dump>(*heard.event) ||
                                std::holds_alternative<dgt::Field>(*heard.event));
    if (sets && host.picture()) {
        CHECK(host.picture()->placement() == host.placement());
        write_line(before + heard.used, *host.placement());
    }
    return heard.used;
}

int run(const std::string &what, std::size_t size) {
    auto decoder = std::make_unique<dgt::Decoder>();
    auto host = std::make_unique<dgt::Host>();
    dgt::CommandDecoder reader;
    dgt::Board board;
    if (what == "events") {
        std::size_t n = in_chunks(size, [&](dgt::ByteView bytes, std::size_t before) {
            return write_event(decoder->feed_one(bytes), before);
        });
        write_rest(n, decoder->finish());
    } else if (what == "host") {
        std::size_t n = in_chunks(size, [&](dgt::ByteView bytes, std::size_t before) {
            host->hear(bytes, [&](const dgt::Event &event, std::size_t place) {
                write_line(before + place, text(event));
                check_encoded(event);
            });
            return bytes.size();
        });
        write_rest(n, host->unread());
    } else if (what == "pictures") {
        in_chunks(size, [&](dgt::ByteView bytes, std::size_t before) {
            return write_picture(*host, bytes, before);
        });
    } else if (what == "words") {
        std::size_t n = in_chunks(size, [&](dgt::ByteView bytes, std::size_t before) {
            dgt::Read read = reader.feed_one(bytes);
            if (read.word) write_line(before + read.used, text(*read.word));
            if (read.word) check_encoded(*read.word);
            return read.used;
        });
        write_rest(n, reader.finish());
    } else if (what == "board") {
        in_chunks(size, [&](dgt::ByteView bytes, std::size_t) {
            board.answer(bytes, [](const dgt::Message &message) {
                std::fwrite(message.data(), 1, message.size(), stdout);
            });
            return bytes.size();
        });
    } else {
        return 2;
    }
    return 0;
}

// ---- Each call.

/// The exception of a call, if it throws one of this kind.
template <class Error, class Call> std::optional<Error> thrown(Call &&call) {
    try {
        call();
    } catch (const Error &error) {
        return error;
    }
    return std::nullopt;
}

template <class Error, class Call> bool throws(Call &&call) {
    return thrown<Error>(call).has_value();
}

template <class Call> bool refuses(Call &&call) {
    return throws<std::invalid_argument>(call);
}

template <class Object> constexpr bool stays =
    !std::is_copy_constructible_v<Object> && !std::is_move_constructible_v<Object> &&
    !std::is_copy_assignable_v<Object> && !std::is_move_assignable_v<Object>;
static_assert(stays<dgt::Host> && stays<dgt::Follower> && stays<dgt::Decoder> &&
              stays<dgt::CommandDecoder> && stays<dgt::Board>);

void values() {
    using dgt::Piece;
    CHECK(dgt::letter(Piece::black_king) == 'k' && dgt::piece('X') == Piece::extra_x);
    CHECK(refuses([] { dgt::piece('x'); }));
    CHECK(dgt::Square("e4").number() == 36 && dgt::Square(63).name() == "h1");
    CHECK(dgt::Square("a8") == dgt::Square(0u) && dgt::Square("a8") != dgt::Square("a7"));
    for (const char *wrong : {"", "e", "i4", "e9", "e44"})
        CHECK(refuses([&] { dgt::Square{std::string_view(wrong)}; }));
    CHECK(refuses([] { dgt::Square(64); }) && refuses([] { dgt::Square(256); }));
    dgt::Position start = dgt::Position::start(), none;
    CHECK(start.placement() == START && start != none && start == dgt::Position(START));
    CHECK(none.placement() == "8/8/8/8/8/8/8/8" && none[dgt::Square("e1")] == Piece::none);
    CHECK(start[dgt::Square("e1")] == Piece::white_king && start.codes()[60] == 5);
    CHECK(start.differ(none) == UINT64_C(0xffff00000000ffff) && none.differ(none) == 0);
    CHECK(refuses([] { dgt::Position("8/8"); }) && refuses([] { dgt::Position(""); }));
    for (const auto &[wrong, at] : {std::pair("8/8", 3u), std::pair("8/8/q9/8", 5u)}) {
        const std::string text = wrong;
        const auto error = thrown<dgt::BadPlacement>([&] { dgt::Position{text}; });
        CHECK(error && error->at() == at && error->what() == "not a placement: '" + text + "'");
    }
    std::array<std::uint8_t, 64> codes{};
    codes[63] = 16;
    CHECK(refuses([&] { dgt::Position{codes}; }));
    CHECK(to_string(dgt::Time{1, 2, 33, 0}) == "1:02:33" && dgt::Time{1} != dgt::Time{1, 0, 0, 1});
    dgt::Times times{{1, 2, 3, 4}, {5, 6, 7, 0}, 0x09};
    CHECK(times.running() && times.black_turn() && !times.lever() && !times.white_turn());
    CHECK(times != dgt::Times{} && !times.battery_low() && dgt::NoClock{} == dgt::NoClock{});
}

void encodings() {
    using dgt::Bytes;
    CHECK(hex(dgt::encode_message(dgt::Field{dgt::Square("e2"), dgt::Piece::none})) ==
          "8e00053400");
    CHECK(refuses([] { dgt::encode_message(dgt::Cut{3}); }));
    CHECK(refuses([] { dgt::encode_message(dgt::Version{128, 0, false}); }));
    dgt::Event field = dgt::view_message(0x0e, Bytes{52, 0});
    CHECK(text(field) == "field e2 ." && text(dgt::view_message(5, {})) == "other 05 -");
    CHECK(text(dgt::view_message(0x0e, Bytes{52, 16})) == "refused 0e badpiece 1");
    CHECK(refuses([] { text(dgt::Version{128, 0, false}); }));
    CHECK(refuses([] { dgt::view_message(128, {}); }));
    const dgt::Word beep = dgt::ClockMessage{dgt::ClockId::beep, Bytes{3}};
    CHECK(hex(dgt::encode_command(beep)) == "2b04030b0300");
    const dgt::Word lit = dgt::lighting(dgt::Square("e2"), dgt::Square("e4"));
    CHECK(hex(dgt::encode_command(lit)) == "600401342400");
    CHECK(hex(dgt::encode_command(dgt::lighting())) == "600400404000");
    CHECK(refuses([] { dgt::encode_command(dgt::BadEnd{}); }));
    CHECK(refuses([] { dgt::encode_command(dgt::Leds{Bytes(256)}); }));
    CHECK(text(dgt::view_command(Bytes{0x60, 1, 7}).value()) == "leds 07");
    CHECK(!dgt::view_command(Bytes{0x60, 1}) && !dgt::view_command({}));
}

void names() {
    using dgt::Bytes;
    const auto stored = dgt::read_stored(Bytes{0x6f, 0x51, 0x24, 0x61, 0x30, 5, 0x41});
    CHECK(stored.size() == 4 && std::get<dgt::Mark>(stored[0]) == dgt::Mark::begin);
    const auto piece = std::get<dgt::StoredPiece>(stored[1]);
    CHECK(piece.square == dgt::Square("e4") && piece.piece == dgt::Piece::white_pawn && piece.bit);
    CHECK(std::get<dgt::StoredTime>(stored[2]).time == dgt::Time{1, 30, 5, 6});
    CHECK(std::get<dgt::UnknownByte>(stored[3]).byte == 0x41 && dgt::read_stored({}).empty());
    auto signal = [](const std::array<std::uint8_t, 4> &ack) {
        return dgt::signal_of(dgt::Ack{ack, 0}).value();
    };
    CHECK(std::get<dgt::Pressed>(signal({0x10, 0x88, 2, 0x33})).button == dgt::Button::run);
    CHECK(std::holds_alternative<dgt::Off>(signal({0x10, 0x88, 0x45, 0x35})));
    CHECK(std::get<dgt::Done>(signal({0x10, 8, 0, 0})).id == dgt::ClockId::button);
    CHECK(std::get<dgt::ClockVersion>(signal({0x10, 9, 0x21, 0})).main_number == 2);
    CHECK(std::holds_alternative<dgt::Ready>(signal({0x10, 0x81, 0, 0})));
    CHECK(!dgt::signal_of(dgt::Ack{{0x11, 9, 0x21, 0}, 0}));
    auto state = dgt::battery_of({Bytes{64, 127, 59, 1, 2, 3, 4, 5, 2}, false}).value();
    CHECK(state.percent == 64 && !state.hours_left && state.minutes_left == 59);
    CHECK(state.hours_on == 1 && state.minutes_on == 2 && state.days_resting == 3);
    CHECK(state.hours_resting == 4 && state.minutes_resting == 5);
    CHECK(!state.charging && state.discharging && !dgt::battery_of({Bytes{64}, false}));
    CHECK(dgt::text_of(Bytes{'D', ' ', '~'}) == "D ~" && !dgt::text_of({}) &&
          !dgt::text_of(Bytes{'D', 127}));
    dgt::Time time{0, 0, 0, 5};
    CHECK(time.blocked() && !time.per_move() && time.fallen());
}

// tests/libraries/chess_rules contains rows of moves and texts.
void chess() {
    using namespace dgt::chess;
    const State start = State::start();
    const Move e4{dgt::Square("e2"), dgt::Square("e4")};
    CHECK(start.fen() == std::string(START) + " w KQkq - 0 1" && start == State(start.fen()));
    CHECK(start.position() == dgt::Position(START) && start.turn() == Colour::white);
    CHECK(start.rights() == Rights{true, true, true, true} && start.rights() != Rights{});
    CHECK(!start.passed() && start.half_moves() == 0 && start.number() == 1);
    CHECK(start == State(start.position(), Colour::white, start.rights()));

    CHECK(start.is_legal(e4) && start.san(e4) == "e4" && start.parse_san("e4") == e4);
    CHECK(start.goals()[52] == ((UINT64_C(1) << 36) | (UINT64_C(1) << 44)));
    const State after = start.play(e4);
    CHECK(after.passed() == dgt::Square("e3") && after.turn() == Colour::black && after != start);
    CHECK(start.move_to(after.position()) == e4 && !after.move_to(start.position()));
    CHECK(!after.is_legal(e4) && throws<IllegalMove>([&] { after.play(e4); }));
    CHECK(throws<IllegalMove>([&] { after.san(e4); }));
    CHECK(start.parse_san_leniently("Ng1f3") == start.parse_san("Nf3"));
    CHECK(thrown<BadSan>([&] { start.parse_san("e5"); })->why() == SanFault::no_move);
    CHECK(thrown<BadSan>([&] { start.parse_san("e9"); })->why() == SanFault::bad_text);
    const State rooks("R6R/8/8/8/8/8/1k6/4K3 w - - 100 9");
    CHECK(thrown<BadSan>([&] { rooks.parse_san_leniently("Rd8"); })->why() == SanFault::ambiguous);

    const State promoting("7k/P7/8/8/8/8/8/K7 w - - 0 1");
    const Move queen = promoting.parse_san("a8=Q+");
    CHECK(queen.promotion == Man::queen && queen != promoting.parse_san("a8=N"));
    CHECK(promoting.play(queen).is_check() && promoting.can_move() && !promoting.is_dead());
    CHECK(rooks.is_repeated(rooks) && rooks.repetitions({rooks, start, rooks}) == 2);

    auto fen = thrown<BadFen>([] { State("4k3/8/8/8/8/8/8/4K3 w - e9 0 1"); });
    CHECK(fen->field() == FenField::passed && fen->at() == 25);
    CHECK(thrown<Impossible>([] { State("8/8/8/8/8/8/8/8 w - - 0 1"); })->why() == Why::bad_kings);
    auto number = [&] { State(start.position(), Colour::white, {}, {}, 0, 0); };
    CHECK(thrown<Impossible>(number)->why() == Why::bad_number && refuses(number));
    auto turn = [&] { State(start.position(), static_cast<Colour>(2), {}); };
    CHECK(thrown<Impossible>(turn)->why() == Why::bad_member);
}

void nothing_seen() {
    dgt::Recogniser recogniser;
    const auto start = dgt::Position::start();
    CHECK(!recogniser.state() && !recogniser.due_at());
    CHECK(refuses([&] { recogniser.see(dgt::Milliseconds(-1), start); }));
    CHECK(refuses([&] { recogniser.due(dgt::Milliseconds(-1)); }));
    const dgt::Sight wrong{true, true, static_cast<dgt::chess::Colour>(2)};
    CHECK(refuses([&] { recogniser.see(dgt::Milliseconds(0), start, wrong); }));
    CHECK(recogniser.see(dgt::Milliseconds(0), std::nullopt).empty() && !recogniser.state());
    const auto state = dgt::chess::State::start();
    recogniser.go_on(state, true);
    CHECK(recogniser.state() == state);
}

/* What only a later library reports is read as dgt.h says. */
void later_kinds() {
    dgt_event event{};
    event.kind = 16, event.code = 5, event.body_len = 2;
    const std::uint8_t body[] = {1, 2, 3};
    CHECK(text(dgt::detail::read_event(event, body).value()) == "other 05 0102");
    dgt_command command{};
    command.kind = 6, command.byte = 0x46;
    CHECK(std::get<dgt::StrayByte>(dgt::detail::read_word(command, body).value()).byte == 0x46);
}

void hosts() {
    dgt::Host host;
    CHECK(!host.picture() && !host.placement() && !host.clock() && host.awaited().empty());
    CHECK(hex(host.follow()) == "4442");
    CHECK(host.awaited() == std::vector{dgt::Ask::dump});
    CHECK(host.restart().size() == DGT_RESTART_LENGTH && hex(host.send(dgt::Ask::version)) == "4d");
    dgt::Board board;
    std::vector<dgt::Event> events;
    auto hear = [&](const dgt::Message &message) {
        host.hear(message, [&](const dgt::Event &event) { events.push_back(event); });
    };
    board.answer(host.send(dgt::Ask::dump), hear);
    CHECK(events.size() == 1 && !std::get<dgt::Dump>(events[0]).unasked);
    CHECK(host.picture() == dgt::Position::start() && host.placement() == START);
    board.answer(host.send(dgt::Ask::trademark), hear);
    auto body = std::get<dgt::Trademark>(events.at(1)).body;
    CHECK(std::string(body.begin(), body.end()) == "SIMULATED BOARD");
    board.answer(host.send(dgt::Ask::clock), hear);
    CHECK(host.clock() == dgt::Clock(dgt::Times{}));
    CHECK(std::get<dgt::Trademark>(events.at(1)).unasked); // two dumps and a version come first
    CHECK(host.give_up_awaited() == 4);
    for (int i = 0; i < 16; i++) host.send(dgt::Ask::version);
    CHECK(throws<dgt::TooManyAwaited>([&] { host.follow(); }) && host.awaited().size() == 16);
    CHECK(host.send_leds(dgt::Bytes(255)).size() == DGT_MAX_WORD);
    CHECK(refuses([&] { host.send_leds(dgt::Bytes(256)); }));
    CHECK(host.send_clock(dgt::ClockId{0x55}, dgt::Bytes(252)).size() == DGT_MAX_WORD);
    CHECK(refuses([&] { host.send_clock(dgt::ClockId::icons, dgt::Bytes(253)); }));
    dgt::Heard heard = host.hear_one(dgt::Bytes{0x93, 0});
    CHECK(heard.used == 2 && !heard.event && host.unread() == 2 && host.hear_one({}).used == 0);
    host.line_lost();
    CHECK(host.unread() == 0 && !host.picture() && host.awaited().empty());
}

/// A follower's messages end in its mode's command.
template <class Sender>
void clock_commands(Sender &&sender, const std::string &after = "") {
    using dgt::Time;
    auto is_sent = [&](const dgt::Commands &sent, const char *right) {
        return hex(sent, " ") == right + after;
    };
    CHECK(is_sent(sender.send_display("-12345", 1), "2b 0b 03 01 5b 06 40 6d 66 4f 01 00 00"));
    CHECK(is_sent(sender.send_text("hello", 255), "2b 0c 03 0c 68 65 6c 6c 6f 20 20 20 ff 00"));
    CHECK(is_sent(sender.send_beep(3), "2b 04 03 0b 03 00"));
    CHECK(is_sent(sender.send_set_and_run(Time{9, 8, 7}, Time{6, 5, 4}, 255),
                  "2b 0a 03 0a 09 08 07 06 05 04 ff 00"));
    CHECK(is_sent(sender.send_icons(dgt::Bytes{1, 255}), "2b 05 03 02 01 ff 00"));
    CHECK(is_sent(sender.send_end(), "2b 03 03 03 00"));
    CHECK(is_sent(sender.send_button(), "2b 03 03 08 00"));
    CHECK(is_sent(sender.send_clock_version(), "2b 03 03 09 00"));
    CHECK(refuses([&] { sender.send_display("12:34"); }));
    CHECK(refuses([&] { sender.send_text("too long."); }));
    CHECK(refuses([&] { sender.send_set_and_run(Time{0, 60}, Time{}, 0); }));
    CHECK(refuses([&] { sender.send_set_and_run(Time{}, Time{10}, 0); }));
    CHECK(refuses([&] { sender.send_icons(dgt::Bytes(253)); }));
}

/// Exceptions of a callback pass through, and no event is heard twice or lost.
void exceptions() {
    const dgt::Bytes fields{0x8e, 0, 5, 52, 0, 0x8e, 0, 5, 36, 1, 0x31};
    dgt::Decoder decoder;
    int told = 0;
    auto fail = [&](const dgt::Event &) {
        told++;
        throw 7;
    };
    CHECK(throws<int>([&] { decoder.feed(fields, fail); }) && told == 1);
    std::vector<std::string> lines;
    auto keep = [&](const dgt::Event &event) { lines.push_back(text(event)); };
    decoder.feed(dgt::ByteView(fields).after(5), keep);
    std::vector<std::size_t> places;
    decoder.feed(fields, [&](const dgt::Event &, std::size_t place) { places.push_back(place); });
    CHECK(places == (std::vector<std::size_t>{5, 10, 11}));
    CHECK(lines == (std::vector<std::string>{"field e4 P", "stray 31"}));
    dgt::Follower follower;
    CHECK(throws<int>([&] { follower.hear(dgt::now(), fields, fail); }) && told == 2);
    dgt::Board board;
    auto refuse = [](const dgt::Message &) { throw 7; };
    CHECK(throws<int>([&] { board.answer(dgt::Bytes{0x4d, 0x45}, refuse); }) && !board.owes());
    CHECK(board.take(dgt::Bytes{0x45}).used == 1 && board.owes());
}

void decoders() {
    dgt::Decoder decoder;
    CHECK(decoder.feed_one(dgt::Bytes{0x8e, 0}).used == 2 && decoder.unread() == 2);
    CHECK(decoder.finish() == 2 && decoder.finish() == 0);
    CHECK(decoder.feed_one(dgt::Bytes{0x8e, 0}).used == 2);
    decoder.reset();
    CHECK(decoder.unread() == 0);
    std::vector<std::string> words;
    dgt::CommandDecoder reader;
    reader.feed(dgt::Bytes{0x2b, 4, 3, 0x0b, 9, 0, 0x60, 1, 2, 0x46, 0x2b, 2, 0x42},
                [&](const dgt::Word &word) { words.push_back(text(word)); });
    CHECK(words == (std::vector<std::string>{"clock 0b09", "leds 02", "stray 46", "badsize",
                                             "dump"}));
    CHECK(reader.feed_one(dgt::Bytes{0x60}).used == 1 && reader.unread() == 1);
    reader.reset();
    CHECK(reader.finish() == 0);
}

void followers() {
    using std::chrono::seconds;
    dgt::Follower follower(seconds(1), 1);
    const dgt::Milliseconds zero(0);
    CHECK(follower.due_at() == zero && !follower.last_heard() && !follower.picture());
    CHECK(follower.ask(zero).size() == 258 && follower.due_at() == dgt::Milliseconds(1000));
    CHECK(follower.ask(zero).empty() && !follower.placement() && !follower.clock());
    dgt::Board board;
    std::vector<std::string> lines;
    auto keep = [&](const dgt::Event &event, std::size_t place) {
        auto *version = std::get_if<dgt::Version>(&event);
        lines.push_back(std::to_string(place) + " " + text(event));
        CHECK(!version || version->unasked);
    };
    board.answer(dgt::Bytes{0x42, 0x4d}, [&](const dgt::Message &message) {
        follower.hear(dgt::Milliseconds(5), message, keep);
    });
    CHECK(lines == (std::vector{"67 dump " + std::string(START), std::string("5 version 1.3")}));
    CHECK(follower.last_heard() == dgt::Milliseconds(5) && follower.in_doubt());
    CHECK(follower.placement() == START && follower.picture() == dgt::Position::start());
    CHECK(follower.due_at() == dgt::Milliseconds(500) && follower.heartbeats_left() == 1);
    CHECK(follower.mode() == dgt::Mode::update_board && refuses([&] {
        follower.set_mode(dgt::Mode::idle);
    }));
    follower.set_mode(dgt::Mode::update_nice);
    CHECK(follower.ask(seconds(1)).size() == DGT_MAX_ASKING);
    dgt::Heard heard = follower.hear_one(seconds(1), dgt::Bytes{0x8d, 0});
    CHECK(heard.used == 2 && !heard.event && follower.unread() == 2);
    heard = follower.hear_one(seconds(1), dgt::Bytes{10, 1, 2, 3, 4, 5, 6, 9, 1});
    const dgt::Times times{{1, 2, 3}, {4, 5, 6}, 9};
    CHECK(heard.used == 8 && heard.event && std::get<dgt::Times>(*heard.event) == times);
    CHECK(follower.clock() == dgt::Clock(times));
    CHECK(hex(follower.send(dgt::Ask::version)) == "4d" && follower.send_leds({}).size() == 3);
    CHECK(refuses([&] { follower.ask(dgt::Milliseconds(-1)); }));
    CHECK(refuses([&] { follower.hear(dgt::Milliseconds(-1), {}); }));
    CHECK(refuses([] { dgt::Follower wrong(seconds(-1)); }));
    CHECK(refuses([] { dgt::Follower wrong(dgt::Milliseconds(999)); }));
    CHECK(refuses([] { dgt::Follower wrong(seconds(1), 6, dgt::Mode::idle); }));
    follower.line_lost();
    CHECK(!follower.picture() && follower.due_at() == zero);
    dgt::Follower never(dgt::Milliseconds::max());
    CHECK(!never.ask(dgt::Milliseconds(1)).empty() && never.due_at() == dgt::Milliseconds(1001));
    board.answer(dgt::Bytes{0x42}, [&](const dgt::Message &dump) { never.hear(zero, dump); });
    CHECK(!never.due_at() && dgt::now() <= dgt::now() && dgt::now() > zero);
}

/// How many bytes a follower asks at this time, which a board answers.
std::size_t ask(dgt::Follower &follower, dgt::Board &board, dgt::Milliseconds now) {
    dgt::Commands asked = follower.ask(now);
    board.answer(asked, [&](const dgt::Message &message) { follower.hear(now, message); });
    return asked.size();
}

void confirmations() {
    using std::chrono::seconds;
    dgt::Follower follower(seconds(10), 6, dgt::Mode::update_board, true, true);
    dgt::Board board;
    CHECK(ask(follower, board, seconds(0)) == 258 && !follower.confirmed() && !follower.serial());
    CHECK(ask(follower, board, seconds(0)) == 1); // the command 45
    CHECK(follower.serial() == (std::array<std::uint8_t, 5>{'0', '0', '0', '0', '1'}));
    CHECK(follower.due_at() == seconds(1) && ask(follower, board, seconds(1)) == 2);
    CHECK(follower.confirmed() && follower.due_at() == seconds(11));
    follower.ask_now();
    CHECK(follower.due_at() == seconds(0) && ask(follower, board, seconds(2)) == 2);
    board.change(dgt::Square("e2"), dgt::Piece::none);
    board.answer({}, [&](const dgt::Message &message) { follower.hear(seconds(3), message); });
    CHECK(!follower.confirmed() && !follower.in_doubt() && follower.due_at() == seconds(4));
    follower.set_confirm(false);
    CHECK(follower.due_at() == seconds(12));
    follower.line_disturbed();
    CHECK(follower.in_doubt() && follower.due_at() == dgt::Milliseconds(2500));
    follower.line_lost();
    follower.set_identify(false);
    CHECK(ask(follower, board, seconds(5)) == 258 && ask(follower, board, seconds(5)) == 0);
    CHECK(!follower.serial());
    dgt::Follower confirming(seconds(10), 6, dgt::Mode::update_board, true);
    CHECK(ask(confirming, board, seconds(0)) == 258 && ask(confirming, board, seconds(0)) == 0);
    CHECK(confirming.due_at() == seconds(1));
}

void boards() {
    dgt::Identity identity;
    identity.serial = {1, 2, 3, 4, 5}, identity.main_number = 9, identity.sub_number = 8;
    identity.trademark = {'M', 'I', 'N', 'E'};
    dgt::NoClock none{{1, 2, 3, 4, 5, 6}, 0x20};
    dgt::Board board(dgt::Position("8/8/8/8/8/8/8/K6k"), none, identity);
    std::string sent;
    auto keep = [&](const dgt::Message &message) { sent += hex(message) + " "; };
    board.answer(dgt::Bytes{0x45, 0x47, 0x4d, 0x41}, keep);
    CHECK(sent == "9100080102030405 9200074d494e45 9300050908 8d000a01020304050620 ");
    CHECK(board.clock() == dgt::Clock(none) && board.mode() == dgt::Mode::idle && !board.owes());
    sent.clear();
    board.answer(dgt::Bytes{0x44}, keep);
    board.change(dgt::Square("a1"), dgt::Piece::none);
    board.change(dgt::Square("a2"), dgt::Piece::white_king);
    board.answer({}, keep);
    CHECK(sent == "8e00053005 8e00053800 " && !board.poll());
    CHECK(board.position() == dgt::Position("8/8/8/8/8/8/K7/7k"));
    for (int i = 0; i < 8; i++) CHECK(board.take(dgt::Bytes{0x42}).used == 1);
    CHECK(board.owed_len() == 8);
    dgt::Taken busy = board.take(dgt::Bytes{0x42});
    CHECK(busy.busy && busy.used == 0 && !busy.word);
    board.line_lost();
    CHECK(!board.owes() && board.mode() == dgt::Mode::idle);
    CHECK(board.take(dgt::Bytes{0x2b, 4}).used == 2 && board.unread() == 2);
    board.hand_clock(dgt::Times{{9, 59, 59, 7}, {}, 0x5f});
    CHECK(refuses([&] { board.hand_clock(dgt::Times{{10}, {}, 0}); }));
    CHECK(refuses([&] { board.change(dgt::Square(0u), static_cast<dgt::Piece>(16)); }));
    CHECK(board.clock() == dgt::Clock(dgt::Times{{9, 59, 59, 7}, {}, 0x5f}));
    identity.battery = {128};
    CHECK(refuses([&] { dgt::Board wrong(dgt::Position(), none, identity); }));
}

/// Bytes come from each container, and written ones go into each.
void views() {
    const std::uint8_t array[] = {0x44, 0x42};
    dgt::Board board;
    CHECK(board.take(array).used == 1 && board.take({array, 1}).used == 1);
    CHECK(board.take(std::array<std::uint8_t, 1>{0x44}).used == 1);
    CHECK(dgt::ByteView(array).copy() == (dgt::Bytes{0x44, 0x42}) && dgt::ByteView().empty());
    dgt::Host host;
    dgt::Commands commands = host.follow();
    CHECK(dgt::Bytes(commands.begin(), commands.end()) == (dgt::Bytes{0x44, 0x42}));
#if __cplusplus >= 202002L
    std::span<const std::uint8_t> span(commands);
    CHECK(span.size() == 2 && board.take(span.last(1)).used == 1);
    CHECK(board.take(std::span(array)).used == 1);
    static_assert(!std::is_convertible_v<std::span<const char>, dgt::ByteView>);
#endif
    static_assert(!std::is_convertible_v<std::string, dgt::ByteView>);
}

std::string why_not(const std::string &port) {
    const auto error = thrown<dgt::PortError>([&] { dgt::Port opened(port); });
    return error ? std::to_string(error->error()) + " " + error->what() : "";
}

/* Ports of a folder instead of /dev. bindings/c/tests/test_port.c tries which, and their order. */
void listed_ports() {
    namespace fs = std::filesystem;
    const fs::path dev = fs::current_path() / "dev";
    CHECK(dgt::ports(dev).empty());
    fs::create_directory(dev);
    for (const char *name : {"ttyUSB1", "ttyS0", "ttyUSB0"}) std::ofstream(dev / name).put('\n');
    CHECK(dgt::ports(dev) == std::vector<std::string>{dev / "ttyUSB0", dev / "ttyUSB1"});
    fs::remove_all(dev);
    for (const std::string &port : dgt::ports()) CHECK(fs::exists(port)); // of this machine
}

void ports() {
    std::uint8_t bytes[300];
    int line = posix_openpt(O_RDWR | O_NOCTTY);
    CHECK(line >= 0 && grantpt(line) == 0 && unlockpt(line) == 0);
    const std::string name = ptsname(line);
    CHECK(why_not("/dev/null") == std::to_string(ENOTTY) + " /dev/null: not a serial port");
    CHECK(why_not("/nowhere").find("/nowhere: no such port") != std::string::npos);
    {
        dgt::Port first(name);
        CHECK(why_not(name).find("in use by another program") != std::string::npos);
        dgt::Port port(std::move(first));
        port.write(dgt::Bytes{0x44});
        CHECK(read(line, bytes, sizeof bytes) == 1 && bytes[0] == 0x44);
        CHECK(port.read(dgt::now()).empty() && write(line, "abc", 3) == 3);
        CHECK(hex(port.read<2>()) == "6162" && hex(port.read()) == "63");
        dgt::Follower follower;
        dgt::Milliseconds start = dgt::now(); // an answer is overdue after a second
        CHECK(port.exchange(follower).empty() && dgt::now() - start >= dgt::Milliseconds(999));
        CHECK(read(line, bytes, sizeof bytes) == 258 && port.descriptor() >= 0);
    }
    dgt::Port again(name), other = std::move(again);
    close(line);
    CHECK(throws<dgt::PortError>([&] { other.read(); }));
    CHECK(throws<dgt::PortError>([&] { other.write(dgt::Bytes{0x44}); }));
}

/// A board on a pseudo-terminal, with a link that goes and comes back with it.
class Plugged {
public:
    explicit Plugged(std::string link) : link_(std::move(link)), thread_([this] { serve(); }) {}
    ~Plugged() {
        is_over_ = true;
        thread_.join();
        unplug();
    }

    void plug() {
        std::lock_guard<std::mutex> lock(busy_);
        line_ = posix_openpt(O_RDWR | O_NOCTTY | O_NONBLOCK);
        CHECK(line_ >= 0 && grantpt(line_) == 0 && unlockpt(line_) == 0);
        std::filesystem::create_symlink(ptsname(line_), link_);
    }
    void unplug() {
        std::lock_guard<std::mutex> lock(busy_);
        std::filesystem::remove(link_);
        if (line_ >= 0) close(std::exchange(line_, -1));
        board_.line_lost();
    }
    void change(const char *square, dgt::Piece piece) {
        std::lock_guard<std::mutex> lock(busy_);
        board_.change(dgt::Square(square), piece);
        answer({});
    }
    void hand_clock(const dgt::Clock &clock) {
        std::lock_guard<std::mutex> lock(busy_);
        board_.hand_clock(clock);
        answer({});
    }

    std::atomic<bool> is_mute{false};
    std::string asked() { // as hex
        std::lock_guard<std::mutex> lock(busy_);
        return hex(asked_);
    }

private:
    void answer(dgt::ByteView bytes) {
        board_.answer(bytes, [&](auto &message) {
            if (is_mute) return;
            CHECK(write(line_, message.data(), message.size()) == ssize_t(message.size()));
        });
    }
    void serve() {
        for (std::uint8_t bytes[300]; !is_over_; std::this_thread::sleep_for(ms(5))) {
            std::lock_guard<std::mutex> lock(busy_);
            auto count = line_ < 0 ? -1 : read(line_, bytes, sizeof bytes);
            if (count <= 0) continue;
            asked_.insert(asked_.end(), bytes, bytes + count);
            answer({bytes, std::size_t(count)});
        }
    }
    using ms = std::chrono::milliseconds;

    std::string link_;
    int line_ = -1;
    dgt::Board board_;
    dgt::Bytes asked_;
    std::mutex busy_;
    std::atomic<bool> is_over_{false};
    std::thread thread_;
};

/// The next view. Each is another one.
dgt::BoardView next(dgt::Following &board) {
    const dgt::BoardView before = board.view();
    const auto view = board.wait(std::chrono::seconds(20));
    CHECK(view && *view == board.view() && *view != before);
    return *view;
}

void followings() {
    const std::string link = "board";
    const std::string gone = "the port has gone; it is looked for every two seconds";
    const dgt::Position start = dgt::Position::start();
    dgt::FollowOptions options{std::chrono::seconds(60)};
    Plugged plugged(link);
    CHECK(throws<dgt::PortError>([&] { dgt::follow(link); }));
    options.clock = options.confirm = options.identify = options.wait_for_port = true;
    CHECK(throws<dgt::PortError>([&] { dgt::follow("/dev/null", options); }));
    dgt::Following board(link, options);
    CHECK(next(board).away->find("no such port") == 0 && !board.view().picture);
    CHECK(board.view().in_doubt && !board.wait(dgt::Milliseconds(0)));
    board.write(dgt::Bytes{1}); // it is lost
    plugged.plug();
    CHECK(!next(board).away && next(board).picture == start && !board.view().in_doubt);
    CHECK(hex(*next(board).serial) == "3030303031" && next(board).confirmed);
    CHECK(!board.wait(dgt::Milliseconds(50)));
    dgt::Times times{dgt::Time{1}, dgt::Time{0, 59}, DGT_STATUS_WHITE_TURN};
    plugged.hand_clock(times);
    CHECK(next(board).clock == dgt::Clock(times));
    plugged.hand_clock(dgt::Times());
    CHECK(!next(board).clock); // no reading
    plugged.hand_clock(times);
    plugged.change("e2", dgt::Piece::none);
    CHECK(next(board).clock && next(board).picture != start && !board.view().confirmed);
    board.light(dgt::Square("e2"), dgt::Square("e4"));
    board.light();
    board.write(board.follower().send(dgt::Ask::version));
    while (plugged.asked().find("6004013424004b6004004040004b4d") == std::string::npos)
        CHECK(!board.wait(dgt::Milliseconds(10)) || board.view().confirmed);
    const dgt::BoardView last = board.view();
    plugged.is_mute = true;
    board.follower().ask_now();
    const auto asked = dgt::now();
    CHECK(next(board).in_doubt && dgt::now() - asked < std::chrono::seconds(10));
    plugged.is_mute = false;
    plugged.unplug();
    CHECK(next(board).away == gone && board.view().in_doubt && !board.view().confirmed);
    CHECK(board.view().picture == last.picture && board.view().clock == last.clock);
    plugged.change("e4", dgt::Piece::white_pawn); // nobody hears it
    plugged.plug();
    CHECK(!next(board).away && board.view().in_doubt && next(board).picture != last.picture);
    CHECK(!board.view().in_doubt && board.view().serial == last.serial);
    std::thread closer([&] {
        std::this_thread::sleep_for(std::chrono::milliseconds(100));
        board.close();
    });
    for (const dgt::BoardView &view : board) CHECK(view.picture && !view.away);
    closer.join();
    CHECK(!board.wait() && why_not(link).empty());
    board.write(dgt::Bytes{1});
}

void silent_boards() {
    Plugged plugged("board");
    plugged.plug();
    dgt::FollowOptions options{std::chrono::seconds(1), 6, dgt::Mode::update};
    auto board = std::make_unique<dgt::Following>("board", options);
    CHECK(next(*board).picture && board->follower().mode() == dgt::Mode::update);
    CHECK(!board->view().away);
    plugged.is_mute = true;
    while (!next(*board).away) CHECK(board->view().confirmed || board->view().in_doubt);
    CHECK(board->view().away->find("the board doesn't answer") == 0 && board->view().in_doubt);
    CHECK(board->view().picture && !board->view().confirmed);
    plugged.is_mute = false;
    while (board->view().in_doubt) next(*board);
    CHECK(!board->view().away);
    options.clock = true;
    CHECK(refuses([&] { dgt::follow("board", options); }));
}

} // namespace

int main(int count, char **words) {
    if (count == 3) return run(words[1], static_cast<std::size_t>(std::atoi(words[2])));
    values();
    encodings();
    names();
    chess();
    nothing_seen();
    later_kinds();
    hosts();
    clock_commands(dgt::Host());
    clock_commands(dgt::Follower(), " 44");
    exceptions();
    decoders();
    followers();
    confirmations();
    boards();
    views();
    ports();
    listed_ports();
    followings();
    silent_boards();
    return 0;
}
