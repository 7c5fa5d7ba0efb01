// dgt.hpp: dgt.h for C++17 and later. Link with the same library.
//
// A program that follows a board on a serial line:
//
//     dgt::Follower follower;                            // 39 KiB
//     for (;;) {
//         write_to_line(follower.ask(dgt::now()));       // nothing if that is not due
//         read_from_line(chunk, follower.due_at());      // waits for bytes until then
//         follower.hear(dgt::now(), chunk);
//         if (auto placement = follower.placement()) ...
//     }
//
// Bytes are passed as a ByteView: any container of std::uint8_t with data() and size(), such as a
// std::vector, a std::array or a std::span, or {pointer, length}. Bytes for the line are in the
// object that a call returns, which has data(), size(), begin() and end().
//
// Nothing here opens a line or waits. A Host, a Follower, a Decoder, a CommandDecoder, a Board and
// a Recogniser can't be copied or moved, since they point into themselves: don't move them, or keep
// them in a std::unique_ptr. Nothing has to be closed. Only one thread at a time may use one, even
// for a call that only reads.
//
// Each call names the exceptions that it throws: std::invalid_argument for an argument out of
// range (BadPlacement is one), TooManyAwaited and WrongLibrary. Then nothing has changed. A call
// that returns a container may also throw std::bad_alloc. A function that you pass may throw
// anything. The exception is passed on to you, and the object has heard the bytes up to and
// including those of the event that the function was called with, and none after them. If the rest
// matters, call hear_one and the other calls of this kind, which return how many bytes they used.
//
// Squares are numbered rank by rank from a8 (0) to h1 (63).
#ifndef DGT_HPP
#define DGT_HPP

#if __cplusplus < 201703L
#error "dgt.hpp is for C++17 and later: compile it with -std=c++17"
#endif

#include "dgt.h"

#include <algorithm>
#include <array>
#include <chrono>
#include <cstddef>
#include <cstdint>
#include <cstring>
#include <optional>
#include <stdexcept>
#include <string>
#include <string_view>
#include <tuple>
#include <type_traits>
#include <utility>
#include <variant>
#include <vector>

namespace dgt {

// ---- Bytes and times.

using Bytes = std::vector<std::uint8_t>;

/// Borrowed bytes, which have to outlive the view.
class ByteView {
public:
    constexpr ByteView() noexcept = default;
    constexpr ByteView(const std::uint8_t *bytes, std::size_t n) noexcept : at_(bytes), n_(n) {}

    /// The bytes of a container, such as a std::vector, a std::array or a std::span.
    template <class Container, class At = decltype(std::declval<const Container &>().data()),
              class = std::enable_if_t<std::is_convertible_v<At, const std::uint8_t *>>>
    constexpr ByteView(const Container &bytes) noexcept : ByteView(bytes.data(), bytes.size()) {}

    template <std::size_t N>
    constexpr ByteView(const std::uint8_t (&bytes)[N]) noexcept : ByteView(bytes, N) {}

    constexpr const std::uint8_t *data() const noexcept { return at_; }
    constexpr std::size_t size() const noexcept { return n_; }
    constexpr bool empty() const noexcept { return n_ == 0; }
    constexpr const std::uint8_t *begin() const noexcept { return at_; }
    constexpr const std::uint8_t *end() const noexcept { return at_ + n_; }

    /// The first `count` bytes, which must exist, and those after them.
    constexpr ByteView first(std::size_t count) const noexcept { return {at_, count}; }
    constexpr ByteView after(std::size_t count) const noexcept { return {at_ + count, n_ - count}; }

    Bytes copy() const { return Bytes(begin(), end()); }

private:
    const std::uint8_t *at_ = nullptr;
    std::size_t n_ = 0;
};

/// Bytes that were written, at most `Room` of them. They are stored in the object.
template <std::size_t Room> class Written {
public:
    const std::uint8_t *data() const noexcept { return bytes_.data(); }
    std::size_t size() const noexcept { return n_; }
    bool empty() const noexcept { return n_ == 0; }
    const std::uint8_t *begin() const noexcept { return data(); }
    const std::uint8_t *end() const noexcept { return data() + n_; }

    /// For calls of dgt.h that write to `room`: afterwards it contains `n` bytes.
    std::uint8_t *room() noexcept { return bytes_.data(); }
    void resize(std::size_t n) noexcept { n_ = n; }

private:
    std::array<std::uint8_t, Room> bytes_{};
    std::size_t n_ = 0;
};

using Commands = Written<DGT_MAX_ASKING>; ///< what a host sends
using Message = Written<DGT_MAX_SENT>;    ///< what a board sends

/// A time by a clock that doesn't go back, or a duration.
using Milliseconds = std::chrono::milliseconds;

/// The time by the standard library's steady clock.
inline Milliseconds now() {
    auto time = std::chrono::steady_clock::now().time_since_epoch();
    return std::chrono::duration_cast<Milliseconds>(time);
}

// ---- Exceptions.

/// The linked library has other sizes than this header.
class WrongLibrary : public std::runtime_error {
public:
    WrongLibrary() : std::runtime_error("the linked libdgt doesn't match this header") {}
};

/// 16 replies are awaited already.
class TooManyAwaited : public std::runtime_error {
public:
    TooManyAwaited() : std::runtime_error("16 replies are awaited already") {}
};

/// A text is not a placement.
class BadPlacement : public std::invalid_argument {
public:
    BadPlacement(std::string_view text, std::size_t at)
        : std::invalid_argument("not a placement: '" + std::string(text) + "'"), at_(at) {}

    /// The offset of the first wrong character, or the length of the text.
    std::size_t at() const noexcept { return at_; }

private:
    std::size_t at_;
};

// ---- Squares, pieces and positions.

enum class Piece : std::uint8_t {
    none,
    white_pawn, white_rook, white_knight, white_bishop, white_king, white_queen,
    black_pawn, black_rook, black_knight, black_bishop, black_king, black_queen,
    extra_x, extra_y, extra_z // three pieces without a meaning
};

/// "PRNBKQ" white, "prnbkq" black, '.' none, 'X' 'Y' 'Z' extra pieces.
inline char letter(Piece piece) {
    return dgt_piece_letter(static_cast<std::uint8_t>(piece));
}

/// The piece with this letter. Throws std::invalid_argument if there is none.
inline Piece piece(char letter) {
    std::uint8_t code = dgt_piece_code(static_cast<std::uint8_t>(letter));
    if (code == DGT_NO_SUCH)
        throw std::invalid_argument("not a piece: '" + std::string(1, letter) + "'");
    return static_cast<Piece>(code);
}

/// A square of the board.
class Square {
public:
    /// By its number. Throws std::invalid_argument above 63.
    explicit Square(unsigned number) : number_(static_cast<std::uint8_t>(number)) {
        if (number > 63) throw std::invalid_argument("squares are numbered from 0 to 63");
    }

    /// By its name, such as "e4". Throws std::invalid_argument if there is no such square.
    explicit Square(std::string_view name) : number_(DGT_NO_SUCH) {
        if (name.size() == 2)
            number_ = dgt_square_number(static_cast<std::uint8_t>(name[0]),
                                        static_cast<std::uint8_t>(name[1]));
        if (number_ == DGT_NO_SUCH)
            throw std::invalid_argument("not a square: '" + std::string(name) + "'");
    }

    std::uint8_t number() const noexcept { return number_; }

    std::string name() const {
        char text[3] = "";
        dgt_square_name(number_, text);
        return text;
    }

    friend bool operator==(Square a, Square b) noexcept { return a.number_ == b.number_; }
    friend bool operator!=(Square a, Square b) noexcept { return !(a == b); }

private:
    std::uint8_t number_;
};

/// The pieces on the 64 squares.
class Position {
public:
    /// The empty board.
    Position() noexcept : codes_{} {}

    /// By the numbers of the pieces. Throws std::invalid_argument if one is above 15.
    explicit Position(const std::array<std::uint8_t, 64> &codes) : codes_(codes) {
        if (*std::max_element(codes.begin(), codes.end()) > 15)
            throw std::invalid_argument("pieces are numbered from 0 to 15");
    }

    /// By the first field of a FEN. Throws BadPlacement for any other text.
    explicit Position(std::string_view placement) : codes_{} {
        auto parsed = dgt_parse_placement(placement.data(), placement.size(), codes_.data());
        if (!parsed.ok) throw BadPlacement(placement, parsed.at);
    }

    /// The initial position of a game.
    static Position start() { return Position("rnbqkbnr/pppppppp/8/8/8/8/PPPPPPPP/RNBQKBNR"); }

    Piece operator[](Square square) const { return static_cast<Piece>(codes_[square.number()]); }
    const std::array<std::uint8_t, 64> &codes() const noexcept { return codes_; }

    /// The first field of a FEN.
    std::string placement() const {
        char text[DGT_PLACEMENT_ROOM] = "";
        dgt_placement(codes_.data(), text);
        return text;
    }

    /// The squares on which the two differ: bit n is set if square n differs.
    std::uint64_t differ(const Position &other) const {
        std::uint64_t squares = 0; // the codes of a position are never refused
        return dgt_differ(codes_.data(), other.codes_.data(), &squares) ? squares : 0;
    }

    friend bool operator==(const Position &a, const Position &b) { return a.codes_ == b.codes_; }
    friend bool operator!=(const Position &a, const Position &b) { return !(a == b); }

private:
    std::array<std::uint8_t, 64> codes_;
};

// ---- Clocks.

/// The time of one side of a clock. In a set_and_run and a Board its parts are in these ranges.
struct Time {
    std::uint8_t hours = 0;   ///< 0 to 9
    std::uint8_t minutes = 0; ///< 0 to 59
    std::uint8_t seconds = 0; ///< 0 to 59
    std::uint8_t flags = 0;   ///< 0 to 7

    /// The meaning of the flags of a clock's time, such as DGT_FLAG_BLOCKED.
    bool blocked() const { return (flags & DGT_FLAG_BLOCKED) != 0; }
    bool per_move() const { return (flags & DGT_FLAG_PER_MOVE) != 0; }
    bool fallen() const { return (flags & DGT_FLAG_FALLEN) != 0; }

    friend bool operator==(const Time &a, const Time &b) { return a.all() == b.all(); }
    friend bool operator!=(const Time &a, const Time &b) { return !(a == b); }

private:
    std::tuple<int, int, int, int> all() const { return {hours, minutes, seconds, flags}; }
};

/// In the form 1:29:55.
inline std::string to_string(const Time &time) {
    auto two = [](int n) { return std::string(n < 10 ? ":0" : ":") + std::to_string(n); };
    return std::to_string(time.hours) + two(time.minutes) + two(time.seconds);
}

/// A clock, and the times of its two sides, in the order of the message. No side has a fixed
/// colour.
struct Times {
    Time first, second;
    std::uint8_t status = 0; ///< 0 to 127, without DGT_STATUS_ABSENT

    bool running() const { return (status & DGT_STATUS_RUNNING) != 0; }
    bool lever() const { return (status & DGT_STATUS_LEVER) != 0; }
    bool battery_low() const { return (status & DGT_STATUS_BATTERY_LOW) != 0; }
    bool black_turn() const { return (status & DGT_STATUS_BLACK_TURN) != 0; }
    bool white_turn() const { return (status & DGT_STATUS_WHITE_TURN) != 0; }

    friend bool operator==(const Times &a, const Times &b) {
        return a.first == b.first && a.second == b.second && a.status == b.status;
    }
    friend bool operator!=(const Times &a, const Times &b) { return !(a == b); }
};

/// No clock is connected.
struct NoClock {
    std::array<std::uint8_t, 6> raw{}; ///< each 0 to 127; the low half of raw[0], raw[3] isn't 0a
    std::uint8_t status = DGT_STATUS_ABSENT; ///< 0 to 127, with DGT_STATUS_ABSENT

    friend bool operator==(const NoClock &a, const NoClock &b) {
        return a.raw == b.raw && a.status == b.status;
    }
    friend bool operator!=(const NoClock &a, const NoClock &b) { return !(a == b); }
};

using Clock = std::variant<Times, NoClock>;

// ---- The events in a board's bytes.

struct Dump { Position position; bool unasked; };
struct Field { Square square; Piece piece; };
struct Ack { std::array<std::uint8_t, 4> ack; std::uint8_t status; };
struct Serial { std::array<std::uint8_t, 5> serial; bool unasked; };
struct Trademark { Bytes body; bool unasked; };
struct Version { std::uint8_t main_number, sub_number; bool unasked; };
struct Battery { Bytes body; bool unasked; };
struct LongSerial { Bytes body; bool unasked; };
/// A message that is carried unread, or an event that only a later version knows.
struct Other { std::uint8_t code; Bytes body; };

enum class Fault : std::uint8_t {
    wrong_size = DGT_WRONG_SIZE,
    bad_piece = DGT_BAD_PIECE,
    bad_square = DGT_BAD_SQUARE,
    bad_reading = DGT_BAD_READING
};

/// A whole message with an invalid body. `at` is the offset of the byte at fault.
struct Refused { std::uint8_t code; Fault fault; std::size_t at; };
/// The next message cut off one of which `have` bytes were received.
struct Cut { std::size_t have; };
/// The length of a message is less than the size of its header.
struct BadLength {};
/// A byte outside any message.
struct Stray { std::uint8_t byte; };

/// An event. `unasked` is true if the message isn't the first reply that a host or a follower
/// awaits; from a Decoder it is false.
using Event = std::variant<Dump, Field, Times, NoClock, Ack, Serial, Trademark, Version, Battery,
                           LongSerial, Other, Refused, Cut, BadLength, Stray>;

/// How many bytes were used, and the event that they complete, if there is one.
struct Heard {
    std::size_t used;
    std::optional<Event> event;
};

// ---- The commands in a host's bytes.

/// A command of one byte. A later version may report more of them.
enum class Ask : std::uint8_t {
    reset = DGT_SEND_RESET,
    clock = DGT_SEND_CLOCK,
    dump = DGT_SEND_DUMP,
    update = DGT_SEND_UPDATE,
    update_board = DGT_SEND_UPDATE_BOARD,
    serial = DGT_SEND_SERIAL,
    trademark = DGT_SEND_TRADEMARK,
    update_nice = DGT_SEND_UPDATE_NICE,
    battery = DGT_SEND_BATTERY,
    version = DGT_SEND_VERSION,
    long_serial = DGT_SEND_LONG_SERIAL
};

/// The id of a clock message, which may also be another byte.
enum class ClockId : std::uint8_t {
    display = DGT_ID_DISPLAY,
    icons = DGT_ID_ICONS,
    end = DGT_ID_END,
    button = DGT_ID_BUTTON,
    version = DGT_ID_VERSION,
    set_and_run = DGT_ID_SET_AND_RUN,
    beep = DGT_ID_BEEP,
    text = DGT_ID_TEXT
};

struct Asked { Ask ask; };
struct ClockMessage { ClockId id; Bytes payload; };
struct Leds { Bytes leds; };
/// The size of a clock message is below 3, its third byte isn't 03, or its last one isn't 00.
struct BadSize {};
struct BadStart {};
struct BadEnd {};
/// A byte that doesn't begin a command, or a fault that only a later version knows.
struct StrayByte { std::uint8_t byte; };

using Word = std::variant<Asked, ClockMessage, Leds, BadSize, BadStart, BadEnd, StrayByte>;

/// How many bytes were used, and the command or the fault that they complete, if there is one.
struct Read {
    std::size_t used;
    std::optional<Word> word;
};

/// Which changes a board reports by itself.
enum class Mode : std::uint8_t {
    idle = DGT_MODE_IDLE,
    update = DGT_MODE_UPDATE,             ///< each changed square, and each time of the clock
    update_board = DGT_MODE_UPDATE_BOARD, ///< each changed square
    update_nice = DGT_MODE_UPDATE_NICE    ///< each changed square, and the clock if it changed
};

// ---- Conversions to and from dgt.h. Not for use outside this header.

namespace detail {

template <std::size_t N> std::array<std::uint8_t, N> copied(const std::uint8_t (&bytes)[N]) {
    std::array<std::uint8_t, N> copy;
    std::copy(std::begin(bytes), std::end(bytes), copy.begin());
    return copy;
}

inline Time read_time(const dgt_time &time) {
    return Time{time.hours, time.minutes, time.seconds, time.flags};
}

inline Times read_times(const dgt_clock &clock) {
    return Times{read_time(clock.first), read_time(clock.second), clock.status};
}

inline NoClock read_no_clock(const dgt_clock &clock) {
    return NoClock{copied(clock.raw), clock.status};
}

inline std::optional<Clock> read_clock(const dgt_clock &clock) {
    if (clock.kind == DGT_CLOCK_TIMES) return read_times(clock);
    if (clock.kind == DGT_CLOCK_NONE) return read_no_clock(clock);
    return std::nullopt;
}

inline dgt_clock write_clock(const Clock &clock) {
    dgt_clock written{};
    if (const Times *times = std::get_if<Times>(&clock)) {
        auto side = [](const Time &time) {
            return dgt_time{time.hours, time.minutes, time.seconds, time.flags};
        };
        written.kind = DGT_CLOCK_TIMES, written.status = times->status;
        written.first = side(times->first), written.second = side(times->second);
    } else {
        const NoClock &none = std::get<NoClock>(clock);
        written.kind = DGT_CLOCK_NONE, written.status = none.status;
        std::copy(none.raw.begin(), none.raw.end(), std::begin(written.raw));
    }
    return written;
}

/// The event of a struct. Its body is in `room`.
inline std::optional<Event> read_event(const dgt_event &event, const std::uint8_t *room) {
    const bool unasked = event.unasked != 0;
    auto body = [&] { return Bytes(room, room + event.body_len); };
    switch (event.kind) {
    case DGT_EVENT_DUMP: return Dump{Position(copied(event.pieces)), unasked};
    case DGT_EVENT_FIELD: return Field{Square(event.square), static_cast<Piece>(event.piece)};
    case DGT_EVENT_TIMES: return read_times(event.clock);
    case DGT_EVENT_NO_CLOCK: return read_no_clock(event.clock);
    case DGT_EVENT_ACK: return Ack{copied(event.ack), event.ack_status};
    case DGT_EVENT_SERIAL: return Serial{copied(event.serial), unasked};
    case DGT_EVENT_TRADEMARK: return Trademark{body(), unasked};
    case DGT_EVENT_VERSION: return Version{event.main_number, event.sub_number, unasked};
    case DGT_EVENT_BATTERY: return Battery{body(), unasked};
    case DGT_EVENT_LONG_SERIAL: return LongSerial{body(), unasked};
    case DGT_EVENT_REFUSED:
        return Refused{event.code, static_cast<Fault>(event.fault), event.at};
    case DGT_EVENT_CUT: return Cut{event.have};
    case DGT_EVENT_BAD_LENGTH: return BadLength{};
    case DGT_EVENT_STRAY: return Stray{event.byte};
    case DGT_EVENT_NONE: return std::nullopt;
    default: return Other{event.code, body()};
    }
}

/// The command of a struct. Its bytes are in `word`.
inline std::optional<Word> read_word(const dgt_command &command, const std::uint8_t *word) {
    const std::uint8_t *end = word + command.word_len;
    switch (command.kind) {
    case DGT_COMMAND: break;
    case DGT_BAD_SIZE: return BadSize{};
    case DGT_BAD_START: return BadStart{};
    case DGT_BAD_END: return BadEnd{};
    case DGT_NO_WORD: return std::nullopt;
    default: return StrayByte{command.byte};
    }
    if (command.code == DGT_SEND_CLOCK_MESSAGE)
        return ClockMessage{static_cast<ClockId>(command.id), Bytes(word + 4, end - 1)};
    if (command.code == DGT_SEND_LEDS) return Leds{Bytes(word + 2, end)};
    return Asked{static_cast<Ask>(command.code)};
}

/// Writes the members of a message, and notes its body.
struct EventWriter {
    dgt_event &out;
    ByteView body{};

    void operator()(const Dump &it) {
        out.kind = DGT_EVENT_DUMP;
        std::copy(it.position.codes().begin(), it.position.codes().end(), std::begin(out.pieces));
    }
    void operator()(const Field &it) {
        out.kind = DGT_EVENT_FIELD;
        out.square = it.square.number(), out.piece = static_cast<std::uint8_t>(it.piece);
    }
    void operator()(const Times &it) { out.kind = DGT_EVENT_TIMES, out.clock = write_clock(it); }
    void operator()(const NoClock &it) {
        out.kind = DGT_EVENT_NO_CLOCK, out.clock = write_clock(it);
    }
    void operator()(const Ack &it) {
        out.kind = DGT_EVENT_ACK, out.ack_status = it.status;
        std::copy(it.ack.begin(), it.ack.end(), std::begin(out.ack));
    }
    void operator()(const Serial &it) {
        out.kind = DGT_EVENT_SERIAL;
        std::copy(it.serial.begin(), it.serial.end(), std::begin(out.serial));
    }
    void operator()(const Version &it) {
        out.kind = DGT_EVENT_VERSION;
        out.main_number = it.main_number, out.sub_number = it.sub_number;
    }
    void operator()(const Trademark &it) { out.kind = DGT_EVENT_TRADEMARK, body = it.body; }
    void operator()(const Battery &it) { out.kind = DGT_EVENT_BATTERY, body = it.body; }
    void operator()(const LongSerial &it) { out.kind = DGT_EVENT_LONG_SERIAL, body = it.body; }
    void operator()(const Other &it) {
        out.kind = DGT_EVENT_OTHER, out.code = it.code, body = it.body;
    }
    void operator()(const Refused &it) {
        out.kind = DGT_EVENT_REFUSED, out.code = it.code;
        out.fault = static_cast<std::uint8_t>(it.fault), out.at = it.at;
    }
    void operator()(const Cut &it) { out.kind = DGT_EVENT_CUT, out.have = it.have; }
    void operator()(const BadLength &) { out.kind = DGT_EVENT_BAD_LENGTH; }
    void operator()(const Stray &it) { out.kind = DGT_EVENT_STRAY, out.byte = it.byte; }
};

inline ByteView write_event(const Event &event, dgt_event &out) {
    EventWriter writer{out};
    std::visit(writer, event);
    return writer.body;
}

/// The bytes that a call of dgt.h encodes: `encode` returns the length, and then fills the room.
template <class Out = Bytes, class Encode> Out encoded(Encode &&encode) {
    using Unit = typename Out::value_type;
    dgt_encoded done = encode(static_cast<Unit *>(nullptr), std::size_t{0});
    if (done.status == DGT_REFUSED)
        throw std::invalid_argument("not an event or a command: a part is out of range");
    Out out(done.bytes, Unit{});
    done = encode(out.data(), out.size());
    return out;
}

/// Lets `hear_one` use all bytes. Passes each event to `tell`, with its place if `tell` takes one.
template <class HearOne, class Tell> void hear(ByteView bytes, HearOne hear_one, Tell &tell) {
    for (std::size_t place = 0; place < bytes.size();) {
        Heard heard = hear_one(bytes.after(place));
        place += heard.used;
        if (!heard.event) continue;
        if constexpr (std::is_invocable_v<Tell &, const Event &, std::size_t>)
            tell(std::as_const(*heard.event), place);
        else
            tell(std::as_const(*heard.event));
    }
}

/// Has `hear` use the bytes up to the first event. `body` is for what the event carries.
template <auto Hear, class Handle, class Body, class... Time>
Heard heard(Handle &handle, Body &body, ByteView bytes, Time... now) {
    dgt_event event;
    std::size_t used = Hear(&handle, now..., bytes.data(), bytes.size(), &event, body.data(),
                            body.size());
    return {used, read_event(event, body.data())};
}

/// The memory of an object of dgt.h, which is never copied.
template <class Handle> class Owner {
protected:
    explicit Owner(bool (*init)(Handle *)) {
        if (!init(&handle_)) throw WrongLibrary();
    }
    Owner(const Owner &) = delete;
    Owner &operator=(const Owner &) = delete;

    Handle handle_;
};

/// A time or a period for dgt.h. Throws std::invalid_argument if it is negative.
inline std::uint64_t count(Milliseconds time) {
    if (time.count() < 0) throw std::invalid_argument("a time or a period is negative");
    return static_cast<std::uint64_t>(time.count());
}

/// The time that a call of dgt.h writes, if there is one.
template <auto Read, class Handle> std::optional<Milliseconds> time(Handle &handle) {
    std::uint64_t count = 0;
    if (!Read(&handle, &count) ||
        count > static_cast<std::uint64_t>(Milliseconds::max().count()))
        return std::nullopt;
    return Milliseconds(static_cast<Milliseconds::rep>(count));
}

} // namespace detail

// ---- Messages and commands, encoded and viewed without an object.

/// The bytes of a message. Throws std::invalid_argument if the event is not a message (such as a
/// Cut), if a part is out of range, or if the code of an Other belongs to another kind.
inline Bytes encode_message(const Event &event) {
    dgt_event written{};
    ByteView body = detail::write_event(event, written);
    return detail::encoded([&](auto *out, auto n) {
        return dgt_encode_message(&written, body.data(), body.size(), out, n);
    });
}

/// The text of an event, such as "field e4 P", which `dgt monitor` prints after the offset of the
/// event. Throws std::invalid_argument if a part of it is out of range.
inline std::string to_string(const Event &event) {
    dgt_event written{};
    ByteView body = detail::write_event(event, written);
    auto text = detail::encoded<std::string>([&](auto *out, auto n) {
        return dgt_event_text(&written, body.data(), body.size(), out, n);
    });
    text.pop_back(); // the zero byte
    return text;
}

/// The message with this code and this body, or a Refused with the fault of the body. Throws
/// std::invalid_argument if the code or a byte is above 127, or for more than DGT_MAX_BODY bytes.
inline Event view_message(std::uint8_t code, ByteView body) {
    dgt_event event;
    if (!dgt_view_message(code, body.data(), body.size(), &event))
        throw std::invalid_argument("not a message: a byte is above 127, or the body is too long");
    return detail::read_event(event, body.data()).value();
}

/// The bytes of a command. Throws std::invalid_argument for a fault, such as a BadSize, or too many
/// carried bytes.
inline Bytes encode_command(const Word &word) {
    std::uint8_t code = 0, id = 0;
    ByteView carried;
    if (auto *asked = std::get_if<Asked>(&word)) code = static_cast<std::uint8_t>(asked->ask);
    if (auto *clock = std::get_if<ClockMessage>(&word)) {
        code = DGT_SEND_CLOCK_MESSAGE, id = static_cast<std::uint8_t>(clock->id);
        carried = clock->payload;
    }
    if (auto *leds = std::get_if<Leds>(&word)) code = DGT_SEND_LEDS, carried = leds->leds;
    return detail::encoded([&](auto *out, auto n) {
        return dgt_encode_command(code, id, carried.data(), carried.size(), out, n);
    });
}

/// The LED frame that lights two squares, such as those of a move, or none. Other programs encode
/// it this way; no board with lights was tried.
inline Leds lighting() { return {Bytes{0, 64, 64, 0}}; }
inline Leds lighting(Square one, Square other) {
    return {Bytes{1, one.number(), other.number(), 0}};
}

/// The command with exactly these bytes, if there is one.
inline std::optional<Word> view_command(ByteView word) {
    dgt_command command;
    if (!dgt_view_command(word.data(), word.size(), &command)) return std::nullopt;
    return detail::read_word(command, word.data());
}

// ---- What a board has stored, and the meaning of bytes that messages carry unread, as other
// programs read them. Not tested with a clock or a board.

/// A stored item of one byte.
enum class Mark : std::uint8_t {
    nothing = DGT_MARK_NOTHING,
    power_up = DGT_MARK_POWER_UP,
    end = DGT_MARK_END,
    four_rows = DGT_MARK_FOUR_ROWS,
    empty_board = DGT_MARK_EMPTY_BOARD,
    downloaded = DGT_MARK_DOWNLOADED,
    begin = DGT_MARK_BEGIN,
    turned_begin = DGT_MARK_TURNED_BEGIN,
    tag = DGT_MARK_TAG,
    watchdog = DGT_MARK_WATCHDOG,
    erased = DGT_MARK_ERASED
};

/// This piece, or none, was then on this square. `bit` is D4 of its byte.
struct StoredPiece { Square square; Piece piece; bool bit; };
/// The time of one player. Its flags are 6 for one player and 7 for the other.
struct StoredTime { Time time; };
/// A byte of no other kind, or the first of an item that is cut off.
struct UnknownByte { std::uint8_t byte; };

using Stored = std::variant<StoredPiece, StoredTime, Mark, UnknownByte>;

/// The items in the body of an Other with the code 0f, in order. A board sends that after the byte
/// 49, for which there is no call: write the byte to the line.
inline std::vector<Stored> read_stored(ByteView body) {
    std::vector<Stored> read;
    for (dgt_stored it; !body.empty();) {
        body = body.after(dgt_stored_first(body.data(), body.size(), &it));
        switch (it.kind) {
        case DGT_STORED_PIECE:
            read.push_back(StoredPiece{Square(it.square), static_cast<Piece>(it.piece),
                                       it.bit != 0});
            break;
        case DGT_STORED_TIME: read.push_back(StoredTime{detail::read_time(it.time)}); break;
        case DGT_STORED_MARK: read.push_back(static_cast<Mark>(it.byte)); break;
        default: read.push_back(UnknownByte{it.byte});
        }
    }
    return read;
}

/// A button of a clock.
enum class Button : std::uint8_t {
    back = DGT_BUTTON_BACK,
    plus = DGT_BUTTON_PLUS,
    run = DGT_BUTTON_RUN,
    minus = DGT_BUTTON_MINUS,
    ok = DGT_BUTTON_OK
};

/// The clock has executed the message with this id.
struct Done { ClockId id; };
struct ClockVersion { std::uint8_t main_number, sub_number; };
/// This button was pressed, even if no message asked for it.
struct Pressed { Button button; };
/// Ok was pressed together with Back, which switches a clock off.
struct Off {};
/// The clock was switched on, and is ready.
struct Ready {};

using Signal = std::variant<Done, ClockVersion, Pressed, Off, Ready>;

/// The meaning of an acknowledgement, if it is known.
inline std::optional<Signal> signal_of(const Ack &ack) {
    dgt_signal it;
    if (!dgt_signal_of(ack.ack.data(), &it)) return std::nullopt;
    switch (it.kind) {
    case DGT_SIGNAL_DONE: return Done{static_cast<ClockId>(it.id)};
    case DGT_SIGNAL_VERSION: return ClockVersion{it.main_number, it.sub_number};
    case DGT_SIGNAL_PRESSED: return Pressed{static_cast<Button>(it.button)};
    case DGT_SIGNAL_OFF: return Off{};
    case DGT_SIGNAL_READY: return Ready{};
    default: return std::nullopt;
    }
}

/// What a battery reports of itself.
struct BatteryState {
    std::optional<std::uint8_t> percent; ///< what is left of its charge, if that is known
    /// The time until it is empty, or until it is charged.
    std::optional<std::uint8_t> hours_left, minutes_left;
    std::uint8_t hours_on, minutes_on; ///< how long the board has been on
    std::uint8_t days_resting, hours_resting, minutes_resting; ///< how long it has been resting
    bool charging, discharging;
};

/// The meaning of the body of a battery message, if it is nine bytes long.
inline std::optional<BatteryState> battery_of(const Battery &battery) {
    dgt_battery it;
    if (!dgt_battery_of(battery.body.data(), battery.body.size(), &it)) return std::nullopt;
    auto known = [](std::uint8_t n) {
        return n == DGT_BATTERY_UNKNOWN ? std::nullopt : std::optional(n);
    };
    return BatteryState{known(it.percent), known(it.hours_left), known(it.minutes_left),
                        it.hours_on, it.minutes_on, it.days_resting, it.hours_resting,
                        it.minutes_resting, it.charging != 0, it.discharging != 0};
}

/// The text of bytes such as those of a serial number or a trademark. None if there are no bytes,
/// or one of them is not a printable ASCII character.
inline std::optional<std::string> text_of(ByteView bytes) {
    if (!dgt_is_text(bytes.data(), bytes.size())) return std::nullopt;
    return std::string(bytes.begin(), bytes.end());
}

// ---- What a host and a follower send and know.

class Host;
class Follower;
template <class Self> class Sender;

/// The messages that a Host and a Follower send to the clock of a board, which acknowledges each by
/// an Ack. Spaces are added after shorter texts. Throws std::invalid_argument if a text is too long
/// or contains other characters than those named.
template <class Self> class ClockCommands {
public:
    /// Shows at most six digits, spaces and hyphens, from left to right.
    Commands send_display(std::string_view text, std::uint8_t dots = 0, std::uint8_t beep = 0) {
        auto shown = padded<6>(text);
        for (std::uint8_t each : shown)
            if (dgt_segment(each) == DGT_NO_SUCH)
                throw std::invalid_argument("not a digit, a space or a hyphen");
        return sent<dgt_host_send_display, dgt_follower_send_display>(shown.data(), dots, beep);
    }

    /// Shows at most eight ASCII characters, from left to right.
    Commands send_text(std::string_view text, std::uint8_t beep = 0) {
        auto shown = padded<8>(text);
        for (std::uint8_t each : shown)
            if (each > 127) throw std::invalid_argument("the text is not ASCII");
        return sent<dgt_host_send_text, dgt_follower_send_text>(shown.data(), beep);
    }

    Commands send_beep(std::uint8_t duration) {
        return sent<dgt_host_send_beep, dgt_follower_send_beep>(duration);
    }

    /// Sets the times of both sides. The clock interprets the bits of `control`. Throws
    /// std::invalid_argument if a time is out of range, or has flags.
    Commands send_set_and_run(const Time &left, const Time &right, std::uint8_t control) {
        auto one = side(left), other = side(right);
        return sent<dgt_host_send_set_and_run, dgt_follower_send_set_and_run>(
            one.data(), other.data(), control);
    }

    /// Shows the icons of these bytes. Throws std::invalid_argument above DGT_MAX_PAYLOAD of them.
    Commands send_icons(ByteView payload) {
        return sent<dgt_host_send_icons, dgt_follower_send_icons>(payload.data(), payload.size());
    }

    /// Ends the display of a text or icons: the clock shows its times again.
    Commands send_end() { return sent<dgt_host_send_end, dgt_follower_send_end>(); }

    /// Requests the state of the clock's buttons.
    Commands send_button() { return sent<dgt_host_send_button, dgt_follower_send_button>(); }

    /// Requests the version of the clock.
    Commands send_clock_version() {
        return sent<dgt_host_send_clock_version, dgt_follower_send_clock_version>();
    }

private:
    friend Self;
    friend Sender<Self>;
    ClockCommands() = default;
    ClockCommands(const ClockCommands &) = delete;
    ClockCommands &operator=(const ClockCommands &) = delete;

    /// Makes one of two calls of dgt.h: that for a host, or that for a follower.
    template <auto OfHost, auto OfFollower, class... Given> auto call(Given... given) {
        if constexpr (std::is_same_v<Self, Host>)
            return OfHost(&handle_, given...);
        else
            return OfFollower(&handle_, given...);
    }

    /// The bytes that a call sends. Throws like Sender::send_clock.
    template <auto OfHost, auto OfFollower, class... Given> Commands sent(Given... given) {
        Commands out;
        std::size_t room = DGT_MAX_ASKING;
        dgt_sent done = call<OfHost, OfFollower>(given..., out.room(), room);
        if (done.status == DGT_TOO_MANY_AWAITED) throw TooManyAwaited();
        if (done.status != DGT_DONE) throw std::invalid_argument("too many bytes for one command");
        out.resize(done.bytes);
        return out;
    }

    template <std::size_t N> static std::array<std::uint8_t, N> padded(std::string_view text) {
        std::array<std::uint8_t, N> shown;
        shown.fill(' ');
        if (text.size() > N)
            throw std::invalid_argument("more than " + std::to_string(N) + " characters");
        std::copy(text.begin(), text.end(), shown.begin());
        return shown;
    }

    static std::array<std::uint8_t, 3> side(const Time &time) {
        if (time.hours > 9 || time.minutes > 59 || time.seconds > 59 || time.flags != 0)
            throw std::invalid_argument("not a time from 0:00:00 to 9:59:59 without flags");
        return {time.hours, time.minutes, time.seconds};
    }

    std::conditional_t<std::is_same_v<Self, Host>, dgt_host, dgt_follower> handle_;
    std::array<std::uint8_t, DGT_MAX_BODY> body_;
};

/// The other commands of a Host and a Follower, and what they know of a board. Those of a follower
/// don't count as its requests. Its mode's command follows a message to the clock and an LED frame.
/// If a byte of those is lost, the board may read others of them as commands, and Ask::reset ends
/// its reports.
template <class Self> class Sender : public ClockCommands<Self> {
public:
    /// Throws TooManyAwaited if a reply would have to be awaited.
    Commands send(Ask ask) {
        auto code = static_cast<std::uint8_t>(ask);
        return this->template sent<dgt_host_send, dgt_follower_send>(code);
    }

    /// Sends the clock message with this id. Throws std::invalid_argument for more than
    /// DGT_MAX_PAYLOAD bytes.
    Commands send_clock(ClockId id, ByteView payload) {
        auto code = static_cast<std::uint8_t>(id);
        return this->template sent<dgt_host_send_clock, dgt_follower_send_clock>(
            code, payload.data(), payload.size());
    }

    /// Sends an LED frame, such as `lighting(one, other).leds`. Throws std::invalid_argument for
    /// more than DGT_MAX_LEDS bytes.
    Commands send_leds(ByteView leds) {
        return this->template sent<dgt_host_send_leds, dgt_follower_send_leds>(leds.data(),
                                                                               leds.size());
    }

    /// The pieces on the squares, once a dump was heard. A follower's stay known during requests.
    std::optional<Position> picture() {
        std::array<std::uint8_t, 64> codes;
        if (!this->template call<dgt_host_picture, dgt_follower_picture>(codes.data()))
            return std::nullopt;
        return Position(codes);
    }

    /// The same as the first field of a FEN.
    std::optional<std::string> placement() {
        char text[DGT_PLACEMENT_ROOM];
        if (!this->template call<dgt_host_placement, dgt_follower_placement>(text))
            return std::nullopt;
        return std::string(text);
    }

    /// The clock as last reported, if it was. A follower's is nothing while it shows no digits.
    std::optional<Clock> clock() {
        dgt_clock clock;
        this->template call<dgt_host_clock, dgt_follower_clock>(&clock);
        return detail::read_clock(clock);
    }

    /// How many bytes of an unfinished message were heard.
    std::size_t unread() { return this->template call<dgt_host_unread, dgt_follower_unread>(); }

    /// Reports that the line was lost, with all bytes under way: a host is as new. A follower keeps
    /// its period, patience and mode, and whether it confirms and identifies.
    void line_lost() { this->template call<dgt_host_line_lost, dgt_follower_line_lost>(); }

private:
    friend Self;
    Sender() = default;
};

// ---- A host.

/// Sends commands, and tracks the board's position from the messages that it hears. 38 KiB.
class Host : public Sender<Host> {
public:
    /// A host that knows nothing and awaits nothing. Throws WrongLibrary.
    Host() {
        if (!dgt_host_init(&handle_)) throw WrongLibrary();
    }

    /// Hears the bytes up to the first event, or all of them: at least 1, if there are any.
    Heard hear_one(ByteView bytes) { return detail::heard<dgt_host_hear>(handle_, body_, bytes); }

    /// Hears all bytes, and passes each event to `tell` once it is heard, also with the number of
    /// bytes used by then if `tell` takes a std::size_t.
    template <class Tell> void hear(ByteView bytes, Tell &&tell) {
        detail::hear(bytes, [&](ByteView left) { return hear_one(left); }, tell);
    }

    /// Requests each change from now on, and all squares. Throws TooManyAwaited.
    Commands follow() { return sent<dgt_host_follow, nullptr>(); }

    /// The same after zeros, which complete any unfinished command of the board.
    Commands restart() { return sent<dgt_host_restart, nullptr>(); }

    /// The requests with awaited replies, the next one first.
    std::vector<Ask> awaited() {
        std::uint8_t codes[DGT_MAX_AWAITED];
        std::vector<Ask> asked;
        std::size_t count = dgt_host_awaited(&handle_, codes);
        for (std::size_t at = 0; at < count; at++) asked.push_back(static_cast<Ask>(codes[at]));
        return asked;
    }

    /// Removes all awaited replies from the list, and returns how many there were (see dgt.h).
    std::size_t give_up_awaited() { return dgt_host_give_up_awaited(&handle_); }
};

// ---- A follower.

/// A host that requests the whole board again and again, so that its picture becomes right again
/// after any fault of the line (see dgt.h). Throws std::invalid_argument for a negative time or
/// period. 39 KiB.
class Follower : public Sender<Follower> {
public:
    /// `period` is the time from one request to the next. `patience` is how many heartbeats may
    /// follow one another. `confirm` and `identify` are those of set_confirm and set_identify.
    /// Throws WrongLibrary, and std::invalid_argument if the period is less than DGT_LEAST_PERIOD
    /// milliseconds, or `mode` is idle.
    explicit Follower(Milliseconds period = std::chrono::seconds(10), std::uint32_t patience = 6,
                      Mode mode = Mode::update_board, bool confirm = false,
                      bool identify = false) {
        if (period.count() < DGT_LEAST_PERIOD)
            throw std::invalid_argument("a period is less than a second");
        if (!dgt_follower_init(&handle_, detail::count(period), patience)) throw WrongLibrary();
        set_mode(mode);
        set_confirm(confirm);
        set_identify(identify);
    }

    /// The request at this time, empty if none is due.
    Commands ask(Milliseconds now) {
        return sent<nullptr, dgt_follower_ask>(detail::count(now));
    }

    /// When to call `ask` next, if nothing is heard before: 0 if a request is due at once. An
    /// answer or the rest of a message may be overdue then, which is a doubt. Nothing if it is out
    /// of range.
    std::optional<Milliseconds> due_at() { return detail::time<dgt_follower_due_at>(handle_); }

    /// As Host::hear_one and hear, with the time at which the bytes were received.
    Heard hear_one(Milliseconds now, ByteView bytes) {
        return detail::heard<dgt_follower_hear>(handle_, body_, bytes, detail::count(now));
    }
    template <class Tell> void hear(Milliseconds now, ByteView bytes, Tell &&tell) {
        detail::hear(bytes, [&](ByteView left) { return hear_one(now, left); }, tell);
    }

    /// Hears all bytes, and reports no events.
    void hear(Milliseconds now, ByteView bytes) {
        dgt_follower_hear_all(&handle_, detail::count(now), bytes.data(), bytes.size());
    }

    /// Makes a request due at once, or once the last one is answered.
    void ask_now() { dgt_follower_ask_now(&handle_); }

    /// Sets whether a picture that isn't confirmed is requested again: a second after the last
    /// change and after the last request.
    void set_confirm(bool confirm) { dgt_follower_set_confirm(&handle_, confirm); }

    /// Sets whether the serial number of the board is requested while it is unknown.
    void set_identify(bool identify) { dgt_follower_set_identify(&handle_, identify); }

    /// Which changes the board is asked to report by itself, from the next request on.
    Mode mode() { return static_cast<Mode>(dgt_follower_mode(&handle_)); }

    /// Throws std::invalid_argument if it is idle.
    void set_mode(Mode mode) {
        if (!dgt_follower_set_mode(&handle_, static_cast<std::uint8_t>(mode)))
            throw std::invalid_argument("a follower's mode can't be idle");
    }

    /// Whether the picture may be wrong.
    bool in_doubt() { return dgt_follower_in_doubt(&handle_); }

    /// Whether an awaited dump repeated the picture, without a change or a disturbance since.
    bool confirmed() { return dgt_follower_confirmed(&handle_); }

    /// The serial number of the board, if it was reported.
    std::optional<std::array<std::uint8_t, 5>> serial() {
        std::array<std::uint8_t, 5> serial;
        if (!dgt_follower_serial(&handle_, serial.data())) return std::nullopt;
        return serial;
    }

    /// The time of the last whole message, if there was one.
    std::optional<Milliseconds> last_heard() {
        return detail::time<dgt_follower_last_heard>(handle_);
    }

    /// How many more heartbeats the patience allows.
    std::uint32_t heartbeats_left() { return dgt_follower_heartbeats_left(&handle_); }

    /// Reports that bytes were lost or altered, which is a disturbance.
    void line_disturbed() { dgt_follower_line_disturbed(&handle_); }
};

// ---- A decoder, and a decoder of commands.

/// Reports the events in a board's bytes, and keeps no picture. 37 KiB.
class Decoder : detail::Owner<dgt_decoder> {
public:
    /// A decoder that holds nothing. Throws WrongLibrary.
    Decoder() : Owner(dgt_decoder_init) {}

    /// As Host::hear_one and hear.
    Heard feed_one(ByteView bytes) {
        return detail::heard<dgt_decoder_feed>(handle_, body_, bytes);
    }
    template <class Tell> void feed(ByteView bytes, Tell &&tell) {
        detail::hear(bytes, [&](ByteView left) { return feed_one(left); }, tell);
    }

    /// How many bytes of an unfinished message were received.
    std::size_t unread() { return dgt_decoder_unread(&handle_); }

    /// The same, at the end of the bytes. The decoder is then as new.
    std::size_t finish() { return dgt_decoder_finish(&handle_); }

    /// Returns it to its initial state.
    void reset() { dgt_decoder_reset(&handle_); }

private:
    std::array<std::uint8_t, DGT_MAX_BODY> body_;
};

/// Reports the commands in a host's bytes.
class CommandDecoder : detail::Owner<dgt_command_decoder> {
public:
    /// A decoder that holds nothing. Throws WrongLibrary.
    CommandDecoder() : Owner(dgt_command_decoder_init) {}

    /// Uses the bytes up to the first command or fault, or all of them: at least 1, if there are
    /// any.
    Read feed_one(ByteView bytes) {
        dgt_command command;
        std::uint8_t word[DGT_MAX_WORD];
        std::size_t used = dgt_command_decoder_feed(&handle_, bytes.data(), bytes.size(), &command,
                                                    word, sizeof word);
        return {used, detail::read_word(command, word)};
    }

    /// Uses all bytes, and passes each command and each fault to `tell`.
    template <class Tell> void feed(ByteView bytes, Tell &&tell) {
        while (!bytes.empty()) {
            Read read = feed_one(bytes);
            bytes = bytes.after(read.used);
            if (read.word) tell(std::as_const(*read.word));
        }
    }

    /// How many bytes of an unfinished command were received.
    std::size_t unread() { return dgt_command_decoder_unread(&handle_); }

    /// The same, at the end of the bytes. The decoder is then as new.
    std::size_t finish() { return dgt_command_decoder_finish(&handle_); }

    /// Returns it to its initial state.
    void reset() { dgt_command_decoder_reset(&handle_); }
};

// ---- A board.

/// What a board reports of itself. Each byte except the clock's version is below 128, and a body
/// has at most DGT_MAX_KEPT of them.
struct Identity {
    std::array<std::uint8_t, 5> serial{};
    std::uint8_t main_number = 0, sub_number = 0;
    std::uint8_t clock_version = 0; ///< the main number in the high four bits
    Bytes trademark, battery, long_serial;
};

/// How many bytes a board took, and the command or fault that they complete. Nothing if it is busy.
struct Taken {
    bool busy;
    std::size_t used;
    std::optional<Word> word;
};

/// A simulated board.
class Board : detail::Owner<dgt_board> {
public:
    /// A board in the initial position, with a clock that shows 0:00:00 twice, and the identity of
    /// a simulated board. Throws WrongLibrary.
    Board() : Owner(dgt_board_init) {}

    /// Throws WrongLibrary, and std::invalid_argument if the clock or the identity is out of range.
    Board(const Position &position, const Clock &clock, const Identity &identity) : Board() {
        dgt_identity written{};
        std::copy(identity.serial.begin(), identity.serial.end(), std::begin(written.serial));
        written.main_number = identity.main_number, written.sub_number = identity.sub_number;
        written.clock_version = identity.clock_version;
        write_body(identity.trademark, written.trademark);
        write_body(identity.battery, written.battery);
        write_body(identity.long_serial, written.long_serial);
        dgt_clock shown = detail::write_clock(clock);
        if (dgt_board_start(&handle_, position.codes().data(), &shown, &written) != DGT_STARTED)
            throw std::invalid_argument("the clock or the identity is out of range");
    }

    /// Puts a piece, or none, on a square. Throws std::invalid_argument for a piece above 15.
    void change(Square square, Piece piece) {
        if (!dgt_board_change(&handle_, square.number(), static_cast<std::uint8_t>(piece)))
            throw std::invalid_argument("pieces are numbered from 0 to 15");
    }

    /// Sets what the clock shows. Throws std::invalid_argument if it is out of range.
    void hand_clock(const Clock &clock) {
        dgt_clock shown = detail::write_clock(clock);
        if (!dgt_board_hand_clock(&handle_, &shown))
            throw std::invalid_argument("the clock is out of range");
    }

    /// Takes the bytes up to the first command or fault, or all of them. It is busy, and takes
    /// none, if eight replies are owed: poll first.
    Taken take(ByteView bytes) {
        dgt_command command;
        std::uint8_t word[DGT_MAX_WORD];
        dgt_taken taken = dgt_board_take(&handle_, bytes.data(), bytes.size(), &command, word,
                                         sizeof word);
        return {taken.busy, taken.used, detail::read_word(command, word)};
    }

    /// The next message to be sent, if there is one. It counts as sent.
    std::optional<Message> poll() {
        Message out;
        dgt_polled polled = dgt_board_poll(&handle_, out.room(), std::size_t{DGT_MAX_SENT});
        if (polled.status != DGT_WROTE) return std::nullopt;
        out.resize(polled.bytes);
        return out;
    }

    /// Takes all bytes, and passes each message to be sent to `send`: first those that were
    /// pending, and after each command those that answer it.
    template <class Send> void answer(ByteView bytes, Send &&send) {
        for (;;) {
            while (std::optional<Message> message = poll()) send(std::as_const(*message));
            if (bytes.empty()) return;
            bytes = bytes.after(take(bytes).used);
        }
    }

    /// Whether there is anything to send.
    bool owes() { return dgt_board_owes(&handle_); }

    /// How many replies are owed, at most DGT_MAX_OWED.
    std::size_t owed_len() { return dgt_board_owed_len(&handle_); }

    /// How many bytes of an unfinished command were received.
    std::size_t unread() { return dgt_board_unread(&handle_); }

    Mode mode() { return static_cast<Mode>(dgt_board_mode(&handle_)); }

    Position position() {
        std::array<std::uint8_t, 64> codes;
        dgt_board_position(&handle_, codes.data());
        return Position(codes);
    }

    /// What the clock shows.
    Clock clock() {
        dgt_clock clock;
        dgt_board_clock(&handle_, &clock);
        return detail::read_clock(clock).value();
    }

    /// Simulates a lost line, with all bytes under way: the board keeps its squares, its clock and
    /// its identity, and is otherwise as new.
    void line_lost() { dgt_board_line_lost(&handle_); }

private:
    static void write_body(const Bytes &body, dgt_body &written) {
        if (body.size() > sizeof written.bytes) throw std::invalid_argument("a body is too long");
        written.len = body.size();
        std::copy(body.begin(), body.end(), std::begin(written.bytes));
    }
};

// ---- The rules of chess.

class Recogniser;

namespace chess {

enum class Colour : std::uint8_t { white = DGT_CHESS_WHITE, black = DGT_CHESS_BLACK };

enum class Man : std::uint8_t { pawn = 1, rook, knight, bishop, king, queen };

/// A move of the side to move. A castling is the move of its king.
struct Move {
    Square from, to;
    std::optional<Man> promotion = std::nullopt; ///< what a pawn becomes

    friend bool operator==(const Move &a, const Move &b) {
        return a.from == b.from && a.to == b.to && a.promotion == b.promotion;
    }
    friend bool operator!=(const Move &a, const Move &b) { return !(a == b); }
};

/// Which castlings no earlier move of a king or a rook has ruled out.
struct Rights {
    bool white_short = false, white_long = false, black_short = false, black_long = false;

    friend bool operator==(const Rights &a, const Rights &b) {
        return a.white_short == b.white_short && a.white_long == b.white_long &&
               a.black_short == b.black_short && a.black_long == b.black_long;
    }
    friend bool operator!=(const Rights &a, const Rights &b) { return !(a == b); }
};

/// Why no game reaches a state.
enum class Why : std::uint8_t {
    bad_kings = DGT_CHESS_BAD_KINGS,
    extra_piece = DGT_CHESS_EXTRA_PIECE,
    bad_pawn = DGT_CHESS_BAD_PAWN,
    in_check = DGT_CHESS_IN_CHECK,
    bad_rights = DGT_CHESS_BAD_RIGHTS,
    bad_passed = DGT_CHESS_BAD_PASSED,
    bad_number = DGT_CHESS_BAD_NUMBER,
    bad_member = DGT_CHESS_BAD_MEMBER ///< a cast has made a value that its type doesn't list
};

/// No game reaches a state.
class Impossible : public std::invalid_argument {
public:
    explicit Impossible(Why why)
        : std::invalid_argument("no game reaches this state"), why_(why) {}

    /// The first reason that holds.
    Why why() const noexcept { return why_; }

private:
    Why why_;
};

/// The fields of a FEN, in their order.
enum class FenField : std::uint8_t { placement, turn, rights, passed, half_moves, number };

/// A text is not a FEN.
class BadFen : public std::invalid_argument {
public:
    BadFen(std::string_view text, FenField field, std::size_t at)
        : std::invalid_argument("not a FEN: '" + std::string(text) + "'"), field_(field), at_(at) {}

    /// The field that is wrong.
    FenField field() const noexcept { return field_; }

    /// The offset of the first wrong character, or the length of the text.
    std::size_t at() const noexcept { return at_; }

private:
    FenField field_;
    std::size_t at_;
};

/// A move is not legal.
class IllegalMove : public std::invalid_argument {
public:
    IllegalMove() : std::invalid_argument("the move is not legal") {}
};

/// Why a text is not that of a legal move.
enum class SanFault : std::uint8_t {
    bad_text = DGT_CHESS_BAD_TEXT,
    no_move = DGT_CHESS_NO_MOVE,
    ambiguous = DGT_CHESS_AMBIGUOUS
};

/// A text is not that of a legal move.
class BadSan : public std::invalid_argument {
public:
    BadSan(std::string_view text, SanFault why)
        : std::invalid_argument("not a legal move: '" + std::string(text) + "'"), why_(why) {}

    SanFault why() const noexcept { return why_; }

private:
    SanFault why_;
};

/// The state of a game: a position, the side to move, and what the rules remember of earlier moves.
/// It is always one that a game may reach (see dgt_chess_state in dgt.h).
class State {
public:
    /// Of these parts, as the functions of these names return them. Throws Impossible.
    State(const Position &position, Colour turn, const Rights &rights,
          std::optional<Square> passed = std::nullopt, std::uint16_t half_moves = 0,
          std::uint16_t number = 1)
        : state_{} {
        std::copy(position.codes().begin(), position.codes().end(), std::begin(state_.pieces));
        const bool may[] = {rights.white_short, rights.white_long, rights.black_short,
                            rights.black_long};
        std::copy(std::begin(may), std::end(may), std::begin(state_.rights));
        state_.turn = static_cast<std::uint8_t>(turn);
        state_.passed = passed ? passed->number() : std::uint8_t{DGT_NO_SUCH};
        state_.half_moves = half_moves, state_.number = number;
        if (auto why = dgt_chess_check(&state_); why != DGT_CHESS_DONE)
            throw Impossible(static_cast<Why>(why));
    }

    /// Of a text in Forsyth-Edwards Notation. Throws BadFen, and Impossible.
    explicit State(std::string_view fen) : state_{} {
        auto read = dgt_chess_parse_fen(fen.data(), fen.size(), &state_);
        if (read.status == DGT_CHESS_BAD_TEXT)
            throw BadFen(fen, static_cast<FenField>(read.field), read.at);
        if (read.status != DGT_CHESS_DONE) throw Impossible(static_cast<Why>(read.status));
    }

    /// The state in which a game begins.
    static State start() {
        State state;
        dgt_chess_start(&state.state_);
        return state;
    }

    Position position() const { return Position(detail::copied(state_.pieces)); }
    Colour turn() const noexcept { return static_cast<Colour>(state_.turn); }

    /// The castlings that no earlier move has ruled out.
    Rights rights() const noexcept {
        return {state_.rights[0] != 0, state_.rights[1] != 0, state_.rights[2] != 0,
                state_.rights[3] != 0};
    }

    /// The square that a pawn passed over by a double step in the last move, whether or not it can
    /// be captured there.
    std::optional<Square> passed() const {
        if (state_.passed == DGT_NO_SUCH) return std::nullopt;
        return Square(state_.passed);
    }

    /// The moves of either side since the last capture or move of a pawn, or 65535 if there are
    /// more.
    std::uint16_t half_moves() const noexcept { return state_.half_moves; }

    /// The number of the move: 1 at the beginning, and one more after each move of Black. It ends
    /// at 65535.
    std::uint16_t number() const noexcept { return state_.number; }

    bool is_legal(const Move &move) const {
        dgt_chess_move written = write(move);
        return dgt_chess_is_legal(&state_, &written);
    }

    /// The state after a move. Throws IllegalMove.
    State play(const Move &move) const {
        State after = *this;
        dgt_chess_move written = write(move);
        if (!dgt_chess_play(&after.state_, &written)) throw IllegalMove();
        return after;
    }

    /// The squares to which legal moves go from each square: bit n of its number is set if one goes
    /// to square n.
    std::array<std::uint64_t, 64> goals() const {
        std::array<std::uint64_t, 64> goals{}; // a state is never refused
        if (!dgt_chess_goals(&state_, goals.data())) goals.fill(0);
        return goals;
    }

    /// The legal move that leads to a position, if there is one.
    std::optional<Move> move_to(const Position &position) const {
        dgt_chess_move move;
        if (!dgt_chess_move_to(&state_, position.codes().data(), &move)) return std::nullopt;
        return read(move);
    }

    /// Whether the side to move is in check, has a legal move, is checkmated, or has no legal move
    /// and isn't in check.
    bool is_check() const { return dgt_chess_is_check(&state_); }
    bool can_move() const { return dgt_chess_can_move(&state_); }
    bool is_mate() const { return dgt_chess_is_mate(&state_); }
    bool is_stalemate() const { return dgt_chess_is_stalemate(&state_); }

    /// Whether the game is drawn, or the side to move may claim a draw (see dgt.h).
    bool is_dead() const { return dgt_chess_is_dead(&state_); }
    bool is_fifty_moves() const { return dgt_chess_is_fifty_moves(&state_); }
    bool is_seventy_five_moves() const { return dgt_chess_is_seventy_five_moves(&state_); }

    /// Whether the other state has the same position, in which the same moves are possible.
    bool is_repeated(const State &other) const {
        return dgt_chess_is_repeated(&state_, &other.state_);
    }

    /// How many of these states have. If three of a game do, the side to move may claim a draw.
    std::size_t repetitions(const std::vector<State> &history) const {
        auto count = std::count_if(history.begin(), history.end(),
                                   [this](const State &other) { return is_repeated(other); });
        return static_cast<std::size_t>(count);
    }

    /// The text in Forsyth-Edwards Notation. The passed square is written only if a legal move
    /// captures the pawn there.
    std::string fen() const {
        char text[DGT_CHESS_FEN_ROOM] = "";
        return dgt_chess_fen(&state_, text) ? text : ""; // a state is never refused
    }

    /// The text of a move in Standard Algebraic Notation. Throws IllegalMove.
    std::string san(const Move &move) const {
        char text[DGT_CHESS_SAN_ROOM];
        dgt_chess_move written = write(move);
        if (!dgt_chess_san(&state_, &written, text)) throw IllegalMove();
        return text;
    }

    /// The legal move that `san` writes so. Throws BadSan.
    Move parse_san(std::string_view text) const { return parsed(dgt_chess_parse_san, text); }

    /// The same for texts of other programs (see dgt.h). Throws BadSan.
    Move parse_san_leniently(std::string_view text) const {
        return parsed(dgt_chess_parse_san_leniently, text);
    }

    friend bool operator==(const State &a, const State &b) {
        return std::memcmp(&a.state_, &b.state_, sizeof a.state_) == 0;
    }
    friend bool operator!=(const State &a, const State &b) { return !(a == b); }

private:
    friend Recogniser;
    State() : state_{} {}
    explicit State(const dgt_chess_state &state) : state_(state) {}

    static dgt_chess_move write(const Move &move) {
        std::uint8_t promotion = move.promotion ? static_cast<std::uint8_t>(*move.promotion) : 0;
        return {move.from.number(), move.to.number(), promotion, 0};
    }

    static Move read(const dgt_chess_move &move) {
        auto man = static_cast<Man>(move.promotion);
        auto promotion = move.promotion == 0 ? std::nullopt : std::optional(man);
        return {Square(move.from), Square(move.to), promotion};
    }

    template <class Parse> Move parsed(Parse parse, std::string_view text) const {
        dgt_chess_move move;
        std::uint8_t status = parse(&state_, text.data(), text.size(), &move);
        if (status != DGT_CHESS_DONE) throw BadSan(text, static_cast<SanFault>(status));
        return read(move);
    }

    dgt_chess_state state_;
};

} // namespace chess

// ---- Games.

enum class GameResult : std::uint8_t {
    white_wins = DGT_RESULT_WHITE_WINS,
    black_wins = DGT_RESULT_BLACK_WINS,
    draw = DGT_RESULT_DRAW
};

/// The events of a game.
namespace game {

/// A game begins with a state. The one before is broken off, if it hasn't ended. The board is
/// turned if White's pieces began on its ranks 8 and 7.
struct Begun { chess::State state; bool is_turned; };
/// A move was made, and the position after it was shown.
struct Made { chess::Move move; };
/// These moves were made, and only the position after the last was shown. No other legal line of as
/// many moves leads there.
struct Unseen { std::vector<chess::Move> moves; };
/// `count` moves were made, and only the position after the last was shown. Some legal line of as
/// many leads to the state, but it isn't known which was made.
struct Gap { unsigned count; chess::State state; };
/// `count` moves are taken back: those of the last Made, Unseen or Gap. If `stays`, what is taken
/// back since moves were made last stays: keep the game with it, too.
struct Back { unsigned count; bool stays; };
/// The game has ended.
struct Ended { GameResult result; };
/// No moves lead to what the board shows. Bit n is set if square n differs from the last state's.
struct Lost { std::uint64_t squares; };
/// The board shows a position of the game again.
struct Found {};

} // namespace game

using GameEvent = std::variant<game::Begun, game::Made, game::Unseen, game::Gap, game::Back,
                               game::Ended, game::Lost, game::Found>;

/// What is known of the pieces that a board shows.
struct Sight {
    bool is_sure = true;      ///< nothing was lost on the line
    bool is_confirmed = true; ///< the board was asked again, and has shown the same
    std::optional<chess::Colour> running = std::nullopt; ///< the side whose clock runs
};

/// Recognises the games that are played on a board (see dgt.h). Throws std::invalid_argument for a
/// negative time. 16 KiB.
class Recogniser : detail::Owner<dgt_recogniser> {
public:
    /// A recogniser that has seen nothing. Throws WrongLibrary.
    Recogniser() : Owner(dgt_recogniser_init) {}

    /// Takes what the board shows at this time, or nothing while it can't be heard. Returns the
    /// events until then.
    std::vector<GameEvent> see(Milliseconds now, const std::optional<Position> &position,
                               const Sight &sight = {}) {
        std::vector<GameEvent> events;
        std::uint8_t status = take(now, position, sight);
        if (status == DGT_SEE_STILL_DUE) add_due(now, events), status = take(now, position, sight);
        if (status != DGT_SEEN) throw std::invalid_argument("the side whose clock runs isn't one");
        add_due(now, events);
        return events;
    }

    /// The first time at which `due` has something to do, if nothing is seen before.
    std::optional<Milliseconds> due_at() {
        return detail::time<dgt_recogniser_due_at>(handle_);
    }

    /// The events that are due at this time.
    std::vector<GameEvent> due(Milliseconds now) {
        std::vector<GameEvent> events;
        add_due(now, events);
        return events;
    }

    /// The state that the events so far lead to, once a game has begun.
    std::optional<chess::State> state() {
        dgt_chess_state state;
        if (!dgt_recogniser_state(&handle_, &state)) return std::nullopt;
        return chess::State(state);
    }

    /// Goes on from this state of a game, as if events had led to it, and forgets everything else.
    void go_on(const chess::State &state, bool is_turned = false) {
        if (dgt_recogniser_go_on(&handle_, &state.state_, is_turned) != DGT_CHESS_DONE)
            throw std::invalid_argument("not a state"); // a state is never refused
    }

private:
    std::uint8_t take(Milliseconds now, const std::optional<Position> &position,
                      const Sight &sight) {
        const Position shown = position.value_or(Position());
        const auto kind = !position       ? DGT_SIGHT_AWAY
                          : sight.is_sure ? DGT_SIGHT_SURE
                                          : DGT_SIGHT_DOUBTED;
        const auto running = sight.running ? static_cast<std::uint8_t>(*sight.running)
                                           : std::uint8_t{DGT_NO_SUCH};
        return dgt_recogniser_see(&handle_, detail::count(now), shown.codes().data(),
                                  static_cast<std::uint8_t>(kind), sight.is_confirmed, running);
    }

    void add_due(Milliseconds now, std::vector<GameEvent> &events) {
        dgt_game_event event;
        while (dgt_recogniser_due(&handle_, detail::count(now), &event))
            events.push_back(read(event));
    }

    static GameEvent read(const dgt_game_event &event) {
        auto move = [&](std::size_t at) { return chess::State::read(event.moves[at]); };
        switch (event.kind) {
        case DGT_GAME_BEGUN: return game::Begun{chess::State(event.state), event.turned != 0};
        case DGT_GAME_MADE: return game::Made{move(0)};
        case DGT_GAME_UNSEEN: {
            game::Unseen unseen;
            for (std::size_t at = 0; at < event.count; at++) unseen.moves.push_back(move(at));
            return unseen;
        }
        case DGT_GAME_GAP: return game::Gap{event.count, chess::State(event.state)};
        case DGT_GAME_BACK: return game::Back{event.count, event.stays != 0};
        case DGT_GAME_ENDED: return game::Ended{static_cast<GameResult>(event.result)};
        case DGT_GAME_LOST: return game::Lost{event.squares};
        default: return game::Found{};
        }
    }
};

} // namespace dgt

#endif
