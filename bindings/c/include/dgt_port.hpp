// dgt_port.hpp: the serial port of a DGT board, for programs in C++17 and later on Linux. It is
// dgt_port.h as a class, with the bytes and times of dgt.hpp, and follows the board on a port:
//
//     for (const dgt::BoardView &view : dgt::follow("/dev/ttyUSB0"))
//         if (view.picture && !view.in_doubt) std::cout << view.picture->placement() << std::endl;
#ifndef DGT_PORT_HPP
#define DGT_PORT_HPP

#include "dgt.hpp"
#include "dgt_port.h"

#include <sys/eventfd.h>

#include <atomic>
#include <cerrno>
#include <mutex>
#include <string>
#include <vector>

namespace dgt {

/// The names of the serial ports that may be boards, as dgt_port_next lists them. It opens none.
/// Set `folder` to use another folder than /dev.
inline std::vector<std::string> ports(const std::string &folder = "/dev") {
    std::vector<std::string> found;
    dgt_ports listed{};
    listed.folder = folder.c_str();
    while (dgt_port_next(&listed)) found.emplace_back(listed.path);
    return found;
}

/// A port can't be opened, or has gone. The text gives the reason, and what to do.
class PortError : public std::runtime_error {
public:
    PortError(const std::string &name, int error)
        : std::runtime_error(name + ": " + dgt_port_advice(error)), error_(error) {}

    /// The errno, such as ENOENT.
    int error() const noexcept { return error_; }

private:
    int error_;
};

/// A serial port that only this process can use: 9600 baud, 8 bits, no parity, 1 stop bit, raw. It
/// is closed with the object. Each call may throw a PortError.
class Port {
public:
    explicit Port(const std::string &name) : name_(name), port_(dgt_port_open(name.c_str())) {
        if (port_ < 0) throw PortError(name_, errno);
        faults_.count_ = dgt_port_count_(port_); // faults from before don't count
    }
    ~Port() {
        if (port_ >= 0) dgt_port_close(port_);
    }
    Port(Port &&other) noexcept
        : name_(std::move(other.name_)), port_(std::exchange(other.port_, -1)),
          faults_(other.faults_) {}
    Port &operator=(Port &&other) noexcept {
        std::swap(port_, other.port_);
        std::swap(name_, other.name_);
        std::swap(faults_, other.faults_);
        return *this;
    }

    /// Sends all bytes. Fails if the port has gone, or hasn't taken them for two seconds.
    void write(ByteView bytes) {
        if (!dgt_port_write(port_, bytes.data(), bytes.size()))
            throw PortError(name_, errno);
    }

    /// Waits for bytes, or until a time of dgt::now, if one is passed. Returns the bytes received,
    /// at most `Room`: none if none arrived by then, or after a signal. Fails if the port has gone,
    /// and throws std::invalid_argument for a negative time.
    template <std::size_t Room = 256>
    Written<Room> read(std::optional<Milliseconds> until = std::nullopt) {
        Written<Room> chunk;
        auto end = until ? detail::count(*until) : UINT64_MAX;
        long n = dgt_port_read(port_, chunk.room(), Room, end);
        if (n < 0) throw PortError(name_, errno);
        chunk.resize(static_cast<std::size_t>(n));
        return chunk;
    }

    /// Sends a follower's request, if one is due, and reads until the next one is due. The follower
    /// has yet to hear the bytes.
    template <std::size_t Room = 256> Written<Room> exchange(Follower &follower) {
        write(follower.ask(now()));
        return read<Room>(follower.due_at());
    }

    /// Whether the port has lost or altered bytes since the last call. Call it once a follower has
    /// heard the bytes read, and if it returns true, call line_disturbed.
    bool is_disturbed() { return dgt_port_is_disturbed(port_, &faults_); }

    /// The descriptor, for poll and similar calls. It doesn't block.
    int descriptor() const noexcept { return port_; }

private:
    std::string name_;
    int port_;
    dgt_port_faults faults_{};
};

// ---- Following a board.

/// What is known of a board that is followed.
struct BoardView {
    std::optional<Position> picture; ///< nothing before the board has reported it
    /// The last report of the clock. Nothing unless the mode requests it, before the first report,
    /// and while the clock shows no digits, as while it is being set, or sends only zeros.
    std::optional<Clock> clock;
    /// Whether the picture may be wrong: the line lost or altered bytes, or the board is away. It
    /// may be wrong until the board reports all squares again.
    bool in_doubt = false;
    /// Why the board can't be heard: its port has gone, or it doesn't answer.
    std::optional<std::string> away;
    bool confirmed = false; ///< whether a second report of all squares has shown the same picture
    std::optional<std::array<std::uint8_t, 5>> serial; ///< the serial number, once reported

    friend bool operator==(const BoardView &a, const BoardView &b) {
        return a.picture == b.picture && a.clock == b.clock && a.in_doubt == b.in_doubt &&
               a.away == b.away && a.confirmed == b.confirmed && a.serial == b.serial;
    }
    friend bool operator!=(const BoardView &a, const BoardView &b) { return !(a == b); }
};

/// How a board is followed: as the arguments of a Follower say, and two more.
struct FollowOptions {
    Milliseconds period = std::chrono::seconds(10); ///< from one request to the next, 1 s at least
    std::uint32_t patience = 6;
    std::optional<Mode> mode{}; ///< update_board, unless `clock` is set
    bool confirm = false;     ///< requests a changed picture again after a second
    bool wait_for_port = false; ///< also looks for a port that can't be opened at first
    bool identify = false;      ///< requests the serial number
    bool clock = false; ///< stands for the mode update_nice, in which the board reports its clock
};

/// Follows the board on a serial port, and looks for the port every two seconds if it has gone. Its
/// views are those of `wait`, or of a loop: `for (const BoardView &view : following)`. Use it in
/// one thread; any other may close it. 40 KiB.
class Following {
public:
    /// Throws what a Follower throws, std::invalid_argument for `clock` with a mode, and a
    /// PortError if the port can't be opened. With `wait_for_port` it only throws one if the file
    /// isn't a serial port.
    explicit Following(const std::string &port, const FollowOptions &options = {})
        : name_(port), waits_(options.wait_for_port),
          follower_(options.period, options.patience, mode_of(options), options.confirm,
                    options.identify) {
        look(true);
        closing_ = eventfd(0, EFD_CLOEXEC);
        if (closing_ < 0) throw PortError(name_, errno);
    }
    ~Following() { ::close(closing_); }
    Following(const Following &) = delete;
    Following &operator=(const Following &) = delete;

    /// The view after the next change, or nothing after the timeout, if one is passed, or once it
    /// is closed. With 0 it doesn't wait.
    std::optional<BoardView> wait(std::optional<Milliseconds> timeout = std::nullopt) {
        std::lock_guard<std::mutex> lock{busy_};
        auto begun = now();
        auto end = timeout && *timeout < Milliseconds::max() - begun ? *timeout + begun
                                                                     : Milliseconds::max();
        while (!is_closed_) {
            if (turn(end)) return view_;
            if (heard_ == chunk_.size() && now() >= end) break;
        }
        return std::nullopt;
    }

    /// The present view.
    const BoardView &view() const noexcept { return view_; }

    /// Makes commands for `write`: `board.write(board.follower().send_text("hello"))`.
    Follower &follower() noexcept { return follower_; }

    /// Sends bytes to the board. They are lost if the port has gone, or takes none for two seconds.
    void write(ByteView bytes) {
        std::lock_guard<std::mutex> lock{busy_};
        send(bytes);
    }

    /// Lights two squares of a board with lights, or none: see `lighting`.
    void light() { write(follower_.send_leds(lighting().leds)); }
    void light(Square one, Square other) {
        write(follower_.send_leds(lighting(one, other).leds));
    }

    /// Closes the port, and ends a `wait` in another thread. Each later `wait` returns nothing.
    void close() {
        const std::uint64_t one = 1;
        is_closed_ = true;
        if (::write(closing_, &one, sizeof one) < 0) return; // no descriptor that works fails
        std::lock_guard<std::mutex> lock{busy_};
        port_.reset();
    }

    /// An input iterator over the views, which ends once it is closed.
    class Iterator {
    public:
        Iterator() = default;
        explicit Iterator(Following &board) : board_(&board), view_(board.wait()) {}
        const BoardView &operator*() const { return *view_; }
        const BoardView *operator->() const { return &*view_; }
        Iterator &operator++() {
            view_ = board_->wait();
            return *this;
        }
        friend bool operator!=(const Iterator &a, const Iterator &b) {
            return a.view_.has_value() != b.view_.has_value();
        }

    private:
        Following *board_ = nullptr;
        std::optional<BoardView> view_;
    };
    Iterator begin() { return Iterator(*this); }
    Iterator end() { return {}; }

private:
    static constexpr Milliseconds LOOK = std::chrono::seconds(2);
    static constexpr Milliseconds LONGEST = std::chrono::hours(1); // that one call sleeps
    static constexpr const char *GONE = "the port has gone; it is looked for every two seconds";
    static constexpr const char *SILENT = "the board doesn't answer (switch it off and on)";

    static Mode mode_of(const FollowOptions &options) {
        if (options.clock && options.mode)
            throw std::invalid_argument("clock and mode exclude each other");
        return options.mode.value_or(options.clock ? Mode::update_nice : Mode::update_board);
    }

    /// Takes one step, and returns whether it changed the view.
    bool turn(Milliseconds end) {
        bool has_no_reading = false;
        if (heard_ < chunk_.size()) {
            has_no_reading = hear();
        } else if (port_) {
            ask();
            if (note(false)) return true; // a reply is overdue
            receive(end);
        } else if (now() < look_at_) {
            sleep(-1, std::min(look_at_, end));
        } else {
            look(false);
        }
        return note(has_no_reading);
    }

    /// Hears the bytes up to an event. Returns whether it is a report of the clock without times.
    bool hear() {
        auto heard = follower_.hear_one(now(), ByteView(chunk_).after(heard_));
        heard_ += heard.used;
        if (is_disturbed_) follower_.line_disturbed();
        if (!heard.event) return false;
        auto *refused = std::get_if<Refused>(&*heard.event);
        auto *times = std::get_if<Times>(&*heard.event);
        return refused ? refused->fault == Fault::bad_reading : times && *times == Times();
    }

    void ask() {
        auto time = now();
        auto asked = follower_.ask(time);
        if (asked.empty()) return;
        asked_at_ = time;
        if (!is_unanswered()) unanswered_at_ = time;
        send(asked);
    }

    void receive(Milliseconds end) {
        try {
            sleep(port_->descriptor(), std::min(follower_.due_at().value_or(end), end));
            chunk_ = port_->read(Milliseconds(0));
            heard_ = 0;
            is_disturbed_ = port_->is_disturbed();
        } catch (const PortError &) {
            port_.reset();
            lose(GONE);
        }
    }

    /// Opens the port if it is there.
    void look(bool is_first) {
        try {
            port_.emplace(name_);
            was_there_ = true;
            missing_.reset();
        } catch (const PortError &fault) {
            int why = fault.error();
            if (is_first && (!waits_ || why == ENOTTY)) throw;
            bool has_gone = why == ENOENT || why == ENXIO || why == ENODEV || why == EIO;
            lose(was_there_ && has_gone ? GONE : dgt_port_advice(why));
        }
    }

    void lose(const char *why) {
        missing_ = why;
        look_at_ = now() + LOOK;
        follower_.line_lost();
        asked_at_ = unanswered_at_ = Milliseconds::min();
    }

    /// Waits for bytes, until a time, or until it is closed.
    void sleep(int descriptor, Milliseconds until) {
        pollfd polled[] = {{descriptor, POLLIN, 0}, {closing_, POLLIN, 0}};
        auto left = std::clamp(until - now(), Milliseconds(0), LONGEST);
        poll(polled, 2, static_cast<int>(left.count()));
    }

    void send(ByteView bytes) {
        try {
            if (port_) port_->write(bytes);
        } catch (const PortError &) { // `receive` finds a port that has gone
        }
    }

    /// Whether nothing was heard since a request.
    bool is_unanswered() {
        return unanswered_at_ > follower_.last_heard().value_or(Milliseconds::min());
    }

    /// Updates the view. The last known state is kept while the port is away, and until the board
    /// reports it again. Returns whether anything changed.
    bool note(bool has_no_reading) {
        BoardView view = view_;
        const auto picture = follower_.picture();
        const auto clock = follower_.clock();
        if (picture) view.picture = picture;
        if (clock || has_no_reading) view.clock = clock;
        if (const auto serial = follower_.serial()) view.serial = serial;
        bool is_silent = is_unanswered() && asked_at_ - unanswered_at_ >= std::chrono::seconds(1);
        view.away = missing_;
        if (!missing_ && is_silent) view.away = SILENT;
        view.in_doubt = follower_.in_doubt() || view.away || (view.picture && !picture);
        view.confirmed = follower_.confirmed();
        bool has_changed = view != view_;
        view_ = std::move(view);
        return has_changed;
    }

    std::string name_;
    bool waits_, was_there_ = false, is_disturbed_ = false;
    std::atomic<bool> is_closed_{false};
    int closing_ = -1; // an eventfd that can be read once it is closed
    std::mutex busy_;  // held while the port is used
    std::optional<Port> port_;
    std::optional<std::string> missing_; // why there is no port
    Milliseconds look_at_{}, asked_at_ = Milliseconds::min(), unanswered_at_ = Milliseconds::min();
    Follower follower_;
    Written<256> chunk_;
    std::size_t heard_ = 0;
    BoardView view_;
};

/// Follows the board on a serial port: see Following.
inline Following follow(const std::string &port, const FollowOptions &options = {}) {
    return Following(port, options);
}

} // namespace dgt

#endif
