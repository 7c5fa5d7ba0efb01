// Follows a board: reads its bytes from standard input, and prints the position after each change
// and the board's other reports. A line with " ?" at its end may be wrong. It ends with its input:
//
//     g++ -I bindings/c/include bindings/c/examples/host.cpp bindings/c/out/libdgt.a -o host
//     ./dgt ask dump version | ./dgt board | ./host
//
// If you name a file, it writes its requests there, every ten seconds and after faults of the line.
// For a serial line that stty has set up, name the line itself; flock locks out other readers:
//
//     flock -n /dev/ttyUSB0 ./host /dev/ttyUSB0 </dev/ttyUSB0
#include "dgt.hpp"

#include <poll.h>
#include <unistd.h>

#include <algorithm>
#include <array>
#include <cerrno>
#include <fstream>
#include <iostream>
#include <string>
#include <variant>

struct Board {
    dgt::Follower follower; ///< makes the requests, and keeps the picture
    std::string shown;
};

/// Writes to a file, if one was opened. False if it can't be written.
static bool write_all(std::ofstream &file, dgt::ByteView bytes) {
    if (file.is_open() && !bytes.empty()) {
        file.write(reinterpret_cast<const char *>(bytes.data()), std::streamsize(bytes.size()));
        file.flush();
    }
    return bool(file);
}

/// Prints the position, and whether it may be wrong, if either has changed.
static void show(Board &board) {
    auto placement = board.follower.placement();
    if (!placement) return;
    std::string text = *placement + (board.follower.in_doubt() ? " ?" : "");
    if (text != board.shown) std::cout << (board.shown = text) << std::endl;
}

/// Prints the board's other reports.
static void show(const dgt::Event &event) {
    if (auto *version = std::get_if<dgt::Version>(&event))
        std::cout << "version " << +version->main_number << '.' << +version->sub_number
                  << std::endl;
    else if (auto *stray = std::get_if<dgt::Stray>(&event))
        std::cout << "stray " << +stray->byte << std::endl;
    else if (auto *cut = std::get_if<dgt::Cut>(&event))
        std::cout << "cut " << cut->have << std::endl;
}

/// Waits for bytes and hears them, or until a request is due. False at the end of the input.
static bool hear(Board &board) {
    auto due = board.follower.due_at();
    int wait = due ? int(std::max(*due - dgt::now(), dgt::Milliseconds(0)).count()) : -1;
    pollfd input{STDIN_FILENO, POLLIN, 0};
    int ready = poll(&input, 1, wait);
    if (ready <= 0) return ready == 0 || errno == EINTR;
    std::array<std::uint8_t, 256> chunk;
    ssize_t n = read(STDIN_FILENO, chunk.data(), chunk.size());
    if (n <= 0) return false;
    board.follower.hear(dgt::now(), {chunk.data(), std::size_t(n)}, [&](const dgt::Event &event) {
        show(event);
        show(board);
    });
    return true;
}

int main(int count, char **words) {
    Board board;
    std::ofstream line;
    if (count > 1) line.open(words[1], std::ios::binary);
    bool writes = write_all(line, board.follower.ask(dgt::now())) &&
                  write_all(line, board.follower.send(dgt::Ask::version));
    while (writes) {
        if (!hear(board)) return 0;
        writes = write_all(line, board.follower.ask(dgt::now()));
        show(board); // an answer or the end of a message may be overdue
    }
    std::cerr << words[1] << ": can't be written\n";
    return 1;
}
