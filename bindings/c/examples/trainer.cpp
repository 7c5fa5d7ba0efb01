// Follows a board on a serial port: prints the position after each change and each time of its
// clock, and shows the number of changes on the clock. It waits for a port that disappears.
#include <dgt_port.hpp>
#include <iostream>

int main(int count, char **words) {
    if (count != 2) return 2;
    dgt::FollowOptions options;
    options.clock = options.wait_for_port = true;
    dgt::Following board(words[1], options);
    std::cout << std::unitbuf;
    int changes = 0;
    dgt::BoardView last, shown;
    for (const dgt::BoardView &view : board) {
        if (view.away && view.away != last.away)
            std::cerr << words[1] << ": " << *view.away << '\n';
        auto *times = view.clock ? std::get_if<dgt::Times>(&*view.clock) : nullptr;
        if (times && view.clock != last.clock)
            std::cout << "clock " << to_string(times->first) << ' ' << to_string(times->second)
                      << '\n';
        if (view.picture && view.picture != shown.picture && !view.in_doubt) {
            std::cout << view.picture->placement() << '\n';
            shown = view;
            board.write(board.follower().send_text(std::to_string(++changes)));
        }
        last = view;
    }
}
