// Cycles of a millisecond over a redundant line of five slaves, until Ctrl-C (C++17):
//
//     ./ecat serve scenes/serve/bench.scene --control --set-up
//     ./cycle 127.0.0.1:34980 127.0.0.1:34981
//
// It prints what is known of the cable, which `link 2 down` and `link 2 up`, told to `serve`, break and mend.
// What is not here: a start-up. The slaves are in Op and mapped already (`--set-up`).
#include "rummymaple_net.h"
#include <array>
#include <csignal>
#include <iostream>
#include <string>
#include <system_error>

constexpr std::size_t SLAVES = 5;
constexpr std::uint64_t PERIOD = 1000000;
static volatile std::sig_atomic_t ended = 0;

struct Line { // closes its ports with it
    rmp_net net;
    Line(const char *a, const char *b) {
        if (int error = rmp_net_open_udp(&net, a, b))
            throw std::system_error(error, std::generic_category(), std::string(a) + ", " + b);
    }
    Line(const Line &) = delete;
    ~Line() { rmp_net_close(&net); }
};

static void cycle(rmp_net *net) {
    std::array<std::uint8_t, 2 * SLAVES> image{}, waiting{}; // outputs, and inputs behind them
    std::array<rmp_item, 2> items{{{0x10000, 0, SLAVES, RMP_LWR, SLAVES, 0, 0, 0},
                                   {0x20000, SLAVES, SLAVES, RMP_LRD, SLAVES, 0, 0, 0}}};
    std::array<unsigned long, 3> verdicts{};
    std::array<char, 80> told{};
    std::string seen, before;
    auto next = rmp_net_now();
    for (unsigned k = 0; !ended; k++, next = std::max(next + PERIOD, rmp_net_now())) {
        rmp_net_pause_until(next);
        std::fill_n(image.begin(), SLAVES, static_cast<std::uint8_t>(k)); // the outputs of this cycle
        auto ran = rmp_net_cycle(net, items.data(), 2, image.data(), waiting.data(), image.size(), 500);
        verdicts.at(ran.code)++; // no other code comes of these items; if good, inputs are in the image
        auto where = rmp_net_where(net, SLAVES, 300);
        rmp_where_text(told.data(), told.size(), &where);
        if (seen == told.data() && before != seen) // two looks say so: no packet was lost
            std::cout << "cycle " << k << ": " << rmp_code_text(ran.code) << ", cable: " << (before = seen)
                      << std::endl;
        seen = told.data();
    }
    std::cout << "good " << verdicts[0] << ", short " << verdicts[1] << ", over " << verdicts[2] << std::endl;
}

int main(int count, char **words) try {
    for (int number : {SIGINT, SIGTERM})
        std::signal(number, [](int) { ended = 1; });
    Line line(count > 1 ? words[1] : "127.0.0.1:34980", count > 2 ? words[2] : "127.0.0.1:34981");
    cycle(&line.net);
} catch (const std::exception &fault) {
    return std::cerr << "cycle: " << fault.what() << '\n', 3;
}
