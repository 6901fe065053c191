// Times of contestants on maps, and tables in Markdown.
#pragma once
#include "contestants.hpp"

#include <cstdio>
#include <time.h>

// The time that this thread has had of its core, in microseconds: other programs of the machine do not count.
inline double now() {
    timespec time;
    clock_gettime(CLOCK_THREAD_CPUTIME_ID, &time);
    return 1e6 * static_cast<double>(time.tv_sec) + 1e-3 * static_cast<double>(time.tv_nsec);
}

inline double run_for(Contestant &contestant, int times) {
    double start = now();
    for (int i = 0; i < times; i++) contestant.run();
    return (now() - start) / times;
}

inline double median(std::vector<double> values) {
    std::nth_element(values.begin(), values.begin() + values.size() / 2, values.end());
    return values[values.size() / 2];
}

// Microseconds of one run, for each kind on one map: distances compared, a warm-up, then samples taken in turn, each round from another kind
// on. A sample is as many runs as take about 200 µs.
inline std::vector<double> measure(const Map &map, const std::vector<Kind> &kinds, int samples) {
    std::vector<std::unique_ptr<Contestant>> all;
    std::vector<int> times;
    for (const Kind &kind : kinds) {
        all.push_back(kind.make(map));
        all.back()->run();
        if (all.back()->distances() != all.front()->distances()) {
            std::fprintf(stderr, "bench: %s: the distances of %s differ\n", map.name.c_str(), kind.name.c_str());
            std::exit(1);
        }
        double warm = run_for(*all.back(), 5);
        times.push_back(std::max(1, static_cast<int>(200 / warm)));
    }
    std::vector<std::vector<double>> taken(all.size());
    for (int sample = 0; sample < samples; sample++) {
        for (std::size_t i = 0; i < all.size(); i++) {
            std::size_t turn = (i + sample) % all.size();
            taken[turn].push_back(run_for(*all[turn], times[turn]));
        }
    }
    std::vector<double> medians;
    for (const std::vector<double> &values : taken) medians.push_back(median(values));
    return medians;
}

inline std::string shown(double value, const char *format) {
    char text[64];
    std::snprintf(text, sizeof text, format, value);
    return text;
}

inline void print_cells(const std::vector<std::string> &cells) {
    std::printf("|");
    for (const std::string &cell : cells) std::printf(" %s |", cell.c_str());
    std::printf("\n");
}

inline void print_row(const std::string &name, const std::vector<double> &values, const char *format) {
    std::vector<std::string> cells = {name};
    for (double value : values) cells.push_back(shown(value, format));
    print_cells(cells);
}

inline void print_head(const std::string &name, const std::vector<std::string> &columns) {
    std::vector<std::string> cells = {name};
    cells.insert(cells.end(), columns.begin(), columns.end());
    print_cells(cells);
    std::printf("|");
    for (std::size_t i = 0; i < cells.size(); i++) std::printf("---|");
    std::printf("\n");
}
