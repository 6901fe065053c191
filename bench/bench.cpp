// Measures both heaps beside their peers, or runs to a destination beside runs on a map reversed before, and prints tables in Markdown:
// bench [--to] [SAMPLES]
#include "measure.hpp"

#include <cmath>
#include <set>

static bool is_same(const Map &a, const Map &b) {
    return a.n == b.n && a.ceiling == b.ceiling && a.source == b.source && a.starts == b.starts && a.heads == b.heads && a.costs == b.costs;
}

// Each map is measured once, whatever tables it stands in: with all its kinds in turn, before anything is printed.
class Times {
public:
    void ask(const Map &map, const std::vector<Kind> &kinds) {
        Asked &asked = of(map);
        for (const Kind &kind : kinds) {
            bool known = false;
            for (const Kind &other : asked.kinds) known = known || other.name == kind.name;
            if (!known) asked.kinds.push_back(kind);
        }
    }

    void take(int samples) {
        for (Asked &asked : all) asked.medians = measure(asked.map, asked.kinds, samples);
    }

    std::vector<double> medians(const Map &map, const std::vector<Kind> &kinds) {
        const Asked &asked = of(map);
        std::vector<double> found;
        for (const Kind &kind : kinds) {
            for (std::size_t i = 0; i < asked.kinds.size(); i++) {
                if (asked.kinds[i].name == kind.name) found.push_back(asked.medians[i]);
            }
        }
        return found;
    }

private:
    struct Asked {
        Map map;
        std::vector<Kind> kinds;
        std::vector<double> medians;
    };

    Asked &of(const Map &map) {
        for (Asked &asked : all) {
            if (is_same(asked.map, map)) return asked;
        }
        all.push_back({map, {}, {}});
        return all.back();
    }

    std::vector<Asked> all;
};

static std::vector<std::string> names_of(const std::vector<Kind> &kinds) {
    std::vector<std::string> names;
    for (const Kind &kind : kinds) names.push_back(kind.name);
    return names;
}

// Peer time divided by the time of the planner's heap in column `ours`, and the geometric mean of each column.
static void print_ratios(const std::vector<Map> &maps, const std::vector<std::vector<double>> &medians, std::size_t ours,
                         const std::vector<std::string> &peers) {
    std::vector<double> logarithms(peers.size(), 0);
    print_head("Map", peers);
    for (std::size_t i = 0; i < maps.size(); i++) {
        std::vector<double> ratios;
        for (std::size_t p = 0; p < peers.size(); p++) {
            ratios.push_back(medians[i][2 + p] / medians[i][ours]);
            logarithms[p] += std::log(ratios.back());
        }
        print_row(maps[i].name, ratios, "%.2f");
    }
    for (double &logarithm : logarithms) logarithm = std::exp(logarithm / maps.size());
    print_row("**geometric mean**", logarithms, "**%.2f**");
}

static std::size_t distinct_distances(const Map &map) {
    std::unique_ptr<Contestant> search = peers().back().make(map);
    search->run();
    const std::vector<std::uint32_t> found = search->distances();
    return std::set<std::uint32_t>(found.begin(), found.end()).size();
}

// Maps with many equal distances, beside maps with the same arcs whose distances are all different, or nearly.
static void print_ties(const std::vector<Map> &maps, const std::vector<std::vector<double>> &medians) {
    static const std::size_t pairs[][2] = {{1, 0}, {2, 0}, {3, 0}, {5, 4}, {6, 7}};
    print_head("Map with ties, by the same with distinct costs", {"one level", "two levels, K 64", "distinct distances", "of the other"});
    for (const auto &pair : pairs) {
        const Map &tied = maps[pair[0]], &other = maps[pair[1]];
        const std::size_t here = distinct_distances(tied), there = distinct_distances(other);
        if (tied.starts != other.starts || tied.heads != other.heads || 4 * here > there) {
            std::fprintf(stderr, "bench: %s: no ties, or other arcs than %s\n", tied.name.c_str(), other.name.c_str());
            std::exit(1);
        }
        print_cells({tied.name, shown(medians[pair[0]][0] / medians[pair[1]][0], "%.2f"), shown(medians[pair[0]][1] / medians[pair[1]][1], "%.2f"),
                     std::to_string(here), std::to_string(there)});
    }
}

// What the planner counts on each map, both heaps: the same on every machine.
static void print_counts(const std::vector<Map> &maps) {
    std::printf("\nWhat the planner counts.\n\n");
    print_head("Map", {"one level: placements", "looks", "reads", "two levels, K 64: placements", "looks", "reads"});
    for (const Map &map : maps) {
        std::vector<std::string> cells = {map.name};
        for (std::uint32_t segments : {0u, 64u}) {
            Planner planner(map, segments);
            planner.run();
            for (int number : {ROOSTERNOW_PLACEMENTS, ROOSTERNOW_LOOKS, ROOSTERNOW_READS}) cells.push_back(std::to_string(planner.told()[number]));
        }
        print_cells(cells);
    }
}

static void print_growth(const char *title, const std::vector<Map> &maps, const std::vector<Kind> &kinds, Times &times) {
    std::printf("\n%s\n\n", title);
    print_head("Map", names_of(kinds));
    for (const Map &map : maps) print_row(map.name, times.medians(map, kinds), "%.1f");
}

static std::vector<Map> growing_nodes() {
    std::vector<Map> maps;
    for (std::uint32_t n = 256; n <= 4096; n *= 2) maps.push_back(random_map("n " + std::to_string(n) + ", m 16 n", n, 16 * n, 1048575));
    return maps;
}

static std::vector<Map> growing_arcs() {
    std::vector<Map> maps;
    for (std::uint32_t m = 4096; m <= 65536; m *= 2) maps.push_back(random_map("n 4096, m " + std::to_string(m), 4096, m, 1048575));
    return maps;
}

// What reversing costs within a run to a destination. The arcs of each map are turned round, so that its source is reached from where it led.
static void print_to(int samples) {
    const std::vector<Kind> kinds = {
        {"to a destination", [](const Map &map) { return std::make_unique<PlannerTo>(map, 64); }},
        {"a run on the map reversed before", [](const Map &map) { return std::make_unique<PlannerReversed>(map, 64); }},
    };
    double logarithms = 0;
    const std::vector<Map> maps = measured_maps();
    std::printf("Two levels, K 64, on maps turned round: median microseconds of one run, %d samples each, and their difference, also in nanoseconds\n"
                "by the number of arcs.\n\n",
                samples);
    print_head("Map turned round", {kinds[0].name, kinds[1].name, "ratio", "difference", "ns an arc"});
    for (const Map &map : maps) {
        const Map turned = reversed(map);
        const std::vector<double> medians = measure(turned, kinds, samples);
        const double difference = medians[0] - medians[1], ratio = medians[0] / medians[1];
        print_cells({map.name, shown(medians[0], "%.1f"), shown(medians[1], "%.1f"), shown(ratio, "%.2f"), shown(difference, "%.1f"),
                     shown(1000 * difference / map.heads.size(), "%.2f")});
        logarithms += std::log(ratio);
    }
    print_cells({"**geometric mean**", "", "", shown(std::exp(logarithms / maps.size()), "**%.2f**"), "", ""});
}

// A number from 1 of at most 6 digits; 0 for any other word.
static int samples_of(const std::string &word) {
    bool digits = word.find_first_not_of("0123456789") == std::string::npos;
    return digits && !word.empty() && word[0] != '0' && word.size() <= 6 ? std::stoi(word) : 0;
}

int main(int count, char **words) {
    const int to = count > 1 && words[1] == std::string("--to") ? 1 : 0;
    const int samples = count > 1 + to ? samples_of(words[1 + to]) : 101;
    if (count > 2 + to || samples == 0) {
        std::fprintf(stderr, "use: bench [--to] [SAMPLES], a number from 1 of at most 6 digits\n");
        return 2;
    }
    if (to) {
        print_to(samples);
        return 0;
    }
    const std::vector<Map> maps = measured_maps();
    std::vector<Kind> kinds = {planner_kind("one level", 0), planner_kind("two levels, K 64", 64)};
    const std::vector<Kind> others = peers();
    kinds.insert(kinds.end(), others.begin(), others.end());
    std::vector<Kind> by_segments;
    for (std::uint32_t K = 2; K <= 64; K *= 2) by_segments.push_back(planner_kind("two levels, K " + std::to_string(K), K));
    const std::vector<Map> nodes = growing_nodes(), arcs = growing_arcs(), chosen = {maps[0], maps[1], maps[4], maps[8], maps[11]};
    Times times;
    for (const Map &map : maps) times.ask(map, kinds);
    for (const Map &map : nodes) times.ask(map, kinds);
    for (const Map &map : arcs) times.ask(map, kinds);
    for (const Map &map : chosen) times.ask(map, by_segments);
    times.take(samples);
    std::vector<std::vector<double>> medians;
    for (const Map &map : maps) medians.push_back(times.medians(map, kinds));
    std::printf("Median microseconds of one run, %d samples each.\n\n", samples);
    print_head("Map", names_of(kinds));
    for (std::size_t i = 0; i < maps.size(); i++) print_row(maps[i].name, medians[i], "%.1f");
    std::printf("\nPeer time divided by that of the two-level heap with K 64: above 1 the planner is faster.\n\n");
    print_ratios(maps, medians, 1, names_of(others));
    std::printf("\nPeer time divided by that of the one-level heap: above 1 the planner is faster.\n\n");
    print_ratios(maps, medians, 0, names_of(others));
    std::printf("\nTime on maps with ties.\n\n");
    print_ties(maps, medians);
    print_growth("How time grows with n (random, C 1,048,575), microseconds.", nodes, kinds, times);
    print_growth("How time grows with m (random, C 1,048,575), microseconds.", arcs, kinds, times);
    print_growth("How time changes with K (two levels), microseconds.", chosen, by_segments, times);
    print_counts(maps);
    return 0;
}
