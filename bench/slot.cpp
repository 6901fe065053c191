// What a run costs on the machine at hand, term by term, by a fit over many maps: slot TIGHTNESS SAMPLES
// TIGHTNESS is crates/test_tightness/stdout: the worst maps made here must have the placements, looks and reads that it tells.
#include "measure.hpp"

#include <cmath>
#include <fstream>
#include <map>
#include <sstream>

// The size of a map before it is known: what the budget is computed from. K is 0 for one level.
struct Size {
    std::uint32_t n, m, ceiling, segments;

    double reached() const { return std::min(n, m + 1); }

    double buckets() const {
        const std::uint64_t base = segments == 0 ? 2 : segments;
        std::uint32_t digits = 0;
        for (std::uint64_t power = 1; power < std::uint64_t(ceiling) + 1; power *= base) digits++;
        return segments == 0 ? digits + 2 : std::max(2u, digits + 1);
    }
};

static double most_placements(const Size &size) { return size.reached() * (size.buckets() - 1) + size.m + 1; }
static double most_looks(const Size &size) { return size.reached() * (size.buckets() + size.segments); }
static double most_reads(const Size &size) { return size.reached() * (size.buckets() - 1) + 2 * most_placements(size); }

// The terms of the model, with what they count in a run and the most that they come to by the size of a map. A further tally is one more row.
// Bare terms are what maps without arcs cost: the run itself, and the words by node that it checks, clears and fills.
struct Term {
    const char *name;
    bool bare;
    double (*counted)(const Map &, const std::uint64_t *);
    double (*most)(const Size &);
};
static const Term terms[] = {
    {"a run", true, [](const Map &, const std::uint64_t *) { return 1.0; }, [](const Size &) { return 1.0; }},
    {"a node", true, [](const Map &map, const std::uint64_t *) { return double(map.n); }, [](const Size &size) { return double(size.n); }},
    {"an arc", false, [](const Map &map, const std::uint64_t *) { return double(map.heads.size()); },
     [](const Size &size) { return double(size.m); }},
    {"a placement", false, [](const Map &, const std::uint64_t *told) { return double(told[ROOSTERNOW_PLACEMENTS]); }, most_placements},
    {"a look", false, [](const Map &, const std::uint64_t *told) { return double(told[ROOSTERNOW_LOOKS]); }, most_looks},
    {"a read", false, [](const Map &, const std::uint64_t *told) { return double(told[ROOSTERNOW_READS]); }, most_reads},
};
static const std::size_t term_count = sizeof terms / sizeof *terms;
using Row = std::vector<double>;

static std::vector<std::uint64_t> told_of(const Map &map, std::uint32_t segments) {
    Planner planner(map, segments);
    planner.run();
    return std::vector<std::uint64_t>(planner.told(), planner.told() + ROOSTERNOW_RUN_NUMBERS);
}

static Row counts_of(const Map &map, std::uint32_t segments) {
    const std::vector<std::uint64_t> told = told_of(map, segments);
    Row counts;
    for (const Term &term : terms) counts.push_back(term.counted(map, told.data()));
    return counts;
}

static std::vector<std::string> fields_of(const std::string &line) {
    std::vector<std::string> fields;
    std::istringstream rest(line);
    for (std::string field; std::getline(rest, field, ',');) fields.push_back(field);
    return fields;
}

// The lines of TIGHTNESS by map and heap, each as its fields by their names; of equal names the first stands.
static std::map<std::string, std::map<std::string, std::string>> told_lines(const char *path) {
    std::ifstream file(path);
    std::string line;
    std::getline(file, line);
    const std::vector<std::string> names = fields_of(line);
    std::map<std::string, std::map<std::string, std::string>> lines;
    while (std::getline(file, line)) {
        const std::vector<std::string> fields = fields_of(line);
        if (fields.size() != names.size() || fields.size() < 2) continue;
        for (std::size_t i = 0; i < fields.size(); i++) lines[fields[0] + "," + fields[1]].insert({names[i], fields[i]});
    }
    return lines;
}

// Ends the program where a worst map has other counts than the test tells.
static void check_worst(const std::vector<WorstMap> &worst, const char *path) {
    auto lines = told_lines(path);
    for (const WorstMap &one : worst) {
        for (std::uint32_t segments : {0u, one.segments}) {
            auto &line = lines[one.map.name + (segments == 0 ? ",one" : ",two")];
            const std::vector<std::uint64_t> told = told_of(one.map, segments);
            const bool same = line["placements"] == std::to_string(told[ROOSTERNOW_PLACEMENTS]) &&
                              line["looks"] == std::to_string(told[ROOSTERNOW_LOOKS]) && line["reads"] == std::to_string(told[ROOSTERNOW_READS]);
            if (!same) {
                std::fprintf(stderr, "slot: %s: other placements, looks or reads than in %s\n", one.map.name.c_str(), path);
                std::exit(1);
            }
        }
    }
}

static double fitted(const Row &row, const Row &costs) {
    double sum = 0;
    for (std::size_t i = 0; i < term_count; i++) sum += row[i] * costs[i];
    return sum;
}

// The terms chosen by the bits of `chosen`, by least squares of the weighted errors: the normal equations and Gauss's elimination. Empty if a
// term cannot be told from the others or comes out below 0.
static Row fit_chosen(const std::vector<Row> &rows, const Row &times, const Row &weights, unsigned chosen) {
    std::vector<std::size_t> used;
    for (std::size_t i = 0; i < term_count; i++) {
        if (chosen >> i & 1) used.push_back(i);
    }
    const std::size_t k = used.size();
    std::vector<Row> system(k, Row(k + 1, 0));
    for (std::size_t r = 0; r < rows.size(); r++) {
        for (std::size_t i = 0; i < k; i++) {
            const double left = weights[r] * weights[r] * rows[r][used[i]];
            for (std::size_t j = 0; j < k; j++) system[i][j] += left * rows[r][used[j]];
            system[i][k] += left * times[r];
        }
    }
    for (std::size_t i = 0; i < k; i++) {
        for (std::size_t j = i + 1; j < k; j++) {
            if (std::fabs(system[j][i]) > std::fabs(system[i][i])) std::swap(system[i], system[j]);
        }
        if (system[i][i] == 0) return {};
        for (std::size_t j = 0; j < k; j++) {
            const double factor = j == i ? 0 : system[j][i] / system[i][i];
            for (std::size_t c = i; c <= k; c++) system[j][c] -= factor * system[i][c];
        }
    }
    Row found(term_count, 0);
    for (std::size_t i = 0; i < k; i++) found[used[i]] = system[i][k] / system[i][i];
    return *std::min_element(found.begin(), found.end()) < 0 ? Row() : found;
}

// The best fit of the bare terms or of the others for these weights, without a cost below 0. One set of terms has it, so all are tried.
static Row fit_weighted(const std::vector<Row> &rows, const Row &times, const Row &weights, bool bare) {
    unsigned allowed = 0;
    for (std::size_t i = 0; i < term_count; i++) allowed |= unsigned(terms[i].bare == bare) << i;
    Row best(term_count, 0);
    double least = HUGE_VAL;
    for (unsigned chosen = 1; chosen < 1u << term_count; chosen++) {
        if (chosen & ~allowed) continue;
        const Row costs = fit_chosen(rows, times, weights, chosen);
        if (costs.empty()) continue;
        double errors = 0;
        for (std::size_t r = 0; r < rows.size(); r++) errors += std::pow(weights[r] * (fitted(rows[r], costs) - times[r]), 2);
        if (errors < least) least = errors, best = costs;
    }
    return best;
}

// Errors count as shares of the fit, so that small maps weigh as much as large ones, and a map that is dearer than its fit more than one that
// is cheaper. The fit is in its own weights, so it is repeated until it stays. `known` are the costs that were fitted before.
static Row fit(const std::vector<Row> &rows, const Row &times, bool bare, const Row &known) {
    Row weights, rest, costs;
    for (std::size_t r = 0; r < rows.size(); r++) {
        weights.push_back(1 / times[r]);
        rest.push_back(times[r] - fitted(rows[r], known));
    }
    for (int turn = 0; turn < 100; turn++) {
        costs = fit_weighted(rows, rest, weights, bare);
        for (std::size_t i = 0; i < term_count; i++) costs[i] += known[i];
        for (std::size_t r = 0; r < rows.size(); r++) weights[r] = 1 / fitted(rows[r], costs);
    }
    return costs;
}

struct Fit {
    std::string name;
    std::uint32_t segments;
    Row costs, ratios; // nanoseconds by term; measured divided by fitted, by map
    double raise = 0;  // the largest of the ratios

    Fit(const std::string &name, std::uint32_t segments, const std::vector<Map> &maps, const Row &times) : name(name), segments(segments) {
        std::vector<Row> rows[2];
        Row parted[2];
        costs = Row(term_count, 0);
        for (bool bare : {true, false}) {
            for (std::size_t i = 0; i < maps.size(); i++) {
                if (maps[i].heads.empty() != bare) continue;
                rows[bare].push_back(counts_of(maps[i], segments));
                parted[bare].push_back(times[i]);
            }
            costs = fit(rows[bare], parted[bare], bare, costs);
        }
        for (std::size_t i = 0; i < maps.size(); i++) ratios.push_back(times[i] / fitted(counts_of(maps[i], segments), costs));
        raise = *std::max_element(ratios.begin(), ratios.end());
    }
};

static std::string grouped(double whole) {
    std::string text = std::to_string(static_cast<std::uint64_t>(whole));
    for (std::size_t i = text.size(); i > 3; i -= 3) text.insert(i - 3, ",");
    return text;
}

static void print_fits(const std::vector<Fit> &fits, const std::vector<Map> &maps) {
    std::vector<std::string> columns;
    for (const Term &term : terms) columns.push_back(std::string("ns ") + term.name);
    for (const char *column : {"raise by", "worst error of the fit", "on the map"}) columns.push_back(column);
    print_head("Heap", columns);
    for (const Fit &fit : fits) {
        std::vector<std::string> cells = {fit.name};
        for (double cost : fit.costs) cells.push_back(shown(cost, "%.2f"));
        std::size_t worst = 0;
        const auto error = [&](std::size_t i) { return std::fabs(fit.ratios[i] - 1); };
        for (std::size_t i = 0; i < maps.size(); i++) worst = error(i) > error(worst) ? i : worst;
        cells.push_back(shown(fit.raise, "%.2f"));
        cells.push_back(shown(100 * (fit.ratios[worst] - 1), "%+.0f in 100"));
        cells.push_back(maps[worst].name);
        print_cells(cells);
    }
}

static void print_ratios(const std::vector<Fit> &fits, const std::vector<Map> &maps) {
    std::vector<std::string> names;
    for (const Fit &fit : fits) names.push_back(fit.name);
    print_head("Map", names);
    for (std::size_t i = 0; i < maps.size(); i++) {
        Row ratios;
        for (const Fit &fit : fits) ratios.push_back(fit.ratios[i]);
        print_row(maps[i].name, ratios, "%.2f");
    }
}

// Budgets as times: the most of each term, times its cost.
static void print_examples(const std::vector<Fit> &fits) {
    print_head("Size", {"Heap", "B", "placements at most", "looks at most", "reads at most", "heap operations at most", "µs by the fit",
                        "µs raised"});
    for (const Size &given : {Size{4096, 65536, 1048575, 0}, Size{512, 2048, 10000, 0}}) {
        for (const Fit &fit : fits) {
            Size size = given;
            size.segments = fit.segments;
            Row most;
            for (const Term &term : terms) most.push_back(term.most(size));
            const double placements = most_placements(size), looks = most_looks(size), reads = most_reads(size);
            const double time = fitted(most, fit.costs) / 1000;
            const std::string name = "n " + grouped(size.n) + ", m " + grouped(size.m) + ", C " + grouped(size.ceiling);
            print_cells({name, fit.name, grouped(size.buckets()), grouped(placements), grouped(looks), grouped(reads),
                         grouped(placements + looks + reads), grouped(std::ceil(time)), grouped(std::ceil(fit.raise * time))});
        }
    }
}

static std::vector<Map> fitted_maps(const std::vector<WorstMap> &worst) {
    std::vector<Map> maps = measured_maps();
    for (const WorstMap &one : worst) {
        if (one.map.name != "every arc a decrease") maps.push_back(one.map); // it is measured already, as the complete map
    }
    maps.push_back(random_map("random n 64 m 256 C 1,000", 64, 256, 1000));
    maps.push_back(grid_map("grid 10 × 10, costs 1 to 100", 10, 1, 100));
    maps.push_back(chain_map("chain of 16 nodes, costs to 100", 16, 0, 100));
    for (std::uint32_t n : {1, 64, 512, 4096}) maps.push_back(map_of("no arcs, n " + grouped(n), n, 1000, {}));
    return maps;
}

static void print_all(const std::vector<Fit> &fits, const std::vector<Map> &maps, int samples) {
    std::printf("The time of a run is the sum of its terms, each its count times its cost: the run itself; each node of the map, whose words are\n"
                "checked, cleared and filled; each arc of the map, which is checked and, where its tail is reached, examined; placements; looks;\n"
                "reads of bounds. Costs come from medians of %d samples on %zu maps, by least squares of the error as a share of the fit, none\n"
                "below 0: those of a run and of a node from the maps without arcs, the others from the rest. The worst maps have the placements,\n"
                "looks and reads of test_tightness. Raised by the factor in \"raise by\" the fit is below no time measured.\n\n",
                samples, maps.size());
    print_fits(fits, maps);
    std::printf("\nMeasured divided by fitted.\n\n");
    print_ratios(fits, maps);
    std::printf("\nA budget as a time. With R = min(n, m + 1) placements are at most R (B - 1) + m + 1, looks at most R (B + K), K being 0 for one\n"
                "level, and reads at most R (B - 1) and twice the most placements: in all R (5 B - 4) + 3 m + 3 heap operations with one level,\n"
                "R (5 B + K - 4) + 3 m + 3 with two. The counts are proved. The times are an estimate: caches and branch predictors were warm, and\n"
                "a map that was not measured may be dearer.\n\n");
    print_examples(fits);
}

int main(int count, char **words) {
    if (count != 3 || std::atoi(words[2]) < 1) {
        std::fprintf(stderr, "usage: slot TIGHTNESS SAMPLES\n");
        return 2;
    }
    const int samples = std::atoi(words[2]);
    const std::vector<WorstMap> worst = worst_maps();
    check_worst(worst, words[1]);
    const std::vector<Map> maps = fitted_maps(worst);
    const std::uint32_t segments[] = {0, 16, 32, 64};
    std::vector<Kind> kinds;
    for (std::uint32_t K : segments) kinds.push_back(planner_kind(K == 0 ? "one level" : "two levels, K " + std::to_string(K), K));
    std::vector<Row> times(kinds.size()); // nanoseconds
    for (const Map &map : maps) {
        const Row medians = measure(map, kinds, samples);
        for (std::size_t i = 0; i < kinds.size(); i++) times[i].push_back(1000 * medians[i]);
    }
    std::vector<Fit> fits;
    for (std::size_t i = 0; i < kinds.size(); i++) fits.emplace_back(kinds[i].name, segments[i], maps, times[i]);
    print_all(fits, maps, samples);
    return 0;
}
