// What is measured: both heaps of the planner, and its peers where their headers are there. Each is made for one map, keeps its storage
// from run to run, and finds distances and parents from the source.
#pragma once
#include "maps.hpp"
#include "roosternow.h"

#include <cstdlib>
#include <functional>
#include <iostream>
#include <limits>
#include <memory>
#include <queue>

#ifdef HAVE_LEMON
#include <lemon/bin_heap.h>
#include <lemon/dijkstra.h>
#include <lemon/radix_heap.h>
#include <lemon/static_graph.h>
#endif
#ifdef HAVE_BOOST
#include <boost/graph/compressed_sparse_row_graph.hpp>
#include <boost/graph/dijkstra_shortest_paths.hpp>
#include <boost/graph/dijkstra_shortest_paths_no_color_map.hpp>
#endif

struct Contestant {
    virtual ~Contestant() = default;
    virtual void run() = 0;
    virtual std::vector<std::uint32_t> distances() const = 0;
};

// The planner: checks of the map, tallies, the roster and the clearing of the work words are inside the run. Its peers know no holds, so they
// are 0.
class Planner : public Contestant {
public:
    Planner(const Map &map, std::uint32_t segments)
        : map(map), segments(segments), holds(map.n), found(map.n), parents(map.n), roster(map.n), work(ROOSTERNOW_WORK_TWO_LEVEL(map.n)) {}

    void run() override {
        const std::size_t n = map.n, m = map.heads.size();
        if (segments == 0) {
            roosternow_one_level(map.n, map.ceiling, map.source, map.starts.data(), n + 1, map.heads.data(), m, map.costs.data(), m,
                                 holds.data(), n, found.data(), n, parents.data(), n, roster.data(), n, work.data(),
                                 ROOSTERNOW_WORK_ONE_LEVEL(n), numbers);
        } else {
            roosternow_two_level(map.n, map.ceiling, map.source, segments, map.starts.data(), n + 1, map.heads.data(), m, map.costs.data(), m,
                                 holds.data(), n, found.data(), n, parents.data(), n, roster.data(), n, work.data(),
                                 ROOSTERNOW_WORK_TWO_LEVEL(n), numbers);
        }
        if (numbers[ROOSTERNOW_RETURNED] != ROOSTERNOW_ACCEPTED) {
            std::cerr << map.name << ": " << roosternow_refusal_text(numbers[ROOSTERNOW_RETURNED]) << "\n";
            std::exit(1);
        }
    }

    std::vector<std::uint32_t> distances() const override { return found; }

    // The numbers of the last run, at the places of enum roosternow_number.
    const std::uint64_t *told() const { return numbers; }

private:
    const Map &map;
    std::uint32_t segments;
    std::vector<std::uint32_t> holds, found, parents, roster, work;
    std::uint64_t numbers[ROOSTERNOW_RUN_NUMBERS];
};

// The planner to a destination, which is the map's source: the map is reversed inside the run.
class PlannerTo : public Contestant {
public:
    PlannerTo(const Map &map, std::uint32_t segments)
        : map(map), segments(segments), holds(map.n), found(map.n), parents(map.n), roster(map.n), work(ROOSTERNOW_WORK_TWO_LEVEL(map.n)),
          reversed_starts(ROOSTERNOW_REVERSED_STARTS(map.n)), reversed_heads(ROOSTERNOW_REVERSED_BY_ARC(map.heads.size())),
          reversed_costs(reversed_heads.size()), old_arcs(reversed_heads.size()) {}

    void run() override {
        const std::size_t n = map.n, m = map.heads.size();
        roosternow_two_level_to(map.n, map.ceiling, map.source, segments, map.starts.data(), n + 1, map.heads.data(), m, map.costs.data(), m,
                                holds.data(), n, found.data(), n, parents.data(), n, roster.data(), n, work.data(), work.size(),
                                reversed_starts.data(), n + 1, reversed_heads.data(), m, reversed_costs.data(), m, old_arcs.data(), m, numbers);
        if (numbers[ROOSTERNOW_RETURNED] != ROOSTERNOW_ACCEPTED) {
            std::cerr << map.name << ": " << roosternow_refusal_text(numbers[ROOSTERNOW_RETURNED]) << "\n";
            std::exit(1);
        }
    }

    std::vector<std::uint32_t> distances() const override { return found; }

private:
    const Map &map;
    std::uint32_t segments;
    std::vector<std::uint32_t> holds, found, parents, roster, work, reversed_starts, reversed_heads, reversed_costs, old_arcs;
    std::uint64_t numbers[ROOSTERNOW_RUN_NUMBERS];
};

// The planner on a map that is reversed before anything is measured: what a run to a destination costs without that.
class PlannerReversed : public Contestant {
public:
    PlannerReversed(const Map &map, std::uint32_t segments) : back(reversed(map)), planner(back, segments) {}

    void run() override { planner.run(); }

    std::vector<std::uint32_t> distances() const override { return planner.distances(); }

private:
    const Map back;
    Planner planner;
};

// The textbook search: a node is pushed at each improvement, and passed over where it was scanned.
class PriorityQueue : public Contestant {
public:
    explicit PriorityQueue(const Map &map) : map(map) {}

    void run() override {
        using Entry = std::pair<std::uint32_t, std::uint32_t>;
        found.assign(map.n, ROOSTERNOW_NONE);
        parents.assign(map.n, ROOSTERNOW_NONE);
        std::priority_queue<Entry, std::vector<Entry>, std::greater<Entry>> queue;
        found[map.source] = 0;
        queue.push({0, map.source});
        while (!queue.empty()) {
            Entry entry = queue.top();
            queue.pop();
            std::uint32_t v = entry.second;
            if (entry.first != found[v]) continue;
            for (std::uint32_t a = map.starts[v]; a < map.starts[v + 1]; a++) {
                std::uint32_t w = map.heads[a], sum = entry.first + map.costs[a];
                if (sum < found[w]) {
                    found[w] = sum;
                    parents[w] = a;
                    queue.push({sum, w});
                }
            }
        }
    }

    std::vector<std::uint32_t> distances() const override { return found; }

private:
    const Map &map;
    std::vector<std::uint32_t> found, parents;
};

#ifdef HAVE_LEMON
using LemonGraph = lemon::StaticDigraph;
using LemonCosts = LemonGraph::ArcMap<int>;
using LemonPlaces = LemonGraph::NodeMap<int>;

template <class Heap>
class Lemon : public Contestant {
public:
    explicit Lemon(const Map &map) : map(map) {
        std::vector<std::pair<int, int>> arcs;
        for (std::uint32_t v = 0; v < map.n; v++) {
            for (std::uint32_t a = map.starts[v]; a < map.starts[v + 1]; a++) arcs.push_back({static_cast<int>(v), static_cast<int>(map.heads[a])});
        }
        graph.build(static_cast<int>(map.n), arcs.begin(), arcs.end());
        costs = std::make_unique<LemonCosts>(graph);
        for (std::size_t a = 0; a < map.costs.size(); a++) (*costs)[graph.arc(static_cast<int>(a))] = static_cast<int>(map.costs[a]);
        search = std::make_unique<Search>(graph, *costs);
    }

    void run() override { search->run(graph.node(static_cast<int>(map.source))); }

    std::vector<std::uint32_t> distances() const override {
        std::vector<std::uint32_t> found(map.n, ROOSTERNOW_NONE);
        for (std::uint32_t v = 0; v < map.n; v++) {
            LemonGraph::Node node = graph.node(static_cast<int>(v));
            if (search->reached(node)) found[v] = static_cast<std::uint32_t>(search->dist(node));
        }
        return found;
    }

private:
    using Search = typename lemon::Dijkstra<LemonGraph, LemonCosts>::template SetStandardHeap<Heap, LemonPlaces>::Create;
    const Map &map;
    LemonGraph graph;
    std::unique_ptr<LemonCosts> costs;
    std::unique_ptr<Search> search;
};
#endif

#ifdef HAVE_BOOST
struct BoostCost {
    std::uint32_t cost;
};
using BoostGraph = boost::compressed_sparse_row_graph<boost::directedS, boost::no_property, BoostCost>;

class Boost : public Contestant {
public:
    Boost(const Map &map, bool colours) : map(map), colours(colours), found(map.n), parents(map.n) {
        std::vector<std::pair<std::uint32_t, std::uint32_t>> arcs;
        std::vector<BoostCost> costs;
        for (std::uint32_t v = 0; v < map.n; v++) {
            for (std::uint32_t a = map.starts[v]; a < map.starts[v + 1]; a++) arcs.push_back({v, map.heads[a]}), costs.push_back({map.costs[a]});
        }
        graph = BoostGraph(boost::edges_are_sorted, arcs.begin(), arcs.end(), costs.begin(), map.n);
    }

    void run() override {
        auto index = boost::get(boost::vertex_index, graph);
        auto named = boost::weight_map(boost::get(&BoostCost::cost, graph))
                         .distance_map(boost::make_iterator_property_map(found.begin(), index))
                         .predecessor_map(boost::make_iterator_property_map(parents.begin(), index))
                         .distance_inf(ROOSTERNOW_NONE);
        if (colours) boost::dijkstra_shortest_paths(graph, map.source, named);
        else boost::dijkstra_shortest_paths_no_color_map(graph, map.source, named);
    }

    std::vector<std::uint32_t> distances() const override { return found; }

private:
    const Map &map;
    bool colours;
    BoostGraph graph;
    std::vector<std::uint32_t> found;
    std::vector<boost::graph_traits<BoostGraph>::vertex_descriptor> parents;
};
#endif

struct Kind {
    std::string name;
    std::function<std::unique_ptr<Contestant>(const Map &)> make;
};

inline Kind planner_kind(std::string name, std::uint32_t segments) {
    return {std::move(name), [segments](const Map &map) { return std::make_unique<Planner>(map, segments); }};
}

inline std::vector<Kind> peers() {
    std::vector<Kind> kinds;
#ifdef HAVE_LEMON
    kinds.push_back({"LEMON RadixHeap", [](const Map &map) { return std::make_unique<Lemon<lemon::RadixHeap<LemonPlaces>>>(map); }});
    kinds.push_back({"LEMON BinHeap", [](const Map &map) { return std::make_unique<Lemon<lemon::BinHeap<int, LemonPlaces>>>(map); }});
#endif
#ifdef HAVE_BOOST
    kinds.push_back({"Boost dijkstra", [](const Map &map) { return std::make_unique<Boost>(map, true); }});
    kinds.push_back({"Boost no_color_map", [](const Map &map) { return std::make_unique<Boost>(map, false); }});
#endif
    kinds.push_back({"std::priority_queue", [](const Map &map) { return std::make_unique<PriorityQueue>(map); }});
    return kinds;
}
