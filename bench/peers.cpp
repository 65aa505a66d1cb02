// Time of this library and of others on the same sheets, for bench/run: reads questions from standard input, a line each: SHEET SOURCE SINK.
//
// Prints a line for each: the largest value (or none), whether the sheet has a least flow (1 or 0), then a time for each way of asking, in the order of `ways` below, in
// microseconds of processor time; - where the way does not apply. A time is the median of some rounds, in each of which every way on every sheet is called as often as takes
// some milliseconds: what disturbs the machine for a while disturbs a round, and all alike. It ends with 1 where two give different answers to one question.
//
// The peers get the sheet as numbers that are already read and checked, and this library gets its bytes. A peer is timed whole (graph built, solved and thrown away) and with
// the graph and its limits standing (only what belongs to the algorithm is made anew, as each needs).
#include "../include/analyser.h"
#include <algorithm>
#include <boost/graph/adjacency_list.hpp>
#include <boost/graph/boykov_kolmogorov_max_flow.hpp>
#include <boost/graph/push_relabel_max_flow.hpp>
#include <cstdio>
#include <cstdlib>
#include <ctime>
#include <functional>
#include <lemon/circulation.h>
#include <lemon/preflow.h>
#include <lemon/smart_graph.h>
#include <memory>
#include <vector>

namespace {

constexpr int rounds = 9;
constexpr double least_round = 1500; // microseconds
constexpr int most_value = 600000000;

struct Sheet {
    std::vector<uint8_t> bytes;
    uint16_t nodes, channels, source, sink;
    uint16_t tails[ANALYSER_MAX_DARTS], turns[ANALYSER_MAX_DARTS];
    int32_t limits[ANALYSER_MAX_DARTS];
};

char path[4096]; // of the sheet that is asked

[[noreturn]] void fail(const char *what) {
    std::fprintf(stderr, "peers: %s: %s\n", path, what);
    std::exit(1);
}

// This library.

int32_t settings[ANALYSER_MAX_CHANNELS];
uint64_t set[ANALYSER_SET_WORDS];
uint8_t answer;
uint16_t size, outer, place;
int32_t value;

bool solve(const Sheet &s, int delivery) {
    if (analyser_solve(s.bytes.data(), s.bytes.size(), s.source, s.sink, delivery, settings, ANALYSER_MAX_CHANNELS, set, ANALYSER_SET_WORDS, &answer, &size, &place) != 0)
        fail("Solve refused");
    return answer == 1;
}
bool largest(const Sheet &s) {
    if (analyser_largest(s.bytes.data(), s.bytes.size(), s.source, s.sink, settings, ANALYSER_MAX_CHANNELS, set, ANALYSER_SET_WORDS, &answer, &value, &place) != 0)
        fail("Largest refused");
    return answer == 1;
}
// Opening alone: a source that is no node is refused when all sheet checks are done, and before anything is decided.
void open(const Sheet &s) {
    if (analyser_solve(s.bytes.data(), s.bytes.size(), 65535, s.sink, 0, settings, ANALYSER_MAX_CHANNELS, set, ANALYSER_SET_WORDS, &answer, &size, &place) != ANALYSER_NO_SUCH_NODE)
        fail("a sheet that does not open");
}

// LEMON's Circulation: an arc for each channel, from the least flow to the most, and one from sink to source that carries the delivery back.
struct Circulation {
    lemon::SmartDigraph graph;
    lemon::SmartDigraph::ArcMap<int> lower, upper;
    lemon::SmartDigraph::NodeMap<int> supply;
    Circulation(const Sheet &s, int least, int most) : lower(graph), upper(graph), supply(graph, 0) {
        graph.reserveNode(s.nodes);
        graph.reserveArc(s.channels + 1);
        for (int v = 0; v < s.nodes; v++) supply[graph.addNode()] = 0;
        for (int e = 0; e < s.channels; e++) {
            auto arc = graph.addArc(graph.nodeFromId(s.tails[2 * e]), graph.nodeFromId(s.tails[2 * e + 1]));
            lower[arc] = -s.limits[2 * e + 1];
            upper[arc] = s.limits[2 * e];
        }
        auto back = graph.addArc(graph.nodeFromId(s.sink), graph.nodeFromId(s.source));
        lower[back] = least;
        upper[back] = most;
    }
    bool run() {
        lemon::Circulation<lemon::SmartDigraph> algorithm(graph, lower, upper, supply);
        return algorithm.run();
    }
};

// LEMON's Preflow: two arcs for each channel, less those that can carry nothing.
struct Preflow {
    lemon::SmartDigraph graph;
    lemon::SmartDigraph::ArcMap<int> limits;
    uint16_t source, sink;
    explicit Preflow(const Sheet &s) : limits(graph), source(s.source), sink(s.sink) {
        graph.reserveNode(s.nodes);
        graph.reserveArc(2 * s.channels);
        for (int v = 0; v < s.nodes; v++) graph.addNode();
        for (int d = 0; d < 2 * s.channels; d++)
            if (s.limits[d] > 0) limits[graph.addArc(graph.nodeFromId(s.tails[d]), graph.nodeFromId(s.tails[d ^ 1]))] = s.limits[d];
    }
    int run() {
        lemon::Preflow<lemon::SmartDigraph> algorithm(graph, limits, graph.nodeFromId(source), graph.nodeFromId(sink));
        algorithm.run();
        return algorithm.flowValue();
    }
};

// Boost's solvers, with the graph of Boost's own examples: adjacency_list, and the maps within it.
struct Boost {
    using Traits = boost::adjacency_list_traits<boost::vecS, boost::vecS, boost::directedS>;
    using OfNode = boost::property<boost::vertex_index_t, long,
                                   boost::property<boost::vertex_color_t, boost::default_color_type,
                                                   boost::property<boost::vertex_distance_t, long, boost::property<boost::vertex_predecessor_t, Traits::edge_descriptor>>>>;
    using OfArc = boost::property<boost::edge_capacity_t, int,
                                  boost::property<boost::edge_residual_capacity_t, int, boost::property<boost::edge_reverse_t, Traits::edge_descriptor>>>;
    using Graph = boost::adjacency_list<boost::vecS, boost::vecS, boost::directedS, boost::no_property, OfArc>;
    using LabelledGraph = boost::adjacency_list<boost::vecS, boost::vecS, boost::directedS, OfNode, OfArc>;

    // Two arcs, each the reverse of the other.
    template <class G> static void add(G &graph, int tail, int head, int forward, int back) {
        auto limits = get(boost::edge_capacity, graph);
        auto reverse = get(boost::edge_reverse, graph);
        auto there = add_edge(tail, head, graph).first, again = add_edge(head, tail, graph).first;
        limits[there] = forward;
        limits[again] = back;
        reverse[there] = again;
        reverse[again] = there;
    }
};
// push_relabel_max_flow makes no flow of its preflow unless every reverse has limit 0 (its manual asks for that): a channel open both ways is two such pairs.
struct PushRelabel {
    Boost::Graph graph;
    uint16_t source, sink;
    explicit PushRelabel(const Sheet &s) : graph(s.nodes), source(s.source), sink(s.sink) {
        for (int d = 0; d < 2 * s.channels; d++)
            if (s.limits[d] > 0) Boost::add(graph, s.tails[d], s.tails[d ^ 1], s.limits[d], 0);
    }
    int run() { return boost::push_relabel_max_flow(graph, source, sink); }
};
// boykov_kolmogorov_max_flow takes one pair for a channel.
struct BoykovKolmogorov {
    Boost::LabelledGraph graph;
    uint16_t source, sink;
    explicit BoykovKolmogorov(const Sheet &s) : graph(s.nodes), source(s.source), sink(s.sink) {
        for (int e = 0; e < s.channels; e++) Boost::add(graph, s.tails[2 * e], s.tails[2 * e + 1], s.limits[2 * e], s.limits[2 * e + 1]);
    }
    int run() { return boost::boykov_kolmogorov_max_flow(graph, source, sink); }
};

double now() { // microseconds of this thread's processor time
    timespec t;
    clock_gettime(CLOCK_THREAD_CPUTIME_ID, &t);
    return 1e6 * (double)t.tv_sec + 1e-3 * (double)t.tv_nsec;
}

double timed(const std::function<void()> &call, long calls) {
    double start = now();
    for (long i = 0; i < calls; i++) call();
    return now() - start;
}

// As many calls as take the time of a round; the calls warm up what they use.
long enough(const std::function<void()> &call) {
    long calls = 1;
    double time;
    while ((time = timed(call, calls)) < least_round / 4) calls *= 2;
    return std::max(1L, (long)((double)calls * least_round / time));
}

struct Way {
    bool applies;
    std::function<void()> call;
    long calls = 0;
    std::vector<double> times = {};
};

// A sheet and the answers on it, which are checked; the graphs that stand, and the ways of asking.
struct Question {
    Sheet s;
    bool least, some;
    int most, next;
    std::unique_ptr<Circulation> can, cannot;
    std::unique_ptr<Preflow> preflow;
    std::unique_ptr<PushRelabel> push_relabel;
    std::unique_ptr<BoykovKolmogorov> boykov_kolmogorov;
    std::vector<Way> ways;

    Question(uint16_t source, uint16_t sink) {
        std::FILE *file = std::fopen(path, "rb");
        if (!file) fail("cannot be read");
        s.bytes.resize(65536);
        s.bytes.resize(std::fread(s.bytes.data(), 1, s.bytes.size(), file));
        std::fclose(file);
        if (analyser_read(s.bytes.data(), s.bytes.size(), s.tails, ANALYSER_MAX_DARTS, s.turns, ANALYSER_MAX_DARTS, s.limits, ANALYSER_MAX_DARTS, &s.nodes, &s.channels,
                          &outer, &place) != 0)
            fail("Read refused");
        s.source = source;
        s.sink = sink;
        least = std::any_of(s.limits, s.limits + 2 * s.channels, [](int32_t limit) { return limit < 0; });
        some = largest(s);
        most = some ? value : 0;
        next = some ? most + 1 : 0; // a sheet that carries nothing is asked at 0
        check();
        can.reset(new Circulation(s, most, most));
        cannot.reset(new Circulation(s, next, next));
        if (!least) {
            preflow.reset(new Preflow(s));
            push_relabel.reset(new PushRelabel(s));
            boykov_kolmogorov.reset(new BoykovKolmogorov(s));
        }
        ways = {
            {true, [this] { open(s); }},
            {some, [this] { solve(s, most); }},
            {true, [this] { solve(s, next); }},
            {true, [this] { largest(s); }},
            {some, [this] { Circulation(s, most, most).run(); }},
            {some, [this] { can->run(); }},
            {true, [this] { Circulation(s, next, next).run(); }},
            {true, [this] { cannot->run(); }},
            {!least, [this] { Preflow(s).run(); }},
            {!least, [this] { preflow->run(); }},
            {!least, [this] { PushRelabel(s).run(); }},
            {!least, [this] { push_relabel->run(); }},
            {!least, [this] { BoykovKolmogorov(s).run(); }},
            {!least, [this] { boykov_kolmogorov->run(); }},
        };
    }
    Question(const Question &) = delete;

    void check() const {
        if (some && !solve(s, most)) fail("Solve cannot carry what Largest gives");
        if (solve(s, next)) fail("Solve carries more than Largest gives");
        if (some && !Circulation(s, most, most).run()) fail("Circulation cannot carry what Largest gives");
        if (Circulation(s, next, next).run()) fail("Circulation carries more than Largest gives");
        if (Circulation(s, -most_value, most_value).run() != some) fail("Circulation and Largest differ on whether anything can be carried");
        if (least) return;
        if (!some) fail("Largest gives none without least flows");
        if (Preflow(s).run() != most) fail("Preflow and Largest differ");
        if (PushRelabel(s).run() != most) fail("push_relabel_max_flow and Largest differ");
        if (BoykovKolmogorov(s).run() != most) fail("boykov_kolmogorov_max_flow and Largest differ");
    }

    void print() {
        if (some) std::printf("%d", most);
        else std::printf("none");
        std::printf(" %d", least);
        for (Way &w : ways) {
            std::sort(w.times.begin(), w.times.end());
            if (w.applies) std::printf(" %.3f", w.times[rounds / 2]);
            else std::printf(" -");
        }
        std::printf("\n");
    }
};

} // namespace

int main() {
    std::vector<std::unique_ptr<Question>> questions;
    long source, sink;
    while (std::scanf("%4095s %ld %ld", path, &source, &sink) == 3) questions.emplace_back(new Question((uint16_t)source, (uint16_t)sink));
    for (int r = 0; r < rounds; r++)
        for (auto &q : questions)
            for (Way &w : q->ways)
                if (w.applies) {
                    if (r == 0) w.calls = enough(w.call);
                    else w.call(); // warms up what it uses
                    w.times.push_back(timed(w.call, w.calls) / (double)w.calls);
                }
    for (auto &q : questions) q->print();
    return 0;
}
