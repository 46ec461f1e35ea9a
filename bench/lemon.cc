// Solves the networks of `solver_bench` by a solver of LEMON: lemon SOLVER SHAPE NUMBER TIMES
// SOLVER is CapacityScaling, CostScaling or NetworkSimplex. It prints what the least counts cost, which has to be what
// `solver_bench` prints, and the processor's milliseconds to solve the networks once, the mean of TIMES; making them is
// left out. It ends by itself after a minute. It is no part of pgo.
#include <lemon/capacity_scaling.h>
#include <lemon/cost_scaling.h>
#include <lemon/network_simplex.h>
#include <lemon/smart_graph.h>

#include <sys/resource.h>

#include <algorithm>
#include <csignal>
#include <cstdint>
#include <cstdio>
#include <cstdlib>
#include <ctime>
#include <limits>
#include <string>
#include <utility>
#include <vector>

using Graph = lemon::SmartDigraph;
using Number = std::int64_t;

constexpr Number unknown = -1;

// A function as blocks with weights, edges without, and one exit.
struct Function {
    std::vector<Number> weights;
    std::vector<std::pair<int, int>> edges;
    int exit;
};

Number mixed(Number number) {
    return (number % 1000003 + 1) * 2654435761 % 4294967291;
}

// A number off by up to 3 per cent.
Number off(Number exact, int block) {
    const int parts[] = {-33, -50, 0, 50, 33};
    const int part = parts[mixed(block % 65536 + 7) % 5];
    exact = std::min(exact, Number(1) << 42);
    return part == 0 ? exact : exact + exact / part;
}

Function chain(int size) {
    const int count = std::clamp(size, 2, 65536);
    Function made{std::vector<Number>(count, unknown), {{0, count - 1}}, 1};
    made.weights[0] = 1;
    for (int from = 2; from < count; from++)
        made.edges.emplace_back(from, from - 1);
    return made;
}

Function diamonds(int size) {
    const int count = 4 * std::clamp(size / 4, 1, 16384);
    Function made{{}, {}, count - 1};
    for (int first = 0; first < count; first += 4) {
        const Number share = mixed(first / 4) % 100000;
        const Number exact[] = {100000, share, 100000 - share, 100000};
        for (int block = first; block < first + 4; block++)
            made.weights.push_back(off(exact[block - first], block));
        const int joined[][2] = {{0, 1}, {0, 2}, {1, 3}, {2, 3}, {3, 4}};
        for (auto [from, to] : joined)
            made.edges.emplace_back((first + from) % count, (first + to) % count);
    }
    return made;
}

Function jumps(int size) {
    const int count = std::clamp(size, 2, 65536);
    Function made{std::vector<Number>(count), {}, count - 1};
    std::vector<Number> flow(count);
    flow[0] = Number(1) << 30;
    for (int from = 0; from < count - 1; from++) {
        made.edges.emplace_back(from, from + 1);
        Number half = 0;
        if (from % 2 == 0) {
            const int to = std::min<int>(from + 2 + mixed(from) % 62, count - 1);
            made.edges.emplace_back(from, to);
            half = flow[from] / 2;
            flow[to] += half;
        }
        flow[from + 1] += flow[from] - half;
    }
    for (int block = 0; block < count; block++)
        made.weights[block] = off(flow[block], block);
    return made;
}

// How many blocks the function with a number has, of 5 to 200: each size as often, or as in a compiled program, of which
// each tenth of the functions lies between two of these borders.
int even_size(int function) {
    return 5 + mixed(function) % 196;
}

int compiled_size(int function) {
    const int borders[] = {5, 6, 8, 10, 13, 16, 20, 27, 36, 58, 201};
    const Number number = mixed(function);
    const int *tenth = borders + number % 10;
    return tenth[0] + number / 10 % (tenth[1] - tenth[0]);
}

std::vector<Function> several(int count, int (*size)(int)) {
    std::vector<Function> made;
    for (int at = 0; at < count; at++)
        made.push_back(jumps(size(at)));
    return made;
}

// Two forms of one network. From no counts on, units up to the weight save and those beyond it cost. From the weights
// on, units beyond cost and so do those taken back, and what the weights leave unbalanced is the supply.
enum class From { nothing, weights };

// The network of a function: two sides for each block, and the root, by which calls come and returns go.
class Net {
public:
    Graph graph;
    Graph::ArcMap<Number> lower{graph}, upper{graph}, price{graph};
    Graph::NodeMap<Number> supply{graph, 0};
    Number idle = 0; // what the counts to begin with cost

    Net(const Function &function, From from) : from(from) {
        const int blocks = function.weights.size();
        for (int side = 0; side < 2 * blocks + 1; side++)
            graph.addNode();
        for (int block = 0; block < blocks; block++)
            add_block(block, function.weights[block]);
        const bool sampled = *std::max_element(function.weights.begin(), function.weights.end()) > 0;
        add(root, in(0), sampled, endless, 0);
        for (auto [tail, head] : function.edges)
            add(out(tail), in(head), 0, endless, 0);
        add(out(function.exit), root, 0, endless, 0);
    }

private:
    static constexpr Number endless = std::numeric_limits<Number>::max();
    static constexpr int root = 0;
    From from;

    static int in(int block) { return 1 + 2 * block; }
    static int out(int block) { return 2 + 2 * block; }

    void add(int tail, int head, Number least, Number most, Number cost) {
        const auto arc = graph.addArc(graph.nodeFromId(tail), graph.nodeFromId(head));
        lower[arc] = least;
        upper[arc] = most;
        price[arc] = cost;
    }

    void add_block(int block, Number weight) {
        const Number raise = weight == unknown ? 1 : block == 0 ? 40 : weight == 0 ? 11 : 10;
        const Number lack = block == 0 ? 10 : 20;
        add(in(block), out(block), 0, endless, raise);
        if (weight > 0 && from == From::nothing) {
            add(in(block), out(block), 0, weight, -lack);
            idle += lack * weight;
        } else if (weight > 0) {
            add(out(block), in(block), 0, weight, lack);
            supply[graph.nodeFromId(in(block))] -= weight;
            supply[graph.nodeFromId(out(block))] += weight;
        }
    }
};

// The processor's milliseconds.
double now() {
    return 1e3 * std::clock() / CLOCKS_PER_SEC;
}

// Ends the program after a minute of the processor.
void take_a_minute_at_most() {
    std::signal(SIGXCPU, [](int) { std::_Exit(3); });
    const rlimit minute{60, 61};
    setrlimit(RLIMIT_CPU, &minute);
}

template <class Solver> int solve(const std::vector<Function> &functions, From from, int times) {
    double spent = 0;
    Number costs = 0;
    for (const Function &function : functions) {
        const Net net(function, from);
        Solver solver(net.graph);
        solver.lowerMap(net.lower).upperMap(net.upper).costMap(net.price).supplyMap(net.supply);
        const double start = now();
        for (int time = 0; time < times; time++)
            if (solver.run() != Solver::OPTIMAL)
                return 2;
        spent += now() - start;
        costs += net.idle + solver.template totalCost<Number>();
    }
    std::printf("%lld %.3f\n", static_cast<long long>(costs), spent / times);
    return 0;
}

int main(int argc, char **argv) {
    if (argc != 5)
        return 1;
    take_a_minute_at_most();
    const std::string name = argv[1], shape = argv[2];
    const int number = std::atoi(argv[3]), times = std::max(1, std::atoi(argv[4]));
    const auto functions = shape == "mixed" ? several(number, even_size)
        : shape == "compiled" ? several(number, compiled_size)
        : std::vector<Function>{shape == "chain" ? chain(number) : shape == "jumps" ? jumps(number) : diamonds(number)};
    // Each solver gets the form that it solves faster.
    if (name == "CapacityScaling")
        return solve<lemon::CapacityScaling<Graph, Number, Number>>(functions, From::nothing, times);
    if (name == "CostScaling")
        return solve<lemon::CostScaling<Graph, Number, Number>>(functions, From::nothing, times);
    return solve<lemon::NetworkSimplex<Graph, Number, Number>>(functions, From::weights, times);
}
