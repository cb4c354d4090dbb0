// Builds and drains a graph with oneTBB's flow graph, one thread, and prints the best time in nanoseconds a
// job. The graph is a file with a line for each job: the numbers of its prerequisites.
//
// usage: flow_graph places|names FILE     a prerequisite is found by its place in an array, or by its name
#include <algorithm>
#include <chrono>
#include <cstdint>
#include <cstdio>
#include <cstdlib>
#include <deque>
#include <fstream>
#include <sstream>
#include <string>
#include <unordered_map>
#include <vector>

#include <oneapi/tbb/flow_graph.h>
#include <oneapi/tbb/global_control.h>

namespace flow = oneapi::tbb::flow;
using Node = flow::continue_node<flow::continue_msg>;

// The name of a job: far from its number, as names are.
static uint32_t name(size_t job)
{
    return static_cast<uint32_t>(job) * 0x85ebca6bu + 0x12345678u;
}

static double nanoseconds_a_job(const std::vector<std::vector<size_t>> &lists, bool by_name)
{
    size_t done = 0;
    auto start = std::chrono::steady_clock::now();
    flow::graph graph;
    std::deque<Node> nodes;
    std::unordered_map<uint32_t, Node *> named;
    if (by_name)
        named.reserve(lists.size()); // the library's tables too have their size beforehand
    for (const auto &list : lists) {
        nodes.emplace_back(graph, [&done](const flow::continue_msg &message) { done++; return message; });
        for (size_t prerequisite : list)
            flow::make_edge(by_name ? *named.at(name(prerequisite)) : nodes[prerequisite], nodes.back());
        if (by_name)
            named.emplace(name(nodes.size() - 1), &nodes.back());
    }
    for (size_t job = 0; job < lists.size(); job++)
        if (lists[job].empty())
            nodes[job].try_put(flow::continue_msg());
    graph.wait_for_all();
    std::chrono::duration<double, std::nano> took = std::chrono::steady_clock::now() - start;
    if (done != lists.size()) {
        std::fprintf(stderr, "%zu of %zu jobs were done\n", done, lists.size());
        std::exit(1);
    }
    return took.count() / static_cast<double>(lists.size());
}

int main(int count, char **arguments)
{
    std::string by = count == 3 ? arguments[1] : "";
    if (by != "places" && by != "names") {
        std::fprintf(stderr, "usage: flow_graph places|names FILE\n");
        return 2;
    }
    bool by_name = by == "names";
    oneapi::tbb::global_control one_thread(oneapi::tbb::global_control::max_allowed_parallelism, 1);
    std::vector<std::vector<size_t>> lists;
    std::ifstream file(arguments[2]);
    for (std::string line; std::getline(file, line);) {
        std::istringstream numbers(line);
        lists.emplace_back();
        for (size_t number; numbers >> number;)
            lists.back().push_back(number);
    }
    double best = nanoseconds_a_job(lists, by_name);
    for (int round = 1; round < 30; round++)
        best = std::min(best, nanoseconds_a_job(lists, by_name));
    std::printf("%.1f\n", best);
}
