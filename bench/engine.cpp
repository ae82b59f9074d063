// The benchmark's three graphs, as one would render them by hand: `WORK BLOCK BLOCKS`. Each block is the same noise. The
// benchmark times this beside engine_bench; both print the sum of the last block's samples.
#include "kernels.hpp"

#include <cstdio>
#include <cstdlib>
#include <string>

enum Kind { Gain, Balance, Delay, OnePole, Meter = 6 };

// A line from 0 at sample 0 to `value` at `end`, rounded down to multiples of 2^grain.
struct Lane {
    uint64_t end, value;
    int grain;
    uint32_t at(uint64_t s) const { return static_cast<uint32_t>((std::min(s, end) * value / end) >> grain << grain); }
    // the first sample behind `s` with another value
    uint64_t next(uint64_t s) const {
        const uint64_t rise = at(s) + (uint64_t(1) << grain);
        return rise > value ? UINT64_MAX : (rise * end + value - 1) / value;
    }
};

// A node reads the input or an earlier node.
struct Node {
    Kind kind;
    uint32_t values[3];
    int source;
    const Lane *lane = nullptr;
    State state = {};
    std::vector<int32_t> samples = {};
};

static void run(Node &node, const int32_t *in, uint64_t at, size_t n) {
    size_t from = 0;
    while (from < n) {
        size_t to = n;
        if (node.lane) {
            node.values[0] = node.lane->at(at + from);
            to = static_cast<size_t>(std::min<uint64_t>(n, node.lane->next(at + from) - at));
        }
        const int32_t *const ins[2] = {in + from, in + n + from};
        int32_t *const outs[2] = {node.samples.data() + from, node.samples.data() + n + from};
        stretch(node.kind, node.state, node.values, ins, outs, to - from);
        from = to;
    }
}

static void mix(const std::vector<const int32_t *> &sources, int32_t *out, size_t samples) {
    if (sources.size() == 1) {
        std::copy(sources[0], sources[0] + samples, out);
        return;
    }
    for (size_t i = 0; i < samples; i++) {
        int64_t sum = 0;
        for (const int32_t *source : sources) sum += source[i];
        out[i] = clamped(sum);
    }
}

static const Lane lane = {8640000, 8388608, 12};

static std::vector<Node> nodes_of(const std::string &work) {
    if (work == "gain") return {{Gain, {6000000, 0, 0}, -1}};
    if (work == "chain")
        return {{Gain, {0, 0, 0}, -1, &lane}, {OnePole, {4000000, 0, 0}, 0}, {Delay, {8000000, 8388608, 9000000}, 1}, {Meter, {0, 0, 0}, 2}};
    std::vector<Node> nodes;
    for (uint32_t k = 1; k < 7; k++) {
        const int first = static_cast<int>(nodes.size());
        nodes.push_back({Gain, {8388608, 0, 0}, -1});
        nodes.push_back({OnePole, {k * 1000000 + 500000, 0, 0}, first});
        nodes.push_back({Delay, {k * 1000000 + 900000, 8388608, 9000000}, first + 1});
        nodes.push_back({Balance, {k * 1000000, 0, 0}, first + 2});
        nodes.push_back({Gain, {k * 1000000 + 400000, 0, 0}, first + 3});
    }
    return nodes;
}

int main(int argc, char **argv) {
    if (argc != 4) return 1;
    const std::string work = argv[1];
    const size_t n = std::atoi(argv[2]), blocks = std::atoi(argv[3]);
    std::vector<Node> nodes = nodes_of(work);
    std::vector<int32_t> input(2 * n), output(2 * n);
    uint32_t state = 7;
    for (auto &x : input) {
        state = state * 1664525u + 1013904223u;
        x = static_cast<int32_t>(state / 256) - 8388608;
    }
    for (Node &node : nodes) node.samples.resize(2 * n);
    std::vector<const int32_t *> sources;
    for (size_t k = work == "chains" ? 4 : nodes.size() - 1; k < nodes.size(); k += 5) sources.push_back(nodes[k].samples.data());
    for (size_t b = 0; b < blocks; b++) {
        for (Node &node : nodes) run(node, node.source < 0 ? input.data() : nodes[node.source].samples.data(), b * n, n);
        mix(sources, output.data(), 2 * n);
    }
    int64_t sum = 0;
    for (int32_t x : output) sum += x;
    std::printf("%lld\n", static_cast<long long>(sum));
}
