// The loops of the eight built-in classes, as one would write them by hand: `CLASS BLOCK POINTS BLOCKS`.
// The benchmark times this beside builtin_bench; both print the sum of the last block's samples.
#include "kernels.hpp"

#include <cstdio>
#include <cstdlib>

struct Point {
    uint32_t offset, value;
};

int main(int argc, char **argv) {
    if (argc != 5) return 1;
    const int kind = std::atoi(argv[1]);
    const size_t n = std::atoi(argv[2]), count = std::atoi(argv[3]), blocks = std::atoi(argv[4]);
    const uint32_t firsts[8][3] = {{8388608, 0, 0}, {8388608, 0, 0}, {0, 8388608, 0}, {one, 0, 0}, {one, 0, 0}, {0, 0, 0}, {0, 0, 0}, {0, 0, 0}};
    uint32_t v[3] = {firsts[kind][0], firsts[kind][1], firsts[kind][2]};
    std::vector<int32_t> input(2 * n), output(2 * n);
    uint32_t state = 7;
    for (auto &x : input) {
        state = state * 1664525u + 1013904223u;
        x = static_cast<int32_t>(state / 256) - 8388608;
    }
    std::vector<Point> points;
    const size_t gap = count ? std::max<size_t>(n / count, 1) : 1;
    if (kind != 6)
        for (size_t k = 0; k < count && k * gap < n; k++) points.push_back({static_cast<uint32_t>(k * gap), k % 2 == 0 ? 9000000u : 3000000u});
    State s;
    for (size_t b = 0; b < blocks; b++) {
        size_t next = 0, from = 0;
        while (from < n) {
            while (next < points.size() && points[next].offset <= from) v[0] = points[next++].value;
            const size_t to = next < points.size() ? points[next].offset : n;
            const int32_t *const in[2] = {input.data() + from, input.data() + n + from};
            int32_t *const out[2] = {output.data() + from, output.data() + n + from};
            stretch(kind, s, v, in, out, to - from);
            from = to;
        }
    }
    int64_t sum = 0;
    for (int32_t x : output) sum += x;
    std::printf("%lld\n", static_cast<long long>(sum));
}
