// The loops of the eight built-in classes over two channels, as one would write them by hand.
#pragma once
#include <algorithm>
#include <cstddef>
#include <cstdint>
#include <vector>

inline constexpr uint32_t one = 1u << 24;

inline int32_t clamped(int64_t x) { return static_cast<int32_t>(std::clamp<int64_t>(x, INT32_MIN, INT32_MAX)); }
inline uint32_t step(uint32_t v, uint32_t n) { return static_cast<uint32_t>(std::min<uint64_t>(n, uint64_t(v) * (n + 1) / one)); }
inline uint32_t magnitude(int32_t x) { return x < 0 ? 0u - static_cast<uint32_t>(x) : static_cast<uint32_t>(x); }

struct Ring {
    std::vector<int32_t> places = std::vector<int32_t>(4096);
    size_t at = 0;
};

struct State {
    Ring ring[2];
    int32_t z[2] = {0, 0};
    uint32_t count = 0, peak[2] = {0, 0}, seen = 0;
};

inline void gain(const uint32_t *v, const int32_t *in, int32_t *out, size_t n) {
    if (step(v[1], 1) == 1) {
        std::copy(in, in + n, out);
        return;
    }
    for (size_t i = 0; i < n; i++) out[i] = clamped((int64_t(in[i]) * v[0]) >> 23);
}

inline void share(uint32_t factor, const int32_t *in, int32_t *out, size_t n) {
    for (size_t i = 0; i < n; i++) out[i] = static_cast<int32_t>((int64_t(in[i]) * factor) >> 23);
}

inline void delay(Ring &ring, size_t time, uint32_t mix, uint32_t feedback, const int32_t *in, int32_t *out, size_t n) {
    int32_t *places = ring.places.data();
    size_t from = 0, write = ring.at;
    while (from < n) {
        const size_t read = (write + 4096 - time) % 4096;
        const size_t size = std::min({n - from, 4096 - write, 4096 - read});
        for (size_t k = 0; k < size; k++) {
            const int32_t x = in[from + k], w = time == 0 ? x : places[read + k];
            out[from + k] = clamped((int64_t(x) * (one - mix) + int64_t(w) * mix) >> 24);
            places[write + k] = clamped(x + ((int64_t(w) * feedback) >> 25));
        }
        write = write + size == 4096 ? 0 : write + size;
        from += size;
    }
    ring.at = write;
}

inline void onepole(State &s, uint32_t cutoff, const int32_t *const *in, int32_t *const *out, size_t n) {
    int32_t z = s.z[0], w = s.z[1];
    for (size_t i = 0; i < n; i++) {
        z += static_cast<int32_t>(((int64_t(in[0][i]) - z) * cutoff) >> 24);
        w += static_cast<int32_t>(((int64_t(in[1][i]) - w) * cutoff) >> 24);
        out[0][i] = z;
        out[1][i] = w;
    }
    s.z[0] = z, s.z[1] = w;
}

inline void crusher(State &s, const uint32_t *v, const int32_t *const *in, int32_t *const *out, size_t n) {
    const uint32_t bits = 15 - step(v[0], 15), hold = step(v[1], 63);
    uint32_t count = s.count;
    int32_t left = s.z[0], right = s.z[1];
    for (size_t i = 0; i < n; i++) {
        left = count == 0 ? in[0][i] : left;
        right = count == 0 ? in[1][i] : right;
        out[0][i] = (left >> bits) * (1 << bits);
        out[1][i] = (right >> bits) * (1 << bits);
        count = count >= hold ? 0 : count + 1;
    }
    s.count = count, s.z[0] = left, s.z[1] = right;
}

inline void gate(State &s, const uint32_t *v, const int32_t *const *in, int32_t *const *out, size_t n) {
    const uint32_t threshold = v[0] / 2, hold = step(v[1], 4095);
    const bool bypass = step(v[2], 1) == 1;
    uint32_t left = s.count;
    for (size_t i = 0; i < n; i++) {
        const bool loud = std::max(magnitude(in[0][i]), magnitude(in[1][i])) >= threshold;
        const bool pass = loud || left > 0 || bypass;
        out[0][i] = pass ? in[0][i] : 0;
        out[1][i] = pass ? in[1][i] : 0;
        left = loud ? hold : left - (left > 0);
    }
    s.count = left;
}

inline uint32_t peak(uint32_t before, const int32_t *in, size_t n) {
    for (size_t i = 0; i < n; i++) before = std::max(before, std::min(magnitude(in[i]), 8388608u));
    return before;
}

inline void stretch(int kind, State &s, const uint32_t *v, const int32_t *const *in, int32_t *const *out, size_t n) {
    switch (kind) {
    case 0:
        for (int c = 0; c < 2; c++) gain(v, in[c], out[c], n);
        break;
    case 1:
        share(std::min(8388608u, one - v[0]), in[0], out[0], n);
        share(std::min(8388608u, v[0]), in[1], out[1], n);
        break;
    case 2:
        for (int c = 0; c < 2; c++) delay(s.ring[c], step(v[0], 4095), v[1], v[2], in[c], out[c], n);
        break;
    case 3: onepole(s, v[0], in, out, n); break;
    case 4: crusher(s, v, in, out, n); break;
    case 5: gate(s, v, in, out, n); break;
    default:
        for (int c = 0; c < 2; c++) {
            std::copy(in[c], in[c] + n, out[c]);
            if (kind == 6) s.peak[c] = peak(s.peak[c], in[c], n);
            if (kind == 7) s.z[c] = in[c][n - 1];
        }
        s.seen += static_cast<uint32_t>(n);
    }
}
