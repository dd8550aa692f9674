// A sheet, as the layout call reads it.
#ifndef BENCH_SHEET_H
#define BENCH_SHEET_H
#include <cstddef>
#include <cstdint>
#include <vector>

// The limits of a sheet.
static const size_t MOST_LABELS = 48, MOST_GAPS = 192;
static const int64_t FARTHEST_WANT = 200000, LONGEST_GAP = 20000;

// The kinds of a gap.
enum Kind : uint8_t { AT_LEAST, EXACTLY };

struct Sheet {
    std::vector<int64_t> wanted, weight, distance;
    std::vector<uint64_t> left, right;
    std::vector<uint8_t> kind;

    void label(int64_t want, int64_t w) { wanted.push_back(want); weight.push_back(w); }
    void gap(uint64_t u, uint64_t v, int64_t g, uint8_t k = AT_LEAST) {
        left.push_back(u), right.push_back(v), distance.push_back(g), kind.push_back(k);
    }
    void opposite(uint64_t u, uint64_t v, int64_t g) { gap(u, v, g); gap(v, u, -g); }
    // The least distance from label u to label v, by the gaps between neighbours.
    int64_t least(uint64_t u, uint64_t v) const {
        int64_t sum = 0;
        for (size_t e = 0; e < left.size(); e++)
            if (u <= left[e] && right[e] <= v && right[e] == left[e] + 1 && kind[e] == AT_LEAST) sum += distance[e];
        return sum;
    }
};

#endif
