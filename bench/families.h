// The families of sheets that are timed.
#ifndef BENCH_FAMILIES_H
#define BENCH_FAMILIES_H
#include "sheet.h"

// A fixed sequence of numbers, the same on every machine, and the same as that of the Rust tests.
struct Dice {
    uint64_t state;
    uint64_t next() {
        uint64_t z = state += 0x9e3779b97f4a7c15u;
        z = (z ^ (z >> 30)) * 0xbf58476d1ce4e5b9u;
        z = (z ^ (z >> 27)) * 0x94d049bb133111ebu;
        return z ^ (z >> 31);
    }
    int64_t from(int64_t least, int64_t most) { return least + (int64_t)(next() % (uint64_t)(most - least + 1)); }
    bool once_in(int64_t times) { return from(0, times - 1) == 0; }
    template <size_t count> int64_t pick(const int64_t (&of)[count]) { return of[from(0, count - 1)]; }
};

// What the layout call has to answer on a sheet.
enum Answer : uint64_t { PLACED = 0, RING = 9 };

struct Family {
    const char *name;
    Sheet (*make)(Dice &);
    int sheets;
    uint64_t seed;
    Answer answer;
    // The peers are told another sheet than the layout call where another form of it is asked for.
    Sheet (*tell)(const Sheet &);
};

extern const std::vector<Family> FAMILIES;

// The sheets of `hard` in rust/tests/library/generate.rs, one for each seed. Some have a ring.
Sheet tests_hard(Dice &d);

#endif
