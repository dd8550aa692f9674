// The peers: solvers of the papers' authors. Each peer has a file of its own, since their headers have the same names.
#ifndef BENCH_PEERS_H
#define BENCH_PEERS_H
#include "sheet.h"
#include <memory>

// What a solver does with a sheet, if it returns at all.
enum Outcome { GAVE_PLACES, REPORTED, THREW };

// A sheet as a peer's variables and constraints, for one run. Its building is left out of a peer's time.
struct Task {
    virtual ~Task() {}
    virtual Outcome run() = 0;
    std::vector<double> places;
};

struct Solver {
    const char *name;
    std::unique_ptr<Task> (*build)(const Sheet &);
};

extern const Solver GRAPHVIZ_BATCH, GRAPHVIZ_INCREMENTAL, INKSCAPE_BATCH, INKSCAPE_INCREMENTAL;

#endif
