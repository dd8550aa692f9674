// The peer in Debian's source package graphviz, folder lib/vpsc.
#include "peers.h"

#include "constraint.h"
#include "solve_VPSC.h"
#include "variable.h"

namespace {

template <class Method> struct Work : Task {
    std::vector<Variable *> variables;
    std::vector<Constraint *> constraints;

    explicit Work(const Sheet &s) {
        for (size_t i = 0; i < s.wanted.size(); i++) variables.push_back(new Variable(i, s.wanted[i], s.weight[i]));
        for (size_t e = 0; e < s.left.size(); e++)
            constraints.push_back(new Constraint(variables[s.left[e]], variables[s.right[e]], s.distance[e], s.kind[e] == EXACTLY));
        places.resize(variables.size());
    }
    ~Work() {
        for (size_t e = constraints.size(); e-- > 0;) delete constraints[e];
        for (Variable *v : variables) delete v;
    }
    Outcome run() override {
        try {
            Method solver(variables.size(), variables.data(), constraints.size(), constraints.data());
            solver.solve();
            // a position is gone with its solver
            for (size_t i = 0; i < variables.size(); i++) places[i] = variables[i]->position();
            return GAVE_PLACES;
        } catch (...) {
            return THREW;
        }
    }
};

template <class Method> std::unique_ptr<Task> build(const Sheet &s) { return std::make_unique<Work<Method>>(s); }

}  // namespace

const Solver GRAPHVIZ_BATCH = {"graphviz VPSC", build<VPSC>};
const Solver GRAPHVIZ_INCREMENTAL = {"graphviz IncVPSC", build<IncVPSC>};
