// The peer in Debian's source package inkscape, folder src/3rdparty/adaptagrams/libvpsc: a later form of the same authors' solver.
#include "peers.h"

#include "libvpsc/constraint.h"
#include "libvpsc/solve_VPSC.h"
#include "libvpsc/variable.h"

namespace {

template <class Method> struct Work : Task {
    vpsc::Variables variables;
    vpsc::Constraints all, constraints;

    explicit Work(const Sheet &s) {
        for (size_t i = 0; i < s.wanted.size(); i++) variables.push_back(new vpsc::Variable(i, s.wanted[i], s.weight[i]));
        for (size_t e = 0; e < s.left.size(); e++)
            all.push_back(new vpsc::Constraint(variables[s.left[e]], variables[s.right[e]], s.distance[e], s.kind[e] == EXACTLY));
        // the solver would call an equality that others imply unsatisfiable, and this call of the peer's own takes those out
        constraints = vpsc::constraintsRemovingRedundantEqualities(variables, all);
        reserve(s);
        places.resize(variables.size());
    }
    ~Work() {
        for (vpsc::Constraint *c : all) delete c;
        for (vpsc::Variable *v : variables) delete v;
    }
    // This peer lists the constraints of a variable when a solver is made, the other one when a constraint is: the room for the
    // lists is made here, so that little of that is timed.
    void reserve(const Sheet &s) {
        std::vector<size_t> in(variables.size()), out(variables.size());
        for (size_t e = 0; e < s.left.size(); e++) out[s.left[e]]++, in[s.right[e]]++;
        for (size_t i = 0; i < variables.size(); i++) variables[i]->in.reserve(in[i]), variables[i]->out.reserve(out[i]);
    }
    // Constraints that contradict are marked, and the solver goes on without them.
    Outcome run() override {
        try {
            Method solver(variables, constraints);
            solver.solve();
            for (size_t i = 0; i < variables.size(); i++) places[i] = variables[i]->finalPosition;
            for (const vpsc::Constraint *c : constraints)
                if (c->unsatisfiable) return REPORTED;
            return GAVE_PLACES;
        } catch (...) {
            return THREW;
        }
    }
};

template <class Method> std::unique_ptr<Task> build(const Sheet &s) { return std::make_unique<Work<Method>>(s); }

}  // namespace

const Solver INKSCAPE_BATCH = {"inkscape Solver", build<vpsc::Solver>};
const Solver INKSCAPE_INCREMENTAL = {"inkscape IncSolver", build<vpsc::IncSolver>};
