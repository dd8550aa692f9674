// Times the layout call beside the solvers of the papers' authors, and counts the sheets on which those are wrong.
//
//     harness [WORD..]        all families, or those whose name has one of the words
//     harness --print COUNT   the first of the tests' hard sheets, as crates/hard_sheets/stdin has them
//
// The environment variable ROUNDS may lower how often each sheet is timed.
#include "../include/dirmoog.h"
#include "families.h"
#include "peers.h"
#include <algorithm>
#include <cmath>
#include <cstdio>
#include <cstdlib>
#include <cstring>
#include <functional>
#include <string>
#include <sys/wait.h>
#include <time.h>
#include <unistd.h>

// Each sheet is timed so many times, and the least time counts.
static const int ROUNDS = 50;
// The tests' hard sheets are many: they are timed less often, and the peers' times count on the first of a row alone.
static const int HARD_SHEETS = 2000, HARD_ROUNDS = 10;
static const size_t HARD_TRIED = 100;
// The slowest of them are timed again, as often as others, so that one that was disturbed does not count as the slowest.
static const size_t TIMED_AGAIN = 20;
// An empty sheet takes so little time that it may be timed more often.
static const int EMPTY_ROUNDS = 1000;
// How far a peer's place may be off.
static const double TOLERANCE = 0.001;
// How long a solver may take for an answer, and all of them while they are timed on a sheet.
static const unsigned ANSWER_SECONDS = 2, TIMING_SECONDS = 60;

static const Solver *const SOLVERS[] = {&GRAPHVIZ_BATCH, &GRAPHVIZ_INCREMENTAL, &INKSCAPE_BATCH, &INKSCAPE_INCREMENTAL};
static const size_t SOLVER_COUNT = sizeof SOLVERS / sizeof *SOLVERS;

// A solver that has taken so long on a sheet is not timed there again, in microseconds.
static const double ENOUGH = 20000;

static const double NEVER = 1e30;

static double now() {
    timespec t;
    clock_gettime(CLOCK_MONOTONIC, &t);
    return t.tv_sec * 1e6 + t.tv_nsec * 1e-3;
}

// The layout call, with its buffers.
struct Ours {
    int64_t place_num[MOST_LABELS], place_den[MOST_LABELS], mult_num[MOST_GAPS], mult_den[MOST_GAPS];
    uint64_t ring[MOST_LABELS], out[2];
    uint8_t carried[MOST_GAPS], back[MOST_LABELS];

    uint64_t call(const Sheet &s) {
        size_t n = s.wanted.size(), m = s.left.size();
        return dirmoog_layout(
            s.wanted.data(), n, s.weight.data(), n, s.left.data(), m, s.right.data(), m, s.distance.data(), m, s.kind.data(), m, carried, m,
            place_num, n, place_den, n, mult_num, m, mult_den, m, ring, n, back, n, out, 2);
    }
    uint64_t cold_call(const Sheet &s) {
        memset(carried, 0, sizeof carried);
        return call(s);
    }
    double timed(const Sheet &s, const uint8_t *marks) {
        memcpy(carried, marks, sizeof carried);
        double began = now();
        call(s);
        return now() - began;
    }
    double place(size_t i) const { return (double)place_num[i] / (double)place_den[i]; }
};

static const uint8_t NO_MARKS[MOST_GAPS] = {0};

// What a peer's solver comes to on a sheet. On a sheet with a ring it is right if it says so, by a throw or a report.
enum Verdict { RIGHT, WRONG, NONE, UNTRIED };

static Verdict judged(const Task &task, Outcome outcome, Answer answer, const Ours &right) {
    if (answer == RING) return outcome == GAVE_PLACES ? WRONG : RIGHT;
    if (outcome != GAVE_PLACES) return outcome == THREW ? NONE : WRONG;
    for (size_t i = 0; i < task.places.size(); i++)
        if (!(fabs(task.places[i] - right.place(i)) <= TOLERANCE)) return WRONG;
    return RIGHT;
}

static void fail(const char *why) {
    fprintf(stderr, "harness: %s\n", why);
    exit(1);
}

// Starts a process of its own, and gives 0 there.
static pid_t start() {
    fflush(stdout);
    pid_t child = fork();
    if (child < 0) fail("no process");
    return child;
}

// A solver is tried in a process of its own: it may fall, or never return.
static Verdict tried(const Solver &solver, const Sheet &told, Answer answer, const Ours &right) {
    pid_t child = start();
    if (child == 0) {
        alarm(ANSWER_SECONDS);
        std::unique_ptr<Task> task = solver.build(told);
        Outcome outcome = task->run();
        _exit(judged(*task, outcome, answer, right));
    }
    int status = 0;
    waitpid(child, &status, 0);
    return WIFEXITED(status) ? (Verdict)WEXITSTATUS(status) : NONE;
}

static double timed(const Solver &solver, const Sheet &told) {
    std::unique_ptr<Task> task = solver.build(told);
    double began = now();
    task->run();
    return now() - began;
}

// A sheet, the same with its wants moved, and the form in which the peers are told it.
struct Case {
    Sheet sheet, moved, told;
};

static Sheet moved(const Sheet &s, Dice &d) {
    Sheet t = s;
    for (int64_t &want : t.wanted) want = std::clamp<int64_t>(want + d.from(-20, 20), -FARTHEST_WANT, FARTHEST_WANT);
    return t;
}

// What is timed in one row of the tables. A case is made when its turn comes, as a process with little memory forks sooner.
struct Row {
    std::string name;
    Answer answer;
    int rounds;
    // the peers' answers and times count on the first ones alone
    size_t sheets, tried;
    std::function<Case()> next;
};

// The least times of one sheet.
struct Times {
    double cold, own, after, peer[SOLVER_COUNT];
};

// All are taken in turn, so that a busy machine disturbs them alike. A call takes up to twice the time of one in a row of the same
// calls, since the processor learns the branches of a sheet: so the peers run in between on sheets too where their times do not count.
static Times times(const Case &c, Answer answer, int rounds, const uint8_t *marks, const Verdict *verdicts) {
    static Ours ours;
    Times t = {NEVER, NEVER, NEVER, {}};
    double spent[SOLVER_COUNT] = {0};
    std::fill(t.peer, t.peer + SOLVER_COUNT, NEVER);
    for (int r = 0; r < rounds; r++) {
        t.cold = std::min(t.cold, ours.timed(c.sheet, NO_MARKS));
        if (answer == PLACED) {
            t.own = std::min(t.own, ours.timed(c.sheet, marks));
            t.after = std::min(t.after, ours.timed(c.moved, marks));
        }
        for (size_t k = 0; k < SOLVER_COUNT; k++) {
            if (verdicts[k] == NONE || spent[k] > ENOUGH) continue;
            double us = timed(*SOLVERS[k], c.told);
            spent[k] += us, t.peer[k] = std::min(t.peer[k], us);
        }
    }
    return t;
}

// The same in a process of its own: a peer that throws loses memory, much of it on some rings, and would slow what comes after.
static Times times_apart(const Case &c, Answer answer, int rounds, const uint8_t *marks, const Verdict *verdicts) {
    int ends[2];
    if (pipe(ends) != 0) fail("no pipe");
    pid_t child = start();
    if (child == 0) {
        alarm(TIMING_SECONDS);
        Times t = times(c, answer, rounds, marks, verdicts);
        _exit(write(ends[1], &t, sizeof t) == sizeof t ? 0 : 1);
    }
    Times t;
    close(ends[1]);
    if (read(ends[0], &t, sizeof t) != sizeof t) fail("a solver that returned before has not while it was timed");
    close(ends[0]);
    waitpid(child, nullptr, 0);
    return t;
}

// What a solver comes to on a row.
struct Total {
    const char *name;
    int right = 0, wrong = 0, none = 0;
    // its time, and that of the layout call on the same sheets
    double us = 0, cold = 0;

    void add(Verdict v, double t, double ours) {
        if (v == NONE) {
            none++;
            return;
        }
        (v == RIGHT ? right : wrong)++;
        us += t, cold += ours;
    }
    int answers() const { return right + wrong; }
    double each() const { return us / answers(); }
    bool better(const Total &other) const {
        if (right != other.right) return right > other.right;
        return answers() && (!other.answers() || each() < other.each());
    }
    std::string faults() const {
        std::string text;
        if (wrong) text = std::to_string(wrong) + " wrong";
        if (none) text += (wrong ? ", " : "") + std::to_string(none) + " none";
        return text;
    }
};

// What a row comes to.
struct Result {
    std::string name;
    Answer answer;
    std::vector<double> cold = {};
    double own = 0, after = 0;
    std::vector<Total> peers = {};

    double mean_cold() const {
        double sum = 0;
        for (double t : cold) sum += t;
        return sum / cold.size();
    }
};

static Result measured(const Row &row) {
    Result result = {row.name, row.answer};
    for (const Solver *solver : SOLVERS) result.peers.push_back({solver->name});
    for (size_t i = 0; i < row.sheets; i++) {
        Case c = row.next();
        Ours right;
        if (right.cold_call(c.sheet) != row.answer) fail("the layout call's answer is not that of the family");
        Verdict verdicts[SOLVER_COUNT];
        for (size_t k = 0; k < SOLVER_COUNT; k++) verdicts[k] = i < row.tried ? tried(*SOLVERS[k], c.told, row.answer, right) : UNTRIED;
        Times t = times_apart(c, row.answer, row.rounds, right.carried, verdicts);
        result.cold.push_back(t.cold);
        result.own += t.own, result.after += t.after;
        for (size_t k = 0; k < SOLVER_COUNT && i < row.tried; k++) result.peers[k].add(verdicts[k], t.peer[k], t.cold);
    }
    return result;
}

static std::string tenths(double us) {
    char text[40];
    snprintf(text, sizeof text, "%.1f", us);
    return text;
}

static void print_head() {
    printf("| family | sheets | cold | own marks | wants moved | peer | its time | cold/peer | slowest sheet, cold |\n");
    printf("|---|---|---|---|---|---|---|---|---|\n");
}

static void print(const Result &r) {
    size_t sheets = r.cold.size();
    bool placed = r.answer == PLACED;
    const Total *peer = &r.peers[0];
    for (const Total &other : r.peers)
        if (other.better(*peer)) peer = &other;
    std::string faults = peer->faults(), name = faults.empty() ? peer->name : peer->name + (" (" + faults + ")");
    char ratio[40];
    // the same sheets on both sides
    snprintf(ratio, sizeof ratio, "%.2f", peer->cold / peer->us);
    bool answers = peer->answers() > 0;
    printf(
        "| %s | %zu | %s | %s | %s | %s | %s | %s | %s |\n", r.name.c_str(), sheets, tenths(r.mean_cold()).c_str(),
        placed ? tenths(r.own / sheets).c_str() : "-", placed ? tenths(r.after / sheets).c_str() : "-", answers ? name.c_str() : "-",
        answers ? tenths(peer->each()).c_str() : "-", answers ? ratio : "-",
        tenths(*std::max_element(r.cold.begin(), r.cold.end())).c_str());
    fflush(stdout);
}

static void print_solvers(const std::vector<Result> &results) {
    printf("\nEach solver: time, wrong, none.\n\n| family |");
    for (const Solver *solver : SOLVERS) printf(" %s |", solver->name);
    printf("\n|---|");
    for (size_t k = 0; k < SOLVER_COUNT; k++) printf("---|");
    for (const Result &r : results) {
        printf("\n| %s |", r.name.c_str());
        for (const Total &peer : r.peers) printf(" %s, %d, %d |", peer.answers() ? tenths(peer.each()).c_str() : "-", peer.wrong, peer.none);
    }
    printf("\n");
}

// One of the tests' hard sheets.
static Case hard_case(uint64_t seed) {
    Dice dice = {seed};
    Sheet s = tests_hard(dice), m = moved(s, dice);
    return {s, m, s};
}

static double cold_again(const Case &c, int rounds) {
    static const Verdict untried[SOLVER_COUNT] = {UNTRIED, UNTRIED, UNTRIED, UNTRIED};
    Ours ours;
    Answer answer = (Answer)ours.cold_call(c.sheet);
    return times_apart(c, answer, rounds, ours.carried, untried).cold;
}

// The slowest of the tests' hard sheets, beside the mean of the dense ones where those were timed too.
static void print_slowest(const std::vector<std::pair<double, uint64_t>> &hard, double dense, int rounds) {
    std::vector<std::pair<double, uint64_t>> slow = hard;
    std::sort(slow.rbegin(), slow.rend());
    slow.resize(std::min(slow.size(), TIMED_AGAIN));
    for (auto &[time, seed] : slow) time = cold_again(hard_case(seed), rounds);
    auto [time, seed] = *std::max_element(slow.begin(), slow.end());
    printf("\nSlowest of the %zu hard sheets of the tests: seed %d, %.1f us cold", hard.size(), (int)seed, time);
    if (dense > 0) printf(", %.2f times the mean of dense", time / dense);
    printf(".\n");
}

// What a call costs before it has anything to do, and what of that is the clock's.
static void print_empty() {
    Sheet empty;
    // no list that is lent may be NULL, not even an empty one
    empty.label(0, 1), empty.gap(0, 0, 0);
    empty.wanted.clear(), empty.weight.clear(), empty.left.clear(), empty.right.clear(), empty.distance.clear(), empty.kind.clear();
    Ours ours;
    double call = NEVER, clock = NEVER;
    for (int r = 0; r < EMPTY_ROUNDS; r++) {
        call = std::min(call, ours.timed(empty, NO_MARKS));
        double began = now();
        clock = std::min(clock, now() - began);
    }
    printf("\nAn empty sheet: %.3f us, of which the clock takes %.3f.\n", call, clock);
}

static Row row_of(const Family &family, int rounds) {
    size_t sheets = family.sheets;
    return {family.name, family.answer, rounds, sheets, sheets, [&family, dice = Dice{family.seed}]() mutable -> Case {
        Sheet s = family.make(dice), m = moved(s, dice);
        return {s, m, family.tell(s)};
    }};
}

// The tests' hard sheets with this answer, by their seeds.
static std::vector<uint64_t> hard_seeds(Answer answer) {
    static Ours ours;
    std::vector<uint64_t> seeds;
    for (uint64_t seed = 0; seed < HARD_SHEETS; seed++) {
        uint64_t got = ours.cold_call(hard_case(seed).sheet);
        if (got != PLACED && got != RING) fail("a hard sheet of the tests is refused");
        if (got == answer) seeds.push_back(seed);
    }
    return seeds;
}

static Row hard_row(const char *name, Answer answer, const std::vector<uint64_t> &seeds, int rounds) {
    return {name, answer, std::min(rounds, HARD_ROUNDS), seeds.size(), HARD_TRIED, [&seeds, k = size_t(0)]() mutable {
        return hard_case(seeds[k++]);
    }};
}

static void print_sheets(uint64_t count) {
    for (uint64_t seed = 0; seed < count; seed++) {
        Sheet s = hard_case(seed).sheet;
        printf("family %d\n", (int)seed);
        for (size_t i = 0; i < s.wanted.size(); i++) printf("label,%zu,%d,%d\n", i, (int)s.wanted[i], (int)s.weight[i]);
        for (size_t e = 0; e < s.left.size(); e++) printf("gap,%d,%d,%d\n", (int)s.left[e], (int)s.right[e], (int)s.distance[e]);
        putchar(0);
    }
}

// A run over the families that are asked for.
struct Run {
    std::vector<std::string> words;
    int rounds;
    std::vector<Result> results;
    // the cold times of the tests' hard sheets, with their seeds
    std::vector<std::pair<double, uint64_t>> hard;
    double dense = 0;

    bool asked(const std::string &name) const {
        for (const std::string &word : words)
            if (name.find(word) != std::string::npos) return true;
        return words.empty();
    }
    const Result &add(const Row &row) {
        results.push_back(measured(row));
        print(results.back());
        return results.back();
    }
    void add_family(const Family &family) {
        if (!asked(family.name)) return;
        const Result &result = add(row_of(family, rounds));
        if (result.name == "dense") dense = result.mean_cold();
    }
    void add_hard(const char *name, Answer answer) {
        if (!asked(name)) return;
        std::vector<uint64_t> seeds = hard_seeds(answer);
        const Result &result = add(hard_row(name, answer, seeds, rounds));
        for (size_t k = 0; k < seeds.size(); k++) hard.push_back({result.cold[k], seeds[k]});
    }
};

int main(int count, char **word) {
    if (count == 3 && strcmp(word[1], "--print") == 0) {
        print_sheets(atoi(word[2]));
        return 0;
    }
    const char *fewer = getenv("ROUNDS");
    Run run = {{word + 1, word + count}, fewer ? std::clamp(atoi(fewer), 1, ROUNDS) : ROUNDS, {}, {}};
    print_head();
    for (const Family &family : FAMILIES) run.add_family(family);
    run.add_hard("tests' hard, placed", PLACED);
    run.add_hard("tests' hard, rings", RING);
    print_solvers(run.results);
    if (!run.hard.empty()) print_slowest(run.hard, run.dense, run.rounds);
    print_empty();
}
