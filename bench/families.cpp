// Makes the sheets that are timed. The order of the numbers drawn is kept, so that figures compare with earlier ones.
#include "families.h"
#include <algorithm>

// A strip of 48 labels of several widths in groups, each wanted near its terminal; terminals are farther apart by the room. Groups
// keep a distance from each other.
static Sheet roomy_strip(Dice &d, int64_t room) {
    Sheet s;
    int64_t x = d.from(-20000, 0), width = 0, before = 0;
    uint64_t first = 0;
    for (uint64_t i = 0, rest = 0; i < 48; i++, rest--) {
        bool opens = rest == 0;
        if (opens) rest = (uint64_t)d.from(3, 8);
        width = 100 * d.from(4, 12);
        x += (before + width) / 2 + room + d.from(-200, 150) + (opens ? d.from(0, 800) : 0);
        s.label(x + d.from(-300, 300), d.from(0, 9) == 0 ? 100 : d.from(1, 5));
        if (i > 0) s.gap(i - 1, i, (before + width) / 2 + (opens ? 200 : 0));
        if (opens && i > 0) s.gap(first, i, 2000);
        if (opens) first = i;
        before = width;
    }
    return s;
}

static Sheet strip(Dice &d) { return roomy_strip(d, 0); }

// 48 labels with 192 gaps between any two of them.
static Sheet dense(Dice &d) {
    Sheet s;
    for (int i = 0; i < 48; i++) s.label(d.from(-20000, 20000), d.from(1, 10));
    while (s.left.size() < 192) {
        uint64_t u = d.from(0, 46), v = d.from(u + 1, 47);
        s.gap(u, v, d.from(0, 2000));
    }
    return s;
}

// A strip on which pairs of labels keep an exact distance, as two opposite gaps.
static Sheet equalities(Dice &d) {
    Sheet s = strip(d);
    for (uint64_t i = 0; i + 2 < 48; i += 4) s.opposite(i, i + 2, s.least(i, i + 2) + d.from(0, 500));
    return s;
}

// Joins two labels of a strip: farther apart than they are wanted, or as much closer as the gaps between them allow.
static void join(Sheet &s, Dice &d, uint64_t u, uint64_t v) {
    int64_t least = s.least(u, v) + d.from(0, 50), wanted = s.wanted[v] - s.wanted[u];
    s.gap(u, v, std::max(least, wanted + d.from(-400, 400)), EXACTLY);
}

// A strip with more or less room and 12 markers: every third has three parts, joined by two exact gaps, the others have two.
static Sheet joined(Dice &d) {
    Sheet s = roomy_strip(d, 100 * d.from(0, 4));
    for (uint64_t i = 0; i + 2 < 48; i += 4) {
        if (i % 12 == 0) {
            join(s, d, i, i + 1);
            join(s, d, i + 1, i + 2);
        } else {
            join(s, d, i, i + 2);
        }
    }
    return s;
}

// The same sheet with two opposite gaps for each exact gap.
static Sheet opposed(const Sheet &s) {
    Sheet t = s;
    for (size_t e = 0; e < s.left.size(); e++)
        if (s.kind[e] == EXACTLY) t.kind[e] = AT_LEAST, t.gap(s.right[e], s.left[e], -s.distance[e]);
    return t;
}

// The same sheet with an exact gap for each two opposite gaps in a row.
static Sheet paired(const Sheet &s) {
    Sheet t = s;
    t.left.clear(), t.right.clear(), t.distance.clear(), t.kind.clear();
    for (size_t e = 0; e < s.left.size(); e++) {
        bool opposes = e + 1 < s.left.size() && s.left[e] == s.right[e + 1] && s.right[e] == s.left[e + 1] && s.distance[e] == -s.distance[e + 1];
        t.gap(s.left[e], s.right[e], s.distance[e], opposes ? EXACTLY : s.kind[e]);
        if (opposes) e++;
    }
    return t;
}

static Sheet as_it_is(const Sheet &s) { return s; }

// All 48 labels wanted at one place, chained.
static Sheet chain(Dice &) {
    Sheet s;
    for (int i = 0; i < 48; i++) s.label(200000, 1);
    for (int i = 0; i < 47; i++) s.gap(i, i + 1, 20000);
    return s;
}

static Sheet tiny(Dice &d) {
    Sheet s;
    int64_t n = d.from(2, 6);
    for (int64_t i = 0; i < n; i++) s.label(d.from(0, 500 * n), d.from(1, 5));
    for (int64_t i = 0; i + 1 < n; i++) s.gap(i, i + 1, d.from(300, 900));
    if (n > 2) s.gap(0, n - 1, d.from(1000, 3000));
    return s;
}

// 48 labels wanted against the order of their 192 gaps, as on a strip that was typed backwards. Nearly all of them meet. The guess of
// earlier releases failed on most of these sheets.
static Sheet hard(Dice &d) {
    Sheet s;
    for (int i = 0; i < 48; i++) s.label(8000 * (23 - i), d.from(1, 10));
    for (int i = 0; i < 47; i++) s.gap(i, i + 1, d.from(0, 300));
    while (s.left.size() < 192) {
        uint64_t u = d.from(0, 46), v = d.from(u + 1, 47);
        s.gap(u, v, d.from(0, 300));
    }
    return s;
}

// Below, each number is drawn in a statement of its own: a compiler may choose in which order it evaluates arguments.
static const int64_t LABELS = MOST_LABELS, LAST = LABELS - 1;

// 48 labels wanted backwards, a step between neighbours, chained in their order. The other gaps reach so many labels on.
static Sheet against(Dice &d, int64_t reach, int64_t step) {
    Sheet s;
    for (int64_t i = 0; i < LABELS; i++) s.label(step * (LAST - 2 * i) / 2, d.from(1, 10));
    for (int64_t i = 0; i < LAST; i++) s.gap(i, i + 1, d.from(0, 300));
    while (s.left.size() < MOST_GAPS) {
        int64_t u = d.from(0, LAST - 1);
        int64_t v = d.from(u + 1, std::min(LAST, u + reach));
        s.gap(u, v, d.from(0, 300));
    }
    return s;
}

// The steps of the wants: the longer one leaves room for a want to move.
static const int64_t SHORT_STEP = 400, LONG_STEP = 8500;
// How far a local gap reaches, in labels.
static const int64_t LOCAL = 6;

static Sheet against_local_short(Dice &d) { return against(d, LOCAL, SHORT_STEP); }
static Sheet against_local_long(Dice &d) { return against(d, LOCAL, LONG_STEP); }
static Sheet against_any_short(Dice &d) { return against(d, LAST, SHORT_STEP); }
static Sheet against_any_long(Dice &d) { return against(d, LAST, LONG_STEP); }

// 48 labels wanted anywhere and 192 gaps, 12 of them exact, all met by a placement that is made first: every sheet can be placed.
static Sheet exact(Dice &d) {
    static const size_t EXACT_GAPS = 12;
    Sheet s;
    std::vector<int64_t> hidden(1, 0);
    while (hidden.size() < MOST_LABELS) hidden.push_back(hidden.back() + d.from(0, 600));
    for (size_t i = 0; i < MOST_LABELS; i++) {
        int64_t want = d.from(-20000, 20000);
        s.label(want, d.from(1, 10));
    }
    while (s.left.size() < MOST_GAPS) {
        int64_t u = d.from(0, LAST - 1), v = d.from(u + 1, LAST), apart = hidden[v] - hidden[u];
        if (s.left.size() < MOST_GAPS - EXACT_GAPS) {
            s.gap(u, v, d.from(0, std::min<int64_t>(2000, apart)));
        } else if (apart <= LONGEST_GAP) {
            s.gap(u, v, apart, EXACTLY);
        }
    }
    return s;
}

// Walks so many gaps, from any label on. Gives nothing where the walk ends at a label that no gap leaves.
static std::vector<size_t> walk(const Sheet &s, Dice &d, size_t length) {
    std::vector<size_t> path;
    uint64_t at = d.from(0, LAST);
    while (path.size() < length) {
        std::vector<size_t> onward;
        for (size_t e = 0; e < s.left.size(); e++)
            if (s.left[e] == at) onward.push_back(e);
        if (onward.empty()) return {};
        path.push_back(onward[d.from(0, onward.size() - 1)]);
        at = s.right[path.back()];
    }
    return path;
}

// A dense sheet whose last gap closes a ring with 2 to 10 others.
static Sheet ring(Dice &d) {
    Sheet s = dense(d);
    s.left.pop_back(), s.right.pop_back(), s.distance.pop_back(), s.kind.pop_back();
    std::vector<size_t> path;
    while (path.empty()) {
        size_t length = d.from(2, 10);
        path = walk(s, d, length);
    }
    int64_t sum = 0;
    for (size_t e : path) sum += s.distance[e];
    s.gap(s.right[path.back()], s.left[path.front()], d.from(1, 500) - sum);
    return s;
}

// A gap from a label back to one before it: with the chain between the two it is a ring whose distances sum to 1.
static void long_ring(Sheet &s, Dice &d) {
    int64_t left = d.from(0, 23);
    int64_t right = 24 + d.from(0, 23);
    int64_t way = 0;
    for (int64_t e = left; e < right; e++) way += s.distance[e];
    s.gap(right, left, 1 - way);
}

// Gaps between any two labels that the hidden placement meets; on some sheets a few are exact, as two opposite gaps.
static void order_gaps(Sheet &s, Dice &d, const std::vector<int64_t> &hidden) {
    int64_t exact = d.pick({0, 0, 8});
    bool tight = d.once_in(2);
    while (s.left.size() < MOST_GAPS - 1) {
        int64_t left = d.from(0, LAST - 1);
        int64_t right = d.from(left + 1, LAST);
        int64_t most = hidden[right] - hidden[left];
        if (exact > 0) {
            exact--;
            s.opposite(left, right, most);
        } else if (tight) {
            s.gap(left, right, d.from(std::max<int64_t>(0, most - 300), most));
        } else {
            s.gap(left, right, d.from(0, std::min<int64_t>(most, 300)));
        }
    }
}

Sheet tests_hard(Dice &d) {
    Sheet s;
    bool backwards = d.once_in(2);
    int64_t step = d.pick({400, 8000, 8000});
    int64_t heaviest = d.pick({1, 5, 100});
    // a placement that the gaps are made to allow
    std::vector<int64_t> hidden(1, 0);
    for (int64_t label = 0; label < LABELS; label++) {
        int64_t stands = backwards ? LAST - label : (label + LABELS / 2) % LABELS;
        s.label((stands - LABELS / 2) * step, d.from(1, heaviest));
        hidden.push_back(hidden.back() + d.from(0, 300));
    }
    for (int64_t right = 1; right < LABELS; right++) s.gap(right - 1, right, d.from(0, hidden[right] - hidden[right - 1]));
    if (d.once_in(6)) long_ring(s, d);
    order_gaps(s, d, hidden);
    return s;
}

const std::vector<Family> FAMILIES = {
    {"strips", strip, 100, 1, PLACED, as_it_is},
    {"dense", dense, 100, 2, PLACED, as_it_is},
    {"equalities", equalities, 100, 3, PLACED, as_it_is},
    {"equalities, told as exact gaps", equalities, 100, 3, PLACED, paired},
    {"joined", joined, 100, 7, PLACED, as_it_is},
    {"joined, told as opposite gaps", joined, 100, 7, PLACED, opposed},
    {"chain", chain, 1, 4, PLACED, as_it_is},
    {"tiny", tiny, 100, 5, PLACED, as_it_is},
    {"hard", hard, 100, 6, PLACED, as_it_is},
    {"against, local gaps, step 400", against_local_short, 100, 8, PLACED, as_it_is},
    {"against, local gaps, step 8,500", against_local_long, 100, 9, PLACED, as_it_is},
    {"against, any gaps, step 400", against_any_short, 100, 10, PLACED, as_it_is},
    {"against, any gaps, step 8,500", against_any_long, 100, 11, PLACED, as_it_is},
    {"exact", exact, 100, 12, PLACED, as_it_is},
    {"rings", ring, 100, 13, RING, as_it_is},
};
