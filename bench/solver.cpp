// Who wins a specification that families.py wrote flat, over BuDDy. It shares nothing with the crates.
//
// solver WAY NODES [MOST] < FILE: one line with who wins and, but for `verdict`, the numbers. The store begins with NODES nodes,
// doubles where it is full, and holds at most MOST nodes where that is given.
//
// verdict: by the nested fixpoints of the system alone (Bloem et al. 2012, solving GR(1) games)
// numbers: with K, or with N and M of the layers of the environment (Könighofer et al. 2009, counterstrategies)
// sifting: as numbers, while variables are moved (Rudell 1993, sifting)
#include "flat.h"

#include <algorithm>
#include <cstdio>
#include <iostream>

// ---- lines that are taken out early (partitioned relational products: Burch, Clarke and Long 1991)

struct Part {
    bdd lines, bits;
};

struct Product {
    std::vector<Part> parts;
    bdd rest;  // bits that no part reads
};

struct Moves {
    Product replies, inputs;
};

static std::vector<int> read_by(const bdd &f) {
    std::vector<int> bits;
    for (bdd s = bdd_support(f); s.id() > 1; s = bdd_high(s)) bits.push_back(bdd_var(s));
    return bits;
}

static bdd set_of(const std::vector<int> &bits) {
    bdd set = bddtrue;
    for (int b : bits) set &= bdd_ithvar(b);
    return set;
}

static int top(const bdd &f) { return f.id() < 2 ? 1 << 30 : bdd_var(f); }

// The lines that begin deepest come first; small ones are joined.
static std::vector<bdd> joined(std::vector<bdd> lines) {
    std::stable_sort(lines.begin(), lines.end(), [](const bdd &a, const bdd &b) { return top(a) > top(b); });
    std::vector<bdd> made;
    for (auto &line : lines) {
        bdd both = made.empty() ? line : made.back() & line;
        if (made.empty() || bdd_nodecount(both) > 200) made.push_back(line);
        else made.back() = both;
    }
    return made;
}

// A bit goes with the last part that reads it.
static Product product(const std::vector<bdd> &lines, const std::vector<int> &out) {
    std::map<int, int> last;
    for (int b : out) last[b] = -1;
    Product made;
    for (auto &line : joined(lines)) {
        for (int b : read_by(line))
            if (last.count(b)) last[b] = (int)made.parts.size();
        made.parts.push_back({line, bddtrue});
    }
    made.rest = bddtrue;
    for (auto &entry : last)
        (entry.second < 0 ? made.rest : made.parts[entry.second].bits) &= bdd_ithvar(entry.first);
    return made;
}

static bdd taken_out(bdd target, const Product &p) {
    if (p.rest != bddtrue) target = bdd_exist(target, p.rest);
    for (auto &part : p.parts) {
        if (target == bddfalse) return target;
        target = part.bits == bddtrue ? target & part.lines : bdd_appex(target, part.lines, bddop_and, part.bits);
    }
    return target;
}

// ---- the game

static bddPair *to_next;
static bdd proper;
static Moves first, later;
static std::vector<bdd> assume, goals;

struct Bits {
    std::vector<int> next_inputs, next_outputs;
    bdd proper_next = bddtrue;
};

static Bits bits_of_variables() {
    Bits made;
    to_next = bdd_newpair();
    proper = bddtrue;
    for (auto &v : vars) {
        for (int i = 0; i < v.width; i++) {
            bdd_setpair(to_next, bit_of(v, false, i), bit_of(v, true, i));
            (v.env ? made.next_inputs : made.next_outputs).push_back(bit_of(v, true, i));
        }
        bdd now = bddfalse, next = bddfalse;
        for (int c = 0; c < v.count(); c++) now |= has_code(v, false, c), next |= has_code(v, true, c);
        proper &= now;
        made.proper_next &= next;
    }
    return made;
}

static void make_game() {
    Bits bits = bits_of_variables();
    // An input is proper by itself; an output's proper bits are its own.
    bdd proper_in = bdd_exist(bits.proper_next, set_of(bits.next_outputs));
    bdd proper_out = bdd_exist(bits.proper_next, set_of(bits.next_inputs));
    std::vector<bdd> first_in{proper_in}, later_in{proper_in}, first_out{proper_out}, later_out{proper_out};
    for (auto &l : lines) {
        bdd f = truth(l.e, false);
        if (l.time == "alwEv") {
            (l.asm_line ? assume : goals).push_back(f & proper);
            continue;
        }
        bool late = l.time == "alw" && (has_next(l.e) || (l.asm_line && reads_output(l.e)));
        if (!late) f = bdd_replace(f, to_next);
        if (!late) (l.asm_line ? first_in : first_out).push_back(f);
        if (l.time == "alw") (l.asm_line ? later_in : later_out).push_back(f);
    }
    if (assume.empty()) assume.push_back(proper);
    if (goals.empty()) goals.push_back(proper);
    first = {product(first_out, bits.next_outputs), product(first_in, bits.next_inputs)};
    later = {product(later_out, bits.next_outputs), product(later_in, bits.next_inputs)};
}

// The states from which some legal input leads into the target with every legal output.
static bdd pressed(const Moves &m, const bdd &target) {
    bdd escaped = taken_out(bdd_replace(proper & !target, to_next), m.replies);
    return taken_out(!escaped, m.inputs);
}

// The states from which every legal input has a legal output into the target.
static bdd forced(const Moves &m, const bdd &target) {
    bdd reached = taken_out(bdd_replace(target, to_next), m.replies);
    return !taken_out(!reached, m.inputs);
}

static bdd pre_sys(const bdd &target) { return forced(later, target) & proper; }
static bdd pre_env(const bdd &target) { return pressed(later, target) & proper; }

// ---- the system's fixpoints: goals in turns at the newest Z

// A goal's last layer for z, and how many layers it has.
static bdd last_layer(const bdd &goal, const bdd &z, int &ranks) {
    bdd base = goal & pre_sys(z), y = bddfalse, below;
    for (ranks = 0;; ranks++) {
        below = y;
        bdd into = base | pre_sys(y), grown = bddfalse;
        for (auto &a : assume) {
            bdd x = z, older;
            do {
                older = x;
                x = into | ((proper & !a) & pre_sys(x));
            } while (x != older);
            grown |= x;
        }
        y = grown;
        if (y == below) return y;
    }
}

// Z, and K: the last turn doesn't change Z, so its ranks are those for Z.
static bdd winning(int &k) {
    bdd z = proper, before;
    do {
        before = z;
        k = 1;
        for (auto &goal : goals) {
            int ranks;
            z = last_layer(goal, z, ranks);
            k += ranks;
        }
    } while (z != before);
    return z;
}

// ---- the environment's layers, up to the states that are lost for the system

// The states of a hold in which an assumption is met in time, and their greatest rank.
static bdd delayed(const bdd &cover, const bdd &a, int &ranks) {
    bdd t = bddfalse;
    for (ranks = 0;; ranks++) {
        bdd larger = cover & (a | pre_env(t));
        if (larger == t) return t;
        t = larger;
    }
}

static bdd hold_of(const bdd &goal, const bdd &below, const bdd &lost, int &delays) {
    bdd base = (proper & !goal) | pre_env(below), hold = lost;
    for (;;) {
        bdd cover = base & pre_env(hold), following = proper;
        delays = 0;
        for (auto &a : assume) {
            int ranks;
            following &= delayed(cover, a, ranks);
            delays += ranks;
        }
        if (following == hold) return hold;
        hold = following;
    }
}

static void layers(const bdd &lost, int &n, int &m) {
    bdd below = bddfalse;
    for (n = 0, m = 1; below != lost; n++) {
        bdd layer = bddfalse;
        for (auto &goal : goals) {
            int delays;
            layer |= hold_of(goal, below, lost, delays);
            m = std::max(m, 1 + delays);
        }
        if (layer == below) std::exit(1);  // the two sides' fixpoints don't fit
        below = layer;
    }
}

static void full(int fault) {
    std::puts(fault == BDD_NODENUM ? "node budget reached" : fault == BDD_MEMORY ? "no memory" : "fault of the package");
    std::fflush(stdout);
    std::_Exit(5);
}

static void make_store(int nodes, int most, bool sifting, int bits) {
    bdd_init(nodes, nodes / 2);
    bdd_error_hook(full);
    bdd_gbc_hook(nullptr);
    bdd_setcacheratio(2);
    if (most) bdd_setmaxnodenum(most);
    // A step of sifting ends at MOST less one increase.
    bdd_setmaxincrease(most ? most / 8 + 1 : 1 << 26);
    bdd_setvarnum(bits);
    if (!sifting) return;
    for (int b = 0; b < bits; b += 2) bdd_intaddvarblock(b, b + 1, BDD_REORDER_FIXED);
    bdd_autoreorder(BDD_REORDER_SIFT);
}

int main(int argc, char **argv) {
    if (argc < 3) return std::fputs("usage: solver verdict|numbers|sifting NODES [MOST] < FILE\n", stderr) < 0 ? 1 : 2;
    std::string way = argv[1];
    layout = way == "sifting" ? Layout::Paired : Layout::Apart;
    int bits = read(std::cin), k, n, m;
    make_store(std::atoi(argv[2]), argc > 3 ? std::atoi(argv[3]) : 0, way == "sifting", bits);
    make_game();
    bdd z = winning(k);
    bool wins = forced(first, z) == bddtrue;
    if (way == "verdict") return std::puts(wins ? "realizable" : "unrealizable") < 0;
    if (wins) return std::printf("realizable K=%d\n", k) < 0;
    layers(proper & !z, n, m);
    return std::printf("unrealizable N=%d M=%d\n", n, m) < 0;
}
