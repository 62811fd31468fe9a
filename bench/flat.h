// A specification that families.py wrote flat, as diagrams of BuDDy: its variables, lines and goals.
#pragma once
#include <bdd.h>

#include <cstdlib>
#include <istream>
#include <map>
#include <sstream>
#include <string>
#include <vector>

struct Var {
    bool env;
    int low, high, first, width;  // two bits each for `width` bits of a value's code, from `first` on
    int count() const { return high < 0 ? 2 : high - low + 1; }
};

struct Node {
    std::string op;
    std::vector<Node> parts;
};

struct Line {
    bool asm_line;
    std::string time;
    Node e;
};

// Whether a variable's present bits stand above its next ones, or each beside its own.
enum class Layout { Apart, Paired };

static std::vector<Var> vars;
static std::map<std::string, int> number;
static std::vector<Line> lines;
static Layout layout = Layout::Apart;

static Node parse(std::istream &in) {
    std::string word;
    in >> word;
    if (word != "(") return {word, {}};
    Node node;
    in >> node.op;
    while ((in >> std::ws).peek() != ')') node.parts.push_back(parse(in));
    in >> word;
    return node;
}

// Inputs stand above outputs, each in declared order. Gives the number of bits.
static int place(const std::vector<std::pair<std::string, Var>> &declared) {
    int bits = 0;
    for (bool env : {true, false})
        for (auto &d : declared) {
            Var v = d.second;
            if (v.env != env) continue;
            v.first = bits;
            v.width = 0;
            while ((1 << v.width) < v.count()) v.width++;
            bits += 2 * v.width;
            number[d.first] = (int)vars.size();
            vars.push_back(v);
        }
    return bits;
}

static int read(std::istream &given) {
    std::vector<std::pair<std::string, Var>> declared;
    std::string text, word, owner, name;
    while (std::getline(given, text)) {
        std::istringstream in(text);
        in >> word;
        if (word == "var") {
            Var v;
            in >> owner >> name >> v.low >> v.high;
            v.env = owner == "env";
            declared.push_back({name, v});
        } else {
            std::string time;
            in >> time;
            lines.push_back({word == "asm", time, parse(in)});
        }
    }
    return place(declared);
}

static bool has_next(const Node &e) {
    if (e.op == "next") return true;
    for (auto &p : e.parts)
        if (has_next(p)) return true;
    return false;
}

static bool reads_output(const Node &e) {
    if (e.op == "next") return false;
    auto it = number.find(e.op);
    if (it != number.end()) return !vars[it->second].env;
    for (auto &p : e.parts)
        if (reads_output(p)) return true;
    return false;
}

// ---- what an expression means

static int bit_of(const Var &v, bool next, int i) {
    return layout == Layout::Paired ? v.first + 2 * i + next : v.first + i + (next ? v.width : 0);
}

// The bits of a variable are the code of a value, the most significant first.
static bdd has_code(const Var &v, bool next, int code) {
    bdd r = bddtrue;
    for (int i = v.width - 1; i >= 0; i--) {
        bool bit = (code >> (v.width - 1 - i)) & 1;
        r &= bit ? bdd_ithvar(bit_of(v, next, i)) : bdd_nithvar(bit_of(v, next, i));
    }
    return r;
}

typedef std::map<int, bdd> Cases;

static Cases cases(const Node &e, bool next);

static Cases sums(const Node &e, bool next) {
    Cases made;
    for (auto &x : cases(e.parts[0], next))
        for (auto &y : cases(e.parts[1], next)) {
            bdd both = x.second & y.second;
            auto it = made.find(x.first + y.first);
            if (it == made.end()) made[x.first + y.first] = both;
            else it->second |= both;
        }
    return made;
}

// Each value of a whole-number expression, with where it has it.
static Cases cases(const Node &e, bool next) {
    if (e.op == "next") return cases(e.parts[0], true);
    if (e.op == "+") return sums(e, next);
    auto it = number.find(e.op);
    if (it == number.end()) return {{std::atoi(e.op.c_str()), bddtrue}};
    Cases made;
    const Var &v = vars[it->second];
    for (int c = 0; c < v.count(); c++) made[v.low + c] = has_code(v, next, c);
    return made;
}

static bool compare(const std::string &op, int x, int y) {
    if (op == "=") return x == y;
    if (op == "<") return x < y;
    if (op == "<=") return x <= y;
    if (op == ">") return x > y;
    return x >= y;
}

static bdd truth(const Node &e, bool next) {
    const std::string &op = e.op;
    if (op == "next") return truth(e.parts[0], true);
    if (op == "!") return !truth(e.parts[0], next);
    if (op == "&" || op == "|") {
        bdd r = op == "&" ? bddtrue : bddfalse;
        for (auto &p : e.parts) op == "&" ? r &= truth(p, next) : r |= truth(p, next);
        return r;
    }
    if (op == "->") return (!truth(e.parts[0], next)) | truth(e.parts[1], next);
    if (op == "<->") return !(truth(e.parts[0], next) ^ truth(e.parts[1], next));
    if (e.parts.size() == 2) {
        bdd r = bddfalse;
        for (auto &x : cases(e.parts[0], next))
            for (auto &y : cases(e.parts[1], next))
                if (compare(op, x.first, y.first)) r |= x.second & y.second;
        return r;
    }
    return has_code(vars[number.at(op)], next, 1);
}
