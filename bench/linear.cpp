// A plain linear run of a DIMACS file over sparse rows of 128 bits, to measure beside.
//
//     linear FILE [PIVOTS]
//
// It writes the document of the linear kernel and ends with 0, or tells why there is none on standard error: 5 where
// the pivots are used up (100,000 if none are stated), 6 where a number is too wide, 7 where the rows would be too
// large. The file is to be a formula within the limits.
#include <algorithm>
#include <cstdint>
#include <cstdio>
#include <cstdlib>
#include <fstream>
#include <iostream>
#include <string>
#include <vector>

using i128 = __int128;
using u128 = unsigned __int128;

static const i128 LEAST = (i128)((u128)1 << 127);

static std::string text(i128 x) {
    if (x == 0) return "0";
    bool negative = x < 0;
    u128 a = negative ? -(u128)x : (u128)x;
    std::string s;
    for (; a; a /= 10) s += char('0' + (int)(a % 10));
    if (negative) s += '-';
    std::reverse(s.begin(), s.end());
    return s;
}

// A result outside of ±(2^127 - 1), with its operands.
struct Wide {
    const char *op;
    i128 left, right;
};

static i128 product(i128 a, i128 b) {
    i128 r;
    if (__builtin_mul_overflow(a, b, &r) || r == LEAST) throw Wide{"product", a, b};
    return r;
}

static i128 sum(i128 a, i128 b) {
    i128 r;
    if (__builtin_add_overflow(a, b, &r) || r == LEAST) throw Wide{"sum", a, b};
    return r;
}

static i128 difference(i128 a, i128 b) {
    i128 r;
    if (__builtin_sub_overflow(a, b, &r) || r == LEAST) throw Wide{"difference", a, b};
    return r;
}

static i128 gcd(i128 a, i128 b) {
    if (a < 0) a = -a;
    if (b < 0) b = -b;
    while (b) {
        if (!(a >> 63) && !(b >> 63)) {
            uint64_t x = a, y = b;
            while (y) {
                uint64_t r = x % y;
                x = y;
                y = r;
            }
            return x;
        }
        i128 r = a % b;
        a = b;
        b = r;
    }
    return a;
}

// The order of a/b and c/d, for a and c at least 0, b and d above 0.
static int compare(i128 a, i128 b, i128 c, i128 d) {
    int turn = 1;
    for (;;) {
        i128 p = a / b, q = c / d;
        if (p != q) return p < q ? -turn : turn;
        a %= b;
        c %= d;
        if (a == 0 || c == 0) return a == c ? 0 : (a == 0 ? -turn : turn);
        std::swap(a, b);
        std::swap(c, d);
        turn = -turn;
    }
}

struct Entry {
    uint32_t column;
    i128 value;
};

using Row = std::vector<Entry>;

static i128 at(const Row &row, uint32_t column) {
    auto e = std::lower_bound(row.begin(), row.end(), column, [](const Entry &e, uint32_t k) { return e.column < k; });
    return e != row.end() && e->column == column ? e->value : 0;
}

// Divides a row by its content.
static void reduce(Row &row) {
    i128 g = 0;
    for (const Entry &e : row) {
        g = gcd(g, e.value);
        if (g == 1) return;
    }
    for (Entry &e : row) e.value /= g;
}

// (p/g) times the row less (f/g) times the other one, over its content.
static Row combined(const Row &row, const Row &by, i128 p, i128 f) {
    i128 g = gcd(p, f), a = p / g, b = f / g;
    Row out;
    out.reserve(row.size() + by.size());
    size_t i = 0, j = 0;
    while (i < row.size() || j < by.size()) {
        uint32_t column = j == by.size() || (i < row.size() && row[i].column <= by[j].column) ? row[i].column : by[j].column;
        i128 x = i < row.size() && row[i].column == column ? product(a, row[i++].value) : 0;
        i128 y = j < by.size() && by[j].column == column ? product(b, by[j++].value) : 0;
        i128 z = difference(x, y);
        if (z) out.push_back({column, z});
    }
    reduce(out);
    return out;
}

struct Formula {
    uint32_t vars = 0;
    std::vector<std::vector<int>> clauses;
};

using Weights = std::vector<std::pair<uint32_t, i128>>;
using Shares = std::vector<std::pair<uint32_t, i128>>;

struct Unit {
    uint32_t var;
    i128 d;
    Shares shares;
};

// The rows at one moment. Columns count from 0: clauses, artificial ones, the cost unit, the right side.
struct Tableau {
    std::vector<uint32_t> positions, vars, basic;
    std::vector<int> signs;
    std::vector<Row> rows;
    Row cost;
    uint32_t m, r, unit, right;

    Tableau(const Formula &f, const std::vector<uint32_t> &kept) : positions(kept) {
        std::vector<uint32_t> place(f.vars + 1, UINT32_MAX);
        for (uint32_t p : positions)
            for (int l : f.clauses[p - 1]) place[std::abs(l)] = 0;
        for (uint32_t v = 1; v <= f.vars; v++)
            if (place[v] != UINT32_MAX) {
                place[v] = vars.size();
                vars.push_back(v);
            }
        m = positions.size();
        r = vars.size();
        unit = m + r;
        right = m + r + 1;
        rows.resize(r);
        basic.resize(r);
        signs.assign(r, 1);
        std::vector<int64_t> total(r, 0), column(m, 0);
        for (uint32_t c = 0; c < m; c++) {
            const std::vector<int> &clause = f.clauses[positions[c] - 1];
            for (int l : clause) {
                if (std::find(clause.begin(), clause.end(), -l) != clause.end()) continue;
                uint32_t j = place[std::abs(l)];
                rows[j].push_back({c, l > 0 ? 1 : -1});
                total[j] += l > 0 ? 1 : -1;
            }
        }
        int64_t sides = 0;
        for (uint32_t j = 0; j < r; j++) {
            int64_t lack = -total[j];
            if (lack < 0) {
                signs[j] = -1;
                lack = -lack;
                for (Entry &e : rows[j]) e.value = -e.value;
            }
            for (const Entry &e : rows[j]) column[e.column] -= (int64_t)e.value;
            basic[j] = m + j;
            rows[j].push_back({m + j, 1});
            if (lack) rows[j].push_back({right, lack});
            sides -= lack;
        }
        for (uint32_t c = 0; c < m; c++)
            if (column[c]) cost.push_back({c, column[c]});
        cost.push_back({unit, 1});
        if (sides) cost.push_back({right, sides});
    }

    bool first_phase() const { return at(cost, right) != 0; }

    bool entering(uint32_t &k) const {
        for (const Entry &e : cost)
            if (e.column < unit && e.value < 0) {
                k = e.column;
                return true;
            }
        return false;
    }

    uint32_t leaving(uint32_t k) const {
        uint32_t best = UINT32_MAX;
        i128 best_side = 0, best_entry = 1;
        for (uint32_t i = 0; i < r; i++) {
            i128 entry = at(rows[i], k);
            if (entry <= 0) continue;
            i128 side = at(rows[i], right);
            int order = best == UINT32_MAX ? -1 : compare(side, entry, best_side, best_entry);
            if (order < 0 || (order == 0 && basic[i] < basic[best])) {
                best = i;
                best_side = side;
                best_entry = entry;
            }
        }
        return best;
    }

    bool artificial(uint32_t &i) const {
        for (i = 0; i < r; i++)
            if (basic[i] >= m) return true;
        return false;
    }

    void pivot(uint32_t i, uint32_t k) {
        bool first = first_phase();
        i128 p = at(rows[i], k);
        if (p < 0) {
            for (Entry &e : rows[i]) e.value = -e.value;
            p = -p;
        }
        for (uint32_t j = 0; j < r; j++) {
            if (j == i) continue;
            i128 f = at(rows[j], k);
            if (f) rows[j] = combined(rows[j], rows[i], p, f);
        }
        if (first) {
            i128 f = at(cost, k);
            if (f) cost = combined(cost, rows[i], p, f);
        }
        basic[i] = k;
    }

    // The stage of the first phase, or that of a row of the second.
    Weights stage(bool first, uint32_t i) const {
        Weights weights;
        i128 d = at(cost, unit), g = 0;
        for (uint32_t j = 0; j < r; j++) {
            i128 x = first ? difference(at(cost, m + j), d) : at(rows[i], m + j);
            if (!x) continue;
            g = gcd(g, x);
            weights.push_back({vars[j], signs[j] * x});
        }
        for (auto &w : weights) w.second /= g;
        return weights;
    }

    // The common denominator of a column, and for each row its denominator and numerator.
    i128 common(uint32_t k, std::vector<std::pair<i128, i128>> &quotients) const {
        i128 l = 1;
        quotients.clear();
        for (uint32_t i = 0; i < r; i++) {
            i128 p = at(rows[i], basic[i]), h = at(rows[i], k), g = gcd(p, h);
            quotients.push_back({p / g, h / g});
        }
        for (auto &q : quotients) l = product(l / gcd(l, q.first), q.first);
        return l;
    }

    std::vector<i128> duals() const {
        std::vector<std::pair<i128, i128>> quotients;
        i128 l = common(right, quotients);
        std::vector<i128> y(m, l);
        for (uint32_t i = 0; i < r; i++) y[basic[i]] = sum(l, product(l / quotients[i].first, quotients[i].second));
        return y;
    }

    std::vector<Unit> units() const {
        std::vector<Unit> units;
        std::vector<std::pair<i128, i128>> quotients;
        for (uint32_t j = 0; j < r; j++) {
            Unit u{vars[j], common(m + j, quotients), {}};
            for (uint32_t i = 0; i < r; i++) {
                i128 z = product(u.d / quotients[i].first, quotients[i].second);
                if (z) u.shares.push_back({positions[basic[i]], signs[j] * z});
            }
            std::sort(u.shares.begin(), u.shares.end());
            units.push_back(std::move(u));
        }
        return units;
    }
};

static Formula read(const char *name) {
    Formula f;
    std::ifstream in(name);
    std::string line;
    std::vector<int> clause;
    bool open = false;
    while (std::getline(in, line)) {
        size_t k = line.find_first_not_of(" \t\r");
        if (k == std::string::npos || line[k] == 'c') continue;
        if (line[k] == '%') break;
        if (line[k] == 'p') {
            char word[8];
            unsigned count;
            if (std::sscanf(line.c_str() + k, "p %7s %u %u", word, &f.vars, &count) != 3) std::exit(2);
            f.clauses.reserve(count);
            continue;
        }
        const char *s = line.c_str() + k;
        char *end;
        for (;;) {
            long x = std::strtol(s, &end, 10);
            if (end == s) break;
            s = end;
            if (x == 0) {
                f.clauses.push_back(clause);
                clause.clear();
                open = false;
            } else {
                open = true;
                if (std::find(clause.begin(), clause.end(), (int)x) == clause.end()) clause.push_back((int)x);
            }
        }
    }
    if (open) f.clauses.push_back(clause);
    return f;
}

static void write(const Formula &f, const std::vector<Weights> &stages, const Tableau &t) {
    std::vector<i128> duals = t.duals();
    std::vector<Unit> units = t.units();
    std::string out = "c leank 1 linear\nc formula " + std::to_string(f.vars) + " " + std::to_string(f.clauses.size()) + "\nc keep ";
    for (uint32_t p : t.positions) out += std::to_string(p) + " ";
    out += "0\nc set ";
    std::vector<int> signs(f.vars + 1, 0);
    for (const Weights &stage : stages)
        for (const auto &w : stage)
            if (!signs[w.first]) signs[w.first] = w.second > 0 ? 1 : -1;
    for (uint32_t v = 1; v <= f.vars; v++)
        if (signs[v]) out += std::to_string(signs[v] * (int)v) + " ";
    out += "0\n";
    for (const Weights &stage : stages) {
        out += "c stage ";
        for (const auto &w : stage) out += std::to_string(w.first) + " " + text(w.second) + " ";
        out += "0\n";
    }
    for (uint32_t c = 0; c < t.m; c++) out += "c dual " + std::to_string(t.positions[c]) + " " + text(duals[c]) + "\n";
    for (const Unit &u : units) {
        out += "c unit " + std::to_string(u.var) + " " + text(u.d) + " ";
        for (const auto &s : u.shares) out += std::to_string(s.first) + " " + text(s.second) + " ";
        out += "0\n";
    }
    out += "p cnf " + std::to_string(f.vars) + " " + std::to_string(t.m) + "\n";
    for (uint32_t p : t.positions) {
        for (int l : f.clauses[p - 1]) out += std::to_string(l) + " ";
        out += "0\n";
    }
    std::fwrite(out.data(), 1, out.size(), stdout);
}

int main(int argc, char **argv) {
    if (argc < 2) return 1;
    Formula f = read(argv[1]);
    uint64_t budget = argc > 2 ? std::strtoull(argv[2], nullptr, 10) : 100000, made = 0;
    std::vector<uint32_t> kept(f.clauses.size());
    for (size_t i = 0; i < kept.size(); i++) kept[i] = i + 1;
    std::vector<bool> seen(f.vars + 1, false);
    uint64_t r = 0, m = f.clauses.size();
    for (const auto &clause : f.clauses)
        for (int l : clause)
            if (!seen[std::abs(l)]) {
                seen[std::abs(l)] = true;
                r++;
            }
    if ((r + 1) * (m + r + 2) > 1 << 24) {
        std::cerr << "leank: too large: " << r << " variables, " << m << " clauses\n";
        return 7;
    }
    std::vector<Weights> stages;
    try {
        for (;;) {
            Tableau t(f, kept);
            for (;;) {
                uint32_t i = 0, k = 0;
                bool first = t.first_phase(), found;
                if (first) {
                    found = t.entering(k);
                    if (found) i = t.leaving(k);
                } else {
                    if (!t.artificial(i)) {
                        write(f, stages, t);
                        return 0;
                    }
                    k = t.rows[i][0].column;
                    found = k < t.m;
                }
                if (!found) {
                    stages.push_back(t.stage(first, i));
                    break;
                }
                if (made == budget) {
                    std::cerr << "leank: budget of " << budget << " pivots used\n";
                    return 5;
                }
                t.pivot(i, k);
                made++;
            }
            std::vector<bool> weighted(f.vars + 1, false);
            for (const auto &w : stages.back()) weighted[w.first] = true;
            std::vector<uint32_t> left;
            for (uint32_t p : kept) {
                bool touched = false;
                for (int l : f.clauses[p - 1]) touched = touched || weighted[std::abs(l)];
                if (!touched) left.push_back(p);
            }
            kept = left;
        }
    } catch (const Wide &w) {
        std::cerr << "leank: too wide after " << made << " pivots: " << w.op << " of " << text(w.left) << " and " << text(w.right) << "\n";
        return 6;
    }
}
