// A plain program that writes the lines of `leank report`, to measure beside.
//
//     report FILE
//
// It makes no order, owners or rows: of both kernels it wants the sizes alone.
#include <algorithm>
#include <charconv>
#include <cstdint>
#include <cstdio>
#include <cstdlib>
#include <cstring>
#include <fstream>
#include <string>
#include <vector>

using Number = std::uint32_t;

struct Formula {
    Number vars = 0;
    std::vector<Number> ends{0};  // where the clauses end among the literals
    std::vector<int> literals;
    Number clauses() const { return Number(ends.size() - 1); }
    Number length(Number clause) const { return ends[clause + 1] - ends[clause]; }
};

// A literal's place in a table; its complement's is this number with the last bit turned.
static Number place(int literal) { return 2 * Number(std::abs(literal)) + (literal < 0); }

static std::string bytes_of(const char* name) {
    std::ifstream file(name, std::ios::binary | std::ios::ate);
    std::string text(std::size_t(file.tellg()), '\0');
    file.seekg(0);
    file.read(text.data(), std::streamsize(text.size()));
    return text;
}

// Numbers one after another.
class Words {
public:
    explicit Words(const char* begin) : at(begin) {}
    bool next(long& number) {
        while (*at == ' ' || *at == '\n' || *at == '\t' || *at == '\r') at++;
        const bool negative = *at == '-';
        at += negative;
        if (*at < '0' || *at > '9') return false;
        number = 0;
        while (*at >= '0' && *at <= '9') number = 10 * number + (*at++ - '0');
        if (negative) number = -number;
        return true;
    }

private:
    const char* at;
};

// Each literal of a clause once.
static Formula formula_of(const std::string& text) {
    const char* at = text.c_str();
    while (*at != 'p') at = static_cast<const char*>(std::memchr(at, '\n', text.size())) + 1;
    Words words(at + 5);
    Formula f;
    long number = 0;
    words.next(number);
    f.vars = Number(number);
    words.next(number);
    std::vector<Number> seen(2 * f.vars + 2, 0);
    while (words.next(number)) {
        if (number == 0) {
            f.ends.push_back(Number(f.literals.size()));
            continue;
        }
        Number& mark = seen[place(int(number))];
        if (mark == f.ends.size()) continue;
        mark = Number(f.ends.size());
        f.literals.push_back(int(number));
    }
    return f;
}

struct Counts {
    Number occurring = 0, empty = 0, units = 0, tautologies = 0;
};

static Counts counts_of(const Formula& f) {
    Counts counts;
    std::vector<char> occurs(f.vars + 1, 0);
    std::vector<Number> seen(2 * f.vars + 2, 0);
    for (Number c = 0; c < f.clauses(); c++) {
        counts.empty += f.length(c) == 0;
        counts.units += f.length(c) == 1;
        bool complements = false;
        for (Number k = f.ends[c]; k < f.ends[c + 1]; k++) {
            const int l = f.literals[k];
            occurs[std::abs(l)] = 1;
            seen[place(l)] = c + 1;
            complements |= seen[place(-l)] == c + 1;
        }
        counts.tautologies += complements;
    }
    for (const char flag : occurs) counts.occurring += flag;
    return counts;
}

// Pure literals, in any order.
class PureRun {
public:
    explicit PureRun(const Formula& formula) : f(formula), begin(2 * f.vars + 3, 0), holders(f.literals.size()), live(f.clauses(), 1), kept(f.clauses()) {
        for (const int l : f.literals) begin[place(l) + 1]++;
        std::vector<Number> count(begin.begin() + 1, begin.end());
        for (Number i = 1; i < begin.size(); i++) begin[i] += begin[i - 1];
        std::vector<Number> next(begin);
        for (Number c = 0; c < f.clauses(); c++)
            for (Number k = f.ends[c]; k < f.ends[c + 1]; k++) holders[next[place(f.literals[k])]++] = c;
        run(count);
    }
    Number size() const { return kept; }

private:
    void run(std::vector<Number>& count) {
        std::vector<Number> lone;
        for (Number l = 2; l < count.size(); l++)
            if (count[l] != 0 && count[l ^ 1] == 0) lone.push_back(l);
        while (!lone.empty()) {
            const Number l = lone.back();
            lone.pop_back();
            for (Number k = begin[l]; k < begin[l + 1]; k++) touch(holders[k], count, lone);
        }
    }

    void touch(Number c, std::vector<Number>& count, std::vector<Number>& lone) {
        if (!live[c]) return;
        live[c] = 0;
        kept--;
        for (Number k = f.ends[c]; k < f.ends[c + 1]; k++) {
            const Number l = place(f.literals[k]);
            if (--count[l] == 0 && count[l ^ 1] != 0) lone.push_back(l ^ 1);
        }
    }

    const Formula& f;
    std::vector<Number> begin, holders;
    std::vector<char> live;
    Number kept;
};

// Hopcroft and Karp.
class Matching {
public:
    explicit Matching(const Formula& formula)
        : f(formula), of_clause(f.clauses(), 0), of_var(f.vars + 1, 0), layer(f.clauses()), next(f.clauses()) {
        while (search()) turn_walks();
    }

    // What the last search, which met no free variable, has reached.
    std::size_t kernel_size() const { return queue.size(); }

private:
    // Layers from all clauses without a variable, up to the first with a free variable; whether there is one.
    bool search() {
        Number last = UINT32_MAX;
        queue.clear();
        for (Number c = 0; c < f.clauses(); c++) {
            layer[c] = of_clause[c] == 0;
            if (layer[c]) queue.push_back(c);
        }
        for (std::size_t at = 0; at < queue.size() && layer[queue[at]] < last; at++) {
            const Number c = queue[at];
            for (Number k = f.ends[c]; k < f.ends[c + 1]; k++) {
                const Number mate = of_var[std::abs(f.literals[k])];
                if (mate == 0) last = layer[c];
                else if (layer[mate - 1] == 0) {
                    layer[mate - 1] = layer[c] + 1;
                    queue.push_back(mate - 1);
                }
            }
        }
        return last != UINT32_MAX;
    }

    void turn_walks() {
        std::copy(f.ends.begin(), f.ends.end() - 1, next.begin());
        for (Number c = 0; c < f.clauses(); c++)
            if (of_clause[c] == 0) turn_walk(c);
    }

    // In depth along the layers; a clause that was tried leaves its layer.
    void turn_walk(Number root) {
        path.assign(1, root);
        while (!path.empty()) {
            const Number c = path.back();
            bool on = false;
            while (!on && next[c] < f.ends[c + 1]) {
                const Number v = Number(std::abs(f.literals[next[c]++]));
                const Number mate = of_var[v];
                if (mate == 0) return turn(v);
                if (layer[mate - 1] == layer[c] + 1) {
                    path.push_back(mate - 1);
                    on = true;
                }
            }
            if (!on) {
                layer[c] = 0;
                path.pop_back();
            }
        }
    }

    void turn(Number v) {
        for (; !path.empty(); path.pop_back()) {
            const Number c = path.back();
            of_var[v] = c + 1;
            layer[c] = 0;
            std::swap(v, of_clause[c]);
        }
    }

    const Formula& f;
    std::vector<Number> of_clause, of_var, layer, next, queue, path;
};

int main(int count, char** words) {
    if (count != 2) return 1;
    const Formula f = formula_of(bytes_of(words[1]));
    const Counts counts = counts_of(f);
    const Number pure = PureRun(f).size();
    const std::size_t matching = Matching(f).kernel_size();
    std::printf("variables %u\noccurring %u\nclauses %u\nliterals %zu\n", f.vars, counts.occurring, f.clauses(), f.literals.size());
    std::printf("empty %u\nunits %u\ntautologies %u\npure %u\nmatching %zu\n", counts.empty, counts.units, counts.tautologies, pure, matching);
    return 0;
}
