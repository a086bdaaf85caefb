// A plain reducer for matchings, to measure beside: Hopcroft and Karp over the clauses and variables of a
// DIMACS file.
//
//     hopcroft_karp FILE
//     hopcroft_karp FILE EDITS COUNT
//
// It writes the document that `leank reduce matching` writes, perhaps with another choice of owners. With a text of edits it
// writes the lines of `leank edits` for the formula and the first COUNT edits, each kernel computed from scratch.
#include <algorithm>
#include <charconv>
#include <cstdint>
#include <cstdio>
#include <cstdlib>
#include <fstream>
#include <iterator>
#include <string>
#include <vector>

using Number = std::uint32_t;

struct Formula {
    Number vars = 0;
    std::vector<Number> ends{0};  // where the clauses end among the variables
    std::vector<Number> variables;
    std::vector<int> literals;
    Number clauses() const { return Number(ends.size() - 1); }
};

static Formula read(const char* name) {
    std::ifstream file(name, std::ios::binary);
    std::string text((std::istreambuf_iterator<char>(file)), {});
    const char* at = text.c_str();
    while (*at != 'p') at = std::find(at, text.c_str() + text.size(), '\n') + 1;
    char* end = nullptr;
    Formula formula;
    formula.vars = Number(std::strtoul(at + 6, &end, 10));
    std::strtoul(end, &end, 10);
    for (;;) {
        at = end;
        const long literal = std::strtol(at, &end, 10);
        if (end == at) return formula;
        if (literal == 0) formula.ends.push_back(Number(formula.variables.size()));
        else {
            formula.literals.push_back(int(literal));
            formula.variables.push_back(Number(std::labs(literal)));
        }
    }
}

struct Owner {
    Number position, variable;
};

struct Row {
    Number variable, own, escape, rank;
};

struct Kernel {
    std::vector<Number> kept;
    std::vector<Owner> owners;
    std::vector<Row> rows;
};

class Matching {
public:
    explicit Matching(const Formula& formula)
        : f(formula), of_clause(f.clauses(), 0), of_var(f.vars + 1, 0), layer(f.clauses()), next(f.clauses()) {
        while (search()) turn_walks();
    }

    // What the last search, which met no free variable, has reached.
    Kernel kernel() const {
        Kernel kernel;
        std::vector<Number> escape(of_var.size(), 0);
        for (const Number c : queue)
            for (Number k = f.ends[c]; k < f.ends[c + 1]; k++)
                if (escape[f.variables[k]] == 0) escape[f.variables[k]] = c + 1;
        for (Number c = 0; c < f.clauses(); c++) {
            if (layer[c] != 0) kernel.kept.push_back(c + 1);
            else kernel.owners.push_back({c + 1, of_clause[c]});
        }
        for (Number v = 1; v < of_var.size(); v++)
            if (escape[v] != 0) kernel.rows.push_back({v, of_var[v], escape[v], layer[escape[v] - 1]});
        return kernel;
    }

private:
    // Layers from all clauses without a variable, up to the first with a free variable; whether there is one.
    bool search() {
        Number last = UINT32_MAX;
        queue.clear();
        for (Number c = 0; c < f.clauses(); c++) {
            layer[c] = of_clause[c] == 0;
            if (layer[c]) queue.push_back(c);
        }
        for (std::size_t place = 0; place < queue.size() && layer[queue[place]] < last; place++) {
            const Number c = queue[place];
            for (Number k = f.ends[c]; k < f.ends[c + 1]; k++) {
                const Number mate = of_var[f.variables[k]];
                if (mate == 0) last = layer[c];
                else if (layer[mate - 1] == 0) {
                    layer[mate - 1] = layer[c] + 1;
                    queue.push_back(mate - 1);
                }
            }
        }
        return last != UINT32_MAX;
    }

    void turn_walks() {
        std::copy(f.ends.begin(), f.ends.end() - 1, next.begin());
        for (Number c = 0; c < f.clauses(); c++)
            if (of_clause[c] == 0) turn_walk(c);
    }

    // In depth along the layers; a clause that was tried leaves its layer.
    void turn_walk(Number root) {
        path.assign(1, root);
        while (!path.empty()) {
            const Number c = path.back();
            bool on = false;
            while (!on && next[c] < f.ends[c + 1]) {
                const Number v = f.variables[next[c]++];
                const Number mate = of_var[v];
                if (mate == 0) return turn(v);
                if (layer[mate - 1] == layer[c] + 1) {
                    path.push_back(mate - 1);
                    on = true;
                }
            }
            if (!on) {
                layer[c] = 0;
                path.pop_back();
            }
        }
    }

    void turn(Number v) {
        for (; !path.empty(); path.pop_back()) {
            const Number c = path.back();
            of_var[v] = c + 1;
            layer[c] = 0;
            std::swap(v, of_clause[c]);
        }
    }

    const Formula& f;
    std::vector<Number> of_clause, of_var, layer, next, queue, path;
};

// Text in one buffer.
class Text {
public:
    Text& word(const char* word) {
        bytes += word;
        return *this;
    }
    Text& number(long number) {
        char digits[24];
        const auto end = std::to_chars(digits, digits + sizeof digits, number).ptr;
        bytes += ' ';
        bytes.append(digits, end);
        return *this;
    }
    void line() { bytes += '\n'; }
    bool put() const { return std::fwrite(bytes.data(), 1, bytes.size(), stdout) == bytes.size(); }

private:
    std::string bytes;
};

static void put_clause(Text& text, const Formula& f, Number position) {
    for (Number k = f.ends[position - 1]; k < f.ends[position]; k++) {
        const int literal = f.literals[k];
        char digits[16];
        *std::to_chars(digits, digits + sizeof digits, literal).ptr = 0;
        text.word(digits).word(" ");
    }
    text.word("0").line();
}

static Text document(const Formula& f, const Kernel& kernel) {
    std::vector<int> value(f.vars + 1, 0);
    for (const Owner& owner : kernel.owners)
        for (Number k = f.ends[owner.position - 1]; value[owner.variable] == 0; k++)
            if (f.variables[k] == owner.variable) value[owner.variable] = f.literals[k];
    Text text;
    text.word("c leank 1 matching").line();
    text.word("c formula").number(f.vars).number(f.clauses()).line();
    text.word("c keep");
    for (const Number p : kernel.kept) text.number(p);
    text.number(0).line();
    text.word("c set");
    for (const int literal : value)
        if (literal != 0) text.number(literal);
    text.number(0).line();
    for (const Owner& owner : kernel.owners) text.word("c own").number(owner.position).number(owner.variable).line();
    for (const Row& row : kernel.rows)
        text.word("c row").number(row.variable).number(row.own).number(row.escape).number(row.rank).line();
    text.word("p cnf").number(f.vars).number(long(kernel.kept.size())).line();
    for (const Number p : kernel.kept) put_clause(text, f, p);
    return text;
}

// The clauses that are live, under their numbers.
class Live {
public:
    explicit Live(const Formula& formula) : all(formula), numbers(formula.clauses()) {
        for (Number c = 0; c < formula.clauses(); c++) numbers[c] = c + 1;
    }

    void remove(Number number) { numbers.erase(std::lower_bound(numbers.begin(), numbers.end(), number)); }

    void add(const std::vector<int>& clause) {
        for (const int literal : clause) {
            all.literals.push_back(literal);
            all.variables.push_back(Number(std::abs(literal)));
        }
        all.ends.push_back(Number(all.variables.size()));
        numbers.push_back(all.clauses());
    }

    void put_kernel(Text& text) const {
        Formula formula;
        formula.vars = all.vars;
        for (const Number c : numbers) {
            formula.variables.insert(formula.variables.end(), all.variables.begin() + all.ends[c - 1], all.variables.begin() + all.ends[c]);
            formula.ends.push_back(Number(formula.variables.size()));
        }
        text.word("keep");
        for (const Number p : Matching(formula).kernel().kept) text.number(numbers[p - 1]);
        text.number(0).line();
    }

private:
    Formula all;
    std::vector<Number> numbers;
};

static Text kernels(const Formula& formula, const char* name, long count) {
    Live live(formula);
    Text text;
    live.put_kernel(text);
    std::ifstream file(name);
    char kind;
    while (count-- > 0 && file >> kind) {
        long number;
        if (kind == 'd') {
            file >> number;
            live.remove(Number(number));
        } else {
            std::vector<int> clause;
            while (file >> number && number != 0) clause.push_back(int(number));
            live.add(clause);
        }
        live.put_kernel(text);
    }
    return text;
}

int main(int count, char** words) {
    if (count != 2 && count != 4) return 1;
    const Formula formula = read(words[1]);
    if (count == 4) return kernels(formula, words[2], std::strtol(words[3], nullptr, 10)).put() ? 0 : 4;
    return document(formula, Matching(formula).kernel()).put() ? 0 : 4;
}
