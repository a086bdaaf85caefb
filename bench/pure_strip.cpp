// A plain reducer and checker for pure literals with flat tables, to measure beside.
//
//     pure_strip reduce FORMULA
//     pure_strip check FORMULA DOCUMENT
//     pure_strip read FORMULA
//
// `reduce` writes the bytes that `leank reduce pure` writes. `check` reads the document of such a formula and
// makes the same checks, but trusts that the document is in form; it writes what `leank check` writes. `read`
// reads a formula alone.
#include <algorithm>
#include <charconv>
#include <cstdint>
#include <cstdio>
#include <cstdlib>
#include <cstring>
#include <fstream>
#include <functional>
#include <iterator>
#include <queue>
#include <string>
#include <vector>

using Number = std::uint32_t;

struct Formula {
    Number vars = 0;
    std::vector<Number> ends{0};  // where the clauses end among the literals
    std::vector<int> literals;
    Number clauses() const { return Number(ends.size() - 1); }
};

// A literal's place in a table.
static Number place(int literal) { return 2 * Number(std::abs(literal)) + (literal < 0); }

static std::string bytes_of(const char* name) {
    std::ifstream file(name, std::ios::binary | std::ios::ate);
    std::string text(std::size_t(file.tellg()), '\0');
    file.seekg(0);
    file.read(text.data(), std::streamsize(text.size()));
    return text;
}

// Numbers one after another.
class Words {
public:
    explicit Words(const char* begin) : at(begin) {}
    bool next(long& number) {
        while (*at == ' ' || *at == '\n' || *at == '\t' || *at == '\r') at++;
        const bool negative = *at == '-';
        at += negative;
        if (*at < '0' || *at > '9') return false;
        number = 0;
        while (*at >= '0' && *at <= '9') number = 10 * number + (*at++ - '0');
        if (negative) number = -number;
        return true;
    }
    const char* at;
};

// The formula behind the problem line, each literal of a clause once.
static Formula formula_of(const std::string& text) {
    const char* at = text.c_str();
    while (*at != 'p') at = static_cast<const char*>(std::memchr(at, '\n', text.size())) + 1;
    Words words(at + 5);
    Formula f;
    long number = 0;
    words.next(number);
    f.vars = Number(number);
    words.next(number);
    std::vector<Number> seen(2 * f.vars + 2, 0);
    while (words.next(number)) {
        if (number == 0) {
            f.ends.push_back(Number(f.literals.size()));
            continue;
        }
        Number& mark = seen[place(int(number))];
        if (mark == f.ends.size()) continue;
        mark = Number(f.ends.size());
        f.literals.push_back(int(number));
    }
    return f;
}

// For each literal the positions of the clauses that hold it.
struct Holders {
    std::vector<Number> ends, positions;
    explicit Holders(const Formula& f) : ends(2 * f.vars + 3, 0), positions(f.literals.size()) {
        for (const int l : f.literals) ends[place(l) + 1]++;
        for (Number i = 1; i < ends.size(); i++) ends[i] += ends[i - 1];
        std::vector<Number> next(ends.begin(), ends.end() - 1);
        for (Number p = 1; p <= f.clauses(); p++)
            for (Number k = f.ends[p - 1]; k < f.ends[p]; k++) positions[next[place(f.literals[k])]++] = p;
    }
    Number count(int l) const { return ends[place(l) + 1] - ends[place(l)]; }
};

struct Pair {
    Number variable, with, against;
};

struct Kernel {
    std::vector<int> order;
    std::vector<Number> kept;
    std::vector<Pair> pairs;
};

static Number first_live(const Holders& holders, int l, const std::vector<char>& live) {
    for (Number k = holders.ends[place(l)]; k < holders.ends[place(l) + 1]; k++)
        if (live[holders.positions[k] - 1]) return holders.positions[k];
    return 0;
}

static Kernel kernel_of(const Formula& f) {
    const Holders holders(f);
    std::vector<Number> count(2 * f.vars + 2);
    std::priority_queue<Number, std::vector<Number>, std::greater<>> lone;
    for (Number v = 1; v <= f.vars; v++) {
        count[2 * v] = holders.count(int(v));
        count[2 * v + 1] = holders.count(-int(v));
        if ((count[2 * v] == 0) != (count[2 * v + 1] == 0)) lone.push(v);
    }
    std::vector<char> live(f.clauses(), 1);
    Kernel kernel;
    while (!lone.empty()) {
        const Number v = lone.top();
        lone.pop();
        if (count[2 * v] == 0 && count[2 * v + 1] == 0) continue;
        const int l = count[2 * v] != 0 ? int(v) : -int(v);
        kernel.order.push_back(l);
        for (Number k = holders.ends[place(l)]; k < holders.ends[place(l) + 1]; k++) {
            const Number p = holders.positions[k];
            if (!live[p - 1]) continue;
            live[p - 1] = 0;
            for (Number i = f.ends[p - 1]; i < f.ends[p]; i++) {
                const int other = f.literals[i];
                if (--count[place(other)] == 0 && count[place(-other)] != 0) lone.push(Number(std::abs(other)));
            }
        }
    }
    for (Number p = 1; p <= f.clauses(); p++)
        if (live[p - 1]) kernel.kept.push_back(p);
    for (Number v = 1; v <= f.vars; v++)
        if (const Number with = first_live(holders, int(v), live)) kernel.pairs.push_back({v, with, first_live(holders, -int(v), live)});
    return kernel;
}

// Text in one buffer.
class Text {
public:
    Text& word(const char* word) {
        bytes += word;
        return *this;
    }
    Text& number(long number, const char* behind = " ") {
        char digits[24];
        bytes.append(digits, std::to_chars(digits, digits + sizeof digits, number).ptr);
        bytes += behind;
        return *this;
    }
    bool put() const { return std::fwrite(bytes.data(), 1, bytes.size(), stdout) == bytes.size(); }

private:
    std::string bytes;
};

static bool by_variable(int l, int k) { return std::abs(l) < std::abs(k); }

static Text document(const Formula& f, const Kernel& kernel) {
    Text text;
    text.word("c leank 1 pure\nc formula ").number(f.vars).number(f.clauses(), "\nc keep ");
    for (const Number p : kernel.kept) text.number(p);
    text.word("0\nc set ");
    std::vector<int> set = kernel.order;
    std::sort(set.begin(), set.end(), by_variable);
    for (const int l : set) text.number(l);
    text.word("0\nc order ");
    for (const int l : kernel.order) text.number(l);
    text.word("0\n");
    for (const Pair& pair : kernel.pairs) text.word("c pair ").number(pair.variable).number(pair.with).number(pair.against, "\n");
    text.word("p cnf ").number(f.vars).number(long(kernel.kept.size()), "\n");
    for (const Number p : kernel.kept) {
        for (Number k = f.ends[p - 1]; k < f.ends[p]; k++) text.number(f.literals[k]);
        text.word("0\n");
    }
    return text;
}

struct Document {
    Kernel kernel;
    std::vector<int> set;
    Formula texts;
};

static std::vector<int> list(Words& words) {
    std::vector<int> numbers;
    long number = 0;
    while (words.next(number) && number != 0) numbers.push_back(int(number));
    return numbers;
}

static Document document_of(const std::string& text) {
    Document d;
    for (const char* at = text.c_str(); *at != 'p'; at = std::strchr(at, '\n') + 1) {
        if (std::strncmp(at, "c keep ", 7) == 0) {
            Words words(at + 7);
            for (const int p : list(words)) d.kernel.kept.push_back(Number(p));
        } else if (std::strncmp(at, "c set ", 6) == 0) {
            Words words(at + 6);
            d.set = list(words);
        } else if (std::strncmp(at, "c order ", 8) == 0) {
            Words words(at + 8);
            d.kernel.order = list(words);
        } else if (std::strncmp(at, "c pair ", 7) == 0) {
            Words words(at + 7);
            long variable = 0, with = 0, against = 0;
            words.next(variable), words.next(with), words.next(against);
            d.kernel.pairs.push_back({Number(variable), Number(with), Number(against)});
        }
    }
    d.texts = formula_of(text);
    return d;
}

static bool holds(const Formula& f, Number p, int l) {
    return std::find(f.literals.begin() + f.ends[p - 1], f.literals.begin() + f.ends[p], l) != f.literals.begin() + f.ends[p];
}

static bool accepted(const Formula& f, const Document& d) {
    std::vector<char> kept(f.clauses(), 0), makes_true(2 * f.vars + 2, 0), in_kernel(f.vars + 1, 0);
    std::vector<Number> rank(2 * f.vars + 2, 0);
    for (const Number p : d.kernel.kept) kept[p - 1] = 1;
    for (const int l : d.set) makes_true[place(l)] = 1;
    for (std::size_t i = 0; i < d.kernel.kept.size(); i++) {
        const Number p = d.kernel.kept[i];
        const auto begin = f.literals.begin() + f.ends[p - 1], end = f.literals.begin() + f.ends[p];
        if (!std::equal(begin, end, d.texts.literals.begin() + d.texts.ends[i], d.texts.literals.begin() + d.texts.ends[i + 1])) return false;
    }
    for (std::size_t i = 0; i < d.kernel.order.size(); i++) {
        if (!makes_true[place(d.kernel.order[i])]) return false;
        rank[place(d.kernel.order[i])] = Number(i + 1);
    }
    if (d.kernel.order.size() != d.set.size()) return false;
    for (Number p = 1; p <= f.clauses(); p++) {
        bool touched = false, satisfied = false;
        Number first = UINT32_MAX, last = UINT32_MAX;
        for (Number k = f.ends[p - 1]; k < f.ends[p]; k++) {
            const int l = f.literals[k];
            touched |= makes_true[place(l)] || makes_true[place(-l)];
            satisfied |= makes_true[place(l)] != 0;
            if (rank[place(l)]) first = std::min(first, rank[place(l)]);
            if (rank[place(-l)]) last = std::min(last, rank[place(-l)]);
            if (kept[p - 1]) in_kernel[std::abs(l)] = 1;
        }
        if (touched == (kept[p - 1] != 0) || touched != satisfied || (last != UINT32_MAX && first >= last)) return false;
    }
    std::size_t i = 0;
    for (Number v = 1; v <= f.vars; v++) {
        if (!in_kernel[v]) continue;
        if (i == d.kernel.pairs.size() || d.kernel.pairs[i].variable != v) return false;
        const Pair& pair = d.kernel.pairs[i++];
        if (!kept[pair.with - 1] || !kept[pair.against - 1] || !holds(f, pair.with, int(v)) || !holds(f, pair.against, -int(v))) return false;
    }
    return i == d.kernel.pairs.size();
}

int main(int count, char** words) {
    if (count == 3 && std::strcmp(words[1], "reduce") == 0) {
        const Formula f = formula_of(bytes_of(words[2]));
        return document(f, kernel_of(f)).put() ? 0 : 4;
    }
    if (count == 3 && std::strcmp(words[1], "read") == 0) {
        const Formula f = formula_of(bytes_of(words[2]));
        return std::printf("%u %zu\n", f.clauses(), f.literals.size()) < 0;
    }
    if (count == 4 && std::strcmp(words[1], "check") == 0) {
        const Formula f = formula_of(bytes_of(words[2]));
        const Document d = document_of(bytes_of(words[3]));
        return std::puts(accepted(f, d) ? "accepted" : "refused") < 0;
    }
    return 1;
}
