#!/bin/sh
# Writes a refutation as an LRAT proof, for the checkers of other tools.
#
#     examples/lrat.sh FORMULA ANSWER >PROOF
#
# ANSWER is a refutation by `leank solve` (status 20), or a core by `leank mus`. PROOF is always for FORMULA: its numbers
# up to M are the positions of FORMULA's M clauses. In the text of a core the clauses have other positions. Nothing is
# checked here: that is the checker's task.
#
# The status is 0; 1 if ANSWER has no refutation, or one for another number of clauses; 2 for wrong words, or if a file
# cannot be read.

# Each step becomes one line, `ID LITERALS 0 HINTS 0`. Its hints are the clauses of the chain, backwards, without some.
#
# Why these hints are right. The chain begins with the clause C0. Turn i takes the literal ti out of C(i-1), and joins the
# rest with Di without -ti: this is Ci. The step states the last one, Cn. A checker makes the literals of Cn false, and takes
# the hints in their order. Each but the last must be unit: one literal is unset, and the others are false. The unset one
# becomes true. In the last hint all literals must be false.
#
# Let F be the set of the false literals, at first Cn. We go back from turn n to turn 1. Before turn i, F contains Ci, and
# no two complementary literals. Now C(i-1) lies in Ci and ti together, and Di in Ci and -ti.
#   ti is in F     F contains C(i-1) already. The turn gives no hint.
#   -ti is in F    F contains Di. This is the last hint, and we stop.
#   neither        Di is a unit hint: -ti is unset, and the other literals are in F. So ti comes to F.
# After that F contains C(i-1), and still no two complementary literals. In the end it contains C0, the last hint.
#
# Tautologies. The last hint lies in F, and a unit hint in F and -ti, where ti is not in F. So no hint has two complementary
# literals. A step with two such literals gets no line, since no line needs it. In all others Cn has no two at first, as F
# must have none. So one line is enough for a chain, without the clauses between.
#
# Repeated literals. For some checkers a clause is a list: a literal that is twice in it is twice unset. So such a clause of
# FORMULA is stated as a set before its first use, by a line with one hint.
#
# The lines have the numbers from M + 1 on, one by one. They are those of the steps, if no step is left out and no clause
# is stated as a set.
set -eu

# Prints the head of this script.
usage() {
    sed -n -e '/^#!/d' -e '/^#/!q' -e 's/^# \{0,1\}//p' "$0"
}

[ "$*" != --help ] || { usage; exit 0; }
[ $# -eq 2 ] || { usage >&2; exit 2; }
formula=$1
answer=$2
# (awk takes a name with `=` for an assignment, and `-` for its input.)
case $formula in /*) ;; *) formula=./$formula ;; esac
case $answer in /*) ;; *) answer=./$answer ;; esac
for name in "$formula" "$answer"; do
    if [ ! -r "$name" ] || [ -d "$name" ]; then
        echo "lrat.sh: $name cannot be read" >&2
        exit 2
    fi
done

LC_ALL=C awk '
    function refuse(text) {
        print "lrat.sh: " text | "cat >&2"
        refused = 1
        exit 1
    }

    # The next number of the formula. `seen` has the clause in which a literal was last, and `set` those of this clause.
    function take(literal) {
        if (literal == 0) {
            last = ++given
            if (is_repeating) keep()
            width = is_repeating = 0
        } else if (seen[literal] == given + 1) {
            is_repeating = 1
        } else {
            seen[literal] = given + 1
            set[++width] = literal
        }
    }

    # Keeps the literals of this clause, of which some were repeated.
    function keep() {
        begin[given] = size + 1
        for (i = 1; i <= width; i++) kept[++size] = set[i]
        end[given] = size
    }

    # The number in the proof of a clause that a chain names.
    function told(number) {
        return number in number_of ? number_of[number] : number
    }

    # Writes a kept clause as a line of its own.
    function state(position) {
        number_of[position] = ++last
        printf "%s", last
        for (i = begin[position]; i <= end[position]; i++) printf " %s", kept[i]
        printf " 0 %s 0\n", position
    }

    # The hints of the step whose clause ends at word m: goes back from the last turn, and makes the literals in F false.
    function find_hints() {
        hints = 0
        for (k = NF - 2; k > m + 1; k -= 2) {
            if (is_false[$k] == step) continue
            hint[++hints] = $(k + 1)
            if (is_false[-$k] == step) return
            is_false[$k] = step
        }
        hint[++hints] = $(m + 1)
    }

    part == "formula" {
        gsub(/\r/, " ")
        if ($1 ~ /^%/) is_ended = 1
        if (is_ended || NF == 0 || $1 ~ /^[cp]/) next
        for (k = 1; k <= NF; k++) take($k + 0)
        next
    }

    FNR == 1 {
        if (width > 0) take(0)
        if ($0 != "s UNSATISFIABLE" && $0 != "c leank 1 mus") refuse("no refutation")
        next
    }

    # A step `c step k l .. 0 a t b t b .. 0`. What is_false has for a literal is k, if the literal is in F.
    $1 == "c" && $2 == "step" {
        step = $3
        if (step != given + ++steps) refuse("step " step " is none for " given " clauses")
        is_tautology = 0
        for (m = 4; m < NF && $m != "0"; m++) {
            if (is_false[-$m] == step) is_tautology = 1
            is_false[$m] = step
        }
        if (is_tautology) next
        is_refuted = m == 4

        find_hints()
        for (h = 1; h <= hints; h++) if (hint[h] in begin && !(hint[h] in number_of)) state(hint[h])
        number_of[step] = ++last
        printf "%s", last
        for (k = 4; k < m; k++) printf " %s", $k
        printf " 0"
        for (h = 1; h <= hints; h++) printf " %s", told(hint[h])
        print " 0"
    }

    END {
        if (refused) exit 1
        if (!is_refuted) refuse("no refutation")
    }
' part=formula "$formula" part=answer "$answer"
