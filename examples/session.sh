#!/bin/sh
# From a formula to a solver and back: reduces a formula, gives the kept clauses to a solver, and extends its model to the
# whole formula. Then awk checks the model.
#
#     examples/session.sh [FORMULA]
#
# FORMULA is a file and no pipe, by default examples/ladder.cnf. The solver is the first of cadical, minisat and picosat
# that is found. If none is, examples/ladder.model serves for the default.
#
# The status is 0 with a model, 20 if the solver says that there is none, and 2 for wrong words, or if FORMULA cannot be
# read or is no formula. If a command of leank fails otherwise, the status is that of the command. It is 1 if the solver
# says neither, if none is found for a named FORMULA, or if awk finds a clause that is not satisfied.
set -eu

# Prints the head of this script.
usage() {
    sed -n -e '/^#!/d' -e '/^#/!q' -e 's/^# \{0,1\}//p' "$0"
}

case ${1-} in
--help) usage; exit 0 ;;
--*) usage >&2; exit 2 ;;
esac
[ $# -le 1 ] || { usage >&2; exit 2; }
here=$(CDPATH='' cd -- "$(dirname -- "$(readlink -f -- "$0")")" && pwd)
leank=$here/../bin/leank
formula=${1:-$here/ladder.cnf}
if [ ! -r "$formula" ] || [ -d "$formula" ]; then
    echo "session.sh: $formula cannot be read" >&2
    exit 2
fi
work=$(mktemp -d)
trap 'rm -rf "$work"' EXIT

# Writes the model of the kept clauses as solvers print it, and notes the solver's status: 10 if there is a model, 20 if
# there is none, and any other if it does not know, was killed or refused the file.
solve() {
    found=0
    case $1 in
    cadical) cadical -q "$work/reduced" >"$work/model" || found=$? ;;
    picosat) picosat "$work/reduced" >"$work/model" || found=$? ;;
    minisat)
        # It writes the bare literals to a file, with a blank before the 0 if no variable occurs.
        minisat -verb=0 "$work/reduced" "$work/literals" >"$work/log" 2>&1 || found=$?
        if [ -e "$work/literals" ]; then
            sed -e 's/^SAT$/s SATISFIABLE/' -e 's/^ *\(-\{0,1\}[0-9]\)/v \1/' "$work/literals" >"$work/model"
        fi
        ;;
    esac
}

# Whether the literals of a `v` line satisfy each clause of a formula. Carriage returns are blanks, and what stands behind
# an end mark does not count.
satisfies() {
    awk '
        { gsub(/\r/, " ") }
        FNR == NR { for (i = 2; i <= NF; i++) is_true[$i] = 1; next }
        /^[ \t]*%/ { exit }
        NF == 0 || /^[ \t]*[cp]/ { next }
        {
            for (i = 1; i <= NF; i++) {
                if ($i + 0 == 0) { if (!holds) failed = 1; holds = 0; begun = 0 }
                else { begun = 1; if (($i + 0) in is_true) holds = 1 }
            }
        }
        END { exit failed || (begun && !holds) }
    ' "$1" "$2"
}

"$leank" reduce matching "$formula" >"$work/reduced"
echo "clauses, and kept clauses: $(awk '/^c formula/ { print $4 }' "$work/reduced"), $(awk '/^p / { print $4 }' "$work/reduced")"
"$leank" check "$formula" "$work/reduced"

solver=
for name in cadical minisat picosat; do
    if [ -z "$solver" ] && command -v "$name" >/dev/null; then
        solver=$name
    fi
done

if [ -n "$solver" ]; then
    echo "solver: $solver"
    solve "$solver"
    case $found in
    10) ;;
    20)
        echo "no model: the kept clauses have none, and so the formula has none"
        exit 20
        ;;
    *)
        echo "$solver ended with status $found, which says neither that there is a model nor that there is none" >&2
        exit 1
        ;;
    esac
elif [ $# -eq 0 ]; then
    echo "solver: none found, so the model is that of examples/ladder.model"
    cp "$here/ladder.model" "$work/model"
else
    echo "solver: none found" >&2
    exit 1
fi

"$leank" extend "$formula" "$work/reduced" "$work/model" >"$work/extended"
cat "$work/extended"
if satisfies "$work/extended" "$formula"; then
    echo "the literals satisfy each clause of the formula"
else
    echo "a clause is not satisfied" >&2
    exit 1
fi
