#!/bin/sh
# Says whether a formula has a model, and checks the answer.
#
#     examples/answer.sh [FORMULA]
#
# FORMULA is a file and no pipe, by default examples/square.cnf. The status is 10 with a model, 20 if there is none, 5 if
# the budget is used up, and 2 for wrong words, or if FORMULA cannot be read or is no formula. If `leank solve` fails
# otherwise, or `leank verify` does not accept the answer, the status is theirs.
set -eu

# Prints the head of this script.
usage() {
    sed -n -e '/^#!/d' -e '/^#/!q' -e 's/^# \{0,1\}//p' "$0"
}

case ${1-} in
--help) usage; exit 0 ;;
--*) usage >&2; exit 2 ;;
esac
[ $# -le 1 ] || { usage >&2; exit 2; }
here=$(CDPATH='' cd -- "$(dirname -- "$(readlink -f -- "$0")")" && pwd)
leank=$here/../bin/leank
formula=${1:-$here/square.cnf}
if [ ! -r "$formula" ] || [ -d "$formula" ]; then
    echo "answer.sh: $formula cannot be read" >&2
    exit 2
fi
answer=$(mktemp)
trap 'rm -f "$answer"' EXIT

status=0
"$leank" solve "$formula" >"$answer" || status=$?
case $status in
10 | 20)
    head -n 1 "$answer"
    "$leank" verify "$formula" "$answer"
    ;;
5)
    "$leank" check "$formula" "$answer" || true
    ;;
esac
exit $status
