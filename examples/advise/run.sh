#!/usr/bin/env bash
# Chooses a policy for examples/pay by trying three of them on the queries of a yearly report: what each leaves to be
# released, and which line of the report would be answered. Then the report is asked under the policy that serves, and
# what is left behind it is told from its journal. All is seen to be as it is written here.
set -eu
here=$(cd "$(dirname "$0")" && pwd)
pay=$here/../pay
cube=${CUBE:-$here/../../cube}
work=$(mktemp -d)
trap 'rm -rf "$work"' EXIT

# Runs a command over the cube under one of the policies.
run() {
    local command=$1 policy=$2
    shift 2
    "$cube" "$command" --dims "$pay/dims.toml" --facts "$pay/facts.csv" --policy "$here/$policy.toml" "$@" \
        2> "$work/notes" || { cat "$work/notes" >&2; return 1; }
}

# Prints a text, which has to be that of the standard input.
expect() {
    cat > "$work/expected"
    cmp "$work/told" "$work/expected" || { diff "$work/expected" "$work/told" >&2; exit 1; }
    cat "$work/told"
}

echo "== the report"
cat -n "$here/report"

echo "== a policy that leaves nothing"
run advise nothing --workload "$here/report" > "$work/told"
expect << 'TOLD'
measure pay
none
1 source
2 source
3 source
4 source
5 source
6 answer
7 answer
8 pair
9 answer
TOLD

echo "== a policy that leaves too little"
run advise little --workload "$here/report" > "$work/told"
expect << 'TOLD'
measure pay
safe (all)
1 answer
2 source
3 source
4 source
5 source
6 answer
7 answer
8 pair
9 answer
TOLD

echo "== a policy that serves"
run advise serves --workload "$here/report" > "$work/told"
expect << 'TOLD'
measure pay
safe (region.branch, time.quarter, grade.grade)
safe (time.month, grade.grade)
1 answer
2 answer
3 answer
4 answer
5 source
6 answer
7 answer
8 pair
9 answer
TOLD

echo "== behind the report"
run ask serves --journal "$work/journal" < "$here/report" > "$work/replies"
before=$(cksum < "$work/journal")
run advise serves --journal "$work/journal" > "$work/told"
expect << 'TOLD'
measure pay
source (region.branch, time.quarter, grade.grade)
safe (region.branch, time.quarter, grade.grade)
links hours 164 of 207
room 16378
TOLD
[ "$(cksum < "$work/journal")" = "$before" ] || { echo "advise: the journal is another" >&2; exit 1; }
