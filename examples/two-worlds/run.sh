#!/usr/bin/env bash
# Two worlds: asks the cube of examples/pay the queries of this folder, has the program write another cube with the same
# replies, asks that cube the same, and compares. Then it adds up a protected cell in both: the sums differ by one.
# The cell may be given: ./run.sh 'cell pay region.branch=Nice, time.month=Feb, grade.grade=junior'
set -eu
here=$(cd "$(dirname "$0")" && pwd)
pay=$here/../pay
cube=${CUBE:-$here/../../cube}
cell=${1:-cell pay region.branch=Lyon, time.month=Jan, grade.grade=lead}
work=$(mktemp -d)
trap 'rm -rf "$work"' EXIT

# what the program is told of a cube: its facts, its policy, its journal
files() {
    printf '%s\n' --dims "$pay/dims.toml" --facts "$1" --policy "$2" --journal "$work/$3"
}

run() {
    local command=$1
    shift
    local options
    mapfile -t options < <(files "$1" "$2" "$3")
    shift 3
    "$cube" "$command" "${options[@]}" "$@" 2> "$work/notes" || { cat "$work/notes" >&2; return 1; }
}

run ask "$pay/facts.csv" "$pay/policy.toml" journal < "$here/queries" > "$work/replies"
echo "the changes that hide \`$cell\` behind $(grep -c . "$here/queries") asks:"
run witness "$pay/facts.csv" "$pay/policy.toml" journal --cell "$cell"
run twin "$pay/facts.csv" "$pay/policy.toml" journal --cell "$cell" > "$work/facts.csv"
run ask "$work/facts.csv" "$pay/policy.toml" other-journal < "$here/queries" > "$work/other-replies"

cmp "$work/replies" "$work/other-replies"
echo "both cubes give the same replies, byte for byte: $(wc -c < "$work/replies") bytes"
echo "the cell in the first cube, and in the other:"
echo "$cell" | run ask "$pay/facts.csv" "$here/open.toml" open-journal | tail -n 1
echo "$cell" | run ask "$work/facts.csv" "$here/open.toml" other-open-journal | tail -n 1
