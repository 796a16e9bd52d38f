#!/usr/bin/env bash
# Serves examples/pay on a free port of this machine, and lets each client ask it whose tools are installed.
set -eu
here=$(cd "$(dirname "$0")" && pwd)
pay=$here/../pay
cube=${CUBE:-$here/../../cube}
work=$(mktemp -d)
server=
trap 'kill $server 2> /dev/null || true; wait; rm -rf "$work"' EXIT
"$cube" --version > /dev/null
"$cube" serve --dims "$pay/dims.toml" --facts "$pay/facts.csv" --policy "$pay/policy.toml" \
    --journal "$work/journal" --address 127.0.0.1:0 2> "$work/notes" &
server=$!
until grep -qs '^listening on ' "$work/notes"; do
    kill -0 "$server" 2> /dev/null || { cat "$work/notes" >&2; exit 1; }
    sleep 0.1
done
SERVER=http://$(sed -n 's/^listening on //p' "$work/notes")
export SERVER

# Runs a client where a command succeeds that says whether its tools are there.
try() {
    local tools=$1
    shift
    echo "== ${1#"$here/"}"
    if bash -c "$tools" > /dev/null 2>&1; then
        "$@"
    else
        echo "not run, since this fails: $tools"
    fi
}

try 'python3 -c "import pandas"' "$here/answer.py"
try 'command -v Rscript' "$here/answer.R"
try 'command -v ssconvert' "$here/sheet.sh" "$work/sums.xlsx"
try 'command -v jq' "$here/shape.sh"
try 'command -v curl' "$here/report.sh" Jan "$work/report"
head -n 100 "$work"/report/*.csv
