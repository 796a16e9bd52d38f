#!/usr/bin/env bash
# Serves examples/pay behind a page, on free ports of this machine alone, until Control-C: the cube, and nginx before
# it. `run.sh groups` serves the groups of examples/groups, each with a page of its own at /g/NAME/, and `run.sh ./FOLDER`
# the files dims.toml, facts.csv and policy.toml of another folder. The journal is kept where JOURNAL says, and else is
# gone with the end. SECONDS_AT_MOST bounds the time.
set -eu
here=$(cd "$(dirname "$0")" && pwd)
files=$here/../pay
cube=$(readlink -f "${CUBE:-$here/../../cube}")
command -v nginx > /dev/null || { echo "page: nginx is not installed" >&2; exit 1; }
work=$(mktemp -d)
chmod 755 "$work"
started=()
trap 'kill "${started[@]}" 2> /dev/null || true; wait; rm -rf "$work"' EXIT
trap 'exit 0' INT TERM

# The first port from 8000 on that nobody listens on.
free_port() {
    local port=8000
    while (exec 3<> "/dev/tcp/127.0.0.1/$port") 2> /dev/null; do
        port=$((port + 1))
    done
    echo "$port"
}

# Waits until a command succeeds, as long as the program with the id runs.
wait_for() {
    local id=$1
    shift
    until "$@" > /dev/null 2>&1; do
        kill -0 "$id" 2> /dev/null || { cat "$work/notes" >&2; exit 1; }
        sleep 0.1
    done
}

"$cube" --version > /dev/null
case ${1:-} in */*) files=$(readlink -f "$1") ;; esac
rules=(--policy "$files/policy.toml")
if [ "${1:-}" = groups ]; then
    # The groups file names its policies from the top of the repository.
    cd "$here/../.."
    rules=(--groups examples/groups/groups.toml)
fi
"$cube" serve --dims "$files/dims.toml" --facts "$files/facts.csv" "${rules[@]}" \
    --journal "${JOURNAL:-$work/journal}" --address 127.0.0.1:0 2> "$work/notes" &
started+=($!)
wait_for $! grep -q '^listening on ' "$work/notes"
address=$(sed -n 's/^listening on //p' "$work/notes")

port=$(free_port)
ln -s "$here/html" "$work/html"
sed -e "s/127\.0\.0\.1:8000/127.0.0.1:$port/" -e "s/127\.0\.0\.1:8080/$address/" "$here/nginx.conf" > "$work/nginx.conf"
nginx -p "$work" -c "$work/nginx.conf" 2>> "$work/notes" &
started+=($!)
wait_for $! bash -c "exec 3<> /dev/tcp/127.0.0.1/$port"
if [ "${1:-}" = groups ]; then
    sed -n "s|^name = \"\(.*\)\"|http://localhost:$port/g/\1/|p" examples/groups/groups.toml
else
    echo "http://localhost:$port/"
fi
sleep "${SECONDS_AT_MOST:-infinity}" &
started+=($!)
wait -n || { cat "$work/notes" >&2; exit 1; }
