#!/usr/bin/env bash
# The levels of each dimension with their members, and the measures.
set -eu -o pipefail
server=${SERVER:-http://127.0.0.1:8080}
curl -sS --fail "$server/v1/shape" | jq -r '
    def once: reduce .[] as $name ([]; . + ([$name] - .));
    (.dimensions[] | .name as $name | .paths as $paths | .levels | to_entries[]
        | .key as $at | "\($name).\(.value): \([$paths[][$at]] | once | join(" "))"),
    (.measures[] | "\(.name): \(.method), \(.decimals) decimals")'
