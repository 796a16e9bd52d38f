#!/usr/bin/env bash
# An answer as the sheet sums.xlsx, or the file that is named.
set -eu -o pipefail
server=${SERVER:-http://127.0.0.1:8080}
query='slice pay by region.area where time.month=Jan'
curl -sS --fail-with-body --get --data-urlencode "q=$query" "$server/v1/query" |
    ssconvert --import-type=Gnumeric_stf:stf_csvtab fd://0 "${1:-sums.xlsx}"
