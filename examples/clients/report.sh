#!/usr/bin/env bash
# report.sh MONTH FOLDER: asks the queries of `report` for a month, and writes NAME.csv for each that is answered.
set -eu
here=$(cd "$(dirname "$0")" && pwd)
server=${SERVER:-http://127.0.0.1:8080}
month=$1 folder=$2
mkdir -p "$folder"
while read -r name query; do
    reply=$folder/$name.reply
    status=$(curl -sS -o "$reply" -w '%{http_code}' --data-urlencode "q=${query//MONTH/$month}" "$server/v1/query")
    if [ "$status" -eq 200 ]; then
        mv "$reply" "$folder/$name.csv"
    else
        echo "$name: $status $(cat "$reply")"
        rm "$reply"
    fi
done < "$here/report"
