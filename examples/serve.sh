#!/usr/bin/env bash
# Founds a project, serves it at a port of this machine, works on it with curl, ends the server by a signal, and compares
# what the file has with what was answered.
#
#     examples/serve.sh [PROGRAM [PORT]]      annotate beside this folder and port 8080, where none are named
set -eu
here="$(cd "$(dirname "${BASH_SOURCE[0]}")" && pwd)"
annotate="$(readlink -f "${1:-$here/../annotate}")"
port="${2:-8080}"
folder="$(mktemp -d)"
server=
trap '[ -z "$server" ] || kill "$server" 2>/dev/null || true; rm -rf "$folder"' EXIT
cd "$folder"
at="http://127.0.0.1:$port"

"$annotate" found news.book "$here/news.conf" "$here/roster.csv"
"$annotate" serve news.book "$port" &
server=$!
for _ in $(seq 50); do
    curl -s -o /dev/null "$at/conf" && break
    sleep 0.1
done

curl -s -H 'Caller: cur' -X PUT --data-binary @"$here/news.txt" "$at/docs/rome/text"
echo
# A desk belongs to its connection, so what is done on it stands in one call.
curl -s -H 'Caller: ann' -X POST "$at/docs/rome/checkout" \
    --next -s -H 'Caller: ann' -d '{"at":"0 3","do":"add-span","type":"Person"}' "$at/desk/do" \
    --next -s -H 'Caller: ann' -d '{"at":"8 11","do":"add-span","type":"Person"}' "$at/desk/do" \
    --next -s -H 'Caller: ann' -X POST "$at/desk/commit" \
    --next -s -H 'Caller: ann' -X POST "$at/desk/park"
echo
curl -s -H 'Caller: cur' "$at/docs/rome/layers/ann" >answered
kill "$server"
wait "$server" 2>/dev/null || true
server=
"$annotate" export news.book ann rome >kept
cmp answered kept
cat kept
echo "what was answered was kept"
