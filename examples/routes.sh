#!/usr/bin/env bash
# Runs each line of docs/http.md that asks a route by curl, over a project of its own, and compares what is answered with
# what stands behind the line. Then it ends the server by a signal, serves the file again, and compares what each route
# that reads answers with what it answered before.
#
#     examples/routes.sh [PROGRAM [PORT]]      annotate beside this folder and port 8080, where none are named
set -eu
top="$(cd "$(dirname "${BASH_SOURCE[0]}")/.." && pwd)"
annotate="$(readlink -f "${1:-$top/annotate}")"
port="${2:-8080}"
folder="$(mktemp -d)"
server=
trap '[ -z "$server" ] || kill "$server" 2>/dev/null || true; rm -rf "$folder"' EXIT
cd "$top"

"$annotate" found "$folder/news.book" examples/news.conf examples/roster.csv >/dev/null
serve() {
    "$annotate" serve "$folder/news.book" "$port" &
    server=$!
    for _ in $(seq 50); do
        curl -s -o /dev/null "http://127.0.0.1:$port/conf" && return
        sleep 0.1
    done
}

# What a curator reads on each route that changes nothing.
read_all() {
    for path in conf docs docs/rome/text docs/rome/layers/ann docs/rome/layers/bob agreement/pairs agreement/alpha \
        progress snapshots roster \
        snapshots/1/items snapshots/1/curated; do
        curl -s -w '\n%{http_code} %{url_effective}\n' -H 'Caller: cur' "http://127.0.0.1:$port/$path"
    done
}

serve

count=0
while IFS= read -r line; do
    asked="${line%%  # *}"
    printf '%b' "${line#*  # }" >"$folder/wanted"
    bash -c "${asked//127.0.0.1:8080/127.0.0.1:$port}" >"$folder/answered"
    # The first line of the configuration ends with a line feed, which the document leaves out.
    if [ "$(cat "$folder/answered")" != "$(cat "$folder/wanted")" ]; then
        printf 'routes: %s\nanswered\n%s\nand not\n%s\n' "$asked" "$(cat "$folder/answered")" "$(cat "$folder/wanted")" >&2
        exit 1
    fi
    count=$((count + 1))
done < <(sed -n '/^### Every route by/,$p' docs/http.md | sed -n 's/^    \(curl .*\)$/\1/p')
echo "$count lines, each answered as it stands"

read_all >"$folder/before"
kill "$server"
wait "$server" 2>/dev/null || true
serve
read_all >"$folder/after"
cmp "$folder/before" "$folder/after"
echo "$(grep -c '^200 ' "$folder/after") routes answer as before behind the file"
