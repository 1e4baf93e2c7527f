#!/usr/bin/env bash
# Restarts the servers of projects without losing what lies on desks: the front lets its connections go, each server then
# parks what these held, and ends.
#
#     examples/restart.sh NAME..      the units annotate@NAME, behind the unit haproxy
#
# A server that is ended by a signal parks nothing, but one whose connections have ended has nothing left to park.
set -eu

# The connections at a port that are open, or that the client has ended and the server has not.
open_at() {
    awk -v port="$(printf '%04X' "$1")" '$2 ~ ":" port "$" && ($4 == "01" || $4 == "08")' /proc/net/tcp | wc -l
}

systemctl stop haproxy
trap 'systemctl start haproxy' EXIT
for name; do
    port="$(sed -n 's/^PORT=//p' "${SETTINGS:-/etc/annotation}/$name")"
    for _ in $(seq 300); do
        [ "$(open_at "$port")" = 0 ] && break
        sleep 0.1
    done
    if [ "$(open_at "$port")" != 0 ]; then
        echo "restart: somebody else is connected to port $port, so annotate@$name goes on as it is" >&2
        exit 1
    fi
    systemctl restart "annotate@$name"
done
