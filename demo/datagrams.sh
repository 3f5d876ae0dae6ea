#!/bin/sh
# A sender and receivers on one machine: a file, and then two streams of datagrams of many lengths, go in datagrams over
# a link that loses some in runs, and are rebuilt; then a file goes to two receivers (multicast.sh).
# It runs build/eperftool (EPERFTOOL names another program), and wants python3.
set -eu
cd "$(dirname "$0")/.."
program=${EPERFTOOL:-$PWD/build/eperftool}
[ -x "$program" ] || { echo "There is no $program: 'make build' makes it." >&2; exit 1; }
port=${PORT:-9123}
here=$(mktemp -d)
trap 'rm -rf "$here"' EXIT

# link SYMBOL: what stands on standard input goes over the link, and what is rebuilt of it is written. What comes is
# decoded as it comes, and no more is read once all is known. `lose` loses packets in runs.
link() {
    { timeout 60 python3 demo/datagrams.py receive "$port" 2 | "$program" decode --early=yes > "$here/object"; } &
    sleep 1
    "$program" encode --symbol="$1" --block=200 |
        "$program" lose --loss=burst:20:100 |
        python3 demo/datagrams.py send "${to:-127.0.0.1}" "$port" 20
    wait
    cat "$here/object"
}

# framed COUNT MOST: so many datagrams of 0 to MOST bytes go over the link, in frames of MOST + 3 bytes, and come one by
# one as they were.
framed() {
    python3 demo/datagrams.py stream "$1" "$2" > "$here/stream"
    "$program" frame --symbol=$(($2 + 3)) < "$here/stream" |
        link $(($2 + 3)) |
        "$program" unframe --symbol=$(($2 + 3)) > "$here/again"
    python3 demo/datagrams.py same "$here/stream" "$here/again"
}

seq 1 20000 > "$here/numbers"
link 256 < "$here/numbers" > "$here/again"
cmp "$here/numbers" "$here/again"
echo "The file came through."

framed 1000 253
framed 400 1397

if command -v ip > /dev/null && unshare --map-root-user --net --mount true 2> "$here/why"; then
    EPERFTOOL=$program unshare --map-root-user --net --mount sh demo/multicast.sh
else
    echo "No 'ip' (iproute2), or no namespace may be made ($(cat "$here/why")): multicast isn't tried."
    to=127.255.255.255
    link 256 < "$here/numbers" > "$here/again"
    cmp "$here/numbers" "$here/again"
    echo "The file came through by broadcast."
fi
