#!/bin/sh
# One sender and two receivers, each in a network namespace of its own, and between them a link that loses one datagram
# in twenty on the way to each, in runs of ten. The words are README's, as they stand there; then the same by broadcast.
#
#     unshare --map-root-user --net --mount sh demo/multicast.sh
#
# It runs build/eperftool (EPERFTOOL names another program), and wants python3 and iproute2. BYTES is the length of the
# object. What it sets up ends with it.
set -eu
cd "$(dirname "$0")/.."
top=$PWD program=${EPERFTOOL:-$PWD/build/eperftool} bytes=${BYTES:-20000000}

mount -t tmpfs none /run # where the names of namespaces stand
here=$(mktemp -d)
trap 'kill "$link" 2> /dev/null || true; rm -rf "$here"' EXIT
link=
number=0
for name in sender one two; do
    number=$((number + 1))
    ip netns add $name
    ip link add $name type veth peer name wire netns $name
    ip link set $name up
    ip -n $name link set wire up
    ip -n $name addr add 10.9.0.$number/24 brd + dev wire
    ip -n $name route add default dev wire
    mkdir "$here/$name"
    ln -s "$top/demo" "$here/$name/demo"
    ln -s "$program" "$here/$name/eperftool"
done
python3 demo/link.py 5 100 sender one two &
link=$!

# at NAME LINE: a line of shell, run in the namespace and the folder of that name.
at() { (cd "$here/$1" && PATH=$here/$1:$PATH exec timeout 600 ip netns exec "$1" bash -o pipefail -c "$2"); }

# readme WORD: the line of README that sends or receives by multicast.
readme() { sed -n "/^    .*datagrams.py $1 239/s/^ *//p" README.md; }

# over EDIT: the object goes from the sender to both receivers by README's lines, edited by sed.
over() {
    for name in one two; do
        at $name "$(readme receive | sed "$1")" 2> "$here/$name/told" &
        eval "$name=\$!"
    done
    sleep 1
    at sender "$(readme send | sed "$1")"
    for name in one two; do
        eval "wait \$$name" || { cat "$here/$name/told" >&2; exit 1; }
        cmp "$here/sender/file" "$here/$name/object"
        echo "    $name: $(grep came "$here/$name/told"), $(grep -c peeled "$here/$name/told") blocks peeled"
        rm "$here/$name/object"
    done
}

head -c "$bytes" /dev/urandom > "$here/sender/file"
over ''
echo "The file came to both receivers by multicast."
over 's/239[.0-9]*:// ; s/239[.0-9]*/10.9.0.255/'
echo "The file came to both receivers by broadcast."
