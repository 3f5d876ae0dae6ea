#!/bin/sh
# Times the commands over large files: build/eperftool, which `make build` makes (EPERFTOOL names another program),
# beside the plain program of bench/plain, which this script builds, in one run. The lines are those of measure.py.
# `run.sh --quick` tries the script out, with a sixteenth of each input and one run of each program.
set -eu
cd "$(dirname "$0")/.."

program=${EPERFTOOL:-$PWD/build/eperftool} measure_py=$PWD/bench/measure.py plain=
[ -x "$program" ] || { echo "There is no build/eperftool: run 'make build' first." >&2; exit 1; }
command -v python3 > /dev/null || { echo "The times and the peaks of memory are taken by python3." >&2; exit 1; }
if command -v rustc > /dev/null; then
    mkdir -p build
    rustc --edition 2021 -O -o build/plain bench/plain/plain.rs
    plain=$PWD/build/plain
else
    echo "There is no rustc: the column of the plain program is left out."
fi

turns=5 share=1
case "${1:-}" in
    '') ;;
    --quick) turns=1 share=16 ;;
    *) echo "usage: bench/run.sh [--quick]" >&2; exit 2 ;;
esac

here=$(mktemp -d)
trap 'rm -rf "$here"' EXIT
cd "$here"

# measure INPUT COMMAND WORDS..: both programs. alone INPUT COMMAND WORDS..: eperftool, which alone has the command.
# floor INPUT: what `cat` takes for the same bytes.
measure() { given=$1; shift; python3 "$measure_py" "$turns" "$1" "$given" "$program" "$plain" "$@"; }
alone() { given=$1; shift; python3 "$measure_py" "$turns" "$1" "$given" "$program" '' "$@"; }
floor() { python3 "$measure_py" "$turns" cat "$1" cat ''; }

# decode INPUT: measured, and the decoded object is the one that was encoded.
decode() { measure "$1" decode; cmp object made; }

# object BYTES: a file of so many random bytes, or of its share.
object() { head -c "$(($1 / share))" /dev/urandom > object; }

# encode WORDS..: the object's packet file.
encode() { "$program" encode "$@" < object > packets 2> told; }

# lose WORDS..: the file `some` has the packets that aren't lost.
lose() { "$program" lose "$@" < packets > some 2> told; }

echo 'job          proved    plain  ratio  elapsed   memory  plain'
echo '                  s        s                s      MiB    MiB'

echo '64 MiB, the defaults'
object 67108864
encode
floor object
measure object encode
floor packets
decode packets
echo '  its packet file of 96 MiB'
alone packets lose --loss=even:200
alone packets show
alone packets upgrade
echo '  a fifth of the packets lost'
lose --loss=even:200 --seed=2
decode some

# framed COUNT MOST: `frame` and `unframe` of a stream of so many datagrams of 0 to MOST bytes, or of its share. The
# stream comes back.
framed() {
    python3 - "$(($1 / share))" "$2" > stream <<'PYTHON'
import random, sys

chance, count, most = random.Random(1), int(sys.argv[1]), int(sys.argv[2])
for _ in range(count):
    length = chance.randint(0, most)
    sys.stdout.buffer.write(b"\7" + length.to_bytes(2, "big") + chance.randbytes(length))
PYTHON
    "$program" frame --symbol=$(($2 + 3)) < stream > frames 2> told
    alone stream frame --symbol=$(($2 + 3))
    alone frames unframe --symbol=$(($2 + 3))
    cmp stream made
}

echo 'datagrams: 64 MiB of frames of 1,024 bytes, of datagrams of 0 to 1,021 bytes'
framed 65536 1021
echo '  64 MiB of frames of 64 bytes, of datagrams of 0 to 61 bytes'
framed 1048576 61

echo '16 MiB, --symbol=16 --block=10000'
object 16777216
encode --symbol=16 --block=10000
floor object
measure object encode --symbol=16 --block=10000
decode packets

echo '40 MiB, --symbol=16 --block=10000 --max-n=15000'
object 41943040
encode --symbol=16 --block=10000 --max-n=15000
floor object
measure object encode --symbol=16 --block=10000 --max-n=15000
echo '  a fifth of the packets lost'
lose --loss=even:200
floor some
decode some

echo 'one block of 5,000 source symbols of 1,024 bytes, --max-n=7500'
object 5120000
encode --symbol=1024 --block=5000 --max-n=7500
echo '  all packets, so that peeling alone gives it'
decode packets
echo '  31 % of the packets lost, so that elimination gives it'
lose --loss=even:310
decode some

echo 'one block of 20,000 source symbols of 64 bytes, --max-n=30000, 31 % of the packets lost'
object 1280000
encode --symbol=64 --block=20000 --max-n=30000
lose --loss=even:310
decode some

echo 'the first null word: one block of k source symbols of one byte, 1.5 k in all, the first k / 2 packets lost'
for k in 5000 10000 20000 40000; do
    object "$k"
    encode --symbol=1 --block="$k" --max-n=$((k * 3 / 2))
    lose --loss=first:$((k / share / 2))
    echo "  k = $k"
    measure some decode
done

# mix within|across: the packets in a mixed order within each block, or across all of them.
mix() {
    python3 - "$1" <<'PYTHON'
import random, sys

with open("packets", "rb") as file:
    head, data = file.read(26), file.read()
packets = [data[at : at + 20] for at in range(0, len(data), 20)]
random.Random(1).shuffle(packets)
if sys.argv[1] == "within":
    packets.sort(key=lambda packet: int.from_bytes(packet[:2], "big") >> 4)
with open("some", "wb") as file:
    file.write(head + b"".join(packets))
PYTHON
}
echo '100 blocks of 20,000 source symbols of 16 bytes, --max-n=30000, all packets in a mixed order'
object 32000000
encode --symbol=16 --block=20000 --max-n=30000
echo '  block after block'
mix within
decode some
echo '  across all blocks'
mix across
decode some

echo 'perf: runs of a decoder on a code of 20,000 source symbols, --n=30000'
: > nothing
echo '  a hundred runs, symbols of 16 bytes'
measure nothing perf --k=20000 --n=30000 --symbol=16 --runs=$((100 / share))
echo '  five runs, symbols of 1,024 bytes'
measure nothing perf --k=20000 --n=30000 --symbol=1024 --runs=$((5 / share + (share > 1)))
