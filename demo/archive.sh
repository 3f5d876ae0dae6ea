#!/bin/sh
# Protects a file, hurts runs of its sectors and some of what protects it, and restores it; then more is hurt than can
# be restored. It runs build/eperftool (EPERFTOOL names another program), and wants python3. MIB is the file's length.
set -eu
cd "$(dirname "$0")/.."
EPERFTOOL=${EPERFTOOL:-$PWD/build/eperftool}
export EPERFTOOL
[ -x "$EPERFTOOL" ] || { echo "There is no $EPERFTOOL: 'make build' makes it." >&2; exit 1; }
archive=$PWD/demo/archive.py
here=$(mktemp -d)
trap 'rm -rf "$here"' EXIT
cd "$here"

# hurt FILE AT COUNT: so many bytes from there on are others.
hurt() { head -c "$3" /dev/urandom | dd of="$1" bs=1M oflag=seek_bytes seek="$2" conv=notrunc status=none; }

mib=${MIB:-20}
head -c $((mib * 1048576 + 1234)) /dev/urandom > disk
cp disk was
python3 "$archive" protect disk
stat -c '    %n %s' disk disk.parity disk.sums
python3 "$archive" restore disk
cmp was disk.restored

# One byte, 2 % of the sectors in runs of sixteen, the end; a packet of the parity file and a line of the digests.
hurt disk 5000 1
run=0
while [ $run -lt $((mib * 256 / 50 / 16)) ]; do
    run=$((run + 1))
    hurt disk $((run * 3145728)) 65536
done
truncate -s $((mib * 1048576 - 10000)) disk
hurt disk.parity 10000 1
hurt disk.sums 20000 1
cp disk hurt
python3 "$archive" restore disk
cmp was disk.restored
cmp disk hurt
echo "The file is restored, byte for byte, beside the one that was hurt."

rm disk.restored
hurt disk 0 $((mib * 1048576 / 9))
status=0
python3 "$archive" restore disk 2> told || status=$?
[ $status -eq 8 ] && [ ! -e disk.restored ] && [ ! -e disk.restored.part ]
echo "Where more is hurt than the repair packets give, the status is 8, and nothing is written."
