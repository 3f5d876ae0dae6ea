#!/bin/sh
# Shows the main job on a real file, once for each codec: encode it, lose some packets, decode it from
# the others, and compare. Then too many are lost. It runs build/eperftool where `make build` has made
# it (EPERFTOOL names another program), and else the sources unproved, which are built three times for it.
set -eu
cd "$(dirname "$0")/.."

symbol=256
block=200
width=20
packet=$((4 + symbol))
codecs='staircase triangle 2d'

program=${EPERFTOOL:-$PWD/build/eperftool}
here=$(mktemp -d)
trap 'rm -rf "$here"' EXIT
mkdir "$here/encode" "$here/lose" "$here/decode" "$here/out"

if [ -x "$program" ]; then
    echo "Program: $program"
elif command -v rt > /dev/null; then
    program=
    echo "Program: UNPROVED. No build/eperftool is there, so 'rt try' builds the sources without a proof, once"
    echo "         for each command, in some three minutes. 'make build' proves and builds the program."
else
    echo "There is neither build/eperftool nor 'rt' on the PATH: see README.md." >&2
    exit 1
fi

# Bytes of a file, from an offset on.
bytes() { tail -c "+$(($2 + 1))" "$1" | head -c "$3"; }

# The bytes of standard input in hexadecimal.
hex() { od -An -v -tx1 | tr -d '\n' | sed 's/^ //'; }

# The number behind a word at the end of a line of a report.
number() { sed -n "s/^\(.* \)*$2 \([0-9]*\)$/\2/p" "$1"; }

# stop WHY: ends the demo.
stop() {
    echo "$1" >&2
    exit 1
}

# run_cases COMMAND: runs the command on each file NAME in the folder of its name, with the words in
# NAME.args. Leaves what came out as NAME, NAME.report and NAME.status in the folder out.
run_cases() {
    if [ -n "$program" ]; then
        for words in "$here/$1"/*.args; do
            name=$(basename "$words" .args)
            status=0
            # shellcheck disable=SC2046
            "$program" "$1" $(cat "$words") < "$here/$1/$name" > "$here/out/$name" 2> "$here/out/$name.report" || status=$?
            echo "$status" > "$here/out/$name.status"
        done
        return
    fi
    (cd crates/eperftool && rt try --cases "$here/$1" -- "$1") > "$here/outputs" 2> "$here/reports" || true
    # Each report ends with a line `case=NAME run=ended status=S ..`.
    awk -v out="$here/out/" '
        /^case=/ {
            name = substr($1, 6)
            status = $3
            sub("status=", "", status)
            printf "%s", report > (out name ".report")
            print status > (out name ".status")
            report = ""
            next
        }
        { report = report $0 "\n" }' "$here/reports"
    # Each output stands behind a line `== NAME`.
    for words in "$here/$1"/*.args; do
        name=$(basename "$words" .args)
        [ -f "$here/out/$name.status" ] || { cat "$here/reports" >&2; stop "'rt try' gave no answer."; }
        start=$(grep -a -b -x "== $name" "$here/outputs" | cut -d : -f 1)
        size=$(output_size "$1" "$name")
        bytes "$here/outputs" $((start + ${#name} + 4)) "$size" > "$here/out/$name"
    done
}

# output_size COMMAND NAME: how many bytes came out, by the status and the report.
output_size() {
    if [ "$(cat "$here/out/$2.status")" -ne 0 ]; then
        echo 0
    elif [ "$1" = encode ]; then
        echo $((26 + $(number "$here/out/$2.report" packets) * packet))
    elif [ "$1" = lose ]; then
        echo $((26 + $(number "$here/out/$2.report" kept) * packet))
    else
        echo "$length"
    fi
}

# show STATUS NAME: how the run ended, which must be with the status, and its report on one line.
show() {
    report=$(tr '\n' ',' < "$here/out/$2.report" | sed 's/,$//; s/,/, /g')
    [ "$(cat "$here/out/$2.status")" -eq "$1" ] || stop "The run ended with status $(cat "$here/out/$2.status"), and not with $1: $report"
    echo "    status $1: $report"
}

# given COMMAND FILE NAME [WORD..]: the case NAME of a command, with a file and words.
given() {
    cp "$2" "$here/$1/$3"
    words=$here/$1/$3.args
    shift 3
    [ $# -eq 0 ] || printf '%s\n' "$@" > "$words"
    [ $# -ne 0 ] || : > "$words"
}

# Which symbols peeling reaches goes by the sizes of the blocks and not by the bytes, so the length is fixed.
length=200000
cat README.md docs/*.md crates/*/specs/*.antt | head -c $length > "$here/object"
echo
echo "The file: the first $length bytes of README.md, the pages of docs/ and the definitions."

for codec in $codecs; do
    given encode "$here/object" "$codec" --codec="$codec" --symbol=$symbol --block=$block
done
echo "--width=$width" >> "$here/encode/2d.args"
run_cases encode
for codec in $codecs; do
    case $codec in
    2d) given lose "$here/out/$codec" "$codec-some" --loss=first:$width ;;
    *) given lose "$here/out/$codec" "$codec-some" --loss=even:125 ;;
    esac
    given lose "$here/out/$codec" "$codec-few" --loss=first:120
done
run_cases lose
for name in $codecs; do
    given decode "$here/out/$name-some" "$name-back"
    given decode "$here/out/$name-few" "$name-nothing"
done
run_cases decode

for codec in $codecs; do
    echo
    echo "\$ eperftool encode $(tr '\n' ' ' < "$here/encode/$codec.args")< file > $codec"
    show 0 "$codec"
    echo "    header $(head -c 26 "$here/out/$codec" | hex)"
    echo "\$ eperftool lose $(cat "$here/lose/$codec-some.args") < $codec > some"
    show 0 "$codec-some"
    echo "\$ eperftool decode < some > again"
    show 0 "$codec-back"
    cmp "$here/object" "$here/out/$codec-back"
    echo "    The output is the file, byte for byte (cmp)."
    echo "\$ eperftool lose $(cat "$here/lose/$codec-few.args") < $codec > few"
    show 0 "$codec-few"
    echo "\$ eperftool decode < few > nothing"
    show 8 "$codec-nothing"
    cmp /dev/null "$here/out/$codec-nothing"
    echo "    The first block has fewer packets left than it has source symbols. The output is empty."
done
