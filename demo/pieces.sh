#!/bin/bash
# An object of any length in pieces, several at a time, on this machine or on others.
#
#     pieces.sh encode FILE FOLDER [--name=value ..]    each piece's packet file, FOLDER/0001.packets .. and a manifest
#     pieces.sh decode FOLDER FILE [--name=value ..]    the object again, once each piece is whole and is the one it was
#
# A line of FOLDER/manifest is a piece: its number, where it begins, its length, its sha256sum and its words. Reports
# stand beside the packets, and those of a decode in FILE.pieces, beside what is whole of the object. The same words
# again go on where an earlier run ended: what is done stays. FILE is bound at the end of a decode alone. The status is
# 0 where all pieces are done; else it is 1, and the others are named.
#
# GNU parallel runs the pieces. JOBS is how many at a time (one for each processor); HOSTS names machines (h1,4/h2, its
# -S) that ssh reaches without asking, with this script, the program, FOLDER and FILE by the same paths. PIECE is the
# length of a piece in MiB (256, the most that an object may have), EPERFTOOL the program.
set -u -o pipefail
me=$(realpath "$0") program=${EPERFTOOL:-eperftool} bytes=$((${PIECE:-256} * 1048576))

# stop WHY: ends a run, or a piece.
stop() { echo "pieces.sh: $1" >&2; exit 1; }

# part FILE AT LENGTH: so many bytes of a file from there on.
part() { dd if="$1" bs=1M iflag=skip_bytes,count_bytes skip="$2" count="$3" status=none; }

# digest_of FILE AT LENGTH
digest_of() { part "$@" | sha256sum | cut -d' ' -f1; }

# encode_piece NUMBER FILE FOLDER [WORD..]
encode_piece() {
    local at=$((bytes * ($1 - 1))) name length digest line file=$2 folder=$3
    name=$(printf %04d "$1")
    length=$(($(stat -L -c %s "$file") - at))
    length=$((length < bytes ? length : bytes))
    digest=$(digest_of "$file" $at $length) || stop "piece $name can't be read"
    shift 3
    line="$name $at $length $digest${*:+ $*}"
    cd "$folder" || exit
    [ -e "$name.packets" ] && grep -qsxFe "$line" "$name.report" && return
    part "$file" $at $length | "$program" encode "$@" > "$name.part.$$" 2> "$name.report" ||
        stop "piece $name ended with status $?: see $folder/$name.report"
    mv "$name.part.$$" "$name.packets" && echo "$line" >> "$name.report"
}

# decode_piece NUMBER FOLDER FILE [WORD..]: the piece is written at its place in FILE.pieces/object.
decode_piece() {
    local name at length digest packets state=$3.pieces
    read -r name at length digest _ < <(sed -n "$1p" "$state/manifest")
    packets=$2/$name.packets
    [ -e "$state/$name.whole" ] && return
    shift 3
    [ "$("$program" show < "$packets" 2> /dev/null | sed -n 's/.* length \([0-9]*\) .*/\1/p; q')" = "$length" ] ||
        stop "piece $name: $packets is no packet file of $length bytes"
    { dd oflag=seek_bytes seek="$at" count=0 conv=notrunc status=none && "$program" decode "$@" < "$packets"; } \
        1<> "$state/object" 2> "$state/$name.report" < /dev/null ||
        stop "piece $name ended with status $?: see $state/$name.report"
    [ "$(digest_of "$state/object" "$at" "$length")" = "$digest" ] || stop "piece $name isn't the one that was encoded"
    : > "$state/$name.whole"
}

# each COUNT JOB FROM TO [WORD..]: all pieces, by this script. %q makes any name one word of a shell.
each() {
    local count=$1 job=$2 call
    shift 2
    call=$(printf '%q ' env "EPERFTOOL=$program" "PIECE=$((bytes / 1048576))" bash "$me" "$job")
    seq 1 "$count" | parallel -j "${JOBS:-100%}" ${HOSTS:+-S "$HOSTS"} "$call{} $(printf '%q ' "$@")"
}

[ $# -ge 3 ] || { sed -n '/^set/q; 2,$s/^# \{0,1\}//p' "$me" >&2; exit 2; }
job=$1 from=$2 to=$3
export PARALLEL_SHELL=/bin/bash
case $job in
encode-piece) shift; encode_piece "$@"; exit ;;
decode-piece) shift; decode_piece "$@"; exit ;;
esac
shift 3
case $program in */*) program=$(realpath "$program") ;; esac
from=$(realpath -- "$from") to=$(realpath -- "$to")
case $job in
encode)
    [ -f "$from" ] || stop "$from is no file"
    mkdir -p "$to" || exit 1
    count=$((($(stat -L -c %s "$from") + bytes - 1) / bytes))
    each $count encode-piece "$from" "$to" "$@" || stop "some pieces aren't done"
    cd "$to" || exit 1
    rm -f ./*.part.*
    seq -f %04.0f.report 1 $count | xargs -r tail -qn1 > manifest.part && mv manifest.part manifest
    ;;
decode)
    state=$to.pieces
    [ -f "$from/manifest" ] || stop "there is no $from/manifest"
    if ! cmp -s "$from/manifest" "$state/manifest" || ! [ -f "$state/object" ]; then
        rm -rf "$state"
        mkdir "$state" || exit 1
        truncate -s "$(awk '{ all += $3 } END { printf "%.0f", all }' "$from/manifest")" "$state/object" || exit 1
        cp "$from/manifest" "$state/manifest" || exit 1
    fi
    each "$(wc -l < "$state/manifest")" decode-piece "$from" "$to" "$@" || stop "some pieces aren't whole"
    mv "$state/object" "$to" && rm -r "$state"
    ;;
*) stop "no such job: $job" ;;
esac
