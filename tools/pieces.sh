#!/bin/bash
# Tries demo/pieces.sh: names with quotes, a piece that stays open, runs that were broken off, wrong pieces, other
# machines (by a stand-in for ssh that stays on this one), an object without bytes. Then it takes the times of one and of
# four processes over a file of MIB (1024) MiB, of which each piece is a quarter. `pieces.sh --quick` leaves them out.
# It runs build/eperftool (EPERFTOOL names another program), and wants GNU parallel.
set -eu -o pipefail
cd "$(dirname "$0")/.."
pieces=$PWD/demo/pieces.sh mib=${MIB:-1024}
export EPERFTOOL=${EPERFTOOL:-$PWD/build/eperftool}
[ -x "$EPERFTOOL" ] || { echo "There is no $EPERFTOOL: 'make build' makes it." >&2; exit 1; }
command -v parallel > /dev/null || { echo "There is no GNU parallel (Debian: parallel)." >&2; exit 1; }
here=$(mktemp -d)
trap 'rm -rf "$here"' EXIT
cd "$here"

# is WHAT COMMAND..: the command's status is 0, and what was tried is said.
is() {
    local what=$1
    shift
    "$@" || { echo "pieces: not so: $what" >&2; cat told >&2; exit 1; }
    echo "$what"
}

# fails COMMAND..: its status is 1.
fails() { local status=0; "$@" 2> told || status=$?; [ $status -eq 1 ]; }

# says TEXT: the last command that failed said it.
says() { grep -qF "$1" told; }

# small JOB FROM TO ..: with pieces of one MiB, of which the object has five and a sixth of 57,120 bytes.
small() { PIECE=1 "$pieces" "$@"; }

# made NUMBER: what says which packet file this is.
made() { stat -c '%i %y' "$folder/$1.packets"; }

touch told
name="an object's \"name\" {} {#} \$HOME" folder="its 'pieces' {}"
head -c 5300000 /dev/urandom > "$name"
small encode "$name" "$folder" --n1=5
small decode "$folder" "$name again"
is "Names with quotes, blanks and braces." cmp "$name" "$name again"

first=$(made 0001) other=$(made 0003)
rm "$folder/0003.packets" "$folder/manifest"
: > "$folder/0003.part.1"
small encode "$name" "$folder" --n1=5
is "An encode that was broken off makes the pieces that lack." \
    [ "$first" = "$(made 0001)" -a "$other" != "$(made 0003)" -a -s "$folder/manifest" -a ! -e "$folder/0003.part.1" ]
small encode "$name" "$folder" --n1=4
is "With other words all are made anew." [ "$first" != "$(made 0001)" ]

cp "$folder/0004.packets" whole
"$EPERFTOOL" lose --loss=first:600 < whole > "$folder/0004.packets" 2> told
echo old > old
is "A piece that stays open ends with status 1," fails small decode "$folder" old
is "    is named," says "piece 0004 ended with status 8: see $here/old.pieces/0004.report"
is "    and leaves the old file as it was." [ "$(cat old)" = old ]
is "    The others are whole in their places." cmp -n 3145728 "$name" old.pieces/object
tail -c +27 whole >> "$folder/0004.packets"
: > old.pieces/0001.report
small decode "$folder" old
is "With more packets the decode goes on, and is whole." cmp "$name" old
is "    Nothing else is left." [ ! -e old.pieces ]

cp whole "$folder/0002.packets"
is "A piece in the place of another one is seen." fails small decode "$folder" other
is "    It is named." says "piece 0002 isn't the one that was encoded"
cp "$folder/0006.packets" "$folder/0002.packets"
is "    One of another length writes nothing." fails small decode "$folder" other
is "    It is named." says "0002.packets is no packet file of 1048576 bytes"
rm "$folder/0002.packets"
is "    So is one that isn't there." fails small decode "$folder" other
small encode "$name" "$folder" --n1=4
rm other.pieces/object
small decode "$folder" other
is "A decode whose beginning was taken away begins anew." cmp "$name" other

# shellcheck disable=SC2016
printf '#!/bin/sh\nwhile [ "$1" != -- ]; do shift; done; shift 2\nexec sh -c "$*"\n' > ssh
chmod +x ssh
rm -rf "$folder" other
PARALLEL_SSH=$here/ssh HOSTS=2/one,2/two small encode "$name" "$folder"
PARALLEL_SSH=$here/ssh HOSTS=2/one,2/two small decode "$folder" other
is "Over the words of a remote shell." cmp "$name" other

: > empty
small encode empty none
small decode none again
is "An object without bytes." cmp empty again

[ "${1:-}" != --quick ] || exit 0
echo "$mib MiB in four pieces, seconds:"
head -c "${mib}M" /dev/urandom > object
export PIECE=$(((mib + 3) / 4))
for jobs in 1 4; do
    export JOBS=$jobs
    rm -rf packets again
    for job in "encode object packets" "decode packets again"; do
        start=$(date +%s.%N)
        # shellcheck disable=SC2086
        "$pieces" $job
        awk -v what="${job%% *}" -v jobs=$jobs -v start="$start" -v end="$(date +%s.%N)" \
            'BEGIN { printf "    %s, %d at a time: %.1f\n", what, jobs, end - start }'
    done
    cmp object again
done
