#!/bin/sh
# Draws docs/pictures/*.svg from data that it measures by build/eperftool and leaves beside them. Takes some minutes.
#
#     plots.sh [FOLDER]     another folder for pictures and data
#
# Where PLOTS_DRAW is set nothing is measured, and the data that is there is drawn; PLOTS_QUICK takes few, small runs.
set -eu
here=$(cd "$(dirname "$0")" && pwd)
folder=${1:-$here/../docs/pictures}
program=${EPERFTOOL:-$here/../build/eperftool}

[ -x "$program" ] || { echo "There is no build/eperftool: run 'make build' first." >&2; exit 1; }
for tool in python3 gnuplot; do
    command -v "$tool" > /dev/null || { echo "The pictures want $tool (for gnuplot: gnuplot-nox)." >&2; exit 1; }
done
mkdir -p "$folder"
if [ -z "${PLOTS_DRAW:-}" ]; then
    EPERFTOOL=$program python3 "$here/plots.py" "$folder" ${PLOTS_QUICK:+--quick}
fi
gnuplot -e "folder = '$folder'" "$here/plots.gp"
