#!/usr/bin/env bash
# Draws a day, a month and a year of a semidiurnal, a mixed and a diurnal station, and a day of an estuary with both strides, and renders each by a browser engine: target/drawings/*.png.
# It needs target/bin/cuvalimodo (tools/build cuvalimodo) and chromium (Debian: apt-get install chromium).
set -eu
cd "$(dirname "$0")/.."
folder=target/drawings
mkdir -p "$folder"

# name, station file, then the drawing's date
render() {
    local name=$1 station=$2
    shift 2
    target/bin/cuvalimodo --station "$station" svg "$@" >"$folder/$name.svg"
    local size
    size=$(sed -n '1s/.* width="\([0-9]*\)" height="\([0-9]*\)".*/\1,\2/p' "$folder/$name.svg")
    chromium --headless --no-sandbox --disable-gpu --hide-scrollbars --screenshot="$folder/$name.png" --window-size="$size" \
        "file://$PWD/$folder/$name.svg" 2>/dev/null
    echo "$folder/$name.png"
}

for kind in semidiurnal diurnal; do
    render "$kind-day" "data/examples/$kind.txt" 2026 11 15
    render "$kind-month" "data/examples/$kind.txt" 2026 11
    render "$kind-year" "data/examples/$kind.txt" 2026
done
render estuary-day data/examples/estuary.txt 2026 11 3 --strides 20,20,20
render estuary-day-stepped-over data/examples/estuary.txt 2026 11 3
render mixed-day data/victoria.txt --unit feet 1976 7 12
render mixed-month data/victoria.txt --unit feet 1976 7
render mixed-year data/victoria.txt --unit feet 1976
