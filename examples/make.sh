#!/usr/bin/env bash
# Makes bank, plan and map of each example again: examples/make.sh [FOLDER]   (default: each example's own folder)
# Needs python3-numpy. With a built program it is checked, too: SHADOWD=path/to/shadowd examples/make.sh
set -e
cd "$(dirname "$0")"
python=${PYTHON:-/usr/bin/python3}
out=${1:-.}
program=()
[ -z "$SHADOWD" ] || program=(--program "$SHADOWD")
make() {
    local name=$1
    shift
    mkdir -p "$out/$name"
    "$python" ../tools/irt_bank.py --items "$name/items.csv" --attributes "$name/attributes.csv" \
        --constraints "$name/constraints.csv" --out "$out/$name/$name" "${program[@]}" "$@"
}
make knowledge --quantity WORDS
make aggression
make passages --quantity WORDS --grid -3 3 61 --budget 301
