#!/bin/sh
# Compares a built list_image with the plain reader: on the sample, on every damaged copy, and on 200 pseudo-random
# mutations of the sample (always the same ones). Then it compares what the program prints of each of them through a window,
# a quota, a cache, and a cache on a quota on a window with what it prints without: the same, but for the layer that refuses
# a block past the limit.
# usage: scripts/compare-listings.sh PROGRAM
# Ends with 0 when every output is the same, byte for byte.
if [ $# -ne 1 ]; then
    echo "usage: $0 PROGRAM" >&2
    exit 2
fi
case $1 in
    /*) program=$1 ;;
    *) program=$PWD/$1 ;;
esac
if [ ! -x "$program" ]; then
    echo "$program: not a program" >&2
    exit 2
fi
cd "$(dirname "$0")/.." || exit 2
temp=$(mktemp -d) || exit 2
trap 'rm -rf "$temp"' EXIT
python3 scripts/mutate_sample.py "$temp" 200 || exit 2

# symbols and members, a name that is neither, and one that is nowhere
records="--symbol=main --symbol=flash_unlock --symbol=README/ --symbol=no_such --member=README/ --member=crt0.o/ --member=main --member="

same=0
different=0
whole=0
stopped=0
stacks_same=0
stacks_different=0

# differs WHAT EXPECTED GOT
differs() {
    echo "first difference: $1 (< expected, > the program)"
    diff "$2" "$3" | head -n 12
    head -n 4 "$temp/complaints"
    echo
}

# compare BASE NAMES [OPTION..]
compare() {
    base=$1
    names=$2
    shift 2
    python3 scripts/reference_list.py "$@" "$base.dir" "$base.pag" "$names" >"$temp/expected" || exit 2
    "$program" "$@" "$base.dir" "$base.pag" <"$names" >"$temp/got" 2>"$temp/complaints"
    if grep -q '^pairs: .*listed to the end' "$temp/expected"; then
        whole=$((whole + 1))
    else
        stopped=$((stopped + 1))
    fi
    if cmp -s "$temp/expected" "$temp/got"; then
        same=$((same + 1))
    else
        different=$((different + 1))
        [ $different -ne 1 ] || differs "$base $*" "$temp/expected" "$temp/got"
    fi
}

# through BASE NAMES LAYER..: the last listing, through these layers
through() {
    base=$1
    names=$2
    shift 2
    # shellcheck disable=SC2086
    "$program" --go-on $records "$@" "$base.dir" "$base.pag" <"$names" 2>"$temp/complaints" |
        sed 's/ by the \(window\|quota\|cache\) at block / by the bottom device at block /' >"$temp/layered"
    if cmp -s "$temp/got" "$temp/layered"; then
        stacks_same=$((stacks_same + 1))
    else
        stacks_different=$((stacks_different + 1))
        [ $stacks_different -ne 1 ] || differs "$base through $*" "$temp/got" "$temp/layered"
    fi
}

# compare_all BASE NAMES
compare_all() {
    compare "$1" "$2"
    # shellcheck disable=SC2086
    compare "$1" "$2" --go-on $records
    through "$1" "$2" --window
    through "$1" "$2" --quota
    through "$1" "$2" --cache
    through "$1" "$2" --window --quota --cache
}

for names in crates/list_image/stdin "$temp/names"; do
    compare_all crates/list_image/data/sample "$names"
    for name in whole cut short_dir long_dir bad_page twice stray empty random absent; do
        compare_all "crates/damaged_images/data/$name" "$names"
    done
done
for dir in "$temp"/m*.dir; do
    compare_all "${dir%.dir}" "$temp/names"
done

echo "compared with the plain reader: $((same + different)) ($whole listed to the end, $stopped stopped)"
echo "same: $same, different: $different"
echo "compared over four stacks: $((stacks_same + stacks_different))"
echo "same: $stacks_same, different: $stacks_different"
[ $different -eq 0 ] && [ $stacks_different -eq 0 ]
