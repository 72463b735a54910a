#!/bin/sh
# Has the sdbm that comes with Perl read 60 images that a built make_image makes of random pairs (always the same ones), and
# compares every pair, looked up and walked over.
# usage: scripts/sdbm-reads-ours.sh PROGRAM
# Ends with 0 when every image is read as it has to be.
if [ $# -ne 1 ]; then
    echo "usage: $0 PROGRAM" >&2
    exit 2
fi
case $1 in
    /*) program=$1 ;;
    *) program=$PWD/$1 ;;
esac
if [ ! -x "$program" ]; then
    echo "$program: not a program" >&2
    exit 2
fi
cd "$(dirname "$0")/.." || exit 2
temp=$(mktemp -d) || exit 2
trap 'rm -rf "$temp"' EXIT

same=0
different=0
pairs=0
refused=0

seed=1
while [ $seed -le 60 ]; do
    perl scripts/sdbm_pairs.pl lines $seed >"$temp/lines" || exit 2
    "$program" "$temp/image.dir" "$temp/image.pag" <"$temp/lines" >"$temp/told" || exit 2
    if count=$(perl scripts/sdbm_pairs.pl compare "$temp/lines" "$temp/told" "$temp/image" 2>"$temp/complaints"); then
        same=$((same + 1))
        pairs=$((pairs + count))
        refused=$((refused + $(grep -c '^line' "$temp/told")))
    else
        different=$((different + 1))
        echo "image $seed: $(head -n 1 "$temp/complaints")"
    fi
    seed=$((seed + 1))
done

echo "images read by sdbm: $((same + different)), with $pairs pairs ($refused lines were refused)"
echo "same: $same, different: $different"
[ $different -eq 0 ]
