# shellcheck shell=sh
# What the scripts of the examples share: where they stand ($here), the program ($CQMMC, or the one that ./demo and `rt ci` build),
# a folder for what they write ($work), and a few words.
here=$(cd "$(dirname "$0")" && pwd)
: "${CQMMC:=$here/../../crates/cqmmc/out/cqmmc}"
case $CQMMC in /*) ;; *) CQMMC=$PWD/$CQMMC ;; esac
export CQMMC
[ -x "$CQMMC" ] || { echo "$0: build the program first: ./demo" >&2; exit 1; }
work=$(mktemp -d)
trap 'rm -rf "$work"' EXIT

cqmmc() { "$CQMMC" "$@"; }

# Sectors FROM to TO of a plain disk image, each as a word: its byte where all are equal, else the byte of each of its eight
# granules, `..` for a granule that mixes.
sectors() { # DISK FROM TO
  od -An -v -tx1 -w64 -j $((512 * $2)) -N $((512 * ($3 - $2 + 1))) "$1" | awk '
    { byte = $1; for (i = 2; i <= NF; i++) if ($i != byte) byte = ".." }
    NR % 8 == 1 { word = first = byte; same = byte != ".."; next }
    { word = word byte; if (byte != first) same = 0 }
    NR % 8 == 0 { printf "%s%s", gap, same ? first : word; gap = " " }
    END { print "" }'
}
