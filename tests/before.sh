#!/bin/sh
# Writes the path of an archive that tests/speed.sh --before links beside the library: libbraid.a of a revision, with before_ before the name of each symbol
# that it gives, so that both may stand in one program. Usage: tests/before.sh REVISION | ARCHIVE, with git and rt for a revision, which is one that the
# installed Rattle proves; an archive is only renamed.
cd "$(dirname "$0")/.." || exit 1
[ $# -eq 1 ] || { echo "tests/before.sh REVISION | ARCHIVE" >&2; exit 2; }
mkdir -p target/before || exit 1
work=$(mktemp -d) || exit 1
trap 'rm -rf "$work"' EXIT

if [ -f "$1" ]; then
    archive=$1
    name=$(cksum < "$archive" | cut -d' ' -f1)
else
    name=$(git rev-parse --short --verify --quiet "$1^{commit}") || { echo "no revision and no archive: $1" >&2; exit 2; }
    git clone -q . "$work/tree" && git -C "$work/tree" checkout -q "$name" || exit 1
    sh "$work/tree/tests/library.sh" > "$work/log" 2>&1 || { cat "$work/log" >&2; echo "the library of $name was not built" >&2; exit 1; }
    archive=$work/tree/target/staticlib/libbraid.a
fi

# Only what the archive gives is renamed: memcpy and memset stay those of the program.
nm --defined-only --extern-only "$archive" | awk 'NF == 3 { print $3, "before_" $3 }' | sort -u > "$work/names"
[ -s "$work/names" ] || { echo "$archive gives no symbol" >&2; exit 1; }
objcopy --redefine-syms="$work/names" "$archive" "target/before/libbraid-$name.a" || exit 1
echo "$PWD/target/before/libbraid-$name.a"
