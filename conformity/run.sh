#!/bin/sh
# Builds the runner over a library and runs vectors on it. It needs sh and a C compiler (cc, or what CC names).
# Usage: sh conformity/run.sh LIBRARY.a [VECTORS], conformity/vectors.txt where no file is named. The last line is 'N passed, M failed'.
# Exit status: 0 every case that was run held, and some were run; 1 a case failed, or the file is not one of vectors; 2 bad usage, or the runner was not built.
# The C files of the runner: host.c is for a host, a board has its own in that place.
parts="runner call make_call place outcome chain put host"
here=$(cd "$(dirname "$0")" && pwd) || exit 2
usage() { echo "usage: sh conformity/run.sh LIBRARY.a [VECTORS]" >&2; exit 2; }
[ $# -eq 1 ] || [ $# -eq 2 ] || usage
[ -f "$1" ] || { echo "there is no library $1: name the static library that is to be judged" >&2; usage; }
vectors=${2:-$here/vectors.txt}
[ -f "$vectors" ] || { echo "there is no file $vectors: name a file of vectors" >&2; usage; }
work=$(mktemp -d) || exit 2
trap 'rm -rf "$work"' EXIT
library=$1
set --
for part in $parts; do set -- "$@" "$here/$part.c"; done
# shellcheck disable=SC2086
${CC:-cc} -std=c99 $CFLAGS -I"$here/../include" "$@" "$library" -o "$work/runner" ||
    { echo "the runner was not built over $library: the compiler says above what is missing" >&2; exit 2; }
"$work/runner" "$vectors"
