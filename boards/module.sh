#!/bin/sh
# Keeps the LLVM module from which `rt lib` makes the static library: target/boards/braid.bc, and beside it the archive that was made of it, and
# in braid.flags what rt told clang.
# Boards, WebAssembly and coverage are made from this module. The kit is not changed: `rt`, copied because it finds its kit by its own place, runs over a
# folder of links to all else of it, in which only clang is a stand-in that keeps its input and then calls the kit's own.
# Usage: sh boards/module.sh. Exit status: 0 the module is there and current; 1 the library is not proved or not built; 2 bad usage, or the kit is not as
# expected.
cd "$(dirname "$0")/.." || exit 2
script=boards/module.sh
. boards/kit.sh
[ $# -eq 0 ] || fail "it takes no argument"

out=target/boards
module=$out/braid.bc
newer=$(find crates crates.txt boards/module.sh -path 'crates/*/out' -prune -o \( -name '*.rt' -o -name crates.txt -o -name module.sh \) -newer $module -print \
    2> /dev/null)
if [ -f $module ] && [ -f $out/libbraid.a ] && [ -f $out/braid.flags ] && [ -z "$newer" ]; then
    exit 0
fi
mkdir -p $out
work=$(mktemp -d) || exit 2
trap 'rm -rf "$work"' EXIT
home=$work/kit

# linked FROM TO ENTRY: a folder of links to what FROM has, but for ENTRY, which is a folder of its own
linked() {
    mkdir -p "$2/$3"
    for entry in "$1"/*; do
        [ "$(basename "$entry")" = "$3" ] || ln -s "$entry" "$2/"
    done
}
linked "$kit" "$home" toolchain
rm "$home/bin"
mkdir "$home/bin"
for entry in "$kit"/bin/*; do
    case $(basename "$entry") in
    rt | rtlib.py) cp "$entry" "$home/bin/" ;;
    *) ln -s "$entry" "$home/bin/" ;;
    esac
done
linked "$kit/toolchain" "$home/toolchain" bin
for entry in "$tools"/*; do
    [ "$(basename "$entry")" = clang ] || ln -s "$entry" "$home/toolchain/bin/"
done
cat > "$home/toolchain/bin/clang" <<STAND_IN
#!/bin/sh
for argument; do
    case \$argument in *.bc) cp "\$argument" "$work/kept.bc" && echo "\$*" >> "$work/calls" ;; esac
done
exec "$tools/clang" "\$@"
STAND_IN
chmod +x "$home/toolchain/bin/clang"

# What stands below is built by the kit itself, so that only the last step is left to the stand-in.
sh tests/library.sh > $out/module.log 2>&1 || { tail -n 5 $out/module.log >&2; fail "the library was not built: $out/module.log has all that was said" 1; }
if ! (cd crates/braid && "$home/bin/rt" lib) > $out/module.log 2>&1; then
    tail -n 5 $out/module.log >&2
    fail "rt lib failed in crates/braid: $out/module.log has all that it said" 1
fi
[ -f "$work/kept.bc" ] || fail "rt lib no longer hands its module to clang as a .bc file: no module was kept"
[ "$(wc -l < "$work/calls")" -eq 1 ] || fail "rt lib compiled more than one module, and this script knows one"
cp crates/braid/out/libbraid.a $out/libbraid.a
# what rt tells clang beside the files, with which x86-64 is compiled again
sed 's/ --sysroot=[^ ]*//; s/ -c -x ir [^ ]* -o [^ ]*//' "$work/calls" > $out/braid.flags
mv "$work/kept.bc" $module
