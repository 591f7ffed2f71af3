# The kit and its compiler, for the scripts of this folder: they set `script` to their name and source this from the project's folder. It leaves the kit in
# `kit` and the folder of its tools in `tools`, and stops with status 2 where the kit is not the one that these scripts know.
known=22
fail() { echo "$script: $1" >&2; exit "${2:-2}"; }

command -v rt > /dev/null || fail "there is no rt on the PATH: install the Rattle toolchain"
kit=${RATTLE_HOME:-$(dirname "$(rt doc)")}
tools=$kit/toolchain/bin
for tool in clang ld.lld llvm-ar; do
    [ -x "$tools/$tool" ] || fail "the kit at $kit has no $tool at toolchain/bin: it is not the kit that this script knows"
done
version=$("$tools/clang" --version | sed -n '1s/.*version \([0-9]*\).*/\1/p')
[ "$version" = "$known" ] ||
    fail "the kit's clang has version ${version:-unknown}, and this script knows $known: look whether rt still makes one module, and enter it in boards/kit.sh"

# The kit's linker for WebAssembly. It is told by its first words: under the name wasm-ld it would be a link below the project's folder, which `rt ci`
# refuses.
wasm_ld() { "$tools/ld.lld" -flavor wasm "$@"; }
