#!/bin/sh
# Builds the engine as WebAssembly, web/out/bb.wasm, and prints where it is.
#
#     web/build_module.sh
#
# `make library` proves the library's crate and keeps its LLVM IR. web/narrow.py narrows the pointers of this code
# to 32 bits, and the kit's clang compiles it for WebAssembly. Progress goes to standard error.
set -eu
[ $# -eq 0 ] || { echo "build_module.sh: it takes no arguments" >&2; exit 2; }
web=$(cd "$(dirname "$0")" && pwd)
module=$web/out/bb.wasm
code=$web/../crates/bb_c/out/module.bc
calls='bb_decide bb_decide_line bb_check bb_check_line bb_trace bb_recurrence bb_line_of'
room=$(mktemp -d)
trap 'rm -rf "$room"' EXIT
trap 'exit 130' INT
trap 'exit 143' TERM

say() {
    echo "web: $*" >&2
}

unexpected() {
    say "$*: the kit isn't laid out as this script expects, so it can't build the module"
    exit 1
}

# Proves the library's crate, which keeps its intermediate code.
prove() {
    command -v rt >/dev/null || unexpected 'there is no command rt'
    kit=$(dirname "$(rt doc)")
    [ -s "$code" ] || rm -f "${code%/*}/proved"
    make -s -C "$web/.." library >"$room/log" 2>&1 || { cat "$room/log" >&2; exit 1; }
    [ -s "$code" ] || unexpected "the kit gave its clang no intermediate code"
}

# Runs the kit's clang over intermediate code; what it says is shown where it fails.
translate() {
    if ! "$kit/toolchain/bin/clang" -Wno-override-module -O3 -x ir "$@" 2>"$room/log"; then
        cat "$room/log" >&2
        unexpected "the kit's clang compiles nothing for WebAssembly"
    fi
}

# Compiles and links the module, from intermediate code that web/narrow.py takes as text. The code names a
# processor that this target lacks; clang says so, and goes on. Unrolled loops make the module an eighth
# larger, and no faster; so does as much inlining as clang does by itself (its threshold is 250). Vectors for
# short loops and for loops with tests inside make it 2,400 bytes larger, and no faster. So does decoding an
# entry of a packed table wherever one is needed (6,600 bytes), so that isn't inlined.
compile() {
    say 'compiling bb.wasm'
    ln -s "$kit/toolchain/bin/ld.lld" "$room/wasm-ld"
    translate "$code" --target=wasm64-unknown-unknown -S -emit-llvm -Xclang -disable-llvm-passes \
        -o "$room/wide.ll"
    python3 "$web/narrow.py" "$room/wide.ll" "$room/narrow.ll"
    sed -i '/^define .*"bb_machine::packed::PackedTable::entry_at"/s/ #[0-9]* {$/ noinline&/' "$room/narrow.ll"
    translate "$room/narrow.ll" --target=wasm32-unknown-unknown -msimd128 -mbulk-memory \
        -fno-unroll-loops -mllvm -inline-threshold=200 -mllvm -enable-if-conversion=false \
        -mllvm -vectorizer-min-trip-count=100 -c -o "$room/module.o"
    exported=
    for call in $calls; do
        exported="$exported --export-if-defined=$call"
    done
    mkdir -p "$web/out"
    "$room/wasm-ld" -mwasm32 --no-entry $exported --export=__heap_base --allow-undefined \
        -z stack-size=1048576 --strip-all -o "$room/bb.wasm" "$room/module.o" ||
        unexpected "the kit's linker links nothing for WebAssembly"
    mv "$room/bb.wasm" "$module"
}

prove
compile
echo "$module"
