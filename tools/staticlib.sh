#!/bin/sh
# Makes the static library for C, target/staticlib/libedge_index_c.a: sh tools/staticlib.sh, from the root. Rattle builds
# only what it proves; what earlier checks on this machine proved of the same files is taken from them.
set -eu
mkdir -p target/staticlib
log=target/staticlib/rt.log
(cd crates/edge_index_c_c && rt lib) >"$log" 2>&1 || { cat "$log"; exit 1; }
made=crates/edge_index_c_c/out/libedge_index_c_c.a
# The header says what else has to be linked: of the C library, memset alone.
if command -v nm >/dev/null; then
    asked=$(nm -u $made | awk '$1 == "U" { print $2 }' | sort -u | tr '\n' ' ')
    [ "$asked" = "memset " ] || { echo "the library asks for: $asked" >&2; exit 1; }
fi
# Each function at a multiple of 64: else it lies where the code before it ends, which alone can make a jump a fifth slower.
if command -v objcopy >/dev/null; then
    objcopy --set-section-alignment '.text*=64' $made target/staticlib/libedge_index_c.a
else
    cp $made target/staticlib/libedge_index_c.a
fi
