#!/bin/sh
# Builds the library from the crate engine_c, which is proved for it, and what stands over it: the C programs, the shared library
# for Python, the crate for Rust and the addon for Node, where cargo, or node with its header, is there. All in faces/out.
# Another compiler than gcc: CC=clang faces/build.sh.
set -e
top=$(cd "$(dirname "$0")/.." && pwd)
out=$top/faces/out
kit=$(dirname "$(dirname "$(readlink -f "$(command -v rt)")")")
CC=${CC:-gcc}

python3 "$top/faces/library.py"
mkdir -p "$out"
library=$top/crates/engine_c/out/libengine_c.a
heap=$kit/c/liblibc_c.a

for program in example test; do
    $CC -std=c99 -O2 -Wall -Wextra -pedantic -I "$top/faces/c" -o "$out/$program" "$top/faces/c/$program.c" "$library" "$heap"
done
$CC -std=c99 -O2 -Wall -Wextra -pedantic -I "$top/faces/c" -o "$out/refused" "$top/faces/c/refused.c" "$library" "$heap" \
    -Wl,--wrap=malloc,--wrap=realloc
$CC -shared -o "$out/libfazhundel.so" -Wl,--whole-archive "$library" -Wl,--no-whole-archive "$heap" \
    -Wl,--version-script="$top/faces/c/exported"

if command -v cargo > /dev/null; then
    CARGO_TARGET_DIR=$out/cargo cargo build --offline --all-targets --manifest-path "$top/faces/rust/Cargo.toml"
else
    echo 'no cargo here: the crate for Rust was not built'
fi

node=$(command -v node) && headers=$(dirname "$(dirname "$(readlink -f "$node")")")/include/node
if test -n "$node" && test -f "$headers/node_api.h"; then
    $CC -std=c11 -O2 -Wall -Wextra -fPIC -shared -fvisibility=hidden -I "$headers" -I "$top/faces/c" \
        -o "$out/fazhundel.node" "$top/faces/node/"*.c "$library" "$heap" -Wl,--exclude-libs,ALL
else
    echo 'no node with its header here: the addon was not built'
fi
