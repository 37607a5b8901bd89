#!/bin/sh
# Runs what faces/build.sh built: each example against what it must print, the calls of the tests in C, Rust and JavaScript, those
# in C under valgrind where it is there and with each allocation refused, and random scripts through each other face against
# sheetrun, where the gate built that.
set -e
top=$(cd "$(dirname "$0")/.." && pwd)
out=$top/faces/out

test "$("$out/example")" = 381
"$out/test"
"$out/refused"
if command -v valgrind > /dev/null; then
    valgrind -q --leak-check=full --error-exitcode=2 "$out/test"
else
    echo 'no valgrind here: leaks and bad reads were not looked for'
fi

test "$(python3 "$top/faces/python/example.py")" = 381
set -- "python3 '$top/faces/python/replay.py'"

if command -v cargo > /dev/null && test -x "$out/cargo/debug/examples/invoice"; then
    test "$("$out/cargo/debug/examples/invoice")" = 381
    CARGO_TARGET_DIR=$out/cargo cargo test --offline --quiet --manifest-path "$top/faces/rust/Cargo.toml"
    set -- "$@" "'$out/cargo/debug/examples/replay'"
else
    echo 'the crate for Rust is not built here: it was not tested'
fi

if command -v node > /dev/null && test -f "$out/fazhundel.node"; then
    test "$(node "$top/faces/node/example.js")" = 381
    node --test "$top/faces/node/test.js"
    set -- "$@" "node '$top/faces/node/replay.js'"
else
    echo 'the addon for Node is not built here: it was not tested'
fi

if test -x "$top/crates/sheetrun/out/sheetrun"; then
    python3 "$top/faces/scripts.py" "$@"
else
    echo 'sheetrun is not built here: scripts were not compared'
fi
