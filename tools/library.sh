#!/usr/bin/env bash
# usage: tools/library.sh [library]
# Proves and builds what a host links, target/staticlib/libconsent.a, and, unless only the library is asked for, what
# its tests run, target/bin/screen. What is proved already is not proved again.
set -euo pipefail
top=$(cd "$(dirname "${BASH_SOURCE[0]}")/.." && pwd -P)

mkdir -p "$top/target/staticlib" "$top/target/bin"
(cd "$top/crates/consent_c" && rt lib)
cp "$top/crates/consent_c/out/libconsent_c.a" "$top/target/staticlib/libconsent.a"
if [ "${1-}" != library ]; then
    (cd "$top/crates/screen" && rt run <stdin >out/said && cmp out/said stdout)
    cp "$top/crates/screen/out/screen" "$top/target/bin/screen"
fi
