#!/bin/sh
# Compiles an oracle whose sources build.sh has put together.
#   sh compile.sh OUT        OUT: the folder with the sources, where the libraries go too
# Needs rustc alone. SMALLVEC=file.rs takes the real smallvec (for timings) in the shim's place.
set -eu
out=$1; here=$(cd "$(dirname "$0")" && pwd)
rc() { rustc --edition 2021 -C opt-level=3 --cap-lints allow --out-dir "$out" -L "$out" "$@"; }
rc --crate-type rlib --crate-name libm "${LIBM:-$here/shims/libm.rs}"
rc --crate-type proc-macro --crate-name serde "$here/shims/serde.rs"
rc --crate-type rlib --crate-name smallvec "${SMALLVEC:-$here/shims/smallvec.rs}"
rc --crate-type rlib --crate-name rapier2d --extern libm="$out/liblibm.rlib" "$here/shims/rapier2d.rs"
rc --crate-type rlib --crate-name reinfors_core "$out/core_lib.rs"
rc --crate-type rlib --crate-name oracle --extern serde="$(ls "$out"/libserde.so)" --extern libm="$out/liblibm.rlib" \
    --extern smallvec="$out/libsmallvec.rlib" --extern rapier2d="$out/librapier2d.rlib" \
    --extern reinfors_core="$out/libreinfors_core.rlib" "$out/lib.rs"
