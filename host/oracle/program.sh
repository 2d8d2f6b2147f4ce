#!/bin/sh
# Compiles a program that has port and Rust side by side.
#   sh program.sh MAIN ORACLE OUT [CFG]      MAIN: its main.rs; ORACLE: the folder of a compiled oracle; OUT: the program to write
# The port's library is GRADER_LIB/libabi.a, or crates/abi/out/libabi.a from where it is called. Where CFG is given, none is linked, and
# the program is told by `--cfg CFG` that it has the Rust alone. Needs rustc alone.
set -eu
main=$1; oracle=$2; out=$3; alone=${4:-}
if [ -n "$alone" ]; then set -- --cfg "$alone"; else set -- -L "native=${GRADER_LIB:-crates/abi/out}" -l static=abi; fi
rustc --edition 2021 -O --cap-lints allow -o "$out" -L "$oracle" "$@" \
    --extern oracle="$oracle/liboracle.rlib" --extern libm="$oracle/liblibm.rlib" \
    --extern reinfors_core="$oracle/libreinfors_core.rlib" "$main"
