#!/bin/sh
# bench/bench.sh SOURCE [ROUNDS]: builds the crate w65c816 0.1.17 from the folder of its source and the proved library, and prints how many times as many
# cycles a second ours does.
set -eu
cd "$(dirname "$0")/.."
[ $# -eq 1 ] || [ $# -eq 2 ] || { echo "usage: bench/bench.sh SOURCE [ROUNDS]" >&2; exit 2; }
source=$1
shift
# Said before anything is built: what is missing, and what is no number.
command -v rustc >/dev/null || { echo "bench: there is no rustc" >&2; exit 2; }
rustc -vV | grep -q '^host: x86_64' || { echo "bench: the library is for x86-64, and rustc here is for $(rustc -vV | sed -n 's/^host: //p')" >&2; exit 2; }
[ -f "$source/lib.rs" ] || { echo "bench: there is no $source/lib.rs, the crate's source" >&2; exit 2; }
case ${1:-60} in
'' | *[!0-9]* | 0) echo "bench: ROUNDS is a number from 1 on" >&2; exit 2 ;;
esac
out=target/bench
mkdir -p $out
library/build.sh >$out/say 2>&1 || { cat $out/say; exit 1; }
rustc --edition 2021 -C opt-level=3 --cap-lints allow --crate-type rlib --crate-name w65c816 "$source/lib.rs" --out-dir $out
rustc --edition 2021 -C opt-level=3 bench/bench.rs --extern w65c816=$out/libw65c816.rlib -L native=target/library -l static=glavorint -o $out/bench
$out/bench "$@"
