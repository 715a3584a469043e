#!/bin/sh
# judge/judge.sh SOURCE [SEED CASES PROGRAMS [short]]: builds the crate w65c816 0.1.17 from the folder of its source, links it and the proved
# library, and compares the two. Needs rustc, and what library/build.sh needs.
set -eu
cd "$(dirname "$0")/.."
case $#:${5:-short} in
1:* | 4:* | 5:short) ;;
*) echo "usage: judge/judge.sh SOURCE [SEED CASES PROGRAMS [short]]" >&2; exit 2 ;;
esac
source=$1
shift
# Said before anything is built: what is missing, and what is no number.
for number in "${1-1}" "${2-1}" "${3-1}"; do
    case $number in
    '' | *[!0-9]*) echo "judge: SEED, CASES and PROGRAMS are numbers from 0 on" >&2; exit 2 ;;
    esac
done
command -v rustc >/dev/null || { echo "judge: there is no rustc" >&2; exit 2; }
rustc -vV | grep -q '^host: x86_64' || { echo "judge: the library is for x86-64, and rustc here is for $(rustc -vV | sed -n 's/^host: //p')" >&2; exit 2; }
[ -f "$source/lib.rs" ] || { echo "judge: there is no $source/lib.rs, the crate's source" >&2; exit 2; }
out=target/judge
mkdir -p $out
library/build.sh >$out/say 2>&1 || { cat $out/say; exit 1; }
rustc --edition 2021 -C opt-level=3 --cap-lints allow --crate-type rlib --crate-name w65c816 "$source/lib.rs" --out-dir $out
rustc --edition 2021 -C opt-level=3 judge/judge.rs --extern w65c816=$out/libw65c816.rlib -L native=target/library -l static=glavorint -o $out/judge
$out/judge "$@"
