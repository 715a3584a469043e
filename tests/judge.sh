#!/bin/sh
# A short seeded part of the comparison with the crate w65c816 0.1.17, where Rust and the crate's source are at hand: W65C816 names the folder of
# its lib.rs; without it, what cargo has unpacked is taken. library/build.sh makes the library.
set -eu
cd "$(dirname "$0")/.."
source=${W65C816:-}
if [ -z "$source" ]; then
    for source in "${CARGO_HOME:-$HOME/.cargo}"/registry/src/*/w65c816-0.1.17/src; do :; done
fi
for tool in rustc cc ar nm; do
    command -v $tool >/dev/null || { echo "judge: not run: there is no $tool"; exit 0; }
done
# A compiler may be there without what it links.
trial=$(mktemp)
trap 'rm -f "$trial"' EXIT
echo 'int main(void) { return 0; }' | cc -x c -o "$trial" - >/dev/null 2>&1 || { echo "judge: not run: cc can't link"; exit 0; }
echo 'fn main() {}' | rustc -o "$trial" - >/dev/null 2>&1 || { echo "judge: not run: rustc can't link"; exit 0; }
if ! rustc -vV | grep -q '^host: x86_64'; then
    echo "judge: not run: the library is for x86-64, and rustc here is for $(rustc -vV | sed -n 's/^host: //p')"
elif [ ! -f "$source/lib.rs" ]; then
    echo "judge: not run: the source of w65c816 0.1.17 isn't at hand; W65C816 names its folder"
else
    judge/judge.sh "$source" 816 40 400 short
fi
