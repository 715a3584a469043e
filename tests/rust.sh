#!/bin/sh
# The Rust crate's tests and examples over the proved library, where cargo is at hand. library/build.sh makes the library.
set -eu
cd "$(dirname "$0")/.."
for tool in cargo rustc cc ar nm; do
    command -v $tool >/dev/null || { echo "rust: not run: there is no $tool"; exit 0; }
done
cargo --version >/dev/null 2>&1 || { echo "rust: not run: cargo fails"; exit 0; }
# A compiler may be there without what it links.
trial=$(mktemp)
trap 'rm -f "$trial"' EXIT
echo 'int main(void) { return 0; }' | cc -x c -o "$trial" - >/dev/null 2>&1 || { echo "rust: not run: cc can't link"; exit 0; }
echo 'fn main() {}' | rustc -o "$trial" - >/dev/null 2>&1 || { echo "rust: not run: rustc can't link"; exit 0; }
host=$(rustc -vV | sed -n 's/^host: //p')
case $host in
x86_64*) ;;
*)
    echo "rust: not run: the library is for x86-64, and rustc here is for $host"
    exit 0
    ;;
esac
out=target/rust
mkdir -p $out
library/build.sh >$out/say 2>&1 || { cat $out/say; exit 1; }
unset GLAVORINT_LIBRARY
crate() {
    cargo "$@" --quiet --offline --locked --manifest-path rust/Cargo.toml --target-dir $out
}
crate test >$out/tests 2>&1 || { cat $out/tests; exit 1; }
passed=$(awk '/^test result: ok/ { n += $4 } END { print n + 0 }' $out/tests)
[ "$passed" -gt 0 ] || { cat $out/tests; exit 1; }
crate run --example first_trace >$out/text
printf 'bus\t1\n1\tO\tR\t008000\t18\n2\tI\tR\t008001\t69\n3\tO\tR\t008001\t69\n4\tP\tR\t008002\t01\n' | cmp - $out/text
crate run --example add_deliveries >$out/slip
echo '8 deliveries, 29402 litres, 183 cycles' >$out/last
tail -n 1 $out/slip | cmp - $out/last
echo "rust: $passed tests passed, the first trace is the paper's, and $(cat $out/last)"
