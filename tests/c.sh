#!/bin/sh
# The first trace in C, linked to the proved library, where a C compiler is at hand. library/build.sh makes the library.
set -eu
cd "$(dirname "$0")/.."
for tool in cc ar nm; do
    command -v $tool >/dev/null || { echo "c: not run: there is no $tool"; exit 0; }
done
# A compiler may be there without what it links.
trial=$(mktemp)
trap 'rm -f "$trial"' EXIT
echo 'int main(void) { return 0; }' | cc -x c -o "$trial" - >/dev/null 2>&1 || { echo "c: not run: cc can't link"; exit 0; }
case $(cc -dumpmachine) in
x86_64*) ;;
*)
    echo "c: not run: the library is for x86-64, and cc here is for $(cc -dumpmachine)"
    exit 0
    ;;
esac
out=target/c
mkdir -p $out
library/build.sh >$out/say 2>&1 || { cat $out/say; exit 1; }
cc -std=c99 -Wall -Wextra -Werror -O2 -Iinclude examples/c/first_trace.c target/library/libglavorint.a -o $out/first_trace
$out/first_trace >$out/text
printf 'bus\t1\n1\tO\tR\t008000\t18\n2\tI\tR\t008001\t69\n3\tO\tR\t008001\t69\n4\tP\tR\t008002\t01\n' | cmp - $out/text
echo "c: the first trace is the paper's"
