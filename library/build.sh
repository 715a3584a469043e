#!/bin/sh
# library/build.sh: makes target/library/libglavorint.a, which C and Rust link: the exported functions of the crates named below, proved first
# where they aren't yet. include/glavorint.h says what a caller has to know.
set -eu
cd "$(dirname "$0")/.."
crates="cycle_port_c run_port_c trace_port_c session_port_c walk_port_c"

fail() {
    echo "library: not built: $1" >&2
    exit "${2:-1}"
}
for tool in rt ar nm; do
    command -v $tool >/dev/null || fail "there is no $tool on the PATH" 2
done

out=target/library
mkdir -p $out
rm -rf $out/libglavorint.a $out/objects $out/taken
mkdir $out/objects
for crate in $crates; do
    archive=crates/$crate/out/lib$crate.a
    (cd crates/$crate && rt lib) >$out/say 2>&1 || {
        cat $out/say >&2
        fail "'rt lib' failed in crates/$crate"
    }
    # Each archive has a folder of its own, since two crates may name an object alike; two of one name inside an archive would be lost.
    mkdir $out/taken
    (cd $out/taken && ar x "../../../$archive")
    [ "$(ar t "$archive" | wc -l)" -eq "$(ls $out/taken | wc -l)" ] || fail "$archive has two objects of one name"
    for object in $out/taken/*; do
        mv "$object" "$out/objects/$crate.${object##*/}"
    done
    rmdir $out/taken
    echo "library: $crate, exported functions: $(nm -g --defined-only "$archive" | grep -c ' T glavorint_')"
done
nm -g --defined-only $out/objects/* >$out/symbols || fail "nm can't read what was built"
exported=$(grep -c ' T glavorint_' $out/symbols) || exported=0
declared=$(grep -c '^uint[0-9]*_t glavorint_' include/glavorint.h) || declared=0
[ "$exported" -eq "$declared" ] || fail "$exported functions are exported, and include/glavorint.h has $declared"
twice=$(awk 'NF == 3 && $2 !~ /[WVu]/ { print $3 }' $out/symbols | sort | uniq -d | tr '\n' ' ')
[ -z "$twice" ] || fail "defined twice: $twice"
echo "library: no global symbol is defined twice"
ar rcs $out/libglavorint.a $out/objects/*
rm -rf $out/objects $out/symbols $out/say
echo "library: $out/libglavorint.a"
