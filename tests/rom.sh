#!/bin/sh
# The listing of docs/ROM.md and the constant of crates/audit/src/rom.rt have the same addresses, bytes and mnemonics, and no byte between them is
# missing. Spoiled copies have to be found out. Then the farmyard day's output and status: run it when farmyard is proved and built, as `rt ci` leaves it,
# or `rt run` in its folder.
set -u
cd "$(dirname "$0")/.." || exit 2
work=$(mktemp -d) || exit 2
trap 'rm -rf "$work"' EXIT
passed=0

fail() {
  echo "rom: $1"
  exit 1
}

# Lines of address, bytes and mnemonic with one blank between any two words: of the listing, which has cycles or blanks after the mnemonic ..
listed() {
  awk '/^[0-9A-F][0-9A-F][0-9A-F][0-9A-F]  [0-9A-F][0-9A-F] / {
    words = substr($0, 1, 26)
    gsub(/  */, " ", words)
    sub(/ $/, "", words)
    print words
  }' "$1"
}

# .. and of the source, whose opcodes have the address and the mnemonic beside them: what a line says is of its last byte.
laid() {
  awk '
    function flush() { if (at != "") print at bytes " " name }
    /^    0x[0-9A-F][0-9A-F],/ {
      for (said = 1; said <= NF && $said != "//"; said++);
      for (i = 1; i < said; i++) {
        if (i == said - 1 && said <= NF) {
          flush()
          at = $(said + 1)
          bytes = ""
          name = $(said + 2) ($(said + 3) == "" ? "" : " " $(said + 3))
        }
        bytes = bytes " " substr($i, 3, 2)
      }
    }
    END { flush() }' "$1"
}

# whole FILE: the rows follow each other from 8000 on, each where the one before it ends.
whole() {
  awk '
    function number(hex, i, n) { for (i = 1; i <= length(hex); i++) n = n * 16 + index("123456789ABCDEF", substr(hex, i, 1)); return n }
    BEGIN { at = number("8000") }
    {
      if (number($1) != at) { print $1 " does not follow"; exit 1 }
      for (i = 2; $i ~ /^[0-9A-F][0-9A-F]$/ && i <= NF; i++) at++
    }' "$1"
}

# same LISTING SOURCE: whether they agree, and are no fewer than the ROM's rows.
same() {
  listed "$1" >"$work/listed"
  laid "$2" >"$work/laid"
  [ "$(wc -l <"$work/laid")" -eq 44 ] && cmp -s "$work/listed" "$work/laid" && whole "$work/laid"
}

same docs/ROM.md crates/audit/src/rom.rt || fail "listing and source differ: $(diff "$work/listed" "$work/laid" | head -n 5)"
passed=$((passed + 1))

# spoiled NAME LISTING SOURCE: after these edits, of which at least one changes something, the two are not taken for the same.
spoiled() {
  sed "$2" docs/ROM.md >"$work/listing"
  sed "$3" crates/audit/src/rom.rt >"$work/source"
  if cmp -s docs/ROM.md "$work/listing" && cmp -s crates/audit/src/rom.rt "$work/source"; then fail "$1: nothing is spoiled"; fi
  if same "$work/listing" "$work/source" >/dev/null; then fail "$1: not found out"; fi
  passed=$((passed + 1))
}

spoiled 'another byte in the listing' 's/^8026  69 01/8026  69 02/' ''
spoiled 'a row left out of the listing' '/^8004  F8/d' ''
spoiled 'another byte in the source' '' 's/^    0xFB, /    0xFA, /'
spoiled 'another operand in the source' '' 's/^    0xFF, 0x2F, /    0xFF, 0x2E, /'
spoiled 'another mnemonic in the source' '' 's/ADC #0001/ADC #0010/'
spoiled 'the same wrong address in both' 's/^8050/8051/' 's/8050 LDY/8051 LDY/'
spoiled 'the same byte less in both' 's/^8002  C2 30/8002  C2   /' 's/^    0x30, 0xF8, /    0xF8, /'

if [ ! -x crates/farmyard/out/farmyard ]; then
  echo "rom: crates/farmyard/out/farmyard is missing: run 'rt run' in crates/farmyard first"
  exit 2
fi
tools/start farmyard >"$work/out" || fail 'the program failed'
cmp -s crates/farmyard/stdout "$work/out" || fail 'not the day expected'
passed=$((passed + 1))

echo "rom: $passed cases passed"
