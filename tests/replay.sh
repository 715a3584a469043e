#!/bin/sh
# Replays wrong lists, and lists at the format's edges, and compares each report byte for byte. Run it when replay is proved and
# built, as `rt ci` leaves it, or `rt run` in its folder.
set -u
cd "$(dirname "$0")/.." || exit 2
list=crates/replay/data/list.txt
if [ ! -x crates/replay/out/replay ]; then
  echo "replay: crates/replay/out/replay is missing: run 'rt run' in crates/replay first"
  exit 2
fi
work=$(mktemp -d) || exit 2
trap 'rm -rf "$work"' EXIT
passed=0

fail() {
  echo "replay: $1"
  exit 1
}

# told NAME EXPECTED WORDS..: standard output on WORDS is the file EXPECTED.
told() {
  name=$1
  expected=$2
  shift 2
  tools/start replay "$@" >"$work/out" 2>"$work/err" || fail "$name: the program failed"
  cmp -s "$expected" "$work/out" || fail "$name: not the report expected: $(diff "$expected" "$work/out" | head -n 5)"
  passed=$((passed + 1))
}

# told_line NAME LINE WORDS..: the same, of one line.
told_line() {
  name=$1
  printf '%s\n' "$2" >"$work/line"
  shift 2
  told "$name" "$work/line" "$@"
}

# noted NAME TEXT: standard error of the case before is that line.
noted() {
  printf '%s\n' "$2" | cmp -s - "$work/err" || fail "$1: not on standard error: $2"
  passed=$((passed + 1))
}

told 'the spoiled list' tests/replay/spoiled.out tests/replay/spoiled.txt

# Every first cycle is named a program read: each case differs, and 20 are shown.
sed '/^#/!s/ OR/ PR/' "$list" >"$work/many.txt"
awk '
  /^#/ { next }
  { n++; count[substr($1, 1, 2)]++ }
  n <= 20 { c = substr($13, 3, 8); print "line " NR " " $1 ": cycle 1: expected PR" c ", asked OR" c }
  n == 21 { print "more blocks differ; only 20 are shown" }
  END {
    for (i = 0; i < 256; i++) {
      op = sprintf("%02X", i)
      if (op in count) print "opcode " op ": " count[op] " replayed, " count[op] " differ"
    }
    print n " lines: 0 agree, " n " differ, 0 bad"
  }' "$list" >"$work/many.out"
told 'a list with more than 20 blocks' "$work/many.out" "$work/many.txt"

# The number of a case may have as many figures as the line has room for.
case=$(sed -n '/^05\.E\.0 /p' "$list")
zeros=$(awk -v n=$((1023 - ${#case})) 'BEGIN { while (n--) printf "0" }')
printf '%s\n' "05.E.$zeros${case#05.E.}" >"$work/longest.txt"
told_line 'a line of 1,023 bytes' '1 lines: 1 agree, 0 differ, 0 bad' "$work/longest.txt"
printf '%s\n' "05.E.0$zeros${case#05.E.}" "$case" >"$work/longer.txt"
printf '%s\n' 'line 1: malformed: longer than 1023 bytes' '2 lines: 1 agree, 0 differ, 1 bad' >"$work/longer.out"
told 'a line of 1,024 bytes' "$work/longer.out" "$work/longer.txt"

: >"$work/empty.txt"
told_line 'an empty file' '0 lines: 0 agree, 0 differ, 0 bad' "$work/empty.txt"

cases=$(grep -vc '^#' "$list")
copies=$((100000 / cases + 1))
awk -v copies="$copies" '{ line[NR] = $0 } END { while (copies--) for (i = 1; i <= NR; i++) print line[i] }' "$list" >"$work/long.txt"
all=$((copies * cases))
told_line 'a long list' "$all lines: $all agree, 0 differ, 0 bad" "$work/long.txt"
[ ! -s "$work/err" ] || fail 'a long list: progress, though standard error is no terminal'
passed=$((passed + 1))

told_line 'no such file' "refused: cannot open $work/none" "$work/none"
noted 'no such file' "$work/none: No such file or directory"
told_line 'a folder' "refused: cannot read $work" "$work"
noted 'a folder' "$work: Is a directory"
told_line 'no argument' 'usage: replay FILE'

echo "replay: $passed cases passed"
