#!/bin/sh
# The command: every subcommand, refusal, complaint and status, byte for byte. Run it when farmyard, tanker, drover, byhand and replay are proved and built,
# as `rt ci` leaves them, or `rt run` in the crate's folder.
set -u
cd "$(dirname "$0")/.." || exit 2
root=$(pwd)
for program in farmyard tanker drover byhand replay; do
  if [ ! -x "crates/$program/out/$program" ]; then
    echo "command: crates/$program/out/$program is missing: run 'rt run' in crates/$program first"
    exit 2
  fi
done
work=$(mktemp -d) || exit 2
trap 'rm -rf "$work"' EXIT
passed=0
: >"$work/nothing"

fail() {
  echo "command: $1"
  exit 1
}

# told NAME STATUS OUT ERR WORDS..: the command on WORDS ends with STATUS and writes the files OUT and ERR.
told() {
  name=$1
  status=$2
  out=$3
  err=$4
  shift 4
  "$root/glavorint" "$@" >"$work/out" 2>"$work/err" <"${input:-/dev/null}"
  got=$?
  [ "$got" = "$status" ] || fail "$name: status $got, not $status: $(cat "$work/err")"
  cmp -s "$out" "$work/out" || fail "$name: not the output expected: $(diff "$out" "$work/out" | head -n 5)"
  cmp -s "$err" "$work/err" || fail "$name: not on standard error as expected: $(diff "$err" "$work/err" | head -n 5)"
  passed=$((passed + 1))
}

# three REFUSAL CYCLES RECORD: the lines of a run that ended so, in the file `lines`.
three() {
  printf 'refusal %s\ncycles %s\nrecord %s\n' "$1" "$2" "$3" >"$work/lines"
}

# complaint TEXT: the line of standard error, in the file `line`.
complaint() {
  printf 'glavorint: %s\n' "$1" >"$work/line"
}

# ended NAME REFUSAL CYCLES RECORD REASON WORDS..: a run that is refused.
ended() {
  name=$1
  three "$2" "$3" "$4"
  complaint "refused with $2: $5"
  shift 5
  told "$name" 1 "$work/lines" "$work/line" "$@"
}

# unfit NAME TEXT WORDS..: bad usage, with that complaint and nothing on standard output.
unfit() {
  name=$1
  complaint "$2"
  shift 2
  told "$name" 2 "$work/nothing" "$work/line" "$@"
}

# full NAME WORDS..: what can't be written for want of room is said once.
full() {
  name=$1
  shift
  complaint 'standard output: No space left on device'
  "$root/glavorint" "$@" >/dev/full 2>"$work/err" </dev/null
  got=$?
  [ "$got" = 2 ] || fail "$name: status $got, not 2: $(cat "$work/err")"
  cmp -s "$work/line" "$work/err" || fail "$name: not on standard error as expected: $(diff "$work/line" "$work/err" | head -n 5)"
  passed=$((passed + 1))
}

# image FILE [PLACE OCTAL..]..: 65,536 zeros with bytes at places.
image() {
  file=$1
  shift
  dd if=/dev/zero of="$file" bs=65536 count=1 2>/dev/null
  while [ $# -gt 1 ]; do
    printf "$2" | dd of="$file" bs=1 seek="$1" conv=notrunc 2>/dev/null
    shift 2
  done
}

# 8000: CLC, ADC #01, STA 2000, LDA #42, STA 2001, MVN 00,00, BRA 8000 (the paper's trace is its first four cycles)
small='\030\151\001\215\000\040\251\102\215\001\040\124\000\000\200\360'
image "$work/small" 32768 "$small"
start='0000 0000 0000 01FF 0000 8000 00 00 30 0'
none='0 00 00 0000 0000 00'

# Where a source was touched since, the command looks first whether all is proved, and says so; here it has done that before the cases.
for words in '' 'run' 'trace' 'step' "replay $work/nothing"; do
  "$root/glavorint" $words >"$work/out" 2>&1
done

# ---- run

three none 4 "0001 0000 0000 01FF 0000 8003 00 00 30 0 $none"
told 'run' 0 "$work/lines" "$work/nothing" run "$work/small" $start 4
told 'words of fewer digits, in either case' 0 "$work/lines" "$work/nothing" run "$work/small" 0 0 00 1fF 0 8000 0 0 30 0 4
told 'sixteen words' 0 "$work/lines" "$work/nothing" run "$work/small" $start $none 4
told 'opcode and cycle where none is held' 0 "$work/lines" "$work/nothing" run "$work/small" $start 0 02 07 0 0 0 4
told 'a budget with zeros before it' 0 "$work/lines" "$work/nothing" run "$work/small" $start 0000000004
three none 0 "$start $none"
told 'budget 0' 0 "$work/lines" "$work/nothing" run "$work/small" $start 0
image "$work/loop" 32768 '\200\376'
three none 300000 "0000 0000 0000 01FF 0000 8000 00 00 30 0 $none"
told 'three pieces' 0 "$work/lines" "$work/nothing" run "$work/loop" $start 300000
three none 1000000 "0000 0000 0000 01FF 0000 8001 00 00 30 0 1 80 01 0000 0000 00"
told 'a million' 0 "$work/lines" "$work/nothing" run "$work/loop" $start 1000000

# ---- refusals

head -c 65535 "$work/small" >"$work/short"
{ cat "$work/small"; printf '\000'; } >"$work/long"
ended '1, a byte too short' 1 0 "$start $none" "the memory isn't 65,536 bytes" run "$work/short" $start 4
ended '1, a byte too long' 1 0 "$start $none" "the memory isn't 65,536 bytes" run "$work/long" $start 4
ended '1 comes before 2' 1 0 "$start $none" "the memory isn't 65,536 bytes" run "$work/nothing" $start 1000001
ended '2' 2 0 "$start $none" 'the budget is above 1,000,000 cycles' run "$work/small" $start 1000001
ended '2, the greatest number' 2 0 "$start $none" 'the budget is above 1,000,000 cycles' run "$work/small" $start 4294967295
odd='0000 0000 0000 01FF 0000 8000 00 00 00 1'
ended '4' 4 0 "$odd $none" "the record isn't well formed" run "$work/small" $odd 4
image "$work/unlisted" 32768 '\030\000'
ended '5' 5 2 "0000 0000 0000 01FF 0000 8001 00 00 30 0 $none" "the opcode held, or just fetched, isn't listed" run "$work/unlisted" $start 4
ended '5, held' 5 0 "$start 1 00 01 0000 0000 00" "the opcode held, or just fetched, isn't listed" run "$work/small" $start 1 00 01 0 0 0 4
ended '6' 6 0 "$start 1 18 02 0000 0000 00" 'the held opcode has no such cycle' run "$work/small" $start 1 18 02 0 0 0 4
bank='0000 0000 0000 01FF 0000 8000 01 00 30 0'
ended '7' 7 0 "$bank $none" 'a request outside bank 0' run "$work/small" $bank 4

# ---- bad input

unfit 'a word that is no hex' "S: '12G4' isn't 1 to 4 hex digits (refusal 4)" run "$work/small" 0 0 0 12G4 0 8000 0 0 30 0 4
unfit 'a word too long' "A: '00000' isn't 1 to 4 hex digits (refusal 4)" run "$work/small" 00000 0 0 1FF 0 8000 0 0 30 0 4
unfit 'an empty word' "PC: '' isn't 1 to 4 hex digits (refusal 4)" run "$work/small" 0 0 0 1FF 0 '' 0 0 30 0 4
unfit 'a byte too long' "P: '030' isn't 1 or 2 hex digits (refusal 4)" run "$work/small" 0 0 0 1FF 0 8000 0 0 030 0 4
unfit 'E of 2' "E: '2' isn't 0 or 1 (refusal 4)" run "$work/small" 0 0 0 1FF 0 8000 0 0 30 2 4
unfit 'held of 2' "HELD: '2' isn't 0 or 1 (refusal 4)" run "$work/small" $start 2 00 00 0 0 0 4
unfit 'a word of two lines' "BANK: 'a?b' isn't 1 or 2 hex digits (refusal 4)" run "$work/small" $start 0 0 0 0 0 'a
b' 4
unfit 'a budget that is no number' "BUDGET: '4x' isn't a decimal number of 1 to 10 digits, at most 1,000,000 (refusal 2)" run "$work/small" $start 4x
unfit 'a budget below 0' "BUDGET: '-1' isn't a decimal number of 1 to 10 digits, at most 1,000,000 (refusal 2)" run "$work/small" $start -1
unfit 'a budget past 32 bits' "BUDGET: '4294967296' isn't a decimal number of 1 to 10 digits, at most 1,000,000 (refusal 2)" run "$work/small" $start 4294967296
unfit 'a budget of 11 digits' "BUDGET: '00000000004' isn't a decimal number of 1 to 10 digits, at most 1,000,000 (refusal 2)" run "$work/small" $start 00000000004
unfit 'no such image' "the image can't be read (refusal 1): $work/none: No such file or directory" run "$work/none" $start 4
unfit 'a folder for an image' "the image can't be read (refusal 1): $work: Is a directory" run "$work" $start 4
usage='usage: run|trace IMAGE A X Y S D PC PBR DBR P E [HELD OPCODE CYCLE ADDRESS DATA BANK] BUDGET [--out FILE]'
unfit 'run alone' "$usage" run
unfit 'a word too few' "$usage" run "$work/small" $start
unfit 'a word too many' "$usage" run "$work/small" $start 0 4
unfit 'no FILE after --out' "$usage" run "$work/small" $start 4 --out
unfit '--out=FILE' '--out and its FILE are two words: --out FILE' run "$work/small" $start 4 --out="$work/after"
unfit 'no such subcommand' "'walk' is no subcommand: run, trace, step, replay or help" walk

# ---- --out

cp "$work/small" "$work/expected"
printf '\001\102' | dd of="$work/expected" bs=1 seek=8192 conv=notrunc 2>/dev/null
three none 14 "0042 0000 0000 01FF 0000 800B 00 00 30 0 $none"
told '--out' 0 "$work/lines" "$work/nothing" run "$work/small" $start 14 --out "$work/after"
cmp "$work/expected" "$work/after" || fail '--out: not the memory expected'
told '--out before the words' 0 "$work/lines" "$work/nothing" run --out "$work/after2" "$work/small" $start 14
cmp "$work/expected" "$work/after2" || fail '--out before the words: not the memory expected'
cp "$work/small" "$work/own"
told '--out over the image' 0 "$work/lines" "$work/nothing" run "$work/own" --out "$work/own" $start 14
cmp "$work/expected" "$work/own" || fail '--out over the image: not the memory expected'
[ "$(ls "$work" | grep -c 'own\|after')" = 3 ] || fail '--out leaves a file behind'
image "$work/stops" 32768 '\251\102\215\001\040\000'
image "$work/stopped" 32768 '\251\102\215\001\040\000' 8193 '\102'
ended '--out after a refusal' 5 6 "0042 0000 0000 01FF 0000 8005 00 00 30 0 $none" "the opcode held, or just fetched, isn't listed" run "$work/stops" $start 40 --out "$work/kept"
cmp "$work/stopped" "$work/kept" || fail '--out after a refusal: earlier writes are lost'
ended '--out of a memory that is refused' 1 0 "$start $none" "the memory isn't 65,536 bytes" run "$work/short" $start 4 --out "$work/unmade"
[ ! -e "$work/unmade" ] || fail '--out of a memory that is refused: a file is made'
three none 4 "0001 0000 0000 01FF 0000 8003 00 00 30 0 $none"
complaint "the memory isn't written: $work/no/file: No such file or directory"
told '--out into no folder' 2 "$work/lines" "$work/line" run "$work/small" $start 4 --out "$work/no/file"
three 5 2 "0000 0000 0000 01FF 0000 8001 00 00 30 0 $none"
echo "glavorint: refused with 5: the opcode held, or just fetched, isn't listed" >>"$work/line"
told '--out into no folder, of a run that is refused' 2 "$work/lines" "$work/line" run "$work/unlisted" $start 4 --out "$work/no/file"
unfit '--out to what is no file' "the memory isn't written: /dev/null isn't a file" run "$work/small" $start 4 --out /dev/null
cp "$work/small" "$work/locked"
chmod 444 "$work/locked"
if [ -w "$work/locked" ]; then
  echo 'command: not run: --out to a file that may not be written, since root may write every file'
else
  unfit '--out to a file that may not be written' "the memory isn't written: $work/locked: Permission denied" run "$work/small" $start 4 --out "$work/locked"
fi

for n in 1 2 3 4 5; do
  "$root/glavorint" run "$work/small" $start 14 --out "$work/left$n" 2>"$work/err" | :
  cmp -s "$work/expected" "$work/left$n" || fail '--out with a reader who leaves: not the memory expected'
  [ ! -s "$work/err" ] || fail "--out with a reader who leaves: $(cat "$work/err")"
  passed=$((passed + 1))
done
full 'a run to a full device' run "$work/small" $start 14 --out "$work/full"
cmp -s "$work/expected" "$work/full" || fail '--out with a full device: not the memory expected'

# ---- going on inside an instruction

# words_after FILE: the sixteen words of its record line.
words_after() {
  sed -n 's/^record //p' "$1"
}

image "$work/day" 32768 "$small" 16 '\021\042\063'
begin='0002 0010 0020 01FF 0000 8000 00 00 30 0'
"$root/glavorint" run "$work/day" $begin 60 --out "$work/whole" >"$work/whole.out" || fail 'the whole run is refused'
n=0
while [ $n -le 40 ]; do
  "$root/glavorint" run "$work/day" $begin $n --out "$work/part" >"$work/part.out" || fail "budget $n: refused"
  "$root/glavorint" run "$work/part" $(words_after "$work/part.out") $((60 - n)) --out "$work/rest" >"$work/rest.out" || fail "after $n cycles: refused"
  [ "$(words_after "$work/rest.out")" = "$(words_after "$work/whole.out")" ] || fail "after $n cycles: not the whole run's record"
  cmp -s "$work/rest" "$work/whole" || fail "after $n cycles: not the whole run's memory"
  passed=$((passed + 1))
  n=$((n + 1))
done

# ---- trace

printf 'bus\t1\n1\tO\tR\t008000\t18\n2\tI\tR\t008001\t69\n3\tO\tR\t008001\t69\n4\tP\tR\t008002\t01\n' >"$work/paper"
three none 4 "0001 0000 0000 01FF 0000 8003 00 00 30 0 $none"
told "the paper's trace" 0 "$work/paper" "$work/lines" trace "$work/small" $start 4
printf 'bus\t1\n' >"$work/header"
three none 0 "$start $none"
told 'a trace of no cycle' 0 "$work/header" "$work/lines" trace "$work/small" $start 0
printf 'bus\t1\n1\tO\tR\t008000\t18\n2\tI\tR\t008001\t00\n' >"$work/two"
three 5 2 "0000 0000 0000 01FF 0000 8001 00 00 30 0 $none"
echo "glavorint: refused with 5: the opcode held, or just fetched, isn't listed" >>"$work/lines"
told 'a trace that is refused' 1 "$work/two" "$work/lines" trace "$work/unlisted" $start 4
three 2 0 "$start $none"
echo 'glavorint: refused with 2: the budget is above 1,000,000 cycles' >>"$work/lines"
told 'a trace above the budget' 1 "$work/nothing" "$work/lines" trace "$work/small" $start 1000001
three 1 0 "$start $none"
echo "glavorint: refused with 1: the memory isn't 65,536 bytes" >>"$work/lines"
told 'a trace of a short memory' 1 "$work/nothing" "$work/lines" trace "$work/short" $start 4
{
  echo "glavorint: the memory isn't written: $work/no/file: No such file or directory"
  printf 'refusal none\ncycles 4\nrecord %s\n' "0001 0000 0000 01FF 0000 8003 00 00 30 0 $none"
} >"$work/lines"
told 'a trace with --out into no folder' 2 "$work/paper" "$work/lines" trace "$work/small" $start 4 --out "$work/no/file"
full 'a trace to a full device' trace "$work/small" $start 4 --out "$work/cut"
[ ! -e "$work/cut" ] || fail '--out of a trace that was cut short: a file is made'
# BRA to itself: O, P, I, over and over
awk 'BEGIN {
  print "bus\t1"
  for (n = 1; n <= 1000000; n++) {
    k = n % 3
    if (k == 1) print n "\tO\tR\t008000\t80"
    if (k == 2) print n "\tP\tR\t008001\tFE"
    if (k == 0) print n "\tI\tR\t008002\t00"
  }
}' >"$work/million"
three none 1000000 "0000 0000 0000 01FF 0000 8001 00 00 30 0 1 80 01 0000 0000 00"
told 'a trace of a million cycles' 0 "$work/million" "$work/lines" trace "$work/loop" $start 1000000
"$root/glavorint" trace "$work/loop" $start 1000000 2>"$work/err" | head -n 1 >"$work/out"
cmp -s "$work/header" "$work/out" || fail 'a closed pipe: the first line is not the header'
[ ! -s "$work/err" ] || fail "a closed pipe: $(cat "$work/err")"
(
  "$root/glavorint" trace "$work/loop" $start 1000000 2>/dev/null
  echo $? >"$work/status"
) | head -n 1 >"$work/out"
[ "$(cat "$work/status")" = 1 ] || fail "a closed pipe: status $(cat "$work/status")"
passed=$((passed + 2))

# ---- step

input=crates/byhand/stdin
told 'a session with a byte that is refused' 1 crates/byhand/stdout "$work/nothing" step $start
input=$work/typed
awk '{ printf "%s\r\n", $0 }' crates/byhand/stdin >"$work/typed"
told 'lines that end by CR and LF' 1 crates/byhand/stdout "$work/nothing" step $start
printf 'quit\n' >"$work/typed"
printf '1\tO\tR\t008000\ncycles 0\nrecord %s\n' "$start $none" >"$work/lines"
told 'quit' 0 "$work/lines" "$work/nothing" step $start
: >"$work/typed"
told 'no input' 0 "$work/lines" "$work/nothing" step $start
printf '18\n69' >"$work/typed"
printf '1\tO\tR\t008000\n2\tI\tR\t008001\n3\tO\tR\t008001\ncycles 2\nrecord %s\n' "0000 0000 0000 01FF 0000 8001 00 00 30 0 $none" >"$work/lines"
told 'a last line without its end' 0 "$work/lines" "$work/nothing" step $start
printf 'recording of nine\n' >"$work/typed"
printf '1\tO\tR\t008000\n? two hex digits, record or quit\ncycles 0\nrecord %s\n' "$start $none" >"$work/lines"
told 'a long line' 0 "$work/lines" "$work/nothing" step $start
input=$work
printf '1\tO\tR\t008000\n' >"$work/lines"
complaint 'standard input: Is a directory'
told 'a folder for input' 2 "$work/lines" "$work/line" step $start
input=$work/typed
full 'a session to a full device' step $start
full 'a refused session to a full device' step $odd
printf 'refusal 4\nrecord %s\n' "$odd $none" >"$work/lines"
complaint "refused with 4: the record isn't well formed"
told 'a session refused with 4' 1 "$work/lines" "$work/line" step $odd
printf 'refusal 6\nrecord %s\n' "$start 1 18 02 0000 0000 00" >"$work/lines"
complaint 'refused with 6: the held opcode has no such cycle'
told 'a session refused with 6' 1 "$work/lines" "$work/line" step $start 1 18 02 0 0 0
unfit 'a word of a session' "X: 'x' isn't 1 to 4 hex digits (refusal 4)" step 0 x 0 1FF 0 8000 0 0 30 0
unfit 'a session of nine words' 'usage: step A X Y S D PC PBR DBR P E [HELD OPCODE CYCLE ADDRESS DATA BANK]' step 0 0 0 0 0 0 0 0 0
input=

# ---- the day

told 'the day' 0 crates/farmyard/stdout "$work/nothing"
full 'the day to a full device'

# ---- replay and help

list=crates/replay/data/list.txt
cases=$(grep -vc '^#' "$list")
echo "$cases lines: $cases agree, 0 differ, 0 bad" >"$work/lines"
told 'a list that agrees' 0 "$work/lines" "$work/nothing" replay "$list"
told 'a spoiled list' 1 tests/replay/spoiled.out "$work/nothing" replay tests/replay/spoiled.txt
unfit 'no such list' "the list can't be read: $work/none: No such file or directory" replay "$work/none"
unfit 'a folder for a list' "the list can't be read: $work: Is a directory" replay "$work"
input=$list
told 'a list on standard input' 0 "$work/lines" "$work/nothing" replay /dev/stdin
input=
unfit 'replay of nothing' 'usage: replay FILE' replay
echo '0 lines: 0 agree, 0 differ, 0 bad' >"$work/lines"
told 'an empty list' 0 "$work/lines" "$work/nothing" replay "$work/nothing"
"$root/glavorint" help >"$work/help"
told 'help' 0 "$work/help" "$work/nothing" --help
for words in 'run --help' 'trace -h' 'step --help' 'replay -h'; do
  told "$words" 0 "$work/help" "$work/nothing" $words
done
crooked=$(grep ' glavorint' "$work/help" | grep -v '^.\{54\}  [a-z]')
[ -z "$crooked" ] || fail "help: the second column is not straight: $crooked"
for n in 1 2 3 4 5 6 7; do
  grep -q "^  $n  " "$work/help" || fail "help has no line for refusal $n"
done

# ---- streams that are closed or full

complaint 'standard output is closed'
for words in "run $work/small $start 4" "trace $work/small $start 4" "step $start" "replay $list" 'help' ''; do
  "$root/glavorint" $words >&- 2>"$work/err"
  got=$?
  [ "$got" = 2 ] || fail "closed output: $words: status $got"
  cmp -s "$work/line" "$work/err" || fail "closed output: $words: $(cat "$work/err")"
  passed=$((passed + 1))
done
three none 0 "$start $none"
"$root/glavorint" run "$work/small" $start 0 <&- >"$work/out" 2>&- || fail 'closed input and standard error: refused'
cmp -s "$work/lines" "$work/out" || fail 'closed input and standard error: not the output expected'
{
  sleep 1
  "$root/glavorint" replay "$list" 2>"$work/err"
  echo $? >"$work/status"
} | :
[ "$(cat "$work/status")" = 1 ] || fail "replay into a closed pipe: status $(cat "$work/status")"
[ ! -s "$work/err" ] || fail "replay into a closed pipe: $(cat "$work/err")"
passed=$((passed + 2))
if [ -c /dev/full ]; then
  complaint 'standard output: No space left on device'
  "$root/glavorint" replay "$list" >/dev/full 2>"$work/err"
  [ $? = 2 ] || fail 'replay to a full disk: not status 2'
  cmp -s "$work/line" "$work/err" || fail "replay to a full disk: $(cat "$work/err")"
  passed=$((passed + 1))
fi

# ---- signals

mkfifo "$work/feed" "$work/seen"

# stopped NAME LAST COMMAND WORDS..: TERM to the command alone, once it has written a line, ends what it runs too: that never gets as far as LAST. Both
# pipes are held open until then, and the output is read to its end, which comes when nobody has it any more.
stopped() {
  name=$1
  last=$2
  shift 2
  "$@" <"$work/feed" >"$work/seen" 2>"$work/err" 7<&- 8<&- &
  command=$!
  timeout 300 head -n 1 <&8 >"$work/headline"
  [ -s "$work/headline" ] || fail "$name: no line in five minutes"
  kill -s TERM "$command"
  wait "$command" 2>/dev/null
  got=$?
  exec 9<"$work/seen" 7<&- 8<&-
  cat <&9 >"$work/rest"
  exec 9<&-
  [ "$got" = 143 ] || fail "$name: status $got, not 143"
  if grep -q "$last" "$work/rest"; then fail "$name: what it runs goes on"; fi
  passed=$((passed + 1))
}

exec 7<>"$work/feed" 8<>"$work/seen"
stopped 'TERM to a trace' '^1000000' "$root/glavorint" trace "$work/loop" $start 1000000 --out "$work/late"
[ ! -e "$work/late" ] || fail 'TERM to a trace: a file is made'
exec 7<>"$work/feed" 8<>"$work/seen"
stopped 'TERM to a session' '^cycles' "$root/glavorint" step $start
exec 7<>"$work/feed" 8<>"$work/seen"
cat tests/replay/spoiled.txt >&7
stopped 'TERM to a replay' ' agree, ' "$root/glavorint" replay "$work/feed"

# ---- no room

complaint "no folder can be made in $work/none"
TMPDIR=$work/none "$root/glavorint" replay "$list" >"$work/out" 2>"$work/err"
[ $? = 2 ] || fail 'no folder for the report: not status 2'
cmp -s "$work/line" "$work/err" || fail "no folder for the report: $(cat "$work/err")"
TMPDIR=$work/none "$root/glavorint" run "$work/small" $start 4 >"$work/out" 2>"$work/err" || fail 'no folder for a run, which needs none: refused'
passed=$((passed + 2))

# ---- from elsewhere

three none 4 "0001 0000 0000 01FF 0000 8003 00 00 30 0 $none"
cd "$work" || exit 2
told 'another directory' 0 "$work/lines" "$work/nothing" run small $start 4
ln -s "$root/glavorint" "$work/first"
mkdir "$work/links"
ln -s ../first "$work/links/second"
"$work/links/second" run small $start 4 >"$work/out" || fail 'a link to a link: refused'
cmp -s "$work/lines" "$work/out" || fail 'a link to a link: not the output expected'
(PATH="$work/links:$PATH" && second run small $start 4) >"$work/out" || fail 'by the PATH: refused'
cmp -s "$work/lines" "$work/out" || fail 'by the PATH: not the output expected'
passed=$((passed + 2))

# ---- proving on first use, by an rt that only says what the real one would

new=$work/new
mkdir -p "$new/crates/tanker/src" "$new/bin" "$new/path" "$new/tools"
: >"$new/crates.txt"
cp "$root/glavorint" "$new/glavorint"
cp "$root/tools/start" "$new/tools/start"
for tool in sh dirname find head tail mkdir cat mv chmod mktemp mkfifo rm sleep setsid date uname; do
  ! command -v $tool >/dev/null || ln -s "$(command -v $tool)" "$new/path/$tool"
done

# Seconds are as they come: on standard input the line of a proved crate has N of them.
timed() {
  sed 's/^\(proved [a-z_]*\) ([0-9]* s)$/\1 (N s)/'
}

# first NAME STATUS OUT ERR: the new repository's command on `run`, with no rt but the one in its bin/.
first() {
  PATH="$new/bin:$new/path" "$new/glavorint" run >"$work/out" 2>"$work/told"
  got=$?
  timed <"$work/told" >"$work/err"
  [ "$got" = "$2" ] || fail "$1: status $got, not $2: $(cat "$work/err")"
  cmp -s "$3" "$work/out" || fail "$1: not the output expected: $(diff "$3" "$work/out" | head -n 5)"
  cmp -s "$4" "$work/err" || fail "$1: not on standard error as expected: $(diff "$4" "$work/err" | head -n 5)"
  passed=$((passed + 1))
}

complaint "the Rattle toolchain is missing: put its 'rt' on the PATH"
first 'no toolchain' 2 "$work/nothing" "$work/line"
printf '#!/bin/sh\n' >"$new/bin/rt"
chmod +x "$new/bin/rt"
: >"$new/target"
complaint "$new/target/glavorint can't be written: what is proved is kept there"
first 'a target that is no folder' 2 "$work/nothing" "$work/line"
rm "$new/target"
cat >"$new/bin/rt" <<'END'
#!/bin/sh
[ "$*:${PWD##*/}" = run:tanker ] || exit 2
{
  echo 'rt: words: begins with what a check kept elsewhere'
  echo 'rt: chose --jobs 2 for flags'
  echo 'fn flags::Flags::set: proved'
  echo 'logic=proved functions=1'
  echo 'rt: chose --jobs 2 for tanker'
  echo 'fn tanker::main: not proved'
} >&2
exit 1
END
begun='glavorint: proving tanker and what it stands on; the first time takes many minutes'
log=$new/target/glavorint/tanker.log
{
  printf '%s\n' "$begun" 'proved flags (N s)'
  (cd "$new/crates/tanker" && "$new/bin/rt" run) 2>&1
  printf '%s\n' 'not proved' "glavorint: tanker isn't proved: $log has what rt says"
} >"$work/said"
first 'a proof that fails' 2 "$work/nothing" "$work/said"
if command -v setsid >/dev/null; then
  # the prover is not rt itself, but what rt runs
  cat >"$new/bin/rt" <<'END'
#!/bin/sh
sh -c 'echo begun; sleep 3; echo went on' >"$SEEN"
END
  exec 7<>"$work/feed" 8<>"$work/seen"
  stopped 'TERM to a proof' 'went on' env PATH="$new/bin:$new/path" SEEN="$work/seen" "$new/glavorint" run
else
  echo 'command: not run: TERM to a proof, since there is no setsid'
fi
cat >"$new/bin/rt" <<'END'
#!/bin/sh
{
  echo 'rt: chose --jobs 2 for flags'
  sleep "${PAUSE:-0}"
  echo 'logic=proved functions=1'
  echo 'rt: chose --jobs 2 for tanker'
  echo 'logic=proved functions=1'
} >&2
mkdir -p out
printf '#!/bin/sh\necho ran\necho complained >&2\nexit 1\n' >out/tanker
chmod +x out/tanker
echo 'rt: running out/tanker; to give it other input, run that file yourself' >&2
exec out/tanker
END
echo ran >"$work/ran"
printf '%s\n' "$begun" 'proved flags (N s)' 'proved tanker (N s)' complained >"$work/said"
echo complained >"$work/complained"
first 'a first use' 1 "$work/ran" "$work/said"
first 'a second use' 1 "$work/ran" "$work/complained"
rm -r "$new/target" "$new/crates/tanker/out"
PAUSE=1 PATH="$new/bin:$new/path" "$new/glavorint" run >"$work/beside" 2>&1 &
beside=$!
PAUSE=1
export PAUSE
first 'two first uses at once' 1 "$work/ran" "$work/said"
wait "$beside"
{
  grep -v complained "$work/said"
  printf '%s\n' ran complained
} >"$work/both"
timed <"$work/beside" | cmp -s "$work/both" - || fail "two first uses at once: $(cat "$work/beside")"
rm "$new/bin/rt"
first 'a second use without the toolchain' 1 "$work/ran" "$work/complained"
printf '#!/bin/sh\nkill -9 $$\n' >"$new/crates/tanker/out/tanker"
PATH="$new/bin:$new/path" "$new/glavorint" run >"$work/out" 2>"$work/err"
[ $? = 1 ] || fail 'a program that is killed: not status 1'
grep -q 'tanker ended without a status (its own was 137)' "$work/err" || fail "a program that is killed: $(cat "$work/err")"
printf '#!/bin/sh\nexit 7\n' >"$new/crates/tanker/out/tanker"
complaint 'tanker ended without a status (its own was 7)'
first 'a program with another status' 1 "$work/nothing" "$work/line"
passed=$((passed + 1))

echo "command: $passed cases passed"
