#!/usr/bin/env bash
# Runs the program sjroute as a user would, and looks at its statuses, its outputs and what it tells.
# Usage: tools/sjroute.sh PROGRAM. Needs gcc and python3. The last line is 'N passed, M failed'.
set -u
program=$(realpath "$1")
for need in "$program" "$(command -v gcc)" "$(command -v python3)"; do
  if [ ! -f "$need" ] || [ ! -x "$need" ]; then
    echo "failed: there is no program ${1:-}, or no gcc, or no python3"
    echo '0 passed, 1 failed'
    exit 1
  fi
done
tools=$(dirname "$(realpath "${BASH_SOURCE[0]}")")
work=$(mktemp -d)
trap 'rm -rf "$work"' EXIT
gcc -O2 -shared -fPIC -o "$work/refuse.so" "$tools/refuse.c" || exit 1
cd "$work" || exit 1
# shellcheck source=tools/refuse.sh
. "$tools/refuse.sh"

# expect NAME STATUS STDOUT STDERR, after a run has left its own in out, err and status; the texts may have escapes
expect() {
  printf '%b' "$3" > want.out
  printf '%b' "$4" > want.err
  if [ "$status" = "$2" ] && cmp -s out want.out && cmp -s err want.err; then
    passed=$((passed + 1))
  else
    failed=$((failed + 1))
    printf 'failed: %s (status %s)\n' "$1" "$status"
    head -c 300 out
    head -c 300 err
  fi
}

# holds NAME FILE TEXT: the output that a run wrote
holds() {
  printf '%b' "$3" > want.file
  if cmp -s "$2" want.file; then
    passed=$((passed + 1))
  else
    failed=$((failed + 1))
    printf 'failed: %s\n' "$1"
    head -c 300 "$2"
  fi
}

# route NAME RULES INPUT STATUS STDOUT STDERR
route() {
  printf '%b' "$2" > rules.json
  printf '%b' "$3" | "$program" rules.json > out 2> err
  status=$?
  expect "$1" "$4" "$5" "$6"
}

# words NAME STATUS STDERR WORDS..
words() {
  local name=$1 want=$2 told=$3
  shift 3
  "$program" "$@" < /dev/null > out 2> err
  status=$?
  expect "$name" "$want" '' "$told"
}

# wrong NAME RULES FAULT: rules that are refused before any input is read
wrong() {
  printf '%b' "$2" > rules.json
  "$program" rules.json < / > out 2> err
  status=$?
  expect "$1" 3 '' "sjroute: rules.json: $3\n"
}

usage='sjroute: usage: sjroute RULES (or --help)\n'
words 'no words' 2 "$usage"
words 'two words' 2 "$usage" a b
words 'an option that is none' 2 "$usage" --quick
words 'a word that is not UTF-8' 2 "$usage" $'\xff'
words 'no file of rules' 3 'sjroute: absent.json: cannot be read\n' absent.json
"$program" --help < / > out 2> err
status=$?
if [ "$status" = 0 ] && grep -q '^usage: sjroute RULES$' out && [ ! -s err ]; then
  passed=$((passed + 1))
else
  failed=$((failed + 1))
  echo 'failed: --help'
fi
"$program" --help > /dev/full 2> err
status=$?
: > out
expect 'help that cannot be written' 5 '' 'sjroute: -: cannot be written\n'

wrong 'rules that are no JSON' '[{"output":"o",\n "key": nul}]' 'line 2, column 12: syntax error'
wrong 'rules with a fraction' '[{"output":"o","key":"a","value":1.5}]' 'line 1, column 35: number with a fraction or an exponent'
wrong 'rules with two faults' '[x\n"\xff"]' 'line 1, column 2: syntax error'
wrong 'rules that end too soon' '[{"output":"o"}' 'line 1, column 16: syntax error'
wrong 'rules that are no array' '{"output":"o"}' 'expected an array of routes'
wrong 'a route that is no object' '[{"output":"o"},7]' 'at /1: expected an object'
wrong 'a member of no meaning' '[{"output":"o","vlaue":1}]' 'at /0/vlaue: expected no such member'
wrong 'a member of no meaning, with a slash' '[{"output":"o","a/b~":1}]' 'at /0/a~1b~0: expected no such member'
wrong 'no output' '[{"key":"a"}]' 'at /0: expected "output", the name of a file or "-"'
wrong 'an output that is no string' '[{"output":1}]' 'at /0/output: expected a string'
other='another output than that of a route before it'
wrong 'one output twice' '[{"output":"o"},{"output":"p"},{"output":"o"}]' "at /2/output: expected $other"
wrong 'no slash in front' '[{"output":"o","pointer":"n"}]' 'at /0/pointer: expected a pointer, which is empty or begins with a slash'
wrong 'a tilde alone' '[{"output":"o","pointer":"/a~"}]' 'at /0/pointer: expected a 0 or a 1 behind each tilde'
wrong 'a pointer that is no string' '[{"output":"o","pointer":["a"]}]' 'at /0/pointer: expected a string'
wrong 'a key that is no string' '[{"output":"o","key":7}]' 'at /0/key: expected a string'
wrong 'a pointer and a key' '[{"output":"o","key":"a","pointer":""}]' 'at /0/key: expected no "pointer" beside it'
wrong 'a kind that is none' '[{"output":"o"},{"output":"p","kind":"text"}]' 'at /1/kind: expected "null", "bool", "number", "string", "array" or "object"'
wrong 'a kind and a value' '[{"output":"o","kind":"null","value":null}]' 'at /0/kind: expected no "value" beside it'
wrong 'takes of no meaning' '[{"output":"o","takes":"all"}]' 'at /0/takes: expected "unmet" or "unread"'
wrong 'takes beside a rule' '[{"output":"o","takes":"unmet","key":"a"}]' 'at /0/takes: expected no "key" beside it'
wrong 'lines that are not read, merged' '[{"output":"o","takes":"unread","merge":{}}]' 'at /0/merge: expected none for lines that are not read'

# outputs that are one file, by any of their names: refused before any is opened, so that each stands as it was
mkdir folder
echo kept > kept
ln -s kept link
wrong 'an output that is the file of rules' '[{"output":"new"},{"output":"./rules.json"}]' 'at /1/output: expected another output than the file of rules'
wrong 'two names of one file' '[{"output":"kept"},{"output":"folder/../kept"}]' "at /1/output: expected $other"
wrong 'a link and its file' '[{"output":"link"},{"output":"kept"}]' "at /1/output: expected $other"
wrong 'two names of a file that is not there yet' '[{"output":"new"},{"output":"-"},{"output":"folder//.././new"}]' "at /2/output: expected $other"
holds 'what was there before' kept 'kept\n'
input='sjroute: rules.json: at /0/output: expected another output than the file of standard input\n'
echo '[{"output":"folder/../kept"}]' > rules.json
"$program" rules.json < kept > out 2> err
status=$?
expect 'an output that is the input' 3 '' "$input"
holds 'the input' kept 'kept\n'
echo '[{"output":"-"}]' > rules.json
"$program" rules.json < kept >> kept 2> err
status=$?
: > out
expect 'a standard output that is the input' 3 '' "$input"
holds 'the same input' kept 'kept\n'
echo '[{"output":"-"},{"output":"kept"}]' > rules.json
"$program" rules.json < / >> kept 2> err
status=$?
expect 'a standard output that is an output' 3 '' "sjroute: rules.json: at /1/output: expected $other\n"
if [ ! -e new ]; then
  passed=$((passed + 1))
else
  failed=$((failed + 1))
  echo 'failed: an output was opened in front of a refusal'
fi
route 'one device by two names' '[{"output":"/dev/null"},{"output":"/dev/../dev/null"}]' '1\n' 0 '' '1 lines, 0 not read, 0 met no rule\n1 to /dev/null\n1 to /dev/../dev/null\n'

all='[{"output":"-"}]'
route 'no routes, no input' '[]' '' 0 '' '0 lines, 0 not read, 0 met no rule\n'
route 'no routes' '[]' '1\n' 0 '' '1 lines, 0 not read, 1 met no rule\n'
route 'no last line feed' "$all" '{"a": 1}\n[2]' 0 '{"a": 1}\n[2]\n' '2 lines, 0 not read, 0 met no rule\n2 to -\n'
route 'CR LF' "$all" '{"a": 1}\r\n\r\n[2]\r\n' 0 '{"a": 1}\n[2]\n' '2 lines, 0 not read, 0 met no rule\n2 to -\n'
route 'escapes as they came' "$all" '"\\u0041\\\\n\\\\/"\n' 0 '"\\u0041\\\\n\\\\/"\n' '1 lines, 0 not read, 0 met no rule\n1 to -\n'
route 'a broken line and the next' "$all" '[1]\n\n{"a": 1,}\n[3]\n' 1 '[1]\n[3]\n' 'line 3, column 9: syntax error\n3 lines, 1 not read, 0 met no rule\n2 to -\n'
route 'a line of spaces' "$all" ' \n' 1 '' 'line 1, column 2: syntax error\n1 lines, 1 not read, 0 met no rule\n0 to -\n'
route 'a fraction' "$all" '[1.5]\n' 1 '' 'line 1, column 3: number with a fraction or an exponent\n1 lines, 1 not read, 0 met no rule\n0 to -\n'
route 'no UTF-8' "$all" '"a\xff"\n' 1 '' 'line 1, column 3: invalid UTF-8\n1 lines, 1 not read, 0 met no rule\n0 to -\n'
route 'broken lines as they came' '[{"output":"bad","takes":"unread"}]' '"\\u0041\\ud800"\n{\r\n1\n' 1 '' 'line 1, column 14: lone surrogate\nline 2, column 2: syntax error\n3 lines, 2 not read, 1 met no rule\n2 to bad\n'
holds 'broken lines as they came' bad '"\\u0041\\ud800"\n{\n'
route 'two rules that are met' '[{"output":"a","key":"a"},{"output":"b","pointer":"/a","value":1},{"output":"rest","takes":"unmet"}]' '{"a":1}\n{"a":2}\n{"b":1}\n' 0 '' '3 lines, 0 not read, 1 met no rule\n2 to a\n1 to b\n1 to rest\n'
holds 'the first of two rules' a '{"a":1}\n{"a":2}\n'
holds 'the second of two rules' b '{"a":1}\n'
holds 'what met no rule' rest '{"b":1}\n'
route 'the first of repeated keys' '[{"output":"-","key":"a","value":1}]' '{"a":1,"a":2}\n{"a":2,"a":1}\n' 0 '{"a":1,"a":2}\n' '2 lines, 0 not read, 1 met no rule\n1 to -\n'
route 'a merge patch' '[{"output":"-","merge":{"a":null,"b":{"c":[]}}}]' '{ "a": 1, "b": 2, "b": 3 }\n[1]\n' 0 '{"b":{"c":[]}}\n{"b":{"c":[]}}\n' '2 lines, 0 not read, 0 met no rule\n2 to -\n'
route 'a number is the same in any carrier' '[{"output":"-","value":-0}]' '0\n-0\n1\n' 0 '0\n-0\n' '3 lines, 0 not read, 1 met no rule\n2 to -\n'
route 'an old output is made anew' '[{"output":"a"}]' '1\n' 0 '' '1 lines, 0 not read, 0 met no rule\n1 to a\n'
holds 'an old output is made anew' a '1\n'

echo '[{"output":"absent/o"}]' > rules.json
"$program" rules.json < / > out 2> err
status=$?
expect 'an output that cannot be opened' 5 '' 'sjroute: absent/o: cannot be written\n'
route 'an output that cannot be written' '[{"output":"/dev/full"}]' '1\n' 5 '' '1 lines, 0 not read, 0 met no rule\n1 to /dev/full\nsjroute: /dev/full: cannot be written\n'
echo "$all" > rules.json
echo 1 | "$program" rules.json 2> err > /dev/full
status=$?
: > out
expect 'a standard output that fails' 5 '' '1 lines, 0 not read, 0 met no rule\n1 to -\nsjroute: -: cannot be written\n'
"$program" rules.json < / > out 2> err
status=$?
expect 'an input that fails' 5 '' '0 lines, 0 not read, 0 met no rule\n0 to -\nsjroute: standard input: cannot be read\n'

# numbers go on behind 40,000 lines, which are more than one piece
{ yes '{"id":1}' | head -n 40000; echo; echo '{"id":}'; } > many.in
echo "$all" > rules.json
"$program" rules.json < many.in 2> err | wc -l > out
status=$?
expect 'a broken line behind many pieces' 0 '40000\n' 'line 40002, column 7: syntax error\n40001 lines, 1 not read, 0 met no rule\n40000 to -\n'

# memory: 30 MB of short lines in 24 MB, and a line of 100 MB in 400 MB, which does not fit 24 MB
long() { head -c "$1" /dev/zero | tr "\0" x | sed 's/.*/["&"]/'; echo; }
limited() { (ulimit -v "$1" && exec "$program" rules.json); }
yes '{"id":1,"text":"the quick brown fox","list":[1,2,3]}' | head -n 600000 | limited 24000 2> err | md5sum > out
status=$?
yes '{"id":1,"text":"the quick brown fox","list":[1,2,3]}' | head -n 600000 | md5sum > want.sum
expect 'many lines in little memory' 0 "$(cat want.sum)\n" '600000 lines, 0 not read, 0 met no rule\n600000 to -\n'
{ echo 1; long 100000000; echo 2; } > long.in
limited 400000 < long.in 2> err | md5sum > out
status=$?
expect 'a long line' 0 "$(md5sum < long.in)\n" '3 lines, 0 not read, 0 met no rule\n3 to -\n'
limited 24000 < long.in > out 2> told
status=$?
tail -n 1 told > err
expect 'a long line in too little memory' 4 '1\n' 'sjroute: out of memory\n'

# Each request for memory behind the first piece, which is one long line, refused in turn: the line where that was
# is counted, and those in front of it are counted and written.
{ printf '{"n":"'; head -c 300000 /dev/zero | tr '\0' x; printf '"}\n'; } > long.in
{ cat long.in; printf '%s\n' '{"n":1,"old":[{}]}' '{"old":"text"}' '{"n":{"old":[3]}}'; } > merges.in
{ sed 's/}$/,"seen":{"by":["me"]}}/' long.in; printf '%s\n' '{"n":1,"seen":{"by":["me"]}}' '{"seen":{"by":["me"]}}' \
  '{"n":{"old":[3]},"seen":{"by":["me"]}}'; } > merged.out

# stops: whether the run stopped in the line behind those that were written, and told so
stops() {
  written=$(wc -l < out)
  printf '%s lines, 0 not read, 0 met no rule\n%s to -\nsjroute: out of memory\n' $((written + 1)) "$written" > want.err
  head -n "$written" merged.out > want.out
  [ "$status" = 4 ] && cmp -s err want.err && cmp -s out want.out
}

echo '[{"output":"-"}]' > rules.json
run 0 rules.json < merges.in
plain=$requests
echo '[{"output":"-","merge":{"seen":{"by":["me"]},"old":null}}]' > rules.json
stopped=''
n=1
while run $n rules.json < merges.in; [ "$requests" -ge $n ] && stops; do
  case $stopped in *"$written") ;; *) stopped+=$written ;; esac
  n=$((n + 1))
done
good=no
[ "$status" = 0 ] && cmp -s out merged.out && [ "$requests" = $((n - 1)) ] && [ "$stopped" = 123 ] &&
  fewer "$plain" "$requests" && good=yes
count $good 'a merge whose memory is refused'

# The same of an output of each kind, whose first lines come behind that piece: each holds whole lines alone, as many
# as are told, and each line that is counted as not read is told.
{ cat long.in; printf '%s\n' '{"some":"message"}' '{"some":"message",}' '["no","rule"]' '{"some":[{}]}' '["no","more"]' \
  '{"some":{},"more"}'; } > outputs.in
printf '%s\n' '{"some":"message"}' '{"some":[{}]}' > whole.some
printf '%s\n' '{"some":"message","seen":true}' '{"some":[{}],"seen":true}' > whole.seen
printf '%s\n' '["no","rule"]' '["no","more"]' > whole.unmet
printf '%s\n' '{"some":"message",}' '{"some":{},"more"}' > whole.unread
printf '%s\n' '[{"output":"-","key":"n"},{"output":"some","key":"some"},{"output":"seen","key":"some","merge":{"seen":true}},' \
  '{"output":"unmet","takes":"unmet"},{"output":"unread","takes":"unread"}]' > rules.json

# wholes: whether each output holds the first of its lines, and so many were told, as were those that were not read
wholes() {
  local name lines unread
  unread=$(grep -cxE 'line (3, column 19|7, column 18): syntax error' err)
  for name in some seen unmet unread; do
    lines=$(wc -l < $name)
    head -n "$lines" whole.$name | cmp -s - $name && grep -qx "$lines to $name" err || return 1
  done
  grep -qx "[1-7] lines, $unread not read, [0-2] met no rule" err && cmp -s out long.in
}

stopped=''
n=1
while run $n rules.json < outputs.in; [ "$status" = 4 ] && [ "$(tail -n 1 err)" = 'sjroute: out of memory' ] && wholes; do
  written=$(cat some seen unmet unread | wc -l)
  case $stopped in *"$written") ;; *) stopped+=$written ;; esac
  n=$((n + 1))
done
good=no
case $stopped in
  0123*) [ "$status" = 1 ] && wholes && cat some seen unmet unread | cmp -s - <(cat whole.some whole.seen whole.unmet whole.unread) &&
    [ "$requests" = $((n - 1)) ] && good=yes ;;
esac
count $good 'outputs whose memory is refused'

echo "$passed passed, $failed failed"
[ "$failed" = 0 ]
