#!/usr/bin/env bash
# Runs the program sjval as a user would, and looks at its statuses and at what it writes.
# Usage: tools/program.sh PROGRAM. Needs python3. The last line is 'N passed, M failed'.
set -u
program=$(realpath "$1")
for need in "$program" "$(command -v python3)"; do
  if [ ! -f "$need" ] || [ ! -x "$need" ]; then
    echo "failed: there is no program ${1:-} or no python3"
    echo '0 passed, 1 failed'
    exit 1
  fi
done
tools=$(realpath "$(dirname "$0")")
work=$(mktemp -d)
trap 'rm -rf "$work"' EXIT
cd "$work" || exit 1
passed=0
failed=0

# expect NAME STATUS STDOUT STDERR, after a run has left its own in out, err and status
expect() {
  printf '%b' "$3" > want.out
  printf '%b' "$4" > want.err
  if [ "$status" = "$2" ] && cmp -s out want.out && cmp -s err want.err; then
    passed=$((passed + 1))
  else
    failed=$((failed + 1))
    printf 'failed: %s (status %s)\n' "$1" "$status"
    head -c 300 out
    head -c 300 err
  fi
}

# session NAME WORDS INPUT STATUS STDOUT STDERR; the texts may have escapes as \n, \xff
session() {
  # shellcheck disable=SC2086
  printf '%b' "$3" | "$program" $2 > out 2> err
  status=$?
  expect "$1" "$4" "$5" "$6"
}

# table WORDS: the sessions of tools/commands.txt, each a line '= DOCUMENT' with lines '> COMMAND' and their replies, where a lazy document
# replies otherwise behind a line '~'
table() {
  local at=0 from
  rm -rf sessions
  mkdir sessions
  awk -v form="$1" 'function tell() { printf "%s", reply > ("sessions/" n ".want"); reply = "" }
       /^= / { if (n) { tell(); close("sessions/" n ".in"); close("sessions/" n ".want") }
               n++; print substr($0, 3) "\n---" > ("sessions/" n ".in"); lazy = 0; next }
       /^> / { tell(); print substr($0, 3) > ("sessions/" n ".in"); lazy = 0; next }
       /^~$/ { lazy = 1; if (form == "lazy") reply = ""; next }
       !lazy || form == "lazy" { reply = reply $0 "\n" }
       END { tell() }' "$tools/commands.txt"
  for from in sessions/*.in; do
    # shellcheck disable=SC2086
    "$program" $1 < "$from" > out 2> err
    if [ $? = 0 ] && cmp -s out "${from%.in}.want" && [ ! -s err ]; then
      at=$((at + 1))
    else
      failed=$((failed + 1))
      printf 'failed: %s on this session of tools/commands.txt\n' "$1"
      head -c 300 "$from"
      diff out "${from%.in}.want" | head -5
    fi
  done
  passed=$((passed + at))
}

usage='usage: sjval owned|borrowed|lazy [known] [last]\n'

session 'an insert and two encodes' owned '{"a":1}\n---\n["insert",[],"b",[true]]\n["encode",[]]\n' 0 'none\n{"a":1,"b":[true]}\n' ''
session 'no commands' owned '[1]' 0 '' ''
session 'a mark without a line feed' owned '[1]\n---' 0 '' ''
session 'CR LF' owned '[1]\r\n---\r\n["encode",[]]\r\n' 0 '[1]\n' ''
session 'borrowed' borrowed '{"a":1,"a":2}\n---\n["len",[]]\n["pop",[]]\n["encode",[]]\n' 0 '1\nnot an array\n{"a":1}\n' ''
session 'lazy, read and written' lazy '{"key": "value", "snot": 42}\n---\n["str",["key"]]\n["insert",[],"new",42]\n["keys",[]]\n["fits",["snot"],"i8"]\n["remove",[],"snot"]\n["encode",[]]\n' 0 '"value"\nnone\n["key","snot","new"]\ntrue\n42\n{"key":"value","new":42}\n' ''
session 'lazy, repeats until a write' lazy '{"a":1,"a":2}\n---\n["len",[]]\n["pop",[]]\n["encode",[]]\n' 0 '2\nnot an array\n{"a":1}\n' ''
session 'a text refused as lazy' lazy '[1,]' 3 '' 'text refused: Syntax\nline 1, column 4: syntax error\n'
session 'a pretty print' borrowed '{"a":[1,{}]}\n---\n["encode_pp",[]]\n' 0 '{\n  "a": [\n    1,\n    {}\n  ]\n}\n' ''
session 'escapes' borrowed '{"q\\"k":"a\\/b\\u0041"}\n---\n["encode",[]]\n' 0 '{"q\\"k":"a/bA"}\n' ''
session 'a text refused as borrowed' borrowed '[1,]' 3 '' 'text refused: Syntax\nline 1, column 4: syntax error\n'
session 'a line that is no command' owned 'null\n---\n["nonsense"]\n' 0 'bad command\n' ''
session 'no words' '' 'null' 2 '' "$usage"
session 'a word too many' 'owned known known' 'null' 2 '' "$usage"
session 'a word behind the last' 'owned last known' 'null' 2 '' "$usage"
session 'last twice' 'borrowed last last' 'null' 2 '' "$usage"
session 'four words' 'owned known last last' 'null' 2 '' "$usage"
session 'an unknown word' 'own' 'null' 2 '' "$usage"
session 'a word that is not UTF-8' $'\xff' 'null' 2 '' "$usage"
session 'a second word that is not UTF-8' $'owned \xff' 'null' 2 '' "$usage"
session 'lazy by known key' 'lazy known' 'null' 2 '' "$usage"
session 'lazy by known key with the last' 'lazy known last' 'null' 2 '' "$usage"
session 'the empty text' owned '' 3 '' 'text refused: Syntax\nline 1, column 1: syntax error\n'
session 'no UTF-8' owned '"\xff"' 3 '' 'text refused: InvalidUtf8\nline 1, column 2: invalid UTF-8\n'
session 'a fraction' owned '[1,\n 2.5]\n---\n' 3 '' 'text refused: Float\nline 2, column 3: number with a fraction or an exponent\n'
session 'half a pair' owned '"\\ud83d"' 3 '' 'text refused: LoneSurrogate\nline 1, column 8: lone surrogate\n'
session 'a large number' owned '340282366920938463463374607431768211456' 3 '' 'text refused: NumberTooLarge\nline 1, column 39: number too large\n'
session 'the first line is ---' owned '---\n["encode",[]]\n' 3 '' 'text refused: Syntax\nline 1, column 1: syntax error\n'

printf '[%.0s' {1..1025} | "$program" owned > out 2> err
status=$?
expect 'nested too deep' 3 '' 'text refused: TooDeep\nline 1, column 1025: nested too deep\n'

"$program" < / > out 2> err
status=$?
expect 'usage before any input is read' 2 '' "$usage"

"$program" owned < / > out 2> err
status=$?
expect 'an input that fails' 5 '' 'input or output failed\n'

printf '1\n---\n["encode",[]]\n' | "$program" owned 2> err > /dev/full
status=$?
: > out
expect 'an output that fails' 5 '' 'input or output failed\n'

head -c 400000000 /dev/zero | tr '\0' ' ' | (ulimit -v 300000; exec "$program" owned) > out 2> err
status=$?
expect 'no memory for the input' 4 '' 'out of memory\n'

python3 "$tools/commands.py" > out
status=$?
: > err
if [ "$status" = 0 ] && cmp -s out "$tools/commands.txt"; then
  passed=$((passed + 1))
else
  failed=$((failed + 1))
  echo 'failed: tools/commands.txt is what tools/commands.py writes'
fi

# 33 keys of six blocks, each Aa or BB, all of one hash: key i has the value i
keys=''
for i in {0..32}; do
  key=''
  for bit in 32 16 8 4 2 1; do
    if ((i & bit)); then key+=BB; else key+=Aa; fi
  done
  keys+=",\"$key\":$i"
done
collide="{${keys:1}}\n---\n"'["remove",[],"AaAaAaAaAaAa"]\n["len",[]]\n["has",[],"BBAaAaAaAaAa"]\n["encode",["AaAaAaAaAaBB"]]\n["insert",[],"AaAaAaAaAaAa",7]\n["len",[]]\n'

kinds='[1,[2,3]]\n---\n["kind",[1]]\n["len",[1]]\n["push",[1],{"a":1,"a":2}]\n["put",[0],null]\n["pop",[5]]\n["pop",[]]\n["has",[],"a"]\n["len",[0]]\n["insert",[],"k",1]\n["nonsense"]\n["encode",[]]\n'

# the text with repeats, whose first or last values count; the command lines keep the first
repeats='{"a":1,"b":{"c":4,"c":5},"a":[6]}\n---\n["encode",["a"]]\n["encode",["b","c"]]\n["len",[]]\n["keys",[]]\n["pop",["b"]]\n["encode",[]]\n["insert",[],"z",{"q":1,"q":2}]\n["encode",["z"]]\n'

for words in owned 'owned known' borrowed 'borrowed known'; do
  session "keys of one hash, $words" "$words" "$collide" 0 '0\n32\ntrue\n1\nnone\n33\n' ''
  session "kinds, $words" "$words" "$kinds" 0 'Array\n2\nok\n1\nmissing\n[2,3,{"a":1}]\nfalse\nno length\nnot an object\nbad command\n[null]\n' ''
  session "first values, $words" "$words" "$repeats" 0 '1\n4\n2\n["a","b"]\nnot an array\n{"a":1,"b":{"c":4}}\nnone\n{"q":1}\n' ''
  session "last values, $words" "$words last" "$repeats" 0 '[6]\n5\n2\n["a","b"]\nnot an array\n{"a":[6],"b":{"c":5}}\nnone\n{"q":1}\n' ''
  session "last in the place of the first, $words" "$words last" '{"a":1,"b":2,"a":3}\n---\n["encode",[]]\n' 0 '{"a":3,"b":2}\n' ''
  session "a text refused, $words" "$words last" '[1,]' 3 '' 'text refused: Syntax\nline 1, column 4: syntax error\n'
  table "$words"
done

session 'keys of one hash, lazy' lazy "$collide" 0 '0\n32\ntrue\n1\nnone\n33\n' ''
session 'kinds, lazy' lazy "$kinds" 0 'Array\n2\nok\n1\nmissing\n[2,3,{"a":1}]\nfalse\nno length\nnot an object\nbad command\n[null]\n' ''
session 'first values, lazy' lazy "$repeats" 0 '1\n4\n3\n["a","b","a"]\nnot an array\n{"a":1,"b":{"c":4}}\nnone\n{"q":1}\n' ''
session 'last values, lazy' 'lazy last' "$repeats" 0 '[6]\n5\n3\n["a","b","a"]\nnot an array\n{"a":[6],"b":{"c":5}}\nnone\n{"q":1}\n' ''
table lazy

echo "left out: the sessions of tools/commands.txt where the last member of a key counts (tools/broken.py has commands in all ways)"
echo "$passed passed, $failed failed"
[ "$failed" = 0 ]
