#!/usr/bin/env bash
# Runs the program sjpatch as a user would, and looks at its statuses, at what it writes and at its files.
# Usage: tools/sjpatch.sh PROGRAM. Needs gcc. The last line is 'N passed, M failed'.
set -u
program=$(realpath "$1")
for need in "$program" "$(command -v gcc)"; do
  if [ ! -f "$need" ] || [ ! -x "$need" ]; then
    echo "failed: there is no program ${1:-}, or no gcc"
    echo '0 passed, 1 failed'
    exit 1
  fi
done
tools=$(dirname "$(realpath "${BASH_SOURCE[0]}")")
work=$(mktemp -d)
trap 'rm -rf "$work"' EXIT
gcc -O2 -shared -fPIC -o "$work/refuse.so" "$tools/refuse.c" || exit 1
cd "$work" || exit 1
# shellcheck source=tools/refuse.sh
. "$tools/refuse.sh"

# check GOOD NAME: counts one look
check() {
  if [ "$1" = yes ]; then
    passed=$((passed + 1))
  else
    failed=$((failed + 1))
    printf 'failed: %s (status %s)\n' "$2" "${status:-}"
    head -c 300 out err
  fi
}

# expect NAME WORDS INPUT STATUS STDOUT STDERR: a run with that standard input; the texts may have escapes
expect() {
  local good=no
  # shellcheck disable=SC2086
  printf '%b' "$3" | "$program" $2 > out 2> err
  status=$?
  printf '%b' "$5" > want.out
  printf '%b' "$6" > want.err
  [ "$status" = "$4" ] && cmp -s out want.out && cmp -s err want.err && good=yes
  check $good "$1"
}

# holds NAME FILE TEXT: the file has that text, and no other stands beside it
holds() {
  local good=no
  [ "$(cat "$2")" = "$3" ] && [ ! -e "$2.sjpatch" ] && good=yes
  check $good "$1"
}

old='{"a":{"b":1},"list":[1,3]}'
new='{"a":{"b":2},"list":[1,2,3]}'
difference='[{"op":"replace","path":"/a/b","value":2},{"op":"add","path":"/list/1","value":2}]'
failing='[{"op":"remove","path":"/list"},{"op":"test","path":"/a","value":1}]'
printf '%s\n' "$old" > old.json
printf '%s\n' "$new" > new.json
printf '%s\n' "$difference" > patch.json
printf '%s\n' "$failing" > failing.json

expect 'an empty difference' 'diff old.json -' "$old" 0 '[]\n' ''
expect 'a difference in lines' 'diff --pretty old.json -' '[]' 0 \
  '[\n  {\n    "op": "replace",\n    "path": "",\n    "value": []\n  }\n]\n' ''
expect same 'same old.json -' '{"list":[1,3],"a":{"b":1}}' 0 '' ''
expect 'not the same' 'same old.json new.json' '' 1 '' ''
expect 'options behind the files' 'merge - old.json -p' '{"a":null,"list":null}' 0 '{}\n' ''

printf '%s' '{"b":[2,{"d":4,"c":3}],"a":{}}' > plain.json
expect canon 'canon plain.json' '' 0 '{"a":{},"b":[2,{"c":3,"d":4}]}' ''
expect 'canon in place' 'canon --in-place plain.json' '' 0 '' ''
holds 'canon in place' plain.json '{"a":{},"b":[2,{"c":3,"d":4}]}'

# files that are replaced; a link stays one, and so do permissions
cp old.json kept.json
chmod 640 kept.json
ln -s kept.json link.json
expect 'in place' 'apply -i patch.json link.json' '' 0 '' ''
holds 'in place' kept.json "$new"
good=no
[ -L link.json ] && [ "$(stat -c %a kept.json)" = 640 ] && good=yes
check $good 'a link and permissions'
expect 'a fault in place' 'apply --in-place failing.json kept.json' '' 6 '' 'sjpatch: operation 1: the value differs\n'
holds 'a fault in place' kept.json "$new"
expect 'merge in place' 'merge -ip - kept.json' '{"a":null,"list":null}' 0 '' ''
holds 'merge in place' kept.json '{}'
: > kept.json.sjpatch
expect 'a file beside' 'merge -i new.json kept.json' '' 5 '' 'sjpatch: kept.json: cannot be written: File exists (os error 17)\n'
good=no
[ "$(cat kept.json)" = '{}' ] && [ -e kept.json.sjpatch ] && good=yes
check $good 'a file beside is kept'
rm kept.json.sjpatch
expect 'no place for a new file' 'merge -i new.json /dev/null' '' 3 '' 'sjpatch: /dev/null: line 1, column 1: syntax error\n'
"$program" merge new.json old.json > /dev/full 2> err
status=$?
good=no
[ "$status" = 5 ] && [ "$(cat err)" = 'sjpatch: standard output: cannot be written: No space left on device (os error 28)' ] && good=yes
check $good 'an output that is full'
"$program" --help > /dev/full 2> err
status=$?
good=no
[ "$status" = 5 ] && [ "$(cat err)" = 'sjpatch: standard output: cannot be written: No space left on device (os error 28)' ] && good=yes
check $good 'help that cannot be written'
"$program" --quick > out 2> /dev/full
status=$?
good=no
[ "$status" = 2 ] && [ ! -s out ] && good=yes
check $good 'usage that cannot be told'

# words
for words in --help -h 'apply --help'; do
  # shellcheck disable=SC2086
  "$program" $words > out 2> err
  status=$?
  good=no
  [ "$status" = 0 ] && grep -q 'Usage: sjpatch' out && [ ! -s err ] && good=yes
  check $good "words: $words"
done
for words in '' frob help apply 'apply a' 'apply a b c' 'apply -x a b' 'diff -i a b' 'same -p a b' 'diff a'; do
  # shellcheck disable=SC2086
  "$program" $words > out 2> err
  status=$?
  good=no
  [ "$status" = 2 ] && [ ! -s out ] && grep -q '^error: ' err && good=yes
  check $good "words: $words"
done
expect 'a word that is not UTF-8' $'\xff' '' 2 '' 'sjpatch: a word is not UTF-8\n'
expect twice 'same - -' '1' 2 '' 'sjpatch: standard input is one file alone\n'
expect 'standard input in place' 'canon -i -' "$old" 2 '' 'sjpatch: standard input cannot be replaced\n'
expect 'standard input in place' 'apply -i patch.json -' "$old" 2 '' 'sjpatch: standard input cannot be replaced\n'

# texts and files
expect 'no text' 'apply patch.json -' '{"a":\n1.5}' 3 '' 'sjpatch: standard input: line 2, column 2: number with a fraction or an exponent\n'
expect 'of two faults the first' 'canon -' '{x\n"\xff"' 3 '' 'sjpatch: standard input: line 1, column 2: syntax error\n'
expect 'no patch text' 'apply - old.json' '[' 3 '' 'sjpatch: standard input: line 1, column 2: syntax error\n'
expect 'no patch' 'apply old.json new.json' '' 3 '' 'sjpatch: old.json: a patch is an array\n'
expect 'no operation' 'apply - old.json' '[{"op":"test","path":"","value":null},{"op":"add","path":"x","value":1}]' 3 '' \
  'sjpatch: standard input: operation 1: no "path" that is a pointer\n'
expect 'no file' 'merge none.json old.json' '' 5 '' 'sjpatch: none.json: cannot be read: No such file or directory (os error 2)\n'

# each request refused in turn, from the start of the program to its end: the file is as it was, with no other
# beside it, or has all of the result, where the refused request can be gone without
n=1
refused=0
good=yes
export REFUSE_ALL=1
while cp old.json turn.json; run $n 'apply -i patch.json turn.json'; [ "$requests" -ge $n ]; do
  case $status in
    0) [ "$(cat turn.json)" = "$new" ] || good=no ;;
    4) [ "$(cat turn.json)" = "$old" ] && [ "$(cat err)" = 'sjpatch: out of memory' ] && refused=$((refused + 1)) || good=no ;;
    *) good=no ;;
  esac
  [ -e turn.json.sjpatch ] && good=no
  n=$((n + 1))
done
unset REFUSE_ALL
[ "$status" = 0 ] && [ "$(cat turn.json)" = "$new" ] && [ $refused -gt 100 ] || good=no
count $good 'a patch in place whose memory is refused'

echo "$passed passed, $failed failed"
[ "$failed" = 0 ]
