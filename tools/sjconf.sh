#!/usr/bin/env bash
# Runs the program sjconf as a user would, and looks at its statuses and at what it writes.
# Usage: tools/sjconf.sh PROGRAM. Needs gcc and python3. The last line is 'N passed, M failed'.
set -u
program=$(realpath "$1")
for need in "$program" "$(command -v gcc)" "$(command -v python3)"; do
  if [ ! -f "$need" ] || [ ! -x "$need" ]; then
    echo "failed: there is no program ${1:-}, no gcc or no python3"
    echo '0 passed, 1 failed'
    exit 1
  fi
done
tools=$(dirname "$(realpath "${BASH_SOURCE[0]}")")
work=$(mktemp -d)
trap 'rm -rf "$work"' EXIT
gcc -O2 -shared -fPIC -o "$work/refuse.so" "$tools/refuse.c" || exit 1
cd "$work" || exit 1
# shellcheck source=tools/refuse.sh
. "$tools/refuse.sh"

# check GOOD NAME: counts one look
check() {
  if [ "$1" = yes ]; then
    passed=$((passed + 1))
  else
    failed=$((failed + 1))
    printf 'failed: %s (status %s)\n' "$2" "${status:-}"
    head -c 600 out err
  fi
}

# conf NAME STATUS STDOUT STDERR WORDS..: a run with those words; the texts may have escapes, and standard input is the file in
conf() {
  local name=$1 want=$2 good=no
  printf '%b' "$3" > want.out
  printf '%b' "$4" > want.err
  shift 4
  "$program" "$@" < in > out 2> err
  status=$?
  [ "$status" = "$want" ] && cmp -s out want.out && cmp -s err want.err && good=yes
  check $good "$name"
}

# shape NAME SHAPE STATUS FAULTS WORDS..: a run of defaults.json and site.json with that shape, which has a file of its own
shapes=0
shape() {
  local name=$1 want=$3 faults=$4
  shapes=$((shapes + 1))
  printf '%b' "$2" > "shape$shapes.json"
  shift 4
  local told=
  [ "$want" = 0 ] && told='8080\n'
  conf "$name" "$want" "$told" "${faults//SHAPE/shape$shapes.json}" --get port --shape "shape$shapes.json" defaults.json site.json "$@"
}

: > in
printf '%s\n' '{"port":80,"hosts":["a","b"],"log":{"level":"info","to":null},"big":340282366920938463463374607431768211455}' > defaults.json
printf '{\n "port": 8080,\n "log": {"to": "/var/l\\u00f6g"}\n}\n' > site.json
printf '%s\n' '{"log":{"level":"debug"},"theme":{"dark":true},"hosts":["c"]}' > user.json
printf '{"a": 1,\n "b": tru}' > broken.json

# words
for words in --help -h; do
  "$program" $words > out 2> err
  status=$?
  good=no
  [ "$status" = 0 ] && grep -q 'Usage: sjconf' out && [ ! -s err ] && good=yes
  check $good "words: $words"
done
for words in '' '--get' '--set a=1' '--quick site.json' 'site.json --get' '--get a --get b site.json' '--shape a --shape b site.json' '--pretty'; do
  # shellcheck disable=SC2086
  "$program" $words > out 2> err
  status=$?
  good=no
  [ "$status" = 2 ] && [ ! -s out ] && grep -q '^error: ' err && good=yes
  check $good "words: $words"
done
conf 'a word that is not UTF-8' 2 '' 'sjconf: a word is not UTF-8\n' $'\xff' site.json

# files, one over another
conf 'one file' 0 '{"port":8080,"log":{"to":"/var/lög"}}\n' '' site.json
conf 'a pretty print' 0 '{\n  "port": 8080,\n  "log": {\n    "to": "/var/lög"\n  }\n}\n' '' -p site.json
conf 'a file over another' 0 '{"level":"info","to":"/var/lög"}\n' '' --get /log defaults.json site.json
conf 'three files' 0 '{"level":"debug","to":"/var/lög"}\n' '' --get log defaults.json site.json user.json
conf 'the order counts' 0 '{"level":"info"}\n' '' --get log site.json defaults.json
conf 'the nulls of the base stay' 0 '{"level":"info","to":null}\n' '' --get log defaults.json
conf 'an array is taken whole' 0 '["c"]\n' '' --get hosts defaults.json user.json
printf '%s' '{"log":null,"x":{"y":null}}' > in
conf 'standard input' 0 '{"port":80,"hosts":["a","b"],"big":340282366920938463463374607431768211455,"x":{}}\n' '' defaults.json -
conf 'standard input twice' 2 '' 'sjconf: standard input is one file alone\n' - -
conf 'standard input as a shape too' 2 '' 'sjconf: standard input is one file alone\n' - --shape -
printf '%s' '[3]' > in
conf 'what is no object takes the place' 0 '[3]\n' '' defaults.json -
for scalar in null 7 '"x"'; do
  printf '%s' "$scalar" > in
  conf "a later file of $scalar" 0 "$scalar\\n" '' defaults.json -
done
printf '%s' '[3]' > in
conf 'an object takes the place of an array' 0 '{"port":8080,"log":{"to":"/var/lög"}}\n' '' - site.json
printf '%s' '{"log.to":{"kind":"null"}}' > in
conf 'a shape on standard input' 0 '80\n' '' --shape - defaults.json --get port
: > in

# one value
conf 'a number' 0 '8080\n' '' --get /port defaults.json site.json
conf 'an item' 0 '"b"\n' '' --get hosts.1 defaults.json
conf 'an item at a pointer' 0 '"b"\n' '' --get /hosts/1 defaults.json
conf 'a raw string' 0 '/var/lög\n' '' --raw --get log.to site.json
conf 'a raw number' 0 '8080\n' '' -r --get port site.json
conf 'a pretty value' 0 '{\n  "to": "/var/lög"\n}\n' '' --pretty --get /log site.json
conf 'the whole at a pointer' 0 '{"port":8080,"log":{"to":"/var/lög"}}\n' '' --get '' site.json
conf 'nothing there' 1 '' 'sjconf: --get ports: nothing stands there\n' --get ports site.json
conf 'no such item' 1 '' 'sjconf: --get hosts.2: nothing stands there\n' --get hosts.2 defaults.json
conf 'no pointer' 2 '' 'sjconf: --get /a~: a pointer has a 0 or a 1 behind each tilde\n' --get '/a~' site.json

# values that are set
conf 'objects are made' 0 '{"port":8080,"log":{"to":"/var/lög","x":{"y":[1]}}}\n' '' --set 'log.x.y=[1]' site.json
conf 'a text' 0 '"a=b"\n' '' --set 'k=a=b' --get /k site.json
conf 'what is no JSON is a text' 0 '"tru"\n' '' --set k=tru --get /k site.json
conf 'an empty text' 0 '""\n' '' --set k= --get /k site.json
conf 'a version is a text' 0 '"1.2.3"\n' '' --set k=1.2.3 --get /k site.json
conf 'digits behind a 0 are a text' 0 '"007"\n' '' --set k=007 --get /k site.json
conf 'a number in quotes is a text' 0 '"1.5"\n' '' --set 'k="1.5"' --get /k site.json
conf 'a fraction' 2 '' 'sjconf: --set k=1.5: expected a whole number from -2^127 to 2^128-1, or a text in quotes\n' --set k=1.5 site.json
conf 'an exponent' 2 '' 'sjconf: --set k=-1E+5: expected a whole number from -2^127 to 2^128-1, or a text in quotes\n' --set k=-1E+5 site.json
conf 'a number past the limits' 2 '' 'sjconf: --set k=340282366920938463463374607431768211456: expected a whole number from -2^127 to 2^128-1, or a text in quotes\n' \
  --set k=340282366920938463463374607431768211456 site.json
for word in 'limits={"ratio":0.5}' 'k=[1.5]' 'k= 1.5' 'k=-1e5  ' 'k= [[340282366920938463463374607431768211456]]' 'k=[{"n":-0.0}] '; do
  conf "a number that is none: $word" 2 '' "sjconf: --set $word: expected a whole number from -2^127 to 2^128-1, or a text in quotes\n" --set "$word" site.json
done
for word in '1.2.3 ' '1.5x' '-' '.5' '[1' '{1.5'; do
  conf "a text: $word" 0 "$word\\n" '' --raw --get k --set "k=$word" site.json
done
conf 'a null is set' 0 '{"port":null,"log":{"to":"/var/lög"}}\n' '' --set port=null site.json
conf 'an object is set whole' 0 '{"level":"warn"}\n' '' --set 'log={"level":"warn"}' --get /log defaults.json site.json
conf 'a pointer' 0 '{"to":"/var/lög","a.b":{"x/y":true}}\n' '' --set '/log/a.b/x~1y=true' --get log site.json
conf 'one after another' 0 '2\n' '' --set a.b=1 --set /a/b=2 --get /a/b site.json
conf 'an item' 0 '["a",{"n":1}]\n' '' --set 'hosts.1={"n":1}' --get hosts defaults.json
conf 'an item that is not there' 6 '' 'sjconf: --set hosts.2=c: no such item, or no object or array on the way\n' --set hosts.2=c defaults.json
conf 'a scalar on the way' 6 '' 'sjconf: --set port.x=1: no such item, or no object or array on the way\n' --set a=1 --set port.x=1 site.json
conf 'the whole' 0 '5\n' '' --set =5 site.json
conf 'no setting' 2 '' 'sjconf: --set port: expected KEY=VALUE\n' --set port site.json
conf 'a setting of no pointer' 2 '' 'sjconf: --set /a~=1: a pointer has a 0 or a 1 behind each tilde\n' --set '/a~=1' site.json
conf 'an empty key' 0 '{"":{"b":1}}\n' '' --set a..b=1 --get a site.json
conf 'a setting with a line feed' 2 '' 'sjconf: --set "a\\nb": expected KEY=VALUE\n' --set $'a\nb' site.json
conf 'a number with a line feed behind it' 2 '' 'sjconf: --set "k=\\t1.5\\r\\n": expected a whole number from -2^127 to 2^128-1, or a text in quotes\n' --set $'k=\t1.5\r\n' site.json
conf 'a setting with a line feed that leads nowhere' 6 '' 'sjconf: --set "port.\\n=1": no such item, or no object or array on the way\n' --set $'port.\n=1' site.json
conf 'a key with a line feed' 1 '' 'sjconf: --get "a\\nb": nothing stands there\n' --get $'a\nb' site.json
conf 'no pointer with a control character' 2 '' 'sjconf: --get "/\\u001f~": a pointer has a 0 or a 1 behind each tilde\n' --get $'/\x1f~' site.json

# files that are not read
conf 'no such file' 5 '' 'sjconf: absent.json: cannot be read: No such file or directory (os error 2)\n' absent.json
conf 'no such file, with a line feed' 5 '' 'sjconf: "no\\nfile": cannot be read: No such file or directory (os error 2)\n' $'no\nfile'
conf 'a folder' 5 '' 'sjconf: .: cannot be read: Is a directory (os error 21)\n' .
conf 'a broken file' 3 '' 'sjconf: broken.json: line 2, column 10: syntax error\n' site.json broken.json
printf '[\n "\xff"]' > utf8.json
conf 'no UTF-8' 3 '' 'sjconf: utf8.json: line 2, column 3: invalid UTF-8\n' utf8.json
printf '{x\n"\xff"' > both.json
conf 'of two faults the first' 3 '' 'sjconf: both.json: line 1, column 2: syntax error\n' both.json
printf '{"n":\n\n  1.5}' > float.json
conf 'a file with a fraction' 3 '' 'sjconf: float.json: line 3, column 4: number with a fraction or an exponent\n' float.json
: > empty.json
conf 'an empty file' 3 '' 'sjconf: empty.json: line 1, column 1: syntax error\n' empty.json
conf 'a broken shape' 3 '' 'sjconf: broken.json: line 2, column 10: syntax error\n' --shape broken.json site.json
printf '{"a":' > in
conf 'broken standard input' 3 '' 'sjconf: standard input: line 1, column 6: syntax error\n' site.json -
conf 'a broken shape on standard input' 3 '' 'sjconf: standard input: line 1, column 6: syntax error\n' --shape - site.json
: > in
printf '\xef\xbb\xbf{}' > mark.json
conf 'a byte order mark' 3 '' 'sjconf: mark.json: line 1, column 1: syntax error\n' mark.json
printf '{\r\n "a": 1,\r\n "b": tru\r\n}' > returns.json
conf 'lines that end in CR LF' 3 '' 'sjconf: returns.json: line 3, column 10: syntax error\n' returns.json
conf 'no such shape' 5 '' 'sjconf: absent.json: cannot be read: No such file or directory (os error 2)\n' --shape absent.json site.json

# shapes that are met, and those that are not
shape 'all is as asked for' '{"":{"kind":"object"},"port":{"kind":"integer","min":1,"max":65535,"required":true},"/log":{"kind":"object","other_keys":false},"log.to":{"kind":"string","min_length":8,"max_length":8},"log.level":{"one_of":["info","warn"]},"none":{"kind":"null"},"hosts":{"min_length":2,"max_length":2}}' 0 ''
shape 'no demands' '{}' 0 ''
shape 'other keys are asked for' '{"log":{"other_keys":true}}' 0 ''
shape 'the ends of a range' '{"port":{"min":8080,"max":8080}}' 0 ''
shape 'a number past 2^127 is above' '{"big":{"min":170141183460469231731687303715884105727}}' 0 ''
shape 'what may be missing' '{"name":{"kind":"string","required":false}}' 0 ''
shape 'keys of what is no object' '{"port":{"other_keys":false}}' 0 ''
shape 'values that are the same' '{"log":{"one_of":[1,{"to":"/var/lög","level":"info"}]}}' 0 ''
shape 'too large' '{"port":{"max":80}}' 7 'sjconf: site.json: line 2, column 10: at /port: expected an integer of at most 80, found 8080\n'
shape 'too small' '{"port":{"min":8081,"max":9000}}' 7 'sjconf: site.json: line 2, column 10: at /port: expected an integer from 8081 to 9000, found 8080\n'
shape 'a number past 2^127 is no less' '{"big":{"max":170141183460469231731687303715884105727}}' 7 \
  'sjconf: defaults.json: line 1, column 69: at /big: expected an integer of at most 170141183460469231731687303715884105727, found 340282366920938463463374607431768211455\n'
shape 'no number' '{"log.level":{"min":0}}' 7 'sjconf: defaults.json: line 1, column 45: at /log/level: expected an integer of at least 0, found "info"\n'
shape 'a value that was set' '{"port":{"kind":"string"}}' 7 'sjconf: --set port=8081: at /port: expected a string, found 8081\n' --set port=8081
shape 'another kind' '{"log.level":{"kind":"boolean"}}' 7 'sjconf: defaults.json: line 1, column 45: at /log/level: expected a boolean, found "info"\n'
shape 'a container of another kind' '{"log":{"kind":"array"}}' 7 'sjconf: site.json: line 3, column 9: at /log: expected an array, found an object\n'
shape 'the whole of another kind' '{"":{"kind":"null"}}' 7 'sjconf: site.json: line 1, column 1: at the top: expected null, found an object\n'
shape 'an array of another kind' '{"hosts":{"kind":"object"}}' 7 'sjconf: defaults.json: line 1, column 20: at /hosts: expected an object, found an array of length 2\n'
shape 'too long' '{"log.to":{"max_length":7}}' 7 'sjconf: site.json: line 3, column 16: at /log/to: expected a value with a length of at most 7, found "/var/lög"\n'
shape 'too short' '{"hosts":{"kind":"array","min_length":3,"max_length":4}}' 7 \
  'sjconf: defaults.json: line 1, column 20: at /hosts: expected an array with a length from 3 to 4, found an array of length 2\n'
shape 'no length' '{"port":{"min_length":1}}' 7 'sjconf: site.json: line 2, column 10: at /port: expected a value with a length of at least 1, found 8080\n'
shape 'none of the choices' '{"log.level":{"kind":"string","one_of":["a\\"b",null,[1]]}}' 7 \
  'sjconf: defaults.json: line 1, column 45: at /log/level: expected a string, one of "a\\"b", null, [1], found "info"\n'
shape 'a key too many' '{"log":{"other_keys":false},"log.to":{}}' 7 'sjconf: defaults.json: line 1, column 45: at /log/level: expected no key but "to", found "info"\n'
shape 'keys as JSON' '{"log":{"other_keys":false},"/log/\\u0001":{},"log.to":{}}' 7 \
  'sjconf: defaults.json: line 1, column 45: at /log/level: expected no key but "\\u0001", "to", found "info"\n'
shape 'a key too many at the top' '{"":{"other_keys":false},"port":{},"log.level":{}}' 7 \
  'sjconf: defaults.json: line 1, column 20: at /hosts: expected no key but "port", "log", found an array of length 2\nsjconf: defaults.json: line 1, column 69: at /big: expected no key but "port", "log", found 340282366920938463463374607431768211455\n'
shape 'no keys at all' '{"log":{"other_keys":false}}' 7 \
  'sjconf: defaults.json: line 1, column 45: at /log/level: expected no key, found "info"\nsjconf: site.json: line 3, column 16: at /log/to: expected no key, found "/var/lög"\n'
shape 'what is missing' '{"name":{"kind":"string","required":true}}' 7 'sjconf: site.json: line 1, column 1: at /name: expected a string, found nothing\n'
shape 'what is missing in an object' '{"log.size":{"kind":"integer","min":1,"required":true}}' 7 \
  'sjconf: site.json: line 3, column 9: at /log/size: expected an integer of at least 1, found nothing\n'
shape 'what is missing in what is missing' '{"a.b.c":{"required":true}}' 7 'sjconf: site.json: line 1, column 1: at /a/b/c: expected a value, found nothing\n'
shape 'what is missing in a scalar' '{"port.x":{"required":true}}' 7 'sjconf: site.json: line 2, column 10: at /port/x: expected a value, found nothing\n'
shape 'what is missing in what was set' '{"a.c":{"required":true}}' 7 'sjconf: --set a.b=1: at /a/c: expected a value, found nothing\n' --set a.b=1
shape 'what is missing in an array' '{"hosts.2":{"required":true}}' 7 'sjconf: user.json: line 1, column 56: at /hosts/2: expected a value, found nothing\n' user.json
shape 'an item' '{"hosts.0":{"kind":"integer"}}' 7 'sjconf: user.json: line 1, column 57: at /hosts/0: expected an integer, found "c"\n' user.json
shape 'inside what was set' '{"log.a":{"kind":"null"}}' 7 'sjconf: --set log={"a":[1]}: at /log/a: expected null, found an array of length 1\n' --set log.a=3 --set 'log={"a":[1]}'
shape 'inside what was set whole before' '{"log.a":{"kind":"null"}}' 7 'sjconf: --set log.a.b=1: at /log/a: expected null, found an object\n' --set 'log={}' --set log.a.b=1
shape 'a line feed in what was set' '{"port":{"kind":"null"}}' 7 'sjconf: --set "port=a\\nb": at /port: expected null, found "a\\nb"\n' --set $'port=a\nb'
shape 'a line feed in a pointer' '{"/a\\nb/\\"":{"required":true}}' 7 'sjconf: site.json: line 1, column 1: at "/a\\nb/\\"": expected a value, found nothing\n'
shape 'all that is not met' '{"port":{"kind":"null"},"hosts":{"max_length":0},"none":{"required":true}}' 7 \
  'sjconf: site.json: line 2, column 10: at /port: expected null, found 8080\nsjconf: defaults.json: line 1, column 20: at /hosts: expected a value with a length of at most 0, found an array of length 2\nsjconf: site.json: line 1, column 1: at /none: expected a value, found nothing\n'
printf '%s' '{"\u0070ort": "\"}{", "port": 2, "l\u006fg": {"x": [{"y":"]"},{"y": 7}]}}' > escaped.json
printf '%s' '{"port":{"kind":"null"},"log.x.1.y":{"kind":"string"}}' > shape.json
conf 'escapes, repeats and brackets in texts' 7 '' \
  'sjconf: escaped.json: line 1, column 15: at /port: expected null, found "\\"}{"\nsjconf: escaped.json: line 1, column 69: at /log/x/1/y: expected a string, found 7\n' \
  --shape shape.json escaped.json
printf '%s' '{"port":null}' > in
printf '%s' '{"port":{"required":true}}' > shape.json
conf 'what a null took out' 7 '' 'sjconf: standard input: line 1, column 1: at /port: expected a value, found nothing\n' --shape shape.json site.json -
printf '%s' '{"port":{"required":true,"kind":"integer"}}' > shape.json
printf '{\r\n "port": null\r\n}' > in
conf 'a null of the base, behind CR LF' 7 '' 'sjconf: standard input: line 2, column 10: at /port: expected an integer, found null\n' --shape shape.json -
printf '%s' '{"port":null}' > in
conf 'a null of the base' 7 '' 'sjconf: standard input: line 1, column 9: at /port: expected an integer, found null\n' --shape shape.json -
: > in
printf '%s' null > in
printf '%s' '{"":{"kind":"object"}}' > shape.json
conf 'a null as a later file' 7 '' 'sjconf: standard input: line 1, column 1: at the top: expected an object, found null\n' --shape shape.json site.json -
printf '%s' '["p"]' > list.json
printf '%s' '{}' > in
printf '%s' '{"0":{"kind":"string"}}' > shape.json
conf 'an object in the place of an array' 7 '' 'sjconf: --set 0.x=1: at /0: expected a string, found an object\n' --shape shape.json --set 0.x=1 list.json -
: > in

# what is no shape
shape 'no object' '[]' 3 'sjconf: SHAPE: line 1, column 1: at the top: expected an object\n'
shape 'a demand that is no object' '{"port":1}' 3 'sjconf: SHAPE: line 1, column 9: at /port: expected an object\n'
shape 'a key that is no pointer' '{\n"/a~":{}}' 3 'sjconf: SHAPE: line 2, column 7: at /~1a~0: expected a 0 or a 1 behind each tilde of a pointer\n'
shape 'another member' '{"port":{"min":1,"maximum":2}}' 3 \
  'sjconf: SHAPE: line 1, column 28: at /port/maximum: expected no member but kind, required, min, max, min_length, max_length, one_of and other_keys\n'
shape 'no kind' '{"log.to":\n {"kind":"number"}}' 3 'sjconf: SHAPE: line 2, column 10: at /log.to/kind: expected "null", "boolean", "integer", "string", "array" or "object"\n'
shape 'no truth' '{"port":{"required":1}}' 3 'sjconf: SHAPE: line 1, column 21: at /port/required: expected true or false\n'
shape 'no truth of other keys' '{"port":{"other_keys":[]}}' 3 'sjconf: SHAPE: line 1, column 23: at /port/other_keys: expected true or false\n'
shape 'no number as an end' '{"port":{"min":"1"}}' 3 'sjconf: SHAPE: line 1, column 16: at /port/min: expected a whole number from -2^127 to 2^127-1\n'
shape 'an end that is too large' '{"port":{"max":170141183460469231731687303715884105728}}' 3 \
  'sjconf: SHAPE: line 1, column 16: at /port/max: expected a whole number from -2^127 to 2^127-1\n'
shape 'no length as an end' '{"port":{"max_length":-1}}' 3 'sjconf: SHAPE: line 1, column 23: at /port/max_length: expected a whole number from 0 to 2^64-1\n'
shape 'no list of choices' '{"/a/b":{"one_of":{}}}' 3 'sjconf: SHAPE: line 1, column 19: at /~1a~1b/one_of: expected an array of values\n'
shape 'ends the wrong way round' '{"port":{"max":1,"min":2}}' 3 'sjconf: SHAPE: line 1, column 16: at /port/max: expected no less than "min"\n'
shape 'lengths the wrong way round' '{"port":{"min_length":2,"max_length":1}}' 3 'sjconf: SHAPE: line 1, column 38: at /port/max_length: expected no less than "min_length"\n'

# an output that fails
"$program" site.json > /dev/full 2> err
status=$?
good=no
[ "$status" = 5 ] && [ "$(cat err)" = 'sjconf: standard output: cannot be written: No space left on device (os error 28)' ] && good=yes
check $good 'an output that is full'
"$program" --help > /dev/full 2> err
status=$?
good=no
[ "$status" = 5 ] && [ "$(cat err)" = 'sjconf: standard output: cannot be written: No space left on device (os error 28)' ] && good=yes
check $good 'help that cannot be written'
"$program" --quick > out 2> /dev/full
status=$?
good=no
[ "$status" = 2 ] && [ ! -s out ] && good=yes
check $good 'usage that cannot be told'

# random files, merged, beside RFC 7396 in python3; of one file every value that stands in it, by line and column; and of several
# files and settings what gave each value
python3 - <<'EOF' || exit 1
import json, random
random.seed(7396)
keys = ['a', 'b', 'c d', '', '~/', 'é"']

def merge(target, patch):
    if not isinstance(patch, dict):
        return patch
    target = dict(target) if isinstance(target, dict) else {}
    for key, value in patch.items():
        if value is None:
            target.pop(key, None)
        else:
            target[key] = merge(target.get(key), value)
    return target

def value(depth):
    kind = random.randrange(8 if depth else 5)
    if kind > 5:
        return [value(depth - 1) for _ in range(random.randrange(4))]
    if kind > 3 and depth:
        return {random.choice(keys): value(depth - 1) for _ in range(random.randrange(5))}
    return (None, True, random.randrange(-100, 10**20), 'é"\\\n]},:', '')[min(kind, 4)]

def text(value):
    return json.dumps(value, separators=(',', ':'), ensure_ascii=False)

def blank():
    return random.choice(['', '', ' ', '\n', '\t\r\n  '])

def write(value, pointer, out, places):
    out.append(blank())
    begin = ''.join(out).encode()
    line = begin.count(b'\n') + 1
    column = len(begin) - (begin.rfind(b'\n') + 1) + 1
    places.append((pointer, line, column, value))
    if isinstance(value, dict):
        out.append('{')
        for index, (key, part) in enumerate(value.items()):
            out.append((',' if index else '') + blank() + json.dumps(key, ensure_ascii=random.random() < 0.5) + blank() + ':')
            write(part, pointer + '/' + key.replace('~', '~0').replace('/', '~1'), out, places)
            if random.random() < 0.2:
                out.append(',' + json.dumps(key) + ':' + json.dumps([value]))
        out.append(blank() + '}')
    elif isinstance(value, list):
        out.append('[')
        for index, part in enumerate(value):
            out.append(',' if index else '')
            write(part, f'{pointer}/{index}', out, places)
        out.append(blank() + ']')
    else:
        out.append(json.dumps(value, ensure_ascii=random.random() < 0.5))
    out.append(blank())

def found(value):
    if isinstance(value, dict):
        return 'an object'
    return f'an array of length {len(value)}' if isinstance(value, list) else text(value)

def longer(pointer, key):
    return pointer + '/' + str(key).replace('~', '~0').replace('/', '~1')

# a node is a value, with nodes for its parts, and what gave it; givers has that by pointer

def given(value, pointer, givers):
    if isinstance(value, dict):
        parts = {key: given(part, longer(pointer, key), givers) for key, part in value.items()}
    elif isinstance(value, list):
        parts = [given(part, longer(pointer, index), givers) for index, part in enumerate(value)]
    else:
        parts = value
    return parts, givers(pointer)

def merge_given(target, patch, pointer, givers):
    if not isinstance(patch, dict):
        return given(patch, pointer, givers)
    members = dict(target[0]) if target and isinstance(target[0], dict) else {}
    for key, part in patch.items():
        if part is None:
            members.pop(key, None)
        else:
            members[key] = merge_given(members.get(key), part, longer(pointer, key), givers)
    return members, givers(pointer)

def put(node, keys, value, givers):
    if not keys:
        return given(value, '', givers)
    (parts, giver), key = node, keys[0]
    if isinstance(parts, list):
        return parts[:key] + [put(parts[key], keys[1:], value, givers)] + parts[key + 1:], giver
    return {**parts, key: put(parts.get(key, ({}, givers(''))), keys[1:], value, givers)}, giver

def nodes(node, pointer='', way=()):
    yield pointer, way, node
    parts = node[0]
    for key, part in parts.items() if isinstance(parts, dict) else enumerate(parts) if isinstance(parts, list) else ():
        yield from nodes(part, longer(pointer, key), way + (key,))

merges = open('merges', 'w')
for number in range(100):
    layers = [value(3) for _ in range(random.randrange(1, 5))]
    whole = layers[0]
    for layer in layers[1:]:
        whole = merge(whole, layer)
    names = [f'layer{number}.{index}' for index in range(len(layers))]
    for name, layer in zip(names, layers):
        open(name, 'w').write(text(layer) if random.random() < 0.5 else json.dumps(layer, indent=1))
    open(f'merged{number}', 'w').write(text(whole) + '\n')
    print(number, *names, file=merges)
for number in range(40):
    out, places = [], []
    write({'top': value(4), 'low': value(4)}, '', out, places)
    open(f'part{number}', 'w').write(''.join(out))
    open(f'parts{number}', 'w').write(json.dumps({place[0]: {'one_of': []} for place in places}))
    with open(f'told{number}', 'w') as told:
        for pointer, line, column, part in places:
            place = f'at {pointer}' if pointer else 'at the top'
            told.write(f'sjconf: part{number}: line {line}, column {column}: {place}: expected a value, found {found(part)}\n')
keys += ['0', '1']
for number in range(200):
    words, node = ['--shape', f'demands{number}'], None
    for index in range(random.randrange(1, 5)):
        name, out, places = f'file{number}.{index}', [], []
        layer = value(3) if random.random() < 0.2 else {random.choice(keys): value(3) for _ in range(3)}
        write(layer, '', out, places)
        open(name, 'w').write(''.join(out))
        words.append(name)
        stands = {place[0]: f'{name}: line {place[1]}, column {place[2]}' for place in places}
        node = merge_given(node, layer, '', stands.get) if index else given(layer, '', stands.get)
    for _ in range(random.randrange(4)):
        pointer, way, (parts, _) = random.choice(list(nodes(node)))
        if isinstance(parts, dict):
            for key in random.sample(keys, random.randrange(3)):
                pointer, way = longer(pointer, key), way + (key,)
        part = value(2)
        word = f'--set {pointer}={text(part)}'
        try:
            node = put(node, way, part, lambda _: word)
        except (AttributeError, LookupError, TypeError):
            continue
        words += word.split(' ', 1)
    demands, told = {}, []
    for pointer, _, (parts, giver) in nodes(node):
        demands[pointer] = {'one_of': []}
        demands[pointer + '/none'] = {'required': True}
        told.append(f'sjconf: {giver}: at {pointer or "the top"}: expected a value, found {found(parts)}\n')
        told.append(f'sjconf: {giver}: at {pointer}/none: expected a value, found nothing\n')
    open(f'demands{number}', 'w').write(json.dumps(demands))
    open(f'words{number}', 'w').write('\0'.join(words) + '\0')
    open(f'givers{number}', 'w').write(''.join(told))
EOF
while read -r number names; do
  good=no
  # shellcheck disable=SC2086
  "$program" $names > out 2> err
  status=$?
  [ "$status" = 0 ] && cmp -s out "merged$number" && good=yes
  check $good "merge $number"
done < merges
for number in $(seq 0 39); do
  good=no
  "$program" --shape "parts$number" "part$number" > out 2> err
  status=$?
  [ "$status" = 7 ] && [ ! -s out ] && cmp -s err "told$number" && good=yes
  check $good "places $number"
done
for number in $(seq 0 199); do
  good=no
  mapfile -d '' words < "words$number"
  "$program" "${words[@]}" > out 2> err
  status=$?
  [ "$status" = 7 ] && [ ! -s out ] && cmp -s err "givers$number" && good=yes
  check $good "origins $number"
done

# turns NAME WORDS STATUS LEAST: each request, of so many or more, refused in turn, from the start of the program to its end: nothing was printed
# but that memory is wanted, or all is as it is without, where the refused request can be gone without
turns() {
  local n=1 refused=0
  good=yes
  # shellcheck disable=SC2086
  "$program" $2 > all.out 2> all.err
  export REFUSE_ALL=1
  while run $n "$2"; [ "$requests" -ge $n ]; do
    case $status in
      "$3") cmp -s out all.out && cmp -s err all.err || good=no ;;
      4) [ ! -s out ] && [ "$(cat err)" = 'sjconf: out of memory' ] && refused=$((refused + 1)) || good=no ;;
      *) good=no ;;
    esac
    n=$((n + 1))
  done
  unset REFUSE_ALL
  [ "$status" = "$3" ] && cmp -s out all.out && cmp -s err all.err && [ $refused -ge "$4" ] || good=no
  count $good "$1"
}
printf '%s' '{"port":{"kind":"integer","min":1},"log":{"other_keys":false},"log.level":{"one_of":["debug","warn"]},"log.to":{},"log.a":{},"/log/a/b":{"kind":"integer"}}' > shape.json
turns 'memory that is refused' '--shape shape.json --set log.a.b=1 --set /hosts/0="x" --pretty defaults.json user.json' 0 150
turns 'memory that is refused to what is told' '--shape shape.json --set log.level=x --set log.c.d=1 --set log.a.b=x defaults.json site.json escaped.json' 7 250
printf '%s' '{"log":{"other_keys":false},"port":{"min":1,"maximum":2}}' > unknown.json
turns 'memory that is refused to a shape' '--shape unknown.json site.json' 3 40

echo "$passed passed, $failed failed"
[ "$failed" = 0 ]
