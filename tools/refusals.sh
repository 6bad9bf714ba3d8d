#!/usr/bin/env bash
# Refuses each request for memory of each call in turn, and looks at what the call answers and at
# what stands: the Nth request is refused, N counting up until a run meets none.
# Usage: tools/refusals.sh PROGRAM PROGRAM_OF_PATHS PROGRAM_OF_COMMANDS, which are the programs of
# crates/refusals, crates/refusals_paths and crates/refusals_commands. Needs gcc and python3. A line for
# each call has its number of requests; the last line is 'N passed, M failed'. What was run is compared
# with the public functions of the sources, by tools/calls.py.
set -u
program_of_documents=$(realpath "${1:-}")
program_of_paths=$(realpath "${2:-}")
program_of_commands=$(realpath "${3:-}")
for need in "$program_of_documents" "$program_of_paths" "$program_of_commands" "$(command -v gcc)" "$(command -v python3)"; do
  if [ ! -f "$need" ] || [ ! -x "$need" ]; then
    echo "failed: there is no program ${1:-}, ${2:-} or ${3:-}, or no gcc, or no python3"
    echo '0 passed, 1 failed'
    exit 1
  fi
done
tools=$(dirname "$(realpath "${BASH_SOURCE[0]}")")
work=$(mktemp -d)
trap 'rm -rf "$work"' EXIT
gcc -O2 -shared -fPIC -o "$work/refuse.so" "$tools/refuse.c" || exit 1
cd "$work" || exit 1
# shellcheck source=tools/refuse.sh
. "$tools/refuse.sh"

# pick WORDS: the program that makes the call, by its first word
pick() {
  case ${1%% *} in
    apply | command | patch | request | run | run_fault | session | session_*) program=$program_of_commands ;;
    copy | copy_key | display | from | kinds | lazy | make_lazy | no_pointer | parts | pointer | pointer_* | print | within)
      program=$program_of_paths
      ;;
    *) program=$program_of_documents ;;
  esac
}

# reads FORM CALL TEXT SEEN: a reading, of which the run tells what it has seen
reads() {
  each "read $1 $2 $3" $'call: OutOfMemory\nagain read, '"$4"$'\n' \
    "call: read, $4"$'\nagain read, '"$4"$'\n'
}

# reads_value FORM CALL REPEAT: the same of each text; REPEAT is what the text with a repeat prints
reads_value() {
  reads $1 $2 example '{"some":["key","value",2]}'
  reads $1 $2 repeat "$3"
  [ $2 = deserialize ] && printf -v $1 %s "$requests"
  reads $1 $2 escapes '{"q\"k":"a/bA"}'
}

print_of_repeat='{"k00":0'
for ((i = 1; i < 32; i++)); do
  printf -v member ',"k%02d":%d' $i $i
  print_of_repeat+=$member
done
print_of_repeat+='}'
print_of_last=${print_of_repeat/'"k00":0'/'"k00":99'}

for call in to_tape to_tape_with_buffers; do
  reads tape $call example '6 nodes'
  reads tape $call repeat '67 nodes'
  reads tape $call escapes '3 nodes'
done
for form in owned borrowed; do
  for call in deserialize to_value to_${form}_value; do
    reads_value $form $call "$print_of_repeat"
    reads_value $form ${call}_with_buffers "$print_of_repeat"
  done
  for call in deserialize_repeats to_value_repeats; do
    reads_value $form $call "$print_of_last"
  done
  for call in from_slice from_str; do
    reads_value $form $call "$print_of_repeat"
  done
done
free buffers $'call: made\nagain made\n'

for error in json pointer; do
  each "fault $error" $'call: OutOfMemory\n' $'call: pushed\n'
done
free 'fault meet' $'call: found\n'
free 'fault known' $'call: found\n'
free 'fault patch' $'call: found\n'
each 'fault place' $'call: AllocError\nagain behind 9 bytes\n' $'call: behind 9 bytes\nagain behind 9 bytes\n'
free run_fault $'call: found\n'

free 'stream warm' $'call: found\n'
free 'stream warm_placed' $'call: found\n'
each 'stream cold' $'call: OutOfMemory, again line 3 read\n' $'call: line 1 read, again line 3 read\n'
each 'stream cold_placed' $'call: OutOfMemory, again line 3 read\n' $'call: line 1 read, again line 3 read\n'
goes_on 'stream unread_lines' $'call: out of memory\nagain line 1\n' $'call: line 1\nagain line 1\n'
each 'stream spare' $'call: OutOfMemory\nagain 6 nodes\n' $'call: 6 nodes\nagain 6 nodes\n'
each 'stream pieces' $'call: OutOfMemory, again a piece\n' $'call: a piece, again no more\n'

for members in 0 32 64; do
  after="$((members + 1)) members"$'\n'
  for call in insert insert_hashed append_hashed shift_insert; do
    each "insert $call $members" \
      "call: AllocError, key and value as before, map as before, then inserted, $after" \
      "call: inserted, $after"
  done
  for call in get_or_insert_with get_or_insert_hashed_with append_hashed_with; do
    each "insert $call $members" "call: AllocError, map as before, then inserted, $after" \
      "call: inserted, $after"
  done
done
for call in insert insert_hashed get_or_insert_with get_or_insert_hashed_with; do
  free "present $call 32" $'call: was there, value as before, 32 members\n'
  free "present $call 64" $'call: was there, value as before, 64 members\n'
done
for members in 33 64 66; do
  free "queue $members" $'call: replaced\n'
  free "thin $members" $'call: thinned\n'
done
for members in 0 32 64; do
  after="$((members + 1)) members"$'\n'
  for call in insert known_insert lookup_or_insert change_or_insert map_insert map_lookup_or_insert; do
    each "member $call $members" \
      "call: OutOfMemory, value as before, object as before, then inserted, $after" \
      "call: inserted, $after"
  done
done
for call in insert known_insert lookup_or_insert change_or_insert map_insert map_lookup_or_insert; do
  free "member_present $call 32" $'call: was there, value as before, 32 members\n'
  free "member_present $call 64" $'call: was there, value as before, 64 members\n'
done
for call in replace change; do
  free "member_present $call 32" $'call: was there, value as before, 32 members\n'
  free "member_present $call 64" $'call: was there, value as before, 64 members\n'
done
each capacity $'call: AllocError\nagain made\n' $'call: made\nagain made\n'
free room $'call: filled, 32 members\n'
free 'reads map' $'call: found\n'
free 'reads document' $'call: found\n'
each copy_key $'call: AllocError\nagain copied\n' $'call: copied\nagain copied\n'

# writes CALL GENERATOR WRITTEN; a text between quotes is put to its end, and cut back then
writes() {
  local way=each
  [ $1 = write_string ] && way=goes_on
  $way "write $1 $2" "call: AllocError, then done: [$3"$'\n' "call: done: [$3"$'\n'
}

for generator in dump writer pretty pretty_writer; do
  writes write $generator 'a text of more than eight bytes'
  writes write_string $generator '"a \"text\" with a line feed\n"'
  writes write_static $generator 340282366920938463463374607431768211455
done
for generator in dump writer; do
  writes write_min $generator 'the shorter one'
  free "write new_line $generator" $'call: done: [\n'
done
for generator in pretty pretty_writer; do
  writes write_min $generator 'the longer one of the two'
  writes new_line $generator $'\n                    '
done

example='{"some":["key","value",2]}'
pretty='{
  "some": [
    "key",
    "value",
    2
  ]
}'

# prints FORM CALL DONE: a print, whose length is known before and asked for at once
prints() {
  document $1 $2 '' "$3"
  good=no
  [ "$requests" = 1 ] && good=yes
  count $good "document $1 $2 asks once"
}

# document FORM CALL RETURNED DONE; a call that was refused is made again
document() {
  each "document $1 $2" "call: refused, $3document as before, out as before, done $4"$'\n' "call: done $4"$'\n'
}

# behind MEMBERS: sets print to that of an object of so many members and of n
behind() {
  local place member
  print='{'
  for ((place = 0; place < $1; place++)); do
    printf -v member '"k%02d":%d,' $place $place
    print+=$member
  done
  print+='"n":null}'
}

for call in array array_with_capacity; do
  document owned $call '' '[] > '
done
for call in object object_with_capacity; do
  document owned $call '' '{} > '
done
document owned clone '' "$example > "
for call in insert try_insert; do
  document owned $call 'value as before, ' '{"some":["key","value",2],"n":null} > '
done
for members in 0 32 64; do
  behind $members
  for call in insert try_insert; do
    document owned "$call $members" 'value as before, ' "$print > "
  done
done
for call in set try_set; do
  free "document owned $call" $'call: done {"some":null} > \n'
done
document owned push 'value as before, ' '{"some":["key","value",2,null]} > '
document owned insert_idx 'value as before, ' '{"some":[null,"key","value",2]} > '
prints owned encode "$example > "
prints owned encode_pp "$pretty > "
prints owned write "$example > $example"
prints owned write_pp "$example > $pretty"
for form in owned borrowed; do
  free "document $form reads" $'call: found\n'
  free "room_in $form" $'call: filled\n'
done

# merged MEMBERS: sets print to that of an object of so many members, merged
merged() {
  local place member
  print='{"k01":{"a":1},'
  for ((place = 2; place < $1; place++)); do
    printf -v member '"k%02d":%d,' $place $place
    print+=$member
  done
  print+='"n":[{}],"o":"p"}'
}

# merges WORDS KEPT: a merge, or a merge patch that is found, and what stands where it was refused
merges() {
  each "merge $1" "call: refused, $2merged $print"$'\n' "call: merged $print"$'\n'
}

print='{"some":["key","value",2],"k01":{"a":1},"n":[{}],"o":"p"}'
merges "owned merge" 'target as before, '
merges "owned into_merged" ''
merges "owned merge_diff" 'both as before, '
for members in 0 32 64; do
  merged $members
  merges "owned merge $members" 'target as before, '
  merges "owned into_merged $members" ''
  merges "owned merge_diff $members" 'both as before, '
done

for form in owned tape lent; do
  each "within $form" $'call: refused, then within\n' $'call: within\n'
done

# makes WORDS MADE
makes() {
  each "$1" "call: AllocError, then $2"$'\n' "call: made, again $2"$'\n'
}

for source in text string cow; do
  makes "make $source" '"a text"'
done
for source in items from_items; do
  makes "make $source" '[false,true]'
done
makes 'make object' '{"b":null,"a":null}'
makes 'make map' '{"a":null,"b":null}'
makes 'make from_pairs' '{"b":null,"a":null}'
makes 'literal owned' '{"list":["a",null],"n":true}'
for call in clone_static into_static owned_from_borrowed borrowed_from_owned; do
  makes "convert $call" '{"q\"k":"a/bA"}'
done

for source in owned borrowed lazy texts; do
  free "from $source" $'call: made\n'
done

# makes_lazy SOURCE PRINT
makes_lazy() {
  makes "make_lazy $1" "owned $2"
}

for call in array array_with_capacity; do
  makes_lazy $call '[]'
done
for call in object object_with_capacity; do
  makes_lazy $call '{}'
done
for source in items from_items; do
  makes_lazy $source '[false,true]'
done
for source in members from_pairs; do
  makes_lazy $source '{"b":null,"a":null}'
done

# copy FORM CALL DONE
copy() {
  each "copy $1 $2" "call: refused, value as before, out as before, done, $3"$'\n' "call: done, $3"$'\n'
}

# copy_free FORM CALL DONE
copy_free() {
  free "copy $1 $2" "call: done, $3"$'\n'
}

for form in tape lent owned; do
  copy $form encode "$example > "
  copy $form encode_pp "$pretty > "
  copy $form write "written > $example"
  copy $form write_pp "written > $pretty"
  copy_free $form into_string 'key > '
done
copy text into_string 'key > '
copy_free tape clone "tape $example > "
copy_free lent clone "lent $example > "
copy owned clone "owned $example > "
copy tape into_value "owned $example > "
copy lent into_value "owned $example > "
copy_free owned into_value "owned $example > "
copy_free tape into_owned "tape $example > "
copy lent into_owned "owned $example > "
copy_free owned into_owned "owned $example > "
for call in upgrade borrowed_from_tape build_from_tape; do
  copy tape $call "owned $example > "
done
copy tape owned_from_tape "$example > "
copy lent copied "owned $example > "

# lazy FORM CALL DONE
lazy() {
  each "lazy $1 $2" "call: refused, tree as before, form as before, done, owned $3"$'\n' "call: done, owned $3"$'\n'
}

for form in tape lent; do
  for call in as_mut as_array_mut as_object_mut object_mut get_mut get_idx_mut; do
    lazy $form $call "$example"
  done
  lazy $form array_mut '["key","value",2]'
  for call in set try_set; do
    lazy $form $call '{"some":null}'
  done
  for call in insert try_insert; do
    lazy $form $call '{"some":["key","value",2],"n":null}'
  done
  lazy $form change_member '{"some":null}'
  lazy $form change_item '[null,"value",2]'
  lazy $form remove '{}'
  lazy $form push '["key","value",2,null]'
  lazy $form pop '["key","value"]'
  lazy $form insert_idx '[null,"key","value",2]'
  lazy $form remove_idx '["value",2]'
done
for members in 0 32 64; do
  behind $members
  for call in insert try_insert; do
    for form in tape lent owned; do
      lazy $form "$call $members" "$print"
    done
  done
done
for call in as_mut as_array_mut as_object_mut object_mut get_mut get_idx_mut; do
  free "lazy owned $call" "call: done, owned $example"$'\n'
done
free 'lazy owned array_mut' $'call: done, owned ["key","value",2]\n'
for call in set try_set; do
  free "lazy owned $call" $'call: done, owned {"some":null}\n'
done
free 'lazy owned change_member' $'call: done, owned {"some":null}\n'
free 'lazy owned change_item' $'call: done, owned [null,"value",2]\n'
free 'lazy owned remove' $'call: done, owned {}\n'
free 'lazy owned pop' $'call: done, owned ["key","value"]\n'
free 'lazy owned remove_idx' $'call: done, owned ["value",2]\n'

# A tape does without the places and tags that it can't keep.
for parts in items members; do
  passes_over "tape $parts" $'call: OutOfMemory\nagain found\n' $'call: found\nagain found\n'
done
free 'tape new' $'call: made, and refused\n'

for form in static owned borrowed lazy lent known same same_std same_lazy; do
  free "kinds $form" $'call: found\n'
done
free changes $'call: found\n'
for form in tape lazy lent document replaced; do
  free "parts $form" $'call: found\n'
done
free 'display static' $'call: -7\n'
for form in tape owned lent; do
  free "display $form" $'call: {"q\\"k":"a/bA"}\n'
done
free 'display map' $'call: {"k00": 0}\n'
free 'display nodes' \
  $'call: [Object { len: 1, count: 2 }, String("q\\"k"), String("a/bA")]\n'

free laws $'call: gone over\n'

tokens='<a/b> <0> <m~n> '
each pointer "call: OutOfMemory again $tokens"$'\n' "call: ${tokens}again $tokens"$'\n'
free no_pointer $'call: found\n'
each 'pointer_parts clone' $'call: AllocError again <a/b> <0> \n' $'call: <a/b> <0> again <a/b> <0> \n'
each 'pointer_parts join' "call: AllocError again $tokens"$'\n' "call: ${tokens}again $tokens"$'\n'
each 'pointer_parts parent' $'call: AllocError again <a/b> \n' $'call: <a/b> again <a/b> \n'
each 'pointer_parts push' $'call: AllocError, pointer as before, pushed\n' $'call: pushed\n'
each 'pointer_edit insert' $'call: refused, document as before, inserted\n' $'call: done, inserted\n'
each 'pointer_edit push' $'call: refused, document as before, pushed\n' $'call: done, pushed\n'
each 'pointer_edit set' $'call: refused, document as before, set\n' $'call: done, set\n'
free 'pointer_edit edit' $'call: edited, and left\n'
sorted='{"a":"text","b":[2,{"c":3,"d":4}]}'
for form in tape owned borrowed lent; do
  each "print $form canonical" "call: refused, $sorted"$'\n' "call: $sorted"$'\n'
  each "print $form write_canonical" "call: refused, output as before, kept $sorted"$'\n' "call: kept $sorted"$'\n'
done
patched='{"a":[[3],{"b":2},"text"],"d":{"b":{"e":4}}}'
unpatched='{"a":[1,{"b":2}],"c":"text"}'
difference='[{"op":"replace","path":"/a/1/b","value":3},{"op":"add","path":"/a/2","value":4},'
difference+='{"op":"remove","path":"/c"},{"op":"add","path":"/d","value":"text"}]'
each "patch owned operations_of" $'call: refused, patch as before, listed\n' $'call: listed\n'
each "patch owned patch" "call: OutOfMemory, document as before, patched, $patched"$'\n' \
  "call: patched, $patched"$'\n'
each "patch owned undo" "call: OutOfMemory, document as before, nothing there, $unpatched"$'\n' \
  "call: nothing there, $unpatched"$'\n'
each "patch owned diff" "call: refused, made, $difference"$'\n' "call: made, $difference"$'\n'
each "patch owned document_of" $'call: refused, made, as read\n' $'call: made, as read\n'

free 'pointer_in owned' $'call: found, {"some":["key",null,2]}\n'

# points FORM CALL PRINT: where a pointer finds nothing and where it finds an item
points() {
  local done="missing, tree as before, found, owned $3"$'\n'
  each "pointer_lazy $1 $2" "call: refused, tree as before, form as before, $done" "call: $done"
}

for form in tape lent; do
  points $form find_mut "$example"
  points $form replace '{"some":["key",null,2]}'
done
for form in tape lent owned; do
  free "pointer_lazy $form find" "call: missing, tree as before, found, $form $example"$'\n'
done
free 'pointer_lazy owned find_mut' "call: missing, tree as before, found, owned $example"$'\n'
free 'pointer_lazy owned replace' $'call: missing, tree as before, found, owned {"some":["key",null,2]}\n'

# edits CALL PRINT: an edit of what a pointer finds in each form of a lazy document
edits() {
  local done="done, owned $2"$'\n' form
  for form in tape lent; do
    each "pointer_edit_lazy $form $1" "call: refused, tree as before, form as before, $done" "call: $done"
  done
}

edits insert '{"some":["key","value",2],"n":null}'
edits remove '{}'
edits push '{"some":["key","value",2,null]}'
edits set '{"some":["key","value",2],"n":{"m":null}}'
edits pop '{"some":["key","value"]}'
for call in take update; do
  edits $call '{"some":[null,"value",2]}'
done
free 'pointer_edit_lazy owned remove' $'call: done, owned {}\n'
free 'pointer_edit_lazy owned pop' $'call: done, owned {"some":["key","value"]}\n'
each 'pointer_edit_lazy owned set' $'call: refused, tree as before, form as before, done, owned {"some":["key","value",2],"n":{"m":null}}\n' $'call: done, owned {"some":["key","value",2],"n":{"m":null}}\n'
for call in take update; do
  free "pointer_edit_lazy owned $call" $'call: done, owned {"some":[null,"value",2]}\n'
done

# reads_line CALL LINE ANSWER: a command line, read as CALL, that asks for the room of its nodes, and once
reads_line() {
  each "$1 $2" "call: OutOfMemory"$'\n'"again $3"$'\n' "call: $3"$'\n'"again $3"$'\n'
  good=no
  [ "$requests" = 1 ] && good=yes
  count $good "$1 $2 asks once"
}

for call in command request; do
  for line in number cut numbers open; do
    reads_line $call $line 'bad command'
  done
  reads_line $call len len
  for line in word words; do
    free "$call $line" $'call: bad command\nagain bad command\n'
  done
done

for words in 'owned text' 'owned known' 'borrowed text' 'borrowed known' 'lazy text'; do
  each "apply $words" $'call: refused, as it was or done, then applied, {"k":null}\n' \
    $'call: inserted, {"k":null}\n'
  eval "insert_${words/ /_}=$requests"
done
for words in 'owned text' 'owned known' 'borrowed text' 'borrowed known' 'lazy text'; do
  looked_at "run $words" $'call: refused, replies as told, document as told, answered\n' $'call: answered\n'
done

# answers INPUT FORM REPLIES [CALL]: a session by text, or that call
answers() {
  each "${4:-session} $2 $1" "call: OutOfMemory, out as before, then answered"$'\n'"> $3" $'call: answered\n> '"$3"
}

replies='{"some":["key","value",2]}
none
0
{"some":["key","value",2],"n":true}
'
for form in owned borrowed; do
  answers example $form "$replies" session_known
done
answers example owned "$replies" session_kept
for form in owned borrowed lazy; do
  answers example $form "$replies"
  many=1
  [ $form = lazy ] && many=2
  answers repeat $form "$many"$'\nnot an array\n{"a":1}\n'
  answers repeat $form "$many"$'\nnot an array\n{"a":2}\n' session_last
  answers bad $form $'bad command\nbad command\nbad command\nbad command\n'
  answers reads $form $'3\n'
  eval "reads_$form=$requests"
done

# A lazy document that is only read stays a tape.
requests="$reads_lazy, $reads_borrowed, $reads_owned"
good=no
fewer "$reads_lazy" "$reads_borrowed" && fewer "$reads_borrowed" "$reads_owned" && good=yes
count $good 'fewer requests where less is built'

# The keys and texts of a borrowed document lie in the input.
requests="$borrowed, $owned"
good=no
fewer "$borrowed" "$owned" && good=yes
count $good 'fewer where a document borrows its keys'

# A known key is copied where it is absent, and a text is moved.
requests="$insert_borrowed_text, $insert_borrowed_known"
good=no
fewer "$insert_borrowed_text" "$insert_borrowed_known" && [ $((insert_borrowed_text + 1)) = "$insert_borrowed_known" ] && good=yes
count $good 'one more request where an absent key is copied'

# Every public function was run so. tools/calls.py says which ones it left out.
if "$tools/calls.py" made > out 2> err; then
  passed=$((passed + 1))
  cat out
else
  failed=$((failed + 1))
  echo 'failed: the list of calls'
  cat out err
fi

echo "$passed passed, $failed failed"
[ "$failed" = 0 ]
