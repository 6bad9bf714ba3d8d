# How calls are run with requests for memory refused: for tools/refusals.sh, tools/sjroute.sh, tools/sjpatch.sh and tools/sjconf.sh, which
# set program, or have a pick of their own, and stand in a folder with refuse.so.
# shellcheck shell=bash
passed=0
failed=0

# pick WORDS: sets program to the one that makes the call, where there are several
pick() { :; }

# run N WORDS: one run with the Nth request refused; sets status and requests
run() {
  rm -f count
  pick "$2"
  # shellcheck disable=SC2086
  REFUSE=$1 REFUSE_COUNT=count LD_PRELOAD=./refuse.so "$program" $2 > out 2> err
  status=$?
  requests=none
  [ -e count ] && read -r requests < count
}

# told TEXT: whether the run told that, and nothing else
told() {
  printf '%s' "$1" > want
  [ "$status" = 0 ] && cmp -s out want && [ ! -s err ]
}

# made WORDS: keeps that a call was run, and how many requests it met
made() {
  printf '%s\t%s\n' "$requests" "$1" >> made
}

# count PASSED WHAT: counts one call
count() {
  if [ "$1" = yes ]; then
    passed=$((passed + 1))
    printf '%s: requests %s\n' "$2" "$requests"
  else
    failed=$((failed + 1))
    printf 'failed: %s (status %s, requests %s)\n' "$2" "$status" "$requests"
    head -c 600 out
    head -c 300 err
  fi
}

# fewer ONE OTHER: whether both are numbers of requests, and the first is the smaller; a run that did
# not count them has none
fewer() {
  [ "$1" != none ] && [ "$2" != none ] && [ "$1" -lt "$2" ]
}

# free WORDS TEXT: a call that meets no request
free() {
  run 1 "$1"
  good=no
  told "$2" && [ "$requests" = 0 ] && good=yes
  made "$1"
  count $good "$1"
}

# each WORDS REFUSED DONE: a call that is refused at each of its requests, asks for nothing more
# then, and is done where none is refused
each() {
  local n=1
  good=no
  while run $n "$1"; [ "$requests" = $n ] && told "$2"; do
    n=$((n + 1))
  done
  told "$3" && [ $n -gt 1 ] && [ "$requests" = $((n - 1)) ] && good=yes
  made "$1"
  count $good "$1"
}

# goes_on WORDS REFUSED DONE: as each, where the call asks for more once it was refused
goes_on() {
  local n=1
  good=no
  while run $n "$1"; [ "$requests" -ge $n ] && told "$2"; do
    n=$((n + 1))
  done
  told "$3" && [ $n -gt 1 ] && [ "$requests" = $((n - 1)) ] && good=yes
  made "$1"
  count $good "$1"
}

# passes_over WORDS REFUSED DONE: as goes_on, where the call is done as well without what the later ones
# of its requests ask for
passes_over() {
  local n=1 needed
  good=no
  while run $n "$1"; [ "$requests" -ge $n ] && told "$2"; do
    n=$((n + 1))
  done
  needed=$n
  while [ "$requests" -ge $n ] && told "$3"; do
    n=$((n + 1))
    run $n "$1"
  done
  told "$3" && [ $needed -gt 1 ] && [ $n -gt $needed ] && [ "$requests" = $((n - 1)) ] && good=yes
  made "$1"
  count $good "$1"
}

# looked_at WORDS REFUSED DONE: as each, of a run that asks for memory once more to look at what the
# call left, before it tells: refused there, it ends with status 4. requests are then the call's own.
looked_at() {
  local n=1
  good=no
  while run $n "$1"; [ "$requests" = $n ] && told "$2"; do
    n=$((n + 1))
  done
  if [ "$status" = 4 ] && [ "$requests" = $n ] && [ $n -gt 1 ]; then
    run 0 "$1"
    told "$3" && [ "$requests" -ge $n ] && good=yes
  fi
  requests=$((n - 1))
  made "$1"
  count $good "$1"
}
