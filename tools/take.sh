#!/usr/bin/env bash
# Copies crates, and what they stand on, into another repository.
# Usage: tools/take.sh [--replace] NAME.. DEST, with names of libraries of crates.txt.
# The lines for DEST/crates.txt go to standard output, but for those that stand there; the rest is told on
# standard error. A crate that DEST has is left, unless --replace is given: then it is copied anew.
# Not copied: must-fail/ (this repository's gate tries them), out/, tests, programs.
set -euo pipefail
here=$(realpath "$(dirname "${BASH_SOURCE[0]}")/..")

stop() {
  echo "take.sh: $1" >&2
  exit 2
}

replace=no
if [ "${1-}" = --replace ]; then
  replace=yes
  shift
fi
[ $# -ge 2 ] || stop 'usage: tools/take.sh [--replace] NAME.. DEST'
names=("${@:1:$#-1}")
dest=${!#}
[ -d "$dest" ] || stop "no folder: $dest"
dest=$(realpath "$dest")
[ "$dest" != "$here" ] || stop 'the other repository is this one'

# Which crates, in the order of crates.txt: those named, and what stands to the right of one that is taken.
list=$(awk -v names="${names[*]}" '
  { sub(/#.*/, "") }
  /^[a-z0-9_]+( [a-z]+)?:/ { split($0, side, ":"); split(side[1], head, " "); name = head[1]; order[++n] = name; deps[name] = side[2] }
  END {
    count = split(names, queue, " ")
    for (i = 1; i <= count; i++) {
      if (!(queue[i] in deps)) { print "?" queue[i]; exit }
      if (queue[i] in taken) continue
      taken[queue[i]] = 1
      more = split(deps[queue[i]], dep, " ")
      for (j = 1; j <= more; j++) if (dep[j] in deps) queue[++count] = dep[j]
    }
    for (i = 1; i <= n; i++) if (order[i] in taken) print order[i]
  }' "$here/crates.txt")
case $list in
  '?'*) stop "not in crates.txt: ${list#?}" ;;
esac
for name in $list; do
  [ -f "$here/crates/$name/src/lib.rt" ] || stop "$name is no library"
done

mkdir -p "$dest/crates"
for name in $list; do
  if [ -e "$dest/crates/$name" ] && [ $replace = no ]; then
    echo "left: crates/$name is there" >&2
  else
    rm -rf "$dest/crates/$name"
    mkdir "$dest/crates/$name"
    for part in src specs proofs; do
      [ ! -d "$here/crates/$name/$part" ] || cp -r "$here/crates/$name/$part" "$dest/crates/$name/"
    done
    cp "$here"/LICENSE-* "$dest/crates/$name/"
    echo "copied: crates/$name" >&2
  fi
  ours=$(grep "^$name\( [a-z]*\)*:" "$here/crates.txt")
  theirs=$(grep "^$name\( [a-z]*\)*:" "$dest/crates.txt" 2> /dev/null || true)
  if [ -z "$theirs" ]; then
    echo "$ours"
  elif [ "$theirs" != "$ours" ]; then
    echo "another line in crates.txt: $theirs; here it is: $ours" >&2
  fi
done
