#!/usr/bin/env bash
# Checks the C, Rust and Python sides of the static library; with the library it also builds and tests them.
# Usage: tools/bindings.sh [LIBRARY], which `rt lib` makes: crates/sj_c/out/libsj_c.a. It wants gcc. What is left
# out where no library is given, or valgrind, a formatter, cargo, clippy, python3 or mypy is not there, is said. The
# last line is 'N passed, M failed, K left out'.
set -u
library=''
[ $# -eq 0 ] || library=$(realpath "$1" 2> /dev/null)
if { [ $# -gt 0 ] && [ ! -f "$library" ]; } || ! command -v gcc > /dev/null; then
  echo "failed: there is no library ${1:-}, or no gcc"
  echo '0 passed, 1 failed, 0 left out'
  exit 1
fi
root=$(realpath "$(dirname "${BASH_SOURCE[0]}")/..")
c=$root/bindings/c
work=$(mktemp -d)
trap 'rm -rf "$work"' EXIT
passed=0
failed=0
left=0
wanted=$'port 443\n{"name":"kiosk","ports":[80,443],"debug":true}'

# run NAME COMMAND..
run() {
  local name=$1
  shift
  if "$@" > "$work/log" 2>&1; then
    passed=$((passed + 1))
    echo "passed: $name"
  else
    failed=$((failed + 1))
    echo "failed: $name"
    tail -n 40 "$work/log"
  fi
}

leave_out() {
  left=$((left + 1))
  echo "left out: $1"
}

# run_with TOOL NAME COMMAND..: where the tool is there
run_with() {
  local tool=$1
  shift
  if command -v "$tool" > /dev/null; then run "$@"; else leave_out "$1, since $tool is not there"; fi
}

# writes COMMAND..: whether it writes the example's two lines
writes() { [ "$("$@")" = "$wanted" ]; }

# small COMMAND..: on a stack of 512 KB
small() { (ulimit -s 512 && "$@"); }

build() { gcc -std=c11 -Wall -Wextra -Werror -O1 -g -I "$c" "$@"; }

# rust COMMAND..: cargo in the crate, with what it makes in a folder of its own
rust() {
  (cd "$root/bindings/rust" && SJ_C_LIB=${library:-/none/libsj_c.a} CARGO_TARGET_DIR=$work/target cargo "$@")
}

# the programs of the tests, which cargo names
tests() {
  rust test --offline --test '*' --no-run 2>&1 | sed -n 's/.*Executable .*(\(.*\))$/\1/p'
}

# rust_checked COMMAND..: each program of the tests, run by the command
rust_checked() {
  local program count=0
  while read -r program; do
    "$@" "$program" --test-threads=1 || return
    count=$((count + 1))
  done < <(tests)
  [ "$count" -eq 2 ]
}

shared() { gcc -shared -fPIC -o "$1" -Wl,--whole-archive "$library" -Wl,--no-whole-archive "$2"; }

python() { (cd "$root/bindings/python" && PAIZKORDE=$1 PYTHONDONTWRITEBYTECODE=1 python3 "${@:2}"); }

# The tests under valgrind, which tells no error whose place is in python itself. Leaks are told by the blocks that they count.
python_checked() {
  local interpreter
  interpreter=$(python3 -c 'import sys; print(sys.executable)')
  cd "$root/bindings/python" || return
  PAIZKORDE=$1 PYTHONMALLOC=malloc PYTHONDONTWRITEBYTECODE=1 valgrind --quiet --leak-check=no --error-exitcode=9 \
    --suppressions=valgrind.supp "$interpreter" -m unittest test_paizkorde
}

# What needs no library.
read_sources() {
  run_with python3 'declarations are those of the exports' python3 "$root/tools/signatures.py"
  run_with clang-format 'C: laid out' clang-format --dry-run -Werror "$c"/*.c "$c"/*.h
  run 'C: sources' build -fsyntax-only "$c/test.c"
  run 'C: sources of refusals' build -fsyntax-only "$c/refused.c"
  run 'C: source of the example' build -fsyntax-only "$c/example.c"
  run 'C: the header for C++' gcc -x c++ -Wall -Wextra -Werror -fsyntax-only "$c/sj.h"
  run_with rustfmt 'Rust: laid out' rust fmt --check
  run_with cargo-clippy 'Rust: clippy' rust clippy --offline --quiet --all-targets -- -D warnings
  run_with black 'Python: laid out' black --quiet --check --line-length 110 --target-version py38 "$root"/bindings/python/*.py
  run_with mypy 'Python: types' mypy --strict --cache-dir="$work/mypy" "$root/bindings/python/paizkorde.py"
}

# What calls the library. Under valgrind a leak is a failure, where that is there.
call_library() {
  local checked=()
  if command -v valgrind > /dev/null; then
    checked=(valgrind --quiet --leak-check=full --errors-for-leak-kinds=definite,indirect --error-exitcode=9)
  else
    leave_out 'valgrind is not there, so all tests run without it'
  fi
  run 'C: built' build -o "$work/test" "$c/test.c" "$c/heap.c" "$library"
  run 'C: each call' "${checked[@]}" "$work/test"
  run 'C: the same on a stack of 512 KB' small "$work/test"
  run 'C: refusals built' build -Wl,--wrap,malloc -Wl,--wrap,realloc -o "$work/refused" "$c/refused.c" "$c/heap.c" "$library"
  run 'C: each request for memory refused' "${checked[@]}" "$work/refused"
  run 'C: example built' build -o "$work/example" "$c/example.c" "$c/heap.c" "$library"
  run 'C: example' writes "$work/example"
  run_with cargo 'Rust: tests and examples of the comments' rust test --offline --quiet
  run_with cargo 'Rust: the tests under valgrind' rust_checked "${checked[@]}"
  run_with cargo 'Rust: example' writes rust run --offline --quiet --example settings
  run_with python3 'Python: shared object built' shared "$work/libsj_c.so" "$c/heap.c"
  run_with python3 'Python: one that counts blocks built' shared "$work/counted.so" "$root/bindings/python/counted.c"
  run_with python3 'Python: tests' python "$work/counted.so" -m unittest test_paizkorde
  if command -v valgrind > /dev/null; then
    run_with python3 'Python: the tests under valgrind' python_checked "$work/counted.so"
  fi
  run_with python3 'Python: example of the comment' python "$work/libsj_c.so" -m doctest paizkorde.py
  run_with python3 'Python: example' writes python "$work/libsj_c.so" example.py
}

read_sources
if [ -n "$library" ]; then
  call_library
else
  leave_out 'what calls the library, since none is given: make bindings builds one'
fi
echo "$passed passed, $failed failed, $left left out"
[ "$failed" -eq 0 ]
