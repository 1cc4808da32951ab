#!/usr/bin/env bash
# Builds the C test and the examples of docs/USING.md with the kit's clang and ld.lld, runs them, and compares what the examples write; and links
# the library with no C library.
#
#   tests/c.sh
#
# Its last line is 'N passed, M failed'; its status is 0 only if M is 0 and N is not.
set -uo pipefail
cd "$(dirname "$0")/.." || exit 1
passed=0
failed=0

# block KIND N: the Nth block of that kind in docs/USING.md
block() {
  awk -v head="\`\`\`$1" -v wanted="$2" '/^```/ { inside = $0 == head; found += inside; next } inside && found == wanted' docs/USING.md
}

# fail WHAT: one more that failed
fail() {
  failed=$((failed + 1))
  echo "c: failed: $1"
}

# Runs the test, and adds the counts in its last line.
run_test() {
  tests/build-c tests/c/arb_test.c target/c/arb_test -pedantic -Wno-missing-field-initializers || { fail "building the test"; return; }
  local said status
  said=$(tests/run-program target/c/arb_test)
  status=$?
  if [[ ${said##*$'\n'} =~ ^([0-9]+)\ passed,\ ([0-9]+)\ failed$ ]]; then
    passed=$((passed + BASH_REMATCH[1]))
    failed=$((failed + BASH_REMATCH[2]))
    head -n -1 <<<"$said"
    [[ $status -eq 0 || ${BASH_REMATCH[2]} -gt 0 ]] || fail "the test ended with status $status"
  else
    fail "the test ended with status $status and '${said##*$'\n'}'"
  fi
}

# run_example N: runs the page's Nth program, and compares what it writes with the page's Nth text.
run_example() {
  local example=target/c/example$1
  block c "$1" >"$example.c"
  tests/build-c "$example.c" "$example" -pedantic || { fail "building example $1"; return; }
  if tests/run-program "$example" | diff <(block text "$1") -; then
    passed=$((passed + 1))
  else
    fail "example $1 of docs/USING.md"
  fi
}

# link_alone: the library links with memcpy and memset alone, and no C library. Its archive has been built by then.
link_alone() {
  local tools
  tools=$(tests/toolchain) || { fail "the kit's tools"; return; }
  if "$tools/bin/clang" --target=x86_64-unknown-linux-gnu -std=c99 -O2 -Wall -Wextra -Werror -ffreestanding -nostdinc -isystem tests/c/libc -Iinclude \
      -c tests/c/alone.c -o target/c/alone.o && "$tools/bin/ld.lld" -e main -o target/c/alone target/c/alone.o target/staticlib/libarb.a; then
    passed=$((passed + 1))
  else
    fail "linking with memcpy and memset alone"
  fi
}

mkdir -p target/c
run_test
link_alone
examples=$(grep -c '^```c$' docs/USING.md)
[[ $examples -gt 0 ]] || fail "docs/USING.md has no example"
for ((i = 1; i <= examples; i++)); do run_example "$i"; done
echo "$passed passed, $failed failed"
[[ $failed -eq 0 && $passed -gt 0 ]]
