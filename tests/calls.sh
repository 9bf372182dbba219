#!/usr/bin/env bash
# The header's calls from C, and the example, over the archive that tools/build has made. The header is C99 and
# C++11 without a warning (tests/warnings), by gcc and, where it is installed, clang.
set -euo pipefail
cd "$(dirname "$0")/.."
archive=target/staticlib/libmarshbodkin.a
scratch=$(mktemp -d)
trap 'rm -rf "$scratch"' EXIT

# built COMPILER FILE [WORDS...]
built() {
  "$1" "${@:3}" @tests/warnings -Iinclude -o "$scratch/built" "$2" -x none "$archive"
}

# The sanitizers see what the header does outside an area. In lent.c nothing comes from the archive.
for test in host image bytes lent; do
  built gcc "tests/$test.c" -std=c99 -O1 -fsanitize=address,undefined -fno-sanitize-recover
  "$scratch/built"
done

built gcc tests/words.c -std=c99
"$scratch/built" >"$scratch/words"
sed -n '/^## Words$/,/^## /p' docs/MACHINE.md | grep '^| ' | sed 1d | diff - "$scratch/words"
echo "words of $(wc -l <"$scratch/words") numbers as in docs/MACHINE.md"

for compiler in gcc clang; do
  type -P "$compiler" >/dev/null || continue
  for language in 'c -std=c99' 'c++ -std=c++11'; do
    # shellcheck disable=SC2086 # two words
    built "$compiler" examples/host.c -O2 -x $language
    tests/example.sh "$scratch/built"
    echo "examples/host.c by $compiler -x $language"
  done
done
