#!/usr/bin/env bash
# What include/marshbodkin.h guarantees of the archive that tools/build has made.
set -euo pipefail
cd "$(dirname "$0")/.."
archive=target/staticlib/libmarshbodkin.a
scratch=$(mktemp -d)
trap 'rm -rf "$scratch"' EXIT

# Symbols that must come from elsewhere; sections and common symbols that can be written. The header says that there are none.
called_outside() { nm -P -u "$1" | awk 'NF > 1 { print $1 }'; }
written() {
  objdump -h "$1" | awk '$1 ~ /^[0-9]+$/ { name = $2; size = $3; next } /ALLOC/ && !/READONLY/ && size !~ /^0+$/ { print name }'
  nm -P "$1" | awk '$2 == "C" { print $1 }'
}

# A file that breaks both is found to.
cat >"$scratch/mistake.c" <<'C'
#include <stdlib.h>
int kept;
static int initial = 1;
static _Thread_local int own;
void *mistake(void) { kept += initial++ + own++; return malloc((size_t)kept); }
C
gcc -fcommon -c -o "$scratch/mistake.o" "$scratch/mistake.c"
called_outside "$scratch/mistake.o" | grep -qx malloc
written "$scratch/mistake.o" | diff - <(printf '.data\n.tbss\nkept\n')

called_outside "$archive" | diff /dev/null -
written "$archive" | diff /dev/null -
objdump -f "$archive" | sed -n 's/.*file format //p' | sort -u | diff <(echo elf64-x86-64) -

# built TEST [WORDS...]
built() {
  gcc -std=c99 -O1 "${@:2}" @tests/warnings -Iinclude -o "$scratch/$1" "tests/$1.c" "$archive"
}

# Every export is measured, and takes at most the header's bound.
built stack
"$scratch/stack" | tee "$scratch/measured"
nm -P --defined-only -g "$archive" | awk '$2 == "T" { print $1 }' | sort >"$scratch/exported"
sed -n 's/^\(mb_raw_[a-z_]*\) .*/\1/p' "$scratch/measured" | sort | diff "$scratch/exported" -

built threads -pthread
"$scratch/threads"
