#!/usr/bin/env bash
# An example host, in C or Rust, on its filter and on pages that it can't run: example.sh HOST
set -euo pipefail
host=$(realpath "$1")
cd "$(dirname "$0")/.."
scratch=$(mktemp -d)
trap 'rm -rf "$scratch"' EXIT

"$host" examples/departures.page | diff - examples/host.stdout

# Fails unless the host, given the file, ends with status 1 and says the text on standard error: complains TEXT FILE
complains() {
  local status=0
  "$host" "$2" >/dev/null 2>"$scratch/complaint" || status=$?
  if [ "$status" -ne 1 ] || ! grep -q "^host: $1" "$scratch/complaint"; then
    echo "example.sh: $host, $1: status $status, said: $(cat "$scratch/complaint")" >&2
    exit 1
  fi
}
# given BYTES TEXT, the bytes as printf has them
given() {
  printf "$1" >"$scratch/page"
  complains "$2\$" "$scratch/page"
}
complains '.*missing' "$scratch/missing"
complains ".*$scratch" "$scratch"
given '\x00\xDF\x00' 'refused 1: page is above 256 bytes or no multiple of 4; for an image, not 256 bytes'
given '\x01\x20\x00\xBF' 'refused 5: place is not fit' # 2001 BF00, of count 0
given '\xE8\xDF\x00\xDF' 'not served: breakpoint' # DFE8 DF00
given '\x82\xDF\x00\xDF' 'not served: direct syscall 2' # DF82 DF00
given '\xFE\xE7\x00\xBF' 'the filter does not end' # E7FE BF00
