#!/usr/bin/env bash
# The commands for typed pages in README.md and docs/MACHINE.md, run as they stand there, print what is said of them.
set -euo pipefail
cd "$(dirname "$0")/.."
scratch=$(mktemp -d)
trap 'rm -rf "$scratch"' EXIT

# The indented lines of a document that begin with printf, and those that continue them.
typed() { awk '/^    printf / { on = 1 } on { print; on = /\\$/ }' "$1"; }

sh -c "$(typed README.md)" | diff <(grep -oE '`(bundles [0-9]|[0-9] [0-9A-F]{4})[^`]*`' README.md | tr -d '`') -

# The block of a document behind the line that ends with TEXT: printed TEXT
printed() {
  awk -v text="$1" 'index($0, text) && length($0) == index($0, text) + length(text) - 1 { found = 1; next }
    found && /^```/ { if (on) exit; on = 1; next } on' docs/MACHINE.md
}
(cd "$scratch" && eval "$(typed "$OLDPWD/docs/MACHINE.md")")
for program in lister runner; do
  "target/bin/$program" <"$scratch/page" >"$scratch/out"
  [ -s "$scratch/out" ]
  printed "\`target/bin/$program <page\` prints" | diff - "$scratch/out"
done
