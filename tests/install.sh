#!/usr/bin/env bash
# tools/install: builds, and installs into a scratch folder; there the example is built through pkg-config, and the programs run.
# Then its ways to fail.
set -euo pipefail
root=$(dirname "$(realpath "$0")")/..
scratch=$(mktemp -d)
trap 'rm -rf "$scratch"' EXIT
cd "$scratch"

"$root/tools/install" prefix # relative
PKG_CONFIG_PATH=$(realpath prefix)/lib/pkgconfig
export PKG_CONFIG_PATH
read -r -a flags <<<"$(pkg-config --cflags --libs marshbodkin)"
gcc -std=c99 "@$root/tests/warnings" -o host "$root/examples/host.c" "${flags[@]}"
./host "$root/examples/departures.page" | diff - "$root/examples/host.stdout"
# The version by the preprocessor, whereas tools/install reads the header's lines.
printf '#include <marshbodkin.h>\nMB_VERSION_MAJOR MB_VERSION_MINOR MB_VERSION_PATCH\n' |
  gcc -E -P -Iprefix/include - | tail -n 1 | tr ' ' . | diff - <(pkg-config --modversion marshbodkin)
for program in lister runner pack unpack; do
  "prefix/bin/marshbodkin-$program" <"$root/crates/$program/stdin" | diff - "$root/crates/$program/stdout"
done
find prefix -type f | sort | diff - <(printf 'prefix/%s\n' bin/marshbodkin-{lister,pack,runner,unpack} \
  include/marshbodkin.h lib/libmarshbodkin.a lib/pkgconfig/marshbodkin.pc)

# fails STATUS TEXT WORDS...: tools/install ends with the status, says the text on standard error and nothing else.
fails() {
  local status=0
  "$root/tools/install" "${@:3}" >said 2>complaint || status=$?
  if [ "$status" -ne "$1" ] || [ -s said ] || ! grep -q -e "$2" complaint; then
    echo "install.sh: install ${*:3}: status $status, said: $(cat said complaint)" >&2
    exit 1
  fi
}
fails 2 '^usage: '
fails 2 '^usage: ' ''
fails 2 '^usage: ' one two
fails 2 '^usage: ' --help
touch file
fails 1 file file/prefix

# With an rt that does nothing, what is built already is installed; with one that fails, nothing is.
mkdir bin
PATH=$scratch/bin:$PATH
ln -s "$(type -P true)" bin/rt
mkdir -p copy/lib/libmarshbodkin.a # a folder stands where the archive goes
fails 1 '^install: lib/libmarshbodkin.a could not be put in ' copy
ln -sf "$(type -P false)" bin/rt
fails 1 '^build: rt lib in crates/marshbodkin_c failed' unbuilt
find unbuilt -type f | diff /dev/null -
echo "tools/install: installed, used through pkg-config; its failures are told"
