#!/usr/bin/env bash
# How the programs read and write, of which no contract can say much: input that comes in pieces, none, and more than a program
# takes, and words on standard error where a read or a write fails. programs.sh [FOLDER], the folder of the four that are built.
set -euo pipefail
root=$(dirname "$0")/..
folder=${1:-$root/target/bin}
scratch=$(mktemp -d)
trap 'rm -rf "$scratch"' EXIT
out=$scratch/out
err=$scratch/err

# Fails unless the program, tried with CASE, wrote what the file OUTPUT has, and on standard error WORDS after its name, or
# nothing: wrote CASE OUTPUT [WORDS]
wrote() {
  if ! diff "$2" "$out" >&2 || ! printf '%s' "${3:+$program: $3$'\n'}" | diff - "$err" >&2; then
    echo "programs.sh: $program with $1" >&2
    exit 1
  fi
  : >"$out"
}

unread="standard input can't be read"
unwritten="standard output can't be written"

# Pages of 256 bytes, and thirteen numbers of five groups.
head -c 256 /dev/zero >"$scratch/page"
printf '\xFF\xFF\xFF\xFF\x7F%.0s' {1..13} >"$scratch/numbers"

for program in lister runner pack unpack; do
  run=$folder/$program
  input=$root/crates/$program/stdin
  answer=$root/crates/$program/stdout

  "$run" <"$input" >"$out" 2>"$err"
  wrote 'its input' "$answer"
  "$run" < <(head -c 5 "$input" && sleep 0.1 && tail -c +6 "$input") >"$out" 2>"$err"
  wrote 'its input in two pieces' "$answer"

  # What it prints for no input; the longest input with another answer than one byte more has; and what it prints for that.
  case $program in
    lister) empty='bundles 0 count 0' most=$scratch/page more='refused 1' ;;
    runner) empty='refused 5' most=$scratch/page more='refused 1' ;;
    pack) empty='refused 6' most=$input more='refused 6' ;;
    unpack) empty='refused 9' most=$scratch/numbers more='refused 9' ;;
  esac
  "$run" </dev/null >"$out" 2>"$err"
  wrote 'no input' <(echo "$empty")
  "$run" < <(cat "$most" && sleep 0.1 && head -c 1 /dev/zero) >"$out" 2>"$err"
  wrote 'a byte too many' <(echo "$more")
  "$run" < <(cat "$most" && head -c 100000 /dev/zero) >"$out" 2>"$err"
  wrote 'many bytes too many' <(echo "$more")
  if "$run" <"$most" | diff -q - <(echo "$more") >/dev/null; then
    echo "programs.sh: $program refuses as many bytes as it takes" >&2
    exit 1
  fi

  "$run" <&- >"$out" 2>"$err"
  wrote 'a closed input' /dev/null "$unread"
  "$run" </ >"$out" 2>"$err"
  wrote 'a directory as input' /dev/null "$unread"
  "$run" <"$input" >&- 2>"$err"
  wrote 'a closed output' /dev/null "$unwritten"
  "$run" <"$input" >/dev/full 2>"$err"
  wrote 'a full device as output' /dev/null "$unwritten"
done

# A file that may have 1,024 bytes takes a part of a longer listing. What was written stays, and the rest is told.
program=lister
"$folder/lister" <"$scratch/page" >"$scratch/whole"
head -c 1024 "$scratch/whole" >"$scratch/part"
(trap '' XFSZ && ulimit -f 1 && exec "$folder/lister" <"$scratch/page" >"$out" 2>"$err")
wrote 'a file that is full partway' "$scratch/part" "$unwritten"

# The programs that rt ci runs write many texts and tell each that can't be written, so not one alone.
for program in vectors short_vectors steps; do
  crate=$root/crates/$program
  input=/dev/null
  if [ -e "$crate/stdin" ]; then
    input=$crate/stdin
  fi
  "$crate/out/$program" <"$input" >/dev/full 2>"$err"
  if [ "$(sort -u "$err")" != "$program: $unwritten" ] || [ "$(wc -l <"$err")" -lt 2 ]; then
    echo "programs.sh: $program with a full device as output" >&2
    exit 1
  fi
done
