#!/usr/bin/env bash
# Runs the program with these words and this input, and gives its output and its status: the proved program where ./prove has built it
# from these sources, and else the same sources compiled without their proofs, which is said on standard error.
set -u
root=$(cd "$(dirname "${BASH_SOURCE[0]}")" && pwd)
crate="$root/crates/prolog_main"
program="$crate/out/prolog_main"

if "$root/prove" --is-done; then
  exec "$program" "$@"
fi
if ! command -v rt >/dev/null; then
  echo "prolog: the program isn't built here, and the toolchain's command rt isn't there to build it." >&2
  exit 125
fi
echo "prolog: this run is not proved here; ./prove proves and builds the program, in 82 processor minutes (measured once)." >&2
scratch=$(mktemp -d)
trap 'rm -rf "$scratch"' EXIT
if [ -t 0 ]; then
  echo "prolog: reading the text from the terminal; end it with control-D." >&2
fi
cat >"$scratch/text"
(cd "$crate" && rt try --seconds 600 -- "$@" <"$scratch/text" 2>"$scratch/told")
status=$?
# What the toolchain tells of the run stands on standard error, behind what the program wrote there.
if ! grep -q '^run=ended ' "$scratch/told"; then
  cat "$scratch/told" >&2
  echo "prolog: the unproved run gave no answer (its output is at most 1 MiB, its time at most ten minutes); ./prove, then run it again." >&2
  exit 125
fi
grep -vE '^(interpreter: |checked: |races: |run=)' "$scratch/told" >&2
exit "$status"
