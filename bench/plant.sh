#!/usr/bin/env bash
# Tries the wrong bodies of planted/, which the gate leaves out: the prover has to refuse each of them.
# usage: plant.sh [CRATE..]            without a crate: all that planted/ has
#        plant.sh --count              prints how many wrong bodies each crate has, in the gate and in planted/
#        plant.sh --check              prints those that no longer fit the code (no such file, or an old text that doesn't stand once in it), or make what another makes
#        plant.sh add CRATE FOLDER     puts a folder of NAME.edit files into planted/CRATE.edits
# It works on a copy of what git knows of the repository, as the files stand now, in which the edits of planted/CRATE.edits stand in
# must-fail/'s place, and takes along what earlier checks kept in out/, so that crates below aren't proved again. It ends with 1 where one
# isn't refused, and counts apart those that are refused only since a proof file names what the edit took away: these say nothing of a contract.
set -euo pipefail
if [ "${1:-}" = add ]; then set -- add "$2" "$(realpath "$3")"; fi
cd "$(dirname "$0")/.."
case "${1:-}" in
--count) exec python3 bench planted count ;;
--check) exec python3 bench planted check ;;
add) exec python3 bench planted "$@" ;;
esac
if [ $# -gt 0 ]; then crates=("$@"); else mapfile -t crates < <(basename -s .edits planted/*.edits); fi
copy=$(mktemp -d)
trap 'rm -rf "$copy"' EXIT
git ls-files -z --cached --others --exclude-standard -- crates crates.txt HANDLES | xargs -0 cp --parents -t "$copy"
rm -rf "$copy"/crates/*/must-fail
for crate in crates/*; do
  if [ -d "$crate/out" ]; then cp -a "$crate/out" "$copy/$crate/"; fi
done
for crate in "${crates[@]}"; do
  python3 bench planted cut "$crate" "$copy/crates/$crate/must-fail" >&2
done
cd "$copy"
status=0
rt must-fail "${crates[@]}" | tee said || status=$?
lost=$(grep -c 'only because a proof file names' said || true)
refused=$(grep -c ': refused, as it must be' said || true)
echo "$((refused - lost)) refused, and $lost by a lost name alone"
exit "$status"
