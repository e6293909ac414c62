#!/usr/bin/env bash
# Tries the programs of this folder against the reader's sources, all in one crate. The first line of each says what becomes of it:
# the compiler refuses it by this error before anything is proved, so that no must-fail edit can hold it; or it is accepted.
set -euo pipefail
cd "$(dirname "$0")/.."
temp=$(mktemp -d)
trap 'rm -rf "$temp"' EXIT
for crate in crates/*/; do
    mkdir -p "$temp/$crate"
    cp -r "$crate/src" "$temp/$crate"
    if [ -d "$crate/specs" ]; then cp -r "$crate/specs" "$temp/$crate"; fi
done
cp crates.txt "$temp/"
echo 'misuse: measure reader' >> "$temp/crates.txt"
mkdir -p "$temp/crates/misuse/src"
for case in misuse/*.case; do
    name=$(basename "$case" .case)
    cp "$case" "$temp/crates/misuse/src/$name.rt"
    echo "mod $name;"
done > "$temp/crates/misuse/src/lib.rt"
(cd "$temp/crates/misuse" && rt try --test) > "$temp/log" 2>&1 || true
bad=0
for case in misuse/*.case; do
    wanted=$(sed -nE '1s,^// (Refused: ([a-z0-9-]+)|(Accepted)):.*,\2\3,p' "$case")
    found=$(grep -oE "^src/$(basename "$case" .case).rt:[0-9]+:[0-9]+: error\[[^]]*\]" "$temp/log" | grep -oE 'error.*' | sort -u | tr -d '\n' || true)
    case "$wanted/$found" in
        "Accepted/" | "$wanted/error[$wanted]") echo "misuse: ok: $(head -1 "$case" | cut -c4-)" ;;
        *) echo "misuse: NOT AS SAID: $case: $found" && bad=1 ;;
    esac
done
if [ $bad = 1 ]; then tail -n 20 "$temp/log"; fi
exit $bad
