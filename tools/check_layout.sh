#!/usr/bin/env bash
# Says which files of the crates aren't in the layout that `rt fmt` gives, which the gate refuses only
# after minutes. The files stay as they are. Status 1 where there are any.
set -eu
cd "$(dirname "${BASH_SOURCE[0]}")/.."
folder=$(mktemp -d)
trap 'rm -rf "$folder"' EXIT
git init -q "$folder"
cp crates.txt "$folder/"
tar c --exclude=out crates | tar x -C "$folder"
for crate in "$folder"/crates/*/; do
    (cd "$crate" && rt fmt > /dev/null) || exit 1
done
status=0
while read -r file; do
    cmp -s "$file" "$folder/$file" || { echo "not in the layout: $file" && status=1; }
done < <(find crates -name out -prune -o -type f \( -name '*.rt' -o -name '*.antt' \) -print | sort)
exit $status
