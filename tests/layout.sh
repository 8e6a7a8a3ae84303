#!/bin/sh
# Says which files rt fmt would lay out in another way. It lays out a copy, and changes none of the repository's files.
set -eu
root=$(CDPATH= cd -- "$(dirname -- "$0")/.." && pwd)
work=$(mktemp -d)
trap 'rm -rf "$work"' EXIT
mkdir "$work/is" "$work/is/.git"
(cd "$root" && tar -cf - --exclude='crates/*/out' crates.txt crates) | tar -xf - -C "$work/is"
cp -R "$work/is" "$work/laid"
for folder in "$work/laid/crates"/*/; do
    (cd "$folder" && rt fmt > "$work/said" 2>&1) || {
        grep -v '^rt: note: must-fail' "$work/said" >&2 || :
        echo "layout: rt fmt failed in crates/$(basename "$folder")" >&2
        exit 1
    }
done
(cd "$work" && diff -rq is laid) > "$work/differing" || :
sed 's|^Files is/\(.*\) and laid/.* differ$|layout: \1 is not laid out: rt fmt, in the crate'"'"'s folder|' "$work/differing"
[ ! -s "$work/differing" ] || exit 1
echo "layout: every file is laid out as rt fmt does it"
