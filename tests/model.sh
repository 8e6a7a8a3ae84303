#!/bin/sh
# Builds the model, target/model/release/model, and holds it to the rules by its own tests, unless these passed for the same files
# before. Prints what failed; exit status 0 if nothing did.
set -eu

root=$(CDPATH= cd -- "$(dirname -- "$0")/.." && pwd)
folder=$root/target/model
mkdir -p "$folder"
files=$(cd "$root/model" && find . -type f | LC_ALL=C sort | xargs sha256sum | sha256sum)

fail() {
    echo "model: $1" >&2
    exit 1
}

cargo build --release --offline --quiet --manifest-path "$root/model/Cargo.toml" --target-dir "$folder" || fail "it cannot be built"
[ "$(cat "$folder/tested" 2> /dev/null)" != "$files" ] || exit 0
cargo test --offline --quiet --manifest-path "$root/model/Cargo.toml" --target-dir "$folder" > "$folder/tests" 2>&1 || {
    cat "$folder/tests" >&2
    fail "it fails its tests"
}
echo "$files" > "$folder/tested"
