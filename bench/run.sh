#!/bin/sh
# The benchmark: builds the library's archive and times its calls for C against the model. No argument.
set -eu
here=$(CDPATH= cd -- "$(dirname -- "$0")" && pwd)
cd "$here/.."
case ${1-} in
    '') ;;
    *)
        echo "usage: bench/run.sh
Proves and builds the library's archives (tools/build fabric_c bench_entries), then times its
calls for C and the model's code by turns: a line for each call, with the ratio of the times.
Those for read, fabric_wait and print_table begin with a description's text. Those for clock and run
are one clock with its posts; a run of clocks goes on until a master finishes. The last lines are
the same traffic made in Rattle, the reading of its board included."
        case $1 in
            -h | --help) exit 0 ;;
            *) exit 2 ;;
        esac
        ;;
esac
tools/build fabric_c bench_entries >&2
cargo build --release --offline --quiet --manifest-path bench/Cargo.toml --target-dir target/bench
exec target/bench/release/bench boards
