#!/bin/sh
# Compares the proved programs with the model on generated input, byte for byte.
set -eu

usage() {
    cat <<'END'
usage: tests/compare.sh [SEED] [COUNT]

Compares what the programs in target/bin (tools/build) print with what the model prints,
byte for byte, on input that the model generates from SEED (2 where it is not given):

  texts        COUNT descriptions, good and damaged (2000 where it is not given)
  table        COUNT / 2 boards, each on standard input
  table-files  the same boards as files, 50 at one start, and among them files that are not there,
               empty ones, folders, and names with spaces and a comma
  simulate     COUNT boards, each with a script of about 100 calls

Before that the model is built and held to the rules by its own tests (tests/model.sh). Prints a line for each;
of what differs, the input and both outputs are kept in target/compare/NAME. Exit status: 0 where
nothing differs, 1 where something does, 2 where something could not be compared, as where a
program is not built or the model fails its tests.
END
}

root=$(CDPATH= cd -- "$(dirname -- "$0")/.." && pwd)
self=$root/tests/compare.sh
model=$root/target/model/release/model
folder=$root/target/compare
calls=100
# The boards that one part compares, or one start of table-files.
at_once=50

fail() {
    echo "compare: $1" >&2
    exit 2
}

# Runs a command, at most a minute, with its output in a file. A status other than 0 is a difference of its own.
run_to() {
    output=$1
    shift
    timeout 60 "$@" > "$output" 2> "$output.err" || echo "ended with status $?" >> "$output"
}

# Keeps the files of an item where its two outputs differ, and prints its name; removes them otherwise.
judge() {
    if cmp -s "$1.program" "$1.model"; then
        rm -f "$1".*
    else
        echo "$1"
    fi
}

# The words for the boards of the numbers given, a line each. Among them, and at the front of every second start, stand a name
# that is not all text and that no file has, an empty word, a folder, an empty file, and the first board under another name.
words() {
    for index; do
        case $index in
            0 | *00 | *5)
                printf '%s\377\n\n' "$item, not there"
                printf '%s\n' "$folder/$kind" "$item.empty" "$item.under another name, once more"
                ;;
        esac
        echo "$folder/$kind/$index.txt"
    done
}

# The boards of the numbers given at one start: for each word whose answers differ, prints the list of words and its number
# there, from 0.
start() {
    item=$folder/$kind/$1
    : > "$item.empty"
    cp "$item.txt" "$item.under another name, once more"
    words "$@" > "$item.words"
    # a program that leaves its files open runs out of them
    ulimit -n 24
    run_to "$item.program" xargs -a "$item.words" -d '\n' "$root/target/bin/table"
    run_to "$item.model" xargs -a "$item.words" -d '\n' "$model" table
    # where neither could be started, the outputs agree
    [ "$(LC_ALL=C grep -c '^file,' "$item.model")" -eq "$(wc -l < "$item.words")" ] || fail "the model left out a word"
    if cmp -s "$item.program" "$item.model"; then
        for index; do
            shift
            set -- "$@" "$folder/$kind/$index".*
        done
        rm -f "$@"
    else
        differing_answers file, "$item.program" "$item.model" | while read -r number; do
            echo "$item.words $number"
        done
    fi
}

# The boards of the numbers given, one after another: prints the items that differ.
part() {
    kind=$1
    seed=$2
    shift 2
    if [ "$kind" = table-files ]; then
        start "$@"
        return
    fi
    for index; do
        item=$folder/$kind/$index
        case $kind in
            table)
                run_to "$item.program" "$root/target/bin/table" < "$item.txt"
                run_to "$item.model" "$model" table < "$item.txt"
                ;;
            simulate)
                "$model" gen-script "$((seed * 1000000 + index))" "$calls" "$item.txt" > "$item.script"
                run_to "$item.program" "$root/target/bin/simulate" "$item.txt" < "$item.script"
                run_to "$item.model" "$model" simulate "$item.txt" < "$item.script"
                ;;
        esac
        judge "$item"
    done
}

# The line of a kind: its name, what was compared, and how many differ.
report() {
    if [ "$3" -eq 0 ]; then
        echo "$1: $2, 0 differences"
    else
        echo "$1: $2, $3 differences, kept in target/compare/$1"
        different=1
    fi
}

# The folder of a kind is made anew. A program that is not built fails: a comparison left out would pass for one without
# differences.
begin() {
    program=${1%-files}
    [ -x "$root/target/bin/$program" ] || fail "$program is not built: tools/build $program"
    rm -rf "${folder:?}/$1"
    mkdir -p "$folder/$1"
}

# Prints the number of each answer, from 0, that differs between two outputs: an answer starts with a line of this front. An
# answer of -1 stands before the first such line, or for outputs that differ in bytes that awk does not tell apart.
differing_answers() {
    LC_ALL=C awk -v front="$1" '
        FNR == 1 { side++; number = -1 }
        index($0, front) == 1 { number++ }
        { answer[side, number] = answer[side, number] $0 "\n" }
        number > last { last = number }
        END {
            for (number = -1; number <= last; number++)
                if (answer[1, number] != answer[2, number]) { print number; found = 1 }
            if (!found) print -1
        }
    ' "$2" "$3"
}

compare_texts() {
    begin texts
    item=$folder/texts/records
    "$model" gen-texts "$seed" "$count" > "$item.txt"
    run_to "$item.program" "$root/target/bin/texts" < "$item.txt"
    run_to "$item.model" "$model" texts < "$item.txt"
    differences=0
    if ! cmp -s "$item.program" "$item.model"; then
        differing_answers read, "$item.program" "$item.model" > "$item.differing"
        differences=$(wc -l < "$item.differing")
    fi
    judge "$item" > "$folder/texts.differing"
    report texts "$count records" "$differences"
}

# The stored records are those of tests/texts.py, and their stored answers are the model's: rt ci checks only that the program
# prints what is stored.
compare_stored() {
    "$root/tests/texts.py" --check || fail "the stored records are not those of tests/texts.py"
    "$model" texts < "$root/crates/texts/stdin" | cmp -s - "$root/crates/texts/stdout" ||
        fail "the stored answers in crates/texts/stdout are not the model's"
}

# Boards, two parts at a time.
compare_boards() {
    begin "$1"
    "$model" gen-boards "$seed" "$2" "$folder/$1"
    seq 0 $(($2 - 1)) | xargs -P 2 -n "$at_once" "$self" --part "$1" "$seed" > "$folder/$1.differing" ||
        fail "the comparison of $1 broke off"
    report "$1" "$3" "$(wc -l < "$folder/$1.differing")"
}

case ${1-} in
    -h | --help)
        usage
        exit 0
        ;;
    --part)
        shift
        part "$@"
        exit 0
        ;;
esac
seed=${1-2}
count=${2-2000}
case $#,$seed,$count in
    [!012],* | *,*[!0-9]*,* | *,*,*[!0-9]* | *,,* | *,*, | *,0[0-9]*)
        usage >&2
        exit 2
        ;;
esac
[ "$count" -ge 2 ] || fail "COUNT is 2 or more"
"$root/tests/model.sh" || fail "the model is not to be trusted"
different=0
compare_stored
compare_texts
tables=$((count / 2))
compare_boards table "$tables" "$tables boards"
compare_boards table-files "$tables" "$tables boards in $(((tables + at_once - 1) / at_once)) starts"
compare_boards simulate "$count" "$count boards of $calls calls"
exit "$different"
