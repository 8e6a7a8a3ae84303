#!/bin/sh
# Builds the C clients against target/staticlib/libfabric_c.a (tools/build fabric_c) and tries them: the planning tool, also
# against the model; what the calls do to what they are lent; texts with share lines in order and out of order, and with the line
# default; the accesses of every pair of widths; the clock and the log beside a simulator of its own, and mistakes of that
# simulator, each against a rule of docs/RULES.md. What is lent is watched by valgrind where the machine has it.
set -eu
here=$(cd "$(dirname "$0")" && pwd)
root=$(cd "$here/../.." && pwd)
library="$root/target/staticlib/libfabric_c.a"
board="$root/boards/document01.txt"
work=$(mktemp -d)
trap 'rm -r "$work"' EXIT

if [ ! -f "$library" ]; then
    echo "test.sh: no $library (tools/build fabric_c)" >&2
    exit 2
fi

flags="-O2 -g -Wall -Wextra -Werror -pedantic -I$root/include"

# compile SUFFIX: builds the clients by gcc, with what further flags are given
compile() {
    suffix=$1
    shift
    gcc -std=c11 $flags "$@" -o "$work/plan$suffix" "$here/plan.c" "$library"
    gcc -std=c11 $flags "$@" -o "$work/slices$suffix" "$here/slices.c" "$library"
    gcc -std=c11 $flags "$@" -o "$work/calls$suffix" "$here/calls.c" "$library"
    gcc -std=c11 $flags "$@" -o "$work/order$suffix" "$here/order.c" "$library"
    gcc -std=c11 $flags "$@" -o "$work/lanes$suffix" "$here/lanes.c" "$library"
    gcc -std=c11 $flags "$@" -o "$work/lockstep$suffix" "$here/lockstep.c" "$here/simulator.c" "$library"
}
compile ''

# the header and the clients that compare serve C++ as well
compile_cpp() {
    g++ -std=c++11 $flags -o "$work/slices++" -x c++ "$here/slices.c" -x none "$library"
    g++ -std=c++11 $flags -o "$work/calls++" -x c++ "$here/calls.c" -x none "$library"
    g++ -std=c++11 $flags -o "$work/order++" -x c++ "$here/order.c" -x none "$library"
    g++ -std=c++11 $flags -o "$work/lanes++" -x c++ "$here/lanes.c" -x none "$library"
    g++ -std=c++11 $flags -o "$work/lockstep++" -x c++ "$here/lockstep.c" "$here/simulator.c" -x none "$library"
}
cpp=
if command -v g++ >/dev/null; then
    compile_cpp
    cpp=++
fi

# what watches the memory that is lent: valgrind, else the compiler's own checks where they link, else nothing
watch=
watched=
if command -v valgrind >/dev/null; then
    watch="valgrind -q --error-exitcode=9"
elif gcc -std=c11 $flags -fsanitize=address,undefined -o "$work/probe" "$here/slices.c" "$library" 2>/dev/null; then
    watched=-watched
    compile "$watched" -fsanitize=address,undefined -fno-sanitize-recover=all
fi

failed=0

# expect STATUS OUTPUT WORD..: what plan prints for these words
expect() {
    status=$1
    output=$2
    shift 2
    got=0
    printed=$("$work/plan" "$@" 2>"$work/errors") || got=$?
    if [ "$got" != "$status" ] || [ "$printed" != "$output" ]; then
        echo "plan $*: status $got, printed:"
        echo "$printed"
        failed=1
    fi
}

expect 0 "wait,6
serve,32" "$board" 0 0
expect 0 "wait,36
serve,2" "$board" 1 0
expect 0 "wait,3
serve,24" "$root/boards/encoder.txt" 0 1
expect 0 "wait,27
serve,3" "$root/boards/encoder.txt" 1 1
expect 1 "refused,11" "$board" 2 0
expect 1 "refused,16" "$board" 0 1
printf 'master,4,8' >"$work/unended"
expect 1 "refused,1" "$work/unended" 0 0
printf 'master,4,8\nslave,4,8,4,8,0,0,0,0\n' >"$work/fourth"
expect 1 "refused,4" "$work/fourth" 0 0
printf 'master,4,8\nslave,0,8,4,8,0,0\n' >"$work/six"
expect 1 "refused,1" "$work/six" 0 0
printf 'master,4,8\nslave,0,8,4,8,0,0,0\n' >"$work/seven"
expect 1 "refused,1" "$work/seven" 0 0
printf 'master,4,8\nslave,0,8,4,8,0,0,0,64\n' >"$work/toolate"
expect 1 "refused,3" "$work/toolate" 0 0
# with a latency of 3 all grants of a turn but the last are writes, which have no wait: turns 2 + 32 and 2 * 1 + 2
sed '/^slave,/s/,0$/,3/' "$board" >"$work/late"
expect 0 "wait,4
serve,32" "$work/late" 0 0
expect 0 "wait,34
serve,2" "$work/late" 1 0
printf 'master,2,8\nslave,0,8,4,8,0,0,1,0\nshare,0,0,1\n' >"$work/narrow"
expect 1 "refused,19" "$work/narrow" 0 0
# the crane without the share lines of its master 4 has no wait, not even of another master; nor has a board without share lines
grep -v '^share,4,' "$root/boards/crane.txt" >"$work/unshared"
expect 1 "refused,20" "$work/unshared" 3 1
expect 1 "refused,20" "$work/unshared" 4 3
expect 1 "refused,20" "$work/unshared" 5 0
grep -v '^share,' "$board" >"$work/shareless"
expect 1 "refused,20" "$work/shareless" 0 0
# the board with its two share lines exchanged: the second, line 5, comes before the line above
sed '4{h;d;};5G' "$board" >"$work/unordered"
expect 1 "refused,21" "$work/unordered" 0 0
expect 1 "refused,21" "$work/unordered" 1 0
expect 1 "refused,21" "$work/unordered" 2 0
# an answer for unmapped addresses changes no figure; its line stands once, behind all others, and has no number
{ cat "$board"; echo default; } >"$work/few"
expect 0 "wait,6
serve,32" "$work/few" 0 0
expect 0 "wait,36
serve,2" "$work/few" 1 0
expect 1 "refused,11" "$work/few" 2 0
expect 1 "refused,16" "$work/few" 0 1
{ cat "$work/few"; echo default; } >"$work/twice"
expect 1 "refused,2" "$work/twice" 0 0
sed '2a default' "$board" >"$work/early"
expect 1 "refused,2" "$work/early" 0 0
{ cat "$work/few"; echo share,1,0,3; } >"$work/behind"
expect 1 "refused,2" "$work/behind" 0 0
{ cat "$board"; echo default,1; } >"$work/numbered"
expect 1 "refused,1" "$work/numbered" 0 0
: >"$work/empty"
expect 1 "refused,2" "$work/empty" 0 0
head -c 8193 /dev/zero >"$work/long"
expect 1 "refused,1" "$work/long" 0 0

# native cards: each as wide as one of its masters and narrower than the others, one of burst 1, one of span 8; the last card
# has bus sizing, for masters that have native cards too
cat >"$work/native" <<'END'
master,8,64
master,4,16
master,2,4
master,1,2
slave,0,1024,1,4,0,2,1,0
slave,1024,512,2,16,1,0,1,0
slave,2048,256,4,1,2,1,1,0
slave,4096,2048,8,32,0,0,1,0
slave,16384,8,2,64,1,1,1,0
slave,8192,64,2,8,1,3,0,0
share,0,0,2
share,0,1,1
share,0,2,3
share,0,3,2
share,0,4,1
share,0,5,2
share,1,0,3
share,1,1,2
share,1,2,1
share,1,4,2
share,2,0,1
share,2,1,2
share,2,4,3
share,2,5,1
share,3,0,2
share,3,5,1
END

# bus sizing, with masters and cards of every width: the cards' bursts cut what a single write carries out into runs
cat >"$work/widths" <<'END'
master,8,4
master,4,8
master,2,2
master,1,1
slave,0,256,1,2,0,1,0,0
slave,256,256,1,64,2,3,0,0
slave,1024,512,2,1,1,0,0,0
slave,2048,512,2,2,0,2,0,0
slave,4096,1024,4,1,3,1,0,0
slave,8192,1024,8,4,1,2,0,0
share,0,0,2
share,0,1,1
share,0,2,3
share,0,3,2
share,0,4,1
share,0,5,2
share,1,0,1
share,1,1,2
share,1,2,1
share,1,3,3
share,1,4,2
share,2,0,3
share,2,1,1
share,2,5,2
share,3,4,1
share,3,5,2
END

# latency, from 1 to 63 clocks, and none: the cards' shares are such that a read loses grants; one card is native, one takes no
# write wait and one no read wait
cat >"$work/latency" <<'END'
master,8,4
master,4,8
master,2,2
master,1,1
slave,0,256,2,4,0,1,0,1
slave,256,256,4,8,2,0,0,2
slave,512,512,1,2,0,0,0,7
slave,1024,512,2,8,1,1,1,3
slave,2048,1024,8,4,0,3,0,63
slave,4096,1024,4,1,1,0,0,0
share,0,0,3
share,0,1,2
share,0,3,4
share,0,4,2
share,1,0,2
share,1,2,5
share,1,3,2
share,1,5,3
share,2,1,3
share,2,2,2
share,2,3,1
share,2,4,6
share,3,0,4
share,3,2,3
share,3,4,2
share,3,5,1
END

# an answer for unmapped addresses: as many masters as the log has entries, of every width; holes between the cards, pairs that are
# not connected, cards side by side, one that begins with address 0 and one that ends with the highest; native cards and latency too
cat >"$work/answered" <<'END'
master,8,4
master,4,8
master,2,64
master,1,2
master,4,1
master,8,64
master,1,16
master,2,2
slave,0,256,4,8,0,1,0,0
slave,512,256,2,4,1,0,0,2
slave,1024,512,1,2,0,0,1,0
slave,1536,64,4,1,1,2,1,5
slave,65536,8,2,8,0,0,0,0
slave,4294967040,256,8,1,2,1,0,0
share,0,0,2
share,0,3,1
share,0,5,3
share,1,1,1
share,1,3,2
share,2,0,1
share,2,2,2
share,3,2,1
share,3,4,2
share,4,0,1
share,4,3,1
share,5,1,2
share,5,2,1
share,5,5,1
share,6,0,1
share,6,2,3
share,7,1,1
share,7,4,1
default
END

# with_default FILE: the text of a board with the line default, which it may have already
with_default() {
    sed '/^default$/d' "$1"
    echo default
}
with_default "$root/boards/crane.txt" >"$work/holes"

# every pair of the larger boards and of generated ones, against the model's table, with the line default and without it
model="$root/target/model/release/model"
cargo build --release --offline --quiet --manifest-path "$root/model/Cargo.toml" --target-dir "$root/target/model"
mkdir "$work/boards"
"$model" gen-boards 5 40 "$work/boards"
cp "$root/boards/crane.txt" "$root/boards/encoder.txt" "$root/boards/largest.txt" "$work/boards"
cp "$work/native" "$work/boards/native.txt"
cp "$work/widths" "$work/boards/widths.txt"
cp "$work/latency" "$work/boards/latency.txt"
cp "$work/answered" "$work/boards/answered.txt"
mkdir "$work/with" "$work/without"
pairs=0
for described in "$work"/boards/*.txt; do
    with="$work/with/${described##*/}"
    without="$work/without/${described##*/}"
    with_default "$described" >"$with"
    sed '/^default$/d' "$described" >"$without"
    "$model" table <"$without" | grep '^[0-9]' >"$work/lines" || true
    while IFS=, read -r master slave wait serve; do
        for text in "$without" "$with"; do
            expect 0 "wait,$wait
serve,$serve" "$text" "$master" "$slave"
        done
        pairs=$((pairs + 1))
    done <"$work/lines"
done
[ "$pairs" -gt 500 ] || { echo "only $pairs pairs were tried"; failed=1; }

# says TEXT: what plan printed on standard error the last time
says() {
    if [ "$(cat "$work/errors")" != "$1" ]; then
        echo "plan did not say '$1' but:"
        cat "$work/errors"
        failed=1
    fi
}

# options: the help, the version and the end of the options
usage='usage: plan BOARD MASTER SLAVE
  BOARD   a file with a board description
  MASTER  the master'"'"'s number, from 0
  SLAVE   the slave'"'"'s number, from 0'
version=$(sed -n 's/^#define FABRIC_VERSION "\(.*\)"$/\1/p' "$root/include/fabric.h")
for option in -h --help; do
    expect 0 "$usage" "$option"
    says ''
done
expect 0 "plan (Zelgwy) $version" --version
says ''
expect 0 "wait,6
serve,32" -- "$board" 0 0
says ''

# wrong arguments: the usage, and nothing else
wrong() {
    expect 2 "" "$@"
    says "$usage"
}
wrong
wrong ""
wrong --
wrong "$board" 0
wrong "$board" 0 0 0
wrong -- "$board" 0
wrong -- "$board" 0 0 0
wrong "$board" -1 0
wrong "$board" 0 4294967296
wrong "$board" 0 ""
wrong --help "$board" 0 0
wrong --version "$board" 0 0
for option in - -x --helpful ---; do
    wrong "$option"
    wrong "$option" 0 0
done

# files that are not there or cannot be read
expect 2 "" "$work/absent" 0 0
says "plan: $work/absent: No such file or directory"
expect 2 "" -- -x 0 0
says "plan: -x: No such file or directory"
expect 2 "" "$work" 0 0
says "plan: $work: Is a directory"

for suffix in '' $cpp; do
    "$work/slices$suffix" || failed=1
    "$work/calls$suffix" || failed=1
    "$work/order$suffix" "$root"/boards/*.txt "$work/native" "$work/latency" "$work/answered" || failed=1
    "$work/lanes$suffix" || failed=1
done
for client in slices calls order; do
    $watch "$work/$client$watched" || { echo "$client, its memory watched, ended with status $?"; failed=1; }
done
$watch "$work/lanes$watched" 7 || { echo "lanes, its memory watched, ended with status $?"; failed=1; }

# lockstep PROGRAM STATUS WORD..: what it prints is left in a file
lockstep() {
    program=$1
    status=$2
    shift 2
    got=0
    $program "$@" >"$work/printed" 2>"$work/errors" || got=$?
    if [ "$got" != "$status" ]; then
        echo "lockstep $*: status $got"
        cat "$work/printed" "$work/errors"
        failed=1
    fi
}

# the clock beside the simulator: the boards of the repository, and generated ones as far as they are taken
compared=0
for described in "$root"/boards/*.txt "$work"/boards/[0-9]*.txt; do
    if [ "$("$model" table <"$described" | cut -c 1-8)" = refused, ]; then
        lockstep "$work/lockstep" 2 "$described" 10
        continue
    fi
    for suffix in '' $cpp; do
        lockstep "$work/lockstep$suffix" 0 "$described" 5000 "$compared"
    done
    with_default "$described" >"$work/same"
    lockstep "$work/lockstep" 0 "$work/same" 5000 "$compared"
    compared=$((compared + 1))
done
[ "$compared" -gt 30 ] || { echo "only $compared boards were compared"; failed=1; }
lockstep "$work/lockstep" 0 "$root/boards/largest.txt" 200000
for described in "$root"/boards/*.txt "$work/native" "$work/widths" "$work/latency" "$work/answered" "$work/few"; do
    lockstep "$watch $work/lockstep$watched" 0 "$described" 500
done

# native cards: of each of the five kinds of traffic that lockstep counts there, enough to find a difference
for suffix in '' $cpp; do
    lockstep "$work/lockstep$suffix" 0 "$work/native" 50000
done
compared=$((compared + 1))
kinds=$(sed -n 's/.*; native: //p' "$work/printed" | grep -o '[0-9]*' | awk '$1 > 100' | wc -l)
[ "$kinds" = 5 ] || { echo "too little traffic at native cards:"; cat "$work/printed"; failed=1; }

# writes that leave accesses out: on boards that have cards narrower than a master, enough to find a difference
for described in "$root/boards/document01.txt" "$root/boards/crane.txt" "$work/widths"; do
    for suffix in '' $cpp; do
        lockstep "$work/lockstep$suffix" 0 "$described" 20000
    done
    shortened=$(sed -n 's/.* writes (\([0-9]*\) leave accesses out), .*/\1/p' "$work/printed")
    [ "${shortened:-0}" -gt 100 ] || { echo "too few writes leave accesses out:"; cat "$work/printed"; failed=1; }
done
compared=$((compared + 1))

# cards with latency: of each of the four kinds of events that lockstep counts there, enough to find a difference
for described in "$work/late" "$work/latency"; do
    for suffix in '' $cpp; do
        lockstep "$work/lockstep$suffix" 0 "$described" 50000
    done
    compared=$((compared + 1))
    kinds=$(sed -n 's/.*; latency: //p' "$work/printed" | grep -o '[0-9]*' | awk '$1 > 100' | wc -l)
    [ "$kinds" = 4 ] || { echo "too little traffic at cards with latency:"; cat "$work/printed"; failed=1; }
done

# boards with the line default: of each of the seven kinds of events that lockstep counts there, enough to find a difference; the
# same boards without it have none of them
for described in "$work/answered" "$work/few" "$work/holes"; do
    for suffix in '' $cpp; do
        lockstep "$work/lockstep$suffix" 0 "$described" 50000
    done
    compared=$((compared + 1))
    kinds=$(sed -n 's/.*; unmapped: //p' "$work/printed" | grep -o '[0-9]*' | awk '$1 > 100' | wc -l)
    [ "$kinds" = 7 ] || { echo "too little traffic to no card:"; cat "$work/printed"; failed=1; }
    sed '/^default$/d' "$described" >"$work/same"
    lockstep "$work/lockstep" 0 "$work/same" 5000
    if grep -q unmapped "$work/printed"; then
        echo "unmapped transfers on a board without the line default:"
        cat "$work/printed"
        failed=1
    fi
done

# a difference is found: every mistake of the simulator, printed for both sides; those of latency need cards that have it, those of
# unmapped transfers and of the log boards with the line default
mistakes=0
for mistake in $("$work/lockstep" --mistakes); do
    boards="$root/boards/crane.txt"
    case $mistake in
    late-*) boards="$work/late $work/latency" ;;
    unmapped-* | log-*) boards="$work/answered $work/holes" ;;
    esac
    for described in $boards; do
        for suffix in '' $cpp; do
            lockstep "$work/lockstep$suffix" 1 --mistake "$mistake" "$described" 50000
            if [ "$(cut -c 1-17 "$work/printed")" != "library:   clock 
simulator: clock " ]; then
                echo "lockstep does not print both sides of $mistake but:"
                cat "$work/printed"
                failed=1
            fi
        done
    done
    mistakes=$((mistakes + 1))
done
[ "$mistakes" -gt 44 ] || { echo "only $mistakes mistakes were tried"; failed=1; }
lockstep "$work/lockstep" 1 --mistake wait-per-beat "$board" 100
printf '%s\n' 'library:   clock 3 slave 0 phase 1 owner 0 offset 3598 lanes 3 run 8 place 1' \
    'simulator: clock 3 slave 0 phase 2 owner 0 offset 3598 lanes 3 run 8 place 1' >"$work/difference"
cmp "$work/difference" "$work/printed" || failed=1
lockstep "$work/lockstep" 1 --mistake no-lane "$board" 100
printf '%s\n' 'library:   clock 78 slave 0 phase 2 owner 0 offset 1100 lanes 3 run 1 place 0' \
    'simulator: clock 78 slave 0 phase 2 owner 0 offset 1100 lanes 3 run 2 place 0' >"$work/difference"
cmp "$work/difference" "$work/printed" || failed=1
lockstep "$work/lockstep" 1 --mistake late-more "$work/late" 100
printf '%s\n' 'library:   clock 24 master 0 latency clocks 3' \
    'simulator: clock 24 master 0 latency clocks 4' >"$work/difference"
cmp "$work/difference" "$work/printed" || failed=1

lockstep "$work/lockstep" 1 --mistake unmapped-okay "$work/answered" 100
printf '%s\n' 'library:   clock 2 master 5 response 3' \
    'simulator: clock 2 master 5 response 0' >"$work/difference"
cmp "$work/difference" "$work/printed" || failed=1
lockstep "$work/lockstep" 1 --mistake log-cleared "$work/few" 100
printf '%s\n' 'library:   clock 77 log count 7 lost 1' \
    'simulator: clock 77 log count 7 lost 0' >"$work/difference"
cmp "$work/difference" "$work/printed" || failed=1
lockstep "$work/lockstep" 1 --mistake log-stays "$work/few" 100
printf '%s\n' 'library:   clock 14 log entry 0 master 1 address 3657719860 write 1' \
    'simulator: clock 14 log entry 0 master 1 address 4094 write 0' >"$work/difference"
cmp "$work/difference" "$work/printed" || failed=1
lockstep "$work/lockstep" 1 --mistake log-newest "$work/few" 100
printf '%s\n' 'library:   clock 14 take 0 master 1 address 4094 write 0' \
    'simulator: clock 14 take 0 master 1 address 3657719860 write 1' >"$work/difference"
cmp "$work/difference" "$work/printed" || failed=1

# words that say nothing, boards that are none, output that is lost
for words in '' "$board" "$board x" "$board 1 x" "$board 1 1 1" "--mistake none $board 1" "--mistake" "$work/absent 1" \
    "$work/empty 1" "$work/narrow 1" "$work/unordered 1" "$work/twice 1" "$work/numbered 1" "$work 1"; do
    lockstep "$work/lockstep" 2 $words
done
lockstep "$work/lockstep" 2 "$work/fourth" 1
if [ "$(cat "$work/errors")" != "lockstep: $work/fourth: line 2: refusal 4" ]; then
    echo "lockstep does not name the line to blame but says:"
    cat "$work/errors"
    failed=1
fi
lockstep "$work/lockstep" 2 "$work/unordered" 1
if [ "$(cat "$work/errors")" != "lockstep: $work/unordered: line 5: refusal 21" ]; then
    echo "lockstep does not name the line out of order but says:"
    cat "$work/errors"
    failed=1
fi
lockstep "$work/lockstep" 2 "$work/early" 1
if [ "$(cat "$work/errors")" != "lockstep: $work/early: line 3: refusal 2" ]; then
    echo "lockstep does not name the line default but says:"
    cat "$work/errors"
    failed=1
fi
lockstep "$work/lockstep" 2 "$work/behind" 1
if [ "$(cat "$work/errors")" != "lockstep: $work/behind: line 7: refusal 2" ]; then
    echo "lockstep does not name the line behind default but says:"
    cat "$work/errors"
    failed=1
fi
lockstep "$work/lockstep" 2 "$work/unshared" 1
if [ "$(cat "$work/errors")" != "lockstep: $work/unshared: refusal 20" ]; then
    echo "lockstep names a line to blame for a missing share line:"
    cat "$work/errors"
    failed=1
fi
"$work/lockstep" "$board" 1 >/dev/full 2>"$work/errors" && { echo "lockstep loses its output"; failed=1; }

if [ "$failed" = 0 ]; then
    echo "plan: ok, $pairs pairs as in the model's table"
    echo "lockstep: ok, $compared boards, $mistakes mistakes found"
fi
exit "$failed"
