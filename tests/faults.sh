#!/bin/sh
# Tries the programs and the planning tool where a read or a write fails, is interrupted, would have to wait or moves few bytes,
# and where a standard stream is closed. Compares what they write on standard output and on standard error, byte for byte, with
# the text that stands here. An input that cannot be read is never taken for one that ends, and no output is lost without a word.
set -eu

root=$(CDPATH= cd -- "$(dirname -- "$0")/.." && pwd)
library=$root/target/staticlib/libfabric_c.a
work=$(mktemp -d)
trap 'rm -rf "$work"' EXIT
[ -f "$library" ] || {
    echo "faults: no $library (tools/build fabric_c)" >&2
    exit 2
}
for program in table simulate texts; do
    [ -x "$root/target/bin/$program" ] || {
        echo "faults: $program is not built (tools/build $program)" >&2
        exit 2
    }
    ln -s "$root/target/bin/$program" "$work/$program"
done
gcc="gcc -std=c11 -O2 -Wall -Wextra -Werror"
$gcc -shared -fPIC -o "$work/faults.so" "$root/tests/faults.c"
$gcc -o "$work/pipes" "$root/tests/pipes.c"
$gcc -I"$root/include" -o "$work/plan" "$root/clients/c/plan.c" "$library"
cd "$work"
cp "$root/boards/document01.txt" board.txt
: > none
tries=0
different=0
eintr=4
eio=5
eagain=11

# What is tried: a command, its input, the file with all that it prints, and its exit status where it prints that.
subject() {
    command=$1 input=$2 whole=$3 status=${4-0}
    name=${command%% *}
}

# Starts the subject: what goes wrong (see faults.c), redirections of its own, the file with the standard output expected, the
# standard error expected (without the last line feed). Where something is expected there plan ends with status 2.
try() {
    expected=0
    [ "$name" != plan ] || expected=${4:+2}
    printf '%s' "${4:+$4
}" > error.expected
    got=0
    eval "env $1 LD_PRELOAD=./faults.so ./$command < $input > output 2> error 3>&- $2" || got=$?
    tries=$((tries + 1))
    if [ "$got" -eq "${expected:-$status}" ] && cmp -s output "$3" && cmp -s error error.expected; then
        return 0
    fi
    different=$((different + 1))
    echo "faults: $command < $input $2 ($1), status $got"
    diff "$3" output | head -n 5 || :
    diff error.expected error || :
}

# The reads of a descriptor, 5 bytes at most in each: the descriptor, its name in a report, the file that is read, and what standard
# error has if all of it is read. The last of the reads answers that the input ends, and none is made after it.
reads() {
    reading="FAULT_CALL=read FAULT_FD=$1"
    last=$((($(wc -c < "$3") + 4) / 5 + 1))
    for at in 1 $((last / 2 + 1)) "$last"; do
        fault="$reading FAULT_MOST=5 FAULT_AT=$at"
        try "$fault FAULT_ERRNO=$eio" '' none "$name: $2: Input/output error"
        try "$fault FAULT_ERRNO=$eintr" '' "$whole" "${4-}"
        try "$fault FAULT_ERRNO=$eagain FAULT_TIMES=3" '' "$whole" "${4-}"
    done
    try "$reading FAULT_MOST=5 FAULT_AT=$((last + 1)) FAULT_ERRNO=$eio" '' "$whole" "${4-}"
    try "$reading FAULT_MOST=1" '' "$whole" "${4-}"
}

# The writes to standard output, and how many bytes the first two of at most 7 move where that is not 14.
writes() {
    writing="FAULT_CALL=write FAULT_FD=1"
    head -c "${1-14}" "$whole" > part
    for at in 1 3; do
        try "$writing FAULT_MOST=7 FAULT_AT=$at FAULT_ERRNO=$eintr" '' "$whole" ''
        try "$writing FAULT_MOST=7 FAULT_AT=$at FAULT_ERRNO=$eagain FAULT_TIMES=3" '' "$whole" ''
    done
    try "$writing FAULT_MOST=1" '' "$whole" ''
    try "$writing FAULT_AT=1 FAULT_ERRNO=$eio" '' none "$name: standard output: Input/output error"
    try "$writing FAULT_MOST=7 FAULT_AT=3 FAULT_ERRNO=$eio" '' part "$name: standard output: Input/output error"
    try '' '> /dev/full' none "$name: standard output: No space left on device"
    try '' '>&-' none "$name: standard output: Bad file descriptor"
}

# An input of two pieces, the first a read, the second two, of which the last tells the end: what is printed of the first piece is
# in the file `first`.
pieces() {
    reading='FAULT_CALL=read FAULT_FD=0'
    failed="$name: standard input: Input/output error"
    try "$reading FAULT_AT=1 FAULT_ERRNO=$eio" '' none "$failed"
    for at in 2 3; do
        try "$reading FAULT_AT=$at FAULT_ERRNO=$eio" '' first "$failed"
    done
    try "$reading FAULT_AT=4 FAULT_ERRNO=$eio" '' "$whole" ''
}

# Standard input that is a directory, closed, or open for writing only; standard error closed.
streams() {
    try '' '< .' none "$name: standard input: Is a directory"
    try '' '<&-' none "$name: standard input: Bad file descriptor"
    try '' '<&- >&-' none "$name: standard input: Bad file descriptor"
    try '' '0> other' none "$name: standard input: Bad file descriptor"
    try '' '2>&-' "$whole" ''
}

# The writes to standard error: redirections of the subject's own, and the lines that it explains. Each line is one write: if the write
# with a number fails for good, that line is lost and no other. A write that is interrupted, would have to wait or moves few bytes
# loses none.
explains() {
    explaining='FAULT_CALL=write FAULT_FD=2'
    lines=$(echo "$2" | wc -l)
    try "$explaining FAULT_MOST=1" "$1" "$whole" "$2"
    for at in $(seq "$lines"); do
        try "$explaining FAULT_AT=$at FAULT_ERRNO=$eintr" "$1" "$whole" "$2"
        try "$explaining FAULT_AT=$at FAULT_ERRNO=$eagain FAULT_TIMES=3" "$1" "$whole" "$2"
        try "$explaining FAULT_MOST=7 FAULT_AT=$((at + 1)) FAULT_ERRNO=$eagain FAULT_TIMES=3" "$1" "$whole" "$2"
        try "$explaining FAULT_AT=$at FAULT_ERRNO=$eio" "$1" "$whole" "$(echo "$2" | sed "${at}d")"
    done
    try "$explaining FAULT_AT=$((lines + 1)) FAULT_ERRNO=$eio" "$1" "$whole" "$2"
}

# The subject with standard error a pipe that does not wait and is read after a pause only: what it explains, which is in a file, is more
# than the pipe holds.
through_full_pipe() {
    tries=$((tries + 1))
    ./pipes -1 /bin/sh -c "./$command 2>&1 > /dev/null" < "$input" > output 2> error || :
    if [ "$(wc -c < "$1")" -gt 65536 ] && cmp -s output "$1" && cmp -s error none; then
        return 0
    fi
    different=$((different + 1))
    echo "faults: $command explains through a pipe that is full"
    diff "$1" output | head -n 5 || :
    cat error
}

# The subject between two pipes that do not wait, the first of which pauses behind so many lines.
through_pipes() {
    tries=$((tries + 1))
    # shellcheck disable=SC2086
    ./pipes "$1" ./$command < "$input" > output 2> error || :
    if cmp -s output "$whole" && cmp -s error none; then
        return 0
    fi
    different=$((different + 1))
    echo "faults: $command between pipes"
    diff "$whole" output | head -n 5 || :
    cat error
}

# table
cat > page <<'PAGE'
master,slave,wait,serve
0,0,6,32
1,0,36,2
PAGE
subject table board.txt page
reads 0 'standard input' board.txt
writes
streams
through_pipes 4
./table --help > help
./table --version > version
subject 'table --help' none help
writes
subject 'table --version' none version
writes 12

# Of a text that fills the room no more is read: it is refused by its length (rule 8.2). What is refused is explained also where
# the refusal's line cannot be printed.
printf '%08193d' 0 > long.txt
echo refused,1 > refused
subject table long.txt refused
long='refusal 1: text over 8192 bytes'
try "FAULT_CALL=read FAULT_FD=0 FAULT_AT=2 FAULT_ERRNO=$eio" '' refused "table: $long"
try '' '> /dev/full' none "table: standard output: No space left on device
table: $long"

# table with the names of files. It opens each as descriptor 3, one behind the other, and writes twice for each: its line, and its
# table or refusal.
cp "$root/boards/encoder.txt" second.txt
sed 's/,1,0,0,0$/,1,5,0,0/' board.txt > third.txt
cat > page.second <<'PAGE'
master,slave,wait,serve
0,0,2,16
0,1,3,24
1,0,22,2
1,1,27,3
PAGE
cat > page.third <<'PAGE'
master,slave,wait,serve
0,0,18,96
1,0,108,6
PAGE
cksum board.txt second.txt third.txt long.txt > boards.before
for file in board second third; do
    echo "file,$file.txt" > "line.$file"
done
cp page page.board

# The reads of one of three files, 5 bytes at most in each: how many reads were made before it, the file, and what is printed
# where it cannot be read.
file_reads() {
    last=$((($(wc -c < "$2") + 4) / 5 + 1))
    reading='FAULT_CALL=read FAULT_FD=3 FAULT_MOST=5'
    for at in $(($1 + 1)) $(($1 + last / 2 + 1)) $(($1 + last)); do
        try "$reading FAULT_AT=$at FAULT_ERRNO=$eio" '' "$3" "table: $2: Input/output error"
        try "$reading FAULT_AT=$at FAULT_ERRNO=$eintr" '' "$whole" ''
        try "$reading FAULT_AT=$at FAULT_ERRNO=$eagain FAULT_TIMES=3" '' "$whole" ''
    done
    before=$(($1 + last))
}

cat line.board page.board line.second page.second line.third page.third > three
cat line.board line.second page.second line.third page.third > without.board
cat line.board page.board line.second line.third page.third > without.second
cat line.board page.board line.second page.second line.third > without.third
cat line.board line.second line.third > lines
subject 'table board.txt second.txt third.txt' none three
before=0
for file in board second third; do
    file_reads "$before" "$file.txt" "without.$file"
done
try "$reading FAULT_AT=$((before + 1)) FAULT_ERRNO=$eio" '' three ''
try 'FAULT_CALL=read FAULT_FD=3 FAULT_MOST=1' '' three ''
failed='Input/output error'
try "FAULT_CALL=read FAULT_FD=3 FAULT_AT=1 FAULT_TIMES=9 FAULT_ERRNO=$eio" '' lines "table: board.txt: $failed
table: second.txt: $failed
table: third.txt: $failed"
writes
# Each write by itself: those before it are whole, none is made behind it, and the files behind it are not looked at.
writing="FAULT_CALL=write FAULT_FD=1"
: > part.whole
at=1
for piece in line.board page.board line.second page.second line.third page.third; do
    try "$writing FAULT_AT=$at FAULT_ERRNO=$eio" '' part.whole "table: standard output: $failed"
    try "$writing FAULT_AT=$at FAULT_TIMES=100 FAULT_ERRNO=28" '' part.whole 'table: standard output: No space left on device'
    try "$writing FAULT_AT=$at FAULT_ERRNO=$eintr" '' three ''
    try "$writing FAULT_AT=$at FAULT_ERRNO=$eagain FAULT_TIMES=3" '' three ''
    cat "$piece" >> part.whole
    at=$((at + 1))
done
try "$writing FAULT_AT=$at FAULT_ERRNO=$eio" '' three ''
# A file is closed before its table is printed. It is not taken for standard input, output or error where one of these is closed,
# but may have that descriptor meanwhile.
try "$writing FAULT_SHUT=3" '' three ''
try "$writing FAULT_SHUT=0" '<&-' three ''
try "$writing FAULT_SHUT=2" '2>&-' three ''
try '' '<&-' three ''
try '' '2>&-' three ''
try '' '<&- 2>&-' three ''
try '' '<&- >&-' none 'table: standard output: Bad file descriptor'
try '' '>&- 2>&-' none ''
try '' '<&- >&- 2>&-' none ''
try "FAULT_CALL=read FAULT_FD=0 FAULT_AT=1 FAULT_ERRNO=$eio" '<&-' without.board "table: board.txt: $failed"
# Standard input is not touched.
try "FAULT_CALL=read FAULT_FD=0 FAULT_AT=1 FAULT_ERRNO=$eio" '' three ''
try '' '< .' three ''
try '' '0> other' three ''

# Among the files one that is refused, by its length, without a second read, and one that is not there.
printf 'file,long.txt\nrefused,1\nfile,absent.txt\nfile,.\n' > rest
cat line.board page.board rest line.third page.third > mixed
explained="table: long.txt: $long"
unread="table: absent.txt: No such file or directory
table: .: Is a directory"
subject 'table board.txt long.txt absent.txt . third.txt' none mixed
try '' '' mixed "$explained
$unread"
try "FAULT_CALL=read FAULT_FD=3 FAULT_AT=4 FAULT_ERRNO=$eio" '' mixed "$explained
table: absent.txt: No such file or directory
table: .: $failed"
try '' '2>&-' mixed ''
try '' '<&- 2>&-' mixed ''
try '' '2> /dev/full' mixed ''
try "$writing FAULT_MOST=1" '' mixed "$explained
$unread"
try "$writing FAULT_SHUT=3" '' mixed "$explained
$unread"
try '' '> /dev/full' none 'table: standard output: No space left on device'
try '' '>&-' none 'table: standard output: Bad file descriptor'
# The line of the file that is refused, then its refusal, which is explained nevertheless, and the line of the absent file.
cat line.board page.board > part.whole
try "$writing FAULT_AT=3 FAULT_ERRNO=$eio" '' part.whole "table: standard output: $failed"
echo file,long.txt >> part.whole
try "$writing FAULT_AT=4 FAULT_ERRNO=$eio" '' part.whole "table: standard output: $failed
$explained"
echo refused,1 >> part.whole
try "$writing FAULT_AT=5 FAULT_ERRNO=$eio" '' part.whole "$explained
table: standard output: $failed"
echo file,absent.txt >> part.whole
try "$writing FAULT_AT=6 FAULT_ERRNO=$eio" '' part.whole "$explained
table: absent.txt: No such file or directory
table: standard output: $failed"
echo file,. >> part.whole
try "$writing FAULT_AT=7 FAULT_ERRNO=$eio" '' part.whole "$explained
$unread
table: standard output: $failed"
for absent in absent.txt . long.txt; do
    subject "table $absent board.txt" none none
    try '' '> /dev/full' none 'table: standard output: No space left on device'
done
# The line of a file is one write, however long it is: the second is that of the file behind it.
for length in 4000 100000; do
    word=$(printf "%0${length}d" 0)
    subject "table $word board.txt" none none
    echo "file,$word" > part.whole
    try "$writing FAULT_AT=2 FAULT_ERRNO=$eio" '2>&-' part.whole ''
    try "$writing FAULT_AT=1 FAULT_ERRNO=$eio" '' none "table: standard output: $failed"
done
subject 'table /dev/stdin' none none
echo file,/dev/stdin > part.whole
try '' '<&-' part.whole 'table: /dev/stdin: No such file or directory'

# What is explained, each line by one write, and more of it than a pipe holds.
subject 'table long.txt' none explained.one
printf 'file,long.txt\nrefused,1\n' > explained.one
explains '' "table: long.txt: $long"
subject table long.txt refused
explains '' "table: $long"
subject table . none
explains '< .' 'table: standard input: Is a directory'
subject table board.txt none
explains '> /dev/full' 'table: standard output: No space left on device'
subject 'table board.txt long.txt absent.txt . third.txt' none mixed
explains '' "$explained
$unread"
absent=$(seq 2000 | sed 's/.*/absent&/')
subject "table $(echo "$absent" | tr '\n' ' ')" none none
echo "$absent" | sed 's/.*/table: &: No such file or directory/' > explained.many
through_full_pipe explained.many
# The usage has a line in one write too.
./table -x 2> usage
subject 'table -x' none none
try '' '' none "$(cat usage)"
for at in 1 2 3 4; do
    tries=$((tries + 1))
    env FAULT_CALL=write FAULT_FD=2 FAULT_AT=$at FAULT_ERRNO=$eio LD_PRELOAD=./faults.so ./table -x 2> error || :
    if [ "$(wc -l < error)" -lt "$(wc -l < usage)" ] && ! grep -vxFf usage error; then
        continue
    fi
    different=$((different + 1))
    echo "faults: the usage without write $at"
    diff usage error || :
done

# The system's words for each error, as the C library has them. EINTR and EAGAIN are tried again.
subject table board.txt none
python3 -c 'import os; [print(os.strerror(number)) for number in range(1, 141)]' > words
for number in $(seq 140); do
    case $number in "$eintr" | "$eagain") continue ;; esac
    try "FAULT_CALL=read FAULT_FD=0 FAULT_AT=1 FAULT_ERRNO=$number" '' none "table: standard input: $(sed -n "${number}p" words)"
done

# 100 tables of the largest board are more than a pipe holds that does not wait; standard input has two parts.
cp "$root/boards/largest.txt" largest.txt
{
    echo file,largest.txt
    ./table < largest.txt
} > page.largest
largest=$(seq 100 | while read -r _; do echo largest.txt; done | tr '\n' ' ')
{
    cat line.board page.board
    for file in $largest; do
        cat page.largest
    done
    echo file,/dev/stdin
    cat page.board
} > many
subject "table board.txt $largest/dev/stdin" board.txt many
through_pipes 4
tries=$((tries + 1))
cksum board.txt second.txt third.txt long.txt > boards.after
cmp -s boards.before boards.after || {
    different=$((different + 1))
    echo 'faults: a board was written to'
}

# simulate: its board, which it opens as descriptor 3, and its script
cat > script.txt <<'SCRIPT'
reset
post,0,read,4096,15,1,-
clock,2
wait,1,0
SCRIPT
cat > answers <<'ANSWERS'
reset,0
post,0
clock,0,0
slave,0,1,0,0,3,2,0
clock,0,0
slave,0,2,0,0,3,2,0
wait,0,36,2
ANSWERS
subject 'simulate board.txt' script.txt answers
reads 3 board.txt board.txt
reads 0 'standard input' script.txt
writes
streams
through_pipes 2
tries=$((tries + 1))
cmp -s board.txt "$root/boards/document01.txt" || {
    different=$((different + 1))
    echo 'faults: the board was written to'
}
./simulate --help > help
./simulate --version > version
subject 'simulate --help' none help
writes
subject 'simulate --version' none version
writes 8
subject 'simulate .' script.txt none
try '' '' none 'simulate: .: Is a directory'
subject 'simulate long.txt' script.txt refused
try '' '<&-' refused "simulate: long.txt: $long"
try '' '2>&-' refused ''
try '' '> /dev/full' none "simulate: standard output: No space left on device
simulate: long.txt: $long"

# An unfinished last line is an error of its own if the script ends, and not if the script cannot be read. In neither case is it carried
# out.
printf 'reset\nwait,1,0' > unended.txt
printf 'reset,0\nerror,2\n' > first.only
subject 'simulate board.txt' unended.txt first.only
cut='simulate: script line 2: lacks its line feed: the script may be cut short'
reads 0 'standard input' unended.txt "$cut"
explains '' "$cut"

# What is explained, each line by one write, and more of it than a pipe holds.
printf 'reset\npost,2,read,4096,15,1,-\nclock,1\nwait,0,9\nshow,memory,4096,1\n' > mistakes.txt
printf 'reset,0\npost,11\nclock,0,0\nslave,0,0,0,0,0,0,0\nwait,16,0,0\nerror,5\n' > mistakes
subject 'simulate board.txt' mistakes.txt mistakes
explains '' 'simulate: script line 2: refusal 11: no such master
simulate: script line 4: refusal 16: no connected slave there
simulate: script line 5: reaches past what is lent'
subject 'simulate long.txt' none refused
explains '' "simulate: long.txt: $long"
subject 'simulate absent.txt' none none
explains '' 'simulate: absent.txt: No such file or directory'
subject 'simulate board.txt' script.txt none
explains '< .' 'simulate: standard input: Is a directory'
explains '> /dev/full' 'simulate: standard output: No space left on device'
subject 'simulate' none none
explains '' 'usage: simulate BOARD < SCRIPT'
{ echo reset && seq 2000 | sed 's/.*/post,2,read,4096,15,1,-/' && echo clock; } > mistakes.many
{
    seq 2 2001 | sed 's/.*/simulate: script line &: refusal 11: no such master/'
    echo 'simulate: script line 2002: not a line of a script'
} > explained.many
subject 'simulate board.txt' mistakes.many none
through_full_pipe explained.many

# A script of 20,000 lines of 9 bytes. The first 131,200 bytes have 14,577 lines, and 7 bytes of the next one.
seq 20000 | sed 's/.*/wait,0,0/' > waits.txt
seq 20000 | sed 's/.*/wait,0,6,32/' > all
head -n 14577 all > first
subject 'simulate board.txt' waits.txt all
pieces
try "$reading FAULT_AT=2 FAULT_ERRNO=$eintr" '' all ''
try "$reading FAULT_MOST=1000 FAULT_AT=132 FAULT_ERRNO=$eio" '' none "$failed"
try "$reading FAULT_MOST=1000 FAULT_AT=150 FAULT_ERRNO=$eio" '' first "$failed"
try "$reading FAULT_MOST=1000 FAULT_AT=150 FAULT_ERRNO=$eagain" '' all ''
through_pipes 100
{ cat first && echo "$failed"; } > ordered
try "$reading FAULT_AT=2 FAULT_ERRNO=$eio" '2>&1' ordered ''
head -c 60000 all > part
try 'FAULT_CALL=write FAULT_FD=1 FAULT_MOST=60000 FAULT_AT=2' '' part 'simulate: standard output: Input/output error'

# texts
{ wc -c < board.txt && cat board.txt && printf '11\nmaster,4,8\n'; } > records
{ echo read,0 && cat board.txt && echo read,2; } > read
subject texts records read
reads 0 'standard input' records
writes
streams
through_pipes 3
subject texts records none
explains '< .' 'texts: standard input: Is a directory'
explains '> /dev/full' 'texts: standard output: No space left on device'

# 1,000 records of 77 bytes: the first 65,536 have 851 of them, and 9 bytes of the next one.
seq 1000 | while read -r _; do head -n 6 records; done > records.many
seq 1000 | while read -r _; do head -n 6 read; done > all
head -n $((851 * 6)) all > first
subject texts records.many all
pieces
try 'FAULT_CALL=write FAULT_FD=1 FAULT_AT=1' '' none 'texts: standard output: Input/output error'
through_pipes 1

# plan
printf 'wait,6\nserve,32\n' > figures
subject 'plan board.txt 0 0' none figures
reads 3 board.txt board.txt
writes
try '' '<&-' figures ''
try '' '2>&-' figures ''
subject 'plan long.txt 0 0' none refused 1
try '' '' refused ''
try '' '> /dev/full' none 'plan: standard output: No space left on device'
subject 'plan . 0 0' none none
try '' '' none 'plan: .: Is a directory'
subject 'plan absent.txt 0 0' none none
try '' '' none 'plan: absent.txt: No such file or directory'
./plan --help > help
./plan --version > version
subject 'plan --help' none help
writes
subject 'plan --version' none version
writes

echo "faults: $tries tries, $different differences"
[ "$different" -eq 0 ]
