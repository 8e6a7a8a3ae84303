#!/bin/sh
# Tries table and simulate on boards that are refused, simulate on scripts with refused calls, writes of some of the lanes, cards with
# latency, and unmapped transfers with their log, and both with options and names. Compares what they write on standard output and on
# standard error, byte for byte, with the text that stands here. Refusal k is rule 7.k of docs/RULES.md.
set -eu

root=$(CDPATH= cd -- "$(dirname -- "$0")/.." && pwd)
work=$(mktemp -d)
trap 'rm -rf "$work"' EXIT
for program in table simulate; do
    [ -x "$root/target/bin/$program" ] || {
        echo "explain: $program is not built (tools/build $program)" >&2
        exit 2
    }
done
cd "$work"
: > script.txt
tries=0
different=0

# Starts a program: NAME, its input, the standard output and the standard error expected (without the last line feed), arguments.
try() {
    name=$1 input=$2 output=$3 error=$4
    shift 4
    printf '%s' "${output:+$output
}" > output.expected
    printf '%s' "${error:+$error
}" > error.expected
    status=0
    "$root/target/bin/$name" "$@" < "$input" > output 2> error || status=$?
    tries=$((tries + 1))
    if [ "$status" -eq 0 ] && cmp -s output output.expected && cmp -s error error.expected; then
        return 0
    fi
    different=$((different + 1))
    echo "explain: $name $* (input: $(head -c 200 "$input" | tr '\n' ';')), status $status"
    diff output.expected output || :
    diff error.expected error || :
}

# Both programs on a board, a format of printf: the number it is refused with, and the explanation.
refused() {
    # shellcheck disable=SC2059
    printf "$1" > board.txt
    try table board.txt "refused,$2" "table: $3"
    try table script.txt "file,board.txt
refused,$2" "table: board.txt: $3" board.txt
    try simulate script.txt "refused,$2" "simulate: board.txt: $3" board.txt
}

line='no final line feed, unknown first word, wrong count of fields, or bad number'
slave='slave,0,8,1,1,0,0,0,0'
refused 'boss,4,8\n' 1 "line 1: refusal 1: $line"
refused 'master,4,8\n\n' 1 "line 2: refusal 1: $line"
refused "master,4,8\n$slave\nshare,0,0\n" 1 "line 3: refusal 1: $line"
refused "master,4,8\n$slave\nshare,0,0,01\n" 1 "line 3: refusal 1: $line"
refused "master,4,8\n$slave" 1 "line 2: refusal 1: $line"
# A slave line that lacks its last number, or its last two, says so, whatever else is wrong with it.
has='a slave line has 8 numbers, the last'
six="$has two are native and latency: 0 bus sizing, 1 native alignment; 0 to 63 clocks"
seven="$has is latency: 0 to 63 clocks"
refused 'master,4,8\nslave,0,8,1,1,0,0\nshare,0,0,1\n' 1 "line 2: refusal 1: $line; $six"
refused "master,4,8\n$slave\nslave,8,8,1,1,0,0" 1 "line 3: refusal 1: $line; $six"
refused "master,4,8\n$slave\nslave,8,8,1,1,0,00\n" 1 "line 3: refusal 1: $line; $six"
refused 'master,4,8\nslave,0,8,1,1,0,0,0\nshare,0,0,1\n' 1 "line 2: refusal 1: $line; $seven"
refused 'master,4,8\nslave,0,8,1,1,0,0,1\nshare,0,0,1\n' 1 "line 2: refusal 1: $line; $seven"
refused "master,4,8\n$slave\nslave,8,8,1,1,0,0,0" 1 "line 3: refusal 1: $line; $seven"
refused "master,4,8\n$slave\nslave,8,8,1,1,0,0,00\n" 1 "line 3: refusal 1: $line; $seven"
refused "master,4,8\n$slave\nslave,8,8,1,1,0\n" 1 "line 3: refusal 1: $line"
refused "master,4,8\n$slave\nslave,8,8,1,1,0,0,0,0,0\n" 1 "line 3: refusal 1: $line"
refused "master,4,8\n$slave\nslave,8,8,1,1,0,0,00,0\n" 1 "line 3: refusal 1: $line"
refused "master,4,8\n$slave\nslave,8,8,1,1,0,0,0,00\n" 1 "line 3: refusal 1: $line"
refused "master,4,8\n$slave\nslave,8,8,1,1,0,0,0,\n" 1 "line 3: refusal 1: $line"
refused "master,4,8\n$slave\nshare,0,0,1,1,1,1\nslave,8,8,1,1,0,0\n" 1 "line 3: refusal 1: $line"
refused "master,4,8\n$slave\nshare,0,0,1,1,1,1,1\nslave,8,8,1,1,0,0,0\n" 1 "line 3: refusal 1: $line"
refused 's,1,1,1,1,1,1\n' 1 "line 1: refusal 1: $line"
refused 's,1,1,1,1,1,1,1\n' 1 "line 1: refusal 1: $line"
refused "$slave" 1 "line 1: refusal 1: $line"
refused "$slave\n" 2 'line 1: refusal 2: line kind out of order, over the count or behind default'
refused "master,4,8\n$slave\nmaster,4,8\n" 2 'line 3: refusal 2: line kind out of order, over the count or behind default'
refused 'master,3,8\n' 3 'line 1: refusal 3: value outside its list or range'
refused 'master,4,8\nslave,0,8,1,1,0,0,2,0\n' 3 'line 2: refusal 3: value outside its list or range'
refused 'master,4,8\nslave,0,8,1,1,0,0,0,64\n' 3 'line 2: refusal 3: value outside its list or range'
refused 'master,4,8\nslave,0,8,1,1,0,0,1,64\n' 3 'line 2: refusal 3: value outside its list or range'
refused 'master,4,8\nslave,0,8,1,1,0,0,0,256\n' 3 'line 2: refusal 3: value outside its list or range'
refused 'master,4,8\nslave,0,8,1,1,0,0,0,4294967296\n' 3 'line 2: refusal 3: value outside its list or range'
refused "master,4,8\n$slave\nslave,4100,4096,1,1,0,0,0,0\n" 4 'line 3: refusal 4: base no multiple of span'
refused "master,4,8\n$slave\n$slave\n" 5 'line 3: refusal 5: slave overlaps an earlier one'
refused "master,4,8\n$slave\nslave,65536,65536,1,1,0,0,0,0\nbad\n" 6 'line 3: refusal 6: spans total over 65536'
share='share line names no master or slave, or a pair twice'
refused "master,4,8\n$slave\nshare,0,0,1\nshare,1,0,1\n" 7 "line 4: refusal 7: $share"
refused "master,4,8\n$slave\nshare,0,0,1\nshare,0,0,1\n" 7 "line 4: refusal 7: $share"
narrow='master narrower than native slave'
native='slave,0,8,2,1,0,0,1,0'
refused "master,2,8\nmaster,1,8\n$native\nshare,0,0,1\nshare,1,0,1\n" 19 "line 5: refusal 19: $narrow"
refused "master,1,8\n$native\nshare,1,0,1\n" 7 "line 3: refusal 7: $share"

# The line default stands behind a slave line and in front of none (rules 1.4 and 7.2), and has no number (rule 1.3).
kind='refusal 2: line kind out of order, over the count or behind default'
single="master,4,8\n$slave\nshare,0,0,1\n"
refused 'default\n' 2 "line 1: $kind"
refused "default\n$single" 2 "line 1: $kind"
refused 'master,4,8\ndefault\n' 2 "line 2: $kind"
refused "master,4,8\ndefault\n$slave\nshare,0,0,1\n" 2 "line 2: $kind"
refused "master,4,8\n$slave\ndefault\nshare,0,0,1\n" 2 "line 4: $kind"
refused "${single}default\ndefault\n" 2 "line 5: $kind"
refused "${single}default\nmaster,4,8\n" 2 "line 5: $kind"
refused "${single}default\nslave,8,8,1,1,0,0,0,0\n" 2 "line 5: $kind"
refused "${single}default\nshare,0,0,0\n" 2 "line 5: $kind"
refused "${single}default\ndefault\nx\n" 2 "line 5: $kind"
refused "${single}default" 1 "line 4: refusal 1: $line"
refused "${single}default,1\n" 1 "line 4: refusal 1: $line"
refused "${single}default,\n" 1 "line 4: refusal 1: $line"
refused "${single}default \n" 1 "line 4: refusal 1: $line"
refused "${single}Default\n" 1 "line 4: refusal 1: $line"
refused "${single}defaul\n" 1 "line 4: refusal 1: $line"
refused "${single}defaults\n" 1 "line 4: refusal 1: $line"
refused "${single}default\n\n" 1 "line 5: refusal 1: $line"
refused "${single}default\nshare,0,0\n" 1 "line 5: refusal 1: $line"
refused "${single}default\ndefault" 1 "line 5: refusal 1: $line"
refused 'default,1\n' 1 "line 1: refusal 1: $line"

# No line is to blame: the end of the text, and its length (rule 8.3).
refused '' 2 'refusal 2: at the end, no master or no slave'
refused 'master,4,8\nmaster,4,8\n' 2 'refusal 2: at the end, no master or no slave'
refused "$(printf '%08193d' 0)" 1 'refusal 1: text over 8192 bytes'
refused "$(printf '%08191d' 0)\n" 1 "line 1: refusal 1: $line"

# A master without a share line is named, the lowest where there are several, and no line is to blame (rules 7.20 and 8.3): the
# board, a format of printf, and the master.
unshared() {
    refused "$1" 20 "refusal 20: master $2 has no share line"
}

masters='master,4,8\nmaster,2,1\nmaster,8,4\nmaster,4,1\n'
unshared "master,4,8\n$slave\n" 0
unshared "master,4,8\n$slave\ndefault\n" 0
unshared "$masters$slave\n" 0
unshared "$masters$slave\nshare,1,0,1\nshare,2,0,1\nshare,3,0,1\n" 0
unshared "$masters$slave\nshare,0,0,1\nshare,2,0,1\nshare,3,0,1\n" 1
unshared "$masters$slave\nshare,0,0,1\nshare,1,0,1\nshare,3,0,1\n" 2
unshared "$masters$slave\nshare,0,0,1\nshare,1,0,1\nshare,2,0,100\n" 3
unshared "$masters$slave\nshare,0,0,1\nshare,3,0,1\n" 1
unshared "$masters$slave\nshare,1,0,1\nshare,2,0,1\n" 0
unshared "$masters$slave\nshare,0,0,1\nshare,1,0,1\n" 2
unshared "$masters$slave\nslave,8,8,1,1,0,0,0,0\nshare,0,0,1\nshare,0,1,1\nshare,1,1,1\nshare,3,1,1\n" 2
unshared "master,4,8\n$masters$slave\nshare,0,0,1\nshare,1,0,1\nshare,2,0,1\nshare,3,0,1\n" 4

# The largest board, without the share lines of one master, of the two upper ones, of the first and the last, of all.
largest=$root/boards/largest.txt
for master in 0 1 2 3 4 5 6 7; do
    unshared "$(grep -v "^share,$master," "$largest")\n" "$master"
done
unshared "$(grep -v '^share,[67],' "$largest")\n" 6
unshared "$(grep -v '^share,[07],' "$largest")\n" 0
unshared "$(grep -v '^share,' "$largest")\n" 0

# Lines are judged before the end of the text, and there 2 before 20 (rule 8.2). A share line that is refused connects nobody.
refused "$masters" 2 'refusal 2: at the end, no master or no slave'
refused "$masters$slave\nshare,4,0,1\n" 7 "line 6: refusal 7: $share"
refused "$masters$slave\nshare,0,1,1\n" 7 "line 6: refusal 7: $share"
refused "$masters$slave\nshare,3,0,1\nshare,3,0,1\n" 7 "line 7: refusal 7: $share"
refused "master,2,8\nmaster,1,8\n$native\nshare,1,0,1\n" 19 "line 4: refusal 19: $narrow"
refused "master,1,8\nmaster,2,8\n$native\nshare,0,0,1\n" 19 "line 4: refusal 19: $narrow"
refused "$masters$slave\nshare,0,0,0\n" 3 'line 6: refusal 3: value outside its list or range'
refused "$masters$slave\nshare,0,0,1\n$slave\n" 2 'line 7: refusal 2: line kind out of order, over the count or behind default'
refused "$masters$slave\nshare,0,0,1\nx\n" 1 "line 7: refusal 1: $line"
refused "master,4,8\n$slave\nshare,0,0,1" 1 "line 3: refusal 1: $line"
refused "$masters$slave\nshare,0,0,1" 1 "line 6: refusal 1: $line"
refused "master,4,8\n$slave\n$(printf '%08159d' 0)\n" 1 'refusal 1: text over 8192 bytes'
refused "master,4,8\n$slave\n$(printf '%08158d' 0)\n" 1 "line 3: refusal 1: $line"

# The first share line out of order is charged (rule 7.21): the board, a format of printf, and the line.
order='share line out of order: by master, then slave'
disordered() {
    refused "$1" 21 "line $2: refusal 21: $order"
}

# The words as they are printed, and no line of a script carried out: on this board card 1 stands before card 0.
printf 'master,4,8\nmaster,2,1\n%s\nslave,8,8,1,1,0,0,0,0\nshare,0,1,1\nshare,0,0,1\nshare,1,0,1\n' "$slave" > order.txt
try table order.txt 'refused,21' 'table: line 6: refusal 21: share line out of order: by master, then slave'
try table order.txt 'refused,21' 'table: line 6: refusal 21: share line out of order: by master, then slave' --
try table script.txt 'file,order.txt
refused,21' 'table: order.txt: line 6: refusal 21: share line out of order: by master, then slave' order.txt
printf 'reset\nwait,0,0\n' > reset.txt
try simulate reset.txt 'refused,21' 'simulate: order.txt: line 6: refusal 21: share line out of order: by master, then slave' \
    order.txt

# By master: of neighbours, of masters further apart, behind lines in order, before lines in order, whatever the shares.
disordered "$masters$slave\nshare,1,0,1\nshare,0,0,1\nshare,2,0,1\nshare,3,0,1\n" 7
disordered "$masters$slave\nshare,3,0,1\nshare,2,0,1\nshare,1,0,1\nshare,0,0,1\n" 7
disordered "$masters$slave\nshare,3,0,1\nshare,0,0,1\nshare,1,0,1\nshare,2,0,1\n" 7
disordered "$masters$slave\nshare,1,0,1\nshare,2,0,1\nshare,3,0,1\nshare,0,0,1\n" 9
disordered "$masters$slave\nshare,0,0,1\nshare,2,0,1\nshare,1,0,1\nshare,3,0,1\n" 8
disordered "$masters$slave\nshare,0,0,1\nshare,1,0,1\nshare,3,0,1\nshare,2,0,1\n" 9
disordered "$masters$slave\nshare,0,0,1\nshare,1,0,100\nshare,3,0,1\nshare,2,0,100\n" 9
disordered "$masters$slave\nshare,0,0,100\nshare,1,0,100\nshare,3,0,100\nshare,2,0,1\n" 9
# By slave, for one master: numbers and not words are compared, so 2 and 9 come before 10, and 7 before 8.
cards="$(seq 0 8 120 | sed 's/.*/slave,&,8,1,1,0,0,0,0/')\n"
disordered "master,4,8\n${cards}share,0,1,1\nshare,0,0,1\n" 19
disordered "master,4,8\n${cards}share,0,10,1\nshare,0,2,1\n" 19
disordered "master,4,8\n${cards}share,0,10,1\nshare,0,9,1\n" 19
disordered "master,4,8\n${cards}share,0,8,1\nshare,0,7,1\n" 19
disordered "master,4,8\n${cards}share,0,15,1\nshare,0,0,1\n" 19
disordered "master,4,8\n${cards}share,0,15,1\nshare,0,1,1\n" 19
disordered "master,4,8\n${cards}share,0,1,1\nshare,0,2,1\nshare,0,11,1\nshare,0,3,1\n" 21
# The master counts first: a lower master is charged whichever its slave is. For the last master too its slaves count.
two="master,4,8\nmaster,2,1\n$cards"
disordered "${two}share,0,0,1\nshare,1,0,1\nshare,0,1,1\n" 21
disordered "${two}share,0,0,1\nshare,1,0,1\nshare,0,15,1\n" 21
disordered "${two}share,1,0,1\nshare,0,15,1\n" 20
disordered "${two}share,1,1,1\nshare,0,1,1\n" 20
disordered "${two}share,1,1,1\nshare,0,0,1\n" 20
disordered "${two}share,0,0,1\nshare,1,2,1\nshare,1,1,1\n" 21
disordered "${two}share,0,3,1\nshare,1,2,1\nshare,1,1,1\n" 21
disordered "${two}share,0,0,1\nshare,1,15,1\nshare,1,14,1\n" 21

# The largest board has 24 lines before its share lines, 16 of each master: what a command makes of the share lines.
arranged() {
    sed 24q "$largest"
    sed 1,24d "$largest" | "$@"
}
# A share line is exchanged with the next one: the second of the two places is charged.
for number in 1 2 8 9 10 15 16 17 32 64 111 112 113 126 127; do
    disordered "$(arranged sed "$number{h;d;};$((number + 1))G")\n" $((25 + number))
done
# The first line is put last, the last line first; all stand backwards, by slave and then master, and by master and then the
# slave's word.
disordered "$(arranged sed '1{h;d;};128G')\n" 152
disordered "$(sed 24q "$largest" && tail -n 1 "$largest" && sed '1,24d;152d' "$largest")\n" 26
disordered "$(arranged sort -t , -k 2,2nr -k 3,3nr)\n" 26
disordered "$(arranged sort -t , -k 3,3n -k 2,2n)\n" 33
disordered "$(arranged env LC_ALL=C sort -t , -k 2,2 -k 3,3)\n" 33

# In that line 1, 3, 7 and 19 come first (rule 8.2). A pair that has a line already is refused with 7, also where it comes before
# the pair on the line above. With 2 such a line cannot be refused: where a share line is above it, so is a slave line.
behind="line 7: refusal"
refused "$masters$slave\nshare,1,0,1\nshare,0,0,01\n" 1 "$behind 1: $line"
refused "$masters$slave\nshare,1,0,1\nshare,0,0\n" 1 "$behind 1: $line"
refused "$masters$slave\nshare,1,0,1\nshare,0,0,1" 1 "$behind 1: $line"
refused "$masters$slave\nshare,1,0,1\nshare,0,0,0\n" 3 "$behind 3: value outside its list or range"
refused "$masters$slave\nshare,1,0,1\nshare,0,0,101\n" 3 "$behind 3: value outside its list or range"
refused "$masters$slave\nshare,1,0,1\nshare,0,1,1\n" 7 "$behind 7: $share"
refused "$masters$slave\nshare,1,0,1\nshare,0,4294967296,1\n" 7 "$behind 7: $share"
refused "$masters$slave\nshare,1,0,1\nshare,1,0,1\n" 7 "$behind 7: $share"
refused "$masters$slave\nshare,1,0,1\nshare,1,0,2\nshare,0,0,1\n" 7 "$behind 7: $share"
refused "$masters$slave\nshare,0,0,1\nshare,1,0,1\nshare,0,0,1\n" 7 "line 8: refusal 7: $share"
refused "$masters$slave\nshare,0,0,1\nshare,3,0,1\nshare,0,0,2\n" 7 "line 8: refusal 7: $share"
refused "master,4,8\n${cards}share,0,2,1\nshare,0,10,1\nshare,0,2,1\n" 7 "line 20: refusal 7: $share"
refused "master,1,8\nmaster,2,8\n$native\nshare,1,0,1\nshare,0,0,1\n" 19 "line 5: refusal 19: $narrow"
refused "master,2,8\nmaster,1,8\nmaster,2,8\n$native\nshare,0,0,1\nshare,2,0,1\nshare,1,0,1\n" 19 "line 7: refusal 19: $narrow"
refused "master,1,8\nslave,8,8,1,1,0,0,0,0\n$native\nslave,16,8,1,1,0,0,0,0\nshare,0,2,1\nshare,0,1,1\n" 19 \
    "line 6: refusal 19: $narrow"
disordered "master,1,8\nmaster,2,8\n$native\nslave,8,8,1,1,0,0,0,0\nshare,1,0,1\nshare,0,1,1\nshare,0,0,1\n" 6
disordered "master,1,8\nmaster,2,8\n$native\nslave,8,8,1,1,0,0,0,0\nshare,1,1,1\nshare,1,0,1\n" 6

# The first line that is refused answers; what is missing at the end comes behind (rule 8.2). That can be 20 alone: a text with a
# share line behind another has a master and a slave.
disordered "$masters$slave\nshare,2,0,1\nshare,1,0,1\n" 7
disordered "$masters$slave\nshare,1,0,1\nshare,0,0,1\n" 7
disordered "$masters$slave\nshare,3,0,1\nshare,0,0,1\n" 7
disordered "$masters$slave\nshare,1,0,1\nshare,0,0,1\nshare,2,0,1\n" 7
disordered "$(grep -v '^share,7,' "$largest" | sed '26{h;d;};27{G;}')\n" 27
disordered "$masters$slave\nshare,1,0,1\nshare,0,0,1\nx\n" 7
disordered "$masters$slave\nshare,1,0,1\nshare,0,0,1\nshare,2,0,1" 7
disordered "$masters$slave\nshare,1,0,1\nshare,0,0,1\n$slave\n" 7
disordered "$masters$slave\nshare,1,0,1\nshare,0,0,1\nshare,2,0,0\n" 7
disordered "$masters$slave\nshare,1,0,1\nshare,0,0,1\nshare,0,0,1\n" 7
disordered "$masters$slave\nshare,1,0,1\nshare,0,0,1\nshare,4,0,1\n" 7
disordered "master,2,8\nmaster,2,8\nmaster,1,8\n$native\nshare,1,0,1\nshare,0,0,1\nshare,2,0,1\n" 6
refused "$masters$slave\nshare,1,0,1\nx\nshare,0,0,1\n" 1 "$behind 1: $line"
refused "$masters$slave\nshare,1,0,1\n$slave\nshare,0,0,1\n" 2 "$behind 2: line kind out of order, over the count or behind default"
refused "master,4,8\nshare,1,0,1\nshare,0,0,1\n$slave\n" 2 'line 2: refusal 2: line kind out of order, over the count or behind default'
refused "$masters$slave\nshare,1,0,1\nshare,0,0,1\n$(printf '%08193d' 0)\n" 1 'refusal 1: text over 8192 bytes'

# A board that is taken is not explained.
printf 'master,4,8\n%s\nshare,0,0,1\n' "$slave" > board.txt
try table board.txt 'master,slave,wait,serve
0,0,0,8' ''
try simulate script.txt '' '' board.txt

# So is one with a slave that has no share line (rule 1.8), and a line for each master.
# shellcheck disable=SC2059
printf "$masters$slave\nslave,8,8,1,1,0,0,0,0\nshare,0,1,1\nshare,1,1,1\nshare,2,1,1\nshare,3,1,1\n" > connected.txt
try table connected.txt 'master,slave,wait,serve
0,1,14,8
1,1,20,2
2,1,14,8
3,1,18,4' ''
try simulate script.txt '' '' connected.txt

# Share lines in order (rule 1.4): a lower slave of a higher master comes behind, 10 behind 2, and the shares do not count. Both
# programs, a board and its pairs, of which no other master requests: MASTER,SLAVE,WAIT,SERVE.
ordered() {
    # shellcheck disable=SC2059
    printf "$1" > ordered.txt
    try table ordered.txt "master,slave,wait,serve
$2" ''
    try table script.txt "file,ordered.txt
master,slave,wait,serve
$2" '' ordered.txt
    try simulate script.txt '' '' ordered.txt
}

ordered "${two}share,0,1,1\nshare,1,0,1\n" '0,1,0,8
1,0,0,2'
ordered "${two}share,0,15,1\nshare,1,0,1\n" '0,15,0,8
1,0,0,2'
ordered "${two}share,0,0,100\nshare,0,2,1\nshare,0,10,99\nshare,1,1,50\nshare,1,9,2\nshare,1,11,1\n" '0,0,0,8
0,2,0,8
0,10,0,8
1,1,0,2
1,9,0,2
1,11,0,2'
ordered "${two}share,0,1,1\nshare,1,0,1\ndefault\n" '0,1,0,8
1,0,0,2'
ordered "${single}default\n" 0,0,0,8
ordered "master,4,8\n${cards}$(seq 0 15 | sed 's/.*/share,0,&,1\\n/' | tr -d '\n')" "$(seq 0 15 | sed 's/.*/0,&,0,8/')"

# Of several files one is refused with 21, and the others are printed as by themselves.
figures='master,slave,wait,serve
0,0,0,8'
try table script.txt "file,board.txt
$figures
file,order.txt
refused,21
file,board.txt
$figures" "table: order.txt: line 6: refusal 21: $order" board.txt order.txt board.txt
try table script.txt "file,order.txt
refused,21
file,./order.txt
refused,21
file,board.txt
$figures" "table: order.txt: line 6: refusal 21: $order
table: ./order.txt: line 6: refusal 21: $order" order.txt ./order.txt board.txt

# A script, a format of printf, on the board of docs/RULES.md, section 9: what is printed, and what is explained.
printf 'master,4,8\nmaster,2,1\nslave,4096,4096,2,8,1,0,0,0\nshare,0,0,2\nshare,1,0,3\n' > fabric.txt
called() {
    # shellcheck disable=SC2059
    printf "$1" > calls.txt
    try simulate calls.txt "$2" "$3" fabric.txt
}

# The same where line 2, behind a reset, is refused with a number: nothing else is explained.
refused_call() {
    called "reset\n$1" "reset,0
$2,$3${5-}" "simulate: script line 2: refusal $3: $4"
}

called 'lend,memory,4095\nreset\nclock,1\n' 'reset,0
clock,8,0' 'simulate: script line 3: refusal 8: memory or buffer not of its exact length'
called 'lend,buffer,4097\nreset\npost,0,read,4096,15,1,-\n' 'reset,0
post,8' 'simulate: script line 3: refusal 8: memory or buffer not of its exact length'
called 'reset\nslot,0,2,0,0,0,0\nclock,2\n' 'reset,0
clock,9,0
clock,9,0' 'simulate: script line 3: refusal 9: the state breaks a rule'
called 'reset\ntransfer,0,1,0,4096,15,9,0\npost,1,read,4096,3,1,-\n' 'reset,0
post,9' 'simulate: script line 3: refusal 9: the state breaks a rule'
refused_call 'post,2,read,4096,15,1,-\n' post 11 'no such master'
refused_call 'wait,2,0\n' wait 11 'no such master' ',0,0'
called 'reset\npost,0,read,4096,15,1,-\npost,0,read,4096,15,1,-\n' 'reset,0
post,0
post,12' 'simulate: script line 3: refusal 12: master holds a transfer'
beats="beats 0 or over the master's burst"
refused_call 'post,0,read,4096,15,9,-\n' post 13 "$beats"
refused_call 'post,0,read,4096,15,0,-\n' post 13 "$beats"
refused_call 'post,0,read,8190,15,1,-\n' post 14 "address no multiple of the master's width"
refused_call 'post,0,read,4096,6,1,-\n' post 15 'lanes not legal, or a burst without all lanes'
refused_call 'post,0,read,4096,3,2,-\n' post 15 'lanes not legal, or a burst without all lanes'
refused_call 'post,0,read,8192,15,1,-\n' post 16 'no connected slave there'
refused_call 'wait,0,1\n' wait 16 'no connected slave there' ',0,0'
refused_call 'post,0,read,8188,15,2,-\n' post 17 "burst passes the slave's end"
refused_call 'post,0,write,4096,15,1,112233\n' post 18 'data not beats times width bytes'
refused_call 'post,0,read,4096,15,1,11223344\n' post 18 'data not beats times width bytes'

# A board that the script has overwritten is refused by the call that it is handed to (rule 8.5).
called 'count,0,1\nreset\n' 'reset,2' \
    'simulate: script line 2: refusal 2: at the end, no master or no slave; line kind out of order, over the count or behind default'
called 'reset\nslave,0,4100,4096,2,8,1,0,0,0\npost,0,read,4096,15,1,-\nclock,1\nwait,0,0\n' 'reset,0
post,4
clock,4,0
wait,0,6,32' 'simulate: script line 3: refusal 4: base no multiple of span
simulate: script line 4: refusal 4: base no multiple of span'
called 'share,0,1,1\nreset\n' 'reset,7' "simulate: script line 2: refusal 7: $share"
called 'slave,0,4096,4096,4,8,1,0,1,0\nreset\n' 'reset,19' "simulate: script line 2: refusal 19: $narrow"
called 'slave,0,4096,4096,2,8,1,0,0,64\nreset\n' 'reset,3' 'simulate: script line 2: refusal 3: value outside its list or range'

# A board on which the script leaves a master without a share line: the lines behind a reset, what they print, and which of the
# script's lines are refused with 20, each with the master that is named: LINE:MASTER.
unshared_calls() {
    explained=
    for named in $3; do
        explained="${explained:+$explained
}simulate: script line ${named%:*}: refusal 20: master ${named#*:} has no share line"
    done
    called "reset\n$1" "reset,0
$2" "$explained"
}

idle=slave,0,0,0,0,0,0,0
unshared_calls 'share,1,0,0\nreset\n' reset,20 3:1
unshared_calls 'share,0,0,0\nreset\n' reset,20 3:0
unshared_calls 'share,1,0,0\nshare,0,0,0\nreset\n' reset,20 4:0
unshared_calls 'share,1,0,0\npost,0,read,4096,15,1,-\npost,1,read,4096,3,1,-\n' 'post,20
post,20' '3:1 4:1'
unshared_calls 'share,0,0,0\nclock,0\nclock,1\nclock,2\n' 'clock,20,0
clock,20,0
clock,20,0' '4:0 5:0'
called 'share,1,0,0\nreset\n' reset,20 'simulate: script line 2: refusal 20: master 1 has no share line'
# The wait is that of the board as it was read.
unshared_calls 'share,1,0,0\nwait,1,0\nclock,1\nwait,0,0\n' 'wait,0,36,2
clock,20,0
wait,0,6,32' 4:1

# The log of a state as it is printed: COUNT,LOST, and entries from the oldest on, each MASTER,ADDRESS,WRITE; those behind are 0.
log_of() {
    echo "log,$1"
    shift
    for index in 0 1 2 3 4 5 6 7; do
        echo "entry,$index,${1-0,0,0}"
        [ $# -eq 0 ] || shift
    done
}

# A refused reset leaves every number of the state as it was (rule 8.1): the last owner is still 1, and the log has its entry.
unshared_calls 'share,1,0,0\nlog,3,1\nentry,2,1,8192,1\nreset\nstate\n' "reset,20
$(seq 0 7 | sed 's/.*/transfer,&,0,0,0,0,0,0/')
slot,0,1,0,0,0,0
$(seq 1 15 | sed 's/.*/slot,&,0,0,0,0,0/')
$(log_of 3,1 0,0,0 0,0,0 1,8192,1)" 5:1
# Before the first reset every number is 0, and stays so. A transfer that is served goes on from where it was.
called 'share,1,0,0\nreset\nstate\n' "reset,20
$(seq 0 7 | sed 's/.*/transfer,&,0,0,0,0,0,0/')
$(seq 0 15 | sed 's/.*/slot,&,0,0,0,0,0/')
$(log_of 0,0)" 'simulate: script line 2: refusal 20: master 1 has no share line'
unshared_calls 'post,0,read,4096,15,1,-\nclock,3\nshare,1,0,0\nreset\nstate\nshare,1,0,3\nclock,1\n' "post,0
clock,0,0
slave,0,1,0,0,3,2,0
clock,0,0
slave,0,2,0,0,3,2,0
clock,0,0
slave,0,1,0,2,3,2,1
reset,20
transfer,0,1,0,4096,15,1,0
$(seq 1 7 | sed 's/.*/transfer,&,0,0,0,0,0,0/')
slot,0,0,1,1,1,1
$(seq 1 15 | sed 's/.*/slot,&,0,0,0,0,0/')
$(log_of 0,0)
clock,0,1
slave,0,2,0,2,3,2,1" 5:1

# What was refused is taken when the share line is given back. Nothing has moved: master 0 is served from where it was.
unshared_calls 'share,1,0,0\nreset\nshare,1,0,3\nreset\nclock,1\n' "reset,20
reset,0
clock,0,0
$idle" 3:1
unshared_calls 'share,0,0,0\nclock,1\nshare,1,0,0\nclock,1\nshare,0,0,1\nclock,1\nshare,1,0,1\nclock,1\n' "clock,20,0
clock,20,0
clock,20,0
clock,0,0
$idle" '3:0 5:0 7:1'
unshared_calls 'fill,memory,0,11223344\npost,0,read,4096,15,1,-\nclock,1\nshare,0,0,0\nclock,3\npost,1,read,4096,3,1,-\n'"\
show,buffer,0,4\nshare,0,0,2\nclock,3\nshow,buffer,0,4\n" 'post,0
clock,0,0
slave,0,1,0,0,3,2,0
clock,20,0
clock,20,0
clock,20,0
post,20
00000000
clock,0,0
slave,0,2,0,0,3,2,0
clock,0,0
slave,0,1,0,2,3,2,1
clock,0,1
slave,0,2,0,2,3,2,1
11223344' '6:0 7:0'
# A share line at another slave serves as well. The second slave has the 8 bytes that can be lent beyond the board's own.
unshared_calls 'slave,1,0,8,2,1,0,0,0,0\ncount,2,2\nlend,memory,4104\nshare,1,0,0\nreset\nshare,1,1,1\nreset\n'"\
post,1,write,4,3,1,a1b2\nclock,1\nshow,memory,4100,2\n" "reset,20
reset,0
post,0
clock,0,2
$idle
slave,1,2,1,4,3,1,0
a1b2" 6:1

# A higher count of masters wants share lines for those that come in; a lower one wants none left of those that go out (7).
unshared_calls 'master,2,1,1\ncount,3,1\nreset\nclock,1\nshare,2,0,1\nreset\nclock,1\n' "reset,20
clock,20,0
reset,0
clock,0,0
$idle" '4:2 5:2'
eight=$(for master in 2 3 4 5 6 7; do printf 'master,%d,4,1\\n' "$master"; done)
unshared_calls "${eight}count,8,1\nreset\n" reset,20 9:2
unshared_calls "${eight}count,8,1\nshare,2,0,1\nshare,4,0,1\nshare,6,0,1\nreset\nshare,0,0,0\nreset\n" 'reset,20
reset,20' '12:3 14:0'
unshared_calls "${eight}share,2,0,1\nshare,3,0,1\nshare,4,0,1\nshare,5,0,1\nshare,6,0,1\ncount,8,1\nreset\n\
share,7,0,1\nreset\n" 'reset,20
reset,0' 14:7
called 'count,1,1\nreset\nshare,1,0,0\nreset\n' 'reset,7
reset,0' "simulate: script line 2: refusal 7: $share"
called 'count,1,1\nshare,0,0,0\nshare,1,0,0\nreset\n' reset,20 \
    'simulate: script line 4: refusal 20: master 0 has no share line'

# Lines that overwrite the board are no lines of a description: in whichever order they give shares, they are not refused with 21.
called 'share,1,0,0\nshare,0,0,0\nshare,1,0,3\nshare,0,0,2\nreset\nclock,1\n' "reset,0
clock,0,0
$idle" ''
called 'reset\nshare,1,0,3\nshare,0,0,2\nclock,1\npost,0,read,4096,15,1,-\npost,1,read,4096,3,1,-\n' "reset,0
clock,0,0
$idle
post,0
post,0" ''
called 'slave,1,0,8,2,1,0,0,0,0\ncount,2,2\nlend,memory,4104\nshare,1,1,1\nshare,1,0,1\nshare,0,1,1\nshare,0,0,1\nreset\nclock,1\n'"\
share,0,0,0\nshare,1,1,0\nreset\nclock,1\npost,0,read,0,15,1,-\nwait,0,0\n" "reset,0
clock,0,0
$idle
slave,1,0,0,0,0,0,0
reset,0
clock,0,0
$idle
slave,1,0,0,0,0,0,0
post,0
wait,0,6,32" ''
unshared_calls 'share,1,0,0\nshare,1,0,3\nshare,0,0,0\nreset\n' reset,20 5:0
called 'share,1,0,1\nshare,0,0,101\nreset\n' reset,3 'simulate: script line 3: refusal 3: value outside its list or range'
called 'share,1,0,1\nshare,0,1,1\nreset\n' reset,7 "simulate: script line 3: refusal 7: $share"

# What the lines of the board are refused with comes before 20, and 2 too (rule 8.5).
called 'share,0,0,0\nshare,1,0,0\ncount,2,0\nreset\n' reset,2 \
    'simulate: script line 4: refusal 2: at the end, no master or no slave; line kind out of order, over the count or behind default'
called 'share,1,0,0\nslave,0,4096,4096,2,8,1,0,2,0\nreset\n' reset,3 \
    'simulate: script line 3: refusal 3: value outside its list or range'
called 'share,1,0,0\nshare,0,0,101\nreset\n' reset,3 'simulate: script line 3: refusal 3: value outside its list or range'
called 'share,1,0,0\nslave,0,4100,4096,2,8,1,0,0,0\nreset\n' reset,4 'simulate: script line 3: refusal 4: base no multiple of span'
called 'share,1,0,0\nshare,2,0,1\nreset\n' reset,7 "simulate: script line 3: refusal 7: $share"
called 'share,0,0,0\nslave,0,4096,4096,4,8,1,0,1,0\nreset\n' reset,19 "simulate: script line 3: refusal 19: $narrow"
# 20 comes before what is refused of lengths (8), the state (9) and a post (11 to 18).
unshared_calls 'lend,memory,4095\nlend,buffer,0\nshare,1,0,0\nclock,1\npost,0,read,4096,15,1,-\n' 'clock,20,0
post,20' '5:1 6:1'
unshared_calls 'slot,0,2,0,0,0,0\nshare,0,0,0\nclock,1\npost,1,read,4096,3,1,-\n' 'clock,20,0
post,20' '4:0 5:0'
unshared_calls 'transfer,1,1,0,4096,3,1,0\nshare,1,0,0\nclock,1\n' clock,20,0 4:1
unshared_calls 'share,1,0,0\npost,2,read,4096,15,1,-\npost,0,read,4098,6,9,11\npost,0,read,8192,15,1,-\n' 'post,20
post,20
post,20' '3:1 4:1 5:1'

# The accesses of a transfer (rule 4.10), on a board with masters of 8 and 2 bytes, and a card of 2 bytes and bursts of 4 that
# waits 1 clock for a read and 2 for a write. With bus sizing the accesses of a write that have no lane are left out.
# Master 0 has its transfers at 4104, the card's offset 8, and writes these bytes.
printf 'master,8,4\nmaster,2,1\nslave,4096,64,2,4,1,2,0,0\nshare,0,0,2\nshare,1,0,3\n' > lanes.txt
bytes=a0a1a2a3a4a5a6a7
narrowed() {
    # shellcheck disable=SC2059
    printf "$1" > calls.txt
    try simulate calls.txt "$2" "${3-}" lanes.txt
}

# The clocks of card 0, each MASK:PHASE,OWNER,OFFSET,LANES,RUN,PLACE, as they are printed.
clocks() {
    for clock in "$@"; do
        printf 'clock,0,%s\nslave,0,%s\n' "${clock%%:*}" "${clock#*:}"
    done
}

# A write of master 0, with a clock behind its last: LANES, the card's bytes from offset 8 on when it is finished, its clocks, and
# the card's numbers from width to native where they are others.
written() {
    lanes=$1 stored=$2 passed=$3
    shift 3
    count=$(echo "$passed" | grep -c '^clock,')
    posted="${1:+slave,0,4096,64,$1,0\n}reset\npost,0,write,4104,$lanes,1,$bytes\n"
    narrowed "${posted}clock,$((count + 1))\nshow,memory,8,8\n" "reset,0
post,0
$passed
clock,0,0
slave,0,0,0,0,0,0,0
$stored"
}

# Lanes of the second word, of the third and fourth, of all: one access at offset 10, two at 12 and 14, four.
written 12 0000a2a300000000 "$(clocks 0:1,0,10,3,1,0 0:1,0,10,3,1,0 1:2,0,10,3,1,0)"
written 240 00000000a4a5a6a7 "$(clocks 0:1,0,12,3,2,0 0:1,0,12,3,2,0 0:2,0,12,3,2,0 0:1,0,14,3,2,1 0:1,0,14,3,2,1 1:2,0,14,3,2,1)"
written 255 $bytes "$(clocks 0:1,0,8,3,4,0 0:1,0,8,3,4,0 0:2,0,8,3,4,0 0:1,0,10,3,4,1 0:1,0,10,3,4,1 0:2,0,10,3,4,1 \
    0:1,0,12,3,4,2 0:1,0,12,3,4,2 0:2,0,12,3,4,2 0:1,0,14,3,4,3 0:1,0,14,3,4,3 1:2,0,14,3,4,3)"
# Lanes of the first two words, of the first and of the last; a single lane is one of the card's two.
written 15 a0a1a2a300000000 "$(clocks 0:1,0,8,3,2,0 0:1,0,8,3,2,0 0:2,0,8,3,2,0 0:1,0,10,3,2,1 0:1,0,10,3,2,1 1:2,0,10,3,2,1)"
written 3 a0a1000000000000 "$(clocks 0:1,0,8,3,1,0 0:1,0,8,3,1,0 1:2,0,8,3,1,0)"
written 192 000000000000a6a7 "$(clocks 0:1,0,14,3,1,0 0:1,0,14,3,1,0 1:2,0,14,3,1,0)"
written 1 a000000000000000 "$(clocks 0:1,0,8,1,1,0 0:1,0,8,1,1,0 1:2,0,8,1,1,0)"
written 8 000000a300000000 "$(clocks 0:1,0,10,2,1,0 0:1,0,10,2,1,0 1:2,0,10,2,1,0)"
written 128 00000000000000a7 "$(clocks 0:1,0,14,2,1,0 0:1,0,14,2,1,0 1:2,0,14,2,1,0)"
# The accesses carried out are cut into runs, from the first of them on: two of 1; at a card of 1 byte two of 2, one of 2 and one
# of 4.
written 240 00000000a4a5a6a7 "$(clocks 0:2,0,12,3,1,0 1:2,0,14,3,1,0)" 2,1,1,0,0
written 240 00000000a4a5a6a7 "$(clocks 0:2,0,12,1,2,0 0:2,0,13,1,2,1 0:2,0,14,1,2,0 1:2,0,15,1,2,1)" 1,2,1,0,0
written 12 0000a2a300000000 "$(clocks 0:2,0,10,1,2,0 1:2,0,11,1,2,1)" 1,4,1,0,0
written 240 00000000a4a5a6a7 "$(clocks 0:2,0,12,1,4,0 0:2,0,13,1,4,1 0:2,0,14,1,4,2 1:2,0,15,1,4,3)" 1,8,1,0,0
# A card of 4 bytes has two words there, one of 8 bytes one.
written 12 0000a2a300000000 "$(clocks 0:1,0,8,12,1,0 1:2,0,8,12,1,0)" 4,4,0,1,0
written 48 00000000a4a50000 "$(clocks 0:1,0,12,3,1,0 1:2,0,12,3,1,0)" 4,4,0,1,0
written 48 00000000a4a50000 "$(clocks 1:2,0,8,48,1,0)" 8,4,1,0,0
# A native card has its access, at offset 2, whatever the lanes; those above its two have no place there.
written 12 0000000000000000 "$(clocks 0:1,0,2,0,1,0 0:1,0,2,0,1,0 1:2,0,2,0,1,0)" 2,4,1,2,1
written 240 0000000000000000 "$(clocks 1:2,0,2,0,1,0)" 2,4,1,0,1

# A read carries out all four accesses, and brings all bytes, whichever lanes it names; of a native card it is one access.
narrowed "reset\nfill,memory,8,$bytes\npost,0,read,4104,12,1,-\nclock,9\nshow,buffer,0,8\n" "reset,0
post,0
$(clocks 0:1,0,8,3,4,0 0:2,0,8,3,4,0 0:1,0,10,3,4,1 0:2,0,10,3,4,1 0:1,0,12,3,4,2 0:2,0,12,3,4,2 0:1,0,14,3,4,3 1:2,0,14,3,4,3 \
    0:0,0,0,0,0,0)
$bytes"
narrowed "slave,0,4096,64,2,4,1,2,1,0\nreset\nfill,memory,2,b0b1\npost,0,read,4104,12,1,-\nclock,2\nshow,buffer,0,8\n" "reset,0
post,0
$(clocks 0:1,0,2,3,1,0 1:2,0,2,3,1,0)
b0b1000000000000"
# A burst of two words leaves none of its eight accesses out.
narrowed "slave,0,4096,64,2,4,1,0,0,0\nreset\npost,0,write,4104,255,2,$bytes$bytes\nclock,8\nshow,memory,8,16\n" "reset,0
post,0
$(clocks 0:2,0,8,3,4,0 0:2,0,10,3,4,1 0:2,0,12,3,4,2 0:2,0,14,3,4,3 0:2,0,16,3,4,0 0:2,0,18,3,4,1 0:2,0,20,3,4,2 1:2,0,22,3,4,3)
$bytes$bytes"
# A master as wide as the card, or narrower, has one access for a word.
narrowed 'reset\npost,1,write,4106,2,1,c0c1\nclock,3\nslave,0,4096,64,8,4,1,2,0,0\npost,1,write,4106,1,1,d0d1\nclock,3\n'"\
show,memory,8,4\n" "reset,0
post,0
$(clocks 0:1,1,10,2,1,0 0:1,1,10,2,1,0 2:2,1,10,2,1,0)
post,0
$(clocks 0:1,1,8,4,1,0 0:1,1,8,4,1,0 2:2,1,8,4,1,0)
0000d0c1"
# The card is free behind the one access of a write: the other master, which has stood since, is served in the next clock.
narrowed "reset\npost,0,write,4104,12,1,$bytes\npost,1,read,4096,3,1,-\nclock,5\n" "reset,0
post,0
post,0
$(clocks 0:1,0,10,3,1,0 0:1,0,10,3,1,0 1:2,0,10,3,1,0 0:1,1,0,3,1,0 2:2,1,0,3,1,0)"
# The quoted figures count every access of a word: 3 clocks each, a word of master 0 is four, turns 12 + 48 and 2 * 3 + 3.
try table lanes.txt 'master,slave,wait,serve
0,0,9,48
1,0,60,3' ''
narrowed "reset\npost,0,write,4104,12,1,$bytes\nclock,1\nwait,0,0\nwait,1,0\n" "reset,0
post,0
$(clocks 0:1,0,10,3,1,0)
wait,0,9,48
wait,0,60,3"

# The state in the middle of a write, and behind it: what is done counts the accesses carried out. The transfer of master 0, the slot
# of card 0, and the latency clocks that the master still has to pass, where it is not 0. The log is empty.
parts_of() {
    printf 'transfer,0,%s,%s\n' "$1" "${3-0}"
    seq 1 7 | sed 's/.*/transfer,&,0,0,0,0,0,0/'
    printf 'slot,0,%s\n' "$2"
    seq 1 15 | sed 's/.*/slot,&,0,0,0,0,0/'
}
state_of() {
    parts_of "$@"
    log_of 0,0
}
narrowed "reset\npost,0,write,4104,240,1,$bytes\nclock,3\nstate\nclock,1\nstate\nclock,2\nstate\n" "reset,0
post,0
$(clocks 0:1,0,12,3,2,0 0:1,0,12,3,2,0 0:2,0,12,3,2,0)
$(state_of 1,1,4104,240,1 0,1,1,1,0)
$(clocks 0:1,0,14,3,2,1)
$(state_of 1,1,4104,240,1 0,1,1,1,1)
$(clocks 0:1,0,14,3,2,1 1:2,0,14,3,2,1)
$(state_of 0,0,0,0,0 0,1,0,0,0)"

# A write's bytes are those that stand in the buffer at each access, and none is kept from the post (rule 4.11): before each of the two
# accesses of this word other bytes are put there.
called 'reset\npost,0,write,4096,15,1,a1a2a3a4\nfill,buffer,0,b1b2\nclock,1\nfill,buffer,0,c1c2c3c4\nclock,1\nshow,memory,0,4\n' 'reset,0
post,0
clock,0,0
slave,0,2,0,0,3,2,0
clock,0,1
slave,0,2,0,2,3,2,1
b1b2c3c4' ''

# A lent state that serves a transfer of master 0: WRITE, LANES, the accesses carried out, the clocks from there where the state is
# taken, and the card's numbers where they are others. From the count of accesses on it is refused (rule 7.9), by a post too; the
# state, the card's bytes and the master's words are as they were.
rule='refusal 9: the state breaks a rule'
serving() {
    write=$1 lanes=$2 carried=$3 passed=${4-} card="${5:+slave,0,4096,64,$5,0\n}"
    count=$(echo "$passed" | grep -c '^clock,') || :
    lent="${card}reset\nfill,memory,0,$bytes$bytes\nfill,buffer,0,b0b1b2b3b4b5b6b7\ntransfer,0,1,$write,4104,$lanes,1,0\n"
    lent="${lent}slot,0,0,1,1,$carried,0\n"
    if [ -n "$passed" ]; then
        narrowed "${lent}clock,$count\n" "reset,0
$passed"
        return
    fi
    first=6
    [ -z "$card" ] || first=7
    narrowed "${lent}clock,2\npost,1,read,4096,3,1,-\nstate\nshow,memory,0,16\nshow,buffer,0,8\n" "reset,0
clock,9,0
clock,9,0
post,9
$(state_of "1,$write,4104,$lanes,1" "0,1,1,$carried,0")
$bytes$bytes
b0b1b2b3b4b5b6b7" "simulate: script line $first: $rule
simulate: script line $((first + 1)): $rule"
}

serving 1 12 0 "$(clocks 0:1,0,10,3,1,0 0:1,0,10,3,1,0 1:2,0,10,3,1,0)"
serving 1 12 1
serving 1 12 3
serving 1 240 1 "$(clocks 0:1,0,14,3,2,1 0:1,0,14,3,2,1 1:2,0,14,3,2,1)"
serving 1 240 2
serving 1 240 3
serving 1 240 4
serving 1 255 3 "$(clocks 0:1,0,14,3,4,3 0:1,0,14,3,4,3 1:2,0,14,3,4,3)"
serving 1 255 4
serving 0 12 3 "$(clocks 0:1,0,14,3,4,3 1:2,0,14,3,4,3)"
serving 0 12 1 "$(clocks 0:1,0,10,3,4,1 0:2,0,10,3,4,1)"
serving 0 12 4
serving 1 12 0 "$(clocks 0:1,0,2,0,1,0 0:1,0,2,0,1,0 1:2,0,2,0,1,0)" 2,4,1,2,1
serving 1 12 1 '' 2,4,1,2,1
serving 0 12 1 '' 2,4,1,2,1
serving 1 12 1 "$(clocks 1:2,0,11,1,2,1)" 1,4,1,0,0
serving 1 12 2 '' 1,4,1,0,0
# The same accesses done are too many for a write of these lanes, and not for a read of them or for a write of all.
narrowed 'reset\ntransfer,0,1,0,4104,12,1,0\nslot,0,0,1,1,2,1\nclock,1\ntransfer,0,1,1,4104,12,1,0\nclock,1\n'"\
transfer,0,1,1,4104,255,1,0\nclock,1\n" "reset,0
$(clocks 0:2,0,12,3,4,2)
clock,9,0
$(clocks 0:1,0,14,3,4,3)" "simulate: script line 6: $rule"

# A card with latency (rule 4.16), native, so that a word of master 0 is one access, and with a latency of 2: the access of a read
# brings its bytes and frees the card, and the read is finished two clocks after it. Until then its master holds it.
narrowed "slave,0,4096,64,2,4,1,2,1,2\nreset\nfill,memory,2,b0b1\npost,0,read,4104,12,1,-\nclock,2\nstate\nshow,buffer,0,8\nclock,1\n\
state\npost,0,read,4104,12,1,-\nclock,1\nstate\n" "reset,0
post,0
$(clocks 0:1,0,2,3,1,0 0:2,0,2,3,1,0)
$(state_of 1,0,4104,12,1 0,1,0,0,0 2)
b0b1000000000000
$(clocks 0:0,0,0,0,0,0)
$(state_of 1,0,4104,12,1 0,0,0,0,0 1)
post,12
$(clocks 1:0,0,0,0,0,0)
$(state_of 0,0,0,0,0 0,0,0,0,0)" 'simulate: script line 10: refusal 12: master holds a transfer'
# The longest latency: of 64 clocks the first has the access, and the last finishes the read. A write is finished with its access.
narrowed 'slave,0,4096,64,2,4,0,0,1,63\nreset\npost,0,read,4104,255,1,-\nclock,64\n' "reset,0
post,0
$(clocks 0:2,0,2,3,1,0)
$(seq 62 | sed "s/.*/clock,0,0\n$idle/")
$(clocks 1:0,0,0,0,0,0)"
narrowed "slave,0,4096,64,2,4,0,0,0,63\nreset\npost,0,write,4104,12,1,$bytes\nclock,2\n" "reset,0
post,0
$(clocks 1:2,0,10,3,1,0 0:0,0,0,0,0,0)"
# While a read has latency clocks to pass, the other master has the card, though a grant remains to the first.
narrowed 'slave,0,4096,64,2,4,0,0,1,2\nreset\npost,0,read,4104,255,1,-\npost,1,write,4096,3,1,c0c1\nclock,3\n' "reset,0
post,0
post,0
$(clocks 0:2,0,2,3,1,0 2:2,1,0,3,1,0 1:0,0,0,0,0,0)"

# A lent state with a count of latency clocks: the transfer of master 0 with the count, the slot of card 0, which has a latency of 2,
# and the clocks from there where the state is taken. Refused (rule 7.9) is a count above the latency, one of a write, of a master
# that holds no transfer, and of an owner that is served; a post is refused too.
counted() {
    lent="slave,0,4096,64,2,4,1,2,0,2\nreset\ntransfer,0,$1\nslot,0,$2\n"
    if [ $# -eq 3 ]; then
        narrowed "${lent}clock,$(echo "$3" | grep -c '^clock,')\n" "reset,0
$3"
        return
    fi
    narrowed "${lent}clock,1\npost,1,read,4096,3,1,-\n" 'reset,0
clock,9,0
post,9' "simulate: script line 5: $rule
simulate: script line 6: $rule"
}

counted 1,0,4104,12,1,2 0,1,0,0,0 "$(clocks 0:0,0,0,0,0,0 1:0,0,0,0,0,0 0:0,0,0,0,0,0)"
counted 1,0,4104,12,1,1 0,1,0,0,0 "$(clocks 1:0,0,0,0,0,0 0:0,0,0,0,0,0)"
counted 1,0,4104,12,1,3 0,1,0,0,0
counted 1,0,4104,12,1,4294967295 0,1,0,0,0
counted 1,1,4104,12,1,1 0,1,0,0,0
counted 0,0,0,0,0,1 0,1,0,0,0
counted 1,0,4104,12,1,1 0,1,1,0,0
counted 1,0,4104,12,1,0 0,1,1,0,0 "$(clocks 0:1,0,8,3,4,0)"
narrowed 'reset\ntransfer,0,1,0,4104,12,1,1\nclock,1\n' 'reset,0
clock,9,0' "simulate: script line 3: $rule"

# The first board of section 9 with the line default, on which unmapped posts are taken (rules 3.7 and 4.17): a script, a format of
# printf, what is printed, and what is explained.
{ cat fabric.txt && echo default; } > answered.txt
answered() {
    # shellcheck disable=SC2059
    printf "$1" > calls.txt
    try simulate calls.txt "$2" "${3-}" answered.txt
}

# A clock in which card 0 is idle: its mask, and the masters that it answers with response 3.
answers() {
    printf 'clock,0,%s\n%s\n' "$1" "$idle"
    shift
    for master in "$@"; do
        echo "response,$master,3"
    done
}

# The state behind a reset, but for its log: as log_of has it.
rests_with() {
    parts_of 0,0,0,0,0 1,0,0,0,0
    log_of "$@"
}

# The next clock finishes an unmapped transfer, and no later one says anything of it. Without the line its post is refused with 16.
for address in 0 4092 8192 4294967292; do
    answered "reset\npost,0,read,$address,15,1,-\nclock,2\n" "reset,0
post,0
$(answers 1 0)
$(answers 0)"
    refused_call "post,0,read,$address,15,1,-\n" post 16 'no connected slave there'
done
# A read brings zeros, beats times width bytes whichever lanes it names; a write leaves its words in the buffer, and no byte of the
# memory changes.
answered 'reset\nfill,buffer,0,ffffffffffff\npost,0,read,8192,3,1,-\nshow,buffer,0,6\nclock,1\nshow,buffer,0,6\n' "reset,0
post,0
ffffffffffff
$(answers 1 0)
00000000ffff"
answered "reset\nfill,buffer,0,$(printf '%072d' 0 | sed 's/0/f/g')\npost,0,read,8192,15,8,-\nclock,1\nshow,buffer,0,36\n" "reset,0
post,0
$(answers 1 0)
$(printf '%064d' 0)ffffffff"
answered 'reset\nfill,memory,0,11223344\npost,0,write,0,15,1,a1b2c3d4\nclock,1\nshow,buffer,0,4\nshow,memory,0,4\n' "reset,0
post,0
$(answers 1 0)
a1b2c3d4
11223344"
# What is refused of a post before its transfer is judged is refused of an unmapped one too (rules 3.7, 7.8, 7.9, 7.11 and 7.12): a
# script after a reset, its answers, the line that is explained, and the cause.
unmapped_refused() {
    answered "reset\n$1" "reset,0
$2" "simulate: script line $3: refusal $4"
}

unmapped_refused 'lend,buffer,4095\npost,0,read,8192,15,1,-\n' post,8 3 '8: memory or buffer not of its exact length'
unmapped_refused 'slot,0,2,0,0,0,0\npost,0,read,8192,15,1,-\n' post,9 3 '9: the state breaks a rule'
unmapped_refused 'post,2,read,8192,15,1,-\n' post,11 2 '11: no such master'
unmapped_refused 'post,0,read,8192,15,1,-\npost,0,read,8196,15,1,-\n' 'post,0
post,12' 3 '12: master holds a transfer'
# How far a burst reaches is asked of one that begins in a card alone.
answered 'reset\npost,0,read,4092,15,8,-\npost,1,read,4096,3,1,-\nclock,1\npost,0,read,8188,15,2,-\npost,0,read,4294967292,15,8,-\n'"\
clock,1\n" 'reset,0
post,0
post,0
clock,0,1
slave,0,1,1,0,3,1,0
response,0,3
post,17
post,0
clock,0,3
slave,0,2,1,0,3,1,0
response,0,3' "simulate: script line 5: refusal 17: burst passes the slave's end"

# What else is refused of a post is refused of an unmapped one too: the post, its number and the words.
answered_post() {
    answered "reset\n$1\nclock,1\nstate\n" "reset,0
post,$2
$(answers 0)
$(rests_with 0,0)" "simulate: script line 2: refusal $2: $3"
}

answered_post 'post,2,read,8192,15,1,-' 11 'no such master'
answered_post 'post,0,read,8192,15,0,-' 13 "$beats"
answered_post 'post,0,read,8192,15,9,-' 13 "$beats"
answered_post 'post,1,read,8192,3,2,-' 13 "$beats"
answered_post 'post,0,read,8194,15,1,-' 14 "address no multiple of the master's width"
answered_post 'post,0,read,8192,6,1,-' 15 'lanes not legal, or a burst without all lanes'
answered_post 'post,0,read,8192,3,2,-' 15 'lanes not legal, or a burst without all lanes'
answered_post 'post,0,write,8192,15,1,112233' 18 'data not beats times width bytes'
answered_post 'post,0,read,8192,15,1,11223344' 18 'data not beats times width bytes'
answered 'reset\npost,0,read,8192,15,1,-\npost,0,read,8192,15,1,-\nclock,1\npost,0,read,8192,15,1,-\n' "reset,0
post,0
post,12
$(answers 1 0)
post,0" 'simulate: script line 3: refusal 12: master holds a transfer'
# A wait is looked up for a connected pair, with the line too.
answered 'wait,0,1\nwait,2,0\nwait,0,0\nwait,1,0\n' 'wait,16,0,0
wait,11,0,0
wait,0,6,32
wait,0,36,2' 'simulate: script line 1: refusal 16: no connected slave there
simulate: script line 2: refusal 11: no such master'
# An address of a card that the master is not connected to is unmapped for it alone. Card 1 has the 8 bytes from 0 on.
answered 'slave,1,0,8,2,1,0,0,0,0\ncount,2,2\nlend,memory,4104\nshare,1,1,1\nreset\npost,0,read,0,15,1,-\npost,1,read,0,3,1,-\n'"\
clock,1\ntake\ntake\n" "reset,0
post,0
post,0
clock,0,3
$idle
slave,1,2,1,0,3,1,0
response,0,3
take,0,0,0,0
take,22,0,0,0" 'simulate: script line 10: refusal 22: the log is empty: there is no entry to take'

# The script gives the board the line, and takes it away: a transfer that is held then breaks a rule (7.9), as 7.16 holds of it.
called 'reset\npost,0,read,8192,15,1,-\ndefault,1\npost,0,read,8192,15,1,-\nclock,1\ndefault,0\npost,0,read,8192,15,1,-\n' "reset,0
post,16
post,0
$(answers 1 0)
post,16" 'simulate: script line 2: refusal 16: no connected slave there
simulate: script line 7: refusal 16: no connected slave there'
answered 'reset\npost,0,read,8192,15,1,-\ndefault,0\nclock,1\npost,1,read,4096,3,1,-\ntake\ndefault,1\nclock,1\ntake\n' "reset,0
post,0
clock,9,0
post,9
take,9,0,0,0
$(answers 1 0)
take,0,0,8192,0" "simulate: script line 4: $rule
simulate: script line 5: $rule
simulate: script line 6: $rule"

# A lent state with an unmapped transfer of master 0, and the slot of card 0: it is finished, or breaks a rule (7.9), where it has
# latency clocks to pass, where the card serves it, and where it is refused to a post.
unmapped() {
    if [ "$3" = taken ]; then
        answered "reset\ntransfer,0,$1\nslot,0,$2\nclock,1\n" "reset,0
$(answers 1 0)"
        return
    fi
    answered "reset\ntransfer,0,$1\nslot,0,$2\nclock,1\ntake\n" 'reset,0
clock,9,0
take,9,0,0,0' "simulate: script line 4: $rule
simulate: script line 5: $rule"
}

unmapped 1,0,8192,15,1,0 1,0,0,0,0 taken
unmapped 1,1,8192,12,1,0 1,0,0,0,0 taken
unmapped 1,0,4092,15,8,0 0,1,0,0,0 taken
unmapped 1,0,8192,15,1,1 1,0,0,0,0 refused
unmapped 1,1,8192,15,1,1 1,0,0,0,0 refused
unmapped 1,0,8192,15,1,0 0,1,1,0,0 refused
unmapped 1,0,8192,15,9,0 1,0,0,0,0 refused
unmapped 1,0,8194,15,1,0 1,0,0,0,0 refused
unmapped 1,0,8192,6,1,0 1,0,0,0,0 refused

# The log (rules 4.18 and 4.19). A clock enters by master number, in whichever order was posted; the oldest entry is taken first.
answered 'reset\npost,1,write,0,3,1,a1b2\npost,0,read,8192,15,1,-\nclock,1\nstate\ntake\nstate\ntake\ntake\nstate\n' "reset,0
post,0
post,0
$(answers 3 0 1)
$(rests_with 2,0 0,8192,0 1,0,1)
take,0,0,8192,0
$(rests_with 1,0 1,0,1)
take,0,1,0,1
take,22,0,0,0
$(rests_with 0,0)" 'simulate: script line 9: refusal 22: the log is empty: there is no entry to take'
answered 'reset\npost,1,read,0,3,1,-\nclock,1\npost,0,write,4,15,1,01020304\nclock,1\ntake\npost,1,read,2,3,1,-\nclock,1\nstate\n' \
    "reset,0
post,0
$(answers 2 1)
post,0
$(answers 1 0)
take,0,1,0,0
post,0
$(answers 2 1)
$(rests_with 2,0 0,4,1 1,2,0)"
# Eight entries fill it. What comes then is dropped, and the lost mark stays when there is space again, until a reset.
fills='reset\n' filled=reset,0 entries=
for k in 0 1 2 3; do
    fills="${fills}post,0,read,$((16 * k)),15,1,-\npost,1,write,$((16 * k + 2)),3,1,a1b2\nclock,1\n"
    filled="$filled
post,0
post,0
$(answers 3 0 1)"
    entries="$entries 0,$((16 * k)),0 1,$((16 * k + 2)),1"
done
# shellcheck disable=SC2086
answered "${fills}state\npost,0,write,64,15,1,01020304\npost,1,read,66,3,1,-\nclock,1\nstate\ntake\nstate\npost,1,read,68,3,1,-\nclock,1\n\
state\nreset\nstate\ntake\n" "$filled
$(rests_with 8,0 $entries)
post,0
post,0
$(answers 3 0 1)
$(rests_with 8,1 $entries)
take,0,0,0,0
$(rests_with 7,1 ${entries# 0,0,0})
post,0
$(answers 2 1)
$(rests_with 8,1 ${entries# 0,0,0} 1,68,0)
reset,0
$(rests_with 0,0)
take,22,0,0,0" 'simulate: script line 26: refusal 22: the log is empty: there is no entry to take'
# Where a clock finds one place, the lower master has it.
answered 'reset\nlog,7,0\npost,1,read,66,3,1,-\npost,0,write,64,15,1,01020304\nclock,1\nstate\n' "reset,0
post,0
post,0
$(answers 3 0 1)
$(rests_with 8,1 0,0,0 0,0,0 0,0,0 0,0,0 0,0,0 0,0,0 0,0,0 0,64,1)"
# Entries from the count on stay as they are when another is entered, and move with the others when one is taken.
answered 'reset\nentry,5,7,99,1\nentry,7,1,2,1\npost,0,read,8192,15,1,-\nclock,1\nstate\ntake\nstate\n' "reset,0
post,0
$(answers 1 0)
$(rests_with 1,0 0,8192,0 0,0,0 0,0,0 0,0,0 0,0,0 7,99,1 0,0,0 1,2,1)
take,0,0,8192,0
$(rests_with 0,0 0,0,0 0,0,0 0,0,0 0,0,0 7,99,1 0,0,0 1,2,1)"

# Any board has a log, and what an entry says is not judged.
empty='refusal 22: the log is empty: there is no entry to take'
called 'take\nreset\ntake\nlog,1,0\nentry,0,255,4294967295,1\ntake\ntake\n' 'take,22,0,0,0
reset,0
take,22,0,0,0
take,0,255,4294967295,1
take,22,0,0,0' "simulate: script line 1: $empty
simulate: script line 3: $empty
simulate: script line 7: $empty"
# A count over eight breaks a rule (7.9), on any board and for every call on a state; one of eight does not, with the mark or without.
for count in 9 256 4294967295; do
    logs="reset\nlog,$count,0\nclock,1\npost,0,read,4096,15,1,-\ntake\nlog,8,1\nclock,1\npost,0,read,4096,15,1,-\ntake\n"
    logged="reset,0
clock,9,0
post,9
take,9,0,0,0
$(answers 0)
post,0
take,0,0,0,0"
    judged="simulate: script line 3: $rule
simulate: script line 4: $rule
simulate: script line 5: $rule"
    called "$logs" "$logged" "$judged"
    answered "$logs" "$logged" "$judged"
done
# A take judges the board, then the state, then the log (rule 8.4), and no length is asked of it.
called 'reset\nlog,9,0\ncount,0,1\ntake\n' 'reset,0
take,2,0,0,0' \
    'simulate: script line 4: refusal 2: at the end, no master or no slave; line kind out of order, over the count or behind default'
unshared_calls 'share,1,0,0\nlog,9,0\ntake\nlog,0,0\ntake\nlog,1,0\ntake\nshare,1,0,3\ntake\n' 'take,20,0,0,0
take,20,0,0,0
take,20,0,0,0
take,0,0,0,0' '4:1 6:1 8:1'
called 'reset\nslot,0,2,0,0,0,0\ntake\nlog,1,0\ntake\n' 'reset,0
take,9,0,0,0
take,9,0,0,0' "simulate: script line 3: $rule
simulate: script line 5: $rule"
called 'lend,memory,0\nlend,buffer,0\nreset\nlog,1,0\nentry,0,1,2,0\ntake\n' 'reset,0
take,0,1,2,0' ''

# A line with many refused clocks is explained once, and only lines that are refused are.
called 'reset\nclock,1\nlend,buffer,0\nclock,1000\nlend,buffer,4096\nclock,1\nclock,0\n' "reset,0
clock,0,0
slave,0,0,0,0,0,0,0
$(seq 1000 | sed 's/.*/clock,8,0/')
clock,0,0
slave,0,0,0,0,0,0,0" 'simulate: script line 4: refusal 8: memory or buffer not of its exact length'
unshared_calls 'share,1,0,0\nclock,1000\nshare,1,0,3\nclock,1\nshare,0,0,0\nclock,500\n' "$(seq 1000 | sed 's/.*/clock,20,0/')
clock,0,0
$idle
$(seq 500 | sed 's/.*/clock,20,0/')" '3:1 7:0'

# A malformed line ends the script.
called 'reset\npost,2,read,4096,15,1,-\nclock,one\nclock,1\n' 'reset,0
post,11
error,3' 'simulate: script line 2: refusal 11: no such master
simulate: script line 3: not a line of a script'
called '\n' 'error,1' 'simulate: script line 1: not a line of a script'
called 'reset\nshow,memory,4096,1\n' 'reset,0
error,2' 'simulate: script line 2: reaches past what is lent'

# A last line that lacks its line feed is not carried out, whatever it says: the line, after a reset and two posts, which are.
cut='lacks its line feed: the script may be cut short'
unended() {
    called "reset\npost,0,read,4096,15,1,-\npost,1,write,4100,3,1,a1b2\n$1" 'reset,0
post,0
post,0
error,4' "simulate: script line 4: $cut"
}

for last in clock,10 clock,1 clock, clock c reset state take wait,0,0 show,memory,0,4 fill,memory,0,a1 lend,memory,0 slot,0,2,0,0,0,0 \
    show,memory,4096,1 clock,4294967296 post,0,read,4096,15,1,- x , '\r'; do
    unended "$last"
done
called clock,1 error,1 "simulate: script line 1: $cut"
called 'reset\nclock,1\nslot,0,2,0,0,0,0\nclock,1\nclock,1' "reset,0
clock,0,0
$idle
clock,9,0
error,5" "simulate: script line 4: refusal 9: the state breaks a rule
simulate: script line 5: $cut"
# A script that ends in a line feed has no such line, nor has an empty one; an empty line is another mistake.
called '' '' ''
called 'reset\n\n' 'reset,0
error,2' 'simulate: script line 2: not a line of a script'

# A line of a known form says what is wrong with its numbers: LINE, the problem. What is malformed besides comes first.
problem() {
    called "reset\n$1\n" 'reset,0
error,2' "simulate: script line 2: $2"
}

range='a number is out of its range'
problem 'clock,4294967296' "$range"
problem 'wait,0,4294967296' "$range"
problem 'post,0,read,4294967296,15,1,-' "$range"
problem 'post,0,read,4096,256,1,-' "$range"
problem 'transfer,8,0,0,0,0,0,0' "$range"
problem 'transfer,0,2,0,0,0,0,0' "$range"
problem 'transfer,0,0,0,0,0,0,4294967296' "$range"
problem 'slot,16,0,0,0,0,0' "$range"
problem 'slot,0,0,0,0,65536,0' "$range"
problem 'slave,0,0,0,0,0,0,256,0,0' "$range"
problem 'slave,0,0,0,0,0,0,0,4294967296,0' "$range"
problem 'slave,0,0,0,0,0,0,0,0,4294967296' "$range"
problem 'share,0,16,1' "$range"
problem 'count,256,1' "$range"
problem 'default,2' "$range"
problem 'log,4294967296,0' "$range"
problem 'log,0,2' "$range"
problem 'entry,8,0,0,0' "$range"
problem 'entry,0,256,0,0' "$range"
problem 'entry,0,0,4294967296,0' "$range"
problem 'entry,0,0,0,2' "$range"
problem 'lend,memory,4105' "$range"
problem 'lend,buffer,4105' "$range"
past='reaches past what is lent'
problem 'fill,memory,4095,0000' "$past"
problem 'fill,buffer,9999999999,00' "$past"
problem 'show,buffer,0,4097' "$past"
problem "post,0,write,4096,15,1,$(printf '%08194d' 0)" 'more than 4096 bytes'
called "reset\npost,0,write,4096,15,1,$(printf '%08192d' 0)\n" 'reset,0
post,18' 'simulate: script line 2: refusal 18: data not beats times width bytes'
form='not a line of a script'
problem 'clock,4294967296,1' "$form"
problem 'clock' "$form"
problem 'clock,' "$form"
problem 'clock,1,' "$form"
problem 'clock,01' "$form"
problem 'clocks,1' "$form"
problem 'cloc,1' "$form"
problem 'reset,' "$form"
problem 'fill,memory,0,0' "$form"
problem 'fill,memory,0,0G' "$form"
problem 'fill,cards,0,00' "$form"
problem 'post,0,fetch,4096,15,1,-' "$form"
problem 'slave,0,0,0,0,0,0,0,0' "$form"
problem 'slave,0,0,0,0,0,0,0,0,0,0' "$form"
problem 'default' "$form"
problem 'default,0,0' "$form"
problem 'default,' "$form"
problem 'take,' "$form"
problem 'take,1' "$form"
problem 'log,0' "$form"
problem 'log,0,0,0' "$form"
problem 'entry,0,0,0' "$form"
problem 'entry,0,0,0,0,0' "$form"
problem 'response,0,3' "$form"
problem 'transfer,0,0,0,0,0,0' "$form"
problem 'transfer,0,0,0,0,0,0,0,0' "$form"

# A last line of 131,200 bytes fills the input: it is a line, and says nothing that could be done. One of a byte less lacks its line feed.
called "reset\n$(printf '%0131200d' 0)" 'reset,0
error,2' "simulate: script line 2: $form"
called "reset\n$(printf '%0131199d' 0)" 'reset,0
error,2' "simulate: script line 2: $cut"

# Where both go to one file, an explanation comes right behind the answer.
printf 'reset\npost,2,read,4096,15,1,-\nclock,2\nwait,2,0\nreset\nstate' > calls.txt
"$root/target/bin/simulate" fabric.txt < calls.txt > output 2>&1 || :
cat > output.expected <<'END'
reset,0
post,11
simulate: script line 2: refusal 11: no such master
clock,0,0
slave,0,0,0,0,0,0,0
clock,0,0
slave,0,0,0,0,0,0,0
wait,11,0,0
simulate: script line 4: refusal 11: no such master
reset,0
error,6
simulate: script line 6: lacks its line feed: the script may be cut short
END
tries=$((tries + 1))
cmp -s output output.expected || {
    different=$((different + 1))
    diff output.expected output || :
}

# How the programs are called. The version is that of the C header.
version=$(sed -n 's/^#define FABRIC_VERSION "\(.*\)"$/\1/p' "$root/include/fabric.h")
meanings="  1 text over 8192 bytes; $line
  2 at the end, no master or no slave; line kind out of order, over the count or behind default
  3 value outside its list or range
  4 base no multiple of span
  5 slave overlaps an earlier one
  6 spans total over 65536
  7 $share"
usage="usage: table < BOARD
       table BOARD..
Prints master,slave,wait,serve of every connected pair, or refused, and a number.
Of each BOARD that is named, a line file,NAME comes first. The numbers:
$meanings
  19 $narrow
  20 a master has no share line
  21 $order"
try table board.txt "$usage" '' --help
try table board.txt "$usage" '' -h
try table board.txt "table (Zelgwy) $version" '' --version
try table board.txt 'master,slave,wait,serve
0,0,0,8' '' --
# With names, standard input is another board, and is not read. The first word alone can be an option, and help and version stand
# by themselves: no file is read behind them.
absent='No such file or directory'
try table fabric.txt "file,board.txt
$figures" '' board.txt
try table fabric.txt "file,board.txt
$figures" '' -- board.txt
try table fabric.txt "file,board.txt
$figures
file,board.txt
$figures" '' board.txt board.txt
try table fabric.txt 'file,' "table: : $absent" ''
try table fabric.txt 'file,' "table: : $absent" -- ''
try table fabric.txt "file,board.txt
$figures
file,absent.txt
file,board.txt
$figures" "table: absent.txt: $absent" board.txt absent.txt board.txt
for option in -h --help --version; do
    for word in "$option" board.txt absent.txt '' --; do
        try table fabric.txt '' "$usage" "$option" "$word"
        try table fabric.txt '' "$usage" "$option" board.txt "$word"
    done
    try table fabric.txt "file,board.txt
$figures
file,$option" "table: $option: $absent" board.txt "$option"
    try table fabric.txt "file,$option
file,board.txt
$figures" "table: $option: $absent" -- "$option" board.txt
    try table fabric.txt "file,$option" "table: $option: $absent" -- "$option"
done
try table fabric.txt "file,board.txt
$figures
file,--
file,board.txt
$figures" "table: --: $absent" board.txt -- board.txt
try table fabric.txt 'file,--' "table: --: $absent" -- --
try table fabric.txt "file,--
file,--
file,board.txt
$figures" "table: --: $absent
table: --: $absent" -- -- -- board.txt
try table fabric.txt "file,-
file,-x
file,-hh
file,--helpful" "table: -: $absent
table: -x: $absent
table: -hh: $absent
table: --helpful: $absent" -- - -x -hh --helpful
help="usage: simulate BOARD < SCRIPT
Runs the script's lines on the board and prints what each call answers, a refusal by its number:
$meanings
  8 memory or buffer not of its exact length
  9 the state breaks a rule
  10 output shorter than what is to be written
  11 no such master
  12 master holds a transfer
  13 beats 0 or over the master's burst
  14 address no multiple of the master's width
  15 lanes not legal, or a burst without all lanes
  16 no connected slave there
  17 burst passes the slave's end
  18 data not beats times width bytes
  19 $narrow
  20 a master has no share line
  21 $order
  22 the log is empty: there is no entry to take"
try simulate script.txt "$help" '' --help
try simulate script.txt "$help" '' -h
try simulate script.txt "simulate (Zelgwy) $version" '' --version
printf 'wait,0,0\n' > wait.txt
cp board.txt ./--help
cp board.txt ./--
try simulate wait.txt 'wait,0,0,8' '' -- board.txt
try simulate wait.txt 'wait,0,0,8' '' -- --help
try simulate wait.txt 'wait,0,0,8' '' -- --
try simulate wait.txt 'wait,0,0,8' '' ./--help
try table fabric.txt "file,--help
$figures
file,--
$figures
file,./--help
$figures" '' -- --help -- ./--help
try table fabric.txt "file,board.txt
$figures
file,--help
$figures
file,--
$figures" '' board.txt --help --
usage_line='usage: simulate BOARD < SCRIPT'
try simulate script.txt '' "$usage_line"
try simulate script.txt '' "$usage_line" --
try simulate script.txt '' "$usage_line" board.txt board.txt
try simulate script.txt '' "$usage_line" -- board.txt board.txt
try simulate script.txt '' "$usage_line" board.txt --help
try simulate script.txt '' "$usage_line" --help board.txt
try simulate script.txt '' "$usage_line" --version board.txt
# A word of 5,000 bytes is no option, and no file has such a name.
for word in - -x -hh --h --helpful --Version --version=1 --- "-$(printf '%04999d' 0)"; do
    try table board.txt '' "$usage" "$word"
    try table board.txt '' "$usage" "$word" board.txt
    try table board.txt '' "$usage" "$word" --
    try simulate script.txt '' "$usage_line" "$word"
done
try simulate script.txt '' 'simulate: BOARD: File name too long' "$(printf '%05000d' 0)"
try simulate script.txt '' 'simulate: absent.txt: No such file or directory' absent.txt
try simulate script.txt '' 'simulate: -x: No such file or directory' -- -x
try simulate script.txt '' 'simulate: : No such file or directory' ''

echo "explain: $tries tries, $different differences"
[ "$different" -eq 0 ]
