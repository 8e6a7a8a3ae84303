#!/bin/sh
# Tries table with the names of descriptions, many in one start, and compares what it writes on standard output and on standard
# error, byte for byte, with the text that stands here, and with what it writes of each description on standard input. Refusal k
# is rule 7.k of docs/RULES.md; the figures are made as README.md has it.
set -eu
# Names are bytes: no byte of a name is to be judged by a locale.
LC_ALL=C
export LC_ALL

root=$(CDPATH='' cd -- "$(dirname -- "$0")/.." && pwd)
table=$root/target/bin/table
work=$(mktemp -d)
trap 'rm -rf "$work"' EXIT
[ -x "$table" ] || {
    echo "tables: table is not built (tools/build table)" >&2
    exit 2
}
mkdir "$work/pages" "$work/said" "$work/boards"
cd "$work/boards"
tries=0
different=0
newline='
'

# Whether the last start, of which the words tell, ended with status 0 and wrote what was expected.
same() {
    tries=$((tries + 1))
    if [ "$status" -eq 0 ] && cmp -s ../output ../output.expected && cmp -s ../error ../error.expected; then
        return 0
    fi
    different=$((different + 1))
    echo "tables: table $(printf '%s ' "$@" | head -c 200), status $status"
    diff -a ../output.expected ../output | head -n 20 | cut -c -200 || :
    diff -a ../error.expected ../error | head -n 20 | cut -c -200 || :
}

# A condition of test, behind what it says in words.
holds() {
    what=$1
    shift
    tries=$((tries + 1))
    [ "$@" ] || {
        different=$((different + 1))
        echo "tables: it does not hold: $what"
    }
}

# Starts table with these words. Standard input is a board whose figures no other board here has: it is not to be read. No file is
# to stay open, so 16 descriptors are enough. A start that waits for what never comes is ended.
start() {
    status=0
    (
        # shellcheck disable=SC3045
        ulimit -n 16
        exec timeout 10 "$table" "$@" < ../input > ../output 2> ../error
    ) || status=$?
}

# What is to be written of these words, of which none has a line feed: pages/NAME has what table prints of the file NAME, said/NAME
# what it says of it behind the name. A folder in front of NAME makes no difference but in the names that are printed. No file has
# an empty name.
expect() {
    : > ../output.expected
    : > ../error.expected
    printf '%s\n' "$@" | awk '
        {
            name = $0
            sub(".*/", "", name)
            if (name == "") name = "absent.txt"
            page = "../pages/" name
            said = "../said/" name
            print "file," $0 > "../output.expected"
            while ((getline line < page) > 0) print line > "../output.expected"
            close(page)
            while ((getline line < said) > 0) print "table: " $0 ": " line > "../error.expected"
            close(said)
        }
    '
}

# The words of a start, each a file's name; the second form puts `--` in front of them.
try() {
    expect "$@"
    start "$@"
    same "$@"
}
try_behind() {
    expect "$@"
    start -- "$@"
    same -- "$@"
}

# A board's name, its text as a format of printf, what table prints of it, and, where it is refused, the explanation.
board() {
    # shellcheck disable=SC2059
    printf "$2" > "$1"
    printf '%s\n' "$3" > "../pages/$1"
    printf '%s' "${4:+$4$newline}" > "../said/$1"
}

# A name that cannot be read, and why.
fails() {
    : > "../pages/$1"
    printf '%s\n' "$2" > "../said/$1"
}

# Boards that are taken. First those of the repository: document01 as in README.md.
head='master,slave,wait,serve'
given=$root/boards
board document01.txt "$(cat "$given/document01.txt")\n" "$head
0,0,6,32
1,0,36,2"
# Card 0: 2 clocks an access, turns 3 * 2 + 16 and 2. Card 1 is native, 3 clocks a word: turns 3 + 24 and 3.
board encoder.txt "$(cat "$given/encoder.txt")\n" "$head
0,0,2,16
0,1,3,24
1,0,22,2
1,1,27,3"
# The cards have 1, 3, 2, 7, 3 and 4 clocks an access. The turns are, at card 0: 3 + 16, 1 + 8; at card 1: 3 + 24, 7 * 3 + 192; at
# card 2: 4 + 64, 2 * 2 + 8; at card 3: 448, 56, 7; at card 4: 24, 3 + 3; at card 5: 2 * 4 + 64, 3 * 8 + 512.
board crane.txt "$(cat "$given/crane.txt")\n" "$head
0,0,9,16
0,2,12,64
0,3,63,448
0,5,536,64
1,0,19,8
1,1,213,24
1,4,6,24
2,2,68,8
2,3,455,56
3,1,27,192
3,5,72,512
4,3,504,7
4,4,24,3"
# A word is 8 accesses of 256 clocks, 2048; a serve 64 words, 131072; a turn 99 * 2048 + 131072 = 333824; a wait 7 turns.
board largest.txt "$(cat "$given/largest.txt")\n" "$head
$(awk 'BEGIN { for (m = 0; m < 8; m++) for (s = 0; s < 16; s++) print m "," s ",2336768,131072" }')"
# The longer wait is that of a read: 4 clocks an access, turns 8 + 64 and 2 * 4 + 4.
board read.txt "$(sed 's/,1,0,0,0$/,3,0,0,0/' document01.txt)\n" "$head
0,0,12,64
1,0,72,4"
# It is that of a write: 6 clocks an access, turns 12 + 96 and 2 * 6 + 6.
board write.txt "$(sed 's/,1,0,0,0$/,1,5,0,0/' document01.txt)\n" "$head
0,0,18,96
1,0,108,6"
# Nobody else requests, and no more than two words fit in the card.
board single.txt 'master,4,8\nslave,0,8,1,1,0,0,0,0\nshare,0,0,1\n' "$head
0,0,0,8"
# 3 clocks an access, a word of the masters 6 and 7 is two accesses: turns 3, 3 + 192, 2 * 3 + 6, 3 * 3 + 96, 4 * 3 + 12,
# 5 * 3 + 48, 6 * 6 + 48, 99 * 6 + 6, together 1086.
board masters.txt "master,1,1\nmaster,1,64\nmaster,2,2\nmaster,2,32\nmaster,4,4\nmaster,4,16\nmaster,8,8\nmaster,8,1\n\
slave,65536,1024,4,8,0,2,0,0\nshare,0,0,1\nshare,1,0,2\nshare,2,0,3\nshare,3,0,4\nshare,4,0,5\nshare,5,0,6\nshare,6,0,7\n\
share,7,0,100\n" "$head
0,0,1083,3
1,0,891,192
2,0,1074,6
3,0,981,96
4,0,1062,12
5,0,1023,48
6,0,1002,48
7,0,486,6"
# Card k waits k clocks for a read and 15 - k for a write, an access there takes v = 16 - k clocks, from card 8 on k + 1. A word of
# master 0 is 8, 4, 2 or 1 accesses by the card's width: turns of 17 words and of 3 * v.
board cards.txt "master,8,16\nmaster,1,1\n$(awk 'BEGIN {
    for (k = 0; k < 16; k++) printf "slave,%d,4096,%d,16,%d,%d,0,0\\n", 4096 * k, 2 ^ (k % 4), k, 15 - k
    for (k = 0; k < 32; k++) printf "share,%d,%d,%d\\n", k / 16, k % 16, k < 16 ? 2 : 3
}')" "$head
0,0,48,2048
0,1,45,960
0,2,42,448
0,3,39,208
0,4,36,1536
0,5,33,704
0,6,30,320
0,7,27,144
0,8,27,1152
0,9,30,640
0,10,33,352
0,11,36,192
0,12,39,1664
0,13,42,896
0,14,45,480
0,15,48,256
1,0,2176,16
1,1,1020,15
1,2,476,14
1,3,221,13
1,4,1632,12
1,5,748,11
1,6,340,10
1,7,153,9
1,8,1224,9
1,9,680,10
1,10,374,11
1,11,204,12
1,12,1768,13
1,13,952,14
1,14,510,15
1,15,272,16"
# A native card: each word is one access of 3 clocks, turns 3 + 12, 6 and 3 * 3 + 3. Card 0 has no share line.
board native.txt "master,8,4\nmaster,4,2\nmaster,2,1\nslave,64,64,8,8,9,9,0,0\nslave,0,64,2,4,1,2,1,0\nshare,0,1,2\nshare,1,1,1\n\
share,2,1,4\n" "$head
0,1,18,12
1,1,27,6
2,1,21,3"
taken='document01.txt encoder.txt crane.txt largest.txt read.txt write.txt single.txt masters.txt cards.txt native.txt'

# Cards with latency (rule 5.6): all grants of a turn but the last are writes. In document01 a write waits for 0 clocks, 1 clock an
# access: turns 2 + 32 and 2 * 1 + 2. With a read wait of 3 they are 2 + 64 and 2 * 1 + 4.
board late.txt "$(sed 's/,1,0,0,0$/,1,0,0,3/' document01.txt)\n" "$head
0,0,4,32
1,0,34,2"
board latest.txt "$(sed 's/,1,0,0,0$/,3,0,0,63/' document01.txt)\n" "$head
0,0,6,64
1,0,66,4"
# Where a write waits the longer, or as long, latency changes nothing.
board latewrite.txt "$(sed 's/,0$/,1/' write.txt)\n" "$head
0,0,18,96
1,0,108,6"
board lateequal.txt "$(sed 's/,1,0,0,0$/,1,1,0,1/' document01.txt)\n" "$head
0,0,6,32
1,0,36,2"
# Each card has its own: of the encoder board's two the native one, 3 clocks a read and 2 a write: turns 2 + 24 and 3.
board lateencoder.txt "$(sed '/^slave,8192,/s/,0$/,5/' encoder.txt)\n" "$head
0,0,2,16
0,1,3,24
1,0,22,2
1,1,26,3"
late='late.txt latest.txt latewrite.txt lateequal.txt lateencoder.txt'

# A board with the line default. The cards have 1, 3 and 2 clocks an access; card 2 has latency, 1 clock a write. The turns are, at
# card 0: 3 + 8, 1, 1 + 4; at card 1, where a word of the masters 0 and 2 is two accesses: 6 + 48, 3, 24; at card 2: 16, 8.
board service.txt "$(cat "$given/service.txt")\n" "$head
0,0,6,8
0,1,27,48
0,2,8,16
1,0,16,1
1,1,78,3
2,0,12,4
2,1,57,24
2,2,16,8"
# The line changes no figure (rule 1.11), also behind the longest text that a board has.
board default.txt "$(cat document01.txt)\ndefault\n" "$head
0,0,6,32
1,0,36,2"
board largestdefault.txt "$(cat largest.txt)\ndefault\n" "$(cat ../pages/largest.txt)"
answered='service.txt default.txt largestdefault.txt'

# Boards that are refused, one for each number at least.
line='line 3: refusal 1: no final line feed, unknown first word, wrong count of fields, or bad number'
board text.txt "$(sed 's/^slave/card/' document01.txt)\n" refused,1 "$line"
board old.txt "$(sed 's/,0,0$//' document01.txt)\n" refused,1 \
    "$line; a slave line has 8 numbers, the last two are native and latency: 0 bus sizing, 1 native alignment; 0 to 63 clocks"
board seven.txt "$(sed 's/,0$//' document01.txt)\n" refused,1 \
    "$line; a slave line has 8 numbers, the last is latency: 0 to 63 clocks"
board unended.txt "$(cat document01.txt)" refused,1 "line 5${line#line 3}"
board full.txt "$(head -n 2 document01.txt)\n$(printf '%08169d' 0)\n" refused,1 "$line"
board long.txt "$(head -n 2 document01.txt)\n$(printf '%08170d' 0)\n" refused,1 'refusal 1: text over 8192 bytes'
board order.txt "$(sed 2q document01.txt)\nshare,0,0,2\n" refused,2 'line 3: refusal 2: line kind out of order, over the count or behind default'
board empty.txt '' refused,2 'refusal 2: at the end, no master or no slave'
board value.txt "$(sed 's/^share,1,0,3/share,1,0,101/' document01.txt)\n" refused,3 \
    'line 5: refusal 3: value outside its list or range'
board toolate.txt "$(sed 's/,1,0,0,0$/,1,0,0,64/' document01.txt)\n" refused,3 \
    'line 3: refusal 3: value outside its list or range'
board base.txt "$(sed 's/^slave,4096,/slave,4100,/' document01.txt)\n" refused,4 'line 3: refusal 4: base no multiple of span'
board overlap.txt "$(sed 's/^slave,8192,/slave,4096,/' encoder.txt)\n" refused,5 'line 4: refusal 5: slave overlaps an earlier one'
board spans.txt "$(sed 's/^slave,0,16384,/slave,131072,65536,/' crane.txt)\n" refused,6 'line 7: refusal 6: spans total over 65536'
board share.txt "$(sed 's/^share,1,0,3/share,0,0,3/' document01.txt)\n" refused,7 \
    'line 5: refusal 7: share line names no master or slave, or a pair twice'
board narrow.txt "$(sed 's/^master,2,1/master,1,1/' encoder.txt)\n" refused,19 \
    'line 8: refusal 19: master narrower than native slave'
board unshared.txt "$(grep -v '^share,4,' crane.txt)\n" refused,20 'refusal 20: master 4 has no share line'
# The line default in front of the slave lines, in front of the share lines, and twice; with a number, unended, and on a board of
# which a master has no share line.
kind='refusal 2: line kind out of order, over the count or behind default'
board early.txt "$(sed '2a default' document01.txt)\n" refused,2 "line 3: $kind"
board between.txt "$(sed '3a default' document01.txt)\n" refused,2 "line 5: $kind"
board twice.txt "$(cat service.txt)\ndefault\n" refused,2 "line 16: $kind"
board number.txt "$(sed 's/^default/default,1/' service.txt)\n" refused,1 "line 15${line#line 3}"
board undefault.txt "$(cat service.txt)" refused,1 "line 15${line#line 3}"
board noshare.txt "$(grep -v '^share,1,' service.txt)\n" refused,20 'refusal 20: master 1 has no share line'
# Share lines by slave, then master: behind 2 masters and 16 cards the third is the first out of order. By master, then the slave's
# word: 0, 1, 10, .. 15, 2. Backwards, and a master has none: what is missing at the end comes behind.
unordered='share line out of order: by master, then slave'
board byslave.txt "$(grep -v '^share,' cards.txt && grep '^share,' cards.txt | sort -t , -k 3,3n -k 2,2n)\n" refused,21 \
    "line 21: refusal 21: $unordered"
board byword.txt "$(grep -v '^share,' cards.txt && grep '^share,' cards.txt | sort -t , -k 2,2 -k 3,3)\n" refused,21 \
    "line 27: refusal 21: $unordered"
board backwards.txt "$(sed '/^share,/d' unshared.txt && sed '/^share,/!d' unshared.txt | sort -r)\n" refused,21 \
    "line 13: refusal 21: $unordered"
refused='text.txt old.txt seven.txt unended.txt full.txt long.txt order.txt empty.txt value.txt toolate.txt base.txt overlap.txt
spans.txt share.txt narrow.txt unshared.txt early.txt between.txt twice.txt number.txt undefault.txt noshare.txt byslave.txt byword.txt
backwards.txt'
boards="$taken $late $answered $refused"
holds 'full.txt has 8,192 bytes' "$(wc -c < full.txt)" -eq 8192
holds 'long.txt has 8,193 bytes' "$(wc -c < long.txt)" -eq 8193
printf 'master,4,64\nmaster,8,64\nslave,0,4096,4,64,10,77,0,0\nshare,0,0,1\nshare,1,0,1\n' > ../input
# shellcheck disable=SC2086
cksum $boards > ../before

# Each by itself: on standard input, without an operand and behind `--`, and by its name.
for name in $boards; do
    cp "../pages/$name" ../output.expected
    sed 's/^/table: /' "../said/$name" > ../error.expected
    for word in '' --; do
        status=0
        # shellcheck disable=SC2086
        "$table" $word < "$name" > ../output 2> ../error || status=$?
        same $word "< $name"
    done
    try "$name"
done

# All at once, in several orders; and each behind each other one.
# shellcheck disable=SC2046,SC2086
{
    try $boards
    try_behind $boards
    try $refused $answered $late $taken
    try $(printf '%s\n' $boards | sort)
    try $(printf '%s\n' $boards | sort -r)
    try $(for name in $boards; do printf '%s\n' $boards | sed "s/^/$name /"; done)
}

# What is written of all by their names is what is written of them one by one.
: > ../output.expected
: > ../error.expected
for name in $boards; do
    echo "file,$name" >> ../output.expected
    "$table" < "$name" >> ../output.expected 2> ../explained || :
    sed "s/^table: /table: $name: /" ../explained >> ../error.expected
done
# shellcheck disable=SC2086
{
    start $boards
    same $boards
}

# The longer of a card's two waits counts, whichever it is, where the card has no latency: a table stays where the two are exchanged
# in every slave line or in every second one, where the shorter becomes as long, and where it becomes 0.
for name in $taken; do
    for change in exchanged second equal none; do
        mkdir -p "$change"
        awk -F, -v OFS=, -v change="$change" '
            $1 == "slave" {
                longer = $6 + 0 > $7 + 0 ? 6 : 7
                shorter = 13 - longer
                if (change == "equal") $shorter = $longer
                else if (change == "none") $shorter = 0
                else if (change == "exchanged" || NR % 2) {
                    read = $6
                    $6 = $7
                    $7 = read
                }
            }
            { print }
        ' "$name" > "$change/$name"
    done
    try "$name" "exchanged/$name" "second/$name" "equal/$name" "none/$name"
done
holds 'the waits were exchanged' "$(sed -n 3p exchanged/document01.txt)" = slave,4096,4096,2,8,0,1,0,0
holds 'the shorter wait is 0' "$(sed -n 3p none/write.txt)" = slave,4096,4096,2,8,0,5,0,0
for waits in 255,0 0,255 254,255 255,254; do
    mkdir "$waits"
    sed "s/,255,255,/,$waits,/" largest.txt > "$waits/largest.txt"
done
try 255,0/largest.txt 0,255/largest.txt 254,255/largest.txt 255,254/largest.txt largest.txt

# With the line default behind its text, and without that line, a board has the same table. A text that is refused is refused for the
# same: no line behind the one that is charged counts, and no master is connected by it.
mkdir with without
for name in $taken $late default.txt; do
    { sed '/^default$/d' "$name" && echo default; } > "with/$name"
    sed '/^default$/d' "$name" > "without/$name"
    try "$name" "with/$name" "without/$name"
done
sed '/^default$/d' service.txt > without/service.txt
try service.txt without/service.txt
for name in text.txt old.txt seven.txt order.txt value.txt toolate.txt base.txt overlap.txt spans.txt share.txt narrow.txt unshared.txt \
    early.txt between.txt twice.txt number.txt byslave.txt byword.txt backwards.txt; do
    { cat "$name" && echo default; } > "with/$name"
    try "with/$name" "$name"
done
holds 'the line was added' "$(tail -n 1 with/crane.txt)" = default
holds 'the line was taken away' "$(tail -n 1 without/service.txt)" = share,2,2,1

# Each share line exchanged with the next one, of every board that is taken: the lower line is charged, and the tables of the
# boards among them are printed.
for name in $taken; do
    awk -v name="$name" -v said="$unordered" '
        { line[NR] = $0 }
        /^share,/ && !first { first = NR }
        END {
            for (k = first + 1; k <= NR; k++) {
                file = k "," name
                for (i = 1; i <= NR; i++) print line[i == k ? k - 1 : i == k - 1 ? k : i] > file
                print "refused,21" > ("../pages/" file)
                print "line " k ": refusal 21: " said > ("../said/" file)
                close(file)
                close("../pages/" file)
                close("../said/" file)
            }
        }
    ' "$name"
done
holds 'two lines are exchanged' "$(sed -n 4,5p 5,document01.txt | tr '\n' ' ')" = 'share,1,0,3 share,0,0,2 '
holds 'there are 185 such files' "$(printf '%s\n' *,*.txt | wc -l)" -eq 185
# shellcheck disable=SC2086
try document01.txt ./*,*.txt $taken
for name in *,document01.txt *,crane.txt *,native.txt; do
    try encoder.txt "$name" document01.txt
done

# Variants of a board, each with its table: where an access takes v clocks, the turns are 2 * v + 16 * v and 3 * v.
awk '
    BEGIN {
        for (r = 0; r < 256; r += 15) for (w = 0; w < 256; w += 17) {
            name = "variant-" r "-" w
            v = 1 + (r > w ? r : w)
            printf "master,4,8\nmaster,2,1\nslave,4096,4096,2,8,%d,%d,0,0\nshare,0,0,2\nshare,1,0,3\n", r, w > name
            printf "master,slave,wait,serve\n0,0,%d,%d\n1,0,%d,%d\n", 3 * v, 16 * v, 18 * v, v > ("../pages/" name)
            printf "" > ("../said/" name)
            close(name)
            close("../pages/" name)
            close("../said/" name)
        }
    }
'
try variant-*

# Files that cannot be opened or read, in front, between and behind others, alone, and twice. The system says why.
mkdir folder
ln -s loop loop
ln -s absent.txt dangling
fails absent.txt 'No such file or directory'
fails dangling 'No such file or directory'
fails folder 'Is a directory'
fails loop 'Too many levels of symbolic links'
for name in absent.txt dangling folder loop; do
    try "$name"
    try "$name" "$name"
    try "$name" document01.txt base.txt
    try encoder.txt "$name" base.txt document01.txt
    try base.txt document01.txt "$name"
    try "$name" read.txt "$name" unshared.txt "$name"
done
try absent.txt ./folder loop "$PWD/folder" dangling folder/absent.txt folder/../absent.txt
fails below 'Not a directory'
try document01.txt document01.txt/below base.txt/below encoder.txt
# Root may read every file.
if [ "$(id -u)" -ne 0 ]; then
    cp document01.txt closed
    chmod a= closed
    fails closed 'Permission denied'
    try document01.txt closed encoder.txt closed base.txt
    chmod u=rw closed
fi

# Names are printed as they are given, with a path in front or without one. At first no such file is there, then all are boards
# that are taken, and then all are refused. A name that is no text is printed as it is too; no file can be opened by it.
no_text() {
    [ "$1" = "$(printf 'a\351.txt')" ] || [ "$1" = "$(printf '\377\376')" ]
}
try ./document01.txt folder/../encoder.txt "$PWD/base.txt" .//./unshared.txt "$PWD/absent.txt" ../boards/folder document01.txt
# shellcheck disable=SC1003,SC2016
set -- 'a b.txt' ' ' ' lead' 'trail ' a,b.txt ',' 'file,x' "it's" 'a"b' '%s%d%n.txt' 'a\n.txt' 'a\' 'a*' '$x' '#' '~' : 'x:' '=' \
    NAME stdin refused,4 "$(printf 'tab\there')" "$(printf 'a\351.txt')" "$(printf '\377\376')" "$(printf '\001\033\r')" \
    "$(printf '\303\204')" "$(printf '%0254d' 0)" "$(printf '%0255d' 0)" - -- -x.txt -h --help --version ---
for name in "$@"; do
    fails "$name" 'No such file or directory'
    ! no_text "$name" || fails "$name" 'Invalid or incomplete multibyte or wide character'
    set -- "$@" "./$name" "$PWD/$name"
done
try_behind "$@"
for board in encoder.txt narrow.txt; do
    text=$(cat "$board") page=$(cat "../pages/$board") said=$(cat "../said/$board")
    for name in "$@"; do
        case $name in
        */*) ;;
        *) no_text "$name" || board "$name" "$text\n" "$page" "$said" ;;
        esac
    done
    try_behind "$@"
done

# Behind `--`, and behind a name, a word that begins with a dash is a name. An empty word is a name everywhere.
for name in - -- -x.txt -h --help --version ---; do
    try_behind "$name"
    try_behind "$name" document01.txt
    try document01.txt "$name"
    rm -- "$name"
    fails "$name" 'No such file or directory'
    try_behind "$name"
    try document01.txt "$name" encoder.txt
done
try ''
try '' ''
try_behind ''
try '' document01.txt
try document01.txt '' base.txt
try '' --help

# A name may have a line feed.
printf 'master,4,8\nslave,0,8,1,1,0,0,0,0\nshare,0,0,1\n' > "two${newline}lines"
cat > ../output.expected <<'END'
file,two
lines
master,slave,wait,serve
0,0,0,8
file,


file,base.txt
refused,4
END
printf 'table: \n\n: No such file or directory\ntable: base.txt: line 3: refusal 4: base no multiple of span\n' > ../error.expected
start "two${newline}lines" "$newline$newline" base.txt
same "two${newline}lines" "$newline$newline" base.txt

# A word that is too long for a file's name, among others: the word.
try_long() {
    {
        echo "file,$1" && echo file,encoder.txt && cat ../pages/encoder.txt
        echo "file,$1" && echo file,base.txt && cat ../pages/base.txt
    } > ../output.expected
    printf 'table: %s: File name too long\n' "$1" "$1" > ../error.expected
    echo "table: base.txt: $(cat ../said/base.txt)" >> ../error.expected
    start "$1" encoder.txt "$1" base.txt
    # On standard error a name over 4,096 bytes may be cut.
    [ ${#1} -le 4096 ] || for file in ../error ../error.expected; do
        sed 's/^table: .*: File name too long$/table: File name too long/' "$file" > ../cut
        mv ../cut "$file"
    done
    same "(${#1} bytes)" encoder.txt "(${#1} bytes)" base.txt
}

# A name has 255 bytes at most, a path 4,095, and a word 131,071.
dots=$(printf '%02039d' 0 | sed 's|0|./|g')
holds '4,095 are 4,078 and 17' ${#dots} -eq 4078
try "$dots.//document01.txt" absent.txt
try base.txt "$dots.//document01.txt" "$dots.//document01.txt"
try_long "$dots././document01.txt"
for length in 256 257 4095 4096 4097 5000 8000 8192 8193 65536 131071; do
    try_long "$(printf "%0${length}d" 0)"
done
try_long "./$(printf '%0256d' 0)"

# Files that are no regular files: a pipe, also one that is opened for writing later, and written in two parts; a device that never
# ends, and one that is empty.
mkfifo fifo
cp ../pages/crane.txt ../pages/fifo
cp ../said/crane.txt ../said/fifo
cat crane.txt > fifo &
writer=$!
try document01.txt fifo encoder.txt
kill "$writer" 2> /dev/null || :
wait "$writer" || :
sh -c 'sleep 0.1 && exec > fifo && head -n 3 crane.txt && sleep 0.1 && exec sed 1,3d crane.txt' &
writer=$!
try fifo absent.txt
kill "$writer" 2> /dev/null || :
wait "$writer" || :
cp ../pages/long.txt ../pages/zero
cp ../said/long.txt ../said/zero
cp ../pages/empty.txt ../pages/null
cp ../said/empty.txt ../said/null
try /dev/zero /dev/null document01.txt /dev/zero

# Standard input is a file as any other where it is named, from its beginning; a pipe has come to its end the second time.
cp ../input input
board input "$(cat input)\n" "$head
0,0,9984,4992
1,0,4992,9984"
cp ../pages/input ../pages/stdin
: > ../said/stdin
try /dev/stdin
try document01.txt /dev/stdin base.txt /dev/stdin
expect /dev/stdin document01.txt
{ cat ../output.expected && printf 'file,/dev/stdin\nrefused,2\n'; } > ../whole
mv ../whole ../output.expected
echo 'table: /dev/stdin: refusal 2: at the end, no master or no slave' > ../error.expected
status=0
# shellcheck disable=SC2002
cat input | timeout 10 "$table" /dev/stdin document01.txt /dev/stdin > ../output 2> ../error || status=$?
same /dev/stdin document01.txt /dev/stdin

# Where files are named, standard input is left to whoever reads it next. Without a name it is read to its end.
: > ../error.expected
for words in document01.txt absent.txt 'base.txt folder' '-- encoder.txt' -- ''; do
    case $words in
    '' | --) : > ../output.expected ;;
    *) cp input ../output.expected ;;
    esac
    status=0
    # shellcheck disable=SC2086
    { "$table" $words > ../rest 2>&1 && cat > ../output; } < input 2> ../error || status=$?
    same "$words" '(the rest of standard input)'
done

# Where both go to one file, what is said of a description comes right behind what is printed of it.
cat > ../output.expected <<'END'
file,base.txt
refused,4
table: base.txt: line 3: refusal 4: base no multiple of span
file,document01.txt
master,slave,wait,serve
0,0,6,32
1,0,36,2
file,absent.txt
table: absent.txt: No such file or directory
file,folder
table: folder: Is a directory
file,read.txt
master,slave,wait,serve
0,0,12,64
1,0,72,4
file,unshared.txt
refused,20
table: unshared.txt: refusal 20: master 4 has no share line
file,byslave.txt
refused,21
table: byslave.txt: line 21: refusal 21: share line out of order: by master, then slave
file,single.txt
master,slave,wait,serve
0,0,0,8
END
: > ../error.expected
: > ../error
status=0
"$table" base.txt document01.txt absent.txt folder read.txt unshared.txt byslave.txt single.txt > ../output 2>&1 || status=$?
same base.txt document01.txt absent.txt folder read.txt unshared.txt byslave.txt single.txt '2>&1'

# The line of a file is written before the file is read: where standard output goes to the file, it finds that line there.
printf 'file,own.txt\nrefused,1\n' > ../output.expected
echo "table: own.txt: line 1${line#line 3}" > ../error.expected
status=0
# shellcheck disable=SC2094
"$table" own.txt > own.txt 2> ../error || status=$?
cp own.txt ../output
same own.txt '> own.txt'

# Files are opened for reading alone: nobody may open a program that runs for writing.
cp ../pages/long.txt ../pages/table
cp ../said/long.txt ../said/table
try "$table" document01.txt

# Two thousand words: boards, boards that are refused, files that are not there, folders.
many=$(awk 'BEGIN {
    for (i = 0; i < 250; i++) print "document01.txt folder base.txt absent.txt ./encoder.txt ./folder unshared.txt variant-15-17"
}')
# shellcheck disable=SC2046,SC2086
{
    try $many
    try $(awk 'BEGIN { for (i = 0; i < 2000; i++) print "document01.txt" }')
    try $(awk 'BEGIN { for (i = 0; i < 2000; i++) print "absent.txt" }')
    try $(awk 'BEGIN { for (i = 0; i < 2000; i++) print "folder" }') document01.txt
    try $(awk 'BEGIN { for (i = 0; i < 2000; i++) print "long.txt" }') document01.txt
}
holds 'the last start had 2,001 words' "$(grep -c '^file,' ../output)" -eq 2001

# Nothing was written to a board, and no file was made.
# shellcheck disable=SC2086
cksum $boards > ../after
tries=$((tries + 1))
if ! cmp -s ../before ../after || [ -e absent.txt ] || [ -e folder/absent.txt ]; then
    different=$((different + 1))
    echo 'tables: a board was written to, or a file was made'
    diff ../before ../after || :
fi

echo "tables: $tries tries, $different differences"
[ "$different" -eq 0 ]
