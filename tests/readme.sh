#!/bin/sh
# Compares the examples of README.md, and those of docs/SIMULATE.md, byte for byte with the files that they show and with what the
# programs print. An example of README.md that begins with `$ ` is a command, with what it prints below it: each is tried, so that a
# new one needs no line here. Wants the programs and the archive (tools/build).
set -eu

root=$(CDPATH= cd -- "$(dirname -- "$0")/.." && pwd)
work=$(mktemp -d)
trap 'rm -rf "$work"' EXIT
for built in bin/table bin/simulate staticlib/libfabric_c.a; do
    [ -f "$root/target/$built" ] || {
        echo "readme: target/$built is not built" >&2
        exit 2
    }
done
# The commands are given in a folder that looks like the repository's own; what they build stays there.
mkdir "$work/target"
ln -s "$root/target/bin" "$root/target/staticlib" "$work/target"
ln -s "$root/boards" "$root/include" "$root/clients" "$work"
cd "$work"
examples=0
different=0

# The first example of a document that has a line which begins so.
example() {
    awk -v begins="$2" '
        /^```/ {
            if (found) exit
            inside = !inside
            text = ""
            next
        }
        inside { text = text $0 "\n" }
        inside && index($0, begins) == 1 { found = 1 }
        END {
            if (!found) text = "no example has a line that begins with " begins "\n"
            printf "%s", text
        }
    ' "$root/$1"
}

# Whether the file `shown` is the file `is`: what an example shows, and what there is.
same() {
    examples=$((examples + 1))
    cmp -s shown is && return 0
    different=$((different + 1))
    echo "readme: $1"
    diff shown is || :
}

# Files of the repository.
example README.md 'fn main(' > shown
cp "$root/crates/tiny/src/main.rt" is
same 'README.md, the program: crates/tiny/src/main.rt is another'
example README.md 'tiny:' > shown
grep '^tiny:' "$root/crates.txt" > is || :
same 'README.md, the line of crates.txt: it is another'
example README.md 'master,4,8' > shown
cp boards/document01.txt is
same 'README.md, the description: boards/document01.txt is another'

# The table, by README.md's own command behind that which builds the program.
example README.md 'master,slave,wait,serve' > shown
sh -c "$(sed -n 's/^tools\/build table && //p' "$root/README.md")" > is
same 'README.md, the table: another is printed'

# What is built for C, by README.md's own commands, and the lines of C, in a program of their own on a board of one card.
sed -n '/^gcc /p' "$root/README.md" > build
sh -e build
{
    printf '#include <stdio.h>\n#include "fabric.h"\nstatic const uint8_t text[] = '
    printf '"master,4,8\\nslave,4096,4096,4,8,0,0,0,0\\nshare,0,0,1\\n";\n'
    printf 'int main(void)\n{\nsize_t text_length = sizeof text - 1;\n'
    example README.md 'struct fabric_board board;'
    printf 'return 0;\n}\n'
} > single.c
gcc -std=c11 -Wall -Wextra -Werror -Iinclude -o single single.c target/staticlib/libfabric_c.a
sed -n 's/.*it prints `\(finished after .*\)`.*/\1/p' "$root/README.md" > shown
./single > is
same 'README.md, a read from C: another line is printed'

# Commands with what they print. The board that is refused is README.md's, with the base that it names.
sed '3s/^slave,4096,/slave,4100,/' boards/document01.txt > board.txt
awk '
    /^```/ {
        inside = !inside
        first = 1
        next
    }
    inside && first { command = index($0, "$ ") == 1 }
    inside && command
    { first = 0 }
' "$root/README.md" > shown
sed -n 's/^\$ //p' shown | while IFS= read -r command; do
    printf '$ %s\n' "$command"
    sh -c "$command" 2>&1 < /dev/null || :
done > is
commands=$(grep -c '^\$ ' shown) || :
[ "$commands" -ge 4 ] || {
    different=$((different + 1))
    echo "readme: README.md shows only $commands commands with what they print"
}
examples=$((examples + commands - 1))
same 'README.md, commands: something else is printed'

# The examples of docs/SIMULATE.md.
example docs/SIMULATE.md 'master,' > board.txt
example docs/SIMULATE.md 'fill,' > script.txt
example docs/SIMULATE.md 'reset,0' > shown
target/bin/simulate board.txt < script.txt > is 2>&1
same 'docs/SIMULATE.md: something else is printed'
example docs/SIMULATE.md 'fill,memory,8194' > script.txt
example docs/SIMULATE.md 'slave,1,' > shown
target/bin/simulate boards/encoder.txt < script.txt > is 2>&1
same 'docs/SIMULATE.md, an encoder card: something else is printed'

example docs/SIMULATE.md 'post,0,write,4096,12' > script.txt
example docs/SIMULATE.md 'slave,0,2,0,2,3,1,0' > shown
target/bin/simulate board.txt < script.txt > is 2>&1
same 'docs/SIMULATE.md, a write with some of the lanes: something else is printed'

example docs/SIMULATE.md 'slave,4096,4096,2,8,1,0,0,3' > latency.txt
example docs/SIMULATE.md 'post,1,write,4098' > script.txt
example docs/SIMULATE.md '1122a1b2' > shown
target/bin/simulate latency.txt < script.txt > is 2>&1
same 'docs/SIMULATE.md, a card with latency: something else is printed'

example docs/SIMULATE.md 'slave,12288,' > shown
cp boards/service.txt is
same 'docs/SIMULATE.md, an address that no card has: boards/service.txt is another'
example docs/SIMULATE.md 'fill,buffer,0,ffffffff' > script.txt
example docs/SIMULATE.md 'response,0,3' > shown
target/bin/simulate boards/service.txt < script.txt > is 2>&1
same 'docs/SIMULATE.md, an address that no card has: something else is printed'

echo "readme: $examples examples, $different differences"
[ "$different" -eq 0 ]
