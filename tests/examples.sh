#!/bin/sh
# What a user meets: the header and the programs in C, every .hex file by the command handover, plain and explained, and what that command
# says and with which status it ends when something is wrong. Needs target/staticlib/libcabinet.a and target/bin/handover.
set -eu
unset CDPATH
cd "$(dirname "$0")/.."
scratch=$(mktemp -d)
trap 'rm -rf "$scratch"' EXIT
export scratch

wrong() {
    echo "examples: $*" >&2
    exit 1
}

# same NAME FILE: standard input is what the file holds.
same() { diff - "$2" >&2 || wrong "$1: not as in $2"; }

# ends STATUS FILE COMMAND: the command ends with the status and writes what the file holds. It says why, on standard error, if the status
# is 2 or 3, and nothing there if it is not.
ends() {
    status=0
    sh -c "$3" >"$scratch/lines" 2>"$scratch/said" || status=$?
    [ "$status" = "$1" ] || { cat "$scratch/said" >&2; wrong "status $status, not $1: $3"; }
    same "$3" "$2" <"$scratch/lines"
    if [ "$1" -gt 1 ]; then [ -s "$scratch/said" ] || wrong "says nothing: $3"; else same "$3" /dev/null <"$scratch/said"; fi
}

# says TEXT: the last command that ended by `ends` said this, among others.
says() { grep -qF -- "$1" "$scratch/said" || wrong "does not say '$1': $(cat "$scratch/said")"; }

# ---- The header and the programs in C, by every compiler that there is

library=target/staticlib/libcabinet.a
strict='-pedantic -Wall -Wextra -Wconversion -Wshadow -Werror -Iinclude'
# An answer of one call handed to what takes another's; and, so that this is known to be the fault, one that is taken.
for answer in sock_find_process:mistaken sock_process:taken; do
    printf '#include "sock.h"\nint main(void) { return (int)sock_number(%s(0, 0, 0)); }\n' "${answer%:*}" >"$scratch/${answer#*:}.c"
done

used=
for compiler in 'gcc -std=c99' 'gcc -O2 -std=c11' 'g++ -x c++' 'g++ -O2 -x c++ -std=c++20' 'clang -std=c99' 'clang++ -x c++'; do
    command -v "${compiler%% *}" >/dev/null || [ "${compiler%% *}" = gcc ] || continue
    used="$used, $compiler"
    for source in examples/worked examples/calls tests/header; do
        $compiler $strict "$source.c" -x none "$library" -o "$scratch/program"
        expected=/dev/null
        [ ! -e "$source.txt" ] || expected=$source.txt
        ends 0 "$expected" '"$scratch/program"'
    done
    $compiler $strict -fsyntax-only "$scratch/taken.c"
    ! $compiler $strict -fsyntax-only "$scratch/mistaken.c" 2>/dev/null || wrong "$compiler takes one answer for another"
done

# What the header says of the library: three functions from outside, no variables, no address that is fixed.
[ "$(nm -u "$library" | awk '/ U / { print $2 }' | sort | tr '\n' ' ')" = 'memcpy memmove memset ' ] || wrong "the library needs $(nm -u "$library")"
size "$library" | awk 'NR > 1 && $2 + $3 > 0 { exit 1 }' || wrong "the library has variables"
gcc -shared -nostdlib -Wl,--whole-archive "$library" -o "$scratch/library.so"

# ---- The inputs, plain and explained

for name in worked lockage bridge compensation dead-waiter choice booking counting; do
    bin/handover "examples/$name.hex" | same "$name.hex" "examples/$name.txt"
    echo "$name.hex"
    bin/handover --explain "examples/$name.hex"
done >"$scratch/explained"
{ echo plan.hex; bin/handover --plan --explain examples/plan.hex; } >>"$scratch/explained"
same "explained" examples/explained.txt <"$scratch/explained"

# The planners' example: the same lines from what it is translated into. What is no plan is run as it is; no other way takes a plan.
ends 0 examples/plan.txt 'bin/handover --plan examples/plan.hex'
ends 0 examples/worked.txt 'bin/handover --plan --example'
echo "start 1" >"$scratch/no-plan.txt"
ends 1 "$scratch/no-plan.txt" 'bin/handover examples/plan.hex'
ends 1 "$scratch/no-plan.txt" 'bin/handover --plan </dev/null'
# planned NUMBER WORDS REASON: one engine with these words as its process is refused so, plain and explained.
planned() {
    { printf '%04x 0001 0000 0000*64' "$((66 + $(echo "$2" | wc -w)))"; echo " $2"; } >"$scratch/planned.hex"
    echo "start $1" >"$scratch/planned.txt"
    ends 1 "$scratch/planned.txt" 'bin/handover --plan "$scratch/planned.hex"'
    printf '%-16s %s\n' "start $1" "$3" >"$scratch/planned.txt"
    ends 1 "$scratch/planned.txt" 'bin/handover --plan --explain "$scratch/planned.hex"'
}
planned 14 '9820 0000 7800 0000 0000' "cH in a fixed scope: it stands free in one of a fixed scope's own handlers"
planned 11 '9820 0000 0000 0000 5804 0000 0000 0000' 'not fresh: readable, but no start'
planned 8 "$(for _ in 1 2 3 4 5 6 7 8 9 10 11 12 13 14 15 16; do printf '9800 0000 0000 0000 '; done)6800" 'deep: what it is translated into would nest deeper than 64'
ends 2 /dev/null 'bin/handover --plan --rewrite examples/plan.hex' && says '--rewrite'

# The file that docs/FORMAT.md has, and what it says that it prints.
in_format() {
    awk -v part="$1" '
        /^## / { now = $0 == "## A whole file" ? "input" : "" }
        /^It prints:/ { now = "lines" }
        now == part && sub(/^    /, "")' docs/FORMAT.md
}
in_format input >"$scratch/format.hex"
in_format lines >"$scratch/format.txt"
ends 0 "$scratch/format.txt" 'bin/handover "$scratch/format.hex"'

# The bytes of the worked example, the same and ten thousand steps more, and the same without its last two bytes.
bytes_of() { NAME=$1 LC_ALL=C awk -f tools/hex.awk "$1" | while IFS= read -r line; do printf '%b' "$line"; done; }
bytes_of examples/worked.hex >"$scratch/worked"
{ cat "$scratch/worked"; head -c 100000 /dev/zero; } >"$scratch/long"
head -c 342 "$scratch/worked" >"$scratch/cut"
{ sed '$d' examples/worked.txt | sed '$d'; echo cut; } >"$scratch/cut.txt"
echo "start 1" >"$scratch/refused.txt"

# ---- The command handover: what is run, and the status

worked=examples/worked.txt refused=$scratch/refused.txt none=/dev/null
ends 0 $worked 'bin/handover --example'
ends 0 $worked 'bin/handover --example </dev/null'
ends 0 $worked 'bin/handover <"$scratch/worked"'
ends 0 $worked 'cat "$scratch/worked" | bin/handover -'
ends 0 $worked 'bin/handover "$scratch/worked"'
ends 0 $worked 'cat "$scratch/worked" | bin/handover /dev/stdin'
ends 0 $worked 'bin/handover -- examples/worked.hex'

# Empty input is no start, from wherever it comes.
: >"$scratch/empty"
echo "# nothing" >"$scratch/empty.hex"
for from in '' - '"$scratch/empty"' '"$scratch/empty.hex"'; do
    ends 1 "$refused" "bin/handover $from </dev/null"
done
ends 1 "$refused" 'false | bin/handover'
echo "start 1          unreadable: the input is empty" >"$scratch/explained.txt"
ends 1 "$scratch/explained.txt" 'bin/handover --explain "$scratch/empty"'
ends 1 "$scratch/explained.txt" 'bin/handover --explain </dev/null'
# unreadable BYTES REASON: the explanation of a start that is not readable.
unreadable() {
    echo "start 1          unreadable: $2" >"$scratch/explained.txt"
    ends 1 "$scratch/explained.txt" "printf '$1' | bin/handover --explain"
}
unreadable '\1' "the input is one byte"
unreadable '\40\1' "the first word says 8193 words, and 8,192 are the most"
unreadable '\0\5\0\1\0' "the first word says 5 words, and 1 follow"
unreadable '\0\1\0\1' "no configuration that can be read (an earlier one, without counts of variables, is rewritten by --rewrite)"
ends 1 "$scratch/cut.txt" 'bin/handover "$scratch/cut"'
ends 1 "$scratch/cut.txt" 'bin/handover <"$scratch/cut"'
# A start that is refused is told from an input that cannot be read, also where much is left to read.
ends 1 "$refused" 'head -c 1000000 /dev/zero 2>/dev/null | bin/handover'
ends 1 "$refused" 'trap "" PIPE; head -c 1000000 /dev/zero 2>/dev/null | bin/handover'
ends 1 "$refused" 'yes 2>/dev/null | bin/handover'

# On a terminal, and only there, no input means the worked example.
script -qec 'bin/handover 2>"$scratch/told"' /dev/null </dev/null | tr -d '\r' | same "on a terminal" $worked
grep -q 'worked example' "$scratch/told" || wrong "a terminal is not told that this is the example"

# Usage.
bin/handover --help | grep -q '^usage:' || wrong "--help says no usage"
sed -n 's/^#define SOCK_VERSION "\(.*\)"$/handover \1/p' include/sock.h >"$scratch/version.txt"
grep -q '^handover [0-9]' "$scratch/version.txt" || wrong "the header has no version"
ends 0 "$scratch/version.txt" 'bin/handover --version'
ends 2 $none 'bin/handover --explian' && says '--explian'
ends 2 $none 'bin/handover -x'
ends 2 $none 'bin/handover examples/worked.hex examples/choice.hex'
ends 2 $none 'bin/handover --example examples/worked.hex'
ends 2 $none 'bin/handover ""' && says 'empty'
ends 2 $none 'bin/handover -- --example' && says 'no such file'

# What cannot be read: nothing is run, or what was run is told from a whole run. /proc/self/mem has no byte at its start that can be read.
mkdir "$scratch/folder.hex"
ends 2 $none 'bin/handover "$scratch/none"' && says 'no such file'
ends 2 $none 'bin/handover examples' && says 'folder'
ends 2 $none 'bin/handover "$scratch/folder.hex"' && says 'folder'
ends 2 $none 'bin/handover /proc/self/mem' && says 'cannot be read'
ends 2 "$refused" 'bin/handover <examples' && says 'could not be read'
ends 2 "$refused" 'exec 3</proc/self/mem; bin/handover <&3; exit $?' && says 'could not be read'
ends 2 "$refused" 'bin/handover <&-' && says 'could not be read'
ends 2 $none 'bin/handover --explain <examples' && says 'cannot be read'
# A failure in the middle, by a cat that breaks off where it reads standard input for the command; there, and only there, LC_ALL is C.
mkdir "$scratch/failing"
cat >"$scratch/failing/cat" <<EOF
#!/bin/sh
[ "\$LC_ALL" = C ] || exec $(command -v cat) "\$@"
$(command -v cat)
echo "cat: -: Input/output error" >&2
exit 1
EOF
chmod +x "$scratch/failing/cat"
ends 2 $worked 'LC_ALL=POSIX PATH=$scratch/failing:$PATH bin/handover <"$scratch/worked"' && says 'could not be read'

# What cannot be written, from the beginning or in the middle, and a reader that has seen enough.
for what in 'examples/worked.hex' '--explain examples/worked.hex' '- <"$scratch/worked"' '"$scratch/long"' '--help' '--version'; do
    ends 3 $none "bin/handover $what >/dev/full" && says 'could'
    ends 3 $none "bin/handover $what >&-"
done
for from in '"$scratch/long"' '<"$scratch/long"' '--explain "$scratch/long"'; do
    for ignored in : 'trap "" PIPE'; do
        ends 3 $none "$ignored; { bin/handover $from; echo \$? >\$scratch/status; } | head -n 1 >/dev/null; exit \$(cat \$scratch/status)"
    done
done

# ---- Hexadecimal text

# as_text STATUS TEXT: the text, with escapes, is the worked example (0), or is refused as no text of words (2).
as_text() {
    printf '%b' "$2" >"$scratch/text.hex"
    if [ "$1" = 0 ]; then ends 0 $worked 'bin/handover "$scratch/text.hex"'; else ends 2 $none 'bin/handover "$scratch/text.hex"'; fi
}
mark='\0357\0273\0277'
plain=$(sed 's/ *#.*//' examples/worked.hex)
as_text 0 "$plain"
as_text 0 "$mark$plain"
as_text 0 "$(printf '%s\n' "$plain" | sed 's/$/\\r/')"
as_text 0 "$mark# a comment\r\n$(printf '%s\n' "$plain" | sed 's/$/ # a comment\\r/')"
as_text 0 "$(printf '%s\n' "$plain" | tr 'a-f' 'A-F')"
as_text 2 "# a comment\r$(printf '%s\n' "$plain" | tr '\n' ' ')\r" && says 'CR alone'
as_text 2 "$(printf '%s\n' "$plain" | sed 's/^0092/00 92/')" && says 'line 3: not a word of four hexadecimal digits: 00'
for text in 8e 08e 0008e 008e0002 0x008e 00zz 008e, '\0376\0377' '0\0000\00008e'; do as_text 2 "$text\n"; done
for text in '008e*' '*3' '008e*2*3' '008e*0' '008e*-1' '008e*20000'; do as_text 2 "$text\n"; done
cp "$scratch/text.hex" "$scratch/OTHER.HEX"
ends 2 $none 'bin/handover "$scratch/OTHER.HEX"'
printf '%s\n' "$plain" >"$scratch/name with 'signs' \$HOME \\n.hex"
ends 0 $worked 'bin/handover "$scratch/name with '"'signs'"' \$HOME \\n.hex"'

# ---- Earlier inputs rewritten: those from before a message had several values. They are no starts any more; rewritten, they are the words of
# ---- the examples, which print what they printed

earlier=tests/reference/earlier
for name in worked lockage bridge compensation dead-waiter choice; do
    bin/handover --rewrite "$earlier/examples/$name.hex" >"$scratch/rewritten.hex"
    bytes_of "$scratch/rewritten.hex" >"$scratch/rewritten"
    bytes_of "examples/$name.hex" | cmp - "$scratch/rewritten" || wrong "$name.hex is not the earlier one rewritten"
    bytes_of "$earlier/examples/$name.hex" >"$scratch/earlier"
    bin/handover --rewrite "$scratch/earlier" | cmp - "$scratch/rewritten" || wrong "$name.hex: bytes are not rewritten like text"
    sed 's/^[^#]*//' "$earlier/examples/$name.hex" >"$scratch/comments"
    sed 's/^[^#]*//' "$scratch/rewritten.hex" | same "comments of $name.hex" "$scratch/comments"
    ends 0 "examples/$name.txt" 'bin/handover "$scratch/rewritten.hex"'
    ends 0 "examples/$name.txt" 'bin/handover "$scratch/rewritten"'
    # Without messages nothing changes.
    [ "$name" = compensation ] || ends 1 "$refused" 'bin/handover "$scratch/earlier"'
done
ends 0 $worked 'bin/handover --rewrite tests/reference/earlier/handover/stdin | bin/handover'
ends 0 $worked 'cat tests/reference/earlier/handover/stdin | bin/handover --rewrite - | bin/handover -'
ends 0 crates/handover/stdin 'bin/handover --rewrite tests/reference/earlier/handover/stdin'
# What is not in the earlier format, or no input at all, is said so, and nothing is printed.
ends 2 $none 'bin/handover --rewrite examples/worked.hex' && says 'no configuration that can be read in the earlier format'
ends 2 $none 'bin/handover --rewrite "$scratch/empty"' && says 'the input is empty'
ends 2 $none 'bin/handover --rewrite "$scratch/text.hex"' && says 'line 1'
ends 2 $none 'bin/handover --rewrite "$scratch/none"' && says 'no such file'
ends 2 $none 'bin/handover --rewrite' && says 'wants a file'
ends 2 $none 'bin/handover --rewrite --example' && says 'runs nothing'
ends 2 $none 'bin/handover --rewrite --explain tests/reference/earlier/examples/worked.hex' && says 'runs nothing'
ends 3 $none 'bin/handover --rewrite tests/reference/earlier/examples/worked.hex >/dev/full' && says 'could'

# ---- The README counts the edits that must fail, those of the crates that the gate lists

edits=$(sed -n 's/^\([a-z_]*\)[ :].*/\1/p' crates.txt | while read -r name; do ls "crates/$name/must-fail" 2>/dev/null || :; done | wc -l)
grep -q "^$edits edits must fail" README.md || wrong "the README does not say that $edits edits must fail"

# ---- The picture of the step's times: a row with a name for each row of the table, and a mark for each number

LC_ALL=C awk -f tools/plot.awk docs/PERFORMANCE.md >"$scratch/step.svg"
sed -n '/^| step | words |/,/^$/s/^| \(.*\) |$/\1/p' docs/PERFORMANCE.md | sed 1d >"$scratch/rows"
[ "$(wc -l <"$scratch/rows")" -gt 20 ] || wrong "the table of the step is not found"
sed -n 's/^<text .* class="step">\(.*\)<.text>$/\1/p' "$scratch/step.svg" >"$scratch/labels"
sed 's/ | .*//' "$scratch/rows" | same "labels of the picture" "$scratch/labels"
[ -z "$(sort "$scratch/labels" | uniq -d)" ] || wrong "two rows of the picture have one label"
marks=$(awk -F ' [|] ' '{ marks += 3 * split($2, lengths, "/") } END { print marks }' "$scratch/rows")
[ "$(grep -c 'class="mark".* ns a word' "$scratch/step.svg")" = "$marks" ] || wrong "the picture has not $marks marks"
ends 1 $none 'echo "no table" | awk -f tools/plot.awk 2>/dev/null'
ends 2 $none 'bin/bench-step --help'

# ---- The command from elsewhere: by a link, by a link to a link, from another folder, with CDPATH

ln -s "$PWD/bin/handover" "$scratch/link"
ln -s link "$scratch/other-link"
ends 0 $worked '"$scratch/link" --example'
ends 0 $worked 'cd "$scratch" && ./other-link --example'
ends 0 $worked 'mkdir -p "$scratch/bin" && CDPATH=$scratch:/ bin/handover --example'
ends 0 $worked 'cd bin && CDPATH=/:.. ./handover --example'
ends 0 $worked 'cd bin && sh handover --example'

# ---- Building: in a copy, with a stand-in for rt that proves nothing and says what rt says

copy=$scratch/copy
mkdir -p "$copy/crates/sock" "$copy/crates/handover" "$copy/examples" "$copy/include" "$scratch/path"
cp -R bin tools "$copy"
cp include/sock.h "$copy/include"
cp examples/worked.hex "$copy/examples"
printf 'sock:\nhandover: sock io\n' >"$copy/crates.txt"
cat >"$scratch/path/rt" <<'EOF'
#!/bin/sh
echo "$*" >>"$scratch/asked"
echo "rt: chose --jobs 2 for sock"
echo "fn sock::table: proved"
echo "logic=proved functions=1"
echo "rt: chose --jobs 4 for handover"
if [ -e "$scratch/unproved" ]; then
    echo "logic=not-proved"
    exit 1
fi
mkdir -p out
cp "$built" out/handover
EOF
chmod +x "$scratch/path/rt"
built=$PWD/target/bin/handover
export built
printf '1 of 2: sock\n2 of 2: handover\n' >"$scratch/progress"
build='cd "$scratch/copy" && PATH=$scratch/path:$PATH bin/handover --example 2>"$scratch/told"'

# asked COUNT: so many times rt was asked to prove.
asked() { [ "$(grep -c '^run$' "$scratch/asked")" = "$1" ] || wrong "rt was asked $(cat "$scratch/asked"), not $1 times"; }
ends 0 $worked "$build" && asked 1
sed 1d "$scratch/told" | same "progress" "$scratch/progress"
grep -q '^fn sock::table: proved$' "$copy/target/handover.log" || wrong "the log has not what rt said"
ends 0 $worked "$build" && asked 1
same "nothing to build" $none <"$scratch/told"
# A source that is newer, one that is gone, a program that is gone.
sleep 0.1
touch "$copy/crates/sock/new" && ends 0 $worked "$build" && asked 2
sleep 0.1
rm "$copy/crates/sock/new" && ends 0 $worked "$build" && asked 3
rm "$copy/target/bin/handover"
ends 0 $worked "$build" && asked 4
# What is not proved is not run, though an older program is there; nor is it without rt.
sleep 0.1
touch "$scratch/unproved" "$copy/crates.txt"
ends 2 $none 'cd "$scratch/copy" && PATH=$scratch/path:$PATH bin/handover --example'
says '2 of 2: handover, NOT PROVED' && says 'log says why'
mkdir "$scratch/few"
for tool in awk cat cp dirname find head mktemp od readlink rm sed sh tail tee touch; do ln -s "$(command -v $tool)" "$scratch/few/$tool"; done
ends 2 $none 'cd "$scratch/copy" && PATH=$scratch/few bin/handover --example' && says 'no rt'

echo "examples: as their files say (compiled by ${used#, })"
