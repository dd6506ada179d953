#!/usr/bin/env bash
# The C border: makes the library of the archive, looks at its names, compiles the header as C89 and C++ and the examples check.c,
# patch.c, sheet.c and join.c as C99, runs check, with --all and without, on every pair of examples/README.md, patch on the bench graph, sheet
# on every sheet and join on every join of examples/README.md. Then it tries ./answer, installs the library, compiles the examples, conforms.c and faults.c of
# README.md among them, with what was installed, and runs them. It fails where a result is not the one owed.
#
#     bash outside/c/run.sh
#
# The archive is proved where it is missing or of other sources; HAVIROZAN_ARCHIVE=FILE takes one that is already there, and proves
# nothing. Where this is no x86-64: outside/tools.sh.
set -euo pipefail
CDPATH='' cd "$(dirname "$0")/../.."
# outside the repository, since rt refuses links there
part=c out=$(mktemp -d)
trap 'rm -rf "$out"' EXIT
# shellcheck source=outside/tools.sh
. outside/tools.sh
strict=(-Wall -Wextra -Werror -pedantic -Iinclude)
archive_ready

# ---- the library and its names

library=$out/lib
HAVIROZAN_ARCHIVE=$archive bash outside/c/library.sh "$library"
# how a program is run that is linked with the shared library in FOLDER: shared FOLDER PROGRAM WORDS..
shared() {
    local folder=$1
    shift
    if [ "${#runner[@]}" -eq 0 ]; then
        LD_LIBRARY_PATH=$folder "$@"
    else
        "${runner[@]}" -L /usr/x86_64-linux-gnu -E "LD_LIBRARY_PATH=$folder" "$@"
    fi
}

# all names that others see, with T where it is there and U where it has to come from elsewhere
cat >"$out/names-owed" <<'END'
havirozan_check T
havirozan_check_all T
havirozan_find_tables T
havirozan_join_graphs T
havirozan_read_sheet T
havirozan_version T
havirozan_write_graph T
memcpy U
memset U
END
names_are() {
    "${tool}nm" --extern-only --format=posix "$@" | awk 'NF > 1 { sub(/@.*/, "", $1); print $1, $2 }' | LC_ALL=C sort >"$out/names"
    cmp -s "$out/names-owed" "$out/names" || die "the names in ${*: -1} are: $(tr '\n' ' ' <"$out/names")"
}
names_are "$library/libhavirozan.a"
names_are --dynamic "$library/libhavirozan.so"

# the machine code is what was proved, byte for byte, under other names
"${tool}ar" p "$archive" >"$out/bare.o"
"${tool}ar" p "$library/libhavirozan.a" >"$out/named.o"
"${tool}objdump" -h "$out/bare.o" | awk '$2 ~ /^\.(text|rodata)/ { print $2 }' >"$out/sections"
while IFS= read -r section; do
    "${tool}objcopy" --dump-section "$section=$out/bare.bin" "$out/bare.o" /dev/null
    "${tool}objcopy" --dump-section "$section=$out/named.bin" "$out/named.o" /dev/null
    cmp -s "$out/bare.bin" "$out/named.bin" || die "the library has other bytes than the archive in $section"
done <"$out/sections"
grep -q '^\.text' "$out/sections" || die "no code was compared"

version=$(header_version)
soname=$("${tool}objdump" -p "$library/libhavirozan.so.$version" | awk '$1 == "SONAME" { print $2 }')
[ "$soname" = "libhavirozan.so.${version%.*}" ] || die "the shared library says that it is $soname"
[ "$(readlink -f "$library/$soname")" = "$(readlink -f "$library/libhavirozan.so.$version")" ] || die "$soname is another file"

# a program with functions of its own that are called as those in rt's archive
owed="2 2 41 2 51 2, its own 0 0 0 0 0 0, version $(awk -F. '{ print $1 * 10000 + $2 * 100 + $3 }' <<<"$version")"
"${cc[@]}" "${strict[@]}" -std=c99 -O2 outside/c/names.c "$library/libhavirozan.a" "${link[@]}" -o "$out/names-static"
"${cc[@]}" "${strict[@]}" -std=c99 -O2 outside/c/names.c "-L$library" -lhavirozan -o "$out/names-shared"
told=$("${runner[@]}" "$out/names-static") || die "a program with a check of its own is told: $told"
[ "$told" = "$owed" ] || die "a program with a check of its own is told $told, and $owed is owed"
told=$(shared "$library" "$out/names-shared") || die "with the shared library, a program with a check of its own is told: $told"
[ "$told" = "$owed" ] || die "with the shared library, a program with a check of its own is told $told, and $owed is owed"
say "the library gives no name without its prefix, and a program with a check of its own gets the library's answer"

# ---- the header, as C89 and as C++, and the border, of the library and of the archive

"${cc[@]}" "${strict[@]}" -std=c89 -O2 outside/c/header.c "$library/libhavirozan.a" "${link[@]}" -o "$out/header"
"${runner[@]}" "$out/header" || die "the border is not as the header says"
"${cc[@]}" "${strict[@]}" -std=c89 -O2 -DHAVIROZAN_BARE_NAMES outside/c/header.c "$archive" "${link[@]}" -o "$out/header-bare"
"${runner[@]}" "$out/header-bare" || die "the border of rt's archive is not as the header says"
say "the header is C89, and the border is as it says"

if command -v g++ >/dev/null; then
    # sees_as PREFIX WORDS: C++ sees the functions with this prefix; a name that C++ made its own would be another
    sees_as() {
        local prefix=$1 name
        shift
        g++ "${strict[@]}" "$@" -x c++ -c outside/c/header.c -o "$out/header-c++.o"
        nm "$out/header-c++.o" >"$out/names"
        for name in check check_all write_graph find_tables read_sheet join_graphs; do
            grep -q " U $prefix$name\$" "$out/names" || die "C++ does not see $prefix$name as a function of C, with $*"
        done
    }
    for standard in c++98 c++17; do
        sees_as havirozan_ "-std=$standard"
        sees_as '' "-std=$standard" -DHAVIROZAN_BARE_NAMES
    done
    say "the header is C++"
else
    say "there is no g++ here: the header was not tried as C++"
fi

# ---- a 0 that check_all returns is no yes: who takes it for what check returns is told by the compiler, and without a warning asked for

# compiles TEST: whether a program compiles that goes by this test
compiles() {
    printf '#include "havirozan.h"\nint main(void) { return %s ? 0 : 1; }\n' "$1" |
        "${cc[@]}" -w -std=gnu99 -Iinclude -x c -c - -o "$out/test.o" 2>"$out/test.log"
}
all='havirozan_check_all(0, 0, 0, 0, 0, 0)'
compiles "HAVIROZAN_LISTED_CONFORMS($all)" || die "the test for what conforms does not compile: $(cat "$out/test.log")"
for test in "$all.code == HAVIROZAN_CONFORMS" "$all == HAVIROZAN_CONFORMS" "!$all" "(int)$all" "$all == (havirozan_listed){0, 0, 0}"; do
    ! compiles "$test" || die "this compiles, and says yes to a graph that does not conform: $test"
done

# ---- the example, on every pair

"${cc[@]}" "${strict[@]}" -std=c99 -O2 outside/c/check.c outside/c/say.c "$library/libhavirozan.a" "${link[@]}" -o "$out/check"

example_lists >"$out/pairs"
pairs=$(wc -l <"$out/pairs") newline=$'\n'

failed=0
: >"$out/said"
while read -r name graph schema list; do
    # the small program takes graphs up to 40,000 bytes, and the library up to 1,048,576
    [ "$name" != too-long ] || list="0 0 0 0 0"
    answer=${list%%,*}
    case ${answer%% *} in
    0) owed_status=0 count="violations: 0" ;;
    [1-9] | 1?) owed_status=2 count='' ;;
    *) owed_status=1 count="violations: $(awk -F, '{ print NF }' <<<"$list")" ;;
    esac
    status=0
    "${runner[@]}" "$out/check" "$data/$graph" "$data/$schema" >"$out/one" 2>&1 </dev/null || status=$?
    if [ "$(head -n 1 "$out/one")" != "$answer" ] || [ "$status" -ne "$owed_status" ] || [ "$(wc -l <"$out/one")" -ne 2 ]; then
        say "$name: $answer with exit status $owed_status is owed, and this was given, with $status: $(tr '\n' ' ' <"$out/one")"
        failed=$((failed + 1))
    fi
    # with --all it starts with the same two lines, and has two for each further violation; so the count, too, stands in an odd line
    status=0
    "${runner[@]}" "$out/check" --all "$data/$graph" "$data/$schema" >"$out/all" 2>&1 </dev/null || status=$?
    awk -v name="$name" 'NR % 2 == 0 { print name ": " $0 }' "$out/all" >>"$out/said"
    told=$(awk 'NR % 2' "$out/all") owed=${list//, /$newline}${count:+$newline$count}
    if [ "$told" != "$owed" ] || [ "$status" -ne "$owed_status" ] || ! head -n 2 "$out/all" | cmp -s - "$out/one"; then
        say "$name, --all: $list with exit status $owed_status is owed, and this was given, with $status: $(tr '\n' ' ' <"$out/all")"
        failed=$((failed + 1))
    fi
done <"$out/pairs"
[ "$failed" -ne 0 ] || say "check answers $pairs pairs, and with --all lists every violation, of $(wc -l <"$out/lists") pairs several, with the same status"

# ---- the sentences, and wrong usage

while IFS= read -r line; do
    grep -qxF -- "$line" "$out/said" || { say "not said: $line"; failed=$((failed + 1)); }
done <outside/c/sentences
for words in "" "$data/G.graph" "$data/G.graph $data/S.schema more" "$data $data/S.schema" "--all" "--all $data/G.graph" \
    "--all --all $data/G.graph $data/S.schema" "$data/G.graph --all $data/S.schema" "$data/G.graph $data/S.schema --all" "--al $data/G.graph $data/S.schema"; do
    status=0
    # shellcheck disable=SC2086
    "${runner[@]}" "$out/check" $words >"$out/one" 2>&1 </dev/null || status=$?
    [ "$status" -eq 3 ] || { say "check $words: exit status 3 is owed, and $status was given"; failed=$((failed + 1)); }
done

# ---- the other example: one Real of a graph patched

"${cc[@]}" "${strict[@]}" -std=c99 -O2 outside/c/patch.c "$library/libhavirozan.a" "${link[@]}" -o "$out/patch"
bench=examples/bench patched=$out/patched.graph

# patches STATUS SAID WORDS: `patch WORDS` ends with that status and says that line alone; only a 0 leaves a file behind
patches() {
    local owed_status=$1 owed=$2 status=0 left=no owed_left=no
    shift 2
    rm -f "$patched"
    "${runner[@]}" "$out/patch" "$@" >"$out/one" 2>&1 </dev/null || status=$?
    [ ! -e "$patched" ] || left=yes
    [ "$owed_status" -ne 0 ] || owed_left=yes
    if [ "$(cat "$out/one")" != "$owed" ] || [ "$status" -ne "$owed_status" ] || [ "$left" != "$owed_left" ]; then
        say "patch $*: exit status $owed_status is owed, and this was given, with $status: $(tr '\n' ' ' <"$out/one")"
        failed=$((failed + 1))
    fi
}

# patched_is FILE ELSE: the patched file is that file
patched_is() {
    cmp -s "$1" "$patched" || { say "patched wrongly: $2"; failed=$((failed + 1)); }
}

# node 2's coefficient is property row 3, and its value the bytes from 192 on
patches 0 "node 2, property 4: 1 is now 1.02; 267 bytes written to $patched" $bench/G.graph 2 4 1.02 "$patched"
told=$("${runner[@]}" "$out/check" "$patched" $bench/schema.bin | head -n 1)
[ "$told" = "0 0 0 0 0" ] || die "check says of the patched graph: $told"
# -1.1, which differs from 1.0 in each of its eight bytes
patches 0 "node 2, property 4: 1 is now -1.1; 267 bytes written to $patched" $bench/G.graph 2 4 -1.1 "$patched"
{ head -c 192 $bench/G.graph && printf '\232\231\231\231\231\231\361\277' && tail -c +201 $bench/G.graph; } >"$out/owed.graph"
patched_is "$out/owed.graph" "the new value is not the one change"
patches 0 "node 3, property 4: 1.05 is now 1.05; 267 bytes written to $patched" $bench/G.graph 3 4 1.05 "$patched"
patched_is $bench/G.graph "the old value does not give the old file"
# its preface is seven bytes, so every table lies at an odd address
patches 0 "node 3, property 4: 1.05 is now 1.05; 267 bytes written to $patched" "$data/preface.graph" 3 4 1.05 "$patched"
tail -c +8 "$data/preface.graph" >"$out/owed.graph"
patched_is "$out/owed.graph" "the old value does not give the old file without its preface"

patches 1 "patch: there is no node 4: the graph has 4, counted from 0" $bench/G.graph 4 4 1.02 "$patched"
patches 1 "patch: node 1 has no property 4" $bench/G.graph 1 4 1.02 "$patched"
patches 1 "patch: node 2 has no property 65540" $bench/G.graph 2 65540 1.02 "$patched"
patches 1 "patch: property 3 of node 2 is no Real: its kind is 2" $bench/G.graph 2 3 1.02 "$patched"
patches 2 "patch: $data/nan.graph is refused with code 8, place 5: that property row is in no run, or its name, kind or value is not allowed" \
    "$data/nan.graph" 3 4 1.02 "$patched"
patches 2 "patch: $out/absent is refused with code 2, place 0: it is too short or too long" "$out/absent" 2 4 1.02 "$patched"
patches 3 "patch: $data: Is a directory" "$data" 2 4 1.02 "$patched"
patches 3 "patch: $out/absent/file: No such file or directory" $bench/G.graph 2 4 1.02 "$out/absent/file"
patches 3 "patch: /dev/full: No space left on device" $bench/G.graph 2 4 1.02 /dev/full
patches 3 "usage: patch GRAPH NODE NAME VALUE OUT"
patches 3 "usage: patch GRAPH NODE NAME VALUE OUT" $bench/G.graph 2 4 1.02 "$patched" more
patches 3 "patch: NODE and NAME are numbers from 0 on, and these are two and 4" $bench/G.graph two 4 1.02 "$patched"
patches 3 "patch: NODE and NAME are numbers from 0 on, and these are 2 and -4" $bench/G.graph 2 -4 1.02 "$patched"
for value in 1,02 inf nan 1e999 ""; do
    patches 3 "patch: VALUE is a finite number with a decimal point, as 1.05 (a comma is not taken), and this is $value" \
        $bench/G.graph 2 4 "$value" "$patched"
done
[ "$failed" -ne 0 ] || say "patch sets a Real, changes nothing else, and says what it does not take"

# ---- the third example: a sheet made a graph

"${cc[@]}" "${strict[@]}" -std=c99 -O2 outside/c/sheet.c outside/c/say.c "$library/libhavirozan.a" "${link[@]}" -o "$out/sheet"
made=$out/made.graph

# sheet_says STATUS SAID WORDS: `sheet WORDS` ends with that status and says that line alone; only a 0 leaves a file behind
sheet_says() {
    local owed_status=$1 owed=$2 status=0 left=no owed_left=no
    shift 2
    rm -f "$made"
    "${runner[@]}" "$out/sheet" "$@" >"$out/one" 2>&1 </dev/null || status=$?
    [ ! -e "$made" ] || left=yes
    [ "$owed_status" -ne 0 ] || owed_left=yes
    if [ "$(cat "$out/one")" != "$owed" ] || [ "$status" -ne "$owed_status" ] || [ "$left" != "$owed_left" ]; then
        say "sheet $*: exit status $owed_status is owed, and this was given, with $status: $(tr '\n' ' ' <"$out/one")"
        failed=$((failed + 1))
    fi
}

good_first="it has to be the serial, a semicolon, a date that exists, as in LX-204/17;2026-03-14, and an end of line"
good_angle="it has to be the degrees, a semicolon, the coefficient with a decimal comma, as in 45;1,05, and an end of line"
example_sheets >"$out/sheets-owed"
while read -r sheet code number graph answer; do
    refused="sheet: $sheets/$sheet is refused with code $code: line $number"
    case $code-$number in
    0-*)
        # with the serial of these sheets a graph has 125 bytes without an angle, and 72 more for each
        angles=$(((number - 125) / 72))
        sheet_says 0 "$((angles + 2)) nodes, $((angles + 1)) edges, $number bytes written to $made" "$sheets/$sheet" "$made"
        cmp -s "$sheets/$graph" "$made" || { say "$sheet: the graph is not $graph"; failed=$((failed + 1)); }
        told=$("${runner[@]}" "$out/check" "$made" "$sheets/schema.bin" | head -n 1) || true
        [ "$told" = "$answer" ] || { say "$sheet: check says of the graph $told, and $answer is owed"; failed=$((failed + 1)); }
        ;;
    51-1) sheet_says 2 "$refused is missing or bad: $good_first" "$sheets/$sheet" "$made" ;;
    52-182) sheet_says 2 "$refused is one too many: a sheet has up to 180 angles" "$sheets/$sheet" "$made" ;;
    52-*) sheet_says 2 "$refused is bad: $good_angle" "$sheets/$sheet" "$made" ;;
    *) die "$sheet is owed $code $number" ;;
    esac
done <"$out/sheets-owed"
# a file that is much longer than a sheet, and has no line's end
head -c 100000 /dev/zero >"$out/zeros"
sheet_says 2 "sheet: $out/zeros is refused with code 51: line 1 is missing or bad: $good_first" "$out/zeros" "$made"
sheet_says 3 "sheet: $out/absent: No such file or directory" "$out/absent" "$made"
sheet_says 3 "sheet: $sheets: Is a directory" "$sheets" "$made"
sheet_says 3 "sheet: $out/absent/file: No such file or directory" "$sheets/good.csv" "$out/absent/file"
sheet_says 3 "sheet: /dev/full: No space left on device" "$sheets/good.csv" /dev/full
sheet_says 3 "usage: sheet SHEET OUT"
sheet_says 3 "usage: sheet SHEET OUT" "$sheets/good.csv"
sheet_says 3 "usage: sheet SHEET OUT" "$sheets/good.csv" "$made" more
[ "$failed" -ne 0 ] || say "sheet makes the graphs of $(wc -l <"$out/sheets-owed") sheets, or says which line is bad"

# ---- the fourth example: two graphs joined

wrong() { say "$*"; failed=$((failed + 1)); }

"${cc[@]}" "${strict[@]}" -std=c99 -O2 outside/c/join.c outside/c/say.c "$library/libhavirozan.a" "${link[@]}" -o "$out/join"
joins=examples/join joined=$out/joined.graph

# join_says STATUS SAID WORDS: `join WORDS` ends with that status and says these lines alone, on standard output with 0 and else on standard error. Only with 0 there
# is a new file: with any other status an old one is as it was, and none is left where there was none. Nothing is left beside it.
join_says() {
    local owed_status=$1 owed=$2 status old to=$out/one quiet=$out/other
    shift 2
    [ "$owed_status" -eq 0 ] || to=$out/other quiet=$out/one
    for old in no yes; do
        rm -f "$joined"
        [ "$old" = no ] || cp "$joins/second.graph" "$joined"
        status=0
        "${runner[@]}" "$out/join" "$@" >"$out/one" 2>"$out/other" </dev/null || status=$?
        if [ "$(cat "$to")" != "$owed" ] || [ -s "$quiet" ] || [ "$status" -ne "$owed_status" ] || [ -e "$joined.joining" ]; then
            wrong "join $*: exit status $owed_status is owed, and this was given, with $status: $(cat "$out/one" "$out/other" | tr '\n' ' ')"
        fi
        [ "$status" -ne 0 ] || continue
        if [ "$old" = no ]; then
            [ ! -e "$joined" ] || wrong "join $*: a file is left"
        else
            cmp -s "$joins/second.graph" "$joined" || wrong "join $*: the old file is another one"
        fi
    done
}

# join_refused FIRST SECOND CODE NUMBER SAID
join_refused() {
    join_says 2 "join: $1 and $2: code $3, number $4: $5
join: nothing is written; if there is a file $joined, it is older" "$1" "$2" "$joined"
}

# the two graphs and code and number; then the joined graph, or none, and its violations with commas between
awk -F'|' 'NF == 7 && $2 ~ /^ `[^ ]+\.graph` $/ && $3 ~ /^ `[^ ]+\.graph` $/ { gsub(/[`:]/, ""); print $2 $3 $5 $6 }' examples/README.md >"$out/joins"
[ "$(wc -l <"$out/joins")" -gt 20 ] || die "examples/README.md has $(wc -l <"$out/joins") joins"
refused_mark="the graph file is refused: its last four bytes are not 47 50 48 31"
refused_edge="the graph file is refused: the row of edge 3 has a label, a run or an end that is not allowed"
refused_date="the graph file is refused: property row 1 is in no run, or its name, kind or value is not allowed"
while read -r first second code number graph list; do
    one=$joins/$first two=$joins/$second which=first
    [ "$number" != 1 ] || which=second
    case $code in
    0)
        # the trailer, with the numbers of nodes and of edges, are the last 28 bytes
        read -r nodes edges <<<"$(tail -c 28 "$one" | od -An -tu4 -N8)"
        join_says 0 "$number bytes written to $joined; the nodes from $nodes on and the edges from $edges on are those of $two" "$one" "$two" "$joined"
        cmp -s "$joins/$graph" "$joined" || wrong "$first, $second: the joined graph is not $graph"
        status=0 owed_status=1
        told=$("${runner[@]}" "$out/check" --all "$joined" $bench/schema.bin | awk 'NR % 2 && !/^violations/' | paste -sd, | sed 's/,/, /g') || status=$?
        [ "$list" != none ] || list="0 0 0 0 0" owed_status=0
        if [ "$told" != "$list" ] || [ "$status" -ne "$owed_status" ]; then
            wrong "$first, $second: check says of the joined graph $told, with status $status, and $list is owed"
        fi
        ;;
    3) join_refused "$one" "$two" "$code" "$number" "the $which: $refused_mark" ;;
    7) join_refused "$one" "$two" "$code" "$number" "the $which: $refused_edge" ;;
    8) join_refused "$one" "$two" "$code" "$number" "the $which: $refused_date" ;;
    44)
        nodes=$(($(tail -c 28 "$one" | od -An -tu4 -N4) + $(tail -c 28 "$two" | od -An -tu4 -N4)))
        join_refused "$one" "$two" "$code" "$number" "together they have $nodes nodes, and a graph has up to 1024"
        ;;
    *) die "$first and $second are owed $code $number" ;;
    esac
done <"$out/joins"

# the other refusals: each in the first and in the second, and the first before the second
G=$joins/first.graph
: >"$out/short"
for refused in "2 $out/short it has fewer than 28 bytes, or more than 1048576" "4 $data/too-many-nodes.graph a count in its trailer is above the ceiling" \
    "5 $data/back.graph its trailer's back is not the size of a body that is there" "6 $data/node-past.graph the row of node 3 has a label or a run that is not allowed"; do
    read -r code file why <<<"$refused"
    join_refused "$file" "$G" "$code" 0 "the first: the graph file is refused: $why"
    join_refused "$G" "$file" "$code" 1 "the second: the graph file is refused: $why"
    join_refused "$file" "$joins/mark.graph" "$code" 0 "the first: the graph file is refused: $why"
    join_refused "$joins/mark.graph" "$file" 3 0 "the first: $refused_mark"
done
# the counts that are too high one by one: 4,096 edges, 16,384 property rows of 64 nodes, 262,144 bytes of text, with what has one more
python3 - "$out" <<'END'
import struct, sys
def graph(name, nodes=0, edges=0, each=0, text=0):
    rows = nodes * each
    body = b"".join(struct.pack("<QII", 0, each * i, each) for i in range(nodes)) + struct.pack("<QIIII", 0, 0, 0, rows, 0) * edges
    body += b"".join(struct.pack("<HBBIQ", i % each, 1, 0, 0, 1) for i in range(rows)) + b"t" * text
    with open(f"{sys.argv[1]}/{name}.graph", "wb") as file:
        file.write(body + struct.pack("<IIIIHHI", nodes, edges, rows, text, 64, 256, len(body)) + b"GPH1")
graph("edges", nodes=1, edges=4096)
graph("rows", nodes=64, each=256)
graph("text", text=262144)
graph("edge", nodes=1, edges=1)
graph("row", nodes=1, each=1)
graph("byte", text=1)
graph("node", nodes=1)
END
for too_many in "edges edge 4097 edges, and a graph has up to 4096" "rows row 16385 property rows, and a graph has up to 16384" "text byte 262145 text bytes, and a graph has up to 262144"; do
    read -r most one why <<<"$too_many"
    join_refused "$out/$most.graph" "$out/$one.graph" 44 0 "together they have $why"
    join_refused "$out/$one.graph" "$out/$most.graph" 44 0 "together they have $why"
    join_says 0 "$(($(wc -c <"$out/$most.graph") + 16)) bytes written to $joined; the nodes from 1 on and the edges from 0 on are those of $out/$most.graph" \
        "$out/node.graph" "$out/$most.graph" "$joined"
done

# files that cannot be read or written, and wrong usage
join_says 3 "join: $out/absent: No such file or directory" "$out/absent" "$G" "$joined"
join_says 3 "join: $out/absent: No such file or directory" "$G" "$out/absent" "$joined"
join_says 3 "join: $joins: Is a directory" "$joins" "$G" "$joined"
join_says 3 "join: $joins: Is a directory" "$G" "$joins" "$joined"
join_says 3 "join: $joins: Is a directory" "$G" "$G" "$joins"
join_says 3 "join: $out/absent/file.joining: No such file or directory" "$G" "$G" "$out/absent/file"
join_says 3 "join: /dev/full: No space left on device" "$G" "$G" /dev/full
[ -c /dev/full ] || die "join made a file of /dev/full"
join_says 3 "usage: join FIRST SECOND OUT"
join_says 3 "usage: join FIRST SECOND OUT" "$G" "$G"
join_says 3 "usage: join FIRST SECOND OUT" "$G" "$G" "$joined" more
# a file that cannot grow to its length leaves the old one whole, and nothing beside it. The limit is in blocks of 1,024 bytes, and its signal is not what is tried.
cp "$joins/second.graph" "$joined"
status=0
(trap '' XFSZ && ulimit -f 16 && exec "${runner[@]}" "$out/join" "$joins/empty.graph" "$joins/full.graph" "$joined") >"$out/one" 2>&1 </dev/null || status=$?
if [ "$status" -ne 3 ] || ! cmp -s "$joins/second.graph" "$joined" || [ -e "$joined.joining" ] || [ "$(cat "$out/one")" != "join: $joined: File too large" ]; then
    wrong "join: a file that cannot be written as a whole gives $status: $(cat "$out/one")"
fi
# a file that stands beside it is not taken
: >"$joined.joining"
status=0
"${runner[@]}" "$out/join" "$G" "$G" "$joined" >"$out/one" 2>&1 </dev/null || status=$?
if [ "$status" -ne 3 ] || [ "$(cat "$out/one")" != "join: $joined.joining: File exists
join: if no other join is writing it now, one was broken off and left it: delete it, and join again" ] || [ -s "$joined.joining" ] || ! cmp -s "$joins/second.graph" "$joined"; then
    wrong "join: a file beside the output gives $status: $(cat "$out/one")"
fi
rm -f "$joined.joining"
# a write-protected file is not replaced. Who may write every file is tried without that right.
bound=()
[ "$(id -u)" -ne 0 ] || bound=(setpriv --bounding-set=-dac_override --inh-caps=-dac_override)
chmod 444 "$joined"
status=0
"${bound[@]}" "${runner[@]}" "$out/join" "$G" "$G" "$joined" >"$out/one" 2>&1 </dev/null || status=$?
if [ "${#bound[@]}" -gt 0 ] && ! "${bound[@]}" true 2>/dev/null; then
    say "that right cannot be given up here: join was not tried on a write-protected file"
elif [ "$status" -ne 3 ] || [ "$(cat "$out/one")" != "join: $joined: Permission denied" ] || [ -e "$joined.joining" ] || ! cmp -s "$joins/second.graph" "$joined"; then
    wrong "join: a write-protected file gives $status: $(cat "$out/one")"
fi
rm -f "$joined"
# the output's name is that of the first, of the second, of both
join_over() {
    local owed=$1 status=0
    shift
    "${runner[@]}" "$out/join" "$@" >"$out/one" 2>&1 </dev/null || status=$?
    if [ "$status" -ne 0 ] || ! cmp -s "$owed" "$joined"; then
        wrong "join $*: it gives $status: $(cat "$out/one")"
    fi
}
cp "$joins/first.graph" "$joined"
join_over "$joins/joined.graph" "$joined" "$joins/second.graph" "$joined"
cp "$joins/second.graph" "$joined"
join_over "$joins/joined.graph" "$joins/first.graph" "$joined" "$joined"
cp "$joins/first.graph" "$joined"
join_over "$joins/twice.graph" "$joined" "$joined" "$joined"
# it is a symbolic link, which stays one: the file behind it, here the first input, is whole, the old one or the new one; its other name keeps the old one
rm -f "$out/hard-link"
cp "$joins/full.graph" "$out/behind-link"
ln -sf behind-link "$out/link"
status=0
(trap '' XFSZ && ulimit -f 16 && exec "${runner[@]}" "$out/join" "$out/behind-link" "$joins/empty.graph" "$out/link") >"$out/one" 2>&1 </dev/null || status=$?
if [ "$status" -ne 3 ] || [ ! -L "$out/link" ] || ! cmp -s "$joins/full.graph" "$out/behind-link" || [ -e "$out/behind-link.joining" ] ||
    [ "$(cat "$out/one")" != "join: $(realpath "$out/behind-link"): File too large" ]; then
    wrong "join: a file behind a link that cannot be written as a whole gives $status: $(cat "$out/one")"
fi
cp "$joins/first.graph" "$out/behind-link"
ln "$out/behind-link" "$out/hard-link"
status=0
"${runner[@]}" "$out/join" "$out/behind-link" "$joins/second.graph" "$out/link" >"$out/one" 2>&1 </dev/null || status=$?
if [ "$status" -ne 0 ] || [ ! -L "$out/link" ] || ! cmp -s "$joins/joined.graph" "$out/behind-link" || ! cmp -s "$joins/first.graph" "$out/hard-link"; then
    wrong "join: a link is not written where it points, with $status: $(cat "$out/one")"
fi
# it is a link to nothing, which stays that
rm -f "$out/behind-link"
status=0
"${runner[@]}" "$out/join" "$G" "$G" "$out/link" >"$out/one" 2>&1 </dev/null || status=$?
if [ "$status" -ne 3 ] || [ -e "$out/behind-link" ] || [ "$(cat "$out/one")" != "join: $out/link: No such file or directory" ]; then
    wrong "join: a link to nothing gives $status: $(cat "$out/one")"
fi
# it is standard output or standard error, a file or a pipe: the graph's bytes alone come there, and the sentence by the other one, or not at all where both are one
sentence="612 bytes written to /dev/std the nodes from 4 on and the edges from 3 on are those of $joins/second.graph"
# join_streams NAME: what came to $out/streamed is the joined graph, and to $out/told the sentence
join_streams() {
    cmp -s "$joins/joined.graph" "$out/streamed" || wrong "join: $1 gets another file"
    [ "$(sed 's/std[a-z]*;/std/' "$out/told")" = "$sentence" ] || wrong "join: $1 is told: $(cat "$out/told")"
}
to=("${runner[@]}" "$out/join" "$G" "$joins/second.graph")
"${to[@]}" /dev/stdout >"$out/streamed" 2>"$out/told" </dev/null || wrong "join: /dev/stdout into a file gives $?"
join_streams "/dev/stdout into a file"
"${to[@]}" /dev/stdout 2>"$out/told" </dev/null | cat >"$out/streamed" || wrong "join: /dev/stdout into a pipe gives $?"
join_streams "/dev/stdout into a pipe"
"${to[@]}" /dev/stderr 2>"$out/streamed" >"$out/told" </dev/null || wrong "join: /dev/stderr into a file gives $?"
join_streams "/dev/stderr into a file"
{ "${to[@]}" /dev/stderr 2>&1 >"$out/told" </dev/null || echo "status $?"; } | cat >"$out/streamed"
join_streams "/dev/stderr into a pipe"
for both in /dev/stdout /dev/stderr; do
    "${to[@]}" "$both" >"$out/streamed" 2>&1 </dev/null || wrong "join: $both with both into a file gives $?"
    cmp -s "$joins/joined.graph" "$out/streamed" || wrong "join: $both, both into a file, gets another file"
    { "${to[@]}" "$both" 2>&1 </dev/null || echo "status $?"; } | cmp -s - "$joins/joined.graph" || wrong "join: $both, both into a pipe, gets another file"
done
[ "$failed" -ne 0 ] || say "join makes one graph of $(wc -l <"$out/joins") pairs, or says which is bad or what is too many, and leaves an old file as it was unless there is a new one"

# ---- the one command of README.md

HAVIROZAN_ARCHIVE=$archive bash outside/c/answer.sh

# ---- the library installed, by what its .pc file says, which needs no pkg-config

# the flags of a .pc file: its lines are NAME=VALUE or KEYWORD: VALUE, and ${NAME} in a value is that of an earlier line
flags_of() {
    awk '
        function value(text,    name) {
            for (name in given) while ((at = index(text, "${" name "}")) > 0)
                text = substr(text, 1, at - 1) given[name] substr(text, at + length(name) + 3)
            return text
        }
        match($0, /^[a-z_]+=/) { given[substr($0, 1, RLENGTH - 1)] = value(substr($0, RLENGTH + 1)) }
        match($0, /^(Cflags|Libs): /) { print value(substr($0, RLENGTH + 1)) }
    ' "$1"
}

HAVIROZAN_ARCHIVE=$archive bash outside/c/install.sh "$out/prefix" >"$out/install.log" || die "outside/c/install.sh failed"
HAVIROZAN_ARCHIVE=$archive DESTDIR=$out/staged bash outside/c/install.sh /usr >>"$out/install.log" || die "outside/c/install.sh failed with DESTDIR"
[ "$(cd "$out/prefix" && find . ! -type d | sort | tr '\n' ' ')" = "$(cd "$out/staged/usr" && find . ! -type d | sort | tr '\n' ' ')" ] ||
    die "DESTDIR gets other files than a folder alone"
grep -qx prefix=/usr "$out/staged/usr/lib/pkgconfig/havirozan.pc" || die "with DESTDIR the .pc file does not say /usr"
grep -qx "Version: $version" "$out/prefix/lib/pkgconfig/havirozan.pc" || die "the .pc file has another version than the header, $version"

read -ra flags <<<"$(flags_of "$out/prefix/lib/pkgconfig/havirozan.pc" | tr '\n' ' ')"
[ "${flags[*]}" = "-I$out/prefix/include -L$out/prefix/lib -lhavirozan" ] || die "the .pc file says: ${flags[*]}"
if command -v pkg-config >/dev/null; then
    read -ra told <<<"$(PKG_CONFIG_PATH=$out/prefix/lib/pkgconfig pkg-config --cflags --libs havirozan)"
    [ "${told[*]}" = "${flags[*]}" ] || die "pkg-config says: ${told[*]}"
fi

# by the .pc file's words the shared library is taken; named as a file, the archive is
for source in outside/c/check.c outside/c/patch.c outside/c/sheet.c outside/c/join.c outside/c/conforms.c outside/c/faults.c; do
    name=$(basename "$source" .c) with=()
    case $name in check | sheet | join) with=(outside/c/say.c) ;; esac
    build=("${cc[@]}" -Wall -Wextra -Werror -pedantic -std=c99 -O2 "$source" "${with[@]}")
    "${build[@]}" "${flags[@]}" -o "$out/shared-$name"
    "${build[@]}" "${flags[@]/#-lhavirozan/-l:libhavirozan.a}" "${link[@]}" -o "$out/installed-$name"
done
# installed NAME WORDS..: the example as it was linked with what is installed, both ways, which have to say the same
installed() {
    local name=$1
    shift
    "${runner[@]}" "$out/installed-$name" "$@" >"$out/one" || true
    shared "$out/prefix/lib" "$out/shared-$name" "$@" >"$out/other" || true
    cmp -s "$out/one" "$out/other" || die "$name says another thing with the shared library: $(cat "$out/other")"
    cat "$out/one"
}
[ "$(installed check "$data/P10.graph" "$data/S.schema" | head -n 1)" = "32 1 0 2 0" ] || die "the installed library gives P10 another answer"
[ "$(installed conforms "$data/G.graph" "$data/S.schema")" = "code 0, place 0" ] || die "conforms does not print of the bench graph: code 0, place 0"
for words in "" "$data/P4.graph $data/S.schema" "$data/G.graph $out/absent" "$data/G.graph" "$data/G.graph $data/S.schema more"; do
    # shellcheck disable=SC2086
    ! "${runner[@]}" "$out/installed-conforms" $words >"$out/one" || die "conforms $words ends with 0"
    # shellcheck disable=SC2086
    ! "${runner[@]}" "$out/installed-faults" $words >"$out/one" || die "faults $words ends with 0"
done
"${runner[@]}" "$out/installed-faults" "$data/G.graph" "$data/S.schema" >"$out/one" || die "faults ends with another status than 0 for the bench graph"
[ "$(cat "$out/one")" = "violations: 0" ] || die "faults does not print of the bench graph: violations: 0"
[ "$(installed faults "$data/P9.graph" "$data/S.schema")" = $'31 1 1 1 0\n33 3 1 0 0\nviolations: 2' ] || die "faults gives P9 another list"
[ "$(installed faults "$data/mark.graph" "$data/S.schema")" = "refused with code 3, place 0" ] || die "faults does not say that mark.graph is refused"
# 256 nodes without a label, of which the empty schema knows none: more than it has room for, and a number whose low byte is 0
{ head -c 4096 /dev/zero && printf '\0\1\0\0' && head -c 16 /dev/zero && printf '\0\20\0\0GPH1'; } >"$out/256.graph"
! "${runner[@]}" "$out/installed-faults" "$out/256.graph" "$data/full.schema" >"$out/one" || die "faults ends with 0 for 256 violations"
{ seq -f '21 %.0f 0 0 0' 0 99 && echo "violations: 256"; } | cmp -s - "$out/one" || die "faults does not list the first 100 of 256 violations"
rm -f "$patched" "$made" "$joined"
installed patch $bench/G.graph 3 4 1.05 "$patched" >/dev/null
cmp -s $bench/G.graph "$patched" || die "the installed library writes another file"
installed sheet "$sheets/good.csv" "$made" >/dev/null
cmp -s "$sheets/good.graph" "$made" || die "the installed library makes another graph of a sheet"
installed join "$G" "$joins/second.graph" "$joined" >/dev/null
cmp -s "$joins/joined.graph" "$joined" || die "the installed library joins two graphs to another one"
say "installed, it is found by its .pc file, and conforms and faults end with 0 for a graph that conforms alone"

say "$pairs pairs, $failed failed"
[ "$failed" -eq 0 ]
