#!/usr/bin/env bash
# The one command, ./answer: each exit status and each sentence that it adds to those of the codes; files that come by a pipe; --all; a
# program that is broken; and the set-up, in a copy of the repository with an `rt` that only says that it proves. Part of
# outside/c/run.sh.
#
#     HAVIROZAN_ARCHIVE=FILE bash outside/c/answer.sh
set -euo pipefail
CDPATH='' cd "$(dirname "$0")/../.."
# outside the repository, since rt refuses links there, and files .rt that no check reads
part=answer.sh out=$(mktemp -d)
trap 'rm -rf "$out"' EXIT
# shellcheck source=outside/tools.sh
. outside/tools.sh
archive_ready
HAVIROZAN_ARCHIVE=$(realpath -e -- "$archive")
export HAVIROZAN_ARCHIVE
root=$PWD out=$(realpath -e -- "$out") bench=examples/bench
# a program that crashes here is meant to
ulimit -c 0

tried=0 failed=0 command=./answer
# owes STATUS OUT ERR WORDS..: `./answer WORDS` ends with that status, prints OUT, and has a line ERR on standard error, or nothing
# where ERR is empty
owes() {
    local owed_status=$1 owed_out=$2 owed_err=$3 status=0 good=yes
    shift 3
    "$command" "$@" >"$out/stdout" 2>"$out/told" || status=$?
    [ "$status" -eq "$owed_status" ] && [ "$(cat "$out/stdout")" = "$owed_out" ] || good=''
    # said at each call here, and looked for below
    grep -vxF -- "answer: ${HAVIROZAN_ARCHIVE:-} is taken as it is, and nothing is proved" "$out/told" >"$out/stderr" || true
    if [ -n "$owed_err" ]; then
        grep -qxF -- "$owed_err" "$out/stderr" || good=''
    else
        [ ! -s "$out/stderr" ] || good=''
    fi
    tried=$((tried + 1))
    [ -z "$good" ] || return 0
    failed=$((failed + 1))
    say "./answer $*: exit status $owed_status and '$owed_out' are owed, with '$owed_err', and this was given, with $status:"
    sed 's/^/    /' "$out/stdout" "$out/stderr"
}

# ---- the statuses and the sentences

good=$'0 0 0 0 0\nthe graph conforms to the schema'
bad=$'22 3 2 1 4\nnode 3 fits no schema node: it lacks mandatory property 4 of schema node 2, the lowest with its label set'
usage='usage: ./answer [--all] GRAPH SCHEMA'
# the first call builds the program, and nothing is to be said of it
owes 0 "$good" '' $bench/G.graph $bench/schema.bin </dev/null
owes 1 "$bad" '' "$data/P4.graph" "$data/S.schema" </dev/null
owes 2 $'3 0 0 0 0\nthe graph file is refused: its last four bytes are not 47 50 48 31' '' "$data/mark.graph" "$data/S.schema" </dev/null

# who takes another archive is told so, each time
grep -qxF "answer: $HAVIROZAN_ARCHIVE is taken as it is, and nothing is proved" "$out/told" || { say "it is not said that an archive is taken as it is"; failed=$((failed + 1)); }

# files that are not there, or cannot be read
owes 2 $'2 0 0 0 0\nthe graph file is refused: there is no such file: absent' '' absent $bench/schema.bin </dev/null
owes 2 $'2 0 0 0 0\nthe graph file is refused: there is no such file: absent' '' absent nowhere </dev/null
owes 2 $'9 0 0 0 0\nthe schema file is refused: there is no such file: nowhere' '' $bench/G.graph nowhere </dev/null
owes 3 '' "check: $data: Is a directory" "$data" "$data/S.schema" </dev/null
owes 3 '' "check: $data: Is a directory" "$data/G.graph" "$data" </dev/null
owes 3 '' "check: answer/G.graph: Not a directory" answer/G.graph $bench/schema.bin </dev/null
if [ "$(id -u)" -ne 0 ]; then
    # root reads every file
    cp $bench/G.graph "$out/closed.graph"
    chmod 000 "$out/closed.graph"
    owes 3 '' "check: $out/closed.graph: Permission denied" "$out/closed.graph" $bench/schema.bin </dev/null
fi

# names that are no paths: a pipe has no other name, and is read once
owes 0 "$good" '' <(cat $bench/G.graph) $bench/schema.bin </dev/null
owes 0 "$good" '' <(cat $bench/G.graph) <(cat $bench/schema.bin) </dev/null
owes 1 "$bad" '' <(cat "$data/P4.graph") "$data/S.schema" </dev/null
owes 0 "$good" '' - $bench/schema.bin <$bench/G.graph
owes 0 "$good" '' $bench/G.graph - <$bench/schema.bin
owes 1 "$bad" '' - "$data/S.schema" < <(cat "$data/P4.graph")
owes 2 $'2 0 0 0 0\nthe graph file is refused: it has fewer than 28 bytes, or more than 1048576' '' - "$data/S.schema" </dev/null
owes 3 '' "check: -: Is a directory" - "$data/S.schema" <"$data"

# a closed standard input is an empty one, and no answer of its own is read
owes 2 $'2 0 0 0 0\nthe graph file is refused: it has fewer than 28 bytes, or more than 1048576' '' - "$data/S.schema" <&-

# another shell has no answer
if command -v dash >/dev/null; then
    status=0
    dash ./answer $bench/G.graph $bench/schema.bin >"$out/stdout" 2>&1 </dev/null || status=$?
    [ "$status" -eq 4 ] || { say "dash ./answer: exit status 4 is owed, and $status was given"; failed=$((failed + 1)); }
fi

# wrong usage
owes 3 '' "$usage" </dev/null
owes 3 '' "$usage" $bench/G.graph </dev/null
owes 3 '' "$usage" $bench/G.graph $bench/schema.bin more </dev/null
owes 3 '' "$usage" - - <$bench/G.graph
owes 3 '' "$usage" --sheet - - <$bench/G.graph
owes 3 '' "$usage" --sheets $bench/schema.bin </dev/null
owes 3 '' "$usage" --sheet "$sheets/good.csv" </dev/null
owes 3 '' "$usage" --sheet "$sheets/good.csv" "$sheets/schema.bin" more </dev/null
owes 3 '' "$usage" --help more </dev/null

# the working folder and the names are the caller's, also where the command is a link
mkdir -p "$out/elsewhere"
ln -sf "$root/answer" "$out/elsewhere/link"
cp $bench/G.graph "$out/elsewhere/a graph"
cd "$out/elsewhere"
command=./link
owes 0 "$good" '' 'a graph' "$root/$bench/schema.bin" </dev/null
owes 2 $'2 0 0 0 0\nthe graph file is refused: there is no such file: G.graph' '' G.graph "$root/$bench/schema.bin" </dev/null
cd "$root"
command=./answer

# an answer that cannot be written is none
status=0
./answer $bench/G.graph $bench/schema.bin >/dev/full 2>"$out/stderr" </dev/null || status=$?
[ "$status" -eq 4 ] || { say "an answer that cannot be written: exit status 4 is owed, and $status was given"; failed=$((failed + 1)); }

# ---- angle sheets

# looks SHEET NUMBERS: handed in as a graph, the sheet is refused with these numbers and seen to be a sheet
looks() {
    owes 2 "$2"$'\n'"the graph file is refused: this looks like an angle sheet: make a graph of it first with --sheet, as in --sheet $1 $sheets/schema.bin" '' \
        "$1" "$sheets/schema.bin" </dev/null
}
for sheet in good crlf comma heading day-first two 181; do
    looks "$sheets/$sheet.csv" "3 0 0 0 0"
done
looks "$sheets/no-angle.csv" "2 0 0 0 0"
printf -- '-45;1' >"$out/angle.csv"
looks "$out/angle.csv" "2 0 0 0 0"
# what is no sheet is not said to be one: another text, nothing, bytes that are no text
printf 'serial;date\nLX-204/17;14 March 2026\n' >"$out/other.csv"
owes 2 $'3 0 0 0 0\nthe graph file is refused: its last four bytes are not 47 50 48 31' '' "$out/other.csv" "$sheets/schema.bin" </dev/null
owes 2 $'2 0 0 0 0\nthe graph file is refused: it has fewer than 28 bytes, or more than 1048576' '' "$sheets/empty.csv" "$sheets/schema.bin" </dev/null
printf 'a\0;2026-03-14\n45;1,05 and some more\n' >"$out/zero.csv"
owes 2 $'3 0 0 0 0\nthe graph file is refused: its last four bytes are not 47 50 48 31' '' "$out/zero.csv" "$sheets/schema.bin" </dev/null
# a graph that has a sheet as its preface is a graph
cat "$sheets/good.csv" "$sheets/good.graph" >"$out/both.graph"
owes 0 "$good" '' "$out/both.graph" "$sheets/schema.bin" </dev/null

good_first="it has to be the serial, a semicolon, a date that exists, as in LX-204/17;2026-03-14, and an end of line"
good_angle="it has to be the degrees, a semicolon, the coefficient with a decimal comma, as in 45;1,05, and an end of line"
example_sheets >"$out/sheets-owed"
while read -r sheet code number _ answer; do
    case $code-$number in
    0-*)
        case $answer in
        "0 0 0 0 0") owes 0 "$good" '' --sheet "$sheets/$sheet" "$sheets/schema.bin" </dev/null ;;
        "31 1 1 "*)
            angles=${answer#31 1 1 }
            owes 1 "$answer"$'\n'"node 1 has too few outgoing edges of schema edge 1: ${angles% 0}, below the target minimum" '' \
                --sheet "$sheets/$sheet" "$sheets/schema.bin" </dev/null
            ;;
        *) die "$sheet is owed $answer" ;;
        esac
        continue
        ;;
    51-1) sentence="line 1 is missing or bad: $good_first" ;;
    52-182) sentence="line 182 is one too many: a sheet has up to 180 angles" ;;
    52-*) sentence="line $number is bad: $good_angle" ;;
    *) die "$sheet is owed $code $number" ;;
    esac
    owes 2 "$code $number"$'\n'"the sheet is refused: $sentence" '' --sheet "$sheets/$sheet" "$sheets/schema.bin" </dev/null
done <"$out/sheets-owed"
owes 0 "$good" '' --sheet - "$sheets/schema.bin" <"$sheets/good.csv"
owes 0 "$good" '' --sheet <(cat "$sheets/good.csv") "$sheets/schema.bin" </dev/null
owes 2 $'51 1\nthe sheet is refused: there is no such file: absent' '' --sheet absent "$sheets/schema.bin" </dev/null
owes 2 $'9 0 0 0 0\nthe schema file is refused: there is no such file: nowhere' '' --sheet "$sheets/good.csv" nowhere </dev/null
owes 3 '' "check: $sheets: Is a directory" --sheet "$sheets" "$sheets/schema.bin" </dev/null
# a graph is no sheet
owes 2 $'51 1\nthe sheet is refused: line 1 is missing or bad: '"$good_first" '' --sheet "$sheets/good.graph" "$sheets/schema.bin" </dev/null

# ---- --all: the same first lines and the same status, then the other violations, and how many there are

all_good=$good$'\nviolations: 0'
all_bad=$bad'
25 2 1 2 0
edge 2 fits no schema edge with its ends: its target does not fit the target of schema edge 1, the lowest that it fits
31 1 1 1 0
node 1 has too few outgoing edges of schema edge 1: 1, below the target minimum
violations: 3'
owes 0 "$all_good" '' --all $bench/G.graph $bench/schema.bin </dev/null
owes 1 "$all_bad" '' --all "$data/P4.graph" "$data/S.schema" </dev/null
owes 1 $'33 4 1 0 0\nnode 4 has too few incoming edges of schema edge 1: 0, below the source minimum\nviolations: 1' '' \
    --all "$data/P11.graph" "$data/S.schema" </dev/null
# where a file is refused nothing was counted, and no count is told
owes 2 $'3 0 0 0 0\nthe graph file is refused: its last four bytes are not 47 50 48 31' '' --all "$data/mark.graph" "$data/S.schema" </dev/null
owes 2 $'2 0 0 0 0\nthe graph file is refused: there is no such file: absent' '' --all absent $bench/schema.bin </dev/null
owes 2 $'9 0 0 0 0\nthe schema file is refused: there is no such file: nowhere' '' --all "$data/P4.graph" nowhere </dev/null
owes 2 $'10 0 0 0 0\nthe schema file is refused: its last four bytes are not 53 43 48 31' '' --all $bench/G.graph "$data/schema-mark.schema" </dev/null
owes 2 $'3 0 0 0 0\n'"the graph file is refused: this looks like an angle sheet: make a graph of it first with --sheet, as in --sheet $sheets/good.csv $sheets/schema.bin" '' \
    --all "$sheets/good.csv" "$sheets/schema.bin" </dev/null
owes 3 '' "check: $data: Is a directory" --all "$data" "$data/S.schema" </dev/null
# pipes and standard input
owes 0 "$all_good" '' --all <(cat $bench/G.graph) <(cat $bench/schema.bin) </dev/null
owes 1 "$all_bad" '' --all - "$data/S.schema" <"$data/P4.graph"
owes 1 "$all_bad" '' --all "$data/P4.graph" - <"$data/S.schema"
owes 2 $'2 0 0 0 0\nthe graph file is refused: it has fewer than 28 bytes, or more than 1048576' '' --all - "$data/S.schema" <&-
# angle sheets, the two options in either order
for words in "--all --sheet" "--sheet --all"; do
    read -ra words <<<"$words"
    owes 0 "$all_good" '' "${words[@]}" "$sheets/good.csv" "$sheets/schema.bin" </dev/null
    owes 0 "$all_good" '' "${words[@]}" - "$sheets/schema.bin" <"$sheets/good.csv"
    owes 1 $'31 1 1 89 0\nnode 1 has too few outgoing edges of schema edge 1: 89, below the target minimum\nviolations: 1' '' \
        "${words[@]}" "$sheets/89.csv" "$sheets/schema.bin" </dev/null
    owes 2 $'52 62\nthe sheet is refused: line 62 is bad: '"$good_angle" '' "${words[@]}" "$sheets/comma.csv" "$sheets/schema.bin" </dev/null
    owes 2 $'51 1\nthe sheet is refused: there is no such file: absent' '' "${words[@]}" absent "$sheets/schema.bin" </dev/null
    owes 3 '' "$usage" "${words[@]}" "$sheets/good.csv" </dev/null
    owes 3 '' "$usage" "${words[@]}" - - <"$sheets/good.csv"
done
# wrong usage: an option twice, behind a file, or misspelt
owes 3 '' "$usage" --all </dev/null
owes 3 '' "$usage" --all $bench/G.graph </dev/null
owes 3 '' "$usage" --all $bench/G.graph $bench/schema.bin more </dev/null
owes 3 '' "$usage" --all --all $bench/G.graph $bench/schema.bin </dev/null
owes 3 '' "$usage" --all --sheet --all $bench/G.graph $bench/schema.bin </dev/null
owes 3 '' "$usage" $bench/G.graph $bench/schema.bin --all </dev/null
owes 3 '' "$usage" $bench/G.graph --all $bench/schema.bin </dev/null
owes 3 '' "$usage" -all $bench/G.graph $bench/schema.bin </dev/null
owes 3 '' "$usage" --all=yes $bench/G.graph $bench/schema.bin </dev/null
owes 3 '' "$usage" --all - - <$bench/G.graph
owes 3 '' "$usage" --all --help </dev/null

# a long list: 1,024 nodes without a label, of which the empty schema knows none
{ head -c 16384 /dev/zero && printf '\0\4\0\0' && head -c 16 /dev/zero && printf '\0\100\0\0GPH1'; } >"$out/1024.graph"
long=$(for ((i = 0; i < 1024; i++)); do printf '21 %s 0 0 0\nnode %s fits no schema node: none has its label set\n' "$i" "$i"; done && echo "violations: 1024")
owes 1 "$long" '' --all "$out/1024.graph" "$data/full.schema" </dev/null
# a list that cannot be written, or that nobody reads to its end, is no yes
status=0
./answer --all "$out/1024.graph" "$data/full.schema" >/dev/full 2>"$out/stderr" </dev/null || status=$?
[ "$status" -eq 4 ] || { say "a list that cannot be written: exit status 4 is owed, and $status was given"; failed=$((failed + 1)); }
! ./answer --all "$out/1024.graph" "$data/full.schema" 2>/dev/null </dev/null | head -n 1 >"$out/stdout" || { say "a list that is cut off ends with 0"; failed=$((failed + 1)); }
[ "$(cat "$out/stdout")" = "21 0 0 0 0" ] || { say "a list that is cut off starts with $(cat "$out/stdout")"; failed=$((failed + 1)); }

# ---- --help and --version

version=$(header_version)
owes 0 "havirozan $version" '' --version </dev/null
./answer --help >"$out/help" || die "./answer --help failed"
owes 0 "$(cat "$out/help")" '' --help </dev/null
for word in "$usage" --all --sheet --version "  4  there is no answer"; do
    grep -qF -- "$word" "$out/help" || { say "./answer --help does not say: $word"; failed=$((failed + 1)); }
done

# ---- a program that is broken: linked with functions that are not the proved ones

# broken NAME CODE: an archive whose check does what CODE says
broken() {
    printf '%s\n' '#include <unistd.h>' "unsigned int check(void) { $2 }" 'void check_all(void) {}' 'void write_graph(void) {}' 'void find_tables(void) {}' 'void read_sheet(void) {}' 'void join_graphs(void) {}' |
        "${cc[@]}" -O0 -fPIC -w -x c -c - -o "$out/$1.o"
    "${tool}ar" rcs "$out/$1.a" "$out/$1.o"
}
no_answer="answer: there is no answer"
broken crash '*(volatile int *)0 = 0;'
broken violation '_exit(1);'
broken silent '_exit(0);'
for name in crash violation silent; do
    HAVIROZAN_ARCHIVE=$out/$name.a owes 4 '' "$no_answer" $bench/G.graph $bench/schema.bin </dev/null
done
grep -q '^answer: the program is broken' "$out/stderr" || { say "a broken program is not said to be one"; failed=$((failed + 1)); }
# an archive without one of the functions
printf 'unsigned int check(void) { return 0; }\n' | "${cc[@]}" -x c -c - -o "$out/less.o"
"${tool}ar" rcs "$out/less.a" "$out/less.o"
HAVIROZAN_ARCHIVE=$out/less.a owes 4 '' "$no_answer" $bench/G.graph $bench/schema.bin </dev/null
HAVIROZAN_ARCHIVE=$out/absent.a owes 4 '' "$no_answer" $bench/G.graph $bench/schema.bin </dev/null
owes 0 "$good" '' $bench/G.graph $bench/schema.bin </dev/null

# lies NAME CODE: an archive whose check is the proved one, and whose check_all does what CODE says
lies() {
    "${tool}ar" p "$HAVIROZAN_ARCHIVE" >"$out/real.o"
    "${tool}objcopy" --redefine-sym check_all=proved_check_all "$out/real.o"
    printf '%s\n' '#define HAVIROZAN_BARE_NAMES' '#include <unistd.h>' '#include "havirozan.h"' \
        'havirozan_listed proved_check_all(const unsigned char *, size_t, const unsigned char *, size_t, havirozan_finding *, size_t);' \
        'havirozan_listed check_all(const unsigned char *g, size_t n, const unsigned char *s, size_t m, havirozan_finding *list, size_t room)' \
        "{ havirozan_listed all = proved_check_all(g, n, s, m, list, room); $2 return all; }" |
        "${cc[@]}" -Iinclude -O0 -fPIC -w -x c -c - -o "$out/$1.o"
    rm -f "$out/$1.a"
    "${tool}ar" rcs "$out/$1.a" "$out/$1.o" "$out/real.o"
}
# says_no NAME WORDS..: by that archive there is no answer with --all
says_no() {
    local archive=$out/$1.a
    shift
    HAVIROZAN_ARCHIVE=$archive owes 4 '' "$no_answer" --all "$@" </dev/null
}
lies honest ''
HAVIROZAN_ARCHIVE=$out/honest.a owes 1 "$all_bad" '' --all "$data/P4.graph" "$data/S.schema" </dev/null
# no refusal, no violation: what stands in zeros that nobody wrote
lies zeros 'all.refusal = all.place = all.total = 0;'
says_no zeros "$data/P4.graph" "$data/S.schema"
says_no zeros "$data/mark.graph" "$data/S.schema"
HAVIROZAN_ARCHIVE=$out/zeros.a owes 1 "$bad" '' "$data/P4.graph" "$data/S.schema" </dev/null
lies nothing '_exit(0);'
says_no nothing $bench/G.graph $bench/schema.bin
lies crashes '*(volatile int *)0 = 0;'
says_no crashes $bench/G.graph $bench/schema.bin
lies first 'list[0].property++;'
says_no first "$data/P4.graph" "$data/S.schema"
lies more 'all.total++;'
says_no more $bench/G.graph $bench/schema.bin
says_no more "$data/mark.graph" "$data/S.schema"
lies code 'all.refusal = list[0].code;'
says_no code "$data/P4.graph" "$data/S.schema"
lies endless 'all.total = 4294967295U;'
says_no endless "$data/P4.graph" "$data/S.schema"

# ---- the set-up, in a copy, with an rt that proves nothing: it gives the archive, and writes down that it was called

real=$HAVIROZAN_ARCHIVE copy=$out/copy calls=$out/calls
unset HAVIROZAN_ARCHIVE
mkdir "$copy" "$out/bin"
tar -c --exclude='crates/*/out' answer crates.txt include outside crates | tar -x -C "$copy"
cat >"$out/bin/rt" <<END
#!/bin/sh
case \$1 in
version) cat "$out/kit" ;;
lib)
    echo "\$*" >>"$calls"
    echo "rt: chose --jobs 2 for little"
    [ ! -e "$out/fails" ] || { echo "logic=not-proved"; exit 1; }
    echo "rt: layout: begins with what a check kept elsewhere"
    echo "rt: chose --jobs 1 for layout"
    # it is called in the crate's folder, and its archive is not what a caller takes
    mkdir -p out && cp "$real" out/libhavirozan.a && cd ../.. && [ "\$PWD" = "$copy" ]
    ;;
*) exit 2 ;;
esac
END
chmod +x "$out/bin/rt"
echo "kit 1" >"$out/kit"
: >"$calls"
with_rt=$out/bin:$PATH command=$copy/answer

# calls_are NUMBER WHAT: so often was rt called up to now
calls_are() {
    [ "$(wc -l <"$calls")" -eq "$1" ] || { say "$2: rt is to be called $1 times up to here, and was $(wc -l <"$calls")"; failed=$((failed + 1)); }
}
# answers NUMBER WHAT: the good answer comes, and rt was called so often
answers() {
    local said=''
    [ "$(wc -l <"$calls")" -eq "$1" ] || said="answer: the library is proved and built now, which takes some minutes"
    PATH=$with_rt owes 0 "$good" "$said" $bench/G.graph $bench/schema.bin </dev/null
    calls_are "$1" "$2"
}

answers 1 "no library is there"
for line in 'proving crate 1 of [0-9]*: little' 'proving crate 3 of [0-9]*: layout'; do
    grep -qx "answer: $line" "$out/stderr" || { say "while it proves it does not say: $line"; failed=$((failed + 1)); }
done
answers 1 "nothing was edited"
touch "$copy/crates/little/src/lib.rt" "$copy/target/staticlib/libhavirozan.a"
echo >>"$copy/crates/cases/args"
echo >>"$copy/outside/c/version.c"
answers 1 "no source of the library was edited"

number=1
for file in crates/little/src/lib.rt crates/meaning/specs/new.antt crates/little/proofs/.hidden crates.txt; do
    echo >>"$copy/$file"
    number=$((number + 1))
    answers "$number" "$file was edited"
done
rm "$copy/crates/meaning/specs/new.antt"
answers 6 "a source was taken away"
echo "kit 2" >"$out/kit"
answers 7 "the kit is another"
answers 7 "the kit is the same"
# made by hand of other sources: the archive is another, and the stamp is not
"${tool}ar" rcs "$copy/target/staticlib/libhavirozan.a" "$out/silent.o"
answers 8 "the archive is another"
rm "$copy/target/staticlib/havirozan.stamp"
answers 9 "the stamp is gone"

# a proof that fails: the old library, which is still there, gives no answer
echo >>"$copy/crates/little/src/lib.rt"
: >"$out/fails"
PATH=$with_rt owes 4 '' "$no_answer" $bench/G.graph $bench/schema.bin </dev/null
grep -qx 'answer: rt lib failed in crates/havirozan' "$out/stderr" || { say "a proof that fails is not said to"; failed=$((failed + 1)); }
PATH=$with_rt owes 4 '' "$no_answer" $bench/G.graph $bench/schema.bin </dev/null
calls_are 11 "the proof fails"
rm "$out/fails"
answers 12 "the proof is good again"

# install.sh goes the same way
echo >>"$copy/crates/little/src/lib.rt"
PATH=$with_rt bash "$copy/outside/c/install.sh" "$out/prefix" >"$out/stdout" 2>"$out/stderr" || die "install.sh failed: $(cat "$out/stderr")"
calls_are 13 "install.sh, and a source was edited"
PATH=$with_rt bash "$copy/outside/c/install.sh" "$out/prefix" >"$out/stdout" 2>"$out/stderr" || die "install.sh failed: $(cat "$out/stderr")"
calls_are 13 "install.sh, and nothing was edited"

# path_without NAME..: a folder with links to all commands but these
path_without() {
    local folder folders name to
    to=$(mktemp -d "$out/path.XXXXXX")
    IFS=: read -ra folders <<<"$PATH"
    for folder in "${folders[@]}"; do
        # a name that is there already is the one that is found first
        ln -s "$folder"/* "$to" 2>/dev/null || true
    done
    for name in "$@"; do
        rm -f "${to:?}/$name"
    done
    printf '%s\n' "$to"
}
no_rt=$(path_without rt)
no_compiler=$(path_without gcc x86_64-linux-gnu-gcc apt-get)

PATH=$no_rt owes 0 "$good" '' $bench/G.graph $bench/schema.bin </dev/null
echo >>"$copy/crates/little/src/lib.rt"
PATH=$no_rt owes 4 '' "$no_answer" $bench/G.graph $bench/schema.bin </dev/null
rm -r "$copy/target"
PATH=$no_rt owes 4 '' "answer: rt, the command of the Rattle kit, is not there: the library cannot be proved and built" $bench/G.graph $bench/schema.bin </dev/null
PATH=$out/bin:$no_compiler owes 4 '' "$no_answer" $bench/G.graph $bench/schema.bin </dev/null
calls_are 13 "there is no rt, or no compiler"
# the library is there, and the program is still to be compiled
answers 14 "all is there again"
rm -r "$copy/target/answer"
PATH=$out/bin:$no_compiler owes 4 '' "$no_answer" $bench/G.graph $bench/schema.bin </dev/null
PATH=$no_rt owes 0 "$good" '' $bench/G.graph $bench/schema.bin </dev/null

# a folder that cannot be written, also by root: there is a file with its name
for folder in target target/staticlib target/answer; do
    rm -rf "$copy/target"
    mkdir -p "$(dirname "$copy/$folder")"
    : >"$copy/$folder"
    PATH=$with_rt owes 4 '' "$no_answer" $bench/G.graph $bench/schema.bin </dev/null
    PATH=$no_rt owes 0 "havirozan $version" '' --version </dev/null
    PATH=$no_rt owes 0 "$(cat "$out/help")" '' --help </dev/null
    PATH=$no_rt owes 3 '' "$usage" </dev/null
done
# a repository that lacks a part of itself
rm -rf "$copy/target" "$copy/outside/tools.sh"
PATH=$with_rt owes 4 '' "$no_answer" $bench/G.graph $bench/schema.bin </dev/null
rm -rf "$copy"

say "./answer was asked $tried times, $failed failed"
[ "$failed" -eq 0 ]
