#!/usr/bin/env bash
# The small program `sheetgraph` on every sheet of examples/README.md: the graph on standard output, byte for byte, and nothing on standard
# error; or a refusal, `code line` on standard error alone. Then with `graphcheck` behind it, as README.md has it.
#
#     bash outside/sheet/run.sh
#
# A program that is in crates/NAME/out is taken as it is; one that is missing is proved and built. SHEETGRAPH=FILE and GRAPHCHECK=FILE take
# others. Where this is no x86-64: outside/tools.sh.
set -euo pipefail
CDPATH='' cd "$(dirname "$0")/../.."
part=sheet out=target/sheet
# shellcheck source=outside/tools.sh
. outside/tools.sh
out=$PWD/$out
# the two are linked with the C library of an x86-64 machine
[ "${#runner[@]}" -eq 0 ] || runner+=(-L /usr/x86_64-linux-gnu)

sheetgraph=$(program sheetgraph "${SHEETGRAPH:-}") || die "there is no sheetgraph"
graphcheck=$(program graphcheck "${GRAPHCHECK:-}") || die "there is no graphcheck"

failed=0
wrong() {
    say "$*"
    failed=$((failed + 1))
}

# runs PROGRAM: on standard input, with what it writes in $out/stdout and $out/stderr; it owes status 0
runs() {
    "${runner[@]}" "$1" >"$out/stdout" 2>"$out/stderr" || wrong "${1##*/} ends with status $?, and 0 is owed"
}

# ---- each sheet

example_sheets >"$out/owed"
while read -r sheet code number graph answer; do
    runs "$sheetgraph" <"$sheets/$sheet"
    if [ "$code" -eq 0 ]; then
        cmp -s "$sheets/$graph" "$out/stdout" || wrong "$sheet: $graph is owed on standard output, and $(wc -c <"$out/stdout") other bytes were given"
        [ ! -s "$out/stderr" ] || wrong "$sheet: nothing is owed on standard error, and this was given: $(cat "$out/stderr")"
        [ "$(wc -c <"$out/stdout")" -eq "$number" ] || wrong "$sheet: $number bytes are owed"
    else
        [ ! -s "$out/stdout" ] || wrong "$sheet: nothing is owed on standard output, and $(wc -c <"$out/stdout") bytes were given"
        printf '%s %s\n' "$code" "$number" | cmp -s - "$out/stderr" || wrong "$sheet: $code $number is owed, and this was given: $(cat "$out/stderr")"
    fi
    # a refused sheet leaves no graph to the checker, which then reads 0 bytes
    told=$(cd "$sheets" && { "${runner[@]}" "$sheetgraph" <"$sheet" 2>"$out/stderr" || true; } | "${runner[@]}" "$graphcheck") || wrong "$sheet: graphcheck ends with status $?, and 0 is owed"
    [ "$told" = "${answer:-2 0 0 0 0}" ] || wrong "$sheet: graphcheck owes ${answer:-2 0 0 0 0}, and says $told"
done <"$out/owed"

# ---- long sheets, and one that comes in two parts

{
    printf '01234567890123456789012345678901;9999-12-31\r\n'
    for _ in {1..180}; do printf -- '-999;-999999,999999\r\n'; done
} >"$out/longest.csv"
[ "$(wc -c <"$out/longest.csv")" -eq 3825 ] || die "the longest sheet has not 3,825 bytes"

# says WHAT LENGTH SAID: of the sheet on standard input, sheetgraph writes so many bytes and says this
says() {
    runs "$sheetgraph"
    if [ "$(wc -c <"$out/stdout")" -ne "$2" ] || [ "$(cat "$out/stderr")" != "$3" ]; then
        wrong "$1: $2 bytes and '$3' are owed, and $(wc -c <"$out/stdout") bytes and '$(cat "$out/stderr")' were given"
    fi
}
says "the longest sheet" 13108 "" <"$out/longest.csv"
says "the longest sheet and an angle" 0 "52 182" < <(cat "$out/longest.csv" && echo '0;1')
says "the longest sheet and a million bytes" 0 "52 182" < <(cat "$out/longest.csv" && head -c 1000000 /dev/zero)
says "300,000 angles" 0 "52 182" < <(head -n 1 "$sheets/good.csv" && yes '0;1' | head -n 300000)
says "an angle of a million bytes" 0 "52 2" < <(head -n 1 "$sheets/good.csv" && head -c 1000000 /dev/zero)
says "a first line of a million bytes" 0 "51 1" < <(head -c 1000000 /dev/zero)
says "a sheet in two parts" 6605 "" < <(head -c 500 "$sheets/good.csv" && sleep 0.2 && tail -c +501 "$sheets/good.csv")
cmp -s "$sheets/good.graph" "$out/stdout" || wrong "a sheet in two parts becomes another graph"

# ---- an output that takes nothing: status 1, and why on standard error

# unwritten PROGRAM: on standard input
unwritten() {
    local status=0
    (cd "$sheets" && "${runner[@]}" "$1") >/dev/full 2>"$out/stderr" || status=$?
    [ "$status" -eq 1 ] && [ -s "$out/stderr" ] || wrong "where its output takes nothing, ${1##*/} ends with status $status, and says: $(cat "$out/stderr")"
}
unwritten "$sheetgraph" <"$sheets/good.csv"
unwritten "$graphcheck" <"$sheets/good.graph"

say "$(wc -l <"$out/owed") sheets, 7 more that are long or slow, $failed failed"
[ "$failed" -eq 0 ]
