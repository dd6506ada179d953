#!/usr/bin/env bash
# The small program `graphfaults` on every pair of examples/README.md: a line for each violation, or the one line of `graphcheck` where
# there is none. Then on lists that are longer than the 1,024 lines that it prints, on files that are too long or not there, and with an
# output that is cut off.
#
#     bash outside/faults/run.sh
#
# A program that is in crates/graphfaults/out is taken as it is; one that is missing is proved and built. GRAPHFAULTS=FILE takes another. Where this
# is no x86-64: outside/tools.sh.
set -euo pipefail
CDPATH='' cd "$(dirname "$0")/../.."
part=faults out=target/faults
# shellcheck source=outside/tools.sh
. outside/tools.sh
out=$PWD/$out
# it is linked with the C library of an x86-64 machine
[ "${#runner[@]}" -eq 0 ] || runner+=(-L /usr/x86_64-linux-gnu)

program=$(program graphfaults "${GRAPHFAULTS:-}") || die "there is no graphfaults"

failed=0 tried=0
# lists NAME SCHEMA: of the graph on standard input and this schema, graphfaults prints the lines in $out/owed, and nothing on standard
# error, and ends with status 0
lists() {
    local status=0
    rm -rf "$out/folder"
    mkdir "$out/folder"
    [ ! -e "$2" ] || cp -r "$2" "$out/folder/schema.bin"
    (cd "$out/folder" && "${runner[@]}" "$program") >"$out/told" 2>"$out/stderr" || status=$?
    tried=$((tried + 1))
    if ! cmp -s "$out/owed" "$out/told" || [ -s "$out/stderr" ] || [ "$status" -ne 0 ]; then
        say "$1: status $status; this is owed: $(head -n 12 "$out/owed" | tr '\n' ' '), and this was given: $(head -n 12 "$out/told" | tr '\n' ' ')$(cat "$out/stderr")"
        failed=$((failed + 1))
    fi
}

# ---- every pair

example_lists >"$out/pairs"
while read -r name graph schema list; do
    printf '%s\n' "${list//, /$'\n'}" >"$out/owed"
    if [ -e "$data/$graph" ]; then
        lists "$name" "$data/$schema" <"$data/$graph"
    else
        lists "$name" "$data/$schema" </dev/null
    fi
done <"$out/pairs"
pairs=$tried

# ---- long lists: nodes and edges without a label

# number N: its 32 bits, the low byte first
number() {
    local shift
    for shift in 0 8 16 24; do printf '%b' "\\x$(printf %02x $(($1 >> shift & 255)))"; done
}
# plain_graph NODES EDGES: a graph of so many nodes, and of so many loops at its first node
plain_graph() {
    local body=$((16 * $1 + 24 * $2))
    head -c "$body" /dev/zero && number "$1" && number "$2" && head -c 12 /dev/zero && number "$body" && printf GPH1
}
# lines CODE NODES COUNT: so many lines with this code, the place going up to NODES and then the schema place by one
lines() {
    awk -v code="$1" -v nodes="$2" -v count="$3" 'BEGIN { for (i = 0; i < count; i++) print code, i % nodes, int(i / nodes), 0, 0 }'
}

# a schema that knows none of them: each node and each edge is at fault
for counts in "1 0" "1000 23" "1000 24" "1024 0" "1000 25" "1024 1" "1024 982"; do
    read -r nodes edges <<<"$counts"
    {
        { lines 21 1024 "$nodes" && lines 23 4096 "$edges"; } | sed -n 1,1024p
        [ $((nodes + edges)) -le 1024 ] || echo "and so on: $((nodes + edges)) in all"
    } >"$out/owed"
    lists "$nodes nodes and $edges edges" "$data/full.schema" < <(plain_graph "$nodes" "$edges")
done

# one schema node without a label and 64 schema edges at it, each with label 0, intervals 1 to 1: each node owes 128 edges
{
    head -c 16 /dev/zero
    for ((i = 0; i < 64; i++)); do
        number 1 && head -c 20 /dev/zero && number 1 && number 1 && number 1 && number 1
    done
    printf '\1\0\100\0\0\0\0\0\1\0\0\0' && number 2576 && printf SCH1
} >"$out/wide.schema"
{ lines 31 8 512 && lines 33 8 512; } >"$out/owed"
lists "8 nodes, 64 schema edges" "$out/wide.schema" < <(plain_graph 8 0)
{ lines 31 9 576 && lines 33 9 448 && echo "and so on: 1152 in all"; } >"$out/owed"
lists "9 nodes, 64 schema edges" "$out/wide.schema" < <(plain_graph 9 0)
{ lines 31 1024 1024 && echo "and so on: 131072 in all"; } >"$out/owed"
lists "1,024 nodes, 64 schema edges" "$out/wide.schema" < <(plain_graph 1024 0)
{ lines 23 4096 982 && lines 31 1024 42 && echo "and so on: 132054 in all"; } >"$out/owed"
lists "1,024 nodes, 982 edges, 64 schema edges" "$out/wide.schema" < <(plain_graph 1024 982)

# ---- the limits of the two inputs

echo "2 0 0 0 0" >"$out/owed"
lists "a graph of 40,001 bytes with violations" "$data/full.schema" < <(head -c 23589 /dev/zero && plain_graph 1024 0)
lists "a million bytes" "$data/full.schema" < <(head -c 1000000 /dev/zero)
lines 21 1024 1024 >"$out/owed"
lists "a graph of 40,000 bytes with violations" "$data/full.schema" < <(head -c 23588 /dev/zero && plain_graph 1024 0)
lists "a graph in two parts" "$data/full.schema" < <(plain_graph 1024 0 >"$out/plain.graph" && head -c 500 "$out/plain.graph" && sleep 0.2 && tail -c +501 "$out/plain.graph")
echo "9 0 0 0 0" >"$out/owed"
lists "no schema" "$out/absent" < <(plain_graph 3 0)
# what can be opened and not read has 0 bytes, too
mkdir -p "$out/unread"
lists "a folder for a schema" "$out/unread" < <(plain_graph 3 0)
echo "2 0 0 0 0" >"$out/owed"
lists "a folder for a graph" "$data/full.schema" <"$out/unread"
lists "no standard input" "$data/full.schema" <&-

# ---- an output that is cut off starts with a fault all the same

plain_graph 1024 982 >"$out/plain.graph"
cp "$out/wide.schema" "$out/folder/schema.bin"
(cd "$out/folder" && "${runner[@]}" "$program" <"$out/plain.graph" 2>"$out/stderr" || true) | head -n 1 >"$out/told" || true
[ "$(cat "$out/told")" = "23 0 0 0 0" ] || { say "a list that is cut off starts with $(cat "$out/told")"; failed=$((failed + 1)); }

# ---- an output that takes nothing: status 1, and why on standard error

status=0
(cd "$out/folder" && "${runner[@]}" "$program") </dev/null >/dev/full 2>"$out/stderr" || status=$?
[ "$status" -eq 1 ] && [ -s "$out/stderr" ] || { say "where its output takes nothing, graphfaults ends with status $status, and says: $(cat "$out/stderr")"; failed=$((failed + 1)); }

say "$pairs pairs, $((tried - pairs)) more that are long, $failed failed"
[ "$failed" -eq 0 ]
