#!/usr/bin/env bash
# Counts the x86-64 instructions of one call of `check`, of `check_all` and of `join_graphs`, of ours, of the C (plain.c by gcc) and, for `check`, of the C before, on
# each pair or join, on any machine: qemu-user runs them, and a plugin counts. Some seconds, once the archive is there. Unlike times, these numbers are the same at each run, whatever else the machine does.
#
#     bash outside/bench/instructions.sh
#
# An instruction that is repeated, as one that sets a block to zero, counts once for each turn. What memcpy takes is in them: it is the C library's, in ours and in the C.
# HAVIROZAN_ARCHIVE=FILE takes another archive.
set -euo pipefail
CDPATH='' cd "$(dirname "$0")/../.."
part=instructions out=target/bench here=outside/bench
# shellcheck source=outside/tools.sh
. outside/tools.sh
command -v qemu-x86_64 >/dev/null || install_packages qemu-user
archive_ready

python3 "$here/inputs.py" "$out/inputs"
gcc -std=c11 -O2 -Wall -Wextra -Werror -pedantic -shared -fPIC "$here/instructions.c" -o "$out/instructions.so"
"${cc[@]}" -std=c11 -O2 -Wall -Wextra -Werror -pedantic -static -DPLAIN_CHECK=plain_gcc_check -DPLAIN_CHECK_ALL=plain_gcc_check_all -DPLAIN_JOIN_GRAPHS=plain_gcc_join_graphs -Iinclude "-I$here" \
    "$here/calls.c" "$here/plain.c" "$here/baseline.c" "$archive" -o "$out/calls"

# counted N WHOSE FUNCTION PAIR: the instructions of the whole program
counted() {
    local files=("$out/inputs/$4.graph" "$out/inputs/$4.schema")
    [ "$3" != join_graphs ] || files=("$out/inputs/$4.first.graph" "$out/inputs/$4.second.graph")
    qemu-x86_64 -E GLIBC_TUNABLES=glibc.cpu.x86_rep_stosb_threshold=1048576:glibc.cpu.x86_rep_movsb_threshold=1048576 -plugin "$out/instructions.so" "$out/calls" "$1" "$2" "$3" \
        "${files[@]}" 2>&1
}

# once WHOSE FUNCTION PAIR: those of one call
once() { echo $(($(counted 2 "$@") - $(counted 1 "$@"))); }

printf '| `check` on | ours | C | C before | ours / C | ours / C before |\n|---|---:|---:|---:|---:|---:|\n'
for pair in bench ceilings worst rule4 several; do
    awk -v pair="$pair" -v a="$(once ours check "$pair")" -v b="$(once C check "$pair")" -v c="$(once before check "$pair")" \
        'BEGIN { printf "| `%s` | %d | %d | %d | %.2f | %.2f |\n", pair, a, b, c, a / b, a / c }'
done
printf '\n| `check_all` on | ours | C | ours / C | ours / `check` of ours |\n|---|---:|---:|---:|---:|\n'
for pair in bench ceilings worst rule4 several faulty numbers; do
    awk -v pair="$pair" -v a="$(once ours check_all "$pair")" -v b="$(once C check_all "$pair")" -v c="$(once ours check "$pair")" \
        'BEGIN { printf "| `%s` | %d | %d | %.2f | %.2f |\n", pair, a, b, a / b, a / c }'
done
printf '\n| `join_graphs` on | ours | C | ours / C |\n|---|---:|---:|---:|\n'
for join in benches halves texts rows; do
    awk -v join="$join" -v a="$(once ours join_graphs "$join")" -v b="$(once C join_graphs "$join")" 'BEGIN { printf "| `%s` | %d | %d | %.2f |\n", join, a, b, a / b }'
done
