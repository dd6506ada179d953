#!/usr/bin/env bash
# Counts the bytes that one check reads of both files, of ours and of the C, which is plain.c by gcc, by valgrind, which sees every load: some
# seconds, once the archive is there.
#
#     bash outside/bench/reads.sh                  the bytes read of each file, on `bench`, `ceilings`, `worst` and `several`
#     bash outside/bench/reads.sh --tables PAIR..  the loads from each table, and the most from one row: a second for `bench`, four minutes for `worst`
#
# A load is one instruction that reads, of 1 to 16 bytes here. HAVIROZAN_ARCHIVE=FILE takes another archive, such as an older one.
set -euo pipefail
CDPATH='' cd "$(dirname "$0")/../.."
part=reads out=target/bench here=outside/bench
# shellcheck source=outside/tools.sh
. outside/tools.sh
[ "${#runner[@]}" -eq 0 ] || die "this machine is not x86-64"

how=bytes pairs=(bench ceilings worst several)
case ${1:-} in
'') ;;
--tables)
    how=tables pairs=("${@:2}")
    [ "$#" -gt 1 ] || die "--tables wants a pair"
    ;;
*) die "unknown: $1" ;;
esac

command -v valgrind >/dev/null || install_packages valgrind
archive_ready

inputs=$out/inputs reads=$out/reads
python3 "$here/inputs.py" "$inputs"
gcc -std=c11 -O2 -Wall -Wextra -Werror -pedantic -DPLAIN_CHECK=plain_gcc_check -DPLAIN_CHECK_ALL=plain_gcc_check_all -DPLAIN_JOIN_GRAPHS=plain_gcc_join_graphs -Iinclude "-I$here" "$here/reads.c" "$here/plain.c" "$archive" -o "$reads"

# bytes WHOSE GRAPH SCHEMA: each file is one block of the heap, and valgrind's dhat says how many bytes were read of a block
bytes() {
    valgrind -q --tool=dhat "--dhat-out-file=$out/reads.json" "$reads" heap "$@" >"$out/reads.log" 2>&1 || die "valgrind failed, see $out/reads.log"
    python3 - "$out/reads.json" "$2" "$3" <<'END'
import json, os, sys
blocks = json.load(open(sys.argv[1]))["pps"]
for name, path in zip(("graph", "schema"), sys.argv[2:]):
    size = os.path.getsize(path)
    [block] = [b for b in blocks if b["tb"] == size and b["tbk"] == 1]
    print(f"  {name:6} {size:9,} bytes {block['rb']:12,} read: each {block['rb'] / size:.1f} times")
END
}

# tables WHOSE GRAPH SCHEMA: valgrind's lackey prints every load
tables() {
    valgrind -q --tool=lackey --basic-counts=no --trace-mem=yes --log-fd=3 "$reads" call "$@" 3>&1 >/dev/null | "$reads" count "$2" "$3" |
        awk -F'|' '{ printf "  %-18s %9d bytes %12d loads of %12d bytes, at most %7d from one row\n", $1, $2, $3, $4, $5 }'
}

for pair in "${pairs[@]}"; do
    for whose in ours C; do
        printf '%s, %s\n' "$pair" "$whose"
        "$how" "$whose" "$inputs/$pair.graph" "$inputs/$pair.schema"
    done
done
