#!/usr/bin/env bash
# The comparison: check, check_all, write_graph, find_tables, read_sheet and join_graphs, called through their entries for C, against
# the second program, on a million random inputs, called pairs after those of check, with each joined file beside the two that it
# was joined from; check on every number that could be a date, with Python's own calendar as the judge, on every small record against
# every small shape, and on every small way in which schema edges place edges; check_all on these, too, and on lists as long as there
# are; and read_sheet on three million coefficients, with Rust's own division and reading as the judges. It fails on the first
# difference, made small and printed with the command that repeats it, and where a code or a sub-case came up too seldom.
#
#     bash outside/compare/run.sh                     a fresh seed, which is printed
#     bash outside/compare/run.sh --seed S            the pairs and coefficients of an earlier run
#     bash outside/compare/run.sh --seed S --pair I   one pair of them, and nothing else
#     bash outside/compare/run.sh --date D            one number as a date, and nothing else
#     bash outside/compare/run.sh --record N          one record, and nothing else
#     bash outside/compare/run.sh --placing N         one placing, and nothing else
#     bash outside/compare/run.sh --listing N         one list of a small placing, and nothing else
#     bash outside/compare/run.sh --longest N         one of the longest lists, and nothing else
#     bash outside/compare/run.sh --seed S --sheet I  one sheet of coefficients, and nothing else
#
# How often each sub-case came up stands in target/compare/sub-cases. HAVIROZAN_ARCHIVE=FILE takes an archive that is there.
set -euo pipefail
CDPATH='' cd "$(dirname "$0")/../.."
part=compare out=target/compare
# shellcheck source=outside/tools.sh
. outside/tools.sh
archive_ready

"${cc[@]}" -std=c11 -O2 -Wall -Wextra -Werror -pedantic -Iinclude outside/compare/border.c "$archive" "${link[@]}" -o "$out/border"
export CARGO_TARGET_DIR=$PWD/$out/cargo
cargo build --quiet --release --offline --manifest-path outside/compare/Cargo.toml
"$out/cargo/release/compare" --table "$out/sub-cases" "$@" -- "${runner[@]}" "$out/border"
