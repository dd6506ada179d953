#!/usr/bin/env bash
# Measures the proved functions against plain C of the same job, the second program and, for the checker, SQL in SQLite, on seven pairs of files, two
# angle sheets and four joins of two graphs, in one process and one run. It fails where two of them do not agree in every number and every byte written.
#
#     bash outside/bench/run.sh                 the full measurement: some minutes; prints the tables, puts them into docs/FIGURES.md and writes
#                                               docs/speed.svg; fails where ours takes more than 16,384 bytes of stack, or longer than a bound, by
#                                               least times. At `check`: 1.6 times the C (ceilings, rule4: twice); 0.88 (bench), 0.9 (ceilings,
#                                               rule4) or 0.2 (worst) of the C before. At `check_all`: 1.3 times the C where all is at fault (faulty,
#                                               numbers), and 1.1 times our own `check` where nothing is. At `join_graphs` and
#                                               at the other three: twice the C
#     bash outside/bench/run.sh --quick         few rounds, for the gate: the bounds are 4 times the C, 1.5 (worst: 0.5) times the C
#                                               before, 3 times the C at the others, and 1.5 times our own `check`, so loose that a busy machine does
#                                               not break them; SQL is spared three pairs
#     bash outside/bench/run.sh --without-sql   goes on where SQLite's library cannot be had
#
# The C is plain.c for the checker and the joiner, baseline.c and sheet.c for the others, each compiled by gcc and by clang: the faster of the two counts, for
# each pair, sheet and join. The C before is the checker of baseline.c, by gcc; free.c, by both, is measured without a bound. clang is Debian's package, installed where
# it is missing.
# The archive is for x86-64. On another machine all of it is built for x86-64 and run by qemu-user, so that all have the same emulator to bear. Since
# an emulator does not slow all code alike, the full measurement then also times C, the second program and SQL as that machine's own code. There is no
# C by clang then.
# SQLite's library, and Rust for x86-64 where the machine has none, are Debian's packages, unpacked under target/bench and not installed.
# The archive is proved and made where it is missing or of other sources; HAVIROZAN_ARCHIVE=FILE takes another one as it is.
set -euo pipefail
CDPATH='' cd "$(dirname "$0")/../.."
part=bench out=target/bench here=outside/bench
# shellcheck source=outside/tools.sh
. outside/tools.sh

quick='' sql=yes
for word in "$@"; do
    case $word in
    --quick) quick=yes ;;
    --without-sql) sql='' ;;
    *) die "unknown: $word" ;;
    esac
done

# ---- Debian's packages

# without_links FOLDER: puts the files themselves in the place of links to them, and removes links to nothing here, since rt refuses links in the repository
without_links() {
    local from to
    find "$1" -type l | while IFS= read -r from; do
        to=$(realpath -e -- "$from" 2>/dev/null) || to=''
        rm "$from"
        [ -z "$to" ] || cp -r -- "$to" "$from" || return 1
    done
}

# fetch ARCHITECTURE PACKAGE..: unpacks packages into target/bench/ARCHITECTURE, with lists of their own, so that the system stays as it is
fetch() {
    local arch=$1 apt="$PWD/$out/apt-$1"
    shift
    mkdir -p "$apt/lists/partial" "$apt/cache/archives/partial" "$out/$arch"
    local get=(apt-get -o "APT::Architecture=$arch" -o "APT::Architectures=$arch" -o "Dir::State::lists=$apt/lists" -o "Dir::Cache=$apt/cache")
    say "fetching $* for $arch"
    rm -f "$apt"/*.deb
    # the first time there are no lists, and later they may be stale
    (cd "$apt" && { "${get[@]}" download "$@" || { "${get[@]}" update && "${get[@]}" download "$@"; }; }) >>"$out/apt.log" 2>&1 || return 1
    for package in "$apt"/*.deb; do
        dpkg -x "$package" "$out/$arch" || return 1
    done
    without_links "$out/$arch" || return 1
}

# ---- the tools

archive_ready

# Where a function comes to lie decides much of what its loops take: on `ceilings` the same machine code can take a third as long again sixteen bytes
# further on. So all functions that are measured start at multiples of 64, those of the archive too, whose own start at multiples of 16: else a line
# more in a file that is linked before them would change what is measured.
"${tool}objcopy" --set-section-alignment '.text*=64' "$archive" "$out/aligned.a"
archive=$out/aligned.a
optimised=(-O2 -falign-functions=64) clang_optimised=(-O3 -falign-functions=64)
flags=(-std=c11 -Wall -Wextra -Werror -pedantic -Iinclude "-I$here")
libraries=(-lm -ldl -lpthread) emulated='' clang=yes
if [ "${#runner[@]}" -gt 0 ]; then
    emulated=yes clang=''
    say "this machine is not x86-64: the C by clang is left out"
    # Debian's libm.a for crossing is a script that names files of an x86-64 machine; the library itself stands beside it
    libraries=("${link[@]}" /usr/x86_64-linux-gnu/lib/libm-*.a)
fi

[ -z "$clang" ] || command -v clang >/dev/null || install_packages clang

# sqlite ARCHITECTURE: sees to it that the library is there
sqlite() {
    compgen -G "$out/$1/usr/lib/*/libsqlite3.a" >/dev/null || fetch "$1" libsqlite3-dev ||
        die "SQLite's library for $1 cannot be had, see $out/apt.log; --without-sql goes on without it"
}

# Rust for x86-64: the machine's own where it makes that; else Debian's compiler for this machine, with Debian's library for the other
rust=(rustc) rust_library=''
if [ "$emulated" ] && ! rustc --print target-libdir --target x86_64-unknown-linux-gnu 2>/dev/null | xargs -r ls >/dev/null 2>&1; then
    native=$(dpkg --print-architecture)
    if [ ! -d "$out/amd64/usr/lib/rustlib/x86_64-unknown-linux-gnu/lib" ]; then
        fetch amd64 libstd-rust-dev || die "Rust's library for x86-64 cannot be had, see $out/apt.log"
    fi
    driver="$PWD/$out/$native/usr/lib/*/librustc_driver-*.so"
    if ! compgen -G "$driver" >/dev/null; then
        fetch "$native" rustc || die "Debian's rustc cannot be had, see $out/apt.log"
        version=$(dpkg-deb -f "$out/apt-$native"/rustc_*.deb Version)
        # its libraries are in a package that is named after the version without its last number
        fetch "$native" "libstd-rust-${version%.*}" || die "Debian's rustc cannot be had, see $out/apt.log"
    fi
    rust=("$PWD/$out/$native/usr/bin/rustc")
    rust_library=$(dirname "$(compgen -G "$driver")")
    if ! LD_LIBRARY_PATH=$rust_library "${rust[@]}" --version >>"$out/apt.log" 2>&1; then
        # it lacks a library of the system, which comes with the package
        install_packages rustc
        rust=(/usr/bin/rustc) rust_library=''
    fi
    rust+=(--sysroot "$PWD/$out/amd64/usr" --target x86_64-unknown-linux-gnu)
fi

# ---- what is measured

# checkers FOLDER NAME COMPILER..: plain.c as plain_NAME_check, plain_NAME_check_all and plain_NAME_join_graphs, and free.c as free_NAME_check; their files
# go into `objects`
checkers() {
    local to=$1 name=$2 source
    shift 2
    for source in plain free; do
        "$@" "${flags[@]}" "-DPLAIN_CHECK=${source}_${name}_check" "-DPLAIN_CHECK_ALL=${source}_${name}_check_all" \
            "-DPLAIN_JOIN_GRAPHS=${source}_${name}_join_graphs" -c "$here/$source.c" -o "$to/${source}_$name.o"
        objects+=("$to/${source}_$name.o")
    done
}

# by_clang FOLDER: all of the plain C, with clang in the names where baseline.h has baseline
by_clang() {
    local to=$1 compiler=(clang "${clang_optimised[@]}") function source names=()
    for function in check write_graph find_tables read_sheet; do
        names+=("-Dbaseline_$function=clang_$function")
    done
    checkers "$to" clang "${compiler[@]}"
    for source in baseline sheet; do
        "${compiler[@]}" "${flags[@]}" "${names[@]}" -c "$here/$source.c" -o "$to/${source}_clang.o"
        objects+=("$to/${source}_clang.o")
    done
}

# build FOLDER ARCHITECTURE WORDS..: the second program and the bench, with the compilers in cc and rust, and with more words for the former
build() {
    local to=$1 arch=$2 with=() objects=()
    shift 2
    mkdir -p "$to"
    checkers "$to" gcc "${cc[@]}" "${optimised[@]}"
    if [ "$clang" ]; then
        by_clang "$to"
    else
        with+=(-DWITHOUT_CLANG)
    fi
    # optimised as its Cargo.toml says
    local rustc=(env "LD_LIBRARY_PATH=$rust_library" "${rust[@]}" --edition 2021 -C opt-level=3 -C overflow-checks=on -C panic=abort)
    "${rustc[@]}" --crate-name second --crate-type rlib outside/second/src/lib.rs -o "$to/libsecond.rlib"
    "${rustc[@]}" --crate-type staticlib --extern "second=$to/libsecond.rlib" "$here/second_c.rs" -o "$to/libsecond_c.a"
    local sources=("$here/bench.c" "$here/stack.c" "$here/baseline.c" "$here/sheet.c")
    if [ "$sql" ]; then
        sqlite "$arch"
        sources+=("$here/sql.c" "$(compgen -G "$out/$arch/usr/lib/*/libsqlite3.a")")
        with+=("-I$out/$arch/usr/include")
    else
        with+=(-DWITHOUT_SQL)
    fi
    # a program that is linked with -static is told by the linker that it could not load more libraries at run time: it never does
    "${cc[@]}" "${flags[@]}" "${optimised[@]}" "${with[@]}" "${sources[@]}" "${objects[@]}" "$to/libsecond_c.a" "$@" "${libraries[@]}" \
        -o "$to/bench" 2>"$to/link.log" ||
        { cat "$to/link.log"; die "the bench could not be built"; }
}

[ "$sql" ] || say "SQL is left out"
python3 "$here/inputs.py" "$out/inputs"
build "$out/x86-64" amd64 "$archive"
"${runner[@]}" "$out/x86-64/bench" agree "$here" "$data" crates/cases/args "$sheets"/*.csv
for pair in bench ceilings worst rule4 several faulty numbers; do
    printf '%s.graph %s.schema\n' "$pair" "$pair"
done >"$out/pairs"
"${runner[@]}" "$out/x86-64/bench" agree "$here" "$out/inputs" "$out/pairs" "$out"/inputs/*.csv
# each example graph with itself and with the one before it
awk 'NR % 2 { if (NR > 1) print last, $1; print $1, $1; last = $1 }' crates/cases/args >"$out/example-joins"
# what is measured, in both orders; and two that go above the ceilings
for join in benches halves texts rows; do
    printf '%s.first.graph %s.second.graph\n%s.second.graph %s.first.graph\n' "$join" "$join" "$join" "$join"
done >"$out/joins"
printf '%s\n' 'ceilings.graph bench.graph' 'halves.first.graph ceilings.graph' >>"$out/joins"
"${runner[@]}" "$out/x86-64/bench" joins "$data" "$out/example-joins" "$out/inputs" "$out/joins"

# ---- the machine, for the record

first_line() { "$@" 2>/dev/null | head -n 1; }
{
    printf 'machine\t%s, %s cores\n' "$(uname -m)" "$(nproc)"
    if [ "$emulated" ]; then
        printf 'emulator\t%s\n' "$(first_line qemu-x86_64 --version)"
    else
        printf 'processor\t%s\n' "$(sed -n 's/^model name\s*: //p' /proc/cpuinfo | head -n 1)"
    fi
    printf 'C by gcc\t%s, %s\n' "$(first_line "${cc[@]}" --version)" "${optimised[*]}"
    [ -z "$clang" ] || printf 'C by clang\t%s, %s\n' "$(first_line clang --version)" "${clang_optimised[*]}"
    printf 'Rust\t%s, opt-level 3\n' "$(LD_LIBRARY_PATH=$rust_library "${rust[@]}" --version)"
} >"$out/machine"

# ---- the measurement

# what figures.py holds ours to: --bound TIMES FUNCTION PROGRAM PAIR.., with no pair for all
if [ "$quick" ]; then
    "${runner[@]}" "$out/x86-64/bench" time "$here" "$out/inputs" "$out/quick.json" 5 20 800 worst,ceilings,several
    python3 "$here/figures.py" --stack 16384 --bound 4 check c --bound 1.5 check before bench ceilings rule4 --bound 0.5 check before worst \
        --bound 4 check_all c --beside 1.5 check_all check bench ceilings worst several \
        --bound 3 write_graph c --bound 3 find_tables c --bound 3 read_sheet c --bound 3 join_graphs c -- "$out/quick.json"
    exit
fi

"${runner[@]}" "$out/x86-64/bench" time "$here" "$out/inputs" "$out/measured.json" 21 100 10000
rm -f "$out/native.json"
if [ "$emulated" ]; then
    cc=(gcc) rust=(rustc) rust_library='' libraries=(-lm -ldl -lpthread)
    build "$out/native" "$(dpkg --print-architecture)" -DWITHOUT_OURS
    "$out/native/bench" time "$here" "$out/inputs" "$out/native.json" 21 100 10000
    printf 'C (native)\t%s, %s\nRust (native)\t%s, opt-level 3\n' "$(first_line gcc --version)" "${optimised[*]}" "$(rustc --version)" >>"$out/machine"
fi
python3 "$here/figures.py" --stack 16384 --bound 1.6 check c bench worst several --bound 2 check c ceilings rule4 --bound 0.88 check before bench --bound 0.9 check before ceilings rule4 \
    --bound 0.2 check before worst --bound 1.3 check_all c faulty numbers --beside 1.1 check_all check bench ceilings worst several --bound 2 write_graph c --bound 2 find_tables c --bound 2 read_sheet c --bound 2 join_graphs c \
    --machine "$out/machine" --native "$out/native.json" --svg docs/speed.svg --document docs/FIGURES.md "$out/measured.json"
