#!/usr/bin/env bash
# Makes the library for C programs of the proved archive: every name that it gives to a program begins with havirozan_.
#
#     bash outside/c/library.sh FOLDER
#
# puts libhavirozan.a and libhavirozan.so.0.x.y, with its links libhavirozan.so.0.x and libhavirozan.so, into FOLDER, which lies
# outside the repository best: rt ci refuses a repository with links in it.
#
# The archive that rt makes has bare names, as document 01 has them. A program with a function `check` of its own links with
# that archive without a word, and all its graphs are then answered by its own. Here the functions are renamed, and
# every other name is made local. The machine code stays as it is.
# The archive is made where it is missing or of other sources; HAVIROZAN_ARCHIVE=FILE takes another one as it is.
set -euo pipefail
if [ $# -ne 1 ] || [ -z "$1" ]; then
    echo "usage: bash outside/c/library.sh FOLDER" >&2
    exit 2
fi
case $1 in
/*) folder=$1 ;;
*) folder=$PWD/$1 ;;
esac
[ -z "${HAVIROZAN_ARCHIVE:-}" ] || HAVIROZAN_ARCHIVE=$(realpath -m -- "$HAVIROZAN_ARCHIVE")
CDPATH='' cd "$(dirname "$0")/../.."
part=library out=target/library
# shellcheck source=outside/tools.sh
. outside/tools.sh
compiler_ready
archive_ready

functions=(check check_all write_graph find_tables read_sheet join_graphs)
version=$(header_version)
# before 1.0.0 programs are compiled again where the second number rises, so that it belongs to the name that the loader looks for
soname=libhavirozan.so.${version%.*}
shared=libhavirozan.so.$version

work=$(mktemp -d "$out/make.XXXXXX")
trap 'rm -rf "$work"' EXIT

printf '%s\n' "${functions[@]}" | sed 's/.*/& havirozan_&/' >"$work/renamed"
printf 'havirozan_%s\n' "${functions[@]}" version >"$work/kept"
{ echo '{ global:' && sed 's/$/;/' "$work/kept" && echo 'local: *; };'; } >"$work/exported"

"${cc[@]}" -std=c89 -O2 -fPIC -ffunction-sections -Iinclude -c outside/c/version.c -o "$work/version.o"
"${tool}ld" -r --whole-archive "$archive" "$work/version.o" -o "$work/bare.o"
# first the names and then what is kept of them, so that it does not matter in which order one call would do both
"${tool}objcopy" --redefine-syms="$work/renamed" --remove-section=.llvm_addrsig "$work/bare.o" "$work/named.o"
"${tool}objcopy" --keep-global-symbols="$work/kept" "$work/named.o" "$work/havirozan.o"

# an archive without one of the functions would be seen by the first program that calls it, and here before
"${tool}nm" --defined-only --extern-only --format=posix "$work/havirozan.o" | cut -d' ' -f1 | LC_ALL=C sort >"$work/names"
LC_ALL=C sort "$work/kept" | cmp -s - "$work/names" || die "$archive does not have the functions ${functions[*]}"

"${tool}ar" rcsD "$work/libhavirozan.a" "$work/havirozan.o"
# without the compiler's own start files it needs nothing but memcpy and memset; -z defs says so where it is not so
"${cc[@]}" -shared -nostartfiles -Wl,-soname,"$soname" -Wl,--version-script="$work/exported" -Wl,-Bsymbolic \
    -Wl,-z,defs -Wl,-z,relro -Wl,-z,now -Wl,-z,noexecstack "$work/havirozan.o" -o "$work/$shared"

install -d "$folder"
install -m 644 "$work/libhavirozan.a" "$folder/libhavirozan.a"
install -m 755 "$work/$shared" "$folder/$shared"
ln -sfn "$shared" "$folder/$soname"
ln -sfn "$soname" "$folder/libhavirozan.so"
