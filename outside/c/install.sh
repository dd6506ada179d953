#!/usr/bin/env bash
# Installs the header and the library for C programs: the files below PREFIX/include and PREFIX/lib. PREFIX lies outside the repository
# best: the shared library has links, and rt ci refuses a repository with links in it.
#
#     bash outside/c/install.sh PREFIX
#
# It copies include/havirozan.h, lets outside/c/library.sh make the archive and the shared library in PREFIX/lib, and writes
# PREFIX/lib/pkgconfig/havirozan.pc, with the version of the header. Where rt's archive is missing, or of other sources than those
# that are there, the crates are proved first. HAVIROZAN_ARCHIVE=FILE takes another archive as it is. DESTDIR=FOLDER puts everything
# below that folder, for who makes a package; the .pc file still says PREFIX.
set -euo pipefail
if [ $# -ne 1 ] || [ -z "$1" ]; then
    echo "usage: bash outside/c/install.sh PREFIX" >&2
    exit 2
fi
prefix=$1 into=${DESTDIR:-}
[ "${prefix#/}" != "$prefix" ] || prefix=$PWD/$prefix
[ -z "$into" ] || [ "${into#/}" != "$into" ] || into=$PWD/$into
into=$into$prefix
[ -z "${HAVIROZAN_ARCHIVE:-}" ] || HAVIROZAN_ARCHIVE=$(realpath -m -- "$HAVIROZAN_ARCHIVE")

CDPATH='' cd "$(dirname "$0")/../.."
part=install out=target/library
# shellcheck source=outside/tools.sh
. outside/tools.sh
version=$(header_version)
bash outside/c/library.sh "$into/lib"
install -d "$into/include" "$into/lib/pkgconfig"
install -m 644 include/havirozan.h "$into/include/havirozan.h"
cat >"$into/lib/pkgconfig/havirozan.pc" <<PC
prefix=$prefix
includedir=\${prefix}/include
libdir=\${prefix}/lib

Name: havirozan
Description: A proved checker of property graphs
Version: $version
Cflags: -I\${includedir}
Libs: -L\${libdir} -lhavirozan
PC
chmod 644 "$into/lib/pkgconfig/havirozan.pc"
echo "installed havirozan $version in $into${HAVIROZAN_ARCHIVE:+, of $HAVIROZAN_ARCHIVE as it is: nothing was proved}"
