# shellcheck shell=bash
# What the scripts below outside/ share; they source it from the repository's root, with `part` and `out` set.
#
# It sets cc, runner, link and tool: how a program for x86-64 is compiled, run and linked here, and what the names of ld, nm and
# their like begin with, since the archive is for x86-64. On another machine this is Debian's cross compiler and qemu-user; where
# these are missing, and apt-get may be used, they are installed.
# `archive_ready` sets archive, and proves and makes it where it is missing or of other sources than those that are there. It is a copy of
# what `rt lib` makes, crates/havirozan/out/libhavirozan.a.
# HAVIROZAN_ARCHIVE=FILE takes an archive that is already there as it is, and proves nothing.

# shellcheck source=outside/version.sh
. outside/version.sh

say() { printf '%s: %s\n' "$part" "$*"; }
die() { say "$*" >&2; exit 1; }

install_packages() {
    say "installing $*" >&2
    local install=(env DEBIAN_FRONTEND=noninteractive apt-get install -y --no-install-recommends "$@")
    "${install[@]}" >"$out/apt.log" 2>&1 || { apt-get update >>"$out/apt.log" 2>&1 && "${install[@]}" >>"$out/apt.log" 2>&1; } ||
        die "they could not be installed, see $out/apt.log"
}

mkdir -p "$out"
cc=(gcc) runner=() link=() tool=''
if [ "$(uname -m)" != x86_64 ]; then
    if ! command -v x86_64-linux-gnu-gcc >/dev/null || ! command -v qemu-x86_64 >/dev/null || [ ! -e /usr/x86_64-linux-gnu/lib/libc.a ]; then
        install_packages gcc-x86-64-linux-gnu libc6-dev-amd64-cross qemu-user
    fi
    tool=x86_64-linux-gnu-
    # the C library sets longer blocks to zero by one repeated instruction, which an emulator does byte by byte
    cc=(x86_64-linux-gnu-gcc) runner=(qemu-x86_64 -E GLIBC_TUNABLES=glibc.cpu.x86_rep_stosb_threshold=1048576) link=(-static)
fi

# The example pairs, one to a line: example, graph file, schema file, code, place, schema place, count, property. The files lie in $data.
data=crates/cases/data
example_pairs() {
    local table=examples/README.md
    awk -F'|' 'NF > 6 && $(NF - 1) ~ /^ [0-9]+ [0-9]+ [0-9]+ [0-9]+ [0-9]+ $/ {
        gsub(/[` ]/, "", $(NF - 3)); gsub(/[` ]/, "", $(NF - 2)); gsub(/ /, "", $2); print $2, $(NF - 3), $(NF - 2), $(NF - 1)
    }' "$table" >"$out/table"
    [ "$((2 * $(wc -l <"$out/table")))" -eq "$(wc -l <crates/cases/args)" ] || die "$table and crates/cases/args have other pairs"
    cat "$out/table"
}

# The lists of the example pairs, one to a line: example, graph file, schema file, and what `check_all` lists, with commas between: every
# violation, or the one answer of a pair that has none.
example_lists() {
    local table=examples/README.md
    example_pairs >"$out/answers"
    awk -F'|' 'NF == 5 && $4 ~ /^ [0-9]+( [0-9]+)+(, [0-9]+( [0-9]+)+)+ $/ {
        gsub(/ /, "", $2); gsub(/^ | $/, "", $4); print $2 "\t" $4
        if (split($4, all, ",") != $3) { print "a list of " $2 " has another length" >"/dev/stderr"; exit 1 }
    }' "$table" >"$out/lists" || die "$table is wrong"
    awk -F'\t' 'NR == FNR { list[$1] = $2; lists++; next }
        { split($0, word, " "); answer = word[4] " " word[5] " " word[6] " " word[7] " " word[8] }
        word[1] in list { used++; if (index(list[word[1]], answer ",") != 1) { print word[1] " is listed otherwise than answered" >"/dev/stderr"; exit 1 } }
        { print word[1], word[2], word[3], word[1] in list ? list[word[1]] : answer }
        END { exit used != lists }' "$out/lists" "$out/answers" || die "$table has a list of no pair"
}

# The example sheets, one to a line: sheet, code, number and, with code 0, its graph file and what the checker answers that. The files lie in $sheets.
sheets=examples/sheet
example_sheets() {
    local table=examples/README.md
    awk -F'|' 'NF == 6 && $2 ~ /^ `[^ ]+\.csv` $/ { gsub(/[`:]|none/, ""); print $2 $4 $5 }' "$table" >"$out/sheets"
    [ "$(wc -l <"$out/sheets")" -eq "$(find "$sheets" -name '*.csv' | wc -l)" ] || die "$table and $sheets have other sheets"
    cat "$out/sheets"
}

# program NAME FILE: the path of a small program, which is FILE if that is not empty. Else it is what rt left in crates/NAME/out, and
# where there is nothing, rt proves, builds and runs it now, on an empty input.
program() {
    local path=${2:-crates/$1/out/$1}
    [ -n "$2" ] || [ -x "$path" ] || (cd "crates/$1" && rt run) >"$out/$1.log" 2>&1 </dev/null || [ -x "$path" ] || { tail -n 20 "$out/$1.log" >&2; return 1; }
    realpath -e -- "$path"
}

# ends where a program cannot be compiled and linked here
compiler_ready() {
    local name
    for name in "${cc[0]}" "${tool}ld" "${tool}objcopy" "${tool}nm" "${tool}ar"; do
        command -v "$name" >/dev/null || die "there is no $name here: gcc and binutils are needed"
    done
}

# ---- the archive

# What the archive is made of, as one sum: the files that rt reads of each crate, and which crate uses which. All that are there
# count, not only those that git knows, and those behind links; but not what rt itself leaves in out/.
sources_sum() {
    find -L crates -regex 'crates/[^/]*/out' -prune -o \( -path 'crates/*/src/*' -o -path 'crates/*/specs/*' -o -path 'crates/*/proofs/*' \) ! -type d -print0 |
        LC_ALL=C sort -z | xargs -0 sha256sum -- crates.txt | sha256sum | cut -d' ' -f1
}

# The stamp that stands beside the archive: what was proved, with which kit, and what came of it. The archive's own sum is in
# it because who calls rt by hand gets another archive and no other stamp.
stamp_text() {
    local of_archive
    of_archive=$(sha256sum <"$archive") && printf 'sources %s\nkit %s\narchive %s\n' "$1" "$2" "${of_archive%% *}"
}

# archive_current SUM: whether the archive is of the sources with this sum. Where there is no rt, no other kit can be asked for.
archive_current() {
    local kit owed
    [ -f "$archive" ] && [ -f "$stamp" ] || return 1
    if command -v rt >/dev/null; then
        kit=$(rt version) || return 1
    else
        kit=$(sed -n 's/^kit //p' "$stamp") || return 1
    fi
    owed=$(stamp_text "$1" "$kit") && [ "$(cat "$stamp")" = "$owed" ]
}

# crates_of NAME: the crates that it needs, and itself, in the order in which rt proves them
crates_of() {
    awk -v wanted="$1" '
        function visit(name,    uses, count, i) {
            if (name in seen) return
            seen[name] = 1
            count = split(users[name], uses, " ")
            for (i = 1; i <= count; i++) if (uses[i] in users) visit(uses[i])
            print name
        }
        { sub(/#.*/, "") }
        # before the colon a name stands, and what kind of crate it is
        (at = index($0, ":")) { split(substr($0, 1, at - 1), words, " "); users[words[1]] = substr($0, at + 1) }
        END { visit(wanted) }
    ' crates.txt
}

# tell_crates NAME..: says at which of these crates rt is, by the lines in its output on standard input with which it starts at one.
# What it has proved before it passes over.
tell_crates() {
    local line name at
    while IFS= read -r line; do
        case $line in
        "rt: chose --jobs "*" for "*)
            at=0
            for name in "$@"; do
                at=$((at + 1))
                [ "$name" != "${line##* }" ] || say "proving crate $at of $#: $name"
            done
            ;;
        esac
    done
}

prove_archive() {
    local sources=$1 kit crates
    # what is proved is linked then, so this is not found out after minutes
    compiler_ready
    command -v rt >/dev/null || die "rt, the command of the Rattle kit, is not there: the library cannot be proved and built"
    kit=$(rt version) || die "rt version failed"
    mapfile -t crates < <(crates_of havirozan)
    say "the library is proved and built now, which takes some minutes" >&2
    rm -f "$stamp" || die "$stamp cannot be removed"
    (cd crates/havirozan && rt lib) 2>&1 </dev/null | tee "$out/lib.log" | tell_crates "${crates[@]}" >&2 ||
        { tail -n 20 "$out/lib.log" >&2; die "rt lib failed in crates/havirozan"; }
    # what was edited meanwhile may or may not be in the archive
    [ "$(sources_sum)" = "$sources" ] || die "crates/ was edited while it was proved: try again"
    # rt ci removes what it finds in out/, and not this
    cp crates/havirozan/out/libhavirozan.a "$archive.new" && mv "$archive.new" "$archive" || die "$archive cannot be written"
    stamp_text "$sources" "$kit" >"$stamp.new" || die "$stamp.new cannot be written"
    mv "$stamp.new" "$stamp" || die "$stamp cannot be written"
}

archive_ready() {
    local stamp=target/staticlib/havirozan.stamp sources lock
    archive=${HAVIROZAN_ARCHIVE:-target/staticlib/libhavirozan.a}
    if [ -n "${HAVIROZAN_ARCHIVE:-}" ]; then
        [ -f "$archive" ] || die "there is no archive $archive"
        return
    fi
    sources=$(sources_sum) || die "the files of crates/ cannot be read"
    ! archive_current "$sources" || return 0
    # two that prove at once would write the same files
    mkdir -p target/staticlib || die "target/staticlib cannot be made"
    exec {lock}>target/staticlib/havirozan.lock || die "target/staticlib cannot be written"
    ! command -v flock >/dev/null || flock "$lock" || die "target/staticlib cannot be locked"
    archive_current "$sources" || prove_archive "$sources"
    exec {lock}>&-
}
