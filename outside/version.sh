# header_version prints the version, which stands in the header alone. Sourced from the repository's root.
# shellcheck shell=bash
header_version() {
    awk '/^#define HAVIROZAN_VERSION_(MAJOR|MINOR|PATCH) [0-9]+$/ { version = version dot $3; dot = "." }
        END { print version; exit version !~ /^[0-9]+\.[0-9]+\.[0-9]+$/ }' include/havirozan.h
}
