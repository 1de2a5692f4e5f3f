# shellcheck shell=bash
# What the scripts in bash share. Each sources this once it has set `root`, the folder of the checkout.

# A script's head, the comment at its top, is what it prints for --help.
case "${1-}" in
    -h | --help) exec sed -n '2,/^[^#]/s/^# \{0,1\}//p' "$0" ;;
esac

# Ends the script with one line that says why.
stop() {
    local script="${0#./}"
    echo "${script#"$root/"}: $1" >&2
    exit 1
}

# Ends it where one of these tools is missing, with what to do.
needs() {
    local tool
    for tool; do
        command -v "$tool" > /dev/null && continue
        case "$tool" in
            rt) stop "no rt: install the Rattle kit that README.md names, and put its rt on the path" ;;
            ar | nm | objcopy) stop "no $tool: install binutils (Debian: apt-get install binutils)" ;;
            aarch64-linux-gnu-*) stop "no $tool: install one (Debian: apt-get install gcc-aarch64-linux-gnu)" ;;
            cargo) stop "no cargo: install Rust 1.74 or later (https://rustup.rs), and put its cargo on the path" ;;
            "${CC:-cc}") stop "no C compiler $tool: install one (Debian: apt-get install gcc), or name it by CC" ;;
            *) stop "no $tool: install it (Debian: apt-get install $tool)" ;;
        esac
    done
}

# Sees to it that the variables which name the archives do so, wherever a script goes. What none names ./library builds.
take_archives() {
    local archive
    SCTP_CHANNELS_ARCHIVE="${SCTP_CHANNELS_ARCHIVE:-$("$root/library" channels)}"
    SCTP_ASSOC_ARCHIVE="${SCTP_ASSOC_ARCHIVE:-$root/out/libsctp_assoc.a}"
    for archive in "$SCTP_ASSOC_ARCHIVE" "$SCTP_CHANNELS_ARCHIVE"; do
        [ -f "$archive" ] || stop "no archive at $archive: build both by './library channels', or name them"
    done
    SCTP_ASSOC_ARCHIVE="$(realpath "$SCTP_ASSOC_ARCHIVE")"
    SCTP_CHANNELS_ARCHIVE="$(realpath "$SCTP_CHANNELS_ARCHIVE")"
    export SCTP_ASSOC_ARCHIVE SCTP_CHANNELS_ARCHIVE
}

# The version that the headers tell.
version() {
    awk '/^#define SCTP_ASSOC_VERSION_(MAJOR|MINOR|PATCH) / { printf "%s%s", dot, $3; dot = "." }' \
        "$root/include/sctp_assoc.h"
}

# What pkg-config reads of an archive: the name of that; how the folder above it and above the headers is called from
# where this file lies, so that all of them can be moved together; and the archive's folder in that one.
pc() {
    local what="the association layer of SCTP, without input or output"
    [ "$1" = sctp_assoc ] || what="data channels over $what"
    cat << END
prefix=\${pcfiledir}/$2
libdir=\${prefix}/$3
includedir=\${prefix}/include

Name: $1
Description: $what
Version: $(version)
Cflags: -I\${includedir}
Libs: -L\${libdir} -l$1
END
}

# The C tests in host/ that run over an archive by themselves, each of which ends with 0 if it passed.
# shellcheck disable=SC2034 # host/run and host/aarch64 read it
c_tests="edges messages long_message codes names questions identities tokens handshake sacks requests hostile datagrams
    restart lengths gap_blocks in_flight timeouts resets streams windows window stopped limits giving_up shutdown
    watching channels dcep closing early heap refused_memory mutated heal"
