# shellcheck shell=bash
# Sourced by ./cetomuhi-desk, ./install-programs and ./histories, with the script's name: builds what is missing or old, by
# rt and by a C compiler. Statuses: 2 bad use, 3 output lost, 5 something is missing or was not built.

name="$1"
unset CDPATH
root="$(cd -- "${BASH_SOURCE[0]%/*}/.." && pwd)"
patience=60 # seconds without a word to the reader
pause=0.2   # seconds between two looks at what runs
work=""     # a folder, removed at the end
beside=()   # files, removed at the end
lock=""     # a file descriptor
# shellcheck source=tools/proving.sh
. "$root/tools/proving.sh" || exit 5

say() {
    printf '%s: %s\n' "$name" "$1" >&2
    told=$SECONDS
}

# fail WORDS [STATUS]
fail() {
    say "$1"
    exit "${2:-5}"
}

have() {
    command -v "$1" >/dev/null
}

# Writes a file out, or standard input for -. A reader that went away needs no words.
put_out() {
    cat -- "$1" 2>/dev/null
    case $? in
        0) ;;
        141) exit 3 ;;
        *) fail "standard output is full or closed: what was printed is not whole" 3 ;;
    esac
}

# Starts a command in a process group of its own, so that an interrupt ends all that it started.
start() {
    set -m
    "$@" </dev/null &
    set +m
}

# Ends what runs and removes what is not finished.
clear_up() {
    local group
    for group in $(jobs -p); do
        kill -s TERM -- "-$group" 2>/dev/null
        for _ in {1..30}; do
            kill -0 "$group" 2>/dev/null || break
            sleep 0.1
        done
        kill -s KILL -- "-$group" 2>/dev/null
    done
    [ -z "$begun" ] || drop_unfinished "$begun"
    [ -z "$work" ] || rm -rf -- "$work"
    rm -f -- ${beside[@]+"${beside[@]}"}
}

interrupted() {
    trap '' INT TERM HUP
    trap - EXIT
    clear_up
    say "interrupted"
    trap - "$1"
    kill -s "$1" "$$"
}

trap clear_up EXIT
trap 'interrupted INT' INT
trap 'interrupted TERM' TERM
trap 'interrupted HUP' HUP

# One build at a time in a clone. rt inherits the lock, and keeps it if this script is killed.
lock_build() {
    [ -z "$lock" ] || return 0
    { mkdir -p -- "$root/target/log" "$root/target/tools" && : >>"$root/target/build.lock"; } 2>/dev/null ||
        fail "$root/target cannot be written"
    have flock || return 0
    exec {lock}>>"$root/target/build.lock"
    flock -n "$lock" && return
    say "waits for another build in $root"
    start flock "$lock"
    while kill -0 "$!" 2>/dev/null; do
        sleep "$pause"
        [ $((SECONDS - told)) -lt "$patience" ] || say "still waits for another build"
    done
    wait "$!" || fail "$root/target/build.lock could not be locked"
}

# Hands over to a program, without the lock.
run_instead() {
    [ -z "$lock" ] || exec {lock}>&-
    shopt -s execfail
    # shellcheck disable=SC2093 # what follows is for a program that is none
    exec "$@"
    fail "$1 cannot be run"
}

# Sets archive: the clone's, or that in CETOMUHI_LIB_DIR, for which nothing is built.
find_archive() {
    archive="${CETOMUHI_LIB_DIR:-$root/target/staticlib}/libcetomuhi.a"
}

archive_made() {
    find_archive
    if [ -z "${CETOMUHI_LIB_DIR:-}" ]; then
        made_by_rt cetomuhi target/staticlib/libcetomuhi.a "some minutes from nothing" \
            "on a machine that has it, ./install-programs PREFIX, then copy PREFIX here: its programs need no rt"
    fi
    [ -f "$archive" ] || fail "$archive is not there"
}

# Sets sum, the SHA-256 of a file.
find_sum() {
    sum="$({ sha256sum || shasum -a 256; } <"$1" 2>/dev/null)"
    sum="${sum%% *}"
    [ "${#sum}" -eq 64 ] || fail "the SHA-256 of $1 is needed, and neither sha256sum nor shasum gives it"
}

has_compiler() {
    read -ra compiler <<<"${CC:-cc}"
    have "${compiler[0]-}"
}

need_compiler() {
    has_compiler || fail "a C compiler is needed, and ${CC:-cc} is not found (CC names another)"
}

# compile OUT FOLDER ARCHIVE [OPTION...]: compiles tools/FOLDER over an archive.
compile() {
    local out="$1" folder="$root/tools/$2" archive="$3" line
    shift 3
    need_compiler
    start "${compiler[@]}" -std=c11 -O2 -I"$root/include" "$@" "$folder"/*.c "$archive" -o "$out" \
        >"$work/said" 2>&1
    wait "$!" && return
    while IFS= read -r line; do say "    $line"; done <"$work/said"
    fail "$folder could not be compiled by ${CC:-cc}"
}

# Whether no part of a program is newer: its sources and their folder, the headers, the archive.
is_compiled() {
    local part
    [ -x "$1" ] || return 1
    for part in "$root/tools/$2" "$root/tools/$2"/*.[ch] "$root/include"/*.h "$3"; do
        ! [ "$part" -nt "$1" ] || return 1
    done
}

# program_made FILE FOLDER ARCHIVE: compiles a program of target/ if it is missing or old.
program_made() {
    is_compiled "$@" && return
    lock_build
    is_compiled "$@" && return
    { mkdir -p -- "${1%/*}" && work="$(mktemp -d "$1.XXXXXX")" && : >"$work/began"; } 2>/dev/null ||
        fail "${1%/*} cannot be written"
    compile "$work/program" "$2" "$3"
    { touch -r "$work/began" "$work/program" && mv -f -- "$work/program" "$1"; } ||
        fail "$1 could not be written"
    rm -rf -- "$work"
    work=""
}
