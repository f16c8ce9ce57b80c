# shellcheck shell=bash disable=SC2034,SC2154
# Sourced by tools/building.sh: builds by rt what is missing or old, and tells of each crate as it is proved.

begun="" # what rt builds

# rt writes into the file that it makes: one that is newer than its mark .began may be half of it.
drop_unfinished() {
    [ -e "$1.began" ] || return 0
    ! [ "$1" -nt "$1.began" ] || rm -f -- "$1"
    rm -f -- "$1.began"
}

# The crates that a crate stands on, and itself: those that crates.txt lists, not the kit's libraries.
closure() {
    awk -F: -v wanted="$1" '
        function visit(crate, parts, count, k) {
            if (!(crate in below) || (crate in seen)) return
            seen[crate] = 1
            print crate
            count = split(below[crate], parts, " ")
            for (k = 1; k <= count; k++) visit(parts[k])
        }
        { sub(/#.*/, "") }
        NF > 1 { sub(/[ \t].*/, "", $1); below[$1] = $2 }
        END { visit(wanted) }' "$root/crates.txt"
}

# Whether a file is there, whole, and no source of the crates is newer. Sets newest, the newest of those. What
# rt keeps in a crate's out/ is no source.
is_current() {
    local part
    newest=""
    [ -e "$1" ] && [ ! -e "$1.began" ] || return 1
    while IFS= read -r part; do
        [ -n "$newest" ] && [ "$root/$newest" -nt "$root/$part" ] || newest="$part"
    done < <(cd -- "$root" && find crates.txt "${crates[@]/#/crates/}" -path 'crates/*/out' -prune -o \
        \( -name crates.txt -o -path 'crates/*/*' \) -newer "$1" -print 2>/dev/null)
    [ -z "$newest" ]
}

so_far() {
    local seconds=$((SECONDS - since))
    if [ "$seconds" -lt 60 ]; then
        printf '%d s so far' "$seconds"
    else
        printf '%d min %02d s so far' $((seconds / 60)) $((seconds % 60))
    fi
}

# Counts a crate if this line of rt says that it is proved, and tells of it. rt says nothing of crates that it has
# proved before: once it is at work on a crate, those below it are counted.
tell() {
    local begins='^rt: chose --jobs [0-9]+ for ([A-Za-z0-9_]+)$' crate
    if [[ "$1" =~ $begins ]]; then
        at="${BASH_REMATCH[1]}"
        while IFS= read -r crate; do
            [ "$crate" = "$at" ] || counted[$crate]=yes
        done < <(closure "$at")
    elif [[ "$1" == "logic=proved "* ]] && [ -n "$at" ] && [ -z "${counted[$at]-}" ]; then
        counted[$at]=yes
        say "proved ${#counted[@]} of ${#crates[@]}: $at ($(so_far))"
    fi
}

# Follows what rt writes to standard input's file, until the process ends.
follow() {
    local line="" begin="" ended=no
    while [ "$ended" = no ]; do
        sleep "$pause"
        kill -0 "$1" 2>/dev/null || ended=yes
        while IFS= read -r line; do
            tell "$begin$line"
            begin=""
        done
        begin+="$line"
        [ $((SECONDS - told)) -lt "$patience" ] ||
            say "${#counted[@]} of ${#crates[@]} are proved, the next is at work ($(so_far))"
    done
}

# Shows the lines of rt that tell why it failed, or its last ones if none does.
show_failure() {
    local line
    {
        grep -E 'error|: no proof|: not proved|^rt: ' "$1" | grep -vE '^rt: chose |: begins with what|: proved$|: note: ' ||
            tail -n 5 "$1"
    } | tail -n 15 | while IFS= read -r line; do say "    ${line:0:300}"; done
}

# build_by_rt NAME FILE TIME
build_by_rt() {
    local made="$2" log="$root/target/log/$name-build.log" since=$SECONDS process at=""
    local -A counted=()
    [[ "$made" != *.a ]] || need_compiler # before minutes of proving: a program over the archive comes next
    say "proving ${#crates[@]} crates for $made ($3); the prover's notes: $log"
    begun="$made"
    { mkdir -p -- "${made%/*}" && : >"$made.began" && : >"$log"; } 2>/dev/null ||
        fail "$root/target cannot be written"
    start bash "$root/tools/made" "$1" >"$log" 2>&1
    process="$!"
    follow "$process" <"$log"
    if ! wait "$process"; then
        show_failure "$log"
        fail "$made could not be built: tools/made $1 failed; all that it said: $log"
    fi
    # As old as the build's begin: a source that changed since is newer.
    { [ -s "$made" ] && touch -r "$made.began" -- "$made"; } ||
        fail "tools/made $1 made no $made; all that it said: $log"
    rm -f -- "$made.began"
    begun=""
}

# made_by_rt NAME FILE TIME ELSEWHERE: builds a file of target/ if it is missing or old. TIME says how long that
# takes, ELSEWHERE what to do on a machine without rt.
made_by_rt() {
    local made="$root/$2" newest
    mapfile -t crates < <(closure "$1_c")
    [ "${#crates[@]}" -gt 0 ] || mapfile -t crates < <(closure "$1")
    [ "${#crates[@]}" -gt 0 ] || fail "$root/crates.txt does not list $1"
    is_current "$made" && return
    if have rt; then
        lock_build
        drop_unfinished "$made"
        is_current "$made" || build_by_rt "$1" "$made" "$3"
    elif [ ! -e "$made" ] || [ -e "$made.began" ]; then
        fail "$made is not built, and rt, which builds it, is not found; $4"
    else
        say "$made is older than $newest, and rt, which would build it anew, is not found: used as it is"
    fi
}
