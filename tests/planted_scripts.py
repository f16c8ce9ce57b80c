"""The faults that tests/planted.py puts into the scripts, by file: what goes wrong, the text there, what stands
in its place, and the test that shows it."""

PROVED, ALREADY, SILENCE, MINUTES, FAILS, SAYS_NOTHING, MAKES_NOTHING = (
    f"building Progress.test_{name}"
    for name in ("a_line_a_crate", "crates_that_are_proved_already", "a_long_silence", "minutes", "an_rt_that_fails",
                 "an_rt_that_says_nothing_that_tells", "an_rt_that_makes_nothing")
)
NO_RT, NO_RT_OLD, OLD, DURING_BUILD = (
    f"building Old.test_{name}"
    for name in ("no_rt_and_nothing_built", "no_rt_and_old", "what_makes_it_old", "a_source_that_changes_during_the_build")
)
INPUT, ANOTHER_ARCHIVE, SHORT_HELP, PROGRAMS_HELP = (
    f"building Started.test_{name}"
    for name in ("words_status_and_input", "another_archive", "help_with_nothing_built", "help_is_the_programs")
)
NO_COMPILER, TWO_WORDS, IN_A_SOURCE, NEWER, WHILE_COMPILED, NOT_RUN = (
    f"building Compiled.test_{name}"
    for name in ("no_compiler", "a_compiler_of_two_words", "an_error_in_a_source", "a_part_that_is_newer",
                 "a_source_that_changes_while_it_is_compiled", "a_program_that_cannot_be_run")
)
TOGETHER, INTERRUPTS, KILLED = (
    f"building Together.test_{name}" for name in ("two_at_the_same_time", "interrupts", "a_script_that_is_killed")
)
ALL_FILES, WRONG_WORDS, NO_PREFIX, TAKEN = (
    f"installing Installed.test_{name}"
    for name in ("all_files", "words_that_are_wrong", "a_prefix_that_is_none", "a_place_that_is_taken")
)
LOST, PROGRAM_FAILS = (
    f"installing Histories.test_{name}" for name in ("lost_output", "a_program_that_fails")
)

FAULTS = {
    "cetomuhi-desk": [
        ("-h builds",
         "--help | -h) return 0", "--help) return 0", SHORT_HELP),
        ("a help that is lost is not told",
         "    put_out - <<'TEXT'", "    cat <<'TEXT'", SHORT_HELP),
        ("a program over another archive takes the clone's place",
         'if [ -n "${CETOMUHI_LIB_DIR:-}" ]; then', 'if [ "${CETOMUHI_LIB_DIR:-}" = none ]; then', ANOTHER_ARCHIVE),
        ("the help needs a compiler",
         'if [ ! -f "$archive" ] || ! has_compiler; then', 'if [ ! -f "$archive" ]; then', PROGRAMS_HELP),
    ],
    "install-programs": [
        ("a help that is lost is not told",
         "    put_out - <<TEXT\n$usage", "    cat <<TEXT\n$usage", WRONG_WORDS),
        ("a prefix that is none is told as something missing",
         'could not be made" 2', 'could not be made"', NO_PREFIX),
        ("a file keeps the permissions of its source",
         ' && chmod "$3" "$work/$1"', "", ALL_FILES),
        ("the version is another",
         "Version: $version", "Version: 1$version", ALL_FILES),
        ("the sessions come without their README",
         '"$root"/sessions/*.hex "$root/sessions/README.md"', '"$root"/sessions/*.hex', ALL_FILES),
        ("a file is moved into a folder of its name",
         '[ ! -d "$prefix/$file" ]', '[ -n "$prefix/$file" ]', TAKEN),
        ("an empty word is a prefix",
         '[ $# -ne 1 ] || [ -z "$1" ]', "[ $# -ne 1 ]", WRONG_WORDS),
    ],
    "histories": [
        ("what the program says is not looked at",
         '[ -n "$said" ] || ', "", PROGRAM_FAILS),
        ("a program that prints nothing did well",
         ' || [ ! -s "$work/lines" ]', "", PROGRAM_FAILS),
    ],
    "tools/building.sh": [
        ("words go to standard output",
         'printf \'%s: %s\\n\' "$name" "$1" >&2', 'printf \'%s: %s\\n\' "$name" "$1"', NO_RT),
        ("something missing ends with status 1",
         '"${2:-5}"', '"${2:-1}"', NO_RT),
        ("each program is there",
         'command -v "$1" >/dev/null', '[ -n "$1" ]', NO_RT),
        ("a reader that goes away is no loss",
         "141) exit 3 ;;", "141) ;;", LOST),
        ("what is started takes the input",
         '"$@" </dev/null &', '"$@" &', INPUT),
        ("what is not finished stays",
         '[ -z "$work" ] || rm -rf -- "$work"', '[ -z "$work" ] || true', IN_A_SOURCE),
        ("what runs goes on after an interrupt",
         'for group in $(jobs -p); do', 'for group in; do', INTERRUPTS),
        ("an interrupt ends with a status",
         'kill -s "$1" "$$"', "exit 1", INTERRUPTS),
        ("a hangup is no interrupt",
         "trap 'interrupted HUP' HUP\n", "", INTERRUPTS),
        ("nobody waits for another build",
         'flock -n "$lock" && return', "return", TOGETHER),
        ("a program that cannot be run is not told",
         "shopt -s execfail", "shopt -u execfail", NOT_RUN),
        ("CETOMUHI_LIB_DIR is not looked at",
         'archive="${CETOMUHI_LIB_DIR:-$root/target/staticlib}/libcetomuhi.a"',
         'archive="$root/target/staticlib/libcetomuhi.a"', ANOTHER_ARCHIVE),
        ("an archive that is not there is not told",
         '[ -f "$archive" ] || fail', '[ -n "$archive" ] || fail', ANOTHER_ARCHIVE),
        ("the sum has the file's name behind it",
         '    sum="${sum%% *}"\n', "", ANOTHER_ARCHIVE),
        ("CC is one word",
         'read -ra compiler <<<"${CC:-cc}"', 'compiler=("${CC:-cc}")', TWO_WORDS),
        ("a compiler that is missing is told, and used",
         "has_compiler || fail", "has_compiler || say", NO_COMPILER),
        ("a source that does not compile is not told",
         'wait "$!" && return\n', 'wait "$!"; return\n', IN_A_SOURCE),
        ("a newer archive is not looked at",
         '"$root/include"/*.h "$3"; do', '"$root/include"/*.h; do', NEWER),
        ("a program is as old as its compiler's end",
         'touch -r "$work/began" "$work/program" && ', "", WHILE_COMPILED),
        ("the folder of a program that is made stays",
         '    rm -rf -- "$work"\n    work=""\n', "", PROVED),
    ],
    "tools/proving.sh": [
        ("half of a file stays",
         '! [ "$1" -nt "$1.began" ] || rm -f -- "$1"', "true", KILLED),
        ("a crate stands on the first one alone",
         "k <= count; k++) visit", "k <= 1; k++) visit", PROVED),
        ("the oldest of the newer sources is told",
         '"$root/$newest" -nt "$root/$part"', '"$root/$newest" -ot "$root/$part"', NO_RT_OLD),
        ("seconds are minutes",
         "$((seconds % 60))", "$((seconds / 60))", MINUTES),
        ("crates that were proved before are not counted",
         '[ "$crate" = "$at" ] || counted', '[ "$crate" != "$at" ] || counted', ALREADY),
        ("half of a line is lost",
         'begin+="$line"', 'begin=""', ALREADY),
        ("nothing is said for long",
         '[ $((SECONDS - told)) -lt "$patience" ]', "[ $((SECONDS - told)) -lt 60 ]", SILENCE),
        ("the first lines of rt are shown",
         "tail -n 15", "head -n 15", FAILS),
        ("an rt that gives no reason is not shown",
         'tail -n 5 "$1"', "true", SAYS_NOTHING),
        ("what rt keeps makes a file old",
         "-path 'crates/*/out' -prune -o", "-path 'crates/*/none' -prune -o", OLD),
        ("a crate that is proved twice is told twice",
         ' && [ -z "${counted[$at]-}" ]; then', '; then', PROVED),
        ("a file is as new as rt's end",
         '{ [ -s "$made" ] && touch -r "$made.began" -- "$made"; } ||', '[ -s "$made" ] ||', DURING_BUILD),
        ("an rt that makes nothing did well",
         '{ [ -s "$made" ] && touch -r', '{ touch -c -r', MAKES_NOTHING),
        ("a file that is being made is used",
         'elif [ ! -e "$made" ] || [ -e "$made.began" ]; then', 'elif [ ! -e "$made" ]; then', TOGETHER),
        ("half of a file that a killed script left is kept",
         '        drop_unfinished "$made"\n', "", KILLED),
    ],
}
