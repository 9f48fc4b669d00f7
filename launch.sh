# launch.sh: what the launchers of the programs share; `replay`, `listing`, `search` and `join` source it, and `sheet` where it needs a program.
# A launcher sets `root`, the repository's folder, and `program`, its own name, and defines `usage`, which prints the usage. While rt proves,
# standard error says how long that may take, and has a line for each crate proved. Every failure ends the launcher with status 2, and a line in
# the launcher's name on standard error.

fail() {
    printf '%s: %s\n' "$program" "$*" >&2
    exit 2
}

# wrong_usage [TEXT]: ends the launcher with the usage, behind what is wrong where it is said.
wrong_usage() {
    [ $# -eq 0 ] || printf '%s: %s\n' "$program" "$*" >&2
    usage >&2
    exit 2
}

# answer_help ARGUMENTS: where the first asks for the usage, prints it and ends the launcher.
answer_help() {
    case ${1-} in
    -h | --help)
        usage 2>/dev/null || fail "cannot write the usage"
        exit 0
        ;;
    esac
}

# need_output WHAT: where standard output is closed, ends the launcher before anything is done: a file that is opened later could take its place.
need_output() { (exec 3>&1) 2>/dev/null || fail "cannot write $1: standard output is closed"; }

# choose FOLDER: sets `folder` to a name by which commands can't take it for an option.
choose() {
    [ -d "$1" ] || fail "there is no folder '$1'"
    case $1 in /*) folder=$1 ;; *) folder=./$1 ;; esac
    (cd -P -- "$folder") 2>/dev/null || fail "cannot enter the folder '$1'"
}

# program_at NAME: where rt leaves this program, and whether or not it has built it yet.
program_at() { printf '%s' "$root/crates/$1/out/$1"; }

# build NAME...: has rt prove and build the programs NAME_main where that is still to be done. Then each stands where `program_at` says.
build() {
    command -v rt >/dev/null || fail "rt, the command of the Rattle kit, is not on the PATH"
    told=no crates=
    for name; do
        # Where the build can't write, it can't tell whether a program is still what was proved.
        kept=$root/crates/${name}_main/out
        [ ! -e "$kept" ] || [ -w "$kept" ] || fail "cannot write to '$kept'"
        [ -e "$(program_at "${name}_main")" ] || tell_duration
        crates="$crates ${name}_main"
    done
    working | hand_on || fail "the program is not built: what rt said stands above"
}

# Says, once, how long rt may take.
tell_duration() {
    [ "$told" = no ] || return 0
    told=yes
    printf '%s: proving and building what is not proved yet; all of it takes about five minutes on two cores\n' "$program" >&2
}

# Has rt work, crate by crate, and writes what it says, then its status; among this, after every second, a line that says so. What rt says is
# written line by line, so that none of these stands inside another. rt builds a program only to run it, so each is run once in its own folder,
# where no sheets are: it reads nothing, writes no file, and what it prints is not handed on.
working() {
    while sleep 1 && echo "$program: a second"; do :; done 2>/dev/null &
    for crate in $crates; do
        (cd -- "$root/crates/$crate" && rt run </dev/null) 2>&1
        echo "$program: rt ended with status $?"
    done | while IFS= read -r line; do printf '%s\n' "$line"; done
}

# Reads what `working` writes, up to the last crate's end. Of a program that has not changed rt says so at once: where it says anything else, or nothing
# for three seconds, it is proving. What it says of a crate stands before the line that says that the crate is proved, and matters only where it is not. Behind the
# line that rt runs a program, which it has built then, come what the program prints and its status.
hand_on() {
    said='' silent=0 is_built=no seconds=0 of=''
    # shellcheck disable=SC2086 # names of crates, apart by blanks
    set -- $crates
    while IFS= read -r line; do
        case $is_built,$line in
        *,"$program: a second")
            seconds=$((seconds + 1)) silent=$((silent + 1))
            [ "$silent" -lt 3 ] || tell_duration
            continue
            ;;
        yes,"$program: rt ended with status "* | *,"$program: rt ended with status 0")
            said='' is_built=no
            shift
            [ $# -gt 0 ] || return 0
            ;;
        *,"$program: rt ended with status "*) break ;;
        yes,*) ;;
        *,'rt: running out/'*) is_built=yes ;;
        *,'rt: nothing has changed since the last proved build'*) ;;
        *,'crate '*': modules loaded='*)
            tell_duration
            of=${line#crate }
            of=${of%%:*}
            said="$said$line
"
            ;;
        *,'logic=proved '*)
            tell_duration
            said=''
            printf 'rt: %s proved (%s s)\n' "$of" "$seconds" >&2
            seconds=0
            ;;
        *)
            tell_duration
            said="$said$line
"
            ;;
        esac
        silent=0
    done
    printf '%s' "$said" >&2
    return 1
}

# make_work: makes the folder `$work` for what programs print; it goes away with the launcher. A launcher that has more to clear away
# defines `clear_away`.
make_work() {
    work=
    # What is begun to be cleared away is cleared away whole.
    trap 'trap "" HUP INT TERM PIPE; [ -z "$work" ] || rm -rf "$work"; clear_away' EXIT
    trap 'exit 2' HUP INT TERM PIPE
    work=$(mktemp -d) || fail "cannot make a folder for what the program prints"
}

# hand_out FILE WHAT: prints the file. Where nobody reads any more, as behind `| head`, the launcher ends and says nothing.
hand_out() {
    cat "$1" 2>/dev/null && return
    [ $? -ne 141 ] || exit 2
    fail "cannot write $2"
}

clear_away() { :; }

# replay_trace: replays the trace of `folder`. Then `answer` is what the program printed: five numbers, and the plan.
replay_trace() {
    # The program sets no exit status, so it is read off what was printed: nothing, where a file could not be read.
    answer=$(cd -P -- "$folder" && "$(program_at replay_main)") || fail "the program ended with status $?"
    [ -n "$answer" ] || exit 2
    check_answer
}

# check_answer: ends the launcher where `answer` is not whole: five numbers, then as many lines as the third says.
check_answer() {
    printf '%s\n' "$answer" | awk 'NR == 1 { numbers = NF; count = $3 } END { exit !(numbers == 5 && NR == count + 1) }' >/dev/null 2>&1 ||
        fail "the program's answer is not whole"
}

# run_into FILE PROGRAM: runs a program in `folder`, with what it prints in the file. The programs set no exit status: what one says on standard
# error is a failure, and is kept in no file, since the disk may be full.
run_into() {
    said=$( (cd -P -- "$folder" && "$(program_at "$2")") 2>&1 >"$1") || fail "$said${said:+: }the program ended with status $?"
    [ -z "$said" ] || { printf '%s\n' "$said" >&2; exit 2; }
}

# read_moments FILE: writes the moments of the replay of `folder`, as the display program prints them, into the file.
read_moments() { run_into "$1" display_main; }
