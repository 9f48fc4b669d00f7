# launching.sh: what the tests of the launchers share; they source it, at the repository's root. Before that a test sets `test`, its own name,
# and `program`, the launcher's. The folder `$work` is for the test's files and goes away with it.

work=$(mktemp -d)
trap 'chmod -R u+rwx "$work"; rm -rf "$work"' EXIT

announced="$program: proving and building what is not proved yet; all of it takes about five minutes on two cores"

# wrong TEXT: ends the test.
wrong() {
    printf '%s: %s\n' "$test" "$*"
    exit 1
}

# check NAME STATUS TEXT FOLDER: the status and the text on standard output; with status 2 a line on standard error that names the program;
# with 1 the refusal in words, by its number; with 0 nothing there, but that rt takes long, where a slow machine has it so.
check() {
    printf '%s' "$3" >"$work/wanted"
    check_file "$1" "$2" "$work/wanted" "$4"
}

# check_file NAME STATUS FILE FOLDER: the same with a text that stands in a file.
check_file() {
    status=0
    "./$program" "$4" >"$work/out" 2>"$work/err" || status=$?
    if [ "$status" != "$2" ] || ! cmp -s "$work/out" "$3"; then
        printf '%s: %s: status %s, wanted %s; printed:\n' "$test" "$1" "$status" "$2"
        head -c 400 "$work/out"
        exit 1
    fi
    check_said "$1" "$2"
}

# check_said NAME STATUS: what the run before said on standard error, as `check` has it.
check_said() {
    case $2 in
    2) grep -q "^$program: " "$work/err" || wrong "$1: nothing is said on standard error" ;;
    1)
        told=$(cut -d ' ' -f 1 "$work/out")
        grep -vx "$announced" "$work/err" | head -n 1 | grep -q "^refused ($told)" || wrong "$1: standard error does not begin with the refusal"
        grep -qx "  what to do: docs/REFUSALS.md, $told" "$work/err" || wrong "$1: standard error does not say what to do"
        ;;
    *) ! grep -vx "$announced" "$work/err" || wrong "$1: standard error has the lines above" ;;
    esac
}

# copy: a copy of the example to change.
copy() {
    rm -rf "$work/case"
    cp -R examples/long-core "$work/case"
}

# one_step MOVE: a copy of the example with a trace of this one step, at place 0.
one_step() {
    copy
    echo "1, $1 0" | ./sheet trace >"$work/case/trace"
}

# The usage: asked for, on standard output; else on standard error.
check_usage() {
    "./$program" -h >"$work/usage" 2>"$work/err" || wrong "-h: status $?"
    [ ! -s "$work/err" ] || wrong '-h: standard error is not empty'
    head -n 1 "$work/usage" | grep -q "^usage: $program " || wrong '-h: no usage'
    "./$program" --help 2>&1 | cmp - "$work/usage"
    status=0; "./$program" examples/long-core examples >"$work/out" 2>"$work/err" || status=$?
    [ "$status" = 2 ] || wrong "two folders: status $status"
    [ ! -s "$work/out" ] || wrong 'two folders: standard output is not empty'
    cmp "$work/err" "$work/usage"
    status=0; "./$program" -h >/dev/full 2>"$work/err" || status=$?
    [ "$status" = 2 ] || wrong "the usage to a full disk: status $status"
}

# program_at NAME: the program of this name, as rt leaves it.
program_at() { printf '%s' "$PWD/crates/$1/out/$1"; }

programs='replay_main listing_main search_main join_main display_main'

# stand_in: a copy of the launchers in `$work/bare`, with a stand-in for rt that does what the file `rt-does` says in each program's folder.
stand_in() {
    mkdir "$work/bare" "$work/bin"
    cp -R replay listing search join sheet launch.sh text "$work/bare/"
    for name in $programs; do mkdir -p "$work/bare/crates/$name"; done
    printf '#!/bin/sh\n. "%s/rt-does"\n' "$work" >"$work/bin/rt"
    chmod +x "$work/bin/rt"
}

is_proved=no

# stand_in_proved: the same with every program built, as if rt found nothing to prove: what rt does takes most of a launcher's time.
stand_in_proved() {
    stand_in
    is_proved=yes
    : >"$work/rt-does"
    for name in $programs; do ln -s "$PWD/crates/$name/out" "$work/bare/crates/$name/out"; done
}

# launch_bare ARGUMENTS: that launcher with that stand-in; leaves `status`, and the outputs in the files `out` and `err`.
launch_bare() {
    status=0
    PATH="$work/bin:$PATH" "$work/bare/$program" "$@" >"$work/out" 2>"$work/err" || status=$?
    [ "$is_proved" = no ] || drop_announced
}

# drop_announced: takes out of the file `err` that rt takes long, which a slow machine may have a launcher say even where nothing is to be proved.
drop_announced() {
    grep -v '^[a-z]*: proving and building what is not proved yet' "$work/err" >"$work/kept" || :
    mv "$work/kept" "$work/err"
}
