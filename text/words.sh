# words.sh: names and words for what the programs answer; the launchers source it behind launch.sh. `folder`, `root`, `work` and `answer` are the
# launcher's. What is told is made by awk from the files of the folder and from what the proved programs print; no proof speaks of it.

. "$root/text/feed.sh" || exit 2
work='' answer='' depth='' second=''

# name_files MAIN: runs the awk program text/MAIN.awk on the files of `folder`.
name_files() {
    { feed "$folder" shop.txt order.txt shop order trace; feed_second; } |
        ANSWER=$answer DEPTH=$depth MOMENTS=$work/moments LISTING=$work/printed QUESTIONS=$root/text/questions.rs LC_ALL=C awk \
            -f "$root/text/bytes.awk" -f "$root/text/parse.awk" -f "$root/text/rows.awk" -f "$root/text/moments.awk" -f "$root/text/naming.awk" \
            -f "$root/text/derivation.awk" -f "$root/text/tell.awk" -f "$root/text/$1.awk"
}

# A join has a second order; it goes by the name `second`.
feed_second() { [ -z "$second" ] || feed "$second" order | sed 's/^file order$/file second/'; }

# refuse_other_names: ends the launcher where the shops of two folders, which are one sheet, have texts that name its atoms, actions or methods apart.
refuse_other_names() {
    folder=$first
    names=$(name_files labels 2>/dev/null)
    folder=$second
    other_names=$(name_files labels 2>/dev/null)
    [ -z "$names" ] || [ -z "$other_names" ] || [ "$names" = "$other_names" ] ||
        fail "the texts shop.txt of the two folders have other names for one sheet: an atom must mean the same in both"
}

# show MAIN: prints what text/MAIN.awk makes of the files, and says on standard error where the names are numbers, and why.
show() {
    name_files "$1" >"$work/shown" 2>"$work/said" || { cat "$work/said" >&2; fail "cannot put the answer into words"; }
    hand_out "$work/shown" "the answer"
    sed "s/^/$program: /" "$work/said" >&2
}

# tell_texts [WHERE]: says where a text of `folder` is not that of its sheet, in the launcher's name.
tell_texts() {
    name_files texts 2>/dev/null | while IFS= read -r line; do printf '%s: %s%s\n' "$program" "${1-}" "$line"; done >&2
}

# tell_refusal: says in words what `answer`, a line of five numbers, refuses. A refused step is told with the state and the list before it. Where
# no words can be found, as without the display program, the number is told alone: the answer is printed, and its status stays.
tell_refusal() {
    (
        [ -n "$work" ] || make_work
        : >"$work/moments"
        case $answer in
        2[5-9]\ * | 3[0-3]\ *) read_moments "$work/moments" ;;
        esac
        name_files refusal
    ) >&2 || printf 'refused (%s)\n' "${answer%% *}" >&2
}

# tell_join_refusal: the same of a join. Its numbers do not say which order a sheet's refusal is of: the replay of the first alone does.
tell_join_refusal() {
    folder=$first
    case $answer in
    1[1-8]\ *)
        told=$(replay_trace 2>/dev/null; printf '%s' "$answer")
        case $told in 1[1-8]\ *) ;; *) folder=$second ;; esac
        printf 'of the two orders, the one in %s:\n' "$folder" >&2
        ;;
    esac
    tell_refusal
}
