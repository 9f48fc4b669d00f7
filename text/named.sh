# named.sh: the commands of `sheet` on texts with names; `sheet` sources it, with `root`, the repository, and calls `named` with what follows
# its -n. docs/SHEETS.md says how the texts are written. The awk files beside this one do the work; no proof speaks of them.

program=sheet
. "$root/launch.sh" || exit 2
. "$root/text/feed.sh" || exit 2

# named [FOLDER], named -t [FOLDER [shop|order]]
named() {
    answer_help "$@"
    need_output "the answer"
    case ${1-} in
    -t)
        shift
        [ $# -le 2 ] || wrong_usage
        case ${2-order} in
        shop | order) ;;
        *) wrong_usage "the kind '$2' is none of shop and order" ;;
        esac
        choose "${1-.}"
        show_sheets "${1-.}" "${2-both}"
        ;;
    *)
        [ $# -le 1 ] || wrong_usage
        choose "${1-.}"
        write_sheets "${1-.}"
        ;;
    esac
}

# read_named MAIN ARGUMENTS: what an awk program made of the awk files and `MAIN`, with its END rule, prints for the lines of `feed`.
read_named() {
    main=$1
    shift
    FOLDER_NAMED=$shown_folder QUESTIONS=$root/text/questions.rs awk "$@" -f "$root/text/bytes.awk" -f "$root/text/parse.awk" -f "$root/text/rows.awk" \
        -f "$root/text/write.awk" -f "$root/text/tell.awk" -f "$root/text/$main" 2>/dev/null
}

# write_sheets FOLDER: writes both sheets from their texts, or nothing.
write_sheets() {
    shown_folder=$1
    made=$(feed "$folder" shop.txt order.txt shop order | read_named make.awk)
    case $? in
    0) ;;
    3)
        printf '%s\n' "$made" | sed 's/^/sheet: /' >&2
        exit 2
        ;;
    *) fail "awk failed" ;;
    esac
    new_shop='' new_order=''
    trap 'remove_new' EXIT
    trap 'exit 129' HUP
    trap 'exit 130' INT
    trap 'exit 143' TERM
    trap 'exit 2' PIPE
    for kind in shop order; do
        [ ! -d "$folder/$kind" ] || fail "'$kind' in '$1' is a folder"
    done
    choose_new shop
    new_shop=$new
    choose_new order
    new_order=$new
    fill_new || fail "cannot write to the folder '$1'"
    # From here on the sheets change: no signal may come between the two.
    trap '' HUP INT TERM
    said='' changed=no
    place_new shop "$new_shop"
    place_new order "$new_order"
    if [ "$changed" = yes ] && [ -e "$folder/trace" ]; then
        said="${said}trace: older than these sheets; it stays, and ./search finds a new one
"
    fi
    printf '%s' "$said" 2>/dev/null || fail "the sheets are written, but not what is said of them"
}

remove_new() {
    [ -z "$new_shop" ] || rm -f -- "$new_shop"
    [ -z "$new_order" ] || rm -f -- "$new_order"
}

# choose_new KIND: a name in the folder that nothing has, as `new`.
choose_new() {
    tries=0
    new=$folder/.$1.$$
    while [ -e "$new" ] || [ -L "$new" ]; do
        tries=$((tries + 1))
        new=$folder/.$1.$$.$tries
    done
}

# Writes the words of both sheets to the new files.
fill_new() {
    (
        set -C
        printf '%s\n' "$made" | while IFS=' ' read -r kind part; do
            # shellcheck disable=SC2059 # the words are escapes, and only a format writes byte 0
            case $kind in
            shop) printf "$part" >&3 || exit 1 ;;
            order) printf "$part" >&4 || exit 1 ;;
            esac
        done 3>"$new_shop" 4>"$new_order"
    ) 2>/dev/null
}

# place_new KIND FILE: moves a new file into its place, where its bytes are others than those that stand there, and adds to `said`.
place_new() {
    counts=$(printf '%s\n' "$made" | sed -n "s/^counts-$1 //p")
    if [ -f "$folder/$1" ] && cmp -s -- "$2" "$folder/$1"; then
        counts="$counts; as it was"
    else
        [ ! -e "$folder/$1" ] || counts="$counts; replaced an older sheet"
        mv -f -- "$2" "$folder/$1" 2>/dev/null || fail "cannot put '$1' in its place$([ "$changed" = no ] || echo "; 'shop' is written")"
        changed=yes
    fi
    said="$said$1: $counts
"
}

# show_sheets FOLDER KIND: shows a sheet, or both, as text. That a sheet passes is said by the proved replay.
show_sheets() {
    shown_folder=$1
    [ -e "$folder/shop" ] || fail "there is no shop in '$1'"
    [ "$2" = shop ] || [ -e "$folder/order" ] || fail "there is no order in '$1'"
    build replay
    replay_trace
    shown=$(feed "$folder" shop.txt order.txt shop order | ANSWER=$answer read_named show.awk -v kind="$2")
    status=$?
    case $status in
    0 | 1) ;;
    3) fail "$shown" ;;
    *) fail "awk failed" ;;
    esac
    printf '%s\n' "$shown" | sed -n 's/^2 /sheet: /p' >&2
    printf '%s\n' "$shown" | sed -n 's/^1 //p' 2>/dev/null || fail "cannot write the text"
    exit "$status"
}
