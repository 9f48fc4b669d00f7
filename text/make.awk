# make.awk: for `sheet -n`: the words of both sheets, or with status 3 what is wrong with the texts.
# A line `counts-KIND TEXT` has what is said of a sheet; the lines `KIND ESCAPES` together have its bytes, as escapes for `printf`.

END {
    folder_named = ENVIRON["FOLDER_NAMED"]
    read_texts()
    if (slips) {
        print_slips()
        exit 3
    }
    check_older("shop", 4)
    check_older("order", 3)
    print "counts-shop " counted(atoms, "atom") ", " counted(actions, "action") ", " counted(methods, "method") ", " counted(made["shop", 3], "row")
    print "counts-order " counted(goals_in["order"], "goal") ", " counted(made["order", 2], "row")
    print_words("shop")
    print_words("order")
}

function print_slips(    i, most) {
    most = 20
    for (i = 1; i <= slips && i <= most; i++) print slip[i]
    if (slips > most) print "and " counted(slips - most, "more slip")
}

# A sheet may be replaced, and an empty file; but not what is no sheet, as a text that was saved under a sheet's name.
function check_older(kind, sizes) {
    if (state_of[kind] != "whole" || !bytes_of[kind] || words_of[kind] >= sizes && words_of[kind] == sizes + 2 * word[kind, sizes - 1]) return
    print "the file \047" kind "\047 is no sheet and would be replaced: move it away"
    exit 3
}

function counted(count, what) {
    return count " " what (count == 1 ? "" : "s")
}

function print_words(kind,    i) {
    for (i = 0; i < made_words[kind]; i++) {
        if (i % 64 == 0) printf "%s%s ", i ? "\n" : "", kind
        printf "\\%03o\\%03o", made[kind, i] % 256, int(made[kind, i] / 256)
    }
    print ""
}
