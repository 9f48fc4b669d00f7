# tree.awk: the listing with names: a line for each goal in the order of release, two blanks for each goal above it.
function blanks(count,    text) { for (text = ""; count > 0; count--) text = text " "; return text }

END {
    read_names()
    say_names()
    read_listing()
    read_deeds()
    for (i = 0; i < releases; i++) {
        step = release[i]
        source = brought[step] == 65535 ? "of the order" : "of " method_words(by_method[step]) ", step " brought[step]
        print blanks(2 * above[step]) goal_words(net_at[step], number_at[step]) ", released at step " step ", " source
    }
}
