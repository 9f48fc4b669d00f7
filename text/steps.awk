# steps.awk: a replay step by step: the step, the atoms that it changed, and the waiting goals in their places, '*' at those that are free, each
# with where it came from; up to the end or the refused step, with the whole state there.

# The atoms that differ from those of the moment before, as literals.
function print_changes(    atom, text) {
    text = ""
    for (atom = 0; atom < shop_atoms; atom++)
        if ((atom in is_true) != (atom in was_true)) text = text (text == "" ? "" : ", ") (atom in is_true ? "" : "!") atom_label[atom]
    if (text != "") print "  changed: " text
}

function print_waiting(    place) {
    if (!waiting) print "  nothing waits"
    for (place = 0; place < waiting; place++)
        printf "  %s %2d %s, %s\n", (waiting_free[place] ? "*" : " "), place, goal_at(place), source_words(place)
}

function keep_state(    atom) {
    split("", was_true)
    for (atom in is_true) was_true[atom] = 1
}

function step_words() { return move_words(move) " at place " place (place < waiting ? ", " goal_at(place) : "") }

# Whether the sheets passed, so that there are moments.
function refused_by_steps(    told) { split(ENVIRON["ANSWER"], told, /[ \n]/); return told[1] == 0 || told[1] > 20 }

END {
    read_names()
    say_names()
    while (read_moment()) {
        if (moment == 0) { print "start"; print "  true: " true_words() }
        else print_changes()
        print_waiting()
        if (!read_step()) { if (moment > 0) { print "end"; print "  true: " true_words() } break }
        print "step " moment ": " step_words() (refused ? ": refused (" refused ")" : "")
        if (refused) { print "  true: " true_words(); break }
        keep_state()
    }
    if (refused_by_steps()) check_moments()
}
