# state.awk: the last state of an accepted replay as `start` lines of an order's text, an atom a line.
END {
    read_names()
    say_names()
    while (read_moment() && read_step()) continue
    check_moments()
    for (atom = 0; atom < shop_atoms; atom++) if (atom in is_true) print "start " atom_label[atom]
}
