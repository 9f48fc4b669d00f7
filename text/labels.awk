# labels.awk: the names of a shop's atoms, actions and methods, by their numbers, where its text is the sheet's; else nothing.
END {
    read_names()
    if (!shop_named) exit
    for (i = 0; i < shop_atoms; i++) print "atom " atom_label[i]
    for (i = 1; i <= shop_actions; i++) print "action " action_label[i]
    for (i = 0; i < shop_methods; i++) print "method " method_label[i]
}
