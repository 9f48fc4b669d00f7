# picture.awk: the derivation as Graphviz text. From top to bottom runs the time.

# The goal's place in the picture, by the step that brought it in and its number there.
function id_of(key,    part) { split(key, part, " "); return "goal_" part[1] "_" part[2] }

# A goal's name and, below it, what it wants, an alternative a line.
function label_text(net, number,    text) {
    text = shortened(formula(net, number))
    gsub(/ or /, "\\nor ", text)
    return (goal_label[net, number] == "" ? "" : goal_label[net, number] ":\\n") text
}

function print_goal(step,    id) {
    id = id_of(taken_at[step])
    printf "  %s [label=\"%s\\nreleased: step %d\", style=rounded]\n", id, label_text(net_at[step], number_at[step]), step
    printf "  %s -> %s\n", (brought[step] == 65535 ? "order" : "step_" brought[step]), id
}

function print_deed(step) {
    printf "  step_%d [label=\"%s\\nstep %d\", style=filled, fillcolor=%s]\n", step, move_words(deed[step]), step, (deed[step] < 256 ? "gray85" : "lightyellow")
    printf "  %s -> step_%d\n", id_of(taken_at[step]), step
}

END {
    read_names()
    say_names()
    read_listing()
    read_deeds()
    print "digraph derivation {"
    print "  rankdir=LR; ordering=out; nodesep=0.1; ranksep=0.3"
    print "  node [shape=box, fontname=\"sans-serif\", fontsize=11, margin=\"0.1,0.03\", height=0.2]; edge [arrowsize=0.5]"
    print "  order [label=\"the order\", shape=plaintext]"
    for (step = 0; step < moment; step++) if (deed[step] != 0) print_deed(step)
    for (i = 0; i < releases; i++) print_goal(release[i])
    print "}"
}
