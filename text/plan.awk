# plan.awk: the plan of an accepted replay with names, an action a line. ANSWER has the replay's lines.
END {
    read_names()
    say_names()
    count = split(ENVIRON["ANSWER"], planned, "\n")
    for (i = 2; i <= count; i++) print action_label[planned[i] + 0]
}
