# write.awk: the texts of decoded sheets (rows.awk), in the form that docs/SHEETS.md gives: `write_shop` and `write_order` add the lines to
# written[1] to written[written_lines].

BEGIN { widest = 100 }

function put_line(text) {
    written[++written_lines] = text
}

function write_shop(    i) {
    begin_list("", "atom", " ")
    for (i = 0; i < shop_atoms; i++) put_item(atom_label[i])
    end_list()
    for (i = 1; i <= shop_actions; i++) write_action(i)
    for (i = 0; i < shop_methods; i++) write_method(i)
}

function write_action(k) {
    put_line("")
    put_line("action " action_label[k] " " cost_of[k])
    write_literals("needs", needs_of["action", k])
    write_literals("makes", makes_of["action", k])
}

function write_method(m,    n) {
    put_line("")
    put_line("method " method_label[m])
    write_literals("needs", needs_of["method", m])
    for (n = 0; n < nodes_of[m]; n++) write_goal("  ", m, n)
}

function write_order(    i, n, count, start) {
    begin_list("", "start", ", ")
    count = split(start_of, start, " ")
    for (i = 1; i <= count; i++) put_item(atom_label[start[i] + 0])
    end_list()
    if (count && order_goals) put_line("")
    for (n = 0; n < order_goals; n++) write_goal("", "order", n)
}

function write_literals(keyword, list,    i, count, literals) {
    begin_list("  ", keyword, ", ")
    count = split(list, literals, " ")
    for (i = 1; i <= count; i++) put_item(literal_text(literals[i]))
    end_list()
}

# A list of items behind a keyword. Where it gets too long, the next line begins with the keyword again, which adds to the same group.

function begin_list(indent, keyword, between) {
    list_begin = indent keyword " "
    list_between = between
    list_line = ""
}

function put_item(item) {
    if (list_line != "" && length(list_line list_between item) > widest) end_list()
    list_line = list_line == "" ? list_begin item : list_line list_between item
}

function end_list() {
    if (list_line != "") put_line(list_line)
    list_line = ""
}

# A goal, which goes on in lines that begin with `or` or `after` where it gets too long.
function write_goal(indent, net, n,    j) {
    goal_text = indent "goal " (goal_label[net, n] == "" ? "" : goal_label[net, n] ": ") literals_text(alternative[net, n, 0])
    for (j = 1; j < alternatives_of[net, n]; j++) put_part(indent, "or " literals_text(alternative[net, n, j]))
    if (after_of[net, n] != "") put_part(indent, "after " goals_text(net, after_of[net, n]))
    put_line(goal_text)
}

function put_part(indent, part) {
    if (length(goal_text) + 1 + length(part) <= widest) goal_text = goal_text " " part
    else {
        put_line(goal_text)
        goal_text = indent "  " part
    }
}

# The names of the goals with these numbers.
function goals_text(net, list,    i, count, others, text) {
    count = split(list, others, " ")
    for (i = 1; i <= count; i++) text = joined(text, goal_label[net, others[i] + 0], ", ")
    return text
}
