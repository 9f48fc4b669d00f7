# parse.awk: reads the two texts, shop.txt and order.txt, whose form docs/SHEETS.md gives; `read_texts` does it, from what bytes.awk read.
#   slips, slip[i]                      what is wrong, from 1: both texts', by rising lines, the shop's first; slips_of[file] counts a text's
#   atoms, atom_name[a]                 atoms from 0
#   actions, action_name[k], action_line[k]    actions from 1
#   methods, method_name[m], method_line[m]    methods from 0
#   goals_in[net], goal_name[net, n], goal_line[net, n]    goals from 0; net is the method's number or "order"; the name is "" for none
#   made_words[kind], made[kind, i]     the words of the sheet, for kind shop and order; none where its text, or the shop's, has a slip
# The variable `folder_named`, where it is set, is the folder as messages have it.
# A literal is kept in a group: group_size[g] literals, group_atom[g, i] rising, from 1, group_sign[g, i] "+" or "-".

BEGIN {
    split("atom action needs makes method goal start or after true", listed_word)
    for (each in listed_word) is_keyword[listed_word[each]] = 1
    split("atom action needs makes method", listed_word)
    for (each in listed_word) home_of[listed_word[each]] = "shop.txt"
    home_of["start"] = "order.txt"
    begins["shop.txt"] = "atom, action, needs, makes, method, goal, or, after"
    begins["order.txt"] = "start, goal, or, after"
    name_rule = "a name is a letter of a to z or A to Z, then such letters, digits, '-', '_' and '.'"
}

function read_texts() {
    slips = slips_of["shop.txt"] = slips_of["order.txt"] = 0
    atoms = actions = methods = groups = 0
    made_words["shop"] = made_words["order"] = 0
    split("", slips_at)
    split("", atom_number)
    split("", named_at)
    split("", goal_number)
    split("", place_said)
    goals_in["order"] = 0
    start_group = new_group()
    read_shop()
    read_order()
    gather_slips("shop.txt")
    gather_slips("order.txt")
    if (!slips_of["shop.txt"]) make_shop()
    if (!slips) make_order()
}

# Slips.

function shown(text) {
    gsub(/<3C>/, "<", text)
    return "\047" (length(text) > 40 ? substr(text, 1, 40) "..." : text) "\047"
}

# With line 0 the slip is one of the text as a whole.
function tell_slip(file, line, text) {
    keep_slip(file, line, file ":" (line ? line ":" : "") " " text)
}

function keep_slip(file, line, text) {
    slip_at[file, line, ++slips_at[file, line]] = text
    slips_of[file]++
}

function gather_slips(file,    line, i) {
    for (line = 0; line <= lines_of[file]; line++)
        for (i = 1; i <= slips_at[file, line]; i++) slip[++slips] = slip_at[file, line, i]
}

# Whether the text has lines that can be read. What is wrong with it as a whole is told here.
function can_be_read(file) {
    if (state_of[file] == "absent") keep_slip(file, 0, "there is no " file (folder_named == "" ? "" : " in \047" folder_named "\047"))
    else if (state_of[file] != "whole") keep_slip(file, 0, file " could not be read")
    else if (line_of[file, 1] ~ /^(<FF><FE>|<FE><FF>)/ && lines_of[file]) tell_slip(file, 1, "the text is UTF-16: save it as UTF-8")
    else if (zero_line[file]) tell_slip(file, zero_line[file], "a byte of value 0: this is UTF-16, or no text; save it as UTF-8")
    else {
        if (lines_of[file] && sub(/^<EF><BB><BF>/, "", line_of[file, 1]))
            tell_slip(file, 1, "the text begins with a byte order mark: save it as UTF-8 without one")
        if (unclosed[file]) tell_slip(file, lines_of[file], "the last line has no end: is the text cut?")
        return 1
    }
    return 0
}

# Words.

# Cuts a line into token[1] to token[tokens]: words, commas and colons. What looks like a blank and is none is told where `tells` is 1.
function cut_line(file, line, tells,    text) {
    text = line_of[file, line]
    if (text ~ /</) {
        if (gsub(/<09>/, " ", text) && tells) tell_slip(file, line, "a tab: write blanks")
        if (gsub(/<C2><A0>|<E2><80>(<8[0-9AB]>|<AF>)|<E3><80><80>/, " ", text) && tells)
            tell_slip(file, line, "a no-break blank, or another blank that is none of ASCII: write a blank")
    }
    gsub(/,/, " , ", text)
    gsub(/:/, " : ", text)
    tokens = split(text, token, " ")
}

function is_name(text) {
    return text ~ /^[A-Za-z][A-Za-z0-9._-]*$/ && !(text in is_keyword)
}

# Whether the word can be a name; tells where not.
function check_name(file, line, text) {
    if (is_name(text)) return 1
    if (text in is_keyword) tell_slip(file, line, shown(text) " is a word of the text form and can be no name")
    else tell_slip(file, line, shown(text) " is no name: " name_rule)
    return 0
}

# Enters a name of an atom, an action or a method.
function enter_name(file, line, kind, text) {
    if (!check_name(file, line, text)) return 0
    if ((kind, text) in named_at) {
        tell_slip(file, line, shown(text) " is " (kind == "method" ? "a" : "an") " " kind " already, in line " named_at[kind, text])
        return 0
    }
    named_at[kind, text] = line
    return 1
}

# The words of a list, token[first] to token[last], which commas separate, as listed_word[1] to listed_word[listed].
function cut_list(file, line, first, last,    i, wanted) {
    listed = 0
    # Whether a word is wanted next: 1 yes, 0 no, a comma is, 2 either, behind a slip.
    wanted = first <= last
    for (i = first; i <= last; i++) {
        if (token[i] == ",") {
            if (wanted == 1) tell_slip(file, line, i == first ? "a comma with nothing before it" : "two commas with nothing between them")
            wanted = 1
        } else if (!is_listed(file, line, i)) wanted = 2
        else {
            if (!wanted) tell_slip(file, line, "no comma between " shown(token[i - 1]) " and " shown(token[i]))
            listed_word[++listed] = token[i]
            wanted = 0
        }
    }
    if (wanted == 1 && token[last] == ",") tell_slip(file, line, "a comma with nothing behind it")
}

# Whether a word can stand in a list; tells where not.
function is_listed(file, line, i) {
    if (token[i] == "!") tell_slip(file, line, "\047!\047 stands alone: write it directly before a name")
    else if (token[i] == ":") tell_slip(file, line, "\047:\047 stands behind a goal\047s name alone")
    else if (token[i] == "true") tell_slip(file, line, "\047true\047 is a whole alternative of a goal, and no literal")
    else if (token[i] == "or") tell_slip(file, line, "\047or\047 stands between the alternatives of a goal alone")
    else if (token[i] in is_keyword) tell_slip(file, line, shown(token[i]) " begins a statement and can be no name: is a line\047s end lost?")
    else return i == 1 || token[i - 1] != "!"
    return 0
}

# Groups of literals.

function new_group() {
    group_size[++groups] = 0
    return groups
}

# Adds the words of a list to a group, as literals.
function add_literals(file, line, group,    i, sign, name) {
    for (i = 1; i <= listed; i++) {
        name = listed_word[i]
        sign = sub(/^!/, "", name) ? "-" : "+"
        if (is_atom(file, line, name)) add_literal(file, line, group, sign, atom_number[name])
    }
}

# Whether the word is an atom's name; tells where not. Where no atoms are known, of none is told that it is no atom.
function is_atom(file, line, name) {
    if (!check_name(file, line, name)) return 0
    if (name in atom_number) return 1
    if (("action", name) in named_at) tell_slip(file, line, shown(name) " is an action, and an atom is wanted")
    else if (("method", name) in named_at) tell_slip(file, line, shown(name) " is a method, and an atom is wanted")
    else if (atoms) tell_slip(file, line, shown(name) " is no atom")
    return 0
}

function add_literal(file, line, group, sign, atom,    i) {
    if ((group, atom) in place_said) return double_literal(file, line, group, sign, atom)
    for (i = group_size[group]++; i > 0 && group_atom[group, i] > atom; i--) {
        group_atom[group, i + 1] = group_atom[group, i]
        group_sign[group, i + 1] = group_sign[group, i]
    }
    group_atom[group, i + 1] = atom
    group_sign[group, i + 1] = sign
    place_said[group, atom] = line
    sign_said[group, atom] = sign
}

function double_literal(file, line, group, sign, atom,    text) {
    text = sign_said[group, atom] == sign ? " stands here twice" : " stands here with \047!\047 and without"
    if (place_said[group, atom] != line) text = text ", first in line " place_said[group, atom]
    tell_slip(file, line, shown(atom_name[atom]) text)
}

# The shop.

function read_shop(    file, line) {
    file = "shop.txt"
    block = ""
    if (!can_be_read(file)) return
    for (line = 1; line <= lines_of[file]; line++) read_atoms(file, line)
    if (!atoms) tell_slip(file, 0, "there is no atom: name one at least, \047atom NAME\047")
    for (line = 1; line <= lines_of[file]; line++) read_statement(file, line)
    end_block(file)
    check_limit(file, "atoms", atoms, 256, "a shop has")
    check_limit(file, "actions", actions, 255, "a shop has")
    check_limit(file, "methods", methods, 255, "a shop has")
    check_rows(file, shop_rows_said(), "a shop has")
}

# The atoms may stand anywhere: they are read before the rest.
function read_atoms(file, line,    i, commas) {
    if (!index(line_of[file, line], "atom")) return
    cut_line(file, line, 0)
    if (token[1] != "atom") return
    if (tokens == 1) tell_slip(file, line, "\047atom\047 wants a name at least")
    for (i = 2; i <= tokens; i++) {
        if (token[i] == ",") commas++
        else if (enter_name(file, line, "atom", token[i])) {
            if (atoms == 256) limit_line[file, "atoms"] = line
            atom_number[token[i]] = atoms
            atom_name[atoms++] = token[i]
        }
    }
    if (commas) tell_slip(file, line, "a comma: blanks alone stand between the names of atoms")
}

# A line of either text. `block` is what its goals and needs belong to: "action", "method", "order", or "" for nothing;
# `goes_on` whether a goal stands right above, which `or` and `after` go on with: 1 yes, 0 no, 2 that cannot be told, behind an unknown word.
function read_statement(file, line,    first) {
    cut_line(file, line, 1)
    if ((file, line) in glued) tell_slip(file, line, "'#' directly behind a word: write a blank before a comment; no name has a '#'")
    if (!tokens) return
    first = token[1]
    if (!(first in is_keyword) || first == "true") tell_slip(file, line, shown(first) " begins no statement: a line begins with one of " begins[file])
    else if (first in home_of && home_of[first] != file) tell_slip(file, line, shown(first) " belongs in " home_of[first])
    else if (first == "action") read_action(file, line)
    else if (first == "method") read_method(file, line)
    else if (first == "needs") read_needs(file, line)
    else if (first == "makes") read_makes(file, line)
    else if (first == "start") read_start(file, line)
    else if (first == "goal") read_goal(file, line)
    else if (first != "atom") read_more(file, line)
    if (first != "or" && first != "after") goes_on = first == "goal" ? 1 : first in is_keyword ? 0 : 2
}

# What follows on a line behind all that belongs there.
function check_rest(file, line, first, text) {
    if (tokens >= first) tell_slip(file, line, shown(token[first]) " is too much: " text)
}

function read_action(file, line) {
    end_block(file)
    block = "action"
    if (actions == 255) limit_line[file, "actions"] = line
    action_line[++actions] = line
    action_name[actions] = token[2]
    action_needs[actions] = new_group()
    action_makes[actions] = new_group()
    action_cost[actions] = 0
    if (tokens < 2) tell_slip(file, line, "\047action\047 wants a name and a cost")
    else if (enter_name(file, line, "action", token[2])) read_cost(file, line)
}

function read_cost(file, line,    cost) {
    cost = token[3]
    if (tokens < 3) tell_slip(file, line, "action " shown(token[2]) " has no cost: write a number from 0 to 65535 behind its name")
    else if (cost !~ /^[0-9]+$/) tell_slip(file, line, shown(cost) " is no number: a cost is one from 0 to 65535")
    else {
        sub(/^0+/, "", cost)
        if (length(cost) > 5 || cost + 0 > 65535) tell_slip(file, line, shown(token[3]) " is above 65,535")
        action_cost[actions] = cost + 0
        check_rest(file, line, 4, "an action has a name and a cost, a number without commas")
    }
}

function read_method(file, line) {
    end_block(file)
    block = "method"
    if (methods == 255) limit_line[file, "methods"] = line
    method_line[methods] = line
    method_name[methods] = token[2]
    method_needs[methods] = new_group()
    goals_in[methods++] = 0
    if (tokens < 2) tell_slip(file, line, "\047method\047 wants a name")
    else if (enter_name(file, line, "method", token[2])) check_rest(file, line, 3, "a method has a name alone")
}

# What the goals of a block are a network of.
function net_read() {
    return block == "order" ? "order" : methods - 1
}

function end_block(file,    net) {
    if (block != "method" && block != "order") return
    net = net_read()
    resolve_afters(file, net)
    if (block == "method") check_limit(file, "goals", goals_in[net], 63, "a method has")
    else check_limit(file, "goals", goals_in[net], 64, "an order has")
    if (block == "method") check_last(file, net)
    block = ""
}

# A method's last goal is the method's goal.
function check_last(file, net,    last) {
    last = goals_in[net] - 1
    if (last < 0) tell_slip(file, method_line[net], "method " shown(method_name[net]) " has no goal")
    else if (goal_alternatives[net, last] > 1)
        tell_slip(file, goal_line[net, last], "the last goal of a method has one alternative: it is what the method brings about")
    if (last >= 0 && after_line[net, last])
        tell_slip(file, after_line[net, last], "the last goal of a method comes after all its others of itself: leave \047after\047 out")
}

function wants_literals(file, line) {
    if (tokens == 1) tell_slip(file, line, shown(token[1]) " wants a literal at least; leave the line out where there is none")
}

function read_needs(file, line) {
    if (block == "") tell_slip(file, line, "\047needs\047 stands below an action or a method")
    else if (block == "method" && goals_in[net_read()]) tell_slip(file, line, "the needs of a method stand before its first goal")
    else {
        wants_literals(file, line)
        cut_list(file, line, 2, tokens)
        add_literals(file, line, block == "action" ? action_needs[actions] : method_needs[methods - 1])
    }
}

function read_makes(file, line) {
    if (block == "method") tell_slip(file, line, "\047makes\047 stands below an action: a method has goals")
    else if (block == "") tell_slip(file, line, "\047makes\047 stands below an action")
    else {
        wants_literals(file, line)
        cut_list(file, line, 2, tokens)
        add_literals(file, line, action_makes[actions])
    }
}

# Goals.

function read_goal(file, line,    net, from) {
    if (block != "method" && block != "order") {
        tell_slip(file, line, block == "" ? "\047goal\047 stands below a method" : "\047goal\047 stands below a method: an action has none")
        goal_read = -1
        return
    }
    net = net_read()
    goal_read = goals_in[net]++
    if (goal_read == (block == "method" ? 63 : 64)) limit_line[file, "goals"] = line
    goal_line[net, goal_read] = line
    goal_alternatives[net, goal_read] = goal_afters[net, goal_read] = after_line[net, goal_read] = 0
    from = token[2] == ":" && tokens > 1 ? 3 : token[3] == ":" && tokens > 2 ? 4 : 2
    goal_name[net, goal_read] = from == 4 ? name_goal(file, line, net, token[2]) : ""
    if (from == 3) tell_slip(file, line, "\047:\047 with no name before it")
    read_parts(file, line, net, from - 1)
}

# The goal's name, "" where it is none.
function name_goal(file, line, net, text) {
    if (!check_name(file, line, text)) return ""
    if ((net, text) in goal_number) {
        tell_slip(file, line, shown(text) " is a goal already, in line " goal_line[net, goal_number[net, text]])
        return ""
    }
    goal_number[net, text] = goal_read
    return text
}

# A line that begins with `or` or `after`.
function read_more(file, line) {
    if (!goes_on) tell_slip(file, line, shown(token[1]) " goes on with a goal, and none stands right above")
    else if (goes_on == 1 && goal_read >= 0) read_parts(file, line, net_read(), 1)
}

# The parts of a goal on one line. token[at] is the word before the first of them: `or` and `after` begin the others.
function read_parts(file, line, net, at,    i, is_after) {
    is_after = token[at] == "after"
    for (i = at + 1; i <= tokens + 1; i++) {
        if (i <= tokens && token[i] != "or" && token[i] != "after") continue
        if (is_after) read_after(file, line, net, at + 1, i - 1)
        else read_alternative(file, line, net, at + 1, i - 1)
        at = i
        is_after = token[i] == "after"
    }
}

function read_alternative(file, line, net, first, last,    group) {
    if (after_line[net, goal_read]) {
        tell_slip(file, line, "\047or\047 behind \047after\047: \047after\047 comes last in a goal")
        return
    }
    group = new_group()
    goal_group[net, goal_read, goal_alternatives[net, goal_read]++] = group
    if (first > last) tell_slip(file, line, "an alternative without literals: write \047true\047 for one that always holds")
    if (first == last && token[first] == "true") return
    cut_list(file, line, first, last)
    add_literals(file, line, group)
}

function read_after(file, line, net, first, last,    i) {
    if (after_line[net, goal_read]) {
        tell_slip(file, line, "a second \047after\047: a goal has one, with commas between the names")
        return
    }
    after_line[net, goal_read] = line
    if (first > last) tell_slip(file, line, "\047after\047 wants the name of a goal at least")
    cut_list(file, line, first, last)
    for (i = 1; i <= listed; i++) after_word[net, goal_read, i] = listed_word[i]
    goal_afters[net, goal_read] = listed
}

# The goals that `after` names, once all goals of the network are read.
function resolve_afters(file, net,    n, i) {
    for (n = 0; n < goals_in[net]; n++) {
        split("", is_after_said)
        for (i = 1; i <= goal_afters[net, n]; i++) resolve_after(file, after_line[net, n], net, n, after_word[net, n, i])
        goal_after[net, n] = ""
        for (i = 0; i < n; i++) if (i in is_after_said) goal_after[net, n] = goal_after[net, n] " " i
    }
}

function resolve_after(file, line, net, n, text,    other) {
    if ((net, text) in goal_number) {
        other = goal_number[net, text]
        if (other == n) tell_slip(file, line, shown(text) " is this goal itself: \047after\047 names earlier ones")
        else if (other > n) tell_slip(file, line, shown(text) " is a later goal, in line " goal_line[net, other] ": \047after\047 names earlier ones")
        else if (other in is_after_said) tell_slip(file, line, shown(text) " stands here twice")
        is_after_said[other] = 1
    } else if (text ~ /^!/) tell_slip(file, line, shown(text) ": \047after\047 takes the names of goals, without \047!\047")
    else if (text in atom_number) tell_slip(file, line, shown(text) " is an atom: \047after\047 takes goals, which are named so: \047goal NAME: ...\047")
    else if (check_name(file, line, text))
        tell_slip(file, line, shown(text) " is no goal of this " (net == "order" ? "order" : "method") ": goals are named so: \047goal NAME: ...\047")
}

# The order.

function read_order(    file, line) {
    file = "order.txt"
    block = "order"
    goes_on = 0
    if (!can_be_read(file)) return
    for (line = 1; line <= lines_of[file]; line++) read_statement(file, line)
    end_block(file)
    check_rows(file, order_rows_said(), "an order has")
}

function read_start(file, line,    i, kept) {
    wants_literals(file, line)
    cut_list(file, line, 2, tokens)
    kept = 0
    for (i = 1; i <= listed; i++) {
        if (listed_word[i] ~ /^!./) tell_slip(file, line, shown(listed_word[i]) ": leave it out; an atom that \047start\047 does not name is false")
        else listed_word[++kept] = listed_word[i]
    }
    listed = kept
    add_literals(file, line, start_group)
}

# Limits, docs/SPECIFICATION.md 1.2.

function check_limit(file, what, count, most, whose) {
    if (count <= most) return
    tell_slip(file, limit_line[file, what], count " " what ": " whose " at most " most)
}

function check_rows(file, count, whose) {
    if (count > 4000) tell_slip(file, 0, count " rows: " whose " at most 4,000")
}

function shop_rows_said(    i, count) {
    for (i = 1; i <= actions; i++) count += 1 + group_size[action_needs[i]] + group_size[action_makes[i]]
    for (i = 0; i < methods; i++) count += 1 + group_size[method_needs[i]] + goal_rows_said(i)
    return count
}

function order_rows_said() {
    return group_size[start_group] + goal_rows_said("order")
}

function goal_rows_said(net,    n, i, count) {
    for (n = 0; n < goals_in[net]; n++) {
        count += 1 + split(goal_after[net, n], token, " ")
        for (i = 0; i < goal_alternatives[net, n]; i++) count += 1 + group_size[goal_group[net, n, i]]
    }
    return count + 0
}

# Words of the sheets.

function make_shop(    i) {
    rows_made = 0
    for (i = 1; i <= actions; i++) {
        make_row(1, action_cost[i])
        make_literals(action_needs[i], 3)
        make_literals(action_makes[i], 5)
    }
    for (i = 0; i < methods; i++) {
        make_row(2, 0)
        make_literals(method_needs[i], 3)
        make_goals(i)
    }
    made["shop", 0] = atoms
    made["shop", 1] = actions
    made["shop", 2] = methods
    make_words("shop", 3)
}

function make_order() {
    rows_made = 0
    make_literals(start_group, 12)
    make_goals("order")
    made["order", 0] = atoms
    made["order", 1] = goals_in["order"]
    make_words("order", 2)
}

function make_row(tag, value) {
    tag_made[rows_made] = tag
    value_made[rows_made++] = value
}

# The tag of a false literal is one above that of a true one.
function make_literals(group, tag,    i) {
    for (i = 1; i <= group_size[group]; i++) make_row(group_sign[group, i] == "-" ? tag + 1 : tag, group_atom[group, i])
}

function make_goals(net,    n, i, count) {
    for (n = 0; n < goals_in[net]; n++) {
        make_row(7, 0)
        count = split(goal_after[net, n], token, " ")
        for (i = 1; i <= count; i++) make_row(11, token[i] + 0)
        for (i = 0; i < goal_alternatives[net, n]; i++) {
            make_row(8, 0)
            make_literals(goal_group[net, n, i], 9)
        }
    }
}

# The number of rows, which is the last of the sizes, then all tags, then all values.
function make_words(kind, at,    i) {
    made[kind, at++] = rows_made
    for (i = 0; i < rows_made; i++) {
        made[kind, at + i] = tag_made[i]
        made[kind, at + rows_made + i] = value_made[i]
    }
    made_words[kind] = at + 2 * rows_made
}
