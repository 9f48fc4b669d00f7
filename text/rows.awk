# rows.awk: takes sheets that pass apart, from the words that bytes.awk read, and chooses the names by which they are shown.
#   decode_shop()     shop_atoms, shop_actions, shop_methods, shop_rows; cost_of[k]; needs_of["action", k], makes_of["action", k],
#                     needs_of["method", m]: literals as "+3 -5", signed numbers of atoms; and the goals of each method
#   decode_order()    order_goals, order_rows; start_of: numbers of atoms, as "0 3"; and the goals of the order
#   goals             nodes_of[net]; alternatives_of[net, n]; alternative[net, n, j]: literals, as above; after_of[net, n]: numbers of
#                     goals, as "0 2"; net is the method's number or "order"; n and j count from 0
#   choose_names()    after both are decoded, or the shop alone, and the texts read: atom_label[a], action_label[k], method_label[m],
#                     goal_label[net, n] ("" for none); shop_named, order_named: whether the names are the text's; shop_reason,
#                     order_reason: why they are not
#   formula(net, n)   the goal as its text has it

function decode_shop(    i, tag, value) {
    shop_atoms = word["shop", 0]
    shop_rows = word["shop", 3]
    shop_actions = shop_methods = 0
    part_decoded = ""
    for (i = 0; i < shop_rows; i++) {
        tag = word["shop", 4 + i]
        value = word["shop", 4 + shop_rows + i]
        if (tag == 1) begin_action(value)
        else if (tag == 2) begin_method()
        else if (tag == 3 || tag == 4) needs_of[part_decoded, part_number] = joined(needs_of[part_decoded, part_number], signed(tag, value), " ")
        else if (tag == 5 || tag == 6) makes_of["action", part_number] = joined(makes_of["action", part_number], signed(tag, value), " ")
        else decode_goal_row(part_number, tag, value)
    }
}

function begin_action(cost) {
    part_decoded = "action"
    part_number = ++shop_actions
    cost_of[part_number] = cost
    needs_of["action", part_number] = makes_of["action", part_number] = ""
}

function begin_method() {
    part_decoded = "method"
    part_number = shop_methods++
    needs_of["method", part_number] = ""
    nodes_of[part_number] = 0
}

function decode_order(    i, tag, value) {
    order_rows = word["order", 2]
    nodes_of["order"] = 0
    start_of = ""
    for (i = 0; i < order_rows; i++) {
        tag = word["order", 3 + i]
        value = word["order", 3 + order_rows + i]
        if (tag == 12) start_of = joined(start_of, value, " ")
        else decode_goal_row("order", tag, value)
    }
    order_goals = nodes_of["order"]
}

function decode_goal_row(net, tag, value,    n, j) {
    if (tag == 7) {
        n = nodes_of[net]++
        alternatives_of[net, n] = 0
        after_of[net, n] = ""
        return
    }
    n = nodes_of[net] - 1
    j = alternatives_of[net, n] - 1
    if (tag == 8) {
        alternative[net, n, j + 1] = ""
        alternatives_of[net, n]++
    } else if (tag == 11) after_of[net, n] = joined(after_of[net, n], value, " ")
    else alternative[net, n, j] = joined(alternative[net, n, j], signed(tag, value), " ")
}

# A literal's number with its sign: the tags of true literals are odd.
function signed(tag, value) {
    return (tag % 2 ? "+" : "-") value
}

function joined(list, item, between) {
    return list == "" ? item "" : list between item
}

# Names.

function choose_names() {
    shop_reason = why_not("shop.txt", "shop")
    shop_named = shop_reason == ""
    order_reason = shop_named ? why_not("order.txt", "order") : shop_reason
    order_named = order_reason == ""
    label_shop()
    label_goals("order", order_named)
}

# Whether a text stands beside its sheet and is not the sheet's. Without the shop's, nothing can be said of the order's.
function shop_changed() { return !shop_named && state_of["shop.txt"] != "absent" && state_of["shop"] != "absent" }
function order_changed() { return shop_named && !order_named && state_of["order.txt"] != "absent" && state_of["order"] != "absent" }

# Why the names of a text are not those of the sheet; "" where they are: the text, turned into words, is the sheet.
function why_not(file, kind,    i) {
    if (state_of[file] == "absent") return "there is no " file
    if (state_of[file] != "whole") return file " could not be read"
    if (slips_of[file]) return file " has slips"
    if (state_of[kind] != "whole") return "there is no sheet \047" kind "\047"
    if (made_words[kind] != words_of[kind]) return file " is not the text of this sheet"
    for (i = 0; i < made_words[kind]; i++) if (made[kind, i] != word[kind, i]) return file " is not the text of this sheet"
    return ""
}

function label_shop(    i) {
    for (i = 0; i < shop_atoms; i++) atom_label[i] = shop_named ? atom_name[i] : "atom-" i
    for (i = 1; i <= shop_actions; i++) action_label[i] = shop_named ? action_name[i] : "action-" i
    for (i = 0; i < shop_methods; i++) {
        method_label[i] = shop_named ? method_name[i] : "method-" i
        label_goals(i, shop_named)
    }
}

# A goal without a name of its own has one only where an `after` must name it.
function label_goals(net, named,    n, i, count, others) {
    for (n = 0; n < nodes_of[net]; n++) goal_label[net, n] = named ? goal_name[net, n] : ""
    if (named) return
    for (n = 0; n < nodes_of[net]; n++) {
        count = split(after_of[net, n], others, " ")
        for (i = 1; i <= count; i++) goal_label[net, others[i] + 0] = "goal-" others[i]
    }
}

function formula(net, n,    j, text) {
    text = literals_text(alternative[net, n, 0])
    for (j = 1; j < alternatives_of[net, n]; j++) text = text " or " literals_text(alternative[net, n, j])
    return text
}

# The literals of one alternative, or of needs or effects, as text.
function literals_text(list,    i, count, literals, text) {
    count = split(list, literals, " ")
    for (i = 1; i <= count; i++) text = joined(text, literal_text(literals[i]), ", ")
    return count ? text : "true"
}

function literal_text(literal) {
    return (literal ~ /^-/ ? "!" : "") atom_label[substr(literal, 2) + 0]
}

# What a tag means; docs/SPECIFICATION.md 1.3.
function tag_words(tag,    meaning) {
    split("action,method,needs true,needs false,makes true,makes false,node,alternative,wanted true,wanted false,after,true at the start", meaning, ",")
    return tag >= 1 && tag <= 12 ? meaning[tag] : ""
}
