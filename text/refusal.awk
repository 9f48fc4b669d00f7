# refusal.awk: a refusal in words: its number, where, what was found there, and the question (tell.awk). A refused step is told with the state and
# the list before it, from the moments.

# The goals that still wait and that the goal at a place comes after: nodes of its own network that it names, all others where it is a method's
# last, and those of a method that was used at it.
function waiting_before(place,    net, afters, last, other, text) {
    net = net_of(place)
    afters = " " after_of[net, waiting_number[place]] " "
    last = net != "order" && waiting_number[place] == nodes_of[net] - 1
    text = ""
    for (other = 0; other < waiting; other++) {
        if (other == place) continue
        if (waiting_step[other] == waiting_step[place]) { if (!last && !index(afters, " " waiting_number[other] " ")) continue }
        else if (user[waiting_step[other]] != key_of(place)) continue
        text = text (text == "" ? "" : "; ") goal_at(other)
    }
    return text
}

function unmet_words() { return atom_label[unmet] " is not " (unmet in is_true ? "false" : "true") }

# What an action makes, or a method is for.
function effect_words() {
    if (move < 256) return "it makes " (makes_of["action", move] == "" ? "nothing" : literals_text(makes_of["action", move]))
    return "it is for " formula(move - 256, nodes_of[move - 256] - 1)
}

# What was found at a step, before which the moment is.
function step_words(number) {
    if (number == 25) return move_words(move) " at place " place ", and goals that wait: " waiting
    if (number == 26) return "move " move "; a release is 0" (shop_actions ? ", actions are 1 to " shop_actions : "") (shop_methods ? ", methods 256 to " 255 + shop_methods : "")
    if (number == 28) return move_words(move) " at goal " goal_at(place) ": it comes after goals that still wait: " waiting_before(place)
    if (number == 29) return "release of goal " goal_at(place) ": " unmet_words()
    if (number == 30) return move_words(move) " at goal " goal_at(place) ": " unmet_words()
    if (number == 31) return move_words(move) " at goal " goal_at(place) ": " effect_words()
    if (number == 32) return move_words(move) " at goal " goal_at(place) ": goals that wait: " waiting "; it brings in " nodes_of[move - 256]
    return ""
}

function still_waiting(    place, text) {
    text = ""
    for (place = 0; place < waiting; place++) text = text (text == "" ? "" : "; ") goal_at(place)
    return "still waiting: " text
}

# The lines of the texts where the move and the goal of a refused step are written.
function line_words(    text, net) {
    if (!shop_named) return ""
    text = ""
    if (move >= 1 && move <= shop_actions) text = "shop.txt:" action_line[move]
    if (move >= 256 && move < 256 + shop_methods) text = "shop.txt:" method_line[move - 256]
    if (place >= waiting) return text == "" ? "" : "  move: " text
    net = net_of(place)
    if (net == "order" && !order_named) return text == "" ? "" : "  move: " text
    return (text == "" ? "  " : "  move: " text "; ") "goal: " (net == "order" ? "order.txt:" : "shop.txt:") goal_line[net, waiting_number[place]]
}

# The moment before the refused step, or the last one.
function read_last_moment() {
    while (read_moment() && read_step() && !refused) continue
    check_moments()
}

# What a search or a join was asked.
function call_words() {
    if (refusal == 41) return "the depth is " ENVIRON["DEPTH"]
    if (refusal == 43) return "no trace of at most " ENVIRON["DEPTH"] + 0 " steps is accepted"
    if (refusal == 81) return "goals of the two orders: " word["order", 1] " and " word["second", 1]
    return ""
}

function tell(what) {
    print refusal_words(what)
    if (what != "") print "  asked: " question
}

END {
    read_refusal()
    if (refusal < 24) tell(sheet_words())
    else if (counts == "Step" || counts == "End") {
        read_names()
        read_last_moment()
        tell(counts == "End" ? still_waiting() : step_words(refusal))
        if (counts == "Step") {
            print "  step " refused_at " is move " move " at place " place
            if (line_words() != "") print line_words()
        }
    } else tell(call_words())
    print "  what to do: docs/REFUSALS.md, " refusal
}
