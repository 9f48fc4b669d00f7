# naming.awk: words for atoms, moves and waiting goals, by the names that rows.awk chose.

# Reads the texts and takes the sheets, which pass, apart.
function read_names() {
    read_texts()
    decode_shop()
    decode_order()
    choose_names()
}

# Where there is no text to take names from. (What a text says that is not the sheet's is told by every launcher: texts.awk.)
function say_names() { if (state_of["shop.txt"] == "absent") print "names are numbers: there is no shop.txt" > "/dev/stderr" }

function net_of(place) { return waiting_method[place] == 65535 ? "order" : waiting_method[place] }

# A text of at most 100 characters.
function shortened(text) { return length(text) <= 100 ? text : substr(text, 1, 97) "..." }

# The goal of a network, by its name, where it has one, and by what it wants.
function goal_words(net, number,    label) {
    label = goal_label[net, number]
    return label == "" ? shortened(formula(net, number)) : label " (" shortened(formula(net, number)) ")"
}

function goal_at(place) { return goal_words(net_of(place), waiting_number[place]) }

function action_words(number) { return shop_named ? "action " action_label[number] : action_label[number] }
function method_words(number) { return shop_named ? "method " method_label[number] : method_label[number] }

function move_words(move) {
    if (move == 0) return "release"
    if (move >= 1 && move <= shop_actions) return action_words(move)
    if (move >= 256 && move < 256 + shop_methods) return method_words(move - 256)
    return "move " move
}

# Where a waiting goal came from.
function source_words(place) {
    if (waiting_method[place] == 65535) return "of the order"
    return "of " method_words(waiting_method[place]) ", step " waiting_step[place]
}

# The atoms that are true, by rising numbers and apart by commas, '-' where there are none.
function true_words(    atom, text) {
    text = ""
    for (atom = 0; atom < shop_atoms; atom++) if (atom in is_true) text = text (text == "" ? "" : ", ") atom_label[atom]
    return text == "" ? "-" : text
}
