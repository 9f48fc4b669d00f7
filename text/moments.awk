# moments.awk: reads what the display program prints of a replay, moment by moment, from the file that MOMENTS names. A moment has a line
# 'moment, true atoms, waiting goals', a line for each true atom and a line for each waiting goal; a step 'move place answer atom' leads to the next.

# The next line's numbers go into `field`. Answers how many there are, 0 at the end.
function read_numbers(    line) {
    if ((getline line < ENVIRON["MOMENTS"]) <= 0) return 0
    return split(line, field, " ")
}

# The next moment: `moment`, `is_true[atom]`, `waiting`, and for each place `waiting_number`, `waiting_free`, `waiting_step`, `waiting_method`. Answers whether
# there is one.
function read_moment(    count, i) {
    if (read_numbers() != 3) return 0
    moment = field[1] + 0
    count = field[2] + 0
    waiting = field[3] + 0
    split("", is_true)
    for (i = 0; i < count; i++) { if (read_numbers() != 1) cut_moments(); is_true[field[1] + 0] = 1 }
    for (i = 0; i < waiting; i++) {
        if (read_numbers() != 4) cut_moments()
        waiting_number[i] = field[1] + 0
        waiting_free[i] = field[2] + 0
        waiting_step[i] = field[3] + 0
        waiting_method[i] = field[4] + 0
    }
    return 1
}

# The step behind the moment: `move`, `place`, `refused` (the number, 0 where it is taken), `unmet`. Answers whether there is one. Of each step that
# uses a method it is kept at which goal: `user[step]`, by the goal's key.
function read_step() {
    if (read_numbers() != 4) return 0
    move = field[1] + 0
    place = field[2] + 0
    refused = field[3] + 0
    unmet = field[4] + 0
    if (move >= 256 && !refused) user[moment] = key_of(place)
    return 1
}

# A waiting goal is told from all others by the step that brought it in and its number there.
function key_of(place) { return waiting_step[place] " " waiting_number[place] }

# The last moment is the one that the answer speaks of, and so is the step behind it; else something was lost on the way.
function check_moments(    told) {
    split(ENVIRON["ANSWER"], told, /[ \n]/)
    if (moment != (told[1] >= 21 && told[1] <= 24 ? 0 : told[2]) || refused + 0 != (told[1] >= 25 && told[1] <= 32 ? told[1] : 0)) cut_moments()
}

function cut_moments() { print "what the display program printed is cut" > "/dev/stderr"; exit 2 }
