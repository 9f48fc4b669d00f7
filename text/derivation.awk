# derivation.awk: an accepted trace as a tree. The listing's lines, in the file that LISTING names, say which goals were released, when, and which step
# of which method brought each in; the moments of the replay say at which goals the steps were taken.

# The listing's lines: `releases` of them, `release[i]` the step of each, in the order of release, and by that step `above`, `brought`, `by_method`.
function read_listing(    line, part) {
    releases = 0
    while ((getline line < ENVIRON["LISTING"]) > 0) {
        split(line, part, " ")
        release[releases++] = part[1] + 0
        above[part[1] + 0] = (match(line, /[0-9]/) - 1) / 2
        brought[part[1] + 0] = part[2] + 0
        by_method[part[1] + 0] = part[3] + 0
    }
}

# The steps: `deed[step]`, its move, and the goal that it was taken at: `taken_at[step]`, its key, `net_at[step]`, `number_at[step]`.
function read_deeds() {
    while (read_moment() && read_step()) {
        deed[moment] = move
        taken_at[moment] = key_of(place)
        net_at[moment] = net_of(place)
        number_at[moment] = waiting_number[place]
        if (move == 0 && (brought[moment] != waiting_step[place] || by_method[moment] != waiting_method[place])) {
            print "the listing and the display differ at step " moment > "/dev/stderr"
            exit 2
        }
    }
    # The last step releases the last goal.
    if (moment != (releases ? release[releases - 1] + 1 : 0)) cut_moments()
}
