# names.awk: for tests/names and tests/names-shown, with the files of text/: sheets that pass, and what must hold of their texts.
# `part` says what is done: "cases" has the sheets of the case program's cases, "made" sheets that are made here, with numbers from `first`
# to `last`, "files" the same written as files below the folder FOLDER of the environment, one folder for each.
# The last line says how many sheets there were; else there is a line for each that is wrong, and status 1.

END {
    if (part == "cases") run_cases()
    else for (number = first; number <= last; number++) {
        make_sheets(number)
        if (part == "files") write_files(ENVIRON["FOLDER"] "/" number)
        else check_sheets("made " number)
    }
    if (failed) exit 1
    print sheets_checked + 0
}

function wrong(text) {
    if (!failed) print text
    failed = 1
}

# What must hold.

# Takes the sheets in `word` apart, as if they stood in a folder without texts.
function decode_sheets() {
    sheets_checked++
    state_of["shop"] = state_of["order"] = "whole"
    state_of["shop.txt"] = state_of["order.txt"] = "absent"
    decode_shop()
    decode_order()
    choose_names()
}

# Of the sheets in `word`: their text with numbers for names is read as the same words, and written again as the same text; and
# so is their text with other names.
function check_sheets(what) {
    decode_sheets()
    if (shop_named || order_named) wrong(what ": names without a text")
    check_text(what)
    other_names()
    check_text(what " with other names")
}

# The text with the labels as they stand. It is kept in `text_kept`, as one string for each line.
function check_text(what,    i) {
    take_text_of("shop.txt")
    take_text_of("order.txt")
    read_texts()
    if (slips) wrong(what ": " slip[1])
    check_words(what, "shop")
    check_words(what, "order")
    choose_names()
    if (!shop_named) wrong(what ": " shop_reason)
    if (!order_named) wrong(what ": " order_reason)
    check_again(what, "shop.txt")
    check_again(what, "order.txt")
}

function write_text_of(file) {
    written_lines = 0
    if (file == "shop.txt") write_shop()
    else write_order()
}

function take_text_of(file,    i) {
    write_text_of(file)
    state_of[file] = "whole"
    lines_of[file] = written_lines
    unclosed[file] = zero_line[file] = 0
    for (i = 1; i <= written_lines; i++) {
        line_of[file, i] = written[i]
        # Only one alternative, or one `after`, makes a line that is too long.
        if (length(written[i]) > 100 && (written[i] !~ /^ *(goal|or|after) / || written[i] ~ /[^ ] (or|after) /)) wrong(file ": a long line: " written[i])
    }
}

function check_words(what, kind,    i) {
    if (made_words[kind] != words_of[kind]) wrong(what ": " kind ": other words")
    for (i = 0; i < words_of[kind]; i++) if (made[kind, i] != word[kind, i]) wrong(what ": " kind ": another word " i)
}

function check_again(what, file,    i) {
    write_text_of(file)
    if (written_lines != lines_of[file]) wrong(what ": " file ": other lines")
    for (i = 1; i <= written_lines; i++) if (written[i] != line_of[file, i]) wrong(what ": " file ": another line " i)
}

# Names of several lengths. A goal that no `after` names has one or not.
function other_names(    i) {
    for (i = 0; i < shop_atoms; i++) atom_label[i] = "A" i substr("-at_the.BARK-of-the-long-core", 1, i % 29)
    for (i = 1; i <= shop_actions; i++) action_label[i] = i % 3 ? "A" i : "orate-" i
    for (i = 0; i < shop_methods; i++) {
        method_label[i] = i % 3 ? "A" i : "afterwards." i
        other_goal_names(i)
    }
    other_goal_names("order")
}

function other_goal_names(net,    n) {
    for (n = 0; n < nodes_of[net]; n++) if (goal_label[net, n] != "" || n % 3 == 1) goal_label[net, n] = (n % 2 ? "A" : "trues-") n
}

# The sheets of the cases.

# A case `CALL: NAME; SHOP | ORDER | ...`, or a line `with SHOP | ORDER`; docs/REFUSALS.md says how they are written. The line of the
# other file that stands at the case's place has its number.
function run_cases(    line, printed, call, parts, with) {
    while ((getline line <"crates/cases_main/stdin") > 0) {
        if (line ~ /^with /) with = substr(line, 6)
        if (line == "" || line ~ /^(#|with )/) continue
        if ((getline printed <"crates/cases_main/stdout") <= 0) wrong("no printed line for: " line)
        call = line
        sub(/:.*/, "", call)
        if (!passes(call, printed)) continue
        sub(/^[^;]*;/, "", line)
        sub(/^ *same *\|/, with " |", line)
        split(line, parts, "|")
        run_case(parts[1], call == "shop" ? "" : parts[2], printed)
    }
}

# Whether the shop sheet and, but for a shop's case, the order sheet passed. The number stands behind the name; a name has no colon.
function passes(call, printed,    number) {
    if (call !~ /^(shop|order|trace|replay|search|join)$/ || index(printed, call) != 1) return 0
    number = printed
    if (call ~ /^(shop|order|trace)$/) sub(/ [0-9]+$/, "", number)
    else sub(/^[^:]*:[^:]*: /, "", number)
    if (call ~ /^(shop|order|trace)$/) sub(/.* /, "", number)
    return number + 0 == 0 || number + 0 > 20
}

function run_case(shop, order, what) {
    if ((shop, order) in is_run) return
    is_run[shop, order] = 1
    take_numbers("shop", shop)
    take_numbers("order", order == "" ? number_at["shop", 0] " 0 0" : order)
    rows_to_words(what, "shop", 4)
    rows_to_words(what, "order", 3)
    check_sheets(what)
}

# The numbers of a part, as number_at[kind, i]; `3(7 0, 11 n)` is what stands in the brackets three times, with n 0, 1 and 2.
function take_numbers(kind, text,    pieces, count, i, j, begin, end) {
    gsub(/,/, " ", text)
    gsub(/\(/, " ( ", text)
    gsub(/\)/, " ) ", text)
    count = split(text, pieces, " ")
    numbers[kind] = 0
    for (i = 1; i <= count; i++) {
        if (pieces[i] != "(") {
            number_at[kind, numbers[kind]++] = pieces[i] + 0
            continue
        }
        begin = i + 1
        while (pieces[i] != ")") i++
        end = number_at[kind, --numbers[kind]]
        for (j = 0; j < end; j++) take_repeated(kind, pieces, begin, i - 1, j)
    }
}

function take_repeated(kind, pieces, begin, end, n,    i) {
    for (i = begin; i <= end; i++) number_at[kind, numbers[kind]++] = pieces[i] == "n" ? n : pieces[i] + 0
}

# From rows, tag beside value, to words, all tags before all values.
function rows_to_words(what, kind, sizes,    rows, i) {
    rows = number_at[kind, sizes - 1]
    for (i = 0; i < sizes; i++) word[kind, i] = number_at[kind, i]
    for (i = 0; i < rows; i++) {
        word[kind, sizes + i] = number_at[kind, sizes + 2 * i]
        word[kind, sizes + rows + i] = number_at[kind, sizes + 2 * i + 1]
    }
    words_of[kind] = sizes + 2 * rows
    if (numbers[kind] != words_of[kind]) wrong(what ": " kind ": not as many numbers as its sizes say")
}

# Sheets that are made here.

# A number from 0 to most - 1. The product stays below two to the power of 53, so that every awk makes the same.
function random(most) {
    seed = seed * 16807 % 2147483647
    return int(seed / 8) % most
}

# Every hundredth pair of sheets is as large as sheets get, every seventh has 256 atoms.
function make_sheets(number,    large, i) {
    seed = 1000003 * (number + 1) % 2147483647
    for (i = 0; i < 5; i++) random(2)
    large = number % 100 == 0
    atoms_made = number % 7 == 0 ? 256 : 1 + random(12)
    actions_made = large ? 255 - random(3) : random(7)
    methods_made = large ? 255 - random(3) : random(5)
    make_random_shop(large)
    make_random_order(large)
}

function begin_rows(kind, sizes) {
    kind_made = kind
    numbers[kind] = sizes
}

function add_row(tag, value) {
    number_at[kind_made, numbers[kind_made]++] = tag
    number_at[kind_made, numbers[kind_made]++] = value
}

function count_rows(sizes) {
    return (numbers[kind_made] - sizes) / 2
}

# A group of literals: mostly few of many atoms; at times none. A large sheet has few, for the room that 4,000 rows are.
function add_group(tag, large,    a, share) {
    share = large ? 300 : random(4) == 0 ? 1000000 : 1 + random(atoms_made)
    for (a = 0; a < atoms_made; a++) if (random(share) == 0) add_row(tag + (tag == 12 ? 0 : random(2)), a)
}

function make_random_shop(large,    i) {
    begin_rows("shop", 4)
    for (i = 1; i <= actions_made; i++) {
        add_row(1, random(3) ? random(100) : random(65536))
        add_group(3, large)
        add_group(5, large)
    }
    for (i = 0; i < methods_made; i++) {
        add_row(2, 0)
        add_group(3, large)
        if (i == methods_made - 1 && large) add_filling(4, 2)
        else if (!large) add_goals(random(random(9) ? 5 : 63), 0)
        add_row(7, 0)
        add_row(8, 0)
        add_group(9, large)
        while (large && i == methods_made - 1 && count_rows(4) > 4000) numbers["shop"] -= 2
    }
    number_at["shop", 0] = atoms_made
    number_at["shop", 1] = actions_made
    number_at["shop", 2] = methods_made
    number_at["shop", 3] = count_rows(4)
    rows_to_words(what, "shop", 4)
}

function make_random_order(large) {
    begin_rows("order", 3)
    add_group(12, large)
    goals_made = large ? 64 : random(random(9) ? 6 : 65)
    add_goals(large ? 63 : goals_made, large)
    if (large) add_filling(3, 0)
    number_at["order", 0] = atoms_made
    number_at["order", 1] = goals_made
    number_at["order", 2] = count_rows(3)
    rows_to_words(what, "order", 3)
}

# Goals with up to five alternatives each, and many afters or none.
function add_goals(count, large,    n, i, share) {
    for (n = 0; n < count; n++) {
        add_row(7, 0)
        share = large ? 2 : random(3) == 0 ? 1000000 : 1 + random(6)
        for (i = 0; i < n; i++) if (random(share) == 0) add_row(11, i)
        for (i = random(5); i >= 0; i--) {
            add_row(8, 0)
            add_group(9, large)
        }
    }
}

# A goal with so many alternatives that the sheet has 4,000 rows with `rest` more.
function add_filling(sizes, rest) {
    add_row(7, 0)
    add_row(8, 0)
    while (count_rows(sizes) < 3998 - rest) {
        add_row(8, 0)
        if (random(3)) add_row(9 + random(2), random(atoms_made))
    }
    while (count_rows(sizes) < 4000 - rest) add_row(8, 0)
}

# Files.

# The texts with other names, and the rows as `sheet shop` and `sheet order` read them.
function write_files(folder) {
    decode_sheets()
    other_names()
    write_file(folder, "shop.txt")
    write_file(folder, "order.txt")
    write_rows(folder "/shop.rows", "shop", 4)
    write_rows(folder "/order.rows", "order", 3)
}

function write_file(folder, file,    i) {
    write_text_of(file)
    printf "" >(folder "/" file)
    for (i = 1; i <= written_lines; i++) print written[i] >(folder "/" file)
    close(folder "/" file)
}

function write_rows(file, kind, sizes,    i) {
    for (i = 0; i < sizes; i++) printf "%d ", number_at[kind, i] >file
    print "" >file
    for (i = sizes; i < numbers[kind]; i += 2) print number_at[kind, i], number_at[kind, i + 1] >file
    close(file)
}
