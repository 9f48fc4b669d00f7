# tell.awk: what a refusal says, and what it was found at in a sheet. ANSWER has the line of five numbers; QUESTIONS names the list of questions.

# The refusal: `refusal`, its number, `refused_at`, its place; its question, `question`; `sheet`, what that is asked of; `counts`, what the place counts.
function read_refusal(    told) {
    split(ENVIRON["ANSWER"], told, /[ \n]/)
    refusal = told[1] + 0
    refused_at = told[2] + 0
    if (refusal) read_question(refusal)
}

function read_question(number,    line, part) {
    while ((getline line < ENVIRON["QUESTIONS"]) > 0)
        if (line ~ /^ +[0-9]+ [A-Z][a-z]+ +[A-Z][a-z]+ +".*"$/) {
            split(line, part, " ")
            if (part[1] + 0 != number) continue
            sheet = tolower(part[2])
            counts = part[3]
            question = line
            gsub(/^[^"]*"|"$/, "", question)
        }
    close(ENVIRON["QUESTIONS"])
}

# What is refused, where, and what was found there, or the question alone.
function refusal_words(what) {
    return "refused (" refusal ")" where() ": " (what == "" ? "the answer is no to " quoted(question) : what)
}

function quoted(text) { return "\047" text "\047" }

function where() {
    if (counts == "Row") return " at row " refused_at " of the " sheet " sheet"
    if (counts == "Method") return " at method " refused_at " of the shop sheet"
    if (counts == "Step") return " at step " refused_at
    if (counts == "End") return " after " refused_at (refused_at == 1 ? " step" : " steps")
    return ""
}

# The words of a sheet that is too short, or not as long as its sizes say.
function length_words(kind, sizes) {
    if (state_of[kind] == "absent") return "there is no file " quoted(kind) ": " (kind == "trace" ? "./search finds one" : "./sheet -n makes one of " kind ".txt")
    if (!bytes_of[kind]) return "the file " quoted(kind) " is empty"
    if (is_text(kind)) return text_words(kind)
    if (words_of[kind] < sizes) return "words in the file: " words_of[kind]
    # No more bytes than these are read.
    return "words in the file: " words_of[kind] (bytes_of[kind] == 16388 ? " or more" : "") "; by its sizes there are " sizes + 2 * word[kind, sizes - 1]
}

# Whether the first words of a file are printable characters, blanks or line ends: then it is a text under the name of a sheet.
function is_text(kind,    i) {
    for (i = 0; i < words_of[kind] && i < 16; i++) if (!is_printed(word[kind, i] % 256) || !is_printed(int(word[kind, i] / 256))) return 0
    return words_of[kind] > 0
}

function is_printed(byte) { return byte >= 32 && byte < 127 || byte == 9 || byte == 10 || byte == 13 }

function text_words(kind) {
    if (kind == "trace") return "the file \047trace\047 is text: ./sheet trace makes words of it"
    return "the file " quoted(kind) " is text: save it as " kind ".txt, and ./sheet -n makes the sheet"
}

function size_words(kind, sizes,    i, text) {
    if (is_text(kind)) return text_words(kind)
    text = sizes == 4 ? "F K M N are" : sizes == 3 ? "F G N are" : "L is"
    for (i = 0; i < sizes; i++) text = text " " word[kind, i]
    return text
}

# A row by its numbers and its tag's meaning.
function row_words(kind, row,    sizes, rows, tag) {
    sizes = kind == "shop" ? 4 : 3
    rows = word[kind, sizes - 1]
    tag = word[kind, sizes + row]
    return quoted(tag " " word[kind, sizes + rows + row]) (tag_words(tag) == "" ? "" : ", " tag_words(tag))
}

# What was found in a sheet. The questions of the three sheets have the same last digits.
function sheet_words(    sizes, rest) {
    sizes = sheet == "shop" ? 4 : sheet == "order" ? 3 : 1
    rest = refusal % 10
    if (rest == 1 || rest == 3) return length_words(sheet, sizes)
    if (rest == 2) return size_words(sheet, sizes) (refusal == 12 ? "; the shop sheet has F " word["shop", 0] : "")
    if (rest >= 4 && rest <= 6) return row_words(sheet, refused_at) (refused_at > 0 ? "; the row before it is " row_words(sheet, refused_at - 1) : "")
    if (rest == 7) return "the last row is " row_words(sheet, word[sheet, sizes - 1] - 1)
    if (refusal == 8) return "K M are " word["shop", 1] " " word["shop", 2] "; counted: " count_tags("shop", 4, 1) " " count_tags("shop", 4, 2)
    if (refusal == 18) return "G is " word["order", 1] "; counted: " count_tags("order", 3, 7)
    return ""
}

function count_tags(kind, sizes, tag,    i, count) {
    count = 0
    for (i = 0; i < word[kind, sizes - 1]; i++) if (word[kind, sizes + i] == tag) count++
    return count
}
