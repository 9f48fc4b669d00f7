# bytes.awk: reads what `feed` (text/feed.sh) writes.
#   state_of[name]      "absent", "unread" (there, but it could not all be read) or "whole"; a file that is not given is absent
#   lines_of[name]      of a text (shop.txt, order.txt) the number of its lines; line_of[name, i] is line i, from 1, without its comment
#   glued[name, i]      1 where the comment of line i stands directly behind a word
#   unclosed[name]      1 where the last line has no end; zero_line[name]: the first line that has a byte 0, or 0
#   words_of[name]      of another file the number of its words; word[name, i] is word i, from 0; an odd last byte is dropped
# The awk that runs it must have LC_ALL=C in its environment.
# In a line a byte that is no printable ASCII stands as its number between angles, as <C3>, and so does the angle itself, <3C>.

BEGIN { name_bytes() }
$1 == "file" { begin_file($2); next }
$1 == "absent" { state_of[file_read] = "absent"; next }
$1 == "end" { end_file(); next }
{ if (reads_text) take_text(); else take_words() }

function name_bytes(    i) {
    for (i = 0; i < 256; i++) byte_shown[i] = i > 32 && i < 127 && i != 60 ? sprintf("%c", i) : sprintf("<%02X>", i)
    byte_shown[32] = " "
    state_of["shop.txt"] = state_of["order.txt"] = state_of["shop"] = state_of["order"] = state_of["trace"] = "absent"
}

function begin_file(name) {
    file_read = name
    reads_text = name ~ /\.txt$/
    state_of[name] = "unread"
    lines_of[name] = words_of[name] = bytes_of[name] = unclosed[name] = zero_line[name] = 0
    line_read = piece_read = ""
    in_comment = line_begun = in_piece = byte_before = 0
}

function end_file() {
    if (reads_text && line_begun) {
        unclosed[file_read] = 1
        end_line()
    }
    words_of[file_read] = int(bytes_of[file_read] / 2)
    state_of[file_read] = "whole"
}

# A line ends by a carriage return, a line feed, or the two in this order.
function take_text(    i, byte) {
    for (i = 1; i <= NF; i++) {
        byte = $i + 0
        if (byte == 10 && byte_before == 13) byte_before = 10
        else {
            byte_before = byte
            if (byte == 10 || byte == 13) end_line()
            else take_byte(byte)
        }
    }
}

# The pieces keep a long line from being copied at each byte.
function take_byte(byte) {
    line_begun = 1
    if (byte == 0 && !zero_line[file_read]) zero_line[file_read] = lines_of[file_read] + 1
    if (byte == 35 && !in_comment) {
        in_comment = 1
        if ((line_read piece_read) ~ /[^ ]$/) glued[file_read, lines_of[file_read] + 1] = 1
    }
    if (in_comment) return
    piece_read = piece_read byte_shown[byte]
    if (++in_piece == 256) {
        line_read = line_read piece_read
        piece_read = ""
        in_piece = 0
    }
}

function end_line() {
    line_of[file_read, ++lines_of[file_read]] = line_read piece_read
    line_read = piece_read = ""
    in_comment = line_begun = in_piece = 0
}

# Words have their low byte first.
function take_words(    i, count) {
    count = bytes_of[file_read]
    for (i = 1; i <= NF; i++) {
        if (count % 2) word[file_read, (count - 1) / 2] += 256 * $i
        else word[file_read, count / 2] = $i + 0
        count++
    }
    bytes_of[file_read] = count
}
