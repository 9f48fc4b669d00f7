# show.awk: for `sheet -n -t`: the sheets of a folder as text. What the replay answers says whether the sheets pass (tell.awk); `kind` is
# shop, order or both. A line `1 TEXT` is one of the text, a line `2 TEXT` one about it. The status is 1 where a sheet is refused, and 3,
# with the reason as the only line, where one could not be read.

END {
    if (state_of["shop"] != "whole") cannot_be_read("shop")
    if (kind != "shop" && state_of["order"] != "whole") cannot_be_read("order")
    read_refusal()
    shop_passes = !(refusal && sheet == "shop")
    order_passes = shop_passes && !(refusal && sheet == "order")
    read_texts()
    if (shop_passes) decode_shop()
    if (order_passes) decode_order()
    if (shop_passes) choose_names()
    if (kind == "both") put_line("# shop.txt")
    if (kind != "order") show_shop()
    if (kind == "both") put_line("")
    if (kind == "both") put_line("# order.txt")
    if (kind != "shop") show_order()
    for (line = 1; line <= written_lines; line++) print "1 " written[line]
    if (shop_passes) say_names()
    if (!shop_passes || kind != "shop" && !order_passes) print "2 " refusal_words(sheet_words())
    exit (!shop_passes || kind != "shop" && !order_passes) ? 1 : 0
}

function cannot_be_read(name) {
    print name " could not be read"
    exit 3
}

function show_shop() {
    if (shop_passes) write_shop()
    else show_refused("shop", "# " refusal_words(sheet_words()))
}

function show_order() {
    if (order_passes) write_order()
    else show_refused("order", shop_passes ? "# " refusal_words(sheet_words()) : "# not checked: the shop is refused")
}

function say_names() {
    if (!shop_named) print "2 the names are numbers: " shop_reason
    if (kind == "shop" || !order_passes || !shop_named) return
    if (!order_named) print "2 the order\047s goals have no names of their own: " order_reason
}

# A sheet that does not pass, row by row; its words as they stand where they are not as many as its sizes say.
function show_refused(name, heading,    sizes, rows, i, first) {
    put_line(heading)
    sizes = name == "shop" ? 4 : 3
    rows = words_of[name] < sizes ? -1 : word[name, sizes - 1]
    if (words_of[name] != sizes + 2 * rows) {
        show_words(name)
        return
    }
    put_line("sizes: " words_text(name, 0, sizes) "  # " (name == "shop" ? "F K M N" : "F G N"))
    actions_shown = methods_shown = 0
    for (i = 0; i < rows; i++) {
        first = word[name, sizes + i]
        put_line("row " i ": " first " " word[name, sizes + rows + i] row_comment(first))
    }
}

function show_words(name,    i) {
    put_line("# " counted_words(words_of[name]) ", not as many as the sizes say")
    for (i = 0; i < words_of[name]; i += 10) put_line("words from " i ": " words_text(name, i, 10))
}

function counted_words(count) {
    return count " word" (count == 1 ? "" : "s")
}

# The words from `first` on, `count` of them or as many as there are.
function words_text(name, first, count,    i, text) {
    for (i = first; i < first + count && i < words_of[name]; i++) text = joined(text, word[name, i], " ")
    return text
}

function row_comment(tag) {
    if (tag == 1) return "  # action " ++actions_shown ", its cost"
    if (tag == 2) return "  # method " methods_shown++
    return tag_words(tag) == "" ? "" : "  # " tag_words(tag)
}
