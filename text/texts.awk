# texts.awk: says where a text stands beside its sheet and is not the sheet's: somebody changed it, and `./sheet -n` was not run after that.

function changed_words(reason) { return reason (reason ~ /slips$/ ? ": ./sheet -n tells them" : ": ./sheet -n makes the sheets anew") }

END {
    read_texts()
    choose_names()
    if (shop_changed()) print changed_words(shop_reason) "; names are numbers until then"
    else if (order_changed()) print changed_words(order_reason)
}
