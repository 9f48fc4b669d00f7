/*
 * Searches for a trace: reads the files `shop` and `order` of the current folder, and writes the words of the first of the shortest traces to
 * standard output. On standard error it says number and place of the search's answer.
 * Exit status: 0 found and written; 1 refused; 2 a file that can't be read, or a trace that can't be written.
 */
#include "liropuva.h"

#include <stdio.h>

/* The words of a file, `most` of them or fewer; whether it could be read. */
static int read_words(const char *name, uint16_t *into, size_t most, size_t *count) {
    FILE *file = fopen(name, "rb");
    int failed;
    if (!file) {
        perror(name);
        return 0;
    }
    *count = fread(into, sizeof *into, most, file);
    failed = ferror(file);
    if (failed)
        perror(name);
    fclose(file);
    return !failed;
}

int main(void) {
    /* A word more than the largest sheet has, so that a longer file is refused and not cut. */
    static uint16_t shop[HGN_MOST_SHOP_WORDS + 1], order[HGN_MOST_ORDER_WORDS + 1], trace[HGN_MOST_SEARCH_WORDS];
    size_t shop_words, order_words, trace_words;
    uint32_t answer[HGN_SEARCH_ANSWER];

    if (!read_words("shop", shop, HGN_MOST_SHOP_WORDS + 1, &shop_words) ||
        !read_words("order", order, HGN_MOST_ORDER_WORDS + 1, &order_words))
        return 2;
    hgn_search(shop, shop_words, order, order_words, HGN_MOST_DEPTH, trace, HGN_MOST_SEARCH_WORDS, answer);
    fprintf(stderr, "%u %u\n", (unsigned)answer[0], (unsigned)answer[1]);
    if (answer[0] != 0)
        return 1;

    trace_words = 1 + 2 * (size_t)answer[1];
    /* What fwrite takes may still stand in a buffer: only closing tells whether it was written. */
    int written = fwrite(trace, sizeof *trace, trace_words, stdout) == trace_words;
    if (fclose(stdout) != 0 || !written) {
        perror("find: the trace is not written");
        return 2;
    }
    return 0;
}
