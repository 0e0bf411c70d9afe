/* The period of a square wave, from C.
 *
 * The record holds one bit for each sample, a one where the level changes; its first sample is number 250,000 of a
 * longer stream. Every 500 samples the wave rises or falls, so a period is two edges on. The index is saved as an image,
 * opened again and checked. From a touched sample the step knob turns to the next edges. The program lends the library its
 * buffers and frees them itself. */
#include "edge_index.h"

#include <inttypes.h>
#include <stdio.h>
#include <stdlib.h>

enum { ORIGIN = 250000, SAMPLES = 1000000, HALF_PERIOD = 500, WORDS = (SAMPLES + 63) / 64 };

static int refused(const char *call, uint32_t number) {
    fprintf(stderr, "%s: refusal %" PRIu32 "\n", call, number);
    return EXIT_FAILURE;
}

int main(void) {
    static uint64_t words[WORDS];
    for (uint64_t p = 0; p < SAMPLES; p += HALF_PERIOD) {
        words[p / 64] |= UINT64_C(1) << (p % 64);
    }

    /* The default spacing; the value, percentage and logarithm of other choices are ignored. */
    uint64_t inventory_len, spill_len;
    uint32_t number = edge_index_size(words, WORDS, SAMPLES, EDGE_INDEX_ONES, EDGE_INDEX_DEFAULT, 0, 0.0, 0,
                                      &inventory_len, &spill_len);
    if (number != 0) {
        return refused("size", number);
    }
    printf("cells: %" PRIu64 " and %" PRIu64 "\n", inventory_len, spill_len);

    /* A length of 0 may come with any pointer, and calloc may give NULL for it. */
    uint64_t *inventory = calloc(inventory_len, sizeof *inventory);
    uint64_t *spill = calloc(spill_len, sizeof *spill);
    const size_t image_len = 88 + 8 * (inventory_len + spill_len);
    uint8_t *image = malloc(image_len);
    if (inventory == NULL || (spill == NULL && spill_len != 0) || image == NULL) {
        fprintf(stderr, "no memory\n");
        free(image);
        free(spill);
        free(inventory);
        return EXIT_FAILURE;
    }

    edge_index_summary summary;
    uint64_t written = 0, yes = 0, first = 0, third = 0, period = 0, words_read = 0;
    const uint64_t ranks[] = {1000, 1001, 1002};
    uint64_t places[3] = {0}, rank = 0, edge[2] = {0}, found = 0;
    const uint64_t touched = ORIGIN + 123456;
    edge_index_walker walker;
    const char *call = "build";
    number = edge_index_build(words, WORDS, SAMPLES, ORIGIN, EDGE_INDEX_ONES, EDGE_INDEX_DEFAULT, 0, 0.0, 0, inventory,
                              inventory_len, spill, spill_len, &summary);
    if (number == 0) {
        call = "write_image";
        number = edge_index_write_image(&summary, inventory, inventory_len, spill, spill_len, image, image_len, &written);
    }
    /* Next week: summary and cells come from the image, and are checked before the first jump. */
    if (number == 0) {
        call = "read_image";
        number = edge_index_read_image(image, written, inventory, inventory_len, spill, spill_len, &summary);
    }
    if (number == 0) {
        call = "check";
        number = edge_index_check(words, WORDS, SAMPLES, ORIGIN, EDGE_INDEX_ONES, EDGE_INDEX_DEFAULT, 0, 0.0, 0, &summary,
                                  inventory, inventory_len, spill, spill_len, &yes);
    }
    if (number == 0) {
        call = "select";
        number = edge_index_select(words, WORDS, &summary, inventory, inventory_len, spill, spill_len, 1000, &first);
    }
    if (number == 0) {
        number = edge_index_select(words, WORDS, &summary, inventory, inventory_len, spill, spill_len, 1002, &third);
    }
    if (number == 0) {
        call = "dwell";
        number = edge_index_dwell(words, WORDS, &summary, inventory, inventory_len, spill, spill_len, 1000, 1002,
                                  &period);
    }
    if (number == 0) {
        call = "select_list";
        number = edge_index_select_list(words, WORDS, &summary, inventory, inventory_len, spill, spill_len, ranks, 3,
                                        places, 3, &words_read);
    }
    if (number == 0) {
        call = "rank";
        number = edge_index_rank(words, WORDS, &summary, inventory, inventory_len, spill, spill_len, touched, &rank);
    }
    if (number == 0) {
        call = "open";
        number = edge_index_open(words, WORDS, &summary, touched, &walker);
    }
    if (number == 0) {
        call = "turn";
        number = edge_index_turn(words, WORDS, &walker, &edge[0], &found);
    }
    if (number == 0) {
        number = edge_index_turn(words, WORDS, &walker, &edge[1], &found);
    }
    if (number == 0) {
        printf("image: %" PRIu64 " bytes\n", written);
        printf("edges: %" PRIu64 ", checked: %s\n", summary.num, yes ? "yes" : "no");
        printf("edge 1000 at %" PRIu64 ", edge 1002 at %" PRIu64 "\n", first, third);
        printf("period: %" PRIu64 " samples\n", period);
        printf("edges 1000 to 1002 at %" PRIu64 ", %" PRIu64 ", %" PRIu64 ": %" PRIu64 " words read\n", places[0],
               places[1], places[2], words_read);

        printf("sample %" PRIu64 ": %" PRIu64 " edges before it, then %" PRIu64 " and %" PRIu64 "\n", touched, rank, edge[0],
               edge[1]);

        /* There is no edge of this rank: the call says so by number, and `first` keeps its value. */
        uint32_t no = edge_index_select(words, WORDS, &summary, inventory, inventory_len, spill, spill_len,
                                        summary.num, &first);
        printf("edge %" PRIu64 ": refusal %" PRIu32 ", still %" PRIu64 "\n", summary.num, no, first);

        /* A byte is missing. */
        no = edge_index_read_image(image, written - 1, inventory, inventory_len, spill, spill_len, &summary);
        printf("a byte less: refusal %" PRIu32 "\n", no);
    }
    free(image);
    free(spill);
    free(inventory);
    return number == 0 ? EXIT_SUCCESS : refused(call, number);
}
