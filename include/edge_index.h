/* Decklerose: the edge index, for C. Implemented and proved in crates/edge_index_c; `sh tools/staticlib.sh` writes
 * target/staticlib/libedge_index_c.a, which needs nothing but the C library (of which it calls memset). x86-64 Linux.
 *
 * Every call returns 0, or the number of the refusal that turned it down (1 to 17, below), or EDGE_INDEX_BAD_CODE for a
 * polarity or a kind of choice that is none, which is tested first. On anything but 0 nothing behind a pointer changes.
 *
 * A record is `words_len` words, of which the first `len` bits count: bit p is bit p mod 64, lowest first, of word
 * p div 64. The edges are its ones, or its zeros, by the polarity; they are numbered from 0, the number being the rank. Where
 * the record is part of a longer stream, its origin is the sample number of bit 0; elsewhere it is 0. Jump, hint, list, next,
 * previous and the walker answer with sample numbers: the origin plus the position; and the samples that calls take are such
 * numbers. The cells and a dwell do not go by it.
 *
 * What the caller owes, since a proof cannot ask it of C: each pointer is aligned and stands for as many elements as its
 * length says, of which those that are read are initialized; what a call writes overlaps nothing else that it is lent;
 * nothing else writes meanwhile. A pointer with a length of 0 may be anything, NULL too. A summary and cells may hold
 * any numbers.
 *
 *    1  len over 2^62 - 1
 *    2  fewer than ceil(len / 64) words
 *    3  the given L over 63
 *    4  given M or maximum of M over 10
 *    5  percentage not finite or not above 0
 *    6  inventory shorter than its count; in size, that count over 2^64 - 1
 *    7  spill shorter than its count
 *    8  rank not below N (or the word's ones)
 *    9  summary: N > len, L > 63, M > 10, S or inventory count not by the rules
 *   10  cells that no index has at this rank
 *   11  dwell with a > b
 *   12  a list in which a rank is below the one before it
 *   13  a list with fewer places than ranks
 *   14  origin plus len over 2^62 - 1, as whole numbers
 *   15  bytes that are no image: a header or a byte length against the rules, as an older image's M over 10
 *   16  a place shorter than the image
 *   17  a sample below the origin, or above origin plus len; the end itself is taken
 */
#ifndef EDGE_INDEX_H
#define EDGE_INDEX_H
#include <stddef.h>
#include <stdint.h>

#ifdef __cplusplus
extern "C" {
#endif

#define EDGE_INDEX_BAD_CODE 255u

enum { EDGE_INDEX_ONES = 0, EDGE_INDEX_ZEROS = 1 };

/* The choice is four numbers: its kind, a value, a percentage and a logarithm; those that a kind does not name are ignored.
 *   DEFAULT
 *   SPAN      value: the span;  log2: the maximum of M
 *   POWER     value: L;         log2: the maximum of M
 *   OVERHEAD  percentage;       log2: the maximum of M
 *   FIXED     value: L;         log2: M
 */
enum { EDGE_INDEX_DEFAULT = 0, EDGE_INDEX_SPAN = 1, EDGE_INDEX_POWER = 2, EDGE_INDEX_OVERHEAD = 3, EDGE_INDEX_FIXED = 4 };

/* A summary is nine numbers, in this order. */
typedef struct {
    uint64_t polarity;
    uint64_t len;
    uint64_t num;                         /* N */
    uint64_t origin;                      /* the sample number of bit 0 */
    uint64_t log2_ones_per_inventory;     /* L */
    uint64_t log2_words_per_subinventory; /* M */
    uint64_t log2_ones_per_sub16;         /* S */
    uint64_t inventory_len;
    uint64_t spill_len;
} edge_index_summary;

/* Count: how many edges the record has, N.
 * Refusals 1, 2. */
uint32_t edge_index_count(const uint64_t *words, size_t words_len, uint64_t len, uint32_t polarity, uint64_t *num);

/* Plan: the summary up to S that a build with this choice would have; its origin and its two cell counts are 0.
 * Refusals 1 to 5. */
uint32_t edge_index_plan(const uint64_t *words, size_t words_len, uint64_t len, uint32_t polarity,
                         uint32_t kind, uint64_t value, double percentage, uint32_t log2, edge_index_summary *summary);

/* Size: how many cells a build with this choice writes into the inventory and into the spill.
 * Refusals 1 to 6. */
uint32_t edge_index_size(const uint64_t *words, size_t words_len, uint64_t len, uint32_t polarity,
                         uint32_t kind, uint64_t value, double percentage, uint32_t log2,
                         uint64_t *inventory_len, uint64_t *spill_len);

/* Build: writes the index into the lent cells, and its summary. The cells need not be zero before, and those past the
 * counts stay as they are; record, summary and cells are then what the calls below take.
 * Refusals, in this order: 1, 14, 2 to 7. */
uint32_t edge_index_build(const uint64_t *words, size_t words_len, uint64_t len, uint64_t origin, uint32_t polarity,
                          uint32_t kind, uint64_t value, double percentage, uint32_t log2,
                          uint64_t *inventory, size_t inventory_len, uint64_t *spill, size_t spill_len,
                          edge_index_summary *summary);

/* Check: yes is 1 where summary and cells are those that build would write, else 0; so a summary with another origin than the
 * one handed in is a no. An index that passed answers every
 * call below rightly, wherever it came from, as long as the record and the cells within the counts stay as they are. No call
 * below finds a stale index: after a restart, check before the first jump, and build anew where yes is 0.
 * Refusals as build, 14 by the origin handed in, 6 and 7 by the counts of record and choice. */
uint32_t edge_index_check(const uint64_t *words, size_t words_len, uint64_t len, uint64_t origin, uint32_t polarity,
                          uint32_t kind, uint64_t value, double percentage, uint32_t log2,
                          const edge_index_summary *summary,
                          const uint64_t *inventory, size_t inventory_len, const uint64_t *spill, size_t spill_len,
                          uint64_t *yes);

/* Jump: the sample number of the edge of this rank, on an index built or checked; on other cells, where they lead.
 * Refusals, in this order: 1, 14, 2, 9, 6, 7, 8, 10. */
uint32_t edge_index_select(const uint64_t *words, size_t words_len, const edge_index_summary *summary,
                           const uint64_t *inventory, size_t inventory_len, const uint64_t *spill, size_t spill_len,
                           uint64_t rank, uint64_t *sample);

/* Hint: the mark that a jump to this rank starts from, by its sample number, and the mark's rank. On an index built or checked
 * the mark is the edge of that rank, which is the one asked for or before it; on other cells it is what they say.
 * Refused as jump is, but that it looks for no bit from the mark on. */
uint32_t edge_index_hint(const uint64_t *words, size_t words_len, const edge_index_summary *summary,
                         const uint64_t *inventory, size_t inventory_len, const uint64_t *spill, size_t spill_len,
                         uint64_t rank, uint64_t *mark, uint64_t *mark_rank);

/* Store: where the mark of this rank is recorded. slice: 1 the inventory, 2 the spill; first: the part's first cell;
 * cells: how many it has, at least one, all within the lent slice.
 * Refused as hint is. */
uint32_t edge_index_subinventory(const uint64_t *words, size_t words_len, const edge_index_summary *summary,
                                 const uint64_t *inventory, size_t inventory_len, const uint64_t *spill, size_t spill_len,
                                 uint64_t rank, uint64_t *slice, uint64_t *first, uint64_t *cells);

/* Dwell: how many samples from the edge of rank a to that of rank b, as jump finds them.
 * Refused as jump is, for both ranks, and by 11 after 8. */
uint32_t edge_index_dwell(const uint64_t *words, size_t words_len, const edge_index_summary *summary,
                          const uint64_t *inventory, size_t inventory_len, const uint64_t *spill, size_t spill_len,
                          uint64_t a, uint64_t b, uint64_t *samples);

/* List: the sample numbers of ranks that never fall, written to the first `ranks_len` places; places past these stay as they are,
 * and so do all on a refusal. Each reading goes on from the last position, or from the rank's mark where that lies later;
 * words_read: how many words of the record were read. On an index built or checked the samples are those of single jumps, and
 * the words at most as many as theirs; on other cells both are what this walk gives. No ranks: 0 words.
 * Refusals, in this order: 1, 14, 2, 9, 6, 7, 12, 13, 8 (any rank), 10. */
uint32_t edge_index_select_list(const uint64_t *words, size_t words_len, const edge_index_summary *summary,
                                const uint64_t *inventory, size_t inventory_len, const uint64_t *spill, size_t spill_len,
                                const uint64_t *ranks, size_t ranks_len, uint64_t *places, size_t places_len,
                                uint64_t *words_read);

/* Rank: how many edges lie before a sample. It is counted on from the last entry start at or before the sample. On an index built
 * or checked the rank of an edge is its number, and the jump to a sample's rank is its next edge, where it has one; on other
 * cells the rank is what this walk gives. 10 is of entry starts that do not rise or reach len, anywhere: each call reads them all,
 * so a rank costs a read for each entry.
 * Refusals, in this order: 1, 14, 2, 9, 6, 7, 17, 10. */
uint32_t edge_index_rank(const uint64_t *words, size_t words_len, const edge_index_summary *summary,
                         const uint64_t *inventory, size_t inventory_len, const uint64_t *spill, size_t spill_len,
                         uint64_t sample, uint64_t *rank);

/* Next: the first edge at or after a sample, by the record alone: no cell is read. found: 1, or 0 where no edge is there; edge is
 * then as it was.
 * Refusals, in this order: 1, 14, 2, 9, 17. */
uint32_t edge_index_next(const uint64_t *words, size_t words_len, const edge_index_summary *summary, uint64_t sample,
                         uint64_t *edge, uint64_t *found);

/* Previous: the last edge before a sample. As next. */
uint32_t edge_index_previous(const uint64_t *words, size_t words_len, const edge_index_summary *summary, uint64_t sample,
                             uint64_t *edge, uint64_t *found);

/* A walker goes over a record from edge to edge. It is four numbers, and the words are handed in at each turn: the same that it was
 * opened over. */
typedef struct {
    uint64_t len;
    uint64_t polarity;
    uint64_t origin;
    uint64_t place; /* a sample: edges before it are behind the walker */
} edge_index_walker;

/* Open: a walker whose place is a sample. Refused as next is. */
uint32_t edge_index_open(const uint64_t *words, size_t words_len, const edge_index_summary *summary, uint64_t sample,
                         edge_index_walker *walker);

/* Turn: the first edge at or after the walker's place, which is then one past that edge. found: 1, or 0 where none is left; edge and
 * walker are then as they were.
 * Refusals, in this order, of the walker handed in: 1, 14, 2, 17 (its place). */
uint32_t edge_index_turn(const uint64_t *words, size_t words_len, edge_index_walker *walker,
                         uint64_t *edge, uint64_t *found);

/* Write image: an index as bytes, to be kept beside its capture, at the start of the lent place; bytes past the image stay as they
 * are, and so do all on a refusal. written: the image's byte length, 88 + 8 * (inventory_len + spill_len of the summary). The image
 * is u64 fields, lowest byte first: polarity, len, N, origin, L, M, S, inventory count, inventory byte offset (88), spill count, spill
 * byte offset; then the counted cells of the inventory, then those of the spill. `bytes` needs no alignment.
 * Refusals, in this order: 1, 14, 9, 6, 7, 16. */
uint32_t edge_index_write_image(const edge_index_summary *summary,
                                const uint64_t *inventory, size_t inventory_len, const uint64_t *spill, size_t spill_len,
                                uint8_t *bytes, size_t bytes_len, uint64_t *written);

/* Read image: the summary and the cells of an image, as they were when it was written; cells past the counts stay as they are, and so
 * do all on a refusal. Any cells are taken: check before the first jump, as after a restart. A polarity over 1 is 15 here.
 * Refusals, in this order: 15, 6, 7. */
uint32_t edge_index_read_image(const uint8_t *bytes, size_t bytes_len,
                               uint64_t *inventory, size_t inventory_len, uint64_t *spill, size_t spill_len,
                               edge_index_summary *summary);

/* In-word select: the position of the one of this rank in one word, and how many ones of the word remain above it: in 0x252
 * rank 1 has position 4 with 2 remaining. 0 remaining says that the word holds no further one.
 * Refusal 8. */
uint32_t edge_index_select_in_word(uint64_t word, uint64_t rank, uint64_t *position, uint64_t *remaining);

#ifdef __cplusplus
}
#endif

#endif
