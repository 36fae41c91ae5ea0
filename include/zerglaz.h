/* Zerglaz: a bucket allocator for bcachefs volumes, by six calls on lists of bytes.
 *
 * A call reads a call list: a volume, and for a placement or a release its requests. It writes a
 * change list. Apply reads a volume and a change list and writes the next volume. The fields of call
 * lists and volumes may stand in any order; sort writes the one sorted form of such a list, and apply
 * writes volumes in that order. Generations reads a volume and gives the generations of buckets.
 * docs/FORMAT.md has the bytes of these lists.
 *
 * The caller's duties:
 *
 * A history is a list of place, release and discard calls; each reads the volume last reached, of
 * which nothing but field 1, requests and the order of fields has changed. A piece is live from its
 * applied placement to the applied release that names it by first sector and length. docs/FORMAT.md,
 * "Clean volumes and histories", has both in full.
 *
 * (1) The history starts from a clean volume.
 * (2) A release names pieces that are live, none twice.
 * (3) An accepted change is applied whole before the next call, and data is written only to places
 *     whose change is applied.
 * (4) A refused apply drops its change.
 * (5) Bucket sectors stay.
 *
 * No call tests whether they are kept. A second release of a piece is refused where its bucket holds
 * too few sectors (18). Where other pieces hold enough sectors there it is accepted, and the bucket
 * can then be emptied and given to other data while a piece lies in it (examples/README.md).
 *
 * And of the arguments of each call:
 * - Each pointer is valid for its length and not null, also where the length is 0: lists, with `buckets`,
 *   for reading, `out`, `scratch`, `written` and `visited` for reading and writing. The lengths of
 *   `scratch` and `buckets` count numbers of four bytes, and `scratch`, `buckets`, `written` and
 *   `visited` are aligned as their types ask.
 * - `out`, `scratch`, `written` and `visited` overlap neither each other nor a list.
 * - At least 512 KiB of stack are left for each call (tested, not proved).
 *
 * What is proved:
 *
 * In every history that keeps duties 1 to 5, of calls in any order, accepted or refused, no sector is
 * occupied by two live pieces, each live piece lies inside its bucket and carries its generation, each
 * dirty count is the sum of its live pieces' sectors, and each bucket that the clean volume offers is
 * in exactly one of free, in use, waiting (the theorem demand3; docs/CLAIMS.md).
 *
 * Every call has one outcome over any bytes, and its code is proved to have it where the duties of
 * its arguments are kept:
 * - Accepted: 0. The answer stands at the start of `out`, `*written` is its length, and the rest of
 *   `out` is as it was.
 * - Refused: a number of `enum zerglaz_refusal`, the first whose test fails in the order of
 *   docs/FORMAT.md, "Refusals". `*written` is 0 and all of `out` is as it was.
 * Generations has `*visited` in the place of `*written`: accepted, its answer has a byte for each bucket
 * and `*visited` counts keys. What `*written` or `*visited` held before plays no part. No call allocates
 * memory or keeps anything between calls.
 *
 * What else to know:
 *
 * - A bucket wears: a discard takes a bucket while its generation is below 16, so after its sixteenth
 *   emptying it waits for ever and is not used again.
 * - A placement keeps back 32 buckets and the journal reserve (11).
 * - The archive links on x86-64 Linux alone; no other platform was tried.
 * - Power failure, the disk, what the caller writes to it, and the compiler are outside
 *   (docs/CLAIMS.md, "What is outside").
 */
#ifndef ZERGLAZ_H
#define ZERGLAZ_H

#include <stddef.h>
#include <stdint.h>

#ifdef __cplusplus
extern "C" {
#endif

/* The version: that of the Rust crate. */
#define ZERGLAZ_VERSION "0.1.0"
#define ZERGLAZ_VERSION_MAJOR 0
#define ZERGLAZ_VERSION_MINOR 1
#define ZERGLAZ_VERSION_PATCH 0

/* Limits: what passes one is refused 3, and a longer value 2 (docs/FORMAT.md, "Limits"). */
/* keys of each tree */
#define ZERGLAZ_MAX_KEYS 4096
/* reserved buckets */
#define ZERGLAZ_MAX_RESERVED 4096
/* requests of a call */
#define ZERGLAZ_MAX_REQUESTS 1024
/* buckets: their numbers are below it */
#define ZERGLAZ_MAX_BUCKETS 65536
/* buckets whose generations are asked for in one call */
#define ZERGLAZ_MAX_BUCKETS_ASKED 1024
/* bytes of a key's value */
#define ZERGLAZ_MAX_VALUE 256

/* Lengths that follow from the limits, in bytes. An output as long as the call's figure is never
 * refused 21. docs/FORMAT.md, "Lengths", has what each is made of. They are reckoned from the
 * definitions and attained by tests, and not proved. */
/* a volume, and so the output of apply: 42 + 6 * 4096 * 296 + 4096 * 7 */
#define ZERGLAZ_MAX_VOLUME 7303210
/* a call list, and so the output of sort: a volume + 1024 * 16 */
#define ZERGLAZ_MAX_CALL_LIST 7319594
/* the change list of a placement: 1024 * (64 + 104 + 40 + 72 + 7 + 18) + 4096 * 40 + 256 + 4 + 27 + 8 * 43 + 11 + 3 */
#define ZERGLAZ_MAX_PLACE_CHANGE 476805
/* of a release: 1024 * (296 + 40 + 40 + 40 + 296) + 2 * 4 + 27 + 2 * 43 + 3 */
#define ZERGLAZ_MAX_RELEASE_CHANGE 729212
/* of a discard: 4096 * (296 + 40 + 40 + 2 * 43 + 7 + 3) */
#define ZERGLAZ_MAX_DISCARD_CHANGE 1933312

/* The sums that a release's scratch holds at least: one for each bucket number. */
#define ZERGLAZ_SUMS 65536

/* What a call answers. */
enum zerglaz_refusal {
    ZERGLAZ_ACCEPTED = 0,
    /* release: the scratch has fewer than ZERGLAZ_SUMS sums */
    ZERGLAZ_SCRATCH_TOO_SHORT = 1,
    /* all: a list breaks its layout, names another call or holds another call's requests; generations: or
     * the buckets do not ascend */
    ZERGLAZ_BROKEN_LAYOUT = 2,
    /* all: a limit is passed; in apply by the volume or by the result, in generations by the volume or
     * by the buckets */
    ZERGLAZ_LIMIT_PASSED = 3,
    /* place, release: bucket sectors are 0 */
    ZERGLAZ_NO_BUCKET_SECTORS = 4,
    /* place: the checksum option is above 3 */
    ZERGLAZ_UNKNOWN_CHECKSUM_OPTION = 5,
    /* place: a compression kind is not 0, 2, 3, 4 or 5 */
    ZERGLAZ_UNKNOWN_COMPRESSION = 6,
    /* place: a compression kind other than 0 meets checksum option 0 */
    ZERGLAZ_COMPRESSION_WITHOUT_CHECKSUM = 7,
    /* place: block sectors do not divide both the bucket and 128 */
    ZERGLAZ_BLOCK_DOES_NOT_DIVIDE = 8,
    /* place: a piece's file or stored sectors are out of bounds, no blocks or not as its kind asks */
    ZERGLAZ_BAD_PIECE = 9,
    /* place: two freespace runs overlap */
    ZERGLAZ_RUNS_OVERLAP = 10,
    /* place: fewer buckets are free than are needed and kept back */
    ZERGLAZ_TOO_FEW_FREE_BUCKETS = 11,
    /* place: the walk reaches a run begun before bucket 0 */
    ZERGLAZ_RUN_BEFORE_BUCKET_ZERO = 12,
    /* place: the walk would take a bucket whose alloc key has a data type */
    ZERGLAZ_FREE_BUCKET_IN_USE = 13,
    /* release: a piece has 0 or over 128 sectors, or passes its bucket's end or bucket 65,535 */
    ZERGLAZ_BAD_RELEASE = 14,
    /* release: a bucket has no alloc key */
    ZERGLAZ_NO_ALLOC_KEY = 15,
    /* release: a bucket's alloc value is below 56 bytes */
    ZERGLAZ_ALLOC_VALUE_TOO_SHORT = 16,
    /* release: a bucket's dirty sectors exceed the bucket */
    ZERGLAZ_TOO_MANY_DIRTY_SECTORS = 17,
    /* release: more is freed of a bucket than it holds */
    ZERGLAZ_FREES_MORE_THAN_HELD = 18,
    /* release: an emptied bucket's generation record is too short for its byte */
    ZERGLAZ_GENERATION_RECORD_TOO_SHORT = 19,
    /* discard: the batch is 0 */
    ZERGLAZ_NO_BATCH = 20,
    /* all: the output is too short for the answer */
    ZERGLAZ_OUTPUT_TOO_SHORT = 21,
    /* all: two keys of a tree stand at one position, or a reserved bucket stands twice (tested directly after 2) */
    ZERGLAZ_STANDS_TWICE = 22
};

/* Chooses buckets for the pieces that the list asks to place, and writes the change list that places
 * them. Answers 0, 2 to 13, 21 or 22. */
uint32_t zerglaz_place(const uint8_t *list, size_t list_len, uint8_t *out, size_t out_len,
                       size_t *written);

/* Writes the change list that gives back the sectors of the pieces that the list names, and empties
 * the buckets that hold no more. Answers 0 to 4, 14 to 19, 21 or 22.
 * The scratch: with 1 all of it is as it was. With any other answer its first ZERGLAZ_SUMS sums are 0
 * and the others are as they were; what it held before plays no part. */
uint32_t zerglaz_release(const uint8_t *list, size_t list_len, uint32_t *scratch, size_t scratch_len,
                         uint8_t *out, size_t out_len, size_t *written);

/* Writes the change list that frees the emptied buckets which wait for their discard, in batches. With
 * nothing to discard it has no bytes. Answers 0, 2, 3 or 20 to 22. */
uint32_t zerglaz_discard(const uint8_t *list, size_t list_len, uint8_t *out, size_t out_len,
                         size_t *written);

/* Writes the volume that a volume (a call list of any call, without requests) becomes by a change
 * list. Answers 0, 2, 3, 21 or 22. */
uint32_t zerglaz_apply(const uint8_t *volume, size_t volume_len, const uint8_t *change,
                       size_t change_len, uint8_t *out, size_t out_len, size_t *written);

/* Writes the sorted form of a list of any call, with its requests or without: field 1, the keys of each
 * tree by position, the reserved buckets by number, and the requests in their own order. These are the
 * list's own fields, byte for byte, so an output as long as the list is never refused 21. The list and its
 * sorted form are the same to every call, and the sorted form is its own. Answers 0, 2, 3, 21 or 22. */
uint32_t zerglaz_sort(const uint8_t *list, size_t list_len, uint8_t *out, size_t out_len,
                      size_t *written);

/* Gives the generations of some buckets of a volume (a call list of any call, without requests), a byte
 * for each bucket, by one walk over the keys of tree 14, bucket gens.
 * Accepted: out[i] is the generation of buckets[i], the one that a placement gives that bucket in the
 * same volume. The record of bucket b is the key of type 30 at inode 0 and offset b div 256, and byte
 * b mod 256 of its value is the generation; it is 0 where there is no key, one of another type, or a
 * value that ends before that byte. The walk visits the tree's keys by position, whatever their type and
 * inode, up to and with the first past the position of the last bucket's record; all where none is past
 * it; none for no buckets. `*visited` is how many it visited, at most the number of the tree's keys.
 * Answers 0, 2, 3, 21 or 22. Its tests in order:
 * - 2: the volume breaks its layout, or a bucket is not above the one before it. All buckets are judged,
 *   also where they are too many.
 * - 22: two keys of one of the volume's trees stand at one position, or a reserved bucket stands twice.
 * - 3: the volume passes a limit, there are more than ZERGLAZ_MAX_BUCKETS_ASKED buckets, or a bucket is
 *   not below ZERGLAZ_MAX_BUCKETS.
 * - 21: the output is shorter than buckets_len. One of ZERGLAZ_MAX_BUCKETS_ASKED bytes is long enough. */
uint32_t zerglaz_generations(const uint8_t *volume, size_t volume_len, const uint32_t *buckets,
                             size_t buckets_len, uint8_t *out, size_t out_len, size_t *visited);

#ifdef __cplusplus
}
#endif

#endif
