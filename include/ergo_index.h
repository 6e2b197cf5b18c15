/* The C interface of the proved Ergo segment index. Link target/staticlib/libergo_index.a (include/archive.sh makes it of the crate
 * ergo_index_c), x86-64 Linux.
 *
 * Conventions, the same for every function:
 * - The result is a code: 0 where the call was accepted, otherwise the number of its refusal (ERGO_INDEX_*). Functions that refuse nothing return
 *   what their comment says.
 * - A refused call changes nothing: every out and every byte and number behind a pointer is as it was, unless its comment says what.
 * - A slice is a pointer and a number of elements. Pointers are never null, also those of empty slices. What a call may change must not overlap
 *   anything else that the call is given.
 * - A head is a list of at least 512 numbers beside a length (0 to 512) and a spill count. The places behind its length may hold anything.
 * - A record list (staged spills, segments table) is `count` records of ERGO_INDEX_RECORD_SIZE bytes in a buffer for `capacity` of them; deleted
 *   spills are `count` keys of 32 bytes in a buffer for `capacity` of them. What stands behind the count may hold anything.
 * - 25 is tested first everywhere, for all that the call is given: a head length above 512, a head shorter than 512 numbers, a count above its
 *   capacity, a buffer too short for its capacity, a record that states a row above ERGO_INDEX_ROW_LIMIT bytes, a key that stands twice in one list,
 *   more than 128 tokens, a row or record above its limit.
 *
 * The functions keep no state and allocate nothing, so they may be called from any thread. They call memcpy, memmove and memset of the C library and
 * nothing else. A call needs less than 128 KiB of stack, one of a batch or of its undo less than 256 KiB. */
#ifndef ERGO_INDEX_H
#define ERGO_INDEX_H

#include <stdbool.h>
#include <stddef.h>
#include <stdint.h>

#ifdef __cplusplus
extern "C" {
#endif

/* ---- codes */
#define ERGO_INDEX_ACCEPTED 0
#define ERGO_INDEX_BYTES_END 1                   /* the bytes end inside a field */
#define ERGO_INDEX_NUMBER_TOO_LARGE 2            /* a coded number does not fit its width */
#define ERGO_INDEX_NEGATIVE_LENGTH 3             /* a list's length is negative */
#define ERGO_INDEX_LIST_TOO_LONG 4               /* a list has more than 512 numbers */
#define ERGO_INDEX_LENGTH_ABOVE_BYTES_LEFT 5     /* a length is above the bytes that are left */
#define ERGO_INDEX_NEGATIVE_SPILL_COUNT_READ 6   /* a row's spill count is negative */
#define ERGO_INDEX_BAD_FLAG 7                    /* an address record's flag is neither 00 nor 01 */
#define ERGO_INDEX_BYTES_LEFT_OVER 8             /* bytes are left over behind a row or record */
#define ERGO_INDEX_TARGET_IS_MINIMUM 9           /* the target is -2^63 */
#define ERGO_INDEX_HEAD_OUT_OF_ORDER 10          /* the head holds -2^63, or its absolute values fall */
#define ERGO_INDEX_NEGATIVE_SPILL_COUNT 11       /* the head's spill count is negative */
#define ERGO_INDEX_ROW_MISSING 12                /* a row is neither staged nor in the table */
#define ERGO_INDEX_ROW_OUT_OF_ORDER 13           /* a row has not 512 numbers, or is out of order as in 10 */
#define ERGO_INDEX_NO_COPY_OF_THAT_SIGN 14       /* the target was seen, but no copy of the wanted sign */
#define ERGO_INDEX_TARGET_NOT_SEEN 15            /* the target was not seen */
#define ERGO_INDEX_STAGING_FULL 16               /* the staged spills are full, and the key is not among them */
#define ERGO_INDEX_NEGATIVE_NUMBER 17            /* the number to append is negative */
#define ERGO_INDEX_SPILL_COUNT_AT_LIMIT 18       /* the spill count is 2,147,483,647 */
#define ERGO_INDEX_NOTHING_TO_POP 19             /* the head is empty and has spilled no row */
#define ERGO_INDEX_ROW_WITHOUT_NUMBERS 20        /* the row to pop from has no number of that kind */
#define ERGO_INDEX_DELETED_FULL 21               /* the deleted spills are full, and the key is not among them */
#define ERGO_INDEX_TABLE_FULL 22                 /* the table has no room for the rows to be flushed */
#define ERGO_INDEX_AMOUNT_OUT_OF_RANGE 23        /* a sum or difference leaves 64 signed bits */
#define ERGO_INDEX_TOO_MANY_TOKENS 24            /* a 129th token */
#define ERGO_INDEX_BUFFERS 25                    /* a buffer, count or capacity; see above */
#define ERGO_INDEX_UNDO_ENTRY_EMPTY 26           /* an undo entry without a byte */
#define ERGO_INDEX_UNDO_ENTRY_ID_CUT 27          /* an undo entry ends inside its header id */
#define ERGO_INDEX_UNDO_ENTRY_TAG 28             /* an undo entry's tag is neither 00 nor 01 */
#define ERGO_INDEX_UNDO_ENTRY_NUMBERS_CUT 29     /* an undo entry ends inside its numbers */
#define ERGO_INDEX_UNDO_ENTRY_LEFT_OVER 30       /* bytes are left over behind an undo entry */
#define ERGO_INDEX_UNKNOWN_CALL 31               /* a call of a batch is unknown; no result, see ERGO_INDEX_END_NO_CALL */
#define ERGO_INDEX_OUTPUT_TOO_SHORT 32           /* the output is too short */
#define ERGO_INDEX_PAGE_TOO_LONG 33              /* a page of more than 64 numbers is asked for */
#define ERGO_INDEX_NUMBER_PADDED 34              /* a coded number longer than one byte ends in 00; tested directly after 2 */
#define ERGO_INDEX_ROW_OF_ANOTHER_SPILL 35       /* a row of edition 2 says another parent, kind or number; no kind is given */
#define ERGO_INDEX_SUMMARY_TOO_SHORT 36          /* a summary has fewer lines than spills, no free line, or a line that is not one of 512 entries */
#define ERGO_INDEX_FLAT_LIST_FULL 37             /* an append to a flat list of 4,096 */
#define ERGO_INDEX_STATE_IS_ZERO 38              /* a load or a trial is asked for from state 0 */
#define ERGO_INDEX_FORK_TOO_DEEP 39              /* a fork deeper than 720 blocks, or than the blocks that stand */
#define ERGO_INDEX_STANDING_CALLS_FULL 40        /* more calls stand than the list has room for */
#define ERGO_INDEX_TOKEN_TWICE 41                /* a token id stands twice in a balance; tested after 25 */

/* ---- sizes */
#define ERGO_INDEX_HEAD_LENGTH 512     /* numbers in a full head, and in a spilled row */
#define ERGO_INDEX_PAGE_LENGTH 64      /* places of a page of unspent boxes */
#define ERGO_INDEX_FLAT_LENGTH 4096    /* places of a flat list */
#define ERGO_INDEX_SUMMARY_LINE 5      /* numbers in a line of a summary */
#define ERGO_INDEX_HISTORIES_LENGTH 2668 /* bytes of all short histories */
#define ERGO_INDEX_ROW_LIMIT 10254     /* bytes of the longest segment row */
#define ERGO_INDEX_RECORD_SIZE 10288   /* bytes of a record: 32 of the key, 2 of the length (high byte first), then the row and zeros */
#define ERGO_INDEX_SECOND_ROW_LIMIT 10292   /* bytes of the longest row of edition 2 */
#define ERGO_INDEX_SECOND_RECORD_SIZE 10326 /* bytes of its record */
#define ERGO_INDEX_KEY_SIZE 32         /* bytes of a row key, a token id, a parent id */
#define ERGO_INDEX_ADDRESS_LIMIT 15675 /* bytes of the longest address record */
#define ERGO_INDEX_MAX_TOKENS 128      /* tokens of a balance */
#define ERGO_INDEX_PARENT_IDS 4128     /* bytes of a parent's block in a batch: its id, then the ids of 128 tokens */
#define ERGO_INDEX_PARENT_NUMBERS 1153 /* numbers of its block: 512 places of boxes, 512 of transactions, 128 token amounts, the nanoErgs */
#define ERGO_INDEX_PARENT_LENGTHS 3    /* lengths of its block: of the head of boxes, of the head of transactions, and the number of tokens */
#define ERGO_INDEX_PARENT_SPILLS 2     /* spill counts of its block: of boxes, of transactions */

/* ---- the segment buffer */

/* Appends a box number to the head. A head of 512 first becomes the staged row numbered by the spill count, which grows by 1.
 * Refusals, in order: 25 (head, staged spills), 11, 17; at a head of 512 only: 18, 16.
 * Changes: *len, *spills, head, *staged_count, staged. */
uint8_t ergo_index_append_box_entry(const uint8_t parent[32], size_t *len, int32_t *spills, int64_t *head, size_t head_len, int64_t number,
                                    size_t *staged_count, size_t staged_capacity, uint8_t *staged, size_t staged_len);

/* The same for a transaction number, on the head of transactions. */
uint8_t ergo_index_append_tx_entry(const uint8_t parent[32], size_t *len, int32_t *spills, int64_t *head, size_t head_len, int64_t number,
                                   size_t *staged_count, size_t staged_capacity, uint8_t *staged, size_t staged_len);

/* Takes the last box number off the head. On an empty head the newest row becomes the head first: it leaves the staged spills, and its key joins the
 * deleted ones.
 * Refusals, in order: 25 (head, all three lists), 11; on an empty head: 19, 12, 1 to 6 or 34, 8, 20, 21.
 * Changes: *number, *len, *spills, head, *staged_count, staged, *deleted_count, deleted. */
uint8_t ergo_index_pop_box_entry(const uint8_t parent[32], size_t *len, int32_t *spills, int64_t *head, size_t head_len,
                                 size_t *staged_count, size_t staged_capacity, uint8_t *staged, size_t staged_len,
                                 size_t table_count, size_t table_capacity, const uint8_t *table, size_t table_len,
                                 size_t *deleted_count, size_t deleted_capacity, uint8_t *deleted, size_t deleted_len, int64_t *number);

/* The same for a transaction number, on the head of transactions. */
uint8_t ergo_index_pop_tx_entry(const uint8_t parent[32], size_t *len, int32_t *spills, int64_t *head, size_t head_len,
                                size_t *staged_count, size_t staged_capacity, uint8_t *staged, size_t staged_len,
                                size_t table_count, size_t table_capacity, const uint8_t *table, size_t table_len,
                                size_t *deleted_count, size_t deleted_capacity, uint8_t *deleted, size_t deleted_len, int64_t *number);

/* Marks one box as spent: an entry of the target's absolute value that is not negative is negated, in the head or else in a row, which is staged.
 * Refusals, in order: 25 (head, staged spills, table), 9, 10, 11; per row read: 12, 1 to 6 or 34, 8, 13; 16 at a match in the table; 14, 15.
 * Changes: head, *staged_count, staged. */
uint8_t ergo_index_flip_box_segment_entry(const uint8_t parent[32], size_t len, int32_t spills, int64_t *head, size_t head_len, int64_t target,
                                          size_t *staged_count, size_t staged_capacity, uint8_t *staged, size_t staged_len,
                                          size_t table_count, size_t table_capacity, const uint8_t *table, size_t table_len);

/* Takes a spend back: a negative entry of the target's absolute value is negated. Refusals and changes as for the spend. */
uint8_t ergo_index_unflip_box_segment_entry(const uint8_t parent[32], size_t len, int32_t spills, int64_t *head, size_t head_len, int64_t target,
                                            size_t *staged_count, size_t staged_capacity, uint8_t *staged, size_t staged_len,
                                            size_t table_count, size_t table_capacity, const uint8_t *table, size_t table_len);

/* Counts the entries of the boxes that are above 0 (unspent), below 0 (spent) and equal to 0 (unknown: 0 has no sign), over all rows and the head.
 * Refusals, in order: 25 (head, staged spills, table), 10, 11; per row from spill 0 up: 12, 1 to 6 or 34, 8, 13.
 * Changes: *unspent, *spent, *unknown; together they are all entries. */
uint8_t ergo_index_tally(const uint8_t parent[32], size_t len, int32_t spills, const int64_t *head, size_t head_len,
                         size_t staged_count, size_t staged_capacity, const uint8_t *staged, size_t staged_len,
                         size_t table_count, size_t table_capacity, const uint8_t *table, size_t table_len, size_t *unspent, size_t *spent,
                         size_t *unknown);

/* Puts unspent box numbers (entries above 0) into a page, the newest first: over the head and then the rows from the newest down, `offset` of them are
 * passed over and the next `length` put, fewer only where they end. Zeros follow to ERGO_INDEX_PAGE_LENGTH; places of the page past it stay. Any offset
 * is accepted, and the length 0.
 * Refusals, in order: 25 (head, staged spills, table, a page shorter than ERGO_INDEX_PAGE_LENGTH), 33, 10, 11; per row from spill 0 up, whether the page
 * needs it or not: 12, 1 to 6 or 34, 8, 13.
 * Changes: page, *numbers: how many stand in it. */
uint8_t ergo_index_unspent_page(const uint8_t parent[32], size_t len, int32_t spills, const int64_t *head, size_t head_len,
                                size_t staged_count, size_t staged_capacity, const uint8_t *staged, size_t staged_len,
                                size_t table_count, size_t table_capacity, const uint8_t *table, size_t table_len, size_t offset, size_t length,
                                int64_t *page, size_t page_len, size_t *numbers);

/* Writes the staged rows whose key is not deleted to the table, then removes the deleted keys from it; staged and deleted spills end empty, all zero
 * to their capacity. A row that was staged again after its key was deleted is lost.
 * Refusals, in order: 25 (all three lists), 22.
 * Changes: all three counts and lists. */
uint8_t ergo_index_flush_staged_spills(size_t *staged_count, size_t staged_capacity, uint8_t *staged, size_t staged_len,
                                       size_t *table_count, size_t table_capacity, uint8_t *table, size_t table_len,
                                       size_t *deleted_count, size_t deleted_capacity, uint8_t *deleted, size_t deleted_len);

/* ---- the batch */

/* why a batch made no further call */
#define ERGO_INDEX_END_NO_ROOM 0  /* the answers have no room for another one */
#define ERGO_INDEX_END_OF_INPUT 1 /* the input has ended */
#define ERGO_INDEX_END_CUT_CALL 2 /* the input ends inside a call */
#define ERGO_INDEX_END_NO_CALL 31 /* no call stands there: its kind is unknown, or its parent is not below parents */

/* Tests 25 once, then makes the calls of the input from its front, over the state of so many parents. Parent p has block p of ids, numbers, lengths and
 * spills (ERGO_INDEX_PARENT_*); all share the three lists.
 * A call is a byte of kind and a body; numbers are 8 bytes, signed, high byte first:
 *   1 append box, 2 append transaction, 3 spend, 4 unspend   a parent byte, the number
 *   5 pop box, 6 pop transaction                             a parent byte
 *   7 flush                                                  nothing
 *   8 credit, 9 debit                                        a parent byte, nanoErgs, a token byte (the id is that byte 32 times), its amount
 * Call i answers as its single function: its refusal or 0 at answers[2 * i], 1 at answers[2 * i + 1] where a number was popped and else 0, and that
 * number or 0 at popped[i]. A call that is refused changes nothing else, and the next one is made.
 * *at is the byte behind the last call that was made, *made the number of calls made, *end why there was no further one (ERGO_INDEX_END_*).
 * Refusals: 25 (a buffer too short for the parents, a head above 512, more than 128 tokens, the three lists). The result is 0 or 25: what stands behind
 * the last call is told by *end alone, and the calls before it were made.
 * Changes: ids, numbers, lengths, spills, all three counts and lists, answers, popped, *at, *made, *end. */
uint8_t ergo_index_run_calls(const uint8_t *input, size_t input_len, size_t parents, uint8_t *ids, size_t ids_len, int64_t *numbers, size_t numbers_len,
                             size_t *lengths, size_t lengths_len, int32_t *spills, size_t spills_len,
                             size_t *staged_count, size_t staged_capacity, uint8_t *staged, size_t staged_len,
                             size_t *table_count, size_t table_capacity, uint8_t *table, size_t table_len,
                             size_t *deleted_count, size_t deleted_capacity, uint8_t *deleted, size_t deleted_len,
                             uint8_t *answers, size_t answers_len, int64_t *popped, size_t popped_len, size_t *at, size_t *made, uint8_t *end);

/* ---- a driver's calls: parents by a number of 32 bits, any token ids, a journal of the accepted calls, and undo to a mark */

#define ERGO_INDEX_CALL_HEADER 17 /* bytes of a call without its tokens */
#define ERGO_INDEX_CALL_TOKEN 40  /* bytes of each token: 32 of id, 8 of amount */

/* the kinds of calls */
#define ERGO_INDEX_KIND_APPEND_BOX 1
#define ERGO_INDEX_KIND_APPEND_TRANSACTION 2
#define ERGO_INDEX_KIND_SPEND 3
#define ERGO_INDEX_KIND_UNSPEND 4
#define ERGO_INDEX_KIND_POP_BOX 5
#define ERGO_INDEX_KIND_POP_TRANSACTION 6
#define ERGO_INDEX_KIND_FLUSH 7
#define ERGO_INDEX_KIND_CREDIT 8
#define ERGO_INDEX_KIND_DEBIT 9

/* why a driver's batch made no further call: ERGO_INDEX_END_* of the batch above, this one, or 12, 16, 21 or 22, which the call at *at said */
#define ERGO_INDEX_END_JOURNAL_FULL 3 /* the journal has no room for the call at *at */

/* Tests 25 once, then makes the calls of the input from its front, over the state of so many parents, as ergo_index_run_calls has it in blocks.
 * A call has a kind (1 byte), a parent (4), a number (8) and how many tokens it has (4); then the 32 bytes of each token's id, then the 8 bytes of each
 * token's amount. Numbers have their high byte first; parent and how many tokens are unsigned, number and amounts signed. The number is the appended number,
 * the target of a spend, or nanoErgs. Only a credit or a debit has tokens, any number of them.
 * Call i answers its refusal or 0 at answers[i]. A call that is refused changes nothing else, and the next one is made; but 12, 16, 21 and 22 have no answer:
 * the batch ends in front of such a call, and goes on there once its row is fetched (12), the lists are flushed (16, 21) or a longer table is lent (22).
 * An accepted call becomes the newest entry of the journal, whose first *used bytes are its entries, *standing of them; an entry has the bytes of its call. A
 * call is made only where its entry has room. A flush is no entry. Kinds 4 to 6 are no calls here: ergo_index_undo_to makes them.
 * *at is the byte behind the last call that was made, *made the number of calls made, *end why there was no further one.
 * Refusals: 25 (as ergo_index_run_calls; *used above the journal's bytes, *standing above *used). The result is 0 or 25: what stands behind the last call is
 * told by *end alone, and the calls before it were made.
 * Changes: ids, numbers, lengths, spills, all three counts and lists, entries, *used, *standing, answers, *at, *made, *end. */
uint8_t ergo_index_apply_calls(const uint8_t *input, size_t input_len, size_t parents, uint8_t *ids, size_t ids_len, int64_t *numbers, size_t numbers_len,
                               size_t *lengths, size_t lengths_len, int32_t *spills, size_t spills_len,
                               size_t *staged_count, size_t staged_capacity, uint8_t *staged, size_t staged_len,
                               size_t *table_count, size_t table_capacity, uint8_t *table, size_t table_len,
                               size_t *deleted_count, size_t deleted_capacity, uint8_t *deleted, size_t deleted_len,
                               uint8_t *entries, size_t entries_len, size_t *used, size_t *standing,
                               uint8_t *answers, size_t answers_len, size_t *at, size_t *made, uint8_t *end);

/* The same without a journal, and with all kinds: 4 unspend (the number is the target), 5 pop box, 6 pop transaction. The number that call i popped, or 0, is at
 * popped[i], where it has that place.
 * Refusals: 25 (as ergo_index_run_calls).
 * Changes: ids, numbers, lengths, spills, all three counts and lists, answers, popped, *at, *made, *end. */
uint8_t ergo_index_make_calls(const uint8_t *input, size_t input_len, size_t parents, uint8_t *ids, size_t ids_len, int64_t *numbers, size_t numbers_len,
                              size_t *lengths, size_t lengths_len, int32_t *spills, size_t spills_len,
                              size_t *staged_count, size_t staged_capacity, uint8_t *staged, size_t staged_len,
                              size_t *table_count, size_t table_capacity, uint8_t *table, size_t table_len,
                              size_t *deleted_count, size_t deleted_capacity, uint8_t *deleted, size_t deleted_len,
                              uint8_t *answers, size_t answers_len, int64_t *popped, size_t popped_len, size_t *at, size_t *made, uint8_t *end);

/* Undoes the newest standing calls of a journal until `mark` of them stand: a pop of an append, an unspend of a spend, a debit of a credit, a credit of a debit,
 * with a flush before, behind, and wherever an undo says 16 or 21 with undos accepted since the last one. A mark at or above *standing changes nothing.
 * Refusals: 25 (as ergo_index_apply_calls), and nothing changes; then what ends it: the refusal of an undo or of a flush, or 31 where the newest entry is no call.
 * The undos before it were made, and *used and *standing are what still stands: it may go on from there once the refusal is lifted.
 * Changes: ids, numbers, lengths, spills, all three counts and lists, *used, *standing. */
uint8_t ergo_index_undo_to(size_t parents, size_t mark, uint8_t *ids, size_t ids_len, int64_t *numbers, size_t numbers_len,
                           size_t *lengths, size_t lengths_len, int32_t *spills, size_t spills_len,
                           size_t *staged_count, size_t staged_capacity, uint8_t *staged, size_t staged_len,
                           size_t *table_count, size_t table_capacity, uint8_t *table, size_t table_len,
                           size_t *deleted_count, size_t deleted_capacity, uint8_t *deleted, size_t deleted_len,
                           const uint8_t *entries, size_t entries_len, size_t *used, size_t *standing);

/* ---- loads: calls for ergo_index_run_calls, drawn one after the other from a state of 64 bits, so that equal states give equal calls */

/* Writes `count` calls at the front of out, drawn from the state `from`, all to parent 0: boxes and transactions appended, numbered from 0, spends of boxes
 * appended so far, and flushes. A call has 10 bytes, a flush one. *written is their number, and *state, *boxes and *txs the generator after them: its state,
 * and how many boxes and transactions it has appended.
 * Refusals, in order: 38, 32 (by the exact bytes of the calls).
 * Changes: out, *written, *state, *boxes, *txs. */
uint8_t ergo_index_generate_load(uint64_t from, uint64_t count, uint8_t *out, size_t out_len, size_t *written, uint64_t *state, uint64_t *boxes,
                                 uint64_t *txs);

/* Writes `count` calls more, from the generator that an earlier load left in *state, *boxes and *txs: n calls and then m are the n + m of one load.
 * Refusals, in order: 25 (a count above 2^62), 38, 32.
 * Changes: out, *written, *state, *boxes, *txs. */
uint8_t ergo_index_go_on(uint64_t *state, uint64_t *boxes, uint64_t *txs, uint64_t count, uint8_t *out, size_t out_len, size_t *written);

/* ---- trials of staging sizes: blocks of generated calls and forks, on one parent from an empty index */

#define ERGO_INDEX_TRIAL_STEPS 4096   /* steps at most */
#define ERGO_INDEX_STANDING_NUMBERS 3 /* numbers that a standing call takes */

/* Runs the steps: n is a block of n calls of the load from `state`, -d a fork of d blocks, which undoes their standing calls, newest first. A flush is made at
 * every change between calls and undos. *most_staged and *most_deleted are the largest numbers of staged rows and of deleted keys at any one time: with at least
 * that room the same steps give the same answers and never 16 or 21, with less they end by 16 or 21. standing holds ERGO_INDEX_STANDING_NUMBERS numbers for each
 * call that stands.
 * Refusals, in order: 25 (more than 4,096 steps, a buffer shorter than its capacity), 38; then what ends the run: 16, 21, 22, 39, 40, or any refusal of an undo.
 * Changes: table, staged, deleted and standing are zeroed to their capacities, refused or not, unless by 25 or 38: the one call that changes something when it is
 * refused; *most_staged, *most_deleted. */
uint8_t ergo_index_try_forks(uint64_t state, const int32_t *steps, size_t steps_len, size_t table_capacity, uint8_t *table, size_t table_len,
                             size_t staged_capacity, uint8_t *staged, size_t staged_len, size_t deleted_capacity, uint8_t *deleted, size_t deleted_len,
                             size_t standing_capacity, int64_t *standing, size_t standing_len, size_t *most_staged, size_t *most_deleted);

/* ---- short histories: every list of 0 to 5 calls for one fresh parent, over the box numbers 1 and 2, that keeps the history rules (a flush at each change
 * between calls and undos included) and in which every call is accepted, whatever the capacities */

/* the calls of a short history; an undo is that of the newest standing call: a pop of an append, an unspend of a spend */
#define ERGO_INDEX_CALL_APPEND_1 1
#define ERGO_INDEX_CALL_APPEND_2 2
#define ERGO_INDEX_CALL_SPEND_1 3
#define ERGO_INDEX_CALL_SPEND_2 4
#define ERGO_INDEX_CALL_UNDO 5
#define ERGO_INDEX_CALL_FLUSH 6

/* Writes all of them at the front of out, shorter ones first, equal lengths by their first differing call: each as a byte of its length and a byte per call,
 * ERGO_INDEX_CALL_*. *written is ERGO_INDEX_HISTORIES_LENGTH.
 * Refusals: 32.
 * Changes: out, *written. */
uint8_t ergo_index_list_histories(uint8_t *out, size_t out_len, size_t *written);

/* ---- spill rows */

/* Which list holds the row under a key: *list is 1 for the staged spills, 2 for the table, 0 for neither; *index is the index of its record, or 0.
 * Refusals: 25 (staged spills, table).
 * Changes: *list, *index. */
uint8_t ergo_index_locate_spill(size_t staged_count, size_t staged_capacity, const uint8_t *staged, size_t staged_len,
                                size_t table_count, size_t table_capacity, const uint8_t *table, size_t table_len, const uint8_t key[32],
                                uint8_t *list, size_t *index);

/* Where the row under a key stands: *list is 1 for the staged spills, 2 for the table, and the row is the *length bytes from *offset on in that list.
 * Refusals, in order: 25 (staged spills, table), 12.
 * Changes: *list, *offset, *length. */
uint8_t ergo_index_inspect_spill(size_t staged_count, size_t staged_capacity, const uint8_t *staged, size_t staged_len,
                                 size_t table_count, size_t table_capacity, const uint8_t *table, size_t table_len, const uint8_t key[32],
                                 uint8_t *list, size_t *offset, size_t *length);

/* ---- rows that say whose they are
 *
 * The functions above, the batch and what follows work on rows of edition 1. A row of edition 2 has the parent's 32 bytes, a kind byte (1 box, 2 transaction)
 * and the coded spill number before the same body. Its rows have up to ERGO_INDEX_SECOND_ROW_LIMIT bytes, its records ERGO_INDEX_SECOND_RECORD_SIZE, and
 * 25 asks for these; keys are the same. The staged spills and the table that are used together hold one edition, and every call on them names it.
 *
 * Each of these functions does what the one without _in_edition does, with rows of edition 2 where second_edition is set and of edition 1 where it is not.
 * In edition 2 a row that is read is also refused by 35, directly behind 8: where it says another parent, kind or number than that of the key under which it
 * was found. Locating, inspecting and flushing do not look inside a row. */
uint8_t ergo_index_append_box_entry_in_edition(bool second_edition, const uint8_t parent[32], size_t *len, int32_t *spills, int64_t *head,
                                               size_t head_len, int64_t number, size_t *staged_count, size_t staged_capacity, uint8_t *staged,
                                               size_t staged_len);
uint8_t ergo_index_append_tx_entry_in_edition(bool second_edition, const uint8_t parent[32], size_t *len, int32_t *spills, int64_t *head,
                                              size_t head_len, int64_t number, size_t *staged_count, size_t staged_capacity, uint8_t *staged,
                                              size_t staged_len);
uint8_t ergo_index_pop_box_entry_in_edition(bool second_edition, const uint8_t parent[32], size_t *len, int32_t *spills, int64_t *head,
                                            size_t head_len, size_t *staged_count, size_t staged_capacity, uint8_t *staged, size_t staged_len,
                                            size_t table_count, size_t table_capacity, const uint8_t *table, size_t table_len, size_t *deleted_count,
                                            size_t deleted_capacity, uint8_t *deleted, size_t deleted_len, int64_t *number);
uint8_t ergo_index_pop_tx_entry_in_edition(bool second_edition, const uint8_t parent[32], size_t *len, int32_t *spills, int64_t *head,
                                           size_t head_len, size_t *staged_count, size_t staged_capacity, uint8_t *staged, size_t staged_len,
                                           size_t table_count, size_t table_capacity, const uint8_t *table, size_t table_len, size_t *deleted_count,
                                           size_t deleted_capacity, uint8_t *deleted, size_t deleted_len, int64_t *number);
uint8_t ergo_index_flip_box_segment_entry_in_edition(bool second_edition, const uint8_t parent[32], size_t len, int32_t spills, int64_t *head,
                                                     size_t head_len, int64_t target, size_t *staged_count, size_t staged_capacity, uint8_t *staged,
                                                     size_t staged_len, size_t table_count, size_t table_capacity, const uint8_t *table,
                                                     size_t table_len);
uint8_t ergo_index_unflip_box_segment_entry_in_edition(bool second_edition, const uint8_t parent[32], size_t len, int32_t spills, int64_t *head,
                                                       size_t head_len, int64_t target, size_t *staged_count, size_t staged_capacity, uint8_t *staged,
                                                       size_t staged_len, size_t table_count, size_t table_capacity, const uint8_t *table,
                                                       size_t table_len);
uint8_t ergo_index_tally_in_edition(bool second_edition, const uint8_t parent[32], size_t len, int32_t spills, const int64_t *head, size_t head_len,
                                    size_t staged_count, size_t staged_capacity, const uint8_t *staged, size_t staged_len, size_t table_count,
                                    size_t table_capacity, const uint8_t *table, size_t table_len, size_t *unspent, size_t *spent, size_t *unknown);
uint8_t ergo_index_unspent_page_in_edition(bool second_edition, const uint8_t parent[32], size_t len, int32_t spills, const int64_t *head,
                                           size_t head_len, size_t staged_count, size_t staged_capacity, const uint8_t *staged, size_t staged_len,
                                           size_t table_count, size_t table_capacity, const uint8_t *table, size_t table_len, size_t offset,
                                           size_t length, int64_t *page, size_t page_len, size_t *numbers);
uint8_t ergo_index_flush_staged_spills_in_edition(bool second_edition, size_t *staged_count, size_t staged_capacity, uint8_t *staged,
                                                  size_t staged_len, size_t *table_count, size_t table_capacity, uint8_t *table, size_t table_len,
                                                  size_t *deleted_count, size_t deleted_capacity, uint8_t *deleted, size_t deleted_len);
uint8_t ergo_index_locate_spill_in_edition(bool second_edition, size_t staged_count, size_t staged_capacity, const uint8_t *staged, size_t staged_len,
                                           size_t table_count, size_t table_capacity, const uint8_t *table, size_t table_len, const uint8_t key[32],
                                           uint8_t *list, size_t *index);
uint8_t ergo_index_inspect_spill_in_edition(bool second_edition, size_t staged_count, size_t staged_capacity, const uint8_t *staged,
                                            size_t staged_len, size_t table_count, size_t table_capacity, const uint8_t *table, size_t table_len,
                                            const uint8_t key[32], uint8_t *list, size_t *offset, size_t *length);

/* Writes a row of edition 1 at the front of out as a row of edition 2, with the parent, kind (1 box, 2 transaction) and spill number, which may be negative.
 * Refusals, in order: 25 (row above 10,254 bytes), 1 to 6 or 34, 8, 35 (a kind not 1 or 2), 32.
 * Changes: out, *written. */
uint8_t ergo_index_row_to_second(const uint8_t *row, size_t row_len, const uint8_t parent[32], uint8_t kind, int32_t number, uint8_t *out,
                                 size_t out_len, size_t *written);

/* Writes a row of edition 2 at the front of out as a row of edition 1. What either wrote, the other turns back into the same bytes.
 * Refusals, in order: 25 (row above 10,292 bytes), the header 1, 2 or 34, the body 1 to 6 or 34, 8, 35 (the row says another parent, kind or number than
 * those given, or the kind given is not 1 or 2), 32.
 * Changes: out, *written. */
uint8_t ergo_index_row_to_first(const uint8_t *row, size_t row_len, const uint8_t parent[32], uint8_t kind, int32_t number, uint8_t *out,
                                size_t out_len, size_t *written);

/* ---- a working set of the table
 *
 * Any part of the segments table, with the same rows under the same keys, may be given as the table: a call that is not refused by 12 answers, and leaves every
 * out and list, as with the whole table. At a 12, ask which row the call needs next, fetch it from where the whole table is kept, put it into the part by
 * ergo_index_put_row, and make the call again: that ends after at most as many rows as the call reads.
 *
 * Each of these functions takes what the call takes (second_edition as in the functions _in_edition) and refuses nothing. The result is 12 where the call reads a
 * row that is neither staged nor in the table given: *number is then the spill number of the first such row, and key its key. The result is 0 where no row is
 * missing, also where the call would be refused before it reads one, by 25 too; *number and key are then as they were. */
uint8_t ergo_index_missing_for_spend(bool second_edition, const uint8_t parent[32], size_t len, int32_t spills, const int64_t *head,
                                     size_t head_len, int64_t target,
                                     size_t staged_count, size_t staged_capacity, const uint8_t *staged, size_t staged_len,
                                     size_t table_count, size_t table_capacity, const uint8_t *table, size_t table_len,
                                     int32_t *number, uint8_t key[32]);
uint8_t ergo_index_missing_for_unspend(bool second_edition, const uint8_t parent[32], size_t len, int32_t spills, const int64_t *head,
                                       size_t head_len, int64_t target,
                                       size_t staged_count, size_t staged_capacity, const uint8_t *staged, size_t staged_len,
                                       size_t table_count, size_t table_capacity, const uint8_t *table, size_t table_len,
                                       int32_t *number, uint8_t key[32]);
uint8_t ergo_index_missing_for_pop_box(bool second_edition, const uint8_t parent[32], size_t len, int32_t spills, const int64_t *head,
                                       size_t head_len,
                                       size_t staged_count, size_t staged_capacity, const uint8_t *staged, size_t staged_len,
                                       size_t table_count, size_t table_capacity, const uint8_t *table, size_t table_len,
                                       size_t deleted_count, size_t deleted_capacity, const uint8_t *deleted, size_t deleted_len,
                                       int32_t *number, uint8_t key[32]);
uint8_t ergo_index_missing_for_pop_tx(bool second_edition, const uint8_t parent[32], size_t len, int32_t spills, const int64_t *head,
                                      size_t head_len,
                                      size_t staged_count, size_t staged_capacity, const uint8_t *staged, size_t staged_len,
                                      size_t table_count, size_t table_capacity, const uint8_t *table, size_t table_len,
                                      size_t deleted_count, size_t deleted_capacity, const uint8_t *deleted, size_t deleted_len,
                                      int32_t *number, uint8_t key[32]);
uint8_t ergo_index_missing_for_tally(bool second_edition, const uint8_t parent[32], size_t len, int32_t spills, const int64_t *head,
                                     size_t head_len,
                                     size_t staged_count, size_t staged_capacity, const uint8_t *staged, size_t staged_len,
                                     size_t table_count, size_t table_capacity, const uint8_t *table, size_t table_len,
                                     int32_t *number, uint8_t key[32]);
/* page and length as for ergo_index_unspent_page; the page is not changed */
uint8_t ergo_index_missing_for_page(bool second_edition, const uint8_t parent[32], size_t len, int32_t spills, const int64_t *head,
                                    size_t head_len,
                                    size_t staged_count, size_t staged_capacity, const uint8_t *staged, size_t staged_len,
                                    size_t table_count, size_t table_capacity, const uint8_t *table, size_t table_len,
                                    size_t length, const int64_t *page, size_t page_len, int32_t *number, uint8_t key[32]);

/* Puts a row under its key into the table, whose count grows by 1 where the key is new: a row that was fetched, into the part that is given as the table.
 * Refusals, in order: 25 (the table, a row above the limit of its edition), 22.
 * Changes: *table_count, table. */
uint8_t ergo_index_put_row(bool second_edition, const uint8_t key[32], const uint8_t *row, size_t row_len,
                           size_t *table_count, size_t table_capacity, uint8_t *table, size_t table_len);

/* ---- addresses in a fixed order */

/* How two whole addresses rank: *order is -1 where the first is before the second, 0 where they are equal, 1 where it is behind. An address is its hash, its
 * balance (which counts only where `held` is set), the heads of boxes and transactions, and its own staged spills and table, with rows of edition 2 where
 * second_edition is set. Compared in this order: the hash bytes; no balance before a balance; nanoErgs; the tokens by ascending id, id and then amount; the box
 * entries with their signs, spill 0 up and then the head; the transaction entries. A list that ends earlier is first. It is a total order; two addresses are
 * equal where all these agree, whatever the sequence of their tokens and however entries are divided between spills and head.
 * Refusals, in order: 25 of both (tokens where a balance is held, both heads, staged spills, table), 41 of both; then, the first address before the second
 * and boxes before transactions: 11; per row from spill 0 up: 12, 1 to 6 or 34, 8, 35, 20.
 * Changes: *order. */
uint8_t ergo_index_rank(bool second_edition, const uint8_t hash[32], bool held, int64_t nanos, const uint8_t ids[4096],
                        const int64_t amounts[128], size_t tokens, size_t box_len, int32_t box_spills, const int64_t *boxes,
                        size_t boxes_len, size_t tx_len, int32_t tx_spills, const int64_t *txs, size_t txs_len,
                        size_t staged_count, size_t staged_capacity, const uint8_t *staged, size_t staged_len,
                        size_t table_count, size_t table_capacity, const uint8_t *table, size_t table_len,
                        bool other_second_edition, const uint8_t other_hash[32], bool other_held, int64_t other_nanos, const uint8_t other_ids[4096],
                        const int64_t other_amounts[128], size_t other_tokens, size_t other_box_len, int32_t other_box_spills, const int64_t *other_boxes,
                        size_t other_boxes_len, size_t other_tx_len, int32_t other_tx_spills, const int64_t *other_txs, size_t other_txs_len,
                        size_t other_staged_count, size_t other_staged_capacity, const uint8_t *other_staged, size_t other_staged_len,
                        size_t other_table_count, size_t other_table_capacity, const uint8_t *other_table, size_t other_table_len,
                        int32_t *order);

/* ---- a summary of one parent's box spills
 *
 * A summary is `lines` lines of ERGO_INDEX_SUMMARY_LINE numbers, line n for spill n: the first and the last absolute value of its row, and how many of its
 * entries are above 0, equal to 0 and below 0. Lines that no spill has are zero. With one, a tally reads no row, and a spend or an unspend reads only the rows
 * that it searches; it is worth its 40 bytes a spill where a parent has many spills.
 *
 * - Each parent has a summary of its own: all zero while the parent has no box spill, or made by ergo_index_summarize_boxes at any time.
 * - From then on lend it to every box append, box pop, spend and unspend of that parent, with the same `lines`: in a history that keeps the rules these calls
 *   keep it what ergo_index_summarize_boxes would make. A call without it (the functions above, the batch) that spills, pops or changes a row leaves the
 *   summary behind; make it afresh then. Flushes, transactions, tallies over the rows and pages need none.
 * - A row that a call does not read is not checked: damage there goes unnoticed. ergo_index_summarize_boxes checks every row, as ergo_index_tally does. With a
 *   summary that is not the parent's, what the calls find is not what the rows say.
 * - summary_len is at least ERGO_INDEX_SUMMARY_LINE * lines, or 25, which every call tests first, beside what it tests without a summary. Numbers behind the
 *   last line stay.
 * - second_edition names the edition of the rows, as for the functions _in_edition; 35 comes in edition 2 only. */

/* Makes the summary afresh: a line for each box spill, made from its row, and zeros on the lines behind.
 * Refusals, in order: 25 (head, staged spills, table, summary), 10, 11, 36 (fewer lines than spills); per row from spill 0 up: 12, 1 to 6 or 34, 8, 35, 13.
 * Changes: summary. */
uint8_t ergo_index_summarize_boxes(bool second_edition, const uint8_t parent[32], size_t len, int32_t spills, const int64_t *head, size_t head_len,
                                   size_t staged_count, size_t staged_capacity, const uint8_t *staged, size_t staged_len,
                                   size_t table_count, size_t table_capacity, const uint8_t *table, size_t table_len, size_t lines, uint64_t *summary,
                                   size_t summary_len);

/* Counts the entries of the boxes that are above 0 (unspent), below 0 (spent) and equal to 0 (unknown), by the lines of the spills and the head.
 * Refusals, in order: 25 (head, summary), 10, 11, 36 (fewer lines than spills), 36 (a line whose three counts do not add up to 512).
 * Changes: *unspent, *spent, *unknown. */
uint8_t ergo_index_tally_with_summary(size_t len, int32_t spills, const int64_t *head, size_t head_len, size_t lines, const uint64_t *summary,
                                      size_t summary_len, size_t *unspent, size_t *spent, size_t *unknown);

/* Appends a box number to the head. A head of 512 first becomes the staged row numbered by the spill count, and the row gets its line.
 * Refusals, in order: 25 (head, staged spills, summary), 11, 36 (fewer lines than spills), 17; at a head of 512 only: 18, 36 (no free line), 16.
 * Changes: *len, *spills, head, *staged_count, staged, summary. */
uint8_t ergo_index_append_box_entry_with_summary(bool second_edition, const uint8_t parent[32], size_t *len, int32_t *spills, int64_t *head,
                                                 size_t head_len, int64_t number, size_t *staged_count, size_t staged_capacity, uint8_t *staged,
                                                 size_t staged_len, size_t lines, uint64_t *summary, size_t summary_len);

/* Takes the last box number off the head. On an empty head the newest row becomes the head first, and its line becomes zero.
 * Refusals, in order: 25 (head, all three lists, summary), 11, 36 (fewer lines than spills); on an empty head: 19, 12, 1 to 6 or 34, 8, 35, 20, 21.
 * Changes: *number, *len, *spills, head, *staged_count, staged, *deleted_count, deleted, summary. */
uint8_t ergo_index_pop_box_entry_with_summary(bool second_edition, const uint8_t parent[32], size_t *len, int32_t *spills, int64_t *head,
                                              size_t head_len, size_t *staged_count, size_t staged_capacity, uint8_t *staged, size_t staged_len,
                                              size_t table_count, size_t table_capacity, const uint8_t *table, size_t table_len,
                                              size_t *deleted_count, size_t deleted_capacity, uint8_t *deleted, size_t deleted_len, size_t lines,
                                              uint64_t *summary, size_t summary_len, int64_t *number);

/* Marks one box as spent, in the head or else in the first row that the walk over the lines finds it in; the row is staged, and its line made anew.
 * Refusals, in order: 25 (head, staged spills, table, summary), 9, 10, 11, 36 (fewer lines than spills); per row read: 12, 1 to 6 or 34, 8, 35, 13; 16 at a
 * match in the table; 14, 15.
 * Changes: head, *staged_count, staged, summary. */
uint8_t ergo_index_flip_box_segment_entry_with_summary(bool second_edition, const uint8_t parent[32], size_t len, int32_t spills, int64_t *head,
                                                       size_t head_len, int64_t target, size_t *staged_count, size_t staged_capacity,
                                                       uint8_t *staged, size_t staged_len, size_t table_count, size_t table_capacity,
                                                       const uint8_t *table, size_t table_len, size_t lines, uint64_t *summary, size_t summary_len);

/* Takes a spend back. Refusals and changes as for the spend. */
uint8_t ergo_index_unflip_box_segment_entry_with_summary(bool second_edition, const uint8_t parent[32], size_t len, int32_t spills, int64_t *head,
                                                         size_t head_len, int64_t target, size_t *staged_count, size_t staged_capacity,
                                                         uint8_t *staged, size_t staged_len, size_t table_count, size_t table_capacity,
                                                         const uint8_t *table, size_t table_len, size_t lines, uint64_t *summary,
                                                         size_t summary_len);

/* Which row a spend or an unspend with a summary needs next of a working set of the table (see there): 12 with *number and key, or 0. With a summary
 * whose first values do not fall it reads at most one row, unless the target is the first number of that row. For a pop with a summary ask ergo_index_missing_for_pop_box, for
 * ergo_index_summarize_boxes ask ergo_index_missing_for_tally: they name the same row. */
uint8_t ergo_index_missing_for_spend_with_summary(bool second_edition, const uint8_t parent[32], size_t len, int32_t spills, const int64_t *head,
                                                  size_t head_len, int64_t target,
                                                  size_t staged_count, size_t staged_capacity, const uint8_t *staged, size_t staged_len,
                                                  size_t table_count, size_t table_capacity, const uint8_t *table, size_t table_len,
                                                  size_t lines, const uint64_t *summary, size_t summary_len, int32_t *number, uint8_t key[32]);
uint8_t ergo_index_missing_for_unspend_with_summary(bool second_edition, const uint8_t parent[32], size_t len, int32_t spills, const int64_t *head,
                                                    size_t head_len, int64_t target,
                                                    size_t staged_count, size_t staged_capacity, const uint8_t *staged, size_t staged_len,
                                                    size_t table_count, size_t table_capacity, const uint8_t *table, size_t table_len,
                                                    size_t lines, const uint64_t *summary, size_t summary_len, int32_t *number, uint8_t key[32]);

/* ---- digests and row keys; these refuse nothing */

/* The BLAKE2b-256 digest (RFC 7693, unkeyed) of s goes to out. */
void ergo_index_blake2b256(const uint8_t *s, size_t s_len, uint8_t out[32]);

/* The key of the parent's row of boxes, or of transactions, with this spill number goes to out. */
void ergo_index_box_segment_id(const uint8_t parent[32], int32_t number, uint8_t out[32]);
void ergo_index_tx_segment_id(const uint8_t parent[32], int32_t number, uint8_t out[32]);

/* ---- coded numbers */

/* Writes n from *at on and moves *at behind it. Refusals: 32. Changes: out, *at. */
uint8_t ergo_index_put_i64(int64_t n, uint8_t *out, size_t out_len, size_t *at);
uint8_t ergo_index_put_i32(int32_t n, uint8_t *out, size_t out_len, size_t *at);

/* Reads the number at *at and moves *at behind it. Refusals, byte by byte: 1, 2, then 34. Changes: *at, *n. */
uint8_t ergo_index_get_i64(const uint8_t *src, size_t src_len, size_t *at, int64_t *n);
uint8_t ergo_index_get_i32(const uint8_t *src, size_t src_len, size_t *at, int32_t *n);

/* ---- segment rows and address records */

/* Writes the first n_txs transactions and the first n_boxes boxes with their spill counts as a row from *at on, and moves *at behind it.
 * Refusals, in order: 25 (either number above 512 or above its list), 32.
 * Changes: out, *at. */
uint8_t ergo_index_write_segment(const int64_t *txs, size_t txs_len, size_t n_txs, const int64_t *boxes, size_t boxes_len, size_t n_boxes,
                                 int32_t box_segment_count, int32_t tx_segment_count, uint8_t *out, size_t out_len, size_t *at);

/* Reads a row that takes up all its bytes into two lists of at least 512 numbers; zeros follow the numbers up to 512.
 * Refusals, in order: 25 (row above 10,254 bytes, a list shorter than 512), 1 to 6 or 34, 8.
 * Changes: txs, *n_txs, boxes, *n_boxes, *box_segment_count, *tx_segment_count. */
uint8_t ergo_index_read_persisted_segment(const uint8_t *row, size_t row_len, int64_t *txs, size_t txs_len, size_t *n_txs,
                                          int64_t *boxes, size_t boxes_len, size_t *n_boxes,
                                          int32_t *box_segment_count, int32_t *tx_segment_count);

/* Writes an address record from *at on: the hash, the flag, the balance if has_balance, and the segment; moves *at behind it. The id of token i is
 * ids[32 * i .. 32 * i + 32], its amount amounts[i].
 * Refusals, in order: 25 (either number above 512 or above its list, count above 128), 32.
 * Changes: out, *at. */
uint8_t ergo_index_write_indexed_address(const uint8_t hash[32], bool has_balance, const uint8_t ids[4096], const int64_t amounts[128],
                                         size_t count, int64_t nanos, const int64_t *txs, size_t txs_len, size_t n_txs,
                                         const int64_t *boxes, size_t boxes_len, size_t n_boxes,
                                         int32_t box_segment_count, int32_t tx_segment_count, uint8_t *out, size_t out_len, size_t *at);

/* Reads an address record that takes up all its bytes. Zeros follow the tokens up to 128 and the numbers up to 512.
 * Refusals, in order: 25 (record above 15,675 bytes, a list shorter than 512), then 1 to 8, 24 and 34 as the record is read.
 * Changes: every out and both lists. */
uint8_t ergo_index_read_indexed_address(const uint8_t *row, size_t row_len, uint8_t hash[32], bool *has_balance, uint8_t ids[4096],
                                        int64_t amounts[128], size_t *count, int64_t *nanos, int64_t *txs, size_t txs_len, size_t *n_txs,
                                        int64_t *boxes, size_t boxes_len, size_t *n_boxes,
                                        int32_t *box_segment_count, int32_t *tx_segment_count);

/* ---- balances: 128 ids of 32 bytes, their amounts, how many are in use, and the nanoErgs */

/* Adds a box of `count` tokens: its nanoErgs, then its tokens in list order; a new id goes last.
 * Refusals: 25 (held_count above 128, fewer ids or amounts than count), then in list order, nanoErgs first: 23, 24.
 * Changes: the four held parts. */
uint8_t ergo_index_add_box(uint8_t held_ids[4096], int64_t held_amounts[128], size_t *held_count, int64_t *held_nanos, int64_t nanos,
                           const uint8_t *ids, size_t ids_len, const int64_t *amounts, size_t amounts_len, size_t count);

/* Subtracts a box: its nanoErgs, which stop at 0, then its tokens in list order; a token at 0 or below is dropped, an unknown id is ignored.
 * Refusals: 25 as above, then in list order, nanoErgs first: 23.
 * Changes: the four held parts. */
uint8_t ergo_index_subtract_box(uint8_t held_ids[4096], int64_t held_amounts[128], size_t *held_count, int64_t *held_nanos, int64_t nanos,
                                const uint8_t *ids, size_t ids_len, const int64_t *amounts, size_t amounts_len, size_t count);

/* ---- undo entries */

/* Writes an undo entry at the front of out, 49 bytes with a header id and 17 without, and their number to *written. The header id counts only if known.
 * Refusals: 32.
 * Changes: out, *written. */
uint8_t ergo_index_encode_undo_entry(bool known, const uint8_t header[32], uint64_t txs, uint64_t boxes, uint8_t *out, size_t out_len,
                                     size_t *written);

/* Reads an undo entry that takes up all its bytes; without a header id, *known is false and header all zero.
 * Refusals, in order: 26, 28, 27, 29, 30.
 * Changes: *known, header, *txs, *boxes. */
uint8_t ergo_index_decode_undo_entry(const uint8_t *bytes, size_t bytes_len, bool *known, uint8_t header[32], uint64_t *txs, uint64_t *boxes);

/* Keeps those of the first *count heights that are at least current - window if current is above the window, else all; zeros follow up to the
 * capacity. The window is window_heights if window_named, else 720.
 * Refusals: 25 (count above the capacity, list shorter than the capacity).
 * Changes: heights, *count. */
uint8_t ergo_index_prune_below_window(uint64_t *heights, size_t heights_len, size_t *count, size_t capacity, uint64_t current,
                                      bool window_named, uint64_t window_heights);

/* ---- a flat list: one parent's box numbers in one list of ERGO_INDEX_FLAT_LENGTH places or more, without rows, keys and staged spills. In a history that
 * keeps the rules and in which no list is full, the calls answer as those of the segment buffer. */

/* Puts a number at the end. Refusals, in order: 25 (*count above 4,096, a list shorter than that), 17, 37. Changes: *count, list. */
uint8_t ergo_index_flat_append_box(size_t *count, int64_t *list, size_t list_len, int64_t number);

/* Marks one box as spent: the first entry of the target's absolute value that is not negative is negated. Refusals, in order: 25, 9, 10, 14 or 15.
 * Changes: list. */
uint8_t ergo_index_flat_spend_box(size_t *count, int64_t *list, size_t list_len, int64_t target);

/* Takes a spend back: the first negative entry of the target's absolute value is negated. Refusals and changes as for the spend. */
uint8_t ergo_index_flat_unspend_box(size_t *count, int64_t *list, size_t list_len, int64_t target);

/* Takes the last number; its place becomes 0. Refusals, in order: 25, 19. Changes: *number, *count, list. */
uint8_t ergo_index_flat_pop_box(size_t *count, int64_t *list, size_t list_len, int64_t *number);

/* ---- answers and figures */

/* The drift rule of a derived index, on the code of a flip: 15 gives 0 and sets *skipped, 0 gives 0 and clears it, any other code is given back. */
uint8_t ergo_index_tolerate_secondary_drift(uint8_t flip, bool *skipped);

/* The milliErgs of an amount of nanoErgs, rounded to the nearest, an exact half to the even neighbour: 500,000 give 0, 1,500,000 give 2, -1,500,000 give -2. */
int64_t ergo_index_statement_milli_ergs(int64_t nano_ergs);

#ifdef __cplusplus
}
#endif

#endif
