/* One parent's history over the C interface: 513 appends, a spend in the row that spilled, a flush, the unspend, and pops across the row; then a
 * balance, an address record, two batches, two rows with a summary and an undo entry. Every answer is asserted; the lines that are printed are compared
 * with tests/c/history.stdout. */
#include "ergo_index.h"

#include <stdio.h>
#include <stdlib.h>
#include <string.h>

#define CAPACITY 2

#define EXPECT(cond)                                                        \
    do {                                                                    \
        if (!(cond)) {                                                      \
            fprintf(stderr, "%s:%d: %s\n", __FILE__, __LINE__, #cond);      \
            exit(1);                                                        \
        }                                                                   \
    } while (0)

struct head {
    size_t len;
    int32_t spills;
    int64_t numbers[ERGO_INDEX_HEAD_LENGTH];
};

struct records {
    size_t count;
    uint8_t bytes[CAPACITY * ERGO_INDEX_RECORD_SIZE];
};

struct keys {
    size_t count;
    uint8_t bytes[CAPACITY * ERGO_INDEX_KEY_SIZE];
};

static const uint8_t parent[32] = {7, 7, 7};
static struct head boxes, txs;
static struct records staged, table;
static struct keys deleted;

static uint8_t append_box(int64_t number) {
    return ergo_index_append_box_entry(parent, &boxes.len, &boxes.spills, boxes.numbers, ERGO_INDEX_HEAD_LENGTH, number,
                                       &staged.count, CAPACITY, staged.bytes, sizeof staged.bytes);
}

static uint8_t append_tx(int64_t number) {
    return ergo_index_append_tx_entry(parent, &txs.len, &txs.spills, txs.numbers, ERGO_INDEX_HEAD_LENGTH, number,
                                      &staged.count, CAPACITY, staged.bytes, sizeof staged.bytes);
}

static uint8_t pop_box(int64_t *number) {
    return ergo_index_pop_box_entry(parent, &boxes.len, &boxes.spills, boxes.numbers, ERGO_INDEX_HEAD_LENGTH,
                                    &staged.count, CAPACITY, staged.bytes, sizeof staged.bytes,
                                    table.count, CAPACITY, table.bytes, sizeof table.bytes,
                                    &deleted.count, CAPACITY, deleted.bytes, sizeof deleted.bytes, number);
}

static uint8_t pop_tx(int64_t *number) {
    return ergo_index_pop_tx_entry(parent, &txs.len, &txs.spills, txs.numbers, ERGO_INDEX_HEAD_LENGTH,
                                   &staged.count, CAPACITY, staged.bytes, sizeof staged.bytes,
                                   table.count, CAPACITY, table.bytes, sizeof table.bytes,
                                   &deleted.count, CAPACITY, deleted.bytes, sizeof deleted.bytes, number);
}

static uint8_t spend(int64_t target) {
    return ergo_index_flip_box_segment_entry(parent, boxes.len, boxes.spills, boxes.numbers, ERGO_INDEX_HEAD_LENGTH, target,
                                             &staged.count, CAPACITY, staged.bytes, sizeof staged.bytes,
                                             table.count, CAPACITY, table.bytes, sizeof table.bytes);
}

static uint8_t unspend(int64_t target) {
    return ergo_index_unflip_box_segment_entry(parent, boxes.len, boxes.spills, boxes.numbers, ERGO_INDEX_HEAD_LENGTH, target,
                                               &staged.count, CAPACITY, staged.bytes, sizeof staged.bytes,
                                               table.count, CAPACITY, table.bytes, sizeof table.bytes);
}

static uint8_t flush(void) {
    return ergo_index_flush_staged_spills(&staged.count, CAPACITY, staged.bytes, sizeof staged.bytes,
                                          &table.count, CAPACITY, table.bytes, sizeof table.bytes,
                                          &deleted.count, CAPACITY, deleted.bytes, sizeof deleted.bytes);
}

/* how many boxes are spent */
static size_t spent_boxes(void) {
    size_t unspent = 0, spent = 0, unknown = 0;
    EXPECT(ergo_index_tally(parent, boxes.len, boxes.spills, boxes.numbers, ERGO_INDEX_HEAD_LENGTH,
                            staged.count, CAPACITY, staged.bytes, sizeof staged.bytes,
                            table.count, CAPACITY, table.bytes, sizeof table.bytes, &unspent, &spent, &unknown) == ERGO_INDEX_ACCEPTED);
    EXPECT(unspent + spent + unknown == boxes.len + (size_t)boxes.spills * ERGO_INDEX_HEAD_LENGTH);
    return spent;
}

static uint8_t unspent_page(size_t offset, size_t length, int64_t *page, size_t page_len, size_t *numbers) {
    return ergo_index_unspent_page(parent, boxes.len, boxes.spills, boxes.numbers, ERGO_INDEX_HEAD_LENGTH,
                                   staged.count, CAPACITY, staged.bytes, sizeof staged.bytes,
                                   table.count, CAPACITY, table.bytes, sizeof table.bytes, offset, length, page, page_len, numbers);
}

/* the unspent boxes are 513 down to 1 without 100; 33 comes after 25 and leaves the page */
static void pages(void) {
    int64_t page[ERGO_INDEX_PAGE_LENGTH + 1] = {0};
    size_t numbers = 9;
    page[ERGO_INDEX_PAGE_LENGTH] = 7;
    EXPECT(unspent_page(0, 65, page, 65, &numbers) == ERGO_INDEX_PAGE_TOO_LONG && numbers == 9 && page[0] == 0);
    EXPECT(unspent_page(0, 65, page, 63, &numbers) == ERGO_INDEX_BUFFERS && numbers == 9 && page[0] == 0);
    EXPECT(unspent_page(0, 64, page, 65, &numbers) == ERGO_INDEX_ACCEPTED && numbers == 64);
    EXPECT(page[0] == 513 && page[1] == 512 && page[63] == 450 && page[64] == 7);
    EXPECT(unspent_page(412, 2, page, 65, &numbers) == ERGO_INDEX_ACCEPTED && numbers == 2);
    EXPECT(page[0] == 101 && page[1] == 99 && page[2] == 0 && page[63] == 0 && page[64] == 7);
    EXPECT(unspent_page(511, 64, page, 65, &numbers) == ERGO_INDEX_ACCEPTED && numbers == 1 && page[0] == 1 && page[1] == 0);
    EXPECT(unspent_page(SIZE_MAX, 64, page, 65, &numbers) == ERGO_INDEX_ACCEPTED && numbers == 0 && page[0] == 0);
    printf("pages: ok\n");
}

static void say(const char *what) {
    printf("%s: head %zu, spills %d, staged %zu, table %zu, deleted %zu\n", what, boxes.len, (int)boxes.spills, staged.count, table.count,
           deleted.count);
}

static uint8_t inspect(const uint8_t key[32], uint8_t *list, size_t *offset, size_t *length) {
    return ergo_index_inspect_spill(staged.count, CAPACITY, staged.bytes, sizeof staged.bytes, table.count, CAPACITY, table.bytes,
                                    sizeof table.bytes, key, list, offset, length);
}

/* the sign of the box at a place of the row under spill number 0, and the list that holds the row */
static int64_t box_in_row(size_t place, uint8_t *list) {
    uint8_t key[32];
    size_t offset = 1, length = 1, n_txs = 0, n_boxes = 0;
    int32_t box_spills = -1, tx_spills = -1;
    static int64_t row_txs[ERGO_INDEX_HEAD_LENGTH], row_boxes[ERGO_INDEX_HEAD_LENGTH];
    ergo_index_box_segment_id(parent, 0, key);
    EXPECT(inspect(key, list, &offset, &length) == ERGO_INDEX_ACCEPTED);
    EXPECT(*list == 1 || *list == 2);
    EXPECT(ergo_index_read_persisted_segment((*list == 1 ? staged.bytes : table.bytes) + offset, length, row_txs, ERGO_INDEX_HEAD_LENGTH,
                                             &n_txs, row_boxes, ERGO_INDEX_HEAD_LENGTH, &n_boxes, &box_spills, &tx_spills)
           == ERGO_INDEX_ACCEPTED);
    EXPECT(n_txs == 0 && n_boxes == ERGO_INDEX_HEAD_LENGTH && box_spills == 0 && tx_spills == 0);
    return row_boxes[place];
}

/* the row of spill number 0 is in neither list: 12, after 25, and no out is set */
static void missing_row(void) {
    uint8_t key[32], list = 7;
    size_t offset = 8, length = 9, index = 6;
    ergo_index_box_segment_id(parent, 0, key);
    EXPECT(inspect(key, &list, &offset, &length) == ERGO_INDEX_ROW_MISSING && list == 7 && offset == 8 && length == 9);
    table.count = CAPACITY + 1;
    EXPECT(inspect(key, &list, &offset, &length) == ERGO_INDEX_BUFFERS && list == 7 && offset == 8 && length == 9);
    table.count = 0;
    EXPECT(ergo_index_locate_spill(staged.count, CAPACITY, staged.bytes, sizeof staged.bytes, table.count, CAPACITY, table.bytes,
                                   sizeof table.bytes, key, &list, &index) == ERGO_INDEX_ACCEPTED && list == 0 && index == 0);
}

static void history(void) {
    int64_t number = 0;
    uint8_t list = 0;

    missing_row();
    for (int64_t n = 1; n <= 513; n++) EXPECT(append_box(n) == ERGO_INDEX_ACCEPTED);
    EXPECT(append_tx(9) == ERGO_INDEX_ACCEPTED && txs.len == 1 && txs.numbers[0] == 9);
    say("513 appends");
    EXPECT(boxes.len == 1 && boxes.spills == 1 && staged.count == 1);
    EXPECT(boxes.numbers[0] == 513 && boxes.numbers[1] == 0 && boxes.numbers[511] == 0);

    EXPECT(flush() == ERGO_INDEX_ACCEPTED);
    say("flush");
    EXPECT(staged.count == 0 && table.count == 1 && deleted.count == 0);

    EXPECT(spend(100) == ERGO_INDEX_ACCEPTED && box_in_row(99, &list) == -100 && list == 1 && spent_boxes() == 1);
    say("spend 100");
    pages();
    EXPECT(spend(100) == ERGO_INDEX_NO_COPY_OF_THAT_SIGN);
    EXPECT(spend(1000) == ERGO_INDEX_TARGET_NOT_SEEN);
    EXPECT(append_box(-1) == ERGO_INDEX_NEGATIVE_NUMBER && boxes.len == 1);

    EXPECT(flush() == ERGO_INDEX_ACCEPTED && box_in_row(99, &list) == -100 && list == 2);
    EXPECT(unspend(100) == ERGO_INDEX_ACCEPTED && box_in_row(99, &list) == 100 && list == 1 && spent_boxes() == 0);
    say("unspend 100");

    for (int64_t n = 513; n >= 1; n--) {
        EXPECT(pop_box(&number) == ERGO_INDEX_ACCEPTED);
        EXPECT(number == n);
        if (n == 512) {
            say("two pops");
            EXPECT(boxes.len == 511 && boxes.spills == 0 && staged.count == 0 && deleted.count == 1);
        }
    }
    number = 77;
    EXPECT(pop_box(&number) == ERGO_INDEX_NOTHING_TO_POP && number == 77);
    EXPECT(pop_tx(&number) == ERGO_INDEX_ACCEPTED && number == 9 && txs.len == 0);
    EXPECT(flush() == ERGO_INDEX_ACCEPTED);
    say("513 pops and a flush");
    EXPECT(boxes.len == 0 && boxes.spills == 0 && staged.count == 0 && table.count == 0 && deleted.count == 0);

    boxes.len = ERGO_INDEX_HEAD_LENGTH + 1;
    EXPECT(append_box(1) == ERGO_INDEX_BUFFERS && boxes.len == ERGO_INDEX_HEAD_LENGTH + 1);
    boxes.len = 0;
}

static void balances_and_records(void) {
    static uint8_t held_ids[4096], read_ids[4096], id[32] = {1}, other[32] = {2};
    static int64_t held_amounts[128], read_amounts[128], read_txs[512], read_boxes[512];
    size_t held = 0, count = 0, n_txs = 9, n_boxes = 9, at = 0;
    int64_t nanos = 0, read_nanos = 0, amount = 5;
    int32_t box_spills = 9, tx_spills = 9;
    uint8_t hash[32] = {3}, read_hash[32], out[256];
    bool has = false;

    EXPECT(ergo_index_add_box(held_ids, held_amounts, &held, &nanos, 1500000, id, 32, &amount, 1, 1) == ERGO_INDEX_ACCEPTED);
    EXPECT(held == 1 && held_amounts[0] == 5 && nanos == 1500000 && held_ids[0] == 1);
    EXPECT(ergo_index_add_box(held_ids, held_amounts, &held, &nanos, INT64_MAX, id, 32, &amount, 1, 1) == ERGO_INDEX_AMOUNT_OUT_OF_RANGE);
    EXPECT(held == 1 && held_amounts[0] == 5 && nanos == 1500000);
    EXPECT(ergo_index_add_box(held_ids, held_amounts, &held, &nanos, 0, id, 31, &amount, 1, 1) == ERGO_INDEX_BUFFERS);
    EXPECT(ergo_index_subtract_box(held_ids, held_amounts, &held, &nanos, 1, other, 32, &amount, 1, 1) == ERGO_INDEX_ACCEPTED && held == 1);
    printf("balance: %lld nanoErgs, %lld milliErgs, %zu token\n", (long long)nanos, (long long)ergo_index_statement_milli_ergs(nanos), held);

    EXPECT(ergo_index_write_indexed_address(hash, true, held_ids, held_amounts, held, nanos, txs.numbers, 512, 0, boxes.numbers, 512, 0, 1, 0,
                                            out, sizeof out, &at) == ERGO_INDEX_ACCEPTED);
    EXPECT(ergo_index_read_indexed_address(out, at, read_hash, &has, read_ids, read_amounts, &count, &read_nanos, read_txs, 512, &n_txs,
                                           read_boxes, 512, &n_boxes, &box_spills, &tx_spills) == ERGO_INDEX_ACCEPTED);
    EXPECT(has && count == 1 && read_nanos == nanos && n_txs == 0 && n_boxes == 0 && box_spills == 1 && tx_spills == 0);
    EXPECT(memcmp(hash, read_hash, 32) == 0 && memcmp(held_ids, read_ids, 4096) == 0 && memcmp(held_amounts, read_amounts, 1024) == 0);
    printf("address record: %zu bytes\n", at);
    out[32] = 2;
    n_txs = 9;
    EXPECT(ergo_index_read_indexed_address(out, at, read_hash, &has, read_ids, read_amounts, &count, &read_nanos, read_txs, 512, &n_txs,
                                           read_boxes, 512, &n_boxes, &box_spills, &tx_spills) == ERGO_INDEX_BAD_FLAG && n_txs == 9);

    EXPECT(ergo_index_subtract_box(held_ids, held_amounts, &held, &nanos, 2000000, id, 32, &amount, 1, 1) == ERGO_INDEX_ACCEPTED);
    EXPECT(held == 0 && nanos == 0 && held_ids[0] == 0 && held_amounts[0] == 0);
}

/* A batch over two parents: appends, a spend, a credit and pops; then each way in which reading ends, and a refused state. */
static void batch(void) {
    static uint8_t ids[2 * ERGO_INDEX_PARENT_IDS];
    static int64_t numbers[2 * ERGO_INDEX_PARENT_NUMBERS];
    static size_t lengths[2 * ERGO_INDEX_PARENT_LENGTHS];
    static int32_t spills[2 * ERGO_INDEX_PARENT_SPILLS];
    static const uint8_t calls[] = {1, 0, 0, 0, 0, 0, 0, 0, 0, 5, 3, 0, 0, 0, 0, 0, 0, 0, 0, 5, 3, 0, 0, 0, 0, 0, 0, 0, 0, 6, 5, 0,
                                    2, 1, 0, 0, 0, 0, 0, 0, 0, 9, 8, 1, 0, 0, 0, 0, 0, 0, 0, 2, 4, 0, 0, 0, 0, 0, 0, 0, 7, 7, 5, 2};
    uint8_t answers[14] = {9}, end = 9;
    int64_t popped[7] = {9};
    size_t at = 99, made = 99;

#define RUN(from, to, room)                                                                                                         \
    ergo_index_run_calls(calls + (from), (to) - (from), 2, ids, sizeof ids, numbers, 2 * ERGO_INDEX_PARENT_NUMBERS, lengths,        \
                         2 * ERGO_INDEX_PARENT_LENGTHS, spills, 2 * ERGO_INDEX_PARENT_SPILLS, &staged.count, CAPACITY, staged.bytes, \
                         sizeof staged.bytes, &table.count, CAPACITY, table.bytes, sizeof table.bytes, &deleted.count, CAPACITY,    \
                         deleted.bytes, sizeof deleted.bytes, answers, 2 * (room), popped, (room), &at, &made, &end)

    lengths[3] = 513;
    EXPECT(RUN(0, sizeof calls, 7) == ERGO_INDEX_BUFFERS && at == 99 && made == 99 && end == 9 && lengths[0] == 0 && lengths[3] == 513);
    EXPECT(answers[0] == 9 && popped[0] == 9 && numbers[0] == 0 && staged.count == 0 && table.count == 0 && deleted.count == 0);
    lengths[3] = 0;
    EXPECT(RUN(0, 35, 7) == ERGO_INDEX_ACCEPTED && at == 32 && made == 4 && end == ERGO_INDEX_END_CUT_CALL && lengths[0] == 0);
    EXPECT(answers[0] == 0 && answers[2] == 0 && answers[4] == ERGO_INDEX_TARGET_NOT_SEEN && answers[5] == 0);
    EXPECT(answers[6] == 0 && answers[7] == 1 && popped[3] == -5);
    EXPECT(RUN(0, sizeof calls, 2) == ERGO_INDEX_ACCEPTED && at == 20 && made == 2 && end == ERGO_INDEX_END_NO_ROOM && lengths[0] == 1);
    EXPECT(numbers[0] == -5);
    EXPECT(RUN(20, sizeof calls, 7) == ERGO_INDEX_ACCEPTED && at == sizeof calls - 22 && made == 5 && end == ERGO_INDEX_END_NO_CALL);
    EXPECT(lengths[0] == 0 && lengths[4] == 1 && numbers[ERGO_INDEX_PARENT_NUMBERS + 512] == 9);
    EXPECT(lengths[5] == 1 && numbers[2 * ERGO_INDEX_PARENT_NUMBERS - 1] == 2 && numbers[ERGO_INDEX_PARENT_NUMBERS + 1024] == 7);
    EXPECT(ids[ERGO_INDEX_PARENT_IDS + 32] == 4 && ids[ERGO_INDEX_PARENT_IDS + 63] == 4);
    EXPECT(RUN(sizeof calls - 3, sizeof calls - 2, 7) == ERGO_INDEX_ACCEPTED && at == 1 && made == 1 && end == ERGO_INDEX_END_OF_INPUT);
    printf("batch: ok\n");
#undef RUN
}

/* A call of a driver at a place; the number and the amount are small. The place behind it. */
static size_t put_call(uint8_t *at, uint8_t kind, uint8_t p, uint8_t number, uint8_t tokens) {
    memset(at, 0, ERGO_INDEX_CALL_HEADER);
    at[0] = kind;
    at[4] = p;
    at[12] = number;
    at[16] = tokens;
    return ERGO_INDEX_CALL_HEADER;
}

/* A driver's batch with a token beside a journal, undone to a mark; then without a journal, with an unspend and pops; and a batch that stops for a flush. */
static void driver(void) {
    static uint8_t ids[ERGO_INDEX_PARENT_IDS];
    static int64_t numbers[ERGO_INDEX_PARENT_NUMBERS];
    static size_t lengths[ERGO_INDEX_PARENT_LENGTHS];
    static int32_t spills[ERGO_INDEX_PARENT_SPILLS];
    uint8_t calls[200], entries[100], answers[5] = {9, 9, 9, 9, 9}, end = 9;
    int64_t popped[5] = {9, 9, 9, 9, 9};
    size_t used = 0, standing = 0, at = 99, made = 99, len = 0;

#define STATE(staged_room)                                                                                                         \
    ids, sizeof ids, numbers, ERGO_INDEX_PARENT_NUMBERS, lengths, ERGO_INDEX_PARENT_LENGTHS, spills, ERGO_INDEX_PARENT_SPILLS,     \
        &staged.count, (staged_room), staged.bytes, sizeof staged.bytes, &table.count, CAPACITY, table.bytes, sizeof table.bytes,  \
        &deleted.count, CAPACITY, deleted.bytes, sizeof deleted.bytes

    EXPECT(staged.count == 0 && table.count == 0 && deleted.count == 0);
    len += put_call(calls + len, ERGO_INDEX_KIND_APPEND_BOX, 0, 7, 0);
    len += put_call(calls + len, ERGO_INDEX_KIND_CREDIT, 0, 10, 1);
    memset(calls + len, 0, ERGO_INDEX_CALL_TOKEN);
    calls[len] = 1;
    calls[len + 31] = 2;
    calls[len + 39] = 3;
    len += ERGO_INDEX_CALL_TOKEN;
    len += put_call(calls + len, ERGO_INDEX_KIND_SPEND, 0, 8, 0);
    len += put_call(calls + len, ERGO_INDEX_KIND_SPEND, 0, 7, 0);
    len += put_call(calls + len, ERGO_INDEX_KIND_POP_BOX, 0, 0, 0);
    EXPECT(ergo_index_apply_calls(calls, len, 1, STATE(CAPACITY), entries, sizeof entries, &used, &standing, answers, 5, &at, &made, &end) == ERGO_INDEX_ACCEPTED);
    EXPECT(end == ERGO_INDEX_END_NO_CALL && made == 4 && at == len - 17 && used == 91 && standing == 3);
    EXPECT(answers[0] == 0 && answers[1] == 0 && answers[2] == ERGO_INDEX_TARGET_NOT_SEEN && answers[3] == 0 && answers[4] == 9);
    EXPECT(numbers[0] == -7 && lengths[2] == 1 && numbers[1024] == 3 && numbers[1152] == 10 && ids[32] == 1 && ids[63] == 2);
    EXPECT(ergo_index_apply_calls(calls, 17, 1, STATE(CAPACITY), entries, sizeof entries, &used, &standing, answers, 5, &at, &made, &end) == ERGO_INDEX_ACCEPTED);
    EXPECT(end == ERGO_INDEX_END_JOURNAL_FULL && made == 0 && at == 0 && used == 91 && lengths[0] == 1);
    EXPECT(ergo_index_undo_to(1, 1, STATE(CAPACITY), entries, 90, &used, &standing) == ERGO_INDEX_BUFFERS && used == 91 && standing == 3);
    EXPECT(ergo_index_undo_to(1, 1, STATE(CAPACITY), entries, sizeof entries, &used, &standing) == ERGO_INDEX_ACCEPTED);
    EXPECT(used == 17 && standing == 1 && numbers[0] == 7 && lengths[2] == 0 && numbers[1152] == 0 && ids[32] == 0);
    EXPECT(ergo_index_undo_to(1, 0, STATE(CAPACITY), entries, sizeof entries, &used, &standing) == ERGO_INDEX_ACCEPTED && used == 0 && lengths[0] == 0);

    len = put_call(calls, ERGO_INDEX_KIND_APPEND_BOX, 0, 7, 0);
    len += put_call(calls + len, ERGO_INDEX_KIND_SPEND, 0, 7, 0);
    len += put_call(calls + len, ERGO_INDEX_KIND_UNSPEND, 0, 7, 0);
    len += put_call(calls + len, ERGO_INDEX_KIND_POP_BOX, 0, 0, 0);
    len += put_call(calls + len, ERGO_INDEX_KIND_POP_BOX, 0, 0, 0);
    EXPECT(ergo_index_make_calls(calls, len, 1, STATE(CAPACITY), answers, 5, popped, 4, &at, &made, &end) == ERGO_INDEX_ACCEPTED);
    EXPECT(made == 5 && at == len && answers[3] == 0 && popped[3] == 7 && popped[0] == 0 && answers[4] == ERGO_INDEX_NOTHING_TO_POP && popped[4] == 9);
    EXPECT(end == ERGO_INDEX_END_NO_ROOM && lengths[0] == 0);

    lengths[0] = 512;
    EXPECT(ergo_index_make_calls(calls, 17, 1, STATE(0), answers, 5, popped, 5, &at, &made, &end) == ERGO_INDEX_ACCEPTED);
    EXPECT(end == ERGO_INDEX_STAGING_FULL && made == 0 && at == 0 && lengths[0] == 512);
    lengths[0] = 0;
    printf("driver: ok\n");
#undef STATE
}

/* Nine calls from state 1 and then six are the fifteen calls of one load; each refusal changes nothing. */
static void loads(void) {
    uint8_t whole[150], pieces[150] = {0};
    size_t written = 7, more = 7;
    uint64_t state = 8, boxes = 8, txs = 8, whole_state = 0, whole_boxes = 0, whole_txs = 0;

    EXPECT(ergo_index_generate_load(0, 9, pieces, 1, &written, &state, &boxes, &txs) == ERGO_INDEX_STATE_IS_ZERO);
    EXPECT(ergo_index_generate_load(1, 9, pieces, 80, &written, &state, &boxes, &txs) == ERGO_INDEX_OUTPUT_TOO_SHORT);
    EXPECT(written == 7 && state == 8 && boxes == 8 && txs == 8 && pieces[0] == 0);
    EXPECT(ergo_index_generate_load(1, 9, pieces, 81, &written, &state, &boxes, &txs) == ERGO_INDEX_ACCEPTED);
    EXPECT(written == 81 && boxes == 5 && txs == 0 && pieces[0] == 1 && pieces[30] == 3 && pieces[80] == 7);
    EXPECT(ergo_index_go_on(&state, &boxes, &txs, 6, pieces + written, sizeof pieces - written, &more) == ERGO_INDEX_ACCEPTED && more == 60);
    EXPECT(ergo_index_generate_load(1, 15, whole, sizeof whole, &written, &whole_state, &whole_boxes, &whole_txs) == ERGO_INDEX_ACCEPTED);
    EXPECT(written == 141 && memcmp(whole, pieces, written) == 0 && state == whole_state && boxes == whole_boxes && txs == whole_txs);
    txs = (UINT64_C(1) << 62) + 1;
    EXPECT(ergo_index_go_on(&state, &boxes, &txs, 1, pieces, sizeof pieces, &more) == ERGO_INDEX_BUFFERS && more == 60 && txs != whole_txs);
    printf("load: %zu bytes, %llu boxes, %llu transactions, state %llu\n", written, (unsigned long long)boxes, (unsigned long long)whole_txs,
           (unsigned long long)state);
}

/* Every short history: the first is empty, the last is five flushes; a shorter output is refused and stays as it was. */
static void short_histories(void) {
    uint8_t out[ERGO_INDEX_HISTORIES_LENGTH + 1];
    size_t written = 7, at = 0, histories = 0, calls = 0;

    memset(out, 9, sizeof out);
    EXPECT(ergo_index_list_histories(out, ERGO_INDEX_HISTORIES_LENGTH - 1, &written) == ERGO_INDEX_OUTPUT_TOO_SHORT && written == 7 && out[0] == 9);
    EXPECT(ergo_index_list_histories(out, sizeof out, &written) == ERGO_INDEX_ACCEPTED && written == ERGO_INDEX_HISTORIES_LENGTH);
    EXPECT(out[0] == 0 && out[1] == 1 && out[2] == ERGO_INDEX_CALL_APPEND_1 && out[written - 1] == ERGO_INDEX_CALL_FLUSH && out[written] == 9);
    while (at < written) {
        histories++;
        calls += out[at];
        at += 1 + (size_t)out[at];
    }
    EXPECT(at == written);
    printf("short histories: %zu, of %zu calls, in %zu bytes\n", histories, calls, written);
}

/* The same calls with rows that say whose they are, and the row taken to edition 1 and back. */
static struct {
    size_t count;
    uint8_t bytes[CAPACITY * ERGO_INDEX_SECOND_RECORD_SIZE];
} staged_2, table_2;

static uint8_t flush_in(bool second) {
    return ergo_index_flush_staged_spills_in_edition(second, &staged_2.count, CAPACITY, staged_2.bytes, sizeof staged_2.bytes,
                                                     &table_2.count, CAPACITY, table_2.bytes, sizeof table_2.bytes,
                                                     &deleted.count, CAPACITY, deleted.bytes, sizeof deleted.bytes);
}

static void editions(void) {
    struct head head = {0};
    for (int64_t n = 1; n <= 513; n++)
        EXPECT(ergo_index_append_box_entry_in_edition(true, parent, &head.len, &head.spills, head.numbers, ERGO_INDEX_HEAD_LENGTH, n,
                                                      &staged_2.count, CAPACITY, staged_2.bytes, sizeof staged_2.bytes) == 0);
    EXPECT(head.len == 1 && head.spills == 1 && staged_2.count == 1);
    EXPECT(flush_in(true) == 0 && table_2.count == 1);
    EXPECT(ergo_index_flip_box_segment_entry_in_edition(true, parent, head.len, head.spills, head.numbers, ERGO_INDEX_HEAD_LENGTH, 100,
                                                        &staged_2.count, CAPACITY, staged_2.bytes, sizeof staged_2.bytes,
                                                        table_2.count, CAPACITY, table_2.bytes, sizeof table_2.bytes) == 0);
    size_t unspent, spent, unknown;
    EXPECT(ergo_index_tally_in_edition(true, parent, head.len, head.spills, head.numbers, ERGO_INDEX_HEAD_LENGTH,
                                       staged_2.count, CAPACITY, staged_2.bytes, sizeof staged_2.bytes,
                                       table_2.count, CAPACITY, table_2.bytes, sizeof table_2.bytes, &unspent, &spent, &unknown) == 0);
    EXPECT(unspent == 512 && spent == 1 && unknown == 0);
    int64_t page[ERGO_INDEX_PAGE_LENGTH];
    size_t numbers;
    EXPECT(ergo_index_unspent_page_in_edition(true, parent, head.len, head.spills, head.numbers, ERGO_INDEX_HEAD_LENGTH,
                                              staged_2.count, CAPACITY, staged_2.bytes, sizeof staged_2.bytes,
                                              table_2.count, CAPACITY, table_2.bytes, sizeof table_2.bytes, 412, 2, page, ERGO_INDEX_PAGE_LENGTH,
                                              &numbers) == 0);
    EXPECT(numbers == 2 && page[0] == 101 && page[1] == 99);

    /* another parent's row under the key: 35 */
    uint8_t key[32], list;
    size_t offset, length, index, written;
    ergo_index_box_segment_id(parent, 0, key);
    EXPECT(ergo_index_locate_spill_in_edition(true, staged_2.count, CAPACITY, staged_2.bytes, sizeof staged_2.bytes,
                                              table_2.count, CAPACITY, table_2.bytes, sizeof table_2.bytes, key, &list, &index) == 0);
    EXPECT(list == 1 && index == 0);
    EXPECT(ergo_index_inspect_spill_in_edition(true, staged_2.count, CAPACITY, staged_2.bytes, sizeof staged_2.bytes,
                                               table_2.count, CAPACITY, table_2.bytes, sizeof table_2.bytes, key, &list, &offset, &length) == 0);
    EXPECT(list == 1 && offset == 34);
    uint8_t *row = staged_2.bytes + offset;
    EXPECT(memcmp(row, parent, 32) == 0 && row[32] == 1 && row[33] == 0);
    row[0] ^= 1;
    EXPECT(ergo_index_unflip_box_segment_entry_in_edition(true, parent, head.len, head.spills, head.numbers, ERGO_INDEX_HEAD_LENGTH, 100,
                                                          &staged_2.count, CAPACITY, staged_2.bytes, sizeof staged_2.bytes,
                                                          table_2.count, CAPACITY, table_2.bytes, sizeof table_2.bytes)
           == ERGO_INDEX_ROW_OF_ANOTHER_SPILL);
    row[0] ^= 1;

    /* the row taken to edition 1 and back */
    static uint8_t first[ERGO_INDEX_ROW_LIMIT], second[ERGO_INDEX_SECOND_ROW_LIMIT];
    EXPECT(ergo_index_row_to_first(row, length, parent, 2, 0, first, sizeof first, &written) == ERGO_INDEX_ROW_OF_ANOTHER_SPILL);
    EXPECT(ergo_index_row_to_first(row, length, parent, 1, 0, first, sizeof first, &written) == 0 && written == length - 34);
    EXPECT(memcmp(first, row + 34, written) == 0);
    EXPECT(ergo_index_row_to_second(first, written, parent, 3, 0, second, sizeof second, &written) == ERGO_INDEX_ROW_OF_ANOTHER_SPILL);
    EXPECT(ergo_index_row_to_second(first, written, parent, 1, 0, second, length - 1, &written) == ERGO_INDEX_OUTPUT_TOO_SHORT);
    EXPECT(ergo_index_row_to_second(first, written, parent, 1, 0, second, length, &written) == 0 && written == length);
    EXPECT(memcmp(second, row, length) == 0);

    EXPECT(ergo_index_unflip_box_segment_entry_in_edition(true, parent, head.len, head.spills, head.numbers, ERGO_INDEX_HEAD_LENGTH, 100,
                                                          &staged_2.count, CAPACITY, staged_2.bytes, sizeof staged_2.bytes,
                                                          table_2.count, CAPACITY, table_2.bytes, sizeof table_2.bytes) == 0);
    for (int64_t n = 513; n >= 1; n--) {
        int64_t number;
        EXPECT(ergo_index_pop_box_entry_in_edition(true, parent, &head.len, &head.spills, head.numbers, ERGO_INDEX_HEAD_LENGTH,
                                                   &staged_2.count, CAPACITY, staged_2.bytes, sizeof staged_2.bytes,
                                                   table_2.count, CAPACITY, table_2.bytes, sizeof table_2.bytes,
                                                   &deleted.count, CAPACITY, deleted.bytes, sizeof deleted.bytes, &number) == 0
               && number == n);
    }
    struct head none = {0};
    EXPECT(ergo_index_append_tx_entry_in_edition(true, parent, &none.len, &none.spills, none.numbers, ERGO_INDEX_HEAD_LENGTH, 7,
                                                 &staged_2.count, CAPACITY, staged_2.bytes, sizeof staged_2.bytes) == 0);
    int64_t tx;
    EXPECT(ergo_index_pop_tx_entry_in_edition(true, parent, &none.len, &none.spills, none.numbers, ERGO_INDEX_HEAD_LENGTH,
                                              &staged_2.count, CAPACITY, staged_2.bytes, sizeof staged_2.bytes,
                                              table_2.count, CAPACITY, table_2.bytes, sizeof table_2.bytes,
                                              &deleted.count, CAPACITY, deleted.bytes, sizeof deleted.bytes, &tx) == 0
           && tx == 7);
    EXPECT(flush_in(true) == 0 && staged_2.count == 0 && table_2.count == 0 && deleted.count == 0);
    puts("editions: ok");
}

/* Two rows with a summary of two lines, in either edition; the number behind the lines stays. */
#define LINES 2
#define NUMBERS (LINES * ERGO_INDEX_SUMMARY_LINE + 1)

static struct head lined;
static uint64_t summary[NUMBERS];

static uint8_t append_with_summary(bool second, int64_t number, size_t lines) {
    return ergo_index_append_box_entry_with_summary(second, parent, &lined.len, &lined.spills, lined.numbers, ERGO_INDEX_HEAD_LENGTH, number,
                                                    &staged_2.count, CAPACITY, staged_2.bytes, sizeof staged_2.bytes, lines, summary, NUMBERS);
}

static uint8_t pop_with_summary(bool second, int64_t *number) {
    return ergo_index_pop_box_entry_with_summary(second, parent, &lined.len, &lined.spills, lined.numbers, ERGO_INDEX_HEAD_LENGTH,
                                                 &staged_2.count, CAPACITY, staged_2.bytes, sizeof staged_2.bytes,
                                                 table_2.count, CAPACITY, table_2.bytes, sizeof table_2.bytes,
                                                 &deleted.count, CAPACITY, deleted.bytes, sizeof deleted.bytes, LINES, summary, NUMBERS, number);
}

static uint8_t spend_with_summary(bool second, int64_t target) {
    return ergo_index_flip_box_segment_entry_with_summary(second, parent, lined.len, lined.spills, lined.numbers, ERGO_INDEX_HEAD_LENGTH, target,
                                                          &staged_2.count, CAPACITY, staged_2.bytes, sizeof staged_2.bytes,
                                                          table_2.count, CAPACITY, table_2.bytes, sizeof table_2.bytes, LINES, summary, NUMBERS);
}

static uint8_t unspend_with_summary(bool second, int64_t target) {
    return ergo_index_unflip_box_segment_entry_with_summary(second, parent, lined.len, lined.spills, lined.numbers, ERGO_INDEX_HEAD_LENGTH, target,
                                                            &staged_2.count, CAPACITY, staged_2.bytes, sizeof staged_2.bytes,
                                                            table_2.count, CAPACITY, table_2.bytes, sizeof table_2.bytes, LINES, summary, NUMBERS);
}

static uint8_t summarize(bool second, size_t lines, uint64_t *fresh) {
    return ergo_index_summarize_boxes(second, parent, lined.len, lined.spills, lined.numbers, ERGO_INDEX_HEAD_LENGTH,
                                      staged_2.count, CAPACITY, staged_2.bytes, sizeof staged_2.bytes,
                                      table_2.count, CAPACITY, table_2.bytes, sizeof table_2.bytes, lines, fresh, NUMBERS);
}

/* how many boxes are spent: the tally by the summary is the one over the rows, and the summary the fresh one */
static size_t spent_by_summary(bool second) {
    size_t unspent = 0, spent = 0, unknown = 0, row_unspent = 1, row_spent = 1, row_unknown = 1;
    uint64_t fresh[NUMBERS] = {9, 9, 9, 9, 9, 9, 9, 9, 9, 9, 7};
    EXPECT(ergo_index_tally_with_summary(lined.len, lined.spills, lined.numbers, ERGO_INDEX_HEAD_LENGTH, LINES, summary, NUMBERS, &unspent, &spent,
                                         &unknown) == ERGO_INDEX_ACCEPTED);
    EXPECT(ergo_index_tally_in_edition(second, parent, lined.len, lined.spills, lined.numbers, ERGO_INDEX_HEAD_LENGTH,
                                       staged_2.count, CAPACITY, staged_2.bytes, sizeof staged_2.bytes,
                                       table_2.count, CAPACITY, table_2.bytes, sizeof table_2.bytes, &row_unspent, &row_spent, &row_unknown)
           == ERGO_INDEX_ACCEPTED);
    EXPECT(unspent == row_unspent && spent == row_spent && unknown == row_unknown);
    EXPECT(summarize(second, LINES, fresh) == ERGO_INDEX_ACCEPTED && memcmp(summary, fresh, sizeof summary) == 0);
    return spent;
}

static void say_summary(const char *what) {
    printf("%s:", what);
    for (size_t i = 0; i < LINES * ERGO_INDEX_SUMMARY_LINE; i++)
        printf("%s %llu", i == ERGO_INDEX_SUMMARY_LINE ? "," : "", (unsigned long long)summary[i]);
    printf("\n");
}

/* damage in the row of spill 1 is not seen by a spend in the row of spill 0, but by the summary made afresh, which changes nothing then */
static void damaged_row(bool second) {
    uint8_t key[32], list = 0;
    size_t offset = 0, length = 0;
    uint64_t fresh[NUMBERS] = {9};
    ergo_index_box_segment_id(parent, 1, key);
    EXPECT(ergo_index_inspect_spill_in_edition(second, staged_2.count, CAPACITY, staged_2.bytes, sizeof staged_2.bytes,
                                               table_2.count, CAPACITY, table_2.bytes, sizeof table_2.bytes, key, &list, &offset, &length) == 0);
    EXPECT(list == 2);
    table_2.bytes[offset] ^= 1;
    EXPECT(spend_with_summary(second, 7) == ERGO_INDEX_ACCEPTED && unspend_with_summary(second, 7) == ERGO_INDEX_ACCEPTED);
    EXPECT(summarize(second, LINES, fresh) == (second ? ERGO_INDEX_ROW_OF_ANOTHER_SPILL : ERGO_INDEX_NEGATIVE_LENGTH) && fresh[0] == 9);
    table_2.bytes[offset] ^= 1;
}

static void summaries(bool second) {
    int64_t number = 0;
    size_t unspent = 1, spent = 2, unknown = 3;

    memset(&lined, 0, sizeof lined);
    memset(summary, 0, sizeof summary);
    summary[NUMBERS - 1] = 7;
    for (int64_t n = 1; n <= 1025; n++) EXPECT(append_with_summary(second, n, LINES) == ERGO_INDEX_ACCEPTED);
    EXPECT(lined.len == 1 && lined.spills == 2 && staged_2.count == 2 && spent_by_summary(second) == 0);
    say_summary("1025 appends with a summary");
    EXPECT(flush_in(second) == ERGO_INDEX_ACCEPTED && table_2.count == 2);

    EXPECT(spend_with_summary(second, 100) == ERGO_INDEX_ACCEPTED && staged_2.count == 1 && spent_by_summary(second) == 1);
    EXPECT(spend_with_summary(second, 1025) == ERGO_INDEX_ACCEPTED && lined.numbers[0] == -1025 && spent_by_summary(second) == 2);
    say_summary("two spends");
    EXPECT(spend_with_summary(second, 100) == ERGO_INDEX_NO_COPY_OF_THAT_SIGN && spend_with_summary(second, 1026) == ERGO_INDEX_TARGET_NOT_SEEN);
    damaged_row(second);
    EXPECT(spent_by_summary(second) == 2);
    EXPECT(unspend_with_summary(second, 1025) == ERGO_INDEX_ACCEPTED && unspend_with_summary(second, 100) == ERGO_INDEX_ACCEPTED);
    EXPECT(spent_by_summary(second) == 0 && summary[2] == 512 && summary[4] == 0);

    /* 25 for a summary too short for its lines; 36 for fewer lines than spills, and for a line that is not one of 512 entries */
    EXPECT(summarize(second, LINES + 1, summary) == ERGO_INDEX_BUFFERS && summarize(second, LINES - 1, summary) == ERGO_INDEX_SUMMARY_TOO_SHORT);
    summary[3]++;
    EXPECT(ergo_index_tally_with_summary(lined.len, lined.spills, lined.numbers, ERGO_INDEX_HEAD_LENGTH, LINES, summary, NUMBERS, &unspent, &spent,
                                         &unknown) == ERGO_INDEX_SUMMARY_TOO_SHORT);
    EXPECT(unspent == 1 && spent == 2 && unknown == 3);
    summary[3]--;

    EXPECT(pop_with_summary(second, &number) == ERGO_INDEX_ACCEPTED && number == 1025 && lined.len == 0 && lined.spills == 2);
    EXPECT(pop_with_summary(second, &number) == ERGO_INDEX_ACCEPTED && number == 1024 && lined.len == 511 && lined.spills == 1);
    EXPECT(spent_by_summary(second) == 0);
    say_summary("two pops");

    /* a full head with no free line: 36, and nothing changes */
    EXPECT(append_with_summary(second, 1024, LINES - 1) == ERGO_INDEX_ACCEPTED && lined.len == 512);
    EXPECT(append_with_summary(second, -1, LINES - 1) == ERGO_INDEX_NEGATIVE_NUMBER);
    EXPECT(append_with_summary(second, 1025, LINES - 1) == ERGO_INDEX_SUMMARY_TOO_SHORT && lined.len == 512 && lined.spills == 1);
    EXPECT(append_with_summary(second, -1, 0) == ERGO_INDEX_SUMMARY_TOO_SHORT && staged_2.count == 1 && summary[5] == 0);

    for (int64_t n = 1024; n >= 1; n--) EXPECT(pop_with_summary(second, &number) == ERGO_INDEX_ACCEPTED && number == n);
    EXPECT(lined.len == 0 && lined.spills == 0 && pop_with_summary(second, &number) == ERGO_INDEX_NOTHING_TO_POP && number == 1);
    for (size_t i = 0; i < NUMBERS; i++) EXPECT(summary[i] == (i == NUMBERS - 1 ? 7 : 0));
    EXPECT(flush_in(second) == ERGO_INDEX_ACCEPTED && staged_2.count == 0 && table_2.count == 0 && deleted.count == 0);
    printf("summary, edition %d: ok\n", second ? 2 : 1);
}

static void codecs(void) {
    static const int64_t one[1] = {1}, minus_one[1] = {-1};
    static const uint8_t row[6] = {2, 2, 2, 1, 0, 2};
    uint8_t out[64], header[32] = {8}, read_header[32], digest[32];
    size_t at = 0, written = 0, count = 3;
    int64_t n = 0;
    int32_t m = 0;
    uint64_t undo_txs = 0, undo_boxes = 0, heights[4] = {1, 400, 399, 5};
    bool known = false, skipped = false;

    EXPECT(ergo_index_put_i64(INT64_MIN, out, sizeof out, &at) == ERGO_INDEX_ACCEPTED && at == 10 && out[8] == 0xFF && out[9] == 1);
    EXPECT(ergo_index_put_i32(-65, out, sizeof out, &at) == ERGO_INDEX_ACCEPTED && at == 12 && out[10] == 0x81 && out[11] == 1);
    EXPECT(ergo_index_put_i32(64, out, 13, &at) == ERGO_INDEX_OUTPUT_TOO_SHORT && at == 12);
    at = 0;
    EXPECT(ergo_index_get_i64(out, 12, &at, &n) == ERGO_INDEX_ACCEPTED && n == INT64_MIN && at == 10);
    EXPECT(ergo_index_get_i32(out, 12, &at, &m) == ERGO_INDEX_ACCEPTED && m == -65 && at == 12);
    EXPECT(ergo_index_get_i64(out, 12, &at, &n) == ERGO_INDEX_BYTES_END && n == INT64_MIN && at == 12);

    at = 0;
    EXPECT(ergo_index_write_segment(one, 1, 1, minus_one, 1, 1, 0, 1, out, sizeof out, &at) == ERGO_INDEX_ACCEPTED);
    EXPECT(at == 6 && memcmp(out, row, 6) == 0);
    EXPECT(ergo_index_write_segment(one, 1, 2, minus_one, 1, 1, 0, 1, out, sizeof out, &at) == ERGO_INDEX_BUFFERS && at == 6);

    EXPECT(ergo_index_encode_undo_entry(true, header, 3, 4, out, sizeof out, &written) == ERGO_INDEX_ACCEPTED && written == 49);
    EXPECT(ergo_index_decode_undo_entry(out, 49, &known, read_header, &undo_txs, &undo_boxes) == ERGO_INDEX_ACCEPTED);
    EXPECT(known && memcmp(header, read_header, 32) == 0 && undo_txs == 3 && undo_boxes == 4);
    EXPECT(ergo_index_decode_undo_entry(out, 48, &known, read_header, &undo_txs, &undo_boxes) == ERGO_INDEX_UNDO_ENTRY_NUMBERS_CUT);

    EXPECT(ergo_index_prune_below_window(heights, 4, &count, 3, 1120, false, 0) == ERGO_INDEX_ACCEPTED);
    EXPECT(count == 1 && heights[0] == 400 && heights[1] == 0 && heights[2] == 0 && heights[3] == 5);

    EXPECT(ergo_index_tolerate_secondary_drift(15, &skipped) == ERGO_INDEX_ACCEPTED && skipped);
    EXPECT(ergo_index_tolerate_secondary_drift(14, &skipped) == ERGO_INDEX_NO_COPY_OF_THAT_SIGN && skipped);
    EXPECT(ergo_index_tolerate_secondary_drift(0, &skipped) == ERGO_INDEX_ACCEPTED && !skipped);

    ergo_index_blake2b256((const uint8_t *)"abc", 3, digest);
    printf("blake2b256(abc): ");
    for (int i = 0; i < 32; i++) printf("%02x", digest[i]);
    printf("\n");
}

static void flat_lists(void) {
    static int64_t list[ERGO_INDEX_FLAT_LENGTH];
    size_t count = 0;
    int64_t number = 0;

    for (int64_t n = 1; n <= 600; n++) EXPECT(ergo_index_flat_append_box(&count, list, ERGO_INDEX_FLAT_LENGTH, n) == ERGO_INDEX_ACCEPTED);
    EXPECT(ergo_index_flat_spend_box(&count, list, ERGO_INDEX_FLAT_LENGTH, 7) == ERGO_INDEX_ACCEPTED && list[6] == -7);
    EXPECT(ergo_index_flat_spend_box(&count, list, ERGO_INDEX_FLAT_LENGTH, 7) == ERGO_INDEX_NO_COPY_OF_THAT_SIGN);
    EXPECT(ergo_index_flat_spend_box(&count, list, ERGO_INDEX_FLAT_LENGTH, 700) == ERGO_INDEX_TARGET_NOT_SEEN);
    EXPECT(ergo_index_flat_unspend_box(&count, list, ERGO_INDEX_FLAT_LENGTH, 7) == ERGO_INDEX_ACCEPTED && list[6] == 7);
    EXPECT(ergo_index_flat_pop_box(&count, list, ERGO_INDEX_FLAT_LENGTH, &number) == ERGO_INDEX_ACCEPTED && number == 600 && count == 599 && list[599] == 0);
    EXPECT(ergo_index_flat_pop_box(&count, list, ERGO_INDEX_FLAT_LENGTH - 1, &number) == ERGO_INDEX_BUFFERS && count == 599);
    count = ERGO_INDEX_FLAT_LENGTH;
    EXPECT(ergo_index_flat_append_box(&count, list, ERGO_INDEX_FLAT_LENGTH, 601) == ERGO_INDEX_FLAT_LIST_FULL && count == ERGO_INDEX_FLAT_LENGTH);
    EXPECT(ergo_index_flat_append_box(&count, list, ERGO_INDEX_FLAT_LENGTH, -1) == ERGO_INDEX_NEGATIVE_NUMBER);
    printf("flat list: ok\n");
}

static void trials(void) {
    static uint8_t table[16 * ERGO_INDEX_RECORD_SIZE], staged[8 * ERGO_INDEX_RECORD_SIZE], deleted[8 * ERGO_INDEX_KEY_SIZE];
    static int64_t standing[5000 * ERGO_INDEX_STANDING_NUMBERS];
    const size_t places = sizeof standing / sizeof *standing;
    const int32_t steps[] = {1000, 1000, 1000, 1000, -3, 500};
    const int32_t deep[] = {10, -2};
    size_t most_staged = 77, most_deleted = 78;

    EXPECT(ergo_index_try_forks(1, steps, 6, 16, table, sizeof table, 8, staged, sizeof staged, 8, deleted, sizeof deleted, 5000, standing, places, &most_staged,
                                &most_deleted) == ERGO_INDEX_ACCEPTED);
    printf("trial: %zu staged rows, %zu deleted keys\n", most_staged, most_deleted);
    EXPECT(ergo_index_try_forks(1, steps, 6, 16, table, sizeof table, most_staged - 1, staged, sizeof staged, 8, deleted, sizeof deleted, 5000, standing, places,
                                &most_staged, &most_deleted) == ERGO_INDEX_STAGING_FULL);
    table[0] = 1;
    EXPECT(ergo_index_try_forks(0, steps, 6, 16, table, sizeof table, 8, staged, sizeof staged, 8, deleted, sizeof deleted, 5000, standing, places, &most_staged,
                                &most_deleted) == ERGO_INDEX_STATE_IS_ZERO && table[0] == 1);
    EXPECT(ergo_index_try_forks(1, deep, 2, 16, table, sizeof table, 8, staged, sizeof staged, 8, deleted, sizeof deleted, 5000, standing, places, &most_staged,
                                &most_deleted) == ERGO_INDEX_FORK_TOO_DEEP && table[0] == 0);
    EXPECT(ergo_index_try_forks(1, steps, 6, 17, table, sizeof table, 8, staged, sizeof staged, 8, deleted, sizeof deleted, 5000, standing, places, &most_staged,
                                &most_deleted) == ERGO_INDEX_BUFFERS);
    EXPECT(ergo_index_try_forks(1, steps, 6, 16, table, sizeof table, 8, staged, sizeof staged, 8, deleted, sizeof deleted, 100, standing, places, &most_staged,
                                &most_deleted) == ERGO_INDEX_STANDING_CALLS_FULL);
    printf("trials: ok\n");
}

/* A whole address: 10 nanoErgs, two tokens, and box numbers from 1 up. */
struct address {
    bool second, held;
    uint8_t hash[32], ids[4096];
    int64_t nanos, amounts[128];
    size_t tokens;
    struct head boxes, txs;
    size_t staged_count;
    uint8_t staged[CAPACITY * ERGO_INDEX_SECOND_RECORD_SIZE];
};

static void make_address(struct address *a, bool second, uint8_t first_token, int64_t numbers) {
    memset(a, 0, sizeof *a);
    a->second = second;
    a->held = true;
    a->nanos = 10;
    a->tokens = 2;
    a->ids[0] = first_token;
    a->ids[32] = 3 - first_token;
    a->amounts[0] = first_token;
    a->amounts[1] = 3 - first_token;
    for (int64_t n = 1; n <= numbers; n++)
        EXPECT(ergo_index_append_box_entry_in_edition(second, a->hash, &a->boxes.len, &a->boxes.spills, a->boxes.numbers, ERGO_INDEX_HEAD_LENGTH, n,
                                                      &a->staged_count, CAPACITY, a->staged, sizeof a->staged) == ERGO_INDEX_ACCEPTED);
}

static uint8_t rank(const struct address *a, const struct address *b, int32_t *order) {
    return ergo_index_rank(a->second, a->hash, a->held, a->nanos, a->ids, a->amounts, a->tokens, a->boxes.len, a->boxes.spills, a->boxes.numbers,
                           ERGO_INDEX_HEAD_LENGTH, a->txs.len, a->txs.spills, a->txs.numbers, ERGO_INDEX_HEAD_LENGTH, a->staged_count, CAPACITY,
                           a->staged, sizeof a->staged, 0, 0, a->staged, 0, b->second, b->hash, b->held, b->nanos, b->ids, b->amounts, b->tokens,
                           b->boxes.len, b->boxes.spills, b->boxes.numbers, ERGO_INDEX_HEAD_LENGTH, b->txs.len, b->txs.spills, b->txs.numbers,
                           ERGO_INDEX_HEAD_LENGTH, b->staged_count, CAPACITY, b->staged, sizeof b->staged, 0, 0, b->staged, 0, order);
}

static void ranks(void) {
    static struct address a, b;
    int32_t order = 9, turned = 9;
    /* tokens in another sequence; 512 numbers in the head, and as a row behind which the head is empty */
    make_address(&a, false, 1, 512);
    make_address(&b, true, 2, 513);
    b.boxes.len = 0;
    EXPECT(a.boxes.len == 512 && a.boxes.spills == 0 && b.boxes.spills == 1);
    EXPECT(rank(&a, &b, &order) == ERGO_INDEX_ACCEPTED && order == 0);

    make_address(&a, false, 1, 513);
    b.boxes.len = 1;
    EXPECT(rank(&a, &b, &order) == ERGO_INDEX_ACCEPTED && order == 0);

    /* the spent box is first; no balance is before a balance */
    b.boxes.numbers[0] = -513;
    EXPECT(rank(&a, &b, &order) == ERGO_INDEX_ACCEPTED && order == 1);
    a.held = false;
    EXPECT(rank(&a, &b, &order) == ERGO_INDEX_ACCEPTED && order == -1);
    EXPECT(rank(&b, &a, &turned) == ERGO_INDEX_ACCEPTED && turned == 1);
    a.txs.len = 1;
    EXPECT(rank(&a, &a, &order) == ERGO_INDEX_ACCEPTED && order == 0);

    /* 25 before 41, 41 before the rows, the first address before the second; a refusal leaves the order */
    order = 9;
    a.txs.spills = -1;
    b.boxes.spills = 2;
    EXPECT(rank(&a, &b, &order) == ERGO_INDEX_NEGATIVE_SPILL_COUNT && rank(&b, &a, &order) == ERGO_INDEX_ROW_MISSING && order == 9);
    b.ids[32] = b.ids[0];
    EXPECT(rank(&a, &b, &order) == ERGO_INDEX_TOKEN_TWICE && rank(&b, &a, &order) == ERGO_INDEX_TOKEN_TWICE && order == 9);
    a.boxes.len = 513;
    EXPECT(rank(&a, &b, &order) == ERGO_INDEX_BUFFERS && rank(&b, &a, &order) == ERGO_INDEX_BUFFERS && order == 9);
    printf("ranks: ok\n");
}

/* Three rows of 512 in a table, and parts of it given instead: a call is made on the part as on the table, or names the row that is to be fetched. */
#define WORK 3

static bool second_rows;
static struct head work_boxes;
static struct {
    size_t count, capacity;
    uint8_t bytes[WORK * ERGO_INDEX_SECOND_RECORD_SIZE];
} work_staged, whole, part;
static int32_t fetch_number;
static uint8_t fetch_key[32];

#define WORK_HEAD work_boxes.len, work_boxes.spills, work_boxes.numbers, ERGO_INDEX_HEAD_LENGTH
#define WORK_STAGED work_staged.count, WORK, work_staged.bytes, sizeof work_staged.bytes
#define WORK_PART part.count, part.capacity, part.bytes, sizeof part.bytes

/* puts the row that was asked for, taken from the whole table */
static uint8_t fetch(void) {
    uint8_t list = 0, key[32];
    size_t offset = 0, length = 0;
    ergo_index_box_segment_id(parent, fetch_number, key);
    EXPECT(memcmp(key, fetch_key, sizeof key) == 0);
    EXPECT(ergo_index_inspect_spill_in_edition(second_rows, 0, 0, part.bytes, 0, whole.count, WORK, whole.bytes, sizeof whole.bytes, key, &list, &offset,
                                               &length) == ERGO_INDEX_ACCEPTED && list == 2);
    return ergo_index_put_row(second_rows, key, whole.bytes + offset, length, &part.count, part.capacity, part.bytes, sizeof part.bytes);
}

static uint8_t work_spend(int64_t target) {
    return ergo_index_flip_box_segment_entry_in_edition(second_rows, parent, WORK_HEAD, target, &work_staged.count, WORK, work_staged.bytes,
                                                        sizeof work_staged.bytes, WORK_PART);
}

static uint8_t asks_for_spend(int64_t target) {
    return ergo_index_missing_for_spend(second_rows, parent, WORK_HEAD, target, WORK_STAGED, WORK_PART, &fetch_number, fetch_key);
}

static void working_sets(bool second) {
    static uint64_t summary[WORK * ERGO_INDEX_SUMMARY_LINE];
    static uint8_t key_list[ERGO_INDEX_KEY_SIZE], long_row[ERGO_INDEX_SECOND_ROW_LIMIT + 1];
    int64_t page[ERGO_INDEX_PAGE_LENGTH] = {0};
    size_t keys_count = 0, unspent = 0, spent = 0, unknown = 0;
    second_rows = second;
    memset(&work_boxes, 0, sizeof work_boxes);
    memset(&work_staged, 0, sizeof work_staged);
    memset(&whole, 0, sizeof whole);
    memset(&part, 0, sizeof part);
    part.capacity = 2;
    for (int64_t n = 1; n <= 3 * 512 + 1; n++)
        EXPECT(ergo_index_append_box_entry_in_edition(second, parent, &work_boxes.len, &work_boxes.spills, work_boxes.numbers, ERGO_INDEX_HEAD_LENGTH, n,
                                                      &work_staged.count, WORK, work_staged.bytes, sizeof work_staged.bytes) == ERGO_INDEX_ACCEPTED);
    EXPECT(ergo_index_flush_staged_spills_in_edition(second, &work_staged.count, WORK, work_staged.bytes, sizeof work_staged.bytes, &whole.count, WORK,
                                                     whole.bytes, sizeof whole.bytes, &keys_count, 1, key_list, sizeof key_list) == ERGO_INDEX_ACCEPTED);
    EXPECT(work_boxes.len == 1 && work_boxes.spills == 3 && whole.count == 3);
    EXPECT(ergo_index_summarize_boxes(second, parent, WORK_HEAD, WORK_STAGED, whole.count, WORK, whole.bytes, sizeof whole.bytes, WORK, summary,
                                      WORK * ERGO_INDEX_SUMMARY_LINE) == ERGO_INDEX_ACCEPTED);

    /* with a summary one row; without, the halving reads rows 1 and 2 */
    fetch_number = 9;
    EXPECT(ergo_index_missing_for_unspend_with_summary(second, parent, WORK_HEAD, 1537, WORK_STAGED, WORK_PART, WORK, summary,
                                                       WORK * ERGO_INDEX_SUMMARY_LINE, &fetch_number, fetch_key) == ERGO_INDEX_ACCEPTED && fetch_number == 9);
    EXPECT(ergo_index_missing_for_spend_with_summary(second, parent, WORK_HEAD, 700, WORK_STAGED, WORK_PART, WORK, summary,
                                                     WORK * ERGO_INDEX_SUMMARY_LINE, &fetch_number, fetch_key) == ERGO_INDEX_ROW_MISSING && fetch_number == 1);
    EXPECT(asks_for_spend(1537) == ERGO_INDEX_ACCEPTED && asks_for_spend(INT64_MIN) == ERGO_INDEX_ACCEPTED);
    EXPECT(work_spend(700) == ERGO_INDEX_ROW_MISSING && asks_for_spend(700) == ERGO_INDEX_ROW_MISSING && fetch_number == 1);
    EXPECT(fetch() == ERGO_INDEX_ACCEPTED && part.count == 1);
    EXPECT(ergo_index_missing_for_spend_with_summary(second, parent, WORK_HEAD, 700, WORK_STAGED, WORK_PART, WORK, summary,
                                                     WORK * ERGO_INDEX_SUMMARY_LINE, &fetch_number, fetch_key) == ERGO_INDEX_ACCEPTED);
    EXPECT(work_spend(700) == ERGO_INDEX_ROW_MISSING && asks_for_spend(700) == ERGO_INDEX_ROW_MISSING && fetch_number == 2);
    EXPECT(fetch() == ERGO_INDEX_ACCEPTED && part.count == 2 && fetch() == ERGO_INDEX_ACCEPTED && part.count == 2);
    EXPECT(asks_for_spend(700) == ERGO_INDEX_ACCEPTED && work_spend(700) == ERGO_INDEX_ACCEPTED && work_staged.count == 1);
    EXPECT(ergo_index_missing_for_unspend(second, parent, WORK_HEAD, 700, WORK_STAGED, WORK_PART, &fetch_number, fetch_key) == ERGO_INDEX_ACCEPTED);

    /* row 0 has no room until a row is dropped */
    EXPECT(ergo_index_missing_for_page(second, parent, WORK_HEAD, WORK_STAGED, WORK_PART, 64, page, 64, &fetch_number, fetch_key) == ERGO_INDEX_ROW_MISSING
           && fetch_number == 0);
    EXPECT(ergo_index_missing_for_tally(second, parent, WORK_HEAD, WORK_STAGED, WORK_PART, &fetch_number, fetch_key) == ERGO_INDEX_ROW_MISSING);
    EXPECT(fetch_number == 0 && fetch() == ERGO_INDEX_TABLE_FULL && part.count == 2);
    part.capacity = 3;
    EXPECT(ergo_index_put_row(second, fetch_key, long_row, (second ? ERGO_INDEX_SECOND_ROW_LIMIT : ERGO_INDEX_ROW_LIMIT) + 1, &part.count, part.capacity,
                              part.bytes, sizeof part.bytes) == ERGO_INDEX_BUFFERS && part.count == 2);
    EXPECT(fetch() == ERGO_INDEX_ACCEPTED && part.count == 3);
    EXPECT(ergo_index_missing_for_tally(second, parent, WORK_HEAD, WORK_STAGED, WORK_PART, &fetch_number, fetch_key) == ERGO_INDEX_ACCEPTED);
    EXPECT(ergo_index_tally_in_edition(second, parent, WORK_HEAD, WORK_STAGED, WORK_PART, &unspent, &spent, &unknown) == ERGO_INDEX_ACCEPTED);
    EXPECT(unspent == 1536 && spent == 1 && unknown == 0);

    /* a pop needs the newest row once the head is empty; the same of transactions has another key */
    part.count = 0;
    EXPECT(ergo_index_missing_for_pop_box(second, parent, WORK_HEAD, WORK_STAGED, WORK_PART, 0, 1, key_list, sizeof key_list, &fetch_number, fetch_key)
           == ERGO_INDEX_ACCEPTED);
    work_boxes.len = 0;
    EXPECT(ergo_index_missing_for_pop_tx(second, parent, WORK_HEAD, WORK_STAGED, WORK_PART, 0, 1, key_list, sizeof key_list, &fetch_number, fetch_key)
           == ERGO_INDEX_ROW_MISSING && fetch_number == 2);
    ergo_index_tx_segment_id(parent, 2, key_list);
    EXPECT(memcmp(key_list, fetch_key, sizeof key_list) == 0);
    EXPECT(ergo_index_missing_for_pop_box(second, parent, WORK_HEAD, WORK_STAGED, WORK_PART, 0, 1, key_list, sizeof key_list, &fetch_number, fetch_key)
           == ERGO_INDEX_ROW_MISSING && fetch_number == 2 && fetch() == ERGO_INDEX_ACCEPTED);
    printf("working set, edition %d: ok\n", second ? 2 : 1);
}

int main(void) {
    history();
    balances_and_records();
    batch();
    driver();
    loads();
    trials();
    short_histories();
    editions();
    summaries(false);
    summaries(true);
    codecs();
    flat_lists();
    ranks();
    working_sets(false);
    working_sets(true);
    printf("ok\n");
    return 0;
}
