/* The page of kept frontiers: request 7. It is of the wide form alone. */
#include <stdio.h>
#include <stdlib.h>
#include <string.h>

#include "model.h"

enum { ROW = 92 + 1 };

/* Eight columns of 11, of which those from k up are blank, then the rule's truth. */
static void write_row(uint8_t *page, size_t row, unsigned k, const unsigned *counts, bool truth) {
    char text[ROW + 1];
    int length = 0;
    for (unsigned p = 0; p < PROCESSES; p++) {
        char digits[12] = "";
        if (p < k) snprintf(digits, sizeof digits, "%u", counts[p]);
        length += sprintf(text + length, "%11s", digits);
    }
    length += sprintf(text + length, " %s\n", truth ? "yes" : "no ");
    if (length != ROW) abort();
    memcpy(page + ROW * row, text, ROW);
}

static uint64_t refused(unsigned number) {
    return reply_word(number, 0, 0, 0);
}

static bool wrong_lengths(size_t record_len, size_t window_len) {
    return record_len != wide_form.record || !window_length(&wide_form, window_len);
}

/* The cuts stand in the window's order. The rule's truth is that of the form, not of its last line. */
static void write_cuts(const struct model *m, const struct cuts *judged, uint8_t *page) {
    size_t row = 0;
    for (size_t i = 0; i < judged->n; i++) {
        const struct cut *s = &judged->cut[i];
        if (!kept(judged, s, open_processes(m))) continue;
        write_row(page, row++, m->k, s->counts, s->forms >> (m->rule.forms - 1) & 1);
    }
}

uint64_t model_page(const struct model *m, size_t record_len, size_t window_len, uint8_t *page, size_t page_len) {
    if (m->form != &wide_form) abort();
    if (wrong_lengths(record_len, window_len)) return refused(6);
    struct cuts all = all_cuts(&m->history);
    judge_cuts(&all, &m->history, &m->rule, m->start, &m->first);
    size_t rows = kept_number(&all, open_processes(m));
    unsigned number = rows > window_len / wide_form.frontier ? 34 : page_len < ROW * rows ? 44 : 0;
    if (number == 0) write_cuts(m, &all, page);
    free_cuts(&all);
    return number != 0 ? refused(number) : reply_word(0, 0, rows, 0);
}

/* The rule is the last line of the table: its bit of the values. */
static void write_frontier(const uint8_t *record, const uint8_t *frontier, uint8_t *page, size_t row) {
    unsigned counts[PROCESSES], rule = record[1] - 1u;
    for (unsigned p = 0; p < PROCESSES; p++) counts[p] = get_count(&wide_form, frontier + wide_form.width * p);
    write_row(page, row, record[0], counts, frontier[wide_form.values_at + rule / 8] >> rule % 8 & 1);
}

uint64_t bytes_page(const uint8_t *record, size_t record_len, const uint8_t *window, size_t window_len, uint8_t *page,
                    size_t page_len) {
    if (wrong_lengths(record_len, window_len)) return refused(6);
    if (bytes_damaged(&wide_form, record, window_len / wide_form.frontier)) return refused(34);
    size_t rows = get_kept(record);
    if (page_len < ROW * rows) return refused(44);
    for (size_t row = 0; row < rows; row++) write_frontier(record, window + wide_form.frontier * row, page, row);
    return reply_word(0, 0, rows, 0);
}
