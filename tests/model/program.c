/* The program: lines in, answers out. The rule's text is kept from its line to the start line, where open gets it. */
#include <stdarg.h>
#include <stdio.h>
#include <stdlib.h>
#include <string.h>

#include "program.h"

enum { RECORD = 2024, FRONTIER = 56 };

enum awaited { WATCH, RULE, START, DID, ENDED };

struct run {
    enum awaited awaited;
    unsigned k;
    size_t window_length, rule_length;
    uint8_t rule[LINE_MOST];
    struct model model;
    uint8_t record[RECORD], window[FRONTIER * ROOM], scratch[FRONTIER * ROOM];
    struct parts parts;
    struct output *out;
};

/* ---- answers ---- */

static void print(struct output *out, const char *format, ...) {
    char text[64];
    va_list values;
    va_start(values, format);
    int length = vsnprintf(text, sizeof text, format, values);
    va_end(values);
    if (length < 0 || (size_t)length >= sizeof text) abort();
    if (out->length + (size_t)length > out->room) {
        out->room = 2 * out->room + sizeof text;
        out->bytes = realloc(out->bytes, out->room);
        if (out->bytes == NULL) abort();
    }
    memcpy(out->bytes + out->length, text, (size_t)length);
    out->length += (size_t)length;
}

static void print_refused(struct run *run, unsigned number, size_t place) {
    print(run->out, "(refused %u %zu)\n", number, place);
    if (run->awaited != DID) run->awaited = ENDED;
}

static void print_state(struct run *run, uint64_t reply) {
    print(run->out, "(state (");
    for (unsigned p = 0; p < run->k; p++) print(run->out, p == 0 ? "%u" : " %u", run->model.history.taken[p]);
    print(run->out, ") %s %u)\n", reply >> 8 & 1 ? "yes" : "no", (unsigned)(reply >> 16 & 65535));
}

static unsigned number_of(uint64_t reply) {
    return reply & 255;
}

/* Kept frontiers are never 0, so an answer without number and value is "nothing ready". */
static bool nothing_ready(uint64_t reply) {
    return reply == 0;
}

/* ---- lines ---- */

static void judge_watch(struct run *run, const uint8_t *line, size_t length) {
    struct fault fault = watch_line(line, length, &run->parts);
    if (fault.number == 0 && (run->parts.number[0].value < 1 || run->parts.number[0].value > 8)) fault = (struct fault){5, 0};
    if (fault.number != 0) {
        print_refused(run, fault.number, fault.place);
        return;
    }
    run->k = (unsigned)run->parts.number[0].value;
    run->window_length = FRONTIER * (size_t)run->parts.number[1].value;
    run->awaited = RULE;
}

static void judge_rule(struct run *run, const uint8_t *line, size_t length) {
    struct fault fault = rule_line(line, length, run->k);
    if (fault.number != 0) {
        print_refused(run, fault.number, fault.place);
        return;
    }
    run->rule_length = length - 7;
    memcpy(run->rule, line + 6, run->rule_length);
    run->awaited = START;
}

static void judge_start(struct run *run, const uint8_t *line, size_t length) {
    struct fault fault = start_line(line, length, run->k, &run->parts);
    if (fault.number != 0) {
        print_refused(run, fault.number, fault.place);
        return;
    }
    uint64_t labels = 0;
    for (unsigned p = 0; p < run->k; p++) labels |= run->parts.number[p].value << 8 * p;
    uint64_t reply = model_open(&run->model, &wide_form, run->rule, run->rule_length, run->k, labels, run->record, RECORD,
                                run->window, run->window_length);
    if (number_of(reply) != 0) {
        print_refused(run, number_of(reply), (size_t)(reply >> 32));
        return;
    }
    print_state(run, reply);
    run->awaited = DID;
}

static uint64_t offer(struct run *run) {
    const struct parts *parts = &run->parts;
    const struct number *process = parts->number, *count = process + parts->list[0].numbers;
    const struct number *label = count + parts->list[1].numbers;
    struct words w = {.mask = 0};
    for (size_t i = 0; i < parts->list[0].numbers; i++) {
        w.mask |= (uint64_t)1 << process[i].value;
        w.labels |= label[i].value << 8 * process[i].value;
    }
    for (size_t p = 0; p < run->k; p++) w.clock[p / 2] |= count[p].value << 32 * (p % 2);
    return model_offer(&run->model, &w, run->record, RECORD);
}

/* Until nothing is ready or 36. */
static void take_all(struct run *run) {
    for (;;) {
        uint64_t reply = model_take(&run->model, run->record, RECORD, run->window, run->window_length,
                                    run->scratch, run->window_length, ROOM);
        if (nothing_ready(reply)) return;
        if (number_of(reply) == 0) print_state(run, reply);
        else print_refused(run, number_of(reply), 0);
        if (number_of(reply) == 36) return;
    }
}

static void judge_did(struct run *run, const uint8_t *line, size_t length) {
    struct fault fault = did_line(line, length, run->k, &run->parts);
    if (fault.number != 0) {
        print_refused(run, fault.number, fault.place);
        return;
    }
    uint64_t reply = offer(run);
    if (number_of(reply) != 0) {
        print_refused(run, number_of(reply), 0);
        return;
    }
    if (reply == AGAIN) { /* not accepted, so nothing is taken */
        print(run->out, "(again)\n");
        return;
    }
    print(run->out, "(held %u)\n", (unsigned)(reply >> 16));
    take_all(run);
}

static void judge_line(struct run *run, const uint8_t *line, size_t length) {
    run->out->lines++;
    switch (run->awaited) {
    case WATCH: judge_watch(run, line, length); break;
    case RULE: judge_rule(run, line, length); break;
    case START: judge_start(run, line, length); break;
    default: judge_did(run, line, length);
    }
}

/* Bytes behind the last line feed are a line too, nothing behind it is none. */
void expected_output(const uint8_t *input, size_t length, struct output *out) {
    static struct run run;
    run.awaited = WATCH;
    run.out = out;
    out->length = out->lines = 0;
    for (size_t from = 0; from < length && run.awaited != ENDED;) {
        const uint8_t *feed = memchr(input + from, '\n', length - from);
        size_t end = feed != NULL ? (size_t)(feed - input) : length;
        judge_line(&run, input + from, end - from);
        from = end + 1;
    }
}

void free_output(struct output *out) {
    free(out->bytes);
    *out = (struct output){0, 0, NULL, 0};
}
