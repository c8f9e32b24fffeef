/* Makes every call of the fixed list (crates/run_oracle/stdin) through include/spindle.h and compares each word that comes back with the oracle's answer in
   the list: number, answer, counts, values, the record with its unused places, each array. oracle/src/vectors.rs says how the list is laid out. A call over
   a record is made by value and in place. Where it is carried out, it is made again with a NaN in q, r and d1 of its record, and an update in place with s
   and z in the record that it writes.

   list FILE    prints `same N of M`, and the place of each call that differs; status 0 if all are the same. */
#include "port.h"
#include <math.h>
#include <stdio.h>
#include <stdlib.h>
#include <string.h>

enum { FRESH = 0, DUAL_GRAD_H = 4, UPDATE_SCALING = 12, COMBINED_DS_SHIFT = 19 };

/* Which arrays a call writes, by its entry: r is read, w is written. */
static const char *const ARRAYS[] = {"",   "r",  "r", "r",    "r", "",   "rrw", "rrrrww", "ww", "wr", "wr", "wrr",
                                     "rr", "wr", "r", "rrrr", "w", "wr", "wrr", "wrr",    "",   "",   "",   ""};

static FILE *list;

static uint64_t word(void)
{
    uint64_t w;
    if (fread(&w, sizeof w, 1, list) == 1) return w;
    fprintf(stderr, "list: the file ends inside a record\n");
    exit(2);
}

static uint64_t count(uint64_t most)
{
    uint64_t n = word();
    if (n <= most) return n;
    fprintf(stderr, "list: the file is no list\n");
    exit(2);
}

static void numbers(double *to, uint64_t n)
{
    for (uint64_t i = 0; i < n; i++) {
        uint64_t w = word();
        memcpy(&to[i], &w, sizeof w);
    }
}

/* The numbers of a record that its kind uses; the others stay 0. */
static void record_numbers(SpindleScaling *record)
{
    uint32_t head = record->cone.dim1, tail = record->cone.dim2;
    uint64_t n = count(64 * 3 + 32 * 3 + 2);
    if (n == 0) return;
    if (record->cone.kind != 3) {
        numbers(record->three.z, 3);
        numbers(record->three.grad, 3);
        numbers(record->three.h_dual, 6);
        numbers(record->three.hs, 6);
        return;
    }
    if (head > 32 || tail > 32) {
        fprintf(stderr, "list: a record of bad dims has numbers\n");
        exit(2);
    }
    numbers(record->wide.z, head + tail);
    numbers(&record->wide.mu, 1);
    numbers(record->wide.grad, head + tail);
    numbers(record->wide.p, head + tail);
    numbers(record->wide.q, head);
    numbers(record->wide.r, tail);
    numbers(record->wide.d1, head);
    numbers(&record->wide.d2, 1);
}

static bool same_form(const Call *call, const Call *after, const Reply *expected, bool in_place)
{
    Call made = *call;
    Reply got;
    memset(&got, 0, sizeof got);
    oracle_port(&made, &got, in_place);
    /* Call and Reply have no padding */
    return memcmp(&made, after, sizeof made) == 0 && memcmp(&got, expected, sizeof got) == 0;
}

/* q, r and d1 of kind 3 have 32 places each, of which dim1, dim2 and dim1 are used. A call that takes one of them for another judges it to the other's length:
   where that is less, it misses a NaN in the last place that is used, for which 3 is due. */
static bool same_with_nan(const Call *call)
{
    uint32_t head = call->record.cone.dim1, tail = call->record.cone.dim2;
    for (int part = 0; part < 3; part++) {
        Call made = *call;
        SpindleWide *wide = &made.record.wide;
        double *const last[] = {&wide->q[head - 1], &wide->r[tail - 1], &wide->d1[head - 1]};
        *last[part] = NAN;
        Reply refused;
        memset(&refused, 0, sizeof refused);
        refused.code = 3;
        if (call->entry == UPDATE_SCALING) refused.record = made.record;
        if (!same_form(&made, &made, &refused, false) || !same_form(&made, &made, &refused, true)) return false;
    }
    return true;
}

/* s and z of an update in place may lie in the record that it writes: here they stand where its gradient and z were. Of the old record only cone and serial
   count, so the new one is that of an update with s and z apart. */
static bool same_from_record(const Call *call, const SpindleScaling *updated)
{
    SpindleScaling record = call->record;
    bool wide = record.cone.kind == 3;
    double *s = wide ? record.wide.grad : record.three.grad, *z = wide ? record.wide.z : record.three.z;
    size_t n = call->slices[0].len;
    memcpy(s, call->slices[0].room + BEFORE, n * sizeof *s);
    memcpy(z, call->slices[1].room + BEFORE, n * sizeof *z);
    uint32_t code = spindle_update_scaling_in_place(&record, s, n, z, n, call->numbers[0], call->option);
    return code == 0 && memcmp(&record, updated, sizeof record) == 0;
}

/* Makes the next call of the list. Hands back in which form it differs, or 0 where it does in none. */
static const char *difference(void)
{
    static Call call;
    static Reply expected;
    memset(&call, 0, sizeof call);
    memset(&expected, 0, sizeof expected);

    word();
    call.entry = (uint32_t)count(23);
    call.option = (uint32_t)word();
    SpindleCone *cone = &call.record.cone;
    cone->kind = (uint32_t)word();
    cone->dim1 = (uint32_t)word();
    cone->dim2 = (uint32_t)word();
    cone->rule = (uint32_t)word();
    numbers(cone->exps, count(32));
    call.record.scaled = (uint32_t)word();
    call.record.serial = (uint32_t)word();
    record_numbers(&call.record);
    numbers(call.numbers, count(3));
    const char *arrays = ARRAYS[call.entry];
    uint64_t n = count(SLICES);
    if (n != strlen(arrays)) {
        fprintf(stderr, "list: a call of entry %u has %u arrays\n", (unsigned)call.entry, (unsigned)n);
        exit(2);
    }
    for (uint64_t i = 0; i < n; i++) {
        call.slices[i].len = count(ROOM - 2 * BEFORE);
        numbers(call.slices[i].room + BEFORE, call.slices[i].len);
    }
    Call after = call;

    expected.code = (uint32_t)word();
    expected.answer = (uint32_t)word();
    expected.counts[0] = (uint32_t)word();
    expected.counts[1] = (uint32_t)word();
    numbers(expected.values, 3);
    SpindleScaling back;
    memset(&back, 0, sizeof back);
    if (call.entry != FRESH || expected.code == 0) back.cone = *cone;
    back.scaled = (uint32_t)word();
    back.serial = (uint32_t)word();
    record_numbers(&back);
    if (call.entry == FRESH || call.entry == UPDATE_SCALING) expected.record = back;
    if (call.entry == DUAL_GRAD_H) {
        expected.three = back.three;
        expected.wide = back.wide;
    }
    for (uint64_t i = 0; i < n; i++)
        if (arrays[i] == 'w') numbers(after.slices[i].room + BEFORE, after.slices[i].len);

    if (!same_form(&call, &after, &expected, false)) return "";
    if (call.entry < UPDATE_SCALING || call.entry > COMBINED_DS_SHIFT) return 0;
    if (!same_form(&call, &after, &expected, true)) return ", in place";
    if (expected.code != 0) return 0;
    if (cone->kind == 3 && !same_with_nan(&call)) return ", with a NaN in q, r or d1";
    if (call.entry == UPDATE_SCALING && !same_from_record(&call, &back)) return ", in place with s and z in the record";
    return 0;
}

int oracle_main(int words, char **each)
{
    if (words != 2 || !(list = fopen(each[1], "rb"))) {
        fprintf(stderr, "usage: list FILE\n");
        return 2;
    }
    uint64_t all = word(), same = 0;
    for (uint64_t i = 0; i < all; i++) {
        const char *form = difference();
        if (form)
            printf("differs: %llu%s\n", (unsigned long long)i, form);
        else
            same++;
    }
    if (fgetc(list) != EOF) {
        fprintf(stderr, "list: there is more behind the last call\n");
        return 2;
    }
    printf("same %llu of %llu\n", (unsigned long long)same, (unsigned long long)all);
    return same != all || all == 0;
}
