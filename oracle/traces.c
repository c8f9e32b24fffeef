/* The calls on traces a second time, in C, from the words of document 02's Orders 1, 2, 7, 8, 9, 13 and 14 alone: tests/traces holds the library to it, and the Rust crate can be
   tested over it and standin.c on any machine (tools/rust-tests --standin). It shares nothing with the library but spindle.h. It goes the slow way: it reads
   every number of every record, one behind the other, and lays a new record out beside the trace before it asks for its length. */
#include "spindle.h"
#include <inttypes.h>
#include <stdio.h>
#include <string.h>

#define MOST 4096    /* "At most 4,096 records" */
#define TRAILER 20   /* "a 20-byte trailer" */
#define NEWEST 3     /* Order 9: "New traces are edition 3" */
#define LONGEST 2380 /* a record of kind 3 with both dims 32 and flag 0, of edition 3 */

/* The logic has one NaN (docs/DECISIONS.md): every NaN is read and written as this one. */
static uint64_t bits_of(double x)
{
    uint64_t bits;
    memcpy(&bits, &x, 8);
    return x == x ? bits : UINT64_C(0x7FF8000000000000);
}
static double double_of(uint64_t bits)
{
    double x;
    memcpy(&x, &bits, 8);
    bits = bits_of(x);
    memcpy(&x, &bits, 8);
    return x;
}

/* ---- reading, number by number, up to an end */

typedef struct {
    const uint8_t *bytes;
    size_t at, end;
    bool cut;
} In;

static uint64_t whole(In *in, size_t n)
{
    if (in->end - in->at < n) {
        in->cut = true;
        in->at = in->end;
        return 0;
    }
    in->at += n;
    uint64_t x = 0;
    for (size_t k = 1; k <= n; k++) x = x << 8 | in->bytes[in->at - k]; /* "All numbers are little-endian" */
    return x;
}
static bool mark(In *in, const char *four)
{
    size_t at = in->at;
    whole(in, 4);
    return !in->cut && !memcmp(in->bytes + at, four, 4);
}
static void row(In *in, double *to, size_t n)
{
    for (size_t i = 0; i < n; i++) to[i] = double_of(whole(in, 8));
}

/* "kind, dim1, dim2 (u32 each; 3 and 0 for kinds 1 and 2)"; document 01: dims of kind 3 are 1 to 32 */
static bool shaped(const SpindleCone *c)
{
    if (c->kind == 3) return c->dim1 - 1 < 32 && c->dim2 - 1 < 32;
    return (c->kind == 1 || c->kind == 2) && c->dim1 == 3 && c->dim2 == 0;
}
/* "exponents (none, one or dim1)" */
static size_t exponents(const SpindleCone *c) { return c->kind == 3 ? c->dim1 : c->kind - 1; }
/* "a step is +0 or positive and finite" */
static bool stepped(double x) { return !__builtin_signbit(x) && x - x == 0; }

/* Order 8: "another edition gives 9"; Order 9: "edition 3 no longer gives 9" */
static bool known(uint32_t edition) { return edition - 1 < NEWEST; }
/* Order 9: "edition 3, with the rule (u32) after dim2"; "cones from editions 1 and 2 are under rule 1" */
static bool has_rule(uint32_t edition) { return edition >= 3; }

static bool record(In *in, uint32_t edition, SpindleRecorded *r)
{
    static const SpindleRecorded none;
    *r = none;
    r->at = in->at;
    if (!mark(in, "STEP")) return false;
    uint64_t length = whole(in, 4);
    r->cone.kind = (uint32_t)whole(in, 4);
    r->cone.dim1 = (uint32_t)whole(in, 4);
    r->cone.dim2 = (uint32_t)whole(in, 4);
    r->cone.rule = has_rule(edition) ? (uint32_t)whole(in, 4) : 1; /* "in a trace it is no layout fault" */
    if (!shaped(&r->cone)) return false;
    size_t n = r->cone.dim1 + r->cone.dim2;
    row(in, r->cone.exps, exponents(&r->cone));
    row(in, &r->settings.start, 1);
    r->flag = (uint32_t)whole(in, 4);
    if (r->flag > 1) return false;
    /* "1 means default settings; at 0 step and smallest step follow"; Order 8: "A trace of edition 1 means 0.8 by its flag; new traces .. mean 0.5"; Order 9:
       "New traces are edition 3, with .. the default 0.5" */
    r->settings.step = edition == 1 ? 0.8 : 0.5;
    r->settings.smallest = 0.0001;
    if (r->flag == 0) {
        row(in, &r->settings.step, 1);
        row(in, &r->settings.smallest, 1);
    }
    row(in, r->dz, n);
    row(in, r->ds, n);
    row(in, r->z, n);
    row(in, r->s, n);
    row(in, &r->steps.dual_step, 1);
    r->steps.dual_count = (uint32_t)whole(in, 4);
    row(in, &r->steps.primal_step, 1);
    r->steps.primal_count = (uint32_t)whole(in, 4);
    r->next = in->at;
    return !in->cut && in->at - r->at == length && stepped(r->steps.dual_step) && stepped(r->steps.primal_step);
}

/* Whether the bytes are a trace; if so its edition and count, where its list stands, and record i where there is one. */
static bool judge(const uint8_t *bytes, size_t n, uint32_t i, uint32_t *edition, uint32_t *count, size_t *list, SpindleRecorded *kept)
{
    if (n < TRAILER) return false;
    In trailer = {bytes, n - TRAILER, n, false};
    uint64_t at = whole(&trailer, 8);
    *count = (uint32_t)whole(&trailer, 4);
    *edition = (uint32_t)whole(&trailer, 4);
    if (!mark(&trailer, "BACK") || !known(*edition) || *count > MOST) return false;
    if (8 * (size_t)*count > n - TRAILER || at != n - TRAILER - 8 * (size_t)*count) return false;
    *list = (size_t)at;
    In records = {bytes, 0, *list, false}, entries = {bytes, *list, n - TRAILER, false};
    for (uint32_t k = 0; k < *count; k++) {
        SpindleRecorded r;
        if (whole(&entries, 8) != records.at || !record(&records, *edition, &r)) return false;
        if (k == i) *kept = r;
    }
    return records.at == *list;
}

/* ---- writing, number by number */

typedef struct {
    uint8_t *bytes;
    size_t at;
} Out;

static void put(Out *out, size_t n, uint64_t x)
{
    for (size_t k = 0; k < n; k++) out->bytes[out->at++] = (uint8_t)(x >> 8 * k);
}
static void put_mark(Out *out, const char *four)
{
    memcpy(out->bytes + out->at, four, 4);
    out->at += 4;
}
static void put_row(Out *out, const double *x, size_t n)
{
    for (size_t i = 0; i < n; i++) put(out, 8, bits_of(x[i]));
}
/* "offset of that list (u64), record count (u32), edition (u32, now 1), four bytes `BACK`" */
static void put_trailer(Out *out, uint64_t list, uint32_t count, uint32_t edition)
{
    put(out, 8, list);
    put(out, 4, count);
    put(out, 4, edition);
    put_mark(out, "BACK");
}

/* ---- the calls */

SpindleWritten spindle_trace_create(uint8_t *trace, size_t room)
{
    Out out = {trace, 0};
    SpindleWritten w = {room < TRAILER ? 8 : 0, 0};
    if (w.code) return w;
    put_trailer(&out, 0, 0, NEWEST);
    w.length = out.at;
    return w;
}

/* The record's bytes in an edition that is known, one number behind the other, and their length; 0 where it cannot be laid out. */
static size_t lay(uint8_t *laid, uint32_t edition, SpindleCone cone, uint32_t flag, SpindleSettings settings, const double *dz, size_t ndz,
                  const double *ds, size_t nds, const double *z, size_t nz, const double *s, size_t ns, SpindleSteps steps)
{
    if (cone.kind == 1 || cone.kind == 2) {
        cone.dim1 = 3;
        cone.dim2 = 0;
    }
    if (!has_rule(edition) && cone.rule != 1) return 0; /* it would be read back under rule 1 */
    if (!shaped(&cone) || flag > 1 || !stepped(steps.dual_step) || !stepped(steps.primal_step)) return 0;
    size_t n = cone.dim1 + cone.dim2;
    if (ndz != n || nds != n || nz != n || ns != n) return 0;

    Out out = {laid, 0};
    put_mark(&out, "STEP");
    put(&out, 4, 0); /* the length, once it is known */
    put(&out, 4, cone.kind);
    put(&out, 4, cone.dim1);
    put(&out, 4, cone.dim2);
    if (has_rule(edition)) put(&out, 4, cone.rule);
    put_row(&out, cone.exps, exponents(&cone));
    put_row(&out, &settings.start, 1);
    put(&out, 4, flag);
    if (flag == 0) {
        put_row(&out, &settings.step, 1);
        put_row(&out, &settings.smallest, 1);
    }
    put_row(&out, dz, n);
    put_row(&out, ds, n);
    put_row(&out, z, n);
    put_row(&out, s, n);
    put_row(&out, &steps.dual_step, 1);
    put(&out, 4, steps.dual_count);
    put_row(&out, &steps.primal_step, 1);
    put(&out, 4, steps.primal_count);
    size_t length = out.at;
    out.at = 4;
    put(&out, 4, length);
    return length;
}

SpindleWritten spindle_trace_append(uint8_t *trace, size_t room, size_t used, SpindleCone cone, uint32_t flag, SpindleSettings settings,
                                    const double *dz, size_t ndz, const double *ds, size_t nds, const double *z, size_t nz, const double *s,
                                    size_t ns, SpindleSteps steps)
{
    static const SpindleWritten refused_8 = {8, 0}, refused_9 = {9, 0};
    uint32_t edition, count;
    size_t list;
    SpindleRecorded none;
    uint8_t laid[LONGEST];
    if (used > room || !judge(trace, used, MOST, &edition, &count, &list, &none)) return refused_9;
    size_t length = lay(laid, edition, cone, flag, settings, dz, ndz, ds, nds, z, nz, s, ns, steps);
    if (!length) return refused_9;
    if (count == MOST || room - used < length + 8) return refused_8;
    memmove(trace + list + length, trace + list, 8 * (size_t)count);
    memcpy(trace + list, laid, length);
    Out end = {trace, list + length + 8 * (size_t)count};
    put(&end, 8, list);
    put_trailer(&end, list + length, count + 1, edition);
    SpindleWritten w = {0, end.at};
    return w;
}

/* ---- recording as searches are made: from the words of spindle.h */

SpindleWritten spindle_record_put(uint8_t *bytes, size_t room, size_t at, uint32_t edition, SpindleCone cone, uint32_t flag,
                                  SpindleSettings settings, const double *dz, size_t ndz, const double *ds, size_t nds, const double *z,
                                  size_t nz, const double *s, size_t ns, SpindleSteps steps)
{
    static const SpindleWritten refused_8 = {8, 0}, refused_9 = {9, 0};
    uint8_t laid[LONGEST];
    size_t length = known(edition) ? lay(laid, edition, cone, flag, settings, dz, ndz, ds, nds, z, nz, s, ns, steps) : 0;
    if (!length || at > room) return refused_9;
    if (room - at < length) return refused_8;
    memcpy(bytes + at, laid, length);
    SpindleWritten w = {0, at + length};
    return w;
}

SpindleRecorded spindle_record_at(const uint8_t *bytes, size_t n, uint32_t edition, size_t at)
{
    SpindleRecorded r, refused = {.code = 9};
    In in = {bytes, at, n, false};
    return known(edition) && at <= n && record(&in, edition, &r) ? r : refused;
}

SpindleWritten spindle_trace_seal(uint8_t *bytes, size_t room, size_t used, uint32_t edition)
{
    static const SpindleWritten refused_8 = {8, 0}, refused_9 = {9, 0};
    if (!known(edition) || used > room) return refused_9;
    uint64_t offsets[MOST];
    uint32_t count = 0;
    In in = {bytes, 0, used, false};
    for (SpindleRecorded r; in.at < used; count++) {
        if (count == MOST || !record(&in, edition, &r)) return refused_9;
        offsets[count] = r.at;
    }
    if (room - used < 8 * (size_t)count + TRAILER) return refused_8;
    Out out = {bytes, used};
    for (uint32_t i = 0; i < count; i++) put(&out, 8, offsets[i]);
    put_trailer(&out, used, count, edition);
    SpindleWritten w = {0, out.at};
    return w;
}

SpindleOpened spindle_trace_open(const uint8_t *trace, size_t n)
{
    uint32_t edition, count;
    size_t list;
    SpindleRecorded none;
    SpindleOpened refused = {9, 0, 0};
    if (!judge(trace, n, MOST, &edition, &count, &list, &none)) return refused;
    SpindleOpened o = {0, edition, count};
    return o;
}

SpindleRecorded spindle_trace_record(const uint8_t *trace, size_t n, uint32_t i)
{
    uint32_t edition, count;
    size_t list;
    SpindleRecorded r, refused = {.code = 9};
    return judge(trace, n, i, &edition, &count, &list, &r) && i < count ? r : refused;
}

/* "run every search again, compare steps and counts bit for bit"; the search is whoever's is linked */
SpindleReplayed spindle_replay(const uint8_t *trace, size_t n, uint64_t *at, size_t nat)
{
    static const SpindleReplayed refused_8 = {8, 0, 0, 0}, refused_9 = {9, 0, 0, 0};
    SpindleOpened o = spindle_trace_open(trace, n);
    if (o.code) return refused_9;
    SpindleReplayed r = {0, o.records, 0, 0};
    for (int writing = 0; writing < 2; writing++) {
        r.differ = 0;
        for (uint32_t i = 0; i < o.records; i++) {
            SpindleRecorded k = spindle_trace_record(trace, n, i);
            size_t m = k.cone.dim1 + k.cone.dim2;
            double dual[64], primal[64];
            SpindleSteps s = spindle_step_length(k.cone, k.dz, m, k.ds, m, k.z, m, k.s, m, dual, m, primal, m, k.settings);
            if (s.code == 0 && bits_of(s.dual_step) == bits_of(k.steps.dual_step) && s.dual_count == k.steps.dual_count
                && bits_of(s.primal_step) == bits_of(k.steps.primal_step) && s.primal_count == k.steps.primal_count)
                continue;
            if (writing) at[r.differ] = k.at;
            r.differ++;
        }
        if (r.differ > nat) return refused_8;
    }
    r.same = r.records - r.differ;
    return r;
}

/* "keep every whole record until the first that is cut or malformed, write a good list and trailer"; the records are read number by number and their bytes
   copied. "A good trace comes out byte for byte with 0 dropped." Order 8: "Rescue keeps the edition if the input ends in a known edition and `BACK`, and
   otherwise takes it from its caller" */
SpindleRescued spindle_rescue(const uint8_t *input, size_t n, uint8_t *output, size_t room, uint32_t edition)
{
    static const SpindleRescued refused = {8, 0, 0, 0, false}, refused_9 = {9, 0, 0, 0, false};
    SpindleOpened o = spindle_trace_open(input, n);
    if (o.code == 0) {
        if (room < n) return refused;
        memcpy(output, input, n);
        SpindleRescued r = {0, o.records, 0, n, true};
        return r;
    }
    In last = {input, n < 8 ? n : n - 8, n, false};
    uint32_t own = (uint32_t)whole(&last, 4);
    if (mark(&last, "BACK") && known(own)) edition = own;
    if (!known(edition)) return refused_9;
    uint64_t begins[MOST];
    In in = {input, 0, n, false};
    SpindleRecorded one;
    uint32_t kept = 0;
    size_t end = 0;
    while (kept < MOST && record(&in, edition, &one)) { /* "a 4,097th record counts as bad" */
        begins[kept++] = end;
        end = in.at;
    }
    if (room < end + 8 * (size_t)kept + TRAILER) return refused;
    Out out = {output, end};
    memcpy(output, input, end);
    for (uint32_t i = 0; i < kept; i++) put(&out, 8, begins[i]);
    put_trailer(&out, end, kept, edition);
    SpindleRescued r = {0, kept, n - end, out.at, false};
    return r;
}

/* ---- thin: "write one in which a record byte-equal to an earlier kept record is dropped, the others in their old order, offsets and trailer new, edition
   kept". Each record is compared with every kept one before it, and nothing else is kept of them than where they begin and end. */
typedef struct {
    SpindleOpened opened;
    uint32_t kept;
    size_t length;
    uint64_t begins[MOST], ends[MOST];
} Thin;

static void first_of_each(const uint8_t *trace, size_t n, Thin *t)
{
    t->opened = spindle_trace_open(trace, n);
    t->kept = 0;
    t->length = TRAILER;
    In in = {trace, 0, n, false};
    for (uint32_t i = 0; t->opened.code == 0 && i < t->opened.records; i++) {
        SpindleRecorded one;
        size_t at = in.at;
        record(&in, t->opened.edition, &one);
        uint32_t k = 0;
        while (k < t->kept && (t->ends[k] - t->begins[k] != in.at - at || memcmp(trace + t->begins[k], trace + at, in.at - at))) k++;
        if (k < t->kept) continue;
        t->begins[k] = at;
        t->ends[k] = in.at;
        t->kept++;
        t->length += in.at - at + 8;
    }
}
/* `to` may be where the records stand: each goes down, or stays */
static SpindleThinned written_down(const uint8_t *trace, uint8_t *to, Thin *t)
{
    Out out = {to, 0};
    for (uint32_t k = 0; k < t->kept; k++) {
        size_t length = t->ends[k] - t->begins[k], at = out.at;
        memmove(to + at, trace + t->begins[k], length);
        out.at += length;
        t->begins[k] = at;
    }
    size_t end = out.at;
    for (uint32_t k = 0; k < t->kept; k++) put(&out, 8, t->begins[k]);
    put_trailer(&out, end, t->kept, t->opened.edition);
    SpindleThinned r = {0, t->kept, t->opened.records - t->kept, out.at};
    return r;
}
SpindleThinned spindle_thin(const uint8_t *trace, size_t n, uint8_t *output, size_t room)
{
    Thin t;
    first_of_each(trace, n, &t);
    SpindleThinned refused = {t.opened.code ? 9 : 8, 0, 0, 0};
    return t.opened.code || room < t.length ? refused : written_down(trace, output, &t);
}
/* "inside one buffer, where the freed tail bytes are set to zero" */
SpindleThinned spindle_thin_in_place(uint8_t *trace, size_t n)
{
    Thin t;
    first_of_each(trace, n, &t);
    if (t.opened.code) return (SpindleThinned){9, 0, 0, 0};
    SpindleThinned r = written_down(trace, trace, &t);
    memset(trace + r.length, 0, n - r.length);
    return r;
}

/* ---- Order 14: the sheet, by spindle_trace_open and spindle_trace_record, and exponents by halving and doubling */

static int place_of(double step)
{
    int e = 0;
    if (step == 0) return 0;
    if (step < 0x1p-1022) return 1;
    for (; step >= 2; e++) step /= 2;
    for (; step < 1; e--) step *= 2;
    return e + 1024;
}
static void larger(SpindleLargest *kept, uint64_t tests, uint64_t file, uint64_t at)
{
    if (tests + 1 > kept->size) *kept = (SpindleLargest){tests + 1, file, at}; /* "the first record that has it" */
}
static bool rows_fit(const SpindleTotals *t, size_t nd, size_t np, size_t ns)
{
    return nd == SPINDLE_SHEET_PLACES && np == SPINDLE_SHEET_PLACES && t->files <= ns;
}
/* in one of so many files; one of size 0 is none */
static bool stands(SpindleLargest t, uint32_t files) { return t.size == 0 || (t.file != 0 && t.file <= files); }

SpindleTotals spindle_sheet_join(SpindleTotals sheet, uint64_t *dual, size_t nd, uint64_t *primal, size_t np, uint8_t *skipped, size_t ns,
                                 SpindleTotals second, const uint64_t *dual2, size_t nd2, const uint64_t *primal2, size_t np2,
                                 const uint8_t *skipped2, size_t ns2)
{
    static const SpindleTotals refused_2 = {.code = 2}, refused_8 = {.code = 8}, refused_9 = {.code = 9};
    if (!rows_fit(&sheet, nd, np, ns) || !rows_fit(&second, nd2, np2, ns2)) return refused_2;
    if (!stands(second.dual, second.files) || !stands(second.primal, second.files)) return refused_9;
    uint64_t files = (uint64_t)sheet.files + second.files;
    if (files > SPINDLE_SHEET_FILES || files > ns || sheet.records + second.records < sheet.records) return refused_8;
    for (size_t k = 0; k < nd; k++)
        if (dual[k] + dual2[k] < dual[k] || primal[k] + primal2[k] < primal[k]) return refused_8;
    for (size_t k = 0; k < nd; k++) {
        dual[k] += dual2[k];
        primal[k] += primal2[k];
    }
    memcpy(skipped + sheet.files, skipped2, second.files);
    SpindleTotals t = {0, (uint32_t)files, sheet.records + second.records, sheet.dual, sheet.primal};
    if (second.dual.size) larger(&t.dual, second.dual.size - 1, second.dual.file + sheet.files, second.dual.at);
    if (second.primal.size) larger(&t.primal, second.primal.size - 1, second.primal.file + sheet.files, second.primal.at);
    return t;
}

SpindleTotals spindle_sheet_add(SpindleTotals sheet, uint64_t *dual, size_t nd, uint64_t *primal, size_t np, uint8_t *skipped, size_t ns,
                                const uint8_t *file, size_t n)
{
    uint64_t duals[SPINDLE_SHEET_PLACES], primals[SPINDLE_SHEET_PLACES];
    memset(duals, 0, sizeof duals);
    memset(primals, 0, sizeof primals);
    SpindleOpened o = spindle_trace_open(file, n);
    uint8_t flag = o.code != 0 || n > 65536;
    SpindleTotals one = {.files = 1, .records = flag ? 0 : o.records};
    for (uint32_t i = 0; i < one.records; i++) {
        SpindleRecorded r = spindle_trace_record(file, n, i);
        duals[place_of(r.steps.dual_step)]++;
        primals[place_of(r.steps.primal_step)]++;
        larger(&one.dual, r.steps.dual_count, 1, r.at);
        larger(&one.primal, r.steps.primal_count, 1, r.at);
    }
    return spindle_sheet_join(sheet, dual, nd, primal, np, skipped, ns, one, duals, SPINDLE_SHEET_PLACES, primals, SPINDLE_SHEET_PLACES,
                              &flag, 1);
}

static size_t side_lines(char *to, const char *name, uint64_t records, const uint64_t *row, SpindleLargest most)
{
    char *at = to;
    at += sprintf(at, "%s records %" PRIu64 "\n%s zero %" PRIu64 "\n", name, records, name, row[0]);
    for (int k = SPINDLE_SHEET_PLACES - 1; k > 1; k--)
        if (row[k]) at += sprintf(at, "%s exp %d %" PRIu64 "\n", name, k - 1024, row[k]);
    at += sprintf(at, "%s subnormal %" PRIu64 "\n", name, row[1]);
    if (most.size) at += sprintf(at, "%s most %" PRIu64 " file %" PRIu64 " at %" PRIu64 "\n", name, most.size - 1, most.file, most.at);
    return (size_t)(at - to);
}

SpindlePrinted spindle_sheet_text(uint8_t *text, size_t room, SpindleTotals sheet, const uint64_t *dual, size_t nd, const uint64_t *primal,
                                  size_t np, const uint8_t *skipped, size_t ns)
{
    static const SpindlePrinted refused_2 = {2, 0}, refused_8 = {8, 0}, refused_9 = {9, 0};
    char lines[SPINDLE_SHEET_TEXT];
    if (!rows_fit(&sheet, nd, np, ns)) return refused_2;
    if (sheet.files > SPINDLE_SHEET_FILES) return refused_9;
    if (room < SPINDLE_SHEET_TEXT) return refused_8;
    size_t n = 0;
    for (uint32_t i = 0; i < sheet.files; i++)
        if (skipped[i]) n += (size_t)sprintf(lines + n, "skipped file %" PRIu32 "\n", i + 1);
    n += side_lines(lines + n, "dual", sheet.records, dual, sheet.dual);
    n += side_lines(lines + n, "primal", sheet.records, primal, sheet.primal);
    memcpy(text, lines, n);
    SpindlePrinted p = {0, n};
    return p;
}
