/* One plan's worth of work, three times side by side: the port through spindle.h, the Rust text on the port's kernels, the Rust text on the platform's.
   Times are of this thread's processor time, entry by entry over all cones of a round. */
#include "spindle.h"
#include <math.h>
#include <stdio.h>
#include <stdlib.h>
#include <string.h>
#include <time.h>
#include <ucontext.h>

#define MOST 64
#define KEPT (1 << 14)

enum { PORT, RUST, OWN, SIDES };
enum { UPDATE, BLOCK, PRODUCTS, SHIFT, GRADIENT, STEPS, BARRIER, ENTRIES };

static const char *const side_names[SIDES] = {"port", "Rust, port's kernels", "Rust, platform's"};
static const char *const entry_names[ENTRIES] = {
    "update_scaling", "get_hs", "mul_hs, twice", "combined_ds_shift", "gradient_primal", "step_length", "compute_barrier",
};

/* as in src/work.rs */
typedef struct {
    size_t cones;
    const SpindleCone *cone;
    const size_t *at, *block_at;
    const double *z, *s, *dz, *ds, *x[2];
    double mu, sigma_mu;
    SpindleSettings settings;
} Inputs;

typedef struct {
    double *block, *y[2], *shift, *dual_point, *primal_point, *dual_step, *primal_step, *barrier;
    uint32_t *dual_count, *primal_count;
} Outputs;

void *rust_made(uint32_t numbers, const Inputs *);
void rust_entry(uint32_t numbers, void *cones, uint32_t entry, const Inputs *, Outputs *);
void rust_record(void *cones, size_t i, SpindleScaling *record);
uint32_t rust_search(uint32_t numbers, void *cones, size_t i, const double *dq, const double *q, double *point, const double *settings);
uint32_t rust_common(void *cones, size_t count, const Inputs *, const double *dq, const double *q, double *point);
typedef struct {
    uint64_t searches, tests, turned[2], steps;
} Changed;
void rust_changed(void *cones, const Inputs *, Changed *);
uint64_t rust_calls(uint32_t kernel);
const double *rust_arguments(uint32_t kernel);

__attribute__((noreturn)) void bench_panicked(const char *where)
{
    fprintf(stderr, "\nbench: the Rust text panicked: %s\n", where);
    exit(1);
}

__attribute__((noreturn)) static void refused(const char *entry, size_t cone, unsigned code)
{
    fprintf(stderr, "\nbench: %s of cone %zu was refused with %u\n", entry, cone, code);
    exit(1);
}

static void *room(size_t bytes)
{
    void *place = calloc(1, bytes ? bytes : 1);
    if (!place) {
        fprintf(stderr, "bench: no memory\n");
        exit(2);
    }
    return place;
}

static double now(void)
{
    struct timespec t;
    clock_gettime(CLOCK_THREAD_CPUTIME_ID, &t);
    return t.tv_sec + 1e-9 * t.tv_nsec;
}

/* ---- a seeded source (splitmix64) */

static uint64_t seed = 1;

static uint64_t next(void)
{
    uint64_t x = seed += 0x9E3779B97F4A7C15;
    x = (x ^ x >> 30) * 0xBF58476D1CE4E5B9;
    x = (x ^ x >> 27) * 0x94D049BB133111EB;
    return x ^ x >> 31;
}

static double between(double low, double high) { return low + (high - low) * (next() >> 11) * 0x1p-53; }
static size_t whole(size_t low, size_t high) { return low + next() % (high - low + 1); }

/* ---- cones and points */

/* Exponents are 1024ths that sum to exactly 1, so that every rule on the sum holds: document 02's two, and the text's own. All cones of the plan are under
   rule 1, as they were before there were two; the rule costs a comparison. */
static SpindleCone generalized(size_t dim1, size_t dim2)
{
    SpindleCone cone = {.kind = 3, .dim1 = (uint32_t)dim1, .dim2 = (uint32_t)dim2, .rule = SPINDLE_RULE_1};
    unsigned parts[32];
    for (size_t i = 0; i < dim1; i++) parts[i] = 1024 / dim1;
    parts[0] += 1024 % dim1;
    for (size_t i = 0; i < dim1; i++) {
        size_t to = whole(0, dim1 - 1);
        unsigned moved = whole(0, parts[i] / 2);
        parts[i] -= moved;
        parts[to] += moved;
    }
    for (size_t i = 0; i < dim1; i++) cone.exps[i] = parts[i] / 1024.0;
    return cone;
}

static const SpindleCone exponential = {.kind = 1, .rule = SPINDLE_RULE_1};
static SpindleCone power(double exponent) { return (SpindleCone){.kind = 2, .rule = SPINDLE_RULE_1, .exps = {exponent}}; }

static size_t numel(const SpindleCone *cone) { return cone->kind == 3 ? cone->dim1 + cone->dim2 : 3; }
static size_t head(const SpindleCone *cone) { return cone->kind == 3 ? cone->dim1 : cone->kind == 2 ? 2 : 0; }

/* All cones of a plan with room for a round's inputs. */
typedef struct {
    Inputs in;
    SpindleCone *cone;
    size_t *at, *block_at;
    double *unit, *z, *s, *dz, *ds, *x[2];
} Plan;

static Plan planned(const SpindleCone *cones, size_t count)
{
    Plan p = {.cone = room(count * sizeof(SpindleCone)),
              .at = room((count + 1) * sizeof(size_t)),
              .block_at = room((count + 1) * sizeof(size_t))};
    memcpy(p.cone, cones, count * sizeof(SpindleCone));
    for (size_t i = 0; i < count; i++) {
        p.at[i + 1] = p.at[i] + numel(&cones[i]);
        p.block_at[i + 1] = p.block_at[i] + (cones[i].kind == 3 ? numel(&cones[i]) : 6);
    }
    double **vectors[] = {&p.unit, &p.z, &p.s, &p.dz, &p.ds, &p.x[0], &p.x[1]};
    for (size_t i = 0; i < sizeof vectors / sizeof *vectors; i++) *vectors[i] = room(p.at[count] * sizeof(double));
    for (size_t i = 0; i < count; i++) {
        size_t n = numel(&cones[i]);
        uint32_t code = spindle_unit_initialization(cones[i], p.z + p.at[i], n, p.unit + p.at[i], n);
        if (code) refused("unit_initialization", i, code);
    }
    p.in = (Inputs){count, p.cone, p.at, p.block_at, p.z, p.s, p.dz, p.ds, {p.x[0], p.x[1]}, 1.0, 0.1, {1.0, 0.8, 0.0001}};
    return p;
}

/* A round: points beside the unit points, inside the cones; directions of which some leave the cone and some do not. */
static void moved(Plan *p)
{
    for (size_t c = 0; c < p->in.cones; c++) {
        const SpindleCone *cone = &p->cone[c];
        size_t n = numel(cone), first = head(cone), at = p->at[c];
        /* how far this cone's directions reach */
        double reach = between(0.1, 5), tail = 1 / sqrt((double)n);
        for (size_t i = 0; i < n; i++) {
            double *points[] = {p->z, p->s}, *directions[] = {p->dz, p->ds};
            for (int k = 0; k < 2; k++) {
                double unit = p->unit[at + i];
                if (cone->kind == 1)
                    points[k][at + i] = unit + between(-0.1, 0.1);
                else if (i < first)
                    points[k][at + i] = unit * between(0.8, 1.25);
                else
                    points[k][at + i] = between(-0.3, 0.3) * tail;
                directions[k][at + i] = reach * between(-1, 1) * (i < first || cone->kind == 1 ? 1 : 2 * tail);
                p->x[k][at + i] = between(-1, 1);
            }
        }
    }
    p->in.mu = between(0.5, 1.5);
    p->in.sigma_mu = between(0.01, 0.5);
}

static Outputs made_outputs(const Plan *p)
{
    size_t n = p->at[p->in.cones] * sizeof(double), each = p->in.cones * sizeof(double);
    return (Outputs){
        room(p->block_at[p->in.cones] * sizeof(double)),
        {room(n), room(n)},
        room(n),
        room(n),
        room(n),
        room(each),
        room(each),
        room(each),
        room(each),
        room(each),
    };
}

/* ---- the port */

static SpindleScaling *fresh_records(const Plan *p)
{
    SpindleScaling *records = room(p->in.cones * sizeof(SpindleScaling));
    for (size_t i = 0; i < p->in.cones; i++) {
        SpindleUpdated fresh = spindle_fresh(p->cone[i]);
        if (fresh.code) refused("fresh", i, fresh.code);
        records[i] = fresh.record;
    }
    return records;
}

/* Whether a record is passed by value; else it is read and updated where it lies. */
static bool by_value;

/* One call (of the products two), with a frame of its own, so that its stack can be measured. */
typedef uint32_t Call(SpindleScaling *record, const Inputs *in, Outputs *out, size_t i, size_t at, size_t n);
#define CALL(name) \
    __attribute__((noinline)) static uint32_t name(SpindleScaling *record, const Inputs *in, Outputs *out, size_t i, size_t at, size_t n)
#define UNUSED (void)record, (void)in, (void)out, (void)i, (void)at, (void)n

CALL(port_update)
{
    UNUSED;
    return spindle_update_scaling_in_place(record, in->s + at, n, in->z + at, n, in->mu, 2);
}

CALL(port_block)
{
    UNUSED;
    return spindle_get_hs_in_place(record, record->serial, out->block + in->block_at[i], in->block_at[i + 1] - in->block_at[i]);
}

CALL(port_products)
{
    UNUSED;
    uint32_t code = 0;
    for (int k = 0; k < 2; k++) code |= spindle_mul_hs_in_place(record, record->serial, out->y[k] + at, n, in->x[k] + at, n);
    return code;
}

CALL(port_shift)
{
    UNUSED;
    return spindle_combined_ds_shift_in_place(record, record->serial, out->shift + at, n, in->dz + at, n, in->ds + at, n, in->sigma_mu);
}

CALL(port_gradient)
{
    UNUSED;
    return spindle_gradient_primal_in_place(record, out->shift + at, n, in->s + at, n).code;
}

CALL(port_steps)
{
    UNUSED;
    SpindleSteps r = spindle_step_length(in->cone[i], in->dz + at, n, in->ds + at, n, in->z + at, n, in->s + at, n, out->dual_point + at, n,
                                         out->primal_point + at, n, in->settings);
    out->dual_step[i] = r.dual_step;
    out->primal_step[i] = r.primal_step;
    out->dual_count[i] = r.dual_count;
    out->primal_count[i] = r.primal_count;
    return r.code;
}

static double half_step(const Outputs *out, size_t i)
{
    double d = out->dual_step[i], p = out->primal_step[i];
    return 0.5 * (d < p ? d : p);
}

CALL(port_barrier)
{
    UNUSED;
    SpindleNumber r =
        spindle_compute_barrier_in_place(record, in->z + at, n, in->s + at, n, in->dz + at, n, in->ds + at, n, half_step(out, i));
    out->barrier[i] = r.value;
    return r.code;
}

/* The same, with the record by value. */
CALL(value_update)
{
    UNUSED;
    SpindleUpdated r = spindle_update_scaling(*record, in->s + at, n, in->z + at, n, in->mu, 2);
    *record = r.record;
    return r.code;
}

CALL(value_block)
{
    UNUSED;
    return spindle_get_hs(*record, record->serial, out->block + in->block_at[i], in->block_at[i + 1] - in->block_at[i]);
}

CALL(value_products)
{
    UNUSED;
    uint32_t code = 0;
    for (int k = 0; k < 2; k++) code |= spindle_mul_hs(*record, record->serial, out->y[k] + at, n, in->x[k] + at, n);
    return code;
}

CALL(value_shift)
{
    UNUSED;
    return spindle_combined_ds_shift(*record, record->serial, out->shift + at, n, in->dz + at, n, in->ds + at, n, in->sigma_mu);
}

CALL(value_gradient)
{
    UNUSED;
    return spindle_gradient_primal(*record, out->shift + at, n, in->s + at, n).code;
}

CALL(value_barrier)
{
    UNUSED;
    SpindleNumber r = spindle_compute_barrier(*record, in->z + at, n, in->s + at, n, in->dz + at, n, in->ds + at, n, half_step(out, i));
    out->barrier[i] = r.value;
    return r.code;
}

static Call *const port_calls[2][ENTRIES] = {
    {port_update, port_block, port_products, port_shift, port_gradient, port_steps, port_barrier},
    {value_update, value_block, value_products, value_shift, value_gradient, port_steps, value_barrier},
};

static void port_call(SpindleScaling *record, int entry, const Inputs *in, Outputs *out, size_t i)
{
    if (entry == (in->cone[i].kind == 3 ? SHIFT : GRADIENT)) return;
    uint32_t code = port_calls[by_value][entry](record, in, out, i, in->at[i], in->at[i + 1] - in->at[i]);
    if (code) refused(entry_names[entry], i, code);
}

static void port_entry(SpindleScaling *records, int entry, const Inputs *in, Outputs *out)
{
    for (size_t i = 0; i < in->cones; i++) port_call(&records[i], entry, in, out, i);
}

static void run_entry(int side, void *cones, int entry, const Inputs *in, Outputs *out)
{
    if (side == PORT)
        port_entry(cones, entry, in, out);
    else
        rust_entry(side == OWN, cones, entry, in, out);
}

static void *made(int side, const Plan *p) { return side == PORT ? (void *)fresh_records(p) : rust_made(side == OWN, &p->in); }

/* ---- bits */

static uint64_t sum_of(const void *from, size_t bytes)
{
    const unsigned char *b = from;
    uint64_t sum = 0xCBF29CE484222325, word;
    for (size_t i = 0; i + 8 <= bytes; i += 8) {
        memcpy(&word, b + i, 8);
        sum = (sum ^ word) * 0x100000001B3;
        sum ^= sum >> 29;
    }
    return sum;
}

/* Everything that a round leaves: the outputs, and the records with their unused places. */
static uint64_t bits_of(int side, void *cones, const Plan *p, const Outputs *out)
{
    size_t n = p->at[p->in.cones] * sizeof(double), each = p->in.cones * sizeof(double);
    uint64_t sums[12] = {
        sum_of(out->block, p->block_at[p->in.cones] * sizeof(double)),
        sum_of(out->y[0], n),
        sum_of(out->y[1], n),
        sum_of(out->shift, n),
        sum_of(out->dual_point, n),
        sum_of(out->primal_point, n),
        sum_of(out->dual_step, each),
        sum_of(out->primal_step, each),
        sum_of(out->barrier, each),
        sum_of(out->dual_count, each),
        sum_of(out->primal_count, each),
    };
    for (size_t i = 0; i < p->in.cones; i++) {
        static const SpindleScaling zero;
        SpindleScaling record = zero;
        if (side == PORT)
            record = ((SpindleScaling *)cones)[i];
        else
            rust_record(cones, i, &record);
        sums[11] =
            sums[11] * 31 + (sum_of(&record.three, sizeof(SpindleThree)) ^ sum_of(&record.wide, sizeof(SpindleWide)) * 3 ^ record.scaled);
    }
    return sum_of(sums, sizeof sums);
}

/* ---- the plan */

typedef struct {
    double time[SIDES][ENTRIES];
    uint64_t bits, tests[SIDES];
    size_t searches;
} Result;

static Result run_plan(Plan *p, int rounds)
{
    Result result = {0};
    void *cones[SIDES];
    Outputs out[SIDES];
    for (int side = 0; side < SIDES; side++) {
        cones[side] = made(side, p);
        out[side] = made_outputs(p);
    }
    for (int round = 0; round < rounds; round++) {
        moved(p);
        /* each side goes first in its turn */
        for (int turn = 0; turn < SIDES; turn++) {
            int side = (turn + round) % SIDES;
            for (int entry = 0; entry < ENTRIES; entry++) {
                double before = now();
                run_entry(side, cones[side], entry, &p->in, &out[side]);
                result.time[side][entry] += now() - before;
            }
        }
        uint64_t port = bits_of(PORT, cones[PORT], p, &out[PORT]), rust = bits_of(RUST, cones[RUST], p, &out[RUST]);
        if (port != rust) {
            fprintf(stderr, "\nbench: the port and the Rust on its kernels differ in round %d\n", round);
            exit(1);
        }
        result.bits = (result.bits ^ port) * 31;
        for (int side = 0; side < SIDES; side++)
            for (size_t i = 0; i < p->in.cones; i++) result.tests[side] += out[side].dual_count[i] + out[side].primal_count[i];
        result.searches += 2 * p->in.cones;
    }
    return result;
}

static double total(const Result *r, int side)
{
    double sum = 0;
    for (int entry = 0; entry < ENTRIES; entry++) sum += r->time[side][entry];
    return sum;
}

/* The least disturbed of some runs, side by side and entry by entry. */
static Result least(Plan *p, int rounds, int runs, int show)
{
    Result best = {0};
    uint64_t start = seed;
    for (int run = 0; run < runs; run++) {
        if (show) fprintf(stderr, "\rbench: run %d of %d, %d rounds of %zu cones ", run + 1, runs, rounds, p->in.cones);
        seed = start;
        Result r = run_plan(p, rounds);
        if (run == 0) best = r;
        for (int side = 0; side < SIDES; side++)
            for (int entry = 0; entry < ENTRIES; entry++)
                if (r.time[side][entry] < best.time[side][entry]) best.time[side][entry] = r.time[side][entry];
    }
    return best;
}

/* ---- kernels */

static const char *const kernel_names[4] = {"sqrt", "log", "exp", "powf"};

static double port_kernel(int kernel, const double *x)
{
    switch (kernel) {
    case 0: return spindle_sqrt(x[0]);
    case 1: return spindle_log(x[0]);
    case 2: return spindle_exp(x[0]);
    default: return spindle_powf(x[0], x[1]);
    }
}

static double own_kernel(int kernel, const double *x)
{
    switch (kernel) {
    case 0: return sqrt(x[0]);
    case 1: return log(x[0]);
    case 2: return exp(x[0]);
    default: return pow(x[0], x[1]);
    }
}

static volatile double sink;

/* ns of one call, over arguments that the plan gave */
#define TIMED(call, arguments, count)                                                   \
    ({                                                                                  \
        double best_ = 1e9;                                                             \
        for (int turn_ = 0; turn_ < 5; turn_++) {                                       \
            double sum_ = 0, before_ = now();                                           \
            for (size_t i_ = 0; i_ < (count); i_++) sum_ += call((arguments) + 2 * i_); \
            double took_ = now() - before_;                                             \
            sink = sum_;                                                                \
            if (took_ < best_) best_ = took_;                                           \
        }                                                                               \
        best_ * 1e9 / (double)(count);                                                  \
    })

static double port_sqrt(const double *x) { return port_kernel(0, x); }
static double port_log(const double *x) { return port_kernel(1, x); }
static double port_exp(const double *x) { return port_kernel(2, x); }
static double port_powf(const double *x) { return port_kernel(3, x); }
static double own_sqrt(const double *x) { return own_kernel(0, x); }
static double own_log(const double *x) { return own_kernel(1, x); }
static double own_exp(const double *x) { return own_kernel(2, x); }
static double own_powf(const double *x) { return own_kernel(3, x); }

/* ---- both square roots of document 02's Order 11, and the processor's */

static double plain_root(const double *x) { return spindle_plain_sqrt(x[0]); }
static double table_root(const double *x) { return spindle_table_sqrt(x[0]).root; }
__attribute__((noinline)) static double no_root(const double *x) { return x[0]; }

static volatile uint64_t no_bits;

/* ns of one call whose argument waits for the answer before it: some of that answer's bits are put into the argument, and they are none */
#define CHAINED(call, arguments, count)               \
    ({                                                \
        double best_ = 1e9;                           \
        for (int turn_ = 0; turn_ < 5; turn_++) {     \
            union {                                   \
                double d;                             \
                uint64_t b;                           \
            } x_, last_ = {0};                        \
            uint64_t some_ = no_bits;                 \
            double before_ = now();                   \
            for (size_t i_ = 0; i_ < (count); i_++) { \
                x_.d = (arguments)[2 * i_];           \
                x_.b |= last_.b & some_;              \
                last_.d = call(&x_.d);                \
            }                                         \
            double took_ = now() - before_;           \
            sink = last_.d;                           \
            if (took_ < best_) best_ = took_;         \
        }                                             \
        best_ * 1e9 / (double)(count);                \
    })

static void roots(const double *arguments, size_t count)
{
    printf("\nSquare roots, ns     one after another   each by itself\n");
#define ROOT(name, call) printf("  %-18s %17.1f %16.1f\n", name, CHAINED(call, arguments, count), TIMED(call, arguments, count))
    ROOT("plain", plain_root);
    ROOT("from the table", table_root);
    ROOT("the processor's", own_sqrt);
    ROOT("an empty call", no_root);
}

static void kernels(Plan *p, int rounds, double port_total)
{
    uint64_t start = seed;
    void *cones = rust_made(2, &p->in);
    Outputs out = made_outputs(p);
    for (int round = 0; round < rounds; round++) {
        moved(p);
        for (int entry = 0; entry < ENTRIES; entry++) rust_entry(2, cones, entry, &p->in, &out);
    }
    seed = start;
    double ns[2][4];
    size_t kept[4];
    for (int k = 0; k < 4; k++) kept[k] = rust_calls(k) < KEPT ? rust_calls(k) : KEPT;
    ns[0][0] = TIMED(port_sqrt, rust_arguments(0), kept[0]);
    ns[0][1] = TIMED(port_log, rust_arguments(1), kept[1]);
    ns[0][2] = TIMED(port_exp, rust_arguments(2), kept[2]);
    ns[0][3] = TIMED(port_powf, rust_arguments(3), kept[3]);
    ns[1][0] = TIMED(own_sqrt, rust_arguments(0), kept[0]);
    ns[1][1] = TIMED(own_log, rust_arguments(1), kept[1]);
    ns[1][2] = TIMED(own_exp, rust_arguments(2), kept[2]);
    ns[1][3] = TIMED(own_powf, rust_arguments(3), kept[3]);
    /* The calls are those of the Rust text; the port makes the same, of powf by log and exp. */
    printf("\nBy kernel            calls in a plan   port ns   platform ns   port ms   share of the port's time\n");
    double all = 0;
    for (int k = 0; k < 4; k++) {
        double ms = (double)rust_calls(k) * ns[0][k] / 1e6;
        all += ms;
        printf("  %-18s %15llu %9.1f %13.1f %9.1f %7.1f %%\n", kernel_names[k], (unsigned long long)rust_calls(k), ns[0][k], ns[1][k], ms,
               ms / (port_total * 10));
    }
    printf("  %-18s %15s %9s %13s %9.1f %7.1f %%\n", "all four", "", "", "", all, all / (port_total * 10));
    roots(rust_arguments(0), kept[0]);
}

/* ---- the port's plan in four ways: records in place or by value, and entry by entry over all cones or cone by cone */

static double one_way(Plan *p, int rounds, bool cone_by_cone, Outputs *out)
{
    SpindleScaling *records = fresh_records(p);
    double time = 0;
    for (int round = 0; round < rounds; round++) {
        moved(p);
        double before = now();
        if (cone_by_cone)
            for (size_t i = 0; i < p->in.cones; i++)
                for (int entry = 0; entry < ENTRIES; entry++) port_call(&records[i], entry, &p->in, out, i);
        else
            for (int entry = 0; entry < ENTRIES; entry++) port_entry(records, entry, &p->in, out);
        time += now() - before;
    }
    free(records);
    return time;
}

static void four_ways(Plan *p, int rounds, int runs)
{
    static const char *const names[4] = {"in place, entry by entry", "in place, cone by cone", "by value, entry by entry",
                                         "by value, cone by cone"};
    double least[4] = {1e9, 1e9, 1e9, 1e9};
    Outputs out = made_outputs(p);
    uint64_t start = seed;
    for (int run = 0; run < runs; run++)
        for (int way = 0; way < 4; way++) {
            seed = start;
            by_value = way >= 2;
            double time = one_way(p, rounds, way % 2, &out);
            if (time < least[way]) least[way] = time;
        }
    by_value = false;
    printf("\nThe port's plan by how a record is passed, and in which order the calls are made\n");
    for (int way = 0; way < 4; way++) printf("  %-26s %9.1f ms\n", names[way], least[way] * 1e3);
}

/* ---- what passing the records costs by itself: as many calls as a plan makes, of functions that do nothing */

static uint32_t nothing(SpindleScaling record) { return record.cone.kind; }

static SpindleUpdated nothing_new(SpindleScaling record) { return (SpindleUpdated){0, record}; }

static double passing(const Plan *p, int rounds)
{
    uint32_t (*volatile taken)(SpindleScaling) = nothing;
    SpindleUpdated (*volatile updated)(SpindleScaling) = nothing_new;
    SpindleScaling *records = fresh_records(p);
    uint32_t kinds = 0;
    double before = now();
    for (int round = 0; round < rounds; round++) {
        for (size_t i = 0; i < p->in.cones; i++) {
            SpindleUpdated r = updated(records[i]);
            records[i] = r.record;
        }
        /* the block, two products, shift or gradient, the barrier */
        for (int call = 0; call < 5; call++)
            for (size_t i = 0; i < p->in.cones; i++) kinds += taken(records[i]);
    }
    double time = now() - before;
    if (!kinds) refused("passing", 0, 0);
    free(records);
    return time;
}

/* ---- by size of a cone, by tests of a search */

static void sizes(int rounds, int runs)
{
    printf("\nBy cone                     port us   Rust us   own us   port/Rust   port/own   (one cone, one round; 50 such cones)\n");
    static const size_t numels[] = {4, 8, 16, 24, 32, 48, 64};
    for (int row = 0; row < 2 + (int)(sizeof numels / sizeof *numels); row++) {
        SpindleCone cones[50];
        char name[40];
        size_t n = row < 2 ? 3 : numels[row - 2];
        for (size_t i = 0; i < 50; i++) {
            if (row == 0)
                cones[i] = exponential;
            else if (row == 1)
                cones[i] = power(between(0.1, 0.9));
            else
                cones[i] = generalized(n / 2, n / 2);
        }
        snprintf(name, sizeof name, row == 0 ? "exponential" : row == 1 ? "power" : "generalized, %zu numbers", n);
        fprintf(stderr, "\rbench: %-60s", name);
        Plan p = planned(cones, 50);
        Result r = least(&p, rounds, runs, 0);
        double per = 1e6 / 50 / rounds, port = total(&r, PORT) * per, rust = total(&r, RUST) * per, own = total(&r, OWN) * per;
        printf("  %-24s %8.2f %9.2f %8.2f %11.2f %10.2f\n", name, port, rust, own, port / rust, port / own);
    }
}

/* A direction along which exactly the trial number `tests` is the first to pass: only the last number moves (of the exponential cone the first), so that
   each test evaluates its residue. More tests than there are: none passes. */
static void direction(const SpindleCone *cone, const double *q, unsigned tests, double *dq)
{
    size_t n = numel(cone), place = cone->kind == 1 ? 0 : n - 1;
    memset(dq, 0, n * sizeof(double));
    double wall;
    if (cone->kind == 1)
        wall = q[1] * log(q[2] / q[1]) - q[0];
    else if (cone->kind == 2)
        wall = exp(cone->exps[0] * log(q[0]) + (1 - cone->exps[0]) * log(q[1]));
    else {
        double sum = 0;
        for (size_t i = 0; i < cone->dim1; i++) sum += cone->exps[i] * log(q[i]);
        wall = exp(sum);
    }
    dq[place] = wall / (pow(0.8, tests - 1) * 1.1);
}

static void searches(void)
{
    static const unsigned tests[] = {1, 2, 5, 10, 20, 40, 42};
    SpindleCone cones[4] = {exponential, power(0.5), generalized(8, 8), generalized(32, 32)};
    static const char *const names[] = {"exponential", "power", "generalized, 16 numbers", "generalized, 64 numbers"};
    Plan p = planned(cones, 4);
    void *rust[2] = {rust_made(0, &p.in), rust_made(1, &p.in)};
    printf("\nBy tests of a search, ns (port; port/Rust in brackets)\n  %-24s", "");
    for (size_t t = 0; t < 7; t++) printf("       %5u", tests[t]);
    printf("\n");
    for (size_t c = 0; c < 4; c++) {
        size_t n = numel(&cones[c]);
        const double *q = p.unit + p.at[c];
        printf("  %-24s", names[c]);
        for (size_t t = 0; t < 7; t++) {
            double dq[MOST], point[MOST], points[MOST], best[2] = {1e9, 1e9};
            /* 42 tests and none passes */
            direction(&cones[c], q, tests[t] == 42 ? 200 : tests[t], dq);
            SpindleSettings how = p.in.settings;
            size_t times = 40000 / (tests[t] * n) + 1;
            for (int turn = 0; turn < 7; turn++) {
                double before = now();
                for (size_t k = 0; k < times; k++) {
                    SpindleFound found = spindle_backtrack_search(cones[c], true, dq, n, q, n, point, n, how);
                    if (found.code) refused("backtrack_search", c, found.code);
                    if (found.count != tests[t]) {
                        fprintf(stderr, "\nbench: %u tests where %u were meant\n", (unsigned)found.count, tests[t]);
                        exit(1);
                    }
                }
                double took = now() - before;
                if (took < best[0]) best[0] = took;
                before = now();
                for (size_t k = 0; k < times; k++)
                    if (rust_search(0, rust[0], c, dq, q, points, (const double *)&how) != tests[t]) {
                        fprintf(stderr, "\nbench: the Rust made other tests\n");
                        exit(1);
                    }
                took = now() - before;
                if (took < best[1]) best[1] = took;
            }
            if (memcmp(point, points, n * sizeof(double))) {
                fprintf(stderr, "\nbench: other points\n");
                exit(1);
            }
            printf(" %6.0f (%.2f)", best[0] * 1e9 / times, best[0] / best[1]);
        }
        printf("\n");
    }
}

/* One common step of a plan's first cones, beside the same loop in Rust and beside a search of each cone by itself. The last cone is the first to pass at the
   trial `trials`, the others stay inside: each trial tests every cone. */
static void commons(const Plan *p)
{
    static const size_t counts[] = {225, 450, 900};
    static const unsigned trials[] = {1, 5, 20};
    size_t all = p->at[900];
    double *dq = room(all * sizeof(double)), *point = room(all * sizeof(double)), *points = room(all * sizeof(double));
    void *rust = rust_made(0, &p->in);
    printf("\nCommon step of a plan, us    cones   trials    tests     port   ns for a test   port/Rust   as many single searches, their "
           "tests\n");
    for (size_t c = 0; c < 3; c++)
        for (size_t t = 0; t < 3; t++) {
            size_t count = counts[c], last = count - 1, n = p->at[count];
            uint32_t tests = (uint32_t)(count * trials[t]), single = 0;
            memset(dq, 0, all * sizeof(double));
            direction(&p->cone[last], p->unit + p->at[last], trials[t], dq + p->at[last]);
            double best[3] = {1e9, 1e9, 1e9};
            for (int turn = 0; turn < 9; turn++) {
                double before = now();
                SpindleFound found = spindle_common_step(p->cone, count, true, dq, n, p->unit, n, point, n, p->in.settings);
                double took = now() - before;
                if (found.code) refused("common_step", last, found.code);
                if (found.count != tests) {
                    fprintf(stderr, "\nbench: %u tests where %u were meant\n", (unsigned)found.count, (unsigned)tests);
                    exit(1);
                }
                if (took < best[0]) best[0] = took;
                before = now();
                if (rust_common(rust, count, &p->in, dq, p->unit, points) != tests) {
                    fprintf(stderr, "\nbench: the Rust made other tests\n");
                    exit(1);
                }
                took = now() - before;
                if (took < best[1]) best[1] = took;
                if (memcmp(point, points, n * sizeof(double))) {
                    fprintf(stderr, "\nbench: other points\n");
                    exit(1);
                }
                single = 0;
                before = now();
                for (size_t i = 0; i < count; i++) {
                    size_t at = p->at[i], m = p->at[i + 1] - at;
                    SpindleFound one =
                        spindle_backtrack_search(p->cone[i], true, dq + at, m, p->unit + at, m, points + at, m, p->in.settings);
                    if (one.code) refused("backtrack_search", i, one.code);
                    single += one.count;
                }
                took = now() - before;
                if (took < best[2]) best[2] = took;
            }
            printf("  %24s %7zu %8u %8u %8.1f %15.1f %11.2f %24.1f %7u\n", "", count, trials[t], (unsigned)tests, best[0] * 1e6,
                   best[0] * 1e9 / tests, best[0] / best[1], best[2] * 1e6, (unsigned)single);
        }
}

/* One step for both sides of the same plans, beside the two common steps that the sides take by themselves. The dual side stays inside: each trial tests every
   cone on both sides. */
static void plan_steps(const Plan *p)
{
    static const size_t counts[] = {225, 450, 900};
    static const unsigned trials[] = {1, 5, 20};
    size_t all = p->at[900];
    double *dz = room(all * sizeof(double)), *ds = room(all * sizeof(double));
    double *dual = room(all * sizeof(double)), *primal = room(all * sizeof(double)), *beside = room(all * sizeof(double));
    printf("\nOne step for both sides, us    cones   trials    tests     port   ns for a test   two common steps, their tests\n");
    for (size_t c = 0; c < 3; c++)
        for (size_t t = 0; t < 3; t++) {
            size_t count = counts[c], last = count - 1, n = p->at[count];
            uint32_t tests = (uint32_t)(2 * count * trials[t]);
            SpindleFound dual_own = {0}, primal_own = {0};
            memset(ds, 0, all * sizeof(double));
            direction(&p->cone[last], p->unit + p->at[last], trials[t], ds + p->at[last]);
            double best[2] = {1e9, 1e9};
            for (int turn = 0; turn < 9; turn++) {
                double before = now();
                SpindleFound found =
                    spindle_plan_step(p->cone, count, dz, n, ds, n, p->unit, n, p->unit, n, dual, n, primal, n, p->in.settings);
                double took = now() - before;
                if (found.code) refused("plan_step", last, found.code);
                if (found.count != tests) {
                    fprintf(stderr, "\nbench: %u tests where %u were meant\n", (unsigned)found.count, (unsigned)tests);
                    exit(1);
                }
                if (took < best[0]) best[0] = took;
                before = now();
                dual_own = spindle_common_step(p->cone, count, false, dz, n, p->unit, n, beside, n, p->in.settings);
                primal_own = spindle_common_step(p->cone, count, true, ds, n, p->unit, n, beside, n, p->in.settings);
                took = now() - before;
                if (took < best[1]) best[1] = took;
                if (dual_own.code || primal_own.code) refused("common_step", last, dual_own.code ? dual_own.code : primal_own.code);
                if (memcmp(primal, beside, n * sizeof(double))) {
                    fprintf(stderr, "\nbench: other points\n");
                    exit(1);
                }
            }
            printf("  %26s %7zu %8u %8u %8.1f %15.1f %18.1f %12u\n", "", count, trials[t], (unsigned)tests, best[0] * 1e6,
                   best[0] * 1e9 / tests, best[1] * 1e6, (unsigned)(dual_own.count + primal_own.count));
        }
}

/* ---- the stack of a call: a painted one of its own */

#define STACK (1 << 18)
static unsigned char painted[STACK] __attribute__((aligned(64)));
static ucontext_t outside, inside;
static int stack_entry;
static Plan *stack_plan;
static SpindleScaling *stack_records;
static Outputs stack_out;

/* The calls over the plan's one cone that no round of the plan makes, each with a frame of its own. */
static double stack_first[64], stack_second[64];
#define IN stack_plan->unit, stack_plan->at[1]
#define OUT stack_first, stack_plan->at[1]
#define OUT_TOO stack_second, stack_plan->at[1]
#define OTHER(name, call) \
    __attribute__((noinline)) static void name(void) { call; }
OTHER(other_fresh, spindle_fresh(*stack_plan->cone))
OTHER(other_is_primal_feasible, spindle_is_primal_feasible(*stack_plan->cone, IN))
OTHER(other_is_dual_feasible, spindle_is_dual_feasible(*stack_plan->cone, IN))
OTHER(other_barrier_dual, spindle_barrier_dual(*stack_plan->cone, IN))
OTHER(other_dual_grad_h, spindle_dual_grad_h(*stack_plan->cone, IN))
OTHER(other_barrier_primal, spindle_barrier_primal(*stack_records, IN))
OTHER(other_higher_correction, spindle_higher_correction(*stack_records, stack_records->serial, OUT, IN, IN))
OTHER(other_unit_initialization, spindle_unit_initialization(*stack_plan->cone, OUT, OUT_TOO))
OTHER(other_rectify_equilibration, spindle_rectify_equilibration(*stack_plan->cone, OUT, IN))
OTHER(other_affine_ds, spindle_affine_ds(*stack_plan->cone, OUT, IN))
OTHER(other_ds_from_dz_offset, spindle_ds_from_dz_offset(*stack_plan->cone, OUT, IN, IN))
OTHER(other_backtrack_search, spindle_backtrack_search(*stack_plan->cone, true, IN, IN, OUT, stack_plan->in.settings))
OTHER(other_common_step, spindle_common_step(stack_plan->cone, 1, true, IN, IN, OUT, stack_plan->in.settings))
OTHER(other_plan_step, spindle_plan_step(stack_plan->cone, 1, IN, IN, IN, IN, OUT, OUT_TOO, stack_plan->in.settings))

static const struct {
    const char *name;
    void (*call)(void);
} others[] = {
    {"fresh", other_fresh},
    {"is_primal_feasible", other_is_primal_feasible},
    {"is_dual_feasible", other_is_dual_feasible},
    {"barrier_dual", other_barrier_dual},
    {"dual_grad_h", other_dual_grad_h},
    {"barrier_primal", other_barrier_primal},
    {"higher_correction", other_higher_correction},
    {"unit_initialization", other_unit_initialization},
    {"rectify_equilibration", other_rectify_equilibration},
    {"affine_ds", other_affine_ds},
    {"ds_from_dz_offset", other_ds_from_dz_offset},
    {"backtrack_search", other_backtrack_search},
    {"common_step", other_common_step},
    {"plan_step", other_plan_step},
};
enum { MEASURED = ENTRIES + sizeof(others) / sizeof(*others) };

static void one_call(void)
{
    if (stack_entry >= ENTRIES)
        others[stack_entry - ENTRIES].call();
    else if (stack_entry >= 0)
        port_entry(stack_records, stack_entry, &stack_plan->in, &stack_out);
}

static size_t stack_of(int entry)
{
    stack_entry = entry;
    memset(painted, 0xA5, STACK);
    getcontext(&inside);
    inside.uc_stack.ss_sp = painted;
    inside.uc_stack.ss_size = STACK;
    inside.uc_link = &outside;
    makecontext(&inside, one_call, 0);
    swapcontext(&outside, &inside);
    size_t i = 0;
    while (i < STACK && painted[i] == 0xA5) i++;
    return STACK - i;
}

static void stacks(void)
{
    printf("\nBytes of structs by value: Cone %zu, Settings %zu, Scaling %zu, Updated %zu, DualGrad %zu, Steps %zu, Found %zu\n",
           sizeof(SpindleCone), sizeof(SpindleSettings), sizeof(SpindleScaling), sizeof(SpindleUpdated), sizeof(SpindleDualGrad),
           sizeof(SpindleSteps), sizeof(SpindleFound));
    printf("\nStack bytes of a call, with its arguments and its answer    3 numbers   64 numbers\n");
    SpindleCone cones[2] = {power(0.5), generalized(32, 32)};
    size_t bytes[2][MEASURED], placed[2][ENTRIES];
    for (int c = 0; c < 2; c++) {
        Plan p = planned(&cones[c], 1);
        moved(&p);
        stack_plan = &p;
        stack_records = fresh_records(&p);
        stack_out = made_outputs(&p);
        size_t empty = stack_of(-1);
        for (int entry = 0; entry < ENTRIES; entry++) placed[c][entry] = stack_of(entry) - empty;
        by_value = true;
        for (int entry = 0; entry < MEASURED; entry++) bytes[c][entry] = stack_of(entry) - empty;
        by_value = false;
    }
    for (int row = 0; row < MEASURED + ENTRIES; row++) {
        bool in_place = row >= MEASURED;
        int entry = in_place ? row - MEASURED : row;
        if (in_place && entry == STEPS) continue;
        const char *name = entry < ENTRIES ? entry_names[entry] : others[entry - ENTRIES].name;
        printf("  %s%-*s", name, 46 - (int)strlen(name), in_place ? ", in place" : "");
        for (int c = 0; c < 2; c++) {
            int width = c ? 13 : 21;
            /* what refuses kind 3 with 1, and what the plan asks of kind 3 alone */
            if (entry == (c ? SHIFT : GRADIENT) || (c && !strcmp(name, "higher_correction")))
                printf("%*s", width, "-");
            else
                printf("%*zu", width, in_place ? placed[c][entry] : bytes[c][entry]);
        }
        printf("\n");
    }
}

/* ---- the command */

static void usage(FILE *to)
{
    fprintf(
        to,
        "bench [--rounds N] [--runs N] [--seed N] [--only port|rust|own] [--brief] [--margins]\n"
        "  --rounds  rounds of the plan (60)\n  --runs    the plan is run so often, and the least time of each entry taken (5)\n"
        "  --seed    of cones, points and directions (1)\n  --only    this side alone, no tables: for a profiler\n"
        "  --brief   totals and entries alone\n"
        "  --margins times nothing: how many trials of the plan are undecided where the Rust says yes or no, and how many steps change\n");
}

int main(int count, char **words)
{
    int rounds = 60, runs = 5, only = -1, brief = 0, margins = 0;
    for (int i = 1; i < count; i++) {
        const char *word = words[i], *value = i + 1 < count ? words[i + 1] : "";
        if (!strcmp(word, "--rounds") && atoi(value) > 0)
            rounds = atoi(words[++i]);
        else if (!strcmp(word, "--runs") && atoi(value) > 0)
            runs = atoi(words[++i]);
        else if (!strcmp(word, "--seed") && *value)
            seed = strtoull(words[++i], 0, 10);
        else if (!strcmp(word, "--only") && !strcmp(value, "port"))
            only = PORT, i++;
        else if (!strcmp(word, "--only") && !strcmp(value, "rust"))
            only = RUST, i++;
        else if (!strcmp(word, "--only") && !strcmp(value, "own"))
            only = OWN, i++;
        else if (!strcmp(word, "--brief"))
            brief = 1;
        else if (!strcmp(word, "--margins"))
            margins = 1;
        else {
            usage(stderr);
            return 2;
        }
    }

    SpindleCone cones[900];
    size_t numbers = 0;
    for (size_t i = 0; i < 900; i++) {
        if (i % 3 == 0)
            cones[i] = exponential;
        else if (i % 3 == 1)
            cones[i] = power(between(0.1, 0.9));
        else {
            size_t dim1 = whole(2, 32), dim2 = whole(2, 32);
            cones[i] = generalized(dim1, dim2);
        }
        numbers += numel(&cones[i]);
    }
    Plan p = planned(cones, 900);

    if (only >= 0) {
        void *side = made(only, &p);
        Outputs out = made_outputs(&p);
        for (int round = 0; round < rounds; round++) {
            moved(&p);
            for (int entry = 0; entry < ENTRIES; entry++) run_entry(only, side, entry, &p.in, &out);
        }
        return 0;
    }

    if (margins) {
        void *rust = rust_made(0, &p.in);
        Changed c = {0, 0, {0, 0}, 0};
        for (int round = 0; round < rounds; round++) {
            moved(&p);
            rust_changed(rust, &p.in, &c);
        }
        printf("%llu searches, %llu tests; undecided now: yes %llu, no %llu; other steps %llu\n", (unsigned long long)c.searches,
               (unsigned long long)c.tests, (unsigned long long)c.turned[0], (unsigned long long)c.turned[1], (unsigned long long)c.steps);
        return 0;
    }

    printf(
        "One plan: 900 cones (300 exponential, 300 power, 300 generalized of 4 to 64 numbers; %zu numbers), %d rounds; least of %d runs\n",
        numbers, rounds, runs);
    Result r = least(&p, rounds, runs, 1);
    fprintf(stderr, "\r%70s\r", "");
    double sum[SIDES];
    for (int side = 0; side < SIDES; side++) sum[side] = total(&r, side);
    printf("The port and the Rust on its kernels leave the same bits: %016llX; every call done\n", (unsigned long long)r.bits);
    printf("Tests in %zu searches: port %llu, Rust %llu, Rust on the platform's kernels %llu\n\n", r.searches,
           (unsigned long long)r.tests[PORT], (unsigned long long)r.tests[RUST], (unsigned long long)r.tests[OWN]);
    for (int side = 0; side < SIDES; side++)
        printf("  %d %-24s %9.1f ms   %5.2f us for a cone and round   port/this %.2f\n", side + 1, side_names[side], sum[side] * 1e3,
               sum[side] * 1e6 / 900 / rounds, sum[PORT] / sum[side]);
    printf("\nBy entry             port ms   share   Rust ms   own ms   port/Rust   port/own\n");
    for (int entry = 0; entry < ENTRIES; entry++) {
        double port = r.time[PORT][entry], rust = r.time[RUST][entry], own = r.time[OWN][entry];
        printf("  %-18s %8.1f %5.1f %% %8.1f %8.1f %11.2f %10.2f\n", entry_names[entry], port * 1e3, 100 * port / sum[PORT], rust * 1e3,
               own * 1e3, port / rust, port / own);
    }
    double passed = passing(&p, rounds);
    for (int run = 1; run < runs; run++) {
        double again = passing(&p, rounds);
        if (again < passed) passed = again;
    }
    printf("  %-18s %8.1f %5.1f %%   (as many calls, of functions that do nothing)\n", "records by value", passed * 1e3,
           100 * passed / sum[PORT]);
    four_ways(&p, rounds, runs);
    if (!brief) {
        kernels(&p, rounds, sum[PORT]);
        sizes(rounds, runs);
        searches();
        commons(&p);
        plan_steps(&p);
        stacks();
    }
    fprintf(stderr, "\r%70s\r", "");
    return 0;
}
