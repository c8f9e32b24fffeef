/* A planner's plan, solved over the library and measured: shares of copy bandwidth for virtual machines between hosts.

       maximise   sum of w log x  -  sum of c x^p  -  sum of e load^p  +  sum of g (product of a gang's x)^(1/8)
       so that    what a host sends, and what it takes in, is at most C;  x is at most u

   Logarithms by exponential cones (t, 1, x); delays of machines by power cones (d, 1, x). By family:

       log        no delays and no gangs
       power      hosts' delays by power cones (d, 1, in/C)
       general    hosts' delays by generalized cones (d, 1, in/C, out/C); gangs of eight machines by generalized cones of eight exponents

       plan [WORDS..]     families: log power general, all three if none is named
       machines=600 hosts=48 delays=240 gangs=12 seed=1 seeds=1     the plan; seeds=10: that many of them
       tol=1e-6 rounds=60 shrink=0.5 smallest=0.0001                the loop; shrink: a search's factor from trial to trial, the house's 0.5
       strategy=dual|primal-dual|changed search=tested|least        loop.h
       correction=step|whole                                        the third-order correction at the affine step, or at the direction's end
       barrier=clarabel|path|none                                   loop.h
       runs=5                                                       least time of so many runs
       margins verbose                                              counts undecided trials; a line for each round
       trace=PREFIX                                                 searches kept as PREFIX-FAMILY-SEED-0001.trace .. */
#include "loop.h"
#include "sparse.h"
#include <math.h>
#include <stdio.h>
#include <stdlib.h>
#include <string.h>

enum { GANG = 8 };

/* ---- the plan's numbers, from a seeded source that is the same on every machine */

static uint64_t state;
static double chance(void)
{
    state = state * 6364136223846793005u + 1442695040888963407u;
    return (double)(state >> 11) * 0x1p-53;
}
static int below(int n) { return (int)(chance() * n); }

typedef struct {
    int from, to;
    double weight, limit, cost, power;
} Machine;
typedef struct {
    double capacity, cost, power;
} Host;

typedef struct {
    int machines, hosts, delays, gangs;
    bool general, hosts_pay;
    Machine *machine;
    Host *host;
    double *gang;
} Plan;

static Plan make(int machines, int hosts, int delays, int gangs, const char *family, int seed)
{
    static const double powers[] = {1.5, 2, 2.5, 3, 4};
    bool general = !strcmp(family, "general"), pay = strcmp(family, "log") != 0;
    Plan p = {machines,
              hosts,
              pay ? delays : 0,
              general ? gangs : 0,
              general,
              pay,
              room(machines, sizeof(Machine)),
              room(hosts, sizeof(Host)),
              room(gangs, sizeof(double))};
    state = (uint64_t)seed * 0x9E3779B97F4A7C15u + 1;
    for (int h = 0; h < hosts; h++) {
        p.host[h].capacity = below(3) ? 10 : 25;
        p.host[h].cost = 0.5 + 2 * chance();
        p.host[h].power = powers[below(5)];
    }
    for (int i = 0; i < machines; i++) {
        Machine *m = p.machine + i;
        m->from = below(hosts);
        m->to = hosts > 1 ? (m->from + 1 + below(hosts - 1)) % hosts : 0;
        m->weight = 0.25 + 3.75 * chance();
        m->limit = below(4) ? 10 : 0.5 + chance();
        m->cost = 0.05 + 0.5 * chance();
        m->power = powers[below(5)];
    }
    for (int g = 0; g < gangs; g++) p.gang[g] = 1 + 2 * chance();
    return p;
}

static void free_plan(Plan *p) { free(p->machine), free(p->host), free(p->gang); }

/* ---- the plan as a problem over cones */

typedef struct {
    int count, i[20000], j[20000];
    double v[20000];
} Entries; /* of A */

static void put(Entries *a, int i, int j, double v)
{
    if (a->count == 20000) {
        fprintf(stderr, "plan: too many entries\n");
        exit(2);
    }
    a->i[a->count] = i;
    a->j[a->count] = j;
    a->v[a->count++] = v;
}

static void into_columns(Problem *p, const Entries *a)
{
    int *next = room(p->n, sizeof *next);
    p->cp = room(p->n + 1, sizeof(int));
    p->ri = room(a->count, sizeof(int));
    p->av = room(a->count, sizeof(double));
    for (int e = 0; e < a->count; e++) p->cp[a->j[e] + 1]++;
    for (int j = 0; j < p->n; j++) p->cp[j + 1] += p->cp[j];
    for (int e = 0; e < a->count; e++) {
        int at = p->cp[a->j[e]] + next[a->j[e]]++;
        p->ri[at] = a->i[e];
        p->av[at] = a->v[e];
    }
    free(next);
}

/* One cone more, and its first row. A cone (variable, 1, ..) has its variable in the first row; a gang's variable is its tail, `tail` rows
   behind. */
static int add_cone(Problem *p, Entries *a, SpindleCone cone, double price, int tail)
{
    int first = p->m, variable = p->n++;
    p->cones[p->ncones++] = cone;
    p->m += (int)spindle_length(cone);
    put(a, first + tail, variable, -1);
    if (tail == 0) p->b[first + 1] = 1;
    p->q[variable] = price;
    return first;
}

static Problem problem_of(const Plan *plan)
{
    static Entries a;
    int M = plan->machines, H = plan->hosts, most = M + plan->delays + H + plan->gangs;
    Problem p = {.n = M, .m = 2 * H + M, .orthant = 2 * H + M};
    p.q = room(M + most, sizeof(double));
    p.b = room(p.orthant + 9 * most, sizeof(double));
    p.cones = room(most, sizeof(SpindleCone));
    a.count = 0;
    for (int h = 0; h < H; h++) p.b[h] = p.b[H + h] = plan->host[h].capacity;
    for (int i = 0; i < M; i++) {
        put(&a, plan->machine[i].from, i, 1);
        put(&a, H + plan->machine[i].to, i, 1);
        put(&a, 2 * H + i, i, 1);
        p.b[2 * H + i] = plan->machine[i].limit;
    }
    for (int i = 0; i < M; i++) {
        SpindleCone cone = {.kind = SPINDLE_EXPONENTIAL, .rule = SPINDLE_RULE_2};
        put(&a, add_cone(&p, &a, cone, -plan->machine[i].weight, 0) + 2, i, -1);
    }
    for (int i = 0; i < plan->delays; i++) {
        SpindleCone cone = {.kind = SPINDLE_POWER, .rule = SPINDLE_RULE_2, .exps = {1 / plan->machine[i].power}};
        put(&a, add_cone(&p, &a, cone, plan->machine[i].cost, 0) + 2, i, -1);
    }
    for (int h = 0; h < H && plan->hosts_pay; h++) {
        double exponent = 1 / plan->host[h].power, capacity = plan->host[h].capacity;
        SpindleCone power = {.kind = SPINDLE_POWER, .rule = SPINDLE_RULE_2, .exps = {exponent}};
        SpindleCone general = {.kind = SPINDLE_GENERALIZED, .dim1 = 2, .dim2 = 2, .rule = SPINDLE_RULE_2, .exps = {exponent, 1 - exponent}};
        int row = add_cone(&p, &a, plan->general ? general : power, plan->host[h].cost, 0);
        for (int i = 0; i < M; i++) {
            if (plan->machine[i].to == h) put(&a, row + 2, i, -1 / capacity);
            if (plan->general && plan->machine[i].from == h) put(&a, row + 3, i, -1 / capacity);
        }
    }
    for (int g = 0; g < plan->gangs; g++) {
        SpindleCone cone = {.kind = SPINDLE_GENERALIZED, .dim1 = GANG, .dim2 = 1, .rule = SPINDLE_RULE_2};
        for (int i = 0; i < GANG; i++) cone.exps[i] = 1.0 / GANG;
        int row = add_cone(&p, &a, cone, -plan->gang[g], GANG);
        for (int i = 0; i < GANG; i++) put(&a, row + i, (GANG * g + i) % M, -1);
    }
    into_columns(&p, &a);
    return p;
}

static void free_problem(Problem *p) { free(p->cp), free(p->ri), free(p->av), free(p->q), free(p->b), free(p->cones); }

/* ---- the smooth problem's own conditions, without a cone */

/* The slope of a host's delay in what it takes in, or sends. */
static double host_slope(const Plan *p, int h, double in, double out, bool sends)
{
    const Host *host = p->host + h;
    double load = (p->general ? hypot(in, out) : in) / host->capacity, part = (sends ? out : in) / host->capacity;
    if (!p->hosts_pay || (sends && !p->general)) return 0;
    return host->cost * host->power * pow(load, host->power - 1) * part / load / host->capacity;
}

static double gang_slope(const Plan *p, const double *x, int i)
{
    double slope = 0;
    for (int g = 0; g < p->gangs; g++) {
        double logs = 0;
        int times = 0;
        for (int k = 0; k < GANG; k++) {
            logs += log(x[(GANG * g + k) % p->machines]) / GANG;
            times += (GANG * g + k) % p->machines == i;
        }
        if (times) slope += times * p->gang[g] * exp(logs) / GANG / x[i];
    }
    return slope;
}

/* By how much the worst condition fails: a share's slope against its prices, relative to its weight; a capacity or a limit; a price where
   room is left. */
static double conditions(const Plan *p, const double *x, const double *price)
{
    int H = p->hosts;
    double *in = room(H, sizeof *in), *out = room(H, sizeof *out), worst = 0;
    for (int i = 0; i < p->machines; i++) {
        out[p->machine[i].from] += x[i];
        in[p->machine[i].to] += x[i];
    }
    for (int i = 0; i < p->machines; i++) {
        const Machine *m = p->machine + i;
        double slope = m->weight / x[i] + gang_slope(p, x, i) - price[m->from] - price[H + m->to] - price[2 * H + i];
        if (i < p->delays) slope -= m->cost * m->power * pow(x[i], m->power - 1);
        slope -= host_slope(p, m->to, in[m->to], out[m->to], false) + host_slope(p, m->from, in[m->from], out[m->from], true);
        worst = fmax(worst, fabs(slope) * x[i] / m->weight);
        worst = fmax(worst, fmax(x[i] - m->limit, fabs(price[2 * H + i] * (m->limit - x[i]))));
    }
    for (int h = 0; h < H; h++) {
        double space_out = p->host[h].capacity - out[h], space_in = p->host[h].capacity - in[h];
        worst = fmax(worst, fmax(fmax(-space_out, -space_in), fmax(fabs(price[h] * space_out), fabs(price[H + h] * space_in))));
    }
    free(in), free(out);
    return worst;
}

/* What Order 5's margin of 2^-30 leaves of the gap: degree * 2^-30 * (the largest <s,z> of a power cone's tail) / max(1, |optimum|).
   docs/FINDINGS.md, 1 */
static double margin_floor(const Problem *p, const Outcome *r)
{
    double stake = 0;
    int at = p->orthant, degree = p->orthant;
    for (int k = 0; k < p->ncones; k++) {
        const SpindleCone *cone = p->cones + k;
        int head = cone->kind == SPINDLE_GENERALIZED ? (int)cone->dim1 : 2, n = (int)spindle_length(*cone);
        double product = 0;
        for (int i = at + head; i < at + n; i++) product += r->s[i] * r->z[i];
        if (cone->kind != SPINDLE_EXPONENTIAL) stake = fmax(stake, fabs(product));
        at += n;
        degree += (int)spindle_degree(*cone);
    }
    return degree * 0x1p-30 * stake / fmax(1, fabs(r->optimum));
}

/* ---- searches kept as traces: where a file has no room for the next record it is sealed, and another one begins */

enum { ROOM = 65536, ENTRY = 8, TRAILER = 20 };

typedef struct {
    char prefix[200];
    int files;
    long searches, bytes;
    size_t records, used; /* of the file at hand */
    double seconds;       /* of recording and sealing, not of the searches */
    uint8_t trace[ROOM];
} Keeper;

static void stop(const char *call, uint32_t code)
{
    fprintf(stderr, "plan: %s: %s\n", call, spindle_meaning(code));
    exit(2);
}

static void seal(Keeper *k)
{
    char name[256];
    SpindleWritten trace = spindle_trace_seal(k->trace, ROOM, k->used, SPINDLE_NEWEST_EDITION);
    if (trace.code) stop("trace_seal", trace.code);
    snprintf(name, sizeof name, "%s-%04d.trace", k->prefix, ++k->files);
    FILE *file = fopen(name, "wb");
    if (!file || fwrite(k->trace, 1, trace.length, file) != trace.length || fclose(file)) {
        perror(name);
        exit(2);
    }
    k->bytes += (long)trace.length;
    k->records = k->used = 0;
}

static void keep(void *to, const SpindleCone *cone, SpindleSettings t, const double *dz, const double *ds, const double *z, const double *s,
                 size_t n)
{
    Keeper *k = to;
    double dual[64], primal[64];
    SpindleSteps steps = spindle_step_length(*cone, dz, n, ds, n, z, n, s, n, dual, n, primal, n, t);
    double began = seconds();
    SpindleWritten put = {.code = SPINDLE_NO_ROOM};
    while (put.code == SPINDLE_NO_ROOM) {
        size_t end = ROOM - ENTRY * (k->records + 1) - TRAILER; /* list and trailer keep their room */
        if (end < k->used) end = k->used;
        put = spindle_record_put(k->trace, end, k->used, SPINDLE_NEWEST_EDITION, *cone, 0, t, dz, n, ds, n, z, n, s, n, steps);
        if (put.code == SPINDLE_NO_ROOM && k->records == 0) stop("record_put", put.code);
        if (put.code == SPINDLE_NO_ROOM) seal(k);
    }
    if (put.code != SPINDLE_DONE) stop("record_put", put.code);
    k->used = put.length;
    k->records++;
    k->searches++;
    k->seconds += seconds() - began;
}

/* ---- the tables */

static double library(const Outcome *r)
{
    double sum = 0;
    for (int k = 0; k < CALLS; k++) sum += r->by_call[k];
    return sum;
}

static void show(const char *family, int seed, const Plan *plan, const Problem *p, const Outcome *r, bool margins)
{
    double in = library(r), off = conditions(plan, r->x, r->z);
    printf("| %s | %d | %d | %s | %d | %ld | %.1f | %.1f | %.1f | %ld of %ld | %.1e | %.1e | %.1e |", family, seed, p->ncones, r->end,
           r->rounds, r->tests, 1e3 * r->total, 1e3 * in, 1e3 * (r->total - in), r->yes, r->used, r->gap, margin_floor(p, r), off);
    if (margins) printf(" %ld of %ld |", r->undecided, r->trials);
    printf("\n");
}

static void show_times(const char *family, const Outcome *r)
{
    printf("| %s | %.1f | %.1f | %.1f | %.1f | %.1f | %.1f | %.1f | %.1f | %.1f | %d, %d |\n", family, 1e3 * r->by_call[UPDATE],
           1e3 * r->by_call[BLOCK], 1e3 * r->by_call[PRODUCT], 1e3 * r->by_call[SHIFT], 1e3 * r->by_call[SEARCH], 1e3 * r->by_call[BARRIER],
           1e3 * r->factorising, 1e3 * r->solving, 1e3 * r->ordering, r->rows, r->fill);
}

static void free_outcome(Outcome *r) { free(r->x), free(r->s), free(r->z); }

static Outcome fastest(const Problem *p, Options o, int runs)
{
    Outcome best = loop_run(p, o);
    for (int k = 1; k < runs; k++) {
        Outcome next = loop_run(p, o);
        bool faster = next.total < best.total;
        free_outcome(faster ? &best : &next);
        if (faster) best = next;
    }
    return best;
}

/* ---- words */

static int words;
static char **all;

static const char *word(const char *name, const char *other)
{
    size_t n = strlen(name);
    for (int k = 1; k < words; k++) {
        if (!strncmp(all[k], name, n) && all[k][n] == '=') return all[k] + n + 1;
        if (!strcmp(all[k], name)) return "1";
    }
    return other;
}
static bool has(const char *name) { return *word(name, "") != 0; }
static double number(const char *name, const char *other) { return atof(word(name, other)); }

static int choice(const char *name, const char *const *names)
{
    const char *chosen = word(name, names[0]);
    for (int k = 0; names[k]; k++) {
        if (!strcmp(chosen, names[k])) return k;
    }
    fprintf(stderr, "plan: no such %s: %s\n", name, chosen);
    exit(2);
}

static void judge_words(void)
{
    static const char *const known[] = {"log",     "power", "general", "machines", "hosts",    "delays",   "gangs",  "seed",
                                        "seeds",   "tol",   "rounds",  "shrink",   "smallest", "strategy", "search", "correction",
                                        "barrier", "runs",  "margins", "verbose",  "trace",    NULL};
    for (int k = 1; k < words; k++) {
        size_t n = strcspn(all[k], "=");
        int i = 0;
        while (known[i] && (strlen(known[i]) != n || strncmp(known[i], all[k], n))) i++;
        if (known[i]) continue;
        fprintf(stderr, "plan: no such word: %s (they stand at the head of bench/planner/plan.c)\n", all[k]);
        exit(2);
    }
}

static Options options_of_words(void)
{
    static const char *const strategies[] = {"dual", "primal-dual", "changed", NULL};
    static const char *const searches[] = {"tested", "least", NULL}, *const corrections[] = {"step", "whole", NULL};
    static const char *const barriers[] = {"clarabel", "path", "none", NULL};
    SpindleSettings house = spindle_house_settings(1);
    return (Options){.tolerance = number("tol", "1e-6"),
                     .shrink = has("shrink") ? number("shrink", "") : house.step,
                     .smallest = has("smallest") ? number("smallest", "") : house.smallest,
                     .rounds = (int)number("rounds", "60"),
                     .strategy = choice("strategy", strategies),
                     .search = choice("search", searches),
                     .whole = choice("correction", corrections),
                     .barrier = choice("barrier", barriers),
                     .margins = has("margins"),
                     .verbose = has("verbose")};
}

/* One plan of a family, shown; with trace=PREFIX every search is kept, too. */
static Outcome one_plan(const char *family, int seed, Options o)
{
    static Keeper keeper;
    int runs = (int)number("runs", "5");
    Plan plan = make((int)number("machines", "600"), (int)number("hosts", "48"), (int)number("delays", "240"), (int)number("gangs", "12"),
                     family, seed);
    Problem problem = problem_of(&plan);
    if (has("trace")) {
        memset(&keeper, 0, sizeof keeper);
        snprintf(keeper.prefix, sizeof keeper.prefix, "%s-%s-%d", word("trace", ""), family, seed);
        o.searched = keep;
        o.to = &keeper;
        runs = 1;
    }
    Outcome r = fastest(&problem, o, runs);
    show(family, seed, &plan, &problem, &r, o.margins);
    if (has("trace")) {
        seal(&keeper);
        fprintf(stderr, "%s: %ld searches in %d files, %ld bytes, recorded in %.0f ms\n", keeper.prefix, keeper.searches, keeper.files,
                keeper.bytes, 1e3 * keeper.seconds);
    }
    free_problem(&problem);
    free_plan(&plan);
    return r;
}

int main(int count, char **list)
{
    static const char *const families[] = {"log", "power", "general"};
    words = count;
    all = list;
    judge_words();
    Options o = options_of_words();
    bool every = !has("log") && !has("power") && !has("general"), good = true, shown[3] = {false};
    int first = (int)number("seed", "1"), seeds = (int)number("seeds", "1");
    int cuts = 0;
    double off_path = 0;
    Outcome last[3];

    printf("| Family | seed | cones | end | rounds | tests of a cone | ms | in the library | outside | used parts that are a yes | gap | "
           "margin's floor "
           "| conditions within |%s\n",
           o.margins ? " undecided, of trials |" : "");
    printf("|---|---|---|---|---|---|---|---|---|---|---|---|---|%s\n", o.margins ? "---|" : "");
    for (int f = 0; f < 3; f++) {
        for (int seed = first; seed < first + seeds && (every || has(families[f])); seed++) {
            if (shown[f]) free_outcome(last + f);
            last[f] = one_plan(families[f], seed, o);
            good = good && last[f].solved && last[f].yes == last[f].used;
            cuts += last[f].cuts;
            off_path = fmax(off_path, last[f].off_path);
            shown[f] = true;
        }
    }
    printf("\n| ms, last seed | update_scaling | get_hs | mul_hs | combined_ds_shift | searches | compute_barrier | factorising | solving "
           "| ordering, once | rows of the system, entries of L |\n|---|---|---|---|---|---|---|---|---|---|---|\n");
    for (int f = 0; f < 3; f++) {
        if (shown[f]) show_times(families[f], last + f);
    }
    printf("\nSteps cut in all: %d. Barriers' sum above the path's, at most: %.1f.\n", cuts, off_path);
    return good ? 0 : 1;
}
