/* One call of the port through spindle.h, the guard around the Rust text, and what the harness takes from the C library. */
#include "port.h"
#include <math.h>
#include <stdio.h>
#include <stdlib.h>
#include <string.h>
#include <time.h>

#define IN(i) (call->slices[i].room + BEFORE), (size_t)call->slices[i].len

/* The root by each of its names. Where their bits differ, or the second has a count that none can have, the answer is one that no root has. */
static double root_by_each_name(double x)
{
    double root = spindle_sqrt(x), plain = spindle_plain_sqrt(x);
    SpindleRoot table = spindle_table_sqrt(x);
    bool stepped = x > 0 && x < __builtin_inf();
    bool counted = stepped ? table.steps == 4 || table.steps == 5 : table.steps == 0;
    return counted && !memcmp(&root, &plain, sizeof root) && !memcmp(&root, &table.root, sizeof root) ? root : -1;
}

/* A call that reads the record, by value or where it lies. */
#define OVER(name, ...) (in_place ? name##_in_place(&call->record, __VA_ARGS__) : name(call->record, __VA_ARGS__))

void oracle_port(Call *call, Reply *reply, uint32_t in_place)
{
    SpindleCone cone = call->record.cone;
    SpindleSettings settings = {call->numbers[0], call->numbers[1], call->numbers[2]};
    switch (call->entry) {
    case 0: {
        SpindleUpdated r = spindle_fresh(cone);
        reply->code = r.code;
        reply->record = r.record;
        break;
    }
    case 1: {
        SpindleVerdict r = spindle_is_primal_feasible(cone, IN(0));
        reply->code = r.code;
        reply->answer = r.answer;
        break;
    }
    case 2: {
        SpindleVerdict r = spindle_is_dual_feasible(cone, IN(0));
        reply->code = r.code;
        reply->answer = r.answer;
        break;
    }
    case 3: {
        SpindleNumber r = spindle_barrier_dual(cone, IN(0));
        reply->code = r.code;
        reply->values[0] = r.value;
        break;
    }
    case 4: {
        SpindleDualGrad r = spindle_dual_grad_h(cone, IN(0));
        reply->code = r.code;
        reply->three = r.three;
        reply->wide = r.wide;
        break;
    }
    case 5: {
        SpindleSettings r = spindle_house_settings(call->numbers[0]);
        reply->values[0] = r.start;
        reply->values[1] = r.step;
        reply->values[2] = r.smallest;
        break;
    }
    case 6: {
        SpindleFound r = spindle_backtrack_search(cone, call->option == 1, IN(0), IN(1), IN(2), settings);
        reply->code = r.code;
        reply->counts[0] = r.count;
        reply->values[0] = r.step;
        break;
    }
    case 7: {
        SpindleSteps r = spindle_step_length(cone, IN(0), IN(1), IN(2), IN(3), IN(4), IN(5), settings);
        reply->code = r.code;
        reply->counts[0] = r.dual_count;
        reply->counts[1] = r.primal_count;
        reply->values[0] = r.dual_step;
        reply->values[1] = r.primal_step;
        break;
    }
    case 8: reply->code = spindle_unit_initialization(cone, IN(0), IN(1)); break;
    case 9: {
        SpindleYesNo r = spindle_rectify_equilibration(cone, IN(0), IN(1));
        reply->code = r.code;
        reply->answer = r.yes;
        break;
    }
    case 10: reply->code = spindle_affine_ds(cone, IN(0), IN(1)); break;
    case 11: reply->code = spindle_ds_from_dz_offset(cone, IN(0), IN(1), IN(2)); break;
    case 12: {
        SpindleUpdated r = {0, call->record};
        if (in_place)
            r.code = spindle_update_scaling_in_place(&r.record, IN(0), IN(1), call->numbers[0], call->option);
        else
            r = spindle_update_scaling(call->record, IN(0), IN(1), call->numbers[0], call->option);
        reply->code = r.code;
        reply->record = r.record;
        break;
    }
    case 13: {
        SpindleRounds r = OVER(spindle_gradient_primal, IN(0), IN(1));
        reply->code = r.code;
        reply->counts[0] = r.rounds;
        break;
    }
    case 14: {
        SpindleNumber r = OVER(spindle_barrier_primal, IN(0));
        reply->code = r.code;
        reply->values[0] = r.value;
        break;
    }
    case 15: {
        SpindleNumber r = OVER(spindle_compute_barrier, IN(0), IN(1), IN(2), IN(3), call->numbers[0]);
        reply->code = r.code;
        reply->values[0] = r.value;
        break;
    }
    case 16: reply->code = OVER(spindle_get_hs, call->option, IN(0)); break;
    case 17: reply->code = OVER(spindle_mul_hs, call->option, IN(0), IN(1)); break;
    case 18: reply->code = OVER(spindle_higher_correction, call->option, IN(0), IN(1), IN(2)); break;
    case 19: reply->code = OVER(spindle_combined_ds_shift, call->option, IN(0), IN(1), IN(2), call->numbers[0]); break;
    case 20: reply->values[0] = root_by_each_name(call->numbers[0]); break;
    case 21: reply->values[0] = spindle_log(call->numbers[0]); break;
    case 22: reply->values[0] = spindle_exp(call->numbers[0]); break;
    case 23: reply->values[0] = spindle_powf(call->numbers[0], call->numbers[1]); break;
    }
}

/* A plan's call, whose list and slices have no room in a Call: of one side as Order 10 of document 02 has it, or of both, the dual one first. */
typedef struct {
    const double *dq;
    uint64_t ndq;
    const double *q;
    uint64_t nq;
    double *point;
    uint64_t np;
} SideCall;

typedef struct {
    const SpindleCone *cones;
    uint64_t ncones;
    SideCall sides[2];
    SpindleSettings settings;
    uint32_t nsides, primal;
} PlanCall;

void oracle_plan(const PlanCall *call, SpindleFound *found)
{
    const SideCall *first = &call->sides[0], *second = &call->sides[1];
    if (call->nsides == 1)
        *found = spindle_common_step(call->cones, call->ncones, call->primal == 1, first->dq, first->ndq, first->q, first->nq, first->point,
                                     first->np, call->settings);
    else
        *found = spindle_plan_step(call->cones, call->ncones, first->dq, first->ndq, second->dq, second->ndq, first->q, first->nq,
                                   second->q, second->nq, first->point, first->np, second->point, second->np, call->settings);
}

/* A panic of the Rust text comes back to the guard around it; any other panic is a fault of the harness. */
static void *place[5];
static int guarded;

uint32_t oracle_guard(void (*f)(uint8_t *), uint8_t *arg)
{
    guarded = 1;
    if (__builtin_setjmp(place)) {
        guarded = 0;
        return 1;
    }
    f(arg);
    guarded = 0;
    return 0;
}

__attribute__((noreturn)) void oracle_panicked(const char *core_function)
{
    /* `panic!` and `assert!` of the text come by these two; an index out of range is none of the text's panics */
    if (guarded && (strstr(core_function, "9panicking9panic_fmt") || strstr(core_function, "9panicking5panic")))
        __builtin_longjmp(place, 1);
    printf("the harness panicked in %s\n", core_function);
    fflush(0);
    exit(3);
}

/* what is written out */
void say_text(const char *text, size_t length) { printf("%.*s", (int)length, text); }
void say_whole(uint64_t n) { printf("%llu", (unsigned long long)n); }
void say_double(double x) { printf("%.17g", x); }
void say_bits(uint64_t bits) { printf("%016llX", (unsigned long long)bits); }
void say_flush(void) { fflush(0); }

static FILE *written;
uint32_t file_open(const char *name)
{
    written = fopen(name, "wb");
    return written != 0;
}
void file_words(const uint64_t *words, size_t count) { fwrite(words, 8, count, written); }
void file_text(const char *text, size_t length) { fwrite(text, 1, length, written); }
uint32_t file_close(void) { return fclose(written) == 0; }

uint64_t seconds(void) { return (uint64_t)time(0); }

/* what a kernel is held to: the C library's functions; its root is the nearest double, the others err by less than a unit in the last place */
double near_sqrt(double x) { return sqrt(x); }
double near_log(double x) { return log(x); }
double near_exp(double x) { return exp(x); }

int oracle_main(int count, char **words);
int main(int count, char **words) { return oracle_main(count, words); }
