/* The inline functions of include/spindle.h over a cone, held to the library's answers. See run.

       cone CONES

   Exit status 1: something did not hold. */
#include "../check.h"
#include <math.h>
#include <stdlib.h>

static SpindleCone power(double exponent) { return (SpindleCone){.kind = SPINDLE_POWER, .rule = SPINDLE_RULE_2, .exps = {exponent}}; }

static SpindleCone generalized(uint32_t rule, uint32_t dim1, uint32_t dim2, double first, double others)
{
    SpindleCone cone = {.kind = SPINDLE_GENERALIZED, .dim1 = dim1, .dim2 = dim2, .rule = rule, .exps = {first}};
    for (uint32_t i = 1; i < dim1 && i < 32; i++) cone.exps[i] = others;
    return cone;
}

/* ---- the sentences */

static void says(SpindleCone cone, const char *words)
{
    SpindleTrouble trouble = spindle_cone_trouble(cone);
    checks++;
    if (strcmp(trouble.text, words) != 0 && failures++ < 10) printf("FAILED \"%s\" in the place of \"%s\"\n", trouble.text, words);
    expect((spindle_fresh(cone).code == SPINDLE_BAD_CONE) == (words[0] != 0), words);
}

static void sentences(void)
{
    SpindleCone cone = {.kind = SPINDLE_EXPONENTIAL, .rule = SPINDLE_RULE_1};
    says(cone, "");
    says((SpindleCone){.kind = SPINDLE_EXPONENTIAL}, "rule is 0: name SPINDLE_RULE_1 or SPINDLE_RULE_2");
    cone.rule = UINT32_MAX;
    says(cone, "rule is 4294967295: name SPINDLE_RULE_1 or SPINDLE_RULE_2");
    cone.kind = 0;
    says(cone, "kind is 0: name SPINDLE_EXPONENTIAL, SPINDLE_POWER or SPINDLE_GENERALIZED");
    cone.kind = UINT32_MAX;
    says(cone, "kind is 4294967295: name SPINDLE_EXPONENTIAL, SPINDLE_POWER or SPINDLE_GENERALIZED");
    says(power(0.3), "");
    says(power(0), "exps[0] is 0: a power cone's exponent is above 0 and below 1");
    says(power(1), "exps[0] is 1: a power cone's exponent is above 0 and below 1");
    says(power(NAN), "exps[0] is nan: a power cone's exponent is above 0 and below 1");
    says(power(-INFINITY), "exps[0] is -inf: a power cone's exponent is above 0 and below 1");
    says(power(1 + 0x1p-52), "exps[0] is 1.0000000000000002: a power cone's exponent is above 0 and below 1");
    says(generalized(2, 2, 1, 0.3, 0.7), "");
    says(generalized(2, 0, 1, 0.3, 0.7), "dim1 is 0: it is 1 to 32");
    says(generalized(2, 33, 1, 0.03125, 0.03125), "dim1 is 33: it is 1 to 32");
    says(generalized(2, 2, 0, 0.3, 0.7), "dim2 is 0: it is 1 to 32");
    says(generalized(2, 2, UINT32_MAX, 0.3, 0.7), "dim2 is 4294967295: it is 1 to 32");
    says(generalized(2, 2, 1, 0.3, 0), "exps[1] is 0: an exponent is above 0 and at most 1");
    says(generalized(2, 2, 1, 1.5, -0.5), "exps[0] is 1.5: an exponent is above 0 and at most 1");
    says(generalized(2, 2, 1, 0.3, 0.3), "the exponents sum to 0.6: rule 2 takes 1 within 2^-50");
    says(generalized(1, 32, 1, 1, 1), "the exponents sum to 32: rule 1 takes 1 within 2^-40");
    says(generalized(1, 2, 1, 0.5, 0.5 + 0x1p-45), "");
    says(generalized(2, 2, 1, 0.5, 0.5 + 0x1p-45), "the exponents sum to 1.0000000000000284: rule 2 takes 1 within 2^-50");

    SpindleTrouble first = spindle_cone_trouble(power(0)), second = spindle_cone_trouble(power(1));
    expect(strcmp(first.text, second.text) != 0, "two sentences are kept side by side");
}

/* ---- a sentence exactly where spindle_fresh gives 1 */

static double some_exponent(void)
{
    static const double borders[] = {0,         -0.0, 1,  1 + 0x1p-52, 1 - 0x1p-53, 0x1p-1074, -0x1p-1074,
                                     0x1p-1022, 2,    -1, NAN,         INFINITY,    -INFINITY};
    switch (below(6)) {
    case 0: return borders[below(sizeof borders / sizeof *borders)];
    case 1: return double_of(any());
    default: return between(0, 1);
    }
}

/* Exponents whose sum, added left to right, is near 1, at a tolerance of either rule or a place beside it; 32 quotients have rounding errors of their own. */
static void near_one(SpindleCone *cone)
{
    static const double off[] = {0,       0x1p-53, 0x1p-52, 0x1p-51, 0x1p-50,     0x1.4p-50,
                                 0x1p-49, 0x1p-45, 0x1p-41, 0x1p-40, 0x1.001p-40, 0x1p-39};
    double left = 1;
    for (uint32_t i = 0; i + 1 < cone->dim1; i++) {
        cone->exps[i] = left * between(0.05, 0.6);
        left -= cone->exps[i];
    }
    cone->exps[cone->dim1 - 1] = left + (below(2) ? 1 : -1) * off[below(sizeof off / sizeof *off)];
}

static SpindleCone some_cone(void)
{
    SpindleCone cone = {.kind = 1 + below(3), .dim1 = 1 + below(32), .dim2 = 1 + below(32), .rule = 1 + below(2)};
    for (int i = 0; i < 32; i++) cone.exps[i] = some_exponent();
    if (cone.kind == SPINDLE_GENERALIZED && below(4)) near_one(&cone);
    switch (below(16)) {
    case 0: cone.kind = below(2) ? below(6) : (uint32_t)any(); break;
    case 1: cone.rule = below(2) ? below(5) : (uint32_t)any(); break;
    case 2: cone.dim1 = below(2) ? below(36) : (uint32_t)any(); break;
    case 3: cone.dim2 = below(2) ? below(36) : (uint32_t)any(); break;
    default: break;
    }
    return cone;
}

/* ---- length and degree of a cone that is taken */

/* At a point z of the dual cone the dual barrier's gradient has <gradient, z> = -degree, whatever z is. */
static int has_degree(SpindleCone cone, const double *z, size_t n)
{
    SpindleDualGrad dual = spindle_dual_grad_h(cone, z, n);
    const double *gradient = cone.kind == SPINDLE_GENERALIZED ? dual.wide.grad : dual.three.grad;
    double product = 0;
    for (size_t i = 0; i < n; i++) product += gradient[i] * z[i];
    return dual.code == 0 && fabs(product + (double)spindle_degree(cone)) < 1e-9;
}

static void taken(SpindleCone cone)
{
    double z[66], s[66];
    size_t n = spindle_length(cone);
    expect(spindle_unit_initialization(cone, z, n + 1, s, n) == SPINDLE_BAD_LENGTH, "a number more than the length is refused");
    expect(spindle_unit_initialization(cone, z, n, s, n) == SPINDLE_DONE, "the length is the starting points'");
    /* an exponent next to 0 or 1 leaves the gradient too few digits, or no value */
    uint32_t exponents = cone.kind == SPINDLE_GENERALIZED ? cone.dim1 : cone.kind == SPINDLE_POWER;
    for (uint32_t i = 0; i < exponents; i++)
        if (cone.exps[i] < 1e-6 || (cone.kind == SPINDLE_POWER && cone.exps[i] > 1 - 1e-6)) return;
    expect(has_degree(cone, z, n), "the degree is the dual gradient's");
}

int main(int count, char **words)
{
    long cones = count == 2 ? atol(words[1]) : 0, bad = 0, sums = 0;
    if (cones < 1) {
        fprintf(stderr, "cone: it takes a number of cones\n");
        return 2;
    }
    sentences();
    for (long i = 0; i < cones; i++) {
        SpindleCone cone = some_cone();
        SpindleTrouble trouble = spindle_cone_trouble(cone);
        uint32_t code = spindle_fresh(cone).code;
        expect((trouble.text[0] != 0) == (code == SPINDLE_BAD_CONE), "a sentence exactly where spindle_fresh gives 1");
        expect(strlen(trouble.text) + 1 < sizeof trouble.text, "the sentence is whole");
        bad += code != 0;
        sums += strncmp(trouble.text, "the exponents sum", 17) == 0;
        if (code == 0) taken(cone);
    }
    printf("cone: %ld cones, %ld of them bad, %ld by their sum; %ld checks%s\n", cones, bad, sums, checks, failures ? ": FAILED" : "");
    return failures != 0;
}
