// A planner in C++ over an installed library: one step for two cones.
#include <cstdio>
#include <spindle.h>

int main()
{
    if (spindle_version() < SPINDLE_VERSION_NUMBER) return 1;
    SpindleCone cones[2] = {};
    cones[0].kind = SPINDLE_EXPONENTIAL;
    cones[0].rule = SPINDLE_RULE_2;
    cones[1].kind = SPINDLE_POWER;
    cones[1].rule = SPINDLE_RULE_2;
    cones[1].exps[0] = 0.5;
    const double q[6] = {-1, 1, 1, 1, 1, 0}, dq[6] = {0, 0, 0, 0, 0, 4};
    double point[6];
    SpindleFound found = spindle_common_step(cones, 2, true, dq, 6, q, 6, point, 6, spindle_house_settings(1.0));
    if (found.code) {
        std::fprintf(stderr, "refused: %s\n", spindle_meaning(found.code));
        return 1;
    }
    std::printf("step %g after %u tests of a cone\n", found.step, static_cast<unsigned>(found.count));
}
