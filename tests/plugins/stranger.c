/* A plug-in that knows nothing of Vornulica and has functions of the same names. */
#include "../install/answers.h"

/* As many numbers as the longest call takes, all 0 here, so that a call that is led astray is a plain refusal there. */
#define FUNCTION(name, answer) \
    long name(long a, long b, long c, long d, long e, long f) { return answer + a + b + c + d + e + f; }
#define WRONG(name, answer) (name(0, 0, 0, 0, 0, 0) != answer)

FUNCTION(rig_open, 101)
FUNCTION(rig_take, 102)
FUNCTION(rig_ask, 103)
FUNCTION(rig_write, 104)
FUNCTION(rig_house, 105)
FUNCTION(rig_read_term, 106)
FUNCTION(rig_write_term, 107)

int wrong_answers(void)
{
    return WRONG(rig_open, 101) + WRONG(rig_take, 102) + WRONG(rig_ask, 103) + WRONG(rig_write, 104) +
           WRONG(rig_house, 105) + WRONG(rig_read_term, 106) + WRONG(rig_write_term, 107);
}
