/* A call as it is tried: everything lent, called, held, counted. */
#ifndef TRY_H
#define TRY_H

#include "hold.h"

/* What the call left stays readable in the lent columns until the next call.  The answer is the refusal's number. */
uint32_t try_read(const struct read_call *call, struct read_lent *lent);
uint32_t try_build(const struct build_call *call, struct build_lent *lent);
uint32_t try_judge(const struct judge_call *call);

#endif
