/* SPDX-License-Identifier: MPL-2.0 */
/* Holding every subject to the same answers. */
#ifndef BENCH_HOLD_H
#define BENCH_HOLD_H

#include "subject.h"

/* Ends the process with a message where a subject gives another answer than the published one or than the first subject's; else answers
   how many answers were alike. */
long hold(const struct subject *subjects, int n);

#endif
