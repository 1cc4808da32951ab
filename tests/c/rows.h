// The words of rows: the case, and trees of 2 and 3 samples.
#pragma once
#include "trials.h"

// The case: three runs of 5 samples, what two of them hold, and what all of them hold.
#define RUN_1 8, 7, 7, 6, 5, 5, ROOT, 5, 6, 0
#define RUN_2 8, 6, 6, 6, 7, 7, ROOT, 5, 5, 0
#define RUN_2_OTHERWISE 8, 7, 7, 7, 6, 6, ROOT, 5, 5, 0
#define RUN_3 9, 7, 7, 5, 8, 8, ROOT, 5, 6, 6
#define AGREED 9, 7, 7, 6, 8, 8, ROOT, 5, 6, 5
#define SUPPORT 3, 3, 3, 3, 3, 3, 3, 2, 2, 2
#define AGREED_BY_ALL 6, 5, 5, 5, 5, 5, ROOT, 0, 0, 0
#define SUPPORT_BY_ALL 3, 3, 3, 3, 3, 3, 3, 0, 0, 0

// Of 2 and of 3 samples: the only tree of 2; with the group {0,1}, the same in another numbering, with {0,2}, with neither; and one
// whose node 4 has no child.
#define ONLY_OF_2 3, 2, 2, ROOT
#define WITH_01 5, 4, 4, 3, ROOT, 3
#define WITH_01_OTHERWISE 5, 3, 3, 4, 4, ROOT
#define WITH_02 5, 4, 3, 4, ROOT, 3
#define BARE_3 4, 3, 3, 3, ROOT, 0
#define NO_CHILD 5, 3, 3, 3, ROOT, 3

// Single branches (RULES 10.15): node 4 above sample 0, and a chain at the root; of 4 samples a chain above {0,1}, and the same tree without.
#define BRANCH_0 5, 4, 3, 3, ROOT, 3
#define CHAIN_ROOT 5, 4, 4, 4, ROOT, 3
#define CHAIN_01 7, 6, 6, 4, 4, ROOT, 4, 5
#define WITH_01_OF_4 6, 5, 5, 4, 4, ROOT, 4, 0
