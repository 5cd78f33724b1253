/* The last records of a case, aimed at one of document 01's numbers. */
#ifndef AIMS_H
#define AIMS_H

#include "draft.h"

enum aim {
    AIM_CLEAN,      /* 0 */
    AIM_ZERO_BIT,   /* 10 */
    AIM_CKE,        /* 11 */
    AIM_LATE,       /* 12 or 13 */
    AIM_START_UP,   /* 14: start-up stops half way */
    AIM_BANK,       /* 15 */
    AIM_MINIMUM,    /* 16 */
    AIM_MODE,       /* 17 or 18 */
    AIM_UNFINISHED, /* 19 */
    AIM_BUS,        /* 20 */
    AIM_FULL_PAGE,  /* 21 */
    AIM_AUTO_LATE,  /* 22 */
    AIM_ANY,        /* whatever a random record gets */
    AIMS
};

/* Adds the records. An aim that the trace so far or its table puts out of reach
 * ends in some other number or clean. */
void take_aim(struct making *m, enum aim aim);

#endif
