/* crowd.h: one step of a crowd whose steered discs provably stay apart, over the caller's own arrays.
 *
 * Agents in, agents out. The library keeps nothing from one call to the next, so agents and segments may come,
 * change and go between calls:
 *
 *     for (;;) {
 *         set pref_x and pref_y of each agent;                        // where it wants to go
 *         crowd_step(agents, count, walls, wall_count, 0, &fault);
 *         read x, y, vel_x and vel_y of each agent;                   // where it is now
 *     }
 *
 * All numbers are whole. One unit is what you say, as a millimetre, and one step is what you say, as a tenth of
 * a second; a velocity is units per step, a horizon steps.
 *
 * For every call whose pointers are good it is proved:
 *  - With CROWD_DONE each agent has moved to its place in the next frame, by the plain definition that the
 *    program `crowd` prints too, and of it only x, y, vel_x, vel_y, mark and relief changed. What came out can
 *    be handed in again, unless an agent has left the limits of positions.
 *  - No disc cuts a segment at any moment of the step, whatever its mark. No velocity is longer than its agent's
 *    speed. Two discs that were apart, both marked CROWD_FEASIBLE, stay apart throughout the step; two that
 *    overlapped, both marked CROWD_FEASIBLE, are apart at its end.
 *  - Equal arrays make equal steps, and parts of a step make the step.
 *  - With any other status no agent changed. CROWD_REFUSED comes exactly where the arrays break a limit that is
 *    named below, or where a disc cuts a segment; the fault has the first cause.
 *  - The call returns, and no arithmetic in it leaves its range, for all values of all fields.
 *
 * The caller owes, and nothing checks it:
 *  - Each pointer is not null (also where its count is 0: pass any address), is aligned for its type, and has as
 *    many items as its count says, all of them initialised.
 *  - What is written (agents or moved, and fault) overlaps nothing else that is handed in, and no other thread
 *    touches it during the call. What is only read, other threads may read too.
 *  - malloc, realloc and free are of one allocator, which aligns to 16 bytes.
 *  - No call from a signal handler.
 */
#ifndef CROWD_H
#define CROWD_H

#include <stddef.h>
#include <stdint.h>

#ifdef __cplusplus
extern "C" {
#endif

/* The version of the structs: that of the scenarios whose fields they have. */
#define CROWD_VERSION 2u

#define CROWD_MOST_AGENTS 10000u
#define CROWD_MOST_SEGMENTS 2000u
#define CROWD_GREATEST_COORDINATE 4194304 /* of a position or of a segment's end, in size */
#define CROWD_GREATEST_SPEED 16384        /* also of a velocity's coordinate, in size */

/* What a call answers. */
enum {
    CROWD_DONE = 0,      /* the agents moved */
    CROWD_NO_MEMORY = 1, /* memory ran out; nothing changed */
    CROWD_REFUSED = 3    /* nothing changed but the fault, which says why */
};

/* The points of the ring that speed polygons are made of. */
enum {
    CROWD_DEFAULT_RING = 0, /* the plain one */
    CROWD_PLAIN_RING = 36,
    CROWD_FINE_RING = 60
};

/* How an agent's velocity came about. */
enum {
    CROWD_START = 0,    /* it is the caller's own */
    CROWD_FEASIBLE = 1, /* it met every half-plane */
    CROWD_FALLBACK = 2, /* its neighbours left no room: it gave way as little as it could */
    CROWD_STOPPED = 3,  /* walls left no room: it stands still */
    CROWD_CROWDED = 4   /* it has more near agents than it may consider */
};

/* A disc that moves on its own: 15 numbers of 32 bits, 60 bytes, no gaps. The fields are numbered from 0. An
 * agent whose weight is 0 has the default weight, 1; with that and the plain ring it moves as in version 1. */
typedef struct CrowdAgent {
    int32_t x, y;           /*  0, 1: its centre in units, each at most 4,194,304 in size */
    int32_t vel_x, vel_y;   /*  2, 3: its velocity in units per step, each at most 16,384 in size */
    int32_t pref_x, pref_y; /*  4, 5: its preferred velocity, each at most 16,384 in size */
    uint32_t radius;        /*  6: in units, 1 to 32,768 */
    uint32_t speed;         /*  7: the greatest speed in units per step, 0 to 16,384 */
    uint32_t range;         /*  8: only agents nearer than this can be neighbours, in units, 0 to 65,536 */
    uint32_t most;          /*  9: the most neighbours that it considers, 0 to 64 */
    uint32_t horizon;       /* 10: the time horizon for agents in steps, 1 to 4,096 */
    uint32_t wall_horizon;  /* 11: the time horizon for segments in steps, 1 to 4,096 */
    uint32_t weight;        /* 12: 1 to 16, or 0 for 1: of what a pair has to make up, the heavier makes up more */
    uint32_t mark;          /* 13, out: how its velocity came about */
    uint32_t relief;        /* 14, out: by how much its neighbours' half-planes were relieved, below 2^18 */
} CrowdAgent;

/* A wall with two sides, from a to b: 4 numbers of 32 bits, 16 bytes, no gaps, each at most 4,194,304 in size.
 * b may be a. */
typedef struct CrowdSegment {
    int32_t ax, ay; /* 0, 1 */
    int32_t bx, by; /* 2, 3 */
} CrowdSegment;

/* Why a call was refused, by the number of the first cause; all but CROWD_NO_SUCH_PART, which is tried first,
 * are tried in this order. Behind each stands which fields of the fault it sets; the others are 0. */
enum {
    CROWD_NO_SUCH_RING = 1,         /* the ring is none of 0, 36 and 60 */
    CROWD_TOO_MANY_AGENTS = 2,      /* more than 10,000 */
    CROWD_AGENT_OUT_OF_RANGE = 3,   /* agent, field: the least such agent, and its least such field */
    CROWD_TOO_MANY_SEGMENTS = 4,    /* more than 2,000 */
    CROWD_SEGMENT_OUT_OF_RANGE = 5, /* segment, field: the least such segment, and its least such field */
    CROWD_AGENT_ON_SEGMENT = 6,     /* agent, segment: the least agent that cuts one, and the least that it cuts */
    CROWD_NO_SUCH_PART = 7          /* of crowd_step_part alone: there are no such agents */
};

typedef struct CrowdFault {
    uint32_t cause;
    uint32_t agent;
    uint32_t field;
    uint32_t segment;
} CrowdFault;

/* The CROWD_VERSION that the library was built for. */
uint32_t crowd_version(void);

/* Makes of the agents the next frame, in place. */
uint32_t crowd_step(CrowdAgent *agents, size_t agent_count,
                    const CrowdSegment *segments, size_t segment_count,
                    uint32_t ring, CrowdFault *fault);

/* Makes a part of the step: the agents from number `first` on, `moved_count` of them, into places of their own,
 * each as crowd_step would move it. `agents` is only read, so threads of yours may make one step side by side,
 * each with a `first`, a `moved` and a `fault` of its own; copy the parts back when all have returned. Each call
 * checks the arrays and makes its index anew, so take no more parts than there are processors. */
uint32_t crowd_step_part(const CrowdAgent *agents, size_t agent_count,
                         const CrowdSegment *segments, size_t segment_count,
                         uint32_t ring, size_t first,
                         CrowdAgent *moved, size_t moved_count, CrowdFault *fault);

#ifdef __cplusplus
}
#define CROWD_ASSERT static_assert
#elif defined(__STDC_VERSION__) && __STDC_VERSION__ >= 201112L
#define CROWD_ASSERT _Static_assert
#endif
#ifdef CROWD_ASSERT
CROWD_ASSERT(sizeof(CrowdAgent) == 60 && sizeof(CrowdSegment) == 16 && sizeof(CrowdFault) == 16,
             "the layout that the library was built for");
#undef CROWD_ASSERT
#endif

#endif
