/* A step with every size of memory up to one that is enough, over libcrowd_arena.a: where it is too little, each call
 * answers CROWD_NO_MEMORY and changes nothing, whichever of its demands for memory is the one that fails. Ends with 0
 * where all is well. It is no part of the gate. */
#include "arena.h"
#include "crowd.h"

#include <stdio.h>
#include <string.h>

enum { AGENTS = 20, WALLS = 3, FIRST = 5, PART = 10 };

static _Alignas(16) unsigned char memory[64 * 1024];
static const CrowdSegment walls[WALLS] = {{-9000, -9000, 9000, -9000}, {-9000, 9000, 9000, 9000}, {-9000, -9000, -9000, 9000}};

int main(void)
{
    CrowdAgent before[AGENTS], agents[AGENTS], none[PART], part[PART];
    unsigned long refused = 0, done = 0, wrong = 0;

    memset(before, 0, sizeof before);
    memset(none, 7, sizeof none);
    for (int k = 0; k < AGENTS; k++) {
        before[k].x = k % 5 * 1500;
        before[k].y = k / 5 * 1500;
        before[k].pref_x = 100;
        before[k].radius = 500;
        before[k].speed = 300;
        before[k].range = 15000;
        before[k].most = 10;
        before[k].horizon = 20;
        before[k].wall_horizon = 5;
    }
    for (size_t size = 0; size <= sizeof memory; size += 16) {
        CrowdFault fault = {9, 9, 9, 9};
        memcpy(agents, before, sizeof agents);
        memcpy(part, none, sizeof part);
        crowd_use_memory(memory, size);
        const uint32_t status = crowd_step(agents, AGENTS, walls, WALLS, CROWD_FINE_RING, &fault);
        const uint32_t other = crowd_step_part(before, AGENTS, walls, WALLS, CROWD_FINE_RING, FIRST, part, PART, &fault);
        const int same = memcmp(agents, before, sizeof agents) == 0 && memcmp(part, none, sizeof part) == 0;
        refused += status == CROWD_NO_MEMORY;
        done += status == CROWD_DONE;
        wrong += status != other || fault.cause != 9 || status == CROWD_REFUSED || same != (status == CROWD_NO_MEMORY);
        wrong += status == CROWD_DONE && memcmp(part, agents + FIRST, sizeof part) != 0;
    }
    printf("%lu sizes are too little, %lu are enough; wrong %lu\n", refused, done, wrong);
    return wrong != 0 || refused == 0 || done == 0;
}
