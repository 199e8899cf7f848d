/* A circle of 36 agents, each of which wants to cross to the other side, with two walls in the middle. Prints
 * the transcript of the run, as `crowd run` does.
 *
 *     circle                 the run by the defaults: version 1 of scenarios
 *     circle fine            weights of 1 to 16 and the finer ring: version 2
 *     circle scenario ..     the scenario alone
 *
 * With WITHOUT_MALLOC it is built over libcrowd_arena.a, and its steps call no malloc.
 */
#include "crowd.h"

#ifdef WITHOUT_MALLOC
#include "arena.h"
#endif

#include <math.h>
#include <stdio.h>
#include <string.h>

enum { AGENTS = 36, WALLS = 2, STEPS = 100 };

static const CrowdSegment walls[WALLS] = {{-900, -600, 900, -600}, {-900, 600, 900, 900}};
#ifdef WITHOUT_MALLOC
static _Alignas(16) unsigned char memory[128 * 1024];
#endif

static const char *const marks[] = {"start", "feasible", "fallback", "stopped", "crowded"};

static CrowdAgent agent_of(int k, int fine)
{
    const double angle = 2 * acos(-1.0) * k / AGENTS;
    CrowdAgent agent = {0};
    agent.x = (int32_t)lround(12000 * cos(angle));
    agent.y = (int32_t)lround(12000 * sin(angle));
    agent.pref_x = (int32_t)lround(-350 * cos(angle));
    agent.pref_y = (int32_t)lround(-350 * sin(angle));
    agent.radius = 500;
    agent.speed = 400;
    agent.range = 15000;
    agent.most = 10;
    agent.horizon = 10;
    agent.wall_horizon = 4;
    agent.weight = fine ? 1 + k % 16 : 0;
    return agent;
}

static void print_scenario(const CrowdAgent *agents, int fine)
{
    printf("crowd,%d\nsteps,%d\n%s", fine ? 2 : 1, STEPS, fine ? "ring,60\n" : "");
    for (int k = 0; k < AGENTS; k++) {
        const CrowdAgent *a = &agents[k];
        printf("agent,%d,%d,%d,%d,%d,%d,%u,%u,%u,%u,%u,%u", a->x, a->y, a->vel_x, a->vel_y, a->pref_x, a->pref_y,
               a->radius, a->speed, a->range, a->most, a->horizon, a->wall_horizon);
        if (fine)
            printf(",%u", a->weight);
        printf("\n");
    }
    for (int k = 0; k < WALLS; k++)
        printf("segment,%d,%d,%d,%d\n", walls[k].ax, walls[k].ay, walls[k].bx, walls[k].by);
}

static void print_frame(const CrowdAgent *agents, int number)
{
    printf("frame,%d\n", number);
    for (int k = 0; k < AGENTS; k++) {
        const CrowdAgent *a = &agents[k];
        printf("body,%d,%d,%d,%d,%d,%d,%d,%s,%u\n", k, a->x, a->y, a->vel_x, a->vel_y, a->pref_x, a->pref_y,
               marks[a->mark], a->relief);
    }
}

int main(int argc, char **argv)
{
    const int fine = argc > 1 && strcmp(argv[argc - 1], "fine") == 0;
    const int scenario = argc > 1 && strcmp(argv[1], "scenario") == 0;
    CrowdAgent agents[AGENTS];
    CrowdFault fault;

    if (crowd_version() != CROWD_VERSION) {
        fprintf(stderr, "circle: crowd.h and the library are of different versions\n");
        return 1;
    }
#ifdef WITHOUT_MALLOC
    crowd_use_memory(memory, sizeof memory);
    if (sizeof memory < crowd_memory_size(AGENTS, WALLS))
        return 1;
#endif
    for (int k = 0; k < AGENTS; k++)
        agents[k] = agent_of(k, fine);
    print_scenario(agents, fine);
    if (scenario)
        return 0;
    print_frame(agents, 0);
    for (int number = 1; number <= STEPS; number++) {
        /* A game would set pref_x and pref_y here. */
        if (crowd_step(agents, AGENTS, walls, WALLS, fine ? CROWD_FINE_RING : CROWD_DEFAULT_RING, &fault) != CROWD_DONE) {
            fprintf(stderr, "circle: cause %u, agent %u, field %u, segment %u\n", fault.cause, fault.agent, fault.field,
                    fault.segment);
            return 1;
        }
        print_frame(agents, number);
    }
    printf("end,%d\n", STEPS);
    return 0;
}
