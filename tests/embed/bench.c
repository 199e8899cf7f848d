/* How long a step takes:
 *
 *     crowd sample --number 7 --agents 4000 --steps 1 | bench STEPS
 *
 * Prints milliseconds a step: by crowd_step, of processor time, and in parts by 1 to 4 threads, of the clock on the
 * wall. It is no part of the gate. */
#define _POSIX_C_SOURCE 200809L
#include "crowd.h"

#include <pthread.h>
#include <stdio.h>
#include <stdlib.h>
#include <string.h>
#include <time.h>

enum { MOST_THREADS = 4 };

static CrowdAgent start[CROWD_MOST_AGENTS], agents[CROWD_MOST_AGENTS], moved[CROWD_MOST_AGENTS], alone[CROWD_MOST_AGENTS];
static CrowdSegment walls[CROWD_MOST_SEGMENTS];
static size_t agent_count, wall_count, threads;

static double now(clockid_t clock)
{
    struct timespec t;
    clock_gettime(clock, &t);
    return (double)t.tv_sec * 1e3 + (double)t.tv_nsec * 1e-6;
}

static void read_scenario(void)
{
    char line[512];
    while (fgets(line, sizeof line, stdin) != NULL) {
        CrowdAgent a = {0};
        CrowdSegment s;
        if (sscanf(line, "agent,%d,%d,%d,%d,%d,%d,%u,%u,%u,%u,%u,%u,%u", &a.x, &a.y, &a.vel_x, &a.vel_y, &a.pref_x, &a.pref_y, &a.radius,
                   &a.speed, &a.range, &a.most, &a.horizon, &a.wall_horizon, &a.weight) >= 12)
            start[agent_count++] = a;
        else if (sscanf(line, "segment,%d,%d,%d,%d", &s.ax, &s.ay, &s.bx, &s.by) == 4)
            walls[wall_count++] = s;
    }
}

static void *make_part(void *number)
{
    const size_t k = (size_t)number, first = agent_count * k / threads, end = agent_count * (k + 1) / threads;
    CrowdFault fault;
    return (void *)(size_t)crowd_step_part(agents, agent_count, walls, wall_count, 0, first, moved + first, end - first, &fault);
}

static void step_together(void)
{
    pthread_t made[MOST_THREADS];
    void *status;
    for (size_t k = 1; k < threads; k++)
        if (pthread_create(&made[k], NULL, make_part, (void *)k) != 0)
            exit(2);
    if (make_part((void *)0) != NULL)
        exit(2);
    for (size_t k = 1; k < threads; k++)
        if (pthread_join(made[k], &status) != 0 || status != NULL)
            exit(2);
    memcpy(agents, moved, agent_count * sizeof *agents);
}

int main(int argc, char **argv)
{
    const int steps = argc > 1 ? atoi(argv[1]) : 50;
    CrowdFault fault;

    read_scenario();
    memcpy(alone, start, sizeof start);
    double began = now(CLOCK_PROCESS_CPUTIME_ID);
    for (int step = 0; step < steps; step++)
        if (crowd_step(alone, agent_count, walls, wall_count, 0, &fault) != CROWD_DONE)
            return 2;
    printf("%zu agents, %zu segments: %.2f ms", agent_count, wall_count, (now(CLOCK_PROCESS_CPUTIME_ID) - began) / steps);
    for (threads = 1; threads <= MOST_THREADS; threads++) {
        memcpy(agents, start, sizeof start);
        began = now(CLOCK_MONOTONIC);
        for (int step = 0; step < steps; step++)
            step_together();
        printf("; %zu parts %.2f%s", threads, (now(CLOCK_MONOTONIC) - began) / steps, memcmp(agents, alone, agent_count * sizeof *agents) ? " DIFFERENT" : "");
    }
    printf("\n");
    return 0;
}
