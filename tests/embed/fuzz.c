/* Random calls of the library against the program and against limits that are written anew here.
 *
 *     fuzz PROGRAM CALLS [SEED]        PROGRAM may be -, for the limits alone
 *
 * Each round makes a small crowd, now and then with numbers that are out of range, and steps it up to ten times.
 * The program reads the same crowd as a scenario of so many steps: what it prints or why it refuses must be what
 * the calls answered. Each call is made as a whole and as a part, and what isn't done must change nothing. Prints
 * how many calls there were of each kind, and ends with 0 where all agree. It is no part of the gate. */
#define _POSIX_C_SOURCE 200809L
#include "crowd.h"

#include <stdio.h>
#include <stdlib.h>
#include <string.h>
#include <unistd.h>

enum { MOST_AGENTS = 14, MOST_WALLS = 5, MOST_STEPS = 10, FIELDS = 15, LIMITED = 13 };

static const uint32_t least[LIMITED] = {0, 0, 0, 0, 0, 0, 1, 0, 0, 0, 1, 1, 0};
static const uint32_t most[LIMITED] = {4194304, 4194304, 16384, 16384, 16384, 16384, 32768, 16384, 65536, 64, 4096, 4096, 16};
static const char *const marks[] = {"start", "feasible", "fallback", "stopped", "crowded"};

typedef struct Crowd {
    CrowdAgent agents[MOST_AGENTS];
    CrowdSegment walls[MOST_WALLS];
    size_t agent_count, wall_count;
    uint32_t ring, steps;
} Crowd;

static uint64_t state;

/* xorshift64 */
static uint32_t any(void)
{
    state ^= state << 13;
    state ^= state >> 7;
    state ^= state << 17;
    return (uint32_t)(state >> 16);
}

static int32_t within(uint32_t size)
{
    return (int32_t)(any() % (2 * size + 1)) - (int32_t)size;
}

static uint32_t size_of(int32_t z)
{
    return z < 0 ? 0u - (uint32_t)z : (uint32_t)z;
}

/* A number of a field that is near its limits, on either side. */
static uint32_t odd_value(int field)
{
    const uint32_t at = any() % 2 ? most[field] : least[field];
    const uint32_t near = at + any() % 3 - 1;
    if (any() % 4 == 0)
        return any();
    return field < 6 && any() % 2 ? 0u - near : near;
}

static uint32_t some_value(int field, uint32_t span)
{
    switch (field) {
    case 0:
    case 1:
        return (uint32_t)within(span);
    case 2:
    case 3:
    case 4:
    case 5:
        return (uint32_t)within(any() % 3 ? 400 : 16384);
    case 6:
        return 1 + any() % (any() % 5 ? 700 : 32768);
    case 7:
        return any() % (any() % 5 ? 500 : 16385);
    case 8:
        return any() % (any() % 4 ? 20001 : 65537);
    case 9:
        return any() % (any() % 4 ? 12 : 65);
    case 10:
    case 11:
        return 1 + any() % (any() % 4 ? 40 : 4096);
    case 12:
        return any() % 17;
    default:
        return any();
    }
}

static void make_crowd(Crowd *crowd)
{
    const int wild = any() % 3 == 0;
    const uint32_t span = any() % 16 ? 1u << (9 + any() % 8) : 4194304u;

    crowd->agent_count = any() % (MOST_AGENTS + 1);
    crowd->wall_count = any() % 2 ? any() % (MOST_WALLS + 1) : 0;
    crowd->ring = wild && any() % 8 == 0 ? any() % 70 : (uint32_t[]){0, 36, 60}[any() % 3];
    crowd->steps = 1 + any() % MOST_STEPS;
    for (size_t k = 0; k < crowd->agent_count; k++) {
        uint32_t values[FIELDS];
        for (int field = 0; field < FIELDS; field++)
            values[field] = wild && field < LIMITED && any() % 40 == 0 ? odd_value(field) : some_value(field, span);
        memcpy(&crowd->agents[k], values, sizeof values);
    }
    for (size_t k = 0; k < crowd->wall_count; k++) {
        int32_t values[4];
        for (int field = 0; field < 4; field++)
            values[field] = wild && any() % 20 == 0 ? (int32_t)odd_value(0) : within(span);
        memcpy(&crowd->walls[k], values, sizeof values);
    }
}

/* ---- the limits, written anew */

/* Whether no point of a wall is inside a disc. */
static int is_clear(const CrowdAgent *agent, const CrowdSegment *wall)
{
    const __int128 px = (__int128)agent->x - wall->ax, py = (__int128)agent->y - wall->ay;
    const __int128 dx = (__int128)wall->bx - wall->ax, dy = (__int128)wall->by - wall->ay;
    const __int128 radius = agent->radius, foot = px * dx + py * dy, length = dx * dx + dy * dy;
    const __int128 turn = px * dy - py * dx;
    if (foot <= 0)
        return px * px + py * py >= radius * radius;
    if (foot >= length)
        return (px - dx) * (px - dx) + (py - dy) * (py - dy) >= radius * radius;
    return turn * turn >= radius * radius * length;
}

static CrowdFault first_fault(const Crowd *crowd)
{
    if (crowd->ring != 0 && crowd->ring != 36 && crowd->ring != 60)
        return (CrowdFault){CROWD_NO_SUCH_RING, 0, 0, 0};
    for (uint32_t k = 0; k < crowd->agent_count; k++) {
        uint32_t values[FIELDS];
        memcpy(values, &crowd->agents[k], sizeof values);
        for (uint32_t field = 0; field < LIMITED; field++) {
            const uint32_t size = field < 6 ? size_of((int32_t)values[field]) : values[field];
            if (size < least[field] || size > most[field])
                return (CrowdFault){CROWD_AGENT_OUT_OF_RANGE, k, field, 0};
        }
    }
    for (uint32_t k = 0; k < crowd->wall_count; k++) {
        int32_t values[4];
        memcpy(values, &crowd->walls[k], sizeof values);
        for (uint32_t field = 0; field < 4; field++)
            if (size_of(values[field]) > 4194304)
                return (CrowdFault){CROWD_SEGMENT_OUT_OF_RANGE, 0, field, k};
    }
    for (uint32_t k = 0; k < crowd->agent_count; k++)
        for (uint32_t wall = 0; wall < crowd->wall_count; wall++)
            if (!is_clear(&crowd->agents[k], &crowd->walls[wall]))
                return (CrowdFault){CROWD_AGENT_ON_SEGMENT, k, 0, wall};
    return (CrowdFault){0, 0, 0, 0};
}

/* ---- the program */

/* The crowd as a scenario of version 2. Its header, steps and ring are the records 0 to 2. */
static void write_scenario(const Crowd *crowd, const char *path)
{
    FILE *file = fopen(path, "w");
    if (file == NULL)
        exit(2);
    fprintf(file, "crowd,2\nsteps,%u\nring,%u\n", crowd->steps, crowd->ring == 0 ? 36 : crowd->ring);
    for (size_t k = 0; k < crowd->agent_count; k++) {
        const CrowdAgent *a = &crowd->agents[k];
        fprintf(file, "agent,%d,%d,%d,%d,%d,%d,%u,%u,%u,%u,%u,%u,%u\n", a->x, a->y, a->vel_x, a->vel_y, a->pref_x, a->pref_y,
                a->radius, a->speed, a->range, a->most, a->horizon, a->wall_horizon, a->weight == 0 ? 1 : a->weight);
    }
    for (size_t k = 0; k < crowd->wall_count; k++)
        fprintf(file, "segment,%d,%d,%d,%d\n", crowd->walls[k].ax, crowd->walls[k].ay, crowd->walls[k].bx, crowd->walls[k].by);
    fclose(file);
}

/* What the program prints of a crowd, with what it says of a refusal. */
static FILE *run_program(const char *program_path, const char *path, const Crowd *crowd)
{
    char command[1024];
    if (strcmp(program_path, "-") == 0)
        return NULL;
    write_scenario(crowd, path);
    snprintf(command, sizeof command, "'%s' run < '%s' 2>&1", program_path, path);
    FILE *program = popen(command, "r");
    if (program == NULL)
        exit(2);
    return program;
}

/* How the program tells of a fault. */
static void told(const Crowd *crowd, CrowdFault fault, char *line, size_t size)
{
    const size_t agents = 3, segments = agents + crowd->agent_count, all = segments + crowd->wall_count;
    switch (fault.cause) {
    case CROWD_NO_SUCH_RING:
        snprintf(line, size, "refused: record 2: OutOfRange field 1\n");
        break;
    case CROWD_AGENT_OUT_OF_RANGE:
        snprintf(line, size, "refused: record %zu: OutOfRange field %u\n", agents + fault.agent, fault.field + 1);
        break;
    case CROWD_SEGMENT_OUT_OF_RANGE:
        snprintf(line, size, "refused: record %zu: OutOfRange field %u\n", segments + fault.segment, fault.field + 1);
        break;
    default:
        snprintf(line, size, "refused: record %zu: AgentOnSegment agent %u segment %u\n", all, fault.agent, fault.segment);
    }
}

/* The next line that the program prints. */
static int is_next(FILE *program, const char *line)
{
    char got[512];
    return fgets(got, sizeof got, program) != NULL && strcmp(got, line) == 0;
}

static int prints_frame(FILE *program, const Crowd *crowd, uint32_t number)
{
    char line[256];
    snprintf(line, sizeof line, "frame,%u\n", number);
    if (!is_next(program, line))
        return 0;
    for (size_t k = 0; k < crowd->agent_count; k++) {
        const CrowdAgent *a = &crowd->agents[k];
        snprintf(line, sizeof line, "body,%zu,%d,%d,%d,%d,%d,%d,%s,%u\n", k, a->x, a->y, a->vel_x, a->vel_y, a->pref_x, a->pref_y,
                 marks[a->mark], a->relief);
        if (!is_next(program, line))
            return 0;
    }
    return 1;
}

/* Passes over the scenario and frame 0. */
static int passes_start(FILE *program, const Crowd *crowd)
{
    char line[512];
    do
        if (fgets(line, sizeof line, program) == NULL)
            return 0;
    while (strcmp(line, "frame,0\n") != 0);
    for (size_t k = 0; k < crowd->agent_count; k++)
        if (fgets(line, sizeof line, program) == NULL)
            return 0;
    return 1;
}

/* ---- calls */

static unsigned long calls, done, refused[8];

/* A part of the step, which may ask for agents that aren't there. Whether it is that of the whole. */
static int is_part(const Crowd *before, const CrowdAgent *after, uint32_t status, CrowdFault fault)
{
    CrowdAgent moved[MOST_AGENTS + 2], was[MOST_AGENTS + 2];
    CrowdFault got = {9, 9, 9, 9};
    const size_t first = any() % 16 == 0 ? (size_t)0 - any() % 3 : any() % (before->agent_count + 2);
    const size_t count = any() % (before->agent_count + 2);
    const int there = first <= before->agent_count && count <= before->agent_count - first;

    memset(moved, 0x55, sizeof moved);
    memcpy(was, moved, sizeof was);
    calls++;
    const uint32_t answer = crowd_step_part(before->agents, before->agent_count, before->walls, before->wall_count, before->ring,
                                            first, moved, count, &got);
    if (!there) {
        refused[CROWD_NO_SUCH_PART]++;
        return answer == CROWD_REFUSED && got.cause == CROWD_NO_SUCH_PART && memcmp(moved, was, sizeof was) == 0;
    }
    if (answer != status || memcmp(&got, &fault, sizeof got) != 0)
        return 0;
    if (answer != CROWD_DONE)
        return memcmp(moved, was, sizeof was) == 0;
    return memcmp(moved, after + first, count * sizeof *moved) == 0 && memcmp(moved + count, was + count, sizeof was - count * sizeof *was) == 0;
}

/* A step of the crowd. Whether it answers as the limits ask, changes nothing where it isn't done, and has its parts. */
static int steps_well(Crowd *crowd, CrowdFault *fault)
{
    const CrowdFault none = {9, 9, 9, 9}, want = first_fault(crowd);
    const Crowd before = *crowd;

    *fault = none;
    calls++;
    /* A null pointer where there is no item, now and then. */
    const uint32_t status = crowd_step(crowd->agent_count == 0 && any() % 2 ? NULL : crowd->agents, crowd->agent_count,
                                       crowd->wall_count == 0 && any() % 2 ? NULL : crowd->walls, crowd->wall_count, crowd->ring, fault);
    if (status == CROWD_DONE) {
        done++;
        if (want.cause != 0 || memcmp(fault, &none, sizeof none) != 0 || memcmp(crowd->walls, before.walls, sizeof before.walls) != 0)
            return 0;
        for (size_t k = 0; k < crowd->agent_count; k++)
            if (memcmp(&crowd->agents[k].pref_x, &before.agents[k].pref_x, 9 * sizeof(int32_t)) != 0)
                return 0;
    } else {
        refused[fault->cause & 7]++;
        if (status != CROWD_REFUSED || memcmp(fault, &want, sizeof want) != 0 || memcmp(crowd, &before, sizeof before) != 0)
            return 0;
    }
    return is_part(&before, crowd->agents, status, *fault);
}

/* A crowd's steps, against the program's. */
static int try_one(const char *program_path, const char *path)
{
    static Crowd crowd;
    char line[256];
    CrowdFault fault = {0, 0, 0, 0};
    int well = 1;

    memset(&crowd, 0, sizeof crowd);
    make_crowd(&crowd);
    FILE *program = run_program(program_path, path, &crowd);
    const uint32_t cause = first_fault(&crowd).cause;
    if (program != NULL && cause == 0)
        well = passes_start(program, &crowd);
    for (uint32_t number = 1; well && number <= crowd.steps; number++) {
        well = steps_well(&crowd, &fault);
        if (fault.cause == CROWD_AGENT_OUT_OF_RANGE && cause == 0)
            /* It left the world, where the program goes on. */
            break;
        if (fault.cause != 9) {
            told(&crowd, fault, line, sizeof line);
            well = well && (program == NULL || is_next(program, line));
            break;
        }
        well = well && (program == NULL || prints_frame(program, &crowd, number));
    }
    while (program != NULL && fgets(line, sizeof line, program) != NULL)
        ;
    if (program != NULL)
        pclose(program);
    return well;
}

/* ---- too many */

static int refuses_too_many(void)
{
    static CrowdAgent many[10001];
    static CrowdSegment walls[2001];
    CrowdFault fault = {0, 0, 0, 0};
    int well = 1;

    well &= crowd_step(many, 10001, walls, 2001, 0, &fault) == CROWD_REFUSED && fault.cause == CROWD_TOO_MANY_AGENTS;
    for (int k = 0; k < 10000; k++) {
        many[k].x = 2000 * (k % 100) + 5000;
        many[k].y = 2000 * (k / 100);
        many[k].radius = 500;
        many[k].horizon = many[k].wall_horizon = 1;
    }
    well &= crowd_step(many, 10000, walls, 2001, 0, &fault) == CROWD_REFUSED && fault.cause == CROWD_TOO_MANY_SEGMENTS;
    well &= crowd_step(many, 10000, walls, 2000, 0, &fault) == CROWD_DONE;
    return well;
}

/* An agent at the end of the world walks out of it, and is refused with its place. */
static int refuses_who_left(void)
{
    CrowdAgent agents[2] = {{.radius = 500, .horizon = 1, .wall_horizon = 1},
                            {.x = 4194304, .pref_x = 300, .radius = 500, .speed = 400, .horizon = 1, .wall_horizon = 1}};
    const CrowdSegment nowhere = {0, 0, 0, 0};
    CrowdFault fault = {0, 0, 0, 0};

    if (crowd_step(agents, 2, &nowhere, 0, 0, &fault) != CROWD_DONE || agents[1].x != 4194604)
        return 0;
    return crowd_step(agents, 2, &nowhere, 0, 0, &fault) == CROWD_REFUSED && fault.cause == CROWD_AGENT_OUT_OF_RANGE && fault.agent == 1
           && fault.field == 0 && agents[1].x == 4194604;
}

int main(int argc, char **argv)
{
    char path[] = "/tmp/crowd-fuzz-XXXXXX";
    unsigned long rounds = 0, wrong = 0;

    if (argc < 3) {
        fprintf(stderr, "usage: fuzz PROGRAM CALLS [SEED]\n");
        return 2;
    }
    const unsigned long wanted = strtoul(argv[2], NULL, 10);
    state = (argc > 3 ? strtoull(argv[3], NULL, 10) : 1) * 0x9e3779b97f4a7c15u;
    if (mkstemp(path) < 0)
        return 2;
    if (!refuses_too_many() || !refuses_who_left()) {
        printf("a fixed crowd isn't answered well\n");
        wrong++;
    }
    for (; calls < wanted; rounds++)
        if (!try_one(argv[1], path)) {
            printf("round %lu is wrong\n", rounds);
            wrong++;
        }
    remove(path);
    printf("%lu calls in %lu rounds: %lu steps done; refused for the ring %lu, an agent %lu, a segment %lu, an agent on a segment %lu, "
           "a part that isn't there %lu; wrong %lu\n",
           calls, rounds, done, refused[CROWD_NO_SUCH_RING], refused[CROWD_AGENT_OUT_OF_RANGE], refused[CROWD_SEGMENT_OUT_OF_RANGE],
           refused[CROWD_AGENT_ON_SEGMENT], refused[CROWD_NO_SUCH_PART], wrong);
    return wrong != 0;
}
