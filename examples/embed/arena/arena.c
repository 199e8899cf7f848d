/* The allocator of libcrowd_arena.a: a stack of blocks, empty again once all blocks of a call are free, as they
 * are when it returns. It is trusted, not proved. */
#include "arena.h"

#include <stdint.h>
#include <string.h>

#define ALIGNMENT 16u

/* More than a call was seen to use, with either ring: 1,644 bytes an agent, 90 a segment and 3,280 besides. */
#define AGENT_BYTES 2000u
#define SEGMENT_BYTES 128u
#define CALL_BYTES 16384u

/* Names that the library calls in place of malloc, realloc and free. */
void *crowd_malloc(size_t size);
void *crowd_realloc(void *block, size_t size);
void crowd_free(void *block);

static _Thread_local struct {
    unsigned char *start;
    size_t size, used, most, blocks;
} arena;

size_t crowd_memory_size(size_t agents, size_t segments)
{
    return agents * AGENT_BYTES + segments * SEGMENT_BYTES + CALL_BYTES;
}

void crowd_use_memory(void *memory, size_t size)
{
    arena.start = memory;
    arena.size = size;
    arena.used = arena.most = arena.blocks = 0;
}

size_t crowd_memory_used(void)
{
    return arena.most;
}

void *crowd_malloc(size_t size)
{
    const size_t left = arena.size - arena.used;
    const size_t padding = (ALIGNMENT - size % ALIGNMENT) % ALIGNMENT;
    void *block = arena.start + arena.used;

    if (size > left || padding > left - size)
        return NULL;
    arena.used += size + padding;
    arena.blocks++;
    if (arena.used > arena.most)
        arena.most = arena.used;
    return block;
}

void crowd_free(void *block)
{
    if (block != NULL && --arena.blocks == 0)
        arena.used = 0;
}

/* Blocks stand one behind the other, so what is behind the old one's items is copied too, and is of no account. */
void *crowd_realloc(void *block, size_t size)
{
    unsigned char *next = crowd_malloc(size);

    if (next != NULL && block != NULL) {
        const size_t room = (size_t)(next - (unsigned char *)block);
        memmove(next, block, room < size ? room : size);
        crowd_free(block);
    }
    return next;
}
