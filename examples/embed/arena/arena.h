/* arena.h: steps without malloc. Link libcrowd_arena.a in place of libcrowd.a, and hand over memory once on each
 * thread that makes steps. Nothing is kept in it from one call to the next. */
#ifndef CROWD_ARENA_H
#define CROWD_ARENA_H

#include <stddef.h>

#ifdef __cplusplus
extern "C" {
#endif

/* How many bytes are enough for a step of so many agents and segments. */
size_t crowd_memory_size(size_t agents, size_t segments);

/* The memory of this thread's calls from now on; its start is aligned to 16 bytes. Where it is too little, a call
 * answers CROWD_NO_MEMORY, and nothing changes. */
void crowd_use_memory(void *memory, size_t size);

/* How many bytes of it this thread's calls have used at most. */
size_t crowd_memory_used(void);

#ifdef __cplusplus
}
#endif

#endif
