/* The state of a daemon that grants cores, proved, as a static library: crates/arachne_grants_c.
 * Made by scripts/declarations: don't edit it.
 *
 * The caller must:
 *   - start each handle as null, leave its pointer to the library, and never copy it;
 *   - use each handle from one thread at a time. It may go to another thread if the two synchronize, such as by the
 *     start or join of a thread, or by a lock;
 *   - pass pointers that are not null, to memory that no other thread uses meanwhile, or only reads if it is const;
 *   - link `malloc`, `realloc` and `free` of one allocator, and liblibc_c.a of the kit.
 * No call may be made from a signal handler. Nothing is proved of a program that breaks one of these rules. */
#ifndef ARACHNE_GRANTS_H
#define ARACHNE_GRANTS_H

/* Raised if a code, a type or a call changes. */
#define ARACHNE_GRANTS_API_VERSION 1

#include <stdbool.h>
#include <stddef.h>
#include <stdint.h>

#ifdef __cplusplus
extern "C" {
#endif

/* The codes that calls return: one set for all of them. */
enum {
    /* The call succeeded. */
    ARACHNE_GRANTS_DONE = 0,
    /* The call was refused, and has changed nothing. The comment of each call lists the possible reasons. */
    ARACHNE_GRANTS_REFUSED = 1,
    /* The allocator refused memory. Nothing has changed. */
    ARACHNE_GRANTS_NO_MEMORY = 2,
    /* The message by which a client introduces itself. */
    ARACHNE_GRANTS_HELLO = 3,
    /* The message by which a kernel thread joins its client. */
    ARACHNE_GRANTS_JOIN = 4,
    /* The message by which a thread gives its core back, if it has one, and waits for another core. */
    ARACHNE_GRANTS_WAIT = 5,
    /* The message by which a client asks for a number of cores in all. */
    ARACHNE_GRANTS_ASK = 6,
    /* There are fewer bytes than a message has, which is 16. */
    ARACHNE_GRANTS_SHORT = 7,
    /* The message is of an unknown kind. */
    ARACHNE_GRANTS_KIND = 8,
    /* The client speaks another version of the protocol. */
    ARACHNE_GRANTS_VERSION = 9,
    /* The priority is out of range. */
    ARACHNE_GRANTS_PRIORITY = 10,
    /* The thread's number within its client, `place`, is greater than 63. */
    ARACHNE_GRANTS_PLACE = 11,
    /* A field that this kind of message does not use is greater than 0. */
    ARACHNE_GRANTS_UNUSED = 12,
    /* No core was taken or given. */
    ARACHNE_GRANTS_NOTHING = 13,
    /* The core was taken from the thread, which the caller must move away from the core. */
    ARACHNE_GRANTS_TAKEN = 14,
    /* The core was given to a thread that floats (never waits for a core). The caller must move the thread to
     * the core. */
    ARACHNE_GRANTS_PLACED = 15,
    /* The core was given to a thread that waited. The caller must move the thread to the core, and notify the
     * thread. */
    ARACHNE_GRANTS_GRANTED = 16,
};

/* ---- Messages */

/* A message from a client. Fields that this kind of message does not use are 0. */
typedef struct {
    /* HELLO, JOIN, WAIT or ASK if the bytes begin with such a message, and otherwise the code of the fault. */
    uint32_t code;
    uint32_t priority;
    uint32_t reserved;
    uint32_t most;
    uint32_t client;
    uint32_t thread;
    uint32_t place;
    uint32_t cores;
    bool floats;
} arachne_message;

/* Reads the message at the beginning of `bytes`.
 *
 * Returns HELLO, JOIN, WAIT or ASK; SHORT if there are fewer than 16 bytes; otherwise KIND, VERSION, PRIORITY,
 * PLACE or UNUSED, for the first of the message's four numbers that is not valid.
 *
 * Threads: safe beside any call, if nobody writes to `bytes` meanwhile. */
arachne_message arachne_message_read(const uint8_t *bytes, size_t bytes_count);

/* ---- The arbiter */

/* C's handle on an arbiter: one pointer, which is null if the handle is empty. Begin with ARACHNE_ARBITER_NULL. */
typedef struct {
    void *opaque;
} arachne_arbiter;
#define ARACHNE_ARBITER_NULL {0}

/* The action that the caller must take on a client's thread. Fields that this action does not use are 0. */
typedef struct {
    /* TAKEN, PLACED, GRANTED or NOTHING, or REFUSED if the handle has no arbiter. */
    uint32_t code;
    uint32_t core;
    size_t client;
    size_t place;
} arachne_action;

/* The numbers of a client's cores. */
typedef struct {
    /* The number of cores that the client may have. */
    uint32_t allowed;
    /* The number of cores that the client's threads have. */
    uint32_t held;
} arachne_share;

/* Creates an arbiter (the state of a daemon that grants cores) of the cores 0 to `cores` - 1, without clients.
 * Puts the arbiter into the handle `arbiter`, which must have none.
 *
 * Returns DONE; REFUSED if the handle already has an arbiter, or if `cores` is greater than 1,024; NO_MEMORY if
 * memory is refused.
 *
 * Threads: safe beside calls with other handles; two at once with `arbiter` are undefined behaviour. */
uint32_t arachne_arbiter_new(arachne_arbiter *arbiter, uint32_t cores);

/* Empties a handle, and frees its arbiter, if it has one.
 *
 * Threads: safe beside calls with other handles; two at once with `arbiter` are undefined behaviour. */
void arachne_arbiter_close(arachne_arbiter *arbiter);

/* Adds a client (a program) with its priority, of which 0 is the highest. The client gets `reserved` cores
 * before others get more than they have reserved, and may ask for at most `most` cores.
 *
 * Returns DONE, or REFUSED if the handle has no arbiter, or if the client's number `client` is greater than 63
 * or in use. The caller must check that the client is entitled to this priority and these cores.
 *
 * Threads: safe beside calls with other handles; two at once with `arbiter` are undefined behaviour. */
uint32_t arachne_arbiter_hello(arachne_arbiter *arbiter, size_t client, uint8_t priority, uint32_t reserved, uint32_t most);

/* Sets the number of cores for which a client asks in all, in place of its last request.
 *
 * Returns DONE, or REFUSED if the handle has no arbiter or there is no such client.
 *
 * Threads: safe beside calls with other handles; two at once with `arbiter` are undefined behaviour. */
uint32_t arachne_arbiter_ask(arachne_arbiter *arbiter, size_t client, uint32_t cores);

/* Removes a client, with all of its threads.
 *
 * Returns DONE, or REFUSED if the handle has no arbiter or the client's number is greater than 63.
 *
 * Threads: safe beside calls with other handles; two at once with `arbiter` are undefined behaviour. */
uint32_t arachne_arbiter_leave(arachne_arbiter *arbiter, size_t client);

/* Adds a thread with the number `place` to a client. If `floats` is true, the thread never waits for a core.
 *
 * Returns DONE, or REFUSED if the handle has no arbiter, if there is no such client, or if `place` is in use or
 * greater than 63.
 *
 * Threads: safe beside calls with other handles; two at once with `arbiter` are undefined behaviour. */
uint32_t arachne_arbiter_join(arachne_arbiter *arbiter, size_t client, size_t place, bool floats);

/* Takes the core from a thread, if it has one, and makes the thread wait until a core is granted to it.
 *
 * Returns DONE, or REFUSED if the handle has no arbiter, or if the thread floats (never waits for a core),
 * already waits, or does not exist.
 *
 * Threads: safe beside calls with other handles; two at once with `arbiter` are undefined behaviour. */
uint32_t arachne_arbiter_wait(arachne_arbiter *arbiter, size_t client, size_t place);

/* Removes a thread of a client, because the thread has ended.
 *
 * Returns DONE, or REFUSED if the handle has no arbiter or the number of the client or of the thread is greater
 * than 63.
 *
 * Threads: safe beside calls with other handles; two at once with `arbiter` are undefined behaviour. */
uint32_t arachne_arbiter_end(arachne_arbiter *arbiter, size_t client, size_t place);

/* Computes how many cores each client may have, from the numbers of cores for which all clients ask now.
 *
 * Returns DONE, or REFUSED if the handle has no arbiter.
 *
 * Threads: safe beside calls with other handles; two at once with `arbiter` are undefined behaviour. */
uint32_t arachne_arbiter_decide(arachne_arbiter *arbiter);

/* Takes a core from a client that has more cores than it may have. Of the client's threads with a core, the one
 * with the greatest number loses its core.
 *
 * If that thread floats (never waits for a core), takes the core at once. Otherwise takes the core only if
 * `late` is true, which means that the client hasn't given a core back in time. Returns TAKEN; NOTHING if no
 * core was taken; REFUSED if the handle has no arbiter.
 *
 * Threads: safe beside calls with other handles; two at once with `arbiter` are undefined behaviour. */
arachne_action arachne_arbiter_take_back(arachne_arbiter *arbiter, size_t client, bool late);

/* Gives a free core to a thread that can take one, of a client that has fewer cores than it may have.
 *
 * Clients of higher priority go first. Returns GRANTED if the thread waited for a core; PLACED if the thread
 * floats (never waits for a core); NOTHING if no core was given; REFUSED if the handle has no arbiter.
 *
 * Threads: safe beside calls with other handles; two at once with `arbiter` are undefined behaviour. */
arachne_action arachne_arbiter_give(arachne_arbiter *arbiter);

/* Returns how many cores a client may have, and how many its threads have now. Both are 0 if the handle has no
 * arbiter.
 *
 * Threads: safe beside calls with other handles; two at once with `arbiter` are undefined behaviour. */
arachne_share arachne_arbiter_share(arachne_arbiter *arbiter, size_t client);

#ifdef __cplusplus
}
#endif
#endif
