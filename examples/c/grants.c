/* Two clients share four cores. A batch program of the lowest priority has all of them, until a server of the highest
 * priority asks for two. The library reads the messages and decides. A daemon would have the sockets, and move threads
 * to cores: this program prints what such a daemon has to do. */
#include "arachne_grants.h"
#include <stdio.h>

enum { CLIENTS = 2, BATCH = 0, SERVER = 1, HELLO = 1, JOIN, WAIT, ASK };

static arachne_arbiter arbiter = ARACHNE_ARBITER_NULL;

/* Reads a message of four numbers from a client, or from its thread with the number place. */
static void hear(size_t client, size_t place, uint32_t kind, uint32_t first, uint32_t second, uint32_t third) {
    uint32_t numbers[4] = {kind, first, second, third}, code;
    uint8_t bytes[16];
    for (int at = 0; at < 16; at++)
        bytes[at] = (uint8_t)(numbers[at / 4] >> 8 * (at % 4));
    arachne_message message = arachne_message_read(bytes, sizeof bytes);
    switch (message.code) {
    case ARACHNE_GRANTS_HELLO:
        code = arachne_arbiter_hello(&arbiter, client, (uint8_t)message.priority, message.reserved, message.most);
        break;
    case ARACHNE_GRANTS_JOIN:
        code = arachne_arbiter_join(&arbiter, client, message.place, message.floats);
        break;
    case ARACHNE_GRANTS_WAIT:
        code = arachne_arbiter_wait(&arbiter, client, place);
        break;
    case ARACHNE_GRANTS_ASK:
        code = arachne_arbiter_ask(&arbiter, client, message.cores);
        break;
    default:
        printf("no message: %u\n", message.code);
        return;
    }
    if (code != ARACHNE_GRANTS_DONE)
        printf("refused: %u\n", message.code);
}

/* Adds a client. Its first thread floats (never waits for a core), and the others wait for one. */
static void begin(size_t client, uint32_t priority, uint32_t threads) {
    hear(client, 0, HELLO, 1, priority, threads);
    for (uint32_t place = 0; place < threads; place++) {
        hear(client, place, JOIN, (uint32_t)client, 100 * (uint32_t)client + place, place << 1 | (place == 0));
        if (place > 0)
            hear(client, place, WAIT, 0, 0, 0);
    }
    hear(client, 0, ASK, threads, 0, 0);
}

/* Decides, takes back the cores that clients have too many of, and gives the free ones. */
static void settle(size_t late) {
    arachne_action action;
    arachne_arbiter_decide(&arbiter);
    for (size_t client = 0; client < CLIENTS; client++) {
        while ((action = arachne_arbiter_take_back(&arbiter, client, client == late)).code == ARACHNE_GRANTS_TAKEN)
            printf("  core %u is taken from thread %zu of %zu\n", action.core, action.place, action.client);
    }
    while ((action = arachne_arbiter_give(&arbiter)).code != ARACHNE_GRANTS_NOTHING) {
        const char *how = action.code == ARACHNE_GRANTS_GRANTED ? "waited" : "floats";
        printf("  core %u goes to thread %zu of %zu, which %s\n", action.core, action.place, action.client, how);
    }
    for (size_t client = 0; client < CLIENTS; client++) {
        arachne_share share = arachne_arbiter_share(&arbiter, client);
        printf("  client %zu is allowed %u, and has %u\n", client, share.allowed, share.held);
    }
}

int main(void) {
    if (arachne_arbiter_new(&arbiter, 4) != ARACHNE_GRANTS_DONE)
        return 1;
    puts("the batch begins");
    begin(BATCH, 7, 4);
    settle(CLIENTS);
    puts("the server begins");
    begin(SERVER, 0, 2);
    settle(CLIENTS);
    puts("the batch gives a core back");
    hear(BATCH, 3, WAIT, 0, 0, 0);
    settle(CLIENTS);
    puts("the batch is late with the other");
    settle(BATCH);
    puts("messages that are none");
    hear(SERVER, 0, HELLO, 1, 8, 2);
    hear(SERVER, 0, 9, 0, 0, 0);
    hear(SERVER, 0, WAIT, 0, 0, 0);
    puts("the server ends");
    arachne_arbiter_leave(&arbiter, SERVER);
    settle(CLIENTS);
    arachne_arbiter_close(&arbiter);
    return 0;
}
