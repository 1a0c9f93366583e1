/* Calls that change nothing, a thousand times, for bench/run to count: `state
 * feed` on no input and `state finish` of an id that is not active, on a fresh
 * state; and `state refused`, a finish on a state out of shape, which hardly
 * does more than to decode the state and to encode it. */

#include <stdio.h>
#include <string.h>
#include "hgrpc.h"

static uint8_t state[HGRPC_STATE], work[HGRPC_WORK], out[HGRPC_OUTPUT];
static const uint8_t none[1];

static uint32_t feed(void)
{
    size_t taken, written;
    return hgrpc_feed(state, sizeof state, work, sizeof work, none, 0, out, sizeof out, &taken, &written);
}

static uint32_t finish(void)
{
    return hgrpc_finish(state, sizeof state, 1);
}

/* The call of a name, and the number that it answers. */
static const struct {
    const char *name;
    uint32_t (*call)(void);
    uint32_t number;
} calls[] = {{"feed", feed, 0}, {"finish", finish, 4}, {"refused", finish, 3}};

int main(int count, char **words)
{
    for (size_t k = 0; count == 2 && k < sizeof calls / sizeof *calls; k++) {
        if (strcmp(words[1], calls[k].name) != 0)
            continue;
        hgrpc_fresh(state, sizeof state);
        /* A request that runs has an odd id. */
        if (calls[k].number == 3)
            state[6] = 3;
        for (int i = 0; i < 1000; i++) {
            if (calls[k].call() != calls[k].number) {
                fputs("state: another number was answered\n", stderr);
                return 1;
            }
        }
        return 0;
    }
    fputs("state feed|finish|refused\n", stderr);
    return 2;
}
