/* A press's controller through a day: estate 1 owns press 7 and lends it to estate 0, whose press hand works it until 0 ends its trust.
   From the repository's root:

       scripts/library
       gcc -std=c11 -O2 -Wall -Wextra -Werror -Iinclude examples/link/floor.c target/staticlib/libyermoitu.a -o target/floor-c
       target/floor-c
*/
#include "yermoitu.h"
#include <stdio.h>
#include <stdlib.h>

static const char *const actions[] = {"load", "start", "pause", "resume", "empty"};
static const char *const stages_in_words[] = {"idle", "loaded", "pressing", "held"};

static uint16_t state[YERMOITU_WORDS];

/* The desk keeps the rights, the controller two lists: who owns each press, and the stage that it is in. */
static uint8_t owners[YERMOITU_PRESSES];
static uint8_t stages[YERMOITU_PRESSES];

enum { PRESS = 7, GROWER = 0, OWNER = 1, OPERATOR = 16 };

/* A call of up to three arguments, which must be accepted. */
static void call(uint8_t kind, uint8_t caller, uint8_t arguments, uint8_t x, uint8_t y, uint8_t z)
{
    const uint8_t record[8] = {5 + arguments, 0, kind, 0, caller, x, y, z};
    if (YERMOITU_REFUSAL(yermoitu_call(state, YERMOITU_WORDS, record, record[0])) != 0)
        abort();
}

/* Both estates open a session, each with a role active; 1 grants its permissions 0 to 4, one for each action, to both roles. */
static void prepare(void)
{
    yermoitu_start(state, YERMOITU_WORDS);
    for (uint8_t estate = GROWER; estate <= OWNER; estate++) {
        call(1, OPERATOR, 1, estate, 0, 0); /* enrolled */
        call(5, estate, 1, 3, 0, 0);        /* user 3 */
        call(7, estate, 1, 2, 0, 0);        /* role 2 */
        call(11, estate, 2, 3, 2, 0);       /* user 3 gets role 2 */
        call(17, estate, 2, 4, 3, 0);       /* session 4 for user 3 */
        call(19, estate, 2, 4, 2, 0);       /* role 2 active in it */
    }
    call(3, GROWER, 1, OWNER, 0, 0); /* 0 trusts 1 */
    call(22, GROWER, 1, 2, 0, 0);    /* and publishes its role 2 */
    for (uint8_t action = YERMOITU_LOAD; action <= YERMOITU_EMPTY; action++) {
        call(9, OWNER, 1, action, 0, 0);
        call(13, OWNER, 3, action, GROWER, 2);
        call(13, OWNER, 3, action, OWNER, 2);
    }
    owners[PRESS] = OWNER;
}

/* Asks before the press moves, and moves it only where the answer is 0. */
static void try_action(uint8_t estate, uint8_t action)
{
    unsigned error = (unsigned)yermoitu_press(state, YERMOITU_WORDS, owners, sizeof owners, stages, sizeof stages, PRESS, action, estate, 4);
    printf("%u/4 %-6s  ", estate, actions[action]);
    if (error == 0)
        printf("goes ahead");
    else
        printf("error %u  ", error);
    printf("  press 7 is %s\n", stages_in_words[stages[PRESS]]);
}

int main(void)
{
    prepare();

    printf("morning: a cycle\n");
    for (uint8_t action = YERMOITU_LOAD; action <= YERMOITU_RESUME; action++)
        try_action(GROWER, action);
    try_action(GROWER, YERMOITU_EMPTY); /* not while it presses */
    try_action(GROWER, YERMOITU_PAUSE);
    try_action(GROWER, YERMOITU_EMPTY);

    printf("noon: a second one begins\n");
    try_action(GROWER, YERMOITU_LOAD);
    try_action(GROWER, YERMOITU_START);

    printf("0 withdraws its trust in 1\n");
    call(4, GROWER, 1, OWNER, 0, 0);
    try_action(GROWER, YERMOITU_PAUSE);
    try_action(GROWER, YERMOITU_EMPTY);

    printf("1 takes the press back\n");
    try_action(OWNER, YERMOITU_PAUSE);
    try_action(OWNER, YERMOITU_EMPTY);
    try_action(GROWER, YERMOITU_LOAD);
    return 0;
}
