/* Two estates and a press: estate 1 lends estate 0 a permission under 0's trust, until 0 withdraws it. A yes names the role that gave
   it: 0's own role, while that one holds the permission, and then a role of 1's that is attached below it.
   From the repository's root:

       scripts/library
       gcc -std=c11 -O2 -Wall -Wextra -Werror -Iinclude examples/link/press.c target/staticlib/libyermoitu.a -o target/press-c
       target/press-c
*/
#include "yermoitu.h"
#include <stdio.h>

/* A record's first byte is its length, since no call is longer than 8 bytes. */
struct step {
    const char *says;
    uint8_t record[8];
};

static const struct step story[] = {
    {"the operator enrols 0", {6, 0, 1, 0, 16, 0}},
    {"the operator enrols 1", {6, 0, 1, 0, 16, 1}},
    {"0 adds role 2", {6, 0, 7, 0, 0, 2}},
    {"0 adds user 3", {6, 0, 5, 0, 0, 3}},
    {"0 gives user 3 role 2", {7, 0, 11, 0, 0, 3, 2}},
    {"0 opens session 4 for user 3", {7, 0, 17, 0, 0, 4, 3}},
    {"0 activates role 2 in session 4", {7, 0, 19, 0, 0, 4, 2}},
    {"1 adds permission 5", {6, 0, 9, 0, 1, 5}},
    {"1 grants 5 to 0's role 2, untrusted", {8, 0, 13, 0, 1, 5, 0, 2}},
    {"0 trusts 1", {6, 0, 3, 0, 0, 1}},
    {"0 publishes role 2", {6, 0, 22, 0, 0, 2}},
    {"1 grants 5 to 0's role 2", {8, 0, 13, 0, 1, 5, 0, 2}},
    {"may 0's session 4 use 5?", {8, 0, 21, 0, 1, 5, 0, 4}},
    {"1 adds role 7", {6, 0, 7, 0, 1, 7}},
    {"1 grants 5 to its own role 7", {8, 0, 13, 0, 1, 5, 1, 7}},
    {"1 attaches role 7 below 0's role 2", {8, 0, 15, 0, 1, 7, 0, 2}},
    {"may 0's session 4 use 5?", {8, 0, 21, 0, 1, 5, 0, 4}},
    {"1 ungrants 5 from 0's role 2", {8, 0, 14, 0, 1, 5, 0, 2}},
    {"may 0's session 4 use 5?", {8, 0, 21, 0, 1, 5, 0, 4}},
    {"0 withdraws its trust in 1", {6, 0, 4, 0, 0, 1}},
    {"may 0's session 4 use 5?", {8, 0, 21, 0, 1, 5, 0, 4}},
};

/* Estate 0's sheet. */
static const char csv[] = "user,6\r\n\"role\",7\r\ngive,6,7\r\n";

/* Its refusal and its verdict, and with a yes the role that gave it: 0#2 is role 2 of estate 0. */
static void show(const char *says, uint64_t answer)
{
    printf("%-36s refusal %u verdict %u", says, YERMOITU_REFUSAL(answer), YERMOITU_VERDICT(answer));
    if (YERMOITU_VERDICT(answer) == 1)
        printf(" through %u#%u", YERMOITU_ISSUER(answer), YERMOITU_ROLE(answer));
    printf("\n");
}

int main(void)
{
    static uint16_t state[YERMOITU_WORDS];

    show("start", yermoitu_start(state, YERMOITU_WORDS));
    for (size_t i = 0; i < sizeof story / sizeof *story; i++)
        show(story[i].says, yermoitu_call(state, YERMOITU_WORDS, story[i].record, story[i].record[0]));
    show("a press's sign of life", yermoitu_call(state, YERMOITU_WORDS, NULL, 0));

    uint8_t records[sizeof csv];
    uint64_t made = yermoitu_sheet((const uint8_t *)csv, sizeof csv - 1, 0, records, sizeof records);
    printf("%-36s error %u, %u bytes\n", "0's sheet", YERMOITU_ERROR(made), (unsigned)YERMOITU_TOLD(made));
    for (size_t at = 0; YERMOITU_ERROR(made) == 0 && at < YERMOITU_TOLD(made); at += records[at])
        show("a row of it", yermoitu_call(state, YERMOITU_WORDS, records + at, records[at]));
    return 0;
}
