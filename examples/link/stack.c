/* How much stack the library needs: plays journals, each time with a press acted on, and a circle of attachments, and makes records of
   a sheet, on a thread whose stack was painted before; prints what was painted over, less what a thread that calls nothing paints over.
   Usage: stack JOURNAL.. */
#include "yermoitu.h"
#include <pthread.h>
#include <stdio.h>
#include <stdlib.h>
#include <string.h>

enum { SIZE = 1 << 18, PAINT = 0xA5, SENIORS_AT = 4417 };

struct journal {
    uint8_t bytes[1 << 16];
    size_t length;
};

static struct journal *journals;
static int count;
static uint16_t state[YERMOITU_WORDS];

/* Every estate's session on a press of every estate. */
static void press(void)
{
    uint8_t owners[YERMOITU_PRESSES], stages[YERMOITU_PRESSES] = {0};
    for (uint8_t n = 0; n < YERMOITU_PRESSES; n++)
        owners[n] = n / 2;
    for (uint8_t n = 0; n < YERMOITU_PRESSES; n++)
        for (uint8_t issuer = 0; issuer < 16; issuer++)
            yermoitu_press(state, YERMOITU_WORDS, owners, sizeof owners, stages, sizeof stages, n, YERMOITU_LOAD, issuer, 4);
}

static void play(const struct journal *j)
{
    yermoitu_start(state, YERMOITU_WORDS);
    for (size_t at = 0; at + 5 <= j->length;) {
        size_t bytes = j->bytes[at] + 256u * j->bytes[at + 1];
        if (bytes < 5 || bytes > j->length - at)
            return;
        yermoitu_call(state, YERMOITU_WORDS, j->bytes + at, bytes);
        at += bytes;
    }
}

/* 0#0 and 0#1 above each other: the state is not lawful for that alone. */
static void circle(void)
{
    static const struct journal roles = {{6, 0, 1, 0, 16, 0, 6, 0, 7, 0, 0, 0, 6, 0, 7, 0, 0, 1}, 18};
    static const uint8_t publish[6] = {6, 0, 22, 0, 0, 0};
    play(&roles);
    state[SENIORS_AT] = 2;
    state[SENIORS_AT + 16] = 1;
    if (YERMOITU_REFUSAL(yermoitu_call(state, YERMOITU_WORDS, publish, 6)) != 2)
        abort();
    state[SENIORS_AT] = 0;
    if (YERMOITU_REFUSAL(yermoitu_call(state, YERMOITU_WORDS, publish, 6)) != 0)
        abort();
}

static void sheet(void)
{
    static const char csv[] = "user,1\r\n\"grant\",\"2\",3,15\r\nattach,4,5,6";
    uint8_t records[22];
    if (yermoitu_sheet((const uint8_t *)csv, sizeof csv - 1, 7, records, sizeof records) != 22 << 16)
        abort();
}

static void *plays(void *nothing)
{
    for (int n = 0; n < count; n++) {
        play(&journals[n]);
        press();
    }
    circle();
    sheet();
    return nothing;
}

static void *rests(void *nothing)
{
    return nothing;
}

static size_t painted_over(void *(*work)(void *))
{
    unsigned char *stack = aligned_alloc(4096, SIZE);
    if (!stack)
        abort();
    memset(stack, PAINT, SIZE);
    pthread_attr_t on_it;
    pthread_t thread;
    if (pthread_attr_init(&on_it) || pthread_attr_setstack(&on_it, stack, SIZE) || pthread_create(&thread, &on_it, work, NULL) || pthread_join(thread, NULL))
        abort();
    size_t kept = 0;
    while (kept < SIZE && stack[kept] == PAINT)
        kept++;
    free(stack);
    return SIZE - kept;
}

int main(int arguments, char **argument)
{
    count = arguments - 1;
    journals = calloc(count ? count : 1, sizeof *journals);
    if (!journals)
        abort();
    for (int n = 0; n < count; n++) {
        FILE *file = fopen(argument[n + 1], "rb");
        if (!file) {
            perror(argument[n + 1]);
            return 1;
        }
        journals[n].length = fread(journals[n].bytes, 1, sizeof journals[n].bytes, file);
        fclose(file);
    }
    printf("%zu\n", painted_over(plays) - painted_over(rests));
}
