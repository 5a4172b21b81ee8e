/* Decides the scene on standard input, and prints the line that the program prints. */

#include "fowlcredenza.h"

#include <inttypes.h>
#include <stdio.h>

enum { LONGEST = FOWLCREDENZA_PROGRAM_SCENE_MAX_LEN, WORD = 8 };
/* The place of the fee among the words. */
enum { FEE = 3 + FOWLCREDENZA_HASH_LEN / WORD };

/* One byte more than the longest scene, to see that there is more. */
static uint8_t scene[LONGEST + 1];
static uint8_t store[FOWLCREDENZA_PROGRAM_STORE_LEN];
static uint32_t table[FOWLCREDENZA_TABLE_LEN];
static uint8_t answer[FOWLCREDENZA_ANSWER_LEN];
/* Count and length of the requests and 1 where there is a digest, as words, then the digest, then the fee as a word. */
static uint8_t out[FOWLCREDENZA_LOCK_OUT_LEN];

static uint64_t word(size_t index)
{
    uint64_t value = 0;
    for (size_t i = WORD; i > 0; i--)
        value = value << 8 | out[WORD * index + i - 1];
    return value;
}

static uint32_t decide(size_t length)
{
    if (length > LONGEST)
        return FOWLCREDENZA_SCENE_TOO_LONG;
    return fowlcredenza_decide_scene(scene, length, store, sizeof store, table,
                                     FOWLCREDENZA_TABLE_LEN, answer, sizeof answer, out, sizeof out);
}

int main(void)
{
    size_t length = fread(scene, 1, sizeof scene, stdin);
    if (ferror(stdin)) {
        perror("decide");
        return 2;
    }
    uint32_t number = decide(length);
    printf("answer,%" PRIu32 ",%" PRIu64 ",%" PRIu64 ",", number, word(0), word(1));
    for (size_t i = 0; word(2) == 1 && i < FOWLCREDENZA_HASH_LEN; i++)
        printf("%02x", out[3 * WORD + i]);
    printf(",");
    if (number == FOWLCREDENZA_ACCEPTED)
        printf("%" PRIu64, word(FEE));
    printf("\n");
    return fflush(stdout) == 0 ? 0 : 2;
}
