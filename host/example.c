/* Which records share a neighbour by an a-link? Build: gcc -Ihost host/example.c target/staticlib/libhost.a; or, after host/install, by pkg-config. */
#include <dating.h>
#include <stdio.h>

static uint32_t state[DATING_STATE_WORDS], list[16];
static uint64_t work[DATING_WORK_WORDS];

int main(void) {
    dating_fresh(4, state, DATING_STATE_WORDS);
    dating_add(state, DATING_STATE_WORDS, 0, 0, 1);
    dating_add(state, DATING_STATE_WORDS, 2, 0, 1);
    uint64_t count = dating_pairs_by_rows(state, DATING_STATE_WORDS, (const uint8_t *)"a/^a", 4, work, DATING_WORK_WORDS, list, 16);
    if (count >= DATING_REFUSED) {
        fprintf(stderr, "%s\n", dating_meaning((uint32_t)(count - DATING_REFUSED)));
        return 1;
    }
    for (uint64_t i = 0; i < count && i < 16; i++) printf("%u %u\n", list[i] / 1024, list[i] % 1024);
    printf("an a-link from 0 to 1 again: %s\n", dating_meaning(dating_add(state, DATING_STATE_WORDS, 0, 0, 1)));
    return 0;
}
