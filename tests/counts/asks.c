/* Loads a sheet, then asks each question that follows, once: chain FROM TO TEXT, ends RECORD TEXT, starts RECORD TEXT, rows TEXT, edit FROM LABEL TO.
 * `asked` is called after each, so that what is counted can be told apart. */
#include "../../host/dating.h"
#include <stdio.h>
#include <stdlib.h>
#include <string.h>

#define STATE 5406
static uint32_t state[STATE];
static uint64_t work[1048576];
static uint32_t list[1048576];

__attribute__((noinline)) void asked(uint64_t answer) {
    printf("%llu\n", (unsigned long long)answer);
}

static void load(const char *name) {
    char line[1024], label;
    int from, to, n;
    FILE *file = fopen(name, "r");
    if (!file)
        exit(2);
    while (fgets(line, sizeof line, file)) {
        if (sscanf(line, "open %d", &n) == 1)
            dating_fresh(n, state, STATE);
        else if (sscanf(line, "add %d %c %d", &from, &label, &to) == 3)
            dating_add(state, STATE, from, label - 'a', to);
    }
    fclose(file);
}

int main(int count, char **words) {
    load(words[1]);
    for (int i = 2; i < count;) {
        const char *kind = words[i++];
        if (!strcmp(kind, "chain")) {
            const char *text = words[i + 2];
            asked(dating_chain(state, STATE, atoi(words[i]), atoi(words[i + 1]), (const uint8_t *)text, strlen(text), work, 65536, list, 65536));
            i += 3;
        } else if (!strcmp(kind, "ends")) {
            asked(dating_ends(state, STATE, atoi(words[i]), (const uint8_t *)words[i + 1], strlen(words[i + 1]), list, 1024));
            i += 2;
        } else if (!strcmp(kind, "starts")) {
            asked(dating_starts(state, STATE, atoi(words[i]), (const uint8_t *)words[i + 1], strlen(words[i + 1]), list, 1024));
            i += 2;
        } else if (!strcmp(kind, "rows")) {
            asked(dating_pairs_by_rows(state, STATE, (const uint8_t *)words[i], strlen(words[i]), work, 1048576, list, 1048576));
            i += 1;
        } else {
            asked(dating_add(state, STATE, atoi(words[i]), words[i + 1][0] - 'a', atoi(words[i + 2])));
            i += 3;
        }
    }
    return 0;
}
