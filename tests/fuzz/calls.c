/* The exported calls over bytes: a text of bytes is read as a list of calls, and each is made on space that ends right before a page that may not be touched.
 * What every call promises over any contents is held: a refused call changes nothing, words past an answer are not touched, words of no register are refused
 * with 16. Of a register that calls alone have made, answers are held to each other and to plain sets.
 *
 * A call is eleven bytes, and as many more as the last of them says: operation, x (2), label, y (2), work (2), room (2), further. Numbers have their low byte
 * first. tests/compiled/calls reads the same, so that the interpreter can be asked the same.
 *
 * With libFuzzer it is a target; with -DREPLAY it is a program that makes the calls of each file named, and prints each answer with a sum of what it wrote. */
#include "dating.h"
#include <inttypes.h>
#include <stdio.h>
#include <stdlib.h>
#include <string.h>
#include <sys/mman.h>

enum { STATE = 5500, LIST = 65536, WORK = 65536, PAGES = 65536, NUMBERS = 2048, OFFSETS = 4096, TREE = 2048, TREES = 3, SETS = 256, CANARY = 64 };
enum { PAGE = 4096, OPERATIONS = 42, CALLS = 4000 };

/* Space that is lent. */
struct arena {
    unsigned char *end;
    size_t most;
    unsigned char *lent;
};

static struct arena state_space, text_space, other_space, work_space, list_space, first_space, second_space;
static uint32_t state[STATE], before[STATE];
static size_t state_len;
/* Whether calls alone have made the words, since the last that was accepted as fresh. */
static int made;
static uint64_t tree[TREES][TREE];
static size_t tree_len[TREES];
static unsigned char pages[PAGES];
static size_t pages_len;
static FILE *told;
static const char *doing;
static uint64_t answer;

static void fault(const char *what) {
    fprintf(stderr, "calls: %s: %s (answer %" PRIu64 ")\n", doing, what, answer);
    abort();
}

static void hold(int holds, const char *what) {
    if (!holds)
        fault(what);
}

static void prepare(struct arena *space, size_t most) {
    size_t bytes = (most + CANARY + PAGE - 1) / PAGE * PAGE;
    unsigned char *at = mmap(NULL, bytes + PAGE, PROT_READ | PROT_WRITE, MAP_PRIVATE | MAP_ANONYMOUS, -1, 0);
    if (at == MAP_FAILED || mprotect(at + bytes, PAGE, PROT_NONE))
        abort();
    space->end = at + bytes;
    space->most = most;
}

/* So many bytes, before which stands what must not change. */
static void *lend(struct arena *space, size_t bytes) {
    if (bytes > space->most)
        abort();
    space->lent = space->end - bytes;
    memset(space->lent - CANARY, 0xc3, CANARY);
    return space->lent;
}

static void *lend_copy(struct arena *space, const void *from, size_t bytes) { return memcpy(lend(space, bytes), from, bytes); }

static int intact(const struct arena *space) {
    for (size_t at = 1; space->lent && at <= CANARY; at++)
        if (space->lent[-(long)at] != 0xc3)
            return 0;
    return 1;
}

static void all_intact(void) {
    hold(intact(&state_space) && intact(&text_space) && intact(&other_space) && intact(&work_space) && intact(&list_space) && intact(&first_space) &&
             intact(&second_space),
         "writes before what it was lent");
}

static size_t least(size_t a, size_t b) { return a < b ? a : b; }

static uint64_t summed(uint64_t sum, uint64_t word) { return (sum * 31 + word % 65521) % 4294967291u; }

static uint64_t sum32(const uint32_t *words, size_t count) {
    uint64_t sum = 7;
    for (size_t at = 0; at < count; at++)
        sum = summed(sum, words[at]);
    return sum;
}

static uint64_t sum8(const unsigned char *bytes, size_t count) {
    uint64_t sum = 7;
    for (size_t at = 0; at < count; at++)
        sum = summed(sum, bytes[at]);
    return sum;
}

static uint64_t sum64(const uint64_t *words, size_t count) {
    uint64_t sum = 7;
    for (size_t at = 0; at < count; at++)
        sum = summed(summed(sum, words[at] >> 32), words[at] & 0xffffffff);
    return sum;
}

/* Could the words be a register's: as tests/host/src/damage.rs has it. */
static int possible(void) {
    if (state_len < DATING_STATE_WORDS || state[0] > 1024 || state[1] > 4096 || state[2] > 255 || state[3] > 256)
        return 0;
    for (size_t at = 4356; at < 5380; at++)
        if (state[at] > 2)
            return 0;
    return 1;
}

struct call {
    unsigned operation, x, label, y, work, room, further;
    const unsigned char *bytes;
};

static void say(const struct call *call, uint64_t sum) {
    if (told)
        fprintf(told, "%u %" PRIu64 " %" PRIu64 "\n", call->operation, answer, sum);
}

static uint32_t *lent_state(void) { return lend_copy(&state_space, state, state_len * 4); }

/* After an edit: nothing past the register's words, and nothing at all if it is refused. */
static void edited(const struct call *call, uint32_t *lent, int changed_by_answer) {
    all_intact();
    memcpy(before, state, sizeof state);
    memcpy(state, lent, state_len * 4);
    hold(changed_by_answer || !memcmp(before, state, sizeof state), "is refused and changes the register");
    hold(state_len <= DATING_STATE_WORDS || !memcmp(before + DATING_STATE_WORDS, state + DATING_STATE_WORDS, (STATE - DATING_STATE_WORDS) * 4),
         "changes words past the register");
    say(call, sum32(state, 8));
}

static uint32_t edit(const struct call *call, uint32_t *lent) {
    switch (call->operation) {
    case 0: return dating_fresh(call->x, lent, state_len);
    case 1: return dating_add(lent, state_len, call->x, call->label, call->y);
    case 2: return dating_remove(lent, state_len, call->x, call->label, call->y);
    case 3: return dating_lock(lent, state_len, call->x);
    case 4: return dating_unlock(lent, state_len, call->x);
    case 5: return dating_withdraw(lent, state_len, call->x);
    case 6: return dating_reinstate(lent, state_len, call->x);
    default: return dating_undo(lent, state_len);
    }
}

/* A question for a list of words: the words are left where they were lent. */
enum kind { TOTAL, WHOLE };

static uint32_t *asked(const struct call *call, enum kind kind) {
    uint32_t *lent = lent_state(), *list = lend(&list_space, call->room * 4);
    const unsigned char *text = lend_copy(&text_space, call->bytes, call->further);
    uint64_t *work = lend(&work_space, (size_t)call->work * 8);
    uint32_t filling = 0x5a000000u + call->operation;
    for (size_t at = 0; at < call->room; at++)
        list[at] = filling;
    memset(work, 0x11, (size_t)call->work * 8);
    switch (call->operation) {
    case 9: answer = dating_links(lent, state_len, list, call->room); break;
    case 13: answer = dating_pairs(lent, state_len, text, call->further, work, call->work, list, call->room); break;
    case 14: answer = dating_chain(lent, state_len, call->x, call->y, text, call->further, work, call->work, list, call->room); break;
    case 15: answer = dating_ends(lent, state_len, call->x, text, call->further, list, call->room); break;
    case 16: answer = dating_starts(lent, state_len, call->y, text, call->further, list, call->room); break;
    case 17: answer = dating_totals(lent, state_len, list, call->room); break;
    case 18: answer = dating_marks(lent, state_len, list, call->room); break;
    case 19:
        answer = dating_preview(lent, state_len, call->label / 27, call->x, call->label % 27, call->y, text, call->further, work, call->work, list, call->room);
        break;
    case 22: answer = dating_generations(lent, state_len, text, call->further, work, call->work, list, call->room); break;
    case 23: {
        uint16_t anchors[8];
        size_t count = call->y % 9;
        for (size_t at = 0; at < count; at++)
            anchors[at] = (call->label + at * (call->y / 9 % 64)) % 1024;
        const uint16_t *named = lend_copy(&other_space, anchors, count * 2);
        answer = dating_sole_support(lent, state_len, call->x, text, call->further, named, count, work, call->work, list, call->room);
        hold(!memcmp(anchors, named, count * 2), "changes the anchors");
        break;
    }
    default: answer = dating_pairs_by_rows(lent, state_len, text, call->further, work, call->work, list, call->room);
    }
    all_intact();
    hold(!memcmp(lent, state, state_len * 4) && (!call->further || !memcmp(text, call->bytes, call->further)), "a question changes the register or the text");
    size_t count = answer < DATING_NO_CHAIN ? answer : 0;
    if (call->operation == 22 && answer > DATING_LOOP && answer < DATING_REFUSED)
        count = answer - DATING_LOOP;
    hold(kind == TOTAL || count <= call->room, "answers with more than the list holds");
    for (size_t at = least(count, call->room); at < call->room; at++)
        hold(list[at] == filling, "touches words past its answer");
    if (answer >= DATING_REFUSED)
        hold(answer - DATING_REFUSED >= 1 && answer - DATING_REFUSED <= 21, "refuses with an unknown number");
    return list;
}

static uint64_t list_sum(const struct call *call, const uint32_t *list) {
    size_t count = answer < DATING_NO_CHAIN ? answer : call->operation == 22 && answer < DATING_REFUSED ? answer - DATING_LOOP : 0;
    return sum32(list, least(count, call->room));
}

/* Plain sets of pairs below SETS. */
typedef unsigned char set[SETS][SETS];
static set sets[3], wanted;

static int set_of(set *into, size_t n, const uint64_t *words, size_t count) {
    static uint32_t pairs[LIST];
    static uint64_t work[WORK];
    uint64_t total = dating_tree_list(n, words, count, pairs, LIST, work, WORK);
    memset(*into, 0, sizeof *into);
    if (total > LIST)
        return 0;
    for (size_t at = 0; at < total; at++) {
        hold(pairs[at] / 1024 < n && pairs[at] % 1024 < n && (at == 0 || pairs[at - 1] < pairs[at]), "a tree lists what it cannot have");
        (*into)[pairs[at] / 1024][pairs[at] % 1024] = 1;
    }
    return 1;
}

static void product(size_t n, set *a, int a_sense, set *b, int b_sense) {
    for (size_t x = 0; x < n; x++)
        for (size_t z = 0; z < n; z++)
            if (a_sense ? (*a)[z][x] : (*a)[x][z])
                for (size_t y = 0; y < n; y++)
                    wanted[x][y] |= b_sense ? (*b)[y][z] : (*b)[z][y];
}

static void tree_call(const struct call *call) {
    size_t n = call->x, a = call->label % 3, b = call->label / 3 % 3, into = call->y % 3, senses = call->label / 9 % 4;
    const uint64_t *first = lend_copy(&first_space, tree[a], tree_len[a] * 8), *second = lend_copy(&second_space, tree[b], tree_len[b] * 8);
    uint64_t *work = lend(&work_space, (size_t)call->work * 8), *out = lend(&list_space, least(call->room, TREE) * 8);
    size_t room = least(call->room, TREE);
    memset(out, 0x77, room * 8);
    memset(work, 0x22, (size_t)call->work * 8);
    switch (call->operation) {
    case 28: {
        uint32_t pairs[128];
        size_t count = call->further / 2;
        for (size_t at = 0; at < count; at++)
            pairs[at] = call->bytes[2 * at] * 1024u + call->bytes[2 * at + 1] + (uint32_t)(call->label / 128) * (1u << 20);
        const uint32_t *lent = lend_copy(&other_space, pairs, count * 4);
        answer = dating_tree_make(n, lent, count, out, room, work, call->work);
        hold(!memcmp(lent, pairs, count * 4), "changes the pairs");
        memset(wanted, 0, sizeof wanted);
        if (answer < DATING_NO_CHAIN && n <= SETS)
            for (size_t at = 0; at < count; at++)
                wanted[pairs[at] / 1024 % SETS][pairs[at] % 1024 % SETS] = 1;
        break;
    }
    case 30: answer = dating_tree_union(n, first, tree_len[a], second, tree_len[b], out, room, work, call->work); break;
    case 31: answer = dating_tree_intersection(n, first, tree_len[a], second, tree_len[b], out, room, work, call->work); break;
    case 32: answer = dating_tree_difference(n, first, tree_len[a], second, tree_len[b], out, room, work, call->work); break;
    case 33: answer = dating_tree_product(n, first, tree_len[a], senses % 2, second, tree_len[b], senses / 2, out, room, work, call->work); break;
    case 34: answer = dating_tree_transpose(n, first, tree_len[a], out, room, work, call->work); break;
    default: answer = dating_tree_closure(n, first, tree_len[a], out, room, work, call->work);
    }
    all_intact();
    hold(!memcmp(first, tree[a], tree_len[a] * 8) && !memcmp(second, tree[b], tree_len[b] * 8), "changes a lent tree");
    size_t count = answer < DATING_NO_CHAIN ? answer : 0;
    hold(count <= room, "answers with more than the space holds");
    for (size_t at = count; at < room; at++)
        hold(out[at] == 0x7777777777777777u, "touches words past its answer");
    say(call, sum64(out, count));
    if (answer >= DATING_NO_CHAIN) {
        hold(answer > DATING_REFUSED && answer <= DATING_REFUSED + 13, "refuses a tree with an unknown number");
        return;
    }
    /* Held to plain sets. */
    if (n <= SETS && set_of(&sets[0], n, first, tree_len[a]) + set_of(&sets[1], n, second, tree_len[b]) == 2) {
        int cheap = n <= 64;
        if (call->operation != 28)
            memset(wanted, 0, sizeof wanted);
        for (size_t x = 0; x < n && call->operation != 28; x++)
            for (size_t y = 0; y < n; y++) {
                int in = sets[0][x][y], other = sets[1][x][y];
                wanted[x][y] = call->operation == 30   ? in | other
                               : call->operation == 31 ? in & other
                               : call->operation == 32 ? in & !other
                               : call->operation == 34 ? sets[0][y][x]
                               : call->operation == 35 ? in
                                                       : 0;
            }
        if (call->operation == 33 && cheap)
            product(n, &sets[0], senses % 2, &sets[1], senses / 2);
        if (call->operation == 35 && cheap)
            for (size_t z = 0; z < n; z++)
                for (size_t x = 0; x < n; x++)
                    for (size_t y = 0; wanted[x][z] && y < n; y++)
                        wanted[x][y] |= wanted[z][y];
        if (cheap || call->operation < 33 || call->operation == 34) {
            hold(set_of(&sets[2], n, out, count), "answers with what is no tree");
            hold(!memcmp(sets[2], wanted, sizeof wanted), "answers with another set");
        }
    }
    memcpy(tree[into], out, count * 8);
    tree_len[into] = count;
}

/* Of a register that calls alone have made: the other engine, ends, starts, chain and totals say the same. */
static void agree(const struct call *call, const uint32_t *list) {
    static uint32_t pairs[LIST], rows[LIST];
    static uint64_t work[WORK];
    uint64_t total = answer;
    if (!made || state[0] > 64 || call->operation != 13 || answer >= DATING_NO_CHAIN)
        return;
    memcpy(pairs, list, least(total, call->room) * 4);
    uint64_t other = dating_pairs_by_rows(state, state_len, call->bytes, call->further, work, WORK, rows, LIST);
    hold(other == total && !memcmp(pairs, rows, least(total, call->room) * 4), "another answer by rows");
    uint32_t x = call->x % state[0], y = call->y % state[0], found[1024], in = 0, ends = 0, starts = 0;
    for (size_t at = 0; at < total; at++) {
        in += rows[at] == x * 1024 + y;
        ends += rows[at] / 1024 == x;
        starts += rows[at] % 1024 == y;
    }
    uint64_t chain = dating_chain(state, state_len, x, y, call->bytes, call->further, work, WORK, rows, LIST);
    hold((chain != DATING_NO_CHAIN) == in && chain < DATING_REFUSED, "a pair with no chain, or a chain with no pair");
    hold(dating_ends(state, state_len, x, call->bytes, call->further, found, 1024) == ends, "other ends");
    hold(dating_starts(state, state_len, y, call->bytes, call->further, found, 1024) == starts, "other starts");
}

/* Nothing is made yet. */
static void begin(void) {
    memset(state, 0, sizeof state), memset(tree, 0, sizeof tree), memset(tree_len, 0, sizeof tree_len);
    state_len = DATING_STATE_WORDS, made = 0, pages_len = 0;
}

static void one(const struct call *call) {
    static char name[32];
    snprintf(name, sizeof name, "operation %u", call->operation);
    doing = name;
    int could = possible();
    switch (call->operation) {
    case 0: case 1: case 2: case 3: case 4: case 5: case 6: case 7: {
        uint32_t *lent = lent_state();
        answer = edit(call, lent);
        hold(answer <= 18, "answers an edit with an unknown number");
        hold(could || call->operation == 0 || answer == 16, "accepts words of no register");
        edited(call, lent, answer == 0);
        if (call->operation == 0 && answer == 0)
            made = 1;
        break;
    }
    case 8: answer = dating_size(lent_state(), state_len); hold(answer <= 1024 && (could || !answer), "a size of no register"); say(call, 0); break;
    case 10: answer = dating_locked(lent_state(), state_len, call->x); hold(answer <= (unsigned)could, "a lock of no register"); say(call, 0); break;
    case 11:
        answer = dating_withdrawn(lent_state(), state_len, call->x);
        hold(answer <= (unsigned)could, "a withdrawn record of no register");
        say(call, 0);
        break;
    case 12:
        answer = dating_total(lent_state(), state_len, call->label);
        hold(could ? (answer == DATING_REFUSED + 3) == (call->label > 25) : answer == DATING_REFUSED + 16, "a total of no register or of no label");
        say(call, 0);
        break;
    case 9: case 13: case 14: case 15: case 16: case 17: case 18: case 19: case 22: case 23: case 26: {
        const uint32_t *list = asked(call, call->operation == 14 || call->operation == 22 || call->operation == 23 ? WHOLE : TOTAL);
        hold(could || answer == DATING_REFUSED + 16 || (call->operation == 19 && answer == DATING_REFUSED + 15), "answers for words of no register");
        say(call, list_sum(call, list));
        agree(call, list);
        break;
    }
    case 20: {
        uint64_t calls[32];
        size_t count = call->further / 8;
        memcpy(calls, call->bytes, count * 8);
        uint64_t *lent_calls = lend_copy(&first_space, calls, count * 8);
        uint32_t *lent = lent_state();
        answer = dating_apply_all(lent, state_len, lent_calls, count);
        hold(answer == count || answer >= DATING_REFUSED, "makes another number of calls");
        hold(could || answer == DATING_REFUSED + 16, "accepts words of no register");
        hold(!memcmp(lent_calls, calls, count * 8), "changes the calls");
        edited(call, lent, answer < DATING_REFUSED);
        break;
    }
    case 21: {
        size_t room = least(call->room, NUMBERS);
        uint16_t *numbers = lend(&list_space, room * 2);
        memset(numbers, 0x3c, room * 2);
        uint32_t *lent = lent_state();
        size_t n = state_len ? state[0] : 0;
        answer = dating_close_up(lent, state_len, numbers, room);
        hold(answer == 0 || answer == 13 || answer == 16 || answer == 21, "answers closing up with an unknown number");
        hold(could || answer == 16, "accepts words of no register");
        for (size_t at = answer ? 0 : n; at < room; at++)
            hold(numbers[at] == 0x3c3c, "touches numbers past its answer");
        edited(call, lent, answer == 0);
        break;
    }
    case 24: {
        unsigned char *bytes = lend(&list_space, call->room);
        memset(bytes, 0x99, call->room);
        const unsigned char *text = lend_copy(&text_space, call->bytes, call->further);
        uint64_t *work = lend(&work_space, (size_t)call->work * 8);
        answer = dating_pages(lent_state(), state_len, text, call->further, work, call->work, bytes, call->room);
        all_intact();
        hold(could || answer == DATING_REFUSED + 16, "prints words of no register");
        size_t count = answer < DATING_NO_CHAIN ? answer : 0;
        hold(count <= call->room, "prints more than the space holds");
        for (size_t at = count; at < call->room; at++)
            hold(bytes[at] == 0x99, "touches bytes past its pages");
        if (answer < DATING_NO_CHAIN) {
            memcpy(pages, bytes, count);
            pages_len = count;
        }
        say(call, sum8(pages, pages_len));
        break;
    }
    case 25: {
        const unsigned char *text = lend_copy(&text_space, call->bytes, call->further), *lent = lend_copy(&first_space, pages, pages_len);
        uint32_t *list = lend(&list_space, call->room * 4);
        memset(list, 0x44, call->room * 4);
        answer = dating_read_pages(text, call->further, lent, pages_len, list, call->room);
        all_intact();
        hold(!memcmp(lent, pages, pages_len), "reading changes the pages");
        for (size_t at = answer < DATING_NO_CHAIN ? least(answer, call->room) : 0; at < call->room; at++)
            hold(list[at] == 0x44444444, "touches words past its answer");
        say(call, sum32(list, answer < DATING_NO_CHAIN ? least(answer, call->room) : 0));
        break;
    }
    case 27: {
        struct dating_tie ties[32];
        size_t count = call->further / 6, room = least(call->room, OFFSETS);
        memset(ties, 0, sizeof ties);
        for (size_t at = 0; at < count && at < 32; at++) {
            const unsigned char *b = call->bytes + 6 * at;
            ties[at].first = b[0], ties[at].second = b[1];
            ties[at].least = (b[2] + 256 * b[3]) - 32768, ties[at].most = (b[4] + 256 * b[5]) - 32768;
        }
        count = least(count, 32);
        const struct dating_tie *lent = lend_copy(&other_space, ties, count * sizeof *ties);
        int64_t *work = lend(&work_space, (size_t)call->work * 8);
        int32_t *list = lend(&list_space, room * 4);
        memset(work, 0x66, (size_t)call->work * 8);
        memset(list, 0x55, room * 4);
        answer = dating_offsets(lent_state(), state_len, call->x, lent, count, work, call->work, list, room);
        all_intact();
        hold(could || answer == DATING_REFUSED + 16, "offsets of words of no register");
        size_t words = answer < DATING_NO_CHAIN ? answer : 0;
        hold(words <= room, "answers with more than the list holds");
        for (size_t at = words; at < room; at++)
            hold(list[at] == 0x55555555, "touches words past its answer");
        uint64_t sum = 7;
        for (size_t at = 0; at < words; at++)
            sum = summed(sum, (uint64_t)((int64_t)list[at] + 4294967296));
        say(call, sum);
        break;
    }
    case 29: {
        size_t a = call->label % 3;
        const uint64_t *first = lend_copy(&first_space, tree[a], tree_len[a] * 8);
        uint32_t *list = lend(&list_space, call->room * 4);
        uint64_t *work = lend(&work_space, (size_t)call->work * 8);
        memset(list, 0x33, call->room * 4);
        answer = dating_tree_list(call->x, first, tree_len[a], list, call->room, work, call->work);
        all_intact();
        for (size_t at = answer < DATING_NO_CHAIN ? least(answer, call->room) : 0; at < call->room; at++)
            hold(list[at] == 0x33333333, "touches words past its answer");
        say(call, sum32(list, answer < DATING_NO_CHAIN ? least(answer, call->room) : 0));
        break;
    }
    case 28: case 30: case 31: case 32: case 33: case 34: case 35: tree_call(call); break;
    /* Damage: a word of the state, of a tree or a byte of pages; how much is lent. */
    case 36:
        state[call->x % STATE] = call->y + 65536u * call->work;
        made = 0;
        break;
    case 37:
        state_len = call->x % (STATE + 1);
        break;
    case 38:
        tree[call->label % 3][call->x % TREE] = call->y + 65536ull * call->work + 4294967296ull * call->room;
        break;
    case 39:
        tree_len[call->label % 3] = call->x % (TREE + 1);
        break;
    case 40:
        if (pages_len) {
            pages[call->x % pages_len] = call->label;
            if (call->y % 4 == 0)
                pages_len = call->y / 4 % (pages_len + 1);
        }
        break;
    default: begin();
    }
}

static void run(const unsigned char *bytes, size_t size) {
    if (!state_space.end) {
        prepare(&state_space, STATE * 4), prepare(&text_space, 256), prepare(&other_space, 1024), prepare(&work_space, WORK * 8);
        prepare(&list_space, LIST * 8), prepare(&first_space, PAGES), prepare(&second_space, TREE * 8);
    }
    begin();
    for (size_t at = 0, calls = 0; at + 11 <= size && calls < CALLS; calls++) {
        const unsigned char *b = bytes + at;
        size_t further = least(b[10], size - at - 11);
        struct call call = {b[0] % OPERATIONS, b[1] + 256u * b[2], b[3], b[4] + 256u * b[5], b[6] + 256u * b[7], b[8] + 256u * b[9], further, b + 11};
        at += 11 + call.further;
        one(&call);
    }
    if (told)
        fprintf(told, "%" PRIu64 "\n", sum32(state, STATE));
}

#ifdef REPLAY
int main(int count, char **names) {
    static unsigned char bytes[1 << 20];
    told = stdout;
    for (int at = 1; at < count; at++) {
        FILE *file = fopen(names[at], "rb");
        if (!file) {
            fprintf(stderr, "calls: cannot read %s\n", names[at]);
            return 2;
        }
        size_t size = fread(bytes, 1, sizeof bytes, file);
        fclose(file);
        run(bytes, size);
    }
    return 0;
}
#else
int LLVMFuzzerTestOneInput(const uint8_t *bytes, size_t size) {
    run(bytes, size);
    return 0;
}
#endif
