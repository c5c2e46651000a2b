/* The dating register and its path engine, from C. host/install PREFIX puts this file, libdating.a, libdating.so and a pkg-config file under
 * PREFIX; in the checkout, host/archive makes target/staticlib/libhost.a.
 *
 * A slice is lent as a pointer to its first word and its length in words. A call reads and writes nothing but what it is lent, whatever the
 * contents, and ends. What is written (state, list, out, tree, work) must not overlap what else is lent.
 *
 * A uint32_t answer is 0, or the number of a refusal, unless it says otherwise. A uint64_t answer is a total, or the number of words of the answer;
 * DATING_NO_CHAIN, or DATING_CANNOT_HOLD; DATING_LOOP plus the number of steps of a loop; or DATING_REFUSED plus the number of a refusal. Of links, totals,
 * marks, pairs, ends and starts (dating_links, dating_totals, dating_marks, dating_pairs, dating_tree_list, dating_preview, dating_pairs_by_rows, dating_ends,
 * dating_starts) it is the total, of which the first min(total, list_len) are written; any other answer that is longer than its list is refused. A refused
 * call leaves state and list as they were; words of a list past the answer, and of a state past DATING_STATE_WORDS, are never touched; work may hold anything
 * after a call. The numbers, of which a call gives the first that holds, in the order that stands beside it:
 *
 *    1  n outside 1 to 1,024                            12  work (or state) shorter than stated
 *    2  record not below n                              13  chain, loop, tree, numbers, records, offsets or pages
 *    3  label above 25                                      longer than the space for them
 *    4  an end of the link, or the record to            14  not the pages of the expression (in programs: frame
 *       withdraw, is locked                                 broken)
 *    5  link present, or record locked or               15  kind unknown
 *       withdrawn, already                              16  the words are not those of a register
 *    6  link absent, record not locked, or record       17  a link touches the record to withdraw
 *       to reinstate in use                             18  a withdrawn record named in add, remove, lock or
 *    7  4,096 links present                                 unlock, as base or in a tie
 *    8  no edit held that could be undone               19  a tie outside -20,000 to 20,000, with least above
 *    9  expression outside the grammar                      most, or beyond the 1,024th
 *   10  expression over 256 bytes, 63 letters or        20  anchors out of order or repeated
 *       8 deep                                          21  no record in use
 *   11  lent tree not well formed
 *
 * host/declarations writes the functions of this file from the Rattle source.
 */
#ifndef DATING_H
#define DATING_H

#include <stddef.h>
#include <stdint.h>

#ifdef __cplusplus
extern "C" {
#endif

/* The words of a register. Words saved before the totals were kept, which are fewer, are refused with 16: a register is built again by its edits. */
#define DATING_STATE_WORDS 5406
/* The words of work that are enough for every call with n records up to 1,024. */
#define DATING_WORK_WORDS 764608
/* No chain of any length. */
#define DATING_NO_CHAIN (UINT64_C(1) << 32)
/* Plus the number of steps of a loop (dating_generations). */
#define DATING_LOOP (UINT64_C(1) << 32)
/* No placing meets all ties. */
#define DATING_CANNOT_HOLD (UINT64_C(1) << 32)
/* Plus the number of a refusal. */
#define DATING_REFUSED (UINT64_C(1) << 33)
/* By what the place of a refused edit is multiplied (dating_apply_all). */
#define DATING_PLACE 32
/* In a list of new numbers, what stands for a withdrawn record. */
#define DATING_NO_NUMBER 65535

/* What the number of a refusal means: 0 is no refusal, and of a number that no call gives, "unknown". It is compiled into the program that calls it. */
static inline const char *dating_meaning(uint32_t number) {
    static const char *const meanings[] = {
        "done",
        "the number of records is outside 1 to 1,024",
        "a record is not below the number of records",
        "the label is above 25: it is no letter from a to z",
        "an end of the link, or the record to withdraw, is locked",
        "the link is present, or the record is locked or withdrawn, already",
        "the link is absent, the record is not locked, or the record to reinstate is in use",
        "4,096 links are present",
        "no edit is held that could be undone",
        "the expression is outside the grammar",
        "the expression is over 256 bytes, 63 letters or 8 deep",
        "the tree is not well formed",
        "the work is shorter than stated",
        "the chain, the loop, the tree, the numbers, the records, the offsets or the pages are longer than the space for them",
        "the frame is broken, or the bytes are not the pages of the expression",
        "the kind is unknown",
        "no register is opened: the words are not those of a register",
        "a link touches the record to withdraw",
        "the record is withdrawn",
        "a tie is outside -20,000 to 20,000, has its least above its most, or is beyond the 1,024th",
        "the anchors are out of order or repeated",
        "no record is in use",
    };
    return number < sizeof meanings / sizeof meanings[0] ? meanings[number] : "unknown";
}

/* A fresh register of n records at the front of the state: 0, 1, or 12 if it has fewer than DATING_STATE_WORDS words. */
uint32_t dating_fresh(uint16_t n, uint32_t *state, size_t state_len);

/* Edits: 0, or 16, or the first cause of 2, 18, 3, 4, 5, 6, 7, 17, each looked for in both ends of a link before the next. Labels 0 to 25 are the letters a
 * to z. The latest 256 accepted edits are held for undo. */
/* Puts a link in. */
uint32_t dating_add(uint32_t *state, size_t state_len, uint16_t from, uint8_t label, uint16_t to);
/* Takes a link out. */
uint32_t dating_remove(uint32_t *state, size_t state_len, uint16_t from, uint8_t label, uint16_t to);
/* Locks a record: links at it are neither put in nor taken out, and it is not withdrawn. */
uint32_t dating_lock(uint32_t *state, size_t state_len, uint16_t record);
/* Takes the lock off. */
uint32_t dating_unlock(uint32_t *state, size_t state_len, uint16_t record);
/* Withdraws a record that no link touches and that is not locked. A withdrawn record has no links and no lock, and supports nothing, not even
 * itself: no pair and no chain has it. */
uint32_t dating_withdraw(uint32_t *state, size_t state_len, uint16_t record);
/* Takes a withdrawn record into use again. */
uint32_t dating_reinstate(uint32_t *state, size_t state_len, uint16_t record);
/* Takes back the latest edit that is held: 0, 16, or 8 if none is. An undo is not held itself. */
uint32_t dating_undo(uint32_t *state, size_t state_len);

/* n; 0 if the words are no register's. */
uint32_t dating_size(const uint32_t *state, size_t state_len);
/* The links present, ascending, a word to a link: (label * 1024 + from) * 1024 + to. A list of 4,096 words takes them all. */
uint64_t dating_links(const uint32_t *state, size_t state_len, uint32_t *list, size_t list_len);
/* 1 if the record is locked, else 0: also of a record that is not below n, and if the words are no register's. */
uint32_t dating_locked(const uint32_t *state, size_t state_len, uint16_t record);
/* 1 if the record is withdrawn, else 0: likewise. */
uint32_t dating_withdrawn(const uint32_t *state, size_t state_len, uint16_t record);
/* The number of links with the label, which the register keeps: none is counted. A label above 25 is refused with 3. */
uint64_t dating_total(const uint32_t *state, size_t state_len, uint8_t label);

/* Questions. The text of an expression has no zero at its end: text_len is its bytes alone. Loosest is | between alternatives, then / between the parts of a
 * sequence. A part is an optional ^ (inverse), a letter, a negated set or a group in parentheses, and at most one of * + ?. A negated set with plain members,
 * !a or !(a|b), crosses forward any link whose letter is none of them; one with ^ members, !^a, crosses against its sense any link whose letter is none of
 * those; one with both, !(a|^b), does either. Refused with 16, then with the first of 2, 10 for bytes, 9, 10 for letters and depth, 12, 13. */
/* The pairs that the expression joins, ascending, each once, a word to a pair: from * 1024 + to. A list of n * n words takes them all. Work of 32 * D words,
 * where D is 4 * (s * s - 1) / 3 / 64, rounded up, and s the smallest power of two that is at least n, and at least 2. dating_pairs_by_rows gives the same
 * faster. */
uint64_t dating_pairs(const uint32_t *state, size_t state_len, const uint8_t *text, size_t text_len, uint64_t *work, size_t work_len,
                      uint32_t *list, size_t list_len);
/* The first of the shortest chains, in the order of its steps, a word to a step: (label * 2 + sense) * 1024 + record reached, sense 0 forward and 1 against;
 * the number of steps, 0 for the chain of none, or DATING_NO_CHAIN, which writes nothing. No chain is longer than 63 * n steps. Work of 64 * n words. */
uint64_t dating_chain(const uint32_t *state, size_t state_len, uint16_t from, uint16_t to, const uint8_t *text, size_t text_len,
                      uint64_t *work, size_t work_len, uint32_t *list, size_t list_len);
/* The ends of a record, ascending, a word to a record: those that a chain leads to from it. A list of n words takes them all. It needs no work. */
uint64_t dating_ends(const uint32_t *state, size_t state_len, uint16_t from, const uint8_t *text, size_t text_len, uint32_t *list, size_t list_len);
/* The starts of a record, likewise: those from which a chain leads to it. */
uint64_t dating_starts(const uint32_t *state, size_t state_len, uint16_t to, const uint8_t *text, size_t text_len, uint32_t *list, size_t list_len);

/* The 26 totals, from label 0 on, a word to a label; 26. */
uint64_t dating_totals(const uint32_t *state, size_t state_len, uint32_t *list, size_t list_len);
/* The marks of the n records, from record 0 on, a word to a record: 0 free, 1 locked, 2 withdrawn; n. */
uint64_t dating_marks(const uint32_t *state, size_t state_len, uint32_t *list, size_t list_len);

/* k2-trees of pairs below n, each lent as exactly its words: the number of words of the tree that is written, at most D, or of the pairs. Bit 0 is the
 * lowest of the first word; the empty set has no words. Work as for dating_pairs. Refused with the first of 1, 2, 11, 12, 13. */
/* The tree of pair words in any order, with repeats. */
uint64_t dating_tree_make(size_t n, const uint32_t *pairs, size_t pairs_len, uint64_t *tree, size_t tree_len, uint64_t *work, size_t work_len);
/* The pair words of a tree, ascending. */
uint64_t dating_tree_list(size_t n, const uint64_t *tree, size_t tree_len, uint32_t *list, size_t list_len, uint64_t *work, size_t work_len);
/* The pairs in either. */
uint64_t dating_tree_union(size_t n, const uint64_t *a, size_t a_len, const uint64_t *b, size_t b_len, uint64_t *out, size_t out_len,
                           uint64_t *work, size_t work_len);
/* The pairs in both. */
uint64_t dating_tree_intersection(size_t n, const uint64_t *a, size_t a_len, const uint64_t *b, size_t b_len, uint64_t *out, size_t out_len,
                                  uint64_t *work, size_t work_len);
/* The pairs in the first and not in the second. */
uint64_t dating_tree_difference(size_t n, const uint64_t *a, size_t a_len, const uint64_t *b, size_t b_len, uint64_t *out, size_t out_len,
                                uint64_t *work, size_t work_len);
/* The pairs (x, z) with (x, y) in the first and (y, z) in the second. Each operand is read with its sense: 0 plain, any other with its pairs exchanged. */
uint64_t dating_tree_product(size_t n, const uint64_t *a, size_t a_len, uint8_t a_sense, const uint64_t *b, size_t b_len, uint8_t b_sense,
                             uint64_t *out, size_t out_len, uint64_t *work, size_t work_len);
/* Each pair exchanged. */
uint64_t dating_tree_transpose(size_t n, const uint64_t *a, size_t a_len, uint64_t *out, size_t out_len, uint64_t *work, size_t work_len);
/* The pairs joined by one or more pairs, one after the other. */
uint64_t dating_tree_closure(size_t n, const uint64_t *a, size_t a_len, uint64_t *out, size_t out_len, uint64_t *work, size_t work_len);

/* A preview: what dating_pairs would give if one edit or undo were made, which is not made; the state stays as it is. The kind is a frame's: 2 add,
 * 3 remove, 4 lock, 5 unlock, 6 undo, 10 withdraw, 11 reinstate; any other is refused with 15. A record alone is `from`. 15 comes first, then 16,
 * the edit's numbers and the question's. Work and list as for dating_pairs. */
uint64_t dating_preview(const uint32_t *state, size_t state_len, uint16_t kind, uint16_t from, uint8_t label, uint16_t to, const uint8_t *text, size_t text_len,
                        uint64_t *work, size_t work_len, uint32_t *list, size_t list_len);
/* A list of edits and undos made as one: every call of it, or none. A call is a word: its kind, as above, times 2^40, from or the record times 2^24, the
 * label times 2^16, and to; closing up and any other kind are refused with 15. Each is asked as if those before it were made. The answer is the number of
 * calls if all were accepted, and then each of them is held for undo. Otherwise the state stays as it is, and the answer is DATING_REFUSED plus DATING_PLACE
 * times the place of the first refused call, from 0, plus its number; 16 stands at the place 0, and so does 14 for 2^32 calls or more. To ask what a list would
 * give, make it on a copy of the state. */
uint64_t dating_apply_all(uint32_t *state, size_t state_len, const uint64_t *calls, size_t calls_len);
/* Closes up the numbers: the records in use are numbered from 0 in their old order, n is lowered to their count, and links, locks and totals follow. The list
 * takes, for each old number ascending, the new one, or DATING_NO_NUMBER for a withdrawn record; words past the old n are left. Held edits are dropped. 16,
 * then 21 if no record is in use, then 13 if the list is shorter than the old n. */
uint32_t dating_close_up(uint32_t *state, size_t state_len, uint16_t *numbers, size_t numbers_len);

/* Of the links that have one of the labels, in any order and with repeats: how long the longest run of them that ends at each record is, crossed forward, a
 * word to a record in use, ascending by record. If some record can return to itself by them, DATING_LOOP plus the number of steps instead: the first of the
 * shortest such chains from the smallest record that can back to itself, as step words. Work of 64 * n words. A list of n words is
 * long enough for either: a shortest loop reaches no record twice. Refused with 16, 3, 12 and 13, in this order. */
uint64_t dating_generations(const uint32_t *state, size_t state_len, const uint8_t *labels, size_t labels_len, uint64_t *work, size_t work_len,
                            uint32_t *list, size_t list_len);

/* Sole support: the records but the core, ascending, that have a chain to some anchor and none to any once the links that touch the core are gone. Locks
 * play no part. Anchors ascend, each once. Their number; a list of n words is long enough. Work of 32 * D + 64 * n words. Refused with 16, 2, 20, and then as
 * dating_chain is. */
uint64_t dating_sole_support(const uint32_t *state, size_t state_len, uint16_t core, const uint8_t *text, size_t text_len,
                             const uint16_t *anchors, size_t anchors_len, uint64_t *work, size_t work_len, uint32_t *list, size_t list_len);

/* The pairs that the expression joins, as printed pages of lines of 72 bytes and a line feed: the bytes written. A space that cannot hold every page is
 * refused with 13, after all that dating_pairs is refused with; k pairs take 73 * (k / 6 rounded up + heads) bytes, where heads is k / 354 rounded up, and
 * at least 1. Work as for dating_pairs. */
uint64_t dating_pages(const uint32_t *state, size_t state_len, const uint8_t *text, size_t text_len, uint64_t *work, size_t work_len,
                      uint8_t *pages, size_t pages_len);
/* The pairs that pages show, ascending, as pair words: their number, at most 6 to each 73 bytes. It needs no register and no work. Refused with 10 for
 * bytes, 9, 10 for letters and depth, 14 for bytes that are not the pages of the expression and some ascending list of different pairs, 13 for a list that
 * is too short for them. */
uint64_t dating_read_pages(const uint8_t *text, size_t text_len, const uint8_t *pages, size_t pages_len, uint32_t *list, size_t list_len);

/* The pairs as dating_pairs gives them, by the engine on rows of bits, which is the faster one. Work of 32 * n * w words, where w is n / 64, rounded up. */
uint64_t dating_pairs_by_rows(const uint32_t *state, size_t state_len, const uint8_t *text, size_t text_len, uint64_t *work, size_t work_len,
                              uint32_t *list, size_t list_len);

/* A tie: the second record begins at least least and at most most rings after the first, each from -20,000 to 20,000. */
struct dating_tie {
    uint16_t first, second;
    int32_t least, most;
};
/* How many rings each record begins after the base in every placing of whole years that meets all ties, at most 1,024: two words to a
 * record, ascending by record: the narrowest least and most, or 1 and 0 for a record that ties do not join to the base. The number of words, 2 * n, for which
 * the list must have room; or DATING_CANNOT_HOLD if no placing meets all ties, also those away from the base, and then nothing is written. Work of 64 * n
 * words. Refused with 16, 2, 18, 19, 12, each looked for in the base and all ties before the next; 13 comes after DATING_CANNOT_HOLD. */
uint64_t dating_offsets(const uint32_t *state, size_t state_len, uint16_t base, const struct dating_tie *ties, size_t ties_len, int64_t *work, size_t work_len,
                        int32_t *list, size_t list_len);

#ifdef __cplusplus
}
#endif

#endif
