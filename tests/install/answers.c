#include "answers.h"

#include <string.h>

#include <vornulica.h>

/* Every number below stands in 01, under "Examples", but for the place of P12, which 02 gives with order 1, and what
   follows from the example of order 2. The host's number: number + 256 x third + 2^32 x place. */
#define ANSWER(number, third, place) ((uint64_t)(number) + 256 * (uint64_t)(third) + ((uint64_t)(place) << 32))

/* clang-format off */

/* F. */
static const uint8_t facts[] = {
    0, 28, 1, 1, 0, 4,
    1, 0, 9, 0,  1, 0, 2, 0,  3, 0, 1, 1,  3, 0, 1, 2,  1, 1, 16, 0,  1, 2, 2, 0,
};

/* Of P12: joint 2 has kind 3. */
static const uint8_t clashing_fact[] = {0, 8, 1, 1, 0, 4,  1, 2, 3, 0};

/* Of P6, P7 and P8: rule joint 0 is tied to rig joint 0. */
static const uint8_t applying_rule[] = {0, 18, 1, 2, 1, 2,  0, 0,  1, 0, 9, 0,  3, 0, 1, 1,  1, 1, 2, 0};
static const uint8_t ruled_out_rule[] = {0, 18, 1, 2, 1, 2,  0, 0,  1, 0, 9, 0,  3, 0, 1, 1,  1, 1, 3, 0};
static const uint8_t waiting_rule[] = {0, 10, 1, 2, 1, 1,  0, 0,  1, 0, 21, 0};

/* Two rule joints, no facts, joint 0 tied. */
static const uint8_t unreached_rule[] = {0, 6, 1, 2, 1, 2,  0, 0};

/* P5. */
static const uint8_t solved_form[] = {
    0x00, 0x14, 0x01, 0x01, 0x00, 0x04,
    0x01, 0x00, 0x0b, 0x00,  0x03, 0x00, 0x01, 0x01,  0x01, 0x01, 0x17, 0x00,  0x02, 0x02, 0x01, 0x00,
};

/* What the term of 02 says: 0 has kind 11, 0.1 is 1, 1 has kind 16, 0.2 is 3. */
static const char term[] = "@0:11(1=>@1:16,2=>@3)";
static const uint8_t typed_facts[] = {
    0, 20, 1, 1, 0, 4,
    1, 0, 11, 0,  3, 0, 1, 1,  1, 1, 16, 0,  3, 0, 2, 3,
};

/* clang-format on */

/* The term read, taken by a fresh session and written again; from joint 1 there is no tree, and joint 4 is none. */
static int wrong_answers_of_terms(const uint8_t* table, size_t table_size)
{
    const size_t term_size = sizeof term - 1;
    uint8_t text[sizeof term - 1];
    uint8_t block[RIG_BLOCK_SIZE];
    uint8_t out[sizeof typed_facts];
    int wrong = 0;
    memcpy(text, term, term_size);
    wrong += rig_open(33, 4, table, table_size, block, sizeof block) != ANSWER(0, 0, 0);
    wrong += rig_read_term(block, sizeof block, text, term_size, out, sizeof out) != ANSWER(0, sizeof typed_facts, 0);
    wrong += memcmp(out, typed_facts, sizeof typed_facts) != 0;
    wrong += rig_read_term(block, sizeof block, text, term_size - 1, out, sizeof out) != ANSWER(20, 0, term_size - 1);
    wrong += rig_take(block, sizeof block, out, sizeof out) != ANSWER(0, 0, 0);
    wrong += rig_write_term(block, sizeof block, 0, out, sizeof out) != ANSWER(0, term_size, 0);
    wrong += memcmp(out, term, term_size) != 0;
    wrong += rig_write_term(block, sizeof block, 1, out, sizeof out) != ANSWER(23, 0, 0);
    wrong += rig_write_term(block, sizeof block, 4, out, sizeof out) != ANSWER(21, 0, 0);
    return wrong;
}

int wrong_answers(void)
{
    uint8_t table[RIG_HOUSE_TABLE_SIZE];
    uint8_t block[RIG_BLOCK_SIZE];
    uint8_t out[sizeof solved_form];
    int wrong = 0;

    /* P1 to P3. */
    wrong += rig_house(table, sizeof table) != ANSWER(0, 0, 0);
    wrong += table[2 * 33 + 9] != 11 || table[3 * 33 + 17] != 26 || table[11 * 33 + 18] != 0;

    wrong += rig_open(33, 4, table, sizeof table, block, sizeof block) != ANSWER(0, 0, 0);
    wrong += rig_take(block, sizeof block, facts, sizeof facts) != ANSWER(0, 1, 0);
    wrong += rig_take(block, sizeof block, clashing_fact, sizeof clashing_fact) != ANSWER(11, 0, 6);
    wrong += rig_ask(block, sizeof block, applying_rule, sizeof applying_rule) != ANSWER(0, 1, 0);
    wrong += rig_ask(block, sizeof block, ruled_out_rule, sizeof ruled_out_rule) != ANSWER(0, 2, 0);
    wrong += rig_ask(block, sizeof block, waiting_rule, sizeof waiting_rule) != ANSWER(0, 3, 0);
    wrong += rig_ask(block, sizeof block, unreached_rule, sizeof unreached_rule) != ANSWER(10, 0, 1);
    wrong += rig_write(block, sizeof block, out, sizeof out) != ANSWER(0, sizeof solved_form, 0);
    wrong += memcmp(out, solved_form, sizeof solved_form) != 0;
    return wrong + wrong_answers_of_terms(table, sizeof table);
}
