/*
 * The plain functions of the C headers, compiled as C: the examples of document 01 built, asked, read back and shown,
 * and that of order 2 of document 02 typed.
 * That they lay the right bytes in general is shown by packets.cpp and blocks.cpp.
 */

#include "expect.h"
#include "vornulica_blocks.h"
#include "vornulica_packets.h"

static uint8_t table[RIG_HOUSE_TABLE_SIZE];
static uint8_t block[RIG_BLOCK_SIZE];
static uint8_t bytes[RIG_MAX_RULE_SIZE];

static struct rig_joint rig(size_t number) { return rig_joint_of(number); }

static struct rig_rule_joint rule(size_t number) { return rig_rule_joint_of(number); }

/* F of the examples, by the builder. */
static void facts_of_the_examples(void)
{
    static const uint8_t wanted[] = {0, 28, 1, 1, 0, 4, 1, 0, 9, 0,  1, 0, 2, 0, 3,
                                     0, 1,  1, 3, 0, 1, 2, 1, 1, 16, 0, 1, 2, 2, 0};
    struct rig_facts_builder facts = rig_facts_begin(bytes, sizeof bytes, 4);
    uint64_t taken;
    EXPECT(rig_facts_kind(&facts, rig(0), RIG_KIND_ARM_PART));
    EXPECT(rig_facts_kind(&facts, rig(0), RIG_KIND_LEFT));
    EXPECT(rig_facts_link(&facts, rig(0), 1, rig(1)));
    EXPECT(rig_facts_link(&facts, rig(0), 1, rig(2)));
    EXPECT(rig_facts_kind(&facts, rig(1), RIG_KIND_FOREARM));
    EXPECT(rig_facts_kind(&facts, rig(2), RIG_KIND_LEFT));
    EXPECT(rig_facts_size(&facts) == sizeof wanted && memcmp(bytes, wanted, sizeof wanted) == 0);

    EXPECT(rig_is_done(rig_house(table, sizeof table)));
    EXPECT(!rig_block_is_good(block, sizeof block));
    EXPECT(rig_is_done(rig_open(RIG_HOUSE_KINDS, 4, table, sizeof table, block, sizeof block)));
    EXPECT(rig_block_is_good(block, sizeof block));
    taken = rig_take(block, sizeof block, bytes, rig_facts_size(&facts));
    EXPECT(rig_is_done(taken) && rig_third(taken) == 1);
}

/* P10, P6 and P7; the tie comes after the facts. */
static void rules_of_the_examples(void)
{
    static const uint8_t wanted[] = {0, 18, 1, 2, 1, 2, 0, 0, 1, 0, 9, 0, 3, 0, 1, 1, 1, 1, 2, 0};
    struct rig_rule_builder asked = rig_rule_begin(bytes, sizeof bytes, 1);
    EXPECT(rig_rule_tie(&asked, rule(0), rig(1)) && rig_rule_tie(&asked, rule(0), rig(2)));
    EXPECT(rig_third(rig_ask(block, sizeof block, bytes, rig_rule_size(&asked))) == RIG_APPLIES);

    asked = rig_rule_begin(bytes, sizeof bytes, 2);
    EXPECT(rig_rule_kind(&asked, rule(0), RIG_KIND_ARM_PART));
    EXPECT(rig_rule_link(&asked, rule(0), 1, rule(1)));
    EXPECT(rig_rule_kind(&asked, rule(1), RIG_KIND_LEFT));
    EXPECT(rig_rule_tie(&asked, rule(0), rig(0)));
    EXPECT(rig_rule_size(&asked) == sizeof wanted && memcmp(bytes, wanted, sizeof wanted) == 0);
    EXPECT(rig_third(rig_ask(block, sizeof block, bytes, rig_rule_size(&asked))) == RIG_APPLIES);
    EXPECT(rig_rule_kind(&asked, rule(1), RIG_KIND_RIGHT));
    EXPECT(rig_third(rig_ask(block, sizeof block, bytes, rig_rule_size(&asked))) == RIG_RULED_OUT);
    EXPECT(rig_rule_same(&asked, rule(0), rule(1)));
}

/* P5 read as a packet, and the block as it stands after F. */
static void what_is_known(void)
{
    struct rig_packet read;
    struct rig_fact fact;
    struct rig_rule_fact rule_fact;
    struct rig_tie tie;
    struct rig_known known;
    const uint64_t written = rig_write(block, sizeof block, bytes, sizeof bytes);

    read = rig_packet_read(bytes, rig_third(written));
    EXPECT(read.form == RIG_FORM_GOOD && read.length == 20 && read.version == 1 && read.purpose == RIG_FACTS);
    EXPECT(read.joint_count == 4 && read.ties == 0 && read.facts == 4);
    EXPECT(rig_packet_fact(&read, 0, &fact) && fact.tag == RIG_HAS_KIND && fact.joint.number == 0);
    EXPECT(fact.number == RIG_KIND_LEFT_ARM && fact.other.number == 0 && fact.unused == 0);
    EXPECT(rig_packet_fact(&read, 1, &fact) && fact.tag == RIG_LINK_LEADS && fact.joint.number == 0);
    EXPECT(fact.number == 1 && fact.other.number == 1);
    EXPECT(rig_packet_fact(&read, 3, &fact) && fact.tag == RIG_IS_ONE_WITH && fact.joint.number == 2);
    EXPECT(fact.number == 0 && fact.other.number == 1);
    EXPECT(!rig_packet_fact(&read, 4, &fact));
    EXPECT(!rig_packet_rule_fact(&read, 0, &rule_fact));
    EXPECT(!rig_packet_tie(&read, 0, &tie));

    EXPECT(rig_block_kinds(block, sizeof block) == 33 && rig_block_joints(block, sizeof block) == 4);
    EXPECT(rig_block_joint(block, sizeof block, rig(2), &known));
    EXPECT(known.smallest.number == 1 && known.kind == RIG_KIND_LEFT_FOREARM && known.links[0] == RIG_NOT_KNOWN);
    EXPECT(rig_block_joint(block, sizeof block, rig(0), &known));
    EXPECT(known.smallest.number == 0 && known.kind == RIG_KIND_LEFT_ARM && known.links[1] == 1);
    EXPECT(!rig_block_joint(block, sizeof block, rig(4), &known));
    EXPECT(!rig_block_joint(block, sizeof block - 1, rig(0), &known));
}

/* Behind F, of which joint 2 is left, the second of these clashes. */
static void clashing_fact(void)
{
    struct rig_facts_builder facts = rig_facts_begin(bytes, sizeof bytes, 4);
    struct rig_packet sent;
    struct rig_fact fact;
    uint64_t answer;
    EXPECT(rig_facts_kind(&facts, rig(3), RIG_KIND_HEAD));
    EXPECT(rig_facts_kind(&facts, rig(2), RIG_KIND_RIGHT));
    EXPECT(rig_facts_kind(&facts, rig(3), RIG_KIND_HAND));
    answer = rig_take(block, sizeof block, bytes, rig_facts_size(&facts));
    EXPECT(rig_number(answer) == RIG_CLASH && rig_place(answer) == 10);
    sent = rig_packet_read(bytes, rig_facts_size(&facts));
    EXPECT(rig_fact_number(&sent, rig_place(answer)) == 1);
    EXPECT(rig_packet_fact(&sent, rig_fact_number(&sent, rig_place(answer)), &fact));
    EXPECT(fact.tag == RIG_HAS_KIND && fact.joint.number == 2 && fact.number == RIG_KIND_RIGHT);
}

/* A rig typed as a term, taken and shown. */
static void typed_rig(void)
{
    static const char term[] = "@0:11(1=>@1:16,2=>@3)";
    static const uint8_t wanted[] = {0, 20, 1, 1, 0, 4, 1, 0, 11, 0, 3, 0, 1, 1, 1, 1, 16, 0, 3, 0, 2, 3};
    uint8_t text[RIG_MAX_WRITTEN_TERM_SIZE];
    uint64_t answer;
    EXPECT(rig_is_done(rig_open(RIG_HOUSE_KINDS, 4, table, sizeof table, block, sizeof block)));
    answer = rig_read_term(block, sizeof block, (const uint8_t*)term, sizeof term - 1, bytes, sizeof bytes);
    EXPECT(rig_is_done(answer) && rig_third(answer) == sizeof wanted && memcmp(bytes, wanted, sizeof wanted) == 0);
    EXPECT(rig_is_done(rig_take(block, sizeof block, bytes, rig_third(answer))));
    answer = rig_write_term(block, sizeof block, 0, text, sizeof text);
    EXPECT(rig_is_done(answer) && rig_third(answer) == sizeof term - 1 && memcmp(text, term, sizeof term - 1) == 0);
    /* With the closing 0 it is no term. */
    answer = rig_read_term(block, sizeof block, (const uint8_t*)term, sizeof term, bytes, sizeof bytes);
    EXPECT(rig_number(answer) == RIG_NO_TERM && rig_place(answer) == sizeof term - 1);
}

/* What does not fit is told, and leaves no packet in the buffer either. */
static void full_buffers(void)
{
    struct rig_facts_builder facts = rig_facts_begin(bytes, 13, 4);
    EXPECT(rig_facts_same(&facts, rig(0), rig(1)) && rig_facts_size(&facts) == 10);
    EXPECT(!rig_facts_same(&facts, rig(0), rig(2)) && rig_facts_size(&facts) == 0);
    EXPECT(facts.packet.state == RIG_BUFFER_FULL);
    EXPECT(rig_number(rig_take(block, sizeof block, bytes, rig_facts_size(&facts))) == RIG_BAD_LENGTH);
    EXPECT(rig_number(rig_take(block, sizeof block, bytes, 10)) == RIG_BAD_LENGTH);
    facts = rig_facts_begin(NULL, 0, 4);
    EXPECT(rig_facts_size(&facts) == 0 && facts.packet.state == RIG_BUFFER_FULL);
}

int main(void)
{
    facts_of_the_examples();
    rules_of_the_examples();
    what_is_known();
    clashing_fact();
    typed_rig();
    full_buffers();
    return expectations_missed == 0 ? 0 : 1;
}
