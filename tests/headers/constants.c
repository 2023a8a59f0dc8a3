/*
 * Each number of vornulica.h against the library, by a call that gives it. The inputs are worked out from documents 01
 * and 02 and laid by hand, with the header's number in them or behind them, so that a changed number shows. The
 * version, which no call gives, is held against that of CMakeLists.txt and that of CHANGELOG.md: versions.inc, made of
 * them by the script beside this file, has a line VERSION("major.minor.patch") for each.
 */

#include "expect.h"
#include "vornulica.h"

#include <string.h>

/* The most that any input here needs. */
static uint8_t table[(RIG_MAX_KINDS + 1) * (RIG_MAX_KINDS + 1)];
static uint8_t block[RIG_BLOCK_SIZE + 1];
static uint8_t packet[65537];
static uint8_t out[65537];
static uint8_t text[RIG_MAX_TEXT_SIZE + 1];

/* A lawful table of n kinds: no two but "any" have a meet. */
static void lay_flat_table(size_t n)
{
    size_t i;
    memset(table, 0, sizeof table);
    for (i = 0; i < n; i++)
        table[i * n + i] = table[i * n + 1] = table[n + i] = (uint8_t)i;
}

static uint64_t open_flat(size_t n, size_t v)
{
    lay_flat_table(n);
    return rig_open(n, v, table, n * n, block, RIG_BLOCK_SIZE);
}

static void open_house(size_t v)
{
    EXPECT(rig_is_done(rig_house(table, RIG_HOUSE_TABLE_SIZE)));
    EXPECT(rig_is_done(rig_open(RIG_HOUSE_KINDS, v, table, RIG_HOUSE_TABLE_SIZE, block, RIG_BLOCK_SIZE)));
}

/* Packets are laid part by part. */
static size_t size;

static void begin(unsigned purpose, size_t ties, size_t joints)
{
    size = 6;
    packet[2] = RIG_PACKET_VERSION;
    packet[3] = (uint8_t)purpose;
    packet[4] = (uint8_t)ties;
    packet[5] = (uint8_t)joints;
}

static void tie(size_t rule_joint, size_t rig_joint)
{
    packet[size++] = (uint8_t)rule_joint;
    packet[size++] = (uint8_t)rig_joint;
}

static void fact(unsigned tag, size_t a, size_t b, size_t c)
{
    packet[size++] = (uint8_t)tag;
    packet[size++] = (uint8_t)a;
    packet[size++] = (uint8_t)b;
    packet[size++] = (uint8_t)c;
}

static void state_length(void)
{
    packet[0] = (uint8_t)((size - 2) / 256);
    packet[1] = (uint8_t)((size - 2) % 256);
}

static uint64_t take(void)
{
    state_length();
    return rig_take(block, RIG_BLOCK_SIZE, packet, size);
}

static uint64_t ask(void)
{
    state_length();
    return rig_ask(block, RIG_BLOCK_SIZE, packet, size);
}

static bool is_refused(uint64_t answer, unsigned number, size_t place)
{
    return !rig_is_done(answer) && rig_number(answer) == number && rig_place(answer) == place && rig_third(answer) == 0;
}

static bool is_done_with(uint64_t answer, size_t third)
{
    return rig_is_done(answer) && rig_number(answer) == RIG_DONE && rig_place(answer) == 0 &&
           rig_third(answer) == third;
}

/* F of the examples. */
static void take_f(void)
{
    begin(RIG_FACTS, 0, 4);
    fact(RIG_HAS_KIND, 0, 9, 0);
    fact(RIG_HAS_KIND, 0, 2, 0);
    fact(RIG_LINK_LEADS, 0, 1, 1);
    fact(RIG_LINK_LEADS, 0, 1, 2);
    fact(RIG_HAS_KIND, 1, 16, 0);
    fact(RIG_HAS_KIND, 2, 2, 0);
    EXPECT(is_done_with(take(), 1));
}

static void sizes_of_tables_and_blocks(void)
{
    EXPECT(is_done_with(open_flat(RIG_MIN_KINDS, 4), 0));
    EXPECT(is_refused(open_flat(RIG_MIN_KINDS - 1, 4), RIG_BAD_SIZE, 0));
    EXPECT(is_done_with(open_flat(RIG_MAX_KINDS, 4), 0));
    EXPECT(is_refused(open_flat(RIG_MAX_KINDS + 1, 4), RIG_BAD_SIZE, 0));
    EXPECT(is_done_with(open_flat(5, RIG_MIN_JOINTS), 0));
    EXPECT(is_refused(open_flat(5, RIG_MIN_JOINTS - 1), RIG_BAD_SIZE, 0));
    EXPECT(is_done_with(open_flat(5, RIG_MAX_JOINTS), 0));
    EXPECT(is_refused(open_flat(5, RIG_MAX_JOINTS + 1), RIG_BAD_SIZE, 0));

    EXPECT(is_refused(rig_open(5, 4, table, 25, block, RIG_BLOCK_SIZE - 1), RIG_BAD_SIZE, 0));
    EXPECT(is_refused(rig_open(5, 4, table, 25, block, RIG_BLOCK_SIZE + 1), RIG_BAD_SIZE, 0));

    EXPECT(is_done_with(rig_house(out, RIG_HOUSE_TABLE_SIZE), 0));
    EXPECT(is_refused(rig_house(out, RIG_HOUSE_TABLE_SIZE - 1), RIG_BAD_SIZE, 0));
    EXPECT(is_refused(rig_house(out, RIG_HOUSE_TABLE_SIZE + 1), RIG_BAD_SIZE, 0));
    EXPECT(is_done_with(rig_open(RIG_HOUSE_KINDS, 4, out, RIG_HOUSE_TABLE_SIZE, block, RIG_BLOCK_SIZE), 0));
}

static void tables_refused(void)
{
    lay_flat_table(5);
    table[2 * 5 + 3] = 5;
    EXPECT(is_refused(rig_open(5, 4, table, 25, block, RIG_BLOCK_SIZE), RIG_NO_KIND, 13));
    table[2 * 5 + 3] = 4;
    EXPECT(is_refused(rig_open(5, 4, table, 25, block, RIG_BLOCK_SIZE), RIG_LAW_BROKEN, 13));
}

/* A rule of so many ties of its joint 0 to rig joint 0, so many joints in a chain of link 0, and so many facts more. */
static uint64_t ask_of_size(size_t ties, size_t joints, size_t more_facts)
{
    size_t i;
    begin(RIG_RULE, ties, joints);
    for (i = 0; i < ties; i++)
        tie(0, 0);
    for (i = 1; i < joints; i++)
        fact(RIG_LINK_LEADS, i - 1, 0, i);
    for (i = 0; i < more_facts; i++)
        fact(RIG_HAS_KIND, 0, 1, 0);
    return ask();
}

static void sizes_of_rules(void)
{
    open_house(4);
    EXPECT(is_done_with(ask_of_size(RIG_MIN_TIES, 1, 0), RIG_APPLIES));
    EXPECT(is_refused(ask_of_size(RIG_MIN_TIES - 1, 1, 0), RIG_BAD_HEADER, 4));
    EXPECT(is_done_with(ask_of_size(RIG_MAX_TIES, 1, 0), RIG_APPLIES));
    EXPECT(is_refused(ask_of_size(RIG_MAX_TIES + 1, 1, 0), RIG_BAD_HEADER, 4));
    EXPECT(is_done_with(ask_of_size(1, RIG_MIN_RULE_JOINTS, 0), RIG_APPLIES));
    EXPECT(is_refused(ask_of_size(1, RIG_MIN_RULE_JOINTS - 1, 0), RIG_BAD_HEADER, 5));
    EXPECT(is_done_with(ask_of_size(1, RIG_MAX_RULE_JOINTS, 0), RIG_WAITS));
    EXPECT(is_refused(ask_of_size(1, RIG_MAX_RULE_JOINTS + 1, 0), RIG_BAD_HEADER, 5));

    EXPECT(is_done_with(ask_of_size(RIG_MAX_TIES, 1, RIG_MAX_FACTS), RIG_APPLIES));
    EXPECT(size == RIG_MAX_RULE_SIZE);
    EXPECT(is_refused(ask_of_size(RIG_MAX_TIES, 1, RIG_MAX_FACTS + 1), RIG_BAD_COUNT, 0));
}

/* Every joint has a kind and all links: no solved form is longer. */
static void sizes_of_facts(void)
{
    size_t joint, link;
    open_house(64);
    begin(RIG_FACTS, 0, 64);
    for (joint = 0; joint < 64; joint++) {
        fact(RIG_HAS_KIND, joint, 2, 0);
        for (link = 0; link < RIG_LINKS; link++)
            fact(RIG_LINK_LEADS, joint, link, joint);
    }
    EXPECT(size == RIG_MAX_FACTS_SIZE);
    EXPECT(size == RIG_HEAD_SIZE + RIG_FACT_SIZE * RIG_MAX_FACTS);
    EXPECT(is_done_with(take(), 0));
    EXPECT(is_done_with(rig_write(block, RIG_BLOCK_SIZE, out, RIG_MAX_FACTS_SIZE), RIG_MAX_FACTS_SIZE));
    EXPECT(memcmp(out, packet, RIG_MAX_FACTS_SIZE) == 0);
    EXPECT(is_refused(rig_write(block, RIG_BLOCK_SIZE, out, RIG_MAX_FACTS_SIZE - 1), RIG_SHORT_OUTPUT, 0));
    fact(RIG_HAS_KIND, 0, 2, 0);
    EXPECT(is_refused(take(), RIG_BAD_COUNT, 0));

    begin(RIG_FACTS, 0, 64);
    fact(RIG_LINK_LEADS, 0, RIG_LINKS, 0);
    EXPECT(is_refused(take(), RIG_BAD_PART, RIG_HEAD_SIZE));
}

static void packets_refused(void)
{
    open_house(4);
    begin(RIG_FACTS, 0, 4);
    EXPECT(size == RIG_HEAD_SIZE);
    EXPECT(is_done_with(take(), 0));
    EXPECT(is_refused(rig_take(block, RIG_BLOCK_SIZE, packet, RIG_HEAD_SIZE - 1), RIG_BAD_LENGTH, 0));
    EXPECT(is_refused(rig_take(block, RIG_BLOCK_SIZE, packet, RIG_HEAD_SIZE + 1), RIG_BAD_LENGTH, 0));
    packet[2] = RIG_PACKET_VERSION + 1;
    EXPECT(is_refused(take(), RIG_BAD_VERSION, 2));
    packet[2] = RIG_PACKET_VERSION - 1;
    EXPECT(is_refused(take(), RIG_BAD_VERSION, 2));
    packet[2] = RIG_PACKET_VERSION;
    packet[3] = RIG_RULE;
    EXPECT(is_refused(take(), RIG_BAD_HEADER, 3));

    begin(RIG_FACTS, 0, 4);
    fact(RIG_HAS_KIND, 0, 1, 0);
    fact(RIG_HAS_KIND, 4, 1, 0);
    EXPECT(is_refused(take(), RIG_BAD_PART, RIG_HEAD_SIZE + RIG_FACT_SIZE));
    begin(RIG_RULE, 2, 1);
    tie(0, 0);
    tie(1, 0);
    EXPECT(is_refused(ask(), RIG_BAD_PART, RIG_HEAD_SIZE + RIG_TIE_SIZE));

    begin(RIG_RULE, 1, 2);
    tie(0, 0);
    EXPECT(is_refused(ask(), RIG_NOT_REACHED, 1));
    begin(RIG_FACTS, 0, 4);
    fact(RIG_HAS_KIND, 0, 1, 0);
    fact(RIG_HAS_KIND, 0, 0, 0);
    fact(RIG_HAS_KIND, 0, 0, 0);
    EXPECT(is_refused(take(), RIG_CLASH, RIG_HEAD_SIZE + RIG_FACT_SIZE));

    memset(block, 0, sizeof block);
    begin(RIG_FACTS, 0, 4);
    EXPECT(is_refused(take(), RIG_BAD_BLOCK, 0));
}

static void layout_of_blocks(void)
{
    open_house(4);
    EXPECT(block[RIG_KIND_COUNT_AT] == 33);
    EXPECT(block[RIG_JOINT_COUNT_AT] == 4);
    take_f();
    EXPECT(memcmp(block + RIG_CLASSES_AT, "\x00\x01\x01\x03\x00", 5) == 0);
    EXPECT(memcmp(block + RIG_KINDS_AT, "\x0b\x17\x00\x01\x00", 5) == 0);
    EXPECT(block[RIG_LINKS_AT] == RIG_NOT_KNOWN && block[RIG_LINKS_AT + 1] == 1);
    EXPECT(block[RIG_LINKS_AT + 2] == RIG_NOT_KNOWN);
    EXPECT(block[RIG_LINKS_AT + 2 * RIG_LINKS - 1] == RIG_NOT_KNOWN && block[RIG_LINKS_AT + 2 * RIG_LINKS] == 0);
    EXPECT(memcmp(block + RIG_TABLE_AT, table, RIG_HOUSE_TABLE_SIZE) == 0);
    /* The table's first entry that is not 0 is meet(1,1). */
    EXPECT(block[RIG_TABLE_AT + RIG_HOUSE_KINDS] == 0 && block[RIG_TABLE_AT + RIG_HOUSE_KINDS + 1] == 1);

    begin(RIG_FACTS, 0, 4);
    fact(RIG_IS_ONE_WITH, 3, 1, 0);
    EXPECT(is_done_with(take(), 1));
    EXPECT(block[RIG_CLASSES_AT + 3] == 1);
}

/* P5 to P12. */
static void verdicts(void)
{
    static const uint8_t solved[22] = {0x00, 0x14, 0x01, 0x01, 0x00, 0x04, 0x01, 0x00, 0x0b, 0x00, 0x03,
                                       0x00, 0x01, 0x01, 0x01, 0x01, 0x17, 0x00, 0x02, 0x02, 0x01, 0x00};
    open_house(4);
    take_f();
    EXPECT(is_done_with(rig_write(block, RIG_BLOCK_SIZE, out, 22), 22) && memcmp(out, solved, 22) == 0);
    EXPECT(rig_write(block, RIG_BLOCK_SIZE, out, 22) == 256u * 22);
    EXPECT(is_refused(rig_write(block, RIG_BLOCK_SIZE, out, 21), RIG_SHORT_OUTPUT, 0));

    begin(RIG_RULE, 1, 2);
    tie(0, 0);
    fact(RIG_HAS_KIND, 0, 9, 0);
    fact(RIG_LINK_LEADS, 0, 1, 1);
    fact(RIG_HAS_KIND, 1, 2, 0);
    EXPECT(is_done_with(ask(), RIG_APPLIES));
    packet[18] = 3;
    EXPECT(is_done_with(ask(), RIG_RULED_OUT));
    begin(RIG_RULE, 1, 1);
    tie(0, 0);
    fact(RIG_HAS_KIND, 0, 21, 0);
    EXPECT(is_done_with(ask(), RIG_WAITS));
    begin(RIG_RULE, 2, 1);
    tie(0, 1);
    tie(0, 2);
    EXPECT(is_done_with(ask(), RIG_APPLIES));
    begin(RIG_FACTS, 0, 4);
    fact(RIG_HAS_KIND, 2, 3, 0);
    EXPECT(is_refused(take(), RIG_CLASH, 6));
}

static uint64_t read_term(const char* term)
{
    memcpy(text, term, strlen(term));
    return rig_read_term(block, RIG_BLOCK_SIZE, text, strlen(term), out, sizeof out);
}

/* So many terms, each the only argument of the one before. */
static uint64_t read_deep(size_t depth)
{
    char term[1024] = "@0";
    size_t i;
    for (i = 1; i < depth; i++)
        strcat(term, "(1=>@0");
    for (i = 1; i < depth; i++)
        strcat(term, ")");
    return read_term(term);
}

static void terms_read(void)
{
    static const uint8_t facts[22] = {0, 20, 1, 1, 0, 4, 1, 0, 11, 0, 3, 0, 1, 1, 1, 1, 16, 0, 3, 0, 2, 3};
    size_t i, used;
    open_house(4);
    EXPECT(is_done_with(read_term("@0:11(1=>@1:16,2=>@3)"), sizeof facts));
    EXPECT(memcmp(out, facts, sizeof facts) == 0);
    EXPECT(is_refused(read_term("@01"), RIG_NO_TERM, 2));
    EXPECT(is_refused(read_term("@0:32(1=>@0:33)"), RIG_OUT_OF_RANGE, 12));
    EXPECT(is_refused(rig_read_term(block, RIG_BLOCK_SIZE, text, 2, out, RIG_HEAD_SIZE - 1), RIG_SHORT_OUTPUT, 0));
    EXPECT(is_done_with(read_deep(RIG_MAX_TERM_DEPTH), RIG_HEAD_SIZE + RIG_FACT_SIZE * (RIG_MAX_TERM_DEPTH - 1)));
    EXPECT(is_refused(read_deep(RIG_MAX_TERM_DEPTH + 1), RIG_NO_TERM, 2 + 6 * (RIG_MAX_TERM_DEPTH - 1)));

    /* One argument a fact. */
    used = 3;
    memcpy(text, "@0(", used);
    for (i = 0; i < RIG_MAX_FACTS + 1; i++, used += 6)
        memcpy(text + used, "1=>@0,", 6);
    text[used - 7] = ')';
    EXPECT(is_done_with(rig_read_term(block, RIG_BLOCK_SIZE, text, used - 6, out, sizeof out), RIG_MAX_FACTS_SIZE));
    text[used - 7] = ',';
    text[used - 1] = ')';
    EXPECT(is_refused(rig_read_term(block, RIG_BLOCK_SIZE, text, used, out, sizeof out), RIG_TERM_TOO_LARGE, 0));

    text[0] = 'x';
    EXPECT(is_refused(rig_read_term(block, RIG_BLOCK_SIZE, text, RIG_MAX_TEXT_SIZE, out, sizeof out), RIG_NO_TERM, 0));
    EXPECT(is_refused(rig_read_term(block, RIG_BLOCK_SIZE, text, RIG_MAX_TEXT_SIZE + 1, out, sizeof out), RIG_BAD_SIZE,
                      0));
}

/* 64 joints of kind 63: from joint 0 by links 10 to 14 four rows of 15 and one of three, by link 15 inside a row. */
static void longest_term_written(void)
{
    size_t joint;
    EXPECT(is_done_with(open_flat(64, 64), 0));
    begin(RIG_FACTS, 0, 64);
    for (joint = 0; joint < 64; joint++) {
        fact(RIG_HAS_KIND, joint, 63, 0);
        if (joint % 15 == 1)
            fact(RIG_LINK_LEADS, 0, 10 + joint / 15, joint);
        else if (joint > 0)
            fact(RIG_LINK_LEADS, joint - 1, 15, joint);
    }
    EXPECT(is_done_with(take(), 0));
    EXPECT(is_done_with(rig_write_term(block, RIG_BLOCK_SIZE, 0, out, RIG_MAX_WRITTEN_TERM_SIZE),
                        RIG_MAX_WRITTEN_TERM_SIZE));
    EXPECT(
        is_refused(rig_write_term(block, RIG_BLOCK_SIZE, 0, out, RIG_MAX_WRITTEN_TERM_SIZE - 1), RIG_SHORT_OUTPUT, 0));
}

static void terms_written(void)
{
    open_house(4);
    EXPECT(is_done_with(rig_write_term(block, RIG_BLOCK_SIZE, 3, out, 2), 2) && memcmp(out, "@3", 2) == 0);
    EXPECT(is_refused(rig_write_term(block, RIG_BLOCK_SIZE, 4, out, 2), RIG_OUT_OF_RANGE, 0));
    begin(RIG_FACTS, 0, 4);
    fact(RIG_HAS_KIND, 1, 2, 0);
    EXPECT(is_done_with(take(), 0));
    EXPECT(is_refused(rig_write_term(block, RIG_BLOCK_SIZE, 3, out, 2), RIG_NO_TREE, 0));
    EXPECT(is_done_with(rig_write_term(block, RIG_BLOCK_SIZE, 1, out, 4), 4) && memcmp(out, "@1:2", 4) == 0);
}

/* Each reply's text speaks of what the papers give the reply for, and no other number has one of its own. */
static void texts(void)
{
    static const char* const words[24] = {"done",    "size",    "entry",   "law",   "block",   "length",
                                          "version", "purpose", "1,088",   "tag",   "reached", "clash",
                                          "output",  NULL,      NULL,      NULL,    NULL,      NULL,
                                          NULL,      NULL,      "no term", "range", "1,088",   "no tree"};
    const unsigned count = sizeof words / sizeof words[0];
    const char* unknown = rig_reply_text(255);
    unsigned number, other;
    for (number = 0; number < 300; number++) {
        const bool is_known = number < count && words[number] != NULL;
        EXPECT((strcmp(rig_reply_text(number), unknown) != 0) == is_known);
        if (!is_known)
            continue;
        EXPECT(strstr(rig_reply_text(number), words[number]) != NULL);
        for (other = 0; other < number; other++)
            EXPECT(strcmp(rig_reply_text(number), rig_reply_text(other)) != 0);
    }
}

static void versions(void)
{
    static const char* const stated[] = {
#define VERSION(text) text,
#include "versions.inc"
#undef VERSION
    };
    char parts[32];
    size_t i;
    snprintf(parts, sizeof parts, "%d.%d.%d", RIG_VERSION_MAJOR, RIG_VERSION_MINOR, RIG_VERSION_PATCH);
    EXPECT(strcmp(RIG_VERSION, parts) == 0);
    EXPECT(sizeof stated / sizeof stated[0] == 2);
    for (i = 0; i < sizeof stated / sizeof stated[0]; i++)
        EXPECT(strcmp(stated[i], RIG_VERSION) == 0);
}

int main(void)
{
    sizes_of_tables_and_blocks();
    tables_refused();
    sizes_of_rules();
    sizes_of_facts();
    packets_refused();
    layout_of_blocks();
    verdicts();
    terms_read();
    longest_term_written();
    terms_written();
    texts();
    versions();
    return expectations_missed == 0 ? 0 : 1;
}
