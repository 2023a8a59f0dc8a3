/* What a C compiler has to refuse, one line at a time, in the way of refused.cpp. */

#include "vornulica_blocks.h"

#ifndef CASE
#define CASE 0
#endif

uint64_t calls(uint8_t* table, uint8_t* block, uint8_t* packet, size_t size);
void builds(uint8_t* bytes, size_t room);

/* Answers thrown away. */
uint64_t calls(uint8_t* table, uint8_t* block, uint8_t* packet, size_t size)
{
    uint64_t answer = 0;
#if CASE != 1
    answer +=
#endif
        rig_house(table, RIG_HOUSE_TABLE_SIZE);
#if CASE != 2
    answer +=
#endif
        rig_open(RIG_HOUSE_KINDS, 4, table, RIG_HOUSE_TABLE_SIZE, block, RIG_BLOCK_SIZE);
#if CASE != 3
    answer +=
#endif
        rig_take(block, RIG_BLOCK_SIZE, packet, size);
#if CASE != 4
    answer +=
#endif
        rig_ask(block, RIG_BLOCK_SIZE, packet, size);
#if CASE != 5
    answer +=
#endif
        rig_write(block, RIG_BLOCK_SIZE, packet, size);
#if CASE != 6
    answer +=
#endif
        rig_read_term(block, RIG_BLOCK_SIZE, table, 0, packet, size);
#if CASE != 7
    answer +=
#endif
        rig_write_term(block, RIG_BLOCK_SIZE, 0, packet, size);
    return answer;
}

/* Joints and builders mixed up. */
void builds(uint8_t* bytes, size_t room)
{
    struct rig_facts_builder facts = rig_facts_begin(bytes, room, 4);
    struct rig_rule_builder rule = rig_rule_begin(bytes, room, 1);
    struct rig_joint on_rig = rig_joint_of(0);
    struct rig_rule_joint on_rule = rig_rule_joint_of(0);
#if CASE == 8
    rig_facts_kind(&facts, on_rule, RIG_KIND_LEFT);
#else
    rig_facts_kind(&facts, on_rig, RIG_KIND_LEFT);
#endif
#if CASE == 9
    rig_facts_kind(&facts, 0, RIG_KIND_LEFT);
#else
    rig_facts_kind(&facts, rig_joint_of(0), RIG_KIND_LEFT);
#endif
#if CASE == 10
    rig_facts_link(&rule, on_rig, 1, on_rig);
#else
    rig_facts_link(&facts, on_rig, 1, on_rig);
#endif
#if CASE == 11
    rig_rule_tie(&rule, on_rig, on_rule);
#else
    rig_rule_tie(&rule, on_rule, on_rig);
#endif
#if CASE == 12
    rig_rule_same(&rule, on_rule, on_rig);
#else
    rig_rule_same(&rule, on_rule, on_rule);
#endif
}
