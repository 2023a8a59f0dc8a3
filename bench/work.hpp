// What is measured: tables, packets and rules of the sizes that matter.

#ifndef BENCH_WORK_HPP
#define BENCH_WORK_HPP

#include "packets.hpp"
#include "tables.hpp"
#include "terms.hpp"

namespace bench {

using host::Bytes;
using host::Fact;
using host::facts_packet;
using host::has_kind;
using host::is_one_with;
using host::Kinds;
using host::link_leads;
using host::most_joints;
using host::Rule;
using host::Tie;
using std::size_t;

// A lawful table of n kinds that is neither a chain nor flat.
inline Kinds kinds_of(size_t n)
{
    host::Random random(n);
    return n == 33 ? host::house_kinds() : host::family_kinds(n, random);
}

// Every two kinds meet in kind 0 but for the last three, of which the last two meet in the first: the first triple
// that tells is theirs.
inline Kinds broken_late(size_t n)
{
    host::Random random(n);
    Kinds kinds = host::flat_kinds(n, random);
    kinds.table[(n - 2) * n + n - 1] = kinds.table[(n - 1) * n + n - 2] = static_cast<host::Byte>(n - 3);
    return kinds;
}

// The same with kinds 2, 3 and 4.
inline Kinds broken_early(size_t n)
{
    host::Random random(n);
    Kinds kinds = host::flat_kinds(n, random);
    kinds.table[3 * n + 4] = kinds.table[4 * n + 3] = 2;
    return kinds;
}

// ------------------------------------------------------- a 25-joint humanoid

struct Joint {
    size_t parent;
    size_t link;
    size_t kind; // a house kind
};

constexpr size_t humanoid_joints = 25;
constexpr Joint humanoid[humanoid_joints] = {
    {0, 0, 8},                                                                   // 0 hips
    {0, 0, 5},  {1, 0, 5},   {2, 0, 6},   {3, 0, 7},                             // spine, chest, neck, head
    {2, 1, 11}, {5, 0, 21},  {6, 0, 23},  {7, 0, 25},  {8, 0, 25},  {8, 1, 25},  // left shoulder to fingers
    {2, 2, 12}, {11, 0, 22}, {12, 0, 24}, {13, 0, 26}, {14, 0, 26}, {14, 1, 26}, // right shoulder to fingers
    {0, 1, 27}, {17, 0, 29}, {18, 0, 31}, {19, 0, 31},                           // left thigh to toes
    {0, 2, 28}, {21, 0, 30}, {22, 0, 32}, {23, 0, 32},                           // right thigh to toes
};

inline std::vector<Fact> humanoid_facts()
{
    std::vector<Fact> facts;
    for (size_t joint = 0; joint < humanoid_joints; joint++) {
        facts.push_back(has_kind(joint, humanoid[joint].kind));
        if (joint != 0)
            facts.push_back(link_leads(humanoid[joint].parent, humanoid[joint].link, joint));
    }
    return facts;
}

// "Upper arm, forearm, hand of one side", tied at the shoulder.
inline Rule arm_rule(size_t shoulder, size_t upper, size_t fore, size_t hand)
{
    return {4,
            {Tie{0, static_cast<host::Byte>(shoulder)}},
            {link_leads(0, 0, 1), has_kind(1, upper), link_leads(1, 0, 2), has_kind(2, fore), link_leads(2, 0, 3),
             has_kind(3, hand)}};
}

inline Rule applying_rule() { return arm_rule(5, 15, 16, 17); }
inline Rule ruled_out_rule() { return arm_rule(5, 15, 16, 20); }
inline Rule waiting_rule()
{
    Rule rule = arm_rule(5, 15, 16, 17);
    rule.facts.push_back(link_leads(3, 9, 3));
    return rule;
}

// ------------------------------------------------------------ the worst packet

// All 1,024 links, each joint's to other joints; then an equality that makes its two joints one and, link by link, all
// 64; 63 more that say it again.
inline std::vector<Fact> worst_facts()
{
    std::vector<Fact> facts;
    for (size_t joint = 0; joint < most_joints; joint++)
        for (size_t link = 0; link < host::links_per_joint; link++)
            facts.push_back(link_leads(joint, link, (joint + link + 1) % most_joints));
    while (facts.size() < host::most_facts)
        facts.push_back(is_one_with(0, 1 + facts.size() % (most_joints - 1)));
    return facts;
}

// The same equalities one by one: each joins one class more.
inline std::vector<Fact> joining_facts()
{
    std::vector<Fact> facts;
    for (size_t joint = most_joints; joint-- > 1;)
        facts.push_back(is_one_with(joint - 1, joint));
    for (size_t joint = 0; facts.size() < host::most_facts; joint++)
        facts.push_back(link_leads(joint % most_joints, joint % host::links_per_joint, (joint * 7) % most_joints));
    return facts;
}

// Links that are never known before and kinds that are: no joins.
inline std::vector<Fact> plain_facts(size_t count)
{
    std::vector<Fact> facts;
    for (size_t joint = 0; joint < most_joints; joint++) {
        for (size_t link = 0; link < host::links_per_joint; link++)
            facts.push_back(link_leads(joint, link, (joint + link + 1) % most_joints));
        facts.push_back(has_kind(joint, 1));
    }
    facts.resize(count);
    return facts;
}

// The largest rule: 32 joints, 8 ties and 1,088 facts, against a rig whose links are all known.
inline Rule largest_rule()
{
    Rule rule{host::most_rule_joints, {}, {}};
    for (size_t tie = 0; tie < host::most_ties; tie++)
        rule.ties.push_back({static_cast<host::Byte>(tie), static_cast<host::Byte>(tie)});
    for (size_t round = 0; rule.facts.size() < host::most_facts; round++) {
        const size_t joint = round % host::most_rule_joints;
        const size_t link = round / host::most_rule_joints % host::links_per_joint;
        rule.facts.push_back(link_leads(joint, link, (joint + link + 1) % host::most_rule_joints));
    }
    return rule;
}

// A rule whose 32 joints are one chain of links, tied at its beginning and said over again until there are so many
// facts: from the first link on, or from the last one on.
inline Rule chain_rule(bool first_link_first, size_t facts = host::most_facts)
{
    Rule rule{host::most_rule_joints, {Tie{0, 0}}, {}};
    const size_t links = host::most_rule_joints - 1;
    for (size_t i = 0; i < facts; i++) {
        const size_t link = first_link_first ? i * links / facts : (facts - 1 - i) * links / facts;
        rule.facts.push_back(link_leads(link, 0, link + 1));
    }
    return rule;
}

// --------------------------------------------------------------------------------------------------------- terms

// A tree of 64 joints with kinds of two digits: from joint 0 four rows of 15 joints and one of three.
inline std::vector<Fact> tree_facts()
{
    std::vector<Fact> facts;
    for (size_t joint = 0; joint < most_joints; joint++) {
        facts.push_back(has_kind(joint, 10 + joint % 23));
        if (joint > 0)
            facts.push_back(joint % 15 == 1 ? link_leads(0, 10 + joint / 15, joint) : link_leads(joint - 1, 15, joint));
    }
    return facts;
}

// Some 1,000,000 bytes: one term with far more arguments than a packet holds facts.
inline Bytes long_text()
{
    std::string text = "@0(1=>@1:16";
    while (text.size() < 999990)
        text += ",2=>@13:23";
    return host::bytes_of(text + ")");
}

} // namespace bench

#endif
