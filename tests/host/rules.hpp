// Rules that apply, wait or are ruled out.

#ifndef HOST_RULES_HPP
#define HOST_RULES_HPP

#include "pictures.hpp"

namespace host {

// A rule that holds in the picture: each of its joints stands for an element, and is tied there or reached by a link
// that the picture has.
inline Rule holding_rule(const Kinds& kinds, size_t v, const Picture& picture, Random& random)
{
    const size_t wanted = random.chance(10) ? most_rule_joints : random.between(1, random.chance(50) ? 3 : 10);
    std::vector<Tie> ties;
    std::vector<Fact> facts;
    Bytes element;
    const auto add_tied_joint = [&] {
        const size_t rig_joint = random.below(v);
        ties.push_back({static_cast<Byte>(element.size()), static_cast<Byte>(rig_joint)});
        element.push_back(picture.placed[rig_joint]);
    };
    add_tied_joint();
    for (size_t attempt = 0; attempt < 8 * wanted && element.size() < wanted; attempt++) {
        const size_t from = random.below(element.size());
        const size_t l = random.below(links_per_joint);
        const Byte target = picture.link[element[from]][l];
        if (target != not_known) {
            facts.push_back(link_leads(from, l, element.size()));
            element.push_back(target);
        } else if (ties.size() < most_ties && random.chance(10)) {
            add_tied_joint();
        }
    }
    const size_t joints = element.size();

    while (ties.size() < most_ties && random.chance(25)) {
        const size_t joint = random.below(joints);
        const size_t rig_joint = joint_at(picture, v, element[joint], random);
        if (rig_joint < v)
            ties.push_back({static_cast<Byte>(joint), static_cast<Byte>(rig_joint)});
    }
    for (size_t more = random.below(2 * joints + 1); more > 0; more--) {
        const size_t a = random.below(joints);
        const size_t b = random.below(joints);
        const size_t l = random.below(links_per_joint);
        if (element[a] == element[b] && random.chance(50))
            facts.push_back(is_one_with(a, b));
        else if (picture.link[element[a]][l] == element[b])
            facts.push_back(link_leads(a, l, b));
        else
            facts.push_back(has_kind(a, kind_above(kinds, picture.kind[element[a]], random)));
    }

    // Numbers in another order than the one of reaching, and facts likewise.
    Bytes number(joints);
    for (size_t i = 0; i < joints; i++)
        number[i] = static_cast<Byte>(i);
    random.shuffle(number);
    for (Tie& tie : ties)
        tie[0] = number[tie[0]];
    for (Fact& fact : facts) {
        fact[1] = number[fact[1]];
        if (fact[0] == 2)
            fact[2] = number[fact[2]];
        if (fact[0] == 3)
            fact[3] = number[fact[3]];
    }
    random.shuffle(ties);
    random.shuffle(facts);
    return {joints, ties, facts};
}

// Adds something that may turn "applies" into "waits" or "ruled out", while every joint stays reached.
inline void unsettle(Rule& rule, const Kinds& kinds, size_t v, Random& random)
{
    const size_t a = random.below(rule.joints);
    const size_t l = random.below(links_per_joint);
    switch (random.below(5)) {
    case 0:
        rule.facts.push_back(has_kind(a, random.chance(10) ? 0 : random.below(kinds.n)));
        break;
    case 1:
        rule.facts.push_back(link_leads(a, l, random.below(rule.joints)));
        break;
    case 2:
        if (rule.joints < most_rule_joints)
            rule.joints++;
        rule.facts.push_back(link_leads(a, l, rule.joints - 1));
        break;
    case 3:
        if (rule.ties.size() < most_ties)
            rule.ties.push_back({static_cast<Byte>(a), random.byte_below(v)});
        break;
    default:
        rule.facts.push_back(is_one_with(a, random.below(rule.joints)));
        break;
    }
}

inline Rule any_rule(size_t n, size_t v, Random& random)
{
    Rule rule;
    rule.joints = random.between(1, random.chance(70) ? 4 : most_rule_joints);
    for (size_t ties = random.between(1, most_ties); ties > 0; ties--)
        rule.ties.push_back({random.byte_below(rule.joints), random.byte_below(v)});
    for (size_t facts = random.below(3 * rule.joints + 2); facts > 0; facts--)
        rule.facts.push_back(any_fact(n, rule.joints, random));
    return rule;
}

} // namespace host

#endif
