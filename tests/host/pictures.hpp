// Pictures of a rig, and facts that hold in one or in none.

#ifndef HOST_PICTURES_HPP
#define HOST_PICTURES_HPP

#include "packets.hpp"
#include "tables.hpp"

namespace host {

inline size_t random_joint_count(Random& random)
{
    const size_t roll = random.below(100);
    if (roll < 4)
        return 1;
    if (roll < 55)
        return random.between(2, 8);
    if (roll < 75)
        return random.between(9, 32);
    if (roll < 85)
        return random.between(33, 63);
    return most_joints;
}

// A picture with a placing of the rig joints: either one made up beforehand, so that facts read off it are satisfiable
// together, or the one a block holds.
struct Picture {
    size_t elements = 0;
    std::array<Byte, most_joints> placed{}; // by rig joint
    std::array<Byte, most_joints> kind{};   // by element
    std::array<std::array<Byte, links_per_joint>, most_joints> link{};
};

inline Picture random_picture(const Kinds& kinds, size_t v, Random& random)
{
    Picture picture;
    picture.elements = random.chance(30) ? v : random.between(1, v);
    const size_t links_in_use = random.chance(30) ? links_per_joint : random.between(1, 4);
    const size_t first_link = random.below(links_per_joint);
    const size_t density = random.pick_of<size_t>({10, 40, 80, 100});
    for (size_t joint = 0; joint < v; joint++)
        picture.placed[joint] =
            picture.elements == v && random.chance(80) ? static_cast<Byte>(joint) : random.byte_below(picture.elements);
    for (size_t element = 0; element < picture.elements; element++) {
        picture.kind[element] = static_cast<Byte>(random.between(1, kinds.n - 1));
        picture.link[element].fill(not_known);
        for (size_t i = 0; i < links_in_use; i++)
            if (random.chance(density))
                picture.link[element][(first_link + i) % links_per_joint] = random.byte_below(picture.elements);
    }
    return picture;
}

// The elements are the class numbers. A block that a faulty implementation left may hold any bytes; those out of range
// are read as nothing known.
inline Picture picture_of_block(const Kinds& kinds, size_t v, const Bytes& block)
{
    Picture picture;
    picture.elements = most_joints;
    for (size_t joint = 0; joint < v; joint++) {
        const Byte own_class = block[classes_at + joint];
        const Byte kind = block[kinds_at + joint];
        picture.placed[joint] = own_class < v ? own_class : 0;
        picture.kind[joint] = kind < kinds.n ? kind : 1;
        for (size_t l = 0; l < links_per_joint; l++) {
            const Byte target = block[links_at + joint * links_per_joint + l];
            picture.link[joint][l] = target < v ? target : not_known;
        }
    }
    return picture;
}

inline Byte kind_above(const Kinds& kinds, Byte kind, Random& random)
{
    for (size_t attempt = 0; attempt < 8; attempt++) {
        const Byte above = static_cast<Byte>(random.between(1, kinds.n - 1));
        if (kinds.under(kind, above))
            return above;
    }
    return kind;
}

inline size_t joint_at(const Picture& picture, size_t v, Byte element, Random& random)
{
    const size_t from = random.below(v);
    for (size_t i = 0; i < v; i++)
        if (picture.placed[(from + i) % v] == element)
            return (from + i) % v;
    return v;
}

inline Fact holding_fact(const Kinds& kinds, size_t v, const Picture& picture, Random& random)
{
    const size_t a = random.below(v);
    const Byte element = picture.placed[a];
    const size_t roll = random.below(100);
    if (roll < 25)
        return is_one_with(a, joint_at(picture, v, element, random));
    if (roll < 75) {
        const size_t from = random.below(links_per_joint);
        for (size_t i = 0; i < links_per_joint; i++) {
            const size_t l = (from + i) % links_per_joint;
            if (picture.link[element][l] == not_known)
                continue;
            const size_t c = joint_at(picture, v, picture.link[element][l], random);
            if (c < v)
                return link_leads(a, l, c);
        }
    }
    return has_kind(a, kind_above(kinds, picture.kind[element], random));
}

inline Fact any_fact(size_t n, size_t joints, Random& random)
{
    const size_t a = random.below(joints);
    const size_t roll = random.below(100);
    if (roll < 35)
        return has_kind(a, random.chance(8) ? 0 : random.below(n));
    if (roll < 55)
        return is_one_with(a, random.below(joints));
    const size_t link = random.chance(50) ? random.below(3) : random.below(links_per_joint);
    return link_leads(a, link, random.below(joints));
}

// Chains and cycles, joined at one point or tied into each other, so that one equality runs through many classes:
// cycles of p and q joints fall together into as many classes as their greatest common divisor.
inline std::vector<Fact> far_reaching_facts(size_t v, Random& random)
{
    std::vector<Fact> facts;
    const size_t link = random.below(links_per_joint);
    const size_t first = random.between(1, v);
    const bool closed = random.chance(60);
    const auto add_run = [&](size_t from, size_t to) {
        for (size_t joint = from; joint + 1 < to; joint++)
            facts.push_back(link_leads(joint, link, joint + 1));
        if (closed && to > from)
            facts.push_back(link_leads(to - 1, link, from));
    };
    add_run(0, first);
    add_run(first, v);
    if (random.chance(70)) {
        const size_t a = random.below(v);
        facts.push_back(is_one_with(a, random.below(v)));
    }
    if (random.chance(30))
        random.shuffle(facts);
    return facts;
}

// Two kinds that meet in none, neither of which is none; both none where no such two were found.
inline std::pair<Byte, Byte> kinds_that_clash(const Kinds& kinds, Random& random)
{
    for (size_t attempt = 0; attempt < 32; attempt++) {
        const Byte s = static_cast<Byte>(random.between(1, kinds.n - 1));
        const Byte t = static_cast<Byte>(random.between(1, kinds.n - 1));
        if (kinds.meet(s, t) == 0)
            return {s, t};
    }
    return {0, 0};
}

// Two rows of joints along one link, whose last joints have kinds that clash. The last fact makes their first joints
// one, by itself or as the second of two that a link leads to: it clashes as many links away as the rows are long.
// Empty where joints or kinds do not suffice.
inline std::vector<Fact> far_clash(const Kinds& kinds, size_t v, Random& random)
{
    constexpr size_t shortest = 3;
    const size_t longest = (v - 1) / 2;
    const auto [s, t] = kinds_that_clash(kinds, random);
    if (longest < shortest || s == 0)
        return {};
    const size_t length = random.between(shortest, longest);
    Bytes joint(v);
    for (size_t i = 0; i < v; i++)
        joint[i] = static_cast<Byte>(i);
    random.shuffle(joint);

    const size_t link = random.below(links_per_joint);
    const size_t first = joint[0], second = joint[length], outside = joint[2 * length];
    std::vector<Fact> facts = {has_kind(joint[length - 1], s), has_kind(joint[2 * length - 1], t)};
    for (size_t i = 0; i + 1 < length; i++) {
        facts.push_back(link_leads(joint[i], link, joint[i + 1]));
        facts.push_back(link_leads(joint[length + i], link, joint[length + i + 1]));
    }
    const bool by_link = random.chance(50);
    if (by_link)
        facts.push_back(link_leads(outside, link, first));
    random.shuffle(facts);
    facts.push_back(by_link ? link_leads(outside, link, second) : is_one_with(first, second));
    return facts;
}

inline Fact always_true_fact(size_t v, Random& random)
{
    const size_t a = random.below(v);
    return random.chance(50) ? has_kind(a, kind_any) : is_one_with(a, a);
}

// So many facts at most, that clash whatever is known: by kind 0, by two kinds of one joint, or far away. Before them
// come facts that are always true, at times as many as there is room for, and behind them any, which may clash as well.
inline std::vector<Fact> clashing_facts(const Kinds& kinds, size_t v, size_t most, Random& random)
{
    const size_t joint = random.below(v);
    const auto [s, t] = kinds_that_clash(kinds, random);
    std::vector<Fact> facts = random.chance(60) ? far_clash(kinds, v, random) : std::vector<Fact>();
    if (facts.empty() && random.chance(50))
        facts = {has_kind(joint, 0)};
    else if (facts.empty())
        facts = {has_kind(joint, s), has_kind(joint, t)};

    const size_t room = most - facts.size();
    std::vector<Fact> before(random.chance(15) ? room : std::min(room, random.pick_of<size_t>({0, 0, 5, 20})));
    for (Fact& fact : before)
        fact = always_true_fact(v, random);
    facts.insert(facts.begin(), before.begin(), before.end());
    for (size_t behind = random.below(10); behind > 0 && facts.size() < most; behind--)
        facts.push_back(any_fact(kinds.n, v, random));
    return facts;
}

} // namespace host

#endif
