// Packets of facts and of rules, and damage to them of every sort that a reply names.

#ifndef HOST_PACKETS_HPP
#define HOST_PACKETS_HPP

#include "random.hpp"

#include <algorithm>
#include <array>

namespace host {

using Fact = std::array<Byte, fact_length>;
using Tie = std::array<Byte, tie_length>; // rule joint, rig joint

inline Fact has_kind(size_t a, size_t kind) { return {1, static_cast<Byte>(a), static_cast<Byte>(kind), 0}; }
inline Fact is_one_with(size_t a, size_t b) { return {2, static_cast<Byte>(a), static_cast<Byte>(b), 0}; }
inline Fact link_leads(size_t a, size_t link, size_t c)
{
    return {3, static_cast<Byte>(a), static_cast<Byte>(link), static_cast<Byte>(c)};
}

constexpr size_t packet_length(size_t ties, size_t facts)
{
    return head_length + tie_length * ties + fact_length * facts;
}

// States the length that the packet has.
inline void set_length(Bytes& packet)
{
    packet[0] = static_cast<Byte>((packet.size() - 2) / 256);
    packet[1] = static_cast<Byte>((packet.size() - 2) % 256);
}

inline Bytes make_packet(size_t purpose, size_t joints, const std::vector<Tie>& ties, const std::vector<Fact>& facts)
{
    Bytes packet = {0, 0, 1, static_cast<Byte>(purpose), static_cast<Byte>(ties.size()), static_cast<Byte>(joints)};
    for (const Tie& tie : ties)
        packet.insert(packet.end(), tie.begin(), tie.end());
    for (const Fact& fact : facts)
        packet.insert(packet.end(), fact.begin(), fact.end());
    set_length(packet);
    return packet;
}

inline Bytes facts_packet(size_t v, const std::vector<Fact>& facts) { return make_packet(1, v, {}, facts); }

struct Rule {
    size_t joints = 0;
    std::vector<Tie> ties;
    std::vector<Fact> facts;

    Bytes packet() const { return make_packet(2, joints, ties, facts); }
};

inline void damage_length(Bytes& packet, Random& random)
{
    switch (random.below(7)) {
    case 0:
        packet.resize(packet.size() - 1);
        break;
    case 1:
        packet.resize(packet.size() + random.between(1, 5));
        break;
    case 2: // the stated length no longer fits
        packet[random.below(2)] ^= static_cast<Byte>(1 << random.below(8));
        break;
    case 3: // the stated length, little end first
        std::swap(packet[0], packet[1]);
        break;
    case 4:
        packet.resize(random.below(6));
        break;
    case 5: // too short for a packet, though its stated length fits
        packet.resize(random.between(2, 5));
        set_length(packet);
        break;
    default:
        packet.clear();
        break;
    }
}

inline void damage_fact_count(Bytes& packet, Random& random)
{
    const size_t before_facts = packet_length(packet[4], 0);
    switch (random.below(5)) {
    case 0: // no whole number of facts
        packet.resize(packet.size() + random.between(1, 3));
        break;
    case 1:
        packet.resize(packet.size() - std::min<size_t>(random.between(1, 3), packet.size() - head_length));
        break;
    case 2: // no room for the ties
        if (packet[4] > 0)
            packet.resize(head_length + random.below(tie_length * packet[4]));
        break;
    default: { // too many, each of them good where there is a fact to repeat
        const size_t most = (65535 + 2 - before_facts) / fact_length;
        const size_t facts = random.chance(75)   ? most_facts + 1
                             : random.chance(50) ? random.between(most_facts + 1, 1200)
                             : random.chance(30) ? random.between(1201, most)
                                                 : most;
        const size_t before = packet.size();
        packet.resize(std::min<size_t>(before_facts + fact_length * facts, 65537));
        for (size_t i = before; i < packet.size(); i++)
            packet[i] = before >= before_facts + fact_length ? packet[i - fact_length] : 0;
        break;
    }
    }
    set_length(packet);
}

inline void damage_tie_or_fact(Bytes& packet, size_t n, size_t v, Random& random)
{
    const size_t ties = std::min<size_t>(packet[4], (packet.size() - head_length) / tie_length);
    const size_t joints = packet[5];
    const size_t facts_at = packet_length(ties, 0);
    const size_t facts = (packet.size() - facts_at) / fact_length;
    if (ties > 0 && (facts == 0 || random.chance(35))) {
        const size_t at = packet_length(random.below(ties), 0);
        if (random.chance(50))
            packet[at] = beyond(joints, random);
        else
            packet[at + 1] = beyond(v, random);
        return;
    }
    if (facts == 0)
        return;
    const size_t which = random.chance(20) ? 0 : random.chance(25) ? facts - 1 : random.below(facts);
    const size_t at = facts_at + fact_length * which;
    if (random.chance(20)) {
        packet[at] = random.chance(50) ? random.pick_of<Byte>({0, 4, 255}) : static_cast<Byte>(random.between(4, 255));
        return;
    }
    if (random.chance(30)) {
        packet[at + 1] = beyond(joints, random);
        return;
    }
    const bool second = random.chance(50);
    switch (packet[at]) {
    case 1:
        packet[at + (second ? 2 : 3)] = second ? beyond(n, random) : static_cast<Byte>(random.between(1, 255));
        break;
    case 2:
        packet[at + (second ? 2 : 3)] = second ? beyond(joints, random) : static_cast<Byte>(random.between(1, 255));
        break;
    default:
        packet[at + (second ? 2 : 3)] = second ? beyond(links_per_joint, random) : beyond(joints, random);
        break;
    }
}

// Leaves a rule joint unreached, at times with an equality or a link from it, neither of which reaches it.
inline void damage_reach(Bytes& packet, Random& random)
{
    if (packet[3] != 2 || packet[5] >= most_rule_joints)
        return;
    const Byte joints = packet[5];
    const Byte added = static_cast<Byte>(random.between(1, std::min<size_t>(4, most_rule_joints - joints)));
    packet[5] = static_cast<Byte>(joints + added);
    if (packet.size() > packet_length(most_ties, most_facts - 4))
        return;
    for (size_t more = random.below(3); more > 0 && joints > 0; more--) {
        const size_t fresh = joints + random.below(added);
        const size_t old = random.below(joints);
        const size_t l = random.below(links_per_joint);
        const Fact fact = random.chance(50) ? is_one_with(old, fresh) : link_leads(fresh, l, old);
        packet.insert(packet.end(), fact.begin(), fact.end());
    }
    set_length(packet);
}

inline void damage_packet(Bytes& packet, size_t n, size_t v, Random& random)
{
    if (packet.size() < head_length)
        return;
    switch (random.below(100) / 5) {
    case 0:
    case 1:
    case 2:
        damage_length(packet, random);
        break;
    case 3:
    case 4:
        packet[2] = other_byte(packet[2], random);
        break;
    case 5:
    case 6:
        packet[3] = other_byte(packet[3], random);
        break;
    case 7:
        packet[4] = other_byte(packet[4], random);
        break;
    case 8: // another number of ties, with room for them
        packet[4] = random.pick_of<Byte>({0, 1, 8, 9, 255});
        packet.resize(packet_length(packet[4], random.below(4)));
        set_length(packet);
        break;
    case 9:
        packet[5] = other_byte(packet[5], random);
        break;
    case 10:
        packet[5] = random.pick_of<Byte>({0, 1, 32, 33, 64, 65, 255});
        break;
    case 11:
    case 12:
    case 13:
        damage_fact_count(packet, random);
        break;
    case 14:
    case 15:
    case 16:
    case 17:
    case 18:
        damage_tie_or_fact(packet, n, v, random);
        break;
    default:
        damage_reach(packet, random);
        break;
    }
}

} // namespace host

#endif
