// What a C++ compiler has to refuse, one line at a time: with -DCASE=K the line of case K stands here, otherwise one
// that does the same as it should be done. So a case that fails, fails for its line.

#include "vornulica.hpp"

#include <vector>

#ifndef CASE
#define CASE 0
#endif

using namespace vornulica;

std::vector<std::uint8_t> received();
Session restored();
void asks(Session& session);
void keeps();
void builds();

// Answers thrown away, and a joint that is none of the rig's.
void asks(Session& session)
{
    const auto packet = received();
    std::array<std::uint8_t, max_facts_size> out;
#if CASE == 1
    session.open(house_kinds, 4, house_table());
#else
    static_cast<void>(session.open(house_kinds, 4, house_table()));
#endif
#if CASE == 2
    session.take(packet);
#else
    static_cast<void>(session.take(packet));
#endif
#if CASE == 3
    session.ask(received());
#else
    static_cast<void>(session.ask(received()));
#endif
#if CASE == 4
    session.write(out);
#else
    static_cast<void>(session.write(out));
#endif
#if CASE == 5
    rig_ask(session.block().data(), RIG_BLOCK_SIZE, packet.data(), packet.size());
#else
    static_cast<void>(rig_ask(session.block().data(), RIG_BLOCK_SIZE, packet.data(), packet.size()));
#endif
#if CASE == 6
    session.read_term("@0", out);
#else
    static_cast<void>(session.read_term("@0", out));
#endif
#if CASE == 7
    session.write_term(RigJoint(0), out);
#else
    static_cast<void>(session.write_term(RigJoint(0), out));
#endif
#if CASE == 8
    static_cast<void>(session.write_term(RuleJoint(0), out));
#else
    static_cast<void>(session.write_term(RigJoint(0), out));
#endif
}

// Views of what is gone at the end of the line.
void keeps()
{
#if CASE == 9
    const Bytes table = house_table();
#else
    const auto owned_table = house_table();
    const Bytes table = owned_table;
#endif
#if CASE == 10
    const Bytes packet = received();
#else
    const auto owned_packet = received();
    const Bytes packet = owned_packet;
#endif
#if CASE == 11
    const Bytes block = restored().block();
#else
    const auto session = restored();
    const Bytes block = session.block();
#endif
#if CASE == 12
    const auto reader = restored().read();
#else
    const auto reader = session.read();
#endif
#if CASE == 13
    const PacketReader packet_reader(received());
#else
    const PacketReader packet_reader(packet);
#endif
#if CASE == 14
    const MutableBytes out = received();
#else
    auto owned_out = received();
    const MutableBytes out = owned_out;
#endif
    static_cast<void>(table.size() + block.size() + reader.joints() + packet_reader.ties() + out.size());
}

// Joints mixed up, and builders of which nothing would be left.
void builds()
{
    FactsPacket<2> facts(4);
    RulePacket<2> rule(2);
#if CASE == 15
    const RigJoint joint = 3;
#else
    const RigJoint joint(3);
#endif
#if CASE == 16
    facts.kind(RuleJoint(0), HouseKind::left);
#else
    facts.kind(joint, HouseKind::left);
#endif
#if CASE == 17
    rule.link(RuleJoint(0), 1, RigJoint(1));
#else
    rule.link(RuleJoint(0), 1, RuleJoint(1));
#endif
#if CASE == 18
    rule.tie(joint, RuleJoint(0));
#else
    rule.tie(RuleJoint(0), joint);
#endif
#if CASE == 19
    facts.tie(RuleJoint(0), joint);
#else
    facts.same(joint, RigJoint(0));
#endif
#if CASE == 20
    RulePacket<1>(1).tie(RuleJoint(0), joint);
#else
    rule.tie(RuleJoint(0), joint);
#endif
#if CASE == 21
    FactsBuilder again = facts;
#else
    auto again = facts;
#endif
    static_cast<void>(again.size());
}
