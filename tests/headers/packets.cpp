// Packets built and read by the functions of both headers, C++ and C, against bytes laid and read here by document 01.
// What is built is also sent to the library, which has to accept or refuse it as the plain version of 01 does.
//
//   packets [SESSIONS]     so many random sessions, 300 if not given

#include "expect.h"
#include "vornulica.hpp"

#include "harness.hpp"
#include "library.hpp"
#include "packets.hpp"
#include "tables.hpp"

#include <set>

namespace {

using namespace host;
using vornulica::Building;
using vornulica::RigJoint;
using vornulica::RuleJoint;

constexpr int most_missed = 5;

// ---------------------------------------------------------------------------------------------------- what is built

struct Step {
    enum What { tie, kind, same, link } what;
    size_t a, b, c;
};

// What a host does with a builder.
struct Script {
    bool is_rule;
    size_t joints;
    size_t room;
    std::vector<Step> steps;
};

struct Built {
    Building state;
    Bytes packet;

    bool operator==(const Built& other) const { return state == other.state && packet == other.packet; }
};

size_t in_one_byte(size_t number) { return std::min<size_t>(number, 255); }

Fact fact_of(const Step& step)
{
    const size_t a = in_one_byte(step.a), b = in_one_byte(step.b), c = in_one_byte(step.c);
    return step.what == Step::kind ? has_kind(a, b) : step.what == Step::same ? is_one_with(a, b) : link_leads(a, b, c);
}

Built built_by_hand(const Script& script)
{
    std::vector<Tie> ties;
    std::vector<Fact> facts;
    if (script.room < packet_length(0, 0))
        return {Building::buffer_full, {}};
    for (const Step& step : script.steps) {
        const bool is_tie = step.what == Step::tie;
        if (is_tie && ties.size() == most_ties)
            return {Building::too_many_ties, {}};
        if (!is_tie && facts.size() == most_facts)
            return {Building::too_many_facts, {}};
        if (is_tie)
            ties.push_back({static_cast<Byte>(in_one_byte(step.a)), static_cast<Byte>(in_one_byte(step.b))});
        else
            facts.push_back(fact_of(step));
        if (packet_length(ties.size(), facts.size()) > script.room)
            return {Building::buffer_full, {}};
    }
    return {Building::fits, make_packet(script.is_rule ? 2 : 1, in_one_byte(script.joints), ties, facts)};
}

template <class Joint, class Builder> void make_fact(Builder& builder, const Step& step)
{
    if (step.what == Step::kind)
        builder.kind(Joint(step.a), step.b);
    else if (step.what == Step::same)
        builder.same(Joint(step.a), Joint(step.b));
    else
        builder.link(Joint(step.a), step.b, Joint(step.c));
}
void make(vornulica::FactsBuilder& facts, const Step& step) { make_fact<RigJoint>(facts, step); }
void make(vornulica::RuleBuilder& rule, const Step& step)
{
    if (step.what == Step::tie)
        rule.tie(RuleJoint(step.a), RigJoint(step.b));
    else
        make_fact<RuleJoint>(rule, step);
}

template <class Builder> Built built_by(Builder& builder, const Script& script)
{
    for (const Step& step : script.steps)
        make(builder, step);
    return {builder.state(), Bytes(builder.data(), builder.data() + builder.size())};
}

// By the functions for C; each of them says whether its part went in.
Built built_in_c(rig_facts_builder facts, const Script& script)
{
    for (const Step& step : script.steps) {
        const rig_joint a = rig_joint_of(step.a), b = rig_joint_of(step.b), c = rig_joint_of(step.c);
        const bool went_in = step.what == Step::kind   ? rig_facts_kind(&facts, a, step.b)
                             : step.what == Step::same ? rig_facts_same(&facts, a, b)
                                                       : rig_facts_link(&facts, a, step.b, c);
        EXPECT(went_in == (facts.packet.state == RIG_FITS));
    }
    return {static_cast<Building>(facts.packet.state),
            Bytes(facts.packet.bytes, facts.packet.bytes + rig_facts_size(&facts))};
}
Built built_in_c(rig_rule_builder rule, const Script& script)
{
    for (const Step& step : script.steps) {
        const rig_rule_joint a = rig_rule_joint_of(step.a), b = rig_rule_joint_of(step.b),
                             c = rig_rule_joint_of(step.c);
        const bool went_in = step.what == Step::tie    ? rig_rule_tie(&rule, a, rig_joint_of(step.b))
                             : step.what == Step::kind ? rig_rule_kind(&rule, a, step.b)
                             : step.what == Step::same ? rig_rule_same(&rule, a, b)
                                                       : rig_rule_link(&rule, a, step.b, c);
        EXPECT(went_in == (rule.packet.state == RIG_FITS));
    }
    return {static_cast<Building>(rule.packet.state),
            Bytes(rule.packet.bytes, rule.packet.bytes + rig_rule_size(&rule))};
}

// In a lent buffer with an end at memory that may not be touched.
Built built_in_lent(const Script& script, bool in_c, Lie lie)
{
    static LentMemory memory;
    Lent lent;
    lent.bytes.assign(script.room, 0xee);
    lent.null = script.room == 0;
    lent.lie = lie;
    Byte* const room = memory.lend(lent);
    const vornulica::MutableBytes view(room, script.room);
    Built built;
    if (in_c) {
        built = script.is_rule ? built_in_c(rig_rule_begin(room, script.room, script.joints), script)
                               : built_in_c(rig_facts_begin(room, script.room, script.joints), script);
    } else if (script.is_rule) {
        vornulica::RuleBuilder rule(view, script.joints);
        built = built_by(rule, script);
    } else {
        vornulica::FactsBuilder facts(view, script.joints);
        built = built_by(facts, script);
    }
    memory.give_back();
    EXPECT(memory.guards_stand());
    // What did not fit leaves nothing that could be taken for a packet.
    EXPECT(built.state == Building::fits || script.room < 2 || (memory.bytes()[0] == 0 && memory.bytes()[1] == 0));
    return built;
}

template <size_t facts, size_t ties> void owned_packets_are_as_by_hand(Script script)
{
    script.room = packet_length(script.is_rule ? ties : 0, facts);
    if (script.is_rule) {
        vornulica::RulePacket<facts, ties> rule(script.joints);
        EXPECT(built_by(rule, script) == built_by_hand(script));
    } else {
        vornulica::FactsPacket<facts> packet(script.joints);
        EXPECT(built_by(packet, script) == built_by_hand(script));
    }
}

// ------------------------------------------------------------------------------------------------------ random scripts

class RandomScripts {
public:
    RandomScripts(Random& its_random, size_t its_kinds, size_t its_joints)
        : random(its_random), kinds(its_kinds), rig_joints(its_joints)
    {}

    Script next()
    {
        Script script{random.chance(60), 0, 0, {}};
        script.joints = script.is_rule ? rule_joint_count() : random.chance(97) ? rig_joints : other_count();
        own_joints = std::max<size_t>(1, std::min<size_t>(script.joints, most_joints));
        const bool many = random.chance(3);
        const bool harmless = many && random.chance(70);
        const size_t facts = many ? random.between(most_facts - 3, most_facts + 3) : random.below(8);
        for (size_t i = 0; i < facts; i++)
            script.steps.push_back(harmless ? Step{Step::kind, 0, 1, 0} : fact());
        if (script.is_rule)
            add_ties(script.steps);
        script.room = room_for(script.steps.size());
        return script;
    }

private:
    // A few of them out of range, and of those some that do not fit a byte.
    size_t number_below(size_t bound)
    {
        if (!random.chance(1))
            return random.below(bound);
        return random.pick_of<size_t>({bound, 200, 255, 256, 256 + random.below(bound), size_t{1} << 40, ~size_t{0}});
    }
    size_t rule_joint_count()
    {
        return random.chance(90) ? random.between(1, 3) : random.chance(50) ? other_count() : random.between(4, 32);
    }
    size_t other_count() { return random.pick_of<size_t>({0, 1, 31, 32, 33, 64, 65, 255, 256, 257 + rig_joints}); }
    Step fact()
    {
        const size_t a = number_below(own_joints), b = number_below(own_joints);
        switch (random.below(4)) {
        case 0:
            return {Step::same, a, b, 0};
        case 1:
            return {Step::link, a, number_below(random.chance(50) ? 2 : links_per_joint), b};
        default:
            return {Step::kind, a, random.chance(30) ? 1 : number_below(kinds), 0};
        }
    }
    void add_ties(std::vector<Step>& steps)
    {
        const size_t ties = random.chance(4) ? 0 : random.chance(90) ? random.between(1, 4) : random.between(6, 10);
        for (size_t i = 0; i < ties; i++) {
            const auto at = steps.begin() + static_cast<std::ptrdiff_t>(random.below(steps.size() + 1));
            steps.insert(at, Step{Step::tie, number_below(own_joints), number_below(rig_joints), 0});
        }
    }
    size_t room_for(size_t steps)
    {
        const size_t all = packet_length(most_ties, most_facts);
        return random.chance(75)   ? all
               : random.chance(20) ? random.below(8)
                                   : random.below(packet_length(0, steps) + 4);
    }

    Random& random;
    size_t kinds;
    size_t rig_joints;
    size_t own_joints = 1;
};

// ----------------------------------------------------------------------------------------------------- what is read

struct Form {
    vornulica::Form form;
    size_t place;
};

Form form_by_hand(const Bytes& bytes)
{
    if (bytes.size() < 6)
        return {vornulica::Form::under_6_bytes, bytes.size()};
    if (bytes.size() != bytes[0] * 256u + bytes[1] + 2)
        return {vornulica::Form::other_length, 0};
    const size_t behind_head = bytes.size() - 6;
    const size_t ties = bytes[4];
    if (behind_head < 2 * ties)
        return {vornulica::Form::tie_cut, 6 + behind_head / 2 * 2};
    const size_t facts = (behind_head - 2 * ties) / 4;
    if ((behind_head - 2 * ties) % 4 != 0)
        return {vornulica::Form::fact_cut, 6 + 2 * ties + 4 * facts};
    if (facts > 1088)
        return {vornulica::Form::too_many_facts, 6 + 2 * ties + 4 * 1088};
    return {vornulica::Form::good, 0};
}

// The bytes of a fact, put together again from what was read.
template <class Joint> Fact fact_read(const vornulica::Fact<Joint>& fact)
{
    const Byte tag = static_cast<Byte>(fact.tag), a = fact.joint.number(), other = fact.other.number();
    switch (fact.tag) {
    case vornulica::Tag::has_kind:
        EXPECT(other == 0);
        return {tag, a, fact.number, fact.unused};
    case vornulica::Tag::is_one_with:
        EXPECT(fact.number == 0);
        return {tag, a, other, fact.unused};
    default:
        EXPECT(fact.unused == 0);
        return {tag, a, fact.number, other};
    }
}

Byte byte_or_0(const Bytes& bytes, size_t at) { return at < bytes.size() ? bytes[at] : Byte{0}; }

void parts_are_as_by_hand(const vornulica::PacketReader& reader, const Bytes& bytes)
{
    const size_t behind_head = bytes.size() < 6 ? 0 : bytes.size() - 6;
    const size_t ties = std::min<size_t>(byte_or_0(bytes, 4), behind_head / 2);
    EXPECT(reader.ties() == ties);
    for (size_t i = 0; i < ties; i++) {
        const auto tie = reader.tie(i);
        EXPECT(tie && tie->rule.number() == bytes[6 + 2 * i] && tie->rig.number() == bytes[6 + 2 * i + 1]);
    }
    EXPECT(!reader.tie(ties) && !reader.tie(~size_t{0}));

    const size_t facts = ties < byte_or_0(bytes, 4) ? 0 : (behind_head - 2 * ties) / 4;
    const bool is_facts = byte_or_0(bytes, 3) == 1, is_rule = byte_or_0(bytes, 3) == 2;
    EXPECT(reader.facts() == facts);
    for (size_t i = 0; i < facts; i++) {
        const auto* at = bytes.data() + 6 + 2 * ties + 4 * i;
        const Fact wanted = {at[0], at[1], at[2], at[3]};
        const auto fact = reader.fact(i);
        const auto rule_fact = reader.rule_fact(i);
        EXPECT(fact.has_value() == is_facts && rule_fact.has_value() == is_rule);
        EXPECT((!fact || fact_read(*fact) == wanted) && (!rule_fact || fact_read(*rule_fact) == wanted));
        const size_t first_byte = 6 + 2 * ties + 4 * i;
        EXPECT(reader.fact_number(first_byte) == i && reader.fact_number(first_byte + 3) == i);
    }
    EXPECT(!reader.fact(facts) && !reader.rule_fact(facts) && !reader.fact(~size_t{0}));
    for (const size_t offset : {size_t{0}, size_t{5}, 6 + 2 * ties - 1, 6 + 2 * ties + 4 * facts, ~size_t{0}})
        EXPECT(reader.fact_number(offset) >= facts);
}

// In memory whose end may not be touched. The form says 5 and 8 of the replies, as far as no other comes between.
void bytes_are_read_as_by_hand(const Bytes& bytes, const Bytes& block, std::set<vornulica::Form>& forms)
{
    static LentMemory memory;
    for (const Lie lie : {Lie::at_start, Lie::at_end}) {
        Lent lent;
        lent.bytes = bytes;
        lent.null = bytes.empty();
        lent.lie = lie;
        const Byte* const lent_bytes = memory.lend(lent);
        const vornulica::PacketReader reader(vornulica::Bytes(lent_bytes, bytes.size()));
        const Form wanted = form_by_hand(bytes);
        EXPECT(reader.form() == wanted.form && reader.place() == wanted.place);
        EXPECT(reader.length() == (bytes.size() < 2 ? 0 : bytes[0] * 256 + bytes[1]));
        EXPECT(reader.version() == byte_or_0(bytes, 2) && reader.tie_count() == byte_or_0(bytes, 4));
        EXPECT(static_cast<Byte>(reader.purpose()) == byte_or_0(bytes, 3));
        EXPECT(reader.joint_count() == byte_or_0(bytes, 5));
        parts_are_as_by_hand(reader, bytes);
        forms.insert(reader.form());

        Bytes copy = block;
        const unsigned number = reader.purpose() == vornulica::Purpose::rule
                                    ? Implementation(library).ask(block, bytes).number()
                                    : Implementation(library).take(copy, bytes).number();
        const bool is_5 =
            reader.form() == vornulica::Form::under_6_bytes || reader.form() == vornulica::Form::other_length;
        EXPECT((number == 5) == is_5);
        EXPECT(number != 8 || (reader.form() != vornulica::Form::good && !is_5));
        EXPECT(number == 5 || number == 6 || number == 7 || number == 8 || reader.form() == vornulica::Form::good);
        memory.give_back();
    }
}

Bytes some_bytes(const Bytes& packet, size_t n, size_t v, Random& random)
{
    Bytes bytes = packet;
    switch (random.below(4)) {
    case 0:
        bytes.resize(random.below(std::min<size_t>(bytes.size(), 40) + 1));
        break;
    case 1:
        bytes.resize(random.below(40));
        for (Byte& byte : bytes)
            byte = random.chance(50) ? random.byte_below(4) : random.byte();
        if (bytes.size() >= 2 && random.chance(70))
            set_length(bytes);
        break;
    default:
        damage_packet(bytes, n, v, random);
        break;
    }
    return bytes;
}

// -------------------------------------------------------------------------------------------------------- sessions

struct Seen {
    std::set<Building> states;
    std::set<unsigned> replies;
    std::set<unsigned> verdicts;
    std::set<vornulica::Form> forms;
    size_t packets = 0;
};

void check_script(const Script& script, const std::string& where, Random& random, Bytes& block, Seen& seen)
{
    static Side tried(library);
    static Side plain(paper::calls(paper::Fault::none));

    const Built wanted = built_by_hand(script);
    const Lie lie = random.pick_of({Lie::between_guards, Lie::at_start, Lie::at_end});
    EXPECT(built_in_lent(script, false, lie) == wanted);
    EXPECT(built_in_lent(script, true, lie) == wanted);
    owned_packets_are_as_by_hand<most_facts, most_ties>(script);
    owned_packets_are_as_by_hand<3, 2>(script);
    seen.states.insert(wanted.state);

    const bool asks = script.is_rule != random.chance(3);
    const Call call = call_with(asks ? Name::ask : Name::take, {{block_slot, block}, {packet_slot, wanted.packet}});
    EXPECT(agree(where, call, tried, plain));
    block = plain.left(block_slot);
    seen.replies.insert(plain.answer.number());
    if (asks && plain.answer.number() == 0)
        seen.verdicts.insert(plain.answer.third());
    seen.packets++;

    bytes_are_read_as_by_hand(wanted.packet, block, seen.forms);
    bytes_are_read_as_by_hand(some_bytes(wanted.packet, block[0], block[1], random), block, seen.forms);
}

void check_session(std::uint64_t seed, Seen& seen)
{
    Random random(seed);
    const Kinds kinds = random.chance(40) ? house_kinds() : random_kinds(random);
    const size_t joints = random.chance(80) ? random.between(1, 6) : random.between(7, most_joints);
    Bytes block(block_length);
    EXPECT(Implementation(library).open(kinds.n, joints, kinds.table, block).number() == 0);
    RandomScripts scripts(random, kinds.n, joints);
    for (size_t i = 0; i < 30 && expectations_missed < most_missed; i++)
        check_script(scripts.next(), "session of seed " + std::to_string(seed) + ", packet " + std::to_string(i),
                     random, block, seen);
}

} // namespace

int main(int argc, char** argv)
{
    const std::uint64_t sessions = argc > 1 ? std::strtoull(argv[1], nullptr, 10) : 300;
    Seen seen;
    for (std::uint64_t seed = 0; seed < sessions && expectations_missed < most_missed; seed++)
        check_session(seed, seen);

    // All that can come of a built packet has come: 1 to 4 and 12 are not about packets, and no builder makes a 6 or
    // an 8.
    EXPECT(seen.states.size() == 4);
    EXPECT((seen.replies == std::set<unsigned>{0, 5, 7, 9, 10, 11}));
    EXPECT((seen.verdicts == std::set<unsigned>{1, 2, 3}));
    EXPECT(seen.forms.size() == 6);
    std::printf("packets: %zu built, sent and read\n", seen.packets);
    return expectations_missed == 0 ? 0 : 1;
}
