// An example host: takes one packet of facts about a rig with the house kinds and four joints, asks three rules, shows
// what is known of each joint, and writes the solved form. Then a second rig is typed as terms and written back as one,
// and a slip of the pen is shown where it stands. It ends with 1 if a call is refused that should not be.
#include <array>
#include <cstddef>
#include <cstdint>
#include <cstdio>
#include <string_view>

#include <vornulica.hpp>

namespace {

using vornulica::Answer;
using vornulica::FactsPacket;
using vornulica::HouseKind;
using vornulica::RigJoint;
using vornulica::RuleJoint;
using vornulica::RulePacket;
using vornulica::Session;
using vornulica::Verdict;

constexpr std::size_t joints = 4;

// Six facts about the rig. Link 1 of joint 0 leads to joint 1 and to joint 2: so these two are one.
FactsPacket<6> arm_facts()
{
    FactsPacket<6> facts(joints);
    facts.kind(RigJoint(0), HouseKind::arm_part)
        .kind(RigJoint(0), HouseKind::left)
        .link(RigJoint(0), 1, RigJoint(1))
        .link(RigJoint(0), 1, RigJoint(2))
        .kind(RigJoint(1), HouseKind::forearm)
        .kind(RigJoint(2), HouseKind::left);
    return facts;
}

// A rule of two joints of its own: an arm part whose link 1 leads to a joint of that side. Its joint 0 is tied to rig
// joint 0.
RulePacket<3, 1> arm_to(HouseKind side)
{
    RulePacket<3, 1> rule(2);
    rule.tie(RuleJoint(0), RigJoint(0))
        .kind(RuleJoint(0), HouseKind::arm_part)
        .link(RuleJoint(0), 1, RuleJoint(1))
        .kind(RuleJoint(1), side);
    return rule;
}

RulePacket<1, 1> left_upper_arm()
{
    RulePacket<1, 1> rule(1);
    rule.tie(RuleJoint(0), RigJoint(0)).kind(RuleJoint(0), HouseKind::left_upper_arm);
    return rule;
}

// Whether the call is done; a refusal is told.
bool is_done(const char* call, const Answer& answer)
{
    if (!answer.done())
        std::printf("%s: refused with %u, place %u: %s\n", call, static_cast<unsigned>(answer.reply),
                    static_cast<unsigned>(answer.place), vornulica::reply_text(answer.reply));
    return answer.done();
}

const char* meaning_of(Verdict verdict)
{
    switch (verdict) {
    case Verdict::applies:
        return "applies: every rig with the taken facts satisfies it";
    case Verdict::ruled_out:
        return "is ruled out: no rig with the taken facts satisfies it";
    case Verdict::waits:
        return "waits: later facts may decide it";
    }
    return "has a verdict that this host does not know";
}

bool tell_verdict(const char* rule, const vornulica::AskAnswer& answer)
{
    if (const auto verdict = answer.verdict())
        std::printf("The rule '%s' %s.\n", rule, meaning_of(*verdict));
    return is_done(rule, answer);
}

void show_joint(const Session& session, RigJoint joint)
{
    const auto known = session.read().joint(joint);
    if (!known)
        return;
    std::printf("Joint %u", static_cast<unsigned>(joint.number()));
    if (known->smallest() != joint)
        std::printf(", one with joint %u", static_cast<unsigned>(known->smallest().number()));
    std::printf(": kind %u", static_cast<unsigned>(known->kind()));
    for (std::size_t link = 0; link < RIG_LINKS; link++)
        if (const auto target = known->link(link))
            std::printf(", link %zu leads to joint %u", link, static_cast<unsigned>(target->number()));
    std::printf(".\n");
}

bool write_solved_form(const Session& session)
{
    std::array<std::uint8_t, vornulica::max_facts_size> solved_form{};
    const auto answer = session.write(solved_form);
    if (!is_done("write", answer))
        return false;
    std::printf("The solved form has %zu bytes:", answer.size());
    for (std::size_t i = 0; i < answer.size(); i++)
        std::printf(" %02X", static_cast<unsigned>(solved_form[i]));
    std::printf("\n");
    return true;
}

// Reads a term and takes what it says. Where the text goes wrong is shown below it.
bool take_term(Session& session, std::string_view term)
{
    std::array<std::uint8_t, vornulica::max_facts_size> packet{};
    const auto read = session.read_term(term, packet);
    if (!read.done()) {
        std::printf("%.*s\n%*s %s\n", static_cast<int>(term.size()), term.data(), static_cast<int>(read.place) + 1, "^",
                    vornulica::reply_text(read.reply));
        return false;
    }
    return is_done("take", session.take({packet.data(), read.size()}));
}

bool write_term(const Session& session, RigJoint joint)
{
    std::array<char, vornulica::max_written_term_size> text{};
    const auto answer = session.write_term(joint, text);
    if (!is_done("write_term", answer))
        return false;
    std::printf("As a term: %.*s\n", static_cast<int>(answer.size()), text.data());
    return true;
}

// An arm part whose link 2 leads to joint 3 and link 1 to a forearm; later it is left, too.
bool type_a_rig()
{
    Session session;
    if (!is_done("open", session.open(vornulica::house_kinds, joints, vornulica::house_table())))
        return false;
    if (!take_term(session, "@0:9(2=>@3,1=>@1:16)") || !take_term(session, "@0:2") || !write_term(session, RigJoint(0)))
        return false;
    return !take_term(session, "@0:11(1=>@1:16,2=@3)");
}

bool run()
{
    Session session;
    if (!is_done("open", session.open(vornulica::house_kinds, joints, vornulica::house_table())))
        return false;
    const auto taken = session.take(arm_facts());
    if (!is_done("take", taken))
        return false;
    std::printf("The facts are taken. Joins: %u.\n", static_cast<unsigned>(taken.joins()));
    if (!tell_verdict("an arm part whose link 1 leads to a left joint", session.ask(arm_to(HouseKind::left))) ||
        !tell_verdict("an arm part whose link 1 leads to a right joint", session.ask(arm_to(HouseKind::right))) ||
        !tell_verdict("a left upper arm", session.ask(left_upper_arm())))
        return false;
    for (std::size_t joint = 0; joint < joints; joint++)
        show_joint(session, RigJoint(joint));
    return write_solved_form(session) && type_a_rig();
}

} // namespace

int main() { return run() ? 0 : 1; }
