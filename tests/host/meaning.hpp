// Small sessions decided by the meaning itself: all pictures with enough elements are gone through, and all placings in
// each. Nothing is solved here, so that a mistake in how solving was argued, or a clash's place, would show.

#ifndef HOST_MEANING_HPP
#define HOST_MEANING_HPP

#include "harness.hpp"
#include "packets.hpp"
#include "tables.hpp"

namespace host {

class Meaning {
public:
    // Gives a description of the first answer that is not the meaning's.
    static std::string failing(const paper::Calls& calls, size_t sessions)
    {
        for (size_t seed = 0; seed < sessions; seed++) {
            Meaning meaning(calls, seed);
            const std::string problem = meaning.session();
            if (!problem.empty())
                return "meaning, seed " + std::to_string(seed) + ": " + problem;
        }
        return "";
    }

private:
    static constexpr size_t most_elements = 4;
    static constexpr size_t most_joints = 3;

    Meaning(const paper::Calls& calls, std::uint64_t seed) : tried(calls), random(seed ^ 0x6d65616e696e67)
    {
        // A picture for a rule that waits needs no more elements than there are joints, those of the rig and of the
        // rule; more of them take too long.
        switch (random.below(4)) {
        case 0:
            v = 2, rule_joints = 1, links = 2;
            break;
        case 1:
            v = 2, rule_joints = 2, links = 1;
            break;
        default:
            v = 3, rule_joints = 1, links = 1;
            break;
        }
        elements = v + rule_joints;
        kind_share = random.pick_of<size_t>({10, 40, 60});
        const size_t n = random.pick_of<size_t>({2, 3, 4, 4}); // fewer than 4 have no two kinds that clash
        kinds = n < 4 ? chain_kinds(n, random) : random.chance(50) ? flat_kinds(n, random) : family_kinds(n, random);
    }

    struct Small {
        Byte kind[most_elements];
        Byte link[2][most_elements]; // "elements" stands for undefined
    };

    bool holds(const Small& picture, const Byte* placed, const Fact& fact) const
    {
        const Byte a = placed[fact[1]];
        switch (fact[0]) {
        case 1:
            return kinds.under(picture.kind[a], fact[2]);
        case 2:
            return a == placed[fact[2]];
        default:
            return picture.link[fact[2]][a] == placed[fact[3]];
        }
    }
    // How many of the facts hold before the first that does not.
    size_t holding(const Small& picture, const Byte* placed, const std::vector<Fact>& facts) const
    {
        size_t count = 0;
        while (count < facts.size() && holds(picture, placed, facts[count]))
            count++;
        return count;
    }
    bool all_hold(const Small& picture, const Byte* placed, const std::vector<Fact>& facts) const
    {
        return holding(picture, placed, facts) == facts.size();
    }

    // Counts up in a mixed base; false after the last.
    static bool count_up(Byte* digits, size_t count, Byte low, Byte high)
    {
        for (size_t i = 0; i < count; i++) {
            if (digits[i] < high) {
                digits[i]++;
                return true;
            }
            digits[i] = low;
        }
        return false;
    }

    bool has_placing(const Small& picture, const Byte* rig, const Rule& rule) const
    {
        Byte placed[2] = {};
        do {
            bool agrees = true;
            for (const Tie& tie : rule.ties)
                agrees = agrees && placed[tie[0]] == rig[tie[1]];
            if (agrees && all_hold(picture, placed, rule.facts))
                return true;
        } while (count_up(placed, rule.joints, 0, static_cast<Byte>(elements - 1)));
        return false;
    }

    // Renaming a picture's elements changes nothing, so it is enough to look at placings that use elements in the order
    // of their numbers.
    bool in_order(const Byte* placed) const
    {
        Byte next = 0;
        for (size_t joint = 0; joint < v; joint++) {
            if (placed[joint] > next)
                return false;
            if (placed[joint] == next)
                next++;
        }
        return true;
    }
    template <typename Visit> void each_rig(const std::vector<Fact>& facts, Visit visit) const
    {
        Byte placed[most_joints] = {};
        do {
            if (!in_order(placed))
                continue;
            Small picture;
            std::memset(&picture, 0, sizeof picture);
            do {
                std::fill(picture.kind, picture.kind + elements, 1);
                do {
                    if (all_hold(picture, placed, facts))
                        visit(picture, placed);
                } while (count_up(picture.kind, elements, 1, static_cast<Byte>(kinds.n - 1)));
            } while (next_links(picture));
        } while (count_up(placed, v, 0, static_cast<Byte>(elements - 1)));
    }
    bool next_links(Small& picture) const
    {
        for (size_t l = 0; l < links; l++)
            if (count_up(picture.link[l], elements, 0, static_cast<Byte>(elements)))
                return true;
        return false;
    }

    Fact small_fact(size_t joints)
    {
        const size_t a = random.below(joints);
        if (random.chance(kind_share))
            return has_kind(a, random.chance(5) ? 0 : random.between(1, kinds.n - 1));
        if (random.chance(30))
            return is_one_with(a, random.below(joints));
        const size_t l = random.below(links);
        return link_leads(a, l, random.below(joints));
    }
    Rule small_rule()
    {
        Rule rule;
        rule.joints = random.between(1, rule_joints);
        for (size_t joint = 0; joint < rule.joints; joint++)
            if (joint == 0 || random.chance(40))
                rule.ties.push_back({static_cast<Byte>(joint), random.byte_below(v)});
            else
                rule.facts.push_back(link_leads(joint - 1, random.below(links), joint));
        if (random.chance(50))
            rule.ties.push_back({random.byte_below(rule.joints), random.byte_below(v)});
        for (size_t more = random.below(3); more > 0; more--)
            rule.facts.push_back(small_fact(rule.joints));
        return rule;
    }
    std::vector<Fact> every_fact() const
    {
        std::vector<Fact> facts;
        for (size_t a = 0; a < v; a++) {
            for (size_t kind = 0; kind < kinds.n; kind++)
                facts.push_back(has_kind(a, kind));
            for (size_t b = 0; b < v; b++)
                facts.push_back(is_one_with(a, b));
            for (size_t l = 0; l < links; l++)
                for (size_t c = 0; c < v; c++)
                    facts.push_back(link_leads(a, l, c));
        }
        return facts;
    }
    bool block_says(const Bytes& block, const Fact& fact) const
    {
        const Byte a = block[classes_at + fact[1]];
        switch (fact[0]) {
        case 1:
            return kinds.under(block[kinds_at + a], fact[2]);
        case 2:
            return a == block[classes_at + fact[2]];
        default:
            return block[links_at + a * links_per_joint + fact[2]] == block[classes_at + fact[3]];
        }
    }

    size_t count_classes(const Bytes& block) const
    {
        size_t classes = 0;
        for (size_t joint = 0; joint < v; joint++)
            classes += block[classes_at + joint] == joint;
        return classes;
    }

    // Facts are taken in two packets; after each the block and the rules' verdicts must be those of all pictures of the
    // facts taken so far.
    std::string session()
    {
        Bytes block(block_length);
        tried.open(kinds.n, v, kinds.table, block);
        std::vector<Fact> taken;
        for (size_t part = 0; part < 2; part++) {
            std::vector<Fact> facts;
            if (part == 0 && random.chance(50)) {
                // Two links that a join of their joints runs on through, at times to kinds that do not go together.
                const size_t a = random.below(v);
                const size_t c = random.below(v);
                facts = {link_leads(a, 0, c), link_leads((a + 1) % v, 0, (c + 1) % v)};
                if (kinds.n > 3 && random.chance(70)) {
                    facts.push_back(has_kind(c, 2));
                    facts.push_back(has_kind((c + 1) % v, 3));
                    if (random.chance(35))
                        facts.push_back(is_one_with(a, (a + 1) % v));
                }
            }
            for (size_t count = random.between(1, 3); count > 0; count--)
                facts.push_back(small_fact(v));

            // No picture of the taken facts has more of these before the first that does not hold: up to and including
            // that one they have none.
            size_t most_holding = 0;
            each_rig(taken, [&](const Small& picture, const Byte* placed) {
                most_holding = std::max(most_holding, holding(picture, placed, facts));
            });
            const bool satisfiable = most_holding == facts.size();
            const size_t classes_before = count_classes(block);
            const Answer answer = tried.take(block, facts_packet(v, facts));
            if (answer.number() != (satisfiable ? 0u : 11u))
                return std::string("facts are ") + (satisfiable ? "" : "not ") + "satisfiable, but take gave " +
                       answer.text();
            if (!satisfiable && answer.place() != packet_length(0, most_holding))
                return "facts 0 to " + std::to_string(most_holding) +
                       " are the first that have no picture, but take gave " + answer.text();
            if (satisfiable)
                taken.insert(taken.end(), facts.begin(), facts.end());
            if (answer.third() != classes_before - count_classes(block))
                return "take gave " + answer.text() + ", which are not the joins";

            const std::string problem = judge(block, taken);
            if (!problem.empty())
                return problem;
        }
        return "";
    }
    std::string judge(const Bytes& block, const std::vector<Fact>& taken)
    {
        const std::vector<Fact> every = every_fact();
        std::vector<bool> forced(every.size(), true);
        std::vector<Rule> rules;
        for (size_t i = 0; i < 6; i++)
            rules.push_back(small_rule());
        std::vector<bool> some_have(rules.size()), some_lack(rules.size());
        each_rig(taken, [&](const Small& picture, const Byte* placed) {
            for (size_t i = 0; i < every.size(); i++)
                if (forced[i] && !holds(picture, placed, every[i]))
                    forced[i] = false;
            for (size_t i = 0; i < rules.size(); i++)
                if (!some_have[i] || !some_lack[i]) {
                    if (has_placing(picture, placed, rules[i]))
                        some_have[i] = true;
                    else
                        some_lack[i] = true;
                }
        });
        for (size_t i = 0; i < every.size(); i++)
            if (forced[i] != block_says(block, every[i]))
                return "fact " + hex(every[i].data(), 0, 4) + (forced[i] ? " is" : " is not") +
                       " forced, but the block says otherwise";
        for (size_t i = 0; i < rules.size(); i++) {
            const unsigned verdict = !some_lack[i] ? 1 : !some_have[i] ? 2 : 3;
            const Bytes packet = rules[i].packet();
            const Answer answer = tried.ask(block, packet);
            if (answer.number() != 0 || answer.third() != verdict)
                return "the verdict is " + std::to_string(verdict) + ", but ask gave " + answer.text() + " for " +
                       hex(packet.data(), 0, packet.size());
        }
        return "";
    }

    Implementation tried;
    Random random;
    Kinds kinds;
    size_t v = 0;
    size_t rule_joints = 0;
    size_t links = 0;
    size_t elements = 0;
    size_t kind_share = 0; // of a hundred facts; with few, joins run on further
};

} // namespace host

#endif
