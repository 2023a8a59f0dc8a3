// Demand 3 tried directly, without a second implementation to compare with: the order, the splitting and the repeating
// of facts must not show, decided verdicts stay, a clash stays a clash and never moves to a later fact, and the solved
// form gives the block back.

#ifndef HOST_DEMAND3_HPP
#define HOST_DEMAND3_HPP

#include "blocks.hpp"
#include "implementation.hpp"
#include "rules.hpp"

#include <map>

namespace host {

class Demand3 {
public:
    struct Counts {
        size_t calls = 0;
        size_t sent_again = 0; // packets that had clashed
        size_t at_earlier_fact = 0;
    };

    // One round from one seed; gives a description of what fails, or nothing.
    static std::string failing(const paper::Calls& calls, std::uint64_t seed, Counts& counts)
    {
        Demand3 round(calls, seed);
        std::string problem = round.orders();
        if (problem.empty())
            problem = round.clashes();
        if (problem.empty())
            problem = round.foreign();
        counts.calls += round.tried.made;
        counts.sent_again += round.sent_again;
        counts.at_earlier_fact += round.at_earlier_fact;
        return problem.empty() ? "" : "demand 3, seed " + std::to_string(seed) + ": " + problem;
    }

private:
    Demand3(const paper::Calls& calls, std::uint64_t seed)
        : tried(calls), random(seed ^ 0x6f7264657273), kinds(random_kinds(random)), v(random_joint_count(random)),
          hidden(random_picture(kinds, v, random))
    {}

    Bytes opened()
    {
        Bytes block(block_length, 0xee);
        tried.open(kinds.n, v, kinds.table, block);
        return block;
    }

    // The facts in this order, cut into packets of any sizes.
    std::vector<Bytes> packets(const std::vector<Fact>& facts, size_t most_in_one)
    {
        std::vector<Bytes> list;
        for (size_t from = 0; from < facts.size();) {
            const size_t to = std::min(facts.size(), from + random.between(1, most_in_one));
            list.push_back(facts_packet(v, {facts.begin() + static_cast<std::ptrdiff_t>(from),
                                            facts.begin() + static_cast<std::ptrdiff_t>(to)}));
            from = to;
        }
        return list;
    }
    static std::vector<Fact> facts_of(const Bytes& packet)
    {
        std::vector<Fact> facts((packet.size() - head_length) / fact_length);
        for (size_t i = 0; i < facts.size(); i++)
            std::copy_n(packet.data() + packet_length(0, i), fact_length, facts[i].begin());
        return facts;
    }
    std::vector<Fact> mixed_with_repeats(std::vector<Fact> facts)
    {
        for (size_t repeats = random.below(facts.size() + 1); repeats > 0; repeats--)
            facts.push_back(random.pick(facts));
        random.shuffle(facts);
        return facts;
    }
    std::vector<Bytes> some_rules(const Bytes& block, size_t count)
    {
        std::vector<Bytes> rules;
        for (size_t i = 0; i < count; i++) {
            const size_t roll = random.below(100);
            Rule rule = roll < 35   ? holding_rule(kinds, v, hidden, random)
                        : roll < 70 ? holding_rule(kinds, v, picture_of_block(kinds, v, block), random)
                                    : any_rule(kinds.n, v, random);
            if (random.chance(60))
                unsettle(rule, kinds, v, random);
            rules.push_back(rule.packet());
        }
        return rules;
    }

    std::string solved_form_gives_it_back(const Bytes& block)
    {
        Bytes form(longest_solved_form);
        const Answer written = tried.write(block, form);
        if (written.number() != 0)
            return "write gave " + written.text();
        form.resize(written.third());
        Bytes fresh = opened();
        const Answer taken = tried.take(fresh, form);
        if (taken.number() != 0)
            return "the solved form was answered with " + taken.text();
        if (fresh != block)
            return "the solved form taken by a fresh session gave another block";
        return "";
    }

    // Satisfiable facts: no order has a packet refused, and all end alike.
    std::string orders()
    {
        std::vector<Fact> facts;
        for (size_t count = random.between(1, random.chance(20) ? 200 : 30); count > 0; count--)
            facts.push_back(holding_fact(kinds, v, hidden, random));

        Bytes first;
        size_t first_joins = 0;
        std::vector<Bytes> rules;
        std::vector<Answer> answers;
        for (size_t order = 0; order < 4; order++) {
            const std::vector<Fact> sent = order < 2 ? facts : mixed_with_repeats(facts);
            const size_t most_in_one = order == 0 ? facts.size() : order == 1 ? 1 : 8;
            Bytes block = opened();
            size_t joins = 0;
            std::map<size_t, unsigned> decided;
            for (const Bytes& packet : packets(sent, most_in_one)) {
                const Answer answer = tried.take(block, packet);
                if (answer.number() != 0)
                    return "facts of one picture were answered with " + answer.text();
                joins += answer.third();
                if (order != 3)
                    continue;
                for (size_t i = 0; i < rules.size(); i++) {
                    const unsigned verdict = tried.ask(block, rules[i]).third();
                    if (decided.count(i) != 0 && decided[i] != verdict)
                        return "a decided verdict changed";
                    if (verdict == 1 || verdict == 2)
                        decided[i] = verdict;
                }
            }
            if (order == 0) {
                first = block;
                first_joins = joins;
                rules = some_rules(block, 10);
                for (const Bytes& rule : rules)
                    answers.push_back(tried.ask(block, rule));
                const std::string problem = solved_form_gives_it_back(block);
                if (!problem.empty())
                    return problem;
                continue;
            }
            if (block != first)
                return "the same facts in another order gave another block";
            if (joins != first_joins)
                return "the same facts in another order gave another sum of joins";
            for (size_t i = 0; i < rules.size(); i++)
                if (tried.ask(block, rules[i]) != answers[i])
                    return "the same facts in another order gave a rule another answer";
        }
        return "";
    }

    // The fact at the place of a clash is the first up to which the facts clash: a packet cut behind it clashes there,
    // and one cut before it is taken.
    std::string place_is_the_first(Bytes block, const Bytes& packet, size_t place)
    {
        if (place < head_length || place >= packet.size() || (place - head_length) % fact_length != 0)
            return "a clash has a place at which no fact begins";
        Bytes cut = packet;
        cut.resize(place + fact_length);
        set_length(cut);
        const Answer with_it = tried.take(block, cut);
        if (with_it.number() != 11 || with_it.place() != place)
            return "facts clash at " + std::to_string(place) + ", but cut behind that fact they give " + with_it.text();
        cut.resize(place);
        set_length(cut);
        if (tried.take(block, cut).number() != 0)
            return "facts before the place of a clash clash, too";
        return "";
    }

    struct Refused {
        Bytes packet;
        unsigned place; // at the last sending
    };

    std::string clashes_again(Bytes& block, Refused& refused)
    {
        const Answer answer = tried.take(block, refused.packet);
        if (answer.number() != 11)
            return "a packet that clashed was taken later";
        if (answer.place() > refused.place)
            return "a packet that clashed did so at a later fact when it was sent again";
        sent_again++;
        at_earlier_fact += answer.place() < refused.place;
        refused.place = answer.place();
        return "";
    }

    std::vector<Fact> facts_that_may_clash()
    {
        std::vector<Fact> facts;
        if (random.chance(50))
            facts = clashing_facts(kinds, v, v + 40, random);
        for (size_t count = random.between(2, 30); facts.size() < count;)
            facts.push_back(random.chance(80) ? holding_fact(kinds, v, hidden, random) : any_fact(kinds.n, v, random));
        return facts;
    }

    // All of them in one packet, and then in small ones of another order. The large one, if it clashes, is sent again
    // behind each of those, and so are the small ones that clash.
    std::string clashes()
    {
        const std::vector<Fact> facts = facts_that_may_clash();
        const Bytes whole = facts_packet(v, facts);
        Bytes together = opened();
        const Answer of_whole = tried.take(together, whole);
        const bool satisfiable = of_whole.number() == 0;

        Bytes block = opened();
        std::vector<Fact> taken;
        std::vector<Refused> refused;
        if (!satisfiable)
            refused.push_back({whole, of_whole.place()});
        bool all_taken = true;
        for (const Bytes& packet : packets(mixed_with_repeats(facts), 4)) {
            const Bytes before = block;
            const Answer answer = tried.take(block, packet);
            if (answer.number() != 0 && answer.number() != 11)
                return "a well-formed packet was answered with " + answer.text();
            if (answer.number() == 11 && block != before)
                return "a refused packet changed the block";
            std::string problem;
            if (answer.number() == 0) {
                const std::vector<Fact> all = facts_of(packet);
                taken.insert(taken.end(), all.begin(), all.end());
            } else {
                all_taken = false;
                problem = place_is_the_first(before, packet, answer.place());
                refused.push_back({packet, answer.place()});
            }
            const Bytes after = block;
            for (size_t i = 0; i < refused.size() && problem.empty(); i++)
                problem = clashes_again(block, refused[i]);
            if (!problem.empty())
                return problem;
            if (block != after)
                return "a packet refused again changed the block";
        }
        if (satisfiable != all_taken)
            return "facts clash in one packet but not in several, or the other way round";
        if (satisfiable && block != together)
            return "facts in one packet gave another block than in several";

        Bytes again = opened();
        for (const Bytes& packet : packets(mixed_with_repeats(taken), 8))
            if (tried.take(again, packet).number() != 0)
                return "facts that were taken clash in another order";
        for (const Refused& one : refused)
            if (tried.take(again, one.packet) != tried.take(block, one.packet))
                return "two sessions with the same facts taken give a clashing packet two places";
        if (again != block)
            return "refused packets left a trace in the block";
        return solved_form_gives_it_back(block);
    }

    // A block that somebody else wrote is its solved form and nothing more.
    std::string foreign() { return solved_form_gives_it_back(foreign_block(kinds, v, random)); }

    Implementation tried;
    Random random;
    Kinds kinds;
    size_t v;
    Picture hidden;
    size_t sent_again = 0;
    size_t at_earlier_fact = 0;
};

} // namespace host

#endif
