// The examples of document 01, and its list of errors, with the answers it gives; and clashes whose places follow from
// document 02.

#ifndef HOST_EXAMPLES_HPP
#define HOST_EXAMPLES_HPP

#include "implementation.hpp"
#include "packets.hpp"
#include "tables.hpp"

namespace host {

class Examples {
public:
    // Gives the names of the examples that come out otherwise; empty if none do.
    static std::string failing(const paper::Calls& calls)
    {
        Examples examples(calls);
        examples.house_table();
        examples.facts_and_rules();
        examples.sizes();
        examples.errors();
        examples.places_of_clashes();
        return examples.failed;
    }

private:
    explicit Examples(const paper::Calls& calls) : tried(calls) {}

    void expect(const char* name, bool holds)
    {
        if (!holds)
            failed += std::string(failed.empty() ? "" : ", ") + name;
    }
    static Answer reply(std::uint64_t number, std::uint64_t place = 0, std::uint64_t third = 0)
    {
        return {number + 256 * third + (place << 32)};
    }
    Bytes house()
    {
        Bytes table(house_length, 0xee);
        expect("house", tried.house(table) == reply(0));
        return table;
    }
    Bytes opened(std::uint64_t v)
    {
        const Bytes table = house();
        Bytes block(block_length, 0xee);
        expect("open", tried.open(33, v, table, block) == reply(0));
        return block;
    }
    Answer take(Bytes& block, const std::vector<Fact>& facts)
    {
        return tried.take(block, facts_packet(block[1], facts));
    }
    Answer ask(const Bytes& block, const Rule& rule) { return tried.ask(block, rule.packet()); }

    void house_table()
    {
        const Bytes table = house();
        expect("P1", table[2 * 33 + 9] == 11);
        expect("P2", table[3 * 33 + 17] == 26);
        expect("P3", table[11 * 33 + 18] == 0);
        Bytes short_of_one(house_length - 1, 0xee);
        expect("house of 1,088 bytes",
               tried.house(short_of_one) == reply(1) && short_of_one == Bytes(house_length - 1, 0xee));
    }

    const std::vector<Fact> f = {has_kind(0, 9),      has_kind(0, 2),  link_leads(0, 1, 1),
                                 link_leads(0, 1, 2), has_kind(1, 16), has_kind(2, 2)};

    void facts_and_rules()
    {
        Bytes block = opened(4);
        expect("P4", take(block, f) == reply(0, 0, 1));

        const Bytes solved = {0x00, 0x14, 0x01, 0x01, 0x00, 0x04, 0x01, 0x00, 0x0b, 0x00, 0x03,
                              0x00, 0x01, 0x01, 0x01, 0x01, 0x17, 0x00, 0x02, 0x02, 0x01, 0x00};
        Bytes out(30, 0xee);
        const Answer written = tried.write(block, out);
        Bytes wanted = solved;
        wanted.resize(30, 0xee);
        expect("P5", written == reply(0, 0, 22) && out == wanted);
        out.assign(21, 0xee);
        expect("P5 in 21 bytes", tried.write(block, out) == reply(12) && out == Bytes(21, 0xee));

        const std::vector<Tie> tied = {{0, 0}};
        expect("P6", ask(block, {2, tied, {has_kind(0, 9), link_leads(0, 1, 1), has_kind(1, 2)}}) == reply(0, 0, 1));
        expect("P7", ask(block, {2, tied, {has_kind(0, 9), link_leads(0, 1, 1), has_kind(1, 3)}}) == reply(0, 0, 2));
        expect("P8", ask(block, {1, tied, {has_kind(0, 21)}}) == reply(0, 0, 3));
        expect("P9", ask(block, {2, tied, {link_leads(0, 2, 1)}}) == reply(0, 0, 3));
        expect("P10", ask(block, {1, {{0, 1}, {0, 2}}, {}}) == reply(0, 0, 1));
        expect("P11", ask(block, {1, {{0, 1}, {0, 3}}, {}}) == reply(0, 0, 3));
        const Bytes before = block;
        expect("P12", take(block, {has_kind(2, 3)}) == reply(11, 6) && block == before);
        expect("a joint not reached", ask(block, {2, tied, {}}) == reply(10, 1));
        expect("a packet of no facts", take(block, {}) == reply(0) && block == before);
    }

    void sizes()
    {
        for (const std::uint64_t n : {1, 2, 64, 65}) {
            Random random(n);
            const Bytes table = n == 1    ? Bytes(1, 0)
                                : n == 65 ? Bytes(65 * 65, 0)
                                          : chain_kinds(static_cast<size_t>(n), random).table;
            Bytes block(block_length, 0xee);
            const Answer answer = tried.open(n, 4, table, block);
            expect("n of 1, 2, 64 and 65", answer == reply(n == 1 || n == 65 ? 1 : 0));
        }
        Bytes block = opened(64);
        const Bytes before = block;
        std::vector<Fact> facts(most_facts, is_one_with(62, 63));
        facts.push_back(is_one_with(62, 63));
        expect("1,089 facts", take(block, facts) == reply(8) && block == before);
        facts.pop_back();
        expect("1,088 facts", take(block, facts) == reply(0, 0, 1));
    }

    void errors()
    {
        // In each order, for only some of them have the join run on through links.
        std::vector<Fact> facts = {link_leads(0, 1, 1), link_leads(0, 1, 2), link_leads(1, 2, 3), link_leads(2, 2, 4)};
        std::sort(facts.begin(), facts.end());
        do {
            Bytes block = opened(5);
            take(block, {facts[0], facts[1], facts[2]});
            take(block, {facts[3]});
            expect("error 1", block[classes_at + 2] == 1 && block[classes_at + 4] == 3);
        } while (std::next_permutation(facts.begin(), facts.end()));

        Bytes block = opened(4);
        take(block, f);
        expect("error 3", ask(block, {1, {{0, 1}}, {has_kind(0, 16)}}) == reply(0, 0, 1));

        block = opened(4);
        const Bytes before = block;
        expect("error 4",
               take(block, {has_kind(0, 11), is_one_with(1, 2), has_kind(0, 18)}) == reply(11, 14) && block == before);

        take(block, {is_one_with(3, 1), is_one_with(1, 2)});
        expect("error 5", block[classes_at + 1] == 1 && block[classes_at + 2] == 1 && block[classes_at + 3] == 1);
    }

    // Fact i stands at 6 + 4 i.
    void places_of_clashes()
    {
        Bytes block = opened(8);
        expect("kind 0", take(block, {has_kind(1, 9), has_kind(0, 0), has_kind(1, 10)}) == reply(11, 10));
        expect("two kinds that shut each other out",
               take(block, {has_kind(1, 9), has_kind(0, 2), has_kind(1, 10), has_kind(0, 3)}) == reply(11, 14));

        // Rows 0, 1, 2 and 3, 4, 5 along link 1, one left and one right at its end.
        const std::vector<Fact> rows = {link_leads(0, 1, 1), link_leads(1, 1, 2), link_leads(3, 1, 4),
                                        link_leads(4, 1, 5), has_kind(2, 2),      has_kind(5, 3)};
        std::vector<Fact> facts = rows;
        facts.push_back(is_one_with(0, 3));
        facts.push_back(has_kind(6, 1));
        expect("a clash two links away", take(block, facts) == reply(11, 30));
        facts = rows;
        facts.insert(facts.begin(), {link_leads(7, 0, 0), link_leads(7, 0, 3)});
        expect("rows joined before their ends are known", take(block, facts) == reply(11, 34));

        // Sent again, it clashes at an earlier fact once more is known.
        const std::vector<Fact> sent = {is_one_with(6, 7), has_kind(6, 2), has_kind(7, 3)};
        expect("a clash at the last fact", take(block, sent) == reply(11, 14));
        expect("one fact more", take(block, {has_kind(7, 12)}) == reply(0));
        expect("a clash sent again", take(block, sent) == reply(11, 10));

        facts.assign(most_facts - 1, is_one_with(4, 4));
        facts.push_back(has_kind(7, 11));
        expect("a clash at the 1,088th fact", take(block, facts) == reply(11, 4354));
    }

    Implementation tried;
    std::string failed;
};

} // namespace host

#endif
