// What a stream of calls hit, and what it should have hit and did not.

#ifndef HOST_COVERAGE_HPP
#define HOST_COVERAGE_HPP

#include "harness.hpp"
#include "hits.hpp"
#include "packets.hpp"

namespace host {

// By the plain version's answers.
class Coverage {
public:
    void count(const Call& call, const Answer& answer)
    {
        replies[static_cast<size_t>(call.name)][answer.number()]++;
        const Bytes& packet = call.lent[packet_slot].bytes;
        const Bytes& block = call.lent[block_slot].bytes;
        if (answer.number() == 7)
            hit(std::string("reply 7 at ") + name_text[static_cast<size_t>(call.name)] + ", place " +
                std::to_string(answer.place()));
        if (call.name == Name::ask && answer.number() == 0) {
            verdicts[answer.third() % verdict_count]++;
            if (packet[4] == most_ties)
                hit("a rule of 8 ties");
            if (packet[5] == most_rule_joints)
                hit("a rule of 32 joints");
            if (packet.size() == 6 + 2u * packet[4] + 4 * most_facts)
                hit("a rule of 1,088 facts");
            if (block[1] == 64)
                hit("a rule at V = 64");
        }
        if (call.name == Name::take && answer.number() == 0) {
            if (packet.size() == longest_solved_form)
                hit("1,088 facts taken");
            if (packet.size() == 6)
                hit("no facts taken");
            if (block[0] == 64)
                hit("facts taken at n = 64");
            if (block[1] == 64)
                hit("facts taken at V = 64");
            if (answer.third() >= 32)
                hit("32 joins or more at once");
        }
        if (answer.number() == 11)
            count_clash(block, packet, answer.place());
        if (call.name == Name::take && answer.number() == 8 && packet.size() == longest_solved_form + 4)
            hit("1,089 facts refused");
        if (answer.number() == 8 && packet.size() > 60000)
            hit("over 60,000 bytes refused");
        if (call.name == Name::write && answer.number() == 0) {
            if (answer.third() == call.lent[out_slot].bytes.size())
                hit("an output of just the length");
            if (answer.third() > 4000)
                hit("a solved form of over 4,000 bytes");
        }
        if (call.name == Name::read_term)
            count_read_term(call, answer);
        if (call.name == Name::write_term)
            count_write_term(call, answer);
        if (answer.number() == 12 && call.lent[out_slot].null)
            hit("null output");
        if (answer.number() == 5 && call.lent[packet_slot].null)
            hit("null packet");
        if (answer.number() == 1 && call.lent[block_slot].null)
            hit("null block");
        if (answer.number() == 1 && call.lent[table_slot].null)
            hit("null table");
        if (call.name == Name::open && answer.number() == 1 && call.n >> 32 != 0)
            hit("n beyond 32 bits");
        if (call.name == Name::open && answer.number() == 1 && call.v >> 32 != 0)
            hit("V beyond 32 bits");
        if (call.name == Name::open && answer.number() == 0 && call.n == 2)
            hit("opened with n = 2");
        if (call.name == Name::open && answer.number() == 0 && call.n == 64)
            hit("opened with n = 64");
    }

    void print() const
    {
        std::printf("  reply      ");
        for (const size_t number : numbers)
            std::printf("%6zu", number);
        std::printf("\n");
        for (size_t name = 0; name < name_count; name++) {
            std::printf("  %-10s ", name_text[name]);
            for (const size_t number : numbers)
                if (replies[name][number] == 0)
                    std::printf("     .");
                else
                    std::printf("%6zu", replies[name][number]);
            std::printf("\n");
        }
        std::printf("  verdicts   applies %zu, ruled out %zu, waits %zu\n", verdicts[1], verdicts[2], verdicts[3]);
        hits.print("  also hit  ");
    }

    // What was never hit, though it has to be.
    std::string missing() const
    {
        static const std::vector<size_t> possible[name_count] = {
            {0, 1, 2, 3}, {0, 1, 4, 5, 6, 7, 8, 9, 11}, {0, 1, 4, 5, 6, 7, 8, 9, 10}, {0, 1, 4, 12},
            {0, 1},       {0, 1, 4, 20, 21, 22, 12},    {0, 1, 4, 21, 23, 12}};
        std::string text;
        for (size_t name = 0; name < name_count; name++)
            for (const size_t number : possible[name])
                if (replies[name][number] == 0)
                    text +=
                        std::string("  never hit: reply ") + std::to_string(number) + " at " + name_text[name] + "\n";
        for (size_t verdict = 1; verdict < verdict_count; verdict++)
            if (verdicts[verdict] == 0)
                text += "  never hit: verdict " + std::to_string(verdict) + "\n";
        text += hits.missing({"reply 7 at take, place 3",
                              "reply 7 at take, place 4",
                              "reply 7 at take, place 5",
                              "reply 7 at ask, place 3",
                              "reply 7 at ask, place 4",
                              "reply 7 at ask, place 5",
                              "a rule of 8 ties",
                              "a rule of 32 joints",
                              "a rule of 1,088 facts",
                              "a rule at V = 64",
                              "1,088 facts taken",
                              "no facts taken",
                              "facts taken at n = 64",
                              "facts taken at V = 64",
                              "32 joins or more at once",
                              "a clash at the first of several facts",
                              "a clash with facts behind it",
                              "a clash at the 1,088th fact",
                              "a clash by kind 0",
                              "a clash through joins far away",
                              "a clash through joins far away, with facts behind it",
                              "a clash through joins far away, at the 1,088th fact",
                              "1,089 facts refused",
                              "over 60,000 bytes refused",
                              "an output of just the length",
                              "a solved form of over 4,000 bytes",
                              "a term 16 deep read",
                              "a term told to be too deep",
                              "a text that ends early",
                              "a term of 1,088 facts read",
                              "an output of just a term's packet",
                              "a tree of 64 joints written",
                              "a tree 16 deep written",
                              "a term with joints left out",
                              "an output of just a term",
                              "a chosen joint beyond 32 bits",
                              "null text",
                              "null output",
                              "null packet",
                              "null block",
                              "null table",
                              "n beyond 32 bits",
                              "V beyond 32 bits",
                              "opened with n = 2",
                              "opened with n = 64"});
        return text;
    }

private:
    static constexpr size_t number_count = 256;
    static constexpr size_t verdict_count = 4;
    static constexpr size_t numbers[] = {0, 1, 2, 3, 4, 5, 6, 7, 8, 9, 10, 11, 12, 20, 21, 22, 23};

    void hit(const std::string& what) { hits.hit(what); }

    void count_read_term(const Call& call, const Answer& answer)
    {
        const Bytes& text = call.lent[text_slot].bytes;
        const size_t deepest = deepest_in(text.begin(), text.end());
        if (answer.number() == 0 && deepest == deepest_term)
            hit("a term 16 deep read");
        if (answer.number() == 20 && answer.place() < text.size() && text[answer.place()] == '(' &&
            deepest_in(text.begin(), text.begin() + answer.place() + 1) > deepest_term)
            hit("a term told to be too deep");
        if (answer.number() == 20 && answer.place() == text.size())
            hit("a text that ends early");
        if (answer.number() == 0 && answer.third() == longest_solved_form)
            hit("a term of 1,088 facts read");
        if (answer.number() == 0 && answer.third() == call.lent[out_slot].bytes.size())
            hit("an output of just a term's packet");
        if (answer.number() == 20 && call.lent[text_slot].null)
            hit("null text");
    }

    void count_write_term(const Call& call, const Answer& answer)
    {
        if (answer.number() == 21 && call.joint >> 32 != 0)
            hit("a chosen joint beyond 32 bits");
        if (answer.number() != 0)
            return;
        const Bytes& block = call.lent[block_slot].bytes;
        Bytes text(answer.third());
        Implementation(paper::calls(paper::Fault::none)).write_term(block, call.joint, text);
        const auto joints = static_cast<size_t>(std::count(text.begin(), text.end(), '@'));
        if (joints == most_joints)
            hit("a tree of 64 joints written");
        if (deepest_in(text.begin(), text.end()) == deepest_term)
            hit("a tree 16 deep written");
        if (joints < block[1])
            hit("a term with joints left out");
        if (answer.third() == call.lent[out_slot].bytes.size())
            hit("an output of just a term");
    }

    // How deep its brackets go, the outermost term being 1 deep.
    static size_t deepest_in(Bytes::const_iterator from, Bytes::const_iterator to)
    {
        size_t depth = 1, deepest = 1;
        for (; from != to; ++from) {
            depth += *from == '(';
            depth -= *from == ')';
            deepest = std::max(deepest, depth);
        }
        return deepest;
    }

    void count_clash(const Bytes& block, const Bytes& packet, size_t place)
    {
        const bool has_facts_behind = place + fact_length < packet.size();
        const bool is_last_of_most = place + fact_length == longest_solved_form;
        const bool is_far = clashes_far_away(block, packet, place);
        if (place == head_length && has_facts_behind)
            hit("a clash at the first of several facts");
        if (has_facts_behind)
            hit("a clash with facts behind it");
        if (is_last_of_most)
            hit("a clash at the 1,088th fact");
        if (packet[place] == 1 && packet[place + 2] == 0)
            hit("a clash by kind 0");
        if (is_far)
            hit("a clash through joins far away");
        if (is_far && has_facts_behind)
            hit("a clash through joins far away, with facts behind it");
        if (is_far && is_last_of_most)
            hit("a clash through joins far away, at the 1,088th fact");
    }

    // Whether the fact at the place would not clash if kinds were known only of the joints that it is about and of
    // those that a link leads to from them.
    static bool clashes_far_away(const Bytes& block, const Bytes& packet, size_t place)
    {
        const auto at = packet.begin() + static_cast<std::ptrdiff_t>(place);
        Fact fact;
        std::copy_n(at, fact_length, fact.begin());
        if (fact[0] == 1)
            return false;
        Implementation plain(paper::calls(paper::Fault::none));
        Bytes before(packet.begin(), at);
        set_length(before);
        Bytes near = block;
        plain.take(near, before);

        std::array<bool, most_joints> kept{};
        const auto keep = [&](size_t joint) {
            const size_t its_class = near[classes_at + joint];
            kept[its_class] = true;
            for (size_t l = 0; l < links_per_joint; l++)
                if (const Byte target = near[links_at + its_class * links_per_joint + l]; target != not_known)
                    kept[target] = true;
        };
        keep(fact[1]);
        if (fact[0] == 2)
            keep(fact[2]);
        if (fact[0] == 3) {
            keep(near[links_at + near[classes_at + fact[1]] * links_per_joint + fact[2]]);
            keep(fact[3]);
        }
        for (size_t joint = 0; joint < near[1]; joint++)
            if (near[classes_at + joint] == joint && !kept[joint])
                near[kinds_at + joint] = kind_any;
        return plain.take(near, facts_packet(near[1], {fact})).number() == 0;
    }

    size_t replies[name_count][number_count] = {};
    size_t verdicts[verdict_count] = {};
    Hits hits;
};

} // namespace host

#endif
