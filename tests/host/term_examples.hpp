// Terms read and written, with answers worked out by hand from document 02: the example, the place of each refusal and
// their order, the sizes; and trees, nearly trees, and what the writer makes of them.

#ifndef HOST_TERM_EXAMPLES_HPP
#define HOST_TERM_EXAMPLES_HPP

#include "implementation.hpp"
#include "packets.hpp"
#include "terms.hpp"

namespace host {

class TermExamples {
public:
    // Gives the examples that come out otherwise; empty if none do.
    static std::string failing(const paper::Calls& calls)
    {
        TermExamples examples(calls);
        examples.the_example();
        examples.facts_in_order();
        examples.no_terms();
        examples.depths();
        examples.numbers();
        examples.sizes();
        examples.order_of_refusals();
        examples.trees();
        examples.no_trees();
        examples.chosen_joints();
        examples.deep_trees();
        examples.longest_written();
        return examples.failed;
    }

private:
    explicit TermExamples(const paper::Calls& calls) : tried(calls) {}

    void expect(const std::string& name, bool holds)
    {
        if (!holds)
            failed += (failed.empty() ? "" : ", ") + name;
    }
    static Answer reply(std::uint64_t number, std::uint64_t place = 0, std::uint64_t third = 0)
    {
        return {number + 256 * third + (place << 32)};
    }
    static constexpr Byte untouched = 0xee;

    // ------------------------------------------------------------------------------------------------- reading

    // House kinds, four joints, and an output with room for all.
    void reads(const std::string& text, const std::vector<Fact>& facts)
    {
        Bytes out(longest_solved_form + 3, untouched);
        Bytes wanted = facts_packet(4, facts);
        const size_t used = wanted.size();
        wanted.resize(out.size(), untouched);
        expect(text, tried.read_term(house, bytes_of(text), out) == reply(0, 0, used) && out == wanted);
    }
    void refuses(const std::string& text, std::uint64_t number, std::uint64_t place)
    {
        Bytes out(longest_solved_form + 3, untouched);
        expect(text, tried.read_term(house, bytes_of(text), out) == reply(number, place) &&
                         out == Bytes(longest_solved_form + 3, untouched));
    }

    void the_example()
    {
        // 0 has kind 11; 0.1 is 1; 1 has kind 16; 0.2 is 3. L is 4 + 4 x 4.
        const Bytes packet = {0x00, 0x14, 0x01, 0x01, 0x00, 0x04, 0x01, 0x00, 0x0b, 0x00, 0x03,
                              0x00, 0x01, 0x01, 0x01, 0x01, 0x10, 0x00, 0x03, 0x00, 0x02, 0x03};
        const Bytes text = bytes_of("@0:11(1=>@1:16,2=>@3)");
        Bytes out(packet.size(), untouched);
        expect("the example", tried.read_term(house, text, out) == reply(0, 0, 22) && out == packet);
        out.assign(21, untouched);
        expect("the example in 21 bytes",
               tried.read_term(house, text, out) == reply(12) && out == Bytes(21, untouched));

        Bytes block = house;
        expect("the example taken", tried.take(block, packet) == reply(0));
        out.assign(text.size() + 2, untouched);
        Bytes wanted = text;
        wanted.resize(out.size(), untouched);
        expect("the example written", tried.write_term(block, 0, out) == reply(0, 0, 21) && out == wanted);
        out.assign(20, untouched);
        expect("the example written in 20 bytes",
               tried.write_term(block, 0, out) == reply(12) && out == Bytes(20, untouched));
        for (const size_t other : {1, 2, 3})
            expect("the example from joint " + std::to_string(other),
                   tried.write_term(block, other, out) == reply(23) && out == Bytes(20, untouched));
        expect("the example from joint 4", tried.write_term(block, 4, out) == reply(21));
    }

    // A term's kind, then each argument's link, followed by all of the inner term.
    void facts_in_order()
    {
        reads("@0", {});
        reads("@3:0", {has_kind(3, 0)});
        reads("@1:32", {has_kind(1, 32)});
        reads("@2(15=>@2)", {link_leads(2, 15, 2)});
        reads("@0(1=>@1(2=>@2(3=>@3:5)),0=>@2)",
              {link_leads(0, 1, 1), link_leads(1, 2, 2), link_leads(2, 3, 3), has_kind(3, 5), link_leads(0, 0, 2)});
        reads("@0:2(1=>@1:3(4=>@3),5=>@2:6(7=>@0:8,9=>@0))",
              {has_kind(0, 2), link_leads(0, 1, 1), has_kind(1, 3), link_leads(1, 4, 3), link_leads(0, 5, 2),
               has_kind(2, 6), link_leads(2, 7, 0), has_kind(0, 8), link_leads(2, 9, 0)});
        // A joint in many terms, and a link twice in one.
        reads("@1:9(1=>@1:9,1=>@1:10)",
              {has_kind(1, 9), link_leads(1, 1, 1), has_kind(1, 9), link_leads(1, 1, 1), has_kind(1, 10)});
    }

    // The place is how many first bytes some term begins with.
    void no_terms()
    {
        const std::vector<std::pair<const char*, size_t>> texts = {{"", 0},
                                                                   {"@", 1},
                                                                   {"0", 0},
                                                                   {" @0", 0},
                                                                   {"@ 0", 1},
                                                                   {"@0 ", 2},
                                                                   {"@01", 2},
                                                                   {"@00", 2},
                                                                   {"@1234", 4},
                                                                   {"@:1", 1},
                                                                   {"@0:", 3},
                                                                   {"@0:01", 4},
                                                                   {"@0:1234", 6},
                                                                   {"@0:1:1", 4},
                                                                   {"@0()", 3},
                                                                   {"@0(", 3},
                                                                   {"@0(1", 4},
                                                                   {"@0(1)", 4},
                                                                   {"@0(1=", 5},
                                                                   {"@0(1=@0)", 5},
                                                                   {"@0(1=>", 6},
                                                                   {"@0(1=>)", 6},
                                                                   {"@0(1=>1)", 6},
                                                                   {"@0(1=>@", 7},
                                                                   {"@0(1=>@0", 8},
                                                                   {"@0(1=>@0,", 9},
                                                                   {"@0(1=>@0,)", 9},
                                                                   {"@0(,1=>@0)", 3},
                                                                   {"@0(01=>@0)", 4},
                                                                   {"@0(1234=>@0)", 6},
                                                                   {"@0(1=>@0)x", 9},
                                                                   {"@0(1=>@0))", 9},
                                                                   {"@0(1=>@0)(1=>@0)", 9},
                                                                   {"@0(1=>@0):1", 9},
                                                                   {"@0@0", 2},
                                                                   {"@0,@0", 2},
                                                                   {"@0(@0)", 3},
                                                                   {"@-1", 1},
                                                                   {"@+1", 1},
                                                                   {"@0:x", 3},
                                                                   {"@0\n", 2},
                                                                   {"@0(1=>@0:)", 9},
                                                                   {"@0(1>=@0)", 4},
                                                                   {"@0(1 =>@0)", 4},
                                                                   {"@0(1=>@0 ,2=>@0)", 8},
                                                                   {"@0(1=>@0;2=>@0)", 8},
                                                                   {"@0[1=>@0]", 2}};
        for (const auto& [text, place] : texts)
            refuses(text, 20, place);
        refuses(std::string("@0\0", 3), 20, 2);
        refuses("\xff", 20, 0);
        refuses("@\xb0", 20, 1);
    }

    // A 17th term is told at the bracket of the 16-deep one.
    void depths()
    {
        const std::vector<Fact> fifteen_links(15, link_leads(0, 1, 0));
        std::vector<Fact> facts = fifteen_links;
        reads(deep_term(16), facts);
        facts.push_back(has_kind(0, 7));
        reads(deep_term(16, ":7"), facts);
        facts.pop_back();
        facts.pop_back();
        reads(deep_term(15), facts);
        // @0 and fifteen times (1=>@0: the next bracket comes at 2 + 15 x 6.
        refuses(deep_term(17), 20, 92);
        refuses(deep_term(16, "(1=>@0)"), 20, 92);
        refuses(deep_term(16, "("), 20, 92);
        refuses(deep_term(16, ":7(1=>@0)"), 20, 94);
        // As many brackets, but never so deep: two rows of 15 levels.
        const std::string row = deep_term(15);
        facts.assign(1, link_leads(0, 1, 0));
        facts.insert(facts.end(), 14, link_leads(0, 1, 0));
        facts.push_back(link_leads(0, 2, 0));
        facts.insert(facts.end(), 14, link_leads(0, 1, 0));
        reads("@0(1=>" + row + ",2=>" + row + ")", facts);
    }

    // 21 is at the first digit of the first number that is out of range.
    void numbers()
    {
        refuses("@4", 21, 1);
        refuses("@999", 21, 1);
        refuses("@0:33", 21, 3);
        refuses("@0(16=>@0)", 21, 3);
        refuses("@0(15=>@4)", 21, 8);
        refuses("@0(15=>@3:100)", 21, 10);
        refuses("@0(1=>@1,1=>@1,100=>@100)", 21, 15);
        refuses("@4:33(16=>@4)", 21, 1);
        refuses("@3:33(16=>@4)", 21, 3);
        refuses("@3:32(16=>@4)", 21, 6);
        reads("@3:32(15=>@3)", {has_kind(3, 32), link_leads(3, 15, 3)});
    }

    void sizes()
    {
        const Bytes room(longest_solved_form + 4, untouched);
        for (const bool with_kind : {false, true})
            for (const bool with_inner_kinds : {false, true})
                for (const size_t facts :
                     {size_t{0}, size_t{1}, size_t{1087}, size_t{1088}, size_t{1089}, size_t{1090}}) {
                    if (with_kind && facts == 0)
                        continue;
                    const Bytes text = bytes_of(term_of_facts(facts, with_kind, with_inner_kinds));
                    const size_t used = head_length + fact_length * facts;
                    Bytes out = room;
                    const Answer answer = tried.read_term(house, text, out);
                    expect(std::to_string(facts) + " facts in a term",
                           facts > most_facts ? answer == reply(22) && out == room : answer == reply(0, 0, used));
                    if (facts > most_facts)
                        continue;
                    out.assign(used, untouched);
                    expect(std::to_string(facts) + " facts, an output of their length",
                           tried.read_term(house, text, out) == reply(0, 0, used));
                    out.assign(used - 1, untouched);
                    expect(std::to_string(facts) + " facts, an output one shorter",
                           tried.read_term(house, text, out) == reply(12) && out == Bytes(used - 1, untouched));
                }
        Bytes text(longest_text + 1, 'x');
        Bytes out = room;
        expect("a text of 2^24 + 1 bytes", tried.read_term(house, text, out) == reply(1) && out == room);
        text.pop_back();
        expect("a text of 2^24 bytes", tried.read_term(house, text, out) == reply(20) && out == room);
    }

    // 1, 4, 20, 21, 22, 12; and 1, 4, 21, 23, 12. Of two that fit, the first is told, wherever they stand.
    void order_of_refusals()
    {
        Bytes none;
        Bytes bad_block(block_length, 0);
        Bytes short_block(block_length - 1, 0);
        Bytes out(4, untouched);
        const auto read = [&](const Bytes& block, const std::string& text) {
            return tried.read_term(block, bytes_of(text), out);
        };
        std::string too_large = term_of_facts(1089, false, false);
        expect("1 before 4 at reading", read(short_block, "x") == reply(1));
        expect("4 before 20", read(bad_block, "x") == reply(4));
        expect("4 before 21", read(bad_block, "@999") == reply(4));
        expect("20 before 21", read(house, "@999(") == reply(20, 5));
        expect("20 before 22", read(house, too_large + ")") == reply(20, too_large.size()));
        expect("20 before 12", tried.read_term(house, bytes_of("@0:"), none) == reply(20, 3));
        expect("22 before 12", read(house, too_large) == reply(22));
        expect("12", tried.read_term(house, bytes_of("@0"), none) == reply(12));
        too_large.insert(too_large.size() - 1, ",16=>@0");
        expect("21 before 22", read(house, too_large) == reply(21, too_large.size() - 7));
        expect("21 before 12", tried.read_term(house, bytes_of("@4"), none) == reply(21, 1));

        Bytes looped = house;
        set_link(looped, 0, 0, 0);
        expect("1 before 4 at writing", tried.write_term(short_block, 99, none) == reply(1));
        expect("4 before 21 at writing", tried.write_term(bad_block, 99, none) == reply(4));
        expect("21 before 23", tried.write_term(looped, 4, none) == reply(21));
        expect("23 before 12", tried.write_term(looped, 0, none) == reply(23));
        expect("12 at writing", tried.write_term(house, 0, none) == reply(12));
        expect("nothing written", out == Bytes(4, untouched));
    }

    // ------------------------------------------------------------------------------------------------- writing

    void writes(const std::string& name, const Bytes& block, size_t joint, const std::string& text)
    {
        Bytes out(1000, untouched);
        Bytes wanted = bytes_of(text);
        wanted.resize(out.size(), untouched);
        expect(name, tried.write_term(block, joint, out) == reply(0, 0, text.size()) && out == wanted);
        out.assign(text.size(), untouched);
        expect(name + ", an output of its length", tried.write_term(block, joint, out) == reply(0, 0, text.size()));
        out.assign(text.size() - 1, untouched);
        expect(name + ", an output one shorter",
               tried.write_term(block, joint, out) == reply(12) && out == Bytes(text.size() - 1, untouched));
    }
    void is_no_tree(const std::string& name, const Bytes& block, size_t joint)
    {
        Bytes out(1000, untouched);
        expect(name, tried.write_term(block, joint, out) == reply(23) && out == Bytes(1000, untouched));
    }

    void trees()
    {
        writes("a fresh block", house, 0, "@0");
        writes("a fresh block from its last joint", house, 3, "@3");
        Bytes block = house;
        set_kind(block, 2, 8);
        writes("a kind alone", block, 2, "@2:8");
        is_no_tree("a kind that is not reached", block, 0);

        // Links rise, whatever the joints they lead to; kind 1 is not written; joints 5 and 6 may stand alone.
        block = fresh_block(kinds, 7);
        set_link(block, 4, 10, 0);
        set_link(block, 4, 2, 3);
        set_link(block, 3, 15, 1);
        set_link(block, 3, 0, 2);
        set_kind(block, 4, 8);
        set_kind(block, 1, 32);
        writes("links rising", block, 4, "@4:8(2=>@3(0=>@2,15=>@1:32),10=>@0)");
        for (const size_t other : {0, 1, 2, 3, 5, 6})
            is_no_tree("another joint of that tree", block, other);
        set_kind(block, 6, 2);
        is_no_tree("a joint that stands alone with a kind", block, 4);
    }

    void no_trees()
    {
        Bytes tree = fresh_block(kinds, 6);
        set_link(tree, 0, 1, 1);
        set_link(tree, 0, 2, 2);
        set_link(tree, 1, 1, 3);
        writes("a tree of four", tree, 0, "@0(1=>@1(1=>@3),2=>@2)");

        const auto with_link = [&](size_t joint, size_t link, size_t to) {
            Bytes block = tree;
            set_link(block, joint, link, to);
            return block;
        };
        is_no_tree("two walks to a joint", with_link(2, 5, 3), 0);
        is_no_tree("two links to a joint", with_link(0, 3, 2), 0);
        is_no_tree("a loop at an end", with_link(3, 0, 3), 0);
        is_no_tree("a loop of two", with_link(3, 0, 1), 0);
        is_no_tree("a link to the chosen joint", with_link(3, 0, 0), 0);
        is_no_tree("a link that is not reached", with_link(4, 0, 5), 0);
        is_no_tree("a loop that is not reached", with_link(4, 0, 4), 0);
        is_no_tree("a link to the chosen joint from one not reached", with_link(4, 0, 0), 0);
        writes("and from that one", with_link(4, 0, 0), 4, "@4(0=>@0(1=>@1(1=>@3),2=>@2))");

        Bytes block = house;
        set_link(block, 0, 15, 0);
        is_no_tree("a loop of the chosen joint", block, 0);
        is_no_tree("a loop elsewhere", block, 1);

        block = tree;
        block[classes_at + 5] = 4;
        block[kinds_at + 5] = 0;
        for (size_t l = 0; l < links_per_joint; l++)
            set_link(block, 5, l, 0);
        is_no_tree("two joints that are one, neither reached", block, 0);
    }

    void chosen_joints()
    {
        const std::uint64_t two_to_32 = std::uint64_t{1} << 32;
        Bytes out(100, untouched);
        for (const std::uint64_t joint :
             {std::uint64_t{4}, std::uint64_t{63}, std::uint64_t{64}, std::uint64_t{255}, std::uint64_t{256}, two_to_32,
              two_to_32 + 1, std::uint64_t{1} << 63, ~std::uint64_t{0}})
            expect("chosen joint " + std::to_string(joint), tried.write_term(house, joint, out) == reply(21));
        const Bytes largest = fresh_block(kinds, 64);
        expect("chosen joint 64 of 64", tried.write_term(largest, 64, out) == reply(21));
        expect("nothing written", out == Bytes(100, untouched));
        writes("chosen joint 63 of 64", largest, 63, "@63");
    }

    void deep_trees()
    {
        for (const size_t joints : {15, 16, 17}) {
            Bytes block = fresh_block(kinds, 20);
            std::string text;
            for (size_t joint = 0; joint < joints; joint++) {
                text += (joint == 0 ? "@" : "(3=>@") + std::to_string(joint);
                if (joint + 1 < joints)
                    set_link(block, joint, 3, joint + 1);
            }
            text += std::string(joints - 1, ')');
            if (joints <= deepest_term)
                writes(std::to_string(joints) + " joints in a row", block, 0, text);
            else
                is_no_tree("17 joints in a row", block, 0);
        }
    }

    // 64 joints of two-digit kinds, 16 deep: from joint 0 by links 10 to 14 four rows of 15 and one of three, all by
    // two-digit links. @ 64, digits of joints 10 + 2 x 54, kinds 64 x 3, links 63 x 4, one bracket or comma before each
    // of 63 and one bracket behind each of the 59 that have any.
    void longest_written()
    {
        Random random(1);
        const Kinds many = flat_kinds(64, random);
        Bytes block = fresh_block(many, 64);
        for (size_t joint = 0; joint < 64; joint++) {
            set_kind(block, joint, 63);
            if (joint > 0)
                set_link(block, joint % 15 == 1 ? 0 : joint - 1, joint % 15 == 1 ? 10 + joint / 15 : 15, joint);
        }
        Bytes out(748, untouched);
        expect("the longest text", tried.write_term(block, 0, out) == reply(0, 0, 748));
        Bytes packet(longest_solved_form);
        const Answer read = tried.read_term(fresh_block(many, 64), out, packet);
        expect("the longest text read", read == reply(0, 0, head_length + fact_length * (64 + 63)));
        packet.resize(read.third());
        Bytes again = fresh_block(many, 64);
        expect("the longest text taken", tried.take(again, packet) == reply(0) && again == block);
    }

    Implementation tried;
    const Kinds kinds = house_kinds();
    const Bytes house = fresh_block(kinds, 4);
    std::string failed;
};

} // namespace host

#endif
