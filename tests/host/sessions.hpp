// The calls of one session, each of which depends on the session's seed and on the blocks that earlier calls left, on
// nothing else, so that a failure can be repeated from its seed.

#ifndef HOST_SESSIONS_HPP
#define HOST_SESSIONS_HPP

#include "blocks.hpp"
#include "calls.hpp"
#include "implementation.hpp"
#include "rules.hpp"
#include "terms.hpp"

namespace host {

class Session {
public:
    explicit Session(std::uint64_t seed)
        : random(seed ^ 0x7265666572656e63), course(random_course(random)), kinds(random_kinds(random)),
          v(course == Course::foreign && random.chance(20) ? most_joints : random_joint_count(random)),
          hidden(random_picture(kinds, v, random)), steps(random.between(6, 30))
    {}

    // The next call, given the block as it stands; nothing once the session ends.
    bool next(const Bytes& block, Call& call)
    {
        if (step == steps)
            return false;
        call = Call();
        const bool first = step++ == 0;
        if (course == Course::openings) {
            make_open(call, block, 85);
        } else if (course == Course::typed) {
            make_typed(call);
        } else if (first && course == Course::opened) {
            make_open(call, block, 0);
        } else {
            make_step(call, block.empty() ? foreign_block(kinds, v, random) : block);
        }
        for (Lent& lent : call.lent) {
            const size_t roll = random.below(100);
            lent.lie = roll < 70 ? Lie::between_guards : roll < 80 ? Lie::at_start : Lie::at_end;
            lent.shift = random.below(16);
            lent.null = lent.bytes.empty() && random.chance(60);
        }
        return true;
    }

private:
    // Opened here and carried on; begun with a block that somebody else wrote; nothing but openings, most of them
    // refused; or terms read and written, each on a block of its own.
    enum class Course { opened, foreign, openings, typed };
    static Course random_course(Random& random)
    {
        const size_t roll = random.below(100);
        return roll < 68 ? Course::opened : roll < 77 ? Course::foreign : roll < 86 ? Course::openings : Course::typed;
    }

    static void lend(Call& call, Slot slot, Bytes bytes)
    {
        call.lent[slot].used = true;
        call.lent[slot].bytes = std::move(bytes);
    }

    Bytes noise(size_t size)
    {
        const Byte fill = random.byte();
        Bytes bytes(size, fill);
        for (size_t i = 0; i < 8 && size > 0; i++)
            bytes[random.below(size)] = random.byte();
        return bytes;
    }

    void make_step(Call& call, const Bytes& block)
    {
        const size_t roll = random.below(100);
        if (roll < 2) {
            make_open(call, block, 80);
        } else if (roll < 3) {
            call.name = Name::house;
            lend(call, table_slot, noise(random.pick_of<size_t>({1089, 1089, 1089, 1088, 1090, 0, 4096})));
        } else if (roll < 42) {
            call.name = Name::take;
            lend(call, packet_slot, next_facts());
        } else if (roll < 82) {
            call.name = Name::ask;
            lend(call, packet_slot, next_rule(block));
        } else if (roll < 95) {
            call.name = Name::write;
            lend(call, out_slot, noise(next_output_length(block)));
        } else if (roll < 97) {
            make_read_term(call, block);
        } else {
            make_write_term(call, block, random.below(v));
        }
        if (call.name == Name::open || call.name == Name::house)
            return;

        call.goes_on = true;
        lend_block(call, block);
    }

    // At times damaged or of another size: then the session does not go on with it.
    void lend_block(Call& call, const Bytes& block)
    {
        Bytes lent_block = block;
        if (random.chance(10)) {
            call.goes_on = false;
            for (size_t times = random.chance(85) ? 1 : 2; times > 0; times--)
                damage_block(lent_block, random);
        }
        if (random.chance(2)) {
            call.goes_on = false;
            lent_block.resize(random.pick_of<size_t>({0, 1, 66, 5249, 5251, 8192}));
        }
        lend(call, block_slot, std::move(lent_block));
    }

    // ------------------------------------------------------------------------------------------------------ terms

    void make_typed(Call& call)
    {
        const size_t roll = random.below(100);
        Tree tree = roll < 15 && v >= 15 ? row_of(kinds, v, random.between(15, std::min<size_t>(v, 18)), random)
                                         : random_tree(kinds, v, random);
        if (roll >= 60)
            for (size_t times = random.pick_of<size_t>({1, 1, 1, 2, 3}); times > 0; times--)
                unmake_tree(tree, kinds, random);
        if (random.chance(50))
            make_read_term(call, tree.block);
        else
            make_write_term(call, tree.block, tree.root);
        lend_block(call, tree.block);
        call.goes_on = false;
    }

    void make_read_term(Call& call, const Bytes& block)
    {
        const std::string text = next_text(block);
        Bytes packet(longest_solved_form);
        const size_t needed =
            Implementation(paper::calls(paper::Fault::none)).read_term(block, bytes_of(text), packet).third();
        call.name = Name::read_term;
        lend(call, text_slot, bytes_of(text));
        lend(call, out_slot, noise(output_length(needed, longest_solved_form)));
    }

    // From this joint, at times from another one that there is or from one that there is not.
    void make_write_term(Call& call, const Bytes& block, size_t joint)
    {
        call.name = Name::write_term;
        call.joint = random.chance(85)   ? joint
                     : random.chance(50) ? random.below(v)
                     : random.chance(40) ? random.pick_of<std::uint64_t>({v, v + 1, 64, 255, 256 + joint})
                                         : out_of_range(joint);
        Bytes text(longest_solved_form);
        const size_t needed =
            Implementation(paper::calls(paper::Fault::none)).write_term(block, call.joint, text).third();
        lend(call, out_slot, noise(output_length(needed, 800)));
    }

    std::string next_text(const Bytes& block)
    {
        const size_t roll = random.below(100);
        TermShape shape{kinds.n, v};
        shape.deepest = random.pick_of<size_t>({2, 4, 16, 16, 17, 18});
        shape.most_arguments = shape.deepest > 4 ? 2 : random.between(1, 16);
        shape.most_terms = random.pick_of<size_t>({3, 10, 40, 200});
        shape.odd_numbers = random.pick_of<size_t>({0, 0, 0, 2, 20});
        std::string text = roll < 10   ? deep_term(random.between(14, 18), random.chance(50) ? "" : ":1(1=>@0)")
                           : roll < 20 ? term_of_facts(random.between(1086, 1091), random.chance(50), random.chance(50))
                                       : random_term(shape, random);
        if (roll >= 90) { // what the block says, if it can be written
            Bytes written(800);
            const Answer answer = Implementation(paper::calls(paper::Fault::none)).write_term(block, 0, written);
            written.resize(answer.third());
            text = text_of(written);
        }
        if (random.chance(20) && !text.empty() &&
            text.back() == ')') // one number more, mostly out of range, at the end
            text.insert(text.size() - 1, "," + std::to_string(random.pick_of<size_t>({0, 15, 16, 17})) + "=>@" +
                                             std::to_string(random.pick_of<size_t>({0, v - 1, v, v + 1})) + ":" +
                                             std::to_string(random.pick_of<size_t>({0, kinds.n - 1, kinds.n})));
        for (size_t times = random.pick_of<size_t>({0, 0, 0, 1, 2}); times > 0; times--)
            damage_text(text, random);
        return text;
    }

    std::uint64_t out_of_range(size_t good)
    {
        const std::uint64_t two_to_32 = std::uint64_t{1} << 32;
        return random.pick_of<std::uint64_t>({0, 1, 65, 66, 255, 256, good + 256, two_to_32, two_to_32 + good,
                                              two_to_32 * good, std::uint64_t{1} << 63, (std::uint64_t{1} << 63) + good,
                                              ~std::uint64_t{0}});
    }

    void make_open(Call& call, const Bytes& block, size_t damaged)
    {
        call.name = Name::open;
        call.n = kinds.n;
        call.v = v;
        call.goes_on = true;
        Bytes table = kinds.table;
        Bytes lent_block = block.empty() ? noise(block_length) : block;
        if (random.chance(damaged)) {
            // Some damage can still be opened, with other sizes than this session reckons with.
            call.goes_on = course == Course::openings;
            for (size_t times = random.chance(80) ? 1 : 2; times > 0; times--) {
                const size_t roll = random.below(100);
                if (roll < 12) {
                    call.n = out_of_range(kinds.n);
                    // Lengths that a careless n * n would let through.
                    if (call.n < 67 && random.chance(70))
                        table.resize(static_cast<size_t>(call.n * call.n));
                    else if (random.chance(30))
                        table.resize(static_cast<size_t>(call.n * call.n % 4096));
                } else if (roll < 22) {
                    call.v = out_of_range(v);
                } else if (roll < 28) {
                    table.resize(
                        random.pick_of<size_t>({0, table.size() - 1, table.size() + 1, table.size() + kinds.n, 4096}));
                } else if (roll < 32) {
                    lent_block.resize(random.pick_of<size_t>({0, 5249, 5251}));
                    call.goes_on = false;
                } else {
                    damage_table(table, kinds.n, random);
                }
                if (table.empty())
                    break;
            }
        }
        lend(call, table_slot, std::move(table));
        lend(call, block_slot, std::move(lent_block));
    }

    Bytes next_facts()
    {
        if (!refused_or_odd.empty() && random.chance(8))
            return random.pick(refused_or_odd);

        const bool clashing = random.chance(5);
        std::vector<Fact> facts;
        const size_t roll = random.below(1000);
        const size_t count = roll < 50    ? 0
                             : roll < 750 ? random.between(1, 6)
                             : roll < 930 ? random.between(7, 40)
                             : roll < 980 ? random.between(41, 300)
                             : roll < 990 ? random.between(301, most_facts)
                                          : most_facts;
        const size_t loose = random.pick_of<size_t>({0, 0, 0, 2, 30, 100});
        if (clashing)
            facts = clashing_facts(kinds, v, most_facts, random);
        else if (random.chance(7))
            facts = far_reaching_facts(v, random);
        while (facts.size() < count && !clashing)
            facts.push_back(random.chance(loose) ? any_fact(kinds.n, v, random)
                                                 : holding_fact(kinds, v, hidden, random));
        Bytes packet = facts_packet(v, facts);
        if (random.chance(22)) {
            damage_packet(packet, kinds.n, v, random);
            if (random.chance(20))
                damage_packet(packet, kinds.n, v, random);
        }
        if ((loose > 0 || clashing) && refused_or_odd.size() < 8)
            refused_or_odd.push_back(packet);
        return packet;
    }

    Bytes next_rule(const Bytes& block)
    {
        if (!asked.empty() && random.chance(20))
            return random.pick(asked);

        const size_t roll = random.below(100);
        Rule rule = roll < 55   ? holding_rule(kinds, v, picture_of_block(kinds, v, block), random)
                    : roll < 80 ? holding_rule(kinds, v, hidden, random)
                                : any_rule(kinds.n, v, random);
        if (roll < 80)
            for (size_t times = random.pick_of<size_t>({0, 0, 1, 1, 2, 5}); times > 0; times--)
                unsettle(rule, kinds, v, random);
        if (random.chance(2) && !rule.facts.empty())
            while (rule.facts.size() < most_facts)
                rule.facts.push_back(random.pick(rule.facts));
        if (random.chance(5))
            while (rule.ties.size() < most_ties)
                rule.ties.push_back(random.pick(rule.ties));

        Bytes packet = rule.packet();
        if (random.chance(22)) {
            damage_packet(packet, kinds.n, v, random);
            if (random.chance(20))
                damage_packet(packet, kinds.n, v, random);
        } else if (asked.size() < 8) {
            asked.push_back(packet);
        }
        return packet;
    }

    size_t next_output_length(const Bytes& block)
    {
        Bytes form(longest_solved_form);
        const size_t needed = Implementation(paper::calls(paper::Fault::none)).write(block, form).third();
        return output_length(needed, longest_solved_form);
    }
    size_t output_length(size_t needed, size_t longest)
    {
        return random.pick_of<size_t>({needed, needed, needed > 0 ? needed - 1 : 0, needed + 1, longest, longest + 100,
                                       0, 6, random.below(needed + 1)});
    }

    Random random;
    Course course;
    Kinds kinds;
    size_t v;
    Picture hidden;
    size_t steps;
    size_t step = 0;
    std::vector<Bytes> asked;
    std::vector<Bytes> refused_or_odd;
};

} // namespace host

#endif
