// Texts and trees gone through one by one: each byte of a text deleted, replaced and put in, each number at each place,
// each depth and length about the right one; each joint of a tree chosen.

#ifndef HOST_TERM_SWEEP_HPP
#define HOST_TERM_SWEEP_HPP

#include "calls.hpp"
#include "implementation.hpp"
#include "terms.hpp"

namespace host {

// Visits each call, in an order that never changes.
template <typename Visit> class TermSweep {
public:
    explicit TermSweep(Visit visit) : visit(visit)
    {
        numbers();
        damaged_texts();
        depths();
        fact_counts();
        outputs();
        random_bytes();
        bad_blocks();
        trees();
    }

private:
    static constexpr Byte untouched = 0xee;

    void read(const Bytes& block, const std::string& text, size_t room = 600)
    {
        Call call = read_term_with(block, bytes_of(text), Bytes(room, untouched));
        call.lent[text_slot].lie = Lie::at_end; // so that no byte behind it is looked at
        visit(call);
    }
    void write(const Bytes& block, std::uint64_t joint, size_t room)
    {
        visit(write_term_with(block, joint, Bytes(room, untouched)));
    }
    static std::string written(const Bytes& block, size_t joint)
    {
        Bytes out(800);
        out.resize(Implementation(paper::calls(paper::Fault::none)).write_term(block, joint, out).third());
        return text_of(out);
    }

    void numbers()
    {
        const std::vector<std::pair<std::string, std::string>> places = {{"@", ""},
                                                                         {"@0:", ""},
                                                                         {"@0(", "=>@0)"},
                                                                         {"@0(1=>@", ")"},
                                                                         {"@0(1=>@0:", ")"},
                                                                         {"@0(1=>@0(", "=>@0))"},
                                                                         {"@0(1=>@1,", "=>@0:1)"},
                                                                         {"@0(1=>@0(2=>@0,3=>@", ":3),1=>@1)"}};
        for (const Bytes& block : {fresh_block(small_kinds, 12), fresh_block(small_kinds, 64)})
            for (const auto& [before, behind] : places)
                for (size_t number = 0; number < 2000; number++)
                    read(block, before + std::to_string(number) + behind);
        // With zeros before it.
        for (const auto& [before, behind] : places)
            for (const char* number : {"00", "01", "000", "001", "010", "0000", "0001"})
                read(fresh_block(small_kinds, 12), before + number + behind);
    }

    void damage_each_byte(const Bytes& block, const std::string& text)
    {
        const std::string signs = few_signs + "28;/A`\n" + std::string(1, '\0') + "\xff\xc0";
        read(block, text);
        for (size_t at = 0; at <= text.size(); at++) {
            std::string damaged = text;
            if (at < text.size()) {
                damaged.erase(at, 1);
                read(block, damaged);
                read(block, text.substr(0, at));
            }
            for (const char sign : signs) {
                damaged = text;
                damaged.insert(at, 1, sign);
                read(block, damaged);
                if (at == text.size())
                    continue;
                damaged = text;
                damaged[at] = sign;
                read(block, damaged);
            }
        }
    }
    void damaged_texts()
    {
        damage_each_byte(fresh_block(house_kinds(), 4), "@0:11(1=>@1:16,2=>@3)");
        for (size_t i = 0; i < 60; i++) {
            const size_t v = random.between(2, 16);
            const Tree tree = random_tree(small_kinds, v, random);
            damage_each_byte(fresh_block(small_kinds, v), written(tree.block, tree.root));
        }
        for (size_t i = 0; i < 30; i++)
            damage_each_byte(fresh_block(small_kinds, 12),
                             random_term({small_kinds.n, 12, 5, 3, 8, i % 2 == 0 ? 0u : 15u}, random));
    }

    void depths()
    {
        const Bytes block = fresh_block(small_kinds, 12);
        for (size_t depth = 1; depth <= 40; depth++) {
            const std::string text = deep_term(depth);
            for (const char* innermost :
                 {"", ":1", "(", "(1", "(1=", "(1=>", "(1=>@", "(1=>@0", "(1=>@0)", ":1(1=>@0)", ")"})
                read(block, deep_term(depth, innermost));
            for (size_t length = 0; length < text.size(); length++)
                read(block, text.substr(0, length));
        }
        for (const size_t depth : {15, 16, 17}) {
            damage_each_byte(block, deep_term(depth));
            for (size_t i = 0; i < 500; i++) {
                TermShape shape{small_kinds.n, 12, depth, 2, 60, 0};
                read(block, random_term(shape, random));
                read(block, "@1(0=>" + deep_term(depth - 1, "", i % 20) + ",2=>" + deep_term(depth - i % 3) + ")");
            }
        }
    }

    // About the most that a packet holds, with and without another refusal that fits.
    void fact_counts()
    {
        const Bytes block = fresh_block(small_kinds, 12);
        for (size_t facts = 1084; facts <= 1094; facts++)
            for (const bool with_kind : {false, true})
                for (const bool with_inner_kinds : {false, true}) {
                    const std::string text = term_of_facts(facts, with_kind, with_inner_kinds);
                    const size_t needed = head_length + fact_length * facts;
                    for (const size_t room : {needed - 1, needed, needed + 1, size_t{0}, longest_solved_form})
                        read(block, text, room);
                    for (const char* more :
                         {",1=>@12)", ",16=>@0)", ",1=>@0:8)", ",1=>@01)", ",1=>@0", ")", ",1=>@0))"}) {
                        const std::string begun = text.substr(0, text.size() - 1);
                        read(block, begun + more, longest_solved_form);
                        read(block, begun + more, 0);
                    }
                }
        read(block, "@0(" + std::string(1, '1') + "=>@0" + std::string(3000, 'x'));
    }

    void outputs()
    {
        const Bytes block = fresh_block(small_kinds, 12);
        for (const char* text :
             {"@0", "@0:1", "@11:7", "@0(1=>@1)", "@0:2(1=>@1:3,2=>@3(4=>@5:6))", "@0(", "@12", "@0:8"})
            for (size_t room = 0; room < 40; room++)
                read(block, text, room);
    }

    void random_bytes()
    {
        const Bytes block = fresh_block(small_kinds, 12);
        for (size_t i = 0; i < 20000; i++) {
            std::string text(random.below(24), ' ');
            for (char& sign : text)
                sign = i % 3 == 0   ? static_cast<char>(random.byte())
                       : i % 3 == 1 ? random.pick(term_signs)
                                    : random.pick(few_signs);
            read(block, text);
            // Behind a good beginning.
            const std::string begun = random_term({small_kinds.n, 12, 4, 3, 6, 0}, random);
            read(block, begun.substr(0, random.below(begun.size() + 1)) + text);
        }
    }

    void bad_blocks()
    {
        const Bytes good = random_tree(small_kinds, 12, random).block;
        for (size_t i = 0; i < 3000; i++) {
            Bytes block = good;
            damage_block(block, random);
            const std::string text = random.pick_of<const char*>({"@0", "@0(1=>@1)", "x", "@999"});
            read(block, text);
            write(block, random.below(14), 800);
        }
        for (const size_t size : {0, 1, 66, 1154, 5249, 5251, 8192}) {
            Bytes block = good;
            block.resize(size);
            read(block, "@0");
            read(block, "x");
            write(block, 0, 800);
            write(block, 99, 0);
        }
    }

    // Every joint chosen, those out of range as well, and outputs about the length.
    void choose_each(const Bytes& block)
    {
        const size_t v = block[1];
        const std::uint64_t two_to_32 = std::uint64_t{1} << 32;
        for (size_t joint = 0; joint < v + 2; joint++) {
            write(block, joint, 800);
            const size_t needed = joint < v ? written(block, joint).size() : 0;
            if (needed > 0)
                for (const size_t room : {needed - 1, needed, needed + 1, size_t{0}})
                    write(block, joint, room);
        }
        for (const std::uint64_t joint :
             {std::uint64_t{v}, std::uint64_t{64}, std::uint64_t{255}, std::uint64_t{256}, two_to_32, two_to_32 + v - 1,
              std::uint64_t{1} << 63, ~std::uint64_t{0}, ~std::uint64_t{0} - 1})
            write(block, joint, random.chance(50) ? 800 : 0);
    }
    void trees()
    {
        for (size_t v = 1; v <= most_joints; v++)
            choose_each(fresh_block(small_kinds, v));
        for (size_t i = 0; i < 600; i++) {
            const size_t v = i < 500 ? random.between(1, 12) : random.between(13, most_joints);
            Tree tree = random_tree(small_kinds, v, random);
            choose_each(tree.block);
            for (size_t times = random.between(1, 3); times > 0; times--)
                unmake_tree(tree, small_kinds, random);
            choose_each(tree.block);
        }
        for (const size_t joints : {15, 16, 17, 18, 64})
            for (size_t i = 0; i < 20; i++)
                choose_each(row_of(small_kinds, random.between(joints, most_joints), joints, random).block);
        // Two joints of which little is known, every way: each of their kinds and first two links.
        for (size_t known = 0; known < 2 * 2 * 3 * 3 * 3 * 3; known++) {
            Bytes block = fresh_block(small_kinds, 2);
            size_t left = known;
            for (size_t joint = 0; joint < 2; joint++) {
                set_kind(block, joint, 1 + left % 2);
                left /= 2;
                for (size_t l = 0; l < 2; l++) {
                    if (left % 3 < 2)
                        set_link(block, joint, l, left % 3);
                    left /= 3;
                }
            }
            choose_each(block);
        }
        for (size_t i = 0; i < 400; i++)
            choose_each(foreign_block(small_kinds, random.between(1, 6), random));
    }

    Visit visit;
    Random random{7};
    const Kinds small_kinds = family_kinds(8, random);
};

} // namespace host

#endif
