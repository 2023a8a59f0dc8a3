// Small inputs gone through one by one, where random calls may miss a boundary: each byte set to each value of
// interest, each length about the right one.

#ifndef HOST_SWEEP_HPP
#define HOST_SWEEP_HPP

#include "calls.hpp"
#include "implementation.hpp"
#include "packets.hpp"
#include "tables.hpp"

namespace host {

// Visits each call, in an order that never changes.
template <typename Visit> class Sweep {
public:
    explicit Sweep(Visit visit) : visit(visit)
    {
        sizes();
        tables();
        near_house_tables();
        blocks();
        packets();
        clashes();
        lengths();
    }

private:
    void sizes()
    {
        const Bytes block(block_length, 0xee);
        for (size_t n = 0; n <= 300; n++) {
            const Bytes table = n >= 2 && n <= 64 ? chain_kinds(n, random).table : n <= 66 ? Bytes(n * n, 0) : Bytes();
            visit(open_with(n, 4, table, block));
        }
        const Kinds small = chain_kinds(3, random);
        for (size_t v = 0; v <= 300; v++)
            visit(open_with(3, v, small.table, block));
        for (size_t bit = 8; bit < 64; bit++) {
            const std::uint64_t high = std::uint64_t{1} << bit;
            visit(open_with(high + 3, 4, small.table, block));
            visit(open_with(3, high + 4, small.table, block));
            visit(open_with(high, 4, Bytes(), block));
        }
    }

    // One entry changed, then one entry together with its mirror image.
    void tables()
    {
        const Bytes block(block_length, 0xee);
        for (const Kinds& kinds : {chain_kinds(2, random), chain_kinds(3, random), chain_kinds(5, random),
                                   flat_kinds(6, random), product_kinds(8, random), family_kinds(7, random)}) {
            const size_t n = kinds.n;
            for (size_t i = 0; i < n; i++)
                for (size_t j = 0; j < n; j++)
                    for (size_t value = 0; value <= n + 1; value++) {
                        const Byte entry = value <= n ? static_cast<Byte>(value) : 255;
                        Bytes table = kinds.table;
                        table[i * n + j] = entry;
                        visit(open_with(n, 3, table, block));
                        table[j * n + i] = entry;
                        visit(open_with(n, 3, table, block));
                    }
        }
    }

    // The house table with one byte changed, each byte once, at opening and in a block; once more with its mirror
    // image.
    void near_house_tables()
    {
        const Kinds house = house_kinds();
        const Bytes good = block_after(house, 3, {has_kind(0, 9), link_leads(0, 1, 2)});
        for (size_t at = 0; at < house_length; at++) {
            const size_t mirror = at % house.n * house.n + at / house.n;
            Kinds near = house;
            near.table[at] = static_cast<Byte>((near.table[at] + 1 + at % (house.n - 1)) % house.n);
            open_and_write(near, good);
            near.table[mirror] = near.table[at];
            open_and_write(near, good);
        }
    }
    void open_and_write(const Kinds& kinds, Bytes block)
    {
        visit(open_with(kinds.n, 3, kinds.table, block));
        std::copy(kinds.table.begin(), kinds.table.end(), block.begin() + table_at);
        visit(call_with(Name::write, {{block_slot, block}, {out_slot, Bytes(longest_solved_form, 0xee)}}));
    }

    Bytes block_after(const Kinds& kinds, size_t v, const std::vector<Fact>& facts)
    {
        Implementation plain(paper::calls(paper::Fault::none));
        Bytes block(block_length);
        plain.open(kinds.n, v, kinds.table, block);
        plain.take(block, facts_packet(v, facts));
        return block;
    }
    Bytes small_block()
    {
        return block_after(small_kinds, 6,
                           {has_kind(0, 2), link_leads(0, 0, 1), link_leads(0, 15, 4), is_one_with(4, 3),
                            is_one_with(5, 1), link_leads(3, 7, 3), has_kind(3, 4)});
    }

    void blocks()
    {
        const Bytes out(longest_solved_form, 0xee);
        const Bytes small = small_block();
        for (size_t at = 0; at < block_length; at++) {
            const Byte now = small[at];
            for (const Byte value : {0, 1, 2, 3, 4, 5, 6, 63, 64, 65, 254, 255, now + 1, now - 1, now ^ 128}) {
                Bytes block = small;
                block[at] = value;
                visit(call_with(Name::write, {{block_slot, block}, {out_slot, out}}));
            }
        }
        const Bytes wide = block_after(small_kinds, 64, {is_one_with(63, 62), link_leads(61, 15, 63)});
        for (size_t at = 0; at < table_at; at++)
            for (const Byte value : {0, 1, 61, 62, 63, 64, 255}) {
                Bytes block = wide;
                block[at] = value;
                visit(call_with(Name::write, {{block_slot, block}, {out_slot, out}}));
            }
    }

    const std::vector<Fact> facts = {has_kind(1, 3), is_one_with(2, 5), link_leads(4, 15, 2), link_leads(0, 0, 5)};
    const Rule rule = {
        3, {{0, 0}, {2, 4}}, {link_leads(0, 0, 1), has_kind(2, 4), is_one_with(1, 1), link_leads(2, 7, 2)}};

    void packets()
    {
        const Bytes block = small_block();
        for (const Name name : {Name::take, Name::ask}) {
            const Bytes good = name == Name::take ? facts_packet(6, facts) : rule.packet();
            for (size_t at = 0; at < good.size(); at++)
                for (size_t value = 0; value < 256; value++) {
                    Bytes packet = good;
                    packet[at] = static_cast<Byte>(value);
                    visit(call_with(name, {{block_slot, block}, {packet_slot, packet}}));
                }
        }
        // Each number of ties with each number of rule joints, all but the last of which are reached.
        for (size_t ties = 0; ties <= 10; ties++)
            for (size_t joints = 0; joints <= 34; joints++) {
                Rule row;
                row.joints = joints;
                for (size_t tie = 0; tie < ties; tie++)
                    row.ties.push_back({0, static_cast<Byte>(tie % 6)});
                for (size_t joint = 0; joint + 2 < joints; joint++)
                    row.facts.push_back(link_leads(joint, joint % 16, joint + 1));
                visit(call_with(Name::ask, {{block_slot, block}, {packet_slot, row.packet()}}));
                row.facts.push_back(link_leads(0, 1, joints - 1));
                visit(call_with(Name::ask, {{block_slot, block}, {packet_slot, row.packet()}}));
            }
    }

    // Each sort of clash at each place of a small packet and about both ends of the largest one, among facts that are
    // known already; then with a second clash behind it.
    void clashes()
    {
        const Kinds house = house_kinds();
        const Fact known = has_kind(6, 7);
        // The ends of two rows of links have kinds that shut each other out.
        const Bytes block = block_after(house, 8,
                                        {known, link_leads(0, 1, 1), link_leads(1, 1, 2), link_leads(3, 1, 4),
                                         link_leads(4, 1, 5), has_kind(2, 2), has_kind(5, 3), link_leads(7, 0, 0)});
        const std::vector<Fact> sorts = {has_kind(7, 0),      has_kind(6, 9),    has_kind(2, 12),    is_one_with(2, 5),
                                         link_leads(1, 1, 5), is_one_with(0, 3), link_leads(7, 0, 3)};
        for (const size_t count : {size_t{1}, size_t{2}, size_t{9}, most_facts})
            for (size_t at = 0; at < count; at++)
                if (at < 9 || at + 9 >= count)
                    for (const Fact& clashing : sorts) {
                        std::vector<Fact> all(count, known);
                        all[at] = clashing;
                        visit(call_with(Name::take, {{block_slot, block}, {packet_slot, facts_packet(8, all)}}));
                        all[count - 1] = has_kind(7, 0);
                        visit(call_with(Name::take, {{block_slot, block}, {packet_slot, facts_packet(8, all)}}));
                    }
    }

    void lengths()
    {
        const Bytes block = small_block();
        for (const Name name : {Name::take, Name::ask}) {
            const Bytes good = name == Name::take ? facts_packet(6, facts) : rule.packet();
            for (size_t length = 0; length <= good.size() + 5; length++) {
                Bytes packet = good;
                packet.resize(length);
                visit(call_with(name, {{block_slot, block}, {packet_slot, packet}}));
                if (length >= 2)
                    set_length(packet);
                visit(call_with(name, {{block_slot, block}, {packet_slot, packet}}));
            }
            for (size_t ties = name == Name::take ? 0 : 1; ties <= (name == Name::take ? 0 : most_ties); ties++)
                for (size_t count = most_facts - 2; count <= most_facts + 3; count++)
                    for (size_t extra = 0; extra < 4; extra++) {
                        Bytes packet = make_packet(name == Name::take ? 1 : 2, 6, std::vector<Tie>(ties, Tie{0, 0}),
                                                   std::vector<Fact>(count, has_kind(0, 1)));
                        if (name == Name::ask)
                            packet[5] = 1;
                        packet.resize(packet.size() + extra);
                        set_length(packet);
                        visit(call_with(name, {{block_slot, block}, {packet_slot, packet}}));
                    }
            for (size_t length : {0, 1, 2, 65, 66, 1153, 1154, 5248, 5249, 5250, 5251, 5252}) {
                Bytes resized = block;
                resized.resize(length);
                visit(call_with(name, {{block_slot, resized}, {packet_slot, good}}));
                visit(call_with(Name::write, {{block_slot, resized}, {out_slot, Bytes(100, 0xee)}}));
                visit(open_with(small_kinds.n, 6, small_kinds.table, resized));
            }
        }
        for (size_t length = 0; length < 60; length++)
            visit(call_with(Name::write, {{block_slot, block}, {out_slot, Bytes(length, 0xee)}}));
        for (size_t length = 0; length < 40; length++) {
            Bytes table = small_kinds.table;
            table.resize(length);
            visit(open_with(small_kinds.n, 6, table, block));
        }
        for (size_t length = house_length - 5; length <= house_length + 5; length++)
            visit(call_with(Name::house, {{table_slot, Bytes(length, 0xee)}}));
        visit(call_with(Name::house, {{table_slot, Bytes()}}));
    }

    Visit visit;
    Random random{5};
    const Kinds small_kinds = chain_kinds(5, random);
};

} // namespace host

#endif
