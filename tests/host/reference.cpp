#include "reference.hpp"

#include "reference_terms.hpp"

#include <cstring>

namespace paper {
namespace {

using Byte = std::uint8_t;
using std::size_t;
using std::uint64_t;

constexpr size_t joint_limit = 64;
constexpr size_t rule_joint_limit = 32;
constexpr size_t tie_limit = 8;
constexpr size_t link_count = 16;
constexpr size_t fact_limit = 1088;
constexpr size_t house_kinds = 33;

constexpr size_t classes_at = 2;
constexpr size_t kinds_at = classes_at + joint_limit;
constexpr size_t links_at = kinds_at + joint_limit;
constexpr size_t table_at = links_at + joint_limit * link_count;
constexpr size_t block_length = table_at + 64 * 64;
static_assert(block_length == 5250, "the paper fixes the block's length");

constexpr size_t ties_at = 6;
constexpr size_t tie_length = 2;
constexpr size_t fact_length = 4;

constexpr Byte kind_any = 1;
constexpr Byte not_known = 255;

enum Tag : Byte { has_kind = 1, is_one_with = 2, link_leads = 3 };
enum Purpose : Byte { for_facts = 1, for_rule = 2 };
enum Verdict : Byte { applies = 1, ruled_out = 2, waits = 3 };

struct Reply {
    uint64_t number = 0;
    uint64_t place = 0;
    uint64_t third = 0;

    uint64_t packed() const { return number + (third << 8) + (place << 32); }
};

// The house kinds by their direct parents; 0 stands for "no further parent".
constexpr Byte house_parents[house_kinds][2] = {
    {0, 0},                                // 0 none: under all
    {0, 0},                                // 1 any
    {1, 0},   {1, 0},   {1, 0},            // left right centre
    {4, 0},   {4, 0},   {4, 0},   {4, 0},  // spine to hips
    {1, 0},   {1, 0},                      // arm part, leg part
    {2, 9},   {3, 9},   {2, 10},  {3, 10}, // left arm to right leg
    {9, 0},   {9, 0},   {9, 0},            // upper arm to hand
    {10, 0},  {10, 0},  {10, 0},           // thigh to foot
    {11, 15}, {12, 15}, {11, 16}, {12, 16}, {11, 17}, {12, 17},
    {13, 18}, {14, 18}, {13, 19}, {14, 19}, {13, 20}, {14, 20},
};

// One rule or facts packet that has passed the checks of its shape.
struct Packet {
    const Byte* ties = nullptr;
    size_t tie_count = 0;
    const Byte* facts = nullptr;
    size_t fact_count = 0;
    size_t joints = 0;

    const Byte* tie(size_t i) const { return ties + i * tie_length; }
    const Byte* fact(size_t i) const { return facts + i * fact_length; }
};

template <Fault fault> struct Paper {

    static constexpr bool has(Fault one) { return one == fault; }

    // Only these let an entry of n or more into the solver, which must then not
    // read past the table: a fault has to give wrong answers, not crash the tests.
    static constexpr bool table_may_be_bad = has(Fault::entry_equal_to_n_passes) || has(Fault::block_table_unchecked);

    static Byte entry(const Byte* table, size_t n, size_t i, size_t j)
    {
        if constexpr (table_may_be_bad)
            if (i >= n || j >= n)
                return 0;
        return table[i * n + j];
    }

    // ---------------------------------------------------------------- kind table

    static Reply first_law_broken(const Byte* table, size_t n)
    {
        if constexpr (has(Fault::first_laws_in_three_passes)) {
            for (size_t i = 0; i < n; i++)
                if (table[i * n + i] != i)
                    return {3, i * n + i};
            for (size_t i = 0; i < n; i++)
                if (table[i] != 0)
                    return {3, i};
            for (size_t i = 0; i < n; i++)
                if (table[n + i] != i)
                    return {3, n + i};
            return {};
        }
        for (size_t i = 0; i < n; i++) {
            if (table[i * n + i] != i)
                return {3, i * n + i};
            if (table[i] != 0)
                return {3, i};
            if (table[n + i] != i)
                return {3, n + i};
        }
        return {};
    }

    static Reply check_table(const Byte* table, size_t n)
    {
        const size_t highest = has(Fault::entry_equal_to_n_passes) ? n : n - 1;
        for (size_t offset = 0; offset < n * n; offset++)
            if (table[offset] > highest)
                return {2, offset};

        const Reply first = first_law_broken(table, n);
        if (first.number != 0)
            return first;

        if constexpr (!has(Fault::symmetry_unchecked))
            for (size_t i = 0; i < n; i++)
                for (size_t j = 0; j < n; j++)
                    if (table[i * n + j] != table[j * n + i])
                        return {3, i * n + j};

        for (size_t i = 0; i < n; i++)
            for (size_t j = 0; j < n; j++) {
                const size_t ij = table[i * n + j];
                for (size_t k = 0; k < n; k++)
                    if (looked_at(i, j, k) && entry(table, n, ij, k) != entry(table, n, i, table[j * n + k]))
                        return {3, has(Fault::triple_place_swapped)       ? j * n + i
                                   : has(Fault::triple_place_from_second) ? j * n + k
                                                                          : i * n + j};
            }
        return {};
    }

    // Every triple is, as 01 has it; the answers with fewer, by order 3, are held
    // against these. Each fault passes over triples that order 3 looks at.
    static constexpr bool looked_at(size_t i, size_t j, size_t k)
    {
        if constexpr (has(Fault::triples_from_three))
            return i >= 3 && j >= 3 && i < k;
        if constexpr (has(Fault::neighbours_left_out))
            return i >= 2 && j >= 2 && i + 1 < k;
        if constexpr (has(Fault::first_above_last))
            return j >= 2 && k >= 2 && i > k;
        return true;
    }

    // ------------------------------------------------------------- session block

    static bool is_class(const Byte* block, size_t joint)
    {
        return joint < block[1] && block[classes_at + joint] == joint;
    }

    static bool all_zero(const Byte* from, const Byte* to)
    {
        for (; from != to; from++)
            if (*from != 0)
                return false;
        return true;
    }

    static bool joint_well_formed(const Byte* block, size_t joint)
    {
        const size_t n = block[0];
        const size_t v = block[1];
        const Byte own_class = block[classes_at + joint];
        const Byte kind = block[kinds_at + joint];
        const Byte* row = block + links_at + joint * link_count;

        if (joint >= v) {
            if constexpr (has(Fault::joints_beyond_v_unchecked))
                return true;
            return own_class == 0 && kind == 0 && all_zero(row, row + link_count);
        }
        if (own_class > joint)
            return false;
        if (own_class != joint) {
            if (!has(Fault::class_of_class_unchecked) && !is_class(block, own_class))
                return false;
            return kind == 0 && (has(Fault::member_rows_unchecked) || all_zero(row, row + link_count));
        }
        if (kind >= n || (kind == 0 && !has(Fault::class_kind_zero_passes)))
            return false;
        for (size_t l = 0; l < link_count; l++) {
            const bool target_stands = has(Fault::link_to_member_passes) ? row[l] < v : is_class(block, row[l]);
            if (row[l] != not_known && !target_stands)
                return false;
        }
        return true;
    }

    static Reply check_block(const Byte* block)
    {
        const Reply malformed = {4};
        const size_t n = block[0];
        const size_t v = block[1];
        if (n < 2 || n > 64 || v < 1 || v > joint_limit)
            return malformed;
        for (size_t joint = 0; joint < joint_limit; joint++)
            if (!joint_well_formed(block, joint))
                return malformed;
        if (!has(Fault::table_tail_unchecked) && !all_zero(block + table_at + n * n, block + block_length))
            return malformed;
        if constexpr (!has(Fault::block_table_unchecked)) {
            const Reply table = check_table(block + table_at, n);
            if (table.number != 0)
                return has(Fault::table_reply_from_block) ? table : malformed;
        }
        return {};
    }

    static size_t count_classes(const Byte* block)
    {
        size_t classes = 0;
        for (size_t joint = 0; joint < block[1]; joint++)
            classes += is_class(block, joint);
        return classes;
    }

    // ------------------------------------------------------------------- packets

    static bool fact_well_formed(const Byte* fact, size_t n, size_t joints)
    {
        if (fact[1] >= joints)
            return false;
        switch (fact[0]) {
        case has_kind:
            if (has(Fault::kind_zero_refused) && fact[2] == 0)
                return false;
            return fact[2] < n && fact[3] == 0;
        case is_one_with:
            return fact[2] < joints && fact[3] == 0;
        case link_leads:
            return fact[2] < link_count && fact[3] < joints;
        default:
            return false;
        }
    }

    // The place of the first bad tie or fact, or 0, where none can be.
    static size_t first_bad_part(const Byte* bytes, const Packet& packet, size_t n, size_t v)
    {
        const size_t slip = has(Fault::place_at_second_byte) ? 1 : 0;
        size_t bad_tie = 0;
        for (size_t i = 0; i < packet.tie_count && bad_tie == 0; i++)
            if (packet.tie(i)[0] >= packet.joints || packet.tie(i)[1] >= v)
                bad_tie = static_cast<size_t>(packet.tie(i) - bytes);
        if (bad_tie != 0 && !has(Fault::facts_before_ties))
            return bad_tie;
        for (size_t i = 0; i < packet.fact_count; i++)
            if (!fact_well_formed(packet.fact(i), n, packet.joints))
                return static_cast<size_t>(packet.fact(i) - bytes) + slip;
        return bad_tie;
    }

    static Reply check_reached(const Packet& packet)
    {
        bool reached[rule_joint_limit] = {};
        for (size_t i = 0; i < packet.tie_count; i++)
            reached[packet.tie(i)[0]] = true;
        for (bool grown = true; grown;) {
            grown = false;
            for (size_t i = 0; i < packet.fact_count; i++) {
                const Byte* fact = packet.fact(i);
                if (has(Fault::equality_reaches) && fact[0] == is_one_with && reached[fact[1]] != reached[fact[2]]) {
                    reached[fact[1]] = reached[fact[2]] = true;
                    grown = true;
                }
                if (fact[0] != link_leads)
                    continue;
                if (reached[fact[1]] && !reached[fact[3]]) {
                    reached[fact[3]] = true;
                    grown = !has(Fault::reached_in_one_pass);
                }
                if (has(Fault::reached_backwards) && reached[fact[3]] && !reached[fact[1]]) {
                    reached[fact[1]] = true;
                    grown = true;
                }
            }
        }
        Reply reply;
        for (size_t joint = 0; joint < packet.joints; joint++)
            if (!reached[joint]) {
                reply = {10, joint};
                if (!has(Fault::largest_unreached_named))
                    return reply;
            }
        return reply;
    }

    // 5 to 10 in rising order: the first that fits is the lowest.
    static Reply check_packet(const Byte* bytes, size_t size, Purpose purpose, size_t n, size_t v, Packet& packet)
    {
        if constexpr (has(Fault::short_packet_passes)) {
            if (size >= 2 && size < 6 && (bytes[0] * 256u + bytes[1]) + 2 == size)
                return size > 2 && bytes[2] == 1 ? Reply{7, 3} : Reply{6, 2};
        }
        if (size < 6)
            return {5};
        const size_t length = bytes[0] * 256u + bytes[1];
        if (size != length + 2)
            return {5};
        if (bytes[2] != 1)
            return {6, 2};

        const size_t ties = bytes[4];
        const size_t joints = bytes[5];
        if (bytes[3] != purpose)
            return {7, 3};
        if (purpose == for_facts ? ties != 0 : ties < 1 || ties > tie_limit)
            return {7, 4};
        if (purpose == for_facts ? joints != v : joints < 1 || joints > rule_joint_limit)
            return {7, 5};

        const size_t before_facts = 4 + tie_length * ties;
        if (length < before_facts)
            return has(Fault::ties_may_be_cut) ? Reply{9, ties_at} : Reply{8};
        const size_t most = has(Fault::facts_1089_pass)      ? fact_limit + 1
                            : has(Fault::facts_1088_refused) ? fact_limit - 1
                                                             : fact_limit;
        if ((length - before_facts) % fact_length != 0 || (length - before_facts) / fact_length > most)
            return {8};

        packet.ties = bytes + ties_at;
        packet.tie_count = ties;
        packet.facts = packet.ties + ties * tie_length;
        packet.fact_count = (length - before_facts) / fact_length;
        packet.joints = joints;

        const size_t bad = first_bad_part(bytes, packet, n, v);
        if (bad != 0)
            return {9, bad};
        return purpose == for_rule ? check_reached(packet) : Reply{};
    }

    // -------------------------------------------------------------------- solver

    // What follows from a set of facts. Rig joints are the nodes 0 to 63, a rule's
    // joints the nodes from 64 on, so no number stands for both, and since a class
    // is led by its smallest node a class with a rig joint is led by a rig joint.
    class Solver {
    public:
        static constexpr size_t rule_node(size_t rule_joint) { return joint_limit + rule_joint; }
        static constexpr size_t nodes = joint_limit + rule_joint_limit;

        explicit Solver(const Byte* block, size_t rule_joints = 0)
            : table(block + table_at), n(block[0]), with_rule(rule_joints > 0)
        {
            const size_t v = block[1];
            std::memcpy(leader, block + classes_at, v);
            std::memcpy(kind, block + kinds_at, v);
            std::memcpy(link, block + links_at, v * link_count);
            for (size_t joint = 0; joint < rule_joints; joint++) {
                const size_t node = rule_node(joint);
                leader[node] = static_cast<Byte>(node);
                kind[node] = kind_any;
                std::memset(link[node], not_known, link_count);
            }
        }

        size_t class_of(size_t node)
        {
            while (leader[node] != node)
                node = leader[node] = leader[leader[node]];
            return node;
        }
        Byte kind_of(size_t node) { return kind[class_of(node)]; }
        size_t target_of(size_t node, size_t l)
        {
            const Byte target = link[class_of(node)][l];
            return target == not_known ? static_cast<size_t>(not_known) : class_of(target);
        }

        // Each of these gives false on a clash: a class whose kind has become 0.
        bool add_kind(size_t node, Byte s)
        {
            node = class_of(node);
            kind[node] = entry(table, n, kind[node], s);
            return kind[node] != 0;
        }
        bool add_link(size_t node, size_t l, size_t target)
        {
            Byte& known = link[class_of(node)][l];
            if (known != not_known)
                return add_join(known, target);
            known = static_cast<Byte>(target);
            return true;
        }
        bool add_join(size_t a, size_t b)
        {
            // A join hands on at most 16 more, and at most nodes - 1 joins are new.
            Byte open_joins[nodes * link_count + 1][2];
            size_t open_count = 0;
            const auto hand_on = [&](size_t x, size_t y) {
                open_joins[open_count][0] = static_cast<Byte>(x);
                open_joins[open_count][1] = static_cast<Byte>(y);
                open_count++;
            };
            hand_on(a, b);
            while (open_count > 0) {
                open_count--;
                a = class_of(open_joins[open_count][0]);
                b = class_of(open_joins[open_count][1]);
                if (a == b)
                    continue;
                const bool first_stays = has(Fault::class_named_by_largest) ? a > b : a < b;
                const size_t kept = first_stays ? a : b;
                const size_t gone = first_stays ? b : a;
                leader[gone] = static_cast<Byte>(kept);
                kind[kept] = entry(table, n, kind[kept], kind[gone]);
                if (kind[kept] == 0)
                    return false;
                const size_t links = has(Fault::last_link_forgotten) ? link_count - 1 : link_count;
                for (size_t l = 0; l < links; l++) {
                    if (link[gone][l] == not_known)
                        continue;
                    if (link[kept][l] == not_known)
                        link[kept][l] = link[gone][l];
                    else if (!joins_stop())
                        hand_on(link[kept][l], link[gone][l]);
                }
            }
            return true;
        }
        bool add(const Byte* fact, size_t first_node)
        {
            const size_t a = first_node + fact[1];
            switch (fact[0]) {
            case has_kind:
                return add_kind(a, fact[2]);
            case is_one_with:
                return add_join(a, first_node + fact[2]);
            default:
                return add_link(a, fact[2], first_node + fact[3]);
            }
        }

        // Writes what is known about the rig; the header and the table stay.
        void store(Byte* block)
        {
            for (size_t joint = 0; joint < block[1]; joint++) {
                const size_t own_class = class_of(joint);
                Byte* row = block + links_at + joint * link_count;
                block[classes_at + joint] = static_cast<Byte>(own_class);
                block[kinds_at + joint] = own_class == joint ? kind[joint] : 0;
                for (size_t l = 0; l < link_count; l++)
                    row[l] = own_class == joint ? static_cast<Byte>(target_of(joint, l)) : 0;
            }
        }

        bool sees_no_far_joins = false; // of a single fault alone

    private:
        bool joins_stop() const
        {
            return has(Fault::joins_stop_at_links) || (has(Fault::rule_joins_stop_at_links) && with_rule) ||
                   sees_no_far_joins;
        }

        const Byte* table;
        size_t n;
        bool with_rule;
        Byte leader[nodes];
        Byte kind[nodes];
        Byte link[nodes][link_count];
    };

    // -------------------------------------------------------------------- clashes

    // Whether the block's facts and the packet's first `count` facts have a picture.
    // That is asked of a set of facts: they are gone through from the last to the
    // first, so that the answer for a set owes nothing to the order of sending.
    static bool have_picture(const Byte* block, const Packet& packet, size_t count)
    {
        Solver solver(block);
        for (size_t i = count; i > 0; i--)
            if (!solver.add(packet.fact(i - 1), 0))
                return false;
        return true;
    }

    // Of a packet that clashes: the first byte of the first fact such that the block's
    // facts and the packet's facts up to and including it have no picture. The paper's
    // sentence is followed as it stands: the facts 0 to i are asked afresh for each i
    // in turn, and the last fact needs no asking. Where a solver stops that is handed
    // one fact after another does not enter into it.
    static Reply clash(const Byte* bytes, const Byte* block, const Packet& packet)
    {
        if constexpr (has(Fault::clash_has_no_place))
            return {11};
        size_t i = 0;
        while (i + 1 < packet.fact_count && have_picture(block, packet, i + 1))
            i++;
        if (has(Fault::clash_at_fact_before) && i > 0)
            i--;
        if constexpr (has(Fault::clash_at_last_fact))
            i = packet.fact_count - 1;
        if constexpr (has(Fault::far_clash_at_last_fact))
            i = clash_without_far_joins(block, packet);
        return {11, static_cast<size_t>(packet.fact(i) - bytes)};
    }

    // ------------------------------------------------------------------- verdicts

    // One solve of the rig's facts, the ties and the rule's facts decides.
    //
    // Write C for the picture of the block's classes, in which exactly the forced
    // facts hold, and J for the solve of everything together.
    //
    // Ruled out: some picture of the rig has a placing of the rule exactly when rig,
    // ties and rule are satisfiable together, which is when J does not clash: J's
    // classes are then such a picture, and a clash means that some element would
    // need a kind under 0.
    //
    // Applies: facts are positive, and C maps into every picture of the rig (class
    // to element) with kinds only getting lower and links kept. So the rule applies
    // exactly when it holds in C itself. If it holds in C, then C satisfies all that
    // J was made from, so whatever J forces about the rig already holds in C:
    // nothing new about the rig. And every rule joint falls together with a rig
    // joint: a tied one by its tie; and if a falls together with r, and "a.l is c" is
    // in the rule, then link l is defined at r's class in C, where a is placed, and
    // leads to a class of rig joints, with which J joins c. Since every rule joint is
    // reached, that is all of them.
    // The other way round, if nothing new about the rig follows and every rule joint
    // falls together with a rig joint, placing each at that joint's class satisfies
    // ties and rule in C, for J's part on the rig is C.
    static Verdict decide(const Byte* block, const Packet& rule, Solver& all)
    {
        const size_t v = block[1];

        bool seen[rule_joint_limit] = {};
        for (size_t i = 0; i < rule.tie_count; i++) {
            const Byte* tie = rule.tie(i);
            if (has(Fault::repeated_tie_ignored) && seen[tie[0]])
                continue;
            seen[tie[0]] = true;
            if (!all.add_join(Solver::rule_node(tie[0]), tie[1]))
                return ruled_out;
        }
        for (size_t i = 0; i < rule.fact_count; i++) {
            const Byte* fact = rule.fact(i);
            if constexpr (has(Fault::unknown_link_rules_out)) {
                const size_t node = Solver::rule_node(fact[1]);
                if (fact[0] == link_leads && all.class_of(node) < joint_limit &&
                    all.target_of(node, fact[2]) == not_known)
                    return ruled_out;
            }
            if (!all.add(fact, Solver::rule_node(0)))
                return ruled_out;
        }

        for (size_t joint = 0; joint < rule.joints; joint++)
            if (all.class_of(Solver::rule_node(joint)) >= joint_limit && !has(Fault::new_link_still_applies))
                return waits;
        for (size_t joint = 0; joint < v; joint++) {
            if (all.class_of(joint) != block[classes_at + joint]) {
                if (has(Fault::new_join_still_applies))
                    continue;
                return waits;
            }
            if (!is_class(block, joint))
                continue;
            if (all.kind_of(joint) != block[kinds_at + joint] && !has(Fault::new_kind_still_applies))
                return waits;
            for (size_t l = 0; l < link_count; l++) {
                const Byte before = block[links_at + joint * link_count + l];
                if (has(Fault::new_link_still_applies) && before == not_known)
                    continue;
                if (has(Fault::new_join_still_applies) && before != not_known)
                    continue;
                if (all.target_of(joint, l) != before)
                    return waits;
            }
        }
        if constexpr (has(Fault::kinds_compared_for_equality))
            for (size_t i = 0; i < rule.fact_count; i++) {
                const Byte* fact = rule.fact(i);
                if (fact[0] == has_kind && all.kind_of(Solver::rule_node(fact[1])) != fact[2])
                    return waits;
            }
        return applies;
    }

    // ------------------------------------------------------------------ the calls

    static uint64_t open(uint64_t n, uint64_t v, const Byte* table, size_t table_size, Byte* block, size_t block_size)
    {
        if constexpr (has(Fault::sizes_cut_to_32_bits)) {
            n &= 0xffffffff;
            v &= 0xffffffff;
        }
        if (n < 2 || n > 64 || v < 1 || v > joint_limit || table_size != n * n || block_size != block_length)
            return Reply{1}.packed();
        const Reply checked = check_table(table, n);
        if (checked.number != 0)
            return checked.packed();

        std::memset(block, 0, block_length);
        block[0] = static_cast<Byte>(n);
        block[1] = static_cast<Byte>(v);
        for (size_t joint = 0; joint < v; joint++) {
            block[classes_at + joint] = static_cast<Byte>(joint);
            block[kinds_at + joint] = kind_any;
            std::memset(block + links_at + joint * link_count, not_known, link_count);
        }
        std::memcpy(block + table_at, table, table_size);
        return Reply{0}.packed();
    }

    static uint64_t take(Byte* block, size_t block_size, const Byte* bytes, size_t size)
    {
        if (block_size != block_length)
            return Reply{1}.packed();
        const Reply block_reply = check_block(block);
        if (block_reply.number != 0)
            return block_reply.packed();
        Packet packet;
        const Reply packet_reply = check_packet(bytes, size, for_facts, block[0], block[1], packet);
        if constexpr (has(Fault::clash_before_bad_fact))
            if (packet_reply.number == 9 && clashes_before(block, packet, bytes + packet_reply.place))
                return Reply{11}.packed();
        if (packet_reply.number != 0)
            return packet_reply.packed();

        if constexpr (has(Fault::refuses_every_packet))
            return Reply{11}.packed();
        if constexpr (has(Fault::takes_first_packet_only))
            if (!fresh(block))
                return Reply{0}.packed();

        const size_t before = count_classes(block);
        Solver solver(block);
        for (size_t i = 0; i < packet.fact_count; i++) {
            if constexpr (has(Fault::clash_keeps_earlier_facts)) {
                Solver next = solver;
                if (!next.add(packet.fact(i), 0)) {
                    const Reply refusal = clash(bytes, block, packet);
                    solver.store(block);
                    return refusal.packed();
                }
            }
            if (!solver.add(packet.fact(i), 0))
                return clash(bytes, block, packet).packed();
        }

        size_t after = 0;
        for (size_t joint = 0; joint < block[1]; joint++)
            after += solver.class_of(joint) == joint;
        if constexpr (has(Fault::invented_joins)) {
            size_t equalities = 0;
            for (size_t i = 0; i < packet.fact_count; i++)
                equalities += packet.fact(i)[0] == is_one_with;
            after = before - (equalities < before ? equalities : before - 1);
        }
        if constexpr (!has(Fault::stores_nothing))
            solver.store(block);
        return Reply{0, 0, before - after}.packed();
    }

    static uint64_t ask(const Byte* block, size_t block_size, const Byte* bytes, size_t size)
    {
        if (block_size != block_length)
            return Reply{1}.packed();
        const Reply block_reply = check_block(block);
        if (block_reply.number != 0)
            return block_reply.packed();
        Packet rule;
        const Reply packet_reply = check_packet(bytes, size, for_rule, block[0], block[1], rule);
        if (packet_reply.number != 0)
            return packet_reply.packed();

        if constexpr (has(Fault::always_waits))
            return Reply{0, 0, waits}.packed();
        Solver all(block, rule.joints);
        const Verdict verdict = decide(block, rule, all);
        if constexpr (has(Fault::ask_stores))
            if (verdict != ruled_out)
                store_into_lent(block, all);
        return Reply{0, 0, verdict}.packed();
    }

    static uint64_t write(const Byte* block, size_t block_size, Byte* out, size_t out_size)
    {
        if (block_size != block_length)
            return Reply{1}.packed();
        const Reply block_reply = check_block(block);
        if (block_reply.number != 0)
            return block_reply.packed();

        Byte form[ties_at + fact_length * fact_limit];
        size_t used = ties_at;
        const auto add = [&](Byte tag, size_t a, Byte b, Byte c) {
            form[used] = tag;
            form[used + 1] = static_cast<Byte>(a);
            form[used + 2] = b;
            form[used + 3] = c;
            used += fact_length;
        };
        for (size_t joint = 0; joint < block[1]; joint++) {
            if (!is_class(block, joint)) {
                add(is_one_with, joint, block[classes_at + joint], 0);
                continue;
            }
            const Byte kind = block[kinds_at + joint];
            if (kind != kind_any || has(Fault::kind_any_written))
                add(has_kind, joint, kind, 0);
            const Byte* row = block + links_at + joint * link_count;
            for (size_t l = 0; l < link_count; l++)
                if (row[l] != not_known)
                    add(link_leads, joint, static_cast<Byte>(l), row[l]);
        }
        form[0] = static_cast<Byte>((used - 2) / 256);
        form[1] = static_cast<Byte>((used - 2) % 256);
        form[2] = 1;
        form[3] = for_facts;
        form[4] = 0;
        form[5] = block[1];

        if (out_size < used || (has(Fault::exact_output_refused) && out_size == used))
            return Reply{12}.packed();
        std::memcpy(out, form, used);
        if constexpr (has(Fault::rest_of_output_cleared))
            std::memset(out + used, 0, out_size - used);
        return Reply{0, 0, used}.packed();
    }

    // The meet of two house kinds is the greatest kind under both, worked out from
    // the parents: "under" is the parents' reflexive and transitive closure, with
    // kind 0 under every kind.
    static uint64_t house(Byte* table, size_t table_size)
    {
        if (table_size != house_kinds * house_kinds)
            return Reply{1}.packed();

        bool under[house_kinds][house_kinds] = {};
        for (size_t kind = 0; kind < house_kinds; kind++) {
            // Every parent of a kind comes before it, so its own row is finished.
            under[kind][kind] = true;
            for (const Byte parent : house_parents[kind])
                for (size_t above = 0; parent != 0 && above < house_kinds; above++)
                    under[kind][above] |= under[parent][above];
        }
        for (size_t above = 0; above < house_kinds; above++)
            under[0][above] = true;

        for (size_t i = 0; i < house_kinds; i++)
            for (size_t j = 0; j < house_kinds; j++)
                for (size_t candidate = 0; candidate < house_kinds; candidate++) {
                    if (!under[candidate][i] || !under[candidate][j])
                        continue;
                    bool greatest = true;
                    for (size_t other = 0; other < house_kinds; other++)
                        if (under[other][i] && under[other][j] && !under[other][candidate])
                            greatest = false;
                    if (greatest || has(Fault::house_meet_by_largest_number))
                        table[i * house_kinds + j] = static_cast<Byte>(candidate);
                }
        return Reply{0}.packed();
    }

    // ------------------------------------------------- used by single faults only

    static bool fresh(const Byte* block)
    {
        for (size_t joint = 0; joint < block[1]; joint++) {
            if (block[classes_at + joint] != joint || block[kinds_at + joint] != kind_any)
                return false;
            for (size_t l = 0; l < link_count; l++)
                if (block[links_at + joint * link_count + l] != not_known)
                    return false;
        }
        return true;
    }

    // Where the facts clash one after another, if a join leads to no others through
    // links; the last fact if nowhere.
    static size_t clash_without_far_joins(const Byte* block, const Packet& packet)
    {
        Solver solver(block);
        solver.sees_no_far_joins = true;
        size_t i = 0;
        while (i + 1 < packet.fact_count && solver.add(packet.fact(i), 0))
            i++;
        return i;
    }

    static bool clashes_before(const Byte* block, const Packet& packet, const Byte* bad)
    {
        Solver solver(block);
        for (const Byte* fact = packet.facts; fact < bad; fact += fact_length)
            if (!solver.add(fact, 0))
                return true;
        return false;
    }

    // Stores what concerns the rig alone, so that the block stays well formed.
    static void store_into_lent(const Byte* block, Solver& all)
    {
        Byte* lent = const_cast<Byte*>(block);
        for (size_t joint = 0; joint < block[1]; joint++)
            for (size_t l = 0; l < link_count; l++)
                if (is_class(block, joint) && all.target_of(joint, l) >= joint_limit &&
                    all.target_of(joint, l) != not_known)
                    return;
        all.store(lent);
    }

}; // struct Paper

// ------------------------------------------------------------------------ terms

// A fault is either one of the calls of 01 or one of terms; what it does not concern is the paper's.
template <Fault fault> struct TermCalls {

    using Terms = terms::Terms<fault>;
    using Sound = Paper<Fault::none>;

    static uint64_t packed(const terms::Reply& reply) { return Reply{reply.number, reply.place, reply.third}.packed(); }

    static uint64_t read(const Byte* block, size_t block_size, const Byte* text, size_t text_size, Byte* out,
                         size_t out_size)
    {
        if (block_size != block_length || Terms::is_too_long(text_size))
            return Reply{1}.packed();
        const Reply block_reply = Sound::check_block(block);
        if (block_reply.number != 0)
            return block_reply.packed();
        return packed(Terms::read(text, text_size, block[0], block[1], out, out_size));
    }

    static uint64_t write(const Byte* block, size_t block_size, uint64_t joint, Byte* out, size_t out_size)
    {
        if (block_size != block_length)
            return Reply{1}.packed();
        const Reply block_reply = Sound::check_block(block);
        if (block_reply.number != 0)
            return block_reply.packed();
        const typename Terms::Rig rig = {block[1], block + classes_at, block + kinds_at, block + links_at};
        return packed(Terms::write(rig, joint, out, out_size));
    }

}; // struct TermCalls

template <Fault of_calls, Fault of_terms>
constexpr Calls calls_of = {Paper<of_calls>::open,     Paper<of_calls>::take,  Paper<of_calls>::ask,
                            Paper<of_calls>::write,    Paper<of_calls>::house, TermCalls<of_terms>::read,
                            TermCalls<of_terms>::write};

struct Variant {
    const char* name;
    const Calls* calls;
};
#if defined(PAPER_WITHOUT_FAULTS)
#define PAPER_CALL_VARIANT(name) {#name, nullptr},
#define PAPER_TERM_VARIANT(name) {#name, nullptr},
#else
#define PAPER_CALL_VARIANT(name) {#name, &calls_of<Fault::name, Fault::none>},
#define PAPER_TERM_VARIANT(name) {#name, &calls_of<Fault::none, Fault::name>},
#endif
constexpr Variant variants[] = {{"none", &calls_of<Fault::none, Fault::none>},
                                PAPER_CALL_FAULTS(PAPER_CALL_VARIANT) PAPER_TERM_FAULTS(PAPER_TERM_VARIANT)};
#undef PAPER_CALL_VARIANT
#undef PAPER_TERM_VARIANT

} // namespace

uint64_t open(uint64_t n, uint64_t v, const Byte* table, size_t table_size, Byte* block, size_t block_size)
{
    return Paper<Fault::none>::open(n, v, table, table_size, block, block_size);
}
uint64_t take(Byte* block, size_t block_size, const Byte* packet, size_t packet_size)
{
    return Paper<Fault::none>::take(block, block_size, packet, packet_size);
}
uint64_t ask(const Byte* block, size_t block_size, const Byte* packet, size_t packet_size)
{
    return Paper<Fault::none>::ask(block, block_size, packet, packet_size);
}
uint64_t write(const Byte* block, size_t block_size, Byte* out, size_t out_size)
{
    return Paper<Fault::none>::write(block, block_size, out, out_size);
}
uint64_t house(Byte* table, size_t table_size) { return Paper<Fault::none>::house(table, table_size); }
uint64_t read_term(const Byte* block, size_t block_size, const Byte* text, size_t text_size, Byte* out, size_t out_size)
{
    return TermCalls<Fault::none>::read(block, block_size, text, text_size, out, out_size);
}
uint64_t read_typed(uint64_t n, uint64_t v, const Byte* text, size_t text_size, Byte* out, size_t out_size)
{
    return TermCalls<Fault::none>::packed(terms::Terms<Fault::none>::read(text, text_size, n, v, out, out_size));
}
uint64_t write_term(const Byte* block, size_t block_size, uint64_t joint, Byte* out, size_t out_size)
{
    return TermCalls<Fault::none>::write(block, block_size, joint, out, out_size);
}

const char* fault_name(Fault fault) { return variants[static_cast<size_t>(fault)].name; }
const Calls& calls(Fault fault) { return *variants[static_cast<size_t>(fault)].calls; }

} // namespace paper
