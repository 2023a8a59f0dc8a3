// Order 2 of document 02 in the plain version: terms read and written, for a block that is well formed.
//
// Nothing here goes down a text term by term. Whether a text is a term, and where it stops being one, is asked of the
// language: with at most 16 terms deep it is a regular one, so that an automaton, made of the grammar's own words,
// knows of each beginning whether some term begins with it. What a term says is then read off its signs in one pass,
// and whether a rig is a tree by counting walks.

#ifndef HOST_REFERENCE_TERMS_HPP
#define HOST_REFERENCE_TERMS_HPP

#include "reference.hpp"

#include <algorithm>
#include <array>
#include <cstring>
#include <map>
#include <string>
#include <vector>

namespace paper {
namespace terms {

using Byte = std::uint8_t;
using std::size_t;
using std::uint64_t;

constexpr size_t longest_text = size_t{1} << 24;
constexpr size_t deepest_term = 16;
constexpr size_t digits_of_a_number = 3;
constexpr size_t links_of_a_joint = 16;
constexpr size_t facts_of_a_packet = 1088;
constexpr size_t most_joints = 64;

struct Reply {
    uint64_t number = 0;
    uint64_t place = 0;
    uint64_t third = 0;
};

// --------------------------------------------------------------------------------------------------- the language

// How the language of a faulty reader differs from that of the paper.
struct Grammar {
    size_t deepest = deepest_term;
    size_t digits = digits_of_a_number;
    bool leading_zeros = false;
    bool empty_brackets = false;
    bool blanks = false;
    bool dead_ends = false; // beginnings that nothing completes are let through
};

// An automaton that has read a beginning is in some of its states; nothing can continue the beginning once none is left
// from which the end can be reached.
class Language {
public:
    explicit Language(const Grammar& its_grammar) : grammar(its_grammar)
    {
        const size_t first = fresh();
        last = term(first, 1);
        find_live();
        make_table(first);
    }

    // How many of the text's first bytes some term begins with, and whether those are a whole term.
    struct Run {
        size_t length;
        bool whole;
    };
    Run run(const Byte* text, size_t size) const
    {
        int now = 0;
        size_t at = 0;
        for (; at < size && table[static_cast<size_t>(now)][text[at]] != nothing; at++)
            now = table[static_cast<size_t>(now)][text[at]];
        return {at, is_whole[static_cast<size_t>(now)]};
    }

private:
    static constexpr int nothing = -1;
    using States = std::vector<size_t>; // rising

    struct Step {
        size_t from;
        size_t to;
        const char* signs; // by any of these, or by nothing at all where this is empty
    };

    size_t fresh() { return count++; }
    size_t step(size_t from, const char* signs)
    {
        steps.push_back({from, fresh(), signs});
        return steps.back().to;
    }
    void join(size_t from, size_t to) { steps.push_back({from, to, ""}); }

    size_t number(size_t from)
    {
        const size_t end = fresh();
        join(step(from, "0"), end);
        size_t at = step(from, grammar.leading_zeros ? "0123456789" : "123456789");
        join(at, end);
        for (size_t digit = 1; digit < grammar.digits; digit++) {
            at = step(at, "0123456789");
            join(at, end);
        }
        return end;
    }

    // A term so deep. One that is too deep has no way to its end.
    size_t term(size_t from, size_t depth)
    {
        if (depth > grammar.deepest)
            return fresh();
        const size_t joint = number(step(from, "@"));
        const size_t kind = fresh();
        join(joint, kind);
        join(number(step(joint, ":")), kind);

        const size_t end = fresh();
        join(kind, end);
        const size_t argument = step(kind, "(");
        const size_t behind = term(step(step(number(argument), "="), ">"), depth + 1);
        join(step(behind, ","), argument);
        join(step(behind, ")"), end);
        if (grammar.empty_brackets)
            join(step(argument, ")"), end);
        return end;
    }

    // The states from which the end can be reached.
    void find_live()
    {
        live.assign(count, grammar.dead_ends);
        live[last] = true;
        for (bool grown = true; grown;) {
            grown = false;
            for (const Step& one : steps)
                if (live[one.to] && !live[one.from])
                    live[one.from] = grown = true;
        }
    }

    // All live states that are reached from these by steps of no sign.
    States closed(States states) const
    {
        for (size_t i = 0; i < states.size(); i++)
            for (const Step& one : steps)
                if (one.from == states[i] && *one.signs == 0 &&
                    std::find(states.begin(), states.end(), one.to) == states.end())
                    states.push_back(one.to);
        states.erase(std::remove_if(states.begin(), states.end(), [this](size_t state) { return !live[state]; }),
                     states.end());
        std::sort(states.begin(), states.end());
        return states;
    }

    // A row for each set of states that a beginning can lead to.
    void make_table(size_t first)
    {
        std::vector<States> sets = {closed({first})};
        std::map<States, int> known = {{sets[0], 0}};
        for (size_t set = 0; set < sets.size(); set++) {
            const States from = sets[set];
            is_whole.push_back(std::find(from.begin(), from.end(), last) != from.end());
            table.emplace_back();
            table.back().fill(nothing);
            std::map<Byte, States> to;
            for (const Step& one : steps)
                if (std::find(from.begin(), from.end(), one.from) != from.end())
                    for (const char* sign = one.signs; *sign != 0; sign++)
                        to[static_cast<Byte>(*sign)].push_back(one.to);
            if (grammar.blanks)
                to[' '] = from;
            for (const auto& [sign, states] : to) {
                const States all = closed(states);
                if (all.empty())
                    continue;
                const auto [place, is_new] = known.insert({all, static_cast<int>(sets.size())});
                if (is_new)
                    sets.push_back(all);
                table.back()[sign] = place->second;
            }
        }
    }

    const Grammar grammar;
    size_t count = 0;
    size_t last = 0;
    std::vector<Step> steps;
    std::vector<bool> live;
    std::vector<std::array<int, 256>> table;
    std::vector<bool> is_whole;
};

// ------------------------------------------------------------------------------------------------- read and written

template <Fault fault> struct Terms {

    static constexpr bool has(Fault one) { return one == fault; }

    static const Language& language()
    {
        static const Language made = [] {
            Grammar grammar;
            if constexpr (has(Fault::term_17_deep_read))
                grammar.deepest = deepest_term + 1;
            if constexpr (has(Fault::term_16_deep_not_read))
                grammar.deepest = deepest_term - 1;
            if constexpr (has(Fault::four_digits_read))
                grammar.digits = digits_of_a_number + 1;
            if constexpr (has(Fault::three_digits_not_read))
                grammar.digits = digits_of_a_number - 1;
            grammar.leading_zeros = has(Fault::leading_zero_read);
            grammar.empty_brackets = has(Fault::empty_brackets_read);
            grammar.blanks = has(Fault::blanks_read);
            grammar.dead_ends = has(Fault::deep_term_told_late);
            return Language(grammar);
        }();
        return made;
    }

    // ------------------------------------------------------------------------------------------------- reading

    using Fact = std::array<Byte, 4>;

    struct Said {
        std::vector<Fact> facts; // no more than a packet holds and one
        bool out_of_range = false;
        size_t place = 0; // of the first number that is
    };

    static bool is_digit(Byte sign) { return sign >= '0' && sign <= '9'; }
    static size_t digit(Byte sign) { return static_cast<size_t>(sign - '0'); }

    // What a term says, read off its signs and numbers in one pass. A number is a joint behind @, a kind behind : and a
    // link behind ( or a comma; the joint of the term in whose brackets a term stands is the last one laid down.
    class Pass {
    public:
        Pass(size_t its_n, size_t its_v) : n(its_n), v(its_v) {}

        void sign(Byte one)
        {
            before = one;
            if (one == '(')
                around.push_back(joint);
            if (one == ')')
                around.pop_back();
        }
        void number(size_t value, size_t place)
        {
            look_at_range(value, place);
            if (before == '@')
                name_joint(value);
            else if (before == ':')
                say({1, static_cast<Byte>(joint), static_cast<Byte>(value), 0}, has(Fault::kinds_behind_links));
            else
                link = value;
        }
        Said end()
        {
            for (const Fact& fact : late)
                say(fact, false);
            return all;
        }

    private:
        void look_at_range(size_t value, size_t place)
        {
            const bool is_joint = before == '@', is_kind = before == ':', is_link = !is_joint && !is_kind;
            const size_t bound = is_joint ? v : is_kind ? n : links_of_a_joint;
            const bool passes = (has(Fault::joint_v_read) && is_joint) || (has(Fault::kind_n_read) && is_kind) ||
                                (has(Fault::link_16_read) && is_link);
            const bool fails = has(Fault::kind_0_out_of_range) && is_kind && value == 0;
            if ((value < bound || (passes && value == bound)) && !fails)
                return;
            if (all.out_of_range && !has(Fault::last_out_of_range_told))
                return;
            all.out_of_range = true;
            all.place = place - (has(Fault::out_of_range_at_sign) ? 1 : 0);
        }

        // The link that leads to it is said before anything of its own.
        void name_joint(size_t value)
        {
            joint = value;
            if (around.empty())
                return;
            const size_t outer = has(Fault::all_links_of_outermost) ? around.front() : around.back();
            say({3, static_cast<Byte>(outer), static_cast<Byte>(link), static_cast<Byte>(joint)},
                has(Fault::link_behind_inner_facts));
        }

        void say(const Fact& fact, bool is_late)
        {
            if (is_late)
                late.push_back(fact);
            else if (all.facts.size() <= facts_of_a_packet)
                all.facts.push_back(fact);
        }

        const size_t n, v;
        Said all;
        std::vector<size_t> around;
        Byte before = 0;
        size_t joint = 0;
        size_t link = 0;
        std::vector<Fact> late; // of single faults
    };

    static Said said(const Byte* text, size_t size, size_t n, size_t v)
    {
        Pass pass(n, v);
        for (size_t at = 0; at < size; at++) {
            if (!is_digit(text[at])) {
                pass.sign(text[at]);
                continue;
            }
            const size_t place = at;
            size_t value = digit(text[at]);
            while (at + 1 < size && is_digit(text[at + 1]))
                value = 10 * value + digit(text[++at]);
            pass.number(value, place);
        }
        return pass.end();
    }

    static bool is_too_much(const Said& all)
    {
        const size_t most = has(Fault::term_of_1089_facts_read)       ? facts_of_a_packet + 1
                            : has(Fault::term_of_1088_facts_not_read) ? facts_of_a_packet - 1
                                                                      : facts_of_a_packet;
        return all.facts.size() > most;
    }

    // Of a text that is no term: where that shows.
    static Reply no_term(const Byte* text, size_t size, size_t length, size_t n, size_t v)
    {
        if constexpr (has(Fault::out_of_range_before_no_term)) {
            const Said begun = said(text, length, n, v);
            if (begun.out_of_range)
                return {21, begun.place};
        }
        if (has(Fault::early_end_told_at_last_byte) && length == size && size > 0)
            return {20, size - 1};
        return {20, length};
    }

    static bool is_too_long(size_t size)
    {
        return has(Fault::longer_text_read)        ? size > longest_text + 1
               : has(Fault::longest_text_not_read) ? size >= longest_text
                                                   : size > longest_text;
    }

    static Reply read(const Byte* text, size_t size, size_t n, size_t v, Byte* out, size_t out_size)
    {
        const Language::Run run = language().run(text, size);
        const bool rest_counts = !has(Fault::rest_of_text_ignored) || !run.whole;
        if (!run.whole || (run.length < size && rest_counts))
            return no_term(text, size, run.length, n, v);
        const Said all = said(text, run.length, n, v);
        const size_t used = 6 + 4 * all.facts.size();
        if (has(Fault::too_large_before_out_of_range) && is_too_much(all))
            return {22};
        if (all.out_of_range)
            return {21, all.place};
        if (has(Fault::short_output_before_too_large) && is_too_much(all) && out_size < used)
            return {12};
        if (is_too_much(all))
            return {22};
        if (out_size < used || (has(Fault::exact_packet_refused) && out_size == used))
            return {12};
        const Byte head[6] = {
            static_cast<Byte>((used - 2) / 256), static_cast<Byte>((used - 2) % 256), 1, 1, 0, static_cast<Byte>(v)};
        std::copy_n(head, sizeof head, out);
        for (size_t i = 0; i < all.facts.size(); i++)
            std::copy_n(all.facts[i].begin(), 4, out + 6 + 4 * i);
        if constexpr (has(Fault::rest_of_packet_cleared))
            std::fill(out + used, out + out_size, Byte{0});
        return {0, 0, used};
    }

    // ------------------------------------------------------------------------------------------------- writing

    // What a block says of its joints: class numbers, kinds, and links, of which one that is not known leads nowhere.
    struct Rig {
        size_t joints;
        const Byte* classes;
        const Byte* kinds;
        const Byte* links;

        static constexpr size_t nowhere = 255;
        size_t end_of(size_t joint, size_t link) const
        {
            return classes[joint] == joint ? links[joint * links_of_a_joint + link] : nowhere;
        }
    };

    // Walks of links from the chosen joint to each: how many there are, where two stand for more, and how many links
    // the longest has.
    struct Walks {
        std::array<unsigned, most_joints> count{};
        std::array<size_t, most_joints> longest{};
    };

    // Where there are two walks to a joint, there are two of at most 2 V links: one that goes through no joint twice
    // has fewer than V, and where another must go round a loop, once round one is enough, in at most V more.
    static Walks walks_from(const Rig& rig, size_t chosen)
    {
        Walks walks;
        std::array<unsigned, most_joints> now{};
        now[chosen] = walks.count[chosen] = 1;
        for (size_t length = 1; length <= 2 * rig.joints; length++) {
            std::array<unsigned, most_joints> next{};
            for (size_t joint = 0; joint < rig.joints; joint++)
                for (size_t link = 0; link < links_of_a_joint; link++) {
                    const size_t end = rig.end_of(joint, link);
                    if (end == Rig::nowhere || now[joint] == 0 || is_left_out(rig, chosen, joint, link))
                        continue;
                    next[end] = std::min(2u, next[end] + now[joint]);
                }
            for (size_t joint = 0; joint < rig.joints; joint++) {
                walks.count[joint] = std::min(2u, walks.count[joint] + next[joint]);
                if (next[joint] > 0)
                    walks.longest[joint] = length;
            }
            now = next;
        }
        return walks;
    }

    // Of single faults alone.
    static bool is_left_out(const Rig& rig, size_t chosen, size_t joint, size_t link)
    {
        const size_t end = rig.end_of(joint, link);
        if (has(Fault::loop_at_chosen_left_out) && joint == chosen && end == chosen)
            return true;
        if constexpr (has(Fault::second_link_to_a_joint_passes))
            for (size_t before = 0; before < link; before++)
                if (rig.end_of(joint, before) == end)
                    return true;
        return false;
    }

    static bool has_link(const Rig& rig, size_t joint)
    {
        for (size_t link = 0; link < links_of_a_joint; link++)
            if (rig.end_of(joint, link) != Rig::nowhere)
                return true;
        return false;
    }
    static bool has_link_to_it(const Rig& rig, size_t joint)
    {
        for (size_t from = 0; from < rig.joints; from++)
            for (size_t link = 0; link < links_of_a_joint; link++)
                if (rig.end_of(from, link) == joint && !is_left_out(rig, joint, from, link))
                    return true;
        return false;
    }

    static bool is_tree(const Rig& rig, size_t chosen, const Walks& walks)
    {
        const size_t most_links = deepest_term - 1 + (has(Fault::tree_17_deep_written) ? 1 : 0) -
                                  (has(Fault::tree_16_deep_not_written) ? 1 : 0);
        for (size_t joint = 0; joint < rig.joints; joint++)
            if (rig.classes[joint] != joint && !has(Fault::joined_joints_left_out))
                return false;
        if (has_link_to_it(rig, chosen))
            return false;
        for (size_t joint = 0; joint < rig.joints; joint++) {
            const bool is_joined = rig.classes[joint] != joint; // of a single fault
            if (joint == chosen || is_joined)
                continue;
            const bool has_kind = rig.kinds[joint] != 1;
            const bool is_told = (has_kind && !has(Fault::kind_not_reached_left_out)) || has_link(rig, joint) ||
                                 has_link_to_it(rig, joint) || has(Fault::lone_joint_refused);
            const bool passes_anyhow = has(Fault::link_not_reached_left_out) && walks.count[joint] == 0 && !has_kind;
            if (!is_told || passes_anyhow)
                continue;
            const bool is_one = has(Fault::two_walks_pass) ? walks.count[joint] > 0 : walks.count[joint] == 1;
            if (!is_one || walks.longest[joint] > most_links)
                return false;
        }
        return true;
    }

    // The text of each joint's term, made of those of the joints it leads to: the farthest from the chosen one first.
    static std::string text_from(const Rig& rig, size_t chosen, const Walks& walks)
    {
        std::vector<size_t> order;
        for (size_t joint = 0; joint < rig.joints; joint++)
            if (walks.count[joint] > 0)
                order.push_back(joint);
        std::sort(order.begin(), order.end(), [&](size_t a, size_t b) { return walks.longest[a] > walks.longest[b]; });
        std::array<std::string, most_joints> text;
        for (const size_t joint : order) {
            std::string arguments;
            for (size_t i = 0; i < links_of_a_joint; i++) {
                const size_t link = has(Fault::links_fall) ? links_of_a_joint - 1 - i : i;
                const size_t end = rig.end_of(joint, link);
                if (end == Rig::nowhere || (has(Fault::loop_at_chosen_left_out) && end == chosen))
                    continue;
                arguments += (arguments.empty() ? "" : ",") + std::to_string(link) + "=>" + text[end];
            }
            const bool with_kind = rig.kinds[joint] != 1 || has(Fault::kind_1_written_in_term);
            text[joint] = "@" + std::to_string(joint);
            if (with_kind && !(has(Fault::kind_of_chosen_left_out) && joint == chosen))
                text[joint] += ":" + std::to_string(rig.kinds[joint]);
            if (!arguments.empty())
                text[joint] += "(" + arguments + ")";
            if (text[joint].size() > 4096) // only a fault writes a joint twice, and so ever more
                text[joint].resize(4096);
        }
        return text[chosen];
    }

    static Reply write(const Rig& rig, uint64_t joint, Byte* out, size_t out_size)
    {
        if constexpr (has(Fault::chosen_joint_cut_to_32_bits))
            joint &= 0xffffffff;
        if constexpr (has(Fault::chosen_joint_cut_to_a_byte))
            joint &= 0xff;
        if (joint >= rig.joints)
            return {has(Fault::chosen_out_of_range_is_no_tree) ? 23u : 21u};
        const size_t chosen = static_cast<size_t>(joint);
        const Walks walks = walks_from(rig, chosen);
        if (has(Fault::short_output_before_no_tree) && out_size < 2)
            return {12};
        if (!is_tree(rig, chosen, walks))
            return {23};
        const std::string text = text_from(rig, chosen, walks);
        if (out_size < text.size() || (has(Fault::exact_text_refused) && out_size == text.size()))
            return {12};
        std::copy(text.begin(), text.end(), out);
        if constexpr (has(Fault::rest_of_text_cleared))
            std::fill(out + text.size(), out + out_size, Byte{0});
        return {0, 0, text.size()};
    }

}; // struct Terms

} // namespace terms
} // namespace paper

#endif
