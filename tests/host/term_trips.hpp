// What order 2 promises, tried directly, without a second implementation to compare with: a text that was written, read
// and taken by a fresh session gives the block back, and is written again; a text that is refused with 20 goes wrong
// where it is told to: what stands before the place can be completed to a term, and with one byte more it cannot.

#ifndef HOST_TERM_TRIPS_HPP
#define HOST_TERM_TRIPS_HPP

#include "implementation.hpp"
#include "terms.hpp"

namespace host {

class TermTrips {
public:
    struct Counts {
        size_t calls = 0;
        size_t written = 0; // texts
        size_t places = 0;  // of 20, held against completions
    };

    // One round from one seed; gives a description of what fails, or nothing.
    static std::string failing(const paper::Calls& calls, std::uint64_t seed, Counts& counts)
    {
        TermTrips round(calls, seed);
        std::string problem = round.trees();
        if (problem.empty())
            problem = round.texts();
        counts.calls += round.tried.made;
        counts.written += round.written;
        counts.places += round.places;
        return problem.empty() ? "" : "terms, seed " + std::to_string(seed) + ": " + problem;
    }

private:
    TermTrips(const paper::Calls& calls, std::uint64_t seed)
        : tried(calls), random(seed ^ 0x7465726d73), kinds(random_small_kinds()),
          v(random.chance(20) ? most_joints : random.between(1, 20)), fresh(fresh_block(kinds, v))
    {}

    Kinds random_small_kinds() { return family_kinds(random.between(4, 12), random); }

    // ------------------------------------------------------------------------------------------------- there and back

    std::string gives_back(const Bytes& block, size_t joint, bool must_be_written)
    {
        const Bytes before = block;
        Bytes text(800, 0xee);
        const Answer answer = tried.write_term(block, joint, text);
        if (block != before)
            return "writing a term changed the block";
        if (answer.number() != 0) {
            if (text != Bytes(800, 0xee))
                return "a refused writing wrote";
            return must_be_written ? "a tree was answered with " + answer.text() : "";
        }
        if (answer.third() > text.size() ||
            std::any_of(text.begin() + answer.third(), text.end(), [](Byte byte) { return byte != 0xee; }))
            return "writing went on behind the text";
        text.resize(answer.third());
        written++;

        Bytes packet(longest_solved_form, 0xee);
        const Answer read = tried.read_term(fresh, text, packet);
        if (read.number() != 0)
            return "the text " + text_of(text) + " was written, and read with " + read.text();
        packet.resize(read.third());
        Bytes again = fresh;
        const Answer taken = tried.take(again, packet);
        if (taken.number() != 0 || taken.third() != 0)
            return "the facts of " + text_of(text) + " were taken with " + taken.text();
        if (again != block)
            return "the text " + text_of(text) + " gave another block";
        Bytes second(800, 0xee);
        second.resize(tried.write_term(again, joint, second).third());
        return second == text ? "" : "the text " + text_of(text) + " was written as " + text_of(second);
    }

    // A tree is written from its root and from no joint that a link leads to; what is written of anything gives it
    // back.
    std::string trees()
    {
        Tree tree = random_tree(kinds, v, random);
        std::string problem = gives_back(tree.block, tree.root, true);
        for (size_t i = 1; i < tree.in_it.size() && problem.empty(); i++) {
            Bytes out(800, 0xee);
            const Answer answer = tried.write_term(tree.block, tree.in_it[i], out);
            if (answer.number() != 23 || answer.place() != 0 || out != Bytes(800, 0xee))
                problem = "from a joint that a link leads to a tree was answered with " + answer.text();
        }
        for (size_t times = random.between(1, 4); times > 0 && problem.empty(); times--) {
            unmake_tree(tree, kinds, random);
            for (size_t joint = 0; joint < v && problem.empty(); joint++)
                problem = gives_back(tree.block, joint, false);
        }
        return problem;
    }

    // ------------------------------------------------------------------------------------------------- completions

    bool is_term(const std::string& text)
    {
        Bytes out;
        return tried.read_term(fresh, bytes_of(text), out).number() != 20;
    }

    // Whether some term begins so. If one does, one of these does: what stands open is closed in the shortest way.
    bool begins_a_term(const std::string& begun)
    {
        const auto opened = std::count(begun.begin(), begun.end(), '(');
        const auto closed = std::count(begun.begin(), begun.end(), ')');
        if (closed > opened)
            return false;
        const std::string brackets(static_cast<size_t>(opened - closed), ')');
        for (const char* next : {"", "0", "@0", ">@0", "=>@0", "0=>@0"})
            if (is_term(begun + next + brackets))
                return true;
        return false;
    }

    std::string texts()
    {
        TermShape shape{kinds.n, v, random.between(1, 18), random.between(1, 4), random.between(1, 30), 0};
        std::string text = random_term(shape, random);
        Bytes out(longest_solved_form, 0xee);
        const Answer good = tried.read_term(fresh, bytes_of(text), out);
        const bool is_deep = deepest_in(text) > deepest_term;
        if (is_deep ? good.number() != 20 : good.number() != 0)
            return "the text " + text + " was answered with " + good.text();
        for (size_t times = 12; times > 0; times--) {
            std::string damaged = text;
            for (size_t hits = random.pick_of<size_t>({1, 1, 1, 2, 5}); hits > 0; hits--)
                damage_text(damaged, random);
            const Answer answer = tried.read_term(fresh, bytes_of(damaged), out);
            if (answer.number() != 20)
                continue;
            const size_t place = answer.place();
            places++;
            if (place > damaged.size() || !begins_a_term(damaged.substr(0, place)))
                return "of the text " + damaged + ", answered with " + answer.text() + ", no term begins so far";
            if (place < damaged.size() && begins_a_term(damaged.substr(0, place + 1)))
                return "of the text " + damaged + ", answered with " + answer.text() + ", a term begins further";
        }
        return "";
    }

    static size_t deepest_in(const std::string& text)
    {
        size_t depth = 1, deepest = 1;
        for (const char sign : text) {
            depth += sign == '(';
            depth -= sign == ')';
            deepest = std::max(deepest, depth);
        }
        return deepest;
    }

    Implementation tried;
    Random random;
    const Kinds kinds;
    const size_t v;
    const Bytes fresh;
    size_t written = 0;
    size_t places = 0;
};

} // namespace host

#endif
