// Tables near lawful ones, opened by one implementation beside the plain version, whose loops go over all triples. Each
// is a lawful table with one to four entries changed, which breaks most of them. It is looked at here, too, to know
// which law it breaks first and of which kinds: by the triples that order 3 leaves, so that the answer of the plain
// version tells whether they do.

#ifndef HOST_NEAR_LAWFUL_HPP
#define HOST_NEAR_LAWFUL_HPP

#include "hits.hpp"
#include "implementation.hpp"
#include "tables.hpp"

#include <array>

namespace host {

enum class Law { entry, meet_with_itself, meet_with_none, meet_with_any, pair, triple, none_broken };

// The law that a table breaks first, and of which kinds.
struct Breach {
    Law law = Law::none_broken;
    size_t i = 0, j = 0, k = 0;

    Answer answer(size_t n) const
    {
        const std::uint64_t number = law == Law::none_broken ? 0 : law == Law::entry ? 2 : 3;
        return {number + (std::uint64_t{i * n + j} << 32)};
    }
};

inline bool triple_holds(const Kinds& kinds, size_t i, size_t j, size_t k)
{
    return kinds.meet(kinds.meet(i, j), k) == kinds.meet(i, kinds.meet(j, k));
}

// Looks at each pair once, and of the triples only at those without 0 and 1 whose first is below its last.
inline Breach first_breach(const Kinds& kinds)
{
    const size_t n = kinds.n;
    for (size_t i = 0; i < n; i++)
        for (size_t j = 0; j < n; j++)
            if (kinds.meet(i, j) >= n)
                return {Law::entry, i, j};
    for (size_t i = 0; i < n; i++) {
        if (kinds.meet(i, i) != i)
            return {Law::meet_with_itself, i, i};
        if (kinds.meet(0, i) != 0)
            return {Law::meet_with_none, 0, i};
        if (kinds.meet(1, i) != i)
            return {Law::meet_with_any, 1, i};
    }
    for (size_t i = 0; i < n; i++)
        for (size_t j = i + 1; j < n; j++)
            if (kinds.meet(i, j) != kinds.meet(j, i))
                return {Law::pair, i, j};
    for (size_t i = 2; i < n; i++)
        for (size_t j = 2; j < n; j++)
            for (size_t k = i + 1; k < n; k++)
                if (!triple_holds(kinds, i, j, k))
                    return {Law::triple, i, j, k};
    return {};
}

// How many tables there were, and what they hit.
class NearLawfulCounts {
public:
    // Those that break a law; a change may leave a table lawful.
    size_t broken() const { return tables - of(Law::none_broken); }

    void count(const Kinds& lawful, const Kinds& near, size_t changed, const Breach& breach)
    {
        tables++;
        of_n[near.n]++;
        hits.hit(changed_text.at(changed - 1));
        hits.hit(law_text[static_cast<size_t>(breach.law)]);
        if (breach.law == Law::triple)
            count_triple(lawful, near, breach);
    }

    void print(size_t differing) const
    {
        const size_t of_one_kind = of(Law::meet_with_itself) + of(Law::meet_with_none) + of(Law::meet_with_any);
        std::printf(
            "differential: %zu tables near lawful ones, %zu of them broken, %zu at an entry, %zu at a law of one "
            "kind, %zu at a pair, %zu at a triple, %zu differing\n",
            tables, broken(), of(Law::entry), of_one_kind, of(Law::pair), of(Law::triple), differing);
        hits.print("  of these  ");
    }

    // What was never hit, though it has to be.
    std::string missing() const
    {
        std::string text = hits.missing(law_text) + hits.missing(changed_text) +
                           hits.missing({"a triple, first 2", "a triple, first above 2", "a triple, middle 2",
                                         "a triple, middle its first", "a triple, middle its last",
                                         "a triple, first and last neighbours",
                                         "a triple, first and last neighbours, alone at its place",
                                         "a triple of the last three kinds", "a triple of the last two kinds",
                                         "a triple near house kinds", "a triple with n = 4", "a triple with n = 64"});
        for (size_t n = 2; n <= most_kinds; n++)
            if (of_n[n] < tables / 70) // one in 63 would be even
                text += "  too few tables near lawful ones with n = " + std::to_string(n) + "\n";
        return text;
    }

private:
    size_t of(Law law) const { return hits.of(law_text[static_cast<size_t>(law)]); }

    void count_triple(const Kinds& lawful, const Kinds& near, const Breach& breach)
    {
        static const Bytes house = house_kinds().table;
        const size_t n = near.n, i = breach.i, j = breach.j, k = breach.k;
        hits.hit(i == 2 ? "a triple, first 2" : "a triple, first above 2");
        if (j == 2)
            hits.hit("a triple, middle 2");
        if (j == i)
            hits.hit("a triple, middle its first");
        if (j == k)
            hits.hit("a triple, middle its last");
        if (i + 1 == k)
            hits.hit("a triple, first and last neighbours");
        if (i + 1 == k && alone_at_its_place(near, breach))
            hits.hit("a triple, first and last neighbours, alone at its place");
        if (i > 2 && i + 3 == n && j > i && j != k)
            hits.hit("a triple of the last three kinds");
        if (i > 2 && i + 2 == n)
            hits.hit("a triple of the last two kinds");
        if (lawful.table == house)
            hits.hit("a triple near house kinds");
        if (n == 4)
            hits.hit("a triple with n = 4");
        if (n == most_kinds)
            hits.hit("a triple with n = 64");
    }

    // Whether no further triple would be told at the same place.
    static bool alone_at_its_place(const Kinds& near, const Breach& breach)
    {
        for (size_t k = breach.k + 1; k < near.n; k++)
            if (!triple_holds(near, breach.i, breach.j, k))
                return false;
        return true;
    }

    size_t tables = 0;
    const std::vector<const char*> law_text = {"an entry", "a meet with itself", "a meet with none", "a meet with any",
                                               "a pair",   "a triple",           "none broken"};
    const std::vector<const char*> changed_text = {"1 entry changed", "2 entries changed", "3 entries changed",
                                                   "4 entries changed"};
    std::array<size_t, most_kinds + 1> of_n{};
    Hits hits;
};

class NearLawful {
public:
    using Counts = NearLawfulCounts;

    // Some tables near one lawful table, from one seed; gives a description of the first that is opened otherwise, or
    // nothing.
    static std::string failing(const paper::Calls& calls, std::uint64_t seed, Counts& counts)
    {
        NearLawful round(calls, seed);
        std::string problem;
        if (first_breach(round.lawful).law != Law::none_broken)
            problem = "the table to start from is not lawful";
        for (size_t times = tables_to_a_round; times > 0 && problem.empty(); times--) {
            round.change_some();
            problem = round.open(counts);
        }
        return problem.empty() ? "" : "tables near lawful ones, seed " + std::to_string(seed) + ": " + problem;
    }

private:
    static constexpr size_t tables_to_a_round = 16;
    static constexpr Byte untouched = 0xee;

    NearLawful(const paper::Calls& calls, std::uint64_t seed)
        : tried(calls), random(seed ^ 0x6c617773), lawful(lawful_kinds(2 + seed % (most_kinds - 1), random)),
          n(lawful.n), v(random.between(1, most_joints))
    {}

    static Kinds lawful_kinds(size_t n, Random& random)
    {
        if (n == house_kind_count && random.chance(40))
            return house_kinds();
        if (n >= 5 && random.chance(40)) // where the last kinds can break a law alone
            return with_three_last(kinds_of_some_shape(n - 3, random), random.chance(30));
        return kinds_of_some_shape(n, random);
    }

    // -------------------------------------------------------------------------------------------------------- changes

    void change(size_t i, size_t j, size_t meet) { near.table[i * n + j] = static_cast<Byte>(meet); }

    void change_any(size_t meet)
    {
        const size_t i = random.below(n);
        change(i, random.below(n), meet);
    }
    void change_of_one_kind(size_t meet)
    {
        const size_t i = random.below(n);
        change(random.pick_of<size_t>({0, 1, i}), i, meet);
    }

    // An entry and its mirror image, of two kinds that are not 0 or 1, so that only triples can tell. If all kinds
    // concerned are late ones, so is the first triple that tells.
    void change_both()
    {
        const size_t from = n > 5 && random.chance(30) ? n - 3 : random.between(2, n - 2);
        const size_t a = random.between(from, n - 2);
        const size_t b = random.between(a + 1, n - 1);
        const size_t meet = random.pick_of<size_t>({a, b, random.between(from, n - 1), random.below(n)});
        change(a, b, meet);
        change(b, a, meet);
    }

    void change_one_to_four()
    {
        const size_t roll = random.below(n < 4 ? 16 : 100);
        const size_t times = roll < 16 ? random.between(1, 4) : roll < 60 ? 1 : 2;
        for (size_t i = 0; i < times; i++)
            if (roll < 5)
                change_any(beyond(n, random));
            else if (roll < 10)
                change_of_one_kind(random.below(n));
            else if (roll < 16)
                change_any(random.below(n));
            else
                change_both();
        if (roll >= 55 && roll < 60)
            change_any(random.below(n));
    }

    // Makes a table that is not the lawful one.
    void change_some()
    {
        do {
            near = lawful;
            change_one_to_four();
        } while (near.table == lawful.table);
    }

    // -------------------------------------------------------------------------------------------------------- opening

    std::string open(Counts& counts)
    {
        Bytes block(block_length, untouched), wanted(block_length, untouched);
        const Answer expected = Implementation(paper::calls(paper::Fault::none)).open(n, v, near.table, wanted);
        const Answer answer = tried.open(n, v, near.table, block);
        if (answer != expected || block != wanted)
            return described() + ": gave " + answer.text() + ", expected " + expected.text() +
                   (block == wanted ? "" : ", and another block");
        const Breach breach = first_breach(near);
        if (breach.answer(n) != expected)
            return described() + ": the plain version gave " + expected.text() + ", here it comes to " +
                   breach.answer(n).text();
        counts.count(lawful, near, changed().size(), breach);
        return "";
    }

    std::vector<size_t> changed() const
    {
        std::vector<size_t> offsets;
        for (size_t at = 0; at < n * n; at++)
            if (near.table[at] != lawful.table[at])
                offsets.push_back(at);
        return offsets;
    }

    std::string described() const
    {
        std::string text = "n " + std::to_string(n) + ", V " + std::to_string(v);
        for (const size_t at : changed())
            text += ", entry " + std::to_string(at) + " made " + std::to_string(near.table[at]);
        return text;
    }

    Implementation tried;
    Random random;
    const Kinds lawful;
    const size_t n;
    const size_t v;
    Kinds near;
};

} // namespace host

#endif
