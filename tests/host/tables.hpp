// Kind tables: lawful ones of several shapes, and damage to them.

#ifndef HOST_TABLES_HPP
#define HOST_TABLES_HPP

#include "random.hpp"
#include "reference.hpp"

#include <algorithm>

namespace host {

struct Kinds {
    size_t n = 0;
    Bytes table;

    Byte meet(size_t i, size_t j) const { return table[i * n + j]; }
    bool under(size_t i, size_t j) const { return meet(i, j) == i; }
};

// Sets closed under intersection, with the empty set and the full one, are a lawful table under any numbering that
// gives these two 0 and 1.
inline Kinds kinds_from_sets(std::vector<std::uint64_t> sets, Random& random)
{
    std::vector<std::uint64_t> inner;
    for (const std::uint64_t set : sets)
        if (set != 0 && set != ~std::uint64_t{0})
            inner.push_back(set);
    random.shuffle(inner);
    sets = {0, ~std::uint64_t{0}};
    sets.insert(sets.end(), inner.begin(), inner.end());

    std::vector<std::pair<std::uint64_t, Byte>> numbers;
    for (size_t i = 0; i < sets.size(); i++)
        numbers.emplace_back(sets[i], static_cast<Byte>(i));
    std::sort(numbers.begin(), numbers.end());

    Kinds kinds;
    kinds.n = sets.size();
    kinds.table.resize(kinds.n * kinds.n);
    for (size_t i = 0; i < kinds.n; i++)
        for (size_t j = 0; j < kinds.n; j++) {
            const std::pair<std::uint64_t, Byte> wanted{sets[i] & sets[j], 0};
            kinds.table[i * kinds.n + j] = std::lower_bound(numbers.begin(), numbers.end(), wanted)->second;
        }
    return kinds;
}

constexpr std::uint64_t low_bits(size_t count) { return (std::uint64_t{1} << count) - 1; }

// Tops the family up to n sets by a chain over all the others but the full one.
inline void fill_up(std::vector<std::uint64_t>& sets, size_t n, size_t bits_used)
{
    for (size_t extra = 1; sets.size() < n; extra++)
        sets.push_back(low_bits(bits_used + extra));
}

inline Kinds chain_kinds(size_t n, Random& random)
{
    std::vector<std::uint64_t> sets = {0, ~std::uint64_t{0}};
    fill_up(sets, n, 0);
    return kinds_from_sets(sets, random);
}

inline Kinds flat_kinds(size_t n, Random& random)
{
    std::vector<std::uint64_t> sets = {0, ~std::uint64_t{0}};
    for (size_t bit = 0; sets.size() < n; bit++)
        sets.push_back(std::uint64_t{1} << bit);
    return kinds_from_sets(sets, random);
}

inline Kinds tree_kinds(size_t n, Random& random)
{
    const size_t inner = n - 2;
    std::vector<std::uint64_t> below(inner);
    std::vector<size_t> parent(inner);
    for (size_t i = 0; i < inner; i++)
        parent[i] = random.below(i + 1); // itself: directly under "any"
    for (size_t i = inner; i-- > 0;) {
        below[i] |= std::uint64_t{1} << i;
        if (parent[i] != i)
            below[parent[i]] |= below[i];
    }
    below.push_back(0);
    below.push_back(~std::uint64_t{0});
    return kinds_from_sets(below, random);
}

inline Kinds product_kinds(size_t n, Random& random)
{
    size_t width = 2;
    while ((width + 1) * (width + 1) <= n && random.chance(60))
        width++;
    const size_t height = std::max<size_t>(1, n / width);
    std::vector<std::uint64_t> sets;
    for (size_t x = 0; x < width; x++)
        for (size_t y = 0; y < height; y++)
            sets.push_back(low_bits(x) | low_bits(y) << (width - 1));
    const size_t bits = width - 1 + height - 1;
    sets.back() = ~std::uint64_t{0};
    fill_up(sets, n, bits);
    return kinds_from_sets(sets, random);
}

inline Kinds family_kinds(size_t n, Random& random)
{
    const size_t bits = random.between(2, 14);
    std::vector<std::uint64_t> sets = {0, ~std::uint64_t{0}};
    for (size_t attempt = 0; attempt < 3 * n && sets.size() < n; attempt++) {
        std::uint64_t set = random.next() & low_bits(bits);
        if (random.chance(50))
            set |= random.next() & low_bits(bits);
        std::vector<std::uint64_t> grown = sets;
        for (const std::uint64_t other : sets)
            grown.push_back(set & other);
        std::sort(grown.begin(), grown.end());
        grown.erase(std::unique(grown.begin(), grown.end()), grown.end());
        if (grown.size() <= n)
            sets = std::move(grown);
    }
    fill_up(sets, n, bits);
    return kinds_from_sets(sets, random);
}

inline Kinds house_kinds()
{
    Kinds kinds;
    kinds.n = house_kind_count;
    kinds.table.resize(house_length);
    paper::house(kinds.table.data(), kinds.table.size());
    return kinds;
}

// The same kinds and three more, numbered last, that meet no other kind but "any" and themselves in more than "none";
// or, forked, with the last two of them under the first.
inline Kinds with_three_last(const Kinds& kinds, bool forked)
{
    Kinds more;
    more.n = kinds.n + 3;
    more.table.resize(more.n * more.n);
    const auto set_both = [&](size_t i, size_t j, size_t meet) {
        more.table[i * more.n + j] = more.table[j * more.n + i] = static_cast<Byte>(meet);
    };
    for (size_t i = 0; i < kinds.n; i++)
        for (size_t j = i; j < kinds.n; j++)
            set_both(i, j, kinds.meet(i, j));
    for (size_t i = kinds.n; i < more.n; i++) {
        set_both(i, i, i);
        set_both(i, kind_any, i);
        if (forked)
            set_both(i, kinds.n, i);
    }
    return more;
}

// Large tables cost the most time, for every call checks all their triples.
inline size_t random_kind_count(Random& random)
{
    const size_t roll = random.below(100);
    if (roll < 8)
        return 2;
    if (roll < 18)
        return 3;
    if (roll < 36)
        return 5;
    if (roll < 60)
        return 8;
    if (roll < 64)
        return 33;
    if (roll < 67)
        return most_kinds;
    if (roll < 72)
        return random.between(2, most_kinds);
    return random.between(4, 16);
}

inline Kinds kinds_of_some_shape(size_t n, Random& random)
{
    switch (n < 4 ? 0 : random.below(8)) {
    case 0:
        return chain_kinds(n, random);
    case 1:
        return flat_kinds(n, random);
    case 2:
        return tree_kinds(n, random);
    case 3:
        return product_kinds(n, random);
    default:
        return family_kinds(n, random);
    }
}

inline Kinds random_kinds(Random& random)
{
    return random.chance(18) ? house_kinds() : kinds_of_some_shape(random_kind_count(random), random);
}

// Breaks one law or several, in most cases.
inline void damage_table(Bytes& table, size_t n, Random& random)
{
    if (table.size() != n * n || n < 2)
        return;
    const size_t i = random.below(n);
    const size_t j = random.below(n);
    switch (random.below(9)) {
    case 0:
        table[i * n + j] = beyond(n, random);
        break;
    case 1:
        table[i * n + i] = random.byte_below(n);
        break;
    case 2:
        table[i] = random.byte_below(n);
        break;
    case 3:
        table[n + i] = random.byte_below(n);
        break;
    case 4: // several first laws at once: which one is named shows the order
        for (size_t more = 3; more > 0; more--) {
            const size_t k = random.below(n);
            table[random.pick_of<size_t>({k * n + k, k, n + k})] = random.byte_below(n);
        }
        break;
    case 5:
        table[i * n + j] = random.byte_below(n);
        break;
    case 6: // symmetric and past the first laws, so only triples can show it
    case 7:
        if (n > 3) {
            const size_t a = random.between(2, n - 1);
            const size_t b = random.between(2, n - 1);
            if (a != b)
                table[a * n + b] = table[b * n + a] = random.byte_below(n);
        }
        break;
    default: // any commutative operation with these two special elements
        for (size_t a = 2; a < n; a++)
            for (size_t b = a + 1; b < n; b++)
                table[a * n + b] = table[b * n + a] = random.byte_below(n);
        break;
    }
}

} // namespace host

#endif
