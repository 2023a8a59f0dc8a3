// Random choices that a seed repeats, and bytes chosen near a right one.

#ifndef HOST_RANDOM_HPP
#define HOST_RANDOM_HPP

#include "layout.hpp"

#include <initializer_list>
#include <utility>

namespace host {

using namespace layout;

// splitmix64
class Random {
public:
    explicit Random(std::uint64_t seed) : state(seed) {}

    std::uint64_t next()
    {
        state += 0x9e3779b97f4a7c15;
        std::uint64_t z = state;
        z = (z ^ (z >> 30)) * 0xbf58476d1ce4e5b9;
        z = (z ^ (z >> 27)) * 0x94d049bb133111eb;
        return z ^ (z >> 31);
    }
    size_t below(size_t bound) { return static_cast<size_t>(next() % bound); }
    size_t between(size_t low, size_t high) { return low + below(high - low + 1); }
    bool chance(size_t percent) { return below(100) < percent; }
    Byte byte() { return static_cast<Byte>(next()); }
    Byte byte_below(size_t bound) { return static_cast<Byte>(below(bound)); }
    template <typename List> auto pick(const List& list) { return list[below(list.size())]; }
    template <typename Value> Value pick_of(std::initializer_list<Value> list)
    {
        return *(list.begin() + below(list.size()));
    }
    template <typename List> void shuffle(List& list)
    {
        using std::swap;
        for (size_t i = list.size(); i > 1; i--)
            swap(list[i - 1], list[below(i)]);
    }

private:
    std::uint64_t state;
};

// Mostly one that a slip would take for the right one.
inline Byte other_byte(Byte now, Random& random)
{
    const Byte changed = random.pick_of<Byte>({static_cast<Byte>(now + 1), static_cast<Byte>(now - 1), 0, 1, 2, 255,
                                               128, static_cast<Byte>(now ^ 1 << random.below(8)), random.byte()});
    return changed == now ? static_cast<Byte>(now + 1) : changed;
}

// A number that is just out of range, or far out of it.
inline Byte beyond(size_t bound, Random& random)
{
    return random.chance(60) ? static_cast<Byte>(bound) : static_cast<Byte>(random.between(bound, 255));
}

} // namespace host

#endif
