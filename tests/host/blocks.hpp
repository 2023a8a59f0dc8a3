// Blocks that no session need ever have made: well-formed ones, and damaged ones.

#ifndef HOST_BLOCKS_HPP
#define HOST_BLOCKS_HPP

#include "tables.hpp"

namespace host {

// A well-formed block that no session need ever have made.
inline Bytes foreign_block(const Kinds& kinds, size_t v, Random& random)
{
    Bytes block(block_length, 0);
    block[0] = static_cast<Byte>(kinds.n);
    block[1] = static_cast<Byte>(v);
    Bytes classes;
    const size_t joined = random.pick_of<size_t>({0, 0, 20, 50, 90});
    for (size_t joint = 0; joint < v; joint++) {
        if (joint > 0 && random.chance(joined)) {
            block[classes_at + joint] = random.pick(classes);
            continue;
        }
        classes.push_back(static_cast<Byte>(joint));
        block[classes_at + joint] = static_cast<Byte>(joint);
        block[kinds_at + joint] = static_cast<Byte>(random.chance(30) ? 1 : random.between(1, kinds.n - 1));
    }
    const size_t density = random.pick_of<size_t>({5, 30, 100, 100});
    for (const Byte joint : classes)
        for (size_t l = 0; l < links_per_joint; l++)
            block[links_at + joint * links_per_joint + l] = random.chance(density) ? random.pick(classes) : not_known;
    std::copy(kinds.table.begin(), kinds.table.end(), block.begin() + table_at);
    return block;
}

// One byte changed, in a region chosen first, so that small regions are hit as often as large ones. Some changes leave
// the block well formed.
inline void damage_block(Bytes& block, Random& random)
{
    const size_t n = std::clamp<size_t>(block[0], 2, most_kinds);
    const size_t v = std::clamp<size_t>(block[1], 1, most_joints);
    size_t at = 0;
    switch (random.below(12)) {
    case 0:
        at = 0;
        break;
    case 1:
        at = 1;
        break;
    case 2:
    case 3:
        at = classes_at + random.below(v);
        break;
    case 4:
    case 5:
        at = kinds_at + random.below(v);
        break;
    case 6:
    case 7:
        at = links_at + random.below(v * links_per_joint);
        break;
    case 8: // what belongs to joints from V on
        if (v < most_joints) {
            const size_t joint = random.between(v, most_joints - 1);
            at = random.pick_of<size_t>({classes_at + joint, kinds_at + joint,
                                         links_at + joint * links_per_joint + random.below(links_per_joint)});
        }
        break;
    case 9:
        at = table_at + random.below(n * n);
        break;
    case 10: // symmetric, so that the table fails only in triples, if at all
        if (n > 3) {
            const size_t a = random.between(2, n - 1);
            const size_t b = random.between(2, n - 1);
            block[table_at + a * n + b] = block[table_at + b * n + a] = random.byte_below(n);
            return;
        }
        break;
    default:
        if (n < most_kinds)
            at = random.chance(40)   ? table_at + n * n
                 : random.chance(40) ? block_length - 1
                                     : random.between(table_at + n * n, block_length - 1);
        break;
    }
    const size_t bound = at >= table_at ? n : v;
    block[at] = random.chance(40) && block[at] < bound ? random.byte_below(bound)
                : random.chance(15)                    ? static_cast<Byte>(bound)
                                                       : other_byte(block[at], random);
}

} // namespace host

#endif
