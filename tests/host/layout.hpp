// The numbers that documents 01 and 02 fix: limits, where things lie in a block and in a packet, and bytes with a
// meaning of their own.

#ifndef HOST_LAYOUT_HPP
#define HOST_LAYOUT_HPP

#include <cstddef>
#include <cstdint>
#include <vector>

namespace layout {

using Byte = std::uint8_t;
using Bytes = std::vector<Byte>;
using std::size_t;

constexpr size_t most_kinds = 64;
constexpr size_t most_joints = 64;
constexpr size_t links_per_joint = 16;
constexpr size_t most_rule_joints = 32;
constexpr size_t most_ties = 8;
constexpr size_t most_facts = 1088;

constexpr size_t classes_at = 2;
constexpr size_t kinds_at = classes_at + most_joints;
constexpr size_t links_at = kinds_at + most_joints;
constexpr size_t table_at = links_at + most_joints * links_per_joint;
constexpr size_t block_length = table_at + most_kinds * most_kinds;
static_assert(block_length == 5250, "the paper fixes the block's length");

constexpr size_t head_length = 6;
constexpr size_t tie_length = 2;
constexpr size_t fact_length = 4;
constexpr size_t longest_solved_form = head_length + fact_length * most_facts;

constexpr size_t house_kind_count = 33;
constexpr size_t house_length = house_kind_count * house_kind_count;

constexpr size_t longest_text = size_t{1} << 24;
constexpr size_t deepest_term = 16;

constexpr Byte kind_any = 1;
constexpr Byte not_known = 255;

} // namespace layout

#endif
