// A plain C++ version of documents 01 and 02, as far as the orders of 02 have landed (orders 1 to 3), written from the
// papers alone, so that an agreement between it and the library says something about both. Order 3 changes no answer,
// so the check of a table is still the one of 01, over all triples.
//
// The same source can be compiled with one deliberate fault at a time. The faults exist to show that the tests around
// this file would notice them.

#ifndef HOST_REFERENCE_HPP
#define HOST_REFERENCE_HPP

#include <cstddef>
#include <cstdint>

namespace paper {

// Each call gives number + 256 * third + 2^32 * place.
std::uint64_t open(std::uint64_t n, std::uint64_t v, const std::uint8_t* table, std::size_t table_size,
                   std::uint8_t* block, std::size_t block_size);
std::uint64_t take(std::uint8_t* block, std::size_t block_size, const std::uint8_t* packet, std::size_t packet_size);
std::uint64_t ask(const std::uint8_t* block, std::size_t block_size, const std::uint8_t* packet,
                  std::size_t packet_size);
std::uint64_t write(const std::uint8_t* block, std::size_t block_size, std::uint8_t* out, std::size_t out_size);
std::uint64_t house(std::uint8_t* table, std::size_t table_size);
std::uint64_t read_term(const std::uint8_t* block, std::size_t block_size, const std::uint8_t* text,
                        std::size_t text_size, std::uint8_t* out, std::size_t out_size);
std::uint64_t write_term(const std::uint8_t* block, std::size_t block_size, std::uint64_t joint, std::uint8_t* out,
                         std::size_t out_size);

// What reading a term gives for a well-formed block of n kinds and v joints: nothing but the text is judged.
std::uint64_t read_typed(std::uint64_t n, std::uint64_t v, const std::uint8_t* text, std::size_t text_size,
                         std::uint8_t* out, std::size_t out_size);

// The seven calls of one implementation: the library, the plain version, or the plain version with a fault.
struct Calls {
    std::uint64_t (*open)(std::uint64_t, std::uint64_t, const std::uint8_t*, std::size_t, std::uint8_t*, std::size_t);
    std::uint64_t (*take)(std::uint8_t*, std::size_t, const std::uint8_t*, std::size_t);
    std::uint64_t (*ask)(const std::uint8_t*, std::size_t, const std::uint8_t*, std::size_t);
    std::uint64_t (*write)(const std::uint8_t*, std::size_t, std::uint8_t*, std::size_t);
    std::uint64_t (*house)(std::uint8_t*, std::size_t);
    std::uint64_t (*read_term)(const std::uint8_t*, std::size_t, const std::uint8_t*, std::size_t, std::uint8_t*,
                               std::size_t);
    std::uint64_t (*write_term)(const std::uint8_t*, std::size_t, std::uint64_t, std::uint8_t*, std::size_t);
};

// X(name) for each fault of the calls of 01. The first five are the errors listed in 01, the next five the stand-ins it
// wants rejected, the others slips a reader might make.
#define PAPER_CALL_FAULTS(X)       \
    X(joins_stop_at_links)         \
    X(unknown_link_rules_out)      \
    X(kinds_compared_for_equality) \
    X(clash_keeps_earlier_facts)   \
    X(class_named_by_largest)      \
    X(always_waits)                \
    X(refuses_every_packet)        \
    X(stores_nothing)              \
    X(takes_first_packet_only)     \
    X(invented_joins)              \
    X(triple_place_swapped)        \
    X(triple_place_from_second)    \
    X(triples_from_three)          \
    X(neighbours_left_out)         \
    X(first_above_last)            \
    X(entry_equal_to_n_passes)     \
    X(first_laws_in_three_passes)  \
    X(symmetry_unchecked)          \
    X(table_reply_from_block)      \
    X(sizes_cut_to_32_bits)        \
    X(block_table_unchecked)       \
    X(table_tail_unchecked)        \
    X(joints_beyond_v_unchecked)   \
    X(member_rows_unchecked)       \
    X(class_of_class_unchecked)    \
    X(link_to_member_passes)       \
    X(class_kind_zero_passes)      \
    X(short_packet_passes)         \
    X(facts_1089_pass)             \
    X(facts_1088_refused)          \
    X(ties_may_be_cut)             \
    X(place_at_second_byte)        \
    X(kind_zero_refused)           \
    X(facts_before_ties)           \
    X(reached_backwards)           \
    X(reached_in_one_pass)         \
    X(equality_reaches)            \
    X(largest_unreached_named)     \
    X(clash_before_bad_fact)       \
    X(clash_has_no_place)          \
    X(clash_at_fact_before)        \
    X(clash_at_last_fact)          \
    X(far_clash_at_last_fact)      \
    X(last_link_forgotten)         \
    X(rule_joins_stop_at_links)    \
    X(repeated_tie_ignored)        \
    X(new_link_still_applies)      \
    X(new_kind_still_applies)      \
    X(new_join_still_applies)      \
    X(ask_stores)                  \
    X(kind_any_written)            \
    X(exact_output_refused)        \
    X(rest_of_output_cleared)      \
    X(house_meet_by_largest_number)

// X(name) for each fault of reading and writing terms, slips all of them.
#define PAPER_TERM_FAULTS(X)          \
    X(term_17_deep_read)              \
    X(term_16_deep_not_read)          \
    X(deep_term_told_late)            \
    X(four_digits_read)               \
    X(three_digits_not_read)          \
    X(leading_zero_read)              \
    X(empty_brackets_read)            \
    X(blanks_read)                    \
    X(rest_of_text_ignored)           \
    X(early_end_told_at_last_byte)    \
    X(longer_text_read)               \
    X(longest_text_not_read)          \
    X(out_of_range_before_no_term)    \
    X(out_of_range_at_sign)           \
    X(last_out_of_range_told)         \
    X(joint_v_read)                   \
    X(kind_n_read)                    \
    X(kind_0_out_of_range)            \
    X(link_16_read)                   \
    X(too_large_before_out_of_range)  \
    X(term_of_1089_facts_read)        \
    X(term_of_1088_facts_not_read)    \
    X(short_output_before_too_large)  \
    X(all_links_of_outermost)         \
    X(link_behind_inner_facts)        \
    X(kinds_behind_links)             \
    X(exact_packet_refused)           \
    X(rest_of_packet_cleared)         \
    X(chosen_joint_cut_to_32_bits)    \
    X(chosen_joint_cut_to_a_byte)     \
    X(chosen_out_of_range_is_no_tree) \
    X(joined_joints_left_out)         \
    X(loop_at_chosen_left_out)        \
    X(kind_not_reached_left_out)      \
    X(link_not_reached_left_out)      \
    X(lone_joint_refused)             \
    X(two_walks_pass)                 \
    X(second_link_to_a_joint_passes)  \
    X(tree_17_deep_written)           \
    X(tree_16_deep_not_written)       \
    X(short_output_before_no_tree)    \
    X(links_fall)                     \
    X(kind_1_written_in_term)         \
    X(kind_of_chosen_left_out)        \
    X(exact_text_refused)             \
    X(rest_of_text_cleared)

#define PAPER_FAULTS(X) PAPER_CALL_FAULTS(X) PAPER_TERM_FAULTS(X)

#define PAPER_FAULT_NAME(name) name,
enum class Fault { none, PAPER_FAULTS(PAPER_FAULT_NAME) count };
#undef PAPER_FAULT_NAME

const char* fault_name(Fault fault);

// With PAPER_WITHOUT_FAULTS only Fault::none is compiled and may be asked for, which spares most of a slow compilation.
const Calls& calls(Fault fault);

} // namespace paper

#endif
