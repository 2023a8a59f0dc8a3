// A call with all that it is lent.

#ifndef HOST_CALLS_HPP
#define HOST_CALLS_HPP

#include "layout.hpp"

#include <array>
#include <initializer_list>
#include <utility>

namespace host {

using namespace layout;

enum class Name { open, take, ask, write, house, read_term, write_term };
constexpr size_t name_count = 7;
constexpr const char* name_text[name_count] = {"open", "take", "ask", "write", "house", "read_term", "write_term"};

enum Slot { table_slot, block_slot, packet_slot, text_slot, out_slot, slot_count };
constexpr const char* slot_text[slot_count] = {"table", "block", "packet", "text", "out"};

// Where a buffer lies in the memory lent: between guard bytes, or with an end at memory that may not be touched at all,
// so that reading past it shows as well.
enum class Lie { between_guards, at_start, at_end };

struct Lent {
    bool used = false;
    bool null = false; // only with no bytes
    Lie lie = Lie::between_guards;
    size_t shift = 0; // so that no alignment can be relied on
    Bytes bytes;
};

struct Call {
    Name name = Name::open;
    std::uint64_t n = 0;
    std::uint64_t v = 0;
    std::uint64_t joint = 0; // chosen, at write_term
    std::array<Lent, slot_count> lent;
    bool goes_on = false; // the session goes on with the block this call leaves
};

inline Call call_with(Name name, std::initializer_list<std::pair<Slot, Bytes>> lent)
{
    Call call;
    call.name = name;
    for (const auto& [slot, bytes] : lent) {
        call.lent[slot].used = true;
        call.lent[slot].bytes = bytes;
        call.lent[slot].null = bytes.empty();
    }
    return call;
}

inline Call open_with(std::uint64_t n, std::uint64_t v, const Bytes& table, const Bytes& block)
{
    Call call = call_with(Name::open, {{table_slot, table}, {block_slot, block}});
    call.n = n;
    call.v = v;
    return call;
}

inline Call read_term_with(const Bytes& block, const Bytes& text, const Bytes& out)
{
    return call_with(Name::read_term, {{block_slot, block}, {text_slot, text}, {out_slot, out}});
}

inline Call write_term_with(const Bytes& block, std::uint64_t joint, const Bytes& out)
{
    Call call = call_with(Name::write_term, {{block_slot, block}, {out_slot, out}});
    call.joint = joint;
    return call;
}

} // namespace host

#endif
