// The library's calls as implementations beside others: the calls alone, and by each of the public headers. What a
// header makes of an answer is put together again as document 01 packs it, so that one that takes it apart wrongly
// shows.

#ifndef HOST_LIBRARY_HPP
#define HOST_LIBRARY_HPP

#include "reference.hpp"
#include "vornulica.hpp"

#include <algorithm>

namespace host {

// The calls with nothing around them, for whoever measures them.
inline constexpr paper::Calls library = {rig_open,  rig_take,      rig_ask,       rig_write,
                                         rig_house, rig_read_term, rig_write_term};

constexpr std::uint64_t packed(std::uint64_t number, std::uint64_t third, std::uint64_t place)
{
    return number + 256 * third + (place << 32);
}

inline std::uint64_t by_parts(std::uint64_t answer)
{
    return packed(rig_number(answer), rig_third(answer), rig_place(answer));
}

// By vornulica.h.
inline constexpr paper::Calls library_by_c = {
    [](std::uint64_t n, std::uint64_t v, const std::uint8_t* table, std::size_t table_size, std::uint8_t* block,
       std::size_t block_size) { return by_parts(rig_open(n, v, table, table_size, block, block_size)); },
    [](std::uint8_t* block, std::size_t block_size, const std::uint8_t* packet, std::size_t packet_size) {
        return by_parts(rig_take(block, block_size, packet, packet_size));
    },
    [](const std::uint8_t* block, std::size_t block_size, const std::uint8_t* packet, std::size_t packet_size) {
        return by_parts(rig_ask(block, block_size, packet, packet_size));
    },
    [](const std::uint8_t* block, std::size_t block_size, std::uint8_t* out, std::size_t out_size) {
        return by_parts(rig_write(block, block_size, out, out_size));
    },
    [](std::uint8_t* table, std::size_t table_size) { return by_parts(rig_house(table, table_size)); },
    [](const std::uint8_t* block, std::size_t block_size, const std::uint8_t* text, std::size_t text_size,
       std::uint8_t* out,
       std::size_t out_size) { return by_parts(rig_read_term(block, block_size, text, text_size, out, out_size)); },
    [](const std::uint8_t* block, std::size_t block_size, std::uint64_t joint, std::uint8_t* out,
       std::size_t out_size) { return by_parts(rig_write_term(block, block_size, joint, out, out_size)); },
};

// A session whose block is the lent one, for a block of the right size.
inline vornulica::Session session_of(const std::uint8_t* block)
{
    vornulica::Block copy;
    std::copy_n(block, copy.size(), copy.begin());
    return vornulica::Session(copy);
}

inline std::uint64_t by_session(const vornulica::Answer& answer, std::uint64_t third)
{
    return packed(static_cast<std::uint64_t>(answer.reply), third, answer.place);
}

// By vornulica.hpp. A block or a house table of another size than theirs has no type there, and goes by vornulica.h.
inline constexpr paper::Calls library_by_cpp = {
    [](std::uint64_t n, std::uint64_t v, const std::uint8_t* table, std::size_t table_size, std::uint8_t* block,
       std::size_t block_size) {
        if (block_size != RIG_BLOCK_SIZE)
            return library_by_c.open(n, v, table, table_size, block, block_size);
        auto session = session_of(block);
        const auto answer = session.open(n, v, {table, table_size});
        std::copy_n(session.block().data(), block_size, block);
        return by_session(answer, answer.third);
    },
    [](std::uint8_t* block, std::size_t block_size, const std::uint8_t* packet, std::size_t packet_size) {
        if (block_size != RIG_BLOCK_SIZE)
            return library_by_c.take(block, block_size, packet, packet_size);
        auto session = session_of(block);
        const auto answer = session.take({packet, packet_size});
        std::copy_n(session.block().data(), block_size, block);
        return by_session(answer, answer.joins());
    },
    [](const std::uint8_t* block, std::size_t block_size, const std::uint8_t* packet, std::size_t packet_size) {
        if (block_size != RIG_BLOCK_SIZE)
            return library_by_c.ask(block, block_size, packet, packet_size);
        const auto answer = session_of(block).ask({packet, packet_size});
        return by_session(answer, answer.verdict() ? static_cast<std::uint64_t>(*answer.verdict()) : 0);
    },
    [](const std::uint8_t* block, std::size_t block_size, std::uint8_t* out, std::size_t out_size) {
        if (block_size != RIG_BLOCK_SIZE)
            return library_by_c.write(block, block_size, out, out_size);
        const auto answer = session_of(block).write({out, out_size});
        return by_session(answer, answer.size());
    },
    [](std::uint8_t* table, std::size_t table_size) {
        if (table_size != RIG_HOUSE_TABLE_SIZE)
            return library_by_c.house(table, table_size);
        const auto house = vornulica::house_table();
        std::copy_n(house.data(), house.size(), table);
        return packed(RIG_DONE, 0, 0);
    },
    [](const std::uint8_t* block, std::size_t block_size, const std::uint8_t* text, std::size_t text_size,
       std::uint8_t* out, std::size_t out_size) {
        if (block_size != RIG_BLOCK_SIZE)
            return library_by_c.read_term(block, block_size, text, text_size, out, out_size);
        const std::string_view view(reinterpret_cast<const char*>(text), text_size);
        const auto answer = session_of(block).read_term(view, {out, out_size});
        return by_session(answer, answer.size());
    },
    [](const std::uint8_t* block, std::size_t block_size, std::uint64_t joint, std::uint8_t* out,
       std::size_t out_size) {
        if (block_size != RIG_BLOCK_SIZE)
            return library_by_c.write_term(block, block_size, joint, out, out_size);
        const auto answer = session_of(block).write_term(vornulica::RigJoint(joint), {out, out_size});
        return by_session(answer, answer.size());
    },
};

} // namespace host

#endif
