// One implementation called on vectors, and what it answers.

#ifndef HOST_IMPLEMENTATION_HPP
#define HOST_IMPLEMENTATION_HPP

#include "layout.hpp"
#include "reference.hpp"

#include <string>

namespace host {

using namespace layout;

struct Answer {
    std::uint64_t packed = 0;

    unsigned number() const { return static_cast<unsigned>(packed & 0xff); }
    unsigned third() const { return static_cast<unsigned>(packed >> 8 & 0xffffff); }
    unsigned place() const { return static_cast<unsigned>(packed >> 32); }
    std::string text() const
    {
        return "number " + std::to_string(number()) + ", place " + std::to_string(place()) + ", third " +
               std::to_string(third());
    }
    bool operator==(const Answer& other) const { return packed == other.packed; }
    bool operator!=(const Answer& other) const { return packed != other.packed; }
};

class Implementation {
public:
    explicit Implementation(const paper::Calls& its_calls) : calls(its_calls) {}

    Answer open(std::uint64_t n, std::uint64_t v, const Bytes& table, Bytes& block)
    {
        made++;
        return {calls.open(n, v, table.data(), table.size(), block.data(), block.size())};
    }
    Answer take(Bytes& block, const Bytes& packet)
    {
        made++;
        return {calls.take(block.data(), block.size(), packet.data(), packet.size())};
    }
    Answer ask(const Bytes& block, const Bytes& packet)
    {
        made++;
        return {calls.ask(block.data(), block.size(), packet.data(), packet.size())};
    }
    Answer write(const Bytes& block, Bytes& out)
    {
        made++;
        return {calls.write(block.data(), block.size(), out.data(), out.size())};
    }
    Answer house(Bytes& table)
    {
        made++;
        return {calls.house(table.data(), table.size())};
    }
    Answer read_term(const Bytes& block, const Bytes& text, Bytes& out)
    {
        made++;
        return {calls.read_term(block.data(), block.size(), text.data(), text.size(), out.data(), out.size())};
    }
    Answer write_term(const Bytes& block, std::uint64_t joint, Bytes& out)
    {
        made++;
        return {calls.write_term(block.data(), block.size(), joint, out.data(), out.size())};
    }

    size_t made = 0; // calls

private:
    const paper::Calls& calls;
};

} // namespace host

#endif
