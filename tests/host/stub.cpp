// Stands in for the library while the tests themselves are being tried:
//
//   g++ -std=c++17 -I../../include -c stub.cpp && ar rcs libstub.a stub.o && ./run libstub.a
//
// With -DSTUB_FAULT=name it answers like the plain version with that fault, and a run against it has to fail. With
// -DSTUB_FAST it answers like the version that the bench measures by (bench/fast.cpp), and a run holds that one against
// the plain version.

#include "reference.hpp"
#include "vornulica.h"

#ifdef STUB_FAST
#include "fast.hpp"
#endif

#ifndef STUB_FAULT
#define STUB_FAULT none
#endif

namespace {
#ifdef STUB_FAST
const paper::Calls& calls() { return fast::calls; }
#else
const paper::Calls& calls() { return paper::calls(paper::Fault::STUB_FAULT); }
#endif
} // namespace

std::uint64_t rig_open(std::uint64_t n, std::uint64_t v, const std::uint8_t* table, std::size_t table_size,
                       std::uint8_t* block, std::size_t block_size)
{
    return calls().open(n, v, table, table_size, block, block_size);
}
std::uint64_t rig_take(std::uint8_t* block, std::size_t block_size, const std::uint8_t* packet, std::size_t packet_size)
{
    return calls().take(block, block_size, packet, packet_size);
}
std::uint64_t rig_ask(const std::uint8_t* block, std::size_t block_size, const std::uint8_t* packet,
                      std::size_t packet_size)
{
    return calls().ask(block, block_size, packet, packet_size);
}
std::uint64_t rig_write(const std::uint8_t* block, std::size_t block_size, std::uint8_t* out, std::size_t out_size)
{
    return calls().write(block, block_size, out, out_size);
}
std::uint64_t rig_house(std::uint8_t* table, std::size_t table_size) { return calls().house(table, table_size); }
std::uint64_t rig_read_term(const std::uint8_t* block, std::size_t block_size, const std::uint8_t* text,
                            std::size_t text_size, std::uint8_t* out, std::size_t out_size)
{
    return calls().read_term(block, block_size, text, text_size, out, out_size);
}
std::uint64_t rig_write_term(const std::uint8_t* block, std::size_t block_size, std::uint64_t joint, std::uint8_t* out,
                             std::size_t out_size)
{
    return calls().write_term(block, block_size, joint, out, out_size);
}
