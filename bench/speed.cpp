// The library beside two C++ versions: the fast one (fast.cpp) and the plain one (tests/host/reference.cpp). All three
// run the same call on the same bytes, turn by turn in one process; each turn gives one ratio to either version, and
// the line shows the middle ones. Before a line is measured all three must have given the same number and left the same
// bytes.

#include "fast.hpp"
#include "implementation.hpp"
#include "library.hpp"
#include "work.hpp"

#include <array>
#include <chrono>
#include <cstdio>
#include <cstdlib>
#include <functional>
#include <string>

namespace bench {
namespace {

using Clock = std::chrono::steady_clock;

const paper::Calls& plain = paper::calls(paper::Fault::none);

enum Version { library, fast_cpp, plain_cpp, version_count };
const std::array<const paper::Calls*, version_count> versions = {&host::library, &fast::calls, &plain};

// A call writes into its own slot, so that taking can be repeated on the same start.
constexpr size_t slots = 32;
constexpr size_t slot_room = host::block_length;
static_assert(slot_room >= host::longest_solved_form, "a slot holds any output");

struct Work {
    std::string name;
    Bytes start; // what a slot holds before the call
    std::function<std::uint64_t(const paper::Calls&, host::Byte* slot)> call;
    size_t calls = slots; // to a turn; fewer where each takes long
};

// How many times the library takes the time of another version.
struct Ratio {
    double middle;
    double low, high; // a quarter of the turns lies below, a quarter above
};

struct Figures {
    Ratio to_fast, to_plain;
    std::array<double, version_count> nanoseconds;
};

double middle(std::vector<double> values, double part = 0.5)
{
    std::sort(values.begin(), values.end());
    return values[static_cast<size_t>(part * static_cast<double>(values.size() - 1))];
}

double nanoseconds_each(const Work& work, const paper::Calls& calls, Bytes& memory)
{
    for (size_t slot = 0; slot < work.calls; slot++)
        std::copy(work.start.begin(), work.start.end(), memory.begin() + slot * slot_room);
    const auto began = Clock::now();
    for (size_t slot = 0; slot < work.calls; slot++)
        work.call(calls, memory.data() + slot * slot_room);
    const std::chrono::duration<double, std::nano> took = Clock::now() - began;
    return took.count() / static_cast<double>(work.calls);
}

void must_agree(const Work& work)
{
    Bytes expected = work.start;
    const std::uint64_t answer = work.call(plain, expected.data());
    for (const paper::Calls* calls : versions) {
        Bytes bytes = work.start;
        if (work.call(*calls, bytes.data()) == answer && bytes == expected)
            continue;
        std::fprintf(stderr, "%s: the versions differ\n", work.name.c_str());
        std::exit(1);
    }
}

Ratio ratio_of(const std::vector<double>& ours, const std::vector<double>& theirs)
{
    std::vector<double> ratios;
    for (size_t turn = 0; turn < ours.size(); turn++)
        ratios.push_back(ours[turn] / theirs[turn]);
    return {middle(ratios), middle(ratios, 0.25), middle(ratios, 0.75)};
}

Figures measured(const Work& work, size_t rounds)
{
    must_agree(work);
    Bytes memory(slots * slot_room);
    std::array<std::vector<double>, version_count> times;
    for (size_t round = 0; round < rounds; round++)
        for (size_t turn = 0; turn < version_count; turn++) {
            const size_t version = (round + turn) % version_count;
            times[version].push_back(nanoseconds_each(work, *versions[version], memory));
        }
    return {ratio_of(times[library], times[fast_cpp]),
            ratio_of(times[library], times[plain_cpp]),
            {middle(times[library]), middle(times[fast_cpp]), middle(times[plain_cpp])}};
}

// ------------------------------------------------------------------- the work

Work opening(const std::string& name, const Kinds& kinds, size_t v)
{
    return {name, Bytes(slot_room, 0xee), [=](const paper::Calls& calls, host::Byte* slot) {
                return calls.open(kinds.n, v, kinds.table.data(), kinds.table.size(), slot, host::block_length);
            }};
}

Bytes opened(const Kinds& kinds, size_t v)
{
    Bytes block(host::block_length);
    host::Implementation(plain).open(kinds.n, v, kinds.table, block);
    return block;
}

Bytes taken(Bytes block, const std::vector<Fact>& facts)
{
    if (host::Implementation(plain).take(block, facts_packet(block[1], facts)).number() != 0) {
        std::fprintf(stderr, "a packet that was to be taken is refused\n");
        std::exit(1);
    }
    return block;
}

Work taking(const std::string& name, const Bytes& block, const std::vector<Fact>& facts)
{
    const Bytes packet = facts_packet(block[1], facts);
    return {name, block, [=](const paper::Calls& calls, host::Byte* slot) {
                return calls.take(slot, host::block_length, packet.data(), packet.size());
            }};
}

Work asking(const std::string& name, const Bytes& block, const Rule& rule)
{
    const Bytes packet = rule.packet();
    return {name, block, [=](const paper::Calls& calls, host::Byte* slot) {
                return calls.ask(slot, host::block_length, packet.data(), packet.size());
            }};
}

Work writing(const std::string& name, const Bytes& block)
{
    return {name, Bytes(slot_room, 0xee), [=](const paper::Calls& calls, host::Byte* slot) {
                return calls.write(block.data(), block.size(), slot, host::longest_solved_form);
            }};
}

Work reading(const std::string& name, const Bytes& block, const Bytes& text, size_t calls = slots)
{
    return {name, Bytes(slot_room, 0xee),
            [=](const paper::Calls& version, host::Byte* slot) {
                return version.read_term(block.data(), block.size(), text.data(), text.size(), slot,
                                         host::longest_solved_form);
            },
            calls};
}

Work writing_term(const std::string& name, const Bytes& block)
{
    return {name, Bytes(slot_room, 0xee), [=](const paper::Calls& calls, host::Byte* slot) {
                return calls.write_term(block.data(), block.size(), 0, slot, slot_room);
            }};
}

Bytes term_of(const Bytes& block)
{
    Bytes text(slot_room);
    text.resize(host::Implementation(plain).write_term(block, 0, text).third());
    if (text.empty()) {
        std::fprintf(stderr, "a tree that was to be written is refused\n");
        std::exit(1);
    }
    return text;
}

void line(const Work& work, size_t rounds)
{
    const Figures f = measured(work, rounds);
    std::printf("%-46s %6.2f  (%4.2f to %4.2f) %6.2f  (%4.2f to %4.2f) %9.0f %9.0f %9.0f\n", work.name.c_str(),
                f.to_fast.middle, f.to_fast.low, f.to_fast.high, f.to_plain.middle, f.to_plain.low, f.to_plain.high,
                f.nanoseconds[library], f.nanoseconds[fast_cpp], f.nanoseconds[plain_cpp]);
    std::fflush(stdout);
}

void heading(const char* text)
{
    std::printf("\n%-46s %6s  %14s %6s  %14s %9s %9s %9s\n", text, "fast", "middle half", "plain", "middle half",
                "library", "fast ns", "plain ns");
}

void opening_table(size_t rounds)
{
    heading("open");
    for (const size_t n : {8, 33, 64})
        line(opening("n = " + std::to_string(n) + (n == 33 ? ", house kinds" : ""), kinds_of(n), 25), rounds);
    host::Random random(33);
    line(opening("n = 33, other kinds", host::family_kinds(33, random), 25), rounds);
    line(opening("n = 64, refused at triple 61, 62, 63", broken_late(64), 25), rounds);
    line(opening("n = 64, refused at triple 2, 3, 4", broken_early(64), 25), rounds);
}

void humanoid_table(size_t rounds)
{
    heading("humanoid: 25 joints, house kinds");
    const Bytes start = opened(kinds_of(33), humanoid_joints);
    const Bytes known = taken(start, humanoid_facts());
    line(taking("take, 49 facts", start, humanoid_facts()), rounds);
    std::vector<Fact> clashing = humanoid_facts();
    clashing.push_back(has_kind(8, 20)); // a left hand that is a foot
    line(taking("take, a clash at the last fact", start, clashing), rounds);
    line(taking("take, 49 facts again", known, humanoid_facts()), rounds);
    line(taking("take, one fact", known, {has_kind(8, 25)}), rounds);
    line(asking("ask, arm rule, applies", known, applying_rule()), rounds);
    line(asking("ask, arm rule, ruled out", known, ruled_out_rule()), rounds);
    line(asking("ask, arm rule, waits", known, waiting_rule()), rounds);
    line(writing("write", known), rounds);
}

void largest_table(size_t rounds)
{
    heading("largest: 64 joints, n = 64");
    const Bytes start = opened(kinds_of(64), most_joints);
    const Bytes known = taken(start, plain_facts(host::most_facts));
    line(taking("take, links, then one cascade", start, worst_facts()), rounds);
    line(taking("take, 63 joins, then links", start, joining_facts()), rounds);
    line(taking("take, 1,088 facts, no join", start, plain_facts(host::most_facts)), rounds);
    line(taking("take, one fact, 64 joints joined", taken(start, joining_facts()), {has_kind(0, 1)}), rounds);
    line(asking("ask, largest rule, all links known", known, largest_rule()), rounds);
    line(asking("ask, largest rule, no link known", start, largest_rule()), rounds);
    line(asking("ask, chain of 32, first link first", start, chain_rule(true)), rounds);
    line(asking("ask, chain of 32, last link first", start, chain_rule(false)), rounds);
    line(writing("write, all links known", known), rounds);
}

void terms_table(size_t rounds)
{
    heading("terms: house kinds");
    const Kinds house = kinds_of(33);
    const Bytes small = opened(house, 4);
    line(reading("read, 3 terms, 21 bytes", small, host::bytes_of("@0:11(1=>@1:16,2=>@3)")), rounds);
    const Bytes humanoid_start = opened(house, humanoid_joints);
    const Bytes humanoid_known = taken(humanoid_start, humanoid_facts());
    line(reading("read, humanoid", humanoid_start, term_of(humanoid_known)), rounds);
    const Bytes start = opened(house, most_joints);
    const Bytes tree = taken(start, tree_facts());
    line(reading("read, 64 joints, 16 deep", start, term_of(tree)), rounds);
    line(reading("read, 1 MB, over 1,088 facts", start, long_text(), 1), rounds);
    Bytes unfinished = long_text();
    unfinished.pop_back();
    line(reading("read, 1 MB, no term at its end", start, unfinished, 1), rounds);
    line(writing_term("write, humanoid", humanoid_known), rounds);
    line(writing_term("write, 64 joints, 16 deep", tree), rounds);
    std::vector<Fact> no_tree = tree_facts();
    no_tree.push_back(link_leads(most_joints - 1, 0, most_joints - 1));
    line(writing_term("write, 64 joints, refused: a loop", taken(start, no_tree)), rounds);
}

void growth(size_t rounds)
{
    heading("with n: ask, arm rule, 25 joints, nothing known");
    for (const size_t n : {8, 16, 32, 48, 64})
        line(asking("n = " + std::to_string(n), opened(kinds_of(n), humanoid_joints), arm_rule(5, 1, 1, 1)), rounds);
    for (const size_t n : {8, 33, 64}) {
        heading(("with facts: take, n = " + std::to_string(n) + ", 64 joints, no join").c_str());
        for (const size_t facts : {0, 136, 272, 544, 1088})
            line(taking(std::to_string(facts) + " facts", opened(kinds_of(n), most_joints), plain_facts(facts)),
                 rounds);
    }
    heading("with facts: ask, n = 33, chain, last link first");
    for (const size_t facts : {31, 136, 272, 544, 1088})
        line(asking(std::to_string(facts) + " facts", opened(kinds_of(33), most_joints), chain_rule(false, facts)),
             rounds);
}

} // namespace
} // namespace bench

int main(int argc, char** argv)
{
    const long rounds = argc == 2 ? std::atol(argv[1]) : 201;
    if (argc > 2 || rounds < 1) {
        std::fprintf(stderr, "usage: bench/run [ROUNDS]\n");
        return 2;
    }
    bench::opening_table(static_cast<size_t>(rounds));
    bench::humanoid_table(static_cast<size_t>(rounds));
    bench::largest_table(static_cast<size_t>(rounds));
    bench::terms_table(static_cast<size_t>(rounds));
    bench::growth(static_cast<size_t>(rounds));
}
