// What the readers of both headers make of a block, good or not. In a good one it has to be what the library writes as
// its solved form; in any other bytes it has to be in range or not there, as read here by document 01.
//
//   blocks [BLOCKS]     so many random blocks, 6,000 if not given

#include "expect.h"
#include "vornulica.hpp"

#include "blocks.hpp"
#include "harness.hpp"
#include "library.hpp"
#include "packets.hpp"

namespace {

using namespace host;
using vornulica::BlockReader;
using vornulica::RigJoint;

constexpr int most_missed = 5;

Bytes solved_form_of(const BlockReader& reader)
{
    std::vector<Fact> facts;
    for (size_t joint = 0; joint < reader.joints(); joint++) {
        const auto known = reader.joint(RigJoint(joint));
        if (!known)
            return {};
        if (known->smallest() != RigJoint(joint)) {
            facts.push_back(is_one_with(joint, known->smallest().number()));
            continue;
        }
        if (known->kind() != kind_any)
            facts.push_back(has_kind(joint, known->kind()));
        for (size_t l = 0; l < links_per_joint; l++)
            if (const auto target = known->link(l))
                facts.push_back(link_leads(joint, l, target->number()));
    }
    return facts_packet(reader.joints(), facts);
}

// A joint and the smallest one of its class are one: the same is known of them.
bool is_known_alike(const BlockReader& reader, size_t joint)
{
    const auto known = reader.joint(RigJoint(joint));
    if (!known)
        return false;
    const auto of_smallest = reader.joint(known->smallest());
    if (!of_smallest || of_smallest->smallest() != known->smallest() || of_smallest->kind() != known->kind())
        return false;
    for (size_t l = 0; l < links_per_joint; l++)
        if (of_smallest->link(l) != known->link(l))
            return false;
    return true;
}

// Whether all that a block says of the joint is in range.
bool is_in_range(const Bytes& block, size_t joint)
{
    if (block.size() != 5250 || block[0] < 2 || block[0] > 64 || block[1] < 1 || block[1] > 64 || joint >= block[1])
        return false;
    const size_t smallest = block[2 + joint];
    if (smallest > joint || block[2 + smallest] != smallest)
        return false;
    if (block[66 + smallest] < 1 || block[66 + smallest] >= block[0])
        return false;
    for (size_t l = 0; l < 16; l++)
        if (block[130 + 16 * smallest + l] >= block[1] && block[130 + 16 * smallest + l] != 255)
            return false;
    return true;
}

void check_joint(const BlockReader& reader, const Bytes& block, size_t joint)
{
    const auto known = reader.joint(RigJoint(joint));
    EXPECT(known.has_value() == is_in_range(block, joint));
    if (!known)
        return;
    const size_t smallest = block[2 + joint];
    EXPECT(known->smallest().number() == smallest && known->kind() == block[66 + smallest]);
    for (size_t l = 0; l < 16; l++) {
        const Byte target = block[130 + 16 * smallest + l];
        EXPECT(known->link(l).has_value() == (target != 255) && (target == 255 || known->link(l)->number() == target));
    }
    EXPECT(!known->link(16) && !known->link(~size_t{0}));
}

void check_good(const BlockReader& reader, const Bytes& block)
{
    Bytes out(longest_solved_form);
    const Answer written = Implementation(library).write(block, out);
    out.resize(written.third());
    EXPECT(written.number() == 0 && solved_form_of(reader) == out);
    EXPECT(reader.kinds() == block[0] && reader.joints() == block[1]);
    for (size_t joint = 0; joint < reader.joints(); joint++)
        EXPECT(is_known_alike(reader, joint));
}

// In memory whose end may not be touched.
bool check_block(const Bytes& block)
{
    static LentMemory memory;
    Lent lent;
    lent.bytes = block;
    lent.null = block.empty();
    lent.lie = Lie::at_end;
    const BlockReader reader(vornulica::Bytes(memory.lend(lent), block.size()));

    Bytes out(longest_solved_form);
    const bool is_good = Implementation(paper::calls(paper::Fault::none)).write(block, out).number() == 0;
    EXPECT(reader.good() == is_good);
    EXPECT(Bytes(memory.bytes(), memory.bytes() + block.size()) == block);
    if (is_good)
        check_good(reader, block);
    const bool has_size = block.size() == 5250;
    EXPECT(reader.kinds() == (has_size && block[0] >= 2 && block[0] <= 64 ? block[0] : 0));
    EXPECT(reader.joints() == (has_size && block[1] >= 1 && block[1] <= 64 ? block[1] : 0));
    for (size_t joint = 0; joint < 256; joint++)
        check_joint(reader, block, joint);
    memory.give_back();
    return is_good;
}

Bytes random_block(Random& random)
{
    const Kinds kinds = random_kinds(random);
    Bytes block = foreign_block(kinds, random.chance(20) ? most_joints : random.between(1, 12), random);
    switch (random.below(10)) {
    case 0: // of another size
        block.resize(random.chance(60) ? random.pick_of<size_t>({0, 1, 2, 3, 65, 5249, 5251}) : random.below(6000));
        break;
    case 1: // anything
        for (Byte& byte : block)
            byte = random.byte_below(random.chance(50) ? 4 : 256);
        break;
    case 2:
        for (size_t times = random.between(2, 10); times > 0; times--)
            damage_block(block, random);
        break;
    case 3:
    case 4:
    case 5:
        damage_block(block, random);
        break;
    default:
        break;
    }
    return block;
}

} // namespace

int main(int argc, char** argv)
{
    const std::uint64_t blocks = argc > 1 ? std::strtoull(argv[1], nullptr, 10) : 6000;
    std::uint64_t good = 0;
    for (std::uint64_t seed = 0; seed < blocks && expectations_missed < most_missed; seed++) {
        Random random(seed);
        good += check_block(random_block(random));
    }
    EXPECT(good > blocks / 5 && good < blocks - blocks / 5);
    std::printf("blocks: %llu read, %llu of them good\n", static_cast<unsigned long long>(blocks),
                static_cast<unsigned long long>(good));
    return expectations_missed == 0 ? 0 : 1;
}
