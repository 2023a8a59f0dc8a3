// Running one call of one implementation on lent memory, and comparing what two of them did: the number given and every
// byte of every buffer lent.

#ifndef HOST_HARNESS_HPP
#define HOST_HARNESS_HPP

#include "calls.hpp"
#include "implementation.hpp"

#include <algorithm>
#include <cstdio>
#include <cstdlib>
#include <cstring>
#include <string>

#include <sys/mman.h>

#if defined(__SANITIZE_ADDRESS__)
#include <sanitizer/asan_interface.h>
#endif

namespace host {

// Room for one buffer, with a page on either side that may not be touched.
class LentMemory {
public:
    explicit LentMemory(size_t its_room = 2 * page) : room(its_room)
    {
        void* all = mmap(nullptr, page + room + page, PROT_NONE, MAP_PRIVATE | MAP_ANONYMOUS, -1, 0);
        if (all == MAP_FAILED) {
            std::perror("mmap");
            std::exit(2);
        }
        start = static_cast<Byte*>(all) + page;
        if (mprotect(start, room, PROT_READ | PROT_WRITE) != 0) {
            std::perror("mprotect");
            std::exit(2);
        }
    }
    ~LentMemory() { munmap(start - page, page + room + page); }
    LentMemory(const LentMemory&) = delete;
    LentMemory& operator=(const LentMemory&) = delete;

    Byte* lend(const Lent& lent)
    {
        size = lent.bytes.size();
        if (size + 2 * guard + 16 > room) {
            std::fprintf(stderr, "a buffer of %zu bytes does not fit the lent memory\n", size);
            std::exit(2);
        }
        at = lent.lie == Lie::at_start ? start
             : lent.lie == Lie::at_end ? start + room - size
                                       : start + guard + lent.shift;
        guard_before = lent.lie == Lie::at_start ? 0 : guard;
        guard_after = lent.lie == Lie::at_end ? 0 : guard;
        if (size > 0)
            std::memcpy(at, lent.bytes.data(), size);
        for (size_t i = 1; i <= guard_before; i++)
            *(at - i) = guard_byte(i);
        for (size_t i = 0; i < guard_after; i++)
            at[size + i] = guard_byte(i);
        guard_by_sanitizer(true);
        return lent.null ? nullptr : at;
    }
    void give_back() { guard_by_sanitizer(false); }

    bool guards_stand() const
    {
        for (size_t i = 1; i <= guard_before; i++)
            if (*(at - i) != guard_byte(i))
                return false;
        for (size_t i = 0; i < guard_after; i++)
            if (at[size + i] != guard_byte(i))
                return false;
        return true;
    }
    const Byte* bytes() const { return at; }
    size_t length() const { return size; }

    static constexpr size_t page = 65536; // whole pages for any usual page size

private:
    static constexpr size_t guard = 48;

    static Byte guard_byte(size_t i) { return static_cast<Byte>(0xc5 ^ 7 * i); }

    // The sanitizer sees what the instrumented test side reads; the bytes show what anyone writes.
    void guard_by_sanitizer([[maybe_unused]] bool on)
    {
#if defined(__SANITIZE_ADDRESS__)
        if (on) {
            __asan_poison_memory_region(at - guard_before, guard_before);
            __asan_poison_memory_region(at + size, guard_after);
        } else {
            // By whole granules of the sanitizer; all of the room would take too long for one that holds a long text.
            const size_t from = static_cast<size_t>(at - guard_before - start) / 8 * 8;
            const size_t to = (static_cast<size_t>(at + size + guard_after - start) + 7) / 8 * 8;
            __asan_unpoison_memory_region(start + from, to - from);
        }
#endif
    }

    const size_t room;
    Byte* start = nullptr;
    Byte* at = nullptr;
    size_t size = 0;
    size_t guard_before = 0;
    size_t guard_after = 0;
};

// What a call gave, and what it left in each buffer that it was lent.
struct Outcome {
    Answer answer;
    std::array<const Byte*, slot_count> left{};
};

class Side {
public:
    explicit Side(const paper::Calls& implementation) : calls(&implementation) {}

    void use(const paper::Calls& implementation) { calls = &implementation; }

    // Lending and calling are two steps, so that a test can call from a thread with a small stack.
    void lend(const Call& call)
    {
        for (size_t slot = 0; slot < slot_count; slot++)
            if (call.lent[slot].used) {
                pointer[slot] = memory[slot].lend(call.lent[slot]);
                length[slot] = call.lent[slot].bytes.size();
            }
    }
    void run(const Call& call) { answer.packed = given(call); }
    void give_back(const Call& call)
    {
        for (size_t slot = 0; slot < slot_count; slot++)
            if (call.lent[slot].used)
                memory[slot].give_back();
    }
    const Answer& made(const Call& call)
    {
        lend(call);
        run(call);
        give_back(call);
        return answer;
    }

    Outcome outcome() const
    {
        Outcome all{answer, {}};
        for (size_t slot = 0; slot < slot_count; slot++)
            all.left[slot] = memory[slot].bytes();
        return all;
    }
    Bytes left(Slot slot) const { return Bytes(memory[slot].bytes(), memory[slot].bytes() + memory[slot].length()); }

    Answer answer;
    std::array<LentMemory, slot_count> memory = {LentMemory(), LentMemory(), LentMemory(),
                                                 LentMemory(longest_text + 2 * LentMemory::page), LentMemory()};

private:
    std::uint64_t given(const Call& call) const
    {
        Byte* const block = pointer[block_slot];
        const size_t block_size = length[block_slot];
        switch (call.name) {
        case Name::open:
            return calls->open(call.n, call.v, pointer[table_slot], length[table_slot], block, block_size);
        case Name::take:
            return calls->take(block, block_size, pointer[packet_slot], length[packet_slot]);
        case Name::ask:
            return calls->ask(block, block_size, pointer[packet_slot], length[packet_slot]);
        case Name::write:
            return calls->write(block, block_size, pointer[out_slot], length[out_slot]);
        case Name::read_term:
            return calls->read_term(block, block_size, pointer[text_slot], length[text_slot], pointer[out_slot],
                                    length[out_slot]);
        case Name::write_term:
            return calls->write_term(block, block_size, call.joint, pointer[out_slot], length[out_slot]);
        default:
            return calls->house(pointer[table_slot], length[table_slot]);
        }
    }

    const paper::Calls* calls;
    std::array<Byte*, slot_count> pointer{};
    std::array<size_t, slot_count> length{};
};

inline std::string hex(const Byte* bytes, size_t from, size_t to)
{
    std::string text;
    char two[4];
    for (size_t i = from; i < to; i++) {
        std::snprintf(two, sizeof two, "%02x", bytes[i]);
        text += (i == from ? "" : " ") + std::string(two);
    }
    return text;
}

// A text as it stands, but for bytes that no term has: each of them is a dot.
inline std::string readable(const Byte* bytes, size_t size)
{
    std::string text(bytes, bytes + size);
    for (char& sign : text)
        if (sign < ' ' || sign > '~')
            sign = '.';
    return text;
}

// What a side did otherwise than expected in one call; empty if nothing.
inline std::string difference(const Call& call, const Side& tried, const Outcome& expected)
{
    std::string text;
    if (tried.answer != expected.answer)
        text += "  gave      " + tried.answer.text() + "\n  expected  " + expected.answer.text() + "\n";
    for (size_t slot = 0; slot < slot_count; slot++) {
        if (!call.lent[slot].used)
            continue;
        const LentMemory& memory = tried.memory[slot];
        if (!memory.guards_stand())
            text += std::string("  wrote outside the ") + slot_text[slot] + "\n";
        const Byte* has = memory.bytes();
        const Byte* wanted = expected.left[slot];
        const size_t length = memory.length();
        if (length == 0 || std::memcmp(has, wanted, length) == 0)
            continue;
        const size_t at = static_cast<size_t>(std::mismatch(has, has + length, wanted).first - has);
        const size_t to = std::min(at + 24, length);
        text += std::string("  ") + slot_text[slot] + " differs from offset " + std::to_string(at) +
                "\n    has       " + hex(has, at, to) + "\n    expected  " + hex(wanted, at, to) + "\n";
    }
    return text;
}
inline std::string difference(const Call& call, const Side& tried, const Side& plain)
{
    std::string text = difference(call, tried, plain.outcome());
    for (size_t slot = 0; slot < slot_count; slot++)
        if (call.lent[slot].used && !plain.memory[slot].guards_stand())
            text += std::string("  the plain version wrote outside the ") + slot_text[slot] + "\n";
    return text;
}

// The call itself, short enough to read: all of a small packet or text, the start of a large one, and of a block what
// it holds about the first joints.
inline std::string description(const Call& call)
{
    std::string text = std::string("  call ") + name_text[static_cast<size_t>(call.name)];
    if (call.name == Name::open)
        text += ", n " + std::to_string(call.n) + ", V " + std::to_string(call.v);
    if (call.name == Name::write_term)
        text += ", joint " + std::to_string(call.joint);
    text += "\n";
    for (size_t slot = 0; slot < slot_count; slot++) {
        const Lent& lent = call.lent[slot];
        if (!lent.used)
            continue;
        text += std::string("  ") + slot_text[slot] + ", " + std::to_string(lent.bytes.size()) + " bytes" +
                (lent.null ? ", null" : "") +
                (lent.lie == Lie::at_start ? ", at the start of its memory"
                 : lent.lie == Lie::at_end ? ", at the end of its memory"
                                           : "") +
                "\n";
        if (slot == packet_slot || slot == table_slot) {
            const size_t shown = std::min<size_t>(lent.bytes.size(), 128);
            for (size_t at = 0; at < shown; at += 32)
                text += "    " + hex(lent.bytes.data(), at, std::min(at + 32, shown)) + "\n";
            if (shown < lent.bytes.size())
                text += "    ...\n";
        }
        if (slot == text_slot) {
            const size_t shown = std::min<size_t>(lent.bytes.size(), 100);
            text += "    " + readable(lent.bytes.data(), shown) + (shown < lent.bytes.size() ? "..." : "") + "\n";
        }
        if (slot == block_slot && call.name != Name::open && lent.bytes.size() == block_length) {
            const Byte* block = lent.bytes.data();
            const size_t joints = std::min<size_t>(block[1], 16);
            text += "    n " + std::to_string(block[0]) + ", V " + std::to_string(block[1]) + "\n    classes " +
                    hex(block, classes_at, classes_at + joints) + "\n    kinds   " +
                    hex(block, kinds_at, kinds_at + joints) + "\n";
            for (size_t joint = 0; joint < std::min<size_t>(joints, 8); joint++) {
                const size_t row = links_at + joint * links_per_joint;
                text += "    links   " + hex(block, row, row + links_per_joint) + "\n";
            }
        }
    }
    return text;
}

// Makes a call on both sides; tells what differs, and gives whether nothing does.
inline bool agree(const std::string& where, const Call& call, Side& tried, Side& plain)
{
    plain.made(call);
    tried.made(call);
    const std::string differs = difference(call, tried, plain);
    if (!differs.empty())
        std::printf("%s:\n%s%s", where.c_str(), description(call).c_str(), differs.c_str());
    return differs.empty();
}

} // namespace host

#endif
