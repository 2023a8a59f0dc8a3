// What a hand makes of documents 01 and 02 that cares for speed alone: the same checks at each call, sixteen bytes at
// once (SSE2, which every x86-64 has), one mask of 64 bits a kind, facts taken in place in a working copy, links
// renumbered once at the end; terms gone through once. Held against the plain version by tests/host (see bench/run).

#include "fast.hpp"

#include "layout.hpp"

#include <cstring>
#include <emmintrin.h>

namespace fast {
namespace {

using namespace layout;
using std::uint32_t;
using std::uint64_t;

constexpr uint64_t packed(uint64_t number, uint64_t place = 0, uint64_t third = 0)
{
    return number + (third << 8) + (place << 32);
}

// ----------------------------------------------------------------------------------------------------- sixteen bytes

__m128i load(const Byte* from) { return _mm_loadu_si128(reinterpret_cast<const __m128i*>(from)); }
void store(Byte* to, __m128i x) { _mm_storeu_si128(reinterpret_cast<__m128i*>(to), x); }
__m128i all_bytes(size_t x) { return _mm_set1_epi8(static_cast<char>(x)); }
uint64_t bits(__m128i mask) { return static_cast<uint32_t>(_mm_movemask_epi8(mask)); }
__m128i at_most(__m128i x, __m128i most) { return _mm_cmpeq_epi8(_mm_min_epu8(x, most), x); }
__m128i rising(size_t from)
{
    return _mm_add_epi8(_mm_set_epi8(15, 14, 13, 12, 11, 10, 9, 8, 7, 6, 5, 4, 3, 2, 1, 0), all_bytes(from));
}

// A bit for each of the first 64 bytes.
template <class Test> uint64_t each_of_64(const Byte* from, Test test)
{
    uint64_t found = 0;
    for (size_t i = 0; i < 64; i += 16)
        found |= bits(test(load(from + i), i)) << i;
    return found;
}

constexpr uint64_t first_bits(size_t count) { return count == 64 ? ~uint64_t{0} : (uint64_t{1} << count) - 1; }
size_t lowest(uint64_t set) { return static_cast<size_t>(__builtin_ctzll(set)); }
size_t count_of(uint64_t set) { return static_cast<size_t>(__builtin_popcountll(set)); }

bool all_zero(const Byte* from, size_t size)
{
    __m128i any = _mm_setzero_si128();
    size_t i = 0;
    for (; i + 64 <= size; i += 64)
        any = _mm_or_si128(any, _mm_or_si128(_mm_or_si128(load(from + i), load(from + i + 16)),
                                             _mm_or_si128(load(from + i + 32), load(from + i + 48))));
    for (; i + 16 <= size; i += 16)
        any = _mm_or_si128(any, load(from + i));
    Byte rest = 0;
    for (; i < size; i++)
        rest |= from[i];
    return rest == 0 && bits(_mm_cmpeq_epi8(any, _mm_setzero_si128())) == 0xffff;
}

// -------------------------------------------------------------------------------------------------------- kind tables

struct House {
    Byte table[house_length];
    House() { paper::house(table, house_length); }
};
const House house;

bool is_house_table(const Byte* table, size_t n)
{
    return n == house_kind_count && std::memcmp(table, house.table, house_length) == 0;
}

// The kinds that row i says are under i.
uint64_t mask_of(const Byte* row, size_t n)
{
    uint64_t mask = 0;
    if (n < 16) {
        for (size_t k = 0; k < n; k++)
            mask |= static_cast<uint64_t>(row[k] == k) << k;
        return mask;
    }
    for (size_t k = 0; k < n; k += 16) {
        const size_t at = k + 16 <= n ? k : n - 16;
        mask |= bits(_mm_cmpeq_epi8(load(row + at), rising(at))) << at;
    }
    return mask;
}

// Where every meet has the mask that its two kinds have in common, meet is associative; two kinds with one mask would
// each be under the other, and so be one kind.
bool is_lawful(const Byte* table, size_t n)
{
    if (is_house_table(table, n))
        return true;
    Byte most = 0;
    for (size_t at = 0; at < n * n; at++)
        most = most < table[at] ? table[at] : most;
    if (most >= n)
        return false;
    Byte off = 0;
    for (size_t i = 0; i < n; i++)
        off |= static_cast<Byte>((table[i * n + i] ^ i) | table[i] | (table[n + i] ^ i));
    if (off != 0)
        return false;
    uint64_t masks[most_kinds];
    for (size_t i = 0; i < n; i++)
        masks[i] = mask_of(table + i * n, n);
    uint64_t wrong = 0;
    for (size_t i = 0; i < n; i++)
        for (size_t j = 0; j < i; j++) {
            const Byte meet = table[i * n + j];
            wrong |= static_cast<uint64_t>(meet ^ table[j * n + i]) | (masks[meet] ^ (masks[i] & masks[j]));
        }
    return wrong == 0;
}

// The reply to a table that is not lawful: what it breaks first.
uint64_t table_reply(const Byte* table, size_t n)
{
    for (size_t at = 0; at < n * n; at++)
        if (table[at] >= n)
            return packed(2, at);
    for (size_t i = 0; i < n; i++) {
        if (table[i * n + i] != i)
            return packed(3, i * n + i);
        if (table[i] != 0)
            return packed(3, i);
        if (table[n + i] != i)
            return packed(3, n + i);
    }
    for (size_t i = 0; i < n; i++)
        for (size_t j = 0; j < n; j++)
            if (table[i * n + j] != table[j * n + i])
                return packed(3, i * n + j);
    // With the laws before it kept, a triple that holds 0 or 1 or has its first behind its last tells nothing new.
    for (size_t i = 2; i < n; i++)
        for (size_t j = 2; j < n; j++) {
            const Byte* row = table + table[i * n + j] * n;
            for (size_t k = i + 1; k < n; k++)
                if (row[k] != table[i * n + table[j * n + k]])
                    return packed(3, i * n + j);
        }
    return packed(0);
}

// ------------------------------------------------------------------------------------------------------ session block

// The classes' smallest joints, among v.
uint64_t ends_of(const Byte* block, size_t v)
{
    return first_bits(v) &
           each_of_64(block + classes_at, [](__m128i x, size_t i) { return _mm_cmpeq_epi8(x, rising(i)); });
}

uint64_t zeros_of(const Byte* from)
{
    return each_of_64(from, [](__m128i x, size_t) { return _mm_cmpeq_epi8(x, _mm_setzero_si128()); });
}

bool links_fit(const Byte* block, size_t v, uint64_t ends)
{
    const Byte* rows = block + links_at;
    if (ends == first_bits(v)) {
        __m128i most = _mm_setzero_si128(); // of each link + 1, which is 0 for one that is not known
        for (size_t j = 0; j < v; j++)
            most = _mm_max_epu8(most, _mm_add_epi8(load(rows + j * links_per_joint), all_bytes(1)));
        return bits(at_most(most, all_bytes(v))) == 0xffff;
    }
    Byte no_end[256];
    std::memset(no_end, 1, sizeof no_end);
    no_end[not_known] = 0;
    for (size_t j = 0; j < v; j++)
        no_end[j] = !(ends >> j & 1);
    Byte off = 0;
    for (size_t j = 0; j < v; j++) {
        const Byte* row = rows + j * links_per_joint;
        if (ends >> j & 1)
            for (size_t l = 0; l < links_per_joint; l++)
                off |= no_end[row[l]];
        else
            off |= bits(_mm_cmpeq_epi8(load(row), _mm_setzero_si128())) != 0xffff;
    }
    return off == 0;
}

bool is_well_formed(const Byte* block)
{
    const size_t n = block[0];
    const size_t v = block[1];
    if (n < 2 || n > most_kinds || v < 1 || v > most_joints)
        return false;
    const uint64_t ends = ends_of(block, v);
    if ((zeros_of(block + classes_at) | first_bits(v)) != ~uint64_t{0})
        return false;
    for (uint64_t others = first_bits(v) & ~ends; others != 0; others &= others - 1) {
        const size_t j = lowest(others);
        const size_t its_class = block[classes_at + j];
        if (its_class >= j || !(ends >> its_class & 1))
            return false;
    }
    const auto is_kind = [n](__m128i x, size_t) { return at_most(x, all_bytes(n - 1)); };
    if (zeros_of(block + kinds_at) != ~ends || each_of_64(block + kinds_at, is_kind) != ~uint64_t{0})
        return false;
    return links_fit(block, v, ends) &&
           all_zero(block + links_at + v * links_per_joint, (most_joints - v) * links_per_joint) &&
           all_zero(block + table_at + n * n, most_kinds * most_kinds - n * n) && is_lawful(block + table_at, n);
}

uint64_t block_reply(const Byte* block, size_t size)
{
    if (size != block_length)
        return packed(1);
    return is_well_formed(block) ? packed(0) : packed(4);
}

// ------------------------------------------------------------------------------------------------------------ packets

struct Packet {
    const Byte* ties;
    size_t tie_count;
    const Byte* facts;
    size_t fact_count;
    size_t joints;
};

// The most that the four bytes of a fact may be, as one number.
struct Most {
    uint32_t of_tag[4];
    Most(size_t n, size_t joints)
    {
        const auto most = [](size_t a, size_t x, size_t y) {
            return static_cast<uint32_t>(0xff | a << 8 | x << 16 | y << 24);
        };
        of_tag[0] = 0;
        of_tag[1] = most(joints - 1, n - 1, 0);
        of_tag[2] = most(joints - 1, joints - 1, 0);
        of_tag[3] = most(joints - 1, links_per_joint - 1, joints - 1);
    }
};

bool fact_fits(const Byte* fact, const Most& most)
{
    if (fact[0] < 1 || fact[0] > 3)
        return false;
    const uint32_t limits = most.of_tag[fact[0]];
    return fact[1] <= (limits >> 8 & 0xff) && fact[2] <= (limits >> 16 & 0xff) && fact[3] <= limits >> 24;
}

bool facts_fit(const Byte* facts, size_t count, const Most& most)
{
    const auto wide = [](uint32_t x) { return _mm_set1_epi32(static_cast<int>(x)); };
    __m128i good = _mm_set1_epi8(-1);
    size_t i = 0;
    for (; i + 4 <= count; i += 4) {
        const __m128i four = load(facts + i * fact_length);
        const __m128i tags = _mm_and_si128(four, wide(0xff));
        const __m128i is_1 = _mm_cmpeq_epi32(tags, wide(1));
        const __m128i is_2 = _mm_cmpeq_epi32(tags, wide(2));
        const __m128i is_3 = _mm_cmpeq_epi32(tags, wide(3));
        const __m128i limits = _mm_or_si128(
            _mm_and_si128(is_1, wide(most.of_tag[1])),
            _mm_or_si128(_mm_and_si128(is_2, wide(most.of_tag[2])), _mm_and_si128(is_3, wide(most.of_tag[3]))));
        const __m128i known = _mm_or_si128(is_1, _mm_or_si128(is_2, is_3));
        good = _mm_and_si128(good, _mm_and_si128(known, at_most(four, limits)));
    }
    bool rest = true;
    for (; i < count; i++)
        rest &= fact_fits(facts + i * fact_length, most);
    return rest && bits(good) == 0xffff;
}

uint64_t bad_part(const Byte* bytes, const Packet& packet, size_t n, size_t v)
{
    for (size_t i = 0; i < packet.tie_count; i++)
        if (packet.ties[i * tie_length] >= packet.joints || packet.ties[i * tie_length + 1] >= v)
            return packed(9, head_length + i * tie_length);
    const Most most(n, packet.joints);
    if (facts_fit(packet.facts, packet.fact_count, most))
        return packed(0);
    const Byte* fact = packet.facts;
    while (fact_fits(fact, most))
        fact += fact_length;
    return packed(9, static_cast<size_t>(fact - bytes));
}

enum class Purpose : Byte { facts = 1, rule = 2 };

uint64_t packet_reply(const Byte* bytes, size_t size, Purpose purpose, size_t n, size_t v, Packet& packet)
{
    if (size < head_length)
        return packed(5);
    const size_t length = size_t{bytes[0]} * 256 + bytes[1];
    if (size != length + 2)
        return packed(5);
    if (bytes[2] != 1)
        return packed(6, 2);
    if (bytes[3] != static_cast<Byte>(purpose))
        return packed(7, 3);
    const size_t ties = bytes[4];
    const bool is_rule = purpose == Purpose::rule;
    if (is_rule ? ties < 1 || ties > most_ties : ties != 0)
        return packed(7, 4);
    const size_t joints = bytes[5];
    if (is_rule ? joints < 1 || joints > most_rule_joints : joints != v)
        return packed(7, 5);
    const size_t before = 4 + ties * tie_length;
    if (length < before || (length - before) % fact_length != 0 || (length - before) / fact_length > most_facts)
        return packed(8);
    const Byte* ties_from = bytes + head_length;
    packet = {ties_from, ties, ties_from + ties * tie_length, (length - before) / fact_length, joints};
    return bad_part(bytes, packet, n, v);
}

// The smallest joint of a rule that is not reached, or how many there are.
size_t first_not_reached(const Packet& rule)
{
    uint32_t leads[most_rule_joints] = {};
    for (size_t i = 0; i < rule.fact_count; i++) {
        const Byte* fact = rule.facts + i * fact_length;
        if (fact[0] == 3)
            leads[fact[1]] |= uint32_t{1} << fact[3];
    }
    uint32_t reached = 0;
    for (size_t i = 0; i < rule.tie_count; i++)
        reached |= uint32_t{1} << rule.ties[i * tie_length];
    for (uint32_t fresh = reached; fresh != 0;) {
        const uint32_t more = leads[__builtin_ctz(fresh)] & ~reached;
        reached |= more;
        fresh = (fresh & (fresh - 1)) | more;
    }
    const size_t first = reached == ~uint32_t{0} ? most_rule_joints : static_cast<size_t>(__builtin_ctz(~reached));
    return first < rule.joints ? first : rule.joints;
}

// ------------------------------------------------------------------------------------------------------- solved form

constexpr size_t most_nodes = most_joints + most_rule_joints;

// The nodes are the rig's joints and, behind them, a rule's. A link may name a joint that has been joined since: where
// its class is wanted it is looked up.
class Solver {
public:
    // The rig's joints, and so many free nodes behind them.
    Solver(const Byte* block, size_t free)
        : table(block + table_at), n(block[0]), rig_joints(block[1]), nodes(rig_joints + free)
    {
        std::memcpy(classes, block + classes_at, most_joints);
        std::memcpy(kinds, block + kinds_at, most_joints);
        std::memcpy(rows, block + links_at, rig_joints * links_per_joint);
        for (size_t j = rig_joints; j < nodes; j++) {
            classes[j] = static_cast<Byte>(j);
            kinds[j] = kind_any;
            store(rows + j * links_per_joint, all_bytes(not_known));
        }
    }

    size_t joins = 0;

    bool add(const Byte* fact, size_t first)
    {
        const Byte a = classes[first + fact[1]];
        if (fact[0] == 1) {
            kinds[a] = meet(kinds[a], fact[2]);
            return kinds[a] != 0;
        }
        if (fact[0] == 2)
            return make_one(a, classes[first + fact[2]]);
        Byte& link = rows[a * links_per_joint + fact[2]];
        if (link == not_known) {
            link = classes[first + fact[3]];
            return true;
        }
        return make_one(link, classes[first + fact[3]]);
    }

    bool make_one(Byte x, Byte y)
    {
        if (classes[x] == classes[y])
            return true;
        // At most one join a node, each of which finds at most 16 pairs.
        Byte pairs[most_nodes * links_per_joint + 1][2];
        size_t waiting = 0;
        const auto add_pair = [&](Byte left, Byte right) {
            pairs[waiting][0] = left;
            pairs[waiting][1] = right;
            waiting++;
        };
        for (add_pair(x, y); waiting > 0;) {
            waiting--;
            Byte a = classes[pairs[waiting][0]];
            Byte b = classes[pairs[waiting][1]];
            if (a == b)
                continue;
            if (b < a)
                std::swap(a, b);
            kinds[a] = meet(kinds[a], kinds[b]);
            kinds[b] = 0;
            if (kinds[a] == 0)
                return false;
            joins++;
            renumber(b, a);
            join_rows(rows + a * links_per_joint, rows + b * links_per_joint, add_pair);
        }
        return true;
    }

    // Whether nothing new is said of the rig, and each rule joint is one with one of its joints. A link of the rig that
    // was known leads where it did, if no class of the rig has changed.
    bool says_nothing_new(const Byte* block) const
    {
        for (size_t j = rig_joints; j < nodes; j++)
            if (classes[j] >= rig_joints)
                return false;
        return std::memcmp(classes, block + classes_at, rig_joints) == 0 &&
               std::memcmp(kinds, block + kinds_at, rig_joints) == 0 &&
               std::memcmp(rows, block + links_at, rig_joints * links_per_joint) == 0;
    }

    void store_into(Byte* block)
    {
        if (joins != 0)
            for (size_t j = 0; j < rig_joints; j++)
                if (classes[j] == j)
                    for (size_t l = 0; l < links_per_joint; l++) {
                        Byte& link = rows[j * links_per_joint + l];
                        link = link == not_known ? link : classes[link];
                    }
        std::memcpy(block + classes_at, classes, rig_joints);
        std::memcpy(block + kinds_at, kinds, rig_joints);
        std::memcpy(block + links_at, rows, rig_joints * links_per_joint);
    }

private:
    const Byte* table;
    size_t n;
    size_t rig_joints;
    size_t nodes;
    Byte classes[most_nodes];
    Byte kinds[most_nodes];
    Byte rows[most_nodes * links_per_joint];

    Byte meet(Byte s, Byte t) const { return table[s * n + t]; }

    void renumber(Byte from, Byte to)
    {
        const __m128i old_number = all_bytes(from);
        const __m128i new_number = all_bytes(to);
        for (size_t j = 0; j < nodes; j += 16) {
            const __m128i x = load(classes + j);
            const __m128i is_old = _mm_cmpeq_epi8(x, old_number);
            store(classes + j, _mm_or_si128(_mm_and_si128(is_old, new_number), _mm_andnot_si128(is_old, x)));
        }
    }

    template <class AddPair> void join_rows(Byte* a, Byte* b, AddPair add_pair)
    {
        const __m128i p = load(a);
        const __m128i q = load(b);
        const __m128i p_open = _mm_cmpeq_epi8(p, all_bytes(not_known));
        const __m128i q_open = _mm_cmpeq_epi8(q, all_bytes(not_known));
        for (uint64_t both = ~bits(_mm_or_si128(p_open, q_open)) & 0xffff; both != 0; both &= both - 1) {
            const size_t l = lowest(both);
            add_pair(a[l], b[l]);
        }
        store(a, _mm_min_epu8(p, _mm_or_si128(q, _mm_andnot_si128(p_open, all_bytes(255)))));
        store(b, _mm_setzero_si128());
    }
};

// -------------------------------------------------------------------------------------------------------------- calls

uint64_t open(uint64_t n, uint64_t v, const Byte* table, size_t table_size, Byte* block, size_t block_size)
{
    if (n < 2 || n > most_kinds || v < 1 || v > most_joints || table_size != n * n || block_size != block_length)
        return packed(1);
    if (!is_lawful(table, n))
        return table_reply(table, n);
    block[0] = static_cast<Byte>(n);
    block[1] = static_cast<Byte>(v);
    for (size_t j = 0; j < most_joints; j += 16) {
        const __m128i is_joint = at_most(rising(j), all_bytes(v - 1));
        store(block + classes_at + j, _mm_and_si128(is_joint, rising(j)));
        store(block + kinds_at + j, _mm_and_si128(is_joint, all_bytes(kind_any)));
    }
    std::memset(block + links_at, not_known, v * links_per_joint);
    std::memset(block + links_at + v * links_per_joint, 0, (most_joints - v) * links_per_joint);
    std::memcpy(block + table_at, table, table_size);
    std::memset(block + table_at + table_size, 0, most_kinds * most_kinds - table_size);
    return packed(0);
}

uint64_t take(Byte* block, size_t block_size, const Byte* bytes, size_t size)
{
    if (const uint64_t refusal = block_reply(block, block_size))
        return refusal;
    Packet packet;
    if (const uint64_t refusal = packet_reply(bytes, size, Purpose::facts, block[0], block[1], packet))
        return refusal;
    Solver solver(block, 0);
    for (size_t i = 0; i < packet.fact_count; i++)
        if (!solver.add(packet.facts + i * fact_length, 0))
            return packed(11, head_length + i * fact_length);
    solver.store_into(block);
    return packed(0, 0, solver.joins);
}

uint64_t ask(const Byte* block, size_t block_size, const Byte* bytes, size_t size)
{
    enum Verdict { applies = 1, ruled_out = 2, waits = 3 };
    if (const uint64_t refusal = block_reply(block, block_size))
        return refusal;
    Packet rule;
    if (const uint64_t refusal = packet_reply(bytes, size, Purpose::rule, block[0], block[1], rule))
        return refusal;
    const size_t not_reached = first_not_reached(rule);
    if (not_reached < rule.joints)
        return packed(10, not_reached);
    const size_t v = block[1];
    Solver solver(block, rule.joints);
    for (size_t i = 0; i < rule.tie_count; i++)
        if (!solver.make_one(static_cast<Byte>(v + rule.ties[i * tie_length]), rule.ties[i * tie_length + 1]))
            return packed(0, 0, ruled_out);
    for (size_t i = 0; i < rule.fact_count; i++)
        if (!solver.add(rule.facts + i * fact_length, v))
            return packed(0, 0, ruled_out);
    return packed(0, 0, solver.says_nothing_new(block) ? applies : waits);
}

// A bit for each known link of a row.
uint64_t known_links(const Byte* row) { return ~bits(_mm_cmpeq_epi8(load(row), all_bytes(not_known))) & 0xffff; }

uint64_t write(const Byte* block, size_t block_size, Byte* out, size_t out_size)
{
    if (const uint64_t refusal = block_reply(block, block_size))
        return refusal;
    const size_t v = block[1];
    const uint64_t ends = ends_of(block, v);
    const auto is_any = [](__m128i x, size_t) { return _mm_cmpeq_epi8(x, all_bytes(kind_any)); };
    const uint64_t any = each_of_64(block + kinds_at, is_any);
    size_t facts = v - count_of(ends & any);
    for (uint64_t left = ends; left != 0; left &= left - 1)
        facts += count_of(known_links(block + links_at + lowest(left) * links_per_joint));
    const size_t used = head_length + facts * fact_length;
    if (out_size < used)
        return packed(12);
    Byte* to = out + head_length;
    const auto put = [&to](size_t tag, size_t a, size_t x, size_t y) {
        const uint32_t fact = static_cast<uint32_t>(tag | a << 8 | x << 16 | y << 24);
        std::memcpy(to, &fact, fact_length);
        to += fact_length;
    };
    for (size_t j = 0; j < v; j++) {
        if (!(ends >> j & 1)) {
            put(2, j, block[classes_at + j], 0);
            continue;
        }
        if (!(any >> j & 1))
            put(1, j, block[kinds_at + j], 0);
        const Byte* row = block + links_at + j * links_per_joint;
        for (uint64_t known = known_links(row); known != 0; known &= known - 1)
            put(3, j, lowest(known), row[lowest(known)]);
    }
    out[0] = static_cast<Byte>((used - 2) / 256);
    out[1] = static_cast<Byte>((used - 2) % 256);
    out[2] = 1;
    out[3] = static_cast<Byte>(Purpose::facts);
    out[4] = 0;
    out[5] = static_cast<Byte>(v);
    return packed(0, 0, used);
}

uint64_t house_table(Byte* table, size_t size)
{
    if (size != house_length)
        return packed(1);
    std::memcpy(table, house.table, house_length);
    return packed(0);
}

// -------------------------------------------------------------------------------------------------------------- terms

constexpr size_t deepest_bracket = deepest_term - 1;

// The facts of a term, as many as a packet holds, and the first number that is out of range.
struct Said {
    uint32_t facts[most_facts];
    size_t count = 0;
    const Byte* out_of_range = nullptr;

    void say(size_t tag, size_t a, size_t x, size_t y)
    {
        if (count < most_facts)
            facts[count] = static_cast<uint32_t>(tag | a << 8 | x << 16 | y << 24);
        count++;
    }
};

// Reads on from `at`, which is left where nothing can continue, if anywhere.
class Reader {
public:
    Reader(const Byte* from, const Byte* behind) : at(from), end(behind) {}

    bool has(Byte sign)
    {
        if (at == end || *at != sign)
            return false;
        at++;
        return true;
    }

    // Of one to three digits, with no zero before others; a number out of range is noted.
    bool number(size_t bound, size_t& value, Said& said)
    {
        const Byte* const first = at;
        if (at == end || is_no_digit(*at))
            return false;
        value = digit(*at++);
        if (value != 0)
            for (const Byte* const last = first + 3; at != last && at != end && !is_no_digit(*at); at++)
                value = 10 * value + digit(*at);
        if (value >= bound && said.out_of_range == nullptr)
            said.out_of_range = first;
        return true;
    }

    const Byte* at;
    const Byte* const end;

private:
    static size_t digit(Byte sign) { return static_cast<size_t>(sign - '0'); }
    static bool is_no_digit(Byte sign) { return static_cast<Byte>(sign - '0') > 9; }
};

// Whether the text is a term; around it the joints of the terms that it stands in.
bool reads(Reader& reader, size_t n, size_t v, Said& said)
{
    size_t around[deepest_bracket];
    size_t brackets = 0, joint = 0, kind = 0, link = 0;
    for (;;) {
        if (!reader.has('@') || !reader.number(v, joint, said))
            return false;
        if (brackets > 0)
            said.say(3, around[brackets - 1], link, joint);
        if (reader.has(':')) {
            if (!reader.number(n, kind, said))
                return false;
            said.say(1, joint, kind, 0);
        }
        if (brackets < deepest_bracket && reader.has('(')) {
            around[brackets++] = joint;
        } else {
            while (brackets > 0 && reader.has(')'))
                brackets--;
            if (brackets == 0)
                return reader.at == reader.end;
            if (!reader.has(','))
                return false;
        }
        if (!reader.number(links_per_joint, link, said) || !reader.has('=') || !reader.has('>'))
            return false;
    }
}

uint64_t read_term(const Byte* block, size_t block_size, const Byte* text, size_t text_size, Byte* out, size_t out_size)
{
    if (text_size > longest_text)
        return packed(1);
    if (const uint64_t refusal = block_reply(block, block_size))
        return refusal;
    const size_t v = block[1];
    Reader reader(text, text + text_size);
    Said said;
    if (!reads(reader, block[0], v, said))
        return packed(20, static_cast<size_t>(reader.at - text));
    if (said.out_of_range != nullptr)
        return packed(21, static_cast<size_t>(said.out_of_range - text));
    if (said.count > most_facts)
        return packed(22);
    const size_t used = head_length + said.count * fact_length;
    if (out_size < used)
        return packed(12);
    const Byte head[head_length] = {static_cast<Byte>((used - 2) / 256),
                                    static_cast<Byte>((used - 2) % 256),
                                    1,
                                    static_cast<Byte>(Purpose::facts),
                                    0,
                                    static_cast<Byte>(v)};
    std::memcpy(out, head, head_length);
    std::memcpy(out + head_length, said.facts, said.count * fact_length);
    return packed(0, 0, used);
}

// Writes the terms of a tree, one inside the other, and notes the joints gone through.
class TermWriter {
public:
    explicit TermWriter(const Byte* its_block) : block(its_block) {}

    // False where the joint is come to a second time, or too deep.
    bool write(size_t joint, size_t brackets)
    {
        if (reached >> joint & 1)
            return false;
        reached |= uint64_t{1} << joint;
        put('@');
        put_number(joint);
        const Byte kind = block[kinds_at + joint];
        if (kind != kind_any) {
            put(':');
            put_number(kind);
        }
        const Byte* row = block + links_at + joint * links_per_joint;
        uint64_t known = known_links(row);
        if (known == 0)
            return true;
        if (brackets == deepest_bracket)
            return false;
        for (Byte before = '('; known != 0; known &= known - 1, before = ',') {
            put(before);
            put_number(lowest(known));
            put('=');
            put('>');
            if (!write(row[lowest(known)], brackets + 1))
                return false;
        }
        put(')');
        return true;
    }

    uint64_t reached = 0;
    // 64 terms @dd:dd, 63 arguments dd=>, two brackets and a comma at most for each.
    Byte text[most_joints * 6 + most_joints * 4 + most_joints * 3];
    size_t size = 0;

private:
    void put(Byte sign) { text[size++] = sign; }
    void put_number(size_t number)
    {
        if (number > 9)
            put(static_cast<Byte>('0' + number / 10));
        put(static_cast<Byte>('0' + number % 10));
    }

    const Byte* block;
};

// The joints that have a kind but 1 or a link; one that a link leads to is told by whoever has the link.
uint64_t told_joints(const Byte* block, size_t v)
{
    const auto is_any = [](__m128i x, size_t) { return _mm_cmpeq_epi8(x, all_bytes(kind_any)); };
    uint64_t told = ~each_of_64(block + kinds_at, is_any) & first_bits(v);
    for (size_t j = 0; j < v; j++)
        told |= static_cast<uint64_t>(known_links(block + links_at + j * links_per_joint) != 0) << j;
    return told;
}

uint64_t write_term(const Byte* block, size_t block_size, uint64_t joint, Byte* out, size_t out_size)
{
    if (const uint64_t refusal = block_reply(block, block_size))
        return refusal;
    const size_t v = block[1];
    if (joint >= v)
        return packed(21);
    TermWriter writer(block);
    if (ends_of(block, v) != first_bits(v) || !writer.write(static_cast<size_t>(joint), 0) ||
        (told_joints(block, v) & ~writer.reached) != 0)
        return packed(23);
    if (out_size < writer.size)
        return packed(12);
    std::memcpy(out, writer.text, writer.size);
    return packed(0, 0, writer.size);
}

} // namespace

const paper::Calls calls = {open, take, ask, write, house_table, read_term, write_term};

} // namespace fast
