// Vornulica for a C++17 host: the calls of vornulica.h, on a session that owns its block; packets built and read; what
// a block holds. What each call does, writes and replies stands in vornulica.h. Nothing here allocates or throws.
//
// The library itself answers every input, and its calls are proved. What stands here is code outside the proof, held
// against the library by tests.
#ifndef VORNULICA_HPP
#define VORNULICA_HPP

#include <array>
#include <cstddef>
#include <cstdint>
#include <optional>
#include <string_view>
#include <type_traits>
#include <utility>
#if defined(__has_include)
#if __has_include(<span>) && __cplusplus >= 202002L
#include <span>
#endif
#endif

#include "vornulica.h"
#include "vornulica_blocks.h"
#include "vornulica_packets.h"

namespace vornulica {

enum class Reply : std::uint8_t {
    done = RIG_DONE,
    bad_size = RIG_BAD_SIZE,
    no_kind = RIG_NO_KIND,
    law_broken = RIG_LAW_BROKEN,
    bad_block = RIG_BAD_BLOCK,
    bad_length = RIG_BAD_LENGTH,
    bad_version = RIG_BAD_VERSION,
    bad_header = RIG_BAD_HEADER,
    bad_count = RIG_BAD_COUNT,
    bad_part = RIG_BAD_PART,
    not_reached = RIG_NOT_REACHED,
    clash = RIG_CLASH,
    short_output = RIG_SHORT_OUTPUT,
    no_term = RIG_NO_TERM,
    out_of_range = RIG_OUT_OF_RANGE,
    term_too_large = RIG_TERM_TOO_LARGE,
    no_tree = RIG_NO_TREE,
};

enum class Verdict : std::uint8_t {
    applies = RIG_APPLIES,
    ruled_out = RIG_RULED_OUT,
    waits = RIG_WAITS,
};

// What a reply says, for people.
[[nodiscard]] inline const char* reply_text(Reply reply) noexcept
{
    return rig_reply_text(static_cast<unsigned>(reply));
}

// The house kinds. docs/KINDS.md has them with their parents.
enum class HouseKind : std::uint8_t {
    none = RIG_KIND_NONE,
    any = RIG_KIND_ANY,
    left = RIG_KIND_LEFT,
    right = RIG_KIND_RIGHT,
    centre = RIG_KIND_CENTRE,
    spine = RIG_KIND_SPINE,
    neck = RIG_KIND_NECK,
    head = RIG_KIND_HEAD,
    hips = RIG_KIND_HIPS,
    arm_part = RIG_KIND_ARM_PART,
    leg_part = RIG_KIND_LEG_PART,
    left_arm = RIG_KIND_LEFT_ARM,
    right_arm = RIG_KIND_RIGHT_ARM,
    left_leg = RIG_KIND_LEFT_LEG,
    right_leg = RIG_KIND_RIGHT_LEG,
    upper_arm = RIG_KIND_UPPER_ARM,
    forearm = RIG_KIND_FOREARM,
    hand = RIG_KIND_HAND,
    thigh = RIG_KIND_THIGH,
    shin = RIG_KIND_SHIN,
    foot = RIG_KIND_FOOT,
    left_upper_arm = RIG_KIND_LEFT_UPPER_ARM,
    right_upper_arm = RIG_KIND_RIGHT_UPPER_ARM,
    left_forearm = RIG_KIND_LEFT_FOREARM,
    right_forearm = RIG_KIND_RIGHT_FOREARM,
    left_hand = RIG_KIND_LEFT_HAND,
    right_hand = RIG_KIND_RIGHT_HAND,
    left_thigh = RIG_KIND_LEFT_THIGH,
    right_thigh = RIG_KIND_RIGHT_THIGH,
    left_shin = RIG_KIND_LEFT_SHIN,
    right_shin = RIG_KIND_RIGHT_SHIN,
    left_foot = RIG_KIND_LEFT_FOOT,
    right_foot = RIG_KIND_RIGHT_FOOT,
};

using Block = std::array<std::uint8_t, RIG_BLOCK_SIZE>;
using HouseTable = std::array<std::uint8_t, RIG_HOUSE_TABLE_SIZE>;

inline constexpr std::uint64_t house_kinds = RIG_HOUSE_KINDS;

// An output of this size is never too short for a solved form, nor for what a term says.
inline constexpr std::size_t max_facts_size = RIG_MAX_FACTS_SIZE;

// An output of this size is never too short for a term that is written.
inline constexpr std::size_t max_written_term_size = RIG_MAX_WRITTEN_TERM_SIZE;

// ------------------------------------------------------------------------------------------------------------- views
//
// Bytes may be kept, so it refuses a temporary that owns its bytes: they would be gone at the end of the line. A call
// only looks at its arguments while it runs, so BytesArgument, which is what the calls take, is made of a temporary as
// well:
//
//   session.open(house_kinds, 4, house_table());   // good
//   Bytes table = house_table();                   // refused by the compiler
//
// All of them take unsigned char, char and std::byte.

// Whether a temporary of this type only shows bytes that belong to someone else. A span type of your own may be named
// here: template <> inline constexpr bool vornulica::is_view<my::Span> = true;
template <class Type> inline constexpr bool is_view = false;
template <class Char, class Traits> inline constexpr bool is_view<std::basic_string_view<Char, Traits>> = true;
#if defined(__cpp_lib_span)
template <class Element, std::size_t extent> inline constexpr bool is_view<std::span<Element, extent>> = true;
#endif

class Bytes;
class BytesArgument;
class MutableBytes;
template <> inline constexpr bool is_view<Bytes> = true;
template <> inline constexpr bool is_view<MutableBytes> = true;

namespace detail {

static_assert(std::is_same_v<std::uint8_t, unsigned char>, "any object may be looked at as unsigned char");

template <class Type>
inline constexpr bool is_byte =
    std::is_same_v<Type, std::uint8_t> || std::is_same_v<Type, char> || std::is_same_v<Type, std::byte>;

// An array of constant chars may be a text in quotes, with a 0 behind it that nobody meant to lend.
template <class Element>
inline constexpr bool is_lent_array = is_byte<std::remove_const_t<Element>> && !std::is_same_v<Element, const char>;

// What data() points to, where there is a data() and a size(), as std::array, std::vector and std::span have them.
template <class Container, class = void> struct Lent {
    static constexpr bool to_read = false;
    static constexpr bool to_write = false;
};
template <class Container>
struct Lent<Container, std::void_t<decltype(*std::declval<Container&>().data()),
                                   decltype(std::size_t{std::declval<Container&>().size()})>> {
    using Element = std::remove_reference_t<decltype(*std::declval<Container&>().data())>;
    static constexpr bool to_read = is_byte<std::remove_const_t<Element>>;
    static constexpr bool to_write = is_byte<Element>;
};

// Of a deduced Container&&: whether it is there for longer than the line.
template <class Container>
inline constexpr bool outlasts = std::is_lvalue_reference_v<Container> || is_view<std::remove_cv_t<Container>>;

template <class Container>
using IfReads = std::enable_if_t<!std::is_same_v<std::decay_t<Container>, BytesArgument> &&
                                 Lent<std::remove_reference_t<Container>>::to_read>;
template <class Container> using IfWrites = std::enable_if_t<Lent<std::remove_reference_t<Container>>::to_write>;
template <class Container> using IfOutlasts = std::enable_if_t<outlasts<Container>>;

// As bytes: of unsigned char in constant expressions too.
template <class Element> constexpr auto* as_bytes(Element* data) noexcept
{
    using Byte = std::conditional_t<std::is_const_v<Element>, const std::uint8_t, std::uint8_t>;
    if constexpr (std::is_same_v<Element, Byte>)
        return data;
    else
        return reinterpret_cast<Byte*>(data);
}

} // namespace detail

// Bytes that belong to someone else and are only read. They must outlive the view.
class Bytes {
public:
    constexpr Bytes() noexcept = default;

    constexpr Bytes(const std::uint8_t* data, std::size_t size) noexcept : data_(data), size_(size) {}

    template <class Element, class = std::enable_if_t<detail::is_byte<Element>>>
    constexpr Bytes(const Element* data, std::size_t size) noexcept : data_(detail::as_bytes(data)), size_(size)
    {}

    template <class Element, std::size_t size, class = std::enable_if_t<detail::is_lent_array<Element>>>
    constexpr Bytes(Element (&array)[size]) noexcept : Bytes(array, size)
    {}
    template <class Element, std::size_t size> Bytes(const Element (&&array)[size]) = delete;

    // From whatever has data() and size(), unless it is a temporary that owns its bytes.
    template <class Container, class = detail::IfReads<Container>, class = detail::IfOutlasts<Container>>
    constexpr Bytes(Container&& container) noexcept : Bytes(container.data(), container.size())
    {}

    [[nodiscard]] constexpr const std::uint8_t* data() const noexcept { return data_; }
    [[nodiscard]] constexpr std::size_t size() const noexcept { return size_; }

private:
    const std::uint8_t* data_ = nullptr;
    std::size_t size_ = 0;
};

// What a call is lent to read. It is to be no variable, and no Bytes is made of it: it may hold a temporary's bytes.
class BytesArgument {
public:
    constexpr BytesArgument() noexcept = default;

    constexpr BytesArgument(const std::uint8_t* data, std::size_t size) noexcept : bytes_(data, size) {}

    template <class Element, class = std::enable_if_t<detail::is_byte<Element>>>
    constexpr BytesArgument(const Element* data, std::size_t size) noexcept : bytes_(data, size)
    {}

    template <class Element, std::size_t size, class = std::enable_if_t<detail::is_lent_array<Element>>>
    constexpr BytesArgument(Element (&array)[size]) noexcept : bytes_(array, size)
    {}

    // From whatever has data() and size().
    template <class Container, class = detail::IfReads<Container>>
    constexpr BytesArgument(Container&& container) noexcept : bytes_(container.data(), container.size())
    {}

    BytesArgument(const BytesArgument&) = delete;
    BytesArgument& operator=(const BytesArgument&) = delete;

    [[nodiscard]] constexpr const std::uint8_t* data() const noexcept { return bytes_.data(); }
    [[nodiscard]] constexpr std::size_t size() const noexcept { return bytes_.size(); }

private:
    Bytes bytes_;
};

// Bytes that belong to someone else and may be written. They must outlive the view.
class MutableBytes {
public:
    constexpr MutableBytes() noexcept = default;

    constexpr MutableBytes(std::uint8_t* data, std::size_t size) noexcept : data_(data), size_(size) {}

    template <class Element, class = std::enable_if_t<detail::is_byte<Element>>>
    constexpr MutableBytes(Element* data, std::size_t size) noexcept : data_(detail::as_bytes(data)), size_(size)
    {}

    template <class Element, std::size_t size, class = std::enable_if_t<detail::is_byte<Element>>>
    constexpr MutableBytes(Element (&array)[size]) noexcept : MutableBytes(array, size)
    {}

    // From whatever has data() and size(). No temporary that owns its bytes: what is written into one would be lost.
    template <class Container, class = detail::IfWrites<Container>, class = detail::IfOutlasts<Container>>
    constexpr MutableBytes(Container&& container) noexcept : MutableBytes(container.data(), container.size())
    {}

    [[nodiscard]] constexpr std::uint8_t* data() const noexcept { return data_; }
    [[nodiscard]] constexpr std::size_t size() const noexcept { return size_; }

private:
    std::uint8_t* data_ = nullptr;
    std::size_t size_ = 0;
};

// ------------------------------------------------------------------------------------------------------------ joints

namespace detail {

template <class Type>
inline constexpr bool is_number = (std::is_integral_v<Type> || std::is_enum_v<Type>)&&!std::is_same_v<Type, bool> &&
                                  std::is_convertible_v<Type, std::uintmax_t>;

// A number as the one byte that a packet has for it. What does not fit becomes 255 and not some smaller number: no
// joint, kind, link or joint count may be 255, so that the library refuses it as out of range.
class OneByte {
public:
    // A negative number becomes a large one, and so 255.
    template <class Type, class = std::enable_if_t<is_number<Type>>>
    constexpr OneByte(Type number) noexcept : number_(255)
    {
        const auto wide = static_cast<std::uintmax_t>(number);
        if (wide < 255)
            number_ = static_cast<std::uint8_t>(wide);
    }

    [[nodiscard]] constexpr std::uint8_t number() const noexcept { return number_; }

private:
    std::uint8_t number_;
};

} // namespace detail

// A joint of the rig or of a rule: two types, so that neither can be taken for the other, nor a number for either.
template <class Owner> class Joint {
public:
    constexpr explicit Joint(detail::OneByte number) noexcept : number_(number.number()) {}

    [[nodiscard]] constexpr std::uint8_t number() const noexcept { return number_; }

    friend constexpr bool operator==(Joint a, Joint b) noexcept { return a.number_ == b.number_; }
    friend constexpr bool operator!=(Joint a, Joint b) noexcept { return a.number_ != b.number_; }

private:
    std::uint8_t number_;
};
using RigJoint = Joint<class TheRig>;
using RuleJoint = Joint<class TheRule>;

// The one place that holds both: the rule's joint is to be the rig's.
struct Tie {
    RuleJoint rule;
    RigJoint rig;
};

// A kind of any table, by its number, or of the house, by its name.
class Kind {
public:
    template <class Type, class = std::enable_if_t<detail::is_number<Type>>>
    constexpr Kind(Type number) noexcept : number_(detail::OneByte(number).number())
    {}
    constexpr Kind(HouseKind kind) noexcept : number_(static_cast<std::uint8_t>(kind)) {}

    [[nodiscard]] constexpr std::uint8_t number() const noexcept { return number_; }

private:
    std::uint8_t number_;
};

// -------------------------------------------------------------------------------------------------- packets, building

enum class Building : std::uint8_t {
    fits = RIG_FITS,
    buffer_full = RIG_BUFFER_FULL,
    too_many_ties = RIG_TOO_MANY_TIES,
    too_many_facts = RIG_TOO_MANY_FACTS,
};

// Builds a packet in a lent buffer, and is lent to a call as the packet that it has built. It lays no more than fits
// and cuts nothing off: once something did not fit, the state stays what it became, and the packet is empty, which the
// library refuses with Reply::bad_length. So a host that looks at the answers of its calls need not look at the state.
//
//   RulePacket<2> rule(2);   // two joints of its own, room for two facts
//   rule.tie(RuleJoint(0), RigJoint(0)).link(RuleJoint(0), 1, RuleJoint(1)).kind(RuleJoint(1), HouseKind::left);
//   const auto answer = session.ask(rule);
template <class OwnJoint> class PacketBuilder {
    static constexpr bool is_rule = std::is_same_v<OwnJoint, RuleJoint>;

public:
    // For facts the session's joints, for a rule the number of its own.
    PacketBuilder(MutableBytes room, detail::OneByte joints) noexcept
        : built_(rig_builder_begin(room.data(), room.size(), is_rule ? RIG_RULE : RIG_FACTS, joints.number()))
    {}

    // Two builders of one buffer would build into each other.
    PacketBuilder(const PacketBuilder&) = delete;
    PacketBuilder& operator=(const PacketBuilder&) = delete;

    // The joint has the kind.
    PacketBuilder& kind(OwnJoint joint, Kind kind) & noexcept
    {
        rig_builder_fact(&built_, RIG_HAS_KIND, joint.number(), kind.number(), 0);
        return *this;
    }

    // The two joints are one.
    PacketBuilder& same(OwnJoint a, OwnJoint b) & noexcept
    {
        rig_builder_fact(&built_, RIG_IS_ONE_WITH, a.number(), b.number(), 0);
        return *this;
    }

    // The link of the one joint leads to the other.
    PacketBuilder& link(OwnJoint from, detail::OneByte link, OwnJoint to) & noexcept
    {
        rig_builder_fact(&built_, RIG_LINK_LEADS, from.number(), link.number(), to.number());
        return *this;
    }

    // Of a rule alone: its joint is to be this joint of the rig. At any time; ties come to stand before the facts.
    template <class Own = OwnJoint, class = std::enable_if_t<std::is_same_v<Own, RuleJoint>>>
    PacketBuilder& tie(RuleJoint joint, RigJoint to) & noexcept
    {
        rig_builder_tie(&built_, rig_tie{{joint.number()}, {to.number()}});
        return *this;
    }

    [[nodiscard]] Building state() const noexcept { return static_cast<Building>(built_.state); }

    // The packet as it stands; of size 0 once something did not fit.
    [[nodiscard]] const std::uint8_t* data() const noexcept { return built_.bytes; }
    [[nodiscard]] std::size_t size() const noexcept { return built_.size; }

protected:
    // What the other has built, whose bytes lie here by now.
    PacketBuilder(const PacketBuilder& other, std::uint8_t* bytes) noexcept : built_(other.built_)
    {
        built_.bytes = bytes;
    }
    void become(const PacketBuilder& other, std::uint8_t* bytes) noexcept
    {
        built_ = other.built_;
        built_.bytes = bytes;
    }

private:
    rig_builder built_;
};
using FactsBuilder = PacketBuilder<RigJoint>;
using RuleBuilder = PacketBuilder<RuleJoint>;

namespace detail {

template <std::size_t size> struct Room {
    std::array<std::uint8_t, size> bytes{};
};

} // namespace detail

// Builds a packet in bytes of its own. A copy is a packet of its own.
template <class OwnJoint, std::size_t size>
class OwnedPacket : private detail::Room<size>, public PacketBuilder<OwnJoint> {
    using Room = detail::Room<size>;
    using Builder = PacketBuilder<OwnJoint>;

public:
    explicit OwnedPacket(detail::OneByte joints) noexcept : Builder(MutableBytes(Room::bytes), joints) {}

    OwnedPacket(const OwnedPacket& other) noexcept : Room(other), Builder(other, Room::bytes.data()) {}
    OwnedPacket& operator=(const OwnedPacket& other) noexcept
    {
        Room::operator=(other);
        Builder::become(other, Room::bytes.data());
        return *this;
    }
};

// With room for so many facts, and in a rule for so many ties beside them.
template <std::size_t facts = RIG_MAX_FACTS>
using FactsPacket = OwnedPacket<RigJoint, RIG_HEAD_SIZE + RIG_FACT_SIZE * facts>;
template <std::size_t facts = RIG_MAX_FACTS, std::size_t ties = RIG_MAX_TIES>
using RulePacket = OwnedPacket<RuleJoint, RIG_HEAD_SIZE + RIG_TIE_SIZE * ties + RIG_FACT_SIZE * facts>;

// --------------------------------------------------------------------------------------------------- packets, reading

enum class Purpose : std::uint8_t {
    facts = RIG_FACTS,
    rule = RIG_RULE,
};

enum class Tag : std::uint8_t {
    has_kind = RIG_HAS_KIND,
    is_one_with = RIG_IS_ONE_WITH,
    link_leads = RIG_LINK_LEADS,
};

// The form is the lengths alone, told as in vornulica_packets.h.
enum class Form : std::uint8_t {
    good = RIG_FORM_GOOD,
    under_6_bytes = RIG_FORM_SHORT,
    other_length = RIG_FORM_LENGTH,
    tie_cut = RIG_FORM_TIE_CUT,
    fact_cut = RIG_FORM_FACT_CUT,
    too_many_facts = RIG_FORM_TOO_MANY,
};

// A fact as it stands in a packet. A tag that is none of the three, a number out of range or an unused byte that is not
// 0 is the library's to refuse.
template <class OwnJoint> struct Fact {
    Tag tag;
    OwnJoint joint;
    // The kind or the link; 0 for Tag::is_one_with.
    std::uint8_t number;
    // The joint that it is one with or that the link leads to; 0 for Tag::has_kind.
    OwnJoint other;
    std::uint8_t unused;
};

// What stands in any bytes, read as a packet: a good one or not. The bytes must outlive the reader.
class PacketReader {
public:
    explicit PacketReader(Bytes bytes) noexcept : read_(rig_packet_read(bytes.data(), bytes.size())) {}

    // How the bytes have not the form of a packet, and at which offset; place 0 where they have.
    [[nodiscard]] Form form() const noexcept { return static_cast<Form>(read_.form); }
    [[nodiscard]] std::size_t place() const noexcept { return read_.place; }

    // What stands before the ties; 0 where the bytes end before. Purposes and versions may be none that there are.
    [[nodiscard]] std::uint16_t length() const noexcept { return read_.length; }
    [[nodiscard]] std::uint8_t version() const noexcept { return read_.version; }
    [[nodiscard]] Purpose purpose() const noexcept { return static_cast<Purpose>(read_.purpose); }
    [[nodiscard]] std::uint8_t tie_count() const noexcept { return read_.tie_count; }
    [[nodiscard]] std::uint8_t joint_count() const noexcept { return read_.joint_count; }

    // How many whole ties and facts the bytes hold, whatever the form.
    [[nodiscard]] std::size_t ties() const noexcept { return read_.ties; }
    [[nodiscard]] std::size_t facts() const noexcept { return read_.facts; }

    // Empty if there is no such tie.
    [[nodiscard]] std::optional<Tie> tie(std::size_t i) const noexcept
    {
        rig_tie tie{};
        if (!rig_packet_tie(&read_, i, &tie))
            return std::nullopt;
        return Tie{RuleJoint(tie.rule.number), RigJoint(tie.rig.number)};
    }

    // Empty if there is no such fact, or if the purpose is another.
    [[nodiscard]] std::optional<Fact<RigJoint>> fact(std::size_t i) const noexcept
    {
        rig_fact fact{};
        if (!rig_packet_fact(&read_, i, &fact))
            return std::nullopt;
        return as_fact<RigJoint>(fact);
    }
    [[nodiscard]] std::optional<Fact<RuleJoint>> rule_fact(std::size_t i) const noexcept
    {
        rig_rule_fact fact{};
        if (!rig_packet_rule_fact(&read_, i, &fact))
            return std::nullopt;
        return as_fact<RuleJoint>(fact);
    }

    // The number of the fact that lies at an offset, as the place of Reply::clash or Reply::bad_part:
    //
    //   const PacketReader sent(facts);
    //   const auto clashing = sent.fact(sent.fact_number(answer.place));
    //
    // Of an offset before all facts it is one that no fact of the packet has.
    [[nodiscard]] std::size_t fact_number(std::size_t offset) const noexcept { return rig_fact_number(&read_, offset); }

private:
    template <class OwnJoint, class Read> static Fact<OwnJoint> as_fact(const Read& fact) noexcept
    {
        return {static_cast<Tag>(fact.tag), OwnJoint(fact.joint.number), fact.number, OwnJoint(fact.other.number),
                fact.unused};
    }

    rig_packet read_;
};

// ------------------------------------------------------------------------------------------------------------ blocks

// What is known of a joint, which is what is known of all joints that are one with it.
class Known {
public:
    explicit Known(const rig_known& known) noexcept : known_(known) {}

    // The smallest joint that it is one with: the same for two joints exactly when they are known to be one.
    [[nodiscard]] RigJoint smallest() const noexcept { return RigJoint(known_.smallest.number); }

    // The number of its kind; 1 if none is known.
    [[nodiscard]] std::uint8_t kind() const noexcept { return known_.kind; }

    // The smallest of the joints that the link leads to; empty where that is not known, or where there is no such link.
    [[nodiscard]] std::optional<RigJoint> link(std::size_t link) const noexcept
    {
        if (link >= RIG_LINKS || known_.links[link] == RIG_NOT_KNOWN)
            return std::nullopt;
        return RigJoint(known_.links[link]);
    }

private:
    rig_known known_;
};

// Reads any bytes as a block; what it gives is in range for any of them. They must outlive the reader.
class BlockReader {
public:
    explicit constexpr BlockReader(Bytes block) noexcept : block_(block) {}

    // Whether the library takes them as a block.
    [[nodiscard]] bool good() const noexcept { return rig_block_is_good(block_.data(), block_.size()); }

    // How many; 0 if these bytes are no block.
    [[nodiscard]] std::size_t kinds() const noexcept { return rig_block_kinds(block_.data(), block_.size()); }
    [[nodiscard]] std::size_t joints() const noexcept { return rig_block_joints(block_.data(), block_.size()); }

    // Empty if there is no such joint, or if what is said of it is out of range, as it never is in a good block.
    [[nodiscard]] std::optional<Known> joint(RigJoint joint) const noexcept
    {
        rig_known known{};
        if (!rig_block_joint(block_.data(), block_.size(), rig_joint{joint.number()}, &known))
            return std::nullopt;
        return Known(known);
    }

private:
    Bytes block_;
};

// ----------------------------------------------------------------------------------------------------------- answers

// What a call answered. The third number means something else at each call, so each call whose third number counts has
// its own kind of answer: joins can't be read as a verdict.
struct Answer {
    Reply reply;
    std::uint32_t place;
    std::uint32_t third;

    [[nodiscard]] constexpr bool done() const noexcept { return reply == Reply::done; }
};

struct TakeAnswer : Answer {
    // Classes before less classes after; 0 when refused.
    [[nodiscard]] constexpr std::uint32_t joins() const noexcept { return third; }
};

struct AskAnswer : Answer {
    // Empty when refused: a refused rule has no verdict.
    [[nodiscard]] constexpr std::optional<Verdict> verdict() const noexcept
    {
        if (!done())
            return std::nullopt;
        return static_cast<Verdict>(third);
    }
};

struct WriteAnswer : Answer {
    // The bytes written; 0 when refused.
    [[nodiscard]] constexpr std::size_t size() const noexcept { return third; }
};

// Splits the number that a call of vornulica.h gives.
[[nodiscard]] inline Answer answer_of(std::uint64_t packed) noexcept
{
    return Answer{static_cast<Reply>(rig_number(packed)), rig_place(packed), rig_third(packed)};
}

// ---------------------------------------------------------------------------------------------------------- sessions

// The facts known about one rig. A copy is a session of its own.
class Session {
public:
    // Not opened yet: the block is all zero, and every call but open is refused with Reply::bad_block.
    constexpr Session() noexcept = default;

    // Goes on with a stored block.
    constexpr explicit Session(const Block& block) noexcept : block_(block) {}

    // Opens the session anew with v joints and the meet table of n kinds; refused, the session stays as it was. The
    // table may not lie in this session's own block.
    [[nodiscard]] Answer open(std::uint64_t n, std::uint64_t v, const BytesArgument& table) noexcept
    {
        return answer_of(rig_open(n, v, table.data(), table.size(), block_.data(), block_.size()));
    }

    // Takes all facts of the packet; refused, none of them. The place of a clash is the offset of the fact with which
    // it comes. The packet may not lie in this session's own block.
    [[nodiscard]] TakeAnswer take(const BytesArgument& packet) noexcept
    {
        return {answer_of(rig_take(block_.data(), block_.size(), packet.data(), packet.size()))};
    }

    // Asks a rule.
    [[nodiscard]] AskAnswer ask(const BytesArgument& packet) const noexcept
    {
        return {answer_of(rig_ask(block_.data(), block_.size(), packet.data(), packet.size()))};
    }

    // Writes the solved form to the front of out; refused, nothing.
    [[nodiscard]] WriteAnswer write(MutableBytes out) const noexcept
    {
        return {answer_of(rig_write(block_.data(), block_.size(), out.data(), out.size()))};
    }

    // Reads a term, as "@0:11(1=>@1:16,2=>@3)", and writes the packet of facts that it says to the front of out;
    // refused, nothing. The place of a refusal is an offset in the text. No fact is taken yet:
    //
    //   std::array<std::uint8_t, max_facts_size> packet;
    //   const auto read = session.read_term(text, packet);
    //   if (read.done()) { const auto taken = session.take({packet.data(), read.size()}); }
    [[nodiscard]] WriteAnswer read_term(std::string_view text, MutableBytes out) const noexcept
    {
        const Bytes bytes = text;
        return {
            answer_of(rig_read_term(block_.data(), block_.size(), bytes.data(), bytes.size(), out.data(), out.size()))};
    }

    // Writes what is known as a term, from the chosen joint, to the front of out; refused, nothing. There is no closing
    // 0: the text is std::string_view(out.data(), answer.size()) of an out of chars.
    [[nodiscard]] WriteAnswer write_term(RigJoint joint, MutableBytes out) const noexcept
    {
        return {answer_of(rig_write_term(block_.data(), block_.size(), joint.number(), out.data(), out.size()))};
    }

    // The block, to store. Only open and take write it: that is what keeps decided verdicts decided. Of a temporary it
    // is a copy.
    [[nodiscard]] constexpr const Block& block() const& noexcept { return block_; }
    [[nodiscard]] constexpr Block block() && noexcept { return block_; }

    // What the block holds, as long as the session is there; good() tells whether a stored block was one.
    [[nodiscard]] constexpr BlockReader read() const& noexcept { return BlockReader(block_); }
    BlockReader read() && = delete;

    // Whether the blocks are the same byte for byte.
    [[nodiscard]] friend bool operator==(const Session& a, const Session& b) noexcept { return a.block_ == b.block_; }
    [[nodiscard]] friend bool operator!=(const Session& a, const Session& b) noexcept { return !(a == b); }

private:
    Block block_{};
};

// The meet table of the house kinds.
[[nodiscard]] inline HouseTable house_table() noexcept
{
    HouseTable table{};
    // The one refusal is for another size.
    static_cast<void>(rig_house(table.data(), table.size()));
    return table;
}

} // namespace vornulica

#endif
