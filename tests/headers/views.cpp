// What the views of vornulica.hpp are made of and what they refuse; joints that are not mixed up; sessions compared;
// terms typed and shown; and numbers of documents 01 and 02 under their names in C++.

#include "expect.h"
#include "vornulica.hpp"

#include <algorithm>
#include <string>
#include <vector>

namespace {

using namespace vornulica;
using std::is_constructible_v;
using std::is_convertible_v;

using ByteVector = std::vector<std::byte>;
using Chars = std::vector<char>;
using Octets = std::vector<std::uint8_t>;
using Words = std::vector<std::uint16_t>;
using Ten = std::array<std::uint8_t, 10>;

// A span as a host in C++17 may have one of its own, and one that it has named as a view.
template <class Element> struct OwnSpan {
    Element* data() const { return nullptr; }
    std::size_t size() const { return 0; }
};
struct NamedSpan : OwnSpan<const std::uint8_t> {};

} // namespace

template <> inline constexpr bool vornulica::is_view<NamedSpan> = true;

namespace {

// ------------------------------------------------------------------------------------------------ what may be lent

template <class View, class... Types> constexpr bool takes = (is_convertible_v<Types, View> && ...);
template <class View, class... Types> constexpr bool refuses = (!is_constructible_v<View, Types> && ...);

// What is there for longer than the line.
static_assert(takes<Bytes, Octets&, const Octets&, Chars&, const Chars&, ByteVector&, Ten&, const Ten&, std::string&>);
static_assert(takes<Bytes, std::array<char, 4>&, std::array<std::byte, 4>&, std::array<const std::uint8_t, 4>&>);
static_assert(takes<Bytes, std::uint8_t (&)[4], const std::uint8_t (&)[4], std::byte (&)[4], char (&)[4]>);
static_assert(takes<Bytes, Bytes, Bytes&, const Bytes, MutableBytes, std::string_view, const std::string_view&>);
static_assert(takes<Bytes, OwnSpan<const std::uint8_t>&, NamedSpan, const NamedSpan>);
static_assert(takes<Bytes, FactsBuilder&, FactsPacket<1>&, const RulePacket<1>&>);

// Temporaries that own their bytes: to keep never, to call with always.
static_assert(refuses<Bytes, Octets, const Octets, Chars, ByteVector, Ten, const Ten, HouseTable, Block, std::string>);
static_assert(refuses<Bytes, std::array<const std::uint8_t, 4>, FactsPacket<1>, RulePacket<1>, BytesArgument>);
static_assert(refuses<Bytes, BytesArgument&, const BytesArgument&, const std::uint8_t (&&)[4]>);
static_assert(takes<BytesArgument, Octets, const Octets, Chars, ByteVector, Ten, HouseTable, Block, std::string>);
static_assert(takes<BytesArgument, FactsPacket<1>, RulePacket<1>, FactsPacket<1>&, Bytes, const Bytes&, MutableBytes>);
static_assert(takes<BytesArgument, Octets&, const Chars&, std::string_view, OwnSpan<std::byte>, NamedSpan>);
static_assert(takes<BytesArgument, std::uint8_t (&)[4], const std::uint8_t (&)[4], std::byte (&)[4], char (&)[4]>);

// A temporary that nothing is known of may own its bytes.
static_assert(refuses<Bytes, OwnSpan<const std::uint8_t>> && refuses<MutableBytes, OwnSpan<std::uint8_t>>);

// What has no bytes; a text in quotes, whose closing 0 would be lent with it.
static_assert(refuses<Bytes, Words&, const char (&)[4], int, std::uint8_t, const std::uint8_t*, std::nullptr_t>);
static_assert(refuses<BytesArgument, Words&, const char (&)[4], int, const std::uint8_t*, const BytesArgument&>);

// What may be written.
static_assert(
    takes<MutableBytes, Octets&, Chars&, ByteVector&, Ten&, std::uint8_t (&)[4], std::byte (&)[4], char (&)[4]>);
static_assert(takes<MutableBytes, MutableBytes, OwnSpan<std::uint8_t>&, const OwnSpan<std::uint8_t>&>);
static_assert(
    refuses<MutableBytes, const Octets&, Octets, Ten, Bytes, Bytes&, std::string_view, const std::uint8_t (&)[4]>);
static_assert(refuses<MutableBytes, FactsPacket<1>&, OwnSpan<const std::uint8_t>&, Words&>);

#if defined(__cpp_lib_span)
static_assert(takes<Bytes, std::span<const std::uint8_t>, std::span<std::uint8_t>, std::span<const std::byte, 4>>);
static_assert(takes<Bytes, std::span<char>, const std::span<const std::uint8_t>&>);
static_assert(takes<MutableBytes, std::span<std::uint8_t>, std::span<std::byte>, std::span<char, 4>>);
static_assert(refuses<MutableBytes, std::span<const std::uint8_t>> && refuses<Bytes, std::span<std::uint16_t>>);
#elif __cplusplus >= 202002L
#error "no std::span to try"
#endif

// A view of nothing, made of a null pointer.
static_assert(Bytes(nullptr, 0).size() == 0 && BytesArgument(nullptr, 0).data() == nullptr);
constexpr std::uint8_t three[] = {1, 2, 3};
static_assert(Bytes(three).size() == 3 && Bytes(three).data()[2] == 3);

// -------------------------------------------------------------------------------------------------------- joints

static_assert(!is_convertible_v<int, RigJoint> && !is_convertible_v<int, RuleJoint> &&
              is_constructible_v<RigJoint, int>);
static_assert(refuses<RigJoint, RuleJoint, HouseKind, bool, double> && refuses<RuleJoint, RigJoint, HouseKind, bool>);
static_assert(!std::is_assignable_v<RigJoint&, RuleJoint> && !std::is_assignable_v<RigJoint&, int>);
static_assert(is_constructible_v<Tie, Tie> && !std::is_same_v<RigJoint, RuleJoint>);

template <class Builder, class Joint>
using Kinded = decltype(std::declval<Builder&>().kind(std::declval<Joint>(), HouseKind::any));
template <class Builder, class A, class B>
using Joined = decltype(std::declval<Builder&>().same(std::declval<A>(), std::declval<B>()));
template <class Builder, class A, class Link, class B>
using Linked = decltype(std::declval<Builder&>().link(std::declval<A>(), std::declval<Link>(), std::declval<B>()));
template <class Builder, class A, class B>
using Tied = decltype(std::declval<Builder&>().tie(std::declval<A>(), std::declval<B>()));

template <template <class...> class Call, class Void, class... Types> constexpr bool compiles_at = false;
template <template <class...> class Call, class... Types>
constexpr bool compiles_at<Call, std::void_t<Call<Types...>>, Types...> = true;
template <template <class...> class Call, class... Types> constexpr bool compiles = compiles_at<Call, void, Types...>;

// Facts take joints of the rig alone, a rule's its own; neither takes a number.
static_assert(compiles<Kinded, FactsBuilder, RigJoint> && compiles<Kinded, RuleBuilder, RuleJoint>);
static_assert(!compiles<Kinded, FactsBuilder, RuleJoint> && !compiles<Kinded, RuleBuilder, RigJoint>);
static_assert(!compiles<Kinded, FactsBuilder, int> && !compiles<Kinded, RuleBuilder, int>);
static_assert(compiles<Joined, FactsBuilder, RigJoint, RigJoint> &&
              compiles<Joined, RuleBuilder, RuleJoint, RuleJoint>);
static_assert(!compiles<Joined, FactsBuilder, RigJoint, RuleJoint> &&
              !compiles<Joined, RuleBuilder, RuleJoint, RigJoint>);
static_assert(compiles<Linked, FactsBuilder, RigJoint, int, RigJoint>);
static_assert(!compiles<Linked, FactsBuilder, RigJoint, int, RuleJoint>);
static_assert(!compiles<Linked, FactsBuilder, RigJoint, RigJoint, int>);
static_assert(!compiles<Linked, RuleBuilder, RuleJoint, int, RigJoint>);
static_assert(!compiles<Linked, RuleBuilder, RuleJoint, HouseKind, RuleJoint>);

// A tie holds both, in this order, and facts have none.
static_assert(compiles<Tied, RuleBuilder, RuleJoint, RigJoint> && !compiles<Tied, RuleBuilder, RigJoint, RuleJoint>);
static_assert(!compiles<Tied, RuleBuilder, RuleJoint, RuleJoint> && !compiles<Tied, RuleBuilder, RuleJoint, int>);
static_assert(!compiles<Tied, FactsBuilder, RuleJoint, RigJoint> && !compiles<Tied, FactsBuilder, RigJoint, RigJoint>);

// No number is cut off to one in range, whatever its type.
static_assert(RigJoint(254).number() == 254 && RigJoint(255).number() == 255 && RigJoint(256).number() == 255);
static_assert(RuleJoint(std::uint64_t{1} << 32).number() == 255 && RuleJoint(-1).number() == 255);
static_assert(Kind(3).number() == 3 && Kind(259).number() == 255 && Kind(RIG_KIND_HAND).number() == 17);
static_assert(Kind(HouseKind::left_foot).number() == 31 && Kind(static_cast<signed char>(-3)).number() == 255);

// A lent buffer has one builder; packets of their own are copied.
static_assert(!std::is_copy_constructible_v<FactsBuilder> && !std::is_copy_assignable_v<RuleBuilder>);
static_assert(std::is_nothrow_copy_constructible_v<FactsPacket<2>> && std::is_nothrow_copy_assignable_v<RulePacket<2>>);
static_assert(!is_constructible_v<FactsBuilder, const FactsPacket<2>&> && !is_convertible_v<int, FactsPacket<2>>);

// Nothing throws.
static_assert(noexcept(FactsPacket<1>(4)) && noexcept(FactsBuilder(MutableBytes(),
                                                                   4)) && noexcept(PacketReader(Bytes())));
static_assert(noexcept(std::declval<FactsBuilder&>().kind(RigJoint(0), 1).same(RigJoint(0), RigJoint(1))));
static_assert(
    noexcept(std::declval<RuleBuilder&>().tie(RuleJoint(0), RigJoint(0)).link(RuleJoint(0), 1, RuleJoint(1))));
static_assert(noexcept(std::declval<PacketReader&>().tie(0)) && noexcept(std::declval<PacketReader&>().rule_fact(0)));
static_assert(
    noexcept(std::declval<BlockReader&>().joint(RigJoint(0))) && noexcept(std::declval<BlockReader&>().good()));

// ---------------------------------------------------------------------------------------- the numbers of 01 and 02

template <class Enum> constexpr int number_of(Enum value) { return static_cast<int>(value); }

static_assert(number_of(Reply::done) == 0 && number_of(Reply::bad_size) == 1 && number_of(Reply::no_kind) == 2);
static_assert(number_of(Reply::law_broken) == 3 && number_of(Reply::bad_block) == 4);
static_assert(number_of(Reply::bad_length) == 5 && number_of(Reply::bad_version) == 6);
static_assert(number_of(Reply::bad_header) == 7 && number_of(Reply::bad_count) == 8);
static_assert(number_of(Reply::bad_part) == 9 && number_of(Reply::not_reached) == 10);
static_assert(number_of(Reply::clash) == 11 && number_of(Reply::short_output) == 12);
static_assert(number_of(Reply::no_term) == 20 && number_of(Reply::out_of_range) == 21);
static_assert(number_of(Reply::term_too_large) == 22 && number_of(Reply::no_tree) == 23);
static_assert(number_of(Verdict::applies) == 1 && number_of(Verdict::ruled_out) == 2 && number_of(Verdict::waits) == 3);
static_assert(number_of(Purpose::facts) == 1 && number_of(Purpose::rule) == 2);
static_assert(number_of(Tag::has_kind) == 1 && number_of(Tag::is_one_with) == 2 && number_of(Tag::link_leads) == 3);
static_assert(max_written_term_size == 748);
static_assert(house_kinds == 33 && sizeof(HouseTable) == 1089 && sizeof(Block) == 5250 && max_facts_size == 4358);

// ------------------------------------------------------------------------------------------------------- sessions

FactsPacket<1> left(std::size_t joint)
{
    FactsPacket<1> facts(4);
    facts.kind(RigJoint(joint), HouseKind::left);
    return facts;
}

void sessions()
{
    Session session;
    const Session never_opened;
    EXPECT(session == never_opened && !(session != never_opened) && !session.read().good());
    EXPECT(session.open(house_kinds, 4, house_table()).done());
    EXPECT(session != never_opened && session.read().good());

    Session other = session;
    EXPECT(other.take(left(1)).done() && other != session);
    EXPECT(session.take(left(1)).done() && other == session);
    EXPECT(Session(session.block()) == session);
    EXPECT(session.take(Octets{0, 1}).reply == Reply::bad_length && session == other);

    // The bytes of a packet as they come from elsewhere.
    const FactsPacket<1> packet = left(2);
    const std::string text(reinterpret_cast<const char*>(packet.data()), packet.size());
    EXPECT(session.take(text).done() && other.take(std::string_view(text)).done() && other == session);
    EXPECT(session.take({packet.data(), packet.size()}).done() && session.take({}).reply == Reply::bad_length);
    std::vector<std::byte> solved(max_facts_size);
    const WriteAnswer written = session.write(solved);
    EXPECT(written.done() && written.size() == 14);
    EXPECT(other.take({solved.data(), written.size()}).done() && other == session);
    EXPECT(session.write(MutableBytes()).reply == Reply::short_output);

    // Of three facts the second clashes: joint 2 is left by now.
    FactsPacket<3> facts(4);
    facts.kind(RigJoint(3), HouseKind::head).kind(RigJoint(2), HouseKind::right).kind(RigJoint(3), HouseKind::hand);
    const TakeAnswer refused = session.take(facts);
    const PacketReader sent(facts);
    const auto clashing = sent.fact(sent.fact_number(refused.place));
    EXPECT(refused.reply == Reply::clash && refused.place == 10 && refused.joins() == 0 && session == other);
    EXPECT(clashing && clashing->joint == RigJoint(2) && clashing->number == number_of(HouseKind::right));
}

// The example of order 2, as a text in quotes, a string and a view; a text in quotes is lent without its closing 0.
void terms()
{
    Session session;
    EXPECT(session.open(house_kinds, 4, house_table()).done());
    const std::string_view term = "@0:11(1=>@1:16,2=>@3)";
    const Octets facts = {0, 20, 1, 1, 0, 4, 1, 0, 11, 0, 3, 0, 1, 1, 1, 1, 16, 0, 3, 0, 2, 3};
    std::array<std::uint8_t, max_facts_size> packet{};
    WriteAnswer read = session.read_term("@0:11(1=>@1:16,2=>@3)", packet);
    EXPECT(read.done() && read.size() == facts.size() && std::equal(facts.begin(), facts.end(), packet.begin()));
    EXPECT(session.read_term(std::string(term), packet).done() && session.read_term(term, packet).done());
    EXPECT(session.read_term("@0 ", packet).reply == Reply::no_term);
    read = session.read_term(term.substr(0, 6), packet);
    EXPECT(read.reply == Reply::no_term && read.place == 6 && read.size() == 0);
    read = session.read_term({}, packet);
    EXPECT(read.reply == Reply::no_term && read.place == 0);
    read = session.read_term("@0(1=>@4)", packet);
    EXPECT(read.reply == Reply::out_of_range && read.place == 7);
    EXPECT(session.read_term(term, MutableBytes()).reply == Reply::short_output);

    EXPECT(session.take({packet.data(), facts.size()}).done());
    std::array<char, max_written_term_size> text{};
    const WriteAnswer written = session.write_term(RigJoint(0), text);
    EXPECT(written.done() && std::string_view(text.data(), written.size()) == term && text[written.size()] == 0);
    EXPECT(session.write_term(RigJoint(1), text).reply == Reply::no_tree);
    EXPECT(session.write_term(RigJoint(4), text).reply == Reply::out_of_range);
    EXPECT(session.write_term(RigJoint(std::uint64_t{1} << 32), text).reply == Reply::out_of_range);
    EXPECT(Session().read_term(term, packet).reply == Reply::bad_block);
}

void copies_of_packets()
{
    FactsPacket<2> first(4);
    first.kind(RigJoint(0), HouseKind::left);
    FactsPacket<2> second = first;
    EXPECT(second.size() == 10 && first.data() != second.data() &&
           std::equal(first.data(), first.data() + 10, second.data()));
    second.kind(RigJoint(1), HouseKind::right);
    EXPECT(first.size() == 10 && first.data()[1] == 8 && second.size() == 14);
    first = second;
    EXPECT(first.size() == 14 && first.data() != second.data() &&
           std::equal(first.data(), first.data() + 14, second.data()));
    first.kind(RigJoint(2), HouseKind::right);
    EXPECT(first.state() == Building::buffer_full && first.size() == 0);
    EXPECT(second.state() == Building::fits && second.size() == 14 && second.data()[12] == 3);
}

void texts()
{
    EXPECT(std::string(reply_text(Reply::clash)) == rig_reply_text(RIG_CLASH));
    EXPECT(std::string(reply_text(static_cast<Reply>(77))) == rig_reply_text(77));
}

} // namespace

int main()
{
    sessions();
    terms();
    copies_of_packets();
    texts();
    return expectations_missed == 0 ? 0 : 1;
}
