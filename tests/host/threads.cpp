// The library on threads with a small stack, one call to a thread and the largest inputs among them, and how much of it
// a call takes; then four threads at once, each on its own blocks; and empty slices given as null pointers, at every
// call.
//
//   threads [--sessions N]     N random sessions, 150 if not given

#include "library.hpp"
#include "walk.hpp"

#include <cstring>
#include <map>
#include <memory>

#include <pthread.h>
#include <sys/mman.h>

namespace {

using namespace host;

#if defined(__SANITIZE_ADDRESS__)
constexpr size_t small_stack = 128 * 1024; // the sanitizer takes most of it
#else
constexpr size_t small_stack = 32 * 1024;
#endif
constexpr size_t roomy_stack = 256 * 1024;
// The most that a call may take of it.
constexpr size_t most_stack = 16 * 1024;
// So wide that a large frame cannot step over it into other memory.
constexpr size_t stack_guard = 1024 * 1024;
constexpr size_t threads_at_once = 4;

// ------------------------------------------------------------------ recordings

// A call with all that it gives and leaves when it is made on the main thread. A text is not kept twice: what is left
// of it has to be what was lent.
struct Recorded {
    std::string what;
    Call call;
    Answer answer;
    std::array<Bytes, slot_count> left;
};

std::string mismatch(const Side& side, const Recorded& recorded)
{
    Outcome expected{recorded.answer, {}};
    for (size_t slot = 0; slot < slot_count; slot++)
        expected.left[slot] = recorded.left[slot].data();
    expected.left[text_slot] = recorded.call.lent[text_slot].bytes.data();
    const std::string text = difference(recorded.call, side, expected);
    return text.empty() ? "" : recorded.what + "\n" + description(recorded.call) + text;
}

class Recorder {
public:
    // Gives the block left behind. What the plain version does is recorded, once the library is seen to do the same
    // while nothing else runs.
    Bytes record(const std::string& what, const Call& call)
    {
        watch::now_at(what);
        agreed &= agree(what, call, tried, plain);
        Recorded recorded{what, call, plain.answer, {}};
        for (const Slot slot : {table_slot, block_slot, packet_slot, out_slot})
            if (call.lent[slot].used)
                recorded.left[slot] = plain.left(slot);
        list.push_back(recorded);
        return recorded.left[block_slot];
    }

    std::vector<Recorded> list;
    bool agreed = true;
    Side plain{paper::calls(paper::Fault::none)};

private:
    Side tried{library};
};

void record_sessions(Recorder& recorder, size_t sessions)
{
    for (std::uint64_t seed = 0; seed < sessions; seed++)
        walk_session(seed, recorder.plain, [&](const std::string& where, const Call& call) {
            recorder.record(where, call);
            return true;
        });
}

// The most of everything at once: 64 kinds, 64 joints, 1,088 facts, a rule of 32 joints and 8 ties, joins that run
// through all joints and all links.
void record_largest(Recorder& recorder)
{
    Random random(64);
    const Kinds kinds = family_kinds(64, random);
    const Bytes fresh = recorder.record("largest open", open_with(64, 64, kinds.table, Bytes(block_length, 0xee)));
    const auto take = [&](const char* what, const Bytes& block, const std::vector<Fact>& facts) {
        return recorder.record(what,
                               call_with(Name::take, {{block_slot, block}, {packet_slot, facts_packet(64, facts)}}));
    };
    const auto ask = [&](const char* what, const Bytes& block, const Rule& rule) {
        recorder.record(what, call_with(Name::ask, {{block_slot, block}, {packet_slot, rule.packet()}}));
    };
    const auto write = [&](const char* what, const Bytes& block) {
        recorder.record(what,
                        call_with(Name::write, {{block_slot, block}, {out_slot, Bytes(longest_solved_form, 0xee)}}));
    };

    std::vector<Fact> all_known;
    for (size_t joint = 0; joint < 64; joint++) {
        all_known.push_back(has_kind(joint, 2));
        for (size_t l = 0; l < links_per_joint; l++)
            all_known.push_back(link_leads(joint, l, (joint + l + 1) % 64));
    }
    const Bytes full = take("largest solved form taken", fresh, all_known);
    write("largest solved form written", full);
    write("solved form of a fresh block", fresh);
    const Bytes one = take("all joints joined through links", full, {is_one_with(0, 63)});
    write("solved form of a single class", one);

    // A row of joints each linked to the next, folded at its ends.
    std::vector<Fact> row;
    for (size_t joint = 0; joint + 1 < 64; joint++)
        row.push_back(link_leads(joint, 15, joint + 1));
    const Bytes in_a_row = take("joints in a row", fresh, row);
    take("a row folded at its start", in_a_row, {is_one_with(0, 1)});
    take("a row folded at its end", in_a_row, {link_leads(63, 15, 63), is_one_with(62, 63)});
    std::vector<Fact> ends_first = {is_one_with(0, 32)};
    for (size_t joint = 63; joint > 0; joint--)
        ends_first.push_back(link_leads(joint - 1, 0, joint));
    take("halves of a row joined", fresh, ends_first);

    std::vector<Fact> clashing(most_facts - 1, is_one_with(63, 63));
    clashing.push_back(has_kind(63, 0));
    take("a clash at the last of the most facts", full, clashing);

    Rule rule;
    rule.joints = most_rule_joints;
    for (size_t tie = 0; tie < most_ties; tie++)
        rule.ties.push_back({static_cast<Byte>(tie % 2), static_cast<Byte>(8 * tie)});
    for (size_t joint = 0; joint + 1 < most_rule_joints; joint++)
        rule.facts.push_back(link_leads(joint, joint % links_per_joint, joint + 1));
    while (rule.facts.size() < most_facts)
        rule.facts.push_back(any_fact(1, most_rule_joints, random));
    for (Fact& fact : rule.facts)
        if (fact[0] == 1)
            fact[2] = 1;
    ask("largest rule, fresh block", fresh, rule);
    ask("largest rule, full block", full, rule);
    ask("largest rule, single class", one, rule);
    ask("largest rule, joints in a row", in_a_row, rule);
    Rule holding = rule;
    for (Fact& fact : holding.facts)
        if (fact[0] == 3)
            fact[2] = 0;
    ask("largest rule of one link, single class", one, holding);

    Bytes longest = facts_packet(64, all_known);
    longest.resize(65534, 0);
    set_length(longest);
    recorder.record("longest packet of facts", call_with(Name::take, {{block_slot, full}, {packet_slot, longest}}));
    longest.resize(65537, 0);
    longest[3] = 2;
    longest[4] = 8;
    longest[5] = 32;
    set_length(longest);
    recorder.record("longest packet of a rule", call_with(Name::ask, {{block_slot, full}, {packet_slot, longest}}));
    recorder.record("house", call_with(Name::house, {{table_slot, Bytes(house_length, 0xee)}}));
}

// ---------------------------------------------------------------------------------------------------- long texts

// A term of just so many bytes and so deep: behind a row of terms one argument after the other, all alike but for the
// first, which is longer where the length asks for it.
std::string long_term(size_t size, size_t depth)
{
    const std::string argument = "1=>@0";
    std::string before = "@0(";
    for (size_t i = 2; i < depth; i++)
        before += "1=>@0(";
    const std::string behind(depth - 1, ')');
    const size_t rest = size - before.size() - behind.size() - argument.size();
    const size_t more = rest % (argument.size() + 1);
    // Up to five bytes more.
    static const char* const first[] = {"1=>@0", "10=>@0", "10=>@10", "1=>@0:10", "10=>@0:10", "10=>@10:10"};
    std::string text = before + first[more];
    while (text.size() + behind.size() < size)
        text += "," + argument;
    return text + behind;
}

// As long as a text may be, one byte longer, and refused for what stands at its end. What the stack must hold may not
// grow with any of it.
void record_long_texts(Recorder& recorder)
{
    Random random(8);
    const Bytes block = fresh_block(family_kinds(16, random), most_joints);
    const Bytes out(longest_solved_form, 0xee);
    const auto read = [&](const std::string& what, const std::string& text, unsigned number, size_t place) {
        recorder.record(what, read_term_with(block, bytes_of(text), out));
        const Answer& answer = recorder.list.back().answer;
        if (answer.number() != number || answer.place() != place) {
            std::printf("%s: %s\n", what.c_str(), answer.text().c_str());
            recorder.agreed = false;
        }
    };
    const size_t flat = 2;
    const auto last_joint = [](const std::string& text, size_t depth) { return text.size() - depth; };
    std::string text = long_term(longest_text, flat);
    read("a text of 2^24 bytes", text, 22, 0);
    text.replace(last_joint(text, flat) - 11, 12, ",10=>@10:165"); // in the place of two arguments
    read("a text of 2^24 bytes with a kind out of range at its end", text, 21, last_joint(text, flat) - 2);
    text.resize(text.size() - 1);
    read("a text of 2^24 - 1 bytes that ends early", text, 20, text.size());
    read("a text of 2^24 + 1 bytes", long_term(longest_text + 1, flat), 1, 0);

    text = long_term(longest_text, deepest_term);
    read("a text of 2^24 bytes, 16 deep", text, 22, 0);
    text.back() = ' ';
    read("a text of 2^24 bytes, 16 deep, without its last bracket", text, 20, text.size() - 1);
    text[last_joint(text, deepest_term)] = '(';
    read("a text of 2^24 bytes, 16 deep, with a bracket for its last joint", text, 20, last_joint(text, deepest_term));
    // Terms that are opened and never closed: the 17th is told, and nothing behind it is gone into.
    text.clear();
    while (text.size() < 100000)
        text += "@0(1=>";
    read("terms opened and never closed", text, 20, 15 * 6 + 2);
}

// The largest trees there are to write, and rigs with walks without end or without number, which are none.
void record_trees(Recorder& recorder)
{
    Random random(64);
    const Kinds kinds = family_kinds(64, random);
    const auto write = [&](const char* what, const Bytes& block) {
        recorder.record(what, write_term_with(block, 0, Bytes(1000, 0xee)));
    };
    Bytes rows = fresh_block(kinds, most_joints);
    Bytes wide = rows, full = rows, doubling = rows;
    for (size_t joint = 0; joint < most_joints; joint++) {
        set_kind(rows, joint, 63);
        if (joint > 0)
            set_link(rows, joint % 15 == 1 ? 0 : joint - 1, joint % 15 == 1 ? 10 + joint / 15 : 15, joint);
        if (joint > 0)
            set_link(wide, (joint - 1) / 16, (joint - 1) % 16, joint);
        for (size_t l = 0; l < links_per_joint; l++) {
            set_link(full, joint, l, (joint + l) % most_joints);
            if (joint + 1 < most_joints)
                set_link(doubling, joint, l, joint + 1);
        }
    }
    write("the longest term", rows);
    write("sixteen links a joint", wide);
    write("every link known", full);
    write("sixteen times as many walks at each joint", doubling);
}

// A null pointer with length 0 is an empty slice, wherever it is given.
void record_nulls(Recorder& recorder)
{
    const Kinds kinds = house_kinds();
    const Bytes none;
    const Bytes block = recorder.record("open", open_with(33, 4, kinds.table, Bytes(block_length, 0xee)));
    const Bytes packet = facts_packet(4, {has_kind(0, 9)});
    const Bytes rule = Rule{1, {{0, 0}}, {has_kind(0, 9)}}.packet();

    for (const std::uint64_t n : {std::uint64_t{0}, std::uint64_t{33}, std::uint64_t{1} << 32})
        recorder.record("open, null table", open_with(n, 4, none, block));
    recorder.record("open, null block", open_with(33, 4, kinds.table, none));
    recorder.record("open, both null", open_with(33, 4, none, none));
    for (const Name name : {Name::take, Name::ask}) {
        const Bytes& good = name == Name::take ? packet : rule;
        recorder.record("null block", call_with(name, {{block_slot, none}, {packet_slot, good}}));
        recorder.record("null packet", call_with(name, {{block_slot, block}, {packet_slot, none}}));
        recorder.record("both null", call_with(name, {{block_slot, none}, {packet_slot, none}}));
    }
    recorder.record("write, null block", call_with(Name::write, {{block_slot, none}, {out_slot, Bytes(100, 0xee)}}));
    recorder.record("write, null output", call_with(Name::write, {{block_slot, block}, {out_slot, none}}));
    recorder.record("write, both null", call_with(Name::write, {{block_slot, none}, {out_slot, none}}));
    recorder.record("house, null table", call_with(Name::house, {{table_slot, none}}));
    const Bytes text = bytes_of("@0:9"), room(100, 0xee);
    recorder.record("read_term, null block", read_term_with(none, text, room));
    recorder.record("read_term, null text", read_term_with(block, none, room));
    recorder.record("read_term, null output", read_term_with(block, text, none));
    recorder.record("read_term, all null", read_term_with(none, none, none));
    recorder.record("write_term, null block", write_term_with(none, 0, room));
    recorder.record("write_term, null output", write_term_with(block, 0, none));
    recorder.record("write_term, both null", write_term_with(none, 0, none));
}

// -------------------------------------------------------------------- threads

// A stack of its own behind a guard, filled so that what was written to can be told.
class Stack {
public:
    explicit Stack(size_t its_size) : size(its_size)
    {
        void* mapped = mmap(nullptr, stack_guard + size, PROT_NONE, MAP_PRIVATE | MAP_ANONYMOUS, -1, 0);
        if (mapped == MAP_FAILED) {
            std::fprintf(stderr, "there is no memory for a stack\n");
            std::exit(2);
        }
        from = static_cast<Byte*>(mapped) + stack_guard;
        mprotect(from, size, PROT_READ | PROT_WRITE);
    }
    ~Stack() { munmap(from - stack_guard, stack_guard + size); }
    Stack(const Stack&) = delete;
    Stack& operator=(const Stack&) = delete;

    // Fills what lies below the caller's frame, but for the part that filling itself may need.
    void fill_below(const Byte& frame) { std::memset(from, filling, room_below(frame) - own_need); }
    // How many bytes below the frame were written to since; no fewer are told than filling leaves out.
    size_t used_below(const Byte& frame) const
    {
        const Byte* lowest = std::find_if(from, from + size, [](Byte x) { return x != filling; });
        return room_below(frame) - static_cast<size_t>(lowest - from);
    }

    Byte* from;
    const size_t size;

private:
    static constexpr Byte filling = 0xa5;
    static constexpr size_t own_need = 512;

    size_t room_below(const Byte& frame) const
    {
        return reinterpret_cast<std::uintptr_t>(&frame) - reinterpret_cast<std::uintptr_t>(from);
    }
};

struct Work {
    void (*body)(Work&);
    Side* side = nullptr;
    const std::vector<Recorded>* list = nullptr;
    size_t first = 0;
    std::string problem;
    Stack* stack = nullptr;
    size_t stack_taken = 0;
    Bytes handler_memory = Bytes(64 * 1024);
};

void* thread_start(void* given)
{
    Work& work = *static_cast<Work*>(given);
    const watch::HandlerStack handler_stack(work.handler_memory);
    work.body(work);
    return nullptr;
}

pthread_t start_thread(Work& work)
{
    pthread_attr_t attributes;
    pthread_t thread;
    if (pthread_attr_init(&attributes) != 0 ||
        pthread_attr_setstack(&attributes, work.stack->from, work.stack->size) != 0 ||
        pthread_create(&thread, &attributes, thread_start, &work) != 0) {
        std::fprintf(stderr, "a thread with a stack of its own cannot be started\n");
        std::exit(2);
    }
    pthread_attr_destroy(&attributes);
    return thread;
}

// Only the call itself is made on the thread. The most stack that one of them takes, beside what the thread does, is
// told for each kind of call.
size_t one_call_to_a_thread(const std::vector<Recorded>& list)
{
    Stack stack(small_stack);
    Side side(library);
    size_t problems = 0;
    Work work;
    work.side = &side;
    work.list = &list;
    work.stack = &stack;
    work.body = [](Work& own) {
        const Byte frame = 0;
        own.stack->fill_below(frame);
        own.side->run((*own.list)[own.first].call);
        own.stack_taken = own.stack->used_below(frame);
    };
    std::map<Name, size_t> taken;
    for (work.first = 0; work.first < list.size() && problems < 3; work.first++) {
        const Recorded& recorded = list[work.first];
        watch::now_at("a call on a small stack: " + recorded.what);
        side.lend(recorded.call);
        pthread_join(start_thread(work), nullptr);
        size_t& most = taken[recorded.call.name];
        most = std::max(most, work.stack_taken);
        side.give_back(recorded.call);
        const std::string text = mismatch(side, recorded);
        if (!text.empty()) {
            std::printf("on a small stack: %s", text.c_str());
            problems++;
        }
    }
    std::printf("threads: the most stack that a call took, in bytes:");
    for (const auto& [name, most] : taken)
        std::printf(" %s %zu%s", name_text[static_cast<size_t>(name)], most, most > most_stack ? " (TOO MUCH)" : "");
    std::printf("\n");
    for (const auto& [name, most] : taken)
        problems += most > most_stack;
    return problems;
}

// Each thread begins elsewhere in the list, so that different calls meet.
size_t four_at_once(const std::vector<Recorded>& list)
{
    watch::now_at("four threads at once");
    std::vector<Work> work(threads_at_once);
    std::vector<std::unique_ptr<Side>> sides;
    std::vector<std::unique_ptr<Stack>> stacks;
    std::vector<pthread_t> threads;
    for (size_t i = 0; i < threads_at_once; i++) {
        stacks.push_back(std::make_unique<Stack>(roomy_stack));
        sides.push_back(std::make_unique<Side>(library));
        work[i].side = sides[i].get();
        work[i].stack = stacks[i].get();
        work[i].list = &list;
        work[i].first = i * list.size() / threads_at_once;
        work[i].body = [](Work& own) {
            for (size_t j = 0; j < own.list->size() && own.problem.empty(); j++) {
                const Recorded& recorded = (*own.list)[(own.first + j) % own.list->size()];
                own.side->made(recorded.call);
                own.problem = mismatch(*own.side, recorded);
            }
        };
    }
    for (Work& one : work)
        threads.push_back(start_thread(one));
    size_t problems = 0;
    for (size_t i = 0; i < threads_at_once; i++) {
        pthread_join(threads[i], nullptr);
        if (!work[i].problem.empty()) {
            std::printf("thread %zu of four: %s", i, work[i].problem.c_str());
            problems++;
        }
    }
    return problems;
}

} // namespace

int main(int argc, char** argv)
{
    size_t sessions = 150;
    if (argc == 3 && std::string(argv[1]) == "--sessions") {
        sessions = std::strtoull(argv[2], nullptr, 10);
    } else if (argc != 1) {
        std::fprintf(stderr, "usage: threads [--sessions N]\n");
        return 2;
    }
    std::setvbuf(stdout, nullptr, _IOLBF, 0);
    watch::begin();

    Recorder recorder;
    record_largest(recorder);
    record_long_texts(recorder);
    record_trees(recorder);
    record_nulls(recorder);
    record_sessions(recorder, sessions);

    const size_t problems = one_call_to_a_thread(recorder.list) + four_at_once(recorder.list);
    std::printf("threads: %zu calls each on a thread of %zu KiB, and %zu on %zu threads at once, "
                "%zu at fault\n",
                recorder.list.size(), small_stack / 1024, recorder.list.size() * threads_at_once, threads_at_once,
                problems);
    return recorder.agreed && problems == 0 ? 0 : 1;
}
