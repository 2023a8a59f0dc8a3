// The library against the plain version: random sessions from fixed seeds, small inputs gone through one by one, all
// texts of up to six signs among them, and tables near lawful ones. Then, without the plain version, the examples of
// the documents, small sessions by the meaning, demand 3, and terms written and read back.
//
//   differential [--calls N]     at least N random calls, 250,000 if not given
//   differential --session K     one session again, each of its calls described
//   differential --self-check [--verbose]
//                                no library: the plain version against itself
//                                with one fault at a time, all to be caught

#include "coverage.hpp"
#include "demand3.hpp"
#include "every_text.hpp"
#include "examples.hpp"
#include "library.hpp"
#include "meaning.hpp"
#include "near_lawful.hpp"
#include "sweep.hpp"
#include "term_examples.hpp"
#include "term_sweep.hpp"
#include "term_trips.hpp"
#include "walk.hpp"

#include <set>

namespace {

using namespace host;
using paper::Fault;

// ------------------------------------------------------------ random sessions

constexpr size_t most_differences_shown = 5;

// Sessions go by the two headers in turn.
bool library_agrees(std::uint64_t seed, Side& tried, Side& plain, Coverage& coverage, size_t& calls_made, bool describe)
{
    tried.use(seed % 2 == 0 ? library_by_c : library_by_cpp);
    return walk_session(seed, plain, [&](const std::string& where, const Call& call) {
        calls_made++;
        const bool agreed = agree(where, call, tried, plain);
        coverage.count(call, plain.answer);
        if (describe)
            std::printf("%s: %s\n%s", where.c_str(), plain.answer.text().c_str(), description(call).c_str());
        return agreed;
    });
}

// The small inputs of sweep.hpp, and one in so many of those of term_sweep.hpp, up to where enough of them differ;
// gives how many do.
size_t sweep_differing(Side& tried, Side& plain, size_t one_in, size_t& calls_made)
{
    size_t differing = 0;
    size_t of_terms = 0;
    const auto make = [&](const Call& call) {
        if (differing == most_differences_shown)
            return;
        const std::string where = "small inputs, call " + std::to_string(calls_made++);
        watch::now_at(where);
        if (!agree(where, call, tried, plain))
            differing++;
    };
    Sweep([&](const Call& call) { make(call); });
    TermSweep([&](const Call& call) {
        if (of_terms++ % one_in == 0)
            make(call);
    });
    return differing;
}

constexpr size_t meaning_sessions = 300;
constexpr size_t calls_to_a_meaning_session = 800; // fewer of both in a short run
constexpr size_t calls_of_a_long_run = 100000;
constexpr size_t signs_of_every_text = 6; // and 4 in a short run
constexpr size_t calls_to_a_term_trip = 500;
constexpr size_t broken_tables_near_lawful = 200000; // and a tenth of them in a short run

constexpr bool is_short(size_t calls_wanted) { return calls_wanted < calls_of_a_long_run; }

// Examples worked by hand, made by the plain version and by the library through either header.
template <typename Part> bool all_give(const std::string& examples)
{
    watch::now_at(examples);
    bool good = true;
    for (const auto& [name, calls] :
         {std::pair<const char*, const paper::Calls*>{"the plain version", &paper::calls(Fault::none)},
          {"the library by vornulica.h", &library_by_c},
          {"the library by vornulica.hpp", &library_by_cpp}}) {
        const std::string failing = Part::failing(*calls);
        if (!failing.empty()) {
            std::printf("of %s %s gives otherwise: %s\n", examples.c_str(), name, failing.c_str());
            good = false;
        }
    }
    return good;
}

// Terms: the examples worked by hand, every short text beside the plain version, and texts there and back.
bool terms_hold(size_t calls_wanted)
{
    bool good = all_give<TermExamples>("the examples of terms");
    const auto tell = [&](const std::string& problem) {
        if (!problem.empty())
            std::printf("%s\n", problem.c_str());
        good = good && problem.empty();
    };
    watch::now_at("every short text");
    const size_t signs = is_short(calls_wanted) ? 4 : signs_of_every_text;
    size_t texts = 0;
    tell(EveryText(library).failing(signs, texts));
    TermTrips::Counts trips;
    std::uint64_t rounds = 0;
    for (; rounds < calls_wanted / calls_to_a_term_trip && good; rounds++) {
        watch::now_at("terms there and back, round " + std::to_string(rounds));
        tell(TermTrips::failing(library_by_c, rounds, trips));
    }
    std::printf("differential: every text of up to %zu signs, %zu in all; %zu calls of terms there and back, %zu texts "
                "written, %zu places of 20 held against completions\n",
                signs, texts, trips.calls, trips.written, trips.places);
    return good;
}

bool tables_near_lawful_agree(size_t calls_wanted)
{
    const size_t wanted = broken_tables_near_lawful / (is_short(calls_wanted) ? 10 : 1);
    NearLawful::Counts counts;
    size_t differing = 0;
    for (std::uint64_t round = 0; counts.broken() < wanted && differing < most_differences_shown; round++) {
        watch::now_at("tables near lawful ones, round " + std::to_string(round));
        const std::string problem = NearLawful::failing(library_by_c, round, counts);
        if (!problem.empty()) {
            std::printf("%s\n", problem.c_str());
            differing++;
        }
    }
    counts.print(differing);
    if (differing > 0)
        return false; // cut short, so that what was missed says nothing
    const std::string missing = counts.missing();
    std::printf("%s", missing.c_str());
    return missing.empty();
}

bool compare_with_library(size_t calls_wanted)
{
    bool good = all_give<Examples>("the examples");
    watch::now_at("the meaning");
    const std::string off_meaning =
        Meaning::failing(library_by_c, std::min(meaning_sessions, calls_wanted / calls_to_a_meaning_session));
    if (!off_meaning.empty()) {
        std::printf("%s\n", off_meaning.c_str());
        good = false;
    }

    good = terms_hold(calls_wanted) && good;
    good = tables_near_lawful_agree(calls_wanted) && good;

    Side tried(library_by_c);
    Side plain(paper::calls(Fault::none));
    Coverage coverage;
    size_t swept_calls = 0;
    const size_t swept_differing = sweep_differing(tried, plain, is_short(calls_wanted) ? 10 : 1, swept_calls);
    size_t calls_made = 0, differing = 0;
    std::uint64_t sessions = 0;
    while (calls_made < calls_wanted && differing < most_differences_shown)
        if (!library_agrees(sessions++, tried, plain, coverage, calls_made, false))
            differing++;

    Demand3::Counts demand3;
    std::uint64_t rounds = 0;
    for (; demand3.calls < calls_wanted / 2 && differing < most_differences_shown; rounds++) {
        watch::now_at("demand 3, round " + std::to_string(rounds));
        const std::string problem = Demand3::failing(library_by_c, rounds, demand3);
        if (!problem.empty()) {
            std::printf("%s\n", problem.c_str());
            differing++;
        }
    }
    std::printf("differential: %zu random calls in %llu sessions, %zu on small inputs, "
                "%zu of demand 3 in %llu rounds, %zu differing\n",
                calls_made, static_cast<unsigned long long>(sessions), swept_calls, demand3.calls,
                static_cast<unsigned long long>(rounds), differing + swept_differing);
    coverage.print();
    std::printf("  demand 3   %zu clashing packets sent again, %zu of them then clashing at an earlier fact\n",
                demand3.sent_again, demand3.at_earlier_fact);
    if (differing > 0 || swept_differing > 0)
        return false; // cut short, so that what was missed says nothing
    std::string missing = coverage.missing();
    if (demand3.at_earlier_fact == 0)
        missing += "  never hit: a packet that clashes at an earlier fact when it is sent again\n";
    std::printf("%s", missing.c_str());
    return good && missing.empty();
}

bool show_session(std::uint64_t number)
{
    Side tried(library_by_c);
    Side plain(paper::calls(Fault::none));
    Coverage coverage;
    size_t calls_made = 0;
    return library_agrees(number, tried, plain, coverage, calls_made, true);
}

// ----------------------------------------------------------------- self-check

#if defined(PAPER_WITHOUT_FAULTS)
bool self_check(size_t, bool)
{
    std::printf("self-check: built without the faults it needs\n");
    return false;
}
#else

const std::vector<Fault>& all_faults()
{
    static const std::vector<Fault> list = [] {
        std::vector<Fault> faults;
        for (int fault = 1; fault < static_cast<int>(Fault::count); fault++)
            faults.push_back(static_cast<Fault>(fault));
        return faults;
    }();
    return list;
}

// Each fault must show in the same stream of calls that the library is given.
bool faults_caught_by_stream(size_t most_calls, bool verbose)
{
    std::string last = "none";
    Side plain(paper::calls(Fault::none));
    Side tried(paper::calls(Fault::none));
    // A text of 2^24 bytes is no random call.
    std::vector<Fault> faults;
    for (const Fault fault : all_faults())
        if (fault != Fault::longer_text_read && fault != Fault::longest_text_not_read)
            faults.push_back(fault);
    std::vector<Fault> hidden = faults;
    size_t calls_made = 0;
    const auto try_all = [&](const std::string& where, const Call& call) {
        calls_made++;
        tried.use(paper::calls(Fault::none));
        if (!agree(where, call, tried, plain))
            return false;
        for (size_t i = 0; i < hidden.size();) {
            tried.use(paper::calls(hidden[i]));
            tried.made(call);
            if (difference(call, tried, plain).empty()) {
                i++;
                continue;
            }
            last = paper::fault_name(hidden[i]) + std::string(" at call ") + std::to_string(calls_made);
            if (verbose)
                std::printf("  %s (%s)\n", last.c_str(), name_text[static_cast<size_t>(call.name)]);
            hidden.erase(hidden.begin() + static_cast<std::ptrdiff_t>(i));
        }
        return true;
    };
    for (std::uint64_t seed = 0; calls_made < most_calls && !hidden.empty(); seed++)
        if (!walk_session(seed, plain, try_all)) {
            std::printf("the plain version differs from itself\n");
            return false;
        }
    for (const Fault fault : hidden)
        std::printf("  %-30s NOT caught in %zu random calls\n", paper::fault_name(fault), calls_made);
    std::printf("self-check: %zu of %zu faults caught by random calls, the last one %s\n",
                faults.size() - hidden.size(), faults.size(), last.c_str());
    return hidden.empty();
}

// Tries a check that needs no second implementation: it must pass the plain version, and these faults, which concern
// what it checks, must fail it.
template <typename Check> bool check_tells_apart(const char* name, Check failing, const std::set<Fault>& must_fail)
{
    bool good = true;
    const std::string plain = failing(paper::calls(Fault::none));
    if (!plain.empty()) {
        std::printf("  the plain version fails %s: %s\n", name, plain.c_str());
        good = false;
    }
    size_t caught = 0;
    for (const Fault fault : must_fail)
        if (!failing(paper::calls(fault)).empty())
            caught++;
        else
            std::printf("  %s does not catch %s\n", name, paper::fault_name(fault));
    std::printf("self-check: %s: the plain version %s, %zu of %zu faults caught\n", name, good ? "passes" : "FAILS",
                caught, must_fail.size());
    return good && caught == must_fail.size();
}

// What fails first in 300 rounds of a check that goes by seeds, or nothing.
template <typename Rounds> std::string first_failing_round(const paper::Calls& calls)
{
    std::string problem;
    typename Rounds::Counts counts;
    for (std::uint64_t seed = 0; seed < 300 && problem.empty(); seed++)
        problem = Rounds::failing(calls, seed, counts);
    return problem;
}

// Sessions rest on tables that can be opened.
bool tables_are_lawful()
{
    for (std::uint64_t seed = 0; seed < 1000; seed++) {
        Random random(seed);
        const Kinds kinds = random_kinds(random);
        Bytes block(block_length);
        if (Implementation(paper::calls(Fault::none)).open(kinds.n, 1, kinds.table, block).number() != 0) {
            std::printf("  the table of seed %llu is not lawful\n", static_cast<unsigned long long>(seed));
            return false;
        }
    }
    return true;
}

// A write beside the buffer must show, on either side of it.
#if !defined(__SANITIZE_ADDRESS__) // which would end the run at such a write
std::uint64_t house_writing_before(std::uint8_t* table, std::size_t)
{
    *(table - 1) ^= 1;
    return 0;
}
std::uint64_t house_writing_after(std::uint8_t* table, std::size_t size)
{
    table[size] ^= 1;
    return 0;
}
bool guards_work()
{
    Call call;
    call.name = Name::house;
    call.lent[table_slot].used = true;
    call.lent[table_slot].bytes.assign(house_length, 7);
    paper::Calls silent = paper::calls(Fault::none);
    silent.house = [](std::uint8_t*, std::size_t) { return std::uint64_t{0}; };
    Side expected(silent);
    expected.made(call);
    bool good = true;
    for (const auto house : {house_writing_before, house_writing_after}) {
        paper::Calls beside = silent;
        beside.house = house;
        Side tried(beside);
        tried.made(call);
        good = good && !difference(call, tried, expected).empty();
    }
    if (!good)
        std::printf("  a write beside a buffer does not show\n");
    return good;
}
#else
bool guards_work() { return true; }
#endif

const std::set<Fault> errors_and_stand_ins = {
    Fault::joins_stop_at_links,    Fault::unknown_link_rules_out,    Fault::kinds_compared_for_equality,
    Fault::class_named_by_largest, Fault::clash_keeps_earlier_facts, Fault::always_waits,
    Fault::refuses_every_packet,   Fault::takes_first_packet_only,   Fault::stores_nothing,
    Fault::invented_joins,
};
const std::set<Fault> wrong_places_of_clashes = {
    Fault::clash_has_no_place,
    Fault::clash_at_fact_before,
    Fault::clash_at_last_fact,
    Fault::far_clash_at_last_fact,
};
const std::set<Fault> faults_of_table_check = {
    Fault::triple_place_swapped,       Fault::triple_place_from_second, Fault::triples_from_three,
    Fault::neighbours_left_out,        Fault::first_above_last,         Fault::entry_equal_to_n_passes,
    Fault::first_laws_in_three_passes, Fault::symmetry_unchecked,
};
const std::set<Fault> faults_of_terms = {
#define PAPER_TERM_FAULT(name) Fault::name,
    PAPER_TERM_FAULTS(PAPER_TERM_FAULT)
#undef PAPER_TERM_FAULT
};
std::set<Fault> all_of(const std::vector<std::set<Fault>>& sets)
{
    std::set<Fault> all;
    for (const std::set<Fault>& faults : sets)
        all.insert(faults.begin(), faults.end());
    return all;
}

bool self_check(size_t most_calls, bool verbose)
{
    bool good = guards_work() && tables_are_lawful();
    good &= check_tells_apart(
        "the examples", [](const paper::Calls& calls) { return Examples::failing(calls); },
        all_of({errors_and_stand_ins,
                wrong_places_of_clashes,
                {Fault::facts_1089_pass, Fault::facts_1088_refused, Fault::kind_any_written,
                 Fault::rest_of_output_cleared, Fault::house_meet_by_largest_number}}));
    good &= check_tells_apart(
        "the meaning by all pictures",
        [](const paper::Calls& calls) { return Meaning::failing(calls, meaning_sessions); },
        all_of({errors_and_stand_ins,
                wrong_places_of_clashes,
                {Fault::kind_zero_refused, Fault::rule_joins_stop_at_links, Fault::repeated_tie_ignored,
                 Fault::new_link_still_applies, Fault::new_kind_still_applies, Fault::new_join_still_applies,
                 Fault::ask_stores}}));
    good &= check_tells_apart(
        "demand 3", first_failing_round<Demand3>,
        all_of({wrong_places_of_clashes,
                {Fault::joins_stop_at_links, Fault::unknown_link_rules_out, Fault::clash_keeps_earlier_facts,
                 Fault::class_named_by_largest, Fault::refuses_every_packet, Fault::takes_first_packet_only,
                 Fault::invented_joins, Fault::last_link_forgotten, Fault::ask_stores}}));
    good &= check_tells_apart(
        "the examples of terms", [](const paper::Calls& calls) { return TermExamples::failing(calls); },
        faults_of_terms);
    good &= check_tells_apart(
        "every text of up to four signs",
        [](const paper::Calls& calls) {
            size_t texts = 0;
            return EveryText(calls).failing(4, texts);
        },
        {Fault::leading_zero_read, Fault::three_digits_not_read, Fault::blanks_read, Fault::empty_brackets_read,
         Fault::rest_of_text_ignored, Fault::early_end_told_at_last_byte, Fault::out_of_range_before_no_term,
         Fault::out_of_range_at_sign, Fault::joint_v_read, Fault::kind_0_out_of_range, Fault::rest_of_packet_cleared});
    good &= check_tells_apart(
        "terms there and back", first_failing_round<TermTrips>,
        {Fault::term_17_deep_read, Fault::term_16_deep_not_read, Fault::deep_term_told_late,
         Fault::early_end_told_at_last_byte, Fault::kind_0_out_of_range, Fault::all_links_of_outermost,
         Fault::joined_joints_left_out, Fault::loop_at_chosen_left_out, Fault::kind_not_reached_left_out,
         Fault::link_not_reached_left_out, Fault::lone_joint_refused, Fault::two_walks_pass,
         Fault::tree_16_deep_not_written, Fault::kind_of_chosen_left_out, Fault::rest_of_text_cleared});
    good &= check_tells_apart("tables near lawful ones", first_failing_round<NearLawful>, faults_of_table_check);
    good &= faults_caught_by_stream(most_calls, verbose);
    return good;
}

#endif // PAPER_WITHOUT_FAULTS

} // namespace

int main(int argc, char** argv)
{
    watch::begin();
    bool self = false;
    bool verbose = false;
    bool one_session = false;
    size_t session = 0;
    size_t calls = 0;
    for (int i = 1; i < argc; i++) {
        const std::string option = argv[i];
        const bool has_value = i + 1 < argc;
        if (option == "--self-check") {
            self = true;
        } else if (option == "--verbose") {
            verbose = true;
        } else if (option == "--calls" && has_value) {
            calls = std::strtoull(argv[++i], nullptr, 10);
        } else if (option == "--session" && has_value) {
            one_session = true;
            session = std::strtoull(argv[++i], nullptr, 10);
        } else {
            std::fprintf(stderr, "usage: differential [--calls N] [--session K] "
                                 "[--self-check [--verbose]]\n");
            return 2;
        }
    }
    std::setvbuf(stdout, nullptr, _IOLBF, 0);
    const bool good = self          ? self_check(calls != 0 ? calls : 40000, verbose)
                      : one_session ? show_session(session)
                                    : compare_with_library(calls != 0 ? calls : 250000);
    return good ? 0 : 1;
}
