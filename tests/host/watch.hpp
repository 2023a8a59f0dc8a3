// Where a run stands, told when a call kills the process or does not end. Both are failures, and the place is needed to
// repeat them.

#ifndef HOST_WATCH_HPP
#define HOST_WATCH_HPP

#include <csignal>
#include <cstring>
#include <string>
#include <vector>

#include <unistd.h>

namespace watch {

constexpr unsigned longest_seconds_at_a_place = 120;

inline char place[200]; // a fixed one, since a handler may not allocate

inline void now_at(const std::string& text)
{
    place[text.copy(place, sizeof place - 1)] = 0;
    alarm(longest_seconds_at_a_place);
}

inline void tell(const char* text)
{
    if (write(2, text, std::strlen(text)) < 0)
        _exit(3);
}

inline void tell_and_die(int signal)
{
    if (signal == SIGALRM) {
        tell("no end of ");
    } else {
        const char number[] = {static_cast<char>('0' + signal / 10), static_cast<char>('0' + signal % 10), 0};
        tell("killed by signal ");
        tell(signal < 10 ? number + 1 : number);
        tell(" in ");
    }
    tell(place);
    tell("\n");
    _exit(3);
}

inline void begin()
{
    struct sigaction action = {};
    action.sa_handler = tell_and_die;
    action.sa_flags = SA_ONSTACK; // where the thread has a HandlerStack
    sigaction(SIGALRM, &action, nullptr);
#if !defined(__SANITIZE_ADDRESS__) // which has better to tell
    for (const int signal : {SIGSEGV, SIGBUS, SIGILL, SIGFPE, SIGABRT, SIGTRAP})
        sigaction(signal, &action, nullptr);
#endif
}

// A stack for the handler alone, while this lives: a thread whose own stack has run out can still tell.
class HandlerStack {
public:
    explicit HandlerStack(std::vector<unsigned char>& memory)
    {
        stack.ss_sp = memory.data();
        stack.ss_size = memory.size();
        sigaltstack(&stack, nullptr);
    }
    ~HandlerStack()
    {
        stack.ss_flags = SS_DISABLE;
        sigaltstack(&stack, nullptr);
    }
    HandlerStack(const HandlerStack&) = delete;
    HandlerStack& operator=(const HandlerStack&) = delete;

private:
    stack_t stack = {};
};

} // namespace watch

#endif
