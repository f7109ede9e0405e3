// How deep a call writes to the stack.
#pragma once
#include <cstddef>
#include <functional>

// Runs the call in a thread whose stack holds a pattern, and gives the bytes from the frame of the caller down to the
// lowest byte that changed.
size_t stack_used(const std::function<void()> &call);
