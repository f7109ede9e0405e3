// Over the axes. A, everywhere here, is the number of axes: 2, or 3 with height. What is asked of each axis is written
// out by the compiler, with no loop left: f is called with 0, 1 and, with height, 2, each a constant.
#pragma once
#include <cstddef>
#include <utility>

template <size_t a> using Axis = std::integral_constant<size_t, a>;

template <class F, size_t... a> auto sum(F f, std::index_sequence<a...>) { return (... + f(Axis<a>())); }
template <class F, size_t... a> bool all(F f, std::index_sequence<a...>) { return (... && f(Axis<a>())); }
template <class T, class F, size_t... a> T made(F f, std::index_sequence<a...>) { return T{f(Axis<a>())...}; }

template <size_t A, class F> auto sum(F f) { return sum(f, std::make_index_sequence<A>()); }
template <size_t A, class F> bool all(F f) { return all(f, std::make_index_sequence<A>()); }
// A T of one value for each axis.
template <class T, size_t A, class F> T made(F f) { return made<T>(f, std::make_index_sequence<A>()); }
