/// A small test frame: tests that add themselves, and checks that count.
#pragma once

#include <cstdio>
#include <string>
#include <vector>

#include "ara/per/engine.h"
#include "ara/per/per_error_domain.h"

namespace check {

struct Test {
  const char* name;
  void (*run)();
};

inline std::vector<Test>& Tests() {
  static std::vector<Test> tests;
  return tests;
}

struct Counts {
  long checks{0};
  long failed{0};
};

inline Counts& TheCounts() {
  static Counts counts;
  return counts;
}

struct Adder {
  Adder(const char* name, void (*run)()) { Tests().push_back({name, run}); }
};

/// Counts a check; where it fails it says where, and what the engine said last.
inline bool That(bool holds, const char* file, int line, const char* text) {
  ++TheCounts().checks;
  if (holds) return true;
  ++TheCounts().failed;
  const auto why = ara::per::LastRefusal();
  std::fprintf(stderr, "%s:%d: %s\n    last refusal: %.*s\n", file, line, text, static_cast<int>(why.size()),
               why.data());
  return false;
}

/// Whether a result is this refusal.
template <class Result>
bool IsRefused(const Result& result, ara::per::PerErrc code) {
  if (result.HasValue()) return false;
  if (result.Error() == ara::per::MakeErrorCode(code, 0)) return true;
  std::fprintf(stderr, "    the error was %d\n", static_cast<int>(result.Error().Value()));
  return false;
}

}  // namespace check

#define TEST(Name)                                          \
  static void Name();                                       \
  static const check::Adder kAdd##Name{#Name, &Name};       \
  static void Name()

#define CHECK(...) check::That(static_cast<bool>(__VA_ARGS__), __FILE__, __LINE__, #__VA_ARGS__)

/// That a call is refused with the error PerErrc::k##Code.
#define CHECK_REFUSED(Code, ...) \
  check::That(check::IsRefused(__VA_ARGS__, ara::per::PerErrc::Code), __FILE__, __LINE__, #__VA_ARGS__ " is " #Code)

/// The value of a call that is not refused; the test ends where it is.
#define GET(name, ...)                                                              \
  auto name##_result = __VA_ARGS__;                                                 \
  if (!check::That(name##_result.HasValue(), __FILE__, __LINE__, #__VA_ARGS__)) return; \
  auto name = std::move(name##_result).Value()
