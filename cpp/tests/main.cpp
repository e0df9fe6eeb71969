/// Runs the tests over a program: tests PROGRAM [NAME], where NAME is a part of the tests' names.
#include <cstdio>
#include <cstring>

#include "bed.h"
#include "check.h"

int main(int count, char** words) {
  if (count < 2) {
    std::fputs("usage: tests PROGRAM [NAME]\n", stderr);
    return 2;
  }
  Program() = std::filesystem::absolute(words[1]).string();
  long run = 0;
  for (const check::Test& test : check::Tests()) {
    if (count > 2 && std::strstr(test.name, words[2]) == nullptr) continue;
    const long failed = check::TheCounts().failed;
    test.run();
    ara::per::StopEngine();
    std::printf("%s: %s\n", check::TheCounts().failed == failed ? "passed" : "FAILED", test.name);
    std::fflush(stdout);
    ++run;
  }
  const check::Counts& counts = check::TheCounts();
  std::printf("%ld tests, %ld checks, %ld failed\n", run, counts.checks, counts.failed);
  return counts.failed == 0 && run > 0 ? 0 : 1;
}
