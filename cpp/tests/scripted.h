/// An engine that answers as it is told, and checks what it is asked.
#pragma once

#include <string>
#include <thread>
#include <utility>
#include <vector>

#include <fcntl.h>
#include <unistd.h>

#include "ara/per/engine.h"
#include "check.h"

class Scripted final {
 public:
  /// A line that is awaited, and the reply to it. A line that says the time is answered `ok` and not awaited, and one
  /// that is not the awaited one is answered with an error that no engine has.
  using Exchange = std::pair<std::string, std::string>;

  explicit Scripted(std::vector<Exchange> script) : script_{std::move(script)} {
    int lines[2];
    int replies[2];
    if (::pipe2(lines, O_CLOEXEC) != 0 || ::pipe2(replies, O_CLOEXEC) != 0) return;
    thread_ = std::thread{[this, in = lines[0], out = replies[1]] { Serve(in, out); }};
    CHECK(ara::per::AttachEngine({}, replies[0], lines[1]));
  }
  Scripted(const Scripted&) = delete;
  Scripted& operator=(const Scripted&) = delete;
  ~Scripted() {
    ara::per::StopEngine();
    if (thread_.joinable()) thread_.join();
  }

 private:
  void Serve(int in, int out) {
    std::string line;
    std::size_t place = 0;
    for (char c{}; ::read(in, &c, 1) == 1;) {
      if (c != '\n') {
        line += c;
        continue;
      }
      std::string reply = "error 98 NotInTheScript " + line;
      if (line.compare(0, 4, "now ") == 0) {
        reply = "ok";
      } else if (place < script_.size() && script_[place].first == line) {
        reply = script_[place++].second;
      }
      reply += '\n';
      if (::write(out, reply.data(), reply.size()) < 0) break;
      line.clear();
    }
    ::close(in);
    ::close(out);
  }

  std::vector<Exchange> script_;
  std::thread thread_;
};
