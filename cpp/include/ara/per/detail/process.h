/// The engine as a child of this process.
#pragma once

#include <cerrno>
#include <csignal>
#include <string>
#include <utility>
#include <vector>

#include <fcntl.h>
#include <spawn.h>
#include <sys/wait.h>
#include <unistd.h>

#include "ara/per/detail/pipe.h"

extern char** environ;  // NOLINT: what POSIX asks a program to declare

namespace ara::per::detail {

/// A pipe, its reading end first. Both ends are closed in the program's other children, and neither is one of the
/// three standard descriptors, which a program may have closed.
[[nodiscard]] inline bool MakePipe(Descriptor& reading, Descriptor& writing) noexcept {
  int ends[2];
  if (::pipe2(ends, O_CLOEXEC) != 0) return false;
  const Descriptor first{ends[0]};
  const Descriptor second{ends[1]};
  reading = Descriptor{::fcntl(first.Number(), F_DUPFD_CLOEXEC, 3)};
  writing = Descriptor{::fcntl(second.Number(), F_DUPFD_CLOEXEC, 3)};
  return reading && writing;
}

/// A child. Its end is waited for when the object goes.
class Process final {
 public:
  Process() noexcept = default;
  Process(const Process&) = delete;
  Process& operator=(const Process&) = delete;
  ~Process() { (void)Wait(); }

  /// Starts `program --serve --dir folder` and gives the pipe to it. 0, or why it cannot be started, as `errno`.
  [[nodiscard]] int Start(const std::string& program, const std::string& folder, Pipe& pipe) {
    Descriptor lines[2];
    Descriptor replies[2];
    if (!MakePipe(lines[0], lines[1]) || !MakePipe(replies[0], replies[1])) return errno;
    Settings settings;
    ::posix_spawn_file_actions_adddup2(&settings.files, lines[0].Number(), STDIN_FILENO);
    ::posix_spawn_file_actions_adddup2(&settings.files, replies[1].Number(), STDOUT_FILENO);
    const int fault = Spawn({program, "--serve", "--dir", folder}, settings);
    if (fault == 0) pipe = Pipe{std::move(replies[0]), std::move(lines[1])};
    return fault;
  }

  [[nodiscard]] pid_t Id() const noexcept { return id_; }

  /// Waits for the end and gives its exit status, 128 and the signal where one ended it, and -1 where there is none.
  int Wait() noexcept {
    if (id_ <= 0) return -1;
    int status = 0;
    const pid_t id = std::exchange(id_, -1);
    while (::waitpid(id, &status, 0) < 0) {
      if (errno != EINTR) return -1;
    }
    return WIFEXITED(status) ? WEXITSTATUS(status) : 128 + WTERMSIG(status);
  }

 private:
  /// What the child begins with: no signal held back, and a group of its own, so that what a terminal sends to the
  /// program (Ctrl-C) is the program's: the engine ends when the program closes its pipe.
  struct Settings {
    posix_spawn_file_actions_t files;
    posix_spawnattr_t attributes;

    Settings() noexcept {
      sigset_t none;
      ::sigemptyset(&none);
      ::posix_spawn_file_actions_init(&files);
      ::posix_spawnattr_init(&attributes);
      ::posix_spawnattr_setsigmask(&attributes, &none);
      ::posix_spawnattr_setpgroup(&attributes, 0);
      ::posix_spawnattr_setflags(&attributes, POSIX_SPAWN_SETSIGMASK | POSIX_SPAWN_SETPGROUP);
    }
    Settings(const Settings&) = delete;
    Settings& operator=(const Settings&) = delete;
    ~Settings() {
      ::posix_spawn_file_actions_destroy(&files);
      ::posix_spawnattr_destroy(&attributes);
    }
  };

  /// Starts a child with these words, the first of which is its program.
  [[nodiscard]] int Spawn(std::vector<std::string> words, const Settings& settings) {
    std::vector<char*> arguments;
    for (std::string& word : words) arguments.push_back(word.data());
    arguments.push_back(nullptr);
    const int fault =
        ::posix_spawnp(&id_, arguments[0], &settings.files, &settings.attributes, arguments.data(), environ);
    if (fault != 0) id_ = -1;
    return fault;
  }

  pid_t id_{-1};
};

}  // namespace ara::per::detail
