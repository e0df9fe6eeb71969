/// The engine as this library sees it: lines that are asked one by one, and the storages that are open.
#pragma once

#include <algorithm>
#include <cstdint>
#include <ctime>
#include <fstream>
#include <functional>
#include <iterator>
#include <map>
#include <memory>
#include <mutex>
#include <optional>
#include <set>
#include <string>
#include <string_view>
#include <system_error>
#include <utility>
#include <vector>

#include <sys/stat.h>

#include "ara/core/instance_specifier.h"
#include "ara/core/result.h"
#include "ara/core/string.h"
#include "ara/per/detail/manifest.h"
#include "ara/per/detail/pipe.h"
#include "ara/per/detail/process.h"
#include "ara/per/detail/reply.h"
#include "ara/per/detail/text.h"
#include "ara/per/per_error_domain.h"
#include "ara/per/recovery.h"

namespace ara::per::detail {

/// The most bytes of a line, without its line feed, the digit of the application and the space after it.
inline constexpr std::size_t kMaxCallSize = 262'144 - 2;

using UpdateCallback = std::function<void(const ara::core::InstanceSpecifier&, ara::core::String)>;

inline Listener<UpdateCallback>& UpdateListener() noexcept {
  static Listener<UpdateCallback> listener;
  return listener;
}

enum class StorageKind : std::size_t { kKeys, kFiles };

/// Words of a call, joined by spaces.
template <class... Words>
[[nodiscard]] std::string Call(std::string_view word, const Words&... words) {
  std::string call{word};
  ((call += ' ', call += words), ...);
  return call;
}

class OpenStorage;

/// An engine. Any number of threads may use it: a `Turn` is what one of them has it by.
class Engine final {
 public:
  Engine(unsigned application, std::string manifest, std::string manifestFile)
      : application_{application},
        manifest_{OnOneLine(std::move(manifest))},
        manifestFile_{std::move(manifestFile)} {}
  Engine(const Engine&) = delete;
  Engine& operator=(const Engine&) = delete;
  ~Engine() { Stop(); }

  /// The engine for one thread, until the end of a scope. What else is in this class and changes is under it.
  class Turn final {
   public:
    explicit Turn(Engine& engine) : engine_{engine}, held_{engine.lock_} {}

    /// Sends a call and reads its answer; reports go to `reports`.
    [[nodiscard]] Result<std::string> Ask(std::string_view call, std::vector<Report>* reports = nullptr) {
      return Send({}, call, reports);
    }

    /// The same, and the engine learns before what time it is.
    [[nodiscard]] Result<std::string> AskNow(std::string_view call) {
      const auto now = std::max<std::int64_t>(0, std::time(nullptr));
      std::string moment;
      if (now != engine_.now_) moment = Call("now", std::to_string(now));
      engine_.now_ = now;
      return Send(moment, call, nullptr);
    }

   private:
    [[nodiscard]] Result<std::string> Send(std::string_view moment, std::string_view call,
                                           std::vector<Report>* reports) {
      if (call.size() > kMaxCallSize) return Result<std::string>::FromError(Refused(PerErrc::kLimitReached, "a line"));
      std::string lines;
      lines.reserve(moment.size() + call.size() + 4);
      if (!moment.empty()) (lines += moment) += '\n';
      lines += static_cast<char>('0' + engine_.application_);
      ((lines += ' ') += call) += '\n';
      if (!engine_.pipe_.IsOpen() || !engine_.pipe_.Write(lines)) return Gone();
      if (moment.empty()) return Answer(reports);
      const Result<void> isSet = Done(Answer(nullptr));
      Result<std::string> answer = Answer(reports);
      return isSet ? std::move(answer) : Result<std::string>::FromError(isSet.Error());
    }

    [[nodiscard]] Result<std::string> Answer(std::vector<Report>* reports) {
      std::string line;
      while (engine_.pipe_.ReadLine(line)) {
        if (line.compare(0, 7, "report ") == 0) {
          Report report;
          if (reports != nullptr && ReadReport(line, report)) reports->push_back(std::move(report));
          continue;
        }
        if (line.compare(0, 6, "error ") == 0) return Result<std::string>::FromError(ErrorOf(line));
        if (line.compare(0, 9, "bad-line ") == 0) return Result<std::string>::FromError(Unexpected(line));
        return line;
      }
      return Gone();
    }

    [[nodiscard]] Result<std::string> Gone() {
      return Result<std::string>::FromError(Refused(PerErrc::kPhysicalStorageFailure, engine_.End()));
    }

    Engine& engine_;
    std::lock_guard<std::mutex> held_;
  };

  // ---- beginning and end

  [[nodiscard]] Result<void> Start(const std::string& program, const std::string& folder) {
    Turn turn{*this};
    // Where it cannot be made the engine says what is wrong with it.
    (void)::mkdir(folder.c_str(), S_IRWXU);
    const int fault = process_.Start(program, folder, pipe_);
    if (fault != 0) {
      const std::string why = std::generic_category().message(fault);
      return Result<void>::FromError(
          Refused(PerErrc::kPhysicalStorageFailure, "the engine " + program + " cannot be started: " + why));
    }
    return Greet(turn);
  }

  [[nodiscard]] Result<void> Attach(int replies, int lines) {
    Turn turn{*this};
    pipe_ = Pipe{Descriptor{replies}, Descriptor{lines}};
    return Greet(turn);
  }

  void Stop() noexcept {
    Turn turn{*this};
    (void)End();
  }

  [[nodiscard]] bool IsAlive() {
    Turn turn{*this};
    return static_cast<bool>(Greet(turn));
  }

  [[nodiscard]] pid_t ProcessId() {
    Turn turn{*this};
    return process_.Id();
  }

  [[nodiscard]] Result<void> ReadManifest() {
    if (manifestFile_.empty() || !manifest_.empty()) return {};
    return ReloadManifest();
  }

  // ---- versions

  [[nodiscard]] Result<void> Update() {
    Turn turn{*this};
    isPrepared_ = false;
    if (manifest_.empty()) return Result<void>::FromError(NoManifest());
    return Prepare(turn);
  }

  [[nodiscard]] Result<void> CleanUp() {
    constexpr int kNoPreviousVersion = 23;
    Turn turn{*this};
    const Result<void> done = Done(turn.Ask("finish"));
    if (!done && done.Error().SupportData() != kNoPreviousVersion) return done;
    previous_.reset();
    return {};
  }

  [[nodiscard]] Result<void> Rollback() {
    Turn turn{*this};
    SettleAll(turn);
    Result<void> done = Done(turn.Ask("rollback"));
    if (done) previous_.reset();
    return done;
  }

  [[nodiscard]] Result<void> Reset() {
    Turn turn{*this};
    if (manifest_.empty()) return Result<void>::FromError(NoManifest());
    SettleAll(turn);
    const Result<void> wiped = Done(turn.Ask("wipe"));
    if (!wiped) return wiped;
    isPrepared_ = false;
    return Prepare(turn);
  }

  [[nodiscard]] Result<bool> HasOtherManifest() {
    Turn turn{*this};
    const std::optional<std::string> text = ManifestText();
    if (!text) return Result<bool>::FromError(NoManifest());
    return *text != manifest_;
  }

  [[nodiscard]] Result<void> ReloadManifest() {
    Turn turn{*this};
    std::optional<std::string> text = ManifestText();
    if (!text) return Result<void>::FromError(NoManifest());
    manifest_ = std::move(*text);
    isPrepared_ = false;
    return {};
  }

  // ---- storages: defined below OpenStorage

  /// The storage of this name and kind, which is opened where it is not open yet.
  [[nodiscard]] static Result<std::shared_ptr<OpenStorage>> Open(const std::shared_ptr<Engine>& engine,
                                                                 const std::string& name, StorageKind kind);

  /// Its size in bytes; where it is not open it is opened and closed again.
  [[nodiscard]] Result<std::uint64_t> SizeOf(const std::string& name, StorageKind kind);

  /// Does `word` (`recover-storage` or `reset-storage`) with it.
  [[nodiscard]] Result<void> Renew(std::string_view word, const std::string& name, StorageKind kind);

 private:
  friend class OpenStorage;

  /// A storage that was opened. Its object is there as long as this is, for its end takes this away.
  struct Opened {
    std::weak_ptr<OpenStorage> storage;
    const OpenStorage* object{nullptr};
  };

  /// What a program is to be told of an opening, after the turn.
  struct Notices {
    std::vector<Report> reports;
    std::optional<std::uint32_t> updatedFrom;
  };

  /// Any answer will do: a root may be corrupt, and can then be reset.
  [[nodiscard]] Result<void> Greet(Turn& turn) {
    const Result<std::string> status = turn.Ask("status");
    if (!status && !pipe_.IsOpen()) return Result<void>::FromError(status.Error());
    return {};
  }

  /// Closes the pipe, waits for the engine's end, and says how it ended.
  [[nodiscard]] std::string End() {
    pipe_.Close();
    const int status = process_.Wait();
    if (status >= 0) end_ = "the engine ended with status " + std::to_string(status);
    return end_;
  }

  [[nodiscard]] std::optional<std::string> ManifestText() const {
    std::ifstream file{manifestFile_, std::ios::binary};
    if (!file) return std::nullopt;
    return OnOneLine(std::string{std::istreambuf_iterator<char>{file}, {}});
  }

  [[nodiscard]] static ara::core::ErrorCode NoManifest() {
    return Refused(PerErrc::kManifestRejected, "there is no manifest");
  }

  /// Makes what the manifest says, once.
  [[nodiscard]] Result<void> Prepare(Turn& turn) {
    if (isPrepared_) return {};
    const Result<std::string> status = turn.Ask("status");
    if (!status) return Result<void>::FromError(status.Error());
    Cursor in{status.Value()};
    std::uint32_t active{};
    std::uint32_t previous{};
    const bool isInstalled = in.Take("status version ") && in.TakeNumber(active);
    previous_.reset();
    if (in.Take(" previous ") && in.TakeNumber(previous)) previous_ = previous;
    if (manifest_.size() > kMaxManifestSize) {
      return Result<void>::FromError(Refused(PerErrc::kManifestRejected, "the manifest is too long"));
    }
    if (!manifest_.empty() && !isInstalled) {
      const Result<void> done = Done(turn.AskNow(Call("install", manifest_)));
      if (!done) return done;
    } else if (!manifest_.empty() && ManifestVersion(manifest_) != active) {
      SettleAll(turn);
      const Result<void> done = Done(turn.AskNow(Call("update", manifest_)));
      if (!done) return done;
      previous_ = active;
      told_.clear();
    }
    isPrepared_ = true;
    return {};
  }

  /// Whether this storage is open and good; it is then put where `storage` is one. Where it is not but the engine may
  /// still have it open, it is closed: its last handle may be going on another thread, or the disk has failed.
  [[nodiscard]] bool Settle(Turn& turn, const std::string& name, StorageKind kind,
                            std::shared_ptr<OpenStorage>* storage = nullptr);
  void SettleAll(Turn& turn);

  [[nodiscard]] Result<void> OpenIn(Turn& turn, const std::shared_ptr<Engine>& engine, const std::string& name,
                                    StorageKind kind, std::shared_ptr<OpenStorage>& storage, Notices& notices);

  [[nodiscard]] static std::string OpeningOf(const std::string& name, StorageKind kind) {
    return Call(kind == StorageKind::kKeys ? "open-kvs" : "open-files", name);
  }

  [[nodiscard]] std::map<std::string, Opened>& OpenedOf(StorageKind kind) {
    return opened_[static_cast<std::size_t>(kind)];
  }

  const unsigned application_;
  std::mutex lock_;
  Pipe pipe_;
  Process process_;
  std::string end_{"the engine is gone"};
  std::int64_t now_{-1};
  std::string manifest_;
  const std::string manifestFile_;
  bool isPrepared_{false};
  std::optional<std::uint32_t> previous_;
  std::set<std::string> told_;  // the storages of which the update listener knows
  std::map<std::string, Opened> opened_[2];
};

/// A storage that is open; it is closed when nobody has it any more.
class OpenStorage final {
 public:
  OpenStorage(std::shared_ptr<Engine> engine, std::string name, StorageKind kind)
      : engine_{std::move(engine)}, name_{std::move(name)}, kind_{kind} {}
  OpenStorage(const OpenStorage&) = delete;
  OpenStorage& operator=(const OpenStorage&) = delete;

  ~OpenStorage() {
    Engine::Turn turn{*engine_};
    auto& opened = engine_->OpenedOf(kind_);
    const auto place = opened.find(name_);
    if (place == opened.end() || place->second.object != this) return;
    if (!isLost_) (void)turn.Ask(Call("close", name_));
    opened.erase(place);
  }

  [[nodiscard]] Engine::Turn TakeTurn() { return Engine::Turn{*engine_}; }

  /// Asks a call on this storage.
  template <class... Words>
  [[nodiscard]] Result<std::string> Ask(std::string_view word, const Words&... words) {
    Engine::Turn turn{*engine_};
    return AskIn(turn, Call(word, name_, words...), false);
  }

  /// The same for a call that marks a file with the time.
  template <class... Words>
  [[nodiscard]] Result<std::string> AskNow(std::string_view word, const Words&... words) {
    Engine::Turn turn{*engine_};
    return AskIn(turn, Call(word, name_, words...), true);
  }

  /// Asks within a turn that goes on.
  template <class... Words>
  [[nodiscard]] Result<std::string> AskNowIn(Engine::Turn& turn, std::string_view word, const Words&... words) {
    return AskIn(turn, Call(word, name_, words...), true);
  }

  [[nodiscard]] bool IsLost() const noexcept { return isLost_; }

 private:
  [[nodiscard]] Result<std::string> AskIn(Engine::Turn& turn, const std::string& call, bool isTimed) {
    constexpr int kDiskFailed = 4;
    if (isLost_) return Lost();
    Result<std::string> answer = isTimed ? turn.AskNow(call) : turn.Ask(call);
    if (answer) return answer;
    int number = answer.Error().SupportData();
    if (number == kDiskFailed) {
      const RefusalWords refusal = Refusal();
      const Result<std::string> size = turn.Ask(Call("size", name_));
      if (!size) number = size.Error().SupportData();
      Refusal() = refusal;
    }
    // Only a failing disk closes a storage that is open here. What the engine opens later under this name, or gives
    // out as the same number of a file, is another one's.
    isLost_ = number == kNotOpen;
    return answer;
  }

  [[nodiscard]] static Result<std::string> Lost() {
    Refusal() = "a failure of the disk has closed the storage";
    return Result<std::string>::FromError(MakeErrorCode(PerErrc::kPhysicalStorageFailure, kNotOpen));
  }

  const std::shared_ptr<Engine> engine_;
  const std::string name_;
  const StorageKind kind_;
  bool isLost_{false};
};

inline bool Engine::Settle(Turn& turn, const std::string& name, StorageKind kind,
                           std::shared_ptr<OpenStorage>* storage) {
  constexpr int kMaxFileHandles = 64;
  auto& opened = OpenedOf(kind);
  const auto place = opened.find(name);
  if (place == opened.end()) return false;
  const bool isLost = place->second.object->IsLost();
  if (!isLost && storage == nullptr && !place->second.storage.expired()) return true;
  if (!isLost && storage != nullptr) {
    *storage = place->second.storage.lock();
    if (*storage) return true;
  }
  for (int handle = 1; isLost && kind == StorageKind::kFiles && handle <= kMaxFileHandles; ++handle) {
    (void)turn.Ask(Call("close-file", name, std::to_string(handle)));
  }
  (void)turn.Ask(Call("close", name));
  opened.erase(place);
  return false;
}

inline void Engine::SettleAll(Turn& turn) {
  for (const StorageKind kind : {StorageKind::kKeys, StorageKind::kFiles}) {
    std::vector<std::string> names;
    for (const auto& [name, opened] : OpenedOf(kind)) names.push_back(name);
    for (const std::string& name : names) (void)Settle(turn, name, kind);
  }
}

inline Result<void> Engine::OpenIn(Turn& turn, const std::shared_ptr<Engine>& engine, const std::string& name,
                                   StorageKind kind, std::shared_ptr<OpenStorage>& storage, Notices& notices) {
  const Result<void> prepared = Prepare(turn);
  if (!prepared) return prepared;
  if (Settle(turn, name, kind, &storage)) return {};
  const Result<void> done = Done(turn.Ask(OpeningOf(name, kind), &notices.reports));
  if (!done) return done;
  storage = std::make_shared<OpenStorage>(engine, name, kind);
  OpenedOf(kind)[name] = Opened{storage, storage.get()};
  if (previous_ && UpdateListener().Get() && told_.insert(name).second) notices.updatedFrom = previous_;
  return {};
}

inline Result<std::shared_ptr<OpenStorage>> Engine::Open(const std::shared_ptr<Engine>& engine,
                                                         const std::string& name, StorageKind kind) {
  using Opening = Result<std::shared_ptr<OpenStorage>>;
  std::shared_ptr<OpenStorage> storage;  // outlives the turn, since its end takes one
  Notices notices;
  const Result<void> done = [&] {
    Turn turn{*engine};
    return engine->OpenIn(turn, engine, name, kind, storage, notices);
  }();
  Deliver(notices.reports);
  if (const UpdateCallback listener = UpdateListener().Get(); listener && notices.updatedFrom) {
    const std::string version = std::to_string(*notices.updatedFrom);
    listener(ara::core::InstanceSpecifier{ara::core::StringView{name.data(), name.size()}},
             ara::core::String(version.data(), version.size()));
  }
  if (!done) return Opening::FromError(done.Error());
  return storage;
}

inline Result<std::uint64_t> Engine::SizeOf(const std::string& name, StorageKind kind) {
  std::vector<Report> reports;
  const Result<std::uint64_t> size = [&]() -> Result<std::uint64_t> {
    Turn turn{*this};
    const Result<void> prepared = Prepare(turn);
    if (!prepared) return Result<std::uint64_t>::FromError(prepared.Error());
    if (Settle(turn, name, kind)) return NumberOf(turn.Ask(Call("size", name)));
    const Result<void> opened = Done(turn.Ask(OpeningOf(name, kind), &reports));
    if (!opened) return Result<std::uint64_t>::FromError(opened.Error());
    Result<std::uint64_t> number = NumberOf(turn.Ask(Call("size", name)));
    (void)turn.Ask(Call("close", name));
    return number;
  }();
  Deliver(reports);
  return size;
}

inline Result<void> Engine::Renew(std::string_view word, const std::string& name, StorageKind kind) {
  Turn turn{*this};
  const Result<void> prepared = Prepare(turn);
  if (!prepared) return prepared;
  if (!Settle(turn, name, kind)) {
    // Of the calls on a closed storage only this one says of which kind it is.
    const std::string probe = Call(kind == StorageKind::kKeys ? "exists" : "file-exists", name, "x");
    const Result<std::string> exists = turn.Ask(probe);
    if (!exists && exists.Error().SupportData() != kNotOpen) return Result<void>::FromError(exists.Error());
  }
  return Done(turn.AskNow(Call(word, name)));
}

// ---- the engine of this process

class Slot final {
 public:
  Slot() noexcept = default;
  Slot(const Slot&) = delete;
  Slot& operator=(const Slot&) = delete;
  ~Slot() { Empty(); }

  [[nodiscard]] std::shared_ptr<Engine> Get() {
    const std::lock_guard<std::mutex> held{lock_};
    return engine_;
  }

  template <class Begin>
  [[nodiscard]] Result<void> Fill(unsigned application, const std::string& manifest, const std::string& manifestFile,
                                  Begin begin) {
    constexpr unsigned kApplications = 8;
    const std::lock_guard<std::mutex> held{lock_};
    if (engine_ && engine_->IsAlive()) {
      return Result<void>::FromError(Refused(PerErrc::kResourceBusy, "an engine is running"));
    }
    if (application >= kApplications) {
      return Result<void>::FromError(Refused(PerErrc::kLimitReached, "there are eight applications"));
    }
    auto engine = std::make_shared<Engine>(application, manifest, manifestFile);
    const Result<void> read = engine->ReadManifest();
    if (!read) return read;
    const Result<void> begun = begin(*engine);
    if (begun) engine_ = std::move(engine);
    return begun;
  }

  void Empty() noexcept {
    const std::lock_guard<std::mutex> held{lock_};
    if (engine_) engine_->Stop();
    engine_.reset();
  }

 private:
  std::mutex lock_;
  std::shared_ptr<Engine> engine_;
};

[[nodiscard]] inline Slot& TheSlot() noexcept {
  static Slot slot;
  return slot;
}

[[nodiscard]] inline ara::core::ErrorCode NotStarted() {
  return Refused(PerErrc::kNotStarted, "no engine was started");
}

/// Calls `call` with the engine of this process.
template <class T, class F>
[[nodiscard]] Result<T> WithEngine(F call) {
  const std::shared_ptr<Engine> engine = TheSlot().Get();
  if (!engine) return Result<T>::FromError(NotStarted());
  return call(*engine);
}

/// Calls `call` with the engine of this process and the name of a storage.
template <class T, class F>
[[nodiscard]] Result<T> WithStorage(const ara::core::InstanceSpecifier& storage, F call) {
  const std::string name{AsText(storage.ToString())};
  const std::shared_ptr<Engine> engine = TheSlot().Get();
  if (!engine) return Result<T>::FromError(NotStarted());
  if (!IsName(name)) return Result<T>::FromError(Refused(PerErrc::kStorageNotFound, "no storage can have this name"));
  return call(engine, name);
}

}  // namespace ara::per::detail
