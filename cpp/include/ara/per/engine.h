/// Where the storages of a program are kept, and who keeps them. Not of the standard, which leaves this to a platform.
#pragma once

#include <memory>
#include <mutex>
#include <string>
#include <string_view>
#include <utility>

#include <sys/types.h>

#include "ara/core/result.h"
#include "ara/core/string.h"
#include "ara/per/detail/engine.h"

namespace ara::per {

/// What `StartEngine` is given.
struct EngineOptions {
  /// The engine's program; without a slash it is looked for on the path.
  std::string program{"per"};

  /// The folder of everything that is kept. Where it is missing it is made, if the one above it is there.
  std::string folder;

  /// What the program keeps, as the text of a manifest; or the file of this text. Where both are empty the storages
  /// are those that were installed before.
  std::string manifest;
  std::string manifestFile;

  /// Which of the folder's eight applications the program is, 0 to 7.
  unsigned application{0};
};

/// Starts the engine of this process, as a child. Everything else of this library comes after it, but for the
/// registering of callbacks. The engine ends with `StopEngine` and with the process.
///
/// # Errors
/// - `kResourceBusy`: an engine is running already
/// - `kPhysicalStorageFailure`: it cannot be started, or ended at once, as where the folder is not the engine's or
///   another engine has it; `LastRefusal` has its exit status, and standard error its reason
/// - `kManifestRejected`: the file of the manifest cannot be read
/// - `kLimitReached`: the application is not 0 to 7
[[nodiscard]] inline ara::core::Result<void> StartEngine(const EngineOptions& options) noexcept {
  return detail::TheSlot().Fill(options.application, options.manifest, options.manifestFile,
                                [&options](detail::Engine& engine) {
                                  return engine.Start(options.program, options.folder);
                                });
}

/// As `StartEngine`, with an engine that is there already: its replies are read from `replies`, and its lines are
/// written to `lines`. Both descriptors then belong to this library. Of the options, `program` and `folder` are not
/// looked at.
[[nodiscard]] inline ara::core::Result<void> AttachEngine(const EngineOptions& options, int replies,
                                                          int lines) noexcept {
  return detail::TheSlot().Fill(options.application, options.manifest, options.manifestFile,
                                [replies, lines](detail::Engine& engine) { return engine.Attach(replies, lines); });
}

/// Ends the engine and waits for its end. What is not synchronised is lost, and every handle that is still there
/// answers `kPhysicalStorageFailure`. Then another engine may be started.
inline void StopEngine() noexcept { detail::TheSlot().Empty(); }

/// The process of the engine, and -1 where it is not this library's child.
[[nodiscard]] inline pid_t EngineProcess() noexcept {
  const std::shared_ptr<detail::Engine> engine = detail::TheSlot().Get();
  return engine ? engine->ProcessId() : -1;
}

/// Why the last call that was refused on this thread was: the engine's own line, `error 7 DataTypeMismatch u8 u16`, or
/// a sentence of this library. For logs; empty where no call was refused.
[[nodiscard]] inline ara::core::String LastRefusal() {
  const std::string_view words = detail::Refusal().Text();
  return ara::core::String(words.data(), words.size());
}

}  // namespace ara::per
