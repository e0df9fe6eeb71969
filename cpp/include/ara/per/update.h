#pragma once

#include <functional>
#include <utility>

#include "ara/core/instance_specifier.h"
#include "ara/core/result.h"
#include "ara/core/string.h"
#include "ara/per/detail/engine.h"

namespace ara::per {

/// Makes what the manifest of `StartEngine` says: installs it where nothing is installed, updates to it where it is
/// newer than the active one, and does nothing where it is that one. The first opening does the same by itself.
///
/// An update is whole or not at all. The version before stays until `CleanUpPersistency` or `RollbackPersistency`.
///
/// # Errors
/// - `kManifestRejected`: there is no manifest, or it breaks a rule
/// - `kUpdateNotFinished`: the update before was not cleaned up
/// - `kVersionNotNewer`: the manifest is older than the active one
/// - `kResourceBusy`: a storage is open
/// - `kDataTypeMismatch`: no converter leads from the type of a key to its new one
/// - `kIntegrityCorrupted`: what is to be carried over cannot be read
/// - `kOutOfStorageSpace`, `kLimitReached`: what is carried over does not fit the new version
/// - `kPhysicalStorageFailure`, `kNotStarted`
[[nodiscard]] inline ara::core::Result<void> UpdatePersistency() noexcept {
  return detail::WithEngine<void>([](detail::Engine& engine) { return engine.Update(); });
}

/// Forgets the version before the last update. It is no error that there is none.
///
/// # Errors
/// - `kNotInstalled`, `kIntegrityCorrupted` (of the root), `kPhysicalStorageFailure`, `kNotStarted`
[[nodiscard]] inline ara::core::Result<void> CleanUpPersistency() noexcept {
  return detail::WithEngine<void>([](detail::Engine& engine) { return engine.CleanUp(); });
}

/// Goes back to the version before the last update, as it was then. Not of the standard, where it is the update
/// manager's: a program that still has the newer manifest updates again when it starts next.
///
/// # Errors
/// - `kNoPreviousVersion`: there was no update, or it was cleaned up
/// - `kResourceBusy`: a storage is open
/// - `kNotInstalled`, `kIntegrityCorrupted` (of the root), `kPhysicalStorageFailure`, `kNotStarted`
[[nodiscard]] inline ara::core::Result<void> RollbackPersistency() noexcept {
  return detail::WithEngine<void>([](detail::Engine& engine) { return engine.Rollback(); });
}

/// Forgets all of the application, the version before too, and installs the manifest of `StartEngine` again; where a
/// root is corrupt this makes a new one. A stop between the two leaves nothing installed, and the next opening
/// installs.
///
/// # Errors
/// - `kManifestRejected`: there is no manifest, and nothing was done; or it breaks a rule, and nothing is installed
/// - `kResourceBusy`: a storage is open
/// - `kPhysicalStorageFailure`, `kNotStarted`
[[nodiscard]] inline ara::core::Result<void> ResetPersistency() noexcept {
  return detail::WithEngine<void>([](detail::Engine& engine) { return engine.Reset(); });
}

/// Whether the file of the manifest has another text than the one that was read of it last.
///
/// # Errors
/// - `kManifestRejected`: there is no such file, or `StartEngine` was given none
/// - `kNotStarted`
[[nodiscard]] inline ara::core::Result<bool> CheckForManifestUpdate() noexcept {
  return detail::WithEngine<bool>([](detail::Engine& engine) { return engine.HasOtherManifest(); });
}

/// Reads the file of the manifest again. `UpdatePersistency`, or the next opening, makes what it says.
///
/// # Errors
/// - as `CheckForManifestUpdate`
[[nodiscard]] inline ara::core::Result<void> ReloadPersistencyManifest() noexcept {
  return detail::WithEngine<void>([](detail::Engine& engine) { return engine.ReloadManifest(); });
}

/// From now on, `callback` is told of each storage that is opened the first time after an update, with the version
/// before, on the thread that opens and before its call returns. It may open the storage and change what no converter
/// could. A process that ends before `CleanUpPersistency` is told again by the next one. An empty function ends it. It
/// must not throw.
inline void RegisterApplicationDataUpdateCallback(
    std::function<void(const ara::core::InstanceSpecifier& storage, ara::core::String version)> callback) noexcept {
  detail::UpdateListener().Set(std::move(callback));
}

}  // namespace ara::per
