/// A folder for one test, with an engine over it, and what can be done to both from outside.
#pragma once

#include <cstdio>
#include <cstdlib>
#include <filesystem>
#include <fstream>
#include <iterator>
#include <string>
#include <vector>

#include "ara/core/instance_specifier.h"
#include "ara/per/engine.h"

/// The engine's program, from the command line.
inline std::string& Program() {
  static std::string program;
  return program;
}

class Bed final {
 public:
  Bed() {
    std::string pattern = (std::filesystem::temp_directory_path() / "ara-per-XXXXXX").string();
    if (::mkdtemp(pattern.data()) == nullptr) std::abort();
    top_ = pattern;
  }
  Bed(const Bed&) = delete;
  Bed& operator=(const Bed&) = delete;
  ~Bed() {
    ara::per::StopEngine();
    std::filesystem::remove_all(top_);
  }

  /// The folder of the engine, which is not there before the first start.
  [[nodiscard]] std::string Folder() const { return top_ / "kept"; }
  [[nodiscard]] std::string Path(const char* name) const { return top_ / name; }

  [[nodiscard]] ara::per::EngineOptions Options(const std::string& manifest) const {
    ara::per::EngineOptions options;
    options.program = Program();
    options.folder = Folder();
    options.manifest = manifest;
    return options;
  }

  /// Starts an engine; the one before is ended.
  [[nodiscard]] ara::core::Result<void> Start(const std::string& manifest) const {
    ara::per::StopEngine();
    return ara::per::StartEngine(Options(manifest));
  }

  void Write(const char* name, const std::string& text) const { std::ofstream{Path(name), std::ios::binary} << text; }

  /// Replaces each byte of a file of the disk by its complement.
  void Complement(int number) const {
    const std::string path = Folder() + "/f" + std::to_string(number);
    std::ifstream in{path, std::ios::binary};
    std::string bytes{std::istreambuf_iterator<char>{in}, {}};
    for (char& byte : bytes) byte = static_cast<char>(~byte);
    std::ofstream{path, std::ios::binary} << bytes;
  }

  /// Damages copies of a storage, by its number in the order of names: the areas of contents, or the slots of the
  /// index. Copies are counted from 1.
  void DamageContents(int storage, const std::vector<int>& copies) const {
    for (const int copy : copies) Complement(1024 + 32 * storage + 4 * (copy - 1) + 2);
  }
  void DamageIndex(int storage, const std::vector<int>& copies) const {
    for (const int copy : copies) {
      Complement(1024 + 32 * storage + 4 * (copy - 1));
      Complement(1024 + 32 * storage + 4 * (copy - 1) + 1);
    }
  }
  void DamageRoot() const {
    for (const int file : {0, 1, 4, 5, 8, 9}) Complement(file);
  }

 private:
  std::filesystem::path top_;
};

inline ara::core::InstanceSpecifier Named(const char* name) { return ara::core::InstanceSpecifier{name}; }
