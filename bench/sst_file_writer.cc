// Writes the entry lines of standard input as a block-based table file with RocksDB's own SstFileWriter.
//
//   sst_file_writer OUT BLOCK < LINES
//
// bench/run.sh compares `sst write block OUT block=BLOCK` with it. The file has version 2, masked CRC32C checksums, no
// compression and no filter. A data block ends where it has BLOCK bytes, without a look at the next entry: so the data blocks are
// those of `sst`. SstFileWriter gives each entry the sequence number
// 0, and more properties.
//
// It takes lines of kind P with sequence number 0 alone, and prints `wrote N` as `sst` does.
#include <rocksdb/env.h>
#include <rocksdb/options.h>
#include <rocksdb/sst_file_writer.h>
#include <rocksdb/table.h>

#include <cstdint>
#include <cstdio>
#include <cstdlib>
#include <cstring>
#include <string>

namespace {

// The value of each hex digit, and -1 for each other byte.
struct Digits {
  signed char value[256];
  Digits() {
    memset(value, -1, sizeof value);
    for (int i = 0; i < 10; i++) value['0' + i] = static_cast<signed char>(i);
    for (int i = 0; i < 6; i++) value['a' + i] = value['A' + i] = static_cast<signed char>(10 + i);
  }
  int operator[](char c) const { return value[static_cast<unsigned char>(c)]; }
};

const Digits digits;

// Reads the bytes of a field: hex digits, or `-` for none.
bool bytes_of(const char *at, const char *end, std::string *bytes) {
  bytes->clear();
  if (end - at == 1 && *at == '-') return true;
  if (at == end || (end - at) % 2 != 0) return false;
  bytes->resize(static_cast<size_t>(end - at) / 2);
  for (char &byte : *bytes) {
    const int high = digits[at[0]];
    const int low = digits[at[1]];
    if ((high | low) < 0) return false;
    byte = static_cast<char>(high * 16 + low);
    at += 2;
  }
  return true;
}

// Reads a line without its line end: `USER 0 P VALUE`.
bool entry_of(const char *line, size_t length, std::string *user, std::string *value) {
  const char *end = line + length;
  const char *blank = static_cast<const char *>(memchr(line, ' ', length));
  if (blank == nullptr || end - blank < 5 || memcmp(blank, " 0 P ", 5) != 0) return false;
  return bytes_of(line, blank, user) && bytes_of(blank + 5, end, value);
}

// Says what failed, and answers the program's status.
int failed(const std::string &what) {
  fprintf(stderr, "sst_file_writer: %s\n", what.c_str());
  return 1;
}

}  // namespace

int main(int count, char **words) {
  if (count != 3) return failed("usage: sst_file_writer OUT BLOCK < LINES");

  rocksdb::BlockBasedTableOptions table;
  table.format_version = 2;
  table.checksum = rocksdb::kCRC32c;
  table.block_size = strtoull(words[2], nullptr, 10);
  table.block_size_deviation = 0;
  table.filter_policy = nullptr;
  rocksdb::Options options;
  options.compression = rocksdb::kNoCompression;
  options.table_factory.reset(rocksdb::NewBlockBasedTableFactory(table));
  rocksdb::SstFileWriter writer(rocksdb::EnvOptions(), options, nullptr, false);

  rocksdb::Status status = writer.Open(words[1]);
  if (!status.ok()) return failed(status.ToString());

  setvbuf(stdin, nullptr, _IOFBF, 65536);
  char *line = nullptr;
  size_t room = 0;
  uint64_t number = 0;
  std::string user, value;
  for (ssize_t length; (length = getline(&line, &room, stdin)) > 0;) {
    number += 1;
    if (line[length - 1] != '\n' || !entry_of(line, length - 1, &user, &value)) {
      return failed("line " + std::to_string(number));
    }
    status = writer.Put(user, value);
    if (!status.ok()) return failed(status.ToString());
  }

  status = writer.Finish();
  if (!status.ok()) return failed(status.ToString());
  printf("wrote %llu\n", static_cast<unsigned long long>(number));
  return 0;
}
