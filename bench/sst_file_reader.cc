// Answers call lines from a block-based table file with RocksDB's own SstFileReader.
//
//   sst_file_reader FILE < CALLS
//
// bench/reads.sh compares `sst calls FILE` with it. It takes the lines `first` and `get USER SEQ` alone, and prints the
// value of the entry in hex digits, or `none`. The sequence number isn't looked at: the newest entry is shown.
#include <rocksdb/options.h>
#include <rocksdb/sst_file_reader.h>

#include <cstdio>
#include <cstring>
#include <memory>
#include <string>

namespace {

int digit(char c) { return c <= '9' ? c - '0' : (c | 32) - 'a' + 10; }

std::string bytes_of(const char *at, const char *end) {
  std::string bytes;
  for (; at + 1 < end; at += 2) bytes += static_cast<char>(digit(at[0]) * 16 + digit(at[1]));
  return bytes;
}

void print(const rocksdb::Iterator &entries) {
  static const char digits[] = "0123456789abcdef";
  if (!entries.Valid()) {
    puts("none");
    return;
  }
  std::string text;
  for (unsigned char byte : entries.value().ToString()) {
    text += digits[byte / 16];
    text += digits[byte % 16];
  }
  puts(text.c_str());
}

}  // namespace

int main(int count, char **words) {
  if (count != 2) return 1;
  rocksdb::SstFileReader reader((rocksdb::Options()));
  if (!reader.Open(words[1]).ok()) return 1;
  rocksdb::ReadOptions options;
  std::unique_ptr<rocksdb::Iterator> entries(reader.NewIterator(options));

  setvbuf(stdin, nullptr, _IOFBF, 65536);
  setvbuf(stdout, nullptr, _IOFBF, 65536);
  char *line = nullptr;
  size_t room = 0;
  for (ssize_t length; (length = getline(&line, &room, stdin)) > 0;) {
    if (strncmp(line, "get ", 4) == 0) {
      const char *end = strchr(line + 4, ' ');
      const std::string user = bytes_of(line + 4, end);
      entries->Seek(user);
      if (entries->Valid() && entries->key() != user) return 1;
    } else {
      entries->SeekToFirst();
    }
    print(*entries);
  }
  return 0;
}
