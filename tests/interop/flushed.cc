// Makes a block-based table file with RocksDB itself, and prints the entries that are in it.
//
//   flushed flush DIR VIEWS [WORD=N]..    a database in DIR is filled and flushed
//   flushed file OUT                      a file of SstFileWriter, which has a global sequence number
//   flushed walk FILE                     what SstFileReader shows of a file, forward and then back
//
// The words of `flush`, and what stands without them: version=2, checksum=1 (masked CRC32C; its number in include/rocksdb/table.h),
// block=256 (bytes of a data block), restart=16 (rows from one restart to the next in a data block), index_restart=1 (the same in an
// index block; a hash-search index has a restart for each row), hash=0 (1 for a hash-search index), part=0 (an index of two levels,
// whose parts are ended at so many bytes), count=300 entries, keys=300 user keys, each with as many versions as come to it, which
// snapshots keep, and least=0 bytes of a value.
//
// The files aren't compressed. Of `flush` the entry lines are printed as they were
// written, `USER SEQ KIND VALUE`; the flushed file has them in the order of keys. VIEWS becomes a file of what the database
// itself, once it is flushed, answers at some snapshots for each user key: `SEQ USER VALUE`, or `SEQ USER none`. Of `walk` a line
// `USER VALUE` is printed for each user key that has a value now, forward; and all once more, back.
#include <rocksdb/db.h>
#include <rocksdb/env.h>
#include <rocksdb/merge_operator.h>
#include <rocksdb/options.h>
#include <rocksdb/slice_transform.h>
#include <rocksdb/sst_file_reader.h>
#include <rocksdb/sst_file_writer.h>
#include <rocksdb/table.h>

#include <cstdint>
#include <cstdio>
#include <cstdlib>
#include <cstring>
#include <map>
#include <memory>
#include <string>
#include <vector>

namespace {

// The newer value counts: so what RocksDB answers for a key is the value of its newest entry, a Merge too.
class Newest : public rocksdb::AssociativeMergeOperator {
 public:
  bool Merge(const rocksdb::Slice &, const rocksdb::Slice *, const rocksdb::Slice &value, std::string *merged,
             rocksdb::Logger *) const override {
    *merged = value.ToString();
    return true;
  }
  const char *Name() const override { return "Newest"; }
};

// The numbers of the words.
using Form = std::map<std::string, unsigned>;

// The bytes as hex digits, or `-` for none.
std::string hex(const std::string &bytes) {
  if (bytes.empty()) return "-";
  std::string text;
  for (unsigned char byte : bytes) {
    char two[3];
    snprintf(two, sizeof two, "%02x", byte);
    text += two;
  }
  return text;
}

void check(const rocksdb::Status &status) {
  if (status.ok()) return;
  fprintf(stderr, "flushed: %s\n", status.ToString().c_str());
  exit(1);
}

rocksdb::Options options_of(const Form &form) {
  rocksdb::BlockBasedTableOptions table;
  table.format_version = form.at("version");
  table.checksum = static_cast<rocksdb::ChecksumType>(form.at("checksum"));
  table.block_size = form.at("block");
  table.block_restart_interval = static_cast<int>(form.at("restart"));
  table.index_block_restart_interval = static_cast<int>(form.at("index_restart"));
  table.filter_policy = nullptr;
  rocksdb::Options options;
  if (form.at("hash") == 1) {
    table.index_type = rocksdb::BlockBasedTableOptions::kHashSearch;
    options.prefix_extractor.reset(rocksdb::NewFixedPrefixTransform(2));
  }
  if (form.at("part") > 0) {
    table.index_type = rocksdb::BlockBasedTableOptions::kTwoLevelIndexSearch;
    table.metadata_block_size = form.at("part");
  }
  options.compression = rocksdb::kNoCompression;
  options.table_factory.reset(rocksdb::NewBlockBasedTableFactory(table));
  options.merge_operator = std::make_shared<Newest>();
  options.create_if_missing = true;
  options.disable_auto_compactions = true;
  return options;
}

// One entry after the others: a key of the list, of each kind in turn.
void put(rocksdb::DB *db, const std::string &key, int i, size_t least) {
  const rocksdb::WriteOptions write;
  const std::string value(least + static_cast<size_t>(i * 7 % 90), static_cast<char>('a' + i % 26));
  const char kind = "PDMPSP"[(i + i / 60) % 6];
  switch (kind) {
    case 'P': check(db->Put(write, key, value)); break;
    case 'D': check(db->Delete(write, key)); break;
    case 'M': check(db->Merge(write, key, value)); break;
    default: check(db->SingleDelete(write, key)); break;
  }
  const bool bare = kind == 'D' || kind == 'S';
  printf("%s %llu %c %s\n", hex(key).c_str(), static_cast<unsigned long long>(db->GetLatestSequenceNumber()), kind,
         hex(bare ? std::string() : value).c_str());
}

std::string key_of(unsigned number) {
  char key[12];
  snprintf(key, sizeof key, "k%03u", number);
  return key;
}

// Writes what the database answers at a snapshot for each user key.
void view(rocksdb::DB *db, const rocksdb::Snapshot *snapshot, unsigned keys, FILE *views) {
  rocksdb::ReadOptions read;
  read.snapshot = snapshot;
  for (unsigned number = 0; number < keys; number++) {
    std::string value;
    const rocksdb::Status status = db->Get(read, key_of(number), &value);
    if (!status.IsNotFound()) check(status);
    fprintf(views, "%llu %s %s\n", static_cast<unsigned long long>(snapshot->GetSequenceNumber()), hex(key_of(number)).c_str(),
            status.ok() ? hex(value).c_str() : "none");
  }
}

int flush(const std::string &folder, const char *out, const Form &form) {
  rocksdb::DB *opened = nullptr;
  check(rocksdb::DB::Open(options_of(form), folder, &opened));
  std::unique_ptr<rocksdb::DB> db(opened);
  const unsigned count = form.at("count");
  const unsigned keys = form.at("keys");
  std::vector<const rocksdb::Snapshot *> snapshots = {db->GetSnapshot()};
  for (unsigned i = 0; i < count; i++) {
    put(db.get(), key_of(i * 37 % keys), static_cast<int>(i), form.at("least"));
    snapshots.push_back(db->GetSnapshot());
  }
  check(db->Flush(rocksdb::FlushOptions()));
  FILE *views = fopen(out, "w");
  if (views == nullptr) return 1;
  for (unsigned part = 0; part <= 4; part++) view(db.get(), snapshots[count * part / 4], keys, views);
  if (fclose(views) != 0) return 1;
  for (const rocksdb::Snapshot *snapshot : snapshots) db->ReleaseSnapshot(snapshot);
  return 0;
}

int file(const std::string &out, const Form &form) {
  rocksdb::SstFileWriter writer(rocksdb::EnvOptions(), options_of(form));
  check(writer.Open(out));
  check(writer.Put("a", "1"));
  check(writer.Put("b", "2"));
  check(writer.Finish());
  return 0;
}

void print(const rocksdb::Iterator &entries) {
  printf("%s %s\n", hex(entries.key().ToString()).c_str(), hex(entries.value().ToString()).c_str());
}

int walk(const std::string &name, const Form &form) {
  rocksdb::SstFileReader reader(options_of(form));
  check(reader.Open(name));
  check(reader.VerifyChecksum());
  std::unique_ptr<rocksdb::Iterator> entries(reader.NewIterator(rocksdb::ReadOptions()));
  for (entries->SeekToFirst(); entries->Valid(); entries->Next()) print(*entries);
  for (entries->SeekToLast(); entries->Valid(); entries->Prev()) print(*entries);
  check(entries->status());
  return 0;
}

// Takes a word `NAME=N` of a name that the form has.
bool take(const char *word, Form *form) {
  const char *equals = strchr(word, '=');
  if (equals == nullptr) return false;
  const auto found = form->find(std::string(word, equals));
  if (found == form->end()) return false;
  found->second = static_cast<unsigned>(atoi(equals + 1));
  return true;
}

}  // namespace

int main(int count, char **words) {
  Form form = {{"version", 2}, {"checksum", 1}, {"block", 256}, {"restart", 16}, {"index_restart", 1},
               {"hash", 0},    {"part", 0},     {"count", 300}, {"keys", 300},   {"least", 0}};
  bool understood = true;
  for (int i = 4; i < count; i++) understood = understood && take(words[i], &form);
  if (understood && count >= 4 && std::string(words[1]) == "flush") return flush(words[2], words[3], form);
  if (count == 3 && std::string(words[1]) == "file") return file(words[2], form);
  if (count == 3 && std::string(words[1]) == "walk") return walk(words[2], form);
  fprintf(stderr, "usage: flushed flush DIR VIEWS [WORD=N].. | flushed file OUT | flushed walk FILE\n");
  return 1;
}
