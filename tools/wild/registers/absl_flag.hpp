// absl::SetFlag and absl::GetFlag of a record.
#include "absl/flags/flag.h"
#include "absl/flags/marshalling.h"
#include <string>
static bool AbslParseFlag(absl::string_view, record *, std::string *) { return true; }
static std::string AbslUnparseFlag(const record &) { return ""; }
ABSL_FLAG(record, held, record_of(0), "");
static void open_register(const record &) {}
static void write_register(int, const record &from) { absl::SetFlag(&FLAGS_held, from); }
static void read_register(int, record &to) { to = absl::GetFlag(FLAGS_held); }
