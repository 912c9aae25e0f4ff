// The accesses of 01 over BuDDy: reads a case file on standard input and prints its text.
//
//     memcase_buddy [--numbered] [--nodes] [--skip] [--table NODES CACHE]
//
// Conditions are BuDDy's diagrams in 01's order of variables, 0 to 63; each access is done
// in 01's steps, with bdd_apply, bdd_ite and bdd_appex, and garbage collection is BuDDy's.
// BuDDy does not number nodes as 01 does.  So a case that meets refusal 9 is answered as if
// there were space, and a node number that an earlier access may have made ends the program
// with status 3.
//
// --numbered   number each step's result as 01 does, so that these too are answered.  Ite
//              makes the nodes of its result that are not there yet, low part first, then
//              high part, then the node itself: going through the result in that order
//              gives each its number.  Any is then the Or of parts, as in 01.
// --nodes      as --numbered, and print the last node count on standard error
// --skip       leave out an entry that matches nowhere (01 still builds Or(e,r) for it)
// --table      BuDDy's first table of nodes and its caches

#include <bdd.h>

#include <cstdio>
#include <cstdlib>
#include <cstring>
#include <optional>
#include <string>
#include <unordered_map>
#include <vector>

namespace {

constexpr int kInputBytes = 65536;
constexpr size_t kTextBytes = 65536;
constexpr int kListWords = 16384;
constexpr int kEntryLimit = 4096;
constexpr int kNodeCapacity = 16384 / 3;
constexpr int kPorts = 4;
constexpr int kUserVariable = 8;
constexpr int kVariables = 64;

enum Kind { kWrite = 1, kRead = 2, kAssert = 3, kCheck = 4 };

struct Options {
  bool numbered = false;
  bool skip = false;
  int table = 6000;
  int cache = 6000;
};

// What is said when the program ends: accesses printed, nodes numbered.
struct Progress {
  bool print_nodes = false;
  int accesses = 0;
  int nodes = 0;
} progress;

[[noreturn]] void end_program() {
  if (progress.print_nodes) fprintf(stderr, "nodes %d\n", progress.nodes);
  fflush(stdout);
  _Exit(0);
}

// A refused case prints its row and the accesses already printed, and nothing else.
[[noreturn]] void refuse(int number) {
  printf("refused %d after %d\n", number, progress.accesses);
  end_program();
}

struct Pair {
  bdd h, l;
};

struct Entry {
  bdd h, s;
  std::vector<Pair> address, data;
};

// The steps of 01 on conditions.
class Conditions {
 public:
  explicit Conditions(bool numbered) : numbered_(numbered) {
    index_variables_ = bddtrue;
    for (int v = 0; v < kUserVariable; ++v) index_variables_ &= bdd_ithvar(v);
    take_number(bddfalse);
    take_number(bddtrue);
  }

  int count() const { return static_cast<int>(nodes_.size()); }
  const bdd& node(int number) const { return nodes_[number]; }

  // A node of the file; row 2 where it was there before.
  void add_file_node(int variable, const bdd& low, const bdd& high) {
    const bdd made = bdd_ite(bdd_ithvar(variable), high, low);
    if (has_number(made)) refuse(2);
    take_number(made);
  }

  bdd index(int i) { return step(bdd_ithvar(i)); }
  bdd not_(const bdd& f) { return step(bdd_not(f)); }
  bdd and_(const bdd& f, const bdd& g) { return step(bdd_apply(f, g, bddop_and)); }
  bdd or_(const bdd& f, const bdd& g) { return step(bdd_apply(f, g, bddop_or)); }
  bdd ite(const bdd& f, const bdd& g, const bdd& h) { return step(bdd_ite(f, g, h)); }

  // Any(And(f,g)).
  bdd any_and(const bdd& f, const bdd& g) {
    if (!numbered_) return bdd_appex(f, g, bddop_and, index_variables_);
    std::unordered_map<int, bdd> done;
    return any(and_(f, g), done);
  }

 private:
  bdd step(const bdd& f) {
    if (numbered_) give_numbers(f);
    return f;
  }

  bool has_number(const bdd& f) const {
    return static_cast<size_t>(f.id()) < has_number_.size() && has_number_[f.id()];
  }

  void take_number(const bdd& f) {
    if (count() >= kNodeCapacity) refuse(9);
    if (has_number_.size() <= static_cast<size_t>(f.id())) has_number_.resize(2 * f.id() + 1000);
    has_number_[f.id()] = true;
    nodes_.push_back(f);  // keeps it, so that BuDDy's number stays this node's
    progress.nodes = count();
  }

  void give_numbers(const bdd& f) {
    if (has_number(f)) return;
    give_numbers(bdd_low(f));
    give_numbers(bdd_high(f));
    take_number(f);
  }

  bdd any(const bdd& f, std::unordered_map<int, bdd>& done) {
    if (f == bddtrue || f == bddfalse || bdd_var(f) >= kUserVariable) return f;
    const auto found = done.find(f.id());
    if (found != done.end()) return found->second;
    const bdd low = any(bdd_low(f), done);
    const bdd high = any(bdd_high(f), done);
    return done[f.id()] = or_(low, high);
  }

  bool numbered_;
  bdd index_variables_;
  std::vector<bdd> nodes_;
  std::vector<char> has_number_;
};

class Memory {
 public:
  Memory(int n, int w, bool skip, Conditions& conditions)
      : n_(n), w_(w), skip_(skip), c_(conditions) {
    const int capacity = kListWords / (2 + 2 * n + 2 * w);
    entry_capacity_ = capacity < kEntryLimit ? capacity : kEntryLimit;
    assert_condition = bddtrue;
    check_condition = bddtrue;
    for (std::vector<Pair>& port : ports_) port.assign(w, Pair{bddtrue, bddtrue});
  }

  bdd assert_condition, check_condition;

  size_t entries() const { return entries_.size(); }

  // The entry's place, or none where the write is idle: its enable is 0 under every assignment.
  std::optional<size_t> write(const Pair& control, const std::vector<Pair>& address, const std::vector<Pair>& data) {
    if (control.h == bddfalse) return std::nullopt;
    Entry entry = built(control, address, data);
    need_space();
    entries_.push_back(std::move(entry));
    return entries_.size() - 1;
  }

  // The look, the port's word or the union of both; it becomes the port's.
  const std::vector<Pair>& read(int port, const Pair& control, const std::vector<Pair>& address) {
    const std::vector<Pair> r = look(address);
    const bdd unknown = c_.and_(control.h, control.l);
    std::vector<Pair>& held = ports_[port];
    for (int i = 0; i < w_; ++i) {
      held[i].h = chosen(unknown, control.h, r[i].h, held[i].h);
      held[i].l = chosen(unknown, control.h, r[i].l, held[i].l);
    }
    return held;
  }

  void check(const bdd& b, const std::vector<Pair>& address, const std::vector<Pair>& data) {
    const std::vector<Pair> r = look(address);
    const bdd holds = inside(r, data);
    check_condition = c_.and_(check_condition, c_.or_(c_.not_(b), holds));
  }

  // Whether the assert is entered.
  bool assert_(const bdd& b, const std::vector<Pair>& address, const std::vector<Pair>& data) {
    const std::vector<Pair> r = look(address);
    const bdd within = inside(data, r);
    assert_condition = c_.and_(assert_condition, c_.or_(c_.not_(b), within));
    const bdd holds = inside(r, data);
    const bdd not_b = c_.not_(b);
    if (c_.or_(not_b, c_.and_(within, holds)) == bddtrue) return false;
    need_space();
    entries_.push_back(built(Pair{b, not_b}, address, data));
    return true;
  }

 private:
  void need_space() const {
    if (entries_.size() >= static_cast<size_t>(entry_capacity_)) refuse(8);
  }

  // An entry, its h and s built.
  Entry built(const Pair& control, const std::vector<Pair>& address, const std::vector<Pair>& data) {
    const bdd hard = c_.and_(control.h, c_.not_(control.l));
    bdd u = bddtrue;
    for (const Pair& a : address) u = c_.and_(u, c_.not_(c_.and_(a.h, a.l)));
    const bdd h = c_.and_(hard, u);
    const bdd both = c_.and_(control.h, control.l);
    const bdd s = c_.or_(both, c_.and_(hard, c_.not_(u)));
    return Entry{h, s, address, data};
  }

  bdd narrow(bdd in, const std::vector<Pair>& address) {
    for (int i = 0; i < n_; ++i) in = c_.and_(in, c_.ite(c_.index(i), address[i].h, address[i].l));
    return in;
  }

  bdd replaced(const bdd& hm, const bdd& sm, const bdd& e, const bdd& r) {
    return c_.ite(hm, e, c_.ite(sm, c_.or_(e, r), r));
  }

  bdd chosen(const bdd& unknown, const bdd& enable, const bdd& r, const bdd& p) {
    return c_.ite(c_.ite(unknown, r, enable), r, p);
  }

  std::vector<Pair> look(const std::vector<Pair>& address) {
    const bdd in = narrow(bddtrue, address);
    std::vector<Pair> r(w_, Pair{bddtrue, bddtrue});
    for (const Entry& entry : entries_) {
      const bdd m = narrow(in, entry.address);
      const bdd hm = c_.and_(m, entry.h);
      const bdd sm = c_.and_(m, entry.s);
      if (skip_ && hm == bddfalse && sm == bddfalse) continue;
      for (int i = 0; i < w_; ++i) {
        r[i].h = replaced(hm, sm, entry.data[i].h, r[i].h);
        r[i].l = replaced(hm, sm, entry.data[i].l, r[i].l);
      }
    }
    for (Pair& bit : r) {
      bit.h = c_.any_and(in, bit.h);
      bit.l = c_.any_and(in, bit.l);
    }
    return r;
  }

  // Where each bit of `words` admits nothing that the bit of `others` does not.
  bdd inside(const std::vector<Pair>& words, const std::vector<Pair>& others) {
    bdd all = bddtrue;
    for (int i = 0; i < w_; ++i) {
      all = c_.and_(all, c_.or_(c_.not_(words[i].h), others[i].h));
      all = c_.and_(all, c_.or_(c_.not_(words[i].l), others[i].l));
    }
    return all;
  }

  int n_, w_;
  bool skip_;
  Conditions& c_;
  int entry_capacity_;
  std::vector<Entry> entries_;
  std::vector<Pair> ports_[kPorts];
};

// The bytes of a case file and a position in them.
class Reader {
 public:
  explicit Reader(std::vector<unsigned char> bytes) : bytes_(std::move(bytes)) {}

  void need(size_t count) const {
    if (bytes_.size() - at_ < count) refuse(10);
  }
  int byte() {
    need(1);
    return bytes_[at_++];
  }
  int number() {
    need(2);
    at_ += 2;
    return bytes_[at_ - 2] + 256 * bytes_[at_ - 1];
  }
  bool at_end() const { return at_ == bytes_.size(); }

 private:
  std::vector<unsigned char> bytes_;
  size_t at_ = 0;
};

// The text so far; row 13 as soon as a byte has no place.
class Text {
 public:
  void put(const char* bytes, size_t count) {
    if (kTextBytes - text_.size() < count) refuse(13);
    text_.append(bytes, count);
  }
  void put(const std::string& bytes) { put(bytes.data(), bytes.size()); }
  void put(const bdd& f) {
    if (f == bddfalse) return put("0", 1);
    if (f == bddtrue) return put("1", 1);
    put("(", 1);
    put(std::to_string(bdd_var(f)));
    put(" ", 1);
    put(bdd_low(f));
    put(" ", 1);
    put(bdd_high(f));
    put(")", 1);
  }
  const std::string& text() const { return text_; }

 private:
  std::string text_;
};

class Case {
 public:
  Case(std::vector<unsigned char> bytes, const Options& options)
      : reader_(std::move(bytes)), options_(options), conditions_(options.numbered) {}

  // Prints the text, or the refusal.
  void run() {
    reader_.need(2);
    n_ = reader_.byte();
    w_ = reader_.byte();
    if (n_ < 1 || n_ > 8 || w_ < 1 || w_ > 16) refuse(1);
    read_nodes();
    Memory memory(n_, w_, options_.skip, conditions_);
    const int accesses = reader_.number();
    for (; progress.accesses < accesses; ++progress.accesses) access(memory);
    if (!reader_.at_end()) refuse(12);
    text_.put("end " + std::to_string(memory.entries()) + "\n");
    fwrite(text_.text().data(), 1, text_.text().size(), stdout);
  }

 private:

  void read_nodes() {
    const int count = reader_.number();
    reader_.need(5 * static_cast<size_t>(count));
    if (count + 2 > kNodeCapacity) refuse(2);
    for (int number = 2; number < count + 2; ++number) {
      const int variable = reader_.byte();
      const int low = reader_.number();
      const int high = reader_.number();
      if (variable >= kVariables || low >= number || high >= number || low == high) refuse(2);
      if (variable >= variable_of(conditions_.node(low))) refuse(2);
      if (variable >= variable_of(conditions_.node(high))) refuse(2);
      conditions_.add_file_node(variable, conditions_.node(low), conditions_.node(high));
    }
  }

  static int variable_of(const bdd& f) {
    return f == bddfalse || f == bddtrue ? kVariables : bdd_var(f);
  }

  // Row 5, and the condition of a node number.
  bdd condition() {
    const int number = reader_.number();
    if (number >= conditions_.count()) {
      const bool none_made = options_.numbered || progress.accesses == 0 || number >= kNodeCapacity;
      if (!none_made) {
        fprintf(stderr, "memcase_buddy: node %d may be one that an access made; use --numbered\n", number);
        exit(3);
      }
      refuse(5);
    }
    const bdd& f = conditions_.node(number);
    if (variable_of(f) < kUserVariable) refuse(5);
    return f;
  }

  std::vector<Pair> pairs(int count) {
    std::vector<Pair> result;
    result.reserve(count);
    for (int i = 0; i < count; ++i) {
      const bdd h = condition();
      const bdd l = condition();
      result.push_back(Pair{h, l});
    }
    return result;
  }

  static void need_legal(const Pair& pair) {
    if (bdd_apply(pair.h, pair.l, bddop_or) != bddtrue) refuse(6);
  }

  // Reads, does and prints one access.
  void access(Memory& memory) {
    const int kind = reader_.byte();
    if (kind < kWrite || kind > kCheck) refuse(11);
    const bool enabled = kind == kWrite || kind == kRead;
    const int port_bytes = kind == kRead ? 1 : 0;
    const int data_bits = kind == kRead ? 0 : w_;
    reader_.need(port_bytes + 2 * ((enabled ? 2 : 1) + 2 * n_ + 2 * data_bits));
    const int port = port_bytes ? reader_.byte() : 0;
    if (port >= kPorts) refuse(14);
    Pair control;
    control.h = condition();
    if (enabled) control.l = condition();
    const std::vector<Pair> address = pairs(n_);
    const std::vector<Pair> data = pairs(data_bits);
    if (enabled) need_legal(control);
    for (const Pair& pair : address) need_legal(pair);
    for (const Pair& pair : data) need_legal(pair);
    if (kind == kAssert) {
      for (const Pair& pair : address) {
        if ((control.h & pair.h & pair.l) != bddfalse) refuse(7);
      }
    }
    switch (kind) {
      case kWrite: {
        const std::optional<size_t> place = memory.write(control, address, data);
        text_.put("write " + (place ? std::to_string(*place) : "idle") + "\n");
        break;
      }
      case kRead: {
        const std::vector<Pair>& word = memory.read(port, control, address);
        text_.put("read", 4);
        for (int i = w_ - 1; i >= 0; --i) {
          text_.put(" ", 1);
          text_.put(word[i].h);
          text_.put(":", 1);
          text_.put(word[i].l);
        }
        text_.put("\n", 1);
        break;
      }
      case kAssert:
        text_.put(memory.assert_(control.h, address, data) ? "assert entered " : "assert kept ");
        text_.put(memory.assert_condition);
        text_.put("\n", 1);
        break;
      case kCheck:
        memory.check(control.h, address, data);
        text_.put("check ", 6);
        text_.put(memory.check_condition);
        text_.put("\n", 1);
        break;
    }
  }

  Reader reader_;
  const Options& options_;
  Conditions conditions_;
  Text text_;
  int n_ = 0, w_ = 0;
};

std::vector<unsigned char> standard_input() {
  std::vector<unsigned char> bytes(kInputBytes);
  bytes.resize(fread(bytes.data(), 1, bytes.size(), stdin));
  return bytes;
}

Options options_from(int argc, char** argv) {
  Options options;
  for (int i = 1; i < argc; ++i) {
    if (!strcmp(argv[i], "--numbered")) {
      options.numbered = true;
    } else if (!strcmp(argv[i], "--nodes")) {
      options.numbered = progress.print_nodes = true;
    } else if (!strcmp(argv[i], "--skip")) {
      options.skip = true;
    } else if (!strcmp(argv[i], "--table") && i + 2 < argc) {
      options.table = atoi(argv[++i]);
      options.cache = atoi(argv[++i]);
    } else {
      fprintf(stderr, "memcase_buddy: unknown option %s\n", argv[i]);
      exit(2);
    }
  }
  return options;
}

}  // namespace

int main(int argc, char** argv) {
  const Options options = options_from(argc, argv);
  bdd_init(options.table, options.cache);
  bdd_gbc_hook(nullptr);  // the default one prints
  bdd_setvarnum(kVariables);
  Case made(standard_input(), options);
  made.run();
  end_program();
}
