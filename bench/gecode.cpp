// Lists an accepted book with Gecode: all solutions, settings in order, smallest value first.
//
// The model: one integer variable for each setting; one 0/1 variable for each "setting at most d" that the book speaks of, tied to
// its setting by reification ("at least d" is the negation of "at most d-1"); one clause for each rule. The search is Gecode's
// depth-first engine with its default distances and one thread. Other distances, and branching over all values of a setting at
// once, were tried: each gains on one book or another, at most a third, and none on all.
#include <chrono>
#include <cstddef>
#include <cstdint>
#include <map>
#include <utility>

#include <gecode/int.hh>
#include <gecode/search.hh>

using namespace Gecode;

namespace {

class Lister : public Space {
  public:
    IntVarArray settings;

    explicit Lister(const uint8_t *book) : settings(*this, book[3], 0, book[2] - 1) {
        const int rules = 256 * book[5] + book[6];
        const uint8_t *record = book + 7;
        std::map<std::pair<int, int>, BoolVar> at_most;
        for (int rule = 0; rule < rules; rule++) {
            const int literals = record[2];
            BoolVarArgs hold, fail;
            for (const uint8_t *literal = record + 3; literal < record + 3 + 3 * literals; literal += 3) {
                const int bound = literal[2];
                if (literal[1] == 0)
                    hold << known(at_most, literal[0], bound);
                else
                    fail << known(at_most, literal[0], bound - 1);
            }
            clause(*this, BOT_OR, hold, fail, 1);
            record += 3 + 3 * literals;
        }
        branch(*this, settings, INT_VAR_NONE(), INT_VAL_MIN());
    }

    explicit Lister(Lister &other) : Space(other) { settings.update(*this, other.settings); }

    Space *copy() override { return new Lister(*this); }

  private:
    // The 0/1 variable of "setting at most bound", made when it is first asked for.
    BoolVar known(std::map<std::pair<int, int>, BoolVar> &at_most, int setting, int bound) {
        auto found = at_most.find({setting, bound});
        if (found != at_most.end()) return found->second;
        BoolVar made(*this, 0, 1);
        rel(*this, settings[setting], IRT_LQ, bound, made);
        at_most.emplace(std::make_pair(setting, bound), made);
        return made;
    }
};

} // namespace

extern "C" {

struct gecode_listing {
    uint64_t rows;
    uint64_t checksum; // 0 where it is not asked for
    double search;     // seconds, without making the model
};

// The checksum is the one of `Checked` in src/listing.rs, over every value of every row in order.
gecode_listing gecode_list(const uint8_t *book, bool check) {
    Lister *model = new Lister(book);
    const auto posted = std::chrono::steady_clock::now();
    Search::Options options;
    options.threads = 1;
    options.clone = false;
    gecode_listing listing = {0, 0, 0};
    {
        DFS<Lister> engine(model, options);
        while (Lister *found = engine.next()) {
            listing.rows++;
            for (int setting = 0; check && setting < found->settings.size(); setting++)
                listing.checksum = (listing.checksum ^ static_cast<uint64_t>(found->settings[setting].val())) * 0x100000001b3u;
            delete found;
        }
    }
    listing.search = std::chrono::duration<double>(std::chrono::steady_clock::now() - posted).count();
    return listing;
}
}
