// A table whose strings are looked up by units, or by a text in UTF-8, without a string of them, in C++11 and later. From
// C++20 on std::unordered_map<wtf8::string, int, wtf8::hasher, std::equal_to<>> does that for units.
#include <wtf8.hpp>
#include <iostream>
#include <unordered_map>

class table {
public:
    int &operator[](wtf8::units_in units) {
        int *found = find(units);
        return found ? *found : entries.emplace(hash(units), entry(wtf8::string(units), 0))->second.second;
    }
    int *find(wtf8::units_in units) {
        return found_of(hash(units), [&](const wtf8::string &key) { return key == units; });
    }
    int *find_utf8(wtf8::text_in text) {
        return found_of(hash.utf8(text), [&](const wtf8::string &key) { return key.equals_utf8(text); });
    }

private:
    using entry = std::pair<wtf8::string, int>;
    template <class Equal> int *found_of(size_t of, Equal equal) {
        auto range = entries.equal_range(of);
        for (auto at = range.first; at != range.second; ++at)
            if (equal(at->second.first)) return &at->second.second;
        return nullptr;
    }
    wtf8::hasher hash; // give it a random seed if others choose the strings
    std::unordered_multimap<size_t, entry> entries;
};

int main() {
    table counts;
    for (const char16_t *word : {u"caf\u00E9", u"\xD83D", u"caf\u00E9"}) counts[word]++;
    std::cout << *counts.find(u"caf\u00E9") << *counts.find_utf8("caf\xC3\xA9") << *counts.find(u"\xD83D");
    std::cout << (counts.find(u"x") == nullptr && counts.find_utf8("x") == nullptr) << '\n';
}
