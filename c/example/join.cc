#include <iostream>
#include <map>
#include <wtf8.hpp>

int main() {
    std::u16string front = u"a\xD83D", back = u"\xDCA9";
    wtf8::string s(front);
    s += back;
    // From C++14 on std::less<> as third argument finds units too: lengths.find(u"a").
    std::map<wtf8::string, std::size_t> lengths;
    lengths.emplace(s.clone(), s.unit_len()); // insert({s.clone(), 3}) would copy, which is refused
    for (const auto &entry : lengths)
        std::cout << entry.second << " units: " << entry.first.utf8() << "\n";
}
