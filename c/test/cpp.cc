/* The class of wtf8.hpp: what it must return is known by hand or by std::u16string. Standard containers hold its strings,
 * and the library's requests for memory are refused in turn. Without exceptions a call that fails ends a process. Linked
 * with -Wl,--wrap=malloc,--wrap=realloc,--wrap=free. */
#include "../wtf8.hpp"
#include "must.h"

#include <algorithm>
#include <csignal>
#include <functional>
#include <iomanip>
#include <iterator>
#include <map>
#include <sstream>
#include <type_traits>
#include <unordered_map>
#include <vector>

#if defined(__cpp_exceptions) || defined(__EXCEPTIONS)
#define WITH_EXCEPTIONS 1
#else
#define WITH_EXCEPTIONS 0
#include <sys/wait.h>
#include <unistd.h>
#endif

using wtf8::string;

static_assert(!std::is_copy_constructible<string>::value, "no copy unasked");
static_assert(!std::is_copy_assignable<string>::value, "no copy unasked");
static_assert(std::is_nothrow_default_constructible<string>::value, "an empty string needs no memory");
static_assert(std::is_nothrow_move_constructible<string>::value, "a move needs no memory");
static_assert(std::is_nothrow_move_assignable<string>::value, "a move needs no memory");
static_assert(noexcept(swap(std::declval<string &>(), std::declval<string &>())), "a swap needs no memory");
static_assert(!std::is_convertible<wtf8::units_in, string>::value, "no copy unasked");
static_assert(!std::is_convertible<std::u16string, string>::value, "no copy unasked");
static_assert(std::is_same<decltype(string().at(0)), char16_t>::value, "units are char16_t");
static_assert(std::is_same<decltype(string().units()), std::u16string>::value, "units are char16_t");

static long refuse_after = -1; /* the number of requests that are granted before all are refused; -1: all are granted */
static long blocks;            /* the number of blocks that were granted and not freed */
static long requests;          /* the number of requests that were granted */

static bool is_refused() { return refuse_after == 0 || (0 < refuse_after && refuse_after-- == 0); }

static void *granted(void *at, bool is_new) {
    if (at != nullptr) requests++;
    if (at != nullptr && is_new) blocks++;
    return at;
}

extern "C" {
void *__real_malloc(size_t size);
void *__real_realloc(void *at, size_t size);
void __real_free(void *at);
void *__wrap_malloc(size_t size);
void *__wrap_realloc(void *at, size_t size);
void __wrap_free(void *at);
void *__wrap_malloc(size_t size) { return granted(is_refused() ? nullptr : __real_malloc(size), true); }
void *__wrap_realloc(void *at, size_t size) {
    return granted(is_refused() ? nullptr : __real_realloc(at, size), at == nullptr);
}
void __wrap_free(void *at) {
    if (at != nullptr) blocks--;
    __real_free(at);
}
}

static size_t most; /* the most bytes of a block of operator new */
void *operator new(size_t size) {
    void *at = __real_malloc(size);
    if (most < size) most = size;
    if (at == nullptr) std::abort();
    return at;
}
void operator delete(void *at) noexcept { __real_free(at); }
void operator delete(void *at, size_t) noexcept { __real_free(at); }

/* "a", U+1F4A9 and a lone trail: 4 units, and the bytes 61, F0 9F 92 A9, ED B0 80. */
static const std::u16string mixed = u"a\xD83D\xDCA9\xDC00";
static const size_t huge = static_cast<size_t>(-1);

#if WITH_EXCEPTIONS

/* Whether the call throws exactly this. */
template <class Thrown, class Call> static bool throws(Call call) {
    try {
        call();
    } catch (const Thrown &thrown) {
        return typeid(thrown) == typeid(Thrown);
    } catch (...) {
    }
    return false;
}

/* Whether the call throws a wtf8::error of this code and position. */
template <class Call> static bool fails(Call call, wtf8_result code, size_t position = 0) {
    try {
        call();
    } catch (const std::invalid_argument &thrown) {
        const wtf8::error *error = dynamic_cast<const wtf8::error *>(&thrown);
        return error != nullptr && error->code == code && error->position == position && *error->what() != 0;
    }
    return false;
}

static bool is_out_of_range(const std::function<void()> &call) { return throws<std::out_of_range>(call); }
static bool is_bad_alloc(const std::function<void()> &call) { return throws<std::bad_alloc>(call); }

#else

enum { HANDLED = 40, IS_NO_CODE = 99 };

static wtf8_result expected_code;
static size_t expected_position;

/* Ends the process with HANDLED if the failure is the expected one. */
static void handle(wtf8_result code, size_t position) {
    _exit(code == expected_code && position == expected_position ? HANDLED : IS_NO_CODE);
}

/* How a process ends in which the call is made: its status, as waitpid gives it. */
template <class Call> static int end_of(Call call) {
    int status = 0;
    pid_t child = fork();
    if (child == 0) {
        call();
        _exit(0);
    }
    must(waitpid(child, &status, 0) == child, "a process for a call that fails");
    return status;
}

/* Whether the call calls the handler with this code and position, and without one ends the program by abort. */
template <class Call> static bool fails(Call call, wtf8_result code, size_t position = 0) {
    expected_code = code;
    expected_position = position;
    int aborted = end_of(call);
    must(wtf8::on_failure(handle) == nullptr, "no handler at first");
    int handled = end_of(call);
    must(wtf8::on_failure(nullptr) == handle, "the handler that was set");
    must(WIFSIGNALED(aborted) && WTERMSIG(aborted) == SIGABRT, "abort without a handler");
    return WIFEXITED(handled) && WEXITSTATUS(handled) == HANDLED;
}

static bool is_out_of_range(const std::function<void()> &call) { return fails(call, WTF8_BAD_POSITION); }
static bool is_bad_alloc(const std::function<void()> &call) { return fails(call, WTF8_NO_MEMORY); }

#endif

static void test_parts() {
    string s(u"a\xD83D");
    must(s.unit_len() == 2 && s.byte_len() == 4 && !s.is_utf8() && !s.empty(), "a lone lead");
    must(s.lossy() == "a\xEF\xBF\xBD", "lossy");
    s.append(u"\xDCA9");
    must(s.unit_len() == 3 && s.byte_len() == 5 && s.is_utf8() && s.utf8() == "a\xF0\x9F\x92\xA9", "a pair");
    s.append_unit(0xDC00);
    must(s.units() == mixed && s.byte_len() == 8 && wtf8::string::encoded_len(mixed) == 8, "units");
    must(s.units(1, 3) == u"\xD83D\xDCA9" && s.units(2, 2).empty() && s.slice(1, 2).units() == u"\xD83D", "slices");
    must(s.at(0) == u'a' && s.at(1) == 0xD83D && s.at(2) == 0xDCA9 && s.at(3) == 0xDC00, "at");
    const size_t positions[] = {0, 1, 1, 5, 8}, units_before[] = {0, 1, 1, 1, 1, 3, 3, 3, 4, 4};
    for (size_t i = 0; i <= 4; i++) must(s.position_at(i) == positions[i], "position_at");
    for (size_t i = 0; i <= 9; i++) must(s.unit_before(i) == units_before[i], "unit_before");
    for (size_t i = 0; i <= 9; i++) must(s.is_boundary(i) == (i < 2 || i == 5 || i == 8), "is_boundary");
    must(s.find(u"\xDCA9") == 2 && s.find(string(u"\xD83D\xDCA9")) == 1 && s.find(u"a", 1) == string::npos, "find");
    must(s.rfind(u"") == s.unit_len() && s.rfind(string(u"a")) == 0 && s.rfind(u"\xDCA9", 1) == string::npos, "rfind");
    must(s.divides_pair(2) && !s.divides_pair(1) && !s.divides_pair(3), "divides_pair");
    must(s.starts_with(string(u"a\xD83D")) && !s.starts_with(string(u"b")), "starts_with at the start");
    must(s.starts_with(string(u"\xDCA9"), 2) && !s.starts_with(string(u"\xDCA9"), 1), "starts_with at an index");
    s.mark();
    must(s.at(2) == 0xDCA9 && s.units() == mixed, "marks");
}

static void test_building() {
    string s;
    must(s.empty() && s.unit_len() == 0 && s.units().empty() && s.utf8().empty() && s.lossy().empty(), "empty");
    must(!string(u"a").empty() && !string(nullptr, 0).append_unit(0).empty(), "one byte is not empty");
    must(string(nullptr, 0).empty() && string(u"").empty() && string::from_utf8("").empty(), "strings of nothing");
    s.append(nullptr, 0).append(mixed.data(), 2).append(mixed.substr(2));
    must(s.units() == mixed, "append");
    s.append_code_point(0x1F4A9).append_code_point(0xD83D).append_code_point(0xDCA9).append_utf8("\xC3\xA9");
    s.append_latin1("\xE9z");
    must(s.units() == mixed + u"\xD83D\xDCA9\xD83D\xDCA9\xE9\xE9z", "append_code_point, append_utf8, append_latin1");
    s.assign(mixed).append(s, 2, 4).append(string(u"z")).append(s);
    must(s.units() == mixed + u"\xDCA9\xDC00z" + mixed + u"\xDCA9\xDC00z", "append of strings");
    must(s.assign_utf8("\xE4\xB8\xAD").units() == u"\x4E2D" && s.assign(string(u"ab")).units() == u"ab", "assign");
    must(s.assign(s).units() == u"ab" && s.assign(s, 1, 2).units() == u"b", "assign of a string to itself");
    must(s.assign(mixed.data(), 3).units() == mixed.substr(0, 3), "assign of units");
    must(s.clone().units() == s.units() && s.unit_len() == 3, "clone");
    must(string(mixed).get() != nullptr && wtf8_unit_len(string(mixed).get()) == 4, "get");
    s.reserve_bytes(1000);
    must(1005 <= s.capacity() && s.units() == mixed.substr(0, 3), "reserve_bytes");
    s.shrink();
    must(s.byte_len() <= s.capacity() && s.capacity() < 1005 && s.units() == mixed.substr(0, 3), "shrink");
    s.clear();
    s.shrink();
    must(s.capacity() == 0 && s.append(mixed).units() == mixed, "shrink of an empty string");
}

static void test_operators() {
    string s;
    s += u"a";
    s += char16_t(0xD83D);
    s += std::u16string(u"\xDCA9");
    s += char32_t(0xDC00);
    must(s == mixed && s[0] == u'a' && s[2] == 0xDCA9 && s[3] == 0xDC00, "+= of units, and []");
    s += U'\U0001F4A9';
    s += string(u"z");
    s += s;
    must(s.units() == mixed + u"\xD83D\xDCA9z" + mixed + u"\xD83D\xDCA9z", "+= of a code point and of strings");
}

/* What std::u16string has under the same names: each begin, length and index in short strings. */
static void test_as_std() {
    const std::vector<std::u16string> wholes = {u"", u"a", mixed, u"abcabcab", u"\xD83D\xDCA9\xD83D\xDCA9", u"aaaa"};
    for (const auto &whole : wholes) {
        const string s(whole);
        must(s.size() == whole.size() && s.substr().units() == whole, "size, and substr of all");
        for (size_t begin = 0; begin <= whole.size(); begin++) {
            for (size_t n = 0; n <= whole.size() + 1; n++) {
                must(s.substr(begin, n).units() == whole.substr(begin, n), "substr");
                must(s.clone().erase(begin, n).units() == std::u16string(whole).erase(begin, n), "erase");
                for (const auto &part : wholes)
                    must(s.clone().replace(begin, n, part).units() == std::u16string(whole).replace(begin, n, part) &&
                             s.clone().replace(begin, n, string(part)).units() == std::u16string(whole).replace(begin, n, part), "replace");
            }
            must(s.substr(begin).units() == whole.substr(begin), "substr to the end");
            must(s.clone().erase(begin).units() == std::u16string(whole).erase(begin), "erase to the end");
            for (const auto &part : wholes)
                must(s.clone().insert(begin, part).units() == std::u16string(whole).insert(begin, part) &&
                         s.clone().insert(begin, string(part)).units() == std::u16string(whole).insert(begin, part), "insert");
            string doubled(whole);
            must(doubled.insert(begin, doubled).units() == std::u16string(whole).insert(begin, whole), "insert of itself");
        }
        for (const auto &part : wholes) {
            for (size_t from = 0; from <= whole.size() + 1; from++) {
                must(s.find(part, from) == whole.find(part, from) && s.rfind(part, from) == whole.rfind(part, from), "find, rfind");
                must(s.find(u'a', from) == whole.find(u'a', from) && s.rfind(u'a', from) == whole.rfind(u'a', from), "a unit");
                must(s.find(string(part), from) == whole.find(part, from), "find of a string");
                must(s.rfind(string(part), from) == whole.rfind(part, from), "rfind of a string");
            }
            must(s.find(part) == whole.find(part) && s.rfind(part) == whole.rfind(part), "find and rfind of all");
            must(s.find(u'a') == whole.find(u'a') && s.rfind(u'a') == whole.rfind(u'a'), "find and rfind of a unit");
            must((s + string(part)).units() == whole + part && (s + part).units() == whole + part, "+");
            must((part + s).units() == part + whole && (s.clone() + part).units() == whole + part, "+ of units and a string");
            must((s.clone() + string(part) + s).units() == whole + part + whole, "+ of three");
        }
        string pushed;
        for (char16_t unit : whole) pushed.push_back(unit);
        string inserted;
        std::copy(whole.begin(), whole.end(), std::back_inserter(inserted));
        must(pushed == whole && inserted == whole, "push_back");
    }
    must((u"x" + string(u"y") + u"z").units() == u"xyz" && string(u"a\xD83D") + u"\xDCA9" == u"a\xD83D\xDCA9", "+ of literals");
    const string front(std::u16string(100, u'\x4E2D')), end(std::u16string(300, u'a'));
    const long before = requests;
    must((front + end).byte_len() == 600 && requests == before + 1, "+ takes one request");
    string twice(u"ab");
    must((std::move(twice) + twice.clone()).units() == u"abab", "+ of a string and its copy");
    std::ostringstream out;
    out << string(mixed) << '|' << std::setw(4) << string(u"ab") << '|';
    must(out.str() == "a\xF0\x9F\x92\xA9\xEF\xBF\xBD|  ab|", "<<");
#if 201703L <= __cplusplus
    const std::u16string_view view = u"ab";
    must(string(view) == view && view < string(u"b") && string(u"b") != view && string(u"ab").find(view) == 0, "views");
    must((string(view) + view).units() == u"abab" && (view + string(view)).size() == 4, "+ of views");
#endif
}

/* What lines return, as units. */
static std::u16string shown(const std::u16string &units) { return units; }
static std::u16string shown(const string &s) { return s.units(); }
template <class T> static typename std::enable_if<std::is_arithmetic<T>::value, std::u16string>::type shown(T value) {
    const std::string digits = std::to_string(value);
    return std::u16string(digits.begin(), digits.end());
}

/* What the lines return that users of std::u16string write without looking them up, each followed by its string. `s` is
 * another one for each line, and `t` is "bc". */
template <class S> static std::vector<std::pair<const char *, std::u16string>> lines() {
    std::vector<std::pair<const char *, std::u16string>> seen;
    const std::u16string start = u"abc\xD83D\xDCA9 bc", units = u"xy";
    const char16_t *const array = u"xyz";
    char16_t out[4] = {};
    std::map<S, int> sorted;
    std::unordered_map<S, int> hashed;
#define LINE(...)                                                                                             \
    {                                                                                                         \
        S s(start), t(u"bc");                                                                                 \
        seen.emplace_back(#__VA_ARGS__, shown(__VA_ARGS__));                                                  \
        seen.emplace_back("the string after " #__VA_ARGS__, s.empty() ? u"" : shown(s));                      \
    }
    LINE(S().empty()) LINE(S(u"ab")) LINE(S(array, 2)) LINE(S(units)) LINE(S(std::move(s)).size())
    LINE(s.size()) LINE(s.length()) LINE(s.empty()) LINE((s.clear(), s.empty()))
    LINE(s[1]) LINE(s.at(3)) LINE(s.front()) LINE(s.back())
    LINE(s = u"xy") LINE(s = u'x') LINE(s = units) LINE(s = std::move(t)) LINE(s = {})
    LINE(s.assign(u"xy")) LINE(s.assign(array, 2)) LINE(s.assign(3, u'x')) LINE(s.assign(t)) LINE(s.assign(units))
    LINE((s.push_back(u'x'), 0)) LINE((s.pop_back(), 0))
    LINE(s.append(u"xy")) LINE(s.append(array, 2)) LINE(s.append(3, u'x')) LINE(s.append(t)) LINE(s.append(units))
    LINE(s += u"xy") LINE(s += u'x') LINE(s += t) LINE(s += units) LINE(s += 'x') LINE(s += 0x41)
    LINE(s.insert(1, u"xy")) LINE(s.insert(1, t)) LINE(s.insert(1, 2, u'x')) LINE(s.insert(0, units))
    LINE(s.erase(1, 2)) LINE(s.erase(1)) LINE(s.erase())
    LINE(s.replace(1, 2, u"xyz")) LINE(s.replace(1, 2, t)) LINE(s.replace(0, 1, 3, u'x'))
    LINE((s.resize(2), 0)) LINE((s.resize(10), 0)) LINE((s.resize(12, u'x'), 0))
    LINE((s.reserve(100), 100 <= s.capacity())) LINE((s.shrink_to_fit(), s.size() <= s.capacity()))
    LINE(s.substr()) LINE(s.substr(2)) LINE(s.substr(2, 3)) LINE(s.copy(out, 2)) LINE((s.copy(out, 3, 1), out[2])) LINE(t.copy(out, 9, 1))
    LINE(s.find(u"bc")) LINE(s.find(u"bc", 2)) LINE(s.find(u'c')) LINE(s.find('c', 3)) LINE(s.find(t)) LINE(s.find(t, 1))
    LINE(s.find(array, 0, 0)) LINE(s.find(u"cab", 1, 1)) LINE(s.find(u"none") == S::npos) LINE(s.find(u'x') == s.npos)
    LINE(s.rfind(u"bc")) LINE(s.rfind(u"bc", 4)) LINE(s.rfind(u'b')) LINE(s.rfind(t)) LINE(s.rfind(u"bca", 9, 2)) LINE(s.rfind(t, 2))
    LINE(s.find_first_of(u"cb")) LINE(s.find_first_of(u" x", 1)) LINE(s.find_first_not_of(u"ab")) LINE(s.find_last_of(u"ab"))
    LINE(s.find_last_not_of(u"cb")) LINE(s.find_last_of(units) == S::npos)
    LINE(s.compare(t) < 0) LINE(s.compare(u"abc") > 0) LINE(s.compare(0, 3, u"abc")) LINE(s.compare(S(start)))
    LINE(s == t) LINE(s != u"abc") LINE(u"abc" < s) LINE(s <= t) LINE(s > units) LINE(s >= s)
    LINE(s + t) LINE(s + u"xy") LINE(u"xy" + s) LINE(s + u'\x4E2D') LINE(u'\x4E2D' + s) LINE(S(u"x") + s + units) LINE(std::move(s) + t + u'x')
    LINE((s.swap(t), 0)) LINE((swap(s, t), 0)) LINE((std::swap(s, t), 0))
    LINE(*s.begin()) LINE(*s.rbegin()) LINE(*std::next(s.begin(), 2)) LINE(*std::next(s.rbegin(), 2)) LINE(*s.cbegin()) LINE(*s.crbegin())
    LINE(typename S::size_type(std::distance(t.begin(), t.end()))) LINE(typename S::size_type(std::distance(t.rbegin(), t.rend())))
    LINE(std::equal(t.cbegin(), t.cend(), u"bc")) LINE(std::equal(t.rbegin(), t.rend(), u"cb")) LINE(std::equal(t.crbegin(), t.crend(), u"cb"))
    LINE(std::u16string(std::begin(t), std::end(t))) LINE(sizeof(typename S::value_type)) LINE(std::find(s.begin(), s.end(), u' ') != s.end())
    LINE((sorted[std::move(s)] = 2, sorted.size())) LINE(sorted.count(S(start))) LINE((hashed[std::move(t)] = 2, hashed.at(S(u"bc"))))
    LINE(std::hash<S>()(s) == std::hash<S>()(S(start)))
#undef LINE
    return seen;
}

/* Those that std::u16string has in later standards, or for units alone, beside what they mean. */
static void test_lines() {
    const auto ours = lines<string>(), expected = lines<std::u16string>();
    must(2 * 55 <= ours.size() && ours.size() == expected.size(), "the number of lines");
    for (size_t i = 0; i < ours.size(); i++) must(ours[i].second == expected[i].second, ours[i].first);
    const std::u16string units = u"ab\xE9" u"ab";
    const string s(units);
    string t;
#define SAME(ours, expected) must(shown(ours) == shown(expected), #ours)
    SAME(s.starts_with(u"ab"), true); SAME(s.starts_with(u'a'), true); SAME(s.starts_with(u'b'), false); SAME(s.starts_with("ab"), true);
    SAME(s.starts_with("b"), false); SAME(s.starts_with(u8"ab\u00E9"), true); SAME(s.starts_with(std::string("ab\xC3")), false);
    SAME(s.starts_with(u'b', 4), true); SAME(s.starts_with(u'b', 5), false); SAME(string().starts_with(u'a'), false);
    SAME(s.ends_with(u"ab"), true); SAME(s.ends_with(u'b'), true); SAME(s.ends_with(u'a'), false); SAME(s.ends_with("ab"), true);
    SAME(s.ends_with("a"), false); SAME(s.ends_with(u8"\u00E9ab"), true); SAME(s.ends_with("\xA9" "ab"), false); SAME(string().ends_with(u'b'), false);
    SAME(s.contains(u"b\xE9"), true); SAME(s.contains(u'\xE9'), true); SAME(s.contains(u"ba"), false); SAME(s.contains("ab"), true);
    SAME(s.contains(string(u"ab")), true); SAME(s.contains(u8"\u00E9"), true); SAME(s.contains("\xC3"), false); SAME(s.contains("c"), false);
    SAME(s.find("ab"), units.find(u"ab")); SAME(s.find("ab", 1), units.find(u"ab", 1)); SAME(s.find(u8"\u00E9"), units.find(u'\xE9'));
    SAME(s.find("\xC3"), huge); SAME(s.find(std::string("b\0", 2)), huge); SAME(s.find(""), units.find(u""));
    SAME(s.rfind("ab"), units.rfind(u"ab")); SAME(s.rfind("ab", 2), units.rfind(u"ab", 2)); SAME(s.rfind(u8"\u00E9"), units.rfind(u'\xE9'));
    SAME(s.rfind("\xA9"), huge); SAME(s.rfind(""), units.rfind(u""));
    SAME(t = "ab", u"ab"); SAME(t = u8"\u00E9", u"\xE9"); SAME(t = std::string("c"), u"c"); SAME((t = {u"ab", 1}), u"a"); SAME(t = string(u"x"), u"x");
    SAME(t += "yz", u"xyz"); SAME(t += u8"\u00E9", u"xyz\xE9"); SAME(t += std::string("b"), u"xyz\xE9" u"b"); SAME(t += 'c', u"xyz\xE9" u"bc");
    SAME(t = u"", u""); SAME(t += 0x1F4A9, u"\xD83D\xDCA9"); SAME(t += 0xD83D, u"\xD83D\xDCA9\xD83D"); SAME(t += U'\xDCA9', u"\xD83D\xDCA9\xD83D\xDCA9");
    SAME(t += uint16_t(0x41), u"\xD83D\xDCA9\xD83D\xDCA9" u"A");
    SAME(s + "xy", units + u"xy"); SAME("xy" + s, u"xy" + units); SAME(s.clone() + u8"\u00E9", units + u"\xE9"); SAME(u8"\u00E9" + s, u"\xE9" + units);
    SAME(s + 'x', units + u'x'); SAME('x' + s, u'x' + units); SAME(s.clone() + 'x', units + u'x'); SAME(s + std::string("x"), units + u"x");
#undef SAME
#if 201703L <= __cplusplus
    const std::u16string_view view = u"ab";
    must((t = view) == view && (t = std::string_view("c")) == u"c" && (t += std::string_view("d")) == u"cd", "views that are assigned");
    must(t.find(std::string_view("d")) == 1 && t.find_first_of(std::u16string_view(u"d")) == 1 && !t.contains(view), "views that are found");
    must((t += u8'e') == u"cde", "a char of UTF-8");
#endif
    must(fails([] { (void)(string(u"a") += '\xE9'); }, WTF8_NOT_UTF8), "a char that is no text");
    must(fails([&] { t = "ab\xE9"; }, WTF8_NOT_UTF8, 2) && fails([] { (void)(string() += -1); }, WTF8_BAD_CODE_POINT), "a wrong text, a wrong number");
}

/* A unit some times, appended, put in and as a whole, cut and found in each of some strings. */
static void test_times() {
    const std::vector<std::u16string> wholes = {u"", u"a", mixed, u"\xD83D", u"\xDCA9", std::u16string(300, u'a') + mixed + std::u16string(300, u'b')};
    const std::vector<std::u16string> sets = {u"", u"a", u"b\xDCA9", u"ab\xDC00", u"\xD83D\x4E2D"};
    const size_t counts[] = {0, 1, 2, 127, 128, 129, 300};
    for (const auto &whole : wholes) {
        for (char16_t unit : {u'a', u'\xE9', u'\x4E2D', char16_t(0xD83D), char16_t(0xDCA9)}) {
            for (size_t n : counts) {
                const std::u16string units(n, unit);
                must(string(whole).append(n, unit) == whole + units && string(whole).assign(n, unit) == units, "a unit some times");
                for (size_t at = 0; at <= whole.size(); at += 1 + whole.size() / 7) {
                    must(string(whole).insert(at, n, unit) == std::u16string(whole).insert(at, n, unit), "insert of a unit some times");
                    must(string(whole).replace(at, 2, n, unit) == std::u16string(whole).replace(at, 2, n, unit), "replace by a unit");
                }
                string s(whole);
                std::u16string expected(whole);
                s.resize(n);
                expected.resize(n);
                must(s == expected, "resize");
                s.resize(2 * n, unit);
                expected.resize(2 * n, unit);
                must(s == expected, "resize by a unit");
            }
        }
        for (const auto &set : sets) {
            const string s(whole);
            must(s.find_first_of(set) == whole.find_first_of(set) && s.find_first_not_of(set) == whole.find_first_not_of(set), "first of");
            must(s.find_last_of(set) == whole.find_last_of(set) && s.find_last_not_of(set) == whole.find_last_not_of(set), "last of");
            for (size_t at = 0; at <= whole.size() + 1; at++) {
                must(s.find_first_of(set, at) == whole.find_first_of(set, at), "find_first_of");
                must(s.find_first_not_of(set, at) == whole.find_first_not_of(set, at), "find_first_not_of");
                must(s.find_last_of(set, at) == whole.find_last_of(set, at), "find_last_of");
                must(s.find_last_not_of(set, at) == whole.find_last_not_of(set, at), "find_last_not_of");
            }
        }
        string s(whole);
        for (size_t n = whole.size(); 0 < n; n--) {
            must(s.back() == whole[n - 1] && s.front() == whole[0] && s.length() == n, "front, back");
            s.pop_back();
            must(s == whole.substr(0, n - 1), "pop_back");
        }
    }
    string s(u"\x4E2D");
    s.reserve(1000);
    long before = requests;
    must(s.append(999, u'\x4E2D').size() == 1000 && requests == before, "reserve");
    s.reserve(1000);
    s.reserve(0);
    must(requests == before, "reserve of what is there");
    for (int i = 0; i < 10000; i++) s.append(1, u'\x4E2D');
    must(requests < before + 10, "appends one by one");
}

/* The number of code points and the lossy text of each part of a string, against a copy of the part. */
static void test_parts_of_points() {
    for (const auto &units : {mixed, std::u16string(u"\xDCA9\xD83D\xDCA9\xD83D\xDCA9\xD83D"), std::u16string(70, u'\xE9') + mixed + mixed}) {
        const string s(units);
        for (size_t begin = 0; begin <= units.size(); begin++) {
            for (size_t end = begin; end <= units.size(); end++) {
                size_t n = 0;
                std::string lossy;
                for (size_t i = begin; i < end; i++, n++) {
                    const bool is_pair = i + 1 < end && units[i] >> 10 == 0xD800 >> 10 && units[i + 1] >> 10 == 0xDC00 >> 10;
                    const bool is_lone = !is_pair && units[i] >> 11 == 0xD800 >> 11;
                    lossy += is_lone ? "\xEF\xBF\xBD" : is_pair ? "\xF0\x9F\x92\xA9" : units[i] == u'a' ? "a" : "\xC3\xA9";
                    if (is_pair) i++;
                }
                must(s.code_point_len(begin, end) == n && s.lossy(begin, end) == lossy, "code points and lossy text of a part");
            }
        }
        must(s.code_point_len() == s.code_point_len(0, units.size()) && s.lossy() == s.lossy(0, units.size()), "those of all");
    }
    must(string().code_point_len() == 0 && string(mixed).code_point_len() == 3, "the number of code points");
}

/* Texts in UTF-8, which literals with u8 are of another type for from C++20 on. */
static void test_texts() {
    const string s(u"z\xE9\x4E2D\xD83D\xDCA9");
    must(s == u8"z\u00E9\u4E2D\U0001F4A9" && u8"z\u00E9\u4E2D\U0001F4A9" == s, "a literal with u8");
    must(s != u8"z\u00E9" && u8"" != s && string() == u8"" && !(s == u8"z"), "another literal with u8");
    must(s == std::string("z\xC3\xA9\xE4\xB8\xAD\xF0\x9F\x92\xA9") && string(u"\xD83D") != "\xED\xA0\xBD", "a text");
    must(s < u8"z\u00E9\uE000" && u8"z\u00E9\u4E2D" < s && s <= u8"{" && u8"{" >= s, "the order of a literal with u8");
    must(s > u8"z" && !(s > u8"{") && s >= u8"" && !(u8"{" <= s) && u8"z" <= s, "the order of another literal with u8");
    must(string(u"\xD83D\xDCA9") < "\xEE\x80\x80" && string(u"\xE000") > "\xF0\x9F\x92\xA9", "the order is by units");
    must(std::string("b") > string(u"a") && string(u"b") < "a\xFF" && string(u"\xD83D") < "\xED\xA0\xBD", "no UTF-8 comes after");
    must(s.compare_utf8("z") == 1 && s.compare_utf8(u8"z\u00E9\u4E2D\U0001F4A9") == 0 && s.compare_utf8("\xC3") == -1, "compare_utf8");
    must(s.starts_with_utf8(u8"z\u00E9") && s.starts_with_utf8("") && !s.starts_with_utf8("z\xC3") && !s.starts_with_utf8(u8"\u00E9"),
         "starts_with_utf8");
#ifdef __cpp_impl_three_way_comparison
    must(std::is_gt(s <=> std::string("z")) && std::is_lt(std::string("z") <=> s), "<=> of another text");
    must(std::is_gt(s <=> u8"z") && std::is_lt(u8"z" <=> s) && std::is_eq(s <=> std::string("z\xC3\xA9\xE4\xB8\xAD\xF0\x9F\x92\xA9")), "<=> of a text");
#endif
    must(string::from_utf8(u8"\u00E9") == u"\xE9" && string().assign_utf8(u8"\u00E9") == u"\xE9", "from_utf8, assign_utf8");
    must(string().append_utf8(u8"\u00E9").equals_utf8(u8"\u00E9"), "append_utf8, equals_utf8");
    must(string::utf8_unit_len("z\xC3\xA9\xF0\x9F\x92\xA9") == 4 && string::utf8_unit_len("") == 0, "utf8_unit_len");
    must(fails([] { (void)string::utf8_unit_len("a\xED\xA0\x80"); }, WTF8_NOT_UTF8, 1), "utf8_unit_len of no text");
    must(string(u"a\x7F").is_ascii() && !string(u"a\x80").is_ascii() && string().is_ascii(), "is_ascii");
    must(string(u"a\xFF").is_latin1() && !string(u"a\x100").is_latin1() && string().is_latin1(), "is_latin1");
    must(string(u"a\xFF").latin1() == "a\xFF" && string().latin1().empty(), "latin1");
    must(string::from_latin1("a\xFF").units() == u"a\xFF" && string(mixed).assign_latin1("\xE9") == u"\xE9", "assign_latin1");
    must(fails([] { (void)string(u"ab\x100").latin1(); }, WTF8_NOT_LATIN1, 2), "latin1 of other units");
}

/* Arrays of the caller. */
static void test_arrays() {
    const string s(mixed);
    char16_t units[6] = {7, 7, 7, 7, 7, 7};
    must(s.copy_units(1, 3, units) == 2 && std::u16string(units, 3) == u"\xD83D\xDCA9\x7", "copy_units");
    must(s.copy_units(0, 4, units) == 4 && std::u16string(units, 5) == mixed + u"\x7", "copy_units of all");
    must(s.copy_units(4, 4, nullptr) == 0, "copy_units of none");
    must(is_out_of_range([&] { s.copy_units(3, 5, units); }) && is_out_of_range([&] { s.copy_units(2, 1, units); }), "copy_units");
    must(std::u16string(units, 5) == mixed + u"\x7", "copy_units that fails");
    char text[9] = {7, 7, 7, 7, 7, 7, 7, 7, 7};
    must(s.copy_lossy(text, 8) == 8 && std::string(text, 9) == "a\xF0\x9F\x92\xA9\xEF\xBF\xBD\x7", "copy_lossy");
    must(fails([&] { s.copy_lossy(text, 7); }, WTF8_ARRAY_TOO_SHORT, 8), "copy_lossy to a short array");
    must(fails([&] { s.copy_utf8(text, 9); }, WTF8_HAS_SURROGATE) && fails([&] { s.copy_latin1(text, 9); }, WTF8_NOT_LATIN1, 1), "no such text");
    must(std::string(text, 9) == "a\xF0\x9F\x92\xA9\xEF\xBF\xBD\x7", "copies that fail");
    const string latin(u"a\xE9");
    must(latin.copy_utf8(text, 9) == 3 && std::string(text, 4) == "a\xC3\xA9\x92", "copy_utf8");
    must(latin.copy_latin1(text, 2) == 2 && std::string(text, 3) == "a\xE9\xA9", "copy_latin1");
    must(fails([&] { latin.copy_utf8(text, 2); }, WTF8_ARRAY_TOO_SHORT, 3) && fails([&] { latin.copy_latin1(text, 1); }, WTF8_ARRAY_TOO_SHORT, 2),
         "short arrays");
    must(string().copy_utf8(nullptr, 0) == 0 && string().copy_lossy(nullptr, 0) == 0 && string().copy_latin1(nullptr, 0) == 0, "no text");
    const char32_t points[] = {0x61, 0xD83D, 0xDCA9, 0x1F4A9, 0x110000};
    string pushed(u"\xD83D");
    must(pushed.append_code_points(points + 2, 2).units() == u"\xD83D\xDCA9\xD83D\xDCA9", "append_code_points");
    must(fails([&] { pushed.append_code_points(points, 5); }, WTF8_BAD_CODE_POINT) && pushed.size() == 4, "BAD_CODE_POINT");
    must(pushed.append_code_points(nullptr, 0).size() == 4, "no code points");
    char32_t point = 7;
    must(!s.before(0, point) && point == 7 && s.before(1, point) && point == U'a', "before");
    must(s.before(2, point) && point == 0xD83D && s.before(3, point) && point == 0x1F4A9 && s.before(4, point) && point == 0xDC00,
         "before the units of a pair");
    must(is_out_of_range([&] { (void)s.before(5, point); }) && point == 0xDC00, "before an index after the end");
}

/* Fronts and ends of 0 to 700 units, the last unit also another: two or three parts are compared. */
static void test_starts_and_ends() {
    const std::u16string units = std::u16string(254, u'x') + mixed + std::u16string(300, u'\x4E2D') + mixed;
    string s(units);
    for (int is_marked = 0; is_marked < 2; is_marked++) {
        for (size_t n = 0; n <= units.size(); n++) {
            std::u16string front = units.substr(0, n), end = units.substr(units.size() - n);
            must(s.starts_with(front) && s.ends_with(end), "a front and an end");
            must(s.starts_with(end, units.size() - n), "an end by its index");
            must(s.starts_with(string(front)) && s.ends_with(string(end)), "a front and an end that are strings");
            if (n == 0) continue;
            front[n - 1] ^= 1;
            end[0] ^= 1;
            must(!s.starts_with(front) && !s.ends_with(end) && !s.ends_with(string(end)), "another front and end");
        }
        s.mark();
    }
    must(!s.starts_with(units + u"x") && !s.ends_with(u"x" + units), "longer ones");
    must(!s.ends_with(string(u"x" + units)), "a longer string");
    must(!s.starts_with(u"x", huge) && !s.starts_with(u"x", units.size()) && s.starts_with(u"", huge), "after the end");
    must(string().ends_with(u"") && string().ends_with(string()) && !string().starts_with(u"x"), "of an empty string");
}

static void test_iteration() {
    const string s(mixed);
    const std::vector<char32_t> points = {U'a', 0x1F4A9, 0xDC00};
    std::vector<char32_t> seen;
    for (char32_t point : s) seen.push_back(point);
    must(seen == points && std::vector<char32_t>(s.begin(), s.end()) == points, "code points");
    string::iterator it = s.end();
    must((--it).position() == 5 && *it == 0xDC00 && *--it == 0x1F4A9, "backwards");
    must(*it-- == 0x1F4A9 && it == s.begin(), "to the start");
    must(*it++ == U'a' && *it == 0x1F4A9 && ++it != s.end() && ++it == s.end() && it.position() == 8, "forwards");
    must(++it == s.end() && it++ == s.end() && it.position() == 8 && ++string::iterator(s.end()) == s.end(), "a step at the end");
    must(string().begin() == string().end(), "no code points");
    const char32_t kinds[] = {U'a', 0xE9, 0x4E2D, 0x1F4A9, 0xDC00};
    for (size_t n = 0; n <= 100; n++) {
        std::vector<char32_t> all;
        string walked;
        for (size_t i = 0; i < n; i++) {
            all.push_back(kinds[i * i % 5]);
            walked.append_code_point(all.back());
        }
        size_t i = 0, position = 0;
        char32_t value = 0;
        for (string::iterator at = walked.begin(); at != walked.end(); ++at, i++) {
            must(at.position() == position && *at == all[i] && walked.next(position, value), "a walk over parts");
            string::iterator back = at;
            if (0 < i) must(*--back == all[i - 1] && *++back == all[i] && back == at, "a step back and forth");
        }
        must(i == n && position == walked.byte_len() && std::vector<char32_t>(walked.begin(), walked.end()) == all, "the walk's end");
        for (string::iterator at = walked.end(); at != walked.begin();) must(*--at == all[--i], "a walk back");
    }
    must(std::find(s.begin(), s.end(), char32_t(0x1F4A9)).position() == 1, "a code point that is found");
#ifdef __cpp_lib_concepts
    static_assert(std::bidirectional_iterator<string::iterator>);
#endif
}

/* A struct of the C library that a class takes over and gives back. */
/* Walks over more code points at the edges of encodings than are decoded at a time, forth and back from each. */
static void test_walks_at_edges() {
    static const char32_t edges[] = {0x7F, 0x80, 0x7FF, 0x800, 0xFFFF, 0x10000, 0x10FFFF, 0xD7FF, 0xE000, 0xDC00, U'a'};
    std::vector<char32_t> points;
    string s;
    for (size_t n = 0; n < 100; n++) {
        points.push_back(edges[n * 7 % (sizeof edges / sizeof edges[0])]);
        s.append_code_points(&points.back(), 1);
    }
    size_t at = 0;
    for (auto i = s.begin(); i != s.end(); ++i, at++) {
        must(at < points.size() && *i == points[at], "a code point at an edge");
        auto back = i;
        for (size_t k = at; k-- > 0 && k + 40 > at;) must(*--back == points[k], "a step back from an edge");
    }
    must(at == points.size(), "the walk over the edges of encodings");
}

static void test_adoption() {
    wtf8_string plain = WTF8_EMPTY;
    must(wtf8_set_units(&plain, nullptr, 0) == WTF8_OK && wtf8_push_unit(&plain, 'a') == WTF8_OK, "a struct");
    string s = string::adopt(plain);
    s += u"b";
    must(s == u"ab", "a string that was adopted");
    plain = s.release();
    must(s.empty() && s.capacity() == 0 && wtf8_unit_len(&plain) == 2, "a string that was released");
    wtf8_free(&plain);
    must(s.append(u"c") == u"c", "a string after its release");
    plain = string().release();
    must(wtf8_unit_len(&plain) == 0 && string::adopt(plain).empty(), "an empty string");
}

static void test_cuts() {
    string s(mixed + u"bc");
    char32_t point = 0;
    must(s.pop(point) && point == U'c' && s.pop(point) && point == U'b' && s.pop(point) && point == 0xDC00, "pop");
    must(s.pop(point) && point == 0x1F4A9 && s.units() == u"a" && s.pop(point) && s.empty(), "pop of a pair");
    point = 7;
    must(!s.pop(point) && point == 7, "pop of nothing");
    s.assign(mixed).truncate_units(2);
    must(s.units() == u"a\xD83D", "truncate_units");
    s.assign(mixed).truncate_bytes(5);
    must(s.units() == u"a\xD83D\xDCA9", "truncate_bytes");
    s.clear();
    must(s.empty() && 8 <= s.capacity(), "clear");
}

static void test_walks() {
    const string s(mixed);
    const char32_t points[] = {U'a', 0x1F4A9, 0xDC00};
    const size_t positions[] = {0, 1, 5, 8};
    size_t position = 0;
    char32_t point = 0;
    for (size_t i = 0; i < 3; i++)
        must(s.next(position, point) && point == points[i] && position == positions[i + 1], "next");
    must(!s.next(position, point) && point == 0xDC00 && position == 8, "next at the end");
    for (size_t i = 3; 0 < i; i--)
        must(s.previous(position, point) && point == points[i - 1] && position == positions[i - 1], "previous");
    must(!s.previous(position, point) && point == U'a' && position == 0, "previous at the start");
    position = 2;
    must(is_out_of_range([&] { (void)s.next(position, point); }), "next off a boundary");
    must(is_out_of_range([&] { (void)s.previous(position, point); }), "previous off a boundary");
    must(position == 2 && point == U'a', "a step off a boundary changes no argument");
    char16_t unit = 0;
    must(is_out_of_range([&] { (void)s.next_surrogate(position, unit); }), "next_surrogate off a boundary");
    position = 1;
    must(s.next_surrogate(position, unit) && unit == 0xDC00 && position == 8, "next_surrogate");
    must(!s.next_surrogate(position, unit) && unit == 0xDC00 && position == 8, "next_surrogate at the end");
    char32_t copied[2] = {0, 0};
    position = 0;
    must(s.copy_code_points(position, copied, 2) == 2 && copied[1] == 0x1F4A9 && position == 5, "copy_code_points");
    must(s.copy_code_points(position, copied, 2) == 1 && copied[0] == 0xDC00 && position == 8, "the last code points");
    must(s.copy_code_points(position, copied, 2) == 0 && position == 8, "copy_code_points at the end");
    position = 2;
    must(is_out_of_range([&] { (void)s.copy_code_points(position, copied, 2); }) && position == 2, "copy_code_points off a boundary");
}

static void test_failures() {
    string s(mixed), other(u"xy");
    const std::vector<std::function<void()>> out_of_range = {
        [&] { (void)s.at(4); },           [&] { (void)s.at(huge); },       [&] { (void)s[4]; },
        [&] { (void)s.position_at(5); },  [&] { (void)s.slice(2, 1); },    [&] { (void)s.slice(0, 5); },
        [&] { (void)s.units(2, 1); },     [&] { (void)s.units(5, 5); },    [&] { (void)s.units(1, huge); },
        [&] { s.append(other, 0, 3); },
        [&] { s.append(s, 3, 2); },       [&] { s.assign(other, 2, 3); },  [&] { s.truncate_units(5); },
        [&] { s.truncate_bytes(2); },     [&] { s.truncate_bytes(9); },    [&] { (void)s.substr(5); },
        [&] { s.insert(5, u"a"); },       [&] { s.erase(5, 0); },          [&] { s.replace(5, 0, u"a"); },
        [&] { s.insert(5, other); },      [&] { s.replace(5, 0, other); }, [&] { s.insert(5, 2, u'a'); },
        [&] { s.replace(5, 0, 2, u'a'); }, [&] { (void)s.lossy(2, 5); },   [&] { (void)s.lossy(2, 1); },
        [&] { (void)s.code_point_len(2, 5); }, [&] { (void)s.code_point_len(2, 1); }, [&] { (void)s.compare(5, 1, u""); },
        [&] { char16_t out[2]; s.copy(out, 1, 5); }, [] { (void)string().front(); }, [] { (void)string().back(); },
        [] { string().pop_back(); }};
    for (const auto &call : out_of_range) must(is_out_of_range(call) && s.units() == mixed, "out_of_range");
    must(fails([&] { s.append_code_point(0x110000); }, WTF8_BAD_CODE_POINT) && s.units() == mixed, "BAD_CODE_POINT");
    must(fails([&] { s.append_utf8("ab\xFF"); }, WTF8_NOT_UTF8, 2) && s.units() == mixed, "NOT_UTF8");
    size_t bad = 77;
    must(s.append_utf8_part("z\xE4\xB8z", bad) == 1 && bad == 2 && s.units() == mixed + u"z", "append_utf8_part");
    s.truncate_units(mixed.size());
    must(s.append_lossy_part("z\xE4\xB8z\xF0\x9F") == 4 && s.units() == mixed + u"z\uFFFDz", "append_lossy_part");
    s.truncate_units(mixed.size());
    must(s.append_lossy("z\xE4\xB8z\xF0\x9F").units() == mixed + u"z\uFFFDz\uFFFD", "append_lossy");
    s.truncate_units(mixed.size());
    must(fails([&] { s.assign_utf8("\xC3\xA9\xED\xA0\x80"); }, WTF8_NOT_UTF8, 2) && s.units() == mixed, "NOT_UTF8");
    must(fails([] { (void)string::from_utf8("\xC3"); }, WTF8_NOT_UTF8, 0), "NOT_UTF8");
    must(fails([&] { (void)s.utf8(); }, WTF8_HAS_SURROGATE) && s.units() == mixed, "HAS_SURROGATE");
    const std::vector<std::function<void()>> too_long = {
        [&] { s.reserve_bytes(huge); },  [&] { s.reserve(huge); },       [&] { s.reserve(huge / 3 + 9); }, [&] { s.resize(huge); },
        [&] { s.append(huge, u'a'); },   [&] { s.append(huge / 3 + 2, u'\x4E2D'); }, [&] { s.assign(huge, u'a'); },
        [&] { s.insert(1, huge, u'a'); }};
    for (const auto &call : too_long) must(is_bad_alloc(call) && s.units() == mixed, "more bytes than a block can have");
}

/* Strings that the two orders and equality divide. */
static const std::vector<std::u16string> keys = {
    u"", std::u16string(1, u'\0'), u"a", u"ab", u"b", u"\xE9", u"\x4E2D\x56FD", u"\xD800", u"\xD800\xDC00", u"\xD83D\xDCA9",
    u"\xD83D", u"\xDBFF\xDFFF", u"\xDC00", u"\xDFFF", u"\xE000", u"\xFFFF", u"a\xD83D", u"a\xD83D\xDCA9", u"a\xFFFF",
    std::u16string(300, u'x'), std::u16string(300, u'x') + u"\xDC00"};

/* Whether all operators of `a` and `b` give what they give of `x` and `y`. */
template <class A, class B> static bool agree(const A &a, const B &b, const std::u16string &x, const std::u16string &y) {
    return (a == b) == (x == y) && (a != b) == (x != y) && (a < b) == (x < y) && (a <= b) == (x <= y) && (b < a) == (y < x) &&
           (a > b) == (x > y) && (a >= b) == (x >= y);
}

static void test_order() {
    for (const auto &x : keys) {
        for (const auto &y : keys) {
            const string a(x), b(y);
            must(agree(a, b, x, y) && agree(a, y, x, y) && agree(x, b, x, y), "operators");
#ifdef __cpp_lib_three_way_comparison
            must((a <=> b) == (x <=> y) && (a <=> y) == (x <=> y) && (x <=> b) == (x <=> y), "<=>");
#endif
            must((a.compare(b) < 0) == (x < y) && (a.compare(y) == 0) == (x == y) && a.equals(b) == a.equals(y), "compare");
        }
    }
    must(string(u"a") == u"a" && u"a" < string(u"b") && string(u"b") != u"a", "operators of literals");
    const string pair(u"\xD800\xDC00"), last(u"\xFFFF"), trail(u"\xDC00"), lead(u"\xD800");
    must(pair < last && 0 < pair.compare_code_points(last), "U+10000 and U+FFFF");
    must(pair < trail && trail.compare_code_points(pair) < 0 && lead.compare_code_points(pair) < 0, "U+10000 and surrogates");
    must(pair.compare_code_points(pair.clone()) == 0, "code points of a copy");
}

static void test_maps() {
    std::map<string, size_t> sorted;
    std::unordered_map<string, size_t> hashed;
    std::unordered_map<string, size_t, wtf8::hasher> seeded(8, wtf8::hasher(0x0706050403020100, 0x0F0E0D0C0B0A0908));
    for (size_t i = 0; i < keys.size(); i++) {
        sorted.emplace(string(keys[i]), i);
        hashed.emplace(string(keys[i]), i);
        seeded[string(keys[i])] = i;
    }
    must(sorted.size() == keys.size() && hashed.size() == keys.size() && seeded.size() == keys.size(), "keys that differ");
    for (size_t i = 0; i < keys.size(); i++) {
        const string key(keys[i]);
        must(sorted.at(key) == i && hashed.at(key) == i && seeded.at(key) == i, "a key that is found");
        must(wtf8::hasher(1, 2)(key) == wtf8::hasher(1, 2)(keys[i]), "the hash of units");
        must(std::hash<string>()(key) == wtf8::hasher()(key.clone()), "std::hash");
    }
    string face(u"a\xD83D\xDCA9");
    must(face.equals_utf8("a\xF0\x9F\x92\xA9") && !face.equals_utf8("a") && !string(u"\xD83D").equals_utf8("\xED\xA0\xBD"),
         "a text");
    must(wtf8::hasher(1, 2).utf8("a\xF0\x9F\x92\xA9") == wtf8::hasher(1, 2)(face), "the hash of a text");
    must(wtf8::hasher(1, 2)(string(mixed)) != wtf8::hasher(1, 3)(string(mixed)), "the second seed");
    must(wtf8::hasher(1, 2)(string(mixed)) != wtf8::hasher(2, 2)(string(mixed)), "the first seed");
    must(sorted.count(string(u"zz")) == 0 && hashed.count(string(u"zz")) == 0 && hashed.erase(string(u"ab")) == 1, "other keys");
    std::vector<std::u16string> expected(keys);
    std::sort(expected.begin(), expected.end());
    size_t i = 0;
    for (const auto &entry : sorted) must(entry.first.units() == expected[i++], "the order of a map");
#if 201402L <= __cplusplus
    std::map<string, int, std::less<>> by_units;
    by_units.emplace(string(mixed), 1);
    must(by_units.find(mixed) != by_units.end() && by_units.find(u"a") == by_units.end(), "units looked up in a map");
#endif
#if 201709L <= __cplusplus && defined(__cpp_lib_generic_unordered_lookup)
    std::unordered_map<string, int, wtf8::hasher, std::equal_to<>> hashed_units;
    hashed_units.emplace(string(mixed), 1);
    must(hashed_units.contains(mixed) && !hashed_units.contains(u"a"), "units looked up in a table");
#endif
}

static void test_vectors() {
    std::vector<string> all;
    std::vector<std::u16string> expected;
    for (size_t i = 0; i < 1000; i++) {
        expected.push_back(keys[i * 13 % keys.size()] + static_cast<char16_t>(i * 40503 % 65536));
        if (i % 2 == 0) all.emplace_back(expected.back());
        else all.insert(all.begin() + static_cast<std::ptrdiff_t>(i / 2), string(expected.back()));
    }
    std::sort(all.begin(), all.end());
    std::sort(expected.begin(), expected.end());
    all.erase(all.begin() + 500);
    expected.erase(expected.begin() + 500);
    all.shrink_to_fit();
    for (size_t i = 0; i < 999; i++) must(all[i].units() == expected[i], "a sorted vector");
}

static void test_moves() {
    string a(mixed), b(std::move(a));
    must(a.empty() && a.units().empty() && b.units() == mixed, "a moved string");
    a.append(u"again");
    b = std::move(a);
    must(a.empty() && b.units() == u"again", "a move over a string");
    string &same = b;
    b = std::move(same);
    must(b.units() == u"again", "a move to itself");
    swap(a, b);
    must(a.units() == u"again" && b.empty(), "swap");
    std::swap(a, b);
    must(b.units() == u"again" && a.empty(), "std::swap");
}

/* A string without spare capacity, that begins with `mixed`. */
static string a_full_string() {
    string s(mixed);
    while (s.byte_len() < s.capacity()) s.append_unit(u'z');
    return s;
}

#if WITH_EXCEPTIONS

/* Units that are not there are not allocated for. */
static void test_no_parts() {
    const size_t n = 200, parts[][2] = {{0, n + 1}, {1, n + 1}, {n, n + 1}, {n + 1, n + 1}, {0, 2 * n}, {n, 0}, {2 * n, 3 * n}};
    const string s(std::u16string(n, u'x'));
    most = 0;
    for (const auto &part : parts) must(is_out_of_range([&] { (void)s.units(part[0], part[1]); }), "no such units");
    must(most < n * sizeof(char16_t), "no memory for units that are not there");
    must(s.units(0, n).size() == n && n * sizeof(char16_t) <= most, "memory for units that are there");
}

/* Each call that takes memory, with the first requests granted and the next refused, until it is done. */
static void test_refusals() {
    const string other(std::u16string(100, u'\x4E2D') + mixed);
    const std::vector<std::function<void(string &)>> calls = {
        [](string &) { string(mixed.data(), 4); },
        [](string &) { (void)string::from_utf8("text"); },
        [](string &s) { (void)s.clone(); },
        [](string &s) { (void)s.slice(1, 2); },
        [](string &s) { s.assign(std::u16string(1000, u'y')); },
        [](string &s) { s.assign_utf8(std::string(1000, 'y')); },
        [&](string &s) { s.assign(other); },
        [&](string &s) { s.assign(other, 1, 102); },
        [](string &s) { s.append(u"y"); },
        [](string &s) { s += u"y"; },
        [](string &s) { s.append_unit(u'y'); },
        [](string &s) { s.append_code_point(0x1F4A9); },
        [](string &s) { s.append_utf8("y"); },
        [](string &s) { s.append_latin1("\xE9"); },
        [](string &s) { s.assign_latin1(std::string(1000, '\xE9')); },
        [](string &s) { const char32_t points[] = {U'y', 0x1F4A9}; s.append_code_points(points, 2); },
        [](string &s) { s.push_back(u'y'); },
        [](string &s) { s.insert(1, std::u16string(1000, u'y')); },
        [](string &s) { s.replace(0, 1, std::u16string(1000, u'y')); },
        [&](string &s) { s.insert(1, other); },
        [&](string &s) { s.replace(0, 1, other); },
        [](string &s) { (void)(s + u"y"); },
        [](string &s) { (void)(u"y" + s); },
        [](string &s) { (void)(s + "y"); },
        [](string &s) { (void)('y' + s); },
        [](string &s) { (void)(s.clone() + u'y'); },
        [](string &s) { s = std::u16string(1000, u'y'); },
        [](string &s) { s = std::string(1000, 'y'); },
        [](string &s) { s += "y"; },
        [](string &s) { s += 'y'; },
        [](string &s) { s += 0x79; },
        [](string &s) { s.append(1000, u'y'); },
        [](string &s) { s.assign(1, u'y'); },
        [](string &s) { s.insert(1, 200, u'y'); },
        [](string &s) { s.replace(0, 1, 200, u'y'); },
        [](string &s) { s.resize(1000); },
        [](string &s) { s.reserve(1000); },
        [](string &s) { (void)s.find("y"); },
        [](string &s) { (void)s.rfind("y"); },
        [](string &s) { (void)s.contains("y"); },
        [](string &s) { (void)s.ends_with("y"); },
        [](string &s) { (void)s.compare(0, 1, u"y"); },
        [](string &s) { (void)s.lossy(0, 2); },
        [](string &s) { (void)s.substr(1); },
        [](string &s) { size_t bad; s.append_utf8_part("y\xFF", bad); },
        [](string &s) { s.append_lossy("y\xFF"); },
        [](string &s) { s.append_lossy_part("y\xFF"); },
        [](string &s) { s.append(s); },
        [&](string &s) { s.append(other); },
        [&](string &s) { s.append(other, 1, 102); },
        [](string &s) { s.reserve_bytes(1000); }};
    for (const auto &call : calls) {
        long granted_first = -1;
        for (bool is_done = false; !is_done;) {
            string s = a_full_string();
            const std::u16string units = s.units();
            const long before = blocks;
            refuse_after = ++granted_first;
            try {
                call(s);
                is_done = true;
            } catch (const std::bad_alloc &) {
            }
            refuse_after = -1;
            must(is_done || (s.units() == units && blocks == before), "a refused call changes nothing");
        }
        must(0 < granted_first, "a call that takes memory is refused it");
    }
}

#endif

static void test_without_memory() {
    string a = a_full_string(), b;
    refuse_after = 0;
    b = std::move(a);
    a.swap(b);
    a.shrink();
    a.append(u"").truncate_units(4);
    string empty;
    empty.mark();
    must(empty.assign(u"").append(u"").units().empty(), "an empty string without memory");
    must(a.units() == mixed && a == mixed && a.lossy() == "a\xF0\x9F\x92\xA9\xEF\xBF\xBD", "the lossy text without memory");
    must(a.assign(u"b").units() == u"b", "calls without memory");
    must(a.starts_with(u"b") && a.ends_with(u"b") && *a.begin() == U'b', "questions without memory");
    char text[3];
    must(a.copy_utf8(text, 3) == 1 && a.copy_lossy(text, 3) == 1 && a.copy_latin1(text, 3) == 1 && *text == 'b', "texts without memory");
    must(a.code_point_len() == 1 && a.starts_with("b") && a.ends_with(u'b') && a.find(u'b') == 0, "more questions without memory");
    refuse_after = -1;
}

int main() {
    test_parts();
    test_building();
    test_operators();
    test_as_std();
    test_texts();
    test_lines();
    test_times();
    test_parts_of_points();
    test_arrays();
    test_starts_and_ends();
    test_iteration();
    test_walks_at_edges();
    test_adoption();
    test_cuts();
    test_walks();
    test_failures();
    test_order();
    test_maps();
    test_vectors();
    test_moves();
#if WITH_EXCEPTIONS
    test_no_parts();
    test_refusals();
#endif
    test_without_memory();
    must(blocks == 0, "each block is freed");
    std::printf("cpp: no difference with C++ of %ld, with%s exceptions\n", __cplusplus, WITH_EXCEPTIONS ? "" : "out");
}
