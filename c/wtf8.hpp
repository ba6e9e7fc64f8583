/*
 * The strings of wtf8.h as a class, for C++11 and later. wtf8.h says what each call does and costs.
 *
 * A string frees its memory. It is moved, which leaves an empty one, and copied by clone() and assign() alone. Calls
 * that are const only read it, so any number of threads may make them at once; calls that change it need a lock.
 *
 * Refused memory is std::bad_alloc. An index or a position after the end, or not at a boundary, is std::out_of_range. A
 * number that is not a code point, bytes that are not UTF-8, a surrogate in what is copied out as UTF-8, a unit greater than FF
 * in what is copied out as Latin-1, and an array that is too short for a text are wtf8::error. A call that throws changes
 * nothing. Without exceptions (-fno-exceptions, in all files of a program or in none) such a call calls the function that
 * wtf8::on_failure was given, and then std::abort.
 */
#ifndef WTF8_HPP
#define WTF8_HPP

#include "wtf8.h"

#include <cstdlib>
#include <new>
#include <stdexcept>
#include <string>
#include <utility>
#ifdef __cpp_impl_three_way_comparison
#include <compare>
#endif

#if 201703L <= __cplusplus
#define WTF8_NODISCARD [[nodiscard]]
#else
#define WTF8_NODISCARD
#endif
/* Out of line, so that a call has no more code than a comparison for its failure. */
#ifdef __GNUC__
#define WTF8_COLD __attribute__((cold, noinline))
#else
#define WTF8_COLD
#endif

/* Units and texts as arguments: views if the standard has them. From C++20 on a text in UTF-8 may be of char8_t too. */
#if 201703L <= __cplusplus
#include <string_view>
namespace wtf8 { using units_in = std::u16string_view; using text_in = std::string_view; }
#else
namespace wtf8 { using units_in = const std::u16string &; using text_in = const std::string &; }
#endif
#if defined(__cpp_char8_t) && defined(__cpp_lib_char8_t)
#define WTF8_WITH_CHAR8
namespace wtf8 {
using text8_in = std::u8string_view;
inline text_in plain(text8_in text) noexcept { return text_in(reinterpret_cast<const char *>(text.data()), text.size()); }
}
#endif

namespace wtf8 {

#if defined(__cpp_exceptions) || defined(__EXCEPTIONS)

/* BAD_CODE_POINT, HAS_SURROGATE, NOT_UTF8 with the position of the first byte that is not UTF-8, NOT_LATIN1 with the index
 * of the first unit that is greater than FF, or ARRAY_TOO_SHORT with the length that the array must have. */
struct error : std::invalid_argument {
    explicit error(wtf8_result code_, size_t position_ = 0)
        : std::invalid_argument(wtf8_result_text(code_)), code(code_), position(position_) {}
    wtf8_result code;
    size_t position;
};

/* Throws what a code other than OK says. */
[[noreturn]] WTF8_COLD inline void fail(wtf8_result code, size_t position) {
    if (code == WTF8_NO_MEMORY) throw std::bad_alloc();
    if (code == WTF8_BAD_POSITION || code == WTF8_END) throw std::out_of_range(wtf8_result_text(code));
    throw error(code, position);
}

#else

/* What a failure calls: `position` is that of the first byte that is not UTF-8 with NOT_UTF8, the index of the first unit that
 * is greater than FF with NOT_LATIN1, the length that the array must have with ARRAY_TOO_SHORT, else 0. */
using failure_handler = void (*)(wtf8_result code, size_t position);

inline failure_handler &the_failure_handler() noexcept {
    static failure_handler handler = nullptr;
    return handler;
}

/* Has failures call `handler`, if it is not null. Returns what they called before. Before other threads are there. */
inline failure_handler on_failure(failure_handler handler) noexcept {
    failure_handler before = the_failure_handler();
    the_failure_handler() = handler;
    return before;
}

/* Ends the program, unless the handler does not return. */
[[noreturn]] WTF8_COLD inline void fail(wtf8_result code, size_t position) {
    if (the_failure_handler()) the_failure_handler()(code, position);
    std::abort();
}

#endif

/* Fails as the code says, if it is not OK. */
inline void check(wtf8_result code, size_t position = 0) {
    if (code != WTF8_OK) fail(code, position);
}

/* What has a name of std::u16string does the same, and the use of a unit that is not there, also of [] at the end, is
 * std::out_of_range. A char and a text are in UTF-8. What differs:
 * - The units are not in memory as such: there is no data, c_str or view of them, and [], at, front and back return a unit, not
 *   a reference. begin and rbegin walk over code points, which cannot be written, and no call takes an iterator.
 * - append and assign of a part of a string take two indexes, not an index and a number. capacity is in bytes.
 * - Nothing is copied or converted to a string unasked, and no constructor takes a number of equal units, but assign does. */
class string {
public:
    /* What push_back takes, so that std::back_inserter appends units. */
    using value_type = char16_t;
    using size_type = size_t;
    /* What find and rfind return if there is no index. */
    enum : size_t { npos = static_cast<size_t>(-1) };

    string() noexcept : string_() {}
    string(const char16_t *units, size_t n) : string() { assign(units, n); }
    explicit string(units_in units) : string(units.data(), units.size()) {}
    WTF8_NODISCARD static string from_utf8(text_in text) { return std::move(string().assign_utf8(text)); }
#ifdef WTF8_WITH_CHAR8
    WTF8_NODISCARD static string from_utf8(text8_in text) { return from_utf8(plain(text)); }
#endif
    WTF8_NODISCARD static string from_latin1(text_in text) { return std::move(string().assign_latin1(text)); }
    WTF8_NODISCARD string clone() const { return std::move(string().assign(*this)); }
    WTF8_NODISCARD string slice(size_t begin, size_t end) const {
        return std::move(string().assign(*this, begin, end));
    }
    /* At most `n` units from `begin` on, as std::u16string has it. */
    WTF8_NODISCARD string substr(size_t begin = 0, size_t n = npos) const {
        return slice(begin, end_of(begin, n));
    }

    string(const string &) = delete;
    string &operator=(const string &) = delete;
    string(string &&other) noexcept : string_(other.string_) { other.string_ = WTF8_EMPTY; }
    string &operator=(string &&other) noexcept {
        string taken(std::move(other));
        swap(taken);
        return *this;
    }
    void swap(string &other) noexcept { std::swap(string_, other.string_); }
    ~string() { wtf8_free(&string_); }
    /* For calls of wtf8.h. A struct that is adopted is freed by the string, one that is released by wtf8_free. */
    WTF8_NODISCARD wtf8_string *get() noexcept { return &string_; }
    WTF8_NODISCARD const wtf8_string *get() const noexcept { return &string_; }
    WTF8_NODISCARD static string adopt(wtf8_string taken) noexcept {
        string out;
        out.string_ = taken;
        return out;
    }
    WTF8_NODISCARD wtf8_string release() noexcept {
        wtf8_string out = string_;
        string_ = WTF8_EMPTY;
        return out;
    }

    /* Replacing. */
    string &assign(const char16_t *units, size_t n) { return done(wtf8_set_units(get(), raw(units), n)); }
    string &assign(units_in units) { return assign(units.data(), units.size()); }
    string &assign(size_t n, char16_t unit) { return *this = times(n, unit); }
    /* A unit, units, or a text. Templates, so that braces are a string. */
    template <class Unit>
    typename std::enable_if<std::is_same<Unit, char16_t>::value, string &>::type operator=(Unit unit) { return assign(&unit, 1); }
    template <class Units>
    typename std::enable_if<std::is_convertible<const Units &, units_in>::value, string &>::type operator=(const Units &units) {
        return assign(units);
    }
    template <class Text>
    typename std::enable_if<std::is_convertible<const Text &, text_in>::value, string &>::type operator=(const Text &text) {
        return assign_utf8(text);
    }
    string &assign_utf8(text_in text) {
        size_t valid = 0;
        wtf8_result code = wtf8_set_utf8(get(), raw(text.data()), text.size(), &valid);
        return done(code, valid);
    }
#ifdef WTF8_WITH_CHAR8
    string &assign_utf8(text8_in text) { return assign_utf8(plain(text)); }
    string &append_utf8(text8_in text) { return append_utf8(plain(text)); }
    WTF8_NODISCARD bool equals_utf8(text8_in text) const noexcept { return equals_utf8(plain(text)); }
    WTF8_NODISCARD int compare_utf8(text8_in text) const noexcept { return compare_utf8(plain(text)); }
    WTF8_NODISCARD bool starts_with_utf8(text8_in text) const noexcept { return starts_with_utf8(plain(text)); }
    template <class Text>
    typename std::enable_if<std::is_convertible<const Text &, text8_in>::value, string &>::type operator=(const Text &text) {
        return assign_utf8(text8_in(text));
    }
    string &operator+=(char8_t unit) { return append_utf8(text8_in(&unit, 1)); }
    string &operator+=(text8_in text) { return append_utf8(text); }
    WTF8_NODISCARD size_t find(text8_in text, size_t from = 0) const { return find(plain(text), from); }
    WTF8_NODISCARD size_t rfind(text8_in text, size_t from = npos) const { return rfind(plain(text), from); }
    WTF8_NODISCARD bool starts_with(text8_in text) const noexcept { return starts_with_utf8(text); }
    WTF8_NODISCARD bool ends_with(text8_in text) const { return ends_with(plain(text)); }
#endif
    string &assign_latin1(text_in text) { return done(wtf8_set_latin1(get(), raw(text.data()), text.size())); }
    string &assign(const string &other) { return done(wtf8_set_string(get(), other.get())); }
    string &assign(const string &other, size_t begin, size_t end) {
        return done(wtf8_slice_units(get(), other.get(), begin, end));
    }

    /* Appending. */
    string &append_unit(char16_t unit) { return done(wtf8_push_unit(get(), unit)); }
    void push_back(char16_t unit) { append_unit(unit); }
    string &append_code_point(char32_t value) { return done(wtf8_push_code_point(get(), value)); }
    string &append_code_points(const char32_t *points, size_t n) {
        return done(wtf8_push_code_points(get(), raw(points), n));
    }
    string &append(const char16_t *units, size_t n) { return done(wtf8_push_units(get(), raw(units), n)); }
    string &append(units_in units) { return append(units.data(), units.size()); }
    /* A unit `n` times. */
    string &append(size_t n, char16_t unit) {
        enum : size_t { PART = 128 };
        char16_t units[PART];
        reserve_bytes(product(n, wtf8_encoded_len(raw(&unit), 1)));
        for (size_t i = 0; i < PART && i < n; i++) units[i] = unit;
        for (; PART < n; n -= PART) append(units, PART);
        return append(units, n);
    }
    string &append_latin1(text_in text) { return done(wtf8_push_latin1(get(), raw(text.data()), text.size())); }
    string &append_utf8(text_in text) {
        size_t valid = 0;
        wtf8_result code = wtf8_push_utf8(get(), raw(text.data()), text.size(), &valid);
        return done(code, valid);
    }
    /* The longest front that is UTF-8. Returns its length; `bad` is as in wtf8_push_utf8_part. */
    size_t append_utf8_part(text_in text, size_t &bad) {
        size_t used = 0;
        check(wtf8_push_utf8_part(get(), raw(text.data()), text.size(), &used, &bad));
        return used;
    }
    string &append_lossy(text_in text) { return done(wtf8_push_utf8_lossy(get(), raw(text.data()), text.size())); }
    /* All but a code point that is unfinished at the end. Returns the number of bytes before it. */
    size_t append_lossy_part(text_in text) {
        size_t used = 0;
        check(wtf8_push_utf8_lossy_part(get(), raw(text.data()), text.size(), &used));
        return used;
    }
    string &append(const string &other) { return done(wtf8_push_string(get(), other.get())); }
    string &append(const string &other, size_t begin, size_t end) {
        return done(wtf8_push_slice(get(), other.get(), begin, end));
    }
    string &operator+=(char16_t unit) { return append_unit(unit); }
    string &operator+=(char32_t value) { return append_code_point(value); }
    /* A number is a code point, as that of a unit is too. */
    string &operator+=(int value) { return append_code_point(static_cast<char32_t>(value)); }
    string &operator+=(char unit) { return append_utf8(std::string(1, unit)); }
    string &operator+=(units_in units) { return append(units); }
    string &operator+=(text_in text) { return append_utf8(text); }
    string &operator+=(const string &other) { return append(other); }

    /* Memory, and cutting. */
    WTF8_NODISCARD static size_t encoded_len(units_in units) noexcept {
        return wtf8_encoded_len(raw(units.data()), units.size());
    }
    /* The number of units of a text in UTF-8. */
    WTF8_NODISCARD static size_t utf8_unit_len(text_in text) {
        size_t n = 0, valid = 0;
        wtf8_result code = wtf8_utf8_unit_len(raw(text.data()), text.size(), &n, &valid);
        check(code, valid);
        return n;
    }
    void reserve_bytes(size_t additional) { check(wtf8_reserve_bytes(get(), additional)); }
    /* Room for any `n` units in all, of three bytes each. */
    void reserve(size_t n) {
        if (unit_len() < n) reserve_bytes(product(n - unit_len(), 3));
    }
    WTF8_NODISCARD size_t capacity() const noexcept { return wtf8_capacity(get()); }
    void shrink() noexcept { wtf8_shrink(get()); }
    void shrink_to_fit() noexcept { shrink(); }
    void mark() { check(wtf8_mark(get())); }
    void clear() noexcept { wtf8_clear(get()); }
    void truncate_units(size_t n) { check(wtf8_truncate_units(get(), n)); }
    void truncate_bytes(size_t position) { check(wtf8_truncate_bytes(get(), position)); }
    void pop_back() { truncate_units(unit_len() - 1); }
    void resize(size_t n, char16_t unit = 0) {
        if (n <= unit_len()) truncate_units(n);
        else append(n - unit_len(), unit);
    }

    /* Units in the middle, also inside a pair, as of std::u16string: `n` of them from `index` on, or as many as there are. */
    string &insert(size_t index, units_in units) {
        return done(wtf8_insert_units(get(), index, raw(units.data()), units.size()));
    }
    string &erase(size_t index = 0, size_t n = npos) { return done(wtf8_remove_units(get(), index, end_of(index, n))); }
    string &replace(size_t index, size_t n, units_in units) {
        return done(wtf8_replace_units(get(), index, end_of(index, n), raw(units.data()), units.size()));
    }
    string &insert(size_t index, size_t n, char16_t unit) { return insert(index, times(n, unit)); }
    string &replace(size_t index, size_t n, size_t new_n, char16_t unit) { return replace(index, n, times(new_n, unit)); }
    string &insert(size_t index, const string &other) { return done(wtf8_insert(get(), index, other.get())); }
    string &replace(size_t index, size_t n, const string &other) {
        return done(wtf8_replace(get(), index, end_of(index, n), other.get()));
    }

    /* Code points. If there is none, each returns false and leaves its arguments as they are. */
    bool pop(char32_t &value) { return found(wtf8_pop(get(), raw(&value))); }
    WTF8_NODISCARD bool next(size_t &position, char32_t &value) const {
        return found(wtf8_next_code_point(get(), &position, raw(&value)));
    }
    WTF8_NODISCARD bool previous(size_t &position, char32_t &value) const {
        return found(wtf8_previous_code_point(get(), &position, raw(&value)));
    }
    /* The one before the unit at an index. */
    WTF8_NODISCARD bool before(size_t index, char32_t &value) const {
        return found(wtf8_code_point_before(get(), index, raw(&value)));
    }
    /* At most `size` of them. The number written is 0 at the end. */
    WTF8_NODISCARD size_t copy_code_points(size_t &position, char32_t *out, size_t size) const {
        size_t n = 0;
        found(wtf8_copy_code_points(get(), &position, raw(out), size, &n));
        return n;
    }
    WTF8_NODISCARD bool next_surrogate(size_t &position, char16_t &unit) const {
        return found(wtf8_next_surrogate(get(), &position, raw(&unit)));
    }

    /* A walk over the code points, lone surrogates too, which are decoded some at a time, so that a copy of it copies these.
     * The string is not changed or moved meanwhile. <string> has the tags: <iterator> would be 5,000 lines more. */
    class iterator {
    public:
        using iterator_category = std::input_iterator_tag;
        using iterator_concept = std::bidirectional_iterator_tag;
        using value_type = char32_t;
        using difference_type = std::ptrdiff_t;
        using pointer = void;
        using reference = char32_t;

        iterator() noexcept : string_(nullptr), position_(0), at_(0), n_(0), is_last_(false), part_() {}
        char32_t operator*() const noexcept { return part_[at_]; }
        /* At the end the walk stays there. */
        iterator &operator++() noexcept {
            if (n_ == 0) return *this;
            position_ += encoded_len(part_[at_]);
            if (++at_ == n_) decode();
            return *this;
        }
        iterator operator++(int) noexcept { iterator before(*this); ++*this; return before; }
        iterator &operator--() noexcept {
            if (0 < at_) {
                position_ -= encoded_len(part_[--at_]);
            } else if (wtf8_previous_code_point(string_, &position_, raw(part_)) == WTF8_OK) {
                n_ = 1;
                is_last_ = false;
            }
            return *this;
        }
        iterator operator--(int) noexcept { iterator before(*this); --*this; return before; }
        bool operator==(const iterator &other) const noexcept { return position_ == other.position_; }
        bool operator!=(const iterator &other) const noexcept { return position_ != other.position_; }
        /* The position in bytes of the boundary before the code point. */
        WTF8_NODISCARD size_t position() const noexcept { return position_; }

    private:
        friend class string;
        /* How many code points are decoded at a time. */
        enum : size_t { PART = 32 };
        iterator(const wtf8_string *string, size_t position) noexcept
            : string_(string), position_(position), at_(0), n_(0), is_last_(false), part_() {}
        void decode() noexcept {
            size_t after = position_, n = 0;
            at_ = n_ = 0;
            if (is_last_ || wtf8_copy_code_points(string_, &after, raw(part_), PART, &n) != WTF8_OK) return;
            n_ = n;
            is_last_ = n < PART;
        }
        static size_t encoded_len(char32_t value) noexcept {
            return value < 0x80 ? 1 : value < 0x800 ? 2 : value < 0x10000 ? 3 : 4;
        }

        /* The part holds `n_` code points, all that are left if it is the last part. That of index `at_` is at the position. */
        const wtf8_string *string_;
        size_t position_, at_, n_;
        bool is_last_;
        char32_t part_[PART];
    };
    using const_iterator = iterator;
    using reverse_iterator = std::reverse_iterator<iterator>;
    using const_reverse_iterator = reverse_iterator;
    WTF8_NODISCARD iterator begin() const noexcept {
        iterator first(get(), 0);
        first.decode();
        return first;
    }
    WTF8_NODISCARD iterator end() const noexcept { return iterator(get(), byte_len()); }
    WTF8_NODISCARD iterator cbegin() const noexcept { return begin(); }
    WTF8_NODISCARD iterator cend() const noexcept { return end(); }
    WTF8_NODISCARD reverse_iterator rbegin() const noexcept { return reverse_iterator(end()); }
    WTF8_NODISCARD reverse_iterator rend() const noexcept { return reverse_iterator(begin()); }
    WTF8_NODISCARD reverse_iterator crbegin() const noexcept { return rbegin(); }
    WTF8_NODISCARD reverse_iterator crend() const noexcept { return rend(); }
    /* The number of code points of the units from `begin` to before `end`, or of all. A half of a pair counts as one. */
    WTF8_NODISCARD size_t code_point_len(size_t begin, size_t end) const {
        check(end < begin ? WTF8_BAD_POSITION : WTF8_OK);
        const size_t last = position_at(end);
        size_t n = begin < end && divides_pair(end) ? 1 : 0;
        iterator point(get(), position_at(begin));
        for (point.decode(); point.position() < last; ++point) n++;
        return n;
    }
    WTF8_NODISCARD size_t code_point_len() const { return code_point_len(0, unit_len()); }

    /* Asking. */
    WTF8_NODISCARD bool empty() const noexcept { return byte_len() == 0; }
    WTF8_NODISCARD size_t unit_len() const noexcept { return wtf8_unit_len(get()); }
    WTF8_NODISCARD size_t size() const noexcept { return unit_len(); }
    WTF8_NODISCARD size_t length() const noexcept { return unit_len(); }
    WTF8_NODISCARD size_t byte_len() const noexcept { return wtf8_byte_len(get()); }
    WTF8_NODISCARD char16_t at(size_t index) const {
        char16_t unit = 0;
        check(wtf8_unit_at(get(), index, raw(&unit)));
        return unit;
    }
    WTF8_NODISCARD char16_t operator[](size_t index) const { return at(index); }
    WTF8_NODISCARD char16_t front() const { return at(0); }
    WTF8_NODISCARD char16_t back() const { return at(unit_len() - 1); }
    WTF8_NODISCARD size_t position_at(size_t index) const {
        size_t position = 0;
        check(wtf8_position_at(get(), index, &position));
        return position;
    }
    WTF8_NODISCARD size_t unit_before(size_t position) const noexcept { return wtf8_unit_before(get(), position); }
    WTF8_NODISCARD bool is_boundary(size_t position) const noexcept { return wtf8_is_boundary(get(), position); }
    WTF8_NODISCARD bool is_utf8() const noexcept { return wtf8_is_utf8(get()); }
    WTF8_NODISCARD bool is_ascii() const noexcept { return wtf8_is_ascii(get()); }
    WTF8_NODISCARD bool is_latin1() const noexcept { return wtf8_is_latin1(get()); }
    /* The first index at or after `from` at which units or those of a string occur, and the last one at or before it. */
    WTF8_NODISCARD size_t find(const string &other, size_t from = 0) const noexcept {
        size_t index = npos;
        return wtf8_find(get(), from, other.get(), &index) == WTF8_OK ? index : static_cast<size_t>(npos);
    }
    WTF8_NODISCARD size_t find(const char16_t *units, size_t from, size_t n) const noexcept {
        size_t index = npos;
        return wtf8_find_units(get(), from, raw(units), n, &index) == WTF8_OK ? index : static_cast<size_t>(npos);
    }
    WTF8_NODISCARD size_t find(units_in units, size_t from = 0) const noexcept { return find(units.data(), from, units.size()); }
    WTF8_NODISCARD size_t find(char16_t unit, size_t from = 0) const noexcept { return find(&unit, from, 1); }
    WTF8_NODISCARD size_t rfind(const string &other, size_t from = npos) const noexcept {
        size_t index = npos;
        return wtf8_rfind(get(), from, other.get(), &index) == WTF8_OK ? index : static_cast<size_t>(npos);
    }
    WTF8_NODISCARD size_t rfind(const char16_t *units, size_t from, size_t n) const noexcept {
        size_t index = npos;
        return wtf8_rfind_units(get(), from, raw(units), n, &index) == WTF8_OK ? index : static_cast<size_t>(npos);
    }
    WTF8_NODISCARD size_t rfind(units_in units, size_t from = npos) const noexcept { return rfind(units.data(), from, units.size()); }
    WTF8_NODISCARD size_t rfind(char16_t unit, size_t from = npos) const noexcept { return rfind(&unit, from, 1); }
    /* The same of a text, of which a string is made first: no string holds bytes that are not UTF-8. */
    WTF8_NODISCARD size_t find(text_in text, size_t from = 0) const {
        string other;
        return other.set_utf8(text) ? find(other, from) : static_cast<size_t>(npos);
    }
    WTF8_NODISCARD size_t rfind(text_in text, size_t from = npos) const {
        string other;
        return other.set_utf8(text) ? rfind(other, from) : static_cast<size_t>(npos);
    }
    /* Whether units, one, those of a string or of a text occur. */
    template <class Other> WTF8_NODISCARD bool contains(const Other &other) const { return find(other) != npos; }
    /* The first index at or after `from` whose unit is one of these, or none of them, and the last one at or before it. */
    WTF8_NODISCARD size_t find_first_of(units_in units, size_t from = 0) const {
        return seek_first(from, [&](const std::u16string &part) { return part.find_first_of(units); });
    }
    WTF8_NODISCARD size_t find_first_not_of(units_in units, size_t from = 0) const {
        return seek_first(from, [&](const std::u16string &part) { return part.find_first_not_of(units); });
    }
    WTF8_NODISCARD size_t find_last_of(units_in units, size_t from = npos) const {
        return seek_last(from, [&](const std::u16string &part) { return part.find_last_of(units); });
    }
    WTF8_NODISCARD size_t find_last_not_of(units_in units, size_t from = npos) const {
        return seek_last(from, [&](const std::u16string &part) { return part.find_last_not_of(units); });
    }
    WTF8_NODISCARD bool divides_pair(size_t index) const noexcept { return wtf8_divides_pair(get(), index); }
    /* Whether units begin at the index, or are the last. */
    WTF8_NODISCARD bool starts_with(const string &other, size_t index = 0) const noexcept {
        return wtf8_starts_with(get(), index, other.get());
    }
    WTF8_NODISCARD bool starts_with(units_in units, size_t index = 0) const noexcept {
        return wtf8_starts_with_units(get(), index, raw(units.data()), units.size());
    }
    WTF8_NODISCARD bool starts_with(char16_t unit, size_t index = 0) const noexcept {
        return wtf8_starts_with_units(get(), index, raw(&unit), 1);
    }
    WTF8_NODISCARD bool starts_with(text_in text) const noexcept { return starts_with_utf8(text); }
    /* The units of a text in UTF-8, at the start. */
    WTF8_NODISCARD bool starts_with_utf8(text_in text) const noexcept {
        return wtf8_starts_with_utf8(get(), raw(text.data()), text.size());
    }
    WTF8_NODISCARD bool ends_with(const string &other) const noexcept {
        return other.unit_len() <= unit_len() && starts_with(other, unit_len() - other.unit_len());
    }
    WTF8_NODISCARD bool ends_with(units_in units) const noexcept {
        return units.size() <= unit_len() && starts_with(units, unit_len() - units.size());
    }
    WTF8_NODISCARD bool ends_with(char16_t unit) const noexcept { return starts_with(unit, unit_len() - 1); }
    WTF8_NODISCARD bool ends_with(text_in text) const {
        string other;
        return other.set_utf8(text) && ends_with(other);
    }

    /* Comparing. */
    WTF8_NODISCARD bool equals(const string &other) const noexcept { return wtf8_equal(get(), other.get()); }
    WTF8_NODISCARD bool equals(units_in other) const noexcept {
        return wtf8_equal_units(get(), raw(other.data()), other.size());
    }
    /* A text in UTF-8. */
    WTF8_NODISCARD bool equals_utf8(text_in text) const noexcept {
        return wtf8_equal_utf8(get(), raw(text.data()), text.size());
    }
    WTF8_NODISCARD int compare(const string &other) const noexcept { return wtf8_compare_units(get(), other.get()); }
    WTF8_NODISCARD int compare(units_in to) const noexcept {
        return wtf8_compare_with_units(get(), raw(to.data()), to.size());
    }
    /* At most `n` units from an index on, of which a string is made first. */
    WTF8_NODISCARD int compare(size_t index, size_t n, units_in to) const { return substr(index, n).compare(to); }
    /* Bytes that are not UTF-8 come after each string. */
    WTF8_NODISCARD int compare_utf8(text_in text) const noexcept {
        return wtf8_compare_with_utf8(get(), raw(text.data()), text.size());
    }
    WTF8_NODISCARD int compare_code_points(const string &other) const noexcept {
        return wtf8_compare_code_points(get(), other.get());
    }

    /* Copying out. */
    WTF8_NODISCARD std::u16string units() const {
        std::u16string out(unit_len(), 0);
        size_t n = 0;
        check(wtf8_copy_units(get(), raw(&out[0]), out.size(), &n));
        return out;
    }
    WTF8_NODISCARD std::u16string units(size_t begin, size_t end) const {
        std::u16string out(part_len(begin, end), 0);
        copy_units(begin, end, &out[0]);
        return out;
    }
    /* The units from `begin` to before `end` into an array that has room for them. Returns their number. */
    size_t copy_units(size_t begin, size_t end, char16_t *out) const {
        size_t n = 0;
        check(wtf8_copy_slice(get(), begin, end, raw(out), part_len(begin, end), &n));
        return n;
    }
    /* At most `n` units from an index on. Returns their number. */
    size_t copy(char16_t *out, size_t n, size_t index = 0) const { return copy_units(index, end_of(index, n), out); }
    /* Each writes the text to the front of an array of `size` bytes and returns the number of its bytes: one for each unit in
     * Latin-1, in the lossy text byte_len(). If the array is too short, that number is the position of the error. */
    size_t copy_latin1(char *out, size_t size) const {
        size_t n = 0, valid = 0;
        wtf8_result code = wtf8_copy_latin1(get(), raw(out), size, &n, &valid);
        check(code, code == WTF8_NOT_LATIN1 ? valid : n);
        return n;
    }
    size_t copy_utf8(char *out, size_t size) const {
        size_t n = 0;
        wtf8_result code = wtf8_copy_utf8(get(), raw(out), size, &n);
        check(code, n);
        return n;
    }
    size_t copy_lossy(char *out, size_t size) const {
        size_t n = 0;
        wtf8_result code = wtf8_copy_lossy(get(), raw(out), size, &n);
        check(code, n);
        return n;
    }
    WTF8_NODISCARD std::string latin1() const {
        std::string out(unit_len(), 0);
        copy_latin1(&out[0], out.size());
        return out;
    }
    /* Each has as many bytes as the string, since U+FFFD has three, as a surrogate. */
    WTF8_NODISCARD std::string utf8() const {
        std::string out(byte_len(), 0);
        copy_utf8(&out[0], out.size());
        return out;
    }
    WTF8_NODISCARD std::string lossy() const {
        std::string out(byte_len(), 0);
        copy_lossy(&out[0], out.size());
        return out;
    }
    /* Of the units from `begin` to before `end`, by a string of them. A half of a pair is replaced. */
    WTF8_NODISCARD std::string lossy(size_t begin, size_t end) const { return slice(begin, end).lossy(); }

private:
    friend struct hasher;
    /* char16_t and uint16_t are different types, so an array of one must not be read as of the other. Only the library
     * does: it is compiled apart, so the compiler has to expect any access there. The same holds of char32_t. */
    static const uint16_t *raw(const char16_t *at) { return reinterpret_cast<const uint16_t *>(at); }
    static const uint32_t *raw(const char32_t *at) { return reinterpret_cast<const uint32_t *>(at); }
    static const uint8_t *raw(const char *at) { return reinterpret_cast<const uint8_t *>(at); }
    static uint8_t *raw(char *at) { return reinterpret_cast<uint8_t *>(at); }
    static uint16_t *raw(char16_t *at) { return reinterpret_cast<uint16_t *>(at); }
    static uint32_t *raw(char32_t *at) { return reinterpret_cast<uint32_t *>(at); }

    /* The index after at most `n` units from `index` on, which is `index` if that is past the end. */
    size_t end_of(size_t index, size_t n) const noexcept {
        size_t left = index < unit_len() ? unit_len() - index : 0;
        return index + (n < left ? n : left);
    }
    /* The product, or the greatest number if that is less: more bytes than there are. */
    static size_t product(size_t n, size_t width) noexcept { return n <= npos / width ? n * width : static_cast<size_t>(npos); }
    static string times(size_t n, char16_t unit) { return std::move(string().append(n, unit)); }
    /* Makes it the string of a text. Returns false if that is not UTF-8. */
    bool set_utf8(text_in text) {
        wtf8_result code = wtf8_set_utf8(get(), raw(text.data()), text.size(), nullptr);
        if (code != WTF8_NOT_UTF8) check(code);
        return code == WTF8_OK;
    }
    /* What `seek` finds in the units from an index on, of which it gets parts, each twice as long as the one before. */
    template <class Seek> size_t seek_first(size_t from, Seek seek) const {
        for (size_t n = 64; from < unit_len(); from += n, n *= 2) {
            const size_t index = seek(units(from, end_of(from, n)));
            if (index != std::u16string::npos) return from + index;
        }
        return npos;
    }
    /* The same of the units up to that of an index, from the last part on. */
    template <class Seek> size_t seek_last(size_t from, Seek seek) const {
        for (size_t n = 64, end = end_of(0, from) + (from < unit_len() ? 1 : 0); 0 < end; n *= 2) {
            const size_t begin = n < end ? end - n : 0, index = seek(units(begin, end));
            if (index != std::u16string::npos) return begin + index;
            end = begin;
        }
        return npos;
    }
    /* The number of units of a part, or 0 if there is no such part. */
    size_t part_len(size_t begin, size_t end) const noexcept { return begin <= end && end <= unit_len() ? end - begin : 0; }
    string &done(wtf8_result code, size_t position = 0) { check(code, position); return *this; }
    static bool found(wtf8_result code) {
        if (code != WTF8_END) check(code);
        return code != WTF8_END;
    }

    wtf8_string string_;
};

inline void swap(string &a, string &b) noexcept { a.swap(b); }

/* The order is by units, as that of std::u16string. One side may be units. */
#define WTF8_OPERATOR(op, call, value)                                                                        \
    inline bool operator op(const string &a, const string &b) noexcept { return a.call(b) op value; }         \
    inline bool operator op(const string &a, units_in b) noexcept { return a.call(b) op value; }              \
    inline bool operator op(units_in a, const string &b) noexcept { return value op b.call(a); }
WTF8_OPERATOR(==, equals, true) WTF8_OPERATOR(!=, equals, true)
WTF8_OPERATOR(<, compare, 0) WTF8_OPERATOR(<=, compare, 0)
WTF8_OPERATOR(>, compare, 0) WTF8_OPERATOR(>=, compare, 0)
#undef WTF8_OPERATOR
/* One side may be a text in UTF-8, which is compared by its units too; bytes that are not UTF-8 come after each string. */
#define WTF8_TEXT_OPERATOR(op, call, value, type)                                                             \
    inline bool operator op(const string &a, type b) noexcept { return a.call(b) op value; }                  \
    inline bool operator op(type a, const string &b) noexcept { return value op b.call(a); }
#define WTF8_TEXT_OPERATORS(type)                                                                             \
    WTF8_TEXT_OPERATOR(==, equals_utf8, true, type) WTF8_TEXT_OPERATOR(!=, equals_utf8, true, type)           \
    WTF8_TEXT_OPERATOR(<, compare_utf8, 0, type) WTF8_TEXT_OPERATOR(<=, compare_utf8, 0, type)                \
    WTF8_TEXT_OPERATOR(>, compare_utf8, 0, type) WTF8_TEXT_OPERATOR(>=, compare_utf8, 0, type)
WTF8_TEXT_OPERATORS(text_in)
#ifdef WTF8_WITH_CHAR8
WTF8_TEXT_OPERATORS(text8_in)
#endif
#undef WTF8_TEXT_OPERATORS
#undef WTF8_TEXT_OPERATOR
#ifdef __cpp_impl_three_way_comparison
inline std::strong_ordering operator<=>(const string &a, const string &b) noexcept { return a.compare(b) <=> 0; }
inline std::strong_ordering operator<=>(const string &a, units_in b) noexcept { return a.compare(b) <=> 0; }
inline std::strong_ordering operator<=>(const string &a, text_in b) noexcept { return a.compare_utf8(b) <=> 0; }
#ifdef WTF8_WITH_CHAR8
inline std::strong_ordering operator<=>(const string &a, text8_in b) noexcept { return a.compare_utf8(b) <=> 0; }
#endif
#endif

/* A string of both sides' units, one of which may be units, a text, or a unit or char. A string that may be moved from is
 * appended to. */
template <class A, class B> string joined(const A &a, const B &b, size_t n) {
    string out;
    out.reserve_bytes(n);
    return std::move((out += a) += b);
}
WTF8_NODISCARD inline string operator+(const string &a, const string &b) { return joined(a, b, a.byte_len() + b.byte_len()); }
WTF8_NODISCARD inline string operator+(string &&a, const string &b) { return std::move(a += b); }
#define WTF8_PLUS(type, n_of)                                                                                     \
    WTF8_NODISCARD inline string operator+(const string &a, type b) { return joined(a, b, a.byte_len() + n_of(b)); } \
    WTF8_NODISCARD inline string operator+(string &&a, type b) { return std::move(a += b); }                       \
    WTF8_NODISCARD inline string operator+(type a, const string &b) { return joined(a, b, n_of(a) + b.byte_len()); }
#define WTF8_SIZE(text) text.size()
#define WTF8_ONE(unit) 3
WTF8_PLUS(units_in, string::encoded_len) WTF8_PLUS(text_in, WTF8_SIZE)
WTF8_PLUS(char16_t, WTF8_ONE) WTF8_PLUS(char, WTF8_ONE)
#ifdef WTF8_WITH_CHAR8
WTF8_PLUS(text8_in, WTF8_SIZE)
#endif
#undef WTF8_PLUS
#undef WTF8_SIZE
#undef WTF8_ONE

/* Writes the text with U+FFFD in place of each surrogate, as that std::string is written. */
template <class Char>
auto operator<<(std::basic_ostream<Char> &out, const string &a) -> decltype(out << a.lossy()) {
    return out << a.lossy();
}

/* Hashes under a seed, which should be random if others choose the strings. std::hash has the seed 0. */
struct hasher {
    using is_transparent = void;
    hasher(uint64_t first = 0, uint64_t second = 0) noexcept : seed_0(first), seed_1(second) {}
    size_t operator()(const string &a) const noexcept { return wtf8_hash(a.get(), seed_0, seed_1); }
    size_t operator()(units_in a) const noexcept {
        return wtf8_hash_units(string::raw(a.data()), a.size(), seed_0, seed_1);
    }
    /* The hash of the string with this text. */
    WTF8_NODISCARD size_t utf8(text_in a) const noexcept {
        return wtf8_hash_utf8(string::raw(a.data()), a.size(), seed_0, seed_1);
    }
    uint64_t seed_0, seed_1;
};

}
namespace std { template <> struct hash<wtf8::string> : wtf8::hasher {}; }
#undef WTF8_NODISCARD
#undef WTF8_COLD
#undef WTF8_WITH_CHAR8

#endif
