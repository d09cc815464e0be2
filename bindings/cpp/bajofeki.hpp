/* Bajofeki from C++17, over bajofeki.h: lexers of rules that come at run time. Link libbajofeki.a or libbajofeki.so.

       bajofeki::lexer lexer(rules); // throws bajofeki::rules_error
       for (const bajofeki::piece &piece : lexer.pieces(text)) {
           if (piece.kind != bajofeki::kind::skipped) {
               std::cout << piece.name << ' ' << piece.text << '\n';
           }
       }

   Texts are any bytes, but those of a document are UTF-8. Places and lengths are in bytes, rules are numbered from 0, lines
   and columns count from 1, and columns are in characters unless others are asked for. All types here but records can be moved and not
   copied. A lexer may be moved, and outlives what is made of it. Many threads may read it at once; the pieces of a text, a document and a
   stream are one thread's at a time. A string_view that is given lies in the text that was passed, in the lexer, or where its call says.

   Memory that is refused is a std::bad_alloc, what was moved away a std::logic_error, and a library of another version than this file's a
   std::runtime_error. */
#ifndef BAJOFEKI_HPP
#define BAJOFEKI_HPP
#include <array>
#include <cstddef>
#include <cstdint>
#include <iterator>
#include <memory>
#include <new>
#include <optional>
#include <stdexcept>
#include <string>
#include <string_view>
#include <utility>
#include <vector>
#include "bajofeki.h"

namespace bajofeki {

enum class kind : std::uint32_t {
    token = BAJOFEKI_TOKEN,
    skipped = BAJOFEKI_SKIPPED, // a token of a rule that is skipped
    fault = BAJOFEKI_FAULT      // bytes at none of which a rule matches
};

struct piece {
    bajofeki::kind kind;
    std::size_t rule;      // 0 of a fault
    std::string_view name; // its rule's; empty of a fault
    std::size_t start;
    std::string_view text;
};

struct place {
    std::size_t line;
    std::size_t column;
};

/* What columns count. */
enum class columns : std::uint32_t {
    bytes = BAJOFEKI_BYTES,
    characters = BAJOFEKI_CHARACTERS,
    utf16 = BAJOFEKI_UTF16 // units of UTF-16, as the protocol of language servers does
};

/* Finds the places of offsets in a text, which outlives it. Asked in their order, all of them are found in one pass. */
class places {
public:
    explicit places(std::string_view text, bajofeki::columns columns = columns::characters) : text_(text), columns_(columns) {}

    /* The place of an offset; of one past the end that of the end. */
    place at(std::size_t at) noexcept {
        place_ = bajofeki_place_from(at < place_.at ? first : place_, text_.data(), text_.size(), at, static_cast<std::uint32_t>(columns_));
        return {place_.line, place_.column};
    }

private:
    static constexpr bajofeki_place_t first = {0, 1, 1};
    std::string_view text_;
    bajofeki::columns columns_;
    bajofeki_place_t place_ = first;
};

using change = bajofeki_edit_t; // its code is BAJOFEKI_DONE

/* Why a file of rules has no lexer. */
class rules_error : public std::runtime_error {
public:
    rules_error(const std::string &message, const bajofeki_report_t &report) : std::runtime_error(message), report_(report) {}
    const bajofeki_report_t &report() const noexcept { return report_; }
    std::size_t line() const noexcept { return report_.line; } // 0 if no line is wrong
    std::size_t column() const noexcept { return report_.column; }

private:
    bajofeki_report_t report_;
};

/* A token would put a mode on top of more than 1024 others. */
class too_deep : public std::runtime_error {
public:
    too_deep() : std::runtime_error("more than 1024 modes lie below the top") {}
};

namespace detail {

struct deleter {
    void operator()(bajofeki_lexer *it) const noexcept { bajofeki_lexer_delete(it); }
    void operator()(bajofeki_document *it) const noexcept { bajofeki_document_delete(it); }
    void operator()(bajofeki_stream *it) const noexcept { bajofeki_stream_delete(it); }
};

template <typename T>
using handle = std::unique_ptr<T, deleter>;

/* Throws what a code of a call says. */
inline void check(std::uint32_t code) {
    switch (code) {
    case BAJOFEKI_DONE:
    case BAJOFEKI_FULL: return;
    case BAJOFEKI_BAD_RANGE: throw std::out_of_range("bajofeki: the range isn't one of whole characters of the text");
    case BAJOFEKI_NOT_UTF8: throw std::invalid_argument("bajofeki: the text isn't UTF-8");
    case BAJOFEKI_TOO_DEEP: throw too_deep();
    case BAJOFEKI_TOO_LARGE:
    case BAJOFEKI_BAD_ARGUMENT: throw std::length_error("bajofeki: the text would be too large");
    case BAJOFEKI_OUT_OF_MEMORY: throw std::bad_alloc();
    case BAJOFEKI_ENDED: throw std::logic_error("bajofeki: the stream was finished");
    default: throw std::logic_error("bajofeki: it was moved away");
    }
}

/* A piece of the C library, over the bytes of which `text` begins at the offset `from`. */
inline piece told(const bajofeki_piece_t &it, const std::string *names, std::string_view text, std::size_t from) {
    bool is_fault = it.kind == BAJOFEKI_FAULT;
    return {static_cast<kind>(it.kind), it.rule, is_fault ? std::string_view() : names[it.rule], it.start, text.substr(it.start - from, it.length)};
}

} // namespace detail

class document;
class stream;

/* The pieces of a text, in order: a range that is gone through once. */
class text_pieces {
    struct state {
        bajofeki_text text;
        const std::string *names;
        std::array<bajofeki_piece_t, 64> found;
        bajofeki_cut_t cut;
        std::size_t at;
        state(const bajofeki_lexer *lexer, const std::string *names_of, std::string_view bytes)
            : text(bajofeki_text_begin(lexer, bytes.data(), bytes.size())), names(names_of), found(), cut{BAJOFEKI_FULL, 0, 0}, at(0) {}
        state(const state &) = delete;
        ~state() { bajofeki_text_end(&text); }

        void begin_again(const bajofeki_lexer *lexer, const std::string *names_of, std::string_view bytes) {
            bajofeki_text_begin_again(&text, lexer, bytes.data(), bytes.size());
            names = names_of;
            cut = {BAJOFEKI_FULL, 0, 0};
            at = 0;
        }

        /* Whether there is a further piece. */
        bool fill() {
            if (at == cut.count && cut.code == BAJOFEKI_FULL) {
                cut = bajofeki_text_next(&text, found.data(), found.size());
                at = 0;
            }
            if (at == cut.count) {
                detail::check(cut.code);
            }
            return at < cut.count;
        }
    };
    std::unique_ptr<state> state_;
    friend class lexer;
    text_pieces(const bajofeki_lexer *lexer, const std::string *names, std::string_view text, text_pieces before)
        : state_(std::move(before.state_)) {
        if (state_) {
            state_->begin_again(lexer, names, text);
        } else {
            state_ = std::make_unique<state>(lexer, names, text);
        }
        detail::check(state_->text.code);
    }

public:
    text_pieces() = default; // no pieces

    class iterator {
        state *state_ = nullptr;
        piece piece_ = {};
        friend class text_pieces;
        explicit iterator(state *state) : state_(state) { read(); }
        void read() {
            if (!state_->fill()) {
                state_ = nullptr;
            } else {
                piece_ = detail::told(state_->found[state_->at], state_->names, {state_->text.bytes, state_->text.length}, 0);
            }
        }

    public:
        using iterator_category = std::input_iterator_tag;
        using value_type = piece;
        using difference_type = std::ptrdiff_t;
        using pointer = const piece *;
        using reference = const piece &;
        iterator() = default;
        reference operator*() const noexcept { return piece_; }
        pointer operator->() const noexcept { return &piece_; }
        iterator &operator++() {
            state_->at++;
            read();
            return *this;
        }
        void operator++(int) { ++*this; }
        friend bool operator==(const iterator &one, const iterator &other) noexcept { return one.state_ == other.state_; }
        friend bool operator!=(const iterator &one, const iterator &other) noexcept { return one.state_ != other.state_; }
    };

    /* Throws too_deep where it comes to it, as the increment does. */
    iterator begin() { return state_ ? iterator(state_.get()) : iterator(); }
    iterator end() noexcept { return iterator(); }

    /* The place of a piece's beginning or end. Asked in their order, all of them are found in one pass. */
    bajofeki::place place(std::size_t at) {
        bajofeki_place_t it = bajofeki_text_place(state_ ? &state_->text : nullptr, at);
        return {it.line, it.column};
    }
};

class lexer {
public:
    /* Throws rules_error. Rules are a file of rules. */
    explicit lexer(std::string_view rules) : lexer_(bajofeki_lexer_new(rules.data(), rules.size())) {
        bajofeki_report_t report = bajofeki_lexer_report(lexer_.get());
        if (report.code == BAJOFEKI_OUT_OF_MEMORY || report.code == BAJOFEKI_NO_LEXER) {
            throw std::bad_alloc();
        }
        names_ = names(bajofeki_lexer_name, bajofeki_lexer_rules(lexer_.get()));
        if (report.code != BAJOFEKI_BUILT) {
            throw rules_error(message(report), report);
        }
        modes_ = names(bajofeki_lexer_mode_name, bajofeki_lexer_modes(lexer_.get()));
    }

    /* Those of another text may be given, whose memory then serves again: `pieces = lexer.pieces(line, std::move(pieces));`. */
    text_pieces pieces(std::string_view text, text_pieces before = {}) const {
        return text_pieces(get(), names_.data(), text, std::move(before));
    }

    /* The names of the rules. */
    const std::vector<std::string> &rules() const noexcept { return names_; }
    bool skips(std::size_t rule) const noexcept { return bajofeki_lexer_skips(lexer_.get(), rule); }

    /* The names of the modes, which are numbered from 0, in the order in which the file first names them. */
    const std::vector<std::string> &modes() const noexcept { return modes_; }

    /* What a token of a rule does to the stack of modes, one after another. */
    std::vector<bajofeki_action_t> actions(std::size_t rule) const {
        std::vector<bajofeki_action_t> all;
        bajofeki_action_t next;
        while ((next = bajofeki_lexer_action(lexer_.get(), rule, all.size())).kind != BAJOFEKI_NO_ACTION) {
            all.push_back(next);
        }
        return all;
    }

    /* How many characters after a token of a mode can leave open whether a longer one comes; nothing if any number can. */
    std::optional<std::size_t> lookahead(std::size_t mode) const {
        bajofeki_look_t look = bajofeki_lexer_lookahead(lexer_.get(), mode);
        if (look.code == BAJOFEKI_NO_LEXER) {
            throw std::out_of_range("bajofeki: there is no such mode");
        }
        return look.code == BAJOFEKI_AT_MOST ? std::optional(look.count) : std::nullopt;
    }

    /* A text as HTML, or in colours for a terminal. Throws std::invalid_argument if it isn't UTF-8. */
    std::string html(std::string_view text) const { return page(bajofeki_lexer_html, text); }
    std::string ansi(std::string_view text) const { return page(bajofeki_lexer_ansi, text); }

    /* The lexer as one source file, in C with names that begin with the prefix, or in Rust. Throws std::invalid_argument if a name can't stand
       in it: a prefix that isn't an identifier, or in Rust a rule's name that begins with a digit, or is _, self, super, crate or Self. */
    std::string c_source(std::string_view prefix = "lex") const { return page(bajofeki_lexer_c_source, prefix); }
    std::string rust_source() const {
        auto writes = [](const bajofeki_lexer *it, const char *, std::size_t, char *out, std::size_t room) {
            return bajofeki_lexer_rust_source(it, out, room);
        };
        return page(writes, {});
    }

private:
    detail::handle<bajofeki_lexer> lexer_;
    std::vector<std::string> names_, modes_;
    friend class document;
    friend class stream;

    const bajofeki_lexer *get() const {
        if (!lexer_) {
            detail::check(BAJOFEKI_NO_LEXER);
        }
        return lexer_.get();
    }

    template <typename F>
    std::string page(F shows, std::string_view text) const {
        bajofeki_page_t page = shows(lexer_.get(), text.data(), text.size(), nullptr, 0);
        std::string out(page.length, ' ');
        if (page.code == BAJOFEKI_BAD_NAME) {
            throw std::invalid_argument("bajofeki: a name can't stand in the source file");
        }
        detail::check(page.code);
        detail::check(shows(lexer_.get(), text.data(), text.size(), out.data(), out.size()).code);
        return out;
    }

    /* The names of as many rules or modes as there are. */
    std::vector<std::string> names(std::size_t (*writes)(const bajofeki_lexer *, std::size_t, char *, std::size_t), std::size_t count) const {
        std::vector<std::string> all;
        for (std::size_t number = 0; number < count; number++) {
            all.emplace_back(writes(lexer_.get(), number, nullptr, 0), ' ');
            writes(lexer_.get(), number, all.back().data(), all.back().size());
        }
        return all;
    }

    std::string message(const bajofeki_report_t &report) const {
        static const char *const reasons[] = {"", "this is no line of a file of rules", "the text of this rule doesn't parse",
            "the end of this rule is empty or has more than 64 characters", "this rule can't be compiled", "another rule matches the same word: ",
            "there are no rules, or too many, or they are too large for a table", "", "", "", "", "the library and its header have two versions"};
        std::string front, name = report.rule < names_.size() && report.code != BAJOFEKI_BAD_LINE ? names_[report.rule] + ": " : "";
        if (report.line > 0) {
            front = "line " + std::to_string(report.line) + ", column " + std::to_string(report.column) + ": ";
        }
        return front + name + reasons[report.code] + (report.code == BAJOFEKI_CLASH ? names_[report.other] : "");
    }
};

/* What a check of rules came to, a comparison or a drawing. */
struct checked {
    std::uint32_t code;   // BAJOFEKI_CLEAN, BAJOFEKI_FOUND, BAJOFEKI_REFUSED, BAJOFEKI_UNREAD or BAJOFEKI_NO_RULE
    std::string findings; // the lines that `tokens --check` writes, or `tokens --diff`, or the pictures of `tokens --dot`
    std::string message;  // why the rules can't be read or compiled; the warnings, unless lines are JSON
};

namespace detail {

/* What a call writes into an array, which grows until all of it fits. */
template <typename F>
checked answered(F call) {
    std::string all(1 << 16, ' ');
    bajofeki_checked_t told = call(all.data(), all.size());
    if (told.length > all.size()) {
        all.resize(told.length);
        told = call(all.data(), all.size());
    }
    if (told.code == BAJOFEKI_OTHER_VERSION) {
        throw std::runtime_error("bajofeki: the library and its header have two versions");
    }
    if (told.code == BAJOFEKI_BAD_ARGUMENT) {
        throw std::invalid_argument("bajofeki: a name isn't UTF-8");
    }
    if (told.code == BAJOFEKI_OUT_OF_MEMORY) {
        throw std::bad_alloc();
    }
    all.resize(told.length);
    return {told.code, all.substr(0, told.found), all.substr(told.found)};
}

} // namespace detail

/* Checks a file of rules of this name. Throws std::invalid_argument if the name isn't UTF-8. */
inline checked check(std::string_view rules, const std::string &name = "rules", bool is_json = false) {
    return detail::answered([&](char *out, std::size_t room) {
        return bajofeki_rules_check(name.c_str(), rules.data(), rules.size(), is_json, out, room);
    });
}

/* Compares two files of rules of these names. Throws std::invalid_argument if a name isn't UTF-8. */
inline checked diff(std::string_view rules, std::string_view other, const std::string &name = "rules", const std::string &other_name = "others") {
    return detail::answered([&](char *out, std::size_t room) {
        return bajofeki_rules_diff(name.c_str(), rules.data(), rules.size(), other_name.c_str(), other.data(), other.size(), out, room);
    });
}

/* Draws the modes of a file of rules of this name; or, if the name of a rule isn't empty, the rules that have it. Throws
   std::invalid_argument if a name isn't UTF-8. */
inline checked dot(std::string_view rules, const std::string &rule = "", const std::string &name = "rules") {
    return detail::answered([&](char *out, std::size_t room) {
        return bajofeki_rules_dot(name.c_str(), rules.data(), rules.size(), rule.c_str(), out, room);
    });
}

/* A text that is edited, with its pieces. */
class document {
public:
    /* Throws as an edit does. */
    explicit document(const bajofeki::lexer &lexer, std::string_view text = {})
        : document_(bajofeki_document_new(lexer.get())), names_(lexer.names_.data()) {
        if (!document_) {
            throw std::bad_alloc();
        }
        edit(0, 0, text);
    }

    /* Replaces the bytes from one offset to another. Throws std::out_of_range if they aren't whole characters of the text,
       std::invalid_argument if the new ones aren't UTF-8, std::length_error from 4,294,967,295 bytes on. Then nothing has changed. */
    change edit(std::size_t from, std::size_t to, std::string_view bytes) {
        text_.reserve(text_.size() + bytes.size());
        change change = bajofeki_document_edit(document_.get(), from, to, bytes.data(), bytes.size());
        detail::check(change.code);
        text_.replace(from, to - from, bytes);
        return change;
    }

    /* It lasts until the next edit, as the text of a piece does. */
    std::string_view text() const noexcept { return text_; }

    /* The pieces that hold a byte from one offset to another, in order and each whole. */
    std::vector<piece> pieces(std::size_t from = 0, std::size_t to = std::string_view::npos) const {
        bajofeki_count_t count = bajofeki_document_pieces(document_.get(), from, to, nullptr, 0);
        std::vector<bajofeki_piece_t> found(count.count);
        std::vector<piece> all;
        detail::check(count.code);
        detail::check(bajofeki_document_pieces(document_.get(), from, to, found.data(), found.size()).code);
        all.reserve(found.size());
        for (const bajofeki_piece_t &it : found) {
            all.push_back(detail::told(it, names_, text_, 0));
        }
        return all;
    }

    /* The piece that holds a byte; nothing at the end of the text and past it. */
    std::optional<piece> piece_at(std::size_t at) const {
        bajofeki_piece_t it;
        bajofeki_count_t count = bajofeki_document_pieces(document_.get(), at, at < text_.size() ? at + 1 : at, &it, 1);
        detail::check(count.code);
        return count.count == 1 ? std::optional(detail::told(it, names_, text_, 0)) : std::nullopt;
    }

    /* The place of an offset, and back; nothing where there is none, as in a character. */
    std::optional<bajofeki::place> place(std::size_t at, bajofeki::columns columns = columns::characters) const noexcept {
        bajofeki_place_t it = bajofeki_document_place(document_.get(), at);
        if (it.line == 0) {
            return std::nullopt;
        }
        std::size_t start = bajofeki_document_offset(document_.get(), it.line, 1).at;
        return bajofeki::place{it.line, places(text().substr(start, at - start), columns).at(at).column};
    }
    std::optional<std::size_t> offset(bajofeki::place place, bajofeki::columns columns = columns::characters) const noexcept {
        bajofeki_place_t it = bajofeki_document_offset(document_.get(), place.line, columns == columns::characters ? place.column : 1);
        if (it.line == 0 || columns == columns::characters) {
            return it.line > 0 ? std::optional(it.at) : std::nullopt;
        }
        std::string_view line = text().substr(it.at);
        line = line.substr(0, line.find('\n'));
        places passed(line, columns);
        std::size_t at = 0;
        while (at < line.size() && passed.at(at).column < place.column) {
            at++;
            while (at < line.size() && (line[at] & 0xC0) == 0x80) {
                at++;
            }
        }
        return passed.at(at).column == place.column ? std::optional(it.at + at) : std::nullopt;
    }

private:
    detail::handle<bajofeki_document> document_;
    const std::string *names_;
    std::string text_;
};

/* A text that comes in chunks. */
class stream {
public:
    explicit stream(const bajofeki::lexer &lexer) : stream_(bajofeki_stream_new(lexer.get())), names_(lexer.names_.data()) {
        if (!stream_) {
            throw std::bad_alloc();
        }
    }

    /* More bytes come, cut anywhere, also in a character. Throws std::logic_error after finish. */
    void feed(std::string_view bytes) { feed(bytes, false); }

    /* No more bytes come. */
    void finish() { feed({}, true); }

    /* The next piece that nothing that comes can change; nothing if more is to be fed first. Its text lasts until that. */
    std::optional<piece> next() {
        if (at_ == count_.count) {
            count_ = bajofeki_stream_next(stream_.get(), found_.data(), found_.size());
            at_ = 0;
            detail::check(count_.count > 0 ? static_cast<std::uint32_t>(BAJOFEKI_DONE) : count_.code);
        }
        if (at_ == count_.count) {
            return std::nullopt;
        }
        const bajofeki_piece_t &it = found_[at_++];
        end_ = it.start + it.length;
        return detail::told(it, names_, bytes_, begin_);
    }

private:
    detail::handle<bajofeki_stream> stream_;
    const std::string *names_;
    std::array<bajofeki_piece_t, 64> found_ = {};
    bajofeki_count_t count_ = {BAJOFEKI_DONE, 0};
    std::size_t at_ = 0;
    std::string bytes_;     // what has come from the offset `begin_` on
    std::size_t begin_ = 0; // at most `end_`
    std::size_t end_ = 0;   // where the last piece that was given ends

    void feed(std::string_view bytes, bool is_last) {
        if (end_ - begin_ >= bytes_.size() / 2) { // So no more bytes are moved than are dropped.
            bytes_.erase(0, end_ - begin_);
            begin_ = end_;
        }
        bytes_.append(bytes);
        const std::uint32_t code = bajofeki_stream_feed(stream_.get(), bytes.data(), bytes.size(), is_last);
        if (code != BAJOFEKI_DONE) {
            bytes_.resize(bytes_.size() - bytes.size());
        }
        detail::check(code);
    }
};

} // namespace bajofeki

#endif
