/* checks: calls each function of bajofeki.hpp, and stops at the first wrong answer. To be run under sanitizers. */
#include <algorithm>
#include <cstdio>
#include <cstdlib>
#include <type_traits>
// The header asks for the version here.
#define bajofeki_version version_found
#include "bajofeki.hpp"
#undef bajofeki_version

#define CHECK(fact) ((fact) ? (void)0 : fail(__LINE__, #fact))

using bajofeki::columns;
using bajofeki::kind;

static std::uint32_t newer = 0; // how much newer the library seems

extern "C" {
std::uint32_t bajofeki_version(void);
std::uint32_t version_found(void) { return bajofeki_version() + newer; }
}

namespace {

void fail(int line, const char *fact) {
    std::fprintf(stderr, "checks: line %d: %s\n", line, fact);
    std::exit(1);
}

template <typename Error, typename F>
bool throws(F call) {
    try {
        call();
    } catch (const Error &) {
        return true;
    }
    return false;
}

const char three[] = "LET = 'let'\nNAME = /[a-z]+/\nSPACE skip = /\\s+/\n";

bool is(const bajofeki::piece &it, bajofeki::kind kind, std::string_view name, std::size_t start, std::string_view text) {
    return it.kind == kind && it.name == name && it.start == start && it.text == text;
}

void check_lexer() {
    bajofeki::lexer first(three), lexer(std::move(first));
    std::string text = "let x\n?";
    std::vector<bajofeki::piece> all;
    bajofeki::text_pieces pieces = lexer.pieces(text);
    bajofeki::lexer moved = std::move(lexer);
    for (const bajofeki::piece &piece : pieces) {
        all.push_back(piece);
    }
    CHECK(all.size() == 5 && is(all[0], kind::token, "LET", 0, "let") && is(all[1], kind::skipped, "SPACE", 3, " "));
    CHECK(is(all[2], kind::token, "NAME", 4, "x") && is(all[4], kind::fault, "", 6, "?") && all[4].text.data() == text.data() + 6);
    CHECK(pieces.place(4).column == 5 && pieces.place(6).line == 2 && pieces.begin() == pieces.end());
    bajofeki::text_pieces many = moved.pieces(text);
    CHECK(std::count_if(many.begin(), many.end(), [](const bajofeki::piece &it) { return it.kind == kind::token; }) == 2);
    bajofeki::text_pieces none = moved.pieces({});
    CHECK(none.begin() == none.end() && moved.rules().size() == 3 && moved.rules()[2] == "SPACE" && moved.skips(2) && !moved.skips(0));
    CHECK(moved.modes() == std::vector<std::string>{"INITIAL"} && moved.lookahead(0) == std::size_t{0} && moved.html("let") == "<span class=\"LET\">let</span>");
    CHECK(moved.ansi("let") != "" && throws<std::invalid_argument>([&] { moved.html("\xFF"); }));
    CHECK(moved.c_source().substr(0, 8) == "/* lex: " && moved.rust_source().substr(0, 3) == "// ");
    CHECK(throws<std::invalid_argument>([&] { moved.c_source("1ex"); }) && throws<std::logic_error>([&] { lexer.rust_source(); }));
    bajofeki::lexer nested("OPEN push IN mode IN = '('\n[IN]\nCLOSE pop = ')'\n");
    std::vector<bajofeki_action_t> open = nested.actions(0), closed = nested.actions(1);
    CHECK(nested.modes()[1] == "IN" && open.size() == 2 && open[0].kind == BAJOFEKI_PUSH && open[0].mode == 1 && open[1].kind == BAJOFEKI_MODE);
    CHECK(closed.size() == 1 && closed[0].kind == BAJOFEKI_POP && nested.actions(2).empty());
    for (const char *line : {"let", "", "?", "let"}) {
        none = moved.pieces(line, std::move(none));
        CHECK(none.begin() == none.end() ? *line == 0 : none.begin()->text == line);
    }
    CHECK(throws<std::out_of_range>([&] { moved.lookahead(1); }) && throws<std::logic_error>([&] { lexer.pieces("a"); }));
    CHECK(throws<std::logic_error>([&] { lexer.html("a"); }) && throws<std::logic_error>([&] { bajofeki::document(std::move(lexer)); }));
    CHECK(!std::is_copy_constructible_v<bajofeki::lexer> && std::is_nothrow_move_constructible_v<bajofeki::lexer>);
    CHECK(!std::is_copy_constructible_v<bajofeki::document> && !std::is_copy_constructible_v<bajofeki::stream>);
}

void check_errors() {
    try {
        bajofeki::lexer lexer("ABC = /ab|c/\nDEF = /[b-d]+/\n");
        CHECK(false);
    } catch (const bajofeki::rules_error &error) {
        CHECK(error.line() == 2 && error.column() == 8 && error.report().code == BAJOFEKI_CLASH);
        CHECK(error.what() == std::string("line 2, column 8: DEF: another rule matches the same word: ABC"));
    }
    try {
        bajofeki::lexer lexer("ABC\n");
        CHECK(false);
    } catch (const std::exception &error) {
        CHECK(std::string_view(error.what()).substr(0, 7) == "line 1,");
    }
    CHECK(throws<bajofeki::rules_error>([] { bajofeki::lexer({}); }));
    bajofeki::checked clash = bajofeki::check("A = 'a'\nB = 'a'\n", "f"), bad = bajofeki::check("A\n");
    CHECK(clash.code == BAJOFEKI_REFUSED && clash.findings.substr(0, 23) == "f:2:6: B clashes with A" && clash.message.empty());
    CHECK(bajofeki::check("A = 'a'\nB = 'a'\n", "f", true).findings.substr(0, 21) == "{\"file\":\"f\",\"line\":2,");
    CHECK(bad.code == BAJOFEKI_UNREAD && bad.findings.empty() && bad.message.substr(0, 16) == "tokens: rules:1:");
    CHECK(bajofeki::check(three).code == BAJOFEKI_CLEAN && throws<std::invalid_argument>([] { bajofeki::check("", "\xFF"); }));
    bajofeki::checked other = bajofeki::diff("B = 'a'\n", "A = 'a'\n", "f", "g");
    CHECK(other.code == BAJOFEKI_FOUND && other.findings == "\"a\" is B in f, and A in g\n" && bajofeki::diff(three, three).code == BAJOFEKI_CLEAN);
    CHECK(bajofeki::dot(three).findings.substr(0, 7) == "digraph" && bajofeki::dot(three, "LET").code == BAJOFEKI_CLEAN);
    CHECK(bajofeki::dot(three, "LETTER").code == BAJOFEKI_NO_RULE && throws<std::invalid_argument>([] { bajofeki::dot("", "\xFF"); }));
    bajofeki::lexer deep("OPEN push INITIAL = '('\n");
    std::string text(1100, '(');
    std::size_t count = 0;
    CHECK(throws<bajofeki::too_deep>([&] {
        for (const bajofeki::piece &piece : deep.pieces(text)) {
            count += piece.text.size();
        }
    }));
    CHECK(count == 1024);
}

void check_version() {
    newer = 1;
    CHECK(throws<bajofeki::rules_error>([] { bajofeki::lexer{three}; }) && throws<std::runtime_error>([] { bajofeki::check(three); }));
    CHECK(throws<std::runtime_error>([] { bajofeki::diff(three, three); }) && throws<std::runtime_error>([] { bajofeki::dot(three); }));
    newer = 0;
}

/* Each place of a text is found in it, and in a document both ways. */
void check_columns() {
    bajofeki::lexer lexer(three);
    bajofeki::document document(lexer, "ab\n\xC3\xA9\xE6\xBC\xA2\xF0\x9F\x98\x80x\n");
    const std::size_t offsets[] = {0, 2, 3, 5, 8, 12, 13, 14};
    const std::size_t wanted[3][8] = {{1, 3, 1, 3, 6, 10, 11, 1}, {1, 3, 1, 2, 3, 4, 5, 1}, {1, 3, 1, 2, 3, 5, 6, 1}};
    for (columns of : {columns::bytes, columns::characters, columns::utf16}) {
        bajofeki::places places(document.text(), of);
        for (std::size_t i = 0; i < 8; i++) {
            bajofeki::place place = places.at(offsets[i]);
            CHECK(place.line == (i < 2 ? 1U : i < 7 ? 2U : 3U) && place.column == wanted[static_cast<std::size_t>(of)][i]);
            CHECK(document.place(offsets[i], of)->column == place.column && document.offset(place, of) == offsets[i]);
        }
        CHECK(places.at(99).line == 3 && places.at(1).column == 2 && !document.place(4, of));
        CHECK(!document.offset({2, 12}, of) && !document.offset({4, 1}, of) && !document.offset({2, 0}, of));
    }
    CHECK(!document.offset({2, 2}, columns::bytes) && !document.offset({2, 4}, columns::utf16));
    CHECK(bajofeki::places({}).at(1).column == 1);
}

void check_document() {
    bajofeki::lexer lexer(three);
    bajofeki::document first(lexer, "letter\nx"), document(std::move(first));
    bajofeki::change change = document.edit(8, 8, "y");
    CHECK(change.first == 2 && change.removed == 1 && change.inserted == 1 && change.start == 7 && change.old_end == 8 && change.new_end == 9);
    document.edit(3, 6, " \xC3\xA9");
    CHECK(document.text() == "let \xC3\xA9\nxy" && document.pieces().size() == 5 && document.pieces(3, 7).size() == 3);
    CHECK(is(document.pieces()[2], kind::fault, "", 4, "\xC3\xA9") && is(*document.piece_at(8), kind::token, "NAME", 7, "xy"));
    CHECK(!document.piece_at(9) && !document.piece_at(99) && document.pieces(9, 99).empty());
    CHECK(document.place(8)->line == 2 && document.place(8)->column == 2 && !document.place(5) && !document.place(10));
    CHECK(document.offset({2, 2}) == std::size_t{8} && !document.offset({2, 9}));
    CHECK(throws<std::out_of_range>([&] { document.edit(5, 6, ""); }) && throws<std::invalid_argument>([&] { document.edit(0, 0, "\xFF"); }));
    CHECK(document.text().size() == 9 && document.edit(0, 9, {}).removed == 5 && document.text().empty() && document.pieces().empty());
    CHECK(throws<std::logic_error>([&] { first.edit(0, 0, "a"); }) && throws<std::invalid_argument>([&] { bajofeki::document(lexer, "\xFF"); }));
}

void check_stream() {
    bajofeki::lexer lexer(three);
    bajofeki::stream first(lexer), stream(std::move(first)), broken(lexer);
    std::string text;
    stream.feed("le");
    CHECK(!stream.next());
    stream.feed("t \xC3");
    CHECK(is(*stream.next(), kind::token, "LET", 0, "let") && !stream.next());
    stream.feed("\xA9");
    stream.finish();
    CHECK(is(*stream.next(), kind::skipped, "SPACE", 3, " ") && is(*stream.next(), kind::fault, "", 4, "\xC3\xA9") && !stream.next());
    CHECK(throws<std::logic_error>([&] { stream.feed("a"); }) && throws<std::logic_error>([&] { first.feed("a"); }));
    broken.feed("a \xFF");
    CHECK(is(*broken.next(), kind::token, "NAME", 0, "a") && is(*broken.next(), kind::skipped, "SPACE", 1, " ") && !broken.next());
    broken.finish();
    CHECK(is(*broken.next(), kind::fault, "", 2, "\xFF") && !broken.next());
    bajofeki::stream long_one(lexer);
    std::size_t end = 0;
    for (int i = 0; i < 3000; i++) {
        std::string bytes = "name" + std::to_string(i) + (i % 7 == 0 ? "\n" : " let ");
        text += bytes;
        long_one.feed(bytes);
        if (i == 2999) {
            long_one.finish();
        }
        while (std::optional<bajofeki::piece> piece = long_one.next()) {
            CHECK(piece->start == end && piece->text == text.substr(end, piece->text.size()));
            end += piece->text.size();
        }
    }
    CHECK(end == text.size());
}

} // namespace

int main() {
    check_lexer();
    check_errors();
    check_version();
    check_columns();
    check_document();
    check_stream();
}
