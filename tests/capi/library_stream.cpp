// Tries c/cityseq.hpp: library_stream FOLDER..
//
// It gives each stream in the folders (*.jsonl) to cityseq::stream, with random requests, and with
// pieces and parts of random lengths. The answer, the reports, the output and the tally must be
// those of cityseq.h for the whole stream. Test cases try requests, callbacks that throw, long
// lines and files. The last line is 'N passed, M failed'.
#include "../../c/cityseq.hpp"
#include <cstdio>
#include <cstring>
#include <filesystem>
#include <fstream>
#include <random>
#include <sstream>

namespace {

using Chance = std::mt19937;

constexpr unsigned cuttings = 4;
unsigned passed = 0, failed = 0;

void test_case(const std::string &name, bool holds) {
    ++(holds ? passed : failed);
    if (!holds)
        std::printf("%s: failed\n", name.c_str());
}

unsigned below(Chance &chance, unsigned n) {
    return static_cast<unsigned>(chance() % n);
}

// The results for a stream.
struct Told {
    cityseq::answer answer = {};
    std::vector<cityseq::report> reports;
    std::string output;
    cityseq::tally tally = {};
};

bool same(const cityseq::report &a, const cityseq::report &b) {
    return a.line == b.line && a.begin == b.begin && a.place == b.place && a.code == b.code;
}

// Returns whether both are the same. The peaks are compared only for a complete stream.
bool same(const Told &whole, Told cut) {
    if (whole.answer.status != CITYSEQ_COMPLETE) {
        cut.answer.peak_bytes = whole.answer.peak_bytes;
        cut.answer.peak_tokens = whole.answer.peak_tokens;
        cut.answer.peak_depth = whole.answer.peak_depth;
    }
    return std::memcmp(&whole.answer, &cut.answer, sizeof cut.answer) == 0 &&
           whole.output == cut.output &&
           std::memcmp(&whole.tally, &cut.tally, sizeof cut.tally) == 0 &&
           std::equal(whole.reports.begin(), whole.reports.end(), cut.reports.begin(),
                      cut.reports.end(), [](const auto &a, const auto &b) { return same(a, b); });
}

// Returns the results for the whole stream, from the calls of cityseq.h.
Told of_whole(const std::string &text, const cityseq::request &asked) {
    const cityseq_request raw = asked.raw();
    const std::size_t lf = text.find('\n'), header = lf == std::string::npos ? text.size() : lf + 1;
    const char *part = text.data() + header;
    const std::size_t length = text.size() - header;
    Told told;
    told.reports.resize(static_cast<std::size_t>(std::count(text.begin(), text.end(), '\n')) + 1);
    told.output.resize(text.size());
    told.answer = cityseq_filter(text.data(), header, part, length, &raw, told.output.data(),
                                 told.output.size(), told.reports.data(), told.reports.size());
    told.output.resize(static_cast<std::size_t>(told.answer.written));
    told.reports.resize(static_cast<std::size_t>(told.answer.refused));
    cityseq_info(text.data(), header, part, length, &raw, &told.tally, nullptr, 0);
    return told;
}

// Feeds a stream in pieces of random lengths. Some are empty.
void feed(cityseq::stream &stream, const std::string &text, Chance &chance) {
    const unsigned most = 1 + below(chance, chance() % 2 ? 4 : 900);
    for (std::size_t at = 0; at < text.size();) {
        const std::size_t length = std::min<std::size_t>(below(chance, most + 1), text.size() - at);
        if (!stream.feed(std::string_view(text).substr(at, length)))
            return;
        at += length;
    }
}

// Returns the results for a stream in pieces and parts of random lengths.
Told of_pieces(const std::string &text, const cityseq::request &asked, Chance &chance) {
    Told told;
    const auto kept = [&](std::string_view lines) { told.output += lines; };
    const auto reported = [&](const cityseq::report &one) { told.reports.push_back(one); };
    cityseq::stream filter =
        cityseq::stream::filtering(asked, kept, reported, 1 + below(chance, 3000));
    feed(filter, text, chance);
    told.answer = filter.finish();
    cityseq::stream info = cityseq::stream::tallying(asked, {}, 1 + below(chance, 3000));
    feed(info, text, chance);
    cityseq::answer tallied = info.finish();
    told.tally = info.tallied();
    cityseq::stream check = cityseq::stream::checking(asked, {}, 1 + below(chance, 3000));
    feed(check, text, chance);
    cityseq::answer checked = check.finish();
    if (told.answer.status == CITYSEQ_COMPLETE) {
        tallied.written = checked.written = told.answer.written;
        test_case("check, filter and info answer the same",
                  std::memcmp(&tallied, &told.answer, sizeof tallied) == 0 &&
                      std::memcmp(&checked, &told.answer, sizeof checked) == 0);
    }
    return told;
}

cityseq::request random_request(Chance &chance) {
    static constexpr std::uint64_t limits[] = {8388608, 65536, 210, 139, 64, 3};
    cityseq::request asked;
    asked.line_limit(limits[below(chance, 6)]).depth_limit(below(chance, 4) ? 64 : 5);
    asked.keep_going(below(chance, 2)).tree(below(chance, 3) == 0).exclude(below(chance, 5) == 0);
    asked.extensions(below(chance, 4) == 0);
    if (below(chance, 4) == 0)
        asked.ids({"b1", "b"});
    if (below(chance, 4) == 0)
        asked.lods({"2.2", "1"});
    if (below(chance, 6) == 0)
        asked.types({"Building", "Road"});
    if (below(chance, 6) == 0)
        asked.box("-1000,-1000,100000.5,100000");
    return asked;
}

void try_folder(const std::string &folder, Chance &chance) {
    for (const auto &entry : std::filesystem::directory_iterator(folder)) {
        if (entry.path().extension() != ".jsonl")
            continue;
        std::ifstream file(entry.path(), std::ios::binary);
        std::stringstream read;
        read << file.rdbuf();
        for (unsigned i = 0; i < cuttings; i++) {
            const cityseq::request asked = random_request(chance);
            test_case(entry.path().string() + ", cut " + std::to_string(i),
                      same(of_whole(read.str(), asked), of_pieces(read.str(), asked, chance)));
        }
    }
}

const std::string header =
    R"({"type":"CityJSON","version":"2.0","transform":{"scale":[1,1,1],"translate":[0,0,0]},"CityObjects":{},"vertices":[]})"
    "\n";
const std::string feature =
    R"({"type":"CityJSONFeature","id":"b","CityObjects":{"b":{"type":"Building"}},"vertices":[]})"
    "\n";

template <typename Error, typename Call> bool throws(Call call) {
    try {
        call();
    } catch (const Error &) {
        return true;
    }
    return false;
}

std::uint64_t kept_by(const cityseq::request &asked) {
    return cityseq::check(header + feature, asked).kept;
}

void requests() {
    test_case("the usual request", kept_by({}) == 1);
    test_case("an id", kept_by(cityseq::request().ids({"a", "b"})) == 1);
    test_case("another id", kept_by(cityseq::request().ids({"a"})) == 0);
    test_case("no id", kept_by(cityseq::request().ids({})) == 0);
    test_case("the empty id", kept_by(cityseq::request().ids({""})) == 0);
    test_case("an id left out", kept_by(cityseq::request().ids({"b"}).exclude()) == 0);
    test_case("a text with an LF",
              throws<std::invalid_argument>([] { cityseq::request().ids({"a\nb"}); }));
    std::uint32_t code = 0;
    try {
        cityseq::stream::checking(cityseq::request().types({"House"}));
    } catch (const cityseq::bad_request &fault) {
        code = fault.code();
    }
    test_case("an unknown type, before anything is fed", code == CITYSEQ_UNKNOWN_TYPE);
    test_case("a line limit of 0", throws<cityseq::bad_request>([] {
                  cityseq::check("", cityseq::request().line_limit(0));
              }));
}

void texts() {
    test_case("a reason",
              cityseq::reason_text(CITYSEQ_REASON_VERTEX_INDEX) == "vertex index out of range");
    test_case("no reason", cityseq::reason_text(6).empty());
    test_case("a type",
              cityseq::type_name(1) == "Building" && cityseq::type_name(CITYSEQ_TYPES).empty());
    test_case("the version", cityseq::version() == "0.2.0");
}

void needs() {
    const auto short_lines = cityseq::request().line_limit(65536).ids({"a", "b"});
    test_case("the stack", short_lines.stack() == 131072 && cityseq::request().stack() == 2097152);
    test_case("the memory", short_lines.memory(100, 90) == 200 + 24 * 82 + 9 + 192 + 1024);
    test_case("the memory under a wrong limit",
              cityseq::request().line_limit(0).memory(100, 90) == 0);
}

void callbacks() {
    unsigned calls = 0;
    cityseq::stream stream = cityseq::stream::filtering(
        {},
        [&](std::string_view) {
            calls++;
            throw 7;
        },
        {}, 1);
    test_case("what a callback throws comes through",
              throws<int>([&] { stream.feed(header + feature + feature); }) && calls == 1);
    test_case("and the stream is left", throws<std::logic_error>([&] { stream.feed(feature); }) &&
                                            throws<std::logic_error>([&] { stream.finish(); }) &&
                                            calls == 1);
    std::vector<std::uint64_t> lines;
    cityseq::check(header + feature + "{\n\n[\n", cityseq::request().keep_going(),
                   [&](const cityseq::report &one) { lines.push_back(one.line); });
    test_case("reports by lines of the stream", lines == std::vector<std::uint64_t>{3, 5});
    std::string many = header;
    for (int i = 0; i < 1000; i++)
        many += "{\n";
    lines.clear();
    cityseq::check(many, cityseq::request().keep_going(),
                   [&](const cityseq::report &one) { lines.push_back(one.line); });
    test_case("more reports than there was room for",
              lines.size() == 1000 && lines.front() == 2 && lines.back() == 1001);
}

void ends() {
    test_case("nothing at all", cityseq::check("").code == CITYSEQ_REASON_NO_HEADER);
    cityseq::stream stream = cityseq::stream::checking({}, {}, 1);
    test_case("more is wanted after a header", stream.feed(header) && stream.feed(feature));
    test_case("and not after an invalid line", !stream.feed("{\n") && !stream.feed(feature));
    const cityseq::answer first = stream.finish(), again = stream.finish();
    test_case("the end stays", first.status == CITYSEQ_REFUSED && first.line == 3 &&
                                   std::memcmp(&first, &again, sizeof first) == 0);
    std::string kept;
    const cityseq::answer told =
        cityseq::filter(header + feature, [&](std::string_view lines) { kept += lines; });
    test_case("a filter", told.written == kept.size() && kept == header + feature);
    test_case("a tally", cityseq::info(header + feature).second.types[1] == 1);
}

// A line of 64 MB, with a limit of 200 bytes, ends a stream before all of it was fed. If reading
// goes on, the line is counted and passed over.
void long_lines() {
    const std::string piece(1 << 20, 'x');
    for (const bool going : {false, true}) {
        cityseq::stream stream =
            cityseq::stream::checking(cityseq::request().line_limit(200).keep_going(going));
        stream.feed(header);
        unsigned taken = 0;
        while (taken < 64 && stream.feed(piece))
            taken++;
        stream.feed("\n" + feature);
        const cityseq::answer told = stream.finish();
        test_case(going ? "a long line is passed over" : "a long line is the end",
                  going ? taken == 64 && told.refused == 1 && told.kept == 1
                        : taken == 0 && told.code == CITYSEQ_REASON_LINE_TOO_LONG);
    }
}

void files() {
    std::istringstream good(header + feature);
    cityseq::stream stream = cityseq::stream::checking({});
    test_case("a file", cityseq::read(stream, good).kept == 1);
    struct broken : std::streambuf {
        int_type underflow() override { throw 1; }
    } buffer;
    std::istream bad(&buffer);
    cityseq::stream other = cityseq::stream::checking({});
    test_case("a failed read", throws<std::ios_base::failure>([&] { cityseq::read(other, bad); }));
}

} // namespace

int main(int count, char **folders) {
    Chance chance(7);
    requests();
    texts();
    needs();
    callbacks();
    ends();
    long_lines();
    files();
    for (int i = 1; i < count; i++)
        try_folder(folders[i], chance);
    std::printf("%u passed, %u failed\n", passed, failed);
    return failed != 0;
}
