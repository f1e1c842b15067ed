// Tries what c/cityseq.hpp adds to cityseq.h beside streams: features, world coordinates, texts
// without escapes, places of reports and of faults. The last line is 'N passed, M failed'.
#include "../../c/cityseq.hpp"
#include <cstdio>
#include <limits>

namespace {

using namespace std::string_literals;

unsigned passed = 0, failed = 0;

void test_case(const std::string &name, bool holds) {
    ++(holds ? passed : failed);
    if (!holds)
        std::printf("%s: failed\n", name.c_str());
}

template <typename Thrown, typename Call> bool throws(Call call) {
    try {
        call();
    } catch (const Thrown &) {
        return true;
    }
    return false;
}

std::string header_of(const std::string &scale, const std::string &translate) {
    return R"({"type":"CityJSON","version":"2.0","transform":{"scale":[)" + scale +
           R"(],"translate":[)" + translate + R"(]},"CityObjects":{},"vertices":[]})" + "\n";
}

const std::string header = header_of("0.001,0.001,0.001", "84616.468,-447422.999,0");

// Returns the line of a feature. The id is spelled so, and the city objects are these.
std::string line_of(const std::string &id, const std::string &objects,
                    const std::string &vertices = "") {
    return R"({"type":"CityJSONFeature","id":)" + id + R"(,"CityObjects":{)" + objects +
           R"(},"vertices":[)" + vertices + "]}\n";
}

const std::string plain = line_of(R"("b")", R"("b":{"type":"Building"})", "[1,-2,3],[-4,5,6]");

// ---- texts

void texts() {
    test_case("a plain text", cityseq::unescaped(R"("a b")") == "a b");
    test_case("no text", cityseq::unescaped(R"("")").empty());
    test_case("UTF-8 stays", cityseq::unescaped("\"\xc3\xa9\"") == "\xc3\xa9");
    test_case("short escapes", cityseq::unescaped(R"("\"\\\/\b\f\n\r\t")") == "\"\\/\b\f\n\r\t");
    test_case("a NUL", cityseq::unescaped(R"("a\u0000b")") == "a\0b"s);
    test_case("one byte to three",
              cityseq::unescaped(R"("\u0041\u00e9\u20AC")") == "A\xc3\xa9\xe2\x82\xac");
    test_case("the edges", cityseq::unescaped(R"("\u007f\u0080\u07ff\u0800\uffff")") ==
                               "\x7f\xc2\x80\xdf\xbf\xe0\xa0\x80\xef\xbf\xbf");
    test_case("a pair", cityseq::unescaped(R"("\ud83d\uDE00!")") == "\xf0\x9f\x98\x80!");
    test_case("the first pair and the last one",
              cityseq::unescaped(R"("\ud800\udc00\udbff\udfff")") ==
                  "\xf0\x90\x80\x80\xf4\x8f\xbf\xbf");
    test_case("a lone surrogate", cityseq::unescaped(R"("\ud800")") == "\xed\xa0\x80");
    test_case("and one before a letter",
              cityseq::unescaped(R"("\ud800\u0042")") == "\xed\xa0\x80\x42");
    test_case("and a second half",
              cityseq::unescaped(R"("\udc00\ud800")") == "\xed\xb0\x80\xed\xa0\x80");
    for (const char *wrong :
         {"", "\"", "a", "\"a", R"("\")", R"("\x")", R"("\u12")", R"("\u12g4")"})
        test_case("no JSON string: "s + wrong,
                  throws<std::invalid_argument>([&] { cityseq::unescaped(wrong); }));
}

// ---- world coordinates

void coordinates() {
    const cityseq::transform world(header);
    test_case("translate alone",
              world.x(0) == 84616.468 && world.y(0) == -447422.999 && world.z(0) == 0);
    test_case("the nearest floats", world.x(1) == 84616.469 && world.x(-17) == 84616.451 &&
                                        world.x(123456789) == 208073.257 && world.z(3) == 0.003);
    test_case("below 0", world.y(1) == -447422.998 && world.y(447422999) == 0);
    test_case("by the number of an axis", world(0, 1) == world.x(1) && world(2, 7) == 0.007);
    test_case("no other axis", throws<std::out_of_range>([&] { world(3, 0); }));
    test_case("without its LF",
              cityseq::transform(header.substr(0, header.size() - 1)).x(1) == 84616.469);
    const cityseq::transform wide(header_of("1e3,-2.5e-22,1e-30", "1e22,1,1e-30"));
    test_case("above 2^53 units", wide.x(0) == 1e22 && wide.x(1) == 1e22 + 1e3);
    test_case("small numbers", wide.y(4000) == 1 && wide.z(1) == 2e-30 && wide.z(0) == 1e-30);
    const cityseq::transform far(header_of("1e400,1e-400,-1e400", "7,7,0"));
    const double endless = std::numeric_limits<double>::infinity();
    test_case("no float is as great", far.x(1) == endless && far.z(1) == -endless && far.x(0) == 7);
    test_case("or as small", far.y(1) == 7);
    const cityseq::transform one(header_of("1,1,1", "0,0,0"));
    const std::int64_t most = std::numeric_limits<std::int64_t>::max();
    test_case("the greatest vertex",
              one.x(most) == 9223372036854775808.0 && one.x(-most) == -one.x(most));
    test_case("no header", throws<std::invalid_argument>([] { cityseq::transform("{}"); }));
    test_case("no transform",
              throws<std::invalid_argument>([] { cityseq::transform(cityseq::tally{}); }));
    test_case("by a tally", cityseq::transform(cityseq::info(header).second).x(1) == 84616.469);
}

// ---- features

void features() {
    const std::string other = line_of(
        R"("\u0063\"")", R"("d":{"type":"BuildingPart","parents":["c\""],"attributes":{"n":1}},)"
                         R"("c\"":{"type":"Building","children":["d"],"attributes": {"n":[2]} })");
    const std::string all = header + plain + "\n" + other;
    const cityseq::features found(all);
    test_case("as many", found.size() == 2 && found.told().status == CITYSEQ_COMPLETE);
    std::vector<std::string> ids, texts;
    for (const cityseq::feature &each : found) {
        ids.push_back(each.id());
        texts.push_back(std::string(each.text) + "\n");
    }
    test_case("their ids", ids == std::vector<std::string>{"b", "c\""});
    test_case("their lines", texts == std::vector<std::string>{plain, other});
    test_case("their numbers", found[0].line == 2 && found[1].line == 4 && found[1].objects == 2);
    test_case("attributes",
              found[0].attributes().empty() && found[1].attributes() == R"({"n":[2]})");
    test_case("ranges", found[0].ranges[1].some && found[0].ranges[1].least == -2 &&
                            found[0].ranges[1].greatest == 5 && !found[1].ranges[0].some);
    test_case("no third one", throws<std::out_of_range>([&] { found[2]; }));
    const cityseq::features asked(all, cityseq::request().ids({"b"}));
    test_case("those of a query", asked.size() == 1 && asked[0].id() == "b");
    const cityseq::features part(header, other);
    test_case("a header and a part", part.size() == 1 && part[0].begin == 0);
    const cityseq::features cut(header + plain + "{\n" + other);
    test_case("those before an invalid line",
              cut.size() == 1 && cut.told().status == CITYSEQ_REFUSED && cut.told().line == 3);
    test_case("none", cityseq::features(header).size() == 0);
    test_case("nothing at all", cityseq::features("").told().code == CITYSEQ_REASON_NO_HEADER);
    std::string many;
    for (int i = 0; i < 5000; i++)
        many += plain;
    const cityseq::features listed(header, many);
    test_case("many", listed.size() == 5000 && listed[4999].line == 5001 &&
                          listed[4999].begin == 4999 * plain.size());
}

// ---- places

void places() {
    const std::string first = "{\n" + plain + "[\n", next = plain + "\n]\n";
    cityseq::request asked;
    const cityseq_request raw = asked.keep_going().raw();
    cityseq::report reports[3];
    const auto check = [&](const std::string &part, cityseq::report *room, std::size_t count) {
        return cityseq_check(header.data(), header.size(), part.data(), part.size(), &raw, room,
                             count);
    };
    cityseq::part_offset offset;
    const cityseq::answer told = check(first, reports, 2);
    offset = offset.after(told, first.size());
    check(next, reports + 2, 1);
    reports[2] = cityseq::moved(reports[2], offset);
    test_case("a report of the second part",
              reports[2].line == 7 && reports[2].place == 0 &&
                  reports[2].begin == header.size() + first.size() + plain.size() + 1);
    test_case("the first part stays", cityseq::moved(reports[0], {}).line == 2 &&
                                          cityseq::moved(reports[0], {}).begin == header.size());
    try {
        cityseq::check(header, cityseq::request().types({"Road", "Building", "Hut"}));
        test_case("an unknown type", false);
    } catch (const cityseq::bad_request &fault) {
        test_case("an unknown type", fault.code() == CITYSEQ_UNKNOWN_TYPE &&
                                         fault.list() == CITYSEQ_LIST_TYPES && fault.item() == 2);
        test_case("and its words",
                  fault.what() == "cityseq: bad request, fault 5, list 2, item 2"s);
    }
    try {
        cityseq::features(header, cityseq::request().depth_limit(0));
        test_case("no list", false);
    } catch (const cityseq::bad_request &fault) {
        test_case("no list", fault.list() == 0 && fault.item() == 0 &&
                                 fault.what() == "cityseq: bad request, fault 2"s);
    }
}

} // namespace

int main() {
    texts();
    coordinates();
    features();
    places();
    std::printf("%u passed, %u failed\n", passed, failed);
    return failed != 0;
}
