// cityseq for C++17, over cityseq.h: requests that own their texts, streams that come in pieces of
// any size, and the features of a stream that lies in memory.
//
//     auto write = [](std::string_view lines) { std::cout << lines; };
//     auto asked = cityseq::request().types({"Building"});
//     auto stream = cityseq::stream::filtering(asked, write);
//     while (more() && stream.feed(piece()))
//         ;
//     cityseq::answer answer = stream.finish();
//
//     cityseq::transform world(header);
//     for (const cityseq::feature &each : cityseq::features(header, part, asked))
//         if (each.ranges[0].some)
//             std::cout << each.id() << ' ' << world.x(each.ranges[0].least) << '\n';
//
// Errors are exceptions:
//
// - bad_request, if a request is wrong. It says which text or number is at fault.
// - std::bad_alloc, if no memory was granted.
// - Whatever a callback throws.
//
// An invalid line is no error. The answer and the reports show it.
#ifndef CITYSEQ_HPP
#define CITYSEQ_HPP

#include "cityseq.h"

#include <algorithm>
#include <array>
#include <cmath>
#include <cstddef>
#include <cstdint>
#include <cstdlib>
#include <functional>
#include <ios>
#include <istream>
#include <new>
#include <stdexcept>
#include <string>
#include <string_view>
#include <utility>
#include <vector>

namespace cityseq {

using answer = ::cityseq_answer;
using report = ::cityseq_report;
using tally = ::cityseq_tally;

// A request is wrong. code() returns a cityseq_fault. list() returns the cityseq_list that has the
// fault, or 0, and item() the text or number in it, from 0.
class bad_request : public std::invalid_argument {
  public:
    explicit bad_request(const answer &got)
        : std::invalid_argument("cityseq: bad request, fault " + std::to_string(got.code) +
                                (got.list ? ", list " + std::to_string(got.list) + ", item " +
                                                std::to_string(got.item)
                                          : std::string())),
          code_(got.code), list_(got.list), item_(got.item) {}

    std::uint32_t code() const noexcept { return code_; }
    std::uint64_t list() const noexcept { return list_; }
    std::uint64_t item() const noexcept { return item_; }

  private:
    std::uint32_t code_;
    std::uint64_t list_, item_;
};

namespace detail {

// Throws if nothing was judged.
inline void throw_unless_judged(const answer &got) {
    if (got.status == CITYSEQ_BAD_REQUEST)
        throw bad_request(got);
    if (got.status == CITYSEQ_NO_MEMORY)
        throw std::bad_alloc();
}

// Returns the text that `call` writes. The call writes it as far as it fits, and returns how many
// bytes it has.
template <typename Call> std::string copied(Call call) {
    std::string text(call(nullptr, std::size_t{0}), '\0');
    call(text.data(), text.size());
    return text;
}

} // namespace detail

// Returns the version of the library.
inline std::string version() {
    return detail::copied(::cityseq_version);
}

// Returns the words of a reason. They are empty if no reason has this code.
inline std::string reason_text(std::uint64_t code) {
    return detail::copied(
        [=](char *text, std::size_t room) { return ::cityseq_reason_text(code, text, room); });
}

// Returns the name of a city object type, by its place in tally::types. It is empty if no type has
// this place.
inline std::string type_name(std::uint64_t number) {
    return detail::copied(
        [=](char *text, std::size_t room) { return ::cityseq_type_name(number, text, room); });
}

// How lines are judged, and which features are kept: those that satisfy each part of the query that
// is set. It owns its texts.
class request {
  public:
    using texts = std::vector<std::string>;

    // Sets the most bytes of a line without its LF.
    request &line_limit(std::uint64_t bytes) { return line_limit_ = bytes, *this; }
    // Sets the most arrays and objects that are open at once.
    request &depth_limit(std::uint64_t depth) { return depth_limit_ = depth, *this; }
    // Sets whether an invalid line after the header is reported, and reading goes on.
    request &keep_going(bool on = true) { return keep_going_ = on, *this; }
    // Sets whether each city object must be reached from the feature's main one.
    request &tree(bool on = true) { return tree_ = on, *this; }
    // Sets whether the features that satisfy the query are left out, and all others kept.
    request &exclude(bool on = true) { return exclude_ = on, *this; }
    // Sets whether types that begin with `+`, the types of extensions, are accepted.
    request &extensions(bool on = true) { return extensions_ = on, *this; }
    // The id must be one of these. Some city object must have one of these types. Some geometry
    // must have one of these LoDs, spelled the same. Each throws std::invalid_argument if a text
    // has an LF.
    request &ids(const texts &wanted) { return ids_.set(wanted), *this; }
    request &types(const texts &wanted) { return types_.set(wanted), *this; }
    request &lods(const texts &wanted) { return lods_.set(wanted), *this; }
    // Some vertices must be in the box "minx,miny,maxx,maxy". Its numbers are exact decimals.
    request &box(std::string edges) {
        box_.asked = true;
        box_.text = std::move(edges);
        return *this;
    }

    std::uint64_t line_limit() const noexcept { return line_limit_; }
    bool keep_going() const noexcept { return keep_going_; }

    // Returns the request for the calls of cityseq.h. It points into this one, and is valid until
    // this one changes or ends.
    ::cityseq_request raw() const noexcept {
        ::cityseq_request raw = CITYSEQ_USUAL;
        raw.line_limit = line_limit_;
        raw.depth_limit = depth_limit_;
        raw.keep_going = keep_going_;
        raw.tree = tree_;
        raw.exclude = exclude_;
        raw.extensions = extensions_;
        raw.asks_ids = ids_.asked;
        raw.asks_types = types_.asked;
        raw.asks_lods = lods_.asked;
        raw.asks_box = box_.asked;
        raw.ids = ids_.text.data();
        raw.ids_length = ids_.text.size();
        raw.types = types_.text.data();
        raw.types_length = types_.text.size();
        raw.lods = lods_.text.data();
        raw.lods_length = lods_.text.size();
        raw.box = box_.text.data();
        raw.box_length = box_.text.size();
        return raw;
    }

    // Returns how many bytes of the stack a thread must have left for a call.
    std::size_t stack() const noexcept {
        const ::cityseq_request asked = raw();
        return ::cityseq_stack(&asked);
    }

    // Returns the most bytes that the blocks of a call have at one time, for a header and a part of
    // these lengths.
    std::size_t memory(std::size_t header_length, std::size_t part_length) const noexcept {
        const ::cityseq_request asked = raw();
        return ::cityseq_memory(&asked, header_length, part_length);
    }

  private:
    // A part of the query, as cityseq.h has it: texts with an LF between each two.
    struct part {
        bool asked = false;
        std::string text;

        void set(const texts &wanted) {
            std::string joined;
            for (const std::string &one : wanted) {
                if (one.find('\n') != std::string::npos)
                    throw std::invalid_argument("cityseq: a text of a query has an LF");
                if (&one != &wanted.front())
                    joined += '\n';
                joined += one;
            }
            // A length of 0 means no text. So the empty text alone becomes two empty texts.
            if (joined.empty() && !wanted.empty())
                joined = "\n";
            asked = true;
            text = std::move(joined);
        }
    };

    static constexpr ::cityseq_request usual_ = CITYSEQ_USUAL;
    std::uint64_t line_limit_ = usual_.line_limit, depth_limit_ = usual_.depth_limit;
    bool keep_going_ = false, tree_ = false, exclude_ = false, extensions_ = false;
    part ids_, types_, lods_, box_;
};

// Where a part is in a stream: the lines and the bytes between the header and the part.
struct part_offset {
    std::uint64_t lines = 0, bytes = 0;

    // Returns that of the next part, from the answer for this part and the bytes that it has.
    part_offset after(const answer &got, std::uint64_t part_length) const noexcept {
        return {lines + (got.lines ? got.lines - 1 : 0), bytes + part_length};
    }
};

// Returns a report of a part, with its line and its `begin` counted from the beginning of the
// stream.
inline report moved(report one, const part_offset &by) noexcept {
    one.line += by.lines;
    one.begin += by.bytes;
    return one;
}

// Takes whole lines of the output, one or more, the header first. The text is valid only during the
// call.
using kept_lines = std::function<void(std::string_view lines)>;

// Takes the report of an invalid line after which reading goes on. Its `line` and `begin` count
// from the beginning of the stream.
using told_report = std::function<void(const report &)>;

// A stream that comes in pieces, cut anywhere. It judges whole lines, in parts of about
// `part_length` bytes. It calls back after each part, in the order of the lines.
//
// It holds at most part_length + 2 * line_limit + 4 bytes of the stream, and the same number of
// bytes for the output. It also holds the reports of a part. This is so for streams and lines of
// any length. An exception that leaves it, also one of a callback, ends it for good.
class stream {
  public:
    static constexpr std::size_t usual_part = std::size_t{1} << 20;

    // Returns a stream whose lines are judged.
    static stream checking(request asked, told_report reported = {},
                           std::size_t part_length = usual_part) {
        return {mode::checks, std::move(asked), {}, std::move(reported), part_length};
    }

    // Returns a stream whose header and kept features go to a callback, byte for byte.
    static stream filtering(request asked, kept_lines kept, told_report reported = {},
                            std::size_t part_length = usual_part) {
        return {mode::filters, std::move(asked), std::move(kept), std::move(reported), part_length};
    }

    // Returns a stream whose kept features are tallied.
    static stream tallying(request asked, told_report reported = {},
                           std::size_t part_length = usual_part) {
        return {mode::tallies, std::move(asked), {}, std::move(reported), part_length};
    }

    stream(stream &&) = default;
    stream &operator=(stream &&) = default;
    stream(const stream &) = delete;
    stream &operator=(const stream &) = delete;

    // Takes a piece of the stream. Returns whether the stream can go on. It cannot after an invalid
    // line that is the end.
    bool feed(std::string_view piece) {
        leave_unless_done guard(*this);
        while (!piece.empty() && state_ != state::ended)
            piece.remove_prefix(has_header_ ? take_line(piece) : take_header(piece));
        guard.done();
        return state_ != state::ended;
    }

    // Ends the stream, and returns the answer for all of it. A later call returns the same answer.
    answer finish() {
        leave_unless_done guard(*this);
        if (state_ != state::ended && (!judged_ || !part_.empty()))
            judge(part_.size());
        state_ = state::ended;
        guard.done();
        return answer_;
    }

    // Returns the tally so far.
    const cityseq::tally &tallied() const noexcept { return tally_; }

  private:
    enum class mode { checks, filters, tallies };
    enum class state { open, ended, left };

    stream(mode how, request asked, kept_lines kept, told_report reported, std::size_t part_length)
        : mode_(how), asked_(std::move(asked)), kept_(std::move(kept)),
          reported_(std::move(reported)), part_length_(std::max<std::size_t>(part_length, 1)),
          most_(static_cast<std::size_t>(asked_.line_limit()) + 1) {
        // An empty stream is judged first, to find what is wrong with the request.
        const ::cityseq_request raw = asked_.raw();
        detail::throw_unless_judged(::cityseq_check(nullptr, 0, nullptr, 0, &raw, nullptr, 0));
        if (reported_)
            reports_.resize(64);
    }

    // Marks a stream that an exception leaves. Its callbacks may have got some of the results of a
    // part, and not all.
    class leave_unless_done {
      public:
        explicit leave_unless_done(stream &of) : of_(of) {
            if (of.state_ == state::left)
                throw std::logic_error("cityseq: an exception left this stream");
        }
        ~leave_unless_done() {
            if (!done_)
                of_.state_ = state::left;
        }
        leave_unless_done(const leave_unless_done &) = delete;
        leave_unless_done &operator=(const leave_unless_done &) = delete;
        void done() noexcept { done_ = true; }

      private:
        stream &of_;
        bool done_ = false;
    };

    // Returns the number of bytes up to and with the first LF, or of all if there is no LF.
    static std::size_t line_end(std::string_view piece) noexcept {
        const std::size_t lf = piece.find('\n');
        return lf == std::string_view::npos ? piece.size() : lf + 1;
    }

    // Adds bytes to the line that has begun. It keeps at most one byte more than the line limit.
    // With that byte the line is too long, so the bytes after it change nothing.
    void append(std::string &text, std::string_view bytes) {
        const bool ends = bytes.back() == '\n';
        const std::size_t taken = std::min(bytes.size() - ends, most_ - begun_);
        text.append(bytes.data(), taken);
        left_out_ += bytes.size() - ends - taken;
        begun_ += taken;
        if (ends) {
            text += '\n';
            begun_ = 0;
        }
    }

    // Returns whether the line that has begun is too long, and therefore the end.
    bool is_refused() const noexcept {
        return begun_ == most_ && (!has_header_ || !asked_.keep_going());
    }

    std::size_t take_header(std::string_view piece) {
        const std::size_t taken = line_end(piece);
        append(header_, piece.substr(0, taken));
        has_header_ = header_.back() == '\n';
        if (is_refused())
            judge(0);
        return taken;
    }

    std::size_t take_line(std::string_view piece) {
        const std::size_t taken = line_end(piece);
        append(part_, piece.substr(0, taken));
        if (begun_ == 0)
            whole_ = part_.size();
        if (is_refused())
            judge(part_.size());
        else if (whole_ >= part_length_ || (begun_ == 0 && left_out_ > 0))
            judge(whole_);
        return taken;
    }

    // Judges the header and the first `length` bytes of the part, and calls back.
    void judge(std::size_t length) {
        const answer got = call(length);
        detail::throw_unless_judged(got);
        const part_offset here = offset_;
        const std::size_t front = judged_ ? header_.size() : 0;
        answer_ = judged_ ? ::cityseq_answer_then(&answer_, &got, header_.size()) : got;
        if (got.status != CITYSEQ_COMPLETE)
            state_ = state::ended;
        if (mode_ == mode::tallies)
            tally_ = ::cityseq_tally_then(&tally_, &part_tally_);
        judged_ = true;
        part_.erase(0, length);
        offset_ = here.after(got, length + left_out_);
        left_out_ = 0;
        whole_ = 0;
        for (std::size_t i = 0; reported_ && i < got.refused; i++)
            reported_(moved(reports_[i], here));
        if (kept_ && got.written > front)
            kept_(std::string_view(output_).substr(front,
                                                   static_cast<std::size_t>(got.written) - front));
    }

    // Calls the library. If not all reports fitted, it makes room for them and calls again.
    answer call(std::size_t length) {
        answer got = call_once(length);
        if (reported_ && got.refused > reports_.size()) {
            reports_.resize(static_cast<std::size_t>(got.refused));
            got = call_once(length);
        }
        return got;
    }

    answer call_once(std::size_t length) {
        const ::cityseq_request raw = asked_.raw();
        if (mode_ == mode::checks)
            return ::cityseq_check(header_.data(), header_.size(), part_.data(), length, &raw,
                                   reports_.data(), reports_.size());
        if (mode_ == mode::filters) {
            output_.resize(std::max(output_.size(), header_.size() + length));
            return ::cityseq_filter(header_.data(), header_.size(), part_.data(), length, &raw,
                                    output_.data(), output_.size(), reports_.data(),
                                    reports_.size());
        }
        return ::cityseq_info(header_.data(), header_.size(), part_.data(), length, &raw,
                              &part_tally_, reports_.data(), reports_.size());
    }

    mode mode_;
    request asked_;
    kept_lines kept_;
    told_report reported_;
    std::size_t part_length_;
    std::size_t most_;           // The most bytes that are held of a line's content.
    std::string header_;         // The header, or its first bytes.
    std::string part_;           // The lines after those that were judged, and a begun one.
    std::size_t begun_ = 0;      // The bytes of the line that has begun.
    std::size_t whole_ = 0;      // The bytes of the whole lines of the part.
    std::uint64_t left_out_ = 0; // The bytes of a line of the part that are not held.
    part_offset offset_;         // That of the part.
    std::string output_;
    std::vector<report> reports_;
    bool has_header_ = false; // Whether an LF has ended the header.
    bool judged_ = false;     // Whether a part was judged.
    state state_ = state::open;
    answer answer_ = {};
    cityseq::tally tally_ = {}, part_tally_ = {};
};

namespace detail {

// Appends a code point in UTF-8. A lone surrogate becomes three bytes.
inline void append_code(std::string &text, std::uint32_t code) {
    const auto put = [&](std::uint32_t byte) { text += static_cast<char>(byte); };
    if (code < 0x80)
        return put(code);
    if (code < 0x800) {
        put(0xC0 | code >> 6);
    } else if (code < 0x10000) {
        put(0xE0 | code >> 12);
        put(0x80 | (code >> 6 & 0x3F));
    } else {
        put(0xF0 | code >> 18);
        put(0x80 | (code >> 12 & 0x3F));
        put(0x80 | (code >> 6 & 0x3F));
    }
    put(0x80 | (code & 0x3F));
}

// Goes along the spelling of a JSON string, between its quotes.
class spelling {
  public:
    explicit spelling(std::string_view left) : left_(left) {}

    std::string text() {
        std::string found;
        while (!left_.empty()) {
            const char next = take();
            if (next == '\\')
                append_code(found, escape());
            else
                found += next;
        }
        return found;
    }

  private:
    char take() {
        if (left_.empty())
            throw std::invalid_argument("cityseq: a JSON string is cut short");
        const char next = left_.front();
        left_.remove_prefix(1);
        return next;
    }

    // Returns the code point of an escape, behind its backslash. Two escapes may be one code point.
    std::uint32_t escape() {
        static constexpr std::string_view names = "\"\\/bfnrt", codes = "\"\\/\b\f\n\r\t";
        const char name = take();
        if (name != 'u') {
            const std::size_t at = names.find(name);
            if (at == std::string_view::npos)
                throw std::invalid_argument("cityseq: no escape of JSON");
            return static_cast<unsigned char>(codes[at]);
        }
        const std::uint32_t first = unit();
        if (first < 0xD800 || first > 0xDBFF || left_.substr(0, 2) != "\\u")
            return first;
        spelling after(left_.substr(2));
        const std::uint32_t second = after.unit();
        if (second < 0xDC00 || second > 0xDFFF)
            return first;
        left_ = after.left_;
        return 0x10000 + ((first - 0xD800) << 10) + (second - 0xDC00);
    }

    // Returns the number of four hexadecimal digits.
    std::uint32_t unit() {
        std::uint32_t value = 0;
        for (int i = 0; i < 4; i++) {
            const std::size_t digit =
                std::string_view("0123456789abcdef0123456789ABCDEF").find(take());
            if (digit == std::string_view::npos)
                throw std::invalid_argument("cityseq: no escape of JSON");
            value = value << 4 | static_cast<std::uint32_t>(digit % 16);
        }
        return value;
    }

    std::string_view left_;
};

// Returns the digits of a decimal, without its power.
inline std::string digits_of(const ::cityseq_decimal &number) {
    std::array<std::uint32_t, 4> parts = {
        static_cast<std::uint32_t>(number.high >> 32), static_cast<std::uint32_t>(number.high),
        static_cast<std::uint32_t>(number.low >> 32), static_cast<std::uint32_t>(number.low)};
    std::string digits;
    do {
        std::uint64_t rest = 0;
        for (std::uint32_t &part : parts) {
            rest = rest << 32 | part;
            part = static_cast<std::uint32_t>(rest / 10);
            rest %= 10;
        }
        digits += static_cast<char>('0' + rest);
    } while (parts != std::array<std::uint32_t, 4>{});
    std::reverse(digits.begin(), digits.end());
    return digits;
}

// Returns the float that is nearest to a decimal times 10^power.
inline double nearest(const ::cityseq_decimal &number, std::int64_t power = 0) {
    const std::string text = (number.negative ? "-" : "") + digits_of(number) + "e" +
                             std::to_string(number.power + power);
    return std::strtod(text.c_str(), nullptr); // without a point, so in any locale
}

} // namespace detail

// Returns the text of a JSON string in UTF-8, from its spelling with quotes. A lone surrogate
// becomes three bytes, which no text in UTF-8 has. Throws std::invalid_argument if the spelling has
// no quotes or a wrong escape.
inline std::string unescaped(std::string_view spelled) {
    if (spelled.size() < 2 || spelled.front() != '"' || spelled.back() != '"')
        throw std::invalid_argument("cityseq: no JSON string");
    return detail::spelling(spelled.substr(1, spelled.size() - 2)).text();
}

// The map from the numbers of vertices to world coordinates, as floats.
//
// A coordinate is the float nearest to `vertex * scale + translate` if the numbers are small. That
// is so if scale and translate are multiples of a unit, a power of ten that is not below 10^-22,
// and vertex * scale and translate together are below 2^53 units. Else scale, translate, the
// product and the sum are each rounded.
class transform {
  public:
    // Takes the transform of a tally. Throws std::invalid_argument if the tally has none.
    explicit transform(const tally &of) {
        if (!of.transformed)
            throw std::invalid_argument("cityseq: no transform");
        for (std::size_t i = 0; i < 3; i++)
            axes_[i] = axis(of.scale[i], of.translate[i]);
    }

    // Takes the transform of a header, with or without its LF. Throws std::invalid_argument if the
    // header is invalid.
    explicit transform(std::string_view header, std::uint64_t line_limit = request().line_limit())
        : transform(tally_of(header, line_limit)) {}

    // Returns the world coordinate of a vertex on an axis: 0 is x, 1 is y, and 2 is z.
    double operator()(std::size_t axis, std::int64_t vertex) const {
        return axes_.at(axis).coordinate(vertex);
    }
    double x(std::int64_t vertex) const { return axes_[0].coordinate(vertex); }
    double y(std::int64_t vertex) const { return axes_[1].coordinate(vertex); }
    double z(std::int64_t vertex) const { return axes_[2].coordinate(vertex); }

  private:
    static constexpr double exact = 9007199254740992.0; // 2^53: whole numbers up to it are floats

    struct axis {
        double scale = 0, translate = 0;
        // The same as multiples of 1 / unit. The unit is 0 if they are not known to be exact.
        double scale_units = 0, translate_units = 0, unit = 0;

        axis() = default;
        axis(const ::cityseq_decimal &by, const ::cityseq_decimal &plus)
            : scale(detail::nearest(by)), translate(detail::nearest(plus)) {
            const std::int64_t power = -std::min({by.power, plus.power, 0});
            if (power > 22)
                return;
            unit = detail::nearest({0, 0, 0, 1}, power);
            scale_units = detail::nearest(by, power);
            translate_units = detail::nearest(plus, power);
        }

        double coordinate(std::int64_t vertex) const {
            const double number = static_cast<double>(vertex), size = std::fabs(number);
            const double most = size * std::fabs(scale_units) + std::fabs(translate_units);
            if (unit != 0 && size < exact && most < exact)
                return (number * scale_units + translate_units) / unit;
            return size == 0 ? translate : number * scale + translate;
        }
    };

    static tally tally_of(std::string_view header, std::uint64_t line_limit) {
        const ::cityseq_request raw = request().line_limit(line_limit).raw();
        tally found = {};
        detail::throw_unless_judged(
            ::cityseq_info(header.data(), header.size(), nullptr, 0, &raw, &found, nullptr, 0));
        return found;
    }

    std::array<axis, 3> axes_;
};

// A kept feature: its record, and its line, which is in the part.
struct feature : ::cityseq_feature {
    std::string_view text; // The line without its LF.

    // Returns the id, without the escapes of JSON.
    std::string id() const {
        return unescaped(
            text.substr(static_cast<std::size_t>(id_begin), static_cast<std::size_t>(id_length)));
    }

    // Returns the attributes of its main city object, as the line spells them, or an empty text if
    // it has none.
    std::string_view attributes() const {
        return text.substr(static_cast<std::size_t>(attributes_begin),
                           static_cast<std::size_t>(attributes_length));
    }
};

// The kept features of a header and a part, in order. They point into the part. With keep_going, a
// request also gets those after an invalid line.
class features {
  public:
    features(std::string_view header, std::string_view part, const request &asked = {}) {
        const ::cityseq_request raw = asked.raw();
        std::vector<::cityseq_feature> records(std::min<std::size_t>(part.size() / 64 + 1, 4096));
        while (true) {
            answer_ = ::cityseq_features(header.data(), header.size(), part.data(), part.size(),
                                         &raw, records.data(), records.size(), nullptr, 0);
            detail::throw_unless_judged(answer_);
            if (answer_.kept <= records.size())
                break;
            records.resize(static_cast<std::size_t>(answer_.kept));
        }
        records.resize(static_cast<std::size_t>(answer_.kept));
        all_.reserve(records.size());
        for (const ::cityseq_feature &one : records)
            all_.push_back({one, part.substr(static_cast<std::size_t>(one.begin),
                                             static_cast<std::size_t>(one.length))});
    }

    // Takes a whole stream: its first line is the header.
    explicit features(std::string_view text, const request &asked = {})
        : features(text.substr(0, header_of(text)), text.substr(header_of(text)), asked) {}

    std::vector<feature>::const_iterator begin() const noexcept { return all_.begin(); }
    std::vector<feature>::const_iterator end() const noexcept { return all_.end(); }
    std::size_t size() const noexcept { return all_.size(); }
    const feature &operator[](std::size_t place) const { return all_.at(place); }

    // Returns the answer for the header and the part. It says whether a line is invalid.
    const cityseq::answer &told() const noexcept { return answer_; }

  private:
    static std::size_t header_of(std::string_view text) noexcept {
        const std::size_t lf = text.find('\n');
        return lf == std::string_view::npos ? text.size() : lf + 1;
    }

    cityseq::answer answer_ = {};
    std::vector<feature> all_;
};

// Feeds an input to a stream, up to the end of one of them, and finishes the stream. A failed read
// throws std::ios_base::failure.
inline answer read(stream &to, std::istream &from) {
    std::vector<char> piece(std::size_t{1} << 16);
    bool more = true;
    while (more && from) {
        from.read(piece.data(), static_cast<std::streamsize>(piece.size()));
        more = to.feed({piece.data(), static_cast<std::size_t>(from.gcount())});
    }
    if (from.bad())
        throw std::ios_base::failure("cityseq: a read failed");
    return to.finish();
}

// Judges a whole stream that lies in memory.
inline answer check(std::string_view text, request asked = {}, told_report reported = {}) {
    stream all = stream::checking(std::move(asked), std::move(reported));
    all.feed(text);
    return all.finish();
}

// Filters a whole stream that lies in memory.
inline answer filter(std::string_view text, kept_lines kept, request asked = {},
                     told_report reported = {}) {
    stream all = stream::filtering(std::move(asked), std::move(kept), std::move(reported));
    all.feed(text);
    return all.finish();
}

// Tallies a whole stream that lies in memory. Returns the answer and the tally.
inline std::pair<answer, tally> info(std::string_view text, request asked = {},
                                     told_report reported = {}) {
    stream all = stream::tallying(std::move(asked), std::move(reported));
    all.feed(text);
    const answer got = all.finish();
    return {got, all.tallied()};
}

} // namespace cityseq

#endif
