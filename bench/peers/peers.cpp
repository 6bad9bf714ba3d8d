// Measures RapidJSON and simdjson's DOM on the text on standard input: the best rates of reading,
// printing and letting go in so many rounds, by the thread's own clock. Usage: peers ROUNDS.
//
// Each reading begins with nothing: simdjson's parser, which keeps the document, is made and let go
// in each round. simdjson reads of a copy with the padding that it wants, made before the clock
// starts.

#include <algorithm>
#include <array>
#include <cstdio>
#include <cstdlib>
#include <ctime>
#include <functional>
#include <iostream>
#include <iterator>
#include <limits>
#include <memory>
#include <optional>
#include <string>

#include <rapidjson/document.h>
#include <rapidjson/stringbuffer.h>
#include <rapidjson/writer.h>
#include <simdjson.h>

namespace {

using Times = std::array<double, 3>;

double now() {
    timespec time{};
    clock_gettime(CLOCK_THREAD_CPUTIME_ID, &time);
    return static_cast<double>(time.tv_sec) * 1e9 + static_cast<double>(time.tv_nsec);
}

std::size_t printed_bytes = 0;

// Reads by RapidJSON, which copies the texts.
std::optional<Times> by_rapidjson(const std::string &text) {
    const double start = now();
    auto document = std::make_unique<rapidjson::Document>();
    document->Parse(text.data(), text.size());
    if (document->HasParseError()) {
        return std::nullopt;
    }
    const double read = now();
    {
        rapidjson::StringBuffer buffer;
        rapidjson::Writer<rapidjson::StringBuffer> writer(buffer);
        document->Accept(writer);
        printed_bytes += buffer.GetSize();
    }
    const double printed = now();
    document.reset();
    return Times{read - start, printed - read, now() - printed};
}

// Reads by simdjson to its DOM, which lends from the parser.
std::optional<Times> by_simdjson(const simdjson::padded_string &text) {
    const double start = now();
    auto parser = std::make_unique<simdjson::dom::parser>();
    simdjson::dom::element root;
    if (parser->parse(text).get(root) != simdjson::SUCCESS) {
        return std::nullopt;
    }
    const double read = now();
    printed_bytes += simdjson::minify(root).size();
    const double printed = now();
    parser.reset();
    return Times{read - start, printed - read, now() - printed};
}

void tell(const char *name, std::size_t bytes, int rounds,
          const std::function<std::optional<Times>()> &once) {
    Times best;
    best.fill(std::numeric_limits<double>::max());
    for (int round = 0; round < rounds; ++round) {
        const std::optional<Times> times = once();
        if (!times) {
            std::printf("%s: refused\n", name);
            return;
        }
        for (std::size_t task = 0; task < best.size(); ++task) {
            best[task] = std::min(best[task], (*times)[task]);
        }
    }
    const char *const tasks[] = {"read", "print", "let go"};
    for (std::size_t task = 0; task < best.size(); ++task) {
        std::printf("%s %s: %.0f MB/s\n", name, tasks[task],
                    static_cast<double>(bytes) * 1000 / best[task]);
    }
}

} // namespace

int main(int count, char **words) {
    if (count != 2) {
        std::fprintf(stderr, "usage: peers ROUNDS\n");
        return 2;
    }
    const int rounds = std::atoi(words[1]);
    const std::string text(std::istreambuf_iterator<char>(std::cin), {});
    const simdjson::padded_string padded(text);
    tell("RapidJSON", text.size(), rounds, [&] { return by_rapidjson(text); });
    tell("simdjson", text.size(), rounds, [&] { return by_simdjson(padded); });
    return printed_bytes > 0 ? 0 : 1;
}
