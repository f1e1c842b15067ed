// Checks a stream on standard input, from C++: the status is that of the answer.
#include <cityseq.h>

#include <iostream>
#include <iterator>
#include <string>

int main()
{
    const std::istreambuf_iterator<char> start(std::cin), stop;
    const std::string text(start, stop);
    const auto end = text.find('\n');
    const auto header = end == std::string::npos ? text.size() : end + 1;
    const cityseq_request request = CITYSEQ_USUAL;
    cityseq_report none{};
    const auto answer = cityseq_check(text.data(), header, text.data() + header,
                                      text.size() - header, &request, &none, 0);
    std::cout << CITYSEQ_VERSION << " lines=" << answer.lines << " line=" << answer.line << '\n';
    return static_cast<int>(answer.status);
}
