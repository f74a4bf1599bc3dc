// Builds the statements of a document on standard input, by the installed header and library, and says the library's version.
#include <cstdio>
#include <iostream>
#include <iterator>
#include <string>

#include <hardieflax.h>

int main() {
    const std::string document{std::istreambuf_iterator<char>(std::cin), {}};
    hardieflax handle = HARDIEFLAX_INIT;
    const uint32_t status = hardieflax_build(&handle, reinterpret_cast<const uint8_t *>(document.data()), document.size());
    std::cout.write(reinterpret_cast<const char *>(handle.bytes), static_cast<std::streamsize>(handle.length));
    std::cerr << hardieflax_version() << '\n';
    hardieflax_free(&handle);
    if (std::string{hardieflax_kit()}.rfind("rattle-kit-", 0) != 0) return 100;
    if (std::string{hardieflax_status_name(HARDIEFLAX_BAD_DOCUMENT)} != "BadDocument") return 101;
    if (std::string{hardieflax_status_name(4)} != "Unknown") return 102;
    return static_cast<int>(status);
}
