// Says of each file that is named whether it is accepted under release 1.2: a caller in C++.
//
//   c++ verdict.cpp $(pkg-config --cflags --libs czi) -o verdict
//   ./verdict host/samples/*.czi
#include <czi.h>

#include <fstream>
#include <iostream>
#include <iterator>
#include <vector>

static std::vector<char> bytes_of(const char *path) {
    std::ifstream from(path, std::ios::binary);
    return std::vector<char>(std::istreambuf_iterator<char>(from), std::istreambuf_iterator<char>());
}

// An empty vector may have no place for its bytes, and a call wants one.
static const uint8_t *place_of(const std::vector<char> &bytes) {
    if (bytes.empty()) return CZI_NONE;
    return reinterpret_cast<const uint8_t *>(&bytes[0]);
}

int main(int count, char **paths) {
    if (czi_version() != CZI_VERSION) {
        std::cerr << "the library has interface " << czi_version() << ", not " << CZI_VERSION << "\n";
        return 1;
    }
    for (int k = 1; k < count; k++) {
        const std::vector<char> file = bytes_of(paths[k]);
        uint64_t place;
        const uint32_t number = czi_judge(place_of(file), file.size(), CZI_RELEASE_1_2, &place);
        if (number == 0) {
            std::cout << "accepted\n";
        } else {
            std::cout << "refused " << number << " at " << place << ": " << czi_refusal_words(number) << "\n";
        }
    }
    return 0;
}
