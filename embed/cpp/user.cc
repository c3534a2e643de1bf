// A user in C++, with the function of docs/GUIDE.md: USER WORLD CALLS BLOCK FUEL prints the world after the block where it is accepted, else why it is not.
#include "guide.h"

#include <fstream>
#include <iostream>
#include <iterator>
#include <string>

static Bytes read(const char *name) {
    std::ifstream file(name, std::ios::binary);
    return Bytes(std::istreambuf_iterator<char>(file), {});
}

int main(int, char **words) {
    Bytes next(1);
    bool is_accepted = verify(read(words[1]), read(words[2]), std::stoull(words[4]), read(words[3]), next);
    std::cout.write(reinterpret_cast<const char *>(next.data()), static_cast<std::streamsize>(next.size()));
    return is_accepted ? 0 : 1;
}
