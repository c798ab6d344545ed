// The report of a game's end, to the byte as `chipfire plain` writes it, for the C++ programs beside it.
#pragma once

#include <unistd.h>

#include <charconv>
#include <cstdint>
#include <string>
#include <vector>

#include "game_files.hpp"

namespace {

void add_list(std::string& text, const std::vector<std::uint64_t>& numbers) {
    char digits[20];
    text += '[';
    for (std::size_t i = 0; i < numbers.size(); ++i) {
        if (i != 0) text += ',';
        text.append(digits, std::to_chars(digits, digits + sizeof digits, numbers[i]).ptr);
    }
    text += ']';
}

std::string report(const std::vector<std::uint64_t>& chips, const std::vector<std::uint64_t>& fired,
                   const std::vector<std::uint64_t>& over) {
    std::string text = "{\"chips\":";
    add_list(text, chips);
    text += over.empty() ? ",\"closed\":true,\"fired\":" : ",\"closed\":false,\"fired\":";
    add_list(text, fired);
    text += ",\"over\":";
    add_list(text, over);
    text += ",\"sealed\":[],\"version\":1}\n";
    return text;
}

void write_all(const std::string& text) {
    for (std::size_t done = 0; done < text.size();) {
        const ssize_t took = write(1, text.data() + done, text.size() - done);
        if (took <= 0) stop("the report cannot be written");
        done += static_cast<std::size_t>(took);
    }
}

}  // namespace
