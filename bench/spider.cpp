// Prints which column of CSV files references which key of one column, as lines of `desk discover references`:
//
//     spider FILE..
//
// The method is SPIDER (Bauckmann, Leser, Naumann and Tietz 2007), in memory: the different values of each column are
// sorted, and all columns are walked through together. A value that stands in a column and not in another means that
// the one does not reference the other; so no two columns are compared, and each value is looked at once. A column that
// can neither reference nor be referenced any more is left. A key is a column without a missing value that has as many
// different values as rows; files whose rows repeat are not for it.
#include <algorithm>
#include <cstdio>
#include <fstream>
#include <iterator>
#include <queue>
#include <set>
#include <string>
#include <string_view>
#include <vector>

struct Column {
    std::string file, name;
    std::vector<std::string_view> values;  // without missing ones
    bool is_key = false;
    size_t at = 0, referenced = 0;   // how many columns may still reference this one
    std::vector<size_t> references;  // the columns that this one may still reference
};

// The fields of a record; values without quotes are parts of the text, others are kept beside it.
static size_t read_record(std::string_view text, size_t at, std::vector<std::string_view> &fields, std::set<std::string> &quoted) {
    fields.clear();
    for (;;) {
        if (at < text.size() && text[at] == '"') {
            std::string value;
            for (++at; at < text.size(); ++at) {
                if (text[at] != '"') value += text[at];
                else if (at + 1 < text.size() && text[at + 1] == '"') value += text[++at];
                else break;
            }
            fields.push_back(*quoted.insert(value).first);
            ++at;
        } else {
            size_t end = at;
            while (end < text.size() && text[end] != ',' && text[end] != '\n') ++end;
            fields.push_back(text.substr(at, end - at));
            at = end;
        }
        if (at >= text.size() || text[at] == '\n') return at + 1;
        ++at;
    }
}

static void read_file(const char *path, std::string &text, std::set<std::string> &quoted, std::vector<Column> &columns) {
    std::ifstream in(path, std::ios::binary | std::ios::ate);
    text.resize(in.tellg());
    in.seekg(0).read(text.data(), text.size());
    std::vector<std::string_view> fields;
    size_t at = read_record(text, 0, fields, quoted), first = columns.size(), rows = 0;
    for (auto name : fields) {
        columns.emplace_back();
        columns.back().file = path;
        columns.back().name = name;
    }
    for (; at < text.size(); ++rows) {
        at = read_record(text, at, fields, quoted);
        for (size_t c = 0; c < fields.size(); ++c)
            if (!fields[c].empty()) columns[first + c].values.push_back(fields[c]);
    }
    for (size_t c = first; c < columns.size(); ++c) {
        auto &values = columns[c].values;
        std::sort(values.begin(), values.end());
        values.erase(std::unique(values.begin(), values.end()), values.end());
        columns[c].is_key = rows > 1 && values.size() == rows;
    }
}

int main(int count, char **words) {
    std::vector<std::string> texts(count);
    std::vector<Column> columns;
    std::set<std::string> quoted;
    for (int k = 1; k < count; ++k) read_file(words[k], texts[k], quoted, columns);
    for (size_t c = 0; c < columns.size(); ++c)
        for (size_t d = 0; d < columns.size(); ++d)
            if (c != d && columns[d].is_key && !columns[c].values.empty()) columns[c].references.push_back(d), ++columns[d].referenced;

    auto later = [&](size_t c, size_t d) { return columns[d].values[columns[d].at] < columns[c].values[columns[c].at]; };
    std::priority_queue<size_t, std::vector<size_t>, decltype(later)> next(later);
    auto is_open = [&](const Column &c) { return c.at < c.values.size() && (c.referenced > 0 || !c.references.empty()); };
    for (size_t c = 0; c < columns.size(); ++c)
        if (is_open(columns[c])) next.push(c);
    std::vector<size_t> group;
    std::vector<char> has_value(columns.size(), 0);
    while (!next.empty()) {
        // the columns that have the least value not yet seen
        auto value = columns[next.top()].values[columns[next.top()].at];
        for (group.clear(); !next.empty() && columns[next.top()].values[columns[next.top()].at] == value; next.pop())
            group.push_back(next.top());
        for (size_t c : group) has_value[c] = 1;
        for (size_t c : group) {
            auto &left = columns[c].references;
            auto gone = std::partition(left.begin(), left.end(), [&](size_t d) { return has_value[d]; });
            for (auto d = gone; d != left.end(); ++d) --columns[*d].referenced;
            left.erase(gone, left.end());
        }
        for (size_t c : group) {
            has_value[c] = 0;
            if (++columns[c].at, is_open(columns[c])) next.push(c);
        }
    }
    for (auto &c : columns) {
        std::sort(c.references.begin(), c.references.end());
        for (size_t d : c.references)
            std::printf("%s %s references %s %s\n", c.file.c_str(), c.name.c_str(), columns[d].file.c_str(), columns[d].name.c_str());
    }
}
