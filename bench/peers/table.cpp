#include "table.hpp"

#include <algorithm>
#include <cmath>
#include <cstdio>

static std::string text_of(double figure, int decimals) {
    char text[64];
    if (std::isinf(figure))
        return "still";
    std::snprintf(text, sizeof text, "%.*f", decimals, figure);
    return text;
}

void Table::add_row(const std::string &row) {
    if (std::find(rows.begin(), rows.end(), row) == rows.end())
        rows.push_back(row);
}

void Table::add(const std::string &row, const Column &column, double figure) {
    add_row(row);
    figures[{row, column.name}].push_back(figure);
}

void Table::note(const std::string &line) {
    notes.push_back(line);
}

std::string Table::cell_of(const std::string &row, const Column &column) const {
    auto found = figures.find({row, column.name});
    if (found == figures.end())
        return "-";
    std::vector<double> sorted = found->second;
    std::sort(sorted.begin(), sorted.end());
    if (std::isinf(sorted.front()))
        return "stands still";
    auto text = [&](double figure) { return text_of(figure, column.decimals); };
    return text(sorted[sorted.size() / 2]) + " (" + text(sorted.front()) + " to " + text(sorted.back()) + ")";
}

std::size_t Table::width_of_names() const {
    std::size_t width = 0;
    for (const std::string &row : rows)
        width = std::max(width, row.size());
    return width;
}

/* Appends a cell to each line, as wide as the widest of them. */
static void append_column(std::vector<std::string> &lines, const std::vector<std::string> &cells) {
    std::size_t width = 0;
    for (const std::string &cell : cells)
        width = std::max(width, cell.size());
    for (std::size_t i = 0; i < cells.size(); i++)
        lines[i] += "  " + std::string(width - cells[i].size(), ' ') + cells[i];
}

void Table::print() const {
    std::vector<std::string> lines{std::string(width_of_names(), ' ')};
    for (const std::string &row : rows)
        lines.push_back(row + std::string(width_of_names() - row.size(), ' '));
    for (const Column &column : columns) {
        std::vector<std::string> cells{column.name};
        for (const std::string &row : rows)
            cells.push_back(cell_of(row, column));
        append_column(lines, cells);
    }
    lines.insert(lines.end(), notes.begin(), notes.end());
    std::printf("\n%s\n", title.c_str());
    for (const std::string &line : lines)
        std::printf("%s\n", line.c_str());
}
