/* Tables of medians and ranges, as plain text. */
#pragma once

#include <limits>
#include <map>
#include <string>
#include <utility>
#include <vector>

/* The figure of a run that was not over in its time: worse than any other. */
constexpr double standstill = std::numeric_limits<double>::infinity();

struct Column {
    std::string name;
    int decimals = 0; /* of its figures */
};

class Table {
public:
    Table(std::string heading, std::vector<Column> all_columns) : title(std::move(heading)), columns(std::move(all_columns)) {}

    /* Adds a row that has no figures yet, if there is none of this name. */
    void add_row(const std::string &row);

    /* Adds the figure of one run. */
    void add(const std::string &row, const Column &column, double figure);

    /* Adds a line to those below the table. */
    void note(const std::string &line);

    /* Each cell has the median of its figures, and their best and worst; or a stroke, if it has none. */
    void print() const;

private:
    std::string cell_of(const std::string &row, const Column &column) const;
    std::size_t width_of_names() const;

    std::string title;
    std::vector<Column> columns;
    std::vector<std::string> rows, notes;
    std::map<std::pair<std::string, std::string>, std::vector<double>> figures; /* by the names of row and column */
};
