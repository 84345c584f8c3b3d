/* How far the slowest of four producers is when the fastest has put all its items. One consumer gets them. The scheduler has a part in it,
 * so a race is longer than the other runs. */
#include "apart.hpp"
#include "flow.hpp"
#include "measures.hpp"
#include "table.hpp"
#include "team.hpp"

#include <algorithm>

static constexpr unsigned producers = 4;
static constexpr std::uint64_t times_longer = 10;

/* The items of the fastest for each of the slowest. */
static double ratio_of(const Flow &flow) {
    std::uint64_t most = 0, least = UINT64_MAX;
    for (unsigned producer = 0; producer < producers; producer++) {
        most = std::max(most, flow.count_of(producer));
        least = std::min(least, flow.count_of(producer));
    }
    return static_cast<double>(most) / static_cast<double>(std::max<std::uint64_t>(least, 1));
}

static double run_race(const Implementation &implementation, std::uint64_t items) {
    auto queue = implementation.open(64, producers + 1);
    Flow flow(*queue, producers, 1);
    run_team(producers + 1, [&](unsigned thread) {
        if (thread == producers)
            flow.consume(thread);
        else if (flow.produce(thread, items))
            flow.end();
    });
    flow.must_be_whole();
    return ratio_of(flow);
}

void measure_fairness(const Options &options) {
    const Column column{"fastest to slowest", 2};
    Table table("Four producers, 64 cells: the items that the fastest put for each of the slowest", {column});
    for (const Implementation &implementation : chosen(options))
        table.add_row(implementation.name);
    for (unsigned round = 0; round < options.rounds; round++) {
        for (const Implementation &implementation : chosen_in_round(options, round)) {
            Shared<double> ratio;
            bool is_over = ends_within(options.cap, [&] { *ratio = run_race(implementation, times_longer * options.items); });
            table.add(implementation.name, column, is_over ? *ratio : standstill);
        }
    }
    table.print();
}
