// Intersects and minimises acceptors by OpenFst. Standard input: before all, the number of repetitions; then for each
// join the number of tables and of actions, and for each table its rows and, for each row and action, the next row, or
// -1 for a trip. Standard output, a line a join: microseconds of the median repetition, minimised once at the end, and
// minimised after each intersection; states of the intersection; states of the minimal result.
#include <fst/fstlib.h>

#include <algorithm>
#include <chrono>
#include <iostream>
#include <vector>

using Machine = fst::VectorFst<fst::StdArc>;
using Clock = std::chrono::steady_clock;

// The sequences that a table has not tripped: its rows are the states, all of them final, and a trip leads nowhere.
Machine read(int actions) {
    Machine machine;
    int rows;
    std::cin >> rows;
    for (int row = 0; row < rows; ++row) {
        machine.AddState();
        machine.SetFinal(row, fst::StdArc::Weight::One());
    }
    machine.SetStart(0);
    for (int row = 0; row < rows; ++row) {
        for (int action = 0; action < actions; ++action) {
            int next;
            std::cin >> next;
            if (next >= 0) machine.AddArc(row, fst::StdArc(action + 1, action + 1, fst::StdArc::Weight::One(), next));
        }
    }
    // Arcs stand in the order of their labels; this says so, as intersecting asks for.
    fst::ArcSort(&machine, fst::ILabelCompare<fst::StdArc>());
    return machine;
}

Machine intersect(const std::vector<Machine> &tables, bool minimise_each) {
    Machine all = tables[0];
    for (size_t table = 1; table < tables.size(); ++table) {
        Machine next;
        fst::Intersect(all, tables[table], &next);
        if (minimise_each) fst::Minimize(&next);
        all = next;
    }
    return all;
}

double median(std::vector<double> times) {
    std::sort(times.begin(), times.end());
    return times[times.size() / 2];
}

int main() {
    int repetitions, count, actions;
    std::cin >> repetitions;
    while (std::cin >> count >> actions) {
        std::vector<Machine> tables;
        for (int table = 0; table < count; ++table) tables.push_back(read(actions));
        int left[2] = {0, 0};
        std::vector<double> times[2];
        for (int n = 0; n < repetitions; ++n) {
            for (bool each : {false, true}) {
                auto start = Clock::now();
                Machine all = intersect(tables, each);
                if (!each) fst::Minimize(&all);
                times[each].push_back(std::chrono::duration<double, std::micro>(Clock::now() - start).count());
                left[each] = all.NumStates();
            }
        }
        if (left[0] != left[1]) return 1;
        std::cout << median(times[0]) << " " << median(times[1]) << " " << intersect(tables, false).NumStates() << " " << left[0] << "\n";
    }
}
