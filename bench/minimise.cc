// Minimises machines by OpenFst. Standard input: for each machine its states and actions, then for
// each state and action the next state, or -1 for a trip; and before all, the number of repetitions.
// Standard output, a line a machine: microseconds of the median repetition, states of the result.
#include <fst/fstlib.h>

#include <algorithm>
#include <chrono>
#include <iostream>
#include <vector>

using Machine = fst::VectorFst<fst::StdArc>;

int main() {
    int repetitions, states, actions;
    std::cin >> repetitions;
    while (std::cin >> states >> actions) {
        // The trip is one more state, which is final: tripping sequences are the accepted ones.
        Machine machine;
        for (int state = 0; state <= states; ++state) machine.AddState();
        machine.SetStart(0);
        machine.SetFinal(states, fst::StdArc::Weight::One());
        for (int state = 0; state < states; ++state) {
            for (int action = 0; action < actions; ++action) {
                int next;
                std::cin >> next;
                int target = next < 0 ? states : next;
                machine.AddArc(state, fst::StdArc(action + 1, action + 1, fst::StdArc::Weight::One(), target));
            }
        }
        std::vector<double> times;
        int left = 0;
        for (int n = 0; n < repetitions; ++n) {
            Machine copy(machine);
            copy.SetStart(0);  // a copy shares its states until it is changed: change it before the time starts
            auto start = std::chrono::steady_clock::now();
            fst::Minimize(&copy);
            times.push_back(std::chrono::duration<double, std::micro>(std::chrono::steady_clock::now() - start).count());
            left = copy.NumStates();
        }
        std::sort(times.begin(), times.end());
        std::cout << times[times.size() / 2] << " " << left << "\n";
    }
}
