// The time of an event: the median of short rounds, in the processor's time, so that other processes do not count.
#include <algorithm>
#include <ctime>
#include <vector>

inline double processor_nanoseconds() {
    timespec time;
    clock_gettime(CLOCK_THREAD_CPUTIME_ID, &time);
    return 1e9 * time.tv_sec + time.tv_nsec;
}

template <class Event> double nanoseconds(int events, Event event) {
    std::vector<double> rounds(51);
    for (double &round : rounds) {
        double start = processor_nanoseconds();
        for (int i = 0; i < events; i++) event(i);
        round = (processor_nanoseconds() - start) / events;
    }
    std::sort(rounds.begin(), rounds.end());
    return rounds[rounds.size() / 2];
}
