// A thread that spins on a flag, and then prints the message that another thread stored before it put the flag up.
//
// The other thread waits until the first one spins, and then adds up some numbers.
#include <atomic>
#include <chrono>
#include <cstdio>
#include <thread>

static std::atomic<bool> is_waiting, is_up;
static long numbers[64], message;

int main() {
    std::thread reader([] {
        is_waiting = true;
        while (!is_up) {
        }
        std::printf("message %ld\n", message);
    });
    while (!is_waiting) {
        std::this_thread::sleep_for(std::chrono::milliseconds(1));
    }
    for (long &number : numbers) {
        number = 2;
    }
    for (long number : numbers) {
        message += number;
    }
    is_up = true;
    reader.join();
}
