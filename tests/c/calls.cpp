// Calls the library as a C++ program does: writes Figure 1 of 002 as a trace, and checks what was written.
#include <zobukwami.h>

#include <cstdint>
#include <iostream>
#include <memory>
#include <vector>

int main()
{
    const std::vector<zobukwami_event> events = {
        {ZOBUKWAMI_WRITE, 0},  {ZOBUKWAMI_SPAWN, 0},  {ZOBUKWAMI_LOCK, 0},   {ZOBUKWAMI_LOCK, 1},
        {ZOBUKWAMI_READ, 0},   {ZOBUKWAMI_WRITE, 0},  {ZOBUKWAMI_UNLOCK, 1}, {ZOBUKWAMI_UNLOCK, 0},
        {ZOBUKWAMI_RETURN, 0}, {ZOBUKWAMI_SPAWN, 0},  {ZOBUKWAMI_LOCK, 0},   {ZOBUKWAMI_READ, 0},
        {ZOBUKWAMI_WRITE, 0},  {ZOBUKWAMI_UNLOCK, 0}, {ZOBUKWAMI_RETURN, 0}, {ZOBUKWAMI_SPAWN, 0},
        {ZOBUKWAMI_LOCK, 1},   {ZOBUKWAMI_READ, 0},   {ZOBUKWAMI_WRITE, 0},  {ZOBUKWAMI_UNLOCK, 1},
        {ZOBUKWAMI_RETURN, 0}, {ZOBUKWAMI_SYNC, 0},   {ZOBUKWAMI_READ, 0},   {ZOBUKWAMI_RETURN, 0},
    };
    const std::vector<std::uint8_t> trace = {
        0x06, 0x00, 0x03, 0x0B, 0x05, 0x06, 0x0C, 0x04, 0x01, 0x00, 0x03, 0x05,
        0x06, 0x04, 0x01, 0x00, 0x0B, 0x05, 0x06, 0x0C, 0x01, 0x02, 0x05, 0x01,
    };
    const std::vector<std::uint32_t> races = {0, 12, 17, 0, 12, 18};
    std::vector<std::uint8_t> buffer(trace.size());
    const zobukwami_written written =
        zobukwami_write_list(buffer.data(), buffer.size(), 0, events.data(), events.size());
    const std::unique_ptr<zobukwami_room> room(new zobukwami_room);
    std::vector<std::uint32_t> report(races.size());
    const zobukwami_answer answer =
        zobukwami_check_in(room.get(), buffer.data(), written.next, report.data(), report.size());
    const bool right = written.code == ZOBUKWAMI_ACCEPTED && written.next == trace.size() && buffer == trace &&
                       answer.code == ZOBUKWAMI_ACCEPTED && answer.events == trace.size() &&
                       answer.offset == trace.size() && answer.races == races.size() / ZOBUKWAMI_NUMBERS &&
                       answer.visits == 19 && answer.most == 2 && report == races;
    std::cout << (right ? "figure 1 as it should be\n" : "figure 1 is not as it should be\n");
    return right ? 0 : 1;
}
