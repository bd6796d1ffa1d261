/* From C++: the trips of a job, each with its seconds, its highest gear and how many seconds of it are short of power.
   usage: trips JOB
   Exit status: 0 where the job was worked, 1 where it was refused, 2 where the words are not these or the file cannot be read. */
#include "gearcard.h"

#include <algorithm>
#include <cstdint>
#include <cstdio>
#include <fstream>
#include <iterator>
#include <vector>

namespace {

/* Says a refusal, and whether there is one. */
bool refused(const char *what, const gearcard_verdict &verdict) {
  if (verdict.number == 0) return false;
  std::printf("%s refused %u at %zu\n", what, static_cast<unsigned>(verdict.number), verdict.place);
  return true;
}

} // namespace

int main(int argc, char **argv) {
  std::ifstream file(argc == 2 ? argv[1] : "", std::ios::binary);
  if (!file) {
    std::fprintf(stderr, "usage: trips JOB\n");
    return 2;
  }
  const std::vector<char> read((std::istreambuf_iterator<char>(file)), std::istreambuf_iterator<char>());
  std::vector<std::uint8_t> bytes(read.begin(), read.end());
  bytes.push_back(0); /* so that there is an element to point at, in an empty file too */
  std::vector<std::uint16_t> speeds(GEARCARD_LONGEST);
  std::vector<std::uint8_t> holds(GEARCARD_LONGEST), card(GEARCARD_LONGEST);

  const gearcard_job job = gearcard_read(bytes.data(), read.size(), speeds.data(), speeds.size(), holds.data(), holds.size());
  if (refused("job", job.verdict)) return 1;
  const std::size_t n = job.count;
  if (refused("trace", gearcard_work(job.vehicle, speeds.data(), n, holds.data(), n, card.data(), n))) return 1;

  for (std::size_t second = 0; second < n; second++) {
    /* A function has this struct's name too, so C++ asks for the word struct before it. */
    const struct gearcard_why why = gearcard_why(job.vehicle, speeds.data(), n, holds.data(), n, second);
    if (why.reasons.kind != 2) continue;
    int highest = 0, wanting = 0;
    for (; second <= why.reasons.last; second++) {
      const gearcard_reasons here = gearcard_why(job.vehicle, speeds.data(), n, holds.data(), n, second).reasons;
      highest = std::max(highest, card[second] % 16);
      if (here.after_c != 0 && !here.gears[here.after_c - 1].enough) wanting++;
    }
    std::printf("seconds %zu to %zu: up to gear %d, %d short of power\n", why.reasons.first, why.reasons.last, highest, wanting);
  }
  return 0;
}
