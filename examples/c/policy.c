/* Judges the samples on its input, one a line, by the proved policy, and prints the advice on each. `arachne policy`
 * prints the same, but no advice at all if a sample is bad. */
#include "arachne_exec.h"
#include <inttypes.h>
#include <stdio.h>

int main(void) {
    arachne_estimator estimator;
    arachne_sample s;
    if (!arachne_estimator_new(1500, 90, 16, &estimator)) return 1;
    for (int line = 1; scanf("%" SCNu64 " %" SCNu64 " %" SCNu64 " %" SCNu64 " %" SCNu64, &s.cores, &s.runnable, &s.scans,
                             &s.busy, &s.elapsed) == 5; line++) {
        uint32_t answer = arachne_estimator_judge(&estimator, &s);
        if (answer == ARACHNE_REFUSED) {
            fprintf(stderr, "fault 12 line %d\n", line);
            return 1;
        }
        puts(answer == ARACHNE_ADD ? "add" : answer == ARACHNE_REMOVE ? "remove" : "stay");
    }
    return 0;
}
