/* An echo in three blocks, its feedback turned off before the third. bindings/c/run builds and runs this. */
#include "sedhavil.h"
#include <stdio.h>
#include <stdlib.h>

static void check(const char *what, sedhavil_answer answer) {
    if (answer.number == SEDHAVIL_ACCEPTED) return;
    fprintf(stderr, "%s: refusal %u at place %zu\n", what, answer.number, answer.place);
    exit(1);
}

int main(void) {
    sedhavil_chain chain;
    float blocks[3][4] = {{1, 1, 0, 0}}; /* two frames each, left and right in turn; the rest is silent */
    sedhavil_chain_init(&chain, 48000);
    sedhavil_stage_delay(sedhavil_chain_add(&chain), 2, 0, 1.0f, 0); /* 2 frames, feedback 0 dB, all wet */
    size_t needed = sedhavil_chain_needed(&chain).floats; /* 0 if refused, and then the start says why */
    float *store = malloc(needed * sizeof *store);
    check("start", sedhavil_chain_start(&chain, store, needed));
    printf("floats needed: %zu\n", needed);
    for (int i = 0; i < 3; i++) {
        if (i == 2)
            sedhavil_stage_delay(sedhavil_chain_stage(&chain, 0), 2, -60, 1.0f, 0);
        check("render", sedhavil_chain_render(&chain, blocks[i], 2));
        printf("block %d: %g %g\n", i + 1, blocks[i][0], blocks[i][2]);
    }
    free(store);
    return 0;
}
