/* Linked by --wrap, it prints the bits of the rates whose dimension is asked for. */
#include <inttypes.h>
#include <stdio.h>
#include <string.h>

#define lyapunov_kaplan_yorke_dimension __real_lyapunov_kaplan_yorke_dimension
#include "lyapunov.h"

uint64_t __wrap_lyapunov_kaplan_yorke_dimension(
    const double *exponents, size_t exponents_len, double *out, uint64_t *place) {
    for (size_t i = 0; i < exponents_len; i++) {
        uint64_t bits;
        memcpy(&bits, &exponents[i], sizeof bits);
        printf("rate %016" PRIx64 "\n", bits);
    }
    return lyapunov_kaplan_yorke_dimension(exponents, exponents_len, out, place);
}
