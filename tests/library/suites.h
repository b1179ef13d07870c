/* What tests in C ask of a suite. */
#ifndef SUITES_H
#define SUITES_H
#include <macsec.h>
#include <stdbool.h>
#include <stdint.h>

/* made: suites of tools/families.json */
/* Has it extended packet numbers? */
static inline bool suite_is_extended(uint32_t suite) {
    return suite == MACSEC_SUITE_GCM_AES_XPN_128 || suite == MACSEC_SUITE_GCM_AES_XPN_256;
}

/* The octets of its keys. */
static inline uint8_t suite_key_octets(uint32_t suite) {
    return suite == MACSEC_SUITE_GCM_AES_256 || suite == MACSEC_SUITE_GCM_AES_XPN_256 ? 32 : 16;
}

enum { LAST_SUITE = MACSEC_SUITE_GCM_AES_XPN_256 };
/* end */

#endif
