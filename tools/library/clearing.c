/* The calls that take keys, or that retire one: when the library returns, what it left on the stack is overwritten. And
 * the calls that make an endpoint: in the library for vectors of 256 bits, AES takes sixteen blocks at once with its
 * keys. tools/merged-library gives the library's own calls the prefix uncleared_ and links this above them. */
#include "../../include/macsec.h"
#include <string.h>

/* As much as these calls use, measured: 41 kilooctets, and 59 where an endpoint is made. A build without proofs keeps
 * more on the stack. */
#ifdef UNPROVED
enum { TAKING = 128 << 10, MAKING = 448 << 10, FRAMES = 32 << 10 };
#else
enum { TAKING = 42 << 10, MAKING = 64 << 10 };
#endif
#define CLEARS(depth)                                                                                                  \
    __attribute__((noinline)) static void clear_##depth(void) {                                                        \
        uint8_t area[depth];                                                                                           \
        memset(area, 0, sizeof area);                                                                                  \
        __asm__ volatile("" : : "r"(area) : "memory");                                                                 \
    }
CLEARS(TAKING)
CLEARS(MAKING)

#define CALL_ALSO(depth, name, parameters, arguments, also)                                                            \
    uint32_t uncleared_##name parameters;                                                                              \
    uint32_t name parameters {                                                                                         \
        uint32_t status = uncleared_##name arguments;                                                                  \
        also;                                                                                                          \
        clear_##depth();                                                                                               \
        return status;                                                                                                 \
    }
#define CALL(depth, name, parameters, arguments) CALL_ALSO(depth, name, parameters, arguments, (void)0)

/* A call that makes an endpoint. macsec_prefer_wide is a call of the crate that no header has. */
#ifdef __AVX2__
enum { WIDE = 1 };
void macsec_prefer_wide(macsec_endpoint *e, bool wide);
#define MAKES(depth, name, parameters, arguments)                                                                      \
    CALL_ALSO(depth, name, parameters, arguments, status == MACSEC_OK ? macsec_prefer_wide(e, WIDE) : (void)0)
/* These two take no key. */
MAKES(TAKING, macsec_new, (macsec_endpoint * e, const macsec_config *config), (e, config))
MAKES(TAKING, macsec_reserve_open_raw,
      (macsec_endpoint * e, const macsec_config *config, const uint8_t *journal, size_t length, bool ahead),
      (e, config, journal, length, ahead))
#else
#define MAKES CALL
#endif

CALL(TAKING, macsec_install_key, (macsec_endpoint * e, const macsec_sak *key), (e, key))
CALL(TAKING, macsec_renew_key, (macsec_endpoint * e, const macsec_sak *key), (e, key))
CALL(TAKING, macsec_retire_key, (macsec_endpoint * e, uint16_t key), (e, key))
CALL(TAKING, macsec_key_take, (macsec_key * key, const macsec_endpoint *e, uint16_t number), (key, e, number))
CALL(TAKING, macsec_command_line_raw, (macsec_endpoint * e, const uint8_t *text, size_t length), (e, text, length))
CALL(TAKING, macsec_parse_line_raw, (const uint8_t *text, size_t length, macsec_command *command),
     (text, length, command))
CALL(TAKING, macsec_parse_end_raw, (const uint8_t *text, size_t length, macsec_config *config), (text, length, config))
CALL(TAKING, macsec_carry_out, (macsec_endpoint * e, const macsec_command *command), (e, command))
CALL(MAKING, macsec_load_raw,
     (macsec_endpoint * e, const macsec_command *commands, size_t count, uint64_t *begins, size_t begins_count,
      size_t *place),
     (e, commands, count, begins, begins_count, place))
CALL(TAKING, macsec_answer_raw,
     (macsec_endpoint * e, uint32_t number, const uint8_t *text, size_t text_length, uint8_t *out, size_t out_length,
      size_t *written),
     (e, number, text, text_length, out, out_length, written))
CALL(TAKING, macsec_seal_raw,
     (const macsec_sak *key, const uint8_t sci[8], uint64_t pn, bool conf, size_t head, uint8_t *frame, size_t length),
     (key, sci, pn, conf, head, frame, length))
CALL(TAKING, macsec_add_tx_sa, (macsec_endpoint * e, uint8_t an, uint16_t key, uint64_t next, bool conf),
     (e, an, key, next, conf))
CALL(TAKING, macsec_add_rx_sa,
     (macsec_endpoint * e, const uint8_t sci[8], uint8_t an, uint16_t key, uint64_t lowest, uint32_t ssci),
     (e, sci, an, key, lowest, ssci))
MAKES(MAKING, macsec_configure_raw, (macsec_endpoint * e, const uint8_t *text, size_t length, uint32_t *line),
      (e, text, length, line))
MAKES(MAKING, macsec_reserve_configure_raw,
      (macsec_endpoint * e, const uint8_t *text, size_t text_length, const uint8_t *journal, size_t journal_length,
       bool ahead, uint32_t *line),
      (e, text, text_length, journal, journal_length, ahead, line))

/* A build without proofs calls functions where the proved ones have their code in place, and passes them round keys on
 * the stack: there the calls for frames, jobs and what these hold overwrite it too. */
#ifdef UNPROVED
CLEARS(FRAMES)
CALL(FRAMES, macsec_send_raw, (macsec_endpoint * e, const uint8_t *frame, size_t length, macsec_sent *out),
     (e, frame, length, out))
CALL(FRAMES, macsec_receive_raw, (macsec_endpoint * e, const uint8_t *frame, size_t length, macsec_received *out),
     (e, frame, length, out))
CALL(FRAMES, macsec_seal_job_raw, (macsec_slot * slot, macsec_key *key, uint8_t *out, size_t length, size_t *written),
     (slot, key, out, length, written))
CALL(FRAMES, macsec_open_job, (macsec_slot * slot, macsec_key *key), (slot, key))
#define FREES(name, type)                                                                                              \
    void uncleared_##name(type *freed);                                                                                \
    void name(type *freed) {                                                                                           \
        uncleared_##name(freed);                                                                                       \
        clear_FRAMES();                                                                                                \
    }
FREES(macsec_key_free_raw, macsec_key)
FREES(macsec_slot_free_raw, macsec_slot)
#endif
