/* What the ends of the test journal share: the frames that they send, captures, and what fails. */
#ifndef JOURNAL_END_H
#define JOURNAL_END_H

#include "macsec.h"
#include <fcntl.h>
#include <stdio.h>
#include <stdlib.h>
#include <string.h>
#include <unistd.h>

enum { FRAME_LENGTH = 64, KEYS = 2, TURN = 16, LINK_MAX = 256 };

static const uint8_t client_frame[FRAME_LENGTH] = { 2, 0, 0, 0, 0, 9, 2, 0, 0, 0, 0, 8, 0x88, 0xb5 };

static inline void fail(const char *what) {
    perror(what);
    exit(1);
}

static inline void must(const char *what, uint32_t status) {
    if (status == MACSEC_OK)
        return;
    fprintf(stderr, "journal: %s: %s\n", what, macsec_status_name(status));
    exit(1);
}

static inline int create_capture(const char *name) {
    static const uint32_t header[6] = { 0xa1b2c3d4, 0x00040002, 0, 0, 65535, 1 };
    int file = open(name, O_WRONLY | O_CREAT | O_TRUNC | O_CLOEXEC, 0600);
    if (file < 0 || write(file, header, sizeof header) != sizeof header)
        fail(name);
    return file;
}

/* Writes a frame by one call, so that no buffer is lost when the process is killed. */
static inline void capture(int file, const uint8_t *frame, size_t length) {
    uint8_t record[16 + LINK_MAX] = { 0 };
    const uint32_t lengths[2] = { (uint32_t)length, (uint32_t)length };
    if (length > LINK_MAX)
        exit(1);
    memcpy(record + 8, lengths, sizeof lengths);
    memcpy(record + 16, frame, length);
    if (write(file, record, 16 + length) != (ssize_t)(16 + length))
        fail("capture");
}

/* Sends a frame and captures it. False if no packet number is reserved for it. */
static inline bool send_frame(macsec_endpoint *e, int file) {
    macsec_sent sent;
    must("send", macsec_send(e, client_frame, sizeof client_frame, &sent));
    if (sent.fate == MACSEC_FATE_NO_RESERVATION)
        return false;
    if (sent.fate != MACSEC_FATE_PROTECTED) {
        fprintf(stderr, "journal: send: %s\n", macsec_fate_name(sent.fate));
        exit(1);
    }
    capture(file, sent.frame, sent.length);
    return true;
}

#endif
