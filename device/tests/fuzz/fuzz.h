/* What the fuzz targets share. Each target gives octets of a stranger to one reader of macsecd, whose sources are built
 * unaltered: the calls of the system that bring the octets are replaced by the linker (--wrap).
 * device/tests/device-fuzz builds and runs them. */
#ifndef FUZZ_H
#define FUZZ_H

#include "device.h"

/* Octets of an input that are still to be read. */
struct input {
    const uint8_t *at;
    size_t left;
};

/* Takes at most so many octets. Returns how many there were, with zeros after them. */
size_t input_take(struct input *i, void *to, size_t length);
/* Takes a number of two octets, the most significant one first. */
size_t input_number(struct input *i);

/* Puts octets into a buffer, as a system call does. What is after them and `more` octets must not be touched until the
 * buffer is filled again. Returns how many there are, at most `room`. */
size_t fuzz_fill(void *buffer, size_t room, const uint8_t *octets, size_t length, size_t more);
/* Ends the target if something does not hold that must. */
void fuzz_require(bool holds, const char *what);
/* Puts the octets into a file of the folder that an environment variable names, as its owner's alone. */
void fuzz_write(const char *variable, const char *file, const uint8_t *octets, size_t length);
/* A device with an empty journal and no endpoint. LINK and TAP have no descriptors. To be called once. */
struct device *fuzz_device(void);

int LLVMFuzzerInitialize(int *count, char ***arguments);
int LLVMFuzzerTestOneInput(const uint8_t *octets, size_t length);

#endif
