/* NAME.conf (device/config.c), and its lines for the endpoint (endpoint.c and lines.c). An input is the file. */
#include "fuzz.h"
#include <string.h>

static struct device *device;

int LLVMFuzzerInitialize(int *count, char ***arguments) {
    (void)count, (void)arguments;
    device = fuzz_device();
    return 0;
}

int LLVMFuzzerTestOneInput(const uint8_t *octets, size_t length) {
    struct config *c = &device->config;
    uint32_t line = 0;
    fuzz_write("CONFIGURATION_DIRECTORY", "fuzz.conf", octets, length);
    if (config_read(c, device->name) != 0)
        return 0;
    fuzz_require(config_is_name(c->link) && config_is_name(c->tap), "no device can have this name");
    fuzz_require(strcmp(c->link, c->tap) != 0, "LINK and TAP have one name");
    fuzz_require(memchr(c->text, '\0', length) == NULL, "a zero is taken");
    fuzz_require(c->length == length && c->text[length] == '\0', "the text has another length than the file");
    if (endpoint_configure(device, (const char *)c->text, c->length, &line) == MACSEC_OK)
        fuzz_require(line <= length + 1, "there are more lines than octets");
    endpoint_close(device);
    config_wipe(c);
    return 0;
}
