/* The controlled port, as a key agreement uses it: frames pass while it is on. If a client owns the device, only this
 * client may change something, until root takes the device. The port goes off when the owner has gone, since then
 * nobody installs new keys. */
#include "device.h"

/* How many ticks the port is off before TAP loses carrier. A port that is off for some milliseconds, as when a key
 * agreement chooses another server, must not wake what waits for carrier. */
enum { TICKS = 2 };

void port_open(struct device *d) {
    d->port.off = d->config.begins_off || !endpoint_is_open(d);
    d->port.ticks = d->port.off ? TICKS : 0;
    d->port.owner = -1;
}

void port_set_carrier(struct device *d) {
    tap_set_carrier(&d->tap, d->link.up && d->port.ticks < TICKS);
}

void port_set(struct device *d, bool on) {
    d->port.off = !on;
    if (on) {
        d->port.ticks = 0;
        port_set_carrier(d);
    }
}

/* rtnetlink_tick sets the carrier. */
void port_tick(struct device *d) {
    d->port.ticks += d->port.off && d->port.ticks < TICKS;
}

bool port_may_change(const struct device *d, int client) {
    return d->port.owner < 0 || d->port.owner == client;
}

bool port_may_own(const struct device *d, int client) {
    return port_may_change(d, client) || (d->control.user[client] == 0 && d->control.user[d->port.owner] != 0);
}

void port_own(struct device *d, int client) {
    if (!port_may_change(d, client))
        message("root has taken the device from its owner");
    d->port.owner = client;
}

void port_client_gone(struct device *d, int client) {
    if (d->port.owner != client)
        return;
    d->port.owner = -1;
    port_set(d, false);
    message("the owner has gone, so the port is off");
}
