/*
 * Driver interface for macsecd, a MACsec SecY in user space
 *
 * This software may be distributed under the terms of the BSD license.
 * See README for more details.
 *
 * An operation of KaY becomes one request or a few on macsecd's control socket. wpa_supplicant sends and receives EAPOL
 * frames by its own packet socket; macsecd carries the frames of the controlled port alone.
 *
 * KaY looks at the results of macsec_init, macsec_get_capability, create_transmit_sc and create_receive_sc, and ignores
 * all others. So if one of the others fails, this driver blocks the controlled port and makes KaY begin again.
 */

#include "includes.h"
#include <sys/socket.h>
#include <net/if.h>
#include <inttypes.h>

#include "utils/common.h"
#include "utils/eloop.h"
#include "pae/ieee802_1x_kay.h"
#include "driver.h"
#include "driver_wired_common.h"
#include "macsecd_client.h"
#include "macsecd_keys.h"

#define DRV_PREFIX "macsecd: "
#define LAST_PN 0xffffffffULL

#define SUITE_128 0x0080c20001000001ULL
#define SUITE_256 0x0080c20001000002ULL
#define SUITE_128_OF_KAY 0x0080020001000001ULL /* CS_ID_GCM_AES_128 */

/* Refusals of include/macsec.h that mean something here */
enum { REFUSED_NO_SC = 11, REFUSED_NO_SA = 13, REFUSED_PN_LOWER = 15 };

/* Why MKA begins again */
enum reason { REFUSAL, CONNECTION, NO_KEY, REASONS };

struct macsecd_data {
    struct driver_wired_common_data common;
    unsigned int index; /* LINK's */
    struct macsecd_client client;
    bool open;   /* macsecd has made our endpoint */
    bool failed; /* the controlled port stays off until the next one */

    /* settings that may come before the endpoint */
    bool encrypt, replay, port;
    u32 window;

    struct macsecd_keys keys;
    unsigned int channels;       /* receive channels */
    unsigned int again[REASONS]; /* how often MKA began again */
};

static bool has_endpoint(const struct macsecd_data *drv) {
    return drv->open && drv->client.fd >= 0;
}

/* ---- Beginning again ---- */

static void macsecd_again(void *eloop_ctx, void *timeout_ctx) {
    struct macsecd_data *drv = eloop_ctx;
    wpa_supplicant_event(drv->common.ctx, EVENT_DISASSOC, NULL);
}

/* At once, since the peers wait for the old MI to expire only from the moment when they hear of the new one. */
static void begin_again(struct macsecd_data *drv, enum reason reason) {
    if (eloop_is_timeout_registered(macsecd_again, drv, NULL))
        return;
    drv->again[reason]++;
    wpa_msg(drv->common.ctx, MSG_WARNING, DRV_PREFIX "MKA begins again");
    if (eloop_register_timeout(0, 0, macsecd_again, drv, NULL))
        wpa_msg(drv->common.ctx, MSG_ERROR, DRV_PREFIX "out of memory: MKA does not begin again");
}

/* macsecd can be reached after it could not: its endpoint is lost. If LINK was removed meanwhile and is there again,
 * the packet sockets are of a device that is gone, so a new process is needed, which the service manager starts. */
static void macsecd_back(void *arg) {
    struct macsecd_data *drv = arg;
    if (if_nametoindex(drv->common.ifname) == drv->index) {
        begin_again(drv, CONNECTION);
        return;
    }
    wpa_msg(drv->common.ctx, MSG_ERROR, DRV_PREFIX "%s is another device than at the start: the end",
            drv->common.ifname);
    eloop_terminate();
}

/* Blocks the controlled port until MKA has begun again: by a request, else by the end of the connection. */
static void block_port(struct macsecd_data *drv, enum reason reason) {
    if (drv->failed)
        return; /* that is under way, and KaY goes on meanwhile */
    drv->failed = true;
    if (!has_endpoint(drv))
        return; /* the port is off already */
    if (macsecd_line(&drv->client, "port off") == 0)
        begin_again(drv, reason);
    else if (drv->client.fd >= 0)
        macsecd_lost(&drv->client, "the port can't be blocked");
}

/* ---- Results ---- */

static int log_result(struct macsecd_data *drv, const char *op, int status) {
    if (status == 0)
        wpa_printf(MSG_DEBUG, DRV_PREFIX "%s -> %s", op, drv->client.answer);
    else
        wpa_msg(drv->common.ctx, MSG_ERROR, DRV_PREFIX "%s -> %s", op, drv->client.answer);
    return status ? -1 : 0;
}

/* The result of an operation that KaY ignores: it goes on as if nothing had failed, and only new SAKs can mend that. */
static int ignored_result(struct macsecd_data *drv, const char *op, int status) {
    if (log_result(drv, op, status) == 0)
        return 0;
    block_port(drv, REFUSAL);
    return -1;
}

/* The same of an operation that disables or deletes. KaY also asks this of what it could not create, which is no
 * failure. */
static int removal_result(struct macsecd_data *drv, const char *op, int status) {
    if (status != REFUSED_NO_SC && status != REFUSED_NO_SA)
        return ignored_result(drv, op, status);
    wpa_printf(MSG_INFO, DRV_PREFIX "%s -> there is none", op);
    return -1;
}

/* ---- Names ---- */

static const char *sci_hex(const struct ieee802_1x_mka_sci *sci, char *to) {
    wpa_snprintf_hex(to, 17, (const u8 *)sci, 8);
    return to;
}

/* ---- Keys ---- */

/* The number of a SAK, which is installed if it is not yet; else -1. If all numbers were used, and macsecd can't go on
 * with another endpoint, MKA begins again. */
static int key_number(struct macsecd_data *drv, const struct data_key *k) {
    int n;
    os_strlcpy(drv->client.answer, "no endpoint", sizeof(drv->client.answer));
    if (!has_endpoint(drv))
        return -1;
    n = macsecd_key_number(&drv->keys, &drv->client, k);
    if (n < 0 && drv->keys.used >= MACSECD_KEYS) {
        wpa_msg(drv->common.ctx, MSG_WARNING, DRV_PREFIX "all %d key numbers are used", MACSECD_KEYS);
        block_port(drv, NO_KEY);
    }
    return n;
}

/* ---- The device ---- */

static void *macsecd_init(void *ctx, const char *ifname) {
    struct macsecd_data *drv = os_zalloc(sizeof(*drv));
    if (!drv)
        return NULL;
    drv->client.fd = -1;
    drv->client.ctx = ctx;
    drv->client.back = macsecd_back;
    drv->client.arg = drv;
    drv->index = if_nametoindex(ifname);
    os_snprintf(drv->client.path, sizeof(drv->client.path), "/run/macsec/%s.sock", ifname);
    if (driver_wired_init_common(&drv->common, ifname, ctx) < 0) {
        os_free(drv);
        return NULL;
    }
    return drv;
}

static void macsecd_deinit(void *priv) {
    struct macsecd_data *drv = priv;
    eloop_cancel_timeout(macsecd_again, drv, NULL);
    macsecd_stop(&drv->client);
    driver_wired_deinit_common(&drv->common);
    os_free(drv);
}

/* driver_param=socket=PATH */
static int macsecd_set_param(void *priv, const char *param) {
    struct macsecd_data *drv = priv;
    const char *at = param ? os_strstr(param, "socket=") : NULL;
    if (!at)
        return 0;
    at += 7;
    if (macsecd_set_path(&drv->client, at, strcspn(at, " ")) == 0)
        return 0;
    wpa_printf(MSG_ERROR, DRV_PREFIX "socket=: the path is empty or too long");
    return -1;
}

static int macsecd_macsec_init(void *priv, struct macsec_init_params *params) {
    struct macsecd_data *drv = priv;
    wpa_printf(MSG_DEBUG, DRV_PREFIX "op macsec_init es=%d scb=%d sci=%d", params->use_es, params->use_scb,
               params->always_include_sci);
    if (params->use_es || params->use_scb || !params->always_include_sci)
        return -1;
    eloop_cancel_timeout(macsecd_again, drv, NULL);
    drv->open = drv->failed = false;
    macsecd_forget_keys(&drv->keys);
    drv->channels = 0;
    /* If this fails, KaY makes no second attempt: it is woken when macsecd can be reached. */
    return macsecd_call(&drv->client);
}

static int macsecd_macsec_deinit(void *priv) {
    struct macsecd_data *drv = priv;
    wpa_printf(MSG_DEBUG, DRV_PREFIX "op macsec_deinit");
    macsecd_hang_up(&drv->client);
    drv->open = false;
    return 0;
}

static int macsecd_get_capability(void *priv, enum macsec_cap *cap) {
    wpa_printf(MSG_DEBUG, DRV_PREFIX "op macsec_get_capability");
    *cap = MACSEC_CAP_INTEG_AND_CONF_0_30_50;
    return 0;
}

/* ---- Settings. Those that come before the endpoint are kept for it. ---- */

/* The endpoint always protects: KaY switches protection off if it gives up MACsec, and then the controlled port would
 * carry frames as they are. */
static int macsecd_enable_protect_frames(void *priv, bool enabled) {
    struct macsecd_data *drv = priv;
    wpa_printf(MSG_DEBUG, DRV_PREFIX "op enable_protect_frames %d", enabled);
    if (enabled)
        return 0;
    wpa_msg(drv->common.ctx, MSG_WARNING, DRV_PREFIX "frames are protected nevertheless");
    return -1;
}

static int macsecd_enable_encrypt(void *priv, bool enabled) {
    struct macsecd_data *drv = priv;
    wpa_printf(MSG_DEBUG, DRV_PREFIX "op enable_encrypt %d", enabled);
    drv->encrypt = enabled; /* for the transmit SAs that are created next */
    return 0;
}

static int set_replay(struct macsecd_data *drv) {
    return macsecd_line(&drv->client, "A replay %s %u", drv->replay ? "on" : "off", drv->window);
}

static int macsecd_set_replay_protect(void *priv, bool enabled, u32 window) {
    struct macsecd_data *drv = priv;
    wpa_printf(MSG_DEBUG, DRV_PREFIX "op set_replay_protect %d %u", enabled, window);
    drv->replay = enabled;
    drv->window = window;
    if (!has_endpoint(drv))
        return 0;
    return ignored_result(drv, "set_replay_protect", set_replay(drv));
}

static int macsecd_set_current_cipher_suite(void *priv, u64 cs) {
    struct macsecd_data *drv = priv;
    wpa_printf(MSG_DEBUG, DRV_PREFIX "op set_current_cipher_suite %016" PRIx64, cs);
    /* a SAK's length says its suite */
    if (cs == SUITE_128 || cs == SUITE_128_OF_KAY || cs == SUITE_256)
        return 0;
    os_strlcpy(drv->client.answer, "no such suite", sizeof(drv->client.answer));
    return ignored_result(drv, "set_current_cipher_suite", MACSECD_NOT_DONE);
}

static int macsecd_enable_controlled_port(void *priv, bool enabled) {
    struct macsecd_data *drv = priv;
    wpa_printf(MSG_DEBUG, DRV_PREFIX "op enable_controlled_port %d", enabled);
    drv->port = enabled;
    if (!has_endpoint(drv))
        return 0;
    if (enabled && drv->failed) {
        wpa_printf(MSG_INFO, DRV_PREFIX "the port stays off until MKA begins again");
        return -1;
    }
    return ignored_result(drv, "enable_controlled_port", macsecd_line(&drv->client, "port %s", enabled ? "on" : "off"));
}

/* ---- Packet numbers. KaY has 32 bits for one; the next one of an exhausted SA is 2^32. ---- */

static u32 pn_of_kay(u64 pn) {
    return pn > LAST_PN ? LAST_PN : pn;
}

static int macsecd_get_receive_lowest_pn(void *priv, struct receive_sa *sa) {
    struct macsecd_data *drv = priv;
    u64 lowest = 0;
    char sci[17];
    sci_hex(&sa->sc->sci, sci);
    if (macsecd_line(&drv->client, "numbers rx %s %u", sci, sa->an) ||
        sscanf(drv->client.answer, "rx %*s %*u %*u %*s %" SCNx64, &lowest) != 1)
        lowest = 0;
    wpa_printf(MSG_DEBUG, DRV_PREFIX "op get_receive_lowest_pn %s an %u -> %" PRIu64, sci, sa->an, lowest);
    if (!lowest)
        return -1;
    sa->lowest_pn = pn_of_kay(lowest);
    return 0;
}

static int macsecd_set_receive_lowest_pn(void *priv, struct receive_sa *sa) {
    struct macsecd_data *drv = priv;
    char sci[17];
    int status;
    sci_hex(&sa->sc->sci, sci);
    wpa_printf(MSG_DEBUG, DRV_PREFIX "op set_receive_lowest_pn %s an %u pn %u", sci, sa->an, sa->lowest_pn);
    if (drv->channels > 1) {
        wpa_printf(MSG_INFO, DRV_PREFIX "no delay protection with %u peers", drv->channels);
        return -1;
    }
    status = macsecd_line(&drv->client, "A rxlow %s %u %x", sci, sa->an, sa->lowest_pn);
    if (status == REFUSED_PN_LOWER)
        return 0; /* it has risen since KaY read it */
    return ignored_result(drv, "set_receive_lowest_pn", status);
}

static int macsecd_get_transmit_next_pn(void *priv, struct transmit_sa *sa) {
    struct macsecd_data *drv = priv;
    u64 next = 0;
    if (macsecd_line(&drv->client, "numbers tx %u", sa->an) ||
        sscanf(drv->client.answer, "tx %*u %*u %" SCNx64, &next) != 1)
        next = 0;
    wpa_printf(MSG_DEBUG, DRV_PREFIX "op get_transmit_next_pn an %u -> %" PRIu64, sa->an, next);
    if (!next)
        return -1;
    sa->next_pn = pn_of_kay(next);
    return 0;
}

/* ---- Receive channels and their SAs ---- */

/* KaY looks at the result and drops the peer, so a refusal is no failure of the other peers: a peer with a new MI still
 * has its old channel. */
static int macsecd_create_receive_sc(void *priv, struct receive_sc *sc, unsigned int conf_offset, int validation) {
    struct macsecd_data *drv = priv;
    char sci[17];
    sci_hex(&sc->sci, sci);
    wpa_printf(MSG_DEBUG, DRV_PREFIX "op create_receive_sc %s offset %u validation %d", sci, conf_offset, validation);
    if (validation != Strict) {
        wpa_msg(drv->common.ctx, MSG_ERROR, DRV_PREFIX "validation is always strict");
        return -1;
    }
    if (log_result(drv, "create_receive_sc", macsecd_line(&drv->client, "A rxsc %s", sci)))
        return -1;
    drv->channels++;
    return 0;
}

static int macsecd_delete_receive_sc(void *priv, struct receive_sc *sc) {
    struct macsecd_data *drv = priv;
    char sci[17];
    int status;
    sci_hex(&sc->sci, sci);
    wpa_printf(MSG_DEBUG, DRV_PREFIX "op delete_receive_sc %s", sci);
    if (!has_endpoint(drv))
        return 0;
    status = macsecd_line(&drv->client, "A rxscdel %s", sci);
    if (!status && drv->channels)
        drv->channels--;
    return removal_result(drv, "delete_receive_sc", status);
}

static int receive_sa_line(struct macsecd_data *drv, const char *word, struct receive_sa *sa) {
    char sci[17];
    return macsecd_line(&drv->client, "A %s %s %u", word, sci_hex(&sa->sc->sci, sci), sa->an);
}

static int macsecd_create_receive_sa(void *priv, struct receive_sa *sa) {
    struct macsecd_data *drv = priv;
    int status = MACSECD_NOT_DONE, key = key_number(drv, sa->pkey);
    char sci[17];
    u64 raised;
    sci_hex(&sa->sc->sci, sci);
    wpa_printf(MSG_DEBUG, DRV_PREFIX "op create_receive_sa %s an %u lowest %u enable %d: key %d", sci, sa->an,
               sa->lowest_pn, sa->enable_receive, key);
    if (key >= 0)
        status = macsecd_line(&drv->client, "A rxsa %s %u %d %x", sci, sa->an, key, sa->lowest_pn);
    if (!status) {
        drv->keys.keys[key].users++;
        raised = macsecd_raised_pn(&drv->client);
        if (raised)
            sa->lowest_pn = pn_of_kay(raised);
        if (sa->enable_receive)
            status = receive_sa_line(drv, "rxon", sa);
    }
    return ignored_result(drv, "create_receive_sa", status);
}

static int macsecd_delete_receive_sa(void *priv, struct receive_sa *sa) {
    struct macsecd_data *drv = priv;
    int ret;
    wpa_printf(MSG_DEBUG, DRV_PREFIX "op delete_receive_sa an %u", sa->an);
    if (!has_endpoint(drv))
        return 0;
    ret = removal_result(drv, "delete_receive_sa", receive_sa_line(drv, "rxdel", sa));
    if (!ret)
        macsecd_key_released(&drv->keys, &drv->client, sa->pkey);
    return ret;
}

static int macsecd_enable_receive_sa(void *priv, struct receive_sa *sa) {
    wpa_printf(MSG_DEBUG, DRV_PREFIX "op enable_receive_sa an %u", sa->an);
    return ignored_result(priv, "enable_receive_sa", receive_sa_line(priv, "rxon", sa));
}

static int macsecd_disable_receive_sa(void *priv, struct receive_sa *sa) {
    struct macsecd_data *drv = priv;
    wpa_printf(MSG_DEBUG, DRV_PREFIX "op disable_receive_sa an %u", sa->an);
    if (!has_endpoint(drv))
        return 0;
    return removal_result(drv, "disable_receive_sa", receive_sa_line(drv, "rxoff", sa));
}

/* ---- The transmit channel and its SAs ---- */

static int open_endpoint(struct macsecd_data *drv, const char *sci) {
    /* an earlier wpa_supplicant that was killed has left one: not an error */
    if (macsecd_line(&drv->client, "close") == 0)
        wpa_printf(MSG_DEBUG, DRV_PREFIX "an old endpoint was closed");
    return macsecd_line(&drv->client, "open %s gcm128", sci);
}

/* Here macsecd gets an endpoint, since KaY names the SCI only now. KaY looks at the result. */
static int macsecd_create_transmit_sc(void *priv, struct transmit_sc *sc, unsigned int conf_offset) {
    struct macsecd_data *drv = priv;
    char sci[17];
    sci_hex(&sc->sci, sci);
    wpa_printf(MSG_DEBUG, DRV_PREFIX "op create_transmit_sc %s offset %u", sci, conf_offset);
    macsecd_forget_keys(&drv->keys);
    drv->channels = 0;
    drv->open = log_result(drv, "create_transmit_sc: open", open_endpoint(drv, sci)) == 0;
    if (!drv->open)
        return -1;
    drv->failed = false;
    if (log_result(drv, "create_transmit_sc: replay", set_replay(drv)) == 0 &&
        (!drv->port || log_result(drv, "create_transmit_sc: port", macsecd_line(&drv->client, "port on")) == 0))
        return 0;
    if (macsecd_line(&drv->client, "close") && drv->client.fd >= 0)
        macsecd_lost(&drv->client, "the endpoint can't be closed");
    drv->open = false;
    return -1;
}

static int macsecd_delete_transmit_sc(void *priv, struct transmit_sc *sc) {
    struct macsecd_data *drv = priv;
    wpa_printf(MSG_DEBUG, DRV_PREFIX "op delete_transmit_sc");
    if (!has_endpoint(drv))
        return 0;
    drv->open = false;
    return log_result(drv, "delete_transmit_sc", macsecd_line(&drv->client, "close"));
}

static int transmit_sa_line(struct macsecd_data *drv, const char *word, struct transmit_sa *sa) {
    return macsecd_line(&drv->client, "A %s %u", word, sa->an);
}

/* If the SAK was used before, macsecd begins above, and KaY has to know. */
static int macsecd_create_transmit_sa(void *priv, struct transmit_sa *sa) {
    struct macsecd_data *drv = priv;
    int status = MACSECD_NOT_DONE, key = key_number(drv, sa->pkey);
    u64 raised;
    wpa_printf(MSG_DEBUG, DRV_PREFIX "op create_transmit_sa an %u next %u enable %d conf %d: key %d", sa->an,
               sa->next_pn, sa->enable_transmit, drv->encrypt, key);
    if (key >= 0)
        status =
            macsecd_line(&drv->client, "A txsa %u %d %x %s", sa->an, key, sa->next_pn, drv->encrypt ? "conf" : "int");
    if (!status) {
        drv->keys.keys[key].users++;
        raised = macsecd_raised_pn(&drv->client);
        if (raised)
            sa->next_pn = pn_of_kay(raised);
        if (sa->enable_transmit)
            status = transmit_sa_line(drv, "txon", sa);
    }
    return ignored_result(drv, "create_transmit_sa", status);
}

static int macsecd_delete_transmit_sa(void *priv, struct transmit_sa *sa) {
    struct macsecd_data *drv = priv;
    int ret;
    wpa_printf(MSG_DEBUG, DRV_PREFIX "op delete_transmit_sa an %u", sa->an);
    if (!has_endpoint(drv))
        return 0;
    ret = removal_result(drv, "delete_transmit_sa", transmit_sa_line(drv, "txdel", sa));
    if (!ret)
        macsecd_key_released(&drv->keys, &drv->client, sa->pkey);
    return ret;
}

static int macsecd_enable_transmit_sa(void *priv, struct transmit_sa *sa) {
    wpa_printf(MSG_DEBUG, DRV_PREFIX "op enable_transmit_sa an %u", sa->an);
    return ignored_result(priv, "enable_transmit_sa", transmit_sa_line(priv, "txon", sa));
}

static int macsecd_disable_transmit_sa(void *priv, struct transmit_sa *sa) {
    struct macsecd_data *drv = priv;
    wpa_printf(MSG_DEBUG, DRV_PREFIX "op disable_transmit_sa an %u", sa->an);
    if (!has_endpoint(drv))
        return 0;
    return removal_result(drv, "disable_transmit_sa", transmit_sa_line(drv, "txoff", sa));
}

static int macsecd_status(void *priv, char *buf, size_t buflen) {
    struct macsecd_data *drv = priv;
    int res = os_snprintf(buf, buflen,
                          "macsecd_socket=%s\n"
                          "macsecd_connected=%d\n"
                          "macsecd_endpoint=%d\n"
                          "macsecd_failed=%d\n"
                          "macsecd_keys_used=%u\n"
                          "macsecd_again_after_refusal=%u\n"
                          "macsecd_again_after_connection=%u\n"
                          "macsecd_again_without_key=%u\n",
                          drv->client.path, drv->client.fd >= 0, has_endpoint(drv), drv->failed, drv->keys.used,
                          drv->again[REFUSAL], drv->again[CONNECTION], drv->again[NO_KEY]);
    return os_snprintf_error(buflen, res) ? 0 : res;
}

const struct wpa_driver_ops wpa_driver_macsec_macsecd_ops = {
    .name = "macsec_macsecd",
    .desc = "MACsec in user space, by macsecd",
    .get_ssid = driver_wired_get_ssid,
    .get_bssid = driver_wired_get_bssid,
    .get_capa = driver_wired_get_capa,
    .init = macsecd_init,
    .deinit = macsecd_deinit,
    .set_param = macsecd_set_param,

    .macsec_init = macsecd_macsec_init,
    .macsec_deinit = macsecd_macsec_deinit,
    .macsec_get_capability = macsecd_get_capability,
    .enable_protect_frames = macsecd_enable_protect_frames,
    .enable_encrypt = macsecd_enable_encrypt,
    .set_replay_protect = macsecd_set_replay_protect,
    .set_current_cipher_suite = macsecd_set_current_cipher_suite,
    .enable_controlled_port = macsecd_enable_controlled_port,
    .get_receive_lowest_pn = macsecd_get_receive_lowest_pn,
    .set_receive_lowest_pn = macsecd_set_receive_lowest_pn,
    .get_transmit_next_pn = macsecd_get_transmit_next_pn,
    .create_receive_sc = macsecd_create_receive_sc,
    .delete_receive_sc = macsecd_delete_receive_sc,
    .create_receive_sa = macsecd_create_receive_sa,
    .delete_receive_sa = macsecd_delete_receive_sa,
    .enable_receive_sa = macsecd_enable_receive_sa,
    .disable_receive_sa = macsecd_disable_receive_sa,
    .create_transmit_sc = macsecd_create_transmit_sc,
    .delete_transmit_sc = macsecd_delete_transmit_sc,
    .create_transmit_sa = macsecd_create_transmit_sa,
    .delete_transmit_sa = macsecd_delete_transmit_sa,
    .enable_transmit_sa = macsecd_enable_transmit_sa,
    .disable_transmit_sa = macsecd_disable_transmit_sa,

    .status = macsecd_status,
};
