/* Waiting: for frames, requests, reports, signals and the clock. */
#include "device.h"
#include <signal.h>
#include <sys/epoll.h>
#include <sys/signalfd.h>
#include <sys/timerfd.h>

/* What an event is about. Clients are numbered from CLIENT on. */
enum { TAP, LINK, SIGNALS, CLOCK, RTNETLINK, LISTENER, JOURNAL, WORKERS, OVER, CLIENT };

enum { EVENTS = CLIENT + CLIENTS };

/* What handling an event gives beside an exit status: 0, and the loop goes on; or this, and macsecd ends with 0. */
enum { ENDS_WELL = -1 };

int loop_block_signals(struct device *d) {
    /* SIGXFSZ: else a journal above a limit ends macsecd, where a write can fail */
    static const int blocked[] = { SIGTERM, SIGINT, SIGHUP, SIGPIPE, SIGUSR1, SIGUSR2, SIGXFSZ };
    sigset_t set;
    sigemptyset(&set);
    for (size_t i = 0; i < sizeof blocked / sizeof *blocked; i++)
        sigaddset(&set, blocked[i]);
    if (sigprocmask(SIG_BLOCK, &set, NULL) != 0)
        return message_of_errno("signals");
    d->signals = signalfd(-1, &set, SFD_NONBLOCK | SFD_CLOEXEC);
    return d->signals < 0 ? message_of_errno("signals") : 0;
}

static int watch(const struct device *d, int operation, int file, uint32_t events, uint32_t about) {
    struct epoll_event event = { .events = events, .data.u32 = about };
    return epoll_ctl(d->events, operation, file, &event) == 0 ? 0 : message_of_errno("epoll");
}

static int open_clock(struct device *d) {
    const struct itimerspec second = { { 1, 0 }, { 1, 0 } };
    d->clock = timerfd_create(CLOCK_MONOTONIC, TFD_NONBLOCK | TFD_CLOEXEC);
    return d->clock >= 0 && timerfd_settime(d->clock, 0, &second, NULL) == 0 ? 0 : message_of_errno("timer");
}

int loop_open(struct device *d) {
    const int *const files[JOURNAL] = { &d->tap.file, &d->link.socket,      &d->signals,
                                        &d->clock,    &d->rtnetlink.socket, &d->control.listener };
    RETURN_IF_FAILED(open_clock(d));
    d->events = epoll_create1(EPOLL_CLOEXEC);
    if (d->events < 0)
        return message_of_errno("epoll");
    for (uint32_t i = 0; i < JOURNAL; i++)
        RETURN_IF_FAILED(watch(d, EPOLL_CTL_ADD, *files[i], EPOLLIN, i));
    RETURN_IF_FAILED(watch(d, EPOLL_CTL_ADD, d->numbers.writer.events, EPOLLIN, JOURNAL));
    if (d->over.socket >= 0)
        RETURN_IF_FAILED(watch(d, EPOLL_CTL_ADD, d->over.socket, EPOLLIN, OVER));
    return d->workers == NULL ? 0 : watch(d, EPOLL_CTL_ADD, workers_file(d->workers), EPOLLIN, WORKERS);
}

/* While frames wait for LINK, none is read from TAP, so that its queue fills and the client slows down. */
static int watch_ports(struct device *d, bool *blocked) {
    bool waits = d->link.waiting > 0;
    if (waits == *blocked)
        return 0;
    *blocked = waits;
    RETURN_IF_FAILED(watch(d, EPOLL_CTL_MOD, d->tap.file, waits ? 0 : EPOLLIN, TAP));
    return watch(d, EPOLL_CTL_MOD, d->link.socket, waits ? EPOLLIN | EPOLLOUT : EPOLLIN, LINK);
}

/* GONE can mean LINK or TAP. rtnetlink or the next event says which. */
static int end_of(struct device *d, enum outcome outcome) {
    return outcome == GONE && !rtnetlink_read(d) ? ENDS_FAILED : 0;
}

/* Nothing is printed here: rtnetlink reports what happened to LINK. The client's answer to a frame, as to an echo
 * request, is often there when the frame is delivered: it is read at once, without a wait between. */
static int on_link(struct device *d, uint32_t events) {
    uint64_t delivered = d->counts.tap_out;
    enum outcome outcome = (events & EPOLLOUT) != 0 ? link_flush(&d->link, &d->counts) : DONE;
    if (outcome != GONE && (events & ~(uint32_t)EPOLLOUT) != 0)
        outcome = frames_from_link(d);
    if (outcome == DONE && d->counts.tap_out != delivered && d->link.waiting == 0)
        outcome = frames_from_client(d);
    return end_of(d, outcome);
}

/* A TAP that is deleted has an error. */
static int on_tap(struct device *d, uint32_t events) {
    if ((events & (EPOLLERR | EPOLLHUP)) != 0) {
        message("TAP %s was deleted", d->tap.name);
        return ENDS_FAILED;
    }
    return end_of(d, frames_from_client(d));
}

static int on_signal(struct device *d) {
    struct signalfd_siginfo got;
    while (read(d->signals, &got, sizeof got) == (ssize_t)sizeof got)
        if (got.ssi_signo == SIGTERM || got.ssi_signo == SIGINT) {
            message("ends by %s", got.ssi_signo == SIGTERM ? "SIGTERM" : "SIGINT");
            return ENDS_WELL;
        }
    return 0; /* the others mean nothing here */
}

/* A connection that is held up would be reported without end. So the listener is not watched until the next second. */
static int watch_listener(struct device *d, uint32_t events) {
    return d->control.held_up ? watch(d, EPOLL_CTL_MOD, d->control.listener, events, LISTENER) : 0;
}

static int on_clock(struct device *d) {
    uint64_t times;
    if (read(d->clock, &times, sizeof times) != (ssize_t)sizeof times)
        return 0;
    d->history.seconds += times;
    numbers_tick(&d->numbers, d->endpoint);
    RETURN_IF_FAILED(end_of(d, held_frames_tick(d)));
    floods_say(d);
    link_count_lost(&d->link, &d->counts);
    floods_end(d);
    port_tick(d);
    service_notify(&d->service, "WATCHDOG=1");
    return rtnetlink_tick(d) ? watch_listener(d, EPOLLIN) : ENDS_FAILED;
}

static int watch_client(struct device *d, int index, int operation, uint32_t events) {
    return watch(d, operation, d->control.clients[index], events, CLIENT + (uint32_t)index);
}

/* While a client waits, its next request is not read. A connection that has ended needs no answer. */
static int on_client(struct device *d, int index, uint32_t events) {
    bool has_ended = (events & (EPOLLERR | EPOLLHUP)) != 0;
    if (d->control.clients[index] < 0 || (waits_for(d, index) && !has_ended))
        return 0;
    waits_client_gone(d, index);
    if (control_may_read(d, index, has_ended))
        (void)control_answer(d, index);
    return waits_for(d, index) ? watch_client(d, index, EPOLL_CTL_MOD, 0) : 0;
}

static int send_answers(struct device *d) {
    for (int i = 0; i < CLIENTS && d->waits.answers > 0; i++)
        if (waits_send(d, i))
            RETURN_IF_FAILED(watch_client(d, i, EPOLL_CTL_MOD, EPOLLIN));
    return 0;
}

static int on_listener(struct device *d) {
    int index = control_accept(d);
    if (index < 0)
        return watch_listener(d, 0);
    return watch_client(d, index, EPOLL_CTL_ADD, EPOLLIN);
}

/* What is no frame finds no job under way. */
static int on_event(struct device *d, const struct epoll_event *event) {
    if (event->data.u32 != TAP && event->data.u32 != LINK && event->data.u32 != WORKERS &&
        end_of(d, parallel_drain(d)) != 0)
        return ENDS_FAILED;
    switch (event->data.u32) {
    case TAP:
        return on_tap(d, event->events);
    case LINK:
        return on_link(d, event->events);
    case SIGNALS:
        return on_signal(d);
    case CLOCK:
        return on_clock(d);
    case RTNETLINK:
        return rtnetlink_read(d) ? 0 : ENDS_FAILED;
    case OVER:
        over_read(d);
        return 0;
    case LISTENER:
        return on_listener(d);
    case JOURNAL:
        numbers_go_on(&d->numbers, d->endpoint);
        return 0;
    case WORKERS:
        workers_read_event(d->workers);
        return 0; /* turn goes on with the frames after each event */
    default:
        return on_client(d, (int)(event->data.u32 - CLIENT), event->events);
    }
}

/* Is a part of what was read from TAP left, and does LINK take it? TAP has no event for it. */
static bool has_rest(const struct device *d) {
    return d->tap.rest.at < d->tap.rest.of.length && d->link.waiting == 0;
}

/* Waits for events. While frames are in rings, it does jobs if there are none, and finished frames end the wait. */
static int wait_for_events(struct device *d, struct epoll_event events[EVENTS]) {
    int count, left = has_rest(d) ? 0 : waits_left(d);
    if (workers_under_way(d->workers, SENDING) + workers_under_way(d->workers, RECEIVING) == 0)
        return epoll_wait(d->events, events, EVENTS, left);
    count = epoll_wait(d->events, events, EVENTS, 0);
    if (count != 0 || workers_help(d->workers))
        return count;
    count = epoll_wait(d->events, events, EVENTS, workers_sleep(d->workers, d->link.waiting == 0) ? left : 0);
    workers_woke(d->workers);
    return count;
}

static int turn(struct device *d, bool *blocked) {
    struct epoll_event events[EVENTS];
    int count = wait_for_events(d, events);
    if (count < 0 && errno != EINTR)
        return message_of_errno("epoll");
    for (int i = 0; i < count; i++)
        RETURN_IF_FAILED(on_event(d, &events[i]));
    RETURN_IF_FAILED(end_of(d, held_frames_give(d)));
    RETURN_IF_FAILED(end_of(d, parallel_go_on(d)));
    RETURN_IF_FAILED(end_of(d, parallel_flush(d)));
    if (has_rest(d))
        RETURN_IF_FAILED(end_of(d, frames_from_client(d)));
    RETURN_IF_FAILED(send_answers(d));
    return watch_ports(d, blocked);
}

int loop_run(struct device *d) {
    bool blocked = false;
    int result = 0;
    while (result == 0)
        result = turn(d, &blocked);
    return result == ENDS_WELL ? 0 : result;
}
