/* A plain C program that does the work of `sb run --workers 1` on the network of `bench/make_bundle gen N`, so that the figures of
 * bench/measure_network say what the proved form costs. Hosts, routers and devices take turns on one thread, in rounds, until
 * nothing moves. Each link has a ring for requests and one for answers, whose head and tail are sequentially consistent. Ports
 * do both: they cut packets to the width of their link, and join those that go on where the one before ended, and publish
 * up to eight items at once. A host has at most 64 answered transactions under way. In a turn a node takes at most one item of each
 * ring and sends at most one by each port, in the order in which the product's nodes do; with -DBATCH=8 it takes up to eight such
 * turns in a row, while it moves.
 *
 *     network [history | counts | nothing] <FILE
 *
 * reads the network as bench/measure_network writes it, runs it, and prints the report that `run` prints; with its history; or in
 * its place the counts of rounds, of served requests, and of items that went over links. With `nothing` it only reads.
 *
 * It leaves out: contracts and their proofs; all checks of what it reads, and of the packets that it passes on; the words of an
 * answer that were answered before; why a node is idle; orders of turns and threads; giving memory back; and what the generator
 * doesn't make: two sides, QOS and PROT, EX, read-only devices and images, addresses of no device, comments in scripts, and all
 * atomics but ADD and SWAP. Numbers stand in its memory with their lowest byte first, so it wants such a processor. */
#include "network.h"
#include <stdatomic.h>
#include <stdio.h>
#include <stdlib.h>
#include <string.h>

#ifndef BATCH
#define BATCH 1
#endif

int host_count, router_count, device_count, link_count;
Host hosts[MOST_PLACES];
Router routers[MOST_PLACES];
Device devices[MOST_PLACES];
Link links[MOST_LINKS];

void fail(const char *why) {
    fprintf(stderr, "network: %s\n", why);
    exit(1);
}

/* Packets */

/* so many words of a packet, from one on */
static Item part_of(const Item *whole, uint32_t from, uint32_t words, bool last) {
    Item part = *whole;
    uint32_t start = from << whole->size;
    part.words = (uint16_t)words;
    part.last = last;
    part.destination += start;
    part.source += start;
    memset(part.body, 0, PACKET_BYTES);
    if (carries_bytes(whole))
        memcpy(part.body, whole->body + start, bytes_of(&part));
    return part;
}

static bool are_mergeable(const Item *first, const Item *second, uint32_t width) {
    uint32_t bytes = bytes_of(first);
    return !first->last && first->opcode == second->opcode && first->size == second->size && first->host == second->host &&
           second->destination == first->destination + bytes && second->source == first->source + bytes &&
           first->opcode != ATOMIC && bytes + bytes_of(second) <= width;
}

static void merge(Item *first, const Item *second) {
    if (carries_bytes(first))
        memcpy(first->body + bytes_of(first), second->body, bytes_of(second));
    first->words += second->words;
    first->last = second->last;
}

/* Rings */

static void publish(Ring *ring) {
    if (ring->sent != ring->tail)
        atomic_store(&ring->tail, ring->sent);
}

static bool push(Ring *ring, const Item *item) {
    if (ring->sent - atomic_load(&ring->head) == ring->capacity) {
        publish(ring);
        return false;
    }
    ring->slots[ring->sent % ring->capacity] = *item;
    ring->sent++;
    uint64_t unpublished = ring->sent - ring->tail;
    if (item->opcode == CLOSE || unpublished == ring->capacity || unpublished == PUBLISHED_AT_ONCE)
        publish(ring);
    return true;
}

static bool pop(Ring *ring, Item *item) {
    uint64_t received = atomic_load(&ring->head);
    if (received == atomic_load(&ring->tail))
        return false;
    *item = ring->slots[received % ring->capacity];
    atomic_store(&ring->head, received + 1);
    return true;
}

/* Ports */

/* the port can be offered a packet */
static bool is_free(const Port *port) { return !port->is_ready && (!port->closing || port->closed); }

/* joins a part with the one that is held, or holds it and makes that one ready */
static void join(Port *port, const Item *part) {
    if (!port->is_holding) {
        port->held = *part;
        port->is_holding = true;
    } else if (are_mergeable(&port->held, part, port->width)) {
        merge(&port->held, part);
    } else {
        port->ready = port->held;
        port->is_ready = true;
        port->held = *part;
    }
}

/* cuts until a packet is ready, or nothing is left to cut */
static void cut(Port *port) {
    while (port->is_cutting && !port->is_ready) {
        uint32_t words = port->rest.words, fitting = port->width >> port->rest.size;
        port->is_cutting = fitting < words;
        if (!port->is_cutting) {
            join(port, &port->rest);
            return;
        }
        Item part = part_of(&port->rest, 0, fitting, false);
        port->rest = part_of(&port->rest, fitting, words - fitting, port->rest.last);
        join(port, &part);
    }
}

static void offer(Port *port, const Item *packet) {
    if (bytes_of(packet) <= port->width) {
        join(port, packet);
    } else {
        port->rest = *packet;
        port->is_cutting = true;
        cut(port);
    }
}

static bool send_ready(Port *port) {
    if (!push(port->ring, &port->ready))
        return false;
    port->is_ready = false;
    cut(port);
    return true;
}

static bool send_close(Port *port) {
    static const Item close = {.opcode = CLOSE};
    if (port->closing && !port->closed)
        return port->closed = push(port->ring, &close);
    publish(port->ring);
    return false;
}

/* sends at most one item, and lets go what is held where no more is to be expected; where it does nothing it publishes all that it
 * sent; says whether it did something */
static bool turn_port(Port *port, bool more) {
    if (port->is_ready)
        return send_ready(port);
    if (more && !port->closing) {
        publish(port->ring);
        return false;
    }
    if (port->is_holding) {
        port->ready = port->held;
        port->is_ready = true;
        port->is_holding = false;
        send_ready(port);
        return true;
    }
    return send_close(port);
}

/* Hosts */

/* the next packet of a script */
static Item issue(Host *host) {
    const Transaction *asked = &host->transactions[host->next];
    uint32_t left = asked->words - host->next_word, fitting = PACKET_BYTES >> asked->size;
    uint32_t words = left < fitting ? left : fitting, start = host->next_word << asked->size;
    Item packet = {.opcode = asked->opcode, .size = asked->size, .host = host->id, .atomic = asked->atomic};
    packet.words = (uint16_t)words;
    packet.last = words == left;
    packet.destination = asked->address + start;
    packet.source = ((uint64_t)host->id << HOST_BITS) + ((uint64_t)host->next << TRANSACTION_BITS) + start;
    if (asked->opcode != READ)
        memcpy(packet.body, asked->body + start, bytes_of(&packet));
    if (start == 0 && asked->opcode != POSTED)
        host->slots[host->answered++ % WINDOW_SLOTS] = host->next;
    host->next_word += words;
    if (packet.last) {
        host->next++;
        host->next_word = 0;
    }
    return packet;
}

static void take_answer(Host *host, const Item *answer) {
    uint64_t from = answer->destination - ((uint64_t)host->id << HOST_BITS);
    Transaction *asked = &host->transactions[from >> TRANSACTION_BITS];
    asked->missing -= answer->words;
    if (carries_bytes(answer))
        memcpy(asked->answer + from % (1 << TRANSACTION_BITS), answer->body, bytes_of(answer));
}

static bool receive(Host *host) {
    Item item;
    if (!pop(host->answers.ring, &item))
        return false;
    if (item.opcode == CLOSE)
        host->answers.ended = true;
    else
        take_answer(host, &item);
    return true;
}

/* the next transaction is answered, and the one that took its slot before misses an answer */
static bool waits_for_slot(const Host *host) {
    bool takes_slot = host->next_word == 0 && host->transactions[host->next].opcode != POSTED;
    if (!takes_slot || host->answered < WINDOW_SLOTS)
        return false;
    return host->transactions[host->slots[host->answered % WINDOW_SLOTS]].missing > 0;
}

static bool issue_next(Host *host) {
    bool offers = host->next < host->count && is_free(&host->requests) && !waits_for_slot(host);
    if (offers) {
        Item packet = issue(host);
        offer(&host->requests, &packet);
    }
    if (host->next == host->count)
        host->requests.closing = true;
    return offers;
}

static bool turn_host(Host *host) {
    bool moved = receive(host);
    moved |= issue_next(host);
    return moved | turn_port(&host->requests, moved);
}

/* Routers */

static int device_at(uint64_t address) {
    for (int at = 0; at < device_count; at++)
        if (address >= devices[at].base && address - devices[at].base < devices[at].bytes)
            return at;
    fail("no device has the address");
}

static Port *port_for(Lane *lane, const Item *packet) {
    int device = device_at(is_answer(packet) ? packet->source : packet->destination);
    return &lane->ports[lane->routes[packet->host][device]];
}

static bool pop_inlet(Inlet *inlet) {
    if (inlet->ended || inlet->is_holding || !pop(inlet->ring, &inlet->held))
        return false;
    if (inlet->held.opcode == CLOSE)
        inlet->ended = true;
    else
        inlet->is_holding = true;
    return true;
}

static bool hand_on(Lane *lane, Inlet *inlet) {
    if (!inlet->is_holding)
        return false;
    Port *port = port_for(lane, &inlet->held);
    if (!is_free(port))
        return false;
    offer(port, &inlet->held);
    inlet->is_holding = false;
    return true;
}

/* nothing more comes, and nothing is held */
static bool is_silent(const Lane *lane) {
    for (int at = 0; at < lane->inlet_count; at++)
        if (!lane->inlets[at].ended || lane->inlets[at].is_holding)
            return false;
    return true;
}

static bool turn_ports(Lane *lane, bool more) {
    bool moved = false, closing = is_silent(lane);
    for (int at = 0; at < lane->port_count; at++) {
        lane->ports[at].closing |= closing;
        moved |= turn_port(&lane->ports[at], more);
    }
    return moved;
}

static bool turn_lane(Lane *lane) {
    bool moved = false;
    for (int at = 0; at < lane->inlet_count; at++)
        moved |= pop_inlet(&lane->inlets[at]);
    for (int at = 0; at < lane->inlet_count; at++)
        moved |= hand_on(lane, &lane->inlets[at]);
    return moved | turn_ports(lane, moved);
}

static bool turn_router(Router *router) {
    bool moved = turn_lane(&router->requests);
    return moved | turn_lane(&router->answers);
}

/* Devices */

static void combine(uint8_t *word, const Item *request) {
    uint64_t old = 0, given = 0;
    uint32_t bytes = bytes_of(request);
    memcpy(&old, word, bytes);
    memcpy(&given, request->body, bytes);
    uint64_t made = request->atomic == ADD ? old + given : given;
    memcpy(word, &made, bytes);
}

/* serves a request, and makes its answer */
static Item serve(Device *device, const Item *request) {
    uint8_t *place = device->memory + (request->destination - device->base);
    Item answer = *request;
    answer.opcode = request->opcode == WRITE ? WRITE_ANSWER : READ_ANSWER;
    answer.destination = request->source;
    answer.source = request->destination;
    memset(answer.body, 0, PACKET_BYTES);
    if (carries_bytes(&answer))
        memcpy(answer.body, place, bytes_of(request));
    if (request->opcode == ATOMIC)
        combine(place, request);
    else if (request->opcode != READ)
        memcpy(place, request->body, bytes_of(request));
    return answer;
}

static bool serve_next(Device *device) {
    Item item;
    if (!is_free(&device->answers) || !pop(device->requests.ring, &item))
        return false;
    if (item.opcode == CLOSE) {
        device->answers.closing = true;
        return true;
    }
    device->journal[device->served++] = item;
    Item answer = serve(device, &item);
    if (item.opcode != POSTED)
        offer(&device->answers, &answer);
    return true;
}

static bool turn_device(Device *device) {
    bool moved = serve_next(device);
    return moved | turn_port(&device->answers, moved);
}

/* Runs */

static bool turn_node(int node) {
    if (node < host_count)
        return turn_host(&hosts[node]);
    node -= host_count;
    return node < router_count ? turn_router(&routers[node]) : turn_device(&devices[node - router_count]);
}

static bool turn_each(void) {
    bool moved = false;
    for (int node = 0; node < host_count + router_count + device_count; node++)
        for (int turn = 0; turn < BATCH && turn_node(node); turn++)
            moved = true;
    return moved;
}

/* turns all nodes until nothing moves, and gives the number of rounds in which something did */
static uint64_t run(void) {
    uint64_t rounds = 0;
    while (turn_each())
        rounds++;
    for (int at = 0; at < host_count; at++)
        if (!hosts[at].answers.ended)
            fail("a host never got the end of its answers");
    return rounds;
}

int main(int count, char **given) {
    const char *wanted = count == 2 ? given[1] : "report";
    read_network();
    if (strcmp(wanted, "nothing") == 0)
        return 0;
    uint64_t rounds = run();
    if (strcmp(wanted, "counts") == 0)
        print_counts(rounds);
    else
        print_report(strcmp(wanted, "history") == 0);
    return 0;
}
