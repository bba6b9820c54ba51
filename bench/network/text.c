/* How the plain C network is read from a text, and its report is printed: see network.c. */
#define _POSIX_C_SOURCE 200809L
#include "network.h"
#include <stdio.h>
#include <stdlib.h>
#include <string.h>

static char *cursor;
static size_t words_of_scripts;
/* by router and device: the link that leads on, or -1 */
static int ways[MOST_PLACES][MOST_PLACES];

static void *zeros(size_t bytes) {
    void *made = calloc(bytes ? bytes : 1, 1);
    if (made == NULL)
        fail("too little memory");
    return made;
}

static char *text_of_input(void) {
    char *text = NULL;
    size_t room = 0;
    if (getdelim(&text, &room, 0, stdin) < 0)
        fail("there is no network to read");
    return text;
}

static uint64_t number(void) { return strtoull(cursor, &cursor, 0); }

static char *word(void) {
    cursor += strspn(cursor, " \n");
    char *start = cursor;
    cursor += strcspn(cursor, " \n");
    *cursor++ = 0;
    return start;
}

static uint8_t digit(char letter) { return (uint8_t)(letter <= '9' ? letter - '0' : letter - 'a' + 10); }

static void read_body(Transaction *asked) {
    const char *digits = word();
    size_t bytes = strlen(digits) / 2;
    asked->words = (uint16_t)(bytes >> asked->size);
    asked->body = zeros(bytes);
    for (size_t at = 0; at < bytes; at++)
        asked->body[at] = (uint8_t)(digit(digits[2 * at]) << 4 | digit(digits[2 * at + 1]));
}

/* a transaction as a script has it */
static void read_transaction(Transaction *asked) {
    const char *verb = word();
    asked->opcode = strcmp(verb, "rd") == 0 ? READ : strcmp(verb, "wr") == 0 ? WRITE : strcmp(verb, "wp") == 0 ? POSTED : ATOMIC;
    asked->atomic = strcmp(verb, "swap") == 0 ? SWAP : ADD;
    asked->address = number();
    asked->size = (uint8_t)number();
    if (asked->opcode == READ)
        asked->words = (uint16_t)number();
    else
        read_body(asked);
    words_of_scripts += asked->words;
    asked->missing = asked->opcode == POSTED ? 0 : asked->words;
    if (asked->opcode == READ || asked->opcode == ATOMIC)
        asked->answer = zeros((size_t)asked->words << asked->size);
}

static void read_host(Host *host) {
    strcpy(host->name, word());
    host->id = (uint8_t)number();
    host->count = (uint32_t)number();
    host->transactions = zeros(host->count * sizeof *host->transactions);
    for (uint32_t at = 0; at < host->count; at++)
        read_transaction(&host->transactions[at]);
}

static void read_device(Device *device) {
    strcpy(device->name, word());
    device->base = number();
    device->bytes = number() * PAGE_BYTES;
    device->memory = zeros(device->bytes);
    device->journal = zeros(words_of_scripts * sizeof(Item));
}

static Router *router_at(int node) { return &routers[node - host_count]; }

static int add_port(Lane *lane, Port port) {
    lane->ports[lane->port_count] = port;
    return lane->port_count++;
}

static void add_inlet(Lane *lane, Ring *ring) { lane->inlets[lane->inlet_count++] = (Inlet){.ring = ring}; }

/* gives a link's ends to the two nodes that it joins */
static void join_nodes(Link *link, uint32_t width) {
    Port requests = {.ring = &link->requests, .width = width}, answers = {.ring = &link->answers, .width = width};
    if (link->from < host_count) {
        hosts[link->from].requests = requests;
        hosts[link->from].answers.ring = &link->answers;
    } else {
        link->request_port = add_port(&router_at(link->from)->requests, requests);
        add_inlet(&router_at(link->from)->answers, &link->answers);
    }
    if (link->to >= host_count + router_count) {
        devices[link->to - host_count - router_count].requests.ring = &link->requests;
        devices[link->to - host_count - router_count].answers = answers;
    } else {
        link->answer_port = add_port(&router_at(link->to)->answers, answers);
        add_inlet(&router_at(link->to)->requests, &link->requests);
    }
}

static void read_link(Link *link) {
    link->from = (int)number();
    link->to = (int)number();
    uint32_t width = (uint32_t)number();
    link->requests.capacity = link->answers.capacity = number();
    link->requests.slots = zeros(link->requests.capacity * sizeof(Item));
    link->answers.slots = zeros(link->answers.capacity * sizeof(Item));
    join_nodes(link, width);
}

/* tells each router on the way from a host's link to a device where the packets of the two go */
static void lay_way(int first, uint8_t host_id, int device) {
    for (int link = first, next; links[link].to < host_count + router_count; link = next) {
        next = ways[links[link].to - host_count][device];
        if (next < 0)
            return;
        router_at(links[link].to)->requests.routes[host_id][device] = (uint8_t)links[next].request_port;
        router_at(links[link].to)->answers.routes[host_id][device] = (uint8_t)links[link].answer_port;
    }
}

static void lay_ways(void) {
    for (int link = 0; link < link_count; link++)
        for (int device = 0; device < device_count && links[link].from < host_count; device++)
            lay_way(link, hosts[links[link].from].id, device);
}

void read_network(void) {
    cursor = text_of_input();
    host_count = (int)number();
    router_count = (int)number();
    device_count = (int)number();
    link_count = (int)number();
    for (int at = 0; at < host_count; at++)
        read_host(&hosts[at]);
    for (int at = 0; at < device_count; at++)
        read_device(&devices[at]);
    for (int at = 0; at < link_count; at++)
        read_link(&links[at]);
    for (int router = 0; router < router_count; router++)
        for (int device = 0; device < device_count; device++)
            ways[router][device] = (int)number() - 1;
    lay_ways();
}

/* Printing */

static char output[1 << 16];
static size_t used;

static void write_output(void) {
    if (fwrite(output, 1, used, stdout) != used)
        fail("the output can't be written");
    used = 0;
}

static void put(char letter) {
    if (used == sizeof output)
        write_output();
    output[used++] = letter;
}

static void put_text(const char *text) {
    while (*text)
        put(*text++);
}

static void put_decimal(uint64_t value) {
    if (value >= 10)
        put_decimal(value / 10);
    put((char)('0' + value % 10));
}

static void put_hex(uint64_t value, int digits) {
    while (digits-- > 0)
        put("0123456789abcdef"[value >> 4 * digits & 15]);
}

/* the bytes, or a dash for none, and the end of the line */
static void put_bytes(const uint8_t *bytes, size_t count) {
    for (size_t at = 0; at < count; at++)
        put_hex(bytes[at], 2);
    put_text(count ? "\n" : "-\n");
}

/* the first words of a line */
static void put_words(const char *first, const char *second, uint64_t third, char last) {
    put_text(first);
    put_text(second);
    put(' ');
    put_decimal(third);
    put(last);
}

static void print_host(const Host *host) {
    put_words("host ", host->name, host->count, '\n');
    for (uint32_t at = 0; at < host->count; at++) {
        const Transaction *asked = &host->transactions[at];
        if (asked->missing)
            fail("a word was never answered");
        put_words("t", "", at, ' ');
        put_text(asked->opcode == POSTED ? "posted " : "ok ");
        put_bytes(asked->answer, asked->answer == NULL ? 0 : (size_t)asked->words << asked->size);
    }
}

static void print_device(const Device *device) {
    static const uint8_t none[ROW_BYTES];
    put_words("device ", device->name, device->bytes / PAGE_BYTES, '\n');
    for (uint64_t at = 0; at < device->bytes; at += ROW_BYTES)
        if (memcmp(device->memory + at, none, ROW_BYTES) != 0) {
            put_text("m ");
            put_hex(at, 5);
            put(' ');
            put_bytes(device->memory + at, ROW_BYTES);
        }
}

static uint32_t command_of(const Item *request) {
    uint32_t length = request->opcode == ATOMIC ? request->atomic : request->words - 1u;
    return request->opcode | (uint32_t)request->size << 5 | length << 8 | (uint32_t)request->last << 22 | (uint32_t)request->host << 27;
}

static void print_entry(const Device *device, const Item *request) {
    put_text("e 0 ");
    put_text(device->name);
    put(' ');
    put_hex(command_of(request), 8);
    put(' ');
    put_hex(request->destination, 14);
    put(' ');
    put_hex(request->source, 14);
    put(' ');
    put_bytes(request->body, carries_bytes(request) ? bytes_of(request) : 0);
}

static size_t served_requests(void) {
    size_t served = 0;
    for (int at = 0; at < device_count; at++)
        served += devices[at].served;
    return served;
}

/* all rounds are one to a history, as they are to `run`, so that its entries stand device by device */
static void print_history(void) {
    put_words("history", "", served_requests(), '\n');
    for (int at = 0; at < device_count; at++)
        for (size_t entry = 0; entry < devices[at].served; entry++)
            print_entry(&devices[at], &devices[at].journal[entry]);
}

void print_report(bool with_history) {
    put_text("sb 1\n");
    if (with_history)
        print_history();
    for (int at = 0; at < host_count; at++)
        print_host(&hosts[at]);
    for (int at = 0; at < device_count; at++)
        print_device(&devices[at]);
    put_text("end\n");
    write_output();
}

void print_counts(uint64_t rounds) {
    uint64_t crossings = 0;
    for (int at = 0; at < link_count; at++)
        crossings += links[at].requests.tail + links[at].answers.tail;
    put_words("rounds", "", rounds, ' ');
    put_words("requests", "", served_requests(), ' ');
    put_words("items", "", crossings, '\n');
    write_output();
}
