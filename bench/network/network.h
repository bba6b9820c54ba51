/* The parts of the plain C network: see network.c. */
#include <stdbool.h>
#include <stddef.h>
#include <stdint.h>

enum { MOST_PLACES = 32, MOST_LINKS = 128, PAGE_BYTES = 4096, PACKET_BYTES = 32, ROW_BYTES = 32, NAME_BYTES = 17 };
enum { WINDOW_SLOTS = 64, PUBLISHED_AT_ONCE = 8 };
enum { CLOSE = 0, READ = 1, READ_ANSWER = 2, WRITE = 3, WRITE_ANSWER = 4, POSTED = 5, ATOMIC = 9 };
enum { ADD = 0, SWAP = 8 };
/* a host has 2^40 addresses for its answers, each of its transactions 2^11 of them */
enum { HOST_BITS = 40, TRANSACTION_BITS = 11 };

/* a packet, or the Close of a ring */
typedef struct {
    uint8_t opcode, size, host, atomic;
    bool last;
    uint16_t words;
    uint64_t destination, source;
    uint8_t body[PACKET_BYTES];
} Item;

typedef struct {
    /* what was published, and what was sent: the sending end publishes up to eight items at once */
    _Alignas(64) _Atomic uint64_t tail;
    uint64_t sent;
    _Alignas(64) _Atomic uint64_t head;
    uint64_t capacity;
    Item *slots;
} Ring;

/* where a node sends: the item that is ready, what is to be cut behind it, and the one that is held to be joined with the next */
typedef struct {
    Ring *ring;
    uint32_t width;
    bool is_ready, is_cutting, is_holding, closing, closed;
    Item ready, rest, held;
} Port;

typedef struct {
    Ring *ring;
    bool ended, is_holding;
    Item held;
} Inlet;

typedef struct {
    int inlet_count, port_count;
    Inlet inlets[MOST_LINKS];
    Port ports[MOST_LINKS];
    /* by a host's id and a device: the port to which its packets go */
    uint8_t routes[MOST_PLACES][MOST_PLACES];
} Lane;

typedef struct {
    Lane requests, answers;
} Router;

typedef struct {
    uint8_t opcode, size, atomic;
    uint16_t words, missing;
    uint64_t address;
    uint8_t *body, *answer;
} Transaction;

typedef struct {
    char name[NAME_BYTES];
    uint8_t id;
    uint32_t count, next, next_word;
    Transaction *transactions;
    /* the answered transactions that began, and which of them took each slot last */
    uint32_t answered, slots[WINDOW_SLOTS];
    Port requests;
    Inlet answers;
} Host;

typedef struct {
    char name[NAME_BYTES];
    uint64_t base, bytes;
    uint8_t *memory;
    Item *journal;
    size_t served;
    Inlet requests;
    Port answers;
} Device;

/* the nodes that a link joins are numbered over all: hosts, routers, devices */
typedef struct {
    int from, to, request_port, answer_port;
    Ring requests, answers;
} Link;

extern int host_count, router_count, device_count, link_count;
extern Host hosts[MOST_PLACES];
extern Router routers[MOST_PLACES];
extern Device devices[MOST_PLACES];
extern Link links[MOST_LINKS];

static inline uint32_t bytes_of(const Item *item) { return (uint32_t)item->words << item->size; }

static inline bool is_answer(const Item *item) { return item->opcode == READ_ANSWER || item->opcode == WRITE_ANSWER; }

static inline bool carries_bytes(const Item *item) { return item->opcode != READ && item->opcode != WRITE_ANSWER; }

/* says why, and ends the program */
_Noreturn void fail(const char *why);
void read_network(void);
void print_report(bool with_history);
void print_counts(uint64_t rounds);
