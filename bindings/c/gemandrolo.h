/* An ordered store of pairs (64-bit key, 64-bit value): a B-tree whose nodes are spread over up to eight servers, read by up to sixteen clients
 * through old copies, and changed by transactions that commit in two phases. docs/USING.md says how to embed it.
 *
 * All state lies in one piece of memory that the caller lends, in any alignment. No function keeps a pointer, allocates or blocks. Two calls
 * on one piece of memory must not overlap in time; calls on different pieces may. Pointers are not null, and those of one call lead to memory
 * that doesn't overlap. */
#ifndef GEMANDROLO_H
#define GEMANDROLO_H

#include <stddef.h>
#include <stdint.h>

#ifdef __cplusplus
extern "C" {
#endif

/* Sizes: each has its range. Servers are numbered 0 to 7 whatever the store is opened with: the memory has room for eight. Those below the size
 * are open at first, the others absent. */
enum {
    GEMANDROLO_MAX_SERVERS = 8,
    GEMANDROLO_MAX_SLOTS = 1024, /* on each server */
    GEMANDROLO_MAX_CLIENTS = 16
};

/* A list of pairs: an output of GEMANDROLO_MAX_PAIRS * GEMANDROLO_PAIR_BYTES bytes is enough for every one. */
enum {
    GEMANDROLO_MAX_PAIRS = 32, /* that one list can ask for */
    GEMANDROLO_PAIR_BYTES = 16 /* in the output: the key, then the value, each lowest byte first */
};

/* Kinds of a step. */
enum gemandrolo_kind {
    GEMANDROLO_BEGIN = 0,   /* a transaction starts */
    GEMANDROLO_GIVE = 1,    /* it is given an operation, which then waits: op, key, value, server */
    GEMANDROLO_WORK = 2,    /* the waiting operation gets on: it fetches one object, or is answered */
    GEMANDROLO_COMMIT = 3,  /* nothing more is asked; the participants are settled */
    GEMANDROLO_PREPARE = 4, /* a participant checks and locks: server. The last prepare is the decision */
    GEMANDROLO_APPLY = 5,   /* a participant writes and unlocks: server. The last apply ends the transaction */
    GEMANDROLO_GIVE_UP = 6, /* an undecided transaction is given up */
    GEMANDROLO_LOST = 7,    /* the client is lost, with its copies; what is decided is still applied */

    /* Changes of the servers: of a step's fields only `server` is used. None is taken while a transaction is prepared at a server, or decided and
     * not ended. */
    GEMANDROLO_ADD_SERVER = 8,    /* an absent server is added, and open from then on */
    GEMANDROLO_CLOSE_SERVER = 9,  /* an open one is closed to new nodes; not the last */
    GEMANDROLO_REMOVE_SERVER = 10 /* a closing one without a node is removed */
};

/* Operations that a give names. The answer's numbers a and b are given behind each; where nothing is said they are 0. */
enum gemandrolo_op {
    GEMANDROLO_INSERT = 1,   /* the key gets the value. a: 1 if the key was absent */
    GEMANDROLO_LOOKUP = 2,   /* a: 1 if the key is there; b: its value */
    GEMANDROLO_DELETE = 3,   /* a: 1 if the key was there */
    GEMANDROLO_NEXT = 4,     /* a: 1 if there is a key strictly above; b: the nearest */
    GEMANDROLO_PREVIOUS = 5, /* a: 1 if there is a key strictly below; b: the nearest */
    GEMANDROLO_MIGRATE = 6,  /* node `key` moves to `server`, an open one. a: 1 if it moved; b: its new name, or for an unmoved node 0 if free, 1 if
                                there already */
    GEMANDROLO_LIST = 7      /* the first `value` pairs (1 to 32) from the key upward, the key's own too. a: how many were written to the output;
                                they are fewer only where there are no more */
};

/* Outcomes of a step. Numbers a and b that are not named are 0. */
enum gemandrolo_outcome {
    GEMANDROLO_REFUSED = 0,   /* nothing was done and no byte changed, in memory or output. a: the refusal */
    GEMANDROLO_DONE = 1,      /* a begin, a give, a commit with a participant, a loss that aborts nothing, a change of the servers */
    GEMANDROLO_FETCHED = 2,   /* the operation still waits. a: what was fetched; b: the node's name or the vector's server */
    GEMANDROLO_ANSWERED = 3,  /* a, b: the operation's answer */
    GEMANDROLO_PREPARED = 4,  /* others are still due. a: the server */
    GEMANDROLO_DECIDED = 5,   /* the last prepare: it will be applied whatever happens */
    GEMANDROLO_APPLIED = 6,   /* others are still due. a: the server */
    GEMANDROLO_COMMITTED = 7, /* the transaction has ended, decided and applied everywhere */
    GEMANDROLO_ABORTED = 8    /* the transaction has ended and changed nothing. a: the reason */
};

/* What a work step fetched. */
enum gemandrolo_fetched {
    GEMANDROLO_FETCHED_METADATA = 0, /* the root's name, and which servers there are */
    GEMANDROLO_FETCHED_NODE = 1,     /* a node */
    GEMANDROLO_FETCHED_VECTOR = 2    /* a server's taken flags */
};

/* Refusals: the first that holds, in the order of this list. Opening checks 1 to 3 only. */
enum gemandrolo_refusal {
    GEMANDROLO_NO_HEAD = 1,           /* the lent memory is shorter than 64 bytes */
    GEMANDROLO_BAD_SIZES = 2,         /* a size, given or in the head, is outside its range */
    GEMANDROLO_TOO_SHORT = 3,         /* the memory is shorter than the sizes call for */
    GEMANDROLO_UNKNOWN_KIND = 4,      /* the kind is above 10 */
    GEMANDROLO_UNKNOWN_CLIENT = 5,    /* the client is not in the store; a change of the servers has none */
    GEMANDROLO_UNKNOWN_OPERATION = 6, /* a given op is not 1 to 7 */
    GEMANDROLO_BAD_COUNT = 11,        /* the count of a given list is not 1 to 32 */
    GEMANDROLO_UNKNOWN_SERVER = 7,    /* the server of a migrate, a prepare, an apply or a change of the servers is above 7 */
    GEMANDROLO_UNFIT_SERVER = 13,     /* the state of the server that would change doesn't fit, or the last open one would close */
    GEMANDROLO_SLOT_TAKEN = 14,       /* the server that would be removed has a slot that is taken */
    GEMANDROLO_LAST_METADATA = 15,    /* the servers would change, and the metadata's version is 4,294,967,295 */
    GEMANDROLO_UNKNOWN_NODE = 8,      /* a migrated node's name has a server above 7 or a slot that is not there */
    GEMANDROLO_UNFIT = 9,             /* the client's state doesn't fit; or the servers would change while a transaction is prepared at one of them,
                                         or decided and not ended */
    GEMANDROLO_SHORT_OUTPUT = 12,     /* a list waits, and the output is shorter than 16 times its count: at each of its work steps */
    GEMANDROLO_DAMAGED = 10           /* something stored that the step reads is out of range or points to what isn't there */
};

/* Reasons of an abort. The first three may pass when the transaction is run again. */
enum gemandrolo_reason {
    GEMANDROLO_DIFFERS = 1,     /* a checked object differs, or a slot taken as free isn't, or the server that is asked is absent */
    GEMANDROLO_BUSY = 2,        /* an object is locked against this use by another client */
    GEMANDROLO_NO_TREE = 3,     /* what was read can't be one tree */
    GEMANDROLO_TOO_MANY = 4,    /* object 97 would be read or 49 written */
    GEMANDROLO_NO_SLOT = 5,     /* no slot is free, or a node would move to a server that isn't open */
    GEMANDROLO_GIVEN_UP = 6,    /* given up */
    GEMANDROLO_CLIENT_LOST = 7, /* lost, and undecided */
    GEMANDROLO_LAST_VERSION = 8 /* a written version is 4,294,967,295 */
};

/* The bytes that these sizes call for, or 0 where one is outside its range. They are the same for any number of servers. */
size_t gemandrolo_length(size_t servers, size_t slots, size_t clients);

/* A new, empty store in the memory lent: 0, or the refusal (1 to 3). Bytes behind the store's length stay as they are. */
uint64_t gemandrolo_open(uint8_t *mem, size_t bytes, size_t servers, size_t slots, size_t clients);

/* One step: its outcome; a and b are written in every case. Fields that a kind doesn't use are not looked at.
 *
 * `out` is the output, of `out_bytes` bytes, for the pairs of a list. The work step that answers a list writes a * 16 bytes from its start on; no
 * other byte changes, and none at any other step. Only work steps of a list need one: for all others 0 bytes are enough. It may be any pointer
 * then that is not null, `mem` too: it is not followed. */
uint64_t gemandrolo_step(uint8_t *mem, size_t bytes, uint8_t *out, size_t out_bytes, uint64_t kind, uint64_t client, uint64_t op, uint64_t key,
                         uint64_t value, uint64_t server, uint64_t *a, uint64_t *b);

/* A step as one record, to run some of them. */
struct gemandrolo_record {
    uint64_t kind, client, op, key, value, server;
};

/* Some steps, run front to back; outcome, a and b of each go into `outcomes`, three words each, as far as it has room. All are lent the same
 * output, so of each of its bytes the last list that wrote there is kept. */
void gemandrolo_run(uint8_t *mem, size_t bytes, uint8_t *out, size_t out_bytes, const struct gemandrolo_record *steps, size_t count,
                    uint64_t *outcomes, size_t words);

#ifdef __cplusplus
}
#endif

#endif
