/* lockrun.h: sessions of the lock service, for C and C++.
 *
 * tests/gate/exports.py compares this file with the exports of crates/lt_live_c. What a C compiler can't see is a duty of the
 * caller, and nothing checks it:
 * - A handle that isn't in use is {0}: with one each call answers LOCKRUN_WRONG_HANDLE, or 0, and does nothing, lockrun_free
 *   too. The last argument of lockrun_open, lockrun_open_sets, lockrun_open_keys, lockrun_take_station, lockrun_take_session,
 *   lockrun_finish, lockrun_node_open and lockrun_node_finish is written over where the call answers LOCKRUN_OK, so it is to be {0}: what it
 *   stood for would never be freed. Any other handle is {0} or one that a call gave.
 * - Two arguments of a call are never the same handle, and no two copies of a handle are in use. It is in one call at a
 *   time. It may go from thread to thread if the calls are ordered: by a mutex, pthread_create or pthread_join, or a
 *   sequentially consistent atomic. Two sessions, or a session and its station, may be in calls at the same time.
 * - lockrun_finish wants a service that has all stations in the order of nodes, and all sessions in the order of clients,
 *   which were opened by one call. lockrun_served wants them so if there are as many as all.
 * - All nodes of a service that are opened by lockrun_node_open are opened with the same text and the same key, each number
 *   in one process, and only they have the key. What lockrun_send gave for a node is carried to that node alone; it may come
 *   late, in pieces, damaged, repeated, in another order or never. A node that has ended is opened again only with a new
 *   start, and then all others too.
 * - No call comes from a signal handler, nor from the forked child of a process with threads.
 * - malloc, realloc and free are those of one allocator.
 */
#ifndef LOCKRUN_H
#define LOCKRUN_H
#include <stddef.h>
#include <stdint.h>
#ifdef __cplusplus
extern "C" {
#endif

typedef struct { void *at; } lockrun_handle;
typedef lockrun_handle lockrun_service;
typedef lockrun_handle lockrun_station;
typedef lockrun_handle lockrun_session;
typedef lockrun_handle lockrun_journal;
typedef lockrun_handle lockrun_remote; /* a node whose other nodes lie in other processes */

enum lockrun_mode {
    LOCKRUN_INTENTION_READ,
    LOCKRUN_READ,
    LOCKRUN_UPGRADE,
    LOCKRUN_INTENTION_WRITE,
    LOCKRUN_READ_INTENTION_WRITE, /* of a script of version 2 or 3 alone */
    LOCKRUN_WRITE
};

enum lockrun_kind {
    LOCKRUN_LOCK,
    LOCKRUN_TRY,
    LOCKRUN_UNLOCK,
    LOCKRUN_CHANGE,
    LOCKRUN_DROP,
    LOCKRUN_WITHDRAW /* of a script of version 3 alone */
};

enum lockrun_code {
    LOCKRUN_OK,
    LOCKRUN_NOTHING,      /* no station or session is left; no move was made; no reply is known; no set has this name;
                             one is still out; no letter waits for the node */
    LOCKRUN_WRONG_HANDLE, /* it stands for something else, or for nothing; nothing happened */
    LOCKRUN_NO_MEMORY,
    LOCKRUN_BAD_ARGUMENT, /* a number out of range, or a command that names what the script doesn't have */
    LOCKRUN_BAD_SCRIPT,
    LOCKRUN_SPENT,        /* the session's share of commands is used up: 2^59 by the number of clients */
    LOCKRUN_FULL,         /* the ring has no place now: try again later; the buffer has no room for a frame */
    LOCKRUN_LOG_FULL,     /* the node made as many moves as it may */
    LOCKRUN_FORGOTTEN,    /* a station has forgotten moves or commands */
    LOCKRUN_TOO_MANY,     /* more than 4,096 commands or 8 sets: no text of a script has as many; more than 65,536 sets; more
                             than 1,048,576 bytes */
    LOCKRUN_BAD_SET,      /* a further set has no new name, or its parent is no set before it */
    /* Why a frame was not received. */
    LOCKRUN_OTHER_VERSION = 40, /* it is of another version of the format */
    LOCKRUN_OTHER_SERVICE,      /* it is of another service: of another text, or of another start */
    LOCKRUN_OTHER_NODE,         /* another node gave it out, or it is for another node */
    LOCKRUN_MISSING,            /* frames before it are missing */
    LOCKRUN_AGAIN,              /* it was received before */
    LOCKRUN_TOO_LONG,           /* its letter has more bytes than a letter may have: 16,777,216 */
    LOCKRUN_BAD_SEAL,           /* it was damaged, or made by one who doesn't have the key */
    LOCKRUN_NO_LETTER,          /* its seal is right, and what it has is no letter */
    LOCKRUN_MISFIT              /* a letter that was received before fits no node that was opened with this text */
};

enum lockrun_reply {
    LOCKRUN_GRANTED = 16,
    LOCKRUN_TRUE,
    LOCKRUN_FALSE,
    LOCKRUN_UNLOCKED,
    LOCKRUN_NOT_HELD,
    LOCKRUN_CHANGED,
    LOCKRUN_DROPPED,
    LOCKRUN_BUSY,
    LOCKRUN_WITHDRAWN, /* of a lock or a change: it was given up; the client holds what it held */
    LOCKRUN_WITHHELD   /* of a lock or a change: what the client gave up in this set still stands: ask again later */
};

/* Opens the script's nodes, sets and clients; its commands are left out. Each node makes at most `limit` moves, which is at
 * most 2^55, and a session's rings have `places` places, at most 4,096. */
uint32_t lockrun_open(const uint8_t *text, size_t length, uint64_t limit, uint32_t places, lockrun_service *service);

/* A further set: its name, and that of its parent, which is a set before it. A parent of no bytes is none, and no pointer is
 * null even then. */
typedef struct {
    const uint8_t *name;
    size_t length;
    const uint8_t *parent;
    size_t parent_length;
} lockrun_new_set;

/* The same with `count` further sets behind those of the text, at most 65,536 with these. If they are more than 8 the service
 * has no journal. */
uint32_t lockrun_open_sets(const uint8_t *text, size_t length, const lockrun_new_set *sets, size_t count, uint64_t limit,
                           uint32_t places, lockrun_service *service);

/* The same with `families` families of `members` sets each for keys, behind those of the text: together at most 65,536, else
 * LOCKRUN_TOO_MANY. Where the text has `first` sets, family f has the sets first + f * members to first + f * members +
 * members - 1, and the first of these, its root, is the parent of the others. Their names are key.00000, key.00001 and so on:
 * LOCKRUN_BAD_SET if the text has one of them. If all are more than 8 sets the service has no journal. */
uint32_t lockrun_open_keys(const uint8_t *text, size_t length, uint32_t families, uint32_t members, uint64_t limit,
                           uint32_t places, lockrun_service *service);

/* The set of a key of any bytes, of those that lockrun_open_keys opens: the same in each process. Without a parent, where
 * `parent_length` is 0 (`parent` isn't null even then), it is the root of the family hash(key) % families; else the member
 * 1 + hash(key) % (members - 1) of the family hash(parent) % families, whose root is the parent's set. The hash is the first 8
 * bytes of SHA-256, the greatest first. LOCKRUN_BAD_ARGUMENT if `families` or `members` is 0, if `members` is 1 and there is a
 * parent, or if first + families * members is more than 65,536. */
uint32_t lockrun_key(uint32_t first, uint32_t families, uint32_t members, const uint8_t *parent, size_t parent_length,
                     const uint8_t *key, size_t length, uint32_t *set);

/* LOCKRUN_OK if the text is a script. LOCKRUN_BAD_SCRIPT if it isn't: `line` is the line of its first fault, from 1, and
 * `fault` the fault's number, 6 of S6. LOCKRUN_TOO_MANY if it has more than 1,048,576 bytes. */
uint32_t lockrun_fault(const uint8_t *text, size_t length, uint64_t *line, uint32_t *fault);

/* The station of the next node, and the session of the next client, in the order of the script. */
uint32_t lockrun_take_station(lockrun_service *service, lockrun_station *station);
uint32_t lockrun_take_session(lockrun_service *service, lockrun_session *session);

/* Takes at most one command of each client of the node, and makes at most one move: LOCKRUN_OK if it made one,
 * LOCKRUN_NOTHING if there was none. */
uint32_t lockrun_turn(lockrun_station *station);

/* Some clients, a bit for each: client c has bit c % 64 of bits[c / 64]. */
typedef struct {
    uint64_t bits[16];
} lockrun_clients;

/* The same, and tells whom the turn reached. In `sent` bit k says whether it put letters for node k into their ring, from
 * which that node takes them, or from which they are carried; in `told` the bit of a client says whether it put replies into
 * the client's ring. After LOCKRUN_WRONG_HANDLE both are as they were. */
uint32_t lockrun_turn_telling(lockrun_station *station, uint64_t *sent, lockrun_clients *told);

/* Forgets the moves and commands that the station has, but for commands that are still to be made: their memory serves
 * further ones. Replies that are still to be polled stay. After LOCKRUN_NO_MEMORY it may have forgotten moves. The service
 * goes on either way, and has no journal then. */
uint32_t lockrun_forget(lockrun_station *station);

/* Submits a command of this lockrun_kind. `first` is the mode, of LOCKRUN_CHANGE the mode that is held, of LOCKRUN_DROP the
 * client whose locks are dropped, of LOCKRUN_WITHDRAW the client whose wait in the set is given up; `second` is the new mode
 * of LOCKRUN_CHANGE, and else not looked at. While a client waits, the one command of its that is made is a LOCKRUN_WITHDRAW
 * of itself in the set where it waits: LOCKRUN_WITHDRAWN, or what came first, is the reply to what it waits for, and then
 * LOCKRUN_TRUE, or LOCKRUN_FALSE where nothing waited, that to the withdraw. */
uint32_t lockrun_submit(lockrun_session *session, uint32_t kind, uint32_t set, uint32_t first, uint32_t second);

/* The next reply, or LOCKRUN_NOTHING. Of LOCKRUN_DROPPED `count` tells how many locks were dropped. */
uint32_t lockrun_poll(lockrun_session *session, uint64_t *count);

/* Submits a command as lockrun_submit does, lets the station make turns as long as each makes a move and no reply to the
 * session is known, at most 64, and polls. The answer is that of lockrun_submit where nothing was submitted; else the
 * session's next reply, with its count; or LOCKRUN_NOTHING, LOCKRUN_LOG_FULL or LOCKRUN_NO_MEMORY, as the last turn ended: then
 * the command was submitted, and its reply is still to come. `sent` and `told` are those of lockrun_turn_telling, of all these
 * turns. The station is that of the session's node: another one doesn't know the session, and its reply stays to come. */
uint32_t lockrun_do(lockrun_station *station, lockrun_session *session, uint32_t kind, uint32_t set, uint32_t first,
                    uint32_t second, uint64_t *count, uint64_t *sent, lockrun_clients *told);

/* The number of the set with this name, or LOCKRUN_NOTHING. Sets are numbered from 0 in the order of the script. */
uint32_t lockrun_set(lockrun_session *session, const uint8_t *name, size_t length, uint32_t *set);

/* How many commands may still be submitted. */
uint64_t lockrun_left(lockrun_session *session);

/* The number of the session's client, and that of its node; 0 of another handle. */
uint32_t lockrun_client(lockrun_session *session);
uint32_t lockrun_home(lockrun_session *session);

/* What clients of the station's node hold and wait for, as that node has it now; a node in a process of its own stands for its
 * station. The first set numbered `from` or more in which the client holds a lock, or LOCKRUN_NOTHING; how many locks of the mode
 * it holds in a set; the set in which it waits, and the mode that it waits for, or LOCKRUN_NOTHING; and LOCKRUN_OK if an ask of
 * the client stands behind one of the other client in the queue of the set's desk, and that lies at this node. */
uint32_t lockrun_held(lockrun_station *station, uint32_t client, uint32_t from, uint32_t *set);
uint64_t lockrun_locks(lockrun_station *station, uint32_t client, uint32_t set, uint32_t mode);
uint32_t lockrun_asked(lockrun_station *station, uint32_t client, uint32_t *set, uint32_t *mode);
uint32_t lockrun_behind(lockrun_station *station, uint32_t set, uint32_t client, uint32_t other);

/* What is counted of a set, at its place among the LOCKRUN_COUNTS numbers of the set. Letters that ask for a lock or answer an
 * ask are in no count of a set. */
enum lockrun_counted {
    LOCKRUN_COUNT_GRANTS,      /* locks that were granted: at once, after a wait, or to a LOCKRUN_TRY */
    LOCKRUN_COUNT_CHANGES,     /* locks that became one of another mode */
    LOCKRUN_COUNT_REFUSALS,    /* of LOCKRUN_TRY that got nothing */
    LOCKRUN_COUNT_WAITS,       /* how often a client began to wait */
    LOCKRUN_COUNT_WITHDRAWALS, /* how often one gave up what it waited for, as after a time-out */
    LOCKRUN_COUNT_COPIES,      /* asks that the node sent on as copies */
    LOCKRUN_COUNT_FREEZES,     /* freezes that it sent */
    LOCKRUN_COUNT_TOKENS,      /* how often it sent the set's token */
    LOCKRUN_COUNTS
};

/* Adds what the moves of the station's node say of each set, from move `read` on; then `read` is the number of its moves. The
 * numbers of set s stand from counts[LOCKRUN_COUNTS * s] on, of the sets for which there is room in `length` numbers; `taken`
 * gains the letters that these moves took. Who begins with 0 everywhere has the counts of all moves, up to 2^64 - 1 each.
 * LOCKRUN_FORGOTTEN if the station has forgotten moves that weren't read: count before lockrun_forget. LOCKRUN_BAD_ARGUMENT if it
 * didn't make so many. Then nothing changes. */
uint32_t lockrun_count(lockrun_station *station, uint64_t *read, uint64_t *taken, uint64_t *counts, size_t length);

/* Gives a station or a session back to its service: behind all others that it has. `given` is {0} then. */
uint32_t lockrun_give(lockrun_service *service, lockrun_handle *given);

/* How many commands were submitted at all sessions so far, and how many replies were polled. There is a run in which they
 * were served so, and the service goes on: take the stations and sessions again. LOCKRUN_NOTHING if one of them is out. */
uint32_t lockrun_served(lockrun_service *service, size_t *submitted, size_t *polled);

/* Ends the service. `service` is {0} then, also without memory, and after LOCKRUN_FORGOTTEN and LOCKRUN_TOO_MANY: then all
 * is lost. */
uint32_t lockrun_finish(lockrun_service *service, lockrun_journal *journal);

/* Copies bytes of the journal, or of its script with the commands, from this one on, and tells how many. */
size_t lockrun_copy(lockrun_journal *journal, size_t from, uint8_t *out, size_t room);
size_t lockrun_script(lockrun_journal *journal, size_t from, uint8_t *out, size_t room);

/* Opens one node of the script, whose other nodes are opened in other processes, with the same text, key and start: a number
 * that differs from that of each earlier time. `limit` and `places` are as in lockrun_open. The node stands for a station in
 * lockrun_turn and lockrun_forget, and lockrun_take_session takes from it the sessions of its own clients, in order. */
uint32_t lockrun_node_open(const uint8_t *text, size_t length, uint32_t node, const uint8_t *key, size_t key_length,
                           uint64_t start, uint64_t limit, uint32_t places, lockrun_remote *opened);

/* Puts the next frame that is to be carried to the node `to` at the front of the buffer, and tells in `length` how many bytes it
 * has: one frame a call, so it is called again until it answers LOCKRUN_NOTHING, since no letter waits. LOCKRUN_FULL if the
 * frame has no room, and then `length` is the room that it wants. */
uint32_t lockrun_send(lockrun_remote *node, uint32_t to, uint8_t *buffer, size_t room, size_t *length);

/* Receives the frames of the node `from` at the front of the bytes, as far as they are whole and the node has places, and tells
 * in `used` how many bytes these have. What is left is to be given again, with what comes after it, once the node has made
 * turns. Where a frame is refused the code says why; `used` is then that of the frames before it, which were received, and
 * the node is as it was after these. */
uint32_t lockrun_receive(lockrun_remote *node, uint32_t from, const uint8_t *bytes, size_t length, size_t *used);

/* LOCKRUN_OK if a letter waits to be carried to the node `to`, LOCKRUN_NOTHING if none does. */
uint32_t lockrun_pending(lockrun_remote *node, uint32_t to);

/* Ends the node, whose sessions are of no use any more: the lines of its own moves, with the line `cut NODE` after them, and
 * the script with the commands of its own clients. `node` is {0} then, also without memory, and after LOCKRUN_FORGOTTEN and
 * LOCKRUN_TOO_MANY: then all is lost. */
uint32_t lockrun_node_finish(lockrun_remote *node, lockrun_journal *journal);

/* How many lines of the journal say what is held at the end, and how many say who waits. */
uint32_t lockrun_end(lockrun_journal *journal, size_t *held, size_t *waiting);

/* Frees what the handle stands for, if it does; it is {0} then. */
void lockrun_free(lockrun_handle *handle);

#ifdef __cplusplus
}
#endif
#endif
