/* What the files of this program share: payloads, machines and sessions, and the functions of each file that others use. */
#ifndef SECRETS_H
#define SECRETS_H

#include "kusarehyon.h"

enum {
    AREA = KUSAREHYON_REPLY_BYTES,
    PAYLOAD_BYTES = AREA + 7, /* more than the longest message */
    RECORDS = 3,
    RECORD_BYTES = 17,
    BOOK_BYTES = RECORDS * RECORD_BYTES,
    KEYID = 5, /* of the middle record */
    FEATURES = 0x1F
};

enum { TA, IA, MA };
enum { AUTH, COMM, SECURE, KEY_UPDATE, COMM_RESPONSE };
enum { SECURE_MESSAGES = 2, ALL_OPTIONS = 4 };

/* Which bits of a payload are secret: none, the 64 keystream bits of a proof, all but a message's eight zero bits, or all. */
enum form { PUBLIC, TAG_PROOF, READER_PROOF, MUTUAL_PROOF, MESSAGE, DATA };

struct payload {
    uint8_t bytes[PAYLOAD_BYTES];
    size_t count;
    enum form form;
    size_t width;
};

/* A tag or a reader, and what its last call gave. */
struct machine {
    bool is_tag;
    uint8_t block[KUSAREHYON_READER_BYTES];
    uint8_t book[BOOK_BYTES];
    size_t book_len;
    uint64_t number;
    size_t room;
    uint8_t answer;
    size_t bits;
    struct payload reply;
};

struct session {
    struct machine tag;
    struct machine reader;
    uint8_t method;
    uint8_t options;
};

enum function {
    TAG_RESET,
    TAG_COMMAND,
    TAG_RESPONSE,
    TAG_CLOSE,
    TAG_ERROR_TYPE,
    READER_RESET,
    READER_BEGIN,
    READER_REPLIED,
    READER_SEND,
    READER_RECEIVE,
    BOOK_SOUND,
    BOOK_FIND
};

/* What a call is given beside the machine; a begin has its method as kind. */
struct request {
    enum function function;
    uint8_t kind;
    uint8_t options;
    uint8_t keyid;
    struct payload given;
};

/* What is due of a call: its answer, its reply's bits and form, and memcheck's reports. */
struct due {
    uint8_t answer;
    size_t bits;
    enum form form;
    unsigned reports;
};

/* payloads.c */
void random_bytes(uint8_t *bytes, size_t len);
bool bit_of(const uint8_t *bytes, size_t i);
void flip(uint8_t *bytes, size_t i);
struct payload random_data(size_t count);
struct payload layout(size_t data_bits, size_t width);
struct payload with_flip(struct payload p, size_t i);
struct payload with_count(struct payload p, size_t count);

/* marks.c */
extern bool marking;
extern unsigned failures, calls, comparisons;
void fail(const char *format, ...);
size_t width_of(const struct machine *m);
void hide_payload(uint8_t *bytes, const struct payload *p);
void show(void *bytes, size_t len);
void start_count(void);
void count_reports(const char *call, const uint8_t *answer, unsigned due);
void check_defined(const char *call, const char *what, const void *bytes, size_t len);
void begin_call(struct machine *m, struct payload *given);
void end_call(const char *call, struct machine *m, struct due due);

/* machines.c */
extern const char *const function_names[];
void no_reply(struct machine *m);
void call(struct machine *m, struct request r, struct due due);
struct request request(enum function function, uint8_t kind, struct payload given);
struct request bare(enum function function);
struct due only(uint8_t answer);

/* sessions.c */
struct session new_session(uint8_t method, uint8_t options);
void step_0(struct session *s);
void answer(struct session *s);
void step_1(struct session *s);
struct session session_after(uint8_t method, uint8_t options, size_t count);
struct session open_session(uint8_t method, uint8_t options);
struct request taking(bool to_tag, uint8_t kind, struct payload message);
void each_way(struct session *s, void (*use)(struct session *, bool, uint8_t));
void each_session(void (*run)(uint8_t, uint8_t));
void whole_sessions(void);
void failing_sessions(void);

/* refusals.c */
void refusals(void);

/* frames.c */
void books_and_frames(void);

#endif
