/*
 * Takvorn's commands for programs in C (C99) and C++: 3270 screens shown, checked against layouts, drafted, typed
 * into, converted to lines and back, BMS maps checked, and answers of terminals read back into fields. Each function does what the
 * command of the same name of the program `term3270` does; its text and its status are the program's.
 *
 * Texts. An input or an output is a pointer to bytes and a number of bytes. No text ends with a 0, and a 0 is a byte
 * like any other. Lines end at 0A or 0D 0A. Inputs are read and never written.
 *
 * Results. The text is written to `out` as far as `out_length` bytes hold it; the rest of `out` stays as it was.
 * `*needed` is the number of bytes of the whole text, also where it doesn't fit. So a call with a buffer that is too
 * small tells what a second call needs; a text that fits has `*needed <= out_length`. The value that is returned is
 * one of TAKVORN_DONE, TAKVORN_FINDINGS, TAKVORN_BAD_INPUT and TAKVORN_NO_MEMORY. Under TAKVORN_NO_MEMORY a request
 * for memory was refused: `out` is as it was and `*needed` is 0. Nothing stays allocated after a call.
 *
 * Pointers. None may be null, not even where the number of bytes beside it is 0. `out` and `needed` overlap no input
 * and not each other.
 *
 * Threads. Calls share nothing, so they may run on several threads at once, each with a buffer and a `needed` of its
 * own. A call comes neither from a signal handler nor from the forked child of a process with threads. Memory comes
 * from the program's `malloc`, `realloc` and `free`, which belong together.
 */
#ifndef TAKVORN_H
#define TAKVORN_H

#include <stdbool.h>
#include <stddef.h>
#include <stdint.h>

#ifdef __cplusplus
extern "C" {
#endif

/* Statuses, as the program ends with them; 3, a read or a write that failed, is of the program alone. */
enum {
  /* The text is the command's answer; that of takvorn_check and takvorn_talk is `yes`, of takvorn_check_json the verdict, of
   * takvorn_check_map a yes of each map. */
  TAKVORN_DONE = 0,
  /* The text is findings, of takvorn_check, takvorn_check_json, takvorn_check_map, takvorn_talk or takvorn_draft, a line each. */
  TAKVORN_FINDINGS = 1,
  /* The text is one line, the first fault of the inputs; or answers of takvorn_bind, not all of which are bound; or of
   * takvorn_records what came before the fault, and its line. */
  TAKVORN_BAD_INPUT = 2,
  /* A request for memory was refused; no text. */
  TAKVORN_NO_MEMORY = 4
};

/* Limits. What is longer is TAKVORN_BAD_INPUT with the text `input too long`. */
enum {
  /* The most bytes of an input; of each layout. */
  TAKVORN_MOST_BYTES = 16777216,
  /* The most records of an input, of all turns together; or answers, or records of order lines. */
  TAKVORN_MOST_RECORDS = 1000,
  /* The most bytes of a record or an answer, which has two hexadecimal digits for each; not of order lines. */
  TAKVORN_MOST_RECORD_BYTES = 32768,
  /* The most keys of an input. */
  TAKVORN_MOST_KEYS = 100000
};

/* A text: `length` bytes from `bytes` on, which is not null. */
typedef struct takvorn_text {
  const uint8_t *bytes;
  size_t length;
} takvorn_text;

/* The screen that records leave. Records are in hexadecimal, one a line; the first line may tell sizes. */
int32_t takvorn_show(const uint8_t *records, size_t records_length, uint8_t *out, size_t out_length, size_t *needed);

/* The same screen in another form: a drawing (SVG 1.1), a page with that drawing (HTML), the text in bold, underline
 * and reverse video between sequences that begin with ESC, and a line of JSON. */
int32_t takvorn_show_svg(const uint8_t *records, size_t records_length, uint8_t *out, size_t out_length,
                         size_t *needed);
int32_t takvorn_show_html(const uint8_t *records, size_t records_length, uint8_t *out, size_t out_length,
                          size_t *needed);
int32_t takvorn_show_colored(const uint8_t *records, size_t records_length, uint8_t *out, size_t out_length,
                             size_t *needed);
int32_t takvorn_show_json(const uint8_t *records, size_t records_length, uint8_t *out, size_t out_length,
                          size_t *needed);

/* The screen that keys leave, one a line, pressed in turn on the one that the records leave; as a line of JSON, or as a
 * drawing in SVG. What the keys send is takvorn_press's. */
int32_t takvorn_show_pressed(const uint8_t *records, size_t records_length, const uint8_t *keys, size_t keys_length,
                             bool json, uint8_t *out, size_t out_length, size_t *needed);

/* Which order of the records wrote last at each position of a terminal of the layout's sizes: a line for each position of
 * the larger size, the record and the byte of it at which the order begins, both counted from 0, or `-` where no order
 * wrote. Records are taken up to the first against which something stands. */
int32_t takvorn_origins(const uint8_t *layout, size_t layout_length, const uint8_t *records, size_t records_length,
                        uint8_t *out, size_t out_length, size_t *needed);

/* `yes`, or a line for each finding that stands against the records and the layout, which is TOML. With `demos` a line
 * `sends` and hexadecimal digits follows each finding that has keys: what the terminal sends once they are pressed. */
int32_t takvorn_check(const uint8_t *layout, size_t layout_length, const uint8_t *records, size_t records_length,
                      bool demos, uint8_t *out, size_t out_length, size_t *needed);

/* The same as JSON: an object a line for each finding, with what its keys send, and one for the verdict; or one object for
 * the first fault of the inputs, with TAKVORN_BAD_INPUT. */
int32_t takvorn_check_json(const uint8_t *layout, size_t layout_length, const uint8_t *records, size_t records_length,
                           uint8_t *out, size_t out_length, size_t *needed);

/* `yes`, or the first turn of a dialogue that has findings, and these. Turn K, counted from 0, has the layout
 * `layouts[K]`; a line `turn` stands between the records of two turns. `layouts` is not null, where its count is 0
 * neither. */
int32_t takvorn_talk(const takvorn_text *layouts, size_t layouts_count, const uint8_t *records, size_t records_length,
                     uint8_t *out, size_t out_length, size_t *needed);

/* A line for each key, one a line, that is pressed on the screen that the records leave: what it does, with the cursor
 * as a place counted from 0, or the bytes that the terminal sends, in hexadecimal. */
int32_t takvorn_press(const uint8_t *records, size_t records_length, const uint8_t *keys, size_t keys_length,
                      uint8_t *out, size_t out_length, size_t *needed);

/* Records as order lines: a command, an order a line, an empty line. */
int32_t takvorn_convert(const uint8_t *records, size_t records_length, uint8_t *out, size_t out_length,
                        size_t *needed);

/* Order lines as records in hexadecimal, one a line. */
int32_t takvorn_convert_back(const uint8_t *lines, size_t lines_length, uint8_t *out, size_t out_length,
                             size_t *needed);

/* A layout, in TOML, for the screen that the records leave; or the finding that no layout mends. */
int32_t takvorn_draft(const uint8_t *records, size_t records_length, uint8_t *out, size_t out_length, size_t *needed);

/* The fields of answers, which are in hexadecimal, one a line, by the names of the layout: their bytes in hexadecimal,
 * or with `text` their characters. */
int32_t takvorn_bind(const uint8_t *layout, size_t layout_length, const uint8_t *answers, size_t answers_length,
                     bool text, uint8_t *out, size_t out_length, size_t *needed);

/* The records of a session: of a trace of x3270, s3270 or c3270, or with `stream` of bytes that were captured, in
 * hexadecimal; the host's or, with `answers`, the terminal's. After TAKVORN_BAD_INPUT the text goes up to the line that is
 * refused or has a fault, and tells it. A line has at most TAKVORN_MOST_BYTES; there is no other limit. */
int32_t takvorn_records(const uint8_t *trace, size_t trace_length, bool stream, bool answers, uint8_t *out,
                        size_t out_length, size_t *needed);

/* BMS maps, from their source: for each map a comment with its name, line and screen, and the record that SEND MAP MAPONLY
 * ERASE sends, in hexadecimal; or with `layout` the layout of the one map. With a name, in either case, that map alone; where
 * `name_length` is 0 all. `freekb` and `frset` are what SEND MAP says. A source that is refused is TAKVORN_BAD_INPUT, with the
 * first refusal and its line and column. */
int32_t takvorn_map(const uint8_t *source, size_t source_length, const uint8_t *name, size_t name_length, bool layout,
                    bool freekb, bool frset, uint8_t *out, size_t out_length, size_t *needed);

/* For each of these maps a line with `yes`, or one for each finding, by the map, the field and the line of its macro. */
int32_t takvorn_check_map(const uint8_t *source, size_t source_length, const uint8_t *name, size_t name_length, bool freekb,
                          bool frset, uint8_t *out, size_t out_length, size_t *needed);

/*
 * A terminal that a program holds. Its whole state is bytes of the caller's: a copy of them is a snapshot, two terminals that show and keep the
 * same have equal bytes, and nothing has to be freed. takvorn_terminal_size tells how many bytes there are; takvorn_terminal_new makes them the
 * state of a new terminal, and the other calls read them or make them the next state. They can be stored and sent: they begin with the version
 * of their form, which is 1, and do not depend on the machine.
 *
 * Every call looks at all of the state first. Where the bytes are no state (changed, of another version, or of another length) it is
 * TAKVORN_BAD_INPUT; where a request for memory was refused, TAKVORN_NO_MEMORY. Both leave the state and what the call tells as they were, but
 * for `*needed`, which is then 0. `state` overlaps nothing else that is passed. Nothing stays allocated after a call. Positions count from 0 row
 * by row.
 */

/* The keyboard. */
enum { TAKVORN_FREE = 0, TAKVORN_WAITING = 1, TAKVORN_IN_ERROR = 2 };

/* What a terminal keeps beside its cells: the size in use, the cursor's position, the keyboard, and the attention identifier of the last key
 * that sent, 60 where there is none. */
typedef struct takvorn_status {
  uint16_t rows;
  uint16_t columns;
  uint32_t cursor;
  uint8_t lock;
  uint8_t aid;
} takvorn_status;

/* What becomes of a record. */
enum {
  TAKVORN_SHOWN = 0,
  /* A read, which the other calls answer; the state is as it was. */
  TAKVORN_READ_BUFFER = 1,
  TAKVORN_READ_MODIFIED = 2,
  TAKVORN_READ_MODIFIED_ALL = 3,
  TAKVORN_NO_OPERATION = 4,
  TAKVORN_REFUSED = 5
};

/* Of a record that is shown, whether it sounds the alarm and restores the keyboard; of one that is refused its number, as `letter` O and `number` 6,
 * and its place, a byte of the record. What does not apply is false or 0. */
typedef struct takvorn_effect {
  uint8_t kind;
  bool alarm;
  bool restored;
  uint8_t letter;
  uint8_t number;
  size_t at;
} takvorn_effect;

/* Keys. TAKVORN_TYPE types a code, 40 to FE; TAKVORN_ATTENTION is the key of an attention identifier: Enter 7D, PF1 to PF9 F1 to F9, PF10 to PF12 7A
 * to 7C, PF13 to PF21 C1 to C9, PF22 to PF24 4A to 4C, PA1 6C, PA2 6E, PA3 6B, Clear 6D. The code of other keys has no effect. */
enum {
  TAKVORN_TYPE = 0,
  TAKVORN_LEFT = 1,
  TAKVORN_RIGHT = 2,
  TAKVORN_UP = 3,
  TAKVORN_DOWN = 4,
  TAKVORN_TAB = 5,
  TAKVORN_BACK_TAB = 6,
  TAKVORN_NEW_LINE = 7,
  TAKVORN_HOME = 8,
  TAKVORN_ERASE_EOF = 9,
  TAKVORN_ERASE_INPUT = 10,
  TAKVORN_DELETE = 11,
  TAKVORN_RESET = 12,
  TAKVORN_ATTENTION = 13
};

/* What a key does: it is done; it can't act here, so that the keyboard is in error; it is ignored; or the terminal sends, which
 * takvorn_terminal_answer tells. */
enum { TAKVORN_KEY_DONE = 0, TAKVORN_KEY_INHIBITED = 1, TAKVORN_KEY_IGNORED = 2, TAKVORN_KEY_SENT = 3 };

/* What stands at a position: a character by its code, one of the alternate set, or a field attribute by its six bits (20 protected, 10 numeric, 0C
 * display, 01 modified). */
enum { TAKVORN_CHARACTER = 0, TAKVORN_ALTERNATE_CHARACTER = 1, TAKVORN_ATTRIBUTE = 2 };

typedef struct takvorn_cell {
  uint8_t kind;
  uint8_t code;
} takvorn_cell;

/* How many bytes the state of a terminal has, of these sizes, the default and the alternate one; with `wide` addresses are of 16 bits. 0 where there
 * is no such terminal: a size has 1 to 255 rows, 2 to 255 columns and at most 16,384 positions, with `wide` 65,025. */
size_t takvorn_terminal_size(uint16_t rows, uint16_t columns, uint16_t alternate_rows, uint16_t alternate_columns, bool wide);

/* Makes bytes the state of a new terminal: nulls of the default size, the cursor at 0, the keyboard waiting for a record. TAKVORN_BAD_INPUT where
 * there is no such terminal or `state_length` is another than takvorn_terminal_size tells. */
int32_t takvorn_terminal_new(uint16_t rows, uint16_t columns, uint16_t alternate_rows, uint16_t alternate_columns, bool wide,
                             uint8_t *state, size_t state_length);

/* Applies a record. TAKVORN_FINDINGS where it is refused: the state is as it was, and `*effect` has the number and the place. */
int32_t takvorn_terminal_apply(uint8_t *state, size_t state_length, const uint8_t *record, size_t record_length,
                               takvorn_effect *effect);

/* Presses a key. TAKVORN_BAD_INPUT also where there is no such key. */
int32_t takvorn_terminal_press(uint8_t *state, size_t state_length, uint8_t key, uint8_t code, uint8_t *pressed);

/* What the terminal answers to Read Modified, and sends after a key that sends; with `all` to Read Modified All. The answer is written to `out` as
 * texts are, and `*needed` is the number of its bytes. */
int32_t takvorn_terminal_answer(const uint8_t *state, size_t state_length, bool all, uint8_t *out, size_t out_length,
                                size_t *needed);

/* What it answers to Read Buffer. */
int32_t takvorn_terminal_buffer(const uint8_t *state, size_t state_length, uint8_t *out, size_t out_length, size_t *needed);

/* The cells of the size in use, as the bytes of so many takvorn_cell: `*needed` is twice their number. */
int32_t takvorn_terminal_cells(const uint8_t *state, size_t state_length, uint8_t *out, size_t out_length, size_t *needed);

/* A field: the position of its attribute, the position after that (0 after the last one), how many positions it governs, and the attribute's six bits. */
typedef struct takvorn_field {
  uint32_t attribute;
  uint32_t first;
  uint32_t length;
  uint8_t bits;
} takvorn_field;

/* The fields in rising order of their attributes. What fits of `count` is written, and the rest stays; `*needed` is how many there are. */
int32_t takvorn_terminal_fields(const uint8_t *state, size_t state_length, takvorn_field *fields, size_t count, size_t *needed);

/* What it keeps beside its cells. */
int32_t takvorn_terminal_status(const uint8_t *state, size_t state_length, takvorn_status *status);

/* Checks the screen as it stands against a layout, as takvorn_check checks the record that draws it: an Erase/Write, or Erase/Write Alternate, with each
 * cell and the cursor, and the keyboard restored. So it says nothing of the records that made the screen, nor of the keyboard's lock. Where that record has
 * more than TAKVORN_MOST_RECORD_BYTES the text is `input too long`. TAKVORN_BAD_INPUT with no text where the bytes are no state. */
int32_t takvorn_terminal_check(const uint8_t *state, size_t state_length, const uint8_t *layout, size_t layout_length, bool demos,
                               uint8_t *out, size_t out_length, size_t *needed);

/*
 * A terminal that the library holds for the program, behind a handle: a key takes a small part of what it takes at a state, from which the screen is
 * drawn each time. The calls do to it, and tell of it, what those of the same names do and tell of a state; takvorn_held_save and takvorn_held_load are
 * between the two, so a state is the snapshot of a terminal that is held.
 *
 * A handle begins as `{NULL}`, which is null: takvorn_held_new or takvorn_held_load gives it a terminal, takvorn_held_free frees that and leaves the handle
 * null again. Every other call with a null handle is TAKVORN_BAD_INPUT. The program writes nothing else to a handle, and uses no copy of one: a copy that
 * was made before takvorn_held_free points to memory that is gone, as with free(). It frees each handle once it is done with it; nothing else stays
 * allocated. Calls with one handle come one at a time, and calls with different handles share nothing. A handle may go to another thread, by a lock, or by
 * a thread's start or join.
 *
 * Where a request for memory was refused it is TAKVORN_NO_MEMORY. With that and TAKVORN_BAD_INPUT the terminal, and what the call tells, are as they were,
 * but for `*needed`, which is then 0. takvorn_held_apply, _press, _status, _fields and _free ask for no memory.
 */
typedef struct takvorn_held {
  void *terminal;
} takvorn_held;

/* Makes a new terminal, as takvorn_terminal_new does, in place of one that the handle has, which is then freed. */
int32_t takvorn_held_new(uint16_t rows, uint16_t columns, uint16_t alternate_rows, uint16_t alternate_columns, bool wide,
                         takvorn_held *held);

/* Frees the terminal; of a null handle nothing. */
void takvorn_held_free(takvorn_held *held);

/* Takes the terminal of a state, in place of one that the handle has. TAKVORN_BAD_INPUT where the bytes are no state. */
int32_t takvorn_held_load(takvorn_held *held, const uint8_t *state, size_t state_length);

/* The state of the terminal, written to `out` as texts are; `*needed` is what takvorn_terminal_size tells. */
int32_t takvorn_held_save(takvorn_held *held, uint8_t *out, size_t out_length, size_t *needed);

int32_t takvorn_held_apply(takvorn_held *held, const uint8_t *record, size_t record_length, takvorn_effect *effect);
int32_t takvorn_held_press(takvorn_held *held, uint8_t key, uint8_t code, uint8_t *pressed);
int32_t takvorn_held_answer(takvorn_held *held, bool all, uint8_t *out, size_t out_length, size_t *needed);
int32_t takvorn_held_buffer(takvorn_held *held, uint8_t *out, size_t out_length, size_t *needed);
int32_t takvorn_held_cells(takvorn_held *held, uint8_t *out, size_t out_length, size_t *needed);
int32_t takvorn_held_fields(takvorn_held *held, takvorn_field *fields, size_t count, size_t *needed);
int32_t takvorn_held_status(takvorn_held *held, takvorn_status *status);
int32_t takvorn_held_check(takvorn_held *held, const uint8_t *layout, size_t layout_length, bool demos, uint8_t *out,
                           size_t out_length, size_t *needed);

/*
 * A terminal's session with a host, TN3270E or classic TN3270, that the library holds behind a handle, as it holds a terminal: the bytes that the host sent
 * go in, in pieces of any length, keys are pressed, and the bytes that are due to the host come out. It reads and writes nothing: the program has the line.
 * A handle begins as `{NULL}`, and is kept, freed and handed to other threads as a takvorn_held is.
 *
 * TAKVORN_FINDINGS is a session that failed: the host's bytes, or their record, are no session's. That, and TAKVORN_NO_MEMORY of takvorn_session_take and
 * _press, are its last word: each later call with bytes or a key answers it again, and makes nothing due. What was due before can still be had.
 */
typedef struct takvorn_session {
  void *session;
} takvorn_session;

/* Begins a session of a device by its name, `IBM-3278-` or `IBM-3279-`, a model 2 to 5, and `-E` or not. `enhanced` says whether the terminal takes TN3270E,
 * `responses` whether it asks for RESPONSES there, and `tolerant` whether it gets through where a strict one fails. Nothing is due first: the host begins. A
 * session that the handle has is freed. TAKVORN_BAD_INPUT where no device has this name. */
int32_t takvorn_session_new(const uint8_t *device, size_t device_length, bool enhanced, bool responses, bool tolerant,
                            takvorn_session *session);

/* Frees the session; of a null handle nothing. */
void takvorn_session_free(takvorn_session *session);

/* Takes bytes that the host sent, and adds to what is due the replies, RESPONSES and answers to reads. */
int32_t takvorn_session_take(takvorn_session *session, const uint8_t *bytes, size_t bytes_length);

/* Presses a key, as takvorn_terminal_press does, and adds to what is due what it sends. Before the session is ready every key is TAKVORN_KEY_IGNORED. */
int32_t takvorn_session_press(takvorn_session *session, uint8_t key, uint8_t code, uint8_t *pressed);

/* The bytes that are due to the host, written to `out` as texts are: where all of them fit nothing is due any more, else all of them stay due. */
int32_t takvorn_session_due(takvorn_session *session, uint8_t *out, size_t out_length, size_t *needed);

/* Why a session failed, written to `out` as texts are: the number of its fault, of at most 3 bytes, as `N1` (docs/SESSIONS.md tells them). Nothing where it
 * goes on, or ended since memory was refused. */
int32_t takvorn_session_fault(takvorn_session *session, uint8_t *out, size_t out_length, size_t *needed);

/* What a session agreed on: whether it is `ready`, so that records and answers pass; by TN3270E; with RESPONSES; whether the screen takes input: it has a
 * field, the keyboard doesn't wait, and the cursor isn't at 0; and the device. Before it is ready all is false, and the model 0. */
typedef struct takvorn_agreed {
  bool ready;
  bool enhanced;
  bool responses;
  bool takes_input;
  bool extended;
  uint8_t model;
} takvorn_agreed;

int32_t takvorn_session_agreed(takvorn_session *session, takvorn_agreed *agreed);

/* Holds a copy of the session's screen, in place of a terminal that `screen` has: the calls on it show what the operator sees. */
int32_t takvorn_session_screen(takvorn_session *session, takvorn_held *screen);

#ifdef __cplusplus
}
#endif

#endif
