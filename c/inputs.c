/*
 * Tables and scripts from files of bytes or of text. The two are told apart by content, unless an option says which it is.
 * A file of bytes is read only as far as it matters: a table up to the length of the longest table, and a script up to
 * the first thing in it that is refused.
 */
#include "commands.h"
#include "json.h"

static const struct bytes nothing = {NULL, 0};

/*
 * Returns whether what was read so far could be text. Before the file ends, its last character may be cut off, so the bytes
 * of that one are not looked at: at most three that go on with a character, and the one that starts it.
 */
static bool is_text_so_far(const struct source *source)
{
    struct bytes sure = source->content;
    if (source->ended)
        return is_text(sure);
    while (sure.length > 0 && source->content.length - sure.length < 3 && (sure.at[sure.length - 1] & 0xC0) == 0x80)
        sure.length--;
    if (sure.length > 0 && sure.at[sure.length - 1] >= 0xC0)
        sure.length--;
    return is_text(sure);
}

/* Reads on as long as what was read could be text, to the end of the file, and returns whether all of it is. */
static bool read_as_text(struct source *source)
{
    for (size_t look = 4096;; look = look > SIZE_MAX / 2 ? SIZE_MAX : 2 * look) {
        read_on(source, look);
        if (source->ended || !is_text_so_far(source))
            return is_text_so_far(source);
    }
}

/* A file that is being read, as the text that it could be. */
struct reading {
    struct named_file file;
    struct source source;
    bool could_be_text;  /* It was told to be text, or its content could be. */
    struct input text;   /* This is the input then. Its bytes are empty where the text has a problem. */
};

static struct reading start_reading(struct named_file file, enum kind kind)
{
    struct reading reading = {file, open_source(file.path), file.form == AS_TEXT, {file.path, AS_TEXT, nothing, {0}}};
    if (file.form == UNTOLD)
        reading.could_be_text = read_as_text(&reading.source);
    if (reading.could_be_text) {
        reading.text.text = read_text(&reading.source);
        reading.text.bytes = spell_text(&reading.text.text, kind);
    }
    return reading;
}

/* Returns whether a file has to be looked at as bytes: it is told to be, or nobody told what it is. */
static bool could_be_bytes(const struct reading *reading)
{
    return reading->file.form != AS_TEXT;
}

/* Returns whether bytes start as a text does that has a byte in it which is none, such as a letter of another spelling. */
static bool starts_as_text(struct bytes bytes)
{
    enum { SHORTEST = 4 };
    return length_of_text(bytes) >= SHORTEST && (bytes.at[0] == '#' || (bytes.at[0] >= '0' && bytes.at[0] <= '9'));
}

/*
 * Says how a file is read whose form was not told. A file of bytes that starts with a digit or a comment, and with some more
 * text, may be a text that has only a wrong byte, so this byte is named.
 */
static void say_form(const struct input *input)
{
    size_t length = input->form == AS_BYTES ? length_of_text(input->bytes) : 0;
    struct bytes bytes = input->bytes;
    fprintf(stderr, "rig: %s is read as %s", shown(input->path), input->form == AS_TEXT ? "text" : "bytes");
    if (input->form == AS_BYTES && starts_as_text(bytes) && length < bytes.length)
        fprintf(stderr, ", since its byte %s is %02X, which is no text in UTF-8: say --text if it is a text", grouped(length),
                bytes.at[length]);
    fputc('\n', stderr);
}

/*
 * Settles in which form a file is taken: as it was told, or else as text where it could be one. Where it could be a text
 * and would be accepted as bytes too, the program stops: nothing that was typed is ever taken for bytes in silence.
 */
static struct input settle(struct reading *reading, bool accepted_as_bytes)
{
    struct named_file file = reading->file;
    struct input input = {file.path, AS_BYTES, reading->source.content, {0}};
    bool is_no_text = !is_text_so_far(&reading->source) && reading->source.content.length > 0 &&
                      !starts_as_text(reading->source.content);
    close_source(&reading->source);
    if (file.form == UNTOLD && reading->could_be_text && accepted_as_bytes)
        stop(RIG_USAGE, "%s could be a text, and would be accepted as bytes too: say --text or --bytes before its name",
             shown(file.path));
    if (reading->could_be_text)
        input = reading->text;
    if (file.form == UNTOLD && !as_json)
        say_form(&input);
    if (input.form == AS_TEXT && input.text.problem != NULL && is_no_text)
        stop(RIG_CONTENT, "%s is no text: leave out --text, or say --bytes", shown(file.path));
    if (input.form == AS_TEXT && input.text.problem != NULL)
        stop_at_problem(file.path, &input.text);
    return input;
}

/*
 * Reads a table. A file of bytes is read up to its first `most` bytes. An accepted table is never a text as well, since
 * its server count is a byte below the tab, which is the lowest byte of a text.
 */
static struct input read_table_up_to(struct named_file file, size_t most)
{
    enum { SERVER_COUNTS_ARE_NO_TEXT = 1 / (JYRMEKKO_MOST_SERVERS < '\t') }; /* Where they are, this does not compile. */
    static struct reading reading;
    reading = start_reading(file, TABLE);
    if (could_be_bytes(&reading))
        read_on(&reading.source, most);
    return settle(&reading, false);
}

struct input read_table(struct named_file file)
{
    /* These are s, p, the two counts, and the values of all rows and servers. After them one extra byte is enough. */
    enum { MOST_NUMBERS = 2 + 2 + 4 * JYRMEKKO_MOST_ROWS + 2 * JYRMEKKO_MOST_SERVERS };
    return read_table_up_to(file, (size_t)MOST_GROUPS * MOST_NUMBERS + 1);
}

struct input read_whole_table(struct named_file file)
{
    return read_table_up_to(file, SIZE_MAX);
}

/*
 * Returns whether the answer for the first bytes of a script holds for the whole script. It does where something that
 * stands in them is refused. It does not where these bytes only end too early, since more may follow.
 */
static bool is_settled(struct answer answer, size_t length)
{
    switch (answer.status) {
    case JYRMEKKO_IN_TIME:
    case JYRMEKKO_LATE:
    case JYRMEKKO_NO_ROOM:
        return false;
    case JYRMEKKO_TIME_TOO_LATE: /* At the length it only says that jobs are pending after the last record so far. */
    case JYRMEKKO_SCRIPT_MISSPELLED: /* At the length it only says that a number is cut off so far. */
        return answer.first < length;
    default:
        return true;
    }
}

/* Returns whether all of the script can be played: its jobs are in time or late, or only their log has no room. */
static bool is_played(uint32_t status)
{
    return is_replayed(status) || status == JYRMEKKO_NO_ROOM;
}

/* Replays a script of bytes with no room for a log, which takes no memory and hides no other refusal. Reads on as it must. */
static struct answer replay_bytes(struct source *source, struct bytes table)
{
    for (size_t look = 1 << 16;; look = look > SIZE_MAX / 2 ? SIZE_MAX : 2 * look) {
        read_on(source, look);
        struct answer answer = ask_replay(table, source->content, nothing);
        if (source->ended || is_settled(answer, source->content.length))
            return answer;
    }
}

struct input read_script(struct named_file file, struct bytes table, const char *out_path, struct answer *answer)
{
    static struct reading reading;
    struct answer as_bytes = {0, 0, 0}, as_text = {0, 0, 0};
    reading = start_reading(file, SCRIPT);
    if (out_path != NULL)
        expect_not_read(out_path);
    if (could_be_bytes(&reading))
        as_bytes = replay_bytes(&reading.source, table);
    if (reading.could_be_text && reading.text.text.problem == NULL)
        as_text = ask_replay(table, reading.text.bytes, nothing);
    struct input input = settle(&reading, is_played(as_bytes.status));
    *answer = input.form == AS_TEXT ? as_text : as_bytes;
    return input;
}

/* Returns whether a script's bytes are records that some table could have: of three numbers, with a row that may be. */
static bool has_releases(struct bytes script)
{
    enum { MOST_ROWS = JYRMEKKO_MOST_ROWS + JYRMEKKO_MOST_SERVERS };
    uint64_t gap, row, cost;
    for (size_t at = 0; at < script.length;)
        if (!read_number(script, &at, &gap) || !read_number(script, &at, &row) || !read_number(script, &at, &cost) ||
            row >= MOST_ROWS)
            return false;
    return true;
}

struct input read_whole_script(struct named_file file, struct bytes table)
{
    static struct reading reading;
    reading = start_reading(file, SCRIPT);
    if (could_be_bytes(&reading))
        read_on(&reading.source, SIZE_MAX);
    return settle(&reading, is_played(ask_replay(table, reading.source.content, nothing).status));
}

struct input read_script_alone(struct named_file file)
{
    static struct reading reading;
    reading = start_reading(file, SCRIPT);
    if (could_be_bytes(&reading))
        read_on(&reading.source, SIZE_MAX);
    bool is_good_text = reading.could_be_text && reading.text.bytes.length > 0;
    return settle(&reading, !is_good_text && has_releases(reading.source.content));
}

void json_input(const char *name, const struct input *input)
{
    json_begin(name, '{');
    json_text("file", input->path);
    json_text("form", input->form == AS_TEXT ? "text" : "bytes");
    json_end();
}
