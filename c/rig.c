/*
 * rig: the technician's program, over the library's calls. The exit status of verdict, explain and replay is the number of
 * the answer. The program never exits with 0, so that no silence reads as a pass.
 */
#include "commands.h"
#include "help.h"
#include "json.h"

#include <errno.h>
#include <string.h>

enum { MOST_WORDS = 5 };

/* What the command line says. */
struct request {
    struct named_file words[MOST_WORDS]; /* These are the words that are no options, each with the form told before it. */
    size_t count;
    const char *script; /* This came with --script, or it is null. */
    bool json, help, version;
    bool told;          /* --bytes or --text was given. */
    const char *unused; /* This one of them was given after the last file, or it is null. */
};

__attribute__((noreturn))
static void stop_at_usage(const char *command)
{
    const char *usage = usage_of(command);
    if (usage != NULL)
        stop(RIG_USAGE, "%s is used in another way:\n%s'rig %s --help' says more", command, usage, command);
    stop(RIG_USAGE, "there is no command '%s'; rig --help lists the commands", shown(command));
}

/* Takes one option. Returns how many more words it takes. */
static int take_option(struct request *request, const char *option, const char *next, enum form *form)
{
    bool is_bytes = strcmp(option, "--bytes") == 0;
    if (is_bytes || strcmp(option, "--text") == 0) {
        *form = is_bytes ? AS_BYTES : AS_TEXT;
        request->told = true;
        request->unused = option;
    } else if (strcmp(option, "--json") == 0) {
        request->json = true;
    } else if (strcmp(option, "--help") == 0 || strcmp(option, "-h") == 0) {
        request->help = true;
    } else if (strcmp(option, "--version") == 0) {
        request->version = true;
    } else if (strncmp(option, "--script=", 9) == 0 && option[9] != '\0') {
        request->script = option + 9;
    } else if (strcmp(option, "--script") == 0 && next != NULL) {
        request->script = next;
        return 1;
    } else if (strcmp(option, "--script") == 0 || strcmp(option, "--script=") == 0) {
        stop(RIG_USAGE, "the option --script needs the name of a file");
    } else {
        stop(RIG_USAGE, "there is no option '%s'; rig --help lists the options", shown(option));
    }
    return 0;
}

static struct request read_request(int words, char **word)
{
    struct request request = {{{NULL, UNTOLD}}, 0, NULL, false, false, false, false, NULL};
    enum form form = UNTOLD;
    bool options = true;
    for (int i = 1; i < words; i++) {
        bool is_option = options && word[i][0] == '-' && word[i][1] != '\0';
        if (is_option && strcmp(word[i], "--") == 0)
            options = false;
        else if (is_option)
            i += take_option(&request, word[i], i + 1 < words ? word[i + 1] : NULL, &form);
        else if (request.count == MOST_WORDS)
            stop_at_usage(request.words[0].path);
        else {
            request.words[request.count++] = (struct named_file){word[i], form};
            request.unused = NULL;
        }
    }
    return request;
}

/* Shows a table, a script or a log. The first of the words says which, and the files come after it. */
static int show(const struct named_file *words, size_t count)
{
    static const struct named_file none = {NULL, UNTOLD};
    const char *kind = count > 0 ? words[0].path : "";
    if (strcmp(kind, "table") == 0 && count == 2)
        return show_table(words[1]);
    if (strcmp(kind, "script") == 0 && (count == 2 || count == 3))
        return show_script(words[1], count == 3 ? words[2] : none);
    if (strcmp(kind, "log") == 0 && (count == 2 || count == 4))
        return show_log(words[1], count == 4 ? words[2] : none, count == 4 ? words[3] : none);
    if (count == 2 && strcmp(kind, "table") != 0 && strcmp(kind, "script") != 0 && strcmp(kind, "log") != 0)
        stop(RIG_USAGE, "show takes a table, a script or a log, and not '%s'", shown(kind));
    stop_at_usage("show");
}

/* Does what the command says, and returns the exit status. */
static int run(const struct request *request)
{
    const struct named_file *files = request->words + 1;
    const char *command = request->words[0].path;
    size_t count = request->count - 1;
    if (strcmp(command, "verdict") == 0 && count == 1)
        return judge(files[0]);
    if (strcmp(command, "explain") == 0 && count == 1)
        return explain(files[0], request->script);
    if (strcmp(command, "replay") == 0 && (count == 2 || count == 3))
        return play(files[0], files[1], count == 3 ? files[2].path : NULL);
    if (strcmp(command, "show") == 0)
        return show(files, count);
    if (strcmp(command, "spell") == 0 && count == 2)
        return spell(files[0].path, files[1].path);
    stop_at_usage(command);
}

/* Stops the program where an option does not belong to the command. */
static void expect_options(const struct request *request)
{
    const char *command = request->words[0].path;
    bool is_spell = strcmp(command, "spell") == 0;
    if (is_spell && request->json)
        stop(RIG_USAGE, "spell has no option --json: it writes bytes");
    if (is_spell && request->told)
        stop(RIG_USAGE, "spell reads text and writes bytes: --bytes and --text don't belong to it");
    if (request->script != NULL && strcmp(command, "explain") != 0)
        stop(RIG_USAGE, "only explain has the option --script");
    if (request->unused != NULL)
        stop(RIG_USAGE, "%s stands after the last file: it belongs before the name of a file", request->unused);
}

/* Returns where the words go: to standard error where standard output takes a log or a script. */
static FILE *stream_of_words(const struct request *request)
{
    bool has_log = request->count == 4 && strcmp(request->words[0].path, "replay") == 0;
    bool taken = (has_log && is_standard(request->words[3].path)) ||
                 (request->script != NULL && is_standard(request->script));
    return taken ? stderr : stdout;
}

/* Returns the command whose help is asked for, the word "" for all of them, or null where no help is asked for. */
static const char *asked_about(const struct request *request)
{
    bool is_help = request->count > 0 && strcmp(request->words[0].path, "help") == 0;
    if (is_help && request->count <= 2)
        return request->count == 2 ? request->words[1].path : "";
    if (request->help)
        return request->count > 0 ? request->words[0].path : "";
    return NULL;
}

static int answer(const struct request *request)
{
    const char *about = asked_about(request);
    if (about != NULL) {
        if (!print_help(about))
            stop(RIG_USAGE, "there is no command '%s'; rig --help lists the commands", shown(about));
        return RIG_DONE;
    }
    if (request->version && request->count == 0) {
        print_version();
        return RIG_DONE;
    }
    if (request->version)
        stop(RIG_USAGE, "the option --version stands alone");
    if (request->count == 0)
        stop(RIG_USAGE, "no command is given; rig --help lists the commands");
    expect_options(request);
    if (!request->json)
        return run(request);
    start_json(stream_of_words(request));
    json_begin(NULL, '{');
    json_text("command", request->words[0].path);
    int status = run(request);
    json_end();
    print_json();
    return status;
}

/* Returns whether the option --json is given, so that all that is wrong with the other words is said in JSON too. */
static bool asks_for_json(int words, char **word)
{
    for (int i = 1; i < words && strcmp(word[i], "--") != 0; i++) {
        if (strcmp(word[i], "--json") == 0)
            return true;
        i += strcmp(word[i], "--script") == 0; /* The word after it is the name of a file. */
    }
    return false;
}

int main(int words, char **word)
{
    if (asks_for_json(words, word))
        start_json(stdout);
    struct request request = read_request(words, word);
    int status = answer(&request);
    if (fflush(stdout) != 0 || ferror(stdout))
        stop(RIG_NOT_WRITTEN, "can't write to standard output: %s", strerror(errno));
    return status;
}
