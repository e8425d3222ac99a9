/* The help of the technician's program, and its version. docs/rig.1 is the manual page. */
#include "help.h"

#include "jyrmekko.h"

#include <stdio.h>
#include <string.h>

#ifndef RIG_COMMIT
#define RIG_COMMIT "unknown"
#endif
#ifndef RIG_KIT
#define RIG_KIT "unknown"
#endif

static const struct command {
    const char *name;
    const char *usage; /* These are its forms, one on a line. */
    const char *brief; /* The lines of the overview say so about each form. */
    const char *more;
} commands[] = {
    {"verdict", "rig verdict [--bytes|--text] [--json] TABLE\n",
     "rig verdict TABLE                says whether the jobs of a table can always be run in time\n",
     "Says whether the table is feasible (20): whether its jobs can all be run in time at every load that it allows. Where\n"
     "it is overloaded (21), the shortest length of time is named in which the jobs ask for more than there is, with what\n"
     "they ask for. How much of that the timer takes and the servers ask for is said too. 'rig explain' says more.\n"},
    {"explain", "rig explain [--bytes|--text] [--json] [--script FILE] TABLE\n",
     "rig explain TABLE                says why: how near a table is to its limits, or which jobs are too much for it\n",
     "For a feasible table: the share of the processor that rows, servers and timer ask for, how far the c of each row could\n"
     "grow by itself, and the least slack: how many ticks a length of time has to spare at the least, among the lengths at\n"
     "which the demand of a row or a server steps up.\n"
     "For an overloaded table: the witness, which is the shortest length of time in which the jobs ask for more than there\n"
     "is, with the jobs and units of each row and server in it, and the taken ticks. With '--script FILE' the script of\n"
     "these jobs is written, as text. 'rig replay' then shows the late job, or refuses the script (8) where its jobs need\n"
     "more than the 256 places that there are, and then this is said.\n"},
    {"replay", "rig replay [--bytes|--text] [--json] TABLE SCRIPT [LOG]\n",
     "rig replay TABLE SCRIPT [LOG]    runs the releases of a script, and writes a record for each job to LOG\n",
     "Runs the releases of a script on a table, and says for each row and server how many jobs there were, how many were\n"
     "late, the least slack, which is how many ticks before its due time the nearest job finished, and the worst response,\n"
     "which is the most ticks from a release to a finish. A row without jobs has '-': nothing was tested of it. LOG is\n"
     "written only if the answer is 22 or 23.\n"},
    {"show",
     "rig show table [--bytes|--text] [--json] TABLE\n"
     "rig show script [--bytes|--text] [--json] SCRIPT [TABLE]\n"
     "rig show log [--json] LOG [[--bytes|--text] TABLE SCRIPT]\n",
     "rig show table TABLE             shows the numbers of a table\n"
     "rig show script SCRIPT [TABLE]   shows a script with its times, and beside a table its due times and servers\n"
     "rig show log LOG [TABLE SCRIPT]  shows a log, and says whether it is the whole log of that replay\n",
     "What is shown of a table or a script is a text that 'rig spell' turns into the same bytes. Due times are those that\n"
     "the library gives; from a release on that it refuses there are none. A log is always bytes, as replay wrote it.\n"},
    {"spell", "rig spell TEXT OUT\n",
     "rig spell TEXT OUT               turns the text of a table or a script into its bytes\n",
     "A text is decimal numbers, without separators, and comments that start with #. A table is s and p of the sampling\n"
     "timer on the first line, then the row count on a line of its own, then a line 'x y d c' for each row, and a line\n"
     "'server a b' for each server. A script is a line 'gap row cost' for each release. It is said for what the text was\n"
     "taken.\n"},
    {"demo", "./rig demo\n", "rig demo                         shows all of this on examples/ (only as ./rig demo)\n",
     "Shows the main job on the examples of the repository.\n"},
    {"help", "rig help [COMMAND]\nrig COMMAND --help\nrig --help\nrig -h\n",
     "rig help [COMMAND]               shows this page, or the page of one command, as 'rig COMMAND --help' does\n"
     "rig --version                    says the version, and which library this is\n",
     "Shows the page of a command, or of all.\n"},
};

static const char options[] =
    "  --bytes, --text  say how the files after them are to be read. Without them the content tells, and the program says\n"
    "                   which it took. Where a text would be accepted as bytes too, it asks for one of these options.\n"
    "  --json           says everything as one JSON object, for programs\n"
    "  --script FILE    explain: writes the script that shows the overload\n"
    "  --               ends the options\n"
    "A file named '-' is standard input, or standard output for LOG, OUT and FILE. A file that is read is never written\n"
    "over.\n";

static const char files[] =
    "A table starts with s and p of the sampling timer, which takes the first s ticks of every p. Then come the row\n"
    "count, on a line of its own, and a line 'x y d c' for each row: x executions in any y ticks, each due d ticks after\n"
    "its release, each of at most c units. A rig without a timer has '0 1' in front, and a table that was written before\n"
    "tables had a timer needs these two numbers there. A script is a line 'gap row cost' for each release: the ticks since\n"
    "the release before it, the row number, counted from 0, and the units that it costs.\n"
    "\n"
    "After the rows each server has a line 'server a b'. It gives a units in b ticks to odd jobs, which may come at any\n"
    "time. An odd job is due b/a ticks for each unit of its cost, rounded up, after its release or after the due time of\n"
    "the server's job before it, if that is later. In scripts and logs the servers have the row numbers after those of\n"
    "the rows. As bytes the server count stands before them, and a table without servers ends with 00. 'spell' writes\n"
    "that count, so a text without servers stays as it was. The bytes of a table from before there were servers need 00\n"
    "at their end.\n"
    "\n"
    "A refusal names the number that is refused, its value and its range, with its line and column in a text and the place\n"
    "of its byte, counted from 0. p must be 1 to 4,096 and s below p, x 1 to 64, y 1 to 4,096, d 1 to 16,384, c 1 to\n"
    "4,096 and not above d (16), a 1 to 4,096 and b a to 4,096. Where bytes are no number (1, 14, and 65 of show), the bad\n"
    "byte is named with its value: a superfluous zero group, or a sixth group that asks for more. Where the bytes end\n"
    "inside a number, or where a number should stand, the byte after the last one is named.\n";

static const char statuses[] =
    "Exit status: never 0, so that no silence reads as a pass.\n"
    "\n"
    "  verdict, explain, replay: the number of the answer\n"
    "    20  feasible                         1 to 5, 16    the table is refused\n"
    "    21  overloaded                       6 to 10, 14   the script is refused\n"
    "    22  replayed, all in time\n"
    "    23  replayed, with a finish after its due time\n"
    "    61  replay: the script releases no job, so nothing was played and nothing was tested\n"
    "    62  explain: the table is overloaded, and the script that was asked for is not written\n"
    "  show, spell, demo, help\n"
    "    60  done, which says nothing about any table\n"
    "  all of them\n"
    "    64  the command is not used as this page says, or a file could be bytes and text\n"
    "    65  a file is not what it was said to be, or a text is no table or no script\n"
    "    66  a file can't be read\n"
    "    69  the program can't be built\n"
    "    70  the library gave no answer that it may give, or the demo went wrong\n"
    "    71  there is not enough memory\n"
    "    74  a file or standard output can't be written\n"
    "\n"
    "In a shell script, test for the one status that is wanted:\n"
    "    rig verdict my.txt; [ $? -eq 20 ] || echo 'not shown to be feasible'\n"
    "    rig verdict my.txt || [ $? -eq 20 ]       # under set -e\n"
    "In a makefile:\n"
    "    rig verdict my.txt || [ $$? -eq 20 ]\n";

static const struct command *find_command(const char *name)
{
    for (size_t i = 0; i < sizeof commands / sizeof commands[0]; i++)
        if (strcmp(commands[i].name, name) == 0)
            return &commands[i];
    return NULL;
}

bool print_help(const char *name)
{
    const struct command *command = find_command(name);
    if (command == NULL && name[0] != '\0')
        return false;
    if (command != NULL) {
        printf("%s\n%s\n%s\n%s", command->usage, command->more, options, statuses);
        return true;
    }
    for (size_t i = 0; i < sizeof commands / sizeof commands[0]; i++)
        fputs(commands[i].brief, stdout);
    printf("\n%s\n%s\n%s", options, files, statuses);
    return true;
}

const char *usage_of(const char *name)
{
    const struct command *command = find_command(name);
    return command != NULL ? command->usage : NULL;
}

void print_version(void)
{
    printf("rig %s\nlibrary: commit %s, proved with %s\n", JYRMEKKO_VERSION, RIG_COMMIT, RIG_KIT);
}
