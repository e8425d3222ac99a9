/*
 * jyrmekko.h: the rig's scheduler, for a host in C or C++
 *
 * verdict() says whether a table is feasible: whether its jobs can all be run in time at every load that it allows, in
 * the ticks that the sampling timer leaves free. Jobs that have a rate belong to rows, and odd jobs, which have none, to
 * servers. replay() runs a script of releases on a table and writes a log of the jobs. run_start(), run_release(),
 * run_tick() and run_end() are the live calls: with them a controller runs its jobs tick by tick, and says by itself
 * what is released and ended. Every call returns a status, which is one of the numbers below. Zero is none of them, and
 * no refusal looks like a yes. Test for the status that you want, and never for the absence of another.
 *
 * Buffers. Each buffer is lent as a pointer and a length in bytes. The buffers of one call must not overlap. A null
 * pointer is allowed only with length 0. Any bytes may be handed in, and nothing has to be checked beforehand. The
 * calls read and write only inside these buffers, and inside the run that a live call is lent. Apart from that run they
 * keep nothing from one call to the next. They share no state, so any number of threads may call at once, each with
 * buffers and a run of its own. They take no memory from the heap. A thread whose stack has JYRMEKKO_STACK_SIZE bytes
 * can make verdict() and replay(), and one whose stack has JYRMEKKO_RUN_STACK_SIZE bytes every call, whatever is handed
 * in.
 *
 * Library. The calls are proved, and compiled for x86-64 with the calling convention of System V, which Linux uses.
 * They need memcpy() and memset() of the C library, and nothing else. The package that ./install makes has this file
 * and libjyrmekko.a. In both the names of the six calls begin with jyrmekko_, so that they meet no other name of a
 * program. In the repository, where target/staticlib/libhost.a has the calls, their names stand without it. The code is
 * the same, byte for byte. Beside the calls there are helpers in plain C, which are declared at the end of this file.
 *
 * Time and stack. Both are measured, and not proved. The times are microseconds on an AMD EPYC processor with little
 * other work beside it, on the slowest inputs that were found for each call. For replay() they are microseconds for
 * each job. They are of an earlier library, as the kit before this one compiled it. The stack is the most bytes that a
 * call takes below its caller, with any input. In the first call of a program the dynamic linker binds memcpy() and
 * memset(), which takes some thousand bytes more, 3,200 on that processor. Times and stack are measured by
 * bench/worst.c and c/test_stack_use.c, which stand in the repository. The numbers are the highest median of ten runs,
 * the slowest of all calls in them, and the stack:
 *
 *     verdict()       5,100     7,900    54,300
 *     replay()          0.5       0.7    68,700
 *     run_start()         6        69    58,700
 *     run_release()      24       150   225,800
 *     run_tick()         11        56   138,500
 *     run_end()          24       139   167,500
 *
 * A verdict on a small table takes less than a microsecond. The times of replay() are for jobs of which each goes before
 * 255 others that wait. Where each goes behind those that wait, or none waits, it takes 0.02 to 0.06 microseconds for
 * each job. Its time grows with the number of jobs, and not with the ticks between them.
 *
 * Numbers. A number in a table, a script or a log is spelled in groups of seven bits, one group a byte, the lowest
 * group first. The top bit of a byte is set when another byte of the same number follows. A number has at most 6
 * groups, and the last group of a number with more than one group is not zero. So one number has one spelling: 0 is
 * 00, 127 is 7F, 128 is 80 01, 300 is AC 02. Time is counted in ticks, from 0 to 2^40.
 *
 * Tables. A table is s and p of the sampling timer, then its row count, from 0 to JYRMEKKO_MOST_ROWS, then x, y, d and
 * c of each row, then its server count, from 0 to JYRMEKKO_MOST_SERVERS, then a and b of each server, and nothing after.
 * In a row, x executions are expected in any y ticks, each is due d ticks after its release, and each costs at most c
 * units. One unit is one tick of the processor. x is 1 to 64, y is 1 to 4,096, d is 1 to 16,384 and c is 1 to 4,096. A
 * row with c above d is hopeless, since no job gets more units than it has ticks, and no table may have one. H, the
 * least common multiple of p, the y of all rows and the b of all servers, is at most 1,048,576.
 *
 * Timer. The sampling timer takes the first s ticks of every p, counted from clock 0, and no job can have them: the
 * tick at the clock t is taken when t modulo p is below s. Every other tick is free for jobs. p is 1 to 4,096 and s is
 * 0 to p - 1. With s = 0 no tick is taken, but p counts in H all the same. A rig without a timer has s = 0 and p = 1.
 *
 * Servers. A server is for odd jobs: they have no rate, and may come at any time. It gives them a share of the
 * processor, a units in b ticks. a is 1 to JYRMEKKO_MOST_SERVER_VALUE, and b is a to JYRMEKKO_MOST_SERVER_VALUE. b counts
 * in H as it stands, also where a / b could be reduced. Servers are numbered after the rows: server k, counted from 0,
 * has the row number k plus the row count, in scripts and in logs. An odd job costs 1 to JYRMEKKO_MOST_ODD_COST units.
 * What it costs decides when it is due, so on a feasible table odd jobs make nobody late, however many there are.
 *
 * Earlier spellings. A table without a server count at its end is not read any more, and a table that starts with its
 * row count is not either. A table from before there were servers gains 00 at its end, and one from before there were
 * timers gains 00 01 in front besides. Then it is the table of that rig, and its verdict is what it was.
 *
 * Scripts. A script is any number of records of three numbers: the gap, which is the time since the last record (for
 * the first record since 0); the row number, counted from 0; and the cost. A row number is in use when it is below the
 * sum of the table's row count and its server count. A record's script time is the sum of all gaps up to and including
 * its own. Each record releases one job at its script time, and at most JYRMEKKO_MOST_PENDING jobs, of rows and servers
 * together, may be pending at a time. Jobs get their serials from 0 on, in the order of release, over all rows and
 * servers.
 *
 * Due times. The j-th job of a row, released at t, is due at t + d. Where j is above x, it is due at the later of t + d
 * and y ticks after the due time of job j - x. An odd job of cost e, released at t, is due e * b / a ticks, rounded up,
 * after the later of t and its server's last due time. That is the due time of the server's job before it, finished or
 * not, and 0 before the first. Each tick that is not taken gives one unit to the pending job with the earliest due
 * time, and among equal due times to the lowest serial. A taken tick gives no unit, and jobs become late in it as in any
 * other.
 *
 * Logs. A log has one record of five numbers for each job, in the order of finishing: serial, row number, release, due
 * time, finish. The row number of an odd job is its server's. A job that finishes after its due time is late, and one
 * that finishes exactly at it is not. A record of a log takes at most 30 bytes and a record of a script at least 3. So a
 * log buffer of JYRMEKKO_LOG_SIZE(script_len) bytes is always long enough.
 *
 * Live runs. A live run is a struct jyrmekko_run, in memory that the host provides. run_start() makes it the fresh run
 * of a table, with the clock at 0. run_release() hands in one job, released at the clock. run_tick() lets one tick go by
 * and says which job had it. run_end() ends a job that is done before its cost, such as a reading that came early. Row
 * numbers, serials, due times and the choice of the job are those of scripts and logs. Where verdict() finds the table
 * feasible, every accepted job has had exactly its cost by its due time, counted in the answers of run_tick(), or it was
 * ended and has had what run_end() answered. This holds whatever else is released, ended or refused. What a live run
 * does not promise is that a release is accepted: a flood can use up the places, and then the release is refused with 8.
 *
 * The caller of a live run owes this:
 *   - The run is no null pointer, lies at an address that 8 divides, as every struct jyrmekko_run of C does, and
 *     overlaps no buffer.
 *   - A run takes one call at a time. Where a thread or an interrupt handler could call while another call on the same
 *     run is under way, a lock or masked interrupts have to keep it out. Two runs need no lock.
 *   - Nobody but the live calls writes to the run, and nobody copies it while a call on it is under way. Between two
 *     calls it may be copied as a whole, and the copy is a run by itself.
 * Any bytes may stand in a run all the same, and no call goes wrong by them: run_start() overwrites them, and every
 * other call refuses a run that is not sound with 11. A run of zeros, which was never started, is not sound. Other
 * memory that was never started could be sound by chance, so start every run. 11 never comes while the caller keeps to
 * this.
 *
 * Answers. The answer buffer has exactly 16 bytes and takes two numbers of eight bytes each, the lowest byte first. For
 * a refusal they are its place and 0. A place counts bytes from 0. For 1 to 5 and 16 it is a place in the table, and
 * for every other refusal of replay() a place in the script. run_release(), run_tick() and run_end() have no place to
 * name, and beside their refusals both numbers are 0.
 *
 * Bad bytes. 1 and 14 refuse a number that can't be read, and their place is the byte that is wrong:
 *   - Where the last group of a longer number is zero, it is the byte of that group. For 80 00 it is the byte 00.
 *   - Where the sixth group of a number asks for more, it is the sixth byte, 5 after the number's start, whether or not
 *     more bytes follow.
 *   - Where the bytes end inside a number, or where a number should stand, it is the length of the table or script. No
 *     byte stands there.
 * So the table 80 00 is refused with 1 at place 1, the table 00 01 01 01 80 80 80 80 80 80 01 with 1 at place 9, and
 * the table 00 01 00, which has no server count, with 1 at place 3, its length. On a table with a row, the script 00 00
 * is refused with 14 at place 2, its length.
 *
 * Examples. stop(), wait_for_timer() and give_the_processor_to() are the host's own functions here. A table is judged,
 * a script is replayed on it, and its log is read:
 *
 *     uint8_t table[] = {0, 1, 1, 1, 2, 6, 1, 0}, script[] = {0, 0, 1, 4, 0, 1};
 *     uint8_t log[JYRMEKKO_LOG_SIZE(sizeof script)], answer[JYRMEKKO_ANSWER_SIZE];
 *     uint32_t status = verdict(table, sizeof table, answer, sizeof answer);
 *     if (status != JYRMEKKO_FEASIBLE) stop(jyrmekko_text(status));
 *     status = replay(table, sizeof table, script, sizeof script, log, sizeof log, answer, sizeof answer);
 *     if (status != JYRMEKKO_IN_TIME) stop(jyrmekko_text(status));
 *     size_t at = 0, log_len = jyrmekko_first(answer);
 *     while (at < log_len) {
 *         uint64_t job[5];
 *         for (int i = 0; i < 5; i++)
 *             if (!jyrmekko_read_number(log, log_len, &at, &job[i])) stop("the log can't be read");
 *         printf("job %" PRIu64 " is due at %" PRIu64 " and finished at %" PRIu64 "\n", job[0], job[3], job[4]);
 *     }
 *
 * The same rig with a server that gives 1 unit in 4 ticks has the table {0, 1, 1, 1, 2, 6, 1, 1, 1, 4}. On it the
 * script {0, 0, 1, 0, 1, 2} releases a job of the row and an odd job of cost 2, which is due at tick 8.
 *
 * A controller's loop, in which a job of row 0 is released every 10 ticks:
 *
 *     static struct jyrmekko_run run;
 *     status = run_start(table, sizeof table, &run, answer, sizeof answer);
 *     if (status != JYRMEKKO_STARTED) stop(jyrmekko_text(status));
 *     for (uint64_t now = 0;; now++) {
 *         wait_for_timer();
 *         if (now % 10 == 0) {
 *             status = run_release(&run, 0, 1, answer, sizeof answer);
 *             if (status != JYRMEKKO_ACCEPTED) stop(jyrmekko_text(status));
 *         }
 *         status = run_tick(&run, answer, sizeof answer);
 *         if (status == JYRMEKKO_RAN || status == JYRMEKKO_FINISHED) give_the_processor_to(jyrmekko_first(answer));
 *         else if (status != JYRMEKKO_IDLE && status != JYRMEKKO_TAKEN) stop(jyrmekko_text(status));
 *     }
 *
 * Whole programs stand in the repository, in examples/host: batch.c judges a table and replays a script on it, and
 * controller.c keeps a run live.
 */
#ifndef JYRMEKKO_H
#define JYRMEKKO_H

#include <stddef.h>
#include <stdint.h>

#ifdef __cplusplus
extern "C" {
#endif

/* The lengths of the buffers for an answer, and for any log of a script, and the size of a live run, in bytes. */
#define JYRMEKKO_ANSWER_SIZE 16
#define JYRMEKKO_LOG_SIZE(script_len) (10 * (script_len))
#define JYRMEKKO_RUN_SIZE 47872

/*
 * The version of this file. A program compares JYRMEKKO_VERSION_NUMBER, with which it was compiled, with
 * jyrmekko_version_number(), which is the number of the library that it was linked with.
 */
#define JYRMEKKO_VERSION_MAJOR 1
#define JYRMEKKO_VERSION_MINOR 0
#define JYRMEKKO_VERSION_PATCH 0
#define JYRMEKKO_VERSION "1.0.0"
#define JYRMEKKO_VERSION_NUMBER \
    (1000000 * JYRMEKKO_VERSION_MAJOR + 1000 * JYRMEKKO_VERSION_MINOR + JYRMEKKO_VERSION_PATCH)

/* The limits. */
#define JYRMEKKO_MOST_ROWS 64           /* A table has no more rows than this. */
#define JYRMEKKO_MOST_SERVERS 8         /* A table has no more servers than this. */
#define JYRMEKKO_MOST_SERVER_VALUE 4096 /* A server's a and b are no more than this. */
#define JYRMEKKO_MOST_ODD_COST 4096     /* An odd job costs no more than this. */
#define JYRMEKKO_MOST_PENDING 256       /* No more jobs than this are pending at a time. */
#define JYRMEKKO_NUMBER_SIZE 6          /* The spelling of a number has no more bytes than this. */
#define JYRMEKKO_LARGEST_NUMBER ((UINT64_C(1) << 42) - 1) /* No larger number can be spelled. */

/*
 * The bytes of stack with which a thread can make verdict() and replay(). With what the system itself puts on a
 * thread's stack, a thread needs at most 77,824 bytes for them. The other 20,480 are room, for the functions that make
 * the call and for signal handlers.
 */
#define JYRMEKKO_STACK_SIZE 98304

/*
 * The bytes of stack with which a thread can make every call. A live call works on copies of the run, and they stand
 * on the stack. With what the system itself puts on a thread's stack, a thread needs at most 233,472 bytes. The other
 * 73,728 are room, as above.
 */
#define JYRMEKKO_RUN_STACK_SIZE 307200

/*
 * The statuses. The comment on an answer says what the two numbers of the answer buffer are. The comment on a refusal
 * says when it is given, and then its place. A number never changes its meaning.
 */
enum jyrmekko_status {
    /* The answers of verdict(). */
    JYRMEKKO_FEASIBLE = 20,            /* No length of time has more demand than length. Numbers: 0 and 0. */
    JYRMEKKO_OVERLOADED = 21,          /* Some length has. Numbers: the smallest such length and its demand, in */
                                       /* which the servers and the taken ticks are counted. */

    /* The answers of replay(). */
    JYRMEKKO_IN_TIME = 22,             /* All jobs are in time. Numbers: the log's length in bytes, and 0. */
    JYRMEKKO_LATE = 23,                /* A job is late. Numbers: the log's length in bytes, and how many are late. */

    /* The answers of the live calls. */
    JYRMEKKO_STARTED = 33,             /* run_start(): the run is started. Numbers: 0 and 0. */
    JYRMEKKO_ACCEPTED = 34,            /* run_release(): the job is accepted. Numbers: its serial and its due time. */
    JYRMEKKO_IDLE = 35,                /* run_tick(): the tick was free, and no job was pending. Numbers: 0 and 0. */
    JYRMEKKO_RAN = 36,                 /* run_tick(): a job had the unit, and has not finished. Numbers: its serial, */
                                       /* and how many jobs became late in this tick. */
    JYRMEKKO_FINISHED = 37,            /* run_tick(): a job had the unit, and has finished. Numbers: its serial, and */
                                       /* how many jobs became late in this tick. */
    JYRMEKKO_TAKEN = 38,               /* run_tick(): the timer took the tick. Numbers: 0, and how many jobs became */
                                       /* late in this tick. */
    JYRMEKKO_ENDED = 39,               /* run_end(): the job is ended. Numbers: the units that it was given, and 0. */

    /* The refusals of a table, by verdict(), replay() and run_start(). */
    JYRMEKKO_MISSPELLED = 1,           /* A number is misspelled or too long. Place: the bad byte. */
                                       /* Or a number is cut off. Place: the table's length. */
    JYRMEKKO_TOO_MANY_ROWS = 2,        /* The row count is above JYRMEKKO_MOST_ROWS, or the server count is above */
                                       /* JYRMEKKO_MOST_SERVERS. Place: the count's start. */
    JYRMEKKO_VALUE_OUT_OF_RANGE = 3,   /* A p, x, y, d, c, a or b is out of its range. Place: the number's start. A b */
                                       /* below its server's a is out of its range too. */
                                       /* Or s is not below p. Place: 0, the start of s. */
    JYRMEKKO_EXTRA_BYTES = 4,          /* There are bytes after the last server, or after a server count of 0. */
                                       /* Place: the first extra byte. */
    JYRMEKKO_PERIOD_TOO_LONG = 5,      /* H is above 1,048,576. Place: the table's length. */
    JYRMEKKO_HOPELESS_ROW = 16,        /* A row's c is in its range and above the row's d. Place: the start of c. */

    /* The refusals of a script, by replay(). 6 to 9 are refusals of run_release() too, for the same reasons, and 10 */
    /* is one of run_tick(). Their place is 0 then. */
    JYRMEKKO_NO_SUCH_ROW = 6,          /* The row number is not in use: it is neither a row's nor a server's. Place: */
                                       /* the row number's start. */
    JYRMEKKO_COST_OUT_OF_RANGE = 7,    /* The cost is 0, or above the row's c, or for an odd job above */
                                       /* JYRMEKKO_MOST_ODD_COST. Place: the cost's start. */
    JYRMEKKO_PLACES_FULL = 8,          /* JYRMEKKO_MOST_PENDING jobs are pending at a release. Place: the */
                                       /* record's start. */
    JYRMEKKO_DUE_TOO_LATE = 9,         /* The due time, of a row's job or of an odd job, would be above 2^40. Place: */
                                       /* the record's start. */
    JYRMEKKO_TIME_TOO_LATE = 10,       /* A script time is above 2^40. Place: the gap's start. */
                                       /* Or, after the last record, the clock is at 2^40 with a job pending. Place: */
                                       /* the script's length. */
                                       /* run_tick(): the clock is at 2^40, even with no job pending. Place: 0. */
    JYRMEKKO_SCRIPT_MISSPELLED = 14,   /* A number is misspelled or too long. Place: the bad byte. */
                                       /* Or a number is cut off. Place: the script's length. */

    /* The refusals of a buffer. */
    JYRMEKKO_NO_ROOM = 12,             /* replay(): the log is longer than its buffer. Place: the script's length. */
    JYRMEKKO_ANSWER_NOT_16_BYTES = 13, /* Every call: the answer buffer is not 16 bytes long. No buffer is written */
                                       /* to, and a live run stays as it was. */

    /* The refusals of a live run, which verdict() and replay() never return. Their place is 0. */
    JYRMEKKO_RUN_NOT_SOUND = 11,       /* run_release(), run_tick() and run_end(): the run is not sound. It was not */
                                       /* started, or somebody else wrote to it. */
    JYRMEKKO_NOT_PENDING = 17,         /* run_end(): no pending job has this serial. It was never given out, or its */
                                       /* job has finished or was ended before. */
    JYRMEKKO_TOO_MANY_ENDED = 18,      /* run_end(): 2^40 jobs were ended early. */

    /* The refusal inside the scheduler, which none of these calls returns. */
    JYRMEKKO_NUMBER_TOO_BIG = 25       /* A number to write is above 2^42 - 1. */
};

/* Earlier names of five statuses. They stay, so that a program that uses them still compiles. */
#define JYRMEKKO_TABLE_MISSPELLED JYRMEKKO_MISSPELLED
#define JYRMEKKO_BYTES_AFTER_TABLE JYRMEKKO_EXTRA_BYTES
#define JYRMEKKO_NO_FREE_PLACE JYRMEKKO_PLACES_FULL
#define JYRMEKKO_LOG_TOO_SHORT JYRMEKKO_NO_ROOM
#define JYRMEKKO_NUMBER_TOO_LARGE JYRMEKKO_NUMBER_TOO_BIG

/*
 * Says whether the table is feasible.
 *
 * It returns 20 or 21, or a refusal. 13 comes first, and then 1 to 5 and 16. The table is tested from left to right,
 * each number as it is read: s for 1, p for 1 and 3, the row count for 1 and 2, each x, y and d for 1 and 3, each c for
 * 1, 3 and 16, the server count for 1 and 2, and each a and b for 1 and 3. Only s waits for p: right after p's own
 * range comes 3 for an s that is not below p. After the last server comes 4, and then 5. So the table 01 00 is refused
 * with 3 at place 1, the table 01 01 with 3 at place 0, the table 00 01 02 01 04 04 05, which is cut off after a
 * hopeless row, with 16 at place 6, and the table 00 01 00 01 04 03, whose server has a b below its a, with 3 at place
 * 5. Every status but 13 writes the answer buffer. The table is only read.
 *
 * The demand of a row in a length of time L is 0 if L is below d, and otherwise ((L - d) / y + 1) * x * c units, with
 * the division rounded down. The demand of a server is a * L / b units, rounded down. The timer takes at most
 * (L / p) * s of L ticks, with the division rounded down, and the smaller of s and L modulo p besides. The demand of a
 * table is the sum over its rows, its servers and these taken ticks.
 *
 * The length L beside 21 is a witness. It names jobs that nobody can run in time, all released at 0, in the ticks that
 * the timer leaves free: of each row whose d is at most L, the first ((L - d) / y + 1) * x jobs at the cost c, and of
 * each server one odd job of the cost a * L / b, if that is not 0. This cost may be above JYRMEKKO_MOST_ODD_COST.
 *
 * No demand is worked out in a length above H + the largest d, however large the witness is, and lengths that are known
 * to fit are passed over. That the verdict is right is proved. How long it takes is only measured, as said above.
 */
uint32_t verdict(const uint8_t *table, size_t table_len, uint8_t *answer, size_t answer_len);

/*
 * Runs a script from clock 0 until its last job has finished. Taken ticks go by without a unit for anybody. Overloaded
 * tables are replayed too.
 *
 * It returns 22 or 23, or a refusal. 13 comes first, and then those of the table as in verdict(). Then each record is
 * tested in turn: the gap for 14 and 10, the row number for 14 and 6, the cost for 14 and 7, and then the release for 8
 * and 9. After the last record comes 10. 12 comes last of all, so a log buffer that is too short hides no other
 * refusal.
 *
 * 13 writes nothing, and every other status writes the answer buffer. With 22 and 23 the log stands at the start of its
 * buffer, and the bytes past the log's length stay as they were. With every refusal but 13 the whole log buffer is
 * filled with zeros. The table and the script are only read.
 */
uint32_t replay(const uint8_t *table, size_t table_len, const uint8_t *script, size_t script_len,
    uint8_t *log, size_t log_len, uint8_t *answer, size_t answer_len);

/*
 * A live run. Its words are the scheduler's, and no host needs to know what they say: it reads the answers. A run is
 * large, and stands better in static memory than on a stack.
 */
struct jyrmekko_run {
    uint64_t words[JYRMEKKO_RUN_SIZE / 8];
};

/*
 * Starts a run on a table, whatever stood in its memory before. Overloaded tables are started too, so ask verdict()
 * first.
 *
 * It returns 33, or a refusal. 13 comes first, and with it nothing changes at all, neither the answer buffer nor the
 * run. Then come those of the table as in verdict(), with their places. After one of these the run is the fresh run of
 * the table without rows and servers: nothing is left of the run before, every release is refused with 6, and every tick
 * is idle. Every status but 13 writes the answer buffer. The table is only read.
 */
uint32_t run_start(const uint8_t *table, size_t table_len, struct jyrmekko_run *run, uint8_t *answer, size_t answer_len);

/*
 * Releases a job of a row or of a server at the clock, with this cost.
 *
 * It returns 34, with the job's serial and its due time, or a refusal. 13 comes first, then 11, 6, 7, 8 and 9. A refusal
 * leaves the run as it was, and counts as no release. Every status but 13 writes the answer buffer.
 */
uint32_t run_release(struct jyrmekko_run *run, uint64_t row, uint64_t cost, uint8_t *answer, size_t answer_len);

/*
 * Lets one tick go by. Where the timer leaves it free, it gives one unit to the pending job with the earliest due time,
 * and among equal due times to the lowest serial. The clock goes up by one.
 *
 * It returns 35, 36, 37 or 38, or a refusal. 13 comes first, then 11 and 10. A refusal leaves the run as it was. A job
 * becomes late in the tick that takes the clock to its due time, where it is still pending after the unit. It stays
 * pending, and is not counted again. On a feasible table no job becomes late. Every status but 13 writes the answer
 * buffer.
 */
uint32_t run_tick(struct jyrmekko_run *run, uint8_t *answer, size_t answer_len);

/*
 * Ends the pending job with this serial. It gets no unit from then on, never becomes late, and frees its place at once.
 * Later jobs of its row or server are due as if it had not been ended.
 *
 * It returns 39, with the units that the job was given, or a refusal. 13 comes first, then 11, 17 and 18. A refusal
 * leaves the run as it was. Every status but 13 writes the answer buffer.
 */
uint32_t run_end(struct jyrmekko_run *run, uint64_t serial, uint8_t *answer, size_t answer_len);

/*
 * The helpers, for a host that makes tables and scripts, reads logs, and says to people what a status means. They are
 * plain C, in c/jyrmekko.c, which the installed library has in it. They are tested against the proved calls, and are
 * not proved. They keep no state and take no memory, as the calls do.
 */

/* Returns the JYRMEKKO_VERSION_NUMBER with which the library was compiled. */
uint32_t jyrmekko_version_number(void);

/*
 * Returns a short text for a status, in the words of the rules, such as "feasible" for 20. It begins in lower case and
 * has no full stop. It is never null: for a number that is no status it says so. Nobody may write to it.
 */
const char *jyrmekko_text(uint32_t status);

/* Return the first and the second number of an answer buffer of JYRMEKKO_ANSWER_SIZE bytes, all eight bytes of each. */
uint64_t jyrmekko_first(const uint8_t *answer);
uint64_t jyrmekko_second(const uint8_t *answer);

/*
 * Writes the spelling of a value at the start of out, which has room for so many bytes. Returns the length of the
 * spelling, 1 to JYRMEKKO_NUMBER_SIZE. Where the value is above JYRMEKKO_LARGEST_NUMBER, or the room is too short, it
 * writes nothing and returns 0.
 */
size_t jyrmekko_write_number(uint8_t *out, size_t room, uint64_t value);

/*
 * Reads the number that starts at *at, a place in so many bytes. Returns 1, stores the number in *value, and moves *at
 * past its last byte. Where no number is spelled there, it returns 0, leaves *value as it was, and moves *at to the bad
 * byte. That is the place which 1 and 14 name: the length where the number is cut off, or where *at was past the end.
 */
int jyrmekko_read_number(const uint8_t *bytes, size_t length, size_t *at, uint64_t *value);

#ifdef __cplusplus
}
#endif

#endif
