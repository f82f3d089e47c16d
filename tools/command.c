/* The command `esr`: what stands around the proved programs, with no C library, so that it runs on any Linux. It hands the words of the command line to a
   program as lines of its standard input, passes on what that writes, and ends with the status that tools/command.txt tells. Linked with all programs it is the
   installed command; ./esr links it with the one that it needs. */
#include <stddef.h>
#include <stdint.h>

#include "linux.h"
/* HELP and VERSION, the lines of each, which tools/retarget.py writes. */
#include "told.h"

LINUX_START;

/* A program is proved, and asks for what is defined below alone. It is null where it was not linked. */
typedef int program(void);
__attribute__((weak)) program esr_listing, esr_records, esr_number, esr_entry, esr_walk, esr_survey, esr_survey_sum, esr_make, esr_sheet, esr_diff, esr_turn;

long read(int file, void *bytes, size_t length);
long write(int file, const void *bytes, size_t length);
long rattle_arg(size_t index, uint8_t *bytes, size_t length);
int rattle_errno(void);
void rattle_set_errno(int error);
long __sysv_signal(int number, long handler);

enum { IN = 0, OUT = 1, ERR = 2 };
enum { ANSWERED = 0, REFUSED = 1, FAILED = 2 };

/* The program's own option, which is its argument 1, and how values are read (#110), which is its argument 2; or null. */
static const char *option;
static const char *profile;
/* The file of the workshop's phrase sheet (#112), NULL without one. The sheet is its argument 4, and argument 3 says that there is one. Bytes past the longest sheet are not read. */
static const char *sheet_name;
static uint8_t sheet[65537];
static size_t sheet_length;
/* Where the input comes from: an open file and the names of those that follow it, or words that are left. */
static int source = IN;
static char **files;
static char **words;
static size_t at;
/* The last byte that came from the files. */
static char last = '\n';
/* Whether what came before an input broke off is answered; whether one did. */
static int is_partial;
static int is_broken;
/* Whether such a line tells of something wrong: a survey counts what was refused. */
static int is_watched = 1;
/* The words by which a line tells of something wrong: a refusal, and in a walk entries that were lost or a sequence that stood twice. Whether a line began
   with one; the first bytes of the line now written. */
static const char *const wrong[] = {"refused", "lost", "same"};
enum { LONGEST = sizeof "refused" - 1 };
static int is_wrong;
static char front[LONGEST + 1];
static size_t begun;

static size_t length_of(const char *text) {
    size_t length = 0;
    while (text[length] != 0) {
        length++;
    }
    return length;
}

static int is(const char *text, const char *other) {
    size_t i = 0;
    while (text[i] != 0 && text[i] == other[i]) {
        i++;
    }
    return text[i] == other[i];
}

/* ---- what goes wrong: it is told on standard error, and ends the command, so that nothing is answered of an input that broke off; a survey still counts what it
   has read, and the status says that it is not all */

static void tell(const char *text) {
    call(WRITE, ERR, (long)text, (long)length_of(text));
}

static void complain(const char *before, const char *word, const char *after) {
    tell("esr: ");
    tell(before);
    tell(word);
    tell(after);
    tell("\n");
}

static void fail(const char *before, const char *word, const char *after) {
    complain(before, word, after);
    end(FAILED);
}

/* An input that broke off. */
static void break_off(const char *before, const char *word, const char *after) {
    if (!is_partial) {
        fail(before, word, after);
    }
    complain(before, word, after);
    is_broken = 1;
}

/* What Linux means by a negative number, where it has a name here. */
static const char *reason(long result) {
    static const struct {
        long error;
        const char *text;
    } reasons[] = {
        {2, ": no such file or directory"},
        {5, ": input/output error"},
        {9, ": it is not open"},
        {13, ": permission denied"},
        {20, ": not a directory"},
        {21, ": it is a directory"},
        {28, ": no space left on device"},
        {36, ": the name is too long"},
        {40, ": too many symbolic links"},
    };
    for (size_t i = 0; i < sizeof reasons / sizeof reasons[0]; i++) {
        if (reasons[i].error == -result) {
            return reasons[i].text;
        }
    }
    return "";
}

/* ---- files */

static const long HERE = -100;

/* Whether a file is there and may be read, before anything is; whether it can be is seen when it is opened. */
static void expect_file(const char *name) {
    const long to_read = 4;
    long result = call(ACCESS_AT, HERE, (long)name, to_read);
    if (result < 0) {
        fail(name, " cannot be read", reason(result));
    }
}

/* Opens a file, or gives a negative number. A read of no bytes tells what a directory is. */
static long opened(const char *name) {
    char none[1];
    long file = call(OPEN_AT, HERE, (long)name, 0);
    if (file < 0) {
        return file;
    }
    long result = call(READ, file, (long)none, 0);
    if (result < 0) {
        call(CLOSE, file, 0, 0);
        return result;
    }
    return file;
}

/* Goes on to the next file that can be opened, if there is one. */
static int has_next_file(void) {
    while (files != NULL && *files != NULL) {
        const char *name = *files++;
        long file = opened(name);
        if (file >= 0) {
            call(CLOSE, source, 0, 0);
            source = (int)file;
            return 1;
        }
        break_off(name, " cannot be read", reason(file));
    }
    return 0;
}

/* Bytes of the files, one after the other; a last line that has no line feed is ended, so that the next file begins another. */
static long of_files(char *bytes, size_t length) {
    for (;;) {
        long came = call(READ, source, (long)bytes, (long)length);
        if (came > 0) {
            last = bytes[came - 1];
            return came;
        }
        if (came < 0) {
            break_off("input could not be read", reason(came), "");
        }
        if (!has_next_file()) {
            return 0;
        }
        if (last != '\n') {
            last = bytes[0] = '\n';
            return 1;
        }
    }
}

/* Reads the sheet, if there is one, as far as one can go. */
static void read_sheet(void) {
    if (sheet_name == NULL) {
        return;
    }
    long file = opened(sheet_name);
    long came = file;
    while (came >= 0 && sheet_length < sizeof sheet) {
        came = call(READ, file, (long)(sheet + sheet_length), (long)(sizeof sheet - sheet_length));
        if (came == 0) {
            break;
        }
        sheet_length += came < 0 ? 0 : (size_t)came;
    }
    if (came < 0) {
        fail(sheet_name, " cannot be read", reason(came));
    }
    call(CLOSE, file, 0, 0);
}

/* ---- what the programs ask for */

static long handed(const uint8_t *given, size_t count, uint8_t *bytes, size_t length) {
    const long too_long = -2;
    for (size_t i = 0; i < count && i < length; i++) {
        bytes[i] = given[i];
    }
    return count <= length ? (long)count : too_long;
}

long rattle_arg(size_t index, uint8_t *bytes, size_t length) {
    const long missing = -1;
    const char *given = index == 1 ? option : index == 2 ? profile : index == 3 && sheet_name != NULL ? "--sheet" : NULL;
    if (index == 4 && sheet_name != NULL) {
        return handed(sheet, sheet_length, bytes, length);
    }
    return given == NULL ? missing : handed((const uint8_t *)given, length_of(given), bytes, length);
}

/* An argument that is missing or too long reads as one of length 0: no program tells why. */
int rattle_errno(void) {
    return 0;
}

void rattle_set_errno(int error) {
    (void)error;
}

/* A program begins by asking that a write to a reader who has gone fails. Here it ends the command, as it does any other. */
long __sysv_signal(int number, long handler) {
    (void)number;
    (void)handler;
    return 0;
}

/* Each word as a line. A line feed inside a word becomes a space: each ends a number, so the answer is the word's. */
static size_t of_words(char *bytes, size_t length) {
    size_t count = 0;
    while (count < length && *words != NULL) {
        char byte = (*words)[at++];
        bytes[count++] = byte == 0 ? '\n' : byte == '\n' ? ' ' : byte;
        if (byte == 0) {
            words++;
            at = 0;
        }
    }
    return count;
}

long read(int file, void *bytes, size_t length) {
    (void)file;
    if (words != NULL) {
        return (long)of_words(bytes, length);
    }
    return of_files(bytes, length);
}

/* Sees whether a line begins with one of the words. */
static void watch(const char *bytes, size_t length) {
    for (size_t i = 0; i < length; i++) {
        if (bytes[i] == '\n') {
            begun = 0;
        } else if (begun < LONGEST) {
            front[begun++] = bytes[i];
            front[begun] = 0;
            for (size_t word = 0; word < sizeof wrong / sizeof wrong[0]; word++) {
                is_wrong = is_wrong || is(front, wrong[word]);
            }
        }
    }
}

long write(int file, const void *bytes, size_t length) {
    long written = call(WRITE, file, (long)bytes, (long)length);
    if (written < 0) {
        fail("output could not be written", reason(written), "");
    }
    if (file == ERR) {
        is_wrong = 1;
    } else if (is_watched) {
        watch(bytes, (size_t)written);
    }
    return written;
}

/* ---- the command line */

static void say(const char *text) {
    size_t length = length_of(text);
    while (length != 0) {
        long written = write(OUT, text, length);
        text += written;
        length -= (size_t)written;
    }
}

static int is_terminal(int file) {
    uint8_t settings[256];
    const long get_settings = 0x5401;
    return call(CONTROL, file, get_settings, (long)settings) == 0;
}

static void start(program *asked) {
    if (asked == NULL) {
        fail("this command was linked without that program", "", "");
    }
    asked();
}

static void run(program *asked, char **given) {
    if (*given != NULL) {
        words = given;
    } else if (source == IN && is_terminal(IN)) {
        tell("esr: reading standard input; 'esr help' tells what else there is\n");
    }
    start(asked);
}

/* The words are files. */
static void run_on_files(program *asked, char **given) {
    char *none = NULL;
    for (char **name = given; *name != NULL; name++) {
        expect_file(*name);
    }
    if (*given != NULL) {
        long file = opened(*given);
        if (file < 0) {
            fail(*given, " cannot be read", reason(file));
        }
        source = (int)file;
        files = given + 1;
    }
    run(asked, &none);
}

static void run_on_file(program *asked, char **given, const char *usage) {
    if (given[0] != NULL && given[1] != NULL) {
        fail("one file at a time: ", usage, "");
    }
    run_on_files(asked, given);
}

/* The words after an option, if the first is one of these. */
static char **after_option(char **given, const char *const *options) {
    if (*given == NULL || (*given)[0] != '-') {
        return given;
    }
    for (; *options != NULL; options++) {
        if (is(*given, *options)) {
            option = *options;
            return given + 1;
        }
    }
    fail("no option '", *given, "'; 'esr help' tells what there is");
    return given;
}

/* The words after those that say how values are read: `--strict`, and `--nested` where the core has nested virtualisation. */
static char **after_profile(char **given) {
    for (; *given != NULL; given++) {
        if (is(*given, "--strict") && profile == NULL) {
            profile = "--strict";
        } else if (is(*given, "--nested") && profile != NULL) {
            profile = "--nested";
        } else if (is(*given, "--nested")) {
            fail("--nested goes with strict reading: ", "esr --strict --nested", "");
        } else if (!is(*given, "--strict")) {
            break;
        }
    }
    return given;
}

/* The words after those that name the workshop's sheet, and those that say how values are read. */
static char **after_sheet(char **given) {
    given = after_profile(given);
    if (*given == NULL || !is(*given, "--sheet")) {
        return given;
    }
    if (given[1] == NULL) {
        fail("a file is missing: ", "esr --sheet FILE VALUE..", "");
    }
    sheet_name = given[1];
    return after_profile(given + 2);
}

/* Only a listing takes its texts from a sheet. */
static void expect_no_sheet(const char *command) {
    if (sheet_name != NULL) {
        fail("there is no sheet for '", command, "'; 'esr help' tells what there is");
    }
}

/* A command that reads no syndrome cannot read one strictly. */
static void expect_no_profile(const char *command) {
    if (profile != NULL) {
        fail("there is no strict reading for '", command, "'; 'esr help' tells what there is");
    }
}

/* The values are lines of standard input, whose remarks are passed over where that is asked for, or words, each of which is one whole number. */
static void run_on_values(program *asked, char **given) {
    given = after_profile(given);
    if (*given != NULL && is(*given, "--remarks")) {
        given = after_profile(given + 1);
        option = *given == NULL ? "--remarks" : NULL;
    }
    run(asked, given);
}

static void survey(char **given) {
    static const char *const options[] = {"--all", "--add", NULL};
    char **names = after_profile(after_option(after_profile(given), options));
    is_partial = 1;
    is_watched = 0;
    if (option != NULL && is(option, "--add")) {
        expect_no_profile("survey --add");
        run_on_files(esr_survey_sum, names);
    } else {
        run_on_file(esr_survey, names, "esr survey FILE");
    }
}

/* The numbers are words, or lines of standard input; after --help one is the class. */
static void make(char **given) {
    static const char *const options[] = {"--help", NULL};
    char **numbers = after_option(given, options);
    if (option != NULL && (numbers[0] == NULL || numbers[1] != NULL)) {
        fail("one class at a time: ", "esr make --help CLASS", "");
    }
    run(esr_make, numbers);
}

/* The words are these, in their order and each once, or there is none, and lines of standard input are they. */
static void run_on_words(program *asked, char **given, size_t count, const char *usage) {
    static const char *const options[] = {NULL};
    size_t found = 0;
    given = after_option(given, options);
    while (given[found] != NULL) {
        found++;
    }
    if (found != 0 && found != count) {
        fail("other words are asked for: ", usage, "");
    }
    run(asked, given);
}

/* A value, a field and a number: the field is the program's own option, and the others are its lines. */
static void turn(char **given) {
    static char *lines[3];
    if (given[0] == NULL || given[1] == NULL || given[2] == NULL || given[3] != NULL) {
        fail("other words are asked for: ", "esr turn VALUE FIELD NUMBER", "");
    }
    lines[0] = given[0];
    lines[1] = given[2];
    option = given[1];
    run(esr_turn, lines);
}

/* The standard sheet, in bytes or in lines; or the sheet that lines make. A sheet has no lines, and what is refused is told apart from it. */
static void write_sheet(char **given) {
    static const char *const options[] = {"--text", "--from", NULL};
    char **names = after_option(given, options);
    is_watched = 0;
    if (option != NULL && is(option, "--from")) {
        run_on_file(esr_sheet, names, "esr sheet --from FILE");
    } else if (*names != NULL) {
        fail("no file is read for the standard sheet: '", *names, "'; 'esr help' tells what there is");
    } else {
        start(esr_sheet);
    }
}

static int is_value(const char *word) {
    return word[0] == 0 || word[0] == '+' || ('0' <= word[0] && word[0] <= '9');
}

static void say_lines(const char *const *lines, size_t count) {
    for (size_t i = 0; i < count; i++) {
        say(lines[i]);
    }
}

static void obey(char **given) {
    static const char *const help[] = {HELP};
    static const char *const version[] = {VERSION};
    given = after_sheet(given);
    const char *first = *given != NULL ? *given : "";
    if (!is_value(first) && !is(first, "--remarks")) {
        expect_no_sheet(first);
    }
    if (is(first, "help") || is(first, "--help") || is(first, "-h")) {
        say_lines(help, sizeof help / sizeof *help);
    } else if (is(first, "version") || is(first, "--version")) {
        say_lines(version, sizeof version / sizeof *version);
    } else if (is(first, "records")) {
        run_on_values(esr_records, given + 1);
    } else if (is(first, "number")) {
        expect_no_profile(first);
        run_on_values(esr_number, given + 1);
    } else if (is(first, "entry")) {
        run_on_file(esr_entry, after_profile(given + 1), "esr entry FILE");
    } else if (is(first, "walk")) {
        run_on_file(esr_walk, after_profile(given + 1), "esr walk FILE");
    } else if (is(first, "survey")) {
        survey(given + 1);
    } else if (is(first, "make")) {
        expect_no_profile(first);
        make(given + 1);
    } else if (is(first, "diff")) {
        expect_no_profile(first);
        run_on_words(esr_diff, given + 1, 2, "esr diff VALUE VALUE");
    } else if (is(first, "turn")) {
        expect_no_profile(first);
        turn(given + 1);
    } else if (is(first, "sheet")) {
        expect_no_profile(first);
        write_sheet(given + 1);
    } else if (!is_value(first) && !is(first, "--remarks")) {
        fail("no command '", first, "', and a value begins with a digit; 'esr help' tells what there is");
    } else {
        read_sheet();
        run_on_values(esr_listing, given);
    }
}

/* The words follow their count and end with a null; the first is the command's own name, which may be missing. */
void begin(char **stack) {
    long count = (long)stack[0];
    obey(stack + (count == 0 ? 1 : 2));
    end(is_broken ? FAILED : is_wrong ? REFUSED : ANSWERED);
}
