/* An approval screen in miniature: two pharmacists, a register in a file, and plans in files.

       approval REGISTER COMMAND WORD ..

   commands.c has the commands, and README.md what they say, what the screen ends with, and how its files are kept. */
#define _DEFAULT_SOURCE
#include "chivetassel_text.h"
#include "commands.h"
#include "end.h"
#include "files.h"
#include "out.h"
#include "register.h"
#include "words.h"

#include <fcntl.h>
#include <signal.h>
#include <stdio.h>
#include <stdlib.h>
#include <string.h>

/* Where a plan breaks a rule: from rule 5 on the place is a period's first block. */
static void tell_place(uint32_t number, uint32_t place) {
    char first[WORD_ROOM], last[WORD_ROOM];
    printf("where: block %u", place);
    if (number >= CHIVETASSEL_RULE_TREATMENT)
        printf(", the period from %s to %s", day_in(first, word_at(plan, 512 * place + 4)),
               day_in(last, word_at(plan, 512 * place + 8)));
    else if (place == 0)
        printf(", the head of the plan");
    else
        printf(", bytes %u to %u of the plan", 512 * place, 512 * place + 511);
    printf("\n");
}

static void tell_refusal(uint32_t answer) {
    uint32_t number = CHIVETASSEL_NUMBER(answer), place = CHIVETASSEL_PLACE(answer);
    printf("refused (%u): %s\n", number, chivetassel_text(number));
    if (place != 255)
        tell_place(number, place);
    printf("look at: %s\n", chivetassel_look_at(number));
}

/* What was said is looked at too: a full disk or a reader who has gone away must not pass for a result. */
static void end_telling(void) {
    if (fflush(stdout) != 0 || ferror(stdout))
        fail_by_system("standard output", "cannot be written");
}

static _Noreturn void usage(void) {
    fprintf(stderr, "usage: approval REGISTER COMMAND WORD ..\n");
    for (const struct command *command = commands; command->name != NULL; command++)
        fprintf(stderr, "  %s%s%s\n", command->name, command->usage[0] == ':' ? "" : " ", command->usage);
    exit(BAD_WORD);
}

static const struct command *command_of(int count, char **word) {
    for (const struct command *command = commands; count >= 3 && command->name != NULL; command++) {
        int words = 0;
        while (command->word[words] != NULL)
            words++;
        if (strcmp(word[2], command->name) == 0 && count == 3 + words)
            return command;
    }
    usage();
}

/* A file that this process opens must not get the number of a standard stream that was closed, and what is said go into it. */
static void look_at_streams(void) {
    for (int file = 0; file <= 2; file++)
        if (file != 1 && fcntl(file, F_GETFD) < 0 && open("/dev/null", O_RDWR) != file)
            exit(BAD_FILE);
    if (fcntl(1, F_GETFD) < 0)
        fail("standard output", "is closed, so that nothing could be told");
}

/* The register comes first: what is wrong with it is told ahead of what is wrong with a plan. It is locked last, so that
   nobody waits for a slow file. */
static int run(const struct command *command, const char *name, char **word) {
    const char *out = NULL;
    for (int i = 0; command->word[i] != NULL; i++)
        typed[i] = command->word[i](word[i]);
    if (command->use == BEGINS)
        find_place(name);
    else if (command->use != NOTHING)
        find_register(name);
    for (int i = 0; command->word[i] != NULL; i++)
        if (command->word[i] == a_plan)
            plan_len = read_whole(word[i], plan, sizeof plan);
        else if (command->word[i] == an_out)
            find_out(out = word[i]);
    if (command->use == BEGINS)
        begin_register();
    else if (command->use == CHANGES)
        begin_change();
    if (command->use == READS || command->use == CHANGES)
        read_register();

    uint32_t answer = command->ask();
    if (!CHIVETASSEL_IS_DONE(answer)) {
        tell_refusal(answer);
        end_telling();
        return REFUSED;
    }
    if (command->use == BEGINS || command->use == CHANGES)
        keep_register();
    if (out != NULL)
        write_out(room, room_len);
    command->tell();
    end_telling();
    return DONE;
}

int main(int count, char **word) {
    look_at_streams();
    signal(SIGPIPE, SIG_IGN); /* a reader who has gone away, and a file that may not grow, are seen where they are written to */
    signal(SIGXFSZ, SIG_IGN);
    if (chivetassel_version() != CHIVETASSEL_VERSION)
        fail("the library", "is not the one that this program was compiled for");
    const struct command *command = command_of(count, word);
    return run(command, word[1], word + 3);
}
