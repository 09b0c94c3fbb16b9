/* main answers RULES WRITES ..: checks the library in C on record S, on line ends, on group 40, on dates, and on files of write questions.
   main texts RULES TEXT LIST REWRITE DUMP ..: on texts, each read by its rules, and the files of their answers, `-` for one that there isn't.
   main journal RULES SCRIPTS ..: checks the journal's functions on files of scripts.
   main parts FOLDER QUESTIONS: prints the answers to questions with a record, in texts of that folder, a line each.
   main records TEXT ..: checks by all rules that the records of texts answer as their places do.
   main wholes FOLDER QUESTIONS: checks the answers to questions for a whole record, in texts of that folder.
   main turns TEXT ..: checks by all rules that one call for a record of texts answers as its sixty groups do in turn.
   main firsts FOLDER QUESTIONS: checks the answers to questions for the first record from a date on, in texts of that folder.
   main dates TEXT ..: checks by all rules that these answer as the whole walk does.
   main pieces RULES TEXT COPY STRETCHES ..: checks that texts, each by its rules, are salvaged by the questions as in these files.
   RULES is `usual`, `strict`, `entries` or `strict-entries`; a write question or a script may say itself what a count of group 40 counts.
   Ends with the number of checks, and with exit 1 where one failed. */
#include "checks.h"
#include "dates.h"
#include "entries.h"
#include "journal.h"
#include "line_ends.h"
#include "parts.h"
#include "record_s.h"
#include "salvage.h"
#include "since.h"
#include "vectors.h"
#include "whole.h"

static uint32_t named(const char *name)
{
    static const struct {
        const char *name;
        uint32_t flags;
    } all[] = {
        {"usual", SEAMBEACON_USUAL},
        {"strict", SEAMBEACON_STRICT},
        {"entries", SEAMBEACON_ENTRIES},
        {"strict-entries", SEAMBEACON_STRICT + SEAMBEACON_ENTRIES},
    };
    for (size_t i = 0; i < sizeof all / sizeof all[0]; i++)
        if (strcmp(name, all[i].name) == 0)
            return all[i].flags;
    need("a name of rules", 0);
    return SEAMBEACON_USUAL;
}

static void check_answers(uint32_t told, char **files, int count)
{
    check_record_s();
    check_line_ends();
    check_entries();
    check_dates();
    for (int i = 0; i < count; i++)
        check_writes(files[i], told);
}

static void check_texts(char **words, int count)
{
    for (int i = 0; i < count; i += 5) {
        under(named(words[i]));
        check_text(words[i + 1], words[i + 2], words[i + 3], words[i + 4]);
    }
}

static void check_journals(uint32_t told, char **files, int count)
{
    check_no_memory();
    for (int i = 0; i < count; i++)
        check_journal(files[i], told);
}

static void check_records(char **texts, int count)
{
    size_t records = 0;
    for (int i = 0; i < count; i++)
        records += check_placed(texts[i]);
    printf("%lu records\n", (unsigned long)records);
}

static void check_turns(char **texts, int count)
{
    struct met met = {0};
    for (int i = 0; i < count; i++)
        check_in_turn(texts[i], &met);
    printf("%lu records read, %lu with a group that is refused, %lu that break a rule on counts, %lu places without a record\n",
           (unsigned long)met.read, (unsigned long)met.refused, (unsigned long)met.broken, (unsigned long)met.none);
}

static void check_from_all(char **texts, int count)
{
    size_t asked = 0;
    for (int i = 0; i < count; i++)
        asked += check_from_each(texts[i]);
    printf("%lu dates\n", (unsigned long)asked);
}

static void check_salvaged(char **words, int count)
{
    size_t copied = 0, left_out = 0;
    for (int i = 0; i < count; i += 4) {
        under(named(words[i]));
        check_pieces(words[i + 1], words[i + 2], words[i + 3], &copied, &left_out);
    }
    printf("%lu records copied, %lu stretches left out\n", (unsigned long)copied, (unsigned long)left_out);
}

int main(int count, char **words)
{
    of_case("main", 0);
    if (count > 2 && strcmp(words[1], "answers") == 0)
        check_answers(named(words[2]), words + 3, count - 3);
    else if (count > 2 && (count - 2) % 5 == 0 && strcmp(words[1], "texts") == 0)
        check_texts(words + 2, count - 2);
    else if (count > 3 && strcmp(words[1], "journal") == 0)
        check_journals(named(words[2]), words + 3, count - 3);
    else if (count == 4 && strcmp(words[1], "parts") == 0)
        answer_questions(words[2], words[3]);
    else if (count > 2 && strcmp(words[1], "records") == 0)
        check_records(words + 2, count - 2);
    else if (count == 4 && strcmp(words[1], "wholes") == 0)
        printf("%lu questions\n", (unsigned long)check_wholes(words[2], words[3]));
    else if (count > 2 && strcmp(words[1], "turns") == 0)
        check_turns(words + 2, count - 2);
    else if (count == 4 && strcmp(words[1], "firsts") == 0)
        printf("%lu questions\n", (unsigned long)check_firsts(words[2], words[3]));
    else if (count > 2 && strcmp(words[1], "dates") == 0)
        check_from_all(words + 2, count - 2);
    else if (count > 2 && (count - 2) % 4 == 0 && strcmp(words[1], "pieces") == 0)
        check_salvaged(words + 2, count - 2);
    else
        need("words that say what to check", 0);
    return checks_ended();
}
