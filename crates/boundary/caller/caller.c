/* Calls each function of boundary.h as a program in C does, on the file to judge by, and holds what comes
 * back and what the lent places then hold to what document 01 says. One line for each check; status 1 if
 * one of them differs. */
#include "../boundary.h"

#include <inttypes.h>
#include <stdbool.h>
#include <stdio.h>
#include <string.h>

#define COUNT 7                           /* certificates of the file to judge by */
#define BEYOND 4                          /* places lent beyond those that are needed */
#define LENGTH (WAC_HEAD + WAC_RECORD * COUNT)
#define OWNERS_MARK 2560                  /* mark 10 of key 0, the owner */
#define MARK_11 2576                      /* mark 11 of key 0 */

/* The places that a question is lent. */
struct lent {
    uint32_t minutes[DECISION_ENTRIES + BEYOND];
    uint32_t steps[DECISION_ENTRIES + BEYOND];
    uint8_t chain[DECISION_CHAIN + BEYOND];
};

/* The certificates of the file to judge by, as their 12 fields. */
static const uint32_t judged[COUNT][WAC_FIELDS] = {
    {2, 0, 10, 1, 2, 1, 0, 255, 10, 15, 1, 9000},
    {1, 1, 1, 2, 0, 255, 255, 255, 255, 0, 1, 5000},
    {1, 2, 0, 3, 0, 255, 255, 255, 255, 0, 1, 7000},
    {2, 3, 10, 4, 0, 255, 255, 255, 11, 6, 1, 8000},
    {2, 0, 10, 4, 0, 255, 255, 255, 11, 2, 1, 6000},
    {1, 1, 1, 5, 0, 255, 255, 255, 255, 0, 1, 9000},
    {2, 4, 10, 6, 0, 255, 255, 255, 10, 15, 1, 9000},
};

static uint8_t file[LENGTH + WAC_RECORD]; /* the file to judge by, with room for one more */
static uint8_t damaged[LENGTH];           /* the same with record 2 against the table */
static const uint8_t empty[WAC_HEAD] = {87, 65, 67, 0, 1, 0};
static struct lent before, lent;
static int checks, wrong;

/* Says on a line whether a number is the one that is expected. */
static void same(const char *what, uint64_t found, uint64_t expected)
{
    checks++;
    if (found == expected) {
        printf("%s: %" PRIu64 "\n", what, found);
        return;
    }
    wrong++;
    printf("%s: %" PRIu64 ", and not %" PRIu64 " as expected\n", what, found, expected);
}

/* Says on a line whether something holds. */
static void holds(const char *what, bool found)
{
    checks++;
    wrong += !found;
    printf("%s: %s\n", what, found ? "yes" : "no, and not yes as expected");
}

/* The answer with this number and value. */
static uint32_t answer(uint32_t number, uint32_t value)
{
    return number * UINT32_C(65536) + value;
}

/* The verdict with these parts. */
static uint64_t verdict(uint64_t number, uint64_t minute, uint64_t steps, uint64_t passes)
{
    return (number << 56) + (steps << 48) + (passes << 32) + minute;
}

/* Appends the certificate with these fields. */
static uint32_t append(uint8_t *buffer, size_t length, size_t used, const uint32_t *f)
{
    return wac_append(buffer, length, used, (uint8_t)f[0], (uint8_t)f[1], (uint8_t)f[2], (uint8_t)f[3], (uint8_t)f[4],
                      (uint8_t)f[5], (uint8_t)f[6], (uint8_t)f[7], (uint8_t)f[8], (uint8_t)f[9], f[10], f[11]);
}

/* Builds the file to judge by from the empty one, certificate by certificate. */
static void build(void)
{
    size_t used = WAC_HEAD;

    memset(file, 165, sizeof file);
    memcpy(file, empty, WAC_HEAD);
    for (size_t n = 0; n < COUNT; n++) {
        uint32_t appended = append(file, sizeof file, used, judged[n]);
        used = ANSWER_VALUE(appended);
        same("append", appended, answer(0, (uint32_t)(WAC_HEAD + WAC_RECORD * (n + 1))));
    }
    same("count byte", file[5], COUNT);
    same("byte after the file", file[LENGTH], 165);
    memcpy(damaged, file, LENGTH);
    damaged[WAC_HEAD + WAC_RECORD * 2] = 3;
}

/* What the writer refuses; the buffer stays. */
static void append_refused(void)
{
    static uint8_t kept[sizeof file];
    uint32_t name[WAC_FIELDS];

    memcpy(kept, file, sizeof file);
    memcpy(name, judged[1], sizeof name);
    same("append without room", append(file, LENGTH, LENGTH, name), answer(REFUSED_ROOM, 0));
    same("append past the buffer", append(file, LENGTH, LENGTH + 1, name), answer(REFUSED_ROOM, 0));
    same("append to a wrong length", append(file, sizeof file, LENGTH - 1, name), answer(REFUSED_LENGTH, 0));
    name[4] = 4;
    same("append a subject of 4", append(file, sizeof file, LENGTH, name), answer(REFUSED_AGAINST, COUNT));
    holds("the buffer stays", memcmp(kept, file, sizeof file) == 0);
}

/* The check, the count, and what they refuse. */
static void counted(void)
{
    same("check", wac_check(file, LENGTH), answer(0, COUNT));
    same("count", wac_count(file, LENGTH), answer(0, COUNT));
    same("check, a byte short", wac_check(file, LENGTH - 1), answer(REFUSED_LENGTH, 0));
    same("check, 5 bytes", wac_check(file, WAC_HEAD - 1), answer(REFUSED_SHORT, 0));
    same("check, record 2 bad", wac_check(damaged, LENGTH), answer(REFUSED_AGAINST, 2));
    same("count, record 2 bad", wac_count(damaged, LENGTH), answer(REFUSED_AGAINST, 2));
}

/* Fetches each certificate; places beyond the twelfth stay. */
static void fetched(void)
{
    for (size_t n = 0; n < COUNT; n++) {
        uint32_t fields[WAC_FIELDS + 1] = {0};
        fields[WAC_FIELDS] = 77;
        same("fetch", wac_fetch(file, LENGTH, n, fields, WAC_FIELDS + 1), answer(0, 0));
        holds("its fields", memcmp(fields, judged[n], sizeof judged[n]) == 0);
        same("the place beyond", fields[WAC_FIELDS], 77);
    }
}

/* What a fetch refuses; the places stay. */
static void fetch_refused(void)
{
    uint32_t fields[WAC_FIELDS] = {0};
    uint32_t kept[WAC_FIELDS] = {0};

    same("fetch 7 of 7", wac_fetch(file, LENGTH, COUNT, fields, WAC_FIELDS), answer(REFUSED_NO_SUCH, 0));
    same("fetch into 11 places", wac_fetch(file, LENGTH, 0, fields, WAC_FIELDS - 1), answer(REFUSED_PLACES, 0));
    same("fetch 7 into 11", wac_fetch(file, LENGTH, COUNT, fields, WAC_FIELDS - 1), answer(REFUSED_PLACES, 0));
    same("fetch 0, record 2 bad", wac_fetch(damaged, LENGTH, 0, fields, WAC_FIELDS), answer(REFUSED_AGAINST, 2));
    same("fetch 7, record 2 bad", wac_fetch(damaged, LENGTH, COUNT, fields, WAC_FIELDS), answer(REFUSED_AGAINST, 2));
    same("fetch into none, record 2 bad", wac_fetch(damaged, LENGTH, 0, fields, 0), answer(REFUSED_AGAINST, 2));
    holds("the fields stay", memcmp(fields, kept, sizeof kept) == 0);
}

/* Fills the lent places with what no question leaves there, and asks. */
static uint64_t ask(const uint8_t *of, size_t length, uint8_t owner, uint8_t asker, uint8_t rights, uint32_t at)
{
    memset(&before, 165, sizeof before);
    lent = before;
    return decision_ask(of, length, owner, asker, rights, at, lent.minutes, DECISION_ENTRIES + BEYOND, lent.steps,
                        DECISION_ENTRIES + BEYOND, lent.chain, DECISION_CHAIN + BEYOND);
}

/* Whether the places beyond, and the chain places from this one on, are as before. */
static bool beyond_stays(size_t chained)
{
    return memcmp(lent.minutes + DECISION_ENTRIES, before.minutes + DECISION_ENTRIES, 4 * BEYOND) == 0
           && memcmp(lent.steps + DECISION_ENTRIES, before.steps + DECISION_ENTRIES, 4 * BEYOND) == 0
           && memcmp(lent.chain + chained, before.chain + chained, sizeof lent.chain - chained) == 0;
}

/* P1 and P2, with their chains and some entries. */
static void granted(void)
{
    static const uint8_t chain[] = {0, 1, 2, 3};

    same("P1", ask(file, LENGTH, 0, 4, 4, 100), verdict(DECISION_GRANTED, 5000, 4, 3));
    holds("its chain is 0 1 2 3", memcmp(lent.chain, chain, 4) == 0);
    same("the owner's minute", lent.minutes[OWNERS_MARK], 5000);
    same("the owner's steps", lent.steps[OWNERS_MARK], 4);
    same("the asker's minute", lent.minutes[MARK_11 + 4], WAC_WITHOUT_END);
    same("the asker's steps", lent.steps[MARK_11 + 4], 0);
    same("key 4 reads 0 and is nowhere", lent.steps[4 * 160], DECISION_NO_STEPS);
    holds("other places stay", beyond_stays(4));
    same("P2", ask(file, LENGTH, 0, 4, 2, 100), verdict(DECISION_GRANTED, 6000, 1, 2));
    same("its chain", lent.chain[0], 4);
    holds("other places stay", beyond_stays(1));
}

/* P4 and P10: no chain, and all steps 201. */
static void not_granted(void)
{
    size_t none = 0;

    same("P4", ask(file, LENGTH, 0, 4, 8, 100), verdict(DECISION_NO_CHAIN, 0, 0, 2));
    same("P10", ask(empty, WAC_HEAD, 0, 4, 4, 100), verdict(DECISION_NO_CHAIN, 0, 0, 1));
    for (size_t entry = 0; entry < DECISION_ENTRIES; entry++)
        none += lent.steps[entry] == DECISION_NO_STEPS;
    same("entries with steps 201", none, DECISION_ENTRIES);
    same("the owner's minute", lent.minutes[OWNERS_MARK], 0);
    holds("other places stay", beyond_stays(0));
}

/* Whether the call is refused so, and all lent places stay. */
static void refused(const char *what, uint64_t found, uint64_t number, uint64_t record)
{
    same(what, found, verdict(number, record, 0, 0));
    holds("all places stay", memcmp(&lent, &before, sizeof lent) == 0);
}

/* What a question refuses. */
static void ask_refused(void)
{
    refused("owner 16", ask(file, LENGTH, 16, 4, 4, 100), REFUSED_KEYS, 0);
    refused("rights 0", ask(file, LENGTH, 0, 4, 0, 100), REFUSED_RIGHTS, 0);
    refused("minute 0", ask(file, LENGTH, 0, 4, 4, 0), REFUSED_MINUTE, 0);
    refused("record 2 bad", ask(damaged, LENGTH, 16, 4, 4, 100), REFUSED_AGAINST, 2);
    refused("199 chain places",
            decision_ask(file, LENGTH, 0, 4, 4, 100, lent.minutes, DECISION_ENTRIES, lent.steps, DECISION_ENTRIES,
                         lent.chain, DECISION_CHAIN - 1),
            REFUSED_PLACES, 0);
}

/* The short form, the read screen and the stock list. */
static void shortly(void)
{
    lent = before;
    same("the short form of P2",
         decision_short(file, LENGTH, 0, 4, 100, lent.minutes, DECISION_ENTRIES, lent.steps, DECISION_ENTRIES,
                        lent.chain, DECISION_CHAIN),
         verdict(DECISION_GRANTED, 6000, 1, 2));
    same("the read screen, key 4", decision_may(file, LENGTH, 0, 4, 100), answer(0, 1));
    same("the read screen, key 6", decision_may(file, LENGTH, 0, 6, 100), answer(0, 0));
    same("the read screen, key 16", decision_may(file, LENGTH, 0, 16, 100), answer(REFUSED_KEYS, 0));
    same("the read screen, record 2 bad", decision_may(damaged, LENGTH, 0, 4, 100), answer(REFUSED_AGAINST, 0));
    same("the stock list: keys 0, 3, 4", decision_stock(file, LENGTH, 0, 100), answer(0, 1 + 8 + 16));
    same("the stock list, minute 0", decision_stock(file, LENGTH, 0, 0), answer(REFUSED_MINUTE, 0));
    same("the stock list, record 2 bad", decision_stock(damaged, LENGTH, 0, 100), answer(REFUSED_AGAINST, 0));
}

/* Settles the table that P1 starts from: it becomes that of P1, and settles there. */
static void settled(void)
{
    static uint32_t table[DECISION_ENTRIES];
    uint64_t bad;

    ask(file, LENGTH, 0, 4, 4, 100);
    table[OWNERS_MARK + 4] = WAC_WITHOUT_END;
    table[MARK_11 + 4] = WAC_WITHOUT_END;
    same("settle", decision_settle(file, LENGTH, 0, 4, 4, 100, table, DECISION_ENTRIES), 3);
    holds("the table is that of P1", memcmp(table, lent.minutes, sizeof table) == 0);
    same("settle again", decision_settle(file, LENGTH, 0, 4, 4, 100, table, DECISION_ENTRIES), 1);
    same("settle 2,591 places", decision_settle(file, LENGTH, 0, 4, 4, 100, table, DECISION_ENTRIES - 1),
         (uint64_t)REFUSED_PLACES << 56);
    bad = decision_settle(damaged, LENGTH, 0, 4, 4, 100, table, DECISION_ENTRIES);
    same("settle, record 2 bad", SETTLING_NUMBER(bad), REFUSED_AGAINST);
    same("its record", SETTLING_VALUE(bad), 2);
    holds("the table stays", memcmp(table, lent.minutes, sizeof table) == 0);
}

/* The parts of answers and verdicts by the header's own words. */
static void parts(void)
{
    uint64_t first = ask(file, LENGTH, 0, 4, 4, 100);
    uint32_t bad = wac_check(damaged, LENGTH);

    same("number of P1", VERDICT_NUMBER(first), DECISION_GRANTED);
    same("minute of P1", VERDICT_MINUTE(first), 5000);
    same("steps of P1", VERDICT_STEPS(first), 4);
    same("passes of P1", VERDICT_PASSES(first), 3);
    same("number of a bad record", ANSWER_NUMBER(bad), REFUSED_AGAINST);
    same("its record", ANSWER_VALUE(bad), 2);
}

int main(void)
{
    build();
    append_refused();
    counted();
    fetched();
    fetch_refused();
    granted();
    not_granted();
    ask_refused();
    shortly();
    settled();
    parts();
    printf("%d checks, %d differ\n", checks, wrong);
    return wrong == 0 ? 0 : 1;
}
