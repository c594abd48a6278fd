/*
 * The second program on files, with the words of ./spadeswirl: what it writes to standard output is what that is to
 * write, and the number is on standard error. It is also what seals the records of examples/.
 */
#include "model/dumps.h"
#include "model/lists.h"
#include "model/written_pages.h"

static struct bytes file(const char *path)
{
    FILE *in = fopen(path, "rb");
    struct bytes all = room_for(4 * PLAIN_MAX);
    if (!in)
        fail("cannot read", path);
    all.len = fread(all.at, 1, all.len, in);
    if (ferror(in))
        fail("cannot read", path);
    fclose(in);
    return all;
}

static struct bytes optional(const char *path)
{
    return path ? file(path) : nothing;
}

/* The text of a list: how many descriptors are not reserved, then these, a line each, in capital digits. How long it is. */
static size_t put_list(struct bytes list, int label, unsigned long long count, char *text)
{
    char *end = text + sprintf(text, "descriptors %llu\n", count);
    for (uint64_t at = 0, next; at < list.len; at = next) {
        next = descriptor_end(list, at);
        if (reserved(label, list.at[at]))
            continue;
        end += sprintf(end, "%02X %04X %s", list.at[at], two(list.at + at + 2), next == at + DESCRIPTOR_HEAD ? "-" : "");
        for (uint64_t i = at + DESCRIPTOR_HEAD; i < next; i++)
            end += sprintf(end, "%02X", list.at[i]);
        *end++ = '\n';
    }
    return (size_t)(end - text);
}

/* The text of a report, with a line for each row in the table's order, its name in capital digits. How long it is. */
static size_t put_report(struct bytes table, const struct dump_report *report, char *text)
{
    char *end = text + sprintf(text, "records %llu\nbytes %llu\n", report->records, report->bytes);
    for (unsigned i = 0; i < two(table.at + 2); i++) {
        const unsigned char *row = table.at + 8 + 72 * i;
        end += sprintf(end, "open ");
        for (unsigned k = 0; k < row[0]; k++)
            end += sprintf(end, "%02X", row[8 + k]);
        end += sprintf(end, " %llu\n", report->open[i]);
    }
    end += sprintf(end, "tail %llu\n", report->tail);
    return (size_t)(end - text);
}

/* The fields that words name=value give, in any order: one that is not named is 0, and one of over 64 bits too wide as any other. */
static void take_fields(char **words, unsigned long long *fields)
{
    static const char *const names[CHOSEN_FIELDS] = { "scope", "lock", "ceem", "rdmc", "sdk", "ckod", "ckorp", "ckorl", "encrypt", "decrypt",
        "algorithm", "format" };
    memset(fields, 0, CHOSEN_FIELDS * sizeof *fields);
    for (; *words; words++) {
        size_t length = strcspn(*words, "="), i = 0;
        while (i < CHOSEN_FIELDS && (strlen(names[i]) != length || memcmp(names[i], *words, length) != 0))
            i++;
        if (i == CHOSEN_FIELDS || (*words)[length] != '=')
            fail("no such field", *words);
        fields[i] = strtoull(*words + length + 1, NULL, 10);
    }
}

/* A KEK type of more than 16 bits is none, as 0 is none. */
static unsigned kek_type(const char *word)
{
    unsigned long long type = strtoull(word, NULL, 10);
    return type > 0xffff ? 0 : (unsigned)type;
}

/* `count` is how many bytes are written: after a refusal none, but for a report's own line. */
int main(int argc, char **argv)
{
    const char *command = argc > 2 ? argv[1] : "";
    struct bytes out = room_for(2 * PLAIN_MAX);
    unsigned long long count = 0;
    int number = 0;
    if (strcmp(command, "seal") == 0 && argc >= 6) {
        struct bytes w[] = { file(argv[2]), from_hex(argv[3]), from_hex(argv[4]), optional(argv[6]), file(argv[5]) };
        number = seal(w, out);
        if (!number)
            count = HEADER + w[1].len + IV + w[4].len + TAG;
    } else if (strcmp(command, "open") == 0 && argc >= 4) {
        struct bytes w[] = { file(argv[2]), file(argv[3]), optional(argv[4]) };
        number = open_record(w, out, &count);
    } else if (strcmp(command, "verify") == 0 && argc >= 4) {
        struct bytes w[] = { file(argv[2]), file(argv[3]), optional(argv[4]) };
        number = verify_record(w);
    } else if (strcmp(command, "report") == 0 && argc >= 4) {
        struct bytes table = file(argv[2]), dump = file(argv[3]);
        struct dump_report report;
        number = report_dump(table, dump, &report);
        if (!number)
            count = put_report(table, &report, (char *)out.at);
        else
            count = (unsigned long long)sprintf((char *)out.at, "refused %d\n", number);
    } else if (strcmp(command, "check-table") == 0) {
        struct bytes table = file(argv[2]);
        number = table_bad(table);
        if (!number)
            count = (unsigned long long)sprintf((char *)out.at, "rows %u\n", two(table.at + 2));
    } else if (strcmp(command, "label") == 0) {
        struct bytes label = file(argv[2]), list = { label.at + 2, label.len - 2 };
        number = label_check(label, &count);
        if (!number)
            count = put_list(list, 1, count, (char *)out.at);
    } else if (strcmp(command, "descriptors") == 0) {
        struct bytes page = file(argv[2]), key, list;
        unsigned long long fields[PAGE_FIELDS];
        number = page_read(page, fields);
        if (!number) {
            key = page_key(page);
            list.at = key.at + key.len, list.len = page.len - PAGE_HEAD - key.len;
            count = put_list(list, 0, fields[PAGE_FIELDS - 1], (char *)out.at);
        }
    } else if (strcmp(command, "write-page") == 0 && argc >= 4) {
        struct bytes w[] = { file(argv[2]), file(argv[3]) };
        unsigned long long fields[CHOSEN_FIELDS];
        take_fields(argv + 4, fields);
        number = page_write(w, fields, out, &count);
    } else if (strcmp(command, "wrap-page") == 0 && argc >= 7) {
        struct bytes w[] = { file(argv[2]), from_hex(argv[4]), file(argv[5]), file(argv[6]) };
        unsigned long long fields[CHOSEN_FIELDS];
        take_fields(argv + 7, fields);
        number = page_write_wrapped(w, fields, kek_type(argv[3]), out, &count);
    } else {
        fail("no such command", command);
    }
    fwrite(out.at, 1, count, stdout);
    fprintf(stderr, "%d\n", number);
    return 0;
}
