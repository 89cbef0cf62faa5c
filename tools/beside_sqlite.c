/* The peer of tools/beside-sqlite: carries out lines over a SQLite database in memory, and writes a
 * reply to each at once, as `hippo run` does.
 *
 * A line of the input is a letter, a blank and SQL:
 *   s  sets up; there is no reply
 *   c  a change: prepared and stepped, after a row of the log with the word `all`. The reply is
 *      "0 ok"
 *   q  a question: a row of the log, then it is prepared and stepped. The reply is "1 row CELLS"
 *      for each row, and "1 end COUNT"
 * With the word `none` there is no log. The log is the table `history`, which the input sets up
 * first; its rows are bound to a statement that is prepared once.
 *
 * usage: beside_sqlite none|questions|all < LINES
 */
#define _GNU_SOURCE
#include <sqlite3.h>
#include <stdio.h>
#include <stdlib.h>
#include <string.h>

static sqlite3 *database;
static sqlite3_stmt *log_row;

static void stop(const char *doing, const char *text)
{
    fflush(stdout);
    fprintf(stderr, "%s: %s: %s\n", doing, sqlite3_errmsg(database), text);
    exit(1);
}

static void open_database(void)
{
    sqlite3_config(SQLITE_CONFIG_SINGLETHREAD);
    sqlite3_config(SQLITE_CONFIG_MEMSTATUS, 0);
    if (sqlite3_open(":memory:", &database) != SQLITE_OK)
        stop("open", ":memory:");
    if (sqlite3_exec(database, "PRAGMA secure_delete = OFF", NULL, NULL, NULL) != SQLITE_OK)
        stop("pragma", "secure_delete");
}

static void set_up(const char *text)
{
    if (sqlite3_exec(database, text, NULL, NULL, NULL) != SQLITE_OK)
        stop("set up", text);
}

static void log_text(const char *text, int length)
{
    if (log_row == NULL) {
        const char *insert = "INSERT INTO history (moment, user, purpose, recipient, body) "
                             "VALUES (1704067200, 'ann', 'treatment', 'nurse', ?1)";
        if (sqlite3_prepare_v2(database, insert, -1, &log_row, NULL) != SQLITE_OK)
            stop("prepare", insert);
    }
    sqlite3_bind_text(log_row, 1, text, length, SQLITE_STATIC);
    if (sqlite3_step(log_row) != SQLITE_DONE)
        stop("log", text);
    sqlite3_reset(log_row);
}

static void write_text(const unsigned char *text, int length)
{
    putchar_unlocked('\'');
    for (int i = 0; i < length; i++) {
        if (text[i] == '\'')
            putchar_unlocked('\'');
        putchar_unlocked(text[i]);
    }
    putchar_unlocked('\'');
}

static void write_number(sqlite3_int64 number)
{
    char digits[24];
    int at = sizeof digits;
    sqlite3_uint64 left = number < 0 ? 0 - (sqlite3_uint64)number : (sqlite3_uint64)number;
    do
        digits[--at] = '0' + left % 10;
    while (left /= 10);
    if (number < 0)
        digits[--at] = '-';
    fwrite_unlocked(digits + at, 1, sizeof digits - at, stdout);
}

static void write_row(sqlite3_stmt *statement, int columns)
{
    fwrite_unlocked("1 row ", 1, 6, stdout);
    for (int i = 0; i < columns; i++) {
        if (i > 0)
            fwrite_unlocked(", ", 1, 2, stdout);
        switch (sqlite3_column_type(statement, i)) {
        case SQLITE_NULL:
            fwrite_unlocked("NULL", 1, 4, stdout);
            break;
        case SQLITE_INTEGER:
            write_number(sqlite3_column_int64(statement, i));
            break;
        default: {
            const unsigned char *text = sqlite3_column_text(statement, i);
            write_text(text, sqlite3_column_bytes(statement, i));
        }
        }
    }
    putchar_unlocked('\n');
}

/* A change may be several statements. */
static void change(const char *text, int length)
{
    const char *end = text + length;
    while (text < end) {
        sqlite3_stmt *statement;
        if (sqlite3_prepare_v2(database, text, end - text + 1, &statement, &text) != SQLITE_OK)
            stop("prepare", text);
        if (sqlite3_step(statement) != SQLITE_DONE)
            stop("change", sqlite3_sql(statement));
        sqlite3_finalize(statement);
    }
    fwrite_unlocked("0 ok\n", 1, 5, stdout);
}

static void answer(const char *text, int length)
{
    sqlite3_stmt *statement;
    sqlite3_int64 count = 0;
    int outcome;
    if (sqlite3_prepare_v2(database, text, length + 1, &statement, NULL) != SQLITE_OK)
        stop("prepare", text);
    int columns = sqlite3_column_count(statement);
    while ((outcome = sqlite3_step(statement)) == SQLITE_ROW) {
        write_row(statement, columns);
        count++;
    }
    if (outcome != SQLITE_DONE)
        stop("question", text);
    sqlite3_finalize(statement);
    fwrite_unlocked("1 end ", 1, 6, stdout);
    write_number(count);
    putchar_unlocked('\n');
}

static void carry_out(char kind, const char *text, int length, int logs_questions, int logs_changes)
{
    switch (kind) {
    case 's':
        set_up(text);
        return;
    case 'c':
        if (logs_changes)
            log_text(text, length);
        change(text, length);
        break;
    case 'q':
        if (logs_questions)
            log_text(text, length);
        answer(text, length);
        break;
    default:
        stop("no kind of line", text);
    }
    fflush_unlocked(stdout);
}

int main(int count, char **words)
{
    static char output[1 << 16];
    char *line = NULL;
    size_t room = 0;
    ssize_t length;
    if (count != 2) {
        fprintf(stderr, "usage: beside_sqlite none|questions|all < LINES\n");
        return 2;
    }
    setvbuf(stdout, output, _IOFBF, sizeof output);
    int logs_questions = strcmp(words[1], "none") != 0, logs_changes = strcmp(words[1], "all") == 0;
    open_database();
    while ((length = getline(&line, &room, stdin)) > 0) {
        if (line[length - 1] == '\n')
            line[--length] = 0;
        if (length < 2)
            stop("no line", line);
        carry_out(line[0], line + 2, length - 2, logs_questions, logs_changes);
    }
    return 0;
}
