// The least that a typed key can cost. An editor of one text, one window and one session that does no more than this for a key: it looks the
// key up, asks the access list, puts the character into a text with a gap, moves the point, notes the edit for an undo, draws the row from the
// changed cell on, writes the cells that differ, and brings the mode line and the cursor to what docs/COMMANDS.md says of them. It calls no
// system, has one size of screen, and proves nothing.
//
// usage: limit KEYS LINES [check]    (KEYS up to 78, so that the point stays on the screen; LINES of words up to 400; check plays the bytes on a
// terminal, and compares after each key)
#include <stdint.h>
#include <stdio.h>
#include <stdlib.h>
#include <string.h>

enum { ROWS = 24, COLS = 80, TEXT_ROWS = ROWS - 2, MODE = ROWS - 2, MOST_LINES = 400, LINE = 60, WORD = 5, ROOM = 1024, EDITS = 1000, MOST_KEYS = COLS - 2 };
enum { ALLOW, DENY };
enum { OWNER, USER, EVERYONE };
enum { READ = 1, WRITE = 2, APPEND = 4 };
#define REVERSED 0x80000000u

typedef struct { int kind, who, user; uint32_t rights; } Entry;
typedef struct { size_t at, length; } Edit;
// A character, and REVERSED where it is shown so.
typedef uint32_t Cell;

// The text: what stands before `gap`, and what stands from `after` on.
static uint32_t text[MOST_LINES * (LINE + 1) + ROOM];
static size_t gap, after;
// A character of a line: words of x, with a space behind each.
static char letter_at(size_t column) { return column % (WORD + 1) == WORD ? ' ' : 'x'; }
static size_t length_of_text(void) { return sizeof text / sizeof *text - (after - gap); }

static Edit edits[EDITS];
static size_t edit_count;
static const Entry list[] = {{ALLOW, OWNER, 0, READ | WRITE | APPEND}};
static int owner, user;
static int is_modified;
static size_t point, line_start, line_number = 1;
static int line_count;

// What the terminal shows, where its cursor is, and what it is still to be sent.
static Cell cells[ROWS][COLS];
static int row_ends[ROWS], column_at, column_end;
static int cursor_row, cursor_col;
static Cell sent_reversed;
static char out[16 * ROWS * COLS];
static size_t used, sent;

static void move_gap(size_t place) {
    if (place < gap)
        memmove(text + after - (gap - place), text + place, (gap - place) * sizeof *text);
    else if (place > gap)
        memmove(text + gap, text + after, (place - gap) * sizeof *text);
    after = after - gap + place;
    gap = place;
}

static int is_granted(uint32_t right) {
    for (size_t i = 0; i < sizeof list / sizeof *list; i++) {
        const Entry *entry = list + i;
        if ((entry->who == EVERYONE || (entry->who == OWNER && user == owner) || (entry->who == USER && user == entry->user)) && entry->rights & right)
            return entry->kind == ALLOW;
    }
    return 0;
}

static void send_number(unsigned number) {
    if (number >= 10)
        send_number(number / 10);
    out[used++] = '0' + number % 10;
}

static void go_to(int row, int col) {
    if (row == cursor_row && col == cursor_col)
        return;
    out[used++] = '\x1b';
    out[used++] = '[';
    send_number(row + 1);
    out[used++] = ';';
    send_number(col + 1);
    out[used++] = 'H';
    cursor_row = row;
    cursor_col = col;
}

// Sends a cell.
static void send_cell(int row, int col, Cell cell) {
    cells[row][col] = cell;
    go_to(row, col);
    if ((cell & REVERSED) != sent_reversed) {
        sent_reversed = cell & REVERSED;
        memcpy(out + used, sent_reversed ? "\x1b[7m" : "\x1b[m", sent_reversed ? 4 : 3);
        used += sent_reversed ? 4 : 3;
    }
    out[used++] = (char)cell;
    // The terminal does not wrap: its cursor stays in the last column.
    cursor_col += col < COLS - 1;
}

static void put(int row, int col, Cell cell) {
    if (cells[row][col] != cell)
        send_cell(row, col, cell);
}

// Draws what is left of a line, from a column on. What is drawn stands behind the gap.
static const uint32_t *draw_row(int row, int col, const uint32_t *rest) {
    const uint32_t *end = text + sizeof text / sizeof *text, *start = rest - col;
    const uint32_t *last = start + COLS - 1 < end ? start + COLS - 1 : end;
    for (const Cell *cell = cells[row] + col; rest < last && *rest != '\n'; cell++, rest++) {
        if (*cell != *rest)
            send_cell(row, (int)(rest - start), *rest);
    }
    if (rest == start + COLS - 1 && rest < end && *rest != '\n') {
        put(row, COLS - 1, rest + 1 < end && rest[1] != '\n' ? '$' : *rest);
        rest++;
    }
    for (col = (int)(rest - start); col < row_ends[row]; col++)
        put(row, col, ' ');
    row_ends[row] = (int)(rest - start);
    return rest;
}

static int put_number(int col, size_t number) {
    if (number >= 10)
        col = put_number(col, number / 10);
    put(MODE, col, ('0' + number % 10) | REVERSED);
    return col + 1;
}

static int put_text(int col, const char *letters) {
    while (*letters)
        put(MODE, col++, (unsigned char)*letters++ | REVERSED);
    return col;
}

// The column of the point, in the mode line, and the cursor.
static void draw_column(void) {
    size_t column = point - line_start;
    int end = put_number(column_at, column);
    for (int col = end; col < column_end; col++)
        put(MODE, col, '-' | REVERSED);
    column_end = end;
    go_to((int)line_number - 1, (int)column);
}

static void insert(uint32_t character) {
    if (!is_granted(point == length_of_text() ? APPEND : WRITE) || gap == after)
        return;
    move_gap(point);
    text[gap++] = character;
    edits[edit_count++ % EDITS] = (Edit){point, 1};
    if (!is_modified)
        put_text(1, "**");
    is_modified = 1;
    int row = (int)line_number - 1, col = (int)(point - line_start);
    point++;
    put(row, col, character);
    draw_row(row, col + 1, text + after);
    draw_column();
}

static void unbound(uint32_t character) { (void)character; }

static void (*commands[256])(uint32_t);

static void draw_all(void) {
    for (int cell = 0; cell < ROWS * COLS; cell++)
        cells[cell / COLS][cell % COLS] = ' ';
    used = (size_t)sprintf(out, "\x1b[m\x1b[2J\x1b[1;1H");
    const uint32_t *rest = text + after;
    for (int row = 0; row < TEXT_ROWS; row++)
        rest = draw_row(row, 0, rest) + (row < line_count);
    for (int col = 0; col < COLS; col++)
        put(MODE, col, '-' | REVERSED);
    column_at = put_text(put_number(put_text(3, "-busy-L"), line_number), "-C");
    draw_column();
}

// A terminal, which takes what is sent, and what it is to show, found from the text alone.
static Cell shown[ROWS][COLS];
static int shown_row, shown_col;
static Cell shown_reversed;

static void show(const char *bytes, size_t count) {
    for (size_t at = 0; at < count; at++) {
        if (bytes[at] != '\x1b') {
            shown[shown_row][shown_col] = (unsigned char)bytes[at] | shown_reversed;
            shown_col += shown_col < COLS - 1;
            continue;
        }
        int numbers[2] = {0, 0}, which = 0;
        for (at += 2; strchr("0123456789;", bytes[at]); at++) {
            if (bytes[at] == ';')
                which = 1;
            else
                numbers[which] = numbers[which] * 10 + bytes[at] - '0';
        }
        if (bytes[at] == 'H') {
            shown_row = numbers[0] - 1;
            shown_col = numbers[1] - 1;
        } else if (bytes[at] == 'm') {
            shown_reversed = numbers[0] == 7 ? REVERSED : 0;
        } else {
            for (int cell = 0; cell < ROWS * COLS; cell++)
                shown[cell / COLS][cell % COLS] = ' ';
        }
    }
}

static int row_is(int row, const char *wanted, Cell reversed) {
    for (int col = 0; col < COLS; col++)
        if (shown[row][col] != ((unsigned char)wanted[col] | reversed))
            return 0;
    return 1;
}

static int is_as_it_should_be(size_t typed) {
    char wanted[2 * COLS + LINE], place[64];
    for (int row = 0; row < ROWS; row++) {
        size_t before = row == 0 ? typed : 0;
        memset(wanted, ' ', sizeof wanted);
        if (row < TEXT_ROWS) {
            memset(wanted, 'x', before);
            for (size_t column = 0; column < LINE && row < line_count; column++)
                wanted[before + column] = letter_at(column);
        }
        if (before + LINE > COLS && line_count > 0)
            wanted[COLS - 1] = '$';
        if (row == MODE) {
            memset(wanted, '-', COLS);
            memcpy(wanted, place, (size_t)snprintf(place, sizeof place, "-%s-busy-L1-C%zu", typed ? "**" : "--", typed));
        }
        if (!row_is(row, wanted, row == MODE ? REVERSED : 0))
            return 0;
    }
    return shown_row == 0 && shown_col == (int)typed;
}

int main(int count, char **words) {
    int keys = count > 2 ? atoi(words[1]) : -1, is_checked = count > 3 && strcmp(words[3], "check") == 0;
    line_count = count > 2 ? atoi(words[2]) : -1;
    if (keys < 0 || keys > MOST_KEYS || line_count < 0 || line_count > MOST_LINES || count > 3 + is_checked) {
        fprintf(stderr, "usage: limit KEYS LINES [check]\n");
        return 2;
    }
    int length = line_count * (LINE + 1);
    after = sizeof text / sizeof *text - (size_t)length;
    for (int i = 0; i < length; i++)
        text[after + (size_t)i] = i % (LINE + 1) == LINE ? '\n' : (uint32_t)letter_at((size_t)(i % (LINE + 1)));
    for (int key = 0; key < 256; key++)
        commands[key] = key >= ' ' && key <= '~' ? insert : unbound;
    unsigned char typed[MOST_KEYS];
    memset(typed, 'x', sizeof typed);
    draw_all();
    for (int key = 0; key <= keys; key++) {
        if (is_checked) {
            show(out, used);
            if (!is_as_it_should_be((size_t)key)) {
                fprintf(stderr, "the screen is wrong after %d keys\n", key);
                return 1;
            }
        }
        sent += used;
        used = 0;
        if (key < keys)
            commands[typed[key]](typed[key]);
    }
    printf("%zu bytes sent, %zu edits\n", sent, edit_count);
    return 0;
}
