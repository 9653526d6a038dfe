/* Looks for a table by a local search, for tools/search.
 *
 * Usage: search IDS ROUNDS CHANNELS NEAR FAR SEED SECONDS [PATTERN ..]
 *
 * It prints the table text; with patterns near and far are only written into it. The exit status is 0, 1 without a table, 2 without
 * memory.
 */
#include <stdint.h>
#include <stdio.h>
#include <stdlib.h>
#include <string.h>
#include <time.h>

enum { MOST_LENGTH = 9, IN_ROW = 3, SECONDS = 5, MOVES_AT_ONCE = 1024, MOST_MOVES = 3000000 };

/* A window that is close to another, and by how much their channels have to differ. */
struct close {
    int window, distance;
};

/* The windows of a tuple, of places in a row. */
struct row {
    int windows[IN_ROW];
};

static uint64_t state[2];
static int ids, length, channels, windows;
static struct close *near_by; /* the windows that are close to each window, as many for each */
static int near_count;
static struct row *rows; /* those of all tuples, where patterns are forbidden */
static int row_count;
static int in_row;         /* how many windows a row has: 2, or 3 if a pattern asks something of the third place */
static int *rows_of;       /* by window: the numbers of the rows that it is in, with room for as many for each */
static int *rows_of_count; /* by window: how many these are */
static int rows_room;
static char *is_forbidden; /* by the channels of a row: whether a pattern matches */
static int *chosen;        /* by window: its channel */
static int *conflicts;     /* by window and channel: how many close windows have a channel too close to it, or how many of its rows a
                              pattern matches if it has this channel */
static long *free_from;    /* by window and channel: the first move that may take it again */

static void *sized(size_t size) {
    void *block = malloc(size + 1);
    if (block == NULL) {
        fputs("search: there is not enough memory\n", stderr);
        exit(2);
    }
    return block;
}

/* A number below a limit (xorshift128+). */
static int below(int limit) {
    uint64_t first = state[0], second = state[1];
    state[0] = second;
    first ^= first << 23;
    state[1] = first ^ second ^ first >> 17 ^ second >> 26;
    return (int)((state[1] + second) % (uint64_t)limit);
}

/* The place of a window among all, in order. */
static int place_of(const int *window) {
    long place = 0;
    for (int at = 0; at < length; at++) {
        int less = 0;
        for (int before = 0; before < at; before++)
            less += window[before] < window[at];
        place = place * (ids - at) + window[at] - less;
    }
    return (int)place;
}

static int has(const int *list, int count, int value) {
    for (int at = 0; at < count; at++)
        if (list[at] == value)
            return 1;
    return 0;
}

static void add_close(int *counts, int first, int second, int distance) {
    near_by[(long)first * near_count + counts[first]++] = (struct close){second, distance};
    near_by[(long)second * near_count + counts[second]++] = (struct close){first, distance};
}

/* Adds the pairs of this window and those after it, one and two places on. */
static void add_pairs(int *counts, int *ring, int near, int far) {
    int window = place_of(ring);
    for (ring[length] = 0; ring[length] < ids; ring[length]++) {
        if (has(ring, length, ring[length]))
            continue;
        add_close(counts, window, place_of(ring + 1), near);
        for (ring[length + 1] = 0; far && ring[length + 1] < ids; ring[length + 1]++)
            if (!has(ring, length + 1, ring[length + 1]))
                add_close(counts, window, place_of(ring + 2), far);
    }
}

/* Adds the row of the windows of this ring. */
static void add_row(const int *ring) {
    struct row *row = &rows[row_count];
    for (int place = 0; place < in_row; place++) {
        int window = place_of(ring + place);
        row->windows[place] = window;
        if (!has(row->windows, place, window))
            rows_of[(long)window * rows_room + rows_of_count[window]++] = row_count;
    }
    row_count++;
}

/* Adds the rows of the tuples that begin with this window. */
static void add_rows(int *ring) {
    for (ring[length] = 0; ring[length] < ids; ring[length]++) {
        if (has(ring, length, ring[length]))
            continue;
        if (in_row < IN_ROW)
            add_row(ring);
        for (ring[length + 1] = 0; in_row == IN_ROW && ring[length + 1] < ids; ring[length + 1]++)
            if (!has(ring + 1, length, ring[length + 1]))
                add_row(ring);
    }
}

/* Goes through the windows that begin with these identifiers: adds their rows or pairs, or writes them where there are no counts. */
static void each_window(int *counts, int *ring, int count, int near, int far) {
    if (count == length && counts != NULL && rows != NULL) {
        add_rows(ring);
    } else if (count == length && counts != NULL) {
        add_pairs(counts, ring, near, far);
    } else if (count == length) {
        for (int at = 0; at < length; at++)
            printf("%d ", ring[at]);
        printf(": %d\n", chosen[place_of(ring)]);
    } else {
        for (ring[count] = 0; ring[count] < ids; ring[count]++)
            if (!has(ring, count, ring[count]))
                each_window(counts, ring, count + 1, near, far);
    }
}

/* Whether a pattern matches a row where two windows, which may be the same, have these channels. */
static int matches(const struct row *row, int first, int channel, int second, int other) {
    long place = 0;
    for (int at = 0; at < in_row; at++) {
        int window = row->windows[at];
        place = place * channels + (window == first ? channel : window == second ? other : chosen[window]);
    }
    return is_forbidden[place];
}

/* Adds a number to the conflicts of the windows in a row with one that has this channel. */
static void count_rows(int window, int channel, int number) {
    for (int at = 0; at < rows_of_count[window]; at++) {
        const struct row *row = &rows[rows_of[(long)window * rows_room + at]];
        for (int place = 0; place < in_row; place++) {
            int other = row->windows[place];
            if (other == window || has(row->windows, place, other))
                continue;
            for (int each = 0; each < channels; each++)
                conflicts[(long)other * channels + each] += number * matches(row, window, channel, other, each);
        }
    }
}

/* Counts the conflicts of all rows, and returns how many rows a pattern matches. */
static long count_all_rows(void) {
    long sum = 0;
    for (int at = 0; at < row_count; at++) {
        const struct row *row = &rows[at];
        for (int place = 0; place < in_row; place++) {
            int window = row->windows[place];
            for (int each = 0; !has(row->windows, place, window) && each < channels; each++)
                conflicts[(long)window * channels + each] += matches(row, window, each, window, each);
        }
        sum += matches(row, -1, 0, -1, 0);
    }
    return sum;
}

/* Adds a number to the conflicts of the windows close to one that has this channel. */
static void count_conflicts(int window, int channel, int number) {
    if (rows != NULL) {
        count_rows(window, channel, number);
        return;
    }
    struct close *mine = near_by + (long)window * near_count;
    for (int at = 0; at < near_count; at++) {
        int first = channel - mine[at].distance + 1, last = channel + mine[at].distance - 1;
        int *theirs = conflicts + (long)mine[at].window * channels;
        for (int each = first < 0 ? 0 : first; each <= last && each < channels; each++)
            theirs[each] += number;
    }
}

/* Gives each window a channel, and returns how many pairs are in conflict. */
static long begin(void) {
    long sum = 0;
    memset(conflicts, 0, (size_t)windows * channels * sizeof(int));
    memset(free_from, 0, (size_t)windows * channels * sizeof(long));
    for (int window = 0; window < windows; window++)
        chosen[window] = below(channels);
    if (rows != NULL)
        return count_all_rows();
    for (int window = 0; window < windows; window++)
        count_conflicts(window, chosen[window], 1);
    for (int window = 0; window < windows; window++)
        sum += conflicts[(long)window * channels + chosen[window]];
    return sum / 2;
}

/* Makes the best move that is free, or that leaves fewer conflicts than ever; returns by how much it changes their number. */
static long move(long number, long sum, long best) {
    int window = -1, channel = 0, change = 0, ties = 0, in_conflict = 0;
    for (int each = 0; each < windows; each++) {
        int *mine = conflicts + (long)each * channels, now = mine[chosen[each]];
        if (!now)
            continue;
        in_conflict++;
        for (int other = 0; other < channels; other++) {
            int its_change = mine[other] - now;
            if (other == chosen[each] || (free_from[(long)each * channels + other] > number && sum + its_change >= best))
                continue;
            if (window < 0 || its_change < change)
                ties = 1;
            else if (its_change > change || below(++ties))
                continue;
            window = each, channel = other, change = its_change;
        }
    }
    if (window < 0)
        return 0;
    free_from[(long)window * channels + chosen[window]] = number + below(10) + 6L * in_conflict / 10;
    count_conflicts(window, chosen[window], -1);
    count_conflicts(window, channel, 1);
    chosen[window] = channel;
    return change;
}

static double seconds_now(void) {
    struct timespec now;
    clock_gettime(CLOCK_MONOTONIC, &now);
    return (double)now.tv_sec + (double)now.tv_nsec * 1e-9;
}

/* The entries of a pattern: each a channel, or -1 for any. */
static void read_pattern(const char *word, long *entries) {
    for (int place = 0; place < IN_ROW; place++) {
        entries[place] = -1;
        if (*word >= '0' && *word <= '9')
            entries[place] = strtol(word, (char **)&word, 10);
        else if (*word == '*')
            word++;
        word += *word == ',';
    }
}

/* Notes which channels of a row these patterns match. */
static void forbid(char **words, int count) {
    long entries[IN_ROW], places = 1;
    in_row = 2;
    for (int each = 0; each < count; each++) {
        read_pattern(words[each], entries);
        if (entries[2] >= 0)
            in_row = IN_ROW;
    }
    for (int at = 0; at < in_row; at++)
        places *= channels;
    is_forbidden = sized(places);
    memset(is_forbidden, 0, places);
    for (int each = 0; each < count; each++) {
        read_pattern(words[each], entries);
        for (long place = 0; place < places; place++) {
            long rest = place, does_match = 1;
            for (int at = in_row - 1; at >= 0; rest /= channels, at--)
                does_match &= entries[at] < 0 || entries[at] == rest % channels;
            is_forbidden[place] |= does_match;
        }
    }
    long most = (long)windows * (ids - length) * (in_row == IN_ROW ? ids - length : 1);
    rows_room = (int)(most / windows * in_row);
    rows = sized(most * sizeof(struct row));
    rows_of = sized((size_t)windows * rows_room * sizeof(int));
    rows_of_count = sized((size_t)windows * sizeof(int));
    memset(rows_of_count, 0, (size_t)windows * sizeof(int));
}

int main(int count, char **given) {
    if (count < 8)
        return 2;
    ids = atoi(given[1]), length = 2 * atoi(given[2]) + 1, channels = atoi(given[3]);
    int near = atoi(given[4]), far = atoi(given[5]), ring[MOST_LENGTH + 2];
    state[0] = strtoull(given[6], NULL, 10) * 7919 + 1, state[1] = 88172645463325252;
    double start = seconds_now(), told = start, seconds = atof(given[7]);
    windows = 1;
    for (int at = 0; at < length; at++)
        windows *= ids - at;
    near_count = 2 * (ids - length) + (far ? 2 * (ids - length) * (ids - length - 1) : 0);
    if (count > 8)
        forbid(given + 8, count - 8);
    else
        near_by = sized((size_t)windows * near_count * sizeof(struct close));
    chosen = sized((size_t)windows * sizeof(int));
    conflicts = sized((size_t)windows * channels * sizeof(int));
    free_from = sized((size_t)windows * channels * sizeof(long));
    int *counts = sized((size_t)windows * sizeof(int));
    memset(counts, 0, (size_t)windows * sizeof(int));
    each_window(counts, ring, 0, near, far);
    free(counts);
    long least = -1;
    for (;;) {
        long sum = begin(), best = sum, latest = 0;
        for (long number = 1; sum && number < latest + MOST_MOVES; number++) {
            sum += move(number, sum, best);
            if (sum < best)
                best = sum, latest = number;
            if (least < 0 || best < least)
                least = best;
            if (number % MOVES_AT_ONCE)
                continue;
            double now = seconds_now();
            if (now - told >= SECONDS) {
                told = now;
                fprintf(stderr, "search: %d channels: no table yet, at least %ld conflicts\n", channels, least);
            }
            if (now - start >= seconds)
                return 1;
        }
        if (!sum)
            break;
    }
    printf("nbhd-table 2\nrounds %d ids %d channels %d near %d far %d\n", length / 2, ids, channels, near, far);
    each_window(NULL, ring, 0, near, far);
    puts("end");
    return 0;
}
