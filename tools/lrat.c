/* Prints a trimmed LRAT proof of the formula that a DRAT proof refutes, for tools/lrat. */
#include <errno.h>
#include <limits.h>
#include <stdarg.h>
#include <stdio.h>
#include <stdlib.h>
#include <string.h>
#include <time.h>

enum { SECONDS = 5, MOST_LITERAL = 1 << 29 };

/* A list of numbers that grows. */
struct list {
    int *at;
    long count, room;
};

/* A clause: its literals, and the clause with the same hash that was added before it. */
struct clause {
    int *literals;
    int length, before;
    unsigned hash;
    char is_there, is_needed;
};

/* A line of a file: where its literals stand in the list of all of them. */
struct line {
    long start;
    int length, is_deleted;
};

struct lines {
    struct line *at;
    long count, room;
};

/* A step that is needed: its clause, and where its hints stand in the list of all of them. */
struct step {
    int clause, count;
    long start;
};

static struct list words;               /* the literals of all lines */
static struct clause *clauses;          /* by number, from 1 on */
static int clause_count;
static int formula_count;               /* how many of them are the formula's */
static int variable_count;
static struct list *watchers[2];        /* by place of a literal: the other clauses, and those that are needed */
static char *is_true;                   /* by place of a literal */
static int *reasons;                    /* by place of a literal */
static int *marks, mark;                /* by place of a literal: marked where it is the latest mark */
static struct list units, trail, hints;
static struct list originals;           /* the formula's clauses with a literal twice; the first ones after it are these without that */

/* Ends with a message. */
static void fail(const char *form, ...) {
    va_list rest;
    va_start(rest, form);
    fputs("lrat: ", stderr);
    vfprintf(stderr, form, rest);
    fputc('\n', stderr);
    exit(1);
}

static void *sized(void *block, size_t size) {
    block = realloc(block, size + 1);
    if (block == NULL)
        fail("there is not enough memory");
    return block;
}

static void *zeroed(size_t count, size_t size) {
    return memset(sized(NULL, count * size), 0, count * size);
}

static void append(struct list *list, int value) {
    if (list->count == list->room) {
        list->room = list->room ? 2 * list->room : 4;
        list->at = sized(list->at, list->room * sizeof(int));
    }
    list->at[list->count++] = value;
}

/* The place of a literal in what is kept by literal. */
static inline int place_of(int literal) {
    return literal > 0 ? 2 * literal : 1 - 2 * literal;
}

/* The bytes of a file, and a 0 behind them. */
static char *bytes_of(const char *path, size_t *size) {
    FILE *file = fopen(path, "rb");
    char *bytes = NULL;
    size_t room = 1 << 16, count = 0, more;
    if (file == NULL)
        fail("%s: %s", path, strerror(errno));
    do {
        room *= 2;
        bytes = sized(bytes, room);
        more = fread(bytes + count, 1, room - count, file);
        count += more;
    } while (count == room);
    if (ferror(file))
        fail("%s: %s", path, strerror(errno));
    fclose(file);
    bytes[count] = 0;
    *size = count;
    return bytes;
}

static int is_blank(char byte) {
    return byte == ' ' || byte == '\t' || byte == '\r' || byte == '\v' || byte == '\f';
}

/* The lines of a file that have clauses. */
static struct lines read_lines(const char *path, int is_proof) {
    struct lines lines = {NULL, 0, 0};
    size_t size;
    char *bytes = bytes_of(path, &size), *at = bytes, *end = bytes + size;
    for (long number = 1; at < end; number++, at++) {
        struct line line = {words.count, 0, 0};
        int has_words = 0, last = 1;
        if (*at != 'c' && *at != 'p') {
            if (is_proof && at[0] == 'd' && at[1] == ' ')
                line.is_deleted = has_words = 1, at += 2;
            for (;;) {
                while (is_blank(*at))
                    at++;
                if (at == end || *at == '\n')
                    break;
                char *word = at + (*at == '-'), *after = word;
                long value = 0;
                while (*after >= '0' && *after <= '9' && value <= MOST_LITERAL)
                    value = 10 * value + (*after++ - '0');
                if (after == word || value > MOST_LITERAL || !(is_blank(*after) || *after == '\n' || after == end))
                    fail("%s, line %ld: this is no line of %s", path, number,
                         is_proof ? "DRAT in text form (cadical --no-binary)" : "DIMACS");
                if (has_words && !last)
                    fail("%s, line %ld: a clause ends with 0 and its line", path, number);
                last = (int)(*at == '-' ? -value : value);
                if (last)
                    append(&words, last), line.length++;
                if (value > variable_count)
                    variable_count = (int)value;
                has_words = 1, at = after;
            }
            if (has_words && last)
                fail("%s, line %ld: a clause ends with 0 and its line", path, number);
        }
        while (at < end && *at != '\n')
            at++;
        if (!has_words)
            continue;
        if (lines.count == lines.room) {
            lines.room = lines.room ? 2 * lines.room : 1024;
            lines.at = sized(lines.at, lines.room * sizeof(struct line));
        }
        lines.at[lines.count++] = line;
    }
    free(bytes);
    return lines;
}

/* The literals of a line, each once, their count, and a hash that no order changes. */
static int *literals_of(struct line line, int *length, unsigned *hash) {
    int *literals = words.at + line.start, count = 0;
    mark++;
    *hash = 0;
    for (int each = 0; each < line.length; each++) {
        int literal = literals[each];
        if (marks[place_of(literal)] == mark)
            continue;
        marks[place_of(literal)] = mark;
        unsigned mixed = (unsigned)literal * 0x9e3779b1u;
        *hash += (mixed ^ mixed >> 15) * 0x85ebca6bu;
        literals[count++] = literal;
    }
    *length = count;
    return literals;
}

/* The clause of these literals, which are marked, that was added last and is in its chain; 0 if there is none. It is taken out. */
static int take_same(int *heads, unsigned modulus, int length, unsigned hash) {
    for (int *link = &heads[hash % modulus]; *link; link = &clauses[*link].before) {
        struct clause *clause = &clauses[*link];
        if (clause->hash != hash || clause->length != length)
            continue;
        int each = 0;
        while (each < length && marks[place_of(clause->literals[each])] == mark)
            each++;
        if (each == length) {
            int number = *link;
            *link = clause->before;
            return number;
        }
    }
    return 0;
}

/* Lets the first two literals of a clause be watched. */
static void watch(int number) {
    struct clause *clause = &clauses[number];
    for (int each = 0; each < 2 && each < clause->length; each++)
        append(&watchers[(int)clause->is_needed][place_of(clause->literals[each])], number);
}

/* Puts a clause there, once. */
static void put(int number) {
    clauses[number].is_there = 1;
    if (clauses[number].length < 2)
        append(&units, number);
    else
        watch(number);
}

/* Notes that a clause is needed. */
static void need(int number) {
    if (!clauses[number].is_needed) {
        clauses[number].is_needed = 1;
        if (clauses[number].length > 1)
            watch(number);
    }
}

static void set(int literal, int reason) {
    is_true[place_of(literal)] = 1;
    reasons[place_of(literal)] = reason;
    append(&trail, literal);
}

/* Goes through the clauses that watch a literal which is false now; returns the number of one that has none left, or 0. */
static int visit(int is_needed, int false_literal) {
    struct list *mine = &watchers[is_needed][place_of(false_literal)];
    long kept = 0, count = mine->count;
    for (long each = 0; each < count; each++) {
        int number = mine->at[each];
        struct clause *clause = &clauses[number];
        if (!clause->is_there || clause->is_needed != is_needed)
            continue;
        int *literals = clause->literals, at = 2;
        if (literals[0] == false_literal)
            literals[0] = literals[1], literals[1] = false_literal;
        int first = literals[0];
        if (is_true[place_of(first)]) {
            mine->at[kept++] = number;
            continue;
        }
        while (at < clause->length && is_true[place_of(-literals[at])])
            at++;
        if (at < clause->length) {
            literals[1] = literals[at], literals[at] = false_literal;
            append(&watchers[is_needed][place_of(literals[1])], number);
            continue;
        }
        mine->at[kept++] = number;
        if (is_true[place_of(-first)]) {
            while (++each < count)
                mine->at[kept++] = mine->at[each];
            mine->count = kept;
            return number;
        }
        set(first, number);
    }
    mine->count = kept;
    return 0;
}

/* Sets the literals of the clauses of one literal that are needed, or of the others; returns one whose literal is false or that has
 * none, or 0. */
static int visit_units(int is_needed) {
    for (long each = 0; each < units.count; each++) {
        struct clause *clause = &clauses[units.at[each]];
        if (clause->is_needed != is_needed)
            continue;
        if (!clause->length || is_true[place_of(-clause->literals[0])])
            return units.at[each];
        int literal = clause->literals[0];
        if (!is_true[place_of(literal)])
            set(literal, units.at[each]);
    }
    return 0;
}

/* The number of a clause all of whose literals are false where those of `clause` are, 0 if propagation finds none. */
static int conflict(struct clause *clause) {
    long needed = 0, other = 0, kept = 0;
    int found;
    for (int each = 0; each < clause->length; each++)
        set(-clause->literals[each], 0);
    for (long each = 0; each < units.count; each++)
        if (clauses[units.at[each]].is_there)
            units.at[kept++] = units.at[each];
    units.count = kept;
    if ((found = visit_units(1)) || (found = visit_units(0)))
        return found;
    for (; other < trail.count; other++) {
        for (; needed < trail.count; needed++)
            if ((found = visit(1, -trail.at[needed])))
                return found;
        if ((found = visit(0, -trail.at[other])))
            return found;
    }
    return 0;
}

/* Appends the clauses that lead to a conflict, in order; returns how many they are. Forgets which literals are true. */
static int append_hints(int number) {
    long start = hints.count;
    mark++;
    append(&hints, number);
    for (int each = 0; each < clauses[number].length; each++)
        marks[place_of(-clauses[number].literals[each])] = mark;
    for (long at = trail.count - 1; at >= 0; at--) {
        int literal = trail.at[at], reason = reasons[place_of(literal)];
        if (marks[place_of(literal)] != mark || !reason)
            continue;
        append(&hints, reason);
        for (int each = 0; each < clauses[reason].length; each++)
            if (clauses[reason].literals[each] != literal)
                marks[place_of(-clauses[reason].literals[each])] = mark;
    }
    for (long at = 0; at < trail.count; at++)
        is_true[place_of(trail.at[at])] = 0;
    trail.count = 0;
    for (long low = start, high = hints.count - 1; low < high; low++, high--) {
        int kept = hints.at[low];
        hints.at[low] = hints.at[high], hints.at[high] = kept;
    }
    return (int)(hints.count - start);
}

/* Says every few seconds how far the work is. */
static void tell(long done, long count) {
    static time_t last;
    time_t now = time(NULL);
    if (last == 0)
        last = now;
    if (now - last < SECONDS)
        return;
    last = now;
    fprintf(stderr, "lrat: %ld of %ld steps are left\n", count - done, count);
}

/* Adds a clause, and returns its number. If it is in a chain, a later line can take it away. */
static int add(int *head, int *literals, int length, unsigned hash) {
    int number = ++clause_count;
    clauses[number] = (struct clause){literals, length, head ? *head : 0, hash, 0, 0};
    if (head)
        *head = number;
    return number;
}

/* Adds the clauses of the formula. Those with a literal twice are not in a chain; after all others they are added without that, as
 * steps of the proof. */
static void add_formula(struct lines given, int *heads, unsigned modulus, struct list *history) {
    unsigned hash;
    int length, *literals;
    for (long each = 0; each < given.count; each++) {
        literals = literals_of(given.at[each], &length, &hash);
        int is_twice = length < given.at[each].length;
        int number = add(is_twice ? NULL : &heads[hash % modulus], literals, length, hash);
        if (is_twice)
            append(&originals, number);
    }
    for (long each = 0; each < originals.count; each++) {
        struct clause original = clauses[originals.at[each]];
        literals = memcpy(sized(NULL, original.length * sizeof(int)), original.literals, original.length * sizeof(int));
        append(history, add(&heads[original.hash % modulus], literals, original.length, original.hash));
    }
}

/* Reads both files. Returns the steps of the proof: clauses that are added, by their number, or taken away, by its negative. The last
 * one adds the empty clause, and the clauses after it are there. */
static struct list load(const char *formula, const char *proof) {
    struct lines given = read_lines(formula, 0), steps = read_lines(proof, 1);
    struct list history = {NULL, 0, 0};
    size_t places = 2 * (size_t)variable_count + 2, most = 2 * given.count + steps.count + 2;
    if (most > INT_MAX / 2)
        fail("the proof has too many steps");
    marks = zeroed(places, sizeof(int)), is_true = zeroed(places, 1), reasons = zeroed(places, sizeof(int));
    watchers[0] = zeroed(places, sizeof(struct list)), watchers[1] = zeroed(places, sizeof(struct list));
    clauses = zeroed(most, sizeof(struct clause));
    unsigned modulus = (unsigned)most;
    int *heads = zeroed(modulus, sizeof(int)), length = 1;
    formula_count = (int)given.count;
    add_formula(given, heads, modulus, &history);
    for (long each = 0; each <= steps.count; each++) {
        struct line line = {0, 0, 0};
        unsigned hash;
        if (each < steps.count)
            line = steps.at[each];
        int *literals = literals_of(line, &length, &hash);
        if (line.is_deleted) {
            int number = take_same(heads, modulus, length, hash);
            if (number)
                append(&history, -number);
            continue;
        }
        append(&history, add(&heads[hash % modulus], literals, length, hash));
        if (!length)
            break;
    }
    char *is_left = zeroed(clause_count + 1, 1);
    for (unsigned each = 0; each < modulus; each++)
        for (int number = heads[each]; number; number = clauses[number].before)
            is_left[number] = 1;
    for (int number = 1; number <= clause_count; number++)
        if (is_left[number])
            put(number);
    free(is_left), free(heads), free(given.at), free(steps.at);
    return history;
}

/* The steps that are needed, from the last one to the first. */
static struct step *needed_steps(struct list history, long *count) {
    struct step *steps = zeroed(history.count, sizeof(struct step));
    *count = 0;
    need(history.at[history.count - 1]);
    for (long each = history.count - 1; each >= 0; each--) {
        int number = history.at[each];
        if (each % 64 == 0)
            tell(history.count - each, history.count);
        if (number < 0) {
            put(-number);
            continue;
        }
        struct clause *clause = &clauses[number];
        clause->is_there = 0;
        if (!clause->is_needed)
            continue;
        long original = number - formula_count - 1L;
        int found = original < originals.count ? originals.at[original] : conflict(clause);
        if (!found) {
            fputs("lrat: the proof is not whole, or not by unit propagation alone: ", stderr);
            for (int literal = 0; literal < clause->length; literal++)
                fprintf(stderr, "%s%d", literal ? " " : "", clause->literals[literal]);
            fprintf(stderr, "%s does not follow\n", clause->length ? "" : "the empty clause");
            exit(1);
        }
        struct step step = {number, 0, hints.count};
        step.count = append_hints(found);
        for (int hint = 0; hint < step.count; hint++)
            need(hints.at[step.start + hint]);
        steps[(*count)++] = step;
    }
    return steps;
}

/* Writes the steps, and after each but the last the clauses of the proof that are not used any more. */
static void write_steps(struct step *steps, long count) {
    int *names = zeroed(clause_count + 1, sizeof(int)), *last_uses = zeroed(clause_count + 1, sizeof(int)), name = formula_count;
    for (int number = 1; number <= formula_count; number++)
        names[number] = number;
    for (long each = count - 1; each >= 0; each--) {
        names[steps[each].clause] = ++name;
        for (int hint = 0; hint < steps[each].count; hint++)
            last_uses[hints.at[steps[each].start + hint]] = steps[each].clause;
    }
    for (long each = count - 1; each >= 0; each--) {
        struct step step = steps[each];
        int *mine = hints.at + step.start, is_first = 1;
        printf("%d", names[step.clause]);
        for (int literal = 0; literal < clauses[step.clause].length; literal++)
            printf(" %d", clauses[step.clause].literals[literal]);
        printf(" 0");
        for (int hint = 0; hint < step.count; hint++)
            printf(" %d", names[mine[hint]]);
        printf(" 0\n");
        for (int hint = 0; each && hint < step.count; hint++)
            if (mine[hint] > formula_count && last_uses[mine[hint]] == step.clause) {
                if (is_first)
                    printf("%d d", names[step.clause]);
                printf(" %d", names[mine[hint]]);
                is_first = 0;
            }
        if (!is_first)
            printf(" 0\n");
    }
    if (fflush(stdout) || ferror(stdout))
        fail("standard output: %s", strerror(errno));
}

int main(int count, char **given) {
    long step_count;
    if (count != 3)
        fail("a formula and a proof are needed");
    tell(0, 0);
    struct list history = load(given[1], given[2]);
    struct step *steps = needed_steps(history, &step_count);
    write_steps(steps, step_count);
    return 0;
}
