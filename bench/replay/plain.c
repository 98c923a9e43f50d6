/* A plain C program that does the work of `p9sync replay`. Built with -O3. What it shares with others is in plain.h. */
#include "../plain.h"

enum { MAX_PROCS = 1024, MAX_RENDEZ = 8192, KINDS = 5, WAKE = 32 };
enum stage { IDLE, POSTED, ASLEEP, LEAVING, AWAITING, WOKEN, OUT, OWING, HOLDING };

/* What a process is doing, and its flags: a bit for each kind of note, and WAKE. */
struct proc { byte stage, flags; uint16_t sleeper, rendez; uint64_t level; };
/* Posted is 0 or the number of a process plus 1. */
struct rendez { uint64_t level, returned; uint32_t posted; };

static struct proc procs[MAX_PROCS];
static struct rendez rendezes[MAX_RENDEZ];

/* A process's number with its line feed, and each set of notes with its own. */
static struct { char at[7]; byte len; } pid_text[MAX_PROCS];
static struct { char at[39]; byte len; } notes_text[1 << KINDS];

static const char *const kind_names[KINDS] = {"interrupt", "hangup", "alarm", "closed", "expired"};

static void fill_tables(void) {
    for (int pid = 0; pid < MAX_PROCS; pid++) pid_text[pid].len = sprintf(pid_text[pid].at, "%d\n", pid);
    for (int flags = 0; flags < 1 << KINDS; flags++) {
        char text[64] = "-";
        size_t len = 0;
        for (int i = 0; i < KINDS; i++)
            if (flags >> i & 1) len += sprintf(text + len, "%s%s", len ? "," : "", kind_names[i]);
        strcat(text, "\n");
        notes_text[flags].len = strlen(text);
        memcpy(notes_text[flags].at, text, notes_text[flags].len);
    }
}

static inline byte *say_pid(byte *o, unsigned pid) {
    memcpy(o, pid_text[pid].at, sizeof pid_text[pid].at);
    return o + pid_text[pid].len;
}

static inline byte *say_notes(byte *o, unsigned flags) {
    memcpy(o, notes_text[flags].at, sizeof notes_text[flags].at);
    return o + notes_text[flags].len;
}

/* Reads kinds of notes, and gives the place after them, or NULL. */
static const byte *notes(const byte *at, unsigned *flags) {
    *flags = 0;
    if (*at == '-') return at + 1;
    for (;;) {
        unsigned flag;
        if (BEGINS(at, "interrupt")) { flag = 1; at += 9; }
        else if (BEGINS(at, "hangup")) { flag = 2; at += 6; }
        else if (BEGINS(at, "alarm")) { flag = 4; at += 5; }
        else if (BEGINS(at, "closed")) { flag = 8; at += 6; }
        else if (BEGINS(at, "expired")) { flag = 16; at += 7; }
        else return NULL;
        if (*flags & flag) return NULL;
        *flags |= flag;
        if (*at != ',') return at;
        at++;
    }
}

/* Reads a line of notes to a group of processes, each number above the one before it, and gives the place after it, or
   NULL. */
static const byte *group(const byte *at, unsigned *flags) {
    uint64_t pid, before = 0;
    int is_first = 1;
    if (!BEGINS(at, "notepg ")) return NULL;
    at += 6;
    do {
        at = number(at + 1, &pid);
        if (at == NULL || (!is_first && pid <= before)) return NULL;
        before = pid;
        is_first = 0;
    } while (*at == ',');
    if (*at++ != ' ') return NULL;
    at = notes(at, flags);
    return at == NULL || *at != '\n' ? NULL : at + 1;
}

/* Answers whose choice can't be guessed are said without a branch. */
struct answer { char text[16]; size_t len; };
#define ANSWER(text) {text, sizeof text - 1}

static inline byte *say_answer(byte *o, const struct answer *answer) {
    memcpy(o, answer->text, sizeof answer->text);
    return o + answer->len;
}

static int is_lost(unsigned proc_count) {
    for (unsigned pid = 0; pid < proc_count; pid++) {
        const struct rendez *r = &rendezes[procs[pid].rendez];
        if (procs[pid].stage == ASLEEP && r->posted == pid + 1 && r->returned > procs[pid].level) return 1;
    }
    return 0;
}

/* Reads a number, and then this byte. */
#define NUMBER(value, after) do { \
        at = number(at, &(value)); \
        if (at == NULL || *at++ != (after)) fault(o, line); \
    } while (0)

/* Reads a word that begins as it should, and the process after it. */
#define VERB(word, after) do { \
        if (!BEGINS(at, word " ")) fault(o, line); \
        at += sizeof word; \
        NUMBER(pid, after); \
    } while (0)

/* Of a process that is there, what comes next. */
#define STEP(is_in_phase) \
    if (pid >= proc_count) { o = SAY(o, "no process\n"); continue; } \
    p = &procs[pid]; \
    if (!(is_in_phase)) { o = SAY(o, "refused\n"); continue; } \
    r = &rendezes[p->rendez]

static void run(const byte *at, const byte *stop, int is_cut) {
    byte *o = out;
    uint64_t line = 1, proc_count, rendez_count, pid = 0, rendez, level;
    unsigned flags;
    struct proc *p;
    struct rendez *r;
    fill_tables();

    if (!BEGINS(at, "world ")) fault(o, line);
    at += 6;
    NUMBER(proc_count, ' ');
    NUMBER(rendez_count, '\n');
    if (proc_count < 1 || proc_count > MAX_PROCS || rendez_count < 1 || rendez_count > MAX_RENDEZ) fault(o, line);

    for (line = 2; at < stop; line++) {
        if (o >= out + FLUSH) o = flush(o);
        switch (*at) {
        case 'p':
            VERB("post", ' ');
            NUMBER(rendez, ' ');
            NUMBER(level, '\n');
            STEP(p->stage == IDLE);
            if (rendez >= rendez_count) { o = SAY(o, "no rendez\n"); continue; }
            if (level == UINT64_MAX) { o = SAY(o, "bad level\n"); continue; }
            r = &rendezes[rendez];
            if (r->posted) { o = SAY(o, "double sleep\n"); continue; }
            r->posted = pid + 1;
            p->stage = POSTED; p->rendez = rendez; p->level = level;
            o = SAY(o, "posted\n");
            continue;
        case 't':
            if (at[1] == 'e') {
                VERB("test", '\n');
                STEP(p->stage == POSTED);
                static const struct answer tested[] = {ANSWER("asleep\n"), ANSWER("leaving\n")};
                int is_passed = r->level > p->level;
                p->stage = is_passed ? LEAVING : ASLEEP;
                o = say_answer(o, &tested[is_passed]);
            } else {
                VERB("take", '\n');
                STEP(p->stage == OWING);
                if (r->posted == 0) {
                    if (r->returned < p->level) r->returned = p->level;
                    p->stage = IDLE;
                    o = SAY(o, "nobody\n");
                    continue;
                }
                p->sleeper = r->posted - 1; r->posted = 0; p->stage = HOLDING;
                o = SAY(o, "holding ");
                o = say_pid(o, p->sleeper);
            }
            continue;
        case 'l':
            VERB("look", '\n');
            STEP(p->stage == ASLEEP || p->stage == AWAITING);
            static const struct answer looked[] = {ANSWER("parked\n"), ANSWER("leaving\n"), ANSWER("woken\n")};
            int is_woken = p->flags / WAKE, has_notes = (p->stage == ASLEEP) & (p->flags != 0);
            int found = is_woken ? 2 : has_notes;
            byte next[] = {p->stage, LEAVING, WOKEN};
            p->stage = next[found];
            o = say_answer(o, &looked[found]);
            continue;
        case 'w':
            VERB("withdraw", '\n');
            STEP(p->stage == LEAVING);
            static const struct answer withdrawn[] = {ANSWER("awaiting\n"), ANSWER("out\n")};
            int is_out = r->posted == pid + 1;
            r->posted = is_out ? 0 : r->posted;
            p->stage = is_out ? OUT : AWAITING;
            o = say_answer(o, &withdrawn[is_out]);
            continue;
        case 'c':
            if (at[1] == 'l') {
                VERB("clear", '\n');
                STEP(p->stage == OUT || p->stage == WOKEN);
                flags = p->flags & ~WAKE;
                p->stage = IDLE; p->flags = 0;
                if (flags == 0) { o = SAY(o, "ok\n"); continue; }
                o = SAY(o, "interrupted ");
                o = say_notes(o, flags);
            } else {
                VERB("check", '\n');
                STEP(p->stage == ASLEEP);
                static const struct answer checked[] = {ANSWER("released\n"), ANSWER("posted\n")};
                o = say_answer(o, &checked[r->posted == pid + 1]);
            }
            continue;
        case 'r':
            VERB("raise", ' ');
            NUMBER(rendez, ' ');
            NUMBER(level, '\n');
            STEP(p->stage == IDLE);
            if (rendez >= rendez_count) { o = SAY(o, "no rendez\n"); continue; }
            r = &rendezes[rendez];
            if (r->level < level) r->level = level;
            p->stage = OWING; p->rendez = rendez; p->level = level;
            o = SAY(o, "owing\n");
            continue;
        case 'm':
            VERB("mark", '\n');
            STEP(p->stage == HOLDING);
            procs[p->sleeper].flags |= WAKE;
            if (r->returned < p->level) r->returned = p->level;
            p->stage = IDLE;
            o = SAY(o, "marked ");
            o = say_pid(o, p->sleeper);
            continue;
        case 'n':
            if (at[4] == 'p') {
                const byte *list = at + 7;
                at = group(at, &flags);
                if (at == NULL) fault(o, line);
                do {
                    list = number(list, &pid);
                    if (o >= out + FLUSH) o = flush(o);
                    if (pid >= proc_count) { o = SAY(o, "no process\n"); continue; }
                    procs[pid].flags |= flags;
                    o = SAY(o, "noted\n");
                } while (*list++ == ',');
                continue;
            }
            VERB("note", ' ');
            at = notes(at, &flags);
            if (at == NULL || *at++ != '\n') fault(o, line);
            if (pid >= proc_count) { o = SAY(o, "no process\n"); continue; }
            procs[pid].flags |= flags;
            o = SAY(o, "noted\n");
            continue;
        case 'd':
            VERB("drain", '\n');
            STEP(p->stage == IDLE);
            o = SAY(o, "notes ");
            o = say_notes(o, p->flags & ~WAKE);
            p->flags = 0;
            continue;
        default:
            fault(o, line);
        }
    }
    if (is_cut) fault(o, line);
    if (is_lost(proc_count)) o = SAY(o, "lost yes\n");
    else o = SAY(o, "lost no\n");
    flush(o);
}
