/* Each call once, with values worked out by hand from docs/RULES.md. It writes nothing; its status is the line of the first
 * check that fails, or 0. */
#include "pfair.h"

#include <string.h>

#define CHECK(fact)                                                                                                    \
    do {                                                                                                               \
        if (!(fact)) return __LINE__ % 251 + 1;                                                                        \
    } while (0)

static pfair_change join(uint64_t task, uint64_t cost, uint64_t period) {
    pfair_change change;
    memset(&change, 0, sizeof change);
    change.kind = PFAIR_INSERT;
    change.event.kind = PFAIR_JOIN;
    change.event.task = task;
    change.event.cost = cost;
    change.event.period = period;
    return change;
}

/* A handle without a desk answers so, and leaves what it would write to. */
static int closed(void) {
    pfair_desk desk = PFAIR_NO_DESK;
    pfair_change change = join(1, 2, 3);
    pfair_reply reply = {7, 8};
    pfair_pick row[2] = {{5, 5}, {5, 5}};
    pfair_lag lag;
    pfair_miss miss;
    pfair_denial denial;
    pfair_task_figures figures;
    pfair_numbered event;
    pfair_fit fit = {7, 8, 9};
    pfair_picture_look look = PFAIR_USUAL_LOOK;
    bool never = true;
    char text;
    uint64_t now = 9, taken = 9;
    size_t count = 9;
    memset(&lag, 0, sizeof lag);
    memset(&miss, 0, sizeof miss);
    memset(&denial, 0, sizeof denial);
    memset(&figures, 0, sizeof figures);
    memset(&event, 0, sizeof event);
    text = 0;
    CHECK(pfair_edit(&desk, 1, &change, false, &reply) == PFAIR_NOT_OPEN && reply.event == 7 && reply.reason == 8);
    CHECK(pfair_what_if(&desk, 1, &change, false, &reply, PFAIR_JSON, &text, 1, &count) == PFAIR_NOT_OPEN);
    CHECK(reply.event == 7 && reply.reason == 8);
    CHECK(pfair_step(&desk, 1) == PFAIR_NOT_OPEN);
    CHECK(pfair_advance(&desk, 1, 3, &taken) == PFAIR_NOT_OPEN && taken == 0);
    CHECK(pfair_now(&desk, &now) == PFAIR_NOT_OPEN && now == 9);
    CHECK(pfair_row(&desk, 0, row, 2) == PFAIR_NOT_OPEN && row[0].task == 5);
    CHECK(pfair_lags(&desk, &lag, 1, &count) == PFAIR_NOT_OPEN);
    CHECK(pfair_misses(&desk, &miss, 1, &count) == PFAIR_NOT_OPEN);
    CHECK(pfair_denials(&desk, &denial, 1, &count) == PFAIR_NOT_OPEN);
    CHECK(pfair_figures(&desk, &figures, 1, &count) == PFAIR_NOT_OPEN);
    CHECK(pfair_events(&desk, &event, 1, &count) == PFAIR_NOT_OPEN);
    CHECK(pfair_never_misses(&desk, &never) == PFAIR_NOT_OPEN && never);
    CHECK(pfair_fits(&desk, &fit) == PFAIR_NOT_OPEN && fit.first == 7 && fit.overload_high == 8 && fit.overload_low == 9);
    CHECK(pfair_text(&desk, PFAIR_JSON, &text, 1, &count) == PFAIR_NOT_OPEN && text == 0);
    CHECK(pfair_part(&desk, PFAIR_CHART, 0, 0, &text, 1, &count) == PFAIR_NOT_OPEN && text == 0);
    CHECK(pfair_svg(&desk, 0, 0, &look, &text, 1, &count) == PFAIR_NOT_OPEN && text == 0);
    pfair_close(&desk);
    CHECK(desk.inner == NULL);
    return 0;
}

static int opening(void) {
    pfair_desk desk = PFAIR_NO_DESK;
    CHECK(pfair_open(&desk, 0, 3, 6, 64) == PFAIR_BAD_SETTINGS && desk.inner == NULL);
    CHECK(pfair_open(&desk, 2, 3, 6, 4097) == PFAIR_BAD_SETTINGS && desk.inner == NULL);
    CHECK(pfair_open_wide(&desk, 65, 3, 6, 64) == PFAIR_BAD_SETTINGS && desk.inner == NULL);
    CHECK(pfair_open_wide(&desk, 2, 3, 6, 64) == PFAIR_OK && desk.inner != NULL);
    CHECK(pfair_open(&desk, 2, 3, 6, 64) == PFAIR_ALREADY_OPEN);
    CHECK(pfair_open_wide(&desk, 2, 3, 6, 64) == PFAIR_ALREADY_OPEN);
    pfair_close(&desk);
    CHECK(desk.inner == NULL);
    pfair_close(&desk);
    return 0;
}

/* Three tasks of 2/3 on two processors: each gets two quanta in three slots. */
static int plan(pfair_desk *desk) {
    uint64_t task, taken = 0;
    CHECK(pfair_open(desk, 2, 3, 6, 64) == PFAIR_OK);
    for (task = 1; task <= 3; task++) {
        pfair_change change = join(task, 2, 3);
        pfair_reply reply = {0, 0};
        CHECK(pfair_edit(desk, 7, &change, false, &reply) == PFAIR_OK && reply.event == task && reply.reason == 0);
    }
    CHECK(pfair_step(desk, 7) == PFAIR_OK);
    CHECK(pfair_advance(desk, 7, 2, &taken) == PFAIR_OK && taken == 2);
    return 0;
}

static int rows(pfair_desk *desk) {
    static const uint32_t tasks[3][2] = {{1, 2}, {1, 3}, {2, 3}};
    static const uint32_t subs[3][2] = {{1, 1}, {2, 1}, {2, 2}};
    pfair_pick row[3] = {{9, 9}, {9, 9}, {9, 9}};
    uint64_t slot, now = 0;
    CHECK(pfair_now(desk, &now) == PFAIR_OK && now == 3);
    for (slot = 0; slot < 3; slot++) {
        CHECK(pfair_row(desk, slot, row, 3) == PFAIR_OK);
        CHECK(row[0].task == tasks[slot][0] && row[1].task == tasks[slot][1] && row[2].task == 9);
        CHECK(row[0].sub == subs[slot][0] && row[1].sub == subs[slot][1]);
    }
    CHECK(pfair_row(desk, 3, row, 3) == PFAIR_OUT_OF_RANGE);
    CHECK(pfair_row(desk, 0, row, 1) == PFAIR_TOO_SHORT);
    return 0;
}

static int refusals(pfair_desk *desk) {
    pfair_change change = join(3, 2, 3);
    pfair_reply reply = {9, 9};
    CHECK(pfair_edit(desk, 7, &change, false, &reply) == PFAIR_JOIN_TWICE && reply.event == 0 && reply.reason == 0);
    change = join(4, 2, 7);
    CHECK(pfair_edit(desk, 7, &change, false, &reply) == PFAIR_BAD_WEIGHT && reply.reason == PFAIR_PERIOD_NOT_IN_BASE);
    change = join(4, 1, 3);
    CHECK(pfair_edit(desk, 7, &change, true, &reply) == PFAIR_WOULD_DENY);
    CHECK(reply.event == 4 && reply.reason == PFAIR_OVER_CAPACITY);
    change.kind = 3;
    CHECK(pfair_edit(desk, 7, &change, false, &reply) == PFAIR_UNKNOWN_KIND && reply.event == 4);
    change = join(4, 1, 3);
    change.event.kind = 4;
    CHECK(pfair_edit(desk, 7, &change, false, &reply) == PFAIR_UNKNOWN_KIND);
    change.kind = PFAIR_STRIKE;
    change.id = 9;
    CHECK(pfair_edit(desk, 7, &change, false, &reply) == PFAIR_EVENT_NOT_FOUND);
    return 0;
}

/* What a strike of the third task would make of the schedule; the desk stays. */
static int what_if(pfair_desk *desk) {
    static const char then[] = "slot,p0,p1\n0,1/1,2/1\n1,1/2,2/2\n2,,\n";
    static const char now[] = "slot,p0,p1\n0,1/1,2/1\n1,1/2,3/1\n2,2/2,3/2\n";
    pfair_change change = join(0, 0, 0);
    pfair_reply reply = {9, 9};
    char text[256];
    size_t count = 0;
    memset(text, 0, sizeof text);
    change.kind = PFAIR_STRIKE;
    change.id = 3;
    CHECK(pfair_what_if(desk, 7, &change, false, &reply, PFAIR_SCHEDULE, text, sizeof text, &count) == PFAIR_OK);
    CHECK(reply.event == 3 && reply.reason == 0 && count == sizeof then - 1 && strcmp(text, then) == 0);
    CHECK(pfair_what_if(desk, 7, &change, false, &reply, PFAIR_SCHEDULE, text, 4, &count) == PFAIR_TOO_SHORT);
    change.id = 9;
    CHECK(pfair_what_if(desk, 7, &change, false, &reply, PFAIR_SCHEDULE, text, 256, &count) == PFAIR_EVENT_NOT_FOUND);
    CHECK(pfair_what_if(desk, 7, &change, false, &reply, PFAIR_TABLES + 1, text, 256, &count) == PFAIR_UNKNOWN_KIND);
    memset(text, 0, sizeof text);
    CHECK(pfair_text(desk, PFAIR_SCHEDULE, text, sizeof text, &count) == PFAIR_OK && strcmp(text, now) == 0);
    return 0;
}

/* Three tasks of 2 units in 3 fill two processors; with one in use each of the three slots asks for 3 units too many. */
static int room(pfair_desk *desk, uint64_t first, uint64_t overload) {
    pfair_fit fit = {7, 8, 9};
    bool never = first != PFAIR_NEVER;
    CHECK(pfair_never_misses(desk, &never) == PFAIR_OK && never == (first == PFAIR_NEVER));
    CHECK(pfair_fits(desk, &fit) == PFAIR_OK);
    CHECK(fit.first == first && fit.overload_high == 0 && fit.overload_low == overload);
    return 0;
}

static int lists(pfair_desk *desk) {
    pfair_lag lags[4];
    pfair_miss misses[4];
    pfair_denial denials[1];
    pfair_change change = join(4, 1, 3);
    pfair_reply reply = {0, 0};
    size_t count = 0;
    memset(lags, 0, sizeof lags);
    memset(misses, 0, sizeof misses);
    memset(denials, 0, sizeof denials);
    CHECK(pfair_lags(desk, lags, 2, &count) == PFAIR_TOO_SHORT && count == 3 && lags[0].task == 0);
    CHECK(pfair_lags(desk, lags, 4, &count) == PFAIR_OK && count == 3);
    CHECK(lags[2].task == 3 && lags[2].received == 2 && lags[2].scaled == 0 && lags[3].task == 0);
    CHECK(pfair_denials(desk, denials, 0, &count) == PFAIR_OK && count == 0);
    CHECK(pfair_edit(desk, 7, &change, false, &reply) == PFAIR_OK && reply.event == 4);
    CHECK(pfair_denials(desk, denials, 0, &count) == PFAIR_TOO_SHORT && count == 1);
    CHECK(pfair_denials(desk, denials, 1, &count) == PFAIR_OK && denials[0].reason == PFAIR_OVER_CAPACITY);
    change.event.kind = PFAIR_LIMIT;
    change.event.count = 1;
    CHECK(pfair_edit(desk, 7, &change, false, &reply) == PFAIR_OK);
    /* One processor gives its three quanta to 1/1, 2/1 and, a slot late, 3/1; the windows of 1/2, 2/2 and 3/2 end with slot 2. */
    CHECK(pfair_misses(desk, misses, 3, &count) == PFAIR_TOO_SHORT && count == 4 && misses[0].task == 0);
    CHECK(pfair_misses(desk, misses, 4, &count) == PFAIR_OK && count == 4);
    CHECK(misses[0].task == 3 && misses[0].sub == 1 && misses[0].deadline == 2 && misses[0].ran == 2);
    CHECK(misses[3].task == 3 && misses[3].sub == 2 && misses[3].deadline == 3 && misses[3].ran == PFAIR_NEVER);
    return 0;
}

static int tasks_and_events(pfair_desk *desk) {
    pfair_task_figures figures[3];
    pfair_numbered events[3];
    size_t count = 0;
    memset(figures, 0, sizeof figures);
    memset(events, 0, sizeof events);
    CHECK(pfair_figures(desk, figures, 3, &count) == PFAIR_OK && count == 3);
    CHECK(figures[1].task == 2 && figures[1].quanta == 2 && figures[1].jobs == 1);
    CHECK(figures[1].response_least == 3 && figures[1].response_greatest == 3 && figures[1].missed == 0);
    CHECK(figures[1].migrations == 1 && figures[1].preemptions == 1 && figures[1].tardiness == 0);
    CHECK(pfair_events(desk, events, 2, &count) == PFAIR_TOO_SHORT && count == 3 && events[0].id == 0);
    CHECK(pfair_events(desk, events, 3, &count) == PFAIR_OK && count == 3);
    CHECK(events[2].id == 3 && events[2].event.kind == PFAIR_JOIN && events[2].event.period == 3);
    CHECK(events[2].event.by == 0 && events[2].event.count == 0);
    return 0;
}

/* Of each kind its front, or the whole of it; each ends in an end of line. */
static int texts(pfair_desk *desk) {
    static const char *const fronts[] = {
        [PFAIR_SCHEDULE] = "slot,p0,p1\n0,1/1,2/1\n1,1/2,3/1\n2,2/2,3/2\n",
        [PFAIR_LAGS] = "task,cost,period,received,lag\n1,2,3,2,0\n",
        [PFAIR_MISSES] = "task,sub,deadline,ran\n",
        [PFAIR_DENIALS] = "slot,event,code,reason\n",
        [PFAIR_EVENTS] = "event,slot,kind,task,cost,period,early,by,count\n1,0,join,1,2,3,0,,\n",
        [PFAIR_SCRIPT] = "settings,2,3,6,64\njoin,0,1,2,3,0\njoin,0,2,2,3,0\njoin,0,3,2,3,0\nstep,3\n",
        [PFAIR_JSON] = "{\"denials\":[",
        [PFAIR_PROCESSORS] = "processor,quanta,idle,changes\n0,3,0,1\n",
        [PFAIR_STATS] = "task,cost,period,quanta,migrations,",
        [PFAIR_CHART] = "slots 0 to 3 of 3; processors 2; base 3; cap 6\n",
        [PFAIR_WINDOWS] = "task,sub,job,eligible,release,deadline,bit,group,ran,processor\n1,1,1,0,0,2,",
        [PFAIR_JOBS] = "task,job,release,deadline,finish,response,tardiness\n1,1,0,3,",
        [PFAIR_LOAD] = "slot,load,room\n0,6,6\n",
        [PFAIR_QUANTA] = "slot,processor,task,sub\n0,0,1,1\n0,1,2,1\n1,0,1,2\n1,1,3,1\n2,0,2,2\n2,1,3,2\n",
        [PFAIR_TRACE] = "",
        [PFAIR_C] = "/*",
        [PFAIR_FULL] = "{\"denials\":[],\"entries\":6,\"events\":[{\"by\":null,\"cost\":2,",
        [PFAIR_HTML] = "<!doctype html>\n",
        [PFAIR_TABLES] = "schedule\nslot,p0,p1\n0,1/1,2/1\n1,1/2,3/1\n2,2/2,3/2\nlags\n",
    };
    static char text[262144];
    uint64_t kind;
    size_t count = 0, again = 0;
    for (kind = PFAIR_SCHEDULE; kind <= PFAIR_TABLES; kind++) {
        size_t front = strlen(fronts[kind]);
        memset(text, 0, sizeof text);
        CHECK(pfair_text(desk, kind, text, 0, &count) == PFAIR_TOO_SHORT && count < sizeof text && text[0] == 0);
        CHECK(pfair_text(desk, kind, text, count, &again) == PFAIR_OK && again == count && text[count] == 0);
        CHECK(count >= front && memcmp(text, fronts[kind], front) == 0);
        CHECK(text[count - 1] == '\n');
    }
    count = 9;
    CHECK(pfair_text(desk, PFAIR_TABLES + 1, text, sizeof text, &count) == PFAIR_UNKNOWN_KIND && count == 9);
    return 0;
}

/* Parts of texts: all of it is the whole text. */
static int parts(pfair_desk *desk) {
    static const char part[] = "slot,p0,p1\n1,1/2,3/1\n", chart[] = "slots 1 to 3 of 3; processors 2; base 3; cap 6\n";
    static const uint64_t kinds[] = {PFAIR_SCHEDULE, PFAIR_CHART, PFAIR_WINDOWS, PFAIR_LOAD, PFAIR_QUANTA};
    char text[8192], whole[8192];
    size_t count = 0, all = 0, k;
    memset(text, 0, sizeof text);
    memset(whole, 0, sizeof whole);
    CHECK(pfair_part(desk, PFAIR_SCHEDULE, 1, 2, text, 4, &count) == PFAIR_TOO_SHORT && count == sizeof part - 1 && text[0] == 0);
    CHECK(pfair_part(desk, PFAIR_SCHEDULE, 1, 2, text, sizeof text, &count) == PFAIR_OK);
    CHECK(strcmp(text, part) == 0);
    CHECK(pfair_part(desk, PFAIR_CHART, 1, 3, text, sizeof text, &count) == PFAIR_OK);
    CHECK(memcmp(text, chart, sizeof chart - 1) == 0);
    for (k = 0; k < sizeof kinds / sizeof kinds[0]; k++) {
        CHECK(pfair_part(desk, kinds[k], 0, 3, text, sizeof text, &count) == PFAIR_OK);
        CHECK(pfair_text(desk, kinds[k], whole, sizeof whole, &all) == PFAIR_OK);
        CHECK(count == all && memcmp(text, whole, all) == 0);
        CHECK(pfair_part(desk, kinds[k], 2, 1, text, sizeof text, &count) == PFAIR_OUT_OF_RANGE);
        CHECK(pfair_part(desk, kinds[k], 0, 4, text, sizeof text, &count) == PFAIR_OUT_OF_RANGE);
    }
    CHECK(pfair_part(desk, PFAIR_JOBS, 0, 3, text, sizeof text, &count) == PFAIR_UNKNOWN_KIND);
    CHECK(pfair_part(desk, PFAIR_TABLES + 1, 0, 3, text, sizeof text, &count) == PFAIR_UNKNOWN_KIND);
    return 0;
}

static int pictures(pfair_desk *desk) {
    static const pfair_picture_look bad[] = {{5, 1, PFAIR_STRIPS}, {41, 1, PFAIR_STRIPS}, {20, 0, PFAIR_STRIPS},
                                     {20, 4097, PFAIR_STRIPS}, {20, 1, PFAIR_STAIRS + 1}};
    pfair_picture_look look = PFAIR_USUAL_LOOK;
    char text[16384];
    size_t count = 0, stairs = 0, wrapped = 0, k;
    memset(text, 0, sizeof text);
    CHECK(pfair_svg(desk, 0, 3, &look, text, sizeof text, &count) == PFAIR_OK && memcmp(text, "<svg ", 5) == 0);
    look.style = PFAIR_STAIRS;
    CHECK(pfair_svg(desk, 0, 3, &look, text, sizeof text, &stairs) == PFAIR_OK && stairs != count);
    look.wrap = 1;
    CHECK(pfair_svg(desk, 0, 3, &look, text, sizeof text, &wrapped) == PFAIR_OK && wrapped > stairs);
    for (k = 0; k < sizeof bad / sizeof bad[0]; k++) {
        CHECK(pfair_svg(desk, 0, 3, &bad[k], text, sizeof text, &count) == PFAIR_OUT_OF_RANGE);
    }
    CHECK(pfair_svg(desk, 0, 4, &look, text, sizeof text, &count) == PFAIR_OUT_OF_RANGE);
    return 0;
}

/* What a check tells of bad records. */
static int faults(void) {
    static const char script[] = "settings,65,4,4,64\nsettings,1,4,4,64\nstep,none\n", good[] = "step\nstrike,7\n";
    static const char lines[] = "line 1, record 1, field 2: 65 is not within 1 to 64\n"
                                "line 3, record 3, field 2: \"none\" is no number of 1 to 15 digits\n";
    static const char first[] = "line 2, record 2: settings come once, before all changes and steps\n";
    const char *bytes = script;
    char text[256];
    size_t count = 9;
    memset(text, 0, sizeof text);
    CHECK(pfair_script_faults(bytes, sizeof script - 1, text, 3, &count) == PFAIR_TOO_SHORT);
    CHECK(count == sizeof lines - 1 && text[0] == 0);
    CHECK(pfair_script_faults(bytes, sizeof script - 1, text, sizeof text, &count) == PFAIR_OK);
    CHECK(strcmp(text, lines) == 0);
    CHECK(pfair_record_faults(good, sizeof good - 1, text, sizeof text, &count) == PFAIR_OK && count == 0);
    memset(text, 0, sizeof text);
    bytes = "step\nsettings,1,4,4,64\n";
    CHECK(pfair_record_faults(bytes, 23, text, sizeof text, &count) == PFAIR_OK && strcmp(text, first) == 0);
    return 0;
}

/* Each status and reason has a name and a sentence, and no other number below 100 has. */
static int names(void) {
    static const char twice[] = "another event joins the task";
    char text[64];
    uint32_t number, known = 0;
    size_t count = 9;
    for (number = 0; number < 100; number++) {
        pfair_status status = pfair_name(number, text, sizeof text, &count);
        CHECK(status == PFAIR_OK || status == PFAIR_UNKNOWN_KIND);
        CHECK(pfair_sentence(number, text, sizeof text, &count) == status);
        known += status == PFAIR_OK;
    }
    CHECK(known == 34);
    memset(text, 0, sizeof text);
    CHECK(pfair_name(PFAIR_JOIN_TWICE, text, 3, &count) == PFAIR_TOO_SHORT && count == 9 && text[0] == 0);
    CHECK(pfair_name(PFAIR_JOIN_TWICE, text, sizeof text, &count) == PFAIR_OK && strcmp(text, "JoinTwice") == 0);
    CHECK(pfair_sentence(PFAIR_JOIN_TWICE, text, sizeof text, &count) == PFAIR_OK && strcmp(text, twice) == 0);
    return 0;
}

/* What a status says, as a text of C: whole, cut to a room, and nothing of a number that tells nothing. */
static int said(void) {
    char text[PFAIR_SAID];
    CHECK(pfair_say(PFAIR_JOIN_TWICE, text, sizeof text) == text && strcmp(text, "another event joins the task") == 0);
    CHECK(strcmp(pfair_say(PFAIR_JOIN_TWICE, text, 8), "another") == 0);
    CHECK(strcmp(pfair_say(PFAIR_JOIN_TWICE, text, 1), "") == 0);
    CHECK(strcmp(pfair_say(5, text, sizeof text), "") == 0);
    for (uint32_t number = 0; number < 100; number++) {
        size_t count = 0;
        pfair_status status = pfair_sentence(number, text, sizeof text, &count);
        CHECK(strlen(pfair_say(number, text, sizeof text)) == (status == PFAIR_OK ? count : 0));
    }
    return 0;
}

/* Records are carried out up to the first bad one. */
static int records(void) {
    static const char good[] = "join,0,1,1,2,0\nstrike,9\nstep,2\n", bad_one[] = "step\nstep,2,3\nstep\n";
    static const char replies[] = "refused 10 EventNotFound\nslot 0: 1/1\nslot 1: -\n";
    const char *first = good, *second = bad_one;
    pfair_desk desk = PFAIR_NO_DESK;
    pfair_bad_record bad = {7, 8, 9};
    pfair_pick row = {0, 0};
    char text[128];
    uint64_t now = 0;
    size_t count = 0;
    CHECK(pfair_run(&desk, 1, first, sizeof good - 1, &bad) == PFAIR_NOT_OPEN && bad.number == 7);
    CHECK(pfair_open(&desk, 1, 2, 2, 64) == PFAIR_OK);
    CHECK(pfair_run(&desk, 1, first, 0, &bad) == PFAIR_OK && pfair_now(&desk, &now) == PFAIR_OK && now == 0);
    CHECK(pfair_run(&desk, 1, first, sizeof good - 1, &bad) == PFAIR_OK && bad.number == 7);
    CHECK(pfair_entries(&desk, &count) == PFAIR_OK && count == 4);
    memset(text, 0, sizeof text);
    CHECK(pfair_replies(&desk, 1, text, 8, &count) == PFAIR_TOO_SHORT && count == sizeof replies - 1 && text[0] == 0);
    CHECK(pfair_replies(&desk, 1, text, sizeof text, &count) == PFAIR_OK && strcmp(text, replies) == 0);
    CHECK(pfair_replies(&desk, 5, text, sizeof text, &count) == PFAIR_OK && count == 0);
    CHECK(pfair_row(&desk, 0, &row, 1) == PFAIR_OK && row.task == 1 && row.sub == 1);
    CHECK(pfair_run(&desk, 1, second, sizeof bad_one - 1, &bad) == PFAIR_BAD_RECORD);
    CHECK(bad.number == 2 && bad.line == 2 && bad.field == 3);
    CHECK(pfair_now(&desk, &now) == PFAIR_OK && now == 3);
    pfair_close(&desk);
    return 0;
}

/* A whole script opens a desk, where it has settings. */
static int script(void) {
    static const char good[] = "settings,1,2,2,64\njoin,0,1,1,2,0\nstep,2\n", cut[] = "join,0,1,1,2,0\n";
    pfair_desk desk = PFAIR_NO_DESK;
    pfair_bad_record bad = {7, 8, 9};
    pfair_setup setup = {9, 9, 9, 9, 9};
    uint64_t now = 0;
    CHECK(pfair_settings(&desk, &setup) == PFAIR_NOT_OPEN && setup.base == 9);
    CHECK(pfair_open_script(&desk, 1, cut, sizeof cut - 1, &bad) == PFAIR_BAD_RECORD);
    CHECK(bad.number == 1 && bad.line == 1 && bad.field == 1 && desk.inner == NULL);
    CHECK(pfair_open_script(&desk, 1, good, sizeof good - 1, &bad) == PFAIR_OK);
    CHECK(pfair_open_script(&desk, 1, good, sizeof good - 1, &bad) == PFAIR_ALREADY_OPEN);
    CHECK(pfair_now(&desk, &now) == PFAIR_OK && now == 2 && pfair_settings(&desk, &setup) == PFAIR_OK);
    CHECK(setup.processors == 1 && setup.base == 2 && setup.cap == 2 && setup.every == 64 && setup.horizon == 1 << 20);
    pfair_close(&desk);
    return 0;
}

/* A plan too, whose names and slot its texts tell. */
static int titled_script(void) {
    static const char rig[] = "# camera rig\nplan, 1\nsettings, 2, 6\nslot, 500, us\nname, 1, camera\n"
                              "label, in, join, 0, camera, 2, 3\nstep, 6\nlabel, out, leave, 6, camera\nstep, 3\n";
    static const char again[] = "plan,1\nsettings,2,6,12,64\nslot,500,us\nname,1,camera\njoin,0,1,2,3,0\nleave,6,1\nstep,9\n";
    static const char unknown[] = "plan,1\nsettings,1,2\nstrike,x\nlabel,x,join,0,1,1,2\n";
    static const char told[] = "line 3, record 3, field 2: \"x\" labels no event so far\n";
    pfair_change strike = {PFAIR_STRIKE, 2, {0, 0, 0, 0, 0, 0, 0, 0}};
    pfair_reply reply = {0, 0};
    pfair_desk desk = PFAIR_NO_DESK;
    pfair_bad_record bad = {7, 8, 9};
    char text[256];
    size_t count = 0;
    memset(text, 0, sizeof text);
    CHECK(pfair_open_script(&desk, 1, rig, sizeof rig - 1, &bad) == PFAIR_OK && bad.number == 7);
    CHECK(pfair_text(&desk, PFAIR_SCRIPT, text, sizeof text, &count) == PFAIR_OK && strcmp(text, again) == 0);
    memset(text, 0, sizeof text);
    CHECK(pfair_what_if(&desk, 1, &strike, false, &reply, PFAIR_LAGS, text, sizeof text, &count) == PFAIR_OK);
    CHECK(strcmp(text, "task,cost,period,received,lag,name\n1,2,3,6,0,camera\n") == 0);
    CHECK(pfair_run(&desk, 1, "name,2,lidar\n", 13, &bad) == PFAIR_BAD_RECORD && bad.number == 1);
    pfair_close(&desk);
    CHECK(pfair_open_script(&desk, 1, unknown, sizeof unknown - 1, &bad) == PFAIR_BAD_RECORD);
    CHECK(bad.number == 3 && bad.line == 3 && bad.field == 2 && desk.inner != NULL);
    pfair_close(&desk);
    CHECK(pfair_open_script(&desk, 1, "plan,1\n# y\n", 12, &bad) == PFAIR_BAD_RECORD);
    CHECK(bad.number == 2 && desk.inner == NULL);
    memset(text, 0, sizeof text);
    CHECK(pfair_script_faults(unknown, sizeof unknown - 1, text, sizeof text, &count) == PFAIR_OK);
    CHECK(strcmp(text, told) == 0);
    return 0;
}

static int version(void) {
    char text[sizeof PFAIR_VERSION];
    size_t count = 0;
    memset(text, 0, sizeof text);
    CHECK(pfair_version(text, 0, &count) == PFAIR_TOO_SHORT && count == sizeof PFAIR_VERSION - 1);
    CHECK(pfair_version(text, sizeof text, &count) == PFAIR_OK && strcmp(text, PFAIR_VERSION) == 0);
    CHECK(pfair_abi() == PFAIR_ABI && sizeof(pfair_status) == sizeof(uint32_t));
    return 0;
}

int main(void) {
    pfair_desk desk = PFAIR_NO_DESK;
    int failed = closed();
    if (!failed) failed = opening();
    if (!failed) failed = plan(&desk);
    if (!failed) failed = rows(&desk);
    if (!failed) failed = tasks_and_events(&desk);
    if (!failed) failed = texts(&desk);
    if (!failed) failed = parts(&desk);
    if (!failed) failed = pictures(&desk);
    if (!failed) failed = what_if(&desk);
    if (!failed) failed = version();
    if (!failed) failed = names();
    if (!failed) failed = said();
    if (!failed) failed = faults();
    if (!failed) failed = records();
    if (!failed) failed = script();
    if (!failed) failed = titled_script();
    if (!failed) failed = refusals(&desk);
    if (!failed) failed = room(&desk, PFAIR_NEVER, 0);
    if (!failed) failed = lists(&desk);
    if (!failed) failed = room(&desk, 0, 9);
    pfair_close(&desk);
    return failed;
}
