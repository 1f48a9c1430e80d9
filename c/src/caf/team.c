#include "team.h"

#include "errors.h"
#include "state.h"
#include "synchronise.h"

struct caf_team *caf_team_find(uint64_t id) {
    for (struct caf_team *team = caf_state.teams; team; team = team->next)
        if (team->id == id)
            return team;
    struct caf_team *team = caf_zeros(sizeof *team);
    team->id = id;
    team->next = caf_state.teams;
    caf_state.teams = team;
    return team;
}

void caf_team_start(void) {
    struct caf_team *team = caf_team_find(1);
    team->number = CAF_INITIAL_TEAM;
    team->size = caf_state.images;
    team->index = caf_state.me;
    for (int i = 0; i < team->size; i++)
        team->members[i] = (gasnet_node_t)i;
    caf_state.team = team;
}

int caf_node(int image) {
    const struct caf_team *team = caf_state.team;
    if (caf_state.images == 1) /* every index is that of the one image, as with libgfortran's own library */
        return 0;
    if (image < 1 || image > team->size)
        caf_die("image %d: the images are 1 to %d", image, team->size);
    return team->members[image - 1];
}

/* ---- Who is there. */

static bool is_absent(const struct caf_team *team, int node, uint32_t sequence) {
    return caf_state.peers[node].condition != CAF_RUNNING && (int32_t)(team->left[node] - sequence) < 0;
}

int caf_team_absence(const struct caf_team *team, uint32_t sequence) {
    int code = 0;
    if (!caf_state.gone)
        return 0;
    for (int i = 0; i < team->size; i++) {
        int node = team->members[i];
        if (!is_absent(team, node, sequence))
            continue;
        if (caf_state.peers[node].condition == CAF_STOPPED)
            return CAF_STAT_STOPPED_IMAGE;
        code = CAF_STAT_FAILED_IMAGE;
    }
    return code;
}

uint32_t caf_team_begin(struct caf_team *team) { return ++team->sequence; }

/* ---- Meetings: each member sends to each other one. */

void caf_meet_handler(gasnet_token_t from, int32_t low, int32_t high, int32_t meeting, int32_t first_low,
                      int32_t first_high, int32_t second_low, int32_t second_high) {
    int node = caf_sender_counted(from);
    struct caf_team *team = caf_team_find(caf_join(low, high));
    team->met[meeting & 1][node] = (uint32_t)meeting;
    team->values[meeting & 1][node].first = caf_join(first_low, first_high);
    team->values[meeting & 1][node].second = caf_join(second_low, second_high);
}

static void tell_members(const struct caf_team *team, uint32_t meeting, struct caf_pair mine) {
    for (int step = 1; step < team->size; step++) {
        int node = team->members[(team->index + step) % team->size];
        if (caf_state.peers[node].condition == CAF_RUNNING)
            gasnet_AMRequestShort7(caf_counted(node), CAF_MEET, caf_low(team->id), caf_high(team->id), (int32_t)meeting,
                                   caf_low(mine.first), caf_high(mine.first), caf_low(mine.second),
                                   caf_high(mine.second));
    }
}

static int meet(struct caf_team *team, uint32_t sequence, struct caf_pair mine, struct caf_pair *values) {
    const struct caf_pair none = { 0, 0 };
    uint32_t meeting = ++team->meetings;
    const uint32_t *met = team->met[meeting & 1];
    tell_members(team, meeting, mine);
    for (int i = 0; i < team->size; i++) {
        int node = team->members[i];
        if (node != caf_state.me)
            GASNET_BLOCKUNTIL(met[node] == meeting || is_absent(team, node, sequence) ||
                              caf_team_absence(team, sequence) == CAF_STAT_STOPPED_IMAGE);
        if (values)
            values[i] = node == caf_state.me ? mine : met[node] == meeting ? team->values[meeting & 1][node] : none;
    }
    return caf_team_absence(team, sequence);
}

int caf_meet_by_pairs(struct caf_team *team, struct caf_pair mine, struct caf_pair *values) {
    return meet(team, caf_team_begin(team), mine, values);
}

int caf_meet(struct caf_team *team, uint64_t mine, uint64_t *values) {
    struct caf_pair pairs[GASNET_MAXNODES];
    int code = caf_meet_by_pairs(team, (struct caf_pair){ mine, 0 }, pairs);
    for (int i = 0; i < team->size; i++)
        values[i] = pairs[i].first;
    return code;
}

/* ---- The barrier: in round r each member sends to the one that is 2^r behind it. Where one is absent nobody gets
 * through all rounds, so all the others come to a meeting. */

void caf_round_handler(gasnet_token_t from, int32_t low, int32_t high, int32_t round, int32_t sequence) {
    struct caf_team *team = caf_team_find(caf_join(low, high));
    uint32_t *latest = &team->rounds[round];
    caf_sender_counted(from);
    if ((int32_t)((uint32_t)sequence - *latest) > 0)
        *latest = (uint32_t)sequence;
}

static bool has_come(const struct caf_team *team, int round, uint32_t sequence) {
    return (int32_t)(team->rounds[round] - sequence) >= 0;
}

int caf_barrier(struct caf_team *team) {
    uint32_t sequence = caf_team_begin(team);
    for (int round = 0; 1 << round < team->size; round++) {
        int node = team->members[(team->index + (1 << round)) % team->size];
        if (!caf_team_absence(team, sequence))
            gasnet_AMRequestShort4(caf_counted(node), CAF_ROUND, caf_low(team->id), caf_high(team->id), round,
                                   (int32_t)sequence);
        GASNET_BLOCKUNTIL(has_come(team, round, sequence) || caf_team_absence(team, sequence));
        if (!has_come(team, round, sequence))
            return meet(team, sequence, (struct caf_pair){ 0, 0 }, NULL);
    }
    return 0;
}

/* ---- The statements. */

/* A number that only teams formed in the same way share. */
static uint64_t mix(uint64_t parent, uint32_t forms, int number) {
    uint64_t z = parent * 0x9e3779b97f4a7c15u + ((uint64_t)forms << 32 | (uint32_t)number);
    z = (z ^ (z >> 30)) * 0xbf58476d1ce4e5b9u;
    z = (z ^ (z >> 27)) * 0x94d049bb133111ebu;
    return z ^ (z >> 31);
}

static void must(int code, const char *call) {
    const struct caf_report report = { NULL, NULL, 0 };
    caf_report_code(&report, code, call);
}

void _gfortran_caf_form_team(int number, struct caf_team **team, int index) {
    struct caf_team *parent = caf_state.team, *formed = caf_team_find(mix(parent->id, ++parent->forms, number));
    uint64_t numbers[GASNET_MAXNODES];
    (void)index;
    formed->parent = parent;
    formed->number = number;
    must(caf_meet(parent, (uint64_t)(uint32_t)number | (uint64_t)1 << 32, numbers), "form team");
    for (int i = 0; i < parent->size; i++) {
        if (numbers[i] >> 32 != 1 || (int32_t)(uint32_t)numbers[i] != number)
            continue;
        if (i == parent->index)
            formed->index = formed->size;
        formed->members[formed->size++] = parent->members[i];
    }
    *team = formed;
}

static struct caf_team *known(struct caf_team *team, const char *call) {
    for (struct caf_team *other = caf_state.teams; other; other = other->next)
        if (other == team && team->size)
            return team;
    caf_die("%s: the team wasn't formed", call);
}

void _gfortran_caf_change_team(struct caf_team **team, int index) {
    (void)index;
    struct caf_team *other = known(*team, "change team");
    if (other->parent != caf_state.team)
        caf_die("change team: the team wasn't formed of the current one");
    must(caf_sync_team(other), "change team");
    caf_state.team = other;
}

void _gfortran_caf_end_team(struct caf_team **team) {
    (void)team;
    if (!caf_state.team->parent)
        caf_die("end team: the current team is the initial one");
    must(caf_sync_team(caf_state.team), "end team");
    caf_state.team = caf_state.team->parent;
}

void _gfortran_caf_sync_team(struct caf_team **team, int index) {
    (void)index;
    must(caf_sync_team(known(*team, "sync team")), "sync team");
}

int _gfortran_caf_team_number(struct caf_team *team) {
    return team ? known(team, "team_number")->number : caf_state.team->number;
}

struct caf_team *_gfortran_caf_get_team(const int *level) {
    (void)level;
    return caf_state.team;
}
