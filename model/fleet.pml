/*
 * One rollout over several machines, coordinated by one record in etcd. README.md says what this model leaves out, and
 * check.py runs it.
 *
 * etcd is one atomic store. There are NM machines, each with a switch and an agent, and two candidates for the leader. The
 * lease of the leader may end at any time, and the leader goes on believing that it leads. Machines crash (the switch, the
 * agent, or both), lose etcd and come back. Each analysis may fail. A person puts one or two plans in a row, may order
 * aborts and promotions, and may remove and add the last machine.
 *
 * Machines are alike, and so are the candidates. So the first crash is that of machine 0, and so on; only the last machine
 * differs, where members change, and may then crash first too.
 *
 * Each option of a process changes something when it is taken, and the faults are counted. So all runs are finite, and
 * `<>[]` properties need no fairness assumption.
 */

/* ---- bounds ---- */
#ifndef NM              /* machines: 2 or 3 */
#define NM 3
#endif
#ifndef PLANS           /* plans that a person puts, one after the other: 1 or 2 */
#define PLANS 2
#endif
#ifndef CRASHES         /* of the switch, the agent, or both */
#define CRASHES 1
#endif
#ifndef CUTS            /* losses of etcd */
#define CUTS 1
#endif
#ifndef EXPIRIES        /* ends of the leader's lease */
#define EXPIRIES 1
#endif
#ifndef FAILURES        /* analyses that fail */
#define FAILURES 1
#endif
#ifndef ABORTS          /* aborts that a person orders */
#define ABORTS 1
#endif
#ifndef REMOVALS        /* removals of the last machine from the members */
#define REMOVALS 0
#endif
#ifndef ADDITIONS       /* additions of the last machine; with more additions than removals it is no member at first */
#define ADDITIONS 0
#endif
#ifndef MAX_MISSING     /* members that may be away while the attempt goes on */
#define MAX_MISSING 0
#endif
#ifndef SPOILS          /* values of the plan's key that can't be read; each stands until the next plan is put, if one is */
#define SPOILS 0
#endif
#ifndef BY_HAND         /* 1: `promoting` is written only if a person ordered it for this attempt */
#define BY_HAND 0
#endif

/* ---- the rules: 0 for all of them, or the number of the only one that is asserted ---- */
#ifndef RULE
#define RULE 0
#endif
/* check.py reads the number of the rule from the assertion that spin prints: (0!=N) */
#define RULE_1(x) assert((x) || (RULE != 0 && RULE != 1))
#define RULE_2(x) assert((x) || (RULE != 0 && RULE != 2))
#define RULE_3(x) assert((x) || (RULE != 0 && RULE != 3))
#define RULE_6(x) assert((x) || (RULE != 0 && RULE != 6))
#define RULE_7(x) assert((x) || (RULE != 0 && RULE != 7))

/* the stages of an attempt */
#define DEPLOYING 1
#define PROMOTING 2
#define SUCCESSFUL 3
#define ABORTED 4
/* the phases of a switch; PASSED and FAILED: the analysis after the switch has ended, and no verdict was sent */
#define STEADY 0
#define TESTING 1
#define PAUSED 2
#define POST 3
#define PASSED 4
#define FAILED 5
#define BACK 6
#define RUNS(i) (phase[i] >= TESTING && phase[i] <= FAILED)
/* reports: attempt * 4 + one of these; 0 is a report of no attempt, or no report */
#define READY 1
#define OK 2
#define BAD 3
#define UNKNOWN 3       /* no attempt that the agent knows of */
/* what a leader wants to write */
#define BEGIN 1
#define PROMOTE 2
#define SUCCEED 3
#define ABORT 4

/* ---- etcd ---- */
byte plan = 0;                                   /* its mod revision; plan P names revision P */
byte id = 0, stage = SUCCESSFUL, stable = 0;     /* the record */
byte abort_order = 0, promote_order = 0;         /* the attempt that a person's order is for */
#if SPOILS
bit spoiled = 0;                                 /* the plan's key has no plan that can be read, or is gone */
byte spoils = 0;
byte overdue = 0;                                /* the attempt that was promoting for longer than the plan that it began with allows */
#define SPOILED spoiled
#define OVERDUE (stage == PROMOTING && overdue == id)
#else
#define SPOILED 0
#define OVERDUE false
#endif
byte rep[NM];                                    /* machines/HOST */
bit member[NM];
byte holder = 0, epoch = 0;                      /* the leader's key, and its create revision */
#if MAX_MISSING
bit away[NM];                                    /* machines/HOST is gone with its lease */
bit no_vote[NM];                                 /* of the record: it was away when `promoting` was written */
#define AWAY(i) away[i]
#define NO_VOTE(i) no_vote[i]
#define HAS_LEASE(i) (!away[i])
#define LEASE_ENDS(i) rep[i] = 0; away[i] = 1
#else
#define AWAY(i) false
#define NO_VOTE(i) false
#define HAS_LEASE(i) (rep[i] != 0)
#define LEASE_ENDS(i) rep[i] = 0
#endif
#ifdef LAGGING_READS
byte id_before = 0, stage_before = SUCCESSFUL, stable_before = 0;
#endif

/* ---- machines ---- */
byte live[NM], stab[NM], att[NM], phase[NM];     /* of the switch; att is the attempt of its newest revision */
byte vid[NM], vstage[NM], vstable[NM];           /* the record as the agent read it last */
bit known[NM];                                   /* whether it has read one since its start; vid.. are then of the state file */
bit old[NM];                                     /* whether that read is older than a second, where it says promoting */
bit conn[NM];                                    /* whether it has etcd */
bit line[NM];                                    /* whether a `promote` is on its way: its agent or the switch may be stopped */
#ifdef EDGES
bit changed[NM];
#endif
#define VSTABLE(i) (vstage[i] == SUCCESSFUL -> vid[i] : vstable[i])
#ifdef NO_CATCH_UP
#define HAS_STABLE(i) true
#else
#define HAS_STABLE(i) (stab[i] == VSTABLE(i))
#endif
#ifdef EDGES
#define SEES_CHANGE(i) changed[i]
#else
#define SEES_CHANGE(i) true
#endif
#ifdef OLD_READS
#define IS_FRESH(i) true
#else
#define IS_FRESH(i) (!old[i])
#endif
/* A second passes: the time limit of a line that rests on a read of before is over, so the switch refuses it. */
#ifdef NO_TIME_LIMIT
#define LINE_IS_LATE(i) skip
#else
#define LINE_IS_LATE(i) line[i] = 0
#endif
#ifdef NO_ID
#define OF_ATTEMPT(i) true
#else
#define OF_ATTEMPT(i) (att[i] == vid[i])
#endif

/* ---- faults that were spent ---- */
byte crashes = 0, cuts = 0, expiries = 0, failures = 0, aborts = 0, removals = 0, additions = 0;
#define LAST(i) (i == NM - 1 && REMOVALS + ADDITIONS > 0)

/* ---- what the rules speak of, and no process reads; by attempt ---- */
bit promoted[3];            /* `promoting` was written */
bit aborted[3];             /* `aborted` was written */
bit late[3];                /* and a second has passed since then */
bit ordered[3];             /* a person ordered the promotion */
byte last_writer = 0;       /* the epoch of the last writer of the record */

#define KIND(i) (att[i] == UNKNOWN -> 0 : (phase[i] == PAUSED -> att[i] * 4 + READY : (phase[i] == PASSED -> att[i] * 4 + OK : \
    ((phase[i] == FAILED || phase[i] == BACK) -> att[i] * 4 + BAD : 0))))

proctype Machine(byte i) {
    do
    /* the agent reads the record */
    :: atomic { conn[i] && (!known[i] || old[i] || vid[i] != id || vstage[i] != stage) ->
        vid[i] = id; vstage[i] = stage; vstable[i] = stable; known[i] = 1; old[i] = 0;
#ifdef EDGES
        changed[i] = 1;
#endif
        skip }
#ifdef LAGGING_READS
    /* a member of etcd that lags gives the record before */
    :: atomic { conn[i] && old[i] && id_before == vid[i] && stage_before == vstage[i] -> old[i] = 0 }
#endif
    /* the agent writes its report */
    :: atomic { conn[i] && known[i] && att[i] == id && KIND(i) != 0 && rep[i] != KIND(i) ->
        rep[i] = KIND(i);
#if MAX_MISSING
        away[i] = 0
#endif
        }
#if MAX_MISSING
    :: atomic { conn[i] && known[i] && AWAY(i) -> away[i] = 0 }
#endif
    /* the endpoints come up, and the analysis before the switch ends */
    :: atomic { phase[i] == TESTING -> phase[i] = PAUSED }
    :: atomic { phase[i] == TESTING && failures < FAILURES -> failures++; phase[i] = BACK }
    /* the analysis after the switch ends; the verdict `successful` is held back */
    :: atomic { phase[i] == POST -> phase[i] = PASSED }
    :: atomic { phase[i] == POST && failures < FAILURES -> failures++; phase[i] = FAILED }
#ifndef HELD_BACK
    /* a failed one takes the machine back, without etcd */
    :: atomic { phase[i] == FAILED -> live[i] = stab[i]; phase[i] = BACK }
#endif
    /* the agent takes the fleet's stable revision over: it deploys it and promotes it, or sends the verdict held back */
#ifndef NO_CATCH_UP
    :: atomic { known[i] && !line[i] && stab[i] != VSTABLE(i) ->
        RULE_1(VSTABLE(i) == 0 || promoted[VSTABLE(i)]);
        stab[i] = VSTABLE(i); live[i] = stab[i]; att[i] = stab[i]; phase[i] = STEADY }
#else
    :: atomic { known[i] && vstage[i] == SUCCESSFUL && att[i] == vid[i] && phase[i] >= POST && phase[i] <= FAILED ->
        stab[i] = vid[i]; live[i] = stab[i]; phase[i] = STEADY }
#endif
    /* the agent deploys; an older attempt that still runs is aborted first */
    :: atomic { known[i] && !line[i] && HAS_STABLE(i) && SEES_CHANGE(i) && (vstage[i] == DEPLOYING || vstage[i] == PROMOTING) && att[i] != vid[i] ->
        live[i] = stab[i]; att[i] = vid[i]; phase[i] = TESTING;
#ifdef EDGES
        changed[i] = 0;
#endif
        }
    /* the agent decides to promote. Its line is on its way then, also if the agent is gone by the time that it arrives */
    :: atomic { known[i] && !line[i] && IS_FRESH(i) && vstage[i] == PROMOTING && OF_ATTEMPT(i) && phase[i] == PAUSED ->
        line[i] = 1 }
    /* the switch promotes; it refuses the line where it was aborted meanwhile */
    :: atomic { line[i] && phase[i] != PAUSED -> line[i] = 0 }
    :: atomic { line[i] && phase[i] == PAUSED ->
        line[i] = 0;
        RULE_1(promoted[att[i]]);
        RULE_2(!late[att[i]]);
#ifdef STRICT
        RULE_2(!aborted[att[i]]);
#endif
        live[i] = att[i]; phase[i] = POST }
#ifdef ALONE
    :: atomic { !conn[i] && phase[i] == PAUSED -> RULE_1(promoted[att[i]]); live[i] = att[i]; phase[i] = POST }
#endif
    /* the agent aborts: the record's attempt is over, and the switch still runs that one or an older one */
    :: atomic { known[i] && (vstage[i] == ABORTED || vstage[i] == SUCCESSFUL) && RUNS(i) && HAS_STABLE(i) ->
        live[i] = stab[i]; phase[i] = BACK }
    /* faults: the switch, alone or with its agent, and it opens with what the state file names; the agent alone; etcd */
    :: atomic { (i <= crashes || LAST(i)) && crashes < CRASHES -> crashes++;
        stab[i] = VSTABLE(i); live[i] = stab[i]; att[i] = UNKNOWN; phase[i] = STEADY; line[i] = 0;
        if :: known[i] = 0 :: skip fi }
    :: atomic { (i <= crashes || LAST(i)) && crashes < CRASHES && known[i] -> crashes++; known[i] = 0 }
    :: atomic { (i <= CRASHES + cuts || LAST(i)) && cuts < CUTS && conn[i] -> cuts++; conn[i] = 0 }
    /* an agent that has crashed or has lost etcd does not keep its lease */
    :: atomic { (!conn[i] || !known[i]) && HAS_LEASE(i) -> LEASE_ENDS(i) }
#ifndef NEVER_MENDS
    :: atomic { !conn[i] -> conn[i] = 1 }
#endif
    od
}

/* a member whose report is counted: it has a vote, and is not away */
#define VOTES(i) (member[i] && !AWAY(i) && !NO_VOTE(i))
#define SAYS(i, k) (!VOTES(i) || rep[i] == id * 4 + k)
#define HAS_FAILED(i) (member[i] && !NO_VOTE(i) && rep[i] == id * 4 + BAD)
#define IS_MISSING(i) (member[i] && !VOTES(i))
/* a member that does not say so, at the moment of the write */
#define LACKS(i, k) (member[i] && rep[i] != seen_id * 4 + k)
#define STANDS(i, k) (!(counted & (1 << i)) || rep[i] == seen_id * 4 + k)
#if NM == 3
#define ALL(k) (SAYS(0, k) && SAYS(1, k) && SAYS(2, k))
#define MOST(k) ((SAYS(0, k) && SAYS(1, k)) || (SAYS(0, k) && SAYS(2, k)) || (SAYS(1, k) && SAYS(2, k)))
#define ANY_FAILED (HAS_FAILED(0) || HAS_FAILED(1) || HAS_FAILED(2))
#define ANY_VOTES (VOTES(0) || VOTES(1) || VOTES(2))
#define MISSING (IS_MISSING(0) + IS_MISSING(1) + IS_MISSING(2))
#define LACKING(k) (LACKS(0, k) + LACKS(1, k) + LACKS(2, k))
#define ALL_STAND(k) (STANDS(0, k) && STANDS(1, k) && STANDS(2, k))
#define COUNTED (VOTES(0) + 2 * VOTES(1) + 4 * VOTES(2))
#else
#define ALL(k) (SAYS(0, k) && SAYS(1, k))
#define MOST(k) (SAYS(0, k) || SAYS(1, k))
#define ANY_FAILED (HAS_FAILED(0) || HAS_FAILED(1))
#define ANY_VOTES (VOTES(0) || VOTES(1))
#define MISSING (IS_MISSING(0) + IS_MISSING(1))
#define LACKING(k) (LACKS(0, k) + LACKS(1, k))
#define ALL_STAND(k) (STANDS(0, k) && STANDS(1, k))
#define COUNTED (VOTES(0) + 2 * VOTES(1))
#endif
#ifdef MISSING_UNCOUNTED
#define NOT_TOO_MANY true
#else
#define NOT_TOO_MANY (MISSING <= MAX_MISSING)
#endif
#ifdef MAJORITY_READY
#define ALL_READY MOST(READY)
#else
#define ALL_READY (ALL(READY) && ANY_VOTES && NOT_TOO_MANY)
#endif
#ifdef MAJORITY_PASSED
#define ALL_PASSED MOST(OK)
#else
#define ALL_PASSED (ALL(OK) && ANY_VOTES && NOT_TOO_MANY)
#endif
#ifdef ANY_ORDER
#define IS_ORDERED (promote_order != 0)
#else
#define IS_ORDERED (promote_order == id)
#endif
#ifdef PLAN_FIRST
#define IS_DECIDED (!SPOILED)
#else
#define IS_DECIDED true
#endif
#define IS_OVER (stage == SUCCESSFUL || stage == ABORTED)
#define HAS_OTHER_PLAN (plan != id && !SPOILED)
#define WANT (!IS_DECIDED -> 0 : (IS_OVER -> (HAS_OTHER_PLAN -> BEGIN : 0) : \
    ((HAS_OTHER_PLAN || abort_order == id || ANY_FAILED) -> ABORT : \
    ((stage == DEPLOYING && ALL_READY && (!BY_HAND || IS_ORDERED)) -> PROMOTE : \
    ((stage == PROMOTING && ALL_PASSED) -> SUCCEED : (OVERDUE -> ABORT : 0))))))

/* what its transaction compares */
#ifdef NO_LEADER_COMPARE
#define LEADS true
#else
#define LEADS (holder == me && epoch == mine)
#endif
#ifdef NO_ATTEMPT_COMPARE
#define SAME_ATTEMPT true
#else
#define SAME_ATTEMPT (id == seen_id && stage == seen_stage)
#endif
#ifdef NO_PLAN_COMPARE
#define SAME_PLAN true
#else
#define SAME_PLAN (plan == seen_plan && SPOILED == seen_spoiled)
#endif
#ifdef NO_ORDER_COMPARE
#define SAME_ORDER true
#else
#define SAME_ORDER (aborts == seen_aborts)
#endif
#if defined(NO_REPORT_COMPARE) || defined(MAJORITY_READY) || defined(MAJORITY_PASSED) || defined(NO_ATTEMPT_COMPARE)
#define SAME_REPORTS true
#else
#define SAME_REPORTS ((want != PROMOTE || ALL_STAND(READY)) && (want != SUCCEED || ALL_STAND(OK)))
#endif
#ifdef NO_MEMBERS_COMPARE
#define SAME_MEMBERS true
#else
#define SAME_MEMBERS (additions == seen_additions)
#endif
#define UNCHANGED (SAME_ATTEMPT && SAME_PLAN && SAME_REPORTS && SAME_MEMBERS && SAME_ORDER)

/* reports of other attempts decide nothing */
#if NM == 3
#define FORGET rep[0] = 0; rep[1] = 0; rep[2] = 0
#else
#define FORGET rep[0] = 0; rep[1] = 0
#endif

proctype Leader(byte me) {
    byte mine = 0;      /* the create revision of its key */
    bit leads = 0;      /* whether it believes so */
    byte want = 0, seen_id = 0, seen_stage = 0, seen_plan = 0, seen_additions = 0, seen_aborts = 0;
    bit seen_spoiled = 0;
    byte counted = 0;   /* the machines whose reports the decision counts, a bit for each */
#if MAX_MISSING
    byte j;
#endif
    do
    :: atomic { !leads && holder == 0 && (me == 1 || epoch > 0) -> epoch++; holder = me; mine = epoch; leads = 1 }
    /* one read of all keys, and a decision */
    :: atomic { leads && want == 0 && WANT != 0 ->
        want = WANT; seen_id = id; seen_stage = stage; seen_plan = plan; seen_additions = additions; seen_aborts = aborts;
        seen_spoiled = SPOILED;
        if :: want == PROMOTE || want == SUCCEED -> counted = COUNTED :: else fi }
    /* the transaction */
    :: atomic { want != 0 ->
        if
        :: !LEADS -> leads = 0; mine = 0
        :: LEADS && !UNCHANGED -> skip
        :: LEADS && UNCHANGED ->
            RULE_3(holder == me && epoch == mine && mine >= last_writer);
            last_writer = mine;
#ifdef LAGGING_READS
            id_before = id; stage_before = stage; stable_before = stable;
#endif
            if
            :: want == BEGIN ->
                stable = (seen_stage == SUCCESSFUL -> seen_id : stable); id = seen_plan; stage = DEPLOYING; FORGET;
#if MAX_MISSING
                j = 0;
                do :: j < NM -> no_vote[j] = 0; j++ :: else -> break od;
                j = 0
#endif
            :: want == PROMOTE ->
                RULE_1(LACKING(READY) <= MAX_MISSING);
                RULE_1(!BY_HAND || ordered[seen_id]);
                RULE_2(!aborted[seen_id]);
                RULE_3(SPOILED || plan == seen_id);
                RULE_7(abort_order != seen_id);
#if MAX_MISSING
                j = 0;
                do :: j < NM -> no_vote[j] = member[j] && !(counted & (1 << j)); j++ :: else -> break od;
                j = 0;
#endif
                id = seen_id; stage = PROMOTING; promoted[seen_id] = 1
            :: want == SUCCEED ->
                RULE_2(!aborted[seen_id]);
                RULE_6(LACKING(OK) <= MAX_MISSING);
                RULE_7(abort_order != seen_id);
                id = seen_id; stage = SUCCESSFUL
            :: want == ABORT -> id = seen_id; stage = ABORTED; aborted[seen_id] = 1
            fi
        fi;
        want = 0; seen_id = 0; seen_stage = 0; seen_plan = 0; seen_additions = 0; seen_aborts = 0; seen_spoiled = 0;
        counted = 0 }
    /* it learns that its lease has ended */
    :: atomic { leads && want == 0 && (holder != me || epoch != mine) -> leads = 0; mine = 0 }
    od
}

#define IS_OLD(i) old[i] = (vstage[i] == PROMOTING); LINE_IS_LATE(i)

proctype World() {
    do
#if SPOILS
    :: atomic { plan < PLANS -> plan++; spoiled = 0 }
    :: atomic { plan > 0 && !spoiled && spoils < SPOILS -> spoils++; spoiled = 1 }
    :: atomic { stage == PROMOTING && overdue != id -> overdue = id }
#else
    :: atomic { plan < PLANS -> plan++ }
#endif
    :: atomic { expiries < EXPIRIES && holder != 0 -> expiries++; holder = 0 }
    :: atomic { aborts < ABORTS && !IS_OVER && abort_order != id -> aborts++; abort_order = id }
#if BY_HAND
    :: atomic { stage == DEPLOYING && promote_order != id -> promote_order = id; ordered[id] = 1 }
#endif
#if REMOVALS
    :: atomic { removals < REMOVALS && member[NM - 1] -> removals++; member[NM - 1] = 0 }
#endif
#if ADDITIONS
    :: atomic { additions < ADDITIONS && !member[NM - 1] -> additions++; member[NM - 1] = 1 }
#endif
    /* a second passes after an `aborted`: each read that was made before it is older */
    :: atomic { (aborted[1] && !late[1]) || (aborted[2] && !late[2]) ->
        late[1] = aborted[1]; late[2] = aborted[2];
        IS_OLD(0); IS_OLD(1);
#if NM == 3
        IS_OLD(2)
#endif
        }
    od
}

init {
    byte k = 0;
    atomic {
        do
        :: k < NM -> conn[k] = 1; member[k] = (k < NM - 1 || ADDITIONS <= REMOVALS); known[k] = 1; vstage[k] = SUCCESSFUL;
            run Machine(k); k++
        :: else -> break
        od;
        k = 0;
        run Leader(1); run Leader(2); run World()
    }
}

/* an LTL formula takes no conditional expression */
#define SAME(i) (((stage == SUCCESSFUL && live[i] == id && stab[i] == id) || \
    (stage != SUCCESSFUL && live[i] == stable && stab[i] == stable)) && !RUNS(i))
#if NM == 3
#define AGREE (plan == PLANS && id == plan && IS_OVER && SAME(0) && SAME(1) && SAME(2))
#define OTHERS_AGREE (plan == PLANS && id == plan && IS_OVER && SAME(1) && SAME(2))
#define NONE_FAILED (phase[0] != FAILED && phase[1] != FAILED && phase[2] != FAILED)
#else
#define AGREE (plan == PLANS && id == plan && IS_OVER && SAME(0) && SAME(1))
#define OTHERS_AGREE (plan == PLANS && id == plan && IS_OVER && SAME(1))
#define NONE_FAILED (phase[0] != FAILED && phase[1] != FAILED)
#endif
#ifdef LTL_4
ltl rule_4 { <>[] AGREE }
#endif
#ifdef LTL_MISSING      /* with NEVER_MENDS: the others go on without machine 0 */
ltl missing { <>[] OTHERS_AGREE }
#endif
#ifdef LTL_8            /* whatever the plan's key holds: no attempt stays promoting, and one whose abort was ordered ends */
ltl rule_8 { <>[] (stage != PROMOTING && (abort_order != id || IS_OVER)) }
#endif
#ifdef LTL_6
ltl rule_6 { <>[] NONE_FAILED }
#endif
