/* The rules of offices, which are those of the drinking philosophers of Chandy and Misra, for three offices in a ring: each two
   of them are neighbours and share one fork and one record, whose bottle has its value. Offices do the twelve rules and take
   messages in any order: nothing here is fair.

   What is modelled: where forks, bottles and their request tokens are, which messages are on the way, and how far each
   office is with its sessions. What isn't: values, and frames. A way hands on each message once and in order, as numbers,
   counts and sending again make it of frames that get lost, repeated and reordered.

   What is searched for: a state in which nothing can be done and a session is left (an invalid end state), an assertion
   that fails, and a run in which a session is never over (the claim at the end). The script `check` beside this file says
   with which sessions, and hands in one at a time the wrong rules, of which each has to be refused. By hand:

     spin -a offices.pml && cc -O2 -o pan pan.c && ./pan -a -m100000 */

/* The sessions of each office, the next one in the lowest two bits: it needs the record shared with the neighbour to the
   left (1), to the right (2), or both (3). Where all bits are 0 none is left. */
#ifndef SESSIONS_0
#define SESSIONS_0 3
#define SESSIONS_1 3
#define SESSIONS_2 0
#endif

/* Each pair has two ends, 2p and 2p + 1: the pair of the offices 0 and 1 the ends 0 and 1, that of 1 and 2 the ends 2 and 3,
   that of 0 and 2 the ends 4 and 5. */
#define ACROSS(end) (end ^ 1)

mtype = { ask_fork, the_fork, ask_bottle, the_bottle };

/* What an end sent and the other hasn't taken. Each of the four is in one place, so no way has more. */
chan way[6] = [4] of { mtype };

/* What an end has. A fork is clean from when it comes until its office eats; who has a request token may ask by sending it. */
bit fork[6], clean[6], fork_token[6], bottle[6], bottle_token[6];

/* An office is hungry while it waits for its forks, and eats once it has all: then it comes last, as its forks are no longer clean. */
#define THINKING 0
#define HUNGRY 1
#define EATING 2
byte dining[3];

/* The current session: thirsty while it waits for bottles, drinking once it has all that it needs. */
#define NO_SESSION 0
#define THIRSTY 1
#define DRINKING 2
#define WORKED 3
byte session[3];

/* What the current session needs, and the sessions that wait. */
byte needs[3], waiting[3];

/* Printed of a run that is refused. */
#define DOES(what) printf(what, me)

#define IS_OVER(a) (session[a] == NO_SESSION && waiting[a] == 0)
#define ALL_OVER (IS_OVER(0) && IS_OVER(1) && IS_OVER(2))

/* The guards on which it rests that each run ends and that neighbours don't eat at once, each with what it is in a wrong rule. */
#ifdef MESSAGES_OVERTAKE
#define FIRST ??
#else
#define FIRST ?
#endif

#ifdef GUARDED_BOTTLE_IS_GIVEN
#define IS_GUARDED(end) false
#else
#define IS_GUARDED(end) fork[end]
#endif

#ifdef CLEAN_FORK_IS_GIVEN
#define IS_USED(end) true
#else
#define IS_USED(end) !clean[end]
#endif

#ifdef LEAVES_THIRSTY
#define HAS_DRUNK true
#else
#define HAS_DRUNK session[me] != THIRSTY
#endif

#ifdef EATS_WITH_ONE_FORK
#define HAS_FORKS (fork[left] || fork[right])
#else
#define HAS_FORKS (fork[left] && fork[right])
#endif

#ifdef BOTTLE_ASKED_UNNEEDED
#define WANTS(record) true
#else
#define WANTS(record) (session[me] == THIRSTY && (needs[me] & record))
#endif

/* The rules of an office towards one neighbour, and the messages that come from there: a thing that comes is at neither end,
   and a request comes to where the thing is. */
#define TOWARDS(end, record) \
  :: atomic { dining[me] == HUNGRY && !fork[end] && fork_token[end] -> fork_token[end] = 0; way[end] ! ask_fork; DOES("office %d: askfork\n") } \
  :: atomic { fork[end] && fork_token[end] && dining[me] != EATING && IS_USED(end) -> \
       fork[end] = 0; clean[end] = 0; way[end] ! the_fork; DOES("office %d: givefork\n") } \
  :: atomic { WANTS(record) && !bottle[end] && bottle_token[end] -> bottle_token[end] = 0; way[end] ! ask_bottle; DOES("office %d: askbottle\n") } \
  :: atomic { bottle[end] && bottle_token[end] && !((needs[me] & record) && (session[me] >= DRINKING || IS_GUARDED(end))) -> \
       bottle[end] = 0; way[end] ! the_bottle; DOES("office %d: givebottle\n") } \
  :: atomic { way[ACROSS(end)] FIRST ask_fork -> \
       assert(fork[end] && !fork_token[ACROSS(end)]); fork_token[end] = 1; DOES("office %d: takes a request for a fork\n") } \
  :: atomic { way[ACROSS(end)] FIRST the_fork -> \
       assert(!fork[end] && !fork[ACROSS(end)]); fork[end] = 1; clean[end] = 1; DOES("office %d: takes a fork\n") } \
  :: atomic { way[ACROSS(end)] FIRST ask_bottle -> \
       assert(bottle[end] && !bottle_token[ACROSS(end)]); bottle_token[end] = 1; DOES("office %d: takes a request for a bottle\n") } \
  :: atomic { way[ACROSS(end)] FIRST the_bottle -> \
       assert(!bottle[end] && !bottle[ACROSS(end)]); bottle[end] = 1; DOES("office %d: takes a bottle\n") }

proctype office(byte me; byte left; byte right)
{
  do
  :: atomic { session[me] == NO_SESSION && waiting[me] != 0 ->
       session[me] = THIRSTY; needs[me] = waiting[me] & 3; waiting[me] = waiting[me] >> 2; DOES("office %d: start\n") }
  :: atomic { dining[me] == THINKING && session[me] == THIRSTY -> dining[me] = HUNGRY; DOES("office %d: hungry\n") }
  :: atomic { dining[me] == HUNGRY && HAS_FORKS ->
       assert(dining[(me + 1) % 3] != EATING && dining[(me + 2) % 3] != EATING);
       dining[me] = EATING; clean[left] = 0; clean[right] = 0; DOES("office %d: eat\n") }
  :: atomic { dining[me] == EATING && HAS_DRUNK -> dining[me] = THINKING; DOES("office %d: leave\n") }
  :: atomic { session[me] == THIRSTY && (bottle[left] || !(needs[me] & 1)) && (bottle[right] || !(needs[me] & 2)) ->
       session[me] = DRINKING; DOES("office %d: drink\n") }
  :: atomic { session[me] == DRINKING -> session[me] = WORKED; DOES("office %d: work\n") }
  :: atomic { session[me] == WORKED -> session[me] = NO_SESSION; needs[me] = 0; DOES("office %d: finish\n") }
#ifdef WITHDRAWALS
  :: atomic { session[me] == THIRSTY -> session[me] = NO_SESSION; needs[me] = 0; DOES("office %d: withdraw\n") }
  :: atomic { waiting[me] != 0 -> waiting[me] = waiting[me] >> 2; DOES("office %d: withdraw\n") }
#endif
  TOWARDS(left, 1)
  TOWARDS(right, 2)
  :: ALL_OVER -> break
  od
}

/* A fork or a bottle starts at one end of its pair, and its request token at the other. */
#define STARTS(thing, token, end) thing[end] = 1; token[ACROSS(end)] = 1

#ifdef BOTTLES_WITH_FORKS
#define BOTTLE_STARTS(here) STARTS(bottle, bottle_token, here)
#else
#define BOTTLE_STARTS(here) if :: STARTS(bottle, bottle_token, here) :: STARTS(bottle, bottle_token, ACROSS(here)) fi
#endif

bool begun;

init {
  atomic {
    /* Who hasn't the fork of a pair precedes who has it: the office 0 both others, and 1 precedes 2. All forks have been used. */
    STARTS(fork, fork_token, 1); STARTS(fork, fork_token, 3);
#ifdef PRECEDENCE_IS_A_RING
    STARTS(fork, fork_token, 4);
#else
    STARTS(fork, fork_token, 5);
#endif
    BOTTLE_STARTS(1); BOTTLE_STARTS(3); BOTTLE_STARTS(5);
    waiting[0] = SESSIONS_0; waiting[1] = SESSIONS_1; waiting[2] = SESSIONS_2;
    begun = true;
    run office(0, 4, 0); run office(1, 1, 2); run office(2, 3, 5)
  }
}

/* In each run there comes a state in which no session is left. */
ltl all_are_over { <> (begun && ALL_OVER) }
