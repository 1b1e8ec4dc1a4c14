/* One repetition of the script: its phases, the tickets of its calls, and how the callers meet. */
#define _GNU_SOURCE
#include "race.h"

#include <limits.h>
#include <linux/futex.h>
#include <sched.h>
#include <stdlib.h>
#include <string.h>
#include <sys/syscall.h>
#include <time.h>
#include <unistd.h>

#define SPINS 500			/* before a waiting thread yields */
#define YIELDS 200			/* before it sleeps */

static uint64_t ticket;
static int turn;			/* how many calls were made alone, and one more once those together have ended */
static int arrived[MAX_CALLS];		/* how many callers are at the barrier of a round */
static int ended_together;

static uint64_t now(void)
{
	struct timespec time;

	clock_gettime(CLOCK_MONOTONIC, &time);
	return time.tv_sec * 1000000000ull + time.tv_nsec;
}

static uint64_t drawn(void)
{
	me->random ^= me->random << 13;
	me->random ^= me->random >> 7;
	me->random ^= me->random << 17;
	return me->random;
}

/* A waiting thread sleeps, so that the others have the processors. */
static void wait_for(int *counter, int wanted)
{
	int found;

	while (found = __atomic_load_n(counter, __ATOMIC_ACQUIRE), found < wanted)
		syscall(SYS_futex, counter, FUTEX_WAIT_PRIVATE, found, NULL, NULL, 0);
}

static void advance(int *counter)
{
	__atomic_fetch_add(counter, 1, __ATOMIC_SEQ_CST);
	syscall(SYS_futex, counter, FUTEX_WAKE_PRIVATE, INT_MAX, NULL, NULL, 0);
}

/* The callers of a round go on at nearly the same time: one that sleeps would be late, so it spins first. */
static void meet_others(int *counter, int wanted)
{
	if (__atomic_add_fetch(counter, 1, __ATOMIC_SEQ_CST) == wanted) {
		syscall(SYS_futex, counter, FUTEX_WAKE_PRIVATE, INT_MAX, NULL, NULL, 0);
		return;
	}
	for (int spins = 0; spins < SPINS + YIELDS && __atomic_load_n(counter, __ATOMIC_ACQUIRE) < wanted; spins++)
		if (spins >= SPINS)
			sched_yield();
	wait_for(counter, wanted);
}

/* Waits for the others at the beginning, and in rounds before each call; else for a drawn time before
 * every other call. */
static void meet(const struct call *call)
{
	wait_for(&turn, script.alone_before);
	if (script.rounds || call->position == 0)
		meet_others(&arrived[call->position], script.in_round[call->position]);
	if (!script.rounds && script.max_pause_ns && drawn() % 2) {
		uint64_t until = now() + drawn() % script.max_pause_ns;

		while (now() < until)
			;
	}
}

/* The tickets are one counter's: a call whose end is below another's begin ended before that one began. */
static void make_with_tickets(struct call *call)
{
	char buffer[MAX_REPLY];

	begin_reply(buffer, sizeof buffer);
	call->begin_ns = now();
	call->begin = __atomic_fetch_add(&ticket, 1, __ATOMIC_SEQ_CST);
	make_call(call);
	call->end = __atomic_fetch_add(&ticket, 1, __ATOMIC_SEQ_CST);
	call->end_ns = now();
	call->reply = strdup(buffer);
}

/* The thread of a caller is its user; root is the saved user, which it becomes for a moment where a call
 * needs it. */
static void *serve(void *argument)
{
	me = argument;
	if (syscall(SYS_setgroups, 0, NULL) || syscall(SYS_setresgid, me->user, me->user, me->user) ||
	    syscall(SYS_setresuid, 0, me->user, 0))
		abort();
	for (int i = 0; i < me->calls_count; i++) {
		struct call *call = &me->calls[i];

		if (call->phase == BEFORE)
			wait_for(&turn, call->position);
		else if (call->phase == TOGETHER)
			meet(call);
		else
			wait_for(&turn, script.alone_before + 1 + call->position);
		make_with_tickets(call);
		advance(call->phase == TOGETHER ? &ended_together : &turn);
	}
	return NULL;
}

void run_callers(uint64_t repeat)
{
	turn = ended_together = 0;
	ticket = 0;
	memset(arrived, 0, sizeof arrived);
	for (int i = 0; i < script.callers_count; i++) {
		struct caller *caller = &script.callers[i];

		caller->opened = 0;
		caller->random = (script.seed + 1) * 0x9E3779B97F4A7C15ull + repeat * 1000003 + i * 7919 + 1;
		if (pthread_create(&caller->thread, NULL, serve, caller))
			abort();
	}
	wait_for(&turn, script.alone_before);
	wait_for(&ended_together, script.together);
	remove_unclaimed_keys();	/* what nothing holds any more, before the calls after */
	advance(&turn);
	for (int i = 0; i < script.callers_count; i++)
		pthread_join(script.callers[i].thread, NULL);
}
