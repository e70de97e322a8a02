/*
 * workload - the guest's tasks, one small program.
 *   workload NAME run TIMES GAP_MS TEXT..    write each TEXT to /proc/klpbox/run
 *   workload NAME onclose TEXT               leave an open file behind that runs TEXT
 *   workload NAME spin                       stay in user space
 *   workload NAME calls GAP_MS               a system call, then a sleep
 *   workload NAME fork MB TIMES GAP_MS [TEXT]  touch MB, then fork TIMES children;
 *                                     each runs TEXT (if given) and ends
 *   workload NAME forkspin MS [TEXT]      fork, then stay in user space for MS, at a
 *                                     real time priority: the child can't run
 *   workload NAME zombie                  leave a child unreaped
 *   workload NAME threads N GAP_MS TEXT   N threads that write TEXT again and again
 *   workload NAME sample MS PID..            patch_state of each PID every MS
 *   workload NAME go KEY | workload NAME kth TEXT
 * CPU=n in the environment pins it.  TIMES 0 means for ever.
 */
#define _GNU_SOURCE
#include <errno.h>
#include <fcntl.h>
#include <pthread.h>
#include <sched.h>
#include <signal.h>
#include <stdio.h>
#include <stdlib.h>
#include <string.h>
#include <sys/mman.h>
#include <sys/prctl.h>
#include <sys/syscall.h>
#include <sys/time.h>
#include <sys/wait.h>
#include <time.h>
#include <unistd.h>

static void nap(long ms)
{
	struct timespec t = { ms / 1000, (ms % 1000) * 1000000 };

	if (ms > 0)
		nanosleep(&t, NULL);
}

static int put(const char *file, const char *text)
{
	int f = open(file, O_WRONLY), r;

	if (f < 0)
		return -1;
	r = write(f, text, strlen(text));
	close(f);
	return r;
}

static void sample(int ms, char **pid)
{
	int m = open("/sys/kernel/tracing/trace_marker", O_WRONLY);
	char name[64], got[16], line[96];

	for (;;) {
		for (char **p = pid; *p; p++) {
			snprintf(name, sizeof name, "/proc/%s/patch_state", *p);
			snprintf(line, sizeof line, "PS> %s", *p);
			write(m, line, strlen(line));
			int f = open(name, O_RDONLY), n = -1;
			if (f >= 0) {
				n = read(f, got, sizeof got - 1);
				close(f);
			}
			if (n > 0 && got[n - 1] == '\n')
				n--;
			got[n > 0 ? n : 0] = 0;
			snprintf(line, sizeof line, "PS< %s %s", *p, n > 0 ? got : "none");
			write(m, line, strlen(line));
		}
		nap(ms);
	}
}

static char **args;

static void *thread(void *unused)
{
	for (;;) {
		put("/proc/klpbox/run", args[5]);
		nap(atol(args[4]));
	}
	return unused;
}

static volatile sig_atomic_t rang;

static void ring(int sig)
{
	rang = sig;
}

/* Without a system call in between; this guest reads its clock by one. */
static void spin_ms(long ms)
{
	struct itimerval t = { .it_value = { ms / 1000, (ms % 1000) * 1000 } };

	rang = 0;
	signal(SIGALRM, ring);
	setitimer(ITIMER_REAL, &t, NULL);
	while (!rang)
		;
}

int main(int n, char **v)
{
	char *cpu = getenv("CPU");

	if (n < 3)
		return 2;
	prctl(PR_SET_NAME, v[1]);
	if (cpu) {
		cpu_set_t s;

		CPU_ZERO(&s);
		CPU_SET(atoi(cpu), &s);
		sched_setaffinity(0, sizeof s, &s);
	}
	if (!strcmp(v[2], "run")) {
		long times = atol(v[3]), gap = atol(v[4]);

		for (long k = 0; !times || k < times; k++)
			for (int i = 5; i < n; i++) {
				put("/proc/klpbox/run", v[i]);
				nap(gap);
			}
	} else if (!strcmp(v[2], "onclose")) {
		int f = open("/proc/klpbox/onclose", O_WRONLY);

		write(f, v[3], strlen(v[3]));
	} else if (!strcmp(v[2], "spin")) {
		for (volatile long k = 0;; k++)
			;
	} else if (!strcmp(v[2], "calls")) {
		for (;;) {
			syscall(SYS_getppid);
			nap(atol(v[3]));
		}
	} else if (!strcmp(v[2], "fork")) {
		size_t big = atol(v[3]) << 20;
		long times = atol(v[4]);
		char *m = mmap(NULL, big ? big : 4096, PROT_READ | PROT_WRITE,
			       MAP_PRIVATE | MAP_ANONYMOUS, -1, 0);

		madvise(m, big, MADV_NOHUGEPAGE);
		for (size_t k = 0; k < big; k += 4096)
			m[k] = 1;
		for (long k = 0; !times || k < times; k++) {
			pid_t c = fork();

			if (!c) {
				prctl(PR_SET_NAME, "child");
				if (n > 6)
					put("/proc/klpbox/run", v[6]);
				_exit(0);
			}
			waitpid(c, NULL, 0);
			nap(atol(v[5]));
		}
	} else if (!strcmp(v[2], "forkspin")) {
		struct sched_param fifo = { .sched_priority = 1 };

		sched_setscheduler(0, SCHED_FIFO, &fifo);
		for (;;) {
			pid_t c = fork();

			if (!c) {
				prctl(PR_SET_NAME, "newborn");
				if (n > 4)
					put("/proc/klpbox/run", v[4]);
				_exit(0);
			}
			spin_ms(atol(v[3]));
			waitpid(c, NULL, 0);
			nap(150);
		}
	} else if (!strcmp(v[2], "zombie")) {
		if (!fork()) {
			prctl(PR_SET_NAME, "corpse");
			_exit(0);
		}
		for (;;)
			pause();
	} else if (!strcmp(v[2], "threads")) {
		pthread_t t;

		args = v;
		for (long k = 0; k < atol(v[3]); k++)
			pthread_create(&t, NULL, thread, NULL);
		for (;;)
			pause();
	} else if (!strcmp(v[2], "sample")) {
		sample(atol(v[3]), v + 4);
	} else if (!strcmp(v[2], "go")) {
		put("/proc/klpbox/go", v[3]);
	} else if (!strcmp(v[2], "kth")) {
		put("/proc/klpbox/kth", v[3]);
	} else {
		return 2;
	}
	return 0;
}
